"""What a node is started with: by its command line, by a file of settings, at a
socket for reads."""

import os
import re
import stat
import subprocess

from field import case
from node import asked, member, shown, size
from talk import Control
from waiting import LIMIT, expect, expect_that


# What a file of settings may not say, and what is said of it.
FAULTS_OF_SETTINGS = (
    ("\nentris = 5\n", "line 2: no such option: entris"),
    ('entries = "5"\n', "line 1: not a whole number: entries"),
    ("cookie = 5\n", "line 1: not a text between quotes: cookie"),
    ("allow = 'b@h'\n", "line 1: not a list of texts"),
    ("allow = [1]\n", "line 1: not a list of texts"),
    ("allow = []\n", "line 1: an empty list would let all peers in: allow"),
    ("control-mode = 0660\n", "line 1: "),
    ("hidden = 1\n", "line 1: not true or false: hidden"),
    ("[listen]\n", "line 1: not a text"),
    ("a = 1\nb\n", "line 2: "),
    ("entries = 5\n", "entries"),
    ("listen = 'nowhere'\n", "--listen"),
)


def write(file, text):
    with open(file, "w", encoding="utf-8") as settings:
        settings.write(text)


def run_node(field, *words, **streams):
    """What a node comes to that is run with these words, on these streams."""
    return subprocess.run(
        [field.program, *words], capture_output=True, timeout=LIMIT, check=False, **streams
    )


def errors_of(done):
    return [line for line in done.stderr.decode().splitlines() if line.startswith("error")]


@case
def settings_in_a_file(field):
    """`--config` says options by their names; the command line goes first; what is wrong in the
    file is told with its line."""
    cookie = field.cookie_file(mode=0o450)
    file = os.path.join(field.folder, "node.toml")
    write(
        file,
        f'# a node\ncookie-file = "{cookie}"\ncreation = 5\nentries = 128\n'
        'allow = ["b@h", "c@h"]\nhidden = true\nlog-level = "warn"\n',
    )
    done = run_node(
        field, "--config", file, "--creation", "6", "--", "a@h", input=b"self\nallowed\nstatus\n"
    )
    lines = done.stdout.decode().splitlines()
    expect("what it says", ["self a@h 6", "allowed b@h c@h"], lines[:2])
    expect_that(
        "/128 " in lines[2] and b" info " not in done.stderr,
        "its entries and its level",
        (lines, done.stderr),
    )
    write(file, f'cookie-file = "{cookie}"\nallow = ["b@h"]\n')
    done = run_node(
        field, "a@h", "--config", file, "--cookie", "c", "--allow", "d@h", input=b"allowed\n"
    )
    expect("who is allowed by the command line", b"allowed d@h\n", done.stdout)
    faults_of_settings(field, file, cookie)
    done = run_node(
        field, "a@h", "--config", file + ".none", "--cookie", "c", stdin=subprocess.DEVNULL
    )
    expect("the status without the file", 1, done.returncode)
    cookie_among_settings(field, file)


def faults_of_settings(field, file, cookie):
    """That what is wrong in a file is one error, and the node isn't run."""
    whole_file = ("'entris' = 5\n", f"{shown(file)}: no such option: entris")
    for text, fault in (*FAULTS_OF_SETTINGS, whole_file):
        write(file, text)
        done = run_node(
            field, "a@h", "--config", file, "--cookie-file", cookie, stdin=subprocess.DEVNULL
        )
        said = errors_of(done)
        expect(f"the status of {text!r}", 2, done.returncode)
        expect_that(len(said) == 1 and fault in said[0], fault, said)


def cookie_among_settings(field, file):
    """That a file with a cookie may be read by its group; not written by it, or read by others."""
    write(file, 'cookie = "c"\n')
    open_to_others = (
        f"error: --config: {shown(file)}: line 1: others can read this file,"
        " or its group write it (chmod 600): cookie"
    )
    for mode, said in ((0o644, [open_to_others]), (0o660, [open_to_others]), (0o640, [])):
        os.chmod(file, mode)
        done = run_node(field, "a@h", "--config", file, stdin=subprocess.DEVNULL)
        expect(f"what is said of a cookie in a file of mode {mode:o}", said, errors_of(done))
        expect(f"the status with one of mode {mode:o}", 2 if said else 0, done.returncode)


@case
def modes_of_files(field):
    """The control socket has the mode of `--control-mode`, the socket for reads that of
    `--control-read-mode`; a file of a cookie may be read by its group, and by nobody else."""
    reading = os.path.join(field.folder, "reading")
    a = field.node(
        "a@h", "--control-mode", "0666", "--control-read", reading, "--control-read-mode", "640"
    )
    expect(
        "modes",
        [0o666, 0o640],
        [stat.S_IMODE(os.stat(path).st_mode) for path in (a.control_path, reading)],
    )
    b = field.node("b@h", "--control-read", reading + ".b")
    expect(
        "usual modes",
        [0o600, 0o660],
        [stat.S_IMODE(os.stat(path).st_mode) for path in (b.control_path, reading + ".b")],
    )
    b.quit()
    expect_that(not os.path.exists(reading + ".b"), "no socket for reads behind the end", reading)
    for words in (
        ("--control-mode", "0888"),
        ("--control-mode", "1777"),
        ("--control-mode", "rw"),
        ("--http", "localhost:80"),
        ("--http", "0.0.0.0:0"),
        ("--http", "127.0.0.1"),
    ):
        wrong = field.start("w@h", *words, control=False, port=None)
        expect(f"the status of {words}", 2, wrong.status())
    modes_of_a_cookie(field)
    page_for_anybody(field)


def modes_of_a_cookie(field):
    """With which modes of its file a cookie is taken, and with which the status is 1."""
    for mode, wanted in (
        (0o600, 0),
        (0o400, 0),
        (0o440, 0),
        (0o640, 0),
        (0o644, 1),
        (0o660, 1),
        (0o604, 1),
        (0o620, 1),
    ):
        path = field.cookie_file(cookie=f"cookie{mode}", mode=mode)
        done = run_node(field, "m@h", "--cookie-file", path, stdin=subprocess.DEVNULL)
        expect(f"the status with a cookie of mode {mode:o}", wanted, done.returncode)


def page_for_anybody(field):
    """That a page is served at any address where `--http-anywhere` says so."""
    any_address = field.start(
        "c@h", "--http", "0.0.0.0:0", "--http-anywhere", control=False, port=None
    )
    expect_that(
        any_address.next_answer("its address").startswith("http 0.0.0.0:"),
        "any address, where it may",
        "none",
    )


@case
def socket_for_reads(field):
    """At the socket of `--control-read` all that reads and watches is answered as ever, and nothing
    else is: no entry but those of monitors."""
    reading = os.path.join(field.folder, "reading")
    a = field.node("a@h", "--control-read", reading)
    pid = member(a)
    reader = field.keep(Control(reading))
    before = size(a)
    refused_to_a_reader(reader, pid)
    for line, answer in (
        ("members pg g", f"pids {pid}"),
        ("groups pg", "groups g"),
        ("nodes", "nodes"),
        ("self", a.ask("self")),
        ("scopes", "scopes pg"),
        ("dials", "dials"),
        ("links", "links"),
        ("allowed", "allowed"),
        ("refusals", "refusals"),
        ("size", f"size {before}"),
        ("audit 1", a.ask("audit 1")),
    ):
        asked(reader, line, answer)
    expect_that(reader.ask("help").startswith("help "), "help", "none")
    expect_that(
        reader.ask("dance").startswith("fault no such command"), "a fault of a line", "none"
    )
    expect("the size of the audit", before, size(a))
    watch = reader.ask("monitor_scope pg")
    expect_that(watch.startswith("ref "), "a monitor", watch)
    asked(a, f"join pg h {pid}")
    reader.told(r"! join \d+ h 1 .*")
    asked(reader, f"demonitor {watch.split()[1]}")


def refused_to_a_reader(reader, pid):
    """That what would change anything, or end the node, is refused there."""
    for line in (
        "cookie c",
        "cookie_for b@h c",
        "allow b@h",
        "start s",
        "stop pg",
        "spawn",
        f"exit {pid}",
        f"join pg g {pid}",
        f"leave pg g {pid}",
        "disconnect b@h",
        "dial b@h=h:1",
        "undial b@h",
        "drain",
        "quit",
    ):
        asked(reader, line, "fault this socket takes reads and monitors alone")


@case
def seat_for_the_operator(field):
    """Who may only read doesn't take the last seat of a node: at the other socket, if there is
    one, it is left."""
    path = os.path.join(field.folder, "reads")
    a = field.node("a@h", "--clients", "2", "--control-read", path)
    reader = field.keep(Control(path))
    asked(reader, "self", a.ask("self"))
    refused = field.keep(Control(path))
    expect("what a second reader is told", "fault full", refused.next_answer("a refusal"))
    asked(field.control(a), "drain")
    expect("the status", 0, a.status())
    field.node("b@h", "--clients", "1", "--control-read", f"{path}.b", control=False)
    asked(field.keep(Control(f"{path}.b")), "nodes", "nodes")


@case
def usual_values(field):
    """What `--help` has as the usual values is what a node runs with."""
    done = run_node(field, "--help", stdin=subprocess.DEVNULL)
    usual = dict(re.findall(r"--([a-z]+) <.*\[default: (\w+)\]", done.stdout.decode()))
    status = field.node("a@h").ask("status")
    for option, word in (("entries", "kept"), ("clients", "clients")):
        expect(
            f"the usual --{option}", usual.get(option), re.search(rf" {word}=\d+/(\d+)", status)[1]
        )


@case
def faults_of_the_command_line(field):
    """A fault of the command line is told in plain words, with a status that isn't 0, and
    nothing is served."""
    readable = field.cookie_file(mode=0o644)
    two_lines = field.cookie_file(cookie="one\ntwo\n")
    cases = [
        ["a@h"],
        ["a@h", "--cookie-file", two_lines],
        ["nobody", "--cookie", "c"],
        ["a@h", "--cookie", ""],
        ["a@h", "--cookie", "c", "--dial", "b@h"],
        ["a@h", "--cookie", "c", "--listen", "nowhere"],
        ["a@h", "--cookie", "c", "--creation", "0"],
        ["a@h", "--cookie", "c", "--ticktime", "soon"],
        ["a@h", "--cookie", "c", "--links", "3"],
        ["a@h", "--cookie-file", readable],
        ["a@h", "--cookie-file", os.path.join(field.folder, "none")],
        ["a@h", "--cookie", "c", "--unknown"],
    ]
    for words in cases:
        done = run_node(field, *words, stdin=subprocess.DEVNULL)
        expect_that(done.returncode in (1, 2), f"status 1 or 2 for {words}", done.returncode)
        expect_that(
            done.stderr != b"" and b"panicked" not in done.stderr and b"Err(" not in done.stderr,
            f"plain words for {words}",
            done.stderr,
        )
        expect(f"standard output for {words}", b"", done.stdout)


@case
def options_that_do_not_fit(field):
    """A peer that is given twice, a mode without its socket, one path for both sockets, a path that
    is too long, an IPv6 address without brackets, a level that isn't one, a size without an
    archive, and what is said of a page or of stock nodes where there are none: each is told by its
    option, and nothing is served."""
    long = os.path.join(field.folder, "x" * 104)
    for words, fault in (
        (
            ("--dial", "b@h=127.0.0.1:1", "--dial", "b@h=127.0.0.1:2"),
            "--dial: this peer is given twice: b@h=127.0.0.1:2",
        ),
        (
            ("--dial", "b@h=127.0.0.1:1", "--otp-dial", "b@h=127.0.0.1:2"),
            "--otp-dial: this peer is given twice: b@h=127.0.0.1:2",
        ),
        (("--control-mode", "0660"), "--control-mode: there is no --control"),
        (("--control-read-mode", "0660"), "--control-read-mode: there is no --control-read"),
        (
            ("--control", long + ".s", "--control-read", long + ".s"),
            "--control-read: the path of --control",
        ),
        (("--control", long), f"--control: {shown(long)}: a path of more than 103 bytes"),
        (("--listen", "::1"), "--listen: no HOST:PORT: ::1"),
        (("--listen", "::1:4001"), "--listen: no HOST:PORT: ::1:4001"),
        (("--log-level", "debug"), "--log-level: not error, warn or info: debug"),
        (("--http-anywhere",), "--http-anywhere: there is no --http"),
        (("--otp-visible",), "--otp-visible: there is no --otp-listen and no --otp-dial"),
        (("--epmd",), "--epmd: there is no --otp-listen and no --otp-dial"),
        (("--audit-size", "5000"), "--audit-size: there is no --audit"),
    ):
        node = field.start("a@h", *words, control=False, port=None)
        expect_that(node.status() in (1, 2), f"status 1 or 2 for {words}", node.status())
        expect(
            f"what is said of {words}",
            [f"error: {fault}"],
            [line for line in node.errors() if line.startswith("error")][-1:],
        )


@case
def most_names_and_peers(field):
    """1,024 names may be allowed and 1,024 peers have a cookie of their own, each counted once; one
    more is told by its option, with status 2."""
    cookie = field.cookie_file()

    def started_with(option, *values):
        """How many words it answers, its errors, and its status."""
        words = [word for value in values for word in (option, value)]
        done = run_node(field, "a@h", "--cookie-file", cookie, *words, input=b"allowed\n")
        return len(done.stdout.split()), errors_of(done), done.returncode

    names = [f"n{number}@h" for number in range(1_024)]
    files = [f"{name}={cookie}" for name in names]
    expect(
        "with as many names as may be", (1_025, [], 0), started_with("--allow", *names, names[0])
    )
    expect(
        "with one name more",
        (0, ["error: --allow: more than 1024 names: b@h"], 2),
        started_with("--allow", *names, "b@h"),
    )
    expect(
        "with as many cookies as may be",
        (1, [], 0),
        started_with("--cookie-for", *files, f"a@h={cookie}", files[0]),
    )
    status = started_with("--cookie-for", *files, f"b@h={cookie}")
    expect(
        "with one cookie more",
        (0, [f"error: --cookie-for: more than 1024 peers: {f'b@h={cookie}':.60}"], 2),
        status,
    )


@case
def open_to_all(field):
    """A node that listens at all addresses warns of it, be it for nodes of this program or for
    stock nodes: once of each."""
    words = [
        "--cookie-file",
        field.cookie_file(),
        "--listen",
        "0.0.0.0:0",
        "--otp-listen",
        "0.0.0.0:0",
    ]
    done = run_node(field, "a@h", *words, input=b"nodes\n")
    expect("the status", 0, done.returncode)
    warnings = [
        line for line in done.stderr.decode().splitlines() if "plain" in line or "0.0.0.0" in line
    ]
    expect("warnings", 2, len(warnings))
    expect_that(
        done.stdout.decode().splitlines()[-1] == "nodes", "the answer to a line", done.stdout
    )


@case
def start_that_fails_leaves_no_socket(field):
    """A node whose other places can't be opened leaves no control socket behind."""
    port = field.listener().getsockname()[1]
    for words in (
        ("--http", f"127.0.0.1:{port}"),
        ("--control-read", os.path.join(field.folder, "none", "read")),
    ):
        a = field.start("a@h", *words, port=None)
        expect("its status", 1, a.status())
        expect_that(not os.path.exists(a.control_path), "no control socket", words)
