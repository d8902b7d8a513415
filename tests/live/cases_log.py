"""The log of what a node decides, and the faults of a first hour, each found in it or
by one command."""

import json
import os
import re
import socket
import time

from field import COOKIE, case
from node import TIME, asked, await_nodes, nodes, start
from peer import Peer, connect
from waiting import LIMIT, expect, expect_that, until

# A line of the log: time, level, what, and fields, whose values are a word or stand between quotes.
LINE = re.compile(
    TIME.pattern + r"(error|warn|info) [a-z_]+"
    r'( [a-z_]+=([!#-<>-\[\]-~]+|"([ !#-\[\]-~]|\\["\\]|\\x[0-9a-f]{2})*"))*'
)
WRONG = "another_secret"

# Nodes that dial a@h and are refused: the name of each, the one that it dials, its cookie and its
# options; whether that is found at a@h; the line of the log, and what `refusals` says.
REFUSED_PEERS = (
    (
        "b@h",
        "a@h",
        WRONG,
        (),
        True,
        'warn refused peer=b@h .* rule="12 BadDigest" .*',
        " 12 BadDigest b@h ",
    ),
    (
        "c@h",
        "a@h",
        COOKIE,
        (),
        True,
        'warn refused peer=c@h .* rule="9 NotAllowed" .*',
        " 9 NotAllowed c@h ",
    ),
    (
        "d@h",
        "a@h",
        COOKIE,
        ("--allow", "x@h"),
        False,
        'warn refused peer=a@h rule="9 NotAllowed" event=Dial .*',
        " Dial 9 NotAllowed a@h ",
    ),
    (
        "g@h",
        "x@h",
        COOKIE,
        (),
        False,
        'warn refused peer=x@h .* rule="8 WrongName" .*',
        " 8 WrongName x@h ",
    ),
)


def raw(node):
    """Its lines on standard error as they stand there, but for those of the script that
    found the program."""
    with open(node.errors_path, encoding="utf-8", errors="surrogateescape") as file:
        return [line for line in file.read().splitlines() if not line.startswith("pg_node: ")]


def logged(node, pattern):
    """Awaits a line of the log like this."""
    return until(
        f"a line like {pattern} in the log of {node.name}",
        lambda: [line for line in node.log() if re.fullmatch(pattern, line)],
    )


@case
def log_of_a_node(field):
    """A node logs that it begins and ends, links that come up and go down, with names,
    addresses and reasons, what it refuses, and what an operator changes; each line has the
    form of the page."""
    a = field.node("a@h", "--creation", "3", "--last-entry", "200")
    b = field.node("b@h", "--creation", "5", dial=[a])
    c = field.node("c@h", dial=[a], cookie=WRONG)
    await_nodes(a, ["b@h"])
    logged(a, r"info begun name=a@h creation=3 version=\S+")
    logged(a, r"info up peer=b@h at=127\.0\.0\.1:\d+ creation=5 kind=visible")
    logged(b, rf"info up peer=a@h at=127\.0\.0\.1:{a.port} creation=3 kind=visible")
    logged(
        a, r'warn refused peer=c@h at=127\.0\.0\.1:\d+ rule="12 BadDigest" event=Frame entry=\d+'
    )
    logged(c, rf'warn dial_failed peer=a@h at=127\.0\.0\.1:{a.port} fault=handshake reason=".*"')
    asked(b, "undial a@h")
    logged(b, "info undial peer=a@h")
    asked(a, "disconnect b@h")
    logged(a, r"info down peer=b@h at=127\.0\.0\.1:\d+ creation=5 reason=disconnected")
    logged(b, r"info down peer=a@h at=127\.0\.0\.1:\d+ creation=3 reason=closed")
    asked(b, f"dial a@h=127.0.0.1:{a.port}")
    logged(b, rf"info dial target=\"a@h=127\.0\.0\.1:{a.port}\"")
    await_nodes(a, ["b@h"])
    while not a.untold("! restarted .*"):
        a.ask("spawn")
    logged(a, r"info down peer=b@h at=127\.0\.0\.1:\d+ creation=5 reason=restarted")
    logged(a, r"info new_life creation=4 entries=\d+ seconds=\d+")
    await_nodes(a, ["b@h"])
    a.ask("drain")
    expect("its status", 0, a.status())
    expect(
        "lines of its end",
        ["info draining", "info ending"],
        [line for line in a.log() if line in ("info draining", "info ending")],
    )
    for node in (a, b, c):
        strange = [line for line in raw(node) if not LINE.fullmatch(line)]
        expect(f"lines of another form in the log of {node.name}", [], strange)


@case
def log_as_json(field):
    """With `--log json` each line is an object; with `--log none` nothing is logged, and of the
    levels that below `--log-level` isn't; the reason of an end is a plain line always."""
    a = field.node("a@h", "--log", "json")
    b = field.node("b@h", "--log-level", "warn", dial=[a])
    silent = field.node("s@h", "--log", "none", dial=[a], cookie=WRONG)
    await_nodes(a, ["b@h"])
    until("a refusal", lambda: a.ask("refusals"), lambda came: "BadDigest s@h" in came)
    refused = until("its line", lambda: [line for line in raw(a) if '"refused"' in line])
    value = json.loads(refused[0])
    expect_that(TIME.fullmatch(value.pop("time") + " "), "a time", refused)
    expect_that(
        value.pop("entry") > 0 and value.pop("at").startswith("127.0.0.1:"),
        "an entry and an address",
        refused,
    )
    wanted = {
        "level": "warn",
        "what": "refused",
        "peer": "s@h",
        "rule": "12 BadDigest",
        "event": "Frame",
    }
    expect("the other members", wanted, value)
    a.quit()
    logged(b, "warn dial_failed peer=a@h .*")
    for line in raw(a):
        json.loads(line)
    expect("lines below warn", [], b.log("info "))
    expect("lines of a node that logs nothing", [], raw(silent))
    for name, words in (("w@h", ("--log", "xml")), ("x@h", ("--log-level", "loud"))):
        wrong = field.start(name, *words)
        expect("the status", 2, wrong.status())
        expect("lines on standard error", 1, len(raw(wrong)))
    port = field.start("p@h", "--log", "none", "--listen", "256.0.0.1:1", port=None)
    expect("the status", 1, port.status())
    expect_that(raw(port)[0].startswith("error: --listen: "), "why it ends", raw(port))


@case
def log_of_many_strangers(field):
    """Of strangers at one address that break one rule a line a second is logged at most; the others
    are counted in the next."""
    a = field.node("a@h")
    began = time.monotonic()
    for _ in range(60):
        stranger_says(a, b"\x00\x01?")
    seconds = time.monotonic() - began
    lines = len(until("a refusal in the log", lambda: a.log("warn refused ")))
    expect_that(
        1 <= lines <= seconds + 1, f"no line more than one a second in {seconds:.1f} s", lines
    )
    time.sleep(1.1)
    stranger_says(a, b"\x00\x01?")
    until("a line that counts the others", lambda: counted(a), lambda came: came == 61)


def counted(node):
    """How many refusals the log tells of."""
    lines = node.log("warn refused ")
    return len(lines) + sum(
        int(found[1]) for found in (re.search(r" left_out=(\d+)", line) for line in lines) if found
    )


def stranger_says(node, words):
    """A stranger connects, says this, and awaits the end."""
    with socket.create_connection(("127.0.0.1", node.port)) as stranger:
        stranger.settimeout(LIMIT)
        stranger.sendall(words)
        try:
            while stranger.recv(100):
                pass
        except ConnectionError:
            pass


@case
def log_is_plain(field):
    """Nothing of a stranger gets into the log but its name, escaped, and no cookie ever does."""
    a = field.node("a@h", "--cookie-for", f"c@h={field.cookie_file('quite_a_secret')}")
    asked(a, "cookie_for d@h also_a_secret")
    asked(a, "cookie third_secret")
    for name in ('q"\\u=@h', "c@h", "d@h", "$(reboot)@h"):
        peer = field.keep(Peer(connect(a.port), name, cookie=WRONG))
        peer.send(peer.name_frame())
        expect("the status", "ok", peer.receive_status())
        peer.receive_challenge()
        peer.send(b"r" + bytes(20))
        time.sleep(1.05)
    stranger_says(a, b"\x00\x20\x1b[31mN" + bytes(range(30)))
    logged(a, r'warn refused peer="q\\"\\\\u=@h" at=.*')
    logged(a, r"warn refused peer=\$\(reboot\)@h at=.*")
    logged(a, r"warn refused peer=- at=.*")
    a.quit()
    strange = [line for line in raw(a) if not LINE.fullmatch(line)]
    expect("lines of another form", [], strange)
    secrets = [line for line in raw(a) if "secret" in line or COOKIE in line]
    expect("lines with a cookie", [], secrets)


@case
def first_hour(field):
    """Why a peer isn't up, or isn't any more, stands in the log of one of both, and one command
    says it: another cookie, a name that isn't allowed at either end, another name, port or host in
    --dial, a peer that is away."""
    a = field.node("a@h", "--allow", "b@h", "--allow", "g@h")
    free = field.free_port()
    for name, dialled, cookie, options, is_at_a, line, words in REFUSED_PEERS:
        node = field.node(name, "--dial", f"{dialled}=127.0.0.1:{a.port}", *options, cookie=cookie)
        told_why(a if is_at_a else node, line, "refusals", words)
        if name == "c@h":
            logged(node, 'info refused peer=a@h .* rule="11 PeerSaid" .*')
        node.quit()
    for name, place, fault in (
        ("e@h", f"127.0.0.1:{free}", "refused"),
        ("f@h", "nohost.invalid:4001", "no_host"),
    ):
        node = field.node(name, "--dial", f"a@h={place}")
        told_why(
            node, f"warn dial_failed peer=a@h at={place} fault={fault} .*", "dials", f" {fault}"
        )
        node.quit()
    b = field.node("b@h", dial=[a])
    await_nodes(b, ["a@h"])
    a.kill()
    logged(b, "info down peer=a@h .* reason=closed")
    logged(b, "warn dial_failed peer=a@h .* fault=refused .*")
    until("the same by dials", lambda: b.ask("dials"), lambda came: came.endswith(" refused"))


def told_why(node, line, command, words):
    """That a line like this stands in its log, and that a command says it, too."""
    logged(node, line)
    until(f"{words} by {command}", lambda: node.ask(command), lambda came: words in came)


@case
def no_descriptors_logged(field):
    """Where there is no descriptor for a client or a peer, the log says so once."""
    limited = os.path.join(field.folder, "limited")
    with open(limited, "w", encoding="ascii") as script:
        script.write(f'#!/bin/sh\nulimit -n 40\nexec "{field.program}" "$@"\n')
    os.chmod(limited, 0o700)
    field.program = limited
    a = field.node("a@h")
    strangers = [field.keep(socket.create_connection(("127.0.0.1", a.port))) for _ in range(40)]
    logged(a, 'warn not_taken kind=peer reason="Too many open files .*"')
    clients = [field.control(a) for _ in range(2)]
    logged(a, 'warn not_taken kind=client reason="Too many open files .*"')
    expect("how often each was said", 2, len(a.log("warn not_taken ")))
    for thing in (*strangers, *clients):
        thing.close()
    start(a)
    expect("who is up", [], nodes(a))
