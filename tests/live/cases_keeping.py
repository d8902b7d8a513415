"""Nodes that keep few of their entries and run on: connections and links lose nothing by it."""

import os
import re
import socket
import subprocess
import sys
import threading

from cases_life import Silent
from field import case
from node import asked, await_members, await_nodes, member, new_pid, size, start
from talk import Control
from waiting import LIMIT, expect, expect_that, until

ROUTER = os.path.join(os.path.dirname(os.path.realpath(__file__)), "../../examples/router.py")

# How many entries the nodes are to keep here, and the most that they keep for who isn't told, but
# for what comes between two looks.
KEPT = 1000
MOST = 120_000

# Lines that are sent at once.
AT_ONCE = 500


def events():
    """How many a long run has: ten times as many with `--long`."""
    return 3_000_000 if os.environ.get("LONG_CASES") else 300_000


class Router:
    """The router of the examples, at a node."""

    def __init__(self, field, node):
        self.process = subprocess.Popen(
            [sys.executable, ROUTER, node.control_path],
            stdin=subprocess.PIPE,
            stdout=subprocess.PIPE,
            text=True,
        )
        field.keep(self)

    def line(self):
        """The next line that it prints."""
        return self.process.stdout.readline().rstrip("\n")

    def close(self):
        """Ends it."""
        self.process.kill()
        self.process.wait()
        self.process.stdin.close()
        self.process.stdout.close()


def send_all(control, lines):
    """Sends many lines, a part at a time: how many answers were no refusal."""
    accepted = 0
    for begin in range(0, len(lines), AT_ONCE):
        part = lines[begin : begin + AT_ONCE]
        control.socket.sendall("".join(f"{line}\n" for line in part).encode())
        accepted += sum(not control.next_answer("an answer").startswith("refused ") for _ in part)
    return accepted


def refused(control, count):
    """So many entries of a scope that runs already: they leave nothing behind."""
    expect("accepted starts", 0, send_all(control, ["start pg"] * count))


def moves(control, pid, count):
    """So many entries by which a process joins and leaves in turn."""
    expect(
        "accepted moves",
        count,
        send_all(control, [f"join pg g {pid}", f"leave pg g {pid}"] * (count // 2)),
    )


def told(talk, word):
    """What `status` says behind this word."""
    return re.search(rf" {word}=(\S+)", talk.ask("status"))[1]


def kept(talk):
    """How many entries the node keeps."""
    return int(told(talk, "kept").split("/")[0])


def await_kept(talk, most=KEPT):
    """Until the node keeps no more than it is to."""
    return until(f"{most} entries at most", lambda: kept(talk), lambda came: came <= most)


def many_events(node, busy, pid):
    """The events of a case: the most entries that were kept at any time, and the memory behind a
    fifth of them."""
    most, memory = 0, None
    for begin in range(0, events(), 10_000):
        refused(busy, 9_600)
        moves(busy, pid, 400)
        most = max(most, kept(node))
        if begin >= events() // 5 and memory is None:
            memory = node.memory()[0]
    return most, memory


@case
def runs_on(field):
    """Through 300,000 events a node that keeps 1,000 entries goes on: its clients, a router,
    monitors of quiet groups and its links stay and are told, it begins no new life, old entries are
    forgotten, and its memory stays."""
    a = field.node("a@h", "--entries", KEPT)
    b = field.node("b@h", "--entries", KEPT, dial=[a])
    await_nodes(a, ["b@h"])
    router = Router(field, a)
    worker = field.control(b)
    start(worker, "jobs")
    member(worker, "jobs/127.0.0.1:5001", "jobs")
    expect("what the router prints", "here 127.0.0.1:5001", router.line())
    quiet, busy = field.control(a), field.control(a)
    pid, moved = member(quiet, "quiet"), member(busy)
    start(b)
    await_members(b, [pid], "quiet")
    number = quiet.ask("monitor pg quiet").split()[1]
    link = a.ask("links").split()[1]
    most, memory = many_events(a, busy, moved)
    expect_that(most < 40_000, "few entries that are kept at any time", most)
    grown = a.memory()[0] - memory
    expect_that(grown < 40_960, "less than 40 MiB more of memory", f"{grown} KiB")
    await_kept(a)
    await_kept(b)
    expect_that(size(a) > events(), "all events", size(a))
    asked(quiet, "audit 1", "forgotten")
    asked(quiet, f"audit {size(a) - 2 * KEPT}", "forgotten")
    expect_that(re.match(rf"{size(a)} ", quiet.ask(f"audit {size(a)}")), "the last entry", "none")
    expect("the link", link, a.ask("links").split()[1])
    expect("lives", "1", told(a, "lives"))
    for talk in (a, b, quiet, busy, worker):
        expect("news of the end of something", [], talk.untold("! (restarted|down|ended|behind).*"))
    other = member(busy, "quiet")
    quiet.told(f"! join {number} quiet 1 {re.escape(other)}")
    await_members(b, sorted([pid, other]), "quiet")
    worker.close()
    expect("what the router prints", "gone 127.0.0.1:5001", router.line())
    worker = field.control(b)
    member(worker, "jobs/127.0.0.1:5001", "jobs")
    expect("what the router prints", "here 127.0.0.1:5001", router.line())


@case
def forgets_when_quiet(field):
    """A burst behind which nothing comes is forgotten, too, though a monitor of a quiet group
    would need it."""
    a = field.node("a@h", "--entries", KEPT)
    quiet, busy = field.control(a), field.control(a)
    start(quiet)
    quiet.ask("monitor pg quiet")
    pid = member(busy)
    for _ in range(8):
        moves(busy, pid, 4 * KEPT)
        await_kept(a)


@case
def runs_on_beside_many_monitors(field):
    """Monitors of groups where nothing happens keep a node from forgetting for a while alone, and
    tell what happens there later."""
    a = field.node("a@h", "--entries", KEPT)
    watching, busy = field.control(a), field.control(a)
    start(watching)
    send_all(watching, [f"monitor pg quiet{number}" for number in range(300)])
    first = size(a)
    for _ in range(10):
        refused(busy, 2_000)
    await_kept(a, KEPT + 5 * 300)
    asked(busy, f"audit {first}", "forgotten")
    pid = member(busy, "quiet7")
    watching.told(f"! join [0-9]+ quiet7 1 {re.escape(pid)}")
    expect("monitors that ended", [], watching.untold("! (ended|behind).*"))


@case
def turn_knows_what_was_forgotten(field):
    """Where a node comes to the last of its numbers it begins anew: its cookies, names and scopes
    hold still, though it has forgotten the entries that set them."""
    a = field.node("a@h", "--entries", "100", "--last-entry", "4000", "--creation", "8")
    control = field.control(a)
    for line in ("cookie another", "cookie_for c@h third", "allow b@h", "allow c@h"):
        asked(control, line)
    start(control, "first")
    start(control, "pg")
    start(control, "old")
    asked(control, "stop old")
    for _ in range(6):
        refused(control, 500)
    until(
        "the first entries to be forgotten",
        lambda: control.ask("audit 20"),
        lambda came: came == "forgotten",
    )
    expect("news of a new life", [], control.untold("! restarted.*"))
    while not control.untold("! restarted.*"):
        expect_that(
            control.ask("start pg").startswith("refused 22 "), "a scope that runs", control.answers
        )
    control.told("! restarted 9")
    asked(control, "scopes", "scopes first pg")
    asked(control, "allowed", "allowed b@h c@h")
    field.node("b@h", dial=[a], cookie="another")
    field.node("c@h", dial=[a], cookie="third")
    await_nodes(a, ["b@h", "c@h"])
    expect_that(size(a) < 100, "a life that began anew", size(a))
    asked(control, "audit 1", control.ask("audit 1"))


def unread(field, node, lines):
    """A connection that has written these lines, and of which nobody reads."""
    stream = field.keep(socket.socket(socket.AF_UNIX))
    stream.connect(node.control_path)
    stream.sendall(lines)
    return stream


@case
def ended_that_does_not_read(field):
    """A connection that reads nothing is ended before the node keeps more than 100,000 entries for
    it, and what it had ends with it; others are served meanwhile."""
    a = field.node("a@h", "--entries", KEPT)
    busy = field.control(a)
    start(busy)
    unread(field, a, b"spawn\nmonitor_scope pg\n")
    until("two clients", lambda: a.ask("clients"), lambda came: len(came.split()) == 3)
    pid = new_pid(busy)
    moves(busy, pid, 20_000)
    most = 0
    for _ in range(60):
        refused(busy, 2_000)
        most = max(most, kept(a))
        if len(a.ask("clients").split()) == 2:
            break
    until("its end", lambda: a.ask("clients"), lambda came: len(came.split()) == 2)
    expect_that(most < MOST, f"less than {MOST} entries that are kept", most)
    await_kept(a)
    asked(busy, "start pg", "refused 22 ScopeRunning")


@case
def told_that_it_is_behind(field):
    """A connection that reads, but far too little, is told `! behind` as the last of its lines."""
    a = field.node("a@h", "--entries", KEPT)
    busy = field.control(a)
    start(busy)
    reading = Slowly(unread(field, a, b"monitor_scope pg\n"))
    pid = new_pid(busy)
    moves(busy, pid, 40_000)
    for _ in range(200):
        if a.log("warn behind"):
            break
        refused(busy, 1_000)
    expect("what the log says", ["warn behind seat=3"], a.log("warn behind"))
    last = reading.last_line()
    expect("its last line", "! behind", last)
    await_kept(a)


@case
def output_that_is_read_late(field):
    """Where nobody reads standard output for too long its monitors alone end, with `! behind`; then
    the lines of standard input are answered, and it is told what comes, as before."""
    a, b = Silent(field, "--entries", KEPT), field.node("b@h")
    first = [say(a, line) for line in ("", "start pg", "monitor_scope pg")]
    expect("the first answers", [f"control {a.control_path}", "ok", "ref 2"], first)
    busy = a.control()
    moves(busy, new_pid(busy), 20_000)
    for _ in range(60):
        refused(busy, 2_000)
        if "warn behind seat=1" in a.errors() and kept(busy) < 2 * KEPT:
            break
    await_kept(busy)
    asked(busy, f"dial b@h=127.0.0.1:{b.port}")
    await_nodes(busy, ["b@h"])
    told = [
        line
        for line in iter(lambda: say(a, ""), "! behind")
        if not line.startswith(("! join 2 ", "! leave 2 "))
    ]
    expect("what it is told beside changes", [], told)
    expect("an answer", "scopes pg", say(a, "scopes"))
    number = say(a, "monitor_scope pg").split()[1]
    pid = member(busy)
    expect("what it is told of a change", f"! join {number} g 1 {pid}", say(a, ""))
    b.quit()
    expect_that(say(a, "").startswith("! down b@h "), "what it is told of a peer", "another")
    expect("the answer to quit", "ok", say(a, "quit"))
    expect("the status", 0, a.process.wait(LIMIT))
    expect(
        "such warnings", ["warn behind seat=1"], [line for line in a.errors() if "behind" in line]
    )


def say(node, line):
    """Says a line on the node's standard input, if any, and gives the next one of its
    standard output."""
    if line:
        node.process.stdin.write(line.encode() + b"\n")
        node.process.stdin.flush()
    return node.process.stdout.readline().decode().rstrip("\n")


class Slowly:
    """Reads 8 KiB a second of a socket, and all once the last line is wanted."""

    def __init__(self, stream):
        self.stream = stream
        self.tail = b""
        self.is_hurried = threading.Event()
        self.thread = threading.Thread(target=self._read, daemon=True)
        self.thread.start()

    def _read(self):
        while part := self.stream.recv(8192):
            self.tail = (self.tail + part)[-200:]
            self.is_hurried.wait(1)

    def last_line(self):
        """The last whole line, once there are no more."""
        self.is_hurried.set()
        self.thread.join(LIMIT)
        return self.tail.decode().rstrip("\n").rsplit("\n", 1)[-1]


@case
def status_of_a_node_that_forgets(field):
    """`status` says how many entries there are, are kept, lost and in the archive; what the archive
    has is what isn't kept, in order."""
    path = os.path.join(field.folder, "archive")
    a = field.node("a@h", "--entries", "64", "--audit", path)
    busy = field.control(a)
    start(busy)
    for _ in range(4):
        refused(busy, 500)
    # All but the last page, which is part of 256 entries, and those that are kept.
    await_kept(a, 512)
    status = until("an archive that is up to date", lambda: a.ask("status"), is_archived)
    wanted = (
        r"status name=a@h .* clients=1/100 entries=\d+ kept=\d+/64 lost=0"
        r" archived=\d+ refused=2000 told=\d+ bytes=\d+"
    )
    expect_that(re.fullmatch(wanted, status), wanted, status)
    asked(busy, "audit 0", "none")
    asked(busy, "audit 1", "forgotten")
    asked(busy, f"audit {size(a) + 1}", "none")
    asked(busy, "reopen")
    asked(busy, "reopen now", "fault a word too many: now")
    expect("the status after quit", 0, a.quit())
    expect("what the log says of the archive", [], a.log("warn archive"))
    with open(path, encoding="ascii") as lines:
        numbers = [int(found[1]) for line in lines if (found := re.match(r'{"entry":(\d+),', line))]
    expect("the numbers in the archive", list(range(1, len(numbers) + 1)), numbers)
    expect_that(len(numbers) > 2000, "all of its entries", len(numbers))


def is_archived(status):
    """Whether all entries that aren't kept are in the archive."""
    entries, kept_now, archived = (
        int(re.search(rf" {word}=(\d+)", status)[1]) for word in ("entries", "kept", "archived")
    )
    return entries - kept_now == archived


@case
def reopen_without_an_archive(field):
    """`reopen` is a fault where there is no archive, and on the socket that takes reads alone."""
    reading = os.path.join(field.folder, "reading")
    a = field.node("a@h", "--control-read", reading)
    asked(a, "reopen", "fault there is no archive")
    client = field.keep(Control(reading))
    asked(client, "reopen", "fault this socket takes reads and monitors alone")
