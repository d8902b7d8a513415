"""Many clients, and strange ones: who is told that there is no room, who waits for whom, and how a
node ends behind them."""

import itertools
import os
import resource
import socket
import subprocess
import sys
import threading
import time

from cases_keeping import moves
from field import case
from node import asked, await_members, limit_space, member, new_pid, start
from talk import Control
from waiting import LIMIT, expect, expect_that, seconds_since, until

# Some more than the node hears out at once.
STRANGERS = 30
# So many programs, so often, that two of them would meet where nothing keeps them apart.
STARTERS = 12
ROUNDS = 8
# So many monitors have so many changes to look at.
MONITORS = 5_000
CHANGES = 40_000


class Deaf:
    """A client that writes and never reads."""

    def __init__(self, field, node):
        """Connects."""
        self.socket = field.keep(socket.socket(socket.AF_UNIX))
        self.socket.connect(node.control_path)

    def stuff(self, line):
        """Writes this line again and again, until the node reads no more."""
        self.socket.settimeout(0.5)
        try:
            while True:
                self.socket.sendall(line.encode() * 100)
        except TimeoutError:
            pass


def expect_soon(field, node):
    """That a node ends within a second of `quit`; on a busy machine, of what one takes that nobody
    has asked anything."""
    calm = end_of(field.node("calm@h", port=None))
    seconds = end_of(node)
    expect_that(
        seconds < 1 + 3 * calm,
        f"an end within a second (another node: {calm:.2f} s)",
        f"{seconds:.2f} s",
    )


def end_of(node):
    """The seconds that a node takes to end."""
    began = time.monotonic()
    expect("the status after quit", 0, node.quit())
    return seconds_since(began)


@case
def quit_behind_deaf_clients(field):
    """A node ends within a second of `quit`, though clients don't read their answers while there is
    news for them."""
    a = field.node("a@h", port=None)
    start(a)
    for _ in range(3):
        client = Deaf(field, a)
        client.socket.sendall(b"monitor_scope pg\n")
        client.stuff("help\n")
    member(a)
    expect_soon(field, a)


@case
def quit_with_many_processes(field):
    """A node ends within a second of `quit`, however many processes its clients have."""
    a = field.node("a@h", port=None)
    control = field.control(a)
    control.socket.sendall(b"spawn\n" * 1000)
    for _ in range(1000):
        control.next_answer("a process")
    expect_soon(field, a)


@case
def deaf_client_holds_nobody_up(field):
    """While a client doesn't read its answers, and there is news for it, others are answered."""
    a = field.node("a@h", port=None)
    start(a)
    deaf = Deaf(field, a)
    deaf.socket.sendall(b"monitor_scope pg\n")
    deaf.stuff("help\n")
    pid = member(a)
    control = field.control(a)
    began = time.monotonic()
    for _ in range(50):
        asked(control, "members pg g", f"pids {pid}")
    expect_that(seconds_since(began) < 5, "50 answers within 5 s", f"{seconds_since(began):.2f} s")


@case
def many_monitors_hold_nobody_up(field):
    """While a connection with thousands of monitors looks at thousands of changes that it has
    missed, others are answered; and it is told of all of them, and of a scope that has stopped."""
    a = field.node("a@h", port=None)
    busy, quick = field.control(a), field.control(a)
    start(busy)
    start(busy, "old")
    watching = Deaf(field, a)
    lines = watching.socket.makefile("rb")
    groups = [b"old g", b"pg g", *(b"pg g%d" % number for number in range(MONITORS))]
    watching.socket.sendall(b"".join(b"monitor %s\n" % group for group in groups))
    numbers = [next(lines).split()[1].decode() for _ in groups]
    moves(busy, new_pid(busy), CHANGES)
    asked(busy, "stop old")
    pid = new_pid(quick)
    told = []
    reading = threading.Thread(
        daemon=True, target=lambda: told.extend(itertools.islice(lines, CHANGES + 1))
    )
    reading.start()
    slowest, began = 0, time.monotonic()
    while reading.is_alive() and seconds_since(began) < LIMIT:
        called = time.perf_counter()
        asked(quick, f"join pg quick {pid}")
        slowest = max(slowest, time.perf_counter() - called)
        time.sleep(0.003)
    expect(
        "the monitors that ended",
        [f"! ended {numbers[0]}"],
        [line.decode().strip() for line in told if line.startswith(b"! ended")],
    )
    expect(
        "how often it was told of the group",
        CHANGES,
        sum(line.split()[2:4] == [numbers[1].encode(), b"g"] for line in told),
    )
    expect_that(slowest < 0.5, "each of the others' calls within half a second", f"{slowest:.2f} s")


@case
def full_is_told_to_who_writes(field):
    """A client for which there is no seat reads `fault full` and then the end, also if it writes
    first, and whatever it writes."""
    a = field.node("a@h", "--clients", "2", port=None)
    for _ in range(2):
        new_pid(field.control(a))
    for words in (b"", b"size\n", b"size", b"x" * 100_000):
        for answer in refusals(field, a, words):
            expect(f"what is read behind {words[:8]!r}", b"fault full\n", answer)
    asked(a, "size", "size 2")


def refusals(field, node, words):
    """What each of many clients at once reads to the end, some time behind its words."""
    strangers = [field.keep(socket.socket(socket.AF_UNIX)) for _ in range(STRANGERS)]
    for stranger in strangers:
        stranger.settimeout(LIMIT)
        stranger.connect(node.control_path)
        say(stranger, words)
    time.sleep(0.1)
    for stranger in strangers:
        say(stranger, words)
    return [heard(stranger) for stranger in strangers]


def say(stranger, words):
    """Writes to a node that may have ended the connection by now."""
    try:
        stranger.sendall(words)
    except BrokenPipeError:
        pass


def heard(stranger):
    """All that comes until the end."""
    came = b""
    while piece := stranger.recv(4096):
        came += piece
    return came


@case
def seats_by_option(field):
    """`--clients N` is how many control connections are served at once, at most 126."""
    a = field.node("a@h", "--clients", "126", port=None)
    start(a)
    pids = [member(field.control(a)) for _ in range(126)]
    expect("an answer to one more", "fault full", field.control(a).next_answer("an answer"))
    await_members(a, pids)
    for words in ("0", "127"):
        b = field.start("b@h", "--clients", words, port=None, control=False)
        expect(f"the status at --clients {words}", 2, b.status())


@case
def no_room_for_a_thread(field):
    """A client for which no thread can be made is told `fault full`, and served once one can."""
    a = field.node("a@h", port=None)
    new_pid(a)
    before = limit_space(a.process.pid, 500_000)
    expect("an answer without a thread", "fault full", field.control(a).next_answer("an answer"))
    resource.prlimit(a.process.pid, resource.RLIMIT_AS, before)
    new_pid(field.control(a))
    expect("the status after quit", 0, a.quit())


@case
def no_descriptor_left(field):
    """A client for which there is no descriptor waits until there is one; `quit` needs none."""
    a = field.node("a@h", port=None)
    control = field.control(a)
    new_pid(control)
    limit = resource.prlimit(a.process.pid, resource.RLIMIT_NOFILE)[1]
    used = len(os.listdir(f"/proc/{a.process.pid}/fd"))
    resource.prlimit(a.process.pid, resource.RLIMIT_NOFILE, (used, limit))
    new_pid(field.control(a))  # (the system gave the node this descriptor when it began to wait)
    waiting = field.control(a)
    waiting.send("size")
    new_pid(control)
    expect("an answer to who waits", [], waiting.answers)
    resource.prlimit(a.process.pid, resource.RLIMIT_NOFILE, (used + 2, limit))
    expect("the answer to who waited", "size 3", waiting.next_answer("an answer"))
    resource.prlimit(a.process.pid, resource.RLIMIT_NOFILE, (used, limit))
    asked(control, "quit")
    expect("the status after quit", 0, a.status())
    expect_that(not os.path.exists(a.control_path), "no control socket", "one")


@case
def one_program_at_a_path(field):
    """Of programs that begin at one stale control path at the same moment one serves, and the
    others are told."""
    for _ in range(ROUNDS):
        first = only_one(field, *busy_socket(field, "a@h"))
        first.kill()
    first = only_one(field)
    expect("the files beside it", ["a@h.control"], control_files(field))
    expect("the status after quit", 0, first.quit())
    expect("the files behind it", [], control_files(field))


def busy_socket(field, name):
    """What holds up who connects to the control socket of this node, until it is closed: then the
    socket is a stale one."""
    path = os.path.join(field.folder, f"{name}.control")
    if os.path.exists(path):
        os.remove(path)
    listener, client = (field.keep(socket.socket(socket.AF_UNIX)) for _ in range(2))
    listener.bind(path)
    listener.listen(0)
    client.connect(path)
    return listener, client


def only_one(field, *barrier):
    """Starts programs at one path, lets them go on together, and gives the one that serves."""
    starting = [field.start("a@h", port=None) for _ in range(STARTERS)]
    if barrier:
        time.sleep(0.3)
    for thing in barrier:
        thing.close()
    running = until(
        "one program that runs",
        lambda: [node for node in starting if runs(node)],
        lambda running: len(running) == 1,
        20,
    )
    others = [node.status() for node in starting if node not in running]
    expect("the statuses of the others", [1] * (STARTERS - 1), others)
    expect("the nodes at the path", "nodes", field.control(running[0].ready()).ask("nodes"))
    return running[0]


def runs(node):
    """Whether the program runs."""
    return node.process.poll() is None


def control_files(field):
    """The files at the paths of control sockets, and beside them."""
    return sorted(name for name in os.listdir(field.folder) if "control" in name)


@case
def socket_of_another(field):
    """A node that ends leaves the socket alone that another one made at its path meanwhile, and one
    that begins a socket at which it can't tell whether anybody answers."""
    a = field.node("a@h", port=None)
    os.remove(a.control_path)
    again = field.node("a@h", port=None)
    expect("the status after quit", 0, a.quit())
    expect("an answer at the path", "size 0", Control(again.control_path).ask("size"))
    expect("the status after another quit", 0, again.quit())
    other, sender = (field.keep(socket.socket(socket.AF_UNIX, socket.SOCK_DGRAM)) for _ in range(2))
    other.bind(a.control_path)
    expect("the status beside it", 1, field.start("a@h", port=None).status())
    sender.sendto(b"still here", a.control_path)
    expect("what comes at the socket", b"still here", other.recv(100))


class Flood:
    """A client, a process of its own, that writes these lines again and again, as fast as it can,
    and reads the answers. PID in them is a process of its own."""

    def __init__(self, field, node, lines="join pg flood PID\nleave pg flood PID\n"):
        """Begins."""
        words = [sys.executable, "-c", FLOOD, node.control_path, lines]
        self.process = subprocess.Popen(words, stdout=subprocess.PIPE)
        field.keep(self)
        expect("the begin of a flood", b"on\n", self.process.stdout.readline())

    def close(self):
        """Ends it."""
        self.process.kill()
        self.process.wait()


FLOOD = """
import contextlib, socket, sys, threading
control = socket.socket(socket.AF_UNIX)
control.connect(sys.argv[1])
control.sendall(b"spawn\\n")
pid = control.makefile("r").readline().split()[1]
lines = sys.argv[2].replace("PID", pid).encode() * 100
def read():
    with contextlib.suppress(OSError):
        while control.recv(65536):
            pass
threading.Thread(target=read, daemon=True).start()
print("on", flush=True)
# (until its node ends)
with contextlib.suppress(OSError):
    while True:
        control.sendall(lines)
"""


@case
def calls_beside_a_flood(field):
    """Beside a connection that joins and leaves as fast as it can, 95 of 100 single calls of
    another are answered within 5 ms, and news of other nodes come. (Where the machine itself is
    busy, within ten times what they took before the flood, and 5 ms more.)"""
    a = field.node("a@h")
    b = field.node("b@h", dial=[a])
    start(b)
    quiet = field.control(a)
    pid = member(quiet)
    await_members(b, [pid])
    number = quiet.ask("monitor pg far").split()[1]
    calm = slow_call(quiet, pid)
    Flood(field, a)
    flooded = slow_call(quiet, pid)
    expect_that(
        flooded < 0.005 + 10 * calm,
        f"95 of 100 calls in 5 ms ({calm * 1000:.2f} before)",
        f"{flooded * 1000:.2f} ms",
    )
    far = new_pid(b)
    for _ in range(20):
        asked(b, f"join pg far {far}")
        quiet.told(f"! join {number} far 1 {far}")
        asked(b, f"leave pg far {far}")
        quiet.told(f"! leave {number} far 1 {far}")


def slow_call(talk, pid):
    """The seconds within which 95 of 100 single calls are answered."""
    seconds = []
    for number in range(100):
        began = time.perf_counter()
        asked(talk, f"{'leave' if number % 2 else 'join'} pg quiet {pid}")
        seconds.append(time.perf_counter() - began)
        time.sleep(0.003)
    return sorted(seconds)[95]
