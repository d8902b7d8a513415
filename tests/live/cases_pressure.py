"""What is short, or stands still: memory, names that aren't resolved, standard error."""

import contextlib
import os
import socket
import subprocess
import time

from cases_life import Silent, one_arena, use_up
from field import case
from node import asked, await_members, await_nodes, limit_space, member, new_pid, start
from talk import Control
from waiting import LIMIT, expect, expect_that, seconds_since, until

# The longest line that is kept whole.
LONGEST = 4_194_304
# In so many groups a process is at most, but for one.
GROUPS = 4_000
# Seconds in which a node ends that is told to, on a busy machine.
SOON = 2


@case
def spare_room_is_let_go(field):
    """Room that long lines and their answers took is let go once these are answered: five clients
    that have sent some take no more than one. (The C library keeps two such lines at most for what
    comes, and threads take some KiB.)"""
    with one_arena():
        a = field.node("a@h", port=None)
    say_much(field.control(a))
    before, _ = a.memory()
    for _ in range(4):
        say_much(field.control(a))
    grown = a.memory()[0] - before
    expect_that(grown < 9_216, "9 MiB more at most", f"{grown} KiB")


def say_much(control):
    """A line that is too long."""
    answer = control.ask("x" * LONGEST + "x")
    expect("the answer to a long line", "fault the line is too long", answer)


@case
def line_without_memory(field):
    """A line that finds no memory is answered so, on standard input and on a control connection,
    and is neither the end of the lines nor that of the node."""
    with one_arena():
        a = Silent(field, control=False)
    write(a, b"start pg\n")
    expect("the first answer", b"ok\n", a.process.stdout.readline())
    until("all threads of the node", lambda: threads(a), lambda count: count >= 7)
    limit_space(a.process.pid, 0)
    write(a, b"x" * LONGEST + b"\nspawn\n")
    expect("the answer to a long line", b"fault out of memory\n", a.process.stdout.readline())
    answer = a.process.stdout.readline()
    expect_that(answer.startswith(b"pid a@h/"), "a process", answer)
    write(a, b"quit\n")
    expect("the status", 0, a.process.wait(LIMIT))


def threads(node):
    """How many threads the node has."""
    return len(os.listdir(f"/proc/{node.process.pid}/task"))


def write(node, words):
    """Writes to its standard input."""
    node.process.stdin.write(words)
    node.process.stdin.flush()


@case
def client_line_without_memory(field):
    """The same on a control connection, which others don't notice."""
    with one_arena():
        a = field.node("a@h", port=None)
    start(a)
    other, control = field.control(a), field.control(a)
    pid = member(other)
    new_pid(control)
    limit_space(a.process.pid, 0)
    expect("the answer to a long line", "fault out of memory", control.ask("x" * LONGEST))
    expect_that(control.ask("nodes") == "nodes", "an answer", "another")
    asked(other, f"leave pg g {pid}")
    expect("lines on standard error", [], a.errors())


@case
def reads_without_memory(field):
    """A read, or a monitor, that finds no memory for its answer is answered so: neither the
    client's connection nor anything of others ends by it."""
    reading = os.path.join(field.folder, "reading")
    with one_arena():
        a = field.node("a@h", "--control-read", reading)
    b = field.node("b@h", dial=[a])
    await_nodes(a, ["b@h"])
    owner, client = field.control(a), field.keep(Control(reading))
    pid = member(owner)
    for number in range(GROUPS):
        owner.send(f"join pg {'g' * 250}{number:04} {pid}")
    for number in range(GROUPS):
        expect("the answer to a join", "ok", owner.next_answer("an answer"))
    limit_space(a.process.pid, 0)
    for line in ["groups pg", "monitor_scope pg"] * 4:
        expect(f"the answer to {line}", "fault out of memory", client.ask(line))
    group = "g" * 250 + "0000"
    await_members(owner, [pid], group)
    asked(client, "nodes", "nodes b@h")
    expect("ends", [], owner.untold("! (down|restarted) .*") + client.untold("! .*"))


@case
def quit_behind_the_resolver(field):
    """A node ends soon behind `quit` while a name that it dials is still looked up."""
    path = os.path.join(field.folder, "aliases")
    os.mkfifo(path)
    with environment("HOSTALIASES", path):  # (nobody writes there, so whoever looks there waits)
        a = field.start("a@h", "--dial", "b@h=nowhere:1", port=None).ready()
    asked(a, "nodes", "nodes")
    time.sleep(0.5)
    began = time.monotonic()
    expect("the status after quit", 0, a.quit())
    seconds = seconds_since(began)
    expect_that(seconds < SOON, f"an end within {SOON} s", f"{seconds:.1f} s")


@case
def quit_behind_a_connect(field):
    """A node ends soon behind `quit` while it connects to a place where nobody answers."""
    listener = field.keep(socket.socket())
    listener.bind(("127.0.0.1", 0))
    listener.listen(0)
    waiting = [field.keep(socket.socket()) for _ in range(4)]
    for other in waiting:  # (from the second one on they wait for an answer, as the node does)
        other.setblocking(False)
        other.connect_ex(listener.getsockname())
    a = field.node("a@h", "--dial", f"b@h=127.0.0.1:{listener.getsockname()[1]}", port=None)
    time.sleep(0.5)
    began = time.monotonic()
    expect("the status after quit", 0, a.quit())
    seconds = seconds_since(began)
    expect_that(seconds < SOON, f"an end within {SOON} s", f"{seconds:.1f} s")


@contextlib.contextmanager
def environment(name, value):
    """Programs that begin now have this in their environment."""
    os.environ[name] = value
    try:
        yield
    finally:
        del os.environ[name]


@case
def twins_at_the_acceptor(field):
    """A node that two nodes of one name dial says it, once, with the name; a node that was
    restarted isn't one of two."""
    a = field.node("a@h")
    for creation in ("7", "8"):
        b = field.node("b@h", "--creation", creation, dial=[a])
        await_nodes(a, ["b@h"])
        b.kill()
        await_nodes(a, [])
    for creation in ("1", "2"):
        field.node("c@h", "--creation", creation, dial=[a], control=False, port=None)
    warning = until("a warning", lambda: a.log("warn twins "))
    expect(
        "the warning",
        ['warn twins peer=c@h reason="two nodes have this name: each ends the link of the other"'],
        warning,
    )
    a.told("! down c@h [0-9]+ replaced")
    a.told("! down c@h [0-9]+ replaced", limit=20)
    expect("such warnings", warning, a.log("warn twins "))


class Mute:
    """A node whose standard error is a full pipe that nobody reads."""

    def __init__(self, field, *options):
        """Starts it with these options."""
        self.reading, writing = os.pipe()
        os.set_blocking(writing, False)
        with contextlib.suppress(BlockingIOError):
            while True:
                os.write(writing, b"x" * 4096)
        os.set_blocking(writing, True)
        words = [
            "--cookie-file",
            field.cookie_file(),
            "--control",
            f"{field.folder}/mute.control",
            *map(str, options),
        ]
        self.process = subprocess.Popen(
            [field.program, "a@h", *words],
            stdin=subprocess.DEVNULL,
            stdout=subprocess.DEVNULL,
            stderr=writing,
        )
        os.close(writing)
        self.control_path = f"{field.folder}/mute.control"
        field.keep(self)

    def close(self):
        """Ends it, whatever it does."""
        self.process.kill()
        self.process.wait()
        os.close(self.reading)


@case
def unread_errors(field):
    """A node whose standard error is never read goes on, however much it has to say there, and ends
    soon behind `quit`."""
    a = Mute(field, "--last-entry", "64", "--audit", "/dev/full")
    until("a control socket", lambda: os.path.exists(a.control_path))
    control = field.keep(Control(a.control_path))
    for _ in range(5):
        use_up(control)
    await_members(control, [member(control)])
    asked(control, "quit")
    began = time.monotonic()
    expect("the status", 1, a.process.wait(LIMIT))
    seconds = seconds_since(began)
    expect_that(seconds < SOON, f"an end within {SOON} s", f"{seconds:.1f} s")
