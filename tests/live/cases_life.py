"""Files and standard output that fail, the end of a node, its turns, and want of memory."""

import contextlib
import os
import subprocess
import threading
import time

from cases_long import lives_of
from field import case
from node import (
    asked,
    await_members,
    await_nodes,
    limit_space,
    member,
    members,
    new_pid,
    plain_lines,
)
from talk import Control
from waiting import LIMIT, expect, expect_that, seconds_since, until

# Seconds in which a node ends that is told to, on a busy machine.
SOON = 2


class Silent:
    """A node whose standard output the case keeps to itself."""

    def __init__(self, field, *options, stdout=subprocess.PIPE, control=True):
        """Starts it with these options."""
        folder = field.folder
        self.control_path = os.path.join(folder, "silent.control") if control else None
        self.errors_path = os.path.join(folder, f"silent.errors.{time.monotonic_ns()}")
        words = ["--cookie-file", field.cookie_file(), *map(str, options)]
        words += ["--control", self.control_path] if control else []
        with open(self.errors_path, "ab") as errors:
            self.process = subprocess.Popen(
                [field.program, "a@h", *words], stdin=subprocess.PIPE, stdout=stdout, stderr=errors
            )
        self.field = field
        field.keep(self)

    def control(self):
        """A connection, once there is one to be had."""
        until("a control socket", lambda: os.path.exists(self.control_path))
        return self.field.keep(Control(self.control_path))

    def errors(self):
        """Its lines on standard error."""
        return plain_lines(self.errors_path)

    def close(self):
        """Ends it, whatever it does."""
        self.process.kill()
        for stream in (self.process.stdin, self.process.stdout):
            if stream:
                try:
                    stream.close()
                except OSError:
                    pass
        self.process.wait()


def expect_one(what, lines, *words):
    """That there is one line, with these words."""
    is_one = len(lines) == 1 and all(word in lines[0] for word in words)
    expect_that(is_one, f"{what}: one line with {words}", lines)


def use_up(control):
    """Spawns until the node begins anew."""
    turns = len(control.untold("! restarted [0-9]+"))
    for _ in range(2000):
        answer = control.ask("spawn")
        expect_that(answer.startswith("pid "), "a process", answer)
        if len(control.untold("! restarted [0-9]+")) > turns:
            return
    raise AssertionError("expected a turn within 2000 entries, came none")


@case
def audit_file_at_the_start(field):
    """A file for audits that can't be opened is told at the start, by its path, with status 1."""
    node = Silent(field, "--audit", "/nonexistent/audit", "--listen", "127.0.0.1:0")
    expect("the status", 1, node.process.wait(LIMIT))
    expect("its standard output", b"", node.process.stdout.read())
    fault = "error: --audit: /nonexistent/audit: No such file or directory"
    expect_one("its standard error", node.errors(), fault)


@case
def stdout_breaks(field):
    """Where standard output breaks, or is full from the start, a node with a control socket warns
    once and goes on; without one it ends."""
    for stdout, fault in ((None, "Broken pipe"), ("/dev/full", "No space left on device")):
        broken = broken_pipe() if stdout is None else open(stdout, "wb")
        with broken:
            node = Silent(field, "--listen", "127.0.0.1:0", stdout=broken)
            alone = Silent(field, "--listen", "127.0.0.1:0", stdout=broken, control=False)
        control = node.control()
        until("a warning", node.errors)
        expect_one(
            "its standard error", node.errors(), 'warn output reason="standard output: ', fault
        )
        node.process.stdin.write(b"start pg\n" * 3)
        node.process.stdin.flush()
        until(
            "the scope to run",
            lambda: control.ask("start pg"),
            lambda came: came.startswith("refused"),
        )
        member(control)
        asked(control, "quit")
        expect("the status", 0, node.process.wait(LIMIT))
        expect("lines on standard error", 1, len(node.errors()))
        expect("the status without a control socket", 1, alone.process.wait(LIMIT))
        expect_one("its standard error", alone.errors(), "error: standard output: ", fault)


def broken_pipe():
    """The end to write of a pipe that nobody reads."""
    reading, writing = os.pipe()
    os.close(reading)
    return os.fdopen(writing, "wb")


@case
def help_into_a_broken_pipe(field):
    """A text that was asked for and can't be written is a status; an error is told unless it is
    that nobody reads."""
    with broken_pipe() as broken:
        expect("the status and its words", (1, []), help_into(field, broken))
    with open("/dev/full", "wb") as full:
        status, errors = help_into(field, full)
    expect("the status", 1, status)
    expect_one("its standard error", errors, "error: standard output: No space left on device")


def help_into(field, stdout):
    """Asks for the help: the status, and the lines on standard error."""
    done = subprocess.run(
        [field.program, "-h"], stdout=stdout, stderr=subprocess.PIPE, timeout=LIMIT, check=False
    )
    return done.returncode, plain(done.stderr)


def plain(errors):
    """The lines of the program itself."""
    return [line for line in errors.decode().splitlines() if not line.startswith("pg_node: ")]


@case
def quit_behind_unread_output(field):
    """A node ends soon behind `quit`, though nobody reads its standard output."""
    node = Silent(field)
    control = node.control()
    fill_up(node.process.stdin)
    asked(control, "quit")
    began = time.monotonic()
    expect("the status", 0, node.process.wait(LIMIT))
    seconds = seconds_since(began)
    expect_that(seconds < SOON, f"an end within {SOON} s", f"{seconds:.1f} s")


def fill_up(pipe):
    """Asks until the node takes no more, as its answers aren't read."""
    os.set_blocking(pipe.fileno(), False)
    last = time.monotonic()
    while seconds_since(last) < 0.5:
        if pipe.raw.write(b"help\n" * 200):
            last = time.monotonic()
        else:
            time.sleep(0.02)


@case
def output_read_late(field):
    """At the end of standard input all answers come, however late they are read."""
    node = Silent(field, control=False)
    node.process.stdin.write(b"help\n" * 1000)
    node.process.stdin.close()
    time.sleep(1.5)
    ended = node.process.poll()
    expect_that(ended is None, "a node that waits for its reader", ended)
    lines = node.process.stdout.read().splitlines()
    expect("answers", 1000, len(lines))
    expect("the status", 0, node.process.wait(LIMIT))


@case
def no_refusal_at_a_turn(field):
    """While many clients ask without end a node whose entries have few numbers begins anew again
    and again: no call is answered that the audit is full."""
    a = field.node("a@h", "--last-entry", "80")
    b = field.node("b@h", dial=[a])
    asked(a, "start pg")
    asked(b, "start pg")
    strange, ends = [], time.monotonic() + 4
    controls = [field.control(a) for _ in range(6)]
    threads = []
    for control in controls:
        threads.append(threading.Thread(target=ask_on, args=(control, ends, strange)))
        threads[-1].start()
    for thread in threads:
        thread.join()
    expect("answers that nobody understands", [], strange[:3])
    turns = len(controls[0].untold("! restarted [0-9]+"))
    expect_that(turns >= 3, "three turns at least", turns)
    expect("lines on standard error", [], a.errors())
    until("members of one life at b@h", lambda: are_listed(controls, b))


def are_listed(controls, other):
    """Whether processes of these connections that join now are listed at the other node: not where
    a turn comes between."""
    pids = [new_pid(control) for control in controls]
    if any(control.ask(f"join pg last {pid}") != "ok" for control, pid in zip(controls, pids)):
        return False
    for _ in range(100):
        if set(pids) <= set(members(other, "last")):
            return True
        time.sleep(0.02)
    return False


def ask_on(control, ends, strange):
    """Spawns, joins and exits until then."""
    while time.monotonic() < ends:
        pid = new_pid(control)
        for line in (f"join pg g {pid}", f"exit {pid}"):
            answer = control.ask(line)
            if answer not in ("ok", "fault not yours"):
                strange.append((line, answer))


@case
def turn_leaves_the_links(field):
    """Behind a turn the links that a node has dialled, and those that it has taken, are up again
    soon, whatever its old audit has to be closed."""
    path = os.path.join(field.folder, "audit")
    c = field.node("c@h")
    a = field.node("a@h", "--last-entry", "20000", "--audit", path, dial=[c])
    b = field.node("b@h", dial=[a])
    await_nodes(a, ["b@h", "c@h"])
    for other in (b, c):
        other.told("! up a@h .*")
    control = field.control(a)
    spawn_until_restarted(control)
    began, _ = control.told("! restarted [0-9]+")
    late = [other.told("! up a@h .*")[0] - began for other in (b, c)]
    expect_that(max(late) < SOON, f"both links within {SOON} s", late)
    until("the audit that ended", lambda: os.path.getsize(path) > 100_000)


def spawn_until_restarted(control):
    """Uses the audit up, many lines at a time."""
    for _ in range(300):
        control.socket.sendall(b"spawn\n" * 500)
        for _ in range(500):
            control.next_answer("a process")
        if control.untold("! restarted [0-9]+"):
            return
    raise AssertionError("expected a turn, came none")


@case
def memory_at_its_end(field):
    """A node whose memory is at its end begins anew, and says so: a peer has no process of a client
    that is gone, and calls are answered again."""
    with one_arena():
        a = field.node("a@h", "--ticktime", "4000")
    b = field.node("b@h", dial=[a])
    asked(b, "start pg")
    busy, leaving = field.control(a), field.control(a)
    gone, pid = member(leaving), member(busy)
    await_members(b, [gone, pid])
    for _ in range(1000):
        asked(busy, f"leave pg g {pid}")
        asked(busy, f"join pg g {pid}")
    limit_space(a.process.pid, 0)
    want_memory(busy, pid)
    leaving.close()
    await_members(b, [], limit=4)
    busy.told("! restarted [0-9]+")
    until("a warning", lambda: a.log("warn no_memory"))
    expect_one(
        "its standard error",
        a.log("warn no_memory"),
        'warn no_memory reason="out of memory: the node begins anew"',
    )
    again = member(busy)
    await_members(b, [again], limit=10)
    await_members(a, [again])
    asked(busy, "quit")
    expect("the status", 0, a.status())


@contextlib.contextmanager
def one_arena():
    """Programs that begin now take memory from one place alone, so that the end of it shows at
    once."""
    os.environ["MALLOC_ARENA_MAX"] = "1"
    try:
        yield
    finally:
        del os.environ["MALLOC_ARENA_MAX"]


@case
def archive_of_a_node_without_memory(field):
    """What a node kept that ends for want of memory goes to its archive."""
    path = os.path.join(field.folder, "audit")
    with one_arena():
        a = field.node("a@h", "--audit", path, port=None)
    control = field.control(a)
    pid = member(control)
    limit_space(a.process.pid, 0)
    answered = fill_memory(control, pid)
    expect("the status", 1, a.status())
    expect_one("its last line", a.errors()[-1:], "error: out of memory")
    (life,) = lives_of(path)
    expect_that(
        len(life) >= answered,
        f"at least {answered} entries in the archive",
        (len(life), a.errors()[-1:]),
    )


def fill_memory(control, pid):
    """Joins groups of long names until that isn't answered as before: how often it was."""
    for number in range(900):
        try:
            answer = control.ask(f"join pg {number:0255} {pid}")
        except (AssertionError, OSError):
            return number
        if answer != "ok":
            return number
    raise AssertionError("expected an end of memory within 900 calls, came none")


def want_memory(control, pid):
    """Joins and leaves until that isn't answered as before."""
    for _ in range(20_000):
        for word in ("leave", "join"):
            answer = control.ask(f"{word} pg g {pid}")
            if answer != "ok" or control.untold("! restarted [0-9]+"):
                return
    raise AssertionError("expected an end of memory within 40,000 calls, came none")
