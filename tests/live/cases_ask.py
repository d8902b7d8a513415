"""pg_ask: a node asked from a shell, and a process of a shell in a group."""

import json
import os
import re
import signal
import subprocess
import time

from archives import fill
from field import case
from node import asked, audit, await_members, await_nodes, member, members, plain_lines, size, start
from waiting import LIMIT, expect, expect_that, seconds_since, until


class Asking:
    """A pg_ask that runs."""

    def __init__(self, field, *words, stdin=subprocess.DEVNULL):
        self.errors_path = os.path.join(field.folder, f"ask.errors.{time.monotonic_ns()}")
        with open(self.errors_path, "ab") as errors:
            self.process = subprocess.Popen(
                [field.ask_program, *map(str, words)],
                stdin=stdin,
                stdout=subprocess.PIPE,
                stderr=errors,
                text=True,
            )
        field.keep(self)

    def line(self):
        """The next line that it prints, without its line feed."""
        return self.process.stdout.readline().rstrip("\n")

    def end(self, limit=LIMIT):
        """What it still prints, and the status with which it ends."""
        rest, _ = self.process.communicate(timeout=limit)
        return rest, self.process.returncode

    def errors(self):
        """Its lines on standard error."""
        return plain_lines(self.errors_path)

    def close(self):
        """Ends it, whatever it does."""
        self.process.kill()
        self.process.wait()
        for stream in (self.process.stdin, self.process.stdout):
            if stream:
                stream.close()


def expect_asked(field, words, lines, status):
    """That these words are answered by these lines, and end with this status."""
    asking = Asking(field, *words)
    came = asking.end()
    expect(f"the answer and the status of {words}", (lines, status), came)
    return asking.errors()


@case
def asked_from_a_shell(field):
    """pg_ask prints the answer alone, and ends with status 0, with 1 where a rule refuses it,
    with 2 at a fault."""
    a = field.node("a@h")
    b = field.node("b@h", dial=[a])
    await_nodes(a, ["b@h"])
    for words, line, status in (
        (["nodes"], "nodes b@h", 0),
        (["start", "pg"], "ok", 0),
        (["start pg"], "refused 22 ScopeRunning", 1),
        (["members", "pg", "g"], "pids", 0),
        (["spwan"], "fault no such command: spwan", 2),
        (["take"], "fault no such command: take", 2),
        (["exit", "a@h/1/1"], "fault not yours", 2),
        (["leave", "s", "g"], "refused 14 NoScope", 1),
    ):
        errors = expect_asked(field, [a.control_path, *words], f"{line}\n", status)
        expect("lines on standard error", [], errors)
    expect_asked(field, [b.control_path, "quit"], "ok\n", 0)
    expect("the status of the node", 0, b.status())


@case
def asked_by_a_line_on_standard_input(field):
    """With - pg_ask says the line on its standard input, as a cookie that no other user is to see;
    it takes no second one."""
    a = field.node("a@h")
    for text, status, said in (
        (b"cookie_for b@h secret\n", 0, ""),
        (b"nodes", 0, ""),
        (b"start  pg\n", 2, ""),
        (b"spwan\n", 2, ""),
        (b"nodes\nquit\n", 2, "standard input: more than one line"),
        (b"", 2, "it isn't one line"),
        (b"\xff\n", 2, "standard input: it isn't UTF-8"),
        (b"n" * 65537, 2, "more than 65536 bytes"),
    ):
        done = subprocess.run(
            [field.ask_program, a.control_path, "-"],
            input=text,
            capture_output=True,
            timeout=LIMIT,
            check=False,
        )
        errors = [line for line in done.stderr.decode().splitlines() if line.startswith("error")]
        expect(f"the status of {text[:20]!r}", status, done.returncode)
        expect_that(
            said in errors[0] if said else not errors,
            f"{said!r} for {text[:20]!r}",
            (errors, done.stdout),
        )
    waiting = Asking(field, "--timeout", 300, a.control_path, "-", stdin=subprocess.PIPE)
    expect("the status where the line doesn't end", 3, waiting.process.wait(LIMIT))
    expect_asked(field, [a.control_path, "nodes"], "nodes\n", 0)


@case
def asked_where_no_node_answers(field):
    """Where no node answers, or not in time, pg_ask ends with status 3 and a line that says so; at
    a fault of its words with 2."""
    a = field.node("a@h")
    for words, status, reason in (
        (["--timeout", "500", a.control_path, "nodes"], 3, "error: no answer within 500 ms"),
        ([os.path.join(field.folder, "none"), "nodes"], 3, "No such file"),
        ([a.control_path, "# quiet"], 2, "COMMAND"),
        ([a.control_path, "nodes\nquit"], 2, "COMMAND"),
        ([a.control_path, "hold", "pg"], 2, "hold"),
        ([a.control_path], 2, "COMMAND"),
        ([a.control_path, "hold pg g"], 2, "hold, SCOPE and GROUP are words of their own"),
        (["--timeout", "0", a.control_path, "nodes"], 2, "--timeout"),
    ):
        a.signal(signal.SIGSTOP)
        began = time.monotonic()
        errors = expect_asked(field, words, "", status)
        expect_that(
            len(errors) == 1 and reason in errors[0],
            f"one line with {reason!r} for {words}",
            errors,
        )
        expect_that(seconds_since(began) < 20, "an end in time", seconds_since(began))
        a.signal(signal.SIGCONT)
    a.kill()
    errors = expect_asked(field, [a.control_path, "nodes"], "", 3)
    expect_that("refused" in errors[0], "a line on a socket that nobody answers at", errors)


@case
def asked_of_a_full_node(field):
    """Where a node has no room for a client, pg_ask prints that, and ends with status 2."""
    a = field.node("a@h", "--clients", "1")
    control = field.control(a)
    asked(control, "nodes", "nodes")
    expect_asked(field, [a.control_path, "nodes"], "fault full\n", 2)


@case
def asked_for_json(field):
    """With --json each line is an object: the first word is the answer, or the news, and the
    others are values."""
    a = field.node("a@h", "--creation", "7")
    pid = member(a, group='"g"')
    for words, wanted in (
        (["groups", "pg"], {"answer": "groups", "values": ['"g"']}),
        (["members", "pg", '"g"'], {"answer": "pids", "values": [pid]}),
        (["nodes"], {"answer": "nodes", "values": []}),
        (["stop", "s"], {"answer": "refused", "values": ["14", "NoScope"]}),
    ):
        came, _ = Asking(field, "--json", a.control_path, *words).end()
        expect(f"the answer to {words}", wanted, json.loads(came))
    following = Asking(field, "--json", "--follow", a.control_path, "monitor_scope", "pg")
    answer = json.loads(following.line())
    number = answer["values"].pop(0)
    expect("the first answer", {"answer": "ref", "values": ['"g"', "1", pid]}, answer)
    asked(a, f'leave pg "g" {pid}')
    expect(
        "news", {"news": "leave", "values": [number, '"g"', "1", pid]}, json.loads(following.line())
    )


@case
def followed_from_a_shell(field):
    """With --follow pg_ask prints what comes unasked, at once, until the node is gone, and ends
    with status 3."""
    a = field.node("a@h")
    start(a)
    following = Asking(field, "--follow", "--timeout", "5000", a.control_path, "monitor", "pg", "g")
    number = following.line().split()[1]
    pid = member(a)
    expect("news of a member", f"! join {number} g 1 {pid}", following.line())
    b = field.node("b@h", "--creation", "5", dial=[a])
    expect("news of a peer", "! up b@h 5 visible", following.line())
    b.quit()
    expect("news of its end", "! down b@h 5 closed", following.line())
    a.quit()
    expect("the end", ("", 3), following.end())
    expect("its reason", ["error: the node is gone"], following.errors())


@case
def held_from_a_shell(field):
    """`pg_ask hold` is a process in a group until its standard input ends, also where the scope
    didn't run; then it is gone at once."""
    a = field.node("a@h")
    holding = Asking(field, a.control_path, "hold", "jobs", "printers", stdin=subprocess.PIPE)
    pid = re.fullmatch("pid (.*)", holding.line())[1]
    expect("the members", [pid], members(a, "printers", "jobs"))
    holding.process.stdin.write("any text\n")
    holding.process.stdin.flush()
    number = a.ask("monitor jobs printers").split()[1]
    holding.process.stdin.close()
    a.told(f"! leave {number} printers 1 {pid}")
    expect(
        "the status", 0, until("its end", holding.process.poll, lambda status: status is not None)
    )


@case
def held_through_turns_and_stops(field):
    """`pg_ask hold` joins again as a new process where the node begins anew, and where the
    scope was stopped; it ends with status 3 where the node is gone, and with 1 where a
    rule refuses it."""
    a = field.node("a@h", "--last-entry", "100", "--creation", "41")
    holding = Asking(field, a.control_path, "hold", "jobs", "printers", stdin=subprocess.PIPE)
    expect("its process", "pid a@h/41/1", holding.line())
    while not a.untold("! restarted .*"):
        a.ask("spawn")
    expect("its process of the next life", "pid a@h/42/", holding.line()[:11])
    asked(a, "stop jobs")
    again = re.fullmatch("pid (.*)", holding.line())[1]
    await_members(a, [again], "printers", "jobs")
    a.quit()
    expect("the end", ("", 3), holding.end())
    b = field.node("b@h")
    for number in range(64):
        start(b, f"scope{number}")
    refused = Asking(field, b.control_path, "hold", "jobs", "printers", stdin=subprocess.PIPE)
    line, status = refused.end()
    expect_that(line.startswith("refused ") and status == 1, "a refusal", (line, status))


@case
def held_while_it_is_followed(field):
    """`pg_ask hold` joins again where it shows what comes unasked, too, as lines and as JSON; the
    process that a stop has left alone exits."""
    a = field.node("a@h", "--creation", "41")
    for number, words in enumerate(((), ("--follow",), ("--follow", "--json"))):
        group = f"g{number}"
        holding = Asking(
            field, *words, a.control_path, "hold", "jobs", group, stdin=subprocess.PIPE
        )
        first = re.search(r"a@h/41/\d+", holding.line())[0]
        await_members(a, [first], group, "jobs")
        before = size(a)
        asked(a, "stop jobs")
        second = next(
            found[0]
            for line in iter(holding.line, "")
            if (found := re.search(r"a@h/41/\d+", line)) and found[0] != first
        )
        await_members(a, [second], group, "jobs")
        expect_that(
            any(" Exit " in entry for entry in audit(a, before)),
            "the exit of the process of before",
            audit(a, before),
        )
        holding.close()


@case
def held_through_stops_in_a_row(field):
    """`pg_ask hold` joins again however close one stop of its scope comes behind another."""
    a = field.node("a@h")
    holding = [
        Asking(field, a.control_path, "hold", "jobs", "printers", stdin=subprocess.PIPE)
        for _ in range(3)
    ]
    for held in holding:
        held.line()
    for _ in range(60):
        a.ask("stop jobs")
    until(
        "all of them",
        lambda: members(a, "printers", "jobs") if a.ask("groups jobs").startswith("groups") else [],
        lambda came: len(came) == len(holding),
    )
    expect(
        "those that have ended", [], [held for held in holding if held.process.poll() is not None]
    )


@case
def answer_that_is_read_slowly(field):
    """The time for an answer ends when it has come: a long one is printed whole, however
    slowly it is read."""
    a = field.node("a@h")
    start(a)
    pid = a.ask("spawn").split()[1]
    for _ in range(40):
        asked(a, "join pg g" + f" {pid}" * 100)
    answer = a.ask("members pg g")
    slow = Asking(field, "--timeout", 1000, a.control_path, "members", "pg", "g")
    time.sleep(2)
    expect("the answer and the status", (answer + "\n", 0), slow.end())


@case
def ended_from_a_shell(field):
    """Where a line ends the node pg_ask does so behind it: then the archive is written, and whoever
    kills what is left loses nothing."""
    for line in ("quit", "drain"):
        path = os.path.join(field.folder, line)
        a = field.node("a@h", "--audit", path)
        start(a)
        fill(a, member(a), 20_000)
        expect_asked(field, ("--timeout", 60_000, a.control_path, line), "ok\n", 0)
        written = os.path.getsize(path)
        expect_that(not os.path.exists(a.control_path), "no control socket", a.control_path)
        expect("the status", 0, a.status())
        expect("what is written behind it", 0, os.path.getsize(path) - written)


@case
def held_for_a_program_that_is_killed(field):
    """The shell's line of the page ties a group to a program: when the program is killed, its
    process has left."""
    a = field.node("a@h")
    start(a, "jobs")
    line = 'sh -c "echo \\$\\$ > \\"$3\\"; exec sleep 600" 3>&1 >&2 | "$1" "$2" hold jobs printers'
    path = os.path.join(field.folder, "number")
    shell = field.keep(Shell(["sh", "-c", line, "sh", field.ask_program, a.control_path, path]))
    until("a member", lambda: members(a, "printers", "jobs"))
    number = int(until("the number of the program", lambda: read(path)))
    os.kill(number, signal.SIGKILL)
    await_members(a, [], "printers", "jobs")
    expect("the status of the shell's line", 0, shell.process.wait(LIMIT))


class Shell:
    """A shell's line that runs."""

    def __init__(self, words):
        self.process = subprocess.Popen(
            words,
            stdin=subprocess.DEVNULL,
            stdout=subprocess.DEVNULL,
            stderr=subprocess.DEVNULL,
            start_new_session=True,
        )

    def close(self):
        """Ends all of it."""
        try:
            os.killpg(self.process.pid, signal.SIGKILL)
        except ProcessLookupError:
            pass
        self.process.wait()


def read(path):
    """What stands in a file, or nothing where there is none."""
    try:
        with open(path, encoding="ascii") as file:
            return file.read().strip()
    except OSError:
        return ""
