"""A pg_node process."""

import os
import re
import resource
import subprocess

from talk import Control, Talk
from waiting import LIMIT, expect, expect_that, until

# How a line of the log begins, up to its level.
TIME = re.compile(r"\d{4}-\d\d-\d\dT\d\d:\d\d:\d\d\.\d{3}Z ")

# What bin/pg_node and bin/pg_ask themselves say on standard error, where the program
# isn't proved yet.
WRAPPER = re.compile(r"pg_(node|ask): (this build isn't proved|building without proofs)")


def shown(path):
    """A path as a line names it that says what is wrong with it."""
    return path if len(path) <= 44 else f"..{path[-42:]}"


class Node(Talk):
    """A node with its standard streams. Commands may be asked of it, as of each
    control connection."""

    def __init__(self, program, folder, name, arguments):
        self.name = name
        self.control_path = (
            os.path.join(folder, f"{name}.control") if "--control" in arguments else None
        )
        self.serves = [
            word
            for word in ("--otp-listen", "--listen", "--control", "--control-read", "--http")
            if word in arguments
        ]
        self.errors_path = os.path.join(folder, f"{name}.errors")
        with open(self.errors_path, "ab") as errors:
            self.process = subprocess.Popen(
                [program, name, *arguments],
                stdin=subprocess.PIPE,
                stdout=subprocess.PIPE,
                stderr=errors,
            )
        self.port = None
        self.otp_port = None
        self.http_port = None
        super().__init__(name, self.process.stdout, self._put)

    def _put(self, line):
        self.process.stdin.write(line)
        self.process.stdin.flush()

    def ready(self):
        """Reads the lines that tell what is served."""
        for _ in self.serves:
            line = self._first_line()
            if found := re.fullmatch(r"listening 127\.0\.0\.1:(\d+)", line):
                self.port = int(found[1])
            elif found := re.fullmatch(r"otp-listening 127\.0\.0\.1:(\d+)", line):
                self.otp_port = int(found[1])
            elif found := re.fullmatch(r"http 127\.0\.0\.1:(\d+)", line):
                self.http_port = int(found[1])
            elif line.startswith("control-read "):
                continue
            else:
                expect(f"a first line of {self.name}", f"control {self.control_path}", line)
        return self

    def _first_line(self):
        try:
            return self.next_answer("a first line")
        except AssertionError as fault:
            raise AssertionError(f"{fault}; it said {self.errors()}") from None

    def control(self):
        return Control(self.control_path)

    def errors(self):
        """Its lines on standard error, those of its log that are no warnings left out, each
        without its time."""
        return plain_lines(self.errors_path)

    def log(self, begin=""):
        """Its lines on standard error that begin so, each without its time."""
        return [line for line in log_lines(self.errors_path) if line.startswith(begin)]

    def status(self, limit=LIMIT):
        """The status with which it ends."""
        return until(
            f"an end of {self.name}", self.process.poll, lambda status: status is not None, limit
        )

    def signal(self, number):
        self.process.send_signal(number)

    def kill(self):
        """As a crash: nothing is said to anybody."""
        self.process.kill()
        self.process.wait()

    def quit(self):
        self.ask("quit") if self.process.poll() is None else None
        return self.status()

    def memory(self):
        """Resident memory, in KiB, and threads."""
        with open(f"/proc/{self.process.pid}/status", encoding="ascii") as status:
            fields = dict(line.split(":", 1) for line in status if ":" in line)
        return int(fields["VmRSS"].split()[0]), int(fields["Threads"])


def limit_space(process, more):
    """The process gets so many bytes of address space more than it has, and no further ones: its
    limits before."""
    with open(f"/proc/{process}/statm", encoding="ascii") as sizes:
        have = int(sizes.read().split()[0]) * resource.getpagesize()
    before = resource.prlimit(process, resource.RLIMIT_AS)
    resource.prlimit(process, resource.RLIMIT_AS, (have + more, before[1]))
    return before


def plain_lines(path):
    """What a program said on standard error, into this file, but for what its log has that
    is no warning."""
    return [line for line in log_lines(path) if not line.startswith("info ")]


def log_lines(path):
    """What a program said on standard error, into this file, each line without its time."""
    with open(path, encoding="ascii", errors="replace") as errors:
        return [
            TIME.sub("", line, count=1)
            for line in errors.read().splitlines()
            if not WRAPPER.match(line)
        ]


def new_pid(talk):
    answer = talk.ask("spawn")
    expect_that(answer.startswith("pid "), "a process", answer)
    return answer.split()[1]


def asked(talk, line, answer="ok"):
    """A line that has to be answered so."""
    expect(f"the answer to {line[:60]!r}", answer, talk.ask(line))


def start(talk, scope="pg"):
    """Starts a scope, which may run already."""
    answer = talk.ask(f"start {scope}")
    expect_that(answer in ("ok", "refused 22 ScopeRunning"), f"the scope {scope} to run", answer)


def member(talk, group="g", scope="pg"):
    """A new process of this conversation, joined to a group."""
    start(talk, scope)
    pid = new_pid(talk)
    asked(talk, f"join {scope} {group} {pid}")
    return pid


def await_members(talk, pids, group="g", scope="pg", limit=LIMIT):
    """Until these processes are the members."""
    wanted = sorted(pids, key=pid_order)
    until(
        f"members {wanted} of {group} at {talk.who}",
        lambda: members(talk, group, scope),
        lambda came: came == wanted,
        limit,
    )


def members(talk, group="g", scope="pg"):
    answer = talk.ask(f"members {scope} {group}")
    expect_that(answer.split()[0] == "pids", "a list of processes", answer)
    return sorted(answer.split()[1:], key=pid_order)


def pid_order(pid):
    name, creation, number = pid.rsplit("/", 2)
    return name, int(creation), int(number)


def nodes(talk):
    """The names that are up."""
    answer = talk.ask("nodes")
    expect_that(answer.split()[0] == "nodes", "a list of nodes", answer)
    return sorted(answer.split()[1:])


def await_nodes(talk, names, limit=LIMIT):
    until(
        f"nodes {sorted(names)} up at {talk.who}",
        lambda: nodes(talk),
        lambda came: came == sorted(names),
        limit,
    )


def size(talk):
    """How many entries the audit has."""
    answer = talk.ask("size")
    expect_that(answer.startswith("size "), "the size of the audit", answer)
    return int(answer.split()[1])


def audit(talk, first=1):
    """The entries of the audit from this one on."""
    return [talk.ask(f"audit {number}") for number in range(first, size(talk) + 1)]


class Watch:
    """Looks through a node's audit as it grows."""

    def __init__(self, talk):
        self.talk = talk
        self.seen = size(talk)

    def await_entry(self, text, limit=LIMIT):
        """Until an entry that ends so is there, and gives it."""

        def look():
            entries = audit(self.talk, self.seen + 1)
            self.seen += len(entries)
            return [entry for entry in entries if entry.endswith(text)]

        return until(f"an entry {text!r} in the audit of {self.talk.who}", look, limit=limit)[0]
