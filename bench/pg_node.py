#!/usr/bin/env python3
"""Figures of pg_node over real sockets on this machine, beside OTP's own pg with two nodes where
`escript` is installed, all from this one run.

They are by the clock of this script, which writes lines to Unix sockets and reads them, those of
pg_node and those of a node of OTP alike (pg_node.escript): its own time is in both columns. A word
names another program than the one that bin/build makes."""

import os
import re
import shutil
import socket
import statistics
import subprocess
import sys
import threading
import time

sys.dont_write_bytecode = True
HERE = os.path.dirname(os.path.realpath(__file__))
sys.path.insert(0, os.path.join(HERE, "../tests/live"))
sys.path.append(os.path.join(HERE, "../tests"))

from cases_crowd import Flood
from command_line import CommandLine
from field import Field
from waiting import until

JOINS = 500
PAUSE = 0.02  # seconds between joins that come singly
STARTS = 11
BURSTS = {1: 2000, 8: 1000, 60: 200}  # how many joins are told to so many peers
CALLS = 500
MEMBERS = 3000  # of the group that a client asks for again and again
LIMIT = 120


class Lines:
    """A control connection. Who waits for a line reads it, with no thread between."""

    def __init__(self, node):
        self.socket = socket.socket(socket.AF_UNIX)
        self.socket.settimeout(LIMIT)
        self.socket.connect(node.control_path)
        self.lines = self.socket.makefile("rb")

    def send(self, text):
        self.socket.sendall(text.encode())

    def answer(self):
        while (line := self.lines.readline()).startswith(b"! "):
            pass
        assert line, "the end of lines before an answer"
        return line.decode().split()

    def ask(self, line):
        self.send(line + "\n")
        return self.answer()

    def await_news(self, begin):
        while not (line := self.lines.readline()).startswith(begin):
            assert line, f"the end of lines before {begin}"


class Otp:
    """A node of OTP, which serves a control socket as pg_node does."""

    def __init__(self, field, name, dial):
        self.name, self.control_path = f"{name}@127.0.0.1", os.path.join(
            field.folder, f"{name}.otp"
        )
        flags = (
            f"-name {self.name} -setcookie bench -connect_all false"
            " -kernel inet_dist_use_interface {127,0,0,1}"
        )
        words = [
            "escript",
            os.path.join(HERE, "pg_node.escript"),
            self.control_path,
            *(other.name for other in dial),
        ]
        self.process = subprocess.Popen(
            words,
            env={**os.environ, "ERL_FLAGS": flags, "ERL_EPMD_ADDRESS": "127.0.0.1"},
            stdin=subprocess.PIPE,
            stdout=subprocess.PIPE,
        )
        field.keep(self)

    def ready(self):
        assert self.process.stdout.readline() == b"ready\n", f"{self.name} doesn't begin"
        return self

    def close(self):
        self.process.stdin.close()
        self.process.wait()


def begin_own(field, name, *dial):
    """A pg_node that dials these."""
    words = [word for other in dial for word in ("--dial", f"{other.name}=127.0.0.1:{other.port}")]
    return field.start(f"{name}@h", *words)


def begin_otp(field, name, *dial):
    return Otp(field, name, dial)


def memory(node):
    """Resident memory, in KiB."""
    with open(f"/proc/{node.process.pid}/status", encoding="ascii") as status:
        return int(re.search(r"VmRSS:\s+(\d+)", status.read())[1])


def linked(field, begin, peers):
    """A node and its peers, all linked."""
    hub = begin(field, "hub").ready()
    watching = Lines(hub)
    watching.ask("size")  # (answered, so it is told of each peer that comes up)
    others = [begin(field, f"peer{number}", hub) for number in range(peers)]
    for node in others:
        node.ready()
    for _ in others:
        watching.await_news(b"! up ")
    return hub, others


def a_member(node):
    """A connection, and the text of a process of it."""
    lines = Lines(node)
    lines.ask("start pg")
    return lines, lines.ask("spawn")[1]


def watchers(nodes, group):
    """A connection to each node, which watches a group."""
    result = [Lines(node) for node in nodes]
    for lines in result:
        lines.ask("start pg")
        lines.ask(f"monitor pg {group}")
    return result


def await_rows(joining, watching, pid):
    """Until the nodes tell each other of their scopes."""
    joining.ask(f"join pg last {pid}")
    await_members(watching, 1)
    joining.ask(f"leave pg last {pid}")
    await_members(watching, 0)


def await_members(watching, count):
    """Until so many are in the group."""
    for lines in watching:
        until(
            f"{count} members",
            lambda: len(lines.ask("members pg last")) - 1,
            count.__eq__,
            pause=0.01,
        )


def join_to_news(field, begin, pause):
    """Milliseconds from the line of a join on one node to the pushed line on another: median, and
    the least that 95 of 100 keep to."""
    hub, others = linked(field, begin, 1)
    joining, pid = a_member(hub)
    (watching,) = watchers(others, "g")
    await_rows(joining, [watching], pid)
    times = []
    for _ in range(JOINS):
        began = time.perf_counter()
        joining.send(f"join pg g {pid}\n")
        watching.await_news(b"! join")
        times.append((time.perf_counter() - began) * 1000)
        joining.answer()
        joining.ask(f"leave pg g {pid}")
        watching.await_news(b"! leave")
        time.sleep(pause)
    return statistics.median(times), statistics.quantiles(times, n=20)[-1]


def joins_told(field, begin, peers):
    """Joins and leaves a second that reach this many peers, until the last of them was pushed
    the last line."""
    hub, others = linked(field, begin, peers)
    joining, pid = a_member(hub)
    watching = watchers(others, "last")
    await_rows(joining, watching, pid)
    pairs = BURSTS[peers]
    began = time.perf_counter()
    lines = f"join pg g {pid}\nleave pg g {pid}\n" * pairs + f"join pg last {pid}\n"
    sender = threading.Thread(target=joining.send, args=(lines,))
    sender.start()
    for _ in range(2 * pairs + 1):
        assert joining.answer() == ["ok"], "a join or a leave is refused"
    for peer in watching:
        peer.await_news(b"! join")
    sender.join()
    return 2 * pairs / (time.perf_counter() - began)


def single_calls(lines, pid):
    """Milliseconds of calls that come singly: median, and the least that 95 of 100 keep to."""
    times = []
    for number in range(CALLS):
        began = time.perf_counter()
        lines.ask(f"{'leave' if number % 2 else 'join'} pg quiet {pid}")
        times.append((time.perf_counter() - began) * 1000)
        time.sleep(PAUSE / 5)
    return statistics.median(times), statistics.quantiles(times, n=20)[-1]


def calls_alone(field, begin):
    """Single calls of the only client."""
    return single_calls(*a_member(begin(field, "hub").ready()))


def calls_beside_joins(field, begin):
    """Single calls beside a client that joins and leaves as fast as it can write lines."""
    hub = begin(field, "hub").ready()
    lines, pid = a_member(hub)
    Flood(field, hub)
    return single_calls(lines, pid)


def calls_beside_lists(field, begin):
    """Single calls beside two clients that ask for a long list of members as fast as they can."""
    hub = begin(field, "hub").ready()
    lines, pid = a_member(hub)
    for _ in range(MEMBERS // 50):
        pids = [lines.ask("spawn")[1] for _ in range(50)]
        lines.ask(f"join pg long {' '.join(pids)}")
    for _ in range(2):
        Flood(field, hub, "members pg long\n")
    return single_calls(lines, pid)


def start_to_up(field, begin):
    """Milliseconds from the start of a process to the news of its link at the other
    end, the median."""
    hub = begin(field, "hub").ready()
    watching = Lines(hub)
    watching.ask("size")
    times = []
    for number in range(STARTS):
        began = time.perf_counter()
        node = begin(field, f"peer{number}", hub)
        watching.await_news(b"! up ")
        times.append((time.perf_counter() - began) * 1000)
        node.ready()
    return statistics.median(times)


def idle_memory(field, begin):
    return memory(begin(field, "idle").ready()) / 1024


def link_memory(field, begin):
    """Resident memory that 60 links add, in KiB a link."""
    alone = memory(begin(field, "idle").ready())
    hub, _ = linked(field, begin, 60)
    return (memory(hub) - alone) / 60


class Table:
    """The rows as they are measured: each in a field of its own, so that no nodes of one row are
    there in the next."""

    def __init__(self, program, has_otp):
        self.program, self.has_otp = program, has_otp
        self._print("", "pg_node", "OTP", "ratio")

    def _print(self, *cells):
        print("{:<72} {:>10} {:>10} {:>8}".format(*cells), flush=True)

    def figure(self, measure, begin, *words):
        with Field(self.program, None) as field:
            return measure(field, begin, *words)

    def row(self, title, measure, *words, beside=True):
        """A row, or one for each name in the title, where the measure gives several figures."""
        own = self.figure(measure, begin_own, *words)
        other = self.figure(measure, begin_otp, *words) if beside and self.has_otp else None
        if isinstance(own, float):
            own, other, titles = [own], other and [other], [title]
        else:
            titles = [f"{title}: {part}" for part in ("median", "95 of 100")]
        for place, name in enumerate(titles):
            if other:
                self._print(
                    name,
                    f"{own[place]:.2f}",
                    f"{other[place]:.2f}",
                    f"{own[place] / other[place]:.2f}",
                )
            else:
                self._print(name, f"{own[place]:.2f}", "-", "-")


def main():
    reader = CommandLine(__doc__)
    reader.add_argument(
        "program", nargs="?", default=os.path.join(HERE, "../crates/pg_node/out/pg_node")
    )
    program = reader.parse_args().program
    program = reader.need_program(program, "bin/build")
    print(f"load of the machine before: {' '.join(f'{load:.1f}' for load in os.getloadavg())}")
    table = Table(program, shutil.which("escript") is not None)
    table.row(
        "a join on one node to the news on another, singly, milliseconds", join_to_news, PAUSE
    )
    table.row("the same, each right behind the last", join_to_news, 0)
    table.row("joins and leaves told to 1 peer, a second", joins_told, 1)
    table.row("the same to 8 peers", joins_told, 8, beside=False)
    table.row("the same to 60 peers", joins_told, 60, beside=False)
    table.row("a single call, milliseconds", calls_alone)
    table.row("the same beside a client that joins and leaves without end", calls_beside_joins)
    table.row(f"the same beside two that ask for {MEMBERS} members without end", calls_beside_lists)
    table.row("start of a process to its link up, milliseconds", start_to_up)
    table.row("memory of an idle node, MiB", idle_memory)
    table.row("memory of a link, KiB", link_memory, beside=False)


if __name__ == "__main__":
    main()
