#!/usr/bin/env python3
"""Figures of links with stock nodes of OTP, beside two stock nodes with each other, by turns in one
run on this machine: otp_link.py [PROGRAM] [--quick] [--flood N].

A stock node asks (otp_link.erl), linked with its peer: a pg_node, or another stock node. As a
client of a Unix socket of the peer it writes and reads lines: a stock peer serves it, too, by the
calls of pg that they say. So all times are by one clock, and none is of Python. Beside it, "by pg's
calls": stock nodes without sockets and lines, so what these cost is in pg_node's column alone. That
is the first figure: a line that changes nothing, and its answer. A sync lasts from the link's being
up at the stock node to the news of its last row; then all rows are there, which is looked at.

Wanted: joins at most 1.2 of the two stock nodes, syncs at most 1.5, joins and leaves a second at
least theirs; behind a flood no entry more, and no memory."""

import collections
import os
import re
import shutil
import statistics
import subprocess
import sys
import time

sys.dont_write_bytecode = True
HERE = os.path.dirname(os.path.realpath(__file__))
sys.path[:0] = [os.path.join(HERE, "../tests/otp"), os.path.join(HERE, "../tests/live")]
sys.path.append(os.path.join(HERE, "../tests"))

from command_line import CommandLine
from node import asked, new_pid
from stock import OtpField, up
from waiting import until

ROUNDS = 10
JOINS = 100  # single joins a round, and 20 milliseconds before each
ROWS = 4096
PAIRS = 10_000  # of joins and leaves in a burst, one burst a round
LINKS = 8
FLOOD = 1_000_000
LIMIT = 600  # seconds for a measure
LINE, OUT, IN, CALLED = [(measure, JOINS) for measure in ("line", "out", "in", "called")]
SYNCS = [(way, ROWS, groups) for groups in (1, ROWS - 1) for way in ("sync_out", "sync_in")]
TOLD, TOLD_CALLED, HEARD = [(measure, PAIRS) for measure in ("told", "told_called", "heard")]
MEASURES = [LINE, OUT, IN, CALLED, *SYNCS, TOLD, TOLD_CALLED, HEARD]


class Field(OtpField):
    """A field whose stock nodes measure."""

    def beams(self):
        folder = super().beams()
        if not os.path.exists(os.path.join(folder, "otp_link.beam")):
            subprocess.check_call(["erlc", "-o", folder, os.path.join(HERE, "otp_link.erl")])
        return folder

    def alone(self, name, *options):
        """A stock node that connects to none by itself."""
        return self.stock(f"{name}@127.0.0.1", "-connect_all", "false", *options)


class Pair:
    """A stock node that asks, and its peer at a Unix socket."""

    def __init__(self, asking, peer, path, is_stock):
        self.asking, self.peer, self.path, self.is_stock = asking, peer, path, is_stock
        asking.connect(peer.name)

    def times(self, measure, *words):
        """The nanoseconds of a measure."""
        words = ", ".join([f'"{self.path}"', f"'{self.peer.name}'", *map(str, words)])
        came = self.asking.ask(f"otp_link:{measure}({words})", LIMIT)
        assert re.fullmatch(r"\[[\d,]+\]", came), f"{measure} gave {came}"
        return [int(word) for word in came[1:-1].split(",")]


def pairs(field):
    """A pg_node and who asks it, and two stock nodes."""
    field.epmd()
    own, other = field.worker(), field.alone("other")
    path = os.path.join(field.folder, "other.control")
    other.ask(f'otp_link:serve("{path}")')
    return [
        Pair(field.alone("asks_own"), own, own.control_path, False),
        Pair(field.alone("asks_other"), other, path, True),
    ]


def measured(field, rounds):
    """The nanoseconds of each measure, those of pg_node, and those of stock nodes."""
    came = collections.defaultdict(list)
    both = pairs(field)
    for number in range(rounds):
        for measure in MEASURES:
            playing = both[1:] if measure in (CALLED, TOLD_CALLED) else both
            for pair in playing[:: 1 if number % 2 else -1]:
                before = processor_time(pair.peer)
                came[measure, pair.is_stock] += pair.times(*measure)
                came[measure, pair.is_stock, "cpu"].append(processor_time(pair.peer) - before)
    return came


def processor_time(node):
    """The seconds of all its threads."""
    with open(f"/proc/{node.process.pid}/stat", encoding="ascii") as stat:
        fields = stat.read().rsplit(")", 1)[1].split()
    return (int(fields[11]) + int(fields[12])) / os.sysconf("SC_CLK_TCK")


def row(name, own, other=None):
    """A line of the table."""
    beside = "-" if other is None else f"{other:,.1f}"
    ratio = f"{own / other:.2f}" if other else "-"
    print(f"{name:<70} {own:>11,.1f} {beside:>11} {ratio:>7}", flush=True)


def singles(name, own, other):
    """The lines of what came singly: the median, and the least that 95 of 100 keep to."""
    for part, of in (("median", statistics.median), ("95 of 100", spread)):
        row(f"{name}, us: {part}", of(own) / 1e3, of(other) / 1e3)


def spread(times):
    return statistics.quantiles(times, n=20)[-1]


def tell(came):
    """The lines of what was measured by turns."""
    singles("a line and its answer", came[LINE, False], came[LINE, True])
    for name, measure in (
        ("a join at it to the news at a stock node", OUT),
        ("a join at a stock node to the news at it", IN),
    ):
        singles(name, came[measure, False], came[measure, True])
        singles("the same, stock nodes by pg's calls", came[measure, False], came[CALLED, True])
    for way, rows, groups in SYNCS:
        end = "to" if way == "sync_out" else "of"
        own, other = (statistics.median(came[(way, rows, groups), of]) for of in (False, True))
        many = "2 groups" if groups == 1 else f"{groups + 1:,} groups"
        row(f"a sync {end} a stock node, {rows:,} rows in {many}, ms", own / 1e6, other / 1e6)
    bursts("joins and leaves told to a stock node", came, TOLD, TOLD)
    bursts("the same, stock nodes by pg's calls", came, TOLD, TOLD_CALLED)
    bursts("joins and leaves of a stock node heard", came, HEARD, HEARD)


def bursts(name, came, own, other):
    """The lines of bursts."""
    sides = (own, False), (other, True)
    row(f"{name}, a second", *(2 * PAIRS / statistics.median(came[side]) * 1e9 for side in sides))
    row(
        f"{name}: processor time of it, us each",
        *(statistics.mean(came[(*side, "cpu")]) / (2 * PAIRS) * 1e6 for side in sides),
    )


def resident(node, which="VmRSS"):
    """Resident memory in KiB, or the most that it was (VmHWM)."""
    with open(f"/proc/{node.process.pid}/status", encoding="ascii") as status:
        return int(re.search(rf"{which}:\s+(\d+)", status.read())[1])


def linked(hub, stocks, is_up):
    """The memory that a link with each of these stock nodes adds."""
    time.sleep(1)
    before = resident(hub)
    for stock in stocks:
        stock.connect(hub.name)
        is_up(stock.name)
    time.sleep(1)
    return (resident(hub) - before) / len(stocks)


def flooded(hub, stock, count):
    """Messages a second to a member of a hub, and the KiB that its memory has more behind the first
    tenth of them, behind all, and at its most."""
    until("the member", lambda: stock.ask("length(pg:get_members(jobs, flood))"), "1".__eq__)
    came = [resident(hub)]
    for some in (count // 10, count - count // 10):
        taken = int(stock.ask(f"otp_link:flood(flood, {some})", LIMIT)[1:-1])
        came.append(resident(hub))
    return [some / taken * 1e9] + [kib - came[0] for kib in (*came[1:], resident(hub, "VmHWM"))]


def entries(node):
    return int(re.search(r" entries=(\d+)", node.ask("status"))[1])


def memory(field, links, count):
    """The lines of links' memory, and of a flood."""
    field.epmd()
    own, other = field.worker(), field.alone("hub")
    stocks = [field.alone(f"s{number}", "+S", "1") for number in range(links)]
    of_own = linked(own, stocks, lambda name: up(own, name))
    asked(own, f"join jobs flood {new_pid(own)}")
    before = entries(own)
    flood = flooded(own, stocks[0], count)
    more = entries(own) - before
    for stock in stocks:
        stock.ask(f"erlang:disconnect_node('{own.name}'), timer:sleep(300)")
    of_other = linked(other, stocks, lambda name: until(name, lambda: name in other.knows()))
    other.ask("pg:join(jobs, flood, spawn(fun otp_link:sink/0))")
    beside = flooded(other, stocks[0], count)
    row(f"memory of a link with a stock node, of {links}, KiB", of_own, of_other)
    row(f"{count:,} messages to a member, a second", flood[0], beside[0])
    row("the same: entries more of the audit", more)
    for place, when in enumerate(("behind a tenth", "behind all", "at its most"), 1):
        row(f"the same: memory more {when}, KiB", flood[place], beside[place])


def options():
    parser = CommandLine(__doc__)
    parser.add_argument("program", nargs="?", default=os.path.join(HERE, "../bin/pg_node"))
    parser.add_argument("--quick", action="store_true", help="a tenth of all")
    parser.add_argument("--flood", type=int, default=FLOOD, help="messages of the flood")
    wanted = parser.parse_args()
    wanted.program = parser.need_program(wanted.program, "bin/build")
    if not all(shutil.which(word) for word in ("erl", "erlc", "epmd")):
        parser.error("there is no erl here")
    return wanted


def main():
    wanted = options()
    program, part = wanted.program, 10 if wanted.quick else 1
    print(f"load of the machine before: {' '.join(f'{load:.1f}' for load in os.getloadavg())}")
    print(f"{'':<70} {'pg_node':>11} {'stock':>11} {'ratio':>7}", flush=True)
    with Field(program, None) as field:
        tell(measured(field, ROUNDS // part))
        field.check_errors()
    with Field(program, None) as field:
        memory(field, max(2, LINKS // part), wanted.flood // part)
        field.check_errors()


if __name__ == "__main__":
    main()
