#!/usr/bin/env python3
"""How long a node is without its links at a turn, and how long its end takes:
bench/turns.py [PROGRAM] [--rounds N].

A node dials 16 peers. Medians of the rounds, in milliseconds, and as shares of the first: from its
start until all links are up; at a turn to a new life, behind 100,000 entries, from the first peer
that a client is told down until all are told up again; the longest time there for 500 lines and
their answers, beside the usual one; and from `quit` to the end of the program, which writes 100,000
entries to its archive."""

import os
import statistics
import sys
import threading
import time

sys.dont_write_bytecode = True
HERE = os.path.dirname(os.path.realpath(__file__))
sys.path.insert(0, os.path.join(HERE, "../tests/live"))
sys.path.insert(0, HERE)
sys.path.append(os.path.join(HERE, "../tests"))

from command_line import CommandLine, from_1
from field import Field
from pg_node import Lines, a_member

PEERS = 16
ENTRIES = 100_000
# A node begins anew a sixteenth before the last of its numbers.
LAST = ENTRIES * 16 // 15
# Lines that are sent before their answers are read.
BUNDLE = 500


def options():
    """The program, and how many rounds there are."""
    parser = CommandLine(__doc__)
    parser.add_argument("program", nargs="?", default=os.path.join(HERE, "../bin/pg_node"))
    parser.add_argument("--rounds", type=from_1, default=7)
    wanted = parser.parse_args()
    wanted.program = parser.need_program(wanted.program, "bin/build")
    return wanted


def linked(field, name, peers, *words):
    """A node that dials all of these, and the seconds from its start until its links are up."""
    began = time.monotonic()
    node = field.node(name, *words, dial=peers)
    lines = Lines(node)
    while len(lines.ask("nodes")) <= len(peers):
        time.sleep(0.001)
    return node, time.monotonic() - began


class Gap(threading.Thread):
    """Reads what a client is told, until all peers have gone and come again: how long that took."""

    def __init__(self, node):
        super().__init__(daemon=True)
        self.lines = Lines(node)
        self.lines.ask("size")  # (answered, so it is told of each peer that goes)
        self.seconds = None
        self.start()

    def run(self):
        self.lines.await_news(b"! down ")
        began = time.monotonic()
        for _ in range(PEERS):
            self.lines.await_news(b"! up ")
        self.seconds = time.monotonic() - began


def bundles(node):
    """The seconds that each bundle of joins and leaves takes, until one meets a new life."""
    lines, pid = a_member(node)
    bundle = f"join pg g {pid}\nleave pg g {pid}\n" * (BUNDLE // 2)
    is_over = False
    while not is_over:
        began = time.monotonic()
        lines.send(bundle)
        is_over = any([lines.answer() != ["ok"] for _ in range(BUNDLE)])
        yield time.monotonic() - began


def turned(field, peers):
    """The seconds of a start, of a turn's gap, of its longest bundle and of the middle one."""
    node, start = linked(field, "turns@h", peers, "--last-entry", LAST)
    gap = Gap(node)
    spent = list(bundles(node))
    gap.join()
    node.kill()
    return start, gap.seconds, max(spent), statistics.median(spent)


def ended(field, peers):
    """The seconds from `quit` to the end of a node that keeps so many entries for its archive."""
    archive = os.path.join(field.folder, "archive")
    node, _ = linked(field, "ends@h", peers, "--audit", archive)
    made = bundles(node)
    for _ in range(ENTRIES // BUNDLE):
        next(made)
    began = time.monotonic()
    Lines(node).send("quit\n")
    node.process.wait()
    return time.monotonic() - began


def main():
    """Prints the medians."""
    wanted = options()
    rounds = []
    for _ in range(wanted.rounds):
        with Field(wanted.program, None) as field:
            peers = [field.node(f"peer{number}@h") for number in range(PEERS)]
            rounds.append((*turned(field, peers), ended(field, peers)))
    middle = [statistics.median(seconds) for seconds in zip(*rounds)]
    names = ("start", "turn", "longest bundle", "middle bundle", "quit")
    for name, seconds in zip(names, middle):
        print(f"{name}: {seconds * 1000:.1f} ms, {seconds / middle[0]:.2f}")


if __name__ == "__main__":
    main()
