#!/usr/bin/env python3
"""What a long audit costs: `pg_console run` over joins and leaves of one process, each an entry,
with its processor time and memory (VmRSS) behind each tenth of them. The last tenth is played by
turns with the first one of another node, so that both have the same machine, and compared with it.

bench/long_audit.py [PROGRAM] [--entries N]     N is 10,000,000 where it isn't given, which takes
                                                some 3 GB
bench/long_audit.py [PROGRAM] --keep N          the node forgets, and keeps N entries
bench/long_audit.py [PROGRAM] --archive FILE    writes an archive too, which is then played again"""

import argparse
import os
import subprocess
import sys
import threading

sys.dont_write_bytecode = True
HERE = os.path.dirname(os.path.realpath(__file__))
sys.path.append(os.path.join(HERE, "../tests"))

from command_line import CommandLine

TENTHS = 10
ROUND = b"join pg g b@h/1/1\nleave pg g b@h/1/1\n" * 5000
EVENTS = 10_000
ANSWERS = b"ok\n" * EVENTS
TICKS = os.sysconf("SC_CLK_TCK")


def words():
    reader = CommandLine(__doc__)
    reader.add_argument(
        "program", nargs="?", default=os.path.join(HERE, "../crates/pg_console/out/pg_console")
    )
    reader.add_argument("--entries", type=int, default=10_000_000)
    reader.add_argument("--keep", type=int)
    reader.add_argument("--archive")
    said = reader.parse_args()
    said.program = reader.need_program(said.program, "bin/build")
    if said.entries < TENTHS * EVENTS:
        reader.error(f"--entries: {TENTHS * EVENTS:,} or more, and not {said.entries}")
    return said


def options(said):
    kept = [] if said.keep is None else ["--keep", str(said.keep)]
    return kept + ([] if said.archive is None else ["--archive", said.archive])


def replay(said):
    """The processor seconds of an archive that is played again."""
    command = [said.program, "replay", "--cookie", "b@h=password", said.archive]
    with subprocess.Popen(command, stdout=subprocess.PIPE) as player:
        assert player.stdout.read() == b"lives 1 entries %d\n" % (said.entries + 2)
        _, status, used = os.wait4(player.pid, 0)
        player.returncode = status
    assert status == 0
    return used.ru_utime + used.ru_stime


class Node:
    """A running console, and what it has spent so far."""

    def __init__(self, said):
        command = [
            said.program,
            "run",
            "b@h",
            "password",
            "--entries",
            str(said.entries + 2),
            *options(said),
        ]
        self.process = subprocess.Popen(command, stdin=subprocess.PIPE, stdout=subprocess.PIPE)
        self.process.stdin.write(b"start pg\nspawn\n")
        self.process.stdin.flush()
        assert (
            self.process.stdout.readline() + self.process.stdout.readline() == b"ok\npid b@h/1/1\n"
        )
        self.begin = self.seconds()

    def play(self, rounds):
        writer = threading.Thread(target=self.write, args=(rounds,))
        writer.start()
        for _ in range(rounds):
            assert self.process.stdout.read(len(ANSWERS)) == ANSWERS
        writer.join()

    def write(self, rounds):
        for _ in range(rounds):
            self.process.stdin.write(ROUND)
        self.process.stdin.flush()

    def seconds(self):
        """Of processors."""
        with open(f"/proc/{self.process.pid}/stat", encoding="ascii") as stat:
            user, system = stat.read().rsplit(")", 1)[1].split()[11:13]
        return (int(user) + int(system)) / TICKS

    def memory(self):
        with open(f"/proc/{self.process.pid}/status", encoding="ascii") as status:
            return next(int(line.split()[1]) * 1024 for line in status if line.startswith("VmRSS"))

    def end(self):
        self.process.stdin.close()
        self.process.wait()


def tell(entries, seconds, each, node):
    print(f"{entries:>12,} {seconds / each * 1e6:>24.2f} {node.memory() / 1e6:>8,.0f}", flush=True)


def main():
    said = words()
    node, each = Node(said), said.entries // TENTHS
    before, first_memory = node.begin, None
    print(f"{'entries':>12} {'microseconds an entry':>24} {'MB':>8}")
    for tenth in range(1, TENTHS):
        node.play(each // EVENTS)
        tell(tenth * each, node.seconds() - before, each, node)
        before, first_memory = node.seconds(), first_memory or node.memory()
    aside = None if said.archive is None else f"{said.archive}.first"
    other = Node(argparse.Namespace(**{**vars(said), "archive": aside}))
    for _ in range(each // EVENTS):
        node.play(1)
        other.play(1)
    last, first = node.seconds() - before, other.seconds() - other.begin
    tell(said.entries, last, each, node)
    print(
        f"the last tenth for the first of another node, by turns: {last / first:.3f} of the time;"
        f" {node.memory() / first_memory:.3f} of the memory behind the first"
    )
    spent = node.seconds() - node.begin
    node.end()
    other.end()
    if aside is not None:
        os.remove(aside)
    if said.archive is not None:
        again = replay(said)
        print(
            f"played again: {again / said.entries * 1e6:.2f} microseconds an entry,"
            f" {spent / again:.2f} times as fast as the run"
        )


if __name__ == "__main__":
    main()
