#!/usr/bin/env python3
"""What a call of one row costs on a node with one peer of 64 rows, and on a full one: 60 peers,
each with 4,096 rows in 4,096 groups of one scope, or with as many as `--rows` says, to 65,536 over
links of version 2.

bench/full_node.py [PROGRAM] [--rows N]. Processor time of `pg_console run`, the reading of lines
and the writing of answers in it, in microseconds an operation: the least of 15 rounds, in which
both nodes take turns, of 1,000 changes, 20 lists of groups and 200 of members."""

import os
import struct
import subprocess
import sys
import threading

sys.dont_write_bytecode = True
HERE = os.path.dirname(os.path.realpath(__file__))
sys.path.append(os.path.join(HERE, "../tests"))

from command_line import CommandLine, from_1

DIGEST = "482c811da5d5b4bc6d497ffa98491e38"  # MD5 of `password123`
ROUNDS, TIMES = 15, 1000
# The most rows of a message of version 1, and of a part.
PART = 4096


def name_frame(peer):
    """The name frame of a peer that knows version 2 of link messages."""
    return b"N" + struct.pack(">QIH", 1 << 24 | 1, 5, len(peer)) + peer + b"\x02"


def messages(kind, rows):
    """The parts that say these rows."""
    cut = [rows[place : place + PART] for place in range(0, len(rows), PART)]
    for number, part in enumerate(cut, 1):
        yield kind + b"\x02pg" + struct.pack(
            ">IBI", number, number == len(cut), len(part)
        ) + b"".join(part)


def row(group, peer):
    """The row of the peer's process 1 in this group."""
    text = b"g%d" % group
    return (
        bytes([len(text)]) + text + struct.pack(">H", len(peer)) + peer + struct.pack(">IQ", 5, 1)
    )


def pin():
    """To the last processor that there is: others may have another speed at the time."""
    os.sched_setaffinity(0, {max(os.sched_getaffinity(0))})


class Console:
    """The node `b@h` behind lines, with the scope `pg`."""

    def __init__(self, program):
        words = [program, "run", "b@h", "password", "--entries", "3000000", "--links", "2"]
        self.process = subprocess.Popen(
            words, stdin=subprocess.PIPE, stdout=subprocess.PIPE, preexec_fn=pin
        )
        self.ask("start pg")

    def ask(self, line):
        return self.ask_all([line])[0]

    def ask_all(self, lines):
        """The answers to these lines, which are read while they are sent; none may be a refusal."""
        script = "".join(f"{line}\n" for line in lines).encode()
        sending = threading.Thread(target=self.send, args=(script,))
        sending.start()
        answers = [self.process.stdout.readline().decode().strip() for _ in lines]
        sending.join()
        wrong = [
            answer for answer in answers if answer.split()[0] in ("refused", "fault", "memory")
        ]
        assert not wrong, wrong[0]
        return answers

    def send(self, script):
        self.process.stdin.write(script)
        self.process.stdin.flush()

    def spent(self):
        """Processor time so far, in microseconds."""
        with open(f"/proc/{self.process.pid}/schedstat", encoding="ascii") as stat:
            return int(stat.read().split()[0]) / 1000

    def time(self, lines):
        before = self.spent()
        self.ask_all(lines)
        return self.spent() - before

    def link(self, peer, rows):
        """A link up with this peer, which has a process in so many groups."""
        link = self.ask("opened 123").split()[1]
        reply = bytes.fromhex("7200000001" + DIGEST)
        sync = messages(b"S", [row(group, peer) for group in range(rows)])
        for body in (name_frame(peer), reply, *sync):
            self.ask(f"frame {link} {body.hex()}")
        return link


class Node:
    """A node with so many peers up, each with so many rows, and a process of its own."""

    def __init__(self, program, peers, rows):
        self.console = Console(program)
        self.link = [self.console.link(b"p%d@h" % number, rows) for number in range(peers)][0]
        self.own = self.console.ask("spawn").split()[1]
        # The groups of a peer's list, which is in the order of their names.
        self.groups = sorted(range(rows), key=str)

    def own_change(self):
        return [f"join pg g1 {self.own}", f"leave pg g1 {self.own}"] * TIMES

    def exits(self):
        first = int(self.console.ask("spawn").split("/")[-1]) + 1
        pids = [f"b@h/1/{number}" for number in range(first, first + TIMES)]
        return [line for pid in pids for line in ("spawn", f"join pg g1 {pid}", f"exit {pid}")]

    def change(self, part):
        """A Leave and a Join of the row that stands behind this part of the first peer's list."""
        one = row(self.groups[int(part * (len(self.groups) - 1))], b"p0@h")
        return [
            f"frame {self.link} {body.hex()}"
            for kind in (b"L", b"J")
            for body in messages(kind, [one])
        ] * TIMES


# What is measured: its title, how many times it is done in a round, and its lines.
MEASURES = [
    ("an own join and leave of one", TIMES, Node.own_change),
    ("an own spawn, join and exit", TIMES, Node.exits),
    ("a peer's Leave and Join, at the front", TIMES, lambda node: node.change(0)),
    ("the same at a quarter of its list", TIMES, lambda node: node.change(0.25)),
    ("the same in the middle", TIMES, lambda node: node.change(0.5)),
    ("the same at the end", TIMES, lambda node: node.change(1)),
    ("groups", 20, lambda node: ["groups pg"] * 20),
    ("members, one of each peer", 200, lambda node: ["members pg g1"] * 200),
]


def words():
    reader = CommandLine(__doc__)
    reader.add_argument(
        "program", nargs="?", default=os.path.join(HERE, "../crates/pg_console/out/pg_console")
    )
    reader.add_argument("--rows", type=from_1, default=PART)
    said = reader.parse_args()
    said.program = reader.need_program(said.program, "bin/build")
    return said


def main():
    said = words()
    nodes = [Node(said.program, 1, 64), Node(said.program, 60, said.rows)]
    print(
        f"{'microseconds':<38} {'1 peer, 64 rows':>16}"
        f" {f'60 peers, {said.rows:,} rows each':>27} {'ratio':>6}"
    )
    for title, times, lines in MEASURES:
        # The nodes take turns, so that both have a processor of the same speed.
        rounds = [[node.console.time(lines(node)) / times for node in nodes] for _ in range(ROUNDS)]
        small, full = map(min, zip(*rounds))
        print(f"{title:<38} {small:>16.1f} {full:>27.1f} {full / small:>6.2f}")
    for node in nodes:
        node.console.process.stdin.close()


if __name__ == "__main__":
    main()
