#!/usr/bin/env python3
"""What the audit keeps of an entry, in bytes, by kind: the growth of the memory of `pg_console run`
(VmRSS) over 100,000 entries, or 500 large ones.

bench/entry_bytes.py [PROGRAM]. What the allocator adds is in it, and so is what the node itself
keeps, as which processes live. Texts are short. Of a round of entries of several kinds, what is
known of the other kinds is taken away."""

import os
import struct
import subprocess
import sys
import threading

sys.dont_write_bytecode = True
HERE = os.path.dirname(os.path.realpath(__file__))
sys.path.append(os.path.join(HERE, "../tests"))

from command_line import CommandLine

DIGEST = "482c811da5d5b4bc6d497ffa98491e38"  # MD5 of `password123`
MANY, FEW = 100_000, 500


def message(kind, count=0):
    """A message with this many rows of the scope `pg`, each of another process of `p@h`."""
    rows = (b"\x01g" + struct.pack(">H3sIQ", 3, b"p@h", 5, number) for number in range(count))
    return f"frame 3 {(kind + struct.pack('>B2sI', 2, b'pg', count) + b''.join(rows)).hex()}"


# A process and a scope of the node; and the link 3, which is up, over which each side is told of
# the other's rows.
NODE = ["start pg", "spawn"]
NAME = b"N" + struct.pack(">QIH3s", 1 << 24 | 1, 5, 3, b"p@h")
PEER = [
    "opened 123",
    f"frame 3 {NAME.hex()}",
    f"frame 3 7200000001{DIGEST}",
    "frame 3 44027067",
    message(b"S"),
    "take 3",
]
JOIN, LEAVE = ([f"{word} pg g b@h/1/1"] for word in ("join", "leave"))

# A group with another process.
CROWD = ["spawn", "join pg g b@h/1/2"]

OPENED, TAKE, SPAWN, MADE = (
    "an Opened, a Lost",
    "an empty Take",
    "a Spawn",
    "a Join that makes its group, a Leave",
)
# By kind: how many entries, the lines before them, those of a round by its number and that of its
# first entry, and the other kinds in it.
KINDS = {
    TAKE: (MANY, PEER, lambda turn, first: ["take 3"], []),
    OPENED: (MANY, [], lambda turn, first: ["opened 1", f"lost {first}"], []),
    SPAWN: (MANY, [], lambda turn, first: ["spawn"], []),
    "an Exit": (MANY, [], lambda turn, first: ["spawn", f"exit b@h/1/{turn + 2}"], [SPAWN]),
    "a StartScope, a StopScope": (MANY, [], lambda turn, first: ["start q", "stop q"], []),
    "a Join, a Leave of one process": (MANY, CROWD, lambda turn, first: JOIN + LEAVE, []),
    MADE: (MANY, [], lambda turn, first: JOIN + LEAVE, []),
    "a Take of one frame": (
        MANY,
        PEER,
        lambda turn, first: JOIN + ["take 3"] + LEAVE + ["take 3"],
        [MADE, MADE],
    ),
    "an Updates of one": (
        MANY,
        ["monitor pg g"],
        lambda turn, first: JOIN + ["updates 3"] + LEAVE + ["updates 3"],
        [MADE, MADE],
    ),
    "a Members of one": (MANY, JOIN, lambda turn, first: ["members pg g"], []),
    "a Members of 4,096": (FEW, JOIN * 4096, lambda turn, first: ["members pg g"], []),
    "a frame of one row": (
        MANY,
        PEER,
        lambda turn, first: [message(b"J", 1), message(b"L", 1)],
        [],
    ),
    "a frame of 4,096 rows": (
        FEW,
        PEER,
        lambda turn, first: [message(b"J", 4096), message(b"L", 4096)],
        [],
    ),
    "a refused frame of one byte": (
        MANY,
        [],
        lambda turn, first: ["opened 1", f"frame {first} 00"],
        [OPENED],
    ),
    "a refused frame of 65,535 bytes": (
        FEW,
        [],
        lambda turn, first: ["opened 1", f"frame {first} {'00' * 65535}"],
        [OPENED],
    ),
}


class Console:
    """The node `b@h` behind lines."""

    def __init__(self, program):
        words = [program, "run", "b@h", "password", "--entries", "3000000"]
        self.process = subprocess.Popen(words, stdin=subprocess.PIPE, stdout=subprocess.PIPE)

    def __enter__(self):
        return self

    def __exit__(self, *_):
        self.process.stdin.close()
        self.process.wait()

    def play(self, lines):
        """Gives the node these lines, and waits for its answers."""
        sending = threading.Thread(target=self.send, args=(lines,))
        sending.start()
        answers = [self.process.stdout.readline().split()[0] for _ in lines]
        sending.join()
        assert not {b"fault", b"memory"} & set(answers), answers[-1]

    def send(self, lines):
        for line in lines:
            self.process.stdin.write(f"{line}\n".encode())
        self.process.stdin.flush()

    def memory(self):
        with open(f"/proc/{self.process.pid}/status", encoding="ascii") as status:
            return next(int(line.split()[1]) * 1024 for line in status if line.startswith("VmRSS"))


def bytes_of(program, kind, known):
    """What an entry of this kind keeps, where `known` has what those of other kinds do."""
    entries, before, round_of, others = KINDS[kind]
    size = len(round_of(0, 0))
    rounds = entries // size
    first = len(NODE) + len(before) + 1

    def played(turns):
        return [line for turn in turns for line in round_of(turn, first + turn * size)]

    with Console(program) as console:
        console.play(NODE + before + played(range(rounds // 10)))
        less = console.memory()
        console.play(played(range(rounds // 10, rounds // 10 + rounds)))
        grown = (console.memory() - less) / rounds
    return (grown - sum(known[other] for other in others)) / (size - len(others))


def main():
    reader = CommandLine(__doc__)
    reader.add_argument(
        "program", nargs="?", default=os.path.join(HERE, "../crates/pg_console/out/pg_console")
    )
    program = reader.parse_args().program
    program = reader.need_program(program, "bin/build")
    print(f"{'bytes an entry':<36} {'kept':>9}")
    known = {}
    for kind in KINDS:
        known[kind] = bytes_of(program, kind, known)
        print(f"{kind:<36} {known[kind]:>9,.0f}", flush=True)


if __name__ == "__main__":
    main()
