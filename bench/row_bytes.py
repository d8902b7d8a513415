#!/usr/bin/env python3
"""What a row of a peer takes, in bytes: in the table of its scope, its places in all indexes among
that; in the change of the entry that brings it; and where it is kept of a message in parts whose
last one hasn't come. By the blocks that `pg_console run` has from the allocator.

bench/row_bytes.py [PROGRAM]. A Sync of 65,536 rows comes in 16 parts. Behind all but the last the
node keeps the rows so far and the bytes of the frames; behind the last the table, those bytes and
the change of the listings. A loss of the link takes the table away again, and adds a change as
large: so half of the difference of both growths, less the bytes, is the table's, and half of their
sum the change's. A library that cc makes, loaded before the program, adds up the blocks with what
the allocator keeps beside each, and tells the sum on standard error at the signal USR1."""

import os
import signal
import struct
import subprocess
import sys
import tempfile

sys.dont_write_bytecode = True
HERE = os.path.dirname(os.path.realpath(__file__))
sys.path.append(os.path.join(HERE, "../tests"))

from command_line import CommandLine

DIGEST = "482c811da5d5b4bc6d497ffa98491e38"  # MD5 of `password123`
ROWS = 65536
# The most rows of a part.
PART = 4096

COUNTING = r"""
#include <malloc.h>
#include <signal.h>
#include <stdio.h>
#include <unistd.h>
extern void *__libc_malloc(size_t);
extern void *__libc_calloc(size_t, size_t);
extern void *__libc_realloc(void *, size_t);
extern void __libc_free(void *);
static long live;
static void *had(void *block, long sign) {
  if (block) __atomic_add_fetch(&live, sign * (long)(malloc_usable_size(block) + sizeof(size_t)), __ATOMIC_RELAXED);
  return block;
}
void *malloc(size_t size) { return had(__libc_malloc(size), 1); }
void *calloc(size_t count, size_t size) { return had(__libc_calloc(count, size), 1); }
void *realloc(void *old, size_t size) { had(old, -1); return had(__libc_realloc(old, size), 1); }
void free(void *block) { __libc_free(had(block, -1)); }
static void tell(int number) {
  char line[32];
  int length = snprintf(line, sizeof line, "%ld\n", live);
  if (write(2, line, (size_t)length) != length) _exit(number);
}
__attribute__((constructor)) static void begin(void) {
  struct sigaction action = {.sa_handler = tell, .sa_flags = SA_RESTART};
  sigaction(SIGUSR1, &action, NULL);
}
"""


def row(group, number):
    text = b"g%d" % group
    return bytes([len(text)]) + text + struct.pack(">H3sIQ", 3, b"p@h", 5, number)


class Console:
    """The node `b@h` behind lines, with the scope `pg` and the link 2, which is up and
    heard with no rows."""

    def __init__(self, program, counting):
        words = [program, "run", "b@h", "password", "--links", "2", "--entries", "1000"]
        loaded = dict(os.environ, LD_PRELOAD=counting)
        self.process = subprocess.Popen(
            words, stdin=subprocess.PIPE, stdout=subprocess.PIPE, stderr=subprocess.PIPE, env=loaded
        )
        name = b"N" + struct.pack(">QIH3s", 1 << 24 | 1, 5, 3, b"p@h") + b"\x02"
        for line in (
            "start pg",
            "opened 123",
            f"frame 2 {name.hex()}",
            f"frame 2 7200000001{DIGEST}",
        ):
            self.ask(line)
        self.hear(self.parts([]))

    @staticmethod
    def parts(rows):
        """The bodies that say all rows of a Sync."""
        cut = [rows[place : place + PART] for place in range(0, max(len(rows), 1), PART)]
        return [
            b"S\x02pg" + struct.pack(">IBI", number, number == len(cut), len(part)) + b"".join(part)
            for number, part in enumerate(cut, 1)
        ]

    def hear(self, bodies):
        for body in bodies:
            self.ask(f"frame 2 {body.hex()}")

    def ask(self, line):
        self.process.stdin.write(f"{line}\n".encode())
        self.process.stdin.flush()
        answer = self.process.stdout.readline().decode()
        assert answer.split()[0] not in ("refused", "fault", "memory"), answer

    def live(self):
        self.process.send_signal(signal.SIGUSR1)
        return int(self.process.stderr.readline())

    def kept(self, rows):
        """The bytes that the table keeps of these rows, the change, and, of each row, what is kept
        before the last part has come."""
        *others, last = self.parts(rows)
        at_first = self.live()
        self.hear(others)
        begun = self.live() - at_first - sum(map(len, others))
        self.hear([last])
        brought = self.live() - at_first - len(last) - sum(map(len, others))
        self.ask("lost 2")
        gone = self.live() - at_first - len(last) - sum(map(len, others)) - brought
        return (brought - gone) / 2, (brought + gone) / 2, begun * len(rows) / (len(rows) - PART)


def main():
    reader = CommandLine(__doc__)
    reader.add_argument(
        "program", nargs="?", default=os.path.join(HERE, "../crates/pg_console/out/pg_console")
    )
    program = reader.parse_args().program
    program = reader.need_program(program, "bin/build")
    with tempfile.TemporaryDirectory() as folder:
        counting = os.path.join(folder, "counting.so")
        with open(os.path.join(folder, "counting.c"), "w", encoding="ascii") as source:
            source.write(COUNTING)
        subprocess.run(["cc", "-shared", "-fPIC", "-O2", "-o", counting, source.name], check=True)
        for title, size in (
            ("of a group of its own", 1),
            ("of a group of two", 2),
            ("of one of 64", 64),
            ("of one large group", ROWS),
        ):
            rows = [row(number // size, number % size) for number in range(ROWS)]
            table, change, begun = (taken / ROWS for taken in Console(program, counting).kept(rows))
            print(
                f"a row {title}: {table:.0f} bytes in the table, {change:.0f} in the change, "
                f"{begun:.0f} of a message begun"
            )


if __name__ == "__main__":
    main()
