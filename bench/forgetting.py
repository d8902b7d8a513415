#!/usr/bin/env python3
"""What a node takes that runs on: joins and leaves at an even rate over several control
connections, with peers that are told of them, and an archive whose files are looked through as they
are full. Memory (VmRSS) once a minute, what was kept and archived, and at the end whether each
entry is in the archive once and in order. Then how soon news come: from the line of a join on one
node to the pushed line on another.

bench/forgetting.py [PROGRAM] [--rate N] [--seconds N] [--peers N]
                              20,000 events a second for 600 seconds, told to one peer"""

import glob
import os
import shutil
import sys
import threading
import time

sys.dont_write_bytecode = True
HERE = os.path.dirname(os.path.realpath(__file__))
sys.path.insert(0, os.path.join(HERE, "../tests/live"))
sys.path.insert(0, HERE)
sys.path.append(os.path.join(HERE, "../tests"))

from command_line import CommandLine, from_1
from field import Field
from pg_node import Lines, Table, a_member, begin_own, join_to_news, memory, watchers

CONNECTIONS = 4
# Seconds between two bundles of lines of a connection, and how many of its lines may wait for
# their answers.
TICK = 0.02
AHEAD = 20_000
FILE_BYTES = 50_000_000
FLAT = 1.05


class Driver:
    """Joins and leaves of one process over a connection, at an even rate."""

    def __init__(self, node, rate):
        self.lines, self.pid = a_member(node)
        self.rate = rate
        self.sent = self.answered = 0
        self.strange = []
        self.late = 0.0
        self.threads = [threading.Thread(target=self._send), threading.Thread(target=self._read)]
        self.end = threading.Event()

    def begin(self):
        for thread in self.threads:
            thread.start()

    def stop(self):
        self.end.set()
        for thread in self.threads:
            thread.join()

    def _send(self):
        """Sends what is due, as far as not too much waits for answers, and `size` at the end."""
        began = time.monotonic()
        pair = f"join pg g {self.pid}\nleave pg g {self.pid}\n"
        while not self.end.is_set():
            due = int((time.monotonic() - began) * self.rate)
            count = min(due - self.sent, self.answered + AHEAD - self.sent) // 2
            if count > 0:
                self.lines.send(pair * count)
                self.sent += 2 * count
            time.sleep(TICK)
        self.lines.send("size\n")

    def _read(self):
        while line := self.lines.lines.readline():
            if line == b"ok\n":
                self.answered += 1
            elif line.startswith(b"size "):
                return
            elif not line.startswith((b"! up ", b"! down ")):
                self.strange.append(line)
        self.strange.append(b"the end of its lines")


class Archive:
    """Looks through the files of an archive as they are full, and takes them away."""

    def __init__(self, path):
        self.path = path
        self.creation = None
        self.last = self.bytes = self.files = 0
        self.fault = None

    def look(self, is_over=False):
        full = [
            name
            for name in glob.glob(f"{self.path}.*")
            if name[len(self.path) + 1 :].replace(".", "").isdigit()
        ]
        full.sort(key=lambda name: int(name.rsplit(".", 1)[1]))
        for name in full + [self.path] * is_over:
            self._read(name)
            os.remove(name)

    def _read(self, name):
        """Counts the lines of a file, and notes the first that isn't the entry behind the last."""
        self.files += 1
        with open(name, "rb") as file:
            for line in file:
                self.bytes += len(line)
                if line.startswith(b'{"entry":') and line.endswith(b"}\n"):
                    number = int(line[9 : line.index(b",")])
                    if number != self.last + 1:
                        self.fault = self.fault or f"{number} behind {self.last} in {name}"
                    self.last = number
                elif line.startswith(b'{"life":') and line.endswith(b"}\n") and self.last == 0:
                    continue
                else:
                    self.fault = self.fault or f"a strange line in {name}: {line[:80]}"


def status(lines):
    return dict(word.split("=", 1) for word in lines.ask("status") if "=" in word)


def words():
    reader = CommandLine(__doc__)
    reader.add_argument(
        "program", nargs="?", default=os.path.join(HERE, "../crates/pg_node/out/pg_node")
    )
    reader.add_argument("--rate", type=from_1, default=20_000)
    reader.add_argument("--seconds", type=from_1, default=600)
    reader.add_argument("--peers", type=int, default=1)
    reader.add_argument("--no-news", action="store_true", help="leave out how soon news come")
    said = reader.parse_args()
    said.program = reader.need_program(said.program, "bin/build")
    return said


def run_on(field, said):
    """Whether all is as it is to be."""
    archive = Archive(os.path.join(field.folder, "archive"))
    node = field.start(
        "a@h", "--audit", archive.path, "--audit-size", FILE_BYTES, "--creation", 1
    ).ready()
    others = [begin_own(field, f"peer{number}", node) for number in range(said.peers)]
    for other in others:
        other.ready()
    watching = Lines(node)
    watching.ask("size")
    told = watchers(others, "quiet")
    drivers = [Driver(node, said.rate / CONNECTIONS) for _ in range(CONNECTIONS)]
    first, last = drive(node, others, watching, drivers, archive, said.seconds)
    entries = int(watching.ask("size")[1])
    lives = status(watching)["lives"]
    assert told and node.quit() == 0, node.errors()
    archive.look(is_over=True)
    strange = [line for driver in drivers for line in driver.strange]
    print(f"memory at the end over that behind the first minute: {last / first:.3f}")
    print(f"answers other than ok: {strange[:3]}; warnings: {node.errors()[:3]}; lives: {lives}")
    print(
        f"the archive: {archive.last} entries of {entries} and more,"
        f" {archive.bytes / 1e6:.0f} MB in {archive.files} files,"
        f" {archive.fault or 'each once and in order'}"
    )
    return (
        last <= FLAT * first
        and lives == "1"
        and not strange
        and not archive.fault
        and archive.last >= entries
    )


def drive(node, others, watching, drivers, archive, seconds):
    """Memory behind the first minute and at the end, while drivers go for so many seconds."""
    before, began = int(watching.ask("size")[1]), time.monotonic()
    for driver in drivers:
        driver.begin()
    print(
        f"{'seconds':>8} {'events':>12} {'a second':>9} {'kept':>8} {'archived':>12} {'lost':>6}"
        f" {'KiB':>9} {'KiB of a peer':>14}",
        flush=True,
    )
    first, last = None, None
    while time.monotonic() - began < seconds:
        time.sleep(min(60, max(0.1, began + seconds - time.monotonic())))
        last = show(node, others, watching, before, began)
        first = first or last
        archive.look()
    for driver in drivers:
        driver.stop()
    return first, last


def show(node, others, watching, before, began):
    now, seconds = status(watching), time.monotonic() - began
    count = int(now["entries"].split("/")[0]) - before
    held, peer = memory(node), max(map(memory, others), default=0)
    print(
        f"{seconds:>8.0f} {count:>12,} {count / seconds:>9,.0f} {now['kept'].split('/')[0]:>8}"
        f" {now['archived']:>12} {now['lost']:>6} {held:>9,} {peer:>14,}",
        flush=True,
    )
    return held


def main():
    said = words()
    print(f"load of the machine before: {' '.join(f'{load:.1f}' for load in os.getloadavg())}")
    with Field(said.program, None) as field:
        is_well = run_on(field, said)
    if not said.no_news:
        table = Table(said.program, shutil.which("escript") is not None)
        table.row(
            "a join on one node to the news on another, each right behind the last", join_to_news, 0
        )
    sys.exit(0 if is_well else 1)


if __name__ == "__main__":
    main()
