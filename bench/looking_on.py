#!/usr/bin/env python3
"""What a log at info and a scrape a second cost a node:
looking_on.py [PROGRAM] [--changes N] [--rounds N].

A node with a peer joins and leaves, as fast as it answers, once with `--log none`, and once with
`--log text`, `--http` and who asks for its metrics each second; in turns. It prints the processor
time of both for each change, and the ratio of the medians."""

import contextlib
import os
import re
import socket
import statistics
import subprocess
import sys
import tempfile
import threading
import time
import urllib.request

sys.dont_write_bytecode = True
HERE = os.path.dirname(os.path.realpath(__file__))
sys.path.append(os.path.join(HERE, "../tests"))

from command_line import CommandLine, from_1


def options():
    parser = CommandLine(__doc__)
    parser.add_argument("program", nargs="?", default=os.path.join(HERE, "../bin/pg_node"))
    parser.add_argument("--changes", type=from_1, default=20_000)
    parser.add_argument("--rounds", type=from_1, default=5)
    wanted = parser.parse_args()
    wanted.program = parser.need_program(wanted.program, "bin/build")
    return wanted


def start(stack, program, folder, name, *words):
    """A node, which ends with the stack, and what it prints first."""
    control = os.path.join(folder, name)
    node = subprocess.Popen(
        [program, name, "--cookie", "c", "--control", control, "--entries", "4000000", *words],
        stdin=subprocess.DEVNULL,
        stdout=subprocess.PIPE,
        stderr=subprocess.DEVNULL,
        text=True,
    )
    stack.callback(end, node)
    port = None
    while line := node.stdout.readline():
        if found := re.fullmatch(r"(?:http|listening) 127\.0\.0\.1:(\d+)\n", line):
            port = int(found[1])
        if line.startswith("control ") and "--http" not in words or line.startswith("http "):
            return node, control, port
    raise SystemExit(f"{name} ended before it served")


def end(node):
    node.kill()
    node.wait()


def processor_time(process):
    with open(f"/proc/{process.pid}/stat", encoding="ascii") as stat:
        fields = stat.read().rsplit(")", 1)[1].split()
    return (int(fields[11]) + int(fields[12])) / os.sysconf("SC_CLK_TCK")


def scrape(port, ended, faults):
    try:
        while not ended.wait(1):
            urllib.request.urlopen(f"http://127.0.0.1:{port}/metrics", timeout=30).read()
    except OSError as fault:
        faults.append(fault)


def play(program, changes, is_looked_at):
    """The seconds of processor time for each change."""
    with tempfile.TemporaryDirectory() as folder, contextlib.ExitStack() as stack:
        _, peer_control, peer_port = start(
            stack, program, folder, "b@h", "--listen", "127.0.0.1:0", "--log", "none"
        )
        looks = ("--log", "text", "--http", "127.0.0.1:0") if is_looked_at else ("--log", "none")
        node, control, port = start(
            stack, program, folder, "a@h", "--dial", f"b@h=127.0.0.1:{peer_port}", *looks
        )
        ended, faults = threading.Event(), []
        if is_looked_at:
            threading.Thread(target=scrape, args=(port, ended, faults), daemon=True).start()
        for path in (peer_control, control):
            ask(path, ["start s"])
        pid = ask(control, ["nodes", "spawn"])[-1].split()[1]
        member = f"{pid[:pid.rfind('/')]}/2"
        time.sleep(1)
        before = processor_time(node)
        ask(
            control,
            ["spawn", f"join s g {member}"]
            + [f"join s g {member}", f"leave s g {member}"] * (changes // 2),
        )
        spent = processor_time(node) - before
        ended.set()
        if faults:
            raise SystemExit(f"its metrics can't be asked: {faults[0]}")
        return spent / changes


def ask(path, lines):
    """The answers to these lines, sent in pieces."""
    with socket.socket(socket.AF_UNIX) as client:
        client.connect(path)
        answers = client.makefile("r")
        got = []
        for first in range(0, len(lines), 100):
            piece = lines[first : first + 100]
            client.sendall("".join(line + "\n" for line in piece).encode())
            while len(piece) and len(got) < first + len(piece):
                line = answers.readline()
                if not line:
                    raise SystemExit("the node has ended")
                if not line.startswith("! "):
                    got.append(line.rstrip("\n"))
        faults = [line for line in got if line.startswith(("fault", "refused"))]
        if faults and lines[0] != "start s":
            raise SystemExit(f"the node said {faults[0]}")
        return got


def main():
    wanted = options()
    alone, looked_at = [], []
    for _ in range(wanted.rounds):
        alone.append(play(wanted.program, wanted.changes, False))
        looked_at.append(play(wanted.program, wanted.changes, True))
    for name, times in (("alone", alone), ("looked at", looked_at)):
        print(
            f"{name}: {statistics.median(times) * 1e6:.2f} us a change"
            f" ({min(times) * 1e6:.2f} to {max(times) * 1e6:.2f})"
        )
    print(f"ratio: {statistics.median(looked_at) / statistics.median(alone):.3f}")


if __name__ == "__main__":
    main()
