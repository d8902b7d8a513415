#!/usr/bin/env python3
"""A router: router.py CONTROL

It hands each line of its standard input to a worker (worker.py), in turn to each that the pg_node
behind the control socket CONTROL lists now, and prints the answer, or `nobody`. It prints
`here HOST:PORT` and `gone HOST:PORT` when a worker comes or goes. Where no node is there any more
it says so on standard error, nobody is listed, and it waits for the next one; at first it waits for
one before it reads its input, at whose end it ends with status 0. Where a node doesn't say who is
listed, it ends with a line on standard error and status 1."""

import collections
import contextlib
import os
import socket
import sys
import threading
import time

listed = collections.Counter()  # the processes in the group of each worker
is_known = threading.Event()  # once the node has said who is listed
has_routed_all = threading.Event()


def connect(path):
    """A connection to the node, as soon as it is there, if not all is routed before."""
    stream = socket.socket(socket.AF_UNIX)
    try:
        if fault := stream.connect_ex(path):
            print(f"router.py: {path}: {os.strerror(fault)}; waiting", file=sys.stderr)
            while stream.connect_ex(path) and not has_routed_all.is_set():
                time.sleep(0.1)
    except OSError as fault:  # a path that is too long
        sys.exit(f"router.py: {path}: {fault}")
    return stream


def count(group, number):
    """So many processes more in a group, or fewer. Groups of others aren't workers."""
    if not group.startswith("jobs/") or ":" not in group:
        return
    was, now = listed[group], listed[group] + number
    if now:
        listed[group] = now
    else:
        del listed[group]
    if bool(was) != bool(now):
        print("here" if now else "gone", group.removeprefix("jobs/"), flush=True)


def forget():
    """Nobody is listed any more."""
    for group in list(listed):
        count(group, -listed[group])


def watch():
    """Asks who is listed, and to be told of changes. Whoever was listed before the node began anew
    is gone."""
    forget()
    try:
        control.sendall(b"start jobs\nmonitor_scope jobs\n")
    except OSError:
        pass  # the node hung up, and its last words can still be read


def follow(words):
    """What a line from the node says."""
    match words:
        case ["ref", _, *groups]:  # each group, the number of its processes, and the processes
            while groups:
                count(groups[0], int(groups[1]))
                groups = groups[2 + int(groups[1]) :]
            is_known.set()
        case ["!", "join", _, group, number, *_]:
            count(group, int(number))
        case ["!", "leave", _, group, number, *_]:
            count(group, -int(number))
        case ["!", "restarted" | "ended", _]:
            watch()
        case ["fault", "full"]:
            sys.exit("router.py: the node has no room for another client")
        case ["refused", _, "ScopeRunning"] | ["fault", "this", "socket", *_]:
            pass  # the scope runs, or this is a control socket for reads alone
        case ["refused" | "fault" | "memory", *_]:
            sys.exit("router.py: the node answers: " + " ".join(words))


def done(job, turn):
    """The answer of a worker that is listed now; of the next one, where the first went just now."""
    groups = sorted(list(listed))  # as they are now: the other thread goes on counting
    for place in range(turn, turn + len(groups)):
        host, _, port = groups[place % len(groups)].removeprefix("jobs/").rpartition(":")
        try:
            with socket.create_connection((host, int(port)), 1) as worker:
                worker.sendall(job.rstrip("\n").encode() + b"\n")
                if answer := worker.makefile(errors="replace").readline():
                    return answer.rstrip("\n")
        except (OSError, OverflowError, ValueError):
            continue  # it is gone, or its group names no port
    return "nobody"


def route():
    """Hands out the lines of standard input, to their end."""
    is_known.wait()
    for turn, job in enumerate(sys.stdin):
        print(done(job, turn), flush=True)
    has_routed_all.set()
    with contextlib.suppress(OSError):  # there may be no node
        control.shutdown(socket.SHUT_RDWR)


def follow_all():
    """Follows the node's lines to their end."""
    try:
        for line in control.makefile():
            follow(line.split())
    except OSError:
        pass  # it ended in the middle of something


if len(sys.argv) != 2:
    print("usage: router.py CONTROL", file=sys.stderr)
    sys.exit(2)
sys.stdin.reconfigure(errors="replace")  # else a line that isn't UTF-8 ends the thread
control = connect(sys.argv[1])
threading.Thread(target=route, daemon=True).start()
while not has_routed_all.is_set():
    watch()
    follow_all()
    if not has_routed_all.is_set():
        print("router.py: the node is gone", file=sys.stderr)
        forget()
        control.close()
        time.sleep(0.1)
        control = connect(sys.argv[1])
