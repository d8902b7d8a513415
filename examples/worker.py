#!/usr/bin/env python3
"""A worker: worker.py CONTROL HOST:PORT

It does jobs that come as lines at HOST:PORT. Through the pg_node behind the control socket CONTROL
it is listed as a process in the group jobs/HOST:PORT of the scope jobs. The node ends that process
when the connection closes, in whatever way the worker ended. Where no node is there, or not any
more, the worker says so on standard error, goes on with its jobs, and is listed again once one is.
Where a node doesn't list it, it ends with a line there and status 1."""

import contextlib
import os
import socket
import socketserver
import sys
import threading
import time


class Server(socketserver.ThreadingTCPServer):
    """Takes connections with jobs; those that are open don't keep the program from ending."""

    allow_reuse_address = daemon_threads = True


class Jobs(socketserver.StreamRequestHandler):
    """A connection with jobs."""

    def handle(self):
        """Answers each line, until the client is gone."""
        with contextlib.suppress(OSError):
            for job in self.rfile:
                self.wfile.write(address.encode() + b" did " + job)


class NodeGone(Exception):
    """The connection to the node has ended."""


def arguments():
    """The words of the command line: the control socket, HOST:PORT, and its parts."""
    if len(sys.argv) == 3:
        host, _, port = sys.argv[2].rpartition(":")
        if host and port.isdecimal() and 0 < int(port) < 65536:
            return sys.argv[1], sys.argv[2], (host, int(port))
    print("usage: worker.py CONTROL HOST:PORT", file=sys.stderr)
    sys.exit(2)


def end(reason):
    """Ends the program with status 1."""
    sys.exit(f"worker.py: {reason}")


def serve():
    """Takes jobs, in a thread of its own."""
    try:
        server = Server(place, Jobs)
    except OSError as fault:
        end(f"{address}: {fault.strerror}")
    threading.Thread(target=server.serve_forever, daemon=True).start()


def connect():
    """A connection to the node, as soon as it is there."""
    stream = socket.socket(socket.AF_UNIX)
    try:
        if fault := stream.connect_ex(control_path):
            reason = os.strerror(fault)
            print(f"worker.py: {control_path}: {reason}; waiting", file=sys.stderr)
            while stream.connect_ex(control_path):
                time.sleep(0.1)
    except OSError as fault:  # a path that is too long
        end(f"{control_path}: {fault}")
    return stream


def next_line():
    """The next line from the node."""
    try:
        line = lines.readline()
    except OSError:
        line = ""
    if line == "fault full\n":
        end("the node has no room for another client")
    if not line:
        raise NodeGone
    return line


def ask(line):
    """The answer to a line; what comes unasked before it is passed over."""
    try:
        control.sendall(line.encode() + b"\n")
    except OSError:
        pass  # the node hung up, and its last words can still be read
    while (answer := next_line()).startswith("! "):
        pass
    return answer.split()


def join():
    """Joins as a new process, and gives its name. The node may begin anew between two lines, or the
    scope be stopped: then it tries again. Any other refusal is for good."""
    for _ in range(8):
        ask("start jobs")  # refused where the scope runs, which is as good
        answer = ask("spawn")
        if answer[0] == "pid":
            process = answer[1]
            answer = ask(f"join jobs jobs/{address} {process}")
            if answer == ["ok"]:
                return process
        if answer != ["fault", "not", "yours"] and answer[-1] != "NoScope":
            break
    end("the node answers: " + " ".join(answer))


def stay():
    """Is listed, until the node is gone."""
    process = join()
    while True:
        news = next_line()
        if news == "! stopped jobs\n":
            ask(f"exit {process}")  # it lives on without its group
        if news.startswith(("! restarted ", "! stopped jobs")):
            process = join()


control_path, address, place = arguments()
serve()
while True:
    control = connect()
    lines = control.makefile()
    try:
        stay()
    except NodeGone:
        print("worker.py: the node is gone", file=sys.stderr)
    control.close()
    time.sleep(0.1)
