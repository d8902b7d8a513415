"""What a case works with: nodes, peers, free ports and a folder, all of which are gone after it."""

import contextlib
import os
import random
import shutil
import socket
import tempfile

from node import Node
from waiting import expect_that

COOKIE = "password"
PORTS = range(10_000, 30_000)
# Words of a program that came to grief; a case never ends well with one of them on standard error.
GRIEF = ("panicked", "AddressSanitizer", "Segmentation", "overflow", "settle")


# In the order in which they stand.
CASES = []


def case(function):
    """Marks a case: its docstring says the promise that it tries."""
    CASES.append(function)
    return function


class Field:
    """All that a case begins, and ends."""

    def __init__(self, program, ask_program):
        self.program = program
        self.ask_program = ask_program
        # (the path of a Unix socket has 107 bytes at most, which a folder of TMPDIR may take up)
        self.folder = tempfile.mkdtemp(
            prefix="pg_node.", dir="/tmp" if os.access("/tmp", os.W_OK) else None
        )
        self.nodes = []
        self._open = []
        self._cookies = {}

    def __enter__(self):
        return self

    def __exit__(self, *_):
        # (all of it, whatever fails of it: what was kept in its order, the nodes, the folder)
        with contextlib.ExitStack() as stack:
            stack.callback(shutil.rmtree, self.folder, ignore_errors=True)
            for node in self.nodes:
                stack.callback(node.kill)
            for thing in reversed(self._open):
                stack.callback(thing.close)

    def keep(self, thing):
        """Closes it when the case is over."""
        self._open.append(thing)
        return thing

    def cookie_file(self, cookie=COOKIE, mode=0o600):
        """A file with this cookie, that its owner alone can read."""
        if (cookie, mode) not in self._cookies:
            path = os.path.join(self.folder, f"cookie.{len(self._cookies)}")
            with open(path, "w", encoding="ascii") as file:
                file.write(cookie)
            os.chmod(path, mode)
            self._cookies[cookie, mode] = path
        return self._cookies[cookie, mode]

    def start(self, name, *options, cookie=COOKIE, port=0, control=True):
        """A node that was started, and may not have said anything yet. Without a port it takes no
        connections of peers."""
        words = ["--cookie-file", self.cookie_file(cookie)]
        if port is not None:
            words += ["--listen", f"127.0.0.1:{port}"]
        if control:
            words += ["--control", os.path.join(self.folder, f"{name}.control")]
        node = Node(self.program, self.folder, name, words + [str(option) for option in options])
        self.nodes.append(node)
        return node

    def node(self, name, *options, dial=(), **rest):
        """A node that serves, and dials these nodes."""
        dials = [
            word for other in dial for word in ("--dial", f"{other.name}=127.0.0.1:{other.port}")
        ]
        return self.start(name, *dials, *options, **rest).ready()

    def control(self, node):
        return self.keep(node.control())

    def free_port(self):
        """A port that nobody had a moment ago. It is none of those that the system gives to who
        connects, which are higher."""
        while True:
            port = random.choice(PORTS)
            try:
                with socket.create_server(("127.0.0.1", port)):
                    return port
            except OSError:
                continue

    def listener(self):
        listener = socket.create_server(("127.0.0.1", 0))
        listener.settimeout(60)
        return self.keep(listener)

    def check_errors(self):
        for node in self.nodes:
            grief = [line for line in node.errors() if any(word in line for word in GRIEF)]
            expect_that(not grief, f"no fault of the program {node.name}", grief)
