"""The client examples: a router that sends work to the workers of its own node and of another."""

import os
import queue
import socket
import subprocess
import sys
import threading
import time

from field import case
from node import asked, await_nodes, member, new_pid, start
from waiting import LIMIT, expect, expect_that, seconds_since

EXAMPLES = os.path.join(os.path.dirname(os.path.realpath(__file__)), "../../examples")


class Client:
    """An example as a process, with its lines as they come."""

    def __init__(self, field, *words):
        program, *rest = words
        self.process = subprocess.Popen(
            [sys.executable, "-u", os.path.join(EXAMPLES, program), *map(str, rest)],
            stdin=subprocess.PIPE,
            stdout=subprocess.PIPE,
            stderr=subprocess.PIPE,
            text=True,
            bufsize=1,
        )
        self.lines = queue.Queue()
        threading.Thread(
            target=lambda: [self.lines.put(line.rstrip("\n")) for line in self.process.stdout],
            daemon=True,
        ).start()
        field.keep(self)

    def next_line(self, what):
        try:
            return self.lines.get(timeout=LIMIT)
        except queue.Empty:
            raise AssertionError(f"expected {what} within {LIMIT} s, came nothing") from None

    def expect(self, line):
        expect("a line of the router", line, self.next_line(repr(line)))

    def send(self, line):
        self.process.stdin.write(line + "\n")

    def expect_end(self, status, words):
        """That it ends so, with one line on standard error that has these words."""
        expect("the status of an example", status, self.process.wait(LIMIT))
        self.expect_errors([words])

    def expect_error(self, words):
        """That its next line on standard error ends so."""
        line = self.process.stderr.readline()
        expect_that(line.endswith(f".py: {words}\n"), f"{words!r} on standard error", line)

    def expect_errors(self, wanted):
        """That its lines on standard error that weren't read yet have these words, a line
        each; it has ended."""
        lines = self.process.stderr.read().splitlines()
        expect("how many lines on standard error", len(wanted), len(lines))
        for words, line in zip(wanted, lines):
            expect_that(words in line, f"{words!r} on standard error", line)

    def close(self):
        self.process.kill()
        self.process.wait()


@case
def worker_and_router(field):
    """A router sends work only to workers that are listed now, and knows within a second that
    one was killed."""
    a = field.node("a@h")
    b = field.node("b@h", dial=[a])
    await_nodes(a, ["b@h"])
    router = Client(field, "router.py", a.control_path)
    near, far = (f"127.0.0.1:{field.free_port()}" for _ in range(2))
    workers = []
    for node, address in ((a, near), (b, far)):
        workers.append(Client(field, "worker.py", node.control_path, address))
        router.expect(f"here {address}")
    answers = ask_twice(router)
    expect("the workers that answered", {f"{near} did one", f"{far} did one"}, set(answers))
    for worker, address, left in (
        (workers[1], far, [f"{near} did one"] * 2),
        (workers[0], near, ["nobody"] * 2),
    ):
        worker.close()
        killed = time.monotonic()
        router.expect(f"gone {address}")
        expect_that(
            seconds_since(killed) < 1,
            "a router that knows within a second",
            f"{seconds_since(killed):.2f} s",
        )
        expect("the answers", left, ask_twice(router))


def ask_twice(router):
    answers = []
    for _ in range(2):
        router.send("one")
        answers.append(router.next_line("an answer"))
    return answers


@case
def work_goes_on(field):
    """Workers and routers go on when the node began anew."""
    a = field.node("a@h", "--last-entry", "300")
    address = f"127.0.0.1:{field.free_port()}"
    Client(field, "worker.py", a.control_path, address)
    router = Client(field, "router.py", a.control_path)
    router.expect(f"here {address}")
    control = field.control(a)
    while not control.untold("! restarted [0-9]+"):
        expect_that(control.ask("spawn").startswith("pid "), "a process", control.answers)
    router.expect(f"gone {address}")
    router.expect(f"here {address}")
    router.send("one")
    router.expect(f"{address} did one")


@case
def ends_of_examples(field):
    """Worker and router say so, and end with status 1, when their node has no room; and so does a
    worker whose port is taken. Without words they say how they are used."""
    a = field.node("a@h", "--clients", "2", port=None)
    port = field.free_port()
    address = f"127.0.0.1:{port}"
    Client(field, "worker.py", a.control_path, address)
    router = Client(field, "router.py", a.control_path)
    router.expect(f"here {address}")
    other = f"127.0.0.1:{field.free_port()}"
    for words in (("worker.py", a.control_path, other), ("router.py", a.control_path)):
        Client(field, *words).expect_end(1, "no room")
    Client(field, "worker.py", a.control_path, address).expect_end(
        1, f"{address}: Address already in use"
    )
    for words in (
        ("worker.py",),
        ("worker.py", a.control_path, "nowhere"),
        ("worker.py", a.control_path, "127.0.0.1:99999"),
        ("router.py",),
        ("router.py", "a", "b"),
    ):
        Client(field, *words).expect_end(2, f"usage: {words[0]} CONTROL")


@case
def examples_that_are_refused(field):
    """A worker that can't be listed, for want of rows or at a socket for reads, ends with status 1
    and the node's answer, and so does a router that can't be told who is."""
    reading = os.path.join(field.folder, "reading")
    a = field.node("a@h", "--control-read", reading, port=None)
    address = f"127.0.0.1:{field.free_port()}"
    Client(field, "worker.py", reading, address).expect_end(
        1, "the node answers: fault this socket takes reads and monitors alone"
    )
    Client(field, "router.py", reading).expect_end(1, "the node answers: refused 14 NoScope")
    control = field.control(a)
    start(control, "jobs")
    asked(control, " ".join(["join jobs full", *[new_pid(control)] * 4096]))
    Client(field, "worker.py", a.control_path, address).expect_end(
        1, "the node answers: refused 18 RowsFull"
    )
    router = Client(field, "router.py", reading)
    router.send("one")
    router.expect("nobody")


@case
def examples_wait(field):
    """Worker and router that find no node, or find it gone, say so once, and wait for the next one;
    a job that is under way isn't lost by it. At the end of its input a router waits no longer."""
    path = os.path.join(field.folder, "a@h.control")
    port = field.free_port()
    address = f"127.0.0.1:{port}"
    clients = [Client(field, "worker.py", path, address), Client(field, "router.py", path)]
    for client in clients:
        client.expect_error(f"{path}: No such file or directory; waiting")
    router = clients[1]
    a = field.node("a@h", port=None)
    router.expect(f"here {address}")
    jobs = field.keep(socket.create_connection(("127.0.0.1", port), LIMIT))
    a.kill()
    for client in clients:
        client.expect_error("the node is gone")
        client.expect_error(f"{path}: Connection refused; waiting")
    jobs.sendall(b"one\n")
    expect("an answer", f"{address} did one\n".encode(), jobs.recv(100))
    router.expect(f"gone {address}")
    router.send("one")
    router.expect("nobody")
    a = field.node("a@h", port=None)
    router.expect(f"here {address}")
    router.send("two")
    router.expect(f"{address} did two")
    a.kill()
    router.expect(f"gone {address}")
    router.process.stdin.close()
    expect("the status", 0, router.process.wait(LIMIT))


@case
def router_at_its_end(field):
    """A router ends with status 0 at the end of its input, whose last line may have no line feed;
    groups that name no worker, or one that can't be there, don't hold it up."""
    a = field.node("a@h", port=None)
    router = Client(field, "router.py", a.control_path)
    router.send("one")
    router.expect("nobody")
    control = field.control(a)
    member(control, "jobs/printers", "jobs")
    for group in ("127.0.0.1:99999", "127.0.0.1:none"):
        member(control, f"jobs/{group}", "jobs")
        router.expect(f"here {group}")
    router.send("one")
    router.expect("nobody")
    address = f"127.0.0.1:{field.free_port()}"
    Client(field, "worker.py", a.control_path, address)
    router.expect(f"here {address}")
    router.process.stdin.write("two")
    router.process.stdin.close()
    router.expect(f"{address} did two")
    expect("the status", 0, router.process.wait(LIMIT))
    router.expect_errors([])
