"""Peers that don't take their frames lose their links; a burst ends no link of one that reads."""

import os
import socket
import threading
import time
from concurrent.futures import ThreadPoolExecutor

from field import case
from node import asked, await_members, await_nodes, member, new_pid, start
from peer import Peer, connect, good_peer
from waiting import LIMIT, expect, expect_that, seconds_since, until

# The tick time of these nodes and what a handshake may take, in milliseconds, and the seconds that
# are far below both.
TICK_TIME = 300_000
LONG_BEFORE = 60
# How many changes of one row are told to a peer that doesn't read.
CHANGES = 5_000
# How many joins and leaves of one row are a burst, and to how many peers it is told.
BURST = 20_000
PEERS = 8
# How many processes exit at once, each of which is in so many scopes.
EXITS = 30
SCOPES = 64
# A message of some 300 KiB, and how many pairs of them fill the buffers of the kernel.
LONG_GROUP = "g" * 255
ROWS = 1_000
FILLING = 10
# KiB that the node may grow by, with the audit, while a peer doesn't read.
MOST_GROWTH = 60_000
RECEIVE_BUFFER = 4_096


def fill(node, pid):
    """Tells so much that the stream of a peer that doesn't read is full."""
    for _ in range(FILLING):
        for word in ("join", "leave"):
            asked(node, f"{word} pg {LONG_GROUP} " + " ".join([pid] * ROWS))


class Swift:
    """A control connection with a process, which says lines as fast as it can write them."""

    def __init__(self, field, node):
        """Connects and spawns."""
        self.socket = field.keep(socket.socket(socket.AF_UNIX))
        self.socket.connect(node.control_path)
        self.lines = (line for line in self.socket.makefile("rb") if not line.startswith(b"! "))
        self.socket.sendall(b"spawn\n")
        self.pid = next(self.lines).split()[1].decode()

    def tell(self, changes):
        """That many joins and leaves of one row, in turn, each of which is answered."""
        pair = f"join pg row {self.pid}\nleave pg row {self.pid}\n".encode()
        writing = threading.Thread(target=self.socket.sendall, args=(pair * (changes // 2),))
        writing.start()
        for _ in range(changes):
            expect("the answer to a change", b"ok\n", next(self.lines, None))
        writing.join()

    def ask(self, line):
        """Its answer."""
        self.socket.sendall(line.encode() + b"\n")
        return next(self.lines).decode().strip()


def slow_peer_of(field, node):
    """A peer with a small receive buffer, whose link is up."""
    stream = connect(node.port, receive_buffer=RECEIVE_BUFFER)
    return field.keep(Peer(stream, "slow@h")).shake_hands()


def stop_reading(peer):
    """The peer is told of the scope, ticks from now on, and reads nothing any more."""
    peer.discover()
    peer.await_message(b"S")
    return peer.keep_ticking()


class Counting:
    """Reads all that a peer is told, and counts the joins and leaves of one row. Behind each long
    message it rests."""

    def __init__(self, peer, rest=0):
        """Begins."""
        self.counts = {b"J": 0, b"L": 0}
        self.peer, self.rest = peer, rest
        threading.Thread(target=self.read, daemon=True).start()

    def read(self):
        """Reads until the end."""
        try:
            while (body := self.peer.receive()) is not None:
                if body[:1] in self.counts and b"\x03row" in body:
                    self.counts[body[:1]] += 1
                time.sleep(self.rest if len(body) > ROWS else 0)
        except (OSError, AssertionError):
            pass  # (the case is over)

    def both(self):
        """How many joins, and how many leaves."""
        return list(self.counts.values())


def expect_soon(what, seconds, limit=LONG_BEFORE):
    """That something has come in time."""
    expect_that(seconds < limit, f"{what} within {limit} s", f"{seconds:.1f} s")


def descriptors(node):
    """How many descriptors the node has open."""
    return len(os.listdir(f"/proc/{node.process.pid}/fd"))


@case
def slow_peer(field):
    """A peer that ticks and stops reading loses its link once 1,024 frames wait for it, long before
    the tick time, and its connection is closed at once; the others are told all, memory stays
    bounded, and it comes back with a whole Sync."""
    a = field.node("a@h", "--ticktime", TICK_TIME)
    pid, swift = member(a), Swift(field, a)
    good = good_peer(field, a, "good@h")
    good.discover()
    good.await_message(b"S")
    ticking, counting = good.keep_ticking(), Counting(good)
    slow = slow_peer_of(field, a)
    stopped = stop_reading(slow)
    slow.sync([("g", 1)])
    await_members(a, [pid, slow.pid(1)])
    before, open_before = a.memory()[0], descriptors(a)
    began = time.monotonic()
    fill(a, pid)
    swift.tell(CHANGES)
    when, _ = a.told("! down slow@h 7 slow", limit=LONG_BEFORE)
    expect_soon("an end", when - began)
    until("the end of its connection", lambda: descriptors(a), lambda count: count < open_before, 5)
    await_members(a, [pid])
    until("all changes at the other peer", counting.both, lambda told: told == [CHANGES // 2] * 2)
    expect("news of the other peer", [], a.untold("! down good@h .*"))
    grown = a.memory()[0] - before
    expect_that(grown < MOST_GROWTH, f"{MOST_GROWTH} KiB more at most", f"{grown} KiB")
    stopped.set()
    slow.await_end()
    again = good_peer(field, a, "slow@h", creation=8)
    again.discover()
    expect("the rows of the Sync", [("g", pid)], again.await_message(b"S"))
    ticking.set()


def accepted(field, listener):
    """The peer that a node dials, whose link is up."""
    return field.keep(Peer(listener.accept()[0], "slow@h")).take_hands()


@case
def slow_peer_is_dialled_again(field):
    """A dialled peer that stops reading is dialled again as soon as its link has ended."""
    listener = field.keep(socket.socket())
    listener.setsockopt(socket.SOL_SOCKET, socket.SO_RCVBUF, RECEIVE_BUFFER)
    listener.bind(("127.0.0.1", 0))
    listener.listen()
    listener.settimeout(LIMIT)
    # (who is dialled again may be busy with what was said before)
    times = ["--ticktime", TICK_TIME, "--setuptime", TICK_TIME]
    place = f"slow@h=127.0.0.1:{listener.getsockname()[1]}"
    a = field.node("a@h", *times, "--dial", place, port=None)
    pid, swift = member(a), Swift(field, a)
    stopped = stop_reading(accepted(field, listener))
    began = time.monotonic()
    fill(a, pid)
    swift.tell(CHANGES)
    a.told("! down slow@h 7 slow", limit=LONG_BEFORE)
    again = accepted(field, listener)
    expect_soon("a dial", seconds_since(began))
    again.discover()
    expect("the rows of the Sync", [("g", pid)], again.await_message(b"S"))
    stopped.set()


@case
def burst_ends_no_link(field):
    """A connection that joins and leaves as fast as it can write lines, told to 8 peers, ends the
    link of none, and each of them has the right list in the end."""
    a = field.node("a@h")
    peers = [field.node(f"p{number}@h", dial=[a]) for number in range(PEERS)]
    for peer in peers:
        start(peer)
    pid, swift = member(a), Swift(field, a)
    for peer in peers:
        await_members(peer, [pid])
    swift.tell(BURST)
    asked(swift, f"join pg row {swift.pid}")
    for peer in peers:
        await_members(peer, [swift.pid], "row")
        await_members(peer, [pid])
        expect(f"news of a link that was lost at {peer.name}", [], peer.untold("! down .*"))
    await_nodes(a, [peer.name for peer in peers])
    expect("news of a link that was lost", [], a.untold("! down .*"))


@case
def slow_reader_keeps_its_link(field):
    """A peer that reads slowly slows down who joins and leaves, and is told all: its link doesn't
    end. Meanwhile other connections are answered."""
    a = field.node("a@h", "--ticktime", TICK_TIME)
    pid, swift, other = member(a), Swift(field, a), field.control(a)
    slow = slow_peer_of(field, a)
    stopped = stop_reading(slow)
    fill(a, pid)
    reading = Counting(slow, rest=0.2)
    telling = ThreadPoolExecutor(1).submit(swift.tell, CHANGES)
    while not telling.done():
        began = time.monotonic()
        asked(other, "nodes", "nodes slow@h")
        expect_soon("an answer", seconds_since(began), 5)
        time.sleep(0.1)
    telling.result()
    until("all changes at the peer", reading.both, lambda told: told == [CHANGES // 2] * 2)
    expect("news of a link that was lost", [], a.untold("! down .*"))
    stopped.set()


@case
def exits_at_once_end_no_link(field):
    """30 connections, each with a process that is in 64 scopes, end at once: a peer that reads is
    told of all, and its link doesn't end."""
    a = field.node("a@h")
    b = field.node("b@h", dial=[a])
    scopes = [f"s{number}" for number in range(SCOPES)]
    for scope in scopes:
        start(a, scope)
        start(b, scope)
    controls = [field.control(a) for _ in range(EXITS)]
    pids = [new_pid(control) for control in controls]
    for control, pid in zip(controls, pids):
        control.socket.sendall("".join(f"join {scope} g {pid}\n" for scope in scopes).encode())
    for control in controls:
        for _ in scopes:
            expect("the answer to a join", "ok", control.next_answer("an answer"))
    await_members(b, pids, scope=scopes[-1])
    for control in controls:
        control.close()
    for scope in scopes:
        await_members(b, [], scope=scope)
    for node in (a, b):
        expect(f"news of a link that was lost at {node.name}", [], node.untold("! down .*"))
