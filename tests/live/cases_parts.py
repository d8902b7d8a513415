"""Nodes that know version 2 of link messages: rows in parts, which count once the last has come."""

import signal
import struct
import threading
from concurrent.futures import ThreadPoolExecutor

from cases_slow import TICK_TIME, Swift
from field import case
from node import asked, audit, await_members, await_nodes, member, members, new_pid, size, start
from peer import MOST_ROWS, Peer, connect, good_peer
from waiting import expect, expect_that, until

LINKS_2 = ("--links", 2)
# So that rows in parts are more than a stream takes that nobody reads.
LONG_GROUP = "g" * 255
# The most rows of a scope.
MOST_IN_PARTS = 65_536
# How many full parts a peer begins with that never ends a message, and how many such
# peers there are.
BEGUN, PEERS = 6, 4
# KiB that a row takes at most while it is kept, with the frame that brought it in the audit.
ROW_SIZE = 0.4
# KiB for threads and buffers besides.
REST = 20_000
# The fewest entries of an audit, behind which a node begins anew.
FEWEST = 64
# A process with so many rows in each of so many scopes leaves in the most parts that may wait for a
# link. Beside it another one joins and leaves so often.
SCOPES, PARTS = ["pg", *[f"s{number}" for number in range(1, 64)]], 16
FEW_PARTS = (PARTS - 1) * MOST_ROWS + 1
CHANGES = 20_000
# Seconds for calls on all these rows.
LONG = 150


def many_rows(node, count, group="g"):
    """A process that is joined to a group so often, in one call."""
    start(node)
    pid = new_pid(node)
    asked(node, f"join pg {group} {' '.join([pid] * count)}")
    return pid


def frames_accepted(node):
    return sum(entry.endswith("Frame accepted") for entry in audit(node))


def full_part(number, of):
    """Rows of a part, each another one."""
    return [("g", number * MOST_ROWS + place + 1) for place in range(of)]


@case
def all_rows_or_none(field):
    """65,536 rows of a node are listed at another one at once, and its monitor is told once. A
    third one is told of them while the first is killed, so that some parts come there and the last
    doesn't: it lists none."""
    a = field.node("a@h", *LINKS_2)
    b, c = (field.node(name, *LINKS_2, dial=[a]) for name in ("b@h", "c@h"))
    start(b)
    number = b.ask(f"monitor pg {LONG_GROUP}").split()[1]
    pid = many_rows(a, MOST_IN_PARTS, LONG_GROUP)
    rows = " ".join([pid] * MOST_IN_PARTS)
    b.told(f"! join {number} {LONG_GROUP} {MOST_IN_PARTS} {rows}")
    expect("news of the group", 1, len(b.untold(f"! join {number} .*")))
    await_nodes(c, ["a@h"])
    before = frames_accepted(c)
    start(c)
    until("a part at c@h", lambda: frames_accepted(c) > before, pause=0)
    c.signal(signal.SIGSTOP)
    a.kill()
    c.signal(signal.SIGCONT)
    for node in (b, c):
        await_nodes(node, [])
        await_members(node, [], LONG_GROUP)
    came = frames_accepted(c) - before
    expect_that(0 < came < MOST_IN_PARTS / MOST_ROWS, "some parts at c@h, and not all", came)


@case
def cut_between_parts(field):
    """A peer that goes between two parts has stated nothing; on its next link it begins anew. What
    was begun there replaces nothing that it stated before."""
    a = field.node("a@h", *LINKS_2)
    start(a)
    first = good_peer(field, a, version=2)
    first.part(b"S", 1, False, [("g", 1)])
    first.part(b"S", 2, False, [("g", 2)])
    watched(a, "Frame accepted", 4)
    await_members(a, [])
    first.close()
    await_nodes(a, [])
    second = good_peer(field, a, creation=8, version=2)
    second.part(b"S", 3, True, [("g", 3)])
    watched(a, "Frame refused 33 PartOrder", 1)
    second.sync([("g", 4)])
    await_members(a, [second.pid(4)])
    second.part(b"S", 1, False, [("g", 5)])
    second.part(b"S", 2, True, [("g", 6)])
    await_members(a, [second.pid(5), second.pid(6)])


def watched(node, ending, count):
    """Until so many entries of the audit end so."""
    until(
        f"{count} entries {ending}",
        lambda: sum(entry.endswith(ending) for entry in audit(node)),
        lambda came: came >= count,
    )


@case
def parts_that_never_end(field):
    """Admitted peers that begin with many rows and never end take no more memory than these
    rows, and are listed nowhere; others are served meanwhile. A stranger that sends a part
    is turned away."""
    a = field.node("a@h", *LINKS_2)
    pid = member(a)
    before, entries = a.memory()[0], size(a)
    peers = [good_peer(field, a, f"p{number}@h", version=2) for number in range(PEERS)]
    for peer in peers:
        for number in range(BEGUN):
            peer.part(b"S", number + 1, False, full_part(number, MOST_ROWS))
    stranger = field.keep(Peer(connect(a.port), "stranger@h", version=2))
    stranger.send(stranger.name_frame())
    stranger.part(b"S", 1, False, [("g", 1)])
    stranger.await_end()
    watched(a, "Frame accepted", PEERS * (2 + BEGUN))
    await_members(a, [pid])
    grown, most = a.memory()[0] - before, PEERS * BEGUN * MOST_ROWS * ROW_SIZE + REST
    expect_that(
        grown < most, f"{most:.0f} KiB more at most for {size(a) - entries} entries", f"{grown} KiB"
    )
    peers[0].part(b"S", BEGUN + 1, True, [("h", 1)])
    until(
        "rows at the last part",
        lambda: len(members(a)),
        lambda count: count == BEGUN * MOST_ROWS + 1,
    )
    await_members(a, [peers[0].pid(1)], "h")
    for peer in peers:
        peer.close()
    await_nodes(a, [])
    await_members(a, [pid])


@case
def told_in_parts(field):
    """A peer of version 2 is told of 4,097 rows in two parts, and of those that leave with
    a process in two. One of version 1 isn't told of so many: its Discover is refused,
    until they are few."""
    a = field.node("a@h", *LINKS_2)
    pid = many_rows(a, MOST_ROWS + 1)
    new, old = good_peer(field, a, "new@h", version=2), good_peer(field, a, "old@h")
    new.discover()
    expect("two parts", [MOST_ROWS, 1], [len(rows) for rows in new.await_parts(b"S")])
    old.discover()
    watched(a, "Frame refused 18 RowsFull", 1)
    asked(a, f"leave pg g {pid}")
    expect("a leave", [("g", pid)], new.await_message(b"L"))
    old.discover()
    expect("few rows", MOST_ROWS, len(old.await_message(b"S")))
    asked(a, f"join pg g {pid}", "refused 18 RowsFull")
    old.close()
    await_nodes(a, ["new@h"])
    asked(a, f"join pg g {pid}")
    asked(a, f"exit {pid}")
    expect("two parts of a leave", [MOST_ROWS, 1], [len(rows) for rows in new.await_parts(b"L")])


@case
def old_and_new_nodes(field):
    """A node that knows version 1 alone and one that knows both list each other's processes, and
    the one that knows both has few rows where the other is told."""
    a = field.node("a@h", *LINKS_2)
    b = field.node("b@h", dial=[a])
    pids = [member(node) for node in (a, b)]
    for node in (a, b):
        await_members(node, pids)
    asked(a, f"join pg h {' '.join([pids[0]] * MOST_ROWS)}", "refused 18 RowsFull")
    asked(a, f"join pg h {' '.join([pids[0]] * (MOST_ROWS - 1))}")
    until("many rows at b@h", lambda: len(members(b, "h")), lambda count: count == MOST_ROWS - 1)


@case
def next_life_knows_version_2(field):
    """A node that begins anew knows the version that it was started with."""
    a = field.node("a@h", *LINKS_2, "--last-entry", FEWEST)
    control = field.control(a)
    for _ in range(FEWEST):
        new_pid(control)
    control.told("! restarted .*")
    start(a)
    peer = good_peer(field, a, version=2)
    peer.part(b"S", 1, True, [("g", 1)])
    await_members(a, [peer.pid(1)])


class Reading:
    """Reads what a peer is told of rows: parts, and messages of one part, which are
    counted alone."""

    def __init__(self, peer):
        """Begins."""
        self.parts, self.changes, self.peer = [], 0, peer
        threading.Thread(target=self.read, daemon=True).start()

    def read(self):
        """Reads until the end."""
        try:
            while (body := self.peer.receive()) is not None:
                self.take(body)
        except (OSError, AssertionError):
            pass  # (the case is over)

    def take(self, body):
        """Notes a part by its kind, its scope, its number, whether it is the last one, and how many
        rows it has."""
        place = 2 + body[1]
        if body[:1] in (b"S", b"J", b"L"):
            number, is_last, rows = struct.unpack(">IBI", body[place : place + 9])
            if (number, is_last) == (1, 1):
                self.changes += 1
            else:
                self.parts.append((body[:1], body[2:place].decode(), number, is_last, rows))

    def await_all_parts(self, kind):
        """Until all rows of a process in each scope were told."""
        sizes = [*[MOST_ROWS] * (PARTS - 1), 1]
        wanted = [
            (kind, scope, number, number == PARTS, rows)
            for scope in SCOPES
            for number, rows in enumerate(sizes, 1)
        ]
        until(
            f"{len(wanted)} parts",
            lambda: len(self.parts),
            lambda count: count >= len(wanted),
            LONG,
        )
        expect("the parts", sorted(wanted), sorted(self.parts))
        self.parts = []


@case
def exit_of_the_most_parts(field):
    """An exit that owes a link 1,024 parts, as many as may wait, isn't made while another frame
    waits for a peer that reads: beside a client that changes a row as fast as it can it ends no
    link, and the peer is told all."""
    a = field.node("a@h", *LINKS_2, "--ticktime", TICK_TIME)
    leaver = field.control(a)
    pid = new_pid(leaver)
    for scope in SCOPES:
        start(a, scope)
        asked(leaver, f"join {scope} g {' '.join([pid] * FEW_PARTS)}")
    peer = good_peer(field, a, version=2)
    peer.keep_ticking()
    for scope in SCOPES:
        peer.discover(scope)
    reading = Reading(peer)
    reading.await_all_parts(b"S")
    swift = Swift(field, a)
    with ThreadPoolExecutor() as pool:
        changes = pool.submit(swift.tell, CHANGES)
        until("changes told", lambda: reading.changes, lambda count: count > CHANGES / 10)
        leaver.send(f"exit {pid}")
        changes.result()
    expect("the answer to the exit", "ok", leaver.next_answer("an answer to the exit", LONG))
    reading.await_all_parts(b"L")
    until("the other changes", lambda: reading.changes, lambda count: count == CHANGES)
    expect("news of the link", [], a.untold("! down .*"))
    await_members(a, [])
