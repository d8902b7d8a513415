"""What an operator changes while a node runs: whom it dials, and its end without a loss."""

import os
import time

from cases_long import lives_of
from field import case
from node import asked, await_members, await_nodes, member, new_pid, nodes, size, start
from peer import connect
from waiting import expect, expect_that, until


@case
def dialled_while_it_runs(field):
    """A peer is dialled from `dial` on, at its new place where it is said again, also behind a
    turn, and no more behind `undial`; a link that is up stays. None of that is an entry."""
    a, b = field.node("a@h"), field.node("b@h", "--last-entry", "150")
    before = size(b)
    asked(b, "dial a@h=127.0.0.1:1")
    until("a dial that fails", lambda: b.ask("dials"), lambda came: came.endswith(" refused"))
    expect("the size of the audit", before, size(b))
    asked(b, f"dial a@h=127.0.0.1:{a.port}")
    await_nodes(b, ["a@h"])
    asked(b, "dials", f"dials a@h 127.0.0.1:{a.port} 1 - up")
    while not b.untold("! restarted .*"):
        b.ask("spawn")
    await_nodes(b, ["a@h"])
    before = size(b)
    asked(b, "undial a@h")
    asked(b, "dials", "dials")
    expect("the size of the audit", before, size(b))
    expect("who is up behind undial", ["a@h"], nodes(b))
    asked(b, "disconnect a@h")
    time.sleep(2)
    expect("who is up two seconds later", [], nodes(b))


@case
def undialled_before_it_is_up(field):
    """A peer that isn't up is dialled no more behind `undial`, though its port opens."""
    b = field.node("b@h")
    port = field.free_port()
    asked(b, f"dial a@h=127.0.0.1:{port}")
    until("a second dial", lambda: b.ask("dials").split()[3], lambda times: times == "2")
    asked(b, "undial a@h")
    field.node("a@h", port=port)
    time.sleep(3)
    expect("who is up", [], nodes(b))


@case
def undialled_while_it_waits_for_a_lane(field):
    """A dial that waits for a lane ends at `undial`, though none is free: its connection is closed,
    and nothing of it is an entry."""
    b = field.node("b@h", "--setuptime", "60000")
    for _ in range(64):
        field.keep(connect(b.port))
    until("a full node", lambda: b.log("warn full "))
    listener = field.listener()
    asked(b, f"dial a@h=127.0.0.1:{listener.getsockname()[1]}")
    link, _ = listener.accept()
    field.keep(link).settimeout(10)
    before = size(b)
    asked(b, "undial a@h")
    expect("what comes before its end", b"", link.recv(1))
    expect("the size of the audit", before, size(b))


@case
def faults_of_dials(field):
    """What names no peer to dial is a fault that says what is wrong with it, but for bytes that a
    terminal shouldn't be given, and makes no entry. An IPv6 address stands in brackets."""
    a = field.node("a@h")
    before = size(a)
    for line, fault in (
        ("dial", "a word is missing: dial NAME=HOST:PORT"),
        ("dial b@h", "no NAME=HOST:PORT: b@h"),
        ("dial b@h=host", "no NAME=HOST:PORT: b@h=host"),
        ("dial b@h=:1", "no NAME=HOST:PORT: b@h=:1"),
        ("dial b@h=host:70000", "no NAME=HOST:PORT: b@h=host:70000"),
        ("dial b@h=host:0", "no NAME=HOST:PORT: b@h=host:0"),
        ("dial bh=host:1", "the name has no single `@` between other bytes: bh=host:1"),
        ("dial a@h=host:1", "the node's own name: a@h=host:1"),
        ("dial b@h 17", "a word too many: 17"),
        ("dial b@h=host:1 17 x", "a word too many: 17"),
        ("dial  b@h=host:1", "an empty word; words are parted by one space"),
        ("dial b@h=::1", "no NAME=HOST:PORT: b@h=::1"),
        ("dial b@h=::1:17", "no NAME=HOST:PORT: b@h=::1:17"),
        ("dial b@h=\x1b[2J", "no NAME=HOST:PORT"),
        ("undial", "a word is missing: undial NAME"),
        ("undial b@h", "not dialled: b@h"),
        ("undial bh", "the name has no single `@` between other bytes: bh"),
        ("undial b@h x", "a word too many: x"),
        ("undial b@h\x1b", "the text has a byte outside 0x21 to 0x7E"),
        ("reopen now", "a word too many: now"),
        ("drain now", "a word too many: now"),
    ):
        asked(a, line, f"fault {fault}")
    for number in range(256):
        asked(a, f"dial n{number}@h=127.0.0.1:1")
    asked(a, "dial late@h=127.0.0.1:1", "fault 256 peers are dialled already")
    asked(a, "dial n0@h=[::1]:2")
    expect("the size of the audit", before, size(a))
    a.quit()


def first_answer(node):
    """What a new client of the node is answered, or None where there is no room for
    it, or nobody."""
    try:
        client = node.control()
    except OSError:
        return None
    try:
        answer = client.ask("size")
    except (AssertionError, OSError):
        answer = None
    client.close()
    return None if answer == "fault full" else answer


@case
def drained(field):
    """`drain` ends a node without a loss: all processes exit, of all connections, peers are told so
    before the link is down, and who asked is answered `ok` then. Meanwhile nobody is let in."""
    audit = os.path.join(field.folder, "audit")
    a = field.node("a@h", "--creation", "7", "--audit", audit)
    b = field.node("b@h", dial=[a])
    start(b)
    expect_that(b.ask("monitor_scope pg").startswith("ref "), "a monitor", "none")
    clients = [field.control(a) for _ in range(3)]
    pids = [member(talk) for talk in (a, *clients)]
    await_members(b, pids)
    for _ in range(2_000):
        new_pid(clients[0])
    clients[0].send("drain")
    clients[1].await_end()
    expect("what a new client is answered", None, first_answer(a))
    expect("the answer to drain", "ok", clients[0].next_answer("an answer to drain"))
    expect("its status", 0, a.status())
    for client in clients:
        client.await_end()
    b.told_all(*(rf"! leave \d+ g 1 {pid}" for pid in pids))
    b.told("! down a@h 7 closed")
    (life,) = lives_of(audit)
    exits = [entry for entry in life if (entry["event"], entry["verdict"]) == ("Exit", "accepted")]
    expect("exits in the audit", 2_004, len(exits))
    expect_that(not os.path.exists(a.control_path), "no control socket", a.control_path)


@case
def drained_by_its_operator(field):
    """`drain` on standard input ends a node as well, also one without a control socket, and one
    that dials a peer that is away."""
    a = field.node("a@h", "--dial", "x@h=127.0.0.1:1", control=False)
    new_pid(a)
    asked(a, "drain")
    expect("its status", 0, a.status(10))


@case
def ended_while_it_drains(field):
    """`quit` on standard input ends a node that drains at once, and no other line is
    answered then."""
    a = field.node("a@h")
    client, watcher = field.control(a), field.control(a)
    for _ in range(4_000):
        new_pid(client)
    client.send("drain")
    watcher.await_end()
    for line in ("nodes", "quit"):
        a.send(line)
    expect("its status", 0, a.status(10))
    client.await_end()
    expect("answers to drain, and behind it", ([], []), (client.answers, a.answers))
