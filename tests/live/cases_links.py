"""How links are made: by many nodes, with few descriptors, by names of hosts, with two nodes of one
name, and behind a turn."""

import os
import resource
import socket
import threading
import time

from cases_long import fill
from field import case
from node import asked, await_members, await_nodes, limit_space, member, start
from peer import Peer, connect, good_peer
from waiting import LIMIT, expect, expect_that, until

# How lines on standard error begin: of no lane left, and of a peer that hangs up again and again.
FULL = "warn full "
UNSTEADY = "warn unsteady peer=a@h "


def said(node, begin):
    """Its lines on standard error that begin so."""
    return node.log(begin)


def program_of(node):
    """The program itself, behind the script that found it: that takes a second of the processor."""
    return os.readlink(f"/proc/{node.process.pid}/exe")


def mesh(field, count):
    """So many nodes, each of which dials all older ones."""
    made = []
    for number in range(count):
        made.append(field.node(f"n{number}@h", dial=made, control=False))
        field.program = program_of(made[0])
    return made


def whole_mesh(field, count):
    """A mesh comes up, and a member at its last node is listed at the first: its nodes."""
    made = mesh(field, count)
    end = time.monotonic() + 90
    for node in made:
        others = [other.name for other in made if other is not node]
        await_nodes(node, others, max(end - time.monotonic(), 1))
    start(made[0])
    await_members(made[0], [member(made[-1])])
    return made


@case
def mesh_of_40(field):
    """40 nodes, each of which dials all older ones, are all linked, and none says it is full."""
    for node in whole_mesh(field, 40):
        expect(f"what {node.name} said on standard error", [], node.errors())


@case
def mesh_of_64(field):
    """So are 64 nodes, of which each has 63 links."""
    whole_mesh(field, 64)


@case
def full_node(field):
    """A node with 64 links says so once a minute at most; a further peer waits, and comes up
    when one has gone."""
    a = field.node("a@h")
    peers = [good_peer(field, a, f"peer{number}@h") for number in range(64)]
    until("a word that the node is full", lambda: said(a, FULL), limit=10)
    late = field.keep(Peer(connect(a.port), "late@h"))
    late.send(late.name_frame())
    late.stream.settimeout(1)
    expect_that(is_silent(late), "no answer to one peer too many", "one")
    expect("how often it was said that the node is full", 1, len(said(a, FULL)))
    peers[0].close()
    late.stream.settimeout(LIMIT)
    expect("the status of a peer that has waited", "ok", late.receive_status())
    # (it has the last lane now)
    time.sleep(1)
    expect("how often it is said in a minute", 1, len(said(a, FULL)))


@case
def dialled_once_a_thread_can_be_made(field):
    """A peer for which no thread can be made for a moment is dialled once one can; the
    log says it once."""
    a, b = field.node("a@h"), field.node("b@h")
    # (all that it begins with have begun: 64 of them wait for peers)
    until("its threads", lambda: b.memory()[1], lambda count: count >= 75)
    time.sleep(0.2)
    before = limit_space(b.process.pid, 500_000)
    asked(b, f"dial a@h=127.0.0.1:{a.port}")
    until("a word that there is no thread", lambda: said(b, "warn no_thread "))
    time.sleep(2)
    resource.prlimit(b.process.pid, resource.RLIMIT_AS, before)
    await_nodes(b, ["a@h"], limit=10)
    expect("how often it was said", 1, len(said(b, "warn no_thread ")))


@case
def full_node_found(field):
    """That a node is full is told by its `status`, and who dials it logs that no link came up."""
    a = field.node("a@h")
    kept = [good_peer(field, a, f"peer{number}@h") for number in range(64)]
    until("a full node", lambda: a.ask("status"), lambda came: " links=64/64 " in came)
    b = field.node("b@h", "--setuptime", "500", dial=[a])
    until(
        "why no link came up",
        lambda: b.log("warn dial_failed peer=a@h"),
        lambda came: any(" fault=handshake " in line for line in came),
    )
    kept[0].close()
    await_nodes(b, ["a@h"])


def is_silent(peer):
    """Whether nothing comes of it in time."""
    try:
        peer.stream.recv(1, socket.MSG_PEEK)
    except TimeoutError:
        return True
    return False


@case
def twins(field):
    """Two nodes of one name push each other out ever more seldom, and each says so once."""
    a = field.node("a@h")
    pair = [field.node("c@h", "--creation", life, dial=[a], control=False) for life in (1, 2)]
    time.sleep(5)
    before = len(a.untold("! up c@h .*"))
    time.sleep(15)
    swaps = len(a.untold("! up c@h .*")) - before
    expect_that(swaps <= 7, "at most 7 links of c@h in 15 s", swaps)
    # (both say it into one file, which has the name of the node)
    until("a line of each of both", lambda: said(pair[0], UNSTEADY), lambda lines: len(lines) == 2)


@case
def names_of_hosts(field):
    """Names of hosts do where a node listens and dials; one that nobody has is a failed dial."""
    a = field.start("a@h", "--listen", "localhost:0", port=None, control=False)
    place = a.next_answer("where it listens")
    expect_that(place.startswith("listening "), "where it listens", place)
    port = place.rsplit(":", 1)[1]
    dials = ["--dial", "x@h=nohost.invalid:1", "--dial", f"a@h=localhost:{port}"]
    b = field.node("b@h", *dials)
    await_nodes(b, ["a@h"])
    await_nodes(a, ["b@h"])
    others = [
        line
        for line in b.errors()
        if not line.startswith("warn dial_failed peer=x@h at=nohost.invalid:1 fault=no_host ")
    ]
    expect("what else b@h said on standard error", [], others)


@case
def few_descriptors(field):
    """A node with 64 descriptors begins anew, and ends at quit where strangers have taken all."""
    limited = os.path.join(field.folder, "limited")
    with open(limited, "w", encoding="ascii") as script:
        script.write(f'#!/bin/sh\nulimit -n 64\nexec {field.program} "$@"\n')
    os.chmod(limited, 0o700)
    field.program = limited
    a = field.node("a@h", "--last-entry", "400", "--dial", "b@h=127.0.0.1:1")
    fill(a, member(a))
    asked(a, "start other")
    strangers = [field.keep(Peer(connect(a.port))) for _ in range(80)]
    descriptors = f"/proc/{a.process.pid}/fd"
    until("no descriptor left", lambda: len(os.listdir(descriptors)), lambda count: count >= 62)
    a.send("quit")
    expect("the status after quit", 0, a.status(limit=20))
    del strangers


@case
def kept_listener(field):
    """Nobody is refused who connects while a node begins anew, and who dials it is linked again."""
    a = field.node("a@h", "--last-entry", "400", "--creation", "41")
    b = field.node("b@h", dial=[a])
    b.told("! up a@h 41 visible")
    has_ended, refused = threading.Event(), []
    knocking = threading.Thread(target=knock, args=(a.port, has_ended, refused))
    knocking.start()
    try:
        fill(a, member(a))
        b.told("! up a@h 42 visible")
    finally:
        has_ended.set()
        knocking.join()
    expect("connections that were refused", [], refused)


def knock(port, has_ended, refused):
    """Connects again and again, and hangs up."""
    while not has_ended.is_set():
        try:
            socket.create_connection(("127.0.0.1", port), timeout=5).close()
        except OSError as fault:
            refused.append(str(fault))
        time.sleep(0.05)
