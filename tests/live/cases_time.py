"""Ticks and stops: a link on which nothing comes is lost, and one that is only slow stays."""

import signal
import time

from field import case
from node import await_members, await_nodes, member, size, start
from peer import good_peer
from waiting import expect, expect_that, seconds_since, until


@case
def ticks(field):
    """Peers that tick stay up for longer than the tick time, and are sent ticks themselves, though
    no scope runs."""
    a = field.node("a@h", "--ticktime", "6000")
    began = time.monotonic()
    peers = [good_peer(field, a, f"peer{number}@h") for number in range(20)]
    ticking = [peer.keep_ticking() for peer in peers]
    for peer in peers:
        peer.await_ticks(4)
    while seconds_since(began) < 8:
        peers[0].await_ticks(1)
    expect("news of a link that was lost", [], a.untold("! down .*"))
    for stopped in ticking:
        stopped.set()


@case
def silent_peer(field):
    """A peer that is up and says nothing any more is lost after the tick time, with its rows."""
    a = field.node("a@h", "--ticktime", "5000")
    start(a)
    peer = good_peer(field, a)
    began = time.monotonic()
    peer.sync([("g", 1)])
    await_members(a, [peer.pid(1)], limit=5)
    when, _ = a.told("! down peer@h 7 silent")
    expect_that(
        when - began > 4.5, "a link to last for the tick time of 5 s", f"{when - began:.2f} s"
    )
    await_members(a, [])
    peer.await_end()


@case
def short_stop(field):
    """A node that stands still for less than the tick time keeps its links."""
    a = field.node("a@h", "--ticktime", "30000")
    b = field.node("b@h", "--ticktime", "30000", dial=[a])
    start(b)
    before = member(a)
    await_members(b, [before])
    a.signal(signal.SIGSTOP)
    # (this time is what is tried, and nothing waits for it)
    time.sleep(3)
    a.signal(signal.SIGCONT)
    await_members(b, [before, member(a)])
    for node in (a, b):
        expect(f"news of a lost link at {node.name}", [], node.untold("! down .*"))


@case
def long_stop(field):
    """A node that stands still for longer than the tick time is lost with its rows, and is back
    when it goes on."""
    a = field.node("a@h", "--ticktime", "3000")
    b = field.node("b@h", "--ticktime", "3000", dial=[a])
    start(b)
    pid = member(a)
    await_members(b, [pid])
    b.told("! up a@h .*")
    began = time.monotonic()
    a.signal(signal.SIGSTOP)
    try:
        b.told("! down a@h [0-9]+ silent")
        expect_that(
            seconds_since(began) < 30,
            "a loss soon after the tick time of 3 s",
            f"{seconds_since(began):.1f} s",
        )
        await_members(b, [])
    finally:
        a.signal(signal.SIGCONT)
    b.told("! up a@h .*")
    await_members(b, [pid])


@case
def dial_to_nobody(field):
    """A dial to a port where nobody listens makes no entries, and comes up once somebody does."""
    port = field.free_port()
    a = field.node("a@h", "--dial", f"b@h=127.0.0.1:{port}")
    before = size(a)
    # (three tries at least, after 1 and 2 seconds)
    time.sleep(4)
    expect("the size of the audit", before, size(a))
    field.node("b@h", port=port)
    a.told("! up b@h .*")


@case
def pauses_begin_anew(field):
    """A peer that was up by a link of its own is dialled again at once, and then after short
    pauses, though dials had failed before."""
    b = field.node("b@h", "--dial", f"a@h=127.0.0.1:{field.free_port()}")
    until("three dials", lambda: times_dialled(b), lambda times: times >= 3)
    a = field.node("a@h", dial=[b])
    await_nodes(b, ["a@h"])
    # (until the pause is over in which it came up)
    time.sleep(3)
    before = times_dialled(b)
    a.kill()
    until(
        "three further dials", lambda: times_dialled(b), lambda times: times >= before + 3, limit=4
    )


def times_dialled(node):
    """How often the node has dialled its one peer."""
    return int(node.ask("dials").split()[3])
