"""News are whole: why a peer is down, that each that came up goes down before it comes up again,
and that a scope was stopped."""

import re
import threading

from cases_crowd import Flood
from field import case
from node import asked, await_members, await_nodes, member, new_pid, start
from peer import good_peer
from waiting import expect, until


@case
def reasons_of_downs(field):
    """Why a peer is down is told with its creation: it closed, a newer link took its place, or this
    node disconnected it."""
    a = field.node("a@h")
    watching = field.control(a)
    good_peer(field, a, "p@h").close()
    for talk in (a, watching):
        talk.told("! up p@h 7 visible")
        talk.told("! down p@h 7 closed")
    good_peer(field, a, "p@h", creation=8)
    good_peer(field, a, "p@h", creation=9)
    for talk in (a, watching):
        talk.told("! up p@h 8 visible")
        talk.told("! down p@h 8 replaced")
        talk.told("! up p@h 9 visible")
    asked(a, "disconnect p@h")
    for talk in (a, watching):
        talk.told("! down p@h 9 disconnected")


@case
def down_of_an_older_peer(field):
    """A connection that came behind a peer isn't told that it is up, but with which creation it
    went, and why."""
    a = field.node("a@h")
    peer = good_peer(field, a, "p@h", creation=77)
    await_nodes(a, ["p@h"])
    late = field.control(a)
    asked(late, "nodes", "nodes p@h")
    peer.close()
    late.told("! down p@h 77 closed")
    expect("its news", ["! down p@h 77 closed"], late.untold("! .*"))


@case
def stopped_scope(field):
    """A scope that somebody stops: each connection with a member there is told, and no other; it
    may join again."""
    a = field.node("a@h")
    joined, left, watching = field.control(a), field.control(a), field.control(a)
    pid, other = member(joined), member(left)
    member(joined, "g", "another")
    asked(left, f"leave pg g {other}")
    asked(watching, "stop pg")
    joined.told("! stopped pg")
    start(joined)
    asked(joined, f"join pg g {pid}")
    await_members(a, [pid])
    asked(watching, "stop pg")
    joined.told("! stopped pg")
    for talk in (left, watching, a):
        asked(talk, "nodes", "nodes")
        expect("news of those without a member", [], talk.untold("! stopped .*"))
    expect("news of the member", ["! stopped pg"] * 2, joined.untold("! stopped .*"))


@case
def told_beside_a_flood(field):
    """Beside changes without end a connection without monitors is told of a peer that comes and
    goes, and of a scope that stops, and its first monitor tells the next change."""
    a = field.node("a@h")
    start(a)
    quiet = field.control(a)
    member(quiet, "g", "other")
    Flood(field, a)
    peer = good_peer(field, a, "p@h")
    quiet.told("! up p@h 7 visible")
    peer.close()
    quiet.told("! down p@h 7 closed")
    asked(a, "stop other")
    quiet.told("! stopped other")
    number = quiet.ask("monitor pg flood").split()[1]
    quiet.told(f"! join {number} flood 1 .*")
    quiet.told(f"! leave {number} flood 1 .*")


@case
def downs_at_a_turn(field):
    """Under load, each peer that a connection was told up is told down before the new life, and
    before it is up again."""
    a = field.node("a@h", "--last-entry", "4000")
    peers = [field.node(f"p{number}@h", dial=[a]) for number in range(3)]
    await_nodes(a, [peer.name for peer in peers])
    watching = [a, *(field.control(a) for _ in range(3))]
    loading = [field.control(a) for _ in range(3)]
    turns = threading.Event()
    threads = [threading.Thread(target=load, args=(control, turns)) for control in loading]
    for thread in threads:
        thread.start()
    for talk in watching:
        until(
            "three turns",
            lambda talk=talk: talk.untold("! restarted .*"),
            lambda came: len(came) >= 3,
            limit=120,
        )
        until("a peer that came up", lambda talk=talk: talk.untold("! up .*"), limit=120)
    turns.set()
    for thread in threads:
        thread.join()
    for talk in watching + loading:
        until("a peer that came up", lambda talk=talk: talk.untold("! up .*"))
        check_peers(talk)


def load(control, turns):
    """Makes entries until there were turns enough, whatever is answered."""
    start(control)
    while not turns.is_set():
        pid = new_pid(control)
        for line in (f"join pg g {pid}", f"exit {pid}"):
            control.ask(line)
        start(control)


def check_peers(talk):
    """That no peer is told up twice with no down between, and none is up where a
    new life is told."""
    up = {}
    for line in talk.untold("! (up|down|restarted) .*"):
        if found := re.fullmatch("! up (.*) ([0-9]+) visible", line):
            expect(
                f"the creation with which {found[1]} is up before {line!r} at {talk.who}",
                None,
                up.get(found[1]),
            )
            up[found[1]] = found[2]
        elif found := re.fullmatch("! down (.*) ([0-9]+) [a-z]+", line):
            # (who was up before the connection was made isn't told up)
            expect(f"the creation of {line!r} at {talk.who}", up.pop(found[1], found[2]), found[2])
        else:
            expect(f"who is up before {line!r} at {talk.who}", {}, up)
