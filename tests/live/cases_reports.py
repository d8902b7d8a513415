"""What a node says of itself on its control socket, and of what is monitored."""

import re
import socket

from field import case
from node import asked, await_nodes, member, size, start
from waiting import LIMIT, expect, expect_that, until


@case
def reads_without_entries(field):
    """Queries make no entry."""
    a = field.node("a@h")
    pid = member(a)
    before = size(a)
    for line, answer in (
        ("members pg g", f"pids {pid}"),
        ("local_members pg g", f"pids {pid}"),
        ("groups pg", "groups g"),
        ("local_groups pg", "groups g"),
        ("nodes", "nodes"),
        ("size", f"size {before}"),
    ):
        asked(a, line, answer)
    expect_that(a.ask("help") != "", "help", "nothing")
    expect("the size of the audit", before, size(a))
    asked(a, f"audit {before + 1}", "none")


@case
def reports_without_entries(field):
    """`self`, `status`, `links`, `dials`, `scopes`, `allowed`, `clients` and `refusals` tell what
    is so now, and make no entry; in a new life, too."""
    a = field.node(
        "a@h",
        "--creation",
        "41",
        "--entries",
        "180",
        "--last-entry",
        "200",
        "--allow",
        "c@h",
        "--allow",
        "b@h",
        "--clients",
        "7",
    )
    b = field.node("b@h", "--creation", "5", "--hidden", dial=[a])
    await_nodes(a, ["b@h"])
    for scope in ("pg", "jobs", "old"):
        start(a, scope)
    asked(a, "stop old")
    one, other = field.control(a), field.control(a)
    asked(one, "size", a.ask("size"))
    asked(other, "clients", "clients 2 3")
    before = size(a)
    reports_of_itself(a, 41, "clients 2 3")
    asked(a, "refusals", "refusals")
    reports_of_a_link(a, b, before)
    for line in ("status now", "links 1", "selfish", "clients "):
        expect_that(a.ask(line).startswith("fault "), f"a fault for {line!r}", "none")
    expect("the size of the audit", before, size(a))
    report_of_a_refusal(a, before)
    other.close()
    until("one client", lambda: a.ask("clients"), lambda came: came == "clients 2")
    while not a.untold("! restarted .*"):
        a.ask("spawn")
    reports_of_itself(a, 42, "clients 2")
    expect_that(" lives=2 " in a.ask("status"), "a second life", a.ask("status"))


def reports_of_itself(a, creation, clients):
    """That it tells its creation, its scopes, whom it allows, and its clients."""
    for line, answer in (
        ("self", f"self a@h {creation}"),
        ("scopes", "scopes jobs pg"),
        ("allowed", "allowed b@h c@h"),
        ("clients", clients),
    ):
        asked(a, line, answer)


def reports_of_a_link(a, b, entries):
    """That both ends tell their link and what they dial, and `status` of one its entries."""
    links = a.ask("links")
    expect_that(
        re.fullmatch(r"links \d+ b@h 5 hidden 127\.0\.0\.1:\d+ \d+ 0", links), "one link", links
    )
    asked(a, "dials", "dials")
    status = a.ask("status")
    wanted = (
        r"status name=a@h creation=41 version=\S+ seconds=\d+ lives=1 links=1/64 otp_links=0"
        rf" clients=2/7 entries={entries} kept={entries}/180 lost=0 archived=0 refused=0"
        r" told=\d+ bytes=\d+"
    )
    expect_that(re.fullmatch(wanted, status), wanted, status)
    links = b.ask("links")
    expect_that(
        re.fullmatch(rf"links \d+ a@h 41 hidden 127\.0\.0\.1:{a.port} \d+ 0", links),
        "one link",
        links,
    )
    asked(b, "dials", f"dials a@h 127.0.0.1:{a.port} 1 - up")


def report_of_a_refusal(a, before):
    """That `status` counts a line that is refused, which is an entry."""
    asked(a, "start pg", "refused 22 ScopeRunning")
    expect_that(
        f" entries={before + 1} kept={before + 1}/180 lost=0 archived=0 refused=1 "
        in a.ask("status"),
        "a refusal that is counted",
        a.ask("status"),
    )


@case
def dials_say_why(field):
    """`dials` says of each peer that isn't up why its last dial has failed, and when it is
    dialled again."""
    a = field.node("a@h", cookie="another")
    dials = {"a@h": f"127.0.0.1:{a.port}", "c@h": "127.0.0.1:1", "d@h": "nohost.invalid:1"}
    b = field.node(
        "b@h", *(word for name, place in dials.items() for word in ("--dial", f"{name}={place}"))
    )
    wanted = [
        f"{name} {place} \\d+ \\d+ {fault}"
        for (name, place), fault in zip(dials.items(), ("handshake", "refused", "no_host"))
    ]
    until(
        "why no peer is up",
        lambda: b.ask("dials"),
        lambda came: re.fullmatch(" ".join(["dials", *wanted]), came),
    )


@case
def refusals_say_why(field):
    """`refusals` says of a wrong cookie, of a name that isn't allowed at either end, and of a wrong
    name in --dial, which rule it was, which peer, and its address; of strangers that say no name a
    dash; and no more than the last 16."""
    a = field.node("a@h", "--allow", "b@h", "--allow", "d@h")
    b = field.node("b@h", "--dial", f"a@h=127.0.0.1:{a.port}", cookie="another")
    field.node("c@h", dial=[a])
    d = field.node(
        "d@h",
        "--dial",
        f"x@h=127.0.0.1:{a.port}",
        "--dial",
        f"y@h=127.0.0.1:{a.port}",
        "--allow",
        "a@h",
        "--allow",
        "y@h",
    )
    for node, wanted in (
        (a, "Frame 12 BadDigest b@h"),
        (a, "Frame 9 NotAllowed c@h"),
        (d, "Dial 9 NotAllowed x@h"),
        (d, "Frame 8 WrongName y@h"),
    ):
        until(
            f"{wanted} at {node.name}",
            lambda: node.ask("refusals"),
            lambda came: f" {wanted}" in came,
        )
    asked(b, "refusals", "refusals")
    for _ in range(17):
        with socket.create_connection(("127.0.0.1", a.port)) as stranger:
            stranger.sendall(b"\x00\x01?")
            stranger.settimeout(LIMIT)
            stranger.recv(1)
    until(
        "16 refusals of strangers",
        lambda: a.ask("refusals").split()[1:],
        lambda came: came[4::6].count("-") >= 8 and len(came) == 96,
    )


@case
def monitors_end(field):
    """A monitor that ended is told nothing more, and another seat's number is no
    monitor of this one."""
    a = field.node("a@h")
    start(a)
    one, other = field.control(a), field.control(a)
    first, second = (talk.ask("monitor pg g").split()[1] for talk in (one, other))
    asked(one, f"demonitor {second}", "refused 23 NoMonitor")
    asked(one, f"demonitor {first}")
    pid = member(a)
    other.told(f"! join {second} g 1 {pid}")
    # An answer to a line that came after the join: had there been news, they would stand before it.
    asked(one, "nodes", "nodes")
    expect("news of a monitor that ended", [], one.untold("! join .*"))


@case
def monitors_of_a_stopped_scope(field):
    """Monitors of a scope that stops with processes listed are told that they ended, once, and the
    audit stays as it is then."""
    a = field.node("a@h")
    member(a)
    watching = field.control(a)
    numbers = [watching.ask(line).split()[1] for line in ("monitor pg g", "monitor_scope pg")]
    asked(a, "stop pg")
    for number in numbers:
        watching.told(f"! ended {number}")
    entries = size(a)
    member(a)
    for number in numbers:
        asked(watching, f"demonitor {number}", "refused 23 NoMonitor")
    asked(watching, "nodes", "nodes")
    expect("the size of the audit", entries + 5, size(a))
    expect("further news", [], watching.untold("! (join|ended) .*")[len(numbers) :])


@case
def news_in_order(field):
    """A burst of joins and leaves is told whole and in order, between the answers of a connection
    that asks all the while."""
    a = field.node("a@h")
    pid = member(a, "first")
    watching = field.control(a)
    number = watching.ask("monitor pg g").split()[1]
    for _ in range(200):
        a.send(f"join pg g {pid}")
        a.send(f"leave pg g {pid}")
        asked(watching, "groups second", "refused 14 NoScope")
    for _ in range(400):
        expect("an answer", "ok", a.next_answer("an answer to a line of the burst"))
    news = until(
        "400 news", lambda: watching.untold("! (join|leave) .*"), lambda came: len(came) >= 400
    )
    expect("the news", [f"! join {number} g 1 {pid}", f"! leave {number} g 1 {pid}"] * 200, news)
