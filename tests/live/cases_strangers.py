"""Whatever a stranger sends, nobody is listed who wasn't admitted, and the node goes on serving."""

import random
import threading
import time

from field import case
from node import Watch, asked, audit, await_members, await_nodes, member, nodes, size, start
from peer import Peer, TICK, connect, good_peer
from waiting import expect, expect_that, seconds_since, until

SETUP = ["--setuptime", "3000"]
# Strangers come from addresses of their own, so that no good peer rests for them.
STRANGERS = [f"127.0.1.{number}" for number in range(1, 255)]


def serves(field, node, name="good@h"):
    """That a good peer comes up and is listed, and goes again."""
    start(node)
    peer = good_peer(field, node, name)
    peer.sync([("good", 1)])
    await_members(node, [peer.pid(1)], "good")
    peer.close()
    await_members(node, [], "good")


def ended_in_time(stranger, began):
    stranger.await_end()
    lasted = seconds_since(began)
    expect_that(lasted > 2.5, "a stranger to have most of its 3 s", f"{lasted:.2f} s")


@case
def silent_stranger(field):
    """Who connects and says nothing is let go when the handshake's time is over."""
    a = field.node("a@h", *SETUP)
    began = time.monotonic()
    ended_in_time(field.keep(Peer(connect(a.port))), began)
    serves(field, a)


@case
def dripping_stranger(field):
    """Who sends a byte now and then is let go at the same time as one who is silent."""
    a = field.node("a@h", *SETUP)
    began = time.monotonic()
    stranger = field.keep(Peer(connect(a.port)))
    try:
        for byte in b"\x00\xff" + stranger.name_frame() + bytes(200):
            stranger.send_bytes(bytes([byte]))
            time.sleep(0.25)
            expect_that(
                seconds_since(began) < 30, "an end of a dripping stranger within 30 s", "none"
            )
    except ConnectionError:
        pass
    ended_in_time(stranger, began)
    serves(field, a)


@case
def name_only_stranger(field):
    """Who sends a name, and no reply to the challenge, is let go in time and was never up."""
    a = field.node("a@h", *SETUP)
    began = time.monotonic()
    stranger = field.keep(Peer(connect(a.port), "stranger@h"))
    stranger.send(stranger.name_frame())
    expect("the status", "ok", stranger.receive_status())
    stranger.receive_challenge()
    ended_in_time(stranger, began)
    expect("news of a link", [], a.untold("! (up|down) .*"))
    serves(field, a)


@case
def own_name(field):
    """A stranger under the node's own name, or under no name at all, is refused."""
    a = field.node("a@h")
    for name, rule in (
        ("a@h", "refused 7 OwnName"),
        ("nobody", "refused 6 BadName"),
        ("", "refused 6 BadName"),
    ):
        watch = Watch(a)
        stranger = field.keep(Peer(connect(a.port), name))
        stranger.send(stranger.name_frame())
        watch.await_entry(rule)
        stranger.await_end()
    serves(field, a)


@case
def random_bytes(field):
    """200 connections that send 3,000 random bytes each are all ended, and list nothing."""
    a = field.node("a@h", *SETUP)
    pid = member(a)
    chance = random.Random(24)
    for begin in range(0, 200, 50):
        strangers = [connect(a.port, STRANGERS[number]) for number in range(begin, begin + 50)]
        for stranger in strangers:
            try:
                stranger.sendall(chance.randbytes(3000))
            except ConnectionError:
                pass
        for stranger in strangers:
            field.keep(Peer(stranger)).await_end()
    await_members(a, [pid])
    expect("the nodes that are up", [], nodes(a))
    serves(field, a)


@case
def long_handshakes(field):
    """Of handshake frames that are far too long only a beginning is read: the link is lost at once,
    and little stays in memory."""
    a = field.node("a@h", "--setuptime", "60000")
    memory, _ = a.memory()
    for source in STRANGERS[:200]:
        stranger = field.keep(Peer(connect(a.port, source)))
        try:
            stranger.send(stranger.name_frame() + bytes(65000))
        except ConnectionError:
            pass
        stranger.await_end(30)
    # (threads that were idle take some of it for their stacks)
    expect_that(a.memory()[0] - memory < 10240, "10 MiB more at most", a.memory()[0] - memory)
    serves(field, a)


@case
def flood(field):
    """40 loops of strangers that connect and go for five seconds leave few entries; a peer that is
    up is served meanwhile, another behind."""
    a = field.node("a@h")
    pid = member(a)
    up = good_peer(field, a, "up@h")
    up.discover()
    up.sync([("g", 1)])
    await_members(a, [pid, up.pid(1)])
    before = size(a)
    began = time.monotonic()
    ended = threading.Event()
    loops = [threading.Thread(target=come_and_go, args=(a.port, ended)) for _ in range(40)]
    for loop in loops:
        loop.start()
    try:
        while seconds_since(began) < 5:
            for word, kind in (("join", b"J"), ("leave", b"L")):
                asked(a, f"{word} pg h {pid}")
                expect("what the peer is told", [("h", pid)], up.await_message(kind))
    finally:
        ended.set()
        for loop in loops:
            loop.join()
    # 64 lanes rest 100 ms, then twice as long, up to 5 seconds: some 7 connections each, when a
    # fast machine could serve thousands
    opened = sum(" Opened " in entry for entry in audit(a, before + 1))
    expect_that(opened < 64 * 15, "few connections taken in", opened)
    serves(field, a)


def come_and_go(port, ended):
    while not ended.is_set():
        try:
            connect(port, "127.0.2.1").close()
        except OSError:
            ended.wait(0.01)


@case
def huge_length(field):
    """A length of ffffffff on a link that is up ends that link, and no other."""
    a = field.node("a@h")
    start(a)
    stays, goes = good_peer(field, a, "stays@h"), good_peer(field, a, "goes@h")
    for peer in (stays, goes):
        peer.sync([("g", 1)])
    await_members(a, [goes.pid(1), stays.pid(1)])
    goes.send_bytes(b"\xff\xff\xff\xff" + bytes(100))
    a.told("! down goes@h .*")
    goes.await_end()
    await_members(a, [stays.pid(1)])
    await_nodes(a, ["stays@h"])


@case
def false_rows(field):
    """A peer that lists processes of others, or takes away what it never listed, changes
    nothing and stays up."""
    a = field.node("a@h")
    pid = member(a)
    peer = good_peer(field, a)
    peer.sync([("g", 1)])
    await_members(a, [pid, peer.pid(1)])
    own_creation = int(pid.split("/")[1])
    for kind, row, rule in (
        (b"J", ("g", 2, "a@h", own_creation), "16 ForeignPid"),
        (b"J", ("g", 2, "peer@h", 8), "16 ForeignPid"),
        (b"L", ("other", 1), "17 NotListed"),
        (b"?", ("g", 1), "3 BadFrame"),
    ):
        watch = Watch(a)
        peer.rows_message(kind, [row])
        watch.await_entry(f"refused {rule}")
    await_members(a, [pid, peer.pid(1)])
    await_nodes(a, ["peer@h"])


@case
def half_open_64(field):
    """Behind 64 links that are half open a good peer comes up once their time is over, and an own
    dial isn't kept from its link for longer."""
    listener = field.listener()
    a = field.node(
        "a@h", "--setuptime", "3000", "--dial", f"dialled@h=127.0.0.1:{listener.getsockname()[1]}"
    )
    start(a)
    for source in STRANGERS[:64]:
        field.keep(Peer(connect(a.port, source)))
    began = time.monotonic()
    taker = field.keep(Peer(listener.accept()[0], "dialled@h")).take_hands()
    good = good_peer(field, a, "good@h")
    expect_that(
        seconds_since(began) < 30,
        "both up soon after the strangers' 3 s",
        f"{seconds_since(began):.1f} s",
    )
    for peer in (taker, good):
        peer.sync([("g", 1)])
    await_members(a, [taker.pid(1), good.pid(1)])


@case
def reflecting_peer(field):
    """A peer that hands the node's own challenge back to it gets no digest for it: its link is
    lost, and one line says so."""
    listener = field.listener()
    a = field.node("a@h", "--dial", f"mirror@h=127.0.0.1:{listener.getsockname()[1]}")
    dialled = field.keep(Peer(listener.accept()[0], "mirror@h", cookie="unknown"))
    dialled.receive_name()
    opened = field.keep(Peer(connect(a.port), "guest@h", cookie="unknown"))
    opened.send(opened.name_frame())
    expect("the status", "ok", opened.receive_status())
    challenge, *_ = opened.receive_challenge()
    dialled.send_status("ok")
    dialled.send(dialled.challenge_frame(challenge))
    expect("no reply to the own challenge, but the end of the stream", None, dialled.receive())
    lines = until("a line on standard error", lambda: a.log("warn reflected "))
    expect("such lines", 1, len(lines))
    expect("the nodes that are up", [], nodes(a))


@case
def never_reads(field):
    """A peer that ticks and never reads is lost once writes to it stand still for the tick time;
    meanwhile all others are served."""
    a = field.node("a@h", "--ticktime", "3000")
    pid = member(a)
    peer = field.keep(Peer(connect(a.port, receive_buffer=4096))).shake_hands()
    peer.discover()
    peer.await_message(b"S")
    stopped = peer.keep_ticking()
    group = "g" * 255
    rows = " ".join([pid] * 1000)
    told = 0

    def tell_more():
        nonlocal told
        asked(a, f"join pg {group} {rows}")
        asked(a, f"leave pg {group} {rows}")
        told += 2
        return a.untold("! down peer@h 7 slow")

    # (each is told by a quarter of a megabyte, and the kernel holds some of them: a busy machine
    # needs a while to fill it)
    until("the loss of a peer that doesn't read", tell_more, limit=150, pause=0.1)
    stopped.set()
    await_nodes(a, [])
    serves(field, a)


@case
def empty_packets(field):
    """Ticks alone, however many, change nothing."""
    a = field.node("a@h")
    start(a)
    peer = good_peer(field, a)
    peer.send_bytes(TICK * 10000)
    peer.sync([("g", 1)])
    await_members(a, [peer.pid(1)])
