"""Links and places for stock nodes of Erlang/OTP, as far as that needs none: the other end is
written by hand."""

import struct
import threading
import time

from field import case
from node import asked, await_nodes
from peer import Peer, connect
from waiting import expect, expect_that, seconds_since, until

# A stock node of today says by this one flag that it has all those that a node has to have.
MANDATORY = 1 << 26
# The seconds for an end that waits for nobody. EPMD has 7 for its answer.
AT_ONCE = 2


def stock_peer(field, node, name="s@127.0.0.1"):
    """The other end of a link to a stock node, which is up."""
    peer = field.keep(Peer(connect(node.otp_port), name, hidden=True))
    peer.flags |= MANDATORY
    peer.shake_hands()
    until("its link", lambda: node.ask("nodes"), lambda came: name in came)
    return peer


@case
def quit_beside_a_silent_epmd(field):
    """`quit` doesn't wait for an EPMD that takes a connection and says nothing; nor is that
    logged as a fault."""
    epmd = field.listener()
    node = field.start(
        "w@127.0.0.1", "--otp-listen", "127.0.0.1:0", f"--epmd={epmd.getsockname()[1]}", port=None
    ).ready()
    link, _ = epmd.accept()
    field.keep(link)
    expect_that(link.recv(3)[2:] == b"x", "a registration", "another request")
    began = time.monotonic()
    node.quit()
    expect_that(
        seconds_since(began) < AT_ONCE,
        f"an end within {AT_ONCE} s",
        f"{seconds_since(began):.1f} s",
    )
    expect("faults in the log", [], node.log("warn not_registered"))


@case
def dripping_epmd(field):
    """An EPMD that says a byte now and then holds a dial no longer than `--setuptime`."""
    epmd = field.listener()
    dripping = threading.Thread(target=drip, args=(epmd,), daemon=True)
    dripping.start()
    words = ["--otp-dial", "s@127.0.0.1", f"--epmd={epmd.getsockname()[1]}", "--setuptime", "1000"]
    node = field.start("w@127.0.0.1", *words, port=None).ready()
    until(
        "the end of a dial",
        lambda: node.ask("dials"),
        lambda came: came.endswith(" no_epmd"),
        limit=8,
    )


def drip(listener):
    """Answers that a name is there, and then says a byte every 0.3 seconds, to the
    first who asks."""
    link, _ = listener.accept()
    with link:
        try:
            link.sendall(b"w")
            for _ in range(100):
                link.sendall(b"\0")
                time.sleep(0.3)
        except OSError:
            pass


@case
def found_by_epmd(field):
    """A node is registered at EPMD, whose connection stays, and dials a stock node at the port
    that EPMD says."""
    epmd, other = field.listener(), field.listener()
    words = [
        "--otp-listen",
        "127.0.0.1:0",
        "--otp-dial",
        "s@127.0.0.1",
        f"--epmd={epmd.getsockname()[1]}",
    ]
    node = field.start("w@127.0.0.1", *words, port=None).ready()
    answers = {
        b"x": b"v\0" + struct.pack(">I", 7),
        b"z": b"w\0"
        + struct.pack(">HBBHHH", other.getsockname()[1], 72, 0, 6, 5, 1)
        + b"s"
        + bytes(2),
    }
    asked_for = {answer_as_epmd(field, epmd, answers) for _ in answers}
    expect("what EPMD was asked", set(answers), asked_for)
    field.keep(other.accept()[0])
    until("a word that it is registered", lambda: node.log("info registered name=w "))


def answer_as_epmd(field, epmd, answers):
    """Answers the next that EPMD is asked: what that is."""
    link = field.keep(epmd.accept()[0])
    kind = link.recv(1_024)[2:3]
    link.sendall(answers[kind])
    if kind == b"z":
        link.close()
    return kind


@case
def misled_stock_nodes(field):
    """Stock nodes that connect where nodes of this program do are one line a minute, however
    often they come."""
    a = field.node("a@h")
    for number in range(3):
        peer = field.keep(Peer(connect(a.port), f"s{number}@127.0.0.1", hidden=True))
        peer.flags |= MANDATORY
        peer.send(peer.name_frame())
        until(
            "it is heard",
            lambda: a.ask("size"),
            lambda came, number=number: int(came.split()[1]) > number,
        )
        time.sleep(0.3)
    until("a warning", lambda: a.log("warn stock_node "))
    expect("how many there are", 1, len(a.log("warn stock_node ")))


@case
def unreadable_link(field):
    """A stock node that says what is no message loses its link, and connections and the
    log are told why."""
    node = field.start("w@127.0.0.1", "--otp-listen", "127.0.0.1:0", port=None).ready()
    asked(node, "start jobs")
    peer = stock_peer(field, node)
    peer.send(b"no message")
    peer.await_end()
    await_nodes(node, [])
    until(
        "why it has ended",
        lambda: node.log(f"warn down peer={peer.name}"),
        lambda came: came and came[0].endswith("reason=unreadable"),
    )
    until("the news of its end", lambda: node.untold(rf"! down {peer.name} \d+ unreadable"))
