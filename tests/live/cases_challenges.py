"""That each link is opened with a challenge of its own: who heard the answer to one can't use
it for another."""

from field import case
from node import await_nodes
from peer import Peer, connect
from waiting import expect

IN_TURN, AT_ONCE, DIALLED = 10, 5, 5


@case
def challenges_of_their_own(field):
    """Of twenty links, of which peers open fifteen and the node dials five, no two are opened with
    the same challenge."""
    names = [f"dialled{number}@h" for number in range(DIALLED)]
    listeners = [field.listener() for _ in names]
    dials = [word for name, listener in zip(names, listeners) for word in dial_of(name, listener)]
    a = field.node("a@h", *dials)
    challenges = [asked_by_dial(listener, name) for name, listener in zip(names, listeners)]
    challenges += [asked_in_turn(a, f"turn{number}@h") for number in range(IN_TURN)]
    peers = [field.keep(Peer(connect(a.port), f"once{number}@h")) for number in range(AT_ONCE)]
    challenges += [asked(peer) for peer in peers]
    wanted = IN_TURN + AT_ONCE + DIALLED
    expect(
        "how many challenges, and how many different ones",
        [wanted, wanted],
        [len(challenges), len(set(challenges))],
    )


def dial_of(name, listener):
    """The options by which a node dials this listener."""
    return "--dial", f"{name}=127.0.0.1:{listener.getsockname()[1]}"


def asked(peer):
    """What a node asks a peer that has connected."""
    peer.send(peer.name_frame())
    expect("the status", "ok", peer.receive_status())
    return peer.receive_challenge()[0]


def asked_in_turn(node, name):
    """What it asks a peer that comes up and goes, so that the same lane serves the next one."""
    peer = Peer(connect(node.port), name)
    challenge = asked(peer)
    peer.reply(challenge)
    peer.await_acknowledgement()
    peer.close()
    await_nodes(node, [])
    return challenge


def asked_by_dial(listener, name):
    """What a node asks a peer that it has dialled: it stands in its reply."""
    peer = Peer(listener.accept()[0], name)
    peer.receive_name()
    peer.send_status("ok")
    peer.send(peer.challenge_frame(4711))
    challenge = int.from_bytes(peer.receive()[1:5], "big")
    peer.close()
    return challenge
