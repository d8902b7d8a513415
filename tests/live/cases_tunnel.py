"""Nodes that link through a tunnel with TLS, of which neither knows."""

import contextlib
import os
import select
import socket
import ssl
import threading

from field import case
from node import asked, audit, await_nodes, member, start
from peer import Peer, connect
from waiting import LIMIT, expect, until

CERTIFICATES = os.path.join(os.path.dirname(os.path.realpath(__file__)), "tls")
# Why an end refuses the other: it shows no certificate, or another one than it has to have.
NO_CERTIFICATE, ANOTHER_ONE = "PEER_DID_NOT_RETURN_A_CERTIFICATE", "CERTIFICATE_VERIFY_FAILED"


def tls(protocol, own, other):
    """TLS that takes the other's certificate alone, and shows an own one, if any. A key stands in
    the file of its certificate."""
    context = ssl.SSLContext(protocol)
    context.verify_mode = ssl.CERT_REQUIRED
    context.load_verify_locations(os.path.join(CERTIFICATES, f"{other}.pem"))
    if own:
        context.load_cert_chain(os.path.join(CERTIFICATES, f"{own}.pem"))
    return context


def connect_to_far(port, own="near"):
    """A stream to the far end at this port, as the near end makes it, with this
    certificate or none."""
    return tls(ssl.PROTOCOL_TLS_CLIENT, own, "far").wrap_socket(
        connect(port), server_hostname="far"
    )


class End:
    """An end of a tunnel: it makes a connection onward for each one that comes, and carries bytes
    both ways. One of both is TLS."""

    def __init__(self, take, make):
        """Begins; `take` gives the stream of a connection that comes, and `make` that
        of one onward."""
        self.listener = socket.create_server(("127.0.0.1", 0))
        self.port = self.listener.getsockname()[1]
        self.take, self.make = take, make
        self.streams, self.refused = [], []
        threading.Thread(target=self._accept, daemon=True).start()

    def _accept(self):
        """Takes connections, until the end is cut."""
        with contextlib.suppress(OSError):
            while True:
                stream, _ = self.listener.accept()
                threading.Thread(target=self._serve, args=(stream,), daemon=True).start()

    def _serve(self, stream):
        """Carries what one connection says and is told; or notes why TLS refuses it, or
        the one onward."""
        stream.settimeout(LIMIT)
        try:
            with self.take(stream) as came, self.make() as made:
                self.streams += came, made
                carry(came, made)
        except ssl.SSLError as fault:
            self.refused.append(fault.reason)
        except OSError:
            pass  # (nobody is there onward, or the case is over)

    def cut(self):
        """Ends what it carries, and takes nothing more."""
        for stream in (self.listener, *self.streams):
            with contextlib.suppress(OSError):
                # (below TLS, which a thread reads)
                socket.socket.shutdown(stream, socket.SHUT_RDWR)

    def close(self):
        """Ends it."""
        self.cut()
        self.listener.close()


def carry(one, other):
    """Carries bytes both ways, until one of both ends."""
    onward = {one: other, other: one}
    with contextlib.suppress(OSError):
        while all(
            pass_on(stream, onward[stream]) for stream in select.select([one, other], [], [])[0]
        ):
            pass


def pass_on(stream, onward):
    """Passes on what has come: a whole record, where that is TLS, so that none waits where select
    doesn't see it. Whether there may be more."""
    stream.settimeout(0)
    try:
        piece = stream.recv(65_536)
    except ssl.SSLWantReadError:
        return True  # (half a record, or one of TLS itself)
    finally:
        stream.settimeout(LIMIT)
    onward.sendall(piece)
    return piece != b""


def near_end(port):
    """The end that takes connections in plain, and leads to the far end at this port."""
    return End(lambda stream: stream, lambda: connect_to_far(port))


def far_end(port, own="far"):
    """The end that takes connections of the near end alone, and leads to this port in plain."""
    context = tls(ssl.PROTOCOL_TLS_SERVER, own, "near")
    return End(lambda stream: context.wrap_socket(stream, server_side=True), lambda: connect(port))


def heard(make):
    """What a peer hears that says its name over the stream that this makes; None where
    that is refused."""
    try:
        with make() as stream:
            peer = Peer(stream, "c@h")
            peer.send(peer.name_frame())
            return peer.receive()
    except (ssl.SSLError, ConnectionError):
        return None


def expect_refusals(field, b, far):
    """That the far end lets nobody through to the node who has no certificate, or another one than
    the near end, which goes through no other far end."""
    for own in (None, "stranger"):
        expect(
            f"what is heard with the certificate {own}",
            None,
            heard(lambda own=own: connect_to_far(far.port, own)),
        )
    until("why they were refused", lambda: far.refused, [NO_CERTIFICATE, ANOTHER_ONE].__eq__)
    other = field.keep(far_end(b.port, "stranger"))
    near = field.keep(near_end(other.port))
    expect("what is heard by way of another far end", None, heard(lambda: connect(near.port)))
    until("why that was refused", lambda: near.refused, [ANOTHER_ONE].__eq__)
    expect("how many have connected to b@h", 1, sum(" Opened " in entry for entry in audit(b)))
    asked(b, "nodes", "nodes a@h")
    logged = until("a peer in its log", lambda: [line for line in b.log() if "peer=" in line])
    expect("the peers in its log", ["info up peer=a@h"], [line.split(" at=")[0] for line in logged])
    expect(
        "what is heard with the near end's certificate",
        b"sok",
        heard(lambda: connect_to_far(far.port)),
    )


def told_of_a_join(watching, joining):
    """A monitor at one node is told of a join at the other."""
    start(watching)
    number = watching.ask("monitor pg g").split()[1]
    watching.told(f"! join {number} g 1 {member(joining)}")


@case
def links_through_tls(field):
    """Nodes link through a tunnel with TLS, of which neither knows: each is told of the other and
    of its joins, and both when the tunnel is cut. Who has no certificate, or another one, gets
    nothing through."""
    b = field.node("b@h")
    far = field.keep(far_end(b.port))
    near = field.keep(near_end(far.port))
    a = field.node("a@h", "--dial", f"b@h=127.0.0.1:{near.port}", port=None)
    a.told("! up b@h [0-9]+ visible")
    b.told("! up a@h [0-9]+ visible")
    told_of_a_join(a, b)
    told_of_a_join(b, a)
    expect_refusals(field, b, far)
    near.cut()
    a.told("! down b@h [0-9]+ closed")
    b.told("! down a@h [0-9]+ closed")
    for node in (a, b):
        await_nodes(node, [])
