"""A peer written by hand: the handshake and the link messages of docs/FORMATS.md."""

import hashlib
import socket
import struct
import threading

from waiting import LIMIT, expect, expect_that

PUBLISHED, HANDSHAKE_23 = 1 << 0, 1 << 24
TICK = bytes(4)
TICK_BODY = b""
# Behind its name a node says so that it knows version 2 of link messages.
VERSION_2 = b"\x02"
# How many rows a message of version 1, or a part, has at most.
MOST_ROWS = 4_096


def digest(cookie, challenge):
    return hashlib.md5(cookie.encode() + str(challenge).encode()).digest()


def text(width, words):
    """A text behind its length in this many bytes."""
    return len(words).to_bytes(width, "big") + words.encode()


class Peer:
    """One end of a stream to a node. Bodies go behind lengths of 2 bytes, and once the link is up
    of 4. Where it knows version 2 of link messages it has to meet a node that does, too."""

    def __init__(
        self, stream, name="peer@h", cookie="password", creation=7, hidden=False, version=1
    ):
        self.stream = stream
        self.stream.settimeout(LIMIT)
        self.stream.setsockopt(socket.IPPROTO_TCP, socket.TCP_NODELAY, 1)
        self.name, self.cookie, self.creation, self.version = name, cookie, creation, version
        self.flags = HANDSHAKE_23 | (0 if hidden else PUBLISHED)
        self.width = 2
        self._sending = threading.Lock()

    # Bytes

    def send(self, body):
        with self._sending:
            self.stream.sendall(len(body).to_bytes(self.width, "big") + body)

    def send_bytes(self, data):
        with self._sending:
            self.stream.sendall(data)

    def receive(self):
        """The next body, ticks passed over; None at the end of the stream."""
        while (body := self.receive_any()) == TICK_BODY:
            pass
        return body

    def receive_any(self):
        """The next body, which is empty for a tick; None at the end of the stream."""
        length = self._exactly(self.width)
        return None if length is None else self._exactly(int.from_bytes(length, "big"))

    def _exactly(self, count):
        """So many bytes, or None where the stream ends before them."""
        data = b""
        while len(data) < count:
            try:
                piece = self.stream.recv(count - len(data))
            except ConnectionError:
                return None
            except TimeoutError:
                raise AssertionError(
                    f"expected bytes for {self.name} within {LIMIT} s, came none"
                ) from None
            if not piece:
                return None
            data += piece
        return data

    def await_end(self, limit=LIMIT):
        """Until the node has closed the stream; whatever comes before is dropped."""
        self.stream.settimeout(limit)
        try:
            while self.stream.recv(65536):
                pass
        except ConnectionError:
            pass
        except TimeoutError:
            raise AssertionError(
                f"expected the end of {self.name}'s stream within {limit} s, came none"
            ) from None

    def close(self):
        self.stream.close()

    # The handshake

    def name_frame(self):
        return (
            b"N"
            + struct.pack(">QI", self.flags, self.creation)
            + text(2, self.name)
            + self.behind_the_name()
        )

    def challenge_frame(self, challenge):
        return (
            b"N"
            + struct.pack(">QII", self.flags, challenge, self.creation)
            + text(2, self.name)
            + self.behind_the_name()
        )

    def behind_the_name(self):
        return VERSION_2 if self.version == 2 else b""

    def send_status(self, word):
        self.send(b"s" + word.encode())

    def receive_status(self):
        frame = self.receive()
        expect_that(frame is not None and frame[:1] == b"s", "a status", frame)
        return frame[1:].decode()

    def receive_challenge(self):
        """The node's challenge, creation and name."""
        frame = self.receive()
        expect_that(frame is not None and frame[:1] == b"N", "a challenge", frame)
        _flags, challenge, creation = struct.unpack(">QII", frame[1:17])
        return challenge, creation, cut(frame, 17, 2)[0]

    def receive_name(self):
        """The node's flags, creation and name."""
        frame = self.receive()
        expect_that(frame is not None and frame[:1] == b"N", "a name", frame)
        flags, creation = struct.unpack(">QI", frame[1:13])
        return flags, creation, cut(frame, 13, 2)[0]

    def reply(self, challenge, own=4711):
        self.send(b"r" + struct.pack(">I", own) + digest(self.cookie, challenge))

    def await_acknowledgement(self, own=4711):
        expect("an acknowledgement", b"a" + digest(self.cookie, own), self.receive())
        self.width = 4

    def shake_hands(self):
        """Plays the dialler, up to a link that is up."""
        self.send(self.name_frame())
        status = self.receive_status()
        if status == "alive":
            self.send_status("true")
        else:
            expect_that(status in ("ok", "ok_simultaneous"), "a status that goes on", status)
        challenge, *_ = self.receive_challenge()
        self.reply(challenge)
        self.await_acknowledgement()
        return self

    def take_hands(self, own=4711):
        """Plays the acceptor, up to a link that is up."""
        self.receive_name()
        self.send_status("ok")
        self.send(self.challenge_frame(own))
        reply = self.receive()
        expect_that(
            reply is not None and reply[:1] == b"r" and reply[5:] == digest(self.cookie, own),
            "a right reply",
            reply,
        )
        self.send(b"a" + digest(self.cookie, int.from_bytes(reply[1:5], "big")))
        self.width = 4
        return self

    # Link messages

    def discover(self, scope="pg"):
        self.send(b"D" + text(1, scope))

    def rows_message(self, kind, rows, scope="pg"):
        """A message with rows; where the link is of version 2, in parts."""
        if self.version == 1:
            return self.send(kind + text(1, scope) + self._rows(rows))
        starts = range(0, max(1, len(rows)), MOST_ROWS)
        for number, start in enumerate(starts, 1):
            self.part(kind, number, number == len(starts), rows[start : start + MOST_ROWS], scope)

    def part(self, kind, number, is_last, rows, scope="pg"):
        self.send(kind + text(1, scope) + struct.pack(">IB", number, is_last) + self._rows(rows))

    def _rows(self, rows):
        return struct.pack(">I", len(rows)) + b"".join(self._row(*row) for row in rows)

    def _row(self, group, number, name=None, creation=None):
        return (
            text(1, group)
            + text(2, name or self.name)
            + struct.pack(">IQ", creation or self.creation, number)
        )

    def sync(self, rows, scope="pg"):
        """All rows of this peer, each a group and the number of a process."""
        self.rows_message(b"S", rows, scope)

    def pid(self, number):
        return f"{self.name}/{self.creation}/{number}"

    def await_message(self, kind, limit=LIMIT):
        """The next message of this kind, those before it dropped: the texts of its
        processes, by group."""
        return [row for rows in self.await_parts(kind, limit) for row in rows]

    def await_parts(self, kind, limit=LIMIT):
        """The same, part by part. A message of version 1 is one."""
        self.stream.settimeout(limit)
        parts = []
        while (body := self.receive()) is not None:
            if body[:1] == kind:
                is_last, rows = part_of(body, self.version)
                parts.append(rows)
                if is_last:
                    return parts
        raise AssertionError(
            f"expected a message {kind} for {self.name}, came the end of the stream"
        )

    def await_ticks(self, count):
        """So many ticks, with whatever comes between them."""
        while count > 0:
            body = self.receive_any()
            expect_that(body is not None, f"{count} ticks more", "the end of the stream")
            count -= body == TICK_BODY

    def keep_ticking(self, pause=0.3):
        """Sends a tick now and then, until the stream is closed."""

        def tick():
            try:
                while not stopped.wait(pause):
                    self.send_bytes(TICK)
            except OSError:
                pass

        stopped = threading.Event()
        threading.Thread(target=tick, daemon=True).start()
        return stopped


def part_of(body, version=1):
    """Whether a body is the last of its message, and its rows, if it is a Sync, Join or Leave."""
    place = 2 + body[1]
    if place == len(body):
        return True, []
    return version == 1 or body[place + 4] == 1, rows_of(body, place + (5 if version == 2 else 0))


def rows_of(body, place):
    """The rows behind their count: (group, process)."""
    count, place = int.from_bytes(body[place : place + 4], "big"), place + 4
    rows = []
    for _ in range(count):
        group, place = cut(body, place, 1)
        name, place = cut(body, place, 2)
        creation, number = struct.unpack(">IQ", body[place : place + 12])
        rows.append((group, f"{name}/{creation}/{number}"))
        place += 12
    return rows


def cut(body, place, width):
    """The text behind its length, and the place behind it."""
    begin = place + width
    end = begin + int.from_bytes(body[place:begin], "big")
    return body[begin:end].decode(), end


def connect(port, source="127.0.0.1", receive_buffer=None):
    """A stream to a port of this machine, from any address 127.x.y.z."""
    stream = socket.socket()
    if receive_buffer:
        stream.setsockopt(socket.SOL_SOCKET, socket.SO_RCVBUF, receive_buffer)
    stream.settimeout(LIMIT)
    stream.bind((source, 0))
    stream.connect(("127.0.0.1", port))
    return stream


def good_peer(field, node, name="peer@h", **rest):
    """A peer whose link to the node is up."""
    return field.keep(Peer(connect(node.port), name, **rest)).shake_hands()
