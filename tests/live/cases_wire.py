"""The bytes on the wire are those of wire.txt, which were taken once from a node, both ways."""

import os
from functools import partial

from field import case
from peer import connect, digest
from waiting import LIMIT, expect, until

HERE = os.path.dirname(os.path.realpath(__file__))
COOKIE = "password"
# What stands for bytes that differ each time: the challenge that the node draws, and the digest of
# it.
CHALLENGE, DIGEST = "CHALLENGE", "DIGEST"


def conversation(title):
    """The lines below a title, each a mark and the words behind it."""
    with open(os.path.join(HERE, "wire.txt"), encoding="ascii") as file:
        parts = file.read().split("== ")
    (text,) = (part for part in parts if part.split("\n")[0] == title)
    lines = [line.split("#")[0].strip() for line in text.split("\n")[1:]]
    return [line.split(" ", 1) for line in lines if line]


class Played:
    """A conversation between a node, whose lines are asked on a control connection, and a peer."""

    def __init__(self, control, stream):
        """Nothing has been said yet."""
        self.control, self.stream, self.challenge = control, stream, None

    def play(self, title):
        """Says what the peer and the control connection say, and compares what the node says."""
        for number, (mark, words) in enumerate(conversation(title), 1):
            what = f"line {number} of {title}"
            if mark == ">":
                self.stream.sendall(self.spelled(words))
            elif mark == "<":
                self.hear(what, words)
            else:
                command, answer = words.split(" -> ")
                until(what, partial(self.control.ask, command), answer.__eq__)

    def spelled(self, words):
        """The bytes of hex words."""
        return b"".join(self.bytes_of(word) for word in words.split())

    def bytes_of(self, word):
        """Those of one word."""
        if word == CHALLENGE:
            return self.challenge.to_bytes(4, "big")
        return digest(COOKIE, self.challenge) if word == DIGEST else bytes.fromhex(word)

    def hear(self, what, words):
        """Reads as many bytes as the words spell, and compares."""
        for word in words.split():
            if word == CHALLENGE and self.challenge is None:
                self.challenge = int.from_bytes(self.read(4), "big")
            else:
                wanted = self.bytes_of(word)
                expect(f"the bytes of {what}", wanted.hex(), self.read(len(wanted)).hex())

    def read(self, count):
        """So many bytes, or as many as come."""
        data = b""
        while len(data) < count and (piece := self.stream.recv(count - len(data))):
            data += piece
        return data


@case
def bytes_of_a_taken_link(field):
    """On a link that the peer opens, handshake and messages are byte for byte those of wire.txt."""
    a = field.node("a@h", "--creation", "4")
    Played(field.control(a), field.keep(connect(a.port))).play("taken")


@case
def bytes_of_a_dialled_link(field):
    """So they are on a link that the node opens."""
    listener = field.listener()
    place = f"peer@h=127.0.0.1:{listener.getsockname()[1]}"
    a = field.node("a@h", "--creation", "4", "--dial", place, port=None)
    stream = field.keep(listener.accept()[0])
    stream.settimeout(LIMIT)
    Played(field.control(a), stream).play("dialled")
