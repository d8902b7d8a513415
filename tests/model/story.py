"""Scripts that are told by hand: lines, and handshakes of both ends with the right digests."""

from frames import (
    HANDSHAKE_23,
    PUBLISHED,
    ack_body,
    bodies_of,
    challenge_body,
    name_body,
    reply_body,
    status_body,
)
from history import Opening
from peers import Peers
from script import MOST_ENTRIES
from texts import Pid

NODE = Opening("b@h", "password", False, 1, MOST_ENTRIES)
FLAGS = HANDSHAKE_23 | PUBLISHED


def row(group, name, number, creation=1):
    return group, Pid(name, creation, number)


class Story(Peers):
    def __init__(self, opening=NODE):
        super().__init__(None, opening)

    def tell(self, *lines):
        for line in lines:
            self.say(line)

    def send(self, link, body):
        return self.say("frame", link, body.hex())

    def message(self, link, message):
        for body in bodies_of(self.model.version(self.h, link), message):
            self.send(link, body)

    def opens(self, challenge=7):
        self.say("opened", challenge)
        return self.h.number

    def dials(self, name, challenge=8):
        self.say("dial", name, challenge)
        return self.h.number

    def accepted(self, name, challenge=7, creation=1, version=1):
        """A link that a peer opens, and that comes up where the peer is allowed; answers its
        number. The peer knows that version."""
        link = self.opens(challenge)
        self.send(link, name_body(FLAGS, creation, name, version))
        if self.model.is_open(self.h, link):
            self.prove(link)
        return link

    def prove(self, link):
        """What a peer sends behind its Name."""
        if self.model.was_up(self.h, link):
            self.send(link, status_body("true"))
        self.send(link, reply_body(1, self.own_digest(link)))

    def dialled(self, name, challenge=8, creation=1, version=1):
        """A link that the node dials, and that comes up; answers its number. The peer
        knows that version."""
        link = self.dials(name, challenge)
        self.say("take", link)
        self.send(link, status_body("ok"))
        self.send(link, challenge_body(FLAGS, 9, creation, name, version))
        self.send(link, ack_body(self.own_digest(link)))
        return link
