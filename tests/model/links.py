"""Links: what each end takes, who the peer is, which links are open and up, and what ends them."""

from enum import Enum, auto

from frames import (
    PUBLISHED,
    READ_SAID,
    read_ack,
    read_challenge,
    read_name,
    read_reply,
    read_status,
)
from history import Begin, Dial, Disconnect, Frame, Lost, Opened, Restart, Up, looks_back


class Awaited(Enum):
    NAME, ANSWER, REPLY, STATUS, CHALLENGE, ACK, MESSAGE = (auto() for _ in range(7))


READERS = {
    Awaited.NAME: read_name,
    Awaited.ANSWER: read_status,
    Awaited.REPLY: read_reply,
    Awaited.STATUS: read_status,
    Awaited.CHALLENGE: read_challenge,
    Awaited.ACK: read_ack,
}


class Sides:
    @looks_back
    def present_links(self, h):
        """The present link of each name that is up."""
        return {
            name: link for name, link in self.links_by_event(h).items() if not self.is_slow(h, link)
        }

    def links_by_event(self, h):
        """What the event of the newest entry makes of the present links, whatever it owes."""
        links = {} if h.past is None else self.present_links(h.past)
        match h.said:
            case Begin() | Restart():
                return {}
            case Frame(link, _) if isinstance(h.entry.answer, Up):
                return {**links, h.entry.answer.name: link}
            case Lost(link):
                return {name: present for name, present in links.items() if present != link}
            case Disconnect(name):
                return {other: link for other, link in links.items() if other != name}
            case _:
                return links

    def present_link(self, h, name):
        return self.present_links(h).get(name)

    def is_name_up(self, h, name):
        return name in self.present_links(h)

    @looks_back
    def links(self, h):
        """The links opened since the last restart, each with the event that opened it."""
        match h.said:
            case Begin() | Restart():
                return {}
            case Opened() | Dial():
                return {**self.links(h.past), h.number: h.said}
            case _:
                return self.links(h.past)

    @looks_back
    def taken(self, h, link):
        """The accepted frames of a link, the oldest first, each with the history before it."""
        match h.said:
            case Begin() | Restart():
                return ()
            case Frame(of, body) if of == link:
                return self.taken(h.past, link) + ((h.past, body),)
            case _:
                return self.taken(h.past, link)

    def given(self, h, link):
        """The frame with flags, creation and name of the peer: an acceptor has them from the Name,
        a dialler from the Challenge."""
        taken = self.taken(h, link)
        if isinstance(self.links(h)[link], Opened):
            return read_name(taken[0][1]) if taken else None
        return read_challenge(taken[1][1]) if len(taken) > 1 else None

    def peer_of(self, h, link):
        start = self.links(h)[link]
        if isinstance(start, Dial):
            return start.name
        given = self.given(h, link)
        return None if given is None else given.name

    def is_visible(self, h, link):
        return not h.opening.hidden and bool(self.given(h, link).flags & PUBLISHED)

    def version(self, h, link):
        """The version of the messages on a link whose side is whole: 2 where both nodes know it."""
        return 2 if h.opening.links == 2 and self.given(h, link).version == 2 else 1

    def was_up(self, h, link):
        """Whether a link of that name was up when the Name came."""
        before, _ = self.taken(h, link)[0]
        return self.is_name_up(before, self.peer_of(h, link))

    def whole_side(self, h, link):
        if isinstance(self.links(h)[link], Dial):
            return [Awaited.STATUS, Awaited.CHALLENGE, Awaited.ACK]
        if self.taken(h, link) and self.was_up(h, link):
            return [Awaited.NAME, Awaited.ANSWER, Awaited.REPLY]
        return [Awaited.NAME, Awaited.REPLY]

    @looks_back
    def awaits(self, h, link):
        if link not in self.links(h):
            return None
        side, taken = self.whole_side(h, link), len(self.taken(h, link))
        return side[taken] if taken < len(side) else Awaited.MESSAGE

    def is_whole(self, h, link):
        return self.awaits(h, link) is Awaited.MESSAGE

    def read(self, h, link, body):
        """What a body says to a link that awaits a frame of the handshake, or a message; None where
        it isn't that."""
        reader = (
            READ_SAID[self.version(h, link)]
            if self.is_whole(h, link)
            else READERS[self.awaits(h, link)]
        )
        return reader(body)


class Links:
    @looks_back
    def is_open(self, h, link):
        match h.said:
            case Begin() | Restart():
                return False
            case Opened() | Dial() if h.number == link:
                return True
            case _:
                return self.is_open(h.past, link) and not self.ends(h, link)

    def is_up(self, h, link):
        return self.is_open(h, link) and self.is_whole(h, link)

    def ends(self, h, link):
        """Whether the newest entry ends a link that was open before it."""
        return self.is_ended_by_event(h, link) or self.is_slow(h, link)

    def is_ended_by_event(self, h, link):
        """Whether the newest entry says so: a refused frame of its handshake, a frame of another
        link, its loss, or a disconnect."""
        match h.entry.event, h.said:
            case Frame(of, _), None:
                return of == link and not self.is_whole(h.past, link)
            case _, Frame(of, _):
                return of != link and self.frame_ends(h, of, link)
            case _, Lost(of):
                return of == link
            case _, Disconnect(name):
                return self.is_up(h.past, link) and self.peer_of(h.past, link) == name
            case _:
                return False

    def frame_ends(self, h, other, link):
        """Whether the newest entry, an accepted frame of another link, ends this one."""
        return self.replaces(h, other, link) or self.gives_up(h, other, link)

    def replaces(self, h, other, link):
        return (
            self.is_last(h, other)
            and self.is_up(h.past, link)
            and self.peer_of(h, other) == self.peer_of(h.past, link)
        )

    def is_last(self, h, link):
        return self.is_whole(h, link) and not self.is_whole(h.past, link)

    def gives_up(self, h, other, link):
        """Whether the newest entry is a Name on the other link that gives up this
        one, an own dial."""
        if self.awaits(h.past, other) is not Awaited.NAME:
            return False
        name = self.peer_of(h, other)
        return self.is_unfinished_dial(h.past, link, name) and not self.is_name_up(h.past, name)

    def is_unfinished_dial(self, h, link, name):
        start = self.links(h).get(link)
        return isinstance(start, Dial) and start.name == name and not self.is_whole(h, link)

    @looks_back
    def open_links(self, h):
        return [link for link in self.links(h) if self.is_open(h, link)]

    @looks_back
    def up_links(self, h):
        return [link for link in self.open_links(h) if self.is_whole(h, link)]

    def is_dialling(self, h, name):
        return any(self.is_unfinished_dial(h, link, name) for link in self.open_links(h))
