"""What peers send, right and wrong: the frame that a link awaits, its variations, and messages."""

from frames import (
    DYNAMIC,
    HANDSHAKE_23,
    PUBLISHED,
    STATUSES,
    Discover,
    Down,
    Part,
    RowsJoin,
    RowsLeave,
    Sync,
    ack_body,
    challenge_body,
    message_body,
    name_body,
    part_body,
    reply_body,
    status_body,
)
from history import Dial
from links import Awaited
from own import spelled
from script import Writer
from texts import Pid, digest_of

PEERS = ("a@h", "c@h", "z@h", "x/y@h")
BAD_NAMES = ("", "b", "@h", "h@", "a@b@h", "a @h", "a@h\x7f", "a@h\x00", "n@" + "h" * 254)
COOKIES = ("password", "secret", "other", "#", "x" * 255)
SCOPES = ("pg", "s", "t/1", "#")
GROUPS = ("g", "h", "w", "1")


class Peers(Writer):
    def peer(self):
        """A peer, mostly one whose name is in use already."""
        used = set(self.model.present_links(self.h)) | {
            self.model.peer_of(self.h, link) for link in self.model.open_links(self.h)
        }
        used &= set(PEERS)
        return self.one_of(sorted(used)) if used and self.chance(50) else self.one_of(PEERS)

    def challenge(self):
        return self.one_of((0, 1, 7, 10, 123, 4_294_967_295, self.rng.randrange(1 << 32)))

    def flags(self):
        flags = HANDSHAKE_23 | (0 if self.chance(12) else PUBLISHED)
        return flags | (1 << self.one_of((1, 2, 25, 40, 63)) if self.chance(10) else 0)

    def peer_creation(self):
        return self.one_of((1, 1, 2, 5, 0, 4_294_967_295))

    def digest(self, link, challenge):
        return digest_of(self.model.cookie(self.h, self.model.peer_of(self.h, link)), challenge)

    def own_digest(self, link):
        return self.digest(link, self.model.own_challenge(self.h, link))

    def name_of_name(self):
        """The name of a Name that is accepted more often than not."""
        dialled = [
            start.name
            for link, start in self.model.links(self.h).items()
            if isinstance(start, Dial) and self.model.is_open(self.h, link)
        ]
        return self.one_of(dialled) if dialled and self.chance(30) else self.peer()

    def peer_version(self):
        """The version of link messages that a peer says. Most know the node's own."""
        return self.opening.links if self.chance(75) else self.one_of((1, 2))

    def name_frame(self, name=None, flags=None):
        extra = (
            self.one_of((b"\x02\x02", b"\x01", b"\x03", self.rng.randbytes(3)))
            if self.chance(5)
            else b""
        )
        flags = self.flags() if flags is None else flags
        name = name if name is not None else self.name_of_name()
        return name_body(flags, self.peer_creation(), name, self.peer_version()) + extra

    def challenge_frame(self, name, flags=None):
        flags = self.flags() if flags is None else flags
        return challenge_body(
            flags, self.challenge(), self.peer_creation(), name, self.peer_version()
        )

    def right_frame(self, link):
        """The frame that an open link awaits."""
        match self.model.awaits(self.h, link):
            case Awaited.NAME:
                return self.name_frame()
            case Awaited.ANSWER:
                return status_body("true")
            case Awaited.REPLY:
                return reply_body(self.challenge(), self.own_digest(link))
            case Awaited.STATUS:
                return status_body(self.one_of(("ok", "ok", "ok_simultaneous", "alive")))
            case Awaited.CHALLENGE:
                return self.challenge_frame(self.model.peer_of(self.h, link))
            case Awaited.ACK:
                return ack_body(self.own_digest(link))
            case Awaited.MESSAGE:
                return self.good_body(link)

    def wrong_name(self, link):
        return self.one_of(
            (
                self.name_frame(flags=PUBLISHED),
                self.name_frame(flags=HANDSHAKE_23 | DYNAMIC),
                self.name_frame(self.one_of(BAD_NAMES)),
                self.name_frame(self.opening.name),
                self.name_frame("stranger@h"),
            )
        )

    def wrong_digest(self, link):
        cookie = self.one_of(COOKIES)
        return self.one_of(
            (
                digest_of(cookie, self.model.own_challenge(self.h, link)),
                self.digest(link, 1),
                b"\0" * 16,
            )
        )

    def wrong_challenge(self, link):
        name = self.model.peer_of(self.h, link)
        return self.one_of(
            (
                self.challenge_frame(self.one_of(PEERS)),
                self.challenge_frame(name, PUBLISHED),
                self.challenge_frame(self.opening.name),
                self.challenge_frame(name, HANDSHAKE_23 | DYNAMIC),
            )
        )

    def wrong_frame(self, link):
        """A frame of the kind that is awaited, but a wrong one."""
        match self.model.awaits(self.h, link):
            case Awaited.NAME:
                return self.wrong_name(link)
            case Awaited.ANSWER | Awaited.STATUS:
                return status_body(self.one_of(STATUSES))
            case Awaited.REPLY:
                return reply_body(self.challenge(), self.wrong_digest(link))
            case Awaited.CHALLENGE:
                return self.wrong_challenge(link)
            case Awaited.ACK:
                return ack_body(self.wrong_digest(link))
            case Awaited.MESSAGE:
                return self.bad_body(link)

    def broken_frame(self, link):
        """A frame that is spelled wrongly, or one that comes at the wrong time."""
        if self.model.is_whole(self.h, link) and self.chance(20):
            return self.of_another_version(link)
        body = self.right_frame(link)
        place = self.rng.randrange(len(body))
        return self.one_of(
            (
                body[:place] or b"\0",
                body + b"\0",
                body[:place] + bytes([self.rng.randrange(256)]) + body[place + 1 :],
                status_body(self.one_of(STATUSES)),
                message_body(Discover("pg")),
                self.name_frame(),
                ack_body(b"\0" * 16),
                self.challenge_frame("a@h"),
                bytes([self.rng.randrange(256)]),
            )
        )

    def scope(self, of_100=85):
        """A scope, mostly a running one; one is started first where none runs, mostly."""
        if not self.model.running_scopes(self.h) and self.chance(80):
            self.say("start", self.one_of(SCOPES))
        running = sorted(self.model.running_scopes(self.h))
        return self.one_of(running) if running and self.chance(of_100) else self.one_of(SCOPES)

    def heard_scope(self, link):
        heard = [
            scope
            for scope in sorted(self.model.running_scopes(self.h))
            if self.model.hears(self.h, link, scope)
        ]
        return self.one_of(heard) if heard and self.chance(90) else self.scope()

    def peer_row(self, link):
        given = self.model.given(self.h, link)
        return self.one_of(GROUPS), Pid(
            self.model.peer_of(self.h, link), given.creation, self.rng.randint(1, 4)
        )

    def peer_rows(self, link, least, most):
        return tuple(self.peer_row(link) for _ in range(self.rng.randint(least, most)))

    def stated_rows(self, link, scope):
        """Some rows that the link has stated in the scope, none of them too often."""
        rows = list(spelled(self.model.stated(self.h, link, scope)))
        self.rng.shuffle(rows)
        return tuple(rows[: self.rng.randint(1, 3)]) or self.peer_rows(link, 1, 1)

    def good_message(self, link):
        """A message that is mostly accepted."""
        kind = self.rng.choices((Discover, Sync, RowsJoin, RowsLeave, Down), (3, 4, 9, 5, 1))[0]
        scope = self.heard_scope(link) if kind in (RowsJoin, RowsLeave) else self.scope()
        if (
            kind in (RowsJoin, RowsLeave)
            and not self.model.hears(self.h, link, scope)
            and self.chance(80)
        ):
            kind = Sync
        match kind.__name__:
            case "Discover" | "Down":
                return kind(scope)
            case "Sync":
                return Sync(scope, self.peer_rows(link, 0, 5))
            case "RowsJoin":
                return RowsJoin(scope, self.peer_rows(link, 1, 3))
            case "RowsLeave":
                return RowsLeave(scope, self.stated_rows(link, scope))

    def good_body(self, link):
        """A message, or a part of one: mostly the next part of one that has begun."""
        if self.model.version(self.h, link) == 1:
            return message_body(self.good_message(link))
        parts = self.model.begun(self.h, link)
        if parts and self.chance(75):
            return part_body(self.next_part(link, parts[-1]))
        message = self.good_message(link)
        is_whole = isinstance(message, (Discover, Down))
        return (
            message_body(message)
            if is_whole
            else part_body(Part(type(message), message.scope, 1, self.chance(55), message.rows))
        )

    def next_part(self, link, part):
        """A part that goes on behind this one, mostly with rows that may come."""
        rows = (
            self.stated_rows(link, part.scope)
            if part.kind is RowsLeave
            else self.peer_rows(link, part.kind is not Sync, 3)
        )
        return Part(part.kind, part.scope, part.number + 1, self.chance(50), rows)

    def cut_message(self, link):
        """A message with rows, as a list of up to three parts."""
        message = self.good_message(link)
        while isinstance(message, (Discover, Down)):
            message = self.good_message(link)
        places = range(1, len(message.rows))
        cuts = sorted(self.rng.sample(places, min(2, len(places))))
        return [
            Part(
                type(message),
                message.scope,
                number,
                number == len(cuts) + 1,
                message.rows[start:end],
            )
            for number, (start, end) in enumerate(zip([0] + cuts, cuts + [len(message.rows)]), 1)
        ]

    def bad_body(self, link):
        """A message that is mostly refused, or a part of one where the link knows version 2."""
        message = self.bad_message(link)
        if self.model.version(self.h, link) == 1:
            return message_body(message)
        parts, place = self.model.begun(self.h, link), (1, self.chance(60))
        if parts and self.chance(60):
            message = message._replace(scope=parts[-1].scope) if self.chance(60) else message
            place = parts[-1].number + self.one_of((1, 1, 1, 0, 2)), self.chance(60)
        elif self.chance(30):
            place = self.one_of((2, 3, 4_294_967_295)), self.chance(60)
        kind = parts[-1].kind if parts and self.chance(60) else type(message)
        return part_body(Part(kind, message.scope, *place, message.rows))

    def of_another_version(self, link):
        """A body that says something in the other version alone."""
        message = self.good_message(link)
        if isinstance(message, (Discover, Down)):
            message = Sync(message.scope, ())
        if self.model.version(self.h, link) == 2:
            return message_body(message)
        return part_body(Part(type(message), message.scope, 1, True, message.rows))

    def foreign_row(self, link):
        """A row that isn't the peer's."""
        group, pid = self.peer_row(link)
        own = Pid(self.opening.name, self.model.creation(self.h), 1)
        other = Pid(self.one_of(PEERS), pid.creation, pid.number)
        return group, self.one_of(
            (own, other, pid._replace(creation=(pid.creation + 1) % (1 << 32)))
        )

    def bad_message(self, link):
        scope = self.heard_scope(link)
        rows = list(self.stated_rows(link, scope))
        rows.insert(
            self.rng.randint(0, len(rows)),
            self.foreign_row(link) if self.chance(60) else self.peer_row(link),
        )
        kind = self.one_of((Sync, RowsJoin, RowsLeave, RowsLeave))
        return kind(scope if self.chance(85) else self.one_of(SCOPES), tuple(rows))
