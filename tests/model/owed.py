"""The frames that an entry owes to links, and those that wait for a link."""

from frames import (
    HANDSHAKE_23,
    PUBLISHED,
    Discover,
    Down,
    RowsJoin,
    RowsLeave,
    Sync,
    ack_body,
    bodies_of,
    challenge_body,
    message_body,
    name_body,
    read_challenge,
    read_name,
    read_reply,
    read_status,
    reply_body,
    status_body,
)
from history import Dial, Exit, Frame, Join, Leave, Lost, StartScope, StopScope, Take, looks_back
from links import Awaited
from own import in_group, spelled, taken_away
from texts import digest_of

MOST_WAITING = 1024


class Owed:
    """Who is up, told and heard is read before the newest entry: whether a link is up behind it
    hangs on what it is owed."""

    most_waiting = MOST_WAITING

    def own_flags(self, h):
        return HANDSHAKE_23 | (0 if h.opening.hidden else PUBLISHED)

    def own_name_frame(self, h):
        return name_body(self.own_flags(h), self.creation(h), h.opening.name, h.opening.links)

    def own_challenge(self, h, link):
        return self.links(h)[link].challenge

    def own_challenge_frame(self, h, link):
        return challenge_body(
            self.own_flags(h),
            self.own_challenge(h, link),
            self.creation(h),
            h.opening.name,
            h.opening.links,
        )

    def digest_for(self, h, link, challenge):
        return digest_of(self.cookie(h, self.peer_of(h, link)), challenge)

    def welcome(self, h, link):
        """What a Name is owed, at its entry."""
        name = read_name(h.said.body).name
        if self.is_name_up(h.past, name):
            return [status_body("alive")]
        status = "ok_simultaneous" if self.is_dialling(h.past, name) else "ok"
        return [status_body(status), self.own_challenge_frame(h, link)]

    def discovers(self, h, link):
        """What a link that comes up is owed: a Discover for each running scope, if
        it is visible."""
        scopes = sorted(self.running_scopes(h)) if self.is_visible(h, link) else []
        return [message_body(Discover(scope)) for scope in scopes]

    def bodies(self, h, link, message):
        return bodies_of(self.version(h, link), message)

    def message_owes(self, h, link):
        _, message = self.message(h)
        if not isinstance(message, Discover):
            return []
        scope = message.scope
        rows = self.bodies(h, link, Sync(scope, spelled(self.own(h, scope))))
        return rows if self.hears(h.past, link, scope) else rows + [message_body(message)]

    def frame_owes(self, h, link):
        """What an accepted frame is owed."""
        body = h.said.body
        match self.awaits(h.past, link):
            case Awaited.NAME:
                return self.welcome(h, link)
            case Awaited.ANSWER:
                return [self.own_challenge_frame(h, link)]
            case Awaited.REPLY:
                return [
                    ack_body(self.digest_for(h, link, read_reply(body).challenge))
                ] + self.discovers(h, link)
            case Awaited.STATUS:
                return [status_body("true")] if read_status(body) == "alive" else []
            case Awaited.CHALLENGE:
                digest = self.digest_for(h, link, read_challenge(body).challenge)
                return [reply_body(self.own_challenge(h, link), digest)]
            case Awaited.ACK:
                return self.discovers(h, link)
            case _:
                return self.message_owes(h, link)

    def refusal_owes(self, h, link):
        match h.entry.event, h.entry.rule:
            case Frame(of, _), "NotAllowed" if of == link:
                return [status_body("not_allowed")]
            case Frame(of, _), "Simultaneous" if of == link:
                return [status_body("nok")]
            case Frame(of, _), "LinkUp" if of == link:
                return [status_body("false")]
            case _:
                return []

    def if_visible(self, h, link, message):
        return (
            [message_body(message)] if self.is_up(h.past, link) and self.is_visible(h, link) else []
        )

    def if_told(self, h, link, kind, scope, rows):
        return (
            self.bodies(h, link, kind(scope, rows))
            if rows and self.tells(h.past, link, scope)
            else []
        )

    def rows_that_left(self, h, scope):
        return spelled(taken_away(self.own(h.past, scope), self.own(h, scope)))

    def exit_owes(self, h, link):
        return [
            frame
            for scope in sorted(self.running_scopes(h))
            for frame in self.if_told(h, link, RowsLeave, scope, self.rows_that_left(h, scope))
        ]

    def owed(self, h, link):
        """The frames that the newest entry owes to a link."""
        match h.said:
            case None:
                return self.refusal_owes(h, link)
            case Dial() if h.number == link:
                return [self.own_name_frame(h)]
            case Frame(of, _) if of == link:
                return self.frame_owes(h, link)
            case StartScope(scope):
                return self.if_visible(h, link, Discover(scope))
            case StopScope(scope):
                return self.if_visible(h, link, Down(scope))
            case Join(scope, group, pids):
                return self.if_told(h, link, RowsJoin, scope, tuple(sorted(in_group(group, pids))))
            case Leave(scope, _, _):
                return self.if_told(h, link, RowsLeave, scope, self.rows_that_left(h, scope))
            case Exit():
                return self.exit_owes(h, link)
            case _:
                return []

    @looks_back
    def owed_since(self, h, link):
        """How many frames were owed to a link since its last Take, whatever became of them."""
        if link not in self.links(h) or h.said == Take(link):
            return 0
        return self.owed_since(h.past, link) + len(self.owed(h, link))

    def is_slow(self, h, link):
        """Whether the newest entry, an accepted one, leaves too many frames for a link."""
        return h.said is not None and self.owed_since(h, link) > self.most_waiting

    def drops(self, h, link):
        """Whether the newest entry, an accepted one, drops the frames that wait: a loss, or another
        end of an open link."""
        return h.said == Lost(link) or (
            h.said is not None and self.is_open(h.past, link) and self.ends(h, link)
        )

    @looks_back
    def waiting(self, h, link):
        """The frames owed to a link since the last Take."""
        if link not in self.links(h) or h.said == Take(link) or self.drops(h, link):
            return ()
        return self.waiting(h.past, link) + tuple(self.owed(h, link))

    def is_kept(self, h, link):
        return self.is_open(h, link) or bool(self.waiting(h, link))
