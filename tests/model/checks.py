"""The rules of each event in their order, the answers, and the entry that the policy
makes of an event."""

from collections import Counter

from frames import DYNAMIC, HANDSHAKE_23, MOST_ROWS, Discover, Part, RowsJoin, RowsLeave
from history import (
    Allow,
    Demonitor,
    Dial,
    Disconnect,
    Done,
    Entry,
    Exit,
    Frame,
    GroupList,
    Groups,
    History,
    Join,
    Leave,
    LocalGroups,
    LocalMembers,
    Lost,
    Members,
    Monitor,
    MonitorScope,
    NewLink,
    NewPid,
    Opened,
    Out,
    Pids,
    Ref,
    Restart,
    ScopeRef,
    SetCookieFor,
    Spawn,
    StartScope,
    StopScope,
    Take,
    Up,
    UpdateList,
    Updates,
    looks_back,
)
from links import Awaited
from own import in_group
from texts import is_name

MOST_LINKS, MOST_SCOPES, MOST_NAMES, MOST_PIDS, LAST_CREATION = 64, 64, 1024, 65_536, 4_294_967_295
# How many rows a node may have in a scope where messages come in parts.
MOST_ROWS_IN_PARTS = 65_536


class FrameChecks:
    """The rules of frames. Each rule stands before what breaks it; the first that is
    broken counts."""

    @looks_back
    def kept_links(self, h):
        return sum(self.is_kept(h, link) for link in self.links(h))

    def has_link_room(self, h):
        return self.kept_links(h) < MOST_LINKS

    def is_simultaneous(self, h, name):
        return not self.is_name_up(h, name) and self.is_dialling(h, name) and h.opening.name > name

    def name_checks(self, h, link, frame):
        yield "NoHandshake23", not frame.flags & HANDSHAKE_23
        yield "DynamicName", frame.flags & DYNAMIC
        yield "BadName", not is_name(frame.name)
        yield "OwnName", frame.name == h.opening.name
        yield "NotAllowed", not self.allowed(h, frame.name)
        yield "Simultaneous", self.is_simultaneous(h, frame.name)

    def answer_checks(self, h, link, status):
        yield "PeerSaid", status != "true"

    def status_checks(self, h, link, status):
        yield "PeerSaid", status in ("nok", "not_allowed", "true", "false")
        yield "LinkUp", status == "alive" and self.is_name_up(h, self.peer_of(h, link))

    def challenge_checks(self, h, link, frame):
        yield "NoHandshake23", not frame.flags & HANDSHAKE_23
        yield "WrongName", frame.name != self.peer_of(h, link)

    def digest_checks(self, h, link, frame):
        yield "BadDigest", frame.digest != self.digest_for(h, link, self.own_challenge(h, link))

    def message_checks(self, h, link, said):
        yield "HiddenLink", not self.is_visible(h, link)
        yield "NoScope", not self.is_running(h, said.scope)
        match said:
            case Discover(scope):
                yield "RowsFull", sum(self.own(h, scope).values()) > self.link_limit(h, link)
            case Part():
                yield from self.part_checks(h, link, said)

    def part_checks(self, h, link, part):
        if part.kind in (RowsJoin, RowsLeave):
            yield "NotHeard", not self.hears(h, link, part.scope)
        yield "PartOrder", part.number != 1 and not self.is_next(h, link, part)
        yield "ForeignPid", not all(self.is_from(h, link, pid) for _, pid in part.rows)
        rows = self.rows_so_far(h, link, part)
        match part.kind.__name__:
            case "Sync":
                yield "RowsFull", len(rows) > self.link_limit(h, link)
            case "RowsJoin":
                yield "RowsFull", self.peer_rows(h, link, part.scope) + len(rows) > self.link_limit(
                    h, link
                )
            case "RowsLeave":
                yield "NotListed", self.names_more_than_listed(h, part.scope, rows)

    def peer_rows(self, h, link, scope):
        return sum(self.stated(h, link, scope).values())

    def link_limit(self, h, link):
        """How many rows in a scope each end of a link may state to the other."""
        return MOST_ROWS_IN_PARTS if self.version(h, link) == 2 else MOST_ROWS

    def own_limit(self, h, scope):
        """How many own rows a scope may have: those that each link can be told."""
        if h.opening.links == 1:
            return MOST_ROWS
        return min(
            [self.link_limit(h, link) for link in self.up_links(h) if self.tells(h, link, scope)],
            default=MOST_ROWS_IN_PARTS,
        )

    def names_more_than_listed(self, h, scope, rows):
        listed = self.listed(h, scope)
        return any(count > listed.get(row, 0) for row, count in Counter(rows).items())

    def frame_checks(self, h, link, body):
        yield "NoSuchLink", not self.is_open(h, link)
        awaited = self.awaits(h, link)
        frame = self.read(h, link, body)
        yield "BadFrame", frame is None
        checks = {
            Awaited.NAME: self.name_checks,
            Awaited.ANSWER: self.answer_checks,
            Awaited.REPLY: self.digest_checks,
            Awaited.STATUS: self.status_checks,
            Awaited.CHALLENGE: self.challenge_checks,
            Awaited.ACK: self.digest_checks,
            Awaited.MESSAGE: self.message_checks,
        }
        yield from checks[awaited](h, link, frame)


class Checks(FrameChecks):
    """The rules of all events."""

    def dial_checks(self, h, name):
        yield "OwnName", name == h.opening.name
        yield "NotAllowed", not self.allowed(h, name)
        yield "LinkUp", self.is_name_up(h, name)
        yield "LinkPending", self.is_dialling(h, name)
        yield "LinksFull", not self.has_link_room(h)

    def join_checks(self, h, scope, pids):
        yield "NoScope", not self.is_running(h, scope)
        yield "NotLocal", not all(self.is_local(h, pid) for pid in pids)
        yield "NoProcess", not all(self.lives(h, pid) for pid in pids)
        yield "RowsFull", sum(self.own(h, scope).values()) + len(pids) > self.own_limit(h, scope)

    def leave_checks(self, h, scope, group, pids):
        yield "NoScope", not self.is_running(h, scope)
        yield "NotLocal", not all(self.is_local(h, pid) for pid in pids)
        yield "NotJoined", not any(row in self.own(h, scope) for row in in_group(group, pids))

    def start_checks(self, h, scope):
        yield "ScopeRunning", self.is_running(h, scope)
        yield "ScopesFull", len(self.running_scopes(h)) >= MOST_SCOPES

    def exit_checks(self, h, pid):
        yield "NotLocal", not self.is_local(h, pid)
        yield "NoProcess", not self.lives(h, pid)

    def too_many_cookies(self, h, name):
        return name != h.opening.name and len(self.peer_cookies(h).keys() | {name}) > MOST_NAMES

    def checks(self, h, seat, event):
        """The rules of an event in their order, and of each whether the event breaks it."""
        match event:
            case Restart():
                return [("CreationSpent", self.creation(h) == LAST_CREATION)]
            case SetCookieFor(name, _):
                return [("CookiesFull", self.too_many_cookies(h, name))]
            case Allow(names):
                return [("AllowFull", len(self.allow_list(h) | set(names)) > MOST_NAMES)]
            case Opened():
                return [("LinksFull", not self.has_link_room(h))]
            case Lost(link) | Take(link):
                return [("NoSuchLink", link not in self.links(h) or not self.is_kept(h, link))]
            case Disconnect(name):
                return [("NoLinkTo", not self.is_name_up(h, name))]
            case Dial(name, _):
                return self.dial_checks(h, name)
            case Frame(link, body):
                return self.frame_checks(h, link, body)
            case _:
                return self.scope_checks(h, seat, event)

    def scope_checks(self, h, seat, event):
        """The rules of what is asked of processes, scopes and monitors; other events have none."""
        match event:
            case Spawn():
                return [("PidsFull", self.living(h) >= MOST_PIDS)]
            case Demonitor(ref) | Updates(ref):
                return [("NoMonitor", self.monitor(h, seat, ref) is None)]
            case Exit(pid):
                return self.exit_checks(h, pid)
            case StartScope(scope):
                return self.start_checks(h, scope)
            case Join(scope, _, pids):
                return self.join_checks(h, scope, pids)
            case Leave(scope, group, pids):
                return self.leave_checks(h, scope, group, pids)
            case (
                StopScope(scope)
                | Members(scope, _)
                | LocalMembers(scope, _)
                | Groups(scope)
                | LocalGroups(scope)
                | Monitor(scope, _)
                | MonitorScope(scope)
            ):
                return [("NoScope", not self.is_running(h, scope))]
            case _:
                return []

    def up_answer(self, h, link, body):
        """What an accepted frame is answered."""
        if (
            len(self.taken(h, link)) + 1 != len(self.whole_side(h, link))
            or self.awaits(h, link) is Awaited.NAME
        ):
            return Done()
        given = self.given(h, link)
        return Up(self.peer_of(h, link), given.creation, self.is_visible(h, link))

    def answer(self, h, seat, event):
        """What an accepted event is answered."""
        number = h.number + 1
        match event:
            case Spawn():
                return NewPid(self.new_pid(h))
            case Members(scope, group):
                return Pids(self.members(h, scope, group))
            case LocalMembers(scope, group):
                return Pids(self.local_members(h, scope, group))
            case Groups(scope):
                return GroupList(self.groups(h, scope))
            case LocalGroups(scope):
                return GroupList(self.local_groups(h, scope))
            case Monitor(scope, group):
                return Ref(number, self.members(h, scope, group))
            case MonitorScope(scope):
                return ScopeRef(number, self.contents(h, scope))
            case Updates(ref):
                return UpdateList(self.updates(h, seat, ref))
            case Dial() | Opened():
                return NewLink(number)
            case Take(link):
                return Out(self.waiting(h, link))
            case Frame(link, body):
                return self.up_answer(h, link, body)
            case _:
                return Done()

    def is_full(self, h):
        return h.number >= h.opening.most_entries

    def first_broken(self, h, seat, event):
        return next((rule for rule, is_broken in self.checks(h, seat, event) if is_broken), None)

    def entry_of(self, h, seat, event):
        """The entry that the policy makes of an event after a history; none where the
        audit is full."""
        if self.is_full(h):
            return None
        rule = self.first_broken(h, seat, event)
        answer = self.answer(h, seat, event) if rule is None else None
        return Entry(h.number + 1, seat, event, rule, answer)

    def after(self, h, entry):
        return History(h.opening, h, entry)
