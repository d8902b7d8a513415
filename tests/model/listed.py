"""What peers have said of their rows, what is listed, what an entry changes of it, and what
monitors are told."""

from frames import Discover, Down, Part, RowsJoin, RowsLeave, Sync
from history import (
    Begin,
    Demonitor,
    Frame,
    Monitor,
    MonitorScope,
    Restart,
    StopScope,
    Updates,
    looks_back,
)
from own import less, more, spelled, taken_away


class Parts:
    @looks_back
    def said_on(self, h):
        """The link and what is said there by the newest entry, where that is an accepted frame
        of an up link."""
        match h.said:
            case Frame(link, body) if self.is_whole(h.past, link):
                return link, self.read(h.past, link, body)
            case _:
                return None, None

    @looks_back
    def begun(self, h, link):
        """The parts of a message that the link has begun, and that is neither complete nor broken
        off: the last that it said is one of its parts, and the scope wasn't stopped since."""
        if isinstance(h.said, (Begin, Restart)):
            return ()
        of, said = self.said_on(h)
        if of == link:
            return (
                self.parts_up_to(h.past, link, said)
                if isinstance(said, Part) and not said.last
                else ()
            )
        parts = self.begun(h.past, link)
        return () if parts and h.said == StopScope(parts[0].scope) else parts

    def parts_up_to(self, h, link, part):
        """The parts of a message up to this one. A first part begins anew, whatever had begun."""
        return (part,) if part.number == 1 else self.begun(h, link) + (part,)

    def rows_so_far(self, h, link, part):
        return tuple(row for some in self.parts_up_to(h, link, part) for row in some.rows)

    def is_next(self, h, link, part):
        """Whether a part that isn't the first one goes on with the message that has begun."""
        parts = self.begun(h, link)
        return bool(parts) and (part.kind, part.scope, part.number) == (
            parts[-1].kind,
            parts[-1].scope,
            parts[-1].number + 1,
        )


class Hearing:
    @looks_back
    def message(self, h):
        """The link and the message that the newest entry says, or completes."""
        link, said = self.said_on(h)
        if not isinstance(said, Part):
            return link, said
        return (
            (link, said.kind(said.scope, self.rows_so_far(h.past, link, said)))
            if said.last
            else (None, None)
        )

    @looks_back
    def told(self, h, link, scope):
        return self.last_said(h, link, scope, Discover, self.told)

    @looks_back
    def heard(self, h, link, scope):
        return self.last_said(h, link, scope, Sync, self.heard)

    def last_said(self, h, link, scope, kind, earlier):
        """Whether such a message came with no later Down and no later stop."""
        if isinstance(h.said, (Begin, Restart)) or h.said == StopScope(scope):
            return False
        of, message = self.message(h)
        if of == link and message.scope == scope and isinstance(message, (kind, Down)):
            return isinstance(message, kind)
        return earlier(h.past, link, scope)

    def tells(self, h, link, scope):
        return self.is_up(h, link) and self.told(h, link, scope)

    def hears(self, h, link, scope):
        return self.is_up(h, link) and self.heard(h, link, scope)

    @looks_back
    def said_rows(self, h, link, scope):
        """How often the link's messages have stated each row."""
        if h.past is None:
            return {}
        rows = self.said_rows(h.past, link, scope)
        match self.message(h):
            case of, Sync(where, stated) if (of, where) == (link, scope):
                return more({}, stated)
            case of, RowsJoin(where, joined) if (of, where) == (link, scope):
                return more(rows, joined)
            case of, RowsLeave(where, left) if (of, where) == (link, scope):
                return less(rows, left)
            case _:
                return rows

    def stated(self, h, link, scope):
        return self.said_rows(h, link, scope) if self.hears(h, link, scope) else {}

    def is_from(self, h, link, pid):
        return pid.name == self.peer_of(h, link) and pid.creation == self.given(h, link).creation


class Listed:
    @looks_back
    def listed(self, h, scope):
        """How often each row is listed: an own one as it is joined, another as the present link of
        its node has stated it."""
        if not self.is_running(h, scope):
            return {}
        rows = dict(self.own(h, scope))
        for link in self.present_links(h).values():
            if self.is_visible(h, link):
                rows.update(
                    (row, count)
                    for row, count in self.stated(h, link, scope).items()
                    if self.is_from(h, link, row[1])
                )
        return rows

    def members(self, h, scope, group):
        return members_of(self.listed(h, scope), group)

    def local_members(self, h, scope, group):
        return members_of(self.own(h, scope), group)

    def groups(self, h, scope):
        return groups_of(self.listed(h, scope))

    def local_groups(self, h, scope):
        return groups_of(self.own(h, scope))

    def contents(self, h, scope):
        return [(group, self.members(h, scope, group)) for group in self.groups(h, scope)]

    @looks_back
    def change(self, h, scope):
        """For each group that the newest entry changed: who left, and who joined."""
        if h.past is None:
            return []
        before, after = self.listed(h.past, scope), self.listed(h, scope)
        left, joined = taken_away(before, after), taken_away(after, before)
        return [
            (group, members_of(left, group), members_of(joined, group))
            for group in groups_of({**left, **joined})
        ]


class Monitors:
    @looks_back
    def monitor(self, h, seat, ref):
        """What the seat's monitor of that number watches, a scope and a group or None, or None."""
        match h.said:
            case Begin() | Restart():
                return None
            case Monitor(scope, group) if (h.number, h.entry.seat) == (ref, seat):
                return scope, group
            case MonitorScope(scope) if (h.number, h.entry.seat) == (ref, seat):
                return scope, None
            case Demonitor(of) if (of, h.entry.seat) == (ref, seat):
                return None
        watched = self.monitor(h.past, seat, ref)
        return None if watched and h.said == StopScope(watched[0]) else watched

    def updates(self, h, seat, ref):
        """The changes since the monitor's own entry, or since its last Updates,
        the oldest first."""
        scope, group = self.monitor(h, seat, ref)
        fetched = Updates(ref)
        told = []
        while h.number != ref and not (h.said == fetched and h.entry.seat == seat):
            told.append(self.updates_of(h, scope, group))
            h = h.past
        return [update for of_entry in reversed(told) for update in of_entry]

    def updates_of(self, h, scope, group):
        """What one entry tells a monitor: group by group, what left before what joined."""
        told = []
        for changed, left, joined in self.change(h, scope):
            if group in (None, changed):
                told += [
                    (word, changed, pids)
                    for word, pids in (("leave", left), ("join", joined))
                    if pids
                ]
        return told


def members_of(rows, group):
    return [
        pid for of, pid in spelled({row: count for row, count in rows.items() if row[0] == group})
    ]


def groups_of(rows):
    return sorted({group for group, _ in rows})
