"""Wrong models, each named for its wrong deed: a run must notice every one of them."""

import part_edits
from frames import Part, RowsJoin, RowsLeave
from history import Allow, Begin, Frame, Join, Leave, Lost, Restart, Take, Updates, looks_back
from links import Awaited
from listed import groups_of, members_of
from model import Model
from own import in_group, taken_away


class one_leave_removes_all(Model):
    @looks_back
    def joined(self, h, scope):
        match h.said:
            case Leave(where, group, pids) if where == scope:
                left = in_group(group, pids)
                return {
                    row: count
                    for row, count in self.joined(h.past, scope).items()
                    if row not in left
                }
            case _:
                return super().joined(h, scope)


class drops_a_second_join(Model):
    @looks_back
    def joined(self, h, scope):
        match h.said:
            case Join(where, group, pids) if where == scope:
                return self.joined(h.past, scope) | {row: 1 for row in in_group(group, pids)}
            case _:
                return super().joined(h, scope)


class keeps_rows_after_lost(Model):
    @looks_back
    def present_links(self, h):
        return self.present_links(h.past) if isinstance(h.said, Lost) else super().present_links(h)

    def is_name_up(self, h, name):
        link = self.present_link(h, name)
        return link is not None and self.is_open(h, link)

    def hears(self, h, link, scope):
        return self.heard(h, link, scope)


class lists_over_a_hidden_link(Model):
    def message_checks(self, h, link, message):
        return [
            (rule, broken)
            for rule, broken in super().message_checks(h, link, message)
            if rule != "HiddenLink"
        ]

    @looks_back
    def listed(self, h, scope):
        rows = dict(super().listed(h, scope))
        for link in self.present_links(h).values():
            rows.update(self.stated(h, link, scope))
        return rows if self.is_running(h, scope) else {}


class names_not_listed_before_no_scope(Model):
    def message_checks(self, h, link, message):
        if isinstance(message, Part) and message.kind is RowsLeave:
            yield "NotListed", self.names_more_than_listed(h, message.scope, message.rows)
        yield from super().message_checks(h, link, message)


class restart_keeps_monitors(Model):
    @looks_back
    def monitor(self, h, seat, ref):
        return (
            self.monitor(h.past, seat, ref)
            if isinstance(h.said, Restart)
            else super().monitor(h, seat, ref)
        )


class restart_keeps_cookies(Model):
    @looks_back
    def own_cookie(self, h):
        return self.own_cookie(h.past) if isinstance(h.said, Restart) else super().own_cookie(h)


class nets_updates(Model):
    def updates(self, h, seat, ref):
        scope, group = self.monitor(h, seat, ref)
        now = self.listed(h, scope)
        while h.number != ref and not (h.said == Updates(ref) and h.entry.seat == seat):
            h = h.past
        then = self.listed(h, scope)
        left, joined = taken_away(then, now), taken_away(now, then)
        return [
            (word, changed, members_of(rows, changed))
            for changed in groups_of({**left, **joined})
            for word, rows in (("leave", left), ("join", joined))
            if group in (None, changed) and members_of(rows, changed)
        ]


class joins_before_told(Model):
    def if_told(self, h, link, kind, scope, rows):
        return (
            self.if_visible(h, link, kind(scope, rows))
            if kind is RowsJoin and rows
            else super().if_told(h, link, kind, scope, rows)
        )


class tells_an_exit_in_the_last_scope_first(Model):
    def exit_owes(self, h, link):
        return super().exit_owes(h, link)[::-1]


class allow_replaces_the_list(Model):
    @looks_back
    def allow_list(self, h):
        return frozenset(h.said.names) if isinstance(h.said, Allow) else super().allow_list(h)


class empty_list_shuts_out(Model):
    def allowed(self, h, name):
        return name in self.allow_list(h) if self.was_asked(h) else True

    @looks_back
    def was_asked(self, h):
        match h.said:
            case Begin() | Restart():
                return False
            case Allow():
                return True
            case _:
                return self.was_asked(h.past)


class ends_older_link_at_true(Model):
    def is_true(self, h, link):
        return self.awaits(h.past, link) is Awaited.ANSWER

    def replaces(self, h, other, link):
        proves = (
            self.is_true(h, other)
            and self.is_up(h.past, link)
            and self.peer_of(h, other) == self.peer_of(h.past, link)
        )
        return proves or super().replaces(h, other, link)

    @looks_back
    def present_links(self, h):
        match h.said:
            case Frame(link, _) if self.is_true(h, link):
                return {
                    name: of
                    for name, of in self.present_links(h.past).items()
                    if name != self.peer_of(h, link)
                }
            case _:
                return super().present_links(h)


class takes_another_creation(Model):
    def is_from(self, h, link, pid):
        return pid.name == self.peer_of(h, link)


class removes_before_the_missing_row(Model):
    """A refused Leave takes away what was listed of it."""

    @looks_back
    def said_rows(self, h, link, scope):
        rows = super().said_rows(h, link, scope)
        if h.past is None or h.entry.rule != "NotListed" or h.entry.event.link != link:
            return rows
        part = self.read(h.past, link, h.entry.event.body)
        return (
            {row: count for row, count in rows.items() if row not in part.rows}
            if part.scope == scope
            else rows
        )


class drops_frames_at_a_refusal(Model):
    """A refused frame of a handshake drops what waited before it."""

    @looks_back
    def waiting(self, h, link):
        if (
            h.past is not None
            and self.is_open(h.past, link)
            and not self.is_open(h, link)
            and h.said is None
        ):
            return tuple(self.owed(h, link))
        return super().waiting(h, link)


class refused_updates_move_the_place(Model):
    """Updates that another seat asks for, and that are refused, count as told."""

    def updates(self, h, seat, ref):
        told, scope_and_group = [], self.monitor(h, seat, ref)
        while h.number != ref and h.entry.event != Updates(ref):
            told = self.updates_of(h, *scope_and_group) + told
            h = h.past
        return told


class gives_up_no_dial(Model):
    def gives_up(self, h, other, link):
        return False


class drops_the_oldest_frame(Model):
    def is_slow(self, h, link):
        return False

    @looks_back
    def waiting(self, h, link):
        return super().waiting(h, link)[-self.most_waiting :]


class ends_a_slow_link_one_event_late(Model):
    def is_slow(self, h, link):
        return h.said is not None and self.owed_since(h.past, link) > self.most_waiting


class counts_from_the_last_take_of_any_link(Model):
    @looks_back
    def owed_since(self, h, link):
        return 0 if isinstance(h.said, Take) else super().owed_since(h, link)


class keeps_the_rows_of_a_slow_peer(keeps_rows_after_lost):
    @looks_back
    def present_links(self, h):
        return self.links_by_event(h)


class ends_a_link_at_its_last_frame(Model):
    most_waiting = 1023


class lets_one_frame_more_wait(Model):
    most_waiting = 1025


EDITS = part_edits.EDITS | {
    name: edit
    for name, edit in list(globals().items())
    if isinstance(edit, type) and issubclass(edit, Model) and edit is not Model
}
