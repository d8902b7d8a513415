"""Wrong models of messages in parts, each named for its wrong deed."""

from frames import Part, Sync
from history import Frame, StopScope, looks_back
from model import Model


class lists_a_part_before_the_last(Model):
    @looks_back
    def message(self, h):
        link, said = self.said_on(h)
        if not isinstance(said, Part):
            return link, said
        return link, said.kind(
            said.scope, self.rows_so_far(h.past, link, said) if said.kind is Sync else said.rows
        )


class lists_the_last_part_alone(Model):
    @looks_back
    def message(self, h):
        link, said = self.said_on(h)
        if not isinstance(said, Part):
            return link, said
        return (link, said.kind(said.scope, said.rows)) if said.last else (None, None)


class lets_part_two_follow_a_refusal(Model):
    """A refused part counts as one that has come."""

    @looks_back
    def begun(self, h, link):
        match h.past and h.entry.event, h.past and h.entry.rule:
            case Frame(of, body), str() if of == link and link in self.links(
                h.past
            ) and self.is_whole(h.past, link):
                said = self.read(h.past, link, body)
                return (
                    self.parts_up_to(h.past, link, said)
                    if isinstance(said, Part) and not said.last
                    else self.begun(h.past, link)
                )
            case _:
                return super().begun(h, link)


class breaks_off_at_a_refusal(Model):
    @looks_back
    def begun(self, h, link):
        refused = (
            h.past is not None
            and h.entry.rule is not None
            and isinstance(h.entry.event, Frame)
            and h.entry.event.link == link
        )
        return () if refused else super().begun(h, link)


class goes_on_behind_a_stop(Model):
    @looks_back
    def begun(self, h, link):
        return self.begun(h.past, link) if isinstance(h.said, StopScope) else super().begun(h, link)


class breaks_off_at_any_stop(Model):
    @looks_back
    def begun(self, h, link):
        return () if isinstance(h.said, StopScope) else super().begun(h, link)


class goes_on_behind_a_down(Model):
    @looks_back
    def begun(self, h, link):
        of, said = self.said_on(h)
        return (
            self.begun(h.past, link)
            if of == link and not isinstance(said, Part)
            else super().begun(h, link)
        )


class breaks_off_at_a_message_of_another_link(Model):
    @looks_back
    def begun(self, h, link):
        of, _ = self.said_on(h)
        return () if of not in (None, link) else super().begun(h, link)


class goes_on_in_another_scope(Model):
    def is_next(self, h, link, part):
        parts = self.begun(h, link)
        return bool(parts) and (part.kind, part.number) == (parts[-1].kind, parts[-1].number + 1)


class goes_on_with_another_kind(Model):
    def is_next(self, h, link, part):
        parts = self.begun(h, link)
        return bool(parts) and (part.scope, part.number) == (parts[-1].scope, parts[-1].number + 1)


class takes_any_later_part(Model):
    def is_next(self, h, link, part):
        parts = self.begun(h, link)
        return (
            bool(parts)
            and (part.kind, part.scope) == (parts[-1].kind, parts[-1].scope)
            and part.number > parts[-1].number
        )


class takes_no_first_part_behind_another(Model):
    def part_checks(self, h, link, part):
        yield "PartOrder", part.number == 1 and self.begun(h, link)
        yield from super().part_checks(h, link, part)


class names_part_order_before_not_heard(Model):
    def part_checks(self, h, link, part):
        yield "PartOrder", part.number != 1 and not self.is_next(h, link, part)
        yield from super().part_checks(h, link, part)


class names_foreign_pids_before_part_order(Model):
    def part_checks(self, h, link, part):
        yield "ForeignPid", not all(self.is_from(h, link, pid) for _, pid in part.rows)
        yield from super().part_checks(h, link, part)


class looks_for_rows_of_each_part_alone(Model):
    def part_checks(self, h, link, part):
        for rule, is_broken in super().part_checks(h, link, part):
            yield rule, self.names_more_than_listed(
                h, part.scope, part.rows
            ) if rule == "NotListed" else is_broken


class counts_the_rows_of_each_part_alone(Model):
    def part_checks(self, h, link, part):
        for rule, is_broken in super().part_checks(h, link, part):
            has_many = self.peer_rows(h, link, part.scope) + len(part.rows) > self.link_limit(
                h, link
            )
            yield rule, is_broken and (rule != "RowsFull" or has_many)


class is_heard_from_the_first_part_on(Model):
    @looks_back
    def heard(self, h, link, scope):
        of, said = self.said_on(h)
        is_part = of == link and isinstance(said, Part) and (said.kind, said.scope) == (Sync, scope)
        return is_part or super().heard(h, link, scope)


class is_unheard_between_parts(Model):
    @looks_back
    def heard(self, h, link, scope):
        of, said = self.said_on(h)
        is_part = of == link and isinstance(said, Part) and (said.kind, said.scope) == (Sync, scope)
        return super().heard(h, link, scope) and (not is_part or said.last)


class speaks_its_own_version(Model):
    def version(self, h, link):
        return h.opening.links


class speaks_the_version_of_the_peer(Model):
    def version(self, h, link):
        return self.given(h, link).version


class says_no_version(Model):
    def own_name_frame(self, h):
        return super().own_name_frame(h).removesuffix(b"\x02")


class lets_a_link_of_version_2_hear_few_rows(Model):
    def link_limit(self, h, link):
        return 4096


class lets_an_old_link_be_told_of_all_rows(Model):
    def message_checks(self, h, link, said):
        for rule, is_broken in super().message_checks(h, link, said):
            yield rule, is_broken and (rule != "RowsFull" or isinstance(said, Part))


class lets_own_rows_rise_beside_an_old_link(Model):
    def own_limit(self, h, scope):
        return 4096 if h.opening.links == 1 else 65_536


class keeps_own_rows_few_beside_an_untold_old_link(Model):
    def own_limit(self, h, scope):
        return min(
            [super().own_limit(h, scope)] + [self.link_limit(h, link) for link in self.up_links(h)]
        )


EDITS = {
    name: edit
    for name, edit in list(globals().items())
    if isinstance(edit, type) and issubclass(edit, Model) and edit is not Model
}
