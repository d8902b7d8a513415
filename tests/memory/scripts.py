"""The scripts that are played without memory. They are written with the model of tests/model, which
knows links and digests."""

import os
from functools import cache

from frames import Discover, Down, Part, RowsJoin, RowsLeave, Sync, name_body, part_body
from owed import MOST_WAITING
from script import Script
from story import FLAGS, NODE, Story, row

# The node of `refusals`, which plays the same scripts.
NODE_2 = NODE._replace(links=2)
# Behind this line of a script allocations are refused, or in a script without it everywhere.
FROM_HERE = "# from here on without memory"


def begin_of(script):
    """How many lines of a script come before those whose allocations are refused."""
    return script.lines.index(FROM_HERE) if FROM_HERE in script.lines else 0


class Kept(Script):
    """On a node that forgets all that it can."""

    def arguments(self):
        return ["--keep", "0", *super().arguments()]


class Archived(Kept):
    """The same, with an archive."""

    def arguments(self):
        return ["--archive", os.devnull, *super().arguments()]

    def with_lines(self, lines):
        """A part of it has no archive, of which the most is written at its end."""
        return Kept(*self._replace(lines=lines))


def replaced_link():
    """A link that the same peer's next one replaces, which is lost later; both say rows."""
    story = Story()
    story.tell("start pg", "monitor_scope pg")
    first = story.accepted("a@h")
    story.message(first, Discover("pg"))
    story.message(first, Sync("pg", (row("g", "a@h", 1), row("h", "a@h", 2))))
    story.tell(f"take {first}", "members pg g")
    second = story.accepted("a@h", 5, 2)
    story.tell("members pg g", "updates 2", f"take {first}", f"take {second}")
    story.message(second, Sync("pg", (row("g", "a@h", 1, 2),)))
    story.message(first, Sync("pg", ()))
    story.tell("members pg g", "updates 2", f"lost {second}", "groups pg", "updates 2")
    return story.script("replaced_link")


def monitors():
    """Monitors of two seats and their updates, while own rows and those of a peer come and go."""
    story = Story()
    story.tell(
        "start pg",
        "spawn",
        "spawn",
        "join pg g b@h/1/1",
        "monitor pg g",
        "monitor_scope pg",
        "join pg g b@h/1/1 b@h/1/2",
        "join pg h b@h/1/2",
        "updates 5",
        "seat 1",
        "updates 6",
        "monitor pg h",
        "seat 0",
        "leave pg g b@h/1/1 b@h/1/1",
    )
    link = story.accepted("a@h")
    story.message(link, Sync("pg", (row("h", "a@h", 1), row("h", "a@h", 1))))
    story.message(link, RowsLeave("pg", (row("h", "a@h", 1),)))
    story.tell(
        "updates 6",
        "exit b@h/1/2",
        "seat 1",
        "updates 11",
        "demonitor 11",
        "updates 11",
        "seat 0",
        "updates 5",
        "updates 6",
        f"lost {link}",
        "updates 6",
        "stop pg",
        "updates 6",
    )
    return story.script("monitors")


def told_peers():
    """What two peers are told of own joins, leaves and exits, and of scopes that start and stop."""
    story = Story()
    story.tell("start pg", "start s", "spawn", "spawn")
    links = [story.accepted("a@h"), story.dialled("c@h")]
    for link in links:
        story.message(link, Discover("pg"))
        story.message(link, Sync("pg", ()))
    story.message(links[0], Discover("s"))
    story.tell(
        *(f"take {link}" for link in links),
        "join pg g b@h/1/1 b@h/1/2 b@h/1/2",
        "join s h b@h/1/2",
        "leave pg g b@h/1/2 b@h/1/2",
    )
    story.message(links[1], Down("pg"))
    story.tell(
        "join pg h b@h/1/2",
        "exit b@h/1/2",
        "start t",
        *(f"take {link}" for link in links),
        "stop pg",
        "stop s",
        *(f"take {link}" for link in links),
        "disconnect a@h",
        f"take {links[0]}",
    )
    return story.script("told_peers")


def rows_in_parts():
    """Messages of a peer of version 2 in parts, some of them refused or broken off, beside a peer
    of version 1; both are told."""
    story = Story(NODE_2)
    story.tell(
        "start pg", "start s", "spawn", "spawn", "join pg g b@h/1/1 b@h/1/2", "monitor_scope pg"
    )
    new, old = story.accepted("a@h", version=2), story.dialled("c@h")
    for link in new, old:
        story.message(link, Discover("pg"))
    one, two, three = (row("g", "a@h", number) for number in (1, 2, 3))
    say_parts(story, new, Sync, (one,), (two, two), (), (three,))
    story.message(old, Sync("pg", (row("g", "c@h", 1),)))
    story.tell("updates 6", "members pg g")
    say_parts(story, new, RowsJoin, (one,), (row("g", "z@h", 1),), (two,))
    say_parts(story, new, RowsJoin, (one, one), (two,))
    say_parts(story, new, RowsLeave, (one, two), (three, three), (three,))
    story.send(new, part_body(Part(Sync, "pg", 1, False, (three,))))
    story.message(new, Down("s"))
    say_parts(story, new, Sync, (two,), (one, one))
    story.send(new, part_body(Part(Sync, "pg", 1, False, (three,))))
    story.tell(
        "updates 6",
        "leave pg g b@h/1/1",
        "stop pg",
        "start pg",
        "join pg h b@h/1/2",
        f"take {new}",
        f"take {old}",
    )
    story.message(new, Discover("pg"))
    story.send(new, part_body(Part(Sync, "pg", 1, False, (three,))))
    again = story.accepted("a@h", 5, 2, version=2)
    say_parts(story, again, Sync, (row("g", "a@h", 1, 2),), (row("h", "a@h", 1, 2),))
    story.tell(
        "members pg g", "exit b@h/1/2", f"take {again}", f"lost {again}", "groups pg", "size"
    )
    return story.script("rows_in_parts")


def say_parts(story, link, kind, *rows):
    """A message of these parts, each of which is said at the place behind the last
    that was accepted."""
    number = 1
    for place, some in enumerate(rows, 1):
        number += (
            story.send(link, part_body(Part(kind, "pg", number, place == len(rows), some))) == "ok"
        )


def every_event():
    """All 24 kinds of events, and refusals that owe a frame."""
    story = Story()
    own_rows(story)
    first, second = rows_of_peers(story)
    story.tell(
        "members pg g",
        "local_members pg g",
        "groups pg",
        "local_groups pg",
        "updates 11",
        "leave pg g b@h/1/1",
        "exit b@h/1/2",
        "updates 12",
        f"take {first}",
        f"take {second}",
    )
    ended_links(story)
    story.message(first, Down("pg"))
    story.tell(
        "stop s",
        "updates 12",
        "stop pg",
        "restart",
        "spawn",
        "start pg",
        "join pg g b@h/2/1",
        "members pg g",
        "audit 1",
        "size",
    )
    return story.script("every_event")


def own_rows(story):
    """Cookies, names that are allowed, scopes, processes that join groups, and monitors."""
    story.tell(
        "cookie secret",
        "cookie_for c@h other",
        "allow a@h c@h z@h",
        "allow z@h",
        "start pg",
        "start s",
        "spawn",
        "spawn",
        "join pg g b@h/1/1 b@h/1/2",
        "join pg h b@h/1/1",
        "monitor pg g",
        "monitor_scope pg",
        "monitor pg h",
        "demonitor 13",
    )


def rows_of_peers(story):
    """A link that a@h opens and says rows on, and one that is dialled; answers their numbers."""
    first = story.accepted("a@h")
    story.message(first, Discover("pg"))
    story.message(first, Sync("pg", (row("g", "a@h", 1), row("w", "a@h", 2))))
    story.message(first, RowsJoin("pg", (row("g", "a@h", 1), row("g", "a@h", 3))))
    story.message(first, RowsLeave("pg", (row("g", "a@h", 1), row("g", "a@h", 9))))
    second = story.dialled("c@h")
    story.message(second, Discover("pg"))
    return first, second


def ended_links(story):
    """A stranger, a peer that dials while it is dialled, and the ends of these links and c@h's."""
    story.tell("dial z@h 3")
    dial = story.h.number
    stranger = story.accepted("stranger@h")
    story.say("opened", 4)
    simultaneous = story.h.number
    story.send(simultaneous, name_body(FLAGS, 1, "z@h"))
    story.tell(
        f"take {stranger}",
        f"take {simultaneous}",
        f"lost {dial}",
        f"lost {simultaneous}",
        "disconnect c@h",
    )


def fill(story, link, scopes, pids):
    """Lets processes exit that are in all scopes, and join, until no more frames may
    wait for a link."""
    while (free := MOST_WAITING - len(story.model.waiting(story.h, link))) > 0:
        story.say("exit", pids.pop()) if free >= len(scopes) else story.say(
            "join", "s0", "own", pids[0]
        )


@cache
def slow_ends():
    """Six links of peers with rows that take nothing: one more frame is too many for two of them at
    a leave, for one at a start, for one at a stop, and for two at an exit."""
    story, scopes = Story(), [f"s{number}" for number in range(16)]
    pids = [f"b@h/1/{number}" for number in range(1, 65)]
    story.tell(
        *(f"start {scope}" for scope in scopes), *("spawn" for _ in pids), "monitor_scope s0"
    )
    monitor, links = story.h.number, [story.accepted(f"p{number}@h") for number in range(6)]
    for number, link in enumerate(links):
        for scope in scopes:
            story.message(link, Discover(scope))
        story.message(link, Sync("s0", (row("g", f"p{number}@h", 1), row("h", f"p{number}@h", 1))))
    story.tell(*(f'join {scope} g {" ".join(pids)}' for scope in scopes))
    for ending in links[:2], links[2:3], links[3:4], links[4:]:
        # (each of these is a frame behind those before it)
        story.tell(*(f"take {link}" for link in ending), f"join s0 own {pids[0]}")
    fill(story, links[0], scopes, pids)
    story.tell(f"updates {monitor}", FROM_HERE)
    for call in f"leave s0 own {pids[0]}", "start t", "stop t", f"exit {pids[0]}":
        story.tell(call, "members s0 h", f"updates {monitor}")
    story.tell(*(f"take {link}" for link in links), "members s0 g", "size")
    return story.script("slow_ends")


def handed_out():
    """A page of entries that a monitor has held is handed out behind the last update."""
    story = Story()
    story.tell("start pg", "spawn", "monitor pg g", *["take 0"] * 365, FROM_HERE)
    for turn in range(3):
        story.tell(f"join pg g{turn} b@h/1/1", "join pg g b@h/1/1", "spawn")
    story.tell(
        "updates 3",
        "monitor pg h",
        "updates 3",
        "exit b@h/1/1",
        "updates 3",
        "groups pg",
        "take 0",
        "spawn",
        "audit 384",
        "size",
        "members pg g",
        "spawn",
        "updates 3",
    )
    return Archived(*story.script("handed_out"))


SCRIPTS = (replaced_link, monitors, told_peers, every_event, rows_in_parts)
