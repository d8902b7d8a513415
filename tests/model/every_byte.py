"""Each frame and message cut, followed by a byte, changed in each byte and at random, where the
right one would be accepted."""

from random import Random

from frames import (
    VERSION_2,
    Discover,
    Down,
    Part,
    RowsJoin,
    RowsLeave,
    Sync,
    ack_body,
    challenge_body,
    message_body,
    name_body,
    part_body,
    read_part,
    reply_body,
    status_body,
)
from records import record
from story import FLAGS, NODE, Story, row

MOST_TRIES = 60
PEER = "a@h"
BASE = Sync("pg", (row("g", PEER, 1), row("g", PEER, 1), row("h", PEER, 2)))

RANDOM_TRIES = 40

# A place where bodies are tried: what goes before all tries, what goes before each and answers the
# link, and the body that is right, or would be on a link of the other version; and the version that
# the node knows.
Place = record("Place", "title before ready body is_other links", defaults=[False, 1])


def beginnings(body):
    return [body[:length] for length in range(1, len(body))]


def with_a_byte_behind(body):
    return [body[:length] + b"\0" for length in range(len(body) + 1)]


def with_another_byte(body):
    return [
        body[:place] + bytes([value]) + body[place + 1 :]
        for place, old in enumerate(body)
        for value in sorted({0, 255, (old + 1) % 256, (old - 1) % 256} - {old})
    ]


def changed_parts(body):
    """How many bodies that differ from a part in one byte are messages of version 2.
    crates/unit_tests has these counts of its parts."""
    return sum(read_part(changed) is not None for changed in with_another_byte(body))


def with_any_first_byte(body):
    return [bytes([first]) + rest for first in range(256) for rest in (b"", body[1:])]


def at_random(rng, body):
    """A part left out, said twice, put elsewhere, or replaced."""
    first, behind = sorted(rng.sample(range(len(body) + 1), 2))
    part, place = body[first:behind], rng.randrange(len(body))
    return (
        rng.choice(
            (
                body[:first] + body[behind:],
                body[:behind] + part + body[behind:],
                body[:place] + part + body[place:],
                body[:first] + bytes(rng.randrange(256) for _ in part) + body[behind:],
            )
        )
        or b"\0"
    )


def tries_of(rng, place):
    body = place.body
    bodies = [body] + beginnings(body) + with_a_byte_behind(body) + with_another_byte(body)
    bodies += [at_random(rng, body) for _ in range(RANDOM_TRIES)] + STRANGE.get(place.title, [])
    return bodies


def must_be_bad(place):
    """The bodies that spell nothing, whatever the rest is: each beginning, and the whole with a
    byte behind it, but for frames that end with any bytes, which may say a version. One beginning
    of a status is another status. A message of the other version is none."""
    if place.title.startswith(("Name", "Challenge")):
        return set(beginnings(place.body.removesuffix(VERSION_2)))
    whole = [place.body] if place.is_other else []
    return set(beginnings(place.body) + whole + [place.body + b"\0"]) - {status_body("ok")}


def nothing(story):
    pass


def peer_is_up(story):
    story.accepted(PEER)


def allowed_peer_is_up(story):
    story.say("allow", PEER)
    peer_is_up(story)


def rows_are_heard(story, version=1):
    story.tell("start pg", "spawn", "join pg g b@h/1/1", "monitor_scope pg")
    link = story.accepted(PEER, version=version)
    story.message(link, Discover("pg"))
    story.say("take", link)


def rows_are_heard_of_version_2(story):
    """The link is of version 2 where the node knows it."""
    rows_are_heard(story, 2)


def awaits_name(story):
    return story.opens()


def awaits_name_while_dialling(story):
    story.dials(PEER)
    return story.opens()


def awaits_answer(story):
    link = story.opens()
    story.send(link, name_body(FLAGS, 1, PEER))
    return link


awaits_reply = awaits_answer


def awaits_status(story):
    return story.dials(PEER, 9)


def awaits_challenge(story):
    link = story.dials(PEER, 9)
    story.send(link, status_body("ok"))
    return link


def awaits_ack(story):
    link = awaits_challenge(story)
    story.send(link, challenge_body(FLAGS, 3, 1, PEER))
    return link


def heard(story):
    """The link that is up, of which the rows are those of the beginning."""
    (link,) = story.model.up_links(story.h)
    story.message(link, BASE)
    story.say("updates", 4)
    return link


def begun(part):
    """Rows are heard, and this part of a message has come."""

    def ready(story):
        link = heard(story)
        story.send(link, part_body(part))
        return link

    return ready


def right_digest(awaited):
    story = Story()
    return story.own_digest(awaited(story))


MESSAGES = (
    Discover("pg"),
    Down("pg"),
    Sync("pg", ()),
    BASE,
    RowsJoin("pg", (row("w", PEER, 3), row("g", PEER, 1))),
    RowsLeave("pg", (row("g", PEER, 1), row("h", PEER, 2))),
)
# Parts of messages, by a title; those that aren't the first one stand behind the part that
# they go on with.
PARTS = {
    "part of no rows": Part(Sync, "pg", 1, True, ()),
    "part of a Sync": Part(Sync, "pg", 1, False, (row("g", PEER, 1), row("h", PEER, 2))),
    "part of a Join": Part(RowsJoin, "pg", 2, True, (row("w", PEER, 3),)),
    "part of a Leave": Part(RowsLeave, "pg", 1, True, (row("g", PEER, 1),)),
    "second part of a Sync": Part(Sync, "pg", 2, True, ()),
    "second part of a Leave": Part(RowsLeave, "pg", 2, True, (row("g", PEER, 1),)),
}

PLACES = (
    [
        Place("Name", nothing, awaits_name, name_body(FLAGS, 1, PEER)),
        Place("Name of version 2", nothing, awaits_name, name_body(FLAGS, 1, PEER) + VERSION_2),
        Place(
            "Name of an allowed peer that is up",
            allowed_peer_is_up,
            awaits_name,
            name_body(FLAGS, 1, PEER),
        ),
        Place(
            "Name of a lesser peer that is dialled",
            nothing,
            awaits_name_while_dialling,
            name_body(FLAGS, 1, PEER),
        ),
        Place("answer to alive", peer_is_up, awaits_answer, status_body("true")),
        Place("Reply", nothing, awaits_reply, reply_body(1, right_digest(awaits_reply))),
        Place("status ok", nothing, awaits_status, status_body("ok")),
        Place("status ok_simultaneous", nothing, awaits_status, status_body("ok_simultaneous")),
        Place("status not_allowed", nothing, awaits_status, status_body("not_allowed")),
        Place("status alive", nothing, awaits_status, status_body("alive")),
        Place("Challenge", nothing, awaits_challenge, challenge_body(FLAGS, 3, 1, PEER)),
        Place(
            "Challenge of version 2",
            nothing,
            awaits_challenge,
            challenge_body(FLAGS, 3, 1, PEER) + VERSION_2,
        ),
        Place("Ack", nothing, awaits_ack, ack_body(right_digest(awaits_ack))),
        Place(
            "Name to a node of version 2",
            nothing,
            awaits_name,
            name_body(FLAGS, 1, PEER, 2),
            links=2,
        ),
        Place(
            "Challenge to a node of version 2",
            nothing,
            awaits_challenge,
            challenge_body(FLAGS, 3, 1, PEER, 2),
            links=2,
        ),
    ]
    + [
        Place(type(message).__name__, rows_are_heard, heard, message_body(message))
        for message in MESSAGES
    ]
    + [
        Place(
            f"{title} in version 1",
            rows_are_heard_of_version_2,
            heard,
            part_body(part),
            is_other=True,
        )
        for title, part in PARTS.items()
    ]
    + [
        Place(
            title,
            rows_are_heard_of_version_2,
            heard if part.number == 1 else begun(part._replace(number=1, last=False)),
            part_body(part),
            links=2,
        )
        for title, part in PARTS.items()
    ]
    + [
        Place(
            f"{type(message).__name__} of version 1",
            rows_are_heard_of_version_2,
            heard,
            message_body(message),
            is_other=not isinstance(message, (Discover, Down)),
            links=2,
        )
        for message in MESSAGES
    ]
)


def long_row(name_length, place=b""):
    name = "n@" + "h" * (name_length - 2)
    return (
        b"S\x02pg"
        + place
        + b"\0\0\0\1\x01g"
        + name_length.to_bytes(2, "big")
        + name.encode()
        + bytes(12)
    )


def strange_rows(place):
    """Syncs with rows that are too long or too many, behind this place of a part."""
    return [long_row(length, place) for length in (255, 256, 257)] + [
        b"S\x02pg" + place + count + rows
        for count in (b"\0\0\x10\x01", b"\0\0\x10\0", b"\xff\xff\xff\xff", b"\0\0\0\1")
        for rows in (b"", b"\x01g\0\x03a@h" + bytes(12))
    ]


# Bodies that no small change of the right one gives.
STRANGE = {
    "Name": with_any_first_byte(PLACES[0].body)
    + [
        name_body(FLAGS, 1, name)
        for name in ("n@" + "h" * 253, "n@" + "h" * 254, "n@" + "h" * 65_533, "@", "", "a@@h")
    ]
    + [
        name_body(FLAGS, 1, PEER) + bytes(70_000),
        name_body((1 << 64) - 1, 1, PEER),
        name_body(1 << 33, 1, PEER),
    ],
    "Challenge": [
        challenge_body(flags, 3, 1, name)
        for flags in (FLAGS, 0, (1 << 64) - 1)
        for name in ("n@" + "h" * 254, "n@" + "h" * 65_533, "", "b@h", PEER)
    ]
    + [challenge_body(FLAGS, 3, 1, PEER) + bytes(70_000)],
    "Discover": with_any_first_byte(b"D\x02pg")
    + [b"D\xff" + b"s" * 255, b"D\xff" + b"s" * 254, b"D\x03p\x80g", b"D\x03p g", b"D\0"],
    "Sync": strange_rows(b""),
    "RowsJoin": [b"J\x02pg" + bytes(4), b"L\x02pg" + bytes(4)],
    "part of a Sync": strange_rows(b"\0\0\0\1\1")
    + [
        b"S\x02pg" + number + last + bytes(4)
        for number in (bytes(4), b"\0\0\0\1", b"\xff" * 4)
        for last in (b"\0", b"\1", b"\2", b"")
    ],
    "part of a Leave": [kind + b"\x02pg\0\0\0\1\1" + bytes(4) for kind in (b"J", b"L")],
}


def end_of_try(story, link):
    """Shows what the body has changed, and gives up a link of its own."""
    story.say("take", link)
    if story.model.is_running(story.h, "pg"):
        story.tell("updates 4", "members pg g")
    else:
        story.say("lost", link)


# A script, how many bodies it tries, and those that ought to have been BadFrame and were not.
Tries = record("Tries", "script bodies not_bad")


def script_of(place, part, bodies):
    story, must, not_bad = Story(NODE._replace(links=place.links)), must_be_bad(place), []
    place.before(story)
    for body in bodies:
        link = place.ready(story)
        if story.send(link, body) != "refused 3 BadFrame" and body in must:
            not_bad.append(body.hex())
        end_of_try(story, link)
    return Tries(story.script(f"{place.title} by bytes, part {part}"), len(bodies), not_bad)


def all_tries(seed):
    """A script for each few bodies of each place."""
    for place in PLACES:
        bodies = tries_of(Random(f"{seed}/{place.title}"), place)
        for part, first in enumerate(range(0, len(bodies), MOST_TRIES)):
            yield script_of(place, part, bodies[first : first + MOST_TRIES])
