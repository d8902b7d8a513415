"""Links whose reader or writer fails: what comes on them or is owed to them, and what their workers
do then, by the pages of FORMATS and of node_threads. What each frame is answered is asked of the
model of tests/model."""

from console import is_silent
from frames import (
    Discover,
    Down,
    Part,
    RowsJoin,
    RowsLeave,
    Sync,
    challenge_body,
    message_body,
    name_body,
    part_body,
    reply_body,
    status_body,
)
from records import record
from scripts import NODE_2
from story import FLAGS, Story, row
from texts import digest_of

# What a link has behind a script: for a reader the bytes that come, for a writer those
# that are owed.
Scene = record("Scene", "title story link octets")
MOST_BODY = 4_194_304


def wide(body):
    return len(body).to_bytes(4, "big") + body


def narrow(body):
    return len(body).to_bytes(2, "big") + body


def opened(*lines):
    story = Story(NODE_2)
    story.tell("start pg", *lines)
    return story, story.opens()


def handshake(name="a@h", cookie="password", version=1):
    return narrow(name_body(FLAGS, 1, name, version)) + narrow(reply_body(1, digest_of(cookie, 7)))


def exchange():
    """Messages of each kind, a body that is none, and ticks between them."""
    said = (
        Discover("pg"),
        Sync("pg", (row("g", "a@h", 1),)),
        RowsJoin("pg", (row("g", "a@h", 2),)),
        RowsLeave("pg", (row("g", "a@h", 1),)),
    )
    return b"\0\0\0\0".join(map(wide, [*map(message_body, said), b"?", message_body(Down("pg"))]))


def whole_link():
    story, link = opened()
    return Scene("whole_link", story, link, handshake() + exchange())


def parts():
    """A Sync, a Join and a Leave in two parts each, one of them broken off."""
    rows = [(row("g", "a@h", number),) for number in (1, 2)]
    said = [
        Part(kind, "pg", number, number == 2, rows[number - 1])
        for kind in (Sync, RowsJoin, RowsLeave)
        for number in (1, 2)
    ]
    return (
        b"".join(wide(part_body(part)) for part in said + said[:1])
        + wide(message_body(Discover("pg")))
        + wide(part_body(said[1]))
    )


def link_of_version_2():
    story, link = opened()
    return Scene("link_of_version_2", story, link, handshake(version=2) + parts())


def wrong_digest():
    story, link = opened()
    return Scene("wrong_digest", story, link, handshake(cookie="another") + exchange())


def too_long():
    """A link of which the last frame says that it is longer than any may be."""
    story, link = opened()
    return Scene(
        "too_long",
        story,
        link,
        handshake()
        + wide(message_body(Discover("pg")))
        + (MOST_BODY + 1).to_bytes(4, "big")
        + b"D",
    )


def lost_before():
    story, link = opened()
    story.say("lost", link)
    return Scene("lost_before", story, link, handshake())


READS = (whole_link, link_of_version_2, wrong_digest, too_long, lost_before)


def told_link():
    """A link that is up, to which all of its handshake and two messages are owed."""
    story, link = opened("spawn", "join pg g b@h/1/1")
    story.send(link, name_body(FLAGS, 1, "a@h"))
    story.send(link, reply_body(1, digest_of("password", 7)))
    story.message(link, Discover("pg"))
    return Scene("told_link", story, link, owed_octets(story, link))


def refused_dial():
    """A dialled link that a wrong digest has ended. Behind its last byte the link is gone, which
    one byte more shows."""
    story = Story(NODE_2)
    link = story.dials("a@h")
    for body in (status_body("ok"), challenge_body(FLAGS, 9, 1, "a@h"), b"a" + bytes(16)):
        story.send(link, body)
    return Scene("refused_dial", story, link, owed_octets(story, link) + b"?")


WRITES = (told_link, refused_dial)


def owed_octets(story, link):
    bodies = [
        bytes.fromhex(word) for word in console_behind(story).play(f"take {link}").split(" ")[1:]
    ]
    return b"".join(
        (wide if body[:1] in (b"D", b"S", b"J", b"L", b"X") else narrow)(body) for body in bodies
    )


def console_behind(story):
    """A console of its own that has played the lines of the story."""
    return story.script("").played()


def text_of(scene):
    """What the program is given: the link with its bytes, and the script."""
    lines = [
        f"frame {scene.link} {scene.octets.hex()}",
        *(line for line in scene.story.lines if not is_silent(line)),
    ]
    return "\n".join(lines) + "\n"


def judged(answer):
    """An answer as the program prints that of a worker's call."""
    word, *words = answer.split(" ")
    return f"refused {words[0]}" if word == "refused" else word if word == "up" else "ok"


class Reading:
    """A reader that gets so many of the bytes of a scene: what it calls, and why it stops."""

    def __init__(self, scene, count):
        self.console, self.link, self.calls = console_behind(scene.story), scene.link, []
        self.octets, self.place, self.is_up = scene.octets[:count], 0, False
        self.end = self.early_end() or ("Closed" if count > len(scene.octets) else "ReadFault")
        if self.end in ("Closed", "ReadFault", "TooLong"):
            self.calls.append("Lost " + judged(self.console.play(f"lost {self.link}")))

    def early_end(self):
        """How the link ends before its bytes do, which are cut there; None where it doesn't."""
        while (start := self.place + (4 if self.is_up else 2)) <= len(self.octets):
            length = int.from_bytes(self.octets[self.place : start], "big")
            if length > MOST_BODY:
                self.octets = self.octets[:start]
                return "TooLong"
            if start + length > len(self.octets):
                return None
            self.place = start + length
            if (length or not self.is_up) and (
                end := self.frame_end(self.octets[start : self.place])
            ):
                self.octets = self.octets[: self.place]
                return end
        return None

    def frame_end(self, body):
        answer = self.console.play(f"frame {self.link} {body.hex()}")
        self.calls.append(f"Frame {body.hex()} {judged(answer)}")
        if answer.startswith("refused 2 "):
            return "Gone"
        if answer.startswith("refused ") and not self.is_up:
            return f'Refused({answer.split(" ")[2]})'
        self.is_up |= answer.startswith("up ")
        return None

    def line(self):
        return "; ".join([f"read {len(self.octets)} {self.end}", *self.calls])


def written_line(scene, count):
    """What a writer does whose write behind so many bytes fails."""
    console = console_behind(scene.story)
    wire = owed_octets(scene.story, scene.link)
    calls = ["Take " + judged(console.play(f"take {scene.link}"))]
    end, last = (
        ("WriteFault", f"lost {scene.link}")
        if count < len(wire)
        else ("Gone", f"take {scene.link}")
    )
    calls.append(f'{last.split(" ")[0].title()} {judged(console.play(last))}')
    return "; ".join(
        [f"written {min(count, len(wire))} {end}", *calls, f"{wire[:count].hex()} hung up late 0"]
    )
