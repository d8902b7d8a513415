"""The bodies of frames: those of the handshake, and the messages of links. A reader answers None
where a body isn't its frame."""

from functools import lru_cache

from records import record

from texts import Pid, is_name, is_text, octets_of, text_of

# `version` is that of the link messages which the sender knows, 1 or 2.
Name = record("Name", "flags creation name version")
Challenge = record("Challenge", "flags challenge creation name version")
Reply = record("Reply", "challenge digest")
Ack = record("Ack", "digest")

Discover = record("Discover", "scope")
Sync = record("Sync", "scope rows")
RowsJoin = record("RowsJoin", "scope rows")
RowsLeave = record("RowsLeave", "scope rows")
Down = record("Down", "scope")
# What a body says is a Discover, a Down, or a part of a message with rows. The kind is that of the
# message that the parts make.
Part = record("Part", "kind scope number last rows")

STATUSES = ("ok", "ok_simultaneous", "nok", "not_allowed", "alive", "true", "false")
PUBLISHED, HANDSHAKE_23, DYNAMIC = 1 << 0, 1 << 24, 1 << 33
# How many rows a body may have, and so a message of version 1.
MOST_ROWS = 4096
# Behind the name of a Name or a Challenge: the sender knows version 2 of the link messages.
VERSION_2 = b"\x02"
KINDS = {Discover: b"D", Sync: b"S", RowsJoin: b"J", RowsLeave: b"L", Down: b"X"}


class Short(Exception):
    """A body ends within a field, or has a field that it may not have."""


class Reader:
    def __init__(self, body):
        self.body, self.place = body, 0

    def take(self, count):
        if len(self.body) - self.place < count:
            raise Short
        self.place += count
        return self.body[self.place - count : self.place]

    def number(self, width):
        return int.from_bytes(self.take(width), "big")

    def text(self, width):
        return text_of(self.take(self.number(width)))

    def limited(self, width, is_within):
        text = self.text(width)
        if not is_within(text):
            raise Short
        return text

    def kind(self, octet):
        if self.take(1) != octet:
            raise Short

    def rest(self):
        return self.take(len(self.body) - self.place)

    def end(self):
        if self.rest():
            raise Short


def reads(read):
    """A reader of bodies: what it reads, or None. The last readings are kept, since definitions ask
    for them again and again."""

    @lru_cache(maxsize=1024)
    def of(body):
        try:
            return read(Reader(body))
        except Short:
            return None

    return of


def read_version(reader):
    """What any bytes behind a name say."""
    return 2 if reader.rest() == VERSION_2 else 1


@reads
def read_name(reader):
    reader.kind(b"N")
    return Name(reader.number(8), reader.number(4), reader.text(2), read_version(reader))


@reads
def read_challenge(reader):
    reader.kind(b"N")
    return Challenge(
        reader.number(8), reader.number(4), reader.number(4), reader.text(2), read_version(reader)
    )


@reads
def read_reply(reader):
    reader.kind(b"r")
    reply = Reply(reader.number(4), reader.take(16))
    reader.end()
    return reply


@reads
def read_ack(reader):
    reader.kind(b"a")
    ack = Ack(reader.take(16))
    reader.end()
    return ack


def read_status(body):
    word = text_of(body[1:])
    return word if body[:1] == b"s" and word in STATUSES else None


def read_row(reader):
    group = reader.limited(1, is_text)
    name = reader.limited(2, is_name)
    return group, Pid(name, reader.number(4), reader.number(8))


def read_rows(reader, least):
    count = reader.number(4)
    if not least <= count <= MOST_ROWS:
        raise Short
    return tuple(read_row(reader) for _ in range(count))


def read_place(reader):
    """The number of a part, and whether it is the last one."""
    number, last = reader.number(4), reader.number(1)
    if number == 0 or last > 1:
        raise Short
    return number, bool(last)


def read_said(reader, read_place):
    """What a body says, where this reads the place of a part in its message."""
    octet = reader.take(1)
    scope = reader.limited(1, is_text)
    kind = next((kind for kind, of_kind in KINDS.items() if of_kind == octet), None)
    match kind:
        case None:
            raise Short
        case _ if kind in (Discover, Down):
            said = kind(scope)
        case _:
            said = Part(
                kind, scope, *read_place(reader), read_rows(reader, 0 if kind is Sync else 1)
            )
    reader.end()
    return said


@reads
def read_message(reader):
    """What a body of version 1 says: a message with rows is one part, the first and the last."""
    return read_said(reader, lambda _: (1, True))


@reads
def read_part(reader):
    """What a body of version 2 says."""
    return read_said(reader, read_place)


READ_SAID = {1: read_message, 2: read_part}


def counted(text, width):
    return len(text).to_bytes(width, "big") + octets_of(text)


def version_body(version):
    return VERSION_2 if version == 2 else b""


def name_body(flags, creation, name, version=1):
    return (
        b"N"
        + flags.to_bytes(8, "big")
        + creation.to_bytes(4, "big")
        + counted(name, 2)
        + version_body(version)
    )


def challenge_body(flags, challenge, creation, name, version=1):
    numbers = flags.to_bytes(8, "big") + challenge.to_bytes(4, "big") + creation.to_bytes(4, "big")
    return b"N" + numbers + counted(name, 2) + version_body(version)


def status_body(word):
    return b"s" + octets_of(word)


def reply_body(challenge, digest):
    return b"r" + challenge.to_bytes(4, "big") + digest


def ack_body(digest):
    return b"a" + digest


def row_body(row):
    group, pid = row
    return (
        counted(group, 1)
        + counted(pid.name, 2)
        + pid.creation.to_bytes(4, "big")
        + pid.number.to_bytes(8, "big")
    )


def rows_body(rows):
    return len(rows).to_bytes(4, "big") + b"".join(row_body(row) for row in rows)


def message_body(message):
    body = KINDS[type(message)] + counted(message.scope, 1)
    return body if isinstance(message, (Discover, Down)) else body + rows_body(message.rows)


def part_body(part):
    place = part.number.to_bytes(4, "big") + bytes([part.last])
    return KINDS[part.kind] + counted(part.scope, 1) + place + rows_body(part.rows)


def parts_of(message):
    """A message with rows in parts, each but the last one full. One of no rows is one part."""
    starts = range(0, max(1, len(message.rows)), MOST_ROWS)
    return [
        Part(
            type(message),
            message.scope,
            number,
            number == len(starts),
            message.rows[start : start + MOST_ROWS],
        )
        for number, start in enumerate(starts, 1)
    ]


def bodies_of(version, message):
    """The bodies that say a message on a link of this version."""
    if version == 1 or isinstance(message, (Discover, Down)):
        return [message_body(message)]
    return [part_body(part) for part in parts_of(message)]
