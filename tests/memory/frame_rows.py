"""What the readers, the decoders and the writers of frames answer, by the page of formats: a row
for each deed of the part `frames`."""

TEXT, BAD_TEXT, COPY, DONE = "Text(Ok(()))", "Text(Err({}))", "Copied(true)", "Done"


def bytes_text(octets):
    return "[" + ", ".join(str(octet) for octet in octets) + "]"


def name_text(octets):
    return f'{{ text: Text {{ text: "{octets.decode()}" }} }}'


def pid(name, number):
    return f"Pid {{ node: NodeName {name_text(name)}, creation: 1, number: {number} }}"


def shared(*pids):
    return "Shared { items: [" + ", ".join(pids) + "] }"


def fed(used, body=None):
    found = "None" if body is None else f"Some(Body {{ bytes: {bytes_text(body)} }})"
    return f"Fed(Fed {{ used: {used}, body: {found} }})"


def scope_text(scope):
    return f"Scope {name_text(scope)}"


def rows_text(group, pid_text):
    """The text of one row as a list."""
    row = f"Row {{ group: Group {name_text(group)}, pid: {pid_text} }}"
    return f"Items {{ items: [{row}] }}"


def join_read(scope, rows):
    return f"Read(Join({scope_text(scope)}, {rows}))"


def part_read(kind, scope, number, last, rows):
    return (
        f"ReadPart(Part {{ kind: {kind}, scope: {scope_text(scope)}, number: {number},"
        f" last: {last}, rows: {rows} }})"
    )


def row_body(number):
    """A row of the group g, behind the count of 1."""
    return b"\0\0\0\1\1g\0\3a@h\0\0\0\1" + number.to_bytes(8, "big")


LEAVE = b"L\2pg" + row_body(7)
LEAVE_PART = b"L\2pg\0\0\0\1\1" + row_body(7)
NEXT_PART = b"J\2pg\0\0\0\2\1" + row_body(8)


# The answer to each deed; and what has been written behind the last ones.
ANSWERS = [
    TEXT,
    BAD_TEXT.format("BadAt"),
    TEXT,
    TEXT,
    BAD_TEXT.format("Empty"),
    TEXT,
    f'Shared({shared(pid(b"a@h", 1), pid(b"a@h", 2))}, {shared(pid(b"a@h", 1), pid(b"a@h", 2))})',
    COPY,
    COPY,
    COPY,
    COPY,
    # Lengths of 2 bytes: no more than one body a piece.
    fed(1),
    fed(3),
    fed(1, b"sok"),
    fed(3, b"x"),
    fed(0),
    # Lengths of 4 bytes, with ticks between bodies; after one that is too long there are no more.
    fed(7),
    fed(3),
    fed(2, b"D\2pg"),
    fed(5),
    fed(7, b"X\2pg"),
    "NotFed(TooLong)",
    "NotFed(TooLong)",
    "NotRead(BadFrame)",
    join_read(b"pg", rows_text(b"g", pid(b"a@h", 7))),
    # Parts: each is taken back to what was kept before it.
    part_read("Join", b"pg", 2, "true", rows_text(b"g", pid(b"a@h", 8))),
    "NotRead(BadFrame)",
    "Gathered(1)",
    "TakenBack(2, 1)",
    "Gathered(2)",
    "TakenBack(1, 2)",
    f"Cut([Body {{ bytes: {bytes_text(LEAVE_PART)} }}])",
    DONE,
    DONE,
    DONE,
    DONE,
    DONE,
]
WRITTEN = [b"D\2pg", LEAVE, b"snot_allowed", b"\0\0\0\4D\2pg", NEXT_PART]


def written_at(number):
    """What has been written behind the deed of that number, from 1, in hexadecimal."""
    return b"".join(WRITTEN[: max(0, number - (len(ANSWERS) - len(WRITTEN)))]).hex()
