"""Scripts that meet a limit and pass it by one."""

from frames import (
    HANDSHAKE_23,
    MOST_ROWS,
    PUBLISHED,
    Discover,
    Down,
    Part,
    RowsJoin,
    RowsLeave,
    Sync,
    ack_body,
    bodies_of,
    challenge_body,
    message_body,
    name_body,
    part_body,
    reply_body,
)
from history import Opening
from peers import Peers
from script import MOST_ENTRIES
from texts import Pid, digest_of

NODE = Opening("b@h", "password", False, 1, MOST_ENTRIES)
NODE_2 = NODE._replace(links=2)
FLAGS = HANDSHAKE_23 | PUBLISHED


def bring_up(writer, name, creation=1, version=1):
    """A link that a peer opens and that comes up; answers its number. The peer
    knows that version."""
    link = int(writer.say("opened", 7).split()[1])
    writer.say("frame", link, name_body(FLAGS, creation, name, version).hex())
    writer.say("frame", link, reply_body(1, digest_of("password", 7)).hex())
    return link


def links_full(rng, title):
    writer = Peers(rng, NODE)
    for _ in range(62):
        writer.say("opened", rng.randrange(1 << 32))
    writer.say("dial", "a@h", 1)
    # refused before its side is whole, with a frame that waits: it is kept
    link = int(writer.say("dial", "c@h", 1).split()[1])
    writer.say("frame", link, "00")
    for line in (
        "dial d@h 1",
        "opened 1",
        "dial a@h 1",
        f"take {link}",
        "opened 1",
        "dial d@h 1",
        "lost 3",
        "dial d@h 1",
        "restart",
        "opened 1",
    ):
        writer.say(line)
    return writer.script(title)


def scopes_full(rng, title):
    writer = Peers(rng, NODE)
    for number in range(64):
        writer.say("start", f"s{number}")
    for line in (
        "start s64",
        "start s0",
        "stop s7",
        "start s64",
        "start s7",
        "members s7 g",
        "restart",
        "start s7",
    ):
        writer.say(line)
    link = bring_up(writer, "a@h")
    writer.say("take", link)
    return writer.script(title)


def allow_full(rng, title):
    writer = Peers(rng, NODE)
    names = [f"n{number}@h" for number in range(1025)]
    writer.say("allow", *names)
    writer.say("allow", *names[:600], *names[:600])
    writer.say("allow", *names[500:1024])
    writer.say("allow", names[1024])
    writer.say("allow", *names[:1024])
    for line in (
        "allow",
        f"dial {names[1024]} 1",
        f"dial {names[1023]} 1",
        "restart",
        f"dial {names[1024]} 1",
        f"allow {names[1024]}",
    ):
        writer.say(line)
    return writer.script(title)


def cookies_full(rng, title):
    writer = Peers(rng, NODE)
    writer.say("cookie_for", "b@h", "own")
    for number in range(1024):
        writer.say("cookie_for", f"n{number}@h", "k")
    for line in (
        "cookie_for n1024@h k",
        "cookie_for n1023@h l",
        "cookie_for b@h m",
        "restart",
        "cookie_for n1024@h k",
    ):
        writer.say(line)
    return writer.script(title)


def pids_full(rng, title):
    writer = Peers(rng, NODE)
    for _ in range(65_537):
        writer.say("spawn")
    for line in (
        "exit b@h/1/65537",
        "exit b@h/1/9",
        "spawn",
        "spawn",
        "exit b@h/1/65537",
        "start pg",
        "join pg g b@h/1/65536",
        "restart",
        "spawn",
    ):
        writer.say(line)
    return writer.script(title)


def own_rows_full(rng, title):
    writer = Peers(rng, NODE)
    for line in ("start pg", "spawn", "spawn"):
        writer.say(line)
    writer.say("join pg g", *["b@h/1/1"] * 4097)
    writer.say("join pg g", *["b@h/1/1"] * 4000)
    writer.say("join pg h", *["b@h/1/2"] * 97)
    writer.say("join pg h", *["b@h/1/2"] * 96)
    link = bring_up(writer, "a@h")
    writer.say("frame", link, b"D\x02pg".hex())
    for line in (
        f"take {link}",
        "join pg g b@h/1/1",
        "join pg g",
        "exit b@h/1/2",
        "join pg g b@h/1/1",
        f"take {link}",
        "local_groups pg",
    ):
        writer.say(line)
    return writer.script(title)


def peer_rows_full(rng, title):
    writer = Peers(rng, NODE)
    writer.say("start pg")
    link = bring_up(writer, "a@h")
    row = ("g", Pid("a@h", 1, 1))
    for message in (
        Sync("pg", (row,) * 4096),
        RowsJoin("pg", (row,)),
        Sync("pg", (row,) * 4095),
        RowsJoin("pg", (row,) * 2),
        RowsJoin("pg", (row,)),
    ):
        writer.say("frame", link, message_body(message).hex())
    writer.say("frame", link, (b"S\x02pg" + (4097).to_bytes(4, "big") + b"").hex())
    other = bring_up(writer, "c@h")
    writer.say("frame", other, message_body(Sync("pg", (("g", Pid("c@h", 1, 1)),))).hex())
    writer.say("groups", "pg")
    return writer.script(title)


def send(writer, link, message):
    for body in bodies_of(writer.model.version(writer.h, link), message):
        writer.say("frame", link, body.hex())


def more_rows_than_a_frame_has(rng, title):
    """4,097 rows are told and heard on a link of version 2, and not on one of version 1."""
    writer = Peers(rng, NODE_2)
    for line in (
        "start pg",
        "start s",
        "spawn",
        "join pg g" + " b@h/1/1" * (MOST_ROWS + 1),
        "join s g b@h/1/1",
    ):
        writer.say(line)
    old, new = bring_up(writer, "a@h"), bring_up(writer, "c@h", version=2)
    for link in old, new:
        send(writer, link, Discover("pg"))
        rows = (("g", Pid(writer.model.peer_of(writer.h, link), 1, 1)),) * MOST_ROWS
        send(writer, link, Sync("pg", rows))
        send(writer, link, RowsJoin("pg", rows[:1]))
    for line in ("groups pg", f"take {old}", f"take {new}", "leave pg g b@h/1/1"):
        writer.say(line)
    send(writer, old, Discover("pg"))
    for line in (
        "join pg g b@h/1/1",
        "join s g" + " b@h/1/1" * MOST_ROWS,
        "exit b@h/1/1",
        f"take {old}",
        f"take {new}",
    ):
        writer.say(line)
    return writer.script(title)


def own_rows_full_in_parts(rng, title):
    """65,536 own rows, of which no link of version 1 can be told; one of version 2 is, in parts."""
    writer = Peers(rng, NODE_2)
    for line in ("start pg", "spawn", "spawn"):
        writer.say(line)
    writer.say("join pg g", *["b@h/1/1"] * 65_537)
    writer.say("join pg g", *["b@h/1/1"] * 4096)
    old, new = bring_up(writer, "a@h"), bring_up(writer, "c@h", version=2)
    send(writer, old, Discover("pg"))
    send(writer, new, Discover("pg"))
    writer.say("join pg h b@h/1/2")
    send(writer, old, Down("pg"))
    writer.say("join pg h", *["b@h/1/2"] * 61_440)
    for line in (
        "join pg h b@h/1/2",
        f"take {old}",
        f"take {new}",
        "leave pg g b@h/1/1",
        "join pg h b@h/1/2",
        f"take {new}",
    ):
        writer.say(line)
    send(writer, old, Discover("pg"))
    writer.say("exit b@h/1/2")
    send(writer, old, Discover("pg"))
    for line in (
        f"take {old}",
        f"take {new}",
        "leave pg g b@h/1/1",
        f"lost {old}",
        "join pg g" + " b@h/1/1" * 2,
        f"take {new}",
    ):
        writer.say(line)
    return writer.script(title)


def peer_rows_full_in_parts(rng, title):
    """65,536 rows of a peer, and a message of more than that. Those of one behind a link of
    version 1 stay few."""
    writer = Peers(rng, NODE_2)
    for line in ("start pg", "start s"):
        writer.say(line)
    link, old = bring_up(writer, "a@h", version=2), bring_up(writer, "c@h")
    rows, other = (("g", Pid("a@h", 1, 1)),) * 65_536, (("h", Pid("a@h", 1, 2)),)
    send(writer, link, Sync("pg", rows + other))
    writer.say("groups", "pg")
    send(writer, link, Sync("pg", rows))
    send(writer, link, RowsJoin("pg", other))
    send(writer, link, RowsLeave("pg", rows[:8193]))
    send(writer, link, RowsJoin("pg", other * 8194))
    send(writer, link, RowsJoin("pg", other * 8193))
    send(writer, link, RowsLeave("pg", other * 8194))
    send(writer, link, Sync("s", other * 4097))
    send(writer, old, Sync("pg", (("h", Pid("c@h", 1, 1)),) * 4096))
    send(writer, old, RowsJoin("pg", (("h", Pid("c@h", 1, 1)),)))
    for line in ("members pg h", "groups s", "disconnect a@h", "members pg h"):
        writer.say(line)
    return writer.script(title)


def parts_of_no_rows(rng, title):
    """Parts of a Sync that have no rows, up to the greatest number that a part has had here; and
    one behind the greatest there is."""
    writer = Peers(rng, NODE_2)
    writer.say("start pg")
    link = bring_up(writer, "a@h", version=2)
    for number in range(1, 300):
        writer.say("frame", link, part_body(Part(Sync, "pg", number, False, ())).hex())
    row = ("g", Pid("a@h", 1, 1))
    for number, last in ((4_294_967_295, True), (301, True), (300, True), (300, True)):
        writer.say("frame", link, part_body(Part(Sync, "pg", number, last, (row,))).hex())
    writer.say("members pg g")
    return writer.script(title)


def slow_by_parts(rng, title):
    """Each part counts among the frames that wait: a Discover is owed three of them, and is one too
    many, or just not."""
    writer = Peers(rng, NODE_2)
    for line in ("start pg", "spawn", "join pg g" + " b@h/1/1" * (2 * MOST_ROWS + 1)):
        writer.say(line)
    links = [bring_up(writer, name, version=2) for name in ("a@h", "c@h")]
    for link in links:
        send(writer, link, Discover("pg"))
        send(writer, link, Sync("pg", (("h", Pid(writer.model.peer_of(writer.h, link), 1, 1)),)))
        writer.say("take", link)
    writer.say("join pg g b@h/1/1")
    writer.say("take", links[0])
    for _ in range(1021):
        writer.say("join pg w b@h/1/1")
    send(writer, links[0], Discover("pg"))
    send(writer, links[1], Discover("pg"))
    for line in ("members pg h", f"take {links[0]}", f"take {links[1]}", "members pg h"):
        writer.say(line)
    return writer.script(title)


def creation_spent(rng, title):
    writer = Peers(rng, NODE._replace(creation=4_294_967_294))
    for line in (
        "spawn",
        "restart",
        "spawn",
        "restart",
        "start pg",
        "join pg g b@h/4294967295/1",
        "members pg g",
        "dial a@h 1",
        "take 8",
    ):
        writer.say(line)
    return writer.script(title)


def entries_full(rng, title):
    """A node whose audit is full: it takes no loss any more, but still tells of its entries."""
    writer = Peers(rng, NODE._replace(most_entries=6))
    writer.say("start pg")
    writer.say("monitor_scope", "pg")
    link = bring_up(writer, "a@h")
    message = message_body(Sync("pg", (("g", Pid("a@h", 1, 1)),))).hex()
    for line in (
        f"frame {link} {message}",
        f"frame {link} {message}",
        f"lost {link}",
        "updates 2",
        "members pg g",
        "restart",
        "size",
        "audit 6",
        "audit 7",
        "seat 1",
        "frame 9 00",
        "spawn",
    ):
        writer.say(line)
    return writer.script(title)


def long_names(rng, title):
    """Texts of 255 bytes on both sides of a handshake."""
    own, peer = "b" * 253 + "@h", "c@" + "h" * 253
    writer = Peers(rng, NODE._replace(name=own, cookie="~" * 255))
    link = int(writer.say("dial", peer, 4_294_967_295).split()[1])
    writer.say("take", link)
    writer.say("frame", link, b"sok".hex())
    writer.say("frame", link, challenge_body(FLAGS, 0, 4_294_967_295, peer).hex())
    writer.say("frame", link, ack_body(digest_of("~" * 255, 4_294_967_295)).hex())
    writer.say("take", link)
    return writer.script(title)


# Those that take long stand where few wrong models are left to be noticed.
LIMITS = (
    more_rows_than_a_frame_has,
    slow_by_parts,
    links_full,
    scopes_full,
    allow_full,
    cookies_full,
    long_names,
    peer_rows_full_in_parts,
    own_rows_full,
    peer_rows_full,
    creation_spent,
    entries_full,
    pids_full,
    own_rows_full_in_parts,
    parts_of_no_rows,
)
