"""Scripts that end at a line that says nothing, at one that asks for a node twice, or at a stream
that fails: the answers up to there, what standard error says, and the status."""

import os
import select
import subprocess

SECONDS = 60
NO_REASON = "error: the line can't be read"
# What bin/pg_console says itself, where the program isn't proved.
OF_THE_SCRIPT = "pg_console: "

# A line that says no command, and what is said of it.
NO_COMMANDS = (
    ("spwan", "no such command: spwan"),
    ("SPAWN", "no such command: SPAWN"),
    ("spawn\r", "a carriage return; lines end with a line feed alone"),
    ("spawn\t", "a tab; words are parted by one space"),
    ("cookie \x7f", "a byte outside 0x20 to 0x7E"),
    ("allow a@h  c@h", "an empty word; words are parted by one space"),
    ("spawn ", "an empty word; words are parted by one space"),
    ("members pg", "a word is missing: members SCOPE GROUP"),
    ("exit", "a word is missing: exit PROCESS"),
    ("spawn 1", "a word too many: 1"),
    ("seat x", "no number: x"),
    ("seat 007", "a number with a needless zero: 007"),
    ("take 4294967296", "a number above 4294967295: 4294967296"),
    (
        "exit b@h/4/18446744073709551616",
        "a number above 18446744073709551615: 18446744073709551616",
    ),
    ("exit b@h", "no process, which is written name/creation/number: b@h"),
    ("join pg g bh/4/1", "the name has no single `@` between other bytes: bh"),
    ("dial a@@h 1", "the name has no single `@` between other bytes: a@@h"),
    ("frame 1 4g", "no hex digits: 4g"),
    ("frame 1 4", "an odd number of hex digits: 4"),
    ("exit b@h/04/1", "a number with a needless zero: 04"),
)

# More lines that say no command; something is said of each.
MORE_NO_COMMANDS = (
    " spawn",
    "restart 1",
    "size 1",
    "size ",
    "seat",
    "seat ",
    "seat -1",
    "seat +1",
    "seat 01",
    "seat 00",
    "seat 4294967296",
    "seat 1 2",
    "seat 1\r",
    "audit",
    "audit x",
    "audit 1 2",
    "cookie",
    "cookie ",
    "cookie a b",
    "cookie_for a@h",
    "cookie_for ah secret",
    "cookie_for a@h secret more",
    "allow ",
    "allow a@h c",
    "start",
    "start pg pg",
    "stop",
    "stop pg ",
    "exit b@h/4",
    "exit b@h/4/",
    "exit b@h//1",
    "exit /4/1",
    "exit bh/4/1",
    "exit b@h/4/01",
    "exit b@h/4294967296/1",
    "exit b@h/4/1 b@h/4/1",
    "join",
    "join pg",
    "join pg ",
    "join pg g ",
    "join pg g b@h",
    "leave pg",
    "leave pg g  b@h/4/1",
    "members pg g g",
    "local_members pg",
    "groups",
    "groups pg g",
    "local_groups",
    "monitor pg",
    "monitor_scope pg g",
    "demonitor",
    "updates x",
    "dial a@h",
    "dial a@h 4294967296",
    "frame 1",
    "frame 1 ",
)

# A line that asks for no step of a world, behind `node a@h x`.
NO_STEPS = (
    "node",
    "node a@h",
    "node a x",
    "node a@h x entries 0",
    "node a@h x entries 1 creation 1",
    "node a@h x creation",
    "node a@h x hidden hidden",
    "node a@h x links",
    "node a@h x links 0",
    "node a@h x links 3",
    "node a@h x links 257",
    "node a@h x links 2 entries 9",
    "node a@h x links 2 links 2",
    "at a@h",
    "at a@h size",
    "at a@h seat 1",
    "at a@h spwan",
    "seat 01",
    "dial a@h b@h",
    "accept 0",
    "hand 0 left",
    "deliver 0",
    "cut acceptor 0",
    "restart",
    "settle 1",
    "show pg",
    "spawn",
)


def tries(run):
    """The name of each, what plays it, and on what; `run` is the command line of one node."""
    yield from tries_of_lines(run)
    yield from tries_of_nodes()
    yield "no_line_feed_at_the_end", ends_so, (
        run,
        "size\nseat 4294967295\naudit 0",
        "size 0\nok\nnone\n",
        "",
        0,
    )
    yield "answers_each_line_before_the_next", answers_at_once, (run,)
    yield "closed_output", closed_output, (run,)
    yield "unreadable_input", unreadable_input, (run,)


def tries_of_lines(run):
    """Lines that say no command, and such as ask for no step."""
    for line, said in NO_COMMANDS:
        yield "no_command", ends_so, (
            run,
            f"# a script\n\nspawn\n{line}\nspawn\n",
            "pid b@h/4/1\nfault line 4\n",
            f"line 4: {said}\n",
            1,
        )
    for line in MORE_NO_COMMANDS:
        yield "no_command", ends_so, (run, f"{line}\nspawn\n", "fault line 1\n", None, 1)
    for line in NO_STEPS:
        yield "no_step", ends_so, (
            ["world"],
            f"node a@h x\n{line}\nseat 1\n",
            "ok\nfault line 2\n",
            None,
            1,
        )


def tries_of_nodes():
    """A node that is asked for too late, and one that is asked for twice."""
    yield "node_behind_another_line", ends_so, (
        ["world"],
        "seat 1\nnode a@h x\n",
        "ok\nfault line 2\n",
        None,
        1,
    )
    yield "two_nodes_of_one_name", ends_so, (
        ["world"],
        "node a@h x\nnode a@h y\n",
        "ok\n",
        "line 2: an earlier node has this name\n",
        2,
    )


def ends_so(program, words, script, answers, said, status):
    """What is wrong with the end of a script, if something is. Where `said` is None, standard error
    has one line that gives some reason."""
    played = subprocess.run(
        [program, *words], input=script.encode(), capture_output=True, timeout=SECONDS
    )
    errors = lines_of(played.stderr)
    if played.stdout.decode() != answers or played.returncode != status:
        return f"{script[-40:]!r}: {played.stdout.decode()!r}, status {played.returncode}"
    has_reason = len(errors) == 1 and errors != [NO_REASON]
    if not has_reason if said is None else errors != said.splitlines():
        return f"{script[-40:]!r}: standard error has {errors}"
    return None


def lines_of(error):
    """What the program wrote on standard error."""
    return [line for line in error.decode().splitlines() if not line.startswith(OF_THE_SCRIPT)]


def answers_at_once(program, words):
    """Each line is answered while the script goes on, whatever pieces it comes in."""
    with subprocess.Popen([program, *words], stdin=subprocess.PIPE, stdout=subprocess.PIPE) as node:
        for line, answer in (("seat 1", "ok"), ("spawn", "pid b@h/4/1"), ("size", "size 1")):
            for byte in f"{line}\n":
                node.stdin.write(byte.encode())
                node.stdin.flush()
            if not select.select([node.stdout], [], [], SECONDS)[0]:
                node.kill()
                return f"{line} has no answer while the script goes on"
            answered = node.stdout.readline().decode()
            if answered != f"{answer}\n":
                return f"{line}: {answered!r}"
        node.stdin.close()
        return None if node.wait(SECONDS) == 0 else f"status {node.returncode}"


def closed_output(program, words):
    """Nobody reads the answers: the script ends at the first."""
    reader, writer = os.pipe()
    os.close(reader)
    with open(writer, "wb") as out:
        return failed(
            program, words, "standard output can't be written", input=b"size\nsize\n", stdout=out
        )


def unreadable_input(program, words):
    """Standard input is a folder, which can't be read."""
    folder = os.open("/", os.O_RDONLY)
    try:
        return failed(
            program, words, "standard input can't be read", stdin=folder, stdout=subprocess.DEVNULL
        )
    finally:
        os.close(folder)


def failed(program, words, said, **streams):
    played = subprocess.run([program, *words], stderr=subprocess.PIPE, timeout=SECONDS, **streams)
    is_so = played.returncode == 1 and lines_of(played.stderr) == [f"error: {said}"]
    return None if is_so else f"status {played.returncode}, {played.stderr.decode()!r}"
