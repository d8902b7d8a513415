"""Lines that say no command, or that look so and say one, and command lines."""

import subprocess

from history import Opening
from script import MOST_ENTRIES, Script

SECONDS = 600
NODE = Opening("b@h", "password", False, 1, MOST_ENTRIES)
LAST = "join pg g b@h/1/1 b@h/1/12"

FAULTS = (
    "spwan",
    "restart ",
    " restart",
    "restart now",
    "Restart",
    "start",
    "start ",
    "start  pg",
    "start pg x",
    "start pg\r",
    "start\tpg",
    "start " + "x" * 256,
    "start " + "x" * 255,
    "start \x7f",
    "start \x80",
    "stop",
    "cookie",
    "cookie a b",
    "cookie_for a@h",
    "cookie_for a k",
    "cookie_for @h k",
    "cookie_for a@ k",
    "cookie_for a@b@c k",
    "cookie_for " + "a" * 253 + "@h k",
    "cookie_for " + "a" * 254 + "@h k",
    "allow",
    "allow ",
    "allow a",
    "allow a@h b",
    "allow a@h  b@h",
    "spawn 1",
    "exit",
    "exit b@h",
    "exit b@h/1",
    "exit b@h/1/",
    "exit b@h/01/1",
    "exit b@h/1/+1",
    "exit b@h/4294967296/1",
    "exit b@h/1/18446744073709551616",
    "exit b@h/1/18446744073709551615",
    "exit b@h/4294967295/1",
    "exit b/1/1",
    "exit x/b@h/1/1",
    "exit b@h/1/1 b@h/1/2",
    "join pg",
    "join pg g",
    "join pg g 1",
    "join pg g b@h/1/1 x",
    "leave pg g ",
    "members pg",
    "members pg g h",
    "groups",
    "groups pg g",
    "monitor pg",
    "monitor_scope pg g",
    "demonitor",
    "demonitor x",
    "demonitor 01",
    "demonitor 4294967295",
    "demonitor 4294967296",
    "updates -1",
    "updates 1 2",
    "updates 99999999999999999999999",
    "dial a@h",
    "dial a@h 4294967296",
    "dial a@h 1 2",
    "dial a 1",
    "dial a@h 4294967295",
    "opened",
    "opened 00",
    "opened 1.0",
    "lost",
    "lost 1 1",
    "take 0x1",
    "disconnect",
    "disconnect a",
    "disconnect a@h b@h",
    "frame",
    "frame 1",
    "frame 1 0",
    "frame 1 0g",
    "frame 1 00 00",
    "frame 1 ",
    "frame x 00",
    "frame 1 000",
    "frame 4294967296 00",
    "seat",
    "seat 4294967296",
    "seat 4294967295",
    "seat x",
    "size 1",
    "audit",
    "audit 0",
    "audit 4294967295",
    "audit 4294967296",
    "audit x",
    "",
    "#",
    "# spwan",
    " ",
    "  ",
    " #",
    "local_members pg",
    "local_groups",
    "x" * 5000,
    "start p\x00g",
    "\x00",
    "# \xff\x00",
    "\xef\xbb\xbfstart pg",
    "start pg\x0b",
    "start \xff",
    "frame 1 " + "0" * 4999,
    "help",
    "quit",
    "memory",
    "ok",
    "frame 1 0A",
    "FRAME 1 0A",
)

# What stands on the command line behind `run`, and is refused with status 2 before
# anything is read.
REFUSED_WORDS = (
    [],
    ["b@h"],
    ["b@h", "password", "more"],
    ["bh", "password"],
    ["@h", "password"],
    ["b@", "password"],
    ["b@h@h", "password"],
    ["b h@h", "password"],
    ["", "password"],
    ["b@h", ""],
    ["b@h", "pass word"],
    ["a@" + "h" * 254, "password"],
    ["b@h", "c" * 256],
    ["b\u00e9@h", "password"],
    ["b@h", "p\x7f"],
    ["b@h", "password", "--creation", "4294967296"],
    ["b@h", "password", "--creation", "-1"],
    ["b@h", "password", "--creation", "x"],
    ["b@h", "password", "--creation", ""],
    ["b@h", "password", "--creation"],
    ["b@h", "password", "--entries", "0"],
    ["b@h", "password", "--entries", "4294967296"],
    ["b@h", "password", "--entries"],
    ["b@h", "password", "--links", "0"],
    ["b@h", "password", "--links", "3"],
    ["b@h", "password", "--links", "258"],
    ["b@h", "password", "--links", ""],
    ["b@h", "password", "--links"],
    ["b@h", "password", "--unknown"],
    ["-b@h", "password"],
    ["b@h", "-password"],
)

# What is taken, and the node that it opens.
TAKEN_WORDS = (
    (["b@h", "k", "--creation", "0"], Opening("b@h", "k", False, 0, MOST_ENTRIES)),
    (
        ["--creation", "4294967295", "b@h", "k"],
        Opening("b@h", "k", False, 4_294_967_295, MOST_ENTRIES),
    ),
    (["b@h", "k", "--hidden"], Opening("b@h", "k", True, 1, MOST_ENTRIES)),
    (["b@h", "k", "--entries", "1"], Opening("b@h", "k", False, 1, 1)),
    (["b@h", "k", "--entries", "4294967295"], Opening("b@h", "k", False, 1, 4_294_967_295)),
    (["b@h", "k", "--links", "1"], Opening("b@h", "k", False, 1, MOST_ENTRIES)),
    (["--links", "2", "b@h", "k"], Opening("b@h", "k", False, 1, MOST_ENTRIES, 2)),
    (["--creation", "7", "--", "-b@h", "-k"], Opening("-b@h", "-k", False, 7, MOST_ENTRIES)),
    (["a@" + "h" * 253, "~" * 255], Opening("a@" + "h" * 253, "~" * 255, False, 1, MOST_ENTRIES)),
)
EVERY_WORD = [
    "dial z@h 1",
    "take 1",
    "frame 1 736f6b",
    "frame 1 4e0000000001000001000000010000000100037a4068",
    "take 1",
    "size",
]


def fault_scripts():
    """A script for each line here, and one for each way to cut the last of two lines short."""
    for line in FAULTS:
        yield Script(f"the line {line[:40]}", NODE, ["start pg", line, "size"], False)
    for length in range(len(LAST) + 1):
        yield Script("a script that is cut", NODE, ["start pg", LAST[:length]], True)


def refuses(program, words):
    """Whether the program refuses a command line as it ought to: status 2, no answer, and a line
    that says why."""
    run = subprocess.run(
        [program, "run", *words], input=b"spawn\n", capture_output=True, timeout=SECONDS
    )
    return run.returncode == 2 and not run.stdout and run.stderr.count(b"\n") == 1


def takes(program, words, opening):
    """Whether a node that is opened by a command line answers as the model of it does."""
    script = Script("", opening, EVERY_WORD, False)
    run = subprocess.run(
        [program, "run", *words], input=script.text(), capture_output=True, timeout=SECONDS
    )
    return run.returncode == 0 and run.stdout.decode() == script.played().transcript()
