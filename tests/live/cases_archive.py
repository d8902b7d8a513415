"""The archive of a node: what it keeps no more stands in files, each entry once, in order."""

import os
import stat
import subprocess
import threading

from archives import check_files, field_of, files_of, fill, lines_of, lives_of, send_on, settled
from cases_life import expect_one
from field import COOKIE, case
from node import asked, await_members, await_nodes, member, new_pid, shown, size, start
from waiting import LIMIT, expect, expect_that, until

# How many entries the nodes are to keep here, and as many may wait for the archive.
KEPT = 2048
CONSOLE = os.path.join(os.path.dirname(os.path.realpath(__file__)), "../../bin/pg_console")


@case
def archive_in_order(field):
    """The archive holds each entry once and in order, over several files, none larger than it may
    be and each named by its first entry; its files are their owner's alone."""
    path = os.path.join(field.folder, "archive")
    a = field.node(
        "a@h", "--entries", KEPT, "--audit", path, "--audit-size", "50000", "--creation", "7"
    )
    controls = [field.control(a) for _ in range(3)]
    start(a)
    for control in controls:
        fill(control, new_pid(control), 2000)
    entries = int(field_of(a, "entries"))
    until(
        "few entries kept",
        lambda: int(field_of(a, "kept").split("/")[0]),
        lambda kept: kept <= KEPT,
    )
    asked(a, "audit 1", "forgotten")
    until(
        "a status that adds up",
        lambda: int(field_of(a, "archived")) + int(field_of(a, "kept").split("/")[0]),
        lambda count: count >= entries,
    )
    expect("the lost entries", "0", field_of(a, "lost"))
    last = size(a)
    expect("the status after quit", 0, a.quit())
    ((creation, numbers),) = lives_of(path)
    expect("the creation of the life", 7, creation)
    expect_that(len(numbers) >= last, "all entries in the archive", (len(numbers), last))
    expect("the numbers in the archive", [*range(1, len(numbers) + 1)], numbers)
    check_files(path)


@case
def archive_after_a_kill(field):
    """What a node that was killed has written stays, a torn last line is cut off at the next start
    and that is said once, and the next life's lines stand behind it."""
    path = os.path.join(field.folder, "archive")
    a = field.node("a@h", "--entries", KEPT, "--audit", path, "--creation", "1")
    start(a)
    fill(a, new_pid(a), 4000)
    settled(a, path)
    a.kill()
    with open(path, "rb") as file:
        data = file.read()
    whole = data[: data.rindex(b"\n") + 1]
    torn = whole + b'{"entry":4000,"seat":0,"eve'
    with open(path, "wb") as file:
        file.write(torn)
    again = field.node("a@h", "--entries", KEPT, "--audit", path, "--creation", "2")
    warnings = until(
        "a warning of a line that was cut",
        lambda: [line for line in again.errors() if "archive_cut" in line],
    )
    expect("warnings of a line that was cut", 1, len(warnings))
    expect_that(
        "bytes=27" in warnings[0] and path in warnings[0],
        "a warning with the path and how many bytes",
        warnings,
    )
    start(again)
    fill(again, new_pid(again), 1000)
    expect("the status after quit", 0, again.quit())
    with open(path, "rb") as file:
        expect_that(file.read().startswith(whole), "what was whole, as it was", path)
    lives = lives_of(path)
    expect("the lives", [1, 2], [creation for creation, _ in lives])
    for _, numbers in lives:
        expect("the numbers of a life", [*range(1, len(numbers) + 1)], numbers)


@case
def archive_killed_at_any_time(field):
    """A node that is killed while it writes leaves whole lines and at most one torn one, which the
    next start cuts off."""
    path = os.path.join(field.folder, "archive")
    for creation in range(1, 6):
        a = field.node("a@h", "--entries", KEPT, "--audit", path, "--creation", creation)
        start(a)
        pid = new_pid(a)
        before = os.path.getsize(path)
        sender = threading.Thread(target=send_on, args=(a, f"join pg g {pid}\nleave pg g {pid}"))
        sender.start()
        until(
            "more in the archive",
            lambda: os.path.getsize(path),
            lambda held, least=before + 100_000: held > least,
        )
        a.kill()
        sender.join()
    a = field.node("a@h", "--audit", path, "--creation", "6")
    expect("the status after quit", 0, a.quit())
    lives = lives_of(path)
    expect("the lives", [*range(1, 7)], [creation for creation, _ in lives])
    for _, numbers in lives:
        expect("the numbers of a life", [*range(1, len(numbers) + 1)], numbers)


@case
def archive_of_something_else(field):
    """A file that begins or ends otherwise than an archive is left as it is, and the node
    says so and ends."""
    path = os.path.join(field.folder, "archive")
    texts = b"a diary\nof somebody", b"a-cookie\n", b'{"life":"a@h"}\nof somebody'
    for name, text in zip(("a@h", "b@h", "c@h"), texts):
        with open(path, "wb") as file:
            file.write(text)
        node = field.start(name, "--audit", path)
        expect("the status", 1, node.status())
        expect_one(
            "its standard error", node.errors(), f"error: --audit: {shown(path)}: it is no archive"
        )
        with open(path, "rb") as file:
            expect("the file", text, file.read())


@case
def archive_of_a_pipe(field):
    """A pipe isn't opened, which would wait for whoever reads it: the node says so and ends."""
    path = os.path.join(field.folder, "archive")
    os.mkfifo(path)
    node = field.start("a@h", "--audit", path)
    expect("the status", 1, node.status())
    expect_one("its standard error", node.errors(), f"error: --audit: {shown(path)}: it is a pipe")


@case
def archive_of_another_node(field):
    """One node writes to a file: another one that is given the same says so and ends, and may have
    it once the first one is gone."""
    path = os.path.join(field.folder, "archive")
    a = field.node("a@h", "--audit", path)
    start(a)
    other = field.start("b@h", "--audit", path)
    expect("the status", 1, other.status())
    expect_one(
        "its standard error",
        other.errors(),
        f"error: --audit: {shown(path)}: another program writes to it",
    )
    a.process.kill()
    a.process.wait()
    b = field.node("b@h", "--audit", path)
    expect("the status after quit", 0, b.quit())


@case
def archive_on_a_full_device(field):
    """A full disk ends nothing: it is said once, entries wait and are then let go and counted, and
    the last line says how many."""
    a = field.node("a@h", "--entries", "256", "--audit", "/dev/full")
    control = field.control(a)
    start(control)
    pid = new_pid(control)
    # (more than it keeps, and than wait: 64 pages)
    fill(control, pid, 20_000)
    until("a warning", a.errors)
    until("lost entries", lambda: int(field_of(control, "lost")), lambda lost: lost > 1000)
    expect("the entries in the archive", "0", field_of(control, "archived"))
    fill(control, pid, 1000)
    expect_one(
        "its standard error",
        a.errors(),
        'warn archive reason="--audit: /dev/full: No space left on device',
    )
    count = size(control)
    expect("the status after quit", 1, a.quit())
    last = a.errors()[-1]
    expect_that(
        last.startswith("error: --audit: /dev/full: ")
        and last.endswith(" entries are not in the file"),
        "a last line",
        last,
    )
    expect_that(int(last.split()[3]) >= count, "all entries counted", last)


@case
def archive_on_a_full_disk(field):
    """Where a file can't grow in the midst of a line, what is whole stays and no line is torn in
    the midst of the file: once there is room again the rest follows at that very byte, and
    nothing is lost."""
    path = os.path.join(field.folder, "archive")
    a = limited_node(field, path)
    start(a)
    pid = new_pid(a)
    fill(a, pid, 1000)
    until("a warning", a.errors)
    expect("the size of the file", 20_001, os.path.getsize(path))
    expect_that("File too large" in a.errors()[0], "a warning with the reason", a.errors())
    subprocess.run(["prlimit", f"--pid={a.process.pid}", "--fsize=unlimited"], check=True)
    until("a file that grows", lambda: os.path.getsize(path), lambda held: held > 40_000)
    expect("the lost entries", "0", field_of(a, "lost"))
    expect("warnings", 1, len(a.errors()))
    expect("the status after quit", 0, a.quit())
    ((_, numbers),) = lives_of(path)
    expect("the numbers in the archive", [*range(1, len(numbers) + 1)], numbers)


def limited_node(field, path):
    """A node whose files may have 20,001 bytes, until that is lifted."""
    program = os.path.join(field.folder, "limited")
    with open(program, "w", encoding="ascii") as file:
        file.write(
            '#!/bin/bash\ntrap "" XFSZ\n'
            f'exec prlimit --fsize=20001:unlimited {field.program} "$@"\n'
        )
    os.chmod(program, 0o700)
    before, field.program = field.program, program
    try:
        return field.node("a@h", "--entries", "600", "--audit", path)
    finally:
        field.program = before


@case
def archive_moved_by_a_tool(field):
    """Once a tool has moved the file away, `reopen` lets the node begin a new one at its path; all
    files together have each entry once."""
    path = os.path.join(field.folder, "archive")
    a = field.node("a@h", "--entries", KEPT, "--audit", path)
    control = field.control(a)
    start(control)
    pid = new_pid(control)
    for place in range(3):
        before = int(field_of(control, "archived"))
        fill(control, pid, 3000)
        until(
            "more in the archive",
            lambda: int(field_of(control, "archived")),
            lambda count, least=before: count > least,
        )
        os.rename(path, f"{path}.{place}")
        asked((control, a)[place % 2], "reopen")
        until("a file at the path", lambda: os.path.exists(path))
        expect("the mode of the file", 0o600, stat.S_IMODE(os.stat(path).st_mode))
    expect("the status after quit", 0, a.quit())
    expect("no warnings", [], a.errors())
    expect("the files", [f"{path}.0", f"{path}.1", f"{path}.2", path], files_of(path))
    ((_, numbers),) = lives_of(path)
    expect("the numbers in the archive", [*range(1, len(numbers) + 1)], numbers)


@case
def archive_over_lives(field):
    """A node whose entries have few numbers begins anew with another life, and the archive has all
    of both, each behind the line of its life."""
    path = os.path.join(field.folder, "archive")
    a = field.node(
        "a@h", "--entries", "1000", "--last-entry", "2000", "--audit", path, "--creation", "41"
    )
    control = field.control(a)
    while not control.untold("! restarted 43"):
        answer = control.ask("spawn")
        expect_that(answer.startswith("pid "), "a process", answer)
    expect("the status after quit", 0, a.quit())
    lives = lives_of(path)
    expect("the lives", [41, 42, 43], [creation for creation, _ in lives])
    for _, numbers in lives:
        expect("the numbers of a life", [*range(1, len(numbers) + 1)], numbers)
    expect_that(
        all(len(numbers) > 1000 for _, numbers in lives[:2]),
        "two lives that were full",
        [len(numbers) for _, numbers in lives],
    )


@case
def archive_replays(field):
    """The archive of two linked nodes agrees with the written policy: a replay gives each entry's
    verdict, reply and change."""
    path = os.path.join(field.folder, "archive")
    a = field.node(
        "a@h", "--entries", "1000", "--audit", path, "--audit-size", "100000", "--creation", "7"
    )
    b = field.node("b@h", dial=[a])
    start(b)
    pids = [member(a), member(b, "h")]
    await_nodes(b, ["a@h"])
    for talk in (a, b):
        await_members(talk, pids[:1])
    fill(a, pids[0], 1500)
    fill(b, pids[1], 300)
    await_members(a, pids[1:], "h")
    expect("the status after quit", 0, a.quit())
    done = subprocess.run(
        [CONSOLE, "replay", *files_of(path), "--cookie", f"a@h={COOKIE}"],
        capture_output=True,
        timeout=LIMIT,
        check=False,
    )
    expect(
        "the status of the replay",
        (0, []),
        (
            done.returncode,
            [line for line in done.stderr.decode().splitlines() if line[:5] == "error"],
        ),
    )
    count = sum("entry" in line for line in lines_of(path))
    expect("what the replay says", f"lives 1 entries {count}\n", done.stdout.decode())
