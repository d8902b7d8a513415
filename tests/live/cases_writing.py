"""The archive of a node where writing is the trouble: pages that come faster than they are written,
a file that can't be opened anew, half a line at the end, streams that are closed."""

import json
import os
import socket
import subprocess

from archives import field_of, files_of, fill, lines_of, lives_of
from field import case
from node import asked, new_pid, shown, start
from talk import Control
from waiting import LIMIT, expect, expect_that, until


@case
def archive_behind_a_deaf_client(field):
    """However few entries a node keeps, none is lost where its file takes what it is given: also of
    those that it kept for a client that doesn't read, and that all go at once when it is ended."""
    path = os.path.join(field.folder, "archive")
    a = field.node("a@h", "--entries", "64", "--audit", path)
    control, deaf = field.control(a), field.keep(socket.socket(socket.AF_UNIX))
    start(control)
    deaf.connect(a.control_path)
    deaf.sendall(b"monitor_scope pg\n")
    pid = new_pid(control)
    for _ in range(9):
        fill(control, pid, 10_000)
    until("a warning", lambda: a.log("warn behind"))
    until(
        "few entries kept",
        lambda: int(field_of(control, "kept").split("/")[0]),
        lambda kept: kept <= 1000,
    )
    expect("the lost entries", "0", field_of(control, "lost"))
    expect("the status after quit", 0, a.quit())
    ((_, numbers),) = lives_of(path)
    expect_that(numbers == [*range(1, len(numbers) + 1)], "all entries in order", len(numbers))


@case
def archive_moved_before_the_end(field):
    """All that a node keeps goes to the file that `reopen` asks for, also where the end comes at
    once."""
    path = os.path.join(field.folder, "archive")
    a = field.node("a@h", "--audit", path)
    control = field.control(a)
    start(control)
    fill(control, new_pid(control), 1000)
    os.rename(path, f"{path}.0")
    asked(control, "reopen")
    expect("the status after quit", 0, a.quit())
    with open(path, encoding="ascii") as file:
        numbers = [json.loads(line).get("entry") for line in file]
    expect("the entries in the new file", [*range(1, 1003)], [n for n in numbers if n])


@case
def archive_moved_where_none_can_be_made(field):
    """Where the file can't be opened anew that is said, and entries wait: once it can they follow
    there, without another `reopen`, and none goes to the file that was moved."""
    folder = os.path.join(field.folder, "d")
    os.mkdir(folder)
    path = os.path.join(folder, "archive")
    a = field.node("a@h", "--entries", "64", "--audit", path)
    control = field.control(a)
    start(control)
    pid = new_pid(control)
    fill(control, pid, 1000)
    until(
        "entries in the archive",
        lambda: int(field_of(control, "archived")),
        lambda count: count > 500,
    )
    moved = f"{folder}.moved"
    os.rename(folder, moved)
    asked(control, "reopen")
    until("a warning", lambda: a.log("warn archive"))
    held = os.path.getsize(os.path.join(moved, "archive"))
    fill(control, pid, 1000)
    os.mkdir(folder)
    until("a file at the path", lambda: os.path.exists(path) and os.path.getsize(path) > 0)
    expect(
        "the size of the file that was moved", held, os.path.getsize(os.path.join(moved, "archive"))
    )
    expect("the status after quit", 0, a.quit())
    os.rename(os.path.join(moved, "archive"), f"{path}.0")
    ((_, numbers),) = lives_of(path)
    expect("the numbers in the archive", [*range(1, len(numbers) + 1)], numbers)


@case
def half_a_line_at_the_end(field):
    """An entry of which the file has only a part when the program ends counts as lost, in its last
    line and by its status; the line of a life is no entry."""
    path = os.path.join(field.folder, "archive")
    words = [
        field.program,
        "a@h",
        "--cookie-file",
        field.cookie_file(),
        "--creation",
        "5",
        "--audit",
        path,
    ]
    script = "start pg\nspawn\nspawn\nquit\n"
    subprocess.run(words, input=script.encode(), capture_output=True, timeout=LIMIT, check=True)
    whole, entries = os.path.getsize(path), len(lines_of(path)) - 1
    for size, lost in ((whole - 10, "1 entry is"), (10, f"{entries} entries are")):
        os.remove(path)
        limited = ["bash", "-c", f'trap "" XFSZ; exec prlimit --fsize={size} "$@"', "bash", *words]
        done = subprocess.run(
            limited, input=script.encode(), capture_output=True, timeout=LIMIT, check=False
        )
        expect("the status", 1, done.returncode)
        expect(
            "the last line",
            f"error: --audit: {shown(path)}: {lost} not in the file",
            done.stderr.decode().splitlines()[-1],
        )
        expect("the size of the file", size, os.path.getsize(path))


@case
def archive_of_a_program_without_streams(field):
    """A node whose standard streams are closed serves, and nothing that it prints goes to its
    archive; the next node goes on there."""
    path, control = os.path.join(field.folder, "archive"), os.path.join(field.folder, "control")
    words = [
        field.program,
        "a@h",
        "--cookie-file",
        field.cookie_file(),
        "--listen",
        "127.0.0.1:0",
        "--control",
        control,
        "--log-level",
        "info",
        "--audit",
        path,
    ]
    for _ in range(2):
        with subprocess.Popen(["sh", "-c", 'exec "$@" <&- >&- 2>&-', "sh", *words]) as node:
            until("its control socket", lambda: os.path.exists(control))
            talk = field.keep(until("a connection", lambda: connected(control)))
            start(talk)
            asked(talk, "quit")
            expect("the status", 0, node.wait(LIMIT))
    expect("the lives in the archive", 2, sum("life" in line for line in lines_of(path)))


def connected(path):
    """A conversation with the node at a control socket, or None where there is none yet."""
    try:
        return Control(path)
    except OSError:
        return None


@case
def file_of_json_is_no_archive(field):
    """A file of JSON that is none of an archive is left as it is, with and without a line
    feed at its end."""
    path = os.path.join(field.folder, "package.json")
    for name, text in (
        ("a@h", json.dumps({"name": "mine"})),
        ("b@h", json.dumps({"name": "mine"}) + "\n"),
    ):
        with open(path, "w", encoding="ascii") as file:
            file.write(text)
        node = field.start(name, "--audit", path)
        expect("the status", 1, node.status())
        with open(path, encoding="ascii") as file:
            expect("the file", text, file.read())
    expect("the files", [path], files_of(path))
