"""Archives of a node, as they are filled and read here."""

import glob
import json
import os
import stat

from waiting import expect, expect_that, until

# How many lines are sent before their answers are read.
AT_ONCE = 500


def ask_many(talk, lines):
    """The answers to lines, which are sent many at a time."""
    answers = []
    for first in range(0, len(lines), AT_ONCE):
        piece = lines[first : first + AT_ONCE]
        talk.send("\n".join(piece))
        answers += [talk.next_answer("an answer") for _ in piece]
    return answers


def fill(talk, pid, count):
    """So many entries at least: joins and leaves of a process."""
    answers = ask_many(talk, [f"join pg g {pid}", f"leave pg g {pid}"] * ((count + 1) // 2))
    expect("answers to joins and leaves", {"ok"}, set(answers))


def files_of(path):
    """The files of an archive, in the order of what they have: those that were full, by the
    creation and the number in their names, and then the one that is written to."""
    full = [
        name for name in glob.glob(f"{path}.*") if name[len(path) + 1 :].replace(".", "").isdigit()
    ]
    full.sort(key=lambda name: [int(word) for word in name[len(path) + 1 :].split(".")])
    return full + ([path] if os.path.exists(path) else [])


def read(name):
    """The bytes of a file, of which each line is whole."""
    with open(name, "rb") as file:
        data = file.read()
    expect_that(
        data == b"" or data.endswith(b"}\n"), f"whole lines in {os.path.basename(name)}", data[-80:]
    )
    return data


def lines_of(path):
    """The lines of an archive, over all of its files."""
    return [json.loads(line) for name in files_of(path) for line in read(name).splitlines()]


def lives_of(path):
    """The numbers of the entries behind each line of a life."""
    lives = []
    for line in lines_of(path):
        if "life" in line:
            lives.append((line["creation"], []))
        else:
            lives[-1][1].append(line["entry"])
    return lives


def field_of(talk, name):
    """A number of the status."""
    words = dict(word.split("=", 1) for word in talk.ask("status").split() if "=" in word)
    return words[name]


def settled(talk, path):
    """Waits until the node keeps as few entries as it is to."""
    return until(
        "entries in the archive", lambda: int(field_of(talk, "archived")), lambda count: count > 0
    )


def check_files(path):
    """That there are several files, and what they are called."""
    names = files_of(path)
    expect_that(len(names) > 3, "several files", names)
    for name in names:
        held = os.stat(name)
        expect_that(held.st_size <= 50_000, "a file of 50,000 bytes at most", held.st_size)
        expect("the mode of a file", 0o600, stat.S_IMODE(held.st_mode))
        first = next(
            line["entry"] for line in map(json.loads, read(name).splitlines()) if "entry" in line
        )
        if name != path:
            expect("the name of a file", f"{path}.7.{first}", name)


def send_on(talk, lines):
    """Sends lines until nobody takes them."""
    try:
        for _ in range(100_000):
            talk.send(lines)
    except OSError:
        pass
