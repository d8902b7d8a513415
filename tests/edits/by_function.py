"""Plays rows in one copy of the repository, function by function: rows that change different
functions are made at once, and those functions are checked. What isn't refused so is made with
others once more, and alone in the end; what none of its functions refuses, or what is in no
function, the whole crate has to refuse."""

import os
import shutil
import sys
from concurrent.futures import ThreadPoolExecutor

from checks import (
    COMPILE,
    PROVED,
    REFUSED,
    UNKNOWN,
    UNSURE,
    Crate,
    check,
    end_all,
    refused_functions,
)
from functions import changed_functions
from rows import ROOT, rows, text_of
from word import all_taken, proved, write

# How many rows are made at once.
TOGETHER = 24


def copy_of_repository(to):
    """Copies what a check reads."""
    shutil.copytree(
        os.path.join(ROOT, "crates"),
        os.path.join(to, "crates"),
        ignore=shutil.ignore_patterns("out"),
    )
    for file in ("crates.txt", "HANDLES"):
        shutil.copy(os.path.join(ROOT, file), to)


def groups(crate, rows_left):
    """These rows, each with the functions that it changes, in groups in which no two change one
    function. A row that changes anything else stands in none."""
    found = []
    for row in rows_left:
        names = changed_functions(crate.folder, row)
        free = (
            group
            for group in found
            if len(group) < TOGETHER and not any(set(names) & set(others) for _, others in group)
        )
        group = next(free, None) if names else None
        if group is None and names:
            found.append(group := [])
        if names:
            group.append((row, names))
    return found


def made_together(crate, group):
    """The rows of a group that can be made beside each other; what a check of their functions comes
    to, and its lines. The crate is as before then."""
    before, made = {}, []
    try:
        for row, names in group:
            texts, fault = row.edited(crate.folder)
            if not fault:
                before = {
                    **{file: text_of(os.path.join(crate.folder, file)) for file in texts},
                    **before,
                }
                write(crate, texts)
                made.append((row, names))
        every = list(dict.fromkeys(name for _, names in made for name in names))
        with proved(crate, every) as flags:
            kind, _, lines = check(crate, every, flags)
        return made, kind, lines
    finally:
        write(crate, before)


def tried_together(crate, group):
    """The rows of a group that the prover refuses, each by a function that it changes, with that
    function and the line that says so. Where a function has another name the others are tried, and
    where they can't be compiled, or came to nothing, each half."""
    if not group:
        return {}
    made, kind, lines = made_together(crate, group)
    if kind == UNKNOWN:
        known = [
            (row, names)
            for row, names in made
            if not any(f"::{name}`" in line for line in lines for name in names)
        ]
        return tried_together(crate, known) if len(known) < len(made) else {}
    if kind in (COMPILE, UNSURE):
        half = len(made) // 2
        return (
            {**tried_together(crate, made[:half]), **tried_together(crate, made[half:])}
            if half
            else {}
        )
    refused = refused_functions(crate.name, lines)
    by = {row.name: next((name for name in names if name in refused), None) for row, names in made}
    return {row: (name, refused[name]) for row, name in by.items() if name}


def tried(crate, row):
    """What a row comes to in a crate of the copy, by which function, and the line that says so. The
    crate is as before then."""
    texts, fault = row.edited(crate.folder)
    if fault:
        return UNSURE, "", fault
    names, before = changed_functions(crate.folder, row), {
        file: text_of(os.path.join(crate.folder, file)) for file in texts
    }
    write(crate, texts)
    try:
        for name in names:
            kind, said, _ = check(crate, [name])
            if kind not in (PROVED, UNKNOWN):
                return kind, name, said
        kind, said, _ = check(crate)
        return kind, "the whole crate", said or ", ".join(names)
    finally:
        write(crate, before)


def verdicts(crate, rows_left):
    """What each of these rows comes to, by which function, and the line that says so, as soon as
    that is known. A function that isn't refused for what it is itself may rest on another one that
    was made at once, so what is left is made together again, as long as that finds any."""
    left, found = list(rows_left), True
    with all_taken(crate):
        while found and left:
            found = {}
            for group in groups(crate, left):
                refused = tried_together(crate, group)
                for row in [row for row, _ in group if row.name in refused]:
                    yield row, REFUSED, *refused[row.name]
                found |= refused
            left = [row for row in left if row.name not in found]
    for row in left:
        yield row, *tried(crate, row)


def count_of(crate, wanted):
    """How many of these rows of a crate are refused, and how many not; says a line for each. Where
    the crate isn't proved without them none is refused: it is checked first, unless `rt ci` has
    just proved it."""
    kind, said, _ = check(crate) if not crate.is_behind_ci else (PROVED, "", [])
    if kind != PROVED:
        say(f"{crate.name}: it isn't proved without any edit: {kind}: {said}")
        return 0, len(wanted)
    refused = 0
    for row, verdict, by, line in verdicts(crate, wanted):
        say(f"{crate.name}/{row.name}: {verdict} ({by}) {line}".rstrip())
        refused += verdict == REFUSED
    return refused, len(wanted) - refused


def count_by_function(names, copy, is_wanted, are_behind_ci):
    """How many rows are refused, and how many not; a line for each. Behind `rt ci` there is a crate
    on each processor, those with most rows first; else one after the other, since `rt check` works
    on one crate of a repository at a time."""
    wanted = {name: [row for row in rows(name) if is_wanted(row)] for name in names}
    left = sorted(filter(wanted.get, names), key=lambda name: -len(wanted[name]))
    with ThreadPoolExecutor(len(os.sched_getaffinity(0)) if are_behind_ci else 1) as lanes:
        counts = [
            lanes.submit(
                count_of, Crate(os.path.join(copy, "crates", name), are_behind_ci), wanted[name]
            )
            for name in left
        ]
        try:
            found = [count.result() for count in counts]
        except BaseException:
            lanes.shutdown(wait=False, cancel_futures=True)
            end_all()
            raise
    return sum(refused for refused, _ in found), sum(others for _, others in found)


def say(line):
    """Says a line whole, beside whoever else does."""
    sys.stdout.write(f"{line}\n")
    sys.stdout.flush()
