"""What crates/refusals prints where nothing is refused: row by row, and compared with the model of
tests/model, with a list of answers, or with counts."""

import re

import history as events
from console import Console, verdict_line
from frame_rows import ANSWERS, written_at
from model import Model
from records import record
from scripts import NODE_2
from tables import Table
from worlds import World

Row = record("Row", "name answer state")


def rows_of(printed):
    """What was printed of each call, behind what the objects answer at first."""
    rows = [["", "", []]]
    for line in printed.splitlines():
        if line.startswith("="):
            rows[-1][2].append(line)
        elif rows[-1][2]:
            rows.append([line, "", []])
        else:
            rows[-1][1] = line
    return [Row(*row) for row in rows]


def fault_of_right(part, ended):
    """What is wrong with a run of which nothing was refused."""
    if ended.status != 0:
        return f"status {ended.status}: {ended.told}"
    rows = rows_of(ended.printed)
    return {
        "frames": fault_of_frames,
        "tables": fault_of_tables,
        "worlds": fault_of_worlds,
        "nodes": fault_of_nodes,
    }[part.word](rows)


def fault_of_frames(rows):
    """The first row of frames that the page of formats answers otherwise, if there is one."""
    if len(rows) != len(ANSWERS) + 1:
        return f"{len(rows) - 1} rows instead of {len(ANSWERS)}"
    return next(
        (
            f"{row.name} is answered {row.answer}, {row.state}"
            for number, row in enumerate(rows[1:], 1)
            if row.answer != ANSWERS[number - 1]
            or row.state[-1].split(" ")[-1] != written_at(number)
        ),
        None,
    )


def fault_of_tables(rows):
    """The first row of a table that counts of rows answer otherwise, if there is one."""
    table = Table()
    answers = [(row, table.answer(row.name.split(" ", 1)[1]), table.state()) for row in rows[1:]]
    return next(
        (
            f"{row.name} is answered {row.answer}, {row.state} instead of {right}, {state}"
            for row, right, state in answers
            if row.answer != right or row.state != [state]
        ),
        None,
    )


def fault_of_worlds(rows):
    """The first row of a world that two nodes of the model answer otherwise, if there is one."""
    world = World()
    answers = [(row, world.answer(row.name.split(" ", 1)[1])) for row in rows[1:]]
    return next(
        (
            f"{row.name} is answered {row.answer} instead of {right}"
            for row, right in answers
            if row.answer != right
        ),
        None,
    )


def fault_of_nodes(rows):
    """The first row of a node that the model answers otherwise, if there is one, or a wrong end."""
    console = Console(Model(), NODE_2)
    for row in rows[1:-1]:
        line = re.fullmatch(r'\d+ Said { way: \w+, line: "(.*)" }', row.name).group(1)
        right = console.play(line)
        if row.answer != right:
            return f"{row.name} is answered {row.answer} instead of {right}"
        if row.state[1:] != looks(console):
            return f"behind {row.name} is looked up {row.state[1:]} instead of {looks(console)}"
    return (
        None
        if rows[-1].name == f"closed {console.history.number}"
        else f"it ends with {rows[-1].name}"
    )


def looks(console):
    """What the node's queries answer, without an entry."""
    return [
        "= " + verdict_line(console.model.entry_of(console.history, 0, event))
        for scope in ("pg", "s")
        for event in (
            events.Members(scope, "g"),
            events.LocalMembers(scope, "g"),
            events.Groups(scope),
            events.LocalGroups(scope),
        )
    ]
