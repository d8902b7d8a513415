"""The table of a scope of `b@h`, as counts of rows: what each deed of the part `tables` is
answered, and what the table has then."""

import ast
import re
from collections import Counter

OWN = "b@h"
REFUSALS = {
    "leave": "no process of the list is in the group",
    "leaveremote": "a row of the list is not in the table as often",
}


def counted(peer, group, numbers):
    return Counter((group, (peer, number)) for number in numbers)


def pid_texts(pids):
    return "".join(f" {name}/1/{number}" for name, number in sorted(pids))


class Table:
    def __init__(self):
        self.rows = Counter()

    def answer(self, deed):
        """What the deed is answered that is printed so, as `Join("g", [2, 1])`."""
        kind, words = re.fullmatch(r"(\w+)(\(.*\))?", deed).groups()
        values = ast.literal_eval(words[:-1] + ",)") if words else ()
        before, kind = Counter(self.rows), kind.lower()
        if kind == "leaving":
            return "pids" + pid_texts(
                pid for _, pid in (self.rows & counted(OWN, *values)).elements()
            )
        if (rows := getattr(self, kind)(*values)) is None:
            return REFUSALS[kind]
        self.rows = +rows
        return "changes" + "".join(
            self.change(group, before)
            for group in sorted({group for group, _ in before | self.rows})
        )

    def change(self, group, before):
        left, joined = (
            pid_texts(pid for at, pid in rows.elements() if at == group)
            for rows in (before - self.rows, self.rows - before)
        )
        return f" {group} left{left} joined{joined}" if left or joined else ""

    def join(self, group, numbers):
        return self.rows + counted(OWN, group, numbers)

    def leave(self, group, numbers):
        gone = self.rows & counted(OWN, group, numbers)
        return self.rows - gone if gone else None

    def sync(self, peer, group, numbers):
        return self.droppeer(peer) + counted(peer, group, numbers)

    def joinremote(self, *rows):
        return self.rows + counted(*rows)

    def leaveremote(self, *rows):
        gone = counted(*rows)
        return self.rows - gone if gone <= self.rows else None

    def exit(self, number):
        return Counter({row: count for row, count in self.rows.items() if row[1] != (OWN, number)})

    def droppeer(self, peer):
        return Counter({row: count for row, count in self.rows.items() if row[1][0] != peer})

    def clear(self):
        return Counter()

    def state(self):
        """What the readers of the table answer, as it is printed."""
        own = self.rows - self.droppeer(OWN)
        groups = "".join(
            f"{group}{pid_texts(self.pids(self.rows, group))} own {len(self.pids(own, group))}; "
            for group in sorted({group for group, _ in self.rows})
        )
        return f"= {groups}own groups {len({group for group, _ in own})} own rows {own.total()}"

    @staticmethod
    def pids(rows, group):
        return [pid for at, pid in rows.elements() if at == group]
