"""The rows of the tables: each a wrong deed, with the texts that it changes."""

import os
import re

ROOT = os.path.realpath(os.path.join(os.path.dirname(os.path.realpath(__file__)), "../.."))
TABLE = "must-fail/more_edits.md"
GATE = "## In the gate"
# Where a text goes on in a new line.
BREAK = "⏎"


class Row:
    """A wrong deed: its name, the pairs of a text and what stands in its place, each with the file
    that has it, the functions that have to refuse it, where the row names some, and whether the
    gate tries it."""

    def __init__(self, line, in_gate):
        cells = [
            cell.replace("\\|", "|").replace(BREAK, "\n")
            for cell in re.split(r"(?<!\\)\|", line.strip()[1:-1])
        ]
        deed, *cells = cells[0], *(re.findall("`([^`]*)`", cell) for cell in cells[1:])
        files, olds, news = (cell or [""] for cell in cells[:3])
        self.name, self.by, self.in_gate = (
            deed.strip().replace(" ", "_").replace(",", ""),
            [name for cell in cells[3:] for name in cell],
            in_gate,
        )
        if len(olds) != len(news) or len(files) not in (1, len(olds)):
            raise ValueError(f"{deed}: a file, a text and a new text belong together")
        self.pairs = list(zip(files * (len(olds) // len(files)), olds, news))

    def edited(self, folder):
        """The texts of the files that it changes in this crate, and why it can't be
        made, or None."""
        texts = {}
        for file, old, new in self.pairs:
            path = os.path.join(folder, file)
            if not os.path.isfile(path):
                return texts, f"there is no {file}"
            text = texts.get(file) or text_of(path)
            if text.count(old) != 1:
                return texts, f"`{old}` stands {text.count(old)} times in {file}"
            texts[file] = text.replace(old, new)
        return texts, None


def text_of(path):
    with open(path, encoding="utf-8") as file:
        return file.read()


def crates_with_tables():
    """The crates that have a table, in the order of their names."""
    crates = os.path.join(ROOT, "crates")
    return sorted(
        name for name in os.listdir(crates) if os.path.exists(os.path.join(crates, name, TABLE))
    )


def rows(crate):
    """The rows of a crate's tables. The gate tries those under its heading."""
    found, heading = [], ""
    for line in text_of(os.path.join(ROOT, "crates", crate, TABLE)).splitlines():
        heading = line if line.startswith("## ") else heading
        if line.startswith("| ") and not line.startswith("| Wrong deed |"):
            found.append(Row(line, heading == GATE))
    return found
