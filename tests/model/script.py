"""A script: the node that it is for, and its lines."""

from console import Console
from model import Model
from records import record
from texts import octets_of

MOST_ENTRIES = 1_000_000


class Script(record("Script", "title opening lines is_cut")):
    """`is_cut` where the last line lacks its line feed."""

    def arguments(self):
        name, cookie, hidden, creation, entries, links = self.opening
        words = [name, cookie, "--creation", str(creation)] + (["--hidden"] if hidden else [])
        words += ["--entries", str(entries)] if entries != MOST_ENTRIES else []
        return words + (["--links", str(links)] if links != 1 else [])

    def text(self):
        return octets_of("\n".join(self.lines) + ("" if self.is_cut else "\n"))

    def played(self, model=None):
        """The console that has played it on a model."""
        console = Console(model or Model(), self.opening)
        for line in self.lines:
            console.play(line)
        return console

    def with_lines(self, lines):
        return self._replace(lines=lines)


class Writer:
    """Writes a script line by line, and plays it on a model meanwhile, so that it can go on from
    what came of each line."""

    def __init__(self, rng, opening):
        self.rng, self.opening, self.lines = rng, opening, []
        self.console = Console(Model(), opening)
        self.model = self.console.model

    @property
    def h(self):
        return self.console.history

    def say(self, *words):
        self.lines.append(" ".join(str(word) for word in words))
        return self.console.play(self.lines[-1])

    def chance(self, of_100):
        return self.rng.random() * 100 < of_100

    def one_of(self, items):
        return self.rng.choice(list(items))

    def script(self, title, is_cut=False):
        return Script(title, self.opening, self.lines, is_cut)
