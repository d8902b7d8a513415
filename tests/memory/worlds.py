"""Two nodes of the model of tests/model and the wires between them: what each step is answered, as
the page of pg_world has it."""

import re

from console import Console
from history import Opening
from model import Model

NAMES = ("a@h", "b@h")
DIALS, ACCEPTS = 7, 9
SIDES = ("Dialler", "Acceptor")


class Wire:
    def __init__(self, ends, link):
        self.ends, self.links, self.queues = ends, [link, None], ([], [])


class World:
    def __init__(self):
        self.nodes = [
            Console(Model(), Opening(name, "password", False, 1, 1000, 2)) for name in NAMES
        ]
        self.wires = []

    def answer(self, move):
        """What the step is answered that is printed so, as `Dial(0, 1)`."""
        kind, words = re.fullmatch(r"(\w+)(?:\((.*)\))?", move).groups()
        return getattr(self, kind.lower())(
            *(word.strip('"') for word in (words or "").split(", ") if word)
        )

    def call(self, node, line):
        if line.split(" ")[0] in ("take", "frame", "lost", "dial", "opened", "restart"):
            return "the event is no call"
        return self.play(node, line)

    def play(self, node, line):
        return (
            self.nodes[int(node)].play(line)
            if int(node) < len(self.nodes)
            else "there is no such node"
        )

    def restart(self, node):
        return self.play(node, "restart")

    def dial(self, *ends):
        ends = [int(end) for end in ends]
        if max(ends) >= len(self.nodes):
            return "there is no such node"
        answer = self.play(ends[0], f"dial {NAMES[ends[1]]} {DIALS}")
        if not answer.startswith("link "):
            return answer
        self.wires.append(Wire(ends, int(answer.split(" ")[1])))
        return f"wire {len(self.wires) - 1}"

    def accept(self):
        if not self.wires:
            return "there is no such wire"
        if self.wires[0].links[1] is not None:
            return "the wire is accepted already"
        answer = self.play(self.wires[0].ends[1], f"opened {ACCEPTS}")
        if answer.startswith("link "):
            self.wires[0].links[1] = int(answer.split(" ")[1])
        return answer

    def hand(self, side):
        return self.at(side, self.hand_over)

    def deliver(self, side):
        return self.at(side, self.deliver_oldest)

    def cut(self, side):
        return self.at(side, self.cut_off)

    def at(self, side, deed):
        """What a deed at one side of the first wire is answered, or why there is none."""
        if not self.wires:
            return "there is no such wire"
        if self.wires[0].links[SIDES.index(side)] is None:
            return "the wire isn't accepted yet"
        wire, place = self.wires[0], SIDES.index(side)
        return deed(
            wire,
            place,
            lambda event, *words: self.play(
                wire.ends[place], " ".join((event, str(wire.links[place]), *words))
            ),
        )

    @staticmethod
    def hand_over(wire, place, play):
        answer = play("take")
        if not answer.startswith("out"):
            return answer
        wire.queues[1 - place].extend(answer.split(" ")[1:])
        return f'handed {len(answer.split(" ")) - 1}'

    @staticmethod
    def deliver_oldest(wire, place, play):
        if not wire.queues[place]:
            return "nothing is under way to this side"
        return play("frame", wire.queues[place].pop(0))

    @staticmethod
    def cut_off(wire, place, play):
        wire.queues[place].clear()
        return play("lost")
