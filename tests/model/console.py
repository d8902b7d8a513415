"""The console's script: the events that lines say, and the lines that they are answered."""

from records import record

import history as events
from history import (
    RULES,
    Done,
    GroupList,
    History,
    NewLink,
    NewPid,
    Out,
    Pids,
    Ref,
    ScopeRef,
    Up,
    UpdateList,
)
from texts import is_name, is_text, number_of, pid_of, pid_text

MOST = 1 << 32
Seat = record("Seat", "seat")
Size = record("Size")
Audit = record("Audit", "number")


class Fault(Exception):
    """A line says no command."""


def number(word):
    return number_of(word, MOST)


def text(word):
    return word if is_text(word) else None


def name(word):
    return word if is_name(word) else None


def body(word):
    digits = "0123456789abcdefABCDEF"
    return (
        bytes.fromhex(word)
        if len(word) % 2 == 0 and all(digit in digits for digit in word)
        else None
    )


# Each command's event, and the readers of its words; the last one of a list reads any
# number of words.
COMMANDS = {
    "restart": (events.Restart,),
    "cookie": (events.SetCookie, text),
    "cookie_for": (events.SetCookieFor, name, text),
    "allow": (events.Allow, [name]),
    "start": (events.StartScope, text),
    "stop": (events.StopScope, text),
    "spawn": (events.Spawn,),
    "exit": (events.Exit, pid_of),
    "join": (events.Join, text, text, [pid_of]),
    "leave": (events.Leave, text, text, [pid_of]),
    "members": (events.Members, text, text),
    "local_members": (events.LocalMembers, text, text),
    "groups": (events.Groups, text),
    "local_groups": (events.LocalGroups, text),
    "monitor": (events.Monitor, text, text),
    "monitor_scope": (events.MonitorScope, text),
    "demonitor": (events.Demonitor, number),
    "updates": (events.Updates, number),
    "dial": (events.Dial, name, number),
    "opened": (events.Opened, number),
    "lost": (events.Lost, number),
    "take": (events.Take, number),
    "disconnect": (events.Disconnect, name),
    "frame": (events.Frame, number, body),
    "seat": (Seat, number),
    "size": (Size,),
    "audit": (Audit, number),
}


def read(reader, word):
    value = reader(word) if word else None
    if value is None:
        raise Fault
    return value


def command_of(line):
    """What a line says: an event, or one of Seat, Size and Audit."""
    word, *words = line.split(" ")
    if word not in COMMANDS:
        raise Fault
    kind, *readers = COMMANDS[word]
    rest = readers.pop()[0] if readers and isinstance(readers[-1], list) else None
    if len(words) < len(readers) or (rest is None and len(words) > len(readers)):
        raise Fault
    values = [read(reader, said) for reader, said in zip(readers, words)]
    return (
        kind(*values)
        if rest is None
        else kind(*values, tuple(read(rest, said) for said in words[len(readers) :]))
    )


def is_silent(line):
    """Whether a line gives no answer."""
    return line == "" or line[0] == "#"


def spaced(*words):
    return " ".join(word for some in words for word in ([some] if isinstance(some, str) else some))


def pid_texts(pids):
    return [pid_text(pid) for pid in pids]


def counted_pids(pids):
    return [str(len(pids))] + pid_texts(pids)


def answer_line(answer):
    match answer:
        case Done():
            return "ok"
        case NewPid(pid):
            return f"pid {pid_text(pid)}"
        case NewLink(link):
            return f"link {link}"
        case Up(peer, creation, visible):
            return f'up {peer} {creation} {"visible" if visible else "hidden"}'
        case Pids(pids):
            return spaced("pids", pid_texts(pids))
        case GroupList(groups):
            return spaced("groups", groups)
        case Ref(ref, pids):
            return spaced(f"ref {ref}", pid_texts(pids))
        case ScopeRef(ref, groups):
            return spaced(f"ref {ref}", *([group] + counted_pids(pids) for group, pids in groups))
        case UpdateList(updates):
            return spaced(
                "updates", *([word, group] + counted_pids(pids) for word, group, pids in updates)
            )
        case Out(bodies):
            return spaced("out", [frame.hex() for frame in bodies])


def refused(rule):
    return f"refused {RULES.index(rule) + 1} {rule}"


def verdict_line(entry):
    if entry is None:
        return refused("EntriesFull")
    return answer_line(entry.answer) if entry.rule is None else refused(entry.rule)


class Console:
    """A node of the model, the seat that asks, and the answers to the lines that it has read."""

    def __init__(self, model, opening):
        self.model, self.history = model, History(opening)
        self.seat, self.lines, self.has_fault = 0, 0, False
        self.entries, self.answers = [], []

    def play(self, line, has_memory=True):
        """Plays a line, which is answered `memory` where it is an event that finds none. Answers
        its answer line, or None."""
        self.lines += 1
        if self.has_fault or is_silent(line):
            return None
        try:
            answer = self.answer_to(command_of(line), has_memory)
        except Fault:
            self.has_fault, answer = True, f"fault line {self.lines}"
        self.answers.append(answer)
        return answer

    def answer_to(self, command, has_memory):
        match command:
            case Seat(seat):
                self.seat = seat
                return "ok"
            case Size():
                return f"size {self.history.number}"
            case Audit(number):
                return self.audit_line(number)
            case event:
                return self.step(event, has_memory)

    def step(self, event, has_memory):
        if not has_memory and not self.model.is_full(self.history):
            return "memory"
        entry = self.model.entry_of(self.history, self.seat, event)
        if entry is not None:
            self.entries.append(entry)
            self.history = self.model.after(self.history, entry)
        return verdict_line(entry)

    def audit_line(self, number):
        if not 1 <= number <= len(self.entries):
            return "none"
        entry = self.entries[number - 1]
        verdict = "accepted" if entry.rule is None else refused(entry.rule)
        return f"{number} {entry.seat} {type(entry.event).__name__} {verdict}"

    def transcript(self):
        return "".join(answer + "\n" for answer in self.answers)

    def status(self):
        return 1 if self.has_fault else 0
