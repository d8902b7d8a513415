"""Plays a script through the program and through a model, and finds the shortest script that the
two still answer differently."""

import subprocess
from collections import Counter

from console import Console, is_silent
from frames import STATUSES, Part
from history import Exit, Out
from model import Model
from records import record
from texts import text_of

REFERRING = ("lost", "take", "frame", "demonitor", "updates", "audit")
MOST_TRIES = 400
SECONDS = 600
FRAMES = {
    "N": "Name or Challenge",
    "r": "Reply",
    "a": "Ack",
    "D": "Discover",
    "S": "Sync",
    "J": "Join",
    "L": "Leave",
    "X": "Down",
}
EXITS, IN_PARTS, BROKEN_OFF = (
    "exit told in several scopes",
    "message of several parts",
    "message broken off",
)

Played = record("Played", "transcript status")


def by_program(program, script, options=()):
    command = [program, "run", *options, *script.arguments()]
    try:
        run = subprocess.run(command, input=script.text(), capture_output=True, timeout=SECONDS)
    except subprocess.TimeoutExpired:
        return Played("", f"none within {SECONDS} seconds")
    return Played(text_of(run.stdout), run.returncode)


def by_model(script, model=None):
    return played_by(script.played(model))


def played_by(console):
    return Played(console.transcript(), console.status())


def forgotten_so(program, script, keep):
    """How many entries are asked for that a run which keeps so many has forgotten; None where it
    answers otherwise than a run that keeps all, or forgets one of those that it keeps."""
    theirs, ours = by_program(program, script, ["--keep", str(keep)]), script.played()
    answers, count, entries = theirs.transcript.splitlines(), 0, 0
    if (len(answers), theirs.status) != (len(ours.answers), ours.status()):
        return None
    for command, answer, wanted in zip(spoken(script.lines), answers, ours.answers):
        is_forgotten = (
            answer == "forgotten"
            and command.startswith("audit ")
            and 0 < int(command.split(" ")[1]) <= entries - keep
        )
        if answer != wanted and not is_forgotten:
            return None
        count += is_forgotten
        entries += not command.startswith(("seat ", "size", "audit "))
    return count


def spoken(lines):
    return [line for line in lines if not is_silent(line)]


def differs(program, script, model=None):
    return by_program(program, script) != by_model(script, model)


def entry_numbers(script):
    """For each line the number of the entry that it makes, or None."""
    numbers, console = [], Console(Model(), script.opening)
    for line in script.lines:
        before = console.history.number
        console.play(line)
        numbers.append(console.history.number if console.history.number > before else None)
    return numbers


def without(script, first, behind):
    """The script without some lines, where those that stay refer to the same entries as before."""
    kept = [place for place in range(len(script.lines)) if not first <= place < behind]
    numbers, renamed = entry_numbers(script), {}
    for place in kept:
        if numbers[place] is not None:
            renamed[str(numbers[place])] = str(len(renamed) + 1)
    gone = {
        str(number)
        for place, number in enumerate(numbers)
        if number is not None and first <= place < behind
    }
    return script.with_lines([renumbered(script.lines[place], renamed, gone) for place in kept])


def renumbered(line, renamed, gone):
    word, *words = line.split(" ")
    if word not in REFERRING or not words:
        return line
    number = "0" if words[0] in gone else renamed.get(words[0], words[0])
    return " ".join([word, number] + words[1:])


def shortest(script, still_differs):
    """Takes lines away, first many at once, then one by one, as long as the two still differ."""
    tries, count = 0, max(1, len(script.lines) // 2)
    while tries < MOST_TRIES:
        place, before = 0, len(script.lines)
        while place < len(script.lines) and tries < MOST_TRIES:
            shorter, tries = without(script, place, place + count), tries + 1
            if still_differs(shorter):
                script = shorter
            else:
                place += count
        if count == 1 and len(script.lines) == before:
            break
        count = max(1, count // 2)
    return script


def first_difference(ours, theirs):
    """The place of the first answer that differs, and both answers."""
    for place, (one, other) in enumerate(zip(ours.split("\n"), theirs.split("\n"))):
        if one != other:
            return place, one, other
    return None


def report(program, script, model=None):
    """Tells of a script that the two answer differently: its shortest form, with both answers."""
    script = shortest(script, lambda shorter: differs(program, shorter, model))
    theirs, ours = by_program(program, script), by_model(script, model)
    lines = [f'{script.title}, shortened: pg_console run {" ".join(script.arguments())}']
    lines += [f"  | {line[:400]}" for line in script.lines]
    if (found := first_difference(theirs.transcript, ours.transcript)) is not None:
        place, program_says, model_says = found
        lines += [
            f"  answer {place + 1} of the program: {program_says[:400]}",
            f"  answer {place + 1} of the model:   {model_says[:400]}",
        ]
    if theirs.status != ours.status:
        lines.append(f"  status of the program: {theirs.status}, of the model: {ours.status}")
    return "\n".join(lines)


def kind_of(answer):
    """The kind of an answer line, for the summary."""
    words = answer.split(" ")
    match words[0]:
        case "refused":
            return " ".join(words)
        case "up":
            return f"up {words[-1]}"
        case "updates" | "out" | "pids" | "groups":
            return words[0] if len(words) > 1 else f"{words[0]} of nothing"
        case word if word.isdecimal():
            return "audit line"
        case word:
            return word


def coverage(console):
    """How often each kind of answer came, each kind of accepted event, and each kind of frame
    that was owed."""
    seen = Counter(kind_of(answer) for answer in console.answers)
    for entry in console.entries:
        if entry.rule is None:
            seen[f"accepted {type(entry.event).__name__}"] += 1
        if isinstance(entry.answer, Out):
            seen.update(f"owed {frame_kind(body)}" for body in entry.answer.bodies)
    return seen + Counter({EXITS: exits_in_several_scopes(console)}) + messages_in_parts(console)


def exits_in_several_scopes(console):
    """How many exits owe a link a Leave in each of several scopes."""
    count, h = 0, console.history
    while h is not None:
        count += isinstance(h.said, Exit) and any(
            len(console.model.exit_owes(h, link)) > 1 for link in console.model.links(h)
        )
        h = h.past
    return count


def messages_in_parts(console):
    """How many messages were complete with a part behind the first, and how many that had begun
    were broken off."""
    seen, h, model = Counter(), console.history, console.model
    while h.past is not None:
        link, said = model.said_on(h)
        seen[IN_PARTS] += completes(said)
        seen[BROKEN_OFF] += sum(
            is_broken_off(model, h, other, other == link and completes(said))
            for other in model.open_links(h.past)
        )
        h = h.past
    return seen


def completes(said):
    return isinstance(said, Part) and said.last and said.number > 1


def is_broken_off(model, h, link, is_complete):
    """Whether the newest entry breaks off a message that has begun on a link, or ends the link."""
    begun = model.begun(h.past, link)
    return (
        bool(begun)
        and not is_complete
        and not (model.is_open(h, link) and model.begun(h, link)[: len(begun)] == begun)
    )


def frame_kind(body):
    word = text_of(body[1:])
    if body[:1] == b"s" and word in STATUSES:
        return f"status {word}"
    return FRAMES[chr(body[0])]
