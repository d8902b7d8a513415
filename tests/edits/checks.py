"""How a crate is checked, and what a check comes to."""

import functools
import os
import re
import signal
import subprocess
import threading
from collections import namedtuple

from rows import ROOT

SECONDS = 3600
# The checks that are under way, and whether no other is to begin.
RUNNING, ENDS = set(), threading.Event()
REFUSED, PROVED, UNKNOWN = "refused", "NOT REFUSED", "no such function"
COMPILE, LIMIT, UNSURE = "COMPILE ERROR", "ONLY A LIMIT", "NOT TRIED"
LIMITS = re.compile(
    r"antt ran out of (stack|the (steps|memory) )"
    r"|(outgrew the memory limit|stopped at the step limit) \("
)
# How the prover says that it can't read a text: the fault has no function, or is one of names
# and of grammar.
READING = re.compile(
    r"is not in scope|has no field|is no name|operand is missing|expected the end|cannot continue"
)
# How it says that it can't judge a function, whatever that does.
UNJUDGED = re.compile(r"fn \S+: no proof: .*the borrow checker does not cover this function")
FAULT = re.compile(r"(?:\./)?((?:src|specs)/\S+):\d+:\d+: error: (?:(`[^`]*`): )?(.*)")
# How it says that a proof is refused for another one alone.
RESTS = re.compile(r"was not admitted|is not proved|not admit")


class Crate(namedtuple("Crate", "folder is_behind_ci")):
    """A crate in a copy of the repository, and whether `rt ci` has just proved it."""

    @property
    def name(self):
        return os.path.basename(self.folder)

    @property
    def stands_on_ci(self):
        """Whether the libraries below it are those that `rt ci` left, of the files
        as they stand."""
        libraries = below(self.name)
        return bool(libraries) and all(is_left_by_ci(name, self.is_behind_ci) for name in libraries)


def uses():
    """What each crate of the repository names as what it stands on."""
    with open(os.path.join(ROOT, "crates.txt"), encoding="utf-8") as lines:
        pairs = [line.partition(":") for line in lines if re.match(r"[a-z]", line)]
    return {name.split()[0]: words.split() for name, _, words in pairs}


def below(crate):
    """The crates of the repository that this one stands on, each once, the lowest first."""
    every, found = uses(), []

    def visit(name):
        for other in every[name]:
            if other in every and other not in found:
                visit(other)
                found.append(other)

    visit(crate)
    return found


def library(crate):
    return os.path.join(ROOT, "crates", crate, "out/rlib", f"{crate}.rlib")


def is_left_by_ci(crate, has_just_run):
    """Whether the crate's library is one that `rt ci` left, of its files as they stand: one that
    `rt check` builds has a stamp beside it."""
    is_there = os.path.isdir(library(crate)) and not os.path.exists(
        os.path.join(os.path.dirname(library(crate)), "stamp")
    )
    return is_there and (has_just_run or is_newest(crate))


@functools.cache
def is_newest(crate):
    """Whether no file of the crate is newer than its library, and none has come or gone since."""
    folders = [
        os.walk(os.path.join(ROOT, "crates", crate, part)) for part in ("src", "specs", "proofs")
    ]
    there = [
        path
        for folder in folders
        for at, _, names in folder
        for path in (at, *(os.path.join(at, name) for name in names))
    ]
    return max(map(os.path.getmtime, there)) <= os.path.getmtime(library(crate))


def command(crate):
    """The words that check a crate, over what earlier checks kept in its folder. Over the libraries
    that `rt ci` left those of the prover itself, as `rt ci` runs it: `rt check` would first prove
    all of them again. Else `rt check`, which begins with what was proved on this machine."""
    if not crate.stands_on_ci:
        return ["rt", "check"]
    libraries = below(crate.name)
    kit = os.path.dirname(
        subprocess.run(["rt", "doc"], capture_output=True, text=True, check=True).stdout.strip()
    )
    words = [
        f"{kit}/bin/rattle",
        "check",
        "--crate-name",
        crate.name,
        "src/lib.rt",
        "-L",
        f"dependency={kit}/rlibs",
    ]
    for name in ["std", *uses()[crate.name]]:
        words += [
            "--extern",
            f'{name}={library(name) if name in libraries else f"{kit}/rlibs/{name}.rlib"}',
        ]
    for name in libraries:
        words += ["-L", f"dependency={os.path.dirname(library(name))}"]
    kept = os.path.join(crate.folder, "out/incremental")
    os.makedirs(kept, exist_ok=True)
    return [
        *words,
        "--antt-project",
        f"{kit}/rattle/logic/antt-project.json",
        "--logic-built",
        f"{kit}/logic_built",
        "--incremental",
        kept,
        "--jobs",
        "1",
    ]


def check(crate, functions=(), flags=()):
    """What a check of a crate comes to, or of some functions of it; the line that says so,
    and all lines."""
    only = [word for name in functions for word in ("--only", f"{crate.name}::{name}")]
    status, lines = output([*command(crate), *only, *flags], crate.folder)
    return *judged(status, lines), lines


def output(words, folder):
    """The status of a command that is run in a folder, None where it takes too long, and its lines.
    It ends with all that it started."""
    if ENDS.is_set():
        raise InterruptedError("the run is at its end")
    with subprocess.Popen(
        words,
        cwd=folder,
        stdin=subprocess.DEVNULL,
        stdout=subprocess.PIPE,
        stderr=subprocess.STDOUT,
        text=True,
        errors="replace",
        process_group=0,
    ) as run:
        RUNNING.add(run)
        try:
            said, _ = run.communicate(timeout=SECONDS)
            return run.returncode, said.rstrip("\n").split("\n")
        except subprocess.TimeoutExpired:
            return None, []
        finally:
            end(run)
            RUNNING.discard(run)


def end(run):
    if run.poll() is None:
        os.killpg(run.pid, signal.SIGTERM)


def end_all():
    """Ends the checks that are under way; none begins behind it."""
    ENDS.set()
    for run in list(RUNNING):
        end(run)


def cannot_read(line):
    """Whether the prover says so of a text of src/ or specs/, where a wrong deed leaves what can be
    read, and is false."""
    fault = FAULT.match(line)
    return bool(fault) and (not fault[2] or bool(READING.search(re.sub(r"`[^`]*`", "", fault[3]))))


def judged(status, lines):
    """What a check came to, and the line that says so best."""
    first = next(
        (
            line
            for line in lines
            if re.match(r"\S+:\d+:\d+: error|fn \S+: (not proved|no proof)", line)
        ),
        lines[-1] if lines else "",
    )[:160]
    if status == 0:
        return PROVED, ""
    if any("has no function" in line or "several functions are named" in line for line in lines):
        return UNKNOWN, ""
    if unread := [line for line in lines if cannot_read(line)]:
        return COMPILE, unread[0][:160]
    if unjudged := [line for line in lines if UNJUDGED.match(line)]:
        return UNSURE, unjudged[0][-160:]
    if status == 1 and any(re.match("logic=not-proved|only=[1-9]", line) for line in lines):
        return REFUSED, first
    if compiler := [line for line in lines if re.search(r"\berror\[[\w-]+\]|^rattle: error", line)]:
        return COMPILE, compiler[0][:160]
    if limit := [line for line in lines if LIMITS.search(line)]:
        return LIMIT, limit[0][:160]
    return (
        UNSURE,
        f"its check took over {SECONDS} s" if status is None else f"status {status}: {first}",
    )


def refused_functions(name, lines):
    """The functions of the crate of this name that the prover refuses for what they are
    themselves, by their names in it, each with the line that says so. Who calls one that isn't
    proved isn't proved either, and a proof by hand may rest on one. A closure stands for the
    function that has it."""
    found = {}
    faults = [
        line
        for line in lines
        if re.match(r"(?:\./)?proofs/\S+:\d+:\d+: error", line) and not RESTS.search(line)
    ]
    for line in lines:
        told = re.match(
            rf"fn {name}::(\S+): (no proof|not proved)(?:: (?!it calls ).*|; it stands on .*)?$",
            line,
        )
        if told and (
            told[2] == "no proof"
            or any(f'proofs/{told[1].replace("::", "/")}/' in fault for fault in faults)
        ):
            found[re.sub(r"\bfn::(\w+)::.*", r"\1", told[1])] = line[:160]
    return found
