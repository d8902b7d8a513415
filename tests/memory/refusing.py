"""Runs a program while its allocations are refused. Needs cc, and a program that is linked with the
C library at the run."""

import os
import re
import subprocess
import sys
from pathlib import Path

HERE = Path(__file__).resolve().parent
SECONDS = 600


def build(folder, program):
    """The library that refuses, which this program has to take."""
    library = str(Path(folder) / "refuse.so")
    try:
        subprocess.run(
            ["cc", "-shared", "-fPIC", "-O1", "-o", library, str(HERE / "refuse.c")], check=True
        )
    except FileNotFoundError:
        sys.exit("there is no cc here")
    run = subprocess.run(
        [program, "--version"],
        stdin=subprocess.DEVNULL,
        capture_output=True,
        env=without_memory(library, 0),
        timeout=SECONDS,
    )
    if not re.search(rb"^calls \d+", run.stderr, re.MULTILINE):
        sys.exit(f"{program} isn't linked with the C library at the run")
    return library


def without_memory(library, call, is_on=False):
    """What a program is run with of which that allocation is refused, or that and all later ones;
    none where it is 0."""
    return (
        os.environ
        | {"LD_PRELOAD": library, "REFUSED_CALL": str(call)}
        | ({"REFUSED_ON": "1"} if is_on else {})
    )


def allocations(told):
    """How many allocations there were, by what was told on standard error."""
    return int(re.search(r"^calls (\d+)", told, re.MULTILINE).group(1))


def only_kept_room(told):
    """Whether what was refused was to give back spare room, which stays then, and which nobody
    needs to tell of."""
    return bool(re.search(r"^calls \d+ shrinks [1-9]", told, re.MULTILINE))
