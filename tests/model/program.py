"""The program that is tried."""

import os
from pathlib import Path

CRATES = Path(__file__).resolve().parents[2] / "crates"


def tried_program(reader, named, crate="pg_console"):
    """The program that is named; else the proved one of the crate where there is one, else the one
    that is built unproved. A command line that leaves none is refused."""
    programs = (
        [named]
        if named
        else [CRATES / crate / "out" / crate, CRATES / crate / "out" / f"{crate}.unproved"]
    )
    found = next((str(path) for path in programs if os.access(path, os.X_OK)), programs[-1])
    return reader.need_program(found, f"bin/{crate} --version")
