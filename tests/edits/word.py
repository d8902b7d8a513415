"""Takes the functions of a crate at their word, in a copy, where `rt ci` has just proved the crate:
each has no body, and a hole in place of its proof, so that a check of others costs what they cost
themselves. What each promises stays, and is what its callers are proved by."""

import json
import os
import re
import shutil
from contextlib import contextmanager

import functions as source
from checks import is_left_by_ci, library
from rows import ROOT, text_of

# A closure, as `accepting::fn::accept_links::scope`, and the end of a value, as
# `policy_audit++page++Page+Destruct::drop` or `Destruct++array::drop`.
OF_BODIES = re.compile(r"(?:^|::)fn::|(?:^|\+)Destruct(?:\+|::)")
FILES = ("Proof.antt", "Invariants.antt", "Answers.antt")
# What stands for each proof: one hole, so that it is told once.
ANYTHING = "pub anything : (A : Type 2) → A\nanything = ?\n"
PROOF = """use Rattle.{crate}.proofs
use proofs.Anything.{{anything}}
use proofs.{path}.Statement as stated

pub {name}_spec : {{M : Type 1}} → stated.statement M
{name}_spec {{M}} = anything (stated.statement M)
"""


def can_take(crate):
    return crate.stands_on_ci and is_left_by_ci(crate.name, crate.is_behind_ci)


@contextmanager
def all_taken(crate):
    """Takes the functions of a crate at their word; behind it all are proved again."""
    if can_take(crate):
        write_anything(crate)
        take(crate, functions(crate))
    yield
    if can_take(crate):
        there, proofs = (
            os.path.join(folder, "proofs")
            for folder in (os.path.join(ROOT, "crates", crate.name), crate.folder)
        )
        shutil.rmtree(proofs)
        if os.path.isdir(there):
            shutil.copytree(there, proofs)


@contextmanager
def proved(crate, names):
    """Has these functions proved, beside those that are taken at their word, and gives the flags
    for a check of them."""
    if not can_take(crate):
        yield []
        return
    taken = [
        name
        for name in names
        if os.path.exists(os.path.join(folder_of(crate.folder, name), FILES[0]))
    ]
    for name in taken:
        put(crate, name, FILES)
    before = {
        file: text_of(os.path.join(crate.folder, file)) for file in source.sources(crate.folder)
    }
    word = set(functions(crate)) - set(names)
    try:
        write(
            crate,
            {
                file: emptied(text, source.functions(crate.folder, file), word)
                for file, text in before.items()
            },
        )
        yield ["--allow-holes"]
    finally:
        write(crate, before)
        take(crate, taken)


def functions(crate):
    """The names of a crate's functions, as `rt ci` wrote them down for the crates above: but those
    that are proved by hand, and closures and the ends of values, which come and go with bodies."""
    with open(os.path.join(library(crate.name), "lang/antt/made.json"), encoding="utf-8") as lines:
        written = [
            json.loads(line)
            for line in lines
            if line.startswith(('{"Statement":', '{"MadeProof":'))
        ]
    made = {each["MadeProof"]["symbol"] for each in written if "MadeProof" in each}
    stated = [each["Statement"] for each in written if "Statement" in each]
    names = [
        each["symbol"].removeprefix(f"{crate.name}::")
        for each in stated
        if each["symbol"] in made and not each.get("is_paired")
    ]
    return [name for name in names if not OF_BODIES.search(name)]


def emptied(text, stated, names):
    """The text of a file in which the functions of these names have no body."""
    for function in reversed(stated):
        if function.name in names:
            text = text[: function.first] + without_body(function.text) + text[function.behind :]
    return text


def without_body(text):
    """A function whose body is never come to; as it is where it has none, stands on one line, or is
    worked out by the compiler."""
    lines = text.split("\n")
    indent = lines[-1].removesuffix("}")
    if len(lines) == 1 or indent.strip() or "const fn" in lines[0]:
        return text
    alone = [number for number, line in enumerate(lines) if line == indent + "{"]
    opens = alone or [number for number, line in enumerate(lines) if line.endswith(" {")]
    return "\n".join([*lines[: opens[0] + 1], f"{indent}    unreachable!()", lines[-1]])


def write(crate, texts):
    for file, text in texts.items():
        with open(os.path.join(crate.folder, file), "w", encoding="utf-8") as to:
            to.write(text)


def write_anything(crate):
    proofs = os.path.join(crate.folder, "proofs")
    os.makedirs(proofs, exist_ok=True)
    with open(os.path.join(proofs, "Anything.antt"), "w", encoding="utf-8") as file:
        file.write(ANYTHING)
    with open(os.path.join(proofs, "Lib.antt"), "a", encoding="utf-8") as file:
        file.write("mod Anything\n")


def take(crate, names):
    """Takes these functions at their word."""
    for name in names:
        put(crate, name, ())
        path = name.replace("::", ".")
        with open(
            os.path.join(folder_of(crate.folder, name), FILES[0]), "w", encoding="utf-8"
        ) as file:
            file.write(PROOF.format(crate=crate.name, path=path, name=path.rpartition(".")[2]))


def put(crate, name, files):
    """Leaves of the files of a function's proof these, as the repository has them."""
    kept, folder = folder_of(os.path.join(ROOT, "crates", crate.name), name), folder_of(
        crate.folder, name
    )
    os.makedirs(folder, exist_ok=True)
    for file in FILES:
        if os.path.exists(os.path.join(folder, file)):
            os.remove(os.path.join(folder, file))
        if file in files and os.path.exists(os.path.join(kept, file)):
            shutil.copy(os.path.join(kept, file), folder)


def folder_of(crate, name):
    return os.path.join(crate, "proofs", *name.split("::"))
