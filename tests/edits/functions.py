"""Finds the functions that a row changes, by the names that a check gives to them. The
sources are as `rt fmt` leaves them: a function, and an `impl`, end with a line that closes
them where they began."""

import os
import re
from collections import namedtuple
from functools import cache

from rows import text_of

# A function's name, as `kept::Kept::dial` or `pid::PidTryClone::try_clone`, its text and
# where that stands.
Function = namedtuple("Function", "name text first behind")
FN = re.compile(r"^( *)(?:pub(?:\([a-z]+\))? )?(?:const )?fn (\w+)", re.MULTILINE)
TYPE = re.compile(r"^(?:pub(?:\([a-z]+\))? )?(?:struct|enum) (\w+)", re.MULTILINE)
IMPL = re.compile(r"^impl\b(?:<.*?>)? ?([^{;]*?)\s*\{", re.MULTILINE | re.DOTALL)


def functions(crate, file):
    """The functions of a file of a crate, in their order."""
    text, module = text_of(os.path.join(crate, file)), module_of(file)
    found = []
    for match in FN.finditer(text):
        behind = end_of(text, match.start(), match.group(1))
        owner = owner_of(text, match.start()) if match.group(1) else []
        name = "::".join(home_of(crate, owner, module) + owner + [match.group(2)])
        found.append(Function(name, text[match.start() : behind], match.start(), behind))
    return found


def module_of(file):
    """The path of a file's module in its crate: none of src/lib.rt, `tables::told` of
    src/tables/told.rt."""
    words = file.removeprefix("src/").removesuffix(".rt").split("/")
    return [] if words[-1] in ("lib", "main") else [word for word in words if word != "mod"]


def home_of(crate, owner, module):
    """The path by which a function's owner is named: that of the module that declares the type,
    else of the one where its `impl` stands."""
    homes = types(crate).get(owner[0], []) if owner else []
    return homes[0] if len(homes) == 1 else module


@cache
def types(crate):
    """The modules that declare a type of a name, for each name of a type. No row moves one."""
    found = {}
    for file in sources(crate):
        for name in TYPE.findall(text_of(os.path.join(crate, file))):
            found.setdefault(name, []).append(module_of(file))
    return found


def end_of(text, start, indent):
    """Where what begins here ends: behind the first line that is closed as far in as it began, or
    its only line."""
    line = text[start:].split("\n", 1)[0]
    if line.endswith(("}", ";")):
        return start + len(line)
    closed = re.compile(rf"^{indent}(?:\{{?\}}|\S.*;$)", re.MULTILINE).search(
        text, start + len(line)
    )
    return closed.end() if closed else len(text)


def owner_of(text, place):
    """The type that a function belongs to, behind which stand the trait and its types where it is
    one's: `Pid`, or `PidTryClone`."""
    impl = [match for match in IMPL.finditer(text, 0, place)][-1:]
    words = impl[0].group(1) if impl else ""
    trait, _, owner = words.rpartition(" for ")
    owner = plain(owner)
    kind, _, types = trait.partition("<")
    if not trait or plain(kind) == "Drop":
        return [owner] if owner else []
    return [
        owner + plain(kind) + "".join(plain(word) for word in types.rstrip(">").split(", ") if word)
    ]


def plain(words):
    """A type's own name, without its path and its parameters."""
    return (
        re.sub(r"<.*", "", words.strip().split(" where ")[0], flags=re.DOTALL)
        .strip()
        .lstrip("&")
        .split("::")[-1]
    )


def changed_functions(crate, row):
    """The names of the functions that a row changes, or that it names; of a constant, of those that
    use it. None where it changes anything else, as a type or a definition, which only a check of
    the whole crate looks at."""
    if row.by:
        return row.by
    names = []
    for file, old, _ in row.pairs:
        if not file.startswith("src/"):
            return []
        names += [
            name for name in enclosing(crate, file, old) or users(crate, old) if name not in names
        ]
    return names


def enclosing(crate, file, old):
    """The function around a text, as a list of one, or none, as where only another change of the
    row makes that text."""
    place = text_of(os.path.join(crate, file)).find(old)
    place += len(old) - len(old.lstrip()) if place >= 0 else 0
    return [
        function.name
        for function in functions(crate, file)
        if function.first <= place < function.behind
    ][-1:]


def users(crate, old):
    """The functions that name the constant that is declared so."""
    constant = re.match(r"(?:pub(?:\([a-z]+\))? )?(?:const )?([A-Z][A-Z0-9_]+): ", old.strip())
    if not constant:
        return []
    word = re.compile(rf"\b{constant.group(1)}\b")
    return [
        function.name
        for file in sources(crate)
        for function in functions(crate, file)
        if word.search(function.text)
    ]


def sources(crate):
    return sorted(
        os.path.relpath(os.path.join(folder, file), crate)
        for folder, _, files in os.walk(os.path.join(crate, "src"))
        for file in files
        if file.endswith(".rt")
    )
