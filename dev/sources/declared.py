"""What the texts of `.antt` files declare and import, and which types are statements."""
import re
from collections.abc import Iterable
from functools import cache
from typing import NamedTuple

from . import antt_imports
from .rooms import TOP, listed

COMMENT = re.compile(r"^ *(?:--|//).*", re.M)
NAME = r"[^\s(){}\[\].,;@\"]+"
# A declaration: its indent, its marks, its name, and all else up to the next line that is not deeper. A clause may look
# like one, but has no marks.
DECLARATION = re.compile(
    rf"^( *)((?:(?:unfoldable|abbrev|pub|record|data) )*)({NAME})( [:({{].*(?:\n(?:\1 +.*)?(?=\n|$))*)", re.M
)
FIELD = re.compile(rf"^ +(?:pub )?({NAME}) : (.*)", re.M)
# What a type of values begins with. A relation makes a statement.
VALUES = {"Type", "ℕ", "Bool", "List", "Option", "Result", "Vec"}
RELATION = re.compile(r"(?<!\S)[≡≢<≤>≥⊎↔¬⊥](?!\S)")


class Declared(NamedTuple):
    """What a file says of a name: whether others may cite it, by what it is declared, and what comes after the name."""

    public: bool
    by: str
    rest: str


class Cited(NamedTuple):
    """A name that a line cites, and where it is from. Without a name it is the whole file."""

    line: int
    crate: str
    room: str
    file: str
    name: str


# ---- what a text declares


@cache
def text_of(crate: str, room: str, file: str) -> str:
    """A file of definitions or lemmas without its comments. That of a folder is beside it or in it."""
    path = TOP / "crates" / crate / room / file.replace(".", "/")
    found = next((it for it in (path.with_suffix(".antt"), path / "Lib.antt") if it.exists()), None)
    return COMMENT.sub("", found.read_text()) if found else ""


@cache
def names_in(text: str) -> dict[str, Declared]:
    """The names that a text declares. If it declares one twice, such as in two modules, the public one counts."""
    found: dict[str, Declared] = {}
    for name, declared in declarations_in(text):
        if name not in found or not found[name].public:
            found[name] = declared
    return found


def declarations_in(text: str) -> Iterable[tuple[str, Declared]]:
    for _, marks, name, rest in DECLARATION.findall(text):
        public = "pub" in marks.split()
        by = next((it for it in ("abbrev", "record", "data") if it in marks.split()), "signature")
        yield name, Declared(public, by, rest)
        if by == "data":
            yield from ((it, Declared(public, "constructor", "")) for it, _ in FIELD.findall(rest))


def is_lemma(declared: Declared, text: str) -> bool:
    return declared.by == "signature" and is_statement(declared.rest.partition(" : ")[2], text)


def is_statement(its_type: str, text: str) -> bool:
    """Whether a type that stands in a text ends in a statement. A pair is one if a part of it is."""
    before, flat = "", its_type
    while before != flat:
        before, flat = flat, re.sub(r"\([^()]*\)|\{[^{}]*\}", "_", flat)
    result = flat.rpartition("→")[2]
    heads = [part.split()[0] for part in result.split("×") if part.strip()]
    return bool(RELATION.search(result)) or not all(is_kind_of_values(it, text) for it in heads)


def is_kind_of_values(word: str, text: str) -> bool:
    """Whether a word stands for a type of values in a text: of the kit, of code, or a data or record without laws."""
    there = dict(imports_in(text)).get(word)
    if there and there.crate in listed():
        return there.file.startswith("declared.") or is_kind_of_values(there.name, text_of(*there[1:4]))
    declared = names_in(text).get(word)
    if not declared:
        return word in VALUES
    if declared.by not in ("record", "data") or not declared.rest.startswith(" : Type"):
        return False
    return declared.by == "data" or not any(is_statement(it, text) for _, it in FIELD.findall(declared.rest))


# ---- what a text imports


@cache
def imports_in(text: str, mark: str = "") -> tuple[tuple[str, Cited], ...]:
    """What a text imports from crates, each with the name that it has there. With a mark: by a `use` with this mark."""
    taken = (it for use in antt_imports.uses_in(text) if mark in use.marks for it in use.imports)
    placed = ((it, antt_imports.file_of(it.module)) for it in taken)
    return tuple((it.here, Cited(it.line, *place, it.name)) for it, place in placed if place)
