"""Reads the imports of a file of definitions or lemmas, and the `ghost use` items of a file of code.

An import takes names from a module, `use M.{a, b as c}`, or names a module, `use M` or `use M as n`. A group can have
groups and paths in it: `use M.{N.{a, b}, O.c}` takes `a` and `b` from `M.N`, and `c` from `M.O`. It can have several
lines, but no comments."""
import re
from collections.abc import Callable
from functools import cache
from typing import NamedTuple

# What an import begins with: its marks, its path, and then the brace of its group, or the end of the line.
BEGIN = re.compile(r"^ *((?:unfoldable |pub |ghost )*)use ([^\s{}:;]+?)(?:\.\{|(?: as (\S+?))?;?$)", re.M)
# What comes next in a group: the path of a group in it, a name with the name that it gets, or the end of a group.
PART = re.compile(r"([^\s{},]+)\.\{|([^\s{},]+)(?:\s+as\s+([^\s{},]+))?|\};?")
# Names, and parts of paths with what comes after them. A part ends in a dot.
Tree = dict[str, "Tree"]


class Import(NamedTuple):
    """A name that a text imports, which it calls `here`, or a whole module, whose name is empty.

    The line is that of the `use`, and the place is that of the name in the text."""

    line: int
    place: int
    module: str
    name: str
    here: str


class Use(NamedTuple):
    """An import with all that it takes, where it is in its text, and the words before `use`."""

    start: int
    end: int
    marks: str
    imports: tuple[Import, ...]


@cache
def uses_in(text: str) -> tuple[Use, ...]:
    """The imports of a text, in their order."""
    found = []
    for begin in BEGIN.finditer(text):
        marks, path, here = begin.groups()
        line, place = text.count("\n", 0, begin.start()) + 1, begin.end()
        if begin[0].endswith("{"):
            imports, place = group_at(line, place, path, text)
        else:
            imports = [Import(line, place, path, "", here or path.rpartition(".")[2])]
        found.append(Use(begin.start(), place, marks, tuple(imports)))
    return tuple(found)


def group_at(line: int, place: int, path: str, text: str) -> tuple[list[Import], int]:
    """What a group takes that begins at a place, behind a path, and the place where it ends."""
    paths, found = [path], []
    for part in PART.finditer(text, place):
        inner, name, here = part.groups()
        if inner:
            paths.append(f"{paths[-1]}.{inner}")
        elif name:
            *folders, there = name.split(".")
            found.append(Import(line, part.start(), ".".join([paths[-1], *folders]), there, here or there))
        else:
            paths.pop()
        if not paths:
            return found, part.end()
    return found, len(text)


def imports_in(text: str) -> list[Import]:
    return [it for use in uses_in(text) for it in use.imports]


def without_imports(text: str) -> str:
    """A text with blank lines for its imports: all else stays in its line."""
    for use in reversed(uses_in(text)):
        text = text[: use.start] + "\n" * text.count("\n", use.start, use.end) + text[use.end :]
    return text


def without_names(text: str, is_gone: Callable[[Import], bool]) -> str:
    """A text that does not import these names. An import of nothing else goes with its line."""
    for use in reversed(uses_in(text)):
        left = tuple(it for it in use.imports if not is_gone(it))
        if left and left != use.imports:
            text = text[: text.index("use ", use.start)] + line_of(left) + text[use.end :]
        elif left != use.imports:
            text = text[: use.start] + text[use.end :].removeprefix("\n")
    return text


def line_of(group: tuple[Import, ...]) -> str:
    """The import of some names. A module by itself has braces, even if it has only one name."""
    tree: Tree = {}
    for it in group:
        after = tree
        for part in it.module.split("."):
            after = after.setdefault(f"{part}.", {})
        after[it.name if it.here == it.name else f"{it.name} as {it.here}"] = {}
    line = f"use {written(tree)}"
    return line if line.endswith("}") else re.sub(r"\.([^.]+)$", r".{\1}", line)


def written(tree: Tree) -> str:
    """A tree as it stands in an import: names first, and several parts in braces."""
    parts = [it + (written(tree[it]) if tree[it] else "") for it in sorted(tree, key=lambda it: it.endswith("."))]
    return parts[0] if len(parts) == 1 else f"{{{', '.join(parts)}}}"


def file_of(module: str) -> tuple[str, ...]:
    """The crate, the room (specs or proofs) and the file of a module of a crate; nothing for another module."""
    top, *parts = module.split(".", 3)
    return tuple(parts) if top == "Rattle" and len(parts) == 3 and parts[1] in ("specs", "proofs") else ()
