"""Public calls that have a clause `ensures`, and that no page names; and calls that a page names and that are gone.

docs/promises.md or docs/layers.md has to name each, as code: `CRATE::NAME`, `TYPE::NAME`, or NAME alone in a paragraph,
an item or a row that also names its crate, its type or its module. One path may have several names, as in
`Rig::{now, state}`, and a star stands for all names that fit, as in `Plan::*` or `mpf_sections::as_*`. Crates of tests
promise nothing. A path in a page that begins with a crate has to name something in its code. A fault is
`FILE: CALL`."""
import re
from collections.abc import Iterable, Iterator
from fnmatch import fnmatchcase
from functools import cache
from pathlib import Path
from typing import NamedTuple

from sources.citable import items_of
from sources.rooms import TOP, listed

PAGES = ("docs/promises.md", "docs/layers.md")
OF_TESTS = ("acceptance", "reading_tests", "worked_rows")
# The end of a paragraph, or what begins an item or a row.
BETWEEN = re.compile(r"\n\n|\n(?= *- |\|)")
CODE = re.compile(r"`([^`]+)`")
NAMES = re.compile(r"([\w:]*)\{([^{}]*)\}")
PATH = re.compile(r"[\w*]+(?:::[\w*]+)*")
# A declaration of a call that others see; without `pub` only in a trait.
PUBLIC = re.compile(r"^ *pub (?:const )?fn |^pub trait .*(?:\n.*)*\n +(?:const )?fn ", re.M)


class Call(NamedTuple):
    crate: str
    file: Path
    of: str
    name: str

    def places(self) -> set[str]:
        """What a path to the call may have before its name."""
        return {self.crate, self.file.stem, self.of}

    def shown(self) -> str:
        return self.name if self.of == self.name else f"{self.of}::{self.name}"


def calls() -> Iterator[Call]:
    for crate in listed():
        for file in sorted((TOP / "crates" / crate).glob("src/**/*.rt")) if crate not in OF_TESTS else ():
            for it in items_of(file):
                if PUBLIC.search(it.text) and re.search(r"^ *ensures\b", it.text, re.M):
                    yield Call(crate, file, it.of, it.name)


def paths_in(block: str) -> Iterable[str]:
    """The paths in the code of a block of a page, each with one name."""
    for code in CODE.findall(block):
        text = NAMES.sub(lambda it: " ".join(it[1] + name.strip() for name in it[2].split(",")), " ".join(code.split()))
        yield from PATH.findall(text)


def is_named(call: Call, paths: Iterable[str], words: set[str]) -> bool:
    """Whether one of the paths in a block leads to a call. The words are all that the block has in code."""
    for path in paths:
        *before, last = path.split("::")
        is_whole = before or ("*" not in last and words & (call.places() - {call.name}))
        if is_whole and call.places() >= set(before) and fnmatchcase(call.name, last):
            return True
    return False


@cache
def words_in(crate: str) -> frozenset[str]:
    """The words of the code of a crate, and the names of its files."""
    files = list((TOP / "crates" / crate / "src").rglob("*.rt"))
    return frozenset(word for it in files for word in (it.stem, *re.findall(r"\w+", it.read_text())))


def gone() -> Iterator[str]:
    """The paths of calls on the pages that have a name which is not in the code of their crate."""
    for page in PAGES:
        for path in paths_in((TOP / page).read_text()):
            crate, *names = path.split("::")
            if crate in listed() and not words_in(crate).issuperset(it for it in names if "*" not in it):
                yield f"{page}: there is no {path}"


def faults() -> list[str]:
    left = list(calls())
    for page in PAGES:
        for block in BETWEEN.split((TOP / page).read_text()):
            paths = list(paths_in(block))
            words = {word for path in paths for word in path.split("::")}
            left = [it for it in left if not is_named(it, paths, words)]
    return [*gone(), *(f"{it.file.relative_to(TOP)}: {it.shown()}" for it in left)]
