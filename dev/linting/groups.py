"""Whether imports that share a path are on one line, in the headers of the files in specs/ and proofs/.

Imports from modules of one crate are one import, `use Rattle.CRATE.specs.{Bytes.{a, b}, Rows.c}`, if its line has at
most 120 characters. Those with the longest common path go together first. The import is where the first of them was. An
import that is too long by itself stays as it is. So do those that name a module (`use M as n`), those that pass names
on (`pub use`), and comments."""
import re
from collections.abc import Iterable
from itertools import combinations, groupby
from os.path import commonprefix
from pathlib import Path

from sources.antt_imports import Import, Use, line_of, uses_in
from sources.rooms import TOP, listed

WIDTH = 120
# A line that is not blank and no comment. The first one that is no import ends the header.
DECLARES = re.compile(r"^ *(?!--)\S", re.M)
# The names that one line imports, in the order in which they were in the file.
Group = tuple[Import, ...]


def open_uses(text: str) -> Iterable[Use]:
    """The imports of the header that may share a line with others. One with a comment behind it may not."""
    end = 0
    for use in uses_in(text):
        if DECLARES.search(text, end, use.start):
            return
        end = use.end
        takes_names = not use.marks and use.imports and all(it.name for it in use.imports)
        is_long = len({it.module for it in use.imports}) == 1 and len(line_of(use.imports)) > WIDTH
        if takes_names and not is_long and text.startswith("\n", end):
            yield use


def rank(group: Group) -> tuple[bool, int, int, list[tuple[str, ...]]]:
    """The group of the lowest rank is made first: of one module, with a longer common path, with a shorter line.

    Places do not count, so the tool makes the same groups again of what it has written."""
    common = commonprefix([it.module.split(".") for it in group])
    is_mixed = any(it.module != group[0].module for it in group)
    return is_mixed, -len(common), len(line_of(group)), sorted(it[2:] for it in group)


def joined(groups: list[Group]) -> list[Group]:
    """Joins groups of one crate as long as two of them have room on one line."""
    while True:
        pairs = [(tuple(sorted(one + other)), one, other) for one, other in combinations(groups, 2)]
        pairs = [it for it in pairs if len(line_of(it[0])) <= WIDTH]
        if not pairs:
            return groups
        both, *parts = min(pairs, key=lambda it: rank(it[0]))
        groups = [both, *(it for it in groups if it not in parts)]


def rewritten(text: str) -> str:
    """A text with the imports of its header grouped."""
    uses = list(open_uses(text))
    crates: dict[tuple[str, ...], list[Group]] = {}
    for (_, module), names in groupby((it for use in uses for it in use.imports), lambda it: (it.line, it.module)):
        crates.setdefault(tuple(module.split(".")[:2]), []).append(tuple(names))
    groups = sorted(it for groups in crates.values() for it in joined(groups))
    new, end = "", 0
    for use in uses:
        lines = [line_of(it) + "\n" for it in groups if it[0].line == use.imports[0].line]
        new += text[end : use.start] + "".join(lines)
        end = use.end + 1
    return new + text[end:]


def ungrouped() -> dict[Path, str]:
    """The files whose imports are to be grouped, each with its new text."""
    files = [it for crate in listed() for room in ("specs", "proofs")
             for it in sorted((TOP / "crates" / crate / room).rglob("*.antt")) if it.name != "Lib.antt"]
    return {it: new for it in files if (new := rewritten(old := it.read_text())) != old}


def faults() -> list[str]:
    return [f"{it.relative_to(TOP)}: imports that share a path are on several lines" for it in ungrouped()]


def fix() -> None:
    for file, new in ungrouped().items():
        file.write_text(new)
        print(f"rewrote {file.relative_to(TOP)}")
