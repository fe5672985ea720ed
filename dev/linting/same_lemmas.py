"""Lemmas that are in several files, or in one file and in the kit.

Looks at the lemmas that begin a line in crates/*/proofs/*.antt, and at those on the pages of the kit's `std/lemmas`.
Two are the same if their types are the same as they are written, but for the names of arguments. So it can miss one. A
fault is the type of the lemma, with a line `FILE:LINE: NAME` for each place."""
import re
from collections import defaultdict
from collections.abc import Iterator
from pathlib import Path

from sources.antt_imports import imports_in
from sources.declared import names_in
from sources.lemmas import blocks_of
from sources.rooms import TOP, kit, listed

# A name or a sign; a dot after a name begins a field.
WORD = re.compile(r"[^\s(){}\[\],;.λ]+")
BINDER = re.compile(r"([({])([^(){}:]+?) : ")
SIDE_BY_SIDE = re.compile(r"\(([^(){}:]+) : ([^(){}]+)\) \(([^(){}:]+) : \2\)")
# A lemma on a page of the kit.
OF_PAGE = re.compile(r"^pub ([^\s:]+)(?: (\{.*?\}))? : (.*)$", re.M)


def meanings(file: Path, text: str) -> dict[str, str]:
    """What the names of a file mean. Those of the kit mean themselves, since it passes them on."""
    found = {it: f"{file}.{it}" for it in names_in(text)}
    for it in imports_in(text):
        found[it.here] = it.name if re.match(r"Rattle\.(?:std|core)\b", it.module) else f"{it.module}.{it.name}"
    return found


def shape_of(its_type: str, means: dict[str, str]) -> str:
    """A type in which arguments have numbers as names, and those of one type that are side by side are together."""
    text, before = re.sub(r"([)}]) → (?=[({])", r"\1 ", " ".join(its_type.split())), ""
    while text != before:
        before, text = text, SIDE_BY_SIDE.sub(r"(\1 \3 : \2)", text)
    bound = [name for it in BINDER.finditer(text) for name in it[2].split()]
    numbers = {name: f"#{at}" for at, name in enumerate(dict.fromkeys(bound))}
    return WORD.sub(lambda it: numbers.get(it[0]) or means.get(it[0], it[0]), text)


def lemmas_in(file: Path) -> Iterator[tuple[str, str, str]]:
    """The lemmas of a file: the shape and the text of the type of each, and its place with its name."""
    text, line = file.read_text(), 1
    means = meanings(file, text)
    for block in blocks_of(text.splitlines()):
        its_type = " ".join("\n".join(block.head).partition(" :")[2].split())
        if block.cases and not block.head[0].startswith(" "):
            place = f"{file.relative_to(TOP)}:{line}: {block.name}"
            yield shape_of(its_type, means), its_type, place
        line += len(block.lines())


def of_kit() -> Iterator[tuple[str, str]]:
    """The lemmas on the pages of the kit: the shape of the type of each, and the module with its name."""
    pages = kit() / "rattle" / "std" / "lemmas"
    for page in sorted(pages.rglob("*.md")):
        module = ".".join(page.relative_to(pages).with_suffix("").parts)
        for name, implicit, its_type in OF_PAGE.findall(page.read_text()):
            shape = shape_of(f"{implicit} {its_type.split(' -- ')[0]}", {})
            yield shape, f"Rattle.std.proofs.lemmas.{module}: {name}"


def faults() -> list[str]:
    places: dict[str, list[str]] = defaultdict(list)
    types: dict[str, str] = {}
    for crate in listed():
        for file in sorted((TOP / "crates" / crate / "proofs").glob("*.antt")):
            for shape, its_type, place in lemmas_in(file):
                types.setdefault(shape, its_type)
                places[shape].append(place)
    for shape, place in of_kit():
        if shape in places:
            places[shape].append(place)
    same = {it: found for it, found in places.items() if len({one.partition(":")[0] for one in found}) > 1}
    return ["\n    ".join([types[it], *found]) for it, found in sorted(same.items(), key=lambda it: types[it[0]])]
