"""What each crate cites of the crates below it.

A crate may cite the public code of a crate below, the definitions in its specs/, and the lemmas in its proofs/ that are
`pub`. It may cite no definition from proofs/, nothing from the proofs of a function, and nothing private. In proofs/
all is a definition that is declared by `abbrev`, `record` or `data`, or that ends in a value. All else is a lemma.

A fault is `FILE:LINE: NAME of CRATE.proofs.FILE is a definition`."""
import re
from collections.abc import Iterable
from pathlib import Path

from sources.antt_imports import without_imports
from sources.citable import items_of
from sources.declared import COMMENT, NAME, Cited, imports_in, is_lemma, names_in, text_of
from sources.rooms import TOP, below, listed

# A name with its whole path, in the midst of a text.
FULL_NAME = re.compile(rf"\bRattle\.(\w+)\.(specs|proofs)\.([\w.]+)\.({NAME})")


# ---- what a text cites


def line_at(text: str, place: int) -> int:
    return text.count("\n", 0, place) + 1


def cited_in(text: str) -> Iterable[Cited]:
    """What a text cites: by imports, through a file that it imports, and by whole paths."""
    body = without_imports(text)
    for here, cited in imports_in(text):
        yield cited
        if not cited.name:
            for it in re.finditer(rf"(?<![\w.]){re.escape(here)}\.({NAME})", body):
                yield cited._replace(line=line_at(body, it.start()), name=it[1])
    yield from (Cited(line_at(body, it.start()), it[1], it[2], it[3], it[4]) for it in FULL_NAME.finditer(body))


def breach_of(cited: Cited) -> str:
    """Why a crate above may not cite a name; nothing if it may."""
    parts = cited.file.split(".")
    if cited.room == "specs" and parts[0] in ("declared", "contracts"):
        return "" if is_public_code(cited) else "is private"
    if is_of_function(cited, parts[0]):
        return "is from the proofs of a function"
    # what is left of a path behind its file is a module in that file
    while parts and not text_of(cited.crate, cited.room, ".".join(parts)):
        parts.pop()
    marks = [mark_of(cited, parts[:size]) for size in range(1, len(parts) + 1)]
    if not parts or None in marks:
        return "is not there"
    if "" in marks:
        return "is private"
    return breach_in(cited, text_of(cited.crate, cited.room, ".".join(parts))) if cited.name else ""


def mark_of(cited: Cited, parts: list[str]) -> str | None:
    """How a file is declared, which its folder's file does: `pub `, or nothing, or None if it is not declared."""
    above = text_of(cited.crate, cited.room, ".".join(parts[:-1]) or "Lib")
    found = re.search(rf"^(pub )?mod {parts[-1]}$", above, re.M)
    return (found[1] or "") if found else None


def is_of_function(cited: Cited, folder: str) -> bool:
    """Whether a folder of proofs/ is that of a file of code or of a function, since lemmas are declared."""
    is_folder = (TOP / "crates" / cited.crate / "proofs" / folder).is_dir()
    return cited.room == "proofs" and is_folder and mark_of(cited, [folder]) is None


def breach_in(cited: Cited, text: str) -> str:
    """The same for a name in the text of a file, which may pass the name on from another."""
    declared = names_in(text).get(cited.name)
    if declared and not declared.public:
        return "is private"
    if declared:
        return "" if cited.room == "specs" or is_lemma(declared, text) else "is a definition"
    passed_on = dict(imports_in(text, "pub")).get(cited.name)
    if not passed_on:
        return "is not there"
    return breach_of(passed_on) if passed_on.crate in listed() else ""


def is_public_code(cited: Cited) -> bool:
    """Whether crates above can name a type, a constant or a function of the code."""
    _, source, *inner = *cited.file.split("."), cited.name
    file = TOP / "crates" / cited.crate / "src" / f"{source}.rt"
    return not file.exists() or inner[0] in {it.name for it in items_of(file)}


# ---- all crates


def files_of(crate: str) -> list[Path]:
    folder = TOP / "crates" / crate
    return sorted([*folder.glob("src/**/*.rt"), *folder.glob("specs/**/*.antt"), *folder.glob("proofs/**/*.antt")])


def cited_below(crate: str, file: Path) -> Iterable[Cited]:
    """What a file of a crate cites of the crates below, each where it is cited first."""
    first: dict[tuple[str, ...], Cited] = {}
    for cited in cited_in(COMMENT.sub("", file.read_text())):
        if cited.crate in below(crate) - {crate}:
            first.setdefault(cited[1:], cited)
    return first.values()


def all_cited() -> Iterable[tuple[str, Path, Cited]]:
    """What crates cite of those below them: the crate, the file and what it cites."""
    files = ((crate, file) for crate in listed() for file in files_of(crate))
    return ((crate, file, cited) for crate, file in files for cited in cited_below(crate, file))


def faults() -> list[str]:
    found = []
    for _, file, cited in all_cited():
        if why := breach_of(cited):
            name = f"{cited.name or 'all'} of {cited.crate}.{cited.room}.{cited.file}"
            found.append(f"{file.relative_to(TOP)}:{cited.line}: {name} {why}")
    return found
