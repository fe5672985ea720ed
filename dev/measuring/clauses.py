"""Counts the clauses that functions ensure.

Prints a table in Markdown. A line for each crate, and one for all, has the number of clauses `ensures` in src/, of
those longer than 160 and than 200 characters, and of those that cite a `_view`. A clause is as long as all of it would
be on one line, from `ensures` to its last brace."""
import argparse
import re
from collections.abc import Iterable
from pathlib import Path
from typing import NamedTuple

from sources.rooms import TOP

CLAUSE = re.compile(r"^ *ensures\b[^{\n]*\{", re.M)
LITERAL = re.compile(r"""'"'|"(?:[^"\\\n]|\\.)*["]""")
BOUNDS = (160, 200)


class Clause(NamedTuple):
    crate: str
    place: str
    text: str
    inside: str


def clauses_in(file: Path) -> Iterable[Clause]:
    text = file.read_text()
    # braces in literals are no braces of the clause
    plain = LITERAL.sub(lambda it: "_" * len(it[0]), text)
    for head in CLAUSE.finditer(plain):
        end = after_brace(plain, head.end())
        whole, inside = (" ".join(text[start:end].split()) for start in (head.start(), head.end()))
        place = f"{file.relative_to(TOP)}:{text.count(chr(10), 0, head.start()) + 1}"
        yield Clause(file.relative_to(TOP).parts[1], place, whole, inside.removesuffix("}").strip())


def after_brace(text: str, start: int) -> int:
    """The place behind the brace that closes the one before the start."""
    depth = 1
    for brace in re.compile(r"[{}]").finditer(text, start):
        depth += 1 if brace[0] == "{" else -1
        if depth == 0:
            return brace.end()
    return len(text)


def row(name: str, texts: list[str]) -> str:
    longer = [sum(len(it) > bound for it in texts) for bound in BOUNDS]
    viewed = sum(bool(re.search(r"_view\b", it)) for it in texts)
    return f"| {name} | {' | '.join(f'{it:,}' for it in (len(texts), *longer, viewed))} |"


def add_words(parser: argparse.ArgumentParser) -> None:
    parser.add_argument("--inside", action="store_true", help="count only the text between the braces")
    parser.add_argument("--longest", type=int, metavar="N",
                        help="print the N longest clauses in place of the table, with their lengths and places")


def main(words: argparse.Namespace) -> int:
    clauses = [it for file in sorted(TOP.glob("crates/*/src/**/*.rt")) for it in clauses_in(file)]
    texts = [(it, it.inside if words.inside else it.text) for it in clauses]
    if words.longest is not None:
        for clause, text in sorted(texts, key=lambda it: -len(it[1]))[: words.longest]:
            print(f"{len(text)} {clause.place}: {text}")
        return 0
    print(f"| Crate | `ensures` | {' | '.join(f'above {it}' for it in BOUNDS)} | with `_view` |")
    print("|---|---|---|---|---|")
    for crate in dict.fromkeys(it.crate for it in clauses):
        print(row(f"`{crate}`", [text for clause, text in texts if clause.crate == crate]))
    print(row("all", [text for _, text in texts]))
    return 0
