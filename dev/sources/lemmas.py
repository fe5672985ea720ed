"""Reads files of lemmas, and tries changes of them on the prover, in rounds.

A crate is checked in a room of its own, over the libraries that `dev/check_all` or the gate (`tools/test`) built in this
checkout. Each round is one check, so a large crate takes many minutes."""
import argparse
import re
import subprocess
import tempfile
from collections.abc import Callable, Iterator
from dataclasses import dataclass
from pathlib import Path
from typing import NamedTuple, TypeVar

from .antt_imports import imports_in
from .rooms import TOP, check_over_gate, listed, room_of

# The first line of a lemma, with its name.
SIGNATURE = re.compile(r"^( *)(?:pub )?([^\s:(){}=.,;λ]+) :(?: |$)", re.M)
NAME = re.compile(r"[^\s(){},;.:λ∷∙\[\]=]+")
# What the prover says of a line that it refuses, and not only because of another line.
COMPLAINT = re.compile(r"^(?:so far: )?\./proofs/(\S+\.antt):(\d+):\d+: error: (?!.*(?:was|were) not checked)", re.M)
# What a line is of, as a tool sees it.
Owner = TypeVar("Owner")


class Block(NamedTuple):
    """A lemma: its name, the lines that state it, and those of each case. Another line has no cases."""

    name: str
    head: list[str]
    cases: list[list[str]]

    def proof(self) -> list[str]:
        return [line for case in self.cases for line in case]

    def lines(self) -> list[str]:
        return self.head + self.proof()


def indent(line: str) -> int:
    return len(line) - len(line.lstrip())


def pieces(text: str, between: str) -> list[str]:
    """Splits a text at letters that are in no bracket and in no quotes. It ends with the bracket that it is in."""
    found, depth, is_quoted = [""], 0, False
    for letter in text:
        is_quoted ^= letter == '"'
        depth += 0 if is_quoted else (letter in "({[") - (letter in ")}]")
        if depth < 0:
            break
        if depth == 0 and not is_quoted and letter in between:
            found.append("")
        else:
            found[-1] += letter
    return [it for it in found if it]


def words_of(text: str) -> list[str]:
    return pieces(text, " \n")


def blocks_of(lines: list[str]) -> Iterator[Block]:
    """The lemmas and the other lines of a file, or of a part of it."""
    at = 0
    while at < len(lines):
        start, found = at, SIGNATURE.match(lines[at])
        at += 1
        if not found:
            yield Block("", [lines[start]], [])
            continue
        depth, name = len(found[1]), found[2]
        while at < len(lines) and lines[at].strip() and (
                indent(lines[at]) > depth or lines[at].lstrip().startswith("unfolding ")):
            at += 1
        head, cases = lines[start:at], []
        while at < len(lines) and indent(lines[at]) == depth and words_of(lines[at])[:1] == [name]:
            end = case_end(lines, at)
            cases.append(lines[at:end])
            at = end
        yield Block(name, head, cases)


def case_end(lines: list[str], start: int) -> int:
    """Where a case ends: at the first line that is no deeper, but for a closing bracket."""
    end = start + 1
    for at in range(end, len(lines)):
        line, is_next = lines[at].strip(), at == end
        if line:
            is_inside = indent(lines[at]) > indent(lines[start]) or (is_next and line[0] in "}])")
            if not is_inside or (line.startswith("--") and not is_next):
                break
            end = at + 1
    return end


def stated(text: str) -> set[str]:
    return {it[2] for it in SIGNATURE.finditer(text)}


def lemmas_of(text: str) -> set[str]:
    """What a proof in a file may cite: what the file states, and what it imports from the proofs of others."""
    brought = (it for it in imports_in(text) if "proofs" in it.module.split("."))
    return stated(text) | {it.here for it in brought if re.search(r"[-_]", it.name)}


def cited(lines: list[str], own: str, lemmas: set[str]) -> list[str]:
    """The lemmas that a proof names, but for its own and those that it states itself."""
    text = "\n".join(lines)
    others = lemmas - {own} - stated(text)
    return list(dict.fromkeys(it for it in NAME.findall(text) if it in others))


def search_by(names: list[str]) -> str:
    return f"search (rules, {', '.join(names)})" if names else "search rules"


def searches_in(text: str) -> list[list[str]]:
    """What each search of a text cites that cites something."""
    found = re.finditer(r"\bsearch \(rules, ", text)
    return [[it.strip() for it in pieces(text[begin.end() :], ",")] for begin in found]


def with_searches(line: str, change: Callable[[list[str]], list[str]]) -> str:
    """A line in which each search that cites something cites what `change` makes of that."""
    for names in searches_in(line):
        line = line.replace(search_by(names), search_by(change(names)))
    return line


@dataclass
class Trial:
    """A crate in a room of its own, and the texts of files of its proofs as they were last proved."""

    folder: Path
    texts: dict[str, str]

    def rounds(self, shown: Callable[[], dict[str, list[tuple[str, Owner]]]],
               refuse: Callable[[list[Owner]], int]) -> bool:
        """Checks the lines of `shown` until all is proved. `refuse` gets the owners of the refused lines.

        It says how many things it changes. If it changes nothing more, the texts stay as they were."""
        while True:
            files = shown()
            texts = {name: "\n".join(line for line, _ in lines) + "\n" for name, lines in files.items()}
            if texts == self.texts:
                return True
            for name, text in texts.items():
                (self.folder / "proofs" / name).write_text(text)
            status, said = check_over_gate(self.folder)
            if status == 0:
                self.texts = texts
                return True
            places = [(files.get(it[1], []), int(it[2])) for it in COMPLAINT.finditer(said)]
            changed = refuse([lines[at - 1][1] for lines, at in places if at <= len(lines)])
            print(f"{self.folder.name}: {sum(map(len, files.values()))} lines, {changed} refused", flush=True)
            if not changed:
                print(said[-2000:], flush=True)
                return False


def crates_named(parser: argparse.ArgumentParser) -> argparse.Namespace:
    """The words of the command line, with the crates whose proofs a tool is to change."""
    parser.add_argument("crates", nargs="+", metavar="CRATE", choices=list(listed()))
    words = parser.parse_args()
    proofs = [f"crates/{it}/proofs" for it in words.crates]
    if subprocess.call(["git", "-C", str(TOP), "diff", "--quiet", "--", *proofs]) != 0:
        parser.error("commit the changes of their proofs first")
    return words


def improve(crate: str, pattern: str, work: Callable[[Trial], bool]) -> bool:
    """Lets a tool work on the files of the proofs of a crate that have these names, and keeps what is proved."""
    proofs = TOP / "crates" / crate / "proofs"
    before = {str(it.relative_to(proofs)): it.read_text() for it in sorted(proofs.glob(pattern))
              if it.name != "Lib.antt"}
    with tempfile.TemporaryDirectory(prefix="lemmas-") as room:
        trial = Trial(room_of(crate, Path(room)), before)
        is_proved = work(trial)
    for name, text in trial.texts.items():
        if text != before[name]:
            (proofs / name).write_text(text)
    lines = [sum(it.count("\n") for it in texts.values()) for texts in (trial.texts, before)]
    print(f"{crate}: {lines[0]} lines, {lines[1]} before", flush=True)
    return is_proved
