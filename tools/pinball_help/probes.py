"""Asks the program about parts of a machine: one section, or one entry, of one text.

A part is a text in which all other lines are empty. So a mistake in one place hides none in another."""
import hashlib
from concurrent.futures import ThreadPoolExecutor
from dataclasses import dataclass, replace

from .answers import Answer, Complaint, moved
from .blocks import Block, Blocks, Part, begins_section
from .program import Program
from .scenery import Scenery
from .texts import MACHINE, VERSION, Edit, Texts, edited, plain

WORKERS = 4
MOST_LEFT_OUT = 8  # errors beside the one that is mended
AT_ONCE = 32  # entries
BATCHES = 32  # of the sections of a text: it may have thousands


def is_error(complaint: Complaint) -> bool:
    return complaint.message.startswith("error")


@dataclass(frozen=True)
class Verdict:
    """What is the first error of an edited entry, and whether it has one at a line that the edit has changed, or at the
    head of the section."""

    error: Complaint | None
    at_edit: bool


@dataclass(frozen=True)
class Trial:
    """The entries that edits change, as they are after these. Other lines are empty."""

    lines: list[str]
    is_changed: list[bool]
    above: int  # lines of the text before these
    more: int  # lines in the text than before the edits


class OutOfTime(Exception):
    """The search has taken too long."""


class Probes:
    """Asks for so many seconds of processor time: then it raises OutOfTime."""

    def __init__(self, program: Program, within: float):
        self.program, self.until = program, program.seconds() + within
        self.found: list[Complaint] = []  # since `begin`
        self.known: dict[tuple[str, bytes], Complaint | None] = {}
        self.workers = ThreadPoolExecutor(WORKERS)

    def is_in_time(self) -> bool:
        """Always. Raises OutOfTime if it is too late."""
        if self.program.seconds() > self.until:
            raise OutOfTime
        return True

    def answer(self, texts: Texts) -> Answer:
        return self.program.check_texts({name: plain(lines) for name, lines in texts.items()})

    def first_error(self, owner: str, text: str, part: Part) -> Complaint | None:
        """The first error of a part of a text.

        The empty lines before its content are left out. So it is known if it comes again at another place."""
        self.is_in_time()
        first = next((at for at, line in enumerate(part.lines) if line), len(part.lines))
        found = self.first_error_of(owner, text, "\n".join(part.lines[first:]))
        return moved(found, part.above + first - 1) if found else None

    def first_error_of(self, owner: str, text: str, words: str) -> Complaint | None:
        """The first error of a text that has these words below its first line."""
        key = (text, hashlib.blake2b(words.encode("utf-8", "surrogateescape")).digest())
        if key not in self.known:
            texts = {text: [VERSION, words]}
            if text != MACHINE:
                texts = {MACHINE: [VERSION, f"modes: {owner}"], **texts}
            first = next(iter(self.program.check_texts(texts).complaints), None)
            self.known[key] = first if first and is_error(first) and first.text == text else None
        return self.known[key]

    def head_error(self, scene: Scenery, text: str) -> Complaint | None:
        """The error of the first line of a text, if that is no version."""
        lines = plain(scene.texts[text])
        if lines and lines[0].rstrip(" \t\r") == VERSION:
            return None
        stub = {} if text == MACHINE else {MACHINE: [VERSION, f"modes: {scene.owner(text)}"]}
        first = next(iter(self.program.check_texts({**stub, text: lines[:1]}).complaints), None)
        return first if first and first.name == "Version" else None

    def first_errors(self, scene: Scenery, text: str) -> list[Complaint]:
        """The first error of each entry of a text."""
        owner, blocks = scene.owner(text), scene.blocks(text)
        if self.first_error(owner, text, Part(tuple(blocks.lines[1:]), 1)) is None:
            return []
        batches = [blocks.sections[at::BATCHES] for at in range(BATCHES)]
        found = self.workers.map(lambda it: self.errors_of_sections(owner, text, blocks, it), batches)
        return sorted((it for complaints in found for it in complaints), key=lambda it: it.line)

    def errors_of_sections(self, owner: str, text: str, blocks: Blocks, sections: list[Block]) -> list[Complaint]:
        return [found for it in sections for found in self.errors_of_section(owner, text, blocks, it)]

    def errors_of_section(self, owner: str, text: str, blocks: Blocks, section: Block) -> list[Complaint]:
        """The first error of each entry, first the faults of YAML.

        If there are any, the other errors wait until these are mended: how to mend an error is found in the outline of
        the text, which may be wrong until then. If there are none, no entry changes how another one is read: so they
        are asked about some at a time, as all of them may be many."""
        lines, head = {*range(section.first, section.last)}, blocks.head_of(section)
        first = self.error_of_part(owner, text, blocks, section, lines)
        if first is None or first.name == "Yaml" or first.line - 1 <= head:
            return self.errors_of_lines(owner, text, blocks, section, lines)
        entries, found = blocks.entries_of(section), []
        for at in range(0, len(entries), AT_ONCE):
            some = {head, *range(entries[at].first, entries[at : at + AT_ONCE][-1].last)}
            found += self.errors_of_lines(owner, text, blocks, section, some)
        return found

    def errors_of_lines(
        self, owner: str, text: str, blocks: Blocks, section: Block, kept: set[int]
    ) -> list[Complaint]:
        """The first error of each entry in some lines of a section: each that is found is left out, and the rest is
        asked about again."""
        found: list[Complaint] = []
        while kept and (complaint := self.error_of_part(owner, text, blocks, section, kept)):
            at = complaint.line - 1
            entry = blocks.entry_at(section, at) if section.first <= at < section.last else section
            out = kept & {*range(entry.first, entry.last)}
            if not out or found and found[0].name == "Yaml" and complaint.name != "Yaml":
                break
            kept = kept - out
            found.append(complaint)
            self.found.append(complaint)
        return found

    def error_of_part(
        self, owner: str, text: str, blocks: Blocks, section: Block, kept: set[int]
    ) -> Complaint | None:
        """The first error of the lines of a section that are kept."""
        found = self.first_error(owner, text, blocks.framed(section, kept))
        is_own = found is None or found.line - 1 in kept
        return found if is_own else self.first_error(owner, text, blocks.part(section, kept))

    def verdict(self, scene: Scenery, complaint: Complaint, edits: tuple[Edit, ...]) -> Verdict:
        """What is wrong after edits that are to mend a complaint, in the entries that they change."""
        owner, trial = scene.owner(complaint.text), trial_of(scene, complaint, edits)
        error = self.first_error(owner, complaint.text, Part(tuple(trial.lines), trial.above))
        first = replace(error, line=error.line - trial.more) if error else None  # its line is that before the edits
        is_in_vain = first and first.name == "Yaml" and first.line <= complaint.line
        return Verdict(first, not is_in_vain and self.is_at_edit(owner, complaint.text, trial, error))

    def is_at_edit(self, owner: str, text: str, trial: Trial, error: Complaint | None) -> bool:
        """Whether there is an error at a line that edits have changed, or at the head of a section.

        What is wrong at another line is left out for this: that line with all that is deeper, or, if it is a fault of
        YAML, all that follows."""
        lines = list(trial.lines)
        for _ in range(MOST_LEFT_OUT):
            at = error.line - 1 - trial.above if error else -1
            if not error or not 0 <= at < len(lines):
                return False
            if trial.is_changed[at] or begins_section(lines[at]):
                return True
            last = len(lines) if error.name == "Yaml" else Blocks(lines).end_of(at)
            lines[at:last] = [""] * (last - at)
            error = self.first_error(owner, text, Part(tuple(lines), trial.above))
        return False


def trial_of(scene: Scenery, complaint: Complaint, edits: tuple[Edit, ...]) -> Trial:
    before = scene.texts[complaint.text]
    own = [it for it in edits if it.text == complaint.text]
    kept = around(scene.blocks(complaint.text), complaint.line - 1, own)
    first, last = max(1, min(kept)), max(kept) + 1
    after = edited(scene.texts, edits)[complaint.text]
    more = len(after) - len(before)
    old = {id(before[at]): at for at in range(first, last)}
    here = [(line.text, old.get(id(line))) for line in after[first : last + more]]
    lines = ["" if at is not None and at not in kept else line for line, at in here]
    return Trial(lines, [at is None for _, at in here], first, more)


def around(blocks: Blocks, at: int, edits: list[Edit]) -> set[int]:
    """The lines of the entries that are at a line, or that edits change, with the heads of their sections."""
    inside: set[int] = set()
    heads: set[int] = set()
    for place in (at, *(it.first for it in edits), *(max(it.first, it.last - 1) for it in edits)):
        if place not in inside:
            section = blocks.section_at(place)
            entry = blocks.entry_at(section, min(place, len(blocks.lines) - 1))
            inside |= {*range(entry.first, entry.last)}
            heads.add(blocks.head_of(section))
    return inside | heads
