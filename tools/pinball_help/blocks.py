"""The sections and entries of a text as blocks of lines, by indentation alone: so also those of a text with faults."""
import re
from bisect import bisect_left, bisect_right
from dataclasses import dataclass
from functools import cached_property

from .outline import KEY, indentation, is_item, without_comment
from .profile import SINGLE

WHOLE = (*SINGLE, "modes")  # sections that are judged as one entry
STAND_IN = "a_stand_in: 1"
TAB = re.compile(r"[^\S\t]*(?:-[^\S\t]*)?\t")  # (each blank is matched in one way only: a line may have many)


@dataclass(frozen=True)
class Block:
    """Lines of a text from `first` to before `last`, counted from 0."""

    first: int
    last: int


@dataclass(frozen=True)
class Part:
    """Lines of a text that are judged without the others, and how many come before them there."""

    lines: tuple[str, ...]
    above: int


def content(line: str) -> str:
    return without_comment(line.rstrip("\r"))


def begins_section(line: str) -> bool:
    """Whether a line begins a section: it has content at the left edge, and is no item of a list and no closing
    bracket."""
    return line[:1] not in ("", " ", "\t", "]", "}", "\r") and bool(content(line)) and not is_item(line)


def has_key(line: str) -> bool:
    """Whether a line is an entry, or an item of a list."""
    return is_item(line) or KEY.match(line.lstrip(" \t")) is not None


class Blocks:
    """The lines of a text, with its sections. What comes before the first section belongs to it. The first line, the
    version, is in none.

    The lines are read once, as they may be long and are asked about often."""

    def __init__(self, lines: list[str]):
        self.lines = lines
        self.bodies = [content(line) for line in lines]
        self.depths = [indentation(it) if it.strip() else -1 for it in self.bodies]  # -1: the line has no content
        self.heads = [at for at, line in enumerate(lines) if at and begins_section(line)]
        starts = [1, *self.heads[1:]]
        ends = [*self.heads[1:], len(lines)]
        self.sections = [Block(first, last) for first, last in zip(starts, ends) if first < last]
        self.starts = [it.first for it in self.sections]

    def section_at(self, at: int) -> Block:
        place = bisect_right(self.starts, at) - 1
        return self.sections[place] if place >= 0 and at < len(self.lines) else Block(0, len(self.lines))

    def head_of(self, section: Block) -> int:
        """The line of the section's name."""
        place = bisect_left(self.heads, section.first)
        return self.heads[place] if place < len(self.heads) and self.heads[place] < section.last else section.first

    def depth_of(self, section: Block) -> int:
        """The indentation of the entries of a section: that of its first line."""
        first = self.first_below(section)
        return 0 if first is None else self.depths[first]

    def first_below(self, section: Block) -> int | None:
        """The first line below a section's name that has content."""
        return next((at for at in range(self.head_of(section) + 1, section.last) if self.depths[at] >= 0), None)

    def entry_at(self, section: Block, at: int) -> Block:
        """The block of the entry of a section that a line belongs to; the whole section where it has one entry only."""
        head = self.head_of(section)
        if at <= head or self.bodies[head].partition(":")[0] in WHOLE:
            return section
        depth = self.depth_of(section)
        first, last = at, at + 1
        while first > head + 1 and not self.begins_entry(first, depth):
            first -= 1
        while last < section.last and not self.begins_entry(last, depth):
            last += 1
        return Block(first, last)

    def entries_of(self, section: Block) -> list[Block]:
        """The entries of a section."""
        first = self.first_below(section)
        found = [section if first is None else self.entry_at(section, first)]
        while found[-1].last < section.last:
            found.append(self.entry_at(section, found[-1].last))
        return found

    def begins_entry(self, at: int, depth: int) -> bool:
        """Whether an entry begins here. A line with a tab before its content is taken as deeper."""
        own = self.depths[at]
        return 0 <= own <= depth and "\t" not in self.lines[at][:own]

    def end_of(self, at: int) -> int:
        """The line after the block of a line: all that is deeper, and a list at the indentation of its key."""
        head, last = self.lines[at], at + 1
        depth = indentation(head)
        for number in range(at + 1, len(self.lines)):
            own = self.depths[number]
            is_list = own == depth and is_item(self.bodies[number]) and not is_item(head)
            if 0 <= own <= depth and not is_list:
                break
            last = number + 1 if own >= 0 else last
        return last

    @cached_property
    def tabs(self) -> list[int]:
        """The lines with a tab before their content, or after a dash."""
        return [at for at, line in enumerate(self.lines) if TAB.match(line)]

    def part(self, section: Block, kept: set[int]) -> Part:
        """The lines of a section that are kept, and empty ones in place of the others."""
        found = [self.lines[at] if at in kept else "" for at in range(section.first, section.last)]
        return Part(tuple(found), section.first)

    def framed(self, section: Block, kept: set[int]) -> Part:
        """The same, with a stand-in for what is left out before a line that would be read otherwise without it."""
        found = list(self.part(section, kept).lines)
        head = self.head_of(section)
        model = self.first_below(section)
        if model is not None and model not in kept:
            add_stand_in(found, head - section.first, self.lines[model])
        if section.first > 1 and not has_key(self.lines[head]):
            return Part((STAND_IN, *found), section.first - 1)
        return Part(tuple(found), section.first)


def add_stand_in(lines: list[str], head: int, model: str) -> None:
    """Puts a stand-in for the first entry of a section, `model`, before the line that is the first one without it.

    It does so only where it matters. A line that is no entry is an error after one, and the section's value without
    one. A line in another column is an error after one, and without one those that follow are."""
    first = next((at for at in range(head + 1, len(lines)) if content(lines[at]).strip()), 0)
    column, line = indentation(model), lines[first]
    if first < head + 2 or begins_section(line) or "\t" in model[:column]:
        return
    if not has_key(line) or indentation(line) != column:
        lines[first - 1] = " " * column + ("- " if is_item(model) else "") + STAND_IN
