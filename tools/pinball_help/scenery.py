"""The texts of a machine with their outlines, and what they define."""
import re
from dataclasses import dataclass
from functools import cached_property
from itertools import accumulate
from typing import Iterator

from . import outline
from .blocks import Blocks
from .outline import Entry, Node
from .texts import MACHINE, Texts, mode_text, plain


@dataclass(frozen=True)
class Place:
    """A name where it is written: in the text `text`, as a key or as an item of the value of `entry`."""

    text: str
    line: int  # from 0, as all lines of a copy
    entry: Entry
    item: Node | None  # none where the name is the key


class Scenery:
    """The texts of a machine, as they are or in a copy.

    A copy is made from the scenery `before` it: it keeps its anchors, and the outlines of texts that are the same."""

    def __init__(self, texts: Texts, before: "Scenery | None" = None):
        self.texts = texts
        self.anchors: dict[str, str] = before.anchors if before else anchors_of(texts)
        known = before.outlines if before else {}
        same = [name for name in known if before and before.texts[name] is texts.get(name)]
        others = {name: outline.read(plain(lines)) for name, lines in texts.items() if name not in same}
        self.by_line: dict[str, dict[int, list[Entry]]] = {}
        self.items_by_line: dict[str, dict[int, list[tuple[Entry, Node]]]] = {}
        self.twins: dict[str, dict[int, tuple[Entry, Entry]]] = {}
        self.greatest: dict[str, list[int]] = {}
        self.outlines: dict[str, Node] = {name: others.get(name) or known[name] for name in texts}
        self.known_blocks = {name: it for name, it in (before.known_blocks if before else {}).items() if name in same}

    @cached_property
    def modes(self) -> list[str]:
        """The modes that are listed, in their order."""
        listed = self.outlines[MACHINE].at("modes") if MACHINE in self.outlines else None
        return [item.text for item in listed.texts()] if listed else []

    @cached_property
    def read(self) -> list[str]:
        """The texts that the program reads, in its order."""
        return [name for name in (MACHINE, *map(mode_text, self.modes)) if name in self.texts]

    def blocks(self, text: str) -> Blocks:
        """The lines of a text as blocks."""
        if text not in self.known_blocks:
            self.known_blocks[text] = Blocks(plain(self.texts[text]))
        return self.known_blocks[text]

    def owner(self, text: str) -> str:
        found = re.match(r"modes/([^/]+)/", text)
        return found[1] if found else "machine"

    def number(self, text: str, line: int) -> int:
        """The number in the user's file of a line of the copy, from 1; 0 where the file has none."""
        lines = self.texts.get(text, [])
        return lines[line].number if 0 <= line < len(lines) else 0

    def number_before(self, text: str, line: int) -> int:
        """The greatest number in the user's file of the lines above one of the copy; 0 where there is none."""
        if text not in self.greatest:
            self.greatest[text] = [0, *accumulate((it.number for it in self.texts.get(text, [])), max)]
        return self.greatest[text][min(line, len(self.greatest[text]) - 1)]

    def where(self, text: str, line: int) -> str:
        return f"{text}:{self.number(text, line)}"

    def entries_of(self, section: str) -> Iterator[tuple[str, Entry]]:
        """The entries of a section, in all texts that are read."""
        for text in self.read:
            for top in self.outlines[text].entries or []:
                if top.key == section:
                    yield from ((text, entry) for entry in top.value.entries or [])

    def defined(self, section: str) -> dict[str, tuple[str, Entry]]:
        found: dict[str, tuple[str, Entry]] = {}
        for text, entry in self.entries_of(section):
            found.setdefault(entry.key, (text, entry))
        return found

    def entry_at(self, text: str, line: int, key: str) -> Entry | None:
        found = self.entries_at(text, line)
        return next((entry for entry in found if entry.key == key), found[0] if found else None)

    def entries_at(self, text: str, line: int) -> list[Entry]:
        """The entries that begin in a line."""
        if text not in self.by_line:
            found: dict[int, list[Entry]] = {}
            for entry in outline.entries(self.outlines.get(text, Node(0))):
                found.setdefault(entry.line, []).append(entry)
            self.by_line[text] = found
        return self.by_line[text].get(line, [])

    def items_at(self, text: str, line: int) -> list[tuple[Entry, Node]]:
        """The mappings in lists that begin in a line, each with the entry that has the list."""
        if text not in self.items_by_line:
            found: dict[int, list[tuple[Entry, Node]]] = {}
            for entry in outline.entries(self.outlines.get(text, Node(0))):
                for item in entry.value.items or []:
                    if item.entries is not None:
                        found.setdefault(item.line, []).append((entry, item))
            self.items_by_line[text] = found
        return self.items_by_line[text].get(line, [])

    def twins_at(self, text: str, line: int) -> tuple[Entry, Entry] | None:
        """The entry of a line whose key is there before in the same block, after that earlier entry."""
        if text not in self.twins:
            seen: dict[tuple[int, str], Entry] = {}
            found: dict[int, tuple[Entry, Entry]] = {}
            for entry in outline.entries(self.outlines.get(text, Node(0))):
                outer = id(entry.path[-1].value) if entry.path else 0
                first = seen.setdefault((outer, entry.key), entry)
                if first is not entry:
                    found.setdefault(entry.line, (first, entry))
            self.twins[text] = found
        return self.twins[text].get(line)

    def around(self, text: str, line: int) -> Entry | None:
        """The innermost entry that a line belongs to."""
        for first in range(line, -1, -1):
            for entry in reversed(self.entries_at(text, first)):
                if line < max(entry.last, entry.line + 1):
                    return entry
        return None

    def places(self, text: str, line: int, name: str) -> Iterator[Place]:
        """Where a name is written in a line."""
        for entry in outline.entries(self.outlines.get(text, Node(0))):
            if entry.line == line and entry.key == name:
                yield Place(text, line, entry, None)
            for item in entry.value.texts():
                if item.line == line and item.text.split("{")[0] == name:
                    yield Place(text, line, entry, item)


def anchors_of(texts: Texts) -> dict[str, str]:
    """The value of each anchor."""
    found = {}
    for lines in texts.values():
        for line in plain(lines):
            for it in re.finditer(r"(?:^|\s)&([\w-]+)\s+([^#]*)", line):
                found[it[1]] = it[2].strip()
    return found


def section_of(entry: Entry) -> str:
    return entry.path[0].key if entry.path else entry.key


def siblings_of(entry: Entry) -> list[Entry]:
    return entry.path[-1].value.entries or [] if entry.path else []


def action_of(coil: Entry) -> str:
    """What a coil does in an entry of a `coil_player`."""
    return (coil.value.at("action") or coil.value).text


def setting_table(entry: Entry) -> str:
    """The section whose table has the setting `entry`."""
    inside = [it.key for it in entry.path]
    return "control_events" if "control_events" in inside else section_of(entry)


def raw(texts: Texts, text: str, entry: Entry) -> str:
    """The value of an entry as it is written, its lines joined."""
    lines = plain(texts[text])
    if entry.in_braces:
        return lines[entry.line][entry.value.start : entry.value.end].strip()
    head = outline.without_comment(lines[entry.line].rstrip("\r"))[entry.end :].lstrip().removeprefix(":").strip()
    rest = [outline.without_comment(line.rstrip("\r")).strip() for line in lines[entry.line + 1 : entry.last]]
    return " ".join(it for it in [head, *rest] if it)
