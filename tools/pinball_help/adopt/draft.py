"""The new machine while it is made, and how its texts are written."""
import re
from collections import Counter
from dataclasses import dataclass, field
from functools import cache
from itertools import groupby
from typing import Iterator

from .. import tables
from ..tables import MOST_MODES, Section
from ..texts import MACHINE, VERSION, mode_text
from .source import Given, Place

Value = str | list | dict
NAME = re.compile(r"[A-Za-z0-9_.-]{1,64}")
LONGEST_NAME = 64
WIDTH = 100
# what a plain scalar may be without quotes, in a block
PLAIN = re.compile(r"(?![-?:](?:\s|$))[A-Za-z0-9_.+/-](?:[^\s:#]|:(?=\S)|(?<=\S)#|\s(?=[^\s#]))*", re.ASCII)
FIRST = ("mode", "modes", "machine", "game", "switches", "coils", "ball_devices", "flippers", "autofire_coils")
SINGLE = ("mode", "machine", "game")
PLAYERS = ("event_player", "coil_player", "variable_player")
# of all texts: docs/profile.md has the limits of a plan
DEVICES = ("timers", "counters", "accruals", "sequences", "flippers", "autofire_coils", "ball_devices", "ball_saves",
           "multiballs")
MOST = {"switches": 256, "coils": 256, **dict.fromkeys(DEVICES, 1_024)}


@cache
def sections(is_mode: bool) -> dict[str, Section]:
    """The sections of the machine text, or of the text of a mode."""
    return tables.sections(is_mode)


class NotWritten(Exception):
    """An entry cannot be in the new machine."""

    feature = ""


class NoRoom(NotWritten):
    """The profile has a limit, and it is reached."""

    feature = "too many"


class Taken(NotWritten):
    """The entry is there already, and says another thing."""

    feature = "entry twice"


class NoName(NotWritten):
    """What should be a name is none, or is too long."""

    feature = "bad name"


@dataclass
class Note:
    """The comments of a builder at one thing: above it, behind its first line, at the end of what is in it, below."""

    above: list[str] = field(default_factory=list)
    behind: str = ""
    inside: list[str] = field(default_factory=list)
    below: list[str] = field(default_factory=list)

    def add(self, other: "Note", in_front: bool = False) -> None:
        above = [*other.above, *([other.behind] if self.behind and other.behind else [])]
        self.above = [*above, *self.above] if in_front else [*self.above, *above]
        self.behind = self.behind or other.behind
        self.inside += other.inside
        self.below += other.below


@dataclass
class Written:
    """An entry of the new machine, where it comes from, and what is said of it."""

    value: Value
    places: list[Place] = field(default_factory=list)
    says: list[str] = field(default_factory=list)  # what rewrote it
    lines: dict[str, Place] = field(default_factory=dict)  # where each setting, coil or variable of it comes from
    notes: "Notes" = field(default_factory=dict)
    sources: list[Given] = field(default_factory=list)  # of its settings: entries of the MPF folder
    is_copied: bool = False  # an entry of the same section and name is its source


Path = tuple[str | int, ...]  # keys, texts of items, and numbers of items that are no texts, from 0
Notes = dict[Path, Note]  # by the place in a value: the whole value has no steps
Sections = dict[str, dict[str, Written]]


@dataclass
class Draft:
    """`texts` has the sections of the machine, whose mode is the empty name, and of each mode."""

    texts: dict[str, Sections] = field(default_factory=lambda: {"": {}})
    modes: list[str] = field(default_factory=list)
    helpers: set[str] = field(default_factory=set)  # modes of adopt's own
    spare: int = 0  # modes that are kept free
    heads: dict[str, list[str]] = field(default_factory=dict)  # what is said at the front of a text
    notes: dict[tuple[str, str], Notes] = field(default_factory=dict)  # at sections, by mode and section; "": the text
    known: set[tuple[str, str]] = field(default_factory=set)  # the entries of all texts: section and name
    counts: Counter[str] = field(default_factory=Counter)  # how many entries each section has in all texts

    def section(self, mode: str, name: str) -> dict[str, Written]:
        return self.texts.setdefault(mode, {}).setdefault(name, {})

    def put(self, mode: str, section: str, key: str, written: Written) -> None:
        """Adds an entry. Raises NotWritten if its name is none, or if one of its name is here or in another text."""
        if section not in PLAYERS + SINGLE:
            if not NAME.fullmatch(key):
                raise NoName(f"`{key[:80]}` is no name, or too long")
            if (section, key) in self.known:
                raise Taken(f"`{section}` has a `{key}` already")
            if self.counts[section] == MOST.get(section):
                raise NoRoom(f"a machine has at most {MOST[section]} `{section}`")
            self.known.add((section, key))
            self.counts[section] += 1
        inside = self.section(mode, section)
        if key not in inside:
            inside[key] = written
            return
        if section not in PLAYERS:
            raise Taken(f"`{section}` has a `{key}` already")
        joined(inside[key], written)

    def helper(self, name: str, settings: dict[str, Value], written: Written) -> str:
        """A mode of its own, with the sections of its entries still to come. Raises NoRoom if there are too many."""
        self.need(1)
        mode, count = name, 1
        while mode in self.modes or mode == "machine":
            count += 1
            mode = shortened(name, 60) + f"_{count}"
        self.modes.append(mode)
        self.helpers.add(mode)
        self.heads[mode] = [f"{it}" for it in written.says]
        for key, value in settings.items():
            self.section(mode, "mode")[key] = Written(value, list(written.places))
        return mode

    def need(self, count: int) -> None:
        """Raises NoRoom if there is no room for so many modes more."""
        if len(self.modes) + count + self.spare > MOST_MODES:
            raise NoRoom(f"a machine has at most {MOST_MODES} modes")

    def holds(self, mode: str) -> bool:
        """Whether a mode of adopt's own holds a coil: as long as it runs, so nothing that ends it may be left out."""
        return mode in self.helpers and "coil_player" in self.texts.get(mode, {})

    def note(self, mode: str, section: str, *path: str | int) -> Note:
        """The comments at a section or a text, or at an item of `modes`."""
        return self.notes.setdefault((mode, section), {}).setdefault(path, Note())

    def has_notes(self) -> bool:
        return bool(self.notes) or any(it.notes for it in self.written())

    def forget_notes(self) -> None:
        self.notes = {}
        for it in self.written():
            it.notes = {}

    def written(self) -> Iterator[Written]:
        for sections in self.texts.values():
            for inside in sections.values():
                yield from inside.values()

    def files(self) -> dict[str, list[str]]:
        """The lines of each text."""
        return {name: list(lines) for name, lines in ((self.name(it), self.lines(it)) for it in self.texts)}

    def name(self, mode: str) -> str:
        return mode_text(mode) if mode else MACHINE

    def lines(self, mode: str) -> Iterator[str]:
        yield VERSION
        yield from (f"# {clean(it)}" for it in self.heads.get(mode, []))
        yield from map(clean, self.notes.get((mode, ""), {}).get((), Note()).above)
        sections = dict(self.texts[mode])
        if not mode and self.modes:
            yield ""
            notes = self.notes.get(("", "modes"), {})
            lines = block_lines(self.modes, 0, notes, ())
            yield from with_note(["modes:", *lines], notes.get(()), 0, 2)
        for name in sorted(sections, key=lambda it: FIRST.index(it) if it in FIRST else len(FIRST)):
            if sections[name] or name == "game":
                yield ""
                lines = [line for key, it, head in with_heads(sections[name]) for line in entry_lines(key, it, head)]
                yield from with_note([f"{name}:", *lines], self.notes.get((mode, name), {}).get(()), 0, 2)


def joined(first: Written, other: Written) -> None:
    """Joins two entries of a player for one event."""
    if isinstance(first.value, list) and isinstance(other.value, list):
        first.value += other.value
    elif isinstance(first.value, dict) and isinstance(other.value, dict):
        same = [it for it in other.value if it in first.value and first.value[it] != other.value[it]]
        sums = {it: added(first.value[it], other.value[it]) for it in other.value if it in first.value}
        if any(sums[it] is None for it in same):
            raise Taken(f"two entries for one event do two things with `{same[0]}`")
        both = {**first.value, **other.value, **{key: it for key, it in sums.items() if it is not None}}
        first.value = both
    else:
        raise Taken("two entries for one event are of two kinds")
    first.places += other.places
    first.lines.update(other.lines)
    first.sources += other.sources
    first.says += [it for it in other.says if it not in first.says]


def added(one: Value, other: Value) -> Value | None:
    """What two changes of one variable add; none if they do not add."""
    if isinstance(one, str) and isinstance(other, str) and re.fullmatch(r"-?\d+", one) and re.fullmatch(r"-?\d+",
                                                                                                        other):
        return str(int(one) + int(other))
    return None


def with_heads(inside: dict[str, Written]) -> Iterator[tuple[str, Written, str]]:
    """The entries of a section, each with the comment above it: one for all in a row that have the same."""
    entries = [(key, it, head_of(it)) for key, it in inside.items()]
    for head, some in groupby(entries, key=lambda it: it[2]):
        of_one = list(some)
        for at, (key, it, _) in enumerate(of_one):
            count = f" ({len(of_one)} entries)" if of_one[1:] and head else ""
            yield key, it, "" if at else head + count


def head_of(written: Written) -> str:
    """Where an entry comes from, and what rewrote it."""
    if not written.says:
        return ""
    where = ", ".join(dict.fromkeys(map(str, written.places)))
    return f"# {where}: {'; '.join(written.says)}"


def entry_lines(key: str, written: Written, head: str) -> Iterator[str]:
    notes = dict(written.notes)
    if head:
        note = Note([head])
        note.add(notes.get((), Note()), in_front=True)
        notes[()] = note
    yield from value_lines(scalar(key), written.value, 2, notes, ())


def with_note(lines: list[str], note: Note | None, depth: int, inside: int) -> list[str]:
    """Some lines with the comments at them. `depth` is that of the first line, and `inside` that of what is in it."""
    if note is None:
        return lines
    behind = f"  {clean(note.behind)}" if note.behind else ""
    above, inner, below = (
        [" " * margin + clean(it) for it in some]
        for margin, some in ((depth, note.above), (inside, note.inside), (depth, note.below))
    )
    return [*above, lines[0] + behind, *lines[1:], *inner, *below]


def value_lines(key: str, value: Value, depth: int, notes: Notes, path: Path) -> list[str]:
    margin, deeper = " " * depth, depth + 2
    if isinstance(value, str):
        lines, deeper = [f"{margin}{key}: {scalar(value)}"], depth
    elif isinstance(value, dict):
        lines = [f"{margin}{key}:"]
        for inner, below in value.items():
            lines += value_lines(scalar(inner), below, depth + 2, notes, (*path, inner))
    else:
        lines = list_lines(key, value, depth, notes, path)
    return with_note(lines, notes.get(path), depth, deeper)


def list_lines(key: str, items: list, depth: int, notes: Notes, path: Path) -> list[str]:
    """A list, on one line if that can be read, and if no item has a comment."""
    has_notes = any(it[: len(path)] == path and len(it) > len(path) for it in notes)
    if not has_notes and all(isinstance(it, str) and PLAIN.fullmatch(it) for it in items):
        line = f"{' ' * depth}{key}: {', '.join(items) or '[]'}"
        if len(line) <= WIDTH and all(is_word(it) for it in items) and PLAIN.fullmatch(", ".join(items) or "a"):
            return [line]
    return [f"{' ' * depth}{key}:", *block_lines(items, depth, notes, path)]


def block_lines(items: list, depth: int, notes: Notes, path: Path) -> list[str]:
    """The items of a list, a line each, or several for one that is a mapping."""
    margin, found = " " * depth, list[str]()
    for at, item in enumerate(items):
        here = (*path, item if isinstance(item, str) and items.index(item) == at else at)
        if isinstance(item, dict):
            lines = [line for inner, below in item.items()
                     for line in value_lines(scalar(inner), below, depth + 4, notes, (*here, inner))]
            first = next(it for it, line in enumerate(lines) if not line.lstrip().startswith("#"))
            lines[: first + 1] = [*(f"{margin}  {it.lstrip()}" for it in lines[:first]),
                                  f"{margin}  - {lines[first].lstrip()}"]
        else:
            lines, first = [f"{margin}  - {scalar(', '.join(item) if isinstance(item, list) else item)}"], 0
        found += lines[:first] + with_note(lines[first:], notes.get(here), depth + 2, depth + 4)
    return found


def is_word(item: str) -> bool:
    """Whether an item of a list is one word where a text is split at commas and blanks."""
    return re.fullmatch(r"[^\s,{}]+(\{[^{}]*\})?", item) is not None


def scalar(text: str) -> str:
    """A text as YAML writes it."""
    text = clean(text)
    if PLAIN.fullmatch(text):
        return text
    return "'" + text.replace("'", "''") + "'"


def clean(text: str) -> str:
    """A text without what no text may have: control characters, and what is no character."""
    if text.isascii() and text.isprintable():
        return text
    return "".join(it if it.isprintable() and it not in "\ufeff\ufffe\uffff" and not "\ud800" <= it <= "\udfff"
                   else "?" for it in text.replace("\t", " "))


def shortened(name: str, most: int = LONGEST_NAME) -> str:
    """A name that is short enough, and differs if the names do."""
    name = re.sub(r"[^A-Za-z0-9_.-]", "_", name)
    if len(name) <= most:
        return name
    check = sum((at + 1) * ord(it) for at, it in enumerate(name)) % 10_000
    return f"{name[: most - 5]}_{check:04}"
