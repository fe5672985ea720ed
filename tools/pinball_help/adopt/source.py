"""Reads a folder of MPF: the files of the machine and of its modes, with those that `config:` names."""
import re
from dataclasses import dataclass, field
from pathlib import Path
from typing import Iterator

from .. import outline
from ..outline import Entry, Node, without_comment
from ..texts import TEXT_LIMIT, Room, lines_of, read_bytes
from .laxer import laxer

MOST_FILES = 300
MOST_OF_ANCHOR, MOST_OF_ALIASES = 200, 20_000  # values in what an alias stands for, and in all that aliases stand for


@dataclass(frozen=True, slots=True)
class Place:
    """Where something is written: a file of the MPF folder, and its lines, from 1."""

    file: str
    line: int
    last: int = 0

    def __str__(self) -> str:
        return f"{self.file}:{self.line}"


@dataclass
class File:
    name: str  # its path in the MPF folder
    lines: list[str]  # as they are written
    root: Node = field(default_factory=lambda: Node(0, entries=[]))
    unread: list[int] = field(default_factory=list)  # lines, from 0, that are no YAML
    unclosed: list[int] = field(default_factory=list)
    lax: list[int] = field(default_factory=list)  # lines that are written in a form that this package does not read
    read: list[str] = field(default_factory=list)  # the lines in the form that it reads
    joined: dict[int, int] = field(default_factory=dict)  # as in Lax


@dataclass(slots=True)
class Given:
    """A key with its value, as it is given in a file of MPF."""

    key: str
    node: Node
    file: File
    line: int  # from 0
    last: int

    @property
    def place(self) -> Place:
        return Place(self.file.name, self.line + 1, max(self.last, self.line + 1))

    @property
    def text(self) -> str:
        return self.node.text

    @property
    def is_mapping(self) -> bool:
        return self.node.entries is not None

    @property
    def is_list(self) -> bool:
        return self.node.items is not None

    def inside(self) -> "list[Given]":
        """The entries of a mapping."""
        return [Given(it.key, it.value, self.file, it.line, it.last) for it in self.node.entries or []]

    def items(self) -> "list[Given]":
        """The items of a list, each with all of its lines."""
        return [Given(self.key, it, self.file, it.line, last_of(it)) for it in self.node.items or []]

    def at(self, key: str) -> "Given | None":
        return next((it for it in self.inside() if it.key == key), None)

    def words(self) -> list[str]:
        """The names of a list, or of one text."""
        return [it.text for it in self.node.texts()]

    def says(self, key: str, default: str = "") -> str:
        found = self.at(key)
        return found.text if found and found.text else default

    def names(self, key: str) -> list[str]:
        found = self.at(key)
        return found.words() if found else []


def last_of(node: Node) -> int:
    """The line after those of a value in a list."""
    return max([node.line + 1, *(it.last for it in node.entries or []), *map(last_of, node.items or [])])


@dataclass
class Part:
    """The machine, or a mode, with all its files."""

    mode: str  # empty: the machine
    files: list[File]

    def sections(self) -> Iterator[Given]:
        for file in self.files:
            for entry in file.root.entries or []:
                yield Given(entry.key, entry.value, file, entry.line, entry.last)


@dataclass
class Source:
    folder: Path
    parts: list[Part] = field(default_factory=list)
    modes: list[tuple[str, Given | None]] = field(default_factory=list)  # that are listed, and where
    missing: list[tuple[str, Given]] = field(default_factory=list)  # files and modes that are not there
    case: list[tuple[str, str]] = field(default_factory=list)  # a path as it is asked for, and as it is

    @property
    def files(self) -> list[File]:
        return [file for part in self.parts for file in part.files]


def read(folder: Path) -> Source:
    """Reads a folder. Raises OSError or ValueError if its text of the machine cannot be read."""
    return Reader(folder).run()


class Reader:
    def __init__(self, folder: Path):
        self.source, self.room, self.known = Source(folder), Room(), set[str]()

    def run(self) -> Source:
        machine = Part("", [])
        self.source.parts.append(machine)
        path = self.find(("config", "config.yaml"))
        if path is None:
            raise FileNotFoundError(2, "no such file", str(self.source.folder / "config/config.yaml"))
        self.take(machine, path)
        self.modes(machine)
        return self.source

    def modes(self, machine: Part) -> None:
        for section in list(machine.sections()):
            if section.key == "modes":
                names = section.words() or [it.key for it in section.inside()]
                self.source.modes += [(it.removeprefix("-"), section) for it in names]
        for name in dict.fromkeys(it for it, _ in self.source.modes):
            if not re.fullmatch(r"[\w.-]{1,64}", name, re.ASCII) or name.startswith("."):
                continue
            if path := self.find(("modes", name, "config", f"{name}.yaml")):
                part = Part(name, [])
                try:
                    self.take(part, path)
                except (OSError, ValueError):
                    continue
                self.source.parts.append(part)

    def find(self, names: tuple[str, ...]) -> Path | None:
        """A file by its path, whose letters may be of another case."""
        path = self.source.folder
        for name in names:
            if not (path / name).exists():
                try:
                    near = [it for it in sorted(path.iterdir()) if it.name.lower() == name.lower()]
                except OSError:
                    return None
                if not near:
                    return None
                self.source.case.append((str((path / name).relative_to(self.source.folder)), near[0].name))
                name = near[0].name
            path = path / name
        return path

    def take(self, part: Part, path: Path) -> None:
        """Reads a file, and those that it includes."""
        name = str(path.relative_to(self.source.folder))
        if name in self.known or len(self.known) > MOST_FILES:
            return
        self.known.add(name)
        data = read_bytes(path, TEXT_LIMIT + 1)
        if len(data) > TEXT_LIMIT:
            raise ValueError(f"{path} has more than 1 MiB")
        self.room.take(data, self.source.folder)
        file = file_of(name, lines_of(data))
        part.files.append(file)
        for entry in file.root.entries or []:
            if entry.key == "config":
                self.include(part, path, Given(entry.key, entry.value, file, entry.line, entry.last))

    def include(self, part: Part, path: Path, config: Given) -> None:
        here = path.parent.relative_to(self.source.folder).parts
        for name in config.words():
            steps = tuple(name.split("/"))
            if ".." in steps or name.startswith("/") or "\0" in name:
                self.source.missing.append((name, config))
                continue
            try:
                found = self.find((*here, *steps))
                if found is None:
                    raise FileNotFoundError(name)
                self.take(part, found)
            except (OSError, ValueError):
                self.source.missing.append((name, config))


def file_of(name: str, lines: list[str]) -> File:
    lax = laxer(lines)
    root = outline.read(lax.lines)
    with_aliases(root, lax.anchors)
    wrong: list[int] = []
    take_wrong_out(root, lax.lines, wrong)
    seen = lines_read(root) - {*wrong}
    unread = [at for at, it in enumerate(lax.lines) if without_comment(it).strip() and at not in seen]
    return File(name, lines, root, unread, lax.unclosed, lax.changed, lax.lines, lax.joined)


def take_wrong_out(root: Node, lines: list[str], wrong: list[int]) -> None:
    """Takes out what has a value that is no YAML: a second `:`, or a quote that nothing closes."""
    waiting = [root]
    while waiting:
        node = waiting.pop()
        for entry in node.entries or []:
            if is_wrong(entry.value, lines):
                wrong.append(entry.line)
        node.entries = node.entries and [it for it in node.entries if not is_wrong(it.value, lines)]
        waiting += [it.value for it in node.entries or []] + (node.items or [])


def is_wrong(value: Node, lines: list[str]) -> bool:
    if value.items is not None or value.entries is not None or not value.text or value.line >= len(lines):
        return False
    first = lines[value.line][value.start : value.start + 1]
    if first in ("'", '"'):
        return value.text[:1] == first and value.text[-1:] != first
    return re.search(r":(\s|$)", value.text) is not None


def lines_read(root: Node) -> set[int]:
    """The lines that an entry or an item begins in."""
    found = set()
    waiting = [root]
    while waiting:
        node = waiting.pop()
        found.add(node.line if node.items is None and node.entries is None and node.text else -1)
        for entry in node.entries or []:
            found.add(entry.line)
            waiting.append(entry.value)
        for item in node.items or []:
            found.add(item.line)
            waiting.append(item)
    return found


def with_aliases(root: Node, anchors: dict[int, str]) -> None:
    """Puts the value of an anchor in place of each alias, if that value has no alias in it."""
    if not anchors:
        return
    entries = list(outline.entries(root))
    values = {anchors[it.line]: it.value for it in entries if it.line in anchors}
    sizes = {name: size_of(it) for name, it in values.items()}
    plain = {name: it for name, it in values.items() if 0 < sizes[name] <= MOST_OF_ANCHOR}
    room = MOST_OF_ALIASES
    for entry in entries:
        texts = [entry.value.text, *(it.text for it in entry.value.items or []), *(
            it.value.text for it in entry.value.entries or [] if it.key == "<<")]
        room -= sum(sizes.get(it[1:], 0) for it in texts if it[:1] == "*")
        if room < 0:
            return
        if entry.value.text[:1] == "*" and entry.value.text[1:] in plain:
            entry.value = plain[entry.value.text[1:]]
        merge(entry.value, plain)
        for item in entry.value.items or []:
            if item.text[:1] == "*" and item.text[1:] in plain:
                value = plain[item.text[1:]]
                item.text, item.entries, item.items = value.text, value.entries, value.items


def merge(node: Node, anchors: dict[str, Node]) -> None:
    """Adds the entries of `<<: *name` that a mapping does not have itself."""
    if not node.entries or not any(it.key == "<<" for it in node.entries):
        return
    own = {it.key for it in node.entries}
    merged: list[Entry] = []
    for entry in node.entries:
        value = anchors.get(entry.value.text.removeprefix("*")) if entry.key == "<<" else None
        if value is None:
            merged.append(entry)
            continue
        merged += [it for it in value.entries or [] if it.key not in own]
    node.entries = merged


def size_of(node: Node) -> int:
    """How many values a value has in it; 0 if one of them is an alias."""
    waiting, size = [node], 0
    while waiting:
        one = waiting.pop()
        size += 1
        if one.text[:1] == "*" or any(it.key == "<<" for it in one.entries or []):
            return 0
        waiting += [it.value for it in one.entries or []] + (one.items or [])
    return size
