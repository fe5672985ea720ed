"""A bundle: its texts, their entries, and its notes; or the first error of a configuration."""
from dataclasses import dataclass, field

from . import values
from .sections import (
    IGNORED,
    MACHINE_ONLY,
    MODE_ONLY,
    ONE_ENTRY,
    PLAYERS,
    SETTINGS,
    SKIPPED,
    Entry,
    Fault,
    defaults,
    entry,
    judged,
    mapping_of,
    player_entry,
    root_of,
    settings,
)
from .values import Word
from .yaml_text import Node, Scalar, YamlFault, read

Note = tuple[int, int, str]  # its line, its column, and the line that it prints
MACHINE_TEXT = "config/config.yaml"
VERSION = "#config_version=6"
BUNDLE_LIMIT, MODE_LIMIT = 8 << 20, 64


class ConfigFault(Exception):
    """An error of a configuration: its number, name, text, line and key."""

    def __init__(self, number: int, name: str, text: str, line: int, key: str):
        super().__init__(number, name, text, line, key)
        self.number, self.name, self.text, self.line, self.key = number, name, text, line, key


@dataclass
class Part:
    """The machine, or a mode: its text, and the entries of its sections as written."""

    owner: str
    text: str
    sections: dict[str, list[Entry]] = field(default_factory=dict)

    def only(self, section: str) -> Entry:
        """The one entry of a section that has one, or its defaults."""
        return (self.sections.get(section) or [defaults(section)])[0]


@dataclass
class Config:
    """The machine and its modes as listed. `listed` has absent modes too."""

    parts: list[Part]
    listed: list[str]
    notes: list[str]

    @property
    def machine(self) -> Part:
        return self.parts[0]

    @property
    def has_game(self) -> bool:
        return "game" in self.machine.sections

    def entries(self, section: str) -> list[tuple[Part, Entry]]:
        return [(part, entry) for part in self.parts for entry in part.sections.get(section, [])]

    def named(self, section: str) -> dict[str, Entry]:
        return {entry.name: entry for _, entry in self.entries(section)}


def mode_text(mode: str) -> str:
    return f"modes/{mode}/config/{mode}.yaml"


def split_lines(data: bytes) -> list[bytes]:
    """The lines, each with its LF, which the last one may lack."""
    *whole, last = data.split(b"\n")
    return [line + b"\n" for line in whole] + ([last] if last else [])


def split_bundle(data: bytes) -> list[tuple[str, bytes]]:
    """The names and the texts of a bundle, in its order."""
    if len(data) > BUNDLE_LIMIT:
        raise ConfigFault(9, "Limit", "-", 1, "-")
    texts: list[tuple[str, list[bytes]]] = []
    for number, line in enumerate(split_lines(data), 1):
        if line.startswith(b"@"):
            if line[1:2] not in (b" ", b"\t"):
                raise ConfigFault(1, "Bundle", "-", number, "-")
            # (a CR at the end of the bundle, with no LF, ends no line)
            name = line[1:].removesuffix(b"\r\n").removesuffix(b"\n").strip(b" \t")
            texts.append((name.decode(errors="surrogateescape"), []))
        elif not texts:
            raise ConfigFault(1, "Bundle", "-", 1, "-")
        else:
            texts[-1][1].append(line)
    if MACHINE_TEXT not in [name for name, _ in texts]:
        raise ConfigFault(1, "Bundle", "-", 1, "-")
    return [(name, b"".join(lines)) for name, lines in texts]


def tree(name: str, data: bytes) -> Node:
    first = data.split(b"\n", 1)[0]
    if b"\n" in data:
        first = first.removesuffix(b"\r")
    if first.rstrip(b" \t") != VERSION.encode():
        raise ConfigFault(2, "Version", name, 1, "-")
    try:
        return read(data)
    except YamlFault as fault:
        raise ConfigFault(3, "Yaml", name, fault.line, fault.kind) from None


def modes_of(node: Node, line: int) -> list[Word]:
    """The listed modes."""
    found = judged(lambda node: values.words(node, MODE_LIMIT), node, line, "modes")
    seen: set[str] = set()
    for word in found:
        if not values.NAME.fullmatch(word.text) or word.text == "machine":
            raise Fault(6, "BadValue", line, "modes")
        if word.text in seen:
            raise Fault(8, "Duplicate", word.line, word.text)
        seen.add(word.text)
    return found


def entries_of(key: Scalar, node: Node) -> list[Entry]:
    """The entries of a section."""
    section = key.text
    written = judged(mapping_of, node, key.line, section)
    if section in PLAYERS:
        return [player_entry(section, name, value) for name, value in written]
    if section in ONE_ENTRY:
        found = Entry(section, key, settings(written, SETTINGS[section], key.line, IGNORED))
        if section == "mode" and not holds_well(found):
            line = next((name.line for name, _ in written if name.text == "start_events"), key.line)
            raise Fault(6, "BadValue", line, "start_events")
        return [found]
    return [entry(section, name, value) for name, value in written]


def holds_well(mode: Entry) -> bool:
    """Whether a mode that holds the end of the ball starts at that alone."""
    starts = {handled.event for handled in mode["start_events"]}
    return not mode["use_wait_queue"] or starts == {"ball_ending"}


class Reader:
    """Reads the texts one after the other. `taken` has the sections and names of entries in the texts before."""

    def __init__(self) -> None:
        self.taken: set[tuple[str, str]] = set()
        self.modes: list[Word] = []

    def text(self, part: Part, root: Node) -> list[Note]:
        """Reads a text into its part, and gives its notes, each with its place."""
        notes = []
        for key, node in judged(root_of, root, root.line, "-"):
            is_here = key.text not in (MODE_ONLY if part.owner == "machine" else MACHINE_ONLY)
            if key.text in SKIPPED:
                notes.append((key.line, key.column, f"note {part.text} {key.line} skipped {key.text}"))
            elif key.text == "modes" and is_here:
                self.modes = modes_of(node, key.line)
            elif key.text in (*SETTINGS, *PLAYERS) and is_here:
                part.sections[key.text] = entries_of(key, node)
            else:
                raise Fault(4, "UnknownSection", key.line, key.text)
        self.take(part)
        return notes

    def take(self, part: Part) -> None:
        """Compares the entries with those of the texts before."""
        for section, entries in part.sections.items():
            for entry in entries if section not in (*PLAYERS, *ONE_ENTRY) else []:
                if (section, entry.name) in self.taken:
                    raise Fault(8, "Duplicate", entry.key.line, entry.name)
                self.taken.add((section, entry.name))

    def part(self, owner: str, name: str, data: bytes) -> tuple[Part, list[Note]]:
        part = Part(owner, name)
        try:
            return part, self.text(part, tree(name, data))
        except Fault as fault:
            raise ConfigFault(fault.number, fault.name, name, fault.line, fault.key) from None


def mode_names(machine: bytes) -> list[str] | None:
    """The modes that a machine text lists, or None if it has an error."""
    reader = Reader()
    try:
        reader.part("machine", MACHINE_TEXT, machine)
    except ConfigFault:
        return None
    return [mode.text for mode in reader.modes]


def joined(files: dict[str, bytes]) -> bytes:
    """The bundle of a folder with these files."""
    names = [MACHINE_TEXT, *(mode_text(mode) for mode in mode_names(files[MACHINE_TEXT]) or [])]
    parts = []
    for name in names:
        if name in files:
            text = files[name]
            parts.append(f"@ {name}\n".encode() + text + (b"\n" if text and not text.endswith(b"\n") else b""))
    return b"".join(parts)


def in_place(notes: list[Note]) -> list[str]:
    """Notes by line, and on one line as written."""
    return [text for *_, text in sorted(notes, key=lambda note: note[:2])]


def read_bundle(data: bytes) -> Config:
    """The rows of a bundle. Raises ConfigFault."""
    texts = split_bundle(data)
    reader = Reader()
    machine, notes = reader.part("machine", MACHINE_TEXT, dict(reversed(texts))[MACHINE_TEXT])
    listed = {mode_text(mode.text): mode for mode in reader.modes}
    found: dict[str, Part] = {}
    unlisted: list[str] = []
    seen: set[str] = set()
    notes_of: dict[str, list[Note]] = {}
    for name, text in texts:
        if name in seen:
            raise ConfigFault(8, "Duplicate", name, 1, "-")
        seen.add(name)
        if name in listed:
            found[name], notes_of[name] = reader.part(listed[name].text, name, text)
        elif name != MACHINE_TEXT:
            unlisted.append(f"note {name} 0 unlisted {name}")
    for name, mode in listed.items():
        if name not in found:
            notes.append((mode.line, mode.column, f"note {MACHINE_TEXT} {mode.line} absent {mode.text}"))
    notes_of[MACHINE_TEXT] = notes
    ordered = [note for name in [MACHINE_TEXT, *listed] for note in in_place(notes_of.get(name, []))]
    parts = [machine, *(found[name] for name in listed if name in found)]
    return Config(parts, [mode.text for mode in reader.modes], ordered + unlisted)
