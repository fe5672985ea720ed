"""Reads the tables of sections that the program itself is built of: crates/mpf_tables/src/tables.rt.

Its constants are calls, lists, byte strings and numbers, so a small reader of expressions is enough. What it does not
know raises ValueError: then the file has a form that this module has to learn."""
import re
from dataclasses import dataclass
from functools import cache
from pathlib import Path
from typing import Any

TOP = Path(__file__).resolve().parents[2]
SOURCE = TOP / "crates/mpf_tables/src/tables.rt"
UNREAD = TOP / "crates/mpf_config/src/unread.rt"  # the skipped sections
OTHERS = TOP / "crates/section_tables/src/settings.rt"  # the settings of other tools
MOST_MODES = 64
WORD = re.compile(r'b"(?P<text>[^"]*)"|(?P<number>-?[0-9][0-9_]*)|(?P<name>\w+(?:::\w+)*!?)|(?P<sign>[&\[\](){},:])|\S')


@dataclass(frozen=True)
class Call:
    """A variant with its values, such as `Scalar::Time(1, 5_000)`."""

    name: str
    values: tuple[Any, ...] = ()


@dataclass(frozen=True)
class Setting:
    """A setting, or a field of a mapping in one. `kind` and `without` are as in the source."""

    key: str
    kind: Call
    without: Call

    @property
    def is_required(self) -> bool:
        return self.without in (Call("Without::One", (Call("Absent::Required"),)), Call("Absent::Required"))


@dataclass(frozen=True)
class Section:
    """How a section is written: `shape` is `Entries`, `Players`, `Entry` or `Names`."""

    shape: str
    settings: tuple[Setting, ...] = ()
    barred: tuple[str, ...] = ()  # names that no entry may have
    key: Call | None = None  # of players: what a key is
    value: Call | None = None  # of players: what its value is


def sections(is_mode: bool) -> dict[str, Section]:
    """The sections of the machine text, or of the text of a mode, by their names."""
    source = read_source()
    found: dict[str, Section] = {}
    function: str | None = "mode_shape" if is_mode else "machine_shape"
    while function:
        body = source.functions[function]
        for name, shape in re.findall(r"section == (\w+) \{\s*return Some\((.*?)\);\s*\}", body, re.S):
            found[source.value(name)] = section_of(source.read(shape))
        after = re.search(r"^ {4}(\w+_shape)\(section\)$", body, re.M)
        function = after[1] if after else None
    return found


def section_of(shape: Call) -> Section:
    kind = shape.name.partition("::")[2]
    if kind == "Names":
        return Section(kind)
    if kind == "Players":
        fields = dict(shape.values[0].values)
        return Section(kind, key=fields["key"], value=fields["value"])
    barred = dict(shape.values[0].values)["names"] if kind == "Entries" else ()
    return Section(kind, shape.values[-1], barred)


def skipped() -> tuple[str, ...]:
    """The sections that every text may have, and that are not read."""
    return names_in(UNREAD)


def of_other_tools() -> tuple[str, ...]:
    """The settings that any entry may have, and that are not read."""
    return names_in(OTHERS)


@cache
def names_in(source: Path) -> tuple[str, ...]:
    """The names of the one list of names in a source."""
    found = re.findall(r"= \[((?:\s*b\"[\w-]+\",?)+)\s*\];", source.read_text())
    if len(found) != 1:
        raise ValueError(f"{source} has {len(found)} lists of names, and not one")
    return tuple(re.findall(r'b"([\w-]+)"', found[0]))


class Source:
    """The constants of the source, each read when it is first asked for."""

    def __init__(self, text: str):
        text = re.sub(r"^\s*//.*$", "", text, flags=re.M)
        self.constants = dict(re.findall(r"^(?:pub )?const (\w+): .+? =(.*?);$", text, re.M | re.S))
        self.functions = dict(re.findall(r"^fn (\w+)\(.*?^\{$(.*?)^\}$", text, re.M | re.S))
        own = re.search(r"macro_rules! block_settings.*?\$\(\$own,\)\*(.*?)\]\s*\};", text, re.S)
        self.of_blocks = own[1] if own else ""
        self.values: dict[str, Any] = {"u32::MAX": (1 << 32) - 1, "true": True, "false": False}

    def value(self, name: str) -> Any:
        if name in self.constants and name not in self.values:
            self.values[name] = self.read(self.constants[name])
        return self.values.get(name, Call(name))

    def read(self, text: str) -> Any:
        reader = Reader(self, text)
        found = reader.value()
        reader.done()
        return found


class Reader:
    """Reads one expression."""

    def __init__(self, source: Source, text: str):
        self.source, self.at = source, 0
        self.words = list(WORD.finditer(text))

    def done(self) -> None:
        if self.at < len(self.words):
            raise ValueError(f"{SOURCE}: `{self.words[self.at][0]}` after an expression")

    def here(self, sign: str) -> bool:
        return self.at < len(self.words) and self.words[self.at][0] == sign

    def take(self, sign: str) -> bool:
        found = self.here(sign)
        self.at += found
        return found

    def value(self) -> Any:
        self.take("&")
        if self.take("["):
            return self.up_to("]")
        if self.at == len(self.words):
            raise ValueError(f"{SOURCE}: an expression ends too early")
        word = self.words[self.at]
        self.at += 1
        if word["text"] is not None:
            return word["text"]
        if word["number"]:
            return int(word["number"])
        if word["name"]:
            return self.named(word["name"])
        raise ValueError(f"{SOURCE}: `{word[0]}` in an expression")

    def named(self, name: str) -> Any:
        if name in ("setting!", "field!"):
            self.take("(")
            return Setting(*self.up_to(")"))
        if name == "block_settings!":
            self.take("(")
            return (*self.up_to(")"), *self.source.read(f"[{self.source.of_blocks}]"))
        if self.take("("):
            return Call(name, self.up_to(")"))
        if self.take("{"):
            return Call(name, self.fields())
        return self.source.value(name)

    def up_to(self, closing: str) -> tuple[Any, ...]:
        found = []
        while not self.take(closing):
            found.append(self.value())
            self.take(",")
        return tuple(found)

    def fields(self) -> tuple[tuple[str, Any], ...]:
        found = []
        while not self.take("}"):
            name = self.words[self.at]["name"]
            self.at += 1
            self.take(":")
            found.append((name, self.value()))
            self.take(",")
        return tuple(found)


@cache
def read_source() -> Source:
    return Source(SOURCE.read_text())
