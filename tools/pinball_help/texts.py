"""The texts of a machine's folder, and a copy of them that can be edited.

A folder may be anybody's. So no more of it is read than the program reads, and nothing but files."""
import os
import stat
import tempfile
from contextlib import contextmanager
from dataclasses import dataclass
from pathlib import Path
from typing import Iterator, Sequence, overload

from . import outline

MACHINE = "config/config.yaml"
VERSION = "#config_version=6"
MIB = 1 << 20
TEXT_LIMIT, FOLDER_LIMIT, LOG_LIMIT = MIB, 8 * MIB, 16 * MIB  # those of the program, in bytes
# of all texts of a folder, where a large machine has some thousands of lines: more would take much memory here
MOST_LINES, MOST_WORDS = 30_000, 200_000


@dataclass(frozen=True, slots=True)
class Line:
    """A line of a copy. `number` is its number in the file, from 1, or 0 where the file has no such line."""

    number: int
    text: str


@dataclass(frozen=True)
class Edit:
    """The lines of a text from `first` to before `last`, counted from 0, become others.

    They keep the numbers of the lines that they replace, in turn, unless `numbers` says otherwise."""

    text: str
    first: int
    last: int
    lines: tuple[str, ...]
    numbers: tuple[int, ...] = ()


Texts = dict[str, list[Line]]


def mode_text(mode: str) -> str:
    return f"modes/{mode}/config/{mode}.yaml"


def read_bytes(path: Path, most: int) -> bytes:
    """The first bytes of a file. Raises ValueError if it is none: a pipe or a device may have no end."""
    file = os.open(path, os.O_RDONLY | os.O_NONBLOCK)
    with open(file, "rb") as opened:
        if not stat.S_ISREG(os.fstat(file).st_mode):
            raise ValueError(f"{path} is not a file")
        return opened.read(most)


def lines_of(data: bytes) -> list[str]:
    lines = data.decode("utf-8", "surrogateescape").split("\n")
    return lines[:-1] if lines[-1] == "" else lines


def read_texts(folder: Path) -> Texts:
    """The machine's text, and that of each folder in `modes/`. Raises OSError or ValueError where one that the program
    reads cannot be read; one of a mode that is not listed is then left out.

    The program refuses a text above its limit, so the first byte above it is enough of such a text."""
    texts: Texts = {}
    room = Room()
    listed: set[str] = set()
    for path in paths_of(folder):
        name = str(path.relative_to(folder))
        try:
            data = read_bytes(path, TEXT_LIMIT + 1)
            room.take(data, folder)
        except (OSError, ValueError):
            listed = listed or listed_in(texts)
            if name in listed:
                raise
            continue
        lines = lines_of(data)
        texts[name] = [Line(number, line) for number, line in enumerate(lines, 1)]
    return texts


def listed_in(texts: Texts) -> set[str]:
    """The names of the texts that the program reads."""
    modes = outline.read(plain(texts[MACHINE])).at("modes") if MACHINE in texts else None
    return {MACHINE, *(mode_text(it.text) for it in (modes.texts() if modes else []))}


@dataclass
class Room:
    """How much there may still be in the texts of a folder."""

    bytes: int = FOLDER_LIMIT
    lines: int = MOST_LINES
    words: int = MOST_WORDS

    def take(self, data: bytes, folder: Path) -> None:
        """Takes room for a text. Raises ValueError if there is too little."""
        self.bytes -= len(data)
        self.lines -= data.count(b"\n")
        self.words -= len(data.replace(b",", b" ").split())
        limits = {
            f"{FOLDER_LIMIT // MIB} MiB": self.bytes, f"{MOST_LINES:,} lines": self.lines,
            f"{MOST_WORDS:,} words": self.words,
        }
        for limit, left in limits.items():
            if left < 0:
                raise ValueError(f"the texts of {folder} have more than {limit} in all, more than this tool reads")


def paths_of(folder: Path) -> list[Path]:
    """The machine's text, and that of each mode that has one."""
    found = sorted((folder / "modes").glob("*/config/*.yaml"))
    return [folder / MACHINE, *(it for it in found if str(it.relative_to(folder)) == mode_text(it.stem))]


class Log(Sequence[Line]):
    """The lines of a log, which may have a million of them."""

    def __init__(self, path: Path):
        with open(path, "rb") as opened:  # (it may be a pipe that a shell has made)
            data = opened.read(LOG_LIMIT + 1)
        if len(data) > LOG_LIMIT:
            raise ValueError(f"{path} has more than {LOG_LIMIT // MIB} MiB: the program reads no longer log")
        self.data = data.split(b"\n")

    def __len__(self) -> int:
        return len(self.data)

    @overload
    def __getitem__(self, at: int) -> Line: ...

    @overload
    def __getitem__(self, at: slice) -> list[Line]: ...

    def __getitem__(self, at: int | slice) -> Line | list[Line]:
        if isinstance(at, slice):
            return [self[it] for it in range(len(self))[at]]
        return Line(at + 1, self.data[at].decode("utf-8", "surrogateescape"))


def plain(lines: list[Line]) -> list[str]:
    return [line.text for line in lines]


def write_texts(texts: Texts, folder: Path) -> None:
    for name, lines in texts.items():
        path = folder / name
        path.parent.mkdir(parents=True, exist_ok=True)
        path.write_bytes("".join(f"{line.text}\n" for line in lines).encode("utf-8", "surrogateescape"))


def edited(texts: Texts, edits: tuple[Edit, ...]) -> Texts:
    """The texts after these edits. Lines keep their numbers; further lines have none.

    Two edits are at the same line only if the first one puts lines before those that the other one changes."""
    result = dict(texts)
    for name in {it.text for it in edits}:
        before, after, at = texts[name], [], 0
        for edit in sorted((it for it in edits if it.text == name), key=lambda it: (it.first, it.last)):
            numbers = [*edit.numbers] or [line.number for line in before[edit.first : edit.last]]
            numbers += [0] * (len(edit.lines) - len(numbers))
            after += before[at : edit.first]
            after += [Line(number, text) for number, text in zip(numbers, edit.lines)]
            at = edit.last
        result[name] = after + before[at:]
    return result


def is_changed(texts: Texts, edits: tuple[Edit, ...]) -> bool:
    """Whether edits change anything."""
    return any(edit.numbers or [*edit.lines] != plain(texts[edit.text][edit.first : edit.last]) for edit in edits)


@contextmanager
def folder_of(texts: Texts) -> Iterator[Path]:
    """A folder that has these texts, as long as it is used."""
    with tempfile.TemporaryDirectory(prefix="pinball-help-") as room:
        write_texts(texts, Path(room))
        yield Path(room)
