"""The commands of a release, with their words: the one table of which man pages and completions are made.

Each command says itself what it takes: a program by what it prints for `--help`, and a tool by its parser."""
import argparse
import re
import subprocess
from dataclasses import dataclass
from pathlib import Path

from pinball_help import command as pinball_help
from pinball_table import command as pinball_table
from pinball_test import command as pinball_test

# The programs: the crate of each has the same name.
PROGRAMS = ("pinball", "pinball_live")
TOOLS = {
    "pinball-help": pinball_help.parser, "pinball-table": pinball_table.parser, "pinball-test": pinball_test.parser,
}
# What stands for a folder, and what for a file. What stands for neither is a number, or a word of some kind.
FOLDERS = ("DIR", "FOLDER", "MPF_FOLDER", "NEW_FOLDER", "COPY")
FILES = ("CERT", "LOG", "FILE", "PATH", "TEST", "DEVICE")
# Lines of a help: `  <DIR>  what it is`, `  -h, --help  what it does`, `  check  what it does`.
ROW = re.compile(r"  (?:    (?=--))?(?P<what>\S+(?: [^\s]+)*)(?:  +(?P<about>\S.*))?")
OPTION = re.compile(r"(?P<names>-\S+(?:, -\S+)*)(?: <(?P<value>\w+)>)?")
PLACE = re.compile(r"<(?P<needed>\w+)>|\[(?P<free>\w+)\]")


@dataclass(frozen=True)
class Word:
    """A word that a command takes: an option, or a value that has its place."""

    about: str
    value: str = ""  # what stands for its value, such as DIR; nothing for an option without one
    names: tuple[str, ...] = ()  # of an option
    is_free: bool = True  # may be left out
    is_repeated: bool = False

    @property
    def kind(self) -> str:
        """What its value names: a `folder`, a `file`, or something else."""
        return "folder" if self.value in FOLDERS else "file" if self.value in FILES else "other"


@dataclass(frozen=True)
class Section:
    """More that the help says: lines as they are, below a title or below none."""

    title: str
    lines: tuple[str, ...]


@dataclass(frozen=True)
class Command:
    name: str
    about: str
    words: tuple[Word, ...] = ()
    parts: tuple["Command", ...] = ()  # its subcommands
    more: tuple[Section, ...] = ()

    @property
    def options(self) -> tuple[Word, ...]:
        return tuple(it for it in self.words if it.names)

    @property
    def places(self) -> tuple[Word, ...]:
        return tuple(it for it in self.words if not it.names)


def said_by(program: Path, *words: str) -> str:
    """What a program prints on standard error when it is asked for help or for its version."""
    ran = subprocess.run([program.resolve(), *words], stdin=subprocess.DEVNULL, capture_output=True, text=True)
    if ran.returncode != 2 or ran.stdout:
        raise ValueError(f"{program} {' '.join(words)} ended with status {ran.returncode}, and not with 2")
    return ran.stderr


def version_of(programs: dict[str, Path]) -> str:
    """The version, which the programs themselves have."""
    said = sorted({said_by(path, "--version").removeprefix(name).strip() for name, path in programs.items()})
    if len(said) != 1 or not re.fullmatch(r"[0-9]+\.[0-9]+\.[0-9]+", said[0]):
        raise ValueError(f"the programs have no version in common: {', '.join(said)}")
    return said[0]


def rows_of(lines: list[str]) -> list[tuple[str, str]]:
    """What each line of a list in a help names, and what it says of that."""
    found = [ROW.fullmatch(it) for it in lines]
    if not all(found):
        raise ValueError(f"a list of a help has another form than tools/releasing/commands.py knows: {lines}")
    return [(it["what"], it["about"] or "") for it in found if it]


def word_of(what: str, about: str) -> Word:
    if option := OPTION.fullmatch(what):
        return Word(about, option["value"] or "", tuple(option["names"].split(", ")))
    if place := PLACE.fullmatch(what):
        return Word(about, place["needed"] or place["free"], is_free=not place["needed"])
    raise ValueError(f"`{what}` of a help is neither an option nor a value")


def of_help(name: str, text: str, parts: dict[str, Command]) -> Command:
    """The command that a help is about. `parts` has what each subcommand says itself."""
    about, *blocks = text.strip("\n").split("\n\n")
    words: list[Word] = []
    below: list[Command] = []
    more: list[Section] = []
    for block in blocks:
        title, *lines = block.split("\n")
        if title in ("Arguments:", "Options:"):
            words += [word_of(*it) for it in rows_of(lines)]
        elif title == "Commands:":
            below += [parts.get(it, Command(it, said)) for it, said in rows_of(lines)]
        elif title.endswith(":") and lines:
            more.append(Section(title.removesuffix(":"), tuple(lines)))
        elif not title.startswith("Usage: "):
            more.append(Section("", (title, *lines)))
    return Command(name, about, tuple(words), tuple(below), tuple(more))


def of_program(name: str, program: Path) -> Command:
    """The command that a program is, by its own help."""
    text = said_by(program, "--help")
    top = of_help(name, text, {})
    own = [it.name for it in top.parts if it.name != "help"]
    return of_help(name, text, {it: of_help(it, said_by(program, it, "--help"), {}) for it in own})


def of_parser(name: str, parser: argparse.ArgumentParser, about: str = "") -> Command:
    """The command that a parser reads."""
    words: list[Word] = []
    parts: list[Command] = []
    for action in parser._actions:  # (argparse has no other way to them)
        if isinstance(action, argparse._SubParsersAction):
            parts += [of_parser(it.dest, action.choices[it.dest], it.help) for it in action._choices_actions]
        elif action.help != argparse.SUPPRESS:
            value = action.metavar or action.dest.upper() if action.nargs != 0 else ""
            about_it = (action.help or "") % {**vars(action), "prog": parser.prog}
            is_free = not action.required or action.nargs in ("*", "?")
            names = tuple(sorted(action.option_strings, key=len))
            words.append(Word(about_it, str(value), names, is_free, action.nargs in ("*", "+")))
    more = (Section("", (parser.epilog,)),) if parser.epilog else ()
    return Command(name, about or parser.description or "", tuple(words), tuple(parts), more)


def table_of(programs: dict[str, Path]) -> list[Command]:
    """All commands of a release."""
    tools = [of_parser(name, make()) for name, make in TOOLS.items()]
    return [*(of_program(name, path) for name, path in programs.items()), *tools]
