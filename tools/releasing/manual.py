"""Makes the man page of a command of the words of its help."""
import textwrap

from .commands import Command, Section, Word

WHERE_PAGES_ARE = (
    "The pages that are named here, such as docs/tutorial.md, are in the folder share/pinball beside the folder bin "
    "of this command. Where they say tools/pinball-help, crates/pinball/out/pinball or the like, write the name of "
    "the command alone."
)
WIDTH = 76  # of a text that is not filled


def escaped(text: str) -> str:
    """A text that man shows as it is."""
    text = text.replace("\\", "\\e").replace("-", "\\-").replace("`", "\\(ga").replace("'", "\\(aq")
    return "\n".join(f"\\&{it}" if it.startswith(".") else it for it in text.split("\n"))


def bold(text: str) -> str:
    return f"\\fB{escaped(text)}\\fR"


def italic(text: str) -> str:
    return f"\\fI{escaped(text)}\\fR"


def first_sentence(text: str) -> str:
    """What a list of commands says of one."""
    return text.partition(". ")[0].partition(": ")[0].removesuffix(".")


def shape_of(word: Word) -> str:
    """How a word is written."""
    value = italic(word.value) + (" .." if word.is_repeated else "") if word.value else ""
    shape = " ".join(filter(None, [", ".join(map(bold, word.names)), value]))
    return f"[{shape}]" if word.is_free and not word.names else shape


def usage_of(name: str, command: Command) -> str:
    """How a command is called: its name, with its options and its values."""
    options = [f"[{bold(it.names[-1])}{' ' + italic(it.value) if it.value else ''}]" for it in command.options]
    return " ".join([bold(name), *options, *map(shape_of, command.places)])


def list_of(words: tuple[Word, ...]) -> list[str]:
    return [it for word in words for it in (".TP", shape_of(word), escaped(word.about))]


def more_of(section: Section) -> list[str]:
    """A part of a help that has a title, as it is; one without is a paragraph."""
    if not section.title:
        return [".PP", escaped(" ".join(section.lines))]
    lines = textwrap.dedent("\n".join(section.lines)).split("\n")
    return [f".SH {escaped(section.title.upper())}", ".nf", *map(escaped, lines), ".fi"]


def part_of(top: str, part: Command) -> list[str]:
    """What the page says of a subcommand."""
    about = [escaped(part.about)] if part.about else []
    words = list_of(tuple(it for it in part.words if "--help" not in it.names))
    return [f".SS {escaped(top)} {escaped(part.name)}", usage_of(f"{top} {part.name}", part), ".PP", *about, *words,
            *(it for section in part.more for it in more_of(section))]


def page(command: Command, others: list[str], version: str, date: str) -> str:
    """The man page. `others` are the names of the other commands, and `date` is that of the release."""
    parts = [it for part in command.parts for it in part_of(command.name, part)]
    plain = [it for it in command.more if not it.title]
    titled = [it for it in command.more if it.title]
    usage = usage_of(command.name, command) + (f" {italic('COMMAND')} .." if parts else "")
    lines = [
        f'.TH {escaped(command.name.upper())} 1 "{date}" "pinball {version}" "pinball"',
        ".SH NAME", f"{escaped(command.name)} \\- {escaped(first_sentence(command.about))}",
        ".SH SYNOPSIS", usage,
        ".SH DESCRIPTION", escaped(command.about), *(it for section in plain for it in more_of(section)),
        *([".SH COMMANDS", *parts] if parts else []),
        *([".SH ARGUMENTS", *list_of(command.places)] if command.places else []),
        ".SH OPTIONS", *list_of(command.options),
        *(it for section in titled for it in more_of(section)),
        ".SH FILES", escaped(WHERE_PAGES_ARE),
        ".SH SEE ALSO", ", ".join(f"{bold(it)}(1)" for it in others),
    ]
    return "\n".join(lines) + "\n"
