"""Makes the JSON Schemas (draft 7) by which an editor completes and underlines the texts of a machine.

The rules are those of the tables that the program is built of, and the words are those of docs/profile.md. An editor
reads YAML into numbers, booleans and texts before it looks into a schema, so each kind of value allows all three."""
import re
from typing import Any

from . import profile, ranges, tables
from .tables import MOST_MODES, Call, Section, Setting

Schema = dict[str, Any]
DRAFT = "http://json-schema.org/draft-07/schema#"
ABOUT = "Made by tools/pinball-help schema. It underlines much of what is refused, but what counts is `pinball check`."
NAME = "[A-Za-z0-9_.-]{1,64}"
NUMBER = ranges.signed(-1_000_000_000, 1_000_000_000)
CONDITION = rf"\{{[ \t]*current_player\.{NAME}[ \t]*(?:[=!<>]=|[<>])[ \t]*{NUMBER}[ \t]*\}}"
EVENT = f"{NAME}(?:{CONDITION})?"
EMPTY: Schema = {"enum": [None, ""]}
UNITS = {"": 1, "ms": 1, "s": 1_000, "m": 60_000, "h": 3_600_000, "d": 86_400_000}
FLAGS = ["yes", "no", True, False]
OTHER_FLAGS = "Yes|YES|No|NO|true|True|TRUE|false|False|FALSE|on|On|ON|off|Off|OFF"
NOT_READ: Schema = {"description": "For other tools: its value is not read."}
SKIPPED: Schema = {"description": "For other programs: this section is skipped, with a note."}


def schema(is_mode: bool) -> Schema:
    """The schema of the text of the machine, or of a mode."""
    sections = tables.sections(is_mode)
    return {
        "$schema": DRAFT,
        "$comment": ABOUT,
        "title": "The text of a mode" if is_mode else "The text of the machine",
        "type": ["object", "null"],
        "properties": {
            **{name: of_section(name, section) for name, section in sections.items()},
            **{name: SKIPPED for name in tables.skipped() if name not in sections},
        },
        "additionalProperties": False,
    }


def of_section(name: str, section: Section) -> Schema:
    if section.shape == "Names":
        found = of_names(rf"(?!machine(?:[ \t,]|$)){NAME}", 0, MOST_MODES, "a list of names of modes")
    elif section.shape == "Entry":
        found = one_entry(name, section.settings)
    elif section.shape == "Players":
        assert section.key and section.value
        found = mapping(EVENT, of_kind(name, section.value), "an event, perhaps with a condition")
    else:
        barred = "".join(f"(?!{it}$)" for it in section.barred)
        found = mapping(barred + NAME, one_entry(name, section.settings), "a name")
    return {"description": about_section(name), **found}


def about_section(name: str) -> str:
    """What an entry of a section is, in the words of the page."""
    entry, says = (plain(it) for it in profile.entries()[name])
    if name in profile.PLAYERS:
        return f"An entry is {entry}. It says {says.removesuffix(': see below')}."
    return f"An entry is {profile.CALLED[name]}, by its name." if "by its name" in entry else f"{entry.capitalize()}."


def mapping(key: str, value: Schema, called: str) -> Schema:
    """A mapping whose keys have a pattern, or nothing."""
    keys = {"pattern": f"^(?:{key})$", "patternErrorMessage": f"This is not {called}."}
    return {"anyOf": [{"type": "object", "propertyNames": keys, "additionalProperties": value}, EMPTY]}


def one_entry(section: str, settings: tuple[Setting, ...]) -> Schema:
    """The settings of an entry. It may be empty if it needs none."""
    found = of_settings(section, settings, ignored=True)
    return found if found["required"] else {"anyOf": [found, EMPTY]}


def of_settings(section: str, settings: tuple[Setting, ...], ignored: bool, others: bool = False) -> Schema:
    """A mapping of settings: those of other tools too, if `ignored`, and any at all, if `others`."""
    words = profile.settings(section)
    found = {it.key: described(of_kind(it.key, it.kind), it, words[it.key]) for it in settings}
    more = {name: NOT_READ for name in tables.of_other_tools() if ignored and name not in found}
    return {
        "type": "object",
        "properties": {**found, **more},
        "required": [it.key for it in settings if it.is_required],
        "additionalProperties": others,
    }


def described(found: Schema, setting: Setting, words: profile.Setting) -> Schema:
    """The schema of a setting with its words, and its default."""
    about = f"{words.does[:1].upper()}{words.does[1:]}. Value: {words.value}. Default: {words.default}."
    default = default_of(setting.without)
    return {"description": plain(about), **found, **({} if default is None else {"default": default})}


def plain(text: str) -> str:
    """The words of the page without its links and backticks."""
    return re.sub(r"\[([^]]+)\](?:\([^)]*\)|\[[^]]*\])", r"\1", text).replace("`", "")


def default_of(without: Call) -> Any:
    """What holds where a setting is not written, as one would write it; none where nothing does."""
    if without.name == "Without::One":
        return default_of(without.values[0])
    if without.name == "Absent::Flag":
        return "yes" if without.values[0] else "no"
    if without.name == "Absent::Time":
        return time_of(without.values[0])
    if without.name == "Absent::Power":
        return without.values[0] / 1_000
    return without.values[0] if without.values else None


def time_of(milliseconds: int) -> str | int:
    if milliseconds == 0:
        return 0
    return f"{milliseconds}ms" if milliseconds % 1_000 else f"{milliseconds // 1_000}s"


def of_kind(section: str, kind: Call) -> Schema:
    """What a value may be. `section` has the words for the mappings in it."""
    outer, _, name = kind.name.partition("::")
    if outer == "Scalar" or name == "One":
        return of_scalar(kind if outer == "Scalar" else kind.values[0])
    if name in ("Names", "Posts"):
        return of_names(NAME, *bounds(kind.values[0]), "a list of names")
    if name == "Events":
        return of_names(EVENT, *bounds(kind.values[0]), "a list of events, perhaps with conditions")
    if name == "Steps":
        step = of_names(EVENT, 1, None, "a list of events, perhaps with conditions")
        return of_items(step, *bounds(kind.values[0]))
    if name in ("Maps", "NamedMaps"):
        fields, others, between = kind.values
        return of_items(of_settings(section, fields, False, others == Call("Others::Ignored")), *bounds(between))
    if name == "Keyed":
        fields, _, short = kind.values
        value = {"anyOf": [of_scalar(short), of_settings(section, fields, ignored=False)]}
        return mapping(NAME, value, "a name")
    raise ValueError(f"a schema does not know the kind {kind.name}")


def bounds(between: Call) -> tuple[int, int | None]:
    """How many items a list may have. The limit of 1,024 that all lists have is left to the program."""
    return between.values[0], between.values[1] if len(between.values) > 1 else None


def counted(item: Schema, least: int, greatest: int | None) -> Schema:
    limits = {**({"minItems": least} if least else {}), **({"maxItems": greatest} if greatest else {})}
    return {"type": "array", "items": item, **limits}


def of_items(item: Schema, least: int, greatest: int | None) -> Schema:
    """A YAML list. It may be empty text if it may have no items."""
    found = counted(item, least, greatest)
    return {"anyOf": [found, EMPTY]} if least == 0 else found


def of_names(one: str, least: int, greatest: int | None, called: str) -> Schema:
    """A list of texts, in one text or in a YAML list. Empty items do not count: so a list with some is not counted."""
    item = of_text(one, called)
    times = f"{{{least},{greatest or ''}}}"
    text = of_text(rf"[ \t,]*(?:{one}(?:[ \t,]+|$)){times}", called)
    lists = [counted({"anyOf": [item, EMPTY]}, 0, None)]
    if least or greatest:
        has = [{"contains": EMPTY}, *([{"contains": item}] if least else [])]
        lists = [counted(item, least, greatest), {**lists[0], "allOf": has}]
    return {"anyOf": [text, *lists, *([{"type": "null"}] if least == 0 else [])]}


def of_text(pattern: str, called: str) -> Schema:
    """A text with a pattern. What an editor reads as a number or a boolean is text too."""
    said = f"Write {called}."
    return {"type": ["string", "number", "boolean"], "pattern": f"^(?:{pattern})$", "patternErrorMessage": said}


def of_scalar(kind: Call) -> Schema:
    name = kind.name.partition("::")[2]
    if name == "Flag":
        return {"anyOf": [{"enum": FLAGS}, {"type": "string", "pattern": f"^(?:{OTHER_FLAGS})$"}]}
    if name == "Word":
        return {"enum": list(kind.values[0])}
    if name == "Name":
        return of_text(NAME, "a name: letters, digits, `_`, `-` and `.`")
    if name == "Event":
        return of_text(EVENT, "an event, perhaps with a condition")
    if name == "Number":
        least, greatest = kind.values
        return number(ranges.signed(least, greatest), least, greatest, f"an integer from {least:,} to {greatest:,}")
    if name == "Time":
        return number(time(*kind.values), *kind.values, "a time, such as 20ms or 1.5s, that is within its range")
    if name == "Power":
        power = f"{ranges.decimal(0, 1_000, 3)}|{ranges.decimal(0, 1_000, 1)}%"
        said = "a power: 0 to 1, or 0% to 100%"
        return {"anyOf": [{"type": "number", "minimum": 0, "maximum": 1}, of_string(power, said)]}
    raise ValueError(f"a schema does not know the kind {kind.name}")


def number(pattern: str, least: int, greatest: int, called: str) -> Schema:
    whole: Schema = {"type": "integer", "minimum": least, "maximum": greatest}
    return {"anyOf": [whole, of_string(pattern, called)]}


def of_string(pattern: str, called: str) -> Schema:
    return {**of_text(pattern, called), "type": "string"}


def time(least: int, greatest: int) -> str:
    """The pattern of a time from one number of milliseconds to another, in each unit."""
    found = []
    for unit, length in UNITS.items():
        if length == 1:
            found.append(rf"{ranges.whole(least, greatest)}(?:\.0{{1,3}})?[ \t]*{unit}")
            continue
        first, last = -(-least * 1_000 // length), greatest * 1_000 // length
        if first <= last:
            found.append(rf"{ranges.decimal(first, last, 3)}[ \t]*{unit}")
    return "|".join(found)
