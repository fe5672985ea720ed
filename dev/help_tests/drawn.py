"""Draws small texts by the tables of sections, each once as it may be and once with one mistake in it."""
import random
from dataclasses import dataclass
from typing import Any

from pinball_help import schema, tables
from pinball_help.tables import Call, Section, Setting

MISTAKES = ("section", "setting", "kind", "word", "range")
MISSPELT = ("tpye", "pulse-ms", "enable_event", "coils_", "Event_player", "show_tokens", "hold_pwer", "numbre", "timer")
UNITS = (("", 1), ("ms", 1), (" ms", 1), ("s", 1_000), ("m", 60_000))
OUTSIDE = 1 << 40
# what is of another kind, by the kind that is asked for
OF_ANOTHER_KIND = {
    "Flag": ("maybe", "[yes]", "2", "{a: 1}"), "Number": ("many", "1.5", "[1]", "{a: 1}", "''"),
    "Time": ("soon", "5 parsecs", "[1s]", "{s: 1}"), "Power": ("loud", "[0.5]", "{a: 1}"),
    "Word": ("[up]", "{up: 1}", "''"), "Name": ("a b", "[a]", "{a: 1}", "'a$'", "''"),
    "Event": ("a b", "[a]", "'a{x}'"),
    "Names": ("{a: 1}", "'a, b$'", "[[a]]", "[a b]"), "Posts": ("{a: 1}", "'a|2s'", "[[a]]"),
    "Events": ("{a: 1}", "'a|2s'", "'a{b}'", "[[a]]"), "Steps": ("a", "[[]]", "{a: 1}", "[{a: 1}]"),
    "Maps": ("a", "[a]", "{a: 1}"), "NamedMaps": ("a", "[a]", "{a: 1}", "[{name: a b}]"),
}
Tree = dict[str, Any]  # mappings, and values as they are written


@dataclass(frozen=True)
class Drawn:
    """A text as it may be, and with a mistake, which the program reports as `error`."""

    is_mode: bool
    mistake: str
    error: str
    right: str
    wrong: str


def draw_texts(draw: random.Random, count: int) -> list[Drawn]:
    return [draw_text(draw, MISTAKES[at % len(MISTAKES)]) for at in range(count)]


def draw_text(draw: random.Random, mistake: str) -> Drawn:
    is_mode = draw.random() < 0.4
    sections = tables.sections(is_mode)
    section, setting, wrong = draw_mistake(draw, mistake, sections)
    others = [it for it in draw.sample([*sections], 4) if it != section]
    tree = {name: draw_section(draw, sections[name]) for name in others}
    place = draw.randrange(len(tree) + 1)
    written = [
        text_of(placed(tree, place, section, one))
        for one in draw_both(draw, mistake, sections.get(section), setting, wrong)
    ]
    error = {"section": "UnknownSection", "setting": "UnknownSetting"}.get(mistake, "BadValue")
    return Drawn(is_mode, mistake, error, *written)


def draw_mistake(draw: random.Random, mistake: str, sections: dict[str, Section]) -> tuple[str, Setting | None, str]:
    """A section, a setting of it, and what is written there by mistake."""
    if mistake == "section":
        known = {*sections, *tables.skipped()}
        return draw.choice([it for it in (*MISSPELT, "swtiches", "modes_") if it not in known]), None, ""
    if mistake == "setting":
        names = [name for name, it in sections.items() if settings_of(it)]
        return draw.choice(names), None, draw.choice(MISSPELT)
    places = [
        (name, setting, wrong)
        for name, section in sections.items()
        for setting in settings_of(section)
        for wrong in wrong_values(draw, mistake, setting.kind)
    ]
    return draw.choice(places)


def settings_of(section: Section) -> tuple[Setting, ...]:
    """The settings of an entry, or of what an entry of a player has."""
    if section.value and section.value.name == "Kind::Keyed":
        return section.value.values[0]
    return section.settings


def inner(kind: Call) -> Call:
    return kind.values[0] if kind.name == "Kind::One" else kind


def wrong_values(draw: random.Random, mistake: str, kind: Call) -> list[str]:
    """Values that a setting of this kind may not have, each with this mistake."""
    kind = inner(kind)
    name = kind.name.partition("::")[2]
    if mistake == "kind":
        return [draw.choice(OF_ANOTHER_KIND[name])]
    if mistake == "word":
        return ["sideways"] if name == "Word" else []
    if name in ("Number", "Time"):
        least, greatest = kind.values
        numbers = [greatest + draw.choice((1, 7, 1_000)), *([least - 1] if least or name == "Number" else [])]
        return [time(draw, it) if name == "Time" else quoted_or_not(draw, str(it)) for it in numbers]
    if name == "Power":
        return [draw.choice(("1.5", "2", "150%", "'1.001'", "100.5%"))]
    least, greatest = schema.bounds(kind.values[-1]) if name in ("Names", "Steps", "NamedMaps") else (0, None)
    return [items(draw, name, count) for count in (least - 1, greatest + 1) if count >= 0] if greatest else []


def quoted_or_not(draw: random.Random, text: str) -> str:
    return draw.choice((text, text, f"'{text}'", f'"{text}"'))


def time(draw: random.Random, milliseconds: int) -> str:
    """A time in a unit that can write it with three decimals."""
    unit, length = draw.choice([it for it in UNITS if milliseconds * 1_000 % it[1] == 0])
    whole, rest = divmod(milliseconds * 1_000 // length, 1_000)
    return f"{whole}.{rest:03}{unit}" if rest else f"{whole}{unit}"


def event(draw: random.Random) -> str:
    return draw.choice(("a", "b_1", "s_left_active", "a{current_player.x==1}", "a{current_player.score >= 1000}"))


def items(draw: random.Random, name: str, count: int) -> str:
    """A list of so many items."""
    names = [f"n_{at}" for at in range(count)]
    if name in ("Events", "Steps"):
        names = [f"'{event(draw)}'" if name == "Steps" or draw.random() < 0.5 else it for it in names]
    if name == "Steps":
        names = [f"[{it}]" for it in names]
    elif name == "NamedMaps":
        names = [f"{{name: {it}, show: x}}" for it in names]
    elif name == "Maps":
        names = [f"{{event: {it}, action: {draw.choice(('start', 'jump'))}, value: 1}}" for it in names]
    elif all(it.isidentifier() for it in names) and draw.random() < 0.5:
        return draw.choice((", ", " ")).join(names) or "''"
    return f"[{', '.join(names)}]"


def value(draw: random.Random, kind: Call) -> str:
    """What a setting of this kind may be."""
    kind = inner(kind)
    name = kind.name.partition("::")[2]
    if name == "Number":
        return quoted_or_not(draw, str(draw.randint(*kind.values)))
    if name == "Time":
        return time(draw, draw.randint(kind.values[0], min(kind.values[1], 10_000)))
    if name == "Word":
        return draw.choice(kind.values[0])
    if name == "Keyed":
        return f"{{n: {fields(draw, kind.values[0])}}}"
    some = {"Flag": ("yes", "No", "true", "off"), "Power": ("0.25", "50%", "1", "0"), "Name": ("n", "n.1", "5")}
    if name in some:
        return draw.choice(some[name])
    if name == "Event":
        return f"'{event(draw)}'"
    least, greatest = schema.bounds(kind.values[-1])
    return items(draw, name, draw.randint(least, min(greatest or 3, 3)))


def drawn_value(draw: random.Random, setting: Setting) -> str:
    # (a mode with `use_wait_queue: yes` has to have certain `start_events`)
    return "no" if setting.key == "use_wait_queue" else value(draw, setting.kind)


def fields(draw: random.Random, settings: tuple[Setting, ...], more: Tree | None = None) -> str:
    written = {it.key: drawn_value(draw, it) for it in settings if it.is_required} | (more or {})
    return "{" + ", ".join(f"{key}: {text}" for key, text in written.items()) + "}"


def entry(draw: random.Random, settings: tuple[Setting, ...]) -> Tree:
    return {it.key: drawn_value(draw, it) for it in settings if it.is_required or draw.random() < 0.3}


def draw_section(draw: random.Random, section: Section) -> Tree | str:
    if section.shape == "Names":
        return items(draw, "Names", draw.randrange(4))
    if section.shape == "Entry":
        return entry(draw, section.settings)
    if section.shape == "Players":
        return {event(draw): value(draw, section.value) for _ in range(2)}
    return {f"n_{at}": entry(draw, section.settings) for at in range(draw.randrange(3))}


def draw_both(
    draw: random.Random, mistake: str, section: Section | None, setting: Setting | None, wrong: str
) -> tuple[Tree | str | None, Tree | str | None]:
    """A section without the mistake, and with it; none if there is to be no such section."""
    if section is None:
        return None, {}
    settings = settings_of(section)
    if section.shape == "Players":
        more = [{setting.key: drawn_value(draw, setting)}, {setting.key: wrong}] if setting else [{}, {wrong: "1"}]
        right, other = ({"e": f"{{n: {fields(draw, settings, it)}}}"} for it in more)
        return right, other
    base = entry(draw, settings)
    right = base | ({setting.key: drawn_value(draw, setting)} if setting else {})
    other = right | {setting.key if setting else wrong: wrong if setting else "1"}
    return (right, other) if section.shape == "Entry" else ({"n": right}, {"n": other})


def placed(tree: Tree, place: int, name: str, section: Tree | str | None) -> Tree:
    """The sections with another one at a place among them."""
    parts = [*tree.items()]
    return dict([*parts[:place], *([(name, section)] if section is not None else []), *parts[place:]])


def text_of(tree: Tree) -> str:
    return "\n".join(["#config_version=6", *lines_of(tree, 0)]) + "\n"


def lines_of(tree: Tree, depth: int) -> list[str]:
    found = []
    for key, below in tree.items():
        found.append("  " * depth + (f"{key}:" if isinstance(below, dict) else f"{key}: {below}"))
        found += lines_of(below, depth + 1) if isinstance(below, dict) else []
    return found
