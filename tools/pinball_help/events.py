"""The ways to mend a list of events in which some have a condition that is not read."""
import re

from . import values
from .conditions import handled_events, meaning_of
from .mending import add, cut, give, line_of, substitute, take_out
from .outline import Entry, Node
from .profile import PLAYERS
from .scenery import Scenery, raw, section_of, siblings_of
from .texts import Edit, Texts
from .ways import Way

BEFORE_THE_BRACE = r"(?<=[\w.-])\s+(?=\{[^}]*[=<>])"
IN_WORDS = r"([\w.-]+)\s+(?:if|when)\s+([^{}]*[=<>][^{}]*)"
POSTED = "A condition of an event that is posted is not read."
MOVED = "Move the condition to the event that is handled: `{}`."


def way_of(scene: Scenery, text: str, entry: Entry) -> Way | None:
    """The way to mend the conditions in the value of an entry, if there are such."""
    value = raw(scene.texts, text, entry)
    if section_of(entry) == "event_player" and re.fullmatch(IN_WORDS, value, re.ASCII):
        return of_posted(scene, text, entry)
    if "{" not in value or "|" in value:
        return None
    if section_of(entry) == "event_player":
        return of_posted(scene, text, entry)
    if section_of(entry) in PLAYERS or not handled_events(entry):
        return None
    if entry.value.entries is None and re.search(BEFORE_THE_BRACE, value):
        edit = substitute(scene.texts, text, entry, BEFORE_THE_BRACE, "")
        return Way((edit,), "Take the blank out.", "No blank may come before the brace.")
    return of_handled(scene, text, entry)


def of_handled(scene: Scenery, text: str, entry: Entry) -> Way | None:
    items = [word for it in entry.value.texts() for word in it.texts()]
    found = [(it, meaning) for it in items if not values.is_event(it.text) and (meaning := meaning_of(scene, it.text))]
    if not found:
        return None
    if len([it for it in found if not it[1].right]) == len(items):
        edits: tuple[Edit, ...] = (take_out(scene.texts, text, entry),)
    else:
        edits = swapped(scene.texts, text, [(it, meaning.right) for it, meaning in found])
        steps = [step for _, meaning in found if meaning.right for step in meaning.steps]
        edits = (*edits, *steps_of(scene, text, tuple(steps)))
    first = next((it for _, it in found if not it.right), found[0][1])
    return Way(edits, first.write, first.why, recipe=first.recipe)


def swapped(texts: Texts, text: str, items: list[tuple[Node, str]]) -> tuple[Edit, ...]:
    """Gives items of a list other words, or takes out those that get none."""
    lines: dict[int, str] = {}
    for item, new in sorted(items, key=lambda it: (it[0].line, -it[0].start)):
        line = lines.get(item.line, line_of(texts, text, item.line))
        start = line.find(item.text, max(0, item.start - 1))
        end = start + len(item.text)
        if not new and line[start - 1] in "'\"" and line[end : end + 1] == line[start - 1]:
            start, end = start - 1, end + 1
        is_alone = not new and line[:start].strip() == "-" and not line[end:].strip()
        lines[item.line] = "" if is_alone else line[:start] + new + line[end:] if new else cut(line, start, end)
    return tuple(Edit(text, at, at + 1, (line,)) for at, line in lines.items())


def of_posted(scene: Scenery, text: str, entry: Entry) -> Way | None:
    """Conditions of events that are posted: each becomes an entry of its own."""
    items = entry.value.texts()
    posted = [(it.text.partition("{")[0], it.text.partition("{")[2].removesuffix("}")) for it in items]
    if in_words := re.fullmatch(IN_WORDS, raw(scene.texts, text, entry), re.ASCII):
        items, posted = items[:1], [(in_words[1], in_words[2].strip())]
    if not any(condition for _, condition in posted) or not values.is_event(entry.key):
        return None
    meanings = {condition: meaning_of(scene, joined(entry.key, condition)) for _, condition in posted if condition}
    lost = next((it for it in meanings.values() if it is None or not it.right), None)
    plain = [name for name, condition in posted if not condition]
    if None in meanings.values() or lost is None and entry.in_braces:
        return Way((take_out(scene.texts, text, entry),), MOVED.format("a{..}: b"), POSTED)
    if lost is not None:
        out = [it for it, (_, condition) in zip(items, posted) if (found := meanings.get(condition)) and not found.right]
        edits = swapped(scene.texts, text, [(it, "") for it in out])
        return Way(edits if len(out) < len(items) else (take_out(scene.texts, text, entry),), lost.write, POSTED)
    heads = [f"{entry.key}: {', '.join(plain)}"] if plain else []
    for condition, meaning in meanings.items():
        assert meaning
        names = ", ".join(name for name, it in posted if it == condition)
        heads += [*meaning.steps, f"{meaning.right}: {names}"]
    margin = line_of(scene.texts, text, entry.line)[: entry.start]
    rest = ("",) * (max(entry.last, entry.line + 1) - entry.line - 1)
    numbers = [line.number for line in scene.texts[text][entry.line : max(entry.last, entry.line + 1)]]
    new = tuple(margin + it for it in heads)
    edit = Edit(text, entry.line, max(entry.last, entry.line + 1), (*new, *rest),
                (numbers[0], *[0] * (len(new) - 1), *numbers[1:]))
    first = next(iter(meanings.values()))
    assert first
    return Way((edit,), MOVED.format(heads[1 if plain else 0]), POSTED, recipe=first.recipe)


def joined(key: str, condition: str) -> str:
    """A handled event with a second condition."""
    name, _, first = key.partition("{")
    return f"{name}{{{first.removesuffix('}')} and {condition}}}" if first else f"{name}{{{condition}}}"


def steps_of(scene: Scenery, text: str, steps: tuple[str, ...]) -> tuple[Edit, ...]:
    """Writes entries into the `event_player` of a text."""
    if not steps:
        return ()
    player = next((it for it in scene.outlines[text].entries or [] if it.key == "event_player"), None)
    if player is None:
        end = len(scene.texts[text])
        return (Edit(text, end, end, ("event_player:", *(f"  {it}" for it in steps))),)
    first = add(scene.texts, text, player, steps[0])
    margin = re.match(r"\s*", first.lines[-1])
    assert margin
    return (Edit(text, first.first, first.last, (*first.lines, *(margin[0] + it for it in steps[1:])), first.numbers),)


def hits_way(scene: Scenery, text: str, entry: Entry, word: str, why: str) -> Way:
    """The switches of a shot, as the events that hit it."""
    names = [f"{it.text}_active" for it in entry.value.texts()]
    other = next((it for it in siblings_of(entry) if it.key == "hit_events"), None)
    if other:
        names += [f"'{it.text}'" if "{" in it.text and other.in_braces else it.text for it in other.value.texts()]
    value = f"[{', '.join(names)}]" if entry.in_braces else ", ".join(names)
    edits = (give(scene.texts, text, other or entry, value, "hit_events"),)
    if other and entry.in_braces:
        edits = (both_changed(scene.texts, text, entry, other, value),)
    elif other:
        edits = (*edits, take_out(scene.texts, text, entry))
    return Way(edits, f"Write `hit_events: {value}`. {word}", why, "hit_events")


def both_changed(texts: Texts, text: str, gone: Entry, other: Entry, value: str) -> Edit:
    """Takes one entry of a line in braces out, and gives another one a value."""
    line = line_of(texts, text, gone.line)
    for entry in sorted((gone, other), key=lambda it: -it.start):
        start, end = entry.value.start, entry.value.end
        line = cut(line, entry.start, end) if entry is gone else line[:start] + value + line[end:]
    return Edit(text, gone.line, gone.line + 1, (line,))

