"""Settings of a flipper or an autofire coil that in MPF hold in place of those of its coil: where they go."""
from dataclasses import dataclass

from . import powers, values
from .outline import Entry, entries, unquoted
from .scenery import Scenery, raw, section_of
from .texts import Edit
from .ways_of_faults import hold_limit, limit_of, set_setting

COILS = {"coil_overwrite": "coil", "main_coil_overwrite": "main_coil", "hold_coil_overwrite": "hold_coil"}
SETTINGS = ("hold_power", "pulse_power", "pulse_ms")  # what harms most first
USES = ("coil", "main_coil", "hold_coil", "eject_coil")
OTHERS = "That is more than it has now, and others use it too ({}), so that change is not shown: see what it bears."
LIMITED = "That is above its `{}`, so that change is not shown: see what it bears."


@dataclass(frozen=True)
class Move:
    """Where the settings of an overwrite go: in words, and the edits of the coil."""

    write: str = ""
    edits: tuple[Edit, ...] = ()
    lowering: tuple[Edit, ...] = ()  # those that give the coil less than it has


def moved(scene: Scenery, text: str, entry: Entry) -> Move:
    """Moves the settings of an overwrite to its coil.

    If others use the coil too, the edits only lower what it has: these others mean no more than that. And no edit goes
    above a limit that is written."""
    name = entry.path[-1].value.at(COILS[entry.key]) if entry.key in COILS and entry.path else None
    coil = scene.defined("coils").get(name.text) if name else None
    settings = {it.key: it for it in entry.value.entries or []}
    written = {it: unquoted(raw(scene.texts, text, settings[it])) for it in SETTINGS if it in settings}
    if not name or not coil or not written:
        return Move()
    others = others_of(scene, name.text, entry.path[-1])
    words, reasons, edits, lowering = [], [], [], []
    for key, value in written.items():
        right, reason = powers.meant(key, value) if powers.is_power(key) else (value, "")
        change = change_of(key, now_of(coil[1], key), right)
        barred = barred_by(coil[1], key, right, others) if change > 0 else ""
        words.append(f"`default_{key}: {right}`")
        reasons += [it for it in (reason, barred) if it]
        if change and not barred:
            edits.append(set_setting(scene, coil[0], coil[1], f"default_{key}", right))
            lowering += edits[-1:] if change < 0 else []
    where = f"`{name.text}`, {scene.where(coil[0], coil[1].line)}"
    write = " ".join([f"The coil is {where}: write {' and '.join(words)} there.", *dict.fromkeys(reasons)])
    most = 1 if coil[1].last <= coil[1].line + 1 else len(edits)  # (a line has one edit)
    return Move(write, tuple(edits[:most]), tuple(lowering[:most]))


def others_of(scene: Scenery, coil: str, own: Entry) -> str:
    """Where a coil is used, but for the flipper or the autofire coil `own`."""
    found = []
    for text in scene.read:
        for entry in entries(scene.outlines[text]):
            played = section_of(entry) == "coil_player" and len(entry.path) == 2 and entry.key == coil
            named = entry.key in USES and entry.path[1:] and entry.value.text == coil
            if (played or named) and not any(it is own for it in entry.path):
                found.append(scene.where(text, entry.line))
    return ", ".join(found)


def barred_by(coil: Entry, key: str, new: str, others: str) -> str:
    """Why an edit may not give a coil more than it has now; nothing where it may."""
    most = limit_of(coil, (f"max_{key}",), "")[1]
    if change_of(key, most, new) > 0:
        return LIMITED.format(f"max_{key}")
    return OTHERS.format(others) if others else ""


def now_of(coil: Entry, key: str) -> str:
    """What a coil has now: what is written, or what holds where nothing is."""
    if key == "pulse_ms":
        return limit_of(coil, ("default_pulse_ms",), "10")[1]
    if key == "hold_power":
        return limit_of(coil, ("default_hold_power",), hold_limit(coil)[1])[1]
    return limit_of(coil, ("default_pulse_power", "max_pulse_power"), "1.0")[1]


def change_of(key: str, now: str, new: str) -> int:
    """How much more a new value is than the one before; 0 where one of the two is no number."""
    before, after = as_number(key, now), as_number(key, new)
    return after - before if before is not None and after is not None else 0


def as_number(key: str, value: str) -> int | None:
    return values.milliseconds(value) if key == "pulse_ms" else values.thousandths(value)
