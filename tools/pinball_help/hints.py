"""What is no error, and seldom meant: a machine without a game, a mode without its text, a setting that is skipped."""
import os
import re
from dataclasses import dataclass
from pathlib import Path

from . import values
from .outline import Entry, Node
from .scenery import Scenery
from .texts import MACHINE, mode_text

OF_MPF = ("attract", "game", "tilt", "slam_tilt", "credits", "high_score", "bonus", "service", "match")


@dataclass(frozen=True)
class Hint:
    text: str
    line: int  # in the user's file, from 1
    key: str
    says: str


def hints(scene: Scenery, folder: Path) -> list[Hint]:
    return [*of_game(scene), *of_pulses(scene), *of_modes(scene, folder)]


def hint(scene: Scenery, text: str, line: int, key: str, says: str) -> Hint:
    return Hint(text, scene.number(text, line), key, says)


def section(scene: Scenery, text: str, name: str) -> Entry | None:
    return next((it for it in scene.outlines[text].entries or [] if it.key == name), None)


def of_game(scene: Scenery) -> list[Hint]:
    """Where something waits for a game, and there is none."""
    if section(scene, MACHINE, "game"):
        return []
    says = "There is no section `game`, so no game ever begins."
    for name, entry in scene.entries_of("switches"):
        tags = entry.value.at("tags")
        if tags and "start" in [it.text for it in tags.texts()]:
            return [hint(scene, name, entry.line, entry.key, f"{says} This start button does nothing.")]
    for text in scene.read:
        mode = section(scene, text, "mode")
        own = mode.value.at("game_mode") if mode else None
        if text != MACHINE and not (own and own.text and not values.is_yes(own.text)):
            line = mode.line if mode else 0
            return [hint(scene, text, line, "mode", f"{says} Modes without `game_mode: no` never start.")]
    return []


def of_pulses(scene: Scenery) -> list[Hint]:
    """A default for all coils, in a section that is skipped."""
    skipped = section(scene, MACHINE, "mpf")
    entry = next((it for it in (skipped.value.entries or [] if skipped else []) if it.key == "default_pulse_ms"), None)
    coils = [it.key for _, it in scene.entries_of("coils") if not it.value.at("default_pulse_ms")]
    if entry is None or not coils:
        return []
    which = f"`{coils[0]}` gets" if len(coils) == 1 else f"{len(coils)} coils without it get"
    says = f"`mpf` is not read, so {which} 10 ms: write it there."
    return [hint(scene, MACHINE, entry.line, entry.key, says)]


def of_modes(scene: Scenery, folder: Path) -> list[Hint]:
    """Modes that are listed and have no text."""
    listed = section(scene, MACHINE, "modes")
    found = []
    for item in listed.value.texts() if listed else []:
        if mode_text(item.text) not in scene.texts and (says := why_absent(folder, item)):
            found.append(hint(scene, MACHINE, item.line, item.text, says))
    return found


def why_absent(folder: Path, item: Node) -> str:
    name = item.text
    if name.startswith("-"):
        return f"A blank is missing after the dash: write `- {name[1:]}`."
    near = [it for it in names_in(folder / "modes") if it.lower() == name.lower()]
    if near and name not in near:
        return f"The folder is `modes/{near[0]}`: capital letters count, so the mode has no text."
    inside = names_in(folder / "modes" / name / "config")
    other = [it for it in inside if it.lower() in (f"{name.lower()}.yaml", f"{name.lower()}.yml")]
    if other:
        return f"Its file is called `{other[0]}`, and has to be `{name}.yaml`: as it is, the mode has no text."
    if name in OF_MPF:
        return ""
    alone = re.sub(r"\.ya?ml$", "", name)
    if alone != name:
        return f"A mode is listed by the name of its folder: write `{alone}`."
    return f"There is no `{mode_text(name)}`, so the mode does nothing. Look for a slip."


def names_in(folder: Path) -> list[str]:
    try:
        return sorted(os.listdir(folder))
    except OSError:
        return []
