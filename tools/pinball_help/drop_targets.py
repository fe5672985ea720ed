"""What a person does with sections for drop targets, in a machine that may have shots for them already."""
from .outline import Entry
from .scenery import Scenery, action_of

JUST_OUT = "You already have {} {}, so just take it out."
RESET = "Let a `coil_player` pulse its `reset_coil` {} at the event that resets the bank, such as `BANK_down_complete`."
PULSED = "A `coil_player` already pulses its `reset_coil` {}: {}."


def advice(scene: Scenery, section: Entry, general: str) -> str:
    """What to do with such a section; `general` where the machine has nothing in its place."""
    inside = section.value.entries or []
    if section.key == "drop_targets":
        places, missing = shots_on(scene, names_in(inside, "switch"))
        words = in_place(scene, "shots on these switches", "a shot", places, missing, general)
    else:
        places, missing = groups_of(scene, names_in(inside, "drop_targets"))
        words = in_place(scene, "a group of these targets", "a group", places, missing, general)
    coils = [*names_in(inside, "reset_coil"), *names_in(inside, "reset_coils")]
    return " ".join([words, *(of_coil(scene, it) for it in dict.fromkeys(coils))])


def names_in(targets: list[Entry], setting: str) -> list[str]:
    found = [target.value.at(setting) for target in targets]
    return [it.text for names in found if names for it in names.texts()]


def in_place(
    scene: Scenery, what: str, one: str, places: list[tuple[str, Entry]], missing: list[str], general: str
) -> str:
    if not places:
        return general
    where = ", ".join(f"`{entry.key}` in {scene.where(text, entry.line)}" for text, entry in places)
    if not missing:
        return JUST_OUT.format(what, f"({where})")
    return f"{general} You already have {one} for some of these ({where}): write the rest, for {', '.join(missing)}."


def shots_on(scene: Scenery, switches: list[str]) -> tuple[list[tuple[str, Entry]], list[str]]:
    """The shots that some of these switches hit, and the switches that hit none."""
    places, missing = [], []
    for switch in dict.fromkeys(switches):
        found = [place for place in scene.entries_of("shots") if is_hit_by(place[1], switch)]
        places += [it for it in found if it not in places]
        missing += [] if found else [f"`{switch}`"]
    return places, missing


def is_hit_by(shot: Entry, switch: str) -> bool:
    return switch in names_in([shot], "switch") or f"{switch}_active" in names_in([shot], "hit_events")


def groups_of(scene: Scenery, targets: list[str]) -> tuple[list[tuple[str, Entry]], list[str]]:
    """The groups that list some of these targets, and the targets that no group lists."""
    groups = [(place, names_in([place[1]], "shots")) for place in scene.entries_of("shot_groups")]
    listed = {it for _, shots in groups for it in shots}
    places = [place for place, shots in groups if {*shots} & {*targets}]
    return places, [f"`{it}`" for it in dict.fromkeys(targets) if it not in listed]


def of_coil(scene: Scenery, coil: str) -> str:
    """Whether something pulses the coil that resets a bank."""
    players = [(text, it) for text, entry in scene.entries_of("coil_player") for it in entry.value.entries or []]
    pulsed = [f"at `{it.path[-1].key}` in {scene.where(text, it.line)}" for text, it in players
              if it.key == coil and action_of(it) == "pulse"]
    return PULSED.format(f"`{coil}`", ", ".join(pulsed)) if pulsed else RESET.format(f"`{coil}`")
