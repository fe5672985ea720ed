"""The ways to mend what the faults 1 to 6 say."""
import dataclasses
import re

from . import powers, values
from .answers import Complaint
from .mending import add, give, replace, take_item_out, take_out
from .near import nearest
from .idioms import HOLD
from .outline import Entry, entries
from .scenery import Place, Scenery, action_of, section_of
from .ways import Cure, Way

FREE = "The game or the mode posts it by itself. You may handle it, but not post it."
ENDS = " Nothing in a text can end a ball or a game: a player's ball ends when the last ball in play drains."
PULSE_OR_HOLD = (
    "Pulse it, as below, if {} ms are enough: a pulse holds nothing. If it has to hold, keep `enable`, and write "
    "`default_hold_power` at the coil, with the power that it bears for hours. `allow_enable: yes` alone allows full "
    "power."
)
RESERVED_VARIABLES = "The game sets this variable, or its change would post an event of the game."
# what a name is, by the section and the setting that it is written in
KINDS = {
    ("coil_player", ""): ("coils", "coil"),
    ("flippers", "main_coil"): ("coils", "coil"),
    ("flippers", "hold_coil"): ("coils", "coil"),
    ("flippers", "activation_switch"): ("switches", "switch"),
    ("autofire_coils", "coil"): ("coils", "coil"),
    ("autofire_coils", "switch"): ("switches", "switch"),
    ("ball_devices", "ball_switches"): ("switches", "switch"),
    ("ball_devices", "eject_coil"): ("coils", "coil"),
    ("ball_devices", "eject_targets"): ("ball_devices", "ball device"),
    ("shots", "switch"): ("switches", "switch"),
    ("shots", "profile"): ("shot_profiles", "profile"),
    ("shot_groups", "shots"): ("shots", "shot"),
}


def kind_of(place: Place) -> tuple[str, str] | None:
    setting = "" if place.item is None else place.entry.key
    return KINDS.get((section_of(place.entry), setting))


def out_of(scene: Scenery, place: Place) -> tuple:
    """Takes what uses a name out: a flipper or an autofire coil as a whole, as it requires its coils and its switch."""
    entry = place.entry
    if section_of(entry) in ("flippers", "autofire_coils") and entry.path[1:] and entry.key != "hold_coil":
        return (take_out(scene.texts, place.text, entry.path[1]),)
    if place.item is None:
        return (take_out(scene.texts, place.text, entry),)
    return (take_item_out(scene.texts, place.text, entry, place.item),)


def of_name(scene: Scenery, complaint: Complaint) -> Cure:
    key, line = complaint.key, complaint.line - 1
    places = list(scene.places(complaint.text, line, key))
    # a key of an event player is handled, and may be any event
    places = [
        it
        for it in places
        if it.item or section_of(it.entry) in ("coil_player", "variable_player") and len(it.entry.path) == 2
    ]
    if not places:
        return Cure()
    place = next((it for it in places if kind_of(it)), places[0])
    mark = (place.item.start, place.item.end) if place.item else (place.entry.start, place.entry.end)
    out = out_of(scene, place)
    kind = kind_of(place)
    if kind is None:
        return of_reserved(scene, place, key, out, mark)
    section, called = kind
    names = [
        *scene.defined(section),
        *(["playfield"] if section == "ball_devices" else ["default"] if section == "shot_profiles" else []),
    ]
    if section == "shots" and key in names:
        return of_group(scene, place, key, out, mark)
    says = (f"`{key}` is used as the name of a {called}, and `{section}` defines no such {called}.",)
    near = nearest(key, names)
    if near and place.item is None and any(it.key == near for it in place.entry.path[-1].value.entries or []):
        return Cure(says, True, (Way(out, f"Take one of the two out, if `{near}` is meant.", near=near),), out, mark)
    if near:
        edit = replace(scene.texts, place.text, line, *mark, near)
        return Cure(says, True, (Way((edit,), f"Write `{near}`.", near=near), Way(out)), out, mark)
    homes = {"shots": "the same text", "shot_profiles": "any text"}
    where = homes.get(section, "the text of the machine")
    return Cure(says, True, (Way(out, f"Define it below `{section}` in {where}, or take its use out."),), out, mark)


def of_reserved(scene: Scenery, place: Place, key: str, out: tuple, mark: tuple[int, int]) -> Cure:
    if section_of(place.entry) == "variable_player":
        new = f"my_{key}"[:64]
        edit = replace(scene.texts, place.text, place.line, *mark, new)
        return Cure(
            (RESERVED_VARIABLES,),
            True,
            (Way((edit,), f"Take another name for your variable, as `{new}`."), Way(out)),
            out,
            mark,
        )
    mode = re.match(r"mode_(.+)_(?:will_start|starting|started|stopping|stopped)$", key)
    if mode:
        what = "stop_events" if "stop" in key else "start_events"
        way = Way(out, f"Post an event of your own, and name it in the `{what}` of the mode `{mode[1]}`.", FREE)
    elif key.startswith(("ball_", "game_", "player_")):
        ends = ENDS if "end" in key or "drain" in key else ""
        way = Way(out, "Post an event of another name." + ends, FREE)
    else:
        way = Way(out, "Post an event of another name.", FREE)
    return Cure((f"`{key}` is reserved.",), True, (way,), out, mark)


def of_group(scene: Scenery, place: Place, key: str, out: tuple, mark: tuple[int, int]) -> Cure:
    """Why a group may not list a shot that some text defines."""
    home, shot = scene.defined("shots")[key]
    group = place.entry.path[1]
    same_text = [entry for text, entry in scene.entries_of("shots") if text == place.text and entry.key == key]
    if not same_text:
        says = f"The shot `{key}` is defined in {home}, and a group lists shots of its own text."
        return Cure((says,), True, (Way(out, f"Move the group to {home}, or the shot to this text."),), out, mark)
    listed = [it.text for it in place.entry.value.texts()]
    if listed.count(key) > 1:
        return Cure(
            (f"The group `{group.key}` lists it twice.",), True, (Way(out, "Take one of the two out."),), out, mark
        )
    for text, entry in scene.entries_of("shot_groups"):
        shots = entry.value.at("shots")
        if shots and entry.line < group.line and text == place.text and key in [it.text for it in shots.texts()]:
            number = scene.number(text, entry.line)
            says = f"The group `{entry.key}` in line {number} lists it too: a shot is in one group."
            return Cure((says,), True, (Way(out, "Take it out of one of the two groups."),), out, mark)
    first = listed[0]
    one, other = profile_of(scene, key), profile_of(scene, first)
    says = f"It has the profile `{one}`, and `{first}`, the first of the group, has `{other}`."
    edit = set_setting(scene, home, shot, "profile", profile_of(scene, first))
    return Cure((says,), True, (Way((edit,), "Give all shots of a group one profile."), Way(out)), out, mark)


def profile_of(scene: Scenery, shot: str) -> str:
    found = scene.defined("shots").get(shot)
    written = found[1].value.at("profile") if found else None
    return written.text if written else "default"


def set_setting(scene: Scenery, text: str, entry: Entry, key: str, value: str):
    """The edit that gives an entry a setting, whether it has one or not."""
    found = next((it for it in entry.value.entries or [] if it.key == key), None)
    return give(scene.texts, text, found, value) if found else add(scene.texts, text, entry, f"{key}: {value}")


def limit_of(coil: Entry | None, settings: tuple[str, ...], default: str) -> tuple[str, str]:
    """The first of some settings that a coil has: its name and its value."""
    for setting in settings:
        if coil and (found := coil.value.at(setting)):
            return setting, found.text
    return "", default


def coil_at(scene: Scenery, complaint: Complaint) -> tuple[Entry | None, Entry | None]:
    """The entry of a coil in a line, and the coil's own."""
    own = scene.defined("coils").get(complaint.key)
    return scene.entry_at(complaint.text, complaint.line - 1, complaint.key), own[1] if own else None


def over(
    scene: Scenery, complaint: Complaint, used: tuple[str, str], limit: tuple[str, str], unit: str, entry: Entry
) -> Cure:
    """A value that is above its limit: `used` and `limit` are names of settings with their values."""
    where = f"`{limit[0]}` of `{complaint.key}`" if limit[0] else "what holds if nothing is written"
    says = (f"{used[1]}{unit}, at most {limit[1]}{unit}: {where}.",)
    setting = next((it for it in entry.value.entries or [] if it.key == used[0]), None)
    own = section_of(entry) == "coils"
    out = (take_out(scene.texts, complaint.text, setting if own and setting else entry),)
    write = f"Write `{used[0]}: {limit[1]}` or less. Raise the limit only if the coil bears it."
    if setting:
        marked = (setting.start, setting.value.end) if setting.line == entry.line else (entry.start, entry.end)
        return Cure(
            says, False, (Way((give(scene.texts, complaint.text, setting, limit[1]),), write), Way(out)), out, marked
        )
    edit = add(scene.texts, complaint.text, entry, f"{used[0]}: {limit[1]}")
    return Cure(says, False, (Way((edit,), write), Way(out)), out, (entry.start, entry.end))


def of_pulse(scene: Scenery, complaint: Complaint) -> Cure:
    entry, own = coil_at(scene, complaint)
    if entry is None:
        return Cure()
    limit = limit_of(own, ("max_pulse_ms", "default_pulse_ms"), "10")
    if section_of(entry) == "coils":
        used = limit_of(own, ("default_pulse_ms",), "10")
        return over(
            scene, complaint, ("default_pulse_ms", plain_ms(used[1])), (limit[0], plain_ms(limit[1])), " ms", entry
        )
    return over(
        scene,
        complaint,
        ("pulse_ms", plain_ms(limit_of(entry, ("pulse_ms",), "10")[1])),
        (limit[0], plain_ms(limit[1])),
        " ms",
        entry,
    )


def plain_ms(text: str) -> str:
    found = values.milliseconds(text)
    return text if found is None else str(found)


def hold_limit(coil: Entry | None) -> tuple[str, str]:
    if coil and not coil.value.at("max_hold_power"):
        allowed = coil.value.at("allow_enable")
        if allowed and values.is_yes(allowed.text):
            return "allow_enable", "1.0"
    return limit_of(coil, ("max_hold_power", "default_hold_power"), "0")


def of_power(scene: Scenery, complaint: Complaint) -> Cure:
    entry, own = coil_at(scene, complaint)
    if entry is None:
        return Cure()
    pairs = (("pulse_power", limit_of(own, ("max_pulse_power",), "1.0")), ("hold_power", hold_limit(own)))
    prefix = "default_" if section_of(entry) == "coils" else ""
    for name, limit in pairs:
        used = limit_of(entry, (prefix + name,), "")
        if used[1] and (values.thousandths(used[1]) or 0) > (values.thousandths(limit[1]) or 0):
            if not prefix and used[1] == "1":
                return of_old_power(scene, complaint, used, limit, entry)
            return over(scene, complaint, used, limit, "", entry)
        if not used[1] and prefix and name == "pulse_power" and (values.thousandths(limit[1]) or 0) < 1000:
            return over(scene, complaint, ("default_pulse_power", "1.0"), limit, "", entry)
    out = (take_out(scene.texts, complaint.text, entry),)
    return Cure((), False, (Way(out, "Lower the power."),), out)


def of_old_power(
    scene: Scenery, complaint: Complaint, used: tuple[str, str], limit: tuple[str, str], entry: Entry
) -> Cure:
    """A power of `1` that is above its limit: full power, or one eighth where it was written for an older MPF."""
    part, why = powers.meant(*used)
    if (values.thousandths(part) or 0) > (values.thousandths(limit[1]) or 0):
        part = limit[1]
    cure = over(scene, complaint, used, limit, "", entry)
    setting = next(it for it in entry.value.entries or [] if it.key == used[0])
    write = f"Write `{used[0]}: {part}`; or up to `{limit[1]}`, if full power was meant and the coil bears it."
    way = Way((give(scene.texts, complaint.text, setting, part),), write, why)
    return dataclasses.replace(cure, ways=(way, *cure.ways[1:]))


def of_hold(scene: Scenery, complaint: Complaint) -> Cure:
    coil = scene.defined("coils").get(complaint.key)
    entry = scene.around(complaint.text, complaint.line - 1)
    entry = scene.entry_at(complaint.text, complaint.line - 1, complaint.key) or entry
    if coil is None or entry is None:
        return Cure()
    flipper = section_of(entry) == "flippers"
    where = scene.where(coil[0], coil[1].line)
    says = f"`coils` has it in {where}, with neither `allow_enable: yes` nor a `default_hold_power`."
    out = (take_out(scene.texts, complaint.text, entry),)
    if flipper:
        write = "If it is the holding winding of a flipper, made to stay on, write `allow_enable: yes` at the coil."
        ways = (Way((add(scene.texts, coil[0], coil[1], "allow_enable: yes"),), write), Way(out))
    else:
        length = plain_ms(limit_of(coil[1], ("default_pulse_ms",), "10")[1])
        write = f"{PULSE_OR_HOLD.format(length)} {end_of_hold(scene, complaint)}".rstrip()
        way = Way((give(scene.texts, complaint.text, entry, "pulse"),), write, recipe=HOLD)
        ways = (way, Way(out))
    return Cure((says,), False, ways, out, (entry.start, entry.end))


def end_of_hold(scene: Scenery, complaint: Complaint) -> str:
    """What is said of a coil that is enabled, and that no entry disables."""
    coil, owner = complaint.key, scene.owner(complaint.text)
    played = [it for _, entry in scene.entries_of("coil_player") for it in entry.value.entries or []]
    if any(it.key == coil and action_of(it) == "disable" for it in played):
        return ""
    until = "for good" if owner == "machine" else f"until the mode `{owner}` stops"
    return f"No entry disables `{coil}`: it would then be on {until}."


def of_timer(scene: Scenery, complaint: Complaint) -> Cure:
    entry = scene.entry_at(complaint.text, complaint.line - 1, complaint.key)
    if entry is None:
        return Cure()
    down = limit_of(entry, ("direction",), "up")[1] == "down"
    start, end = limit_of(entry, ("start_value",), "0")[1], limit_of(entry, ("end_value",), "0" if down else "none")[1]
    says = f"It goes {'down' if down else 'up'} from {start} and ends at {end}, so it is at its end at once."
    out = (take_out(scene.texts, complaint.text, entry),)
    right = str((values.number(end) or 0) + (10 if down else -10))
    write = f"Write a `start_value` {'above' if down else 'below'} {end}, as `start_value: {right}`."
    edit = set_setting(scene, complaint.text, entry, "start_value", right)
    return Cure((says,), False, (Way((edit,), write), Way(out)), out, (entry.start, entry.end))


def of_route(scene: Scenery, complaint: Complaint) -> Cure:
    """All that is wrong with the way of the balls through a device."""
    entry = scene.entry_at(complaint.text, complaint.line - 1, complaint.key)
    if entry is None or entry.key not in scene.defined("ball_devices"):
        return Cure()
    out = (take_out(scene.texts, complaint.text, entry),)
    found = [
        *switches_at_fault(scene, complaint.text, entry),
        *no_way_out(scene, complaint.text, entry),
        *wrong_targets(scene, complaint.text, entry),
    ]
    edits = tuple(edit for _, _, edit in found if edit)
    write = " ".join(dict.fromkeys(write for _, write, _ in found)) or "See the causes in docs/faults.md."
    ways = (Way(edits, write),) if edits and len({edit.first for edit in edits}) == len(edits) else ()
    return Cure(tuple(says for says, _, _ in found), False, (*ways, Way(out, write)), out, (entry.start, entry.end))


def switches_at_fault(scene: Scenery, text: str, entry: Entry) -> list:
    """Ball switches that an earlier device has, or that are listed twice: what to say and write, and the edit."""
    listed = next((it for it in entry.value.entries or [] if it.key == "ball_switches"), None)
    used: dict[str, str] = {}
    for _, other in scene.entries_of("ball_devices"):
        if other.line < entry.line and (found := other.value.at("ball_switches")):
            used.update({it.text: other.key for it in found.texts()})
    result, own = [], set()
    for item in listed.value.texts() if listed else []:
        edit = take_item_out(scene.texts, text, listed, item)
        if len(listed.value.texts()) < 2:
            edit = give(scene.texts, text, listed, "[]")
        if item.text in own:
            result.append((f"It lists the ball switch `{item.text}` twice.", "Take one of the two out.", edit))
        elif item.text in used:
            result.append((f"`{used[item.text]}` has the ball switch `{item.text}` before.",
                           "A ball switch counts one ball, of one device: look for a slip.", edit))
        own.add(item.text)
    return result


def free_coil(scene: Scenery, device: str) -> str:
    """The coil that no entry uses and whose name has a word of the device's, if there is one alone."""
    used = {it.text for name in scene.read for entry in entries(scene.outlines[name]) for it in entry.value.texts()}
    used |= {coil.key for _, entry in scene.entries_of("coil_player") for coil in entry.value.entries or []}
    words = {*re.findall(r"[a-z]{3,}", device.lower())}
    free = [
        name
        for name in scene.defined("coils")
        if name not in used and words & {*re.findall(r"[a-z]{3,}", name.lower())}
    ]
    return free[0] if len(free) == 1 else ""


def no_way_out(scene: Scenery, text: str, entry: Entry) -> list:
    by_hand = entry.value.at("mechanical_eject")
    if entry.value.at("eject_coil"):
        return []
    coil = free_coil(scene, entry.key)
    edit = add(scene.texts, text, entry, f"eject_coil: {coil}") if coil else None
    if is_tagged(entry, "trough"):
        return [
            ("It has the tag `trough`, and no coil.", "Write its `eject_coil`: a trough ejects balls one by one.", edit)
        ]
    if by_hand and values.is_yes(by_hand.text):
        return []
    write = "Write its `eject_coil`, or `mechanical_eject: yes` if they just roll out."
    return [("Nothing lets its balls out.", write, edit)]


def is_tagged(entry: Entry, tag: str) -> bool:
    tags = entry.value.at("tags")
    return bool(tags) and tag in [it.text for it in tags.texts()]


def target_of(entry: Entry) -> str:
    found = entry.value.at("eject_targets")
    return found.text if found and found.text else "playfield"


def wrong_targets(scene: Scenery, text: str, entry: Entry) -> list:
    """Where the targets from a device on never lead to the playfield."""
    devices = {name: place[1] for name, place in scene.defined("ball_devices").items()}
    way = [entry.key]
    while (following := target_of(devices[way[-1]])) in devices and following not in way:
        way.append(following)
    if following == "playfield":
        return []
    edit = set_setting(scene, text, entry, "eject_targets", "playfield")
    path = " → ".join([*way, following])
    if following not in devices:
        return [(f"Its balls go {path}, and no ball device is called `{following}`.", "Mend that name.", edit)]
    if following == entry.key:
        return [(f"Its balls go round in a ring: {path}.", "Let one of the ring eject to the `playfield`.", edit)]
    return [(f"Its balls go into a ring: {path}.", "Let one of the ring eject to the `playfield`.", None)]


WAYS = {
    "Name": of_name, "PulseLimit": of_pulse, "PowerLimit": of_power, "HoldNotAllowed": of_hold,
    "TimerAtEnd": of_timer, "BallRoute": of_route,
}
