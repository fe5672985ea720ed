"""The sections that the profile has: their entries and settings, and the settings of MPF that are rewritten."""
from typing import Callable

from .. import powers, tables
from ..values import milliseconds, thousandths
from . import values
from .context import Context, More
from .draft import SINGLE, NotWritten, Taken, Value, Written, sections
from .features import FEATURES
from .source import Given

Out = dict[str, Value]
MACHINE_ONLY = ("switches", "coils", "flippers", "autofire_coils", "ball_devices", "machine", "game")
NEVER = "adopted_nothing_posts_this"
ENABLED_AT_FIRST = ("shots", "counters", "accruals", "sequences")  # where no event enables them
FIRED = ("flippers", "autofire_coils")


def of_section(ctx: Context, mode: str, section: Given) -> None:
    """Adopts a section that the profile has."""
    if section.key == "timers" and not mode:
        ctx.lose("timers in the machine", section)
        return
    if section.key in MACHINE_ONLY and mode:
        ctx.log("section of the machine in a mode", section.place)
        mode = ""
    if section.key in SINGLE:
        single(ctx, mode, section)
        return
    if not section.is_mapping and (section.text or section.is_list):
        ctx.lose("bad value", section, f"`{section.key}` has no entries")
        return
    ctx.keep(section)
    for entry in section.inside():
        of_entry(ctx, mode, section, entry)


def single(ctx: Context, mode: str, section: Given) -> None:
    """`mode`, `machine` and `game`: the section is one entry."""
    out = settings_of(ctx, mode, section.key, section)
    for key, value in (out or {}).items():
        given = section.at(key) or section
        with ctx.attempt(given):
            ctx.draft.put(mode, section.key, key, Written(value, [given.place], sources=[section]))
    ctx.draft.section(mode, section.key)


def of_entry(ctx: Context, mode: str, section: Given, entry: Given) -> None:
    shape = sections(bool(mode))[section.key]
    if not values.NAME.fullmatch(entry.key) or entry.key in shape.barred:
        ctx.lose("bad name", entry, f"`{entry.key[:60]}`")
        return
    out = settings_of(ctx, mode, section.key, entry)
    if out is None:
        return
    written = Written(out, [entry.place], sources=[entry], is_copied=True)
    written.lines = {it.key: it.place for it in entry.inside()}
    try:
        ctx.draft.put(mode, section.key, entry.key, written)
        ctx.keep(entry)
    except NotWritten as why:
        ctx.lose(why.feature, entry, str(why), "lost")
        if section.key == "coils" and isinstance(why, Taken):
            lower_both(ctx, entry, out)


def lower_both(ctx: Context, entry: Given, out: Out) -> None:
    """Of a coil that is there twice each power and time is the lower one."""
    first = ctx.draft.section("", "coils")[entry.key].value
    assert isinstance(first, dict)
    for key, value in out.items():
        default = first.get(key, without(first, key))
        if isinstance(value, str) and default and values.lowest(key, [default, value]) != default:
            first[key] = lower(ctx, entry.at(key) or entry, key, default, value)
    lowest(ctx, "", entry, first)


def without(coil: Out, key: str) -> str:
    """What holds for a coil's setting that is not written; nothing if it is no power and no time."""
    may_hold = str(coil.get("allow_enable", "no")).lower() in values.YES
    hold = str(coil.get("max_hold_power") or ("1.0" if may_hold else coil.get("default_hold_power", "0")))
    return {
        "default_pulse_ms": "10ms", "max_pulse_ms": str(coil.get("default_pulse_ms", "10ms")), "allow_enable": "no",
        "default_pulse_power": "1.0", "max_pulse_power": "1.0", "max_hold_power": hold, "default_hold_power": hold,
    }.get(key, "")


def settings_of(ctx: Context, mode: str, section: str, entry: Given) -> Out | None:
    """The settings of an entry; none if the entry cannot be here."""
    if not entry.is_mapping and (entry.text or entry.is_list):
        ctx.lose("bad value", entry, f"`{entry.text[:60]}` in place of settings")
        return None
    table = {it.key: it for it in sections(bool(mode))[section].settings}
    out: Out = {}
    for given in entry.inside():
        take(ctx, mode, section, entry, given, table, out)
    for after in AFTER.get(section, ()):
        after(ctx, mode, entry, out)
    for setting in table.values():
        if setting.is_required and setting.key not in out:
            ctx.lose("missing setting", entry, f"it has no `{setting.key}`")
            return None
    return out


def take(ctx: Context, mode: str, section: str, entry: Given, given: Given, table: dict[str, tables.Setting],
         out: Out) -> None:
    key = given.key
    if key in out and (section, key) not in OWN and not (section == "coils" and key in table):
        ctx.lose("entry twice", given)
    elif own := OWN.get((section, key)):
        own(ctx, mode, entry, given, out)
    elif key in table:
        value = values.convert(ctx, mode, section, table[key], entry, given)
        if value is not None and not (value == [] and section == "switches" and values.items_of(ctx, given)):
            out[key] = value if key not in out else lower(ctx, given, key, out[key], value)
            ctx.keep(given)
        if value == [] and (given.text or given.is_list or given.is_mapping):
            without_events(section, key, out)
    elif key in tables.of_other_tools():
        if given.is_mapping or given.is_list and not all(map(values.NAME.fullmatch, given.words())):
            ctx.lose("other tools", given)
            return
        out[key] = given.words() if given.is_list else given.text
        ctx.keep(given)
    elif f"{section}.{key}" in FEATURES:
        ctx.lose(f"{section}.{key}", given)
    else:
        ctx.lose("unknown setting", given, f"`{key[:60]}`" + ctx.near(key, table))


def without_events(section: str, key: str, out: Out) -> None:
    """A list whose events are all left out: an empty one may mean that a device always works, and that is more."""
    if key == "enable_events" and section in ENABLED_AT_FIRST:
        out[key] = [NEVER]
    elif key == "disable_events" and section in FIRED:
        del out[key]


# settings that have another name in version 6
OLD_NAMES = {
    ("switches", "activation_events"): "events_when_activated",
    ("switches", "deactivation_events"): "events_when_deactivated",
    ("coils", "pulse_ms"): "default_pulse_ms",
    **{("coils", it): "default_pulse_power" for it in ("pulse_power", "pulse_power32", "pulse_pwm_mask")},
    **{("coils", it): "default_hold_power" for it in ("hold_power", "hold_power32", "hold_pwm_mask")},
}


def renamed(new: str) -> Callable:
    """A setting that has another name in version 6."""

    def own(ctx: Context, mode: str, entry: Given, given: Given, out: Out) -> None:
        section = "coils" if new.startswith("default") else "switches"
        if section == "switches" and (new in out or entry.at(new)):
            ctx.lose("entry twice", given, f"`{new}` is there too")
            return
        other = Given(new if not powers.is_power(new) else given.key, given.node, given.file, given.line, given.last)
        setting = next(it for it in sections(False)[section].settings if it.key == new)
        value = values.convert(ctx, mode, section, setting, entry, other)
        if value is not None:
            ctx.log("old names", given.place, f"`{new}`")
            out[new] = value if new not in out else lower(ctx, given, new, out[new], value)

    return own


def lower(ctx: Context, given: Given, setting: str, first: Value, other: Value) -> Value:
    """The lower of two values of a coil's setting."""
    if not isinstance(first, str) or not isinstance(other, str):
        return first
    found = values.lowest(setting, [first, other])
    ctx.log("lowest power or time", given.place, f"`{setting}` is there twice: `{found}` is the lower one")
    return found


# coils


def coil_events(action: str) -> Callable:
    def own(ctx: Context, mode: str, entry: Given, given: Given, out: Out) -> None:
        for event in values.events(ctx, mode, "coils", tables.Call(""), entry, given):
            ctx.drive("", event, {entry.key: action}, given, f"{given.key} of {entry.key}")
        ctx.log(f"coils.{given.key}", given.place)

    return own


def at_the_end(_ctx: Context, _mode: str, _entry: Given, _given: Given, _out: Out) -> None:
    """A setting that is rewritten when all settings of its entry are read."""


def no_hold(ctx: Context, _mode: str, entry: Given, given: Given, out: Out) -> None:
    ctx.lose("coils.max_hold_duration", given)


def pulse_default(ctx: Context, _mode: str, entry: Given, out: Out) -> None:
    if "default_pulse_ms" not in out and not entry.at("default_pulse_ms") and not entry.at("pulse_ms") and ctx.pulse_ms:
        out["default_pulse_ms"] = ctx.pulse_ms
        if ctx.pulse_given:
            ctx.why(entry, "default_pulse_ms", ctx.pulse_given, "`default_pulse_ms` of `mpf`")
        ctx.log("mpf.default_pulse_ms", entry.place, f"{ctx.pulse_ms} ms")


def lowest(ctx: Context, _mode: str, entry: Given, out: Out) -> None:
    """No default is above its limit; and a coil whose hold has to end by itself is not held."""
    for limit, default, read in (
        ("max_pulse_ms", "default_pulse_ms", milliseconds), ("max_pulse_power", "default_pulse_power", thousandths),
        ("max_hold_power", "default_hold_power", thousandths),
    ):
        most, here = read(str(out.get(limit, ""))), read(str(out.get(default, without(out, default))))
        if most is not None and here is not None and here > most:
            ctx.log("lowest power or time", (entry.at(default) or entry).place, f"`{default}` is `{out[limit]}`")
            ctx.why(entry, default, entry.at(limit) or entry, f"not above `{limit}`")
            out[default] = out[limit]
    if entry.at("max_hold_duration") or entry.at("default_timed_enable_ms"):
        for key in ("allow_enable", "default_hold_power", "max_hold_power"):
            if key in out:
                del out[key]
                given = next((it for it in entry.inside() if it.key in (key, key.removeprefix("default_"))), entry)
                ctx.lose("coils.max_hold_duration", given, f"`{key}`")
        ctx.not_held.add(entry.key)


def overwrite(ctx: Context, _mode: str, entry: Given, given: Given, _out: Out) -> None:
    """The coil itself gets what an overwrite lowers."""
    coil = entry.says({"hold_coil_overwrite": "hold_coil", "coil_overwrite": "coil"}.get(given.key, "main_coil"))
    coil = coil or entry.says("main_coil")
    if not given.is_mapping:
        ctx.lose("bad value", given)
    for it in given.inside():
        if (key := OLD_NAMES.get(("coils", it.key), it.key)) in OLD_NAMES.values():
            ctx.lowered.append((coil, key, it))
        else:
            ctx.lose("unknown setting", it, f"`{it.key[:60]}` of `{given.key}`")
    ctx.log(f"flippers.{given.key}" if f"flippers.{given.key}" in FEATURES else f"autofire_coils.{given.key}",
            given.place)


def lower_coils(ctx: Context) -> None:
    coils = ctx.draft.section("", "coils")
    for coil, key, given in ctx.lowered:
        written = coils.get(ctx.dual.get(coil, (coil, coil))[key == "default_hold_power"])
        if written is None or not isinstance(written.value, dict):
            continue
        right = values.drive(ctx, "Time" if key == "default_pulse_ms" else "Power", given)
        here = str(written.value.get(key, without(written.value, key)))
        if right and values.lowest(key, [here, right]) != here:
            written.value[key] = right
            for it in written.sources:
                ctx.why(it, key, given, f"{given.key}: {given.text}")
            place = written.lines.get(key, written.places[0])
            ctx.log("flippers.main_coil_overwrite", place, f"it is `{key}: {right}`")


# devices


def launch(ctx: Context, _mode: str, entry: Given, given: Given, out: Out) -> None:
    """A plunger whose coil the player fires."""
    ctx.launched[entry.key] = given
    ctx.log("ball_devices.player_controlled_eject_event", given.place)


def shot_switches(ctx: Context, mode: str, entry: Given, given: Given, out: Out) -> None:
    words = [it for it in given.words() if values.NAME.fullmatch(it)]
    for it in given.words():
        if it not in words:
            ctx.lose("bad name", given, f"`{it[:60]}`")
    if given.key == "switch" and len(words) == 1:
        out["switch"] = words[0]
        ctx.keep(given)
        return
    hits = out.setdefault("hit_events", [])
    if isinstance(hits, list):
        hits += [f"{it}_active" for it in words]
    ctx.why(entry, "hit_events", given, f"{given.key}: {', '.join(words[:4])}")
    ctx.log("shots.switches", given.place)


def hit_events(ctx: Context, mode: str, entry: Given, given: Given, out: Out) -> None:
    hits = out.setdefault("hit_events", [])
    found = values.events(ctx, mode, "shots", tables.Call(""), entry, given)
    if isinstance(hits, list):
        hits += found or []
    ctx.keep(given)


def start_enabled(ctx: Context, mode: str, entry: Given, given: Given, out: Out) -> None:
    if given.text.lower() not in values.YES + values.NO:
        ctx.lose("bad value", given, f"`{given.text[:60]}`")
        return
    starts = given.text.lower() in values.YES
    enables = entry.at("enable_events")
    if starts and enables:
        ctx.log("shots.start_enabled", given.place, "it is disabled at first, since it has `enable_events`", "weakened")
    else:
        if not starts and not enables:
            out["enable_events"] = [NEVER]
            ctx.why(entry, "enable_events", given, f"{given.key}: {given.text}")
        ctx.log("shots.start_enabled", given.place)


def shot_restart(ctx: Context, mode: str, entry: Given, given: Given, out: Out) -> None:
    found = values.events(ctx, mode, "shots", tables.Call(""), entry, given)
    enables = {"enable_events": list(found)} if entry.at("enable_events") else {}
    more = {"reset_events": list(found), **enables}
    ctx.more.append(More("shots.restart_events", given, mode, "shots", entry.key, more))
    ctx.log("shots.restart_events", given.place)


def shot_control(ctx: Context, mode: str, entry: Given, given: Given, out: Out) -> None:
    if not given.is_list:
        ctx.lose("bad value", given)
    for one in given.items():
        events, state = one.at("events") or one.at("event"), one.says("state")
        setting = {"0": "reset_events", "1": "advance_events"}.get(state)
        if events is None or setting is None:
            ctx.lose("shots.control_events", one)
            continue
        for it in one.inside():
            if it.key not in (events.key, "state"):
                ctx.lose("unknown setting", it, f"`{it.key[:60]}` of `control_events`")
        found = values.events(ctx, mode, "shots", tables.Call(""), entry, events)
        ctx.more.append(More("shots.control_events", one, mode, "shots", entry.key, {setting: list(found)}))
        ctx.log("shots.control_events", one.place, f"`{setting}`", "weakened" if state == "1" else "")
    ctx.log("shots.control_events", given.place)


def group_events(setting: str) -> Callable:
    def own(ctx: Context, mode: str, entry: Given, given: Given, out: Out) -> None:
        found = values.events(ctx, mode, "shot_groups", tables.Call(""), entry, given)
        for shot in entry.names("shots"):
            more = More(f"shot_groups.{given.key}", given, mode, "shots", shot, {setting: list(found)})
            ctx.more.append(more)
        ctx.log(f"shot_groups.{given.key}", given.place)

    return own


def group_restart(ctx: Context, mode: str, entry: Given, given: Given, out: Out) -> None:
    found = values.events(ctx, mode, "shot_groups", tables.Call(""), entry, given)
    more = {"reset_events": list(found)}
    ctx.more.append(More("shots.restart_events", given, mode, "shot_groups", entry.key, more))
    ctx.log("shots.restart_events", given.place)


def add_more(ctx: Context) -> None:
    """Adds the events that other entries have for a shot or a group."""
    for more in ctx.more:
        written = ctx.draft.texts.get(more.mode, {}).get(more.section, {}).get(more.key)
        if written is None or not isinstance(written.value, dict):
            ctx.lose("name not there", more.given, f"`{more.key[:60]}`")
            continue
        for setting, events in more.events.items():
            here = written.value.setdefault(setting, [])
            assert isinstance(here, list)
            here += [it for it in events if it not in here]
            for it in written.sources:
                ctx.why(it, setting, more.given, f"{more.given.key}: {', '.join(events[:4])}")
            if place := written.lines.get(setting):
                ctx.log(more.feature, place, f"`{', '.join(events)}` too")


def player_variable(ctx: Context, mode: str, entry: Given, given: Given, out: Out) -> None:
    hits = entry.names("events_when_hit") or [f"logicblock_{entry.key}_hit"]
    step = (ctx.number(entry.says("count_interval", "1")) or 1) * (-1
                                                                   if entry.says("direction").lower() == "down" else 1)
    if not values.NAME.fullmatch(f"player_{given.text}"):
        ctx.lose("bad name", given)
        return
    ctx.change(mode, hits[0].partition("|")[0], {given.text: str(step)}, given, f"player_variable of {entry.key}")
    ctx.log("counters.player_variable", given.place, "it is not set back when the counter is reset")


def mode_events(event: str) -> Callable:
    def own(ctx: Context, mode: str, entry: Given, given: Given, out: Out) -> None:
        names = values.posts(ctx, mode, "mode", tables.Call(""), entry, given)
        if isinstance(names, list) and names:
            ctx.post(mode, event.format(mode), names, given, f"{given.key} of the mode")
        ctx.log(f"mode.{given.key}", given.place)

    return own


def tag_of_start(ctx: Context, _mode: str, entry: Given, given: Given, out: Out) -> None:
    if given.text and given.key == "start_game_switch_tag":
        ctx.start_tag, ctx.start_given = given.text, given
    if given.text not in ctx.tags:
        ctx.log("game.start_game_switch_tag", given.place, f"no switch has the tag `{given.text[:60]}`", "weakened")
    elif given.text != entry.says("start_game_switch_tag", "start"):
        ctx.log("game.start_game_switch_tag", given.place, "the start button adds players", "weakened")
    ctx.log("game.start_game_switch_tag", given.place)


OWN: dict[tuple[str, str], Callable] = {
    **{old: renamed(new) for old, new in OLD_NAMES.items()},
    ("coils", "max_hold_duration"): no_hold,
    ("coils", "default_timed_enable_ms"): no_hold,
    ("flippers", "main_coil_overwrite"): overwrite,
    ("flippers", "hold_coil_overwrite"): overwrite,
    ("autofire_coils", "coil_overwrite"): overwrite,
    ("ball_devices", "player_controlled_eject_event"): launch,
    ("shots", "switch"): shot_switches,
    ("shots", "switches"): shot_switches,
    ("shots", "hit_events"): hit_events,
    ("shots", "restart_events"): shot_restart,
    ("shots", "control_events"): shot_control,
    ("shot_groups", "restart_events"): group_restart,
    ("counters", "player_variable"): player_variable,
    ("mode", "events_when_started"): mode_events("mode_{}_started"),
    ("mode", "events_when_stopped"): mode_events("mode_{}_stopping"),
    **{("ball_saves", it): at_the_end for it in ("grace_period", "timer_start_events", "auto_launch")},
    **{("multiballs", it): at_the_end for it in ("shoot_again", "grace_period", "ball_count_type")},
    ("game", "start_game_switch_tag"): tag_of_start,
    ("game", "add_player_switch_tag"): tag_of_start,
    **{("coils", f"{it}_events"): coil_events(it) for it in ("pulse", "enable", "disable")},
    **{(it, "start_enabled"): start_enabled for it in ("shots", "counters", "accruals", "sequences")},
    **{("shot_groups", it): group_events(it) for it in ("enable_events", "disable_events", "advance_events",
                                                        "hit_events")},
}


# what is done when all settings of an entry are read


def waits(ctx: Context, mode: str, entry: Given, out: Out) -> None:
    """Only the end of a ball waits, and only for a mode that something stops."""
    if out.get("use_wait_queue", "no").lower() not in values.YES:  # type: ignore[union-attr]
        return
    starts = [it.partition("{")[0] for it in out.get("start_events", [])]
    given = entry.at("use_wait_queue") or entry
    if not starts or any(it != "ball_ending" for it in starts):
        del out["use_wait_queue"]
        ctx.lose("mode.use_wait_queue", given)
    elif not out.get("stop_events"):
        del out["use_wait_queue"]
        ctx.lose("mode.use_wait_queue", given, "nothing stops the mode: the ball would never end", "lost")


def own_modes(ctx: Context, mode: str, entry: Given, out: Out) -> None:
    """A text of one of MPF's modes has the start of that mode only if it is written."""
    if mode == "attract" and "start_events" not in out:
        out |= {"start_events": ["game_ended"], "stop_events": ["game_will_start"], "game_mode": "no"}
        for it in "start_events", "stop_events", "game_mode":
            ctx.why(entry, it, entry, "MPF's own mode runs without a game")
        ctx.log("attract", entry.place)
    elif mode == "tilt" and "start_events" not in out:
        out["start_events"] = ["ball_started"]
        ctx.why(entry, "start_events", entry, "MPF's own mode starts by itself")
        ctx.log("own mode of MPF", entry.place, "`start_events: ball_started`", "rewritten")
    elif mode == "bonus" and "start_events" not in out:
        out["start_events"] = ["ball_ending"]
        ctx.why(entry, "start_events", entry, "MPF's own mode starts by itself")
        ctx.log("own mode of MPF", entry.place)


AFTER: dict[str, tuple[Callable, ...]] = {"coils": (pulse_default, lowest), "mode": (own_modes, waits)}
