"""Balls: holds, extra balls, a tilt, ball saves, multiballs, and plungers that the player fires."""
from . import values
from .context import Context
from .delays import written
from .draft import Value, Written, sections
from .playfield import NO_CALL, events_of, rest, time_of
from .source import Given, Place

Out = dict[str, Value]
EXTRA = "adopted_extra_balls"
MOST_BALLS = 99  # in play
SHOOT_AGAIN = 10_000  # milliseconds, in MPF, where it is not written


# ball saves and multiballs


def of_save(ctx: Context, mode: str, entry: Given, out: Out) -> None:
    grace = entry.at("grace_period")
    if grace:
        active, more = ctx.time(str(out.get("active_time", "0"))), time_of(ctx, entry, "grace_period", 0)
        if active and more:
            out["active_time"] = written(active + more)
            ctx.why(entry, "active_time", grace, f"grace_period: {grace.text}")
            for it in (grace, entry.at("active_time") or grace):
                ctx.log("ball_saves.grace_period", it.place, f"`active_time: {out['active_time']}`")
        else:
            ctx.log("ball_saves.grace_period", grace.place, "it changes nothing", "unseen")
    if start := entry.at("timer_start_events"):
        from_then(ctx, mode, entry, start, out)
    if launch := entry.at("auto_launch"):
        if launch.text.lower() in values.YES:
            ctx.auto_launch.append(entry.key)
        if launch.text.lower() in values.YES + values.NO:
            ctx.log("ball_saves.auto_launch", launch.place)
        else:
            ctx.lose("bad value", launch, f"`{launch.text[:60]}`")
    if ctx.tilt_events and out.get("enable_events"):
        here = out.setdefault("disable_events", [])
        assert isinstance(here, list)
        here += [it for it in ctx.tilt_events if it not in here]
        ctx.log("tilt", (entry.at("disable_events") or entry).place, "`tilt` disables it")
        ctx.why(entry, "disable_events", ctx.tilt_given or entry, "a tilt disables it")


def from_then(ctx: Context, mode: str, entry: Given, start: Given, out: Out) -> None:
    """The time of a ball save begins at another event than the one that enables it."""
    events = values.events(ctx, mode, "ball_saves", NO_CALL, entry, start)
    enables = [str(it) for it in out.get("enable_events", [])]
    if not events:
        return
    ctx.why(entry, "enable_events", start, f"timer_start_events: {', '.join(events[:4])}")
    for it in (start, entry.at("enable_events") or start):
        ctx.log("ball_saves.timer_start_events", it.place)
    if not enables:
        out["enable_events"] = list(events)
        return
    ready = ctx.own(f"{entry.key}_is_ready", 50)
    ctx.draft.section(mode, "variable_player")
    for event in enables:
        ctx.change(mode, event, {ready: {"int": "1", "action": "set"}}, start, f"{entry.key} may be enabled")
    ctx.change(mode, f"ball_save_{entry.key}_disabled", {ready: {"int": "0", "action": "set"}}, start, "until it was")
    out["enable_events"] = [it if "{" in str(it) else f"{it}{{current_player.{ready} == 1}}" for it in events]


def ball_count(ctx: Context, mode: str, entry: Given, given: Given, out: Out) -> None:
    """How many balls are in play. With `ball_count_type: add` one is there already."""
    count = ctx.number(given.text)
    if entry.says("ball_count_type").lower() == "add" and count is not None:
        out["ball_count"] = str(min(max(1, count), MOST_BALLS - 1) + 1)
        ctx.why(entry, "ball_count", entry.at("ball_count_type") or given, "ball_count_type: add")
        ctx.log("multiballs.ball_count_type", given.place, f"`ball_count: {out['ball_count']}`")
        return
    setting = next(it for it in sections(False)["multiballs"].settings if it.key == "ball_count")
    value = values.convert(ctx, mode, "multiballs", setting, entry, given)
    if value is not None:
        out["ball_count"] = value
        ctx.keep(given)


def of_multiball(ctx: Context, mode: str, entry: Given, out: Out) -> None:
    kind = entry.at("ball_count_type")
    if kind and kind.text.lower() not in ("add", "total"):
        ctx.lose("bad value", kind, f"`{kind.text[:60]}`")
    elif kind:
        ctx.log("multiballs.ball_count_type", kind.place, f"`ball_count: {out.get('ball_count', '')}`")
    time, grace = time_of(ctx, entry, "shoot_again", SHOOT_AGAIN), time_of(ctx, entry, "grace_period", 0)
    for it in (entry.at("shoot_again"), entry.at("grace_period")):
        if it:
            ctx.log("multiballs.shoot_again", it.place)
    if time:
        name = ctx.own(f"{entry.key}_shoot_again", 42)  # (so that its events are short enough)
        ctx.saves.append((mode, name, entry, time + grace))
    ctx.multiballs.append((entry.key, (ctx.number(str(out.get("ball_count", "2"))) or 2) - 1))


def shoot_again(ctx: Context) -> None:
    """The ball saves of multiballs, after all others."""
    for mode, name, entry, time in ctx.saves:
        if entry.key in ctx.draft.texts.get(mode, {}).get("multiballs", {}):
            value: Out = {"active_time": written(time), "balls_to_save": "99",
                          "enable_events": [f"multiball_{entry.key}_started"]}
            if ctx.tilt_events:
                value["disable_events"] = list(ctx.tilt_events)
            ctx.put(mode, "ball_saves", name, value, entry, "shoot_again of the multiball, and its grace_period")


# plungers and holds


def launches(ctx: Context) -> None:
    for name, given in ctx.launched.items():
        written_device = ctx.draft.section("", "ball_devices").get(name)
        if written_device is None or not isinstance(written_device.value, dict):
            continue
        device, coil = written_device.value, written_device.value.get("eject_coil")
        if not isinstance(coil, str) or "trough" in device.get("tags", []):
            ctx.lose("ball_devices.player_controlled_eject_event", given, "it has no coil, or is a trough", "lost")
            continue
        with ctx.attempt(given):
            launch(ctx, name, written_device, coil, given)


def launch(ctx: Context, name: str, written_device: Written, coil: str, given: Given) -> None:
    events = values.events(ctx, "", "ball_devices", NO_CALL, given, given)
    if not events:
        says = "no event fires it: the device ejects by itself"
        ctx.log("ball_devices.player_controlled_eject_event", given.place, says, "weakened")
        return
    for event in events:
        ctx.drive("", event, {coil: "pulse"}, given, f"launches a ball from {name}")
    by_hand(ctx, written_device, "ball_devices.player_controlled_eject_event", given)
    written_device.says.append(f"the player fires `{coil}`, so the device does not")
    if ctx.auto_launch or ctx.multiballs:
        auto_launch(ctx, name, coil, given)


def by_hand(ctx: Context, written_device: Written, feature: str, given: Given) -> None:
    """A ball device that ejects no ball by itself."""
    assert isinstance(written_device.value, dict)
    del written_device.value["eject_coil"]
    written_device.value["mechanical_eject"] = "yes"
    for it in written_device.sources:
        ctx.why(it, "mechanical_eject", given, "no coil ejects by itself")
    for key in ("eject_coil", "mechanical_eject"):
        if place := written_device.lines.get(key):
            ctx.log(feature, place, "`mechanical_eject: yes`, and no `eject_coil`")


def auto_launch(ctx: Context, name: str, coil: str, given: Given) -> None:
    """Launches a ball that is saved, or that a multiball adds, without the player."""
    count = ctx.own(f"{name}_launches", 50)
    for save in (*ctx.auto_launch, *(it for _, it, _, _ in ctx.saves)):
        ctx.change("", f"ball_save_{save}_saving_ball", {count: "1"}, given, "a ball that is saved is launched")
    for multiball, more in ctx.multiballs:
        ctx.change("", f"multiball_{multiball}_started", {count: str(more)}, given,
                   "the balls of a multiball are launched")
    ctx.drive("", f"balldevice_{name}_ball_enter{{current_player.{count} >= 1}}", {coil: "pulse"}, given, "by itself")
    ctx.change("", f"balldevice_{name}_ball_eject_success{{current_player.{count} >= 1}}", {count: "-1"}, given,
               "it has left")
    ctx.change("", "ball_will_start", {count: {"int": "0", "action": "set"}}, given, "a ball of a player is not")


def of_holds(ctx: Context, mode: str, section: Given) -> None:
    ctx.holds += [(mode, entry) for entry in section.inside()]
    ctx.log("ball_holds", section.place)


def holds(ctx: Context) -> None:
    """Writes the ball holds, once all ball devices are known."""
    devices: dict[str, list[tuple[str, Given]]] = {}
    for mode, entry in ctx.holds:
        names = entry.names("hold_devices")
        here = [it for it in names if coil_of(ctx, it)]
        for name in here:
            devices.setdefault(name, []).append((mode, entry))
        for name in [it for it in names if it not in here]:
            given = entry.at("hold_devices") or entry
            ctx.lose("ball_holds", given, f"`{name[:60]}` is no device with a coil", "lost")
        if here:
            rest(ctx, "ball_holds", entry, "hold_devices", "balls_to_hold", "enable_events", "disable_events",
                 "release_one_events", "release_all_events", "release_one_if_full_events")
        else:
            ctx.lose("ball_holds", entry, "no such ball device with a coil")
    for name, some in devices.items():
        with ctx.attempt(some[0][1]):
            held(ctx, name, some)


def coil_of(ctx: Context, device: str) -> str:
    """The coil of a ball device that may hold its balls; none if its name is too long for its events."""
    if not values.NAME.fullmatch(f"balldevice_{device}_ball_enter"):
        return ""
    written_device = ctx.draft.section("", "ball_devices").get(device)
    value = written_device.value if written_device else None
    coil = value.get("eject_coil") if isinstance(value, dict) and "trough" not in value.get("tags", []) else None
    return coil if isinstance(coil, str) else ""


def held(ctx: Context, name: str, some: list[tuple[str, Given]]) -> None:
    """A ball device that holds its balls as long as one of some ball holds is enabled."""
    first, enters = some[0][1], f"balldevice_{name}_ball_enter"
    go = ctx.own(f"ball_hold_{name}_lets_go", 50)
    ctx.drive("", go, {coil_of(ctx, name): "pulse"}, first, f"lets a ball of {name} go")
    not_held = enters
    for mode, entry in some:
        not_held = hold(ctx, mode, entry, name, go, not_held)
        if some[1:] and mode:
            ctx.log("part of a rewrite", entry.place, f"the end of `{mode}` lets a ball go that another one holds")
    if not_held:
        ctx.post("", not_held, [go], first, "while no hold is enabled, a ball goes at once")
    written_device = ctx.draft.section("", "ball_devices")[name]
    by_hand(ctx, written_device, "ball_holds", first)
    written_device.says.append(f"it holds its balls for {', '.join(f'{it.key}: {it.place}' for _, it in some)}")


def hold(ctx: Context, mode: str, entry: Given, name: str, go: str, enters: str) -> str:
    """The event that comes with a ball as long as neither this hold is enabled nor one before it."""
    most = entry.at("balls_to_hold")
    device = ctx.draft.section("", "ball_devices")[name].value
    if most and isinstance(device, dict) and ctx.number(most.text) != len(device.get("ball_switches", [])):
        ctx.log("part of a rewrite", most.place, f"it holds all balls in {name}")
    for event in events_of(ctx, mode, entry, "release_one_events", "release_all_events", "release_one_if_full_events"):
        ctx.post(mode, event, [go], entry, f"lets a ball of {name} go")
    enables, disables = events_of(ctx, mode, entry, "enable_events"), events_of(ctx, mode, entry, "disable_events")
    if mode:
        enables = enables or [f"mode_{mode}_started"]
        disables = [*disables, *ctx.end_of(mode)]
        ctx.post(mode, f"mode_{mode}_stopping", [go], entry, "the mode ends, and with it the hold")
    enables = ctx.relay(mode, enables, f"ball_hold_{entry.key}_enable", entry)
    disables = ctx.relay(mode, disables, f"ball_hold_{entry.key}_disable", entry)
    held_ball = f"ball_hold_{entry.key}_held_ball"
    if held_ball in ctx.taken_names:
        says = "the event of MPF, also while it is not enabled"
        ctx.post("", f"balldevice_{name}_ball_enter", [held_ball], entry, says)
    if not enables or not enters:
        return ""
    passes = ctx.own(f"ball_hold_{entry.key}_{name}_is_off", 50)
    ctx.put("", "counters", passes, {
        "count_events": [enters], "disable_events": enables,
        **({"restart_events": disables} if disables else {}), "events_when_hit": [passes],
    }, entry, "counts while the hold is not enabled")
    return passes


# extra balls


def of_extra(ctx: Context, mode: str, section: Given) -> None:
    for entry in section.inside():
        group = entry.says("group")
        awards = events_of(ctx, mode, entry, "award_events")
        lights = events_of(ctx, mode, entry, "light_events", "lit_events")
        award(ctx, mode, entry, entry.key, awards)
        if (given := entry.at("group")) and (awards or not lights):
            says = "what is awarded at once does not count for the group" if awards else "no event lights one"
            ctx.log("part of a rewrite", given.place, says, "" if awards else "unseen")
        lit = ctx.variable(f"extra_ball_{group or entry.key}_lit")
        for event in lights:
            ctx.change(mode, event, {lit: "1"}, entry, "an extra ball is lit")
        if lights and group not in ctx.groups:
            ctx.log("extra_balls", entry.place, "nothing awards what is lit: it has no group", "lost")
        rest(ctx, "extra_balls", entry, "award_events", "light_events", "lit_events", "group", "max_per_game")
    ctx.log("extra_balls", section.place)


def of_extra_groups(ctx: Context, mode: str, section: Given) -> None:
    for entry in section.inside():
        lit = ctx.variable(f"extra_ball_{entry.key}_lit")
        for event in events_of(ctx, mode, entry, "light_events"):
            ctx.change(mode, event, {lit: "1"}, entry, "an extra ball is lit")
        taken = ctx.own(f"extra_ball_{entry.key}_taken")
        wanted = events_of(ctx, mode, entry, "award_lit_events")
        for event in wanted:
            both = limited(ctx, mode, entry, event, f"current_player.{lit} >= 1")
            ctx.post(mode, both, [taken], entry, "awards one that is lit")
        if wanted:
            ctx.change(mode, taken, {lit: "-1"}, entry, "one less is lit")
        awards = [*([taken] if wanted else []), *events_of(ctx, mode, entry, "award_events")]
        award(ctx, mode, entry, entry.key, awards)
        rest(ctx, "extra_ball_groups", entry, "light_events", "award_lit_events", "award_events", "max_per_game")
    ctx.log("extra_ball_groups", section.place)


def award(ctx: Context, mode: str, entry: Given, name: str, awards: list[str]) -> None:
    """A ball save without a time, in a mode after all others: so any other ball save comes first."""
    awarded, count = ctx.fit(f"extra_ball_{name}_awarded"), ctx.variable(f"extra_ball_{name}_count")
    given = entry.at("max_per_game")
    if not awards:
        if given:
            ctx.log("extra_balls", given.place, "no event awards one", "unseen")
        return
    most = ctx.number(given.text) if given else 0
    if given and most is None:
        ctx.lose("bad value", given, f"`{given.text[:60]}`: there is no limit", "weakened")
    for event in awards:
        head = limited(ctx, mode, entry, event, f"current_player.{count} < {most}") if most else event
        ctx.post(mode, head, [awarded], entry, "awards an extra ball")
    ctx.change("", awarded, {count: "1"}, entry, "counts them")
    if EXTRA not in ctx.names:
        ctx.names[EXTRA] = ctx.draft.helper(EXTRA, {"start_events": ["game_starting"], "stop_on_ball_end": "no"},
                                            Written("",
                                                    says=["extra balls: this mode is the last, so other ball saves "
                                                          "come first"]))
    ctx.put(ctx.names[EXTRA], "ball_saves", ctx.own(f"extra_ball_{name}", 50), {"enable_events": [awarded]}, entry,
            "it saves the next ball that nothing else saves")


def limited(ctx: Context, mode: str, entry: Given, event: str, comparison: str) -> str:
    """An event with a comparison. One that has another already leads to an event of its own first."""
    if "{" in event:
        name = ctx.own(f"{event.partition('{')[0]}_and", 60)
        ctx.post(mode, event, [name], entry, "one comparison at each step")
        event = name
    return f"{event}{{{comparison}}}"


# a tilt


TILTED = "adopted_is_tilted"
WARNINGS = 3  # with the last one it tilts, in MPF, if it is not written


def tagged(ctx: Context, section: Given, key: str) -> list[str]:
    """The events of the switches with the tag of a setting, which is that of its name where it is not written."""
    tags = section.names(key) or [key.removesuffix("_switch_tag")]
    return [f"sw_{tag}" for tag in tags if tag in ctx.tags]


def untagged(ctx: Context, section: Given) -> None:
    """Says which tags of a tilt no switch has."""
    for key in TILTS:
        for tag in section.names(key):
            if tag not in ctx.tags:
                ctx.log("tilt", (section.at(key) or section).place, f"no switch has the tag `{tag[:60]}`", "unseen")


TILTS = {"tilt_warning_switch_tag": "tilt_warning_events", "tilt_switch_tag": "tilt_events",
         "slam_tilt_switch_tag": "slam_tilt_events"}


def tilts(ctx: Context, section: Given) -> bool:
    """Whether something tilts: a switch with one of the tags, or an event."""
    return any(tagged(ctx, section, tag) or section.at(events) for tag, events in TILTS.items())


def of_tilt(ctx: Context, mode: str, section: Given) -> None:
    if not section.is_mapping and section.text:
        ctx.lose("tilt", section)
        return
    warnings, at_once, slams = (
        [*tagged(ctx, section, tag), *events_of(ctx, mode, section, events)] for tag, events in TILTS.items())
    for key in ("warnings_to_tilt", "multiple_hit_window", "reset_warnings_events"):
        if (given := section.at(key)) and not warnings:
            ctx.log("tilt", given.place, "nothing warns", "unseen")
    if warnings:
        number = section.at("warnings_to_tilt")
        count = ctx.number(number.text) if number else WARNINGS
        if number and not count:
            ctx.lose("bad value", number, f"`{number.text[:60]}`: {WARNINGS}", "weakened")
        anew = [*([] if mode else ["ball_started"]), *events_of(ctx, mode, section, "reset_warnings_events")]
        ctx.put(mode, "counters", ctx.own("tilt_warnings", 50), {
            "count_events": warnings,
            "multiple_hit_window": written(time_of(ctx, section, "multiple_hit_window", 300)),
            "count_complete_value": str(count or WARNINGS), "events_when_hit": ["tilt_warning"],
            "events_when_complete": ["tilt"], **({"restart_events": anew} if anew else {}),
        }, section, "counts the warnings of a ball")
    for event in at_once:
        ctx.post(mode, event, ["tilt"], section, "tilts at once")
    for event in slams:
        ctx.post(mode, event, ["slam_tilt", "tilt"], section, "a slam tilt is a tilt: nothing ends a game")
    if not warnings + at_once + slams:
        ctx.log("tilt", section.place, "it never tilts: no switch has its tags, and no event tilts", "unseen")
        return
    untagged(ctx, section)
    rest(ctx, "tilt", section, "multiple_hit_window", "warnings_to_tilt", "tilt_warning_switch_tag", "tilt_switch_tag",
         "tilt_warning_events", "tilt_events", "reset_warnings_events")


def tilted(ctx: Context) -> None:
    """What a tilt turns off: flippers, autofire coils, and the modes that score."""
    if not ctx.tilt_events:
        return
    for section in ("flippers", "autofire_coils"):
        for written_device in ctx.draft.texts[""].get(section, {}).values():
            if isinstance(written_device.value, dict):
                here = written_device.value.setdefault("disable_events", ["ball_will_end"])
                assert isinstance(here, list)
                here += [it for it in ctx.tilt_events if it not in here]
                place = written_device.lines.get("disable_events", written_device.places[0])
                ctx.log("tilt", place, "`tilt` disables it")
                for it in written_device.sources:
                    ctx.why(it, "disable_events", ctx.tilt_given or it, "a tilt disables it")
    for mode in sorted(ctx.listed):
        sections = ctx.draft.texts.get(mode, {})
        single = sections.get("mode", {})
        value = {key: it.value for key, it in single.items()}
        if str(value.get("game_mode", "yes")).lower() in values.NO:
            continue
        if str(value.get("use_wait_queue", "no")).lower() in values.YES:
            not_after_a_tilt(ctx, single)
        elif "variable_player" in sections and str(value.get("stop_on_ball_end", "yes")).lower() in values.YES:
            stopped_by_a_tilt(ctx, single)


def stopped_by_a_tilt(ctx: Context, single: dict[str, Written]) -> None:
    """A mode that scores stops at a tilt."""
    says, given = "a tilt stops the mode, since it scores", ctx.tilt_given
    assert given
    if "stop_events" not in single:
        for it in [it for other in single.values() for it in other.sources][:1]:
            ctx.log("tilt", Place(it.file.name, it.line + 1), says)
        single["stop_events"] = Written([], [given.place], [says])
    stops = single["stop_events"]
    assert isinstance(stops.value, list)
    for it in stops.sources:
        ctx.log("tilt", (it.at("stop_events") or it).place, says)
        ctx.why(it, "stop_events", given, says)
    stops.value += [it for it in ctx.tilt_events if it not in stops.value]


def not_after_a_tilt(ctx: Context, single: dict[str, Written]) -> None:
    """A mode at the end of the ball, such as a bonus, does not start after a tilt."""
    starts = single.get("start_events")
    if starts is None or starts.value != ["ball_ending"] or not ctx.tilt_given:
        return
    for place in starts.places:
        ctx.log("tilt", place, "the mode does not start after a tilt")
    for it in starts.sources:
        ctx.why(it, "start_events", ctx.tilt_given, "not after a tilt")
    starts.value = [f"ball_ending{{current_player.{TILTED} == 0}}"]
    if TILTED not in ctx.names:
        ctx.names[TILTED] = TILTED
        ctx.change("", "tilt", {TILTED: {"int": "1", "action": "set"}}, ctx.tilt_given, "no bonus after a tilt")
        ctx.change("", "ball_will_start", {TILTED: {"int": "0", "action": "set"}}, ctx.tilt_given, "a new ball")
