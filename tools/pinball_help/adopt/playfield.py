"""What MPF has devices for on the playfield and the cabinet, and is said here by shots, modes, timers and coils."""
from .. import tables
from . import values
from .context import Context, Target
from .delays import after, written
from .draft import Value
from .expressions import NotSaid
from .features import FEATURES
from .source import Given

NO_CALL = values.Call("")
SPINS = 1_000  # milliseconds that a spinner is active in MPF after a turn, if it is not written


SWITCHES = ("switch", "switches", "tag", "switch_tag", "switch_tags")  # settings that name switches


def events_of(ctx: Context, mode: str, entry: Given, *keys: str) -> list[str]:
    """The events of some settings of an entry."""
    found: list[str] = []
    for given in entry.inside():
        if given.key in keys:
            found += values.events(ctx, mode, "", NO_CALL, entry, given)
    return found


def rest(ctx: Context, feature: str, entry: Given, *known: str) -> None:
    """Says what settings of an entry are left out, and that the entry is rewritten."""
    ctx.log(feature, entry.place)
    for it in entry.inside():
        if it.key not in known:
            left_out(ctx, feature, it)


def left_out(ctx: Context, feature: str, given: Given) -> None:
    """Leaves out a setting of what is rewritten."""
    if f"{feature}.{given.key}" in FEATURES:
        ctx.lose(f"{feature}.{given.key}", given)
    elif given.key in (*tables.of_other_tools(), "label", "tags"):
        ctx.lose("other tools", given, f"`{given.key}`")
    elif given.key.startswith("show"):
        ctx.lose("states.show", given)
    else:
        ctx.lose("part of a rewrite", given, f"`{given.key[:60]}` of `{feature}`")


def switches_of(ctx: Context, entry: Given, suffix: str = "") -> list[str]:
    """The switches of an entry, by their names and by their tags."""
    found = [it for key in SWITCHES[:2] for it in named_switches(ctx, entry, key + suffix)]
    for key in (it + suffix for it in (*SWITCHES[2:], *(["tags"] if suffix else []))):
        for tag in entry.names(key):
            found += ctx.tags.get(tag, [])
            if tag not in ctx.tags:
                ctx.lose("name not there", entry.at(key) or entry, f"no switch has the tag `{tag[:60]}`", "unseen")
    return list(dict.fromkeys(found))


def named_switches(ctx: Context, entry: Given, key: str) -> list[str]:
    """The switches that a setting names. One that is not there is said."""
    for name in entry.names(key):
        if name not in ctx.switches:
            ctx.lose("name not there", entry.at(key) or entry, f"`{name[:60]}`")
    return [it for it in entry.names(key) if it in ctx.switches]


def one_switch(ctx: Context, feature: str, entry: Given) -> str:
    """The switch of an entry; the first one if it has several, which is said."""
    found = switches_of(ctx, entry)
    if found[1:]:
        ctx.log("part of a rewrite", entry.place, f"of several switches of `{feature}`, `{found[0]}` alone")
    return found[0] if found else ""


# drop targets


TARGET = "adopted_drop_target"
RESETS = "ball_starting"
FIRST_BALL = "ball_will_start{current_player.ball == 1}"
MOST_SHOT, MOST_GROUP = 64 - len("_up_hit"), 64 - len("_down_complete")
MOST_TARGETS = 16  # shots of a group


def of_drop_targets(ctx: Context, mode: str, section: Given) -> None:
    for entry in section.inside():
        switch = one_switch(ctx, "drop_targets", entry)
        if not switch:
            ctx.lose("drop_targets", entry, "no such switch")
            continue
        if TARGET not in ctx.names:
            ctx.names[TARGET] = TARGET
            ctx.put("", "shot_profiles", TARGET, {"states": [{"name": "up"}, {"name": "down"}]}, entry, "drop targets")
        shot = ctx.fit(f"drop_target_{entry.key}", MOST_SHOT)
        resets = ctx.relay(mode, events_of(ctx, mode, entry, "reset_events"), f"{shot}_reset", entry)
        ctx.put("", "shots", shot, {"switch": switch, "profile": TARGET, "reset_events": resets or [RESETS]}, entry,
                "a drop target")
        coil = entry.says("reset_coil")
        ctx.targets[entry.key] = Target(shot, coil, bool(resets), entry)
        for event in resets if coil else []:
            ctx.drive("", event, {coil: "pulse"}, entry, f"raises {entry.key}")
        says = f"the event that MPF posts for {entry.key}"
        ctx.post("", f"{shot}_up_hit", [f"drop_target_{entry.key}_down"], entry, says)
        rest(ctx, "drop_targets", entry, *SWITCHES, "reset_coil", "reset_events")
    ctx.log("drop_targets", section.place)


def of_banks(ctx: Context, mode: str, section: Given) -> None:
    ctx.banks += [(mode, entry) for entry in section.inside()]
    ctx.log("drop_target_banks", section.place)


def banks(ctx: Context) -> None:
    """Writes the banks, once all drop targets are known."""
    in_a_bank: set[str] = set()
    for mode, entry in ctx.banks:
        names = [it for it in entry.names("drop_targets") if it in ctx.targets and it not in in_a_bank][:MOST_TARGETS]
        for it in entry.names("drop_targets"):
            if it not in names and (given := entry.at("drop_targets")):
                ctx.lose("drop_target_banks", given, f"`{it[:60]}` is not there, or in another bank", "lost")
        if not names:
            ctx.lose("drop_target_banks", entry, "no such drop targets")
            continue
        in_a_bank |= {*names}
        with ctx.attempt(entry):
            bank(ctx, mode, entry, [ctx.targets[it] for it in names])
        rest(ctx, "drop_target_banks", entry, "drop_targets", "reset_coil", "reset_coils", "reset_events",
             "reset_on_complete")
    for name, target in ctx.targets.items():
        if name not in in_a_bank and target.coil and not target.is_raised:
            ctx.drive("", RESETS, {target.coil: "pulse"}, target.given, f"raises {name}")
            ctx.log("drop_targets", target.given.place, f"without `reset_events` `{RESETS}` raises it")


def bank(ctx: Context, mode: str, entry: Given, targets: list[Target]) -> None:
    group = ctx.fit(f"drop_target_bank_{entry.key}", MOST_GROUP)
    raised = ctx.own(f"{group}_raise")
    coils = [*entry.names("reset_coil"), *entry.names("reset_coils"), *(it.coil for it in targets if it.coil)]
    resets = ctx.relay(mode, events_of(ctx, mode, entry, "reset_events"), f"{group}_reset", entry)
    for event in resets or [RESETS]:
        ctx.post("", event, [raised], entry, f"raises {entry.key}")
    ctx.put("", "shot_groups", group, {"shots": [it.shot for it in targets], "reset_events": [raised]}, entry, "a bank")
    down = ctx.fit(f"drop_target_bank_{entry.key}_down")
    ctx.post("", f"{group}_down_complete", [down], entry, f"the event that MPF posts for {entry.key}")
    wait = entry.at("reset_on_complete")
    delay = ctx.time(wait.text) if wait and wait.text.lower() not in values.NO + ("yes", "true") else None
    if wait and (delay is not None or wait.text.lower() in values.YES):
        ctx.post("", after(ctx, "", down, delay or 0, entry), [raised], entry, "reset_on_complete")
    if coils:
        ctx.drive("", raised, {it: "pulse" for it in dict.fromkeys(coils)}, entry, f"raises {entry.key}")


# diverters


def of_diverters(ctx: Context, mode: str, section: Given) -> None:
    for entry in section.inside():
        coil = entry.says("activation_coil")
        if not coil:
            ctx.lose("diverters", entry, "it has no `activation_coil`")
            continue
        diverter(ctx, mode, entry, coil)
        rest(ctx, "diverters", entry, "activation_coil", "type", "activation_time", "activate_events",
             "deactivate_events",
             "enable_events", "disable_events", "activation_switches", "deactivation_switches", "deactivation_coil")
    ctx.log("diverters", section.place)


def diverter(ctx: Context, mode: str, entry: Given, coil: str) -> None:
    name = f"diverter_{entry.key}"
    switches = [f"{it}_active" for it in named_switches(ctx, entry, "activation_switches")]
    starts = events_of(ctx, mode, entry, "activate_events")
    stops = events_of(ctx, mode, entry, "deactivate_events")
    stops += [f"{it}_active" for it in named_switches(ctx, entry, "deactivation_switches")]
    enables, disables = events_of(ctx, mode, entry, "enable_events"), events_of(ctx, mode, entry, "disable_events")
    starts = ctx.relay(mode, starts + ([] if switches else enables), f"{name}_activate", entry)
    if switches:
        starts = starts + by_switch(ctx, mode, entry, name, switches, enables, disables)
    stops = [*ctx.relay(mode, stops + disables, f"{name}_deactivate", entry), *ctx.end_of(mode)]
    kind = entry.says("type", "hold").lower()
    if kind not in ("hold", "pulse"):
        ctx.log("lowest power or time", (entry.at("type") or entry).place, f"`{kind[:40]}`: a pulse")
    if kind != "hold" or not ctx.may_hold(coil):
        pulsed(ctx, entry, name, coil, starts, stops)
        return
    delay = time_of(ctx, entry, "activation_time", 0)
    timer = ctx.timer(name)
    helper = ctx.mode(name, starts, stops + ([f"timer_{timer}_complete"] if delay else []), entry,
                      "a diverter that is active")
    ctx.put(helper, "coil_player", f"mode_{helper}_started", {coil: "enable"}, entry, "holds the coil")
    off = entry.says("deactivation_coil")
    ctx.drive("", f"mode_{helper}_stopped", {coil: "disable", **({off: "pulse"} if off else {})}, entry,
              "whoever held the coil")
    if delay:
        ctx.put(helper, "timers", timer, {"end_value": "1", "tick_interval": written(delay), "start_running": "yes"},
                entry,
                "activation_time")


def by_switch(ctx: Context, mode: str, entry: Given, name: str, switches: list[str], enables: list[str],
              disables: list[str]) -> list[str]:
    """Lets switches activate a diverter while it is enabled."""
    activate = ctx.own(f"{name}_by_switch")
    if not enables:
        ctx.log("diverters", entry.place, "nothing enables it: its switches always activate it", "weakened")
        for event in switches:
            ctx.post(mode, event, [activate], entry, "activates it")
        return [activate]
    ctx.draft.need(2)
    enabled = ctx.mode(f"{name}_enabled", ctx.relay(mode, enables, f"{name}_enable", entry),
                       ctx.relay(mode, disables, f"{name}_disable", entry), entry, "a diverter that is enabled", mode)
    for event in switches:
        ctx.post(enabled, event, [activate], entry, "activates it")
    return [activate]


def pulsed(ctx: Context, entry: Given, name: str, coil: str, starts: list[str], stops: list[str]) -> None:
    """A diverter whose coils are pulsed; and one that is to be held by a coil that may not be is left out."""
    if entry.says("type", "hold").lower() == "hold":
        ctx.lose("hold not allowed", entry, f"`{coil}` may not be held: the diverter is left out")
        return
    for event in starts:
        ctx.drive("", event, {coil: "pulse"}, entry, "activates it")
    off = entry.at("deactivation_coil")
    for event in stops if off and off.text else []:
        ctx.drive("", event, {off.text: "pulse"}, entry, "deactivates it")
    if off and not stops:
        ctx.log("diverters", off.place, "nothing deactivates it", "unseen")
    if entry.at("activation_time"):
        ctx.lose("part of a rewrite", entry.at("activation_time") or entry, "`activation_time` of a pulsed diverter")


# kickbacks and spinners


def of_kickbacks(ctx: Context, mode: str, section: Given) -> None:
    for entry in section.inside():
        coil, switch = entry.says("coil"), one_switch(ctx, "kickbacks", entry)
        if not coil or not switch:
            ctx.lose("kickbacks", entry, "it needs a coil and a switch")
            continue
        name, fired = ctx.fit(f"kickback_{entry.key}"), ctx.fit(f"kickback_{entry.key}_fired")
        enables = ctx.relay(mode, events_of(ctx, mode, entry, "enable_events"), f"{name}_enable", entry)
        disables = ctx.relay(mode, events_of(ctx, mode, entry, "disable_events"), f"{name}_disable", entry)
        enables = enables or ["ball_started"]
        disables = list(dict.fromkeys([*(disables or ["ball_will_end"]), *ctx.tilt_events]))
        ctx.put("", "autofire_coils", name, {
            "coil": coil, "switch": switch, "enable_events": enables, "disable_events": [*disables, f"{switch}_active"],
        }, entry, "it kicks once each time it is enabled")
        ctx.put("", "counters", name, {
            "count_events": [f"{switch}_active"], "count_complete_value": "1", "enable_events": enables,
            "disable_events": disables, "events_when_complete": [fired],
        }, entry, "posts the event of a kick")
        rest(ctx, "kickbacks", entry, "coil", *SWITCHES, "enable_events", "disable_events")
    ctx.log("kickbacks", section.place)


def of_spinners(ctx: Context, mode: str, section: Given) -> None:
    for entry in section.inside():
        switches = switches_of(ctx, entry)
        if not switches:
            ctx.lose("spinners", entry, "no such switch")
            continue
        name, turns = f"spinner_{entry.key}", [f"{it}_active" for it in switches]
        delay = time_of(ctx, entry, "active_ms", SPINS) or SPINS
        turns = ctx.relay(mode, turns, f"{name}_turn", entry)
        timer = ctx.timer(f"{name}_still")
        helper = ctx.mode(name, turns, [f"timer_{timer}_complete"], entry, "a spinner that spins", mode)
        again: Value = [{"event": it, "action": "restart"} for it in turns]
        ctx.put(helper, "timers", timer, {"end_value": "1", "tick_interval": written(delay), "start_running": "yes",
                                          "control_events": again}, entry, "how long it has to be still")
        ctx.post(helper, f"mode_{helper}_started", [f"{name}_active"], entry, "its first turn")
        ctx.post(helper, f"timer_{timer}_complete", [f"{name}_inactive"], entry, "it is still")
        for event in turns:
            ctx.post("", event, [f"{name}_hit"], entry, "each turn")
        if idle := time_of(ctx, entry, "idle_ms", 0):
            ctx.post("", after(ctx, "", f"{name}_inactive", idle, entry), [f"{name}_idle"], entry, "idle_ms")
        rest(ctx, "spinners", entry, *SWITCHES, "active_ms", "idle_ms", "playfield")
    ctx.log("spinners", section.place)


# switches that are pressed together, or for a time


def of_combos(ctx: Context, mode: str, section: Given) -> None:
    for entry in section.inside():
        ones, others = switches_of(ctx, entry, "_1"), switches_of(ctx, entry, "_2")
        if not ones or not others:
            ctx.lose("combo_switches", entry, "it needs two switches")
            continue
        combo(ctx, mode, entry, ones, others)
        rest(ctx, "combo_switches", entry, *(f"{it}_{side}" for it in (*SWITCHES, "tags") for side in (1, 2)),
             "max_offset_time", "hold_time", "events_when_both", "events_when_inactive")
    ctx.log("combo_switches", section.place)


def combo(ctx: Context, mode: str, entry: Given, ones: list[str], others: list[str]) -> None:
    ctx.draft.need(3)
    name = f"combo_{entry.key}"
    pressed = ctx.own(f"{name}_pressed")
    offset = time_of(ctx, entry, "max_offset_time", 0)
    for side, (first, second) in enumerate(((ones, others), (others, ones)), 1):
        stops = [f"{it}_inactive" for it in first]
        timer = ctx.timer(f"{name}_{side}")
        helper = ctx.mode(f"{name}_{side}", [f"{it}_active" for it in first],
                          stops + ([f"timer_{timer}_complete"] if offset else []), entry, "one of two buttons is held")
        if offset:
            ctx.put(helper, "timers", timer,
                    {"end_value": "1", "tick_interval": written(offset), "start_running": "yes"},
                    entry, "max_offset_time")
        for switch in second:
            ctx.post(helper, f"{switch}_active", [pressed], entry, "both are held")
    starts = ctx.relay(mode, [pressed], f"{name}_in_mode", entry)
    both = ctx.mode(f"{name}_both", starts, [f"{it}_inactive" for it in (*ones, *others)], entry,
                    "both buttons are held", mode)
    posts = names_or(ctx, mode, entry, "events_when_both", f"{entry.key}_both")
    hold = time_of(ctx, entry, "hold_time", 0)
    event = f"mode_{both}_started"
    if hold:
        timer = ctx.timer(f"{name}_hold")
        ctx.put(both, "timers", timer, {"end_value": "1", "tick_interval": written(hold), "start_running": "yes"},
                entry,
                "hold_time")
        event = f"timer_{timer}_complete"
    ctx.post(both, event, posts, entry, "events_when_both")
    ends = names_or(ctx, mode, entry, "events_when_inactive", f"{entry.key}_inactive")
    ctx.post(both, f"mode_{both}_stopping", ends, entry, "events_when_inactive")


def names_or(ctx: Context, mode: str, entry: Given, key: str, default: str) -> list[str]:
    """The events that an entry posts; the default of MPF if none is written."""
    given = entry.at(key)
    return [default] if given is None else posted(ctx, mode, entry, given)


def posted(ctx: Context, mode: str, entry: Given, given: Given | None) -> list[str]:
    """The events of a setting that posts them. One with a time or a condition comes by an event of its own."""
    return values.posts(ctx, mode, "", NO_CALL, entry, given) if given else []


def time_of(ctx: Context, entry: Given, key: str, default: int) -> int:
    """The milliseconds of a setting; those of MPF if it is not written, or is no time, which is said."""
    given = entry.at(key)
    found = ctx.time(given.text) if given else default
    if found is None and given:
        ctx.lose("bad value", given, f"`{given.text[:60]}` is no time", "weakened")
    return default if found is None else found


def of_timed(ctx: Context, mode: str, section: Given) -> None:
    for entry in section.inside():
        switches = switches_of(ctx, entry)
        delay = ctx.time(entry.says("time", "0"))
        inactive = entry.says("state", "active").lower() not in ("active", "1")
        if not switches or not delay or inactive:
            ctx.lose("timed_switches", entry, "it needs a switch and a time")
            continue
        if len(switches) > 1:
            ctx.log("timed_switches", entry.place, "when one of several switches is let go, the time is over",
                    "weakened")
        ctx.draft.need(2)
        name = f"timed_{entry.key}"
        timer = ctx.timer(name)
        starts = ctx.relay(mode, [f"{it}_active" for it in switches], f"{name}_begins", entry)
        stops = [f"{it}_inactive" for it in switches]
        helper = ctx.mode(name, starts, stops, entry, "a switch that is held", mode)
        ctx.put(helper, "timers", timer, {"end_value": "1", "tick_interval": written(delay), "start_running": "yes"},
                entry,
                "the time")
        posts = names_or(ctx, mode, entry, "events_when_active", f"{entry.key}_active")
        held = ctx.mode(f"{name}_held", [f"timer_{timer}_complete"], stops, entry,
                        "a switch that was held for the time", mode)
        ctx.post(held, f"mode_{held}_started", posts, entry, "events_when_active")
        ends = names_or(ctx, mode, entry, "events_when_released", f"{entry.key}_released")
        ctx.post(held, f"mode_{held}_stopping", ends, entry, "events_when_released")
        rest(ctx, "timed_switches", entry, *SWITCHES, "time", "state", "events_when_active", "events_when_released")
    ctx.log("timed_switches", section.place)


# shots of several switches


def of_sequence_shots(ctx: Context, mode: str, section: Given) -> None:
    for entry in section.inside():
        steps = [f"{it}_active" for it in named_switches(ctx, entry, "switch_sequence")]
        missing = len(entry.names("switch_sequence")) - len(steps)
        given = entry.at("event_sequence")
        try:
            steps += [one for it in (given.words() if given else []) for one in ctx.handled(mode, it, entry)]
        except NotSaid:
            steps = []
        if missing or not 2 <= len(steps) <= 16 or not values.NAME.fullmatch(f"{entry.key}_hit"):
            ctx.lose("sequence_shots", entry, "it needs 2 to 16 switches or events, and a name of 60 characters")
            continue
        sequence(ctx, mode, entry, steps)
        rest(ctx, "sequence_shots", entry, "switch_sequence", "event_sequence", "sequence_timeout")
    ctx.log("sequence_shots", section.place)


def sequence(ctx: Context, mode: str, entry: Given, steps: list[str]) -> None:
    name = ctx.own(f"shot_{entry.key}", 40, "sequences ")
    delay = time_of(ctx, entry, "sequence_timeout", 0)
    device: dict[str, Value] = {"disable_on_complete": "no", "events_when_complete": [f"{entry.key}_hit"]}
    if not delay:
        ctx.put(mode, "sequences", name, {"events": [[it] for it in steps], **device}, entry,
                "a shot of several switches")
        return
    timer = ctx.timer(name)
    starts = ctx.relay(mode, steps[:1], f"{name}_begins", entry)
    stops = [f"timer_{timer}_complete", f"{entry.key}_hit"]
    helper = ctx.mode(name, starts, stops, entry, "a shot of several switches within a time", mode)
    ctx.put(helper, "sequences", name, {"events": [[it] for it in steps[1:]], **device}, entry, "the other switches")
    ctx.put(helper, "timers", timer, {"end_value": "1", "tick_interval": written(delay), "start_running": "yes"}, entry,
            "sequence_timeout")
    ctx.post(helper, f"timer_{timer}_complete", [f"{entry.key}_timeout"], entry, "sequence_timeout")
