"""`event_player`, `coil_player`, `variable_player` and `random_event_player`, in all forms that MPF has."""
import re

from ..outline import Node
from ..values import milliseconds, thousandths
from . import values
from .context import Context, parts_of
from .draft import Value
from .expressions import InMode, NotSaid, Way, product
from .source import Given

MOST_FACTOR = 10
MOST_STATES = 16  # of a profile
TURNS = ("force_all", "force_different", "disable_random")  # what is so if events come in turn
ENABLES, DISABLES, PULSES = ("enable", "on", "yes", "true"), ("disable", "off", "no", "false"), ("pulse", "single")


def heads(ctx: Context, mode: str, entry: Given, condition: str = "") -> list[tuple[str, str]]:
    """The events to handle for a key of a player, each with the mode whose text handles it. Nothing if it is lost."""
    name, own, wait = parts_of(entry.key)
    both = " and ".join(f"({it})" for it in (own, condition) if it) if own and condition else own or condition
    try:
        ways: list[Way] = ctx.ways(name, both) if both else [[]]
        found = []
        for event in ctx.events(name, entry):
            for way in ways:
                found.append(in_mode(ctx, mode, event, way, entry))
        if wait:
            ctx.log("a: b|2s", entry.place, f"`{entry.key[:60]}`")
            found = [(ctx.after(where, head, ctx.wait_of(wait), entry), where) for head, where in found]
    except NotSaid as why:
        lost = "(name)_hit" if "(" in name else "other conditions"
        ctx.lose(lost, entry, f"`{entry.key[:60]}`: {why}")
        return []
    if both:
        values.said(ctx, entry, both, [it for it, _ in found])
    if both and not found:
        ctx.lose("other conditions", entry, f"`{both[:60]}` never holds")
    return found


def in_mode(ctx: Context, mode: str, event: str, way: Way, entry: Given) -> tuple[str, str]:
    """A way of a condition, in the text of the mode that it asks for."""
    asked = [it.mode for it in way if isinstance(it, InMode)]
    where = mode
    for other in asked:
        if other not in ctx.listed or where not in ("", other):
            raise NotSaid(f"no entry asks whether the mode `{other}` runs")
        where = other
        ctx.log("a{mode.m.active}", entry.place, f"in the text of `{other}`")
    rest: Way = [it for it in way if not isinstance(it, InMode)]
    return ctx.stepped(where, event, rest, entry), where


def differs(head: str, key: str) -> bool:
    """Whether an event is not the one that is written, blanks left out."""
    return re.sub(r"\s", "", head) != re.sub(r"\s", "", key)


def of_events(ctx: Context, mode: str, section: Given) -> None:
    for entry in section.inside():
        of_event(ctx, mode, entry)


def posted_by(ctx: Context, entry: Given) -> list[tuple[str, str, str]]:
    """The events that an entry posts, each with its condition and the time after which it comes."""
    found = []
    for it in entry.inside():
        found.append(parts_of(it.key))
        values.more_of(ctx, it)
        if it.text:
            ctx.log("a: {b: {priority: 5}}", it.place)
    for item in entry.items():
        if item.is_mapping or item.is_list:
            ctx.log("lists of events", item.place)
        found += [parts_of(item.text)] if "{" in item.text else posted_by(ctx, item)
    return found + ([] if entry.is_list else [parts_of(it) for it in entry.words()])


def of_event(ctx: Context, mode: str, entry: Given) -> None:
    posted = posted_by(ctx, entry)
    groups: dict[tuple[str, str], list[str]] = {}
    for name, condition, wait in posted:
        if not values.NAME.fullmatch(name):
            ctx.lose("(name)_hit" if "(" in name else "bad name", entry, f"`{name[:60]}`")
        elif not values.may_be_posted(ctx, name):
            ctx.lose("reserved event", entry, f"`{name}`")
        else:
            groups.setdefault((condition, wait), []).append(name)
    if not posted and not entry.text.strip(", ") and not entry.node.items:
        groups[("", "")] = []
    if timer := ticks(ctx, mode, entry):
        ctx.post(mode, timer, [it for names in groups.values() for it in names], entry, f"{entry.key} in MPF")
        return
    for (condition, wait), names in groups.items():
        with ctx.attempt(entry):
            write_event(ctx, mode, entry, condition, wait, names)


def write_event(ctx: Context, mode: str, entry: Given, condition: str, wait: str, names: list[str]) -> None:
    if condition:
        ctx.log("a: b{x}", entry.place)
    for head, where in heads(ctx, mode, entry, condition):
        says = ""
        if wait:
            try:
                delay = ctx.wait_of(wait)
            except NotSaid as why:
                ctx.lose("bad value", entry, str(why))
                continue
            ctx.log("a: b|2s", entry.place, f"`{', '.join(names)}|{wait}`")
            says, head = f"{', '.join(names)} {wait} after {entry.key}", ctx.after(where, head, delay, entry)
        elif differs(head, entry.key):
            says = f"{entry.key} in MPF"
        else:
            ctx.keep(entry)
        ctx.post(where, head, names, entry, says)


def ticks(ctx: Context, mode: str, entry: Given) -> str:
    """The event of a second timer that ends at a value which a tick is compared with."""
    found = re.fullmatch(r"timer_(\w+)_tick\{\s*ticks\s*==?\s*(-?\d+)\s*\}", entry.key)
    timer = ctx.draft.texts.get(mode, {}).get("timers", {}).get(found[1]) if found else None
    if not found or timer is None or not isinstance(timer.value, dict):
        return ""
    name = ctx.timer(f"{found[1]}_{found[2].replace('-', 'minus_')}")
    ctx.put(mode, "timers", name, {**timer.value, "end_value": found[2]}, entry, f"{entry.key} in MPF")
    ctx.log("timer_t_tick{ticks==3}", entry.place)
    return f"timer_{name}_complete"


# coils


def of_coils(ctx: Context, mode: str, section: Given) -> None:
    for entry in section.inside():
        coils: dict[str, Value] = {}
        given = coils_of(entry)
        for item in entry.items():
            if item.is_mapping:
                ctx.log("coil_player forms", item.place, "an entry of a mapping")
            elif item.is_list:
                ctx.lose("bad value", item)
        for it in given:
            if not values.NAME.fullmatch(it.key):
                ctx.lose("bad name", it, f"`{it.key[:60]}`")
            elif (what := of_coil(ctx, it, entry)) is not None:
                coils[it.key] = what
        written = heads(ctx, mode, entry) if coils or not given else []
        for head, where in written:
            says = f"{entry.key} in MPF" if differs(head, entry.key) else ""
            ctx.drive(where, head, coils, entry, says)
            ctx.keep(entry)


def coils_of(entry: Given) -> list[Given]:
    """The coils of an entry, in any form: a mapping, a list of mappings or of names, or a text."""
    found = entry.inside()
    for item in entry.items():
        found += coils_of(item)
    words = [] if entry.is_list else entry.node.texts()
    return found + [Given(it.text, Node(it.line), entry.file, it.line, it.line + 1) for it in words]


def of_coil(ctx: Context, given: Given, entry: Given) -> Value | None:
    """What a coil does at an event; none if it is left out."""
    action = given.at("action") or given
    word = action.text.lower() if action is not given or not given.is_mapping else ""
    if word in ENABLES and given.key in ctx.not_held:
        ctx.lose("coils.max_hold_duration", action)
        return None
    if not word:
        what = "pulse"
    elif word in (*ENABLES, *DISABLES, *PULSES):
        what = "enable" if word in ENABLES else "disable" if word in DISABLES else "pulse"
    elif re.fullmatch(r"\d+(ms)?", word):
        ctx.log("lowest power or time", action.place, f"`{word[:40]}`: a pulse of so many milliseconds, or shorter")
        return {"action": "pulse", "pulse_ms": values.pulse(ctx, action, word) or "1ms"}
    else:
        lost = "timed_enable" if word.startswith("timed") else "bad value"
        ctx.lose(lost, action, f"`{word[:40]}`")
        return None
    if word != what:
        ctx.log("coil_player forms", given.place, f"`{what}`")
    else:
        ctx.keep(action)
    return with_settings(ctx, given, what)


def with_settings(ctx: Context, given: Given, what: str) -> Value:
    found = {"action": what}
    for it in given.inside():
        if it.key == "action":
            ctx.keep(it)
        elif it.key in ("pulse_ms", "pulse_power", "hold_power"):
            value = values.drive(ctx, "Time" if it.key == "pulse_ms" else "Power", it)
            if value is not None:
                found[it.key] = value if it.key not in found else values.lowest(it.key, [found[it.key], value])
                ctx.keep(it)
        elif it.key == "max_wait_ms":
            ctx.lose("coil_player.max_wait_ms", it)
        else:
            ctx.lose("unknown setting", it, f"`{it.key[:60]}`")
    return what if len(found) == 1 else {**found}


def within_limits(ctx: Context) -> None:
    """Nothing in a `coil_player` is above the limits of its coil."""
    coils = ctx.draft.section("", "coils")
    for mode in ctx.draft.texts:
        for written in ctx.draft.texts[mode].get("coil_player", {}).values():
            for name, value in (written.value.items() if isinstance(written.value, dict) else ()):
                coil = coils.get(name)
                if isinstance(value, dict) and coil and isinstance(coil.value, dict):
                    place = written.lines.get(name, written.places[0])
                    limit(ctx, place, value, coil.value)


def limit(ctx: Context, place, value: dict, coil: dict) -> None:  # noqa: ANN001
    pulse = coil.get("max_pulse_ms", coil.get("default_pulse_ms", "10ms"))
    hold = coil.get("max_hold_power") or ("1" if str(coil.get("allow_enable", "no")).lower() in values.YES
                                          else coil.get("default_hold_power"))
    limits = (("pulse_ms", pulse, milliseconds), ("pulse_power", coil.get("max_pulse_power", "1"), thousandths),
              ("hold_power", hold, thousandths))
    for key, most, read in limits:
        here = read(str(value.get(key, "")))
        most_read = read(str(most)) if most else None
        if here is not None and most_read is not None and here > most_read:
            value[key] = most
            ctx.log("lowest power or time", place, f"`{key}` is {most}, as the coil allows")
        elif here is not None and most is None:
            del value[key]
            ctx.log("lowest power or time", place, f"`{key}` is left out: the coil may not be held")


# variables


def of_variables(ctx: Context, mode: str, section: Given) -> None:
    for entry in section.inside():
        changes: dict[str, Value] = {}
        computed: list[tuple[str, int, str, Given]] = []
        if not entry.is_mapping and (entry.text or entry.is_list):
            ctx.lose("variable_player.other", entry, f"`{entry.text[:40]}`")
            continue
        for it in entry.inside():
            of_variable(ctx, it, changes, computed)
        order = [it.key for it in entry.inside()]
        before = [it for it in computed if it[2] not in order or order.index(it[0]) <= order.index(it[2])]
        for variable, factor, of, it in before:
            multiplied(ctx, mode, entry, it, variable, factor, of)
        found = heads(ctx, mode, entry) if changes or not entry.inside() else []
        for head, where in found:
            says = f"{entry.key} in MPF" if differs(head, entry.key) else ""
            ctx.change(where, head, changes, entry, says)
            ctx.keep(entry)
        for variable, factor, of, it in computed:
            if not any(it is other[3] for other in before):
                multiplied(ctx, mode, entry, it, variable, factor, of)


def of_variable(ctx: Context, it: Given, changes: dict[str, Value], computed: list) -> None:
    name, text = it.key, it.text
    if not values.NAME.fullmatch(f"player_{name}"):
        ctx.lose("bad name", it, f"`{name[:60]}`")
        return
    if it.is_mapping and (set(x.key for x in it.inside()) - {"int", "action", "block", "player"} or not it.at("int")):
        ctx.lose("variable_player.other", it, f"`{name}`")
        return
    action = it.says("action", "add") if it.is_mapping else "add"
    text = it.says("int") if it.is_mapping else text
    if block := it.at("block"):
        ctx.lose("score|block", block)
    if action not in ("add", "set") or it.at("player"):
        ctx.lose("variable_player.other", it, f"`action: {action[:40]}`" if action else "")
        return
    number, _, flag = text.partition("|")
    if flag:
        ctx.log("score|block", it.place)
    value = ctx.number(number)
    if value is not None:
        changes[name] = str(value) if action == "add" else {"int": str(value), "action": "set"}
        if str(value) != number.strip() and not flag:
            ctx.log("settings.x" if "settings." in number else "other spelling", it.place, f"{value}")
        ctx.keep(it)
        for inner in it.inside():
            if inner.key != "block":
                ctx.keep(inner)
    elif action == "add" and (found := product(number, ctx.known())):
        computed.append((name, *found, it))
    else:
        ctx.lose("variable_player.other", it, f"`{name}: {text[:60]}`")


def multiplied(ctx: Context, mode: str, entry: Given, it: Given, variable: str, factor: int, of: str) -> None:
    """A score that is multiplied: an entry for each value of the multiplier."""
    for value in range(1, MOST_FACTOR + 1):
        sign = ">=" if value == MOST_FACTOR else "=="
        for head, where in heads(ctx, mode, entry, f"current_player.{of} {sign} {value}"):
            ctx.change(where, head, {variable: str(factor * value)}, it, f"{variable}: {factor} * current_player.{of}")
    ctx.log("score * variable", it.place)


# events in turn


def of_random(ctx: Context, mode: str, section: Given) -> None:
    for entry in section.inside():
        events = entry.at("events") or (entry if entry.is_list else None)
        names = drawn(ctx, events) if events else []
        found = heads(ctx, mode, entry) if names else []
        if not found:
            ctx.lose("random_event_player", entry, "", "lost")
            continue
        in_turn(ctx, mode, entry, [it for it, _ in found], names)
        for it in entry.inside():
            if (it.key, it.text.lower()) == ("scope", "player") or it.key in TURNS:
                ctx.log("random_event_player", it.place, f"`{it.key}`: the events come in turn", "rewritten")
            elif it.key != "events":
                ctx.lose("random_event_player", it, f"`{it.key[:60]}`")
    ctx.log("random_event_player", section.place)


def drawn(ctx: Context, events: Given) -> list[str]:
    """The names of events of which one is drawn, without their weights."""
    found: list[str] = []
    for text, given in chances(events):
        name, condition, wait = parts_of(text)
        if not values.NAME.fullmatch(name) or condition or wait:
            ctx.lose("bad name", given, f"`{text[:60]}`")
        elif not values.may_be_posted(ctx, name):
            ctx.lose("reserved event", given, f"`{name}`")
        elif len(found) == MOST_STATES:
            ctx.lose("too many", given, f"`{name}`: at most {MOST_STATES} events")
        else:
            found.append(name)
            if given.key == text and given.text:
                ctx.lose("random_event_player", given, f"the weight of `{name}`")
            values.more_of(ctx, given)
    return found


def chances(events: Given) -> list[tuple[str, Given]]:
    """The texts of some events, each with its place."""
    found = [(it.key, it) for it in events.inside()]
    for item in events.items():
        found += chances(item) if item.is_mapping or item.is_list else [(it, item) for it in item.words()]
    return found or [(it, events) for it in events.words()]


def in_turn(ctx: Context, mode: str, entry: Given, found: list[str], names: list[str]) -> None:
    pick = ctx.own(f"{entry.key.partition('{')[0]}_turn", 30)
    states = [f"s_{at}" for at in range(1, len(names) + 1)]
    ctx.put(mode, "shot_profiles", pick, {"loop": "yes", "states": [{"name": it} for it in states]}, entry,
            "the events come in turn, and not at random")
    ctx.put(mode, "shots", pick, {"hit_events": found, "profile": pick}, entry, "the events come in turn")
    for state, name in zip(states, names):
        ctx.post(mode, f"{pick}_{state}_hit", [name], entry, "the events come in turn")
