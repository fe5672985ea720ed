"""The values of settings, as MPF writes them, made into what a setting takes here."""
import re

from .. import powers, schema
from ..machine_graph import GAME
from ..tables import Call, Setting
from ..values import milliseconds, thousandths
from .context import Context, parts_of
from .draft import Value
from .expressions import NotSaid
from .source import Given

NAME = re.compile(schema.NAME, re.ASCII)
YES, NO = ("yes", "true", "on", "1", "y"), ("no", "false", "off", "0", "n")
FIVE = re.compile(r"mode_(.+)_(?:will_start|starting|started|stopping|stopped)")
WORDS = {("debounce", "no"): "quick", ("debounce", "yes"): "normal"}
MOST_ITEMS = 1_024
TIME = re.compile(r"\d+(\.\d{1,3})?(ms|s|m|h|d|)")  # as it is read here
DEFAULT_PULSE = 10  # milliseconds


def convert(ctx: Context, mode: str, section: str, setting: Setting, entry: Given, given: Given) -> Value | None:
    """What a setting of the profile is given; none if it cannot be, which is then said."""
    kind = setting.kind.values[0] if setting.kind.name == "Kind::One" else setting.kind
    name = kind.name.partition("::")[2]
    if name in ("Names", "Posts", "Events", "Steps", "Maps", "NamedMaps"):
        return LISTS[name](ctx, mode, section, kind, entry, given)
    if section == "coils" and name in ("Time", "Power"):
        return drive(ctx, name, given)
    if given.is_list and given.words() and name in ("Name", "Time"):
        ctx.log("lists of one", given.place, f"`{given.words()[0]}` is the one")
        return of_text(ctx, section, kind, given, given.words()[0])
    if given.is_list or given.is_mapping:
        ctx.lose("bad value", given)
        return None
    if name in ("Name", "Time") and len(words := given.words()) > 1 and "," in given.text:
        ctx.log("lists of one", given.place, f"`{words[0]}` is the one")
        return of_text(ctx, section, kind, given, words[0])
    return of_text(ctx, section, kind, given, given.text)


def drive(ctx: Context, name: str, given: Given) -> str | None:
    """A power or a time of a coil: the lowest that its text can mean."""
    texts = given.words() if given.is_list or "," in given.text else ["" if given.is_mapping else given.text]
    found = [it for text in texts or [""] if (it := (power if name == "Power" else pulse)(ctx, given, text))]
    if len(texts) > 1 or not given.text:
        ctx.log("lowest power or time", given.place, "the lowest that it can mean")
    return lowest(given.key, found) if found else None


def lowest(setting: str, values: list[str]) -> str:
    """The lowest of some values of a coil's setting."""
    if setting == "allow_enable":
        return next((it for it in values if it.lower() not in YES), values[0])
    read = milliseconds if setting.endswith("_ms") else thousandths
    return min(values, key=lambda it: read(it) or 0)


def power(ctx: Context, given: Given, text: str) -> str:
    right, why = powers.meant(given.key, text)
    if why:
        ctx.log("powers in eighths", given.place, f"`{text[:40]}` is `{right}`")
    return right


def pulse(ctx: Context, given: Given, text: str) -> str | None:
    value = ctx.pulse(text)
    if value is None:
        numbers = [float(it) for it in re.findall(r"\d+\.?\d*", text)[:MOST_ITEMS]]
        value = max(1, int(min(numbers))) if numbers and min(numbers) < DEFAULT_PULSE else None
        says = f"`{value}ms`" if value else "left out"
        ctx.lose("lowest power or time", given, f"`{text[:40]}`: {says}, since nobody can know what was meant")
    elif value != ctx.time(text):
        ctx.log("lowest power or time", given.place, f"`{text[:40]}` is `{value}ms`")
    elif "settings." in text:
        ctx.log("settings.x", given.place, f"`{text[:60]}` is {value} by default")
    elif not TIME.fullmatch(text):
        ctx.log("other spelling", given.place, f"`{text[:40]}` is `{value}ms`")
    if value is None:
        return None
    return text if TIME.fullmatch(text) and value == ctx.time(text) else f"{value}ms"


def of_text(ctx: Context, section: str, kind: Call, given: Given, text: str) -> str | None:
    """A scalar of a kind. What is written otherwise than here is said."""
    name = kind.name.partition("::")[2]
    value = SCALARS[name](ctx, kind, given, text)
    if value is None and re.search(r"current_player|settings\.|machine\.|[*]", text):
        ctx.lose("formula", given, f"`{text[:60]}`")
    elif value is None:
        ctx.lose("bad value", given, f"`{text[:60]}`" if text else "it is empty")
    elif value != text and "settings." in text:
        ctx.log("settings.x", given.place, f"`{text[:60]}` is {value} by default")
    elif value != text:
        ctx.log("other spelling", given.place, f"`{text[:40]}` is `{value}`")
    return value


def flag(_ctx: Context, _kind: Call, _given: Given, text: str) -> str | None:
    if text.lower() in YES + NO:
        return text if re.fullmatch(schema.OTHER_FLAGS + "|yes|no", text) else "yes" if text.lower() in YES else "no"
    return None


def whole(ctx: Context, kind: Call, given: Given, text: str) -> str | None:
    value = ctx.number(text)
    if value is None:
        return None
    least, greatest = kind.values
    if given.key == "balls_to_save" and value == -1:
        value = greatest
    near = min(max(value, least), greatest)
    if near != value:
        ctx.log("number out of range", given.place, f"{value} is {near}")
        return str(near)
    return text if re.fullmatch(r"-?\d+", text) else str(near)


def time(ctx: Context, kind: Call, _given: Given, text: str) -> str | None:
    value = ctx.time(text)
    least, greatest = kind.values
    if value is None or not least <= value <= greatest:
        return None
    return text if TIME.fullmatch(text) else f"{value}ms"


def word(_ctx: Context, kind: Call, given: Given, text: str) -> str | None:
    text = WORDS.get((given.key, text.lower()), text)
    return next((it for it in kind.values[0] if it.lower() == text.lower()), None)


def named(_ctx: Context, _kind: Call, _given: Given, text: str) -> str | None:
    return text if NAME.fullmatch(text) else None


SCALARS = {"Flag": flag, "Number": whole, "Time": time, "Word": word, "Name": named}


# lists


def names(ctx: Context, _mode: str, _section: str, kind: Call, _entry: Given, given: Given) -> Value | None:
    found = []
    for it in given.words():
        if NAME.fullmatch(it):
            found.append(it)
        else:
            ctx.lose("bad name", given, f"`{it[:60]}`")
    least, greatest = schema.bounds(kind.values[0])
    if len(found) < least or greatest and len(found) > greatest:
        ctx.lose("too many" if found else "bad value", given, f"{len(found)} names")
        return None
    return found


def items_of(ctx: Context, given: Given) -> list[str]:
    """The events of a list in any of MPF's forms, each with its time: `a|2s`, `{a: 2s}`, `- a: 2s`."""
    found: list[str] = []
    for it in given.inside():
        found.append(f"{it.key}|{it.text}" if it.text else it.key)
        more_of(ctx, it)
    for item in given.items():
        found += [item.text] if "{" in item.text else items_of(ctx, item)
    found += given.words() if not given.is_list else []
    if len(found) > MOST_ITEMS:
        ctx.lose("too many", given, f"{len(found)} names, and {MOST_ITEMS} are read")
    return found[:MOST_ITEMS]


def more_of(ctx: Context, given: Given) -> None:
    """Says what an event of a list has beside its name."""
    for it in given.inside():
        if it.key == "priority":
            ctx.log("a: {b: {priority: 5}}", it.place)
        else:
            ctx.lose("unknown setting", it, f"`{it.key[:60]}` of the event `{given.key[:60]}`")
    if given.is_list:
        ctx.lose("bad value", given)


def events(ctx: Context, mode: str, section: str, _kind: Call, _entry: Given, given: Given) -> list[str]:
    """A list of events that are handled."""
    owner = "" if section == "mode" else mode
    found: list[str] = []
    for text in items_of(ctx, given):
        before = len(found)
        try:
            with ctx.attempt(given):
                found += ctx.handled(owner, text, given)
        except NotSaid as why:
            ctx.lose("(name)_hit" if "(" in text.partition("{")[0] else "other conditions", given,
                     f"`{text[:60]}`: {why}")
            continue
        name, condition, wait = parts_of(text)
        if wait:
            ctx.log("reset_events: {a: 1s}", given.place)
        if condition and len(found) == before:
            ctx.lose("other conditions", given, f"`{text[:60]}` never holds")
        elif condition:
            said(ctx, given, condition, found[-1:])
    return list(dict.fromkeys(found))


def said(ctx: Context, given: Given, condition: str, found: list[str]) -> None:
    """Says how a condition was rewritten."""
    if "settings." in condition:
        ctx.log("settings.x", given.place, f"`{{{condition[:60]}}}`")
    elif re.search(r"\bvalue\b", condition):
        ctx.log("player_x{value}", given.place)
    elif not re.search(r"[=<>]", condition) and not re.search(r"\b(and|or)\b", condition):
        ctx.log("a{current_player.x}", given.place)
    elif re.sub(r"[\s()]", "", condition) not in re.sub(r"\s", "", "".join(found)):
        ctx.log("other spelling", given.place)


def steps(ctx: Context, mode: str, section: str, kind: Call, entry: Given, given: Given) -> Value | None:
    """The steps of an accrual or a sequence."""
    items, most = given.items(), kind.values[0].values[1]
    if given.is_mapping:
        ctx.lose("bad value", given, "a mapping in place of a list of steps")
        return None
    if not given.is_list:
        ctx.log("other spelling", given.place, "each event is a step")
        items = [Given(given.key, it, given.file, it.line, it.line + 1) for it in given.node.texts()]
    found: list[list[str]] = []
    for item in items:
        here = events(ctx, mode, section, kind, entry, item) if len(found) < most else []
        if here:
            found.append(here)
        elif len(found) == most:
            ctx.lose("too many", item, f"at most {most} steps")
        elif item.text or item.is_list or item.is_mapping:
            ctx.lose("bad value", item, "a step without an event: the steps are left out")
            return None
    return found


def may_be_posted(ctx: Context, name: str) -> bool:
    found = FIVE.fullmatch(name)
    return not (name in GAME and name != "sw_start" or found and found[1] in ctx.listed)


def posts(ctx: Context, mode: str, _section: str, _kind: Call, entry: Given, given: Given) -> list[str]:
    """A list of events that a device or a switch posts."""
    trigger, found = "", list[str]()
    for text in items_of(ctx, given):
        name, condition, wait = parts_of(text)
        if not NAME.fullmatch(name):
            ctx.lose("(name)_hit", given, f"`{name[:60]}`")
        elif not may_be_posted(ctx, name):
            ctx.lose("reserved event", given, f"`{name}`")
        elif not condition and not wait:
            found.append(name)
        else:
            if not trigger:
                trigger = trigger_of(ctx, entry, given, found)
            later(ctx, mode, trigger, text, given)
    return found


def trigger_of(ctx: Context, entry: Given, given: Given, found: list[str]) -> str:
    """An event that comes when the events of this list are posted."""
    ends = {"events_when_activated": "active", "events_when_deactivated": "inactive"}
    if given.key in ends:
        return f"{entry.key}_{ends[given.key]}"
    trigger = ctx.own(f"{entry.key}_{given.key.removeprefix('events_when_')}")
    found.append(trigger)
    return trigger


def later(ctx: Context, mode: str, trigger: str, text: str, given: Given) -> None:
    """Posts an event with a time or a condition, at another event."""
    name, condition, wait = parts_of(text)
    head = f"{trigger}{{{condition}}}" if condition else trigger
    heads: list[str] = []
    try:
        with ctx.attempt(given):
            heads = ctx.handled(mode, f"{head}|{wait}" if wait else head, given)
    except NotSaid as why:
        ctx.lose("other conditions", given, f"`{text[:60]}`: {why}")
        return
    for it in heads:
        ctx.post(mode, it, [name], given, f"`{text}` after `{trigger}`")
    if not heads:
        ctx.lose("other conditions", given, f"`{text[:60]}` never holds")
    ctx.log("events_when_activated: a|1s" if wait else "a: b{x}", given.place)


def maps(ctx: Context, mode: str, section: str, _kind: Call, _entry: Given, given: Given) -> Value | None:
    """The control events of a timer."""
    found = [it for item in given.items() for it in control(ctx, mode, item)]
    if given.is_mapping or given.text:
        ctx.lose("bad value", given)
    return found or None


ACTIONS = ("start", "stop", "pause", "reset", "restart", "add", "subtract", "jump")


def control(ctx: Context, mode: str, item: Given) -> list[dict]:
    action = item.says("action").lower()
    if action not in ACTIONS:
        ctx.lose("timers.control_events.action", item, f"`{action[:40]}`")
        return []
    value = ctx.number(item.says("value", "0"))
    event = item.at("event") or item.at("events")
    if value is None or event is None:
        ctx.lose("formula" if value is None else "missing setting", item, f"`{item.says('value')[:60]}`")
        return []
    if action == "pause" and value and (place := item.at("value")):
        ctx.lose("timers.pause", place)
    for it in item.inside():
        if it.key not in ("action", "value", "event", "events"):
            ctx.lose("unknown setting", it)
        else:
            ctx.keep(it)
    handled = events(ctx, mode, "timers", Call(""), item, event)
    extra = {"value": str(value)} if item.at("value") else {}
    return [{"event": it, "action": action, **extra} for it in handled or []]


def named_maps(ctx: Context, _mode: str, _section: str, _kind: Call, _entry: Given, given: Given) -> Value | None:
    """The states of a profile."""
    found: list[dict] = []
    items = [Given(given.key, it, given.file, it.line, it.line + 1) for it in given.node.texts()]
    for one in given.items() or items:
        name = one.says("name") if one.is_mapping else one.text
        if not NAME.fullmatch(name) or name in [it["name"] for it in found] or len(found) == 16:
            ctx.lose("bad name" if len(found) < 16 else "too many", one, f"state `{name[:40]}`")
            continue
        for it in one.inside():
            if it.key == "name":
                ctx.keep(it)
            else:
                ctx.lose("states.show", it)
        found.append({"name": name})
    if not found:
        ctx.lose("bad value", given)
        return None
    return found


LISTS = {"Names": names, "Posts": posts, "Events": events, "Steps": steps, "Maps": maps, "NamedMaps": named_maps}
