"""What each section may hold: its settings in the order that numbers names, and their values.

An entry is read into a dictionary of values. Defaults are filled in, and a setting without a default that is not
written is None.
"""
from collections.abc import Callable
from dataclasses import dataclass, field
from typing import Any

from . import values
from .values import BadValue, Handled, Reader, Word
from .yaml_text import Entries, Items, Node, Scalar

IGNORED = "number tags label debug platform platform_settings console_log file_log x y z".split()
SKIPPED = """lights light_player light_settings shows show_player sounds sound_player sound_pools sound_system slides
    slide_player widgets widget_player widget_styles window displays playlists playlist_player segment_displays
    segment_display_player text_strings images videos assets hardware keyboard bcp mpf mpf-mc logging playfields
    virtual_platform_start_active_switches""".split()
MACHINE_ONLY = "machine game modes switches coils flippers autofire_coils ball_devices".split()
MODE_ONLY = "mode timers".split()
PLAYERS = "event_player variable_player coil_player".split()
ONE_ENTRY = "machine game mode".split()
# Sections whose entries are devices, and none of them may have the name of the playfield.
DEVICES = """flippers autofire_coils ball_devices counters accruals sequences shots shot_groups timers ball_saves
    multiballs""".split()


class Fault(Exception):
    """An error of a configuration, without its text: number, name, line, key."""

    def __init__(self, number: int, name: str, line: int, key: str):
        super().__init__(number, name, line, key)
        self.number, self.name, self.line, self.key = number, name, line, key


@dataclass
class Setting:
    read: Reader
    default: Any = None
    required: bool = False


@dataclass
class Entry:
    """An entry of a section, with its key and its values."""

    section: str
    key: Scalar
    values: dict[str, Any] = field(default_factory=dict)

    @property
    def name(self) -> str:
        return self.key.text

    def __getitem__(self, setting: str) -> Any:
        return self.values[setting]


def required(read: Reader) -> Setting:
    return Setting(read, required=True)


HANDLED = Setting(values.handled_list, ())
POSTED = Setting(values.names, ())
YES, NO = Setting(values.boolean, True), Setting(values.boolean, False)
PULSE = values.time(1, 5_000)
LONG = values.time(1)
DIRECTION = Setting(values.one_of("up", "down"), "up")


def handled_or(event: str) -> Setting:
    return Setting(values.handled_list, (Handled(event, None),))


def items_of(node: Node) -> list[Node]:
    """The items of a YAML list."""
    if not isinstance(node, Items):
        raise BadValue
    if len(node.items) > values.LIST_LIMIT:
        raise values.TooMany
    return node.items


def steps(node: Node) -> list[list[Handled]]:
    """A list of lists of handled events, none of these empty."""
    if isinstance(node, Scalar) and not node.text:
        return []
    found = [values.handled_list(item) for item in items_of(node)]
    values.within(len(found), 0, 16)
    if not all(found):
        raise BadValue
    return found


ENABLE_AND_DISABLE = {"enable_events": handled_or("ball_started"), "disable_events": handled_or("ball_will_end")}
BLOCK = {
    "reset_on_complete": YES,
    "disable_on_complete": YES,
    "persist_state": NO,
    "enable_events": HANDLED,
    "disable_events": HANDLED,
    "reset_events": HANDLED,
    "restart_events": HANDLED,
    "events_when_hit": POSTED,
    "events_when_complete": POSTED,
}
STEPS = {"events": required(steps), **BLOCK}
STATE = {"name": required(values.name)}
CONTROL = {
    "event": required(values.handled),
    "action": required(values.one_of(*"start stop pause reset restart add subtract jump".split())),
    "value": Setting(values.integer(), 0),
}
COIL_ACTION = {
    "action": required(values.one_of("pulse", "enable", "disable")),
    "pulse_ms": Setting(PULSE),
    "pulse_power": Setting(values.power),
    "hold_power": Setting(values.power),
}
VARIABLE_ACTION = {"int": required(values.integer()), "action": Setting(values.one_of("add", "set"), "add")}


def root_of(node: Node) -> list[tuple[Scalar, Node]]:
    """The entries of a whole text, which is a mapping. A text without content is read as an empty one."""
    if not isinstance(node, Entries):
        raise BadValue
    return node.entries


def mapping_of(node: Node) -> list[tuple[Scalar, Node]]:
    """The entries of a mapping; the empty text is an empty one."""
    if isinstance(node, Scalar) and not node.text:
        return []
    if not isinstance(node, Entries):
        raise BadValue
    return node.entries


def judged(read: Callable[[Node], Any], node: Node, line: int, key: str) -> Any:
    """The value of a node, or the fault at this line and key."""
    try:
        return read(node)
    except BadValue:
        raise Fault(6, "BadValue", line, key) from None
    except values.TooMany:
        raise Fault(9, "Limit", line, key) from None


def settings(
    entries: list[tuple[Scalar, Node]], table: dict[str, Setting], line: int, ignored: list[str] | None
) -> dict[str, Any]:
    """The values of written settings, and the defaults. If `ignored` is None, all other keys are ignored."""
    found = {}
    for key, node in entries:
        if key.text in table:
            found[key.text] = judged(table[key.text].read, node, key.line, key.text)
        elif ignored is not None and key.text not in ignored:
            raise Fault(5, "UnknownSetting", key.line, key.text)
    for setting in table:
        if table[setting].required and setting not in found:
            raise Fault(7, "Missing", line, setting)
    return {setting: found.get(setting, table[setting].default) for setting in table}


def inner(node: Node, table: dict[str, Setting], line: int, key: str, ignored: list[str] | None) -> dict[str, Any]:
    """The values of a mapping within an entry, which may not be empty text."""
    if not isinstance(node, Entries):
        raise Fault(6, "BadValue", line, key)
    return settings(node.entries, table, line, ignored)


def states(node: Node) -> list[str]:
    items = items_of(node)
    values.within(len(items), 1, 16)
    found = [settings(mapping_of(item), STATE, item.line, None)["name"].text for item in items]
    if len({*found}) < len(found):
        raise BadValue
    return found


def control_events(node: Node) -> list[dict[str, Any]]:
    if isinstance(node, Scalar) and not node.text:
        return []
    return [settings(mapping_of(item), CONTROL, item.line, []) for item in items_of(node)]


SETTINGS: dict[str, dict[str, Setting]] = {
    "machine": {"min_balls": Setting(values.integer(0, 99), 1)},
    "game": {
        "balls_per_game": Setting(values.integer(1, 99), 3),
        "max_players": Setting(values.integer(1, 4), 4),
    },
    "switches": {
        "type": Setting(values.one_of("NO", "NC"), "NO"),
        "debounce": Setting(values.one_of("auto", "quick", "normal"), "auto"),
        "tags": POSTED,
        "events_when_activated": POSTED,
        "events_when_deactivated": POSTED,
    },
    "coils": {
        "default_pulse_ms": Setting(PULSE, 10),
        "max_pulse_ms": Setting(PULSE),
        "default_pulse_power": Setting(values.power, 1_000),
        "max_pulse_power": Setting(values.power, 1_000),
        "allow_enable": NO,
        "default_hold_power": Setting(values.power),
        "max_hold_power": Setting(values.power),
    },
    "flippers": {
        "main_coil": required(values.name),
        "hold_coil": Setting(values.name),
        "activation_switch": required(values.name),
        **ENABLE_AND_DISABLE,
    },
    "autofire_coils": {"coil": required(values.name), "switch": required(values.name), **ENABLE_AND_DISABLE},
    "ball_devices": {
        "ball_switches": required(values.few_names(0, 16)),
        "eject_coil": Setting(values.name),
        "eject_targets": Setting(values.name, Word("playfield")),
        "eject_timeouts": Setting(LONG, 10_000),
        "entrance_count_delay": Setting(LONG, 500),
        "exit_count_delay": Setting(LONG, 500),
        "mechanical_eject": NO,
        "max_eject_attempts": Setting(values.integer(0, 1_000), 0),
        "tags": POSTED,
    },
    "counters": {
        "count_events": required(values.handled_list),
        "starting_count": Setting(values.integer(), 0),
        "count_interval": Setting(values.integer(1, 1_000_000), 1),
        "count_complete_value": Setting(values.integer()),
        "direction": DIRECTION,
        "multiple_hit_window": Setting(values.time(), 0),
        **BLOCK,
    },
    "accruals": STEPS,
    "sequences": STEPS,
    "shots": {
        "switch": Setting(values.name),
        "hit_events": HANDLED,
        "profile": Setting(values.name, Word("default")),
        "advance_events": HANDLED,
        "reset_events": HANDLED,
        "enable_events": HANDLED,
        "disable_events": HANDLED,
    },
    "shot_groups": {
        "shots": required(values.few_names(1, 16)),
        "rotate_events": HANDLED,
        "rotate_right_events": HANDLED,
        "rotate_left_events": HANDLED,
        "reset_events": HANDLED,
    },
    "shot_profiles": {"states": required(states), "advance_on_hit": YES, "loop": NO},
    "ball_saves": {
        "active_time": Setting(values.time(), 0),
        "balls_to_save": Setting(values.integer(1, 99), 1),
        "enable_events": HANDLED,
        "disable_events": HANDLED,
    },
    "multiballs": {"ball_count": required(values.integer(2, 99)), "start_events": HANDLED},
    "mode": {
        "start_events": HANDLED,
        "stop_events": HANDLED,
        "priority": Setting(values.integer(0, 1_000_000), 100),
        "game_mode": YES,
        "stop_on_ball_end": YES,
        "use_wait_queue": NO,
    },
    "timers": {
        "start_value": Setting(values.integer(), 0),
        "end_value": Setting(values.integer()),
        "direction": DIRECTION,
        "tick_interval": Setting(LONG, 1_000),
        "start_running": NO,
        "restart_on_complete": NO,
        "control_events": Setting(control_events, ()),
    },
}


def defaults(section: str) -> Entry:
    """The entry of a section that is not written, or that has one entry alone."""
    return Entry(section, Scalar("", 0, 0), settings([], SETTINGS[section], 0, IGNORED))


def player_entry(section: str, key: Scalar, node: Node) -> Entry:
    """An entry of a player: the handled event, and what it posts, changes or drives."""
    event = judged(values.handled, key, key.line, key.text)
    if section == "event_player":
        return Entry(section, key, {"event": event, "items": judged(values.names, node, key.line, key.text)})
    items = []
    for name, value in judged(mapping_of, node, key.line, key.text):
        word = judged(values.name, name, name.line, name.text)
        if section == "variable_player" and isinstance(value, Scalar):
            number = judged(values.integer(), value, name.line, name.text)
            items.append((word, {"int": number, "action": "add"}))
        elif section == "variable_player":
            items.append((word, inner(value, VARIABLE_ACTION, name.line, name.text, [])))
        elif isinstance(value, Scalar):
            action = judged(COIL_ACTION["action"].read, value, name.line, name.text)
            items.append((word, {"action": action, "pulse_ms": None, "pulse_power": None, "hold_power": None}))
        else:
            items.append((word, inner(value, COIL_ACTION, name.line, name.text, [])))
    return Entry(section, key, {"event": event, "items": items})


def entry(section: str, key: Scalar, node: Node) -> Entry:
    """An entry of a section that is no player."""
    judged(values.name, key, key.line, key.text)
    refused = {"shot_profiles": "default"}.get(section, "playfield" if section in DEVICES else "")
    if key.text == refused:
        raise Fault(6, "BadValue", key.line, key.text)
    written = judged(mapping_of, node, key.line, key.text)
    return Entry(section, key, settings(written, SETTINGS[section], key.line, IGNORED))
