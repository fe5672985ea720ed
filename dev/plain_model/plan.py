"""The plan of a configuration without faults 1 to 6: names numbered by first use, rows, bindings."""
from dataclasses import dataclass
from typing import Any

from .bundle import Config, Part
from .coils import Coil
from .devices import Accrual, Act, Autofire, BallDevice, Counter, Device, Flipper, Sequence, ShotBank, Timer
from .saves import BallSave, Multiball
from .sections import PLAYERS, Entry
from .values import Condition, Handled

GAME_EVENTS = """sw_start game_will_start game_starting player_added game_started player_turn_will_start
    player_turn_starting player_turn_started ball_will_start ball_starting ball_started ball_drain ball_will_end
    ball_ending ball_ended player_turn_will_end player_turn_ending player_turn_ended game_will_end game_ending
    game_ended""".split()
MODE_EVENTS = ("will_start", "starting", "started", "stopping", "stopped")
LIMITS = {"events": 4_096, "bindings": 16_384, "switches": 256, "coils": 256, "variables": 256, "rows": 1_024}


@dataclass
class Binding:
    """What a handled event does. `target` is a tuple of its kind and what that needs:

    ("post", events), ("change", [(variable, action, number)]), ("drive", [(coil, action, ms, power)]), ("start", mode),
    ("stop", mode) or ("act", device, act).
    """

    event: str
    owner: str
    priority: int
    condition: Condition | None
    target: tuple[Any, ...]


@dataclass
class Switch:
    """A switch, and what its acceptance posts."""

    name: str
    closed_at_rest: bool
    delay: int
    is_on_playfield: bool
    posts: dict[bool, list[str]]


def posts_of(switch: Entry) -> dict[bool, list[str]]:
    tags = [f"sw_{tag.text}" for tag in switch["tags"]]
    activated = [word.text for word in switch["events_when_activated"]]
    deactivated = [word.text for word in switch["events_when_deactivated"]]
    return {True: [f"{switch.name}_active", *tags, *activated], False: [f"{switch.name}_inactive", *deactivated]}


class Plan:
    """The tables in number order. Rows are devices in their initial state."""

    def __init__(self, config: Config):
        self.config, self.has_game = config, config.has_game
        self.tables: dict[str, dict[str, int]] = {table: {} for table in LIMITS}
        self.rows: list[Device] = []
        self.bindings: list[Binding] = []
        self.coils = {name: Coil(entry) for name, entry in config.named("coils").items()}
        self.modes = {part.owner: part for part in config.parts[1:]}
        self.banks: dict[str, tuple[Device, int]] = {}  # of a grouped shot: its bank, and its place in it
        self.profiles = config.named("shot_profiles")
        self.make_groups()
        for part in config.parts:
            self.walk(part)
        self.switches = self.make_switches()

    @property
    def events(self) -> list[str]:
        return [*self.tables["events"]]

    def number(self, table: str, *names: str) -> None:
        for name in names:
            self.tables[table].setdefault(name, len(self.tables[table]))

    def counts(self) -> dict[str, int]:
        """How much each table has."""
        counts = {table: len(names) for table, names in self.tables.items()}
        return counts | {"bindings": len(self.bindings), "rows": len(self.rows)}

    def exceeded(self) -> str | None:
        """The first table that is above its limit."""
        counts = self.counts()
        return next((table for table in LIMITS if counts[table] > LIMITS[table]), None)

    def make_groups(self) -> None:
        shots = self.config.named("shots")
        for part, group in self.config.entries("shot_groups"):
            members = [shots[word.text] for word in group["shots"]]
            bank = ShotBank(part.owner, group, members, self.profiles.get(members[0]["profile"].text))
            for place, member in enumerate(members):
                self.banks[member.name] = bank, place

    def make_switches(self) -> dict[str, Switch]:
        entries = self.config.named("switches")
        quick = {switch for row in self.rows if isinstance(row, Flipper | Autofire) for switch in row.listens}
        found = {}
        for name in self.tables["switches"]:
            entry = entries[name]
            is_quick = entry["debounce"] == "quick" or entry["debounce"] == "auto" and name in quick
            on_playfield = "playfield_active" in [tag.text for tag in entry["tags"]]
            found[name] = Switch(name, entry["type"] == "NC", 0 if is_quick else 5, on_playfield, posts_of(entry))
        return found

    def bind(self, handled: Handled, owner: str, priority: int, target: tuple[Any, ...]) -> None:
        self.number("events", handled.event)
        if handled.condition:
            self.number("variables", handled.condition.variable)
        self.bindings.append(Binding(handled.event, owner, priority, handled.condition, target))

    def walk(self, part: Part) -> None:
        priority = 0
        if part.owner != "machine":
            mode = part.only("mode")
            priority = mode["priority"]
            self.number("events", *(f"mode_{part.owner}_{what}" for what in MODE_EVENTS))
            for handled in mode["start_events"]:
                self.bind(handled, "machine", priority, ("start", part.owner))
            ends = ["ball_ending"] * mode["stop_on_ball_end"] + ["game_ending"] * mode["game_mode"]
            if mode["use_wait_queue"]:
                ends = []
            for handled in [*mode["stop_events"], *(Handled(event, None) for event in ends)]:
                self.bind(handled, "machine", priority, ("stop", part.owner))
        for section, entries in part.sections.items():
            for entry in entries:
                if section in PLAYERS:
                    self.player(entry, part.owner, priority)
                else:
                    self.entry(entry, part.owner, priority)

    def player(self, entry: Entry, owner: str, priority: int) -> None:
        event, items = entry["event"], entry["items"]
        if entry.section == "event_player":
            posted = [word.text for word in items]
            self.bind(event, owner, priority, ("post", posted))
            self.number("events", *posted)
        elif entry.section == "variable_player":
            changes = [(word.text, value["action"], value["int"]) for word, value in items]
            self.bind(event, owner, priority, ("change", changes))
            for variable, *_ in changes:
                self.number("variables", variable)
                self.number("events", f"player_{variable}")
        else:
            self.bind(event, owner, priority, ("drive", [self.drive(word.text, value) for word, value in items]))
            self.number("coils", *(word.text for word, _ in items))

    def drive(self, name: str, value: dict[str, Any]) -> tuple[str, str, int, int]:
        coil = self.coils[name]
        ms = coil.pulse_ms if value["pulse_ms"] is None else value["pulse_ms"]
        holds = value["action"] == "enable"
        power = value["hold_power" if holds else "pulse_power"]
        if power is None:
            power = coil.hold_power if holds else coil.pulse_power
        return name, value["action"], ms, power

    def entry(self, entry: Entry, owner: str, priority: int) -> None:
        """What an entry numbers and binds, in the order of its settings; then what its lists post."""
        section = entry.section
        if section in ("switches", "coils"):
            self.number(section, entry.name)
        if section == "switches":
            posted = posts_of(entry)
            self.number("events", *posted[True], *posted[False])
        if section == "game":
            self.number("events", *GAME_EVENTS)
        device, place = self.device(entry, owner)
        if device is None:
            return
        for event, act in self.acts(entry, place):
            if isinstance(event, Handled):
                self.bind(event, owner, priority, ("act", device, act))
            else:
                self.number(event, act)
        if place is None:
            for effects in device.lists:
                self.number("events", *(target for action, target in effects if action == "post"))
            self.rows.append(device)

    def device(self, entry: Entry, owner: str) -> tuple[Device | None, int | None]:
        """The device of an entry, and the place of the entry in it, if that is a shot of a group."""
        simple = {"counters": Counter, "accruals": Accrual, "sequences": Sequence, "timers": Timer}
        simple |= {"ball_saves": BallSave, "multiballs": Multiball}
        if entry.section in simple:
            return simple[entry.section](owner, entry), None
        if entry.section == "flippers":
            return Flipper(owner, entry, self.coils), None
        if entry.section == "autofire_coils":
            return Autofire(owner, entry), None
        if entry.section == "ball_devices":
            return BallDevice(owner, entry, self.has_game), None
        if entry.section == "shots":
            lone = ShotBank(owner, entry, [entry], self.profiles.get(entry["profile"].text))
            return self.banks.get(entry.name, (lone, None))
        if entry.section == "shot_groups":
            return self.banks[entry["shots"][0].text][0], None
        return None, None

    def acts(self, entry: Entry, place: int | None) -> list[tuple[Any, Any]]:
        """In the order of settings: the handled events, each with its act, and names for a table."""
        if entry.section == "timers":
            controls = entry["control_events"]
            return [(control["event"], timer_act(control)) for control in controls]
        shot = place or 0
        acts: dict[str, Act] = {
            "count_events": ("count",),
            "start_events": ("start",),
            "hit_events": ("hit", shot),
            "rotate_events": ("right",),
            "rotate_right_events": ("right",),
            "rotate_left_events": ("left",),
            "advance_events": ("advance", shot),
            "reset_events": ("reset_all",) if entry.section == "shot_groups" else ("reset", shot),
            "enable_events": ("enable", shot),
            "disable_events": ("disable", shot),
            "restart_events": ("restart",),
        }
        found: list[tuple[Any, Any]] = []
        for setting, value in entry.values.items():
            if setting in acts:
                found += [(handled, acts[setting]) for handled in value]
            elif setting == "events":
                found += [(handled, ("step", step)) for step, events in enumerate(value) for handled in events]
            elif setting in ("events_when_hit", "events_when_complete"):
                found += [("events", word.text) for word in value]
            elif setting in ("main_coil", "hold_coil", "coil", "eject_coil") and value:
                found.append(("coils", value.text))
            elif setting in ("activation_switch", "switch") and value:
                found.append(("switches", value.text))
                if entry.section == "shots":
                    found.append((Handled(f"{value.text}_active", None), ("hit", shot)))
            elif setting == "ball_switches":
                found += [("switches", word.text) for word in value]
        return found


def timer_act(control: dict[str, Any]) -> Act:
    valued = control["action"] in ("add", "subtract", "jump")
    return (control["action"], control["value"]) if valued else (control["action"],)
