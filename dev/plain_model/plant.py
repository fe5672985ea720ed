"""Plants faults in drawn machines, of every kind that `check` answers."""
import random
from collections.abc import Callable, Iterator
from typing import Any

from . import odd
from .bundle import MACHINE_TEXT, ConfigFault, read_bundle
from .draw import Data, Drawn
from .faults import Faults
from .layout import Names, Raw
from .plan import GAME_EVENTS, LIMITS, Plan
from .sections import MACHINE_ONLY, PLAYERS, SETTINGS
from .values import LIST_LIMIT
from .yaml_text import TEXT_LIMIT

NAMING = {"main_coil", "hold_coil", "coil", "eject_coil", "activation_switch", "switch", "profile", "eject_targets"}
REQUIRED = {"main_coil", "activation_switch", "coil", "switch", "ball_switches", "count_events", "events", "shots"}
REQUIRED |= {"states", "name", "int", "action", "event", "ball_count"}
SWITCH_POSTS = ["events_when_activated", "events_when_deactivated"]
BLOCK_POSTS = ["events_when_hit", "events_when_complete"]
JUNK: list[Any] = ["", "no", "x y", "-1", "0", "@", "5001", "Ä", "{", "a\nb", "\x7f"]
JUNK += [Names(), ["a", ["b"]], ["a", ""], {}, {"a": "b"}, [{"name": "a"}], [{}]]
JUNK += [["a"] * 17, ["a"] * 1_024, ["a"] * 1_025, ["a"] * 1_025, ["a"] * 1_025]
BAD_NAMES = ["playfield", "default", "a b", "", "a/b", "x" * 65, "a\\b", "a{b}", 'a"b', "ä", "a\x01", "a'b", "-"]
BAD_SECTIONS = ["coil", "timers", "mode", "modes", "ball_saves", "multiballs", "", "game", "ball_devices", "a\nb"]
SAVE_ACTS = [("ball_saves", "enable_events", "enabled"), ("ball_saves", "disable_events", "disabled")]
SAVE_ACTS += [("multiballs", "start_events", "started")] * 2
VERSIONS = ["#config_version=5", "# config_version=6", " #config_version=6", "#config_version=6 #", ""]
BAD_SETTINGS = ["nope", "", "Number", "tag", "switch", "a\tb", "value", "show", "use_wait_queue"]


class Planter:
    """Changes the data of a drawn machine."""

    def __init__(self, draw: random.Random, drawn: Drawn):
        self.draw, self.drawn = draw, drawn

    def chance(self, share: float) -> bool:
        return self.draw.random() < share

    def entries(self, *sections: str) -> list[tuple[Data, str]]:
        """The sections of these names, each with the name of an entry."""
        texts = self.drawn.texts.values()
        found = [text[section] for text in texts for section in sections if isinstance(text.get(section), dict)]
        return [(section, name) for section in found for name in section]

    def one(self, *sections: str, wanted: Callable[[Any], bool] = lambda value: isinstance(value, dict)) -> Any:
        """Some entry of these sections, or None."""
        found = [section[name] for section, name in self.entries(*sections) if wanted(section[name])]
        return self.draw.choice(found) if found else None

    def machine(self, section: str) -> Data:
        return self.drawn.texts[MACHINE_TEXT].setdefault(section, {})

    def anywhere(self, section: str, modes: bool = False) -> Data:
        """This section of some text; of a mode's text if there is one and it has to be."""
        names = [name for name in self.drawn.texts if name.endswith(".yaml")]
        names = [name for name in names if modes and name != MACHINE_TEXT] or names
        found = self.drawn.texts[self.draw.choice(names)].setdefault(section, {})
        return found if isinstance(found, dict) else {}

    def event(self) -> str:
        return self.draw.choice([f"{switch}_active" for switch in self.drawn.switches] or ["a"])

    def coil(self) -> tuple[str, Data]:
        """A coil, perhaps a new one."""
        coils = self.machine("coils")
        name = self.draw.choice([*coils, "weak"])
        return name, coils.setdefault(name, {})

    def drive(self, name: str, action: Any) -> None:
        self.anywhere("coil_player").setdefault(self.event(), {})[name] = action

    # Faults 1 to 6

    def wrong_name(self) -> None:
        entries = [entry for section, name in self.entries(*SETTINGS) if isinstance(entry := section[name], dict)]
        places = [(entry, setting) for entry in entries for setting in sorted(NAMING & entry.keys())]
        if places and self.chance(0.7):
            entry, setting = self.draw.choice(places)
            entry[setting] = "nowhere"
        else:
            self.drive("nowhere", self.draw.choice(["pulse", "enable", {"action": "enable", "pulse_ms": "99"}]))

    def unknown_member(self) -> None:
        entry = self.one("ball_devices", "shot_groups") or {}
        more = self.draw.choice([["nowhere"], ["nowhere", "nowhere"], ["playfield"]])
        for setting in sorted({"ball_switches", "shots"} & entry.keys()):
            entry[setting] = Names([*entry[setting], *more])
            self.draw.shuffle(entry[setting])

    def reserved_post(self) -> None:
        modes = [mode for mode in self.drawn.texts[MACHINE_TEXT].get("modes", []) if isinstance(mode, str)]
        events = GAME_EVENTS + [f"mode_{mode}_{what}" for mode in modes for what in ("started", "stopped", "will_stop")]
        event = self.draw.choice(events)
        switch, block = self.one("switches"), self.one("counters", "accruals", "sequences")
        if switch is not None and self.chance(0.3):
            switch[self.draw.choice(SWITCH_POSTS)] = Names([event, "a", event])
        elif block is not None and self.chance(0.5):
            block[self.draw.choice(BLOCK_POSTS)] = Names(["a", event])
        else:
            self.anywhere("event_player").setdefault(self.event(), Names()).insert(0, event)

    def reserved_variable(self) -> None:
        variable = self.draw.choice(["ball", "number", "added", "turn_will_start", "turn_ended", "added"])
        self.anywhere("variable_player").setdefault(self.event(), {})[variable] = self.draw.choice(["1", {"int": "0"}])

    def group(self) -> None:
        """A shot twice in a group, in two, of another owner, or of another profile."""
        entry, shots = self.one("shot_groups"), [name for _, name in self.entries("shots")]
        if entry and shots and self.chance(0.6):
            entry["shots"] = Names([*entry["shots"], self.draw.choice([*shots, *entry["shots"]])])
        elif shots:
            self.anywhere("shot_groups")["planted"] = {"shots": Names([self.draw.choice(shots)])}
        if shots and self.chance(0.3):
            self.machine("shot_profiles").setdefault("planted", {"states": [{"name": "a"}]})
            self.one("shots")["profile"] = "planted"

    def pulse(self) -> None:
        name, coil = self.coil()
        if self.chance(0.6):
            coil["max_pulse_ms"] = self.draw.choice(["30", "0.02s"])
            action = self.draw.choice(["pulse", "disable"])
            self.drive(name, {"action": action, "pulse_ms": self.draw.choice(["31", "5s", "20"])})
        else:
            coil |= {"max_pulse_ms": "5", "default_pulse_ms": self.draw.choice(["6", "5"])}

    def power(self) -> None:
        name, coil = self.coil()
        powers = {"pulse_power": "0.9", "hold_power": "0.95"}
        if self.chance(0.6):
            coil["max_pulse_power"] = self.draw.choice(["0.8", "0.9"])
            chosen = self.draw.sample([*powers], self.draw.randint(1, 2))
            self.drive(name, {"action": "pulse"} | {setting: powers[setting] for setting in chosen})
        else:
            hold = {"max_hold_power": "0.1", "default_hold_power": "0.5"}
            coil |= self.draw.choice([{"max_pulse_power": "0.1"}, hold])

    def hold(self) -> None:
        flipper, (name, coil) = self.one("flippers"), self.coil()
        if self.chance(0.7):
            coil.pop("allow_enable", None)
            coil.pop("default_hold_power", None)
        if flipper and self.chance(0.4):
            flipper["hold_coil"] = name
        else:
            self.drive(name, self.draw.choice(["enable", {"action": "enable"}]))

    def timer(self) -> None:
        ends = [{"direction": "down"}, {"start_value": "5", "end_value": "5"}, {"end_value": "-1"}]
        ends += [{"direction": "down", "start_value": "0"}, {"direction": "down", "start_value": "1"}]
        timers = self.anywhere("timers", modes=True)
        timers.setdefault(self.draw.choice([*timers, "planted"]), {}).update(self.draw.choice(ends))

    def route(self) -> None:
        devices = self.machine("ball_devices")
        if not devices:
            devices["planted"] = {}
        for entry in devices.values():
            entry.setdefault("ball_switches", Names())
        one, other = (devices[self.draw.choice([*devices])] for _ in range(2))
        kind = self.draw.randrange(5)
        if kind == 0:
            one["eject_targets"] = self.draw.choice([*devices, "nowhere"])
        elif kind == 1:
            one["ball_switches"] = Names([*one["ball_switches"], *other["ball_switches"]])
        elif kind == 2:
            one.pop("eject_coil", None)
        elif kind == 3:
            one.pop("eject_coil", None)
            one["mechanical_eject"] = "no"
        else:
            one["tags"] = Names(["trough"])
            if self.chance(0.6):
                one.pop("eject_coil", None)
                one["mechanical_eject"] = "yes"

    # Ball saves and multiballs

    def save(self, section: str) -> tuple[str, Data]:
        """A ball save or a multiball, perhaps a new one: its name, and its entry."""
        found = self.entries(section) or [(self.anywhere(section), "planted")]
        entries, name = self.draw.choice(found)
        return name, entries.setdefault(name, {"ball_count": "2"} if section == "multiballs" else {})

    def save_cycle(self) -> None:
        """What enables, disables or starts a ball save or a multiball leads to itself, perhaps by way of the trough."""
        section, setting, posted = self.draw.choice(SAVE_ACTS)
        name, entry = self.save(section)
        event, troughs = self.event(), self.troughs()
        entry[setting] = Names([*entry.get(setting, []), event])
        last = f"{section.removesuffix('s')}_{name}_{posted}"
        if section == "multiballs" and troughs and self.chance(0.5):
            last = f"balldevice_{troughs[0]}_ball_eject_attempt"
        player = self.anywhere("event_player")
        player[last] = Names([*player.get(last, []), event])

    def troughs(self) -> list[str]:
        devices = self.machine("ball_devices")
        return [device for device in devices if "trough" in devices[device].get("tags", [])]

    # Faults 7 to 9

    def limit(self) -> None:
        """A table at its limit, or one above it."""
        table = self.draw.choices([*LIMITS], [1, 0.5, 5, 5, 5, 1])[0]
        missing = LIMITS[table] + self.draw.choice([0, 1, 1]) - self.counts()[table]
        if table in ("switches", "coils"):
            self.machine(table).update((f"z{number}", "") for number in range(missing))
        elif table == "variables":
            self.anywhere("variable_player")["z"] = {f"z{number}": "1" for number in range(missing)}
        elif table == "rows":
            self.machine("sequences").update((f"z{number}", {"events": ""}) for number in range(missing))
        else:
            self.many_events(table, missing)

    def counts(self) -> dict[str, int]:
        """What each table has by now, or about that if faults are planted already."""
        try:
            config = read_bundle(self.drawn.bundle(random.Random(0)))
        except ConfigFault:
            return dict.fromkeys(LIMITS, 10)
        return dict.fromkeys(LIMITS, 10) if Faults(config).lines() else Plan(config).counts()

    def many_events(self, table: str, missing: int) -> None:
        """So many events, or bindings of one event, in lists that are as long as they may be."""
        for part in range(missing // LIST_LIMIT + 1):
            count = min(LIST_LIMIT, missing - part * LIST_LIMIT)
            if table == "bindings":
                self.machine("shots")[f"z{part}"] = {"reset_events": Names(["z"] * count)}
            elif count > 0:  # (the event of the entry is one of them)
                names = Names(f"z{part * LIST_LIMIT + number}" for number in range(1, count))
                self.anywhere("event_player")[f"z{part * LIST_LIMIT}"] = names

    def cycle(self) -> None:
        """Two events that post each other, or one that posts itself."""
        section = self.anywhere("event_player")
        handled = self.draw.choice([*section, self.event()])
        first = handled.split("{")[0]
        posted = self.draw.choice([first, self.event(), "around"])
        section[handled] = Names([*(section.get(handled) or []), posted])
        if posted != first:
            other = self.anywhere("event_player")
            other[posted] = Names([*(other.get(posted) or []), first])

    def bound(self) -> None:
        """A chain that fans out, to a weight or a bound about the limit."""
        section = self.anywhere("event_player")
        width, steps = self.draw.choice([(10, 5), (10, 5), (9, 5), (17, 4), (46, 3), (46, 3), (316, 2)])
        for step in range(steps):
            section[f"fan{step}"] = Names([f"fan{step + 1}"] * width)
        if width == 46:  # with 501 more, the first of them weighs the limit
            section["fan0"] += [f"fan{steps}"] * self.draw.choice([0, 499, 500, 501, 502])
        if self.chance(0.5):
            self.anywhere("event_player")[self.event()] = Names(["fan0"])

    # Errors

    def section(self) -> None:
        text = self.draw.choice([*self.drawn.texts.values()])
        text[self.draw.choice(BAD_SECTIONS)] = self.draw.choice(["", {}, {"a": ""}, "a", []])

    def setting(self) -> None:
        entry = self.one(*SETTINGS)
        if entry is not None:
            entry[self.draw.choice(BAD_SETTINGS)] = "1"

    def inner_setting(self) -> None:
        for entry, setting in self.places():
            if isinstance(entry[setting], dict) and entry[setting] and self.chance(0.5):
                entry[setting][self.draw.choice(["number", "nope", "int", "action"])] = self.draw.choice(["1", "pulse"])
                return

    def places(self) -> Iterator[tuple[Any, Any]]:
        """All containers with their keys, in some order."""
        found: list[tuple[Any, Any]] = []
        waiting: list[Any] = [*self.drawn.texts.values()]
        while waiting:
            data = waiting.pop()
            for key in data if isinstance(data, dict) else range(len(data)):
                found.append((data, key))
                if not isinstance(data[key], str):
                    waiting.append(data[key])
        yield from self.draw.sample(found, len(found))

    def junk(self) -> None:
        """Something else in place of a value."""
        data, key = next(self.places(), (None, None))
        if data is not None:
            data[key] = self.draw.choice(JUNK if self.chance(0.5) else odd.VALUES)

    def missing(self) -> None:
        for data, key in self.places():
            if isinstance(data, dict) and key in REQUIRED:
                del data[key]
                return

    def long_list(self) -> None:
        """A list that is as long as it may be, or longer."""
        items = Names(["a"] * self.draw.choice([1_024, 1_025, 1_025]))
        entry, setting = self.draw.choice(
            [
                (self.anywhere("event_player"), self.event()),
                (self.one("counters", "accruals", "sequences") or {}, "enable_events"),
                (self.one("switches") or {}, "tags"),
                (self.one("ball_devices") or {}, "ball_switches"),
                (self.one("shot_groups") or {}, "shots"),
            ]
        )
        entry[setting] = items

    def twice(self) -> None:
        """An entry in two texts."""
        sections = [section for section in SETTINGS if section not in (*MACHINE_ONLY, "mode")]
        found = [(section, entries, name) for section in sections for entries, name in self.entries(section)]
        if found:
            section, entries, name = self.draw.choice(found)
            others = [text for text in self.drawn.texts.values() if text.get(section) is not entries]
            other = self.draw.choice(others or [{}]).setdefault(section, {})
            if isinstance(other, dict):
                other.setdefault(name, self.draw.choice([entries[name], entries[name], "", {"label": "a"}]))

    def bad_name(self) -> None:
        found = self.entries(*SETTINGS, *PLAYERS)
        if found:
            section, name = self.draw.choice(found)
            section[self.draw.choice(BAD_NAMES)] = section.pop(name)

    def modes(self) -> None:
        modes = self.drawn.texts[MACHINE_TEXT].get("modes", Names())
        if isinstance(modes, list):
            many = [f"z{number}" for number in range(64)]
            new = self.draw.choice([["machine"], [*modes][:1], ["a b"], ["absent"], many, many, [""]])
            self.drawn.texts[MACHINE_TEXT]["modes"] = Names([*modes, *new])

    def wait_queue(self) -> None:
        """A mode that holds the end of the ball, or not, and that starts at other events too, or at none."""
        mode = self.anywhere("mode", modes=True)
        mode["use_wait_queue"] = self.draw.choice(["yes", "yes", "no"])
        starts = [["ball_ending"], ["ball_ending", self.event()], [self.event()], ["ball_ended"], [], None]
        chosen = self.draw.choice(starts)
        if chosen is not None:
            mode["start_events"] = Names(chosen)
        elif self.chance(0.5):
            mode.pop("start_events", None)

    def depth(self) -> None:
        """What is as deep as a text may be, or deeper; or a key as long as it may be, or longer."""
        kind, text = self.draw.randrange(3), self.draw.choice([*self.drawn.texts.values()])
        data: Any = "a"
        if kind == 0:
            for _ in range(self.draw.randint(28, 33)):
                data = {"a": data} if self.chance(0.8) else [data]
        elif kind == 1:
            depth = self.draw.randint(7, 10)
            data = Raw("[" * depth + "a" + "]" * depth)
        else:
            data = {"k" * self.draw.choice([1_021, 1_022, 1_024, 1_025, 1_026]): "a", "b": ""}
        text[self.draw.choice(["lights", "shows"])] = data

    def size(self) -> None:
        """A text that is as long as it may be, or a byte longer."""
        self.drawn.sizes[self.draw.choice(self.drawn.order)] = TEXT_LIMIT + self.draw.choice([0, 1, 1])

    def version(self) -> None:
        """Another first line."""
        self.drawn.versions[self.draw.choice(self.drawn.order)] = self.draw.choice(VERSIONS)

    def texts(self) -> None:
        """A text twice, a text less, or one of a mode that is not listed."""
        kind, name = self.draw.randrange(3), self.draw.choice(self.drawn.order)
        if kind == 0:
            self.drawn.order.append(name)
        elif kind == 1:
            self.drawn.order.remove(name)
        else:
            self.drawn.order.append("modes/nowhere/config/nowhere.yaml")
            self.drawn.texts["modes/nowhere/config/nowhere.yaml"] = {"nope": ""}


# In the order in which they are planted: those that leave something else than they found come last.
KINDS = """save_cycle wrong_name unknown_member reserved_post reserved_variable group pulse power hold timer route
    cycle bound limit wait_queue depth size version inner_setting modes texts setting missing long_list twice bad_name
    section junk""".split()
SHARES = {"limit": 2.0, "wait_queue": 0.3, "version": 0.3, "depth": 0.7, "size": 0.3, "texts": 0.4}
SHARES |= {"inner_setting": 0.5, "section": 0.5, "long_list": 0.7, "junk": 1.5, "twice": 2.0, "missing": 1.5}
SHARES |= {"save_cycle": 1.2, "cycle": 1.5, "bound": 3.0, "hold": 1.5, "timer": 1.5, "pulse": 1.5, "route": 1.5}


def plant(draw: random.Random, drawn: Drawn) -> None:
    """Plants one fault or some."""
    planter = Planter(draw, drawn)
    shares = [SHARES.get(kind, 1.0) for kind in KINDS]
    drawn.planted = draw.choices(KINDS, shares, k=draw.choice([1, 1, 1, 1, 2, 3]))
    for kind in sorted(drawn.planted, key=KINDS.index):
        getattr(planter, kind)()
