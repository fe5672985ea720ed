"""Draws machines: data of all texts of a bundle, with sections of every kind.

Events are kept in a list, in which each entry handles events further up and posts events further down. So most machines
have no cycle, and things happen in them. A share of the machines posts anything anywhere.
"""
import random
import re
from collections.abc import Callable
from dataclasses import dataclass, field
from typing import Any

from .bundle import MACHINE_TEXT, mode_text
from .layout import Layout, Names
from .plan import GAME_EVENTS, MODE_EVENTS
from .sections import IGNORED, SKIPPED

Data = dict[str, Any]
SIGNS = ["==", "!=", "<", "<=", ">", ">="]
VARIABLES = ["score", "bonus", "x.y", "lanes-lit"]
TIMES = ["50ms", "100", "0.25s", "300 ms", "500ms", "1s", "1.5s", "2s", "3000ms"]


def pick(draw: random.Random, share: float) -> bool:
    return draw.random() < share


@dataclass
class Drawn:
    """A drawn machine. `start` and `balls` are switches that a log should use, the latter by device. `drains` are the
    devices in which a ball ends. `targets` are those to which devices eject, and `playfield` are switches on the
    playfield. A `busy` machine has what balls in play need, and its log plays with them."""

    texts: dict[str, Data] = field(default_factory=dict)
    order: list[str] = field(default_factory=list)  # of the texts in the bundle
    switches: dict[str, bool] = field(default_factory=dict)  # whether closed at rest
    start: str | None = None
    balls: dict[str, list[str]] = field(default_factory=dict)
    drains: list[str] = field(default_factory=list)
    targets: dict[str, str] = field(default_factory=dict)
    playfield: list[str] = field(default_factory=list)
    busy: bool = False
    planted: list[str] = field(default_factory=list)
    versions: dict[str, str] = field(default_factory=dict)  # of texts that have an odd first line
    sizes: dict[str, int] = field(default_factory=dict)  # in bytes, of texts that a comment fills

    def bundle(self, draw: random.Random) -> bytes:
        written = []
        for name in self.order:
            layout = Layout(draw)
            text = layout.text(self.texts[name], self.versions.get(name))
            text = filled(text, self.sizes.get(name, 0))
            at = draw.choice(["@ ", "@ ", "@\t", "@   "]) + name + draw.choice(["", "", " "])
            written.append(f"{at}{layout.ends}{text}" + ("" if text.endswith("\n") else "\n"))
        return "".join(written).encode()


def filled(text: str, size: int) -> str:
    """The text with a comment after it, so that it has so many bytes. A longer text stays as it is."""
    whole = text if text.endswith("\n") else f"{text}\n"
    return whole + "#" * (size - len(whole.encode())) if len(whole.encode()) < size else text


class Drawing:
    """Draws one machine, entry after entry."""

    def __init__(self, draw: random.Random):
        self.draw, self.drawn = draw, Drawn()
        self.machine: Data = {}
        self.modes: dict[str, Data] = {}
        self.events: list[str] = []
        self.reserved = {*GAME_EVENTS} - {"sw_start"}
        self.mark = -1  # the place of the last event that this entry handles
        self.at = "machine"  # whose entry it is
        self.anywhere = draw.choice([0.0] * 12 + [0.02, 0.1])
        self.has_game = pick(draw, 0.65)
        self.drawn.busy = self.has_game and pick(draw, 0.4)
        self.size = draw.choice([4, 8, 12, 18])
        self.coils: dict[str, Data] = {}
        self.profiles: dict[str, int] = {}
        self.free_shots: dict[str, list[tuple[str, str]]] = {}  # by owner: shots in no group, and their profiles
        self.count = 0
        self.names: dict[str, set[str]] = {}  # by section

    def chance(self, share: float) -> bool:
        return self.draw.random() < share

    def name(self, kind: str, section: str = "") -> str:
        """A new name, or one that only other sections have."""
        self.count += 1
        name = f"{kind}{self.draw.choice(['', '', '_', '-', '.'])}{self.count}"
        if self.chance(0.01):
            name = name.ljust(64, self.draw.choice("x_."))
        taken = self.names.setdefault(section, set())
        others = sorted(set().union(*self.names.values()) - taken)
        if section and others and self.chance(0.04):
            name = self.draw.choice(others)
        taken.add(name)
        return name

    # Events

    def add_events(self, *events: str) -> None:
        """At the end of the list. What is too long for a name cannot be handled or posted."""
        self.events += [event for event in events if event not in self.events and len(event) <= 64]

    def condition(self) -> str:
        variable = self.draw.choice([*VARIABLES, "score", "ball", "number"])
        number = self.draw.choice([0, 1, 1, 2, 3, 500, -1, 1_000_000_000])
        blank = self.draw.choice(["", "", " "])
        return f"{{{blank}current_player.{variable}{blank}{self.draw.choice(SIGNS)}{blank}{number}{blank}}}"

    def handled(self) -> str:
        """A handled event, which is often one that a switch posts."""
        near = self.events[: self.near] if self.chance(0.4) else self.events
        if self.at in self.modes and self.chance(0.2):
            near = [f"mode_{self.at}_{what}" for what in ("started", "started", "starting", "stopping")]
        event = self.draw.choice(near or ["never"])
        self.follow(event)
        return event + (self.condition() if self.chance(0.12) else "")

    def follow(self, event: str) -> None:
        """This entry handles this event."""
        if event in self.events:
            self.mark = max(self.mark, self.events.index(event))

    def some(self, least: int, most: int) -> Names:
        return Names(self.handled() for _ in range(self.draw.randint(least, most)))

    def post(self) -> str:
        """An event to post: a new one, or one that is further down than what this entry handles."""
        if self.chance(self.anywhere):
            choice = [event for event in self.events if event not in self.reserved]
        else:
            choice = [event for event in self.events[self.mark + 1 :] if event not in self.reserved]
        if choice and self.chance(0.4):
            return self.draw.choice(choice)
        event = self.draw.choice(["left", "a", "light", "lit_up", "B"]) + str(self.count) + self.draw.choice("xyz")
        if event in self.events[: self.mark + 1]:
            event = self.name("post")
        self.add_events(event)
        return event

    def posts(self, least: int = 0, most: int = 3) -> Names:
        return Names(self.post() for _ in range(self.draw.randint(least, most)))

    # Entries

    def section(self, owner: str, section: str) -> Data:
        text = self.machine if owner == "machine" else self.modes[owner]
        return text.setdefault(section, {})

    def owner(self) -> str:
        """Whose the next entry is."""
        self.at = self.draw.choice(["machine", *self.modes, *self.modes])
        return self.at

    def settle(self, entry: Data, share: float = 0.1) -> Data:
        """The entry with its settings in another order, and with an ignored one in a share of them."""
        if self.chance(share):
            entry[self.draw.choice([key for key in IGNORED if key != "tags"])] = self.draw.choice(["", "7", "a b", {}])
        keys = [*entry]
        if self.chance(0.4):
            self.draw.shuffle(keys)
        return {key: entry[key] for key in keys}

    def optional(self, entry: Data, share: float, **values: Callable[[], Any]) -> None:
        for setting, value in values.items():
            if self.chance(share):
                entry[setting] = value()

    def one(self, *values: str) -> Callable[[], str]:
        return lambda: self.draw.choice(values)

    def switch(self, name: str, tags: list[str]) -> None:
        entry: Data = {"number": str(self.count)}
        self.mark = -1
        self.optional(entry, 0.25, type=self.one("NO", "NC"), debounce=self.one("auto", "quick", "normal", "quick"))
        extra = ["lane", "t1", "lane"] if self.chance(0.2) else []
        if tags or extra:
            entry["tags"] = Names([*tags, *extra][: self.draw.choice([1, 2, 3]) if not tags else 3])
            self.add_events(*(f"sw_{tag}" for tag in entry["tags"]))
        if self.chance(0.2):
            entry["events_when_activated"] = self.posts()
        if self.chance(0.15):
            entry["events_when_deactivated"] = self.posts()
        self.drawn.switches[name] = entry.get("type") == "NC"
        self.section("machine", "switches")[name] = self.settle(entry)

    def switches(self) -> None:
        names = [self.name(self.draw.choice(["s_", "lane", "S"]), "switches") for _ in range(self.draw.randint(1, 6))]
        counts = [4, 5, 6, 8] if self.drawn.busy else [0, 0, 2, 3, 4, 6]
        self.balls = [self.name("b", "switches") for _ in range(self.draw.choice(counts))]
        self.add_events(*(f"{name}_active" for name in names))
        self.near = len(self.events)
        if self.chance(0.8):
            self.add_events(*(f"{name}_inactive" for name in names))
        self.add_events(*(f"{name}_active" for name in self.balls))
        for name in names:
            tags = []
            if self.has_game and self.drawn.start is None and self.chance(0.9):
                self.drawn.start, tags = name, ["start"]
            elif self.chance(0.25):
                tags = ["playfield_active"]
                self.drawn.playfield.append(name)
            self.switch(name, tags)
        for name in self.balls:
            self.switch(name, [])
        self.others = names

    def coil(self) -> str:
        name = self.name("c", "coils")
        entry: Data = {"number": "1"}
        self.optional(entry, 0.5, default_pulse_ms=self.one("10", "20ms", "30", "0.04s"))
        self.optional(entry, 0.3, default_pulse_power=self.one("0.5", "50%", "0.25", "1"))
        self.optional(entry, 0.5, allow_enable=self.one("yes", "no", "True", "on", "OFF"))
        self.optional(entry, 0.3, default_hold_power=self.one("0.2", "12.5%", "0.125", "0.0"))
        if self.chance(0.3):
            entry["max_pulse_ms"] = self.draw.choice(["40", "50ms", "5000", "5s"])
        if self.chance(0.3):
            entry["max_hold_power"] = self.draw.choice(["0.3", "75%", "1.0"])
        if "default_pulse_power" in entry and self.chance(0.3):
            entry["max_pulse_power"] = self.draw.choice(["1.0", "100%"])
        self.coils[name] = entry
        self.section("machine", "coils")[name] = self.settle(entry)
        return name

    def may_hold(self, name: str) -> bool:
        entry = self.coils[name]
        return entry.get("allow_enable") in ("yes", "True", "on") or entry.get("default_hold_power", "0.0") != "0.0"

    def some_coil(self) -> str:
        return self.draw.choice([*self.coils]) if self.coils and self.chance(0.8) else self.coil()

    def holding_coil(self) -> str | None:
        return self.draw.choice([name for name in self.coils if self.may_hold(name)] or [None])

    def event_player(self) -> None:
        owner, event = self.owner(), self.handled()
        self.section(owner, "event_player")[event] = self.posts()

    def dear_event(self) -> None:
        """One event that posts much. So the bound says what may post it."""
        of_balls = [event for event in self.events if event.startswith("balldevice_")]
        # What a drained ball may lead to; without a game, the alarm of a ball save.
        wanted = "(ball_save|multiball)_.*_(saving_ball|ended)" if self.has_game else "ball_save_.*_disabled"
        of_saves = [event for event in self.events if re.fullmatch(wanted, event)]
        event = self.draw.choice(of_balls if of_balls and self.chance(0.4) else self.events)
        if of_saves and self.chance(0.7 if self.has_game else 0.95):
            event = self.draw.choice(of_saves)
        self.section(self.owner(), "event_player")[event] = Names(["much"] * self.draw.choice([20, 50, 100]))

    def start_again(self) -> None:
        """The end of a ball, a turn or a game presses the start button."""
        event = self.draw.choice(GAME_EVENTS[GAME_EVENTS.index("ball_drain") :])
        self.section("machine", "event_player").setdefault(event, Names()).append("sw_start")

    def variable_player(self) -> None:
        owner, event = self.owner(), self.handled()
        free = [name for name in VARIABLES if f"player_{name}" not in self.events[: self.mark + 1]]
        changes: Data = {}
        for variable in self.draw.sample(free, min(len(free), self.draw.randint(0, 2))):
            number = str(self.draw.choice([0, 1, 10, 500, -20, 1_000_000_000]))
            changes[variable] = number
            if self.chance(0.4):
                changes[variable] = {"int": number}
                self.optional(changes[variable], 0.7, action=self.one("add", "set", "set"))
            self.add_events(f"player_{variable}")
        self.section(owner, "variable_player")[event] = changes

    def coil_player(self) -> None:
        owner, event = self.owner(), self.handled()
        drives: Data = {}
        for _ in range(self.draw.randint(0, 3)):
            name = self.some_coil()
            actions = ["pulse", "pulse", "disable"] + ["enable"] * 3 * self.may_hold(name)
            action = self.draw.choice(actions)
            drives[name] = action
            if self.chance(0.4):
                drives[name] = {"action": action}
                self.optional(drives[name], 0.3, pulse_ms=self.one("5", "10ms"), pulse_power=self.one("0.2", "25%"))
                if self.may_hold(name):
                    self.optional(drives[name], 0.3, hold_power=self.one("0.1", "5%"))
        self.section(owner, "coil_player")[event] = drives

    def hold_in_mode(self) -> None:
        """A coil that a mode holds from its start on."""
        mode, coil = self.draw.choice([*self.modes, None]), self.holding_coil()
        if mode and coil:
            for what in self.draw.choice([["started"], ["started", "stopping"]]):
                self.section(mode, "coil_player").setdefault(f"mode_{mode}_{what}", {})[coil] = "enable"

    def block(self, entry: Data) -> Data:
        answers = self.one("yes", "no", "no", "false")
        self.optional(entry, 0.35, reset_on_complete=answers, disable_on_complete=answers)
        self.optional(entry, 0.25, persist_state=self.one("yes", "yes", "no"))
        self.optional(entry, 0.2, enable_events=lambda: self.some(0, 2), disable_events=lambda: self.some(0, 2))
        self.optional(entry, 0.2, reset_events=lambda: self.some(0, 2), restart_events=lambda: self.some(0, 2))
        self.optional(entry, 0.15, events_when_hit=self.posts, events_when_complete=self.posts)
        return self.settle(entry)

    def block_events(self, name: str) -> None:
        self.add_events(*(f"logicblock_{name}_{what}" for what in ("updated", "hit", "complete")))

    def counter(self) -> None:
        owner, name = self.owner(), self.name(self.draw.choice(["c", "count"]), "counters")
        entry: Data = {"count_events": self.some(1, 2)}
        if self.chance(0.8):
            entry["count_complete_value"] = self.draw.choice(["1", "2", "3", "-2", "0"])
        self.optional(entry, 0.3, starting_count=self.one("1", "-1", "5"), count_interval=self.one("1", "2", "1000000"))
        self.optional(entry, 0.25, direction=self.one("up", "down", "down"), multiple_hit_window=self.one("100", "1s"))
        self.section(owner, "counters")[name] = self.block(entry)
        self.block_events(name)

    def steps(self, section: str) -> None:
        owner, name = self.owner(), self.name(self.draw.choice(["q", "lit"]), section)
        steps = [self.some(1, 2) for _ in range(self.draw.choice([0, 1, 2, 2, 3, 3]))]
        self.section(owner, section)[name] = self.block({"events": steps})
        self.block_events(name)

    def timer(self) -> None:
        if not self.modes:
            self.mode()
        owner, name = self.draw.choice([*self.modes]), self.name("t", "timers")
        self.at = owner
        entry: Data = {}
        self.optional(entry, 0.7, tick_interval=lambda: self.draw.choice(TIMES))
        self.optional(entry, 0.6, start_running=self.one("yes", "no", "yes"))
        self.optional(entry, 0.3, restart_on_complete=self.one("yes", "no", "yes"))
        if self.chance(0.7):
            entry["end_value"] = str(self.draw.randint(1, 5))
        if self.chance(0.3):
            entry |= {"direction": "down", "start_value": str(self.draw.randint(6, 9))}
        if self.chance(0.6):
            entry["control_events"] = [self.control() for _ in range(self.draw.randint(0, 5))]
        self.section(owner, "timers")[name] = self.settle(entry)
        self.add_events(*(f"timer_{name}_{what}" for what in ("started", "stopped", "paused", "tick", "complete")))

    def control(self) -> Data:
        action = self.draw.choice("start start stop stop pause pause reset restart add add subtract jump".split())
        event = self.handled() if self.chance(0.5) else self.draw.choice(self.events[: self.near] or ["never"])
        self.follow(event)
        entry: Data = {"event": event, "action": action}
        self.optional(entry, 0.6, value=self.one("0", "1", "2", "9", "-3"))
        return self.settle(entry, 0)

    def rules(self, entry: Data) -> Data:
        self.optional(entry, 0.75, enable_events=lambda: self.some(1, 2))
        self.optional(entry, 0.25, disable_events=lambda: self.some(0, 2))
        return self.settle(entry)

    def flipper(self) -> None:
        entry: Data = {"activation_switch": self.draw.choice(self.others), "main_coil": self.some_coil()}
        hold = self.holding_coil()
        if hold and self.chance(0.6):
            entry["hold_coil"] = hold
        self.section("machine", "flippers")[self.name("f", "flippers")] = self.rules(entry)

    def autofire(self) -> None:
        entry: Data = {"switch": self.draw.choice(self.others), "coil": self.some_coil()}
        self.section("machine", "autofire_coils")[self.name("af", "autofire_coils")] = self.rules(entry)

    def profile(self) -> None:
        name = self.name("p", "shot_profiles")
        count = self.draw.choice([1, 2, 2, 3])
        entry: Data = {"states": [{"name": f"{letter}{self.count}"} for letter in "abc"[:count]]}
        self.optional(entry, 0.4, loop=self.one("yes", "no", "yes"), advance_on_hit=self.one("yes", "yes", "no"))
        if self.chance(0.3):
            entry["states"][0]["show"] = self.draw.choice(["on", "", {}])
        self.section(self.owner(), "shot_profiles")[name] = self.settle(entry)
        self.profiles[name] = count

    def shot(self, owner: str = "", profile: str = "") -> tuple[str, str]:
        owner, name = owner or self.owner(), self.name("x", "shots")
        entry: Data = {}
        if not profile and self.chance(0.4):
            if self.chance(0.5) or not self.profiles:
                self.profile()
            profile = self.draw.choice([*self.profiles])
        if profile and profile != "default":
            entry["profile"] = profile
        if self.chance(0.8):
            entry["switch"] = self.draw.choice(self.others)
            self.follow(f"{entry['switch']}_active")
        self.optional(entry, 0.3, hit_events=lambda: self.some(0, 2), advance_events=lambda: self.some(0, 2))
        self.optional(entry, 0.15, reset_events=lambda: self.some(0, 2))
        self.optional(entry, 0.15, enable_events=lambda: self.some(0, 2), disable_events=lambda: self.some(0, 2))
        self.section(owner, "shots")[name] = self.settle(entry)
        self.free_shots.setdefault(owner, []).append((name, profile or "default"))
        self.add_events(f"{name}_hit")
        return name, profile or "default"

    def group(self) -> None:
        owner, name = self.owner(), self.name("g", "shot_groups")
        free = self.free_shots.setdefault(owner, [])
        first = free[0] if free and self.chance(0.7) else self.shot(owner)
        members = [shot for shot in free if shot[1] == first[1]][:4]
        while len(members) < 4 and self.chance(0.75):
            members.append(self.shot(owner, first[1]))
        self.draw.shuffle(members)
        self.free_shots[owner] = [shot for shot in free if shot not in members]
        entry: Data = {"shots": Names(shot for shot, _ in members)}
        self.optional(entry, 0.4, rotate_events=lambda: self.some(0, 2), rotate_left_events=lambda: self.some(0, 2))
        self.optional(entry, 0.3, rotate_right_events=lambda: self.some(0, 2), reset_events=lambda: self.some(0, 2))
        section = self.section(owner, "shot_groups")
        section[name] = self.settle(entry)
        self.add_events(f"{name}_hit", f"{name}_complete", f"{name}_lit_complete")

    def room(self, is_first: bool) -> tuple[int, float]:
        """For how many balls a device has room, and the share of its tags. A busy machine has a plunger first."""
        if self.drawn.busy:
            return (1, 0.1) if is_first else (3, 0.85)
        return self.draw.choice([1, 1, 2, 3]), 0.6

    def ball_devices(self) -> None:
        """One to three devices, each with ball switches of its own, and each ejecting to one before it."""
        free, names = [*self.balls], ["playfield"]
        section = self.section("machine", "ball_devices") if free else {}
        while free and len(names) < 4:
            room, share = self.room(len(names) == 1)
            taken = [free.pop(0) for _ in range(min(len(free), room))]
            name = self.name(self.draw.choice(["plunger", "trough", "lock"]), "ball_devices")
            tags = [tag for tag in ("trough", "home", "drain") if self.chance(share)]
            entry: Data = {"ball_switches": Names(taken)}
            if self.chance(0.8) or "trough" in tags:
                entry["eject_coil"] = self.some_coil()
            if "eject_coil" not in entry or self.chance(0.15):
                entry["mechanical_eject"] = "yes"
            if tags:
                entry["tags"] = Names(tags)
            target = self.draw.choice(names)
            if target != "playfield" or self.chance(0.1):
                entry["eject_targets"] = target
            self.optional(entry, 0.4, eject_timeouts=self.one("2s", "5s", "1000"))
            self.optional(entry, 0.25, entrance_count_delay=self.one("1", "100", "0.5s"))
            self.optional(entry, 0.25, exit_count_delay=self.one("1", "200"))
            self.optional(entry, 0.5, max_eject_attempts=self.one("0", "1", "1", "2", "3"))
            section[name] = self.settle(entry)
            names.append(name)
            self.drawn.balls[name], self.drawn.targets[name] = taken, target
            if "drain" in tags:
                self.drawn.drains.append(name)
            whats = "ball_enter ball_eject_attempt ejecting_ball ball_eject_success ball_eject_failed".split()
            self.add_events(*(f"balldevice_{name}_{what}" for what in whats))

    def trigger(self, owner: str) -> str:
        """An event for a device of this owner, often one that comes early in each ball or mode."""
        event = "ball_started" if owner == "machine" else f"mode_{owner}_started"
        if event in self.events and self.chance(0.5):
            self.follow(event)
            return event
        return self.handled()

    def start(self, owner: str) -> str:
        """An event for a multiball. Mostly one that a switch posts, as a trough never leads to that."""
        if self.chance(0.2 if owner == "machine" else 0.4):
            return self.trigger(owner)
        event = self.draw.choice(self.events[: self.near] or ["never"])
        self.follow(event)
        return event + (self.condition() if self.chance(0.08) else "")

    def balls_in_play(self) -> None:
        """Some ball saves and multiballs, of the machine and of modes."""
        for _ in range(self.draw.choice([0, 1, 2])):
            self.mark, self.at = -1, "machine"
            self.mode()
        for _ in range(self.draw.choice([2, 3, 4])):
            self.save_or_multiball()

    def save_or_multiball(self) -> None:
        self.mark = -1
        self.draw.choice([self.ball_save, self.multiball])()

    def ball_save(self) -> None:
        owner, name = self.owner(), self.name("bs", "ball_saves")
        entry: Data = {}
        self.optional(entry, 0.6, active_time=self.one("0", "200", "1s", "2s", "5s", "20000ms", "5m"))
        self.optional(entry, 0.6, balls_to_save=self.one("1", "2", "2", "2", "3", "99"))
        if self.chance(0.95):
            entry["enable_events"] = Names(self.trigger(owner) for _ in range(self.draw.choice([0, 1, 1, 1, 2, 2])))
        self.optional(entry, 0.3, disable_events=lambda: self.some(0, 2))
        self.section(owner, "ball_saves")[name] = self.settle(entry)
        self.add_events(*(f"ball_save_{name}_{what}" for what in ("enabled", "disabled", "saving_ball")))

    def multiball(self) -> None:
        owner, name = self.owner(), self.name("mb", "multiballs")
        entry: Data = {"ball_count": self.draw.choice(["2", "2", "2", "3", "3", "4", "99"])}
        if self.chance(0.95):
            entry["start_events"] = Names(self.start(owner) for _ in range(self.draw.choice([0, 1, 1, 2, 2, 3])))
        self.section(owner, "multiballs")[name] = self.settle(entry)
        self.add_events(*(f"multiball_{name}_{what}" for what in ("started", "ended")))

    def mode(self) -> None:
        name = self.name("m", "modes")
        events = [f"mode_{name}_{what}" for what in MODE_EVENTS]
        self.modes[name] = {}
        entry: Data = {}
        if self.chance(0.9):
            entry["start_events"] = self.some(1, 2)
        self.mark = -1
        self.add_events(*events)
        self.reserved |= {*events}
        if self.chance(0.8):
            stops = self.some(1, 2) if self.chance(0.7) else Names([self.draw.choice(events[:3])])
            entry["stop_events"] = Names(stop for stop in stops if stop.split("{")[0] not in events[3:])
        self.optional(entry, 0.5, priority=lambda: str(self.draw.choice([0, 1, 50, 100, 100, 200, 1_000_000])))
        self.optional(entry, 0.75 if self.has_game else 0.95, game_mode=self.one("no", "no", "no", "yes"))
        self.optional(entry, 0.4, stop_on_ball_end=self.one("no", "yes"))
        if self.chance(0.05):
            entry["use_wait_queue"] = "no"
        if entry or self.chance(0.5):
            self.modes[name]["mode"] = self.settle(entry)

    def holder(self) -> None:
        """A mode that holds the end of the ball, up to the end of its timer, another event, or without end."""
        name = self.name("h", "modes")
        will_start, starting, started, stopping, stopped = (f"mode_{name}_{what}" for what in MODE_EVENTS)
        timer = self.name("t", "timers")
        ticks = [f"timer_{timer}_{what}" for what in ("started", "tick", "complete")]
        # All this comes before the end of the ball, for which it leads to that end.
        own = [will_start, starting, started, *ticks, stopping, stopped]
        end = self.events.index("ball_ended") if "ball_ended" in self.events else len(self.events)
        self.events[end:end] = own
        self.reserved |= {*own} - {*ticks}
        starts = ["ball_ending" + (self.condition() if self.chance(0.25) else "")]
        if self.chance(0.2):
            starts.append("ball_ending" + (self.condition() if self.chance(0.5) else ""))
        entry: Data = {"start_events": Names(starts), "use_wait_queue": self.draw.choice(["yes", "yes", "true", "on"])}
        stops = [ticks[-1]] * 4 + [will_start, starting, started, "ball_ending", *self.events[: self.near]]
        entry["stop_events"] = Names(self.draw.choice(stops) for _ in range(self.draw.choice([0, 1, 1, 1, 2])))
        self.optional(entry, 0.5, priority=lambda: str(self.draw.choice([0, 1, 100, 200])))
        self.optional(entry, 0.3, game_mode=self.one("no", "yes"), stop_on_ball_end=self.one("no", "yes"))
        timing = {"start_running": "yes", "end_value": str(self.draw.randint(1, 3))}
        timing["tick_interval"] = self.draw.choice(TIMES[:4])
        self.modes[name] = {"mode": self.settle(entry), "timers": {timer: self.settle(timing)}}

    # The whole

    def entries(self, whats: list[Callable[[], None]]) -> None:
        """Some entries of these kinds, and some ball saves and multiballs."""
        if self.drawn.busy:
            self.balls_in_play()
        for _ in range(self.draw.randint(self.size // 2, self.size)):
            self.mark, self.at = -1, "machine"
            self.draw.choice(whats)()
            if self.chance(0.1 if self.has_game else 0.25):
                self.save_or_multiball()

    def draw_all(self) -> Drawn:
        self.switches()
        if self.has_game:
            self.add_events(*GAME_EVENTS)
            self.optional(self.section("machine", "game"), 0.5, balls_per_game=self.one("1", "1", "2", "3"))
            self.optional(self.section("machine", "game"), 0.4, max_players=self.one("1", "2", "4"))
        for _ in range(self.draw.choice([0, 1, 2])):
            self.coil()
        self.ball_devices()
        if not self.drawn.balls and self.chance(0.95) or self.chance(0.4):
            self.section("machine", "machine")["min_balls"] = self.draw.choice(["0", "0", "0", "1"])
        for _ in range(self.draw.choice([0, 0, 0, 1, 2]) if self.has_game or self.chance(0.1) else 0):
            self.holder()
        whats = [self.mode, self.event_player, self.event_player, self.variable_player, self.coil_player, self.counter]
        whats += [lambda: self.steps("accruals"), lambda: self.steps("sequences"), self.timer, self.timer, self.timer]
        whats += [self.autofire, self.flipper, self.shot, self.shot, self.group, self.group, self.mode]
        whats += [self.variable_player] * self.has_game
        if self.chance(0.3):
            whats += [self.hold_in_mode]
        if self.chance(0.5):  # more of a few kinds
            whats = [self.mode, self.event_player, *self.draw.sample(whats, 3)]
        self.entries(whats)
        if self.chance(0.6 if self.drawn.busy or not self.has_game else 0.2):
            self.dear_event()
        if self.has_game and self.chance(0.1):
            self.start_again()
        self.finish()
        return self.drawn

    def finish(self) -> None:
        """Puts the texts together, and some scenery."""
        listed = [*self.modes]
        absent = ["attract"] if self.chance(0.08) else []
        listed += absent
        self.draw.shuffle(listed)
        if listed or self.chance(0.1):
            self.machine["modes"] = Names(listed)
        for text in (self.machine, *self.modes.values()):
            while self.chance(0.06):
                text[self.draw.choice(SKIPPED)] = self.draw.choice(["", "a", {"l1": {"number": "1"}}, ["x", {"a": ""}]])
        self.drawn.texts = {MACHINE_TEXT: self.machine} | {mode_text(mode): text for mode, text in self.modes.items()}
        if self.chance(0.06):
            other = self.draw.choice(["modes/old/config/old.yaml", "readme", "config/other.yaml"])
            self.drawn.texts[other] = {"a": "b"}
        for name, text in self.drawn.texts.items():
            self.drawn.texts[name] = self.shuffled(text)
        self.drawn.order = [*self.drawn.texts]
        if self.chance(0.5):
            self.draw.shuffle(self.drawn.order)

    def shuffled(self, text: Data) -> Data:
        """The sections in another order, and the entries of some."""
        found: Data = {}
        for section in self.draw.sample([*text], len(text)):
            value = text[section]
            if type(value) is dict and self.chance(0.3):
                value = {key: value[key] for key in self.draw.sample([*value], len(value))}
            found[section] = value
        return found


def machine(draw: random.Random) -> Drawn:
    return Drawing(draw).draw_all()
