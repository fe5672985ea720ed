"""The kinds of devices. Each has effect lists, what it may answer to an act, and what it does.

An effect list is a list of actions: ("post", event), ("pulse", coil), ("enable", coil), ("disable", coil), of ball
devices "enter", "left", "lost" and "arrived", and for the balls in play ("request", how many more the trough ejects)
and ("add", how many are in play at least). An act is a tuple of its name and its numbers. A device answers an act by
the numbers of its lists, and `outcomes` are all answers that some state of it gives to an act. Ball saves and
multiballs are in `saves`.
"""
from copy import copy
from dataclasses import dataclass
from typing import Any

from .coils import Coil
from .sections import Entry

MOST = 999_999_999_999_999
MOST_WANTED, MOST_ATTEMPTS = 255, 1_000
Act = tuple[Any, ...]
Action = tuple[str, Any]


def clamped(number: int) -> int:
    return max(-MOST, min(MOST, number))


@dataclass
class World:
    """The games that have begun, the current player, 0 if there is none, and the balls in play."""

    games: int
    player: int
    in_play: int


class Device:
    """A row. `lists` are numbered as in the description of its kind."""

    kind = ""

    def __init__(self, owner: str, entry: Entry):
        self.owner, self.entry, self.name = owner, entry, entry.name
        self.lists: list[list[Action]] = []
        self.listens: list[str] = []  # switches, whose changes are acts
        self.clear()

    def clear(self) -> None:
        """Makes the state the initial one."""

    def fresh(self) -> "Device":
        """The same row, in its initial state."""
        found = copy(self)
        found.clear()
        return found

    def outcomes(self, act: Act) -> list[list[int]]:
        """What some state answers to the act. `start` and `fire` are acts here too."""
        return [[]]

    def act(self, act: Act, now: int, world: World) -> list[int]:
        return []

    def start(self, now: int, world: World) -> list[int]:
        return []

    def stop(self) -> None:
        pass

    def due(self) -> int | None:
        return None

    def fire(self, now: int, world: World) -> list[int]:
        return []


def posts(*events: str) -> list[Action]:
    return [("post", event) for event in events]


class Slotted(Device):
    """A device with a state for each player, or with one."""

    persistent = True

    def clear(self) -> None:
        self.slots: dict[int, tuple[int, Any]] = {}  # by player: the number of the game, and the state in it

    def initial(self) -> Any:
        raise NotImplementedError

    def slot(self, world: World) -> Any:
        """The state that an act changes, or None without a player."""
        player, game = (world.player, world.games) if self.persistent else (0, 0)
        if self.persistent and player == 0:
            return None
        if self.slots.get(player, (-1, None))[0] != game:
            self.slots[player] = (game, self.initial())
        return self.slots[player][1]

    def start(self, now: int, world: World) -> list[int]:
        if not self.persistent:
            self.slots.clear()
        return []


@dataclass
class BlockState:
    enabled: bool
    value: Any
    last_hit: int | None = None


class Block(Slotted):
    """A logic block. Lists: updated, hit, complete."""

    def __init__(self, owner: str, entry: Entry):
        super().__init__(owner, entry)
        self.persistent = entry["persist_state"]
        block = f"logicblock_{self.name}"
        hit = [word.text for word in entry["events_when_hit"]] or [f"{block}_hit"]
        complete = [word.text for word in entry["events_when_complete"]] or [f"{block}_complete"]
        self.lists = [posts(f"{block}_updated"), posts(*hit), posts(*complete)]

    def first_value(self) -> Any:
        raise NotImplementedError

    def initial(self) -> BlockState:
        return BlockState(not self.entry["enable_events"], self.first_value())

    def act(self, act: Act, now: int, world: World) -> list[int]:
        state = self.slot(world)
        if state is None:
            return []
        if act[0] in ("enable", "disable"):
            state.enabled = act[0] == "enable"
            return []
        if act[0] in ("reset", "restart"):
            state.value = self.first_value()
            state.enabled |= act[0] == "restart"
            return [0]
        if not state.enabled or not self.moves(state, act, now):
            return []
        if not self.is_complete(state):
            return [0, 1]
        if self.entry["reset_on_complete"]:
            state.value = self.first_value()
        if self.entry["disable_on_complete"]:
            state.enabled = False
        return [0, 1, 2]

    def moves(self, state: BlockState, act: Act, now: int) -> bool:
        """Does a count or a step, if it changes something."""
        raise NotImplementedError

    def is_complete(self, state: BlockState) -> bool:
        raise NotImplementedError

    def outcomes(self, act: Act) -> list[list[int]]:
        if act[0] in ("reset", "restart"):
            return [[], [0]]
        if act[0] in ("count", "step"):
            return [[], *self.hits(act)]
        return [[]]

    def hits(self, act: Act) -> list[list[int]]:
        return [[0, 1], [0, 1, 2]]


class Counter(Block):
    kind = "counter"

    def first_value(self) -> int:
        return self.entry["starting_count"]

    def moves(self, state: BlockState, act: Act, now: int) -> bool:
        if state.last_hit is not None and now < state.last_hit + self.entry["multiple_hit_window"]:
            return False
        interval = self.entry["count_interval"]
        state.value = clamped(state.value + (interval if self.entry["direction"] == "up" else -interval))
        state.last_hit = now
        return True

    def is_complete(self, state: BlockState) -> bool:
        return reached(state.value, self.entry["count_complete_value"], self.entry["direction"])

    def hits(self, act: Act) -> list[list[int]]:
        return [[0, 1]] if self.entry["count_complete_value"] is None else [[0, 1], [0, 1, 2]]


def reached(value: int, end: int | None, direction: str) -> bool:
    return end is not None and (value >= end if direction == "up" else value <= end)


class Accrual(Block):
    kind = "accrual"

    def first_value(self) -> set[int]:
        return set()

    def moves(self, state: BlockState, act: Act, now: int) -> bool:
        if act[1] in state.value:
            return False
        state.value.add(act[1])
        return True

    def is_complete(self, state: BlockState) -> bool:
        return len(state.value) == len(self.entry["events"])


class Sequence(Block):
    kind = "sequence"

    def first_value(self) -> int:
        return 0

    def moves(self, state: BlockState, act: Act, now: int) -> bool:
        if act[1] != state.value:
            return False
        state.value += 1
        return True

    def is_complete(self, state: BlockState) -> bool:
        return state.value == len(self.entry["events"])

    def hits(self, act: Act) -> list[list[int]]:
        return [[0, 1, 2]] if act[1] == len(self.entry["events"]) - 1 else [[0, 1]]


class Timer(Device):
    """Lists: started, stopped, paused, tick, complete."""

    kind = "timer"

    def __init__(self, owner: str, entry: Entry):
        super().__init__(owner, entry)
        whats = ("started", "stopped", "paused", "tick", "complete")
        self.lists = [posts(f"timer_{self.name}_{what}") for what in whats]
        self.up = entry["direction"] == "up"

    def clear(self) -> None:
        self.value: int = self.entry["start_value"]
        self.next_tick: int | None = None  # when it is running

    @property
    def end(self) -> int | None:
        return self.entry["end_value"] if self.up or self.entry["end_value"] is not None else 0

    def at_end(self, value: int) -> bool:
        return reached(value, self.end, self.entry["direction"])

    def run(self, now: int) -> list[int]:
        self.next_tick = now + self.entry["tick_interval"]
        return [0]

    def start(self, now: int, world: World) -> list[int]:
        self.value, self.next_tick = self.entry["start_value"], None
        return self.run(now) if self.entry["start_running"] else []

    def stop(self) -> None:
        self.next_tick = None

    def due(self) -> int | None:
        return self.next_tick

    def completes(self, now: int) -> list[int]:
        self.next_tick = None
        if not self.entry["restart_on_complete"]:
            return [4]
        self.value = self.entry["start_value"]
        return [4, *self.run(now)]

    def fire(self, now: int, world: World) -> list[int]:
        self.value = clamped(self.value + (1 if self.up else -1))
        if self.at_end(self.value):
            return [3, *self.completes(now)]
        self.run(now)
        return [3]

    def act(self, act: Act, now: int, world: World) -> list[int]:
        running = self.next_tick is not None
        if act[0] == "start":
            return [] if running else self.run(now)
        if act[0] in ("stop", "pause"):
            self.next_tick = None
            return [1 if act[0] == "stop" else 2] if running else []
        if act[0] in ("reset", "restart"):
            self.value = self.entry["start_value"]
            return self.run(now) if act[0] == "restart" else []
        if act[0] == "jump":
            self.value = act[1]
        else:
            self.value = clamped(self.value + (act[1] if act[0] == "add" else -act[1]))
        return self.completes(now) if running and self.at_end(self.value) else []

    def outcomes(self, act: Act) -> list[list[int]]:
        completed = [4, 0] if self.entry["restart_on_complete"] else [4]
        if act[0] == "started":
            return [[0]] if self.entry["start_running"] else [[]]
        if act[0] == "fire":
            return [[3]] if self.end is None else [[3], [3, *completed]]
        if act[0] in ("add", "subtract"):
            return [[]] if self.end is None else [[], completed]
        if act[0] == "jump":
            return [[], completed] if self.at_end(act[1]) else [[]]
        return {"start": [[], [0]], "stop": [[], [1]], "pause": [[], [2]], "reset": [[]], "restart": [[0]]}[act[0]]


@dataclass
class ShotState:
    enabled: list[bool]
    states: list[int]


class ShotBank(Slotted):
    """The shots of a group, or one shot. Lists: of each shot and state, of each state when hit, when complete."""

    kind = "bank"

    def __init__(self, owner: str, entry: Entry, shots: list[Entry], profile: Entry | None):
        super().__init__(owner, entry)
        self.shots, self.is_group = shots, entry.section == "shot_groups"
        self.kind = "group" if self.is_group else "shot"
        self.state_names: list[str] = profile["states"] if profile else ["unlit", "lit"]
        self.advances: bool = profile["advance_on_hit"] if profile else True
        self.loops: bool = profile["loop"] if profile else False
        name = profile.name if profile else "default"
        for shot in shots:
            for state in self.state_names:
                whats = ("", f"{name}_", f"{name}_{state}_", f"{state}_")
                self.lists.append(posts(*(f"{shot.name}_{what}hit" for what in whats)))
        if self.is_group:
            for what in ("hit", "complete"):
                for state in self.state_names:
                    self.lists.append(posts(f"{self.name}_{what}", f"{self.name}_{state}_{what}"))

    def initial(self) -> ShotState:
        return ShotState([not shot["enable_events"] for shot in self.shots], [0] * len(self.shots))

    def after(self, state: int) -> int:
        if state + 1 < len(self.state_names):
            return state + 1
        return 0 if self.loops else state

    def hit_lists(self, shot: int, state: int) -> list[int]:
        count = len(self.state_names)
        return [shot * count + state, *([len(self.shots) * count + state] if self.is_group else [])]

    def complete_list(self, state: int) -> int:
        return (len(self.shots) + 1) * len(self.state_names) + state

    def hit(self, shot: int, slot: ShotState) -> list[int]:
        before = slot.states[shot]
        found = self.hit_lists(shot, before)
        if self.advances:
            slot.states[shot] = self.after(before)
            if slot.states[shot] != before and self.is_group and len({*slot.states}) == 1:
                found.append(self.complete_list(slot.states[shot]))
        return found

    def act(self, act: Act, now: int, world: World) -> list[int]:
        slot = self.slot(world)
        if slot is None:
            return []
        if act[0] == "hit":
            return self.hit(act[1], slot) if slot.enabled[act[1]] else []
        if act[0] == "advance":
            slot.states[act[1]] = self.after(slot.states[act[1]])
        elif act[0] == "reset":
            slot.states[act[1]] = 0
        elif act[0] in ("enable", "disable"):
            slot.enabled[act[1]] = act[0] == "enable"
        elif act[0] == "reset_all":
            slot.states = [0] * len(self.shots)
        elif act[0] == "right":
            slot.states = slot.states[-1:] + slot.states[:-1]
        elif act[0] == "left":
            slot.states = slot.states[1:] + slot.states[:1]
        return []

    def outcomes(self, act: Act) -> list[list[int]]:
        if act[0] != "hit":
            return [[]]
        found: list[list[int]] = [[]]
        for state in range(len(self.state_names)):
            found.append(self.hit_lists(act[1], state))
            after = self.after(state)
            if self.is_group and self.advances and after != state:
                found.append([*self.hit_lists(act[1], state), self.complete_list(after)])
        return found


class Flipper(Device):
    """Lists: on, off."""

    kind = "flipper"

    def __init__(self, owner: str, entry: Entry, coils: dict[str, Coil]):
        super().__init__(owner, entry)
        main, hold = entry["main_coil"].text, entry["hold_coil"]
        self.listens = [entry["activation_switch"].text]
        if hold:
            self.lists = [[("pulse", main), ("enable", hold.text)], [("disable", hold.text)]]
        elif coils[main].may_hold:
            self.lists = [[("enable", main)], [("disable", main)]]
        else:
            self.lists = [[("pulse", main)], []]

    def clear(self) -> None:
        self.enabled = self.on = False

    def act(self, act: Act, now: int, world: World) -> list[int]:
        if act[0] == "enable":
            self.enabled = True
            return []
        if act == ("switch", 0, True):
            self.on |= self.enabled
            return [0] if self.enabled else []
        if act[0] == "disable":
            self.enabled = False
        was_on, self.on = self.on, False
        return [1] if was_on else []

    def outcomes(self, act: Act) -> list[list[int]]:
        if act == ("switch", 0, True):
            return [[], [0]]
        return [[]] if act[0] in ("enable", "fire", "started") else [[], [1]]


class Autofire(Device):
    """One list: its pulse."""

    kind = "autofire"

    def __init__(self, owner: str, entry: Entry):
        super().__init__(owner, entry)
        self.listens = [entry["switch"].text]
        self.lists = [[("pulse", entry["coil"].text)]]

    def clear(self) -> None:
        self.enabled = False

    def act(self, act: Act, now: int, world: World) -> list[int]:
        if act[0] in ("enable", "disable"):
            self.enabled = act[0] == "enable"
        return [0] if act == ("switch", 0, True) and self.enabled else []

    def outcomes(self, act: Act) -> list[list[int]]:
        return [[], [0]] if act == ("switch", 0, True) else [[]]


@dataclass
class Eject:
    """`phase` is Idle, Pulsing or Away."""

    phase: str = "Idle"
    attempt: int = 0
    timeout: int = 0


class BallDevice(Device):
    """Lists: entered, attempt, left, lost, success, arrived, failed."""

    kind = "ball device"

    def __init__(self, owner: str, entry: Entry, has_game: bool):
        super().__init__(owner, entry)
        self.listens = [word.text for word in entry["ball_switches"]]
        self.target: str = entry["eject_targets"].text
        self.tags = [word.text for word in entry["tags"]]
        self.is_trough = "trough" in self.tags
        self.drains = "drain" in self.tags and has_game
        self.coil = entry["eject_coil"] and entry["eject_coil"].text
        device = f"balldevice_{self.name}"
        entered = [("enter", "")] + posts(f"{device}_ball_enter", *(["ball_drain"] if self.drains else []))
        attempt = posts(f"{device}_ball_eject_attempt", f"{device}_ejecting_ball")
        self.lists = [
            entered,
            [*attempt, *([("pulse", self.coil)] if self.coil else [])],
            [("left", "")],
            [("lost", "")],
            posts(f"{device}_ball_eject_success"),
            [("arrived", "")],
            posts(f"{device}_ball_eject_failed"),
        ]
        self.clear()

    def clear(self) -> None:
        self.counted = [False] * len(self.listens)
        self.count_due: list[int | None] = [None] * len(self.listens)
        self.eject = Eject()
        self.wanted = 0

    @property
    def to_playfield(self) -> bool:
        return self.target == "playfield"

    def due(self) -> int | None:
        moments = [moment for moment in self.count_due if moment is not None]
        if self.eject.phase != "Idle":
            moments.append(self.eject.timeout)
        return min(moments, default=None)

    def begin(self, now: int) -> list[int]:
        if self.eject.phase != "Idle" or not any(self.counted) or not self.coil:
            return []
        if self.is_trough and self.wanted == 0:
            return []
        self.eject = Eject("Pulsing", 1, now + self.entry["eject_timeouts"])
        return [1]

    def act(self, act: Act, now: int, world: World) -> list[int]:
        if act[0] == "switch":
            _, index, on = act
            delay = self.entry["entrance_count_delay" if on else "exit_count_delay"]
            self.count_due[index] = now + delay if on != self.counted[index] else None
            return []
        if act[0] == "confirm" and self.eject.phase == "Away":
            return self.arrives([5, 4] if self.to_playfield else [4], now)
        if act[0] == "request" and self.is_trough:
            self.wanted = min(MOST_WANTED, self.wanted + act[1])
            return self.begin(now)
        return []

    def arrives(self, lists: list[int], now: int) -> list[int]:
        self.eject = Eject()
        self.wanted = max(0, self.wanted - 1)
        return lists + self.begin(now)

    def fire(self, now: int, world: World) -> list[int]:
        moment = self.due()
        if moment in self.count_due:
            return self.counts(self.count_due.index(moment), now)
        if self.eject.phase == "Away":
            return self.arrives([5, 4] if self.to_playfield else [5, 6], now)
        most = self.entry["max_eject_attempts"]
        if most and self.eject.attempt >= most:
            self.eject, self.wanted = Eject(), 0
            return [6]
        attempt = min(self.eject.attempt + 1, MOST_ATTEMPTS)
        self.eject = Eject("Pulsing", attempt, now + self.entry["eject_timeouts"])
        return [6, 1]

    def counts(self, index: int, now: int) -> list[int]:
        self.count_due[index] = None
        self.counted[index] = not self.counted[index]
        if self.counted[index]:
            return [0, *self.begin(now)]
        if self.eject.phase == "Pulsing":
            self.eject.phase = "Away"
            return [2]
        if self.eject.phase == "Idle" and self.entry["mechanical_eject"]:
            self.eject = Eject("Away", 1, now + self.entry["eject_timeouts"])
            return [2]
        return [3]

    def outcomes(self, act: Act) -> list[list[int]]:
        begins = [[1]] if self.coil and self.listens else []
        can_leave = bool(self.coil or self.entry["mechanical_eject"])
        if act[0] == "request" and self.is_trough:
            return [[], *begins]
        if act[0] == "confirm" and can_leave:
            lists = [5, 4] if self.to_playfield else [4]
            return [[], lists, *([*lists, *begin] for begin in begins)]
        if act[0] == "fire":
            return self.fires(begins, can_leave)
        return [[]]

    def fires(self, begins: list[list[int]], can_leave: bool) -> list[list[int]]:
        found: list[list[int]] = []
        if self.listens:
            found += [[0], *([0, *begin] for begin in begins), [3], *([[2]] if can_leave else [])]
        if self.coil:
            most = self.entry["max_eject_attempts"]
            found += [*([[6, 1]] if most != 1 else []), *([[6]] if most else [])]
        if can_leave:
            lists = [5, 4] if self.to_playfield else [5, 6]
            found += [lists, *([*lists, *begin] for begin in begins)]
        return found or [[]]
