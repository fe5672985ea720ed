"""A simulated table: it answers coils with switches, as balls and drop targets would.

All that happens later is a plan of (moment, count, deed), and a deed is plain data. So the whole state is a small value
that can be kept and brought back, and the same commands give the same changes: chance comes from the seed alone.
"""
import heapq
import random
from dataclasses import dataclass

from .machine import PLAYFIELD, BallDevice
from .platforms import Change, Command, Platform
from .settings import Settings

# A deed: ("set", switch, is_active), ("arrive", device), or ("land",)
Deed = tuple
Planned = tuple[int, int, Deed]


@dataclass(frozen=True)
class State:
    """All that a table has at a moment."""

    active: frozenset[str] = frozenset()
    loose: int = 0  # balls on the playfield
    flying: int = 0  # balls on their way
    plan: tuple[Planned, ...] = ()
    count: int = 0  # of deeds so far
    draws: int = 0  # how often chance was asked
    held: tuple[str, ...] = ()


class SmartTable(Platform):
    def __init__(self, settings: Settings):
        super().__init__()
        self.settings, self.machine = settings, settings.machine
        self.places = self.machine.ball_switches()
        self.targets = {switch for switches in settings.raises.values() for switch in switches}
        self.active: set[str] = set()
        self.loose = self.flying = self.count = self.draws = 0
        self.plan: list[Planned] = []

    def state(self) -> State:
        return State(
            frozenset(self.active), self.loose, self.flying, tuple(self.plan), self.count, self.draws, tuple(self.held))

    def restore(self, state: State) -> None:
        self.active, self.plan, self.held = set(state.active), list(state.plan), list(state.held)
        self.loose, self.flying, self.count, self.draws = state.loose, state.flying, state.count, state.draws

    # what comes

    def at(self, moment: int, *deed: object) -> None:
        self.count += 1
        heapq.heappush(self.plan, (moment, self.count, deed))

    def next(self) -> int | None:
        return self.plan[0][0] if self.plan else None

    def coming(self, now: int) -> Change | None:
        while self.plan and self.plan[0][0] <= now:
            moment, _, (what, *words) = heapq.heappop(self.plan)
            if what == "arrive":
                self.arrive(words[0], moment)
            elif what == "land":
                self.flying, self.loose = self.flying - 1, self.loose + 1
            elif (words[0] in self.active) != words[1]:
                (self.active.add if words[1] else self.active.remove)(words[0])
                return Change(moment, words[0], words[1])
        return None

    # what people do

    def fill(self, now: int = 0) -> None:
        """Lays the balls into the troughs, or makes active what the machine says is active at first."""
        first = self.machine.at_first
        if first is None:
            homes = self.machine.tagged("trough") or self.machine.tagged("home")
            first = tuple(switch for device in homes for switch in device.switches)
            first = first if self.settings.balls is None else first[: self.settings.balls]
        for switch in first:
            self.at(now, "set", switch, True)

    def press(self, switch: str, now: int) -> None:
        self.at(now, "set", switch, True)

    def release(self, switch: str, now: int) -> None:
        self.at(now, "set", switch, False)

    def tap(self, switch: str, now: int, ms: int | None = None) -> None:
        """A click. A drop target stays down. A ball comes to a place for a ball, or is taken from there."""
        if switch in self.places:
            self.move_by_hand(switch, now)
            return
        self.press(switch, now)
        if switch not in self.targets:
            self.release(switch, now + (self.settings.times.tap if ms is None else ms))

    def move_by_hand(self, switch: str, now: int) -> None:
        """A ball of the playfield, or a new one, comes to a free place. One that lies there goes to the playfield."""
        is_there = switch in self.active
        self.loose = self.loose + 1 if is_there else max(0, self.loose - 1)
        self.at(now, "set", switch, not is_there)

    def is_planned(self, switch: str) -> bool:
        """Whether a switch is to become active."""
        return any(it[0] == "set" and it[1] == switch and it[2] for _, _, it in self.plan)

    def drain(self, now: int) -> bool:
        """A ball of the playfield drains. Without ball devices, the drain's switch is hit."""
        where = self.settings.drain
        if where in self.machine.switches:
            self.tap(where, now)
            return True
        if self.loose == 0 or where not in self.machine.devices:
            return False
        self.loose, self.flying = self.loose - 1, self.flying + 1
        self.at(now + self.settings.times.drain, "arrive", where)
        return True

    def plunge(self, now: int) -> bool:
        """Somebody pulls the plunger: the first device without a coil in which a ball lies."""
        for device in self.machine.devices.values():
            if not device.coil and self.lying(device):
                self.eject(device, now)
                return True
        return False

    # what coils do

    def carry_out(self, command: Command, moment: int) -> None:
        if command.action == "disable":
            return
        device = self.machine.devices.get(self.settings.kicks.get(command.coil, ""))
        if device and self.lying(device):
            self.eject(device, moment)
        for switch in self.settings.raises.get(command.coil, ()):
            self.at(moment + self.settings.times.rise, "set", switch, False)

    def lying(self, device: BallDevice) -> list[str]:
        """The places where balls lie, without one that leaves just now."""
        leaving = {words[1] for _, _, words in self.plan if words[0] == "set" and not words[2]}
        return [switch for switch in device.switches if switch in self.active and switch not in leaving]

    def happens(self, device: str, chance: str) -> bool:
        likely = self.settings.of(device, chance)
        if likely == 0:
            return False
        self.draws += 1
        return random.Random(f"{self.settings.seed} {self.draws}").random() * 1000 < likely

    def eject(self, device: BallDevice, now: int) -> None:
        """A ball leaves, and the others roll one place on: so the last place that is taken becomes free."""
        if self.happens(device.name, "eject_fails"):
            return
        gone = now + self.settings.of(device.name, "leave")
        self.flying += 1
        self.at(gone, "set", self.lying(device)[-1], False)
        if self.happens(device.name, "eject_bounces"):
            self.at(gone + self.settings.of(device.name, "fall"), "arrive", device.name)
        elif device.target != PLAYFIELD and device.target in self.machine.devices:
            self.at(gone + self.settings.of(device.name, "roll"), "arrive", device.target)
        else:
            self.at(gone + self.settings.of(device.name, "fly"), "land")

    def arrive(self, name: str, moment: int) -> None:
        """A ball comes to a device. If that is full, the ball waits before it. One without switches swallows it."""
        switches = self.machine.devices[name].switches
        free = [switch for switch in switches if switch not in self.active and not self.is_planned(switch)]
        if free or not switches:
            self.flying -= 1
        if free:
            self.at(moment, "set", free[0], True)
        elif switches:
            self.at(moment + self.settings.of(name, "roll"), "arrive", name)

    # what a log says

    def follow(self, change: Change) -> None:
        """A switch changes because a log says so. The balls are where the switches say, on their way, or loose."""
        device = self.places.get(change.switch)
        (self.active.add if change.is_active else self.active.discard)(change.switch)
        if not device:
            return
        if not change.is_active and device.target in self.machine.devices:
            self.flying += 1
            self.at(change.moment + self.settings.of(device.name, "roll"), "arrive", device.target)
        elif not change.is_active:
            self.loose += 1
        elif not self.has_come(device.name):
            self.loose = max(0, self.loose - 1)

    def has_come(self, name: str) -> bool:
        """Whether a ball was on its way, to this device or to any: then it has come."""
        coming = [it for it in self.plan if it[2][0] == "arrive"]
        found = next((it for it in coming if it[2][1] == name), coming[0] if coming else None)
        if found:
            self.plan.remove(found)
            heapq.heapify(self.plan)
            self.flying -= 1
        return found is not None


class PlainTable(SmartTable):
    """A table with nothing behind its switches: no coil moves a ball, and a click is a press and a release."""

    def fill(self, now: int = 0) -> None:
        pass

    def tap(self, switch: str, now: int, ms: int | None = None) -> None:
        self.press(switch, now)
        self.release(switch, now + (self.settings.times.tap if ms is None else ms))

    def carry_out(self, command: Command, moment: int) -> None:
        pass

    def follow(self, change: Change) -> None:
        (self.active.add if change.is_active else self.active.discard)(change.switch)
