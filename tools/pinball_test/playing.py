"""Plays a machine by the time of a test: with the simulated table, or with nothing behind its switches."""
from dataclasses import replace
from typing import Callable, Iterator

from pinball_help.trace import Step, steps_of
from pinball_table.answers import Answers
from pinball_table.monitor import Monitor
from pinball_table.session import Session
from pinball_table.settings import Settings
from pinball_table.smart_table import PlainTable, SmartTable

MOST_CHANGES, MOST_STEPS = 100_000, 1_000_000  # of the switches, and of the trace
LONGEST = 24 * 3_600_000  # ms: how long a test lasts at most
AT_ONCE = 600_000  # ms: how much time passes before the length of the trace is looked at
LONGEST_SETTLING = 20_000  # ms: until the balls that lie in devices at first are counted
Listener = Callable[[list[Step], int], None]  # is given the steps of a moment


class TooMuch(Exception):
    """A test that is longer than a test should be."""


class Play:
    """A play of a machine up to the moment `now`. `state` and `steps` are what its trace says.

    Without the table nothing answers the coils, so the log does not depend on the trace. Then its lines wait in
    `pending` until somebody looks, and the program plays them at once."""

    def __init__(self, settings: Settings, answers: Answers, with_table: bool = False, seed: int | None = None):
        settings = settings if seed is None else replace(settings, seed=seed)
        self.machine, self.with_table = settings.machine, with_table
        self.table = SmartTable(settings) if with_table else PlainTable(settings)
        self.session = Session(self.machine, answers, self.table)
        self.session.begin()
        self.state = Monitor(self.machine)
        self.now = self.changes = self.known = 0
        self.steps: list[Step] = []
        self.pending: list[str] = []
        self.listeners: list[Listener] = [self.follow]

    def settle(self) -> None:
        """With the table, lets the balls that lie in devices at first be counted."""
        places = self.table.places
        balls = sum(deed[0] == "set" and deed[1] in places and deed[2] for _, _, deed in self.table.plan)
        if self.with_table:
            self.go(LONGEST_SETTLING if balls else 0, lambda: self.state.ledger["known"] >= balls)

    def set(self, switch: str, is_active: bool) -> None:
        self.changes += 1
        if self.changes > MOST_CHANGES:
            raise TooMuch(f"A test has at most {MOST_CHANGES:,} changes of switches.")
        if self.with_table:
            self.table.at(self.now, "set", switch, is_active)
            self.look()
        else:
            self.pending.append(f"{self.now} {switch} {self.machine.switches[switch].level(is_active)}")

    def wait_until(self, moment: int) -> None:
        if moment > LONGEST:
            raise TooMuch("A test lasts at most 24 hours of the machine's time.")
        while moment - self.now > AT_ONCE:
            self.now += AT_ONCE
            self.look()
        self.now = moment
        if self.with_table:
            self.look()

    def wait(self, length: int) -> None:
        self.wait_until(self.now + length)

    def look(self) -> None:
        """Makes the trace known up to now."""
        if self.with_table:
            self.go(self.now)
        elif self.pending or self.now > self.session.moment:
            self.session.load([*self.pending, str(self.now)])
            self.pending = []
            self.take()

    def go(self, target: int, until: Callable[[], bool] = lambda: False) -> bool:
        """Lets time pass up to the moment `target`, or to an earlier one after which `until` is true."""
        while (coming := self.session.next()) is not None and coming <= target:
            self.session.step()
            self.now = max(self.now, coming)
            following = self.session.next()
            if following is None or following > coming:  # (else this moment is not over)
                self.take()
                if until():
                    return True
        self.session.run_until(target)
        self.take()
        self.now = target
        return until()

    def take(self) -> None:
        """Shows the further lines of the trace to those who listen, moment by moment."""
        for moment, steps in by_moment(self.session.trace[self.known :]):
            for listener in list(self.listeners):
                listener(steps, moment)
        self.known = len(self.session.trace)
        if self.known > MOST_STEPS:
            raise TooMuch(f"The trace of a test has at most {MOST_STEPS:,} lines: let less time pass.")

    def follow(self, steps: list[Step], moment: int) -> None:
        self.steps += steps
        for step in steps:
            self.state.take(step)

    # where the balls of the table are

    def in_plungers(self) -> list[str]:
        """The places of balls that wait until somebody pulls a plunger, and that the machine has counted."""
        devices = [it for it in self.machine.devices.values() if not it.coil]
        lying = [(place, device.name) for device in devices for place in self.table.lying(device)]
        return [place for place, device in lying if self.is_counted(place, device)]

    def is_counted(self, place: str, device: str) -> bool:
        """Whether a ball has been counted since its place was taken."""
        for step in reversed(self.steps):
            if step.words[:2] == (place, "active") or step.words[0] == f"balldevice_{device}_ball_enter":
                return step.kind == "event"
        return False

    def reachable(self) -> int:
        """How many balls are on the playfield, or can be brought there by hand."""
        return self.table.loose + len(self.in_plungers())

    def log(self) -> list[str]:
        return [*self.session.log(), *self.pending]


def by_moment(lines: list[str]) -> Iterator[tuple[int, list[Step]]]:
    group: list[Step] = []
    for step in steps_of(lines):
        if isinstance(step, Step):
            if group and step.moment != group[0].moment:
                yield group[0].moment, group
                group = []
            group.append(step)
    if group:
        yield group[0].moment, group
