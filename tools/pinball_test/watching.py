"""Watches a trace for what is expected, line by line."""
from typing import Protocol

from pinball_help.trace import Step, time_of
from pinball_table.monitor import Monitor

from .happenings import Happening, Values
from .script import Expect, Never


class Watch(Protocol):
    def take(self, step: Step) -> None:
        """Sees a line of the trace."""

    def holds(self, state: Monitor) -> bool:
        """Whether what is expected is so now."""

    def instead(self, state: Monitor, steps: list[Step], first: int, start: int, now: int) -> str:
        """What came instead. `steps` is the whole trace. The step of the test begins with line `first` of it, at the
        moment `start`."""


class Happens:
    """Watches for happenings, one after the other."""

    def __init__(self, wanted: Expect):
        self.wanted = wanted
        self.times = wanted.times or 1
        self.found: list[Step] = []  # those that match: of the first happening if there is one, else of each in turn

    def take(self, step: Step) -> None:
        order = self.wanted.happenings
        at = len(self.found) if len(order) > 1 else 0
        if at < len(order) and order[at].is_in(step):
            self.found.append(step)

    def holds(self, state: Monitor) -> bool:
        if len(self.wanted.happenings) > 1:
            return len(self.found) == len(self.wanted.happenings)
        return len(self.found) == self.times if self.wanted.times else bool(self.found)

    def instead(self, state: Monitor, steps: list[Step], first: int, start: int, now: int) -> str:
        order, window, steps = self.wanted.happenings, f"from {time_of(start)} to {time_of(now)}", steps[first:]
        if self.wanted.is_no:
            return f"It came at {time_of(self.found[0].moment)}."
        if self.wanted.times and self.found:
            moments = ", ".join(time_of(it.moment) for it in self.found[:8])
            return f"It came {counted(len(self.found))} {window}: at {moments}{', ..' if len(self.found) > 8 else ''}."
        if len(order) == 1 or not self.found:
            return f"It did not come {window}. {order[0].instead(steps)}"
        return after_another(order, self.found, steps)


def after_another(order: tuple[Happening, ...], found: list[Step], steps: list[Step]) -> str:
    """Why a happening did not come after the one before it."""
    missing, last = order[len(found)], found[-1]
    first = f"`{order[len(found) - 1].said()}` came at {time_of(last.moment)}"
    earlier = [it for it in steps if missing.is_in(it)]
    if earlier:
        return f"{first}, and `{missing.said()}` only before it, at {time_of(earlier[-1].moment)}."
    return f"{first}, and `{missing.said()}` did not come. {missing.instead(steps)}"


def counted(times: int) -> str:
    return "once" if times == 1 else f"{times} times"


class IsSo:
    """Watches how the machine is."""

    def __init__(self, wanted: Expect, before: Values):
        self.wanted, self.before = wanted, before

    def take(self, step: Step) -> None:
        pass

    def holds(self, state: Monitor) -> bool:
        assert self.wanted.condition
        return self.wanted.condition.holds(state, self.before)

    def instead(self, state: Monitor, steps: list[Step], first: int, start: int, now: int) -> str:
        assert self.wanted.condition
        return self.wanted.condition.instead(state, self.before, steps)


def watch_of(wanted: Expect, before: Values) -> Watch:
    return Happens(wanted) if wanted.happenings else IsSo(wanted, before)


class Broken(Exception):
    """What may never be has come."""

    def __init__(self, never: Never, moment: int, message: str):
        super().__init__(message)
        self.never, self.moment, self.message = never, moment, message


class Guard:
    """Watches for what may never be."""

    def __init__(self, never: Never):
        self.never = never

    def see(self, state: Monitor, steps: list[Step], trace: list[Step]) -> None:
        """Sees the steps of a moment. Raises Broken if it comes in them, or is so after them."""
        happening, condition, moment = self.never.happening, self.never.condition, steps[0].moment
        if happening and any(happening.is_in(it) for it in steps):
            raise Broken(self.never, moment, f"It came at {time_of(moment)}.")
        if condition and condition.holds(state, {}):
            said = condition.instead(state, {}, trace)
            raise Broken(self.never, moment, f"It is so at {time_of(moment)}. {said}")
