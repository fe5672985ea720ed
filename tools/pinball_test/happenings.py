"""What an expectation can be about: what happens, as a line of the trace, and how the machine is."""
import operator
from dataclasses import dataclass
from typing import Callable, Protocol

from pinball_help.trace import Step, time_of, words_of
from pinball_table.monitor import NO_GAME, OVER, Monitor

OWN_VARIABLES = ("number", "ball")  # those that the game itself sets
Values = dict[int, dict[str, int]]  # of each player: the value of each variable
COMPARISONS = {
    "": operator.eq,
    "!=": operator.ne,
    ">=": operator.ge,
    "<=": operator.le,
    ">": operator.gt,
    "<": operator.lt,
}
MOST_NAMED = 8  # of the events that came instead


def values_of(state: Monitor) -> Values:
    """What each player has, with the two variables that the game itself sets."""
    return {
        number: {**values, "number": number, "ball": state.balls.get(number, 0)}
        for number, values in state.players.items()
    }


def when(steps: list[Step], is_it: Callable[[Step], bool], otherwise: str = " since the beginning") -> str:
    """Since when it is so: the moment of the last of these lines."""
    moment = next((it.moment for it in reversed(steps) if is_it(it)), None)
    return otherwise if moment is None else f" since {time_of(moment)}"


@dataclass(frozen=True)
class Happening:
    """Lines of the trace of one kind that begin with these words."""

    kind: str
    words: tuple[str, ...]

    def is_in(self, step: Step) -> bool:
        return step.kind == self.kind and step.words[: len(self.words)] == self.words

    def said(self) -> str:
        if self.kind == "skip":
            return f"coil {' '.join(self.words)} skipped"
        length = f"{self.words[2]}ms" if len(self.words) > 2 else ""
        return " ".join(it for it in (self.kind, *self.words[:2], length) if it)

    def instead(self, steps: list[Step]) -> str:
        """What came in place of it."""
        if self.kind == "event":
            names = [it.words[0] for it in steps if it.kind == "event"]
            more = f", and {len(names) - MOST_NAMED} more" if len(names) > MOST_NAMED else ""
            return f"Events that came: {', '.join(names[:MOST_NAMED])}{more}." if names else "No event came."
        coil = [it for it in steps if it.kind in ("coil", "skip") and it.words[0] == self.words[0]]
        if not coil:
            return f"Nothing was sent to {self.words[0]}."
        return "; ".join(f"{words_of(it)} at {time_of(it.moment)}" for it in coil[:MOST_NAMED]) + "."


class Condition(Protocol):
    """How the machine is. `before` is what the players had at the beginning of the step."""

    def holds(self, state: Monitor, before: Values) -> bool:
        """Whether it is so now."""

    def instead(self, state: Monitor, before: Values, steps: list[Step]) -> str:
        """How it is now. `steps` is the whole trace."""


@dataclass(frozen=True)
class IsIn:
    """Whether a device is in one of two states: a switch, a coil or a mode."""

    kind: str
    name: str
    wanted: bool
    states: tuple[str, str]  # the words for yes and no, such as `running` and `stopped`

    def now(self, state: Monitor) -> bool:
        if self.kind == "coil":
            return bool(state.coils[self.name].holder)
        return self.name in (state.modes if self.kind == "mode" else state.switches)

    def holds(self, state: Monitor, before: Values) -> bool:
        return self.now(state) == self.wanted

    def instead(self, state: Monitor, before: Values, steps: list[Step]) -> str:
        now = self.now(state)
        by = f" by {state.coils[self.name].holder}" if self.kind == "coil" and now else ""
        return f"{self.kind.capitalize()} {self.name} is {self.states[not now]}{by}{when(steps, self.changes)}."

    def changes(self, step: Step) -> bool:
        if self.kind == "mode":
            return step.kind == "event" and step.words[0] in (f"mode_{self.name}_started", f"mode_{self.name}_stopped")
        return step.kind == self.kind and step.words[0] == self.name and step.words[1] != "pulse"


@dataclass(frozen=True)
class PlayerHas:
    """A value of a player, or how much it changed in the step."""

    player: int
    variable: str
    comparison: str  # an operator; or `up` or `down`
    number: int

    def holds(self, state: Monitor, before: Values) -> bool:
        values = values_of(state)
        if self.player not in values:
            return False
        now = values[self.player].get(self.variable, 0)
        if self.comparison in ("up", "down"):
            return now - self.then(before) == (self.number if self.comparison == "up" else -self.number)
        return COMPARISONS[self.comparison](now, self.number)

    def then(self, before: Values) -> int:
        return before.get(self.player, {}).get(self.variable, 0)

    def instead(self, state: Monitor, before: Values, steps: list[Step]) -> str:
        if self.player not in state.players:
            return f"There is no player {self.player}: {players_said(state)}."
        now = values_of(state)[self.player].get(self.variable, 0)
        since = when(steps, lambda it: it.kind == "player" and it.words[:2] == (str(self.player), self.variable), "")
        change = now - self.then(before)
        step = f"; in this step it went {'up' if change > 0 else 'down'} by {abs(change)}" if change else ""
        same = "; it did not change in this step" if not change and self.comparison in ("up", "down") else ""
        return f"Player {self.player} has {self.variable} {now}{since}{step}{same}."


def players_said(state: Monitor) -> str:
    count = len(state.players)
    return "no game has begun" if state.phase == NO_GAME else f"the game has {count} player{'' if count == 1 else 's'}"


@dataclass(frozen=True)
class NumberIs:
    """A number of the game or of the ledger: `players`, `current player`, or `balls` and where they are."""

    what: str
    comparison: str
    number: int

    def holds(self, state: Monitor, before: Values) -> bool:
        numbers = {"players": len(state.players), "current player": state.player}
        ledger = {f"balls {where}": count for where, count in state.ledger.items()}
        return COMPARISONS[self.comparison]({**numbers, **ledger}[self.what], self.number)

    def instead(self, state: Monitor, before: Values, steps: list[Step]) -> str:
        if self.what == "players":
            said = players_said(state)
            return f"{said[0].upper()}{said[1:]}."
        if self.what == "current player":
            return f"Player {state.player} plays." if state.player else "No player plays: no game is on."
        ledger = ", ".join(f"{where} {count}" for where, count in state.ledger.items())
        return f"The ledger has {ledger}{when(steps, lambda it: it.kind == 'balls')}."


@dataclass(frozen=True)
class GameIs:
    word: str  # `running` or `over`

    def now(self, state: Monitor) -> str:
        return {NO_GAME: "none", OVER: "over"}.get(state.phase, "running")

    def holds(self, state: Monitor, before: Values) -> bool:
        return self.now(state) == self.word

    def instead(self, state: Monitor, before: Values, steps: list[Step]) -> str:
        now = self.now(state)
        if now == "none":
            return "No game has begun."
        event = "game_ended" if now == "over" else "game_will_start"
        return f"The game is {now}{when(steps, lambda it: it.kind == 'event' and it.words[0] == event)}."
