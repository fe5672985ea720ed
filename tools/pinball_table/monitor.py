"""What a trace says of a machine: the game, its players, the modes, the coils, the timers and the ledger of balls."""
from collections import deque
from dataclasses import dataclass, field
from typing import Iterable

from pinball_help.trace import SECOND, Step, steps_of

from .machine import Machine

NO_GAME, BETWEEN, IN_PLAY, OVER = "no game", "between balls", "ball in play", "game over"
PHASES = {"game_will_start": BETWEEN, "ball_started": IN_PLAY, "ball_will_end": BETWEEN, "game_ended": OVER}
LEDGER = ("known", "counted", "transit", "playfield")


@dataclass
class CoilState:
    """What a coil has done. `stretches` are those of the last second for which it was on."""

    pulses: int = 0
    skipped: int = 0
    on_ms: int = 0
    holder: str = ""
    since: int = 0
    last: int = -1  # the moment of its last pulse ..
    last_ms: int = 0  # .. and its length
    duty: float = 0.0  # the greatest part of a second
    stretches: deque[tuple[int, int]] = field(default_factory=deque)

    def was_on(self, start: int, end: int) -> None:
        self.on_ms += end - start
        self.stretches.append((start, end))
        self.duty = max(self.duty, self.duty_at(end))

    def duty_at(self, now: int) -> float:
        """The part of the second before now for which it was on."""
        while self.stretches and self.stretches[0][1] <= now - SECOND:
            self.stretches.popleft()
        on = sum(max(0, min(end, now) - max(start, now - SECOND)) for start, end in self.stretches)
        return (on + (now - max(self.since, now - SECOND) if self.holder else 0)) / SECOND

    def put_off(self, moment: int) -> None:
        """The end of a hold, or of a pulse that is still on."""
        if self.holder:
            self.holder = ""
            self.was_on(self.since, moment)
        elif self.stretches and self.stretches[-1][1] > moment:
            start, end = self.stretches.pop()
            self.on_ms -= end - moment
            self.stretches.append((start, moment))


@dataclass
class TimerState:
    state: str = "not running"
    ticks: int = 0
    last: int = 0  # the moment when it began to run, or ticked


class Monitor:
    """Follows a trace, line by line."""

    def __init__(self, machine: Machine):
        self.machine = machine
        self.coils = {name: CoilState() for name in machine.coils}
        self.timers = {name: TimerState() for name in machine.timers}
        self.modes: set[str] = set()  # those that run
        self.running: set[str] = set()  # ball saves and multiballs
        self.switches: set[str] = set()  # those that were accepted as active
        self.players: dict[int, dict[str, int]] = {}
        self.phase, self.player, self.games = NO_GAME, 0, 0
        self.balls: dict[int, int] = {}  # how many balls each player has had
        self.ledger = dict.fromkeys(LEDGER, 0)
        self.moment = 0
        self.events = self.events_of(machine)

    def events_of(self, machine: Machine) -> dict[str, tuple[str, str, str]]:
        """What an event says of a mode, a timer, a ball save or a multiball."""
        found = {}
        for kind, prefix, names, words in (
            ("mode", "mode", machine.modes, ("started", "stopped")),
            ("timer", "timer", machine.timers, ("started", "stopped", "paused", "tick", "complete")),
            ("device", "ball_save", machine.saves, ("enabled", "disabled")),
            ("device", "multiball", machine.multiballs, ("started", "ended")),
        ):
            for name in names:
                found |= {f"{prefix}_{name}_{word}": (kind, name, word) for word in words}
        return found

    def take_all(self, lines: Iterable[str]) -> None:
        for step in steps_of(lines):
            if isinstance(step, Step):
                self.take(step)

    def take(self, step: Step) -> None:
        self.moment = max(self.moment, step.moment)
        words = step.words
        if step.kind == "event":
            self.take_event(step)
        elif step.kind in ("coil", "skip", "off"):
            self.take_coil(step)
        elif step.kind == "switch":
            (self.switches.add if words[1] == "active" else self.switches.discard)(words[0])
        elif step.kind == "player":
            self.players.setdefault(int(words[0]), {})[words[1]] = int(words[2])
        elif step.kind == "balls":
            self.ledger = dict(zip(LEDGER, map(int, words)))
        elif step.kind == "final":
            self.players.setdefault(int(words[0]), {})["score"] = int(words[1])

    def take_coil(self, step: Step) -> None:
        coil = self.coils.setdefault(step.words[0], CoilState())
        action = "disable" if step.kind == "off" else step.words[1]
        if step.kind == "skip":
            coil.skipped += 1
        elif action == "pulse":
            length = int(step.words[2])
            coil.pulses += 1
            coil.last, coil.last_ms = step.moment, length
            coil.was_on(step.moment, step.moment + length)
        elif action == "enable":
            coil.holder, coil.since = step.owner, step.moment
        else:
            coil.put_off(step.moment)

    def take_event(self, step: Step) -> None:
        event = step.words[0]
        self.phase = PHASES.get(event, self.phase)
        if event == "game_will_start":
            self.players, self.balls, self.player, self.games = {}, {}, 0, self.games + 1
        elif event == "player_added":
            self.players.setdefault(len(self.players) + 1, {}).setdefault("score", 0)
        elif event == "player_turn_will_start":
            self.player = self.player % max(1, len(self.players)) + 1
        elif event == "ball_will_start":
            self.balls[self.player] = self.balls.get(self.player, 0) + 1
        elif event == "game_ended":
            self.player = 0
        if found := self.events.get(event):
            self.take_state(*found, step.moment)

    def take_state(self, kind: str, name: str, word: str, moment: int) -> None:
        if kind == "timer":
            self.take_timer(self.timers[name], word, moment)
            return
        found = self.modes if kind == "mode" else self.running
        (found.add if word in ("started", "enabled") else found.discard)(name)
        if kind == "mode" and word == "stopped":
            for timer in self.machine.timers.values():  # a timer stops with its mode, and posts nothing
                if timer.mode == name:
                    self.timers[timer.name].state = "not running"

    @staticmethod
    def take_timer(timer: TimerState, word: str, moment: int) -> None:
        if word == "tick":
            timer.ticks += 1
        elif word == "started":
            timer.ticks = 0 if timer.state not in ("paused", "stopped") else timer.ticks
            timer.state = "running"
        elif word == "complete":
            timer.state = "complete"
        else:
            timer.state = word
        timer.last = moment
