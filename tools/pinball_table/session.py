"""Plays a machine by the time of its log, and keeps what happened, step by step.

A step is one line of the log: a switch changes, or an alarm is due. Nothing here looks at the wall's clock: `player`
does, and a test goes straight from one moment to the next. If the table is simulated, a session can go back.
"""
import re
from dataclasses import dataclass
from typing import Iterable

from pinball_help.trace import Step as TraceStep
from pinball_help.trace import steps_of

from .answers import LATEST, Answers, Gone, Refused, is_wait, moment_of, without_waits
from .machine import Machine
from .monitor import Monitor
from .platforms import BoardFailure, Change, Command, Platform
from .smart_table import SmartTable, State

LINE = re.compile(r"([0-9]{1,20})(?:[ \t]+([^ \t]+)[ \t]+([01]))?")  # of a log


@dataclass(frozen=True)
class Step:
    moment: int
    line: str  # of the log
    change: Change | None  # none: an alarm, or a wait
    said: tuple[str, ...]  # what the program answered
    after: State | None  # the simulated table after it


class Session:
    """`steps` are those that have happened, and `future` those that happened before somebody went back."""

    def __init__(self, machine: Machine, answers: Answers, platform: Platform):
        self.machine, self.answers, self.platform = machine, answers, platform
        self.table = platform if isinstance(platform, SmartTable) else None
        self.monitor = Monitor(machine)
        self.steps: list[Step] = []
        self.future: list[Step] = []
        self.trace: list[str] = []
        self.first: State | None = None  # the simulated table before the first step
        self.is_rewound = False  # the program has to be rewound before it is asked again
        self.ended = ""  # why the session is over
        self.epoch = 0  # grows when the trace does anything but grow

    def begin(self, log: Iterable[str] | None = None) -> list[str]:
        """Lays the balls into a simulated table, or plays a log. Gives the lines of it that are refused."""
        if not self.table:
            return []
        if log is None:
            self.table.fill()
        self.first = self.table.state()
        return [] if log is None else self.load(log)

    @property
    def moment(self) -> int:
        return self.steps[-1].moment if self.steps else 0

    # what comes

    def next(self) -> int | None:
        """The moment of the next step, or none."""
        if self.ended:
            return None
        if self.future:
            return self.future[0].moment
        self.catch_up()
        return min((it for it in (self.platform.next(), self.answers.due) if it is not None), default=None)

    def step(self) -> Step | None:
        """Carries out the next thing that is due. None if it was no line of the log, such as a ball that lands."""
        if self.future:
            return self.again(self.future.pop(0))
        self.catch_up()
        due, coming = self.answers.due, self.platform.next()
        if due is not None and (coming is None or due <= coming):
            return self.ask(str(due), due, None)
        if coming is None:
            return None
        change = self.platform.coming(coming)
        return self.changed(change) if change else None

    def changed(self, change: Change) -> Step:
        level = self.machine.switches[change.switch].level(change.is_active)
        moment = max(change.moment, self.moment)
        return self.ask(f"{moment} {change.switch} {level}", moment, change)

    def run_until(self, moment: int) -> None:
        """Carries out all that is due by this moment, and ends there."""
        while (coming := self.next()) is not None and coming <= moment:
            self.step()
        if not self.ended and moment > self.moment:
            self.ask(str(moment), moment, None)

    def ask(self, line: str, moment: int, change: Change | None) -> Step:
        """Sends a line of the log, and carries out what the program answers."""
        self.catch_up()
        try:
            said = self.answers.ask(line)
        except Gone as gone:
            self.answered(line, moment, change, gone.lines)
            raise
        return self.answered(line, moment, change, said)

    def answered(self, line: str, moment: int, change: Change | None, said: list[str]) -> Step:
        """Carries out an answer, and keeps the step, also if the board fails meanwhile."""
        try:
            self.take(said, moment)
        finally:
            step = Step(moment, line, change, tuple(said), self.table.state() if self.table else None)
            if self.steps and is_idle(self.steps[-1]):
                self.steps.pop()  # (a wait in which nothing happened adds nothing to the next line)
            self.steps.append(step)
        return step

    def catch_up(self) -> None:
        """After going back, the program has to go back too, before it is asked again."""
        if self.is_rewound:
            self.answers.rewind([it.line for it in self.steps])
            self.is_rewound = False

    def take(self, said: Iterable[str], moment: int) -> None:
        """Carries out the commands of an answer, and follows it."""
        self.trace.extend(said)
        for step in steps_of(said):
            if isinstance(step, TraceStep):
                self.monitor.take(step)
                if command := command_of(step):
                    self.platform.coil(command, moment)

    # the end

    def shut_down(self, why: str) -> None:
        """Ends the program, so that it puts off all coils. Those that it leaves on are put off here."""
        if self.ended:
            return
        try:
            self.catch_up()
            self.take(self.answers.end(), self.moment)
        except (Gone, Refused, BoardFailure) as failure:
            why = f"{why}; {failure}"
        self.put_off(why)

    def put_off(self, why: str) -> None:
        """Whatever the program did last: no coil stays on."""
        self.ended = why
        off = [f"# the table puts {coil} off" for coil in self.platform.put_off(self.moment)]
        self.trace.extend([*off, f"# {why}"])
        for coil in self.monitor.coils.values():
            coil.put_off(self.moment)
        self.answers.close()

    # back and forth

    def go_to(self, count: int) -> None:
        """Goes to where so many steps have happened, of all that are known. Only a simulated table can."""
        assert self.table
        every = [*self.steps, *self.future]
        self.steps, self.future = every[:count], every[count:]
        self.trace = [line for step in self.steps for line in step.said]
        self.epoch += 1
        self.monitor = Monitor(self.machine)
        self.monitor.take_all(self.trace)
        state = self.steps[-1].after if self.steps else self.first
        assert state
        self.table.restore(state)
        self.is_rewound = True

    def again(self, step: Step) -> Step:
        """Does a step again that is in the future."""
        assert self.table and step.after
        self.trace.extend(step.said)
        self.monitor.take_all(step.said)
        self.table.restore(step.after)
        self.steps.append(step)
        return step

    def branch(self) -> None:
        """Forgets the future: from here on, the table is simulated again."""
        self.future = []

    def load(self, lines: Iterable[str]) -> list[str]:
        """Plays the lines of a log, with a table that follows them. Gives those that the program would refuse."""
        assert self.table
        played, refused = self.sifted(lines)
        changes = iter([change for change, _ in played if change])
        for line, said in self.answers.ask_log([line for _, line in played]):
            self.follow(line, None if is_wait(line) else next(changes), said)
        return refused

    def sifted(self, lines: Iterable[str]) -> tuple[list[tuple[Change | None, str]], list[str]]:
        """The lines that say something to this machine, and those that the program would refuse."""
        played: list[tuple[Change | None, str]] = []
        refused, last = [], self.moment
        for line in lines:
            if not line or line.startswith("#"):
                continue
            parts = LINE.fullmatch(line)
            moment = int(parts[1]) if parts else -1
            if not parts or not last <= moment <= LATEST or parts[2] and parts[2] not in self.machine.switches:
                refused.append(line)
                continue
            change = self.change_of(moment, parts[2], int(parts[3])) if parts[2] else None
            played.append((change, " ".join([str(moment), *parts.groups()[1:]]) if change else str(moment)))
            last = moment
        return played, refused

    def change_of(self, moment: int, switch: str, level: int) -> Change:
        """The change that a line of a log says."""
        return Change(moment, switch, level == self.machine.switches[switch].level(True))

    def follow(self, line: str, change: Change | None, said: list[str]) -> None:
        """Only looks at what a coil does: the log says what it does to the switches."""
        assert self.table
        if change:
            self.table.follow(change)
        self.trace.extend(said)
        for step in steps_of(said):
            if isinstance(step, TraceStep):
                self.monitor.take(step)
                if command := command_of(step):
                    self.table.note(command)
        self.steps.append(Step(moment_of(line), line, change, tuple(said), self.table.state()))

    # the log

    def log(self) -> list[str]:
        """The lines of a log that `pinball play` plays to the same trace."""
        return without_waits([step.line for step in self.steps])


def is_idle(step: Step) -> bool:
    return step.change is None and not step.said


def command_of(step: TraceStep) -> Command | None:
    """The command to a coil that a line of the trace says."""
    if step.kind == "off":
        return Command(step.words[0], "disable")
    if step.kind != "coil":
        return None
    coil, action, *numbers = step.words
    if action == "pulse":
        return Command(coil, action, int(numbers[0]), int(numbers[1]))
    return Command(coil, action, 0, int(numbers[0]) if numbers else 0)


def log_lines(text: str) -> list[str]:
    """The lines of a log, as the program reads them."""
    return [line.removesuffix("\r") for line in text.split("\n")]
