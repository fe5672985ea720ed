"""Runs a test, line by line, up to the first expectation that is not met."""
import time
from contextlib import closing
from dataclasses import dataclass, field
from pathlib import Path

from pinball_help.trace import Step
from pinball_table.answers import Gone, Refused

from .doing import NotDone, do
from .happenings import Values, values_of
from .playing import Play, TooMuch
from .script import Action, BadLine, Expect, Line, Test
from .tested import Tested
from .watching import Broken, Guard, Watch, watch_of


@dataclass(frozen=True)
class Failure:
    """Why a test failed, and from where to where its trace is worth a look."""

    line: Line
    message: str
    start: int = 0
    end: int = 0


@dataclass
class Result:
    file: Path
    title: str
    failure: Failure | None = None
    is_unreadable: bool = False
    seconds: float = 0
    log: list[str] = field(default_factory=list)
    steps: list[Step] = field(default_factory=list)
    done: list[tuple[int, Line]] = field(default_factory=list)  # the actions, each with its moment

    @property
    def passed(self) -> bool:
        return self.failure is None


class Run:
    """A test as it runs."""

    def __init__(self, test: Test, play: Play):
        self.test, self.play = test, play
        self.guards = [Guard(it) for it in test.nevers]
        play.listeners.append(self.watch_guards)
        self.done: list[tuple[int, Line]] = []
        self.begin_step()

    def watch_guards(self, steps: list[Step], moment: int) -> None:
        for guard in self.guards:
            guard.see(self.play.state, steps, self.play.steps)

    def begin_step(self) -> None:
        """What an expectation looks back to begins here."""
        self.start, self.first = self.play.now, len(self.play.steps)
        self.before: Values = values_of(self.play.state)
        self.actions: list[Line] = []
        self.is_judging = False

    def failure(self) -> Failure | None:
        """Runs the test. Says why it failed, if it did."""
        line = self.test.lines[0].line
        try:
            self.play.settle()
            self.begin_step()
            for at, part in enumerate(self.test.lines):
                line = part.line
                self.is_judging |= at == self.test.head  # (the next action begins a step)
                if isinstance(part, Action):
                    self.act(part)
                elif message := self.judge(part):
                    return Failure(line, message, self.start, self.play.now)
            self.play.look()
        except Broken as broken:
            return Failure(broken.never.line, broken.message, broken.moment, broken.moment)
        except (NotDone, TooMuch) as error:
            return Failure(line, str(error), self.start, self.play.now)
        except (Gone, Refused) as error:
            return Failure(line, f"The program gave no answer: {error}.", self.start, self.play.now)
        return None

    def act(self, action: Action) -> None:
        if self.is_judging:
            self.play.look()
            self.begin_step()
        self.done.append((self.play.now, action.line))
        self.actions.append(action.line)
        do(action, self.play)

    def judge(self, wanted: Expect) -> str:
        """What came instead of what is expected, if it did not come."""
        self.is_judging = True
        self.play.look()
        watch = watch_of(wanted, self.before)
        for step in self.play.steps[self.first :]:
            watch.take(step)
        holds = watch.holds(self.play.state)
        if wanted.within is not None and not holds:
            holds = self.wait_for(watch, wanted.within)
        if holds != wanted.is_no:
            return ""
        message = watch.instead(self.play.state, self.play.steps, self.first, self.start, self.play.now)
        if len(self.actions) > 1:
            message += f" The step begins with line {self.actions[0].number}."
        if self.actions and self.play.now == self.start:
            message += " No time has passed in this step, and a normal switch is accepted after 5 ms."
        return message

    def wait_for(self, watch: Watch, length: int) -> bool:
        """Lets time pass until what is watched for is so."""

        def see(steps: list[Step], moment: int) -> None:
            for step in steps:
                watch.take(step)

        self.play.listeners.append(see)
        try:
            return self.play.go(self.play.now + length, lambda: watch.holds(self.play.state))
        finally:
            self.play.listeners.remove(see)


def unknown_name(test: Test, tested: Tested) -> Failure | None:
    """The first name that the machine does not have."""
    lines = [it.line for it in (*test.lines, *test.nevers)]
    for line in sorted(lines, key=lambda it: it.number):
        for kind, name in line.names:
            if message := tested.unknown(kind, name):
                return Failure(line, message)
    return None


def run(file: Path, test: Test, tested: Tested) -> Result:
    began = time.monotonic()
    result = Result(file, test.title, unknown_name(test, tested))
    if not result.failure:
        with closing(tested.answers()) as answers:
            play = Play(tested.settings, answers, test.with_table, test.seed)
            one = Run(test, play)
            result.failure = one.failure()
            result.log, result.steps, result.done = play.log(), play.steps, one.done
    result.seconds = time.monotonic() - began
    return result


def unreadable(file: Path, error: BadLine | OSError) -> Result:
    number, message = (error.number, error.message) if isinstance(error, BadLine) else (1, str(error.strerror))
    return Result(file, "cannot be read", Failure(Line(number, ""), f"{message[0].upper()}{message[1:]}."), True)


def refused(machine: Path, message: str) -> Result:
    """The result of a machine that is refused: nothing can be played on it."""
    return Result(machine, "the machine is accepted", Failure(Line(1, ""), message))
