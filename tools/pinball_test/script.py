"""A test as it was read: its lines, which are actions and expectations."""
from dataclasses import dataclass, field

from .happenings import Condition, Happening


@dataclass(frozen=True)
class Line:
    """A line of a test, and the names in it: each with its kind."""

    number: int
    said: str
    names: tuple[tuple[str, str], ...] = ()


@dataclass(frozen=True)
class Action:
    line: Line


@dataclass(frozen=True)
class Hit(Action):
    switches: tuple[str, ...]
    times: int = 1


@dataclass(frozen=True)
class Hold(Action):
    switches: tuple[str, ...]
    length: int | None = None  # in ms; none where they stay active


@dataclass(frozen=True)
class Release(Action):
    switches: tuple[str, ...]


@dataclass(frozen=True)
class Wait(Action):
    length: int


@dataclass(frozen=True)
class LogLine(Action):
    moment: int
    switch: str = ""
    level: int = 0


@dataclass(frozen=True)
class StartGame(Action):
    players: int = 1


@dataclass(frozen=True)
class WaitForBalls(Action):
    count: int


@dataclass(frozen=True)
class Plunge(Action):
    pass


@dataclass(frozen=True)
class Drain(Action):
    pass


@dataclass(frozen=True)
class Expect:
    """What has to be, or with `no` may not be: happenings in their order, or a condition."""

    line: Line
    happenings: tuple[Happening, ...] = ()
    condition: Condition | None = None
    times: int | None = None
    is_no: bool = False
    within: int | None = None


@dataclass(frozen=True)
class Never:
    line: Line
    happening: Happening | None = None
    condition: Condition | None = None


@dataclass
class Test:
    title: str
    number: int = 1  # the line where it begins
    lines: list[Action | Expect] = field(default_factory=list)
    nevers: list[Never] = field(default_factory=list)
    head: int = 0  # how many of its lines are above the first `test` of the file
    with_table: bool = False
    seed: int | None = None  # none: that of `table.yaml`


class BadLine(Exception):
    """A line that is none of a test."""

    def __init__(self, number: int, message: str):
        super().__init__(message)
        self.number, self.message = number, message
