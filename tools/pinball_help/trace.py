"""Reads what `pinball play` writes: times, cascades, why a command was skipped, and what the coils did."""
import re
from collections import deque
from dataclasses import dataclass, field
from typing import Iterable, Iterator, NamedTuple

from .printed import clean

SECOND = 1000
# the words of each kind of line, as docs/formats.md has them
SHAPES = (
    r"switch \S+ (?:active|inactive)", r"event \S+", r"coil \S+ (?:pulse \d{1,9} \d{1,9}|enable \d{1,9}|disable)",
    r"skip \S+ (?:pulse|enable|disable)", r"player \d{1,9} \S+ -?\d{1,18}", r"balls(?: \d{1,9}){4}",
    r"final \d{1,9} -?\d{1,18}", r"off \S+",
)
LINE = re.compile(rf"(\d{{1,15}}) (\S+) ({'|'.join(SHAPES)})")


class Step(NamedTuple):
    """A line of a trace."""

    moment: int
    owner: str
    kind: str
    words: tuple[str, ...]


@dataclass
class Stretches:
    """For how long a coil was on, and the most of it in any second.

    A trace may have a million pulses, so a stretch is counted and let go when the next one begins. The most is reached
    in a second that ends with a stretch: one that ends elsewhere can be moved, and does not get less."""

    whole: int = 0
    most: int = 0
    start: int = 0  # of the last stretch
    end: int = 0
    all: list[tuple[int, int]] | None = None  # those that are counted, where they are wanted
    recent: deque[tuple[int, int]] = field(default_factory=deque)  # those of the last second
    in_recent: int = 0  # for how long it was on in these

    def add(self, start: int, end: int) -> None:
        """Adds a stretch that does not begin before the last one."""
        start, end = max(start, self.start), max(end, self.start)
        if start > self.end:
            self.count()
            self.start = start
        self.end = max(self.end, end)

    def cut(self, moment: int) -> None:
        """Lets the last stretch end at a moment, if it would go on."""
        self.end = max(self.start, min(self.end, moment))

    def count(self) -> None:
        """Counts the last stretch."""
        length, first = self.end - self.start, self.end - SECOND
        if not length:
            return
        self.whole += length
        self.recent.append((self.start, self.end))
        self.in_recent += length
        while self.recent[0][1] <= first:
            start, end = self.recent.popleft()
            self.in_recent -= end - start
        self.most = max(self.most, self.in_recent - max(0, first - self.recent[0][0]))
        if self.all is not None:
            self.all.append((self.start, self.end))
        self.start = self.end


@dataclass
class Coil:
    """What a coil has done so far."""

    pulses: int = 0
    skipped: int = 0
    ready: int = 0
    pulse_end: int = 0
    holder: str = ""  # the owner that holds it
    since: int = 0
    on: Stretches = field(default_factory=Stretches)

    def put_off(self, moment: int) -> None:
        if self.holder:
            self.on.add(self.since, moment)
        else:
            self.on.cut(moment)
        self.holder, self.pulse_end = "", min(self.pulse_end, moment)


@dataclass(frozen=True)
class Wanted:
    """Which lines are shown."""

    owner: str = ""
    device: str = ""
    event: str = ""
    start: int = 0
    end: int | None = None

    def has(self, step: Step) -> bool:
        if step.moment < self.start or self.end is not None and step.moment > self.end:
            return False
        if self.owner and step.owner != self.owner:
            return False
        if self.device and step.kind == "event":
            return re.search(rf"(?:^|_){re.escape(self.device)}(?:_|$)", step.words[0]) is not None
        if self.device and self.device not in step.words:
            return False
        return not self.event or step.kind == "event" and re.search(self.event, step.words[0]) is not None

    @property
    def is_all(self) -> bool:
        return self == Wanted()


def time_of(moment: int) -> str:
    """A moment as minutes, seconds and thousandths."""
    return f"{moment // 60_000}:{moment // SECOND % 60:02}.{moment % SECOND:03}"


def moment_of(text: str) -> int:
    """Reads `m:ss.mmm`, a time with a unit, or milliseconds. Raises ValueError where it is none."""
    if found := re.fullmatch(r"(?:(\d+):)?(\d+(?:\.\d{1,3})?)(s?)", text):
        seconds = found[1] is not None or found[3] or "." in found[2]
        return int(found[1] or 0) * 60_000 + round(float(found[2]) * (SECOND if seconds else 1))
    if found := re.fullmatch(r"(\d+)ms", text):
        return int(found[1])
    raise ValueError(f"`{text}` is no time: write 0:05.250, 5.25s or 5250")


def steps_of(lines: Iterable[str]) -> Iterator[Step | str]:
    """The steps of a trace; any other line as it is."""
    for line in lines:
        if found := LINE.fullmatch(line):
            kind, *words = found[3].split(" ")
            yield Step(int(found[1]), found[2], kind, tuple(words))
        else:
            yield line


class Coils:
    """Follows the coils of a trace."""

    def __init__(self, keep: bool = False) -> None:
        self.coils: dict[str, Coil] = {}
        self.last = 0
        self.keep = keep  # the stretches of each coil

    def take(self, step: Step) -> str:
        """Follows a step. Of a skipped command, why it was skipped."""
        if step.moment > self.last:
            self.last = step.moment
        if step.kind not in ("coil", "skip", "off"):
            return ""
        coil = self.coils.get(step.words[0])
        if coil is None:
            coil = self.coils[step.words[0]] = Coil(on=Stretches(all=[] if self.keep else None))
        if step.kind == "skip":
            coil.skipped += 1
            return self.why(coil, step)
        action = "disable" if step.kind == "off" else step.words[1]
        if action == "pulse":
            length = int(step.words[2])
            coil.pulses += 1
            coil.pulse_end, coil.ready = step.moment + length, step.moment + 2 * length
            coil.on.add(step.moment, coil.pulse_end)
        elif action == "enable":
            coil.holder, coil.since = step.owner, step.moment
        else:
            coil.put_off(step.moment)
        return ""

    def why(self, coil: Coil, step: Step) -> str:
        if coil.holder and step.words[1] != "disable":
            return f"held by {coil.holder} since {time_of(coil.since)}"
        if step.words[1] == "disable":
            return "it is off"
        return f"not ready: pulsed, and ready at {time_of(coil.ready)}" if step.moment < coil.ready else ""

    def end(self) -> None:
        """Counts what is still on when the trace ends."""
        for coil in self.coils.values():
            if coil.holder:
                coil.on.add(coil.since, self.last)
            coil.on.count()

    def totals(self) -> list[str]:
        """A line for each coil: its pulses, how long it was on, and its greatest duty."""
        if not self.coils:
            return []
        self.end()
        width = max(len(name) for name in self.coils)
        lines = [f"{'coil':<{width}}  pulses  skipped   time on  greatest duty in one second"]
        for name, coil in self.coils.items():
            on = coil.on
            counts = f"{coil.pulses:>6}  {coil.skipped:>7}  {time_of(on.whole):>8}  {on.most / SECOND:>4.0%}"
            lines.append(f"{name:<{width}}  {counts}" + ("  (still held)" if coil.holder else ""))
        return lines


def words_of(step: Step) -> str:
    """A step in words."""
    words = step.words
    if step.kind == "event" or step.kind == "switch":
        return f"{step.kind} {' '.join(words)}"
    if step.kind == "balls":
        known, counted, transit, field_ = words
        return f"balls: {known} known = {counted} in devices + {transit} on the way + {field_} on the playfield"
    if step.kind == "coil" and words[1] == "pulse":
        return f"coil {words[0]} pulse of {words[2]} ms at {int(words[3]) / 10:g}%"
    if step.kind == "coil" and words[1] == "enable":
        return f"coil {words[0]} held at {int(words[2]) / 10:g}%"
    if step.kind == "player":
        return f"player {words[0]}: {words[1]} = {words[2]}"
    if step.kind == "final":
        return f"final score of player {words[0]}: {words[1]}"
    if step.kind == "off":
        return f"coil {words[0]} turned off at the end"
    return f"{step.kind} {' '.join(words)}"


def shown(lines: Iterable[str], wanted: Wanted) -> Iterator[str]:
    """The trace as a person reads it, and then what the coils did."""
    coils, before, was_shown, is_all = Coils(), -1, False, wanted.is_all
    for step in steps_of(lines):
        if isinstance(step, str):
            if step:
                yield clean(step)
            continue
        why = coils.take(step)
        if not (is_all or wanted.has(step)):
            continue
        if was_shown and (step.moment != before or step.kind == "switch"):
            yield ""
        time = time_of(step.moment) if step.moment != before or step.kind == "switch" else ""
        owner = "" if step.owner == "machine" else f"[{step.owner}] "
        yield clean(f"{time:>10}  {owner}{words_of(step)}" + (f" ({why})" if why else ""))
        before, was_shown = step.moment, True
    totals = coils.totals()
    if totals:
        yield ""
        yield from map(clean, totals)
