"""Writes a test from what was played: the lines of a log, and what was marked in its trace."""
from dataclasses import dataclass
from typing import Iterable, Sequence

from pinball_help.trace import Step, steps_of

LONGEST_TITLE = 200


@dataclass(frozen=True)
class Mark:
    """What has to be at a moment. `words` is what follows `expect`, such as `event ball_saved`."""

    moment: int
    words: str


def mark_of(trace: Sequence[str], at: int) -> Mark | None:
    """The mark of a line of a trace: what it says has to be so again. None of a line that no expectation is about."""
    step = next(iter(steps_of(trace[at : at + 1])))
    if isinstance(step, str):
        return None
    words = step.words
    if step.kind == "event":
        return Mark(step.moment, f"event {words[0]}")
    if step.kind == "coil":
        length = f" {words[2]}ms" if words[1] == "pulse" else ""
        return Mark(step.moment, f"coil {words[0]} {words[1]}{length}")
    if step.kind == "skip":
        return Mark(step.moment, f"coil {words[0]} {words[1]} skipped")
    if step.kind == "final":
        return Mark(step.moment, f"player {words[0]} score {words[1]}")
    # how the machine is at the end of this moment: an expectation looks at no time between
    last = last_of_its_moment(trace, at, step)
    if step.kind == "switch":
        return Mark(step.moment, f"switch {words[0]} {last.words[1]}")
    if step.kind == "player":
        return Mark(step.moment, f"player {words[0]} {words[1]} {last.words[2]}")
    return Mark(step.moment, f"balls playfield {last.words[3]}") if step.kind == "balls" else None


def last_of_its_moment(trace: Sequence[str], at: int, step: Step) -> Step:
    """The last line of the same moment about the same switch, the same variable of a player, or the ledger."""
    same = {"switch": 1, "player": 2}.get(step.kind, 0)
    for other in steps_of(trace[at:]):
        if isinstance(other, str) or other.moment != step.moment:
            break
        if other.kind == step.kind and other.words[:same] == step.words[:same]:
            step = other
    return step


def recorded(log: Iterable[str], marks: Iterable[Mark], title: str = "") -> str:
    """The text of a file of tests. `log` has all changes of switches, so the test needs no table."""
    lines = [line for line in log if line[:1].isdigit()]
    title = " ".join("".join(it if it.isprintable() and it != "#" else " " for it in title[:LONGEST_TITLE]).split())
    found = [f"test {title}"] if title else []
    now, rest = 0, iter(sorted(dict.fromkeys(marks), key=lambda it: it.moment))
    mark = next(rest, None)
    for line in [*lines, ""]:
        moment = int(line.split(" ")[0]) if line else None
        while mark and (moment is None or mark.moment < moment):
            if mark.moment > now:
                now = mark.moment
                found.append(f"{now}")
            found.append(f"expect {mark.words}")
            mark = next(rest, None)
        if moment is not None:
            now = moment
            found.append(line)
    return "".join(f"{line}\n" for line in found)
