"""Machines of many modes: one to check, and one to play, in which modes are stacked on the same events."""
import random
from collections.abc import Iterator

import texts
from cascades import SWITCHES
from texts import VERSION

# Of the largest machine that is checked.
MODES = 64
BINDINGS = 16384
EVENTS = 1800  # so many are handled, and as many are posted
# Of the machine that is played.
STACKED = 8


def bundle(machine: str, modes: dict[str, str]) -> bytes:
    """A bundle of a machine text, and a text for each mode."""
    parts = (f"@ modes/{name}/config/{name}.yaml\n{text}" for name, text in modes.items())
    return texts.bundle(machine) + "".join(parts).encode()


def settings(starts: str, stops: str, priority: int) -> str:
    """How a text begins whose mode needs no game: each of these events is one binding."""
    return (
        f"{VERSION}mode:\n  start_events: {starts}\n  stop_events: {stops}\n  priority: {priority}\n"
        "  game_mode: no\n  stop_on_ball_end: no\nevent_player:\n"
    )


def largest(part: int = 1) -> bytes:
    """64 modes that share one `part`-th of 16,384 bindings: two of each start and stop it, and each of the
    others posts an event, at one that other modes handle too. Accepted: what they post has no handler."""
    names = [f"m_{n}" for n in range(MODES)]
    machine = f"{VERSION}modes: {', '.join(names)}\n"
    return bundle(machine, {name: "".join(handlers(n, part)) for n, name in enumerate(names)})


def handlers(mode: int, part: int) -> Iterator[str]:
    draw, events, count = random.Random(mode), EVENTS // part, BINDINGS // MODES // part - 2
    yield settings(f"start_{mode}", f"stop_{mode}", 100 + mode % 7)
    for n in range(mode * count, (mode + 1) * count):
        yield f"  handled_{n % events}: posted_{draw.randrange(events)}\n"


def machine() -> bytes:
    """30 switches, and 8 modes that handle the activation of each: the first switch starts all of them, and the second
    stops every other one."""
    names = [f"m_{n}" for n in range(STACKED)]
    switches = "".join(f"  s_{n}:\n    number: {n}\n    debounce: quick\n" for n in range(SWITCHES))
    text = f"{VERSION}modes: {', '.join(names)}\nswitches:\n{switches}"
    return bundle(text, {name: "".join(stacked(n)) for n, name in enumerate(names)})


def stacked(mode: int) -> Iterator[str]:
    yield settings("s_0_active", "s_1_active" if mode % 2 else "never", 100 * mode)
    for n in range(SWITCHES):
        yield f"  s_{n}_active: lit_{mode}_{n}\n"
