"""Machines of many devices: one to play, and one to check."""
import random
from collections.abc import Iterator

import stacked
from cascades import SWITCHES
from texts import VERSION

# Of the machine that is played.
BLOCKS = 200
TIMERS = 50
STEPS = 3  # of an accrual or a sequence
LINES = 1_000_000
# Of the largest machine that is checked.
ROWS = 1024


def machine() -> bytes:
    """30 quick switches and 200 logic blocks, half of them in a mode, which the first switch starts, with 50 timers."""
    switches = "".join(f"  s_{n}:\n    number: {n}\n    debounce: quick\n" for n in range(SWITCHES))
    text = f"{VERSION}modes: base\nswitches:\n{switches}" + "".join(blocks(0))
    mode = (
        f"{VERSION}mode:\n  start_events: s_0_active\n  stop_events: never\n  priority: 100\n  game_mode: no\n"
        "  stop_on_ball_end: no\n"
    )
    return stacked.bundle(text, {"base": mode + "".join(blocks(1)) + "".join(timers())})


def blocks(text: int) -> Iterator[str]:
    """Half of the blocks: as many counters as accruals and sequences together."""
    draw, half = random.Random(text), BLOCKS // 2
    event = lambda: f"s_{draw.randrange(SWITCHES)}_active"
    yield "counters:\n"
    for n in range(half // 2):
        yield f"  c_{text}_{n}:\n    count_events: {event()}\n    count_complete_value: {2 + n % 9}\n"
        yield "    disable_on_complete: no\n" + ("    multiple_hit_window: 100ms\n" if n % 2 else "")
    for section, count in (("accruals", half // 4), ("sequences", half - half // 2 - half // 4)):
        yield f"{section}:\n"
        for n in range(count):
            events = ", ".join(event() for _ in range(STEPS))
            yield f"  {section[0]}_{text}_{n}:\n    events: [{events}]\n    disable_on_complete: no\n"


def timers() -> Iterator[str]:
    draw = random.Random(2)
    yield "timers:\n"
    for n in range(TIMERS):
        pause, start = (f"s_{draw.randrange(SWITCHES)}_active" for _ in range(2))
        yield f"  t_{n}:\n    end_value: {5 + n}\n    tick_interval: {200 + 7 * n}ms\n    start_running: yes\n"
        yield "    restart_on_complete: yes\n"
        yield f"    control_events: [{{event: {pause}, action: pause}}, {{event: {start}, action: start}}]\n"


def log() -> str:
    """1,000,000 changes of the switches, 1 to 8 ms apart."""
    draw = random.Random(9)
    levels, at, parts = [0] * SWITCHES, 0, []
    for _ in range(LINES):
        n = draw.randrange(SWITCHES)
        levels[n] ^= 1
        at += draw.randrange(1, 9)
        parts.append(f"{at} s_{n} {levels[n]}\n")
    return "".join(parts)


def largest(part: int = 1) -> Iterator[str]:
    """One `part`-th of 1,024 devices: counters, each with an event of its own that hits it."""
    yield VERSION + "counters:\n"
    for n in range(ROWS // part):
        yield f"  c_{n}:\n    count_events: hit_{n}\n    count_complete_value: 3\n"
