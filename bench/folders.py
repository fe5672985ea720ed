"""Configurations that double: whatever takes time as the product of two of their sizes takes four times as long."""
import pathlib
import random
import re
from collections.abc import Iterator

import stacked
import texts
from measuring import KIB
from texts import VERSION

# Of the largest: all of these are near a limit of the plan, and are accepted.
MODES = 64
HANDLED = 56  # events of each mode
BALL_DEVICES = 192
COUNTERS = 768
MODE = 16 * KIB  # bytes of a mode's text in a folder


def folder(path: pathlib.Path, count: int) -> None:
    """Writes the folder of a machine with so many modes, each of which has event players and counters, and lights
    that fill its text."""
    names = [f"m_{n}" for n in range(count)]
    write(path / "config" / "config.yaml", f"{VERSION}modes: {', '.join(names)}\n")
    for n, name in enumerate(names):
        front = VERSION + "".join(players(n, 40)) + "".join(counters(n, 8))
        lights = texts.lights(random.Random(n), MODE - len(front))
        write(path / "modes" / name / "config" / f"{name}.yaml", front + "".join(lights))


def read(path: pathlib.Path, without: tuple[str, ...] = ()) -> bytes:
    """The bundle of a folder: the text of the machine, and those of its modes, without some sections."""
    modes = {mode.parent.parent.name: left(mode, without) for mode in sorted(path.glob("modes/*/config/*.yaml"))}
    return stacked.bundle(left(path / "config" / "config.yaml", without), modes)


def left(path: pathlib.Path, without: tuple[str, ...]) -> str:
    """What is left of a text without some sections."""
    text = path.read_text()
    for section in without:
        text = re.sub(rf"^{section}:\n(?: .*\n|\n)*", "", text, flags=re.MULTILINE)
    return text


def write(path: pathlib.Path, text: str) -> None:
    path.parent.mkdir(parents=True, exist_ok=True)
    path.write_text(text)


def players(mode: int, count: int) -> Iterator[str]:
    yield "event_player:\n"
    for n in range(count):
        yield f"  handled_{mode}_{n}: posted\n"


def counters(mode: int, count: int) -> Iterator[str]:
    yield "counters:\n"
    for n in range(count):
        yield f"  c_{mode}_{n}:\n    count_events: hit\n    events_when_hit: was_hit\n    events_when_complete: done\n"


def modes(part: int) -> bytes:
    """One `part`-th of 64 modes, each of which handles 56 events of its own."""
    count = MODES // part
    names = [f"m_{n}" for n in range(count)]
    machine = f"{VERSION}modes: {', '.join(names)}\n"
    return stacked.bundle(machine, {name: VERSION + "".join(players(n, HANDLED)) for n, name in enumerate(names)})


def ball_devices(part: int) -> bytes:
    """One `part`-th of 192 ball devices, and of 768 counters."""
    count = BALL_DEVICES // part
    switches = "".join(f"  s_{n}: {{number: {n}}}\n" for n in range(count))
    devices = "".join(f"  d_{n}: {{ball_switches: s_{n}, eject_coil: c}}\n" for n in range(count))
    rows = "".join(counters(0, COUNTERS // part))
    return texts.bundle(f"{VERSION}switches:\n{switches}coils:\n  c:\nball_devices:\n{devices}{rows}")
