"""growing.py PROGRAM: what a line of `play` costs as the plan grows, in instructions. bench/instructions starts it.

PROGRAM is pinball, proved: of an unproved build valgrind reports no count. For each size of a plan it plays a log, and
then an empty one, under `valgrind --tool=callgrind`. The difference is what the lines of the log took, so that reading
the configuration and making the machine are left out. Each line of output has the size, the lines of output, the
instructions for each of them, and their ratio to those of the smallest size. It ends with status 1 if a ratio is
above its bar."""
import dataclasses
import pathlib
import sys
import tempfile
from collections.abc import Callable

import stacked
from bars import Bars
from counting import counted
from texts import VERSION

SWITCHES = "switches:\n  s: {number: 1, debounce: quick}\n  t: {number: 2, debounce: quick}\n"
MODE = "mode:\n  start_events: s_active\n  stop_events: never\n  game_mode: no\n  stop_on_ball_end: no\n"
TICKS = 10_000
CHANGES = 10_000


@dataclasses.dataclass(frozen=True)
class Growing:
    what: str
    sizes: tuple[int, int]
    bar: float
    machine: Callable[[int], bytes]
    log: Callable[[int], str]


def with_modes(machine: str, modes: dict[str, str]) -> bytes:
    """A bundle of a machine text and of modes by name."""
    listed = f"modes: {', '.join(modes)}\n" if modes else ""
    return stacked.bundle(VERSION + listed + machine, {name: VERSION + text for name, text in modes.items()})


def toggles(count: int) -> str:
    """So many changes of the switch t, to active and back, 10 ms apart."""
    return "".join(f"{10 * n} t {1 - n % 2}\n" for n in range(count))


def timers(count: int) -> bytes:
    """So many timers of a mode, each with an interval of its own of about a second."""
    lines = "".join(f"  t_{n}: {{start_running: yes, tick_interval: {1000 + n}ms}}\n" for n in range(count))
    return with_modes(SWITCHES, {"m": f"{MODE}timers:\n{lines}"})


def ticks(count: int) -> str:
    """The mode starts, and then the log waits until these timers have ticked about TICKS times."""
    return "0 s 1\n" + "".join(f"{100 * n}\n" for n in range(1, 10 * TICKS // count))


def stopped(count: int) -> bytes:
    """An event that the machine handles, and so many modes that never run, 100 times each."""
    machine = SWITCHES + "event_player:\n  t_active: a\n"
    handlers = "".join(f"  t_active{{current_player.score >= {n}}}: a\n" for n in range(100))
    return with_modes(machine, {f"m{n}": f"{MODE}event_player:\n{handlers}" for n in range(count)})


def resting(count: int) -> bytes:
    """So many ball devices without a ball, and a switch that a ball on the playfield hits."""
    switches = "switches:\n  t: {number: 1, debounce: quick, tags: playfield_active}\n"
    switches += "".join(f"  b_{n}: {{number: {2 + n}}}\n" for n in range(count))
    devices = "".join(f"  d_{n}: {{ball_switches: b_{n}, eject_coil: c}}\n" for n in range(count))
    return with_modes(f"{switches}coils:\n  c:\nball_devices:\n{devices}", {})


# ---- a mode that starts and stops again and again

TOGGLED = MODE.replace("s_active", "t_active").replace("never", "t_inactive")


def with_handlers(count: int) -> bytes:
    """A mode with so many handlers of an event, of which the machine has as many."""
    handlers = "event_player:\n" + "".join(f"  e{{current_player.score >= {n}}}: a\n" for n in range(count))
    return with_modes(SWITCHES + handlers, {"m": TOGGLED + handlers})


def with_coils(count: int) -> bytes:
    """A mode that holds so many coils while it runs."""
    coils = "coils:\n" + "".join(f"  c_{n}: {{allow_enable: yes}}\n" for n in range(count))
    held = "".join(f"    c_{n}: enable\n" for n in range(count))
    return with_modes(SWITCHES + coils, {"m": f"{TOGGLED}coil_player:\n  mode_m_started:\n{held}"})


def with_counters(count: int) -> bytes:
    """A mode with so many counters."""
    counters = "".join(f"  k_{n}: {{count_events: e}}\n" for n in range(count))
    return with_modes(SWITCHES, {"m": f"{TOGGLED}counters:\n{counters}"})


ALL = (
    Growing("ticks of timers", (128, 512), 1.3, timers, ticks),
    Growing("stopped modes that handle an event", (0, 64), 1.1, stopped, lambda _: toggles(CHANGES)),
    Growing("ball devices at rest, hits of the playfield", (30, 240), 1.2, resting, lambda _: toggles(CHANGES)),
    # (the larger has twice as much to do; with coils it also writes twice as many lines)
    Growing("starts and stops of a mode with handlers", (4000, 8000), 2.1, with_handlers, lambda _: toggles(100)),
    Growing("starts and stops of a mode that holds coils", (128, 256), 1.05, with_coils, lambda _: toggles(1000)),
    Growing("starts and stops of a mode with counters", (512, 1024), 2.1, with_counters, lambda _: toggles(1000)),
)


def of_a_line(program: str, folder: pathlib.Path, growing: Growing, size: int) -> float:
    """The instructions for each line that the log makes the program write."""
    machine, log, empty = folder / "machine", folder / "log", folder / "empty"
    machine.write_bytes(growing.machine(size))
    log.write_text(growing.log(size))
    empty.write_text("")
    whole, start = (counted([program, "play", str(played)], machine) for played in (log, empty))
    if whole.status != 0:
        sys.exit(f"{growing.what}, {size}: status {whole.status}")
    each = (whole.instructions - start.instructions) / whole.lines
    print(f"{size:6} {whole.lines:8} lines {each:10.0f} instructions a line", end="")
    return each


def main() -> None:
    if len(sys.argv) != 2:
        sys.exit(__doc__)
    bars = Bars()
    with tempfile.TemporaryDirectory(prefix="pinball_bench") as folder:
        for growing in ALL:
            print(f"\n{growing.what}")
            first = of_a_line(sys.argv[1], pathlib.Path(folder), growing, growing.sizes[0])
            print()
            ratio = of_a_line(sys.argv[1], pathlib.Path(folder), growing, growing.sizes[1]) / first
            print(f" {ratio:6.2f}, bar {growing.bar} {bars.judged(ratio, growing.bar).strip()}", flush=True)
    sys.exit(bars.status())


main()
