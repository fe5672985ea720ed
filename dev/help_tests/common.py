"""What the tests of tools/pinball-help share: the list of tests, and the program that is asked."""
import sys
import time
from pathlib import Path
from typing import Callable

from pinball_help.program import Program

TOP = Path(__file__).resolve().parents[2]
PATH = Path(sys.argv[1] if sys.argv[1:] else TOP / "crates/pinball/out/pinball").resolve()
IS_UNPROVED = b"__asan_init" in PATH.read_bytes() if PATH.is_file() else False
PROGRAM = Program(str(PATH), "an unproved build" if IS_UNPROVED else "given")
EXAMPLES = sorted(it.parent for it in (TOP / "examples").glob("*/expected-check"))
TESTS: list[Callable[[], None]] = []
QUIET = 0.14  # s: what the sum below takes on the computer on which limits of time were set, with nothing beside it


class NotTried(Exception):
    """What a test needs is not on this computer."""


def test(function: Callable[[], None]) -> Callable[[], None]:
    TESTS.append(function)
    return function


def slowness() -> float:
    """How many times as long work takes here and now as on a quiet computer, by a fixed sum; 1 if it takes no longer.

    Other work makes a computer slow, also by processor time. A limit of seconds is for a quiet one."""
    start = time.process_time()
    sum(it * it for it in range(2_000_000))
    return max(1.0, (time.process_time() - start) / QUIET)


def takes_longer(seconds: float, limit: float) -> bool:
    """Whether so many seconds of processor time are more than a limit for a quiet computer. How slow this one is may
    change from second to second, on a busy host: so that is measured a few times."""
    return seconds > limit and seconds > limit * max(slowness() for _ in range(5))
