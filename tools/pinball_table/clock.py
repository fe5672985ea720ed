"""The clock of the log: how many milliseconds have passed for the machine.

The limits of a coil are proved in the log's milliseconds. They hold by the wall too as long as this clock never goes
faster than the wall between two commands. So while an alarm is late, and while the program thinks, it stands still:
when something of moment T has been carried out, it goes on from T.
"""
import threading
import time
from typing import Callable

MS = 1_000_000  # nanoseconds
LONGEST_WAIT = 0.5  # s: how long the loop waits at most
BEAT = 0.2  # s: how often a thread of its own looks whether this program still runs
LATEST = 2.0  # s: if it did not look for so long, the computer was suspended, or this program was stopped
SPEEDS = (0.1, 10.0)


class Suspended(Exception):
    """The computer, or this program, was stopped for a while."""


class Clock:
    def __init__(self, wall: Callable[[], int] = time.monotonic_ns):
        self.wall = wall
        self.at = 0  # the moment ..
        self.since = wall()  # .. that it was at this time of the wall
        self.speed = 1.0
        self.is_paused = False

    def now(self) -> int:
        if self.is_paused:
            return self.at
        return self.at + int((self.wall() - self.since) * self.speed) // MS

    def go_on_from(self, moment: int) -> None:
        """What belongs to this moment has been carried out just now."""
        self.at, self.since = moment, self.wall()

    def set_speed(self, speed: float) -> None:
        self.go_on_from(self.now())
        self.speed = min(max(speed, SPEEDS[0]), SPEEDS[1])

    def pause(self, is_paused: bool) -> None:
        self.go_on_from(self.now())
        self.is_paused = is_paused

    def until(self, moment: int | None) -> float:
        """How many seconds of the wall the loop may wait for this moment."""
        if self.is_paused or moment is None:
            return LONGEST_WAIT
        left = (moment - self.at) * MS / self.speed - (self.wall() - self.since)
        return min(max(left / 1e9, 0.0), LONGEST_WAIT)


class Watch:
    """Notices that the computer was suspended, or this program stopped. Its time goes on while the computer sleeps."""

    def __init__(self, now: Callable[[], float] = lambda: time.clock_gettime(time.CLOCK_BOOTTIME)):
        self.now = now
        self.begin()

    def begin(self) -> None:
        self.longest, self.last = 0.0, self.now()

    def beat(self) -> None:
        """What the thread does again and again."""
        now = self.now()
        self.longest, self.last = max(self.longest, now - self.last), now

    def check(self) -> None:
        """Raises Suspended. The thread may not have had its turn yet."""
        late = max(self.longest, self.now() - self.last)
        if late > LATEST:
            raise Suspended(f"the computer was suspended, or this program was stopped, for {late:.0f} s")

    def start(self) -> None:
        def run() -> None:
            while True:
                time.sleep(BEAT)
                self.beat()

        threading.Thread(target=run, daemon=True).start()
