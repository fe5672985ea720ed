"""Plays a session by the wall's clock, and does what people ask for in between.

One thread, the loop, talks to the program and to the platform, and nothing else does. It sleeps until the next step is
due, a board sends something, or somebody calls. Whatever goes wrong, it ends with all coils off.
"""
import math
import os
import queue
import select
import time
from pathlib import Path
from typing import Callable, TypeVar

from .answers import Gone, Refused
from .clock import Clock, Suspended, Watch
from .feed import Feed
from .platforms import BoardFailure
from .session import Session, is_idle
from .settings import BadSetting, Settings
from .smart_table import SmartTable
from .view import state_of

FRAME = 0.025  # s: the page hears of changes at most so often ..
QUIET = 0.5  # s: .. and of the time at least so often
ANSWER = 120.0  # s: how long a caller waits for the loop
LONGEST_STEP = 60_000  # ms: a step goes on at most so far
PAGE = "the page"  # who holds a switch, if no page says its name

T = TypeVar("T")
Make = Callable[[], tuple[Session, Settings]]


class NotNow(Exception):
    """What was asked for cannot be done."""


class Player:
    """`make` reads the machine again, so that a new session plays what its texts say now."""

    def __init__(self, make: Make, clock: Clock | None = None, log: Path | None = None):
        self.make, self.clock, self.watch = make, clock or Clock(), Watch()
        self.watch.start()
        self.feed = Feed()
        self.log = log.open("w", buffering=1) if log else None
        self.calls: queue.SimpleQueue[Callable[[], None]] = queue.SimpleQueue()
        self.wakes, self.waker = os.pipe()
        os.set_blocking(self.waker, False)
        self.holds: dict[str, set[str]] = {}  # the switches that each page presses
        self.pressed: dict[str, int] = {}  # when each was pressed last
        self.is_over = False
        self.stop_reason = ""
        self.shown = 0.0  # when the page heard last
        self.asked = 0.0  # when the program answered last
        self.is_new = True
        self.number = 0  # of sessions that were begun again
        self.kept, self.is_other_log = 0, False  # how many steps the log's file has, and whether of another log
        self.closed: set[str] = set()  # pages that are closed
        self.session = self.begin()
        self.publish()

    def begin(self) -> Session:
        session, self.settings = self.make()
        session.begin()
        self.clock.go_on_from(0)
        self.watch.begin()
        return session

    @property
    def table(self) -> SmartTable:
        """The simulated table. With a board there is none."""
        if not self.session.table:
            raise NotNow("this is done by hand: a board is attached")
        return self.session.table

    # the loop

    def run(self) -> None:
        try:
            while not self.is_over:
                self.turn()
        finally:
            self.session.shut_down(self.stop_reason or "the table has failed")
            self.keep_log(is_last=True)
            self.publish()
            self.session.platform.close()
            if self.log:
                self.log.close()

    def turn(self) -> None:
        session = self.session
        try:
            self.wait()
            if not session.ended:
                self.watch.check()
                session.answers.check()
                session.platform.poll(self.clock.now())
            self.answer_calls()
            self.carry_out()
            self.look_whether_it_hangs()
        except Gone as gone:
            self.is_new = True
            self.session.put_off(gone.why)
        except (BoardFailure, Suspended, Refused) as failure:
            self.is_new = True
            self.session.shut_down(str(failure))
        self.keep_log()
        if time.monotonic() - self.shown > (FRAME if self.is_new else QUIET):
            self.publish()

    def wait(self) -> None:
        """Sleeps until something is to be done."""
        session = self.session
        seconds, files = session.platform.interval, [self.wakes]
        if not session.ended:
            seconds = min(seconds, self.until_beat(), self.clock.until(session.next()))
            files += [it for it in (session.platform.watched(), session.answers.watched()) if it is not None]
        if self.is_new:
            seconds = min(seconds, max(0.0, self.shown + FRAME - time.monotonic()))
        ready, _, _ = select.select(files, [], [], seconds)
        if self.wakes in ready:
            os.read(self.wakes, 4096)

    def carry_out(self) -> None:
        """Does what is due by now, each as if it were in time. Where somebody went back to, it waits for them."""
        if self.clock.is_paused and self.session.future:
            return
        while not self.session.ended and (coming := self.session.next()) is not None and coming <= self.clock.now():
            self.watch.check()
            self.session.step()
            self.clock.go_on_from(max(coming, self.session.moment))
            self.asked, self.is_new = time.monotonic(), True
            if not self.calls.empty():
                break

    def until_beat(self) -> float:
        """How many seconds it is until the program is to be asked, so that it is seen whether it hangs."""
        session = self.session
        if session.ended or session.answers.beat is None or not session.platform.held or session.future:
            return math.inf
        return max(0.0, self.asked + session.answers.beat - time.monotonic())

    def look_whether_it_hangs(self) -> None:
        """Lets a program that holds a coil answer a line in which nothing happens, if it was asked nothing for long."""
        session, now = self.session, max(self.clock.now(), self.session.moment)
        coming = session.next()
        if not self.until_beat() and (coming is None or coming > now):
            session.ask(str(now), now, None)
            self.clock.go_on_from(now)
            self.asked = time.monotonic()

    def publish(self) -> None:
        self.feed.publish(state_of(self), self.session.trace, self.session.epoch)
        self.shown, self.is_new = time.monotonic(), False

    def keep_log(self, is_last: bool = False) -> None:
        """Writes the new steps to the file of the log; all of them if somebody went back. What only waits can wait."""
        if not self.log:
            return
        if len(self.session.steps) < self.kept or self.is_other_log:
            self.log.seek(0)
            self.log.truncate()
            self.kept, self.is_other_log = 0, False
        new = self.session.steps[self.kept :]
        if new and is_idle(new[-1]) and not is_last:
            new.pop()
        self.log.write("".join(f"{step.line}\n" for step in new))
        self.kept += len(new)

    # calls of other threads

    def call(self, what: Callable[[], T]) -> T:
        """Lets the loop do something, and gives its answer, or raises what it has raised."""
        answers: queue.SimpleQueue = queue.SimpleQueue()

        def run() -> None:
            try:
                answers.put((what(), None))
            except Exception as error:
                answers.put((None, error))
                if not isinstance(error, (NotNow, ValueError)):  # (these belong to the caller alone)
                    raise

        self.calls.put(run)
        self.wake()
        value, error = answers.get(timeout=ANSWER)
        if error:
            raise error
        return value

    def post(self, what: Callable[[], None]) -> None:
        """Lets the loop do something, and does not wait."""
        self.calls.put(what)
        self.wake()

    def wake(self) -> None:
        try:
            os.write(self.waker, b".")
        except BlockingIOError:
            pass  # (it will wake up anyway)

    def answer_calls(self) -> None:
        while not self.calls.empty():
            self.is_new = True
            try:
                self.calls.get_nowait()()
            except NotNow:
                pass

    # what people do with the table

    def act(self) -> int:
        """The moment of what somebody does now. It ends a future that was known."""
        if self.session.ended:
            raise NotNow("the machine is shut down")
        self.session.branch()
        return max(self.clock.now(), self.session.moment)

    def tap(self, switch: str) -> None:
        self.table.tap(switch, self.act())

    def press(self, switch: str, who: str = PAGE) -> None:
        if who in self.closed:
            raise NotNow("this page is closed")
        table, now = self.table, self.act()
        table.press(switch, now)
        self.holds.setdefault(who, set()).add(switch)
        self.pressed[switch] = now

    def release(self, switch: str, who: str = PAGE) -> None:
        """Lets go. A switch that another page holds stays pressed, and each is pressed for as long as a click is.

        (The time of the log stands still while the program answers, so a click may be short by it.)"""
        self.holds.get(who, set()).discard(switch)
        is_held = any(switch in switches for switches in self.holds.values())
        table = self.table
        if not is_held and not self.session.ended and (switch in table.active or table.is_planned(switch)):
            shortest = self.pressed.get(switch, 0) + table.settings.times.tap
            table.release(switch, max(self.act(), shortest))

    def let_go(self, who: str) -> None:
        """A page is closed: what it held is released."""
        for switch in sorted(self.holds.get(who, set())):
            self.release(switch, who)
        self.holds.pop(who, None)

    def page_is_closed(self, who: str) -> None:
        """Nobody is there any more who could let go, also of what it asks for late."""
        self.closed.add(who)
        self.let_go(who)

    def page_is_open(self, who: str) -> None:
        self.closed.discard(who)

    def drain(self) -> None:
        if not self.table.drain(self.act()):
            raise NotNow("there is no ball on the playfield")

    def plunge(self) -> None:
        if not self.table.plunge(self.act()):
            raise NotNow("no ball lies in a plunger without a coil")

    # what people do with the time

    def by_hand(self) -> None:
        if self.session.platform.is_board:
            raise NotNow("a board is attached: the time is that of the wall")

    def pause(self, is_paused: bool) -> None:
        self.by_hand()
        self.clock.pause(is_paused)

    def set_speed(self, speed: float) -> None:
        self.by_hand()
        self.clock.set_speed(speed)

    def step(self) -> None:
        """Goes on to the next step in which something happens, and waits there."""
        self.by_hand()
        self.clock.pause(True)
        session, now, count = self.session, self.clock.now(), self.count_to_last()
        if session.ended:
            raise NotNow("the machine is shut down")
        while (coming := session.next()) is not None and (session.future or coming <= now + LONGEST_STEP):
            done = session.step()
            self.clock.go_on_from(max(coming, session.moment))
            if done and not is_idle(done):
                return
        if len(session.steps) > count:  # (it has only waited)
            session.go_to(count)
            session.branch()
        self.clock.go_on_from(max(now, session.moment))
        raise NotNow(f"nothing happens by itself within {LONGEST_STEP // 1000} s")

    def back(self) -> None:
        """Goes back to before the last step in which something happened, and waits there."""
        self.by_hand()
        self.go_to_step(max(0, self.count_to_last() - 1))

    def count_to_last(self) -> int:
        """How many steps there are up to the last one in which something happened."""
        count = len(self.session.steps)
        while count and is_idle(self.session.steps[count - 1]):
            count -= 1
        return count

    def go_to(self, moment: int) -> None:
        self.by_hand()
        every = [*self.session.steps, *self.session.future]
        self.go_to_step(sum(step.moment <= moment for step in every))
        self.clock.go_on_from(max(moment, self.session.moment))

    def go_to_step(self, count: int) -> None:
        if self.session.ended:
            raise NotNow("the machine is shut down")
        self.session.go_to(count)
        self.clock.pause(True)
        self.clock.go_on_from(self.session.moment)
        self.holds.clear()
        self.pressed.clear()

    # a new session

    def start_over(self, lines: list[str] | None = None) -> list[str]:
        """Begins again, with a log or without one. Gives the lines of the log that are refused."""
        self.by_hand()
        try:
            session, settings = self.make()
            try:
                refused = session.begin(lines)
            except BaseException:
                session.answers.close()
                raise
        except (Refused, Gone, BadSetting, OSError) as error:
            raise NotNow(f"the machine is not played: {error}") from None
        self.session.shut_down("a new session begins")
        self.session, before, self.settings = session, self.session, settings
        self.number, self.is_other_log = self.number + 1, True
        self.holds.clear()
        self.pressed.clear()
        if lines is not None:
            session.go_to(0)
        session.epoch += before.epoch + 1
        self.clock.is_paused = lines is not None
        self.clock.go_on_from(session.moment)
        self.watch.begin()
        return refused

    def shut_down(self, why: str) -> None:
        self.session.shut_down(why)

    def stop(self, why: str) -> None:
        """Ends the loop."""
        self.stop_reason, self.is_over = why, True
