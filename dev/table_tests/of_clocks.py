"""Tests of the clock: it is never faster than the wall, whatever is late."""
import random
import time
from typing import Iterator

from pinball_table.clock import MS, SPEEDS, Clock, Suspended, Watch
from pinball_table.machine import read_machine
from pinball_table.platforms import Command
from pinball_table.player import Player
from pinball_table.session import Session
from pinball_table.settings import read_settings
from pinball_table.smart_table import SmartTable

from .harness import equal, folder_of, replayed, test

# a timer pulses the coil each 100 ms, and a hit of the switch pulses it too
MACHINE = """
modes: m
switches:
  s_go: {number: 1, debounce: quick}
  s_hit: {number: 2, debounce: quick}
coils:
  c: {number: 1, default_pulse_ms: 20}
coil_player:
  s_hit_active: {c: pulse}
"""
MODE = """
mode: {start_events: s_go_active, game_mode: no}
timers:
  t: {start_running: yes, tick_interval: 100ms}
coil_player:
  timer_t_tick: {c: pulse}
"""
LATEST = 0.06  # s: an alarm is made late by so much at most


class Wall:
    """A wall clock that is set by hand, in nanoseconds."""

    def __init__(self) -> None:
        self.now = 0

    def clock(self) -> Clock:
        return Clock(lambda: self.now)


@test
def the_clock_goes_with_the_wall() -> None:
    wall = Wall()
    clock = wall.clock()
    wall.now = 1500 * MS + MS - 1
    equal(clock.now(), 1500)
    clock.go_on_from(1400)
    equal(clock.now(), 1400)
    wall.now += 50 * MS
    equal((clock.now(), clock.until(1500)), (1450, 0.05))


@test
def the_clock_is_paused_and_has_a_speed() -> None:
    wall = Wall()
    clock = wall.clock()
    wall.now = 100 * MS
    clock.pause(True)
    wall.now += 1000 * MS
    equal(clock.now(), 100)
    clock.pause(False)
    clock.set_speed(10)
    wall.now += 10 * MS
    equal((clock.now(), clock.until(300)), (200, 0.01))
    clock.set_speed(0.5)
    wall.now += 10 * MS
    equal(clock.now(), 205)
    for asked, speed in (1000, SPEEDS[1]), (0, SPEEDS[0]):
        clock.set_speed(asked)
        equal(clock.speed, speed)


@test
def a_suspended_computer_is_noticed() -> None:
    """Whether the thread that beats has its turn first or not."""
    for passed, beats_first, is_noticed in (0.3, True, False), (1.9, False, False), (3, True, True), (3, False, True):
        times = [0.0]
        watch = Watch(lambda: times[0])
        for _ in range(3):
            times[0] += 0.2
            watch.beat()
            watch.check()
        times[0] += passed
        if beats_first:
            watch.beat()
        try:
            watch.check()
            assert not is_noticed, passed
        except Suspended as suspended:
            assert is_noticed and "for 3 s" in str(suspended), suspended
        watch.begin()
        watch.check()


@test
def two_stimuli_are_never_nearer_by_the_wall_than_by_the_log() -> None:
    """Of a clock that is asked at random times, with work that takes a random time."""
    drawn, wall = random.Random(1), Wall()
    clock = wall.clock()
    done: list[tuple[int, int]] = []
    for _ in range(3000):
        wall.now += drawn.randrange(30 * MS)
        moment = max(clock.now() - drawn.randrange(20), done[-1][0] if done else 0)  # (late by up to 20 ms)
        wall.now += drawn.randrange(5 * MS)  # (until the command is carried out)
        clock.go_on_from(moment)
        done.append((moment, wall.now))
    for (first, at), (second, then) in zip(done, done[1:]):
        assert then - at >= (second - first) * MS, (first, second, then - at)


class LateTable(SmartTable):
    """Makes alarms late, and keeps when each pulse was carried out."""

    def __init__(self, *words: object):
        super().__init__(*words)  # type: ignore[arg-type]
        self.drawn = random.Random(7)
        self.pulses: list[tuple[int, int]] = []

    def poll(self, now: int) -> None:
        time.sleep(self.drawn.random() * LATEST)

    def carry_out(self, command: Command, moment: int) -> None:
        self.pulses.append((moment, time.monotonic_ns()))


def late_pulses(clock: Clock) -> Iterator[tuple[int, int]]:
    """For each pulse and the next one: how far they are apart by the log and by the wall."""
    with folder_of(MACHINE, {"m": MODE}) as folder:
        machine = read_machine(folder)
        table = LateTable(read_settings(machine))
        settings = read_settings(machine)
        player = Player(lambda: (Session(machine, replayed(folder), table), settings), clock)
        table.at(10, "set", "s_go", True)
        for moment in range(40, 2000, 70):
            table.at(moment, "set", "s_hit", moment // 70 % 2 == 0)
        while player.session.moment < 1500:
            player.turn()
        player.session.shut_down("the end")
        assert len(table.pulses) > 15, table.pulses
        for (first, at), (second, then) in zip(table.pulses, table.pulses[1:]):
            yield second - first, then - at


@test
def late_alarms_bring_no_two_pulses_nearer() -> None:
    for by_log, by_wall in late_pulses(Clock()):
        assert by_wall >= by_log * MS, f"{by_log} ms by the log, {by_wall / MS:.1f} by the wall"


@test
def a_clock_that_runs_on_would_bring_them_nearer() -> None:
    """So the test above can fail."""

    class RunsOn(Clock):
        def go_on_from(self, moment: int) -> None:
            pass

    assert any(by_wall < by_log * MS for by_log, by_wall in late_pulses(RunsOn()))
