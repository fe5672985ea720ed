"""Tests of the answers, and of sessions by the log's time."""
import random
import subprocess
import sys
import tempfile
from pathlib import Path
from typing import Any, Callable

from pinball_table.answers import LATEST, Live, Refused, Replay, is_wait, without_waits
from pinball_table.machine import read_machine
from pinball_table.session import Session, log_lines
from pinball_table.settings import read_settings
from pinball_table.smart_table import SmartTable
from pinball_table.view import devices_of, game_of

from . import games
from .harness import COMPLETE, EXAMPLES, SLOW, TOP, equal, folder_of
from .harness import played, programs, replayed, session_of, test, without_notes

LONG = 60_000  # ms of the log


def lines_of(folder: Path) -> list[str]:
    return log_lines((folder / "log").read_text())


class LogHand:
    """Plays by the log's time."""

    def __init__(self, session: Session, table: SmartTable):
        self.session, self.table = session, table

    def tap(self, switch: str) -> None:
        self.table.tap(switch, self.session.moment)
        self.session.run_until(self.session.moment + 150)

    def hold(self, switch: str) -> None:
        self.table.press(switch, self.session.moment)

    def let_go(self, switch: str) -> None:
        self.table.release(switch, self.session.moment)

    def drain(self) -> None:
        assert self.table.drain(self.session.moment)

    def until(self, what: str, holds: Callable[[dict[str, Any]], bool]) -> None:
        monitor = self.session.monitor
        for _ in range(LONG // 100):
            state = {"active": self.table.active, "loose": self.table.loose, "ledger": monitor.ledger,
                     **game_of(monitor), **devices_of(monitor, self.session.moment)}
            if holds(state):
                return
            self.session.run_until(self.session.moment + 100)
        raise AssertionError(f"not within {LONG} ms: {what}; {state}")


def whole_game() -> tuple[Session, SmartTable]:
    session, table = session_of(COMPLETE)
    games.play(LogHand(session, table))
    return session, table


@test
def a_whole_game_by_the_log() -> None:
    session, _ = whole_game()
    equal(played(session.log(), COMPLETE), session.trace)
    assert len(session.log()) < 80, session.log()


@test
def the_log_of_each_example_is_opened() -> None:
    for folder in EXAMPLES:
        machine = read_machine(folder)
        session = Session(machine, replayed(folder), SmartTable(read_settings(machine)))
        session.first = session.table.state() if session.table else None
        equal(session.load(lines_of(folder)), [])
        session.shut_down("the end")
        wanted = (folder / "expected-play").read_text().splitlines()
        equal([line for line in session.trace if not line.startswith("#")], wanted)
        equal([it.moment for it in session.steps], sorted(it.moment for it in session.steps))


@test
def each_example_plays_without_a_table_yaml() -> None:
    """If it has a trough, a ball comes to the playfield once a game has begun."""
    for folder in EXAMPLES:
        session, table = session_of(folder)
        session.run_until(2000)
        if button := session.machine.start_button():
            table.tap(button, 2000)
        session.run_until(6000)
        equal((folder.name, table.loose), (folder.name, int(bool(session.machine.tagged("trough")))))
        session.shut_down("the end")
        equal(played(session.log(), folder), without_notes(session.trace))


@test
def a_folder_by_pinball_help_plays() -> None:
    """What `errors --keep` leaves of a folder in which much is refused."""
    with tempfile.TemporaryDirectory(prefix="test-table-") as room:
        folder = Path(room) / "kept"
        words = ["errors", str(TOP / "tools/pinball_help/planted"), "--keep", str(folder)]
        command = [sys.executable, str(TOP / "tools/pinball-help"), *words, "--program", programs["pinball"]]
        equal(subprocess.run(command, capture_output=True, timeout=SLOW).returncode, 1)
        session, table = session_of(folder)
        session.run_until(1000)
        for switch in session.machine.switches:
            table.tap(switch, session.moment)
            session.run_until(session.moment + 200)
        assert len(session.trace) > len(session.machine.switches), session.trace
        session.shut_down("the end")
        equal(played(session.log(), folder), without_notes(session.trace))


@test
def lines_that_are_refused_are_left_out() -> None:
    session, _ = session_of(TOP / "examples/first")
    bad = [
        "9 s_nope 1", "4", "6 s_drain 2", "x", "7 s_drain 0 0", "٩ s_drain 1", " 6 s_drain 0", "6 s_drain 0 ",
        "6\xa0s_drain 0", "  ", "0" * 21, f"{LATEST + 1}", f"{2**64} s_drain 0"]
    good = ["5 s_drain 1", "8\ts_drain   0", "00000000000000000009 s_drain 1", f"{LATEST} s_drain 0"]
    log = ["# a log", "", *good[:1], *bad, *good[1:]]
    refused = [it for it in played(log, TOP / "examples/first") if it.startswith("refused")]
    equal(len(refused), len(bad))
    equal(session.load(log_lines("\r\n".join(log))), bad)
    equal(session.log(), ["5 s_drain 1", "8 s_drain 0", "9 s_drain 1", f"{LATEST} s_drain 0"])


@test
def a_session_goes_back_and_forth() -> None:
    session, table = session_of(COMPLETE)
    session.run_until(1000)
    table.tap("s_start", 1000)
    session.run_until(6000)
    states = []
    count = len(session.steps)
    for at in range(count + 1):
        session.go_to(at)
        states.append((table.state(), list(session.trace), session.monitor.ledger, session.moment))
    for at in random.Random(1).sample(range(count + 1), count):
        session.go_to(at)
        equal((table.state(), session.trace, session.monitor.ledger, session.moment), states[at])
        if session.future:
            session.step()
            equal((table.state(), session.trace, session.monitor.ledger, session.moment), states[at + 1])


@test
def a_session_that_went_back_goes_on_as_before() -> None:
    """The table and the program do again what they did, if nobody does anything else."""
    session, table = session_of(COMPLETE)
    session.run_until(1000)
    table.tap("s_start", 1000)
    session.run_until(8000)
    trace, log = list(session.trace), session.log()
    for moment in (1065, 1700, 3000, 8000):
        session.go_to(sum(it.moment <= moment for it in session.steps))
        session.branch()
        session.run_until(8000)
        equal((session.trace, session.log()), (trace, log))


@test
def another_way_is_taken_from_an_earlier_moment() -> None:
    session, table = session_of(COMPLETE)
    session.run_until(1000)
    table.tap("s_start", 1000)
    session.run_until(5000)
    session.go_to(sum(it.moment <= 4000 for it in session.steps))
    session.branch()
    table.tap("s_left_sling", session.moment)
    session.run_until(5000)
    equal(session.monitor.players, {1: {"score": 10}})
    equal(played(session.log(), COMPLETE), session.trace)


@test
def a_log_that_was_opened_is_played_on() -> None:
    machine = read_machine(COMPLETE)
    table = SmartTable(read_settings(machine))
    session = Session(machine, replayed(COMPLETE), table)
    session.first = table.state()
    session.load(lines_of(COMPLETE))
    session.go_to(sum(it.moment <= 2000 for it in session.steps))  # a ball rolls to the plunger
    equal((table.loose, table.flying), (0, 1))
    session.branch()
    session.run_until(5000)
    equal((table.loose, table.flying), (1, 0))
    table.drain(5000)
    session.run_until(9000)
    equal(session.monitor.coils["c_trough"].pulses, 2)
    equal(played(session.log(), COMPLETE)[: len(session.trace)], session.trace)


@test
def a_replay_and_a_live_program_answer_the_same() -> None:
    """Line by line, also after going back."""
    log = without_waits([it for it in lines_of(COMPLETE) if not it.startswith("#")])[:24]
    replay = replayed(COMPLETE)
    live = Live(programs["live"], COMPLETE, SLOW)
    for lines in log[:14], log:
        found = [[it for it in answers.ask_log(lines) if it[1] or not is_wait(it[0])] for answers in (replay, live)]
        joined = [[line for _, said in it for line in said] for it in found]
        equal(joined[0], joined[1])
        for answers in (replay, live):
            answers.rewind([])
    for answers in (replay, live):
        answers.rewind(log[:12])
        equal(answers.ask("3650"), [])
    equal(replay.ask("3900 s_left_button 0"), live.ask("3900 s_left_button 0"))
    equal(replay.ask("4300 s_left_button 1"), live.ask("4300 s_left_button 1"))
    off = ["4300 machine off c_left_main", "4300 machine off c_left_hold"]
    equal((replay.end(), live.end()), (off, off))


@test
def a_machine_that_is_refused_is_not_played() -> None:
    with folder_of("switches: {a b: {number: 1}}") as folder:
        for make in (lambda: replayed(folder), lambda: Live(programs["live"], folder, SLOW)):
            try:
                make()
            except Refused as refused:
                assert "error 6 BadValue" in str(refused) and str(refused).endswith("no"), refused
            else:
                raise AssertionError("it is played")


@test
def a_machine_of_too_much_work_is_not_played() -> None:
    with tempfile.TemporaryDirectory() as room:
        program = Path(room) / "live"
        program.write_text("#!/bin/sh\necho work 1000001\necho 'refused: the work bound is above 1000000'\nexit 1\n")
        program.chmod(0o755)
        try:
            Live(str(program), COMPLETE, SLOW)
        except Refused as refused:
            assert str(refused).startswith("work 1000001\nrefused: the work bound"), refused
        else:
            raise AssertionError("it is played")


@test
def a_line_that_is_refused_is_reported() -> None:
    for answers in (replayed(COMPLETE), Live(programs["live"], COMPLETE, SLOW)):
        answers.ask("10 s_ramp 1")
        try:
            answers.ask("9 s_ramp 0")
        except Refused as refused:
            assert "1 Backwards" in str(refused), refused
        else:
            raise AssertionError("it is accepted")
        answers.close()


@test
def what_is_due_is_known_to_a_replay() -> None:
    answers = Replay(programs["pinball"], COMPLETE, SLOW)
    equal(answers.ask("0 s_trough_1 1"), [])
    equal(answers.due, 5)
    equal(len(answers.ask("5")), 2)
    equal(answers.due, 505)
    given = answers.ask("505")
    equal(given, ["505 machine balls 1 1 0 0", "505 machine event balldevice_trough_ball_enter"])
    assert answers.due is not None and answers.due > 505
    equal(answers.lines, ["0 s_trough_1 1", "505"])
