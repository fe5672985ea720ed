"""Tests of a board at a pseudo-terminal: what it is told, and what happens if it, or the table, fails."""
import json
import os
import re
import signal
from contextlib import contextmanager, suppress
from typing import Iterator

from pinball_table.machine import read_machine
from pinball_table.platforms import BoardFailure
from pinball_table.serial_board import SerialBoard

from .fake_board import FakeBoard
from .harness import SLOW, SOON, TOP, Table, equal, folder_of, played, programs, said_of, test

FLIPPERS = TOP / "examples/flippers"
PATIENCE = 8.0  # s: far above what a loaded computer needs
SHORT = 1.0  # s: of a board that hears nothing more


@contextmanager
def board_of(levels: dict[str, int] | None = None) -> Iterator[FakeBoard]:
    board = FakeBoard(levels)
    try:
        yield board
    finally:
        board.close()


@contextmanager
def board_and_table(
    levels: dict[str, int] | None = None, of_program: float = SLOW
) -> Iterator[tuple[FakeBoard, Table]]:
    with board_of(levels) as board:
        words = ["--board", board.path, "--board-patience", str(PATIENCE)]
        with Table(FLIPPERS, *words, live=True, patience=of_program) as table:
            yield board, table


def hold_a_coil(board: FakeBoard, table: Table) -> None:
    """The play begins, and the left flipper (coil 2) is held by its button (switch 3)."""
    board.say("switch 1 1")
    table.until(lambda it: "s_start" in it["active"])
    board.say("switch 3 1")
    board.until(lambda: "2" in board.on, SLOW)


@test
def a_board_is_told_what_the_coils_do() -> None:
    with board_and_table() as (board, table):
        hold_a_coil(board, table)
        board.say("switch 3 0")
        board.until(lambda: "2" not in board.on, SLOW)
        heard = [it for _, it in board.heard if not it.startswith("beat")]
        equal(heard, ["hello 1 8000", "pulse 1 20 1000", "hold 2 1000", "off 2"])
        log = table.get("/log").splitlines()
        assert [it.split(" ", 1)[1] for it in log[:2]] == ["s_start 1", "s_left_button 1"], log
        trace = table.get("/trace").splitlines()
        equal(played(log, FLIPPERS)[: len(trace)], trace)
        board.until(lambda: sum(it.startswith("beat") for _, it in board.heard) > 1)


@test
def a_board_says_first_which_switches_are_active() -> None:
    with board_and_table(levels={"9": 1, "2": 0}) as (board, table):
        table.until(lambda it: "gate" in it["modes"])
        board.until(lambda: board.has_heard("hold 9 250"), SLOW)


@test
def with_a_board_the_time_is_that_of_the_wall() -> None:
    with board_and_table() as (_, table):
        assert json.loads(table.get("/about"))["board"]
        for deed, words in (
            ("pause", "{}"), ("go", "{}"), ("step", "{}"), ("back", "{}"), ("speed", '{"speed": 2}'),
            ("start_over", "{}"), ("go_to", '{"moment": 0}'), ("open", '{"log": ""}'),
            ("drain", "{}"), ("plunge", "{}"), ("tap", '{"switch": "s_start"}'),
            ("press", '{"switch": "s_start", "page": "a"}'), ("release", '{"switch": "s_start", "page": "a"}'),
        ):
            status, said = table.request("POST", f"/{deed}", words.encode(), X_Pinball="1")
            assert status == 409 and b"a board is attached" in said, (deed, status, said)
        state = table.state()
        equal((state["speed"], state["paused"], state["active"], state["ended"]), (1.0, False, [], ""))


@test
def a_board_that_does_not_answer() -> None:
    with board_and_table() as (board, table):
        hold_a_coil(board, table)
        board.is_silent = True
        state = table.until(lambda it: it["ended"] != "", SOON)
        assert "did not answer within 8 s" in state["ended"], state["ended"]
        equal(state["coils"]["c_left_hold"]["holder"], "")
        board.patience = SHORT
        board.until(lambda: not board.on)  # (by its own patience)
        board.is_silent = False
        board.until(lambda: board.has_heard("off") or board.has_heard("off 2"))
        assert "did not answer" in table.end()


@test
def a_board_that_has_put_its_coils_off_is_noticed() -> None:
    """It answers no `beat` any more, so the machine does not play on with dead coils."""
    with board_of() as board:
        link = SerialBoard(read_machine(FLIPPERS), board.path, patience=SHORT)
        board.has_tripped = True
        try:
            board.until(lambda: link.poll(0) is not None, SOON)
        except BoardFailure as failure:
            assert "did not answer within 1 s" in str(failure), failure
        link.close()


@test
def a_board_that_is_gone_or_talks_nonsense() -> None:
    for line in "switch 77 1", "switch 3 2", "switch 3", "beat", "ouch", "hello 2 fake", "\x00\xff":
        with board_of() as board:
            link = SerialBoard(read_machine(FLIPPERS), board.path, patience=PATIENCE)
            board.say(line)
            try:
                board.until(lambda: link.poll(0) is not None, SOON)
            except BoardFailure as failure:
                assert "the board said" in str(failure), failure
            link.close()
    with board_and_table() as (board, table):
        hold_a_coil(board, table)
        board.say("ouch")
        assert "the board said `ouch`" in table.until(lambda it: it["ended"] != "")["ended"]
        board.until(lambda: not board.on)


@test
def a_table_that_is_killed_or_stopped_leaves_no_coil_on() -> None:
    """The board's own patience helps."""
    for number in signal.SIGKILL, signal.SIGSTOP:
        with board_and_table() as (board, table):
            hold_a_coil(board, table)
            table.process.send_signal(number)
            board.patience = SHORT
            board.until(lambda: not board.on)
            assert board.has_tripped


@test
def a_signal_puts_the_coils_of_a_board_off() -> None:
    with board_and_table() as (board, table):
        hold_a_coil(board, table)
        table.process.send_signal(signal.SIGINT)
        board.until(lambda: not board.on)
        assert not board.has_tripped and board.has_heard("off 2") and board.has_heard("off")


@test
def a_program_that_is_killed_puts_the_coils_of_a_board_off() -> None:
    with board_and_table() as (board, table):
        hold_a_coil(board, table)
        os.kill(table.child(), signal.SIGKILL)
        board.until(lambda: not board.on)
        assert not board.has_tripped and board.has_heard("off")
        assert "the program has ended" in table.until(lambda it: it["ended"] != "")["ended"]


@test
def a_program_that_hangs_puts_the_coils_of_a_board_off() -> None:
    """Though nothing happens meanwhile: it is asked again and again while a coil is held."""
    with board_and_table(of_program=PATIENCE) as (board, table):
        hold_a_coil(board, table)
        program = table.child()
        os.kill(program, signal.SIGSTOP)
        try:
            board.until(lambda: not board.on)
            assert not board.has_tripped and board.has_heard("off")
            assert "did not answer within 6 s" in table.until(lambda it: it["ended"] != "")["ended"]
        finally:
            with suppress(ProcessLookupError):
                os.kill(program, signal.SIGKILL)


@test
def a_board_that_is_none() -> None:
    for device, words in ("/dev/nowhere", "does not open"), ("/dev/null", "did not answer|is gone"):
        said, status = said_of([str(FLIPPERS), "--board", device, "--live", programs["live"]])
        assert re.search(words, said) and "Traceback" not in said, said
        equal(status, 3)
    for words, wanted in ([], "a board needs the program pinball_live"), (["--open", "log"], "leave out --board"):
        said, status = said_of([str(FLIPPERS), "--board", "/dev/null", *words])
        assert wanted in said and "Traceback" not in said, said


@test
def two_switches_with_one_number_are_refused() -> None:
    with board_of() as board, folder_of("switches: {a: {number: 1}, b: {number: 1}}") as folder:
        said, status = said_of([str(folder), "--board", board.path, "--live", programs["live"]])
        assert "two switches have the number 1" in said and status == 3, said
