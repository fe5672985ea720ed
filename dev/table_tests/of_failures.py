"""Tests of what happens if something fails: the program, the table, or the computer. No coil stays on."""
import os
import signal
import tempfile
import time
from contextlib import suppress
from pathlib import Path

from .harness import SLOW, SOON, TOP, Table, equal, folder_of, played, programs, said_of, test

FLIPPERS = TOP / "examples/flippers"
HELD = "c_left_hold"
HANGS = 8.0  # s: far above what a program takes that does not hang
LATE = 1.0  # s: how much later a test may hear of something
OFF = f"the table puts {HELD} off"


def hold_a_coil(table: Table) -> None:
    """The play has begun, and a flipper is held."""
    table.do("tap", switch="s_start")
    table.until(lambda _: "play_begins" in table.get("/trace"))
    table.do("press", switch="s_left_button", page="test")
    table.until(lambda it: it["coils"][HELD]["holder"] != "")


def is_off(table: Table, why: str) -> None:
    """The coil is soon off, though nobody asks for anything; it is said why, and the page is still there."""
    state = table.until(lambda it: it["ended"] != "", SOON)
    assert why in state["ended"], state["ended"]
    equal(state["coils"][HELD]["holder"], "")
    equal(table.request("POST", "/tap", b'{"switch": "s_start"}', X_Pinball="1")[0], 409)


@test
def a_program_that_is_killed() -> None:
    with Table(FLIPPERS, live=True) as table:
        hold_a_coil(table)
        os.kill(table.child(), signal.SIGKILL)
        is_off(table, "the program has ended")
        assert OFF in table.end(), "it does not say so"


@test
def a_program_that_ends_by_itself() -> None:
    with Table(FLIPPERS, live=True) as table:
        hold_a_coil(table)
        os.kill(table.child(), signal.SIGTERM)
        is_off(table, "the program has ended")


@test
def a_program_that_hangs() -> None:
    """The coil is off within the patience. The program is asked again while a coil is held, even if nothing happens."""
    with Table(FLIPPERS, live=True, patience=HANGS) as table:
        hold_a_coil(table)
        program = table.child()
        begun = time.monotonic()
        os.kill(program, signal.SIGSTOP)
        try:
            is_off(table, "did not answer within 6 s")
            assert time.monotonic() - begun < HANGS + LATE, "it took longer than the patience"
        finally:
            with suppress(ProcessLookupError):
                os.kill(program, signal.SIGKILL)
        assert OFF in table.end(), "it does not say so"


@test
def a_replay_that_fails() -> None:
    """A program that plays the log again, and is gone after a while."""
    with folder_of("switches: {s: {number: 1}}") as folder:
        program = folder / "pinball"
        program.write_text(f'#!/bin/sh\n[ ! -e {folder}/broken ] || exit 3\nexec {programs["pinball"]} "$@"\n')
        program.chmod(0o755)
        with Table(folder, program=str(program)) as table:
            table.do("tap", switch="s")
            table.until(lambda it: it["steps"] > 1)
            (folder / "broken").touch()
            table.request("POST", "/tap", b'{"switch": "s"}', X_Pinball="1")
            assert "status 3" in table.until(lambda it: it["ended"] != "")["ended"]


@test
def signals_end_it_in_order() -> None:
    for number, name in (signal.SIGINT, "SIGINT"), (signal.SIGTERM, "SIGTERM"), (signal.SIGHUP, "SIGHUP"):
        with tempfile.TemporaryDirectory() as room, Table(FLIPPERS, "--log", f"{room}/log", live=True) as table:
            hold_a_coil(table)
            program = table.child()
            said = table.end(number)
            assert f"# ended by {name}" in said and OFF not in said, said  # (the program has put it off)
            equal(table.process.returncode, 0)
            equal(Path(f"/proc/{program}").exists(), False)
            lines = Path(room, "log").read_text().splitlines()
            assert played(lines, FLIPPERS)[-1].endswith(f"machine off {HELD}")


@test
def a_table_that_is_killed_ends_the_program() -> None:
    with Table(FLIPPERS, live=True) as table:
        program = table.child()
        table.process.kill()
        table.process.wait()
        end = time.monotonic() + SLOW
        while is_alive(program):
            assert time.monotonic() < end, "the program still runs"
            time.sleep(0.01)


def is_alive(process: int) -> bool:
    try:
        return Path(f"/proc/{process}/stat").read_text().rpartition(")")[2].split()[0] != "Z"
    except OSError:
        return False


@test
def a_suspended_table_shuts_down_and_does_not_catch_up() -> None:
    with Table(FLIPPERS, live=True) as table:
        hold_a_coil(table)
        before = table.state()["now"]
        table.process.send_signal(signal.SIGSTOP)
        time.sleep(3)
        table.process.send_signal(signal.SIGCONT)
        is_off(table, "suspended")
        state = table.state()
        assert state["now"] - before < 2500, "it has caught up"


@test
def a_port_that_is_taken_and_a_folder_that_is_none() -> None:
    with Table(TOP / "examples/first") as table:
        for words, wanted in (
            ([str(TOP / "examples/first"), "--port", str(table.port)], f"port {table.port} is taken"),
            (["/nowhere"], "there is no /nowhere/config/config.yaml"),
            ([str(TOP / "examples/first"), "--open", "/nowhere/log"], "/nowhere/log"),
            ([str(TOP / "examples/first"), "--program", "/nowhere/pinball"], "is not a program"),
        ):
            said, status = said_of(words)
            assert wanted in said and "Traceback" not in said, said
            assert status in (2, 3), status
