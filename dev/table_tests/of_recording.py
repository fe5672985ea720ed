"""Tests of what the page saves as a test of the rules: `tools/pinball-test` plays it."""
import json
import shutil
import subprocess
import sys
import tempfile
from contextlib import contextmanager
from pathlib import Path
from typing import Iterator

from .harness import TOP, Table, equal, programs, test
from .of_browser import browser

FIRST = TOP / "examples/first"
TITLE = 'Both  targets: <b>"hit"</b> # ..\n\x1b[2J'


@contextmanager
def opened() -> Iterator[tuple[Table, Path]]:
    """A table that has played the log of examples/first, in a folder without tests."""
    with tempfile.TemporaryDirectory(prefix="test-table-") as room:
        folder = Path(room) / "first"
        shutil.copytree(FIRST, folder, ignore=shutil.ignore_patterns("tests"))
        with Table(folder) as table:
            table.do("open", log=(folder / "log").read_text())
            table.until(lambda it: it["last"] == 7100)
            table.do("go_to", moment=7100)
            table.until(lambda it: it["now"] == 7100)
            yield table, folder


def ran(folder: Path) -> tuple[int, str]:
    command = [sys.executable, str(TOP / "tools/pinball-test"), str(folder), "--program", programs["pinball"]]
    done = subprocess.run(command, capture_output=True, text=True)
    return done.returncode, done.stdout


@test
def a_play_is_saved_as_a_test() -> None:
    """It passes, and fails once a rule is changed. Another one does not overwrite it."""
    with opened() as (table, folder):
        trace = table.get("/trace").splitlines()
        lines = [line for line in trace if "left_target" in line or "ball_lost" in line]
        equal(table.do("record", title=TITLE, lines=lines), "tests/both_targets_b_hit_b_2j.test")
        equal(table.do("record", title=TITLE, lines=lines[:1]), "tests/both_targets_b_hit_b_2j_2.test")
        equal(ran(folder)[0], 0)
        text = (folder / "tests/both_targets_b_hit_b_2j.test").read_text().splitlines()
        equal(text[0], 'test Both targets: <b>"hit"</b> .. [2J')
        assert "expect event ball_lost" in text and "7000 s_drain 1" in text, text
        config = folder / "config/config.yaml"
        config.write_text(config.read_text().replace("s_drain_active: ball_lost", "s_left_target_inactive: ball_lost"))
        status, said = ran(folder)
        assert status == 1 and "expect event ball_lost" in said and "1 passed, 1 failed" in said, said


@test
def what_cannot_be_saved_says_why() -> None:
    with opened() as (table, folder):
        for lines in [], ["no such line", "# a note"]:
            found, said = table.request("POST", "/record", body_of({"title": "a", "lines": lines}), X_Pinball="1")
            assert found == 409 and b"no line of this play is marked" in said, (found, said)
        (folder / "tests").write_text("a file")
        line = table.get("/trace").splitlines()[0]
        found, said = table.request("POST", "/record", body_of({"title": "", "lines": [line]}), X_Pinball="1")
        assert found == 409 and b"the test cannot be saved" in said, (found, said)
        (folder / "tests").unlink()
        equal(table.do("record", title="../../etc", lines=[line]), "tests/etc.test")
        equal(table.do("record", title="", lines=[line]), "tests/recorded.test")


@test
def lines_are_marked_in_the_page() -> None:
    with browser() as page, opened() as (table, folder):
        page.open(table.address)
        page.until("document.querySelectorAll('#trace .cascade').length === 5")
        page.click("#marking")
        for line in "first-child div:nth-child(3)", "last-child div:last-child", "last-child div:first-child":
            page.click(f"#trace .cascade:{line}")
        page.click("#trace .cascade:last-child div:first-child")  # (a second click takes the mark away)
        equal(page.run("document.querySelectorAll('.marked').length"), 2)
        page.run("document.querySelector('#title').value = 'A mark'")
        page.click("#record")
        page.until("document.querySelector('#told').textContent === 'saved as tests/a_mark.test'")
        expected = [it for it in (folder / "tests/a_mark.test").read_text().splitlines() if "expect" in it]
        equal(expected, ["expect event left_target_hit", "expect event ball_lost"])


def body_of(words: dict) -> bytes:
    return json.dumps(words).encode()
