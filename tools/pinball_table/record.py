"""Saves what was played as a test of the rules: its log, and what was marked in its trace."""
import itertools
import re
from pathlib import Path

from pinball_test.recording import mark_of, recorded

from .player import NotNow
from .session import Session

MOST_LETTERS = 40  # of the name of a file


def record(session: Session, title: str, lines: list[str]) -> str:
    """Writes a file of tests to the machine's folder: each of these lines of the trace has to come again."""
    trace = session.trace
    places = {line: at for at, line in reversed([*enumerate(trace)])}
    marks = [mark for line in lines if line in places and (mark := mark_of(trace, places[line]))]
    if not marks:
        raise NotNow("no line of this play is marked: mark what has to come again")
    text, folder = recorded(session.log(), marks, title), session.machine.folder / "tests"
    words = "_".join(re.findall(r"[a-z0-9]+", title.lower()))[:MOST_LETTERS].strip("_") or "recorded"
    try:
        folder.mkdir(exist_ok=True)
        return f"tests/{saved(folder, words, text)}"
    except OSError as error:
        raise NotNow(f"the test cannot be saved in {folder}: {error.strerror}") from None


def saved(folder: Path, words: str, text: str) -> str:
    """Writes a file of a name that no other file has, and gives this name."""
    names = (f"{words}_{number}.test" if number > 1 else f"{words}.test" for number in itertools.count(1))
    name = next(it for it in names if not (folder / it).exists())
    with (folder / name).open("x", encoding="utf-8") as file:
        file.write(text)
    return name
