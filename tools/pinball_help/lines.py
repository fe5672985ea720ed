"""Findings in lines as compilers write them: `FILE:LINE:COLUMN: error: ..`. Editors go to the places of such lines."""
import os
from pathlib import Path
from typing import Iterator

from . import messages, short
from .answers import Answer
from .findings import Finding
from .hints import Hint
from .printed import clean
from .scenery import Scenery
from .texts import MACHINE

WIDTH = 1_000  # of what to do, in characters


def lines(folder: Path, found: list[Finding], hints: list[Hint], notes: list[Hint]) -> Iterator[str]:
    """A line for each finding, each hint and each note. What has no place is at the first line of the machine."""
    for it in found:
        words = f"{short.what_of([it])}: {short.advice([it], WIDTH)}"
        yield line(folder, it.text if it.line else MACHINE, it.line, it.column, f"error: {words}")
    said = {(it.text, it.line, it.key) for it in hints}
    others = [it for it in notes if (it.text, it.line, it.key) not in said]
    for kind, those in ("warning", hints), ("info", others):
        for note in those:
            yield line(folder, note.text, note.line, 1, f"{kind}: {note.key}: {note.says}")


def line(folder: Path, text: str, number: int, column: int, words: str) -> str:
    return clean(f"{os.path.normpath(folder / text)}:{max(1, number)}:{column}: {words}")


def notes_of(scene: Scenery, answer: Answer | None) -> list[Hint]:
    """What the program does not read, at the lines of the user's files."""
    return [
        Hint(it.text, scene.number(it.text, it.line - 1) or it.line, it.key,
             messages.MESSAGES[it.message].says.format(key=it.key))
        for it in (answer.notes if answer else ())
    ]
