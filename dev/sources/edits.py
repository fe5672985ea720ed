"""Edits of a crate: wrong bodies that the prover has to refuse, as must-fail/ and also-refused/ have them."""
from collections.abc import Callable
from dataclasses import dataclass
from pathlib import Path

from .rooms import check_by_rt

Texts = dict[str, str]


@dataclass(frozen=True)
class Edit:
    """An edit of a crate: for each pair the file, the text to replace, and the new text."""

    crate: str
    name: str
    pairs: tuple[tuple[str, str, str], ...]

    def __str__(self) -> str:
        return f"{self.crate}/{self.name}"


def read_edit(file: Path) -> Edit:
    pairs, path, old = [], "", ""
    for line in file.read_text().split("\n"):
        word, _, rest = line.partition(": ")
        if word == "file":
            path = rest.strip()
        elif word == "old":
            old = rest
        elif word.rstrip(":") == "new" and path and old:
            pairs.append((path, old, rest))
            old = ""
    return Edit(file.parts[-3], file.stem, tuple(pairs))


def apply(edit: Edit, texts: Texts, folder: Path) -> Texts:
    """The texts with this edit; raises ValueError if it cannot be applied."""
    texts = dict(texts)
    for path, old, new in edit.pairs:
        text = texts.get(path) or (folder / path).read_text()
        if text.count(old) != 1:
            raise ValueError(f"an 'old:' text is {text.count(old)} times in {path}, and not once")
        texts[path] = text.replace(old, new)
    if not edit.pairs:
        raise ValueError("it has no 'old:' and 'new:' pair")
    return texts


def check(folder: Path, texts: Texts, by: Callable[[Path], tuple[int, str]] = check_by_rt) -> tuple[int, str]:
    """Checks a crate of a room with these texts, and puts its own back."""
    kept = {path: (folder / path).read_text() for path in texts}
    try:
        for path, text in texts.items():
            (folder / path).write_text(text)
        return by(folder)
    finally:
        for path, text in kept.items():
            (folder / path).write_text(text)
