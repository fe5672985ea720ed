"""The words of a line of a test, read from the left, and what is said of a word that cannot be there."""
import re

from pinball_help.near import nearest
from pinball_help.trace import moment_of
from pinball_help.values import milliseconds

from .playing import LONGEST
from .script import BadLine, Line

LONGEST_WORD, MOST_TIMES, MOST_PLAYERS = 40, 1000, 100
NUMBER = re.compile(r"-?\d{1,15}$")


def printable(text: str, also: str = "") -> str:
    """A text without what a terminal would obey, or XML cannot have, but with these characters."""
    return "".join(sign if sign.isprintable() or sign in also else "?" for sign in text)


def shortened(word: str) -> str:
    """A word as a message shows it."""
    return printable(word) if len(word) <= LONGEST_WORD else f"{printable(word[:LONGEST_WORD])}.."


class Words:
    """The words of a line, from the left."""

    def __init__(self, line: Line, words: list[str]):
        self.line, self.words = line, words
        self.names: list[tuple[str, str]] = []

    def bad(self, message: str) -> BadLine:
        return BadLine(self.line.number, message)

    def next(self) -> str:
        return self.words[0] if self.words else ""

    def take(self, what: str) -> str:
        if not self.words:
            raise self.bad(f"{what} is missing at the end")
        return self.words.pop(0)

    def skip(self, word: str) -> bool:
        """Takes this word, if it comes next."""
        found = self.next() == word
        if found:
            self.words.pop(0)
        return found

    def one_of(self, words: tuple[str, ...] | dict, what: str) -> str:
        word = self.take(what)
        if word not in words:
            near = nearest(word, words, 0.6)
            hint = f"did you mean `{near}`?" if near else f"write {', '.join(f'`{it}`' for it in words)}"
            raise self.bad(f"`{shortened(word)}` is not {what}: {hint}")
        return word

    def name(self, kind: str) -> str:
        """A name. Whether the machine has it is asked later."""
        word = self.take(f"the name of {'an' if kind == 'event' else 'a'} {kind}")
        self.names.append((kind, word))
        return word

    def number(self, what: str, least: int, most: int) -> int:
        word = self.take(what)
        if not NUMBER.match(word) or not least <= int(word) <= most:
            raise self.bad(f"`{shortened(word)}` is not {what}: a whole number from {least:,} to {most:,}")
        return int(word)

    def time(self) -> int:
        word = self.take("a time")
        found = milliseconds(word) if len(word) < 20 else None
        if found is None and re.fullmatch(r"\d{1,6}:\d\d(\.\d{1,3})?", word):
            found = moment_of(word)
        if found is None or found > LONGEST:
            raise self.bad(f"`{shortened(word)}` is not a time up to 24 hours: write `2s`, `1.5s` or `500ms`")
        return found

    def times(self) -> int | None:
        """Takes `3 times`, if it comes next."""
        if len(self.words) < 2 or self.words[1] not in ("times", "time"):
            return None
        count = self.number("how many times", 1, MOST_TIMES)
        self.words.pop(0)
        return count

    def end(self) -> None:
        if self.words:
            raise self.bad(f"`{shortened(' '.join(self.words))}` is too much at the end of this line")
