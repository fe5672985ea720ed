"""The values of settings. A reader takes a node, and raises BadValue if it holds no such value."""
import re
from collections.abc import Callable
from dataclasses import dataclass
from typing import Any

from .yaml_text import Items, Node, Scalar

NAME = re.compile(r"[A-Za-z0-9_.-]{1,64}")
COMPARED = r"current_player\.([A-Za-z0-9_.-]{1,64})[ \t]*(==|!=|<=|<|>=|>)[ \t]*(-?[0-9]+)"
HANDLED = re.compile(r"([A-Za-z0-9_.-]{1,64})(?:\{[ \t]*" + COMPARED + r"[ \t]*\})?")
TIME = re.compile(r"([0-9]+)(?:\.([0-9]{1,3}))?[ \t]*(ms|s|m|h|d)?")
UNITS = {None: 1, "ms": 1, "s": 1_000, "m": 60_000, "h": 3_600_000, "d": 86_400_000}
POWER = re.compile(r"([0-9]+)(?:\.([0-9]{1,3}))?")
PERCENT = re.compile(r"([0-9]+)(?:\.([0-9]))?%")
BOOLEANS = {
    form: word in ("yes", "true", "on")
    for word in ("yes", "no", "true", "false", "on", "off")
    for form in (word, word.capitalize(), word.upper())
}
INTEGER_LIMIT, TIME_LIMIT, LIST_LIMIT = 1_000_000_000, 1 << 32, 1_024

Reader = Callable[[Node], Any]


class BadValue(Exception):
    """No such value."""


class TooMany(Exception):
    """A list above its limit."""


@dataclass(frozen=True)
class Word:
    """A name, and where it is written: line, column, and its place in a list text."""

    text: str
    line: int = 0
    column: int = 0
    place: int = 0


@dataclass(frozen=True)
class Condition:
    """`{current_player.VARIABLE SIGN NUMBER}`"""

    variable: str
    sign: str
    number: int


@dataclass(frozen=True)
class Handled:
    """An event that is handled, if its condition holds."""

    event: str
    condition: Condition | None


def text_of(node: Node) -> str:
    if not isinstance(node, Scalar):
        raise BadValue
    return node.text


def name(node: Node) -> Word:
    if not NAME.fullmatch(text_of(node)):
        raise BadValue
    return Word(text_of(node), node.line, node.column)


def boolean(node: Node) -> bool:
    if text_of(node) not in BOOLEANS:
        raise BadValue
    return BOOLEANS[text_of(node)]


def one_of(*words: str) -> Reader:
    def read(node: Node) -> str:
        if text_of(node) not in words:
            raise BadValue
        return text_of(node)

    return read


def within(number: int, least: int, greatest: int) -> int:
    if not least <= number <= greatest:
        raise BadValue
    return number


def integer(least: int = -INTEGER_LIMIT, greatest: int = INTEGER_LIMIT) -> Reader:
    def read(node: Node) -> int:
        if not re.fullmatch(r"-?[0-9]+", text_of(node)):
            raise BadValue
        return within(int(text_of(node)), least, greatest)

    return read


def time(least: int = 0, greatest: int = TIME_LIMIT - 1) -> Reader:
    def read(node: Node) -> int:
        found = TIME.fullmatch(text_of(node))
        if not found:
            raise BadValue
        whole, decimals, unit = found.groups()
        thousandths = (int(whole) * 1_000 + int((decimals or "").ljust(3, "0"))) * UNITS[unit]
        if thousandths % 1_000:
            raise BadValue
        return within(thousandths // 1_000, least, greatest)

    return read


def power(node: Node) -> int:
    """In thousandths."""
    found, digits, one = POWER.fullmatch(text_of(node)), 3, 1_000
    if not found:
        found, digits, one = PERCENT.fullmatch(text_of(node)), 1, 10
    if not found:
        raise BadValue
    return within(int(found[1]) * one + int((found[2] or "").ljust(digits, "0")), 0, 1_000)


def split_list(text: str) -> list[str]:
    """The items of a list text: split at commas and blanks outside braces."""
    items, depth = [""], 0
    for letter in text:
        if depth == 0 and letter in ", \t":
            items.append("")
            continue
        depth = max(0, depth + {"{": 1, "}": -1}.get(letter, 0))
        items[-1] += letter
    return items


def words(node: Node, limit: int = LIST_LIMIT) -> list[Word]:
    """The items of a list, empty ones dropped. They are counted before they are judged."""
    if isinstance(node, Scalar):
        found = [Word(item, node.line, node.column, place) for place, item in enumerate(split_list(node.text))]
    elif isinstance(node, Items):
        texts = [item.text if isinstance(item, Scalar) else None for item in node.items]
        found = [Word(text, item.line, item.column) for text, item in zip(texts, node.items)]
    else:
        raise BadValue
    found = [word for word in found if word.text != ""]
    if len(found) > limit:
        raise TooMany
    if any(word.text is None for word in found):
        raise BadValue
    return found


def names(node: Node) -> list[Word]:
    found = words(node)
    if not all(NAME.fullmatch(word.text) for word in found):
        raise BadValue
    return found


def few_names(least: int, greatest: int) -> Reader:
    def read(node: Node) -> list[Word]:
        found = names(node)
        within(len(found), least, greatest)
        return found

    return read


def handled_text(text: str) -> Handled:
    found = HANDLED.fullmatch(text)
    if not found:
        raise BadValue
    event, variable, sign, number = found.groups()
    if variable is None:
        return Handled(event, None)
    return Handled(event, Condition(variable, sign, within(int(number), -INTEGER_LIMIT, INTEGER_LIMIT)))


def handled(node: Node) -> Handled:
    return handled_text(text_of(node))


def handled_list(node: Node) -> list[Handled]:
    return [handled_text(word.text) for word in words(node)]
