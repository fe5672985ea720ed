"""Writes the data of a text as YAML, each time in another layout.

Data is a string (a scalar), a dictionary (a mapping), a list (a YAML list), or `Names`: a list that may be written as a
text too. What has no content may be written as nothing.
"""
import random
import re

from .yaml_text import Entries, Items, Node, Scalar

STEPS = [2, 2, 2, 4, 1, 3]
COMMENTS = ["# left: right", "#", "# a 'note\"", "# [1, {2", "#\ttabs\t"]


class Names(list):
    """A list of texts that may be written as a list or as one text."""


class Raw(str):
    """A scalar, or what looks like none, that is written as it is."""


def may_be_text(data) -> bool:
    return isinstance(data, Names) and all(isinstance(item, str) for item in data)


def is_plain(text: str, flow: bool) -> bool:
    """Whether a text may be written without quotes. Refuses some that could be."""
    if not text or not re.fullmatch(r"[A-Za-z0-9_.{(/=!<>~+$^;%@-][ -~]*", text) or text[-1] == " ":
        return False
    if text[0] in "{>!%@" or re.match(r"[-?:]( |$)", text) or re.search(r":( |$)| #", text):
        return False
    return not (flow and re.search(r"[,\[\]{}]|^-$", text))


class Layout:
    """Draws a layout. `plainness` is the share of what is written in the plainest way."""

    def __init__(self, draw: random.Random):
        self.draw = draw
        self.plainness = draw.choice([1.0, 0.9, 0.7, 0.4])
        self.step = draw.choice(STEPS)
        self.flowing = draw.choice([0.0, 0.2, 0.5])
        self.ends = draw.choice(["\n"] * 9 + ["\r\n"])

    def odd(self, share: float = 1.0) -> bool:
        return self.draw.random() < share * (1 - self.plainness)

    def text(self, data: dict, version: str | None = None) -> str:
        """The text of a mapping, under its version."""
        blanks = self.draw.choice(["  ", "\t"]) if self.odd(0.1) else ""
        lines = ["#config_version=6" + blanks if version is None else version]
        lines += self.mapping(data, self.draw.choice([0, 0, 0, 1, 3]) if self.odd(0.3) else 0)
        decorated = []
        for line in lines:
            if self.odd(0.1) and decorated:
                decorated.append(self.draw.choice(["", "   ", "\t", *COMMENTS, "  # indented"]))
            decorated.append(line)
        last = self.ends if not self.odd(0.2) else ""
        return self.ends.join(decorated) + last

    def comment(self) -> str:
        blank = self.draw.choice([" ", "  ", "\t"])
        return blank + self.draw.choice(COMMENTS) if self.odd(0.15) else ""

    def blanks(self) -> str:
        return self.draw.choice([" ", "  ", "\t", "    "]) if self.odd(0.1) else " "

    def scalar(self, text: str, flow: bool) -> str:
        if isinstance(text, Raw) or is_plain(text, flow) and not self.odd(0.3):
            return text
        if self.draw.random() < 0.5 and "\n" not in text:
            return "'" + text.replace("'", "''") + "'"
        for letter, escape in (("\\", "\\\\"), ('"', '\\"'), ("\n", "\\n"), ("\t", "\\t")):
            text = text.replace(letter, escape)
        return f'"{text}"'

    def key(self, text: str, flow: bool) -> str:
        return self.scalar(text, flow) + ("" if not self.odd(0.1) else " ") + ":"

    def list_text(self, names: Names) -> str:
        between = [", ", ", ", ",", " ", "  ", " , "]
        text = ""
        for name in names:
            text += (self.draw.choice(between[: 6 if self.odd() else 1]) if text else "") + name
        return text + ("," if text and self.odd(0.1) else "")

    def flow(self, data) -> str:
        """The data on one line."""
        if may_be_text(data) and self.draw.random() < 0.5:
            return self.scalar(self.list_text(data), True)
        if isinstance(data, str):
            return self.scalar(data, True)
        if isinstance(data, dict):
            items = [f"{self.key(key, True)} {self.flow(value)}" for key, value in data.items()]
            opening, closing = "{}"
        else:
            items = [self.flow(item) for item in data]
            opening, closing = "[]"
        between = self.draw.choice([", ", ",  "])
        last = "," if items and self.odd(0.1) else ""
        pad = " " if self.odd(0.2) else ""
        return opening + pad + between.join(items) + last + pad + closing

    def fits_flow(self, data, depth: int = 1) -> bool:
        if isinstance(data, str):
            return True
        inner = data.values() if isinstance(data, dict) else data
        return depth < 8 and len(data) <= 6 and all(self.fits_flow(item, depth + 1) for item in inner)

    def mapping(self, data: dict, indent: int) -> list[str]:
        step = self.draw.choice(STEPS) if self.odd(0.2) else self.step
        lines = []
        for key, value in data.items():
            lines += self.below(" " * indent + self.key(key, False), value, indent, step, True)
        return lines

    def below(self, front: str, data, indent: int, step: int, is_key: bool) -> list[str]:
        """The lines of a value whose key, or whose `-`, is at the end of `front`."""
        if may_be_text(data) and not (data and self.odd(0.8)):
            data = self.list_text(data)
        if len(data) == 0 and (isinstance(data, str) or not self.odd()):
            empty = self.blanks() + self.draw.choice(["''", '""']) if self.odd(0.2) else ""
            return [front + empty + self.comment()]
        if isinstance(data, str) or len(data) == 0 or self.fits_flow(data) and self.draw.random() < self.flowing:
            written = self.scalar(data, False) if isinstance(data, str) else self.flow(data)
            if self.odd(0.1):
                return [front + self.comment(), " " * (indent + step) + written + self.comment()]
            return [front + self.blanks() + written + self.comment()]
        if isinstance(data, dict):
            return [front + self.comment(), *self.mapping(data, indent + step)]
        at = indent if is_key and self.draw.random() < 0.4 else indent + step
        lines = [front + self.comment()]
        for item in data:
            lines += self.item(item, at, step)
        return lines

    def item(self, item, at: int, step: int) -> list[str]:
        if isinstance(item, dict) and item and self.draw.random() < 0.8:
            inner = self.mapping(item, at + 2)
            return [" " * at + "- " + inner[0].lstrip(" "), *inner[1:]]
        return self.below(" " * at + "-", item, at, step, False)


def means(node: Node, data) -> bool:
    """Whether a tree is that of the data."""
    if isinstance(data, dict):
        if isinstance(node, Entries):
            pairs = zip(node.entries, data.items())
            return len(node.entries) == len(data) and all(
                key.text == name and means(value, datum) for (key, value), (name, datum) in pairs
            )
        return not data and isinstance(node, Scalar) and not node.text
    if isinstance(data, Names) and isinstance(node, Scalar):
        return [*data] == [word for word in re.split(r"[, ]+(?![^{]*\})", node.text) if word]
    if isinstance(data, list):
        if isinstance(node, Items):
            return len(node.items) == len(data) and all(means(item, datum) for item, datum in zip(node.items, data))
        return not data and isinstance(node, Scalar) and not node.text
    return isinstance(node, Scalar) and node.text == data
