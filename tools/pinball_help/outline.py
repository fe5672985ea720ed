"""Reads the outline of a text: its keys and values, each with its place.

It reads what it can of any text, also of one that is refused, and skips the rest. Whether a text is accepted is for
the program to say. What is deeper than the program reads is skipped too, and so are brackets in a line that is too long
for any machine: a text may be written to take all memory."""
import re
from dataclasses import dataclass, field
from itertools import islice
from typing import Iterator

# (each way to go on begins otherwise, so that a long line takes no longer than it is long)
PLAIN_KEY = r"""(?:[^\s"'#\[{&*!|>%@`,\]}:]|:(?!\s|$))(?:[^\s:]|:(?!\s|$)|\s+(?=[^\s:]|:(?!\s|$)))*"""
KEY = re.compile(rf"""("(?:[^"\\]|\\.)*"|'(?:[^']|'')*'|{PLAIN_KEY}|)\s*:(?=\s|$)""")
ITEM = re.compile(r"\s*-(\s|$)")
MARK = re.compile("[\"'#]")  # what may begin a comment, or a quote in which none begins
ESCAPES = {"n": "\n", "t": "\t"}
DEEPEST = 64  # blocks, and brackets: more than the program reads
LONGEST = 20_000  # characters of a line whose brackets are read
MOST_ITEMS = 1_025  # of a list in one text: one more than the program reads


@dataclass(slots=True)
class Node:
    """A value: a text, a list or a mapping. Lines count from 0, and so do columns."""

    line: int
    start: int = 0
    end: int = 0
    text: str = ""
    entries: "list[Entry] | None" = None
    items: "list[Node] | None" = None

    def at(self, key: str) -> "Node | None":
        return next((entry.value for entry in self.entries or [] if entry.key == key), None)

    def texts(self) -> "list[Node]":
        """The scalars of a list: its items, or the words of one text."""
        if self.items is not None:
            return [item for item in self.items if item.entries is None and item.items is None and item.text]
        if self.entries is not None:
            return []
        found = re.finditer(r"(?:\{[^{}]*\}|[^\s,{])+", self.text)
        words = islice(found, MOST_ITEMS)
        return [Node(self.line, self.start + word.start(), self.start + word.end(), word[0]) for word in words]


@dataclass(slots=True)
class Entry:
    key: str
    line: int
    start: int
    end: int
    value: Node
    last: int = 0  # the line after those of its value
    in_braces: bool = False
    path: "tuple[Entry, ...]" = field(default=(), repr=False)  # the entries around it, from the outside


def unquoted(text: str) -> str:
    text = text.strip()
    if len(text) > 1 and text[0] == text[-1] == "'":
        return text[1:-1].replace("''", "'")
    if len(text) > 1 and text[0] == text[-1] == '"':
        return re.sub(r"\\(.)", lambda found: ESCAPES.get(found[1], found[1]), text[1:-1])
    return text


def without_comment(text: str) -> str:
    """The text without a comment and the blanks before it."""
    if "#" not in text:
        return text.rstrip()
    quote = ""
    for found in MARK.finditer(text):
        sign, before = found[0], text[max(0, found.start() - 1) : found.start()]
        if quote:
            quote = "" if sign == quote and not (quote == '"' and before == "\\") else quote
        elif sign != "#":
            quote = sign if before in " \t[{,:-" else ""
        elif before in " \t":
            return text[: found.start()].rstrip()
    return text.rstrip()


def indentation(text: str) -> int:
    return len(text) - len(text.lstrip(" \t"))


class Flow:
    """Reads a value in brackets or braces that is on one line."""

    def __init__(self, text: str, line: int, at: int):
        self.text, self.line, self.at = text, line, at
        self.inside = 0  # how many brackets are open

    def blanks(self) -> None:
        while self.at < len(self.text) and self.text[self.at] in " \t":
            self.at += 1

    def next(self) -> str:
        self.blanks()
        return self.text[self.at : self.at + 1]

    def scalar(self) -> Node:
        self.blanks()
        quoted = re.compile(r'"(?:[^"\\]|\\.)*"' + r"|'(?:[^']|'')*'").match(self.text, self.at)
        plain = re.compile(r"(?:(?!:(?:[ \t]|$)|[,\[\]{}]).)*").match(self.text, self.at)
        found = quoted or plain
        start, self.at = self.at, found.end() if found else self.at
        raw = self.text[start : self.at].rstrip()
        return Node(self.line, start, start + len(raw), unquoted(raw))

    def value(self) -> Node:
        sign = self.next()
        if sign not in ("[", "{"):
            return self.scalar()
        node = Node(self.line, self.at, len(self.text))
        self.inside += 1
        if self.inside > DEEPEST:
            self.at = len(self.text)
            return node
        self.at += 1
        closing = "]" if sign == "[" else "}"
        node.items, node.entries = ([], None) if sign == "[" else (None, [])
        while (sign := self.next()) and sign not in "]}":
            before = self.at
            self.part(node)
            if self.next() == ",":
                self.at += 1
            if self.at == before:
                self.at += 1
        self.at += 1 if self.next() == closing else 0
        self.inside -= 1
        node.end = self.at
        return node

    def part(self, node: Node) -> None:
        """An item of a list, or an entry of a mapping."""
        if node.items is not None:
            node.items.append(self.value())
            return
        key = self.scalar()
        value = Node(self.line, self.at, self.at)
        if self.next() == ":":
            self.at += 1
            value = self.value()
        assert node.entries is not None
        entry = Entry(key.text, self.line, key.start, key.end, value, self.line + 1, in_braces=True)
        node.entries.append(entry)


class Blocks:
    """Reads the blocks of a text, line by line."""

    def __init__(self, lines: list[str]):
        stripped = [without_comment(line.rstrip("\r")) for line in lines]
        self.rows = [(at, indentation(line), line) for at, line in enumerate(stripped) if line and not line.isspace()]
        self.next = 0
        self.inside = 0  # in how many blocks the next line is

    def row(self) -> tuple[int, int, str] | None:
        """The line that comes next, with its indentation and its content."""
        return self.rows[self.next] if self.next < len(self.rows) else None

    def block(self, depth: int) -> Node:
        at, _, line = self.row() or (0, 0, "")
        node = Node(at, depth, depth)
        is_list = is_item(line)
        node.items, node.entries = ([], None) if is_list else (None, [])
        self.inside += 1
        self.lines(node, depth, is_list)
        self.inside -= 1
        return node

    def lines(self, node: Node, depth: int, is_list: bool) -> None:
        """Reads the lines of a block."""
        while (row := self.row()) and row[1] >= depth:
            if row[1] == depth and is_item(row[2]) != is_list:
                break
            if row[1] > depth or self.inside > DEEPEST:
                self.next += 1
            elif is_list:
                self.item(node)
            else:
                self.entry(node)

    def item(self, node: Node) -> None:
        at, depth, line = self.row() or (0, 0, "")
        rest = line[depth + 1 :]
        column = depth + 1 + indentation(rest)
        assert node.items is not None
        if not rest.strip():
            self.next += 1
            node.items.append(self.below(at, depth, len(line)))
        elif KEY.match(line, column) and line[column] not in "[{":
            # its first entry continues as a block in the column of the key
            self.rows[self.next] = (at, column, " " * column + line[column:])
            node.items.append(self.block(column))
        else:
            self.next += 1
            node.items.append(value_of(line, at, column))

    def entry(self, node: Node) -> None:
        at, depth, line = self.row() or (0, 0, "")
        self.next += 1
        found = KEY.match(line, depth)
        if not found or node.entries is None:
            return
        column = found.end() + indentation(line[found.end() :])
        if line[column:].strip():
            value = value_of(line, at, column)
        else:
            value = self.below(at, depth, len(line), of_key=True)
        last = self.rows[self.next - 1][0] + 1
        node.entries.append(Entry(unquoted(found[1]), at, depth, depth + len(found[1]), value, last))

    def below(self, at: int, depth: int, column: int, of_key: bool = False) -> Node:
        """The block below a line that ends with its key or its dash."""
        row = self.row()
        if row and (row[1] > depth or of_key and row[1] == depth and is_item(row[2])):
            return self.block(row[1])
        return Node(at, column, column)


def is_item(line: str) -> bool:
    return ITEM.match(line) is not None


def value_of(line: str, at: int, column: int) -> Node:
    if line[column : column + 1] in ("[", "{") and len(line) <= LONGEST:
        return Flow(line, at, column).value()
    return Node(at, column, len(line), unquoted(line[column:]))


def read(lines: list[str]) -> Node:
    """The outline of a text. Each entry knows those around it."""
    blocks = Blocks(lines)
    root = Node(0, entries=[])
    while row := blocks.row():
        before = blocks.next
        found = blocks.block(row[1])
        root.entries = (root.entries or []) + (found.entries or [])
        blocks.next += blocks.next == before
    set_paths(root, ())
    return root


def set_paths(node: Node, path: tuple[Entry, ...]) -> None:
    for entry in node.entries or []:
        entry.path = path
        set_paths(entry.value, (*path, entry))
    for item in node.items or []:
        set_paths(item, path)


def entries(node: Node) -> Iterator[Entry]:
    """All entries, each before those below it."""
    for entry in node.entries or []:
        yield entry
        yield from entries(entry.value)
    for item in node.items or []:
        yield from entries(item)
