"""The tree of a text in the YAML subset, or the first fault in text order."""
import re
from dataclasses import dataclass, field
from typing import NoReturn

TEXT_LIMIT = 1 << 20
BLOCK_DEPTH, FLOW_DEPTH, KEY_LENGTH = 32, 8, 1_024
BLANKS = " \t"
BRACKETS = ",[]{}"
NO_PLAIN_START = set(",[]{}#&*!|>'\"%@`")
ESCAPES = {"\\": "\\", '"': '"', "n": "\n", "t": "\t"}
# Where a plain scalar ends. In flow, a colon before a bracket ends it too, and is at fault.
BLOCK_END = re.compile(r"(?<=[ \t])#|:(?=[ \t]|\Z)")
FLOW_END = re.compile(r"(?<=[ \t])#|:(?=[ \t,\[\]{}]|\Z)|[,\[\]{}]")
BAD_CHARACTER = re.compile("[\0-\x08\x0b\x0c\x0e-\x1f\x7f-\x9f\ufeff\ufffe\uffff]|\r(?!\n)")


class YamlFault(Exception):
    """Why a text has no tree: the kind of the fault, and its line."""

    def __init__(self, kind: str, line: int, column: int = 0):
        super().__init__(kind, line)
        self.kind, self.line, self.column = kind, line, column


@dataclass
class Scalar:
    text: str
    line: int
    column: int


@dataclass
class Items:
    """A list."""

    line: int
    column: int
    items: list["Node"] = field(default_factory=list)


@dataclass
class Entries:
    """A mapping, its keys in the order of the text."""

    line: int
    column: int
    entries: list[tuple[Scalar, "Node"]] = field(default_factory=list)
    keys: set[str] = field(default_factory=set)


Node = Scalar | Items | Entries


@dataclass
class Line:
    """A line with content: its number, the column where what is to be read begins, and the line as a whole."""

    number: int
    column: int
    text: str


def blank_or_end(text: str, at: int) -> bool:
    return at >= len(text) or text[at] in BLANKS


def is_comment(text: str, at: int) -> bool:
    return at < len(text) and text[at] == "#" and (at == 0 or text[at - 1] in BLANKS)


class Words:
    """Reads the scalars and the flow values of one line, from the place `at` on."""

    def __init__(self, line: Line, at: int):
        self.number, self.text, self.at = line.number, line.text, at

    def fault(self, kind: str, at: int | None = None) -> NoReturn:
        raise YamlFault(kind, self.number, self.at if at is None else at)

    def skip_blanks(self) -> None:
        while self.at < len(self.text) and self.text[self.at] in BLANKS:
            self.at += 1

    def nothing_more(self) -> bool:
        """Whether only blanks and a comment follow."""
        self.skip_blanks()
        return self.at >= len(self.text) or is_comment(self.text, self.at)

    def here(self, characters: str) -> bool:
        return self.at < len(self.text) and self.text[self.at] in characters

    def at_colon(self) -> bool:
        return self.here(":") and blank_or_end(self.text, self.at + 1)

    def quoted(self) -> Scalar:
        start, quote = self.at, self.text[self.at]
        found = ""
        self.at += 1
        while self.at < len(self.text):
            letter = self.text[self.at]
            following = self.text[self.at + 1 : self.at + 2]
            if quote == '"' and letter == "\\":
                if following not in ESCAPES:
                    self.fault("Quote")
                found, self.at = found + ESCAPES[following], self.at + 2
            elif letter != quote:
                found, self.at = found + letter, self.at + 1
            elif quote == "'" and following == "'":
                found, self.at = found + "'", self.at + 2
            else:
                self.at += 1
                return Scalar(found, self.number, start)
        self.fault("Quote", len(self.text))

    def plain(self, flow: bool) -> Scalar:
        start = self.at
        first = self.text[start]
        if flow and first in "-?:" and self.text[start + 1 : start + 2] in (*BRACKETS,):
            self.fault("Flow")
        if first in NO_PLAIN_START or first in "-?:" and blank_or_end(self.text, start + 1):
            self.fault("Flow" if flow and first in BRACKETS else "NotInSubset")
        end = (FLOW_END if flow else BLOCK_END).search(self.text, start)
        self.at = end.start() if end else len(self.text)
        if self.here(":") and not self.at_colon():
            self.fault("Flow")
        return Scalar(self.text[start : self.at].rstrip(BLANKS), self.number, start)

    def flow_scalar(self, ends: str) -> Scalar:
        """A scalar within brackets. After it comes one of `ends`, else it is at fault."""
        is_quoted = self.here("'\"")
        found = self.quoted() if is_quoted else self.plain(True)
        if self.nothing_more():
            self.fault("Flow", len(self.text))
        if self.here(ends) and (ends != ":" or self.at_colon()):
            return found
        if self.at_colon():
            self.fault("NotInSubset")
        if is_quoted and not self.here(",]}"):
            before_bracket = self.here(":") and self.text[self.at + 1 : self.at + 2] in (*BRACKETS,)
            self.fault("Flow" if before_bracket else "Quote")
        self.fault("Flow")

    def flow(self, depth: int) -> Node:
        """The value that begins with a bracket here."""
        if depth > FLOW_DEPTH:
            self.fault("TooDeep")
        start, closing = self.at, "]" if self.text[self.at] == "[" else "}"
        found: Node = Items(self.number, start) if closing == "]" else Entries(self.number, start)
        self.at += 1
        while True:
            if self.nothing_more():
                self.fault("Flow", len(self.text))
            if self.here(closing):
                self.at += 1
                return found
            if isinstance(found, Items):
                found.items.append(self.flow_value(depth, "],"))
            else:
                self.flow_entry(found, depth)
            if self.nothing_more():
                self.fault("Flow", len(self.text))
            if self.here(","):
                self.at += 1
            elif not self.here(closing):
                self.fault("NotInSubset" if self.at_colon() else "Flow")

    def flow_value(self, depth: int, ends: str) -> Node:
        if self.nothing_more():
            self.fault("Flow", len(self.text))
        if self.here(",]}"):
            self.fault("Flow")
        return self.flow(depth + 1) if self.here("[{") else self.flow_scalar(ends)

    def flow_entry(self, mapping: Entries, depth: int) -> None:
        if self.here("[{,]"):
            self.fault("Flow")
        key = self.flow_scalar(":")
        take_key(self, mapping, key)
        mapping.entries.append((key, self.flow_value(depth, "},")))

    def value(self) -> Node:
        """The value that is the rest of the line."""
        if self.here("[{"):
            found: Node = self.flow(1)
            if not self.nothing_more():
                self.fault("Flow")
            return found
        is_quoted = self.here("'\"")
        found = self.quoted() if is_quoted else self.plain(False)
        if not self.nothing_more():
            self.fault("NotInSubset" if self.at_colon() or not is_quoted else "Quote")
        return found


def take_key(words: Words, mapping: Entries, key: Scalar) -> None:
    """Goes past the colon of a key, which has to be new and not too long."""
    if key.text in mapping.keys:
        words.fault("DuplicateKey", key.column)
    mapping.keys.add(key.text)
    if words.at - key.column > KEY_LENGTH:
        words.fault("NotInSubset")
    words.at += 1


def is_item(line: Line) -> bool:
    return line.text[line.column] == "-" and blank_or_end(line.text, line.column + 1)


def is_entry(line: Line) -> bool:
    """Whether a key and its colon are at the front of the line."""
    text, at = line.text, line.column
    if text[at] in "'\"":
        quoted = re.compile(r"'(?:''|[^'])*'" if text[at] == "'" else r'"(?:\\[\\"nt]|[^"\\])*"').match(text, at)
        if not quoted:
            return False
        at = quoted.end()
        while at < len(text) and text[at] in BLANKS:
            at += 1
        return at < len(text) and text[at] == ":" and blank_or_end(text, at + 1)
    if text[at] in NO_PLAIN_START or text[at] in "-?:" and blank_or_end(text, at + 1):
        return False
    end = BLOCK_END.search(text, at)
    return end is not None and end[0] == ":"


class Blocks:
    """Reads the blocks of a text, a line after the other."""

    def __init__(self, text: str):
        self.lines: list[Line] = []
        self.at = 0
        *whole, last = text.split("\n")
        # (no LF ends the last line, so a CR at its end is a part of it)
        for number, line in enumerate([*(line.removesuffix("\r") for line in whole), last], 1):
            content = line.lstrip(BLANKS)
            if content and content[0] != "#":
                self.lines.append(Line(number, len(line) - len(content), line))

    def line(self) -> Line | None:
        """The next line, which must not have a tab in front and must not be a marker of documents."""
        if self.at >= len(self.lines):
            return None
        line = self.lines[self.at]
        tab = line.text.find("\t", 0, line.column)
        if tab >= 0:
            raise YamlFault("Tab", line.number, tab)
        if line.text[:3] in ("---", "...") and blank_or_end(line.text, 3):
            raise YamlFault("NotInSubset", line.number)
        return line

    def next_at(self, column: int) -> Line | None:
        """The next line of a block at a column. None if the block has ended. A deeper line is at fault."""
        line = self.line()
        if line and line.column > column:
            raise YamlFault("Indent", line.number, line.column)
        return line if line and line.column == column else None

    def document(self) -> Node:
        line = self.line()
        if line is None:
            return Entries(1, 0)
        found = self.block(line, 0)
        line = self.line()
        if line is not None:
            raise YamlFault("Indent", line.number, line.column)
        return found

    def block(self, line: Line, depth: int) -> Node:
        """The block whose first line is this one, in so many other blocks."""
        if is_item(line):
            return self.sequence(line, depth + 1, False)
        if is_entry(line):
            return self.mapping(line, depth + 1)
        self.at += 1
        return Words(line, line.column).value()

    def deepen(self, line: Line, depth: int) -> None:
        if depth > BLOCK_DEPTH:
            raise YamlFault("TooDeep", line.number, line.column)

    def below(self, parent: Scalar, column: int, depth: int, own: bool) -> Node:
        """What is below a key or a `-` without a value on its line."""
        line = self.line()
        if line and line.column > column:
            return self.block(line, depth)
        if own and line and line.column == column and is_item(line):
            return self.sequence(line, depth + 1, True)
        return Scalar("", parent.line, parent.column)

    def sequence(self, first: Line, depth: int, own: bool) -> Node:
        """A list. `own`: at the column of the key that it is the value of."""
        self.deepen(first, depth)
        found = Items(first.number, first.column)
        while (line := self.next_at(first.column)) is not None:
            if not is_item(line):
                if own:
                    break
                raise YamlFault("NotInSubset", line.number, line.column)
            found.items.append(self.item(line, depth))
        return found

    def item(self, line: Line, depth: int) -> Node:
        words = Words(line, line.column + 1)
        if words.nothing_more():
            self.at += 1
            return self.below(Scalar("", line.number, line.column), line.column, depth, False)
        inner = Line(line.number, words.at, line.text)
        if is_item(inner):
            words.fault("NotInSubset")
        if not is_entry(inner):
            self.at += 1
            return words.value()
        tab = line.text.find("\t", line.column, words.at)
        if tab >= 0:
            words.fault("Tab", tab)
        self.lines[self.at] = inner
        return self.mapping(inner, depth + 1)

    def mapping(self, first: Line, depth: int) -> Node:
        self.deepen(first, depth)
        found = Entries(first.number, first.column)
        line: Line | None = first
        while line is not None:
            if not is_entry(line):
                raise YamlFault("NotInSubset", line.number, line.column)
            self.entry(found, line, depth)
            line = self.next_at(first.column)
        return found

    def entry(self, mapping: Entries, line: Line, depth: int) -> None:
        words = Words(line, line.column)
        key = words.quoted() if words.here("'\"") else words.plain(False)
        words.skip_blanks()
        take_key(words, mapping, key)
        self.at += 1
        if words.nothing_more():
            value = self.below(key, line.column, depth, True)
        else:
            value = words.value()
        mapping.entries.append((key, value))


def bad_character(data: bytes) -> tuple[str, YamlFault | None]:
    """The text, and its first character that may not be there. What is no UTF-8 is replaced."""
    fault = None
    try:
        text = before = data.decode()
    except UnicodeDecodeError as error:
        before = data[: error.start].decode()
        text = before + data[error.start :].decode(errors="replace")
        fault = YamlFault("NotUtf8", before.count("\n") + 1, len(before) - before.rfind("\n") - 1)
    found = BAD_CHARACTER.search(text, 0, len(before) + (fault is not None))
    if found and found.start() < len(before):
        at = found.start()
        fault = YamlFault("NotInSubset", text.count("\n", 0, at) + 1, at - text.rfind("\n", 0, at) - 1)
    return text, fault


def read(data: bytes) -> Node:
    """The tree of a text. Raises YamlFault."""
    if len(data) > TEXT_LIMIT:
        raise YamlFault("TooLong", 1)
    text, bad = bad_character(data)
    try:
        tree = Blocks(text).document()
    except YamlFault as fault:
        if bad is None or (fault.line, fault.column) < (bad.line, bad.column):
            raise
    if bad:
        raise bad
    return tree
