"""Writes what MPF's YAML allows and the reader of this package does not, as what it reads. Each line keeps its number.

The package's own reader is used, and no YAML library: it reads what it can of a damaged text, knows the lines, and
Python has no YAML of its own."""
import re
from dataclasses import dataclass, field

from ..outline import KEY, LONGEST, indentation, is_item, without_comment

MOST_JOINED = 400  # lines of one value
OPENS = {"[": "]", "{": "}"}
VALUE = re.compile(r"(?:\s*-\s+)*")
ANCHOR = re.compile(r"(^|:\s+|-\s+)&([\w-]+)(?:\s+|$)")
TAG = re.compile(r"(:\s+|-\s+)!{1,2}\w+\s+")


@dataclass
class Lax:
    """The lines of a file as they are read, with the anchors by their lines."""

    lines: list[str]
    anchors: dict[int, str] = field(default_factory=dict)
    unclosed: list[int] = field(default_factory=list)  # lines with a bracket that nothing closes
    changed: list[int] = field(default_factory=list)
    joined: dict[int, int] = field(default_factory=dict)  # a line that is joined with one above; -1 in a `|` or `>`


def laxer(lines: list[str]) -> Lax:
    lax = Lax([it.rstrip("\r") for it in lines])
    if lax.lines:
        lax.lines[0] = lax.lines[0].removeprefix("\ufeff")
    at = 0
    while at < len(lax.lines):
        line, before = lax.lines[at], list(lax.lines[at : at + 2])
        if re.match(r"(---|\.\.\.)(\s|$)|%YAML", line):
            lax.lines[at] = ""
        elif line.strip() and not line.lstrip().startswith("#"):
            take_anchor(lax, at)
            join(lax, at)
            if before != lax.lines[at : at + 2]:
                lax.changed.append(at)
        at += 1
    return lax


def take_anchor(lax: Lax, at: int) -> None:
    line = TAG.sub(r"\1", lax.lines[at])
    if found := ANCHOR.search(without_comment(line)):
        lax.anchors[at] = found[2]
        line = line[: found.start()] + found[1] + line[found.end() :]
    lax.lines[at] = line


def column_of_value(line: str) -> int:
    """Where the value of a line begins; the line's end if there is none."""
    found = VALUE.match(line)
    start = found.end() if found else 0
    start = max(start, indentation(line))
    if (key := KEY.match(line, start)) and line[start : start + 1] not in "[{":
        return key.end() + indentation(line[key.end() :])
    return start


def join(lax: Lax, at: int) -> None:
    """Joins a value that goes on in the next lines."""
    line = without_comment(lax.lines[at])
    column = column_of_value(line)
    value = line[column:]
    if value[:1] in OPENS and balance(value):
        join_flow(lax, at, line)
    elif re.fullmatch(r"[|>][+-]?\d?", value):
        rest = deeper(lax, at, indentation(line), plain=False)
        text = " ".join(it.strip().replace("'", "''") for it in rest)
        put(lax, at, line[:column] + f"'{text}'", len(rest))
        lax.joined.update(dict.fromkeys(range(at + 1, at + len(rest) + 1), -1))
    elif value and value[0] not in "'\"[{&*" and column > indentation(line) and not is_key(value):
        rest = deeper(lax, at, indentation(line), plain=True)
        if rest:
            put(lax, at, " ".join([line, *(without_comment(it).strip() for it in rest)]), len(rest))


def is_key(text: str) -> bool:
    return KEY.match(text) is not None


def deeper(lax: Lax, at: int, depth: int, plain: bool) -> list[str]:
    """The lines below one that are deeper; of a plain value, as long as they are neither entries nor items."""
    found: list[str] = []
    for line in lax.lines[at + 1 : at + MOST_JOINED]:
        bare = without_comment(line) if plain else line
        if bare.strip() and (indentation(line) <= depth or "\t" in line[: indentation(line)]):
            break
        if plain and (not bare.strip() or is_item(bare) or KEY.match(bare, indentation(bare))):
            break
        found.append(line)
    while found and not found[-1].strip():
        found.pop()
    return found


def join_flow(lax: Lax, at: int, line: str) -> None:
    depth, joined = indentation(line), line
    for count, following in enumerate(lax.lines[at + 1 : at + MOST_JOINED], 1):
        bare = without_comment(following)
        if bare.strip() and indentation(bare) <= depth and bare.strip()[0] not in "]}":
            break
        joined = f"{joined} {bare.strip()}".rstrip()
        if len(joined) > LONGEST:
            break
        if not balance(joined[column_of_value(joined) :]):
            put(lax, at, joined, count)
            return
    lax.unclosed.append(at)


def put(lax: Lax, at: int, line: str, count: int) -> None:
    lax.lines[at : at + count + 1] = [line, *[""] * count]
    lax.joined.update(dict.fromkeys(range(at + 1, at + count + 1), at))


def balance(text: str) -> int:
    """How many brackets and braces are open at the end of a value, quotes left out."""
    bare = re.sub(r"'[^']*'|\"(?:[^\"\\]|\\.)*\"", "", text)
    return sum(map(bare.count, "[{")) - sum(map(bare.count, "]}"))
