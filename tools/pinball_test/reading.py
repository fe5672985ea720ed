"""Reads the text of a file of tests. docs/rules_as_tests.md has the language."""
import re
from dataclasses import replace
from pathlib import Path

from pinball_help.near import nearest

from .action_words import ACTIONS
from .expectation_words import expect, never
from .playing import LONGEST
from .script import Action, BadLine, Expect, Line, LogLine, Never, Test
from .words import Words, shortened

LONGEST_TEXT, LONGEST_LINE, GREATEST_SEED = 16 << 20, 1000, 10**9
COMMENT = re.compile(r"(?:^|(?<=[ \t]))#.*$")
LOG_LINE = re.compile(r"(\d+)(?:[ \t]+(\S+)[ \t]+([01]))?$")
# what a builder may write in place of a word of the language
INSTEAD = {
    "press": "`hit SWITCH` presses and releases it, `hold SWITCH` leaves it pressed",
    "tap": "write `hit SWITCH`",
    "push": "write `hit SWITCH`",
    "click": "write `hit SWITCH`",
    "activate": "write `hold SWITCH`",
    "close": "write `hold SWITCH`",
    "deactivate": "write `release SWITCH`",
    "open": "write `release SWITCH`",
    "sleep": "write `wait 2s`",
    "pause": "write `wait 2s`",
    "advance": "write `wait 2s`",
    "assert": "write `expect ..`",
    "check": "write `expect ..`",
    "should": "write `expect ..`",
    "not": "write `expect no ..` about a step, `never ..` about the whole test",
    "within": "write it at the end: `expect .. within 5s`",
    "shoot": "write `plunge`",
    "launch": "write `plunge`",
}


def log_line(line: Line, text: str) -> Action:
    found = LOG_LINE.match(text)
    if not found:
        raise BadLine(line.number, "this is no line of a log: write `MOMENT SWITCH LEVEL`, such as `1000 s_target 1`")
    moment = int(found[1]) if len(found[1]) <= 20 else LONGEST + 1
    if moment > LONGEST:
        raise BadLine(line.number, f"the moment is too late: a test lasts at most {LONGEST:,} ms, which is 24 hours")
    if not found[2]:
        return LogLine(line, moment)
    return LogLine(replace(line, names=(("switch", found[2]),)), moment, found[2], int(found[3]))


def read_line(line: Line, text: str) -> Action | Expect | Never:
    if re.match(r"\d", text):
        return log_line(line, text)
    words = Words(line, text.replace(",", " ").split())
    word = words.take("a word")
    if word in ACTIONS:
        found: Action | Expect | Never = ACTIONS[word](words)
        words.end()
    elif word in ("expect", "never"):
        found = expect(words) if word == "expect" else never(words)
    else:
        known = (*ACTIONS, "expect", "never", "test", "with")
        near = nearest(word, known, 0.6)
        hint = INSTEAD.get(word) or (f"did you mean `{near}`?" if near else "")
        listed = ", ".join(f"`{it}`" for it in known)
        raise words.bad(f"a line cannot begin with `{shortened(word)}`: {hint or f'it begins with {listed}'}")
    return replace(found, line=replace(line, names=tuple(words.names)))


def read_bytes(path: Path) -> bytes:
    with path.open("rb") as file:
        data = file.read(LONGEST_TEXT + 1)
    if len(data) > LONGEST_TEXT:
        raise BadLine(1, f"this file is longer than {LONGEST_TEXT >> 20} MiB")
    return data


def read_tests(path: Path) -> list[Test]:
    """The tests of a file. Raises BadLine, or OSError where it cannot be read."""
    return tests_of(read_bytes(path), path.stem)


def tests_of(data: bytes, name: str) -> list[Test]:
    found = [Test(name)]  # the first one is what is above the first `test`
    for number, raw in enumerate(data.split(b"\n"), 1):
        text = text_of_line(number, raw)
        line, word = Line(number, text), text.split()[0] if text else ""
        if word == "test":
            found.append(test_after(found[0], line))
        elif word == "with":
            read_with(found[-1], line)
        elif text:
            part = read_line(line, text)
            (found[-1].nevers if isinstance(part, Never) else found[-1].lines).append(part)
    tests = found[1:] or found
    for test in tests:
        if len(test.lines) == test.head:
            raise BadLine(test.number, "there is nothing to test here")
    return tests


def test_after(head: Test, line: Line) -> Test:
    """The test that a line `test` begins. It does first what is above all of them."""
    lines, nevers = list(head.lines), list(head.nevers)
    return Test(title_of(line), line.number, lines, nevers, len(lines), head.with_table, head.seed)


def read_with(test: Test, line: Line) -> None:
    """Reads `with table`, which comes before all actions."""
    words = Words(line, line.said.split()[1:])
    words.one_of(("table",), "what a test can be played with")
    if test.lines:
        raise words.bad("`with table` comes before the actions of a test")
    test.with_table = True
    if words.skip("seed"):
        test.seed = words.number("a seed", 0, GREATEST_SEED)
    words.end()


def title_of(line: Line) -> str:
    title = line.said[4:].strip()
    if not title:
        raise BadLine(line.number, "a test needs a title: write `test A hit of the target scores 100`")
    return title


def text_of_line(number: int, raw: bytes) -> str:
    """A line without its comment, and without blanks around it."""
    if len(raw) > LONGEST_LINE:
        raise BadLine(number, f"the line is longer than {LONGEST_LINE:,} bytes")
    try:
        text = raw.decode()
    except UnicodeDecodeError:
        raise BadLine(number, "the line is no text in UTF-8") from None
    text = COMMENT.sub("", text.removesuffix("\r")).strip(" \t")
    if not text.isprintable() and any(not it.isprintable() and it != "\t" for it in text):
        raise BadLine(number, "the line has a character that cannot be printed")
    return text
