"""What is said of one complaint: its place in the user's file, the words, and what to write."""
import re
from dataclasses import asdict, dataclass
from itertools import groupby

from . import messages, ways_of_errors, ways_of_faults, ways_of_wholes, ways_of_yaml
from .answers import Complaint
from .printed import clean
from .scenery import Scenery
from .texts import Edit, Line, Texts
from .ways import Cure, Way

MOST_SHOWN = 8  # further lines of a file
TAB = "→"
OUT, OTHER, NEW, EMPTY = "a line is taken out", "a line becomes another", "a line is new", "an empty line is new"


@dataclass(frozen=True)
class Change:
    """A line of a file becomes another one, or nothing; or, if `is_new`, a line comes after it."""

    text: str
    line: int
    new: str
    is_new: bool


@dataclass(frozen=True)
class Finding:
    said: str  # the line of the answer, with the line number of the user's file
    message: str
    text: str
    line: int  # 0 where it has no place
    column: int  # from 1
    width: int
    source: str
    says: tuple[str, ...]
    near: str
    why: str
    write: str
    changes: tuple[Change, ...]  # what mends it, in the user's file
    further: tuple[tuple[int, str], ...]  # the other lines of the text that the changes are about, as they are now
    part: str  # of docs/faults.md
    recipe: str  # the part of docs/from_mpf.md that has more, where one does
    follows: bool = False  # from another finding, or from what a copy leaves out


def cure_of(scene: Scenery, complaint: Complaint) -> Cure:
    if complaint.text not in ("", "-") and complaint.text not in scene.texts:
        return Cure()
    if complaint.name == "Yaml":
        return ways_of_yaml.cure_of(scene, complaint.text, complaint.line - 1, complaint.key)
    ways = {**ways_of_faults.WAYS, **ways_of_errors.WAYS}
    if complaint.message in ways_of_wholes.WAYS:
        return ways_of_wholes.WAYS[complaint.message](scene, complaint)
    return ways[complaint.name](scene, complaint) if complaint.name in ways and complaint.line else Cure()


def words_of(complaint: Complaint) -> tuple[str, str]:
    """The words of the table for a complaint: what it says, and what to do."""
    message = messages.MESSAGES[complaint.message]
    words = [*complaint.words, "", "", ""]
    fields = {"key": complaint.key or "-", "text": complaint.text, "line": complaint.line}
    return message.says.format(*words, **fields), message.cure.format(*words, **fields)


def changes_of(scene: Scenery, edits: tuple[Edit, ...]) -> tuple[Change, ...]:
    """The lines of the user's files that the edits change."""
    found = []
    for edit in edits:
        before = scene.number_before(edit.text, edit.first)
        for place, new in enumerate(edit.lines):
            at = edit.first + place
            if at < edit.last:
                before = scene.number(edit.text, at) or before
                if scene.texts[edit.text][at].text != new:
                    found.append(Change(edit.text, before, new.rstrip("\r"), False))
            else:
                found.append(Change(edit.text, before, new.rstrip("\r"), True))
    return tuple(found)


def changed(texts: Texts, changes: tuple[Change, ...]) -> Texts:
    """The texts after these changes. Lines are known by their numbers."""
    result = {name: list(lines) for name, lines in texts.items()}
    for change in changes:
        lines = result[change.text]
        at = max((place for place, line in enumerate(lines) if line.number == change.line), default=-1)
        if not change.is_new:
            lines[at] = Line(change.line, change.new)
        else:
            while at + 1 < len(lines) and lines[at + 1].number == 0:
                at += 1
            lines.insert(at + 1, Line(0, change.new))
    return result


def with_number(said: str, complaint: Complaint, number: int) -> str:
    """The line of the answer, with the line of the user's file in place of that of the copy."""
    start = complaint.text + " "
    return said.replace(f" {start}{complaint.line} ", f" {start}{number} ", 1)


def finding_of(scene: Scenery, complaint: Complaint, cure: Cure, way: Way | None, original: Texts) -> Finding:
    says, general = words_of(complaint)
    text, at = cure.at or (complaint.text, complaint.line - 1)
    number = scene.number(text, at) if text in scene.texts else complaint.line
    lines = original.get(text, [])
    source = lines[number - 1].text.rstrip("\r") if 0 < number <= len(lines) else ""
    start, end = cure.mark or mark_of(source, complaint.key)
    start = min(start, len(source))
    way = way or Way(())
    changes = changes_of(scene, way.edits)
    return Finding(
        complaint.said if cure.at else with_number(
            complaint.said, complaint, number
        ), complaint.message, text, number, start + 1,
        max(1, min(end, len(source)) - start), source, cure.says if cure.whole else (
            says, *cure.says
        ), way.near, way.why, way.write or general,
        changes, further_of(changes, text, number, lines), messages.link(complaint.message),
        messages.part_of(messages.FROM_MPF, way.recipe) if way.recipe else "",
    )


def further_of(changes: tuple[Change, ...], text: str, number: int, lines: list[Line]) -> tuple[tuple[int, str], ...]:
    """The lines of a text that the changes are about, but for the line that has a number."""
    numbers = dict.fromkeys(it.line for it in changes if it.text == text and not it.is_new and it.line != number)
    found = [(it, lines[it - 1].text.rstrip("\r")) for it in numbers if 0 < it <= len(lines)]
    return tuple(it for it in found if it[1].strip())


def mark_of(source: str, key: str) -> tuple[int, int]:
    found = source.find(key) if key and key != "-" else -1
    if found >= 0:
        return found, found + len(key)
    content = re.search(r"\S.*", source)
    return content.span() if content else (0, 1)


def printable(text: str) -> str:
    """The text with its tabs made visible, and four columns wide."""
    return "".join(it if it.isprintable() else "?" for it in text.replace("\t", f"{TAB:4}"))


def shown(finding: Finding) -> list[str]:
    """The lines that a person reads."""
    where = f"{finding.text}:{finding.line}: " if finding.line and finding.text else ""
    lines = [f"{where}{finding.said}", *shown_source(finding)]
    lines += [f"  {it}" for it in finding.says]
    lines += [f"  Near it: `{finding.near}`."] if finding.near else []
    lines += [f"  {finding.why}"] if finding.why else []
    more = ", ".join(it for it in (finding.recipe, finding.part) if it)
    lines += [f"  To do: {finding.write}", *shown_changes(finding), f"  More: {more}"]
    return [clean(it) for it in lines]


def shown_source(finding: Finding) -> list[str]:
    """The lines that a finding is about, with what is at fault underlined."""
    start, width = finding.column - 1, finding.width
    marked = [(finding.line, finding.source, start, start + width)] if finding.source.strip() else []
    for number, text in finding.further[:MOST_SHOWN]:
        marked.append((number, text, len(text) - len(text.lstrip()), len(text)))
    lines = []
    for number, text, first, last in sorted(marked):
        before, part = printable(text[:first]), printable(text[first:last])
        lines += [f"  {number:>5} | {printable(text)}", f"        | {' ' * len(before)}{'^' * max(1, len(part))}"]
    lines += ["     .. |"] if finding.further[MOST_SHOWN:] else []
    return lines + ([f"  `{TAB}` is a tab."] if any("\t" in text for _, text, _, _ in marked) else [])


def shown_changes(finding: Finding) -> list[str]:
    """Each line of a change; lines that are taken out one after the other are joined."""
    lines, here = [], (finding.text, finding.line)
    for _, group in groupby(enumerate(finding.changes), lambda it: run_of(*it)):
        changes = [it for _, it in group]
        kind = kind_of(changes[0])
        lines += place_of(changes[0], here)
        here = (changes[-1].text, changes[-1].line)
        if kind == OUT:
            first, last = changes[0].line, changes[-1].line
            lines.append(f"  {first:>5} - (taken out{f', up to line {last}' if last > first else ''})")
        elif kind != EMPTY:
            lines += [f"  {it.line if kind == OTHER else '':>5} + {printable(it.new)}" for it in changes]
    return lines


def run_of(at: int, change: Change) -> tuple[str, str, int]:
    """The same for changes that are shown together: new lines at one place, and lines without a gap that are taken
    out."""
    kind = kind_of(change)
    together = {OUT: change.line - at, NEW: change.line}
    return change.text, kind, together.get(kind, 0)


def place_of(change: Change, here: tuple[str, int]) -> list[str]:
    """Where a change is, if that is in another text than the last line, or comes after another line."""
    words = [f"in {change.text}"] if change.text != here[0] else []
    words += [f"after line {change.line}"] if kind_of(change) == NEW and (change.text, change.line) != here else []
    place = ", ".join(words)
    return [f"  {place[:1].upper()}{place[1:]}:"] if place else []


def kind_of(change: Change) -> str:
    return (EMPTY if change.is_new else OUT) if not change.new.strip() else NEW if change.is_new else OTHER


def as_json(finding: Finding) -> dict:
    """The finding as editors read it."""
    return {**asdict(finding), "severity": "error"}
