"""The short form of many findings: a line for each, below the first one of its text; one line for all that say the
same."""
import re
import textwrap
from itertools import groupby

from .findings import Finding
from .printed import clean

COLUMNS = 120
MOST_PLACES, MOST_TEXTS = 6, 4  # of one kind: lines of one text, and texts
LEAST = 20  # columns for what to do
LONGEST = 40  # columns of a key
WRITE = re.compile(r"Write `[^`]+`\.")  # advice of which one line may list several
NO_SETTING = re.compile(r"(Take it out)\. The settings are .*")


def grouped(findings: list[Finding]) -> list[list[Finding]]:
    """The findings that have the same words together, in the order of the first of each."""
    found: dict[tuple, list[list[Finding]]] = {}
    for it in findings:
        groups = found.setdefault(kind_of(it), [])
        if groups and fits(groups[-1], it):
            groups[-1].append(it)
        else:
            groups.append([it])
    order = {id(it): at for at, it in enumerate(findings)}
    return sorted((it for groups in found.values() for it in groups), key=lambda it: order[id(it[0])])


def kind_of(finding: Finding) -> tuple:
    """The same for findings that one line may list."""
    if not finding.line:
        return (finding.said,)
    return finding.message, "" if WRITE.fullmatch(finding.write) else advice_of(finding)


def advice_of(finding: Finding) -> str:
    found = NO_SETTING.fullmatch(finding.write)
    return f"{found[1]}: there is no such setting here." if found else finding.write


def fits(group: list[Finding], more: Finding) -> bool:
    """Whether one line can list a finding with a group: with what to write at each place in turn, if that is not the
    same."""
    if len(group) > MOST_PLACES:  # (so none of these differ)
        return more.write == group[0].write or not WRITE.fullmatch(more.write)
    group = [*group, more]
    if not is_listed(group):
        return True
    places = {(it.text, it.line) for it in group}
    is_whole = len(places) == len(group) <= MOST_PLACES and len({it.text for it in group}) <= MOST_TEXTS
    return is_whole and len(f"{group[0].text}:{head_of(group)}{listed(group)}") <= COLUMNS


def is_listed(group: list[Finding]) -> bool:
    """Whether a group has a name to write at each place, and these are not the same."""
    return len({it.write for it in group}) > 1 and all(WRITE.fullmatch(it.write) for it in group)


def listed(group: list[Finding]) -> str:
    return f"Write {', '.join(it.write[6:-1] for it in group)}."


def shown(findings: list[Finding]) -> list[str]:
    lines: list[str] = []
    for text, some in groupby(grouped(findings), lambda it: it[0].text if it[0].line else ""):
        for at, group in enumerate(some):
            lines.append(line_of(group, "  " if at and text else f"{text}:" if text else ""))
    return [clean(it) for it in lines]


def line_of(group: list[Finding], before: str) -> str:
    """The places, the error and what to do."""
    head = f"{before}{head_of(group)}"
    return head + advice(group, COLUMNS - len(head))


def head_of(group: list[Finding]) -> str:
    return f"{places_of(group)}: {what_of(group)}: " if group[0].line else f"{what_of(group)}: "


def places_of(group: list[Finding]) -> str:
    """The lines of a group in its first text, and those in others after the names of their modes."""
    texts: dict[str, list[int]] = {}
    for it in group:
        texts.setdefault(it.text, []).append(it.line)
    found = [f"{mode_of(text) if text != group[0].text else ''}{numbers(lines)}" for text, lines in texts.items()]
    others = len(found) - MOST_TEXTS
    return ", ".join(found[:MOST_TEXTS]) + (f" and {others} more texts" if others > 0 else "")


def mode_of(text: str) -> str:
    return f"{text.rpartition('/')[2].removesuffix('.yaml')}:"


def numbers(lines: list[int]) -> str:
    lines = [*dict.fromkeys(lines)]
    more = f" and {len(lines) - MOST_PLACES} more" if lines[MOST_PLACES:] else ""
    return ",".join(map(str, lines[:MOST_PLACES])) + more


def what_of(group: list[Finding]) -> str:
    """The name of the error, and its key if all have the same one."""
    first = group[0]
    if not first.line:
        return cut(first.said, COLUMNS - LONGEST)
    name = first.message.split()[2]
    keys = {key_of(it) for it in group}
    return f"{name} {cut(keys.pop(), LONGEST)}".rstrip() if len(keys) == 1 else name


def cut(text: str, most: int) -> str:
    return text if len(text) <= most else f"{text[: most - 3]} .."


def key_of(finding: Finding) -> str:
    found = re.match(rf"(?:error|fault) \d+ \w+ (?:{re.escape(finding.text)} \d+ )?(.*)$", finding.said)
    return found[1] if found else ""


def advice(group: list[Finding], room: int) -> str:
    """What to do, or the first part of it; with the new line, if the words do not have it."""
    if is_listed(group):
        return listed(group)
    write = advice_of(group[0])
    new = {tuple(it.new.strip() for it in one.changes) for one in group}
    if len(new) == 1 and len(one := new.pop()) == 1 and one[0] and not is_said(one[0], write):
        if len(write) + len(one[0]) + 3 <= room:
            return f"{write} `{one[0]}`"
    return write if len(write) <= room else textwrap.shorten(write, max(room, LEAST), placeholder=" ..")


def is_said(new: str, write: str) -> bool:
    """Whether the words have the new line, or what is new in it."""
    return any(it in new for it in re.findall("`([^`]{2,})`", write))
