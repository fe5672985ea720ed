"""Edits of a copy: what takes an entry out, renames it, or gives it another value."""
import re
from typing import Callable

from .outline import Entry, Node, indentation, is_item, without_comment
from .profile import PLAYERS, SINGLE
from .texts import VERSION, Edit, Texts


def line_of(texts: Texts, name: str, at: int) -> str:
    lines = texts.get(name, [])
    return lines[at].text.rstrip("\r") if 0 <= at < len(lines) else ""


def blanks(name: str, first: int, last: int) -> Edit:
    return Edit(name, first, last, ("",) * (last - first))


def cut(line: str, start: int, end: int) -> str:
    """A line without a part of it, and without the comma or the blanks between this part and another one."""
    before, after = line[:start], line[end:].lstrip()
    if after.startswith(","):
        return before + after[1:].lstrip()
    if before.rstrip().endswith(","):
        before = before.rstrip().removesuffix(",")
    if after.startswith("#"):
        return f"{before.rstrip()} {after}"
    if not after or after[0] in "]}":
        return before.rstrip() + after
    return before + ("" if before.endswith((" ", "[", "{")) else " ") + after


def emptied(entry: Entry) -> Entry:
    """What to take out with an entry: its section or its event in a player, if nothing else is in it; else the entry
    alone."""
    outer = entry.path[-1] if entry.path else entry
    of_section = len(entry.path) == 1 and outer.key not in SINGLE
    of_event = len(entry.path) == 2 and entry.path[0].key in PLAYERS
    lone = len(outer.value.entries or []) == 1
    return emptied(outer) if lone and (of_section or of_event) else entry


def item_around(entry: Entry) -> Node | None:
    """The item of a list to take out with an entry, since it has to have this entry, or has nothing else."""
    items = entry.path[-1].value.items or [] if entry.path else []
    item = next((it for it in items if any(entry is own for own in it.entries or [])), None)
    return item if item and (entry.key == "event" or len(item.entries or []) == 1) else None


def take_out(texts: Texts, name: str, entry: Entry) -> Edit:
    """Takes an entry out, with all that is below it; and with what is around it, where that has nothing else."""
    if item := item_around(entry):
        return blanks(name, item.line, max(item.line + 1, *(it.last for it in item.entries or [])))
    entry = emptied(entry)
    line = line_of(texts, name, entry.line)
    if entry.in_braces:
        return Edit(name, entry.line, entry.line + 1, (cut(line, entry.start, entry.value.end),))
    last = max(entry.last, entry.line + 1)
    first = line[: entry.start].rstrip()  # the dash of an item whose first entry this is
    return Edit(name, entry.line, last, (first,) + ("",) * (last - entry.line - 1))


def take_item_out(texts: Texts, name: str, entry: Entry, item: Node) -> Edit:
    """Takes one item out of a list; the whole entry if there is no other."""
    if len(entry.value.texts()) < 2:
        return take_out(texts, name, entry)
    line = line_of(texts, name, item.line)
    if is_item(line) and not re.search(r"[\[,]", line[: item.start]):
        return blanks(name, item.line, item.line + 1)
    return Edit(name, item.line, item.line + 1, (cut(line, item.start, item.end),))


def replace(texts: Texts, name: str, at: int, start: int, end: int, new: str) -> Edit:
    line = line_of(texts, name, at)
    return Edit(name, at, at + 1, (line[:start] + new + line[end:],))


def rename(texts: Texts, name: str, entry: Entry, new: str) -> Edit:
    return replace(texts, name, entry.line, entry.start, entry.end, new)


def give(texts: Texts, name: str, entry: Entry, value: str, key: str = "") -> Edit:
    """Gives an entry another value, on its line; and another key, if there is one."""
    line = line_of(texts, name, entry.line)
    key = key or line[entry.start : entry.end]
    if entry.in_braces:
        return replace(texts, name, entry.line, entry.start, entry.value.end, f"{key}: {value}")
    comment = line[len(without_comment(line)) :]
    last = max(entry.last, entry.line + 1)
    new = f"{line[:entry.start]}{key}: {value}{comment}"
    return Edit(name, entry.line, last, (new,) + ("",) * (last - entry.line - 1))


def add(texts: Texts, name: str, entry: Entry, setting: str) -> Edit:
    """Writes one setting more into an entry."""
    line = line_of(texts, name, entry.line)
    value = entry.value
    if value.entries is not None and value.line == entry.line and line[value.start : value.start + 1] == "{":
        rest = line[value.start + 1 :]
        comma = "" if rest.lstrip().startswith("}") else ", "
        return Edit(name, entry.line, entry.line + 1, (line[: value.start + 1] + setting + comma + rest,))
    depth = value.entries[0].start if value.entries else indentation(line) + 2
    return Edit(name, entry.line, entry.line + 1, (line, " " * depth + setting))


def add_to_item(texts: Texts, name: str, item: Node, setting: str) -> Edit:
    """Writes one setting more into a mapping that is an item of a list."""
    line = line_of(texts, name, item.line)
    if line[item.start : item.start + 1] == "{":
        head, rest = line[: item.start + 1], line[item.start + 1 :]
        return Edit(name, item.line, item.line + 1, (f"{head}{setting}, {rest}",))
    column = item.entries[0].start if item.entries else item.start
    return Edit(name, item.line, item.line + 1, (line, " " * column + setting))


def substitute(texts: Texts, name: str, entry: Entry, found: str, new: str | Callable) -> Edit:
    """Replaces each match in the value of an entry; in the key too, where the match begins there."""
    last = max(entry.last, entry.line + 1)
    lines = [line_of(texts, name, at) for at in range(entry.line, last)]
    if entry.in_braces:
        line = lines[0]
        part = re.sub(found, new, line[entry.start : entry.value.end])
        return Edit(name, entry.line, entry.line + 1, (line[: entry.start] + part + line[entry.value.end :],))
    contents = [without_comment(line) for line in lines]
    changed = [re.sub(found, new, it) + line[len(it) :] for it, line in zip(contents, lines)]
    return Edit(name, entry.line, last, tuple(changed))


def commented(edit: Edit, texts: Texts, why: str) -> Edit:
    """The same edit, with a comment that has what it takes out, and why."""
    old = [line_of(texts, edit.text, at) for at in range(edit.first, edit.last)]
    if edit.lines[:1] == (VERSION,):
        return edit  # (the first line takes no comment)
    lines, said = [], False
    for number, new in enumerate(edit.lines):
        was = re.sub(r"[^\t -~]", "?", old[number] if number < len(old) else "").replace("\t", "  ")
        if new == was or not was.strip() or was.lstrip().startswith("#"):
            lines.append(new or was)
            continue
        reason = "" if said else f"left out ({re.sub(r'[^ -~]', '?', why)}): "
        said = True
        place = new.rstrip() + "  " if new.strip() else was[: indentation(was)]
        lines.append(f"{place}# {reason}{was.strip()}")
    return Edit(edit.text, edit.first, edit.last, tuple(lines))
