"""What a setting was in the MPF folder: a comment with its line, wherever the new folder says it otherwise."""
import re
from typing import Iterator

from ..outline import Node
from .context import Context
from .draft import PLAYERS, SINGLE, Note, Path, Value, Written
from .settings import OLD_NAMES
from .source import Given

MOST_TEXT = 60  # of a value that is shown
WIDTH = 100


def add(ctx: Context) -> None:
    for mode, sections in ctx.draft.texts.items():
        for section, inside in sections.items():
            for key, written in inside.items():
                if section in SINGLE and mode not in ctx.draft.helpers:
                    remark(ctx, written, section, key, written.value, ())
                elif isinstance(written.value, dict) and (section in PLAYERS or written.is_copied):
                    for setting, value in written.value.items():
                        remark(ctx, written, section, setting, value, (setting,))


def remark(ctx: Context, written: Written, section: str, setting: str, value: Value, path: Path) -> None:
    """Adds a comment to a setting that is written otherwise than in the MPF folder, or is not there."""
    found = [one for it in written.sources for one in sources_of(it, section, setting)]
    if isinstance(value, dict) and len(found) == 1 and found[0].is_mapping:
        for inner, deeper in value.items():
            if (given := found[0].at(inner)) and not is_same(deeper, given):
                put(written, (*path, inner), deeper, [shown(given)])
        return
    whys = [why for it in written.sources for why in ctx.whys.get((it.file.name, it.line, it.key, setting), ())]
    is_there = any(it.key == setting and (is_same(value, it) or whys and is_more(value, it)) for it in found)
    said = [*([] if is_there else map(shown, found)), *whys]
    if said:
        put(written, path, value, list(dict.fromkeys(said)))


def sources_of(entry: Given, section: str, setting: str) -> list[Given]:
    """The settings of an entry of the MPF folder that one of the new folder comes from."""
    inside = entry.inside() + [one for item in entry.items() for one in item.inside()]
    return [it for it in inside if setting in (it.key, OLD_NAMES.get((section, it.key)))]


def is_same(value: Value, given: Given) -> bool:
    """Whether all that a value says is in that of the MPF folder."""
    before = {squeezed(it) for it in texts_of(given.node)} | {squeezed(given.text)}
    return {squeezed(it) for it in words_of(value)} <= before


def is_more(value: Value, given: Given) -> bool:
    """Whether a list has all that the one of the MPF folder has."""
    before = {squeezed(it) for it in texts_of(given.node)}
    return isinstance(value, list) and before <= {squeezed(it) for it in words_of(value)}


def squeezed(text: str) -> str:
    return re.sub(r"\s", "", text)


def words_of(value: Value) -> list[str]:
    if isinstance(value, str):
        return [value]
    return [word for it in (value.values() if isinstance(value, dict) else value) for word in words_of(it)]


def texts_of(node: Node) -> Iterator[str]:
    """The words of a value, at any depth, and the keys in it."""
    waiting = [node]
    while waiting:
        one = waiting.pop()
        yield from (it.text for it in one.texts())
        yield from (it.key for it in one.entries or [])
        waiting += [it.value for it in one.entries or []] + (one.items or [])


def shown(given: Given) -> str:
    """A setting of the MPF folder as its comment has it, with its place."""
    text = written_short(given.node)
    short = text if len(text) <= MOST_TEXT else f"{text[:MOST_TEXT]} .."
    return f"{given.place}: {given.key}: {short}"


def written_short(node: Node) -> str:
    """A value on one line."""
    if node.entries is not None:
        return f"{{{', '.join(f'{it.key}: {written_short(it.value)}' for it in node.entries[:MOST_TEXT])}}}"
    if node.items is not None:
        return f"[{', '.join(map(written_short, node.items[:MOST_TEXT]))}]"
    return node.text


def put(written: Written, path: Path, value: Value, said: list[str]) -> None:
    """Puts a comment behind a setting, or above it where there is no room."""
    note, line = written.notes.setdefault(path, Note()), f"# {'; '.join(said)}"
    width = sum(map(len, words_of(value))) + len(str(path[-1:])) + len(line)
    if note.behind or width > WIDTH:
        note.above.append(line)
    else:
        note.behind = line
