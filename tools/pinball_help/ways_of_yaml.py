"""The ways to mend a text that is not in the subset of YAML that is read."""
import re
from bisect import bisect_left
from dataclasses import dataclass, replace

from . import signs
from .blocks import Blocks
from .mending import blanks, give, line_of, take_out
from .outline import KEY, Entry, indentation, is_item, without_comment
from .scenery import Scenery
from .texts import Edit, Texts
from .ways import Cure, Way


@dataclass(frozen=True)
class Slip:
    """A slip in one line: what it looks like, and what to put in its place."""

    faults: str
    found: str
    new: str
    why: str
    write: str


CLOSES = {"[": "]", "{": "}"}
VALUE = r"^(\s*(?:- )?[^\s:#][^:#]*:\s+)"
PAIRS = r"\w+: +[^\s:,{}\[\]#]+(?:, *\w+: +[^\s:,{}\[\]#]+)+"
QUOTED = r"(?:\"[^\"]*\"|'[^']*')"
SLIPS = (
    Slip("NotInSubset", r"^(---|\.\.\.)(\s.*)?$", "", "A text is one document.", "Take the line out."),
    Slip("NotInSubset Flow", r"(?<=[\w}\"'])\s*&\w+\s*|(?<![\w}\"'])&[\w-]+(?:\s+|$)", "", "An anchor is not read.",
         "Take the anchor out, and write the value where it is used."),
    Slip("NotInSubset", r"!!?\w+\s+", "", "A tag is not read: every value is a text here.", "Take the tag out."),
    Slip("NotInSubset", r"^(\s*)\? +(\S.*)$", r"\1\2:", "A key is written without `?` here.", "Write `KEY:`."),
    Slip(
        "NotInSubset",
        VALUE + r"([%@`].*?)(\s+#.*)?$",
        r'\1"\2"\3',
        "No plain value begins so.",
        "Put quotes around it.",
    ),
    Slip("NotInSubset Indent", r"^(\s*)-(?=[A-Za-z_])", r"\1- ", "A blank is missing after the dash.",
         "Write a blank after the dash."),
    Slip("NotInSubset", r"^(\s*- )(" + PAIRS + r")\s*$", r"\1{\2}", "Several entries in one line have braces.",
         "Write braces around them."),
    Slip("NotInSubset", r"^(\s*[\w.-]+:\s+)(" + PAIRS + r")\s*$", r"\1{\2}",
         "Several entries in one line have braces.", "Write braces around them."),
    Slip("NotInSubset", r"^(\s*[\w.{}=<>! -]+:)\s+-\s+([^-\s].*)$", r"\1 \2", "A dash begins a line of its own.",
         "Take the dash out, or write a line `- ITEM` for each item."),
    Slip("NotInSubset Indent", r"^(\s*[\w.-]+)\s*[;=]\s*(?=\S)", r"\1: ", "It is no entry, as it has no `:`.",
         "Write a `:` and a blank after the name."),
    Slip("NotInSubset Quote", r"^(\s*)[\"']([\w.-]+)(:\s)", r"\1\2\3", "The quote is not closed before the `:`.",
         "Take the quote out."),
    Slip("NotInSubset", VALUE + r"([\w.]+): +([\w.]+)(\s+#.*)?$", r"\1\2, \3\4",
         "The value has a `:` and a blank after it.",
         "Write a comma between two names, or put quotes around the value."),
    Slip("NotInSubset", VALUE + r"([^\"'#\[{]*:(?:\s.*)?)$", r'\1"\2"', "The value has a `:` and a blank after it.",
         "Put quotes around the value."),
    Slip("NotInSubset Indent", r"^(\s*(?:- )?[\w.{}=<>! -]+):(?=[^\s:])", r"\1: ", "A blank is missing after the `:`.",
         "Write a blank after the `:`."),
    Slip("NotInSubset Indent", r"^(\s*)([\w.]+)\s*$", r"\1\2:", "It is no entry, as it has no `:`.",
         "Write a `:` after it."),
    Slip("NotInSubset Flow", r"([\w\"'}\]]) +(\"?[\w.]+\"?: )", r"\1, \2", "A comma is missing.",
         "Write a comma between the entries."),
    Slip("NotInSubset Tab", "[\x00-\x08\x0b-\x1f\x7f\ufeff]", "", "Control characters are not read.", "Take it out."),
    Slip("Quote", r"'([^']*'[^'\"]*)'(?=\s*(#|$|[,\]}]))", r'"\1"', "In single quotes a `'` ends the text.",
         "Put double quotes around it, or write two `''` for the one inside."),
    Slip(
        "Quote",
        r"\\(?![\\\"nt])",
        r"\\\\",
        "In double quotes a `\\` begins an escape.",
        "Write `\\\\` for a backslash.",
    ),
    Slip("Quote", r"([\"'])\s+([\"'])", r"\1, \2", "A comma is missing.", "Write a comma between the two."),
    Slip("Quote", VALUE + "(" + QUOTED + r"(?:\s*,\s*" + QUOTED + r")+)\s*$", r"\1[\2]",
         "A list of texts in quotes has brackets.", "Write brackets around them."),
    Slip("Quote", r"^([^\"]*\"[\w. -]*)(\s*[\]}]+\s*)$", r'\1"\2', "The quote is not closed on its line.",
         "Close the quote."),
    Slip("Quote", r"^([^']*'[\w. -]*)(\s*[\]}]+\s*)$", r"\1'\2", "The quote is not closed on its line.",
         "Close the quote."),
    Slip("Quote", r"([\"'])\s*([^\"'\s,\]}#][^\"']*)$", r"\1 # \2", "Text comes after the closing quote.",
         "Put all of it into the quotes, or take it out."),
    Slip("Quote", r"^([^\"]*\"[^\"]*?)(\s*)$", r'\1"', "The quote is not closed on its line.", "Close the quote."),
    Slip("Quote", r"^([^']*'[^']*?)(\s*)$", r"\1'", "The quote is not closed on its line.", "Close the quote."),
    Slip("Flow NotInSubset", r"(?<![\w'\"])([A-Za-z_][\w.-]*\{[^{}]*\})(?=\s*[,\]}])", r"'\1'",
         "In brackets and braces a `{` begins a mapping.", "Put quotes around the event with its condition."),
    Slip("Flow", r"(?<=: )(\d{1,3}),(\d{3})(?=\s*[,}])", r"\1\2", "A comma ends the value in braces.",
         "Write the number without a comma."),
    Slip("Flow", r",\s*(?=,)", "", "An item is missing.", "Take the comma out, or write the item."),
    Slip("Flow", r"(?<=[\[{])\s*,", "", "An item is missing.", "Take the comma out, or write the item."),
    Slip("Flow", r",?\s*[\w.]+:\s*(?=[}\]])", "", "A value is missing.", "Write the value, or take the key out."),
    Slip("Flow", r"(?<=[{,])(\s*[\w.]+) ([\w.]+)(?=\s*[,}])", r"\1: \2", "A `:` is missing.", "Write `KEY: VALUE`."),
    Slip("Flow", r"(?<=[{,])(\s*[\w.]+):(?=\S)", r"\1: ", "A blank is missing after the `:`.", "Write `KEY: VALUE`."),
    Slip("Flow", r"([\]}])\s*[\]}\w,][^#]*$", r"\1", "Text comes after the end.", "Take it out."),
    Slip("Flow", r"(\[[^\]]*?)(\s*)$", r"\1]", "The bracket is not closed.", "Close it with `]` on its line."),
    Slip("Flow", r"(\{[^}]*?)(\s*)$", r"\1}", "The brace is not closed.", "Close it with `}` on its line."),
)


def slips(scene: Scenery, text: str, at: int, fault: str) -> list[Way]:
    line = line_of(scene.texts, text, at)
    found = []
    for slip in SLIPS:
        if fault in slip.faults.split() and (new := re.sub(slip.found, slip.new, line)) != line:
            found.append(Way((Edit(text, at, at + 1, (new.rstrip(),)),), slip.write, slip.why))
    return found


def of_tabs(scene: Scenery, text: str, at: int) -> list[Way]:
    """All tabs at the front of the lines of an entry, and after dashes, become spaces."""
    blocks = scene.blocks(text)
    entry = blocks.entry_at(blocks.section_at(at), at)
    own = blocks.tabs[bisect_left(blocks.tabs, entry.first) : bisect_left(blocks.tabs, entry.last)]
    more = f" {len(blocks.tabs) - 1} more lines of this text have tabs too." if len(blocks.tabs) > 1 else ""
    found = []
    for width in (2, 4, 8):
        edits = []
        for number in own:
            line = line_of(scene.texts, text, number)
            front = re.match(r"[\s-]*", line)
            assert front
            edits.append(Edit(text, number, number + 1, (front[0].expandtabs(width) + line[front.end() :],)))
        found.append(Way(tuple(edits), "Indent with spaces." + more, "YAML takes no tabs there."))
    return found


def reindented(scene: Scenery, text: str, at: int, column: int) -> Edit:
    """Moves the block of a line to a column."""
    end = scene.blocks(text).end_of(at)
    change = column - indentation(line_of(scene.texts, text, at))
    lines = [line_of(scene.texts, text, number) for number in range(at, end)]
    new = [" " * max(0, indentation(line) + change) + line.lstrip() if line.strip() else line for line in lines]
    return Edit(text, at, end, tuple(new))


def of_indents(scene: Scenery, text: str, at: int) -> list[Way]:
    """The line before it may be no entry; it may be the rest of a value; it may belong into another column."""
    texts = scene.texts
    before = at - 1
    while before > 0 and not without_comment(line_of(texts, text, before)).strip():
        before -= 1
    earlier = without_comment(line_of(texts, text, before))
    line = line_of(texts, text, at)
    found = []
    if not re.search(r":(\s|$)|^\s*-", earlier):
        found += slips(scene, text, before, "Indent")
    if found and re.fullmatch(r"\s*[\w.]+\s*", line):  # (so it has no `:` either)
        both = Edit(text, at, at + 1, (f"{line.rstrip()}:",))
        found = [*(replace(it, edits=(*it.edits, both)) for it in found), *found]
    if indentation(line) > indentation(earlier) and not earlier.endswith(":"):
        joined = Edit(text, before, at + 1, (f"{earlier} {line.strip()}", *[""] * (at - before)))
        found.append(Way((joined,), "Put the whole value on one line; or write a line `- ITEM` for each item.",
                         "The value of the line before it seems to continue here."))
    for column in columns_above(scene.blocks(text), at):
        way = f"Indent the line by {column} spaces, as the lines around it."
        alone = Edit(text, at, at + 1, (" " * column + line.lstrip(),))
        for edit in (alone, reindented(scene, text, at, column)):
            found.append(Way((edit,), way, "It is in no column of the blocks around it."))
    return found


def columns_above(blocks: Blocks, at: int) -> list[int]:
    """The columns of the blocks that are open above a line, the nearest first.

    A line with a tab in front, or in the column of no open block, is passed over: it is wrong itself."""
    columns: list[int] = []
    opens = True
    for number in range(blocks.section_at(at).first, at):
        depth, body = blocks.depths[number], blocks.bodies[number]
        is_in_place = depth in columns or opens and depth > max(columns, default=-1)
        if not is_in_place or "\t" in body[:depth]:
            continue
        columns = [it for it in columns if it < depth] + [depth]
        if body[depth] == "-" and is_item(body):  # (its first entry goes on in a column of its own)
            body = " " * (depth + 1) + body[depth + 1 :]
            columns += [indentation(body)] if KEY.match(body, indentation(body)) else []
        opens = body.endswith(":") or not body.strip()
    columns += [columns[-1] + 2] if columns and opens else []
    here = blocks.depths[at]
    return sorted({*columns} - {here}, key=lambda it: (abs(it - here), it))


def of_duplicates(scene: Scenery, text: str, at: int) -> list[Way]:
    """Joins a key with the same key above it: two lists, or two blocks."""
    found = scene.twins_at(text, at)
    if found is None:
        return []
    first, here = found
    line = scene.number(text, first.line)
    words = f"Join it with line {line}."
    if edits := joined_blocks(scene.texts, text, first, here):
        return [Way(edits, words)]
    if here.path and here.path[0].key == "event_player" and first.value.texts() and here.value.texts():
        names = ", ".join(it.text for it in [*first.value.texts(), *here.value.texts()])
        edits = (give(scene.texts, text, first, names), take_out(scene.texts, text, here))
        return [Way(edits, f"{words} Write `{here.key}: {names}` there.")]
    if edits := joined_braces(scene.texts, text, first, here):
        return [Way(edits, words)]
    write = f"Line {line} has it: take one out." if len(here.path) != 1 else f"Line {line} has it: rename one of them."
    return [Way((take_out(scene.texts, text, here),), write)]


def joined_blocks(texts: Texts, text: str, first: Entry, here: Entry) -> tuple[Edit, ...]:
    """Moves the lines below one entry to those below another one."""
    for it in (first, here):
        if not it.value.entries or it.value.line == it.line or it.in_braces:
            return ()
    assert first.value.entries and here.value.entries
    change = first.value.entries[0].start - here.value.entries[0].start
    moved = [texts[text][number] for number in range(here.line + 1, here.last)]
    lines = [" " * max(0, indentation(it.text) + change) + it.text.lstrip() if it.text.strip() else "" for it in moved]
    there = Edit(text, first.last, first.last, tuple(lines), tuple(it.number for it in moved))
    return there, blanks(text, here.line, here.last)


def joined_braces(texts: Texts, text: str, first: Entry, here: Entry) -> tuple[Edit, ...]:
    """Moves what is in the braces of one entry into those of another one, if no key is in both."""
    one, other = first.value.entries, here.value.entries
    on_lines = first.value.line == first.line and here.value.line == here.line and first.line != here.line
    if not one or not other or not on_lines or {it.key for it in one} & {it.key for it in other}:
        return ()
    inside = line_of(texts, text, here.line)[here.value.start + 1 : here.value.end - 1].strip()
    line, end = line_of(texts, text, first.line), first.value.end - 1
    return (Edit(text, first.line, first.line + 1, (f"{line[:end].rstrip()}, {inside}{line[end:]}",)),
            take_out(texts, text, here))


def of_brackets(scene: Scenery, text: str, at: int) -> list[Way]:
    """A line whose brackets and braces do not match: each is closed by one of its own kind."""
    line = line_of(scene.texts, text, at)
    body = without_comment(line)
    new, waiting = "", ""
    for sign in body:
        if sign in "[{":
            waiting += CLOSES[sign]
        elif sign in "]}":
            sign, waiting = waiting[-1:], waiting[:-1]
        new += sign
    new += waiting[::-1]
    if new == body or "'" in body or '"' in body:
        return []
    words = "Close each `[` with `]`, and each `{` with `}`, on its line."
    return [Way((Edit(text, at, at + 1, (new + line[len(body) :],)),), words, "The brackets do not match.")]


def of_open_flow(scene: Scenery, text: str, at: int) -> list[Way]:
    """A list that continues on the next, deeper lines: all of it on one line."""
    lines = [without_comment(line_of(scene.texts, text, at))]
    if lines[0].count("[") <= lines[0].count("]") and lines[0].count("{") <= lines[0].count("}"):
        return []
    for number in range(at + 1, min(at + 200, len(scene.texts[text]))):
        line = without_comment(line_of(scene.texts, text, number))
        if line.strip() and indentation(line) <= indentation(lines[0]) and line.strip()[0] not in "]}":
            break
        lines.append(line)
    joined = lines[0]
    for count, line in enumerate(lines[1:], 2):
        joined = f"{joined} {line.strip()}".rstrip()
        if joined.count("[") <= joined.count("]") and joined.count("{") <= joined.count("}"):
            joined = re.sub(r"([\[{]) +", r"\1", re.sub(r"[, ]+([\]}])", r"\1", joined))
            words = "Put it on one line, or write a line `- ITEM` for each item."
            edit = Edit(text, at, at + count, (joined, *[""] * (count - 1)))
            return [Way((edit,), words, "YAML may break such a list; here it is on one line.")]
    return []


def of_aliases(scene: Scenery, text: str, at: int) -> list[Way]:
    """The value of an anchor, in place of its alias."""
    line = line_of(scene.texts, text, at)
    found = re.search(r"\*([\w-]+)", line)
    if not found:
        return []
    value = scene.anchors.get(found[1], "")
    new = line.replace(found[0], value or "a_value")
    words = f"Write the value of `&{found[1]}` here" + (f": `{value}`." if value else ".")
    return [Way((Edit(text, at, at + 1, (new,)),), words, "An alias is not read.")]


def of_block_scalars(scene: Scenery, text: str, at: int) -> list[Way]:
    line = line_of(scene.texts, text, at)
    found = re.match(r"(.*:\s+)[|>][+-]?\d?\s*$", line)
    if not found:
        return []
    end = scene.blocks(text).end_of(at)
    rest = [line_of(scene.texts, text, number).strip() for number in range(at + 1, end)]
    value = "\\n".join(it.replace("\\", "\\\\").replace('"', '\\"') for it in rest if it)
    edit = Edit(text, at, end, (f'{found[1]}"{value}"', *[""] * (end - at - 1)))
    return [Way((edit,), f'Write it on one line: `"{value[:40]}"`.', "A text of several lines is not read.")]


def cure_of(scene: Scenery, text: str, at: int, fault: str) -> Cure:
    """The ways to mend a line; the last ones take it out."""
    ways: list[Way] = []
    if fault == "Tab":
        ways += of_tabs(scene, text, at)
    if fault == "Indent":
        ways += of_indents(scene, text, at)
    if fault == "DuplicateKey":
        ways += of_duplicates(scene, text, at)
    if fault in ("Flow", "NotInSubset"):
        for ways_of in of_open_flow, of_brackets, of_aliases, of_block_scalars:
            ways += ways_of(scene, text, at)
    ways += slips(scene, text, at, fault)
    if fault == "NotUtf8":
        line = line_of(scene.texts, text, at)
        readable = line.encode("utf-8", "surrogateescape").decode("cp1252", "replace")
        ways.append(
            Way((Edit(text, at, at + 1, (readable,)),), f"Save the file as UTF-8. The line may say: {readable.strip()}")
        )
    if way := signs.way_of_line(scene, text, at):
        ways.insert(0, way)
    if fault == "NotInSubset" and not ways and is_item(line_of(scene.texts, text, at)):
        ways.append(Way((blanks(text, at, at + 1),), "Write an entry, `NAME: VALUE`, as the lines around it.",
                        "It is an item of a list, and its block has entries."))
    end = scene.blocks(text).end_of(at) if at < len(scene.texts[text]) else at
    out = (blanks(text, at, end),) if end > at else ()
    tabs = re.search(r"\t+", line_of(scene.texts, text, at)) if fault == "Tab" else None
    return Cure(ways=(*ways, Way((blanks(text, at, at + 1),)), Way(out)), out=out, mark=tabs.span() if tabs else None)
