"""Signs that look like those of YAML, and are others: blanks and quotes of editors and of pages in a browser."""
import re

from .mending import line_of, take_out
from .outline import Entry, without_comment
from .scenery import Scenery
from .texts import Edit
from .ways import Cure, Way

BLANKS = "\u00a0\u1680\u2000-\u200a\u202f\u205f\u3000"
WITHOUT_WIDTH = "\u200b-\u200d\u2060\ufeff"
DOUBLE, SINGLE = "“”„‟«»", "‘’‚‛´"
ODD = re.compile(f"[{BLANKS}{WITHOUT_WIDTH}{DOUBLE}{SINGLE}]")
ODD_BLANK = re.compile(f"[{BLANKS}{WITHOUT_WIDTH}]")


def as_yaml(text: str) -> str:
    """The text with the signs of YAML in place of those that look like them."""
    text = re.sub(f"[{WITHOUT_WIDTH}]", "", re.sub(f"[{BLANKS}]", " ", text))
    return re.sub(f"[{SINGLE}]", "'", re.sub(f"[{DOUBLE}]", '"', text))


def way_of_line(scene: Scenery, text: str, at: int) -> Way | None:
    """Writes the signs of YAML in a line, if it has others in their place."""
    line = line_of(scene.texts, text, at)
    body = without_comment(line)
    if not ODD.search(body):
        return None
    edit = Edit(text, at, at + 1, (as_yaml(body) + line[len(body) :],))
    if ODD_BLANK.search(body):
        return Way((edit,), "Delete what looks like a blank there, and type a blank.",
                   "It has a sign that looks like a blank, and is none: text from a page in a browser often has such.")
    return Way((edit,), "Write `\"` or `'`.", "Its quotes are those of a printed text, and none of YAML.")


def cure_of(scene: Scenery, text: str, entry: Entry, of_key: bool = False) -> Cure | None:
    """The same for an entry that is refused, if its key or its value has such a sign; or if its key alone has one."""
    line = line_of(scene.texts, text, entry.line)
    end = entry.value.end if entry.value.line == entry.line and not of_key else entry.end
    sign = ODD.search(line, entry.start, max(entry.end, end))
    way = way_of_line(scene, text, entry.line) if sign else None
    if sign is None or way is None:
        return None
    out = (take_out(scene.texts, text, entry),)
    return Cure(ways=(way, Way(out, way.write, way.why)), out=out, mark=sign.span())
