"""ADOPTED.md, and the table of docs/from_mpf.md: both are made of the table of features."""
import hashlib
import re
import textwrap

from ..outline import without_comment
from .context import Context, Done
from .draft import clean
from .features import FEATURES, LOST, REWRITTEN, TABLE, UNSEEN, WEAKENED, Feature
from .source import File

NAME = "ADOPTED.md"
HEADS = (
    (LOST, "Lost", "These rules are gone, or never run."),
    (WEAKENED, "Weakened", "These rules do less than in MPF, or do it at other times."),
    (REWRITTEN, "Rewritten", "These are said in another way, and do what the words say."),
    (UNSEEN, "Unseen", "These are for the eyes and ears, or for other programs. No rule changes."),
)
ABOUT = (
    "`pinball-help adopt` has made this folder of `{}`. `pinball check` accepts it. That answer is about this folder, "
    "and not about what MPF runs: this page lists all that differs. Places are lines of the MPF folder."
)
MOST_LINE = 60  # of a line that is shown
WIDTH = 110
SUM = "<!-- written by adopt: {} {} -->"
SUMS = re.compile(r"^<!-- written by adopt: ([0-9a-f]{64}) (.+) -->$", re.M)


def report(ctx: Context, folder: str, unposted: list[tuple[str, str]], files: dict[str, str]) -> str:
    lines = [
        "# What became of the MPF folder",
        "",
        *wrapped(ABOUT.format(clean(folder)), ""),
        "",
        counted(ctx),
    ]
    for effect, title, about in HEADS:
        if some := by_feature(ctx, effect):
            lines += ["", f"## {title}", "", about, "", *some]
    if unposted:
        lines += ["", "## Handled, and nothing posts it", "",
                  "These entries are written, and never run: nothing here posts the event. Places are lines of this",
                  "folder.", ""]
        places: dict[str, list[str]] = {}
        for name, place in unposted:
            places.setdefault(name, []).append(place)
        for name, some in places.items():
            lines += wrapped(f"- `{clean(name)}`: {clean(', '.join(some))}", "  ")
    body = "\n".join([*lines, "", ""])
    sums = {**{name: sum_of(text) for name, text in files.items()}, NAME: sum_of(body)}
    return body + "".join(f"{SUM.format(check, name)}\n" for name, check in sums.items())


def body_of(page: str) -> str:
    """The page without its checksums."""
    return page.partition(SUM.partition("{")[0])[0]


def sum_of(text: str) -> str:
    return hashlib.sha256(text.encode("utf-8", "surrogateescape")).hexdigest()


def counted(ctx: Context) -> str:
    counts = {effect: len({it.place for it in ctx.done if it.effect == effect}) for effect, _, _ in HEADS}
    return f"Kept: {len(ctx.kept)} lines. Places: " + ", ".join(f"{it} {effect}" for effect, it in counts.items()) + "."


def by_feature(ctx: Context, effect: str) -> list[str]:
    files = {it.name: it for it in ctx.source.files}
    found: dict[str, list[Done]] = {}
    for it in ctx.done:
        if it.effect != effect:
            continue
        found.setdefault(FEATURES[it.feature].title, []).append(it)
    lines = []
    for title, all_of_it in found.items():
        here = FEATURES[all_of_it[0].feature].here
        lines += wrapped(f"- **{plain(title)}**: {plain(here)}", "  ")
        said: dict[str, list[Done]] = {}
        for it in all_of_it:
            words = with_line(files, it, title) if effect in (LOST, WEAKENED) else it.says
            said.setdefault(words, []).append(it)
        for words, those in said.items():
            places = ", ".join(dict.fromkeys(shown(it) for it in those))
            lines += wrapped(f"  - {places}" + (f": {clean(words)}" if words else ""), "    ")
    return lines


def with_line(files: dict[str, File], one: Done, title: str) -> str:
    """What is said of a place, after what is written there, unless the title or the words have it."""
    file = files.get(one.place.file)
    line = without_comment(file.lines[one.place.line - 1]) if file and one.place.line <= len(file.lines) else ""
    line = line.strip().removesuffix(":")
    seen = line[:MOST_LINE]
    named = re.match(r"`([^`]+)`(?:: |$)", one.says)
    is_seen = named and (seen.startswith(named[1]) or f": {seen}".endswith(f": {named[1]}"))
    says = one.says[named.end() :] if named and is_seen else one.says
    short = "" if not line or f"`{line}`" in title else f"`{seen}`" if seen == line else f"`{seen} ..`"
    return ": ".join(it for it in (short, says) if it)


def wrapped(line: str, margin: str) -> list[str]:
    if len(line) <= WIDTH:  # (most are, and a list may be long)
        return [line.rstrip()]
    return textwrap.wrap(line, WIDTH, subsequent_indent=margin, break_long_words=False, break_on_hyphens=False)


def plain(cell: str) -> str:
    """The words of a cell of the page's table."""
    return cell.replace("\\|", "|")


def shown(one: Done) -> str:
    place = one.place
    last = f"-{place.last}" if place.last > place.line else ""
    return clean(f"{place.file}:{place.line}{last}")


def left_out(ctx: Context) -> list[str]:
    """The list of what is left out, and of what does less."""
    lines: list[str] = []
    for effect, title, about in HEADS:
        if effect != REWRITTEN and (some := by_feature(ctx, effect)):
            lines += [f"{title}. {about}", *some, ""]
    return lines


def table() -> list[str]:
    """The table of the page."""
    lines = ["| In MPF | How common | Here | |", "|---|---|---|---|"]
    return lines + [row(it) for it in TABLE]


def row(feature: Feature) -> str:
    return f"| {feature.title} | {feature.common} | {feature.effect} | {feature.here} |"
