"""What the language has: its sections and settings, read from the tables of docs/profile.md."""
import re
from dataclasses import dataclass
from functools import cache
from pathlib import Path

PAGE = Path(__file__).resolve().parents[2] / "docs/profile.md"

# the tables that have the settings of a section's entries, by the first cell of their first row
TABLES = {
    "switches": ("Setting of a switch",),
    "mode": ("Setting of `mode`",),
    "coils": ("Setting of a coil",),
    "coil_player": ("Setting of a coil in `coil_player`",),
    "flippers": ("Setting of a flipper",),
    "autofire_coils": ("Setting of an autofire coil",),
    "counters": ("Setting of a counter", "Setting of each of them"),
    "accruals": ("Setting of an accrual or a sequence", "Setting of each of them"),
    "sequences": ("Setting of an accrual or a sequence", "Setting of each of them"),
    "timers": ("Setting of a timer",),
    "control_events": ("Setting of an item",),
    "shots": ("Setting of a shot",),
    "shot_groups": ("Setting of a group",),
    "shot_profiles": ("Setting of a profile",),
    "states": ("Setting of a state",),
    "ball_devices": ("Setting of a ball device",),
    "ball_saves": ("Setting of a ball save",),
    "multiballs": ("Setting of a multiball",),
    "game": ("Setting of `game`",),
    "machine": ("Setting of `machine`",),
    "variable_player": ("Setting of a variable",),
}
# what an entry of a section is called
CALLED = {
    "switches": "a switch",
    "mode": "the section `mode`",
    "coils": "a coil",
    "coil_player": "a coil in `coil_player`",
    "flippers": "a flipper",
    "autofire_coils": "an autofire coil",
    "counters": "a counter",
    "accruals": "an accrual",
    "sequences": "a sequence",
    "timers": "a timer",
    "control_events": "an item of `control_events`",
    "shots": "a shot",
    "shot_groups": "a group",
    "shot_profiles": "a profile",
    "states": "an item of `states`",
    "ball_devices": "a ball device",
    "ball_saves": "a ball save",
    "multiballs": "a multiball",
    "game": "the section `game`",
    "machine": "the section `machine`",
    "variable_player": "a variable in `variable_player`",
}
# sections whose entries are one mapping, with the settings right below the section
SINGLE = ("mode", "game", "machine")
PLAYERS = ("event_player", "coil_player", "variable_player")


@dataclass(frozen=True)
class Setting:
    name: str
    value: str
    default: str
    does: str


def cells(row: str) -> list[str]:
    return [cell.strip().replace("\\|", "|") for cell in re.split(r"(?<!\\)\|", row.strip())[1:-1]]


@cache
def tables() -> dict[str, list[list[str]]]:
    """The tables of the page, by the first cell of their head."""
    found: dict[str, list[list[str]]] = {}
    head = ""
    for line in PAGE.read_text().split("\n"):
        if not line.startswith("|"):
            head = ""
        elif not head:
            head = cells(line)[0]
            found[head] = []
        elif not line.startswith("|---"):
            found[head].append(cells(line))
    return found


def names(text: str) -> list[str]:
    return re.findall(r"`([^`]+)`", text)


@cache
def settings(section: str) -> dict[str, Setting]:
    """The settings of an entry of a section."""
    rows = [row for table in TABLES.get(section, ()) for row in tables().get(table, [])]
    return {name: Setting(name, *row[1:4]) for row in rows for name in names(row[0])}


@cache
def sections() -> dict[str, str]:
    """Each section, and the texts that have it: `the machine`, `a mode` or `both`."""
    return {name: row[1] for row in tables().get("Section", []) for name in names(row[0])}


@cache
def entries() -> dict[str, tuple[str, str]]:
    """What an entry of each section is, and what settings it has."""
    return {name: (row[2], row[3]) for row in tables().get("Section", []) for name in names(row[0])}


@cache
def skipped() -> frozenset[str]:
    after = PAGE.read_text().partition("### Skipped sections\n")[2].partition("\n#")[0]
    return frozenset(names(after.replace("\n", " ")))


@cache
def of_other_tools() -> frozenset[str]:
    """The settings that any entry may have, and that are not read."""
    paragraphs = PAGE.read_text().split("\n\n")
    found = next((it for it in paragraphs if "`console_log`" in it), "")
    return frozenset(names(found.replace("\n", " ").partition("may also have")[2].partition(".")[0]))


@cache
def actions() -> list[str]:
    """The actions of an item of `control_events`."""
    return [name for row in tables().get("Action", []) for name in names(row[0])]


def limits() -> dict[str, str]:
    """How many of each there may be in a plan, by the table that `fault 7` names."""
    return {name: row[1] for row in tables().get("Table", []) for name in names(row[0])}
