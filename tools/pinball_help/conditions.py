"""What a condition of MPF means here: the event to write in its place, if there is one that means the same."""
import re
from dataclasses import dataclass

from .outline import Entry
from .scenery import Scenery

# headings of docs/from_mpf.md
COUNTER, TWO_CONDITIONS = "A counter in a condition", "Two conditions at once"

ONLY_VARIABLES = "A condition compares a variable of the current player with a whole number, and nothing else."
IN_BRACES = "A condition is in braces, right after the event."
NO_BLANK = "No blank may come before the brace."
ONE_COMPARISON = "A condition has one comparison."
AN_ARGUMENT = "In MPF `{0}` may be a value that comes with the event `{1}`. Events bring no values here."
NOT_CHANGED = "No entry changes a variable `{}`, so it would always be 0."
NO_CURE = "Nothing here means the same, so the copy goes on without it."
COMPARISON = re.compile(r"([\w.]+)\s*([=!<>]=|[<>=])\s*(-?\d[\d_,]*)")
TURNED = re.compile(r"(-?\d+)\s*([=!<>]=|[<>])\s*(current_player\.\w+)")
MIRROR = {"<": ">", ">": "<", "<=": ">=", ">=": "<=", "==": "==", "!=": "!="}
ARGUMENTS = {  # of MPF's events: what has the same value here
    r"ball_(?:will_start|starting|started)": {"ball": "ball"},
    r"player_turn_(?:will_start|starting|started)": {"number": "number"},
}


@dataclass(frozen=True)
class Meaning:
    right: str  # the event to write, with its condition; empty if none means the same
    why: str
    write: str
    recipe: str = ""
    steps: tuple[str, ...] = ()  # lines of an `event_player` that lead to `right`


def parts_of(event: str) -> tuple[str, str, str] | None:
    """The name of an event, what is between the name and the brace, and what is in the braces."""
    found = re.fullmatch(r"([\w.-]+)(\s*)\{(.*)\}", event.strip(), re.ASCII)
    found = found or re.fullmatch(r"([\w.-]+)(\s+)(?:(?:if|when|and)\s+)?(\S.*[=<>].*)", event.strip(), re.ASCII)
    return (found[1], found[2], found[3].strip()) if found else None


def meaning_of(scene: Scenery, event: str) -> Meaning | None:
    """What to write for a handled event whose condition is not read."""
    parts = parts_of(event)
    if parts is None:
        return None
    name, gap, inside = parts
    if re.search(r"\bor\b", inside):
        return Meaning("", ONE_COMPARISON, f"For `or` write two entries, one for each comparison. {NO_CURE}")
    found = [comparison(scene, name, it) for it in re.split(r"\s+and\s+", inside)]
    if any(not it.right for it in found):
        return next(it for it in found if not it.right)
    if len(found) > 1:
        return in_steps(name, [it.right for it in found])
    right = f"{name}{{{found[0].right}}}"
    why = found[0].why or (IN_BRACES if "{" not in event else NO_BLANK if gap else ONLY_VARIABLES)
    return Meaning(right, why, f"Write `{right}`.")


def in_steps(name: str, comparisons: list[str]) -> Meaning:
    """Lets one event lead to another, with one comparison at each."""
    names = [name, *(f"{name}_and_{at}" for at in range(2, len(comparisons) + 1))]
    heads = [f"{it}{{{comparison}}}" for it, comparison in zip(names, comparisons)]
    steps = tuple(f"{head}: {following}" for head, following in zip(heads, names[1:]))
    write = f"Let one event lead to another, with a condition at each: `{steps[0]}`, and then `{heads[-1]}`."
    return Meaning(heads[-1], ONE_COMPARISON, write, TWO_CONDITIONS, steps)


def comparison(scene: Scenery, name: str, text: str) -> Meaning:
    """One comparison as it is written here: `right` is what comes into the braces."""
    if found := re.fullmatch(r"(not\s+)?current_player\.(\w+)", text):
        sign = "==" if found[1] else "!="
        return Meaning(f"current_player.{found[2]} {sign} 0", "A condition has a comparison with a number.", "")
    if found := TURNED.fullmatch(text):
        return Meaning(f"{found[3]} {MIRROR[found[2]]} {found[1]}", "The variable comes first.", "")
    found = COMPARISON.fullmatch(text)
    if found and (variable := variable_of(scene, name, found[1])):
        number = re.sub(r"[_,]", "", found[3])
        sign = "==" if found[2] == "=" else found[2]
        why = "" if found[1].startswith("current_player.") else "A condition names a variable of the current player."
        return Meaning(f"current_player.{variable} {sign} {number}", why, "")
    return without_cure(scene, name, text, found[1] if found else "")


def variable_of(scene: Scenery, event: str, name: str) -> str:
    """The player's variable that a name in a condition means; empty if there is none."""
    if name.startswith("current_player."):
        return name.removeprefix("current_player.")
    for pattern, known in ARGUMENTS.items():
        if name in known and re.fullmatch(pattern, event):
            return known[name]
    if name == "value" and (found := re.fullmatch(r"player_(\w+)", event)):
        return found[1]
    changed = {it.key for _, entry in scene.entries_of("variable_player") for it in entry.value.entries or []}
    return name if name in changed else ""


def without_cure(scene: Scenery, event: str, text: str, name: str) -> Meaning:
    """What is said of a comparison that nothing here means."""
    if found := re.search(r"\bmode\.(\w+)\.active\b", text):
        write = f"Write the entry in the text of the mode `{found[1]}`, without the condition."
        return Meaning("", ONLY_VARIABLES, f"{write} The copy goes on without it.")
    if "device.counters" in text:
        write = "Count in a variable too, and compare it: `{current_player.x == 1}`."
        return Meaning("", ONLY_VARIABLES, f"{write} The copy goes on without it.", COUNTER)
    if "settings." in text:
        write = "There are no settings here: write the entry without the condition, or take it out."
        return Meaning("", ONLY_VARIABLES, f"{write} The copy goes on without it.")
    timer = re.fullmatch(r"timer_(\w+)_tick", event)
    if timer and name == "ticks" and (number := re.search(r"-?\d+", text)):
        new = f"{timer[1]}_{number[0]}"
        write = f"Write a timer `{new}` with `end_value: {number[0]}`, and handle `timer_{new}_complete`."
        return Meaning("", AN_ARGUMENT.format(name, event), f"{write} The copy goes on without it.")
    if name and "." not in name:
        why = f"{AN_ARGUMENT.format(name, event)} {NOT_CHANGED.format(name)}"
        write = f"If it is a variable of the player, write `current_player.{name}`, and let an entry change it."
        return Meaning("", why, f"{write} Else: {NO_CURE[0].lower()}{NO_CURE[1:]}")
    return Meaning("", ONLY_VARIABLES, f"Keep what it asks for in a variable: `{{current_player.x == 1}}`. {NO_CURE}")


def handled_events(entry: Entry) -> bool:
    """Whether the value of a setting is a list of handled events."""
    return bool(re.fullmatch(r"(?!events_when)\w*_events|events|event", entry.key))
