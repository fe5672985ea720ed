"""The ways to mend what `error 6 BadValue` says: a name, or a value that a setting does not take."""
import re
from dataclasses import replace

from . import events, powers, profile, signs, values
from .answers import Complaint
from .conditions import NO_CURE, ONLY_VARIABLES, meaning_of
from .graph import says_yes, setting
from .idioms_of_values import ACTS_LATER, ANY, DELAY, ENTRY, EVENT, IDIOMS, Idiom
from .mending import add, blanks, give, line_of, rename, substitute, take_item_out, take_out
from .mending import replace as replace_in
from .near import nearest
from .outline import Entry, Node, unquoted, without_comment
from .scenery import Scenery, raw, section_of, setting_table, siblings_of
from .texts import Edit
from .ways import EXAMPLE, Cure, Way
from .ways_of_yaml import reindented

PLACEHOLDER = r"\(([^)]*)\)"
ACTIONS = ("pulse", "enable", "disable")  # of a coil


def states_of(value: str) -> str:
    names = [it for it in re.split(r"[\s,\[\]{}-]+", re.sub(r"name:", " ", value)) if it][:16]
    return "[" + ", ".join(f"{{name: {it}}}" for it in dict.fromkeys(names)) + "]" if names else "[{name: a_state}]"


def edits_of(scene: Scenery, text: str, entry: Entry, idiom: Idiom) -> tuple[Edit, ...]:
    """What a copy gets for an idiom."""
    texts, value = scene.texts, raw(scene.texts, text, entry)
    names = [it.text for it in entry.value.texts()]
    kind, *words = idiom.edit
    if kind == "sub":
        return (substitute(texts, text, entry, words[0], words[1]),)
    if kind == "value":
        return (give(texts, text, entry, words[0]),)
    if kind == "power":
        return (give(texts, text, entry, powers.meant(entry.key, unquoted(value))[0]),)
    if kind == "upper":
        return (give(texts, text, entry, unquoted(value).upper()),)
    if kind == "boolean":
        return (give(texts, text, entry, "yes" if value == "1" else "no"),)
    if kind == "keys":
        items = [it.entries[0].value.text for it in entry.value.items or [] if it.entries]
        keys = [it.key for it in entry.value.entries or []] or [it for it in items if it] or names
        return (give(texts, text, entry, f"[{', '.join(keys)}]"),)
    if kind == "number":
        number = re.search(r"(?<![\w.])-?\d+(?![\w.])", value)
        return (give(texts, text, entry, number[0] if number else "1"),)
    if kind == "placeholder":
        return (of_placeholder(scene, text, entry),)
    if kind == "hits":
        return events.hits_way(scene, text, entry, "", "").edits
    if kind == "coils" and (coils := [it for it in names if it not in ACTIONS]):
        action = next((it for it in names if it in ACTIONS), "pulse")
        return (give(texts, text, entry, "{" + ", ".join(f"{it}: {action}" for it in coils) + "}"),)
    if kind == "first" and names:
        return (give(texts, text, entry, names[0]),)
    if kind == "states":
        return (give(texts, text, entry, states_of(value)),)
    if kind == "steps" and names:
        return (give(texts, text, entry, f"[{', '.join(names)}]"),)
    if kind == "dash":
        return (as_list(scene, text, entry),)
    if kind == "blank" and (edit := with_blank(scene, text, entry)):
        return (edit,)
    return (take_out(texts, text, entry),)


def as_list(scene: Scenery, text: str, entry: Entry) -> Edit:
    """A mapping becomes a list that has it as its one item."""
    if entry.value.line == entry.line:
        return give(scene.texts, text, entry, f"[{raw(scene.texts, text, entry)}]")
    lines = [line_of(scene.texts, text, at) for at in range(entry.value.line, entry.last)]
    column = entry.value.start
    new = [f"{line[:column]}  {line[column:]}" if line.strip() else "" for line in lines]
    new[0] = f"{lines[0][:column]}- {lines[0][column:]}"
    return Edit(text, entry.value.line, entry.last, tuple(new))


def with_blank(scene: Scenery, text: str, entry: Entry) -> Edit | None:
    """Writes a blank after the `:` of the setting of an entry that has nothing else; or the key `number`, if it has
    just that."""
    value, section = raw(scene.texts, text, entry), section_of(entry)
    if section in ("switches", "coils") and re.fullmatch(r"[0-9][0-9-]*", value):
        return give(scene.texts, text, entry, f"{{number: {value}}}")
    at = entry.line + 1
    line = line_of(scene.texts, text, at)
    found = re.match(r"(\s*(\w+))\s*[:=]\s*(?=\S)", line)
    settings = {*profile.settings(section), *profile.of_other_tools()}
    is_lone = not entry.in_braces and value == without_comment(line).strip()
    if not found or not is_lone or found[2] not in settings:
        return None
    return Edit(text, at, at + 1, (f"{found[1]}: {line[found.end():]}",))


def of_placeholder(scene: Scenery, text: str, entry: Entry) -> Edit:
    """Events without placeholders, as an example: a line for 0 and for 1 of a variable, each with its condition."""
    value = raw(scene.texts, text, entry)
    found = {*re.findall(PLACEHOLDER, value)}
    variable = next(iter(found), "").strip()
    by_value = len(found) == 1 and re.fullmatch(r"current_player\.\w+", variable) and "{" not in entry.key
    if not by_value or entry.in_braces or entry.last > entry.line + 1:
        return substitute(scene.texts, text, entry, PLACEHOLDER, lambda it: it[1] if it[1].isidentifier() else "1")
    start = line_of(scene.texts, text, entry.line)[: entry.start] + entry.key
    one, other = (f"{{{variable}=={it}}}: {re.sub(PLACEHOLDER, it, value)}" for it in ("0", "1"))
    first = give(scene.texts, text, entry, one.partition(": ")[2], entry.key + one.partition(": ")[0])
    return Edit(text, entry.line, entry.line + 1, (*first.lines, start + other))


def idiom_of(scene: Scenery, text: str, entry: Entry) -> Idiom | None:
    section = section_of(entry) if entry.path else ""
    value = unquoted(raw(scene.texts, text, entry))
    own = len(entry.path) == 1 and section not in (*profile.PLAYERS, *profile.SINGLE)
    event = len(entry.path) == 1 and section in profile.PLAYERS
    for idiom in IDIOMS:
        special = {ENTRY: own, EVENT: event}
        fits = special.get(idiom.setting) if idiom.setting in special else re.fullmatch(idiom.setting, entry.key)
        if fits and re.fullmatch(idiom.section, section) and re.search(idiom.value, value):
            return idiom
    return None


def as_name(text: str) -> str:
    """A name that is like a text that is no name."""
    plain = text.translate(str.maketrans("äöüàáâèéêìíòóùúçñÄÖÜ", "aouaaaeeeiioouucnAOU"))
    return re.sub(r"[^\w.-]+", "_", plain, flags=re.ASCII).strip("_")[:64] or "a_name"


def cure_at(scene: Scenery, text: str, entry: Entry, says: tuple[str, ...], *ways: Way, whole: bool = False) -> Cure:
    """The cure of an entry: some ways, and at last to take it out."""
    out = (take_out(scene.texts, text, entry),)
    return Cure(says, whole, (*ways, Way(out, ways[0].write if ways else "")), out, (entry.start, entry.end))


def of_names(scene: Scenery, text: str, entry: Entry) -> Cure | None:
    """Where the key itself is at fault: it is no name, or is reserved."""
    key = entry.key
    if key in ("playfield", "default") and len(entry.path) == 1:
        way = Way((rename(scene.texts, text, entry, f"{key}_1"),), "Give it another name.")
        return cure_at(scene, text, entry, (f"`{key}` is a name that is there already.",), way, whole=True)
    if re.fullmatch(r"[\w.-]{1,64}", key, re.ASCII) or not entry.path:
        return None
    if re.fullmatch(r"[\w.-]+\s*\{\s*[\w.-]+", key, re.ASCII):
        name = re.split(r"\s*\{", key)[0]
        edit = replace_in(scene.texts, text, entry.line, entry.start + len(name), entry.start + key.index("{"), ": ")
        way = Way((edit,), f"Write `{name}: {{..}}`.", "A `:` is missing after the name.")
        return cure_at(scene, text, entry, (f"`{key}` is no name.",), way, whole=True)
    if section_of(entry) in profile.PLAYERS and ("{" in key or re.search("[=<>]", key)):
        return None if values.is_event(key) else of_condition(scene, text, entry)
    right = as_name(key.split("|")[0])
    why = "A name has letters without accents, digits, `_`, `-` and `.` alone, at most 64 of them."
    write, recipe = f"Write `{right}`.", ""
    if "|" in key:
        why = "MPF handles the event after a time. Delays are not carried out here."
        write, recipe = f"Write `{right}`: it then acts at once. {ACTS_LATER}", DELAY
    taken = any(it.key == right for it in siblings_of(entry))
    ways = () if taken else (Way((rename(scene.texts, text, entry, right),), write, why, recipe=recipe),)
    return cure_at(scene, text, entry, (f"`{key}` is no name.",), *ways, whole=True)


def of_condition(scene: Scenery, text: str, entry: Entry) -> Cure:
    """A handled event with a condition that is not read."""
    says = (f"`{entry.key}` is not read as an event with a condition.",)
    meaning = meaning_of(scene, entry.key)
    if meaning is None:
        return cure_at(scene, text, entry, says, Way((take_out(scene.texts, text, entry),), NO_CURE, ONLY_VARIABLES))
    if not meaning.right:
        edits = (take_out(scene.texts, text, entry),)
    elif section_of(entry) == "event_player":
        line = line_of(scene.texts, text, entry.line)
        heads = tuple(line[: entry.start] + step for step in meaning.steps)
        renamed = rename(scene.texts, text, entry, meaning.right)
        numbers = (*[0] * len(heads), *(it.number for it in scene.texts[text][renamed.first : renamed.last]))
        edits = (replace(renamed, lines=(*heads, *renamed.lines), numbers=numbers),)
    else:
        edits = (rename(scene.texts, text, entry, meaning.right), *events.steps_of(scene, text, meaning.steps))
    return cure_at(scene, text, entry, says, Way(edits, meaning.write, meaning.why, recipe=meaning.recipe), whole=True)


def of_value(scene: Scenery, complaint: Complaint) -> Cure:
    text, line = complaint.text, complaint.line - 1
    entry = scene.entry_at(text, line, complaint.key)
    if complaint.key == "modes" and (listed := of_mode_name(scene, text, line)):
        return listed
    if complaint.key == "start_events" and (held := of_held_end(scene, text, line)):
        return held
    if entry is None:
        return of_no_mapping(scene, text, line)
    if odd := signs.cure_of(scene, text, entry):
        return odd
    if named := of_names(scene, text, entry):
        return named
    cure = of_entry(scene, text, entry)
    end = entry.value.end if entry.value.line == entry.line else 0
    return replace(
        cure, mark=cure.mark if cure.mark != (entry.start, entry.end) else (entry.start, max(entry.end, end))
    )


def of_entry(scene: Scenery, text: str, entry: Entry) -> Cure:
    """Where the value of an entry is at fault."""
    says = takes(entry)
    if way := below_the_entry_above(scene, text, entry):
        return replace(cure_at(scene, text, entry, (), way), whole=True)
    idiom = idiom_of(scene, text, entry)
    near = nearest(raw(scene.texts, text, entry), words_of(entry)) if idiom is None or idiom.value == ANY else ""
    if near:
        way = Way((give(scene.texts, text, entry, near),), f"Write `{near}`.", near=near)
        return cure_at(scene, text, entry, says, way)
    if way := events.way_of(scene, text, entry):
        return cure_at(scene, text, entry, (), way)
    if idiom:
        value = unquoted(raw(scene.texts, text, entry))
        reason = powers.meant(entry.key, value)[1] if idiom.edit[0] == "power" else ""
        why = f"{idiom.mpf} {reason}".rstrip()
        way = Way(edits_of(scene, text, entry, idiom), idiom.write, why, recipe=idiom.recipe)
        return replace(cure_at(scene, text, entry, says, way), stays=idiom.edit[0] == "power")
    if not entry.path:
        return cure_at(scene, text, entry, ("A section is a mapping of entries.",), of_section(scene, text, entry))
    if bad := bad_items(entry):
        write = "Write names of letters, digits, `_`, `-` and `.`, with commas between them."
        way = Way((take_item_out(scene.texts, text, entry, bad[0]),), write)
        cure = cure_at(scene, text, entry, (f"`{bad[0].text}` is no name.", *says), way)
        return replace(cure, mark=(bad[0].start, bad[0].end)) if bad[0].line == entry.line else cure
    return cure_at(scene, text, entry, says, of_kind(scene, text, entry))


def of_section(scene: Scenery, text: str, entry: Entry) -> Way:
    """A section that has no entries below it."""
    if entry.value.items is None or entry.value.line == entry.line:
        write = "Write settings below it" if entry.key in profile.SINGLE else "Write entries below it, as `NAME:`"
        return Way((give(scene.texts, text, entry, ""),), f"{write}; or nothing after the `:`.")
    lines = [line_of(scene.texts, text, at) for at in range(entry.value.line, entry.last)]
    margin = "" if entry.value.start else "  "
    new = [re.sub(r"^(\s*)- +\{ *name: *([\w.-]+),? *", r"\1\2: {", line) for line in lines]
    new = [re.sub(r"^(\s*)- +(?:name: *)?([\w.-]+)\s*:?\s*$", r"\1\2:", line) for line in new]
    edit = Edit(text, entry.value.line, entry.last, tuple(margin + line if line.strip() else "" for line in new))
    is_right = all(line[:1] in ("", " ") and not re.match(r"\s*- ", line) for line in edit.lines)
    return Way((edit,) if is_right else (), "Write entries below it: `NAME:`, not `- NAME`.")


def below_the_entry_above(scene: Scenery, text: str, entry: Entry) -> Way | None:
    """A setting in the column of the entry above it, to which it belongs."""
    section = section_of(entry)
    settings = {*profile.settings(section), *profile.of_other_tools()}
    if len(entry.path) != 1 or section in (*profile.PLAYERS, *profile.SINGLE) or entry.in_braces:
        return None
    above = [it for it in siblings_of(entry) if it.line < entry.line and it.key not in settings]
    if entry.key not in settings or not above or above[-1].value.text or above[-1].value.items is not None:
        return None
    inner = above[-1].value.entries
    column = inner[0].start if inner else entry.start + 2
    write = f"Indent it by {column} spaces, below `{above[-1].key}`."
    return Way((reindented(scene, text, entry.line, column),), write, "It is a setting, in the column of the entries.")


def of_kind(scene: Scenery, text: str, entry: Entry) -> Way:
    """What to write for a value, by what its setting takes."""
    found = setting_of(entry)
    if section_of(entry) == "variable_player" and len(entry.path) == 2:
        return Way((give(scene.texts, text, entry, "1"),), f"Write a whole number. {EXAMPLE}")
    names = words_of(entry)
    if found is None and not names and (way := of_lone_value(scene, text, entry)):
        return way
    if found is None:
        return Way((), f"Write {one_of(names)}." if names else "Write a value that it takes, or leave it out.")
    if found.value.startswith("boolean"):
        names = ["yes", "no"]
    if names:
        write = f"Write {one_of(names)}."
    elif number := without_unit(raw(scene.texts, text, entry), found.value):
        return Way((give(scene.texts, text, entry, number),), f"Write {a(found.value)}, without a unit.")
    elif example := example_of(found.value):
        return Way((give(scene.texts, text, entry, example),), f"Write {a(found.value)}. {EXAMPLE}")
    else:
        write = f"Write {a(found.value)}."
    left_out = "none" if found.default == "none" else found.default
    return Way((), write + (f" The copy goes on without it, so {left_out} holds." if left_out != "required" else ""))


def of_lone_value(scene: Scenery, text: str, entry: Entry) -> Way | None:
    """An entry that has one value in place of settings."""
    settings = profile.settings(section_of(entry))
    if len(entry.path) != 1 or not settings or section_of(entry) in (*profile.PLAYERS, *profile.SINGLE):
        return None
    required = [name for name, it in settings.items() if it.default == "required"]
    value = raw(scene.texts, text, entry)
    shown = (required or [*settings])[:3]
    write = f"Write its settings below it, as {', '.join(f'`{it}:`' for it in shown)}."
    is_plain = len(required) == 1 and entry.value.line == entry.line and entry.value.entries is None
    return Way((give(scene.texts, text, entry, f"{{{required[0]}: {value}}}"),) if is_plain and value else (), write)


def one_of(names: list[str]) -> str:
    return " or ".join([", ".join(f"`{it}`" for it in names[:-1]), f"`{names[-1]}`"])


def a(kind: str) -> str:
    article = "" if kind.startswith(("one ", "YAML")) else "an " if kind[:1] in "aeio" else "a "
    return f"{article}{kind}"


def without_unit(value: str, kind: str) -> str:
    """The number of a value such as `5s`, if the setting takes such a number; else nothing."""
    found = re.fullmatch(r"(-?[0-9]{1,9}) ?[A-Za-z%]+", unquoted(value))
    limits = re.fullmatch(r"integer(?: from (-?[\d,]+) to ([\d,]+))?.*", kind)
    if not found or not limits:
        return ""
    least, most = (int(it.replace(",", "")) if it else None for it in limits.groups())
    is_within = (least is None or int(found[1]) >= least) and (most is None or int(found[1]) <= most)
    return found[1] if is_within else ""


def example_of(kind: str) -> str:
    """A value of a kind of numbers or times."""
    if kind.startswith("integer"):
        first = re.search(r"from (-?[\d,]+)", kind)
        return str(max(10 if not first else 1, int(first[1].replace(",", "")) if first else 0))
    return "1s" if kind.startswith(("time", "one time")) and "5,000" not in kind else ""


def of_held_end(scene: Scenery, text: str, line: int) -> Cure | None:
    """A mode that holds the end of the ball, and starts at something else or at nothing."""
    mode = next((it for it in scene.outlines[text].entries or [] if it.key == "mode"), None)
    wait, starts = (setting(mode, key) if mode else None for key in ("use_wait_queue", "start_events"))
    if mode is None or wait is None or not says_yes(mode, "use_wait_queue", False):
        return None
    if line != (starts or mode).line or starts and bad_items(starts):
        return None
    out = (take_out(scene.texts, text, wait),)
    marked = starts or mode
    says = ("With `use_wait_queue: yes` the end of the ball waits for the mode, so it starts at `ball_ending` alone.",)
    if starts and starts.value.texts():
        names = [values.event_of(it.text) for it in starts.value.texts()]
        write = "Take `use_wait_queue` out: nothing but the end of the ball waits for a mode."
        if "ball_ending" in names:
            write = f"{write} To keep the wait at `ball_ending`, write a mode of its own for the other start events."
        return Cure(says, True, (Way(out, write),), out, (marked.start, marked.end))
    right = "start_events: ball_ending"
    edit = give(scene.texts, text, starts, "ball_ending") if starts else add(scene.texts, text, mode, right)
    way = Way((edit,), f"Write `{right}`; or take `use_wait_queue` out.")
    return Cure(says, True, (way, Way(out, way.write)), out, (marked.start, marked.end))


def of_no_mapping(scene: Scenery, text: str, line: int) -> Cure:
    out = (blanks(text, line, scene.blocks(text).end_of(line)),) if line < len(scene.texts[text]) else ()
    says = ("A text is a mapping of sections, as `switches:`.",)
    return Cure(says, False, (Way(out, "Write sections with entries below them."),), out)


def bad_items(entry: Entry) -> list[Node]:
    """The items of a list that are no names, nor names with a condition."""
    return [it for it in entry.value.texts() if not re.fullmatch(r"[\w.-]{1,64}(\{.*\})?", it.text, re.ASCII)]


def setting_of(entry: Entry) -> profile.Setting | None:
    return profile.settings(setting_table(entry)).get(entry.key) if entry.path else None


def takes(entry: Entry) -> tuple[str, ...]:
    """The words of docs/profile.md on the value of a setting."""
    found = setting_of(entry)
    return (f"`{entry.key}` takes: {found.value.replace('required', '').strip()}.",) if found else ()


def words_of(entry: Entry) -> list[str]:
    """The words that a setting takes."""
    found = setting_of(entry)
    if setting_table(entry) == "control_events" and entry.key == "action":
        return profile.actions()
    if section_of(entry) == "coil_player" and len(entry.path) == 2:
        return profile.names(profile.settings("coil_player")["action"].value)
    return profile.names(found.value) if found else []


def of_mode_name(scene: Scenery, text: str, line: int) -> Cure | None:
    """A mode that is listed under what is no name, in this line or below it."""
    listed = scene.outlines[text].entries or []
    entry = next((it for it in listed if it.key == "modes"), None)
    items = [it for it in entry.value.texts() if line in (it.line, entry.line)] if entry else []
    names = "[\\w.-]{1,64}" if entry and line == entry.line else "(?!machine$)[\\w.-]{1,64}"
    item = next((it for it in items if not re.fullmatch(names, it.text, re.ASCII)), None)
    if entry is None or item is None:
        return None
    out = (take_item_out(scene.texts, text, entry, item),)
    way = Way(out, "Give the mode's folder and its text a name of letters, digits, `_`, `-` and `.`, and list that.")
    mark = (item.start, item.end) if item.line == line else (entry.start, entry.end)
    return Cure((f"`{item.text}` is no name of a mode.",), True, (way,), out, mark)
