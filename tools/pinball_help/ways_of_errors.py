"""The ways to mend what an `error` line says: all but those of YAML and of values."""
import re
from dataclasses import replace

from . import drop_targets, events, overwrites, powers, profile, signs
from .answers import Complaint
from .idioms import OLDER_NAMES, RECIPES, RECIPES_OF_SECTIONS, SECTIONS, SECTIONS_RENAMED, SETTINGS
from .mending import add, add_to_item, blanks, give, line_of, rename, take_item_out, take_out
from .near import longer, nearest, words_of
from .outline import Entry, unquoted
from .scenery import Scenery, raw, section_of, setting_table, siblings_of
from .texts import MACHINE, VERSION, Edit
from .ways import EXAMPLE, Cure, Way
from .ways_of_values import of_value
from .ways_of_yaml import joined_blocks, reindented

# what a copy gets for a setting that is required, so that what comes after it is checked too
STAND_INS = {
    "action": "pulse", "int": "0", "states": "[{name: a_state}]", "ball_switches": "[]", "events": "[]",
    "ball_count": "2",
}


def taken_out(scene: Scenery, text: str, entry: Entry, write: str, why: str = "", near: str = "") -> Cure:
    edit = take_out(scene.texts, text, entry)
    return Cure(ways=(Way((edit,), write, why, near),), out=(edit,), mark=(entry.start, entry.end))


def of_bundle(scene: Scenery, complaint: Complaint) -> Cure:
    for text, lines in scene.texts.items():
        for at, line in enumerate(lines):
            if line.text.startswith("@"):
                edit = blanks(text, at, at + 1)
                write = "Take the line out; or put a blank before it, if its block is there."
                way = Way((edit,), write, "A line that begins with `@` begins another text.")
                return Cure(ways=(way,), out=(edit,), mark=(0, len(line.text)), at=(text, at))
    return Cure()


def of_version(scene: Scenery, complaint: Complaint) -> Cure:
    text, first = complaint.text, line_of(scene.texts, complaint.text, 0)
    in_place = not first.strip() or first.lstrip("\ufeff").startswith(("#", "---"))
    lines = (VERSION,) if in_place else (VERSION, first)
    numbers = () if in_place else (0, 1)
    edit = Edit(text, 0, min(1, len(scene.texts[text])), lines, numbers)
    way = Way((edit,), f"Write `{VERSION}` as the first line.", why_no_version(first))
    if first.strip("\ufeff \t") == VERSION and first.startswith("\ufeff"):
        way = replace(way, write="Save the file as UTF-8 without it. Editors call it a BOM.")
    return Cure(ways=(way,), out=(edit,), mark=(0, len(first)))


def why_no_version(first: str) -> str:
    """Why the first line of a text is not the one that it has to be, if it is like it."""
    if first.startswith("\ufeff"):
        return "The file begins with a byte order mark, which no editor shows."
    found = re.search(r"config_version\s*[=:]\s*(\d+)", first)
    if found and found[1] != "6":
        return f"It is written for version {found[1]} of MPF's configurations."
    return "It has to be just that, without any blank." if found else ""


def of_section(scene: Scenery, complaint: Complaint) -> Cure:
    text, key, line = complaint.text, complaint.key, complaint.line - 1
    entry = scene.entry_at(text, line, key)
    if way := signs.way_of_line(scene, text, line) if signs.ODD.search(key) else None:
        out = (blanks(text, line, scene.blocks(text).end_of(line)),)
        return Cure(ways=(way, Way(out, way.write, way.why)), out=out)
    if entry is None:
        return Cure()
    has = profile.sections()
    kind = "the machine" if text == MACHINE else "a mode"
    if key in has:
        return taken_out(
            scene, text, entry, f"Move it to the text of {has[key]}.", f"`{key}` is a section of {has[key]}."
        )
    if key in SECTIONS:
        return of_section_of_mpf(scene, text, entry)
    here = [name for name, whose in has.items() if whose in (kind, "both")]
    if near := nearest(key, [*here, *profile.skipped()]) or first_words_of(key, here):
        edit = rename(scene.texts, text, entry, near)
        out = (take_out(scene.texts, text, entry),)
        twin = next((it for it in scene.outlines[text].entries or [] if it.key == near), None)
        ways = () if twin else (Way((edit,), f"Write `{near}:`.", near=near),)
        if twin and (edits := joined_blocks(scene.texts, text, twin, entry)):
            words = f"Move its entries to `{near}`, line {scene.number(text, twin.line)}."
            ways = (Way(edits, words, near=near),)
        return Cure(ways=(*ways, Way(out, "Take it out.", near=near)), out=out, mark=(entry.start, entry.end))
    settings = {name for section in profile.TABLES for name in profile.settings(section)} | profile.of_other_tools()
    if key in settings:
        return of_left_edge(scene, text, entry)
    write = "Look for a slip in its name. If MPF needs it, take it out of a copy of the folder, and check the copy."
    return taken_out(scene, text, entry, write, "No section of this name is read here.")


def of_left_edge(scene: Scenery, text: str, entry: Entry) -> Cure:
    """A setting that begins at the left edge: it may belong to the section above it."""
    why = f"`{entry.key}` is a setting, and begins at the left edge."
    cure = taken_out(scene, text, entry, "Indent it with spaces, below the entry that it belongs to.", why)
    known = {name: {*profile.settings(name), *profile.of_other_tools()} for name in profile.SINGLE}
    above = [it for it in scene.outlines[text].entries or [] if it.line < entry.line and it.key in profile.sections()]
    if not above or entry.key not in known.get(above[-1].key, ()) or above[-1].value.text:
        return cure
    inner = above[-1].value.entries
    column = inner[0].start if inner else 2
    edit = reindented(scene, text, entry.line, column)
    way = Way((edit,), f"Indent it by {column} spaces, below `{above[-1].key}`.", why)
    return replace(cure, ways=(way, *cure.ways))


def first_words_of(key: str, sections: list[str]) -> str:
    """The section whose name begins with this one, as `autofire_coils` with `autofire`, if there is one alone."""
    words = words_of(key)
    found = [it for it in longer(key, sections) if words_of(it)[: len(words)] == words]
    return found[0] if len(found) == 1 else ""


def of_section_of_mpf(scene: Scenery, text: str, entry: Entry) -> Cure:
    why = f"`{entry.key}` is a section of MPF that is not read here."
    write = SECTIONS[entry.key]
    if entry.key in ("drop_targets", "drop_target_banks"):
        write = drop_targets.advice(scene, entry, write)
    cure = taken_out(scene, text, entry, write, why)
    way = replace(cure.ways[0], recipe=RECIPES_OF_SECTIONS.get(entry.key, ""))
    new = SECTIONS_RENAMED.get(entry.key)
    if not new or any(it.key == new for it in scene.outlines[text].entries or []):
        return replace(cure, ways=(way,))
    renamed = replace(way, edits=(rename(scene.texts, text, entry, new),))
    return replace(cure, ways=(renamed, way))


def of_setting(scene: Scenery, complaint: Complaint) -> Cure:
    text, key = complaint.text, complaint.key
    entry = scene.entry_at(text, complaint.line - 1, key)
    if entry is None:
        return Cure()
    if cure := signs.cure_of(scene, text, entry, of_key=True):
        return cure
    table = setting_table(entry)
    called = profile.CALLED.get(table, f"an entry of `{table}`")
    says = (f"{called[0].upper()}{called[1:]} has no setting `{key}`.",)
    mark = (entry.start, entry.end)
    out = (take_out(scene.texts, text, entry),)
    siblings = {it.key for it in siblings_of(entry)}
    instead, word = SETTINGS.get(table, {}).get(key, ("", ""))
    if word:
        return of_setting_of_mpf(scene, text, entry, Cure(says, True, (), out, mark), instead, word)
    if is_too_deep(entry, table):
        column = entry.path[-1].start
        edit = reindented(scene, text, entry.line, column)
        write = f"Indent it by {column} spaces, as `{entry.path[-1].key}`."
        return Cure(says, True, (Way((edit,), write, "It has settings of its own."), Way(out)), out, mark)
    near = nearest(key, [*profile.settings(table), *profile.of_other_tools()])
    if near := near if near and near not in siblings else longer_name(entry, siblings):
        edit, named, reason = as_setting(scene, text, entry, near)
        way = Way((edit,), f"Write `{named}`.", reason, near)
        return Cure(says, True, (way, Way(out, near=near)), out, mark, stays=powers.is_power(near))
    if key in profile.sections():
        return Cure(
            says, True, (Way(out, "Move it to the left edge.", "It is a section, and is indented."),), out, mark
        )
    others = ", ".join(f"`{name}`" for name in profile.settings(table))
    return Cure(says, True, (Way(out, f"Take it out. The settings are {others}."),), out, mark)


def longer_name(entry: Entry, siblings: set[str]) -> str:
    """The setting that a shorter name stands for, as `activation_switch` for `switch`, if one alone can be meant.

    That is no list of events, where any value would do, and no power of a coil."""
    table = setting_table(entry)
    if table in ("coils", "coil_player"):
        return ""
    if table == "variable_player" and entry.key in ("value", "amount", "points", "number"):
        return "int" if "int" not in siblings else ""
    found = [it for it in longer(entry.key, profile.settings(table)) if it not in siblings and "event" not in it]
    required = [it for it in found if profile.settings(table)[it].default == "required"]
    return found[0] if len(found) == 1 else required[0] if len(required) == 1 else ""


def is_too_deep(entry: Entry, table: str) -> bool:
    """Whether what is read as a setting has such settings itself: so it is an entry like the one above it."""
    own = {it.key for it in entry.value.entries or []}
    is_block = len(entry.path) == 2 and not entry.in_braces
    return is_block and bool(own) and own <= {*profile.settings(table), *profile.of_other_tools()}


def of_setting_of_mpf(scene: Scenery, text: str, entry: Entry, cure: Cure, instead: str, word: str) -> Cure:
    """A setting that MPF has: `instead` is the setting to write in its place, and `word` the words of its row."""
    key, out, siblings = entry.key, cure.out, {it.key for it in siblings_of(entry)}
    recipe = RECIPES.get((setting_table(entry), key), "")
    word = word.format(mode=scene.owner(text))
    why = "MPF has this setting, and it is not read here."
    if word in OLDER_NAMES:
        word, why = "", word
    if not instead:
        if key in ("eos_switch", "use_eos") and "hold_coil" in siblings:
            word = "Take it out: the flipper has its `hold_coil`."
        move = overwrites.moved(scene, text, entry)
        way = Way((*out, *move.edits), f"{word} {move.write}".rstrip(), why, recipe=recipe)
        return replace(cure, ways=(way, Way(out)), out=(*out, *move.lowering))
    if key == "switches":
        return replace(cure, ways=(events.hits_way(scene, text, entry, word, why), Way(out)))
    if instead in siblings:
        return replace(cure, ways=(Way(out, f"Take it out: `{instead}` is there. {word}".rstrip(), why),))
    edit, named, reason = as_setting(scene, text, entry, instead)
    if instead == "int":
        edit, named = give(scene.texts, text, entry, "1", "int"), "int: 1"
    way = Way((edit,), f"Write `{named}`. {word}".rstrip(), f"{why} {reason}".rstrip(), instead, recipe)
    return replace(cure, ways=(way, Way(out)), stays=powers.is_power(instead))


def as_setting(scene: Scenery, text: str, entry: Entry, new: str) -> tuple[Edit, str, str]:
    """Gives a setting its other name: the edit, what to write, and why. An old power gets another value too."""
    value = unquoted(raw(scene.texts, text, entry))
    right, reason = powers.meant(entry.key, value) if powers.is_power(new) else (value, "")
    if reason:
        return give(scene.texts, text, entry, right, new), f"{new}: {right}", reason
    return rename(scene.texts, text, entry, new), new, ""


def of_missing(scene: Scenery, complaint: Complaint) -> Cure:
    text, key, line = complaint.text, complaint.key, complaint.line - 1
    here = scene.entries_at(text, line)
    items = [it for it in scene.items_at(text, line) if key not in [entry.key for entry in it[1].entries or []]]
    entry = next((it for it in here if requires(it, key)), None) or (items[0][0] if items else next(iter(here), None))
    if entry is None:
        return Cure()
    table = setting_table(entry)
    in_item = bool(items) and not requires(entry, key)
    if in_item and "control_events" in (entry.key, table):
        table = "control_events"
    called = profile.CALLED.get(table, "It")
    stand_in = "start" if (table, key) == ("control_events", "action") else STAND_INS.get(key, f"a_{key}")
    near = nearest(key, [it.key for it in entry.value.entries or []])
    where = "this one" if in_item else f"`{entry.key}`"
    says = (f"{called[0].upper()}{called[1:]} has to have `{key}`, and {where} has none.",)
    setting = f"{key}: {stand_in}"
    edit = add_to_item(scene.texts, text, items[0][1], setting) if in_item else add(scene.texts, text, entry, setting)
    shown = edit.lines[0].strip() if len(edit.lines) == 1 else setting
    way = Way((edit,), f"Write `{key}:` there, as `{shown}`. {EXAMPLE}", f"It has `{near}`." if near else "")
    out = (take_out(scene.texts, text, entry),)
    mark = (items[0][1].start, len(line_of(scene.texts, text, line))) if in_item else (entry.start, entry.end)
    return Cure(says, True, (way, Way(out, way.write, way.why)), out, mark)


def requires(entry: Entry, key: str) -> bool:
    """Whether an entry is one that has settings, and not this one."""
    depth = 2 if section_of(entry) in ("coil_player", "variable_player") else 1
    has_settings = bool(entry.value.entries) or depth == 1 and entry.value.items is None and not entry.value.text
    return len(entry.path) == depth and has_settings and key not in [it.key for it in entry.value.entries or []]


def of_duplicate(scene: Scenery, complaint: Complaint) -> Cure:
    text, line, key = complaint.text, complaint.line - 1, complaint.key
    entry = next((it for it in scene.outlines[text].entries or [] if it.key == "modes"), None)
    if text == MACHINE and entry:
        items = [it for it in entry.value.texts() if it.text == key]
        item = next((it for it in items[1:] if it.line == line), items[-1] if items else None)
        if item:
            out = (take_item_out(scene.texts, text, entry, item),)
            return Cure(
                ("The mode is listed twice.",),
                False,
                (Way(out, "Take one of the two out."),),
                out,
                (item.start, item.end),
            )
    found = scene.entry_at(text, line, key)
    if found is None:
        return Cure()
    out = (take_out(scene.texts, text, found),)
    others = [place for place in scene.entries_of(section_of(found)) if place[1].key == key and place[0] != text]
    where = f"It is also in {scene.where(others[0][0], others[0][1].line)}." if others else ""
    new = f"{key}_{scene.owner(text)}"[:64]
    way = Way((rename(scene.texts, text, found, new),), f"Rename one of the two, as `{new}`.", where)
    return Cure((), False, (way, Way(out)), out, (found.start, found.end))


def of_limit(scene: Scenery, complaint: Complaint) -> Cure:
    entry = scene.entry_at(complaint.text, complaint.line - 1, complaint.key)
    if entry is None:
        return Cure()
    out = (take_out(scene.texts, complaint.text, entry),)
    count = len(entry.value.texts()) or len(entry.value.entries or [])
    write = "Join some of the modes." if complaint.key == "modes" else "Let an event of your own post the rest."
    return Cure((f"It has {count} items.",), False, (Way(out, write),), out, (entry.start, entry.end))


WAYS = {
    "Bundle": of_bundle, "Version": of_version, "UnknownSection": of_section, "UnknownSetting": of_setting,
    "BadValue": of_value, "Missing": of_missing, "Duplicate": of_duplicate, "Limit": of_limit,
}
