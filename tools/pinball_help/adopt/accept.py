"""Asks the program about the new machine, and leaves out what it refuses, the smallest part first."""
import os

from ..answers import Answer, Complaint
from ..graph import Graph, Post
from ..machine_graph import graph_of
from ..outline import Entry
from ..program import NoAnswer, Program
from ..scenery import Scenery, section_of
from ..texts import MACHINE, TEXT_LIMIT, Line, plain
from .context import MOST_GUESSES, Context
from .draft import SINGLE, Written, entry_lines
from .settings import FIRED
from .source import Place

ROUNDS = 1_000
ANSWERS = 60  # for which there is always time: an unproved program is slow
FEW = 4  # rounds in which cycles are broken one by one
MUCH = 16  # times as many entries are taken out at once, if all else takes too long
TOO_LONG = "error 3 Yaml TooLong"
INNER = ("coil_player", "variable_player")
FEATURE_OF = {
    "Name": "name not there", "PulseLimit": "lowest power or time", "PowerLimit": "lowest power or time",
    "HoldNotAllowed": "hold not allowed", "Limit": "too many",
}
SAID = {
    "Name": "nothing defines `{}`, or it may not be used so", "HoldNotAllowed": "`{}` may not be held",
    "PulseLimit": "`{}` is above a limit of the coil", "PowerLimit": "`{}` is above a limit of the coil",
    "TimerAtEnd": "the timer is at its end before it runs",
    "BallRoute": "balls do not come through the device", "Cycle": "its events lead to each other without end",
    "Bound": "it may cause more than 100,000 lines", "Limit": "the machine has too many `{}`",
}


def accept(ctx: Context, program: Program, within: float) -> Answer:
    """The answer for the new machine, which is yes: what is refused is left out. `within` is in seconds."""
    start, share, scene = spent(), 1, Scenery({})
    for count in range(ROUNDS):
        before = spent()
        if before - start > within or count > ROUNDS // 2:
            share *= MUCH
        texts = ctx.draft.files()
        answer = answer_of(program, texts)
        within = max(within, ANSWERS * (spent() - before)) if count == 0 else within
        if answer is not None and answer.accepted:
            return answer
        if is_too_long(answer) and ctx.draft.has_notes():
            ctx.draft.forget_notes()
            ctx.log("comments", Place(ctx.source.files[0].name, 1, 1), "left out: the texts are too long", "unseen")
            continue
        scene = scene_of(texts, scene)
        complaints = answer.complaints if answer else ()
        part = 8 if before - start < within / 3 else 2
        dropped = [drop(ctx, scene, it, count > FEW, part) for it in complaints]
        if not any(dropped) or share > 1:
            drop_last(ctx, complaints[0].said if complaints else "the program has no answer for it", share)
    ctx.draft.texts, ctx.draft.modes = {"": {}}, []
    ctx.log("refused", Place(ctx.source.files[0].name, 1, len(ctx.source.files[0].lines)), "the whole machine", "lost")
    return program.check_texts(ctx.draft.files())


def spent() -> float:
    """Seconds of processor time, those of the program too."""
    return sum(os.times()[:4])


def answer_of(program: Program, texts: dict[str, list[str]]) -> Answer | None:
    try:
        return program.check_texts(texts)
    except NoAnswer as error:
        if "TooLong" in str(error) or "NoMemory" in str(error):
            return None
        raise


def scene_of(texts: dict[str, list[str]], before: Scenery) -> Scenery:
    """The texts with their outlines; those of texts that are as before are not read again."""
    lines = {name: before.texts.get(name, []) for name in texts}
    for name, text in texts.items():
        if plain(lines[name]) != text:
            lines[name] = [Line(at, it) for at, it in enumerate(text, 1)]
    return Scenery(lines, before)


def is_too_long(answer: Answer | None) -> bool:
    return answer is None or any(it.message == TOO_LONG for it in answer.complaints)


def drop(ctx: Context, scene: Scenery, complaint: Complaint, all_cycles: bool, part: int) -> bool:
    """Leaves out what a complaint is about: of a table a half, an eighth or so. Says whether it has."""
    if complaint.name == "Cycle":
        return drop_cycles(ctx, scene, complaint, all_cycles)
    if complaint.name == "Limit" and not complaint.line:
        return drop_some(ctx, complaint, part)
    if complaint.message == TOO_LONG:
        return drop_long(ctx, complaint)
    if not complaint.line:
        return False
    entry = next(iter(it for it in scene.entries_at(complaint.text, complaint.line - 1) if it.key == complaint.key),
                 None)
    entry = entry or scene.around(complaint.text, complaint.line - 1)
    if entry is None:
        return False
    return leave_out(ctx, scene, complaint.text, entry, complaint)


def leave_out(ctx: Context, scene: Scenery, text: str, entry: Entry, complaint: Complaint) -> bool:
    mode, section = "" if text == MACHINE else scene.owner(text), section_of(entry)
    inside = ctx.draft.texts.get(mode, {}).get(section, {})
    path = [*entry.path, entry][1:]
    if ctx.draft.holds(mode):
        return drop_mode(ctx, mode, complaint)
    if section == "modes" or not path:
        return drop_section(ctx, mode, section, complaint)
    written = inside.get(path[0].key)
    if written is None:
        return drop_section(ctx, mode, section, complaint)
    inner = path[1].key if len(path) > 1 else ""
    if section == "event_player" and not inner:
        return drop_name(ctx, inside, path[0].key, written, complaint)
    if section in INNER and not inner:
        inner = complaint.key
    value = written.value if section not in SINGLE and isinstance(written.value, dict) else {}
    if inner in value and not may_drive_more(ctx, section, inner, value):
        return drop_inner(ctx, inside, path[0].key, inner, complaint)
    say(ctx, written, "", complaint)
    del inside[path[0].key]
    return True


def may_drive_more(ctx: Context, section: str, setting: str, value: dict) -> bool:
    """Whether a coil may get more power, or for longer, if one setting alone is left out."""
    held = setting == "hold_coil" and ctx.may_hold(str(value.get("main_coil")))
    return section == "coils" and setting in DRIVES or section in FIRED and (held or setting == "disable_events")


def drop_name(ctx: Context, inside: dict[str, Written], key: str, written: Written, complaint: Complaint) -> bool:
    """Takes one event out of those that an entry posts."""
    say(ctx, written, "", complaint)
    if isinstance(written.value, list) and complaint.key in written.value and len(written.value) > 1:
        written.value = [it for it in written.value if it != complaint.key]
    else:
        del inside[key]
    return True


def drop_inner(ctx: Context, inside: dict[str, Written], key: str, inner: str, complaint: Complaint) -> bool:
    """Takes a setting, a coil or a variable out of an entry, or one name out of a list of it."""
    written = inside[key]
    assert isinstance(written.value, dict)
    value = written.value[inner]
    is_part = isinstance(value, list) and complaint.key in value and len(value) > 1
    say(ctx, written, "" if inner in REQUIRED and not is_part else inner, complaint)
    if is_part:
        written.value[inner] = [it for it in value if it != complaint.key]
        return True
    del written.value[inner]
    if not written.value or inner in REQUIRED:
        del inside[key]
    return True


DRIVES = ("default_pulse_ms", "max_pulse_ms", "default_pulse_power", "max_pulse_power", "default_hold_power",
          "max_hold_power", "allow_enable")
REQUIRED = ("main_coil", "activation_switch", "coil", "switch", "ball_switches", "shots", "events", "states",
            "count_events",
            "ball_count")


def say(ctx: Context, written: Written, inner: str, complaint: Complaint) -> None:
    """Says that an entry is lost, or one setting of it."""
    place = written.lines.get(inner) or written.lines.get(complaint.key)
    key = (complaint.key or " ".join(complaint.words[:6]))[:60]
    refused = f"`{key}`: {complaint.message or complaint.said}"
    says = SAID[complaint.name].format(key) if complaint.name in SAID else refused
    if complaint.name == "Name" and ctx.guesses < MOST_GUESSES:
        says += ctx.near(key, [name for _, name in ctx.draft.known])
    for it in [place] if place else written.places or [Place(ctx.source.files[0].name, 1, 1)]:
        ctx.log(FEATURE_OF.get(complaint.name, "refused"), it, says, "lost")


def drop_mode(ctx: Context, mode: str, complaint: Complaint) -> bool:
    """Takes out a mode of adopt's own."""
    for inside in ctx.draft.texts.pop(mode).values():
        for written in inside.values():
            if written.places:
                say(ctx, written, "", complaint)
    ctx.draft.modes.remove(mode)
    return True


def drop_section(ctx: Context, mode: str, section: str, complaint: Complaint) -> bool:
    found = ctx.draft.texts.get(mode, {}).pop(section, None)
    for written in (found or {}).values():
        say(ctx, written, "", complaint)
    return found is not None


def steps_back(graph: Graph) -> list[tuple[str, str]]:
    """Steps from an event to one that leads to it: without them no cycle is left."""
    after: dict[str, list[str]] = {}
    for it in graph.posts:
        after.setdefault(it.event, []).append(it.posts)
    found, done, on_the_way = [], set[str](), set[str]()
    for first in after:
        waiting = [] if first in done else [(first, iter(after[first]))]
        on_the_way |= {first} if waiting else set()
        while waiting:
            event, rest = waiting[-1]
            following = next(rest, None)
            if following is None:
                waiting.pop()
                on_the_way.discard(event)
                done.add(event)
            elif following in on_the_way:
                found.append((event, following))
            elif following not in done:
                on_the_way.add(following)
                waiting.append((following, iter(after.get(following, ()))))
    return found


def drop_cycles(ctx: Context, scene: Scenery, complaint: Complaint, all_of_them: bool) -> bool:
    """Breaks the cycle of a complaint, or all that there are."""
    graph = graph_of(scene)
    steps: dict[tuple[str, str], list[Post]] = {}
    for it in graph.posts:
        if it.entry is not None:
            steps.setdefault((it.event, it.posts), []).append(it)
    ring = list(zip(complaint.words, [*complaint.words[1:], complaint.words[0]]))
    dropped = drop_step(ctx, scene, complaint, [(it, posted) for event, posted in ring
                                                for it in steps.get((event, posted), ())])
    for event, posted in steps_back(graph) if all_of_them else ():
        dropped |= drop_step(ctx, scene, complaint, [(it, posted) for it in steps.get((event, posted), ())])
    return dropped


def drop_step(ctx: Context, scene: Scenery, complaint: Complaint, steps: list[tuple[Post, str]]) -> bool:
    """Takes out the step of a cycle that takes least with it."""
    order = ("event_player", "variable_player", "multiballs", "ball_saves", "counters", "accruals", "sequences",
             "shots")

    def rank(step: tuple[Post, str]) -> int:
        assert step[0].entry
        section = section_of(step[0].entry)
        return order.index(section) if section in order else len(order)

    for step, posted in sorted(steps, key=rank):
        assert step.entry
        named = Complaint(complaint.said, complaint.message, complaint.name, step.text, step.line + 1, posted)
        section = section_of(step.entry)
        if section == "variable_player":
            named = Complaint(complaint.said, complaint.message, "Cycle", step.text, step.line + 1, step.entry.key)
        if leave_out(ctx, scene, step.text, step.entry, named):
            return True
    return False


DEVICES = ("counters", "accruals", "sequences", "timers", "shots", "shot_groups", "ball_saves", "multiballs",
           "ball_devices", "flippers", "autofire_coils")
TABLES = {"switches": ("switches",), "coils": ("coils",), "variables": ("variable_player", "event_player"),
          "rows": DEVICES,
          "events": ("event_player", *DEVICES, "switches"),
          "bindings": ("event_player", "coil_player", "variable_player")}


def drop_some(ctx: Context, complaint: Complaint, part: int) -> bool:
    """Takes the last part out of the section that has most of what there is too much of."""
    wanted = TABLES.get(complaint.words[0] if complaint.words else "", ())
    sections = [inside for of_mode in ctx.draft.texts.values() for name, inside in of_mode.items() if name in wanted]
    most = max(sections, key=len, default={})
    for key in list(most)[len(most) - max(1, len(most) // part) :]:
        say(ctx, most[key], "", complaint)
        del most[key]
    return bool(most)


def drop_long(ctx: Context, complaint: Complaint) -> bool:
    """Takes the last entries out of a text that is too long."""
    mode = next((it for it in ctx.draft.texts if ctx.draft.name(it) == complaint.text), "")
    sections = ctx.draft.texts[mode]
    size = sum(len(line.encode()) + 1 for line in ctx.draft.lines(mode))
    before = size
    while size > TEXT_LIMIT and any(sections.values()):
        inside = max(sections.values(), key=len)
        key, written = inside.popitem()
        size -= sum(len(line.encode()) + 1 for line in entry_lines(key, written, ""))
        say(ctx, written, "", complaint)
    return size < before


def drop_last(ctx: Context, why: str, share: int) -> None:
    """Takes the last entries out, where nobody can say which it is."""
    for _ in range(share):
        texts = [it for it in reversed(list(ctx.draft.texts)) if any(ctx.draft.texts[it].values())]
        if not texts:
            return
        sections = ctx.draft.texts[texts[0]]
        if ctx.draft.holds(texts[0]):
            drop_mode(ctx, texts[0], Complaint(why, "", "refused"))
            continue
        name = [it for it in sections if sections[it]][-1]
        key = list(sections[name])[-1]
        written = sections[name].pop(key)
        say(ctx, written, "", Complaint(why, "", "refused", key=key))
