"""Adopts a whole folder: what has to be known first, section by section, and what the sections need of each other."""
from typing import Callable

from .. import profile, tables
from ..outline import Node
from . import balls, comments, players, playfield, remarks, settings, states, values
from .context import Context
from .draft import sections
from .features import FEATURES, LEFT_OUT
from .source import Given, Part, Place, Source

OF_MPF = ("attract", "game", "tilt", "bonus", "high_score", "credits", "service", "carousel", "match")
# MPF's sections that are rewritten
REWRITTEN: dict[str, Callable[[Context, str, Given], None]] = {
    "event_player": players.of_events,
    "coil_player": players.of_coils,
    "variable_player": players.of_variables,
    "scoring": players.of_variables,
    "random_event_player": players.of_random,
    "drop_targets": playfield.of_drop_targets,
    "drop_target_banks": playfield.of_banks,
    "diverters": playfield.of_diverters,
    "kickbacks": playfield.of_kickbacks,
    "spinners": playfield.of_spinners,
    "combo_switches": playfield.of_combos,
    "timed_switches": playfield.of_timed,
    "sequence_shots": playfield.of_sequence_shots,
    "state_machines": states.of_state_machines,
    "ball_holds": balls.of_holds,
    "extra_balls": balls.of_extra,
    "extra_ball_groups": balls.of_extra_groups,
    "tilt": balls.of_tilt,
}
FIRST = ("switches", "coils", "ball_devices", "mode", "game", "machine", "flippers", "autofire_coils", "timers")
LAST = ("event_player", "random_event_player", "coil_player", "variable_player", "scoring")
settings.OWN[("multiballs", "ball_count")] = balls.ball_count
settings.AFTER |= {"ball_saves": (balls.of_save,), "multiballs": (balls.of_multiball,)}


def adopt(source: Source) -> Context:
    """Makes the new machine of a folder that was read."""
    ctx = Context(source)
    prepare(ctx)
    for part in ctx.source.parts:
        if part.mode:
            ctx.draft.modes.append(part.mode)
            ctx.draft.texts.setdefault(part.mode, {})
    for part in ctx.source.parts:
        of_part(ctx, part)
    finish(ctx)
    return ctx


# what has to be known before


def prepare(ctx: Context) -> None:
    of_files(ctx)
    ctx.draft.spare = int(any("|" in line for file in ctx.source.files for line in file.read))  # for delays
    for part in list(ctx.source.parts):
        if part.mode and (len(ctx.listed) == tables.MOST_MODES or part.mode == "machine"):
            ctx.source.parts.remove(part)
            ctx.left_out.add(part.mode)
            for section in part.sections():
                ctx.lose("too many" if part.mode != "machine" else "bad name", section, f"the mode `{part.mode}`")
        elif part.mode:
            ctx.listed.add(part.mode)
    for part in ctx.source.parts:
        for section in part.sections():
            for entry in section.inside():
                learn(ctx, part, section, entry)
        if part.mode and part.mode != "attract":
            modes = [it for it in part.sections() if it.key == "mode"]
            if not any(it.says("game_mode").lower() in values.NO for it in modes):
                ctx.game_modes.add(part.mode)
    of_tilts(ctx)
    listed(ctx)


def of_tilts(ctx: Context) -> None:
    """Whether there is a tilt: by a section `tilt`, or by MPF's own mode without a text in the folder."""
    tilts = [it for part in ctx.source.parts for it in part.sections() if it.key == "tilt"]
    section = next((it for name, it in ctx.source.modes if name == "tilt" and it), None)
    if section and not tilts and "tilt" not in ctx.listed:
        line = next((it.line for it in section.node.texts() if it.text == "tilt"), section.line)
        ctx.own_tilt = Given("tilt", Node(line, entries=[]), section.file, line, line + 1)
        tilts = [ctx.own_tilt]
    for it in tilts:
        if it.is_mapping and balls.tilts(ctx, it):
            ctx.tilt_events, ctx.tilt_given = ["tilt"], it


def learn(ctx: Context, part: Part, section: Given, entry: Given) -> None:
    """What other sections have to know of an entry."""
    if section.key == "switches":
        ctx.switches.add(entry.key)
        for tag in entry.names("tags"):
            ctx.tags.setdefault(tag, []).append(entry.key)
    elif section.key in ("variable_player", "scoring"):
        ctx.variables |= {it.key for it in entry.inside()}
    elif section.key in ("player_vars", "state_machines"):
        ctx.variables.add(entry.key)
    elif section.key == "flippers":
        ctx.main_coils.add(entry.says("main_coil"))
    elif section.key == "extra_ball_groups":
        ctx.groups.add(entry.key)
    elif section.key == "settings" and (value := entry.at("default")) and not value.is_mapping:
        number = ctx.number(value.text.strip("'\""))
        if number is not None:
            ctx.settings[entry.key] = number
    elif section.key == "mpf" and entry.key == "default_pulse_ms":
        value = ctx.time(entry.text)
        ctx.pulse_ms, ctx.pulse_given = str(value) if value and value <= 5_000 else "", entry


def of_files(ctx: Context) -> None:
    """What is said of files: those that are not there, and lines that are no YAML."""
    for name, given in ctx.source.missing:
        ctx.lose("missing file", given, f"`{name[:80]}`")
    for file in ctx.source.files:
        for at in file.unread:
            ctx.lose("not YAML", Given("", file.root, file, at, at + 1), f"`{file.lines[at].strip()[:60]}`")
        for at in file.lax:
            if at not in file.unclosed:
                ctx.log("lax YAML", Place(file.name, at + 1, at + 1))
        for at in file.unclosed:
            ctx.lose("not closed", Given("", file.root, file, at, at + 1))


def listed(ctx: Context) -> None:
    """What is said of the modes that are listed."""
    seen: set[str] = set()
    for name, section in ctx.source.modes:
        assert section
        item = next((it for it in section.node.texts() if it.text.removeprefix("-") == name), None)
        items = [it for it in section.node.texts() if it.text.removeprefix("-") == name]
        item = items[-1] if name in seen and items else item
        given = Given(name, section.node, section.file, item.line, item.line + 1) if item else section
        if name in seen:
            ctx.lose("entry twice", given, f"the mode `{name[:60]}`")
        elif name in ctx.left_out:
            ctx.lose("too many" if name != "machine" else "bad name", given, f"the mode `{name[:60]}`")
        elif name == "tilt" and ctx.own_tilt:
            ctx.log("own mode of MPF", given.place, "it has no text, and does what MPF's own does", "rewritten")
        elif name not in ctx.listed and name in OF_MPF:
            ctx.lose("modes of MPF", given, f"`{name}`", "unseen" if name in ("attract", "game", "service") else "lost")
        elif name not in ctx.listed:
            ctx.lose("missing file", given, f"the mode `{name[:60]}` has no text that can be read")
        else:
            ctx.keep(given)
        seen.add(name)
    for asked, found in ctx.source.case:
        part = next((it for it in ctx.source.parts if asked.startswith(f"modes/{it.mode}")), ctx.source.parts[0])
        ctx.log("letter case", Given("", part.files[0].root, part.files[0], 0, 1).place,
                f"`{asked[:80]}` is `{found[:80]}`")


# section by section


def of_part(ctx: Context, part: Part) -> None:
    def rank(section: Given) -> tuple[int, int]:
        order = FIRST.index(section.key) - len(FIRST) if section.key in FIRST else section.key in LAST
        return order, 0

    seen: dict[str, str] = {}
    for section in sorted(part.sections(), key=rank):
        if section.key in seen and section.key in profile.sections():
            ctx.log("section twice", section.place, f"`{section.key}`")
        seen[section.key] = section.file.name
        with ctx.attempt(section):
            of_section(ctx, part.mode, section)
    if ctx.own_tilt and not part.mode:
        with ctx.attempt(ctx.own_tilt):
            balls.of_tilt(ctx, "", ctx.own_tilt)
    if part.mode and "mode" not in seen:
        settings.of_section(ctx, part.mode, Given("mode", type(part.files[0].root)(0, entries=[]), part.files[0], 0, 1))


def of_section(ctx: Context, mode: str, section: Given) -> None:
    key = section.key
    if key == "config" and not section.is_mapping:
        ctx.log("config", section.place, ", ".join(section.words()[:20]))
    elif key == "config" or key == "modes" and mode:
        ctx.lose("bad value", section)
    elif key == "modes":
        if section.is_mapping:
            ctx.log("other spelling", section.place, "a list of names")
        ctx.keep(section)
    elif key in OTHER:
        OTHER[key](ctx, mode, section)
    elif key in REWRITTEN:
        if key in profile.PLAYERS:
            ctx.keep(section)
        if not section.is_mapping and (section.text or section.is_list):
            ctx.lose("bad value", section, f"`{key}` has no entries")
            return
        if key == "scoring":
            ctx.log("scoring", section.place)
        one_by_one(ctx, mode, section)
    elif key in sections(False) or key in sections(True):
        if key in sections(True) and key not in sections(False) and not mode and key == "mode":
            ctx.lose("unknown section", section, "`mode` in the text of the machine")
            return
        settings.of_section(ctx, mode, section)
    elif key in LEFT_OUT:
        ctx.lose(key, section)
    else:
        ctx.lose("unknown section", section, f"`{key[:60]}`" + ctx.near(key, {*sections(bool(mode)), *FEATURES}))


def one_by_one(ctx: Context, mode: str, section: Given) -> None:
    """Rewrites the entries of a section; one that there is no room for is lost, and not the others."""
    if section.key == "tilt":
        REWRITTEN["tilt"](ctx, mode, section)
        return
    before = len(ctx.done)
    for entry in section.node.entries or []:
        alone = type(section.node)(section.node.line, section.node.start, section.node.end, "", [entry])
        given = Given(section.key, alone, section.file, section.line, section.last)
        one = given.inside()[0]
        if section.key not in LAST and (one.text or one.is_list):
            ctx.lose("bad value", one, f"`{one.text[:60]}` in place of settings")
            continue
        with ctx.attempt(one):
            REWRITTEN[section.key](ctx, mode, given)
    if before == len(ctx.done) and not section.node.entries and section.key in FEATURES:
        ctx.log(section.key, section.place)


def of_player_vars(ctx: Context, mode: str, section: Given) -> None:
    ctx.log("player_vars", section.place)
    for entry in section.inside():
        number = ctx.number((entry.at("initial_value") or entry).text)
        if entry.says("value_type", "int") not in ("int", "float") or number is None:
            ctx.lose("player_vars of a text", entry, f"`{entry.key[:60]}`")
            continue
        if not values.NAME.fullmatch(f"player_{entry.key}"):
            ctx.lose("bad name", entry)
            continue
        for it in entry.inside():
            if it.key not in ("initial_value", "value_type"):
                playfield.left_out(ctx, "player_vars", it)
        if number:
            ctx.change("", playfield.FIRST_BALL, {entry.key: {"int": str(number), "action": "set"}}, entry,
                       "the first value of a player's variable")


def of_dual_wound(ctx: Context, _mode: str, section: Given) -> None:
    for entry in section.inside():
        main, held = entry.says("main_coil"), entry.says("hold_coil")
        if not main or not held:
            ctx.lose("dual_wound_coils", entry, "it needs two coils")
            continue
        ctx.dual[entry.key] = (main, held)
        playfield.rest(ctx, "dual_wound_coils", entry, "main_coil", "hold_coil")
        if entry.key not in ctx.main_coils:
            ctx.log("dual_wound_coils", entry.place, "no flipper names it", "unseen")
    ctx.log("dual_wound_coils", section.place)


def of_logic_blocks(ctx: Context, mode: str, section: Given) -> None:
    ctx.log("logic_blocks", section.place)
    for it in section.inside():
        if it.key in ("counters", "accruals", "sequences"):
            settings.of_section(ctx, mode, it)
        else:
            ctx.lose("unknown section", it)


OTHER: dict[str, Callable[[Context, str, Given], None]] = {
    "player_vars": of_player_vars, "dual_wound_coils": of_dual_wound, "logic_blocks": of_logic_blocks,
}


# what the sections need of each other


def finish(ctx: Context) -> None:
    settings.add_more(ctx)
    settings.lower_coils(ctx)
    for step in (playfield.banks, balls.launches, balls.holds, balls.shoot_again):
        step(ctx)
    balls.tilted(ctx)
    dual_wound(ctx)
    one_coil(ctx)
    players.within_limits(ctx)
    game(ctx)
    comments.keep(ctx)
    remarks.add(ctx)


def dual_wound(ctx: Context) -> None:
    for written in ctx.draft.section("", "flippers").values():
        if isinstance(written.value, dict) and (found := ctx.dual.get(str(written.value.get("main_coil")))):
            main, held = found
            written.value["main_coil"] = main
            written.value.setdefault("hold_coil", held)
            for it in written.sources:
                ctx.why(it, "hold_coil", it.at("main_coil") or it, "the other winding of the coil")


def one_coil(ctx: Context) -> None:
    """A flipper of one coil that may be held is held, and never pulsed first."""
    for written in ctx.draft.section("", "flippers").values():
        value = written.value
        if isinstance(value, dict) and not value.get("hold_coil") and ctx.may_hold(str(value.get("main_coil"))):
            ctx.log("flipper of one coil", written.places[0], f"`{value.get('main_coil')}`")


def game(ctx: Context) -> None:
    """MPF has a game always; here only with a section `game`, and with a switch whose tag is `start`."""
    sections = ctx.draft.texts[""]
    if ctx.start_tag != "start":
        for switch in ctx.tags.get(ctx.start_tag, []):
            written = sections.get("switches", {}).get(switch)
            if written and isinstance(written.value, dict):
                tags = written.value.setdefault("tags", [])
                assert isinstance(tags, list)
                tags += ["start"] if "start" not in tags else []
                for it in written.sources:
                    ctx.why(it, "tags", ctx.start_given or it, "the start button")
                ctx.log("game.start_game_switch_tag", written.lines.get("tags", written.places[0]), "`start` too")
    if "game" not in sections and (ctx.tags.get("start") or ctx.tags.get(ctx.start_tag)):
        sections["game"] = {}
        file = ctx.source.parts[0].files[0]
        ctx.log("no game", Given("", file.root, file, 0, 1).place)
