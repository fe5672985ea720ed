"""Draws folders of the sections that MPF has, each setting in one of many forms, right and wrong."""
import random
from pathlib import Path

from pinball_help import tables
from pinball_help.adopt.features import FEATURES

NAMES = ("a", "b", "left", "x.1", "two-b", "base", "m_1", "tilt", "value", "n" * 70, "a b", "é", "ball", "playfield",
         "s_1", "default")
SWITCHES, COILS, DEVICES = ("s_1", "s_2", "s_3", "s_4", "s_nowhere"), ("c_1", "c_2", "c_3", "c_nowhere"), ("bd_1",
                                                                                                           "bd_2",
                                                                                                           "playfield")
EVENTS = (
    "e_1", "e_2", "e_3", "e_4", "s_1_active", "s_2_inactive", "sw_lane", "sw_lane_active", "sw_lane_inactive",
    "ball_started",
    "ball_ending", "ball_drain", "mode_base_started", "mode_m_1_stopping", "timer_t_complete", "timer_t_tick",
    "player_score",
    "balldevice_bd_1_ball_entered", "init_done", "(name)_hit", "e_1.5", "a_hit", "logicblock_a_complete", "tilt",
    "x" * 64, "-", "",
    "drop_target_a_down", "spinner_a_active", "multiball_a_started", "game_ended", "sw_start", "ball_will_end",
)
CONDITIONS = (
    "current_player.x==1", "current_player.x == 1 and current_player.y > 2", "not current_player.lit",
    "current_player.lit",
    "value >= 1000", "ticks==3", "mode.base.active", "not mode.base.active", "settings.s_1 == 3",
    "current_player.a or current_player.b",
    "device.counters.a.value > 3", "prev_value < 3", "1 < current_player.x < 5", "current_player.x == 'text'", "True",
    "False", "(", "",
    "current_player.x >= settings.s_1", "machine.y == 1", "current_player.é == 1", "x" * 700, "((((((((((1))))))))))",
    "current_player.x=1",
)
TIMES = ("2s", "500ms", "0", "1.5s", "1 sec", "10", "-1s", "1d", "99999999999s", "settings.s_1", "current_player.t",
         "soon", "0.5ms")
NUMBERS = ("0", "1", "3", "-1", "5_000", "1,000", "2.0", "1.5", "settings.s_1", "settings.none", "current_player.x",
           "many",
           "99999999999999999999", "1000 * current_player.x", "100|block", "+5", "007", "0x10", "1e9")
POWERS = ("0.25", "50%", "2", "8", "1.0", "0.3333", "11110000", "loud", "-1", "100.55%", "settings.s_1")
FLAGS = ("yes", "no", "True", "1", "0", "maybe", "On")
WORDS = ("NC", "nc", "quick", "auto", "up", "Down", "pulse", "enable", "on", "off", "hold", "add", "set", "restart",
         "jump", "text", "none")
ODD = ("", "''", "[]", "{}", "[a, b", "{a: 1", "&x", "*x", "|", ">", "a: b: c", "'open", "- -", "!!str x", "%", "@",
       "#", "\tx", "é")
MORE = {  # settings of sections that are rewritten
    "drop_targets": "switch reset_coil reset_events knockdown_coil enable_keep_up_events",
    "drop_target_banks": "drop_targets reset_coils reset_coil reset_events reset_on_complete",
    "diverters": "activation_coil type activation_time activate_events deactivate_events enable_events disable_events "
    "activation_switches deactivation_switches deactivation_coil feeder_devices",
    "kickbacks": "coil switch enable_events disable_events",
    "spinners": "switch active_ms idle_ms labels",
    "combo_switches": "switches_1 switches_2 tag_1 tag_2 max_offset_time hold_time events_when_both "
                      "events_when_inactive",
    "timed_switches": "switches switch_tags time state events_when_active events_when_released",
    "sequence_shots": "switch_sequence event_sequence sequence_timeout",
    "ball_holds": "hold_devices balls_to_hold enable_events disable_events release_one_events release_all_events",
    "extra_balls": "award_events light_events group max_per_game",
    "extra_ball_groups": "award_lit_events light_events max_per_game",
    "tilt": "multiple_hit_window warnings_to_tilt tilt_warning_switch_tag tilt_switch_tag slam_tilt_switch_tag "
            "tilt_events",
    "dual_wound_coils": "main_coil hold_coil",
    "player_vars": "initial_value value_type",
    "settings": "label values default key_type",
    "mpf": "default_pulse_ms",
}
SINGLE = ("mode", "machine", "game", "tilt", "mpf")
COMMENTS = ("a comment", " a: b", "- a", "", "#", " 'quoted", "é {a: [", "x" * 2_000, "\tb", "@")
PLAYERS = ("event_player", "coil_player", "variable_player", "scoring", "random_event_player", "queue_event_player")
SECTIONS = sorted({it for it in FEATURES if it.isidentifier()
                   and it not in ("attract", "tilted")} | {*tables.sections(False)}
                  | {*tables.sections(True), "config", "unheard_of"} - {"modes"})
LIKELY = (*PLAYERS[:4], *MORE, "shots", "shot_groups", "shot_profiles", "counters", "accruals", "sequences",
          "ball_saves", "multiballs",
          "flippers", "autofire_coils", "ball_devices", "coils", "switches", "state_machines", "game", "machine")
BASE = """switches:
  s_1: {number: 1, tags: 'start, lane'}
  s_2: {number: 2, tags: 'lane, playfield_active'}
  s_3: {number: 3}
  s_4: {number: 4, type: NC}
coils:
  c_1: {number: 1, default_pulse_ms: 20}
  c_2: {number: 2, default_hold_power: 0.25}
  c_3: {number: 3, hold_power: 3, max_hold_duration: 4s}
ball_devices:
  bd_1: {ball_switches: s_3, eject_coil: c_1, eject_targets: bd_2, tags: 'trough, drain'}
  bd_2: {ball_switches: s_4, eject_coil: c_2, player_controlled_eject_event: s_1_active}
"""


def draw_folder(draw: random.Random, folder: Path) -> Path:
    modes = draw.sample(("base", "m_1", "tilt", "bonus", "attract", "credits", "a b"), draw.randint(0, 4))
    listed = "modes:\n" + "".join(f"  - {it}\n" for it in modes) if modes else ""
    put(folder / "config/config.yaml",
        damaged(draw, commented(draw, listed + (BASE if draw.random() < 0.7 else "") + text(draw, False))))
    if draw.random() < 0.3:
        put(folder / "config/more.yaml", text(draw, False))
    for mode in modes:
        name = mode.upper() if draw.random() < 0.1 else mode
        if draw.random() < 0.9:
            put(folder / f"modes/{name}/config/{mode}.yaml", damaged(draw, commented(draw, text(draw, True))))
    return folder


def put(path: Path, body: str) -> None:
    path.parent.mkdir(parents=True, exist_ok=True)
    path.write_text(f"#config_version=6\n{body}")


def damaged(draw: random.Random, body: str) -> str:
    """A text with a slip of a key, once in a while."""
    if draw.random() < 0.8:
        return body
    at = draw.randrange(len(body) + 1)
    return body[:at] + draw.choice((":", " ", "\n", "\t", "[", "}", "'", "# ", "- ", ", ",
                                    "")) + body[at + draw.randrange(3) :]


def commented(draw: random.Random, body: str) -> str:
    """A text with comments in it, once in a while."""
    if draw.random() < 0.5:
        return body
    lines = []
    for line in body.split("\n"):
        if draw.random() < 0.1:
            lines.append(f"{' ' * draw.randrange(6)}#{draw.choice(COMMENTS)}")
        lines.append(f"{line} # {draw.choice(COMMENTS)}" if line and draw.random() < 0.1 else line)
        lines += [""] if draw.random() < 0.05 else []
    return "\n".join(lines)


def text(draw: random.Random, is_mode: bool) -> str:
    names = draw.choices(LIKELY if draw.random() < 0.7 else SECTIONS, k=draw.randint(1, 8))
    if is_mode and draw.random() < 0.7:
        names += ["mode", "timers"]
    if not is_mode and draw.random() < 0.3:
        return "config:\n  - more.yaml\n" + "".join(section(draw, it) for it in names)
    return "".join(section(draw, it) for it in names)


def section(draw: random.Random, name: str) -> str:
    if draw.random() < 0.03:
        return f"{name}: {draw.choice(ODD)}\n"
    if name in SINGLE:
        return f"{name}:\n" + "".join(setting(draw, name, it, 2) for it in some(draw, settings_of(name)))
    keys = [event(draw) for _ in range(draw.randint(1, 4))] if name in PLAYERS else draw.sample(NAMES,
                                                                                                draw.randint(1, 3))
    return f"{name}:\n" + "".join(entry(draw, name, it) for it in keys)


def some(draw: random.Random, settings: list[str]) -> list[str]:
    return draw.sample(settings, draw.randint(0, len(settings))) if settings else ["number", "label"]


def settings_of(name: str) -> list[str]:
    found = [it.key for is_mode in (False, True) for it in (
        tables.sections(is_mode)[name].settings if name in tables.sections(is_mode) else ())]
    found += [it.partition(".")[2] for it in FEATURES if it.startswith(f"{name}.")]
    return sorted({*found, *MORE.get(name, "").split()})


def entry(draw: random.Random, name: str, key: str) -> str:
    if name == "event_player":
        return f"  {quoted(draw, key)}: {events(draw, 4)}\n"
    if name == "coil_player":
        return coil(draw, key)
    if name in ("variable_player", "scoring"):
        numbers = "".join(f"    {draw.choice(('score', 'x', 'y', 'ball', 'a b'))}: {variable(draw)}\n"
                          for _ in range(draw.randint(1, 3)))
        return f"  {quoted(draw, key)}:\n{numbers}"
    if name in PLAYERS:
        return f"  {quoted(draw, key)}:\n    events: {events(draw, 6)}\n"
    if name == "state_machines":
        return (f"  {quoted(draw, key)}:\n    states:\n      start: {{label: x}}\n      two: "
                f"{{events_when_started: {draw.choice(EVENTS) or 'e'}}}\n"
                f"    transitions:\n      - {{source: start, target: two, events: e_1}}\n      - "
                f"{{source: two, target: start, events: e_2}}\n")
    if draw.random() < 0.03:
        return f"  {quoted(draw, key)}: {draw.choice(ODD)}\n"
    return f"  {quoted(draw, key)}:\n" + "".join(setting(draw, name, it, 4) for it in some(draw, settings_of(name)))


def coil(draw: random.Random, key: str) -> str:
    what = draw.choice((
        draw.choice(COILS), ", ".join(COILS[:2]), "", f"{{{draw.choice(COILS)}: {draw.choice(WORDS)}}}",
        f"{{{draw.choice(COILS)}: {{action: {draw.choice(WORDS)}, pulse_ms: {draw.choice(TIMES)}, "
        f"hold_power: {draw.choice(POWERS)}}}}}",
        f"{{{draw.choice(COILS)}: {{pulse_ms: 8, max_wait_ms: 3}}}}",
    ))
    return f"  {quoted(draw, key)}: {what}\n"


def variable(draw: random.Random) -> str:
    number = draw.choice(NUMBERS)
    return draw.choice((number, f"{{int: '{number}', action: {draw.choice(('add', 'set', 'add_machine'))}}}",
                        "{string: multi, action: set}",
                        f"{{int: {draw.randint(-9, 9)}, block: true}}"))


def setting(draw: random.Random, section: str, key: str, depth: int) -> str:
    margin = " " * depth
    if draw.random() < 0.02:
        return f"{margin}{key}: {draw.choice(ODD)}\n"
    if key == "control_events":
        return f"{margin}{key}:\n" + "".join(
            f"{margin}  - event: {event(draw)}\n{margin}    action: {draw.choice(WORDS)}\n{margin}    value: "
            f"{draw.choice(NUMBERS)}\n"
            for _ in range(2))
    if key == "states":
        return f"{margin}{key}:\n{margin}  - name: one\n{margin}    show: x\n{margin}  - name: {draw.choice(NAMES)}\n"
    if key == "events" or "events" in key:
        return f"{margin}{key}: {events(draw, depth + 2)}\n"
    return f"{margin}{key}: {value(draw, key)}\n"


def value(draw: random.Random, key: str) -> str:
    if draw.random() < 0.06:
        return draw.choice((*NUMBERS, *TIMES, *POWERS, *FLAGS, *WORDS))
    for words, values in (
        (("switch",), (*SWITCHES, "s_1, s_2", "[s_1, s_2]")), (("coil",), COILS),
        (("device", "target"), (*DEVICES, "a, b", "bd_1, bd_2")),
        (("power", "mask"), POWERS),
        (("_ms", "time", "delay", "window", "interval", "duration", "shoot", "grace"), TIMES),
        (("tag",), ("lane", "start", "nothing")), (("shots",), ("a, b", "a", "left, a, b")),
        (("profile", "group"), NAMES),
        (("enable", "running", "complete", "persist", "loop", "queue", "mode", "eject", "launch", "hit"), FLAGS),
    ):
        if any(it in key for it in words):
            return draw.choice(values)
    return draw.choice((*NUMBERS, *WORDS))


def event(draw: random.Random) -> str:
    name = draw.choice(EVENTS)
    if draw.random() < 0.3:
        name += f"{{{draw.choice(CONDITIONS)}}}"
    return name


def quoted(draw: random.Random, key: str) -> str:
    return key if draw.random() < 0.8 and key and "'" not in key else "'" + key.replace("'", "''") + "'"


def events(draw: random.Random, depth: int) -> str:
    some = [event(draw) + (f"|{draw.choice(TIMES)}" if draw.random() < 0.25 else "") for _ in range(draw.randint(1, 3))]
    margin = "\n" + " " * depth
    return draw.choice((
        ", ".join(some), f"[{', '.join(quoted(draw, it) for it in some)}]", "".join(f"{margin}- {it}" for it in some),
        "".join(f"{margin}{quoted(draw, it)}: {draw.choice(TIMES)}" for it in dict.fromkeys(some)),
        "".join(f"{margin}{quoted(draw, it)}: {{priority: 5}}" for it in dict.fromkeys(some)),
        "".join(f"{margin}- {quoted(draw, it)}: {{priority: 5}}" for it in dict.fromkeys(some)), "",
    ))
