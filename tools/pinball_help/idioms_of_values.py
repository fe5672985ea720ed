"""What people who know MPF write as values, and what to write here: one row for each kind of value.

A row holds for an entry of a section (or of several) whose key and raw value match. `edit` is what makes a copy right:

    out           the entry is taken out
    sub A B       each match of A in its lines becomes B
    value B       its value becomes B
    keys          a mapping becomes the list of its keys
    first         a list becomes its first item
    dash          a mapping becomes the one item of a list
    blank         a setting gets a blank after its `:`, or the entry is taken out
    hits          switches become the events that hit a shot
    coils         names of coils become a mapping in which each is pulsed
    number        a formula becomes the first number in it
    placeholder   an event with a placeholder becomes an event for each value, as an example
    power         an old power becomes a part of full power: see powers.py

`sample` is a text in which the program refuses the value; dev/test_help tries each row on its sample. `recipe` is the
heading of docs/from_mpf.md that has a text to write instead, where one does."""
from dataclasses import dataclass

from .powers import NAMES

TIME = r"\d[\d.]*\s*(?:ms|s|m|h|d|msec|sec|secs|min|mins)?"
BOOLEANS = (
    "game_mode|stop_on_ball_end|use_wait_queue|allow_enable|reset_on_complete|disable_on_complete|persist_state|"
    "start_running|restart_on_complete|advance_on_hit|loop|mechanical_eject"
)
EVENTS = r"\w*_events|events_when_\w+|events"
GAME = "game:\n"

# headings of docs/from_mpf.md
DELAY = "An event after a time"
HOLD, COMPUTED = "A coil that is held for a time", "A score that is computed"

ACTS_LATER = "To keep the delay, let the event start a mode with a timer, and write the event that this mode posts."
POSTED_LATER = "it is then posted at once. To keep the delay, let a mode with a timer post it."
FROM_ZERO = "A variable is 0 until an entry changes it, so think of 0 too."


@dataclass(frozen=True)
class Idiom:
    section: str
    setting: str  # of the entry at fault
    value: str  # is found in its value
    mpf: str  # what it means in MPF, or why it is refused
    write: str
    edit: tuple[str, ...]
    sample: str
    recipe: str = ""


ANY = ".*"
ENTRY = "(an entry of the section)"
EVENT = "(an event of a player)"
IDIOMS = (
    Idiom(
        "event_player", ANY, rf"\|\s*{TIME}",
        "MPF posts the event after a time. Delays are not carried out here.",
        f"Write the event without the time: {POSTED_LATER}",
        ("sub", rf"\|\s*{TIME}", ""), "event_player:\n  a: b|2s", DELAY,
    ),
    Idiom(
        ANY, r"events_when_\w+", rf"\w\s*\|\s*{TIME}",
        "MPF posts the event after a time. Delays are not carried out here.",
        f"Write the event without the time: {POSTED_LATER}",
        ("sub", rf"\|\s*{TIME}", ""), "switches:\n  s:\n    events_when_activated: a|100ms", DELAY,
    ),
    Idiom(
        ANY, EVENTS, rf"[\w}}]\s*\|\s*{TIME}",
        "MPF handles the event after a time. Delays are not carried out here.",
        f"Write the event without the time: it then acts at once. {ACTS_LATER}",
        ("sub", rf"\|\s*{TIME}", ""), "counters:\n  c:\n    count_events: a|2s", DELAY,
    ),
    Idiom(
        "event_player", ANY, r"\([^)]*\)",
        "MPF writes a value in place of the brackets. Placeholders are not carried out here.",
        "Write the names of the events themselves: for example a line for each value, with its condition. "
        f"The names below are examples. {FROM_ZERO}",
        ("placeholder",), "event_player:\n  a: (name)_hit",
    ),
    Idiom(
        "variable_player", ANY, r"^\d+ *\* *current_player\.\w+$|^current_player\.\w+ *\* *\d+$",
        "MPF works out a formula here. A variable changes by a whole number that is written.",
        "Write the number. This drops the multiplier. To keep it, write an entry for each value, under a condition: "
        f"`e{{current_player.x == 2}}:`. {FROM_ZERO}",
        ("number",), "variable_player:\n  e:\n    score: 1000 * current_player.x", COMPUTED,
    ),
    Idiom(
        "event_player", ANY, r"priority\s*:|^$",
        "Settings of a posted event are not read here.",
        "Write the names of the events alone: `a: b, c`.",
        ("keys",), "event_player:\n  a:\n    b:\n      priority: 5",
    ),
    Idiom(
        "event_player", ANY, rf"^\{{?\s*[\w.]+\s*:\s*{TIME}\s*(?:$|[,}}])",
        "Delays are not carried out here.",
        f"Write the names of the events alone: each {POSTED_LATER.replace('it is then', 'is then')}",
        ("keys",), "event_player:\n  a: {b: 2s}", DELAY,
    ),
    Idiom(
        "event_player", ANY, r"^(?:- )?\{?\s*[\w.]+\s*:",
        "Settings of a posted event are not read here.",
        "Write the names of the events alone: `a: b, c`.",
        ("keys",), "event_player:\n  a: {b: {c: 1}}",
    ),
    Idiom(
        "timers", "control_events", r"^\{?\s*(?:event|action|value)\s*:",
        "It is a list, also of one mapping.", "Begin each mapping with a dash: `- event: EVENT`.",
        ("dash",), "mode:\ntimers:\n  t:\n    control_events:\n      event: e\n      action: start",
    ),
    Idiom(
        ANY, EVENTS, r"^\{?\s*[\w.]+\s*:",
        "MPF takes an event with a delay, as `e: 1s`. Delays are not carried out here.",
        f"Write a list of the events' names: they then act at once. {ACTS_LATER}",
        ("keys",), "counters:\n  c:\n    count_events: a\n    reset_events: {e: 1s}", DELAY,
    ),
    Idiom(
        "variable_player", ANY, r"current_player|[*/()]|\d\s*[+-]\s*\d",
        "MPF works out a formula here. A variable changes by a whole number that is written.",
        "Write a number: the one below is an example. This drops the formula. To keep it, write an entry for each "
        f"value, under a condition: `e{{current_player.x == 2}}:`. {FROM_ZERO}",
        ("number",), "variable_player:\n  e:\n    score: current_player.x + current_player.y", COMPUTED,
    ),
    Idiom(
        "variable_player", ANY, r"^\+\d+$",
        "A number is added anyway.", "Write the number without `+`.",
        ("sub", r"\+(?=\d)", ""), "variable_player:\n  e:\n    score: +100",
    ),
    Idiom(
        "variable_player", ANY, r"^(?:add|set) +-?\d+$",
        "What is done with the number is a setting of its own.", "Write `{int: NUMBER, action: set}`, or `add`.",
        ("sub", r"\b(add|set) +(-?\d+)", r"{int: \2, action: \1}"), "variable_player:\n  e:\n    score: set 0",
    ),
    Idiom(
        "variable_player", ANY, r"^-?\d{1,3}([,_]\d{3})+$",
        "A number has digits alone.", "Write the number without `,` and `_`.",
        ("sub", r"(?<=\d)[,_](?=\d)", ""), "variable_player:\n  e:\n    score: 10_000",
    ),
    Idiom(
        "counters|multiballs|ball_saves|machine", r"\w+_value|starting_count|count_interval|\w*balls\w*",
        r"settings\.|machine\.|current_player|[*/(]",
        "MPF may read it from its settings or work it out. Here it is a number that is written.",
        "Write the number: the one below is an example.",
        ("value", "3"), "counters:\n  c:\n    count_events: a\n    count_complete_value: settings.y",
    ),
    Idiom(
        "variable_player", EVENT, r"^[^\s{\[]",
        "An entry is an event, and below it are variables.",
        "Write an event, and below it, deeper, the variable with its number: `EVENT: {score: 100}`.",
        ("out",), "variable_player:\n  score: 1000",
    ),
    Idiom(
        "variable_player", ANY, r"\|\s*block",
        "In MPF `block` keeps entries of lower priority from scoring. Here each entry scores.",
        "Write the number alone.",
        ("sub", r"\s*\|\s*block", ""), "variable_player:\n  e:\n    score: 100|block",
    ),
    Idiom(
        "variable_player", "action", r"add_machine|set_machine",
        "There are no machine variables here.",
        "Write `add` or `set`: the variable is the current player's.",
        ("sub", "_machine", ""), "variable_player:\n  e:\n    score: {int: 1, action: add_machine}",
    ),
    Idiom(
        "variable_player", "action", r"subtract",
        "There is no such action here.",
        "Write `add` with a negative number.",
        ("value", "add"), "variable_player:\n  e:\n    score: {int: 1, action: subtract}",
    ),
    Idiom(
        "variable_player", ANY, r"^-?\d*\.\d+$",
        "A variable is a whole number.", "Write a whole number.",
        ("sub", r"(:\s*-?\d+)\.\d+", r"\1"), "variable_player:\n  e:\n    score: 1.5",
    ),
    Idiom(
        "switches|coils|flippers|autofire_coils", ENTRY, ANY,
        "Its settings are missing, or are below it as one text.",
        "Write its settings below it, deeper, each with a blank after the `:`.",
        ("blank",), "switches:\n  s: yes",
    ),
    Idiom(
        "switches", "type", r"(?i)^n[co]$",
        "Words are compared as they are written.", "Write `NO` or `NC`, in capitals.",
        ("upper",), "switches:\n  s: {type: nc}",
    ),
    Idiom(
        "switches", "debounce", r"\d",
        "`debounce` takes no time here.", "Write `auto`, `quick` or `normal`.",
        ("value", "normal"), "switches:\n  s: {debounce: 5ms}",
    ),
    Idiom(
        "switches", "debounce", r"(?i)^(yes|true|on)$",
        "`debounce` is no yes or no.", "Write `normal`, or `quick` for none.",
        ("value", "normal"), "switches:\n  s: {debounce: yes}",
    ),
    Idiom(
        "switches", "debounce", r"(?i)^(no|false|off)$",
        "`debounce` is no yes or no.", "Write `quick`.",
        ("value", "quick"), "switches:\n  s: {debounce: no}",
    ),
    Idiom(
        "coils", r"\w+_pulse_ms", r"^\d{4,}|^[\d.]+ *s$|^0",
        "A pulse lasts from 1 to 5,000 ms.",
        "Write how long the coil may be on, as `20ms`. The copy goes on without it.",
        ("out",), "coils:\n  c: {default_pulse_ms: 6000}",
    ),
    Idiom(
        "coils|coil_player", NAMES, ANY,
        "A power is a part of full power, from 0 to 1.",
        "Write it as a part of full power.",
        ("power",), "coils:\n  c: {default_hold_power: 25}",
    ),
    Idiom(
        "coil_player", EVENT, r"^[\w.-]|^\[",
        "Below an event are coils, each with what it does.",
        "Write each coil with what it does, as `{c_kick: pulse}`.",
        ("coils",), "coils:\n  c:\ncoil_player:\n  e: c",
    ),
    Idiom(
        "coil_player", ANY, r"^(?i:on|yes|true)$",
        "A coil is pulsed, enabled or disabled.", "Write `enable` to hold the coil, or `pulse`.",
        ("value", "pulse"), "coils:\n  c:\ncoil_player:\n  e:\n    c: on",
    ),
    Idiom(
        "coil_player", ANY, r"^(?i:off|no|false)$",
        "A coil is pulsed, enabled or disabled.", "Write `disable`.",
        ("value", "disable"), "coils:\n  c:\ncoil_player:\n  e:\n    c: off",
    ),
    Idiom(
        "coil_player", ANY, r"^(pulse\s+)?\d+\s*(ms)?$",
        "The length of a pulse is a setting of its own.", "Write `{action: pulse, pulse_ms: 20}`.",
        ("value", "pulse"), "coils:\n  c:\ncoil_player:\n  e:\n    c: 20ms",
    ),
    Idiom(
        "coil_player", ANY, r"^$",
        "The coil has nothing that it can do.", "Write what it does: `pulse`, `enable` or `disable`.",
        ("value", "pulse"), "coils:\n  c:\ncoil_player:\n  e:\n    c:",
    ),
    Idiom(
        "coil_player", "action", r"timed_enable|flash|blink",
        "There is no such action here.", "Write `enable`, and `disable` at another event; or `pulse`.",
        ("value", "pulse"), "coils:\n  c:\ncoil_player:\n  e:\n    c: {action: timed_enable}", HOLD,
    ),
    Idiom(
        "ball_devices", "eject_targets", r"[,\s\[]|^$",
        "A device has one target here, written as one name.", "Write the first target alone.",
        ("first",),
        "coils:\n  c:\nball_devices:\n  d: {ball_switches: '', eject_coil: c, eject_targets: 'playfield, x'}",
    ),
    Idiom(
        "ball_devices", "eject_timeouts", r"[,\[]",
        "A device has one target here, so one time.", "Write one time.",
        ("first",), "coils:\n  c:\nball_devices:\n  d: {ball_switches: '', eject_coil: c, eject_timeouts: '5s, 9s'}",
    ),
    Idiom(
        "ball_saves", "balls_to_save", r"^-",
        "In MPF -1 means all balls. A ball save saves from 1 to 99 balls here.", "Write `99` for as many as there are.",
        ("value", "99"), "ball_saves:\n  b: {balls_to_save: -1}",
    ),
    Idiom(
        "ball_saves", "balls_to_save", ANY,
        "A ball save saves from 1 to 99 balls.", "Write a number from 1 to 99.",
        ("value", "1"), "ball_saves:\n  b: {balls_to_save: 0}",
    ),
    Idiom(
        "ball_saves", "active_time", r"current_player|settings|[*/(]",
        "MPF works out a formula here. A ball save takes a time that is written.", "Write the time, for example `10s`.",
        ("value", "10s"), "ball_saves:\n  b: {active_time: settings.ball_save}",
    ),
    Idiom(
        "multiballs", "ball_count", ANY,
        "From 2 to 99 balls are in play when a multiball has started, the one that is in play already among them.",
        "Write a number from 2 to 99.",
        ("value", "2"), "multiballs:\n  m: {ball_count: 1}",
    ),
    Idiom(
        "game", "max_players", ANY,
        "A game has from 1 to 4 players.", "Write a number from 1 to 4.",
        ("value", "4"), "game:\n  max_players: 6",
    ),
    Idiom(
        "game", "balls_per_game", ANY,
        "A player has from 1 to 99 balls. MPF may read it from its settings.",
        "Write the number, for example `3`.",
        ("value", "3"), "game:\n  balls_per_game: settings.balls_per_game",
    ),
    Idiom(
        ANY, BOOLEANS, r"^[01]$",
        "A boolean is a word.", "Write `yes` or `no`.",
        ("boolean",), "mode:\n  game_mode: 0",
    ),
    Idiom(
        "mode", "priority", r"^\+|^-",
        "A priority is from 0 to 1,000,000.", "Write the number without a sign.",
        ("sub", r"([+-])(\d)", r"\2"), "mode:\n  priority: +100",
    ),
    Idiom(
        "timers", r"\w+", r"current_player|settings|[*/(]",
        "MPF works out a formula here. A timer takes a number that is written.",
        "Write the number, for example `10`.",
        ("value", "10"), "mode:\ntimers:\n  t: {start_value: current_player.x, start_running: yes}",
        "A timer with more time",
    ),
    Idiom(
        "timers", r"\w+_value", r"\.\d",
        "The value of a timer is a whole number.", "Write a whole number. For shorter steps see `tick_interval`.",
        ("sub", r"(\d)\.\d+", r"\1"), "mode:\ntimers:\n  t: {start_value: 1.5}",
    ),
    Idiom(
        "timers", r"\w+_value", r"^$",
        "The value is missing.", "Write a whole number, or take it out.",
        ("out",), "mode:\ntimers:\n  t:\n    end_value:",
    ),
    Idiom(
        "timers", "tick_interval", ANY,
        "A tick takes a millisecond or more.", "Write a time, as `1s`.",
        ("value", "1s"), "mode:\ntimers:\n  t: {tick_interval: 0}",
    ),
    Idiom(
        "timers", "action", ANY,
        "There is no such action of a timer here.", "Write `start`, `stop`, `pause`, `reset`, `restart`, `add`, "
        "`subtract` or `jump`.",
        ("value", "start"), "mode:\ntimers:\n  t:\n    control_events:\n    - {event: e, action: begin}",
    ),
    Idiom(
        "shots", "switch", r"[,\s\[]",
        "A shot has one switch here.",
        "Write the events of the switches in `hit_events`: any of them hits the shot.",
        ("hits",), "switches:\n  s_a:\n  s_b:\nshots:\n  x: {switch: 's_a, s_b'}",
    ),
    Idiom(
        "shot_profiles", "states", ANY,
        "A state is a mapping with a `name`; a profile has 1 to 16 of them, each with a name of its own.",
        "Write `- name: lit` for each state.",
        ("states",), "shot_profiles:\n  p:\n    states:\n      - up\n      - down",
    ),
    Idiom(
        "accruals|sequences", "events", ANY,
        "Each step is an item of a YAML list.", "Write a line `- EVENT` for each step.",
        ("steps",), "accruals:\n  a:\n    events: x, y",
    ),
    Idiom(
        "", "modes", r"machine",
        "`machine` stands for what is in no mode.", "Give the mode another name.",
        ("sub", r"\bmachine\b", "machine_mode"), "modes:\n  - machine",
    ),
    Idiom(
        "", "modes", r":",
        "`modes` is a list of names.", "Write a line `- NAME` for each mode.",
        ("keys",), "modes:\n  base:\n  bonus:",
    ),
)
