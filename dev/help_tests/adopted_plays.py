"""Small MPF folders with one thing each, a log, and what has to happen when the adopted machine plays it."""
from dataclasses import dataclass, field


@dataclass(frozen=True)
class Play:
    """`machine` and `modes` are sections as in MPF, and `files` are further texts. `happens` are lines of the trace
    without OWNER, in this order; `never` are not in it. `features` are rows of the table that have to be named in
    ADOPTED.md."""

    name: str
    machine: str
    log: str
    happens: tuple[str, ...]
    never: tuple[str, ...] = ()
    modes: dict[str, str] = field(default_factory=dict)
    features: tuple[str, ...] = ()
    files: dict[str, str] = field(default_factory=dict)


GAME = """
machine: {min_balls: 0}
switches:
  s_start: {number: 1, tags: start, debounce: quick}
  s_a: {number: 2, tags: lane, debounce: quick}
  s_b: {number: 3, tags: lane, debounce: quick}
  s_c: {number: 4, debounce: quick}
  s_d: {number: 5, debounce: quick}
coils:
  c_a: {number: 1, default_pulse_ms: 20}
  c_hold: {number: 2, default_hold_power: 0.25}
"""
BALLS = """
switches:
  s_start: {number: 1, tags: start, debounce: quick}
  s_trough: {number: 2, debounce: quick}
  s_plunger: {number: 3, debounce: quick}
  s_launch: {number: 4, debounce: quick}
  s_a: {number: 5, tags: playfield_active, debounce: quick}
  s_b: {number: 6, tags: playfield_active, debounce: quick}
  s_hole: {number: 7, debounce: quick}
  s_bob: {number: 8, tags: tilt_warning, debounce: quick}
  s_slam: {number: 9, tags: slam_tilt, debounce: quick}
coils:
  c_trough: {number: 1}
  c_plunger: {number: 2, default_pulse_ms: 15}
  c_hole: {number: 3, default_pulse_ms: 12}
  c_flipper: {number: 4, default_pulse_ms: 30}
flippers:
  left: {main_coil: c_flipper, activation_switch: s_b}
ball_devices:
  bd_trough: {ball_switches: s_trough, eject_coil: c_trough, eject_targets: bd_plunger, tags: 'trough, home, drain'}
"""
MANUAL = """
  bd_plunger: {ball_switches: s_plunger, mechanical_eject: yes}
"""
FIRED = """
  bd_plunger: {ball_switches: s_plunger, eject_coil: c_plunger, player_controlled_eject_event: s_launch_active}
"""
START = "100 s_start 1\n150 s_start 0\n"
# a second ball of the game
SECOND = "7000 s_trough 1\n8000 s_trough 0\n9000 s_plunger 1\n10000 s_plunger 0\n11000 s_a 1\n11050 s_a 0\n"
# a ball comes into the trough, a game begins, and the ball comes to the plunger and onto the playfield
IN_PLAY = ("0 s_trough 1\n1000 s_start 1\n1050 s_start 0\n2000 s_trough 0\n3000 s_plunger 1\n4000 s_plunger 0\n"
           "5000 s_a 1\n5050 s_a 0\n")


def press(switch: str, *moments: int) -> str:
    return "".join(f"{at} {switch} 1\n{at + 20} {switch} 0\n" for at in moments)


def logged(*lines: str) -> str:
    """A log with its lines in the order of their moments."""
    some = [line for text in lines for line in text.split("\n") if line]
    return "\n".join(sorted(some, key=lambda it: int(it.split()[0]))) + "\n"


DELAYS = (
    Play("a delay of the machine", GAME + "event_player:\n  s_a_active: now, later|2s\n",
         logged(press("s_a", 1000), "4000"),
         ("1000 event now", "3000 event later"), features=("a: b|2s",)),
    Play("a second event before the time is up", GAME + "event_player:\n  s_a_active: later|2s\n",
         logged(press("s_a", 1000, 2000, 9000), "12000"),
         ("4000 event later", "11000 event later"), ("3000 event later",)),
    Play("a delay in a mode", GAME,
         logged(press("s_a", 1000), press("s_b", 1500), press("s_b", 1900), "5000"),
         ("2400 event later",), ("2000 event later",), {
             "m": "mode: {start_events: s_a_active, game_mode: no}\nevent_player:\n  s_b_active: later|500ms\n"}),
    Play("a delay that ends with its mode", GAME,
         logged(press("s_a", 1000), press("s_b", 1500), press("s_c", 1700), "5000"),
         ("1700 event mode_m_stopped",), ("2000 event later",), {
             "m": "mode: {start_events: s_a_active, stop_events: s_c_active, game_mode: no}\n"
                  "event_player:\n  s_b_active: later|500ms\n"}),
    Play("a delay of the event that starts the mode", GAME, logged(press("s_a", 1000), "5000"), ("1500 event later",),
         (), {
        "m": "mode: {start_events: s_a_active, game_mode: no}\nevent_player:\n  mode_m_started: later|500ms\n"}),
    Play("a delay of an event of the game", GAME + "event_player:\n  ball_will_start: later|2s\n  player_x: seen|1s\n"
         "variable_player:\n  s_a_active: {x: 1}\n",
         logged(START, press("s_a", 1000, 1500), "5000"), ("2100 event later", "2500 event seen"),
         ("2000 event seen",)),
    Play("a delay with a condition", GAME + "event_player:\n  s_b_active{current_player.x==1}: later|1s\n"
         "variable_player:\n  s_a_active: {x: 1}\n",
         logged(START, press("s_b", 500), press("s_a", 1000), press("s_b", 3000), "6000"),
         ("4000 event later",), ("1500 event later",)),
    Play("a delay of a switch", GAME.replace("s_d: {", "s_d: {events_when_activated: later|1s, ") ,
         logged(press("s_d", 1000), "4000"),
         ("2000 event later",), features=("events_when_activated: a|1s",)),
    Play("a hit of a counter after a time", GAME, logged(press("s_a", 1000), press("s_b", 2000, 2100), "6000"),
         ("3100 event logicblock_n_complete",), ("3000 event logicblock_n_hit",), {
             "m": "mode: {start_events: s_a_active, game_mode: no}\ncounters:\n"
                  "  n: {count_events: {s_b_active: 1s}, count_complete_value: 1}\n"}),
    Play("a reset after a time", GAME,
         logged(START, press("s_a", 1000), press("s_b", 1500), press("s_a", 1700), press("s_a", 3000), "5000"),
         ("1000 event x_unlit_hit", "1700 event x_lit_hit", "3000 event x_unlit_hit"), (), {
             "m": "mode: {start_events: ball_started}\nshots:\n  x:\n    switch: s_a\n    reset_events:\n      "
                  "s_b_active: 1s\n"},
         ("reset_events: {a: 1s}",)),
    Play("the start of a mode after a time", GAME, logged(press("s_a", 1000), "5000"), ("3000 event mode_m_started",),
         (),
         {"m": "mode: {start_events: s_a_active|2s, game_mode: no}\n"}),
    Play("an event of a counter after a time", GAME +
         "counters:\n  n: {count_events: s_a_active, count_complete_value: 2, events_when_complete: 'now, later|1s'}\n",
         logged(press("s_a", 1000, 2000), "5000"), ("2000 event now", "3000 event later"), ("1000 event now",)),
)
CONDITIONS = (
    Play("the value of a variable",
         GAME + "event_player:\n  player_x{value >= 2}: two\nvariable_player:\n  s_a_active: {x: 1}\n",
         logged(START, press("s_a", 1000, 2000)), ("1000 event player_x", "2000 event two"), ("1000 event two",),
         features=("player_x{value}",)),
    Play("two conditions", GAME + "event_player:\n  s_c_active{current_player.x==1 and current_player.y==2}: both\n"
         "variable_player:\n  s_a_active: {x: 1}\n  s_b_active: {y: 1}\n",
         logged(START, press("s_c", 500), press("s_a", 1000), press("s_c", 1500), press("s_b", 2000, 2100),
                press("s_c", 2500)),
         ("2500 event both",), ("500 event both", "1500 event both"), features=("a{x and y}",)),
    Play("one of two conditions, once",
         GAME + "event_player:\n  s_c_active{current_player.x==1 or current_player.y==1}: one\n"
         "variable_player:\n  s_a_active: {x: 1}\n  s_b_active: {y: 1}\n",
         logged(START, press("s_c", 500), press("s_a", 1000), press("s_c", 1500), press("s_b", 2000),
                press("s_c", 2500)),
         ("1500 event one", "2500 event one"), ("500 event one",)),
    Play("not, and a variable alone", GAME + "event_player:\n  s_c_active{not current_player.x}: dark\n"
         "  s_c_active{current_player.x}: light\nvariable_player:\n  s_a_active: {x: 1}\n",
         logged(START, press("s_c", 500), press("s_a", 1000), press("s_c", 1500)),
         ("500 event dark", "1500 event light"),
         ("500 event light", "1500 event dark"), features=("a{current_player.x}",)),
    Play("a default of a setting", GAME + "settings:\n  most: {label: Most, values: {2: two, 5: five}, default: 2}\n"
         "event_player:\n  player_x{current_player.x >= settings.most}: most\nvariable_player:\n  s_a_active: {x: 1}\n",
         logged(START, press("s_a", 1000, 2000)), ("2000 event most",), ("1000 event most",), features=("settings.x",)),
    Play("a posted event with a condition", GAME + "event_player:\n  s_c_active: always, some{current_player.x==1}\n"
         "variable_player:\n  s_a_active: {x: 1}\n",
         logged(START, press("s_c", 500), press("s_a", 1000), press("s_c", 1500)),
         ("500 event always", "1500 event always", "1500 event some"), ("500 event some",), features=("a: b{x}",)),
    Play("while a mode runs", GAME + "event_player:\n  s_c_active{mode.m.active}: inside\n",
         logged(press("s_c", 500), press("s_a", 1000), press("s_c", 1500)), ("1500 event inside",),
         ("500 event inside",),
         {"m": "mode: {start_events: s_a_active, game_mode: no}\n"}, ("a{mode.m.active}",)),
    Play("two conditions of a start", GAME + "variable_player:\n  s_a_active: {x: 1}\n  s_b_active: {y: 1}\n",
         logged(START, press("s_a", 1000), press("s_c", 1500), press("s_b", 2000), press("s_c", 2500)),
         ("2500 event mode_m_started",), ("1500 event mode_m_started",),
         {"m": "mode: {start_events: 's_c_active{current_player.x==1 and current_player.y==1}'}\n"}),
    Play("the value of a tick", GAME, logged(press("s_a", 1000), "9000"), ("3000 event hurry",), ("2000 event hurry",),
         {
        "m": "mode: {start_events: s_a_active, game_mode: no}\ntimers:\n  t: {start_value: 5, direction: down, "
             "start_running: yes}\n"
             "event_player:\n  timer_t_tick{ticks==3}: hurry\n"}, ("timer_t_tick{ticks==3}",)),
)
LISTS = (
    Play("lists of events", GAME + "event_player:\n  s_a_active: [a1, a2]\n  s_b_active:\n    - b1\n    - b2\n"
         "  s_c_active:\n    c1:\n    c2: {priority: 5}\n  s_d_active: d1 d2\n",
         logged(press("s_a", 1000), press("s_b", 2000), press("s_c", 3000), press("s_d", 4000)),
         ("1000 event a1", "1000 event a2", "2000 event b1", "2000 event b2", "3000 event c1", "3000 event c2",
          "4000 event d1", "4000 event d2")),
    Play("a list of mappings", GAME + "event_player:\n  s_a_active:\n    - a1\n    - a2: {priority: 5}\n    - a3|1s\n",
         logged(press("s_a", 1000), "3000"), ("1000 event a1", "1000 event a2", "2000 event a3"),
         features=("lists of events",)),
    Play("a list on several lines", GAME + "event_player:\n  s_a_active: [a1,\n    a2,   # the second\n    a3]\n",
         logged(press("s_a", 1000)), ("1000 event a1", "1000 event a2", "1000 event a3"), features=("lax YAML",)),
    Play("an anchor", GAME + "event_player:\n  s_a_active: &both a1, a2\n  s_b_active: *both\n",
         logged(press("s_b", 1000)), ("1000 event a1", "1000 event a2"), features=("lax YAML",)),
    Play("events that lead to each other", GAME + "event_player:\n  s_a_active: x1\n  x1: x2\n  x2: x1, x3\n",
         press("s_a", 1000), ("1000 event x1",), features=("refused",)),
    Play("an event of a counter that leads back to it", GAME +
         "counters:\n  n: {count_events: 's_a_active, x1', count_complete_value: 9, events_when_hit: 'x1, x2'}\n",
         press("s_a", 1000), ("1000 event x2",), features=("refused",)),
    Play("events of tags", GAME + "event_player:\n  sw_lane_active: lane\n  sw_lane_inactive: left\n",
         logged(press("s_b", 1000)), ("1000 event lane", "1020 event left"), features=("sw_TAG_active",)),
    Play("a score of an older version", GAME + "scoring:\n  s_a_active: {score: 1_000}\n",
         logged(START, press("s_a", 1000)),
         ("1000 player 1 score 1000",), features=("scoring",)),
    Play("a multiplied score", GAME + "variable_player:\n  s_a_active:\n    score: 100 * current_player.x\n    x: 1\n",
         logged(START, press("s_a", 1000, 2000, 3000)), ("2000 player 1 score 100", "3000 player 1 score 300"),
         ("1000 player 1 score 100",), features=("score * variable",)),
    Play("a first value", GAME + "player_vars:\n  lives: {initial_value: 3, value_type: int}\n", START,
         ("100 player 1 lives 3",), features=("player_vars",)),
    Play("events in turn", GAME + "random_event_player:\n  s_a_active:\n    events: {one: 5, two: 60}\n",
         logged(START, press("s_a", 1000, 2000, 3000)), ("1000 event one", "2000 event two", "3000 event one"),
         features=("random_event_player",)),
    Play("the events of a mode", GAME, logged(press("s_a", 1000), press("s_b", 2000)),
         ("1000 event on", "2000 event gone"), (), {
        "m": "mode: {start_events: s_a_active, stop_events: s_b_active, game_mode: no, events_when_started: on, "
             "events_when_stopped: gone}\n"}, ("mode.events_when_started",)),
)
COILS = (
    Play("forms of a coil_player", GAME + "coil_player:\n  s_a_active: c_a\n  s_b_active: {c_a: {pulse_ms: 8}}\n"
         "  s_c_active: {c_hold: on}\n  s_d_active: {c_hold: off}\n",
         logged(press("s_a", 1000), press("s_b", 2000), press("s_c", 3000), press("s_d", 4000)),
         ("1000 coil c_a pulse 20 1000", "2000 coil c_a pulse 8 1000", "3000 coil c_hold enable 250",
          "4000 coil c_hold disable"),
         features=("coil_player forms",)),
    Play("a longer pulse than the coil bears", GAME + "coil_player:\n  s_a_active: {c_a: {pulse_ms: 90}}\n",
         press("s_a", 1000), ("1000 coil c_a pulse 20 1000",), features=("lowest power or time",)),
    Play("a pulse that is shorter than any", GAME + "coil_player:\n  s_a_active: {c_a: {pulse_ms: 0.5ms}}\n",
         press("s_a", 1000), ("1000 coil c_a pulse 1 1000",), features=("lowest power or time",)),
    Play("powers in eighths", GAME.replace("default_hold_power: 0.25",
                                           "hold_power: 2") + "coil_player:\n  s_a_active: {c_hold: enable}\n",
         press("s_a", 1000), ("1000 coil c_hold enable 250",), features=("powers in eighths", "old names")),
    Play("a hold that is not allowed", GAME + "coil_player:\n  s_a_active: {c_a: enable}\n", press("s_a", 1000),
         ("1000 event s_a_active",), ("1000 coil c_a enable 1000",), features=("hold not allowed",)),
    Play("a hold that would not end",
         GAME.replace("default_hold_power: 0.25", "default_hold_power: 0.25, max_hold_duration: 4s") +
         "coil_player:\n  s_a_active: {c_hold: enable}\n", press("s_a", 1000), ("1000 event s_a_active",),
         ("1000 coil c_hold enable 250",), features=("coils.max_hold_duration",)),
    Play("events of a coil", GAME.replace("default_pulse_ms: 20", "default_pulse_ms: 20, pulse_events: s_a_active"),
         press("s_a", 1000), ("1000 coil c_a pulse 20 1000",), features=("coils.pulse_events",)),
    Play("the default of all coils",
         GAME.replace(", default_pulse_ms: 20", "") + "mpf: {default_pulse_ms: 35}\ncoil_player:\n  s_a_active: c_a\n",
         press("s_a", 1000), ("1000 coil c_a pulse 35 1000",), features=("mpf.default_pulse_ms",)),
)
TARGETS = """
drop_targets:
  one: {switch: s_a, reset_coil: c_a}
  two: {switch: s_b, reset_coil: c_a}
"""
PLAYFIELD = (
    Play("drop targets and a bank", GAME + TARGETS + "drop_target_banks:\n  bank:\n    drop_targets: one, two\n"
         "    reset_coils: c_a\n    reset_on_complete: 1s\n",
         logged(START, press("s_a", 1000), press("s_b", 2000), press("s_a", 4000)),
         ("100 coil c_a pulse 20 1000", "1000 event drop_target_one_down", "2000 event drop_target_two_down",
          "2000 event drop_target_bank_bank_down", "3000 coil c_a pulse 20 1000", "4000 event drop_target_one_down"),
         ("1000 event drop_target_bank_bank_down",), features=("drop_targets", "drop_target_banks")),
    Play("a drop target by itself",
         GAME + "drop_targets:\n  one: {switch: s_a, reset_coil: c_a, reset_events: s_c_active}\n",
         logged(START, press("s_a", 1000, 2000), press("s_c", 3000), press("s_a", 4000)),
         ("1000 event drop_target_one_down", "3000 coil c_a pulse 20 1000", "4000 event drop_target_one_down"),
         ("2000 event drop_target_one_down",)),
    Play("a diverter that is held for a time", GAME + "diverters:\n  d:\n    activation_coil: c_hold\n    type: hold\n"
         "    activation_time: 4s\n    activate_events: s_a_active\n    deactivate_events: s_b_active\n",
         logged(press("s_a", 1000), press("s_a", 10000), press("s_b", 11000), "20000"),
         ("1000 coil c_hold enable 250", "5000 coil c_hold disable", "10000 coil c_hold enable 250",
          "11000 coil c_hold disable"),
         features=("diverters",)),
    Play("a diverter with a switch in front of it",
         GAME + "diverters:\n  d:\n    activation_coil: c_hold\n    type: hold\n"
         "    activation_time: 1s\n    activation_switches: s_c\n    enable_events: s_a_active\n    disable_events: "
         "s_b_active\n",
         logged(press("s_c", 500), press("s_a", 1000), press("s_c", 2000), press("s_b", 5000), press("s_c", 6000),
                "9000"),
         ("2000 coil c_hold enable 250", "3000 coil c_hold disable"),
         ("500 coil c_hold enable 250", "6000 coil c_hold enable 250")),
    Play("a pulsed diverter", GAME + "diverters:\n  d:\n    activation_coil: c_a\n    type: pulse\n    "
                                     "activate_events: s_a_active\n",
         press("s_a", 1000), ("1000 coil c_a pulse 20 1000",)),
    Play("a kickback", GAME + "kickbacks:\n  k: {coil: c_a, switch: s_a, enable_events: s_b_active}\n",
         logged(START, press("s_a", 500), press("s_b", 1000), press("s_a", 2000, 3000), press("s_b", 4000),
                press("s_a", 5000)),
         ("2000 coil c_a pulse 20 1000", "2000 event kickback_k_fired", "5000 coil c_a pulse 20 1000",
          "5000 event kickback_k_fired"),
         ("500 coil c_a pulse 20 1000", "3000 coil c_a pulse 20 1000", "3000 event kickback_k_fired"),
         features=("kickbacks",)),
    Play("a spinner", GAME + "spinners:\n  s: {switch: s_a, active_ms: 500, idle_ms: 1s}\n",
         logged(press("s_a", 1000, 1300, 1600, 5000), "9000"),
         ("1000 event spinner_s_hit", "1000 event spinner_s_active", "1300 event spinner_s_hit",
          "1600 event spinner_s_hit",
          "2100 event spinner_s_inactive", "3100 event spinner_s_idle", "5000 event spinner_s_active"),
         ("1300 event spinner_s_active", "1500 event spinner_s_inactive"), features=("spinners",)),
    Play("two buttons at once", GAME + "combo_switches:\n  c: {switches_1: s_a, switches_2: s_b, max_offset_time: "
                                       "500ms, "
         "events_when_both: both, events_when_inactive: neither}\n",
         logged("1000 s_a 1\n1200 s_b 1\n1500 s_a 0\n1600 s_b 0\n3000 s_b 1\n3100 s_a 1\n3300 s_b 0\n3400 s_a 0\n"
                "5000 s_a 1\n6000 s_b 1\n7000 s_a 0\n7100 s_b 0\n"),
         ("1200 event both", "1500 event neither", "3100 event both", "3300 event neither"), ("6000 event both",),
         features=("combo_switches",)),
    Play("two buttons for a time", GAME + "combo_switches:\n  c: {tag_1: lane, switches_2: s_c, hold_time: 1s}\n",
         logged("1000 s_b 1\n1200 s_c 1\n1500 s_b 0\n1600 s_c 0\n3000 s_c 1\n3100 s_a 1\n5000 s_c 0\n5100 s_a 0\n"),
         ("4100 event c_both", "5000 event c_inactive"), ("2200 event c_both",)),
    Play("a switch that is held", GAME + "timed_switches:\n  t: {switches: s_a, time: 2s, events_when_active: held, "
         "events_when_released: let_go}\n", logged("1000 s_a 1\n2000 s_a 0\n5000 s_a 1\n8000 s_a 0\n9000\n"),
         ("7000 event held", "8000 event let_go"), ("2000 event let_go", "3000 event held"),
         features=("timed_switches",)),
    Play("a shot of two switches", GAME,
         logged(START, press("s_a", 1000), press("s_b", 2000), press("s_a", 5000), press("s_b", 9000),
                                                press("s_b", 9500), press("s_a", 10000), press("s_b", 10500)),
         ("2000 event orbit_hit", "8000 event orbit_timeout", "10500 event orbit_hit"), ("9000 event orbit_hit",), {
             "m": "mode: {start_events: ball_started}\nsequence_shots:\n  orbit: {switch_sequence: 's_a, s_b', "
                  "sequence_timeout: 3s}\n"},
         ("sequence_shots",)),
    Play("a state machine", GAME + "state_machines:\n  quest:\n    states:\n      start: {label: Start}\n      lit: "
                                   "{events_when_started: lit_now}\n"
         "    transitions:\n      - {source: start, target: lit, events: s_a_active}\n      - source: lit\n        "
         "target: start\n"
         "        events: s_b_active\n        events_when_transitioning: done\n",
         logged(START, press("s_b", 500), press("s_a", 1000), press("s_a", 1500), press("s_b", 2000)),
         ("1000 event lit_now", "2000 event done"), ("500 event done", "1500 event lit_now"),
         features=("state_machines",)),
    Play("settings of shots", GAME,
         logged(START, press("s_a", 1000), press("s_b", 2000), press("s_c", 3000), press("s_d", 4000)),
         ("1000 event x_hit", "2000 event x_hit", "4000 event y_hit"), ("3000 event y_hit",), {
             "m": "mode: {start_events: ball_started}\nshots:\n  x: {switches: 's_a, s_b'}\n"
                  "  y: {hit_events: 's_c_active, s_d_active', start_enabled: no, enable_events: s_c_active}\n"},
         ("shots.switches", "shots.start_enabled")),
)
BALL_PLAYS = (
    Play("a ball hold", BALLS + MANUAL + "  bd_hole: {ball_switches: s_hole, eject_coil: c_hole}\n"
         "ball_holds:\n  h: {hold_devices: bd_hole, enable_events: s_a_active, disable_events: s_b_active, "
         "release_one_events: s_launch_active}\n",
         logged(IN_PLAY, "6000 s_hole 1\n", press("s_launch", 9000), "9100 s_hole 0\n", press("s_b", 11000),
                "12000 s_hole 1\n12600 s_hole 0\n", "20000"),
         ("6500 event balldevice_bd_hole_ball_enter", "9000 coil c_hole pulse 12 1000",
          "12500 coil c_hole pulse 12 1000"),
         ("6500 coil c_hole pulse 12 1000",), features=("ball_holds",)),
    Play("a ball hold that nothing disables",
         BALLS + MANUAL + "  bd_hole: {ball_switches: s_hole, eject_coil: c_hole}\n"
         "ball_holds:\n  h: {hold_devices: bd_hole, enable_events: s_a_active, release_one_events: s_launch_active}\n",
         logged(IN_PLAY, "6000 s_hole 1\n", press("s_launch", 9000), "9100 s_hole 0\n12000 s_hole 1\n20000"),
         ("6500 event balldevice_bd_hole_ball_enter", "9000 coil c_hole pulse 12 1000",
          "12500 event balldevice_bd_hole_ball_enter"),
         ("6500 coil c_hole pulse 12 1000", "12500 coil c_hole pulse 12 1000")),
    Play("an extra ball", BALLS + MANUAL + "extra_balls:\n  eb: {award_events: s_b_active, max_per_game: 1}\n",
         logged(IN_PLAY, press("s_b", 6000), "7000 s_trough 1\n8000 s_trough 0\n9000 s_plunger 1\n10000 s_plunger 0\n",
                press("s_b", 11000), "12000 s_trough 1\n", "14000"),
         ("6000 event extra_ball_eb_awarded", "7500 event ball_drain", "12500 event ball_drain",
          "12500 event ball_ended"),
         ("7500 event ball_ended", "11000 event extra_ball_eb_awarded"), features=("extra_balls",)),
    Play("another ball save comes before an extra ball",
         BALLS + MANUAL + "ball_saves:\n  s: {active_time: 20s, enable_events: ball_started}\n"
         "extra_balls:\n  eb: {award_events: s_b_active}\n",
         logged(IN_PLAY, press("s_b", 6000), "7000 s_trough 1\n", "9000"),
         ("7500 event ball_save_s_saving_ball",), ("7500 event ball_save_extra_ball_eb_saving_ball",)),
    Play("an extra ball that is lit", BALLS + MANUAL + "extra_balls:\n  eb: {light_events: s_a_active, group: g}\n"
         "extra_ball_groups:\n  g: {award_lit_events: s_b_active}\n",
         logged(IN_PLAY, press("s_b", 6000, 6500)), ("6000 event extra_ball_g_awarded",),
         ("6500 event extra_ball_g_awarded",),
         features=("extra_ball_groups",)),
    Play("a tilt", BALLS + MANUAL,
         logged(IN_PLAY, press("s_b", 5500), press("s_bob", 6000, 6100, 7000, 8000), press("s_b", 8500),
                                         press("s_a", 8600), "9000 s_trough 1\n", "12000"),
         ("5500 coil c_flipper pulse 30 1000", "6000 event tilt_warning", "7000 event tilt_warning", "8000 event tilt",
          "9500 event ball_ended"),
         ("6100 event tilt_warning", "8500 coil c_flipper pulse 30 1000", "8600 player 1 score 20",
          "9500 event mode_bonus_started"),
         {"tilt": "tilt: {warnings_to_tilt: 3, multiple_hit_window: 300ms}\n",
          "base": "mode: {start_events: ball_started}\nvariable_player:\n  s_a_active: {score: 10}\n",
          "bonus": "mode: {start_events: ball_ending, stop_events: timer_b_complete, use_wait_queue: yes}\n"
                   "timers:\n  b: {end_value: 1, start_running: yes}\n"}, ("tilt",)),
    Play("a bonus without a tilt", BALLS + MANUAL, logged(IN_PLAY, "9000 s_trough 1\n", "12000"),
         ("9500 event mode_bonus_started", "10500 event ball_ended"), (),
         {"tilt": "tilt: {warnings_to_tilt: 3}\n",
          "bonus": "mode: {start_events: ball_ending, stop_events: timer_b_complete, use_wait_queue: yes}\n"
                   "timers:\n  b: {end_value: 1, start_running: yes}\n"}),
    Play("MPF's own tilt", "modes: [tilt]\n" + BALLS + MANUAL,
         logged(IN_PLAY, press("s_bob", 6000, 7000, 8000), press("s_b", 8500)),
         ("6000 event tilt_warning", "7000 event tilt_warning", "8000 event tilt"),
         ("8500 coil c_flipper pulse 30 1000",), features=("tilt", "own mode of MPF")),
    Play("a slam tilt", BALLS + MANUAL, logged(IN_PLAY, press("s_slam", 6000), press("s_b", 7000)),
         ("6000 event slam_tilt", "6000 event tilt"), ("7000 coil c_flipper pulse 30 1000",),
         {"tilt": "tilt:\n  warnings_to_tilt: 3\n"}),
    Play("a plunger that the player fires", BALLS + FIRED,
         logged("0 s_trough 1\n1000 s_start 1\n1050 s_start 0\n2000 s_trough 0\n3000 s_plunger 1\n",
                press("s_launch", 5000), "5100 s_plunger 0\n7000\n"),
         ("5000 coil c_plunger pulse 15 1000", "5600 balls 1 0 1 0"), ("3500 coil c_plunger pulse 15 1000",),
         features=("ball_devices.player_controlled_eject_event",)),
    Play("a saved ball is launched",
         BALLS + FIRED + "ball_saves:\n  s: {active_time: 8s, grace_period: 2s, auto_launch: yes, "
         "enable_events: ball_started, timer_start_events: balldevice_bd_plunger_ball_eject_success}\n",
         logged("0 s_trough 1\n1000 s_start 1\n1050 s_start 0\n2000 s_trough 0\n3000 s_plunger 1\n",
                press("s_launch", 5000), "5100 s_plunger 0\n",
                press("s_a", 6000), "9000 s_trough 1\n10000 s_trough 0\n11000 s_plunger 1\n12000 s_plunger 0\n",
                press("s_a", 13000),
                "14000 s_trough 1\n", "16000"),
         ("6000 event ball_save_s_enabled", "9500 event ball_save_s_saving_ball", "11500 coil c_plunger pulse 15 1000",
          "14500 event ball_ended"),
          features=("ball_saves.auto_launch", "ball_saves.timer_start_events", "ball_saves.grace_period")),
    Play("a multiball saves its balls",
         BALLS + MANUAL + "multiballs:\n  two: {ball_count: 1, ball_count_type: add, start_events: s_b_active, "
                          "shoot_again: 5s}\n",
         logged(IN_PLAY, press("s_b", 6000), "20000"),
         ("6000 event multiball_two_started", "6000 event ball_save_two_shoot_again_enabled",
          "11000 event ball_save_two_shoot_again_disabled"),
         features=("multiballs.shoot_again", "multiballs.ball_count_type")),
)
MODE = "mode: {start_events: s_a_active, stop_events: s_b_active, game_mode: no}\n"
STATES = """state_machines:
  quest:
    states:
      start: {events_when_started: at_start, events_when_stopped: leaves_start}
      lit: {events_when_started: 'lit_now, lit_later|1s', events_when_stopped: leaves_lit}
    transitions:
      - {source: start, target: lit, events: s_c_active}
      - {source: 'start, lit', target: start, events: s_d_active}
"""
MORE_PLAYS = (
    Play("a delay in the second ball",
         BALLS + MANUAL + "event_player:\n  ball_started: later|1s\n  s_b_active: soon|3s\n",
         logged(IN_PLAY, press("s_b", 6000), SECOND, press("s_b", 12000), "16000"),
         ("2000 event later", "7500 event ball_ended", "8500 event later", "9000 event soon", "15000 event soon")),
    Play("a delay of a delayed event", GAME + "event_player:\n  s_a_active|1s: later\n  later: last|1s\n",
         logged(press("s_a", 1000), "4000"), ("2000 event later", "3000 event last"), features=("a: b|2s",)),
    Play("a state machine in a mode", GAME, logged(START, press("s_a", 1000), press("s_c", 2000), press("s_d", 3000),
                                                   press("s_c", 4000), press("s_b", 5000), press("s_a", 6000), "7000"),
         ("1000 event at_start", "2000 event leaves_start", "2000 event lit_now", "3000 event lit_later",
          "3000 event leaves_lit", "3000 event at_start", "4000 event lit_now", "5000 event lit_later",
          "6000 event at_start"), ("3000 event leaves_start",), {"m": MODE.replace("no", "yes") + STATES}),
    Play("a state machine that goes on", GAME,
         logged(START, press("s_a", 1000), press("s_c", 2000), press("s_b", 3000), press("s_a", 4000),
                press("s_d", 5000)),
         ("1000 event at_start", "2000 event lit_now", "5000 event leaves_lit"), ("4000 event at_start",),
         {"m": MODE.replace("no", "yes") + STATES.replace("quest:\n", "quest:\n    persist_state: yes\n")}),
    Play("the first state of the machine", GAME + STATES, logged(START, press("s_c", 1000)),
         ("100 event at_start", "1000 event leaves_start", "1000 event lit_now")),
    Play("two ball holds of one device", BALLS + MANUAL + "  bd_hole: {ball_switches: s_hole, eject_coil: c_hole}\n"
         "ball_holds:\n  one: {hold_devices: bd_hole, enable_events: s_a_active, disable_events: s_b_active}\n"
         "  two: {hold_devices: bd_hole, enable_events: s_b_active, disable_events: s_launch_active, "
         "release_one_events: s_slam_active}\n",
         logged(IN_PLAY, "6000 s_hole 1\n", press("s_slam", 8000), "8100 s_hole 0\n", press("s_b", 9000),
                "10000 s_hole 1\n", press("s_slam", 12000), "12100 s_hole 0\n", press("s_launch", 13000),
                "14000 s_hole 1\n16000"),
         ("8000 coil c_hole pulse 12 1000", "12000 coil c_hole pulse 12 1000", "14500 coil c_hole pulse 12 1000"),
         ("6500 coil c_hole pulse 12 1000", "10500 coil c_hole pulse 12 1000")),
    Play("an extra ball with a condition",
         BALLS + MANUAL + "extra_balls:\n  eb: {award_events: 's_b_active{current_player.x == 1}', max_per_game: 1}\n"
         "variable_player:\n  s_launch_active: {x: 1}\n",
         logged(IN_PLAY, press("s_b", 5500), press("s_launch", 6000), press("s_b", 6500, 7000)),
         ("6500 event extra_ball_eb_awarded",),
         ("5500 event extra_ball_eb_awarded", "7000 event extra_ball_eb_awarded")),
    Play("a group of extra balls that awards one",
         BALLS + MANUAL + "extra_ball_groups:\n  g: {award_events: s_b_active}\n",
         logged(IN_PLAY, press("s_b", 6000)), ("6000 event extra_ball_g_awarded",)),
    Play("warnings that are taken back", BALLS + MANUAL,
         logged(IN_PLAY, press("s_bob", 6000), press("s_launch", 7000), press("s_bob", 8000, 9000)),
         ("9000 event tilt",), ("8000 event tilt",),
         {"tilt": "tilt: {warnings_to_tilt: 2, reset_warnings_events: s_launch_active}\n"}),
    Play("drop targets of several coils", GAME + TARGETS.replace("two: {switch: s_b, reset_coil: c_a}",
                                                                "two: {switch: s_b, reset_coil: c_hold}") +
         "drop_target_banks:\n  bank: {drop_targets: 'one, two', reset_coils: c_a}\n", START,
         ("100 coil c_a pulse 20 1000", "100 coil c_hold pulse 10 1000")),
    Play("a drop target that the ball raises", GAME + "drop_targets:\n  one: {switch: s_a, reset_coil: c_a}\n", START,
         ("100 coil c_a pulse 20 1000",)),
    Play("a diverter of two coils",
         GAME + "diverters:\n  d: {activation_coil: c_hold, deactivation_coil: c_a, activate_events: s_a_active, "
         "deactivate_events: s_b_active}\n", logged(press("s_a", 1000), press("s_b", 2000)),
         ("1000 coil c_hold enable 250", "2000 coil c_hold disable", "2000 coil c_a pulse 20 1000")),
    Play("a diverter that ends with its mode", GAME, logged(press("s_a", 1000), press("s_c", 2000), press("s_b", 3000)),
         ("2000 coil c_hold enable 250", "3000 coil c_hold disable"), (),
         {"m": MODE + "diverters:\n  d: {activation_coil: c_hold, activate_events: s_c_active}\n"}),
    Play("two buttons, and an event after a time",
         GAME + "combo_switches:\n  c: {switches_1: s_a, switches_2: s_b, events_when_both: 'both, late|1s'}\n",
         "1000 s_a 1\n1200 s_b 1\n4000 s_a 0\n4100 s_b 0\n", ("1200 event both", "2200 event late")),
    Play("lists of coils", GAME + "coil_player:\n  s_a_active: [c_a, c_hold]\n  s_b_active:\n    - c_a\n"
         "    - c_hold: {action: enable}\n  s_c_active: {c_a: 8ms}\n",
         logged(press("s_a", 1000), press("s_b", 2000), press("s_c", 3000)),
         ("1000 coil c_a pulse 20 1000", "1000 coil c_hold pulse 10 1000", "2000 coil c_a pulse 20 1000",
          "2000 coil c_hold enable 250", "3000 coil c_a pulse 8 1000")),
    Play("events of a list of mappings in turn", GAME + "random_event_player:\n  s_a_active:\n    scope: player\n"
         "    events:\n      - one: 5\n      - two\n",
         logged(START, press("s_a", 1000, 2000, 3000)), ("1000 event one", "2000 event two", "3000 event one")),
    Play("files that are joined", "config: more.yaml\n" + GAME + "event_player:\n  s_a_active: one\n",
         logged(press("s_a", 1000), press("s_b", 2000)), ("1000 event one", "2000 event two"),
         features=("config", "section twice"), files={"config/more.yaml": "event_player:\n  s_b_active: two\n"}),
    Play("a folder in capitals", "modes: [m]\n" + GAME, logged(press("s_a", 1000)), ("1000 event mode_m_started",),
         features=("letter case",), files={"modes/M/Config/m.YAML": MODE}),
    Play("other spellings",
         GAME.replace("s_d: {number: 5, debounce: quick}", "s_d: {number: 5, debounce: no, type: nc}"),
         logged("1000 s_d 1\n2000 s_d 0\n"), ("2000 event s_d_active",), features=("other spelling",)),
    Play("a coil of two windings", GAME + "dual_wound_coils:\n  c_both: {main_coil: c_a, hold_coil: c_hold}\n"
         "flippers:\n  f: {main_coil: c_both, activation_switch: s_a}\n", logged(START, press("s_a", 1000)),
         ("1000 coil c_a pulse 20 1000", "1000 coil c_hold enable 250", "1020 coil c_hold disable"),
         features=("dual_wound_coils",)),
    Play("a coil that one flipper drives less", GAME + "flippers:\n  f: {main_coil: c_a, hold_coil: c_hold, "
         "activation_switch: s_a, main_coil_overwrite: {pulse_ms: 8}, hold_coil_overwrite: {hold_power: 1}}\n",
         logged(START, press("s_a", 1000)), ("1000 coil c_a pulse 8 1000", "1000 coil c_hold enable 125")),
    Play("logic blocks", GAME + "logic_blocks:\n  counters:\n    n: {count_events: s_a_active, "
         "count_complete_value: 2, player_variable: hits, count_interval: 2}\n", logged(START, press("s_a", 1000)),
         ("1000 player 1 hits 2", "1000 event logicblock_n_complete"),
         features=("logic_blocks", "counters.player_variable")),
    Play("a ball that comes", BALLS + MANUAL + "event_player:\n  balldevice_bd_plunger_ball_entered: there\n", IN_PLAY,
         ("3500 event there",), features=("renamed events",)),
    Play("events of shots", GAME, logged(START, press("s_a", 1000, 1500), press("s_c", 2000), press("s_a", 2500),
                                         press("s_d", 3000), press("s_a", 3500)),
         ("1000 event x_unlit_hit", "1500 event x_lit_hit", "2500 event x_unlit_hit", "3500 event x_unlit_hit"), (),
         {"m": "mode: {start_events: ball_started}\nshots:\n  x:\n    switch: s_a\n    restart_events: s_d_active\n"
               "    control_events:\n      - {events: s_c_active, state: 0}\n"},
         ("shots.restart_events", "shots.control_events")),
    Play("events of a group", GAME, logged(START, press("s_a", 1000), press("s_c", 2000), press("s_a", 2500)),
         ("2500 event x_hit",), ("1000 event x_hit",),
         {"m": "mode: {start_events: ball_started}\nshots:\n  x: {switch: s_a}\n"
               "shot_groups:\n  g: {shots: x, enable_events: s_c_active}\n"}, ("shot_groups.enable_events",)),
    Play("what only a lost event enables", GAME, logged(START, press("s_a", 1000)),
         ("1000 event s_a_active",), ("1000 event x_hit", "1000 event logicblock_n_hit"),
         {"m": "mode: {start_events: ball_started}\nshots:\n  x: {switch: s_a, enable_events: (name)_go}\n"
               "counters:\n  n: {count_events: s_a_active, enable_events: 'go{ticks == 3}'}\n"}),
    Play("a coil that only a lost event disables",
         "game: {balls_per_game: 1}\n" + BALLS + MANUAL +
         "autofire_coils:\n  a: {coil: c_hole, switch: s_a, disable_events: (name)_stop}\n",
         logged(IN_PLAY, press("s_a", 6000), "7000 s_trough 1\n", press("s_a", 12000)),
         ("6000 coil c_hole pulse 12 1000", "7500 event ball_ended"), ("12000 coil c_hole pulse 12 1000",)),
    Play("another tag of the start button", GAME.replace("tags: start", "tags: begin") +
         "game: {start_game_switch_tag: begin}\n", START, ("100 event game_started",),
         features=("game.start_game_switch_tag",)),
    Play("a machine without a section game", GAME, START, ("100 event game_started",), features=("no game",)),
    Play("long names", GAME + TARGETS.replace("one", "o" * 58).replace("two", "t" * 58) +
         f"drop_target_banks:\n  {'b' * 60}:\n    drop_targets: {'o' * 58}, {'t' * 58}\n    reset_coils: c_a\n"
         f"    reset_on_complete: 1s\nkickbacks:\n  {'k' * 60}: {{coil: c_hold, switch: s_c}}\n",
         logged(START, press("s_c", 500), press("s_a", 1000), press("s_b", 2000), "4000"),
         ("500 coil c_hold pulse 10 1000", "3000 coil c_a pulse 20 1000"), features=("bad name",)),
)
PLAYS = (*DELAYS, *CONDITIONS, *LISTS, *COILS, *PLAYFIELD, *BALL_PLAYS, *MORE_PLAYS)
