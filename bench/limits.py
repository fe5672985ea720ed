"""A machine at the limits of the plan: a game with 64 modes, 256 switches, 256 coils, 1,024 devices, some 4,000 events
and some 16,000 bindings."""
import random
from collections.abc import Iterator

import stacked
from texts import VERSION

BALLS = 3  # of each of two players
MODES = 64
# Targets are switches that the ball hits. Of these the first have a slingshot each, and the last are in holes.
TARGETS = 250
SLINGSHOTS = 96
HOLES = 12
COILS = 250
COUNTERS = 144  # of the machine itself
VARIABLES = 240
PLAYERS = 205  # the entries of a mode's event player
LIGHTS = 9  # the events that they post
BUTTONS = ("s_left", "s_right")
HIT = range(TARGETS - HOLES)
QUIETLY = "    events_when_hit: hit\n    events_when_complete: done\n    disable_on_complete: no\n"
IN_PLAY = "    enable_events: ball_started\n    disable_events: ball_ending\n"


def switches() -> list[str]:
    """Those that a ball and the players hit. A ball never lies in a hole."""
    return [f"s_{n}" for n in HIT] + list(BUTTONS)


def machine() -> bytes:
    names = [f"m_{n}" for n in range(MODES)]
    text = VERSION + f"modes: {', '.join(names)}\n" + f"game:\n  balls_per_game: {BALLS}\n  max_players: 2\n"
    text += "".join(pins()) + "".join(moving()) + "".join(counters("of_machine", random.Random(14), COUNTERS))
    return stacked.bundle(text, {name: "".join(mode(n)) for n, name in enumerate(names)})


def pins() -> Iterator[str]:
    yield "switches:\n  s_start: {number: 250, tags: start}\n"
    for n, name in enumerate(("s_trough_1", "s_trough_2", "s_plunger", *BUTTONS)):
        yield f"  {name}: {{number: {251 + n}}}\n"
    for n in range(TARGETS):
        quick = ", debounce: quick" if n % 2 else ""
        yield f"  s_{n}: {{number: {n}{quick}, tags: playfield_active}}\n"
    yield "coils:\n  c_trough: {number: 250, default_pulse_ms: 20}\n  c_plunger: {number: 251, default_pulse_ms: 15}\n"
    yield "  c_left: {number: 252}\n  c_left_hold: {number: 253, allow_enable: yes}\n"
    yield "  c_right: {number: 254}\n  c_right_hold: {number: 255, allow_enable: yes}\n"
    for n in range(COILS):
        yield f"  c_{n}:\n    number: {n}\n    default_pulse_ms: {8 + n % 20}\n"


def moving() -> Iterator[str]:
    """What moves a ball."""
    yield "ball_devices:\n  trough:\n    ball_switches: s_trough_1, s_trough_2\n    eject_coil: c_trough\n"
    yield "    eject_targets: plunger\n    tags: trough, drain\n"
    yield "  plunger:\n    ball_switches: s_plunger\n    eject_coil: c_plunger\n    eject_timeouts: 3s\n"
    for n in range(HOLES):
        yield f"  hole_{n}:\n    ball_switches: s_{HIT.stop + n}\n    eject_coil: c_{SLINGSHOTS + n}\n"
    yield "flippers:\n"
    for side in ("left", "right"):
        yield f"  {side}:\n    main_coil: c_{side}\n    hold_coil: c_{side}_hold\n    activation_switch: s_{side}\n"
        yield IN_PLAY
    yield "autofire_coils:\n"
    for n in range(SLINGSHOTS):
        yield f"  slingshot_{n}:\n    coil: c_{n}\n    switch: s_{n}\n{IN_PLAY}"


def target(draw: random.Random) -> str:
    return f"s_{draw.choice(HIT)}_active"


def counters(name: str, draw: random.Random, count: int) -> Iterator[str]:
    yield "counters:\n"
    for n in range(count):
        yield f"  {name}_{n}:\n    count_events: {target(draw)}\n    count_complete_value: {2 + n % 9}\n{QUIETLY}"


def mode(number: int) -> Iterator[str]:
    """Every other mode runs while a ball is in play. The next one begins at the end of its quest, and runs for ten
    seconds."""
    draw = random.Random(number)
    stops = f"  stop_events: timer_clock_{number}_complete\n" if number % 2 else ""
    yield f"{VERSION}mode:\n  start_events: {'quest_' + str(number) if number % 2 else 'ball_started'}\n{stops}"
    yield f"  priority: {100 + 10 * (number % 7)}\n"
    yield from shots(number, draw)
    yield from counters(f"counter_{number}", draw, 3)
    yield from quests(number, draw)
    yield from players(number, draw)


def shots(number: int, draw: random.Random) -> Iterator[str]:
    """Two lanes, and a clock."""
    yield "shots:\n"
    for lane in range(2):
        yield f"  lane_{number}_{lane}: {{switch: s_{draw.choice(HIT)}}}\n"
    yield f"shot_groups:\n  lanes_{number}:\n    shots: lane_{number}_0, lane_{number}_1\n"
    yield "    rotate_left_events: s_left_active\n    rotate_right_events: s_right_active\n"
    yield f"    reset_events: lanes_{number}_lit_complete\n"
    yield f"timers:\n  clock_{number}:\n    start_value: 10\n    direction: down\n    start_running: yes\n"
    yield f"    control_events: [{{event: {target(draw)}, action: add, value: 2}}]\n"


def quests(number: int, draw: random.Random) -> Iterator[str]:
    """The first accrual is the one whose end begins the next mode."""
    yield "accruals:\n"
    for n in range(4):
        done = QUIETLY if n else QUIETLY.replace("done", f"quest_{number + 1}")
        yield f"  accrual_{number}_{n}:\n    events: [{target(draw)}, {target(draw)}, {target(draw)}]\n{done}"
    yield "sequences:\n"
    for n in range(3):
        yield f"  sequence_{number}_{n}:\n    events: [{target(draw)}, {target(draw)}]\n{QUIETLY}"


def players(number: int, draw: random.Random) -> Iterator[str]:
    """What a mode pulses, scores and posts. A quarter of the posts have a condition."""
    yield f"coil_player:\n  lanes_{number}_lit_complete:\n    c_{SLINGSHOTS + HOLES + number}: pulse\n"
    yield "variable_player:\n"
    for n, hit in enumerate(draw.sample(HIT, 8)):
        yield f"  s_{hit}_active:\n    score: {10 * (n + 1)}\n    v_{(8 * number + n) % VARIABLES}: {n + 1}\n"
    yield "event_player:\n"
    for n in range(PLAYERS):
        condition = "" if n % 4 else f"{{current_player.score > {100 * n}}}"
        event = f"s_{(7 * number + n) % len(HIT)}_{'active' if n % 2 else 'inactive'}"
        yield f"  {event}{condition}: light_{number}_{n % LIGHTS}\n"
