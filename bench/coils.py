"""A machine of coils to play: two flippers and four slingshots."""
import random

import texts
from texts import VERSION

SLINGSHOTS = 4
LINES = 1_000_000
BUTTONS = ("s_left", "s_right")
SLINGS = tuple(f"s_{n}" for n in range(SLINGSHOTS))
# After so many changes a ball is lost, and play begins again.
BALL = 2000


def machine() -> bytes:
    """The left flipper has a coil that lifts it and one that holds it up, and the right one has one coil for both. Each
    slingshot is an autofire coil. One switch enables all of them, and another one disables them."""
    switches = BUTTONS + SLINGS + ("s_start", "s_drain")
    of_switches = "".join(
        f"  {name}:\n    number: {n}\n    debounce: quick\n" for n, name in enumerate(switches)
    )
    coils = {"c_left": ["default_pulse_ms: 20", "max_pulse_ms: 30"], "c_hold": ["allow_enable: yes"]}
    coils["c_right"] = ["default_hold_power: 0.25"]
    for n in range(SLINGSHOTS):
        coils[f"c_sling_{n}"] = [f"default_pulse_ms: {8 + n}", "default_pulse_power: 0.75"]
    events = ["enable_events: s_start_active", "disable_events: s_drain_active"]
    flippers = {
        "f_left": ["main_coil: c_left", "hold_coil: c_hold", "activation_switch: s_left", *events],
        "f_right": ["main_coil: c_right", "activation_switch: s_right", *events],
    }
    slings = {f"a_{n}": [f"coil: c_sling_{n}", f"switch: {name}", *events] for n, name in enumerate(SLINGS)}
    return texts.bundle(
        f"{VERSION}switches:\n{of_switches}coils:\n{entries(coils)}flippers:\n{entries(flippers)}"
        f"autofire_coils:\n{entries(slings)}"
    )


def entries(settings: dict[str, list[str]]) -> str:
    return "".join(f"  {name}:\n" + "".join(f"    {line}\n" for line in lines) for name, lines in settings.items())


def log() -> str:
    """1,000,000 changes of the switches, 1 to 8 ms apart. So some slingshots are hit before their coils are ready."""
    draw = random.Random(11)
    levels, at, parts = dict.fromkeys(BUTTONS + SLINGS, 0), 0, []
    between = [("s_drain", 1), ("s_drain", 0), ("s_start", 1), ("s_start", 0)]
    for n in range(LINES):
        if n % BALL < len(between):
            name, level = between[n % BALL]
        else:
            name = draw.choice(BUTTONS + SLINGS)
            level = levels[name] = 1 - levels[name]
        at += draw.randrange(1, 9)
        parts.append(f"{at} {name} {level}\n")
    return "".join(parts)
