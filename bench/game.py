"""A game to play, in which each change of a switch carries out 100 actions on variables."""
import random
from collections.abc import Iterator

import texts
from texts import VERSION

SWITCHES = 10
LINES = 100_000
# So many actions are carried out at each change. Every fifth changes its variable. The others set theirs to the value
# that it has.
ACTIONS = 100
EVERY = 5
SUMS = range(EVERY, ACTIONS, EVERY)
# What the sums post is handled under these, in turn. The first is always met, the third from about the middle of the
# log on, and the others never.
CONDITIONS = ("ball == 1", "number >= 2", "sum_5 > 1000000", "sum_5 < -1000")


def machine() -> bytes:
    """A start button and 10 switches, all of them quick."""
    switches = "  s_start:\n    number: 99\n    debounce: quick\n    tags: start\n"
    switches += "".join(f"  s_{n}:\n    number: {n}\n    debounce: quick\n" for n in range(SWITCHES))
    changes = "".join(entry for n in range(SWITCHES) for level in range(2) for entry in entries(n, level))
    posts = "".join(f"  player_sum_{k}{{current_player.{condition(k)}}}: light_{k}\n" for k in SUMS)
    return texts.bundle(
        f"{VERSION}machine:\n  min_balls: 0\ngame:\n  max_players: 2\nswitches:\n{switches}"
        f"variable_player:\n{changes}event_player:\n{posts}"
    )


def condition(k: int) -> str:
    return CONDITIONS[k // EVERY % len(CONDITIONS)]


def entries(n: int, level: int) -> Iterator[str]:
    """What a switch does when it takes a level: half of the actions, the other half under a condition that is met by
    then, and some more under one that is not."""
    event = f"s_{n}_{('inactive', 'active')[level]}"
    actions = [action(n, level, k) for k in range(ACTIONS)]
    yield f"  {event}:\n" + "".join(actions[: ACTIONS // 2])
    yield f"  {event}{{current_player.level_{n} == {level}}}:\n" + "".join(actions[ACTIONS // 2 :])
    yield f"  {event}{{current_player.level_{n} != {level}}}:\n" + "".join(f"    sum_{k}: 1\n" for k in SUMS)


def action(n: int, level: int, k: int) -> str:
    if k == 0:
        return f"    level_{n}: {{int: {level}, action: set}}\n"
    if k in SUMS:
        return f"    sum_{k}: {10 * n + k if level else -n - 1}\n"
    return f"    same_{k}: {{int: {k}, action: set}}\n"


def log() -> str:
    """Two presses of the start button, and then 100,000 changes of the switches, 1 to 8 ms apart."""
    draw = random.Random(12)
    levels, at, parts = [0] * SWITCHES, 4, [f"{at} s_start {1 - at % 2}\n" for at in range(4)]
    for _ in range(LINES):
        n = draw.randrange(SWITCHES)
        levels[n] ^= 1
        at += draw.randrange(1, 9)
        parts.append(f"{at} s_{n} {levels[n]}\n")
    return "".join(parts)
