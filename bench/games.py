"""Logs of games that go on and on: two players, ball after ball. The machine has the switches s_start, s_trough_1,
s_trough_2 and s_plunger, as that of examples/complete has."""
import random
from collections.abc import Iterator

# What the ball and the players hit of examples/complete.
COMPLETE = ["s_left_button", "s_right_button", "s_left_sling", "s_right_sling", "s_lane_left", "s_lane_right", "s_ramp"]
COMPLETE += ["s_drop_1", "s_drop_2", "s_drop_3"]
# The sections of examples/complete that are left out: in these games one ball is in play, and a ball that drains has
# drained. The plain program has neither section.
WITHOUT = ("ball_saves", "multiballs")
# How often the ball and the players hit something before the ball drains: about once in 30 ms.
HITS = 2000
START = 500  # ms in which the start button is pressed twice
PLUNGE = 2000  # from leaving the trough to the first hit
DRAIN = 1000  # until the next ball leaves the trough, or the next game begins


def log(switches: list[str], balls: int, size: int) -> str:
    """The first lines of such games, at most so many bytes. Each player has so many balls, and these switches are
    hit."""
    parts, length = [], 0
    for line in games(switches, balls):
        length += len(line)
        if length > size:
            break
        parts.append(line)
    return "".join(parts)


def games(switches: list[str], balls: int) -> Iterator[str]:
    draw, levels, at = random.Random(13), dict.fromkeys(switches, 0), DRAIN
    yield "0 s_trough_1 1\n0 s_trough_2 1\n"
    while True:
        yield "".join(f"{at + START * n // 4} s_start {1 - n % 2}\n" for n in range(4))
        at += START
        for _ in range(2 * balls):
            yield f"{at} s_trough_1 0\n{at + 600} s_plunger 1\n{at + 1200} s_plunger 0\n"
            at += PLUNGE
            at = yield from hits(draw, levels, at)
            yield f"{at} s_trough_1 1\n"
            at += DRAIN


def hits(draw: random.Random, levels: dict[str, int], at: int) -> Iterator[str]:
    """Changes of these switches from a time on. Gives the time of the last."""
    names = list(levels)
    for _ in range(HITS):
        name = draw.choice(names)
        levels[name] ^= 1
        at += draw.randrange(5, 60)
        yield f"{at} {name} {levels[name]}\n"
    return at
