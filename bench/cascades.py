"""Configurations whose events feed each other, and logs to play on them."""
import random
from collections.abc import Iterator

from measuring import MIB
from texts import VERSION

# Of the configuration that is played: so many switches of each of three kinds.
EACH = 10
SWITCHES = 3 * EACH
FAN = 9  # the lights of a step of a long cascade
# Of the largest configuration that is checked.
EVENTS = 4096
POSTS = 16384
LAYERS = 5
LAYER_POSTS = 4
FANS = 64


def machine() -> Iterator[str]:
    """30 switches, 10 each whose activation leads to a cascade of 1, 10 and 100 events; every other one is quick."""
    yield VERSION + "switches:\n"
    for n in range(SWITCHES):
        yield f"  s_{n}:\n    number: {n}\n" + ("    debounce: quick\n" if n % 2 else "")
    yield "event_player:\n"
    for n in range(EACH, 2 * EACH):
        yield from cascade(n, 9, 0)
    for n in range(2 * EACH, SWITCHES):
        yield from cascade(n, 10, 89)


def cascade(n: int, steps: int, lights: int) -> Iterator[str]:
    """What follows the activation of a switch: a chain of steps, among which lights are dealt out."""
    yield f"  s_{n}_active: step_{n}_1\n"
    for k in range(1, steps + 1):
        posts = [f"step_{n}_{k + 1}"] if k < steps else []
        posts += [f"light_{n}_{k}_{m}" for m in range(min(FAN, lights - (k - 1) * FAN))]
        if posts:
            yield f"  step_{n}_{k}: {', '.join(posts)}\n"


def log(size: int = 16 * MIB) -> str:
    """Changes of the switches, at most so many bytes, 1 to 8 ms apart, so that some of them bounce."""
    draw = random.Random(9)
    levels, at, length, parts = [0] * SWITCHES, 0, 0, []
    while True:
        n = draw.randrange(SWITCHES)
        levels[n] ^= 1
        at += draw.randrange(1, 9)
        line = f"{at} s_{n} {levels[n]}\n"
        length += len(line)
        if length > size:
            return "".join(parts)
        parts.append(line)


def largest(part: int = 1) -> Iterator[str]:
    """One `part`-th of 4,096 events that post 16,384 events. A third of them are one chain. A third are five layers: an
    event of a layer posts four of the next one. Of the last third, 64 events post the others. Accepted: no weight is
    above the limit."""
    events, draw = EVENTS // part, random.Random(4)
    third = events // 3
    width = third // LAYERS
    layered = (LAYERS - 1) * width
    left = POSTS // part - (third - 1) - layered * LAYER_POSTS
    yield VERSION + "event_player:\n"
    yield from chain(third)
    yield from layers(draw, third, layered, width)
    yield from fans(draw, range(third + LAYERS * width, events), FANS // part, left)


def chain(count: int) -> Iterator[str]:
    """The first so many events, each of which but the last posts the next."""
    for n in range(count - 1):
        yield entry(n, [n + 1])


def layers(draw: random.Random, first: int, count: int, width: int) -> Iterator[str]:
    """So many events from the first, in layers of a width, each of which posts some of the next layer."""
    for n in range(first, first + count):
        below = n + width - (n - first) % width
        yield entry(n, [below + draw.randrange(width) for _ in range(LAYER_POSTS)])


def fans(draw: random.Random, events: range, count: int, posts: int) -> Iterator[str]:
    """The first so many of the events, which share so many posts of the others."""
    for n in events[:count]:
        yield entry(n, [draw.randrange(events[count], events.stop) for _ in range(posts // count)])


def entry(event: int, posts: list[int]) -> str:
    return f"  e_{event}: {', '.join(f'e_{post}' for post in posts)}\n"
