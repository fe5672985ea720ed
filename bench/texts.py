"""Texts to measure: an ordinary configuration, and texts that somebody made to cost time.

Sizes are in bytes: all is ASCII."""
import random
from collections.abc import Iterator

from measuring import MIB

VERSION = "#config_version=6\n"
# What an ordinary configuration of 1 MiB has besides the lights that fill it.
SWITCHES = 250
PLAYERS = 2400
EFFECTS = 600  # the events that the event players post
DEPTH = 1440  # lines, each a space deeper than the one before, that are nearly 1 MiB


def switches(draw: random.Random, count: int) -> Iterator[str]:
    yield "switches:\n"
    for n in range(count):
        yield f"  # board {n // 16}, pin {n % 16}\n"
        yield f"  s_target_{n}:\n    number: {n // 16}-{n % 16}\n"
        if n % 3 == 0:
            yield f"    label: 'Target {n}, the player''s left'\n"
        if n % 4 == 1:
            yield "    type: NC   # opto\n"
        if n % 5 == 2:
            yield "    debounce: quick\n"
        tags = draw.sample(["lane", "bank", "upper", "lower", "target"], draw.randrange(1, 4))
        yield f"    tags: {', '.join(tags)}\n"
        if n % 7 == 3:
            yield f"    events_when_activated: [hit_{n}, any_hit]\n"
        if n % 7 == 5:
            yield f"    events_when_deactivated:\n      - left_{n}\n      - any_left\n"


def event_player(draw: random.Random, count: int, effects: int) -> Iterator[str]:
    yield "event_player:\n"
    posts = [f"show_effect_{n}" for n in range(effects)]
    for n in range(count):
        chosen = draw.sample(posts, draw.randrange(2, 7))
        if n % 3 == 0:
            yield f"  happens_{n}: {', '.join(chosen)}\n"
        elif n % 3 == 1:
            yield f"  happens_{n}: [{', '.join(chosen)}]\n"
        else:
            yield f"  happens_{n}:\n" + "".join(f"    - {post}\n" for post in chosen)


def light(draw: random.Random, n: int) -> str:
    return (
        f"  l_insert_{n}:\n    number: {n}\n    subtype: led\n"
        f"    position: {{x: {draw.randrange(1000)}, y: {draw.randrange(1000)}, z: 0}}\n"
        f'    label: "Insert {n}"   # seen from the player\n'
        f"    tags: [insert, group_{n % 40}]\n"
    )


def lights(draw: random.Random, size: int) -> Iterator[str]:
    """As many lights as fit into so many bytes."""
    part, n = "lights:\n", 0
    while len(part) <= size:
        yield part
        size -= len(part)
        part = light(draw, n)
        n += 1


def ordinary(part: int = 1) -> str:
    """A configuration as a builder writes it, of at most 1 MiB; or one `part`-th of it, with the same mix of
    sections."""
    draw = random.Random(6)
    count = SWITCHES // part
    front = VERSION + f"# a machine of {count} switches\n" + "".join(switches(draw, count))
    front += "".join(event_player(draw, PLAYERS // part, EFFECTS // part))
    return front + "".join(lights(draw, MIB // part - len(front)))


def filled(front: str, unit: str, size: int) -> str:
    return (front + unit * (size // len(unit) + 1))[:size]


def keys(size: int) -> str:
    """As many keys as fit into so many bytes, no two of which are equal."""
    parts, length, n = [VERSION + "lights:\n"], 0, 0
    while length < size:
        parts.append(f"  a{n}:\n")
        length += len(parts[-1])
        n += 1
    return "".join(parts)[:size].rsplit("\n", 1)[0] + "\n"


def hostile(part: int = 1) -> dict[str, str]:
    """Texts of 1 MiB, or of one `part`-th of it, each made of one thing."""
    size = MIB // part
    return {
        "opening brackets": filled(VERSION + "lights: ", "[", size),
        "opening brackets, a line each": filled(VERSION + "lights:\n", "- [\n", size),
        "one key with a digit more": keys(size),
        "spaces": filled(VERSION, " ", size),
        "nested items": filled(VERSION + "lights: \n", "- ", size),
        "quotes": filled(VERSION + "lights: ", '"', size),
        "single quotes": filled(VERSION + "lights: ", "'", size),
        "one flow list": filled(VERSION + "lights: [", "a,", size - 1) + "]",
        "colons": filled(VERSION + "lights: ", ":", size),
        "deeper lines": VERSION + "".join(" " * n + "a:\n" for n in range(int(DEPTH / part**0.5))),
    }


def uses(names: list[str]) -> str:
    """Posts of these names, 1,000 to an entry, as many as fit into 1 MiB."""
    parts, length = [VERSION + "event_player:\n"], 0
    for row, name in enumerate(names):
        posts = " ".join(names[(row * 7 + post) % len(names)] for post in range(1000))
        parts.append(f" {name}: {posts}\n")
        length += len(parts[-1])
        if length + len(parts[-1]) > MIB - len(parts[0]):
            break
    return "".join(parts)


def bundle(text: str) -> bytes:
    """A bundle of one text."""
    return ("@ config/config.yaml\n" + text).encode()
