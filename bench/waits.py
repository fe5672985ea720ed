"""Logs that only wait, and configurations to play them on."""
from collections.abc import Iterator

from measuring import MIB
from texts import VERSION

SWITCHES = (1, 256)


def switches(count: int) -> Iterator[str]:
    """So many switches, to none of which anything happens."""
    yield VERSION + "switches:\n"
    for n in range(count):
        yield f"  s_{n}:\n    number: {n}\n"


def log(size: int = 16 * MIB) -> str:
    """Moments one millisecond apart, a line each, at most so many bytes."""
    parts, length, at = [], 0, 0
    while (length := length + len(f"{at}\n")) <= size:
        parts.append(f"{at}\n")
        at += 1
    return "".join(parts)
