"""The text of a certificate, of version 1 or 2. Version 1 has no lines of switches."""
import re
from dataclasses import dataclass

VERSIONS = {"pinball-certificate 1": 1, "pinball-certificate 2": 2}
NUMBER = r"(0|[1-9][0-9]*)"


class BadLine(Exception):
    """The first line that is none of a certificate."""


@dataclass
class Certificate:
    """What a text says: names with numbers, in its order."""

    version: int
    bound: int
    switches: list[tuple[str, int]]
    events: list[tuple[str, int]]

    def text(self) -> str:
        lines = [f"pinball-certificate {self.version}", f"bound {self.bound}"]
        lines += [f"switch {name} {cost}" for name, cost in self.switches]
        lines += [f"event {name} {weight}" for name, weight in self.events]
        return "".join(f"{line}\n" for line in lines)


def number_of(pattern: str, line: str, at: int) -> re.Match[str]:
    found = re.fullmatch(pattern, line)
    if not found or int(found[found.re.groups]) >= 1 << 32:
        raise BadLine(at)
    return found


def read(data: bytes) -> Certificate:
    """Raises BadLine."""
    *lines, rest = data.decode("latin-1").split("\n")
    if not lines or lines[0] not in VERSIONS:
        raise BadLine(1)
    if len(lines) < 2:
        raise BadLine(2)
    bound = int(number_of(f"bound {NUMBER}", lines[1], 2)[1])
    found = Certificate(VERSIONS[lines[0]], bound, [], [])
    for at, line in enumerate(lines[2:], 3):
        kinds = "switch|event" if found.version == 2 and not found.events else "event"
        kind, name, number = number_of(rf"({kinds}) ([^ \t]+) {NUMBER}", line, at).groups()
        (found.switches if kind == "switch" else found.events).append((name, int(number)))
    if rest:
        raise BadLine(len(lines) + 1)
    return found
