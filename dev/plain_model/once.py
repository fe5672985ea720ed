"""What is compared once in each run: odd texts and values, tables at their limits, odd certificates and log lines.

Of drawn machines only some would have one of them, and a rule that a single text shows would rarely be tried."""
from collections.abc import Iterator

from . import odd, rules
from .bundle import MACHINE_TEXT, VERSION
from .damage import HEADERS, ODD_LINES, ODD_NUMBERS
from .logs import BAD_LINES, TOO_LATE
from .machine import LAST_MOMENT
from .plan import LIMITS
from .values import LIST_LIMIT
from .yaml_text import TEXT_LIMIT

Question = tuple[str, bytes, bytes]  # a command, a bundle, and a certificate or a log
# A setting of each kind of value, and the text that it is in: name, integer, time, power, boolean, lists.
SETTINGS = [
    "flippers: {f: {main_coil: c, activation_switch: s, hold_coil: %s}}",
    "counters: {c: {count_events: a, starting_count: %s}}",
    "counters: {c: {count_events: a, multiple_hit_window: %s}}",
    "coils: {c: {max_pulse_ms: %s}}",
    "coils: {c: {max_hold_power: %s}}",
    "coils: {c: {allow_enable: %s}}",
    "shots: {x: {hit_events: %s}}",
    "event_player: {a: %s}",
    "event_player: {%s: a}",
    "modes: %s",
    "switches: {%s: {}}",
]
SMALL = "switches:\n  s: {debounce: quick}\n  t: {debounce: quick}\nevent_player:\n  s_active: a b\n  a: b"
BOUNDS = ["bound 3", "bound 6", "bound 100001", "bound 4294967295"]


def machine(text: str) -> bytes:
    return f"@ {MACHINE_TEXT}\n{VERSION}\n{text}".encode()


def quoted(value: str) -> str:
    """A value in single quotes, in which all but a quote is as it is written."""
    return "'" + value.replace("'", "''") + "'"


def texts() -> Iterator[str]:
    yield from odd.TEXTS
    yield from odd.SAVE_TEXTS
    yield from rules.MACHINES
    for value in odd.VALUES:
        yield from (setting % quoted(value) for setting in SETTINGS)


def tables(table: str, count: int) -> str:
    """A text in which a table has so many entries."""
    names = [f"z{number}" for number in range(count)]
    if table in ("switches", "coils"):
        return f"{table}:\n" + "".join(f"  {name}:\n" for name in names)
    if table == "variables":
        return "variable_player: {a: {" + ", ".join(f"{name}: 1" for name in names) + "}}"
    if table == "rows":
        return "sequences:\n" + "".join(f"  {name}: {{events: ''}}\n" for name in names)
    if table == "events":
        return "event_player:\n" + "".join(f"  {name}:\n" for name in names)
    lists = [["e"] * min(LIST_LIMIT, count - start) for start in range(0, count, LIST_LIMIT)]
    return "shots:\n" + "".join(f"  x{at}: {{reset_events: '{' '.join(names)}'}}\n" for at, names in enumerate(lists))


def dear(more: int) -> Iterator[str]:
    """Texts in which a weight is the limit, 100,000, or more; and the same of a bound."""
    for event, lines in (("a", 144), ("s_active", 143)):
        posts = " ".join(["b"] * 315 + ["c"] * (lines + more))
        yield f"switches: {{s: {{}}}}\nevent_player: {{{event}: '{posts}', b: '{' '.join(['c'] * 316)}'}}"


def limits() -> Iterator[bytes]:
    """Tables, a list, the modes, a text, a weight and a bound at their limits, and one above it."""
    for more in (0, 1):
        yield from map(machine, dear(more))
        yield from (machine(tables(table, limit + more)) for table, limit in LIMITS.items())
        yield machine("event_player: {a: '" + "b " * (LIST_LIMIT + more) + "'}")
        yield machine("event_player: {a: [" + "b, " * (LIST_LIMIT - 1 + more) + "[]]}")
        yield machine("modes: " + " ".join(f"m{number}" for number in range(64 + more)))
        head = f"{VERSION}\n#"
        yield f"@ {MACHINE_TEXT}\n{head}".encode() + b"x" * (TEXT_LIMIT - len(head) - 1 + more) + b"\n"


def certificates(right: bytes) -> Iterator[bytes]:
    """The right certificate with another line in each place, another number, or with a part of its lines."""
    lines = right.decode().splitlines()
    changed: list[list[str]] = [[header, *lines[1:]] for header in HEADERS]
    for at, line in enumerate(lines):
        changed += [lines[:at], lines[:at] + lines[at + 1 :], [*lines[:at], line, *lines[at:]]]
        changed += [[*lines[:at], other, *lines[at + 1 :]] for other in ODD_LINES]
        front = line.rpartition(" ")[0]
        changed += [[*lines[:at], f"{front} {number}", *lines[at + 1 :]] for number in ODD_NUMBERS]
        changed += [[lines[0], bound, *lines[2:at], f"{front} 7", *lines[at + 1 :]] for bound in BOUNDS if at > 1]
        changed += [[*lines[:at], *lines[at + 1 : at + 2], line, *lines[at + 2 :]]]
    without = [line for line in lines[1:] if not line.startswith("switch ")]
    changed += [["pinball-certificate 1", *without], ["pinball-certificate 1", *lines[1:]], [*without]]
    yield from ("".join(f"{line}\n" for line in some).encode() for some in changed)
    yield right[:-1]
    yield right.replace(b"\n", b"\r\n")


def log() -> bytes:
    """Lines of a log that are refused, and the last moments of one."""
    lines = [line.replace("{s}", "s") for line in (*BAD_LINES, "", "#", "#5 s 1", "5 s 1", "5 t 0", "4 s 0", "4", "5")]
    lines += [f"{moment} s 0" for moment in (*TOO_LATE, LAST_MOMENT, LAST_MOMENT + 1, LAST_MOMENT - 1)]
    return "".join(f"{line}\n" for line in lines).encode()


def questions(certificate: bytes) -> Iterator[Question]:
    """All that is compared once. The certificate is the right one of SMALL."""
    for text in texts():
        yield "check", machine(text), b""
    for bundle in (*(text.encode() for text in rules.BUNDLES), *limits()):
        yield "check", bundle, b""
    for text in certificates(certificate):
        yield "verify", machine(SMALL), text
    yield "play", machine(SMALL), log()
    yield "play", machine(SMALL), log().replace(b"\n", b"\r\n")
    yield "play", machine(SMALL), log()[:-1]
