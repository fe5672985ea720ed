"""Texts of tiny entries. An entry of a few bytes has all settings of its kind, and its events have names. So a program
that makes all of these before it counts them takes much more time and memory than for other texts of that size. Some
of these texts have a fault in each entry, or are of tiny lines or texts."""
import itertools
import string
from collections.abc import Iterator

import stacked
from measuring import KIB
from texts import VERSION, bundle, filled

LETTERS = string.ascii_letters + string.digits + "_"
STEPS = ",".join(LETTERS[:16])  # the most that an accrual has
FEW_STEPS = ",".join("a" * 4)  # of one event alone
TIMES = 1024  # the most names that a list has
POSTS = ",".join(itertools.islice(itertools.cycle(LETTERS), TIMES))
OWN = 512  # the names of a list whose names are all new


def profile(states: int) -> str:
    """A profile of so many states. The most that are allowed are 16."""
    return "shot_profiles:\n  p:\n    states:\n" + "".join(f"    - name: s{n}\n" for n in range(states))


PARTS = "switches:\n  s:\ncoils:\n  c:\n"
# What comes before the entries of a machine text, and after the name of each.
ENTRIES = {
    "shots": ("shots:\n", ":"),
    "shots of 16 states": (f"{profile(16)}shots:\n", ": {profile: p}"),
    "shots of 1,024 states": (f"{profile(1024)}shots:\n", ": {profile: p}"),
    "groups of one shot": ("shots:\n  x:\nshot_groups:\n", ": {shots: x}"),
    "switches": ("switches:\n", ":"),
    "coils": ("coils:\n", ":"),
    "flippers": (f"{PARTS}flippers:\n", ": {main_coil: c, activation_switch: s}"),
    "autofire coils": (f"{PARTS}autofire_coils:\n", ": {coil: c, switch: s}"),
    "ball devices": ("ball_devices:\n", ": {ball_switches: []}"),
    "ball devices of one switch": (f"{PARTS}ball_devices:\n", ": {ball_switches: s}"),
    "counters": ("counters:\n", ": {count_events: a}"),
    "accruals of 16 steps": ("accruals:\n", f": {{events: [{STEPS}]}}"),
    "accruals of 4 steps": ("accruals:\n", f": {{events: [{FEW_STEPS}]}}"),
    "events that post nothing": ("event_player:\n", ":"),
    "events that post one event": ("event_player:\n", ": a"),
    "events under a condition": ("event_player:\n", "{current_player.a>1}: a"),
    "events that post 1,024 letters": ("event_player:\n", f": [{POSTS}]"),
    "events that post one 1,024 times": ("event_player:\n", f": {'a ' * TIMES}"),
    "events that post one of the game": ("event_player:\n", ": ball_drain"),
    "events that post it 1,024 times": ("event_player:\n", f": {'ball_drain ' * TIMES}"),
    "events that change a variable": ("variable_player:\n", ": {a: 1}"),
    "events that change one of the game": ("variable_player:\n", ": {ball: 1}"),
    "events that pulse a coil": ("coils:\n  c:\ncoil_player:\n", ": {c: pulse}"),
    "events that pulse no coil": ("coil_player:\n", ": {c: pulse}"),
    "entries that are skipped": ("lights:\n", ":"),
}
# What fills a machine text from its second line on.
FILLED = {
    "items with a key": ("lights:\n", "- a:\n"),
    "empty items": ("lights:\n", "-\n"),
    "comments": ("", "#\n"),
    "comments of other letters": ("", "#\u00e4\u00f6\u00fc\n"),
    "empty lines": ("", "\n"),
    "one section again and again": ("", "lights: a\n"),
}
# What is between the brackets of one list.
LISTED = {"empty lists": "[],", "empty mappings": "{},", "empty texts": "'',", "keys alone": "{a: },"}
MODES = 7
LONG = "m" * 64  # the longest name of a mode
UNKNOWN = 16  # names to a list
ITEMS = 1000  # of one mapping
# The same, of the texts that were found later.
FOUND = {
    "ball devices of 16 unknown switches": ("ball_devices:\n", f": {{ball_switches: {' '.join(LETTERS[:UNKNOWN])}}}"),
    "accruals of 16 lists of one event": ("accruals:\n", f": {{events: [{'[a],' * 16}]}}"),
    "sequences of 16 steps": ("sequences:\n", f": {{events: [{'a,' * 16}]}}"),
}
NESTED = "[[[[[[[]]]]]]],"


def names(length: int) -> Iterator[str]:
    """All names of so many characters."""
    return map("".join, itertools.product(LETTERS, repeat=length))


def some(length: int, count: int) -> Iterator[str]:
    return itertools.islice(names(length), count)


def entries(front: str, named: Iterator[str], rest: str, size: int) -> str:
    """As many entries as fit into so many bytes together with what comes before them: each is a name and this rest."""
    parts, length = [VERSION, front], len(VERSION) + len(front)
    for name in named:
        entry = f" {name}{rest}\n"
        length += len(entry)
        if length > size:
            break
        parts.append(entry)
    return "".join(parts)


def texts(size: int, of_seven: int) -> dict[str, bytes]:
    """Bundles of texts of so many bytes, or a little less, each of which is of one kind of entry. The last bundle has
    seven modes with texts of another size."""
    made = {kind: bundle(entries(front, names(3), rest, size)) for kind, (front, rest) in ENTRIES.items()}
    made |= {kind: bundle(lines(front, unit, size)) for kind, (front, unit) in FILLED.items()}
    made |= {kind: bundle(listed(unit, size)) for kind, unit in LISTED.items()}
    made["events with posts of their own"] = bundle(own_posts(size))
    made["groups of a shot each"] = bundle(groups(size))
    made["texts without a name"] = bundle(VERSION) + b"@ \n" * (size // 3)
    made["texts with a name"] = bundle(VERSION) + "".join(f"@ {name}\n" for name in some(3, size // 6)).encode()
    made["timers of a mode"] = of_modes("timers:\n", 3, 1, size)
    beside = entries("modes: m_0\nshots:\n", names(3), ":", size)
    made["shots beside a mode"] = stacked.bundle(beside, {"m_0": VERSION})
    made[f"shots of {MODES} modes"] = of_modes("shots:\n", 4, MODES, of_seven)
    return made


def found(size: int) -> dict[str, bytes]:
    """Bundles of texts of so many bytes that were found later: those before them did not show what they cost."""
    made = {kind: bundle(entries(front, names(3), rest, size)) for kind, (front, rest) in FOUND.items()}
    made["lists in lists"] = bundle(listed(NESTED, size))
    made["groups of 16 unknown shots"] = of_long("shot_groups:\n", unknown_shots(), size)
    made["items of unknown coils"] = of_long("coil_player:\n", unknown_coils(), size)
    return made


def chunks(named: Iterator[str], count: int) -> Iterator[list[str]]:
    """Lists of so many names each."""
    while chunk := list(itertools.islice(named, count)):
        yield chunk


def unknown_shots() -> Iterator[str]:
    """Groups of shots that no text defines."""
    for name, shots in zip(names(3), chunks(names(3), UNKNOWN)):
        yield f" {name}: {{shots: {' '.join(shots)}}}\n"


def unknown_coils() -> Iterator[str]:
    """Events, each of which pulses coils that no text defines."""
    for event, coils in zip(names(2), chunks(names(3), ITEMS)):
        yield f" {event}: {{{','.join(f'{coil}: pulse' for coil in coils)}}}\n"


def of_long(front: str, made: Iterator[str], size: int) -> bytes:
    """As many of these lines as fit into so many bytes, in the text of a mode whose name is long."""
    text = VERSION + front
    parts, length = [text], len(text)
    for line in made:
        length += len(line)
        if length > size:
            break
        parts.append(line)
    return stacked.bundle(f"{VERSION}modes: {LONG}\n", {LONG: "".join(parts)})


def own_posts(size: int) -> str:
    """Lists of names no two of which are equal."""
    lists, named = names(2), names(4)
    posts = lambda: " ".join(itertools.islice(named, OWN))
    count = (size - KIB) // len(f" ab: {posts()}\n")
    return VERSION + "event_player:\n" + "".join(f" {name}: {posts()}\n" for name in itertools.islice(lists, count))


def groups(size: int) -> str:
    """Shots, and a group for each of them."""
    count = (size - KIB) // len(" abc:\n abc: {shots: abc}\n")
    shots = "".join(f" {name}:\n" for name in some(3, count))
    of_shots = "".join(f" {name}: {{shots: {name}}}\n" for name in some(3, count))
    return f"{VERSION}shots:\n{shots}shot_groups:\n{of_shots}"


def lines(front: str, unit: str, size: int) -> str:
    """A text of this line again and again, of at most so many bytes."""
    return filled(VERSION + front, unit, size * len(unit) // len(unit.encode()))


def listed(unit: str, size: int) -> str:
    front = VERSION + "lights: ["
    return front + unit * ((size - len(front) - 1) // len(unit)) + "]"


def of_modes(front: str, length: int, count: int, size: int) -> bytes:
    """Entries of so many modes, no two with the same name."""
    modes, named = [f"m_{n}" for n in range(count)], names(length)
    machine = f"{VERSION}modes: {', '.join(modes)}\n"
    return stacked.bundle(machine, {mode: entries(front, named, ":", size) for mode in modes})
