"""The file `table.yaml` in a machine's folder: what the table does that no configuration says. It may be left out.

It is read by the reader of `pinball_help`. What is written back, the layout, changes only its own lines.
"""
import re
from dataclasses import dataclass, field
from pathlib import Path
from typing import Any, Callable

from pinball_help import outline
from pinball_help.near import nearest
from pinball_help.outline import Entry, Node
from pinball_help.texts import TEXT_LIMIT, lines_of, read_bytes
from pinball_help.values import milliseconds, number, thousandths

from .machine import Machine

FILE, PICTURE = "table.yaml", "table.png"
ACTIONS = ("plunge", "drain", "pause", "step", "back")  # what a key does, if it does not press a switch


class BadSetting(ValueError):
    """A line of `table.yaml` is not what it has to be."""


@dataclass
class Times:
    """In milliseconds of the log."""

    tap: int = 60  # how long a click presses a switch
    leave: int = 40  # from the pulse of a coil until the ball has left its switch
    roll: int = 600  # from there to another ball device
    fly: int = 900  # from there to the playfield
    fall: int = 300  # a ball that falls back into its device
    drain: int = 400  # from the playfield to the drain
    rise: int = 40  # from the pulse of a coil until its drop targets are up


@dataclass
class Chances:
    """In thousandths."""

    eject_fails: int = 0  # the ball stays where it is
    eject_bounces: int = 0  # the ball leaves, and falls back


@dataclass
class Settings:
    machine: Machine
    balls: int | None = None  # how many balls lie in the troughs at first; none: as many as they hold
    seed: int = 1
    times: Times = field(default_factory=Times)
    chances: Chances = field(default_factory=Chances)
    devices: dict[str, dict[str, int]] = field(default_factory=dict)  # times and chances of some ball devices
    raises: dict[str, tuple[str, ...]] = field(default_factory=dict)
    kicks: dict[str, str] = field(default_factory=dict)
    drain: str = ""  # where the playfield leads: a ball device, or a switch
    keys: dict[str, str] = field(default_factory=dict)
    layout: dict[str, tuple[float, float]] = field(default_factory=dict)  # in percent of the picture, from its corner

    def of(self, device: str, name: str) -> int:
        """A time or a chance of a ball device."""
        common = getattr(self.times, name, None)
        common = getattr(self.chances, name) if common is None else common
        return self.devices.get(device, {}).get(name, common)


def defaults(machine: Machine) -> Settings:
    found = Settings(machine, drain=drain_of(machine), keys=keys_of(machine))
    found.raises.update(machine.raised)
    found.kicks.update(machine.kicked)
    return found


def drain_of(machine: Machine) -> str:
    """The device that is tagged `drain`, else a trough, else a switch with such a name."""
    for device in [*machine.tagged("drain"), *machine.tagged("trough")]:
        return device.name
    called = [it.name for it in machine.switches.values() if "drain" in (*it.tags, *re.split(r"[_.-]", it.name))]
    return called[0] if called else ""


def keys_of(machine: Machine) -> dict[str, str]:
    """Keys for the flippers, the start button, the plunger and the drain, where the machine has them."""
    keys = {}
    for side, key in ("left", "z"), ("right", "/"):
        if button := button_of(machine, side):
            keys[key] = button
    if start := machine.start_button() or next((it for it in machine.switches if it == "s_start"), None):
        keys["s"] = start
    launch = next((it for it in machine.switches if "launch" in it), "")
    if launch or any(not device.coil for device in machine.devices.values()):
        keys["Space"] = launch or "plunge"
    if drain_of(machine):
        keys["d"] = "drain"
    return keys


def button_of(machine: Machine, side: str) -> str | None:
    """The button of the flipper on this side; without flippers, a button with such a name."""
    flippers = [it.switch for it in machine.flippers.values() if side in f"{it.name} {it.switch}"]
    named = [it for it in machine.switches if side in it and ("button" in it or "flipper" in it)]
    return next((it for it in [*flippers, *named] if it in machine.switches), None)


# how each setting is read


def bad(file: Path, line: int, why: str) -> BadSetting:
    return BadSetting(f"{file}:{line + 1}: {why}")


Reader = Callable[[Machine, Node], Any]


def whole(machine: Machine, node: Node) -> int:
    found = number(node.text)
    if found is None or found < 0:
        raise BadSetting(f"`{node.text}` is not a whole number from 0")
    return found


def time(machine: Machine, node: Node) -> int:
    found = milliseconds(node.text)
    if not found:
        raise BadSetting(f"`{node.text}` is not a time above 0, such as 600ms or 1.5s")
    return found


def chance(machine: Machine, node: Node) -> int:
    found = thousandths(node.text)
    if found is None or found > 1000:
        raise BadSetting(f"`{node.text}` is not a chance, such as 5% or 0.05")
    return found


def known(what: str, name: str, names: Any) -> str:
    if name not in names:
        near = nearest(name, names)
        raise BadSetting(f"there is no {what} `{name}`" + (f": near it is `{near}`" if near else ""))
    return name


def targets(machine: Machine, node: Node) -> tuple[str, ...]:
    return tuple(known("switch", it.text, machine.switches) for it in node.texts())


def device(machine: Machine, node: Node) -> str:
    return known("ball device", node.text, machine.devices)


def drained_to(machine: Machine, node: Node) -> str:
    return known("ball device or switch", node.text, [*machine.devices, *machine.switches])


def key_action(machine: Machine, node: Node) -> str:
    return known("switch or action", node.text, [*machine.switches, *ACTIONS])


def place(machine: Machine, node: Node) -> tuple[float, float]:
    words = [it.text for it in node.texts()]
    if len(words) != 2 or not all(re.fullmatch(r"\d{1,3}(\.\d+)?", it) and float(it) <= 100 for it in words):
        raise BadSetting("a place is two numbers from 0 to 100, in percent of the width and the height: 12.5, 80")
    return float(words[0]), float(words[1])


TIMES: dict[str, Reader] = {name: time for name in Times.__dataclass_fields__}
CHANCES: dict[str, Reader] = {name: chance for name in Chances.__dataclass_fields__}
OF_DEVICES = {**{it: time for it in ("leave", "roll", "fly", "fall")}, **CHANCES}


def read_settings(machine: Machine) -> Settings:
    """The settings of a machine's folder. Raises BadSetting."""
    settings = defaults(machine)
    file = machine.folder / FILE
    if not file.exists():
        return settings
    for entry in outline.read(lines_of(read_bytes(file, TEXT_LIMIT))).entries or []:
        read = SECTIONS.get(entry.key)
        if not read:
            raise bad(file, entry.line, f"there is no setting `{entry.key}`: the settings are {', '.join(SECTIONS)}")
        try:
            read(settings, file, entry)
        except BadSetting as error:
            raise error if str(error).startswith(str(file)) else bad(file, entry.line, str(error)) from None
    return settings


def below(file: Path, entry: Entry, take: Callable[[Entry], None]) -> None:
    """Takes each entry below a key, and adds the line to what is wrong."""
    for it in entry.value.entries or []:
        try:
            take(it)
        except BadSetting as error:
            raise error if str(error).startswith(str(file)) else bad(file, it.line, str(error)) from None
    if entry.value.entries is None and entry.value.text:
        raise bad(file, entry.line, f"`{entry.key}` has no entries below it")


def read_fields(settings: Settings, found: Any, readers: dict[str, Reader], file: Path, entry: Entry) -> None:
    """Reads a mapping whose keys are settings of their own, into an object or a dictionary."""

    def take(it: Entry) -> None:
        value = readers[known("setting", it.key, readers)](settings.machine, it.value)
        if isinstance(found, dict):
            found[it.key] = value
        else:
            setattr(found, it.key, value)

    below(file, entry, take)


def one(name: str, reader: Reader) -> Callable[[Settings, Path, Entry], None]:
    """A section that is one value."""
    return lambda settings, _, entry: setattr(settings, name, reader(settings.machine, entry.value))


def fields(name: str, readers: dict[str, Reader]) -> Callable[[Settings, Path, Entry], None]:
    return lambda settings, file, entry: read_fields(settings, getattr(settings, name), readers, file, entry)


def by_name(
    name: str, what: str, names: Callable[[Machine], Any], reader: Reader
) -> Callable[[Settings, Path, Entry], None]:
    """A section whose keys are names of the machine."""

    def read(settings: Settings, file: Path, entry: Entry) -> None:
        def take(it: Entry) -> None:
            machine = settings.machine
            getattr(settings, name)[known(what, it.key, names(machine))] = reader(machine, it.value)

        below(file, entry, take)

    return read


def read_devices(settings: Settings, file: Path, entry: Entry) -> None:
    def take(it: Entry) -> None:
        known("ball device", it.key, settings.machine.devices)
        read_fields(settings, settings.devices.setdefault(it.key, {}), OF_DEVICES, file, it)

    below(file, entry, take)


def read_keys(settings: Settings, file: Path, entry: Entry) -> None:
    below(file, entry, lambda it: settings.keys.__setitem__(it.key, key_action(settings.machine, it.value)))


SECTIONS: dict[str, Callable[[Settings, Path, Entry], None]] = {
    "balls": one("balls", whole),
    "seed": one("seed", whole),
    "times": fields("times", TIMES),
    "chances": fields("chances", CHANCES),
    "devices": read_devices,
    "raises": by_name("raises", "coil", lambda it: it.coils, targets),
    "kicks": by_name("kicks", "coil", lambda it: it.coils, device),
    "drain": one("drain", drained_to),
    "keys": read_keys,
    "layout": by_name("layout", "switch or coil", lambda it: [*it.switches, *it.coils], place),
}
