"""What the table has to know of a machine: its switches, coils, ball devices, modes and timers.

It reads the folder by the reader of `pinball_help`, which skips what it cannot read. Whether the machine is accepted is
for the program to say.
"""
from dataclasses import dataclass, field
from pathlib import Path

from pinball_help.graph import names_of, setting, text_of
from pinball_help.outline import Entry
from pinball_help.scenery import Scenery, action_of
from pinball_help.texts import MACHINE, mode_text, read_texts
from pinball_help.values import event_of, number

PLAYFIELD = "playfield"
PRIORITY = 100  # of a mode that states none


@dataclass(frozen=True)
class Switch:
    name: str
    number: str
    label: str
    is_closed: bool  # normally closed: its raw level is 0 while it is active
    tags: tuple[str, ...]

    def level(self, is_active: bool) -> int:
        """The raw level that a log has for it."""
        return int(is_active != self.is_closed)


@dataclass(frozen=True)
class Coil:
    name: str
    number: str
    label: str


@dataclass(frozen=True)
class BallDevice:
    """Its switches are in the order in which balls fill it."""

    name: str
    switches: tuple[str, ...]
    coil: str
    target: str
    tags: tuple[str, ...]


@dataclass(frozen=True)
class Timer:
    name: str
    mode: str
    start: int
    step: int  # how a tick moves the value
    is_simple: bool  # nothing but its ticks moves the value, so that it follows from the trace


@dataclass(frozen=True)
class Flipper:
    name: str
    switch: str
    coils: tuple[str, ...]


@dataclass
class Machine:
    name: str
    folder: Path
    switches: dict[str, Switch] = field(default_factory=dict)
    coils: dict[str, Coil] = field(default_factory=dict)
    devices: dict[str, BallDevice] = field(default_factory=dict)
    modes: dict[str, int] = field(default_factory=dict)  # the priority of each
    timers: dict[str, Timer] = field(default_factory=dict)
    flippers: dict[str, Flipper] = field(default_factory=dict)
    saves: list[str] = field(default_factory=list)
    multiballs: list[str] = field(default_factory=list)
    fired: dict[str, str] = field(default_factory=dict)  # of the coil of an autofire coil: its switch
    raised: dict[str, tuple[str, ...]] = field(default_factory=dict)  # the drop targets that a coil raises
    kicked: dict[str, str] = field(default_factory=dict)  # the ball device out of which a coil kicks a ball
    at_first: tuple[str, ...] | None = None  # the switches that are active at first, if the machine says so

    def ball_switches(self) -> dict[str, BallDevice]:
        return {switch: device for device in self.devices.values() for switch in device.switches}

    def tagged(self, tag: str) -> list[BallDevice]:
        return [device for device in self.devices.values() if tag in device.tags]

    def start_button(self) -> str | None:
        return next((switch.name for switch in self.switches.values() if "start" in switch.tags), None)


def read_machine(folder: Path) -> Machine:
    """The machine in a folder. Raises OSError if there is none."""
    scene = Scenery(read_texts(folder))
    machine = Machine(folder.resolve().name, folder)
    read_parts(scene, machine)
    read_modes(scene, machine)
    machine.kicked = kicked_by(machine)
    machine.raised = raised_by(scene, machine)
    first = next((it for it in scene.outlines[MACHINE].entries or [] if it.key == FIRST_ACTIVE), None)
    if first:
        machine.at_first = tuple(it.text for it in first.value.texts() if it.text in machine.switches)
    return machine


FIRST_ACTIVE = "virtual_platform_start_active_switches"  # (MPF's; the program skips it)


def read_parts(scene: Scenery, machine: Machine) -> None:
    """The switches, the coils, and the devices that join them."""
    for name, (_, it) in scene.defined("switches").items():
        machine.switches[name] = Switch(
            name, text_of(it, "number"), text_of(it, "label"), text_of(it, "type") == "NC", tuple(names_of(it, "tags"))
        )
    for name, (_, it) in scene.defined("coils").items():
        machine.coils[name] = Coil(name, text_of(it, "number"), text_of(it, "label"))
    for name, (_, it) in scene.defined("ball_devices").items():
        switches = tuple(switch for switch in names_of(it, "ball_switches") if switch in machine.switches)
        target = text_of(it, "eject_targets", PLAYFIELD)
        tags = tuple(names_of(it, "tags"))
        machine.devices[name] = BallDevice(name, switches, text_of(it, "eject_coil"), target, tags)
    for name, (_, it) in scene.defined("flippers").items():
        coils = tuple(coil for coil in (text_of(it, "main_coil"), text_of(it, "hold_coil")) if coil)
        machine.flippers[name] = Flipper(name, text_of(it, "activation_switch"), coils)
    for _, it in scene.defined("autofire_coils").values():
        machine.fired[text_of(it, "coil")] = text_of(it, "switch")


def read_modes(scene: Scenery, machine: Machine) -> None:
    for mode in scene.modes:
        sections = scene.outlines[mode_text(mode)].entries or [] if mode_text(mode) in scene.outlines else []
        section = next((it for it in sections if it.key == "mode"), None)
        written = number(text_of(section, "priority")) if section else None
        machine.modes[mode] = PRIORITY if written is None else written
    for name, (text, it) in scene.defined("timers").items():
        machine.timers[name] = timer_of(name, scene.owner(text), it)
    machine.saves = list(scene.defined("ball_saves"))
    machine.multiballs = list(scene.defined("multiballs"))


def timer_of(name: str, mode: str, entry: Entry) -> Timer:
    controls = setting(entry, "control_events")
    actions = [it.at("action") for it in controls.value.items or []] if controls else []
    is_simple = all(it and it.text in ("start", "stop", "pause") for it in actions)
    step = -1 if text_of(entry, "direction") == "down" else 1
    return Timer(name, mode, number(text_of(entry, "start_value")) or 0, step, is_simple)


def taken_coils(machine: Machine) -> set[str]:
    """The coils that belong to a flipper, an autofire coil or a ball device."""
    of_flippers = {coil for flipper in machine.flippers.values() for coil in flipper.coils}
    return of_flippers | {*machine.fired} | {device.coil for device in machine.devices.values()}


def kicked_by(machine: Machine) -> dict[str, str]:
    """The coil of each ball device. One without a coil may have a coil of its name: `c_plunger` for `plunger`."""
    found = {device.coil: device.name for device in machine.devices.values() if device.coil}
    for coil in machine.coils.keys() - taken_coils(machine):
        for device in machine.devices.values():
            if not device.coil and coil.split("_", 1)[-1] == device.name:
                found[coil] = device.name
    return found


def raised_by(scene: Scenery, machine: Machine) -> dict[str, tuple[str, ...]]:
    """The drop targets of each coil: the shots of a group, if the event that resets the group pulses the coil.

    A group of the profile `default` is one of lamps, so it has no drop targets, unless its names say so."""
    shots = {name: entry for name, (_, entry) in scene.defined("shots").items()}
    free = machine.coils.keys() - taken_coils(machine)
    found: dict[str, tuple[str, ...]] = {}
    for group, (_, entry) in scene.defined("shot_groups").items():
        listed = [shots[name] for name in names_of(entry, "shots") if name in shots]
        switches = [text_of(shot, "switch") for shot in listed]
        resets = set(names_of(entry, "reset_events"))
        is_bank = any(text_of(shot, "profile", "default") != "default" for shot in listed)
        if is_bank or "drop" in f"{group} {' '.join(switches)}":
            for coil in coils_pulsed_at(scene, resets) & free:
                found[coil] = (*found.get(coil, ()), *(it for it in switches if it in machine.switches))
    return found


def coils_pulsed_at(scene: Scenery, events: set[str]) -> set[str]:
    """The coils that a `coil_player` pulses at some of these events."""
    players = [entry for _, entry in scene.entries_of("coil_player") if event_of(entry.key) in events]
    return {coil.key for entry in players for coil in entry.value.entries or [] if action_of(coil) == "pulse"}


__all__ = ["BallDevice", "Coil", "Flipper", "Machine", "PLAYFIELD", "Switch", "Timer", "read_machine"]
