"""What `check`, `verify` and `play` print, and their exit status."""
import re
from collections import Counter
from collections.abc import Iterable
from dataclasses import dataclass

from . import certificate
from .bundle import Config, ConfigFault, read_bundle
from .certificate import Certificate
from .costs import Costs, Weights
from .faults import Faults
from .machine import MOST_LINES, Machine
from .plan import Plan

Answer = tuple[bytes, int]


def as_bytes(lines: list[str]) -> bytes:
    return "".join(f"{line}\n" for line in lines).encode(errors="surrogateescape")


def shown(text: str) -> str:
    """A text that is no name: what would not be seen in it is written in hexadecimal digits."""
    return re.sub("[\0-\x1f\x7f]", lambda found: f"\\x{ord(found[0]):02x}", text)


def are_named(said: list[tuple[str, int]], names: Iterable[str]) -> bool:
    """Whether what a certificate says has these names, in this order."""
    return [name.encode("latin-1") for name, _ in said] == [name.encode() for name in names]


@dataclass
class Judged:
    """A bundle, as far as it can be judged without a certificate. `refusal` has the lines of a fault before 8."""

    bundle: bytes
    notes: list[str]
    refusal: list[str]
    plan: Plan | None
    costs: Costs | None
    least: Weights | list[str]

    @property
    def is_accepted(self) -> bool:
        return isinstance(self.least, dict) and self.costs is not None and not self.costs.too_large(self.least)

    def check(self) -> Answer:
        if self.refusal:
            return as_bytes([*self.notes, *self.refusal, "no"]), 1
        if isinstance(self.least, list):
            return as_bytes([*self.notes, f"fault 8 Cycle {' '.join(self.least)}", "no"]), 1
        if not self.is_accepted:
            return as_bytes([*self.notes, "fault 9 Bound", "no"]), 1
        return as_bytes([*self.notes, "yes"]) + self.certificate().encode(), 0

    def certificate(self) -> str:
        return self.certificate_of(self.least).text()

    def certificate_of(self, weights: Weights, version: int = 2) -> Certificate:
        """With the right bound, and in version 2 with the right costs of the switches."""
        switches = [*self.costs.switches(weights).items()] if version == 2 else []
        return Certificate(version, self.costs.bound(weights), switches, [*weights.items()])

    def verify(self, text: bytes) -> Answer:
        if self.refusal:
            return self.check()
        fault = self.fault_of(text)
        if fault:
            return as_bytes([*self.notes, f"fault {fault}", "no"]), 1
        return as_bytes([*self.notes, "yes", f"bound {certificate.read(text).bound}"]), 0

    def fault_of(self, text: bytes) -> str | None:
        try:
            given = certificate.read(text)
        except certificate.BadLine as bad:
            return f"10 Certificate Line {bad.args[0]}"
        if not are_named(given.events, self.plan.events):
            return "10 Certificate Events"
        if given.version == 2 and not are_named(given.switches, self.plan.switches):
            return "10 Certificate Switches"
        weights = dict(given.events)
        short = self.costs.short(weights)
        if short:
            return f"10 Certificate Short {short[0]} {short[1]}"
        if self.costs.too_large(weights):
            return "9 Bound"
        right = self.certificate_of(weights, given.version)
        if given.bound != right.bound:
            return f"10 Certificate Bound {right.bound}"
        wrong = [switch for switch, said in zip(right.switches, given.switches) if switch != said]
        return f"10 Certificate Switch {wrong[0][0]} {wrong[0][1]}" if wrong else None

    def answer(self, command: str, file: bytes) -> Answer:
        """What a command prints, with the certificate or the log that it reads."""
        return self.check() if command == "check" else self.verify(file) if command == "verify" else self.play(file)

    def play(self, log: bytes, seen: Counter[str] | None = None, most_lines: int = MOST_LINES) -> Answer:
        if not self.is_accepted:
            return self.check()
        machine = Machine(self.plan, most_lines)
        all_run = machine.log(log)
        if seen is not None:
            seen.update(machine.seen)
        return as_bytes(machine.lines), 0 if all_run else 1


def judge(bundle: bytes) -> Judged:
    try:
        config = read_bundle(bundle)
    except ConfigFault as fault:
        line = f"error {fault.number} {fault.name} {shown(fault.text)} {fault.line} {shown(fault.key)}"
        return Judged(bundle, [], [line], None, None, [])
    notes = [shown(note) for note in config.notes]
    faults = Faults(config).lines()
    if faults:
        return Judged(bundle, notes, faults, None, None, [])
    return planned(bundle, config, notes)


def planned(bundle: bytes, config: Config, notes: list[str]) -> Judged:
    plan = Plan(config)
    table = plan.exceeded()
    if table:
        return Judged(bundle, notes, [f"fault 7 Limit {table}"], None, None, [])
    costs = Costs(plan)
    return Judged(bundle, notes, [], plan, costs, costs.least())
