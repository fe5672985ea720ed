"""A coil: what it may do, and what it does."""
from .sections import Entry


class Coil:
    """Powers are in thousandths. `holder` is the owner that enabled it, or none."""

    def __init__(self, entry: Entry):
        self.name = entry.name
        self.pulse_ms: int = entry["default_pulse_ms"]
        self.max_pulse_ms: int = entry["max_pulse_ms"] or self.pulse_ms
        self.pulse_power: int = entry["default_pulse_power"]
        self.max_pulse_power: int = entry["max_pulse_power"]
        default, greatest = entry["default_hold_power"], entry["max_hold_power"]
        self.default_hold: int | None = default
        if greatest is None:
            greatest = 1_000 if entry["allow_enable"] else default or 0
        self.greatest_hold: int = greatest
        self.may_hold: bool = entry["allow_enable"] or (default or 0) > 0
        self.hold_power: int = self.greatest_hold if default is None else default
        self.pulse_end = self.ready = 0
        self.holder: str | None = None

    def is_on(self, now: int) -> bool:
        return self.holder is not None or now < self.pulse_end

    def pulse(self, ms: int, power: int, now: int) -> str:
        """What the line of this action says, as of the others."""
        if self.holder is not None or now < self.ready or not 0 < ms <= self.max_pulse_ms:
            return f"skip {self.name} pulse"
        if power > self.max_pulse_power:
            return f"skip {self.name} pulse"
        self.pulse_end, self.ready = now + ms, now + 2 * ms
        return f"coil {self.name} pulse {ms} {power}"

    def enable(self, power: int, owner: str) -> str:
        if self.holder is not None or not self.may_hold or power > self.greatest_hold:
            return f"skip {self.name} enable"
        self.holder = owner
        return f"coil {self.name} enable {power}"

    def disable(self, now: int) -> str:
        if not self.is_on(now):
            return f"skip {self.name} disable"
        self.holder, self.pulse_end = None, 0
        return f"coil {self.name} disable"
