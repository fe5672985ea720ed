"""Faults 1 to 6 of a configuration, in the order of the report."""
from typing import Any

from .bundle import Config
from .coils import Coil
from .devices import reached
from .plan import GAME_EVENTS, MODE_EVENTS
from .sections import PLAYERS, Entry
from .values import Word

NAMES = {1: "Name", 2: "PulseLimit", 3: "PowerLimit", 4: "HoldNotAllowed", 5: "TimerAtEnd", 6: "BallRoute"}


class Faults:
    def __init__(self, config: Config):
        self.config = config
        self.found: list[tuple[tuple[int, ...], str]] = []  # its place in the order, and its line
        self.coils = {name: Coil(entry) for name, entry in config.named("coils").items()}
        listed = (f"mode_{mode}_{what}" for mode in config.listed for what in MODE_EVENTS)
        self.reserved = {*GAME_EVENTS, *listed} - {"sw_start"}

    def lines(self) -> list[str]:
        """The lines of the report, each once."""
        for place, part in enumerate(self.config.parts):
            for entries in part.sections.values():
                for entry in entries:
                    self.entry(place, entry)
        self.groups()
        self.routes()
        return [*dict.fromkeys(line for _, line in sorted(self.found, key=lambda fault: fault[0]))]

    def add(self, number: int, text: int, word: Word, thing: str | None = None, line: int | None = None) -> None:
        at = word.line if line is None else line
        name = self.config.parts[text].text
        order = (text, at, number, word.column, word.place)
        self.found.append((order, f"fault {number} {NAMES[number]} {name} {at} {thing or word.text}"))

    def defined(self, text: int, section: str, word: Word | None) -> None:
        if word and word.text not in self.config.named(section):
            self.add(1, text, word)

    def posted(self, text: int, words: list[Word]) -> None:
        for word in words:
            if word.text in self.reserved:
                self.add(1, text, word)

    def entry(self, text: int, entry: Entry) -> None:
        names = {
            "main_coil": "coils",
            "hold_coil": "coils",
            "coil": "coils",
            "eject_coil": "coils",
            "activation_switch": "switches",
            "switch": "switches",
        }
        if entry.section in PLAYERS:
            self.player(text, entry)
            return
        for setting, value in entry.values.items():
            if setting in names:
                self.defined(text, names[setting], value)
            elif setting.startswith("events_when_"):
                self.posted(text, value)
        special = {"coils": self.coil, "flippers": self.flipper, "timers": self.timer, "ball_devices": self.ball_device}
        if entry.section in special:
            special[entry.section](text, entry)
        if entry.section == "shots" and entry["profile"].text != "default":
            self.defined(text, "shot_profiles", entry["profile"])

    def player(self, text: int, entry: Entry) -> None:
        if entry.section == "event_player":
            self.posted(text, entry["items"])
        for word, value in entry["items"] if entry.section != "event_player" else []:
            if entry.section == "coil_player":
                self.defined(text, "coils", word)
                self.drive(text, word, value)
            elif word.text in ("ball", "number") or f"player_{word.text}" in self.reserved:
                self.add(1, text, word)

    def drive(self, text: int, word: Word, value: dict[str, Any]) -> None:
        coil = self.coils.get(word.text)
        if coil is None:
            return
        if (value["pulse_ms"] or 0) > coil.max_pulse_ms:
            self.add(2, text, word)
        if (value["pulse_power"] or 0) > coil.max_pulse_power or (value["hold_power"] or 0) > coil.greatest_hold:
            self.add(3, text, word)
        if value["action"] == "enable" and not coil.may_hold:
            self.add(4, text, word)

    def coil(self, text: int, entry: Entry) -> None:
        coil, word = self.coils[entry.name], own_word(entry)
        if coil.pulse_ms > coil.max_pulse_ms:
            self.add(2, text, word)
        if coil.pulse_power > coil.max_pulse_power or (coil.default_hold or 0) > coil.greatest_hold:
            self.add(3, text, word)

    def flipper(self, text: int, entry: Entry) -> None:
        hold = entry["hold_coil"]
        if hold and hold.text in self.coils and not self.coils[hold.text].may_hold:
            self.add(4, text, own_word(entry), hold.text)

    def timer(self, text: int, entry: Entry) -> None:
        end = entry["end_value"]
        if end is None and entry["direction"] == "down":
            end = 0
        if reached(entry["start_value"], end, entry["direction"]):
            self.add(5, text, own_word(entry))

    def ball_device(self, text: int, entry: Entry) -> None:
        for word in entry["ball_switches"]:
            self.defined(text, "switches", word)
        if entry["eject_targets"].text != "playfield":
            self.defined(text, "ball_devices", entry["eject_targets"])
        is_trough = "trough" in [tag.text for tag in entry["tags"]]
        if not entry["eject_coil"] and (is_trough or not entry["mechanical_eject"]):
            self.add(6, text, own_word(entry))

    def groups(self) -> None:
        shots = {entry.name: (part, entry) for part, entry in self.config.entries("shots")}
        grouped: set[str] = set()
        for text, part in enumerate(self.config.parts):
            for group in part.sections.get("shot_groups", []):
                first = shots.get(group["shots"][0].text)
                for word in group["shots"]:
                    owner, shot = shots.get(word.text, (None, None))
                    strange = shot is None or owner is not part or word.text in grouped
                    if strange or first and shot["profile"].text != first[1]["profile"].text:
                        self.add(1, text, word)
                    grouped.add(word.text)

    def routes(self) -> None:
        """Switches that are in more than one place, and devices that do not lead to the playfield."""
        devices = self.config.named("ball_devices")
        taken: set[str] = set()
        for entry in devices.values():
            words = [word.text for word in entry["ball_switches"]]
            if taken & {*words} or len({*words}) < len(words):
                self.add(6, 0, own_word(entry))
            taken |= {*words}
            at, steps = entry, 0
            while at is not None and at["eject_targets"].text != "playfield" and steps <= len(devices):
                at, steps = devices.get(at["eject_targets"].text), steps + 1
            if at is None or steps > len(devices):
                self.add(6, 0, own_word(entry))


def own_word(entry: Entry) -> Word:
    return Word(entry.name, entry.key.line, entry.key.column)
