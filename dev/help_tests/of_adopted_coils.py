"""`pinball-help adopt`: no coil gets more power, or a longer pulse, than the MPF folder can have meant."""
import re
import tempfile
from pathlib import Path

from help_tests.adopted import MACHINES, REWRITES, adopted, written
from help_tests.common import PROGRAM, test
from pinball_help.adopt import run
from pinball_help.adopt.settings import OLD_NAMES
from pinball_help.adopt.source import Given
from pinball_help.powers import meant
from pinball_help.values import milliseconds, thousandths


# settings of a coil in the MPF folder, and what they are in the new one
MEANT = (
    ("default_pulse_power: 1.0", {"default_pulse_power": "1.0"}),
    ("default_pulse_power: 1", {"default_pulse_power": "0.125"}),
    ("pulse_power: 1.0", {"default_pulse_power": "0.125"}),
    ("hold_power: 4", {"default_hold_power": "0.5"}),
    ("hold_power: 10", {"default_hold_power": "0.1"}),
    ("hold_power: 60", {"default_hold_power": "0.125"}),
    ("hold_power: 50%", {"default_hold_power": "50%"}),
    ("hold_power: loud", {"default_hold_power": "0"}),
    ("hold_power32: 8", {"default_hold_power": "0.25"}),
    ("hold_pwm_mask: 11110000", {"default_hold_power": "0.5"}),
    ("hold_pwm_mask: loud", {"default_hold_power": "0"}),
    ("hold_power32: 8, default_hold_power: 0.5, hold_pwm_mask: 10000000", {"default_hold_power": "0.125"}),
    ("default_hold_power: [0.5, 0.25]", {"default_hold_power": "0.25"}),
    ("default_hold_power: 0.2999", {"default_hold_power": "0.299"}),
    ("allow_enable: yes, default_hold_power: {a: 1}", {"allow_enable": "yes", "default_hold_power": "0"}),
    ("allow_enable: maybe, default_pulse_ms: 5", {"default_pulse_ms": "5"}),
    ("allow_enable: yes, allow_enable: no", {"allow_enable": "no"}),
    ("max_hold_power: 0.25, default_hold_power: 0.5", {"max_hold_power": "0.25", "default_hold_power": "0.25"}),
    ("hold_power: 2, max_hold_duration: 2s", {}),
    ("max_pulse_power: 0.5", {"max_pulse_power": "0.5", "default_pulse_power": "0.5"}),
    ("max_pulse_ms: 5", {"max_pulse_ms": "5", "default_pulse_ms": "5"}),
    ("pulse_ms: 20, default_pulse_ms: 30", {"default_pulse_ms": "20"}),
    ("default_pulse_ms: 30, pulse_ms: 20", {"default_pulse_ms": "20"}),
    ("default_pulse_ms: 8.5", {"default_pulse_ms": "8ms"}),
    ("default_pulse_ms: 0", {"default_pulse_ms": "1ms"}),
    ("default_pulse_ms: 7 or so", {"default_pulse_ms": "7ms"}),
    ("default_pulse_ms: 70 or so", {}),
    ("default_pulse_ms: 6s", {"default_pulse_ms": "6ms"}),
    ("default_pulse_ms: '20, 12'", {"default_pulse_ms": "12"}),
    ("default_pulse_ms: 20 msec", {"default_pulse_ms": "20ms"}),
    ("default_pulse_ms: settings.kick", {"default_pulse_ms": "15ms"}),
    ("default_pulse_ms: 40}\n  c: {default_pulse_ms: 9, allow_enable: yes", {"default_pulse_ms": "9"}),
    ("number: 1}\n  c: {default_pulse_ms: 40, hold_power: 2, max_pulse_ms: 8",
     {"number": "1", "default_pulse_ms": "8"}),
)


@test
def a_power_or_time_is_the_lowest_that_it_can_mean() -> None:
    for given, wanted in MEANT:
        text = f"#config_version=6\nsettings: {{kick: {{default: 15}}}}\ncoils:\n  c: {{{given}}}\n"
        with tempfile.TemporaryDirectory() as room:
            made = run.adopt(PROGRAM, written({"config/config.yaml": text}, Path(room)))
        here = made.context.draft.texts[""]["coils"]["c"].value
        assert here == wanted, (given, here)
        as_it_is = given == ", ".join(f"{key}: {value}" for key, value in wanted.items())
        said = any(4 <= it.place.line for it in made.context.done)
        assert said or as_it_is, given


@test
def no_coil_is_driven_more_than_the_source_says() -> None:
    for folder in (*MACHINES, REWRITES):
        assert not (said := driven_more(adopted(folder))), f"{folder.name}: {said}"


def driven_more(made: run.Adopted) -> str:
    """A coil of the new folder that gets more than the MPF folder can have meant, or nothing."""
    given: dict[str, list[Given]] = {}
    for part in made.context.source.parts:
        for section in part.sections():
            for it in section.inside() if section.key == "coils" else ():
                given.setdefault(it.key, []).append(it)
    coils = made.context.draft.texts[""].get("coils", {})
    for name, written_coil in coils.items():
        assert isinstance(written_coil.value, dict)
        here, most = driven(written_coil.value), most_of(given[name], made.context.pulse_ms)
        if wrong := [it for it in here if here[it] > most[it]]:
            return f"`{wrong[0]}` of {name} is {here[wrong[0]]}, and not {most[wrong[0]]}"
    for sections in made.context.draft.texts.values():
        for event, entry in sections.get("coil_player", {}).items():
            for name, what in entry.value.items() if isinstance(entry.value, dict) else ():
                coil = driven(coils[name].value)  # type: ignore[arg-type]
                pulse, power = ((milliseconds, thousandths)[at](what.get(key, "0")) if isinstance(what, dict) else 0
                                for at, key in enumerate(("pulse_ms", "pulse_power")))
                if (pulse or 0) > coil["max_pulse_ms"] or (power or 0) > coil["max_pulse_power"]:
                    return f"{name} gets {what} at {event}"
    return ""


def driven(coil: dict) -> dict[str, int]:
    """What a coil of the new folder may get, in milliseconds and thousandths, by the defaults of docs/profile.md."""
    pulse = milliseconds(coil.get("default_pulse_ms", "10")) or 0
    may_hold = coil.get("allow_enable", "no").lower() in ("yes", "true", "on")
    held = thousandths(coil.get("default_hold_power", "0")) or 0
    most = thousandths(coil["max_hold_power"]) if "max_hold_power" in coil else 1_000 if may_hold else held
    return {
        "default_pulse_ms": pulse, "max_pulse_ms": milliseconds(coil.get("max_pulse_ms", str(pulse))) or 0,
        "default_pulse_power": thousandths(coil.get("default_pulse_power", "1")) or 0,
        "max_pulse_power": thousandths(coil.get("max_pulse_power", "1")) or 0,
        "default_hold_power": held if "default_hold_power" in coil else (most or 0) if may_hold else 0,
        "max_hold_power": (most or 0) if may_hold or held else 0,
    }


def most_of(given: list[Given], default: str) -> dict[str, int]:
    """The most that a coil may get by what is written of it: of each setting the lowest of its values."""
    found: dict[str, list[int]] = {}
    for it in (setting for coil in given for setting in coil.inside()):
        key = OLD_NAMES.get(("coils", it.key), it.key)
        texts = it.words() if it.is_list or "," in it.text else [it.text]
        if key.endswith("_ms"):
            numbers = [n * 1_000 if re.fullmatch(r"[\d.]+ ?s\w*", text) else n for text in texts
                       for n in map(float, re.findall(r"\d{1,20}(?:\.\d{1,20})?", text)[:1])]
            found.setdefault(key, []).extend(max(1, int(it)) for it in numbers)
        elif key.endswith("_power"):
            found.setdefault(key, []).extend(thousandths(meant(it.key, text)[0]) or 0 for text in texts or [""])
        elif key == "allow_enable":
            found.setdefault(key, []).append(it.text.lower() in ("yes", "true", "on", "1", "y"))
    pulse = min([*found.get("default_pulse_ms", [max(10, int(default or 10))]), 5_000])
    held = min(found.get("default_hold_power", [1_000 if min(found.get("allow_enable", [0])) else 0]))
    most = min(found.get("max_hold_power", [1_000 if min(found.get("allow_enable", [0])) else held]))
    timed = any(it.at(key) for it in given for key in ("max_hold_duration", "default_timed_enable_ms"))
    return {
        "default_pulse_ms": pulse, "max_pulse_ms": max([pulse, *found.get("max_pulse_ms", [])]),
        "default_pulse_power": min(found.get("default_pulse_power", [1_000])),
        "max_pulse_power": min(found.get("max_pulse_power", [1_000])),
        "default_hold_power": 0 if timed else min(held, most), "max_hold_power": 0 if timed else max(most, held),
    }
