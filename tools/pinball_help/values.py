"""The values of settings: times, powers, booleans and numbers. A number with more digits than any of these is none."""
import re

UNITS = {"": 1, "ms": 1, "s": 1000, "m": 60_000, "h": 3_600_000, "d": 86_400_000}


def milliseconds(text: str) -> int | None:
    found = re.fullmatch(r"([0-9]{1,15}(?:\.[0-9]{1,15})?)\s*(ms|s|m|h|d|)", text.strip())
    return round(float(found[1]) * UNITS[found[2]]) if found else None


def thousandths(text: str) -> int | None:
    found = re.fullmatch(r"([0-9]{1,15}(?:\.[0-9]{1,15})?)(%?)", text.strip())
    return round(float(found[1]) * (10 if found[2] else 1000)) if found else None


def number(text: str) -> int | None:
    return int(text) if re.fullmatch(r"-?[0-9]{1,15}", text.strip()) else None


def is_yes(text: str) -> bool:
    return text.lower() in ("yes", "true", "on")


CONDITION = re.compile(r"\{ *current_player\.([\w.-]+?) *([=!<>]=|[<>]) *(-?\d+) *\}", re.ASCII)
EVENT = re.compile(rf"[\w.-]{{1,64}}(?:{CONDITION.pattern})?", re.ASCII)


def is_event(text: str) -> bool:
    """Whether a text is a handled event: a name, with or without a condition."""
    return bool(EVENT.fullmatch(text))


def event_of(text: str) -> str:
    """The name of a handled event, without its condition."""
    return text.partition("{")[0].strip()
