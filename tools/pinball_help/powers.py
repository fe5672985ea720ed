"""Powers as older versions of MPF wrote them, as parts of full power.

A coil that is held with too much power burns. So what is proposed here is never more than the text can have meant."""
import math
import re

EIGHTHS, SMALL_PARTS = 8, 32
UNKNOWN = "0.125"  # one eighth, where nobody can know what was meant
NO_POWER = "`{}` is no power. Write the part that the coil bears. With `0` the coil has no power."
LESS = "If the coil bears less, write less."
NAMES = r"(?:default_|max_)?(?:pulse|hold)_power"


def is_power(setting: str) -> bool:
    return bool(re.fullmatch(NAMES, setting))


def part(share: float, digits: int = 3) -> str:
    """A share with at most so many decimals, never rounded up."""
    return f"{math.floor(share * 10**digits + 1e-6) / 10**digits:.{digits}f}".rstrip("0").removesuffix(".")


def of_mask(setting: str, written: str) -> tuple[str, str]:
    """A mask has a digit for each step of a short time: at a `1` the current is on."""
    if not re.fullmatch(r"[01]{8}|[01]{32}", written):
        return "0", NO_POWER.format(written)
    ones = written.count("1")
    right = part(ones / len(written))
    return right, f"`{setting}: {written}` has {ones} ones in {len(written)} digits: that is `{right}`. {LESS}"


def meant(setting: str, written: str) -> tuple[str, str]:
    """The part of full power to write for an old power, and why; no reason where it may stay as it is."""
    if setting.endswith("pwm_mask"):
        return of_mask(setting, written)
    found = re.fullmatch(r"(\d+\.?\d*|\.\d+)\s*(%?)", written)
    if not found:
        return "0", NO_POWER.format(written or " ")
    if re.fullmatch(r"1\.0{1,3}", written) and not setting.startswith(("pulse", "hold")):
        return written, ""  # (only the names of version 6 begin otherwise)
    number, is_percent = float(found[1]), bool(found[2])
    if is_percent and number <= 100:
        right = f"{part(number, 1)}%"
        is_right = re.fullmatch(r"\d+(\.\d)?%", written)
        return (written, "") if is_right else (right, f"Write `{right}`: a percentage has at most one decimal.")
    counts = SMALL_PARTS if setting.endswith("32") else EIGHTHS
    if not is_percent and number < 1:
        right = part(number)
        is_right = re.fullmatch(r"0(\.\d{1,3})?", written)
        return (written, "") if is_right else (right, f"Write `{right}`: a power has at most three decimals.")
    if not is_percent and number <= counts:
        right = part(int(number) / counts) + (".0" if int(number) == counts else "")
        called = "eighths" if counts == EIGHTHS else "parts of 32"
        why = f"In MPF before 0.50 `{setting}: {written}` counted {called}: {int(number)}/{counts} is `{right}`."
        return right, f"{why} {LESS}"
    right = UNKNOWN if is_percent else part(min(number / 100, float(UNKNOWN)))
    percent = f" In percent it would be `{number:g}%`." if not is_percent and number <= 100 else ""
    return right, f"`{written}` is more than full power.{percent} Begin with little, as `{right}`."
