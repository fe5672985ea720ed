"""Patterns of the texts of numbers within a range, for a schema: a pattern can say no other way how great a text is.

They are regular expressions that JavaScript and Python read alike."""


def whole(least: int, greatest: int) -> str:
    """The digits of the whole numbers from `least`, which is not below 0, to `greatest`. Zeros may be in front."""
    found, full = ["0"] if least == 0 else [], []
    for length in range(1, len(str(greatest)) + 1):
        first, last = max(least, 10 ** (length - 1)), min(greatest, 10**length - 1)
        if (first, last) == (10 ** (length - 1), 10**length - 1):
            full.append(length)
        elif first <= last:
            found += of_digits(str(first), str(last))
    if full:
        found.append(digit("1", "9") + repeated(full[0] - 1, full[-1] - 1))
    return f"0*{either(found)}"


def signed(least: int, greatest: int) -> str:
    """Those of whole numbers that may be below 0."""
    found = [whole(max(0, least), greatest)] if greatest >= 0 else []
    found += [f"-{whole(max(0, -greatest), -least)}"] if least < 0 else []
    found += ["-0+"] if least == 0 else []
    return either(found)


def decimal(least: int, greatest: int, places: int) -> str:
    """The numbers with so many decimals at most that are in a range, which is in units of the last decimal."""
    one = 10**places
    first, first_part = divmod(least, one)
    last, last_part = divmod(greatest, one)
    if first == last:
        return f"0*{first}{fraction(first_part, last_part, places)}"
    found = [f"0*{first}{fraction(first_part, one - 1, places)}"]
    if first + 1 < last:
        found.append(f"{whole(first + 1, last - 1)}{fraction(0, one - 1, places)}")
    return either([*found, f"0*{last}{fraction(0, last_part, places)}"])


def fraction(least: int, greatest: int, places: int) -> str:
    """The point and the decimals, which zeros fill up to a number from `least` to `greatest`; none if that may be 0."""
    found = []
    for length in range(1, places + 1):
        rest = 10 ** (places - length)
        first, last = -(-least // rest), greatest // rest
        if first <= last:
            found += of_digits(str(first).zfill(length), str(last).zfill(length))
    return f"(?:\\.{either(found)})" + ("?" if least == 0 else "")


def of_digits(first: str, last: str) -> list[str]:
    """Patterns of the texts of as many digits that are from the first to the last."""
    if not first:
        return [""]
    rest = len(first) - 1
    if first[1:] == "0" * rest and last[1:] == "9" * rest:
        return [digit(first[0], last[0]) + repeated(rest, rest)]
    if first[0] == last[0]:
        return [first[0] + it for it in of_digits(first[1:], last[1:])]
    below, above = chr(ord(first[0]) + 1), chr(ord(last[0]) - 1)
    found = [first[0] + it for it in of_digits(first[1:], "9" * rest)]
    found += of_digits(below + "0" * rest, above + "9" * rest) if below <= above else []
    return found + [last[0] + it for it in of_digits("0" * rest, last[1:])]


def digit(first: str, last: str) -> str:
    return first if first == last else f"[{first}-{last}]"


def repeated(least: int, greatest: int) -> str:
    """From `least` to `greatest` digits."""
    if least == greatest:
        return "[0-9]" * least if least < 2 else f"[0-9]{{{least}}}"
    return f"[0-9]{{{least},{greatest}}}"


def either(patterns: list[str]) -> str:
    return patterns[0] if len(patterns) == 1 else f"(?:{'|'.join(patterns)})"
