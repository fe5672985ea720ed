"""Damages bundles, certificates and logs: other bytes, other words, texts that are cut, lines doubled or moved."""
import random
import re

MARKS = [b":", b" ", b"\n", b"  ", b"\t", b"[", b"]", b"{", b"}", b",", b"'", b'"', b"#", b"-", b"@", b"a", b"\r\n"]
MARKS += [b"- ", b"&", b"|", b"?", b": ", b" #", b"\\", b"0", b"1", b"%", b"\xc3\xa4", b"\xff", b"\0", b"\r", b"=="]
MARKS += [b"\xef\xbb\xbf", b"\xc2\x85", b"\xe2\x80\xa8", b"---\n", b"...\n", b"''", b"\\n", b"[[", b"}}", b"? "]
ODD_LINES = ["", "event", "event a", "event a/b 1", "event  1", "switch a 1", "bound 1", "event a\t1", "#"]
ODD_LINES += ["switch", "switch a", "switch a/b 1", "switch  1", "switch a\t1", "switches a 1"]
ODD_NUMBERS = ["01", "", "x", "4294967295", "4294967296", "-1", "0", "10000", "100000", "100001", "1 1", " 1"]
HEADERS = [f"pinball-certificate {version}" for version in (1, 1, 2, 3, 0, "02", "2 ", "1 2", 22)]
HEADERS += ["pinball-certificate", "", "pinball-certificate  2", "Pinball-certificate 2"]


def lines_of(data: bytes) -> list[bytes]:
    return re.findall(rb"[^\n]*\n|[^\n]+$", data)


def damage_bytes(draw: random.Random, data: bytes) -> bytes:
    at = draw.randrange(len(data) + 1)
    kind = draw.randrange(6)
    if kind == 0:
        return data[:at] + bytes([draw.randrange(256)]) + data[at + 1 :]
    if kind == 1:
        return data[:at] + draw.choice(MARKS) + data[at:]
    if kind == 2:
        return data[:at] + draw.choice(MARKS) + data[at + 1 :]
    if kind == 3:
        return data[:at] + data[at + draw.choice([1, 1, 2, 5, 40]) :]
    if kind == 4:
        return data[:at] + bytes([data[at] ^ 1 << draw.randrange(8)]) + data[at + 1 :] if at < len(data) else data
    return data[:at] if draw.random() < 0.3 else data[:-1]


def damage_lines(draw: random.Random, data: bytes) -> bytes:
    lines = lines_of(data)
    if not lines:
        return data
    one, other = draw.randrange(len(lines)), draw.randrange(len(lines))
    kind = draw.randrange(5)
    if kind == 0:
        lines.insert(one, lines[other])
    elif kind == 1:
        lines[one], lines[other] = lines[other], lines[one]
    elif kind == 2:
        del lines[one : one + draw.choice([1, 1, 2, 5])]
    elif kind == 3:
        lines[one] = draw.choice([b" ", b"  ", b"\t", b"- ", b"# "]) + lines[one]
    else:
        joined = draw.choice([b" ", b": ", b""]) + (lines[other] if draw.random() < 0.5 else b"\n")
        lines[one] = lines[one].strip() + joined
    return b"".join(lines)


def damage_words(draw: random.Random, data: bytes) -> bytes:
    """A word in place of another one, or another number."""
    words = [*re.finditer(rb"[\w.-]+", data)]
    if not words:
        return data
    one, other = draw.choice(words), draw.choice(words)[0]
    if one[0].isdigit() and draw.random() < 0.7:
        other = str(max(0, int(one[0]) + draw.choice([-1, 1, 1, 2, 9, 1_000]))).encode()
    return data[: one.start()] + other + data[one.end() :]


def damaged(draw: random.Random, data: bytes) -> bytes:
    """The data with one damage or some."""
    for _ in range(draw.choice([1, 1, 1, 2, 3])):
        data = draw.choice([damage_bytes, damage_lines, damage_words])(draw, data)
    return data


def certificate(draw: random.Random, text: bytes) -> bytes:
    """A certificate with other numbers, other lines of switches, another version, or another damage."""
    lines = text.decode().splitlines()
    kind = draw.randrange(14)
    if kind == 0 or kind < 5 and len(lines) < 3:
        return damaged(draw, text)
    at = draw.randrange(1, len(lines)) if kind > 2 else draw.randrange(2, len(lines))
    words = lines[at].split(" ")
    if kind in (1, 2):
        words[-1] = another(draw, words[-1])
        lines[at] = " ".join(words)
    elif kind == 3:
        words[-1] = draw.choice(ODD_NUMBERS)
        lines[at] = " ".join(words)
    elif kind == 4:
        lines[at] = draw.choice(ODD_LINES)
    elif kind == 5:
        lines[1] = f"bound {draw.choice([0, 1, 3, 10, 9_999, 99_999, 100_000, 100_001, 4_294_967_295])}"
    elif kind == 6:
        del lines[at:]
    elif kind == 7:
        lines[0] = draw.choice(HEADERS)
    elif kind == 8:  # version 1 reads no lines of switches
        lines = ["pinball-certificate 1", *(line for line in lines[1:] if not line.startswith("switch "))]
        if draw.random() < 0.3:
            return damaged(draw, "".join(f"{line}\n" for line in lines).encode())
    elif kind == 12:  # nothing but the end of the last line
        return text[:-1]
    elif kind == 13:  # the bound, and all numbers of switches
        is_wrong = [line.startswith(("bound ", "switch ")) for line in lines]
        lines = [re.sub("[0-9]+$", "7", line) if wrong else line for line, wrong in zip(lines, is_wrong)]
    else:
        damage_switches(draw, lines)
    return "".join(f"{line}\n" for line in lines).encode()


def another(draw: random.Random, number: str) -> str:
    return str(max(0, int(number) + draw.choice([-1, 1, 1, 5, -2, 90_000, 200_000])))


def damage_switches(draw: random.Random, lines: list[str]) -> None:
    """Another number in lines of switches, one line less or more, two that change places, or one among the events."""
    places = [at for at, line in enumerate(lines) if line.startswith("switch ")]
    if not places:
        lines.insert(2, "switch s_none 1")
        return
    one, other = draw.choice(places), draw.choice(places)
    kind = draw.randrange(8)
    if kind < 4:
        for at in {one, draw.choice([one, other])}:
            _, name, number = lines[at].split(" ")
            lines[at] = f"switch {name} {another(draw, number)}"
    elif kind == 4:
        del lines[one]
    elif kind == 5:
        lines.insert(other, lines[one])
    elif kind == 6:
        lines[one], lines[other] = lines[other], lines[one]
    else:
        lines.insert(draw.randint(places[-1] + 1, len(lines)), lines.pop(one))
