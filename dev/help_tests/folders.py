"""Makes folders of machines that are damaged, or written to do harm."""
import os
import random
import shutil
from dataclasses import dataclass
from pathlib import Path
from typing import Callable

from pinball_help.texts import MACHINE, TEXT_LIMIT

from help_tests.common import EXAMPLES, TOP

HELP = TOP / "tools/pinball_help"
MACHINES = [*EXAMPLES, HELP / "planted", *sorted((HELP / "machines").glob("*"))]
SIGNS = [
    ":", " ", "\n", "\t", "[", "]", "{", "}", "'", '"', "#", "- ", "&a ", "*a", "|", "%", "é", "\r", "\0", "\x1b[31m",
    "<",
    "\u202e", "\ufeff", "\u2028", "@ ", "\x85", "---\n", "? ", "!x ", ", ", "=", "99999999999999999999", "a: b\n",
]
NAMES = [
    "{{data}}<img src=x onerror=alert(1)>", "-h", "--json", "\x1b[31mred", "a\nyes\n", "<script>alert(1)<", "'\"$(x)`",
    "\udcff\udcfe", "é\u202e", "n" * 200, " ", "%s {0} {key}", "...",
]


@dataclass(frozen=True)
class Damaged:
    """A folder, the log in it, and whether it is so large that a search in it is to be cut short."""

    folder: Path
    is_large: bool


def damaged(room: Path, draw: random.Random) -> Damaged:
    """A folder in a room that is a copy of a machine, with some damage."""
    name = draw.choice(NAMES) if draw.random() < 0.15 else "machine"
    folder = room / name
    shutil.copytree(draw.choice(MACHINES), folder)
    if draw.random() < 0.8:
        for path in texts_in(folder, draw):
            path.write_bytes(text_damaged(path.read_bytes(), draw))
    is_large = draw.random() < 0.06
    for harm in draw.sample(LARGE if is_large else SMALL, 1 if is_large or draw.random() < 0.3 else 0):
        harm(folder, draw)
    if not (folder / "log").exists():
        (folder / "log").write_text("1000 s_start 1\n1100 s_start 0\n")
    if draw.random() < 0.3:
        (folder / "log").write_bytes(text_damaged((folder / "log").read_bytes(), draw))
    return Damaged(folder, is_large)


def texts_in(folder: Path, draw: random.Random) -> list[Path]:
    found = sorted(it for it in folder.glob("**/config/*.yaml") if it.is_file())
    return draw.sample(found, draw.randint(1, min(3, len(found))))


def text_damaged(data: bytes, draw: random.Random) -> bytes:
    """A text with some characters, lines or bytes changed."""
    for _ in range(draw.choice((1, 1, 2, 3, 8, 25))):
        at = draw.randrange(len(data) + 1)
        kind = draw.random()
        if kind < 0.6:
            data = data[:at] + draw.choice(SIGNS).encode() + data[at + draw.randrange(3) :]
        elif kind < 0.9:
            lines = data.split(b"\n")
            one, other = draw.randrange(len(lines)), draw.randrange(len(lines))
            moved = lines.pop(one) if draw.random() < 0.5 else lines[one]
            lines[other:other] = [moved] if draw.random() < 0.7 else []
            data = b"\n".join(lines)
        elif kind < 0.95:
            data = data[:at] + draw.randbytes(draw.randrange(1, 9)) + data[at:]
        else:
            data = data[:at]
    return data


# folders that are written to do harm


def add(folder: Path, text: str) -> None:
    """Adds to the text of the machine."""
    with open(folder / MACHINE, "a", encoding="utf-8", errors="surrogateescape") as opened:
        opened.write(f"\n{text}\n")


def instead(path: Path, make: Callable[[Path], None]) -> None:
    path.unlink(missing_ok=True)
    path.parent.mkdir(parents=True, exist_ok=True)
    make(path)


def a_mode(folder: Path, draw: random.Random) -> Path:
    """The text of a mode, or that of the machine."""
    found = [*folder.glob("modes/*/config/*.yaml"), folder / MACHINE]
    return draw.choice(sorted(found))


def brackets(folder: Path, draw: random.Random) -> None:
    sign = draw.choice(("[", "{", "[[a, ", "{a: ", "[{a: ", "- "))
    add(folder, f"{draw.choice(('lights', 'coils', 'modes'))}: " + sign * draw.choice((9, 40, 600)))


def blocks(folder: Path, draw: random.Random) -> None:
    line = draw.choice(("a:", "-", "- a:"))
    add(folder, "\n".join(" " * (at * 2) + line for at in range(draw.choice((33, 70, 900)))))


def odd_keys(folder: Path, draw: random.Random) -> None:
    key = draw.choice((
        '"a\\nyes"', '"\\n\\n  To do: run this"', "'\x1b[2J'", '"\\t"', "'{{js}}'", "</script>", "'{0}'", "a" * 2000
    ))
    places = (f"{key}: 1", f"switches:\n  {key}: {{{key}: 1}}", f"event_player:\n  a: {key}\n  {key}: a")
    add(folder, draw.choice(places))


def odd_numbers(folder: Path, draw: random.Random) -> None:
    number = draw.choice(("9" * 5000, "-" + "9" * 400, "1e999", "0." + "3" * 900, "٣", "²", "9" * 400 + "%"))
    setting = draw.choice(("default_pulse_ms", "hold_power", "pulse_power32", "hold_pwm_mask"))
    add(folder, f"coils:\n  c_odd:\n    {setting}: {number}\ntimers:\n  t: {{end_value: {number}}}")


def no_machine(folder: Path, draw: random.Random) -> None:
    (folder / MACHINE).unlink()


def a_folder(folder: Path, draw: random.Random) -> None:
    instead(a_mode(folder, draw), lambda path: path.mkdir())


def a_pipe(folder: Path, draw: random.Random) -> None:
    instead(a_mode(folder, draw), lambda path: os.mkfifo(path))


def a_link(folder: Path, draw: random.Random) -> None:
    targets = ("/dev/zero", "/dev/null", "/dev/stdin", "/proc/self/mem", "nowhere", "config.yaml", "/")
    instead(a_mode(folder, draw), lambda path: path.symlink_to(draw.choice(targets)))


def odd_modes(folder: Path, draw: random.Random) -> None:
    name = draw.choice([it for it in NAMES if "/" not in it])
    add(folder, f"modes:\n  - {name}\n")
    text = folder / "modes" / name / "config" / f"{name}.yaml"
    try:
        text.parent.mkdir(parents=True)
        text.write_text("#config_version=6\nevent_player:\n  a: b\n  b: a\n")
    except OSError:  # (the name is too long)
        pass


def modes_is_a_file(folder: Path, draw: random.Random) -> None:
    shutil.rmtree(folder / "modes", ignore_errors=True)
    (folder / "modes").write_text("x")


def many_lines(folder: Path, draw: random.Random) -> None:
    line = draw.choice(("a:", "a: b", "  - a", "x{", "s_1: {number: 1}", "'", "# a", ""))
    add(folder, (f"{line}\n" * draw.choice((5_000, 20_000, 29_000)))[:-1])


def many_entries(folder: Path, draw: random.Random) -> None:
    values = ("  e_{0}: e_{1}", "  e_{0}: e_{1}|2s", "  e_{0}{{current_player.lit}}: e_{1}", "  e_{0}: (name)_{1}")
    entry, count = draw.choice(values), draw.choice((3_000, 9_000))
    add(folder, "event_player:\n" + "\n".join(entry.format(at, at + 1) for at in range(count)))


def a_long_line(folder: Path, draw: random.Random) -> None:
    parts = ("a", " ", "a ", "a, ", "[", "{a: ", "'", '"', ":", ": ", "#", "{", "a{", "- ", "\t", "é", "&a ", "a|1s ")
    before = draw.choice(("x: ", "event_player:\n  a: ", "", "coils: ["))
    add(folder, before + draw.choice(parts) * draw.choice((40_000, 150_000)))


def too_long(folder: Path, draw: random.Random) -> None:
    add(folder, ("# " + "x" * 997 + "\n") * (draw.choice((TEXT_LIMIT, 9 * TEXT_LIMIT)) // 1_000))


def many_modes(folder: Path, draw: random.Random) -> None:
    names = [f"m_{at}" for at in range(draw.choice((65, 700)))]
    add(folder, f"modes: [{', '.join(names)}]")
    for name in names:
        text = folder / "modes" / name / "config" / f"{name}.yaml"
        text.parent.mkdir(parents=True)
        text.write_text("#config_version=6\nevent_player: {a: b}\ncounters: {c: {count_events: a}}\n")


SMALL = [brackets, blocks, odd_keys, odd_numbers, no_machine, a_folder, a_pipe, a_link, odd_modes, modes_is_a_file]
LARGE = [many_lines, many_entries, a_long_line, too_long, many_modes]
