"""hostile.py PROGRAM COMPLETE: hostile texts, sizes that double, and long plays, each against its bar. bench/hostile
starts it.

PROGRAM is pinball, proved: of an unproved build valgrind reports no count. COMPLETE is the folder of examples/complete.
Instructions are counted by valgrind. Processor time and peak memory are those of the kernel's account. The status in
brackets is that of the smaller of the two texts. This ends with status 1 if a bar is not met."""
import pathlib
import statistics
import sys
import tempfile
from collections.abc import Callable

import folders
import games
import limits
import texts
import tiny
from bars import Bars
from counting import NOTHING, counted
from measuring import KIB, MIB, Cost, used

# The instructions of a text are counted at one size, as those of a dear text take long to count, and its memory at
# another, the most that a text has: there the program itself weighs little.
COUNTED = 256 * KIB
WEIGHED = MIB
PARTS = (4, 2, 1)
LOGS = (8 * MIB, 16 * MIB)
RUNS = 3
# The bars. Those of instructions are so many times what the ordinary text took in version 1.0.0, for each byte: it takes
# fewer now, and the bars stay.
ORDINARY = 92
TIMES_ORDINARY = 5
TIMES_FOUND = 6  # of the texts that were found later
MEMORY_OF_TEXT = 40  # bytes for each byte of a bundle
DOUBLED = 2.05
DOUBLED_LOG = 2.1
MEMORY_OF_LOG = 1.2  # bytes for each byte of a log


def made(size: int, of_seven: int) -> dict[str, bytes]:
    """Bundles of texts of so many bytes: first an ordinary one, and last seven modes with texts of `of_seven` bytes."""
    part = MIB // size
    bundles = {"an ordinary text": texts.bundle(texts.ordinary(part))}
    bundles |= {what: texts.bundle(text) for what, text in texts.hostile(part).items()}
    return bundles | tiny.texts(size, of_seven)


def dear_texts(program: str, path: pathlib.Path, bars: Bars) -> None:
    """A line for each text: its instructions for each byte, beside those of the ordinary text, and its memory."""
    print(f"check of texts: instructions for each of {COUNTED} bytes, bar {TIMES_ORDINARY} times {ORDINARY},")
    print(f"and {TIMES_FOUND} times that from '{next(iter(tiny.FOUND))}' on;")
    print(f"memory for each of {WEIGHED} bytes, bar {MEMORY_OF_TEXT} bytes")
    large = made(WEIGHED, WEIGHED) | tiny.found(WEIGHED)
    found = tiny.found(COUNTED)
    for what, bundle in (made(COUNTED, COUNTED // tiny.MODES) | found).items():
        most = TIMES_FOUND if what in found else TIMES_ORDINARY
        path.write_bytes(bundle)
        count = counted([program, "check"], path)
        each = count.instructions / len(bundle)
        ratio = each / ORDINARY
        print(f"{f'{what} ({count.status})':38} {each:7.0f} {ratio:6.2f} {bars.judged(ratio, most)}", end="")
        path.write_bytes(large[what])
        cost = used([program, "check"], path)
        memory = cost.memory / len(large[what])
        print(f" {memory:7.1f} B a byte {bars.judged(memory, MEMORY_OF_TEXT)}", end="")
        print(f" {cost.seconds * 1000:7.0f} ms", flush=True)


def doubles(bars: Bars, what: str, size: int, count: Callable[[int], int]) -> None:
    """Instructions of parts of a configuration, each twice as large as the one before."""
    print(f"\ncheck of {what}: millions of instructions, bar {DOUBLED} times those of half as many")
    before = None
    for part in PARTS:
        instructions = count(part)
        print(f"{size // part:6} {instructions / 1e6:10.1f}", end="")
        if before:
            ratio = instructions / before
            print(f" {ratio:6.2f} {bars.judged(ratio, DOUBLED)}", end="")
        print(flush=True)
        before = instructions


def accepted(command: list[str], path: pathlib.Path) -> int:
    """The instructions of a check whose answer is yes."""
    count = counted(command, path)
    if count.status != 0:
        sys.exit(f"{command} with {path}: status {count.status}")
    return count.instructions


def all_that_doubles(program: str, room: pathlib.Path, bars: Bars) -> None:
    def of_folder(part: int) -> int:
        path = room / f"folder_{part}"
        folders.folder(path, folders.MODES // part)
        return accepted([program, "check", str(path)], NOTHING)

    def of_bundle(bundle: bytes) -> int:
        path = room / "bundle"
        path.write_bytes(bundle)
        return accepted([program, "check"], path)

    doubles(bars, "a folder of modes", folders.MODES, of_folder)
    doubles(bars, "modes with events of their own", folders.MODES, lambda part: of_bundle(folders.modes(part)))
    devices = folders.BALL_DEVICES
    doubles(bars, "ball devices among counters", devices, lambda part: of_bundle(folders.ball_devices(part)))


def long_plays(program: str, room: pathlib.Path, complete: pathlib.Path, bars: Bars) -> None:
    plays = {
        "examples/complete": (folders.read(complete, games.WITHOUT), games.COMPLETE, 1),
        "a machine at the limits of the plan": (limits.machine(), limits.switches(), limits.BALLS),
    }
    for what, (bundle, switches, balls) in plays.items():
        path = room / "bundle"
        path.write_bytes(bundle)
        print(f"\nplay on {what}: processor time, bar {DOUBLED_LOG} times that of half the log; memory, bar")
        print(f"{MEMORY_OF_LOG} bytes for each of the log and {MEMORY_OF_TEXT} for each of {len(bundle)} of the bundle")
        logs = [room / f"log_{size}" for size in LOGS]
        for log, size in zip(logs, LOGS):
            log.write_text(games.log(switches, balls, size))
        half, whole = played(program, path, logs)
        most = MEMORY_OF_LOG * LOGS[1] + MEMORY_OF_TEXT * len(bundle)
        ratio = whole.seconds / half.seconds
        print(f"{LOGS[0]:9} bytes {half.seconds * 1000:8.0f} ms {' ' * 14} {half.memory / MIB:6.1f} MiB")
        print(
            f"{LOGS[1]:9} bytes {whole.seconds * 1000:8.0f} ms {ratio:6.2f} {bars.judged(ratio, DOUBLED_LOG)} "
            f"{whole.memory / MIB:6.1f} MiB of {most / MIB:.1f} {bars.judged(whole.memory, most)}",
            flush=True,
        )


def played(program: str, bundle: pathlib.Path, logs: list[pathlib.Path]) -> list[Cost]:
    """The median time and the greatest memory of plays of these logs. Each is played once, and then all of them again:
    so if the machine's speed changes, it changes for all."""
    results = [[used([program, "play", str(log)], bundle) for log in logs] for _ in range(RUNS)]
    costs = []
    for runs in zip(*results):
        if any(cost.status != 0 for cost in runs):
            sys.exit(f"play on {bundle} is refused")
        costs.append(Cost(statistics.median(cost.seconds for cost in runs), max(cost.memory for cost in runs), 0))
    return costs


def main() -> None:
    if len(sys.argv) != 3:
        sys.exit(__doc__)
    program, bars = sys.argv[1], Bars()
    with tempfile.TemporaryDirectory(prefix="pinball_bench") as name:
        room = pathlib.Path(name)
        dear_texts(program, room / "bundle", bars)
        all_that_doubles(program, room, bars)
        long_plays(program, room, pathlib.Path(sys.argv[2]), bars)
    sys.exit(bars.status())


main()
