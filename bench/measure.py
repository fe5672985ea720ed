"""measure.py PROGRAM PLAIN COLLIDE COMPLETE RUNS [READER ..]: what `check` and `play` cost, beside others on the same
texts, and against their bars. bench/run starts it.

PROGRAM is pinball, proved: of an unproved build valgrind reports no count. PLAIN and COLLIDE are what plain/ and
collide.rs are built to, and COMPLETE is the folder of examples/complete. A READER reads the YAML file that its word
names. Each is a path. Each line of output has millions of instructions, their ratio to those of another line, the wall
time in ms (the median of RUNS runs) or of `play` the processor time (the least of RUNS runs), its ratio, peak memory in
MiB, and bytes of memory for each byte of text. An exit status is in brackets. This ends with status 1 if a bar is not
met. Wants Debian's /usr/bin/python3. What it lacks of python3-yaml and fy-tool it names, and leaves out."""
import dataclasses
import os
import pathlib
import platform
import shutil
import subprocess
import sys
import tempfile
from collections.abc import Iterator

import cascades
import coils
import devices
import folders
import game
import games
import limits
import stacked
import texts
import waits
from bars import Bars
from counting import NOTHING, counted, counted_of_log
from measuring import MIB, Cost, least_in_turn, measured, measured_in_turn

PYTHON = "/usr/bin/python3"
C_LOADER = "python3-yaml, CSafeLoader"
BEST_READER = "yaml-rust"
LOAD = "import sys, yaml; yaml.load(open(sys.argv[1], 'rb'), yaml.CSafeLoader)"
START = "import sys, yaml"
PARTS = (8, 4, 2, 1)
# The bars.
OF_BEST_READER = 0.27  # of its instructions
FOLDER_OF_BEST_READER = 0.35
OF_C_LOADER = 0.03  # of its time
MEMORY_OF_ORDINARY = 9  # bytes for each byte
NAMES = 5  # times the instructions of the ordinary text
DOUBLED = 2.05  # instructions
MODES_OF_EVENTS = 1.5  # instructions for each byte
OF_PLAIN = 1.15  # of its instructions
TIME_OF_PLAIN = 1.3
AT_THE_LIMITS_OF_PLAIN = 1.4
TIME_AT_THE_LIMITS_OF_PLAIN = 1.6
WAITS = 1.5  # times the instructions with one switch


@dataclasses.dataclass(frozen=True)
class Both:
    """Instructions, and what the kernel's account has."""

    instructions: float
    cost: Cost

    def show(self, what: str, size: int, base: "Both | None" = None) -> None:
        """A line of the table, with ratios to another line, if one is given."""
        of_instructions, of_time = " " * 7, " " * 7
        if base:
            of_instructions = f"{self.instructions / base.instructions:7.2f}"
            of_time = f"{self.cost.seconds / base.cost.seconds:7.2f}"
        count = f"{self.instructions / 1e6:9.1f} M {of_instructions}"
        time = f"{self.cost.seconds * 1000:9.1f} ms {of_time}"
        memory = f"{self.cost.memory / MIB:7.1f} MiB {self.cost.memory / size:6.1f} B a byte"
        print(f"{what:34} {count} {time} {memory}", flush=True)


@dataclasses.dataclass(frozen=True)
class Play:
    """A log, the configuration on which it is played, and the most MiB of memory that this may take."""

    what: str
    bundle: bytes
    log: str
    memory: float
    instructions: float = OF_PLAIN
    time: float = TIME_OF_PLAIN


@dataclasses.dataclass(frozen=True)
class Bench:
    program: str
    plain: str
    collide: str
    complete: pathlib.Path
    room: pathlib.Path
    runs: int
    readers: list[str]
    bars: Bars

    def check(self, text: str) -> Both:
        return self.check_in_turn([texts.bundle(text)])[0]

    def check_in_turn(self, bundles: list[bytes]) -> list[Both]:
        paths = [self.room / f"checked_{n}.bundle" for n in range(len(bundles))]
        for path, bundle in zip(paths, bundles):
            path.write_bytes(bundle)
        command = [self.program, "check"]
        costs = measured_in_turn([command] * len(paths), paths, self.runs)
        return [Both(counted(command, path).instructions, cost) for path, cost in zip(paths, costs)]

    def run(self, command: list[str], path: pathlib.Path) -> Both:
        return Both(counted(command, path).instructions, measured(command, path, self.runs))


def other_readers(bench: Bench, path: str) -> dict[str, list[str]]:
    """The commands of those that are installed and read a YAML file."""
    found = {}
    if subprocess.run([PYTHON, "-c", "import yaml; yaml.CSafeLoader"], capture_output=True).returncode == 0:
        found[C_LOADER] = [PYTHON, "-c", LOAD, path]
        found["python3 that imports yaml alone"] = [PYTHON, "-c", START, path]
    else:
        print("left out: python3-yaml with its C loader, which is Debian's python3-yaml", file=sys.stderr)
    if fy_tool := shutil.which("fy-tool"):
        found["fy-tool, no output"] = [fy_tool, "--null-output", "--dump", path]
    else:
        print("left out: fy-tool, which is in Debian's libfyaml-utils", file=sys.stderr)
    return found | {pathlib.Path(reader).stem: [reader, path] for reader in bench.readers}


def checks_ordinary(bench: Bench) -> Both:
    """Gives what `check` costs, to which later lines are a ratio."""
    folder = bench.room / "ordinary"
    path, text = folder / "config" / "config.yaml", texts.ordinary()
    folders.write(path, text)
    ours = bench.check(text)
    print(f"an ordinary configuration of {len(text)} bytes (status {ours.cost.status})")
    ours.show("pinball check", len(text), ours)
    of_folder = bench.run([bench.program, "check", str(folder)], NOTHING)
    of_folder.show("pinball check of a folder", len(text), ours)
    others = {}
    for what, command in other_readers(bench, str(path)).items():
        others[what] = bench.run(command, path)
        if others[what].cost.status != 0:
            sys.exit(f"{what}: status {others[what].cost.status}, so that its time says nothing")
        others[what].show(what, len(text), ours)
    if best := others.get(BEST_READER):
        what = f"instructions, of those of {BEST_READER}"
        bench.bars.judge(what, ours.instructions / best.instructions, OF_BEST_READER)
        bench.bars.judge(f"of a folder, {what}", of_folder.instructions / best.instructions, FOLDER_OF_BEST_READER)
    if loader := others.get(C_LOADER):
        bench.bars.judge(f"time, of that of {C_LOADER}", ours.cost.seconds / loader.cost.seconds, OF_C_LOADER)
    bench.bars.judge("bytes of memory for each byte", ours.cost.memory / len(text), MEMORY_OF_ORDINARY)
    return ours


def checks_names(bench: Bench, base: Both) -> None:
    """Names that would lie at one place of a hash table whose hash is known beforehand, and as many others."""
    print("\n4,096 names in lists of 1,000 posts, as a ratio to the ordinary text")
    chosen = subprocess.run([bench.collide, "4096"], stdout=subprocess.PIPE, text=True, check=True).stdout.split()
    for what, names in (("names that collide", chosen), ("other names", [f"q{n:05}" for n in range(4096)])):
        text = texts.uses(names)
        ours = bench.check(text)
        ours.show(f"{what} ({ours.cost.status})", len(text), base)
        bench.bars.judge("instructions, of those of the ordinary text", ours.instructions / base.instructions, NAMES)


def checks_growth(bench: Bench) -> None:
    """Events and modes are measured in turn, since each is compared with the other and with its own parts."""
    ordinary = [texts.bundle(texts.ordinary(part)) for part in PARTS]
    events = [texts.bundle("".join(cascades.largest(part))) for part in PARTS]
    modes = [stacked.largest(part) for part in PARTS]
    rows = [texts.bundle("".join(devices.largest(part))) for part in PARTS]
    counts = {
        f"events that feed each other, with {cascades.POSTS:,} posts": (cascades.EVENTS, events),
        f"bindings of {stacked.MODES} modes": (stacked.BINDINGS, modes),
        "devices": (devices.ROWS, rows),
        "bytes of an ordinary text": (MIB, ordinary),
    }
    costs = bench.check_in_turn([bundle for _, bundles in counts.values() for bundle in bundles])
    of_part = iter(costs)
    for what, (count, bundles) in counts.items():
        print(f"\nhow the cost of check grows with {what}, as a ratio to the line above")
        shows_growth(bench, count, bundles, [next(of_part) for _ in PARTS])
    each = [cost.instructions / len(bundles[-1]) for cost, bundles in zip(costs[3:8:4], (events, modes))]
    what = "bindings of modes, instructions for each byte, of those of events"
    bench.bars.judge(what, each[1] / each[0], MODES_OF_EVENTS)


def shows_growth(bench: Bench, count: int, bundles: list[bytes], costs: list[Both]) -> None:
    """A line for each part."""
    before = None
    for part, bundle, cost in zip(PARTS, bundles, costs):
        cost.show(f"{count // part} ({cost.cost.status})", len(bundle), before)
        if before:
            bench.bars.judge("instructions, of those of a half", cost.instructions / before.instructions, DOUBLED)
        before = cost


def same_output(first: list[str], second: list[str], bundle: pathlib.Path) -> tuple[bool, int, int]:
    """Whether two commands give the same output, and the bytes and lines of that of the first. They run at once, so
    that some 800 MB need not be kept."""
    same, size, lines = True, 0, 0
    with bundle.open("rb") as one, bundle.open("rb") as other:
        left = subprocess.Popen(first, stdin=one, stdout=subprocess.PIPE)
        right = subprocess.Popen(second, stdin=other, stdout=subprocess.PIPE)
    with left, right:
        while True:
            ours, theirs = left.stdout.read(MIB), right.stdout.read(MIB)
            same &= ours == theirs
            size += len(ours)
            lines += ours.count(b"\n")
            if not ours and not theirs:
                break
    for process in (left, right):
        if process.returncode != 0:
            sys.exit(f"{process.args}: status {process.returncode}")
    return same, size, lines


def all_plays(complete: pathlib.Path) -> Iterator[Play]:
    log = cascades.log()
    yield Play("cascades", texts.bundle("".join(cascades.machine())), log, 18.8)
    yield Play(f"{stacked.STACKED} stacked modes", stacked.machine(), log, 18.4)
    yield Play(f"{devices.BLOCKS} blocks, {devices.TIMERS} timers", devices.machine(), devices.log(), 16.6)
    yield Play(f"flippers, {coils.SLINGSHOTS} slingshots", coils.machine(), coils.log(), 16.7)
    yield Play(f"a game, {game.ACTIONS} actions each", game.machine(), game.log(), 4.3)
    log = games.log(games.COMPLETE, 1, 16 * MIB)
    yield Play("examples/complete, with balls", folders.read(complete, games.WITHOUT), log, 18.3)
    log = games.log(limits.switches(), limits.BALLS, 16 * MIB)
    bars = 26.4, AT_THE_LIMITS_OF_PLAIN, TIME_AT_THE_LIMITS_OF_PLAIN
    yield Play("a machine at the limits of the plan", limits.machine(), log, *bars)


def plays_both(bench: Bench, play: Play) -> None:
    """Plays a log by both programs, which have to write the same. The instructions are those of its first MiB."""
    bundle, log = bench.room / "played.bundle", bench.room / "played.log"
    bundle.write_bytes(play.bundle)
    log.write_text(play.log)
    programs = [bench.program, "play"], [bench.plain]
    ours, theirs = ([*program, str(log)] for program in programs)
    same, size, lines = same_output(ours, theirs, bundle)
    read = len(play.log)
    both = "the same" if same else "NOT THE SAME"
    print(f"\nplay of a log of {read} bytes, {play.what}: {size} bytes of output in {lines} lines, {both} from both")
    if not same:
        sys.exit("the outputs of play differ, so that their times say nothing")
    costs = least_in_turn([ours, theirs], [bundle, bundle], bench.runs)
    counts = [counted_of_log(program, bundle, log, MIB) * read for program in programs]
    ours, theirs = (Both(count, cost) for count, cost in zip(counts, costs))
    theirs.show("plain Rust", read, theirs)
    ours.show("pinball play", read, theirs)
    bench.bars.judge("instructions, of those of plain Rust", ours.instructions / theirs.instructions, play.instructions)
    bench.bars.judge("processor time, of that of plain Rust", ours.cost.seconds / theirs.cost.seconds, play.time)
    bench.bars.judge("MiB of memory", ours.cost.memory / MIB, play.memory)


def plays_waits(bench: Bench) -> None:
    log, command = bench.room / "waits.log", [bench.program, "play"]
    log.write_text(waits.log())
    size = log.stat().st_size
    print(f"\nplay of a log of {size} bytes that only waits, as a ratio to that with one switch")
    base = None
    for count in waits.SWITCHES:
        bundle = bench.room / "waits.bundle"
        bundle.write_bytes(texts.bundle("".join(waits.switches(count))))
        instructions = counted_of_log(command, bundle, log, MIB) * size
        [cost] = least_in_turn([[*command, str(log)]], [bundle], bench.runs)
        ours = Both(instructions, cost)
        base = base or ours
        ours.show(f"{count} switches ({ours.cost.status})", size, base)
    bench.bars.judge("instructions, of those with one switch", ours.instructions / base.instructions, WAITS)


def main() -> None:
    if len(sys.argv) < 6:
        sys.exit(__doc__)
    program, plain, collide, complete, runs, *readers = sys.argv[1:]
    cpu = next((line.split(":")[1].strip() for line in open("/proc/cpuinfo") if line.startswith("model name")), "?")
    print(f"{platform.system()} {platform.machine()}, {cpu}, {os.cpu_count()} processors, median of {runs} runs\n")
    with tempfile.TemporaryDirectory(prefix="pinball_bench") as room:
        rest = pathlib.Path(complete), pathlib.Path(room), int(runs), readers, Bars()
        bench = Bench(program, plain, collide, *rest)
        ordinary = checks_ordinary(bench)
        checks_names(bench, ordinary)
        checks_growth(bench)
        for play in all_plays(bench.complete):
            plays_both(bench, play)
        plays_waits(bench)
    sys.exit(bench.bars.status())


main()
