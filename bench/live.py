"""live.py PROGRAM LIVE FOLDER [RIG]: what a line costs when it is answered live, and how soon. bench/live starts it.

PROGRAM is pinball, and LIVE pinball_live, proved. First it counts the instructions of each line of two logs: for
`play`, and for LIVE, which reads the same log from a file. One log is that of FOLDER, examples/complete, again and
again, and the other only waits. Of each a short log is taken away from a longer one, so that reading the configuration
and making the machine are left out. Then it plays a game of FOLDER over pipes, line by line, and hits a slingshot many
times: it times each hit from before its line is written until the line of the coil has been read, and until the answer
has ended. Beside it stand the same lines through `cat`: what pipes, the kernel and Python take. At last it times the
first change of a switch, and later ones, of a machine in which each writes 90,000 lines. RIG is example_rig, proved,
whose board is a function of its own: of a step of 90,000 lines, of which the second is a coil's, it counts the
instructions before the board has that command. It ends with status 1 if a line costs more than its bar, or the times
do, or the command comes later."""
import dataclasses
import os
import pathlib
import re
import statistics
import subprocess
import sys
import tempfile
import time
from collections.abc import Iterator

from counting import counted

ROUNDS = 40
WAITS = 20_000
HITS = 10_000
MOST_MORE = 900  # instructions a line, above those of `play`
MOST_MICROSECONDS = 200.0  # of 99 in 100 answers
ROOM = 65_536
GAME = (
    "0 s_trough_1 1", "0 s_trough_2 1", "1000 s_start 1", "1100 s_start 0", "1500 s_trough_1 0", "2100 s_plunger 1",
    "2700 s_plunger 0")
SWITCH, COIL = "s_left_sling", b"coil c_left_sling pulse"
POSTS = 300  # of an event, each of which posts another one 299 times
STARTS, CHANGES = 9, 12
MOST_FIRST = 1.3  # times a later change
MOST_BEFORE = 0.1  # of a step's instructions, before the board has the command of its second line
STEP, SEND = "example_rig::take*", "*WireBoardBoard::send*"
PART = re.compile(r"^desc: Trigger: --dump-(\w+)=(\S+).*?^summary: (\d+)", re.MULTILINE | re.DOTALL)
PARTS = {"least": 0, "p50": 500, "p90": 900, "p99": 990, "p99.9": 999, "most": 1000}
MOMENT = re.compile(rb"^\d+", re.MULTILINE)


@dataclasses.dataclass(frozen=True)
class Times:
    """Nanoseconds from a switch line to its coil line, and to the end of the answer."""

    to_coil: list[int]
    to_end: list[int]


def repeated(log: bytes, rounds: int) -> bytes:
    """The log so many times, each time later than the last moment before."""
    length = max(int(at) for at in MOMENT.findall(log)) + 10_000
    return b"".join(
        MOMENT.sub(lambda at, n=n: str(int(at[0]) + n * length).encode(), log) for n in range(rounds))


def waits(count: int) -> bytes:
    return b"".join(b"%d\n" % at for at in range(count))


def instructions(program: str, live: str, folder: str, short: bytes, long: bytes) -> tuple[float, float]:
    """What a line takes by `play`, and live: the difference of the two logs."""
    lines = long.count(b"\n") - short.count(b"\n")
    with tempfile.TemporaryDirectory() as name:
        paths = pathlib.Path(name, "short"), pathlib.Path(name, "long")
        for path, log in zip(paths, (short, long), strict=True):
            path.write_bytes(log)
        played = [counted([program, "play", str(path), folder], path).instructions for path in paths]
        answered = [counted([live, folder], path).instructions for path in paths]
    return (played[1] - played[0]) / lines, (answered[1] - answered[0]) / lines


def hits(count: int) -> Iterator[tuple[bytes, bool]]:
    """The lines of a game, and of hits of a slingshot; and which are timed."""
    for line in GAME:
        yield line.encode() + b"\n", False
    for n in range(count):
        yield f"{5000 + 100 * n} {SWITCH} 1\n".encode(), True
        yield f"{5020 + 100 * n} {SWITCH} 0\n".encode(), False


def is_whole(got: bytes, live: bool) -> bool:
    """Whether an answer has ended: live with the line `due`, and of `cat` with its only line."""
    return got.endswith(b"\n") and (not live or got.startswith(b"due ") or b"\ndue " in got)


def timed(command: list[str], wanted: bytes, live: bool) -> Times:
    found = Times([], [])
    with subprocess.Popen(command, bufsize=0, stdin=subprocess.PIPE, stdout=subprocess.PIPE) as process:
        assert process.stdin and process.stdout
        inlet, outlet = process.stdin.fileno(), process.stdout.fileno()
        if live:
            os.read(outlet, ROOM)
        for line, is_timed in hits(HITS):
            got, coil = b"", 0
            begun = time.perf_counter_ns()
            os.write(inlet, line)
            while not is_whole(got, live):
                piece = os.read(outlet, ROOM)
                if not piece:
                    sys.exit(f"{command[0]} has ended")
                got += piece
                if not coil and wanted in got:
                    coil = time.perf_counter_ns()
            if is_timed:
                if not coil:
                    sys.exit(f"no {wanted.decode()} in the answer to {line.decode()}{got.decode()}")
                found.to_coil.append(coil - begun)
                found.to_end.append(time.perf_counter_ns() - begun)
        process.stdin.close()
        process.wait()
    return found


def at(times: list[int], part: int) -> float:
    """The time that so many of 1,000 do not pass, in microseconds."""
    return sorted(times)[min(len(times) * part // 1000, len(times) - 1)] / 1000


def show(what: str, times: list[int]) -> None:
    print(f"{what:32}" + "".join(f"{at(times, part):9.1f}" for part in PARTS.values()))


def large(folder: pathlib.Path) -> None:
    """A machine in which a change of a switch writes 90,000 lines."""
    posts, more = ", ".join(["a"] * POSTS), ", ".join(["b"] * (POSTS - 1))
    text = f"#config_version=6\nswitches:\n  s: {{debounce: quick}}\nevent_player:\n  s_active: {posts}\n  a: {more}\n"
    (folder / "config").mkdir()
    (folder / "config/config.yaml").write_text(text)


def changes(live: str, folder: str) -> list[int]:
    """Nanoseconds for each of the first changes after a start."""
    found = []
    with subprocess.Popen([live, folder], bufsize=0, stdin=subprocess.PIPE, stdout=subprocess.PIPE) as process:
        assert process.stdin and process.stdout
        inlet, outlet = process.stdin.fileno(), process.stdout.fileno()
        os.read(outlet, ROOM)
        for n in range(2 * CHANGES):
            begun, last = time.perf_counter_ns(), b""
            os.write(inlet, b"%d s %d\n" % (n, 1 - n % 2))
            while b"\ndue -\n" not in last:
                piece = os.read(outlet, ROOM)
                if not piece:
                    sys.exit(f"{live} has ended")
                last = last[-8:] + piece
            if n % 2 == 0:
                found.append(time.perf_counter_ns() - begun)
        process.stdin.close()
    return found


def first_change(live: str) -> bool:
    """Whether the first change takes as long as a later one."""
    with tempfile.TemporaryDirectory() as name:
        large(pathlib.Path(name))
        all_changes = [changes(live, name) for _ in range(STARTS)]
    first = statistics.median(it[0] for it in all_changes) / 1e6
    later = statistics.median(time for it in all_changes for time in it[1:]) / 1e6
    ratio = first / later
    judged = "met" if ratio <= MOST_FIRST else "not met"
    print(f"\na change of 90,000 lines: the first {first:.2f} ms, a later one {later:.2f} ms, {ratio:.2f} times, "
          f"bar {MOST_FIRST} {judged}")
    return ratio <= MOST_FIRST


def slingshot(folder: pathlib.Path) -> None:
    """A machine for example_rig, in which the slingshot's switch writes 90,000 lines: the second is that of its coil."""
    posts, more = ", ".join(["a"] * POSTS), ", ".join(["b"] * (POSTS - 1))
    text = f"""#config_version=6
switches: {{s_start: {{}}, s_sling: {{}}, s_ramp: {{debounce: quick}}}}
coils: {{c_sling: {{}}, c_gate: {{default_hold_power: 0.25}}}}
autofire_coils:
  a_sling: {{coil: c_sling, switch: s_sling, enable_events: s_start_active}}
coil_player:
  s_ramp_active: {{c_gate: enable}}
event_player:
  s_sling_active: {posts}
  a: {more}
"""
    (folder / "config").mkdir()
    (folder / "config/config.yaml").write_text(text)


def parts_of_steps(rig: str, folder: str) -> list[tuple[str, int]]:
    """What the instructions of example_rig end with, a part at a time: a step begins or ends, or the board is called."""
    out = pathlib.Path(folder, "counts")
    words = ["valgrind", "--tool=callgrind", f"--callgrind-out-file={out}", f"--dump-before={STEP}",
             f"--dump-after={STEP}", f"--dump-before={SEND}", rig, folder]
    ran = subprocess.run(words, stdout=subprocess.PIPE, stderr=subprocess.STDOUT, text=True)
    if ran.returncode:
        sys.exit(f"{rig}: status {ran.returncode}\n{ran.stdout}")
    files = sorted(out.parent.glob("counts.*"), key=lambda it: int(it.suffix[1:]))
    found = [PART.search(it.read_text()) for it in files]
    return [("send" if "send" in it[2] else it[1], int(it[3])) for it in found if it]


def soon_at_the_board(rig: str) -> bool:
    """Whether the board has a command soon after the line of its switch."""
    with tempfile.TemporaryDirectory() as name:
        slingshot(pathlib.Path(name))
        parts = parts_of_steps(rig, name)
    # the first command of all is that of the slingshot
    n = [what for what, _ in parts].index("send")
    before, after = parts[n][1], parts[n + 1][1]
    ratio = before / (before + after)
    judged = "met" if ratio <= MOST_BEFORE else "not met"
    print(f"\na step of 90,000 lines: {before + after:,} instructions, {before:,} of them before the board has the command "
          f"of the second line, {ratio:.5f} of all, bar {MOST_BEFORE} {judged}")
    return ratio <= MOST_BEFORE


def main(program: str, live: str, folder: str, rig: str | None = None) -> int:
    is_well = True
    log = pathlib.Path(folder, "log").read_bytes()
    logs = {
        "examples/complete": (repeated(log, 1), repeated(log, ROUNDS)),
        "waits": (waits(1), waits(WAITS))}
    print(f"{'instructions a line':32}{'play':>9}{'live':>9}{'more':>9}")
    for what, (short, long) in logs.items():
        played, answered = instructions(program, live, folder, short, long)
        more = answered - played
        is_well &= more <= MOST_MORE
        print(f"{what:32}{played:9.0f}{answered:9.0f}{more:9.0f}" + ("" if more <= MOST_MORE else "  above the bar"))
    print(f"\n{HITS} hits, microseconds".ljust(33) + "".join(f"{name:>9}" for name in PARTS))
    show("cat: the line comes back", timed(["cat"], SWITCH.encode(), live=False).to_coil)
    times = timed([live, folder], COIL, live=True)
    show("switch line to coil line", times.to_coil)
    show("switch line to end of answer", times.to_end)
    if at(times.to_end, PARTS["p99"]) > MOST_MICROSECONDS:
        print(f"p99 is above {MOST_MICROSECONDS:.0f} microseconds")
        is_well = False
    is_well &= first_change(live)
    if rig:
        is_well &= soon_at_the_board(rig)
    return 0 if is_well else 1


if __name__ == "__main__":
    sys.exit(main(*sys.argv[1:]))
