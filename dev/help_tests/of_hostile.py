"""What tools/pinball-help does with folders, answers and traces that are damaged, or are written to do harm.

Alone, `python3 dev/help_tests/of_hostile.py PROGRAM [COUNT] [SEED]` tries so many damaged folders, else 2,000."""
import os
import random
import re
import resource
import shutil
import sys
import tempfile
import time
import traceback
from dataclasses import dataclass
from itertools import accumulate
from pathlib import Path
from typing import Sequence

if __name__ == "__main__":
    sys.path[:0] = [str(Path(__file__).resolve().parents[2] / it) for it in ("tools", "dev")]
    sys.dont_write_bytecode = True

from help_tests.common import EXAMPLES, IS_UNPROVED, PROGRAM, takes_longer, test
from help_tests.folders import NAMES, Damaged, damaged, text_damaged
from pinball_help import command, messages, trace
from pinball_help.texts import LOG_LIMIT, MACHINE, TEXT_LIMIT, mode_text, read_texts

MOST_SECONDS, MOST_BYTES = 2.0, 200 << 20
FEW = 40  # of the damaged folders that are tried with the other tests
COMMANDS = (
    "errors", "errors --json", "errors --keep", "unused", "unused --json", "picture", "explain", "explain --json",
    "trace",
)


# one command


@dataclass(frozen=True)
class Ran:
    """How a command has ended. `seconds` are of its own work, and of the program's if that is the proved one."""

    status: int  # 99 if it has ended with an exception
    out: str
    complaints: str
    seconds: float
    bytes: int


def run(words: list[str], given: bytes = b"") -> Ran:
    """Runs a command in a process of its own."""
    with tempfile.TemporaryDirectory(prefix="hostile-") as name:
        room = Path(name)
        (room / "in").write_bytes(given)
        child = os.fork()
        if child == 0:
            os._exit(of_child(words, room))
        _, status, used = os.wait4(child, 0)
        code = os.waitstatus_to_exitcode(status)
        of_program, of_tool = (float(it) for it in (room / "used").read_text().split()) if code >= 0 else (0.0, 99.0)
        out, complaints = ((room / it).read_bytes().decode("utf-8", "surrogateescape") for it in ("out", "err"))
        return Ran(code, out, complaints, of_tool + (0 if IS_UNPROVED else of_program), used.ru_maxrss * 1024)


def of_child(words: list[str], room: Path) -> int:
    """Runs a command in this process, with files for its input and output."""
    resource.setrlimit(resource.RLIMIT_CPU, (60, 60))
    if not IS_UNPROVED:  # (an unproved build asks for terabytes that it does not use)
        resource.setrlimit(resource.RLIMIT_AS, (1 << 31, 1 << 31))
    start = time.process_time()
    sys.stdin = open(room / "in", encoding="utf-8")
    sys.stdout, sys.stderr = (open(room / it, "w", encoding="utf-8") for it in ("out", "err"))
    sys.argv = ["pinball-help", *words]
    try:
        status = command.main()
    except SystemExit as error:
        status = error.code if isinstance(error.code, int) else 2
    except BaseException:
        traceback.print_exc()
        status = 99
    sys.stdout.flush()
    if not sys.stderr.closed:
        sys.stderr.flush()
    used = resource.getrusage(resource.RUSAGE_CHILDREN)
    (room / "used").write_text(f"{used.ru_utime + used.ru_stime} {time.process_time() - start}")
    return status


def words_of(name: str, made: Damaged, room: Path) -> list[str]:
    """The words of a command about a folder. A folder whose name begins with `-` is given as a path."""
    folder = str(made.folder)
    program = ["--program", PROGRAM.path]
    if name.startswith("errors"):
        keep = [str(room / "kept")] if name.endswith("--keep") else []
        within = ["--within", "1"] if made.is_large else []
        return [*name.split(), *keep, *within, *program, folder]
    if name == "picture":
        return ["picture", *program, folder, "--log", str(made.folder / "log"), "-o", str(room / "page.html")]
    if name.startswith("explain"):
        return [*name.split(), folder, "--log", str(made.folder / "log")]
    return [*name.split(), *(program + [folder] if name.startswith("unused") else [])]


def wrong(name: str, ran: Ran, room: Path) -> str:
    """What is wrong with how a command has ended; nothing, if nothing is."""
    if ran.status not in (0, 1, 2, 3):
        return f"status {ran.status}: {ran.complaints[-600:]}"
    if ran.status > 1 and not re.search(r"^pinball-help[^:]*: \S", ran.complaints, re.M):
        return f"status {ran.status} without a message: {ran.complaints!r}"
    # (the program takes no path that is not UTF-8, and says so)
    if ran.status == 3 and not re.search("fault: |error: an argument is not UTF-8", ran.complaints):
        return f"the program has not answered: {ran.complaints!r}"
    if ran.status < 2 and not ran.out and not ran.complaints and name not in ("trace", "explain"):
        return f"status {ran.status} without a word"
    if takes_longer(ran.seconds, MOST_SECONDS) or ran.bytes > MOST_BYTES:
        return f"{ran.seconds:.1f} s and {ran.bytes >> 20} MiB"
    # (what a person reads has no control characters; JSON has them as escapes)
    raw = [it for it in ran.out + ran.complaints if it != "\n" and not it.isprintable()]
    if raw:
        return f"prints {raw[0]!r}"
    if re.search(r"^(?:yes|Traceback.*)$", ran.out + ran.complaints, re.M):
        return "a name has begun a line"
    page = room / "page.html"
    if name == "picture" and page.exists() and re.search(r"<img|alert\(1\)<|<script>alert", page.read_text()):
        return "a name has become HTML"
    return ""


# many folders


def given_to(name: str, made: Damaged, draw: random.Random) -> bytes:
    """What a filter reads: an answer or a trace of an example, damaged or not."""
    example = draw.choice(EXAMPLES)
    data = (example / ("expected-play" if name == "trace" else "expected-check")).read_bytes()
    if name.startswith("explain"):
        said = [message.replace("refused ", "refused 3 ", 1) for message in messages.MESSAGES]
        lines = [f"{it} {MACHINE} {draw.randrange(60)} {draw.choice(NAMES)}" for it in draw.sample(said, 6)]
        data = "\n".join(lines).encode("utf-8", "surrogateescape") + b"\n" + data
    return text_damaged(data, draw) if draw.random() < 0.8 else data


def tried(seed: int, commands: tuple[str, ...] = COMMANDS) -> list[str]:
    """Makes the damaged folder of this number, and tries commands on it. Says what is wrong."""
    draw = random.Random(seed)
    found = []
    with tempfile.TemporaryDirectory(prefix="hostile-") as room:
        made = damaged(Path(room), draw)
        for name in commands:
            given = given_to(name, made, draw)
            if words := wrong(name, run(words_of(name, made, Path(room)), given), Path(room)):
                found.append(f"folder {seed}: {name}: {words}")
            shutil.rmtree(Path(room) / "kept", ignore_errors=True)
    return found


@test
def damaged_folders_get_a_message_and_a_status() -> None:
    draw = random.Random(9)
    found = []
    for _ in range(FEW):
        found += tried(draw.randrange(2_000), tuple(draw.sample(COMMANDS, 4)))
    assert not found, "\n".join(found)


# one by one


@test
def what_is_no_file_is_not_read() -> None:
    for make, says in ((os.mkfifo, "is not a file"), (lambda it: it.symlink_to("/dev/zero"), "is not a file"),
                       (Path.mkdir, "directory"), (lambda it: it.symlink_to("nowhere"), "there is no")):
        with tempfile.TemporaryDirectory() as room:
            folder = Path(room)
            (folder / "config").mkdir()
            make(folder / MACHINE)
            for name in "errors", "unused", "picture":
                ran = run([name, "--program", PROGRAM.path, room])
                assert ran.status == 2 and says in ran.complaints, (make, name, ran)


@test
def no_more_is_read_than_the_program_reads() -> None:
    with tempfile.TemporaryDirectory() as room:
        folder, log = Path(room), Path(room) / "log"
        (folder / "config").mkdir()
        (folder / MACHINE).write_bytes(b"#" * (3 * TEXT_LIMIT))
        assert len(read_texts(folder)[MACHINE][0].text) == TEXT_LIMIT + 1
        modes = ", ".join(f"m{at}" for at in range(9))
        for text in f"modes: [{modes}]\n# a\n", "a:\n" * 40_000, "a " * 300_000:
            (folder / MACHINE).write_text(text)
            for at in range(9):
                mode = folder / mode_text(f"m{at}")
                mode.parent.mkdir(parents=True, exist_ok=True)
                mode.write_bytes(b"#" * (TEXT_LIMIT if text[0] == "m" else 0))
            ran = run(["errors", "--program", PROGRAM.path, room])
            assert ran.status == 2 and "more than this tool reads" in ran.complaints, (text[:9], ran)
        (folder / MACHINE).write_text("#config_version=6\n")
        log.write_bytes(b"#" * (LOG_LIMIT + 1))
        ran = run(["explain", room, "--log", str(log)], b"refused 1 3 NoSuchSwitch\n")
        assert ran.status == 2 and "the program reads no longer log" in ran.complaints, ran


@test
def deep_brackets_and_long_numbers_are_read() -> None:
    texts = {"brackets": "lights: " + "[" * 600, "blocks": "\n".join(" " * at + "a:" for at in range(600)),
             "number": "coils:\n  c: {default_pulse_ms: " + "9" * 5_000 + "}", "modes": "modes: [" + "{a: " * 300}
    for name, text in texts.items():
        ran = of_text(text, "errors")
        assert ran.status == 1 and "To do:" in ran.out, (name, ran)


@test
def a_search_ends_in_time() -> None:
    """Whatever grows with the text: its lines, its entries, its tabs, or the blanks before a line."""
    blocks = "\n".join(" " * (at * 2) + "a:" for at in range(900))
    texts = {
        "lines": "a: b\n" * 20_000,
        "entries": "event_player:\n" + "".join(f"  e_{at}: e_{at + 1}|2s\n" for at in range(9_000)),
        "tabs": "switches:\n" + "".join(f"  s_{at}:\n\tnumber: {at}\n" for at in range(3_000)),
        "blanks": f"switches:\n  s_a:\n\tnumber: 1\nb:\n{blocks}",
    }
    for what, text in texts.items():
        ran = of_text(text, "errors", more=["--within", "1"] if what != "blanks" else [])
        assert ran.status == 1 and "to mend" in ran.out, (what, ran)
        assert not takes_longer(ran.seconds, MOST_SECONDS) and ran.bytes < MOST_BYTES, (what, ran.seconds, ran.bytes)


def of_text(text: str, name: str, folder_name: str = "m", more: Sequence[str] = ()) -> Ran:
    """How a command ends about a machine with this text."""
    with tempfile.TemporaryDirectory() as room:
        folder = Path(room) / folder_name
        (folder / "config").mkdir(parents=True)
        (folder / MACHINE).write_text(f"#config_version=6\n{text}\n")
        return run([name, *more, "--program", PROGRAM.path, str(folder)])


@test
def no_name_begins_a_line_or_reaches_the_terminal() -> None:
    for folder_name in "\x1b[31mred", "a\nyes\n":
        ran = of_text('"a\\nyes\\x": 1\n"\\n  To do: nothing": 1\n\'\x1b[2J\': 1', "errors", folder_name)
        assert ran.status == 1 and not wrong("errors", ran, Path("/")), ran
        assert "\n  To do: nothing" not in ran.out, ran


@test
def a_bad_expression_is_a_wrong_command_line() -> None:
    for expression in "(", "[", "*", "(?P<a", "a{99999999999}":
        ran = run(["trace", "--event", expression], b"0 machine event a\n")
        assert ran.status == 2 and "is no regular expression" in ran.complaints, ran


@test
def answers_that_are_cut_off_are_explained() -> None:
    said = [it.replace("refused ", "refused 3 ", 1) for it in messages.MESSAGES]
    lines = [f"{it} {MACHINE} 3 key other"[:at] for it in said for at in range(4, 90, 5)]
    ran = run(["explain", str(EXAMPLES[0])], "\n".join(lines).encode())
    assert ran.status == 0 and not wrong("explain", ran, Path("/")), ran.complaints[-900:]


@test
def the_duty_of_a_long_trace_takes_no_longer_than_it_is_long() -> None:
    lines = [f"{at * 30} machine coil c pulse {10 + at % 7} 1000" for at in range(60_000)]
    start = time.process_time()
    totals = [*trace.shown(lines, trace.Wanted())][-1]
    seconds = time.process_time() - start
    assert totals.split()[1:4] == ["60000", "0", "12:59.994"] and totals.endswith(" 44%"), totals
    assert not takes_longer(seconds, 5), seconds


@test
def the_duty_is_that_of_the_worst_second() -> None:
    draw = random.Random(4)
    for _ in range(60):
        on, moment, stretches = trace.Stretches(), 0, []
        for _ in range(draw.randrange(1, 12)):
            moment += draw.choice((0, 1, 30, 300, 1500))
            stretches.append((moment, moment + draw.choice((1, 20, 400, 1200))))
            on.add(*stretches[-1])
        on.count()
        lit = {at for start, end in stretches for at in range(start, end)}
        until = [0, *accumulate(at in lit for at in range(moment + 2_500))]
        most = max(until[at] - until[max(0, at - 1000)] for at in range(len(until)))
        assert (on.whole, on.most) == (len(lit), most), stretches


def main() -> int:
    """Tries many damaged folders."""
    count, seed = (int(it) for it in (sys.argv[2:] + ["2000", "0"][len(sys.argv[2:]) :]))
    failed = 0
    for at in range(seed, seed + count):
        found = tried(at)
        failed += bool(found)
        print("\n".join(found), end="\n" if found else "", flush=True)
        if at % 100 == 99:
            print(f".. {at + 1 - seed} folders, {failed} failed", flush=True)
    print(f"{count - failed} passed, {failed} failed")
    return 1 if failed else 0


if __name__ == "__main__":
    sys.exit(main())
