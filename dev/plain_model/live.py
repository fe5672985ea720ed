"""Compares pinball_live with `pinball play`, on drawn machines and logs.

Without its lines `due`, what pinball_live answers is what `play` prints for the same log, byte for byte, and the status
is the same, in whatever pieces the log comes. Logs with a line above 4,096 bytes are left out: `play` reads them."""
import random
import subprocess
import tempfile
import threading
from dataclasses import dataclass, field
from pathlib import Path

from . import damage, draw, logs
from .bundle import split_bundle

LONGEST_LINE = 4096
MOST_PIECE = 60  # bytes
DUE = b"due "


@dataclass
class Compared:
    """How many logs were compared, how many of their machines were accepted, and the seeds of those that differ."""

    logs: int = 0
    accepted: int = 0
    lines: int = 0
    differing: list[str] = field(default_factory=list)


def pieces(drawing: random.Random, log: bytes) -> list[bytes]:
    """The log, in pieces of a few bytes; or of one; or whole."""
    most = drawing.choice((1, MOST_PIECE, max(len(log), 1)))
    found, at = [], 0
    while at < len(log):
        size = drawing.randint(1, most)
        found.append(log[at : at + size])
        at += size
    return found


def feed(process: subprocess.Popen[bytes], parts: list[bytes]) -> None:
    """Writes the pieces one by one, as long as the program reads them."""
    assert process.stdin
    try:
        for part in parts:
            process.stdin.write(part)
        process.stdin.close()
    except BrokenPipeError:
        pass


def answered(live: Path, folder: Path, parts: list[bytes]) -> tuple[bytes, int]:
    """What pinball_live writes, without its lines `due`, and its status."""
    with subprocess.Popen(
        [live, "--any-work", folder], bufsize=0, stdin=subprocess.PIPE, stdout=subprocess.PIPE,
        stderr=subprocess.DEVNULL) as process:
        assert process.stdout
        writing = threading.Thread(target=feed, args=(process, parts))
        writing.start()
        output = process.stdout.read()
        writing.join()
    kept = (line for line in output.splitlines(keepends=True) if not line.startswith(DUE))
    return b"".join(kept), process.returncode


def compare(program: Path, live: Path, seed: str, found: Compared) -> None:
    """Draws a machine and a log, which may be damaged, and compares the two programs."""
    drawing = random.Random(f"live {seed}")
    drawn = draw.machine(drawing)
    log = logs.log(drawing, drawn)
    if drawing.random() < 0.5:
        log = damage.damaged(drawing, log)
    if any(len(line) > LONGEST_LINE for line in log.split(b"\n")):
        return
    with tempfile.TemporaryDirectory() as room:
        folder = Path(room, "machine")
        for name, text in split_bundle(drawn.bundle(drawing)):
            path = folder / name
            path.parent.mkdir(parents=True, exist_ok=True)
            path.write_bytes(text)
        path = Path(room, "log")
        path.write_bytes(log)
        played = subprocess.run([program, "play", path, folder], capture_output=True)
        output, status = answered(live, folder, pieces(drawing, log))
    found.logs += 1
    found.accepted += not (played.returncode == 1 and played.stdout.endswith(b"no\n"))
    found.lines += output.count(b"\n")
    if (output, status) != (played.stdout, played.returncode):
        found.differing.append(seed)
