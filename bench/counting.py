"""The instructions of whole processes, as valgrind counts them."""
import dataclasses
import pathlib
import re
import subprocess
import sys

from measuring import ANSWERED

VALGRIND = ["valgrind", "--tool=callgrind", "--callgrind-out-file=/dev/null"]
COLLECTED = re.compile(r"Collected : (\d+)")
NOTHING = pathlib.Path("/dev/null")


@dataclasses.dataclass(frozen=True)
class Counted:
    instructions: int
    status: int
    lines: int


def counted(command: list[str], path: pathlib.Path) -> Counted:
    """The instructions of a command with a file as its input, its exit status, and the number of lines that it writes.
    Other work of the machine does not change the instructions, but another compiler may."""
    with path.open("rb") as text:
        done = subprocess.run(VALGRIND + command, stdin=text, stdout=subprocess.PIPE, stderr=subprocess.PIPE)
    found = COLLECTED.search(done.stderr.decode())
    if done.returncode not in ANSWERED or not found:
        sys.exit(f"{command}: status {done.returncode}\n{done.stdout[:1000].decode()}{done.stderr.decode()}")
    return Counted(int(found[1]), done.returncode, done.stdout.count(b"\n"))


def counted_of_log(command: list[str], bundle: pathlib.Path, log: pathlib.Path, size: int) -> float:
    """The instructions for each byte of the first lines of a log, at most so many bytes, without those of an empty log.
    The command has the path of the log as its last word."""
    part, empty = log.with_suffix(".part"), log.with_suffix(".empty")
    lines = log.read_bytes()[:size]
    lines = lines[: lines.rfind(b"\n") + 1]
    part.write_bytes(lines)
    empty.write_bytes(b"")
    whole, least = (counted([*command, str(path)], bundle).instructions for path in (part, empty))
    return (whole - least) / len(lines)
