"""The checkout that a release is made of: its commit, its files, its proved programs, and the log of its gate."""
import hashlib
import re
import subprocess
from dataclasses import dataclass
from datetime import datetime, timezone
from pathlib import Path

from .commands import PROGRAMS

TOP = Path(__file__).resolve().parents[2]
# The last line of tools/test, and the first ones.
RESULT = re.compile(r"(?P<passed>[0-9]+) passed, (?P<failed>[0-9]+) failed")
FIRST = ("commit", "sources", "kit")


class Refused(Exception):
    """There is no release of this checkout, and why."""


@dataclass(frozen=True)
class Gate:
    """What the log of tools/test says."""

    commit: str
    sources: str
    kit: str
    result: str


@dataclass(frozen=True)
class Commit:
    name: str
    seconds: int  # from 1970
    date: str  # by the time of Greenwich


def git(*words: str) -> str:
    return subprocess.run(["git", "-C", TOP, *words], stdout=subprocess.PIPE, text=True, check=True).stdout


def clean_commit() -> Commit:
    """The commit of the checkout, whose files are just those of it."""
    if changed := git("status", "--porcelain").splitlines():
        raise Refused("a file is changed, or in no commit:\n" + "\n".join(changed[:20]))
    name, seconds = git("log", "-1", "--format=%H %ct").split()
    return Commit(name, int(seconds), datetime.fromtimestamp(int(seconds), timezone.utc).strftime("%Y-%m-%d"))


def files() -> dict[str, bool]:
    """The files of the commit, by their paths, and whether each can be run."""
    listed = [it.partition("\t") for it in git("ls-files", "-s", "-z").split("\0") if it]
    return {path: mode.startswith("100755") for mode, _, path in listed}


def sum_of(file: Path) -> str:
    return hashlib.sha256(file.read_bytes()).hexdigest()


def sources() -> str:
    """The checksum of the sources of the programs."""
    ran = subprocess.run([TOP / "tools/program", "--sources"], stdout=subprocess.PIPE, text=True, check=True)
    return ran.stdout.split()[0]


def proved_programs(folder: Path, of_sources: str) -> dict[str, Path]:
    """The proved programs of a checkout. The note beside each has to name these sources, and the program itself."""
    found = {}
    for name in PROGRAMS:
        program = folder / "crates" / name / "out" / name
        note = program.with_name("proved")
        if not program.is_file() or not note.is_file():
            raise Refused(f"there is no proved program {program}: tools/build proves and builds it")
        proved_sources, proved_program = note.read_text().split()[::2]
        if proved_sources != of_sources:
            raise Refused(f"{program} was proved of other sources than those of this checkout")
        if proved_program != sum_of(program):
            raise Refused(f"{program} is not the program that was proved: its checksum is another")
        found[name] = program
    return found


def need_changes_of(version: str) -> None:
    """Refuses a version of which the changelog says nothing."""
    if f"\n## {version}\n" not in (TOP / "CHANGELOG.md").read_text():
        raise Refused(f"CHANGELOG.md has no heading `## {version}`: say there what has changed")


def gate_of(log: Path, of_sources: str) -> Gate:
    """What the log of the gate says. It has to be green, and of these sources."""
    lines = log.read_text(errors="replace").splitlines()
    said = dict(it.split(" ", 1) for it in lines[:20] if it.split(" ", 1)[0] in FIRST and " " in it)
    last = RESULT.fullmatch(lines[-1]) if lines else None
    if not last or set(said) != set(FIRST):
        raise Refused(f"{log} is no log of a whole tools/test: it has no line `commit ..` or no `N passed, M failed`")
    if last["failed"] != "0" or last["passed"] == "0":
        raise Refused(f"the gate is not green: {last[0]}")
    if said["sources"] != of_sources:
        raise Refused(f"{log} is about other sources than those of this checkout")
    return Gate(said["commit"], said["sources"], said["kit"], last[0])
