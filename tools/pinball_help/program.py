"""Finds the program `pinball`, and asks it."""
import os
import resource
import shutil
import subprocess
import sys
import time
from dataclasses import dataclass
from pathlib import Path

from .answers import Answer, answer_of

TOP = Path(__file__).resolve().parents[2]
FINDER = TOP / "tools/program"  # a release has none: its program is in bin/
RELEASED = TOP.parent.parent / "bin/pinball"  # a checkout may be right below the root, which has no second parent

LIVE = "pinball_live"


class NoAnswer(Exception):
    """There is no program, or it has no answer."""


@dataclass(frozen=True)
class Program:
    path: str
    what: str  # where it was found

    @property
    def is_unproved(self) -> bool:
        return "unproved" in self.what

    def seconds(self) -> float:
        """The processor time so far: of this process, and of the program. An unproved build is so slow that its time is
        not counted."""
        spent = resource.getrusage(resource.RUSAGE_CHILDREN)
        return time.process_time() + (0 if self.is_unproved else spent.ru_utime + spent.ru_stime)

    def output(self, words: list[str], text: str | None = None) -> str:
        """What the program writes. Raises NoAnswer where it ends with another status than yes and no."""
        data = text.encode("utf-8", "surrogateescape") if text is not None else b""
        try:
            ran = subprocess.run([self.path, *words], input=data, capture_output=True, timeout=600)
        except OSError as error:
            raise NoAnswer(f"{self.path} does not run: {error.strerror}") from error
        except subprocess.TimeoutExpired as error:
            raise NoAnswer(f"{self.path} did not answer within ten minutes") from error
        if ran.returncode not in (0, 1):
            said = ran.stderr.decode("utf-8", "replace").strip()
            raise NoAnswer(said or f"{self.path} ended with status {ran.returncode}")
        return ran.stdout.decode("utf-8", "surrogateescape")

    def check(self, folder: Path) -> Answer:
        return answer_of(self.output(["check", path_of(folder)]))

    def check_texts(self, texts: dict[str, list[str]]) -> Answer:
        """The answer for texts that are in no folder, by a bundle of them."""
        bundle = "".join(f"@ {name}\n" + "".join(f"{line}\n" for line in lines) for name, lines in texts.items())
        return answer_of(self.output(["check"], bundle))


def path_of(folder: Path) -> str:
    """The path of a folder as a word of the program's command line: never an option."""
    return os.path.abspath(folder)


def proved() -> str | None:
    """The path of the proved program: that of this release, or that of these sources. None where there is none."""
    if not FINDER.exists():
        return str(RELEASED) if os.access(RELEASED, os.X_OK) else None
    ran = subprocess.run([FINDER, "--proved"], capture_output=True, text=True)
    return ran.stdout.strip() if ran.returncode == 0 else None


def kept_unproved() -> str | None:
    """The path of the unproved build that `examples/run` keeps, if it is of these sources."""
    if not FINDER.exists():
        return None
    ran = subprocess.run([FINDER, "--unproved", "--kept"], capture_output=True, text=True)
    return ran.stdout.strip() if ran.returncode == 0 else None


def find_live(given: str | None, pinball: str) -> str | None:
    """The path of `pinball_live`, which answers line by line: the one that was given, or beside `pinball`, or of these
    sources, or on the PATH. None where there is none."""
    if given:
        if not os.access(given, os.X_OK) or os.path.isdir(given):
            raise NoAnswer(f"{given} is not a program")
        return os.path.abspath(given)
    beside = [Path(pinball).with_name(LIVE), TOP / "crates" / LIVE / "out" / LIVE]
    return next((str(it) for it in beside if os.access(it, os.X_OK)), shutil.which(LIVE))


def work_bound(folder: Path) -> str | None:
    """The work bound of a machine, or `beyond`, as `pinball_live` says it. None where there is no such program, or
    where it has no answer."""
    try:
        live = find_live(None, find(None).path)
        said = Program(live, "").output(["--work", path_of(folder)]) if live else ""
    except NoAnswer:
        return None
    words = said.split()
    return words[1] if len(words) == 2 and words[0] == "work" else None


def find(given: str | None) -> Program:
    """The program that was named, else the proved one, else the one on the PATH, else the unproved build."""
    if given:
        if not os.access(given, os.X_OK) or os.path.isdir(given):
            raise NoAnswer(f"{given} is not a program")
        return Program(os.path.abspath(given), "the program that you gave")
    if path := proved():
        return Program(path, "the proved program")
    if path := shutil.which("pinball"):
        return Program(path, "the program on the PATH")
    if path := kept_unproved():
        return Program(path, "an unproved build of the sources")
    raise NoAnswer("no program pinball: run tools/build to prove and build it, or examples/run for an unproved build")


def report(program: Program) -> None:
    """Says on standard error which program answers, where it is not the proved one."""
    if program.is_unproved:
        print(f"(the answers are those of {program.what}: {program.path})", file=sys.stderr)
