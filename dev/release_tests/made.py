"""What the tests of a release share: a repository, two clones of it, the releases that they make, and one installed."""
import hashlib
import os
import shutil
import subprocess
from dataclasses import dataclass, field
from pathlib import Path
from typing import Callable

TOP = Path(__file__).resolve().parents[2]
PROGRAMS = ("pinball", "pinball_live")
COMMANDS = (*PROGRAMS, "pinball-help", "pinball-table", "pinball-test")
RESULT = "12 passed, 0 failed"
# The moment of the commit: with another one on another day here and there, if it were taken by the local time.
DATE = "2026-02-03T23:30:00+00:00"
SLOW = 300.0  # s: nothing takes so long, even with an unproved program on a busy computer
NOBODY = "65534"

BY = {f"GIT_{who}_{what}": "test" for who in ("AUTHOR", "COMMITTER") for what in ("NAME", "EMAIL")}
DATED = {**BY, "GIT_AUTHOR_DATE": DATE, "GIT_COMMITTER_DATE": DATE}

TESTS: list[Callable[["Made"], None]] = []


class Skipped(Exception):
    """This computer has not what a test needs."""


def test(function: Callable[["Made"], None]) -> Callable[["Made"], None]:
    TESTS.append(function)
    return function


def equal(found: object, wanted: object) -> None:
    assert found == wanted, f"{found!r}, and not {wanted!r}"


def run(words: list[str | Path], cwd: Path, status: int | None = 0, **env: str) -> str:
    """Runs a command, and gives what it says on both streams. A status of None may be any."""
    ran = subprocess.run(words, cwd=cwd, env={**os.environ, **env}, stdin=subprocess.DEVNULL, stdout=subprocess.PIPE,
                         stderr=subprocess.STDOUT, text=True, timeout=SLOW)
    assert status in (None, ran.returncode), f"{words[0]}: status {ran.returncode}: {ran.stdout[-2000:]}"
    return ran.stdout


@dataclass
class Made:
    """What is made in a folder `room`."""

    room: Path
    programs: dict[str, Path]
    files: list[Path] = field(default_factory=list)  # the archive, and the package of Debian
    others: list[Path] = field(default_factory=list)  # of the other clone
    root: Path | None = None  # a minimal Debian

    @property
    def version(self) -> str:
        """What both programs say, after their names."""
        said = {run([path, "--version"], self.room, 2).removeprefix(name) for name, path in self.programs.items()}
        equal(len(said), 1)
        return said.pop().strip()

    @property
    def clones(self) -> list[Path]:
        return [self.room / "a", self.room / "another place with blanks/b"]

    @property
    def proved(self) -> Path:
        """The folder in which the programs seem to be proved."""
        return self.room / "proved"

    @property
    def log(self) -> Path:
        return self.room / "gate log"

    @property
    def unpacked(self) -> Path:
        return next((self.room / "unpacked").iterdir())

    @property
    def prefix(self) -> Path:
        return self.room / "a prefix/with blanks"

    @property
    def home(self) -> Path:
        return self.prefix / "share/pinball"

    @property
    def path(self) -> str:
        """The PATH of somebody who has the release, and nothing of the checkout."""
        return f"{self.prefix}/bin:/usr/local/bin:/usr/bin:/bin"

    def user(self) -> list[str]:
        """How a command is run by somebody who may write nothing in the release."""
        if os.getuid() or not shutil.which("setpriv"):
            return []
        return ["setpriv", f"--reuid={NOBODY}", f"--regid={NOBODY}", "--clear-groups"]

    def release(self, clone: Path, to: Path, status: int = 0, **env: str) -> str:
        words: list[str | Path] = ["tools/release", "--programs", self.proved, "--to", to, self.log]
        return run(words, clone, status, **env)


def make_repository(made: Made) -> None:
    """A repository with one commit, of the files that are here, and two clones of it."""
    listed = ["git", "ls-files", "-z", "--cached", "--others", "--exclude-standard"]
    names = run(listed, TOP).split("\0")
    first = made.room / "repository"
    for name in (it for it in names if (TOP / it).is_file()):
        (first / name).parent.mkdir(parents=True, exist_ok=True)
        shutil.copy2(TOP / name, first / name)
    for words in (["init", "--quiet"], ["add", "--all"], ["commit", "--quiet", "--message", "all"]):
        run(["git", *words], first, **DATED)
    for clone in made.clones:
        run(["git", "clone", "--quiet", first, clone], made.room)


def seem_proved(made: Made) -> None:
    """Gives the programs the notes that they would have if they had been proved, and writes the log of a gate."""
    sources = run(["tools/program", "--sources"], made.clones[0]).strip()
    for name, program in made.programs.items():
        folder = made.proved / "crates" / name / "out"
        folder.mkdir(parents=True, exist_ok=True)
        shutil.copy2(program, folder / name)
        (folder / name).chmod(0o755)
        shutil.copy2(program, folder / f"{name}.by-rattle")
        checksum = hashlib.sha256(program.read_bytes()).hexdigest()
        (folder / "proved").write_text(f"{sources} {checksum}  -\n")
    made.log.write_text(f"commit {'0' * 40}\nsources {sources.split()[0]}\nkit a kit\nfn f: proved\n{RESULT}\n")


def make_releases(made: Made) -> None:
    """Makes a release of each clone, by other settings of the user."""
    settings = {"TZ": "Asia/Tokyo", "LC_ALL": "C", "PYTHONHASHSEED": "1"}
    made.release(made.clones[0], made.room / "first")
    run(["bash", "-c", 'umask 077 && "$@"', "bash", "tools/release", "--programs", made.proved, "--to",
         made.room / "second", made.log], made.clones[1], **settings)
    made.files = sorted((made.room / "first").iterdir())
    made.others = sorted((made.room / "second").iterdir())


def unpack(made: Made) -> None:
    (made.room / "unpacked").mkdir()
    archive = next(it for it in made.files if it.suffix == ".gz")
    run(["tar", "-xzf", archive], made.room / "unpacked")


def make(room: Path, programs: dict[str, Path]) -> Made:
    """Makes all that the tests need, but installs nothing."""
    room.chmod(0o755)  # (another user has to get to what is installed)
    made = Made(room, programs)
    make_repository(made)
    seem_proved(made)
    make_releases(made)
    unpack(made)
    return made


def listing(folder: Path) -> list[str]:
    """All that is below a folder, with its mode, and where it is a link, where that leads."""
    return sorted(f"{it.relative_to(folder)} {it.lstat().st_mode:o} {os.readlink(it) if it.is_symlink() else ''}"
                  for it in folder.rglob("*"))
