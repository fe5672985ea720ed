"""Plants mistakes in copies of the model, and tries whether a comparison notices them. mistakes.txt lists them."""
import shutil
import sys
import tempfile
from concurrent.futures import ProcessPoolExecutor
from dataclasses import dataclass
from importlib import import_module
from multiprocessing import get_context
from pathlib import Path
from time import process_time
from typing import Any

from .answers import Answer, judge
from .bundle import joined
from .compare import GREATEST_LINES as MANY

HERE = Path(__file__).resolve().parent
COPY = "planted_model"


@dataclass(frozen=True)
class Mistake:
    """What the model does with this mistake, and the edit of a module that makes it do so."""

    what: str
    module: str
    old: str
    new: str

    def edited(self) -> str:
        """The text of the module with the mistake. Raises ValueError if the edit does not fit it."""
        text = (HERE / f"{self.module}.py").read_text()
        if not self.old or self.old == self.new or text.count(self.old) != 1:
            raise ValueError(f"{self.what}: what it changes is {text.count(self.old)} times in {self.module}")
        return text.replace(self.old, self.new)

    def plant(self, room: Path) -> None:
        """Writes a copy of the model with the mistake into a room."""
        shutil.copytree(HERE, room / COPY, ignore=shutil.ignore_patterns("__pycache__"))
        (room / COPY / f"{self.module}.py").write_text(self.edited())


def part_of(lines: list[str], mark: str) -> str:
    """The lines that begin with this mark and a blank, without these."""
    return "\n".join(line[2:] for line in lines if line.startswith(f"{mark} "))


def listed() -> list[Mistake]:
    """All mistakes, in the order of the list."""
    found, module = [], ""
    for block in (HERE / "mistakes.txt").read_text().split("\n\n"):
        what, *edit = block.strip("\n").split("\n")
        if what.startswith("module "):
            module = what.removeprefix("module ")
        elif module:
            found.append(Mistake(what, module, part_of(edit, "-"), part_of(edit, "+")))
    return found


def joined_in(folder: Path) -> bytes:
    """The bundle of a folder."""
    files = [file for file in folder.rglob("*") if file.is_file()]
    return joined({str(file.relative_to(folder)): file.read_bytes() for file in files})


class Noticed(Exception):
    """The two models differ on the machine of this seed."""


def comparison_in(room: Path) -> Any:
    """A comparison by the copy of the model in a room. This model answers in place of the program.

    It raises Noticed at the first difference."""
    sys.path.insert(0, str(room))
    compare = import_module(f"{COPY}.compare")

    class ByModel(compare.Comparison):
        def ask(self, command: str, bundle: bytes, file: bytes = b"", folder: Path | None = None) -> Answer:
            judged = judge(joined_in(folder) if folder else bundle)
            return judged.play(file, most_lines=MANY) if command == "play" else judged.answer(command, file)

        def differ(self, *what: Any) -> None:
            raise Noticed(self.seed)

    return ByModel(room, room)


def tried(work: tuple[Mistake, int, str]) -> tuple[bool, str]:
    """Whether a mistake is noticed, and a line that says so."""
    mistake, count, seed = work
    with tempfile.TemporaryDirectory() as name:
        mistake.plant(Path(name))
        comparison = comparison_in(Path(name))
        try:
            comparison.once()
            for number in range(count):
                comparison.drawn(seed, number)
            comparison.greatest()
        except Noticed as noticed:
            return True, f"noticed on {noticed}, after {process_time():.1f} s of the processor: {mistake.what}"
        except Exception as error:  # (the model may fail in any way)
            return False, f"NOT noticed, since the model ends by {error!r}: {mistake.what}"
    return False, f"NOT noticed: {mistake.what}"


def try_all(words: str, count: int, seed: str, processors: int) -> int:
    """Tries the mistakes that have these words, each in a process of its own, and prints a line for each.

    The status is 1 if one is not noticed."""
    work = [(mistake, count, seed) for mistake in listed() if words in mistake.what]
    verdicts = []
    with ProcessPoolExecutor(processors, get_context("spawn"), max_tasks_per_child=1) as pool:
        for is_noticed, line in pool.map(tried, work):
            print(line, flush=True)
            verdicts.append(is_noticed)
    print(f"{verdicts.count(True)} mistakes noticed, {verdicts.count(False)} not")
    return 0 if all(verdicts) else 1
