"""What the tests of `adopt` share: folders of MPF, and what comes of each."""
from functools import cache
from pathlib import Path

from help_tests.common import PROGRAM, TOP
from pinball_help.adopt import run

MACHINES = [TOP / "tools/pinball_help/machines" / it for it in ("tutorial", "modern", "em", "slips")]
REWRITES = TOP / "dev/help_tests/rewrites"  # each section that is rewritten, with all of its settings


@cache
def adopted(folder: Path) -> run.Adopted:
    return run.adopt(PROGRAM, folder)


def written(files: dict[str, str], folder: Path) -> Path:
    for name, text in files.items():
        (folder / name).parent.mkdir(parents=True, exist_ok=True)
        (folder / name).write_text(text)
    return folder
