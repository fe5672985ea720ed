"""The words of `pinball-help adopt`, and what it prints."""
import argparse
from pathlib import Path
from typing import Callable

from ..printed import clean
from ..program import Program
from . import report, run

ABOUT = "makes a copy of an MPF machine that `pinball check` accepts"
EPILOG = (
    "NEW_FOLDER/ADOPTED.md lists what was rewritten, and what was left out. MPF_FOLDER is never changed. Run it again "
    "after MPF_FOLDER has changed: if you have changed NEW_FOLDER too, it prints what differs, and writes nothing. "
    "The status is 0 if the folder is written, and 1 if it is not."
)


def add(commands: "argparse._SubParsersAction[argparse.ArgumentParser]") -> argparse.ArgumentParser:
    one = commands.add_parser("adopt", help=ABOUT, description=f"It {ABOUT}.", epilog=EPILOG)
    one.add_argument("mpf_folder", metavar="MPF_FOLDER", nargs="?", help="the folder that has `config/` in it")
    one.add_argument("new_folder", metavar="NEW_FOLDER", nargs="?", help="where the new machine goes")
    one.add_argument("--force", action="store_true", help="overwrites what you have changed in NEW_FOLDER")
    one.add_argument("--table", action="store_true", help="prints what is done with each feature of MPF, and no more")
    return one


def write(asked: argparse.Namespace, find: Callable[[argparse.Namespace], Program]) -> int:
    if asked.table:
        print("\n".join(report.table()))
        return 0
    if not asked.mpf_folder or not asked.new_folder:
        raise ValueError("adopt needs two folders: that of the MPF machine, and the name of a new one")
    program = find(asked)
    folder, new = Path(asked.mpf_folder), Path(asked.new_folder)
    if new.resolve() == folder.resolve() or folder.resolve() in (new / "config").resolve().parents:
        raise ValueError(f"{new} is in the MPF folder: give the name of a folder outside of it")
    run.sums(new)  # (a folder that is not adopt's is refused at once)
    adopted = run.adopt(program, folder)
    if differs := run.write(adopted, new, asked.force):
        print("\n".join(clean(it) for it in differs[: run.MOST_LINES]))
        if len(differs) > run.MOST_LINES:
            print(f".. {len(differs) - run.MOST_LINES} lines more")
        print(f"\nYou have changed {clean(str(new))}, so nothing is written. With --force the lines with `-` are lost.")
        return 1
    print("\n".join(run.shown(adopted, new)))
    return 0
