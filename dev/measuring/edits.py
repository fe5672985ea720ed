"""Prints what the check of each must-fail edit of a crate takes.

Tries the named edits, or all, over what the last `rt check` of the crate kept. The first line is the check without an
edit: no edit can take less. An edit that takes far more searches long for a proof that there is none of: another text
of the same mistake, or another place for it, may be cheaper. Seconds are those of the processor."""
import argparse
import resource
import tempfile
from pathlib import Path

from sources.edits import Texts, apply, check, read_edit
from sources.rooms import TOP, listed, room_of


def spent() -> float:
    used = resource.getrusage(resource.RUSAGE_CHILDREN)
    return used.ru_utime + used.ru_stime


def show(name: str, folder: Path, texts: Texts) -> None:
    before = spent()
    status, _ = check(folder, texts)
    print(f"{spent() - before:6.1f} {name} {'proved' if status == 0 else 'not proved'}", flush=True)


def add_words(parser: argparse.ArgumentParser) -> None:
    parser.add_argument("crate", metavar="CRATE", choices=list(listed()))
    parser.add_argument("edits", metavar="EDIT", nargs="*", help="an edit, without its ending; all if none is named")


def main(words: argparse.Namespace) -> int:
    files = sorted((TOP / "crates" / words.crate / "must-fail").glob("*.edit"))
    with tempfile.TemporaryDirectory(prefix="edit-times-") as room:
        folder = room_of(words.crate, Path(room))
        show("no edit", folder, {})
        for file in files:
            if file.stem in words.edits or not words.edits:
                show(file.stem, folder, apply(read_edit(file), {}, folder))
    return 0
