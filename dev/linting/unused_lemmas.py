"""Lemmas that nothing cites.

Looks at the lemmas in crates/*/proofs/*.antt, but not at those in the `where` of a lemma. A lemma is cited if its name
is anywhere but in itself, in imports and in comments. A private lemma has to be cited in its file. A public one may be
cited in any file of definitions, proofs or code. A name counts whatever it means there, so an unused lemma is missed if
something else has its name. A fault is `FILE:LINE: NAME`."""
from collections import Counter
from pathlib import Path

from sources.antt_imports import without_imports
from sources.declared import COMMENT
from sources.lemmas import NAME, blocks_of
from sources.rooms import TOP, listed


def words_of(text: str) -> Counter[str]:
    return Counter(NAME.findall(COMMENT.sub("", text)))


def unused_in(file: Path, everywhere: Counter[str]) -> list[str]:
    """The places of the lemmas of a file that nothing cites, with their names."""
    lines = without_imports(file.read_text()).splitlines()
    here, line, found = words_of("\n".join(lines)), 1, []
    for block in blocks_of(lines):
        counted = everywhere if block.head[0].lstrip().startswith("pub ") else here
        if block.cases and counted[block.name] == words_of("\n".join(block.lines()))[block.name]:
            found.append(f"{file.relative_to(TOP)}:{line}: {block.name}")
        line += len(block.lines())
    return found


def faults() -> list[str]:
    folders = [TOP / "crates" / crate for crate in listed()]
    rooms = (("specs", "*.antt"), ("proofs", "*.antt"), ("src", "*.rt"))
    files = [it for folder in folders for room, pattern in rooms for it in (folder / room).rglob(pattern)]
    everywhere = sum((words_of(without_imports(it.read_text())) for it in files), Counter[str]())
    return [it for folder in folders for file in sorted(folder.glob("proofs/*.antt"))
            for it in unused_in(file, everywhere)]
