"""The files of a release, each with its place below the folder in which it is installed.

Programs and links to the tools are in bin/. All else is in share/, and there share/pinball has the tools, the pages and
the examples where they are in the checkout, so that each finds the others. So do three sources: those whose tables
`pinball-help` reads."""
import hashlib
from dataclasses import dataclass
from pathlib import Path

from . import completions, manual
from .checkout import TOP, Commit, files
from .commands import TOOLS, table_of, version_of

HOME = "share/pinball"
SUMS = f"{HOME}/SHA256SUMS"
PAGES = ("README.md", "CONTRIBUTING.md", "CHANGELOG.md", "LICENSE", "HANDLES", "tools/README.md")
FOLDERS = ("docs/", "examples/", "tools/pinball_help/", "tools/pinball_table/", "tools/pinball_test/")
ONLY_FOR_TESTS = ("tools/pinball_help/machines/", "tools/pinball_help/planted/")
ALONE = ("tools/bundle", *(f"tools/{it}" for it in TOOLS))
TABLES = (
    "crates/mpf_tables/src/tables.rt", "crates/mpf_config/src/unread.rt", "crates/section_tables/src/settings.rt",
)
INSTALL = "tools/releasing/install.sh"
# What is at the top of the archive too, by links.
AT_TOP = ("install.sh", "LICENSE", "RELEASE")


@dataclass(frozen=True)
class Entry:
    """A file, or a link to one."""

    data: bytes = b""
    can_run: bool = False
    link: str = ""

    @property
    def mode(self) -> int:
        return 0o777 if self.link else 0o755 if self.can_run else 0o644


Tree = dict[str, Entry]


def is_wanted(path: str) -> bool:
    """Whether a release has this file of the checkout."""
    if path.startswith(ONLY_FOR_TESTS):
        return False
    return path.startswith(FOLDERS) or path in PAGES + TABLES + ALONE


def of_checkout() -> Tree:
    """What a release has of the files of the checkout."""
    found = {f"{HOME}/{path}": Entry((TOP / path).read_bytes(), can_run) for path, can_run in files().items()
             if is_wanted(path)}
    return found | {f"{HOME}/install.sh": Entry((TOP / INSTALL).read_bytes(), True)}


def made(programs: dict[str, Path], commit: Commit) -> Tree:
    """The man pages and the completions."""
    table = table_of(programs)
    version, names = version_of(programs), [it.name for it in table]
    pages = {
        f"man/man1/{it.name}.1": manual.page(it, [name for name in names if name != it.name], version, commit.date)
        for it in table
    }
    # bash looks for a file by the name of a command
    links = {f"share/bash-completion/completions/{it}": Entry(link=names[0]) for it in names[1:]}
    texts = pages | completions.files_of(table)
    return links | {f"share/{path}": Entry(text.encode()) for path, text in texts.items()}


def whole(programs: dict[str, Path], commit: Commit, about: str) -> Tree:
    """All of a release but its checksums, sorted. `about` is the file that says what it is."""
    commands = {f"bin/{name}": Entry(path.read_bytes(), True) for name, path in programs.items()}
    links = {f"bin/{it}": Entry(link=f"../{HOME}/tools/{it}") for it in TOOLS}
    tree = of_checkout() | made(programs, commit) | commands | links
    return dict(sorted((tree | {f"{HOME}/RELEASE": Entry(about.encode())}).items()))


def checksums(tree: Tree) -> str:
    """The checksum of each file, in the form of sha256sum. That of a link is that of the file where it leads."""

    def data_of(path: str) -> bytes:
        entry = tree[path]
        return data_of(joined(path, entry.link)) if entry.link else entry.data

    return "".join(f"{hashlib.sha256(data_of(path)).hexdigest()}  {path}\n" for path in tree)


def joined(path: str, link: str) -> str:
    """Where a link leads."""
    folder = path.split("/")[:-1]
    for part in link.split("/"):
        folder = folder[:-1] if part == ".." else [*folder, part]
    return "/".join(folder)
