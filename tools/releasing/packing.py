"""Packs a release: as an archive, and as a package of Debian. The same release gives the same bytes."""
import gzip
import io
import os
import subprocess
import tarfile
import tempfile
from pathlib import Path

from .tree import AT_TOP, HOME, SUMS, Entry, Tree, checksums

# Debian has a package `pinball`, a game, which an upgrade would put in the place of one with this name.
PACKAGE = "pinball-checker"
# Only for the archive: Debian's own tools know what they have installed.
ONLY_IN_ARCHIVE = (SUMS, f"{HOME}/install.sh")
LEVEL = 6  # of compression
ZSH, ZSH_OF_DEBIAN = "share/zsh/site-functions/", "share/zsh/vendor-completions/"

CONTROL = """\
Package: {package}
Version: {version}
Architecture: amd64
Maintainer: The pinball authors <pinball@localhost>
Installed-Size: {size}
Depends: libc6 (>= {glibc})
Recommends: python3 (>= 3.10)
Section: utils
Priority: optional
Description: proved checker and controller for pinball machines
 It checks the configuration of a pinball machine, in a subset of the language
 of the Mission Pinball Framework, before power reaches the coils. The commands
 are pinball and pinball_live, and three tools that need Python.
"""


def folders_of(tree: Tree) -> list[str]:
    """All folders in which there is something."""
    return sorted({str(it) for path in tree for it in Path(path).parents} - {"."})


def archive(tree: Tree, top: str, seconds: int) -> bytes:
    """A tar file, in which all is below a folder `top` and has the same date."""
    tree = tree | {SUMS: Entry(checksums(tree).encode())}
    tree |= {it: Entry(link=f"{HOME}/{it}") for it in AT_TOP}
    room = io.BytesIO()
    with tarfile.open(fileobj=room, mode="w", format=tarfile.GNU_FORMAT) as tar:
        for path in sorted(["", *folders_of(tree), *tree]):
            entry = tree.get(path)
            one = tarfile.TarInfo(f"{top}/{path}".rstrip("/"))
            one.mtime, one.uname, one.gname = seconds, "root", "root"
            one.mode = entry.mode if entry else 0o755
            one.type = (tarfile.SYMTYPE if entry.link else tarfile.REGTYPE) if entry else tarfile.DIRTYPE
            one.linkname, one.size = (entry.link, len(entry.data)) if entry else ("", 0)
            tar.addfile(one, io.BytesIO(entry.data) if entry else None)
    return gzip.compress(room.getvalue(), compresslevel=LEVEL, mtime=seconds)


def of_debian(tree: Tree) -> Tree:
    """The release as Debian has it: below /usr, with its license where Debian looks for it."""
    kept = {path.replace(ZSH, ZSH_OF_DEBIAN): it for path, it in tree.items() if path not in ONLY_IN_ARCHIVE}
    kept[f"share/doc/{PACKAGE}/copyright"] = tree[f"{HOME}/LICENSE"]
    return {f"usr/{path}": it for path, it in kept.items()}


def write(tree: Tree, room: Path) -> None:
    """Writes files and links."""
    for path, entry in tree.items():
        file = room / path
        file.parent.mkdir(parents=True, exist_ok=True)
        if entry.link:
            file.symlink_to(entry.link)
        else:
            file.write_bytes(entry.data)


def fix(tree: Tree, room: Path, seconds: int) -> None:
    """Gives all that is written modes and dates that depend on nothing else."""
    for path in [*tree, *folders_of(tree), "."]:
        if not tree.get(path, Entry()).link:
            os.utime(room / path, (seconds, seconds))
            (room / path).chmod(tree[path].mode if path in tree else 0o755)


def package(tree: Tree, version: str, glibc: str, seconds: int, to: Path) -> None:
    """A package of Debian, made by dpkg-deb."""
    files = of_debian(tree)
    size = sum(len(it.data) for it in files.values()) // 1024
    control = CONTROL.format(package=PACKAGE, version=version, glibc=glibc, size=size)
    with tempfile.TemporaryDirectory() as made:
        room = Path(made) / "package"
        room.mkdir()
        write(files | {"DEBIAN/control": Entry(control.encode())}, room)
        fix(files | {"DEBIAN/control": Entry()}, room, seconds)
        # (gzip, since xz gives other bytes with other numbers of processors)
        words = ["dpkg-deb", "-Zgzip", f"-z{LEVEL}", "--root-owner-group", "--build", room, to]
        dated = {**os.environ, "SOURCE_DATE_EPOCH": str(seconds)}
        subprocess.run(words, env=dated, stdout=subprocess.DEVNULL, check=True)
