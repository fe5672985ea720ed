"""Crates in rooms of their own.

`rt check` keeps all others out of the crates below the one that it checks, so two checks in one checkout wait for each
other. A room has a copy of a crate and of those below it, with what their last checks kept."""
import os
import shutil
import subprocess
from collections.abc import Iterable
from functools import cache
from pathlib import Path

TOP = Path(__file__).resolve().parents[2]


@cache
def listed() -> dict[str, str]:
    """For each crate its line of crates.txt, in the order there."""
    found = {}
    for line in (TOP / "crates.txt").read_text().splitlines():
        name, colon, _ = line.partition("#")[0].partition(":")
        if colon:
            found[name.split()[0]] = line
    return found


@cache
def uses() -> dict[str, tuple[str, ...]]:
    """For each crate those of the repository that it uses itself."""
    return {name: tuple(it for it in line.partition("#")[0].partition(":")[2].split() if it in listed())
            for name, line in listed().items()}


@cache
def below(name: str) -> frozenset[str]:
    """A crate, and all crates of the repository that it stands on."""
    return frozenset({name}.union(*(below(it) for it in uses()[name])))


def link_or_copy(source: str, target: str) -> None:
    """Links a file that nothing changes in place, which takes no room."""
    try:
        os.link(source, target)
    except OSError:
        shutil.copy2(source, target)


def room_of(crate: str, room: Path) -> Path:
    """Makes the room of a crate in an empty folder, and returns the crate's folder there."""
    (room / "crates").mkdir()
    shutil.copy2(TOP / "HANDLES", room)
    (room / "crates.txt").write_text("".join(f"{listed()[it]}\n" for it in listed() if it in below(crate)))
    for name in below(crate):
        folder = TOP / "crates" / name
        shutil.copytree(folder, room / "crates" / name, ignore=shutil.ignore_patterns("out"))
        for kept in ("rlib", "incremental")[: 2 if name == crate else 1]:
            if (folder / "out" / kept).is_dir():
                copied = link_or_copy if kept == "rlib" else shutil.copy2
                shutil.copytree(folder / "out" / kept, room / "crates" / name / "out" / kept, copy_function=copied)
    subprocess.run(["git", "init", "-q", room], check=True)
    return room / "crates" / crate


def crate_without_proof(room: Path, name: str, uses: Iterable[str], source: Path) -> Path:
    """Makes a crate of the .rattle files in a folder, in a repository that has copies of the crates that it uses, and
    returns the crate's folder. `rt try` runs it without a proof. (The gate refuses .rt files outside of crates.)"""
    used = frozenset().union(*(below(it) for it in uses if it in listed()))
    for crate in used:
        for part in ("src", "specs", "proofs"):
            if (TOP / "crates" / crate / part).is_dir():
                shutil.copytree(TOP / "crates" / crate / part, room / "crates" / crate / part)
    lines = [listed()[it] for it in listed() if it in used] + [f"{name}: {' '.join(uses)}"]
    (room / "crates.txt").write_text("\n".join(lines) + "\n")
    subprocess.run(["git", "init", "-q", room], check=True)
    folder = room / "crates" / name
    for file in source.rglob("*.rattle"):
        copy = (folder / "src" / file.relative_to(source)).with_suffix(".rt")
        copy.parent.mkdir(parents=True, exist_ok=True)
        shutil.copy(file, copy)
    return folder


@cache
def kit() -> Path:
    """The folder of the kit."""
    said = subprocess.run(["rt", "doc"], stdout=subprocess.PIPE, text=True, check=True).stdout
    return Path(said.strip()).parent


@cache
def libraries(name: str) -> tuple[str, ...]:
    """All libraries below a crate, those of the kit among them, but `std`."""
    own = listed()[name].partition("#")[0].partition(":")[2].split()
    return tuple(dict.fromkeys(it for dep in own for it in ((*libraries(dep), dep) if dep in listed() else (dep,))))


def check_over_gate(folder: Path) -> tuple[int, str]:
    """Checks a crate of a room over the libraries that the gate built in this checkout, and what such a check kept."""
    built = {it: TOP / "crates" / it / "out" / "rlib" for it in libraries(folder.name) if it in listed()}
    root = "src/lib.rt" if (folder / "src" / "lib.rt").exists() else "src/main.rt"
    words = [str(kit() / "bin" / "rattle"), "check", "--crate-name", folder.name, root]
    for name in (*libraries(folder.name), "std"):
        words += ["--extern", f"{name}={built.get(name, kit() / 'rlibs')}/{name}.rlib"]
    for path in (kit() / "rlibs", *built.values()):
        words += ["-L", f"dependency={path}"]
    words += ["--antt-project", str(kit() / "rattle" / "logic" / "antt-project.json"), "--jobs", "1",
              "--logic-built", str(kit() / "logic_built"), "--incremental", str(folder / "out" / "over-gate")]
    (folder / "out").mkdir(exist_ok=True)
    ran = subprocess.run(words, cwd=folder, stdin=subprocess.DEVNULL, stdout=subprocess.PIPE, stderr=subprocess.STDOUT,
                         text=True, errors="replace")
    return ran.returncode, ran.stdout


def check_by_rt(folder: Path) -> tuple[int, str]:
    """Checks a crate of a room, over what the last `rt check` of it and of those below it kept."""
    return run(folder, "check", "--jobs", "1")


def run(folder: Path, *words: str) -> tuple[int, str]:
    """Runs dev/quick_rt in a crate's folder, and returns its status and all that it prints."""
    ran = subprocess.run([str(TOP / "dev" / "quick_rt"), *words], cwd=folder, stdin=subprocess.DEVNULL,
                         stdout=subprocess.PIPE, stderr=subprocess.STDOUT, text=True, errors="replace")
    return ran.returncode, ran.stdout
