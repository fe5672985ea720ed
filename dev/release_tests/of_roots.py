"""Tests the release in a minimal Debian: no kit, no git, and no file of this computer."""
import contextlib
import os
import shlex
import shutil
import subprocess
import urllib.request
from collections.abc import Iterator
from pathlib import Path

from .made import NOBODY, Made, Skipped, equal, listing, run, test
from .of_installing import BROKEN, follow_the_tutorial, machine, play_a_game

DEBIAN = "bookworm"
MIRROR = "http://deb.debian.org/debian"
PATIENCE = 5.0  # s: how long the mirror may take to answer at all
ENTER = """mount --rbind /proc "$1/proc" &&
  exec chroot "--userspec=$2:$2" "$1" /usr/bin/env -i "PATH=$3" LC_ALL=C "${@:4}"
"""
# What dpkg writes down of all that it does.
OF_DPKG = ("var/lib/dpkg/", "var/log/", "var/cache/")


def make_root(root: Path) -> None:
    """Makes a minimal Debian with Python. What debootstrap mounts for that is seen by itself alone."""
    if not shutil.which("debootstrap"):
        raise Skipped("there is no debootstrap")
    try:
        urllib.request.urlopen(f"{MIRROR}/dists/{DEBIAN}/Release", timeout=PATIENCE).close()
    except OSError as error:
        raise Skipped(f"{MIRROR} does not answer: {error}") from error
    begun = root.with_name(f"{root.name}.begun")
    shutil.rmtree(begun, ignore_errors=True)
    begun.parent.mkdir(parents=True, exist_ok=True)
    words = ["unshare", "--mount", "debootstrap", "--variant=minbase", "--include=python3", DEBIAN, str(begun), MIRROR]
    ran = subprocess.run(words, stdin=subprocess.DEVNULL, stdout=subprocess.PIPE, stderr=subprocess.STDOUT, text=True)
    if ran.returncode:
        raise Skipped(f"debootstrap ended with status {ran.returncode}: {ran.stdout[-200:].strip()}")
    begun.rename(root)


def root_of(made: Made, name: str) -> Path:
    """A copy of the minimal Debian, which is made if it is not there."""
    if not made.root:
        raise Skipped("no --root is given")
    if os.getuid() or subprocess.run(["unshare", "--mount", "true"], capture_output=True).returncode:
        raise Skipped("another root can be entered only by root, and not in each container")
    if not made.root.exists():
        make_root(made.root)
    run(["cp", "-a", "--reflink=auto", made.root, made.room / name], made.room)
    return made.room / name


@contextlib.contextmanager
def without_python(root: Path) -> Iterator[None]:
    """Takes Python away for a while."""
    python = (root / "usr/bin/python3").resolve()
    away = python.rename(python.with_name("away"))
    try:
        yield
    finally:
        away.rename(python)


def entered(root: Path, path: str, user: str = "0") -> list[str | Path]:
    """The words that run a command in the root, with its own /proc, and with nothing of the environment here."""
    return ["unshare", "--mount", "bash", "-c", ENTER, "bash", root, user, f"{path}:/usr/bin:/bin"]


def files_of(root: Path) -> list[str]:
    return [it for it in listing(root) if not it.startswith(OF_DPKG)]


def use(root: Path, prefix: str) -> None:
    """Runs the commands as somebody who has another folder, and no rights."""
    home = f"{prefix}/share/pinball"
    as_user = entered(root, f"{prefix}/bin", NOBODY)

    def said_by(script: str, status: int = 0) -> str:
        return run([*as_user, "bash", "-c", f"cd /tmp/machine && {script}"], Path("/"), status)

    with without_python(root):
        page = root / home.lstrip("/") / "docs/tutorial.md"
        follow_the_tutorial(shlex.quote(home), page, root / "tmp/machine", said_by)
    for tool in ("git", "rt"):
        said_by(f"! command -v {tool}")
    machine(root / "tmp/broken", BROKEN)
    assert "2 to mend" in said_by("pinball-help errors ../broken", 1)
    assert said_by(f"pinball-test '{home}/examples/first'").endswith("4 passed, 0 failed\n")
    assert said_by(f"'{home}/examples/run' first").startswith("$ cd examples/first\n")
    play_a_game(as_user, Path(home) / "examples/complete")
    for it in ("machine", "broken"):
        shutil.rmtree(root / "tmp" / it)


@test
def the_archive_in_a_minimal_debian(made: Made) -> None:
    root = root_of(made, "root of the archive")
    before = files_of(root)
    archive = next(it for it in made.files if it.suffix == ".gz")
    shutil.copy2(archive, root / "tmp")
    prefix = "/opt/a prefix"
    script = f"cd /tmp && tar -xzf {archive.name} && rm {archive.name} && pinball-*/install.sh '{prefix}'"
    with without_python(root):
        run([*entered(root, "/sbin"), "bash", "-c", script], Path("/"))
    shutil.rmtree(next((root / "tmp").glob("pinball-*")))
    use(root, prefix)
    run([*entered(root, "/sbin"), f"{prefix}/share/pinball/install.sh", "--remove", prefix], Path("/"))
    equal(files_of(root), before)


@test
def the_package_in_a_minimal_debian(made: Made) -> None:
    root = root_of(made, "root of the package")
    before = files_of(root)
    package = next(it for it in made.files if it.suffix == ".deb")
    shutil.copy2(package, root / "tmp")
    with without_python(root):
        run([*entered(root, "/usr/sbin:/sbin"), "dpkg", "-i", f"/tmp/{package.name}"], Path("/"))
    (root / "tmp" / package.name).unlink()
    use(root, "/usr")
    run([*entered(root, "/usr/sbin:/sbin"), "dpkg", "--purge", "pinball-checker"], Path("/"))
    equal(files_of(root), before)
