"""The file RELEASE: what the release is, and what somebody else has to run to get the same."""
import re
from pathlib import Path

from .checkout import Commit, Gate, sum_of

# The program as the other compiler built it, which is not in the release.
BY_RATTLE = "by-rattle"
GLIBC = re.compile(rb"GLIBC_([0-9]+)\.([0-9]+)\b")

TEXT = """\
pinball {version}, for Linux on x86-64 with glibc {glibc} or later, such as Debian 12

To install the archive in ~/.local:   ./install.sh ~/.local
To remove it from there:              ~/.local/share/pinball/install.sh --remove ~/.local
The package of Debian has the same in it, but for install.sh: dpkg installs and removes it.

The commands are pinball and pinball_live, and pinball-help, pinball-table and pinball-test, which need Python 3.10 or
later. `man pinball` says more, and the pages are in share/pinball: README.md, and docs/tutorial.md to begin with. Where
a page says tools/pinball-help, the command is pinball-help. Links of the pages to crates/ and to dev/ lead to the
sources, which are not in here.

commit    {commit} of {date}
sources   {sources}
kit       {kit}
gate      {result} (tools/test on commit {gate_commit})

The programs, with their SHA-256:

{programs}

To get the same bytes, check out this commit, put the folder bin of this kit on the PATH, and run:

    rt ci
    sha256sum crates/pinball/out/pinball crates/pinball_live/out/pinball_live

That is the gate, and takes hours. It builds them with Rattle's own compiler too, as *.{by_rattle} in the same folders.
To get the same release, run tools/test | tee LOG, and then tools/release LOG. If the line `gate` is the same, so is all
that is in it, and with the zlib and dpkg of Debian 12 each byte of both files.
"""


def glibc_of(programs: dict[str, Path]) -> str:
    """The oldest C library with which the programs run: the newest whose symbols they name."""
    found = [it for path in programs.values() for it in GLIBC.findall(path.read_bytes())]
    return "{}.{}".format(*max((int(major), int(minor)) for major, minor in found))


def text(version: str, programs: dict[str, Path], commit: Commit, gate: Gate) -> str:
    others = [path.with_name(f"{name}.{BY_RATTLE}") for name, path in programs.items()]
    rows = [f"    {sum_of(path)}  bin/{name}" for name, path in programs.items()]
    rows += [f"    {sum_of(path)}  {path.name}, not in here" for path in others if path.is_file()]
    return TEXT.format(
        version=version, glibc=glibc_of(programs), commit=commit.name, date=commit.date, sources=gate.sources,
        kit=gate.kit, result=gate.result, gate_commit=gate.commit, programs="\n".join(rows), by_rattle=BY_RATTLE)
