"""Tests what is in a release, and what is refused."""
import ast
import gzip
import hashlib
import re
import shutil
import subprocess
import tarfile
from pathlib import Path

from .made import COMMANDS, DATE, DATED, PROGRAMS, RESULT, TOP, Made, Skipped, equal, run, test

LINK = re.compile(r"\]\(([^)\s#:]+)(?:#[^)\s]*)?\)|^\[[^\[\]]+\]: ([^\s#:]+)(?:#\S*)?$", re.M)
# Where links of the pages may lead that a release has not: to the sources, and to tools for work on them.
NOT_IN_HERE = ("crates/", "dev/", "bench/", ".editorconfig")


@test
def two_clones_give_the_same_bytes(made: Made) -> None:
    equal([it.name for it in made.files], [it.name for it in made.others])
    equal(len(made.files), 2 if shutil.which("dpkg-deb") else 1)
    for one, other in zip(made.files, made.others):
        equal(hashlib.sha256(one.read_bytes()).hexdigest(), hashlib.sha256(other.read_bytes()).hexdigest())


@test
def names_dates_owners_and_modes_are_fixed(made: Made) -> None:
    with tarfile.open(next(it for it in made.files if it.suffix == ".gz")) as tar:
        members = tar.getmembers()
    names = [it.name for it in members]
    equal(names, sorted(names, key=lambda it: it.split("/", 1)[1:]))
    equal({(it.uid, it.gid, it.uname, it.gname) for it in members}, {(0, 0, "root", "root")})
    date = subprocess.run(["date", "--date", DATE, "+%s"], capture_output=True, text=True, check=True).stdout
    equal({int(it.mtime) for it in members}, {int(date)})
    equal({(it.type, oct(it.mode)) for it in members} - {(tarfile.REGTYPE, "0o644")},
          {(tarfile.REGTYPE, "0o755"), (tarfile.DIRTYPE, "0o755"), (tarfile.SYMTYPE, "0o777")})


@test
def no_path_of_this_computer_is_in_a_release(made: Made) -> None:
    packed = next(it for it in made.files if it.suffix == ".gz")
    data = gzip.decompress(packed.read_bytes())
    for path in (made.room, TOP, Path.home(), *(top for it in made.programs.values() for top in it.parents[3:-1])):
        # A path of one part, as /check, may also be a part of an honest word: there it begins a path.
        begins = rb"(?<![\w.)`*>])" if len(path.parts) == 2 else b""
        assert not re.search(begins + re.escape(str(path).encode()) + b"/", data), path


@test
def the_release_says_what_it_is(made: Made) -> None:
    text = (made.unpacked / "RELEASE").read_text()
    commit = run(["git", "rev-parse", "HEAD"], made.clones[0]).strip()
    sources = run(["tools/program", "--sources"], made.clones[0]).split()[0]
    said = {"commit": f"{commit} of 2026-02-03", "sources": sources, "kit": "a kit", "gate": RESULT}
    for key, words in said.items():
        assert f"\n{key:10}{words}" in text, (key, words, text)
    for name in PROGRAMS:
        checksum = hashlib.sha256(made.programs[name].read_bytes()).hexdigest()
        assert f"{checksum}  bin/{name}\n" in text and f"{checksum}  {name}.by-rattle, not in here\n" in text, name


@test
def the_pages_name_the_oldest_c_library(made: Made) -> None:
    said = re.search(r"with glibc ([0-9.]+) or later", (made.unpacked / "RELEASE").read_text())
    assert said and said[0] in (made.unpacked / "share/pinball/README.md").read_text(), said
    if not shutil.which("objdump"):
        raise Skipped("there is no objdump")
    symbols = "".join(run(["objdump", "-T", made.unpacked / "bin" / it], made.room) for it in PROGRAMS)
    newest = max(tuple(map(int, it.split("."))) for it in re.findall(r"GLIBC_([0-9]+(?:\.[0-9]+)+)", symbols))
    equal(said[1], ".".join(map(str, newest[:2])))


@test
def a_release_has_all_that_it_names(made: Made) -> None:
    for path in ("LICENSE", "CHANGELOG.md", "HANDLES", "RELEASE", "README.md", "docs/tutorial.md", "examples/run"):
        assert (made.unpacked / "share/pinball" / path).is_file(), path
    for name in COMMANDS:
        assert (made.unpacked / "bin" / name).is_file() and (made.unpacked / f"share/man/man1/{name}.1").is_file(), name
    assert not list(made.unpacked.rglob("__pycache__"))


@test
def links_of_the_pages_lead_somewhere(made: Made) -> None:
    home = made.unpacked / "share/pinball"
    for page in sorted(home.rglob("*.md")):
        for link in (it[1] or it[2] for it in LINK.finditer(page.read_text())):
            aim = (page.parent / link).resolve()
            inside = str(aim.relative_to(home.resolve()))
            assert aim.exists() or f"{inside}/".startswith(NOT_IN_HERE), f"{page.name}: {link}"


@test
def python_3_10_reads_each_tool(made: Made) -> None:
    tools = made.unpacked / "share/pinball/tools"
    texts = [*tools.rglob("*.py"), *(tools / it for it in COMMANDS if "-" in it), TOP / "tools/release",
             *(TOP / "tools/releasing").glob("*.py")]
    assert len(texts) > 80, texts
    for file in texts:
        ast.parse(file.read_text(), feature_version=(3, 10))


def files_below(folder: Path) -> set[str]:
    return {str(it.relative_to(folder)) for it in folder.rglob("*") if not it.is_dir()}


@test
def the_debian_package_has_the_same(made: Made) -> None:
    package = next((it for it in made.files if it.suffix == ".deb"), None)
    if not package:
        raise Skipped("there is no dpkg-deb")
    room = made.room / "of debian"
    run(["dpkg-deb", "-x", package, room], made.room)
    left_out = ("share/pinball/install.sh", "share/pinball/SHA256SUMS", "share/zsh/site-functions/_pinball")
    own = {it for it in files_below(made.unpacked) if "/" in it} - set(left_out)
    found = files_below(room / "usr")
    equal(found - own, {"share/doc/pinball-checker/copyright", "share/zsh/vendor-completions/_pinball"})
    equal(own - found, set())
    for path in own:
        equal((room / "usr" / path).read_bytes(), (made.unpacked / path).read_bytes())
    said = run(["dpkg-deb", "-f", package, "Package", "Version"], made.room)
    equal(said, f"Package: pinball-checker\nVersion: {made.version}\n")


# what is refused


def refused(made: Made, why: str) -> None:
    to = made.room / "refused"
    said = made.release(made.clones[0], to, status=1)
    assert why in said, (why, said)
    assert not to.exists(), said


@test
def a_dirty_tree_is_refused(made: Made) -> None:
    page, other = made.clones[0] / "README.md", made.clones[0] / "docs/new.md"
    text = page.read_text()
    page.write_text(text + "more\n")
    refused(made, "README.md")
    page.write_text(text)
    other.write_text("new\n")
    refused(made, "docs/new.md")
    other.unlink()


@test
def a_version_of_which_the_changelog_says_nothing_is_refused(made: Made) -> None:
    clone, heading = made.clones[0], f"\n## {made.version}\n"
    page = clone / "CHANGELOG.md"
    page.write_text(page.read_text().replace(heading, "\n## Another\n"))
    run(["git", "commit", "--quiet", "--all", "--message", "another"], clone, **DATED)
    refused(made, f"no heading `{heading.strip()}`")
    run(["git", "reset", "--quiet", "--hard", "HEAD~1"], clone)


@test
def programs_of_other_sources_are_refused(made: Made) -> None:
    first, second = (made.proved / "crates" / name / "out/proved" for name in PROGRAMS)
    of_first, of_second = first.read_text(), second.read_text()
    first.write_text("f" * 64 + of_first[64:])
    refused(made, "out/pinball was proved of other sources")
    first.write_text(of_first)
    second.write_text(of_second[:-10] + "0" * 6 + of_second[-4:])
    refused(made, "out/pinball_live is not the program that was proved")
    second.unlink()
    refused(made, "there is no proved program")
    second.write_text(of_second)


@test
def a_log_of_no_green_gate_is_refused(made: Made) -> None:
    text = made.log.read_text()
    for changed, why in (
        (text.replace(RESULT, "11 passed, 1 failed"), "not green"), (text.replace(RESULT, ""), "no log of a whole"),
        (text.replace("kit a kit\n", ""), "no log of a whole"), ("", "no log of a whole"),
        (text.replace("sources ", "sources 0"), "other sources"),
    ):
        made.log.write_text(changed)
        refused(made, why)
    made.log.write_text(text)
