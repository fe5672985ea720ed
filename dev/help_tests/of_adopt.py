"""`pinball-help adopt`: it says all that is lost, what is rewritten does what it should, and it never fails.

Alone, `python3 dev/help_tests/of_adopt.py PROGRAM [COUNT] [SEED]` adopts so many drawn folders."""
import random
import re
import sys
import tempfile
import time
import traceback
from dataclasses import replace
from pathlib import Path
from typing import Callable, Iterator

if __name__ == "__main__":
    sys.dont_write_bytecode = True
    sys.path[:0] = [str(Path(__file__).resolve().parents[2] / it) for it in ("tools", "dev")]

from help_tests.adopted import MACHINES, REWRITES, adopted, written
from help_tests.adopted_draws import draw_folder
from help_tests.adopted_plays import PLAYS, Play
from help_tests.common import IS_UNPROVED, PROGRAM, TOP, takes_longer, test
from help_tests.folders import damaged
from help_tests.of_adopted_coils import driven_more
from pinball_help import outline
from pinball_help.adopt import accept, report, run, whole
from pinball_help.adopt.context import Context
from pinball_help.adopt.features import EFFECTS, FEATURES, LOST, REWRITTEN, TABLE, UNSEEN, WEAKENED
from pinball_help.adopt.source import Source, read

DRAWN, DAMAGED = 40, 20  # folders that are tried with the other tests
MOST_SECONDS = 5.0
PLACE = re.compile(r"([\w./-]+\.yaml):(\d+)(?:-(\d+))?")


# the four machines


@test
def the_four_machines_are_accepted_in_one_round() -> None:
    for folder in MACHINES:
        with tempfile.TemporaryDirectory() as room:
            new = Path(room) / "new"
            assert run.write(adopted(folder), new, force=False) == []
            assert PROGRAM.check(new).accepted, folder


def may_be_lost(folder: Path) -> dict[tuple[str, int], str]:
    lines = (folder / "may_be_lost").read_text().split("\n")[:-1]
    return {(it.split()[1], int(it.split()[2])): it.split()[0] for it in lines}


@test
def nothing_is_lost_but_what_may_be() -> None:
    for folder in MACHINES:
        allowed = may_be_lost(folder)
        for it in adopted(folder).context.done:
            if it.effect in (LOST, WEAKENED):
                effect = allowed.get((it.place.file, it.place.line))
                assert effect, f"{folder.name}: {it} is not in the list"
                assert effect == LOST or it.effect == WEAKENED, f"{folder.name}: {it} is lost, and not weakened"


def listed(page: str) -> set[tuple[str, int]]:
    """The lines that a report names."""
    found = set()
    for file, first, last in PLACE.findall(page.partition("## Handled, and")[0]):
        found |= {(file, at) for at in range(int(first), int(last or first) + 1)}
    return found


def words(text: str) -> list[str]:
    text = re.sub(r"\s*([=!<>]=|[<>])\s*", r"\1", text)
    return sorted(re.findall(r"[^\s,\[\]'\"]+", text))


def all_words(node: outline.Node) -> list[str]:
    """The words of a text, or of all items of a list."""
    return sorted([*words(node.text), *(word for it in node.items or [] for word in all_words(it))])


def not_kept(old: outline.Node, new: outline.Node, said: set[int]) -> list[str]:
    """What a value of the MPF folder has, and the new one has not, with its lines. `said` are lines that are listed."""
    wrong: list[str] = []
    for entry in old.entries or []:
        if entry.line + 1 in said:
            continue
        here = next((it.value for it in new.entries or [] if words(it.key) == words(entry.key)), None)
        if here is None and entry.key in ("int", "action") and new.text and entry.value.text in (new.text, "add"):
            continue  # (an entry of a player with a mapping, which is written short)
        if here is None and not entry.value.text and {*words(entry.key)} <= {*all_words(new)}:
            continue  # (an event of a mapping, which is written as a list)
        if here is None and not entry.value.entries and not entry.value.items:
            wrong.append(f"{entry.line + 1} {entry.key}")
        inner = not_kept(entry.value, here or outline.Node(0), said)
        wrong += [it if it[0].isdigit() else f"{entry.line + 1} {entry.key}: {it}" for it in inner]
    for item in [it for it in old.items or [] if it.line + 1 not in said]:
        if item.entries and all(not_kept(item, it, said) for it in new.items or []):
            wrong.append(f"{item.line + 1} a mapping")
        elif missing := {*all_words(item)} - {*all_words(new)}:
            wrong.append(f"{item.line + 1} {missing}")
    if old.text and words(old.text) != all_words(new):
        wrong.append(f"`{old.text}`")
    return wrong


@test
def each_section_and_setting_is_kept_or_listed() -> None:
    for folder in (*MACHINES, REWRITES):
        files = adopted(folder).files
        said = listed(files[report.NAME])
        for path in sorted(folder.glob("**/config/*.yaml")):
            place = str(path.relative_to(folder))
            text = f"modes/{path.stem}/config/{path.stem}.yaml" if place.startswith("modes/") else "config/config.yaml"
            new = outline.read(files.get(text, "").split("\n"))
            old = outline.read(path.read_text().split("\n"))
            wrong = not_kept(old, new, {line for file, line in said if file == place})
            assert not wrong, f"{folder.name}: {place}: {wrong} is neither kept nor listed"


@test
def each_setting_of_a_rewrite_counts() -> None:
    for folder in (*MACHINES, REWRITES):
        said = settings_without_effect(folder)
        assert not said, f"{folder.name}: {said[0]} changes nothing, and is not listed"


def settings_without_effect(folder: Path) -> list[str]:
    """The settings that may have any value without a change in the new folder, and are not listed as left out."""
    source = read(folder)
    made = adopt(source)
    before = what_comes(made)
    return [place for entry, place in leaves(source, made)
            if all(what_comes(adopt(other)) == before for other in changed(source, entry))]


def adopt(source: Source) -> Context:
    """What comes of a folder, before the program is asked."""
    return whole.adopt(replace(source, parts=list(source.parts)))


def what_comes(made: Context) -> tuple[list[str], set[tuple[str, str]]]:
    """The lines of the new folder without its comments, and what is listed as left out."""
    lines = [it for text in made.draft.files().values() for it in text if not it.lstrip().startswith("#")]
    return lines, {(it.feature, str(it.place)) for it in made.done if it.effect != REWRITTEN}


def leaves(source: Source, made: Context) -> Iterator[tuple[outline.Entry, str]]:
    """The settings whose value is a text, and that are neither kept nor listed as left out, with their places."""
    for file in source.files:
        left_out = {(it.place.line, max(it.place.line, it.place.last)) for it in made.done
                    if it.place.file == file.name and it.effect != REWRITTEN}
        lost = {(it.place.line, it.place.last) for it in made.done
                if it.place.file == file.name and it.effect in (LOST, UNSEEN)}
        for entry in outline.entries(file.root):
            around = {(it.line + 1, it.last) for it in (*entry.path[2:], entry)} & left_out
            around |= {(first, last) for first, last in lost if first <= entry.line + 1 <= last}
            is_kept = (file.name, entry.line + 1) in made.kept
            if entry.value.text and entry.path and not around and not is_kept and entry.path[0].key != "modes":
                yield entry, f"{file.name}:{entry.line + 1} {entry.key}"


def changed(source: Source, entry: outline.Entry) -> Iterator[Source]:
    """A folder with another value of a setting: a longer number or name, one that is none, or none at all."""
    before = entry.value.text
    for text in (f"{before}1", f"{before}x", ""):
        entry.value.text = text
        yield source
    entry.value.text = before


@test
def the_page_has_the_table() -> None:
    page = (TOP / "docs/from_mpf.md").read_text()
    shown = page.partition("## What adopt does with each feature\n")[2]
    table = [it for it in shown.split("\n") if it.startswith("|")]
    assert table == report.table(), "write what `tools/pinball-help adopt --table` prints to docs/from_mpf.md"
    assert len(FEATURES) == sum(len(it.names) for it in TABLE) and all(it.effect in EFFECTS for it in TABLE)


@test
def each_feature_that_is_said_is_in_the_table() -> None:
    for source in (TOP / "tools/pinball_help/adopt").glob("*.py"):
        for name in re.findall(r'(?:log|lose)\(\s*"([^"{}]+)"', source.read_text()):
            assert name in FEATURES, f"{source.name}: {name}"


# what is rewritten does what it should


def machine_of(play: Play, folder: Path) -> Path:
    modes = "modes:\n" + "".join(f"  - {it}\n" for it in play.modes) if play.modes else ""
    files = {"config/config.yaml": f"#config_version=6\n{modes}{play.machine}"}
    texts = {f"modes/{it}/config/{it}.yaml": text for it, text in play.modes.items()} | play.files
    return written(files | {name: f"#config_version=6\n{text}" for name, text in texts.items()}, folder)


def fails(play: Play) -> str:
    """What is wrong with a play, or nothing."""
    with tempfile.TemporaryDirectory() as room:
        made = run.adopt(PROGRAM, machine_of(play, Path(room) / "mpf"))
        new = written(made.files, Path(room) / "new")
        (new / "log").write_text(play.log)
        trace = PROGRAM.output(["play", str(new / "log"), str(new)])
    lines = [re.sub(r"^(\d+) \S+ ", r"\1 ", it) for it in trace.split("\n")]
    rest = iter(lines)
    for wanted in play.happens:
        if wanted not in rest:
            return f"{play.name}: `{wanted}` does not happen, or not then:\n{trace}\n{made.files}"
    if wrong := [it for it in play.never if it in lines]:
        return f"{play.name}: `{wrong[0]}` happens:\n{trace}\n{made.files}"
    if dead := [it for text in made.files.values() for it in text.split("\n") if it.endswith(": []")]:
        return f"{play.name}: `{dead[0].strip()}` does nothing"
    named = {it.feature for it in made.context.done}
    missing = [it for it in play.features if not named & {*FEATURES[it].names}]
    return f"{play.name}: {missing} is not said, but {named}" if missing else ""


@test
def each_rewritten_rule_is_played() -> None:
    for play in PLAYS:
        assert not (said := fails(play)), said


@test
def each_feature_that_is_rewritten_is_played() -> None:
    played = {name for play in PLAYS for name in play.features}
    missing = [it.title for it in TABLE if it.effect == REWRITTEN and not played & {*it.names}]
    assert not missing, missing


# any folder


def spent() -> float:
    """Seconds of processor time; those of an unproved program do not count, which is slow."""
    return time.process_time() if IS_UNPROVED else accept.spent()


def wrong(seed: int, make: Callable[[random.Random, Path], Path]) -> str:
    """What is wrong with how a drawn folder is adopted, or nothing."""
    with tempfile.TemporaryDirectory(prefix="adopt-") as name:
        room = Path(name)
        folder = make(random.Random(seed), room / "mpf")
        start = spent()
        try:
            made = run.adopt(PROGRAM, folder)
        except (OSError, ValueError) as error:
            return "" if make is hostile_folder else f"{seed}: {error!r}"
        except Exception:
            return f"{seed}: {traceback.format_exc()}"
        seconds = spent() - start
        run.write(made, room / "new", force=False)
        answer = PROGRAM.check(room / "new")
        if not answer.accepted:
            return f"{seed}: {answer.complaints}"
        if takes_longer(seconds, MOST_SECONDS):
            return f"{seed}: {seconds:.1f} s"
        if said := driven_more(made):
            return f"{seed}: {said}"
        left = any(it.says == "the whole machine" for it in made.context.done)
        return f"{seed}: nothing is left of it" if left and make is not hostile_folder else ""


def hostile_folder(draw: random.Random, room: Path) -> Path:
    room.mkdir()
    return damaged(room, draw).folder


def all_wrong(count: int, seed: int, make: Callable[[random.Random, Path], Path]) -> list[str]:
    return [it for at in range(count) if (it := wrong(seed + at, make))]


@test
def drawn_folders_are_adopted() -> None:
    assert not (said := all_wrong(DRAWN, 82_000, draw_folder)), said[0]


@test
def damaged_folders_are_adopted_or_refused_with_a_message() -> None:
    assert not (said := all_wrong(DAMAGED, 8_200, hostile_folder)), said[0]


def main() -> int:
    """Adopts many drawn folders, and many damaged ones."""
    count, seed = (int(it) for it in (sys.argv[2:] + ["1000", "0"][len(sys.argv[2:]) :]))
    failed = 0
    for name, make in ("drawn", draw_folder), ("damaged", hostile_folder):
        found = 0
        for at in range(count):
            if said := wrong(seed + at, make):
                found += 1
                print(f"{name} folder {said}", flush=True)
            if at % 100 == 99:
                print(f".. {at + 1} {name} folders, {found} wrong", flush=True)
        print(f"{count} {name} folders, {found} wrong", flush=True)
        failed += found
    return 1 if failed else 0


if __name__ == "__main__":
    sys.exit(main())
