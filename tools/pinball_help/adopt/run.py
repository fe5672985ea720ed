"""The command `adopt`: makes the new folder, or says how it differs from what a builder has changed in it."""
import difflib
import re
from dataclasses import dataclass
from pathlib import Path

from .. import unused
from ..answers import Answer
from ..machine_graph import graph_of
from ..printed import clean
from ..program import Program
from ..scenery import Scenery
from ..texts import MACHINE, MIB, Line, read_bytes
from . import report, whole
from .accept import accept
from .context import Context
from .features import LOST, REWRITTEN, UNSEEN, WEAKENED
from .source import Place, read

WITHIN = 3.0  # seconds of processor time in which single places are left out; then more goes at once
MOST_LINES = 400  # of what differs, or is left out
MOST_FILE = 8 * MIB


@dataclass
class Adopted:
    context: Context
    answer: Answer
    files: dict[str, str]  # of the new folder, with ADOPTED.md


def adopt(program: Program, folder: Path) -> Adopted:
    """Makes the texts of the new folder. Raises OSError or ValueError if the folder cannot be read."""
    ctx = whole.adopt(read(folder))
    before = {it.posts for it in graph_of(scene_of(ctx)).posts}
    answer = accept(ctx, program, WITHIN)
    files = {name: "".join(f"{it}\n" for it in text) for name, text in ctx.draft.files().items()}
    page = report.report(ctx, str(folder), unposted(ctx, scene_of(ctx), answer, before), files)
    return Adopted(ctx, answer, {**files, report.NAME: page})


def scene_of(ctx: Context) -> Scenery:
    return Scenery({name: [Line(at, it) for at, it in enumerate(text, 1)] for name, text in ctx.draft.files().items()})


def unposted(ctx: Context, scene: Scenery, answer: Answer, before: set[str]) -> list[tuple[str, str]]:
    """The events that are handled, and that nothing posts, each with its place in the new folder.

    Those that MPF posts by itself are lost rules, and are said with their places in the MPF folder."""
    found = []
    for it in unused.unused(scene, answer):
        if it.kind != "handled, and nothing posts it" or it.name.startswith("adopted_"):
            continue
        places = places_of(ctx, scene, it)
        feature = next((name for pattern, name in OF_MPF if re.fullmatch(pattern, it.name)), "")
        if feature := feature or ("events of what is left out" if it.name in before else ""):
            for place in places:
                ctx.log(feature, place, f"`{it.name}`")
        else:
            found.append((it.name, f"{it.text}:{it.line}" + (f" ({it.hint})" if it.hint else "")))
    return found


# events that MPF posts by itself, and nothing here does
OF_MPF = (
    (r"init_done|init_phase_\d|reset_complete|machine_reset_phase_\d|mc_ready|mpf_ready|master_reset_complete|"
     r"game_ended_.*|service_.*|player_.*_changed|bcp_.*|mc_.*|shutdown|asset_.*|loading_assets|credits_.*|"
     r"not_enough_credits|high_score.*|text_input_.*|ball_search_.*|playfield_.*|collecting_balls.*|"
     r"ball_drain_.*|unexpected_ball.*|balldevice_captured_.*|sys11_.*", "system events"),
    (r"(multiball_lock|achievement|achievement_group|ball_lock|magnet|show|slide|widget|sound|motor|stepper|servo|"
     r"credits|queue|digital_output|score_reel)_.*|ball_save_.*_(hurry_up|grace_period|timer_start)|"
     r"multiball_.*_(shoot_again|hurry_up|grace_period|lost_ball|ending)|.*_(hurry_up|grace_period)",
     "events of what is left out"),
)


def places_of(ctx: Context, scene: Scenery, it: unused.Unused) -> list[Place]:
    """Where an event that is handled comes from in the MPF folder."""
    entry = scene.around(it.text, it.line - 1)
    path = [*entry.path, entry] if entry else []
    mode = "" if it.text == MACHINE else scene.owner(it.text)
    if len(path) > 1:
        written = ctx.draft.texts.get(mode, {}).get(path[0].key, {}).get(path[1].key)
        if written:
            inner = written.lines.get(path[2].key) if len(path) > 2 else None
            return [inner] if inner else written.places
    return []


# writing


def write(adopted: Adopted, new: Path, force: bool) -> list[str]:
    """Writes the folder, unless a builder has changed what would be overwritten: then it returns what differs."""
    known = sums(new)
    differs = [] if force else changes(adopted, new, known)
    if differs:
        return differs
    stay_outside(adopted.context.source.folder, [new / it for it in {**known, **adopted.files}])
    for name, text in adopted.files.items():
        path = new / name
        path.parent.mkdir(parents=True, exist_ok=True)
        path.write_bytes(text.encode("utf-8", "surrogateescape"))
    for name in known:
        if name not in adopted.files and (file := new / name).is_file() and name_is_own(name):
            file.unlink()
    return []


def stay_outside(folder: Path, paths: list[Path]) -> None:
    """Raises ValueError if a file that would be written is in the MPF folder, by a link."""
    for path in paths:
        if folder.resolve() in path.resolve().parents:
            raise ValueError(f"{path} is in the MPF folder, by a link: nothing there is ever changed")


def name_is_own(name: str) -> bool:
    """Whether a name is one that adopt writes: nothing else is ever taken away."""
    parts = name.split("/")
    return parts[0] == "modes" and len(parts) == 4 and parts[2] == "config" and ".." not in parts


def sums(new: Path) -> dict[str, str]:
    """What adopt wrote before, by its report. Raises ValueError if the folder is not one of adopt's."""
    if not new.exists():
        return {}
    if not new.is_dir():
        raise ValueError(f"{new} is a file: give the name of a folder")
    if not any(new.iterdir()):
        return {}
    try:
        page = read_bytes(new / report.NAME, MOST_FILE).decode("utf-8", "surrogateescape")
    except OSError as error:
        said = f"{new} is there, and not by adopt: it has no {report.NAME}. Give the name of another folder"
        raise ValueError(said) from error
    return {name: known for known, name in report.SUMS.findall(page)}


def changes(adopted: Adopted, new: Path, known: dict[str, str]) -> list[str]:
    """What a builder has changed, and would lose."""
    lines: list[str] = []
    for name in dict.fromkeys([*known, *adopted.files]):
        wanted = compared(name, adopted.files.get(name, ""))
        if not (new / name).is_file():
            lines += [f"--- {name} is gone, and adopt would write it again"] if name in known and wanted else []
            continue
        here = compared(name, read_bytes(new / name, MOST_FILE).decode("utf-8", "surrogateescape"))
        if here != wanted and report.sum_of(here) != known.get(name):
            before, after = f"{name} as it is", f"{name} by adopt"
            lines += difflib.unified_diff(here.splitlines(), wanted.splitlines(), before, after, lineterm="")
    return lines


def compared(name: str, text: str) -> str:
    return report.body_of(text) if name == report.NAME else text


def shown(adopted: Adopted, new: Path) -> list[str]:
    """What is said after the folder is written."""
    done = adopted.context.done
    counts = {effect: len({it.place for it in done if it.effect == effect})
              for effect in (REWRITTEN, WEAKENED, LOST, UNSEEN)}
    name = clean(str(new))
    left_out = report.left_out(adopted.context)
    more = [f".. {len(left_out) - MOST_LINES} lines more", ""] if len(left_out) > MOST_LINES else []
    return [
        *left_out[:MOST_LINES], *more,
        f"{name}: pinball check answers yes, about this folder and not about what MPF runs.",
        f"Places of the MPF folder: {counts[REWRITTEN]} rewritten, {counts[WEAKENED]} weakened, {counts[LOST]} lost, "
        f"{counts[UNSEEN]} only unseen.",
        f"{name}/{report.NAME} lists all of them, by feature.",
    ]
