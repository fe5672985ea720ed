"""The machine that is tested, and the names that it has."""
from dataclasses import dataclass
from pathlib import Path

from pinball_help.near import nearest
from pinball_help.program import Program
from pinball_help.scenery import Scenery
from pinball_help.texts import read_texts
from pinball_table.answers import Answers, Live, Replay
from pinball_table.machine import read_machine
from pinball_table.settings import Settings, read_settings

from .happenings import OWN_VARIABLES

PATIENCE = 120.0  # s: how long the program may take for one answer
AHEAD = 30_000  # ms: how much of the trace beyond the log `pinball play` is asked for at once


class Refused(Exception):
    """The program refuses the machine, so there is nothing to play."""


@dataclass(frozen=True)
class Tested:
    settings: Settings  # of the table, with the machine
    program: Program
    live: str | None  # the program that answers a log line by line, if there is one
    names: dict[str, frozenset[str]]  # of each kind: `switch`, `coil`, `mode`, `event` and `variable`

    def answers(self) -> Answers:
        """Answers the log of one test."""
        folder = self.settings.machine.folder
        if self.live:
            return Live(self.live, folder, PATIENCE)
        return Replay(self.program.path, folder, PATIENCE, AHEAD)

    def unknown(self, kind: str, name: str) -> str:
        """What is to be said of a name that the machine does not have; nothing of one that it has."""
        if name in self.names[kind]:
            return ""
        near = nearest(name, self.names[kind], 0.6)
        return f"This machine has no {kind} `{name[:100]}`." + (f" Near it: `{near}`." if near else "")


def read_tested(folder: Path, program: Program, live: str | None = None) -> Tested:
    """Raises Refused where the program refuses the machine, OSError where there is none, and
    BadSetting where `table.yaml` has one."""
    scene, machine = Scenery(read_texts(folder)), read_machine(folder)
    answer = program.check(folder)
    if not answer.accepted:
        first = answer.complaints[0].said if answer.complaints else "no"
        raise Refused(f"The machine is refused: {first}. See `pinball-help errors {folder}`.")
    variables = {it.key for _, entry in scene.entries_of("variable_player") for it in entry.value.entries or []}
    names = {
        "switch": frozenset(machine.switches),
        "coil": frozenset(machine.coils),
        "mode": frozenset(machine.modes),
        "event": frozenset(answer.weights),
        "variable": frozenset({*variables, *OWN_VARIABLES, "score"}),
    }
    return Tested(read_settings(machine), program, live, names)
