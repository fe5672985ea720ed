"""State machines, each said by a variable and conditions."""
from dataclasses import dataclass, field

from . import values
from .context import Context
from .draft import Value
from .expressions import NotSaid
from .playfield import FIRST_BALL, events_of, left_out, posted, rest
from .source import Given


@dataclass
class Machine:
    """A state machine: its states by their names, and the events that each posts."""

    ctx: Context
    mode: str
    entry: Given
    variable: str
    states: dict[str, Given]
    started: dict[str, list[str]] = field(default_factory=dict)
    stopped: dict[str, list[str]] = field(default_factory=dict)

    @property
    def first(self) -> str:
        wanted = self.entry.says("starting_state", "start")
        return wanted if wanted in self.states else next(iter(self.states))

    def number(self, state: str) -> int:
        return [self.first, *(it for it in self.states if it != self.first)].index(state)

    def sets(self, state: str) -> dict[str, Value]:
        return {self.variable: {"int": str(self.number(state)), "action": "set"}}


def of_state_machines(ctx: Context, mode: str, section: Given) -> None:
    for entry in section.inside():
        given, moves = entry.at("states"), entry.at("transitions")
        states = {it.key: it for it in given.inside()} if given else {}
        if not states or not moves or not moves.items():
            ctx.lose("state_machines", entry, "it needs `states` and `transitions`")
            continue
        machine = Machine(ctx, mode, entry, ctx.variable(entry.key), states)
        of_states(machine)
        begins(machine)
        for at, move in enumerate(moves.items(), 1):
            transition(machine, move, ctx.own(f"{entry.key}_goes_{at}"))
        rest(ctx, "state_machines", entry, "states", "transitions", "persist_state", "starting_state")
    ctx.log("state_machines", section.place)


def of_states(machine: Machine) -> None:
    """Reads the settings of the states. Events that never come in MPF are left out."""
    moves = [it for given in [machine.entry.at("transitions")] if given for it in given.items()]
    for name, state in machine.states.items():
        entered = name == machine.first or any(it.says("target") == name for it in moves)
        left = any(name in it.names("source") for it in moves)
        for key, comes, found in ("events_when_started", entered, machine.started), (
                "events_when_stopped", left, machine.stopped):
            given = state.at(key)
            found[name] = posted(machine.ctx, machine.mode, state, given) if comes else []
            if given and not comes:
                machine.ctx.log("state_machines", given.place, "no transition makes it come", "unseen")
        for it in state.inside():
            if it.key not in ("events_when_started", "events_when_stopped"):
                left_out(machine.ctx, "state_machines", it)


def begins(machine: Machine) -> None:
    """The first state, and the events that it posts when the machine begins."""
    ctx, mode, entry, events = machine.ctx, machine.mode, machine.entry, machine.started[machine.first]
    if (given := entry.at("starting_state")) and given.text != machine.first:
        ctx.lose("bad value", given, f"`{given.text[:60]}` is no state: it begins in `{machine.first}`", "weakened")
    if mode not in ctx.game_modes:
        ctx.log("state_machines", entry.place, "each player has a state of their own, in a game", "weakened")
    if not mode:
        if given := entry.at("persist_state"):
            ctx.log("state_machines", given.place, "in the text of the machine it changes nothing", "unseen")
        if events:
            ctx.post("", FIRST_BALL, events, entry, f"the first state, {machine.first}")
    elif entry.says("persist_state").lower() not in values.YES:
        ctx.change(mode, f"mode_{mode}_started", machine.sets(machine.first), entry, "it begins anew")
        if events:
            ctx.post(mode, f"mode_{mode}_started", events, entry, f"the first state, {machine.first}")
    elif events:
        begun = ctx.own(f"{entry.key}_has_begun", 50)
        head = f"mode_{mode}_started{{current_player.{begun} == 0}}"
        ctx.post(mode, head, events, entry, f"the first state, {machine.first}")
        ctx.change(mode, head, {begun: {"int": "1", "action": "set"}}, entry, "once for each player")


def transition(machine: Machine, move: Given, name: str) -> None:
    ctx, mode = machine.ctx, machine.mode
    sources, target = move.names("source"), move.says("target")
    if target not in machine.states or not sources or not all(it in machine.states for it in sources):
        ctx.lose("state_machines", move, "no such state")
        return
    for source in sources:
        condition = f"current_player.{machine.variable} == {machine.number(source)}"
        for event in events_of(ctx, mode, move, "events"):
            try:
                head, _, own = event.partition("{")
                both = f"{head}{{{condition} and {own[:-1]}}}" if own else f"{head}{{{condition}}}"
                for it in ctx.handled(mode, both, move):
                    ctx.post(mode, it, [*machine.stopped[source], name], move, f"from {source} to {target}")
            except NotSaid as why:
                ctx.lose("state_machines", move, str(why))
    ctx.change(mode, name, machine.sets(target), move, f"to {target}")
    posts = [*posted(ctx, mode, move, move.at("events_when_transitioning")), *machine.started[target]]
    if posts:
        ctx.post(mode, name, posts, move, f"to {target}")
    for it in move.inside():
        if it.key not in ("source", "target", "events", "events_when_transitioning"):
            left_out(ctx, "state_machines", it)
