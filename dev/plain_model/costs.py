"""Weights, bounds and cycles: what the cascade of each event costs at most."""
from collections.abc import Iterable
from dataclasses import dataclass, field
from typing import Any

from .devices import Act, BallDevice, Device
from .plan import MODE_EVENTS, Binding, Plan
from .saves import BallSave, Multiball

LIMIT = 100_000
Weights = dict[str, int]


@dataclass
class Cost:
    """So many lines, the weights of these events, and of each choice its dearest cost."""

    lines: int = 0
    events: list[str] = field(default_factory=list)
    choices: list[list["Cost"]] = field(default_factory=list)

    def __add__(self, other: "Cost") -> "Cost":
        return Cost(self.lines + other.lines, self.events + other.events, self.choices + other.choices)

    def value(self, weights: Weights) -> int:
        dearest = (max((cost.value(weights) for cost in choice), default=0) for choice in self.choices)
        return self.lines + sum(weights[event] for event in self.events) + sum(dearest)

    def mentions(self) -> set[str]:
        return {*self.events}.union(*(cost.mentions() for choice in self.choices for cost in choice))


def total(costs: Iterable[Cost]) -> Cost:
    return sum(costs, Cost())


def one_of(*costs: Cost) -> Cost:
    return Cost(choices=[[*costs]])


class Costs:
    """The costs of a plan: of each event, and of each stimulus."""

    def __init__(self, plan: Plan):
        self.plan = plan
        self.balls = [row for row in plan.rows if isinstance(row, BallDevice)]
        trough = next((row for row in self.balls if row.is_trough), None)
        self.request = self.act(trough, ("request",)) if trough else Cost()
        self.drains = self.drain_costs()
        works = self.works()
        bound: dict[str, list[Binding]] = {}
        for binding in plan.bindings:
            bound.setdefault(binding.event, []).append(binding)
        self.of_event = {
            event: Cost(1) + total(self.target(binding) for binding in bound.get(event, [])) + works.get(event, Cost())
            for event in plan.events
        }
        self.of_switch = {
            switch: one_of(self.acceptance(switch, True), self.acceptance(switch, False)) for switch in plan.switches
        }
        self.stimuli = [*self.of_switch.values(), *(self.act(row, ("fire",)) for row in plan.rows)]

    def target(self, binding: Binding) -> Cost:
        kind, *what = binding.target
        if kind == "post":
            return Cost(0, [*what[0]])
        if kind == "change":
            return Cost(len(what[0]), [f"player_{variable}" for variable, *_ in what[0]])
        if kind == "drive":
            return Cost(len(what[0]))
        if kind in ("start", "stop"):
            return Cost(0, [f"mode_{what[0]}_{'will_start' if kind == 'start' else 'stopping'}"])
        return self.act(what[0], what[1])

    def act(self, device: Device, act: Act) -> Cost:
        return one_of(*(total(self.effects(device, number) for number in lists) for lists in device.outcomes(act)))

    def effects(self, device: Device, number: int) -> Cost:
        """Of the actions of a list."""
        actions = device.lists[number]
        if ("enter", "") not in actions:
            return total(self.action(*action) for action in actions)
        enter, *drain = [target for action, target in actions if action == "post"]
        return Cost(1, [enter]) + one_of(Cost(0, drain), self.confirm(device.name))

    def action(self, action: str, target: Any) -> Cost:
        if action == "post":
            return Cost(0, [target])
        return self.request if action in ("request", "add") else Cost(1)

    def drain_costs(self) -> dict[str, Cost]:
        """What a drained ball may come to: a save, the ends of all multiballs, or the end of the turn."""
        saves = [self.act(row, ("save",)) for row in self.plan.rows if isinstance(row, BallSave)]
        ends = [self.act(row, ("end",)) for row in self.plan.rows if isinstance(row, Multiball)]
        return {"a save": one_of(*saves), "ends": total(ends), "the last ball": Cost(0, ["ball_will_end"])}

    def confirm(self, target: str) -> Cost:
        return one_of(*(self.act(row, ("confirm",)) for row in self.balls if row.target == target))

    def acceptance(self, switch: str, on: bool) -> Cost:
        found = Cost(1, self.plan.switches[switch].posts[on])
        for row in self.plan.rows:
            for index, listened in enumerate(row.listens):
                if listened == switch:
                    found += self.act(row, ("switch", index, on))
        if on and self.plan.switches[switch].is_on_playfield:
            found += self.confirm("playfield")
        return found

    def works(self) -> dict[str, Cost]:
        found = {}
        for mode in self.plan.modes:
            will_start, starting, started, stopping, stopped = (f"mode_{mode}_{what}" for what in MODE_EVENTS)
            starts = total(self.act(row, ("started",)) for row in self.plan.rows if row.owner == mode)
            found |= {will_start: Cost(0, [starting]), starting: Cost(0, [started])}
            found |= {started: starts + Cost(0, [stopping]), stopping: Cost(len(self.enabled(mode)), [stopped])}
            if self.plan.has_game and self.plan.modes[mode].only("mode")["use_wait_queue"]:
                found[stopped] = Cost(0, ["ball_ended"])
        return found | self.game_works() if self.plan.has_game else found

    def enabled(self, mode: str) -> set[str]:
        """The coils that the coil players of a mode enable."""
        targets = [binding.target for binding in self.plan.bindings if binding.owner == mode]
        drives = [drive for kind, *what in targets if kind == "drive" for drive in what[0]]
        return {coil for coil, action, *_ in drives if action == "enable"}

    def game_works(self) -> dict[str, Cost]:
        one_after = {
            "game_will_start": "game_starting",
            "game_started": "player_turn_will_start",
            "player_turn_will_start": "player_turn_starting",
            "player_turn_starting": "player_turn_started",
            "player_turn_started": "ball_will_start",
            "ball_will_start": "ball_starting",
            "ball_will_end": "ball_ending",
            "ball_ending": "ball_ended",
            "ball_ended": "player_turn_will_end",
            "player_turn_will_end": "player_turn_ending",
            "player_turn_ending": "player_turn_ended",
            "game_will_end": "game_ending",
            "game_ending": "game_ended",
        }
        return {event: Cost(0, [after]) for event, after in one_after.items()} | {
            "sw_start": one_of(Cost(0, ["game_will_start"]), Cost(0, ["player_added"])),
            "game_starting": Cost(0, ["player_added", "game_started"]),
            "ball_starting": self.request + Cost(0, ["ball_started"]),
            "ball_drain": one_of(*self.drains.values()),
            "player_turn_ended": one_of(Cost(0, ["game_will_end"]), Cost(0, ["player_turn_will_start"])),
            "game_ended": Cost(self.plan.config.machine.only("game")["max_players"]),
        }

    def dearest_drain(self, weights: Weights) -> str | None:
        """What a drained ball costs most by; None in a machine in which it can only be the last ball."""
        if not self.plan.has_game or not any(isinstance(row, BallSave | Multiball) for row in self.plan.rows):
            return None
        return max(self.drains, key=lambda what: self.drains[what].value(weights))

    def bounds_of_saves(self, weights: Weights) -> set[str]:
        """Whether the bound is that of a save's alarm, or would be if a save without an end had one."""
        bound, found = self.bound(weights), set()
        for row in self.plan.rows:
            if isinstance(row, BallSave) and weights[f"ball_save_{row.name}_disabled"] >= bound:
                found.add("bound of a save's alarm" if row.entry["active_time"] else "bound, had a save an end")
        return found

    def bound(self, weights: Weights) -> int:
        return max((cost.value(weights) for cost in self.stimuli), default=0)

    def switches(self, weights: Weights) -> dict[str, int]:
        """What each switch costs: the dearer of its two changes."""
        return {switch: cost.value(weights) for switch, cost in self.of_switch.items()}

    def too_large(self, weights: Weights) -> bool:
        return max([self.bound(weights), *weights.values()]) > LIMIT

    def short(self, weights: Weights) -> tuple[str, int] | None:
        """The first event whose weight is too small, and what it needs."""
        needs = ((event, cost.value(weights)) for event, cost in self.of_event.items())
        return next(((event, need) for event, need in needs if weights[event] < need), None)

    def least(self) -> Weights | list[str]:
        """The least weights, or the cycle that is reported."""
        leads = {event: cost.mentions() for event, cost in self.of_event.items()}
        weights: Weights = {}
        while grounded := [event for event in leads if event not in weights and leads[event] <= weights.keys()]:
            for event in grounded:
                weights[event] = self.of_event[event].value(weights)
        events = self.plan.events
        if len(weights) == len(events):
            return {event: weights[event] for event in events}
        path = [next(event for event in events if event not in weights)]
        while True:
            last = next(event for event in events if event not in weights and event in leads[path[-1]])
            if last in path:
                return path[path.index(last) :]
            path.append(last)
