"""Small machines whose cascades are long: what `check` and `verify` say of their weights.

Each is a bundle with up to two switches, two modes and two coils, and events that post each other. Some have a tower: a
weight, or the bound, that is the limit, or near to it. `check` has to print the bound, the costs of the switches, and
the least weights of the model, or `fault 9 Bound` if one of these is above the limit, or a cycle of the model if there
is one. Then one weight is made greater or less, perhaps the bound and the costs with it, and `verify` has to say what
follows from the rules. This model knows what a machine does from the drawing, and never reads its text.
"""
import random
from collections import Counter
from collections.abc import Callable
from dataclasses import dataclass

LIMIT = 100_000
GREATEST = (1 << 32) - 1  # weight that a text can state
FLOOR = 300  # posts of the tower's middle event
# What comes up, and in one of how many of these machines at least.
KINDS = {"weights": 20, "too large": 20, "short cycle": 20, "long cycle": 20, "at the limit": 100, "one above": 100}
KINDS |= {"verify: yes": 20, "verify: Short": 20, "verify: too large": 20, "verify: Bound": 20, "verify: Switch": 50}
Weights = dict[str, int]
Ask = Callable[[str, bytes, bytes], bytes]  # what the program prints: of a command, a bundle, and a certificate


class Machine:
    """A bundle, and what it says: what each event posts, and how many lines it writes besides its own."""

    def __init__(self, draw: random.Random):
        self.draw = draw
        self.posts: dict[str, list[str]] = {}
        self.lines: Counter[str] = Counter()
        self.stimuli: dict[str, list[list[str]]] = {}  # of each switch: what its two changes post
        switches = draw.choice([[], ["x"], ["x", "y"]])
        levels = [f"{switch}_{level}" for switch in switches for level in ("active", "inactive")]
        self.names = levels + list("abcdefgh")[: draw.randint(1, 8)]
        # Posts that only go on, by so many names at most, make no cycle. A share of them goes anywhere.
        self.reach, self.anywhere = draw.choice([(1, 0.0), (3, 0.0), (2, 0.06), (4, 1.0)])
        self.share = draw.choice([0.5, 1.0])
        self.modes = draw.choice([[], [], ["m"], ["n", "m"]])
        self.has_tower = draw.random() < 0.2
        self.tower_at = draw.choice([*levels, ""])  # the change that posts the top of the tower
        of_switches, player = self.switches(switches), self.event_player()
        end = ["coils:", "  l: {allow_enable: yes}", "  k: {allow_enable: yes}", *self.coil_player([])]
        for mode in self.modes:
            end += self.mode(mode)
        player += self.tower() if self.has_tower else []
        parts = draw.sample([of_switches, player], 2)
        head = ["@ config/config.yaml", "#config_version=6", f"modes: {' '.join(self.modes)}"]
        self.bundle = "\n".join([*head, *sum(parts, []), *end]) + "\n"

    def tower(self) -> list[str]:
        """An event that weighs about the limit, or with which a change of a switch costs so much."""
        besides = sum(self.cost_of(posted) - 1 for posted in self.all_stimuli() if "top" in posted)
        floors, rest = divmod(max(LIMIT + self.draw.choice([-2, -1, 0, 0, 1, 1, 2]) - besides - 1, 0), FLOOR + 1)
        self.post("top", *["middle"] * floors, *["low"] * rest)
        self.post("middle", *["low"] * FLOOR)
        return [f"  {name}: {' '.join(self.posts[name])}" for name in ("top", "middle")]

    def all_stimuli(self) -> list[list[str]]:
        return sum(self.stimuli.values(), [])

    def cost_of(self, posted: list[str]) -> int:
        """What a change costs that posts these, by the least weights; 1 if there are none."""
        least = self.least()
        return 1 if least is None else 1 + sum(least[name] for name in posted)

    def post(self, event: str, *posted: str) -> None:
        self.posts.setdefault(event, []).extend(posted)

    def some(self, place: int) -> list[str]:
        """Up to four names that the name at this place can post."""
        found = []
        for _ in range(4):
            further = place + 1 + self.draw.randrange(self.reach)
            if self.draw.random() < self.anywhere:
                found.append(self.draw.choice(self.names))
            elif further < len(self.names):
                found.append(self.names[further])
        return [name for name in found if self.draw.random() < self.share]

    def switches(self, switches: list[str]) -> list[str]:
        text = ["switches:"]
        for switch in switches:
            text.append(f"  {switch}:")
            for level, setting in ("active", "events_when_activated"), ("inactive", "events_when_deactivated"):
                posted = self.some(-1)
                if self.has_tower and self.tower_at == f"{switch}_{level}":
                    posted.append("top")
                text.append(f"    {setting}: {' '.join(posted)}")
                self.stimuli.setdefault(switch, []).append([f"{switch}_{level}", *posted])
        return text

    def event_player(self, own: dict[str, list[str]] | None = None) -> list[str]:
        """The events of `own`, and some others."""
        entries = dict(own or {})
        for place, name in enumerate(self.names):
            if self.draw.random() < 0.7:
                entries[name] = self.some(place)
        for name, posted in entries.items():
            self.post(name, *posted)
        return ["event_player:", *(f"  {name}: {' '.join(posted)}" for name, posted in entries.items())]

    def coil_player(self, started: list[str]) -> list[str]:
        """Coils that an event pulses, and in a mode those that its start enables."""
        entries = {self.draw.choice(self.names): {"k": "pulse"}} if self.draw.random() < 0.5 else {}
        for event in started:
            if self.draw.random() < 0.5:
                entries[event] = {coil: "enable" for coil in self.draw.choice(["k", "l", "kl"])}
        for event, coils in entries.items():
            self.lines[event] += len(coils)
        text = ["coil_player:"]
        for event, coils in entries.items():
            text.append(f"  {event}: {{{', '.join(f'{coil}: {action}' for coil, action in coils.items())}}}")
        return text

    def mode(self, mode: str) -> list[str]:
        will_start, starting, started, stopping, stopped = (
            f"mode_{mode}_{which}" for which in ("will_start", "starting", "started", "stopping", "stopped")
        )
        for event, after in (will_start, starting), (starting, started), (started, stopping), (stopping, stopped):
            self.post(event, after)
        # What the mode posts at its own events is further on than what starts and stops it.
        base = self.draw.randrange(len(self.names))
        starts, stops = ([name for name in self.names[: base + 1] if self.draw.random() < 0.3] for _ in range(2))
        in_game, with_ball, holds = self.draw.random() < 0.5, self.draw.random() < 0.5, self.draw.random() < 0.1
        if holds:
            starts = ["ball_ending"]
        for name in starts:
            self.post(name, will_start)
        for name in stops:
            self.post(name, stopping)
        if in_game and not holds:
            self.post("game_ending", stopping)
        if with_ball and not holds:
            self.post("ball_ending", stopping)
        text = [f"@ modes/{mode}/config/{mode}.yaml", "#config_version=6", "mode:"]
        text += [f"  start_events: {' '.join(starts)}", f"  stop_events: {' '.join(stops)}"]
        text += [f"  game_mode: {'yes' if in_game else 'no'}", f"  stop_on_ball_end: {'yes' if with_ball else 'no'}"]
        text += ["  use_wait_queue: yes"] if holds else []
        own = {event: self.some(base) for event in (starting, started, stopping, stopped) if self.draw.random() < 0.5}
        text += self.event_player(own)
        coils = self.coil_player([started])
        text += coils
        self.lines[stopping] += len({coil for coil in "kl" if any(f"{coil}: enable" in line for line in coils)})
        return text

    def cost(self, event: str, weights: Weights) -> int:
        return 1 + self.lines[event] + sum(weights.get(name, 1) for name in self.posts.get(event, []))

    def switch_costs(self, weights: Weights) -> Weights:
        """What the dearer of the two changes of each switch costs."""
        return {
            switch: max(1 + sum(weights.get(name, 1) for name in posted) for posted in changes)
            for switch, changes in self.stimuli.items()
        }

    def bound(self, weights: Weights) -> int:
        return max(self.switch_costs(weights).values(), default=0)

    def least(self) -> Weights | None:
        """The least weights, or none if events can go on without end."""
        weights: Weights = {}
        open_events: set[str] = set()

        def weigh(event: str) -> bool:
            if event in open_events:
                return False
            if event not in weights:
                open_events.add(event)
                if not all(weigh(name) for name in self.posts.get(event, [])):
                    return False
                open_events.remove(event)
                weights[event] = self.cost(event, weights)
            return True

        events = {*self.posts, *self.lines, *sum(self.posts.values(), []), *sum(self.all_stimuli(), [])}
        return weights if all(weigh(event) for event in sorted(events)) else None

    def judged(self, given: "Given") -> tuple[str, str]:
        """What `verify` has to say of a certificate, and the kind of this."""
        for event, weight in given.weights.items():
            need = self.cost(event, given.weights)
            if weight < need:
                return f"fault 10 Certificate Short {event} {need}\nno\n", "Short"
        bound = self.bound(given.weights)
        if max([bound, *given.weights.values()]) > LIMIT:
            return "fault 9 Bound\nno\n", "too large"
        if bound != given.bound:
            return f"fault 10 Certificate Bound {bound}\nno\n", "Bound"
        for switch, cost in self.switch_costs(given.weights).items():
            if given.version == 2 and cost != given.switches[switch]:
                return f"fault 10 Certificate Switch {switch} {cost}\nno\n", "Switch"
        return f"yes\nbound {bound}\n", "yes"


@dataclass
class Given:
    """A certificate that `verify` is asked about. Its weights are in the order of the certificate of `check`."""

    version: int
    bound: int
    switches: Weights
    weights: Weights

    def text(self) -> str:
        switches = [f"switch {name} {cost}" for name, cost in self.switches.items()] if self.version == 2 else []
        events = [f"event {name} {weight}" for name, weight in self.weights.items()]
        return "\n".join([f"pinball-certificate {self.version}", f"bound {self.bound}", *switches, *events, ""])


def given(machine: Machine, weights: Weights) -> Given:
    """One weight other than in these, and perhaps those greater that then do not fit. The bound and the costs are those
    of the new weights, or of the old ones, or one of these is another."""
    draw, changed = machine.draw, dict(weights)
    if changed:
        changed[draw.choice([*changed])] += draw.choice([1, 1, 1, -1, LIMIT // 2, LIMIT])
    if draw.random() < 0.6:
        while short := [event for event in changed if changed[event] < machine.cost(event, changed)]:
            changed |= {event: machine.cost(event, changed) for event in short}
        changed = {event: min(weight, GREATEST) for event, weight in changed.items()}
    stated = draw.choice([weights, changed, changed, changed])
    switches = {switch: min(cost, GREATEST) for switch, cost in machine.switch_costs(stated).items()}
    found = Given(draw.choice([1, 2, 2]), min(machine.bound(stated), GREATEST), switches, changed)
    wrong = draw.choice([["bound"], ["switch"], ["switch"], ["bound", "switch"], [], []])
    if "bound" in wrong:
        found.bound ^= 1
    if "switch" in wrong and found.switches:
        found.switches[draw.choice([*found.switches])] ^= 1
    return found


def is_cycle(machine: Machine, events: list[str]) -> bool:
    steps = zip(events, events[1:] + events[:1])
    return len(events) == len({*events}) and all(then in machine.posts.get(event, []) for event, then in steps)


def compare(ask: Ask, machine: Machine) -> list[str]:
    """The kinds of the answers. Raises AssertionError or ValueError if one is not that of the model."""
    bundle = machine.bundle.encode()
    said = ask("check", bundle, b"").decode()
    least = machine.least()
    if least is None:
        words = said.split()
        assert words[:3] == ["fault", "8", "Cycle"] and words[-1] == "no", said
        assert is_cycle(machine, words[3:-1]), said
        return ["short cycle" if len(words) < 7 else "long cycle"]
    bound, switches = machine.bound(least), machine.switch_costs(least)
    greatest = max([bound, *least.values()])
    if greatest > LIMIT:
        assert said == "fault 9 Bound\nno\n", said
        return ["too large"] + ["one above"] * (greatest == LIMIT + 1)
    head, *lines = said.splitlines()
    assert head == "yes", said
    weights = {name: int(weight) for kind, name, weight in (line.split() for line in lines[2:]) if kind == "event"}
    assert weights == {name: least.get(name, 1) for name in weights} and {*least} <= {*weights}, said
    assert said == "yes\n" + Given(2, bound, switches, weights).text(), said
    asked = given(machine, weights)
    answer, kind = machine.judged(asked)
    judged = ask("verify", bundle, asked.text().encode()).decode()
    assert judged == answer, f"{asked.text()}{judged}"
    return ["weights", f"verify: {kind}"] + ["at the limit"] * (greatest == LIMIT)
