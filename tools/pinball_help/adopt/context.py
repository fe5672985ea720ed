"""What the rewrites of an adoption share: the source, the new machine, and what was done with each place."""
import re
from contextlib import contextmanager
from dataclasses import dataclass, field
from typing import Collection, Iterator

from ..near import nearest
from ..schema import NAME
from ..values import is_event
from .draft import LONGEST_NAME, Draft, NoName, NotWritten, Taken, Value, Written, shortened
from .expressions import Comparison, InMode, Known, NotSaid, Way, number, ways_of
from .features import EFFECTS, FEATURES, REWRITTEN
from .source import Given, Place, Source

GREATEST_TIME = (1 << 32) - 1
LONGEST_PULSE = 5_000
MOST_GUESSES, MOST_NEAR = 50, 500  # of what was meant with a name: how often, and among how many names
ALWAYS: dict[str, Value] = {"game_mode": "no", "stop_on_ball_end": "no"}  # of a mode that no game and no ball ends
TIMES = re.compile(r"(\d{1,10}(?:\.\d{1,6})?)\s*"
                   r"(ms|msec|millisecs?|s|sec|secs|seconds?|m|min|mins|minutes?|h|hours?|d|days?|)")
UNITS = {"m": 60_000, "h": 3_600_000, "d": 86_400_000, "s": 1_000, "": 1}
# events that have another name here
RENAMED = (
    (r"balldevice_(.+)_ball_entered", r"balldevice_\1_ball_enter"),
    (r"balldevice_(.+)_ball_eject_success", r"balldevice_\1_ball_eject_success"),
    (r"logicblock_(.+)_complete", r"logicblock_\1_complete"),
    (r"counter_(.+)_hit", r"logicblock_\1_hit"),
    (r"player_ball_ended", "ball_ended"),
)


@dataclass(frozen=True)
class Done:
    """What was done with a place, by the name of the feature in the table."""

    feature: str
    place: Place
    effect: str
    says: str


@dataclass(frozen=True)
class More:
    """Events that another entry has for a shot or a group of shots."""

    feature: str
    given: Given
    mode: str
    section: str
    key: str
    events: dict[str, list[str]]


@dataclass(frozen=True)
class Target:
    """A drop target: its shot, its coil, and whether events of its own raise it."""

    shot: str
    coil: str
    is_raised: bool
    given: Given


@dataclass
class Context:
    source: Source
    draft: Draft = field(default_factory=Draft)
    done: list[Done] = field(default_factory=list)
    seen: set[Done] = field(default_factory=set)
    kept: set[tuple[str, int]] = field(default_factory=set)
    settings: dict[str, int] = field(default_factory=dict)  # numbers by default of the section `settings`
    tags: dict[str, list[str]] = field(default_factory=dict)  # the switches of each tag
    variables: set[str] = field(default_factory=set)  # that an entry changes
    names: dict[str, str] = field(default_factory=dict)  # in use for something of adopt's own
    later: dict[tuple[str, str, int], str] = field(default_factory=dict)  # events after a time
    steps: dict[tuple[str, str], str] = field(default_factory=dict)
    listed: set[str] = field(default_factory=set)  # modes with a text
    left_out: set[str] = field(default_factory=set)  # modes that there is no room for
    game_modes: set[str] = field(default_factory=set)
    tilt_events: list[str] = field(default_factory=list)  # that a tilt posts
    pulse_ms: str = ""  # of each coil without one, if the section `mpf` says so
    pulse_given: Given | None = None
    guesses: int = 0
    start_tag: str = "start"
    start_given: Given | None = None
    groups: set[str] = field(default_factory=set)  # of extra balls
    not_held: set[str] = field(default_factory=set)  # coils whose hold would not end by itself
    lowered: list[tuple[str, str, Given]] = field(default_factory=list)  # overwrites: coil, setting
    launched: dict[str, Given] = field(default_factory=dict)  # ball devices that the player fires
    switches: set[str] = field(default_factory=set)  # that a section `switches` has
    targets: dict[str, "Target"] = field(default_factory=dict)
    banks: list[tuple[str, Given]] = field(default_factory=list)
    holds: list[tuple[str, Given]] = field(default_factory=list)
    auto_launch: list[str] = field(default_factory=list)  # ball saves whose balls are launched
    multiballs: list[tuple[str, int]] = field(default_factory=list)  # with the balls that each adds
    saves: list[tuple[str, str, Given, int]] = field(default_factory=list)  # ball saves of multiballs
    tilt_given: Given | None = None
    own_tilt: Given | None = None  # MPF's own mode `tilt`, without a text
    dual: dict[str, tuple[str, str]] = field(default_factory=dict)  # coils of two windings
    main_coils: set[str] = field(default_factory=set)  # of flippers
    more: list["More"] = field(default_factory=list)  # events for shots and groups
    # why a setting is as it is, beside what it was: by the file, line and key of its entry, and its own key
    whys: dict[tuple[str, int, str, str], list[str]] = field(default_factory=dict)

    # what is said

    def log(self, feature: str, place: Place, says: str = "", effect: str = "") -> None:
        row = FEATURES[feature]
        effect = effect or row.effect
        assert effect in EFFECTS, effect
        one = Done(feature, place, effect, says)
        if one not in self.seen:
            self.seen.add(one)
            self.done.append(one)

    def lose(self, feature: str, given: Given, says: str = "", effect: str = "") -> None:
        """Leaves something out; its feature says what that does to a rule."""
        effect = effect or FEATURES[feature].effect
        self.log(feature, given.place, says, "lost" if effect == REWRITTEN else effect)

    @contextmanager
    def attempt(self, given: Given) -> Iterator[None]:
        """Says that something is lost if it cannot be written."""
        try:
            yield
        except NotWritten as why:
            self.lose(why.feature, given, str(why), "lost")

    def why(self, entry: Given, setting: str, given: Given, says: str = "") -> None:
        """Says in the new folder why a setting of an entry is as it is: what else it comes from."""
        key = (entry.file.name, entry.line, entry.key, setting)
        self.whys.setdefault(key, []).append(f"{given.place}: {says or given.key}")

    def near(self, name: str, names: Collection[str]) -> str:
        """What may have been meant with a name that nothing knows; only for some names, since it takes time."""
        self.guesses += 1
        is_quick = self.guesses <= MOST_GUESSES and len(names) <= MOST_NEAR and len(name) <= LONGEST_NAME
        found = nearest(name, names) if is_quick else ""
        return f" (near it: `{found}`)" if found else ""

    def keep(self, given: Given) -> None:
        self.kept.add((given.file.name, given.line + 1))

    # what is written

    def put(self, mode: str, section: str, key: str, value: Value, given: Given | None = None, says: str = "") -> None:
        written = Written(value, [given.place] if given else [], [says] if says else [])
        if given and not isinstance(value, str):
            written.lines = {it: given.place for it in value if isinstance(it, str)}
            written.lines |= {it.key: it.place for it in given.inside() if it.key in written.lines}
            written.sources = [given]
        self.draft.put(mode, section, key, written)

    def post(self, mode: str, event: str, names: list[str], given: Given, says: str = "") -> None:
        wrong = [it for it in names if not re.fullmatch(NAME, it, re.ASCII)]
        if wrong or not is_event(event):
            self.lose("bad name", given, f"`{(wrong or [event])[0][:80]}` is no name, or too long")
            return
        self.put(mode, "event_player", event, list(names), given, says)

    def change(self, mode: str, event: str, changes: dict[str, Value], given: Given, says: str = "") -> None:
        self.player(mode, "variable_player", event, changes, given, says)

    def drive(self, mode: str, event: str, coils: dict[str, Value], given: Given, says: str = "") -> None:
        self.player(mode, "coil_player", event, coils, given, says)

    def player(self, mode: str, section: str, event: str, value: dict[str, Value], given: Given, says: str) -> None:
        """Adds to a player; what does not go with the entry that is there gets an event of its own."""
        if not is_event(event):
            self.lose("bad name", given, f"`{event[:80]}` is no name, or too long")
            return
        try:
            self.put(mode, section, event, dict(value), given, says)
        except Taken:
            other = self.own(f"{event.partition('{')[0]}_too")
            self.post(mode, event, [other], given, "two entries for one event")
            self.put(mode, section, other, dict(value), given, says)

    def own(self, name: str, most: int = 64, kind: str = "") -> str:
        """A name of adopt's own that nothing else of its kind has."""
        name = shortened(name, most - 3)
        found, count = name, 1
        while kind + found in self.names or found in self.taken_names:
            count += 1
            found = f"{name}_{count}"
        self.names[kind + found] = name
        return found

    def fit(self, name: str, most: int = 64) -> str:
        """A name, or one of adopt's own for one that is too long, or has other signs than a name."""
        return name if len(name) <= most and re.fullmatch(NAME, name, re.ASCII) else self.own(name, most)

    def variable(self, name: str) -> str:
        """The name of a variable of adopt's own, the same each time."""
        kind = f"variables {name}"
        if kind not in self.names:
            self.names[kind] = self.fit(name, 64 - len("player_"))
        return self.names[kind]

    def timer(self, name: str) -> str:
        """The name of a timer of adopt's own, short enough for its events."""
        return self.own(name, 49, "timers ")

    @property
    def taken_names(self) -> set[str]:
        if not hasattr(self, "_taken"):
            words = set()
            for file in self.source.files:
                for line in file.lines:
                    words.update(re.findall(r"[\w.-]+", line, re.ASCII))
            self._taken = words
        return self._taken

    def may_hold(self, coil: str) -> bool:
        """Whether a coil may be held."""
        written = self.draft.section("", "coils").get(coil)
        value = written.value if written and isinstance(written.value, dict) else {}
        power = str(value.get("default_hold_power", "0")).rstrip("%")
        return str(value.get("allow_enable", "no")).lower() in ("yes", "true", "on") or power.strip("0.") != ""

    def mode(self, name: str, starts: list[str], stops: list[str], given: Given, says: str, owner: str = "") -> str:
        """A mode of its own for a rewrite, which runs without a game too. It ends with the mode that has the entry."""
        stops = [*stops, *self.end_of(owner)]
        ends: dict[str, Value] = {"stop_events": stops} if stops else {}
        return self.draft.helper(self.own(name, 40, "modes "), {"start_events": starts, **ends, **ALWAYS},
                                 Written("", [given.place], says=[f"{given.place}: {says}"]))

    def end_of(self, mode: str) -> list[str]:
        """The event with which a mode ends; none of the machine."""
        event = f"mode_{mode}_stopping"
        if not re.fullmatch(NAME, event, re.ASCII):
            raise NoName(f"`{event[:80]}` is too long")
        return [event] if mode else []

    def relay(self, mode: str, events: list[str], name: str, given: Given) -> list[str]:
        """Events of a mode's entry as the machine may handle them: only while that mode runs."""
        if not mode or not events:
            return events
        relayed = self.own(name)
        for event in events:
            self.post(mode, event, [relayed], given, f"only while `{mode}` runs")
        return [relayed]

    # values

    def known(self, event: str = "") -> Known:
        def variable(name: str) -> str:
            if name == "value" and (found := re.fullmatch(r"player_(\w+)", event)):
                return found[1]
            if name in ("ball", "number") and re.fullmatch(r"ball_(?:will_start|starting|started)|player_turn_\w+",
                                                           event):
                return name
            return name if name in self.variables else ""

        return Known(self.settings, variable)

    def number(self, text: str) -> int | None:
        return number(text, self.known())

    def time(self, text: str) -> int | None:
        """Milliseconds of a time as MPF writes it."""
        if found := TIMES.fullmatch(text.strip().lower()):
            value = float(found[1]) * UNITS[unit_of(found[2])]
            return round(value) if abs(value - round(value)) < 1e-6 and value <= GREATEST_TIME else None
        value = self.number(text)
        return value if value is not None and 0 <= value <= GREATEST_TIME else None

    def pulse(self, text: str) -> int | None:
        """Whole milliseconds of a pulse, rounded down. One that is shorter than any here is the shortest."""
        found = TIMES.fullmatch(text.strip().lower())
        value = int(float(found[1]) * UNITS[unit_of(found[2])]) if found else self.number(text)
        return None if value is None or not 0 <= value <= LONGEST_PULSE else max(1, value)

    def ways(self, event: str, condition: str) -> list[Way]:
        return ways_of(condition, self.known(event))

    # events

    def handled(self, mode: str, text: str, given: Given, delay: int = 0) -> list[str]:
        """The events to handle for one event of a list: with one comparison at most, and without a time.

        Raises NotSaid if nothing here means the same."""
        name, condition, wait = parts_of(text)
        if wait:
            delay = self.wait_of(wait)
        found = []
        for event in self.events(name, given):
            for way in self.ways(name, condition) if condition else [[]]:
                head = self.stepped(mode, event, way, given)
                found.append(self.after(mode, head, delay, given) if delay else head)
        return found

    def wait_of(self, text: str) -> int:
        delay = self.time(text)
        if delay is None:
            raise NotSaid(f"`{text}` is no time")
        return delay

    def events(self, name: str, given: Given) -> list[str]:
        """The events here that an event of MPF is: `sw_TAG_inactive` is one of each switch with the tag."""
        if found := re.fullmatch(r"sw_(.+?)(_active|_inactive)", name):
            if switches := self.tags.get(found[1]):
                self.log("sw_TAG_active", given.place)
                return [f"sw_{found[1]}"] if found[2] == "_active" else [f"{it}_inactive" for it in switches]
        if (found := re.fullmatch(r"(.+)\.(\d+)", name)) and "_" not in found[2]:
            self.log("a.5: b", given.place)
            name = found[1]
        for pattern, new in RENAMED:
            if re.fullmatch(pattern, name) and (other := re.sub(pattern, new, name)) != name:
                self.log("renamed events", given.place, f"`{name}` is `{other}` here")
                name = other
        if not re.fullmatch(NAME, name, re.ASCII):
            raise NotSaid(f"`{name[:60]}` is no name of an event")
        return [name]

    def stepped(self, mode: str, event: str, way: Way, given: Given) -> str:
        """An event with the last comparison of a way; the others lead to it, one step after the other."""
        head, comparisons = event, []
        for atom in way:
            if isinstance(atom, InMode):
                raise NotSaid("a condition on a mode is only read at an entry of a player")
            if not re.fullmatch(NAME, f"player_{atom.variable}", re.ASCII):
                raise NotSaid(f"`{atom.variable[:60]}` is no name of a variable")
            comparisons.append(atom)
        for atom in comparisons[:-1]:
            key = (mode, with_condition(head, atom))
            if key not in self.steps:
                self.steps[key] = self.own(f"{event}_and", 60)
                self.post(mode, key[1], [self.steps[key]], given, "one comparison at each step")
                self.log("a{x and y}", given.place)
            head = self.steps[key]
        return with_condition(head, comparisons[-1]) if comparisons else head

    def after(self, mode: str, head: str, delay: int, given: Given) -> str:
        """The event that comes a time after another one."""
        from .delays import after  # (it needs this class)

        return after(self, mode, head, delay, given)


def unit_of(word: str) -> str:
    return "" if word.startswith(("ms", "milli")) else word[:1]


def with_condition(event: str, atom: Comparison) -> str:
    return f"{event}{{{atom}}}"


def parts_of(text: str) -> tuple[str, str, str]:
    """An event of MPF: its name, its condition, and the time after which it comes."""
    text = text.strip()
    head, brace, rest = text.partition("{")
    condition = ""
    if brace:
        condition, _, tail = rest.rpartition("}")
        head = head.rstrip() + tail
    name, _, wait = head.partition("|")
    return name.strip(), condition.strip(), wait.strip()
