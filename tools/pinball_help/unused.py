"""What a machine has and nothing uses: events, switches, coils, shots, modes and variables."""
import re
from dataclasses import dataclass
from functools import cached_property
from typing import Iterator

from . import outline
from .answers import Answer
from .graph import Graph, names_of, says_yes, setting, text_of
from .machine_graph import GAME, graph_of
from .near import nearest
from .outline import Entry
from .scenery import Scenery, section_of
from .texts import MACHINE, mode_text
from .values import event_of

LISTS_OF_POSTS = ("events_when_activated", "events_when_deactivated", "events_when_hit", "events_when_complete")
ALIKE = 0.88  # of events, whose names have much in common anyway
MOST_COMPARED = 60_000  # pairs of names: a machine may have thousands of events that nothing handles
OWN_TAGS = ("start", "playfield_active")
# what comes while a ball is in play, of the events of the game
WITH_A_BALL = ("sw_start", "player_added", "ball_started", "ball_drain")
FIVE = re.compile(r"mode_(.+)_(?:will_start|starting|started|stopping|stopped)$")


@dataclass(frozen=True)
class Unused:
    kind: str  # of what it is: `event that nothing posts`, ..
    name: str
    text: str
    line: int  # from 1, of the user's file
    hint: str = ""


class Looker:
    def __init__(self, scene: Scenery, answer: Answer):
        self.scene, self.answer = scene, answer
        self.graph: Graph = graph_of(scene)
        self.posted = {it.posts for it in self.graph.posts}
        self.handled = {it.event for it in self.graph.handled}
        self.may_compare = MOST_COMPARED

    def at(self, kind: str, name: str, text: str, entry: Entry, line: int = -1, hint: str = "") -> Unused:
        return Unused(kind, name, text, self.scene.number(text, entry.line if line < 0 else line), hint)

    def run(self) -> list[Unused]:
        events = [*self.never_posted(), *self.never_handled()]
        devices = [*self.switches(), *self.coils(), *self.shots(), *self.ball_saves(), *self.multiballs()]
        return list(dict.fromkeys([*events, *devices, *self.modes(), *self.variables()]))

    def never_posted(self) -> Iterator[Unused]:
        """(the certificate lists each event of the plan: an event that is not in it is in no text that is read)"""
        for it in self.graph.handled:
            if it.event not in self.posted and it.event in self.answer.weights and it.entry:
                yield self.at(
                    "handled, and nothing posts it", it.event, it.text, it.entry, it.line, self.why_never(it.event)
                )

    def why_never(self, event: str) -> str:
        if event in GAME:
            start = any("start" in names_of(entry, "tags") for _, entry in self.scene.entries_of("switches"))
            if event not in self.posted and not any(
                it.key == "game" for it in self.scene.outlines[MACHINE].entries or []
            ):
                return "it comes with a game: the machine has no section `game`"
            return "" if start else "no switch has the tag `start`, so no game begins"
        if (found := FIVE.match(event)) and found[1] not in self.scene.modes:
            return f"`modes` does not list `{found[1]}`"
        if found and mode_text(found[1]) not in self.scene.texts:
            return f"the mode `{found[1]}` has no text here"
        if found := re.match(r"(.+)\.\d+$", event):
            return f"in MPF this is `{found[1]}` with a priority: write `{found[1]}`"
        return self.near(event, self.posted)

    def near(self, name: str, names: set[str]) -> str:
        """A hint at the name that is near another one, as long as not too many have been compared."""
        self.may_compare -= len(names)
        near = nearest(name, names, ALIKE) if self.may_compare >= 0 else ""
        return f"near it: `{near}`" if near else ""

    def never_handled(self) -> Iterator[Unused]:
        kind = "posted by you, and nothing handles it"
        for text in self.scene.read:
            for entry in outline.entries(self.scene.outlines[text]):
                if entry.key in LISTS_OF_POSTS or section_of(entry) == "event_player" and len(entry.path) == 1:
                    for item in entry.value.texts():
                        if item.text not in self.handled and item.text in self.answer.weights:
                            near = self.near(item.text, self.handled)
                            yield self.at(kind, item.text, text, entry, item.line, near)

    def switches(self) -> Iterator[Unused]:
        for text, entry in self.scene.entries_of("switches"):
            tags = names_of(entry, "tags")
            events = [f"{entry.key}_active", f"{entry.key}_inactive", *(f"sw_{it}" for it in tags)]
            posts = names_of(entry, "events_when_activated") + names_of(entry, "events_when_deactivated")
            named = entry.key in self.used_names("switch", "activation_switch", "ball_switches")
            if not named and not posts and not {*tags} & {*OWN_TAGS} and not {*events} & self.handled:
                yield self.at("switch that nothing uses", entry.key, text, entry)

    def used_names(self, *settings: str) -> set[str]:
        return {name for setting in settings for name in self.values_of.get(setting, ())}

    @cached_property
    def values_of(self) -> dict[str, set[str]]:
        """The names that are written at each setting."""
        found: dict[str, set[str]] = {}
        for name in self.scene.read:
            for entry in outline.entries(self.scene.outlines[name]):
                if entry.path:
                    found.setdefault(entry.key, set()).update(it.text for it in entry.value.texts())
        return found

    def coils(self) -> Iterator[Unused]:
        named = self.used_names("coil", "main_coil", "hold_coil", "eject_coil")
        named |= {coil.key for _, entry in self.scene.entries_of("coil_player") for coil in entry.value.entries or []}
        for text, entry in self.scene.entries_of("coils"):
            if entry.key not in named:
                yield self.at("coil that nothing uses", entry.key, text, entry)

    def shots(self) -> Iterator[Unused]:
        for text, entry in self.scene.entries_of("shots"):
            hits = names_of(entry, "hit_events")
            if not text_of(entry, "switch") and not {*hits} & self.posted:
                yield self.at(
                    "shot that is never hit", entry.key, text, entry, hint="so its group is never complete by hits"
                )
                continue
            enabled = names_of(entry, "enable_events")
            if enabled and not {*enabled} & self.posted:
                yield self.at(
                    "shot that is never enabled", entry.key, text, entry, hint="nothing posts its `enable_events`"
                )
            elif enabled and {*enabled} <= {"game_will_start", "game_starting", "game_started"}:
                hint = "these events come before there is a player: take `player_turn_started`"
                yield self.at("shot that is never enabled", entry.key, text, entry, hint=hint)
            group = self.group_of(text, entry.key)
            starts = (f"{entry.key}_", f"{group.key}_") if group else (f"{entry.key}_",)
            if not any(it.startswith(starts) for it in self.handled):
                yield self.at("shot whose hits nothing handles", entry.key, text, entry)

    def ball_saves(self) -> Iterator[Unused]:
        for text, entry in self.scene.entries_of("ball_saves"):
            if (hint := self.never_comes(text, entry, "enable_events")) is not None:
                yield self.at("ball save that nothing enables", entry.key, text, entry, hint=hint)

    def multiballs(self) -> Iterator[Unused]:
        for text, entry in self.scene.entries_of("multiballs"):
            hint = self.never_comes(text, entry, "start_events")
            if hint is None and {*names_of(entry, "start_events")} <= {*GAME} - {*WITH_A_BALL}:
                hint = "no ball is in play at these events: take `ball_started`"
            if hint is not None:
                yield self.at("multiball that nothing starts", entry.key, text, entry, hint=hint)

    def never_comes(self, text: str, entry: Entry, key: str) -> str | None:
        """Why none of the events in a setting comes while the entry can handle it, if that is so."""
        events = {*names_of(entry, key)}
        if not events & self.posted:
            return f"nothing posts its `{key}`" if setting(entry, key) else ""
        mode = next((it for it in self.scene.outlines[text].entries or [] if it.key == "mode"), None)
        if events == {"ball_started"} and mode and "ball_started" in names_of(mode, "start_events"):
            if says_yes(mode, "stop_on_ball_end", True):
                return f"the mode does not run yet at `ball_started`: take `mode_{self.scene.owner(text)}_started`"
        return None

    def group_of(self, text: str, shot: str) -> Entry | None:
        groups = [entry for name, entry in self.scene.entries_of("shot_groups") if name == text]
        return next((it for it in groups if shot in names_of(it, "shots")), None)

    def modes(self) -> Iterator[Unused]:
        listed = setting_of_root(self.scene, "modes")
        for item in listed.value.texts() if listed else []:
            name = mode_text(item.text)
            if listed and name in self.scene.texts and f"mode_{item.text}_will_start" not in self.posted:
                yield self.at(
                    "mode that nothing starts", item.text, MACHINE, listed, item.line, "see its `start_events`"
                )
            elif listed and name in self.scene.texts:
                yield from self.starts_of(item.text, name)
                yield from self.stops_of(item.text, name)
        for name in self.scene.texts:
            if name not in self.scene.read:
                yield Unused("text that is not read", name, name, 1, "`modes` does not list its mode")

    def starts_of(self, mode: str, text: str) -> Iterator[Unused]:
        """A mode all of whose `start_events` are posted by nothing."""
        entry = next((it for it in self.scene.outlines[text].entries or [] if it.key == "mode"), None)
        starts = setting(entry, "start_events") if entry else None
        events = {event_of(it.text) for it in starts.value.texts()} if starts else set()
        if starts and not events & self.posted:
            yield self.at("mode that nothing starts", mode, text, starts, hint="nothing posts its `start_events`")

    def stops_of(self, mode: str, text: str) -> Iterator[Unused]:
        """A mode that the end of the ball waits for, and whose `stop_events` are posted by nothing."""
        entry = next((it for it in self.scene.outlines[text].entries or [] if it.key == "mode"), None)
        if entry and says_yes(entry, "use_wait_queue", False) and not {*names_of(entry, "stop_events")} & self.posted:
            hint = "the end of the ball waits until the mode has stopped"
            yield self.at("mode that nothing stops", mode, text, entry, hint=hint)

    def variables(self) -> Iterator[Unused]:
        changed = {it.key for _, entry in self.scene.entries_of("variable_player") for it in entry.value.entries or []}
        near: dict[str, str] = {}
        for text in self.scene.read:
            for entry in outline.entries(self.scene.outlines[text]):
                for written in (entry.key, *(it.text for it in entry.value.texts())):
                    for name in re.findall(r"current_player\.([\w.-]+?)\s*[=!<>]", written):
                        if name not in changed and name not in ("ball", "number"):
                            if name not in near:
                                near[name] = nearest(name, changed)
                            hint = f"near it: `{near[name]}`" if near[name] else "it is always 0"
                            yield self.at("variable that nothing changes", name, text, entry, hint=hint)


def setting_of_root(scene: Scenery, key: str) -> Entry | None:
    return next((it for it in scene.outlines[MACHINE].entries or [] if it.key == key), None)


def unused(scene: Scenery, answer: Answer) -> list[Unused]:
    return Looker(scene, answer).run()


def shown(found: list[Unused]) -> list[str]:
    """The lines that a person reads, by kind."""
    lines: list[str] = []
    for kind in dict.fromkeys(it.kind for it in found):
        lines += [f"{kind[0].upper()}{kind[1:]}:"]
        for it in found:
            if it.kind == kind:
                lines.append(f"  {it.text}:{it.line}: {it.name}" + (f" ({it.hint})" if it.hint else ""))
        lines.append("")
    return lines
