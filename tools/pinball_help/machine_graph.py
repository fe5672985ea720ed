"""Makes the graph of a machine from its texts, section by section."""
from . import outline
from .graph import Cost, Graph, names_of, says_yes, setting, text_of
from .outline import Entry
from .scenery import Scenery
from .texts import MACHINE
from .values import event_of, is_yes, milliseconds, number

# after an event of the game: what the machine posts; several lists are one or the other
GAME = {
    "sw_start": [["game_will_start"], ["player_added"]],
    "game_will_start": [["game_starting"]],
    "game_starting": [["player_added", "game_started"]],
    "player_added": [],
    "game_started": [["player_turn_will_start"]],
    "player_turn_will_start": [["player_turn_starting"]],
    "player_turn_starting": [["player_turn_started"]],
    "player_turn_started": [["ball_will_start"]],
    "ball_will_start": [["ball_starting"]],
    "ball_starting": [["ball_started"]],
    "ball_started": [],
    "ball_drain": [],  # see `drains`
    "ball_will_end": [["ball_ending"]],
    "ball_ending": [["ball_ended"]],
    "ball_ended": [["player_turn_will_end"]],
    "player_turn_will_end": [["player_turn_ending"]],
    "player_turn_ending": [["player_turn_ended"]],
    "player_turn_ended": [["game_will_end"], ["player_turn_will_start"]],
    "game_will_end": [["game_ending"]],
    "game_ending": [["game_ended"]],
    "game_ended": [],
}
THE_MACHINE = "the machine does this"


class Maker:
    """Makes the graph of the texts that the program reads."""

    def __init__(self, scene: Scenery):
        self.scene = scene
        self.graph = Graph()
        self.may_be_held = {name: holds(entry) for name, (_, entry) in scene.defined("coils").items()}

    def run(self) -> Graph:
        for text in self.scene.read:
            self.mode_events(text)
            for section in self.scene.outlines[text].entries or []:
                make = getattr(self, f"of_{section.key}", None)
                for entry in section.value.entries or [] if make else []:
                    make(text, entry)
            if text == MACHINE:
                self.game()
        for name in self.graph.names():
            self.graph.owners.setdefault(name, "machine")
        return self.graph

    # what a person writes

    def of_switches(self, text: str, entry: Entry) -> None:
        tags, name = names_of(entry, "tags"), entry.key
        devices = self.lines_of_switch(name)
        active = [f"{name}_active", *(f"sw_{tag}" for tag in tags), *names_of(entry, "events_when_activated")]
        inactive = [f"{name}_inactive", *names_of(entry, "events_when_deactivated")]
        told = self.arrivals() if "playfield_active" in tags else []
        self.graph.stimulus(f" {name} active", Cost(1 + devices, active, told), f"switch {name}", text, entry)
        self.graph.stimulus(f" {name} inactive", Cost(1 + devices, inactive), f"switch {name}", text, entry)

    def of_event_player(self, text: str, entry: Entry) -> None:
        event = event_of(entry.key)
        self.graph.handle(event, "event_player", text, entry)
        self.graph.costs.setdefault(event, [])
        for item in entry.value.texts():
            self.graph.bind(event, Cost(0, [item.text]), "event_player", text, entry, item)

    def of_variable_player(self, text: str, entry: Entry) -> None:
        event = event_of(entry.key)
        self.graph.handle(event, "variable_player", text, entry)
        for variable in entry.value.entries or []:
            why = f"variable_player changes {variable.key}"
            self.graph.bind(event, Cost(1, [f"player_{variable.key}"]), why, text, variable)

    def of_coil_player(self, text: str, entry: Entry) -> None:
        event = event_of(entry.key)
        self.graph.handle(event, "coil_player", text, entry)
        self.graph.bind(event, Cost(len(entry.value.entries or [])), "coil_player", text, entry)

    def blocks(self, text: str, entry: Entry, hits: list[tuple[Entry, bool]]) -> None:
        """Adds a block with its lists of events that hit it, and whether a hit of each can complete it."""
        name = f"logicblock_{entry.key}"
        hit = names_of(entry, "events_when_hit") if setting(entry, "events_when_hit") else [f"{name}_hit"]
        done = names_of(entry, "events_when_complete") if setting(entry, "events_when_complete") else [
            f"{name}_complete"
        ]
        for list_of_events, completes in hits:
            posts = [f"{name}_updated", *hit, *(done if completes else [])]
            self.graph.bind_list(list_of_events, Cost(0, posts), f"{entry.key} is hit", text)
        for key in ("reset_events", "restart_events"):
            self.graph.bind_list(setting(entry, key), Cost(0, [f"{name}_updated"]), f"{key} of {entry.key}", text)
        for key in ("enable_events", "disable_events"):
            self.graph.bind_list(setting(entry, key), Cost(), f"{key} of {entry.key}", text)

    def of_counters(self, text: str, entry: Entry) -> None:
        found = setting(entry, "count_events")
        completes = setting(entry, "count_complete_value") is not None
        self.blocks(text, entry, [(found, completes)] if found else [])

    def steps(self, entry: Entry) -> list[Entry]:
        """The steps of a block, each as a list of its own: an entry that has this value alone."""
        found = setting(entry, "events")
        items = found.value.items or [] if found else []
        return [Entry("events", it.line, it.start, it.end, it, path=found.path) for it in items]

    def of_accruals(self, text: str, entry: Entry) -> None:
        self.blocks(text, entry, [(step, True) for step in self.steps(entry)])

    def of_sequences(self, text: str, entry: Entry) -> None:
        steps = self.steps(entry)
        self.blocks(text, entry, [(step, step is steps[-1]) for step in steps])

    def of_timers(self, text: str, entry: Entry) -> None:
        name, again = f"timer_{entry.key}", says_yes(entry, "restart_on_complete", False)
        done = [f"{name}_complete", *([f"{name}_started"] if again else [])]
        self.graph.stimulus(f" timer {entry.key}", Cost(0, [f"{name}_tick", *done]), f"timer {entry.key}", text, entry)
        if says_yes(entry, "start_running", False):
            mode = self.scene.owner(text)
            self.graph.bind(
                f"mode_{mode}_started", Cost(0, [f"{name}_started"]), f"start_running of {entry.key}", text, entry
            )
        posted = {
            "start": [f"{name}_started"],
            "restart": [f"{name}_started"],
            "stop": [f"{name}_stopped"],
            "pause": [f"{name}_paused"],
        }
        controls = setting(entry, "control_events")
        for item in controls.value.items or [] if controls else []:
            action, event = item.at("action"), next((it for it in item.entries or [] if it.key == "event"), None)
            moves = done if action and self.may_complete(entry, item, action.text) else []
            events = posted.get(action.text, moves) if action else []
            self.graph.bind_list(event, Cost(0, events), f"{action.text if action else ''} of timer {entry.key}", text)

    @staticmethod
    def may_complete(entry: Entry, item: outline.Node, action: str) -> bool:
        """Whether a control of a timer may complete it: a jump does so only where its value is at the end."""
        is_down, end = text_of(entry, "direction") == "down", text_of(entry, "end_value")
        if action not in ("add", "subtract", "jump") or not (is_down or end):
            return False
        value = item.at("value")
        distance = (number(value.text if value else "") or 0) - (number(end) or 0)
        return action != "jump" or (distance <= 0 if is_down else distance >= 0)

    def of_shots(self, text: str, entry: Entry) -> None:
        hits = self.hits_of(text, entry)
        if (switch := setting(entry, "switch")) and switch.value.text:
            self.graph.bind(f"{switch.value.text}_active", hits, f"shot {entry.key} is hit", text, switch)
        self.graph.bind_list(setting(entry, "hit_events"), hits, f"shot {entry.key} is hit", text)
        for key in ("advance_events", "reset_events", "enable_events", "disable_events"):
            self.graph.bind_list(setting(entry, key), Cost(), f"{key} of shot {entry.key}", text)

    def states_of(self, shot: Entry) -> tuple[str, list[str], bool, bool]:
        """The profile of a shot: its name, its states, whether a hit moves it, and whether it goes round."""
        name = text_of(shot, "profile") or "default"
        found = self.scene.defined("shot_profiles").get(name)
        if name == "default" or not found:
            return name, ["unlit", "lit"], True, False
        states = setting(found[1], "states")
        names = [it.at("name") for it in states.value.items or []] if states else []
        return name, [it.text for it in names if it], says_yes(found[1], "advance_on_hit", True), says_yes(
            found[1], "loop", False
        )

    def group_of(self, text: str, shot: str) -> Entry | None:
        groups = [entry for name, entry in self.scene.entries_of("shot_groups") if name == text]
        return next((it for it in groups if shot in names_of(it, "shots")), None)

    def hits_of(self, text: str, shot: Entry) -> Cost:
        """What a hit of a shot posts: by its state, also what its group posts."""
        name, states, moves, loops = self.states_of(shot)
        group = self.group_of(text, shot.key)
        cases = []
        for at, state in enumerate(states):
            posts = [f"{shot.key}_{name}_{state}_hit", f"{shot.key}_{state}_hit"]
            if group:
                following = states[(at + 1) % len(states)] if loops else states[min(at + 1, len(states) - 1)]
                posts += [f"{group.key}_hit", f"{group.key}_{state}_hit"]
                posts += [
                    f"{group.key}_complete", f"{group.key}_{following}_complete"
                ] if moves and following != state else []
            cases.append(Cost(0, posts))
        return Cost(0, [f"{shot.key}_hit", f"{shot.key}_{name}_hit"], cases)

    def of_shot_groups(self, text: str, entry: Entry) -> None:
        for key in ("rotate_events", "rotate_right_events", "rotate_left_events", "reset_events"):
            self.graph.bind_list(setting(entry, key), Cost(), f"{key} of group {entry.key}", text)

    def of_flippers(self, text: str, entry: Entry) -> None:
        held = setting(entry, "hold_coil") or self.may_be_held.get(text_of(entry, "main_coil"))
        self.rules(text, entry, "flipper", 1 if held else 0)

    def of_autofire_coils(self, text: str, entry: Entry) -> None:
        self.rules(text, entry, "autofire coil", 0)

    def rules(self, text: str, entry: Entry, kind: str, lines: int) -> None:
        for key, default, cost in ("enable_events", "ball_started", 0), ("disable_events", "ball_will_end", lines):
            why = f"{key} of {kind} {entry.key}"
            if found := setting(entry, key):
                self.graph.bind_list(found, Cost(cost), why, text)
            else:
                self.graph.bind(default, Cost(cost), why, text, entry)

    def lines_of_switch(self, switch: str) -> int:
        """The lines of the flippers and autofire coils that listen to a switch, at most."""
        found = 0
        for _, entry in self.scene.entries_of("flippers"):
            if text_of(entry, "activation_switch") == switch:
                found += 2 if setting(entry, "hold_coil") else 1
        return found + sum(text_of(entry, "switch") == switch for _, entry in self.scene.entries_of("autofire_coils"))

    def of_ball_devices(self, text: str, entry: Entry) -> None:
        name = f"balldevice_{entry.key}"
        tags = names_of(entry, "tags")
        enters = [f"{name}_ball_enter", *(["ball_drain"] if "drain" in tags and self.has("game") else [])]
        ejects = [f"{name}_ball_eject_attempt", f"{name}_ejecting_ball"]
        ends = [f"{name}_ball_eject_success", f"{name}_ball_eject_failed"]
        self.graph.stimulus(
            f" ball device {entry.key}", Cost(2, enters + ejects + ends), f"ball device {entry.key}", text, entry
        )

    def of_ball_saves(self, text: str, entry: Entry) -> None:
        name, called = f"ball_save_{entry.key}", f"ball save {entry.key}"
        for key, posted in ("enable_events", "enabled"), ("disable_events", "disabled"):
            self.graph.bind_list(setting(entry, key), Cost(0, [f"{name}_{posted}"]), f"{key} of {called}", text)
        if milliseconds(text_of(entry, "active_time")):
            self.graph.stimulus(f" {called}", Cost(0, [f"{name}_disabled"]), called, text, entry)

    def of_multiballs(self, text: str, entry: Entry) -> None:
        asked = self.request()
        cost = Cost(asked.lines, [f"multiball_{entry.key}_started", *asked.posts])
        self.graph.bind_list(setting(entry, "start_events"), cost, f"multiball {entry.key} starts", text)

    # what the machine does by itself

    def request(self) -> Cost:
        """What the first trough does when it is asked for balls."""
        for _, entry in self.scene.entries_of("ball_devices"):
            if "trough" in names_of(entry, "tags"):
                name = f"balldevice_{entry.key}"
                lines = 1 if names_of(entry, "ball_switches") else 0
                return Cost(lines, [f"{name}_ball_eject_attempt", f"{name}_ejecting_ball"][: 2 * lines])
        return Cost()

    def arrivals(self) -> list[Cost]:
        """What each device that ejects onto the playfield does when its ball has arrived there."""
        found = []
        for _, entry in self.scene.entries_of("ball_devices"):
            if text_of(entry, "eject_targets", "playfield") == "playfield":
                name = f"balldevice_{entry.key}"
                again = setting(entry, "eject_coil") is not None
                next_ball = [f"{name}_ball_eject_attempt", f"{name}_ejecting_ball"] if again else []
                found.append(Cost(1 + again, [f"{name}_ball_eject_success", *next_ball]))
        return found

    def drains(self) -> Cost:
        """What the machine does after `ball_drain`: a ball is saved, one is left, or none is left."""
        asked, cases = self.request(), [Cost(0, ["ball_will_end"])]
        for _, entry in self.scene.entries_of("ball_saves"):
            name = f"ball_save_{entry.key}"
            cases.append(Cost(asked.lines, [f"{name}_saving_ball", *asked.posts, f"{name}_disabled"]))
        ends = [f"multiball_{entry.key}_ended" for _, entry in self.scene.entries_of("multiballs")]
        return Cost(0, [], [*cases, Cost(0, ends)])

    def has(self, section: str) -> bool:
        return any(it.key == section for it in self.scene.outlines[MACHINE].entries or [])

    def game(self) -> None:
        if not self.has("game"):
            return
        for event, cases in GAME.items():
            posts = cases[0] if len(cases) == 1 else []
            either = [Cost(0, it) for it in cases] if len(cases) > 1 else []
            self.graph.bind(event, Cost(0, posts, either), THE_MACHINE)
        section = next(it for it in self.scene.outlines[MACHINE].entries or [] if it.key == "game")
        self.graph.bind("game_ended", Cost(number(text_of(section, "max_players", "4")) or 4), THE_MACHINE)
        self.graph.bind("ball_starting", self.request(), "the trough is asked for a ball")
        self.graph.bind("ball_drain", self.drains(), THE_MACHINE)

    def mode_events(self, text: str) -> None:
        if text == MACHINE:
            return
        mode = self.scene.owner(text)
        name = f"mode_{mode}"
        for event, after in ("will_start", "starting"), ("starting", "started"), ("started", "stopping"), (
            "stopping", "stopped"
        ):
            self.graph.bind(f"{name}_{event}", Cost(0, [f"{name}_{after}"]), THE_MACHINE)
        held = self.coils_held(text)
        self.graph.bind(f"{name}_stopping", Cost(len(held)), THE_MACHINE)
        for event in ("will_start", "starting", "started", "stopping", "stopped"):
            self.graph.owners[f"{name}_{event}"] = mode
        sections = self.scene.outlines[text].entries or []
        settings = next((it for it in sections if it.key == "mode"), Entry("mode", 0, 0, 0, outline.Node(0)))
        self.graph.bind_list(
            setting(settings, "start_events"), Cost(0, [f"{name}_will_start"]), f"start_events of {mode}", text
        )
        self.graph.bind_list(
            setting(settings, "stop_events"), Cost(0, [f"{name}_stopping"]), f"stop_events of {mode}", text
        )
        if says_yes(settings, "use_wait_queue", False):
            if self.has("game"):
                self.graph.bind(f"{name}_stopped", Cost(0, ["ball_ended"]), "the end of the ball may wait for the mode")
            return
        for key, event in ("stop_on_ball_end", "ball_ending"), ("game_mode", "game_ending"):
            if says_yes(settings, key, True):
                self.graph.bind(event, Cost(0, [f"{name}_stopping"]), f"the mode {mode} stops with it")

    def coils_held(self, text: str) -> set[str]:
        """The coils that the `coil_player` of a mode enables."""
        found = set()
        for name, entry in self.scene.entries_of("coil_player"):
            for coil in entry.value.entries or [] if name == text else []:
                action = coil.value.at("action")
                if (action.text if action else coil.value.text) == "enable":
                    found.add(coil.key)
        return found


def holds(coil: Entry) -> bool:
    power = text_of(coil, "default_hold_power")
    return is_yes(text_of(coil, "allow_enable")) or bool(power.strip("0.%"))


def graph_of(scene: Scenery) -> Graph:
    return Maker(scene).run()
