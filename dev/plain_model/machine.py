"""The run of a log: the written machine, a stimulus after the other."""
import operator
import re
from collections import Counter
from copy import copy

from .devices import MOST_WANTED, Act, BallDevice, Device, ShotBank, World, clamped
from .plan import Binding, Plan, Switch
from .saves import BallSave, Multiball
from .values import Condition

LAST_MOMENT = (1 << 40) - 1
LOG_LINE = re.compile(rb"([0-9]{1,20})(?:[ \t]+([^ \t]+)[ \t]+([01]))?")
SIGNS = {"==": operator.eq, "!=": operator.ne, "<": operator.lt, "<=": operator.le, ">": operator.gt, ">=": operator.ge}
OF_BALLS_IN_PLAY = (BallSave, Multiball)
MOST_LINES = 20_000


class TooLong(Exception):
    """The run prints too much to be worth it."""


class Player:
    def __init__(self, number: int):
        self.variables = {"number": number}

    def get(self, variable: str) -> int:
        return self.variables.get(variable, 0)


class Accepted:
    """A switch: its raw level, its accepted one, and the moment of a change that is not accepted yet."""

    def __init__(self, switch: Switch):
        self.switch, self.raw, self.active = switch, switch.closed_at_rest, False
        self.due: int | None = None


class Machine:
    """The state of a run, and the lines that it has printed, which are not to be more than `most_lines`. `seen` counts
    what came up."""

    def __init__(self, plan: Plan, most_lines: int = MOST_LINES):
        self.plan, self.now, self.most_lines = plan, 0, most_lines
        self.rows = [row.fresh() for row in plan.rows]
        self.row_of = {id(before): after for before, after in zip(plan.rows, self.rows)}
        self.coils = {name: copy(plan.coils[name]) for name in plan.tables["coils"]}
        self.switches = {name: Accepted(switch) for name, switch in plan.switches.items()}
        self.balls = [row for row in self.rows if isinstance(row, BallDevice)]
        self.phases = {mode: "Idle" for mode in plan.modes}
        self.kept: set[str] = set()
        self.holders: set[str] = set()  # modes for which the end of the ball waits
        self.waiting: list[tuple[str, str]] = []  # owners and events, first posted first
        self.lines: list[str] = []
        self.seen: Counter[str] = Counter()
        self.game_phase, self.games, self.in_play, self.current = "None", 0, 0, 0
        self.players: list[Player] = []
        self.known, self.playfield = 0, 0
        self.counted: Counter[str] = Counter()
        self.transit: Counter[str] = Counter()
        self.handlers: dict[str, list[Binding]] = {}
        for binding in sorted(plan.bindings, key=lambda binding: -binding.priority):
            self.handlers.setdefault(binding.event, []).append(binding)

    def see(self, whats: dict[str, bool]) -> None:
        """Counts those of these things that are so."""
        self.seen.update(what for what, is_so in whats.items() if is_so)

    # Lines, posts, coils

    def print(self, owner: str, what: str) -> None:
        self.lines.append(f"{self.now} {owner} {what}")
        if len(self.lines) > self.most_lines:
            raise TooLong

    def post(self, owner: str, *events: str) -> None:
        self.waiting += [(owner, event) for event in events]

    def drive(self, owner: str, name: str, action: str, ms: int, power: int) -> None:
        coil = self.coils[name]
        if action == "pulse":
            self.print(owner, coil.pulse(ms, power, self.now))
        elif action == "enable":
            self.print(owner, coil.enable(power, owner))
        else:
            self.print(owner, coil.disable(self.now))

    # Devices

    @property
    def world(self) -> World:
        return World(self.games, self.current, self.in_play)

    def run_lists(self, device: Device, lists: list[int]) -> None:
        for number in lists:
            is_bank = isinstance(device, ShotBank)
            self.seen[f"{device.kind} hit" if is_bank else f"{kind_of(device)}, list {number}"] += 1
            self.run_list(device, number)

    def run_list(self, device: Device, number: int) -> None:
        actions = device.lists[number]
        if ("enter", "") in actions:
            self.entered(device)
            return
        for action, target in actions:
            if action == "post":
                self.post(device.owner, target)
            elif action in ("left", "lost", "arrived"):
                self.moved(device, action)
            elif action == "request":
                self.request(target)
            elif action == "add":
                self.add_balls(target)
            else:
                coil = self.coils[target]
                power = coil.pulse_power if action == "pulse" else coil.hold_power
                self.drive(device.owner, target, action, coil.pulse_ms, power)

    def balls_line(self) -> None:
        counted, transit = sum(self.counted.values()), sum(self.transit.values())
        self.print("machine", f"balls {self.known} {counted} {transit} {self.playfield}")

    def moved(self, device: BallDevice, how: str) -> None:
        if how == "arrived":
            self.transit[device.target] -= 1
            self.playfield += 1
        else:
            self.counted[device.name] -= 1
            if how == "left":
                self.transit[device.target] += 1
            else:
                self.playfield += 1
        self.balls_line()

    def entered(self, device: BallDevice) -> None:
        awaited = self.transit[device.name] > 0
        if awaited:
            self.transit[device.name] -= 1
        elif self.playfield > 0:
            self.playfield -= 1
        else:
            self.known += 1
        self.seen["ball awaited" if awaited else "ball not awaited"] += 1
        self.counted[device.name] += 1
        self.balls_line()
        self.post("machine", f"balldevice_{device.name}_ball_enter")
        if awaited:
            self.confirm(device.name)
        elif device.drains and self.game_phase == "Ball":
            self.post("machine", "ball_drain")

    def confirm(self, target: str) -> None:
        for row in self.balls:
            if row.eject.phase == "Away" and row.target == target:
                self.run_lists(row, row.act(("confirm",), self.now, self.world))
                return

    # Switches

    def accept(self, accepted: Accepted) -> None:
        switch, active = accepted.switch, not accepted.active
        accepted.active, accepted.due = active, None
        self.print("machine", f"switch {switch.name} {'active' if active else 'inactive'}")
        for row in self.rows:
            for index, listened in enumerate(row.listens):
                if listened == switch.name:
                    self.run_lists(row, row.act(("switch", index, active), self.now, self.world))
        if active and switch.is_on_playfield:
            self.confirm("playfield")
        self.post("machine", *switch.posts[active])

    def change(self, name: str, level: bool) -> None:
        accepted = self.switches[name]
        if level == accepted.raw:
            return
        accepted.raw = level
        if (level != accepted.switch.closed_at_rest) == accepted.active:
            accepted.due = None
        elif accepted.switch.delay == 0:
            self.accept(accepted)
        else:
            accepted.due = self.now + accepted.switch.delay

    # Events

    def cascade(self) -> None:
        while self.waiting:
            owner, event = self.waiting.pop(0)
            self.print(owner, f"event {event}")
            mode, what = mode_event(event, self.phases)
            if what == "started":
                self.phases[mode] = "Active"
                for row in self.rows:
                    if row.owner == mode:
                        self.run_lists(row, row.start(self.now, self.world))
            for binding in self.handlers.get(event, []):
                if binding.owner == "machine" or self.phases[binding.owner] in ("Active", "Stopping"):
                    self.handle(binding)
            if mode:
                self.mode_work(mode, what)
            elif self.plan.has_game:
                self.game_work(event)

    def holds(self, condition: Condition | None) -> bool:
        if condition is None:
            return True
        if not self.current:
            return False
        value = self.players[self.current - 1].get(condition.variable)
        return SIGNS[condition.sign](value, condition.number)

    def handle(self, binding: Binding) -> None:
        holds = self.holds(binding.condition)
        if binding.condition:
            self.seen["condition true" if holds else "condition false"] += 1
        if not holds:
            return
        kind, *what = binding.target
        if kind == "post":
            self.post(binding.owner, *what[0])
        elif kind == "change":
            for variable, action, number in what[0]:
                self.change_variable(binding.owner, variable, action, number)
        elif kind == "drive":
            for name, action, ms, power in what[0]:
                self.drive(binding.owner, name, action, ms, power)
        elif kind == "start":
            self.start(what[0])
        elif kind == "stop":
            self.stop(what[0])
        else:
            self.act(self.row_of[id(what[0])], what[1])

    def act(self, row: Device, act: Act) -> None:
        """What a handled event does with a device."""
        if isinstance(row, OF_BALLS_IN_PLAY):
            where = "" if self.in_play or isinstance(row, BallSave) else ", without a ball"
            self.seen[f"{row.kind}, {act[0]} while {'active' if row.active else 'not active'}{where}"] += 1
        self.run_lists(row, row.act(act, self.now, self.world))

    def change_variable(self, owner: str, variable: str, action: str, number: int) -> None:
        if not self.current:
            return
        player = self.players[self.current - 1]
        before = player.get(variable)
        after = clamped(number if action == "set" else before + number)
        if after != before:
            player.variables[variable] = after
            self.print(owner, f"player {self.current} {variable} {after}")
            self.post(owner, f"player_{variable}")

    # Modes

    def start(self, mode: str) -> None:
        settings = self.plan.modes[mode].only("mode")
        if self.phases[mode] == "Idle" and not (settings["game_mode"] and self.game_phase == "None"):
            self.phases[mode] = "Starting"
            self.post("machine", f"mode_{mode}_will_start")
            if settings["use_wait_queue"]:
                self.holders.add(mode)

    def stop(self, mode: str) -> None:
        if self.phases[mode] == "Active":
            self.phases[mode] = "Stopping"
            self.post("machine", f"mode_{mode}_stopping")
        elif self.phases[mode] == "Starting":
            self.kept.add(mode)

    def mode_work(self, mode: str, what: str) -> None:
        if what == "will_start":
            self.post("machine", f"mode_{mode}_starting")
        elif what == "starting":
            self.post("machine", f"mode_{mode}_started")
        elif what == "started" and mode in self.kept:
            self.seen["kept stop of a holder" if mode in self.holders else "kept stop"] += 1
            self.kept.remove(mode)
            self.stop(mode)
        elif what == "stopping":
            for row in self.rows:
                if row.owner == mode:
                    self.see({f"a mode ends a {row.kind}": isinstance(row, OF_BALLS_IN_PLAY) and row.active})
                    row.stop()
            for coil in self.coils.values():
                if coil.holder == mode:
                    self.seen["release"] += 1
                    self.print(mode, coil.disable(self.now))
            self.phases[mode] = "Idle"
            self.post("machine", f"mode_{mode}_stopped")
        elif what == "stopped" and mode in self.holders:
            self.holders.remove(mode)
            self.seen["a hold less" if self.holders else "the last hold"] += 1
            self.end_ball()

    def end_ball(self) -> None:
        """The ball ends, unless a mode holds its end."""
        if not self.holders:
            self.post("machine", "ball_ended")

    # The game

    def game_work(self, event: str) -> None:
        game = self.plan.config.machine.only("game")
        player = self.players[self.current - 1] if self.current else None
        after = AFTER.get(event)
        if after:
            self.post("machine", *after)
        elif event == "sw_start":
            self.press_start(game["max_players"])
        elif event == "player_added" and len(self.players) < game["max_players"]:
            self.players.append(Player(len(self.players) + 1))
            self.see({"four players": len(self.players) == 4})
        elif event == "game_started":
            self.current = min(1, len(self.players))
            self.post("machine", "player_turn_will_start")
        elif event == "player_turn_started":
            if player:
                player.variables["ball"] = player.get("ball") + 1
                self.see({"the third ball of a player": player.get("ball") == 3})
            self.post("machine", "ball_will_start")
        elif event == "ball_starting":
            self.game_phase, self.in_play = "Ball", 1
            self.request(1)
            self.post("machine", "ball_started")
        elif event == "ball_drain" and self.game_phase == "Ball":
            self.drain()
        elif event == "ball_ending":
            if self.holders:
                self.seen[f"ball held by {len(self.holders)}"] += 1
            self.end_ball()
        elif event == "player_turn_ended":
            self.next_turn(player, game["balls_per_game"])
        elif event == "game_ended":
            for number, one in enumerate(self.players, 1):
                self.print("machine", f"final {number} {one.get('score')}")
            self.game_phase, self.current = "None", 0

    def drain(self) -> None:
        """The first active ball save saves the ball, or there is one less in play."""
        active = [row for row in self.rows if isinstance(row, BallSave) and row.active]
        if active:
            self.save(active)
            return
        self.in_play -= 1
        self.see({"a ball drains in a multiball": self.in_play > 1})
        if self.in_play == 0:
            self.game_phase = "Between"
            self.post("machine", "ball_will_end")
        elif self.in_play == 1:
            running = [row for row in self.rows if isinstance(row, Multiball) and row.active]
            self.see({"two multiballs end": len(running) > 1})
            for row in running:
                self.run_lists(row, row.act(("end",), self.now, self.world))

    def save(self, active: list[BallSave]) -> None:
        """The first of these ball saves saves a ball."""
        save = active[0]
        self.run_lists(save, save.act(("save",), self.now, self.world))
        self.see(
            {
                "a save with more to come": save.active,
                "the last of some saves": not save.active and save.entry["balls_to_save"] > 1,
                "a save where two are active": len(active) > 1,
                "a save in a multiball": self.in_play > 1,
                "a save without a trough": not self.troughs,
            }
        )

    def add_balls(self, least: int) -> None:
        """So many balls are in play at least, and the trough is asked for those that are not there yet."""
        more = least - self.in_play
        self.see({"no ball more": more <= 0, "one ball more": more == 1, "some balls more": more > 1})
        if self.game_phase == "Ball" and more > 0:
            self.in_play += more
            self.request(more)

    @property
    def troughs(self) -> list[BallDevice]:
        return [row for row in self.balls if row.is_trough]

    def request(self, balls: int) -> None:
        """The first trough, if there is one, is asked for so many balls more."""
        for trough in self.troughs[:1]:
            wanted = trough.wanted + balls
            self.see({"some balls wanted": wanted > 1, "more balls wanted than are remembered": wanted > MOST_WANTED})
            self.see({"the first of two troughs": len(self.troughs) > 1})
            self.run_lists(trough, trough.act(("request", balls), self.now, self.world))

    def press_start(self, max_players: int) -> None:
        if self.game_phase == "None":
            home = sum(sum(row.counted) for row in self.balls if {"trough", "home"} & {*row.tags})
            if home >= self.plan.config.machine.only("machine")["min_balls"]:
                self.game_phase, self.players = "Between", []
                self.games += 1
                self.seen["a second game" if self.games > 1 else "a game"] += 1
                self.post("machine", "game_will_start")
        elif self.game_phase == "Ball" and self.players[self.current - 1].get("ball") == 1:
            if len(self.players) < max_players:
                self.post("machine", "player_added")

    def next_turn(self, player: Player | None, balls: int) -> None:
        if player and self.current == len(self.players) and player.get("ball") == balls:
            self.post("machine", "game_will_end")
            return
        self.current = self.current + 1 if self.current < len(self.players) else min(1, len(self.players))
        self.seen["a turn of another player" if len(self.players) > 1 else "another turn"] += 1
        self.post("machine", "player_turn_will_start")

    # Stimuli

    def next_alarm(self) -> tuple[int, int, Accepted | Device] | None:
        """The due moment, whether it is a device, and what is due."""
        switches = [(accepted.due, 0, accepted) for accepted in self.switches.values() if accepted.due is not None]
        devices = [(row.due(), 1, row) for row in self.rows if row.due() is not None]
        return min(switches + devices, key=lambda alarm: alarm[:2], default=None)

    def run_alarms(self, until: int) -> None:
        while (alarm := self.next_alarm()) and alarm[0] <= until:
            self.now, _, what = alarm
            if isinstance(what, Accepted):
                self.accept(what)
            else:
                self.seen[f"{kind_of(what)}, alarm"] += 1
                self.run_lists(what, what.fire(self.now, self.world))
            self.cascade()

    def log_line(self, line: bytes) -> str | None:
        """Runs a line of a log, or says why it is refused."""
        found = LOG_LINE.fullmatch(line)
        if not found or int(found[1]) >= 1 << 64:
            return "8 BadLine"
        name = found[2].decode(errors="surrogateescape") if found[2] else None
        if name is not None and name not in self.switches:
            return "3 NoSuchSwitch"
        moment = int(found[1])
        if moment < self.now:
            return "1 Backwards"
        if moment > LAST_MOMENT:
            return "2 TooLate"
        self.run_alarms(moment)
        self.now = moment
        if name is not None:
            self.change(name, found[3] == b"1")
            self.cascade()
        return None

    def log(self, data: bytes) -> bool:
        """Runs a log, and shuts down. Whether no line was refused."""
        all_run = True
        *whole, last = data.split(b"\n")
        for number, line in enumerate([*(line.removesuffix(b"\r") for line in whole), last], 1):
            if line and not line.startswith(b"#"):
                why = self.log_line(line)
                if why:
                    self.lines.append(f"refused {number} {why}")
                    all_run = False
        for coil in self.coils.values():
            if coil.is_on(self.now):
                self.print("machine", f"off {coil.name}")
        return all_run


# The work of the events that only post.
AFTER = {
    "game_will_start": ["game_starting"],
    "game_starting": ["player_added", "game_started"],
    "player_turn_will_start": ["player_turn_starting"],
    "player_turn_starting": ["player_turn_started"],
    "ball_will_start": ["ball_starting"],
    "ball_will_end": ["ball_ending"],
    "ball_ended": ["player_turn_will_end"],
    "player_turn_will_end": ["player_turn_ending"],
    "player_turn_ending": ["player_turn_ended"],
    "game_will_end": ["game_ending"],
    "game_ending": ["game_ended"],
}


def kind_of(row: Device) -> str:
    """The kind of a device, and of a ball save or a multiball whether a mode has it."""
    of_mode = isinstance(row, OF_BALLS_IN_PLAY) and row.owner != "machine"
    return f"{row.kind} of a mode" if of_mode else row.kind


def mode_event(event: str, modes: dict[str, str]) -> tuple[str, str]:
    """The mode whose event this is, and which one; both empty for another event."""
    for what in ("will_start", "starting", "started", "stopping", "stopped"):
        mode = event.removeprefix("mode_").removesuffix(f"_{what}")
        if mode in modes and event == f"mode_{mode}_{what}":
            return mode, what
    return "", ""
