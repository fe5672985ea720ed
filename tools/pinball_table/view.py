"""What the page is told: once, what the machine has, and then again and again, how it is."""
from __future__ import annotations

from typing import TYPE_CHECKING

from .machine import Machine
from .monitor import Monitor
from .settings import PICTURE, Settings

if TYPE_CHECKING:
    from .player import Player

OTHERS = "other"


def about(player: Player, program: str) -> dict:
    """What the machine has, and what the page may do with it."""
    settings, machine, is_board = player.settings, player.settings.machine, player.session.platform.is_board
    keys, actions, stay = ({}, {}, set()) if is_board else by_hand(settings)
    return {
        "name": machine.name,
        "program": program,
        "board": is_board,
        "session": player.number,
        "picture": (machine.folder / PICTURE).is_file(),
        "switches": [
            {"name": it.name, "label": it.label, "number": it.number, "group": group_of(machine, it.name),
             "stays": it.name in stay, "keys": keys.get(it.name, [])}
            for it in machine.switches.values()],
        "coils": [{"name": it.name, "label": it.label, "number": it.number} for it in machine.coils.values()],
        "devices": [{"name": it.name, "switches": it.switches, "target": it.target} for it in machine.devices.values()],
        "modes": sorted(([name, priority] for name, priority in machine.modes.items()), key=lambda it: -it[1]),
        "timers": list(machine.timers),
        "game": machine.start_button() is not None,
        "actions": actions,
        "keys": settings.keys,
        "layout": settings.layout,
    }


def by_hand(settings: Settings) -> tuple[dict[str, list[str]], dict[str, list[str]], set[str]]:
    """What only a simulated table has: the keys of each switch and action, those of the actions that there are, and the
    switches that stay as a click has left them."""
    machine = settings.machine
    keys: dict[str, list[str]] = {}
    for key, name in settings.keys.items():
        keys.setdefault(name, []).append(key)
    has_plunger = any(not device.coil for device in machine.devices.values())
    there = {"drain": bool(settings.drain), "plunge": has_plunger}
    targets = {switch for switches in settings.raises.values() for switch in switches}
    stay = targets | machine.ball_switches().keys()
    return keys, {action: keys.get(action, []) for action, is_there in there.items() if is_there}, stay


def group_of(machine: Machine, switch: str) -> str:
    """Where a switch is shown: with its ball device, in the cabinet, or by its first tag."""
    if device := machine.ball_switches().get(switch):
        return device.name
    tags = [tag for tag in machine.switches[switch].tags if tag not in ("start", "playfield_active")]
    buttons = {it.switch for it in machine.flippers.values()}
    if switch in buttons or "start" in machine.switches[switch].tags or "button" in switch:
        return "cabinet"
    return tags[0] if tags else "playfield" if "playfield_active" in machine.switches[switch].tags else OTHERS


def state_of(player: Player) -> dict:
    """How the machine is now."""
    session, clock = player.session, player.clock
    table, monitor = session.table, session.monitor
    now = session.moment if session.ended else max(clock.now(), session.moment)
    return {
        "now": now, "speed": clock.speed, "paused": clock.is_paused, "ended": session.ended,
        "session": player.number,
        "steps": len(session.steps), "future": len(session.future),
        "last": session.future[-1].moment if session.future else session.moment,
        "active": sorted(table.active if table else monitor.switches),
        "held": sorted({switch for switches in player.holds.values() for switch in switches}),
        "loose": table.loose if table else None, "flying": table.flying if table else None,
        "ledger": monitor.ledger,
        **game_of(monitor), **devices_of(monitor, now),
    }


def game_of(monitor: Monitor) -> dict:
    return {
        "phase": monitor.phase, "player": monitor.player, "players": monitor.players, "balls": monitor.balls,
        "modes": sorted(monitor.modes), "running": sorted(monitor.running),
    }


def devices_of(monitor: Monitor, now: int) -> dict:
    timers = {}
    for name, it in monitor.timers.items():
        timer = monitor.machine.timers[name]
        value = timer.start + timer.step * it.ticks if timer.is_simple else None
        timers[name] = {"state": it.state, "ticks": it.ticks, "value": value}
    return {
        "timers": timers,
        "coils": {
            name: {"pulses": it.pulses, "skipped": it.skipped, "on": it.on_ms + (now - it.since if it.holder else 0),
                   "holder": it.holder, "last": it.last, "ms": it.last_ms,
                   "duty": round(it.duty_at(now), 3), "most": round(max(it.duty, it.duty_at(now)), 3)}
            for name, it in monitor.coils.items()},
    }
