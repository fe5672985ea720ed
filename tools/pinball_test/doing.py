"""What each action of a test does to a play."""
from functools import singledispatch
from typing import Callable

from pinball_help.trace import time_of
from pinball_table.monitor import NO_GAME, OVER

from .playing import Play
from .script import Action, Drain, Hit, Hold, LogLine, Plunge, Release, StartGame, Wait, WaitForBalls

PRESS, PAUSE = 50, 50  # ms: of a hit
PATIENCE = 20_000  # ms: how long an action waits for what balls do by themselves


class NotDone(Exception):
    """An action that cannot be done."""


@singledispatch
def do(action: Action, play: Play) -> None:
    raise TypeError(action)


@do.register
def _(action: Hit, play: Play) -> None:
    for _ in range(action.times):
        for switch in action.switches:
            hit(switch, play)


def hit(switch: str, play: Play) -> None:
    """Presses a switch and releases it. On the table, a drop target that is hit stays down."""
    play.set(switch, True)
    play.wait(PRESS)
    if not (play.with_table and switch in play.table.targets):
        play.set(switch, False)
    play.wait(PAUSE)


@do.register
def _(action: Hold, play: Play) -> None:
    for switch in action.switches:
        play.set(switch, True)
    if action.length is not None:
        play.wait(action.length)
        for switch in action.switches:
            play.set(switch, False)


@do.register
def _(action: Release, play: Play) -> None:
    for switch in action.switches:
        play.set(switch, False)


@do.register
def _(action: Wait, play: Play) -> None:
    play.wait(action.length)


@do.register
def _(action: LogLine, play: Play) -> None:
    if action.moment < play.now:
        raise NotDone(f"The moment goes back: the test is at {play.now} ({time_of(play.now)}) already.")
    play.wait_until(action.moment)
    if action.switch:
        play.set(action.switch, action.level == play.machine.switches[action.switch].level(True))


@do.register
def _(action: StartGame, play: Play) -> None:
    button = play.machine.start_button()
    if not button:
        raise NotDone("No switch has the tag `start`, so no game can be started.")
    for number in range(1, action.players + 1):
        hit(button, play)
        play.look()
        players = 0 if play.state.phase in (NO_GAME, OVER) else len(play.state.players)
        if players < number:
            raise NotDone(no_player(number, play))
    if play.with_table and play.machine.tagged("trough"):
        do(WaitForBalls(action.line, 1), play)


def no_player(number: int, play: Play) -> str:
    if number > 1:
        return f"Player {number} did not come: see `max_players` and docs/machine.md#the-start-button."
    return (
        f"No game began. Balls in devices: {play.state.ledger['counted']}. A game needs `min_balls` of them at home, "
        "and a ball counts once its switch has been active for the `entrance_count_delay`."
    )


# what only the table can do


def of_the_table(play: Play, word: str) -> None:
    if not play.with_table:
        raise NotDone(f"`{word}` needs the table: write `with table` above the actions of the test.")


def wait_until(play: Play, holds: Callable[[], bool], message: str) -> None:
    if not holds() and not play.go(play.now + PATIENCE, holds):
        raise NotDone(f"{message} within {PATIENCE // 1000} seconds.")


@do.register
def _(action: WaitForBalls, play: Play) -> None:
    of_the_table(play, "wait for ball")
    balls = "No ball came" if action.count == 1 else f"Not {action.count} balls came"
    wait_until(play, lambda: play.reachable() >= action.count, f"{balls} to the playfield, or to a plunger by hand,")


@do.register
def _(action: Plunge, play: Play) -> None:
    of_the_table(play, "plunge")
    if all(device.coil for device in play.machine.devices.values()):
        raise NotDone("Each ball device has an `eject_coil`, so there is nothing to pull.")
    wait_until(play, lambda: bool(play.in_plungers()), "No ball came to the plunger")
    landed = play.table.loose + 1
    play.table.plunge(play.now)
    wait_until(play, lambda: play.table.loose >= landed, "The ball did not come to the playfield")


@do.register
def _(action: Drain, play: Play) -> None:
    of_the_table(play, "drain")
    where = play.table.settings.drain
    if where in play.machine.switches:
        hit(where, play)
        return
    if where not in play.machine.devices:
        raise NotDone("The table has no drain: tag a ball device `drain`, or see `drain` of `table.yaml`.")
    wait_until(play, lambda: play.table.loose > 0, "No ball came to the playfield")
    entered = count_of(play, f"balldevice_{where}_ball_enter")
    play.table.drain(play.now)
    message = f"The drained ball was not counted by {where}"
    wait_until(play, lambda: count_of(play, f"balldevice_{where}_ball_enter") > entered, message)


def count_of(play: Play, event: str) -> int:
    return sum(step.kind == "event" and step.words[0] == event for step in play.steps)
