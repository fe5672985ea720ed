"""How each action is written."""
from typing import Callable

from .script import Action, Drain, Hit, Hold, Plunge, Release, StartGame, Wait, WaitForBalls
from .words import MOST_PLAYERS, NUMBER, Words

MOST_BALLS = 100


def switches(words: Words, *ends: str) -> tuple[str, ...]:
    found = []
    while words.words and words.next() not in ends and not (found and NUMBER.match(words.next())):
        found.append(words.name("switch"))
    if not found:
        words.name("switch")
    return tuple(found)


def hit(words: Words) -> Action:
    return Hit(words.line, switches(words), words.times() or 1)


def hold(words: Words) -> Action:
    held = switches(words, "for")
    return Hold(words.line, held, words.time() if words.skip("for") else None)


def release(words: Words) -> Action:
    return Release(words.line, switches(words))


def wait(words: Words) -> Action:
    if words.next() == "until":
        raise words.bad("to wait until something is so, write `expect .. within 5s`")
    if not words.skip("for"):
        return Wait(words.line, words.time())
    count = words.number("how many balls", 1, MOST_BALLS) if NUMBER.match(words.next()) else 1
    words.one_of(("ball", "balls"), "what can be waited for")
    return WaitForBalls(words.line, count)


def plunge(words: Words) -> Action:
    return Plunge(words.line)


def drain(words: Words) -> Action:
    return Drain(words.line)


def start(words: Words) -> Action:
    words.one_of(("game",), "what can be started")
    if not words.skip("with"):
        return StartGame(words.line)
    count = words.number("how many players", 1, MOST_PLAYERS)
    words.one_of(("players", "player"), "what comes after their number")
    return StartGame(words.line, count)


ACTIONS: dict[str, Callable[[Words], Action]] = {
    "hit": hit,
    "hold": hold,
    "release": release,
    "wait": wait,
    "start": start,
    "plunge": plunge,
    "drain": drain,
}
