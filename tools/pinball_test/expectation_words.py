"""How each expectation is written."""
import re
from typing import Callable

from pinball_help.near import nearest
from pinball_table.monitor import LEDGER

from .happenings import Condition, GameIs, Happening, IsIn, NumberIs, PlayerHas
from .script import Expect, Never
from .words import MOST_PLAYERS, Words, shortened

TWO_STATES = {
    "switch": ("active", "inactive"),
    "coil": ("held", "off"),
    "mode": ("running", "stopped"),
}
COIL_ACTIONS = ("pulse", "enable", "disable")
# what a builder may write in place of what can be expected
INSTEAD_OF_SUBJECT = {
    "score": "write `expect player 1 score 500`",
    "ball": "write `expect player 1 ball 2`",
    "playfield": "write `expect balls playfield 1`",
    "not": "write `expect no ..`",
}

Subject = Happening | Condition


def event(words: Words) -> Subject:
    return Happening("event", (words.name("event"),))


def coil(words: Words) -> Subject:
    name = words.name("coil")
    states = TWO_STATES["coil"]
    action = words.one_of((*COIL_ACTIONS, *states), "what a coil does")
    if action in states:
        return IsIn("coil", name, action == states[0], states)
    if words.skip("skipped"):
        return Happening("skip", (name, action))
    if action == "pulse" and re.match(r"\d", words.next()) and words.words[1:2] not in (["times"], ["time"]):
        return Happening("coil", (name, action, str(words.time())))
    return Happening("coil", (name, action))


def two_states(kind: str) -> Callable[[Words], Subject]:
    def read(words: Words) -> Subject:
        name, states = words.name(kind), TWO_STATES[kind]
        word = words.one_of(states, f"what a {kind} is")
        return IsIn(kind, name, word == states[0], states)

    return read


def comparison(words: Words) -> tuple[str, int]:
    sign = words.words.pop(0) if words.next() in ("!=", ">=", "<=", ">", "<") else ""
    return sign, words.number("a value", -(10**15), 10**15)


def player(words: Words) -> Subject:
    number = words.number("the number of a player", 1, MOST_PLAYERS)
    variable = words.name("variable")
    for way in ("up", "down"):
        if words.skip(way):
            return PlayerHas(number, variable, way, words.number("by how much", 0, 10**15))
    return PlayerHas(number, variable, *comparison(words))


def current(words: Words) -> Subject:
    words.one_of(("player",), "what is current")
    return NumberIs("current player", *comparison(words))


def players(words: Words) -> Subject:
    return NumberIs("players", *comparison(words))


def balls(words: Words) -> Subject:
    where = words.one_of(LEDGER, "where the ledger has balls")
    return NumberIs(f"balls {where}", *comparison(words))


def game(words: Words) -> Subject:
    return GameIs(words.one_of(("running", "over"), "what a game is"))


SUBJECTS: dict[str, Callable[[Words], Subject]] = {
    "event": event,
    "coil": coil,
    "switch": two_states("switch"),
    "mode": two_states("mode"),
    "player": player,
    "current": current,
    "players": players,
    "balls": balls,
    "game": game,
}


def subject(words: Words) -> Subject:
    word = words.take("what is expected")
    if word not in SUBJECTS:
        near = nearest(word, SUBJECTS, 0.6)
        hint = INSTEAD_OF_SUBJECT.get(word) or (f"did you mean `{near}`?" if near else "")
        listed = ", ".join(f"`{it}`" for it in SUBJECTS)
        raise words.bad(f"`{shortened(word)}` cannot be expected: {hint or f'what can is {listed}'}")
    return SUBJECTS[word](words)


def expect(words: Words) -> Expect:
    within = taken_within(words)
    is_no = words.skip("no")
    first = subject(words)
    if not isinstance(first, Happening):
        if is_no:
            raise words.bad("`no` is for what happens: an event, or what a coil is sent")
        words.end()
        return Expect(words.line, condition=first, within=within)
    times = words.times()
    found = [first]
    while not times and words.skip("then"):
        after = subject(words)
        if not isinstance(after, Happening):
            raise words.bad("`then` is for what happens: an event, or what a coil is sent")
        found.append(after)
    if is_no and (times or len(found) > 1):
        raise words.bad("`no` goes with neither `times` nor `then`")
    words.end()
    return Expect(words.line, tuple(found), None, times, is_no, within)


def taken_within(words: Words) -> int | None:
    """Takes `within 5s` from the end of a line."""
    if "within" not in words.words:
        return None
    at = words.words.index("within")
    rest = Words(words.line, words.words[at + 1 :])
    length = rest.time()
    if rest.words:
        raise words.bad("`within` and its time come at the end of the line")
    words.words = words.words[:at]
    return length


def never(words: Words) -> Never:
    found = subject(words)
    words.end()
    if isinstance(found, Happening):
        return Never(words.line, happening=found)
    if isinstance(found, PlayerHas) and found.comparison in ("up", "down"):
        raise words.bad("`up` and `down` are about one step: they go with `expect`")
    return Never(words.line, condition=found)
