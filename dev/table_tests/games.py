"""A whole game of two players on examples/complete, with a ball save and a multiball.

It is written once, and played by the log's time, over requests, and by clicks: a `Hand` is what does that.
"""
from typing import Any, Callable, Protocol

State = dict[str, Any]


class Hand(Protocol):
    def tap(self, switch: str) -> None: ...

    def hold(self, switch: str) -> None: ...

    def let_go(self, switch: str) -> None: ...

    def drain(self) -> None: ...

    def until(self, what: str, holds: Callable[[State], bool]) -> None: ...


def score(state: State, player: int) -> int:
    return state["players"].get(str(player), state["players"].get(player, {})).get("score", 0)


def play(hand: Hand) -> None:
    begin(hand)
    start_a_multiball(hand)
    make_the_hurry_up(hand)
    end(hand)


def begin(hand: Hand) -> None:
    """Two players. The first ball drains, and is saved."""
    hand.until("two balls lie in the trough", lambda it: it["ledger"]["counted"] == 2)
    hand.tap("s_start")
    hand.until("a ball is in play", lambda it: it["phase"] == "ball in play")
    hand.tap("s_start")
    hand.until("there are two players", lambda it: len(it["players"]) == 2)
    hand.until("the first ball is on the playfield", lambda it: it["loose"] == 1)
    hand.tap("s_right_sling")
    hand.until("the slingshot scores", lambda it: score(it, 1) == 10)
    hand.drain()
    hand.until("the ball is saved", lambda it: it["coils"]["c_trough"]["pulses"] == 2)
    hand.until("it comes again", lambda it: it["loose"] == 1)
    hand.tap("s_left_sling")
    hand.until("the other slingshot scores", lambda it: score(it, 1) == 20)
    hand.until("no ball is known that is not there", lambda it: it["ledger"]["known"] == 2)
    hand.hold("s_left_button")
    hand.until("the flipper is held", lambda it: it["coils"]["c_left_hold"]["holder"] != "")
    hand.let_go("s_left_button")
    hand.until("the flipper is off", lambda it: it["coils"]["c_left_hold"]["holder"] == "")


def start_a_multiball(hand: Hand) -> None:
    for drop in "123":
        hand.tap(f"s_drop_{drop}")
    hand.until("the bank brings a multiball", lambda it: "two" in it["running"] and score(it, 1) == 3320)
    hand.until("the bank is up again", lambda it: not any(name.startswith("s_drop") for name in it["active"]))
    hand.until("two balls are on the playfield", lambda it: it["loose"] == 2)
    hand.tap("s_right_sling")


def make_the_hurry_up(hand: Hand) -> None:
    hand.tap("s_ramp")
    hand.until("the hurry-up runs", lambda it: "hurry" in it["modes"] and it["coils"]["c_gate"]["holder"] == "hurry")
    hand.tap("s_ramp")
    hand.tap("s_ramp")
    hand.until("the hurry-up is made", lambda it: "hurry" not in it["modes"] and it["coils"]["c_gate"]["holder"] == "")


def end(hand: Hand) -> None:
    """Both balls drain. The second player has a ball that is not saved."""
    hand.until("the ball save is over", lambda it: "early" not in it["running"])
    hand.drain()
    hand.until("the multiball is over", lambda it: "two" not in it["running"])
    hand.drain()
    hand.until("it is the second player's turn", lambda it: it["player"] == 2 and it["loose"] == 1)
    hand.tap("s_right_sling")
    hand.until("the second player scores", lambda it: score(it, 2) == 10)
    hand.until("the ball save is over", lambda it: "early" not in it["running"])
    hand.drain()
    hand.until("the game is over", lambda it: it["phase"] == "game over")
    hand.until("the scores are final", lambda it: (score(it, 1), score(it, 2)) == (13330, 10))
