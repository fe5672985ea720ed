"""Events that come a time after another one: a timer waits for each."""
import re

from ..machine_graph import GAME
from ..tables import MOST_MODES
from .context import ALWAYS, Context
from .draft import Written
from .source import Given

SHARED = "adopted_delays"
MOST_STARTS = 1_000  # events that start the shared mode
SPARE_MODES = 6  # modes that are left for other rewrites
# in a game, the shared mode runs before these
EARLY = ("sw_start", "game_will_start", "game_starting", "player_added", "game_started", "player_turn_will_start")
MISSED = "the first one is missed if it comes before the first game"
SAID = "a second {} before the {} are over begins them anew: in MPF both come"


def after(ctx: Context, mode: str, head: str, delay: int, given: Given) -> str:
    """The event that comes `delay` milliseconds after another one, in a mode or in the machine."""
    key = (mode, head, delay)
    if delay == 0:
        return head
    if key not in ctx.later:
        event = head.partition("{")[0]
        name = ctx.timer(f"{event}_after_{delay}ms")
        owner = mode or (shared(ctx, given) if is_late(ctx, event) else "")
        says = SAID.format(f"`{event}`", written(delay))
        if owner:
            wait(ctx, owner, name, head, delay, given, says, running=False)
        else:
            of_its_own(ctx, name, head, delay, given, says)
        ctx.later[key] = f"timer_{name}_complete"
    return ctx.later[key]


def written(delay: int) -> str:
    return f"{delay // 1000}s" if delay % 1000 == 0 else f"{delay}ms"


def wait(ctx: Context, mode: str, name: str, head: str, delay: int, given: Given, says: str, running: bool) -> None:
    timer = {"end_value": "1", "tick_interval": written(delay)}
    if running:
        timer["start_running"] = "yes"
    again = [{"event": head, "action": "restart"}]
    ctx.put(mode, "timers", name, {**timer, "control_events": again}, given, says)


def of_its_own(ctx: Context, name: str, head: str, delay: int, given: Given, says: str) -> None:
    """A mode for one event: nothing that comes before it is known, and no mode hears the event that starts it."""
    if len(ctx.draft.modes) >= MOST_MODES - SPARE_MODES:
        mode = shared(ctx, given)
        starts = ctx.draft.texts[mode]["mode"]["start_events"].value
        assert isinstance(starts, list)
        starts += [head] if head not in starts and len(starts) < MOST_STARTS else []
        wait(ctx, mode, name, head, delay, given, f"{MISSED}; {says}", running=False)
        ctx.log("a: b|2s", given.place, f"there is no room for a mode of its own: {MISSED}", "weakened")
        return
    settings = {"start_events": [head], "stop_events": [f"timer_{name}_complete"], **ALWAYS}
    mode = ctx.draft.helper(name, settings, Written("", [given.place], says=[f"{given.place}: an event after a time"]))
    wait(ctx, mode, name, head, delay, given, says, running=True)


def shared(ctx: Context, given: Given) -> str:
    """The mode that has the delays of the machine, from the start of the first game on."""
    if SHARED not in ctx.names:
        ctx.draft.spare = 0
        says = "events of the machine that come after a time: this mode runs from the start of the first game on"
        settings = {"start_events": ["game_will_start"], **ALWAYS}
        ctx.names[SHARED] = ctx.draft.helper(SHARED, settings, Written("", says=[says]))
    return ctx.names[SHARED]


def is_late(ctx: Context, event: str) -> bool:
    """Whether an event comes only once the shared mode runs."""
    if event in EARLY:
        return False
    if event in GAME or event.removeprefix("player_") in ctx.variables:
        return True
    found = re.fullmatch(r"mode_(.+)_(?:will_start|starting|started|stopping|stopped)", event)
    return bool(found) and found[1] in ctx.game_modes
