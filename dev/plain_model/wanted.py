"""Draws a trough that is asked for about as many balls as it can remember, and then ejects about as many."""
import random

from .devices import MOST_WANTED

BUNDLE = """@ config/config.yaml
#config_version=6
machine: {min_balls: 0}
game:
switches:
  s_start: {tags: start, debounce: quick}
  s_more: {debounce: quick}
  s_trough: {debounce: quick}
  s_drain: {debounce: quick}
coils:
  c_trough: {default_pulse_ms: 1}
ball_devices:
  trough: {ball_switches: s_trough, eject_coil: c_trough, tags: trough, eject_timeouts: 8, DELAYS}
  drain: {ball_switches: s_drain, mechanical_eject: yes, tags: drain, eject_timeouts: 1, DELAYS}
ball_saves:
  again: {balls_to_save: 99, enable_events: [ball_started, ball_save_again_disabled]}
multiballs:
  more: {ball_count: COUNT, start_events: s_more_active}
"""
DELAYS = "entrance_count_delay: 1, exit_count_delay: 1"


class Log:
    def __init__(self) -> None:
        self.now, self.lines = 0, []

    def press(self, switch: str, times: int) -> None:
        """Closes and opens a switch so many times, each time long enough to count a ball."""
        for _ in range(times):
            for level in (1, 0):
                self.lines.append(f"{self.now} {switch} {level}")
                self.now += 5


def drawn(draw: random.Random) -> tuple[bytes, bytes]:
    """A bundle and a log. The multiball asks for all its balls at once, some drained balls before it and some after."""
    count = draw.choice([2, 10, 99])
    saved = MOST_WANTED - count + draw.randint(-3, 6)
    before = draw.choice([saved, saved, saved - 10])
    log = Log()
    log.press("s_start", 1)
    log.press("s_drain", before)
    log.press("s_more", 1)
    log.press("s_drain", saved - before)
    log.press("s_trough", MOST_WANTED + 2)
    text = BUNDLE.replace("DELAYS", DELAYS).replace("COUNT", str(count))
    return text.encode(), ("\n".join(log.lines) + "\n").encode()
