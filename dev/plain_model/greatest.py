"""A machine in which values come to their limits."""
from .values import INTEGER_LIMIT

TIMES = 500  # how often a press changes each of the two values
PRESSES = 2_000  # how many presses take a value to its limit
BUNDLE = """@ config/config.yaml
#config_version=6
modes: m
machine: {{min_balls: 0}}
game:
switches:
  s_start: {{debounce: quick, tags: start}}
  a: {{debounce: quick}}
  b: {{debounce: quick}}
variable_player:
{variables}
@ modes/m/config/m.yaml
#config_version=6
mode: {{start_events: ball_started}}
timers:
  t:
    start_running: yes
    tick_interval: 1d
    end_value: 1
    control_events:
{controls}
"""


def drawn() -> tuple[bytes, bytes]:
    """A bundle and a log in which a variable comes to its greatest value, and a timer to its least and back.

    At its least value the timer stays. So the last of the presses that lead back completes it."""
    most = INTEGER_LIMIT
    variables = [f"  a_active{{current_player.y != {number}}}: {{x: {most}}}" for number in range(1, TIMES + 1)]
    controls = [f"      - {{event: a_active, action: subtract, value: {most}}}"] * TIMES
    controls += [f"      - {{event: b_active, action: add, value: {most}}}"] * TIMES
    text = BUNDLE.format(variables="\n".join(variables), controls="\n".join(controls))
    switches = ["s_start", *["a"] * (PRESSES + 1), *["b"] * PRESSES]
    return text.encode(), "".join(f"0 {switch} 1\n0 {switch} 0\n" for switch in switches).encode()
