"""`pinball-help adopt`: the comments of a builder stay with what they belong to, and what is rewritten has one."""
import re
import tempfile
from pathlib import Path
from typing import Iterator

from help_tests.adopted import MACHINES, REWRITES, adopted, written
from help_tests.common import PROGRAM, test
from pinball_help import outline
from pinball_help.adopt import run
from pinball_help.adopt.draft import SINGLE

MACHINE = """#config_version=6
# A machine of mine,
# in two lines.

# about nothing
config:
  - more.yaml  # the rest

# the modes
modes:   # in this order
  - base     # the first
  # above what is left out
  - nothing  # it has no text

#--- the cabinet ---
switches: # all of them
  # the start button
  s_start: {number: 1, tags: "start"}   # red
  s_a:
    # where it is
    number: 2     # board 0
    tags: # two of them
      - lane # the lane
      # on the playfield
      - playfield_active
    # type: NC
  # s_gone:
  #   number: 9

  s_b:   # in the middle
    number: 3
    # above what is left out
    ignore_window_ms: 200ms  # it bounces
    tags: tilt_warning
    label: "a # in quotes"  # a label
# in the first column
coils:
    c_a:
        # measured
        pulse_ms: 20  # not more
        allow_enable: maybe # is left out
    # holds the gate
    c_hold: {number: 2, default_hold_power: 0.25}
lights: # are left out
  # a light
  l_1: {number: 2} # blue
  # the end of the lights

# the bank
drop_targets:
  # the upper one
  one:
    switch: s_a  # behind it
    reset_coil: c_a  # strong
tilt: # hard
  # how often
  warnings_to_tilt: 2 # be kind
event_player:
  s_a_active: # some
    - a1 # one
    # two comes next
    - a2
    - a3|2s  # late
  s_b_active: [b1,
     b2, # the second
     b3]
coil_player:
  # kicks
  a1:
    c_a: # short
      # in ms
      pulse_ms: 8 # eight
  a2:
    c_hold:
      action: enable # holds
# the end
"""
MORE = """#config_version=6
# all further switches

# of the upper playfield
switches:
  # another
  s_more:
    number: 4
    label: |
      # in a text
"""
BASE = """#config_version=6
# the base mode
mode:
  # when a ball starts
  start_events: ball_started # yes
  # code: x

timers:
  t: # ten seconds
    end_value: 10
    control_events:
      # a hit
      - event: s_a_active # a
        action: add   # more
        # seconds
        value: 5
        # inside
      # below
      - event: s_b_active
        action: restart
shot_profiles:
  p:
    states:
      # the first
      - name: unlit  # dark
        show: off # is left out
      - name: lit
"""
NEW_MACHINE = """#config_version=6
# A machine of mine,
# in two lines.

# the modes
modes:  # in this order
  - base  # the first
  - s_a_active_after_2000ms

game:

#--- the cabinet ---
switches:  # all of them
  # the start button
  s_start:  # red
    number: 1
    tags: start
  s_a:
    # where it is
    number: 2  # board 0
    tags:  # two of them
      - lane  # the lane
      # on the playfield
      - playfield_active
    # type: NC
  # s_gone:
  #   number: 9
  s_b:  # in the middle
    number: 3
    tags: tilt_warning
    label: 'a # in quotes'  # a label
  # all further switches
  # of the upper playfield
  # another
  s_more:
    number: 4
    label: '# in a text'

# in the first column
coils:
  c_a:
    # measured
    # config/config.yaml:40: pulse_ms: 20
    default_pulse_ms: 20  # not more
  # holds the gate
  c_hold:
    number: 2
    default_hold_power: 0.25

shot_profiles:
  # the bank
  # config/config.yaml:52: drop targets
  adopted_drop_target:
    states:
      - name: up
      - name: down

shots:
  # the upper one
  # reset_coil: strong
  # config/config.yaml:52: a drop target
  drop_target_one:
    switch: s_a  # behind it
    profile: adopted_drop_target
    reset_events: ball_starting

event_player:
  # config/config.yaml:52: the event that MPF posts for one
  drop_target_one_up_hit: drop_target_one_down
  # a3|2s: late
  s_a_active:  # some
    - a1  # one
    # two comes next
    - a2
  # config/config.yaml:59: a3 2s after s_a_active
  timer_s_a_active_after_2000ms_complete: a3
  # the second
  s_b_active: b1, b2, b3

counters:
  # warnings_to_tilt: how often
  # warnings_to_tilt: be kind
  # config/config.yaml:55: counts the warnings of a ball
  tilt_warnings:  # hard
    count_events: sw_tilt_warning
    multiple_hit_window: 300ms
    count_complete_value: 2
    events_when_hit: tilt_warning
    events_when_complete: tilt
    restart_events: ball_started

coil_player:
  # kicks
  a1:
    c_a:  # short
      action: pulse
      # in ms
      pulse_ms: 8  # eight
  # action: holds
  a2:
    c_hold: enable
  # config/config.yaml:52: raises one
  ball_starting:
    c_a: pulse
# the end
"""
NEW_BASE = """#config_version=6
# the base mode

mode:
  # when a ball starts
  start_events: ball_started  # yes
  # code: x

timers:
  t:  # ten seconds
    end_value: 10
    control_events:
      # a hit
      - event: s_a_active  # a
        action: add  # more
        # seconds
        value: 5
        # inside
      # below
      - event: s_b_active
        action: restart

shot_profiles:
  p:
    states:
      # the first
      - name: unlit  # dark
      - name: lit
"""


def adopted_text(machine: str, **others: str) -> run.Adopted:
    """What comes of a folder with a text of the machine, and others: `more` is included, and `base` is a mode."""
    names = {"more": "config/more.yaml", "base": "modes/base/config/base.yaml"}
    with tempfile.TemporaryDirectory() as room:
        files = {"config/config.yaml": machine, **{names[it]: text for it, text in others.items()}}
        return run.adopt(PROGRAM, written(files, Path(room)))


@test
def comments_stay_with_what_they_belong_to() -> None:
    for end in "\n", "\r\n":
        files = adopted_text(MACHINE.replace("\n", end), more=MORE, base=BASE).files
        assert files["config/config.yaml"] == NEW_MACHINE, files["config/config.yaml"]
        assert files["modes/base/config/base.yaml"] == NEW_BASE, files["modes/base/config/base.yaml"]


@test
def a_comment_right_above_a_section_is_no_head() -> None:
    text = adopted_text("#config_version=6\n\n# the coils\ncoils:\n  c_a: {number: 1}\n").files["config/config.yaml"]
    assert text.endswith("\n\n# the coils\ncoils:\n  c_a:\n    number: 1\n"), text
    text = adopted_text("#config_version=6\n\n# the lights\nlights:\n  l_1: {number: 1}\n").files["config/config.yaml"]
    assert text == "#config_version=6\n", text


@test
def comments_that_are_too_long_take_no_rule_with_them() -> None:
    comments = ("# " + "x" * 998 + "\n") * 1_030
    made = adopted_text(f"#config_version=6\nconfig: more.yaml\nevent_player:\n{comments}  a: b\n",
                        more=f"#config_version=6\nevent_player:\n{comments[: 20 * 1_001]}  c: d\n")
    assert "  a: b\n  c: d\n" in made.files["config/config.yaml"]
    assert [it.says for it in made.context.done if it.feature == "comments"] == ["left out: the texts are too long"]


# the comments of what is rewritten


PLACE = re.compile(r"#.*[\w./-]+\.yaml:\d+: ", re.I)
OWN_WORDS = {"pulse", "action", "name"}  # that a value may have here, and need not have in MPF


def words_in(node: outline.Node) -> Iterator[str]:
    """The words of a value and the keys in it, at any depth."""
    waiting = [node]
    while waiting:
        one = waiting.pop()
        for text in (one.text, *(it.key for it in one.entries or [])):
            yield from re.findall(r"[^\s,\[\]'\"]+", re.sub(r"\s*([=!<>]=|[<>])\s*", r"\1", text))
        waiting += [it.value for it in one.entries or []] + (one.items or [])


def words_before(made: run.Adopted) -> dict[str, set[str]]:
    """What each section and each entry of the MPF folder has in it, by its name without blanks."""
    found: dict[str, set[str]] = {}
    for file in made.context.source.files:
        for entry in outline.entries(file.root):
            if len(entry.path) < 3:
                found.setdefault(re.sub(r"\s", "", entry.key), set()).update(words_in(entry.value))
    return found


def with_places(lines: list[str]) -> set[int]:
    """The lines with a comment that has a line of the MPF folder, behind them or right above, or above some at once."""
    found, is_said, rest, depth = set[int](), False, 0, 0
    for at, line in enumerate(lines):
        if line.lstrip().startswith("#"):
            is_said |= bool(PLACE.search(line))
            if count := re.search(r" \((\d+) entries\)$", line):
                rest, depth = int(count[1]), len(line) - len(line.lstrip())
        elif line.strip():
            is_one = rest > 0 and len(line) - len(line.lstrip()) == depth
            found |= {at} if is_said or is_one or PLACE.search(line) else set()
            rest, is_said = rest - is_one, False
    return found


def without_place(made: run.Adopted) -> Iterator[str]:
    """The settings and entries that are not as in the MPF folder, and have no comment with its line."""
    before = words_before(made)
    for name, text in made.files.items():
        lines = text.split("\n")
        mode = name.split("/")[1] if name.startswith("modes/") else ""
        if not name.endswith(".yaml") or mode in made.context.draft.helpers:
            continue
        said = with_places(lines)
        for entry in outline.entries(outline.read(lines)):
            path = {it.line for it in (*entry.path, entry)} | {it.line for it in entry.value.entries or []}
            if path & said or not entry.path or len(entry.path) == 1 and entry.value.entries:
                continue
            key = (entry.path[0] if entry.path[0].key in SINGLE else (*entry.path, entry)[1]).key
            words = {*words_in(entry.value), *(it.key for it in (*entry.path, entry)[2:])}
            if not words <= before.get(re.sub(r"\s", "", key), set()) | OWN_WORDS:
                yield f"{name}:{entry.line + 1} {lines[entry.line].strip()}"


@test
def what_is_rewritten_has_a_comment_with_its_line() -> None:
    for folder in (*MACHINES, REWRITES):
        assert not (wrong := [*without_place(adopted(folder))]), f"{folder.name}: {wrong}"


@test
def each_mode_of_its_own_says_what_it_is_for() -> None:
    for folder in (*MACHINES, REWRITES):
        made = adopted(folder)
        for mode in made.context.draft.helpers:
            head = made.files[f"modes/{mode}/config/{mode}.yaml"].split("\n")[1]
            assert PLACE.search(head) or mode in ("adopted_delays", "adopted_extra_balls"), (folder.name, head)
