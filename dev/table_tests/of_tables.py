"""Tests of the machine that is read, of `table.yaml`, and of the simulated table."""
import random
import re

from pinball_table import layout
from pinball_table.machine import read_machine
from pinball_table.monitor import Monitor
from pinball_table.platforms import Command
from pinball_table.settings import FILE, SECTIONS, BadSetting, Chances, Settings, Times, read_settings
from pinball_table.smart_table import PlainTable, SmartTable

from .harness import COMPLETE, EXAMPLES, TOP, equal, folder_of, test

BALLS = """
switches:
  s_trough_1: {number: 1}
  s_trough_2: {number: 2}
  s_trough_3: {number: 3}
  s_plunger: {number: 4}
  s_hit: {number: 5, type: NC}
  s_drop_1: {number: 6}
coils:
  c_trough: {number: 1}
  c_plunger: {number: 2}
  c_up: {number: 3}
ball_devices:
  trough:
    ball_switches: s_trough_1, s_trough_2, s_trough_3
    eject_coil: c_trough
    eject_targets: plunger
    tags: trough, drain
  plunger: {ball_switches: s_plunger, mechanical_eject: yes}
"""
PULSE = {coil: Command(coil, "pulse", 10, 1000) for coil in ("c_trough", "c_plunger", "c_up")}


def settings_of(text: str = "", table: str = "") -> Settings:
    with folder_of(BALLS + text, table=table) as folder:
        return read_settings(read_machine(folder))


def table_of(text: str = "", table: str = "") -> SmartTable:
    made = SmartTable(settings_of(text, table))
    made.fill()
    return made


def run(table: SmartTable, moment: int) -> list[str]:
    """The changes up to a moment, as words."""
    found = []
    while change := table.coming(moment):
        found.append(f"{change.moment} {change.switch} {int(change.is_active)}")
    return found


# what is read


@test
def each_example_is_read_without_a_table_yaml() -> None:
    for folder in EXAMPLES:
        machine = read_machine(folder)
        assert machine.switches and not (folder / FILE).exists()
        assert isinstance(SmartTable(read_settings(machine)), SmartTable)
        Monitor(machine)


@test
def a_mode_has_the_priority_that_is_written() -> None:
    modes = {"a": "mode: {priority: 0}", "b": "mode: {game_mode: no}", "c": ""}
    with folder_of("modes: a, b, c, d", modes) as folder:
        equal(read_machine(folder).modes, {"a": 0, "b": 100, "c": 100, "d": 100})


@test
def the_drop_targets_of_the_examples_are_found() -> None:
    drops = tuple(f"s_drop_{it}" for it in range(1, 5))
    equal(read_machine(TOP / "examples/targets").raised, {"c_raise": drops})
    equal(read_machine(COMPLETE).raised, {"c_raise": drops[:3]})
    equal(read_machine(TOP / "examples/flippers").raised, {})


@test
def keys_are_those_of_the_flippers_the_start_button_the_plunger_and_the_drain() -> None:
    equal(read_settings(read_machine(COMPLETE)).keys,
          {"z": "s_left_button", "/": "s_right_button", "s": "s_start", "d": "drain"})
    equal(settings_of().keys, {"Space": "plunge", "d": "drain"})
    equal(settings_of(table="keys: {z: s_hit, Space: step}").keys, {"Space": "step", "d": "drain", "z": "s_hit"})


@test
def a_machine_for_mpf_may_say_what_is_active_at_first() -> None:
    table = table_of("virtual_platform_start_active_switches: s_trough_1, s_hit, s_nope")
    equal(run(table, 0), ["0 s_trough_1 1", "0 s_hit 1"])


@test
def a_folder_by_pinball_help_is_read() -> None:
    assert read_machine(TOP / "tools/pinball_help/planted").switches


# table.yaml


@test
def each_setting_is_read() -> None:
    table = """
# about the table
balls: 2
seed: 7
times: {tap: 50ms, leave: 30, roll: 0.5s, fly: 1s, fall: 200ms, drain: 1s, rise: 1}
chances: {eject_fails: 10%, eject_bounces: 0.05}
devices:
  trough: {roll: 700ms, eject_fails: 20%}
raises: {c_up: s_drop_1}
kicks: {c_up: plunger}
drain: s_hit
keys: {x: s_hit}
layout:
  s_hit: 12.5, 80
"""
    found = settings_of(table=table)
    equal(set(re.findall(r"^(\w+):", table, re.M)), set(SECTIONS))
    equal((found.balls, found.seed, found.drain), (2, 7, "s_hit"))
    equal(found.times, Times(50, 30, 500, 1000, 200, 1000, 1))
    equal(found.chances, Chances(100, 50))
    equal((found.of("trough", "roll"), found.of("trough", "eject_fails"), found.of("trough", "leave")), (700, 200, 30))
    equal((found.of("plunger", "roll"), found.of("plunger", "eject_fails")), (500, 100))
    equal((found.raises, found.kicks["c_up"]), ({"c_up": ("s_drop_1",)}, "plunger"))
    equal((found.keys["x"], found.layout), ("s_hit", {"s_hit": (12.5, 80.0)}))


@test
def a_bad_setting_is_reported_with_its_line() -> None:
    for text, words in (
        ("ball: 2", "1: there is no setting `ball`"),
        ("\nballs: two", "2: `two` is not a whole number"),
        ("times:\n  driain: 3", "2: there is no setting `driain`: near it is `drain`"),
        ("times:\n  tap: 0", "2: `0` is not a time above 0"),
        ("times: 3", "1: `times` has no entries below it"),
        ("chances:\n  eject_fails: 101%", "2: `101%` is not a chance"),
        ("devices:\n  plunger:\n    drain: 2s", "3: there is no setting `drain`"),
        ("devices:\n  plungr: {}", "2: there is no ball device `plungr`: near it is `plunger`"),
        ("raises:\n  c_up: s_drop_2", "2: there is no switch `s_drop_2`"),
        ("raises:\n  c_down: s_drop_1", "2: there is no coil `c_down`"),
        ("kicks:\n  c_up: s_hit", "2: there is no ball device `s_hit`"),
        ("drain: gutter", "1: there is no ball device or switch `gutter`"),
        ("keys:\n  a: jump", "2: there is no switch or action `jump`"),
        ("layout:\n  s_hit: 12", "2: a place is two numbers"),
        ("layout:\n  s_hit: 12, 101", "2: a place is two numbers"),
    ):
        try:
            settings_of(table=text)
        except BadSetting as error:
            assert f"{FILE}:{words}" in str(error), error
        else:
            raise AssertionError(f"{text!r} is accepted")


@test
def a_place_is_written_and_comments_stay() -> None:
    places = {"s_hit": (3.5, 99.0), "c_up": (0.0, 100.0)}
    for before in (
        "", "# mine\n", "balls: 2 # two\n", "layout:\n", "layout:\n  s_hit: 1, 2 # here\n# end\n",
        "layout: {s_hit: \"1, 2\", s_drop_1: \"3, 4\"} # all\nballs: 1\n",
        "layout:\r\n    s_drop_1: 3, 4\r\nballs: 1\r\n",
        "layout:\n  s_drop_1: [3, 4]\n  s_hit:\nballs: 1 # one", "layout:\n  s_hit: 1, 2\n  c_up: 3, 4",
    ):
        with folder_of(BALLS, table=before) as folder:
            settings = Settings(read_machine(folder))
            for name, place in places.items():
                layout.place(settings, name, *place)
            after = (folder / FILE).read_bytes().decode()
            found = read_settings(settings.machine)
            equal({it: found.layout[it] for it in places}, places)
            equal(re.findall(r"#.*", after), re.findall(r"#.*", before.replace("\r", "")))
            equal(found.balls is not None, "balls" in before)
            equal("s_drop_1" in found.layout, "s_drop_1" in before)
            equal("\r\n" in after, "\r\n" in before)
            equal([it.name for it in folder.iterdir() if it.name.startswith(".")], [])


@test
def a_place_that_cannot_be_written_changes_nothing() -> None:
    for before in ("layout: {}\n", "layout: 3\n", "balls: x\n"):
        with folder_of(BALLS, table=before) as folder:
            settings = Settings(read_machine(folder))
            for name, x, y in ("s_hit", 1, 2), ("s_nope", 1, 2), ("s_hit", -1, 2), ("s_hit", 1, 101):
                try:
                    layout.place(settings, name, x, y)
                except BadSetting:
                    equal((folder / FILE).read_text(), before)
                else:
                    assert (name, x, before) == ("s_hit", 1, "layout: {}\n"), (folder / FILE).read_text()


# the simulated table


@test
def a_ball_goes_from_the_trough_to_the_plunger_and_to_the_playfield() -> None:
    table = table_of()
    equal(run(table, 0), ["0 s_trough_1 1", "0 s_trough_2 1", "0 s_trough_3 1"])
    table.coil(PULSE["c_trough"], 100)
    equal(run(table, 2000), ["140 s_trough_3 0", "740 s_plunger 1"])
    assert table.plunge(3000) and not table.plunge(3000)
    equal((table.loose, table.flying), (0, 1))
    equal(run(table, 5000), ["3040 s_plunger 0"])
    equal((table.loose, table.flying), (1, 0))
    assert table.drain(5000) and not table.drain(5000)
    equal(run(table, 6000), ["5400 s_trough_3 1"])
    equal((table.loose, table.flying), (0, 0))


@test
def a_ball_waits_before_a_device_that_is_full() -> None:
    table = table_of()
    run(table, 0)
    table.coil(PULSE["c_trough"], 0)
    run(table, 1000)
    table.coil(PULSE["c_trough"], 1000)
    equal(run(table, 4000), ["1040 s_trough_2 0"])
    assert table.plunge(4000)
    equal(run(table, 5000), ["4040 s_plunger 0", "4640 s_plunger 1"])
    equal(table.loose + table.flying + len(table.active), 3)


@test
def a_pulse_that_comes_while_a_ball_leaves_ejects_the_next_one() -> None:
    table = table_of()
    run(table, 0)
    table.coil(PULSE["c_trough"], 100)
    table.coil(PULSE["c_trough"], 110)
    equal(run(table, 200), ["140 s_trough_3 0", "150 s_trough_2 0"])


@test
def a_coil_of_the_name_of_a_plunger_kicks_it() -> None:
    table = table_of()
    table.move_by_hand("s_plunger", 0)
    run(table, 0)
    table.coil(PULSE["c_plunger"], 0)
    equal(run(table, 2000), ["40 s_plunger 0"])
    equal(table.loose, 1)


@test
def a_lock_keeps_a_ball_until_its_coil_kicks_it() -> None:
    table = table_of("  lock: {ball_switches: s_hit, eject_coil: c_up, eject_targets: plunger}")
    run(table, 0)
    table.coil(PULSE["c_trough"], 0)
    run(table, 1000)
    table.plunge(1000)
    run(table, 2000)
    equal(table.loose, 1)
    table.tap("s_hit", 2000)
    equal((run(table, 5000), table.loose, table.flying), (["2000 s_hit 1"], 0, 0))
    table.coil(PULSE["c_up"], 5000)
    equal(run(table, 6000), ["5040 s_hit 0", "5640 s_plunger 1"])


@test
def drop_targets_stay_down_until_their_coil_raises_them() -> None:
    table = table_of(table="raises: {c_up: s_drop_1}")
    run(table, 0)
    table.tap("s_drop_1", 10)
    table.tap("s_hit", 20)
    equal(run(table, 500), ["10 s_drop_1 1", "20 s_hit 1", "80 s_hit 0"])
    table.coil(PULSE["c_up"], 500)
    equal(run(table, 600), ["540 s_drop_1 0"])


@test
def a_click_on_a_place_moves_a_ball_by_hand() -> None:
    table = table_of()
    run(table, 0)
    table.tap("s_trough_2", 10)
    equal((run(table, 20), table.loose), (["10 s_trough_2 0"], 1))
    table.tap("s_plunger", 30)
    equal((run(table, 40), table.loose), (["30 s_plunger 1"], 0))


@test
def chance_comes_from_the_seed_alone() -> None:
    def fates(seed: int) -> list[list[str]]:
        found = []
        table = table_of(table=f"seed: {seed}\nchances: {{eject_fails: 30%, eject_bounces: 30%}}")
        run(table, 0)
        for turn in range(30):
            table.coil(PULSE["c_trough"], turn * 10_000)
            table.plunge(turn * 10_000 + 3000)
            table.drain(turn * 10_000 + 6000)
            found.append([re.sub(r"^\d+ ", "", it) for it in run(table, turn * 10_000 + 9_999)])
        equal(table.loose + table.flying + len(table.active), 3)
        return found

    equal(fates(1), fates(1))
    assert fates(1) != fates(2)
    kinds = {len(it) for it in fates(1)}
    assert len(kinds) > 2, kinds
    fails = sum(not it for it in fates(3))
    assert 0 < fails < 30


@test
def balls_are_kept_whatever_happens() -> None:
    for seed in range(30):
        drawn = random.Random(seed)
        table = table_of(table="chances: {eject_fails: 20%, eject_bounces: 20%}\nraises: {c_up: s_drop_1}")
        run(table, 0)
        for turn in range(200):
            now = turn * drawn.choice((10, 100, 1000))
            act = drawn.choice(("coil", "coil", "plunge", "drain", "keep"))
            if act == "coil":
                table.coil(drawn.choice(list(PULSE.values())), now)
            elif act == "keep":
                kept = table.state()
                run(table, now)
                table.restore(kept)
                equal(table.state(), kept)
            else:
                getattr(table, act)(now)
            run(table, now)
            lying = sum(it in table.places for it in table.active)
            equal(table.loose + table.flying + lying, 3 + leaving(table))


def leaving(table: SmartTable) -> int:
    """Balls that are counted twice for a moment: they are on their way, and their switch is still active."""
    opening = {it[1] for _, _, it in table.plan if it[0] == "set" and not it[2]} & table.active & table.places.keys()
    closing = {it[1] for _, _, it in table.plan if it[0] == "set" and it[2]} - table.active
    return len(opening) - len(closing & table.places.keys())


@test
def a_plain_table_has_nothing_behind_its_switches() -> None:
    table = PlainTable(settings_of())
    table.fill()
    table.tap("s_trough_1", 0)
    table.coil(PULSE["c_trough"], 10)
    equal(run(table, 1000), ["0 s_trough_1 1", "60 s_trough_1 0"])
