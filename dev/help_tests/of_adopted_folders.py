"""`pinball-help adopt`: how it writes a folder, also for a second time, and what it does at the limits."""
import re
import tempfile
from pathlib import Path
from typing import Callable

from help_tests.adopted import MACHINES, adopted, written
from help_tests.common import PROGRAM, test
from help_tests.of_adopted_coils import driven_more
from pinball_help.adopt import report, run
from pinball_help.adopt.features import LOST, UNSEEN, WEAKENED


@test
def a_change_of_a_builder_is_not_overwritten() -> None:
    made = adopted(MACHINES[2])
    with tempfile.TemporaryDirectory() as room:
        new = Path(room) / "new"
        assert run.write(made, new, force=False) == [] == run.write(made, new, force=False)
        for name in "config/config.yaml", "modes/em_game/config/em_game.yaml", report.NAME:
            text, before = new / name, (new / name).read_text()
            text.write_text("# mine\n" + before)
            differs = run.write(made, new, force=False)
            assert differs[0] == f"--- {name} as it is" and "-# mine" in differs, differs
            assert text.read_text().startswith("# mine\n")
            assert run.write(made, new, force=True) == [] and text.read_text() == before
        text.write_text(before + "mine\n")
        (new / "config/config.yaml").unlink()
        assert run.write(made, new, force=False) == ["--- config/config.yaml is gone, and adopt would write it again"]


@test
def a_folder_is_adopted_again_after_it_changed() -> None:
    def make(machine: str, **modes: str) -> run.Adopted:
        texts = {f"modes/{it}/config/{it}.yaml": f"#config_version=6\n{text}" for it, text in modes.items()}
        text = f"#config_version=6\nmodes: {', '.join(modes)}\n{machine}"
        return run.adopt(PROGRAM, written({"config/config.yaml": text, **texts}, folder))

    with tempfile.TemporaryDirectory() as room:
        folder, new = Path(room) / "mpf", Path(room) / "new"
        assert run.write(make("event_player: {a: b}\n", base="event_player: {c: d}\n", old=""), new, False) == []
        (new / "notes").write_text("mine")
        second = make("event_player: {a: b2|1s}\n", base="event_player: {c: d2}\n", young="event_player: {e: f}\n")
        assert run.write(second, new, False) == []
        there = {str(it.relative_to(new)) for it in new.glob("**/*") if it.is_file()}
        assert there == {*second.files, "notes"} and PROGRAM.check(new).accepted, there
        (new / "modes/base/config/base.yaml").write_text("#config_version=6\nevent_player: {c: mine}\n")
        third = make("event_player: {a: b3}\n", base="event_player: {c: d3}\n")
        assert "-event_player: {c: mine}" in run.write(third, new, False)
        assert "b3" not in (new / "config/config.yaml").read_text() and (new / "modes/young/config/young.yaml").exists()
        assert run.write(third, new, True) == [] and PROGRAM.check(new).accepted
        assert not (new / "modes/young/config/young.yaml").exists() and (new / "notes").read_text() == "mine"


def refusal(function: Callable[[], object]) -> str:
    try:
        function()
    except ValueError as error:
        return str(error)
    return ""


@test
def no_folder_of_somebody_else_is_changed() -> None:
    made = adopted(MACHINES[2])
    with tempfile.TemporaryDirectory() as name:
        room = Path(name)
        (room / "other").mkdir()
        (room / "other/mine").write_text("x")
        assert "not by adopt" in refusal(lambda: run.write(made, room / "other", force=True))
        folder = written({"config/config.yaml": "#config_version=6\nevent_player: {a: b|1s}\n"}, room / "mpf")
        mine = run.adopt(PROGRAM, folder)
        assert run.write(mine, room / "new", force=False) == []
        (room / "new/config/config.yaml").unlink()
        (room / "new/config").rmdir()
        (room / "new/config").symlink_to(room / "mpf/config")
        assert "in the MPF folder, by a link" in refusal(lambda: run.write(mine, room / "new", force=True))
        assert (folder / "config/config.yaml").read_text().endswith("{a: b|1s}\n")


@test
def what_is_left_out_is_printed() -> None:
    made = adopted(MACHINES[0])
    said = run.shown(made, Path("new"))
    for it in made.context.done:
        if it.effect in (LOST, WEAKENED, UNSEEN):
            assert any(report.shown(it) in line for line in said), it
    assert said[0] == "Lost. These rules are gone, or never run." and said[-1].startswith("new/ADOPTED.md "), said


@test
def what_is_lost_is_shown_as_it_is_written() -> None:
    tutorial, slips = (" ".join(adopted(it).files[report.NAME].split()) for it in (MACHINES[0], MACHINES[3]))
    assert "- config/config.yaml:182: `jam_switch: s_trough_jam`" in tutorial
    unknown = "nothing defines `c_trouhg`, or it may not be used so (near it: `c_trough`)"
    for said in ("config.yaml:16: `tpye: NC`: `tpye` (near it: `type`)", "config.yaml:32-33: `coil`: `coil` (near it: ",
                 f"config.yaml:51: `eject_coil: c_trouhg`: {unknown}"):
        assert said in slips, (said, slips)


# limits


def with_modes(count: int) -> run.Adopted:
    """What comes of a machine with so many modes, each with delays, and with rewrites that need modes of their own."""
    delays = "".join(f"  e_{it}: f_{it}|{it}s\n" for it in range(1, 9))
    machine = (
        f"modes:\n{''.join(f'  - m_{it}{chr(10)}' for it in range(count))}switches:\n  s_a: {{number: 1}}\n"
        f"  s_b: {{number: 2}}\ncoils:\n  c: {{number: 1, default_hold_power: 0.25}}\nevent_player:\n{delays}"
        f"  ball_started: g|1s\ndiverters:\n  d: {{activation_coil: c, activate_events: x, activation_time: 1s}}\n"
        f"combo_switches:\n  k: {{switches_1: s_a, switches_2: s_b}}\n"
    )
    mode = "#config_version=6\nmode: {start_events: s_b_active|1s}\nevent_player: {a: b|1s}\n"
    texts = {f"modes/m_{it}/config/m_{it}.yaml": mode for it in range(count)}
    with tempfile.TemporaryDirectory() as room:
        files = {"config/config.yaml": f"#config_version=6\n{machine}", **texts}
        return run.adopt(PROGRAM, written(files, Path(room)))


@test
def the_limit_of_modes_is_met_or_said() -> None:
    for count, lost, weakened in (40, 0, 0), (56, 0, 8), (62, 1, 8), (64, 11, 0), (66, 11, 0):
        made = with_modes(count)
        modes = made.context.draft.modes
        assert made.answer.accepted and len(modes) <= 64, (count, modes)
        places = {effect: {it.place.line for it in made.context.done if it.effect == effect and it.feature == name
                           and it.place.file == "config/config.yaml" and it.place.line > count + 2}
                  for effect, name in ((LOST, "too many"), (WEAKENED, "a: b|2s"))}
        assert (len(places[LOST]), len(places[WEAKENED])) == (lost, weakened), (count, places)
        left = [f"m_{it}" for it in range(64, count)]
        assert [it.says for it in made.context.done if "the mode `m_" in it.says and it.feature == "too many"
                and it.place.file == "config/config.yaml"] == [f"the mode `{it}`" for it in left]


@test
def what_is_above_a_limit_of_the_plan_is_said() -> None:
    text = "#config_version=6\ncoils:\n" + "".join(f"  c_{it}: {{number: {it}}}\n" for it in range(300))
    text += "event_player:\n" + "".join(f"  e_{it}: f_{it}|2s\n" for it in range(700))
    with tempfile.TemporaryDirectory() as room:
        made = run.adopt(PROGRAM, written({"config/config.yaml": text}, Path(room)))
    assert made.answer.accepted and len(made.context.draft.texts[""]["coils"]) == 256
    lost = {it.place.line for it in made.context.done if it.effect == LOST and it.feature == "too many"}
    kept = len(made.context.draft.texts[""]["event_player"])
    # (on a slow computer larger parts are left out at once, and some that stay are said to be lost)
    assert lost >= {*range(259, 303)} and kept > 300 and kept >= 700 + 44 - len(lost), (len(lost), kept)


@test
def long_names_are_met_or_said() -> None:
    for length in 34, 52, 58, 64:
        text = re.sub(r"<(\w+)>", lambda found: (found[1] + "_" + "n" * 64)[:length], LONG)
        with tempfile.TemporaryDirectory() as room:
            made = run.adopt(PROGRAM, written({"config/config.yaml": text}, Path(room)))
        assert made.answer.accepted and not driven_more(made), length
        said = {it.feature for it in made.context.done if it.effect == LOST}
        assert said <= SAID_OF_NAMES, (length, said)
        assert length > 34 or not said, said


SAID_OF_NAMES = {"bad name", "sequence_shots", "ball_holds", "refused", "other conditions",
                 "events of what is left out"}
LONG = """#config_version=6
switches:
  s_start: {number: 1, tags: start}
  <a>: {number: 2, tags: <tag>}
  <b>: {number: 3}
  s_trough: {number: 4}
  s_hole: {number: 5}
  s_plunger: {number: 6}
coils:
  <c>: {number: 1, default_hold_power: 0.25}
  <d>: {number: 2}
ball_devices:
  bd_trough: {ball_switches: s_trough, eject_coil: <d>, eject_targets: <plunger>, tags: trough}
  <plunger>: {ball_switches: s_plunger, eject_coil: <d>, player_controlled_eject_event: <e1>}
  <hole>: {ball_switches: s_hole, eject_coil: <d>}
ball_holds:
  <hold>: {hold_devices: <hole>, enable_events: <e1>, disable_events: <e2>, release_one_events: <e3>}
ball_saves:
  <save>: {active_time: 5s, enable_events: ball_started, timer_start_events: <e1>, auto_launch: yes}
multiballs:
  <multiball>: {ball_count: 2, start_events: <e1>}
drop_targets:
  <one>: {switch: <a>, reset_coil: <d>}
  <two>: {switch: <b>, reset_coil: <d>, reset_events: <e1>}
drop_target_banks:
  <bank>: {drop_targets: '<one>, <two>', reset_on_complete: 1s}
diverters:
  <way>: {activation_coil: <c>, activate_events: <e1>, activation_switches: <a>, enable_events: <e2>}
kickbacks:
  <kick>: {coil: <d>, switch: <b>}
spinners:
  <spin>: {switch: <a>, idle_ms: 1s}
combo_switches:
  <both>: {switches_1: <a>, switches_2: <b>, max_offset_time: 1s, hold_time: 1s}
timed_switches:
  <held>: {switches: <a>, time: 1s}
sequence_shots:
  <shot>: {switch_sequence: '<a>, <b>', sequence_timeout: 1s}
extra_balls:
  <extra>: {award_events: <e1>, max_per_game: 1}
  <lit>: {light_events: <e2>, group: <group>}
extra_ball_groups:
  <group>: {award_lit_events: <e3>}
player_vars:
  <v>: {initial_value: 3}
state_machines:
  <quest>:
    states: {start: {label: x}, <end>: {events_when_started: <e1>}}
    transitions:
      - {source: start, target: <end>, events: <e2>}
random_event_player:
  <e4>: {events: [<e5>, <e6>]}
event_player:
  <e7>: <e8>|2s
  <e9>{current_player.<v> == 1 and current_player.<w> == 2}: <e10>
  sw_<tag>_inactive: <e11>{current_player.<v> == 1}, <e12>
coil_player:
  <e13>|1s: {<d>: {pulse_ms: 5}}
variable_player:
  <e14>: {<v>: 1, score: 100 * current_player.<v>}
shots:
  <sh>: {switches: '<a>, <b>', start_enabled: no}
counters:
  <n>: {count_events: <e15>, events_when_complete: '<e16>, <e17>|1s', player_variable: <hits>}
"""
