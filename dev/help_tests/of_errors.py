"""What `errors` finds: nothing is lost, nothing is false, and a cure means the same or says that it does not.

Alone, `python3 dev/help_tests/of_errors.py PROGRAM [COUNT] [SEED]` tries so many pairs of slips, else all of them."""
import io
import json
import os
import random
import re
import resource
import subprocess
import sys
from contextlib import redirect_stdout
from functools import cache
from itertools import permutations
from pathlib import Path
from unittest.mock import patch

if __name__ == "__main__":
    sys.dont_write_bytecode = True
    sys.path[:0] = [str(Path(__file__).resolve().parents[2] / it) for it in ("tools", "dev")]

from help_tests.common import IS_UNPROVED, PROGRAM, TOP, NotTried, takes_longer, test
from help_tests.slips import SLIPS, Slip, planted
from pinball_help import command, errors, short
from pinball_help.findings import Finding
from pinball_help.mending import cut
from pinball_help.texts import MACHINE, Line, Texts, folder_of, mode_text, plain

MACHINES = TOP / "tools/pinball_help/machines"
NAMES = ("tutorial", "modern", "em", "slips")
DRAWN = 60  # pairs of slips
# pairs, by their places in SLIPS, of which one has a tab or a wrong column that makes the other one hard to tell
COLUMNS = ((0, 4), (0, 5), (0, 29), (3, 4), (4, 5), (5, 4), (5, 29), (22, 4))
Pair = tuple[Slip, Slip | None, bool]


def texts_of(machine: str, mode: str = "") -> Texts:
    """The texts of a machine with these sections; of a mode `m` too, if `mode` is given."""
    texts = {MACHINE: machine} | ({mode_text("m"): mode} if mode else {})
    return {
        name: [Line(at, line) for at, line in enumerate(["#config_version=6", *text.strip("\n").split("\n")], 1)]
        for name, text in texts.items()
    }


def search(texts: Texts) -> errors.Report:
    with folder_of(texts) as folder:
        return errors.search(PROGRAM, folder)


def findings(machine: str, mode: str = "") -> list[Finding]:
    return [it for it in search(texts_of(machine, mode)).findings if not it.follows]


def named(said: str) -> str:
    """What an error is, without what kind of fault of YAML it is."""
    return re.sub(r"(Yaml \S+ \d+) .*", r"\1", said)


@cache
def report_of(name: str) -> errors.Report:
    return errors.search(PROGRAM, MACHINES / name)


# nothing is lost


@test
def each_mistake_of_the_four_machines_is_found_and_no_other() -> None:
    for name in NAMES:
        report = report_of(name)
        found = [named(it.said) for it in report.findings if not it.follows]
        wanted = [named(it) for it in (MACHINES / name / "wrong").read_text().split("\n")[:-1]]
        assert sorted(found) == sorted(wanted), (name, {*found} ^ {*wanted})
        assert report.answer and report.answer.accepted, name


def fails(pair: Pair) -> str:
    """What is wrong with the answer for two slips in one section, or nothing."""
    lines, wanted = planted(*pair)
    report = search({MACHINE: [Line(at, line) for at, line in enumerate(lines, 1)]})
    found = [(" ".join(it.message.split()[:3]), it.line) for it in report.findings if not it.follows]
    right = sorted(found) == sorted(wanted) and report.answer is not None and report.answer.accepted
    return "" if right else f"{lines} gives {sorted(found)}, and not {wanted}"


def all_pairs() -> list[Pair]:
    return [(one, other, apart) for one, other in permutations(SLIPS, 2) for apart in (True, False)]


@test
def two_slips_in_one_section_are_both_found() -> None:
    assert len(SLIPS) == len({*SLIPS}) == 40
    pairs: list[Pair] = [(slip, None, False) for slip in SLIPS]
    pairs += [(SLIPS[one], SLIPS[other], False) for one, other in COLUMNS]
    for pair in [*pairs, *random.Random(80).sample(all_pairs(), DRAWN)]:
        assert not (said := fails(pair)), said


@test
def two_mistakes_in_one_line_are_both_found() -> None:
    text = "coils:\n  c:\nshots:\n  s: {proflie: target}\ncoil_player:\n  a: {c: {pulse_ms: 80}}"
    found = [named(it.said) for it in findings(text)]
    assert found == [
        "error 5 UnknownSetting config/config.yaml 5 proflie", "fault 1 Name config/config.yaml 5 target",
        "error 7 Missing config/config.yaml 7 action", "fault 2 PulseLimit config/config.yaml 7 c",
    ], found


@test
def a_line_without_a_colon_is_found_at_its_line() -> None:
    """Also if what is before it is left out meanwhile: there it could be the value of its section."""
    texts = {
        "switches:\n  s_before:\n   s_one:\n    number: 1\n  s_two\n    number: 1": [4, 6],
        "switches:\n  s_a:\ncoils\n  c_a:": [4],
        "switches:\n  s_a: {tpye: NC}\ncoils\n  c_a:\n  c_b: }": [3, 4, 6],
    }
    for text, wanted in texts.items():
        report = search(texts_of(text))
        assert [it.line for it in report.findings if not it.follows] == wanted, (text, report.findings)
        assert report.answer and report.answer.accepted, text


@test
def a_line_in_a_wrong_column_is_found_and_no_other() -> None:
    """Also if the line above it is in a wrong column too, or is left out meanwhile."""
    entry = "  s_a:\n    number: 1\n"
    texts = {
        f"{entry} s_b:\n    number: 1\n s_c:\n    number: 1\n  s_d:": ([5, 7], ["  s_b:", "  s_c:"]),
        f"{entry}   s_b:\n    number: 1\n s_c:\n  s_d:": ([5, 7], ["  s_b:", "  s_c:"]),
        f"{entry}\ttype: NC\n s_c:\n  s_d:": ([5, 6], ["    type: NC", "  s_c:"]),
        f"{entry} s_b:\n    tpye: NC\n   label: B\n  s_d:": ([5, 6, 7], ["  s_b:", "    type: NC", "    label: B"]),
    }
    for text, (lines, mended) in texts.items():
        report = search(texts_of(f"switches:\n{text}"))
        assert [it.line for it in report.findings] == lines, (text, report.findings)
        assert {*mended} <= {*plain(report.texts[MACHINE])}, (text, plain(report.texts[MACHINE]))
        assert report.answer and report.answer.accepted, text


@test
def an_item_goes_on_in_the_column_of_its_first_key() -> None:
    text = "shot_profiles:\n  p:\n    states:\n      - name: unlit\n       label: Out\n      - name: lit"
    report = search(texts_of(text))
    assert [it.line for it in report.findings] == [6], report.findings
    assert plain(report.texts[MACHINE])[5] == "        label: Out", plain(report.texts[MACHINE])


@test
def what_is_mended_stays_and_the_smallest_part_is_taken_out() -> None:
    """A coil that is used stays defined, whatever is wrong in it: so there is no finding about its use."""
    use = "coil_player:\n  a: {c_one: pulse, c_two: pulse, c_three: pulse}"
    two = "  c_two:\n    default_pulse_ms: &x 10\n  c_three: {nubmer: 2}"
    coils = f"coils:\n  c_one:\n    number: 1\n    - stray\n{two}"
    report = search(texts_of(f"{coils}\n{use}"))
    assert [it.line for it in report.findings] == [5, 7, 8], report.findings
    kept = [line for line in plain(report.texts[MACHINE])[2:8] if line]
    assert kept == ["  c_one:", "    number: 1", "  c_two:", "    default_pulse_ms: 10", "  c_three: {number: 2}"], kept


@test
def a_search_that_is_cut_short_says_what_comes_first() -> None:
    text = "coils:\n  c: {hold_power: 4}\nshots:\n  s: {proflie: target}"
    with folder_of(texts_of(text)) as folder, redirect_stdout(io.StringIO()) as written:
        words = ["pinball-help", "errors", "--program", PROGRAM.path, "--within", "0", str(folder)]
        with patch.object(sys, "argv", words):
            assert command.main() == 1
    said = written.getvalue()
    assert "There may be others" in said and said.startswith(f"1. {MACHINE}:3: error 5 UnknownSetting"), said


@test
def what_was_found_before_time_ran_out_is_listed() -> None:
    """And the answer says how it gets more time."""
    delays = "".join(f"  e_{at}: x|{at + 1}s\n" for at in range(1_000))
    with folder_of(texts_of(f"event_player:\n{delays}")) as folder, redirect_stdout(io.StringIO()) as written:
        report = errors.search(PROGRAM, folder, within=0.3)
        words = ["pinball-help", "errors", "--program", PROGRAM.path, "--within", "0", str(folder)]
        with patch.object(sys, "argv", words):
            assert command.main() == 1
    assert report.is_cut_short and 5 < len(report.findings) < 1_000, len(report.findings)
    assert "as time ran out" in written.getvalue() and "--within SECONDS" in written.getvalue(), written.getvalue()


@test
def a_tab_is_mended_in_its_own_entry() -> None:
    """So each line with a tab is in one finding, also below another fault of YAML."""
    switches = '  s_a:\n\tnumber: 1\n\ttype: NC\n  s_b:\n    label: "B\n\tnumber: 2\n'
    report = search(texts_of(f"switches:\n{switches}coils:\n\tc_a:\n\t\tnumber: 3\n"))
    changed = {it.line: [(change.line, change.new) for change in it.changes] for it in report.findings}
    assert changed == {
        4: [(4, "    number: 1"), (5, "    type: NC")], 7: [(7, '    label: "B"')], 8: [(8, "    number: 2")],
        10: [(10, "  c_a:"), (11, "    number: 3")],
    }, changed
    assert report.answer and report.answer.accepted, report.findings


# what a cure means

CONDITIONS = {  # a handled event, and what is written in its place; nothing if none means the same
    "player_score{value >= 1000}": ["player_score{current_player.score >= 1000}"],
    "player_score{value == 5 and current_player.x == 2}": [
        "player_score{current_player.score == 5}: player_score_and_2", "player_score_and_2{current_player.x == 2}"],
    "a{current_player.x==1 and current_player.y==2}": [
        "a{current_player.x == 1}: a_and_2", "a_and_2{current_player.y == 2}"],
    "a{current_player.x}": ["a{current_player.x != 0}"],
    "a{not current_player.x}": ["a{current_player.x == 0}"],
    "a{3 <= current_player.x}": ["a{current_player.x >= 3}"],
    "a{current_player.x > 10_000}": ["a{current_player.x > 10000}"],
    "a {current_player.x == 1}": ["a{current_player.x == 1}"],
    "a{known == 1}": ["a{current_player.known == 1}"],
    "ball_started{ball == 1}": ["ball_started{current_player.ball == 1}"],
    "player_score{prev_value < 1000}": [],
    "player_score{change > 100}": [],
    "player_score{value >= 1000 and prev_value < 1000}": [],
    "timer_t_tick{ticks == 3}": [],
    "a{lit == 1}": [],
    "a{value == 1}": [],
    "a{mode.base.active}": [],
    "a{device.counters.laps.value == 3}": [],
    "a{settings.x == 1}": [],
    "a{current_player.x == 1 or current_player.y == 2}": [],
}
KNOWN = "variable_player:\n  z:\n    known: 1\n"


@test
def a_condition_becomes_one_that_means_the_same_or_is_left_out() -> None:
    for event, right in CONDITIONS.items():
        wanted = [*right[:-1], f"{right[-1]}: b"] if right else []
        found = findings(f"{KNOWN}event_player:\n  {event}: b")
        assert len(found) == 1, (event, found)
        assert [it.new.strip() for it in found[0].changes if it.new.strip()] == wanted, (event, found[0].changes)
        assert right or re.search(r"the copy goes on without it", found[0].write, re.I), found[0].write
    written = {event: findings(f"event_player:\n  {event}: b")[0].write for event in CONDITIONS}
    assert "a timer `t_3` with `end_value: 3`" in written["timer_t_tick{ticks == 3}"]
    assert "in the text of the mode `base`" in written["a{mode.base.active}"]


@test
def a_condition_in_a_list_becomes_one_that_means_the_same_or_is_left_out() -> None:
    lists = {
        "a{value == 1}, b": "b",
        "b, player_score{value == 1}": "b, player_score{current_player.score == 1}",
        "[b, 'a{not current_player.x}']": "[b, 'a{current_player.x == 0}']",
        "a{mode.base.active} b": "b",
        "a {current_player.x == 1}": "a{current_player.x == 1}",
        "a{current_player.x == 1 and current_player.y == 2}, b": "a_and_2{current_player.y == 2}, b",
    }
    for value, right in lists.items():
        report = search(texts_of(f"counters:\n  c:\n    count_events: b\n    reset_events: {value}"))
        assert plain(report.texts[MACHINE])[4] == f"    reset_events: {right}", plain(report.texts[MACHINE])
        assert report.answer and report.answer.accepted and len(report.findings) == 1, report.findings
    steps = plain(report.texts[MACHINE])[5:]
    assert steps == ["event_player:", "  a{current_player.x == 1}: a_and_2"], steps


@test
def a_condition_of_a_posted_event_becomes_one_of_the_handled_event() -> None:
    posted = {
        "a: b{current_player.x==1}": ["a{current_player.x == 1}: b"],
        "a: b{current_player.x==1}, c": ["a: c", "a{current_player.x == 1}: b"],
        "a{current_player.y==2}: b{current_player.x==1}": [
            "a{current_player.y == 2}: a_and_2", "a_and_2{current_player.x == 1}: b"],
        "a: b{mode.base.active}": [],
    }
    for entry, wanted in posted.items():
        found = findings(f"event_player:\n  {entry}")
        assert len(found) == 1 and [it.new.strip() for it in found[0].changes if it.new] == wanted, (entry, found)


@test
def a_good_condition_is_not_blamed() -> None:
    found = findings("event_player:\n  a{current_player.lit==1}: b|500ms")
    assert [it.changes[0].new for it in found] == ["  a{current_player.lit==1}: b"], found
    assert found[0].why.startswith("MPF posts the event after a time"), found[0].why


@test
def a_number_from_the_settings_is_not_taken_out_in_silence() -> None:
    text = "counters:\n  c:\n    count_events: a\n    count_complete_value: settings.y"
    found = findings(text)[0]
    assert [it.new.strip() for it in found.changes] == ["count_complete_value: 3"], found.changes
    assert "the one below is an example" in found.write, found.write
    gone = findings("coils:\n  c:\n    allow_enable: maybe")[0].write
    assert gone == "Write `yes` or `no`. The copy goes on without it, so `no` holds.", gone


@test
def an_item_is_taken_out_with_its_comma_or_blanks_and_no_more() -> None:
    for line, right in {
        "x: |a b c": "x: b c", "x: b |a c": "x: b c", "x: b c |a": "x: b c", "x: |a, b": "x: b",
        "x: b, |a, c": "x: b, c", "x: b, |a": "x: b", "x: [|a, b]": "x: [b]", "x: [b, |a]": "x: [b]",
        "x: b |a  # why": "x: b # why", "x: [|a]": "x: []", "x: {a: 1, |k}": "x: {a: 1}",
    }.items():
        at = line.index("|")
        assert cut(line.replace("|", ""), at, at + 1) == right, line


@test
def what_is_said_of_holds_and_waits_is_so() -> None:
    wrote = {it.said.split()[-1]: it.write for it in findings("ball_holds:\n  a: 1\nqueue_relay_player:\n  a: 1")}
    assert "`mechanical_eject: yes`" in wrote["ball_holds"] and "`coil_player`" in wrote["ball_holds"], wrote
    assert "`use_wait_queue: yes`" in wrote["queue_relay_player"], wrote
    mystery = findings("modes: m\ngame:", "mode:\n  start_events: s_hole_active\n  use_wait_queue: yes")[0]
    assert not any("ball_ending" in it.new for it in mystery.changes), mystery.changes


@test
def a_ball_switch_is_taken_out_with_its_blank() -> None:
    for names, left in (("a s_b s_c", "s_b s_c"), ("s_b a s_c", "s_b s_c"), ("s_b, s_c, a", "s_b, s_c")):
        device = f"ball_devices:\n  d:\n    ball_switches: {names}\n    mechanical_eject: yes"
        report = search(texts_of(f"switches:\n  s_b:\n  s_c:\n{device}"))
        assert plain(report.texts[MACHINE])[6] == f"    ball_switches: {left}", plain(report.texts[MACHINE])
        assert report.answer and report.answer.accepted and len(report.findings) == 1, report.findings


HOLD = """switches:
  s_hole:
  s_let_go:
coils:
  c_hole:
ball_devices:
  hole: {ball_switches: s_hole, mechanical_eject: yes}
coil_player:
  s_let_go_active: {c_hole: pulse}"""


@test
def a_device_without_its_coil_holds_a_ball() -> None:
    with folder_of(texts_of(HOLD)) as folder:
        (folder / "log").write_text("100 s_hole 1\n30000 s_let_go 1\n31000 s_hole 0\n40000\n")
        played = PROGRAM.output(["play", str(folder / "log"), str(folder)]).split("\n")
    assert [it for it in played if " coil " in it] == ["30005 machine coil c_hole pulse 10 1000"], played


@test
def each_of_these_gets_an_answer_that_says_what_to_write() -> None:
    coils = "coils:\n  c_kick:\n  c_up:\n"
    answers = {
        "modes:\n  - base\n  -attract": "- attract",
        "switches:\n  s_a: &x\n  s_b:": "s_a:",
        f"{coils}coil_player:\n  a: c_kick": "a: {c_kick: pulse}",
        f"{coils}coil_player:\n  a: [c_kick, c_up]": "a: {c_kick: pulse, c_up: pulse}",
        f"{coils}coil_player:\n  a: {{c_kick: {{pulse_ms: 8}}}}": "a: {c_kick: {action: pulse, pulse_ms: 8}}",
        f"{coils}coil_player:\n  a:\n    c_kick: enabled": "c_kick: enable",
        "variable_player:\n  a: {score: 1,000}": "a: {score: 1000}",
        "coils:\n  a:\ncoil:\n  b:": "b:",
        "shots:\n  s: {switches: [s_a, s_b]}": "s: {hit_events: [s_a_active, s_b_active]}",
        "shots:\n  s: {switch: [s_a, s_b], hit_events: x}": "s: {hit_events: [s_a_active, s_b_active, x]}",
        "shots:\n  s: {hit_events: a{current_player.x==1}}": "s: {hit_events: 'a{current_player.x==1}'}",
        "accruals:\n  a:\n    events:\n    - a, b{value==1}\n    - c": "- a",
        "event_player:\n  a:\n  - b\n  - c{value==1}": "",
        "switches:\n  s_one:\n   s_two:\n    number: 1": "s_two:",
    }
    for text, new in answers.items():
        found = findings(text)
        assert found and new in [it.new.strip() for it in found[0].changes], (text, found)


# hints


def hints_of(texts: Texts) -> list[str]:
    with folder_of(texts) as folder, redirect_stdout(io.StringIO()) as written:
        (folder / "modes/Bonus/config").mkdir(parents=True)
        with patch.object(sys, "argv", ["pinball-help", "errors", "--program", PROGRAM.path, "--json", str(folder)]):
            command.main()
    return [f"{it['line']} {it['says'][0]}" for it in json.loads(written.getvalue()) if it["severity"] == "hint"]


@test
def what_is_no_error_and_seldom_meant_is_said() -> None:
    assert hints_of(texts_of("game:\nmodes:\n  - attract")) == []
    said = hints_of(texts_of("switches:\n  s: {tags: start}"))
    assert said == ["3 There is no section `game`, so no game ever begins. This start button does nothing."], said
    said = hints_of(texts_of("modes: m", "mode:\n  start_events: a"))
    assert said[0].endswith("Modes without `game_mode: no` never start."), said
    said = hints_of(texts_of("mpf:\n  default_pulse_ms: 25\ncoils:\n  c:\n  d: {default_pulse_ms: 9}"))
    assert said == ["3 `mpf` is not read, so `c` gets 10 ms: write it there."], said
    said = hints_of(texts_of("modes:\n  - bonus\n  - -attract\n  - zzz"))
    assert [it[:20] for it in said] == ["3 The folder is `mod", "4 A blank is missing", "5 There is no `modes"], said
    assert said[0].startswith("3 The folder is `modes/Bonus`"), said


# the short form


@test
def many_findings_take_few_lines() -> None:
    within = ["--within", "1000"] if IS_UNPROVED else []
    with redirect_stdout(io.StringIO()) as written:
        words = ["pinball-help", "errors", *within, "--program", PROGRAM.path, str(MACHINES / "modern")]
        with patch.object(sys, "argv", words):
            assert command.main() == 1
    lines = written.getvalue().split("\n")[:-1]
    count = len([it for it in report_of("modern").findings if not it.follows])
    assert count > 115 and len(lines) <= 100, (count, len(lines))
    room = 120 + len(str(MACHINES / "modern"))
    assert all(len(it) <= 120 or "--full" in it and len(it) <= room for it in lines), max(lines, key=len)


@test
def the_errors_of_a_large_machine_take_a_second() -> None:
    """Of processor time, the program's too: so other work on the computer does not count. The compiled modules are
    kept, as they are for a builder."""
    if IS_UNPROVED:
        raise NotTried("an unproved build takes many seconds")
    words = [sys.executable, str(TOP / "tools/pinball-help"), "errors", "--program", PROGRAM.path]
    variables = {name: it for name, it in os.environ.items() if name != "PYTHONDONTWRITEBYTECODE"}
    for option in ("--json", "--lines"):
        seconds = []
        for _ in range(3):
            before = resource.getrusage(resource.RUSAGE_CHILDREN)
            subprocess.run([*words, option, str(MACHINES / "modern")], capture_output=True, env=variables)
            after = resource.getrusage(resource.RUSAGE_CHILDREN)
            seconds.append(after.ru_utime + after.ru_stime - before.ru_utime - before.ru_stime)
        assert not takes_longer(min(seconds), 1), (option, seconds)


@test
def what_is_the_same_is_one_finding_with_its_places() -> None:
    shots = "".join(f"  s_{at}:\n    show_tokens: {{light: l_{at}}}\n" for at in range(8))
    delays = "".join(f"  e_{at}: x|{at + 1}s\n" for at in range(10))
    found = findings(f"shots:\n{shots}event_player:\n{delays}")
    assert len(found) == 18 and len(short.grouped(found)) == 2, found
    lines = short.shown(found)
    assert lines[0] == f"{MACHINE}:4,6,8,10,12,14 and 2 more: UnknownSetting show_tokens: " \
                       "Take it out: shows are for other programs.", lines
    assert lines[1].startswith("  20,21,22,23,24,25 and 4 more: BadValue: Write the event without the time"), lines


@test
def names_to_write_are_listed_in_one_line() -> None:
    uses = "".join(f"  e_{at}: {{{name}: pulse}}\n" for at, name in enumerate(["c_lfet", "c_rihgt", "c_lfet"]))
    found = findings(f"coils:\n  c_left:\n  c_right:\ncoil_player:\n{uses}")
    assert short.shown(found) == [f"{MACHINE}:6,7,8: Name: Write `c_left`, `c_right`, `c_left`."], short.shown(found)
    entries = "".join(f"  c_{at}: {{hold_power: {at}}}\n" for at in range(1, 8))
    lines = short.shown(findings(f"coils:\n{entries}"))
    assert len(lines) > 1 and all(len(it) <= short.COLUMNS for it in lines), lines
    for line in lines:  # as many names as places
        assert line.partition(": ")[0].count(",") == line.count("default_hold_power") - 1, lines


@test
def the_new_line_is_shown_if_the_words_do_not_have_it() -> None:
    for line, wanted in {
        "  s_a:\n  s_b": "4: Yaml NotInSubset: Write a `:` after it. `s_b:`",
        "  s_a: {tpye: NC}": "3: UnknownSetting tpye: Write `type`.",
    }.items():
        lines = short.shown(findings(f"switches:\n{line}"))
        assert lines == [f"{MACHINE}:{wanted}"], lines


@test
def the_settings_of_a_section_are_not_repeated() -> None:
    found = findings("switches:\n  a: {zzz: 1}\ncoils:\n  b: {yyy: 1}")
    wanted = f"{MACHINE}:3,5: UnknownSetting: Take it out: there is no such setting here."
    assert short.shown(found) == [wanted], short.shown(found)


@test
def each_finding_is_listed_in_full_and_for_editors() -> None:
    for option, count in ("--full", r"(?m)^\d+\. "), ("--json", r'"severity": "error"'):
        with redirect_stdout(io.StringIO()) as written:
            words = ["pinball-help", "errors", "--program", PROGRAM.path, option, str(MACHINES / "slips")]
            with patch.object(sys, "argv", words):
                assert command.main() == 1
        assert len(re.findall(count, written.getvalue())) == 40, option


def main() -> int:
    """Tries pairs of slips: all, or as many as are asked for."""
    pairs = all_pairs()
    if len(sys.argv) > 2:
        pairs = random.Random(int(sys.argv[3]) if len(sys.argv) > 3 else 0).sample(pairs, int(sys.argv[2]))
    said = [it for it in map(fails, pairs) if it]
    print("\n".join(said[:20]))
    print(f"{len(pairs) - len(said)} passed, {len(said)} failed")
    return 1 if said else 0


if __name__ == "__main__":
    sys.exit(main())
