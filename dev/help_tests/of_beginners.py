"""What `errors` says of what people write who begin: each mistake is named, and the answer says what to write."""
from pinball_help import errors
from pinball_help.findings import shown
from pinball_help.hints import hints
from pinball_help.near import nearest
from pinball_help.scenery import Scenery
from pinball_help.texts import MACHINE, folder_of, mode_text, plain

from .common import PROGRAM, test
from .of_errors import findings, named, search, texts_of

DEVICES = "switches:\n  s_left:\n  s_Right:\ncoils:\n  c_kick:\n"
# what is written, what mends it, and a part of the words
SLIPS = {
    "coils:\n  c:\n    number:3": (["number: 3"], "each with a blank after the `:`"),
    "coils:\n  c:\n    something else": (["", "", ""], "each with a blank after the `:`"),
    f"{DEVICES}flippers:\n  f: {{main_coil: c_kick, switch: s_left}}": (
        ["f: {main_coil: c_kick, activation_switch: s_left}"], "Write `activation_switch`."),
    f"{DEVICES}autofire:\n  f: {{coil: c_kick, switch: s_left}}": (["autofire_coils:"], "Write `autofire_coils:`."),
    f"{DEVICES}autofire_coils:\n  f: {{coil: c_kick, switch: s_right}}": (
        ["f: {coil: c_kick, switch: s_Right}"], "Write `s_Right`."),
    f"{DEVICES}coil_player:\n  a: {{c_kick: pulse 20ms}}": (["a: {c_kick: pulse}"], "pulse_ms: 20"),
    f"{DEVICES}coil_player:\n  a: {{c_kick: kick}}": (["", ""], "Write `pulse`, `enable` or `disable`."),
    "unheard_of:\n  a: 1": (["", ""], "Look for a slip in its name."),
    "variable_player:\n  score: 1000": (["", ""], "Write an event, and below it"),
    "event_player:\n  a: {b: 2s}": (["a: [b]"], "To keep the delay"),
    "event_player:\n  a: b\n  - c": ([""], "Write an entry, `NAME: VALUE`"),
    "switches:\n  s: {tags: “left”}": (['s: {tags: "left"}'], "Write `\"` or `'`."),
    "switches:\n  s:\u00a0{number: 1}": (["s: {number: 1}"], "looks like a blank there"),
    "switches:\n  s:\n\u00a0\u00a0\u00a0\u00a0number: 1": (["number: 1"], "looks like a blank there"),
    "coils:\n  c: {default_pulse_ms: 0.02}": (["c:"], "The copy goes on without it."),
    "counters:\n  c: {count_events: a, starting_count: 5 hits}": (
        ["c: {count_events: a, starting_count: 5}"], "without a unit"),
    "switches:\n- name: s_a\n  number: 1\n- s_b": (["s_a:", "number: 1", "s_b:"], "`NAME:`, not `- NAME`"),
    "switches:\n  - {name: s_a, number: 1}": (["s_a: {number: 1}"], "`NAME:`, not `- NAME`"),
    "switches:\n  s_a: 5": (["s_a: {number: 5}"], "Write its settings below it"),
    "game: yes": (["game:"], "Write settings below it; or nothing"),
    "switches: none": (["switches:"], "Write entries below it, as `NAME:`; or nothing"),
    "switches:\n  s_a:\n  number: 5": (["number: 5"], "Indent it by 4 spaces, below `s_a`."),
    "game:\nballs_per_game: 5": (["balls_per_game: 5"], "Indent it by 2 spaces, below `game`."),
    "switches:\n  s_a {number: 5}": (["s_a: {number: 5}"], "Write `s_a: {..}`."),
    "switches:\n  s_a: number: 5, type: NC": (["s_a: {number: 5, type: NC}"], "Write braces around them."),
    "switches:\n  s_a:\n    number = 5": (["number: 5"], "Write its settings below it"),
    "event_player:\n  a = b\n  c: d": (["a: b"], "Write a `:` and a blank after the name."),
    'switches:\n  "s_a: {number: 5}': (["s_a: {number: 5}"], "Take the quote out."),
    'switches:\n  s_a: {label: "A}': (['s_a: {label: "A"}'], "Close the quote."),
    "event_player:\n  a: - b": (["a: b"], "Take the dash out"),
    'event_player:\n  a: "b" , "c"': (['a: ["b" , "c"]'], "Write brackets around them."),
    "event_player:\n  a:\n    - event: b\n    - event: c": (["a: [b, c]", "", ""], "the names of the events alone"),
    "event_player:\n  a if current_player.x == 3: b": (["a{current_player.x == 3}: b"], "a{current_player.x == 3}"),
    "event_player:\n  a: b when current_player.x == 3": (["a{current_player.x == 3}: b"], "a{current_player.x == 3}"),
    "variable_player:\n  a: {score: +100}": (["a: {score: 100}"], "Write the number without `+`."),
    "variable_player:\n  a:\n    score: set 0": (["score: {int: 0, action: set}"], "action: set"),
    "variable_player:\n  a:\n    score: {value: 10}": (["score: {int: 10}"], "Write `int`."),
    f"{DEVICES}coil_player:\n  a: c_kick pulse": (["a: {c_kick: pulse}"], "Write each coil with what it does"),
}


@test
def each_slip_of_a_beginner_has_an_answer() -> None:
    for text, (wanted, words) in SLIPS.items():
        report = search(texts_of(text))
        assert report.answer and report.answer.accepted and len(report.findings) == 1, (text, report.findings)
        found = report.findings[0]
        new = [it.new.strip().removesuffix(" {}") for it in found.changes]
        assert new == wanted and words in found.write, (text, found.changes, found.write)


@test
def a_list_of_one_mapping_gets_its_dash() -> None:
    timer = "mode:\ntimers:\n  t:\n    control_events:\n      event: a\n      action: add\n      value: 5"
    report = search(texts_of("modes: m", timer))
    assert [it.message for it in report.findings] == ["error 6 BadValue"], report.findings
    lines = plain(report.texts[mode_text("m")])[4:]
    assert lines == ["    control_events:", "      - event: a", "        action: add", "        value: 5"], lines


@test
def what_an_item_lacks_is_said_of_the_item() -> None:
    timer = "mode:\ntimers:\n  t:\n    control_events:\n    - event: a\n      action: start\n    - event: b"
    found = findings("modes: m", timer)[0]
    assert found.says == ("An item of `control_events` has to have `action`, and this one has none.",), found.says
    assert found.source[found.column - 1 :][: found.width] == "event: b", found


@test
def a_byte_order_mark_is_said() -> None:
    texts = texts_of("coils:\n  c:")
    first = {"\ufeff#config_version=6": "BOM", "# config_version=6": "without any blank", "#config_version=5": "version 5"}
    for line, words in first.items():
        texts[MACHINE][0] = type(texts[MACHINE][0])(1, line)
        found = search(texts).findings
        assert len(found) == 1 and words in found[0].why + found[0].write, (line, found)


@test
def a_name_with_other_capitals_is_near_and_one_more_is_not() -> None:
    assert nearest("S_pop", ["s_pop", "s_drop"]) == "s_pop"
    assert nearest("s_trough3", ["s_trough1", "s_trough2", "s_trough_jam"]) == ""
    assert nearest("s_trogh3", ["s_trough3"]) == "s_trough3"
    assert nearest("c_left", ["c_right"]) == ""


@test
def a_bad_name_of_a_mode_hides_nothing() -> None:
    """The other modes stay listed, so what is wrong in them is found."""
    texts = texts_of("modes:\n  - m\n  - wizard mode\n  - m.yaml\n", "coil_player:\n  a: {c_none: pulse}")
    with folder_of(texts) as folder:
        report = errors.search(PROGRAM, folder)
        said = [it.says for it in hints(report.scene, folder)]
    assert [named(it.said) for it in report.findings] == [
        f"error 6 BadValue {MACHINE} 2 modes", f"fault 1 Name {mode_text('m')} 3 c_none"], report.findings
    assert "`wizard mode` is no name of a mode." in report.findings[0].says, report.findings[0]
    assert "A mode is listed by the name of its folder: write `m`." in said, said


@test
def what_another_mend_does_not_cause_is_listed() -> None:
    """A fault of a coil or a device, where something else of it was mended."""
    coil = "coils:\n  c: {number: 1, default_pulse_power: 1.5}\ncoil_player:\n  a: {c: enable}"
    said = [it.message for it in findings(coil)]
    assert said == ["error 6 BadValue", "fault 4 HoldNotAllowed"], said
    device = "    ball_switches: s\n    eject_coil: c\n"
    devices = f"switches:\n  s:\ncoils:\n  c:\nball_devices:\n  one:\n{device}  two:\n{device}    hold_coil: c"
    said = [it.message for it in findings(devices)]
    assert said == ["fault 6 BallRoute", "error 5 UnknownSetting"], said


@test
def what_a_mend_causes_is_not_listed() -> None:
    text = "coils:\n  c: {allow_enable: maybe}\ncoil_player:\n  a: {c: enable}"
    report = search(texts_of(text))
    said = [(it.message, it.follows) for it in report.findings]
    assert said == [("error 6 BadValue", False), ("fault 4 HoldNotAllowed", True)], said
    assert shown(report.findings[0])[1].startswith("      3 |"), shown(report.findings[0])
    assert Scenery(report.texts).read == [MACHINE]


@test
def a_line_that_begins_with_no_key_stops_nothing() -> None:
    """Its first sign is a blank for Python, and none for the program."""
    for sign in "\u2028", "\x85":
        report = search(texts_of(f"{sign}a: 1\ncoils:\n  c: {{tpye: 1}}"))
        assert [it.line for it in report.findings] == [2, 4], (sign, report.findings)
        assert report.answer and report.answer.accepted, (sign, report.findings)


@test
def two_lines_without_a_colon_are_both_found() -> None:
    report = search(texts_of("switches:\n  s_a\n  s_b\n  s_c: {number: 1}"))
    assert [it.line for it in report.findings] == [4, 5], report.findings
    assert plain(report.texts[MACHINE])[2:] == ["  s_a:", "  s_b:", "  s_c: {number: 1}"], plain(report.texts[MACHINE])
    assert report.answer and report.answer.accepted, report.findings


@test
def a_value_in_place_of_settings_becomes_the_one_that_has_to_be() -> None:
    mode = "mode:\nshots:\n  a:\nshot_groups:\n  g: [a]\ncounters:\n  c:\n    count_events: e\n  direction: down"
    found = findings("modes: m", mode)
    assert [it.changes[0].new.strip() for it in found] == ["g: {shots: [a]}", "direction: down"], found
    assert found[0].write == "Write its settings below it, as `shots:`.", found[0].write


@test
def an_item_goes_with_its_only_entry() -> None:
    timer = "mode:\ntimers:\n  t:\n    control_events:\n    - {event: a, action: start}\n    - b: stop"
    report = search(texts_of("modes: m", timer))
    assert [(it.message, it.line) for it in report.findings] == [("error 5 UnknownSetting", 7)], report.findings
    assert report.answer and report.answer.accepted, report.findings
