"""The machines of examples/recipes: each does what it is to do, and has the text that docs/from_mpf.md shows."""
import re

from pinball_help import errors
from pinball_help.texts import MACHINE, Line, folder_of

from .common import PROGRAM, TOP, test

RECIPES = sorted(it.parent for it in (TOP / "examples/recipes").glob("*/expected-play"))
PAGE = (TOP / "docs/from_mpf.md").read_text()
# what has to happen in the play of each, in this order
HAPPENS = {
    "tilt": ["coil c_flipper pulse", "coil c_sling pulse", "event tilt_warning", "event tilt_warning",
             "event tilt_warning", "event tilt", "event s_button_active", "event ball_drain", "event ball_will_end",
             "coil c_flipper pulse", "event tilt_warning", "coil c_flipper pulse"],
    "extra_ball": ["event s_target_active", "event extra_ball_won", "event ball_drain", "event shoot_again",
                   "event ball_drain", "event ball_ended", "final 1"],
    "auto_launch": ["event balldevice_plunger_ball_eject_success", "event ball_save_early_saving_ball",
                    "coil c_launch pulse", "event balldevice_plunger_ball_eject_success", "event ball_ended"],
    "drop_targets": ["coil c_raise pulse", "event bank_down_complete", "coil c_raise pulse", "event drop_2_up_hit"],
    "diverter": ["event s_ramp_active", "coil c_diverter enable", "coil c_diverter disable", "coil c_diverter enable",
                 "event s_lock_active", "coil c_diverter disable"],
    "kickback": ["coil c_kickback pulse", "event s_outlane_active", "event s_outlane_active", "event s_target_active",
                 "coil c_kickback pulse"],
    "spinner": ["event spinner_begins", "player 1 score 300", "event spinner_is_still", "event spinner_begins"],
    "state_machine": ["event s_ramp_active", "event quest_begins", "event s_ramp_active", "event quest_ramp_is_lit",
                      "event quest_is_done", "event s_ramp_active", "event quest_begins"],
    "combo_switch": ["event s_left_inactive", "event both_buttons", "event s_right_inactive", "event both_buttons"],
}


@test
def each_recipe_is_played() -> None:
    assert [it.name for it in RECIPES] == sorted(HAPPENS), RECIPES
    for folder in RECIPES:
        assert PROGRAM.output(["check", str(folder)]) == (folder / "expected-check").read_text(), folder
        played = PROGRAM.output(["play", str(folder / "log"), str(folder)])
        assert played == (folder / "expected-play").read_text(), folder
        happens = [line.split(" ", 2)[2] for line in played.split("\n") if line]
        rest = iter(happens)
        for wanted in HAPPENS[folder.name]:
            assert any(line == wanted or line.startswith(f"{wanted} ") for line in rest), (folder.name, wanted)
        assert played.count("coil c_kickback") == 2 * (folder.name == "kickback"), folder


def texts_of_the_page() -> dict[str, str]:
    """The text that the page shows for each folder of a recipe, without the line of the version."""
    found = {}
    for part in PAGE.split("\n### ")[1:]:
        names = re.findall(r"\]\(\.\./examples/recipes/(\w+)\)", part)
        shown = re.search(r"^    #config_version=6\n((?:    .*\n|\n)+)", part, re.M)
        if names and shown:
            found[names[0]] = re.sub(r"^    ", "", shown[1], flags=re.M).strip() + "\n"
    return found


@test
def each_recipe_has_the_text_of_the_page() -> None:
    shown = texts_of_the_page()
    assert sorted(shown) == [it.name for it in RECIPES], shown
    for folder in RECIPES:
        texts = [it.read_text() for it in folder.glob("**/*.yaml")]
        assert any(holds(text, shown[folder.name]) for text in texts), (folder.name, shown[folder.name])


def holds(text: str, part: str) -> bool:
    """Whether a text has the sections of another one, each as it is there."""
    sections = re.split(r"^(?=\w)", text, flags=re.M)
    return all(it in sections for it in re.split(r"^(?=\w)", part, flags=re.M) if it.strip())


# sections of MPF that a recipe writes in another way
SECTIONS = ("tilt", "extra_balls", "drop_targets", "diverters", "kickbacks", "spinners", "state_machines",
            "combo_switches")


@test
def what_can_be_written_is_not_taken_out() -> None:
    text = "\n".join(["#config_version=6", *(f"{it}:\n  a:" for it in SECTIONS)])
    with folder_of({MACHINE: [Line(at, line) for at, line in enumerate(text.split("\n"), 1)]}) as folder:
        found = errors.search(PROGRAM, folder).findings
    assert [it.said.split()[-1] for it in found] == [*SECTIONS], found
    for it in found:
        assert "Take it out" not in it.write and it.recipe.startswith("docs/from_mpf.md#"), it
    for section in SECTIONS:
        rows = [line for line in PAGE.split("\n") if line.startswith("|") and f"`{section}:`" in line.split("|")[1]]
        assert rows and not any(re.search(r"[Tt]ake (?:it|them) out", it) for it in rows), (section, rows)


@test
def what_is_from_memory_is_marked() -> None:
    assert "was written from memory and was not tried with MPF" in PAGE
    body = PAGE.partition("## Files and sections")[2]
    for line in body.split("\n"):
        says = re.search(r"\bMPF (?:saves|counts|has|gives|ends|resets|posts|runs)\b", line)
        assert not says or "(from memory)" in line, line
