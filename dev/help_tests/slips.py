"""The forty commonest slips, of YAML and of settings, for the tests of `errors`.

Each is an entry `NAME` of `switches`, with the line of it that is refused (0 is the first) and the error."""
from dataclasses import dataclass

UNKNOWN, BAD = "error 5 UnknownSetting", "error 6 BadValue"


@dataclass(frozen=True)
class Slip:
    line: int
    error: str
    lines: tuple[str, ...]

    def below(self, other: "Slip") -> str:
        """The error of this slip right below another one.

        What is deeper than an entry without a value is that value. So by YAML nothing is wrong with its column: the
        name is read as a setting of the entry above, and no switch has such a setting."""
        is_value = self.lines[0].startswith("   ") and other.lines[-1].removesuffix(" &NAME") == "  NAME:"
        return UNKNOWN if is_value else self.error


def yaml(line: int, *lines: str) -> Slip:
    return Slip(line, "error 3 Yaml", lines)


def setting(line: int, error: str, *lines: str) -> Slip:
    return Slip(line, error, lines)


SLIPS = (
    yaml(1, "  NAME:", "\tnumber: 1"),
    yaml(1, "  NAME:", "  \tnumber: 1"),
    yaml(2, "  NAME:", "    number: 1", "      type: NC"),
    yaml(2, "  NAME:", "    number: 1", "   type: NC"),
    yaml(0, "   NAME:", "    number: 1"),
    yaml(0, " NAME:", "    number: 1"),
    yaml(0, "  NAME", "    number: 1"),
    yaml(2, "  NAME:", "    number:1", "    type: NC"),
    yaml(0, "  NAME: {number:1}"),
    yaml(0, "  NAME: {number 1}"),
    yaml(0, "  NAME: {number: 1 type: NC}"),
    yaml(0, "  NAME: {number: 1, type: NC"),
    yaml(0, "  NAME: {number: 1, tags: [lane}"),
    yaml(1, "  NAME:", "    tags: [lane, left"),
    yaml(1, "  NAME:", "    tags: [lane,", "           left]"),
    yaml(1, "  NAME:", "    tags: [lane,,left]"),
    yaml(1, "  NAME:", '    label: "Left lane', "    number: 1"),
    yaml(1, "  NAME:", "    label: 'Left lane", "    number: 1"),
    yaml(1, "  NAME:", "    label: 'the player's left'"),
    yaml(1, "  NAME:", '    label: "left\\lane"'),
    yaml(1, "  NAME:", '    label: "Left" lane'),
    yaml(1, "  NAME:", "    label: Left: lane"),
    yaml(0, "  NAME: &NAME"),
    yaml(1, "  NAME:", "    tags: *lanes"),
    yaml(1, "  NAME:", "    number: !!str 1"),
    yaml(1, "  NAME:", "    label: |", "      Left", "      lane"),
    yaml(1, "  NAME:", "    label: %left"),
    yaml(2, "  NAME:", "    number: 1", "    number: 2"),
    yaml(3, "  NAME:", "    tags:", "      - lane", "      -left"),
    setting(1, UNKNOWN, "  NAME:", "    tpye: NC"),
    setting(2, UNKNOWN, "  NAME:", "    number: 1", "    ignore_window_ms: 500ms"),
    setting(1, BAD, "  NAME:", "    type: nc"),
    setting(0, BAD, "  NAME: {debounce: Quick}"),
    setting(1, BAD, "  NAME:", "    debounce: 5ms"),
    setting(0, BAD, "  NAME left: {number: 1}"),
    setting(0, BAD, "  NAME: yes"),
    setting(0, BAD, "  NAME:", "    number:1"),
    setting(1, BAD, "  NAME:", "    tags: [lane left]"),
    setting(2, BAD, "  NAME:", "    number: 1", "    events_when_activated: NAME_hit|1s"),
    setting(1, BAD, "  NAME:", "    events_when_activated: (name)_hit"),
)
BEFORE = ("switches:", "  s_before: {number: 1, tags: lane}")
BETWEEN = ("  s_between:", "    number: 2")
AFTER = ("  s_after:", "    number: 3", "    type: NC", "coils:", "  c_last: {number: 1}")


def planted(first: Slip, other: Slip | None, apart: bool) -> tuple[list[str], list[tuple[str, int]]]:
    """The lines of a text with two slips in one section, and each error with its line, from 1."""
    lines, wanted = ["#config_version=6", *BEFORE], []
    for name, slip in ("s_one", first), ("s_two", other):
        if slip:
            error = slip.below(first) if slip is other and not apart else slip.error
            wanted.append((error, len(lines) + slip.line + 1))
            lines += [line.replace("NAME", name) for line in slip.lines]
            lines += BETWEEN if apart and name == "s_one" else ()
    return [*lines, *AFTER], wanted
