"""What each line of an answer means, in words, and what to do: one row for each message.

`says` and `cure` may name the parts of the line: {key}, {text}, {line}, and {0}, {1} .. for the words of a fault that
has no place. What depends on the user's texts is added by the other modules. dev/test_help compares the rows with
the headings of docs/faults.md."""
import re
from dataclasses import dataclass
from functools import cache
from pathlib import Path

TOP = Path(__file__).resolve().parents[2]
FAULTS, FROM_MPF = "docs/faults.md", "docs/from_mpf.md"


@dataclass(frozen=True)
class Message:
    says: str
    cure: str
    part: str  # how the heading of docs/faults.md begins


YAML = "`error 3 Yaml"
CERTIFICATE = "`fault 10 Certificate"
LOG = "Refused lines of a log"
STATUS = "Exit status 2 and 3"
HEAD = "Errors and faults"

MESSAGES = {
    "error 1 Bundle": Message(
        "A line begins with `@`, or the texts of a bundle are not put together as they should be.",
        "Take the line out. If it is no mistake, put quotes around the value.",
        "`error 1 Bundle",
    ),
    "error 2 Version": Message(
        "The first line of {text} is not `#config_version=6`.",
        "Let `#config_version=6` be the very first line, with no blank in it.",
        "`error 2 Version",
    ),
    "error 3 Yaml TooLong": Message(
        "The text {text} has more than 1 MiB.", "Take out what is not for the machine.", YAML
    ),
    "error 3 Yaml NotUtf8": Message(
        "The line has bytes that are not UTF-8.", "Save the file as UTF-8, without a byte order mark.", YAML
    ),
    "error 3 Yaml Tab": Message("A tab comes before the content of the line.", "Indent with spaces.", YAML),
    "error 3 Yaml Indent": Message(
        "The line is indented more or less than the lines of its block.",
        "Give all lines of a block the same indentation. See that the line before it has a `:` with a blank after it, "
        "and that no value continues in this line.",
        YAML,
    ),
    "error 3 Yaml DuplicateKey": Message(
        "Its block has this key already.", "Join the two: for an event `a: b` and `a: c` become `a: b, c`.", YAML
    ),
    "error 3 Yaml Quote": Message(
        "Something is wrong with a quote: it is not closed on its line, text comes after it, or a `\\` in it is none "
        "of `\\\\`, `\\\"`, `\\n` and `\\t`.",
        "Close the quote on its line. Write '' for a single quote inside single quotes.",
        YAML,
    ),
    "error 3 Yaml Flow": Message(
        "A list in brackets or a mapping in braces is not closed on its line, or lacks an item, a value, a `:` or a "
        "comma.",
        "Put it on one line, as `[a, b]` or `{{a: 1, b: 2}}`; or write a line `- ITEM` for each item.",
        YAML,
    ),
    "error 3 Yaml NotInSubset": Message(
        "YAML may have this, and the subset that is read here does not.", "Write it in another way.", YAML
    ),
    "error 3 Yaml TooDeep": Message(
        "There are too many blocks, or brackets, one inside another: at most 32 and 8.", "Flatten the text.", YAML
    ),
    "error 4 UnknownSection": Message(
        "`{key}` is no section of such a text.", "Look for a slip, or take it out.", "`error 4 UnknownSection"
    ),
    "error 5 UnknownSetting": Message(
        "There is no setting `{key}` here.", "Look for a slip, or take it out.", "`error 5 UnknownSetting"
    ),
    "error 6 BadValue": Message(
        "`{key}` does not take this value.",
        "Write a value that it takes, or take it out.",
        "`error 6 BadValue",
    ),
    "error 7 Missing": Message("`{key}` is required, and is not written.", "Write it.", "`error 7 Missing"),
    "error 8 Duplicate": Message(
        "`{key}` is here a second time.", "Take it out, or give it another name.", "`error 8 Duplicate"
    ),
    "error 9 Limit": Message(
        "A list of `{key}` is too long: at most 1,024 items, and 64 modes.",
        "Let an event of your own post the rest.",
        "`error 9 Limit",
    ),
    "fault 1 Name": Message(
        "`{key}` is a name that may not be used here.", "Look for a slip, or use another name.", "`fault 1 Name"
    ),
    "fault 2 PulseLimit": Message(
        "A pulse of the coil `{key}` is longer than its greatest pulse.",
        "Shorten the pulse. Raise the limit only if the coil bears it.",
        "`fault 2 PulseLimit",
    ),
    "fault 3 PowerLimit": Message(
        "A power of the coil `{key}` is greater than it may have.",
        "Lower the power. Raise the limit only if the coil bears it.",
        "`fault 3 PowerLimit",
    ),
    "fault 4 HoldNotAllowed": Message(
        "The coil `{key}` is enabled, and nothing says that it may be held.",
        "Pulse it. If it is made to be held, write `default_hold_power` with the power that it bears for hours.",
        "`fault 4 HoldNotAllowed",
    ),
    "fault 5 TimerAtEnd": Message(
        "The timer `{key}` has reached its end before it runs.",
        "Let its `start_value` be before its `end_value`: above it if the timer goes down.",
        "`fault 5 TimerAtEnd",
    ),
    "fault 6 BallRoute": Message(
        "Balls cannot go through `{key}` as they should.",
        "See that each ball switch is that of one place, that the device has a coil, and that its targets lead to the "
        "playfield.",
        "`fault 6 BallRoute",
    ),
    "fault 7 Limit": Message(
        "The machine has too many {0}.", "Take out what the machine does not need.", "`fault 7 Limit"
    ),
    "fault 8 Cycle": Message(
        "Events lead to each other without end.", "Take out one of the steps that are yours.", "`fault 8 Cycle"
    ),
    "fault 9 Bound": Message(
        "Some event, or some switch change, causes more than 100,000 lines.",
        "Let the events with the greatest weights post less.",
        "`fault 9 Bound",
    ),
    "fault 10 Certificate Line": Message(
        "Line {1} of the certificate is not as it should be.",
        "Keep only what follows `yes`, from the line `pinball-certificate 2` on, as `check` wrote it.",
        CERTIFICATE,
    ),
    "fault 10 Certificate Events": Message(
        "The certificate is of other events.", "Make a new certificate with `pinball check`.", CERTIFICATE
    ),
    "fault 10 Certificate Switches": Message(
        "The certificate is of other switches.", "Make a new certificate with `pinball check`.", CERTIFICATE
    ),
    "fault 10 Certificate Short": Message(
        "The event `{1}` needs a weight of {2} or more, and the certificate gives it less.",
        "Make a new certificate with `pinball check`.",
        CERTIFICATE,
    ),
    "fault 10 Certificate Bound": Message(
        "The bound of these weights is {1}, and the certificate states another one.",
        "Write `bound {1}`, or make a new certificate with `pinball check`.",
        CERTIFICATE,
    ),
    "fault 10 Certificate Switch": Message(
        "By these weights a change of the switch `{1}` causes at most {2} lines, and the certificate states another "
        "number.",
        "Write `switch {1} {2}`, or make a new certificate with `pinball check`.",
        CERTIFICATE,
    ),
    "refused 8 BadLine": Message(
        "The line is not `MOMENT SWITCH LEVEL` or `MOMENT`.",
        "Look for a blank at its front or end, a level other than 0 and 1, and a point in the moment.",
        LOG,
    ),
    "refused 3 NoSuchSwitch": Message(
        "The machine has no switch of this name.", "Write it as below `switches:`.", LOG
    ),
    "refused 1 Backwards": Message(
        "The moment is before that of an earlier line.", "Sort the lines by their moments.", LOG
    ),
    "refused 2 TooLate": Message(
        "The moment is 2^40 ms or more, almost 35 years.", "Count from the start of the machine.", LOG
    ),
    "refused 4 BoardFault": Message(
        "The board has not taken a command. The log ends here, and the coils are off.", "Look at the board.", LOG
    ),
    "fault: Read": Message(
        "A file, or standard input, could not be read. The next line names the file.",
        "Give the folder that has `config/` in it, and look for a slip in the path.",
        STATUS,
    ),
    "fault: Write": Message("The output could not be written.", "See that there is room where it goes.", STATUS),
    "fault: WrongDevice": Message(
        "The program did not make the devices of the plan: a mistake of its own.", "Report it.", STATUS
    ),
    "fault: TooLong": Message("A file, or the bundle, is above its limit.", "Make it shorter.", STATUS),
    "fault: NoMemory": Message("Memory ran out.", "Give it more memory, or a smaller machine.", STATUS),
    "note skipped": Message("The section `{key}` is not carried out.", "Nothing has to be done.", HEAD),
    "note absent": Message(
        "The mode `{key}` is listed and has no text, so it does nothing.",
        "Look for a slip in modes/{key}/config/{key}.yaml. A mode that MPF brings along has its text in MPF.",
        HEAD,
    ),
    "note unlisted": Message(
        "This text is not read: `modes` does not list its mode, or a line of a text begins with `@`.",
        "List the mode, or take the line out.",
        HEAD,
    ),
}


@cache
def headings(page: str) -> list[str]:
    return re.findall(r"^#+ (.*)$", (TOP / page).read_text(), re.M)


def part_of(page: str, start: str) -> str:
    """The part of a page whose heading begins so."""
    heading = next((it for it in headings(page) if it.startswith(start)), "")
    anchor = re.sub(r"[^\w\- ]", "", heading.lower()).replace(" ", "-")
    return f"{page}#{anchor}" if heading else page


def link(message: str) -> str:
    """The part of docs/faults.md that is about a message."""
    return part_of(FAULTS, MESSAGES[message].part)
