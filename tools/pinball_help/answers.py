"""The lines that `pinball check`, `verify` and `play` write, as values."""
import re
from dataclasses import dataclass, replace

from .messages import MESSAGES

# NAME, TEXT and LINE of an `error`, and of the faults 1 to 6, have the same places
PLACED = re.compile(
    r"^(?P<kind>error|fault) (?P<number>[0-9]{1,3}) (?P<name>\w+) (?P<text>.+?) (?P<line>[0-9]{1,9}) (?P<key>.*)$"
)
WHOLE = re.compile(r"^fault (?P<number>[0-9]{1,3}) (?P<name>\w+)(?: (?P<rest>.*))?$")
NOTE = re.compile(r"^note (?P<text>.+?) (?P<line>[0-9]{1,9}) (?P<name>skipped|absent|unlisted) (?P<key>.*)$")
REFUSED = re.compile(r"^refused (?P<line>[0-9]{1,9}) (?P<number>[0-9]{1,3}) (?P<name>\w+)$")
STOPPED = re.compile(r"^fault: (?P<name>\w+)$")
CERTIFICATE_FAULTS = ("Line", "Events", "Switches", "Short", "Bound", "Switch")


@dataclass(frozen=True)
class Complaint:
    """One line of an answer that says that something is refused, or is not read."""

    said: str
    message: str  # its key in `messages.MESSAGES`, such as `error 3 Yaml Tab`
    name: str  # such as `Yaml`
    text: str = ""  # the name of the text, such as `config/config.yaml`
    line: int = 0  # from 1; 0 where it has no place
    key: str = ""
    words: tuple[str, ...] = ()  # of a fault without a place: what follows its name

    @property
    def is_note(self) -> bool:
        return self.message.startswith("note")


@dataclass(frozen=True)
class Answer:
    complaints: tuple[Complaint, ...]
    notes: tuple[Complaint, ...]
    accepted: bool
    bound: int
    switches: dict[str, int]  # the most lines that a change of each can cause
    weights: dict[str, int]


def unescaped(text: str) -> str:
    """The text of a name, in which control characters are written as `\\x` and two digits."""
    return re.sub(r"\\x([0-9a-f]{2})", lambda found: chr(int(found[1], 16)), text)


def moved(complaint: Complaint, lines: int) -> Complaint:
    """The complaint about a text that has so many lines more before the place. What is about a whole text is at its
    first line, and stays there."""
    found = PLACED.match(complaint.said)
    if not found or complaint.line < 2:
        return complaint
    number = complaint.line + lines
    said = f"{complaint.said[: found.start('line')]}{number}{complaint.said[found.end('line') :]}"
    return replace(complaint, said=said, line=number)


def complaint_of(said: str) -> Complaint | None:
    """The complaint that a line says, or none of any other line, such as one that is cut off."""
    found = read_complaint(said)
    return found if found and found.message in MESSAGES else None


def read_complaint(said: str) -> Complaint | None:
    if found := NOTE.match(said):
        name = found["name"]
        return Complaint(said, f"note {name}", name, found["text"], int(found["line"]), unescaped(found["key"]))
    if found := REFUSED.match(said):
        return Complaint(said, f"refused {found['number']} {found['name']}", found["name"], "", int(found["line"]))
    if found := STOPPED.match(said):
        return Complaint(said, said, found["name"])
    if (found := PLACED.match(said)) and (found["kind"] == "error" or int(found["number"]) < 7):
        message = f"{found['kind']} {found['number']} {found['name']}"
        message += f" {found['key']}" if found["name"] == "Yaml" else ""
        key = unescaped(found["key"])
        return Complaint(said, message, found["name"], unescaped(found["text"]), int(found["line"]), key)
    if found := WHOLE.match(said):
        words = tuple((found["rest"] or "").split())
        message = f"fault {found['number']} {found['name']}"
        if words and words[0] in CERTIFICATE_FAULTS and found["name"] == "Certificate":
            message += f" {words[0]}"
        return Complaint(said, message, found["name"], words=words)
    return None


def answer_of(output: str) -> Answer:
    """What an output of `check` or `verify` says."""
    lines = output.split("\n")
    complaints = [found for found in map(complaint_of, lines) if found]
    numbers: dict[str, dict[str, int]] = {"switch": {}, "event": {}}
    for line in lines:
        if found := re.fullmatch(r"(switch|event) (\S+) ([0-9]{1,10})", line):
            numbers[found[1]][found[2]] = int(found[3])
    bounds = [int(line.split(" ")[1]) for line in lines if re.match(r"bound [0-9]{1,10}$", line)]
    return Answer(
        tuple(it for it in complaints if not it.is_note),
        tuple(it for it in complaints if it.is_note),
        "yes" in lines,
        bounds[0] if bounds else 0,
        numbers["switch"],
        numbers["event"],
    )
