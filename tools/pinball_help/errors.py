"""All errors at once: checks a copy, mends or leaves out what was refused, and checks again."""
import re
import sys
import time
from dataclasses import dataclass, field, replace
from pathlib import Path

from .answers import Answer, Complaint
from .findings import Finding, cure_of, finding_of
from .mending import blanks, commented, line_of, take_out
from .powers import is_power
from .probes import OutOfTime, Probes, Verdict, is_error
from .program import Program
from .scenery import Scenery
from .texts import MACHINE, Edit, Texts, edited, is_changed, read_texts
from .ways import Cure, Way

ROUNDS = 500
WITHIN = 10.0  # seconds of processor time: a text may be written to take for ever
A_LITTLE_MORE = 0.1  # of that time, for what was found and not yet looked at
MOST_MENDS = 8  # of one complaint, each after a change of its line
AT_ONCE = 64  # complaints: their findings are known even if time runs out before those of the others
MOST_TRIES = 3  # to mend one place before something is taken out
ALONE = ("Bundle", "Limit", "Cycle", "Bound")  # what has to be mended before others are said
BEST = (0, 0, 0)
Rank = tuple[int, int, int]
# the settings of which a fault may come, if a copy has lost them
OF_SETTINGS = {
    "fault 2 PulseLimit": "pulse", "fault 3 PowerLimit": "power|hold|pulse|enable",
    "fault 4 HoldNotAllowed": "hold|enable",
    "fault 6 BallRoute": "^(?:ball_switches|eject_coil|eject_targets|mechanical_eject|tags)$",
}
SECTIONS_WITH_NAMES = ("switches", "coils", "ball_devices", "shots", "shot_profiles", "shot_groups")


@dataclass
class Report:
    findings: list[Finding] = field(default_factory=list)
    texts: Texts = field(default_factory=dict)  # the copy, as it was at last
    answer: Answer | None = None  # of the copy
    scene: Scenery = field(default_factory=lambda: Scenery({}))  # of the copy
    unsolved: bool = False  # something was refused, and no way was found to look further
    is_cut_short: bool = False  # .. since it would have taken too long


class Progress:
    """Says how far it is, once a second has passed: on standard error, where that is a terminal."""

    def __init__(self, what: str):
        self.what, self.next, self.last = what, time.monotonic() + 1, ""

    def at(self, count: int) -> None:
        if time.monotonic() >= self.next and sys.stderr.isatty():
            self.next = time.monotonic() + 1
            self.last = f".. {count} {self.what}"
            print(f"\r{self.last}", end="", file=sys.stderr, flush=True)

    def end(self) -> None:
        """Clears the line."""
        print(f"\r{' ' * len(self.last)}\r" if self.last else "", end="", file=sys.stderr, flush=True)


class Search:
    """Looks for all that is refused in the texts of a folder."""

    def __init__(self, program: Program, folder: Path, leave_out: bool, within: float):
        self.probes, self.leave_out, self.within = Probes(program, within), leave_out, within
        self.original = read_texts(folder)
        self.scene = Scenery(self.original)
        self.report = Report()
        self.reported: set[tuple] = set()
        self.counts: dict[tuple, int] = {}
        self.gone: set[str] = set()  # names that the copy defines no more
        self.touched: set[tuple[str, int, str]] = set()  # what has lost something: text, line of the file, key
        self.lost: set[tuple[str, int, str]] = set()  # of an entry: text, line of the file, the setting
        self.lost_by_name: set[tuple[str, str]] = set()  # of a coil or a ball device: its name, the setting
        self.moved: set[tuple[str, int]] = set()  # lines of the files that the copy has elsewhere
        self.faults_were_reported = False
        self.waiting: list[Complaint] = []  # that have no finding yet
        self.progress = Progress("found")

    def run(self) -> Report:
        self.answer = self.ask()
        try:
            self.mend_all()
        except OutOfTime:
            self.report.is_cut_short = self.report.unsolved = True
            self.add_waiting()
        finally:
            self.progress.end()
        self.report.texts, self.report.scene, self.report.answer = self.scene.texts, self.scene, self.answer
        order = {name: at for at, name in enumerate(self.scene.texts)}
        self.report.findings.sort(key=lambda it: (it.line == 0, order.get(it.text, -1), it.line))
        return self.report

    def mend_all(self) -> None:
        """Mends all that is found, and looks again, until all is accepted or nothing helps."""
        for _ in range(ROUNDS):
            if self.answer.accepted or not self.answer.complaints:
                break
            if not self.mend(self.found()):
                self.report.unsolved = True
                break
            self.answer = self.ask()
            self.progress.at(len(self.report.findings))

    def ask(self) -> Answer:
        return self.probes.answer({name: self.scene.texts[name] for name in (self.scene.read or [MACHINE])})

    def found(self) -> list[Complaint]:
        """What can be mended at once: the first error of each entry, or all faults that are listed."""
        self.waiting = []
        self.probes.found.clear()
        first = self.answer.complaints[0]
        if first.name in ALONE:
            return [first]
        if not is_error(first):
            return list(self.answer.complaints)
        return [it for text in self.scene.read for it in self.errors_of(text)] or [first]

    def errors_of(self, text: str) -> list[Complaint]:
        head = self.probes.head_error(self.scene, text)
        return [head] if head else self.probes.first_errors(self.scene, text)

    def cure(self, complaint: Complaint) -> Cure:
        cure = cure_of(self.scene, complaint)
        if self.leave_out and cure.out and not cure.stays:
            outs = (Way(cure.out),)
            if complaint.name == "Yaml":
                outs = tuple(filter(is_removal, cure.ways)) or outs
            first = cure.ways[0] if cure.ways else Way(())
            outs = tuple(replace(first, edits=it.edits) for it in outs)
            return replace(cure, ways=outs)
        return cure

    def mend(self, complaints: list[Complaint]) -> bool:
        """Mends the copy at each complaint, where no other one is mended at the same lines. Says whether it has."""
        taken: list[Edit] = []
        lines: set[tuple[str, int]] = set()
        for at in range(0, len(complaints), AT_ONCE):
            self.waiting = complaints[at:]
            some = complaints[at : at + AT_ONCE]
            cures = [self.cure(it) for it in some if self.probes.is_in_time()]
            for complaint, cure, way in zip(some, cures, [*self.probes.workers.map(self.choose, some, cures)]):
                self.add_finding(complaint, cure, way or next(iter(cure.ways), None))
                if way and lines.isdisjoint(lines_of(way.edits)):
                    lines |= lines_of(way.edits)
                    taken += way.edits
                    self.count(complaint)
                    self.touch(complaint, way)
        self.faults_were_reported |= not is_error(complaints[0])
        self.change(tuple(taken))
        return bool(taken)

    def choose(self, complaint: Complaint, cure: Cure) -> Way | None:
        """The likeliest way that helps. What takes something out comes last, the smallest part first."""
        tries = self.tries(complaint)
        ways = [it for it in cure.ways if self.probes.is_in_time() and is_changed(self.scene.texts, it.edits)]
        if complaint.name != "Yaml":
            last = [] if tries < len(ways) else self.last_ways(complaint)
            return next(iter([*ways, *last][tries:]), None)
        mends = [it for it in ways if not is_removal(it)] if tries < MOST_TRIES else []
        if best := self.best(complaint, mends):
            return best
        removals = [*filter(is_removal, ways), *self.last_ways(complaint)]
        return self.best(complaint, removals[max(0, tries - 1) :])

    def best(self, complaint: Complaint, ways: list[Way]) -> Way | None:
        """The way after which the entry has no error, or the one that is furthest on."""
        found: list[tuple[Rank, Way]] = []
        for way in ways:
            rank = rank_of(complaint, self.probes.verdict(self.scene, complaint, way.edits))
            if rank == BEST:
                return way
            found += [(rank, way)] if rank else []
        return min(found, key=lambda it: it[0])[1] if found else None

    def last_ways(self, complaint: Complaint) -> list[Way]:
        """If nothing else helps: takes the entry around a place out, and then what is around that; or a line that is
        in no entry, since its first sign is none that begins a key."""
        at = complaint.line - 1
        entry = self.scene.around(complaint.text, at)
        if entry is None and 0 <= at < len(self.scene.texts.get(complaint.text, [])):
            return [Way((blanks(complaint.text, at, self.scene.blocks(complaint.text).end_of(at)),))]
        outer = [*entry.path, entry][::-1] if entry else []
        return [Way((take_out(self.scene.texts, complaint.text, it),)) for it in outer]

    def count(self, complaint: Complaint) -> None:
        """Counts how often a complaint has been mended, and how often at this same line."""
        for key in self.identity(complaint), (*self.identity(complaint), self.line(complaint)):
            self.counts[key] = self.counts.get(key, 0) + 1

    def tries(self, complaint: Complaint) -> int:
        """How often a complaint has been mended in vain. If its line has changed, it is another one, for some time."""
        all_tries = self.counts.get(self.identity(complaint), 0)
        here = self.counts.get((*self.identity(complaint), self.line(complaint)), 0)
        return max(here, all_tries - MOST_MENDS)

    def line(self, complaint: Complaint) -> str:
        return line_of(self.scene.texts, complaint.text, complaint.line - 1)

    def identity(self, complaint: Complaint) -> tuple:
        number = self.scene.number(complaint.text, complaint.line - 1)
        return (complaint.message, complaint.text, number, complaint.key, complaint.words)

    def add_finding(self, complaint: Complaint, cure: Cure, way: Way | None) -> None:
        identity = (*self.identity(complaint), cure.says)
        if identity in self.reported:
            return
        self.reported.add(identity)
        finding = finding_of(self.scene, complaint, cure, way, self.original)
        self.report.findings.append(replace(finding, follows=self.is_consequence(complaint)))

    def add_waiting(self) -> None:
        """Adds what was found before time ran out, each with the likeliest way to mend it, as far as a little more time
        allows. There is at least one finding."""
        until = self.probes.program.seconds() + self.within * A_LITTLE_MORE
        for complaint in self.waiting or self.probes.found or self.answer.complaints:
            if self.report.findings and self.probes.program.seconds() > until:
                break
            cure = self.cure(complaint)
            self.add_finding(complaint, cure, next(iter(cure.ways), None))

    def is_consequence(self, complaint: Complaint) -> bool:
        """Whether a complaint comes from what a copy leaves out, and not from the files themselves."""
        number = self.scene.number(complaint.text, complaint.line - 1)
        if complaint.text and not number and complaint.name != "Bundle":
            return True
        if complaint.name == "Name":
            return complaint.key in self.gone or self.faults_were_reported
        if complaint.name in ("Missing", "BadValue"):
            return (complaint.text, number, complaint.key) in self.touched
        if complaint.key == "DuplicateKey":
            return (complaint.text, number) in self.moved
        if complaint.message in OF_SETTINGS:
            lost = {setting for text, line, setting in self.lost if (text, line) == (complaint.text, number)}
            lost |= {setting for name, setting in self.lost_by_name if name == complaint.key}
            return self.faults_were_reported or any(re.search(OF_SETTINGS[complaint.message], it) for it in lost)
        return False

    def touch(self, complaint: Complaint, way: Way) -> None:
        """Notes what loses something at a complaint: the entries around it."""
        entry = self.scene.entry_at(complaint.text, complaint.line - 1, complaint.key) if complaint.line else None
        if entry is None or complaint.name == "Missing":
            return
        for outer in entry.path[1:]:
            number = self.scene.number(complaint.text, outer.line)
            self.touched |= {(complaint.text, number, outer.key), (complaint.text, number, entry.key)}
            if not way.near or is_power(way.near):  # (else the setting that was meant is there)
                self.lost.add((complaint.text, number, entry.key))
                if outer is entry.path[1] and entry.path[0].key in SECTIONS_WITH_NAMES:
                    self.lost_by_name.add((outer.key, entry.key))

    def change(self, edits: tuple[Edit, ...]) -> None:
        names = self.names()
        self.moved |= {(it.text, number) for it in edits if it.first == it.last for number in it.numbers}
        if self.leave_out:
            edits = tuple(commented(edit, self.scene.texts, self.why(edit)) for edit in edits)
        self.scene = Scenery(edited(self.scene.texts, edits), self.scene)
        self.gone |= names - self.names()

    def why(self, edit: Edit) -> str:
        """The answer's line about the lines of an edit."""
        numbers = {self.scene.number(edit.text, at) for at in range(edit.first, edit.last)}
        found = [it.said for it in self.report.findings if it.text == edit.text and it.line in numbers]
        return found[-1] if found else "refused"

    def names(self) -> set[str]:
        return {entry.key for section in SECTIONS_WITH_NAMES for _, entry in self.scene.entries_of(section)}


def is_removal(way: Way) -> bool:
    return not any(line.strip() for edit in way.edits for line in edit.lines)


def rank_of(complaint: Complaint, verdict: Verdict) -> Rank | None:
    """How good a change is that mends a fault of YAML, by what is wrong after it; none where it does not help."""
    error = verdict.error
    if error is None or error.name != "Yaml":
        return (1, 0, 0) if verdict.at_edit else BEST
    if error.line > complaint.line:
        return 2, verdict.at_edit, -error.line
    return (3, 0, 0) if error.line == complaint.line and error.key != complaint.key else None


def lines_of(edits: tuple[Edit, ...]) -> set[tuple[str, int]]:
    """The lines that edits change; of lines that come between two others, the second of the two."""
    return {(it.text, at) for it in edits for at in range(it.first, max(it.last, it.first + 1))}


def search(program: Program, folder: Path, leave_out: bool = False, within: float = WITHIN) -> Report:
    return Search(program, folder, leave_out, within).run()
