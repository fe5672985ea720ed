"""Compares the program with the model, on one drawn machine after the other."""
import random
import re
import resource
import shutil
import subprocess
from collections import Counter
from dataclasses import dataclass, field
from pathlib import Path

from . import cascades, damage, draw, edges, greatest, logs, odd, once, plant, wanted
from .answers import Answer, Judged, judge
from .bundle import MACHINE_TEXT, VERSION, ConfigFault, joined, split_bundle
from .costs import Costs, Weights
from .layout import means
from .machine import TooLong
from .sections import PLAYERS, SETTINGS
from .yaml_text import read

SECONDS, MOST_SECONDS = 2.0, 60.0  # of the processor for an answer, and by the clock
MOST_LINES = 200  # of an answer, in a report
CASCADES, EDGES = 4, 3  # small machines for each other machine
MACHINES_FOR_WANTED = 50  # for so many machines there is a trough that is asked for many balls
DAMAGED, ODD = 3, 4  # damaged certificates, and texts of parts of YAML, for each machine
GREATEST_LINES = 4_000_000  # of a play that comes to the greatest values
VERSION_1 = b"pinball-certificate 1\n"
SECTIONS = {*SETTINGS, *PLAYERS}
OF_SAVES = {"active_time", "balls_to_save", "ball_count"}  # settings
FORMS = re.compile(
    rb"""(?:(?:
    [0-9]+\ [^ ]+\ (?:
        switch\ [^ ]+\ (?:active|inactive) | event\ [^ ]+
        | coil\ [^ ]+\ (?:pulse\ [0-9]+\ [0-9]+|enable\ [0-9]+|disable) | skip\ [^ ]+\ (?:pulse|enable|disable)
        | player\ [1-4]\ [^ ]+\ -?[0-9]+ | balls\ [0-9]+\ [0-9]+\ [0-9]+\ [0-9]+ | final\ [1-4]\ -?[0-9]+ | off\ [^ ]+)
    | refused\ [0-9]+\ (?:1\ Backwards|2\ TooLate|3\ NoSuchSwitch|8\ BadLine)
    | note\ .*\ [0-9]+\ (?:skipped|absent|unlisted)\ .*
    | error\ (?:1\ Bundle|2\ Version|3\ Yaml|4\ UnknownSection|5\ UnknownSetting|6\ BadValue|7\ Missing|8\ Duplicate
        |9\ Limit)\ .*\ [0-9]+\ .*
    | fault\ (?:1\ Name|2\ PulseLimit|3\ PowerLimit|4\ HoldNotAllowed|5\ TimerAtEnd|6\ BallRoute)\ [^ ]+\ [0-9]+\ [^ ]+
    | fault\ 7\ Limit\ (?:events|bindings|switches|coils|variables|rows)
    | fault\ 8\ Cycle(?:\ [^ ]+)+ | fault\ 9\ Bound
    | fault\ 10\ Certificate\ (?:Line\ [0-9]+|Events|Switches|Short\ [^ ]+\ [0-9]+|Bound\ [0-9]+
        |Switch\ [^ ]+\ [0-9]+)
    | pinball-certificate\ 2 | bound\ [0-9]+ | (?:switch|event)\ [^ ]+\ [0-9]+ | yes | no
    )\n)*""",
    re.VERBOSE,
)


@dataclass
class Found:
    """What was compared: how many inputs, and what came up in how many of them. `differences` are full reports."""

    counts: Counter[str] = field(default_factory=Counter)
    slowest: float = 0.0
    differences: list["Difference"] = field(default_factory=list)

    def add(self, other: "Found") -> None:
        self.counts += other.counts
        self.slowest = max(self.slowest, other.slowest)
        self.differences += other.differences


@dataclass
class Difference:
    """An input, and the two answers."""

    seed: str
    command: str
    bundle: bytes
    file: bytes
    wanted: Answer
    got: Answer
    what: str

    def report(self) -> str:
        wanted, got = (answer[0].decode(errors="replace").split("\n") for answer in (self.wanted, self.got))
        at = next((at for at, pair in enumerate(zip(wanted, got)) if pair[0] != pair[1]), min(len(wanted), len(got)))
        parts = [f"machine {self.seed}, {self.command}: {self.what}"]
        parts += [f"line {at + 1}, model:   {line}" for line in wanted[at : at + 1] or ["(no line)"]]
        parts += [f"line {at + 1}, program: {line}" for line in got[at : at + 1] or ["(no line)"]]
        parts += ["--- bundle:", self.bundle.decode(errors="replace")]
        if self.command != "check":
            file = "certificate" if self.command == "verify" else "log"
            parts += [f"--- {file}:", self.file.decode(errors="replace")]
        parts += ["--- model:", *wanted[:MOST_LINES], f"status {self.wanted[1]}"]
        parts += ["--- program:", *got[:MOST_LINES], f"status {self.got[1]}"]
        return "\n".join(parts) + "\n"

    def keep(self, folder: Path) -> None:
        room = folder / f"{self.seed.replace('/', '_')}_{self.command}"
        room.mkdir(parents=True, exist_ok=True)
        texts = {"bundle": self.bundle, "file": self.file, "model": self.wanted[0], "program": self.got[0]}
        for name, text in texts.items():
            (room / name).write_bytes(text)
        (room / "report").write_text(self.report())


def kind_of_line(line: str) -> str:
    """What a line of a play is: `line: coil pulse`, or the like."""
    words = line.split(" ")
    if words[0] == "refused":
        return f"line: refused {words[-1]}"
    return f"line: {words[2]} {words[4]}" if words[2] in ("coil", "skip", "switch") else f"line: {words[2]}"


def kind_of_cycle(event: str) -> str:
    """Of an event in a cycle: whether a ball save or a multiball posts it, or a trough that may have been asked."""
    for kind in ("ball_save_", "multiball_", "balldevice_"):
        if event.startswith(kind):
            return f"cycle of a {kind.strip('_')}"
    return ""


def seconds_of_children() -> float:
    """What the processes that have ended took of the processor."""
    used = resource.getrusage(resource.RUSAGE_CHILDREN)
    return used.ru_utime + used.ru_stime


def lines_of(output: bytes) -> list[str]:
    """The lines of an output. Only LF ends one: a name may have other bytes that end lines elsewhere."""
    return output.decode(errors="replace").split("\n")[:-1]


def right_certificate(drawing: random.Random, judged: Judged) -> bytes:
    """The certificate of a plan; that of any weights if there are none that are right."""
    if isinstance(judged.least, dict):
        return judged.certificate().encode()
    weights = {event: drawing.choice([1, 2, 5, 50]) for event in judged.plan.events}
    return judged.certificate_of(weights).text().encode()


class Comparison:
    """Asks the program about drawn machines. `room` is a folder for its files."""

    def __init__(self, program: Path, room: Path):
        self.program, self.room, self.found = program, room, Found()
        self.seed, self.took = "", 0.0

    def ask(self, command: str, bundle: bytes, file: bytes = b"", folder: Path | None = None) -> Answer:
        """What the program answers of a bundle, or of a folder."""
        (self.room / "bundle").write_bytes(bundle)
        words = [str(self.program), command]
        if command != "check":
            (self.room / "file").write_bytes(file)
            words.append(str(self.room / "file"))
        words += [str(folder)] if folder else []
        before = seconds_of_children()
        with open(self.room / "bundle", "rb") as text:
            output = {"stdout": subprocess.PIPE, "stderr": subprocess.STDOUT}
            try:
                run = subprocess.run(words, stdin=text, timeout=MOST_SECONDS, close_fds=False, **output)
            except subprocess.TimeoutExpired:
                return b"", -1
        self.took = seconds_of_children() - before
        self.found.slowest = max(self.found.slowest, self.took)
        self.found.counts["answers"] += 1
        return run.stdout, run.returncode

    def compare(self, command: str, bundle: bytes, file: bytes, wanted: Answer, folder: Path | None = None) -> None:
        got = self.ask(command, bundle, file, folder)
        if self.took > SECONDS:
            self.differ(command, bundle, file, wanted, got, f"it took {self.took:.1f} seconds")
        elif not FORMS.fullmatch(got[0]):
            self.differ(command, bundle, file, wanted, got, "a line has no form of a line")
        elif got != wanted:
            self.differ(command, bundle, file, wanted, got, "another answer")

    def differ(self, command: str, bundle: bytes, file: bytes, wanted: Answer, got: Answer, what: str) -> None:
        self.found.differences.append(Difference(self.seed, command, bundle, file, wanted, got, what))

    def count(self, *what: str) -> None:
        self.found.counts.update(what)

    def drawn(self, seed: str, number: int) -> None:
        """Compares the machine of this number, and what is drawn with it."""
        self.machine(f"{seed}/{number}")
        for part in range(EDGES):
            self.edges(f"{seed}/{number}/edges/{part}")
        if number % MACHINES_FOR_WANTED == 0:
            self.wanted(f"{seed}/{number}/wanted")
        for part in range(CASCADES):
            self.cascade(f"{seed}/{number}/{part}")

    # One machine

    def machine(self, seed: str) -> None:
        self.seed = seed
        drawing = random.Random(seed)
        drawn = draw.machine(drawing)
        if drawing.random() < 0.5:
            plant.plant(drawing, drawn)
        self.count(*{f"section {name}" for text in drawn.texts.values() for name in text if name in SECTIONS})
        bundle = drawn.bundle(drawing)
        if not drawn.planted and drawing.random() < 0.2:
            assert all(means(read(text), drawn.texts[name]) for name, text in split_bundle(bundle)), seed
        judged = judge(bundle)
        self.checked(judged)
        if judged.is_accepted:
            self.cost(judged.costs, judged.least)
        certified = b""
        if judged.plan:
            certified = right_certificate(drawing, judged)
            self.verified(judged, certified, *(damage.certificate(drawing, certified) for _ in range(DAMAGED)))
        elif drawing.random() < 0.2:
            self.compare("verify", bundle, b"?", judged.check())
            self.count("verify: refused")
        self.played(drawing, judged, logs.log(drawing, drawn))
        for _ in range(2):
            self.damaged(drawing, drawn, bundle, certified)
        if drawing.random() < 0.1:
            self.foldered(drawing, bundle)
        if drawing.random() < 0.3:
            self.checked(judge(f"@ {MACHINE_TEXT}\n{VERSION}\n{drawing.choice(odd.TEXTS)}".encode()))
        if drawing.random() < 0.5:
            self.checked(judge(f"@ {MACHINE_TEXT}\n{VERSION}\n{drawing.choice(odd.SAVE_TEXTS)}".encode()))
        for _ in range(ODD):
            text = f"@ {MACHINE_TEXT}\n{VERSION}\n{odd.drawn(drawing)}".encode()
            self.compare("check", text, b"", judge(text).check())
        self.count("machines")

    def checked(self, judged: Judged) -> None:
        answer = judged.check()
        self.compare("check", judged.bundle, b"", answer)
        for line in lines_of(answer[0]):
            words = line.split(" ")
            if words[0] in ("yes", "no"):
                self.count(f"check: {words[0]}")
            elif words[0] == "note":
                self.count(f"note {next(word for word in words if word in ('skipped', 'absent', 'unlisted'))}")
            elif words[0] in ("error", "fault"):
                self.count(" ".join(words[:3]))
            if words[:2] == ["fault", "7"]:
                self.count(f"limit of {words[3]}")
            if words[0] == "error" and words[1] == "3":
                self.count(f"Yaml {words[-1]}")
            if words[:2] in (["error", "6"], ["error", "7"]) and words[-1] in OF_SAVES:
                self.count(f"error of {words[-1]}")
            if words[:2] == ["fault", "8"]:
                self.count(*{kind_of_cycle(word) for word in words[3:]} - {""})

    def cost(self, costs: Costs, weights: Weights) -> None:
        """Counts what a drained ball costs most by, and when the bound is that of a save's alarm."""
        dearest = costs.dearest_drain(weights)
        self.count(*([f"dearest of a drain: {dearest}"] if dearest else []), *costs.bounds_of_saves(weights))

    def verified(self, judged: Judged, *texts: bytes) -> None:
        for text in texts:
            answer = judged.verify(text)
            self.compare("verify", judged.bundle, text, answer)
            said = next(line for line in lines_of(answer[0]) if not line.startswith("note"))
            self.count(" ".join(["verify:", *said.split()[:4]][: 5 if "Certificate" in said else 3]))
            self.count(*["verify: yes, of version 1"] * (said == "yes" and text.startswith(VERSION_1)))

    def played(self, drawing: random.Random, judged: Judged, log: bytes) -> None:
        texts = [log, damage.damaged(drawing, log)] if judged.is_accepted else [log]
        for text in texts:
            seen: Counter[str] = Counter()
            try:
                answer = judged.play(text, seen)
            except TooLong:
                self.count("play: too long to compare")
                continue
            self.compare("play", judged.bundle, text, answer)
            self.count("play" if judged.is_accepted else "play: refused", *seen)
            if judged.is_accepted:
                self.count(*{kind_of_line(line) for line in lines_of(answer[0])})
                self.found.counts["lines of plays"] += answer[0].count(b"\n")

    def damaged(self, drawing: random.Random, drawn: draw.Drawn, bundle: bytes, certified: bytes) -> None:
        """A damaged bundle, now and then with the certificate of the machine before the damage."""
        judged = judge(damage.damaged(drawing, bundle))
        self.count("damaged bundle")
        if judged.plan and drawing.random() < 0.3:
            self.verified(judged, drawing.choice([certified, damage.damaged(drawing, certified)]))
            self.count("damaged bundle: verify")
        if judged.is_accepted:
            self.count("damaged bundle: yes")
            self.played(drawing, judged, logs.log(drawing, drawn))
        self.checked(judged)

    def foldered(self, drawing: random.Random, bundle: bytes) -> None:
        """The texts of a bundle as files of a folder, one perhaps damaged."""
        try:
            files = dict(split_bundle(bundle))
        except ConfigFault:
            return
        files = {name: text for name, text in files.items() if re.fullmatch(r"(modes/[\w.-]+/)?config/[\w.-]+", name)}
        name = drawing.choice([*files])
        files[name] = drawing.choice([files[name], damage.damaged(drawing, files[name])])
        folder = self.room / "folder"
        for name, text in files.items():
            (folder / name).parent.mkdir(parents=True, exist_ok=True)
            (folder / name).write_bytes(text)
        judged = judge(joined(files))
        self.compare("check", judged.bundle, b"", judged.check(), folder)
        self.count("folder")
        shutil.rmtree(folder)

    def wanted(self, seed: str) -> None:
        """A trough that is asked for many balls."""
        self.seed = seed
        bundle, log = wanted.drawn(random.Random(seed))
        judged, seen = judge(bundle), Counter()
        self.compare("play", bundle, log, judged.play(log, seen))
        self.count("many balls wanted", *seen)

    def edges(self, seed: str) -> None:
        """A machine whose log comes close to the moments at which a rule changes."""
        self.seed = seed
        bundle, log = edges.drawn(random.Random(seed))
        self.compare("play", bundle, log, judge(bundle).play(log))
        self.count("moments at an edge")

    def once(self) -> None:
        """The texts that are compared once in each run."""
        small = judge(once.machine(once.SMALL))
        for number, (command, bundle, file) in enumerate(once.questions(small.certificate().encode())):
            self.seed = f"once/{number}"
            judged = small if bundle == small.bundle else judge(bundle)
            self.compare(command, bundle, file, judged.answer(command, file))
            self.count("once")

    def greatest(self) -> None:
        """A machine in which values come to their limits. Its long answer is not looked at as the others are."""
        self.seed, slowest = "greatest", self.found.slowest
        bundle, log = greatest.drawn()
        wanted, got = judge(bundle).play(log, most_lines=GREATEST_LINES), self.ask("play", bundle, log)
        if got != wanted:
            self.differ("play", bundle, log, wanted, got, "another answer")
        self.found.slowest = slowest
        self.count("greatest values")

    def cascade(self, seed: str) -> None:
        """A machine of long cascades, by the model that knows these alone."""
        self.seed = seed
        machine = cascades.Machine(random.Random(seed))
        asked: list[tuple[str, bytes, bytes, Answer]] = []

        def ask(command: str, bundle: bytes, file: bytes) -> bytes:
            asked.append((command, bundle, file, self.ask(command, bundle, file)))
            return asked[-1][-1][0]

        try:
            self.count(*(f"cascades: {kind}" for kind in cascades.compare(ask, machine)))
        except (AssertionError, ValueError, IndexError) as other:
            command, bundle, file, got = asked[-1]
            self.differ(command, bundle, file, (b"", 0), got, f"another answer than the model of cascades: {other}")
