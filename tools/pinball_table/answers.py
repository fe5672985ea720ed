"""Where the answers come from: the program, asked line by line of a log.

`Answers` has two forms. `Live` talks to `pinball_live`, which answers each line when it comes. `Replay` plays the whole
log again by `pinball play` at each change of a switch: for short logs, and where there is no `pinball_live`.
"""
import os
import re
import select
import subprocess
import tempfile
import time
from abc import ABC, abstractmethod
from pathlib import Path
from typing import Iterator

from pinball_help.texts import read_texts, write_texts

AHEAD = 5_000  # ms: how far a replay looks ahead for what is due
LATEST = (1 << 40) - 1  # ms: the program takes no later moment
LOADING = 60.0  # s: how long a program may take to read a folder


class Gone(Exception):
    """The program has ended, or has not answered in time. `lines` is what it wrote last."""

    def __init__(self, why: str, lines: list[str] | None = None):
        super().__init__(why)
        self.why, self.lines = why, lines or []


class Refused(Exception):
    """The program has refused the machine, or a line."""


class Answers(ABC):
    """Answers the lines of one log, in their order. `due` is the moment of the next alarm, or none.

    The program is started more than once. So it reads a copy of the texts, which stays as it is if somebody edits them."""

    due: int | None = None
    beat: float | None = None  # s: while a coil is held, it is to be asked so often, which shows that it does not hang

    def __init__(self, program: str, folder: Path, patience: float):
        self.program, self.patience = program, patience
        self.room = tempfile.TemporaryDirectory(prefix="pinball-table-")
        self.folder = Path(self.room.name)
        write_texts(read_texts(folder), self.folder)

    @abstractmethod
    def ask(self, line: str) -> list[str]:
        """What `pinball play` writes for this line. Raises Gone and Refused."""

    def ask_log(self, lines: list[str]) -> Iterator[tuple[str, list[str]]]:
        """Asks lines whose moments do not go back, and waits for what is due between them."""
        for line in lines:
            while self.due is not None and self.due < moment_of(line):
                wait = str(self.due)
                yield wait, self.ask(wait)
            yield line, self.ask(line)

    @abstractmethod
    def rewind(self, lines: list[str]) -> None:
        """Goes back: from now on, only these lines have been asked."""

    @abstractmethod
    def end(self) -> list[str]:
        """Shuts the machine down: a line for each coil that is put off."""

    def watched(self) -> int | None:
        """The file that is ready to be read once the program has ended, or none."""
        return None

    def check(self) -> None:
        """Raises Gone if the program has ended though nobody has asked it."""

    def close(self) -> None:
        """Ends the program without a word."""


def moment_of(line: str) -> int:
    """The moment of a line of a log or of a trace; -1 of any other line."""
    found = re.match(r"\d+", line)
    return int(found[0]) if found else -1


def is_wait(line: str) -> bool:
    return " " not in line


def without_waits(lines: list[str]) -> list[str]:
    """The lines of a log without those that only wait, which change nothing if another line follows."""
    return [line for at, line in enumerate(lines) if at == len(lines) - 1 or not is_wait(line)]


class Replay(Answers):
    """Plays the log again for each change. What comes before the next change is known ahead."""

    def __init__(self, program: str, folder: Path, patience: float = 10.0, further: int = AHEAD):
        super().__init__(program, folder, patience)
        self.further = further
        self.lines: list[str] = []
        self.given = 0  # how many lines of the trace have been given
        self.ahead: list[str] = []  # those that follow, up to the moment `seen`
        self.seen = 0
        self.off: list[str] = []
        self.play([], max(patience, LOADING))  # (so that a machine that is refused is not played)

    def play(self, lines: list[str], patience: float | None = None) -> list[str]:
        """The whole trace, without the coils that are put off at its end."""
        patience = patience or self.patience
        with tempfile.NamedTemporaryFile("w", suffix=".log") as log:
            log.write("".join(f"{line}\n" for line in lines))
            log.flush()
            try:
                ran = subprocess.run(
                    [self.program, "play", log.name, str(self.folder)], capture_output=True, timeout=patience,
                    stdin=subprocess.DEVNULL)
            except subprocess.TimeoutExpired:
                raise Gone(f"the program did not answer within {patience:g} s") from None
            except OSError as error:
                raise Gone(f"the program does not run: {error.strerror}") from None
        written = ran.stdout.decode("utf-8", "replace").splitlines()
        if ran.returncode not in (0, 1):
            raise Gone(f"the program has ended with status {ran.returncode}", [])
        if written and written[-1] == "no":
            raise Refused("\n".join(written))
        self.off = [line for line in written if is_off(line)]
        return [line for line in written if not is_off(line)]

    def ask(self, line: str) -> list[str]:
        moment = moment_of(line)
        if not (is_wait(line) and moment < self.seen):
            lines = without_waits([*self.lines, line])
            seen = min(moment + self.further, LATEST)
            found = self.play([*lines, str(seen)])[self.given :]
            if refused := next((it for it in found if it.startswith("refused")), None):
                raise Refused(f"{refused}: {line}")
            self.ahead, self.seen = found, seen
        self.lines = without_waits([*self.lines, line])
        count = next((at for at, it in enumerate(self.ahead) if moment_of(it) > moment), len(self.ahead))
        said, self.ahead = self.ahead[:count], self.ahead[count:]
        self.given += count
        self.due = moment_of(self.ahead[0]) if self.ahead else self.seen if self.seen > moment else None
        return said

    def ask_log(self, lines: list[str]) -> Iterator[tuple[str, list[str]]]:
        """Plays the whole log once. Of lines with the same moment, the last one gets what all of them cause."""
        trace, given = self.play([*self.lines, *lines])[self.given :], 0
        for at, line in enumerate(lines):
            moment = moment_of(line)
            while given < len(trace) and moment_of(trace[given]) < moment:
                wait = str(moment_of(trace[given]))
                end = next((it for it in range(given, len(trace)) if moment_of(trace[it]) > int(wait)), len(trace))
                yield wait, trace[given:end]
                given = end
            is_last = at + 1 == len(lines) or moment_of(lines[at + 1]) > moment
            end = next((it for it in range(given, len(trace)) if moment_of(trace[it]) > moment), len(trace))
            yield line, trace[given : end if is_last else given]
            given = end if is_last else given
        self.rewind([*self.lines, *lines])

    def rewind(self, lines: list[str]) -> None:
        self.lines, self.given, self.ahead, self.seen, self.due = [], 0, [], 0, None
        if lines:
            self.given = len(self.play(lines))
            self.lines = without_waits(lines)
            self.ask(str(moment_of(lines[-1])))

    def end(self) -> list[str]:
        self.play(self.lines)
        return self.off


def is_off(line: str) -> bool:
    return line.split(" ")[2:3] == ["off"]


class Live(Answers):
    """Talks to the program `pinball_live`: one line goes in, its answer comes out and ends with `due`.

    Nothing is sent before the last answer has come, so neither side ever waits for the other. While a coil is held, the
    program is asked at each beat. It has the rest of the patience to answer, so a coil is never held for longer than
    the patience by a program that hangs."""

    def __init__(self, program: str, folder: Path, patience: float = 0.5):
        super().__init__(program, folder, patience)
        self.beat = patience / 4
        self.start()

    def start(self) -> None:
        self.rest = b""
        # Python ignores SIGPIPE, and the program inherits that: if nobody reads any more, its write fails, and it shuts
        # the machine down. Otherwise the signal would end it before.
        self.process = subprocess.Popen(
            [self.program, str(self.folder)], bufsize=0, stdin=subprocess.PIPE, stdout=subprocess.PIPE,
            stderr=subprocess.DEVNULL, restore_signals=False, start_new_session=True)
        assert self.process.stdin and self.process.stdout
        self.inlet, self.outlet = self.process.stdin.fileno(), self.process.stdout.fileno()
        try:
            self.answer(LOADING)
        except Gone as gone:
            if gone.lines and (gone.lines[-1] == "no" or gone.lines[-1].startswith("refused: ")):
                raise Refused("\n".join(gone.lines)) from None
            raise

    def ask(self, line: str) -> list[str]:
        try:
            os.write(self.inlet, line.encode() + b"\n")
        except BrokenPipeError:
            raise self.gone("the program takes no line") from None
        said = self.answer(self.patience - self.beat)
        if said and said[-1].startswith("refused"):
            raise Refused(f"{said[-1]}: {line}")
        return said

    def answer(self, patience: float) -> list[str]:
        found: list[str] = []
        end = time.monotonic() + patience
        while True:
            *lines, self.rest = self.rest.split(b"\n")
            for line in lines:
                if line.startswith(b"due "):
                    self.due = None if line == b"due -" else int(line[4:])
                    return found
                found.append(line.decode("utf-8", "replace"))
            if not select.select([self.outlet], [], [], max(0.0, end - time.monotonic()))[0]:
                raise self.gone(f"the program did not answer within {patience:g} s", found)
            piece = os.read(self.outlet, 65_536)
            if not piece:
                raise self.gone("the program has ended", found)
            self.rest += piece

    def watched(self) -> int | None:
        return self.outlet

    def check(self) -> None:
        if select.select([self.outlet], [], [], 0)[0]:
            said = os.read(self.outlet, 65_536)
            raise self.gone("the program spoke unasked" if said else "the program has ended")

    def gone(self, why: str, lines: list[str] | None = None) -> Gone:
        self.process.kill()
        status = self.process.wait()
        return Gone(why if status < 0 else f"{why} with status {status}", lines)

    def rewind(self, lines: list[str]) -> None:
        self.close()
        self.start()
        for line in without_waits(lines):
            self.ask(line)

    def end(self) -> list[str]:
        """Ends the input. A program that does not end then is killed."""
        assert self.process.stdin
        self.process.stdin.close()
        rest, end = self.rest, time.monotonic() + self.patience
        while select.select([self.outlet], [], [], max(0.0, end - time.monotonic()))[0]:
            piece = os.read(self.outlet, 65_536)
            if not piece:
                self.process.wait()
                return rest.decode("utf-8", "replace").splitlines()
            rest += piece
        raise self.gone(f"the program did not end within {self.patience:g} s", rest.decode().splitlines())

    def close(self) -> None:
        self.process.kill()
        self.process.wait()
        for pipe in (self.process.stdin, self.process.stdout):
            if pipe:
                pipe.close()
