"""What the tests share: the list of tests, the programs, machines made of a text, and a table that runs."""
import contextlib
import http.client
import json
import os
import signal
import subprocess
import sys
import tempfile
import time
from pathlib import Path
from typing import Any, Callable, Iterator

from pinball_table.answers import Answers, Replay
from pinball_table.machine import Machine, read_machine
from pinball_table.session import Session
from pinball_table.settings import FILE, read_settings
from pinball_table.smart_table import SmartTable

from . import groups

TOP = Path(__file__).resolve().parents[2]
COMPLETE = TOP / "examples/complete"
EXAMPLES = sorted(it.parent for it in (TOP / "examples").glob("*/expected-play"))
STAND_IN = Path(__file__).with_name("stand_in.py")
SLOW = 150.0  # s: nothing takes so long, even with an unproved program on a busy computer
SOON = 60.0  # s: far above what it takes on a quiet computer

TESTS: list[Callable[[], None]] = []
programs = {"pinball": "", "live": str(STAND_IN)}


class Skipped(Exception):
    """This machine has not what a test needs."""


def test(function: Callable[[], None]) -> Callable[[], None]:
    TESTS.append(function)
    return function


def set_programs(pinball: Path, live: Path | None) -> None:
    programs["pinball"] = str(pinball)
    os.environ["PINBALL"] = str(pinball)  # (for the stand-in)
    if live:
        programs["live"] = str(live)


def equal(found: Any, wanted: Any) -> None:
    assert found == wanted, f"{found!r}, and not {wanted!r}"


# machines


@contextlib.contextmanager
def folder_of(text: str, modes: dict[str, str] | None = None, table: str = "", name: str = "m") -> Iterator[Path]:
    """The folder of a machine with these sections, those of its modes, and this `table.yaml`."""
    with tempfile.TemporaryDirectory(prefix="test-table-") as room:
        folder = Path(room) / name
        for mode, sections in {"": text, **(modes or {})}.items():
            file = folder / (f"modes/{mode}/config/{mode}.yaml" if mode else "config/config.yaml")
            file.parent.mkdir(parents=True)
            file.write_text(f"#config_version=6\n{sections}\n")
        if table:
            (folder / FILE).write_text(table)
        yield folder


def replayed(folder: Path) -> Answers:
    return Replay(programs["pinball"], folder, SLOW)


def session_of(folder: Path, machine: Machine | None = None) -> tuple[Session, SmartTable]:
    """A session with a simulated table, by the log's time."""
    machine = machine or read_machine(folder)
    table = SmartTable(read_settings(machine))
    session = Session(machine, replayed(folder), table)
    session.begin()
    return session, table


def played(log: list[str], folder: Path) -> list[str]:
    """What `pinball play` writes for a log."""
    with tempfile.NamedTemporaryFile("w", suffix=".log") as file:
        file.write("".join(f"{line}\n" for line in log))
        file.flush()
        words = [programs["pinball"], "play", file.name, str(folder)]
        return subprocess.run(words, capture_output=True, text=True, timeout=SLOW).stdout.splitlines()


def without_notes(trace: list[str]) -> list[str]:
    return [line for line in trace if not line.startswith("#")]


# a table that runs


class Table:
    """`tools/pinball-table` as a process of a group of its own, and a page that is none."""

    def __init__(self, folder: Path, *words: str, live: bool = False, patience: float = SLOW, program: str = ""):
        asked = ["--program", program or programs["pinball"], *(["--live", programs["live"]] if live else [])]
        # (what it has started may still write there for a moment)
        self.room = tempfile.TemporaryDirectory(prefix="test-table-", ignore_cleanup_errors=True)
        self.process = groups.start(
            [sys.executable, str(TOP / "tools/pinball-table"), str(folder), "--port", "0", "--patience", str(patience),
             *asked, *words], stdout=subprocess.PIPE, stderr=subprocess.STDOUT, text=True,
            env={**os.environ, "TMPDIR": self.room.name})
        assert self.process.stdout
        self.address = self.process.stdout.readline().strip()
        if not self.address.startswith("http://127.0.0.1:"):
            said = self.address + self.process.stdout.read()
            self.close()
            raise AssertionError(said)
        self.port = int(self.address.rstrip("/").rpartition(":")[2])

    def __enter__(self) -> "Table":
        return self

    def __exit__(self, *_: object) -> None:
        self.close()

    def close(self) -> None:
        groups.end(self.process)
        assert self.process.stdout
        self.process.stdout.close()
        self.room.cleanup()

    def request(self, method: str, path: str, body: bytes | None = None, **headers: str) -> tuple[int, bytes]:
        link = http.client.HTTPConnection("127.0.0.1", self.port, timeout=SLOW)
        try:
            link.request(method, path, body, {name.replace("_", "-"): it for name, it in headers.items()})
            reply = link.getresponse()
            return reply.status, reply.read()
        finally:
            link.close()

    def do(self, deed: str, **words: Any) -> Any:
        status, body = self.request("POST", f"/{deed}", json.dumps(words).encode(), X_Pinball="1")
        assert status == 200, f"{deed}: {status} {body.decode()}"
        return json.loads(body)

    def get(self, path: str) -> str:
        status, body = self.request("GET", path)
        equal(status, 200)
        return body.decode()

    def state(self) -> dict[str, Any]:
        return json.loads(self.get("/state"))

    def until(self, holds: Callable[[dict[str, Any]], bool], seconds: float = SLOW) -> dict[str, Any]:
        end = time.monotonic() + seconds
        while not holds(state := self.state()):
            assert time.monotonic() < end, f"not within {seconds:g} s: {state}"
            time.sleep(0.005)
        return state

    @contextlib.contextmanager
    def page(self, name: str) -> Iterator[http.client.HTTPResponse]:
        """Listens to the news, as a page does that calls itself so."""
        link = http.client.HTTPConnection("127.0.0.1", self.port, timeout=SLOW)
        link.request("GET", f"/events?page={name}")
        reply = link.getresponse()
        reply.readline()
        try:
            yield reply
        finally:
            reply.close()
            link.close()

    def child(self) -> int:
        """The process of the program that answers."""
        found = subprocess.run(["ps", "-o", "pid=", "--ppid", str(self.process.pid)], capture_output=True, text=True)
        return int(found.stdout.split()[0])

    def end(self, number: int = signal.SIGINT) -> str:
        """Ends it by a signal, and gives what it says at its end."""
        self.process.send_signal(number)
        return self.process.communicate(timeout=SLOW)[0]


def said_of(words: list[str]) -> tuple[str, int]:
    """What `tools/pinball-table` says that does not begin to play, and its status."""
    program = [] if "--program" in words else ["--program", programs["pinball"]]
    command = [sys.executable, str(TOP / "tools/pinball-table"), *words, *program]
    ran = subprocess.run(command, capture_output=True, text=True, timeout=SLOW)
    return ran.stdout + ran.stderr, ran.returncode
