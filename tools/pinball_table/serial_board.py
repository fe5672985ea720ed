"""A board at a serial port, or at anything that looks like one. docs/table.md has its protocol, in lines of text.

The board puts off all its coils if it hears nothing within the patience, and this puts off all coils if the board does
not answer within it.
"""
import os
import re
import select
import termios
import time
import tty
from collections import deque

from .machine import Machine
from .platforms import BoardFailure, Change, Command, Platform

VERSION = 1
PATIENCE = 0.3  # s
START = 3.0  # s: a board may take so long to begin
WORD = re.compile(r"[A-Za-z0-9_.-]+")


def numbers_of(kind: str, parts: dict) -> dict[str, str]:
    """What the board calls each switch or coil: its `number`, if that is one word, else its name."""
    found: dict[str, str] = {}
    for name, part in parts.items():
        word = part.number if WORD.fullmatch(part.number) else name
        if word in found.values():
            raise BoardFailure(f"two {kind} have the number {word}")
        found[name] = word
    return found


class SerialBoard(Platform):
    is_board = True

    def __init__(self, machine: Machine, port: str, baud: int = 115_200, patience: float = PATIENCE):
        super().__init__()
        self.machine, self.patience, self.interval = machine, patience, patience / 4
        self.coils = numbers_of("coils", machine.coils)
        self.switches = {word: name for name, word in numbers_of("switches", machine.switches).items()}
        self.changes: deque[Change] = deque()
        self.rest = b""
        self.beats = 0
        self.asked = 0.0  # when the latest beat was sent
        self.is_waiting = False  # it was not answered yet
        self.is_ready = False
        self.port = open_port(port, baud)
        try:
            self.begin()
        except BaseException:
            self.close()
            raise

    def begin(self) -> None:
        """Waits until the board has said the levels of its switches."""
        self.say(f"hello {VERSION} {round(self.patience * 1000)}")
        end = time.monotonic() + START
        while not self.is_ready:
            if time.monotonic() > end:
                raise BoardFailure(f"the board did not answer `hello` within {START:g} s")
            select.select([self.port], [], [], 0.05)
            self.read(0)

    # to the board

    def carry_out(self, command: Command, moment: int) -> None:
        coil = self.coils[command.coil]
        if command.action == "pulse":
            self.say(f"pulse {coil} {command.ms} {command.power}")
        elif command.action == "enable":
            self.say(f"hold {coil} {command.power}")
        else:
            self.say(f"off {coil}")

    def say(self, line: str) -> None:
        """Sends a line, whole. Raises BoardFailure if the board does not take it within the patience."""
        data, end = line.encode() + b"\n", time.monotonic() + self.patience
        while data:
            if not select.select([], [self.port], [], max(0.0, end - time.monotonic()))[1]:
                raise BoardFailure(f"the board took no line within {self.patience:g} s")
            try:
                data = data[os.write(self.port, data) :]
            except BlockingIOError:
                pass
            except OSError as error:
                raise BoardFailure(f"the board is gone: {error.strerror}") from None

    def put_off(self, moment: int) -> list[str]:
        found, self.held = list(self.held), []
        try:
            self.say("off")
        except BoardFailure:
            pass  # (then only the board's own patience helps)
        return found

    # from the board

    def next(self) -> int | None:
        return self.changes[0].moment if self.changes else None

    def coming(self, now: int) -> Change | None:
        return self.changes.popleft() if self.changes and self.changes[0].moment <= now else None

    def watched(self) -> int | None:
        return self.port

    def poll(self, now: int) -> None:
        self.read(now)
        passed = time.monotonic() - self.asked
        if self.is_waiting and passed > self.patience:
            raise BoardFailure(f"the board did not answer within {self.patience:g} s")
        if not self.is_waiting and passed >= self.interval:
            self.beats += 1
            self.asked, self.is_waiting = time.monotonic(), True
            self.say(f"beat {self.beats}")

    def read(self, now: int) -> None:
        try:
            while select.select([self.port], [], [], 0)[0]:
                piece = os.read(self.port, 4096)
                if not piece:
                    raise BoardFailure("the board is gone")
                *lines, self.rest = (self.rest + piece).split(b"\n")
                for line in lines:
                    self.hear(line.decode("ascii", "replace").strip(), now)
        except OSError as error:
            raise BoardFailure(f"the board is gone: {error.strerror}") from None

    def hear(self, line: str, now: int) -> None:
        words = line.split()
        if words[:2] == ["hello", str(VERSION)] or not words:
            return
        if words[0] == "beat" and len(words) == 2:
            self.is_waiting = self.is_waiting and words[1:] != [str(self.beats)]
        elif words == ["ready"]:
            self.is_ready = True
        elif words[0] == "switch" and len(words) == 3 and words[1] in self.switches and words[2] in ("0", "1"):
            switch = self.machine.switches[self.switches[words[1]]]
            self.changes.append(Change(now, switch.name, int(words[2]) == switch.level(True)))
        else:
            raise BoardFailure(f"the board said `{line[:80]}`")

    def close(self) -> None:
        if self.port >= 0:
            os.close(self.port)
            self.port = -1


def open_port(path: str, baud: int) -> int:
    """Opens a serial port for raw bytes, without waiting for a carrier."""
    try:
        port = os.open(path, os.O_RDWR | os.O_NOCTTY | os.O_NONBLOCK)
    except OSError as error:
        raise BoardFailure(f"{path} does not open: {error.strerror}") from None
    if os.isatty(port):
        speed = getattr(termios, f"B{baud}", None)
        if speed is None:
            os.close(port)
            raise BoardFailure(f"{baud} is not a speed of a serial port")
        tty.setraw(port)
        settings = termios.tcgetattr(port)
        settings[2] |= termios.CLOCAL | termios.CREAD
        settings[4] = settings[5] = speed
        termios.tcsetattr(port, termios.TCSANOW, settings)
        termios.tcflush(port, termios.TCIOFLUSH)
    return port
