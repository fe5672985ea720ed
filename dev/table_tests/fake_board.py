"""A board that is none, at a pseudo-terminal. It has the protocol of docs/table.md, and keeps what it heard."""
import os
import select
import threading
import time
import tty
from typing import Callable


class FakeBoard:
    """`on` has the coils that are held now, and `heard` all lines with their times. `is_silent` makes it hang.

    Once a test has set `patience`, the board trips if it hears nothing for so long: then its coils are off, and it only
    hears `hello`. (That of `hello` would be over too early where all is slow.)"""

    def __init__(self, levels: dict[str, int] | None = None):
        self.master, slave = os.openpty()
        tty.setraw(self.master)
        self.path = os.ttyname(slave)
        self.slave = slave  # (kept open, so that the board does not end with the table)
        self.levels = levels or {}
        self.heard: list[tuple[float, str]] = []
        self.on: set[str] = set()
        self.patience: float | None = None  # s
        self.latest = time.monotonic()
        self.is_silent = self.has_tripped = self.is_over = False
        self.thread = threading.Thread(target=self.run, daemon=True)
        self.thread.start()

    def close(self) -> None:
        self.is_over = True
        self.thread.join()
        os.close(self.master)
        os.close(self.slave)

    def run(self) -> None:
        rest = b""
        while not self.is_over:
            if not self.is_silent and select.select([self.master], [], [], 0.005)[0]:
                *lines, rest = (rest + os.read(self.master, 4096)).split(b"\n")
                for line in lines:
                    self.hear(line.decode())
            elif self.is_silent:
                time.sleep(0.005)
            is_over = self.patience is not None and time.monotonic() - self.latest > self.patience
            if is_over and not self.has_tripped:
                self.has_tripped = True
                self.on.clear()

    def hear(self, line: str) -> None:
        self.latest = time.monotonic()
        self.heard.append((self.latest, line))
        word, *rest = line.split()
        if word == "hello":
            self.has_tripped = False
            self.say("hello 1 fake")
            for switch, level in self.levels.items():
                self.say(f"switch {switch} {level}")
            self.say("ready")
        elif self.has_tripped:
            return
        elif word == "beat":
            self.say(line)
        elif word == "hold":
            self.on.add(rest[0])
        elif word == "off":
            self.on -= {*rest} if rest else {*self.on}

    def say(self, line: str) -> None:
        os.write(self.master, line.encode() + b"\n")

    def until(self, holds: Callable[[], bool], seconds: float = 60.0) -> None:
        """Waits until something holds."""
        end = time.monotonic() + seconds
        while not holds():
            assert time.monotonic() < end, f"not within {seconds:g} s; heard {self.heard[-5:]}"
            time.sleep(0.005)

    def has_heard(self, line: str) -> bool:
        return any(it == line for _, it in self.heard)
