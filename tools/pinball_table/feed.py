"""What the pages see: the loop publishes it, and the threads of the pages wait for it."""
import json
from dataclasses import dataclass
from threading import Condition

MOST_LINES = 2_000  # of the trace that a page gets at once


@dataclass
class Seen:
    """What a page has seen already."""

    version: int = 0
    epoch: int = -1
    lines: int = 0


class Feed:
    def __init__(self) -> None:
        self.condition = Condition()
        self.version = self.epoch = 0
        self.state = "{}"
        self.lines: list[str] = []

    def publish(self, state: dict, lines: list[str], epoch: int) -> None:
        """`lines` only grows as long as the epoch is the same."""
        text = json.dumps(state)
        with self.condition:
            if epoch != self.epoch:
                self.lines, self.epoch = [], epoch
            self.lines.extend(lines[len(self.lines) :])
            self.state, self.version = text, self.version + 1
            self.condition.notify_all()

    def wait(self, seen: Seen, seconds: float) -> str | None:
        """What is new to a page, or none after this time."""
        with self.condition:
            if not self.condition.wait_for(lambda: self.version != seen.version, seconds):
                return None
            if seen.epoch != self.epoch:
                seen.lines = 0
            first = max(seen.lines, len(self.lines) - MOST_LINES)
            new, is_whole = self.lines[first:], seen.epoch != self.epoch or first > seen.lines
            seen.version, seen.epoch, seen.lines = self.version, self.epoch, len(self.lines)
            return f'{{"state": {self.state}, "anew": {json.dumps(is_whole)}, "lines": {json.dumps(new)}}}'
