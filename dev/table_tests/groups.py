"""The process groups that the tests have started. What a test leaves is ended by the group, and nothing else is."""
import os
import signal
import subprocess
from contextlib import suppress
from typing import Any

started: set[int] = set()


def start(words: list[str], **how: Any) -> subprocess.Popen:
    """Starts a process with a group of its own."""
    process = subprocess.Popen(words, start_new_session=True, **how)
    started.add(process.pid)
    return process


def end(process: subprocess.Popen) -> None:
    """Ends a process and what is left of its group. It keeps its number until it is waited for."""
    kill(process.pid)
    process.wait()
    started.discard(process.pid)


def end_all() -> None:
    for group in list(started):
        kill(group)


def kill(group: int) -> None:
    with suppress(ProcessLookupError):
        os.killpg(group, signal.SIGKILL)
