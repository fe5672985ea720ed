"""What the kernel's account has of whole processes: wall time, processor time, peak resident memory, exit status."""
import ctypes
import dataclasses
import os
import pathlib
import statistics
import subprocess
import sys
import time

KIB = 1 << 10
MIB = 1 << 20
WEIGHED = 3  # how often the memory is taken
# How `check` and `play` end if they have an answer.
ANSWERED = (0, 1)
# Of Linux's prctl: what a child of ours leaves behind becomes a child of ours.
PR_SET_CHILD_SUBREAPER = 36
LEAVE = 'exec "$@" <"$0" >/dev/null 2>&1 &'


@dataclasses.dataclass(frozen=True)
class Cost:
    """Seconds, bytes of peak memory, and an exit status."""

    seconds: float
    memory: int
    status: int


def start(command: list[str], path: pathlib.Path) -> int:
    """Starts a command with a file as its input, throws its output away, and gives the number of its process. The
    process is spawned and not forked: a copy of this one, whose memory is larger than theirs, would weigh in every
    time."""
    streams = [
        (os.POSIX_SPAWN_OPEN, 0, path, os.O_RDONLY, 0),
        (os.POSIX_SPAWN_OPEN, 1, os.devnull, os.O_WRONLY, 0),
        (os.POSIX_SPAWN_DUP2, 1, 2),
    ]
    try:
        return os.posix_spawn(command[0], command, os.environ, file_actions=streams)
    except OSError as fault:
        sys.exit(f"{command[0]} could not be started: {fault.strerror}")


def timed(command: list[str], path: pathlib.Path) -> tuple[float, int]:
    """Seconds of wall time, from before the command is started until it has ended, and the exit status."""
    begin = time.perf_counter()
    _, status = os.waitpid(start(command, path), 0)
    return time.perf_counter() - begin, os.waitstatus_to_exitcode(status)


def used(command: list[str], path: pathlib.Path) -> Cost:
    """The processor time and the peak memory of a command with a file as its input, as `wait4` gives them. The account
    of a process begins with the peak of the process that starts it. So a small shell starts the command, and ends
    before it: then we wait for the command."""
    if ctypes.CDLL(None).prctl(PR_SET_CHILD_SUBREAPER, 1, 0, 0, 0) != 0:
        sys.exit("this kernel gives no account of a process that its parent leaves behind")
    subprocess.run(["/bin/sh", "-c", LEAVE, str(path), *command], check=True)
    _, status, usage = os.wait4(-1, 0)
    status = os.waitstatus_to_exitcode(status)
    if status not in ANSWERED:
        sys.exit(f"{command}: status {status}")
    return Cost(usage.ru_utime + usage.ru_stime, usage.ru_maxrss * KIB, status)


def measured(command: list[str], path: pathlib.Path, runs: int) -> Cost:
    """The median wall time of so many runs, and the greatest memory of some more."""
    return cost_of(command, path, [timed(command, path) for _ in range(runs)])


def measured_in_turn(commands: list[list[str]], paths: list[pathlib.Path], runs: int) -> list[Cost]:
    """The same for each of these commands and its file: each is run once, and then all of them again. So if the
    machine's speed changes, it changes for all."""
    pairs = [*zip(commands, paths)]
    results = [[timed(command, path) for command, path in pairs] for _ in range(runs)]
    return [cost_of(command, path, list(of_pair)) for (command, path), of_pair in zip(pairs, zip(*results))]


def least_in_turn(commands: list[list[str]], paths: list[pathlib.Path], runs: int) -> list[Cost]:
    """The least processor time, and the greatest memory, of so many runs of each of these commands and its file. They
    run in turn, as above. Other work of the machine can only make a run slower, so the least says the most."""
    results = [[used(command, path) for command, path in zip(commands, paths)] for _ in range(runs)]
    return [least_of(list(of_command)) for of_command in zip(*results)]


def least_of(costs: list[Cost]) -> Cost:
    """The least time and the greatest memory of these runs."""
    return Cost(min(cost.seconds for cost in costs), max(cost.memory for cost in costs), costs[0].status)


def cost_of(command: list[str], path: pathlib.Path, results: list[tuple[float, int]]) -> Cost:
    """The median wall time of these runs, and the greatest memory of some more."""
    more = [used(command, path) for _ in range(WEIGHED)]
    statuses = {status for _, status in results} | {cost.status for cost in more}
    if len(statuses) > 1:
        sys.exit(f"{command[0]} ends in different ways: {sorted(statuses)}")
    seconds = statistics.median(seconds for seconds, _ in results)
    return Cost(seconds, max(cost.memory for cost in more), statuses.pop())
