#!/usr/bin/env python3
"""Stands in for `pinball_live DIR`: it has the same protocol, and gets its answers from `pinball play`.

The variable PINBALL has the path of `pinball`. A line `hang` of its own makes it silent, and `die` ends it."""
import os
import sys
import time
from pathlib import Path

TOP = Path(__file__).resolve().parents[2]
sys.path.insert(0, str(TOP / "tools"))
sys.dont_write_bytecode = True

from pinball_table.answers import Refused, Replay  # noqa: E402

FAR = 60_000  # ms: an alarm that is further away is not seen


def main() -> int:
    try:
        answers = Replay(os.environ["PINBALL"], Path(sys.argv[1]), 60.0, FAR)
    except Refused as refused:
        print(refused, flush=True)
        return 1
    write(["due -"])
    number, status = 0, 0
    for line in sys.stdin:
        number += 1
        said, status = answer(answers, line.rstrip("\n"), number, status)
        write([*said, f"due {answers.due if answers.ahead else '-'}"])
    write(answers.end())
    return status


def answer(answers: Replay, line: str, number: int, status: int) -> tuple[list[str], int]:
    if line == "hang":
        time.sleep(3600)
    if line == "die":
        os._exit(3)
    before = list(answers.lines)
    try:
        return answers.ask(line), status
    except Refused as refused:
        answers.lines = before
        return [f"refused {number} {str(refused).split()[2]} {str(refused).split()[3].rstrip(':')}"], 1


def write(lines: list[str]) -> None:
    os.write(1, "".join(f"{line}\n" for line in lines).encode())


if __name__ == "__main__":
    sys.exit(main())
