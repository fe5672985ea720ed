"""Makes a table of the gate, in Markdown: how large each crate is, and what it took.

LOG is what tools/test printed. A line for each crate has its functions that LOG says are proved, derived ones among
them, or its tests; its lines of code (with contracts), of definitions and of proofs; its edits in must-fail/ and in
also-refused/; and the processor seconds for its proof, its tests and its must-fail edits, with those of the longest
check of an edit but the first, which proves the whole crate. Below are the sums, what is in no crate (rt itself, and
the runs of programs and tests), and the whole gate. Last comes how many times the fixed check the whole gate took. That
is the proof of one crate that seldom changes, in the same gate, so that figures of other machines can be compared. The
status is 1 if LOG says of no crate that it is proved, or has no times."""
import argparse
import re
import sys
from dataclasses import dataclass, field
from pathlib import Path

from sources.rooms import TOP, listed

FOLDERS = (("src", "rt"), ("specs", "antt"), ("proofs", "antt"))
PARTS = ("proof", "tests", "edit")
HEADS = ("Crate", "Functions", "Code, specs, proofs (lines)", "Must-fail", "Also refused", "Proof", "Tests", "Edits",
         "Longest")
# The crate whose proof is the fixed check.
FIXED = "yaml_subset"


@dataclass
class Times:
    """Processor seconds of the whole gate, of each part of each crate, and of the longest check of an edit."""

    whole: float = 0.0
    spent: dict[tuple[str, str], float] = field(default_factory=dict)
    longest: dict[str, float] = field(default_factory=dict)


def times_of(log: str) -> Times:
    times = Times()
    for line in log.splitlines():
        match line.split():
            case ["seconds", "-", "all", seconds]:
                times.whole += float(seconds)
            case ["seconds", crate, part, seconds, _, longest]:
                times.spent[crate, part] = float(seconds)
                if part == "edit":
                    times.longest[crate] = float(longest)
    return times


def functions_of(log: str) -> dict[str, str]:
    """What LOG says of each crate: the number of its functions, or of its tests."""
    found = {}
    for part in re.split(r"^== ", log, flags=re.M)[1:]:
        name, _, rest = part.partition("\n")
        crate, _, of_tests = name.partition(":")
        if of_tests and (tests := re.search(r"^(?:logic=proved\b.* )?tests=([1-9]\d*)", rest, re.M)):
            found[crate] = f"{tests[1]} tests"
        elif not of_tests and (proved := re.search(r"^logic=proved functions=(\d+)", rest, re.M)):
            found[crate] = proved[1]
    return found


def lines(crate: Path, folder: str, ending: str) -> int:
    return sum(len(it.read_text().splitlines()) for it in crate.glob(f"{folder}/**/*.{ending}"))


def seconds(number: float | None) -> str:
    return f"{number:,.0f}" if number else ""


def row_of(crate: str, functions: str, times: Times) -> list[str]:
    folder = TOP / "crates" / crate
    sizes = ", ".join(f"{it:,}" for it in (lines(folder, *each) for each in FOLDERS) if it)
    edits = [str(len(list(folder.glob(f"{it}/*.edit"))) or "") for it in ("must-fail", "also-refused")]
    spent = [seconds(times.spent.get((crate, part))) for part in PARTS]
    return [f"`{crate}`", functions, sizes, *edits, *spent, seconds(times.longest.get(crate))]


def add_words(parser: argparse.ArgumentParser) -> None:
    parser.add_argument("log", type=Path, metavar="LOG")


def main(words: argparse.Namespace) -> int:
    log = words.log.read_text(errors="replace")
    functions, times = functions_of(log), times_of(log)
    if not functions or not times.spent:
        sys.exit(f"{words.log} has no proved crate, or no line `seconds ..`: it is no log of tools/test")
    sums = [sum(it for (_, part), it in times.spent.items() if part == one) for one in PARTS]
    crates = [it for it in listed() if it in functions]
    rows = [list(HEADS), ["---"] * len(HEADS), *(row_of(it, functions[it], times) for it in crates),
            ["all crates", "", "", "", "", *map(seconds, sums), ""]]
    for row in rows:
        print("|" + "|".join(f" {it} " if it else " " for it in row) + "|")
    print(f"\nAll else took {times.whole - sum(sums):,.0f} processor seconds, and the whole gate {times.whole:,.0f},")
    print(f"which is {times.whole / 60:.1f} processor minutes.")
    if fixed := times.spent.get((FIXED, "proof")):
        print(f"That is {times.whole / fixed:.1f} times the fixed check, the proof of {FIXED} ({fixed:.1f} seconds).")
    return 0
