"""Counts the names that each crate imports from the proofs below it, and says from which crates they are.

Prints a table in Markdown."""
import argparse
from collections import Counter

from linting.imports import all_cited
from sources.rooms import listed


def add_words(parser: argparse.ArgumentParser) -> None:
    pass


def main(words: argparse.Namespace) -> int:
    counts: dict[str, Counter[str]] = {it: Counter() for it in listed()}
    for crate, _, cited in all_cited():
        if cited.room == "proofs" and cited.name:
            counts[crate][cited.crate] += 1
    print("| Crate | Names from proofs below | Of these from |")
    print("|---|---|---|")
    for crate, count in counts.items():
        most = sorted(count.items(), key=lambda it: (-it[1], it[0]))
        if most:
            print(f"| `{crate}` | {count.total()} | {', '.join(f'`{it}` {n}' for it, n in most)} |")
    print(f"| all | {sum(it.total() for it in counts.values())} | |")
    return 0
