"""Checks a crate, and prints what each function of it took.

Runs `rt check --jobs 1`, which takes over what earlier checks kept in the crate's out/: remove out/incremental first to
see the whole crate. The check keeps a file for each module that it has checked, and a function has some 30 of them. The
seconds between the times of these files are what a module took, by the clock: so let nothing else run. Prints the
dearest functions and files of lemmas, with the seconds and the number of their modules, and then the sum. The status is
that of the check."""
import argparse
import re
import subprocess
import time

from sources.rooms import TOP, listed

# What Rattle names the modules that it makes of a function.
MADE = (r"\.(Lts[^.]*(\.View)?|Proof|Tie|Code(\..*)?|Statement|Met|Layout|Reads|Kinds[^.]*|Goals|Answers|Invariants"
        r"|Key)$")
LIBRARY = r"^Rattle-\w+?-(proofs|specs\.contracts|specs\.declared|specs)\."


def add_words(parser: argparse.ArgumentParser) -> None:
    parser.add_argument("crate", metavar="CRATE", choices=list(listed()))
    parser.add_argument("count", metavar="COUNT", nargs="?", type=int, default=30, help="how many to print (30)")


def main(words: argparse.Namespace) -> int:
    crate = TOP / "crates" / words.crate
    begun = time.time()
    status = subprocess.run(["rt", "check", "--jobs", "1"], cwd=crate, stdin=subprocess.DEVNULL).returncode
    files = (it for it in (crate / "out" / "incremental").rglob("*.oantt"))
    kept = sorted((it.stat().st_mtime, it.name) for it in files)
    kept = [it for it in kept if it[0] >= begun]
    spent: dict[str, list[float]] = {}
    before = kept[0][0] if kept else 0.0
    for at, name in kept:
        module = re.sub(r"(\.decls)?\.oantt$", "", name)
        spent.setdefault(re.sub(MADE, "", re.sub(LIBRARY, "", module)), []).append(at - before)
        before = at
    dearest = sorted(spent.items(), key=lambda it: -sum(it[1]))
    for name, each in dearest[: words.count]:
        print(f"{sum(each):8.1f} {len(each):4} {name}")
    print(f"{sum(map(sum, spent.values())):8.1f} {len(kept):4} in all")
    return status
