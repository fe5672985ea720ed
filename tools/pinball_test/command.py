"""The words of the command line, and what is written."""
import argparse
import sys
from pathlib import Path
from typing import Iterator

from pinball_help import program
from pinball_help.program import LIVE, NoAnswer, Program, find_live
from pinball_help.texts import MACHINE

from . import junit, report
from .reading import read_tests
from .running import Result, refused, run, unreadable
from .script import BadLine
from .tested import Refused, read_tested

ABOUT = "Plays the tests of a machine's rules, and says which fail."
MORE = "docs/rules_as_tests.md has the language, and says what the exit statuses mean."
HOW = "docs/rules_as_tests.md says how to write one"


def parser() -> argparse.ArgumentParser:
    top = argparse.ArgumentParser(prog="pinball-test", description=ABOUT, epilog=MORE)
    top.add_argument("dir", metavar="DIR", help="the folder of the machine, the one that has `config/` in it")
    top.add_argument("tests", metavar="TEST", nargs="*", help="a file of tests, or its name in DIR/tests; else all")
    top.add_argument("--tap", action="store_true", help="writes the Test Anything Protocol")
    top.add_argument("--junit", metavar="FILE", help="writes JUnit's XML to FILE too")
    top.add_argument("--logs", metavar="FOLDER", help="writes the log of each test to FOLDER, for `pinball play`")
    top.add_argument("--program", metavar="PATH", help="the program `pinball`, if not the proved one")
    top.add_argument("--live", metavar="PATH", help=f"the program `{LIVE}`, if not the one beside `pinball`")
    return top


def files_of(folder: Path, given: list[str]) -> list[Path]:
    """The files of tests. Raises ValueError where there is none."""
    tests = folder / "tests"
    if not given:
        found = sorted(it for it in tests.glob("*.test") if it.is_file())
        if not found:
            raise ValueError(f"there is no file {tests}/*.test: {HOW}")
        return found
    found = []
    for name in given:
        places = [Path(name), tests / name, tests / f"{name}.test"]
        file = next((it for it in places if it.is_file()), None)
        if not file:
            raise ValueError(f"there is no test {name}, and no {places[-1]}: {HOW}")
        found.append(file)
    return found


def results_of(folder: Path, files: list[Path], tool: Program, live: str | None) -> Iterator[Result]:
    try:
        tested = read_tested(folder, tool, live)
    except Refused as error:
        yield refused(folder / MACHINE, str(error))
        return
    for file in files:
        try:
            tests = read_tests(file)
        except (BadLine, OSError) as error:
            yield unreadable(file, error)
            continue
        for test in tests:
            yield run(file, test, tested)


def write(asked: argparse.Namespace) -> int:
    folder = Path(asked.dir)
    files = files_of(folder, asked.tests)
    tool = program.find(asked.program)
    program.report(tool)
    live = None if asked.program and not asked.live else find_live(asked.live, tool.path)
    results: list[Result] = []

    def kept() -> Iterator[Result]:
        for result in results_of(folder, files, tool, live):
            results.append(result)
            yield result

    for line in (report.tap if asked.tap else report.plain)(kept()):
        print(line, flush=True)
    if asked.junit:
        Path(asked.junit).write_bytes(junit.document(results))
    if asked.logs:
        write_logs(Path(asked.logs), results)
    if any(it.is_unreadable for it in results):
        return 2
    return 0 if all(it.passed for it in results) else 1


def write_logs(folder: Path, results: list[Result]) -> None:
    """Writes what each test did as a log."""
    folder.mkdir(parents=True, exist_ok=True)
    for number, result in enumerate(results, 1):
        if result.log:
            text = "".join(f"{line}\n" for line in [f"# {report.name_of(result)}", *result.log])
            (folder / f"{number:03}_{result.file.stem}.log").write_text(text, "utf-8")


def main() -> int:
    asked = parser().parse_intermixed_args()
    sys.stdout.reconfigure(errors="backslashreplace")  # type: ignore[union-attr]
    try:
        return write(asked)
    except KeyboardInterrupt:
        return 130  # (as a shell does)
    except NoAnswer as error:
        print(f"pinball-test: {error}", file=sys.stderr)
        return 3
    except (OSError, ValueError) as error:
        if isinstance(error, BrokenPipeError):
            sys.stderr.close()  # (nobody reads on: Python would complain as it ends)
            return 0
        missing = isinstance(error, FileNotFoundError) and str(error.filename).endswith(MACHINE)
        words = f"there is no {error.filename}: give the folder that has `config/` in it" if missing else error
        print(f"pinball-test: {words}", file=sys.stderr)
        return 2
