"""What is printed of a result: for people, or in the Test Anything Protocol."""
from typing import Iterator

from pinball_help.trace import Step, time_of, words_of

from .running import Result
from .script import Line
from .words import printable

BEFORE, MOST = 6, 24  # lines of the trace that are shown: before a step, and in all


def around(result: Result) -> list[str]:
    """The trace around a failure, with the lines of the test that caused it."""
    failure = result.failure
    if not failure or not result.steps:
        return []
    first = next((at for at, it in enumerate(result.steps) if it.moment >= failure.start), len(result.steps))
    last = next((at for at, it in enumerate(result.steps) if it.moment > failure.end), len(result.steps))
    from_ = max(0, first - BEFORE, last - MOST)
    shown = result.steps[from_:last]
    start = result.steps[from_ - 1].moment + 1 if from_ else 0
    actions = [it for it in result.done if start <= it[0] <= failure.end]
    lines = list(merged(actions[-MOST:], shown))
    return [*(["     .."] if from_ else []), *lines]


def merged(actions: list[tuple[int, Line]], steps: list[Step]) -> Iterator[str]:
    """The steps, each after the lines of the test that were done before it."""
    before = -1
    rest = list(actions)
    for step in steps:
        while rest and rest[0][0] <= step.moment:
            yield action_line(rest.pop(0)[1])
            before = -1
        time = time_of(step.moment) if step.moment != before else ""
        owner = "" if step.owner == "machine" else f"[{step.owner}] "
        yield f"{time:>16}  {owner}{words_of(step)}"
        before = step.moment
    yield from (action_line(line) for _, line in rest)


def action_line(line: Line) -> str:
    return f"{line.number:>5}  {line.said}"


def told(result: Result) -> list[str]:
    """Why a test failed."""
    failure = result.failure
    if not failure:
        return []
    line = failure.line
    said = f": {line.said}" if line.said else ""
    trace = around(result)
    return [
        f"{printable(str(result.file))}:{line.number}{said}",
        failure.message,
        *(["The trace around it, with the lines of the test:", *trace] if trace else []),
    ]


def name_of(result: Result) -> str:
    stem = result.file.stem
    return printable(stem if result.title == stem else f"{stem}: {result.title}")


def plain(results: Iterator[Result]) -> Iterator[str]:
    """The lines for people. The last one is `N passed, M failed`."""
    passed = failed = 0
    for result in results:
        passed, failed = passed + result.passed, failed + (not result.passed)
        yield f"{'ok    ' if result.passed else 'FAILED'}  {name_of(result)}"
        yield from (f"  {line}" for line in told(result))
    yield f"{passed} passed, {failed} failed"


def tap(results: Iterator[Result]) -> Iterator[str]:
    """The Test Anything Protocol, version 13."""
    yield "TAP version 13"
    count = 0
    for count, result in enumerate(results, 1):
        title = name_of(result).replace("\\", "\\\\").replace("#", "\\#")
        yield f"{'ok' if result.passed else 'not ok'} {count} - {title}"
        if result.failure:
            yield "  ---"
            yield f"  file: {quoted(printable(str(result.file)))}"
            yield f"  line: {result.failure.line.number}"
            yield f"  message: {quoted(result.failure.message)}"
            yield "  trace: |"
            yield from (f"    {line}" for line in told(result)[2:])
            yield "  ..."
    yield f"1..{count}"


def quoted(text: str) -> str:
    """A text as a YAML scalar."""
    return "'" + text.replace("'", "''") + "'"
