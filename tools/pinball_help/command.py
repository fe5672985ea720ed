"""The words of the command line, and what each subcommand writes."""
import argparse
import io
import json
import re
import shlex
import sys
from dataclasses import asdict, replace
from pathlib import Path

from . import errors, hints, lines, picture, program, schema, short, trace, unused
from .adopt import command as adopt
from .answers import Answer, answer_of, complaint_of
from .findings import Finding, as_json, cure_of, finding_of, shown
from .printed import clean
from .program import NoAnswer, Program, path_of, work_bound
from .scenery import Scenery
from .texts import MACHINE, Log, read_texts, write_texts
from .ways import Cure

ABOUT = "Helps with the answers of pinball: it calls the program and reads what it says. It proves nothing."
MORE = "docs/builders_bench.md has examples, and says what the exit statuses mean."
NO_PROOF = "These are hints, and nothing here is proved. The answer that counts is that of `pinball check`."

LINE_NUMBERS = (
    "Line numbers are those of your files now: begin with the last one, or run this again after each change."
)
MAY_BE_MORE = "There may be others that come after the last of these: mend it, and look again."
CUT_SHORT = "There may be others, as time ran out: mend these, and look again; or give it more time by --within SECONDS."
MOST_IN_FULL = 8  # findings; more are listed in short form
MOST_STEPS = 1_000_000  # that `pinball_live` takes
MOST_CURES = 200  # that `explain` looks for in the texts: each may take milliseconds
MOST_NAMES = 3  # of switches that are named, and not counted
MOST_OF_YES = 10_000  # lines of a certificate, which has one for each event and switch


def write_errors(asked: argparse.Namespace) -> int:
    tool = find(asked)
    keep = Path(asked.keep) if asked.keep else None
    if keep and keep.exists():
        raise ValueError(f"{keep} is there already: give the name of a folder that is not")
    report = errors.search(tool, Path(asked.dir), leave_out=keep is not None, within=asked.within)
    found = [it for it in report.findings if not it.follows]
    if keep:
        write_texts(report.texts, keep)
    warning = kept_words(report, keep) if keep and report.findings else ""
    more = hints.hints(report.scene, Path(asked.dir))
    if asked.json or asked.lines:
        print(for_editors(asked, report, found, more), end="")
        print(f"{may_be_more(report)}\n" * is_open(report) + warning, end="", file=sys.stderr)
        return 1 if found else 0
    print(warning, end="\n" if warning else "")
    is_short = len(found) > MOST_IN_FULL and not asked.full
    if is_short:
        print("\n".join(short.shown(found)))
    for number, finding in enumerate([] if is_short else found, 1):
        print(f"{number}. " + "\n".join(shown(finding)) + "\n")
    for it in more:
        print(clean(f"{it.text}:{it.line}: hint {it.key}: {it.says}"))
    print(counted(report, found, f"pinball-help errors --full {clean(shlex.quote(asked.dir))}" if is_short else ""))
    print(NO_PROOF)
    print(warning, end="")
    return 1 if found else 0


def for_editors(asked: argparse.Namespace, report: errors.Report, found: list[Finding], more: list[hints.Hint]) -> str:
    """The findings and the hints as JSON; or in lines, with what is not read."""
    if asked.json:
        return json.dumps([*(as_json(it) for it in found), *map(hint_as_json, more)], indent=2) + "\n"
    notes = lines.notes_of(report.scene, report.answer)
    return "".join(f"{it}\n" for it in lines.lines(Path(asked.dir), found, more, notes))


def hint_as_json(hint: hints.Hint) -> dict:
    """A hint as editors read it, with the same fields as a finding."""
    said = f"hint {hint.text} {hint.line} {hint.key}"
    found = Finding(said, "hint", hint.text, hint.line, 1, 1, "", (hint.says,), "", "", "", (), (), "", "")
    return {**as_json(found), "severity": "hint"}


def is_open(report: errors.Report) -> bool:
    """Whether a machine may have more errors than were found."""
    return report.unsolved or not (report.answer and report.answer.accepted)


def may_be_more(report: errors.Report) -> str:
    return CUT_SHORT if report.is_cut_short else MAY_BE_MORE


def counted(report: errors.Report, found: list[Finding], full: str) -> str:
    """How many there are; `full` is the command that says more, if there is one."""
    follows = len(report.findings) - len(found)
    if not report.findings:
        return "Nothing to mend: the answer is yes."
    more = f" {follows} more follow from these." if follows else ""
    more += f" {may_be_more(report)}" if is_open(report) else ""
    if len(found) < 2:
        return f"{len(found)} to mend.{more}"
    if full:
        return f"{len(found)} to mend.{more} Each in full: {full}"
    return f"{len(found)} to mend, in this order or any other.{more}\n{LINE_NUMBERS}"


def kept_words(report: errors.Report, keep: Path) -> str:
    """What the answer for a copy does not cover."""
    count = len(report.findings)
    answer = "yes" if report.answer and report.answer.accepted else "no"
    name = clean(str(keep))
    return (
        f"!! {name} IS NOT YOUR MACHINE: {count} places were refused, and are left out of it, each with a comment\n"
        f"!! `# left out`. `pinball check {name}` answers {answer}, about what is left and about nothing else.\n"
    )


def write_explain(asked: argparse.Namespace) -> int:
    """Says what each line on standard input means. Without DIR it has no texts to look into."""
    texts = read_texts(Path(asked.dir)) if asked.dir else {}
    scene = Scenery(texts)
    original = {**texts, asked.log: Log(Path(asked.log))} if asked.log else texts
    of_yes: list[str] = []  # the lines from `yes` on: those of a certificate
    count = 0
    print("[" if asked.json else "", end="")
    for line in (it.rstrip("\n") for it in sys.stdin):
        complaint = complaint_of(line)
        if complaint and complaint.message.startswith("refused"):
            complaint = replace(complaint, text=asked.log or "")
        if complaint:
            cure = cure_of(scene, complaint) if texts and count < MOST_CURES else Cure()
            finding = finding_of(scene, complaint, cure, next(iter(cure.ways), None), original)
            separator = ",\n" if asked.json and count else ""
            print(separator + (json.dumps(as_json(finding), indent=2) if asked.json else shown_whole(finding)), end="")
            count += 1
        elif (line == "yes" or of_yes) and len(of_yes) < MOST_OF_YES:
            of_yes.append(line)
    if asked.json:
        print("]")
    elif of_yes:
        print("yes: the machine is accepted. What that promises is in docs/promises.md.")
        answer = answer_of("\n".join(of_yes))
        if answer.switches:
            print(longest(answer))
        if asked.dir:
            print(work_words(Path(asked.dir)))
        print()
    return 0


def work_words(folder: Path) -> str:
    """How much work a change of a switch or an alarm may be."""
    bound = work_bound(folder)
    if not bound:
        return "`pinball_live --work DIR` says how much work a change or an alarm can be (docs/live.md)."
    if bound.isdecimal() and int(bound) <= MOST_STEPS:
        return f"A change of a switch, or an alarm, causes at most {int(bound):,} lines and steps (docs/live.md)."
    many = f"{int(bound):,}" if bound.isdecimal() else "2^64 - 1 or more"
    return (
        f"A change of a switch, or an alarm, may cause {many} lines and steps. `pinball_live` runs no machine above\n"
        f"{MOST_STEPS:,} without --any-work (docs/live.md). Fewer handlers of one event, or fewer posts of it, make it less."
    )


def shown_whole(finding: Finding) -> str:
    return "\n".join(shown(finding)) + "\n\n"


def longest(answer: Answer) -> str:
    """What starts the longest cascade, by the lines of switches in a certificate."""
    most = max(answer.switches.values())
    names = [f"`{clean(name)}`" for name, cost in answer.switches.items() if cost == most]
    switches = f"any of {len(names)} switches" if len(names) > MOST_NAMES else " or ".join(names)
    if most == answer.bound:
        return f"A cascade has at most {answer.bound:,} lines. A change of {switches} can cause so many."
    return (
        f"A cascade has at most {answer.bound:,} lines, if an alarm of a device starts it.\n"
        f"A change of a switch can cause at most {most:,} ({switches})."
    )


def write_unused(asked: argparse.Namespace) -> int:
    tool, texts = find(asked), read_texts(Path(asked.dir))
    answer = tool.check(Path(asked.dir))
    if not answer.accepted:
        print("The machine is refused, so it has no list of events: mend it first (pinball-help errors DIR).")
        return 1
    found = unused.unused(Scenery(texts), answer)
    if asked.json:
        print(json.dumps([asdict(it) for it in found], indent=2))
        return 0
    print("\n".join(unused.shown(found)) if found else "Nothing is unused.")
    print(NO_PROOF)
    return 0


def write_trace(asked: argparse.Namespace) -> int:
    start, end = trace.moment_of(asked.start), trace.moment_of(asked.end) if asked.end else None
    wanted = trace.Wanted(asked.owner, asked.device, asked.event, start, end)
    sys.stdout.writelines(f"{line}\n" for line in trace.shown((it.rstrip("\n") for it in sys.stdin), wanted))
    return 0


def write_picture(asked: argparse.Namespace) -> int:
    tool, folder = find(asked), Path(asked.dir)
    texts, answer = read_texts(folder), tool.check(folder)
    if not answer.accepted and answer.complaints[0].message.startswith("error"):
        print(f"pinball-help: the machine cannot be read: {clean(answer.complaints[0].said)}", file=sys.stderr)
        return 1
    trace_text = tool.output(["play", asked.log, path_of(folder)]) if asked.log and answer.accepted else None
    text = picture.page(folder.resolve().name, Scenery(texts), answer, trace_text)
    if asked.output == "-":
        print(text, end="")
    else:
        Path(asked.output).write_text(text)
        print(f"{clean(asked.output)}: {len(text) / 1e6:.1f} MB. Open it in a browser.")
    return 0


def write_schema(asked: argparse.Namespace) -> int:
    folder = Path(asked.dir)
    folder.mkdir(parents=True, exist_ok=True)
    for kind, is_mode in ("machine", False), ("mode", True):
        file = folder / f"{kind}.schema.json"
        file.write_text(json.dumps(schema.schema(is_mode), indent=1) + "\n")
        print(f"{clean(str(file))}: for the text of {'a mode' if is_mode else 'the machine'}")
    return 0


def write_adopted(asked: argparse.Namespace) -> int:
    return adopt.write(asked, find)


def find(asked: argparse.Namespace) -> Program:
    tool = program.find(asked.program)
    program.report(tool)
    return tool


def with_program(one: argparse.ArgumentParser) -> None:
    """Takes the option after the subcommand too."""
    one.add_argument("--program", metavar="PATH", default=argparse.SUPPRESS, help=argparse.SUPPRESS)


def pattern(text: str) -> str:
    """A regular expression. Raises ArgumentTypeError if it is none."""
    try:
        re.compile(text)
    except (re.error, RecursionError, OverflowError) as error:
        raise argparse.ArgumentTypeError(f"`{text}` is no regular expression: {error}") from error
    return text


def parser() -> argparse.ArgumentParser:
    top = argparse.ArgumentParser(prog="pinball-help", description=ABOUT, epilog=MORE)
    top.add_argument("--program", metavar="PATH", help="the program `pinball`, if not the proved one")
    commands = top.add_subparsers(required=True, metavar="COMMAND")
    one = commands.add_parser("errors", help="all errors and faults of a machine at once")
    one.add_argument("dir", metavar="DIR", help="the folder of the machine")
    one.add_argument("--json", action="store_true", help="writes the errors as JSON, for editors")
    one.add_argument("--lines", action="store_true", help="writes a line for each error, as compilers do, for editors")
    one.add_argument("--full", action="store_true", help="shows each error with its lines, even if there are many")
    one.add_argument(
        "--keep", metavar="COPY", help="makes a folder COPY without what is refused; comments say what is left out"
    )
    one.add_argument(
        "--within", type=float, default=errors.WITHIN, metavar="SECONDS",
        help=f"stops looking for more after SECONDS of processor time ({errors.WITHIN:g})",
    )
    with_program(one)
    one.set_defaults(run=write_errors)
    one = commands.add_parser("explain", help="a filter: what each line of an answer means, and what to do")
    one.add_argument("dir", metavar="DIR", nargs="?", help="the folder of the machine that the answer is about")
    one.add_argument("--log", metavar="LOG", help="the log that the answer of `play` is about")
    one.add_argument("--json", action="store_true", help="writes JSON, for editors")
    one.set_defaults(run=write_explain)
    one = commands.add_parser(
        "unused", help="what a machine has and nothing uses: events, switches, coils, shots, modes"
    )
    one.add_argument("dir", metavar="DIR", help="the folder of the machine")
    one.add_argument("--json", action="store_true", help="writes JSON, for editors")
    with_program(one)
    one.set_defaults(run=write_unused)
    add_views(commands)
    return top


def add_views(commands: "argparse._SubParsersAction[argparse.ArgumentParser]") -> None:
    """Adds the subcommands that show what a machine does, and that help to write it."""
    one = commands.add_parser("trace", help="a filter: what `pinball play` writes, easy to read")
    one.add_argument("--owner", default="", help="only what this mode does, or `machine`")
    one.add_argument("--device", default="", metavar="NAME", help="only lines with this switch, coil, counter, shot ..")
    one.add_argument(
        "--event", default="", metavar="PATTERN", type=pattern, help="only events that this regular expression matches"
    )
    one.add_argument(
        "--from", dest="start", default="0", metavar="TIME", help="from this moment on: 0:05.250, 5.25s or 5250"
    )
    one.add_argument("--to", dest="end", default="", metavar="TIME", help="up to this moment")
    one.set_defaults(run=write_trace)
    one = commands.add_parser("picture", help="a page: a graph of which event posts which, and the timeline of a play")
    one.add_argument("dir", metavar="DIR", help="the folder of the machine")
    one.add_argument("--log", metavar="LOG", help="plays this log, and draws it")
    one.add_argument("-o", "--output", default="-", metavar="FILE", help="where the page goes; else standard output")
    with_program(one)
    one.set_defaults(run=write_picture)
    one = adopt.add(commands)
    with_program(one)
    one.set_defaults(run=write_adopted)
    one = commands.add_parser("schema", help="JSON Schemas, by which an editor completes what you write")
    one.add_argument("dir", metavar="FOLDER", help="where the two schemas go")
    one.set_defaults(run=write_schema)


def main() -> int:
    for stream, errors_are in (sys.stdin, "surrogateescape"), (sys.stdout, "backslashreplace"):
        if isinstance(stream, io.TextIOWrapper):
            stream.reconfigure(errors=errors_are)
    asked = parser().parse_args()
    try:
        return asked.run(asked)
    except NoAnswer as error:
        print("pinball-help: " + "\n  ".join(map(clean, str(error).split("\n"))), file=sys.stderr)
        return 3
    except (OSError, ValueError) as error:
        if isinstance(error, BrokenPipeError):
            sys.stderr.close()  # (nobody reads on: Python would complain as it ends)
            return 0
        missing = isinstance(error, FileNotFoundError) and str(error.filename).endswith(MACHINE)
        words = f"there is no {error.filename}: give the folder that has `config/` in it" if missing else error
        print(f"pinball-help: {clean(str(words))}", file=sys.stderr)
        return 2
