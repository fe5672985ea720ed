"""Names that say too little, or that two things have, and lines that are too long.

A fault is `FILE:LINE: KIND NAME`, or `FILE: wide N lines`:

  twice       a public function or constant of src/ that two crates declare, crates of tests apart. Definitions are not
              looked at: specs/ is imported by its files, so two crates may each have a definition of one name
  alike       a type that another crate has too, and a type whose name is that of a type of another crate but for a
              plural or the case of letters, public or not, in src/ or specs/. Facts, such as `IsKept`, are left out
  inside      a file of definitions that is called Inside
  numbered    a struct or a record with two or more fields that are numbers, such as `first` and `second`
  participle  a participle that is the whole name of a type, a function, a field, a variable or a definition, in src/ or
              specs/. Such are the words below, and words in `-ed` but those below. A word in `-ing` is a noun
  label       a participle that is the name of a clause, `ensures taken { .. }`
  by_place    facts that are given by their places, such as `(tt, tt)`, which has the name `tt`, and one that is taken
              by three or more, `x.1.0.1`
  for_facts   a call or a read whose value has no use, `let _x = ..;`
  wide        lines above 120 characters, in .rt and .antt. The tests are left out, in which a row is one line, and so
              are attributes, which `rt fmt` puts on one line

names.txt beside this file has the exceptions, a line `KIND NAME REASON` for each. NAME has its crate before it,
`CRATE::NAME`, if others may not have it. An exception that excuses nothing is a fault too."""
import re
from collections import defaultdict
from collections.abc import Iterator
from pathlib import Path
from typing import NamedTuple

from sources.rooms import TOP, listed

from .promised import OF_TESTS

EXCEPTIONS = Path(__file__).with_suffix(".txt")
WIDTH = 120
COMMENT = re.compile(r"^ *(?://|--).*", re.M)
PUBLIC = re.compile(r"^pub (?:const )?(?:fn|const|static) (\w+)", re.M)
# Types of code, and types of definitions that are no facts. A type of an `impl` is not at the front of its line.
TYPE = re.compile(
    r"^(?:pub(?:\(\w+\))? )?(?:(?:struct|enum|type|trait)|(?:record|data)(?! (?:Is|Are|Has|Have)[A-Z])) (\w+)", re.M
)
LABEL = re.compile(r"^ *(?:requires|ensures)\*? (\w+) \{", re.M)
NUMBER = re.compile(r"^ +(?:pub )?(first|second|third|fourth|fifth|sixth|seventh|eighth) ?: ", re.M)
# A struct, or a record, with its fields.
FIELDS = re.compile(r"^(?:pub )?(?:abbrev )?(?:struct|record) (\w+).*\n((?: +.*\n)*)", re.M)
BY_PLACE = re.compile(r"\b(tt)(?:,\s+tt)+\)|[\w-]+(?:\.[01]){3,}\b")
FOR_FACTS = re.compile(r"\blet (_\w+) = ")
# What declares names in code: functions and types, variables, fields and arguments, and arguments of closures.
IN_CODE = re.compile(
    r"\b(?:fn|struct|enum|type|const|static|for) (?P<one>\w+)|\blet (?P<bound>[^=;]*?)(?:: [^=;]*)? = "
    r"|(?<![\w:])(?P<field>[a-z]\w*): |\|(?P<closure>[\w, &()]+)\|"
)
# The same in definitions: at the front of a line, in brackets, behind a λ, and in the left side of an equation.
IN_SPECS = re.compile(
    r"^ *(?:(?:unfoldable|abbrev|pub) )*(?P<one>[a-z]\w*|(?:record|data) \w+|(?<=abbrev )\w+) [:({]"
    r"|[({](?P<bound>[\w ]+) : |λ (?P<closure>[\w ]+)\.|^ *[\w-]+(?P<field>(?: [\w(){}, ]+)) = ",
    re.M,
)
PLURALS = (("s", ""), ("es", ""), ("ies", "y"))
IRREGULAR = frozenset(
    "become been begun born borne bought bought broken brought built caught chosen come done drawn driven fallen felt "
    "forgotten found given gone got grown heard held hidden hung kept known laid led left lent lost made meant met "
    "paid risen said seen sent shown shut slept sold sought spent spoken stolen stood struck sung sunk swept taken "
    "taught thought thrown told torn unbroken understood unfit unmet unseen untold woken won worn wound woven "
    "written".split()
)
# Adjectives that are terms, and words in -ed that are no participles.
TERMS = frozenset("deed embed enabled exceed feed indeed need proceed red seed signed speed unsigned".split())


class Fault(NamedTuple):
    kind: str
    crate: str
    name: str
    place: str

    def __str__(self) -> str:
        return f"{self.place}: {self.kind} {self.name}"


def is_participle(name: str) -> bool:
    word = name.lower()
    is_one_word = re.fullmatch(r"[A-Z]?[a-z]+|[A-Z]+", name)
    return bool(is_one_word) and (word in IRREGULAR or (word.endswith("ed") and word not in TERMS))


def files_of(crate: str, *patterns: str) -> list[Path]:
    return sorted(it for pattern in patterns for it in (TOP / "crates" / crate).glob(pattern))


def place_of(file: Path, text: str, at: int) -> str:
    return f"{file.relative_to(TOP)}:{text.count(chr(10), 0, at) + 1}"


def twice() -> Iterator[Fault]:
    places: dict[str, list[tuple[str, str]]] = defaultdict(list)
    for crate in listed():
        for file in files_of(crate, "src/**/*.rt") if crate not in OF_TESTS else ():
            text = file.read_text()
            for it in PUBLIC.finditer(text):
                places[it[1]].append((crate, place_of(file, text, it.start())))
    yield from (Fault("twice", crate, name, place) for name, found in sorted(places.items())
                if len({crate for crate, _ in found}) > 1 for crate, place in found)


def alike() -> Iterator[Fault]:
    places: dict[str, dict[str, str]] = defaultdict(dict)
    for crate in listed():
        for file in files_of(crate, "src/**/*.rt", "specs/**/*.antt") if crate not in OF_TESTS else ():
            text = COMMENT.sub("", file.read_text())
            for it in TYPE.finditer(text):
                places[it[1]].setdefault(crate, place_of(file, text, it.start()))
    crates: dict[str, set[str]] = defaultdict(set)
    for name, found in places.items():
        crates[name.lower()] |= found.keys()
    for name, found in sorted(places.items()):
        word = name.lower()
        singular = [word[: -len(end)] + one for end, one in PLURALS if word.endswith(end)]
        yield from (Fault("alike", crate, name, place) for crate, place in found.items()
                    if any(crates.get(it, set()) - {crate} for it in (word, *singular)))


def inside() -> Iterator[Fault]:
    for crate in listed():
        yield from (Fault("inside", crate, "Inside", str(it.relative_to(TOP)))
                    for it in files_of(crate, "specs/**/Inside.antt"))


def names_in(file: Path, text: str) -> Iterator[tuple[str, int]]:
    """The names that a file declares, each with a place in its text. Variants are not among them, nor are constructors
    that begin with a capital letter."""
    for it in (IN_CODE if file.suffix == ".rt" else IN_SPECS).finditer(text):
        for kind, words in it.groupdict().items():
            pattern = r"\w+$" if kind == "one" else r"\b[a-z]\w*"
            yield from ((word, it.start(kind)) for word in re.findall(pattern, words or ""))


def in_texts(crate: str, file: Path) -> Iterator[Fault]:
    """The faults that stand in one file."""
    text = COMMENT.sub("", file.read_text())
    room = file.relative_to(TOP / "crates" / crate).parts[0]

    def fault(kind: str, name: str, at: int) -> Fault:
        return Fault(kind, crate, name, place_of(file, text, at))

    if room != "proofs":
        first: dict[str, int] = {}
        for name, at in names_in(file, text):
            if is_participle(name):
                first.setdefault(name, at)
        yield from (fault("participle", *it) for it in first.items())
        yield from (fault("numbered", it[1], it.start()) for it in FIELDS.finditer(text)
                    if len(NUMBER.findall(it[2])) > 1)
    yield from (fault("by_place", it[1] or it[0], it.start()) for it in BY_PLACE.finditer(text))
    if room == "src":
        yield from (fault("for_facts", it[1], it.start()) for it in FOR_FACTS.finditer(text))
        yield from (fault("label", it[1], it.start(1)) for it in LABEL.finditer(text) if is_participle(it[1]))


def wide(crate: str, file: Path) -> Iterator[Fault]:
    if count := sum(len(it) > WIDTH and not it.lstrip().startswith("#[") for it in file.read_text().splitlines()):
        yield Fault("wide", crate, f"{count} lines", str(file.relative_to(TOP)))


def all_faults() -> Iterator[Fault]:
    yield from twice()
    yield from alike()
    yield from inside()
    for crate in listed():
        for file in files_of(crate, "src/**/*.rt", "specs/**/*.antt", "proofs/**/*.antt"):
            if crate not in OF_TESTS:
                yield from in_texts(crate, file)
                yield from wide(crate, file)


def faults() -> list[str]:
    excused = {tuple(line.split(maxsplit=2)[:2]): line for line in EXCEPTIONS.read_text().splitlines()
               if line and not line.startswith("#")}
    found, used = [], set()
    for it in all_faults():
        keys = {(it.kind, it.name), (it.kind, f"{it.crate}::{it.name}")} & excused.keys()
        used |= keys
        found += [] if keys else [it]
    unused = [f"{EXCEPTIONS.relative_to(TOP)}: nothing is excused by {line}" for key, line in excused.items()
              if key not in used]
    return [*map(str, sorted(found)), *unused]
