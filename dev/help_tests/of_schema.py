"""The schemas: that they are those of the tables and of docs/profile.md, and what Debian's python3-jsonschema makes of
them. The last tests are skipped if that is not installed."""
import io
import json
import random
import re
import subprocess
import sys
import tempfile
from contextlib import redirect_stdout
from fnmatch import fnmatch
from functools import cache
from pathlib import Path
from typing import Any
from unittest.mock import patch

from pinball_help import command, profile, schema, tables
from pinball_help.answers import complaint_of
from pinball_help.tables import Call
from pinball_help.texts import MACHINE, mode_text
from plain_model import sections as plain
from plain_model import values, yaml_text
from plain_model.yaml_text import Entries, Items, Node

from .common import PROGRAM, TOP, NotTried, test
from .drawn import Drawn, draw_texts

# what the schema lets pass, since an editor reads it as a number or as nothing
TAKEN = {"~", "+5", "0x10", "0o17", "1e3", "1.0", "5.0", ".5", "1.", "0.0001", "0.1255", "-0", "-0.0"}
NULLS = {"null", "Null", "NULL"}  # names that an editor takes for nothing
SCALARS = """a a.b-c_1 x-1 _ a$b é a/b a{current_player.x==1} a{current_player.x>=1000000001} a{current_player.x>=-5}
    a{current_player.x=1} a{x==1} a{current_player.x==1}b a{current_player.x==1},b a,b a,,b a, a{ 0 1 2 3 4 5 15 16 17
    98 99 100 101 999 1000 1001 4999 5000 5001 4294967295 4294967296 1000000 1000001 1000000000 1000000001 -1 -0 007
    -1000000000 -1000000001 +5 0x10 0o17 1e3 5.0 1.5 .5 1. 0.5 0.125 0.1255 0.0001 1.0 1.001 -0.0 1_000 50% 12.5% 12.55%
    100% 100.1% 0% -1% 5s 5.001s 0s 0.5ms 1ms 5000ms 5001ms 0.001s 0.0005s 1.5s 1.5555s 0.001m 1m 71582m 71583m 1h
    1193h 1194h 1d 49d 50d 49.711d 20 20ms 1.0ms 1.5 10min 5S yes Yes YES no NO true True TRUE false on On off OFF y n
    yES NC nc up Down down auto quick normal pulse enable disable add set start jump null Null NULL ~ playfield default
    machine .inf 2020-01-01 12:30:45""".split()
OTHERS = """'' ; "" ; 'a b' ; "a, b" ; 'a{current_player.x == 1} b' ; ' a ' ; '5' ; '5001' ; '0.5' ; '1.5 s' ; "50%"
'20 ms' ; 'yes' ; 'NO' ; "null" ; a b c ; [] ; [a] ; [a, b] ; ['', a] ; [a, 1, yes] ; [a b] ; [[a]] ; [[a, b]] ; [[]]
[a, []] ; ['' , ''] ; [['']] ; {} ; {a: 1} ; [{a: 1}] ; [{name: a}] ; [{name: a, b: [1]}] ; [{name: a b}] ; [{}]
[{event: a, action: start}] ; [{event: a, action: start, value: 5}] ; [{event: a, action: begin}] ; [{event: a}]
[{event: a, action: jump, ticks: 3}] ; [{event: 'a{current_player.x == 1}', action: add, value: x}]
['a{current_player.x == 1}', b] ; [[a, 'b{current_player.x == 1}'], c] ; {a: pulse} ; {a: {action: enable}} ; {a: 5}
{a: {int: 1}} ; {a: {int: 1, action: set}} ; {a: {int: 1, action: put}} ; {a b: 5} ; {a: ''} ; {a: [pulse]}
{a: {action: pulse, pulse_ms: 5001}} ; {a: {action: pulse, pulse_ms: 20, hold_power: 0.5}}"""
COUNTED = [" ".join("abcdefghijklmnopq"[:count]) for count in (15, 16, 17)]
CANDIDATES = [
    *SCALARS, *re.split(" ; |\n", OTHERS), *COUNTED, *(f"[{it.replace(' ', ', ')}]" for it in COUNTED),
    *(f"[[{it.replace(' ', '], [')}]]" for it in COUNTED),
    *("[" + ", ".join(f"{{name: {one}}}" for one in it.split()) + "]" for it in COUNTED),
]
JUDGE = """
import json, sys
from jsonschema import Draft7Validator
asked = json.load(sys.stdin)
for one in asked:
    Draft7Validator.check_schema(one["schema"])
    judge = Draft7Validator(one["schema"])
    print(json.dumps([judge.is_valid(it) for it in one["values"]]))
"""


# the tables


def words_of_kind(kind: Call) -> str:
    """A kind of value in the words of docs/profile.md."""
    outer, _, name = kind.name.partition("::")
    inner = kind.values[0] if outer == "Kind" and name == "One" else kind
    least, greatest = (*inner.values, 0, 0)[:2] if inner.name.endswith(("Number", "Time")) else (0, 0)
    if inner.name == "Scalar::Number":
        return "integer" if greatest == 1_000_000_000 else f"integer from {least:,} to {greatest:,}"
    if inner.name == "Scalar::Time" and greatest == (1 << 32) - 1:
        return f"time of at least {least} ms" if least else "time"
    if inner.name == "Scalar::Time":
        return f"time from {least:,} to {greatest:,} ms"
    if inner.name == "Scalar::Word":
        *words, last = [f"`{it}`" for it in inner.values[0]]
        return f"{', '.join(words)} or {last}"
    names = {"Flag": "boolean", "Power": "power", "Name": "name", "Event": "handled event"}
    if inner.name.startswith("Scalar"):
        return names[inner.name.partition("::")[2]]
    called = {"Names": ("list", "names"), "Posts": ("list", "names"), "Events": ("list", "handled events"),
              "Steps": ("YAML list", "steps"), "Maps": ("list", "mappings"), "NamedMaps": ("YAML list", "mappings")}
    least, greatest = schema.bounds(kind.values[-1])
    count = "" if greatest is None else f"at most {greatest} " if least == 0 else f"{least} to {greatest} "
    return f"{called[name][0]} of {count}{called[name][1]}"


def words_of_default(without: Call) -> str | None:
    """What holds if nothing is written, in the words of the page; none if the page says it in its own."""
    inner = without.values[0] if without.name == "Without::One" else without
    if inner.name == "Absent::Required":
        return "required"
    if inner.name == "Absent::Nothing":
        return None
    found = schema.default_of(inner)
    return "none" if found is None else str(found) if inner.name == "Absent::Number" or found == 0 else f"`{found}`"


def all_settings() -> list[tuple[str, tables.Setting]]:
    """Each setting of each section, and each field of the mappings in one."""
    found = []
    for is_mode in (False, True):
        for name, section in tables.sections(is_mode).items():
            found += [(name, it) for it in section.settings]
            kinds = [(it.key, it.kind) for it in section.settings] + ([(name, section.value)] if section.value else [])
            for key, kind in kinds:
                if kind.name in ("Kind::Maps", "Kind::NamedMaps", "Kind::Keyed"):
                    found += [(key, it) for it in kind.values[0]]
    return found


@test
def the_page_has_the_settings_of_the_tables() -> None:
    in_tables: dict[str, list[str]] = {}
    for section, setting in all_settings():
        in_tables.setdefault(section, []).append(setting.key)
    for section in profile.TABLES:
        here = [*dict.fromkeys(in_tables.get(section, []))]
        assert sorted(profile.settings(section)) == sorted(here), (section, here)
    assert {*in_tables} == {*profile.TABLES}, {*in_tables} ^ {*profile.TABLES}
    texts = {name: "the machine" for name in tables.sections(False)}
    for name in tables.sections(True):
        texts[name] = "both" if name in texts else "a mode"
    assert texts == profile.sections(), {*texts.items()} ^ {*profile.sections().items()}
    assert {*tables.skipped()} == profile.skipped() and {*tables.of_other_tools()} == profile.of_other_tools()


@test
def the_page_has_the_values_and_defaults_of_the_tables() -> None:
    for section, setting in all_settings():
        page = profile.settings(section)[setting.key]
        said = page.value.removeprefix("one ").removesuffix(", in capitals")
        if said == "see below":
            rows = profile.tables()["Action"]
            assert [it for row in rows for it in profile.names(row[0])] == [*setting.kind.values[0]], rows
        else:
            assert said == words_of_kind(setting.kind), (section, setting.key, said, words_of_kind(setting.kind))
        default = words_of_default(setting.without)
        literal = page.default == "required" or re.fullmatch(r"\d+|`(?:yes|no|[\d.]+m?s?|up|down)`", page.default)
        assert page.default == default if default else not literal, (section, setting.key, page.default, default)


@test
def the_plain_model_has_the_tables_of_the_program() -> None:
    for is_mode in (False, True):
        for name, section in tables.sections(is_mode).items():
            if section.settings:
                mine = [(it.key, it.is_required) for it in section.settings]
                assert mine == [(key, it.required) for key, it in plain.SETTINGS[name].items()], name
    assert [*tables.skipped()] == plain.SKIPPED and [*tables.of_other_tools()] == plain.IGNORED


@test
def the_schema_has_a_description_and_a_default_for_each_setting() -> None:
    for is_mode in (False, True):
        made = schema.schema(is_mode)
        sections = tables.sections(is_mode)
        assert [*made["properties"]][: len(sections)] == [*sections], is_mode
        for name, section in sections.items():
            assert made["properties"][name]["description"], name
            for setting in section.settings:
                found = entry_schema(made, name)["properties"][setting.key]
                words = schema.plain(profile.settings(name)[setting.key].does)
                assert words[1:] in found["description"], (name, setting.key, found["description"])
                assert found.get("default") == schema.default_of(setting.without), (name, setting.key)


def entry_schema(made: dict, section: str) -> dict:
    """The schema of an entry of a section."""
    found = made["properties"][section]
    if section not in profile.SINGLE:
        found = found["anyOf"][0]["additionalProperties"]
    return found["anyOf"][0] if "anyOf" in found else found


@test
def an_editor_finds_the_schemas_where_the_page_says() -> None:
    page = (TOP / "docs/at_every_save.md").read_text()
    settings = json.loads(re.findall(r"```jsonc\n(.*?)```", page, re.S)[0])
    with tempfile.TemporaryDirectory() as room:
        folder = Path(room)
        asked = ["pinball-help", "schema", str(folder / "schema")]
        with patch.object(sys, "argv", asked), redirect_stdout(io.StringIO()):
            assert command.main() == 0
        for path, of_texts in settings["yaml.schemas"].items():
            is_mode = json.loads((folder / path).read_text()) == schema.schema(True)
            assert fnmatch(mode_text("m") if is_mode else MACHINE, of_texts), (path, of_texts)
            assert is_mode or json.loads((folder / path).read_text()) == schema.schema(False), path
        comment = re.findall(r"```yaml\n(.*?)```", page, re.S)[0]
        in_mode = re.findall(r"In the text of a mode the path is `(.*?)`", page)[0]
        for text, path in ((MACHINE, comment.split("$schema=")[1].strip()), (mode_text("m"), in_mode)):
            (folder / text).parent.mkdir(parents=True)
            assert (folder / text).parent.joinpath(path).is_file(), path
        assert PROGRAM.output(["check"], f"@ {MACHINE}\n{comment}").startswith("yes\n"), comment


# what a validator makes of it


@cache
def python_with_jsonschema() -> str:
    """The Python that has the package: this one, or Debian's. Raises NotTried if none has it."""
    for path in (sys.executable, "/usr/bin/python3"):
        try:
            if subprocess.run([path, "-c", "import jsonschema"], capture_output=True).returncode == 0:
                return path
        except OSError:
            continue
    raise NotTried("python3-jsonschema is not installed")


def judged(asked: list[tuple[dict, list[Any]]]) -> list[list[bool]]:
    """Which values each schema accepts."""
    text = json.dumps([{"schema": one, "values": those} for one, those in asked])
    words = [python_with_jsonschema(), "-W", "ignore", "-c", JUDGE]
    ran = subprocess.run(words, input=text, capture_output=True, text=True)
    assert ran.returncode == 0, ran.stderr
    return [json.loads(line) for line in ran.stdout.splitlines()]


def as_read(node: Node, lines: list[str]) -> Any:
    """A tree as an editor reads it: by the core schema of YAML 1.2."""
    if isinstance(node, Items):
        return [as_read(it, lines) for it in node.items]
    if isinstance(node, Entries):
        return {key.text: as_read(value, lines) for key, value in node.entries}
    source = lines[node.line - 1][node.column :]
    if source[:1] in ("'", '"') and (node.text or source[1:2] == source[0]):
        return node.text
    if node.text in ("", "~", *NULLS):
        return None
    if re.fullmatch("true|True|TRUE|false|False|FALSE", node.text):
        return node.text.lower() == "true"
    if re.fullmatch(r"[-+]?[0-9]+", node.text):
        return int(node.text)
    if re.fullmatch(r"0o[0-7]+|0x[0-9a-fA-F]+", node.text):
        return int(node.text, 0)
    if re.fullmatch(r"[-+]?(?:\.[0-9]+|[0-9]+(?:\.[0-9]*)?)(?:[eE][-+]?[0-9]+)?", node.text):
        return float(node.text)
    return node.text


def tree_of(text: str) -> Any:
    return as_read(yaml_text.read(text.encode()), text.split("\n"))


@test
def the_examples_are_accepted() -> None:
    texts: dict[bool, list[Any]] = {False: [], True: []}
    for path in sorted((TOP / "examples").glob("**/config/*.yaml")):
        texts["modes" in path.parts].append(tree_of(path.read_text()))
    found = judged([(schema.schema(is_mode), those) for is_mode, those in texts.items()])
    assert all(map(all, found)) and len(texts[False]) >= 20 and len(texts[True]) > 12, found


def is_taken(setting: plain.Setting, node: Node) -> bool:
    """Whether the plain model takes a value."""
    try:
        setting.read(node)
    except (values.BadValue, values.TooMany, plain.Fault):
        return False
    return True


@test
def the_schema_takes_the_values_that_the_tables_take() -> None:
    kinds = {it.kind: (name, it.key) for name, it in all_settings() if name in plain.SETTINGS}
    nodes = [yaml_text.read(f"x: {it}".encode()).entries[0][1] for it in CANDIDATES]
    instances = [as_read(node, [f"x: {it}"]) for node, it in zip(nodes, CANDIDATES)]
    asked = []
    for section, key in kinds.values():
        made = schema.schema(section in ("mode", "timers"))
        asked.append((entry_schema(made, section)["properties"][key], instances))
    for (section, key), verdicts in zip(kinds.values(), judged(asked)):
        taken = [is_taken(plain.SETTINGS[section][key], node) for node in nodes]
        more = {it for it, here, there in zip(CANDIDATES, verdicts, taken) if here and not there}
        less = {it for it, here, there in zip(CANDIDATES, verdicts, taken) if there and not here}
        assert more <= TAKEN | NULLS and less <= NULLS, (section, key, more - TAKEN, less - NULLS)
        assert any(verdicts) and not all(verdicts), (section, key)


@test
def drawn_texts_with_one_mistake_are_refused() -> None:
    python_with_jsonschema()
    drawn = draw_texts(random.Random(80), 500)
    for is_mode in (False, True):
        those = [it for it in drawn if it.is_mode == is_mode]
        right, wrong = judged([
            (schema.schema(is_mode), [tree_of(it.right) for it in those]),
            (schema.schema(is_mode), [tree_of(it.wrong) for it in those]),
        ])
        assert all(right), next(it for it, taken in zip(those, right) if not taken)
        assert not any(wrong), next(it for it, taken in zip(those, wrong) if taken)
    assert {it.mistake for it in drawn} == {"section", "setting", "kind", "word", "range"}
    for it in drawn:
        errors = error_of(it, it.right), error_of(it, it.wrong)
        assert errors == ("", it.error), (it, errors)


def error_of(drawn: Drawn, text: str) -> str:
    """The error that the program answers with, by its name; the empty text if it has none."""
    bundle = f"@ {MACHINE}\n{text}"
    if drawn.is_mode:
        bundle = f"@ {MACHINE}\n#config_version=6\nmodes: m\n@ {mode_text('m')}\n{text}"
    found = complaint_of(PROGRAM.output(["check"], bundle).split("\n")[0])
    return found.name if found and found.message.startswith("error") else ""
