"""What the proofs of a crate can rest on in the crates below it.

That is the declarations and contracts of the code below, and the definitions of specs/, that are within reach by name:
from the crate's own text, and from one of them to the next. Bodies of functions below are not within reach, nor are
private fields, and what a model says of its fields. Code has to be laid out as by `rt fmt`."""
import hashlib
import re
from collections.abc import Iterable, Set
from functools import cache
from pathlib import Path
from typing import NamedTuple

from . import antt_imports
from .rooms import TOP, below, listed

# A function at the front of a line, with its visibility.
FUNCTION = re.compile(r"(\s*)(pub(?:\([a-z]+\))? )?(?:const )?fn ")
# A type or a constant that only its crate sees.
INNER = re.compile(r"(?:pub\([a-z]+\) )?(?:struct|enum|type|const|static|trait) (\w+)")
# What a line that begins a declaration declares; nothing if it begins an impl. Then the type is its last word.
NAMED = re.compile(r"(?:pub (?:const )?(?:fn|struct|enum|type|const|static|trait) (\w+)|impl)")
OF_IMPL = re.compile(r"^impl.*?(\w+)(?:<[^{]*>)?(?: where.*)? \{$")
METHOD = re.compile(r"    (?:pub )?(?:const )?fn (\w+)")
# An import in code, with the names, if it has names.
CODE_IMPORT = re.compile(r"^ *(pub )?(ghost )?use ([^;{]*)(?:\{([^{}]*)\})?;", re.M)
# A declaration in a file of definitions, with the name that it declares.
DECLARATION = re.compile(r"^ *(?:(?:abbrev |unfoldable |pub |record |data )+|(?=[^\s:]+ : ))([^\s:]+)", re.M)


class Definition(NamedTuple):
    crate: str
    file: str
    name: str


class File(NamedTuple):
    """A file of definitions: the text of each, and what is imported. A module with parameters counts as one.

    A name that the file passes on counts as a definition too: its text is the import."""

    texts: dict[str, str]
    imports: list[tuple[str, str, str, set[str]]]


# ---- code


def outer(text: str) -> Iterable[str]:
    """The lines of a text without types and constants that only its crate sees, and what is done for them."""
    inner = {it[1] for it in map(INNER.match, text.splitlines()) if it}
    lines = iter(text.splitlines())
    attributes = []
    for line in lines:
        if line.startswith("#["):
            attributes.append(line)
        elif INNER.match(line) or (line.startswith("impl") and inner & set(re.findall(r"\w+", line))):
            attributes = []
            is_block = line.endswith("{") and " = " not in line
            while line != "}" if is_block else not line.endswith((";", "{}")):
                line = next(lines)
        else:
            yield from (*attributes, line)
            attributes = []


def declarations(text: str) -> Iterable[str]:
    """The lines of a text without comments, tactics, bodies of functions, and what only its crate sees."""
    lines = outer(text)
    for line in lines:
        if line.lstrip().startswith(("//", "#[tactic", "mod ")):
            continue
        function = FUNCTION.match(line)
        if not function:
            yield line
            continue
        indent, seen = function[1], function[2] or ""
        head = [line]
        while not head[-1].endswith((" {", ";", "{}")) and head[-1] != f"{indent}{{":
            head.append(next(lines))
        if head[-1].endswith("{"):
            while next(lines) != f"{indent}}}":
                pass
        # a method without `pub` may be that of a trait
        if seen == "pub " or (indent and not seen):
            yield from head[:-1] if head[-1] == f"{indent}{{" else head


class Item(NamedTuple):
    """A function, a type or a constant that crates above can name. A method has the type that it is of."""

    name: str
    of: str
    text: str


def imported(text: str) -> dict[str, str]:
    """For each name that a text of code imports the import of it alone. An operator counts by each of its signs."""
    found = {}
    for _, ghost, path, names in CODE_IMPORT.findall(text):
        for name in map(str.strip, names.split(",") if names else [path.rpartition("::")[2]]):
            alone = f"{ghost}use {path}{{{name}}};" if names else f"{ghost}use {path};"
            found.update((part, alone) for part in name.rpartition(" as ")[2].split("◌") if part)
    return found


def imports_in(text: str, imports: dict[str, str]) -> str:
    """Those imports that a text uses."""
    return "\n".join(sorted({imports[word] for word in words_of(text) & imports.keys()}))


def words_of(text: str) -> set[str]:
    return set(re.findall(r"[\w-]+|[^\s\w(){}\[\].,;:]+", text))


def is_hidden(line: str, header: str) -> bool:
    """Whether only its own crate sees a line of a block: a field, or the fields that a model or its invariant has."""
    if header.startswith("pub struct"):
        return line.startswith("    ") and not line.startswith(("    pub ", "    #"))
    return " Model for " in header and line.startswith(("    ghost view", "    ghost invariant", "     ", "    }"))


@cache
def passed_on(crate: Path) -> tuple[frozenset[str], frozenset[str]]:
    """The modules of a crate that others see, and the names that it passes on from the modules that they do not see."""
    top = (crate / "src" / "lib.rt").read_text() if (crate / "src" / "lib.rt").exists() else ""
    names = [name for public, _, path, names in CODE_IMPORT.findall(top) if public
             for name in (names.split(",") if names else [path.rpartition("::")[2]])]
    return frozenset(re.findall(r"^pub mod (\w+);", top, re.M)), frozenset(map(str.strip, names))


@cache
def items_of(file: Path) -> tuple[Item, ...]:
    """What crates above can name of a file of code, each with the imports that it uses."""
    kept = "\n".join(declarations(file.read_text()))
    imports = imported(kept)
    found: list[Item] = []
    header, kind, attributes = "", "", ""
    for line in filter(str.strip, CODE_IMPORT.sub("", kept).splitlines()):
        if line.lstrip().startswith("#["):
            attributes += f"{line}\n"
        elif named := NAMED.match(line):
            header, kind = line, named[1] or OF_IMPL.sub(r"\1", line)
            found.append(Item(kind, kind, attributes + line))
            attributes = ""
        elif (method := METHOD.match(line)) and header.startswith(("impl", "pub trait")):
            found.append(Item(method[1], kind, f"{header}\n{attributes}{line}"))
            attributes = ""
        elif found and line != "}" and not is_hidden(line, header):
            found[-1] = found[-1]._replace(text=f"{found[-1].text}\n{line}")
    modules, names = passed_on(file.parents[1])
    return tuple(it._replace(text=f"{it.text}\n{imports_in(it.text, imports)}") for it in found
                 if file.stem in modules | {"lib"} or it.of in names)


def named_by(words: set[str], items: Iterable[Item]) -> set[Item]:
    """The items that these words name, and those that their declarations name in turn."""
    found: set[Item] = set()
    known, left = set(words), set(items)
    while new := {it for it in left if it.name in known and it.of in known or it.name == it.of and it.of in known}:
        found |= new
        left -= new
        known.update(word for it in new for word in words_of(it.text))
    return found


# ---- definitions


def imports_of(text: str) -> list[tuple[str, str, str, set[str]]]:
    """What a text imports from the repository: crate, specs or proofs, file, and names; `*` stands for all."""
    found: dict[tuple[str, ...], set[str]] = {}
    for it in antt_imports.imports_in(text):
        place = antt_imports.file_of(it.module)
        if place and place[0] in listed():
            found.setdefault(place, set()).add(it.name or "*")
    return [(*place, names) for place, names in found.items()]


@cache
def read(crate: str, room: str, file: str) -> File | None:
    path = TOP / "crates" / crate / room / f"{file.replace('.', '/')}.antt"
    if not path.exists():
        return None
    text = path.read_text()
    texts, name = {"": ""}, ""
    for use in antt_imports.uses_in(text):
        if "pub" in use.marks:
            line = text[use.start : use.end]
            texts.update((it, line) for *_, names in imports_of(line) for it in names)
    for line in antt_imports.without_imports(text).splitlines():
        if not line.strip() or line.lstrip().startswith("--"):
            continue
        declared = not line.startswith(" ") and DECLARATION.match(line)
        if declared or line.startswith("module "):
            name = declared[1] if declared else line
        texts[name] = texts.get(name, "") + line + "\n"
    return File(texts, imports_of(text))


def text_of(one: Definition) -> str:
    file = read(one.crate, "specs", one.file)
    return file.texts[one.name] if file else ""


def declares(name: str, text: str, wanted: Set[str]) -> bool:
    """Whether a declaration, or one in a module of this text, has one of the names that are wanted."""
    if name.startswith("module "):
        return "*" in wanted or bool(wanted & set(DECLARATION.findall(text)))
    return bool(name) and ("*" in wanted or name in wanted)


def within(crate: str, file: str, names: Set[str]) -> set[Definition]:
    """The definitions of a file that declare one of these names."""
    found = read(crate, "specs", file)
    return {Definition(crate, file, name) for name, text in (found.texts.items() if found else ())
            if declares(name, text, names)}


@cache
def next_to(one: Definition) -> frozenset[Definition]:
    """The definitions that one definition may rest on itself."""
    file = read(one.crate, "specs", one.file)
    words = words_of(text_of(one))
    found = within(one.crate, one.file, words)
    for crate, room, name, names in file.imports if file else []:
        used = {it for it in names if it == "*" or "◌" in it or it in words}
        if room == "specs" and used:
            found |= within(crate, name, used)
    return frozenset(found)


@cache
def cited_by(crate: str, file: str, names: frozenset[str]) -> frozenset[Definition]:
    """The definitions that the statements of these lemmas name. A statement ends where its proof begins."""
    found = read(crate, "proofs", file)
    words: set[str] = set()
    for name, text in found.texts.items() if found else ():
        statement = text.partition(f"\n{name} ")[0]
        if declares(name, text, names):
            words |= words_of(statement)
    return frozenset(it for other, room, its_file, its_names in (found.imports if found else ()) if room == "specs"
                     for it in within(other, its_file, {it for it in its_names if it == "*" or it in words}))


def reach_of(texts: Iterable[str]) -> set[Definition]:
    """The definitions that texts can reach."""
    found: set[Definition] = set()
    new: set[Definition] = set()
    for text in texts:
        for crate, room, file, names in imports_of(text):
            if room == "specs":
                new |= within(crate, file, names)
            else:
                new |= cited_by(crate, file, frozenset(names))
    while new:
        found |= new
        new = {it for one in new for it in next_to(one)} - found
    return found


@cache
def basis_of(crate: str) -> tuple[tuple[str, ...], ...]:
    """All that the proofs of a crate can rest on in the crates below it."""
    own = TOP / "crates" / crate
    files = [it for name in below(crate) - {crate} for it in (TOP / "crates" / name).glob("src/**/*.rt")]
    items = {it for file in files for it in items_of(file)}
    texts = [it.read_text() for it in sorted([*own.glob("src/**/*.rt"), *own.glob("*s/**/*.antt")])]
    words = {word for text in texts for word in words_of(text)}
    named: set[Item] = set()
    reached: set[Definition] = set()
    while True:
        more = named_by(words, items)
        further = reach_of([*texts, *(it.text for it in more)])
        if more == named and further == reached:
            break
        named, reached = more, further
        words |= {word for it in reached for word in words_of(text_of(it))}
    return (*sorted(named), *sorted((*it, text_of(it)) for it in reached if it.crate != crate))


@cache
def sum_of_crate(crate: str) -> str:
    """A checksum of src/ and specs/ of a crate, without lines that are comments, and of what is below it.

    How imports share lines makes no difference."""
    folder, total = TOP / "crates" / crate, hashlib.sha256(repr(basis_of(crate)).encode())
    for file in sorted([*folder.glob("src/**/*.rt"), *folder.glob("specs/**/*.antt")]):
        text = file.read_text()
        imports = sorted((use.marks, *it[2:]) for use in antt_imports.uses_in(text) for it in use.imports)
        rest = [it for it in antt_imports.without_imports(text).splitlines()
                if it and not it.lstrip().startswith(("//", "--"))]
        total.update(repr((str(file.relative_to(folder)), imports, rest)).encode())
    return total.hexdigest()
