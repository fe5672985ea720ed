"""Comments of a builder: what each belongs to in the MPF folder, and where that is in the new one.

A comment goes with what it belongs to. If that is left out, so is the comment."""
from dataclasses import dataclass, field

from ..outline import Entry, Node, indentation, without_comment
from .context import Context
from .draft import SINGLE, Note, Path, Value, Written
from .features import REWRITTEN
from .settings import MACHINE_ONLY, OLD_NAMES
from .source import File, Part

Step = Entry | Node  # an entry of a mapping, or an item of a list


def keep(ctx: Context) -> None:
    """Puts the comments of the MPF folder in the new one."""
    keeper = Keeper(ctx)
    for part in ctx.source.parts:
        for file in part.files:
            notes = Comments(file)
            notes.read()
            if file is part.files[0] and notes.head:
                ctx.draft.note(part.mode, "").above += notes.head
            elif notes.head:
                notes.note(notes.first).above[:0] = notes.head
            steps = steps_of(file)
            for line, note in sorted(notes.found.items()):
                if line in steps:
                    keeper.keep(part, file, steps[line], note)


# what a comment belongs to


class Comments:
    """The comments of a file, by the lines of what they belong to. Lines count from 0."""

    def __init__(self, file: File):
        self.file = file
        self.found: dict[int, Note] = {}
        self.head: list[str] = []  # about the whole file
        self.first = -1  # the first line that is neither blank nor a comment
        self.open: list[tuple[int, int]] = []  # the indentation and line of each block around the last line
        self.waiting: list[tuple[int, int, str]] = []  # comments above the next line: line, indentation, text

    def note(self, line: int) -> Note:
        return self.found.setdefault(line, Note())

    def read(self) -> None:
        for at, line in enumerate(self.file.lines):
            comment = comment_of(line)
            if at in self.file.joined:
                head = self.file.joined[at]
                if comment and head >= 0:
                    self.note(head).above.append(comment)
            elif without_comment(self.file.read[at]).strip():
                self.row(at, indentation(line))
                if comment:
                    self.note(at).behind = comment
            elif comment and "config_version" not in comment:
                self.waiting.append((at, indentation(line), comment))
        if self.first < 0:
            self.first = len(self.file.lines)
            self.head_ends()
        self.give(-1, -1)

    def row(self, at: int, depth: int) -> None:
        """Takes a line with an entry or an item."""
        if self.first < 0:
            self.first = at
            self.head_ends()
        self.give(at, depth)
        while self.open and self.open[-1][0] >= depth:
            self.open.pop()
        self.open.append((depth, at))

    def head_ends(self) -> None:
        """Takes the comments about the whole file: all above its first line but those right above that line. If these
        are right below the version, they are about the file too."""
        above, line = len(self.waiting), self.first
        while above and self.waiting[above - 1][0] == line - 1:
            above, line = above - 1, line - 1
        if line <= 1:
            above = len(self.waiting)
        self.head = [it for _, _, it in self.waiting[:above]]
        self.waiting = self.waiting[above:]

    def give(self, at: int, depth: int) -> None:
        """Gives each comment that waits to the next line, or to what ends above it if the comment is deeper."""
        is_below = at < 0 or bool(self.open) and depth <= self.open[-1][0]
        for _, column, comment in self.waiting:
            is_below = is_below and column > depth
            if not is_below:
                self.note(at).above.append(comment)
            elif self.open:
                margin, owner = next((it for it in reversed(self.open) if it[0] <= column), self.open[0])
                note = self.note(owner)
                (note.inside if margin < column else note.below).append(comment)
        self.waiting = []


def comment_of(line: str) -> str:
    found = line[len(without_comment(line)) :].strip()
    return found if found.startswith("#") else ""


def steps_of(file: File) -> dict[int, tuple[Step, ...]]:
    """What begins in each line, with all that is around it: the innermost, braces and brackets left out."""
    found: dict[int, tuple[Step, ...]] = {}
    waiting: list[tuple[Node, tuple[Step, ...], int, int]] = [(file.root, (), -1, len(file.lines))]
    while waiting:
        node, around, first, last = waiting.pop()
        inside = [(it, it.value, it.last) for it in node.entries or [] if not it.in_braces]
        inside += [(it, it, last) for it in node.items or [] if it.line > first]
        for step, value, end in inside:
            if first <= step.line < last:  # (an alias has the lines of its anchor)
                path = (*around, step)
                if len(path) > len(found.get(step.line, ())):
                    found[step.line] = path
                waiting.append((value, path, step.line, end))
    return found


# where that is in the new folder


@dataclass(frozen=True)
class Home:
    """An entry of the new folder, and its place in it."""

    mode: str
    section: str
    key: str
    written: Written


@dataclass
class Keeper:
    ctx: Context
    homes: dict[tuple[str, int], list[Home]] = field(default_factory=dict)  # by the lines they come from, from 1
    left_out: set[tuple[str, int]] = field(default_factory=set)
    taken: dict[tuple[str, str], File] = field(default_factory=dict)  # sections that have their comments

    def __post_init__(self) -> None:
        for mode, sections in self.ctx.draft.texts.items():
            for section, inside in sections.items():
                for key, written in inside.items():
                    for place in written.places:
                        home = Home(mode, section, key, written)
                        self.homes.setdefault((place.file, place.line), []).append(home)
        rewritten = {(it.place.file, it.place.line) for it in self.ctx.done if it.effect == REWRITTEN}
        self.left_out = {(it.place.file, it.place.line) for it in self.ctx.done} - rewritten

    def keep(self, part: Part, file: File, steps: tuple[Step, ...], note: Note) -> None:
        section = steps[0]
        assert isinstance(section, Entry)
        mode = "" if section.key in MACHINE_ONLY else part.mode
        if section.key == "modes" and not part.mode:
            self.of_modes(steps[1:], note)
        elif len(steps) == 1:
            self.of_section(mode, file, section, note)
        else:
            self.of_entry(mode, file, section, steps[1:], note)

    def of_modes(self, steps: tuple[Step, ...], note: Note) -> None:
        draft = self.ctx.draft
        if not steps:
            draft.note("", "modes").add(note)
        elif (item := place_in(draft.modes, steps[0])) is not None:
            draft.note("", "modes", item).add(note)

    def of_section(self, mode: str, file: File, section: Entry, note: Note) -> None:
        """A section that is rewritten has its comments above the first entry that comes of it, and so has one that is
        there already."""
        inside = self.inside(file, section)
        own = [it for it in inside if (it.mode, it.section) == (mode, section.key)]
        is_there = section.key in self.ctx.draft.texts.get(mode, {}) and (own or not section.value.entries)
        if is_there and self.taken.setdefault((mode, section.key), file) is file:
            self.ctx.draft.note(mode, section.key).add(note)
        elif inside:
            self.best(inside, mode, section.key, "").notes.setdefault((), Note()).add(note, in_front=True)

    def of_entry(self, mode: str, file: File, section: Entry, steps: tuple[Step, ...], note: Note) -> None:
        written = self.written(mode, section.key, file, steps[0])
        path, rest = ((), steps) if written is None else inside_of(written.value, section.key, steps[1:])
        if written and not rest:
            written.notes.setdefault(path, Note()).add(note)
            return
        elsewhere = self.homes.get((file.name, steps[-1].line + 1))
        if elsewhere and len(steps) > 1:
            elsewhere[0].written.notes.setdefault((), Note()).add(note)
        elif not any((file.name, it.line + 1) in self.left_out for it in steps):
            homes = self.inside(file, section) if section.key == "tilt" else []  # (a section that is one entry)
            written = written or (self.best(homes, mode, section.key, "") if homes else None)
            if written:
                written.notes.setdefault((), Note()).above += about(steps[-1], note)

    def inside(self, file: File, section: Entry) -> list[Home]:
        """All that comes of a section."""
        lines = range(section.line + 1, section.last + 1)
        return [it for line in lines for it in self.homes.get((file.name, line), ())]

    def written(self, mode: str, section: str, file: File, step: Step) -> Written | None:
        """The entry that comes of one of the MPF folder."""
        found = self.homes.get((file.name, step.line + 1), [])
        return self.best(found, mode, section, step.key if isinstance(step, Entry) else "") if found else None

    def best(self, homes: list[Home], mode: str, section: str, key: str) -> Written:
        """Of several entries one of the same section, or the first that has the key in its name."""

        def rank(home: Home) -> tuple[bool, bool, bool]:
            is_same = (home.mode, home.section) == (mode, section)
            return not is_same, home.section in SINGLE, key not in home.key

        return min(homes, key=rank).written


def inside_of(value: Value, section: str, steps: tuple[Step, ...]) -> tuple[Path, tuple[Step, ...]]:
    """How far some steps lead in a value: the path, and the steps that lead no further."""
    path: Path = ()
    while steps:
        key: str | int | None = None
        if isinstance(value, list):
            key = place_in(value, steps[0])
        elif isinstance(value, dict) and isinstance(steps[0], Entry):
            key = next((it for it in (steps[0].key, OLD_NAMES.get((section, steps[0].key))) if it in value), None)
        if key is None:
            break
        path, steps = (*path, key), steps[1:]
        value = key if isinstance(value, list) and isinstance(key, str) else value[key]  # type: ignore[index]
    return path, steps


def place_in(values: list, step: Step) -> str | int | None:
    """Where a list has an item, which may be an entry of a mapping in the MPF folder."""
    node = step if isinstance(step, Node) else Node(step.line, text=step.key)
    words = {node.text, *(it.text for it in node.texts())}
    return next((it if isinstance(it, str) else at for at, it in enumerate(values) if is_same(it, node, words)), None)


def is_same(value: Value, node: Node, words: set[str]) -> bool:
    if isinstance(value, str):
        return value in words
    if isinstance(value, dict):
        both = [it for it in node.entries or [] if it.key in value]
        return bool(both) and all(it.value.text == value[it.key] for it in both)
    return bool({*value} & words)


def about(step: Step, note: Note) -> list[str]:
    """The comments at a setting that is said elsewhere, with its name."""
    name = step.key if isinstance(step, Entry) else step.text
    lines = (*note.above, note.behind, *note.inside, *note.below)
    return [f"# {name}: {it.lstrip('# ')}" for it in lines if it]
