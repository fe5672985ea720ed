"""Writes the place of a switch or a coil into `table.yaml`. Only its own line changes: comments stay."""
from pathlib import Path

from pinball_help import outline
from pinball_help.outline import Entry

from .settings import FILE, BadSetting, Settings, known, read_settings

SECTION = "layout"


def place(settings: Settings, name: str, x: float, y: float) -> None:
    """Puts a switch or a coil to a place of the picture, in percent, and writes that down."""
    known("switch or coil", name, [*settings.machine.switches, *settings.machine.coils])
    if not (0 <= x <= 100 and 0 <= y <= 100):
        raise BadSetting("a place is two numbers from 0 to 100")
    file = settings.machine.folder / FILE
    before = file.read_bytes().decode("utf-8", "surrogateescape") if file.exists() else ""
    value = f"{round(x, 1):g}, {round(y, 1):g}"
    write(file, placed(before, name, value))
    try:
        settings.layout = read_settings(settings.machine).layout
        if settings.layout.get(name) != (round(x, 1), round(y, 1)):
            raise BadSetting(f"{FILE}: the section `{SECTION}` is written in a way that cannot be changed here")
    except BadSetting:
        write(file, before)
        raise


def write(file: Path, text: str) -> None:
    """Writes beside the file, and then puts it in its place, so that it is never half written."""
    draft = file.with_name(f".{file.name}.new")
    draft.write_bytes(text.encode("utf-8", "surrogateescape"))
    draft.replace(file)


def placed(text: str, name: str, value: str) -> str:
    """The text of `table.yaml` with this place in it."""
    end = "\r\n" if "\r\n" in text else "\n"
    lines = text.replace("\r\n", "\n").split("\n")
    if lines[-1] == "":
        lines.pop()
    sections = outline.read(lines).entries or []
    section = next((it for it in sections if it.key == SECTION), None)
    entry = next((it for it in section.value.entries or [] if it.key == name), None) if section else None
    if entry:
        line = lines[entry.line]
        new = f'"{value}"' if entry.in_braces else value
        start, stop = (entry.value.start, entry.value.end) if entry.value.text else (entry.end + 1, entry.end + 1)
        lines[entry.line] = f"{line[:start]}{new if entry.value.text else ' ' + new}{line[stop:]}"
    elif section and section.value.entries and section.value.entries[0].in_braces:
        at = section.value.end - 1
        lines[section.line] = f'{lines[section.line][:at]}, {name}: "{value}"{lines[section.line][at:]}'
    elif section:
        lines.insert(last_line(section), f"{indent_of(lines, section)}{name}: {value}")
    else:
        lines += [*([""] if lines else []), f"{SECTION}:", f"  {name}: {value}"]
    return "".join(f"{line}{end}" for line in lines)


def last_line(section: Entry) -> int:
    """The line after the last entry of a section."""
    return max([it.last for it in section.value.entries or []], default=section.line + 1)


def indent_of(lines: list[str], section: Entry) -> str:
    entries = section.value.entries or []
    return lines[entries[0].line][: entries[0].start] if entries else "  "
