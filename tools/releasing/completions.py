"""Makes the completions of shells of the table of commands: one file for bash, one for zsh, and for fish one each.

A shell offers subcommands and options, and after them the folders or the files that a command wants."""
import shlex

from .commands import Command, Word

MADE = "# Made by tools/release of what each command says of itself."

BASH = r"""
# What a command or its subcommand takes: its subcommands, its options, those with a value, and what its values name.
_pinball_words() {
  case $1 in
%CASES%
  *) parts='' options='' valued='' places='' ;;
  esac
}

_pinball() {
  local command=${1##*/} word=$2 parts options valued places kind='' place=0 it
  COMPREPLY=()
  _pinball_words "$command"
  for it in "${COMP_WORDS[@]:1:COMP_CWORD-1}"; do
    if [ "$kind" ]; then
      kind='' # the value of the option before it
    elif [[ $it == -* ]]; then
      [[ " $valued " != *" $it="* ]] || { kind=${valued#*"$it="} && kind=${kind%% *}; }
    elif [ "$parts" ]; then
      _pinball_words "$command $it"
    else
      place=$((place + 1))
    fi
  done
  if [ ! "$kind" ] && [[ $word == -* ]]; then
    mapfile -t COMPREPLY < <(compgen -W "$options" -- "$word")
    return
  fi
  if [ ! "$kind" ] && [ "$parts" ]; then
    mapfile -t COMPREPLY < <(compgen -W "$parts" -- "$word")
    return
  fi
  # the last place may be there many times
  local -a kinds=($places)
  [ "$kind" ] || kind=${kinds[place]:-}
  [ "$kind" ] || [[ $places != *files ]] || kind=files
  case $kind in
  folder) mapfile -t COMPREPLY < <(compgen -d -- "$word") ;;
  file | files) mapfile -t COMPREPLY < <(compgen -f -- "$word") ;;
  esac
}

complete -o filenames -F _pinball %NAMES%
"""

ZSH_FILES = {"folder": "_files -/", "file": "_files", "other": " "}
FISH_FILES = {"folder": "-x -a '(__fish_complete_directories)'", "file": "-r -F", "other": "-x"}


def kind_of_place(word: Word) -> str:
    return f"{word.kind}s" if word.is_repeated else word.kind


def bash_case(name: str, command: Command) -> str:
    """What bash knows of a command or of a subcommand."""
    said = {
        "parts": [it.name for it in command.parts],
        "options": [it for word in command.options for it in word.names],
        "valued": [f"{it}={word.kind}" for word in command.options if word.value for it in word.names],
        "places": [kind_of_place(it) for it in command.places],
    }
    return f"  {shlex.quote(name)}) " + " ".join(f"{key}='{' '.join(it)}'" for key, it in said.items()) + " ;;"


def bash(table: list[Command]) -> str:
    cases = [bash_case(" ".join(name), it) for name, it in each(table)]
    names = " ".join(it.name for it in table)
    return "# shellcheck shell=bash disable=SC2206\n" + MADE + BASH.replace(
        "%CASES%", "\n".join(cases)).replace("%NAMES%", names)


def each(table: list[Command]) -> list[tuple[list[str], Command]]:
    """All commands, and after each its subcommands, by the words that call them."""
    return [it for top in table for it in [([top.name], top), *(([top.name, one.name], one) for one in top.parts)]]


def zsh_text(text: str) -> str:
    for sign in "\\[]:":
        text = text.replace(sign, f"\\{sign}")
    return text


def zsh_word(word: Word, place: int) -> str:
    """How `_arguments` of zsh names an option, or the value at a place."""
    value = f":{word.value}:{ZSH_FILES[word.kind]}" if word.value else ""
    if not word.names:
        at = "*" if word.is_repeated else str(place)
        return shlex.quote(f"{at}:{':' if word.is_free and at != '*' else ''}{word.value}:{ZSH_FILES[word.kind]}")
    others = f"({' '.join(word.names)})" if len(word.names) > 1 else ""
    return " ".join(shlex.quote(f"{others}{it}[{zsh_text(word.about)}]{value}") for it in word.names)


def zsh_words(command: Command) -> list[str]:
    return [*(zsh_word(it, 0) for it in command.options),
            *(zsh_word(it, place) for place, it in enumerate(command.places, 1))]


def zsh_arguments(words: list[str], indent: int) -> str:
    """A call of `_arguments`, with a word on each line."""
    return f"{' ' * indent}_arguments " + f" \\\n{' ' * (indent + 2)}".join(words)


def zsh_case(command: Command) -> str:
    """What zsh does for a command."""
    if not command.parts:
        return f"{command.name})\n{zsh_arguments(zsh_words(command), 2)}\n  ;;"
    parts = [shlex.quote(f"{it.name}:{it.about}") for it in command.parts]
    own = [it for it in command.parts if it.words]
    of_parts = "\n".join(f"    {it.name})\n{zsh_arguments(zsh_words(it), 6)}\n      ;;" for it in own)
    words = ["-C", *zsh_words(command), "'1: :->part'", "'*:: :->words'"]
    return (
        f"{command.name})\n{zsh_arguments(words, 2)}\n  case $state in\n"
        f"  part)\n    parts=({' '.join(parts)})\n    _describe command parts\n    ;;\n"
        f"  words)\n    case $line[1] in\n{of_parts}\n    esac\n    ;;\n  esac\n  ;;"
    )


def zsh(table: list[Command]) -> str:
    names = " ".join(it.name for it in table)
    head = f"#compdef {names}\n{MADE}\nlocal curcontext=$curcontext state line\nlocal -a parts\ncase $service in\n"
    return head + "\n".join(map(zsh_case, table)) + "\nesac\n"


def fish_option(word: Word) -> str:
    """How `complete` of fish names an option: short ones, and long ones."""
    names = [f"-l {it[2:]}" if it.startswith("--") else f"-s {it[1:]}" for it in word.names]
    value = f" {FISH_FILES[word.kind]}" if word.value else ""
    return f"{' '.join(names)}{value} -d {fish_quoted(word.about)}"


def fish_quoted(text: str) -> str:
    return "'" + text.replace("\\", "\\\\").replace("'", "\\'") + "'"


def fish_words(start: str, command: Command) -> list[str]:
    """The lines of a command or a subcommand. `start` is how each begins."""
    kinds = {it.kind for it in command.places}
    files = [f"{start} -F"] if "file" in kinds else []
    folders = [f"{start} -a '(__fish_complete_directories)'"] if kinds == {"folder"} else []
    return [*(f"{start} {fish_option(it)}" for it in command.options), *files, *folders]


def fish(command: Command) -> str:
    start = f"complete -c {command.name}"
    if not command.parts:
        return "\n".join([MADE, f"{start} -f", *fish_words(start, command)]) + "\n"
    top = f"{start} -n __fish_use_subcommand"
    lines = [MADE, f"{start} -f", *fish_words(top, command)]
    for part in command.parts:
        lines.append(f"{top} -a {part.name} -d {fish_quoted(part.about)}")
        lines += fish_words(f"{start} -n '__fish_seen_subcommand_from {part.name}'", part)
    return "\n".join(lines) + "\n"


def files_of(table: list[Command]) -> dict[str, str]:
    """The files, by their paths below a folder `share`. bash and zsh look for one by the name of the command."""
    return {
        "bash-completion/completions/pinball": bash(table),
        "zsh/site-functions/_pinball": zsh(table),
        **{f"fish/vendor_completions.d/{it.name}.fish": fish(it) for it in table},
    }
