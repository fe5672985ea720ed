"""What editors make of `errors --lines`, by the settings of docs/at_every_save.md: each editor is called, where it is
installed."""
import io
import json
import os
import re
import shutil
import subprocess
import sys
import tempfile
from contextlib import contextmanager, redirect_stdout
from functools import cache
from pathlib import Path
from typing import Iterator
from unittest.mock import patch

from pinball_help import command
from pinball_help.texts import MACHINE

from .common import PROGRAM, TOP, NotTried, test

HELP = TOP / "tools/pinball-help"
PAGE = (TOP / "docs/at_every_save.md").read_text()
SLIPS = TOP / "tools/pinball_help/machines/slips"
Place = tuple[str, int, int]  # the name of a text, the line and the column


def block(kind: str) -> str:
    """The block of this kind on the page."""
    return re.findall(rf"^```{kind}\n(.*?)^```$", PAGE, re.S | re.M)[0]


def output(*words: str) -> str:
    with redirect_stdout(io.StringIO()) as written:
        with patch.object(sys, "argv", ["pinball-help", "errors", "--program", PROGRAM.path, *words]):
            command.main()
    return written.getvalue()


@contextmanager
def machine() -> Iterator[tuple[Path, dict[str, str]]]:
    """The folder of a machine, and an environment in which `pinball-help` asks the program that is tested."""
    with tempfile.TemporaryDirectory() as room:
        folder, commands = Path(room) / "my_machine", Path(room) / "commands"
        shutil.copytree(SLIPS, folder)
        commands.mkdir()
        (commands / "pinball-help").write_text(f'#!/bin/sh\nexec "{HELP}" "$@" --program "{PROGRAM.path}"\n')
        (commands / "pinball-help").chmod(0o755)
        yield folder, {**os.environ, "PATH": f"{commands}:{os.environ['PATH']}", "HOME": room, "TERM": "dumb"}


@cache
def places() -> list[Place]:
    """Where the findings are, as the JSON says it."""
    return [(it["text"], max(1, it["line"]), it["column"]) for it in json.loads(output("--json", str(SLIPS)))]


# the lines


@test
def each_finding_is_a_line_as_compilers_write_them() -> None:
    shown = output("--lines", str(SLIPS)).splitlines()
    found = [re.fullmatch(r"(.+?):(\d+):(\d+): (error|warning|info): (\w.*)", it) for it in shown]
    assert all(found), shown
    here = [(it[1], int(it[2]), int(it[3])) for it in found if it and it[4] != "info"]
    assert here == [(str(SLIPS / text), line, column) for text, line, column in places()], here
    assert sum(it[4] == "error" for it in found if it) == 40, shown


@test
def what_is_not_read_is_a_line_too() -> None:
    with machine() as (folder, _):
        shutil.rmtree(folder / "modes")
        (folder / MACHINE).write_text("#config_version=6\nlights:\n  l:\nmodes: [base]\ncoils:\n  c: {tpye: 1}\n")
        at = folder / MACHINE
        shown = [it.removeprefix(str(at)) for it in output("--lines", str(folder)).splitlines()]
        assert [re.sub(r"(: \w+: [^:]+):.*", r"\1", it) for it in shown] == [
            ":6:7: error: UnknownSetting tpye", ":4:1: warning: base", ":2:1: info: lights",
        ], shown


# the editors


def ran(words: list[str], folder: Path, env: dict[str, str]) -> None:
    if not shutil.which(words[0]):
        raise NotTried(f"{words[0]} is not installed")
    done = subprocess.run(words, cwd=folder, env=env, capture_output=True, stdin=subprocess.DEVNULL, timeout=600)
    assert done.returncode == 0, (done.returncode, done.stdout[-500:], done.stderr[-500:])


def in_vim(*words: str) -> list[Place]:
    """The list of errors of Vim or Neovim, once a text has been saved."""
    with machine() as (folder, env):
        (folder / "vimrc").write_text(block("vim"))
        listed = "map(getqflist(), {_, it -> [bufname(it.bufnr), it.lnum, it.col]})"
        steps = ["set nomore", f"edit {MACHINE}", "write", f"call writefile([json_encode({listed})], 'it')", "quitall!"]
        ran([*words, "-u", "vimrc", *(part for it in steps for part in ("-c", it))], folder, env)
        return [(text, line, column) for text, line, column in json.loads((folder / "it").read_text()) if text]


@test
def vim_lists_the_errors_at_each_save() -> None:
    wanted = places()
    found = in_vim("vim", "-N", "-es")
    assert found[: len(wanted)] == wanted, [it for it in zip(found, wanted) if it[0] != it[1]]


@test
def neovim_lists_the_errors_at_each_save() -> None:
    wanted = places()
    found = in_vim("nvim", "--headless")
    assert found[: len(wanted)] == wanted, [it for it in zip(found, wanted) if it[0] != it[1]]


EMACS = """(progn
  (require 'compile)
  (let ((done nil) (found nil))
    (add-hook 'compilation-finish-functions (lambda (&rest _) (setq done t)))
    (find-file "%s")
    (compile "%s")
    (while (not done) (accept-process-output nil 0.1))
    (condition-case nil
        (while t (next-error)
          (with-current-buffer (window-buffer (selected-window))
            (push (format "%%s:%%d:%%d" (buffer-file-name) (line-number-at-pos) (1+ (current-column))) found)))
      (error nil))
    (write-region (mapconcat #'identity (nreverse found) "\\n") nil "it")))"""


@test
def emacs_goes_to_each_error() -> None:
    wanted = places()
    with machine() as (folder, env):
        asked = block("text").strip()
        script = folder / "script.el"
        script.write_text(EMACS % (folder / MACHINE, asked))
        ran(["emacs", "-Q", "--batch", "-l", str(script)], folder, env)
        found = (folder / "config/it").read_text().splitlines()
    there = [f"{folder / text}:{line}:{column}" for text, line, column in wanted]
    assert found[: len(there)] == there, [it for it in zip(found, there) if it[0] != it[1]]
