"""Tests man pages and completions."""
import re
import shutil
from pathlib import Path

from .made import COMMANDS, Made, Skipped, equal, run, test

# The words of a command line, to the one that is completed, and what is offered in a folder with `run`, `first/` and
# `bonus/`.
OFFERED = {
    ("pinball", ""): "check verify play help", ("pinball", "ch"): "check", ("pinball", "check", "f"): "first",
    ("pinball", "check", "first", ""): "", ("pinball", "verify", "r"): "run",
    ("pinball", "verify", "run", "b"): "bonus", ("pinball-help", "errors", "--ke"): "--keep",
    ("pinball-help", "errors", "--keep", "f"): "first", ("pinball-help", "errors", "--within", "f"): "",
    ("pinball-help", "errors", "--keep", "first", "b"): "bonus",
    ("pinball-test", "first", "run", "run", "r"): "run", ("pinball_live", "b"): "bonus",
    ("/usr/bin/pinball-table", "--li"): "--live",
}
BASH = """source "$1"; shift; COMP_WORDS=("$@"); COMP_CWORD=$(($# - 1)); _pinball "$1" "${!#}"; echo "${COMPREPLY[*]}"
"""


def share(made: Made) -> Path:
    return made.unpacked / "share"


def shown(page: Path) -> str:
    """The page as somebody reads it, in one line."""
    said = run(["groff", "-man", "-Tascii", "-ww", "-P-cbou", "-rHY=0", "-rLL=100n", page], page.parent)
    return re.sub(r"\s+", " ", said.replace("-\n", "-"))


@test
def man_pages_have_the_words_of_the_help(made: Made) -> None:
    if not shutil.which("groff"):
        raise Skipped("there is no groff")
    for name in COMMANDS:
        page = shown(share(made) / f"man/man1/{name}.1")
        assert "warning" not in page and page.startswith(f"{name.upper()}(1)"), (name, page[:300])
        for words in ([], ["errors"]) if name == "pinball-help" else ([], ["play"]) if name == "pinball" else ([],):
            said = run([made.unpacked / "bin" / name, *words, "--help"], made.room, None, COLUMNS="300")
            rows = [re.split(r"  +", it.strip(), maxsplit=1) for it in said.splitlines() if it.startswith("  ")]
            missing = [about for _, about in (it for it in rows if len(it) == 2) if " ".join(about.split()) not in page]
            assert len(rows) > 1 and not missing, (name, missing, page)


@test
def bash_completes_commands(made: Made) -> None:
    folder = made.room / "machines"
    for name in ("first", "bonus"):
        (folder / name).mkdir(parents=True)
    (folder / "run").touch()
    for words, wanted in OFFERED.items():
        file = share(made) / "bash-completion/completions" / Path(words[0]).name
        equal((words, run(["bash", "-c", BASH, "bash", file, *words], folder).strip()), (words, wanted))


@test
def zsh_and_fish_read_their_completions(made: Made) -> None:
    texts = {"zsh": ["-n", share(made) / "zsh/site-functions/_pinball"],
             "fish": ["--no-execute", *(share(made) / "fish/vendor_completions.d").iterdir()]}
    there = [it for it in texts if shutil.which(it)]
    for shell in there:
        equal(run([shell, *texts[shell]], made.room), "")
    if "fish" in there:
        script = "source $argv[1]/pinball.fish; complete -C 'pinball ver'"
        said = run(["fish", "-c", script, share(made) / "fish/vendor_completions.d"], made.room)
        equal(said.split("\t")[0], "verify")
    if len(there) < 2:
        raise Skipped("there is no " + " and no ".join(sorted(set(texts) - set(there))))
