"""Tests the release that is installed: its commands, from another folder, and that it goes without a trace."""
import http.client
import json
import os
import re
import shlex
import shutil
import signal
import subprocess
from pathlib import Path
from typing import Any, Callable

from table_tests import games
from table_tests.of_pages import PageHand

from .made import COMMANDS, SLOW, Made, Skipped, equal, listing, run, test

# The parts of the tutorial that are indented: texts, and commands with what they print. An empty line may be in a part,
# but not before a command.
PART = re.compile(r"(?:^    .*\n|^\n(?=    (?!\$)))+", re.M)
MACHINE, BONUS, LOG = "config/config.yaml", "modes/bonus/config/bonus.yaml", "log"
# What the tutorial says to change for one part alone: by what its commands print, the file, what is there, the change.
CHANGES = (
    ("fault 10 ", MACHINE, "ball_lost\n", "ball_lost, say_goodbye\n"), (" tpye\n", MACHINE, "type:", "tpye:"),
    ("fault 8 ", MACHINE, "say_jackpot\n", "say_jackpot\n  say_jackpot: combo\n  combo: target_hit\n"),
    (" stop_evnts\n", BONUS, "stop_events", "stop_evnts"),
    ("fault 2 ", MACHINE, "c_knocker: pulse", "c_knocker: {action: pulse, pulse_ms: 30}"),
)
BROKEN = "#config_version=6\nswitches:\n  s_target:\n    number: 1\n    tpye: NC\n  left target:\n    number: 2\n"


def install(made: Made) -> None:
    """Installs it where only others may not write, and takes away all of which it could still depend."""
    if made.prefix.exists():
        return
    made.prefix.parent.mkdir()
    said = run([made.unpacked / "install.sh", made.prefix], Path("/"))
    assert said.startswith(f"pinball {made.version}\n"), said
    run(["chmod", "-R", "a-w", made.prefix], made.room)


def by_user(made: Made, folder: Path, script: str, status: int = 0) -> str:
    """What a script says, run in a folder by somebody who cannot write in the release."""
    clean = ["env", "-i", f"PATH={made.path}", "LC_ALL=C.UTF-8"]
    return run([*made.user(), *clean, "bash", "-c", script], folder, status)


def machine(folder: Path, text: str) -> Path:
    (folder / "config").mkdir(parents=True)
    (folder / "config/config.yaml").write_text(text)
    folder.chmod(0o777)
    return folder


def parts_of(page: Path) -> list[str]:
    return [re.sub(r"^    ", "", it, flags=re.M).strip("\n") + "\n" for it in PART.findall(page.read_text())]


def answer_as_it_says(part: str, said_by: Callable[[str, int], str]) -> None:
    """Runs the commands of a part, which have to print the rest of it. A last line `...` stands for more lines."""
    lines = part.splitlines(keepends=True)
    commands = "".join(it[2:] for it in lines if it.startswith("$ "))
    wanted = "".join(it for it in lines if not it.startswith("$ "))
    said = said_by(commands, 1 if wanted.endswith("no\n") else 0)
    if (start := wanted.removesuffix("...\n")) != wanted:
        said = said[:len(start)] + "...\n"
    equal((commands, said), (commands, wanted))


def follow_the_tutorial(home: str, page: Path, folder: Path, said_by: Callable[[str, int], str]) -> None:
    """Makes the machine of the tutorial, step by step, and runs the commands of each. `said_by` runs a script in the
    folder of the machine, and compares its status. `home` is where the commands find the examples."""
    texts: dict[str, str] = {}
    asked = 0
    machine(folder, "")
    for part in parts_of(page):
        if part.startswith("#config_version"):
            texts[BONUS if "\nmode:" in part else MACHINE] = part
        elif part.startswith("1000 s_target 1"):
            texts[LOG] = part
        elif part.startswith(("modes:\n", "coils:\n")):
            texts[MACHINE] += part.replace("{action: pulse, pulse_ms: 30}", "pulse")
        elif part.startswith(("$ pinball", "$ cd examples/")):
            changed = {file: texts[file].replace(old, new) for said, file, old, new in CHANGES if said in part}
            for name, text in {**texts, **changed}.items():
                (folder / name).parent.mkdir(parents=True, exist_ok=True)
                (folder / name).write_text(text)
            answer_as_it_says(part.replace("$ cd ", f"$ cd {home}/"), said_by)
            asked += 1
    equal(asked, 14)


@test
def the_commands_of_the_tutorial_answer_as_it_says(made: Made) -> None:
    install(made)
    folder = made.room / "a machine"
    home = shlex.quote(str(made.home))
    follow_the_tutorial(home, made.home / "docs/tutorial.md", folder, lambda *it: by_user(made, folder, *it))


@test
def the_examples_play(made: Made) -> None:
    install(made)
    wanted = (made.home / "examples/first/expected-play").read_text()
    said = by_user(made, made.room, f"'{made.home}/examples/run' first")
    assert said.endswith(f"$ pinball play log .\n{wanted}"), said
    assert wanted in by_user(made, made.room, f"'{made.home}/examples/run' first --live | grep -v ^due")


@test
def a_checkout_takes_the_program_on_the_path(made: Made) -> None:
    install(made)
    clone, wanted = made.clones[0], (made.home / "examples/first/expected-play").read_text()
    said = run(["examples/run", "first"], clone, PATH=made.path)
    assert "that of a release, of the same sources" in said and said.endswith(wanted), said
    without_kit = ":".join(it for it in made.path.split(":") if not (Path(it) / "rt").exists())
    crates = clone / "crates.txt"
    text = crates.read_text()
    crates.write_text(text + "\n")
    said = run(["tools/program", "--live"], clone, PATH=without_kit)
    assert "that of a release, of other sources" in said and said.endswith(f"{made.prefix}/bin/pinball_live\n"), said
    assert "There is no rt on the PATH." in run(["tools/program", "--unproved"], clone, 1, PATH=without_kit)
    crates.write_text(text)
    assert "no proved program" in run(["tools/program", "--proved"], clone, 1, PATH=made.path)


@test
def man_finds_the_pages_beside_the_commands(made: Made) -> None:
    install(made)
    if not shutil.which("man", path=made.path):
        raise Skipped("there is no man")
    for name in COMMANDS:
        equal(by_user(made, made.room, f"man -w {name}"), f"{made.prefix}/share/man/man1/{name}.1\n")


@test
def the_tools_find_the_program_and_the_pages(made: Made) -> None:
    install(made)
    folder = machine(made.room / "broken", BROKEN)
    for command in ("pinball-help", f"/usr/bin/python3 -I '{made.prefix}/bin/pinball-help'"):
        if command.startswith("/usr") and not Path("/usr/bin/python3").exists():
            continue
        said = by_user(made, folder, f"{command} errors --full .", 1)
        assert "2 to mend" in said and "tpye" in said and "unproved" not in said, said
        assert by_user(made, folder, f"{command} explain . <<<'error 5 UnknownSetting config/config.yaml 5 tpye'")
    by_user(made, folder, "pinball-help schema schemas")
    first = made.home / "examples/first"
    assert by_user(made, folder, f"pinball-test '{first}'").endswith("4 passed, 0 failed\n")
    assert by_user(made, folder, f"'{made.home}/tools/bundle' '{first}' | pinball check").startswith("yes\n")


@test
def a_game_on_the_table(made: Made) -> None:
    install(made)
    play_a_game([*made.user(), "env", "-i", f"PATH={made.path}"], made.home / "examples/complete")


class Page:
    """What a page of the table asks."""

    def __init__(self, address: str):
        self.host = address.removeprefix("http://").rstrip("/")

    def asked(self, method: str, path: str, body: str | None = None) -> str:
        link = http.client.HTTPConnection(self.host, timeout=SLOW)
        link.request(method, path, body, {"X-Pinball": "1"})
        reply = link.getresponse()
        text = reply.read().decode()
        equal((path, reply.status), (path, 200))
        return text

    def get(self, path: str) -> str:
        return self.asked("GET", path)

    def do(self, deed: str, **words: str) -> None:
        self.asked("POST", f"/{deed}", json.dumps(words))

    def state(self) -> dict[str, Any]:
        return json.loads(self.get("/state"))


def play_a_game(before: list[str | Path], folder: Path) -> None:
    """Starts the table by a command that begins with some words, and plays a whole game on its page."""
    words = [*before, "pinball-table", "--port", "0", "--patience", str(SLOW), folder]
    table = subprocess.Popen(words, cwd="/", stdout=subprocess.PIPE, stderr=subprocess.STDOUT, text=True)
    try:
        assert table.stdout
        address = table.stdout.readline().strip()
        assert address.startswith("http://127.0.0.1:"), address + table.stdout.read()
        page = Page(address)
        assert "<html" in page.get("/")
        games.play(PageHand(page))
        table.send_signal(signal.SIGINT)
        equal(table.wait(SLOW), 0)
    finally:
        table.kill()


@test
def it_goes_without_a_trace(made: Made) -> None:
    install(made)
    run(["chmod", "-R", "u+w", made.prefix], made.room)
    here = listing(made.prefix)
    # the same again is the same, and what is not of a release stays
    run([made.unpacked / "install.sh", made.prefix], made.room)
    equal([it.split()[0] for it in listing(made.prefix)], [it.split()[0] for it in here])
    run([made.home / "install.sh", "--remove", made.prefix], Path("/"))
    equal(listing(made.prefix.parent), [])
    (made.prefix / "bin").mkdir(parents=True)
    (made.prefix / "bin/other").touch()
    before = listing(made.prefix)
    run([made.unpacked / "install.sh", made.prefix], made.room)
    run([made.unpacked / "install.sh", "--remove", made.prefix], made.room)
    equal(listing(made.prefix), before)
    assert "has installed nothing" in run([made.unpacked / "install.sh", "--remove", made.prefix], made.room, 1)


@test
def it_overwrites_nothing_of_others(made: Made) -> None:
    for name, make in {"file": lambda it: it.touch(), "link": lambda it: it.symlink_to("nowhere")}.items():
        prefix = made.room / f"taken by a {name}"
        (prefix / "bin").mkdir(parents=True)
        make(prefix / "bin/pinball")
        before = listing(prefix)
        assert "is there already" in run([made.unpacked / "install.sh", prefix], made.room, 1)
        equal(listing(prefix), before)
    prefix = made.room / "taken by a folder"
    prefix.mkdir()
    (prefix / "bin").symlink_to(made.room)
    assert "link to another folder" in run([made.unpacked / "install.sh", prefix], made.room, 1)
    equal(len(listing(prefix)), 1)


@test
def a_damaged_release_is_not_installed(made: Made) -> None:
    copy = made.room / "damaged"
    shutil.copytree(made.unpacked, copy, symlinks=True)
    with open(copy / "share/pinball/docs/tutorial.md", "a") as page:
        page.write("more\n")
    assert "the release is damaged" in run([copy / "install.sh", made.room / "none"], made.room, 1)
    assert not (made.room / "none").exists()


@test
def dpkg_installs_and_removes_the_package(made: Made) -> None:
    package = next((it for it in made.files if it.suffix == ".deb"), None)
    if not package or not shutil.which("dpkg") or os.getuid():
        raise Skipped("there is no dpkg here, or this is not root")
    root = made.room / "a root"
    for name in ("updates", "info", "triggers"):
        (root / "var/lib/dpkg" / name).mkdir(parents=True)
    (root / "var/lib/dpkg/status").touch()
    words = ["dpkg", f"--root={root}", "--force-depends", "--log=/dev/null"]
    before = listing(root)
    run([*words, "-i", package], made.room)
    equal(run([root / "usr/bin/pinball", "--version"], Path("/"), 2), f"pinball {made.version}\n")
    said = run([root / "usr/bin/pinball-help", "errors", root / "usr/share/pinball/examples/first"], Path("/"))
    assert said.startswith("Nothing to mend"), said
    run([*words, "--purge", "pinball-checker"], made.room)
    equal([it for it in listing(root) if not it.startswith("var/")], [it for it in before if not it.startswith("var/")])
