"""The page of `picture`: what is in it, and, if chromium is installed, what a browser makes of it."""
import json
import re
import shutil
import subprocess
import tempfile
from pathlib import Path

from pinball_help import picture
from pinball_help.answers import answer_of
from pinball_help.scenery import Scenery
from pinball_help.texts import MACHINE, Line, Texts, mode_text, read_texts

from .common import EXAMPLES, NotTried, test

HOSTILE = "{{data}}<img src=x onerror=alert(1)></script><script>alert(2)</script>{{js}}"
YES = answer_of("yes\nbound 9\n")


def data_of(page: str) -> dict:
    return json.loads(re.findall(r'<script type="application/json" id="data">(.*?)</script>', page, re.S)[0])


def texts_of(texts: dict[str, str]) -> Texts:
    return {
        name: [Line(number, line) for number, line in enumerate(f"#config_version=6\n{text}".split("\n"), 1)]
        for name, text in texts.items()
    }


def of_modes(count: int) -> Texts:
    """A machine of modes: each but the first is started by an event of another."""
    texts = {MACHINE: f"game:\nmodes: [{', '.join(f'm{at}' for at in range(count))}]"}
    for at in range(count):
        start = f"m{at // 2}_done" if at else "ball_starting"
        texts[mode_text(f"m{at}")] = f"mode: {{start_events: {start}, stop_events: m{at}_done}}\n" \
            f"timers:\n  t{at}: {{end_value: 3, start_running: yes}}\nevent_player:\n  timer_t{at}_complete: m{at}_done"
    return texts_of(texts)


def example(name: str) -> tuple[Scenery, str]:
    """The texts of an example, and its play."""
    folder = next(it for it in EXAMPLES if it.name == name)
    return Scenery(read_texts(folder)), (folder / "expected-play").read_text()


@test
def no_name_becomes_a_part_of_the_page() -> None:
    scene, played = example("complete")
    texts = dict(scene.texts)
    texts[mode_text(HOSTILE)] = texts_of({"t": f'event_player:\n  a: "{HOSTILE}"'})["t"]
    page = picture.page(HOSTILE, Scenery(texts), YES, played)
    assert data_of(page)["title"] == HOSTILE
    assert page.count("<script") == page.count("</script>") == 2 and "<img" not in page
    text = re.findall(r'id="data">(.*?)</script>', page, re.S)[0]
    assert "<" not in text and text.isascii(), text[:200]
    assert page.count("default-src 'none'; script-src 'sha256-") == 1
    empty = picture.page("\x1b[2J\n\udcff", Scenery(texts_of({MACHINE: ""})), YES, None)
    assert "<h1>\\x1b[2J\\x0a\\xff</h1>" in empty, empty[:900]


@test
def handled_only_leaves_out_what_nothing_handles() -> None:
    for folder in EXAMPLES:
        scene = Scenery(read_texts(folder))
        graph = data_of(picture.page("x", scene, YES, None))["graph"]
        whole, few = graph["layouts"]
        lead = {one for one, *_ in graph["arrows"]}
        handled = {int(at) for at, (handled_in, _) in graph["places"].items() if handled_in}
        assert all(whole["at"]), folder
        assert {at for at, place in enumerate(few["at"]) if place} == lead | handled, folder
        assert few["size"][1] <= whole["size"][1], folder


@test
def modes_are_drawn_alone() -> None:
    modes = data_of(picture.page("x", Scenery(of_modes(64)), YES, None))["modes"]
    names = [it[0] for it in modes["boxes"]]
    assert names == ["machine", *(f"m{at}" for at in range(64))], names
    wanted = {("machine", "m0"), *((f"m{at // 2}", f"m{at}") for at in range(1, 64))}
    assert {(names[it[0]], names[it[1]]) for it in modes["arrows"]} == wanted, modes["arrows"]
    said = next(it[3] for it in modes["arrows"] if names[it[1]] == "m3")
    assert said == [f"m1_done starts m3: start_events of m3, {mode_text('m3')}:2"], said
    places = [tuple(it) for it in modes["layouts"][0]["at"]]
    assert len({*places}) == 65 and modes["layouts"][0]["size"][1] < 1_600, modes["layouts"][0]["size"]
    assert data_of(picture.page("x", Scenery(texts_of({MACHINE: "game:"})), YES, None))["modes"] is None


def shown_by_chromium(page: str, part: str) -> str:
    """What a browser makes of the page, opened at a part of it."""
    browser = shutil.which("chromium")
    if not browser:
        raise NotTried("chromium is not installed")
    with tempfile.TemporaryDirectory() as room:
        file = Path(room) / "page.html"
        file.write_text(page)
        words = [browser, "--headless", "--no-sandbox", "--disable-gpu", f"--user-data-dir={room}/user", "--dump-dom"]
        ran = subprocess.run([*words, f"file://{file}#{part}"], capture_output=True, text=True, timeout=600)
    assert "</html>" in ran.stdout, ran.stderr[-500:]
    return ran.stdout


@test
def a_browser_shows_each_picture() -> None:
    scene, played = example("complete")
    page = picture.page(HOSTILE, scene, YES, played)
    for part in ("graph", "modes", "play"):
        dom = shown_by_chromium(page, part)
        seen = [name for tag, name in re.findall(r'(<div [^>]*?id="([\w-]+)"[^>]*>)', dom) if ' hidden=""' not in tag]
        wanted = [*(["of-graph"] if part == "graph" else []), part]
        assert [it for it in seen if it in ("of-graph", "graph", "modes", "play")] == wanted, (part, seen)
        assert "<img" not in dom and "<option value=\"base\">mode base</option>" in dom, part
