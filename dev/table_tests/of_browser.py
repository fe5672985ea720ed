"""Tests of the page in headless Chromium. Not tried if it is not installed.

If the variable SHOTS has the name of a folder, pictures of the page are kept there, to be looked at."""
import os
import random
import shutil
import tempfile
import threading
import time
import zlib
from contextlib import contextmanager
from pathlib import Path
from typing import Any, Callable, Iterator

from pinball_table.settings import FILE, PICTURE

from . import chromium, games
from .chromium import Chromium
from .harness import COMPLETE, TOP, Skipped, Table, equal, folder_of, played, test
from .of_boards import board_and_table, hold_a_coil
from .of_pages import HOSTILE, LABELS, PageHand

WIDE, NARROW = (1280, 900), (390, 844)
SHIFT = 8  # (the modifier of a mouse event)
TARGET = 25  # px: the least height of a button
BROWSERS = threading.BoundedSemaphore(2)  # so many at once: each is a dozen processes
AT_END = "(it => it.scrollTop + it.clientHeight > it.scrollHeight - 2)(document.getElementById('trace'))"
LOOK = (
    "const text = id => document.getElementById(id).textContent;"
    " const texts = css => [...document.querySelectorAll(css)].map(it => it.textContent);")
# what the page shows in a whole game, by `text` and `texts`
SHOWN = {
    "two balls lie in the trough": "document.querySelectorAll('.ball.in').length === 2"
    " && text('ledger').startsWith('Ledger: 2 known, 2 in devices') && text('phase') === 'no game'",
    "there are two players": "texts('.player').length === 2 && texts('.player.current').length === 1",
    "the flipper is held": "document.querySelector('[data-coil=c_left_hold] .lamp').className === 'lamp held'",
    "two balls are on the playfield": "text('loose') === 'Really: 2 on the playfield, 0 on the way'"
    " && texts('#modes .chip.on').includes('two')",
    "the hurry-up runs": "texts('#modes .chip.on').some(it => /^hurry\\d+$/.test(it))"
    " && texts('#timers td').includes('running') && text('variables').includes('score')"
    " && document.querySelector('[data-coil=c_gate]').textContent.includes('held')",
    "the game is over": "text('phase') === 'game over'",
}


@contextmanager
def browser() -> Iterator[Chromium]:
    program = chromium.find()
    if not program:
        raise Skipped("Chromium is not installed")
    with BROWSERS, Chromium(program, *WIDE) as page:
        yield page


@contextmanager
def page_of(folder: Path, *words: str) -> Iterator[tuple[Chromium, Table]]:
    with browser() as page, Table(folder, *words) as table:
        page.open(table.address)
        yield page, table


def keep(page: Chromium, name: str) -> None:
    """Keeps a picture at both widths. At neither is the page wider than the window."""
    for width, height in NARROW, WIDE:
        page.size(width, height, width == NARROW[0])
        time.sleep(0.1)
        assert page.run("document.documentElement.scrollWidth") <= width, f"{name} is wider than {width}"
        if folder := os.environ.get("SHOTS"):
            page.shot(Path(folder) / f"{name}-{width}.png", width == NARROW[0])


class ClickHand(PageHand):
    """Plays by clicks and keys. The page carries them out in order, so each is awaited before the next."""

    def __init__(self, page: Chromium, table: Table):
        self.page = page
        super().__init__(table)

    def pause(self) -> None:
        self.page.click("#pause")
        self.page.until("window.pinball.paused")

    def begin_tap(self, switch: str) -> None:
        self.page.click(f'[data-switch="{switch}"]')
        self.page.until(f"window.pinball.active.includes('{switch}') && !window.pinball.held.length")

    def step(self) -> None:
        before = self.table.state()["steps"]
        self.page.click("#step")
        self.table.until(lambda it: it["steps"] > before)

    def hold(self, switch: str) -> None:
        self.page.key("keyDown", {"s_left_button": "z"}[switch])
        self.page.until(f"window.pinball.held.includes('{switch}')")

    def let_go(self, switch: str) -> None:
        self.page.key("keyUp", {"s_left_button": "z"}[switch])
        self.page.until("!window.pinball.held.length")

    def drain(self) -> None:
        before = self.table.state()["loose"]
        self.page.click('[data-act="drain"]')
        self.table.until(lambda it: it["loose"] < before)

    def until(self, what: str, holds: Callable[[dict[str, Any]], bool]) -> None:
        super().until(what, holds)
        self.page.until(f"(() => {{ {LOOK} return {SHOWN.get(what, 'true')}; }})()")
        if what in ("two balls lie in the trough", "the hurry-up runs", "the flipper is held", "the game is over"):
            keep(self.page, what.replace(" ", "-"))


@test
def a_whole_game_by_clicks() -> None:
    with page_of(COMPLETE) as (page, table):
        games.play(ClickHand(page, table))
        log, trace = table.get("/log").splitlines(), table.get("/trace").splitlines()
        equal(played(log, COMPLETE), trace)
        equal(page.run("[...document.querySelectorAll('.player b')].map(it => it.textContent)"), ["13,330", "10"])
        page.click("#shut_down")
        page.until("!document.getElementById('ended').hidden")
        assert page.run("document.querySelector('[data-act=drain]').disabled")


@test
def no_button_moves_when_the_first_player_comes() -> None:
    with page_of(COMPLETE) as (page, table):
        hand = ClickHand(page, table)
        hand.until("two balls lie in the trough", lambda it: it["ledger"]["counted"] == 2)
        before = places_of_buttons(page)
        hand.tap("s_start")
        hand.until("a ball is in play", lambda it: it["phase"] == "ball in play")
        page.until("document.querySelector('.player.current')")
        equal(places_of_buttons(page), before)


def places_of_buttons(page: Chromium) -> list[Any]:
    """At both widths."""
    found = []
    for width, height in NARROW, WIDE:
        page.size(width, height, width == NARROW[0])
        page.frames()
        found.append(page.run(
            "[...document.querySelectorAll('.controls button, #acts button, .switch')].map(it => {"
            " const box = it.getBoundingClientRect(); return [it.textContent, box.x + scrollX, box.y + scrollY]; })"))
    return found


@test
def a_switch_is_clicked_held_and_latched() -> None:
    with page_of(TOP / "examples/flippers") as (page, table):
        button = '[data-switch="s_left_button"]'
        page.click('[data-switch="s_start"]')
        page.until("document.getElementById('trace').textContent.includes('play_begins')")
        page.mouse("mousePressed", button)
        page.until("window.pinball.coils.c_left_hold.holder !== ''")
        page.until("document.querySelector('[data-coil=c_left_hold] .lamp').className === 'lamp held'")
        page.mouse("mouseReleased", button)
        page.until("window.pinball.coils.c_left_hold.holder === ''")
        page.click(button, SHIFT)
        page.until("window.pinball.held.length === 1 && document.querySelector('.latched')")
        page.click(button)
        page.until("window.pinball.held.length === 0 && !document.querySelector('.latched')")
        page.key("keyDown", "z")
        page.until("window.pinball.active.includes('s_left_button')")
        page.ask("Page.navigate", url="about:blank")  # the page is left, and the key is still down
        table.until(lambda it: not it["held"] and not it["active"], 20)


@test
def keys_are_shown_and_are_those_of_table_yaml() -> None:
    with tempfile.TemporaryDirectory(prefix="test-table-") as room:
        folder = Path(room) / "balls"
        shutil.copytree(TOP / "examples/balls", folder)
        (folder / FILE).write_text("keys: {x: s_sling}\n")
        with page_of(folder) as (page, table):
            for css, key in ("[data-switch=s_sling]", "x"), ("[data-switch=s_start]", "s"), ("[data-act=drain]", "d"):
                equal(page.run(f"document.querySelector('{css} kbd').textContent"), key)
            page.key("keyDown", "x")
            page.until("window.pinball.active.includes('s_sling')")
            page.key("keyUp", "X")  # (Shift was pressed meanwhile)
            page.until("!window.pinball.active.includes('s_sling') && !window.pinball.held.length")
            page.key("keyDown", "p")
            page.until("window.pinball.paused")
            page.click('[data-switch="s_start"]')
            page.until("window.pinball.active.includes('s_start') && !window.pinball.held.length")
            before = table.state()["steps"]
            for key, steps in ("n", before + 1), ("b", before), ("n", before + 1):
                page.key("keyDown", key)
                page.until(f"window.pinball.steps === {steps}")
            page.key("keyDown", "p")
            page.until("!window.pinball.paused")


@test
def a_log_is_opened_in_the_page() -> None:
    with page_of(COMPLETE) as (page, table):
        root = page.ask("DOM.getDocument")["root"]["nodeId"]
        file = page.ask("DOM.querySelector", nodeId=root, selector="#file")["nodeId"]
        page.ask("DOM.setFileInputFiles", files=[str(COMPLETE / "log")], nodeId=file)
        page.until("window.pinball.last === 27000 && window.pinball.paused && window.pinball.now === 0")
        for moment, score in (27000, 38820), (8500, 3820), (3700, 10):
            page.run(f"(() => {{ const it = document.getElementById('moment'); it.value = {moment};"
                     " it.dispatchEvent(new Event('change')); })()")
            page.until(f"window.pinball.now === {moment} && window.pinball.players[1].score === {score}")
        equal(page.run("document.getElementById('save').download"), "")
        equal(page.run("fetch(document.getElementById('save').href).then(it => it.text())"), table.get("/log"))


@test
def a_page_of_a_board_only_shows() -> None:
    with browser() as page, board_and_table() as (board, table):
        page.open(table.address)
        hold_a_coil(board, table)
        hidden = ["time", "start_over", "open", "latch_label", "by_hand"]
        equal(page.run(f"{hidden}.filter(it => !document.getElementById(it).hidden)"), [])
        equal(page.run("document.querySelectorAll('#acts button, .switch kbd, .switch.stays').length"), 0)
        page.until("document.querySelector('[data-switch=s_left_button]').classList.contains('on')")
        page.until("document.querySelector('[data-coil=c_left_hold] .lamp').className === 'lamp held'")
        page.click('[data-switch="s_start"]')
        page.key("keyDown", "s")
        page.until("document.getElementById('told').textContent === ''")
        equal(table.get("/log").count("s_start"), 1)
        page.click("#shut_down")
        page.until("!document.getElementById('ended').hidden")
        board.until(lambda: not board.on and board.has_heard("off"))


@test
def the_trace_stays_at_its_end() -> None:
    """At any size of the window, until somebody scrolls up: then it stays there."""
    with page_of(COMPLETE, "--open", str(COMPLETE / "log")) as (page, table):
        table.do("go_to", moment=27000)
        page.until(f"document.querySelectorAll('.cascade').length > 30 && {AT_END}")
        for width, height in (700, 500), NARROW, WIDE, (1000, 1400), (1280, 420), NARROW, WIDE:
            page.run("document.getElementById('trace').scrollTop -= 1")  # (its event comes after the new size)
            page.size(width, height, width == NARROW[0])
            page.frames()
            page.until(AT_END)
        page.run("document.getElementById('trace').scrollTop = 100")
        page.frames()
        page.size(1000, 1400)
        page.frames()
        assert not page.run(AT_END), "it has gone to the end"


@test
def the_trace_is_filtered_and_says_what_was_caused() -> None:
    with page_of(TOP / "examples/first") as (page, _):
        page.click('[data-switch="s_left_target"]')
        page.until("document.querySelectorAll('.cascade').length === 2")
        page.click(".cascade")
        page.until("document.getElementById('caused').textContent.includes('left_target_hit, target_hit')")
        page.run("(() => { const it = document.getElementById('words'); it.value = 'inactive';"
                 " it.dispatchEvent(new Event('input')); })()")
        page.until("document.querySelectorAll('.cascade').length === 1")


@test
def switches_are_dragged_over_the_picture() -> None:
    with folder_of((TOP / "examples/first/config/config.yaml").read_text(), table="# mine\n") as folder:
        (folder / PICTURE).write_bytes(picture(300, 500))
        with page_of(folder) as (page, table):
            page.until("document.getElementById('picture').naturalWidth === 300")
            page.click("#edit")
            left, top, width, height = page.run(
                "(() => { const it = document.getElementById('board').getBoundingClientRect();"
                " return [it.left, it.top, it.width, it.height]; })()")
            page.drag('[data-switch="s_drain"]', left + width * 0.5, top + height * 0.25)
            page.until("document.querySelector('.placed[data-switch=s_drain]')")
            end = time.monotonic() + 20
            while "s_drain" not in (folder / FILE).read_text():
                assert time.monotonic() < end, (folder / FILE).read_text()
            lines = (folder / FILE).read_text().splitlines()
            equal(lines[:3], ["# mine", "", "layout:"])
            x, y = (float(it) for it in lines[3].removeprefix("  s_drain: ").split(","))
            assert abs(x - 50) < 2 and abs(y - 25) < 2, lines[3]
            page.click("#edit")
            page.click('[data-switch="s_drain"]')
            page.until("document.getElementById('trace').textContent.includes('ball_lost')")
            keep(page, "picture")


def picture(width: int, height: int) -> bytes:
    """A picture of one colour, as a PNG."""
    def part(kind: bytes, data: bytes) -> bytes:
        return len(data).to_bytes(4, "big") + kind + data + zlib.crc32(kind + data).to_bytes(4, "big")

    head = width.to_bytes(4, "big") + height.to_bytes(4, "big") + bytes((8, 2, 0, 0, 0))
    rows = (b"\0" + bytes((40, 70, 60)) * width) * height
    return b"\x89PNG\r\n\x1a\n" + part(b"IHDR", head) + part(b"IDAT", zlib.compress(rows)) + part(b"IEND", b"")


@test
def no_markup_of_a_name_becomes_an_element() -> None:
    with folder_of(LABELS, name=HOSTILE.replace("/", "")) as folder, page_of(folder) as (page, _):
        equal(page.run("document.getElementById('name').textContent"), HOSTILE.replace("/", ""))
        equal(page.run("document.querySelector('[data-switch=s_left]').firstChild.data"), HOSTILE)
        equal(page.run("document.querySelectorAll('main img:not(#picture), header img, main b').length"), 0)
        equal(page.run("document.querySelectorAll('script').length"), 1)


def large_machine() -> tuple[str, dict[str, str]]:
    """64 modes and 256 switches, the most that there may be."""
    drawn = random.Random(5)
    tags = ["lane", "target", "standup", "ramp", "rollover", "captive"]
    modes = [f"mode_with_a_long_name_{at:02}" for at in range(64)]
    named = [(f"s_{drawn.choice(tags)}_{at:03}", at, drawn.choice(tags)) for at in range(256)]
    switches = "".join(f"  {name}: {{number: {at}, debounce: quick, tags: {tag}}}\n" for name, at, tag in named)
    coils = "".join(f"  c_{at:03}: {{number: {at}, default_pulse_ms: 20}}\n" for at in range(64))
    fired = "".join(f"  sw_{tag}: {{c_{at:03}: pulse}}\n" for at, tag in enumerate(tags))
    settings = "mode: {{start_events: sw_{}, game_mode: no, priority: {}}}\n"
    texts = {mode: settings.format(tags[at % len(tags)], at) for at, mode in enumerate(modes)}
    return f"modes: {', '.join(modes)}\nswitches:\n{switches}coils:\n{coils}coil_player:\n{fired}", texts


@test
def a_large_machine_stays_usable() -> None:
    text, modes = large_machine()
    with folder_of(text, modes, name="large") as folder, page_of(folder) as (page, table):
        equal(page.run("document.querySelectorAll('.switch').length"), 256)
        for _ in range(3):
            page.run("document.querySelectorAll('.switch')[77].dispatchEvent(new Event('focus'))")
            page.click(".switch:nth-child(2)")
        page.until("window.pinball.modes.length > 5")
        begun = time.monotonic()
        equal(page.run("(() => { const it = document.getElementById('find'); it.value = '_12'; "
                       "it.dispatchEvent(new Event('input')); "
                       "return [...document.querySelectorAll('.switch')].filter(one => !one.hidden).length; })()"), 10)
        assert time.monotonic() - begun < 5
        keep(page, "large")
        height = page.run("document.querySelector('.switch:not([hidden])').getBoundingClientRect().height")
        assert height >= TARGET, height
