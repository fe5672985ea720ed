"""Tests of the requests of a page, and of those that no page of the table sends."""
import json
import socket
import tempfile
import threading
import time
from pathlib import Path
from typing import Any, Callable

from pinball_table.settings import FILE

from . import games
from .harness import COMPLETE, SLOW, SOON, TOP, Table, equal, folder_of, played, test, without_notes

HOSTILE = "<img src=x onerror=alert(1)>"
LABELS = f"""
switches:
  s_left: {{number: 1, label: '{HOSTILE}', tags: "lane, start"}}
  s_right: {{number: '"><b>', label: "</script><script>alert(1)</script>"}}
coils:
  c: {{number: 1, label: '{HOSTILE}', allow_enable: yes}}
flippers:
  f: {{main_coil: c, activation_switch: s_left, enable_events: s_right_active}}
"""


GROUPED = """
switches:
  s_go: {number: 1, tags: start}
  s_left: {number: 2}
  s_trough_1: {number: 3}
  s_trough_2: {number: 4}
  s_lane_1: {number: 5, tags: "playfield_active, lane"}
  s_lane_2: {number: 6, tags: "lane, top"}
  s_sling: {number: 7, tags: playfield_active}
  s_door: {number: 8}
coils:
  c: {number: 1, allow_enable: yes}
  c_trough: {number: 2}
flippers:
  f: {main_coil: c, activation_switch: s_left}
ball_devices:
  trough: {ball_switches: "s_trough_1, s_trough_2", eject_coil: c_trough, tags: trough}
"""
MOST_STEPS = 200  # until something is so


class PageHand:
    """Plays by requests. The time stands still, and goes on step by step: so nobody can be late."""

    def __init__(self, table: Table):
        self.table = table
        self.stays = {it["name"] for it in json.loads(table.get("/about"))["switches"] if it["stays"]}
        self.pause()

    def pause(self) -> None:
        self.table.do("pause")

    def begin_tap(self, switch: str) -> None:
        self.table.do("tap", switch=switch)

    def step(self) -> None:
        self.table.do("step")

    def tap(self, switch: str) -> None:
        line = f" switch {switch} {'active' if switch in self.stays else 'inactive'}\n"
        before = self.table.get("/trace").count(line)
        self.begin_tap(switch)
        self.until(f"{switch} was hit", lambda _: self.table.get("/trace").count(line) > before)

    def hold(self, switch: str) -> None:
        self.table.do("press", switch=switch, page="test")

    def let_go(self, switch: str) -> None:
        self.table.do("release", switch=switch, page="test")

    def drain(self) -> None:
        self.table.do("drain")

    def until(self, what: str, holds: Callable[[dict[str, Any]], bool]) -> None:
        for _ in range(MOST_STEPS):
            if holds(state := self.table.state()):
                return
            self.step()
        raise AssertionError(f"not within {MOST_STEPS} steps: {what}: {state}")


@test
def a_whole_game_by_requests() -> None:
    """Its log plays to the same trace, also after it was shut down."""
    with Table(COMPLETE) as table:
        games.play(PageHand(table))
        log, trace = table.get("/log").splitlines(), table.get("/trace").splitlines()
        equal(played(log, COMPLETE), trace)
        table.do("shut_down")
        table.until(lambda it: it["ended"] != "")
        equal(without_notes(table.get("/trace").splitlines()), trace)


@test
def a_log_is_opened_and_gone_through() -> None:
    with Table(COMPLETE) as table:
        log = (COMPLETE / "log").read_text()
        equal(table.do("open", log=log + "30000 s_nope 1\n"), ["30000 s_nope 1"])
        state = table.until(lambda it: it["last"] == 27000)
        equal((state["paused"], state["steps"], state["now"]), (True, 0, 0))
        for count in 1, 2, 1, 0:  # (two steps of the same moment)
            table.do("step" if count > table.state()["steps"] else "back")
            table.until(lambda it: it["steps"] == count)
            time.sleep(0.1)
            equal(table.state()["steps"], count)
        table.do("go_to", moment=8500)
        state = table.until(lambda it: it["now"] == 8500)
        equal((state["players"]["1"]["score"], "two" in state["running"]), (3820, True))
        table.do("step")
        table.do("step")
        table.do("back")
        equal(table.until(lambda it: it["now"] > 8500)["players"]["1"]["score"], 3820)
        table.do("go_to", moment=27000)
        table.until(lambda it: it["phase"] == "game over")
        wanted = (COMPLETE / "expected-play").read_text()
        equal(table.get("/trace"), wanted)
        equal(played(table.get("/log").splitlines(), COMPLETE), wanted.splitlines())
        table.do("start_over")
        equal(table.until(lambda it: it["last"] < 5000)["players"], {})


@test
def an_opened_log_goes_on_at_its_speed() -> None:
    with Table(COMPLETE, "--open", str(COMPLETE / "log")) as table:
        table.do("speed", speed=10)
        table.do("go")
        # (the clock may be ahead of the steps while the program works)
        table.until(lambda it: it["now"] > 3600 and games.score(it, 1) >= 10)
        table.do("pause")
        assert table.state()["future"] > 0
        table.do("tap", switch="s_lane_left")
        equal(table.until(lambda it: it["future"] == 0)["phase"], "ball in play")


@test
def a_held_switch_belongs_to_its_page() -> None:
    with Table(TOP / "examples/flippers") as table:
        for page in "ab":
            table.do("press", switch="s_left_button", page=page)
        table.until(lambda it: "s_left_button" in it["active"])
        table.do("release", switch="s_left_button", page="a")
        begun = table.state()["now"]
        equal(table.until(lambda it: it["now"] > begun + 50)["held"], ["s_left_button"])
        assert "s_left_button" in table.state()["active"]
        table.do("let_go", page="b")
        table.until(lambda it: not it["active"] and not it["held"], SOON)


@test
def a_short_press_lasts_as_long_as_a_click() -> None:
    """By the log, however long the program takes to answer: otherwise it would be taken for a bounce."""
    with Table(TOP / "examples/first") as table:
        for at in range(3):
            table.do("press", switch="s_drain", page="a")
            table.do("release", switch="s_drain", page="a")
            accepted = "event s_drain_inactive"
            table.until(lambda _, count=at + 1: table.get("/trace").count(accepted) == count)
        moments = [int(line.split()[0]) for line in table.get("/log").splitlines() if " " in line]
        assert len(moments) == 6 and all(moments[it + 1] - moments[it] >= 60 for it in (0, 2, 4)), moments


@test
def a_page_that_is_closed_lets_go() -> None:
    with Table(COMPLETE) as table:
        start_game(table)
        with table.page("mine"):
            table.do("press", switch="s_left_button", page="mine")
            table.until(lambda it: it["coils"]["c_left_hold"]["holder"] != "")
        table.until(lambda it: it["coils"]["c_left_hold"]["holder"] == "", SOON)


def start_game(table: Table) -> None:
    table.until(lambda it: it["ledger"]["counted"] == 2)
    table.do("tap", switch="s_start")
    table.until(lambda it: it["phase"] == "ball in play")


@test
def news_come_as_they_happen() -> None:
    with Table(TOP / "examples/first") as table, table.page("mine") as news:
        table.do("tap", switch="s_drain")
        lines: list[str] = []
        while not any(it.endswith("event ball_lost") for it in lines):
            text = news.readline().decode()
            if text.startswith("data: "):
                found = json.loads(text[6:])
                lines = [*([] if found["anew"] else lines), *found["lines"]]
        equal(lines, table.get("/trace").splitlines()[: len(lines)])


@test
def a_new_session_reads_the_files_again() -> None:
    with folder_of("switches: {s_a: {number: 1}}") as folder, Table(folder) as table:
        config = folder / "config/config.yaml"
        config.write_text("#config_version=6\nswitches: {s_b: {number: 1}}\n")
        table.do("start_over")
        equal([it["name"] for it in json.loads(table.get("/about"))["switches"]], ["s_b"])
        table.do("tap", switch="s_b")
        for text, words in ("switches: {a b: {number: 1}}", "BadValue"), ("switches: [", "Flow"):
            config.write_text(f"#config_version=6\n{text}\n")
            status, said = table.request("POST", "/start_over", b"{}", X_Pinball="1")
            assert status == 409 and words in said.decode(), said
        (folder / FILE).write_text("balls: x\n")
        equal(table.request("POST", "/start_over", b"{}", X_Pinball="1")[0], 409)
        assert "s_b 1" in table.get("/log")  # (the one before goes on)


@test
def a_log_is_kept_in_a_file() -> None:
    """Also after going back, and after starting over. What only waits is left out."""
    with tempfile.TemporaryDirectory() as room:
        file = Path(room) / "log"
        with Table(TOP / "examples/first", "--log", str(file)) as table:
            for switch in "s_left_target", "s_drain":
                table.do("tap", switch=switch)
                table.until(lambda it: it["active"] == [])
            table.do("go_to", moment=0)
            table.do("go")
            table.until(lambda it: it["future"] == 0)
            kept = [it for it in file.read_text().splitlines() if " " in it]
            equal(kept, [it for it in table.get("/log").splitlines() if " " in it])
            table.do("start_over")
            table.do("tap", switch="s_right_target")
            table.until(lambda it: it["active"] == [] and it["steps"] > 3)
            table.end()
        lines = [it for it in file.read_text().splitlines() if " " in it]
        equal([it.split(" ", 1)[1] for it in lines], ["s_right_target 1", "s_right_target 0"])


# what nobody may send


@test
def a_request_of_another_host_or_origin_is_refused() -> None:
    with Table(TOP / "examples/first") as table:
        body, here = b'{"switch": "s_drain"}', f"127.0.0.1:{table.port}"
        good = {"X_Pinball": "1", "Host": here, "Origin": f"http://{here}", "Sec_Fetch_Site": "same-origin"}
        equal(table.request("POST", "/tap", body, **good)[0], 200)
        equal(table.request("POST", "/tap", body, **{**good, "Host": f"localhost:{table.port}"})[0], 200)
        for bad in (
            {"Host": "evil.example"}, {"Host": f"evil.example:{table.port}"}, {"Host": "127.0.0.1"}, {"Host": ""},
            {"Host": f"{here}.evil.example"}, {"Origin": "http://evil.example"}, {"Origin": "null"}, {"Origin": ""},
            {"Origin": f"https://{here}"}, {"Origin": "http://127.0.0.1:1"}, {"Sec_Fetch_Site": "cross-site"},
            {"Sec_Fetch_Site": "same-site"}, {"X_Pinball": "0"},
        ):
            equal((bad, table.request("POST", "/tap", body, **{**good, **bad})[0]), (bad, 403))
            if "X_Pinball" not in bad:
                for path in ("/", "/about", "/state", "/log", "/events", "/trace", "/page.js"):
                    equal((bad, table.request("GET", path, **{**good, **bad})[0]), (bad, 403))
        equal(table.request("POST", "/tap", body)[0], 403)
        assert "s_drain" not in table.get("/log").replace("s_drain 1", "", 2).replace("s_drain 0", "", 2)


@test
def a_request_that_makes_no_sense_is_refused() -> None:
    with Table(TOP / "examples/first") as table:
        for path, body in (
            ("/tap", b""), ("/tap", b"{"), ("/tap", b"[]"), ("/tap", b"{}"), ("/tap", b'{"switch": "s_nope"}'),
            ("/tap", b'{"switch": ["s_drain"]}'), ("/press", b'{"switch": "s_drain"}'), ("/nope", b"{}"), ("/", b"{}"),
            ("/speed", b'{"speed": "9"}'), ("/speed", b'{"speed": true}'), ("/speed", b'{"speed": NaN}'),
            ("/speed", b"{}"), ("/go_to", b'{"moment": 1e99}'), ("/open", b'{"log": 3}'),
            ("/place", b'{"name": "s_drain", "x": 1, "y": 101}'),
            ("/place", b'{"name": "../x", "x": 1, "y": 1}'), ("/tap", b"\xff\xfe"), ("/__class__", b"{}"),
            ("/tap", b'{"switch": "s_drain", "a":' + b"[" * 100_000),
        ):
            status = table.request("POST", path, body, X_Pinball="1")[0]
            equal((path, body[:40], status), (path, body[:40], 400))
        for path in ("/page.py", "/../settings.py", "/%2e%2e/settings.py", "//etc/passwd", "/index.html", "/table.png"):
            equal((path, table.request("GET", path)[0]), (path, 404))
        equal(table.request("PUT", "/tap", b"{}")[0], 501)
        for headers, status in (
            (b"Content-Length: 99999999\r\n\r\n", b"413"), (b"Transfer-Encoding: chunked\r\n\r\n0\r\n\r\n", b"413"),
            (b"Host: evil\r\nContent-Length: 2\r\n\r\n{}", b"403"),
        ):
            head = f"POST /tap HTTP/1.1\r\nHost: 127.0.0.1:{table.port}\r\nX-Pinball: 1\r\n".encode()
            equal(raw(table, head + headers), status)
        table.do("tap", switch="s_drain")  # (it still answers)
        assert not (TOP / "examples/first" / FILE).exists()


def raw(table: Table, data: bytes) -> bytes:
    with socket.create_connection(("127.0.0.1", table.port), SLOW) as link:
        link.sendall(data)
        return link.recv(4096).split(b" ")[1]


@test
def a_step_to_nowhere_says_so() -> None:
    """A replay cannot know that nothing will come: it looks a minute ahead, and the time stays as it was."""
    with Table(TOP / "examples/first") as table:
        table.do("pause")
        table.do("tap", switch="s_drain")
        while table.request("POST", "/step", b"{}", X_Pinball="1")[0] == 200:
            assert table.state()["steps"] < 10
        state = table.state()
        status, said = table.request("POST", "/step", b"{}", X_Pinball="1")
        assert status == 409 and b"nothing happens by itself within 60 s" in said, (status, said)
        equal({it: table.state()[it] for it in ("now", "steps", "active")},
              {it: state[it] for it in ("now", "steps", "active")})
        table.do("tap", switch="s_drain")
        table.do("step")
        equal(len([it for it in table.get("/log").splitlines() if it.endswith("s_drain 1")]), 2)


@test
def a_log_that_is_too_late_is_left_out() -> None:
    with Table(TOP / "examples/first") as table:
        table.do("tap", switch="s_drain")
        late = f"{2**40} s_drain 0"
        equal(table.do("open", log=f"5 s_drain 1\n{late}\n{2**40 - 1} s_drain 0\n"), [late])
        equal(table.state()["ended"], "")
        table.do("go_to", moment=2**40 - 1)
        equal(table.until(lambda it: it["future"] == 0)["now"], 2**40 - 1)


@test
def a_place_that_cannot_be_saved_says_why() -> None:
    with folder_of("switches: {s: {number: 1}}") as folder, Table(folder) as table:
        (folder / f".{FILE}.new").mkdir()
        status, said = table.request("POST", "/place", b'{"name": "s", "x": 1, "y": 2}', X_Pinball="1")
        assert status == 409 and b"table.yaml cannot be written" in said, (status, said)
        table.do("tap", switch="s")


@test
def switches_are_grouped_by_their_devices_and_tags() -> None:
    with folder_of(GROUPED) as folder, Table(folder) as table:
        groups: dict[str, list[str]] = {}
        for it in json.loads(table.get("/about"))["switches"]:
            groups.setdefault(it["group"], []).append(it["name"])
        equal(groups, {
            "cabinet": ["s_go", "s_left"], "trough": ["s_trough_1", "s_trough_2"], "lane": ["s_lane_1", "s_lane_2"],
            "playfield": ["s_sling"], "other": ["s_door"]})


@test
def what_cannot_be_done_now_is_refused() -> None:
    with Table(COMPLETE) as table:
        body = b"{}"
        for deed in "drain", "plunge":
            equal(table.request("POST", f"/{deed}", body, X_Pinball="1")[0], 409)
        table.do("shut_down")
        for deed in "drain", "step", "back", "go_to":
            words = b'{"moment": 0}'
            equal(table.request("POST", f"/{deed}", words, X_Pinball="1")[0], 409)
        table.do("start_over")
        table.until(lambda it: it["ended"] == "" and it["ledger"]["counted"] == 2)


@test
def many_pages_and_requests_at_once() -> None:
    with Table(TOP / "examples/first") as table:
        def work() -> None:
            for _ in range(5):
                table.do("press", switch="s_drain", page="a")
                table.do("release", switch="s_drain", page="a")
                table.state()

        workers = [threading.Thread(target=work) for _ in range(8)]
        for worker in workers:
            worker.start()
        for worker in workers:
            worker.join()
        table.until(lambda it: not it["active"] and not it["held"], SOON)
        table.do("pause")
        equal(played(table.get("/log").splitlines(), TOP / "examples/first"), table.get("/trace").splitlines())


@test
def no_markup_of_a_name_is_sent_as_a_page() -> None:
    """Names come as JSON, and the page makes texts of them: of_browser sees that no element comes of it."""
    with folder_of(LABELS, name=HOSTILE.replace("/", "")) as folder, Table(folder) as table:
        found = json.loads(table.get("/about"))
        equal(found["switches"][0]["label"], HOSTILE)
        for path in "/", "/page.js":
            assert HOSTILE not in table.get(path)
        status = table.request("GET", "/log")
        equal(status[0], 200)
    for file in (TOP / "tools/pinball_table/page").glob("*.js"):
        for word in ("innerHTML", "outerHTML", "insertAdjacentHTML", "document.write", "eval(", "Function("):
            assert word not in file.read_text(), f"{file.name} has {word}"


@test
def a_machine_with_hostile_names_is_refused_by_the_program() -> None:
    with folder_of(f"switches: {{'{HOSTILE}': {{number: 1}}}}") as folder:
        try:
            Table(folder).close()
        except AssertionError as said:
            assert "BadValue" in str(said) and "pinball-help errors" in str(said), said
        else:
            raise AssertionError("it is played")
