"""A page in headless Chromium, over its debugging pipe: messages of JSON, each ended by a zero byte."""
import base64
import fcntl
import json
import os
import select
import shutil
import signal
import subprocess
import tempfile
import time
from pathlib import Path
from typing import Any

from . import groups

NAMES = ("chromium", "chromium-browser", "google-chrome")
PATIENCE = 120.0  # s
ABOVE = 10  # files of ours have numbers from here on while Chromium starts, so that 3 and 4 are free
CLICKS = 5  # so often a click is tried
LAST = 2_000  # bytes of what Chromium has complained of that are shown


def find() -> str | None:
    return next((path for name in NAMES if (path := shutil.which(name))), None)


def pipe() -> tuple[int, int]:
    """A pipe whose two files have numbers from ABOVE on."""
    low = os.pipe()
    ends = tuple(fcntl.fcntl(it, fcntl.F_DUPFD_CLOEXEC, ABOVE) for it in low)
    for it in low:
        os.close(it)
    return ends[0], ends[1]


class Chromium:
    """One page. It is closed at the end of a `with`."""

    def __init__(self, program: str, width: int = 1280, height: int = 900):
        self.room = tempfile.TemporaryDirectory(prefix="chromium-")
        self.complaints = open(Path(self.room.name) / "complaints", "a+b")  # (what it writes comes to the end)
        self.inlet, self.outlet, self.rest = *self.start(program, width, height), b""
        self.number, self.session = 0, ""
        page = next(it for it in self.ask("Target.getTargets")["targetInfos"] if it["type"] == "page")
        self.session = self.ask("Target.attachToTarget", targetId=page["targetId"], flatten=True)["sessionId"]
        self.size(width, height)

    def start(self, program: str, width: int, height: int) -> tuple[int, int]:
        """Starts the process. Gives the files for what it reads and what it writes."""
        out, inlet = pipe()  # we write to `inlet`, it reads from `out`
        outlet, back = pipe()
        words = [
            program, "--headless=new", "--no-sandbox", "--disable-gpu", "--no-first-run", "--disable-dev-shm-usage",
            "--disable-background-networking", "--disable-breakpad", "--remote-debugging-pipe",
            f"--user-data-dir={self.room.name}/profile", f"--window-size={width},{height}", "about:blank"]
        # It reads from file 3 and writes to file 4. (Not by `sh`: dash knows no file of two digits.)
        line = f'exec "$@" 3<&{out} 4>&{back} {out}<&- {back}>&-'
        self.process = groups.start(
            ["bash", "-c", line, "bash", *words], pass_fds=(out, back), stdin=subprocess.DEVNULL,
            stdout=self.complaints, stderr=self.complaints, env={**os.environ, "TMPDIR": self.room.name})
        os.close(out)
        os.close(back)
        return inlet, outlet

    def __enter__(self) -> "Chromium":
        return self

    def __exit__(self, *_: object) -> None:
        self.close()

    def close(self) -> None:
        groups.end(self.process)
        os.close(self.inlet)
        os.close(self.outlet)
        self.complaints.close()
        for _ in range(20):  # (its children may still write)
            try:
                return self.room.cleanup()
            except OSError:
                time.sleep(0.1)

    # messages

    def ask(self, method: str, **words: Any) -> dict[str, Any]:
        self.number += 1
        message: dict[str, Any] = {"id": self.number, "method": method, "params": words}
        if self.session:
            message["sessionId"] = self.session
        try:
            os.write(self.inlet, json.dumps(message).encode() + b"\0")
        except BrokenPipeError:
            raise self.gone("Chromium has ended") from None
        while True:
            found = self.message()
            if found.get("id") == self.number:
                if "error" in found:
                    raise AssertionError(f"{method}: {found['error']}")
                return found["result"]

    def message(self) -> dict[str, Any]:
        while b"\0" not in self.rest:
            if not select.select([self.outlet], [], [], PATIENCE)[0]:
                raise self.gone("Chromium does not answer")
            piece = os.read(self.outlet, 1 << 20)
            if not piece:
                raise self.gone("Chromium has ended")
            self.rest += piece
        message, _, self.rest = self.rest.partition(b"\0")
        return json.loads(message)

    def gone(self, what: str) -> AssertionError:
        """With its status, if it has ended, and with the last that it has complained of."""
        try:
            status = self.process.wait(1)
            what += f" by {signal.Signals(-status).name}" if status < 0 else f" with status {status}"
        except subprocess.TimeoutExpired:
            what += ", and its process still runs"
        self.complaints.seek(0)
        return AssertionError(f"{what}; it said: {self.complaints.read()[-LAST:].decode('utf-8', 'replace')}")

    # the page

    def size(self, width: int, height: int, is_mobile: bool = False) -> None:
        words = {"width": width, "height": height, "deviceScaleFactor": 1, "mobile": is_mobile}
        self.ask("Emulation.setDeviceMetricsOverride", **words)

    def open(self, url: str) -> None:
        self.ask("Page.enable")
        self.ask("Page.navigate", url=url)
        self.until("document.readyState === 'complete' && window.pinball !== undefined")

    def run(self, script: str) -> Any:
        found = self.ask("Runtime.evaluate", expression=script, returnByValue=True, awaitPromise=True)
        assert "exceptionDetails" not in found, found["exceptionDetails"]
        return found["result"].get("value")

    def until(self, script: str, seconds: float = PATIENCE) -> None:
        end = time.monotonic() + seconds
        while not self.run(f"!!({script})"):
            if time.monotonic() > end:
                state = self.run("JSON.stringify(window.pinball)")
                raise AssertionError(f"not within {seconds:g} s: {script}; {state}")
            time.sleep(0.02)

    def frames(self) -> None:
        """Waits until what has been done is shown."""
        self.run("new Promise(done => requestAnimationFrame(() => requestAnimationFrame(() => done())))")

    def place(self, css: str) -> tuple[float, float]:
        """The middle of an element, after it has been scrolled into sight."""
        at = self.run(
            f"(() => {{ const it = document.querySelector({json.dumps(css)}); it.scrollIntoView({{block: 'nearest'}});"
            " const box = it.getBoundingClientRect(); return [box.x + box.width / 2, box.y + box.height / 2]; })()")
        return at[0], at[1]

    def mouse(self, kind: str, css: str, modifiers: int = 0) -> None:
        x, y = self.place(css)
        self.ask("Input.dispatchMouseEvent", type=kind, x=x, y=y, button="left", clickCount=1, modifiers=modifiers)

    def click(self, css: str, modifiers: int = 0) -> None:
        """Clicks again if nothing came: the page may have moved between the look for the place and the click."""
        button = f"document.querySelector({json.dumps(css)})"
        self.run(f"window.clicked = false; {button}.addEventListener('click', () => window.clicked = true, {{once: true}})")
        for _ in range(CLICKS):
            self.mouse("mousePressed", css, modifiers)
            self.mouse("mouseReleased", css, modifiers)
            if self.run("window.clicked"):
                return
        raise AssertionError(f"no click comes to {css}")

    def drag(self, css: str, x: float, y: float) -> None:
        self.mouse("mousePressed", css)
        for part in (0.5, 1.0):
            self.ask("Input.dispatchMouseEvent", type="mouseMoved", x=x * part, y=y * part, button="left", buttons=1)
        self.ask("Input.dispatchMouseEvent", type="mouseReleased", x=x, y=y, button="left", clickCount=1)

    def key(self, kind: str, key: str) -> None:
        code = {"/": "Slash", " ": "Space"}.get(key, f"Key{key.upper()}")
        self.ask("Input.dispatchKeyEvent", type=kind, key=key, code=code, text=key if kind == "keyDown" else "")

    def shot(self, path: Path, whole: bool = False) -> None:
        found = self.ask("Page.captureScreenshot", format="png", captureBeyondViewport=whole)
        path.write_bytes(base64.b64decode(found["data"]))
