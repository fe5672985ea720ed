"""Serves the page, on 127.0.0.1 only. It answers no page of another site, and hands what people do to the loop.

A page that the builder happens to open could send requests to this address too. So the `Host` has to be this address,
which a site that only points its name here cannot send. The `Origin`, if there is one, has to be this page's. And what
does something needs a header of its own, which a browser lets no other page send.
"""
import json
import queue
import select
import socket
from http.server import BaseHTTPRequestHandler, ThreadingHTTPServer
from pathlib import Path
from typing import Any, Callable
from urllib.parse import parse_qsl, urlsplit

from . import layout
from .answers import LATEST, Refused
from .feed import Seen
from .player import NotNow, Player
from .record import record
from .session import log_lines
from .settings import FILE, PICTURE
from .view import about, state_of

PAGE = Path(__file__).with_name("page")
KINDS = {".html": "text/html", ".css": "text/css", ".js": "text/javascript"}
FILES = {f"/{it.name}".replace("/index.html", "/"): it for it in PAGE.iterdir()}
HEADERS = {
    "Content-Security-Policy": "default-src 'none'; script-src 'self'; style-src 'self'; img-src 'self' data:; "
    "connect-src 'self'; base-uri 'none'; form-action 'none'; frame-ancestors 'none'",
    "Cross-Origin-Resource-Policy": "same-origin",
    "X-Content-Type-Options": "nosniff",
    "Referrer-Policy": "no-referrer",
    "Cache-Control": "no-store",
}
MOST_BYTES = 16 << 20  # of a request: a log that `pinball play` reads
FRAME = 0.03  # s: a page gets news at most so often
HEARTBEAT = 0.25  # s: a page that is closed is missed after so long


class BadRequest(ValueError):
    """A request that no page of this server sends."""


def deeds(player: Player) -> dict[str, Callable[[dict[str, Any]], Any]]:
    """What a page can do: each takes the words of the request."""

    def switch(words: dict[str, Any]) -> str:
        if text(words, "switch") not in player.session.machine.switches:
            raise BadRequest("there is no such switch")
        return words["switch"]

    def place(words: dict[str, Any]) -> None:
        try:
            layout.place(player.settings, text(words, "name"), number(words, "x"), number(words, "y"))
        except OSError as error:
            raise NotNow(f"{FILE} cannot be written: {error.strerror}") from None

    return {
        "tap": lambda it: player.tap(switch(it)),
        "press": lambda it: player.press(switch(it), text(it, "page")),
        "release": lambda it: player.release(switch(it), text(it, "page")),
        "let_go": lambda it: player.let_go(text(it, "page")),
        "drain": lambda _: player.drain(),
        "plunge": lambda _: player.plunge(),
        "pause": lambda _: player.pause(True),
        "go": lambda _: player.pause(False),
        "step": lambda _: player.step(),
        "back": lambda _: player.back(),
        "speed": lambda it: player.set_speed(number(it, "speed")),
        "go_to": lambda it: player.go_to(int(number(it, "moment"))),
        "start_over": lambda _: player.start_over(),
        "open": lambda it: player.start_over(log_lines(text(it, "log"))),
        "shut_down": lambda _: player.shut_down("shut down from the page"),
        "record": lambda it: record(player.session, text(it, "title"), texts(it, "lines")),
        "place": place,
    }


def text(words: dict[str, Any], key: str) -> str:
    if not isinstance(words.get(key), str):
        raise BadRequest(f"`{key}` has to be a text")
    return words[key]


def texts(words: dict[str, Any], key: str) -> list[str]:
    found = words.get(key)
    if not isinstance(found, list) or not all(isinstance(it, str) for it in found):
        raise BadRequest(f"`{key}` has to be a list of texts")
    return found


def number(words: dict[str, Any], key: str) -> float:
    value = words.get(key)
    if isinstance(value, bool) or not isinstance(value, (int, float)) or not abs(value) <= LATEST:
        raise BadRequest(f"`{key}` has to be a number")
    return value


class Handler(BaseHTTPRequestHandler):
    protocol_version = "HTTP/1.1"
    disable_nagle_algorithm = True  # (otherwise news wait until the page has confirmed those before)
    timeout = 30
    server: "Server"

    def log_message(self, *_: object) -> None:
        pass

    def version_string(self) -> str:
        return "pinball-table"

    # who asks

    def refusal(self) -> str:
        """Why this request is refused, or nothing."""
        hosts = self.server.hosts
        if self.headers.get_all("Host") not in [[host] for host in hosts]:
            return "the Host is not this address"
        if self.headers.get("Origin", f"http://{hosts[0]}") not in [f"http://{host}" for host in hosts]:
            return "the Origin is not this page"
        if self.headers.get("Sec-Fetch-Site", "same-origin") not in ("same-origin", "none"):
            return "the request comes from another site"
        if self.command == "POST" and self.headers.get("X-Pinball") != "1":
            return "the header X-Pinball is missing"
        return ""

    def reply(self, status: int, kind: str, body: bytes, more: dict[str, str] | None = None) -> None:
        self.send_response(status)
        for name, value in {**HEADERS, **(more or {}), "Content-Type": kind, "Content-Length": str(len(body))}.items():
            self.send_header(name, value)
        self.end_headers()
        self.wfile.write(body)

    def refuse(self, status: int, why: str) -> None:
        self.close_connection = True  # (what else it has sent is not read)
        self.reply(status, "text/plain; charset=utf-8", f"{why}\n".encode(), {"Connection": "close"})

    # what is asked

    def do_GET(self) -> None:
        if why := self.refusal():
            return self.refuse(403, why)
        url = urlsplit(self.path)
        player = self.server.player
        if url.path in FILES:
            file = FILES[url.path]
            self.reply(200, f"{KINDS[file.suffix]}; charset=utf-8", file.read_bytes())
        elif url.path == "/about":
            found = player.call(lambda: about(player, self.server.program))
            self.reply(200, "application/json", json.dumps(found).encode())
        elif url.path == "/table.png" and (picture := player.settings.machine.folder / PICTURE).is_file():
            self.reply(200, "image/png", picture.read_bytes())
        elif url.path in ("/log", "/trace", "/state"):
            self.lines(url.path)
        elif url.path == "/events":
            self.events(dict(parse_qsl(url.query)).get("page", ""))
        else:
            self.refuse(404, "there is no such page")

    def lines(self, path: str) -> None:
        """The log, the trace, or the state, as they are now."""
        player = self.server.player
        if path == "/log":
            found = player.call(lambda: player.session.log())
            name = f"{player.session.machine.name}.log"
        elif path == "/trace":
            found, name = player.call(lambda: list(player.session.trace)), "trace"
        else:
            return self.reply(200, "application/json", json.dumps(player.call(lambda: state_of(player))).encode())
        safe = "".join(it if it.isascii() and (it.isalnum() or it in "_-.") else "_" for it in name)
        more = {"Content-Disposition": f'attachment; filename="{safe}"'} if path == "/log" else None
        self.reply(200, "text/plain; charset=utf-8", "".join(f"{line}\n" for line in found).encode(), more)

    def do_POST(self) -> None:
        if why := self.refusal():
            return self.refuse(403, why)
        length = self.headers.get("Content-Length", "")
        if not length.isdecimal() or int(length) > MOST_BYTES or "Transfer-Encoding" in self.headers:
            return self.refuse(413, "the request has no length, or is too long")
        body = self.rfile.read(int(length))
        try:
            words = json.loads(body)
            deed = self.server.deeds.get(urlsplit(self.path).path.removeprefix("/"))
            if not deed or not isinstance(words, dict):
                raise BadRequest("there is no such request")
            found = self.server.player.call(lambda: deed(words))
            self.reply(200, "application/json", json.dumps(found).encode())
        except (ValueError, RecursionError) as error:
            self.refuse(400, str(error))
        except NotNow as error:
            self.reply(409, "text/plain; charset=utf-8", f"{error}\n".encode())
        except (queue.Empty, Refused) as error:
            self.refuse(503, f"the table did not answer {error}")

    # news

    def events(self, page: str) -> None:
        """Server-sent events, until the page is closed. Then what it held is released."""
        self.send_response(200)
        for name, value in {**HEADERS, "Content-Type": "text/event-stream"}.items():
            self.send_header(name, value)
        self.end_headers()
        self.close_connection = True
        player, seen = self.server.player, Seen()
        player.post(lambda: player.page_is_open(page))
        try:
            while not self.is_closed():
                news = player.feed.wait(seen, HEARTBEAT)
                self.wfile.write(f"data: {news}\n\n".encode() if news else b": here\n\n")
                if news:
                    select.select([self.connection], [], [], FRAME)
        except OSError:
            pass
        finally:
            player.post(lambda: player.page_is_closed(page))

    def is_closed(self) -> bool:
        if not select.select([self.connection], [], [], 0)[0]:
            return False
        return not self.connection.recv(1, socket.MSG_PEEK)


class Server(ThreadingHTTPServer):
    daemon_threads = True
    allow_reuse_address = True

    def __init__(self, port: int, player: Player, program: str):
        super().__init__(("127.0.0.1", port), Handler)
        self.player, self.program, self.deeds = player, program, deeds(player)
        port = self.server_address[1]
        self.hosts = (f"127.0.0.1:{port}", f"localhost:{port}")

    def handle_error(self, *_: object) -> None:
        pass  # (a page that has gone away)
