"""The words of the command line."""
import argparse
import errno
import signal
import sys
import threading
import time
from pathlib import Path
from typing import Callable

from pinball_help import program as programs
from pinball_help.program import LIVE, NoAnswer, find_live
from pinball_help.texts import MACHINE

from .answers import Answers, Gone, Live, Refused, Replay
from .machine import Machine, read_machine
from .platforms import BoardFailure, Platform
from .player import NotNow, Player
from .serial_board import PATIENCE, SerialBoard
from .server import Server
from .session import Session, log_lines
from .settings import BadSetting, Settings, read_settings
from .smart_table import SmartTable

ABOUT = "Plays a machine in a browser: a simulated table answers the coils, or a board does. It proves nothing."
PORT = 8470
AT_LAST = 0.3  # s: the pages hear of the end


def parser() -> argparse.ArgumentParser:
    one = argparse.ArgumentParser(prog="pinball-table", description=ABOUT, epilog="docs/table.md says more.")
    one.add_argument("dir", metavar="DIR", type=Path, help="the folder of the machine")
    one.add_argument("--port", type=int, default=PORT, help=f"the port on 127.0.0.1 ({PORT}; 0: any that is free)")
    one.add_argument("--open", metavar="LOG", type=Path, help="begins with this log")
    one.add_argument("--log", metavar="FILE", type=Path, help="keeps the log here, line by line")
    one.add_argument("--program", metavar="PATH", help="the program `pinball`, if not the proved one")
    one.add_argument("--live", metavar="PATH", help=f"the program `{LIVE}`, if not the one beside `pinball`")
    one.add_argument("--patience", type=float, metavar="S", help="how many seconds the program may be silent")
    one.add_argument("--board", metavar="DEVICE", help="a board at this serial port, in place of the simulated table")
    one.add_argument("--baud", type=int, default=115_200, help="the speed of that port (115200)")
    one.add_argument(
        "--board-patience", type=float, metavar="S", default=PATIENCE,
        help=f"how many seconds the board may be silent ({PATIENCE})",
    )
    return one


def answers_of(asked: argparse.Namespace) -> tuple[Callable[[], Answers], str]:
    """How the program is asked, and what the page says of it."""
    pinball = programs.find(asked.program)
    programs.report(pinball)
    live = None if asked.program and not asked.live else find_live(asked.live, pinball.path)
    patience = {} if asked.patience is None else {"patience": asked.patience}
    if live:
        return lambda: Live(live, asked.dir, **patience), f"{LIVE} answers each line"
    if asked.board:
        raise NoAnswer(f"a board needs the program {LIVE}, which is not there: `pinball` answers too late")
    return lambda: Replay(pinball.path, asked.dir, **patience), "pinball plays the log again at each change"


def platform_of(asked: argparse.Namespace, machine: Machine, settings: Settings) -> Platform:
    if asked.board:
        return SerialBoard(machine, asked.board, asked.baud, asked.board_patience)
    return SmartTable(settings)


def end_by_signals(player: Player) -> None:
    """Lets these signals end the loop. The loop is in this thread, and the signal itself wakes it."""

    def end(number: int, _: object) -> None:
        player.stop(f"ended by {signal.Signals(number).name}")

    signal.set_wakeup_fd(player.waker)
    for number in (signal.SIGTERM, signal.SIGINT, signal.SIGHUP):
        signal.signal(number, end)


def server_of(asked: argparse.Namespace, player: Player, words: str) -> Server:
    try:
        return Server(asked.port, player, words)
    except OSError as error:
        player.session.shut_down("there is no address")
        if error.errno == errno.EADDRINUSE:
            raise OSError(f"port {asked.port} is taken: choose another one, or --port 0 for any that is free") from None
        raise


def play(asked: argparse.Namespace) -> int:
    make_answers, words = answers_of(asked)
    lines = log_lines(asked.open.read_bytes().decode("utf-8", "replace")) if asked.open else None

    def make() -> tuple[Session, Settings]:
        machine = read_machine(asked.dir)
        settings = read_settings(machine)
        answers = make_answers()  # (before the board, which would hear nothing while the program starts)
        try:
            return Session(machine, answers, platform_of(asked, machine, settings)), settings
        except BaseException:
            answers.close()
            raise

    player = Player(make, log=asked.log)
    end_by_signals(player)
    if lines is not None:
        for line in player.start_over(lines):
            print(f"refused: {line}", file=sys.stderr)
    server = server_of(asked, player, words)
    threading.Thread(target=server.serve_forever, daemon=True).start()
    print(f"http://{server.hosts[0]}/", flush=True)
    player.run()
    for line in player.session.trace:
        if line.startswith("#"):
            print(line, flush=True)
    time.sleep(AT_LAST)
    return 0


def main() -> int:
    asked = parser().parse_args()
    if asked.board and asked.open:
        parser().error("--open plays a log on the simulated table: leave out --board")
    try:
        return play(asked)
    except Refused as refused:
        print(refused)
        more = f"pinball-help errors {asked.dir}" if str(refused).endswith("no") else "docs/live.md"
        print(f"pinball-table: refused: {more} says more", file=sys.stderr)
        return 1
    except (NoAnswer, NotNow, Gone, BoardFailure) as error:
        print(f"pinball-table: {error}", file=sys.stderr)
        return 3
    except (OSError, BadSetting) as error:
        missing = isinstance(error, FileNotFoundError) and str(error.filename).endswith(MACHINE)
        words = f"there is no {error.filename}: give the folder that has `config/` in it" if missing else error
        print(f"pinball-table: {words}", file=sys.stderr)
        return 2
