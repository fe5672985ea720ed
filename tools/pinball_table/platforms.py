"""What a platform is: the thing with the switches and the coils. A board is one module that has this interface.

The simulated table (`smart_table`) and a board at a serial port (`serial_board`) are platforms.
"""
from abc import ABC, abstractmethod
from dataclasses import dataclass


@dataclass(frozen=True)
class Change:
    """A switch has become active or inactive."""

    moment: int
    switch: str
    is_active: bool


@dataclass(frozen=True)
class Command:
    """A coil is pulsed for `ms`, held, or put off. `power` is in thousandths of full power."""

    coil: str
    action: str  # "pulse", "enable" or "disable"
    ms: int = 0
    power: int = 0


class BoardFailure(Exception):
    """The board is gone, or does not answer in time."""


class Platform(ABC):
    """Moments are those of the log, in milliseconds."""

    is_board = False  # whether real coils hang on it: then the clock is that of the wall, and nothing goes back
    interval = 0.5  # s: it is polled at least so often

    def __init__(self) -> None:
        self.held: list[str] = []  # the coils that are held, in the order in which that began

    def coil(self, command: Command, moment: int) -> None:
        """Carries out a command."""
        self.note(command)
        self.carry_out(command, moment)

    def note(self, command: Command) -> None:
        """Keeps in mind which coils are held."""
        if command.coil in self.held:
            self.held.remove(command.coil)
        if command.action == "enable":
            self.held.append(command.coil)

    @abstractmethod
    def carry_out(self, command: Command, moment: int) -> None:
        """Passes a command on to the coil."""

    @abstractmethod
    def next(self) -> int | None:
        """The moment of the next change that is known, or none."""

    @abstractmethod
    def coming(self, now: int) -> Change | None:
        """The next change that has happened by now, once. None if nothing has."""

    def put_off(self, moment: int) -> list[str]:
        """Puts off all coils, and gives those that were held. It must not fail, whatever the board does."""
        found = list(self.held)
        for coil in found:
            self.coil(Command(coil, "disable"), moment)
        return found

    # what only a board has

    def watched(self) -> int | None:
        """The file to wait for, beside the next moment."""
        return None

    def poll(self, now: int) -> None:
        """Reads what the board has sent, and asks it whether it is alive. Raises BoardFailure."""

    def close(self) -> None:
        """Lets go of the board."""
