"""What is wrong at one place, and the ways to mend it."""
from dataclasses import dataclass

from .texts import Edit

EXAMPLE = "The value below is an example."


@dataclass(frozen=True)
class Way:
    """One way to mend what is wrong: what a copy gets, and what a person writes."""

    edits: tuple[Edit, ...]
    write: str = ""
    why: str = ""  # what it means in MPF or YAML, or why it is refused
    near: str = ""  # the name that was meant, where one is near
    recipe: str = ""  # the heading of docs/from_mpf.md that has more, where one does


@dataclass(frozen=True)
class Cure:
    says: tuple[str, ...] = ()  # what is wrong, after the words of the message
    whole: bool = False  # `says` is all that is to be said: the words of the message add nothing
    ways: tuple[Way, ...] = ()  # the likeliest first
    out: tuple[Edit, ...] = ()  # what leaves it out of a copy
    mark: tuple[int, int] | None = None  # the columns of the line that are at fault
    at: tuple[str, int] | None = None  # the place, where the complaint names none: a text, and a line from 0
    stays: bool = False  # a copy is mended even so: a coil without its low power may get full power
