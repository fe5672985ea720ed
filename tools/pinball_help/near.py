"""Names that are near a mistyped one."""
import difflib
import re
from typing import Iterable


def is_another(one: str, other: str) -> bool:
    """Whether two names differ by one word that is another word, as `left` and `right`."""
    words, others = re.split(r"[_.-]", one.lower()), re.split(r"[_.-]", other.lower())
    differ = [it for it in zip(words, others) if it[0] != it[1]]
    if len(words) != len(others) or len(words) == 1 or len(differ) != 1:
        return False
    return difflib.SequenceMatcher(None, *differ[0]).ratio() < 0.6


def nearest(name: str, names: Iterable[str], at_least: float = 0.75) -> str:
    """The nearest of the names, or none where no one is near. A name with another number is another name: it is one
    more of these, and no slip."""
    letters = re.sub(r"\d", "", name)
    known = {*names} - {name}
    others = sorted(it for it in known if re.sub(r"\d", "", it) != letters and not is_another(name, it))
    is_one_more = any(re.sub(r"\d", "", it) == letters for it in known)
    lower: dict[str, str] = {}
    for other in others:
        lower.setdefault(other.lower(), other)
    if name.lower() in lower:
        return lower[name.lower()]
    for end in ("s", "_"):
        for near in (name.lower() + end, name.lower().removesuffix(end)):
            if near in lower:
                return lower[near]
    if is_one_more or len(name) < 3:
        return ""
    found = difflib.get_close_matches(name.lower(), lower, n=1, cutoff=at_least)
    return lower[found[0]] if found else ""


def words_of(name: str) -> list[str]:
    """The words of a name, each without an `s` at its end."""
    return [it.removesuffix("s") for it in name.lower().split("_") if it]


def longer(name: str, names: Iterable[str]) -> list[str]:
    """The names that have all words of a shorter one, as `activation_switch` has `switch`."""
    words = {*words_of(name)}
    return [it for it in names if words and words < {*words_of(it)}]
