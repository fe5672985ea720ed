"""What posts what, with the place where it is written, and how many lines each event can cause.

This follows docs/machine.md and docs/devices.md in words, and is proved nowhere: dev/test_help compares its weights
with the certificates of the examples."""
from dataclasses import dataclass, field
from graphlib import CycleError, TopologicalSorter

from .outline import Entry, Node
from .values import event_of, is_yes


@dataclass(slots=True)
class Cost:
    """Lines that are written, events that are posted, and the dearest of several other costs."""

    lines: int = 0
    posts: list[str] = field(default_factory=list)
    either: "list[Cost]" = field(default_factory=list)

    def events(self) -> list[str]:
        return [*self.posts, *(it for other in self.either for it in other.events())]

    def weight(self, weights: dict[str, int]) -> int:
        dearest = max((it.weight(weights) for it in self.either), default=0)
        return self.lines + sum(weights.get(it, 1) for it in self.posts) + dearest


@dataclass(frozen=True, slots=True)
class Post:
    """That an event, or what begins with a blank, leads to another. `entry` is none where the machine does it."""

    event: str
    posts: str
    why: str
    text: str = ""
    entry: Entry | None = field(default=None, compare=False)
    item: Node | None = field(default=None, compare=False)

    @property
    def line(self) -> int:
        return self.item.line if self.item else self.entry.line if self.entry else -1


@dataclass
class Graph:
    posts: list[Post] = field(default_factory=list)
    costs: dict[str, list[Cost]] = field(default_factory=dict)
    stimuli: dict[str, Cost] = field(default_factory=dict)  # what a switch or a timer causes from outside
    handled: list[Post] = field(default_factory=list)  # each event that a person handles, with its place
    owners: dict[str, str] = field(default_factory=dict)  # of events: the mode that is the first to name it

    def bind(
        self, event: str, cost: Cost, why: str, text: str = "", entry: Entry | None = None, item: Node | None = None
    ) -> None:
        self.costs.setdefault(event, []).append(cost)
        for posted in dict.fromkeys(cost.events()):
            self.posts.append(Post(event, posted, why, text, entry, item))

    def handle(self, event: str, why: str, text: str, entry: Entry, item: Node | None = None) -> None:
        self.handled.append(Post(event, "", why, text, entry, item))

    def bind_list(self, entry: Entry | None, cost: Cost, why: str, text: str) -> None:
        """Binds each event of a list of handled events."""
        for item in entry.value.texts() if entry else []:
            event = event_of(item.text)
            assert entry
            self.handle(event, why, text, entry, item)
            self.bind(event, cost, why, text, entry, item)

    def stimulus(self, name: str, cost: Cost, why: str, text: str, entry: Entry) -> None:
        self.stimuli[name] = cost
        for posted in dict.fromkeys(cost.events()):
            self.posts.append(Post(name, posted, why, text, entry))

    def names(self) -> list[str]:
        found = [it for post in self.posts for it in (post.event, post.posts)] + [it.event for it in self.handled]
        return [it for it in dict.fromkeys([*found, *self.costs]) if it and not it.startswith(" ")]

    def weights(self) -> dict[str, int]:
        """The least weight of each event. Raises CycleError where events lead to each other."""
        after = {name: {it for cost in self.costs.get(name, []) for it in cost.events()} for name in self.names()}
        found: dict[str, int] = {}
        for name in TopologicalSorter(after).static_order():
            found[name] = 1 + sum(cost.weight(found) for cost in self.costs.get(name, []))
        return found

    def steps(self, event: str, posted: str) -> list[Post]:
        """All that makes an event lead to another."""
        return [it for it in self.posts if it.event == event and it.posts == posted]


def setting(entry: Entry, key: str) -> Entry | None:
    return next((it for it in entry.value.entries or [] if it.key == key), None)


def text_of(entry: Entry, key: str, default: str = "") -> str:
    found = setting(entry, key)
    return found.value.text if found else default


def names_of(entry: Entry, key: str) -> list[str]:
    found = setting(entry, key)
    return [event_of(it.text) for it in found.value.texts()] if found else []


def says_yes(entry: Entry, key: str, default: bool) -> bool:
    found = setting(entry, key)
    return is_yes(found.value.text) if found else default


__all__ = ["Cost", "CycleError", "Graph", "Post", "names_of", "says_yes", "setting", "text_of"]
