"""The devices that decide how many balls are in play: ball saves and multiballs."""
from .devices import Act, Device, World, posts
from .sections import Entry


class BallSave(Device):
    """Lists: enabled, disabled, saving a ball."""

    kind = "ball save"

    def __init__(self, owner: str, entry: Entry):
        super().__init__(owner, entry)
        enabled, disabled, saving = (f"ball_save_{self.name}_{what}" for what in ("enabled", "disabled", "saving_ball"))
        self.lists = [posts(enabled), posts(disabled), [*posts(saving), ("request", 1)]]

    def clear(self) -> None:
        self.left = 0  # the balls that it can still save
        self.end: int | None = None

    @property
    def active(self) -> bool:
        return self.left > 0

    def start(self, now: int, world: World) -> list[int]:
        self.clear()
        return []

    def stop(self) -> None:
        self.clear()

    def due(self) -> int | None:
        return self.end

    def fire(self, now: int, world: World) -> list[int]:
        self.clear()
        return [1]

    def act(self, act: Act, now: int, world: World) -> list[int]:
        if act[0] == "enable" and not self.active:
            time = self.entry["active_time"]
            self.left, self.end = self.entry["balls_to_save"], now + time if time else None
            return [0]
        if act[0] == "disable" and self.active:
            self.clear()
            return [1]
        if act[0] == "save" and self.active:
            self.left -= 1
            return [2] if self.active else [2, *self.fire(now, world)]
        return []

    def outcomes(self, act: Act) -> list[list[int]]:
        if act[0] == "fire":
            return [[1]] if self.entry["active_time"] else []
        last = [2, 1]
        saves = [last] if self.entry["balls_to_save"] == 1 else [[2], last]
        return [[], *{"enable": [[0]], "disable": [[1]], "save": saves}.get(act[0], [])]


class Multiball(Device):
    """Lists: started, ended."""

    kind = "multiball"

    def __init__(self, owner: str, entry: Entry):
        super().__init__(owner, entry)
        started, ended = (f"multiball_{self.name}_{what}" for what in ("started", "ended"))
        self.lists = [[*posts(started), ("add", entry["ball_count"])], posts(ended)]

    def clear(self) -> None:
        self.active = False

    def start(self, now: int, world: World) -> list[int]:
        self.clear()
        return []

    def stop(self) -> None:
        self.clear()

    def act(self, act: Act, now: int, world: World) -> list[int]:
        if act[0] == "start" and not self.active and world.in_play:
            self.active = True
            return [0]
        if act[0] == "end" and self.active:
            self.active = False
            return [1]
        return []

    def outcomes(self, act: Act) -> list[list[int]]:
        return [[], *{"start": [[0]], "end": [[1]]}.get(act[0], [])]
