"""Draws logs for a drawn machine: mostly things that a player or a ball does, some lines that are refused."""
import random

from .draw import Drawn

SHORT = [0, 0, 1, 2, 4, 5, 6, 10]
MIDDLE = [0, 5, 20, 50, 100, 300, 495, 500, 505]
LONG = [500, 1_000, 1_500, 2_500, 5_000]
TOO_LATE = [1 << 40, (1 << 40) + 1, 10**19, (1 << 64) - 1]
BAD_LINES = ["x", "5 a", "5 {s} 2", " 5", "5 ", "-1", "5 {s} 1 1", "18446744073709551616", "000000000000000000001"]
BAD_LINES += ["5 {s} 01", "5 nope 2", "@", "5\t", "٥", "5 {s}", "1e3", "99999999999999999999 {s} 1"]


class Log:
    """The lines of a log, up to a moment."""

    def __init__(self, draw: random.Random, drawn: Drawn):
        self.draw, self.drawn = draw, drawn
        self.now, self.lines = 0, []
        self.levels = dict(drawn.switches)
        self.steps = draw.choice([SHORT, MIDDLE, MIDDLE, SHORT + MIDDLE + LONG, MIDDLE + LONG])
        self.others = [switch for switch in drawn.switches if switch not in sum(drawn.balls.values(), [])]

    def later(self, *steps: int) -> None:
        self.now += self.draw.choice(steps or self.steps)

    def write(self, moment: int, words: str = "") -> None:
        blank = self.draw.choice([" "] * 12 + ["  ", "\t", " \t "])
        zeros = self.draw.choice([""] * 20 + ["0", "00"])
        self.lines.append(blank.join([f"{zeros}{moment}", *words.split()]))

    def turn(self, switch: str, active: bool) -> None:
        self.levels[switch] = active != self.drawn.switches[switch]
        self.write(self.now, f"{switch} {int(self.levels[switch])}")

    def is_active(self, switch: str) -> bool:
        return self.levels[switch] != self.drawn.switches[switch]

    def press(self, switch: str, *held: int) -> None:
        self.turn(switch, True)
        self.later(*(held or (5, 6, 10, 50)))
        self.turn(switch, False)

    # What may happen

    def toggle(self) -> None:
        switch = self.draw.choice([*self.levels])
        self.turn(switch, not self.is_active(switch) if self.draw.random() < 0.9 else self.is_active(switch))

    def shoot(self) -> None:
        self.press(self.draw.choice(self.others))

    def begin(self) -> None:
        """Presses the start button, if there is one."""
        if self.drawn.start:
            self.turn(self.drawn.start, False)
            self.later(5, 10)
            self.press(self.drawn.start)

    def ball(self) -> None:
        """A ball comes into a device or leaves it."""
        if self.drawn.balls:
            switch = self.draw.choice(self.drawn.balls[self.draw.choice([*self.drawn.balls])])
            self.turn(switch, not self.is_active(switch))
            self.later(*MIDDLE, 600, 1_000)

    def fill(self) -> None:
        """Balls come into the last device, which often is a trough."""
        for switch in self.drawn.balls[[*self.drawn.balls][-1]] if self.drawn.balls else []:
            self.turn(switch, True)
        self.later(500, 600, 1_000)

    def drain(self) -> None:
        """A ball comes into a device in which a ball ends. If there is no room in it, one leaves it before."""
        if not self.drawn.drains:
            return
        switches = self.drawn.balls[self.draw.choice(self.drawn.drains)]
        free = [switch for switch in switches if not self.is_active(switch)]
        if not free:
            self.turn(switches[0], False)
            self.later(500, 1_000)
        self.turn(free[0] if free else switches[0], True)
        self.later(500, 600, 1_000)

    def serve(self) -> None:
        """A ball leaves a device, and comes into others on its way to the playfield."""
        device = self.draw.choice([*self.drawn.balls])
        while device in self.drawn.balls:
            active = [switch for switch in self.drawn.balls[device] if self.is_active(switch)]
            self.turn(self.draw.choice(active or self.drawn.balls[device]), False)
            self.later(500, 600, 1_000)
            device = self.drawn.targets[device]
            free = [switch for switch in self.drawn.balls.get(device, []) if not self.is_active(switch)]
            if free:
                self.turn(free[0], True)
                self.later(500, 600, 1_000)
        if self.drawn.playfield:
            self.press(self.draw.choice(self.drawn.playfield))

    def wait(self) -> None:
        self.later(*LONG, 11_000)
        self.write(self.now)

    def refused(self) -> None:
        kind = self.draw.randrange(4)
        switch = self.draw.choice([*self.levels])
        if kind == 0 and self.now:
            self.write(self.draw.randrange(self.now), f"{switch} {self.draw.randrange(2)}")
        elif kind == 1:
            self.write(self.now, f"{self.draw.choice(['nope', 'a/b', switch + '1', 'Ä'])} 1")
        elif kind == 2:
            self.write(self.draw.choice(TOO_LATE), self.draw.choice(["", f"{switch} 1", "nope 1"]))
        else:
            self.lines.append(self.draw.choice(BAD_LINES).replace("{s}", switch))

    def scenery(self) -> None:
        self.lines.append(self.draw.choice(["", "# a comment", "#", "#5 x 1"]))


def log(draw: random.Random, drawn: Drawn) -> bytes:
    found = Log(draw, drawn)
    if draw.random() < 0.04:
        found.now = (1 << 40) - draw.choice([1, 5, 500, 3_000, 20_000])
    if draw.random() < 0.7:
        found.fill()
    found.begin()
    whats = [found.toggle] * 6 + [found.shoot] * 5 + [found.ball] * 3 + [found.wait, found.begin]
    whats += [found.drain] * 8 if drawn.busy else draw.choice([[], [found.drain] * 3, [found.drain] * 8])
    if drawn.busy:
        whats += [found.serve] * 3 + [found.shoot] * 4
        for _ in range(draw.choice([0, 1, 3])):
            found.begin()
    whats += draw.choice([[], [found.refused, found.scenery]])
    for _ in range(draw.choice([15, 30, 60, 90] if drawn.busy else [0, 5, 15, 30, 60])):
        draw.choice(whats)()
        found.later()
    found.write(found.now)
    if draw.random() < 0.5:
        found.wait()
    ends = draw.choice(["\n"] * 9 + ["\r\n"])
    return (ends.join(found.lines) + (ends if draw.random() < 0.9 else "")).encode()
