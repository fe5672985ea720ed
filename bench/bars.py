"""Bars: a value that is measured, and the most that it may be."""


class Bars:
    """How many bars are met, and how many are not."""

    def __init__(self) -> None:
        self.met = 0
        self.missed = 0

    def judged(self, value: float, bar: float) -> str:
        if value <= bar:
            self.met += 1
            return "met    "
        self.missed += 1
        return "not met"

    def judge(self, what: str, value: float, bar: float) -> None:
        """Prints a line of its own for a value."""
        print(f"  {what}: {value:.2f}, bar {bar}: {self.judged(value, bar).strip()}", flush=True)

    def status(self) -> int:
        """Prints the sum, and gives the exit status: 1 if a bar is not met."""
        print(f"\n{self.met} bars are met, and {self.missed} are not", flush=True)
        return 1 if self.missed else 0
