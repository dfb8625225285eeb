"""How far many audits are."""
import sys
import time

from .entry import ANSWERED, DISPUTED, REFUSED
from .result import Audited

WIDTH = 30


class Progress:
    """A bar on standard error, if that is a terminal."""

    def __init__(self, total: int):
        self.total, self.finished, self.begun = total, 0, time.monotonic()
        self.tally = dict.fromkeys([*ANSWERED, REFUSED, DISPUTED], 0)
        self.is_shown = sys.stderr.isatty() and total > 1

    def add(self, done: object) -> None:
        self.finished += 1
        for verdict in (done.verdicts if isinstance(done, Audited) else []) or [REFUSED]:
            self.tally[verdict] += 1

    def summed(self, between: str) -> str:
        return between.join(f"{number} {verdict}" for verdict, number in self.tally.items() if number)

    def show(self) -> None:
        """Draws the bar."""
        if self.is_shown:
            part = self.finished / self.total
            bar = "#" * int(WIDTH * part)
            left = f", {(time.monotonic() - self.begun) * (1 - part) / part:.0f} s left" if part else ""
            sys.stderr.write(f"\r[{bar:{WIDTH}}] {self.finished}/{self.total} {self.summed(' ')}{left}\x1b[K")
            sys.stderr.flush()

    def clear(self) -> None:
        if self.is_shown:
            sys.stderr.write("\r\x1b[K")
            sys.stderr.flush()
