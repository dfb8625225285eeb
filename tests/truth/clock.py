"""What a machine's clock showed at each true time: an oscillator that its client disciplines within a drift, steps,
fast movement, times in which the machine was off, and a leap second.

A true time is what UTC would say in Unix nanoseconds if the leap second hadn't been. An error is a reading less UTC.
"""
import random
from bisect import bisect_right
from collections.abc import Iterator
from typing import NamedTuple

SECOND, BILLION = 10**9, 10**9
STEP, FAST, OFF = "step", "fast movement", "machine off"


class Event(NamedTuple):
    """What happens to a clock between two true times: its error changes by a size, at once, evenly (fast movement), or
    while nobody sees it (the machine is off)."""
    kind: str
    begin: int
    end: int
    size: int


class Stretch(NamedTuple):
    """True times between which the clock went on without a jump, and its errors at both."""
    begin: int
    end: int
    low: int
    high: int


class Jump(NamedTuple):
    """From a reading to another one, with no drift that would explain it; at what true times, and by how much the error
    changed."""
    begin: int
    end: int
    before: int
    after: int
    size: int


class Clock:
    """Its error is near `aim` at first, and then where events put it; `amplitude` is how far it strays by itself. It
    goes for its life, and is looked at for a part of that."""

    def __init__(self, rng: random.Random, life: tuple[int, int], seen: tuple[int, int], ppb: int, poll: int,
                 amplitude: int, aim: int, events: list[Event], leap: int = 1 << 62, returns: bool = False):
        self.leap, self.ppb, self.rng = leap, ppb, rng
        self.poll, self.amplitude, self.aim, self.returns = poll, amplitude, aim, returns
        self.pieces, self.jumps, self.fast = list[Stretch](), list[Jump](), list[Event]()
        (time, end), self.seen = life, seen
        error = aim + rng.randint(-amplitude, amplitude)
        for event in sorted(events, key=lambda event: event.begin):
            later = max(0, time - event.begin)
            event = event._replace(begin=event.begin + later, end=event.end + later)
            error = self.go(time, event.begin, error)
            before, time = error, event.end
            if event.kind == FAST:
                self.fast.append(event)
                error += event.size
                ends = sorted({event.begin, min(max(event.begin, leap), time), time})
                errors = [before + event.size * (end - event.begin) // (time - event.begin) for end in ends]
                self.pieces += map(Stretch, ends, ends[1:], errors, errors[1:])
            else:
                error += event.size
                if abs(event.size) * BILLION > ppb * (time - event.begin):
                    self.jumps.append(Jump(event.begin, time, self.utc(event.begin) + before, self.utc(time) + error,
                                           event.size))
            self.aim += event.size
        self.go(time, end, error)
        self.begins = [piece.begin for piece in self.pieces]

    def go(self, time: int, end: int, error: int) -> int:
        """Lets the clock drift until a true time. Its error then."""
        while time < end:
            poll = self.poll if self.seen[0] - self.poll <= time < self.seen[1] else 50 * self.poll
            until = min(end, time + int(poll * self.rng.uniform(0.3, 3)))
            if time < self.seen[0] - self.poll < until:
                until = self.seen[0] - self.poll
            if time < self.leap < until:
                until = self.leap
            aim = 0 if self.returns else self.aim
            wanted = aim + self.rng.randint(-self.amplitude, self.amplitude) - error
            most = self.ppb * (until - time) * 9 // (10 * BILLION)
            moved = error + max(-most, min(most, wanted))
            self.pieces.append(Stretch(time, until, error, moved))
            time, error = until, moved
        return error

    @property
    def breaks(self) -> list[tuple[int, int]]:
        """The true times between which it was stepped, or moved faster than its drift, in order."""
        return sorted([*((jump.begin, jump.end) for jump in self.jumps), *((one.begin, one.end) for one in self.fast)])

    def utc(self, time: int) -> int:
        return time - SECOND * (time >= self.leap)

    def error(self, time: int) -> int | None:
        """The error at a true time; None if the clock wasn't shown then."""
        at = bisect_right(self.begins, time) - 1
        if at < 0 or not (piece := self.pieces[at]).begin <= time < piece.end:
            return None
        return piece.low + (piece.high - piece.low) * (time - piece.begin) // (piece.end - piece.begin)

    def reading(self, time: int) -> int | None:
        error = self.error(time)
        return None if error is None else self.utc(time) + error

    def shown(self, first: int, last: int) -> Iterator[Stretch]:
        """What it showed of the readings from the first to the last, at whatever true times."""
        for piece in self.pieces:
            begin, end = self.utc(piece.begin), self.utc(piece.end - 1) + 1
            low, high = begin + piece.low, end + piece.high
            if high < first or low > last or low >= high:
                continue
            width, rise = high - low, piece.high - piece.low
            a, b = max(first, low) - low, min(last, high) - low
            yield Stretch(piece.begin + (end - begin) * a // width, piece.begin + (end - begin) * b // width,
                          piece.low + rise * a // width, piece.low + rise * b // width)

    def errors(self, first: int, last: int, since: int = -(1 << 62), until: int = 1 << 62) -> tuple[int, int] | None:
        """The least and the greatest error with which the clock showed a reading from the first to the last, between
        two true times; None if it showed none."""
        found = [piece for piece in self.shown(first, last) if since <= piece.begin and piece.end <= until]
        ends = [error for piece in found for error in (piece.low, piece.high)]
        return (min(ends), max(ends)) if ends else None
