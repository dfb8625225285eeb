"""Tests of what is said of events of known true time, of 30 pairs of histories; tests/truth/run tries others."""
from collections.abc import Callable, Iterator
from functools import partial
from pathlib import Path

from tests.support import check, count
from tests.truth.moments import Said, tried

NUMBER, SOME = 30, 5


def some(numbers: range, place: Path) -> list[Said]:
    found = list(tried(numbers, place))
    for one in found:
        count(f"events of pair {one.number}", "; ".join(one.wrong))
    return found


def cases() -> Iterator[tuple[str, Callable[[Path], list[Said]]]]:
    for first in range(0, NUMBER, SOME):
        yield f"truth.moments.{first}", partial(some, range(first, first + SOME))


def together(found: list[list[Said]]) -> None:
    """Of enough events there are times, and of few of these nobody could see that they aren't so."""
    every = [one for own in found for one in own]
    events, timed, ordered, excused = (sum(own) for own in zip(*((one.events, one.timed, one.ordered, one.excused)
                                                                 for one in every)))
    check("events with times", timed=(4 * timed > events, True), ordered=(2 * ordered > timed, True),
          excused=(10 * excused < timed, True), parts=(any("nothing fits as a whole and yes" in one.verdicts or
                                                           "nothing fits as a whole and refuted" in one.verdicts
                                                           for one in every), True))
