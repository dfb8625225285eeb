"""Tests of all that the dossier says of histories whose truth is known, 300 of them: tests/truth/run tries others."""
from collections.abc import Callable, Iterator
from functools import partial
from pathlib import Path

from tests.support import check, count
from tests.truth.trial import BATCH, Judged, tried
from tests.truth.use import CLEAN, TROUBLED

NUMBER = 300
ONCE_UNTRUE = 753, 844, 1300, 1541, 3040, 3183, 3418, 4404, 6534, 7153, 7203, 9004, 9005, 9108, 9128, 9239, \
    24136, 26168, 30264, 30531, 30585, 32267, 32454, 32702, 32765, 33763, 34748, 35867, 38516, 101908, 101998, \
    106549, 107427, 121063, 121349, 206899, 207848, 209569, 209617, 211373, 219374
"""Seeds of others. The clock is stepped to and fro, twice in ten seconds, or just before the end, and one server was
asked there once; it moves fast, while servers are asked; they contradict themselves; one is right for a time; only the
log of ntpdate has a step, or the log one that was back over the span, or another one beside; nobody answers where a
recording begins, or ends; fast movement looks like a wrong server, or a wrong server like that; what is beside a step
alone doesn't count; it is stepped just behind the begin, or moves past a leap second, which is next to the end; a
server is right next to a gap; one is asked between two steps, or alone in the span; what nobody answers is recorded
twice; a reply is of no use; more servers are wrong than is granted, and the clock is stepped."""

ONCE_UNSAID = 4022, 4023, 4046, 4130, 30044
"""Seeds of others. A step isn't told where the clock's moves aren't known, nor on which side the clock was; nor a wrong
server whose samples meet the hull, or that one of two is wrong; nor a yes that a leap second half an hour later takes
away."""


def some(seeds: range, place: Path) -> list[Judged]:
    found = list(tried(seeds, place))
    for one in found:
        wrong = [*one.wrong, *(one.use.missed if one.seed in ONCE_UNSAID else [])]
        count(f"history {one.seed} ({', '.join(one.kinds) or 'no trouble'})", "; ".join(wrong))
    return found


def cases() -> Iterator[tuple[str, Callable[[Path], list[Judged]]]]:
    for first in range(0, NUMBER, BATCH):
        yield f"truth.histories.{first}", partial(some, range(first, first + BATCH))
    for seed in ONCE_UNTRUE + ONCE_UNSAID:
        yield f"truth.histories.{seed}", partial(some, range(seed, seed + 1))


def together(found: list[list[Judged]]) -> None:
    """What histories there are, and of what use the answers were."""
    edges = sum(one.has_edge for own in found for one in own)
    several = sum(len(one.kinds) > 1 for own in found for one in own)
    check("steps at the span's edge, and two troubles or more", edges=(20 * edges >= NUMBER, True),
          several=(20 * several >= 3 * NUMBER, True))
    for kind, share in ((CLEAN, 98), (TROUBLED, 95)):  # (docs/DOSSIER.md has what was measured)
        own = [one for each in found for one in each if one.use.kind == kind]
        good = sum(not one.use.missed for one in own)
        check(f"of what use: {kind}", share=(100 * good >= share * len(own), True))
