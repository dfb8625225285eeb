"""The certificate of fewest pieces and the least bound, restated: section 11 of docs/DEFINITIONS.md on pieces that are
as long as they can be. A hull is made of two sorted lists a server (`Hulls`). What is sought is what the rules say, by
doubling and halving. Times are in ticks of 2^-32 s.
"""
import heapq
from bisect import bisect_right
from collections.abc import Callable, Iterable
from typing import NamedTuple, Protocol

from tests.second import rules
from tests.second.claims import Certificate, Claim
from tests.second.columns import TICKS
from tests.second.rules import BILLION, Ends, Hull, Sample

MAX_PIECES = 100_000
MAX_BOUND_NS = 10**15
"""The greatest lawful bound."""


# ---- hulls of any piece
NONE = -1 << 200
"""Below every end, with any drift."""


class Side:
    """The greatest of a server's low ends over any piece. A window moves to the piece's farther end: the last one,
    where twice its middle is at most twice the piece's, and else the first."""

    def __init__(self, ppb: int, windows: Iterable[tuple[tuple[int, int], int]]) -> None:
        by_middle = sorted(windows, key=lambda pair: sum(pair[0]))
        self.ppb, self.rest = ppb, BILLION - ppb
        self.middles = [begin + end for (begin, end), _ in by_middle]
        to_last = [self.rest * low + ppb * begin for (begin, _), low in by_middle]
        to_first = [self.rest * low - ppb * end for (_, end), low in by_middle]
        self.to_last = [NONE, *rules.running(max, to_last)]
        self.to_first = [*rules.running(max, reversed(to_first))[::-1], NONE]

    def parts(self, both: int) -> Ends:
        """What the first end of a piece with this middle is added to, and what the last is taken from."""
        at = bisect_right(self.middles, both)
        return self.to_first[at], self.to_last[at]


Parts = tuple[int, int, int, int]
"""The two parts of a low end, and those of a negated high end."""


def greatest(parts: Iterable[Parts]) -> Parts:
    firsts, lasts, other_firsts, other_lasts = zip(*parts)
    return max(firsts), max(lasts), max(other_firsts), max(other_lasts)


class Hulls:
    """The intervals and the hull of any piece, of the groups outside of some. The parts of the servers' and the groups'
    ends are kept as long as no middle of a window is passed."""

    def __init__(self, claim: Claim, samples: list[Sample], without: Iterable[int] = ()) -> None:
        left = [group for number, group in enumerate(rules.groups_of(claim)) if number not in set(without)]
        self.ppb, self.false_max = claim["drift_ppb"], claim["false_max"] - len(set(without))
        self.sides = {}
        for server in sorted({sample.server for sample in samples} & {server for group in left for server in group}):
            own = [sample for sample in samples if sample.server == server]
            self.sides[server] = (Side(self.ppb, [(s.sent, s.low) for s in own]),
                                  Side(self.ppb, [(s.received, -s.high) for s in own]))
        self.groups = [known for group in left if (known := [server for server in group if server in self.sides])]
        self.middles = sorted(middle for sides in self.sides.values() for side in sides for middle in side.middles)
        self.since = self.until = 0
        self.of_servers: dict[int, Parts] = {}
        self.parts: list[Parts] = []

    def intervals(self, begin: int, end: int) -> dict[int, Ends]:
        """The interval of each server that has a sample."""
        if not self.since <= begin + end < self.until:
            self.place(begin + end)
        first, last, rest = self.ppb * begin, self.ppb * end, BILLION - self.ppb
        return {server: (max(low_first + first, low_last - last) // rest,
                         -(max(high_first + first, high_last - last) // rest))
                for server, (low_first, low_last, high_first, high_last) in self.of_servers.items()}

    def place(self, both: int) -> None:
        """Keeps the parts for pieces with this middle: of a low end, and of a negated high end."""
        at = bisect_right(self.middles, both)
        self.since, self.until = [NONE, *self.middles[at - 1:at]][-1], [*self.middles[at:at + 1], -NONE][0]
        self.of_servers = {server: (*low.parts(both), *high.parts(both)) for server, (low, high) in self.sides.items()}
        self.parts = [greatest(self.of_servers[server] for server in group) for group in self.groups]

    def over(self, begin: int, end: int) -> Hull:
        """The hull: None where it's unbounded, () where it's empty. With the ends in order, a point lies in so many
        intervals if for some k as many and k more begin up to it, and at most k end before it."""
        wanted = len(self.groups) - self.false_max
        if wanted <= 0:
            return None
        if not self.since <= begin + end < self.until:
            self.place(begin + end)
        first, last, rest, lows, highs = self.ppb * begin, self.ppb * end, BILLION - self.ppb, list[int](), list[int]()
        for low_first, low_last, high_first, high_last in self.parts:
            low, other_low = low_first + first, low_last - last
            high, other_high = high_first + first, high_last - last
            low = (low if low > other_low else other_low) // rest
            high = -((high if high > other_high else other_high) // rest)
            if low <= high:
                lows.append(low)
                highs.append(high)
        lows.sort()
        highs.sort()
        common = [both for both in zip(lows[wanted - 1:], highs) if both[0] <= both[1]]
        return (common[0][0], common[-1][1]) if common else ()


def bound_in_ticks(bound_ns: int) -> int:
    return bound_ns * TICKS // BILLION


# ---- the certificate of fewest pieces
class Over(Protocol):
    """What gives the hull of any piece."""

    def over(self, begin: int, end: int) -> Hull: ...


class Stop(NamedTuple):
    """The tick at which pieces stop: no piece that begins here lies inside the bound, or there would be too many."""
    begin: int
    end: int
    hull: Hull
    is_over: bool


def farthest(is_good: Callable[[int], bool], known: int, last: int, guess: int) -> int:
    """The greatest good number up to a last one, where `known` is good, and all after the first bad one are bad. It's
    sought from a guess by doubling steps, and then by halving."""
    below, over, way = known, last + 1, 1
    if below < guess < over and not is_good(guess):
        over = guess
        while over - way > below and not is_good(over - way):
            over, way = over - way, 2 * way
        below = max(below, over - way)
    else:
        below = guess if below < guess < over else below
        while below + way < over and is_good(below + way):
            below, way = below + way, 2 * way
        over = min(over, below + way)
    while over - below > 1:
        middle = (below + over) // 2
        below, over = (middle, over) if is_good(middle) else (below, middle)
    return below


def ends_of(span: tuple[int, int], hulls: Over, bound: int, most: int = MAX_PIECES) -> tuple[list[int], Stop | None]:
    """The ends of the pieces, each of which is as long as it can be; and where they stop, if they do."""
    (begin, last), ends, length = span, list[int](), 1
    while not ends or begin < last:
        tick = min(begin + 1, last)
        found = hulls.over(begin, tick)
        if not rules.is_inside(bound, found) or len(ends) == most:
            return ends, Stop(begin, tick, found, rules.is_inside(bound, found))
        end = farthest(lambda end: rules.is_inside(bound, hulls.over(begin, end)), tick, last, begin + length)
        ends.append(end)
        begin, length = end, max(1, end - begin)
    return ends, None


class Pieces:
    """The pieces of claims that differ in nothing but their bound. What was made once isn't made again."""

    def __init__(self, claim: Claim, samples: list[Sample]) -> None:
        self.span, self.hulls = rules.span_of(claim), Hulls(claim, samples)
        self.known: dict[tuple[int, int], tuple[list[int], Stop | None]] = {}
        self.judged = False

    def ends(self, bound: int, most: int = MAX_PIECES) -> tuple[list[int], Stop | None]:
        if (bound, most) not in self.known:
            self.known[bound, most] = ends_of(self.span, self.hulls, bound, most)
        return self.known[bound, most]


def fewest(claim: Claim, samples: list[Sample]) -> tuple[Certificate | None, Stop | None]:
    """The certificate of fewest pieces, or the tick at which its pieces stop."""
    span = rules.span_of(claim)
    ends, stop = ends_of(span, Hulls(claim, samples), rules.bound_of(claim))
    if stop:
        return None, stop
    begins = [span[0], *ends[:-1]]
    return {"pieces": [{"entries": rules.best_entries(claim, samples, begin, end), "upto": end}
                       for begin, end in zip(begins, ends)]}, None


# ---- the tick that needs most
def neediest(hulls: Hulls, begin: int, end: int, most: int) -> tuple[int, int, int] | None:
    """The piece of one tick that needs most, of those with a hull: what it needs, and its ends; None where none has
    one. A piece within a piece needs no more, so the one that needs most is halved until it has one tick. After so
    many turns it is the neediest of those in the middle of what was halved."""
    def with_need(begin: int, end: int) -> list[tuple[int, int, int]]:
        need = rules.need_of(hulls.over(begin, end))
        return [] if need is None else [(-need, begin, end)]
    waiting, seen = with_need(begin, end), list[tuple[int, int, int]]()
    for _ in range(most):
        if not waiting:
            break
        need, begin, end = heapq.heappop(waiting)
        if end - begin <= 1:
            return -need, begin, end
        middle = (begin + end) // 2
        for found in with_need(begin, middle) + with_need(middle, end):
            heapq.heappush(waiting, found)
        seen = sorted([*seen, *with_need(middle, middle + 1)])[:1]
    return (-seen[0][0], *seen[0][1:]) if seen else None


# ---- the least bound
def least(claim: Claim, samples: list[Sample], step: int) -> tuple[int, int] | None:
    """The least bound in nanoseconds, and its piece. Where no course fits there may be several, and this is one."""
    hulls, span = Hulls(claim, samples), rules.span_of(claim)

    def is_carried(bound_ns: int) -> bool:
        return ends_of(span, hulls, bound_in_ticks(bound_ns))[1] is None
    if not is_carried(MAX_BOUND_NS):
        return None
    found = neediest(hulls, *span, 4 * len(samples) + 100)
    limit = min(rules.ceiling(found[0] * BILLION, TICKS), MAX_BOUND_NS) if found else 0
    bound_ns = first_carried(is_carried, limit)
    return bound_ns, piece_of(claim, hulls, bound_ns, step)


def first_carried(is_carried: Callable[[int], bool], limit: int) -> int:
    """A bound that is carried where one less isn't, from a limit on below which none is: the greatest is carried."""
    below, over, way = limit - 1, limit, 1
    while over < MAX_BOUND_NS and not is_carried(over):
        below, over, way = over, min(over + way, MAX_BOUND_NS), 2 * way
    while over - below > 1:
        middle = (below + over) // 2
        below, over = (below, middle) if is_carried(middle) else (middle, over)
    return over


def piece_of(claim: Claim, hulls: Hulls, bound_ns: int, step: int) -> int:
    """The piece of so many seconds that holds the tick at which the pieces stop one nanosecond below a bound."""
    span = rules.span_of(claim)
    if bound_ns == 0:
        return 0
    _, stop = ends_of(span, hulls, bound_in_ticks(bound_ns - 1))
    assert stop
    return (stop.begin - span[0]) // (step * TICKS) if stop.begin < span[1] else last_piece(span, step)


def last_piece(span: tuple[int, int], step: int) -> int:
    return max(0, rules.ceiling(span[1] - span[0], step * TICKS) - 1)
