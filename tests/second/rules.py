"""The rules of docs/DEFINITIONS.md on the samples of a claim, restated: what an exchange says of the clock's error, and
what the certificates and refutations that are found have to be. It looks at every sample. What `check` and `refute` say
of others is second/recheck's.

A claim is the value of its file, and servers and samples go by their numbers. Times are in ticks of 2^-32 s.
"""
import datetime
import json
from collections.abc import Callable, Collection, Iterable
from itertools import accumulate

from tests.second.claims import Claim, Refutation
from tests.second.columns import NO_ENDS, TICKS

BILLION = 10**9

Ends = tuple[int, int]
Hull = Ends | tuple[()] | None
"""None where it's unbounded, () where it's empty."""

Intervals = dict[int, Ends]
"""The interval of each server."""


def ceiling(numerator: int, denominator: int) -> int:
    return -(-numerator // denominator)


def running(of: Callable[[int, int], int], numbers: Iterable[int]) -> list[int]:
    """The greatest of the numbers so far, or the least, at each of them."""
    return list(accumulate(numbers, of))


# ---- a claim
def ticks_of(time: str) -> int:
    return int(datetime.datetime.fromisoformat(time.replace("Z", "+00:00")).timestamp()) * TICKS


def span_of(claim: Claim) -> Ends:
    return ticks_of(claim["from"]), ticks_of(claim["to"])


def bound_of(claim: Claim) -> int:
    return claim["bound_ns"] * TICKS // BILLION


def groups_of(claim: Claim) -> list[list[int]]:
    return claim.get("groups", [[server] for server in range(len(claim["servers"]))])


def allowed(claim: Claim, low: int, high: int) -> Ends:
    """A record's time window, with the reading allowance on both sides."""
    allowance = ceiling(claim["reading_ns"] * TICKS, BILLION)
    return low - allowance, high + allowance


def pieces_of(claim: Claim, step: int) -> list[Ends]:
    """The pieces of so many seconds, each with its begin and its end. A span of one moment has one."""
    begin, last = span_of(claim)
    found: list[Ends] = []
    while not found or begin < last:
        found.append((begin, min(begin + step * TICKS, last)))
        begin = found[-1][1]
    return found


# ---- samples
class Sample:
    """An exchange: its server, the windows in which the request left and the reply came, the reply's two timestamps,
    and its root distance. Where the clock doesn't drift its error lies between `low` and `high`."""

    def __init__(self, server: int, sent: Ends, received: Ends, t2: int, t3: int, distance: int) -> None:
        self.server, self.sent, self.received = server, sent, received
        self.t2, self.t3, self.distance = t2, t3, distance
        self.low = sent[0] - t2 - distance
        self.high = received[1] - t3 + distance

    @property
    def offset(self) -> Ends:
        both = self.t2 + self.t3
        return (both - self.sent[1] - self.received[1]) // 2, ceiling(both - self.sent[0] - self.received[0], 2)

    @property
    def delay(self) -> Ends:
        served = self.t3 - self.t2
        return self.received[0] - self.sent[1] - served, self.received[1] - self.sent[0] - served


def widening(claim: Claim, window: Ends, begin: int, end: int) -> int:
    """What the clock can have drifted between a window and a piece: the least W with W (10^9 - ppb) >= ppb * way."""
    ppb = claim["drift_ppb"]
    return ceiling(ppb * max(end - window[0], window[1] - begin), BILLION - ppb)


def moved_low(claim: Claim, sample: Sample, begin: int, end: int) -> int:
    return sample.low - widening(claim, sample.sent, begin, end)


def moved_high(claim: Claim, sample: Sample, begin: int, end: int) -> int:
    return sample.high + widening(claim, sample.received, begin, end)


def best_entries(claim: Claim, samples: list[Sample], begin: int, end: int,
                 among: Collection[int] | None = None) -> list[list[int]]:
    """For each server that has a sample, of all or of these numbers: the first sample with the greatest low end over
    the piece, and the first with the least high end."""
    lows, highs = dict[int, list[tuple[int, int]]](), dict[int, list[tuple[int, int]]]()
    for k, sample in enumerate(samples):
        if among is None or k in among:
            lows.setdefault(sample.server, []).append((-moved_low(claim, sample, begin, end), k))
            highs.setdefault(sample.server, []).append((moved_high(claim, sample, begin, end), k))
    return [[min(lows[server])[1], min(highs[server])[1]] for server in sorted(lows)]


def intervals(claim: Claim, samples: list[Sample], entries: list[list[int]], begin: int, end: int) -> Intervals:
    """The interval of each server that has an entry."""
    return {samples[a].server: (moved_low(claim, samples[a], begin, end), moved_high(claim, samples[b], begin, end))
            for a, b in entries}


def need_of(found: Hull) -> int | None:
    """The least bound in ticks inside which a hull lies: None where it has no ends."""
    return max(0, -found[0], found[1]) if found else None


def is_inside(bound: int, found: Hull) -> bool:
    """Whether a hull lies inside a bound in ticks."""
    return -bound <= found[0] and found[1] <= bound if found else False


# ---- what the commands print
def hull_fields(hull: Hull) -> tuple[object, object]:
    """The two ends, or a word and nothing."""
    return hull if hull else (NO_ENDS[hull is not None], "")


def hull_words(hull: Hull) -> str:
    return " ".join(map(str, hull_fields(hull))).rstrip()


def compact(value: object) -> str:
    return json.dumps(value, separators=(",", ":"))


# ---- refutations
def admits(sample: Sample, error: int) -> bool:
    """Whether the moments of an exchange can come one after another, if the clock is off by this error throughout."""
    (w, _), (_, z), t2, t3, r = sample.sent, sample.received, sample.t2, sample.t3, sample.distance
    return (w - error <= t2 + r and t3 - r <= z - error and w <= z and w - error <= t3 + r and t2 - r <= t3 + r
            and t2 - r <= z - error)


def liars(samples: list[Sample], error: int) -> list[int]:
    """The servers with an exchange that doesn't leave room for the error."""
    return sorted({sample.server for sample in samples if not admits(sample, error)})


def group_count(claim: Claim, servers: Collection[int]) -> int:
    """In how many groups these servers are."""
    return sum(any(server in servers for server in group) for group in groups_of(claim))


def refutation(claim: Claim, samples: list[Sample]) -> Refutation | None:
    """What `find --refutation` finds: the least error beyond the bound that few enough groups refuse, the positive ones
    first. Only the first error, and ends, need be tried."""
    over = bound_of(claim) + 1
    ends = {sample.sent[0] - t - sample.distance for sample in samples for t in (sample.t2, sample.t3)} | \
           {sample.received[1] - t + sample.distance for sample in samples for t in (sample.t2, sample.t3)}
    above = sorted(e for e in ends | {over} if e >= over)
    below = sorted((e for e in ends | {-over} if e <= -over), reverse=True)
    for error in above + below:
        named = liars(samples, error)
        if group_count(claim, named) <= claim["false_max"] and -2**63 <= error < 2**63:
            return {"error": error, "false": named, "reading": span_of(claim)[0]}
    return None
