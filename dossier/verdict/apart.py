"""What servers say over a whole span, and which stand apart, all the time or for a part of it.

A server's interval in a piece is made of its best samples, those beside the piece among them. So where it begins to be
off and where it ends, its interval says little, and only its samples say when: one that misses the hull, which holds
the clock's error, can't be that of a right server.
"""
from bisect import bisect_right
from collections import Counter
from collections.abc import Iterable
from itertools import chain
from operator import gt
from typing import NamedTuple

from ..capture.classic import Classic, Extent
from ..capture.recording import closing_of
from ..folder.answers import Envelope, read_settled
from ..folder.claim import MAX_BOUND, Claim
from ..folder.entry import Gap, Hull
from ..folder.placing import keep
from ..folder.program import Program
from ..records import replace
from ..units import SECOND

SUSPECTS = "suspects.claim.json"
"""A private file: a claim of the servers that may stand apart for a time."""
SEVERAL = 3
"""Samples of a server, one after the other, by which it is known that it was wrong and not the clock."""


class Range(NamedTuple):
    """The outermost ends of a server's intervals, in ticks, and how many of them hold nothing."""

    low: int
    high: int
    crossed: int


def ranges_of(envelope: Envelope) -> dict[str, Range]:
    """The range of each server by its address."""
    return {address: Range(min(lows), max(highs), sum(map(gt, lows, highs)))
            for address, (lows, highs) in envelope.servers.items()}


def outermost(hulls: list[Hull]) -> Hull:
    """The outermost ends of hulls: `unbounded` if one of them is, and `empty` if all are."""
    if "unbounded" in hulls:
        return "unbounded"
    ends = [hull for hull in hulls if not isinstance(hull, str)]
    return (min(low for low, _ in ends), max(high for _, high in ends)) if ends else "empty"


def pieces_of(envelope: Envelope, begin: int, end: int) -> Envelope:
    """Some pieces of an envelope."""
    servers = {address: (lows[begin:end], highs[begin:end]) for address, (lows, highs) in envelope.servers.items()}
    return Envelope(envelope.begins[begin:end], envelope.ends[begin:end], envelope.hulls[begin:end], servers, None, 0)


def are_in(envelope: Envelope, gaps: list[Gap]) -> list[bool]:
    """Of each piece whether some of it lies in a gap, of those in order of time."""
    lasts, inside = [last for _, last in gaps], []
    for begin, end in zip(envelope.begins, envelope.ends):
        at = bisect_right(lasts, begin * SECOND)
        inside.append(at < len(gaps) and gaps[at][0] < end * SECOND)
    return inside


class Time(NamedTuple):
    """From the first to the last, Unix nanoseconds, each sample of a server misses the hull."""

    server: str
    first: int
    last: int
    samples: int = 1
    """How many they are."""
    off: int = 0
    """Ticks by which the error that they say is off the hull at the most, as far as their own delays tell."""


class Apart(NamedTuple):
    """The servers that stand apart all the time, and when others do; those that were wrong in each course of events
    that fits; and those of which it isn't known which were."""

    always: list[str]
    times: list[Time]
    wrong: list[str] = []
    some: list[str] = []


def hulls_of(envelope: Envelope, gaps: list[Gap]) -> list[Hull]:
    """The hulls, but for those in gaps, in which all intervals widen."""
    return ["empty" if is_in else hull for hull, is_in in zip(envelope.hulls, are_in(envelope, gaps))]


def met_of(envelope: Envelope, gaps: list[Gap]) -> dict[str, list[bool]]:
    """Of each server by its address, of each piece that has a hull, whether its interval there meets that."""
    hulls = hulls_of(envelope, gaps)
    return {address: [low <= hull[1] and hull[0] <= high for low, high, hull in zip(lows, highs, hulls)
                      if not isinstance(hull, str)] for address, (lows, highs) in envelope.servers.items()}


def apart_of(envelope: Envelope, gaps: list[Gap]) -> list[str]:
    """The servers that stand apart all the time: no interval of theirs meets the hull, if there are hulls."""
    return [address for address, own in met_of(envelope, gaps).items() if own and not any(own)]


class ApartSearch:
    """Looks for the times in which servers stand apart."""

    def __init__(self, envelope: Envelope, whole: Classic):
        self.envelope, self.whole = envelope, whole
        self.open: dict[str, Time] = {}
        self.times: list[Time] = []
        self.met = set[str]()

    def take(self, block: bytes) -> None:
        """Looks at lines of `samples`."""
        for line in block[:closing_of(block)].decode("ascii").splitlines():
            fields = line.split(" ")
            stamps = (self.whole.extent.stamps[int(record)] for record in fields[2:4])
            asked, answered = self.whole.nanoseconds(stamps)
            first, last = self.hull_at(asked), self.hull_at(answered)
            if isinstance(first, str) or isinstance(last, str):
                continue
            if int(fields[11]) > first[1] or int(fields[13]) < last[0]:
                before = self.open.get(fields[1], Time(fields[1], asked, answered, 0))
                off = max(before.off, abs(int(fields[11]) - first[1]), abs(int(fields[13]) - last[0]))
                self.open[fields[1]] = Time(fields[1], before.first, answered, before.samples + 1, off)
                continue
            self.met.add(fields[1])
            if fields[1] in self.open:
                self.times.append(self.open.pop(fields[1]))

    @property
    def missed(self) -> list[Time]:
        return [*self.times, *self.open.values()]

    def hull_at(self, time: int) -> Hull:
        """The hull at Unix nanoseconds; `empty` outside of the span."""
        at = bisect_right(self.envelope.begins, time // SECOND) - 1
        return self.envelope.hulls[at] if at >= 0 and time <= self.envelope.ends[at] * SECOND else "empty"


def search_of(program: Program, claim: Claim, capture: str, extent: Extent | None, envelope: Envelope,
              gaps: list[Gap]) -> ApartSearch:
    """All samples that miss the hull, of servers of which some interval does."""
    search = ApartSearch(envelope, Classic(capture, extent))
    if suspects := [address for address, own in met_of(envelope, gaps).items() if not all(own)]:
        keep(SUSPECTS, replace(claim, servers=suspects, false_max=0, groups=[]).text)
        program.blocks(search.take, "samples", SUSPECTS, capture)
    return search


def seen_apart(program: Program, claim: Claim, capture: str, extent: Extent | None, envelope: Envelope,
               gaps: list[Gap], least: int = 0) -> Apart:
    """Which servers stand apart, and when, by their samples where their intervals don't tell; or only by so many, one
    after the other."""
    search, always = search_of(program, claim, capture, extent, envelope, gaps), apart_of(envelope, gaps)
    missed = [time for time in search.missed if time.samples >= least]
    times = [time for time in missed if time.server in search.met]
    own = {time.server for time in missed} - search.met
    if not least:
        own |= {*always} - search.met
    return Apart([server for server in claim.servers if server in own], times,
                 *wrong_in(program, claim, [] if least else [capture]))


class Conflicts(NamedTuple):
    """Of a capture which servers contradict which, or themselves; and which groups then do."""

    servers: list[set[str]]
    groups: list[set[int]]


def conflicts_in(program: Program, claim: Claim, capture: str) -> Conflicts:
    """What conflicts in a capture, each server for itself."""
    keep(SUSPECTS, replace(claim, groups=[], false_max=0, bound_ns=MAX_BOUND).text)
    group = {claim.servers[k]: number for number, own in enumerate(claim.grouped) for k in own}
    pairs = [{low, high} for low, _, high, _ in read_settled(program.run("settle", SUSPECTS, capture).text).conflicts]
    return Conflicts(pairs, [{group[server] for server in pair} for pair in pairs])


def in_each_cover(conflicts: list[set[int]], most: int) -> set[int] | None:
    """What is in each set of at most so many that has an end of each conflict; None if there is no such set. It has the
    group that is in most conflicts, or else what that is in conflict with."""
    if not conflicts:
        return set()
    (one, number), = Counter(chain(*conflicts)).most_common(1)
    others = set().union(*(own for own in conflicts if one in own)) - {one}
    ways = [{one}, others] if {one} not in conflicts else [{one}]
    sets = [way | rest for way in ways if len(way) <= most and len(conflicts) <= most * number and
            (rest := in_each_cover([own for own in conflicts if not own & way], most - len(way))) is not None]
    return set.intersection(*sets) if sets else None


def wrong_in(program: Program, claim: Claim, captures: Iterable[str]) -> tuple[list[str], list[str]]:
    """The servers that were wrong in each course of events that fits one of these captures; and others of which some
    were."""
    sets = list[set[str]]()
    for conflicts in (conflicts_in(program, claim, capture) for capture in captures):
        must = in_each_cover(conflicts.groups, claim.false_max) or set()
        named = set().union(*conflicts.servers)
        sets += ({claim.servers[k] for k in claim.grouped[number]} & named for number in must)
        sets += (pair for pair, groups in zip(*conflicts) if not groups & must)
    wrong = {server for own in sets if len(own) == 1 for server in own}
    some = {server for own in sets if not own & wrong for server in own}
    return [server for server in claim.servers if server in wrong], [one for one in claim.servers if one in some]
