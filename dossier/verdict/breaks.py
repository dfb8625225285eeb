"""Where a capture breaks into stretches, each of which some course of events fits, by the program's word about parts.

From the left each stretch is as long as a course fits it, and from the right too. If both ways find as many, then in
every course with just so many steps each step lies in its break: behind the request that ends a stretch from the right,
and before the reply that ends one from the left.
"""
from array import array
from itertools import pairwise
from typing import NamedTuple

from ..capture.classic import HEADER, Classic, Extent, write
from ..capture.recording import Samples, read_recording
from ..folder.answers import read_settled
from ..folder.claim import MAX_BOUND, Claim
from ..folder.entry import FEW
from ..folder.placing import ROOM, keep
from ..folder.program import Program
from ..records import replace

ANY, SOME = "any.claim.json", "some.pcap"
"""Private files: the claim with the greatest bound, and a part of the capture."""
MAX_CALLS, MAX_BYTES = 1000, 1 << 33
"""Of the program, to find all breaks; and bytes that it is given for that."""


Pair = tuple[str, int, str, int]
"""Two exchanges in conflict: the server and the record of a request, and those of a reply."""


class Break(NamedTuple):
    """The records, in the order in which they were made, between which the clock was stepped, if it was just once
    there; whether they are as far apart as the two ways say, so that a step lies between them; and whether another
    step may lie there, too."""

    after: int
    by: int
    is_met: bool
    is_doubted: bool = False


class BreakSearch:
    """Looks for the breaks of a capture."""

    def __init__(self, program: Program, claim: Claim, capture: str, extent: Extent | None):
        self.program, self.calls, self.bytes = program, MAX_CALLS, MAX_BYTES
        self.whole = Classic(capture, extent)
        self.begins = array("Q", (begin for _, begin, _ in self.whole.rows()))
        self.number = len(self.begins)
        self.begins.append(self.whole.extent.end)
        self.left, self.any = list[int](), replace(claim, bound_ns=MAX_BOUND).text
        keep(ANY, self.any)
        samples, self.other = Samples(), array("I", range(self.number))
        """The record of the reply to a request, and of the request that a reply is to."""
        program.blocks(samples.take, "samples", ANY, capture)
        for own in samples.pairs.values():
            for request, reply in zip(own[-2::-2], own[::-2]):
                self.other[request], self.other[reply] = reply, request

    def breaks(self) -> list[Break]:
        """None if there are many, or they can't be told: then it isn't steps."""
        left = self.left = self.from_left(0, self.number)
        right = self.from_right(left) if 0 < len(left) <= FEW else []
        if self.calls <= 0 or self.bytes <= 0 or len(left) != len(right) or not left:
            return []
        breaks = list[Break]()
        for one in (self.narrowed(Break(min(m, n), max(m, n), m < n)) for m, n in zip(right, left)):
            if breaks and one.after < breaks[-1].by:
                breaks[-1] = Break(breaks[-1].after, one.by, False)
            else:
                breaks.append(one)
        return breaks

    def narrowed(self, one: Break) -> Break:
        """A break in which the times of the records fall back once by more than a second: there it was, if it was a
        step."""
        stamps = self.whole.extent.stamps
        falls = [k for k in range(max(1, one.after + 1), min(one.by, self.number - 1) + 1)
                 if (stamps[k] >> 32) + 1 < stamps[k - 1] >> 32]
        return Break(falls[0] - 1, falls[0], one.is_met) if len(falls) == 1 else one

    def between_exchanges(self, one: Break) -> Break:
        """A break, between exchanges: of a record beside it that is in none it isn't known what the clock's error was,
        if it was stepped again."""
        after = next((k for k in range(one.after, -1, -1) if self.other[k] != k), one.after)
        by = next((k for k in range(one.by, self.number) if self.other[k] != k), one.by)
        return one._replace(after=after, by=by)

    def is_one(self, wide: Break, claim: Claim) -> bool:
        """Whether the records of a break, its ends among them, fall into two stretches by a claim, and each exchange of
        theirs into one of the two."""
        keep(ANY, replace(claim, bound_ns=MAX_BOUND).text)
        left = self.from_left(wide.after, wide.by + 1)
        self.cut(wide.after, wide.by + 1, SOME)
        requests = [wide.after + request for own in read_recording(self.program, ANY, SOME).by_address.values()
                    for request, reply in own if wide.after + reply >= left[0]] if len(left) == 1 else []
        return bool(requests) and not self.conflicts(min(requests), wide.by + 1)

    def from_left(self, first: int, end: int) -> list[int]:
        """The reply with which each stretch is fitted no more, if it is as long as may be."""
        begins = list[int]()
        while len(begins) <= FEW and (seen := self.conflicts(first, end)):
            low, high, back = first, min(end, self.ends(seen)[1] + 1), 1
            while high - low > 1:
                middle, back = max((low + high) // 2, high - back), 2 * back
                if closer := self.conflicts(first, middle):
                    high = min(middle, self.ends(closer)[1] + 1)
                else:
                    low = middle
            first = high - 1
            begins.append(first)
        return begins

    def from_right(self, near: list[int]) -> list[int]:
        """The request from which on each stretch isn't fitted, seen from the end; near others, most likely."""
        ends, end, hints = list[int](), self.number, list(near)
        while len(ends) <= FEW and (low := self.narrowest(0, end, hints.pop() if hints else 0)[0]) is not None:
            end = low + 1
            ends.insert(0, low)
        return ends

    def narrowest(self, first: int, end: int, hint: int = 0) -> tuple[int | None, list[Pair]]:
        """The last record from which on to before the end no course fits, most likely near another one, and the
        conflicts of these; None if one fits from the first on."""
        pairs = self.conflicts(first, end)
        low, high, back = max(first, self.ends(pairs)[0]) if pairs else None, end, 1
        while low is not None and high - low > 1:
            middle, back = max((low + high) // 2, high - back), 2 * back
            if low < hint < high:
                middle, back, hint = hint, 1, 0
            if closer := self.conflicts(middle, end):
                low, pairs = max(middle, self.ends(closer)[0]), closer
            else:
                high = middle
        return low, pairs

    def told(self) -> list[Pair]:
        """Of each stretch from the left the nearest conflicts by which it ends."""
        keep(ANY, self.any)
        pairs = (self.narrowest(first, end + 1)[1] for first, end in pairwise([0, *self.left]))
        return [pair for own in pairs for pair in sorted(own, key=lambda pair: abs(pair[1] - pair[3]))[:FEW]]

    def conflicts(self, first: int, end: int) -> list[Pair]:
        """The conflicts for which no course fits the records from the first to before the end, if none does."""
        if first >= end or self.calls <= 0 or self.bytes <= 0:
            return []
        self.calls -= 1
        self.bytes -= self.cut(first, end, SOME)
        return [(low, first + request, high, first + reply) for low, request, high, reply in
                read_settled(self.program.run("settle", ANY, SOME).text).conflicts]

    def ends(self, conflicts: list[Pair]) -> tuple[int, int]:
        """Between which records the exchanges of conflicts lie: no less than these is fitted no more."""
        named = [record for _, request, _, reply in conflicts for record in (request, reply)]
        records = [*named, *map(self.other.__getitem__, named)]
        return min(records), max(records)

    def cut(self, first: int, end: int, path: str) -> int:
        """Writes records to a private file. How many bytes that are."""
        begin, size = self.begins[first], self.begins[end] - self.begins[first]
        write(path, [self.whole.data[:HEADER], self.whole.data[begin : begin + size]])
        if path == SOME:
            ROOM.take(-size)  # (the next part takes the same room)
        return size
