"""What a capture holds besides the answers: when it was recorded, where its times fall back, when samples were taken.

Which records these are is read off `samples`, and off `list` if there are others than the claim's. Their times are as
`list` prints them.
"""
from __future__ import annotations

import re
from array import array
from bisect import bisect_left
from collections import Counter
from functools import cached_property

from ..folder.answers import read_counts
from ..folder.entry import Move
from ..folder.program import Program
from ..units import SECOND
from .classic import Classic, Extent, do_rise

SAMPLE = re.compile(rb"(?m)^[^ ]+ ([^ ]+ [^ ]+ [^ ]+) .*")
"""A line of `samples`: its number, the server, the records of request and reply, and then its figures."""

PACKET = re.compile(rb"(?m)^([^ ]+) (?s:.{120}).*")
"""A line of `list`: the record's number, and then the packet, of 120 bytes at least, which are passed over at once."""


class Recording:
    """Times are Unix nanoseconds of the client's clock, as the capture has them."""

    def __init__(self, samples: Samples, capture: Classic, packets: array[int] | None):
        """Of a capture the samples, and the records of all NTP packets, if they aren't all of its records."""
        stamps, at = capture.extent.stamps, capture.nanoseconds
        own = stamps if packets is None else array("Q", map(stamps.__getitem__, packets))
        self.counts = samples.counts
        self.by_server = {server.decode("ascii"): number for server, number in samples.by_server.items()}
        falls = [] if do_rise(own) else [k for k in range(1, len(own)) if own[k] < own[k - 1]]
        self.first, self.last = at([min(own), max(own)] if falls else [own[0], own[-1]]) if own else (None, None)
        self.falls, times = len(falls), at(own[j] for k in falls for j in (k - 1, k))
        self.fallen = list(zip([packets[k] if packets else k for k in falls], times[::2], times[1::2]))
        """The records whose time falls back: of each its number, the time before it, and its own."""
        self.requests = at(map(stamps.__getitem__, sorted(samples.requests)))
        """When the requests that have samples were recorded, in this order."""
        self.first_request = next(iter(self.requests), None)
        self.replies = at(map(stamps.__getitem__, samples.replies))
        """When each sample's reply was recorded."""
        self.at, self.packets, self.pairs, self.stamps = at, own, samples.pairs, stamps

    @cached_property
    def by_address(self) -> dict[str, list[tuple[int, int]]]:
        """The records of request and reply of each server's samples."""
        return {server.decode("ascii"): list(zip(own[::2], own[1::2])) for server, own in self.pairs.items()}

    @cached_property
    def times(self) -> list[int]:
        """When each sample's reply was recorded, in rising order."""
        return sorted(self.replies)

    def fall(self, moves: list[Move]) -> tuple[int, int, int] | None:
        """The first record whose time falls back, or the first of those by more than a second; if the clock moved,
        the first of these that no move explains. Of it its number, the time before it, and its own."""
        far = [fall for fall in self.fallen if fall[1] - fall[2] > SECOND and not any(
            min(move.around) <= fall[1] and fall[2] <= max(move.around) for move in moves)]
        return next(iter(far if far or moves else self.fallen), None)

    def exchanges(self) -> list[int]:
        """The times between which all exchanges lie, if there are any: the first request and the last reply; or of all
        packets, if their times fall back."""
        if self.falls and self.first is not None and self.last is not None:
            return [self.first, self.last]
        ends = [*self.replies[:1], *self.replies[-1:]]
        return ends if self.first_request is None else [*ends, self.first_request]

    def around(self, first: int, last: int) -> tuple[int, int] | None:
        """If no packet was recorded between two times, but some were: when the last before them was, and the first
        after them; 0 if there is none."""
        before = after = 0
        for time in self.at(self.packets):
            if first <= time <= last:
                return None
            if time < first:
                before = max(before, time)
            else:
                after = min(after or time, time)
        return (before, after) if before or after else None

    def some_times(self) -> list[int]:
        """The times of some hundred of these replies, the first and the last among them."""
        return self.replies[:: 1 + len(self.replies) // 100] + self.replies[-1:]

    def nearest(self, begin: int, end: int) -> int:
        """How far the nearest sample is from a piece of Unix seconds, in nanoseconds; 0 if one lies in it. There has to
        be one."""
        first, last = begin * SECOND, end * SECOND
        at = bisect_left(self.times, first)
        return max(0, min([max(first - time, time - last) for time in self.times[max(0, at - 1) : at + 1]]))


def read_recording(program: Program, claim: str, capture: str, extent: Extent | None = None) -> Recording:
    """What a capture holds, by `samples`, and by `list` if there is more."""
    samples, packets = Samples(), array("I")
    program.blocks(samples.take, "samples", claim, capture)
    whole, counts = Classic(capture, extent), samples.counts
    if counts["requests"] + counts["replies"] == counts["records"]:
        return Recording(samples, whole, None)

    def take(block: bytes) -> None:
        packets.extend(map(int, PACKET.findall(block, 0, closing_of(block))))
    program.blocks(take, "list", capture)
    return Recording(samples, whole, packets)


def closing_of(block: bytes) -> int:
    """Where the closing line begins, which has counts; the block's end if it isn't there yet."""
    last = block.rfind(b"\n", 0, -1) + 1
    return last if block.startswith(b"records ", last) else len(block)


class Samples:
    """What `samples` says: the counts, how many samples each server has, and the records of requests and replies."""

    def __init__(self) -> None:
        self.by_server = Counter[bytes]()
        self.requests, self.replies = array("I"), array("I")
        self.pairs: dict[bytes, array[int]] = {}
        self.counts: dict[str, int] = {}

    def take(self, block: bytes) -> None:
        """Takes lines of `samples`."""
        end = closing_of(block)
        self.counts = read_counts(block[end:].decode("ascii"))
        words = b" ".join(SAMPLE.findall(block, 0, end)).split()
        self.by_server.update(words[::3])
        self.replies.extend(map(int, words[2::3]))
        self.requests.extend(map(int, words[1::3]))
        for server, *records in zip(words[::3], map(int, words[1::3]), map(int, words[2::3])):
            self.pairs.setdefault(server, array("I")).extend(records)
