"""The last minutes of a capture that is still being written, without what comes before them.

A record begins where the one before it ends, so what stands in the middle of a capture can't be read by itself: the
bytes of a packet may look like records. But the longest record is known. Of all places in a stretch as long as that,
one is where a record begins; each is followed from one head to the next, and where all that can be followed have come
together, a record begins whatever stands in the packets.
"""
import re
from array import array
from collections import deque
from collections.abc import Iterator
from heapq import heapify, heappop, heappush
from struct import Struct
from typing import NamedTuple

from ..fault import fault
from ..folder.files import Folder
from .classic import HEAD, HEADER, MAGICS, MAX_CAPTURED

MAX_LENGTH, HOUR = HEAD + MAX_CAPTURED, 3600
FIRST = 1 << 20
"""Bytes that are read of the end at first; and then twice as many each time."""
MAX_PLACES = 1 << 19
"""Places at which records are looked for in one file. Who makes more ways than that has all of the file read from its
begin, where there is but one."""
HEADS = {"<": re.compile(rb"(?s)(?=.{7}[\0-\x3b]..[\0-\4]\0)"), ">": re.compile(rb"(?s)(?=.{4}[\0-\x3b]...\0[\0-\4])")}
"""What may be the head of a record, by the order of its bytes."""


class Heads:
    """How heads of records are read: a place leads to the next one."""

    def __init__(self, order: str, unit: int):
        self.order, self.unit, self.pattern, self.unpack = order, unit, HEADS[order], Struct(f"{order}IIII").unpack_from
        self.left = MAX_PLACES

    def after(self, data: bytes, at: int) -> int | None:
        """Where the record that begins there ends; None if none can."""
        _, part, captured, length = self.unpack(data, at)
        return at + HEAD + captured if part < self.unit and captured <= min(length, MAX_CAPTURED) else None

    def meeting(self, data: bytes) -> int | None:
        """Where all ways that begin in the longest record's stretch have come together; None if they don't, or if too
        many places would have to be looked at."""
        starts = (match.start() for match in self.pattern.finditer(data, 0, MAX_LENGTH + HEAD))
        ways = [start for start in starts if start < MAX_LENGTH]
        heapify(ways)
        while ways and self.left > 0:
            self.left -= 1
            at = heappop(ways)
            while ways and ways[0] == at:
                heappop(ways)
            if not ways:
                return at
            if at + HEAD > len(data):
                return None
            if (end := self.after(data, at)) is not None:
                heappush(ways, end)
        return None

    def walk(self, data: bytes, at: int) -> Iterator[tuple[int, int, int]]:
        """Of each whole record from a place on its Unix second, where it begins, and where it ends."""
        while at + HEAD <= len(data):
            end = self.after(data, at)
            if end is None or end > len(data):
                return
            yield self.unpack(data, at)[0], at, end
            at = end


class Ending(NamedTuple):
    """The last records of a file; how many seconds went by in them; and the Unix seconds of the last, and of the
    latest."""

    data: bytes
    seconds: int
    last: int
    latest: int


class Growing:
    """A file that a recorder writes."""

    def __init__(self, folder: Folder, name: str):
        self.folder, self.name, self.size = folder, name, folder.size(name)
        self.header = folder.part(name, 0, HEADER)
        order, unit = MAGICS.get(self.header[:4], ("", 0))
        if len(self.header) < HEADER or not order:
            raise fault(f"{name} is no classic capture, as tcpdump writes it")
        if self.header[20:24] != (1).to_bytes(4, "little" if order == "<" else "big"):
            raise fault(f"{name} has other frames than Ethernet's")
        self.heads = Heads(order, unit)

    def endings(self, most: int) -> Iterator[tuple[bytes, int, bool]]:
        """Ends of the file, each longer than the one before, down to all of it, or to as many bytes as are read at
        most: the bytes, where a record begins in them, and whether no record lies before."""
        length = FIRST
        while HEADER + length < self.size and length <= most and self.heads.left > 0:
            data = self.folder.part(self.name, self.size - length, self.size)
            if (begin := self.heads.meeting(data)) is not None:
                yield data, begin, False
            length *= 2
        if self.size <= HEADER + most:
            yield self.folder.part(self.name, HEADER, self.size), 0, True

    def last(self, most: int = 1 << 30) -> int:
        """The Unix second of its last whole record; 0 if it has none."""
        data, begin, _ = next(self.endings(most), (b"", 0, True))
        return next(iter(deque((second for second, _, _ in self.heads.walk(data, begin)), 1)), 0)

    def hours(self) -> set[int]:
        """The hours since 1970 in which the times of its records lie, as far as these can be told apart."""
        hours, data, at = set[int](), b"", HEADER
        while len(data) < MAX_LENGTH and (block := self.folder.part(self.name, at, at + FIRST)):
            data, at, end = data + block, at + len(block), 0
            for second, _, end in self.heads.walk(data, 0):
                hours.add(second // HOUR)
            data = data[end:]
        return hours

    def ending(self, seconds: int, longest: int, most: int, bad: list[str]) -> Ending | None:
        """The records of its last seconds, as far as so many bytes have them; None if it has none. What went by is the
        time from each record to the next, but none where the clock fell back, and so much at the longest. Where it is
        damaged is said."""
        ending, ends = None, 0
        for ends, (data, begin, _) in enumerate(self.endings(most), 1):
            times, places, end = array("Q"), array("Q"), begin
            for second, at, end in self.heads.walk(data, begin):
                times.append(second)
                places.append(at)
            if is_damaged := self.is_damaged(data, end):
                bad.append(fault(f"{self.name} is damaged from byte {self.size - len(data) + end} on").line)
            gone, first = 0, len(times) - 1
            while first > 0 and gone <= seconds:
                gone += min(max(0, times[first] - times[first - 1]), longest)
                first -= gone <= seconds
            if times:
                ending = Ending(data[places[first] : end], gone, times[-1], max(times[first:]))
            if first > 0 or is_damaged:
                break
        if not ends:
            bad.append(fault(f"{self.name}: in its last {most // 1_000_000:,} MB no record can be told apart").line)
        return ending

    def is_damaged(self, data: bytes, end: int) -> bool:
        """Whether what stands there is no record that was cut off."""
        after = self.heads.after(data, end) if end + HEAD <= len(data) else None
        return end + HEAD <= len(data) and (after is None or after <= len(data))
