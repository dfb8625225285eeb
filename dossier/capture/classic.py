"""Classic captures in the current folder, which is one's own: where their records lie, and captures made of them.

A record is handed on as it was recorded. Where nanoseconds and microseconds come together, nanoseconds are cut, which
only widens the windows of the records.
"""
from __future__ import annotations

from array import array
from bisect import bisect_left, bisect_right
from collections.abc import Iterable, Iterator
from heapq import merge
from itertools import chain, groupby, pairwise
from operator import itemgetter
from struct import Struct
from typing import NamedTuple

from ..fault import fault
from ..folder.files import BLOCK, mapped
from ..folder.placing import Copy
from ..units import SECOND, inward

MAGICS = {bytes.fromhex(magic): form for magic, form in (
    ("d4c3b2a1", ("<", 10**6)), ("a1b2c3d4", (">", 10**6)), ("4d3cb2a1", ("<", 10**9)), ("a1b23c4d", (">", 10**9)))}
"""Of the first four bytes the order of all others, and the units to a second."""
HEADER, HEAD = 24, 16
"""Bytes of a capture's header, and of a record's."""
MAX_RECORDS, MAX_CAPTURED = 4_000_000, 262_144
"""Records of a capture, and bytes of each, that the program takes."""
MAX_ALIKE = 1024
"""Records of one length that are read at once."""
MAX_RUNS = 1 << 19
"""Of records that follow one another in time there are some for each day, however long a capture is."""
AT_ONCE = 1 << 12
"""Records whose times are compared together."""
MESSAGE, PORTS = 48, slice(HEAD + 34, HEAD + 42)
"""Bytes of an NTP message; and where the ports of its record stand, behind Ethernet, perhaps a tag, and IPv4."""
AT_ENDS = 100
"""Records at either end of a capture, among which it is seen when it was made, and whether the next has them too."""
NEW_HEADER, NEW_HEAD = Struct("<IHHIIII"), Struct("<IIII")
NEW_MAGIC = {10**6: 0xA1B2C3D4, 10**9: 0xA1B23C4D}

Row = tuple[int, int, int]
"""A record: its time in units since 1970, and where it begins and ends."""
Timed = tuple[int, int, bytes]
"""A record that is joined with others: its time in nanoseconds, which capture it is of, and what is written."""
Runs = list[list[int]]
"""Where records that follow one another begin and end."""


class Extent(NamedTuple):
    """Where the whole records of a capture end, of which no more are looked for than the program takes; and the time of
    each, its seconds in the upper 32 bits and its units in the lower, but none at all if one of them isn't one."""

    end: int
    stamps: array[int]


class Classic:
    """A capture in a file of one's own; nothing has to be one. Its extent may be known already."""

    def __init__(self, path: str, extent: Extent | None = None):
        self.path, self.whole_extent, self.data = path, extent, mapped(path)
        self.size = len(self.data)
        self.order, self.unit = MAGICS.get(self.data[:4], ("<", 0))
        self.is_one = self.unit > 0 and self.size >= HEADER

    @property
    def kind(self) -> tuple[int, int, int]:
        """Its version, and the kind of its frames."""
        major, minor, link = Struct(f"{self.order}HH12xI").unpack_from(self.data, 4)
        return major, minor, link

    def rows(self) -> Iterator[Row]:
        """Its records, as far as they can be told apart."""
        head, size, at, unit = Struct(f"{self.order}III").unpack_from, self.size - HEAD, HEADER, self.unit
        while at <= size:
            seconds, part, captured = head(self.data, at)
            end = at + HEAD + captured
            if captured > MAX_CAPTURED or part >= unit or end > self.size:
                return
            yield seconds * unit + part, at, end
            at = end

    def blocks(self) -> Iterator[bytes]:
        """Its records, many at once."""
        yield from (self.data[at : at + BLOCK] for at in range(HEADER, self.size, BLOCK))

    @property
    def extent(self) -> Extent:
        self.whole_extent = self.whole_extent or self.look()
        return self.whole_extent

    def look(self) -> Extent:
        """Goes from record to record, and over those of one length that follow one another at once."""
        head, at, stamps = Struct(f"{self.order}III").unpack_from, HEADER, array("Q")
        before, alike = -1, 1
        while self.is_one and at + HEAD <= self.size and len(stamps) < MAX_RECORDS:
            seconds, part, captured = head(self.data, at)
            length = HEAD + captured
            if captured > MAX_CAPTURED or length > self.size - at:
                break
            if captured == before:
                alike = min(MAX_ALIKE, 2 * alike)
                some = self.data[at : at + length * min(alike, MAX_RECORDS - len(stamps))]
                own = self.stamps_of(some[: len(some) // length * length], length)
                stamps.frombytes(own)
                at += len(own) // 8 * length
            else:
                stamps.append(seconds << 32 | part)
                at, before, alike = at + length, captured, 1
        parts = array("I", stamps.tobytes())[::2]
        return Extent(at, stamps if max(parts, default=0) < self.unit else array("Q"))

    def stamps_of(self, records: bytes, length: int) -> bytearray:
        """The times of the first of some records, as far as they have one length, the lowest byte first as in this
        machine: column by column of their bytes, since a step for each record takes many times as long."""
        number = min(len(column) - len(column.lstrip(column[:1]))
                     for column in (records[place::length] for place in range(8, 12)))
        times = bytearray(8 * number)
        for at, place in enumerate((4, 5, 6, 7, 0, 1, 2, 3) if self.order == "<" else range(7, -1, -1)):
            times[at::8] = records[place : number * length : length]
        return times

    def nanoseconds(self, stamps: Iterable[int]) -> list[int]:
        """Times since 1970."""
        scale = SECOND // self.unit
        return [(stamp >> 32) * SECOND + (stamp & 0xFFFF_FFFF) * scale for stamp in stamps]

    def is_torn(self, end: int) -> bool:
        """Whether it ends inside the record that begins there."""
        head = self.data[end : end + HEAD]
        captured = int.from_bytes(head[8:12], "little" if self.order == "<" else "big")
        return 0 < len(head) < HEAD or (len(head) == HEAD and self.size - end - HEAD < captured <= MAX_CAPTURED)

    def renewed(self, begin: int, end: int, unit: int) -> bytes:
        """A record in the order and the unit of a new capture."""
        if (self.order, self.unit) == ("<", unit):
            return self.data[begin:end]
        seconds, part, captured, length = Struct(f"{self.order}IIII").unpack_from(self.data, begin)
        return NEW_HEAD.pack(seconds, part * unit // self.unit, captured, length) + self.data[begin + HEAD : end]


def do_rise(stamps: array[int]) -> bool:
    """Whether none is less than the one before it."""
    parts = (stamps[k : k + AT_ONCE + 1].tolist() for k in range(0, len(stamps), AT_ONCE))
    return all(part == sorted(part) for part in parts)


def new_header(unit: int, kind: tuple[int, int, int]) -> bytes:
    major, minor, link = kind
    return NEW_HEADER.pack(NEW_MAGIC[unit], major, minor, 0, 0, MAX_CAPTURED, link)


def write(path: str, blocks: Iterable[bytes]) -> None:
    """Writes a file of one's own, many small blocks at once."""
    with Copy(path) as copy:
        held, size = [], 0
        for block in blocks:
            held.append(block)
            size += len(block)
            if size > BLOCK:
                copy.take(b"".join(held))
                held, size = [], 0
        copy.take(b"".join(held))


Times = dict[str, tuple[int, int]]
"""Of captures by their names when they begin and end, by a clock that doesn't go back."""


def join(captures: dict[str, Classic], path: str, times: Times | None = None) -> Extent | None:
    """Joins captures, by their names, in order of time. Of records of one time those of the first capture come first.
    If it is known when they begin and end, those that follow one another stay whole, whatever their records' times; and
    a record that stands in both of two that don't is one record. The extent of what is written, if it is known."""
    first = next(iter(captures.values()))
    for name, capture in captures.items():
        if not capture.is_one:
            raise fault(f"{name} is no classic capture, so it can't be joined with the others")
        if capture.kind != first.kind:
            raise fault(f"{name} has other frames than {next(iter(captures))}, so it can't be joined with it")
    unit = min(capture.unit for capture in captures.values())
    known = sorted(times, key=lambda name: times[name]) if times else []  # type: ignore
    if (row := in_a_row([captures[name] for name in known or captures], bool(known))) is not None:
        write(path, chain([new_header(unit, first.kind)], *map(Classic.blocks, row)))
        stamps = b"".join(capture.extent.stamps.tobytes() for capture in row)
        return Extent(HEADER + sum(capture.size - HEADER for capture in row), array("Q", stamps))

    def records(number: int, name: str, capture: Classic) -> Iterator[tuple[int, int, bytes]]:
        of, end = SECOND // capture.unit, HEADER
        for time, begin, end in capture.rows():
            yield time * of, number, capture.renewed(begin, end, unit)
        if end != capture.size:
            raise fault(f"{name} is damaged from byte {end} on, so it can't be joined with the others")
    files = [records(number, name, captures[name]) for number, name in enumerate(known or captures)]
    rows: Iterable[Timed] = woven(files, [times[name] for name in known]) if times is not None else merged(files)
    write(path, chain([new_header(unit, first.kind)], map(itemgetter(2), rows)))
    return None


def merged(captures: list[Iterator[Timed]]) -> Iterator[Timed]:
    """The records of captures in order of time; of those that several have at one time each once."""
    for _, some in groupby(merge(*captures, key=itemgetter(0, 1)), key=itemgetter(0)):
        seen = dict[bytes, int]()
        yield from (record for record in some if seen.setdefault(record[2], record[1]) == record[1])


def woven(captures: Iterable[Iterable[Timed]], times: list[tuple[int, int]]) -> list[Timed]:
    """The records of captures in the order in which these begin."""
    rows, end = list[Timed](), 0
    for capture, (begin, last) in zip(captures, times):
        own = list(capture)
        do_share = not {own_of(record[2]) for record in own[:AT_ENDS]}.isdisjoint(own_of(record[2]) for record in rows)
        rows = [*rows, *own] if begin >= end and not do_share else both(rows, own)
        end = max(end, last)
    return rows


def both(one: list[Timed], other: list[Timed]) -> list[Timed]:
    """Records of two, in the order of both, those that both have once; packets that both have, by other stamps, one
    after the other; between these in order of time."""
    places, records = dict[bytes, list[int]](), list[Timed]()
    for number, record in enumerate(one):
        places.setdefault(own_of(record[2]), []).append(number)
    i = j = 0
    for number, record in enumerate(other):
        own = places.get(own_of(record[2]), [])
        if (at := bisect_left(own, i)) < len(own):
            same = one[own[at]]
            records += merge(one[i : own[at]], other[j:number], key=itemgetter(0, 1))
            records += [record] if record[2] == same[2] else sorted([same, record])
            i, j = own[at] + 1, number + 1
    return [*records, *merge(one[i:], other[j:], key=itemgetter(0, 1))]


def own_of(record: bytes) -> bytes:
    """What no other packet has: an NTP message with its timestamps; of others the record with its time."""
    is_ntp = b"\0\x7b" in record[PORTS] and any(record[-8:])
    return record[-MESSAGE:] if is_ntp else record


def in_a_row(captures: list[Classic], is_known: bool) -> list[Classic] | None:
    """Captures one after the other in time, if they are such: all of one form and whole, each earlier than the next;
    and in the order that is known, if one is."""
    if len({(capture.order, capture.unit) for capture in captures}) > 1 or captures[0].order != "<":
        return None
    if any(capture.extent.end != capture.size or (capture.size > HEADER and not capture.extent.stamps)
           for capture in captures):
        return None
    row = sorted((capture for capture in captures if capture.extent.stamps), key=lambda one: min(one.extent.stamps))
    if any(max(one.extent.stamps) >= min(next_.extent.stamps) for one, next_ in pairwise(row)):
        return None
    if is_known and row != [capture for capture in captures if capture.extent.stamps]:
        return None
    return row if sum(len(capture.extent.stamps) for capture in row) < MAX_RECORDS else None


def runs_of(capture: Classic, spans: list[tuple[int, int]]) -> list[Runs]:
    """Of each span of Unix seconds the records whose times lie in it, or all, if they can't be told apart to the end.
    The spans have to be in order, as their ends."""
    begins, ends = ([second * capture.unit for second in side] for side in zip(*spans))
    runs_in: list[Runs] = [[] for _ in spans]
    left, end = MAX_RUNS, HEADER
    for time, begin, end in capture.rows():
        for runs in runs_in[bisect_left(ends, time) : bisect_right(begins, time)]:
            if runs and runs[-1][1] == begin:
                runs[-1][1] = end
            else:
                runs.append([begin, end])
                left -= 1
        if left < 0:
            raise fault("the times of the capture go back and forth between days too often")
    return runs_in if end == capture.size else [[[HEADER, capture.size]] for _ in spans]


def records_in(whole: Classic, gap: tuple[int, int], is_between: bool) -> Iterator[bytes]:
    """The records of a capture whose times lie in a gap, and those between the records with the times of its ends, but
    for what may be answered by the latter."""
    first, last = (second * whole.unit for second in inward(*gap))
    ends = [time // SECOND << 32 | time % SECOND * whole.unit // SECOND for time in gap]
    inside, stamps = range(0), whole.extent.stamps
    if is_between and ends[0] in stamps and ends[1] in stamps[(at := stamps.index(ends[0])):]:
        inside = range(at + 1, stamps.index(ends[1], at))
    for number, (time, begin, end) in enumerate(whole.rows()):
        if first <= time <= last or number in inside and not last < time <= gap[1] * whole.unit // SECOND:
            yield whole.data[begin:end]
