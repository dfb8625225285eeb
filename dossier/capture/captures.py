"""What people have: captures that are packed, in pcapng, cut off or in several files, made into one that the program
takes. The copies are private ones in the current folder, and what was recorded stays the evidence.
"""
from __future__ import annotations

import re
import zlib
from array import array
from bisect import bisect_left, bisect_right
from collections import deque
from collections.abc import Callable, Generator, Iterator
from contextlib import closing, suppress
from functools import partial
from hashlib import sha256
from itertools import chain, islice, pairwise
from statistics import median_low
from typing import NamedTuple

from ..fault import Fault, fault
from ..folder.claim import Claim, Part
from ..folder.entry import Alert, Figure, Torn
from ..folder.files import BLOCK, JOINED, MAX_OF_A_CAPTURE, mapped, own, size_of, sum_of_file, too_big
from ..folder.jobs import find_tool, stream
from ..folder.placing import ROOM, Copy, cut_off, move
from ..folder.program import Program
from ..units import DAY, SECOND, ceil_div, day_of
from . import classic, pcapng
from .classic import (AT_ENDS, HEADER, Classic, Extent, Runs, Times, do_rise, join, new_header, runs_of, write)
from .recording import closing_of

GZIP, ZSTD = bytes.fromhex("1f8b"), bytes.fromhex("28b52ffd")
MARGIN, HALVES = 3600, ("01-01", "07-01")
"""Seconds beside a span whose records speak about it too; and the days on which half-years begin."""
MANY = 1_000_000
"""Records that are listed at once."""
MAX_AT_ONCE = 1 << 26
"""Bytes of a capture that is unpacked with others by one call."""
NO_ZSTD = "is packed by zstd, which isn't installed to unpack it"
MAX_UNTHINNED = 1 << 31
"""Of a capture that isn't thinned out."""
NEXT, MAX_FALLS = 160, 1000
"""Records that are next to others, for each server; and how often the times of a capture may fall back for that."""
MINUTE = 60 << 32
"""In ticks."""
NEAREST = 15
"""Replies at either end of a capture, by whose median it is known when it was made."""
BLOCKS, EACH = 64, 32
"""Of all other records so many blocks are looked at, evenly apart, of so many records for each server."""
PART, THINNED, CUT = "part.pcap", "thinned.pcap", "cut.pcap"
ASKED = re.compile(rb"(?m)^(?:\S+ ){5}m3 (?:\S+ ){9}(\S+)")
ANSWERED = re.compile(rb"(?m)^(?:\S+ ){5}m4 (?:\S+ ){7}(\S+) .* (\d+)$")
"""The timestamp by which a line of `list` asks; and the one by which another answers, and when."""


class AuditedCapture(NamedTuple):
    """The capture that is audited; whether it was made, of captures that the program doesn't take as they are; warnings
    if any of them was cut off, or records were left out; its extent, if it is known; and by their names the captures
    that are in it, as far as they are still there."""

    path: str
    is_made: bool
    alerts: list[Alert]
    extent: Extent | None
    paths: dict[str, str] = {}


class Opened(NamedTuple):
    """A classic capture: its path; where it was cut off, if it was, and ends now; and its extent."""

    path: str
    torn: int | None
    extent: Extent


def audited(copies: dict[str, str], program: Program | None = None) -> AuditedCapture:
    """One capture of all, given by their names and their copies; in the order in which they were made by the servers'
    time, if the program can be asked for that."""
    opened = {name: open_capture(name, copy) for name, copy in copies.items()}
    paths = {name: one.path for name, one in opened.items()}
    torn = [(name, one.torn) for name, one in opened.items() if one.torn is not None]
    alerts: list[Alert] = [Torn("torn", len(torn), *torn[0])] if torn else []
    (name, one), *others = opened.items()
    extent: Extent | None = one.extent
    whole = {name: Classic(each.path, each.extent) for name, each in opened.items() if size_of(each.path)} \
        if others else {}
    if whole:
        extent = join(whole, JOINED, times_of(whole, program) if program else None)
    elif one.path != copies[name] or one.torn is not None:
        move(one.path, JOINED)
    else:
        return AuditedCapture(one.path, False, alerts, extent, paths)
    return AuditedCapture(JOINED, True, alerts, extent, paths)


def times_of(captures: dict[str, Classic], program: Program) -> Times | None:
    """When captures begin and end by what servers say at their ends, in the median, however far in they are heard, or
    of its requests in others. One of which none is heard follows the one before it by name. None if that is the order
    of their records' times, too, if none is heard in any, or if they can't be joined."""
    first = next(iter(captures.values()))
    if any(not capture.is_one or capture.kind != first.kind for capture in captures.values()):
        return None
    said = heard_at([(name, side) for name in captures for side in (0, 1)], AT_ENDS, captures, program)
    for name, capture in captures.items():
        for side in (0, 1):
            if (name, side) not in said and (not side or (name, 0) in said) and len(capture.extent.stamps) > AT_ENDS:
                said |= heard_at([(name, side)], MANY, captures, program)
    silent, names = [name for name in captures if (name, 1) not in said], sorted(captures, key=by_number)
    if not said or silent and do_follow([captures[name] for name in names],
                                        [said[name, 0][0] for name in names if (name, 0) in said]):
        return None
    said |= answered_elsewhere(silent, captures, program)
    ends = {name: sorted([median_low(said[name, 0][:NEAREST]), median_low(said[name, 1][-NEAREST:])])
            for name in captures if (name, 0) in said and (name, 1) in said}
    times, last = dict[str, tuple[int, int]](), 0
    for name in names:
        begin, last = ends.get(name, (last, last))
        times[name] = begin, last
    return times


def do_follow(captures: list[Classic], times: list[int]) -> bool:
    """Whether each capture begins behind the end of the one before it, and servers' times don't fall by a minute."""
    stamps = [capture.extent.stamps for capture in captures if capture.extent.stamps]
    return all(one[-1] <= other[0] for one, other in pairwise(stamps)) and \
        all(one <= other + MINUTE for one, other in pairwise(times))


def heard_at(ends: list[tuple[str, int]], most: int, captures: dict[str, Classic],
             program: Program) -> dict[tuple[str, int], list[int]]:
    """What servers say among so many records at the begins (0) or ends (1) of captures."""
    unit, kind = min(captures[name].unit for name, _ in ends), captures[ends[0][0]].kind
    owners, said = list[tuple[str, int]](), dict[tuple[str, int], list[int]]()

    def some() -> Iterator[bytes]:
        for end in ends:
            capture = captures[end[0]]
            for _, begin, last in deque(capture.rows(), most) if end[1] else islice(capture.rows(), most):
                owners.append(end)
                yield capture.renewed(begin, last, unit)

    def take(block: bytes) -> None:
        for words in (line.split() for line in block[:closing_of(block)].splitlines()):
            if words[5] == b"m4" and words[-1] != b"-":
                said.setdefault(owners[int(words[0])], []).append(int(words[-1]))
    write(PART, chain([new_header(unit, kind)], some()))
    ROOM.take(-size_of(PART))  # (the next part takes the same room)
    program.blocks(take, "list", PART)
    return said


def answered_elsewhere(silent: list[str], captures: dict[str, Classic],
                       program: Program) -> dict[tuple[str, int], list[int]]:
    """What servers say in others of the requests of captures in which none is heard."""
    asked, said = dict[str, list[bytes]](), dict[bytes, int]()
    for name in silent:
        asked[name] = own = list[bytes]()
        program.blocks(lambda block: own.extend(ASKED.findall(block)), "list", captures[name].path)
    wanted = {stamp for own in asked.values() for stamp in own}
    for name in captures.keys() - asked.keys() if wanted else ():
        program.blocks(lambda block: said.update((stamp, int(time)) for stamp, time in ANSWERED.findall(block)
                                                 if stamp in wanted), "list", captures[name].path)
    return {(name, side): times for name, own in asked.items()
            if (times := [said[stamp] for stamp in own if stamp in said]) for side in (0, 1)}


def by_number(name: str) -> list[str | int]:
    """What puts names in order, as f.pcap2 before f.pcap10."""
    return [int(word) if number % 2 else word for number, word in enumerate(re.split("([0-9]+)", name))]


def thinned(whole: AuditedCapture, claim: Claim, program: Program) -> AuditedCapture:
    """The capture without what can't be of an exchange of the claim's client with its servers, if it has more records
    than the program takes, or great ones: what comes from afar can't make a day too big. The program's own listing says
    which are its requests, and which answer one, some at a time; these are kept as they were recorded."""
    capture = Classic(whole.path, whole.extent)
    if len(capture.extent.stamps) < classic.MAX_RECORDS and capture.size < MAX_UNTHINNED:
        return whole
    client, servers = re.escape(claim.client), "|".join(map(re.escape, claim.servers))
    request = re.compile(rf"(?m)^(\d+) \S+ ({client}:\d+) ((?:{servers}):\d+) \S+ m3 (?:\S+ ){{8}}(\S+) (\S+)".encode())
    reply = re.compile(rf"(?m)^(\d+) \S+ ((?:{servers}):\d+) ({client}:\d+) \S+ m4 (?:\S+ ){{7}}(\S+)".encode())
    asked, dropped, end = set[tuple[bytes, ...]](), 0, HEADER

    def listed(take: Callable[[bytes], None]) -> Iterator[list[classic.Row]]:
        rows = capture.rows()
        while some := list(islice(rows, MANY)):
            write(PART, [capture.data[:HEADER], capture.data[some[0][1] : some[-1][2]]])
            ROOM.take(some[0][1] - some[-1][2])  # (the next part takes the same room)
            program.blocks(take, "list", PART)
            yield some

    def ask(block: bytes) -> None:
        for _, source, server, *stamps in request.findall(block):
            if len(asked) < classic.MAX_RECORDS:
                asked.update((source, server, stamp) for stamp in stamps if stamp.strip(b"0"))

    def kept() -> Iterator[bytes]:
        nonlocal dropped, end
        numbers = list[int]()

        def take(block: bytes) -> None:
            numbers_in = [int(one[0]) for one in request.findall(block)]
            numbers_in += (int(one[0]) for one in reply.findall(block) if (one[2], one[1], one[3]) in asked)
            numbers.extend(sorted(numbers_in))
        yield capture.data[:HEADER]
        for some in listed(take):
            dropped, end = dropped + len(some) - len(numbers), some[-1][2]
            yield from (capture.data[some[number][1] : some[number][2]] for number in numbers)
            numbers.clear()
    for _ in listed(ask):
        pass
    write(THINNED, kept())
    if end != capture.size:
        raise fault(f"the capture is damaged from byte {end} on, so it can't be thinned out")
    if not dropped:
        return whole
    move(THINNED, JOINED)
    return AuditedCapture(JOINED, True, [*whole.alerts, Figure("flood", dropped)], None, whole.paths)


def open_capture(name: str, copy: str) -> Opened:
    """The classic capture that a copy holds."""
    path, torn = unpacked(name, copy)
    if begins(path, pcapng.MAGIC):
        torn = pcapng.convert(name, mapped(path), f"{copy}.classic")
        path = f"{copy}.classic"
    capture = Classic(path)
    end = capture.extent.end
    if capture.is_one and capture.is_torn(end):
        cut_off(path, end)
        torn = end if torn is None else torn
    return Opened(path, torn, capture.extent)


def begins(path: str, magic: bytes) -> bool:
    """Whether a private copy begins with these bytes."""
    with own(path) as opened:
        return opened.read(len(magic)) == magic


def unpacked(name: str, copy: str) -> tuple[str, int | None]:
    """What a copy holds, in a file beside it if it is packed; and its size if it was cut off."""
    if not is_packed(copy):
        return copy, None
    with Copy(f"{copy}.unpacked") as new:
        is_whole = unpack(name, copy, new.take)
    return new.path, None if is_whole else new.size


def sum_of_unpacked(name: str, copy: str) -> str:
    """The SHA-256 of what a copy holds."""
    digest = sha256()
    if is_packed(copy):
        unpack(name, copy, digest.update)
    return digest.hexdigest() if is_packed(copy) else sum_of_file(copy)


def are_unpacked_at_once(copies: dict[str, str]) -> bool:
    """Unpacks copies, each into the file that is named, by one call of zstd: a call for each of a day's hours takes
    longer than the hour. False if they aren't as large as they say of themselves, or don't say it."""
    sizes = [size_said(copy) for copy in copies]
    if not sizes or 0 in sizes or max(sizes) > MAX_AT_ONCE or sum(sizes) > MAX_OF_A_CAPTURE:
        return False
    with suppress(Fault), closing(parted(dict(zip(copies.values(), sizes)))) as parts:
        next(parts)
        status, _ = stream([find_tool("zstd", NO_ZSTD), "-dcq", "--", *copies], parts.send)
        return not status and not parts.send(b"")
    return False


def parted(sizes: dict[str, int]) -> Generator[int, bytes, None]:
    """Writes what is sent into files of these sizes, one after the other, and says how many aren't whole yet."""
    block = yield len(sizes)
    for number, (path, size) in enumerate(sizes.items()):
        with Copy(path) as copy:
            while copy.size < size:
                part = block[: size - copy.size]
                copy.take(part)
                block = block[len(part):] or (yield len(sizes) - number - (copy.size == size))
    while not block:
        block = yield 0
    raise fault("packed files hold more than they say")


def size_said(copy: str) -> int:
    """How large a file is that zstd packed, by its own word (RFC 8878, section 3.1.1.1); 0 if it doesn't say it."""
    with own(copy) as opened:
        head = opened.read(18)
    kind = head[4] if len(head) == 18 and head[:4] == ZSTD else 0
    at = 5 + (not kind & 32) + (0, 1, 2, 4)[kind & 3]
    width = (kind >> 5 & 1, 2, 4, 8)[kind >> 6]
    return int.from_bytes(head[at:at + width], "little") + (256 if width == 2 else 0)


def is_packed(copy: str) -> bool:
    """Whether a private copy is packed, by how it begins."""
    return begins(copy, GZIP) or begins(copy, ZSTD)


def unpack(name: str, copy: str, take: Callable[[bytes], object]) -> bool:
    """Hands on what a packed copy holds, up to the size of a capture. Whether it is whole."""
    size = 0

    def take_some(block: bytes) -> None:
        nonlocal size
        size += len(block)
        if size > MAX_OF_A_CAPTURE:
            raise too_big(name, MAX_OF_A_CAPTURE)
        take(block)
    return (gunzip if begins(copy, GZIP) else unzstd)(name, copy, take_some)


def gunzip(name: str, copy: str, take: Callable[[bytes], None]) -> bool:
    """Unpacks the parts of a file, one after the other, and no more at once than a block. Whether the last is whole."""
    packed, rest = zlib.decompressobj(wbits=31), b""
    with own(copy) as opened:
        while block := rest or opened.read(BLOCK):
            if packed.eof:
                packed = zlib.decompressobj(wbits=31)
            try:
                take(packed.decompress(block, BLOCK))
            except zlib.error:
                raise fault(f"{name} can't be unpacked: its gzip is damaged") from None
            rest = packed.unused_data.lstrip(b"\0") if packed.eof else packed.unconsumed_tail
    take(packed.flush())
    return packed.eof


def unzstd(name: str, copy: str, take: Callable[[bytes], None]) -> bool:
    """Unpacks a private copy by zstd, and hands on its blocks."""
    tool = find_tool("zstd", f"{name} {NO_ZSTD}")
    status, error = stream([tool, "-dcq", "--", copy], take)
    if status:
        said = error.decode("utf-8", "replace").splitlines() or [f"status {status}"]
        raise fault(f"{name} can't be unpacked ({said[0].replace(copy, name)})")
    return True


def near(claim: Claim) -> tuple[int, int]:
    """Between which Unix seconds records speak about a span: not across the end of a half-year, where a leap second may
    be, unless the span itself comes so far."""
    first, last, far = claim.first, claim.last, claim.bound_ns // SECOND + 3
    ends = [end for end in (first // DAY * DAY, ceil_div(last, DAY) * DAY) if day_of(end)[5:] in HALVES]
    return (max([first - MARGIN, *(end + far for end in ends if end + far <= first)]),
            min([last + MARGIN, *(end - far for end in ends if last <= end - far)]))


def cut(path: str, parts: list[Part], extent: Extent | None) -> Iterator[Callable[[str], bool]]:
    """Of each part a way to write what was recorded in its span, and near it, to a file; False if that is all there is,
    and nothing is written."""
    whole = Classic(path, extent)
    spans = [near(part.claim) for part in parts]
    if extent and extent.stamps and len(spans) == 1:
        first, last = whole.nanoseconds([min(extent.stamps), max(extent.stamps)])
        if spans[0][0] * SECOND <= first and last <= spans[0][1] * SECOND:
            yield lambda _: False
            return
    for runs in runs_of(whole, spans):
        yield partial(put, whole, runs)


def around(whole: Classic, falls: list[int], part: Part) -> Callable[[str], bool]:
    """A way to write what `cut` writes of a part, the records that were made next to any of it, before and after, and
    some of all others; False if there are no more: a clock that shows other hours may have come to them in between."""
    stamps, more, each = whole.extent.stamps, NEXT * len(part.claim.servers), EACH * len(part.claim.servers)
    first, last = (max(0, second) << 32 for second in near(part.claim))
    count, runs, begin = 0, list[list[int]](), 0
    for end in [*falls, len(stamps)]:
        own = [bisect_left(stamps, first, begin, end), bisect_right(stamps, last, begin, end)]
        if own[0] < own[1]:
            count += own[1] - own[0]
            runs.append([max(0, own[0] - more), min(len(stamps), own[1] + more)])
        begin = end
    blocks = min(BLOCKS, len(stamps) // each + 1)
    runs += [[at, min(len(stamps), at + each)] for at in (k * len(stamps) // blocks for k in range(blocks))]
    kept = sorted({record for begin, end in runs for record in range(begin, end)})
    if not count or len(kept) == count:
        return lambda _: False
    begins = [begin for _, begin, _ in whole.rows()] + [whole.extent.end]

    def write_to(path: str) -> bool:
        write(path, chain([whole.data[:HEADER]], (whole.data[begins[k] : begins[k + 1]] for k in kept)))
        return True
    return write_to


def falls_in(stamps: array[int]) -> list[int]:
    """The records whose times are before those of the records before them; none if there are many."""
    falls = [] if do_rise(stamps) else [k for k in range(1, len(stamps)) if stamps[k] < stamps[k - 1]]
    return falls if len(falls) <= MAX_FALLS else []


def put(whole: Classic, runs: Runs, path: str) -> bool:
    """Writes runs of a capture; False if they are all of it, and nothing is written."""
    if runs == [[HEADER, whole.size]] or whole.size <= HEADER:
        return False
    write(CUT, (whole.data[begin:end] for begin, end in [[0, HEADER], *runs]))
    move(CUT, path)  # (it may be the place of what it is cut of)
    return True
