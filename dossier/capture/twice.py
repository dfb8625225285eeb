"""Captures in which a packet is there more than once: of two interfaces, of one file of all of them, or of a copy
beside its original, packed, cut, or in other units.

A reply to a request that was recorded twice may be the answer to either, so nothing follows from it, and whatever the
clock did then would be hidden. So each packet counts once: a request by its earliest stamp, and a reply by its latest.
That holds by each of the stamps. If they differ by more than the bound, they aren't of one clock.
"""
import re
from collections.abc import Container, Iterator
from contextlib import suppress

from ..fault import Fault
from ..folder.answers import read_counts
from ..folder.entry import Again
from ..folder.files import CLAIM, JOINED, mapped
from ..folder.placing import move
from ..folder.program import Program
from .captures import AuditedCapture
from .classic import HEAD, HEADER, Classic, write
from .recording import closing_of
from .traffic import NONE

PACKET = re.compile(rb"(?m)^(\d+) \S+ (\S+ \S+ )\S+ m([34]) (?:\S+ ){7}(\S+ \S+ )(\S+)")
"""A line of `list`: the record's number, who sent it to whom, its mode, origin and receive timestamp, and transmit
timestamp: of a client's requests no two have that in common."""
ONCE = "once.pcap"
"""A private file."""


def once(whole: AuditedCapture, program: Program) -> AuditedCapture:
    """The capture in which each packet is there once: looked for if a reply of the claim's servers may be one to two
    requests, and in what isn't one recording after the other."""
    if whole.extent and not is_ambiguous(program, whole.path):
        return whole
    capture = Classic(whole.path, whole.extent)
    again, stamps = repeated(program, capture), capture.extent.stamps
    if not again:
        return whole
    times = (capture.nanoseconds([stamps[left], stamps[kept]]) for left, kept in again.items())
    spread = max(abs(one - other) for one, other in times)
    file, beside, *_ = *having(whole, capture, min(again)), ""
    write(ONCE, without(capture, again))
    move(ONCE, JOINED)
    return AuditedCapture(JOINED, True, [*whole.alerts, Again("twice", len(again), file, beside, spread)], None)


def repeated(program: Program, capture: Classic) -> dict[int, int]:
    """The records of a capture that don't count, since their packet is there once more; and the one that does."""
    kept, again, stamps = dict[bytes, int](), dict[int, bytes](), capture.extent.stamps

    def take(block: bytes) -> None:
        for number, ends, mode, others, transmit in PACKET.findall(block):
            key = ends + (b"" if mode == b"3" else others) + transmit
            if transmit == NONE.encode() or (other := kept.setdefault(key, int(number))) == int(number):
                continue
            of = sorted((other, int(number)), key=stamps.__getitem__)
            kept[key], left = of if mode == b"3" else reversed(of)
            again[left] = key
    program.blocks(take, "list", capture.path)
    return {left: kept[key] for left, key in again.items()}


def without(capture: Classic, again: Container[int]) -> Iterator[bytes]:
    """A capture without some records."""
    yield capture.data[:HEADER]
    yield from (capture.data[begin:end] for number, (_, begin, end) in enumerate(capture.rows()) if number not in again)


def is_ambiguous(program: Program, capture: str) -> bool:
    """Whether a reply may be one to two requests, or there is more than can be said at once."""
    last = b""

    def take(block: bytes) -> None:
        nonlocal last
        last = block
    with suppress(Fault):
        program.blocks(take, "samples", CLAIM, capture)
        return bool(read_counts(last[closing_of(last):].decode("ascii"))["ambiguous"])
    return True


def having(whole: AuditedCapture, capture: Classic, record: int) -> list[str]:
    """The files that have a record's packet."""
    _, begin, end = next(row for number, row in enumerate(capture.rows()) if number == record)
    return [name for name, path in whole.paths.items() if len(whole.paths) == 1 or
            mapped(path).find(capture.data[begin + HEAD : end]) >= 0]
