"""The last minutes that a recorder wrote, as one capture in the order in which they were written.

Which file is the newest is told by what was written last. The recorder says in which order it began its files; of
others it is told by when something was written, if that fits the file's own records: else it is a copy, and as old as
these. A file from later than the machine's clock comes last, and is told of. How far back a record lies is the time
that went by between it and the next, and so on.
"""
from collections.abc import Iterable, Iterator
from typing import NamedTuple

from ..fault import Fault
from ..folder.files import Folder
from ..folder.placing import keep
from ..units import SECOND
from .classic import HEADER
from .recorder import RecorderFile
from .tail import Ending, Growing

MAX_READ = 64_000_000
"""Bytes that are read of a recorder's files."""
LOOKED_AT = 8
"""Files whose records are held to the time when something was written last."""
FITS, AHEAD = 60, 2
"""Seconds by which that may come after the last record, and by which a record may be later than now."""
GAP = 60
"""Seconds as which a gap counts at the most, or a quarter of all that are wanted."""
ALIKE = 2000
"""Bytes at a file's end by which it is known as a copy of another's begin."""
LATEST = "latest.pcap"
"""A private file."""


class Latest(NamedTuple):
    """The private capture of the last minutes; the Unix second of the last record that was written, 0 if there is none;
    and by how many seconds records are later than the machine's clock."""

    path: str
    last: int
    ahead: int


def latest(folder: Folder, files: Iterable[RecorderFile], order: list[str], seconds: int, now: int,
           bad: list[str]) -> Latest:
    """Of a recorder's files, and the order in which it says that it began them. What can't be read is left out, and
    its fault is kept, and so is a copy of another's begin."""
    endings, header, ahead = list[Ending](), b"", 0
    for file, at in in_order(folder, files, order, now, bad):
        ahead = max(ahead, at - now)
        left, room = seconds - sum(one.seconds for one in endings), MAX_READ - sum(len(one.data) for one in endings)
        if left <= 0 or header and file.header != header:
            continue
        own = file.ending(left, max(GAP, seconds // 4), room, bad)
        if own and not any(own.data[-ALIKE:] in one.data for one in endings):
            endings = [own, *(one for one in endings if one.data[-ALIKE:] not in own.data)]
            header, ahead = file.header, max(ahead, own.latest - now)
    if endings:
        keep(LATEST, header + b"".join(one.data for one in endings))
    return Latest(LATEST, endings[-1].last if endings else 0, ahead if ahead > AHEAD else 0)


def in_order(folder: Folder, files: Iterable[RecorderFile], order: list[str], now: int,
             bad: list[str]) -> Iterator[tuple[Growing, int]]:
    """The files, the newest first, but those that were only just begun; each with the time at which it was written
    last, if that is later than now."""
    place = {name: number for number, name in enumerate(order)}
    growing = list[tuple[int, bool, int, int, Growing]]()
    for number, one in enumerate(sorted(files, reverse=True, key=lambda one: (
            place.get(one.name, -1), folder.written_ns(one.name), one.begun, one.number))):
        try:
            if folder.size(one.name) < HEADER:
                continue
            file, at = Growing(folder, one.name), folder.written_ns(one.name) // SECOND
            if not order and number < LOOKED_AT and abs(at - (last := file.last(MAX_READ))) > FITS:
                at = last
            growing.append((place.get(one.name, -1), at <= now + AHEAD, at, -number, file))
        except Fault as wrong:
            bad.append(wrong.line)
    for _, is_past, at, _, file in sorted(growing, key=lambda one: one[:4], reverse=True):
        yield file, 0 if is_past or order else at
