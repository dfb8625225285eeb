"""The list of leap seconds, as the IERS publishes it and systems keep it: read, and looked up over a stretch of time.

Only one's own list counts: the system's, or one that is named here. Which one an audit was made by stands in
audit.json; whoever looks at it later looks the span up in a list of his own.
"""
import hashlib
import json
import os
from collections.abc import Iterable, Iterator
from typing import Final

from ..fault import Fault, fault
from ..folder.claim import Claim
from ..folder.entry import (AGAINST, OF_LEAPS, UNSUPPORTED, YES, Alert, Bare, Cause, Entry, Leap, LeapList,
                            LeapSeconds, ListEnds, Record)
from ..folder.files import data_named
from ..records import replace
from ..schema import said, typed
from ..units import SECOND

SYSTEM = os.environ.get("NTPAUDIT_LEAP_SECONDS") or "/usr/share/zoneinfo/leap-seconds.list"
"""The system's list, or the one that the environment names."""
FROM_1900 = 2_208_988_800
"""Seconds from 1900, by which lists count, to 1970."""

NONE: Final = "none"
WITHIN: Final = "within"
EXPIRED: Final = "expired"
NO_LIST: Final = "no list"


def read_list(path: str | None) -> LeapList:
    """What a list says; or, if none is named and the system has none, why not. A list that is named has to be one."""
    try:
        return list_of(path or SYSTEM)
    except Fault as error:
        if path is not None:
            raise
        return LeapList(SYSTEM, fault=error.words)


def list_of(path: str) -> LeapList:
    """The list that a file has; a fault if it is none."""
    try:
        data = data_named(path)
    except Fault as error:
        raise error.of("the list of leap seconds") from None
    try:
        good_until, seconds = parsed(data.decode("utf-8"))
        own = LeapList(path, "", hashlib.sha256(data).hexdigest(), good_until, seconds)
        typed(LeapList, json.loads(json.dumps(said(own))))
    except (ValueError, IndexError):
        raise fault("the list of leap seconds isn't one") from None
    return own


def parsed(text: str) -> tuple[int, list[tuple[int, int]]]:
    """Until when a list is good, in Unix seconds, and its leap seconds: where the day after each begins, and by how
    much UTC fell behind. A ValueError if it isn't whole: a list has a sum of its own."""
    good_until, own, words = None, None, []
    rows: list[tuple[int, int]] = []
    for line in text.splitlines():
        if line.startswith("#h"):
            own = [int(word, 16) for word in line[2:].split()]
        elif line.startswith(("#$", "#@")):
            words.append(line[2:].strip())
            good_until = int(words[-1]) - FROM_1900 if line.startswith("#@") else good_until
        elif line.strip() and not line.startswith("#"):
            row = line.split("#")[0].split()
            words += row
            rows.append((int(row[0]) - FROM_1900, int(row[1])))
    digest = hashlib.sha1("".join(words).encode(), usedforsecurity=False).hexdigest()
    if good_until is None or own != [int(digest[k : k + 8], 16) for k in range(0, 40, 8)] or rows != sorted(rows):
        raise ValueError
    return good_until, [(time, offset - before) for (_, before), (time, offset) in zip(rows, rows[1:])]


def stretch(claim: Claim, exchanges: Iterable[int]) -> tuple[int, int]:
    """The first and the last whole Unix second of the span and of all exchanges, whose times are given in nanoseconds,
    wider by the claimed bound."""
    times = [claim.first * SECOND, claim.last * SECOND, *exchanges]
    return -((claim.bound_ns - min(times)) // SECOND), (max(times) + claim.bound_ns) // SECOND


def look_up(leaps: LeapList, begin: int, end: int) -> Leap:
    """What a list says of such a stretch."""
    if leaps.fault:
        return Leap(NO_LIST, begin, end)
    within = [row for row in leaps.seconds if begin <= row[0] and row[0] - 1 <= end]
    if within:
        return Leap(WITHIN, begin, end, within)
    return Leap(NONE if end < leaps.good_until else EXPIRED, begin, end)


def alerts_of(leap: Leap, leaps: LeapList) -> Iterator[Alert]:
    """What takes a yes away."""
    if leap.says == WITHIN:
        yield LeapSeconds("leap-second", leap.seconds)
    if leap.says == EXPIRED:
        yield ListEnds("leap-ends", max(0, leaps.good_until) * SECOND)
    if leap.says == NO_LIST:
        yield Bare("no-list")


def entry_by(leaps: LeapList, entry: Entry) -> Entry:
    """An entry by a list: its yes is one if nothing speaks against it. (The stretch may be a stranger's word.)"""
    first, last, stretched = entry.claim.first, entry.claim.last, entry.leap
    leap = replace(look_up(leaps, min(stretched.from_, first), max(stretched.to, last)), from_=stretched.from_,
                   to=stretched.to)
    warned = [warning for warning in entry.warnings if warning.kind not in OF_LEAPS]
    warned += alerts_of(leap, leaps)
    if entry.answer != YES:
        return replace(entry, leap=leap, warnings=warned)
    is_yes = not any(warning.kind in AGAINST for warning in warned)
    return replace(entry, leap=leap, warnings=warned, verdict=YES if is_yes else UNSUPPORTED,
                   reason=None if is_yes else Cause("evidence"))


def record_by(leaps: LeapList, record: Record, signer: str = "") -> Record:
    """A record by a list, whatever list its audit was made by. If it counts by a signature, no yes comes of what was
    signed as unsupported."""
    if record.refusal:
        return record
    return replace(record, leap_seconds=leaps, entries=[
        entry if signer and entry.verdict == UNSUPPORTED else entry_by(leaps, entry) for entry in record.entries])
