"""Times in which no server was heard for longer than usual."""
from itertools import pairwise
from operator import sub

from ..capture.recording import Recording
from ..folder.claim import Claim
from ..folder.entry import FEW, Gap
from ..units import SECOND

SILENCE, UNUSUAL = 60 * SECOND, 10
"""Servers are silent if none is heard for this time, and for so many times as long as usual."""


def gaps_of(claim: Claim, recording: Recording) -> list[Gap]:
    """The times within the span in which no server was heard for longer than usual, its begin and its end among
    them."""
    first, last, times = claim.first * SECOND, claim.last * SECOND, recording.times
    ends = [min(first, times[0]), *times, max(last, times[-1])] if times else []
    if max(map(sub, ends[1:], ends), default=0) <= SILENCE:
        return []
    wide = [(before, after) for before, after in pairwise(ends)
            if after - before > SILENCE and before < last and first < after]
    usual = sorted(map(sub, times[1:], times))[(len(times) - 1) // 2] if len(times) > 1 else 0
    return [(before, after) for before, after in wide if after - before > UNUSUAL * usual]


def inner_gaps(recording: Recording, gaps: list[Gap]) -> list[Gap]:
    """Those between samples."""
    times = recording.times
    return [gap for gap in gaps if times[0] <= gap[0] and gap[1] <= times[-1]]


def told_of(gaps: list[Gap], elsewhere: list[Gap]) -> list[Gap]:
    """The gaps in whose readings nothing was recorded elsewhere, where the clock showed the same again."""
    return [gap for gap in gaps if all(last < gap[0] or gap[1] < first for first, last in elsewhere)]


def longest_of(gaps: list[Gap]) -> list[Gap]:
    """The longest gaps, the longest first."""
    return sorted(gaps, key=lambda gap: (gap[1] - gap[0], gap), reverse=True)[:FEW]
