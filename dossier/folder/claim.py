"""A claim, as claim.json has it: read into a record, cut into days, and written for the program."""
import json
from collections.abc import Iterator
from typing import Annotated

from ..fault import fault
from ..records import dataclass, field, replace
from ..schema import Address, Small, Time, length, said, within
from ..units import DAY, civil, day_of, seconds_of

MAX_BOUND, MAX_DRIFT = 10**15, 500_000_000
"""What a claim can grant, in nanoseconds and in parts of 10^9."""
OSCILLATOR = 100_000
"""Parts in 10^9 by which an oscillator alone gains or loses at most, by most data sheets."""
UNKNOWN_READING = 100_000
"""Nanoseconds of a reading allowance that are proposed where nothing is known of the stamps."""
MAX_DAYS_OF_A_SPAN = 1100
"""Of a span that is audited day by day."""
COMPACT = json.JSONEncoder(separators=(",", ":"))


@dataclass(frozen=True)
class Claim:
    client: Address
    servers: Annotated[list[Address], length(1, 32)]
    false_max: Small
    from_: Time
    to: Time
    bound_ns: Annotated[int, within(0, MAX_BOUND)]
    drift_ppb: Annotated[int, within(0, MAX_DRIFT)]
    reading_ns: Annotated[int, within(0, 10**9)]
    groups: list[list[Small]] = field(default_factory=list)

    @property
    def first(self) -> int:
        """Where the span begins, in Unix seconds."""
        return seconds_of(self.from_)

    @property
    def last(self) -> int:
        return seconds_of(self.to)

    @property
    def grouped(self) -> list[list[int]]:
        """The servers' numbers, group by group."""
        return self.groups or [[k] for k in range(len(self.servers))]

    @property
    def needed(self) -> int:
        """How many groups have to be heard to outvote those that may be wrong."""
        return 2 * self.false_max + 1

    @property
    def text(self) -> bytes:
        return COMPACT.encode(said(self)).encode() + b"\n"


@dataclass(frozen=True)
class Part:
    """A claim to be settled, and the folder in which its files are: `.`, or one of a day."""

    name: str
    claim: Claim

    def within(self, name: str) -> str:
        """A file of this part, seen from the folder of the record."""
        return name if self.name == "." else f"{self.name}/{name}"


def parts_of(claim: Claim, days: bool) -> Iterator[Part]:
    """The claim as it stands, or a claim for each day (UTC) of its span. A day ends with the moment at which the next
    begins, so that no moment is left out."""
    if not days:
        yield Part(".", claim)
        return
    if claim.last - claim.first > MAX_DAYS_OF_A_SPAN * DAY:
        raise fault(f"the span has more than {MAX_DAYS_OF_A_SPAN:,} days: audit fewer at once")
    begin = claim.first
    while begin < claim.last or begin == claim.first:
        end = min(claim.last, begin - begin % DAY + DAY)
        yield Part(day_of(begin), replace(claim, from_=civil(begin), to=civil(end)))
        begin = end
        if claim.first == claim.last:
            return
