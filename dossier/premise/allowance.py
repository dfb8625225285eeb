"""What a draft proposes as `reading_ns`, and why: how far a record's time may be on the side that can hurt."""
from __future__ import annotations

from collections.abc import Callable
from typing import TYPE_CHECKING, NamedTuple

from ..folder.claim import UNKNOWN_READING

if TYPE_CHECKING:
    from ..capture.recorder import Recorder
    from .measurement import Measurement

SLIP = 1000
"""Below this, and above 0, a number was most likely meant in microseconds."""
TABLE = 'docs/GUIDE.md, "What to claim"'


class Allowance(NamedTuple):
    ns: int
    why: str


Proposal = Callable[[str], Allowance]
"""What is proposed for a client, by its address."""


def named(ns: int) -> Proposal:
    return lambda _: Allowance(ns, f"as named. {TABLE}, says for each kind of stamp whether it is enough.")


def measured(measurement: Measurement) -> Proposal:
    return lambda _: Allowance(measurement.reading_ns, f"{measurement.sentence()} That is of tcpdump's own stamps on "
                               f"that machine, the line `host` of {TABLE}.")


def proposed(recorders: list[Recorder] | None) -> Proposal:
    """0 where evidence beside the captures says that the client's own kernel made their stamps. Whoever drafts a claim
    answers for it, and so for what stands beside his captures: it is taken as his word."""
    def of_client(client: str) -> Allowance:
        if not recorders or not all(client in recorder.addresses for recorder in recorders):
            return Allowance(UNKNOWN_READING, f"since nothing says that {client} itself recorded it, nor by what. Look "
                             f"it up in {TABLE}: 0 in the line `host`, if it was tcpdump there, under Linux.")
        said = " ".join(recorder.sentence() for recorder in recorders)
        return Allowance(0, f"{said} Such stamps come before a request leaves and after a reply has arrived; {TABLE}, "
                         "line `host`, has what can break that. It stands in evidence.json beside what was recorded: "
                         "if you don't know who wrote that, claim 100000 by --reading-ns.")
    return of_client


def slip(ns: int) -> str:
    """What is asked about a number that looks like one of microseconds; nothing of any other."""
    return f"reading_ns is {ns} ns; did you mean {ns * 1000}?" if 0 < ns < SLIP else ""
