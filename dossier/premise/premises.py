"""What a claim grants: the premises of every yes, for a person to sign. They are those of docs/THEOREM.md, with the
claim's numbers. And what stands beside a person's word for one: what was looked up, measured, or read of the client.
"""
from collections.abc import Iterator

from ..folder.claim import Claim
from ..folder.entry import Entry, LeapList, Record
from ..records import dataclass
from ..units import civil, ns_ms, shown_time
from .backing import Backing
from .leap import EXPIRED, NONE
from .tracking import in_words as log_in_words


@dataclass(frozen=True)
class Premise:
    name: str
    granted: str
    known: str


def premises(claim: Claim) -> list[Premise]:
    """The premises of a claim, in their order."""
    most, groups = claim.false_max, len(claim.grouped)
    by = f", by more than {ns_ms(claim.reading_ns)} ms (reading_ns)" if claim.reading_ns else " (reading_ns is 0)"
    wrong = f"At most {most} of {groups} groups of servers held one that was wrong, or whose packets somebody " \
            "altered (false_max, groups)." if most \
        else "No server was wrong, and nobody altered any packets (false_max is 0)."
    return [
        Premise("reading", f"By the clock of {claim.client} no request left before its record's time, and no reply "
                f"arrived after its record's time{by}.",
                "By what it was recorded, on that machine, with stamps of which kind (GUIDE.md has a table)."),
        Premise("capture", "The capture is what passed: nobody made up or changed packets, times or order.",
                "Who recorded it, and who kept it since; a signature over the file."),
        Premise("servers", wrong, "How the servers are run and by whom; servers of one reference are in one group."),
        Premise("distance", "The other servers' clocks were within their announced root distance of UTC.",
                "Their operators, and their own traceability to UTC."),
        Premise("answers", "A reply with a request's transmit timestamp is the answer to that request.",
                "The servers speak NTP version 4 in client and server mode; the timestamps of requests differ."),
        Premise("drift", f"The clock gained or lost at most {claim.drift_ppb:,} parts in 10^9 (drift_ppb), and wasn't "
                "stepped, in the span and between it and the exchanges that are used.",
                "The oscillator's data sheet; the configuration and the log of the NTP client."),
        Premise("leap", "There is no leap second in the span or between it and the exchanges that are used, and no "
                "server smears one without being counted as wrong.",
                "The bulletins of the IERS."),
    ]


MORE = "That is more than the claim grants.", ""


def support(name: str, evidence: Backing, record: Record, entry: Entry) -> Iterator[tuple[str, str]]:
    """The sentences for a premise, each with what leads to it."""
    if name == "leap" and record.leap_seconds:
        yield ("Looked up:", looked_up(record.leap_seconds, entry))
    for recorded in evidence.recorded if name == "reading" else ():
        yield ("Recorded:", recorded.sentence())
    for measured in evidence.measured if name == "reading" else ():
        yield ("Measured:", measured.sentence())
        if measured.greatest_ns > entry.claim.reading_ns:
            yield MORE
    for log in evidence.logs if name == "drift" else ():
        if not any(read.tracking is log for read in evidence.read):
            yield ("Read:", log_in_words(log))
    for read in evidence.read if name == "drift" else ():
        yield ("Read:", " ".join(read.sentences()))
        if read.drift_ppb > entry.claim.drift_ppb:
            yield MORE
        if cautions := read.cautions(entry.leap.from_, entry.leap.to):
            yield ("To be seen to:", " ".join(cautions))


def looked_up(leaps: LeapList, entry: Entry) -> str:
    """What the list of leap seconds says."""
    leap = entry.leap
    over = f"from {shown_time(leap.from_)} to {shown_time(leap.to)}"
    if leaps.fault:
        return f"nothing, since {leaps.fault} ({leaps.file})."
    of = f"the list {leaps.file} (SHA-256 {leaps.sha256[:16]} and on)"
    until = civil(leaps.good_until)[:10]
    if leap.says == NONE:
        return f"no leap second {over}, by {of}, which is good until {until}."
    if leap.says == EXPIRED:
        return f"nothing is known {over}: {of} was good until {until} only."
    return f"{named(leap.seconds)} {over}, by {of}."


def named(seconds: list[tuple[int, int]]) -> str:
    """Leap seconds by their days."""
    return " and ".join(f"{'a leap second' if change > 0 else 'a second left out'} at the end of {civil(end - 1)[:10]}"
                        for end, change in seconds)
