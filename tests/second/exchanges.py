"""Exchanges out of a listing: what `list` prints of a capture, paired as sections 8 and 9 of docs/DEFINITIONS.md say.

This shares nothing with the program, and it pairs replies with requests by looking at all of them.
"""
from collections import Counter
from typing import NamedTuple

from tests.second import answers, rules
from tests.second.claims import Claim
from tests.second.columns import LISTING, TICKS, counted
from tests.second.rules import Sample

STAMPS = 2**64
FROM_1900_TO_1970 = 2_208_988_800
MAX_PRECISION = 16


class Packet(NamedTuple):
    """A line of `list`, its addresses and ports parted."""
    number: int
    source: list[str]
    destination: list[str]
    version: str
    mode: str
    leap: str
    stratum: int
    precision: int
    distance: int
    origin: str
    receive: str
    transmit: str
    low: int
    high: int


def read_packet(line: str) -> Packet:
    """The packet of a line; a root distance of 0 where the precision is one that no reply may have."""
    f = dict(zip(LISTING, line.split(" "), strict=True))
    precision = int(f["precision"][1:])
    rest = int(f["delay"]) * 2**15 + int(f["dispersion"]) * 2**16
    return Packet(int(f["record"]), f["source"].split(":"), f["destination"].split(":"), f["version"], f["mode"],
                  f["leap"], int(f["stratum"][1:]), precision,
                  0 if precision > MAX_PRECISION else rest + 2 ** max(0, 32 + precision), f["origin"], f["receive"],
                  f["transmit"], int(f["first"]), int(f["last"]))


def unfold(stamp: str, near: int) -> int:
    in_era_0 = int(stamp, 16) - FROM_1900_TO_1970 * TICKS
    return next(s for k in range(-1, 3) if near - STAMPS // 2 <= (s := in_era_0 + k * STAMPS) < near + STAMPS // 2)


def reason_of(reply: Packet, requests: list[Packet]) -> str | Packet:
    """The first reason to refuse a reply, or its request."""
    zero = 16 * "0"
    if reply.version != "v4":
        return "version"
    if reply.leap == "l3":
        return "leap"
    if not 1 <= reply.stratum <= 15:
        return "stratum"
    if reply.precision > MAX_PRECISION:
        return "precision"
    if zero in (reply.origin, reply.receive, reply.transmit):
        return "zero"
    found = [request for request in requests if request.destination[0] == reply.source[0]
             and request.source[1] == reply.destination[1] and request.transmit == reply.origin]
    return found[0] if len(found) == 1 else "ambiguous" if found else "norequest"


def sample_of(claim: Claim, request: Packet, reply: Packet) -> Sample:
    t2, t3 = (unfold(stamp, request.low) for stamp in (reply.receive, reply.transmit))
    return Sample(claim["servers"].index(reply.source[0]), rules.allowed(claim, request.low, request.high),
                  rules.allowed(claim, reply.low, reply.high), t2, t3, reply.distance)


def collect(claim: Claim, packets: list[Packet], records: int) -> tuple[dict[tuple[int, int], Sample], str]:
    """The samples, each with the numbers of its two records, and the line of counts."""
    requests = [p for p in packets if p.source[0] == claim["client"] and p.destination[0] in claim["servers"]
                and p.destination[1] == "123" and p.mode == "m3" and p.version == "v4"]
    replies = [p for p in packets if p.source[0] in claim["servers"] and p.source[1] == "123"
               and p.destination[0] == claim["client"] and p.mode == "m4"]
    counts, samples = Counter[str](), dict[tuple[int, int], Sample]()
    for reply in replies:
        found = reason_of(reply, requests)
        if isinstance(found, str):
            counts[found] += 1
        else:
            samples[found.number, reply.number] = sample_of(claim, found, reply)
            counts["warnings"] += reply.leap in ("l1", "l2")
    return samples, counted(records=records, requests=len(requests), replies=len(replies), samples=len(samples),
                            **counts)


def evidence_of(claim: Claim, listing: bytes) -> answers.Evidence:
    """What a listing says about a claim."""
    *lines, closing = listing.decode().splitlines()
    samples, counts = collect(claim, [read_packet(line) for line in lines], int(closing.split()[1]))
    return answers.by_rules(claim, list(samples.values()), list(samples), counts)
