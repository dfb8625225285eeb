"""What an audit's answers come to: the verdict, why it isn't a yes, and what a reader has to be warned of.

This is a function of texts that the program printed; `verify` calls it again on texts of its own.
"""
from collections.abc import Iterator
from itertools import pairwise
from typing import NamedTuple

from ..capture.recording import Recording
from ..capture.traffic import Traffic, number_of
from ..folder.answers import Envelope, Settled, read_advice, read_settled
from ..folder.claim import MAX_DRIFT, OSCILLATOR, Claim, Part
from ..folder.entry import (FEW, NO_EVIDENCE, NOTHING_FITS, OPEN, REFUTED, YES, Again, Alert, AtTick, Bare, Between,
                            Caught, Cause, Conflict, Elsewhere, Entry, Falls, Far, Figure, ForATime, Gap, Gaps,
                            Hull, LeapList, Misfit, Move, OfServers, OneReference, Piece, Quiet, Reason, Server,
                            Silence, Silent, Stretch)
from ..premise.allowance import slip
from ..premise.backing import Backing, against
from ..premise.leap import entry_by, look_up, stretch
from ..units import SECOND, bound_ticks
from .apart import Apart, Time, are_in
from .gaps import gaps_of, inner_gaps, longest_of, told_of
from .seen import camps_of

FAR = 10
"""A piece is far from the samples if the nearest is farther than this part of the span."""
TOLD = "silence", "outside", "far"
"""Warnings that say less than a reason which names the gaps."""
MORE = 10
"""So many times the claim's drift is tried where nothing fits, or that of an oscillator alone."""


class Texts(NamedTuple):
    """What the program printed of one audit."""

    settled: bytes
    """The answer of `settle`."""
    report: bytes
    """What `check` says of its certificate, or `refute` of its refutation; else the answer itself."""
    other: bytes = b""
    """The answer of `settle` to another claim: at a yes with the bound 0, where nothing fits with more drift and
    the greatest bound."""
    spared: int = 0
    """Where nothing fits, with how many wrong groups a course of events fits, or the clock's moves are known."""
    conflicts: list[Conflict] = []
    moves: list[Move] = []
    parts: list[Stretch] = []
    """When the clock moved otherwise than the claim grants, and what holds between."""
    envelope: Envelope = Envelope([], [], [], {}, None, 0)
    apart: Apart = Apart([], [])
    elsewhere: list[Gap] = []
    """Of an answer by one stretch, from when to when the others were recorded."""
    gaps: list[tuple[Gap, str]] | None = None
    """Where nothing fits and the clock's moves are known, the gaps between them, each with what has its records."""
    silent: dict[Gap, Silence] = {}
    """What was recorded in each of the longest gaps."""
    traffic: Traffic | None = None
    """Who asks whom, by `list`, if there is no evidence, or many replies have no request."""


class Beside(NamedTuple):
    """What a verdict is seen beside: a list of leap seconds, the folder's own evidence, and what became of captures."""

    leaps: LeapList
    backing: Backing
    alerts: list[Alert]


def more_drift(claim: Claim) -> int:
    """The drift that is tried where nothing fits, in parts of 10^9."""
    return min(max(MORE * claim.drift_ppb, OSCILLATOR), MAX_DRIFT)


def judge(part: Part, recording: Recording, beside: Beside, texts: Texts, step: int,
          outputs: dict[str, str]) -> Entry:
    """The entry that the program's texts come to, beside what else is known."""
    claim, leap = part.claim, look_up(beside.leaps, *stretch(part.claim, recording.exchanges()))
    settled, envelope = read_settled(texts.settled), texts.envelope
    advice = read_advice(texts.report) if settled.answer == YES else {}
    servers = servers_of(claim, recording)
    gaps = told_of(gaps_of(claim, recording), texts.elsewhere)
    warned = [*beside.alerts, *warnings(claim, recording, texts, advice, gaps),
              *against(beside.backing, claim, leap, texts.moves)]
    if texts.traffic and (mode := texts.traffic.interleaving(claim.client, claim.servers)):
        warned.insert(0, OfServers("interleaved", mode))
    warned += [Figure("stamps", alert.spread) for alert in beside.alerts
               if isinstance(alert, Again) and alert.spread > claim.bound_ns]
    if 0 < claim.drift_ppb <= OSCILLATOR and not beside.backing.read:
        warned.append(Figure("oscillator", claim.drift_ppb))
    reason = reason_of(claim, settled, Grounds(servers, recording, gaps, texts))
    if isinstance(reason, (Gaps, Elsewhere)):
        warned = [alert for alert in warned if alert.kind not in TOLD]
    return entry_by(beside.leaps, Entry(
        part=part.name,
        verdict=NO_EVIDENCE if isinstance(reason, Elsewhere) else settled.answer,
        claim=claim,
        envelope_step=step,
        least_ns=None if settled.by_covers or settled.answer == NOTHING_FITS else envelope.least_ns,
        worst=piece_of(envelope, envelope.worst),
        counts=recording.counts,
        servers=servers,
        leap=leap,
        reason=reason,
        refutation=read_settled(texts.other).refutation if settled.answer == YES else settled.refutation,
        warnings=warned,
        moves=texts.moves,
        parts=texts.parts,
        outputs=outputs,
    ))


def piece_of(envelope: Envelope, k: int) -> Piece:
    return Piece(k, envelope.begins[k], envelope.ends[k], envelope.hulls[k])


def is_beyond(hull: Hull, bound: int) -> bool:
    return not isinstance(hull, str) and (hull[0] < -bound or hull[1] > bound)


class Grounds(NamedTuple):
    """What a reason is seen in."""

    servers: list[Server]
    recording: Recording
    gaps: list[Gap]
    texts: Texts


def reason_of(claim: Claim, settled: Settled, seen: Grounds) -> Reason | None:
    """Of what isn't a yes by the program: why, and what shows it."""
    if settled.answer == REFUTED:
        return why_refuted(claim, seen)
    if settled.answer == OPEN:
        return AtTick("tick", tick=settled.tick, hull=settled.hull)
    if settled.answer == NO_EVIDENCE:
        return silent(claim, settled.heard, seen.texts.traffic or Traffic())
    if settled.answer == NOTHING_FITS:
        return why_nothing_fits(claim, seen.texts)
    return None


def silent(claim: Claim, heard: int, seen: Traffic) -> Silent:
    """The reason if too few servers have a sample. If the client asks none of them, who asks is named, and whom."""
    asked = list(seen.asked.get(claim.client, ()))
    if any(server in asked for server in claim.servers):
        return Silent("silent", heard)
    return Silent("silent", heard, seen.by_number()[:FEW], sorted(asked, key=number_of)[:FEW])


def why_refuted(claim: Claim, seen: Grounds) -> Reason:
    """`unbounded`; `off` if a hull lies beyond the bound as a whole; `beside` if no packet lies within the span; `gap`
    if hulls go beyond the bound where nothing was heard for long; else `exceeds`."""
    envelope, bound = seen.texts.envelope, bound_ticks(claim.bound_ns)
    if "unbounded" in envelope.hulls:
        return Cause("unbounded")
    if any(part.beyond for part in seen.texts.parts):
        return Cause("off")
    if around := seen.recording.around(claim.first * SECOND, claim.last * SECOND):
        return Elsewhere("beside", around)
    are_gaps = are_in(envelope, seen.gaps)
    if any(is_in and is_beyond(hull, bound) for hull, is_in in zip(envelope.hulls, are_gaps)):
        longest = sorted(longest_of(seen.gaps))
        return Gaps("gap", [seen.texts.silent[gap] for gap in longest], len(seen.gaps))
    return Cause("exceeds")


def why_nothing_fits(claim: Claim, texts: Texts) -> Misfit:
    """`step` if the clock's moves are known and are steps, or `drift` if they may be none, or if a course fits with
    more drift; `apart` if one fits with more wrong servers, with those that are apart; else `many`."""
    tried = more_drift(claim) if read_settled(texts.other).answer != NOTHING_FITS else 0
    if texts.moves:
        return Misfit("step" if all(move.is_step for move in texts.moves) else "drift", texts.spared, tried,
                      texts.conflicts)
    apart = sorted({*texts.apart.always, *(time.server for time in texts.apart.times)}, key=number_of)
    return Misfit("drift" if tried else "apart" if apart else "many", texts.spared, tried, texts.conflicts, apart,
                  camps_of(texts.envelope))


def servers_of(claim: Claim, recording: Recording) -> list[Server]:
    """For each server of the claim its group and its samples."""
    group = {server: number for number, members in enumerate(claim.grouped) for server in members}
    return [Server(address, group[number], recording.by_server.get(address, 0))
            for number, address in enumerate(claim.servers)]


def warnings(claim: Claim, recording: Recording, texts: Texts, advice: dict[str, str],
             gaps: list[Gap]) -> Iterator[Alert]:
    """What stands beside a verdict, whatever it is."""
    is_parted = texts.gaps is not None and bool(texts.moves)
    if recording.first is not None and recording.last is not None and not is_parted:
        before, after = recording.first - claim.first * SECOND, claim.last * SECOND - recording.last
        if before > 0 or after > 0:
            yield Between("outside", max(0, before), max(0, after))
    if claim.drift_ppb == 0:
        yield Bare("no-drift")
    if slip(claim.reading_ns):
        yield Figure("slip", claim.reading_ns)
    if fall := recording.fall(texts.moves):
        record, before, after = fall
        yield Falls("fell" if before - after > SECOND else "falls", recording.falls, record, before, after)
    if inner := [gap for gap, _ in texts.gaps] if is_parted and texts.gaps else \
            [] if is_parted else inner_gaps(recording, gaps):
        longest = longest_of(inner)[0]
        during = texts.silent[longest]
        yield Quiet("silence", len(inner), *longest, during.requests, during.replies)
    yield from far_pieces(claim, recording, texts.envelope, gaps) if not is_parted else ()
    if recording.counts.get("warnings"):
        yield Figure("leap", recording.counts["warnings"])
    if "sources" in advice:
        yield Figure("sources", int(advice["sources"]))
    if "reference" in advice:
        yield OneReference("reference", advice["reference"])
    if texts.apart.always:
        yield OfServers("apart", texts.apart.always)
    yield from for_a_time(texts.apart.times)
    caught = list(caught_in(texts))
    yield from caught
    named = {*texts.apart.always, *(time.server for time in texts.apart.times), *(one.servers[0] for one in caught)}
    if wrong := [server for server in texts.apart.wrong if server not in named]:
        yield OfServers("wrong", wrong)
    if texts.apart.some:
        yield OfServers("contrary", texts.apart.some)


def caught_in(texts: Texts) -> Iterator[Caught]:
    """The servers that were wrong in each course, by the conflicts of a certificate by covers."""
    for server in texts.apart.wrong if read_settled(texts.settled).by_covers else ():
        own = [(one.high, one.asked) for one in texts.conflicts if one.low == server] + \
            [(one.low, one.answered) for one in texts.conflicts if one.high == server]
        if others := sorted({other for other, _ in own} - {server}, key=number_of):
            yield Caught("caught", [server], others, sorted({time for _, time in own})[:FEW])


def for_a_time(times: list[Time]) -> Iterator[Alert]:
    """The longest times in which servers stand apart, until each of them is named, and how many there are besides."""
    left = times
    while left:
        longest = max(left, key=lambda time: (time.last - time.first, time))
        own = [time for time in left if time.first <= longest.last and longest.first <= time.last]
        named = {time.server for time in own}
        left = [time for time in left if time.server not in named]
        yield ForATime("apart-for-a-time", sum(time.server in named for time in times) - len(own),
                       min(time.first for time in own), max(time.last for time in own), sorted(named, key=number_of))


def far_pieces(claim: Claim, recording: Recording, envelope: Envelope, gaps: list[Gap]) -> Iterator[Alert]:
    """Pieces that are far from every sample, and in no gap that is named."""
    first, last = claim.first * SECOND, claim.last * SECOND
    limit = (last - first) // FAR
    if not recording.replies or all(after - before <= limit for before, after
                                    in pairwise([first, *recording.some_times(), last])):
        return  # (a piece can't be farther from a sample than some of the samples are from one another)
    distances = list(map(recording.nearest, envelope.begins, envelope.ends))
    inner = are_in(envelope, list(inner_gaps(recording, gaps)))
    distances = [0 if is_in else distance for distance, is_in in zip(distances, inner)]
    farthest = max(distances)
    if farthest > limit:
        far = sum(distance > limit for distance in distances)
        yield Far("far", far, farthest, piece_of(envelope, distances.index(farthest)))
