"""The parts into which a recording falls at steps and gaps, and which of them can have shown a reading of the span.

A capture that breaks into stretches says something of the span only by the one that shows it, and only if no other can
have shown a reading of it. Between the last record before a step and the first behind it the clock went on, on either
side. So it is asked when the step came, in true time: no later than a reply that came after it, at its record's time
less the least error by the stretch behind; and no earlier than a request before it. A stretch that would have come to
a reading only later than that, by the most error that its own exchanges let be, never showed it.
"""
from bisect import bisect_left, bisect_right
from collections.abc import Callable, Iterable, Iterator
from itertools import groupby, pairwise
from typing import NamedTuple

from ..capture.classic import Extent
from ..capture.recording import Recording, read_recording
from ..folder.answers import Envelope, read_envelope, read_settled
from ..folder.claim import MAX_DRIFT, Claim
from ..folder.entry import FEW, NOTHING_FITS, YES, Beyond, Gap, Hull, Move, Stretch, side_of
from ..folder.placing import keep
from ..folder.program import Program
from ..records import replace
from ..units import DAY, LAST_SECOND, SECOND, TICKS, bound_ticks, ceil_div, civil
from .apart import SEVERAL, Time, are_in, conflicts_in, in_each_cover, outermost, pieces_of, search_of
from .breaks import SOME, Break, BreakSearch
from .gaps import SILENCE, gaps_of, inner_gaps, told_of

ALONE = "alone.claim.json"
"""A private file: a claim of some servers, or of some time."""
ENOUGH = 8
"""Exchanges of a group that a stretch has to have, of more groups than may be wrong."""
MAX_PARTS = 100
ROUND = 8
"""Records for each server, of two for an exchange, in which each that isn't silent is asked and answers."""
OFTEN = 6
"""Exchanges of a server, of which two at each end of a stretch may be left out."""
COARSE = 1000
"""Nanoseconds in the coarsest unit of a capture's times."""


class Parted(NamedTuple):
    """What a recording says of a span between the clock's moves, part by part."""

    parts: list[Stretch]
    texts: list[bytes]
    """The envelopes, as the program printed them."""
    gaps: list[tuple[Gap, str]]
    """In which no server was heard, each with the private file that has what was recorded then."""
    apart: list[Time]
    """In which servers stand apart."""


class Spoken(NamedTuple):
    """What `settle` says of a claim by a whole capture, or by the one stretch of it that can have shown the span, which
    of these it is; and how the clock moved, if that is known."""

    settled: bytes
    capture: str
    moves: list[Move] = []


class Side(NamedTuple):
    """A stretch: its private file, the times of its first and last record, and what is recorded in it."""

    path: str
    first: int
    last: int
    recording: Recording


class Parting:
    """A capture that breaks."""

    def __init__(self, program: Program, claim: Claim, capture: str, extent: Extent | None,
                 leaps: Iterable[int] = (), is_spared: bool = False):
        self.program, self.claim = program, claim
        self.leaps, self.is_spared = leaps, is_spared
        """The ends of leap seconds, in Unix seconds, and whether the claim takes more servers for wrong than is
        granted."""
        self.search = BreakSearch(program, claim, capture, extent)
        self.breaks, self.first, self.end = self.search.breaks(), 0, self.search.number
        self.times, self.hulls = dict[int, tuple[int, int]](), dict[tuple[str, int, int, int, int], Hull]()
        self.are_whole, self.hidden = bool(self.breaks), 0
        """Whether a yes of one stretch may stand; and by how much a clock that moved faster than is granted may have
        moved in a stretch that a course fits."""
        self.sides = self.with_exchanges()
        are_whole, self.breaks = self.are_whole, [self.widened(number) for number in range(len(self.breaks))]
        self.are_whole, self.hidden = are_whole, 0
        self.sides = self.with_exchanges()
        self.are_whole &= all(map(self.is_enough, self.sides)) and \
            all(one.is_met and not one.is_doubted for one in self.breaks)
        self.moves = self.moved()

    def with_exchanges(self) -> list[Side]:
        """The stretches, each of which has an exchange: what is on both sides of another one is one break, and what is
        beyond the first or the last is left out."""
        while self.breaks:
            sides = list(self.stretches())
            number = next((number for number, side in enumerate(sides) if not side or not side.recording.replies), None)
            if number is None:
                return [side for side in sides if side]
            self.are_whole = False
            if not number:
                self.first = self.breaks.pop(0).by
            elif number == len(self.breaks):
                self.end = self.breaks.pop().after + 1
            else:
                before, behind = self.breaks[number - 1 : number + 1]
                self.breaks[number - 1 : number + 1] = [Break(before.after, behind.by, False)]
        return []

    def stretches(self) -> Iterator[Side | None]:
        """Each stretch between two breaks; None for one without records."""
        whole, claim = self.search.whole, self.named(self.claim)
        for number, (begin, end) in enumerate(self.ends()):
            if begin >= end:
                yield None
                continue
            path = f"stretch-{number}.pcap"
            self.search.cut(begin, end, path)
            first, last = whole.nanoseconds(whole.extent.stamps[at] for at in (begin, end - 1))
            yield Side(path, first, last, read_recording(self.program, claim, path))

    def ends(self) -> list[tuple[int, int]]:
        """The first record of each stretch, and the one behind its last."""
        return list(zip([self.first, *(one.by for one in self.breaks)],
                        [*(one.after + 1 for one in self.breaks), self.end]))

    def widened(self, number: int) -> Break:
        """A break so wide that nothing beside it was recorded while the clock was on its way, if it moved for longer or
        was stepped again: between records by which each group was asked before it, and had answered behind it. A step
        stays as it is if these rounds have one alone, with no server wrong."""
        one, (begin, _), (first, _), move = self.breaks[number], *self.ends()[number : number + 2], self.move(number)
        is_step = bool(move and move.is_step)
        wide = Break(begin + self.round(self.sides[number], -1, is_step),
                     first + self.round(self.sides[number + 1], 0, is_step), one.is_met, is_step)
        is_clear = is_step and self.search.is_one(wide, replace(self.claim, groups=[], false_max=0))
        return self.search.between_exchanges(one) if is_clear else wide

    def named(self, claim: Claim) -> str:
        """Writes a claim over the one private file of such, and gives the file's name: it holds until the next."""
        keep(ALONE, claim.text)
        return ALONE

    def is_enough(self, side: Side) -> bool:
        """Whether a stretch says so much by itself that no few wrong servers make a step."""
        by = side.recording.by_server
        groups = [sum(by.get(self.claim.servers[k], 0) for k in group) for group in self.claim.grouped]
        return sum(number >= ENOUGH for number in groups) > self.claim.false_max

    def hull(self, side: Side, first: int, last: int) -> Hull:
        """The hull by a stretch's exchanges alone, over some Unix seconds."""
        key = side.path, side.first, side.last, first, last
        if key not in self.hulls:
            first, last = (min(max(0, time), LAST_SECOND) for time in (first, last))
            claim = self.named(replace(self.claim, from_=civil(first), to=civil(last)))
            step = str(min(DAY, max(1, last - first)))
            hulls = read_envelope(self.program.run("envelope", claim, side.path, "--step", step).text).hulls
            self.hulls[key] = "empty" if "empty" in hulls else outermost(hulls)
        return self.hulls[key]

    def latest(self, behind: Side) -> int | None:
        """The true time, in nanoseconds, at which a step came at the latest, by the first reply behind it."""
        end = behind.recording.replies[0] + COARSE + self.claim.reading_ns
        hull = self.hull(behind, end // SECOND, end // SECOND + 1)
        return None if isinstance(hull, str) else end - down(hull[0])

    def earliest(self, before: Side) -> int | None:
        """The true time at which it came at the earliest, by the last request before it."""
        begin = before.recording.requests[-1] - self.claim.reading_ns
        hull = self.hull(before, begin // SECOND, begin // SECOND + 1)
        return None if isinstance(hull, str) else begin - up(hull[1])

    def moved(self) -> list[Move]:
        """How the clock moved in each break; none if that isn't known of one of them, or if it isn't most servers that
        show it."""
        every = [self.move(number) if self.is_seen(number) else None for number in range(len(self.breaks))]
        moves = [move for move in every if move]
        are_apart = all(one.is_step or other.is_step or one.by <= other.after for one, other in pairwise(moves))
        explain = all(down(one.low) <= one.by - one.after for one in moves)  # (their records' times)
        return moves if len(moves) == len(every) and are_apart and explain else []

    def move(self, number: int) -> Move | None:
        """A step, if the hulls of both sides are apart wherever in this time it came, and no drift does that; or else a
        movement. None if the error may have stayed as it was."""
        before, behind = self.sides[number : number + 2]
        earliest, latest = self.earliest(before), self.latest(behind)
        if earliest is None or latest is None:
            return None
        self.times[number] = earliest, latest
        longest = max(1, latest - earliest)
        last, first, more = before.last // SECOND, behind.first // SECOND, 2 * ceil_div(longest, SECOND) + 2
        around = self.hull(before, last, last + more), self.hull(behind, first - more, first + 1)
        near = self.hull(before, last, last + 1), self.hull(behind, first, first + 1)
        size, wide = change(*near), change(*around)
        if size is None or size[0] <= 0 <= size[1]:
            self.are_whole = False
            return None
        are_apart = wide is not None and not wide[0] <= 0 <= wide[1]
        self.are_whole &= are_apart
        is_doubted = self.breaks[number].is_doubted
        until, since = (0, 0) if is_doubted or isinstance(around[0], str) or isinstance(around[1], str) else (
            (earliest + down(around[1][0])) // SECOND - 2, ceil_div(latest + up(around[0][1]), SECOND) + 2)
        rate = down(min(abs(size[0]), abs(size[1]))) * SECOND // longest
        if wide is not None and are_apart and (rate > MAX_DRIFT or behind.first < before.last):
            return Move(before.last, behind.first, *wide, 0, True, max(0, until), max(0, since))
        self.hidden = max([self.hidden, *(up(hull[1] - hull[0]) for hull in near if not isinstance(hull, str))])
        rate = max(rate, self.claim.drift_ppb)
        return Move(before.last, behind.first, *size, rate, False, max(0, until), max(0, since))

    def round(self, side: Side, place: int, is_step: bool) -> int:
        """The record of a stretch behind which each server was asked once more (-1), or before which each had answered
        (0); of one that was silent there for long none. Beside movement it is twice, of each that was asked often."""
        records = [sorted(own)[place if is_step or len(own) < OFTEN else -2 if place else 1][0 if place else 1]
                   for own in side.recording.by_address.values()]
        end = max(records) if place else min(records)
        near = [record for record in records if abs(end - record) <= ROUND * len(self.claim.servers)]
        near = near if len(near) > self.claim.false_max else records  # (those alone may be wrong)
        return max(0, min(near) - 1) if place else min(len(side.recording.stamps) - 1, max(near) + 1)

    def is_seen(self, number: int) -> bool:
        """Whether it is the clock that moved there: most servers contradict themselves, each taken by itself; or
        whichever group is left out, no course of events fits the others."""
        (begin, _), (_, end) = self.ends()[number : number + 2]
        self.search.cut(begin, end, SOME)
        servers, groups = conflicts_in(self.program, self.claim, SOME)
        heard = {server for side in self.sides[number : number + 2] for server in side.recording.by_server}
        return 2 * sum(len(pair) == 1 for pair in servers) > len(heard) or all(
            in_each_cover([pair for pair in groups if group not in pair], self.claim.false_max) is None
            for group in range(len(self.claim.grouped)))

    def may_show(self, number: int) -> bool:
        """Whether a stretch may have shown a reading of the span."""
        side, first, last = self.sides[number], self.claim.first - 1, self.claim.last + 1
        if number < len(self.sides) - 1 and first > 0:
            hull = self.hull(side, first - 1, first)
            if not isinstance(hull, str) and first * SECOND - up(hull[1]) >= self.times[number][1]:
                return False
        if number:
            hull = self.hull(side, last, last + 1)
            if not isinstance(hull, str) and last * SECOND - down(hull[0]) <= self.times[number - 1][0]:
                return False
        return True

    def shown_by(self) -> Side | None:
        """The one stretch that can have shown readings of the span, if that is known, and if its yes, if it is one,
        stands with all that a movement beside it may hide."""
        if not self.moves or not self.are_whole:
            self.moves = [replace(move, until=0, since=0) for move in self.moves]
            return None
        sides = [side for number, side in enumerate(self.sides) if self.may_show(number)]
        if len(sides) != 1:
            return None
        wider = replace(self.claim, reading_ns=min(SECOND, self.claim.reading_ns + self.hidden))
        own, wide = (read_settled(self.program.run("settle", self.named(claim), sides[0].path).text).answer
                     for claim in (self.claim, wider))
        return sides[0] if own != YES or wide == YES else None

    def spans(self, step: int) -> Iterator[tuple[int, Side, Claim]]:
        """Of each stretch its number and the claims of the readings of the span that it has records beside, if there
        are any, but for those that may have been shown elsewhere too."""
        for number, side in enumerate(self.sides):
            first = max(self.claim.first, ceil_div(side.first, SECOND)) if number or self.first else self.claim.first
            last = min(self.claim.last, side.last // SECOND) if number < len(self.moves) or \
                self.end < self.search.number else self.claim.last
            for begin, end in self.undoubted(side, first, last, step) if first <= last else ():
                yield number, side, replace(self.claim, from_=civil(begin), to=civil(end))

    def undoubted(self, side: Side, first: int, last: int, step: int) -> Iterator[tuple[int, int]]:
        """From when to when it is known that a stretch didn't show the same readings with another error, in seconds."""
        doubts = sorted([*at_leaps(self.leaps, first, last, side.recording.times,
                                   lambda end: self.hull(side, end - 1, end + 1)), *self.left_out(),
                         *(self.doubts(side, first, last, step) if self.is_spared else ())])
        for begin, end in doubts if len(doubts) <= FEW else [(first * SECOND, last * SECOND)]:
            until = min(last, begin // SECOND)
            if first < until and side.first <= begin:  # (else only what came behind it speaks of these readings)
                yield first, until
            first = max(first, ceil_div(end, SECOND))
        if first < last and side.last >= first * SECOND or not doubts:
            yield first, last

    def left_out(self) -> Iterator[Gap]:
        """From when to when what is left out was recorded, and as far beside it as some answer is from the next."""
        heard = [side.recording.times for side in self.sides]
        more = max([SILENCE, *(after - before for times in heard for before, after in pairwise(times))])
        for first, end in (0, self.first), (self.end, self.search.number):
            if first < end:
                whole = self.search.whole
                times = whole.nanoseconds(whole.extent.stamps[max(0, first - 1) : end + 1])
                yield min(times) - more, max(times) + more

    def doubts(self, side: Side, first: int, last: int, step: int) -> list[Gap]:
        """The readings that the clock may have shown once more, if it was stepped to and fro: a server is taken for
        wrong that needn't be, by few samples, one after the other."""
        begin, end = min(first, side.first // SECOND), max(last, ceil_div(side.last, SECOND))
        claim, times, doubts = replace(self.claim, from_=civil(begin), to=civil(end)), side.recording.times, list[Gap]()
        text = self.program.run("envelope", self.named(claim), side.path, "--servers", "--step", str(step)).text
        for time in search_of(self.program, claim, side.path, None, read_envelope(text), []).missed:
            if time.samples < SEVERAL:
                off, ends = up(time.off) + SECOND, sorted((time.first, time.last))
                before, after = bisect_left(times, ends[0] - off), bisect_right(times, ends[1] + off)
                doubts.append((times[before - 1] - off if before else first * SECOND,
                              times[after] + off if after < len(times) else last * SECOND))
        return doubts

    def beside(self, own: Side) -> list[Gap]:
        """From when to when the other stretches were recorded, and what lies in breaks."""
        whole, gaps = self.search.whole, [(side.first, side.last) for side in self.sides if side is not own]
        gaps += self.left_out()
        for one in self.breaks:
            if left_out := whole.nanoseconds(whole.extent.stamps[one.after + 1 : one.by]):
                gaps.append((min(left_out), max(left_out)))
        return gaps


def spoken(program: Program, claim: Claim, capture: str, extent: Extent | None) -> Spoken:
    """What `settle` says of a claim by a whole capture, or by the one stretch of it that can have shown the span."""
    keep(ALONE, claim.text)
    settled = program.run("settle", ALONE, capture).text
    if read_settled(settled).answer != NOTHING_FITS:
        return Spoken(settled, capture)
    parting = Parting(program, claim, capture, extent)
    if side := parting.shown_by():
        keep(ALONE, claim.text)
        return Spoken(program.run("settle", ALONE, side.path).text, side.path, parting.moves)
    is_whole = parting.end == parting.search.number  # (else what came last would be left out)
    return Spoken(settled, capture, parting.moves if is_whole else [])


def in_parts(program: Program, parting: Parting, step: int) -> Parted:
    """Where no stretch speaks for the span alone: what holds in each, if the clock's moves are known."""
    parted = Parted([], [], [], [])
    for number, side, claim in parting.spans(step) if parting.moves else ():
        words = ("envelope", parting.named(claim), side.path, "--servers", "--step", str(step))
        text = program.run(*words).text
        envelope = read_envelope(text)
        gaps = gaps_of(claim, side.recording)
        parted.parts.extend(replace(part, moves=number) for part in split(envelope, gaps, claim))
        elsewhere = parting.beside(side)
        parted.gaps.extend((gap, side.path) for gap in told_of(inner_gaps(side.recording, gaps), elsewhere))
        parted.apart.extend(time for time in search_of(program, claim, side.path, None, envelope, gaps).missed
                            if time.samples >= SEVERAL)
        parted.texts.append(text)
    return parted._replace(parts=parted.parts[-MAX_PARTS:])


def split(envelope: Envelope, gaps: list[Gap], claim: Claim) -> list[Stretch]:
    """The parts of an envelope between gaps; all of it, if it lies in one."""
    stretches, at, bound, inside = list[Stretch](), 0, bound_ticks(claim.bound_ns), are_in(envelope, gaps)
    for is_in, run in groupby([False] * len(inside) if all(inside) else inside):
        begin, at = at, at + len(list(run))
        if not is_in:
            own = pieces_of(envelope, begin, at)
            stretches.append(Stretch(own.begins[0], own.ends[-1], outermost(own.hulls), beyond_in(own, bound)))
    return stretches[-MAX_PARTS:]


def at_leaps(leaps: Iterable[int], first: int, last: int, times: list[int],
             hull_at: Callable[[int], Hull]) -> Iterator[Gap]:
    """The readings that the clock may have shown with an error of a second more, or twice: from a leap second until a
    server was heard again."""
    for end in leaps:
        if first - DAY <= end <= last + DAY:
            hull = hull_at(end)
            low, high = (0, 0) if isinstance(hull, str) else (down(hull[0]), up(hull[1]))
            begin, after = (end - 2) * SECOND + low, bisect_right(times, (end + 1) * SECOND + high)
            until = times[after] + SECOND if after < len(times) else max(begin, last * SECOND)
            if begin <= last * SECOND and first * SECOND <= until:
                yield begin, until


def beyond_in(envelope: Envelope, bound: int) -> list[Beyond]:
    """The longest times in which the whole hull lies beyond the bound, all on one side."""
    runs, at = list[Beyond](), 0
    for side, own in groupby(side_of(hull, bound) for hull in envelope.hulls):
        begin, at = at, at + len(list(own))
        hull = outermost(envelope.hulls[begin:at])
        if side and not isinstance(hull, str):
            runs.append(Beyond(envelope.begins[begin], envelope.ends[at - 1], *hull))
    return sorted(sorted(runs, key=lambda run: run.from_ - run.to)[:FEW], key=lambda run: run.from_)


def change(before: Hull, behind: Hull) -> tuple[int, int] | None:
    """By how much the error changed from one hull to another, in ticks."""
    if isinstance(before, str) or isinstance(behind, str):
        return None
    return behind[0] - before[1], behind[1] - before[0]


def down(ticks: int) -> int:
    """Ticks as nanoseconds, rounded down."""
    return ticks * SECOND // TICKS


def up(ticks: int) -> int:
    return ceil_div(ticks * SECOND, TICKS)
