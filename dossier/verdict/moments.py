"""When it was that a clock showed readings, by the audit of a folder: between which true times, as `at --times` says.

It holds in every course of events that fits. So none is given where no course does, and where what the folder has
speaks against a premise. If the clock was stepped, only a reading that it can have shown between two moves alone has
one, and by an audit of a claim of that time: this asks which stretch of the capture can have shown it.
"""
from collections.abc import Iterator
from typing import NamedTuple

from ..fault import MISSING, Fault, fault
from ..folder.answers import read_moment
from ..folder.claim import Claim
from ..folder.entry import AGAINST, NOTHING_FITS, OPEN, REFUTED, YES, Entry, LeapList, Options, Record
from ..folder.files import CLAIM, JOINED, Folder, sum_of, sum_of_file
from ..folder.log import Reading
from ..folder.placing import copy_of, keep
from ..folder.program import Program
from ..premise.backing import backing
from ..records import replace
from ..units import SECOND, civil
from .making import Making, make, take_inputs

TIMES, MOMENTS, COPY = "times", "moments.claim.json", "moments.pcap"
"""Private files: readings, the claim by which they are looked at, and a copy of a capture."""
OF_THE_BOUND = {"offset"}
"""What takes a yes away and speaks against no premise."""
NO_SPAN = "in no span of its folder's audit"
AGAINST_IT = "{} and a premise is spoken against"
UNBOUNDED = "{} and nothing is known then"
NEAR_A_MOVE = "{} and the clock may have been stepped then"
BETWEEN = "{} as a whole and {} between {} and {}"


class Moment(NamedTuple):
    """What is said of a reading in words, and the Unix ticks between which true time lay, if that is known, with the
    number of the claim and capture by which it is."""

    words: str
    time: tuple[int, int, int] | None = None


def is_in(reading: Reading, first: int, last: int) -> bool:
    """Whether all that a reading stands for lies between two Unix seconds."""
    return first * SECOND <= reading.begin and reading.end <= last * SECOND


def is_spoken_against(entry: Entry) -> bool:
    """Whether the folder's own evidence, its recording or the list of leap seconds speaks against a premise, whatever
    the verdict is."""
    return any(alert.kind in AGAINST and alert.kind not in OF_THE_BOUND for alert in entry.warnings)


def has_course(entry: Entry) -> bool:
    """Whether a course of events fits, and nothing speaks against the premises."""
    return entry.verdict in (YES, REFUTED, OPEN) and not is_spoken_against(entry)


def windows(entry: Entry) -> Iterator[tuple[int, int]]:
    """From which to which Unix second the clock can have shown a reading between two moves alone, as it is known of
    each; none if nothing fits but by more wrong servers than are granted."""
    spared = getattr(entry.reason, "count", 0)
    for number in range(len(entry.moves) + 1 if entry.verdict == NOTHING_FITS and entry.moves and not spared else 0):
        before, behind = entry.moves[:number], entry.moves[number:]
        if all(move.since for move in before) and all(move.until for move in behind):
            first = max([entry.claim.first, *(move.since for move in before)])
            last = min([entry.claim.last, *(move.until for move in behind)])
            if first < last:
                yield first, last


def changed_since(name: str) -> Fault:
    return fault(f"{name} was changed since the audit")


class Moments:
    """The readings of a folder, by the audit that its record is of. All is done in the current folder, which is one's
    own."""

    def __init__(self, folder: Folder, record: Record, program: Program, leaps: LeapList):
        self.folder, self.record, self.program, self.leaps, self.number = folder, record, program, leaps, 0

    def of(self, readings: list[Reading]) -> list[Moment]:
        """What is said of each reading."""
        found = dict[int, Moment]()
        for entry in self.record.entries:
            inside = [k for k, reading in enumerate(readings)
                      if k not in found and is_in(reading, entry.claim.first, entry.claim.last)]
            found.update(zip(inside, self.of_entry(entry, [readings[k] for k in inside]) if inside else ()))
        return [found.get(k, Moment(NO_SPAN)) for k in range(len(readings))]

    def of_entry(self, entry: Entry, readings: list[Reading]) -> list[Moment]:
        """What an entry says of readings in its span."""
        if has_course(entry):
            return self.at(entry.claim, self.capture_of(entry), readings, entry.verdict)
        if entry.verdict == NOTHING_FITS and not is_spoken_against(entry):
            return self.between(entry, readings)
        words = AGAINST_IT.format(entry.verdict) if entry.verdict in (REFUTED, OPEN, NOTHING_FITS) else entry.verdict
        return [Moment(words)] * len(readings)

    def between(self, entry: Entry, readings: list[Reading]) -> list[Moment]:
        """The same where none does, but the clock's moves may be known: by an audit of the time between two."""
        found = [Moment(NEAR_A_MOVE.format(entry.verdict) if entry.moves else entry.verdict)] * len(readings)
        for first, last in windows(entry):
            inside = [k for k, reading in enumerate(readings) if is_in(reading, first, last)]
            if inside:
                own, capture = self.audited(replace(entry.claim, from_=civil(first), to=civil(last)))
                if has_course(own):
                    words = BETWEEN.format(entry.verdict, own.verdict, own.claim.from_, own.claim.to)
                    for k, moment in zip(inside, self.at(own.claim, capture, [readings[k] for k in inside], words)):
                        found[k] = moment
        return found

    def audited(self, claim: Claim) -> tuple[Entry, str]:
        """What an audit of the folder's captures by another claim comes to, and the capture by which it does."""
        taken = take_inputs(self.folder, self.record)
        if changed := sorted(name for name, _ in taken.sums.items() ^ self.record.inputs.items()):
            raise changed_since(changed[0])
        keep(CLAIM, claim.text)
        taken.sums[CLAIM] = sum_of(claim.text)
        backed, options = backing(self.folder, taken.sums), Options(self.record.options.step)
        entry, = make(taken, options, self.leaps, backed, self.program, {})
        return entry, JOINED if JOINED in entry.outputs else taken.copies[taken.capture]

    def capture_of(self, entry: Entry) -> str:
        """A private copy of the capture by which an entry was settled; it is made again where it was taken away."""
        own, sums = entry.within(JOINED), self.record.inputs | self.record.outputs
        name = own if own in entry.outputs else self.record.capture
        if self.folder.has(name):
            path, sum_ = COPY, copy_of(self.folder, name, COPY)
        else:
            making = Making(self.folder, self.program, self.record.options, self.leaps, self.record)
            making.record()
            path = making.capture_of(entry)
            sum_ = sum_of_file(path)
        if sum_ != sums[name]:
            raise changed_since(name)
        return path

    def at(self, claim: Claim, capture: str, readings: list[Reading], words: str) -> list[Moment]:
        """What the program says of readings, in one call for all of them, with words of one's own."""
        lines = list[str]()
        keep(TIMES, "".join(f"{reading.text}\n" for reading in readings).encode())
        keep(MOMENTS, claim.text)
        self.program.blocks(lambda block: lines.extend(block.decode("ascii").splitlines()), "at", MOMENTS, capture,
                            "--times", TIMES)
        answers = list(map(read_moment, lines))
        if [text for text, _ in answers] != [reading.text for reading in readings]:
            raise fault("the program didn't answer as it was asked", MISSING)
        self.number += 1
        return [Moment(words, (*ticks, self.number)) if ticks else Moment(UNBOUNDED.format(words))
                for _, ticks in answers]
