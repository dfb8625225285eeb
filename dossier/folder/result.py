"""What the processes of folders hand back, by the kinds of work."""
from collections import Counter
from typing import Annotated

from ..records import dataclass, field
from ..schema import Address, Count, Nanoseconds, Seconds, Sum, Text, Ticks, length, matching
from ..units import bound_ticks
from .claim import Claim
from .entry import NOTHING_FITS, WORST_FIRST, YES, Day, Made, Move, Piece, side_of

MISSING, NOT_COUNTED = "missing", "not counted"
"""There is no folder of a day; there is one, and it isn't counted."""
MAX_FOLDERS = 4000
"""Folders of a machine that are looked at."""


@dataclass
class Row:
    machine: str
    day: str
    client: str = ""
    begin: str = ""
    end: str = ""
    verdict: str = ""
    bound_ns: int | None = None
    least_bound_ns: int | None = None
    worst_begin: str = ""
    worst_end: str = ""
    samples: int | None = None
    servers: int | None = None
    groups: int | None = None
    false_max: int | None = None
    reason: str = ""
    to_do: str = ""
    warnings: list[str] = field(default_factory=list)
    leap_seconds: str = ""
    signature: str = ""
    signer: str = ""
    signed_at: str = ""
    judged_twice_at: str = ""
    """When the second program said the same."""

    def __post_init__(self) -> None:
        self.twice = list[str]()
        """Warnings of captures that other folders have too."""


@dataclass(frozen=True)
class Section:
    """An audit on the page: its line in the table, the head of its article and the rest of it, the program that made
    it, and the sums of its captures."""

    row: Row
    head: str
    rest: str = ""
    made: Made | None = None
    captures: list[str] = field(default_factory=list)


@dataclass(frozen=True)
class Heard:
    """A server in the last minutes: whether it is silent; and by its last sample its own error in ticks, if the hull is
    known there, and whether it can't be right."""

    address: Address
    is_silent: bool
    error: tuple[Ticks, Ticks] | None = None
    is_apart: bool = False


@dataclass(frozen=True)
class Moment:
    """Of a recorder's last minutes the span, the program's answer, and the envelope's pieces: of what was recorded
    since the clock moved last, if it did."""

    recorder: str
    begin: int
    end: int
    verdict: str
    bound_ns: int
    groups: int
    needed: int
    """How many groups have to be heard to outvote those that may be wrong."""
    last: int = 0
    """When the last record was made, in Unix seconds by the clock that is looked at; 0 if there is none."""
    age: int | None = None
    """Seconds since then, by a clock that isn't set, if the recorder is known by one."""
    ahead: Count = 0
    """By how many seconds records are later than the machine's clock."""
    since: int = 0
    """When enough groups were heard last, by the clock that is looked at, if that is too long ago; else 0."""
    heard: int = 0
    """How many groups have a server that isn't silent."""
    servers: list[Heard] = field(default_factory=list)
    camps: list[list[Address]] = field(default_factory=list)
    """The servers that agree with one another at the end, if nothing fits."""
    moves: list[Move] = field(default_factory=list)
    before: Text = ""
    """Why what was recorded before in the minutes that were asked for is left out, but for moves."""
    beyond: tuple[Ticks, Ticks] | None = None
    """The error when it was asked last, in ticks, if nothing fits, and yet it is known to be beyond the bound."""
    least_ns: int | None = None
    against: str = ""
    """What takes a yes away, if anything does."""
    pieces: list[Piece] = field(default_factory=list)
    bad: list[Text] = field(default_factory=list)
    """The faults of files that were left out."""
    troubles: list[Text] = field(default_factory=list)
    """What the recorder says of itself."""
    lost: Count = 0
    left_out: Count = 0
    """Packets that it lost, and that it left out, since it was begun."""

    @property
    def now(self) -> tuple[int, int] | None:
        """The error at the end, in ticks, if it is seen: where nothing fits, what is granted isn't so."""
        hull = self.pieces[-1].hull if self.pieces and self.verdict != NOTHING_FITS else "unbounded"
        return self.beyond if isinstance(hull, str) else hull

    @property
    def off(self) -> bool | None:
        """Whether the clock was beyond its bound at the end, wherever in the hull its error was; None if there is none,
        or so wide a one that the error can't be shown to be within."""
        bound = bound_ticks(self.bound_ns)
        if self.now is None or side_of(self.now, bound):
            return None if self.now is None else True
        return False if self.now[1] - self.now[0] <= 2 * bound else None

    @property
    def is_off(self) -> bool:
        return bool(self.off)

    @property
    def is_shown(self) -> bool:
        """Whether the clock was within its bound in all of these minutes."""
        return self.verdict == YES and not self.moves and not self.before

    @property
    def badness(self) -> tuple[bool, int, int]:
        """How bad it is, the worst least."""
        return not self.is_off, WORST_FIRST.index(self.verdict), -(self.least_ns or 0)


@dataclass(frozen=True)
class Told:
    """A day, and what is told of it: a verdict and its figures, and the folder in which it was found."""

    date: Day
    verdict: Text
    folder: Text = ""
    cause: Text = ""
    least_ns: Nanoseconds | None = None
    off: Ticks = 0
    """The least distance from UTC that the clock had at some time of it, as far as that is known."""
    name: Annotated[str, matching("[0-9a-f]{64}|")] = ""
    """The day's name for good; nothing if it has no audit."""
    by: Text = ""
    """Who signed the audit, if it was neither made nor verified here."""
    says: Annotated[str, matching("[0-9a-f]{64}|")] = ""
    """The sum of what the audit says of the day."""


def off_of(day: Told) -> int:
    return day.off


@dataclass(frozen=True)
class Year:
    """A machine's year. What isn't counted is named."""

    machine: Text
    days: Annotated[list[Told], length(0, 366)]
    """Each day of the year that has ended, in order."""
    claim: Claim | None = None
    """That of most days, whose span doesn't matter."""
    others: Annotated[list[Text], length(0, 2 * MAX_FOLDERS)] = field(default_factory=list)
    programs: list[Made] = field(default_factory=list)
    captures: list[Sum] = field(default_factory=list)
    """Sums of its days' captures."""
    twins: list[Text] = field(default_factory=list)
    """The machines that have one of these too."""
    alike: list[Text] = field(default_factory=list)
    """The machines that have a day of the same client too."""
    path: Text = ""
    """Its folder."""

    @property
    def counts(self) -> dict[str, int]:
        """How many days there are of each verdict, those that are shown first."""
        counts = Counter(day.verdict for day in self.days)
        every = (*WORST_FIRST, NOT_COUNTED, MISSING)
        return {YES: counts[YES]} | {verdict: counts[verdict] for verdict in every if counts[verdict]}

    @property
    def signers(self) -> dict[str, int]:
        """How many days count by a signature alone, by who signed them."""
        return dict(sorted(Counter(day.by for day in self.days if day.by).items()))

    @property
    def unknown(self) -> int:
        """How many days have a folder, and no bound that is known."""
        return sum(day.verdict != MISSING and day.least_ns is None for day in self.days)

    @property
    def off(self) -> Told | None:
        """The day with the largest error that is known."""
        return max(self.days, key=off_of) if self.days else None

    @property
    def gap(self) -> tuple[int, str]:
        """The most days in a row that aren't shown, and the first of them."""
        longest, run = (0, ""), 0
        for number, day in enumerate(self.days):
            run = 0 if day.verdict == YES else run + 1
            if run > longest[0]:
                longest = run, self.days[number + 1 - run].date
        return longest

    @property
    def worst(self) -> Told | None:
        """The day with the greatest of the least bounds."""
        known = [(day.least_ns, -number) for number, day in enumerate(self.days) if day.least_ns is not None]
        return self.days[-max(known)[1]] if known else None


@dataclass(frozen=True)
class Said:
    """A status, and lines for a terminal."""

    status: Count = 0
    lines: list[str] = field(default_factory=list)


@dataclass(frozen=True)
class Written:
    """A text, such as one that is to be signed, and remarks; without a text a status, and why there is none."""

    text: str = ""
    lines: list[str] = field(default_factory=list)
    status: Count = 0


@dataclass(frozen=True)
class Audited:
    """What an audit left: verdicts and metrics, besides status and lines."""

    status: Count
    lines: list[str]
    verdicts: list[str]
    metrics: list[tuple[str, str, int]]


@dataclass(frozen=True)
class OnPage:
    """What a page has of a folder."""

    sections: list[Section]
    metrics: list[tuple[str, str, int]]
    verdicts: list[str]
    status: Count = 0


@dataclass(frozen=True)
class Days:
    """The days that are to be made, and that were made earlier; which recordings show times of which day; and notes,
    with the worst status of recordings that can't be read."""

    lines: list[str]
    days: list[str]
    shown: list[tuple[str, str]]
    earlier: list[str] = field(default_factory=list)
    status: Count = 0


@dataclass(frozen=True)
class Spans:
    """The folders of a machine that have a claim, each with its span in Unix seconds."""

    folders: Annotated[list[tuple[str, Seconds, Seconds]], length(0, MAX_FOLDERS)]


@dataclass(frozen=True)
class Timed:
    """Of readings of a folder's clock a word for each, and the Unix ticks between which true time lay, if that is
    known, with the number of the claim and capture by which it is; and the folder's name for good, what its claims
    presume and what speaks against that, and who signed its audit, if that was neither made nor verified here."""

    words: list[Text]
    times: list[tuple[Ticks, Ticks, Count] | None]
    name: Annotated[str, matching("[0-9a-f]{64}|")] = ""
    premises: list[Text] = field(default_factory=list)
    against: list[Text] = field(default_factory=list)
    by: Text = ""


@dataclass(frozen=True)
class Below:
    """The days on which what stands in a folder rests, each with its name for good; whether that is an answer to a log
    of events; of a year its number, the day on which it was made, and the days that it names without an audit; and the
    last names of machines of which it names no day."""

    days: dict[str, str]
    is_of_events: bool = False
    span: tuple[str, str] = ("", "")
    without_audit: list[str] = field(default_factory=list)
    without_days: list[str] = field(default_factory=list)


@dataclass(frozen=True)
class Compared:
    """What verifying a folder came to: whether all is as it was; verdicts, claims, and sums of captures; of a year the
    days that aren't shown; and the sum of audit.json, if that is verified."""

    status: Count
    lines: list[str]
    is_same: bool = False
    verdicts: list[str] = field(default_factory=list)
    claims: list[Claim] = field(default_factory=list)
    captures: list[str] = field(default_factory=list)
    hidden: list[str] = field(default_factory=list)
    sum: str = ""
