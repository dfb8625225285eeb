"""What audit.json holds: a record of a folder, with an entry for each audit in it."""
import json
import os
import re
from typing import Annotated, Any, Final, Literal

from .. import VERSION
from ..fault import DEVICE, REFUSED as INPUT_REFUSED, Fault, fault
from ..records import dataclass, field
from ..schema import (Address, Count, Mangled, Name, Nanoseconds, Seconds, Small, Sum, Text, Ticks, Time, is_name,
                      is_time, length, mangled, matching, or_nothing, parsed, said, typed, within)
from ..text import plain
from ..units import SECOND, TICKS, now
from .claim import Claim
from .files import AUDIT, CLAIM, JOINED, LEFT, LIMITS, is_capture, sum_of

Answer = Literal["yes", "refuted", "nothing fits", "no evidence", "open"]
"""What the program says."""
Verdict = Literal[Answer, "unsupported"]
YES: Final = "yes"
UNSUPPORTED: Final = "unsupported"
"""A yes against which the folder's own evidence speaks."""
REFUTED: Final = "refuted"
NOTHING_FITS: Final = "nothing fits"
NO_EVIDENCE: Final = "no evidence"
OPEN: Final = "open"
ANSWERED = (YES, UNSUPPORTED, REFUTED, NOTHING_FITS, NO_EVIDENCE, OPEN)
REFUSED, NOT_VERIFIED, DISPUTED = "refused", "not verified", "disputed"
"""There is no verdict; there is one that nobody made or verified here; and one that the second program disputes."""
WORST_FIRST = (DISPUTED, REFUTED, NOTHING_FITS, UNSUPPORTED, NO_EVIDENCE, OPEN, REFUSED, NOT_VERIFIED, YES)

Hull = tuple[Ticks, Ticks] | Literal["unbounded", "empty"]
"""Two ends in ticks, or a word."""
OF_A_DAY = r"\d{4}-\d\d-\d\d"
Day = Annotated[str, matching(OF_A_DAY)]
FEW = 8
Few = Annotated[list[Address], length(0, FEW)]


def side_of(hull: Hull, bound: int) -> int:
    """On which side of the bound a hull lies as a whole: 1 where the clock is ahead, -1 where it is behind, else 0."""
    if isinstance(hull, str):
        return 0
    return (hull[0] > bound) - (hull[1] < -bound)


def is_left(name: str) -> bool:
    """Whether an audit leaves a file of this name, seen from the record's folder."""
    day, _, file = name.rpartition("/")
    return file in LEFT | {CLAIM} and bool(re.fullmatch(OF_A_DAY, day)) if day else file in LEFT


def is_packable(name: str) -> bool:
    """Whether it is the name of a capture that isn't packed."""
    return is_capture(name) and is_capture(f"{name}.zst")


def is_made_anew(name: str) -> bool:
    """Whether it is what is made of captures, so that it needn't be there once these are packed."""
    return name.rpartition("/")[2] == JOINED


def line_of_sum(sum_: str, name: str) -> str:
    """A line as `sha256sum` prints it."""
    written = name.replace("\\", "\\\\").replace("\n", "\\n").replace("\r", "\\r")
    return f"{'' if written == name else chr(92)}{sum_}  {written}\n"


Left = Annotated[str, is_left]


@dataclass(frozen=True)
class Piece:
    """A piece of the envelope: its number, its ends in Unix seconds, and its hull."""

    piece: Count
    from_: Seconds
    to: Seconds
    hull: Hull


Gap = tuple[Nanoseconds, Nanoseconds]
"""Unix nanoseconds in which nothing was recorded that says something of the clock."""


@dataclass(frozen=True)
class Silence:
    """Unix nanoseconds between which nothing was recorded that says something of the clock; and how many requests of
    the client, and replies to it, were recorded in between."""

    after: Nanoseconds
    by: Nanoseconds
    requests: Count = 0
    replies: Count = 0


@dataclass(frozen=True)
class Move:
    """Between two records, in the order in which they were made, the clock was stepped, or moved faster than the claim
    grants."""

    after: Nanoseconds
    by: Nanoseconds
    """The times of the two, of which the second may be the earlier."""
    low: Ticks
    high: Ticks
    """By how much its error changed."""
    rate_ppb: Nanoseconds
    """How fast it moved at the least, in parts of 10^9, if it wasn't stepped."""
    is_step: bool = False
    """Whether no drift that a claim may grant does that."""
    until: Seconds = 0
    since: Seconds = 0
    """Up to which reading nothing was shown behind it, and from which on nothing before it; 0 if that isn't known."""

    @property
    def around(self) -> tuple[int, int]:
        """The outermost readings that the clock may have had just before it, or just behind it."""
        back = min(0, self.low * SECOND // TICKS)
        return self.after + back, self.by - back


@dataclass(frozen=True)
class Beyond:
    """From and to in Unix seconds between which the whole hull lay beyond the bound, on one side; its outermost
    ends."""

    from_: Seconds
    to: Seconds
    low: Ticks
    high: Ticks

    @property
    def hull(self) -> tuple[int, int]:
        return self.low, self.high


@dataclass(frozen=True)
class Stretch:
    """A part of the span between steps and gaps: its ends in Unix seconds, the outermost ends of the hull in it, and
    when the clock was beyond the bound for longest."""

    from_: Seconds
    to: Seconds
    hull: Hull
    beyond: Annotated[list[Beyond], length(0, FEW)] = field(default_factory=list)
    moves: Count = 0
    """How many moves of the clock lie before it."""


@dataclass(frozen=True)
class Conflict:
    """Two exchanges that can't both be with right servers: by the one the clock's error was at least so much when the
    request was recorded, by the other at most so much when the reply was."""

    low: Address
    request: Count
    asked: Nanoseconds
    least: Ticks
    high: Address
    reply: Count
    answered: Nanoseconds
    most: Ticks


@dataclass(frozen=True)
class Camp:
    """Servers that agree with one another, and the outermost ends of what they say of the error where no other camp
    agrees with them; and the first and the last of these Unix seconds."""

    servers: list[Address]
    low: Ticks
    high: Ticks
    from_: Seconds
    to: Seconds


@dataclass(frozen=True)
class Cause:
    """Why it isn't a yes, where the word says all; what shows it stands in the entry."""

    why: Literal["exceeds", "unbounded", "off", "evidence"]


@dataclass(frozen=True)
class AtTick:
    """The claim stays open at a Unix tick, with its hull."""

    why: Literal["tick"]
    tick: Ticks = 0
    hull: Hull | None = None


@dataclass(frozen=True)
class Gaps:
    """The longest times in which no server was heard, in order of time, and how many there are."""

    why: Literal["gap"]
    gaps: Annotated[list[Silence], length(0, FEW)] = field(default_factory=list)
    count: Count = 0


@dataclass(frozen=True)
class Misfit:
    """Nothing fits: the drift that was tried, if a course fits with it; with how many wrong groups one fits; the
    conflicts; the servers that are apart; and the camps into which the servers fall."""

    why: Literal["apart", "drift", "step", "many"]
    count: Count = 0
    drift_ppb: Count = 0
    conflicts: list[Conflict] = field(default_factory=list)
    apart: list[Address] = field(default_factory=list)
    camps: Annotated[list[Camp], length(0, 32)] = field(default_factory=list)


@dataclass(frozen=True)
class Silent:
    """How many groups have a sample; and if the client asked none of its servers, who asks in the capture, and whom the
    client asks."""

    why: Literal["silent"]
    heard: Count = 0
    asking: Few = field(default_factory=list)
    asked: Few = field(default_factory=list)


@dataclass(frozen=True)
class Elsewhere:
    """When the last NTP packet before the span was recorded and the first after it; 0 if there is none."""

    why: Literal["beside"]
    recorded: Gap = (0, 0)


Reason = Cause | AtTick | Gaps | Misfit | Silent | Elsewhere
"""Why it isn't a yes, and what shows it."""
REASONS: dict[str, tuple[type, ...]] = {
    REFUTED: (Cause, Gaps), UNSUPPORTED: (Cause,), NOTHING_FITS: (Misfit,), NO_EVIDENCE: (Silent, Elsewhere),
    OPEN: (AtTick,), YES: (type(None),)}
"""Of what kinds the reason of each verdict is."""


@dataclass(frozen=True)
class Server:
    address: Address
    group: Small
    samples: Count


@dataclass(frozen=True)
class Refutation:
    """A course of events: its error at a reading of the clock, in ticks, and the servers that are wrong in it."""

    error: Ticks
    false: Annotated[list[Small], length(0, 32)]
    reading: Ticks


@dataclass(frozen=True)
class Bare:
    """A warning of which the kind says all."""

    kind: Literal["no-drift", "no-list", "zone"]


@dataclass(frozen=True)
class Figure:
    """A warning with a number: of samples, servers or records, or in the unit of what the claim grants."""

    kind: Literal["leap", "sources", "flood", "slip", "drift", "reading", "oscillator", "rate", "offset", "stamps"]
    count: Nanoseconds = 0


@dataclass(frozen=True)
class OfServers:
    kind: Literal["apart", "interleaved", "address", "wrong", "contrary"]
    servers: list[Address] = field(default_factory=list)


@dataclass(frozen=True)
class Between:
    """How far a span goes beyond the packets that count, before and after them; or between which times no step is
    logged."""

    kind: Literal["outside", "unlogged"]
    before: Nanoseconds = 0
    after: Nanoseconds = 0


@dataclass(frozen=True)
class Falls:
    """How often times of records fall back, and the first record at which they do, from when to when; or by more than a
    second, which only a clock does that is set."""

    kind: Literal["falls", "fell"]
    count: Count = 0
    record: Count = 0
    before: Nanoseconds = 0
    after: Nanoseconds = 0


@dataclass(frozen=True)
class Quiet:
    """How many times there are in which no server was heard, the longest of them, and what was recorded then."""

    kind: Literal["silence"]
    count: Count = 0
    before: Nanoseconds = 0
    after: Nanoseconds = 0
    requests: Count = 0
    replies: Count = 0


@dataclass(frozen=True)
class Far:
    """How many pieces are far from every sample, the farthest, and how far it is."""

    kind: Literal["far"]
    count: Count = 0
    distance: Nanoseconds = 0
    piece: Piece | None = None


@dataclass(frozen=True)
class LeapSeconds:
    kind: Literal["leap-second"]
    seconds: list[tuple[Seconds, Annotated[int, within(-9, 9)]]] = field(default_factory=list)


@dataclass(frozen=True)
class ListEnds:
    kind: Literal["leap-ends"]
    before: Nanoseconds = 0


@dataclass(frozen=True)
class OneReference:
    kind: Literal["reference"]
    reference: Annotated[str, matching("[0-9a-f]{0,8}")] = ""


@dataclass(frozen=True)
class ForATime:
    """Servers that stand apart for a time, and how many other such times there are."""

    kind: Literal["apart-for-a-time"]
    count: Count = 0
    before: Nanoseconds = 0
    after: Nanoseconds = 0
    servers: list[Address] = field(default_factory=list)


@dataclass(frozen=True)
class Caught:
    """A server that a certificate by covers leaves out throughout, the others that it contradicts, and when its
    packets were recorded by which it does."""

    kind: Literal["caught"]
    servers: list[Address] = field(default_factory=list)
    others: list[Address] = field(default_factory=list)
    times: list[Nanoseconds] = field(default_factory=list)


@dataclass(frozen=True)
class Logged:
    """How many steps the client logged, and when the first was."""

    kind: Literal["step", "logged"]
    count: Count = 0
    before: Nanoseconds = 0


@dataclass(frozen=True)
class Torn:
    """How many files end inside a record, the first of them, and up to which byte it counts."""

    kind: Literal["torn"]
    count: Count = 0
    file: Annotated[str, or_nothing(is_name)] = ""
    place: Count = 0


@dataclass(frozen=True)
class Again:
    """How many packets are left out that were recorded once more, which files have the first of them, and by how much
    the stamps of a packet differ at the most."""

    kind: Literal["twice"]
    count: Count = 0
    file: Annotated[str, or_nothing(is_name)] = ""
    beside: Annotated[str, or_nothing(is_name)] = ""
    spread: Nanoseconds = 0


@dataclass(frozen=True)
class Unread:
    """How many lines of a file are of no known form."""

    kind: Literal["unread"]
    count: Count = 0
    file: Annotated[str, or_nothing(is_name)] = ""


Alert = (Bare | Figure | OfServers | Between | Falls | Quiet | Far | LeapSeconds | ListEnds | OneReference | ForATime
         | Caught | Logged | Torn | Again | Unread)
"""A warning that stands beside a verdict."""
OF_LEAPS = {"leap-second": "a leap second", "leap-ends": "the list of leap seconds has ended",
            "no-list": "no list of leap seconds"}
AGAINST = {"drift": "more drift than is granted", "reading": "a greater allowance than is granted",
           "step": "a logged step", "rate": "a logged frequency", "offset": "a logged offset",
           "logged": "another logged step", "fell": "times of records that fall back",
           "stamps": "stamps of one packet that differ", **OF_LEAPS}
"""The warnings that take a yes away, in short: by the folder's own evidence or by the list of leap seconds something
that the claim grants isn't so, or isn't known."""


@dataclass(frozen=True)
class LeapList:
    """What the list of leap seconds says that was looked up, or why there was none."""

    file: Text
    fault: Text = ""
    sha256: Annotated[str, matching("[0-9a-f]{64}|")] = ""
    good_until: Seconds = 0
    seconds: list[tuple[Seconds, Annotated[int, within(-9, 9)]]] = field(default_factory=list)


@dataclass(frozen=True)
class Leap:
    """What a list of leap seconds says of the span and all exchanges."""

    says: Literal["none", "within", "expired", "no list"]
    from_: Seconds
    to: Seconds
    seconds: list[tuple[Seconds, Annotated[int, within(-9, 9)]]] = field(default_factory=list)


@dataclass(frozen=True)
class Entry:
    """One audit: of a whole claim, or of one day of it."""

    part: Literal["."] | Day
    """The folder of its files, seen from the record's: `.`, or a day such as `2026-11-22`."""
    verdict: Verdict
    claim: Claim
    envelope_step: Annotated[int, within(1, 86_400)]
    """Seconds of the envelope's pieces."""
    least_ns: Nanoseconds | None
    """The least bound that a certificate carries; None if no course of events fits, or too few groups have a
    sample."""
    worst: Piece
    """The piece that needs the least bound, or the first that is unbounded or empty."""
    counts: dict[Annotated[str, matching("[a-z]{1,20}")], Count]
    servers: Annotated[list[Server], length(1, 32)]
    leap: Leap
    reason: Reason | None = None
    refutation: Refutation | None = None
    """That of the claim; or, at a yes, of the same claim with the bound 0."""
    warnings: Annotated[list[Alert], length(0, 100_000)] = field(default_factory=list)
    moves: Annotated[list[Move], length(0, FEW)] = field(default_factory=list)
    """When the clock was stepped, if just so often, or moved faster than is granted."""
    parts: Annotated[list[Stretch], length(0, 100)] = field(default_factory=list)
    """What holds between steps and gaps, in the order in which it was recorded."""
    outputs: dict[Left, Sum] = field(default_factory=dict)
    """The SHA-256 of each file that the audit left, by its name seen from the record's folder."""

    def __post_init__(self) -> None:
        is_against = any(alert.kind in AGAINST for alert in self.warnings)
        if not isinstance(self.reason, REASONS[self.verdict]) or "samples" not in self.counts or \
                self.verdict == UNSUPPORTED and not is_against:
            raise Mangled(f"entry {self.part}")

    def within(self, name: str) -> str:
        """A file of this audit, by its name seen from the record's folder."""
        return name if self.part == "." else f"{self.part}/{name}"

    @property
    def is_off(self) -> bool:
        """Whether the clock was beyond its bound in the last part, if it isn't known to have moved since."""
        is_last = self.verdict != NOTHING_FITS or not self.parts or self.parts[-1].moves == len(self.moves)
        return bool(is_last and self.parts and self.parts[-1].beyond)

    @property
    def ends_off(self) -> bool:
        return self.is_off and self.parts[-1].beyond[-1].to == self.claim.last

    @property
    def is_void(self) -> bool:
        """Whether nothing that rests on the drift holds: no course fits, and it isn't known between which moves one
        would."""
        return self.verdict == NOTHING_FITS and not self.moves

    @property
    def answer(self) -> Answer:
        """What the program says, of which the verdict was made. (`Elsewhere` is made of a refutation alone.)"""
        if self.verdict == UNSUPPORTED:
            return YES
        return REFUTED if isinstance(self.reason, Elsewhere) else self.verdict


@dataclass(frozen=True)
class Refusal:
    """Why there is no verdict: the fault's line and status, and the program's words about it."""

    line: Text
    status: Annotated[int, within(2, 70)]
    why: Text = ""
    what: Text = ""


def refusal_by(error: Fault) -> Refusal:
    """A fault as JSON has it: a name in it may hold bytes that are no UTF-8."""
    return Refusal(plain(error.line), error.status, plain(error.why), plain(error.what))


BUILD = r"ntpaudit(?: [0-9]{1,9}(?:\.[0-9]{1,9}){0,3}(?: \(logic [0-9a-f]{1,64}\))?)?"
"""What `ntpaudit --version` prints. It stands in statements that somebody signs, so it is no free text."""


@dataclass(frozen=True)
class Made:
    """The program by which an audit was made; its version is nothing if it didn't say one."""

    version: Annotated[str, matching(f"{BUILD}|")]
    sha256: Sum


@dataclass(frozen=True)
class Options:
    """What decides what an audit leaves: with other options a folder is audited again."""

    step: Annotated[int, within(1, 86_400)] | None = None
    days: bool = False


@dataclass(frozen=True)
class Kept:
    """What versions before 1.1.0 wrote when they packed captures, each in a file with `.zst` behind its name."""

    sums: dict[Annotated[str, is_packable], Sum] = field(default_factory=dict)
    """The SHA-256 of each packed file, by the name of the capture in it."""


@dataclass(frozen=True)
class Record:
    """What audit.json says about a folder."""

    dossier: Annotated[int, within(VERSION, VERSION)]
    program: Made
    options: Options
    inputs: dict[Name, Sum]
    """The SHA-256 of each input, by its name."""
    capture: Annotated[str, or_nothing(is_name)]
    """The capture that was read: the one input, or the file that was made of all."""
    made: Time
    seconds: Annotated[float, within(0, 10**9)]
    signed: Annotated[str, or_nothing(is_time)]
    """When this was signed, as the signer says; nothing if it wasn't."""
    entries: Annotated[list[Entry], length(0, 40_000)]
    refusal: Refusal | None = None
    leap_seconds: LeapList | None = None
    kept: Kept | None = None

    def __post_init__(self) -> None:
        if self.kept and not self.kept.sums.keys() <= self.inputs.keys():
            raise Mangled("kept")
        if bool(self.entries) == bool(self.refusal) or bool(self.entries) != bool(self.leap_seconds):
            raise Mangled("entries")
        if self.capture not in {"", JOINED, *self.inputs} or \
                self.entries and (self.capture == JOINED) != (JOINED in self.outputs):
            raise Mangled("capture")

    @property
    def is_future(self) -> bool:
        """Whether it is dated in the future."""
        return max(self.made, self.signed) > now(SKEW)

    @property
    def status(self) -> int:
        return self.refusal.status if self.refusal else int(any(entry.verdict != YES for entry in self.entries))

    @property
    def packed(self) -> dict[str, str]:
        """The SHA-256 of each packed file, by its own name, if an older version wrote it down."""
        return {f"{name}.zst": sum_ for name, sum_ in (self.kept.sums if self.kept else {}).items()}

    @property
    def name(self) -> str:
        """The name for good of what was audited: the SHA-256 of the lines that `sha256sum` prints of claim, captures,
        evidence and answers, by their names. It stays when captures are packed, and when the folder is signed."""
        files = {name: sum_ for name, sum_ in (self.inputs | self.outputs).items() if not is_made_anew(name)}
        lines = (line_of_sum(files[name], name) for name in sorted(files, key=os.fsencode))
        return sum_of("".join(lines).encode("utf-8", "surrogateescape"))

    @property
    def says(self) -> str:
        """The SHA-256 of what is said of these files: verdicts, reasons, figures and warnings. Who says it, when, and
        by which list of leap seconds, may change when somebody verifies and signs the folder later."""
        every = {name: value for name, value in said(self).items() if name not in LATER}
        for entry in every["entries"]:
            entry["leap"] = {name: entry["leap"][name] for name in ("from", "to")}
            entry["warnings"] = [alert for alert in entry.get("warnings", ()) if alert["kind"] not in OF_LEAPS]
        return sum_of(json.dumps(every, sort_keys=True).encode())

    @property
    def captures(self) -> frozenset[str]:
        """The sums of the captures."""
        return frozenset(sum_ for name, sum_ in self.inputs.items() if is_capture(name))

    @property
    def recordings(self) -> frozenset[str]:
        """The sums by which a recording is known again: of the captures, of what was unpacked or joined of them, and of
        what they show at worst, to a tick, which stays if a record is added elsewhere."""
        worst = (entry.worst for entry in self.entries if not isinstance(entry.worst.hull, str))
        return self.captures | {sum_of(f"{one.from_} {one.to} {one.hull}".encode()) for one in worst} | \
            {sum_ for name, sum_ in self.outputs.items() if name.rpartition("/")[2] == JOINED}

    @property
    def verdicts(self) -> list[str]:
        return [entry.verdict for entry in self.entries] or [REFUSED]

    @property
    def outputs(self) -> dict[str, str]:
        return {name: sum_ for entry in self.entries for name, sum_ in entry.outputs.items()}


LATER = {"program", "made", "seconds", "signed", "kept", "leap_seconds"}
"""What may be another in audit.json once it is signed or its captures are packed."""
SKEW = 300
"""Seconds by which another machine's clock may be ahead."""
FUTURE = f"{AUDIT} is dated in the future"


def record_text(record: Record) -> bytes:
    """A record as JSON, a line for the folder and one for each entry."""
    of_folder = said(record)
    entries = ",\n".join(json.dumps(entry) for entry in of_folder.pop("entries"))
    data = f'{json.dumps(of_folder)[:-1]}, "entries": [\n{entries}\n]}}\n'.encode()
    if len(data) > LIMITS[AUDIT]:
        raise fault(f"{AUDIT} would be too big: audit fewer days at once", INPUT_REFUSED)
    return data


def read_record(data: bytes, of_any_time: bool = False) -> Record:
    """The record that audit.json holds; a fault if it is none, or of another form, or dated in the future."""
    try:
        value: Any = parsed(data)
        if isinstance(value, dict) and type(value.get("dossier")) is int and value["dossier"] != VERSION:
            raise fault("not audited", DEVICE)
        record: Record = typed(Record, value)
        if record.is_future and not of_any_time:
            raise fault(FUTURE)
        return record
    except Mangled as error:
        raise mangled(AUDIT, str(error)) from None
    except ValueError:
        raise mangled(AUDIT, "no JSON") from None
