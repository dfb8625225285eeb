"""What events.json holds: on what an answer to a log of events rests."""
from typing import Annotated, Literal

from ..fault import fault
from ..records import dataclass, field
from ..schema import Name, Rule, Sum, Text, Time, is_time, length, matching, or_nothing, read_typed
from ..units import now
from .entry import SKEW, Made
from .files import EVENTS
from .result import MAX_FOLDERS

MAX_OF_A_PATH = 4_096


def is_path(path: str) -> bool:
    """Whether it may be the path of a folder, its bytes as Python has them."""
    try:
        return len(path.encode("utf-8", "surrogateescape")) <= MAX_OF_A_PATH and "\0" not in path
    except UnicodeEncodeError:
        return False


Path = Annotated[str, is_path]
FEW = Rule(lambda names: len(names) <= MAX_FOLDERS, (("maxProperties", MAX_FOLDERS),))
"""No more names than folders of a machine are looked at."""
Order = Literal["given", "time", "earliest", "latest"]
Unit = Literal["second", "minute", "day"]


@dataclass(frozen=True)
class Asked:
    """What was asked for: the columns that have the machine and what its clock showed, in which order the rows come
    back, and of a page how long its timeline is, when it begins, and its heading."""

    machine: Text = "machine"
    time: Text = "time"
    sort: Order = "given"
    page: Unit | None = None
    begin: Text = ""
    title: Text = "Events"


@dataclass(frozen=True)
class Resting:
    """A machine as it was named, and its folder, seen from that of the answer; and of each folder in it that holds an
    event, `.` for that itself, its name for good, nothing if that isn't known."""

    machine: Path
    path: Path
    days: Annotated[dict[Name, Annotated[str, matching("[0-9a-f]{64}|")]], FEW] = field(default_factory=dict)
    by: Annotated[dict[Name, Text], FEW] = field(default_factory=dict)
    """Who signed those of them that count by that, since nobody made them again where the answer was made."""


@dataclass(frozen=True)
class Events:
    """An answer to a log: by which program and when it was made, what was asked for, the sums of the log, of the answer
    and of the page, and the folders on which it rests."""

    program: Made
    made: Time
    asked: Asked
    log: Sum
    answer: Sum
    page: Sum | None
    machines: Annotated[list[Resting], length(0, 100_000)] = field(default_factory=list)
    signed: Annotated[str, or_nothing(is_time)] = ""
    """When this was signed, as the signer says; nothing if it wasn't."""


def read_events(data: bytes) -> Events:
    events: Events = read_typed(EVENTS, Events, data)
    if max(events.made, events.signed) > now(SKEW):
        raise fault(f"{EVENTS} is dated in the future")
    return events
