"""What year.json holds: the statements for a year, for each machine the file of its days, and the sums of its pages."""
from typing import Annotated

from ..fault import fault
from ..records import dataclass, field
from ..schema import Count, Name, Sum, Text, Time, is_name, is_time, length, or_nothing, read_typed, within
from ..units import now
from .entry import SKEW
from .files import YEAR


def is_of_days(name: str) -> bool:
    """Whether a file of days may be called so: what is called otherwise may be larger."""
    return is_name(name) and name.endswith(".days")


@dataclass(frozen=True)
class Stated:
    """What is said of a machine, and the file with its days: a line for each, with the day's name for good, who
    answers for it, and its folder."""

    machine: Text
    statement: Text
    shown: Count
    days: Count
    file: Annotated[str, is_of_days]
    sha256: Sum


@dataclass(frozen=True)
class Statements:
    """The year of all machines."""

    year: Annotated[int, within(1971, 9999)]
    made: Time
    signed: Annotated[str, or_nothing(is_time)]
    machines: Annotated[list[Stated], length(1, 100_000)] = field(default_factory=list)
    pages: dict[Name, Sum] = field(default_factory=dict)
    """The SHA-256 of each page that was left beside it."""


def read_statements(data: bytes) -> Statements:
    statements: Statements = read_typed(YEAR, Statements, data)
    if max(statements.made, statements.signed) > now(SKEW):
        raise fault(f"{YEAR} is dated in the future")
    return statements
