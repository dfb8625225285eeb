"""The fields of the lines that the program prints: of each its name, its kind and its heading. What a second reading
writes or reads of a line goes by these tables, and tests/pages/test_docs.py holds docs/FORMATS.md to them.

With `--human` an end of a range is in milliseconds with six decimals, rounded outwards, and a Unix second is a time of
UTC. Columns stand one space apart, and everything ends where its column ends.
"""
from collections.abc import Callable, Iterable, Mapping
from datetime import datetime, timedelta
from functools import cache
from typing import NamedTuple

TICKS = 1 << 32
NO_ENDS = "unbounded", "empty"
"""What stands in place of the two ends of a hull."""


def milliseconds(nanoseconds: int) -> str:
    whole, part = divmod(abs(nanoseconds), 10**6)
    return f"{'-' if nanoseconds < 0 else ''}{whole}.{part:06}"


def low(ticks: str) -> str:
    return milliseconds(int(ticks) * 10**9 // TICKS)


def high(ticks: str) -> str:
    return milliseconds(-(-int(ticks) * 10**9 // TICKS))


def time(second: str | int) -> str:
    return (datetime(1970, 1, 1) + timedelta(seconds=int(second))).isoformat() + "Z"


class Kind(NamedTuple):
    """How wide a column of such fields is, and how a field is shown."""
    width: int
    show: Callable[[str], str]


NUMBER, ADDRESS, SECOND = Kind(8, str), Kind(15, str), Kind(20, time)
LOW, HIGH = Kind(14, low), Kind(14, high)


class Column(NamedTuple):
    """A field, and the word before it in a program's line."""
    name: str
    kind: Kind
    heading: str
    word: str = ""


Columns = tuple[Column, ...]
SERVER = Column("SERVER", ADDRESS, "server")
HULL = Column("LOW", LOW, "low error ms"), Column("HIGH", HIGH, "high error ms")

# ---- the lines
LISTING = ("record time source destination version mode leap stratum precision delay dispersion identifier reference "
           "origin receive transmit first last t2 t3").split()
"""The fields of `list`, which has no headings."""

COUNTS = ("records requests replies samples version leap stratum precision zero norequest ambiguous warnings").split()
"""The names in the line of counts, each before its number."""

SAMPLE = (
    Column("sample", NUMBER, "sample"), SERVER, Column("request", NUMBER, "request"), Column("reply", NUMBER, "reply"),
    Column("low offset", LOW, "low offset ms", "offset"), Column("high offset", HIGH, "high offset ms"),
    Column("low delay", LOW, "low delay ms", "delay"), Column("high delay", HIGH, "high delay ms"),
    Column("LOW", LOW, "low error ms", "low"), Column("HIGH", HIGH, "high error ms", "high"))
MOMENT = SERVER, *HULL
"""A line of `at`, whose last line has the word `hull` for a server."""

NUMBERED = Column("K", NUMBER, "piece")
PIECE = NUMBERED, Column("FROM", SECOND, "begin"), Column("TO", SECOND, "end"), *HULL
PIECE_OF_SERVER = NUMBERED, SERVER, *HULL
PIECES_WITH_SERVERS = *PIECE, SERVER
"""What `envelope --servers` shows of both."""


@cache
def form(columns: Columns) -> str:
    return " ".join(f"{column.word} %s".lstrip() for column in columns)


def written(columns: Columns, *values: object) -> str:
    """A program's line. A hull without ends has a word for the first, and nothing for the second."""
    return form(columns) % values if values[-1] != "" else form(columns[:-1]) % values[:-1]


def counted(**counts: int) -> str:
    """The line of counts: 0 where nothing is given."""
    return " ".join(f"{name} {counts.get(name, 0)}" for name in COUNTS)


def read(columns: Columns, line: str) -> dict[str, str]:
    """The fields of a program's line by their names."""
    words, found = line.split(" "), dict[str, str]()
    for column in columns:
        is_without = column.name == "HIGH" and found["LOW"] in NO_ENDS
        before = words.pop(0) if column.word else ""
        assert before == column.word, line
        found[column.name] = "" if is_without else words.pop(0)
    assert not words, line
    return found


# ---- what is shown of them
def cells(columns: Columns, fields: Mapping[str, str]) -> list[str]:
    texts = (fields.get(column.name, "") for column in columns)
    return [text if text in ("", *NO_ENDS) else column.kind.show(text) for text, column in zip(texts, columns)]


def table(columns: Columns, rows: Iterable[Mapping[str, str]]) -> list[str]:
    """The headings, and the rows below them."""
    lines = [[column.heading for column in columns], *(cells(columns, row) for row in rows)]
    return [" ".join(f"{text:>{column.kind.width}}" for text, column in zip(line, columns)).rstrip() for line in lines]
