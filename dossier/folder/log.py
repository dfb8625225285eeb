"""A log of events, as CSV: of each row the machine, and what its clock showed. All its bytes are kept, so that it comes
back the same.
"""
import csv
import io
import re
from collections.abc import Iterator
from datetime import date
from functools import cache
from typing import NamedTuple

from ..fault import Fault, fault
from ..text import count, plain
from ..units import DAY, LAST_SECOND, SECOND

ADDED = "earliest", "latest", "verdict"
"""The columns that an answer has behind those of the log."""
MAX_OF_A_LOG, MAX_EVENTS = 1 << 28, 1_000_000
"""Bytes and rows of a log."""
MARK = "\ufeff"
"""What some programs write before a text, a byte order mark."""
READING = re.compile(r"(?:(\d{4}-\d\d-\d\d)T(\d\d):(\d\d):(\d\d)|(\d{1,10}))(?:\.(\d{1,9}))?(Z?)", re.ASCII)
"""A time in UTC or in Unix seconds, as `ntpaudit at --times` takes it."""
SHOWN = 60
"""Characters of a log that are told in a fault."""
UTF_16 = b"\xff\xfe", b"\xfe\xff"
"""How a text in UTF-16 begins."""
SEPARATOR = re.compile('"?sep=.?"?', re.ASCII | re.IGNORECASE)
"""A line by which a spreadsheet is told what stands between columns."""
BETWEEN = {";": "semicolons", "\t": "tabs"}
"""What some programs write between columns."""
LONG, UNCLOSED, RETURN = "field larger", "unexpected end", "new-line"
NO_CSV = {LONG: f"has a field of more than {csv.field_size_limit():,} characters: is a quote closed in it?",
          UNCLOSED: "has a quote that isn't closed: close it, or write two for one in a field",
          RETURN: "has a carriage return that ends no line: save it with line feeds",
          "": "has more behind a field's closing quote: put a comma there, or write two quotes for one in a field"}
"""What is wrong with a row, by how Python's words of it begin."""


class Reading(NamedTuple):
    """What a clock showed, as it is written, and the Unix nanoseconds between which it did, as long as its last digit
    stood."""

    text: str
    begin: int
    end: int


class Event(NamedTuple):
    """A row: its first line's number, its machine, what the clock showed, and all of the row but its line end."""

    line: int
    machine: str
    reading: Reading
    row: str


class Log(NamedTuple):
    """A log: its first row, which names the columns, and the end of that line; its events, and the line end of each;
    and which columns have the machine and what its clock showed."""

    head: str
    end: str
    events: list[Event]
    ends: list[str]
    columns: tuple[int, int]


@cache
def days_before(text: str) -> int:
    """Days from 1970 to a date; a ValueError if it is none."""
    return date.fromisoformat(text).toordinal() - date(1970, 1, 1).toordinal()


def reading_of(text: str) -> Reading | None:
    """The reading that a text is; None if it is none of a second that a claim can have."""
    said = READING.fullmatch(text)
    if not said or bool(said[1]) != bool(said[7]):
        return None
    if said[1]:
        hour, minute, second = int(said[2]), int(said[3]), int(said[4])
        try:
            whole = days_before(said[1]) * DAY + hour * 3600 + minute * 60 + second
        except ValueError:
            return None
        if hour > 23 or minute > 59 or second > 59:
            return None
    else:
        whole = int(said[5])
    if not 0 <= whole < LAST_SECOND:
        return None
    digits = said[6] or ""
    unit: int = 10 ** (9 - len(digits))
    begin = whole * SECOND + int(digits or 0) * unit
    return Reading(text, begin, begin + unit)


def why_none(text: str) -> str:
    """Why a text is no reading."""
    if not text:
        return "it has no time"
    shown = plain(text[:SHOWN])
    said = READING.fullmatch(text)
    if "," in text:
        return f"`{shown}` has a comma, and a point stands before the digits of a second"
    if re.search(r":\d\d:60", text):
        return f"`{shown}` is a second 60: of a leap second nothing can be said"
    if said and bool(said[1]) == bool(said[7]):
        return f"`{shown}` is no time from 1970-01-01T00:00:00Z to 2106-02-07T06:28:14Z"
    return f"`{shown}` is no reading, such as 2026-11-22T07:03:40.5Z, or Unix seconds: 1795331020.5"


def rows_of(text: str) -> Iterator[tuple[int, str, list[str]]]:
    """Of each row the number of its first line, all that stands in it, and its fields."""
    taken = list[str]()

    def lines() -> Iterator[str]:
        for line in io.StringIO(text, newline="\n"):
            taken.append(line)
            yield line
    reader, number = csv.reader(lines(), strict=True), 1
    while True:
        try:
            fields = next(reader, None)
        except csv.Error as error:
            raise no_csv(str(error), number, number + len(taken) - 1) from None
        if fields is None:
            return
        yield number, "".join(taken), fields
        number += len(taken)
        taken.clear()


def no_csv(said: str, first: int, last: int) -> Fault:
    """The fault of a row that is no CSV, by Python's words, and by its first line and the one at which that was seen:
    a field that is too long, or doesn't end, may have swallowed many lines."""
    begin = next(filter(said.startswith, NO_CSV))
    return fault(f"line {first if begin in (LONG, UNCLOSED) else last} of the log {NO_CSV[begin]}")


def check_head(line: str, wanted: set[str]) -> None:
    """Refuses a first line as some programs write it: one that names no columns, or has something else than commas
    between those that are wanted."""
    if SEPARATOR.fullmatch(line):
        raise fault(f"line 1 of the log is `{plain(line)}`: save it with commas, and without that line")
    names = {sign: {name.strip('"') for name in line.split(sign)} for sign in (",", *BETWEEN)}
    if wanted <= names[","]:
        return
    for sign, words in BETWEEN.items():
        if len(names[sign]) > 1 and (names[sign] & wanted or len(names[","]) == 1):
            raise fault(f"line 1 of the log has {words} between its columns: save it with commas")


def parted(number: int, row: str) -> tuple[str, str]:
    """A row and its line end."""
    end = "\r\n" if row.endswith("\r\n") else "\n" if row.endswith("\n") else ""
    row = row[:len(row) - len(end)]
    if row.endswith("\r"):
        raise fault(f"line {number} of the log ends with a carriage return alone: save it with line feeds")
    return row, end


def column_of(name: str, fields: list[str], option: str) -> int:
    """The number of the one column of a name."""
    if fields.count(name) != 1:
        many = "no column" if name not in fields else count(fields.count(name), "column")
        raise fault(f"the log's first line has {many} `{plain(name)}`: {option} names another one")
    return fields.index(name)


def event_of(number: int, row: str, fields: list[str], head: list[str], columns: tuple[int, int]) -> Event:
    """The event of a row; a fault if it is none."""
    if not fields:
        raise fault(f"line {number} of the log is blank")
    if len(fields) != len(head):
        raise fault(f"line {number} of the log has {count(len(fields), 'field')}, and the first line {len(head)}")
    machine, written = (fields[column] for column in columns)
    reading = reading_of(written)
    if reading is None:
        raise fault(f"line {number} of the log: {why_none(written)}")
    return Event(number, machine, reading, row)


def read_log(data: bytes, machine: str, time: str) -> Log:
    """The events of a log, by the columns that have the machine and what its clock showed."""
    if data.startswith(UTF_16):
        raise fault("line 1 of the log begins as UTF-16: save it as UTF-8")
    text = data.decode("utf-8", "surrogateescape")
    mark = MARK if text.startswith(MARK) else ""
    first = next(io.BytesIO(data), b"").decode("utf-8", "surrogateescape")
    check_head(first.removeprefix(MARK).rstrip("\r\n"), {machine, time})
    rows = rows_of(text.removeprefix(MARK))
    number, row, names = next(rows, (1, "", list[str]()))
    if not names:
        raise fault("the log's first line names no columns")
    for name in ADDED:
        if name in names:
            raise fault(f"the log has a column `{name}` already")
    columns = column_of(machine, names, "--machine"), column_of(time, names, "--time")
    head, end = parted(number, row)
    events, ends = list[Event](), list[str]()
    for number, row, fields in rows:
        body, own = parted(number, row)
        if len(events) == MAX_EVENTS:
            raise fault(f"line {number} of the log is that of more than {MAX_EVENTS:,} events: give a part of it")
        events.append(event_of(number, body, fields, names, columns))
        ends.append(own)
    return Log(mark + head, end or "\n", events, ends, columns)


def other_fields(log: Log, event: Event) -> list[str]:
    """What stands in the other columns of an event."""
    fields = next(csv.reader(io.StringIO(event.row, newline="")))
    return [field for number, field in enumerate(fields) if number not in log.columns]
