"""A page of a log of events: a timeline of a second, a minute or a day, on which bars show between which times each
was. A line stands where all above it is proved to be before all below it.
"""
import os
from collections.abc import Iterator
from typing import NamedTuple

from ..fault import USAGE, Fault, fault
from ..fleet.machines import days_among, is_day
from ..fleet.events import (Answered, EventsCall, Row, Working, csv_of, latest_so_far, machines_in, notes_of,
                            stated)
from ..folder.files import EVENTS, data_named
from ..folder.log import MAX_OF_A_LOG, other_fields, read_log, reading_of
from ..schema import json_text
from ..text import note
from ..units import DAY, SECOND, TICKS, ceil_div, civil, earliest, latest, now, thousandths
from .figure import WIDTH, XMLNS, element, path
from .names import Split
from .templates import page, put, templates

LENGTHS = {"second": 1, "minute": 60, "day": DAY}
"""Seconds of a timeline."""
MAX_ROWS, FEW = 500, 6
"""Events on a page, and of each the others that are named from which it can't be told."""
MARKS = {"second": 10, "minute": 6, "day": 24}
"""Into how many parts a timeline is cut."""
HEIGHT, LEAST = 16, 24
"""Pixels of a bar's row, and how wide a bar is at least, in the picture's own units."""
MAX_OF_A_TEXT = 80


class Bar(NamedTuple):
    """A row of the page: its line in the log, its machine, what its clock showed, and what else stands there; when it
    was, and within how many milliseconds; the bar; from which others its order can't be told, and how many more; and
    whether all above is before all from here on."""

    line: int
    machine: str
    reading: str
    others: str
    first: str
    last: str
    width: str
    words: str
    bar: str
    unclear: list[int]
    more: int
    is_cut: bool


def begin_of(answer: Answered) -> int:
    """The Unix second at which the timeline begins: the one that was asked for, or that of the first event, cut to its
    length."""
    length = LENGTHS[answer.asked.page or "second"]
    if asked := reading_of(answer.asked.begin):
        return asked.begin // SECOND // length * length
    first = min((row.time[0] for row in answer.rows if row.time), default=0) // TICKS
    return first // length * length


def shown(answer: Answered, begin: int) -> list[Row]:
    """The events that may lie in the timeline, by their earliest times."""
    first, last = begin * TICKS, (begin + LENGTHS[answer.asked.page or "second"]) * TICKS
    inside = [row for row in answer.rows if row.time and row.time[0] < last and row.time[1] >= first]
    return sorted(inside, key=lambda row: row.time[:2] if row.time else (0, 0))


def cuts(rows: list[Row]) -> list[bool]:
    """Of each row whether all above are proved to be before it and all below it."""
    times = [row.time for row in rows if row.time]
    lasts = latest_so_far([time[1] for time in times])
    return [False, *(last < time[0] for last, time in zip(lasts, times[1:]))]


def unclear(rows: list[Row]) -> list[list[int]]:
    """Of each row the lines of those of which it isn't proved which was first."""
    found: list[list[int]] = [[] for _ in rows]
    for k, row in enumerate(rows):
        for j in range(k + 1, len(rows)):
            other = rows[j]
            if row.time and other.time and row.time[1] < other.time[0]:
                break  # (the others begin later still)
            if not row.is_before(other) and not other.is_before(row):
                found[k].append(other.event.line)
                found[j].append(row.event.line)
    return [sorted(lines) for lines in found]


def bar_of(row: Row, begin: int, length: int, parts: int) -> str:
    """The bar of an event, as a picture that is stretched."""
    assert row.time
    first, last = (min(max(0, (tick - begin * TICKS) * WIDTH // (length * TICKS)), WIDTH) for tick in row.time[:2])
    first = max(0, min(first, WIDTH - LEAST))
    grid = "".join(f"M{WIDTH * k // parts} 0V{HEIGHT}" for k in range(parts + 1))
    drawn = f"M{first} 3H{max(last, first + LEAST)}V{HEIGHT - 3}H{first}Z"
    return element("svg", path("grid", grid), path("event", drawn), xmlns=XMLNS, viewBox=f"0 0 {WIDTH} {HEIGHT}",
                   preserveAspectRatio="none", class_="bar", role="img",
                   aria_label=f"{earliest(row.time[0])} to {latest(row.time[1])}")


def bars(answer: Answered, rows: list[Row], begin: int) -> Iterator[Bar]:
    unit = answer.asked.page or "second"
    for row, is_cut, others in zip(rows, cuts(rows), unclear(rows)):
        assert row.time
        beside = ", ".join(filter(None, other_fields(answer.log, row.event)))
        width = thousandths(ceil_div((row.time[1] - row.time[0]) * 1_000_000, TICKS))
        yield Bar(row.event.line, row.event.machine, row.event.reading.text, beside[:MAX_OF_A_TEXT],
                  earliest(row.time[0]), latest(row.time[1]), width, row.words,
                  bar_of(row, begin, LENGTHS[unit], MARKS[unit]), others[:FEW], len(others[FEW:]), is_cut)


def marks_of(begin: int, unit: str) -> list[str]:
    """What stands at the parts of a timeline."""
    if unit == "second":
        return [f".{k}" for k in range(10)]
    return [f":{k}0" for k in range(6)] if unit == "minute" else [f"{k:02}" for k in range(24)]


def page_of(answer: Answered, made: str) -> bytes:
    """The page of an answer, as it was put together at a time."""
    begin, unit = begin_of(answer), answer.asked.page or "second"
    every = shown(answer, begin)
    rows, timed = every[:MAX_ROWS], sum(row.time is not None for row in answer.rows)
    return page("events.html", 0, title=answer.asked.title, made=made, bars=list(bars(answer, rows, begin)),
                begin=civil(begin), unit=unit, marks=marks_of(begin, unit), number=len(answer.rows), timed=timed,
                machines=len({row.event.machine for row in answer.rows}), beside=timed - len(every),
                left=len(every) - len(rows), premises=answer.premises)


def write_events(file: str, folders: list[str], call: EventsCall, split: str | None) -> int:
    """Answers a log, to standard output or into a folder. The status is 0 if each event has its times, 1 if some have
    none, or that of the worst folder."""
    if call.asked.page and not split:
        raise fault("--page takes --split: the page is written beside the log and its answer", USAGE)
    if call.asked.begin and not reading_of(call.asked.begin):
        raise fault("--from names a time, such as 2026-11-22T07:03:40Z", USAGE)
    place = Split(split, folders, EVENTS) if split else None
    if call.asked.page:
        templates()
    try:
        data = data_named(file, MAX_OF_A_LOG)
        log = read_log(data, call.asked.machine, call.asked.time)
    except Fault as error:
        raise error.of(os.path.basename(file)) from None
    audits = days_among([folder for folder in folders if not is_day(os.path.basename(folder))], call.seconds)
    answer = Working(call, log, machines_in(folders, audits)).answer()
    for line in [*answer.faults, *notes_of(answer.rows)]:
        note(line)
    if not place:
        put(csv_of(answer), None)
        return answer.status
    events, files = stated(call, data, answer, now(), place.path)
    for name, made in files.items():
        place.put(made, name)
    place.put(json_text(events), EVENTS)
    place.end()
    return answer.status
