"""What a picture draws of an envelope: round numbers at its sides, and a cell for each piece, or for each column of it
if the pieces are too many.

A cell of several pieces has the extremes of what falls into it: the lowest low end and the highest high end, never an
average.
"""
from collections.abc import Iterator
from datetime import datetime, timezone
from typing import NamedTuple

from ..folder.answers import Envelope
from ..units import DAY, TICKS
from ..verdict.judgement import is_beyond

COLUMNS = 1000
MAX_STROKES = 10_000
"""Strokes in a picture; with many servers the columns are fewer."""
SECONDS = [1, 2, 5, 10, 15, 30, 60, 120, 300, 600, 900, 1800, 3600, 7200, 10800, 21600, 43200]
TICKS_PER_MS = TICKS / 1000


class Cell(NamedTuple):
    """From and to in parts of the picture's width, 0 to 1; the hull's extremes, in ticks, if any of it is bounded; the
    worst that fails in it; and the extremes of each server's intervals."""

    begin: float
    end: float
    hull: tuple[int, int] | None
    mark: str
    servers: list[tuple[int, int] | None]


def cells_of(envelope: Envelope, bound: int) -> list[Cell]:
    """The cells of a picture, from left to right."""
    first, last = envelope.begins[0], envelope.ends[-1]
    width = max(1, last - first)
    columns = min(COLUMNS, MAX_STROKES // max(1, len(envelope.servers)))
    if first == last:
        edges = [(0, 1, 0.0, 1.0)]
    elif len(envelope.hulls) <= columns:
        edges = [(k, k + 1, (begin - first) / width, (end - first) / width)
                 for k, (begin, end) in enumerate(zip(envelope.begins, envelope.ends))]
    else:
        edges = list(column_edges(len(envelope.hulls), columns))
    return [cell_of(envelope, bound, *edge) for edge in edges]


def column_edges(pieces: int, columns: int) -> Iterator[tuple[int, int, float, float]]:
    """Each column with the pieces that it touches. The pieces are of one length, but for the last."""
    for column in range(columns):
        yield column * pieces // columns, -(-(column + 1) * pieces // columns), column / columns, (column + 1) / columns


def cell_of(envelope: Envelope, bound: int, start: int, stop: int, begin: float, end: float) -> Cell:
    """The cell of some pieces, from `begin` to `end` in parts of the width."""
    hulls = envelope.hulls[start:stop]
    bounded = [hull for hull in hulls if not isinstance(hull, str)]
    lows, highs = [hull[0] for hull in bounded], [hull[1] for hull in bounded]
    hull = (min(lows), max(highs)) if bounded else None
    fails = {"empty": "empty" in hulls, "beyond": hull and is_beyond(hull, bound), "unbounded": "unbounded" in hulls}
    return Cell(begin, end, hull, next((word for word, does in fails.items() if does), ""),
                [extremes(low[start:stop], high[start:stop]) for low, high in envelope.servers.values()])


def extremes(lows: list[int], highs: list[int]) -> tuple[int, int] | None:
    """The outermost ends of the intervals that hold anything."""
    if len(lows) == 1:
        return (lows[0], highs[0]) if lows[0] <= highs[0] else None
    held = [(low, high) for low, high in zip(lows, highs) if low <= high]
    return (min(low for low, _ in held), max(high for _, high in held)) if held else None


def round_step(span: float, most: int) -> float:
    """The least step of 1, 2 or 5 times a power of ten that cuts a span into no more than so many parts."""
    power = 10.0 ** -9
    while True:
        for step in (power, 2 * power, 5 * power):
            if span / step <= most:
                return step
        power *= 10


def ms_marks(low: int, high: int, most: int = 6) -> list[tuple[float, str]]:
    """Round milliseconds between two ends in ticks: each in ticks, and as it is written."""
    step = round_step((high - low) / TICKS_PER_MS, most)
    decimals = max(0, len(f"{step:.9f}".rstrip("0").split(".")[1]))
    marks, k = [], -int(-low / TICKS_PER_MS // step)
    while k * step * TICKS_PER_MS <= high:
        marks.append((k * step * TICKS_PER_MS, f"{k * step:,.{decimals}f}"))
        k += 1
    return marks


def time_marks(first: int, last: int, most: int = 5) -> list[tuple[int, str]]:
    """Round times between two ends in Unix seconds, and how they are written."""
    span = last - first
    days = next(n for n in (1, 2, 5, 10, 20, 50, 100, 200, 500, 1000, 2000, 5000, 10000) if span / (n * DAY) <= most)
    step = next((step for step in SECONDS if span / step <= most), days * DAY)
    form = "%m-%d" if step >= DAY else "%H:%M" if step >= 60 else "%H:%M:%S"
    begin = -(-first // step) * step
    return [(time, datetime.fromtimestamp(time, timezone.utc).strftime(form)) for time in range(begin, last + 1, step)]
