"""The picture of an envelope, as SVG: the clock's error in milliseconds over civil time.

The hull is a band, the intervals of each server are strokes, the claimed bound is two lines, and pieces that fail are
marked below. It needs no script, and its words keep their size in a window of any width: what is drawn lies in an inner
picture that is stretched, and the words stand beside it at parts of the width.
"""
import os
from collections.abc import Callable, Collection
from html import escape
from itertools import groupby, starmap

from ..capture.captures import audited
from ..capture.twice import once
from ..folder.answers import Envelope, read_envelope
from ..folder.claim import Claim
from ..folder.entry import YES, Hull
from ..folder.files import CLAIM, LIMITS, own_data
from ..folder.placing import copy_named
from ..folder.program import Program
from ..folder.result import Told, Year
from ..schema import read_typed
from ..text import count, listed, plain
from ..units import bound_ticks, from_to, ns_ms, range_ms, shown_time
from ..verdict.judgement import is_beyond
from .columns import Cell, cells_of, ms_marks, time_marks
from .templates import minus, text_of

WIDTH, HEIGHT, TOP, STRIP, FOOT = 10_000, 300, 10, 12, 40
"""The inner picture's width in its own units; heights in pixels."""

LEAST_STROKE = 6
"""Pixels of a stroke at least, so that a short interval is seen."""

COLOURS, DASHES = 8, 4
MARGIN = 84
"""Pixels at the left for words: no stroke crosses them."""
NARROW = 10
"""The bound isn't drawn if it is so many times as wide as the hull, which would be a line then."""
APART = 13
"""Pixels between two lines of words at least."""
Height = Callable[[float], float]
"""The height in the picture, in pixels from its top, of an error in ticks."""

MARKS = {"empty": "empty: no course of events fits", "beyond": "beyond the bound",
         "unbounded": "unbounded: nothing follows"}
EMPTY = frozenset({"path", "rect", "line"})


def element(name: str, /, *inside: str, words: str = "", **attributes: object) -> str:
    """An element of SVG, with what was drawn in it, or words. The names of attributes have a `_` for a `-`, and one at
    the end where Python has a word of its own; one without a value is left out."""
    said = "".join(f' {key.removesuffix("_").replace("_", "-")}="{escape(plain(str(value)))}"'
                   for key, value in attributes.items() if value not in ("", None))
    if name in EMPTY:
        return f"<{name}{said}/>"
    return "\n".join([f"<{name}{said}>{escape(plain(words))}", *inside]) + f"</{name}>"


def path(kind: str, drawn: str) -> str:
    return element("path", class_=kind, d=drawn)


HULL = [path("hull", "M0 2H26V12H0Z"), path("edge", "M0 2H26M0 12H26")]


def picture(envelope: Envelope, bound_ns: int, name: str, label: str, steps: Collection[int] = (),
            is_void: bool = False) -> str:
    """The picture, with ids that begin with a name of its own, and steps of the clock at some Unix seconds. Its words
    stand at the left of it. Where no course fits it has no figures in words."""
    bound = bound_ticks(bound_ns)
    cells = cells_of(envelope, bound)
    low, high = extent(cells, bound)

    def y(ticks: float) -> float:
        return HEIGHT * (high - ticks) / (high - low)
    hull = band(cells, y)
    inner = [path("hull", hull), *strokes(cells, y), path("edge", hull)]
    lines = [(mark, "grid" if mark else "zero") for mark, _ in ms_marks(low, high)]
    lines += [(side, "bound") for side in (bound, -bound) if low <= side <= high]
    inner += [path(kind, f"M0 {y(ticks):.1f}H{WIDTH}") for ticks, kind in lines]
    inner += [path("step", f"M{x(part)} 0V{HEIGHT}") for part in parts_of(envelope, steps)]
    drawn = [element("title", words=label, id=f"{name}-t"),
             element("desc", words=described(envelope, bound_ns, is_void), id=f"{name}-d"),
             stretched(TOP, HEIGHT, inner),
             element("rect", class_="frame", y=TOP, width="100%", height=HEIGHT),
             stretched(TOP + HEIGHT, STRIP, marks(cells)),
             *words(envelope, bound_ns, steps, low, high, y)]
    return element("svg", *drawn, xmlns=XMLNS, class_="picture", width="100%", height=TOP + HEIGHT + STRIP + FOOT,
                   overflow="visible", role="img", aria_labelledby=f"{name}-t {name}-d")


XMLNS = "http://www.w3.org/2000/svg"


def stretched(top: int, height: int, drawn: list[str]) -> str:
    """An inner picture, as wide as the outer one whatever that is."""
    return element("svg", *drawn, y=top, width="100%", height=height, viewBox=f"0 0 {WIDTH} {height}",
                   preserveAspectRatio="none")


def parts_of(envelope: Envelope, times: Collection[int]) -> list[float]:
    """Where Unix seconds lie in the picture, those that do, from 0 to 1."""
    first, last = envelope.begins[0], envelope.ends[-1]
    return [(time - first) / max(1, last - first) for time in times if first <= time <= last]


def is_shown(hulls: Collection[Hull | None], bound: int) -> bool:
    """Whether the bound is in the picture."""
    ends = [end for hull in hulls if isinstance(hull, tuple) for end in hull]
    return not ends or 2 * bound <= NARROW * (max(ends) - min(ends))


def extent(cells: list[Cell], bound: int) -> tuple[int, int]:
    """What is shown, in ticks: the hull, the bound if the hull can be seen beside it, the servers that go not much
    beyond them, and a margin. The others go through the picture, or stand outside."""
    hulls = [cell.hull for cell in cells]
    bounds = (-bound, bound) if is_shown(hulls, bound) else ()
    drawn = [*bounds, *(end for hull in hulls if hull for end in hull)]
    low, high = min(drawn), max(drawn)
    most = (high - low) * 8 // 5
    for place in range(len(cells[0].servers)):
        own = [ends for cell in cells if (ends := cell.servers[place])]
        lower, higher = min([low, *(end for end, _ in own)]), max([high, *(end for _, end in own)])
        if higher - lower <= most:
            low, high = lower, higher
    margin = max(1000, (high - low) * 12 // 100)
    return low - margin, high + margin


def x(part: float) -> int:
    return round(WIDTH * part)


def band(cells: list[Cell], y: Height) -> str:
    """The hull's path: along the high ends of cells, and back along the low ones. A cell without a hull is a gap."""
    drawn = ""
    run: list[tuple[Cell, tuple[int, int]]] = []
    for cell in [*cells, None]:
        if cell and cell.hull and (not run or run[-1][0].end == cell.begin):
            run.append((cell, cell.hull))
            continue
        if run:
            first, (_, begin) = run[0]
            there = "".join(f"V{y(high):.1f}H{x(c.end)}" for c, (_, high) in run)
            back = "".join(f"V{y(low):.1f}H{x(c.begin)}" for c, (low, _) in reversed(run))
            drawn += f"M{x(first.begin)} {y(begin):.1f}{there}{back}Z"
        run = [(cell, cell.hull)] if cell and cell.hull else []
    return drawn


def strokes(cells: list[Cell], y: Height) -> list[str]:
    """Of each server a stroke in each cell, side by side. One through the whole picture is faint, and if it lies
    outside there is a short one at the edge."""
    servers = len(cells[0].servers)
    is_dense = " dense" if len(cells) * servers > 400 else ""
    drawn = []
    for place in range(servers):
        plain, wide = [], []
        for cell in cells:
            ends = cell.servers[place]
            if ends is None:
                continue
            bottom, top = map(y, ends)
            at = x(cell.begin + (cell.end - cell.begin) * (place + 1) / (servers + 1))
            if bottom < 0:
                plain.append(f"M{at} 0v7")
            elif top > HEIGHT:
                plain.append(f"M{at} {HEIGHT}v-7")
            elif top < 0 and bottom > HEIGHT:
                wide.append(f"M{at} 0v{HEIGHT}")
            else:
                short = max(0.0, (LEAST_STROKE - bottom + top) / 2)
                plain.append(f"M{at} {min(bottom + short, HEIGHT):.1f}V{max(top - short, 0):.1f}")
        for strokes_, kind in ((wide, " wide"), (plain, is_dense)):
            if strokes_:
                drawn.append(path(f"server {server_class(place)}{kind}", "".join(strokes_)))
    return drawn


def server_class(place: int) -> str:
    return f"c{place % COLOURS} d{place // COLOURS % DASHES}"


def marks(cells: list[Cell]) -> list[str]:
    """A strip that marks the cells that fail, run by run."""
    drawn = []
    for kind in MARKS:
        runs, end = [], None
        for cell in cells:
            if cell.mark == kind:
                if end != cell.begin:
                    runs.append(f"M{x(cell.begin)} {STRIP / 2:.0f}")
                runs.append(f"H{x(cell.end)}")
                end = cell.end
        if runs:
            drawn.append(path(f"mark {kind}", "".join(runs)))
    return drawn


def words(envelope: Envelope, bound_ns: int, steps: Collection[int], low: int, high: int, y: Height) -> list[str]:
    """What is written: milliseconds and the bound at the left, times below."""
    first, last, bound = envelope.begins[0], envelope.ends[-1], bound_ticks(bound_ns)
    bottom = TOP + HEIGHT + STRIP
    sides = [(y(side), sign) for side, sign in ((bound, "+"), (-bound, "\u2212")) if low <= side <= high]
    if len(sides) == 2 and sides[1][0] - sides[0][0] < APART:
        sides = [(y(0), "\u00b1")]
    drawn = [beside(height, f"{sign}{ns_ms(bound_ns)} ms", "claimed") for height, sign in sides]
    for mark, text in ms_marks(low, high):
        if all(abs(y(mark) - height) >= APART for height, _ in sides):
            drawn.append(beside(y(mark), f"{minus(text)} ms"))
    for part in parts_of(envelope, steps):
        drawn.append(element("text", words="step", class_="claimed", x=f"{100 * part:.2f}%", y=TOP - 3,
                             text_anchor="middle"))
    for time, text in time_marks(first, last) if first < last else [(first, shown_time(first)[11:])]:
        part = 100 * (time - first) / max(1, last - first)
        anchor = "start" if part < 6 else "end" if part > 94 else "middle"
        drawn.append(element("line", class_="tick", x1=f"{part:.2f}%", x2=f"{part:.2f}%", y1=bottom, y2=bottom + 5))
        drawn.append(element("text", words=text, x=f"{part:.2f}%", y=bottom + 18, text_anchor=anchor))
    days = " to ".join(sorted({shown_time(time)[:10] for time in (first, last)}))
    drawn.append(element("text", words=f"UTC, {days}", x="50%", y=bottom + 34, text_anchor="middle"))
    return drawn


def beside(height: float, text: str, kind: str = "") -> str:
    return element("text", words=text, class_=kind, x=-6, y=f"{TOP + height + 4:.1f}", text_anchor="end")


def described(envelope: Envelope, bound_ns: int, is_void: bool) -> str:
    """The picture in words, for whoever doesn't see it."""
    bound = bound_ticks(bound_ns)
    bounded = [hull for hull in envelope.hulls if not isinstance(hull, str) and not is_void]
    times = listed([from_to(*run) for run in runs_in(envelope)])
    said = [f"The clock's error {times} UTC, in {count(len(envelope.hulls), 'piece')}."]
    if bounded:
        ends = range_ms(min(hull[0] for hull in bounded), max(hull[1] for hull in bounded))
        said.append(f"The hull lies within {ends}.")
    said.append(f"The claimed bound is {ns_ms(bound_ns)} ms to either side.")
    fails = {"beyond the bound": sum(is_beyond(hull, bound) for hull in bounded)}
    fails |= {word: sum(hull == word for hull in envelope.hulls) for word in ("empty", "unbounded")}
    return " ".join([*said, *(f"{count(number, 'piece')} {word}." for word, number in fails.items() if number)])


def runs_in(envelope: Envelope) -> list[tuple[int, int]]:
    """From and to of pieces that follow one another without a gap."""
    runs = [(envelope.begins[0], envelope.ends[0])]
    for begin, end in zip(envelope.begins[1:], envelope.ends[1:]):
        if begin <= runs[-1][1]:
            runs[-1] = runs[-1][0], max(end, runs[-1][1])
        else:
            runs.append((begin, end))
    return runs


def stroke(place: int) -> str:
    """The stroke of a server, as a small picture for a line of text."""
    return swatch([path(f"server {server_class(place)}", "M0 7H26")])


def swatch(drawn: list[str]) -> str:
    return element("svg", *drawn, width=26, height=14, aria_hidden="true")


def items(envelope: Envelope, bound_ns: int) -> list[tuple[list[str], str]]:
    """What stands for what: something drawn, and its name."""
    servers = [([path(f"server {server_class(place)}", "M0 7H26")], name)
               for place, name in enumerate(envelope.servers)]
    ticks = bound_ticks(bound_ns)
    fails = {hull if isinstance(hull, str) else "beyond" for hull in envelope.hulls
             if isinstance(hull, str) or is_beyond(hull, ticks)}
    failing = [([path(f"mark {kind}", "M0 7H26")], text) for kind, text in MARKS.items() if kind in fails]
    bound = f"claimed bound, {ns_ms(bound_ns)} ms{'' if is_shown(envelope.hulls, ticks) else ': beyond this picture'}"
    return [(HULL, "hull"), *servers, ([path("bound", "M0 7H26")], bound), *failing]


def legend(envelope: Envelope, bound_ns: int) -> list[tuple[str, str]]:
    """The legend beside a picture in a page."""
    return [(swatch(drawn), text) for drawn, text in items(envelope, bound_ns)]


def standing_alone(envelope: Envelope, bound_ns: int, label: str, wide: int = 900) -> str:
    """The picture as a file of its own, with its legend in it."""
    top, across, written = 36, 10, []
    for drawn, text in items(envelope, bound_ns):
        if across + 52 + 7 * len(text) > wide:
            top, across = top + 20, 10
        named = element("text", words=text, x=32, y=12)
        written.append(element("g", *drawn, named, transform=f"translate({across} {top - 28})"))
        across += 52 + 7 * len(text)
    height = top + TOP + HEIGHT + STRIP + FOOT
    inner = element("svg", picture(envelope, bound_ns, "p", label), x=MARGIN + 10, y=top, width=wide - MARGIN - 20,
                    height=height - top, overflow="visible")
    paper = element("rect", class_="paper", width="100%", height="100%")
    return element("svg", f"<style>{text_of('picture.css')}</style>", paper, *written, inner, xmlns=XMLNS, width=wide,
                   height=height)


SMALL, SHADES = 14, 4
"""The height of a year drawn small, in pixels; and into how many parts the bound is cut by which a yes is shaded."""
HEIGHTS = {"unsupported": 12, "no-evidence": 12, "open": 12, "not-verified": 2, "refused": 2, "missing": 2,
           "not-counted": 2}
"""Of days in it that aren't shown: those that aren't there are a line. The others are as high as it is."""


def shade(year: Year, day: Told) -> int:
    """By how much of the bound a yes needs, from 1 on; 0 of what is no yes, or where that isn't known."""
    if day.verdict != YES or day.least_ns is None or not year.claim or not year.claim.bound_ns:
        return 0
    return min(SHADES, 1 + SHADES * day.least_ns // year.claim.bound_ns)


def strip(year: Year) -> str:
    """A year, drawn small. A day that is shown is low, and the higher and darker the more of the bound it needs."""
    drawn: dict[str, str] = {}
    kinds = [(day.verdict.replace(" ", "-"), shade(year, day)) for day in year.days]
    for (kind, shaded), run in groupby(enumerate(kinds), lambda one: one[1]):
        days = [number for number, _ in run]
        height = 2 + 2 * shaded if kind == YES else HEIGHTS.get(kind, SMALL)
        shape = f"M{days[0]} {SMALL - height}h{len(days)}v{height}h-{len(days)}z"
        drawn[f"{kind} s{shaded}"] = drawn.get(f"{kind} s{shaded}", "") + shape
    label = f"{year.machine}: {year.counts[YES]} of {len(year.days)} days shown"
    return element("svg", *starmap(path, drawn.items()), viewBox=f"0 0 366 {SMALL}", preserveAspectRatio="none",
                   class_="small", role="img", aria_label=label)


def picture_of(program: Program, claim: str, capture: str, step: int) -> str:
    """The picture of a claim and a capture, from what `envelope` says about them."""
    copy_named(claim, CLAIM, LIMITS[CLAIM])
    copy_named(capture, "0.pcap")
    whole = once(audited({os.path.basename(capture): "0.pcap"}), program)
    text = program.run("envelope", CLAIM, whole.path, "--servers", "--step", str(step)).text
    given: Claim = read_typed(CLAIM, Claim, own_data(CLAIM))
    label = f"The error of the clock of {given.client}"
    return standing_alone(read_envelope(text), given.bound_ns, label) + "\n"
