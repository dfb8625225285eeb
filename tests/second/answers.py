"""What the commands with a claim print, restated by what rules.py, pieces.py and settlement.py say of the samples. A
command has one function here, and its options are the words that it is typed with. Nothing is shared with the program.
"""
import re
from collections.abc import Callable, Iterator, Sequence
from pathlib import Path
from typing import NamedTuple

from tests.second import by_covers, pieces, rules, settlement
from tests.second.claims import Claim
from tests.second.columns import MOMENT, PIECE, PIECE_OF_SERVER, SAMPLE, TICKS, written
from tests.second.pieces import Hulls
from tests.second.rules import Hull, Intervals, Sample, ceiling

Answer = tuple[int, list[str]]
"""A status, and the lines on standard output."""


class Evidence(NamedTuple):
    """A claim and its samples: of each the numbers of its two records, and the line of counts; the hulls over any
    piece; and by their seconds the pieces that were made of it."""
    claim: Claim
    samples: list[Sample]
    records: list[tuple[int, int]]
    counts: str
    hulls: Hulls
    made: dict[int, list["Drawn"]]


def by_rules(claim: Claim, samples: list[Sample], records: list[tuple[int, int]] = [], counts: str = "") -> Evidence:
    return Evidence(claim, samples, records, counts, Hulls(claim, samples), {})


def step_of(words: Sequence[object]) -> int:
    return int(str(words[words.index("--step") + 1])) if "--step" in words else 64


# ---- each command
def samples(evidence: Evidence) -> Answer:
    """A line for each sample, and the counts."""
    servers, rows = evidence.claim["servers"], enumerate(zip(evidence.samples, evidence.records, strict=True))
    return 0, [*(written(SAMPLE, number, servers[sample.server], *records, *sample.offset, *sample.delay, sample.low,
                         sample.high) for number, (sample, records) in rows), evidence.counts]


def at(evidence: Evidence, *words: object) -> Answer:
    """The servers' intervals at a moment, and the hull; while the clock shows a reading, and between which true time
    lay; or many readings."""
    if words[0] == "--times":
        return moments(evidence, Path(str(words[1])).read_text(), "--covers" in words)
    time = str(words[0])
    if "--covers" in words:
        return covered(evidence, time)
    if MOMENT_OF_CLAIM.fullmatch(time):
        return 0, intervals(evidence, rules.ticks_of(time), rules.ticks_of(time))
    if not (ticks := reading_of(time)):
        return 5, []
    hull = evidence.hulls.over(*ticks)
    return 0, [*intervals(evidence, *ticks), *([true_times(ticks, hull)] if hull else [])]


def covered(evidence: Evidence, time: str) -> Answer:
    """The hull by covers over a reading, and between which true time lay."""
    if not (ticks := reading_of(time)):
        return 5, []
    hull = by_covers.Joined(evidence.claim, evidence.samples).over(*ticks)
    return 0, [written(MOMENT, "hull", *rules.hull_fields(hull)), *([true_times(ticks, hull)] if hull else [])]


def intervals(evidence: Evidence, begin: int, end: int) -> list[str]:
    """What each server says of some ticks, and the hull."""
    of_servers, hull = evidence.hulls.intervals(begin, end), evidence.hulls.over(begin, end)
    lines = [written(MOMENT, evidence.claim["servers"][server], *ends) for server, ends in of_servers.items()]
    return [*lines, written(MOMENT, "hull", *rules.hull_fields(hull))]


def true_times(ticks: tuple[int, int], hull: tuple[int, int]) -> str:
    """The first and the last tick of a reading less the error: between these true time lay."""
    return f"true {ticks[0] - hull[1]} {ticks[1] - hull[0]}"


MOMENT_OF_CLAIM = re.compile(r"\d{4}-\d\d-\d\dT\d\d:\d\d:\d\dZ", re.ASCII)
"""A time as a claim has it, which is a moment."""

READING = re.compile(r"(?:(\d{4}-\d\d-\d\dT\d\d:\d\d:\d\d)|(\d{1,10}))(?:\.(\d{1,9}))?(Z?)", re.ASCII)
"""A time in UTC or in Unix seconds, as `at --times` takes it, and `at` if a claim doesn't have it so."""


def reading_of(text: str) -> tuple[int, int] | None:
    """The first and the last tick of a reading, if a text is one: while its last digit stands, rounded outwards."""
    said = READING.fullmatch(text)
    if not said or bool(said[1]) != bool(said[4]):
        return None
    try:
        second = int(said[2]) if said[2] else rules.ticks_of(said[1] + "Z") // TICKS
    except ValueError:
        return None
    parts, digits = 10 ** len(said[3] or ""), int(said[3] or 0)
    if not 0 <= second < 2**32 - 1:
        return None
    return second * TICKS + digits * TICKS // parts, second * TICKS + ceiling((digits + 1) * TICKS, parts)


def nanoseconds_of(text: str) -> tuple[int, int]:
    """The Unix nanoseconds from which a reading stands, and to which: its ticks lie no further out than one."""
    ticks, digits = reading_of(text), len((READING.fullmatch(text) or [""] * 4)[3] or "")
    assert ticks, text
    begin = ceiling(ticks[0] * 10**9, TICKS)
    return begin, begin + 10**(9 - digits)


def moments(evidence: Evidence, text: str, covers: bool = False) -> Answer:
    """Of each line, a reading, the hull over its ticks, by covers if so asked, and between which true time lay."""
    over = by_covers.Joined(evidence.claim, evidence.samples).over if covers else evidence.hulls.over
    lines = list[str]()
    for number, line in enumerate(text.removesuffix("\n").split("\n") if text else [], 1):
        if number > 1_000_000:
            return 2, ["times 2 too-many"]
        if not (ticks := reading_of(line)):
            return 2, [f"times 1 time line {number}"]
        hull = over(*ticks)
        true = f" {true_times(ticks, hull)}" if hull else ""
        lines.append(f"reading {line} hull {rules.hull_words(hull)}{true}")
    return 0, lines


When = tuple[int, int] | str
"""Between which true times a clock showed a reading, or that its hull is unbounded or empty."""


def when(evidence: Evidence, time: str) -> When:
    ticks = reading_of(time)
    assert ticks, time
    hull = evidence.hulls.over(*ticks)
    return (ticks[0] - hull[1], ticks[1] - hull[0]) if hull else rules.hull_words(hull)


def order(first: Evidence, second: Evidence, time: str, other_time: str) -> Answer:
    """Which of two readings was first: those of two clocks, or of one if it's the same evidence. By its drift a clock
    runs fast or slow at most, so its readings are apart by so much of true time at least, and at most."""
    ticks, others = reading_of(time), reading_of(other_time)
    if not ticks or not others:
        return 5, []
    one, other = when(first, time), when(second, other_time)
    if "empty" in (one, other):
        return 1, ["nothing fits"]
    apart, most = list[int](), list[int]()
    if not isinstance(one, str) and not isinstance(other, str):
        (earliest, latest), (other_earliest, other_latest) = one, other
        apart = [other_earliest - latest, earliest - other_latest]
        most = [other_latest - earliest, latest - other_earliest]
    if first is second:
        drift, gaps = first.claim["drift_ppb"], (others[0] - ticks[1], ticks[0] - others[1])
        (begin, end), (other_begin, other_end) = nanoseconds_of(time), nanoseconds_of(other_time)
        if end <= other_begin or other_end <= begin:
            which = 0 if end <= other_begin else 1
            least = max(0, gaps[which]) * 10**9 // (10**9 + drift)
            return before([max([least, *apart[which:which + 1]]) if k == which else -1 for k in range(2)])
        own = [ceiling(ends * 10**9, 10**9 - drift) for ends in (others[1] - ticks[0], ticks[1] - others[0])]
        most = [min(pair) for pair in zip(own, most or own)]
    if not most:
        return 1, ["open"]
    if apart and max(apart) > 0:
        return before(apart)
    earlier, later = (ceiling(ends * 10**9, TICKS) for ends in most)
    return 1, [f"open: first may be {earlier} ns earlier or {later} ns later"]


def before(apart: list[int]) -> Answer:
    """One was before the other, by so many ticks; what isn't so is below zero, or less."""
    words = "first before second", "second before first"
    which = apart.index(max(apart))
    return 0, [f"{words[which]} by at least {apart[which] * 10**9 // TICKS} ns"]


class Drawn(NamedTuple):
    """A piece of an envelope."""
    begin: int
    end: int
    servers: Intervals
    hull: Hull


def drawn(evidence: Evidence, step: int) -> Iterator[Drawn]:
    """The pieces of so many seconds. Where all of them were made, they aren't made again."""
    if step in evidence.made:
        yield from evidence.made[step]
        return
    found = []
    for begin, end in rules.pieces_of(evidence.claim, step):
        found.append(Drawn(begin, end, evidence.hulls.intervals(begin, end), evidence.hulls.over(begin, end)))
        yield found[-1]
    evidence.made[step] = found


def bound_over(found: list[Drawn]) -> tuple[int | None, int]:
    """The least bound in nanoseconds inside which all hulls lie, with the first piece that needs it or has no hull."""
    needs = [rules.need_of(piece.hull) for piece in found]
    if None in needs:
        return None, needs.index(None)
    in_ns = [rules.ceiling(need * rules.BILLION, TICKS) for need in needs if need is not None]
    return max(in_ns), in_ns.index(max(in_ns))


def envelope(evidence: Evidence, *words: object) -> Answer:
    """A line for each piece, those of its servers before it, the bound over them, and the least bound."""
    found, lines, names = list(drawn(evidence, step_of(words))), list[str](), evidence.claim["servers"]
    for number, (begin, end, servers, hull) in enumerate(found):
        if "--servers" in words:
            lines += [written(PIECE_OF_SERVER, number, names[server], *ends) for server, ends in servers.items()]
        lines.append(written(PIECE, number, begin // TICKS, end // TICKS, *rules.hull_fields(hull)))
    bound, worst = bound_over(found)
    lines.append(f"bound_ns {'none' if bound is None else bound} piece {worst}")
    if "--least" in words:
        least = pieces.least(evidence.claim, evidence.samples, step_of(words))
        lines.append(f"least_ns {least[0]} piece {least[1]}" if least else "least_ns none")
    return int(bound is None), lines


def told_least(line: str) -> tuple[int, int] | None:
    """The bound and the piece of a line `least_ns`."""
    words = line.split()
    return None if words[1] == "none" else (int(words[1]), int(words[3]))


def failing(evidence: Evidence, step: int) -> str | None:
    """The line of `find` of the first piece that fails, if one does."""
    for number, piece in enumerate(drawn(evidence, step)):
        if not rules.is_inside(rules.bound_of(evidence.claim), piece.hull):
            return f"nothing piece {number} hull {rules.hull_words(piece.hull)}"
    return None


def find(evidence: Evidence, *words: object) -> Answer:
    """A certificate, or the first piece that fails; or the nearest refutation."""
    claim, known = evidence.claim, evidence.samples
    if "--refutation" in words:
        found = rules.refutation(claim, known)
        return int(not found), [rules.compact(found) if found else "nothing refutation"]
    if line := failing(evidence, step_of(words)):
        return 1, [line]
    cut = [{"entries": rules.best_entries(claim, known, begin, end), "upto": end}
           for begin, end in rules.pieces_of(claim, step_of(words))]
    return 0, [rules.compact({"pieces": cut})]


def settle(evidence: Evidence) -> Answer:
    """One of six answers, where a refutation may be another one, and entries by covers too."""
    lines = settlement.settle(evidence.claim, evidence.samples, evidence.records)
    return int(not settlement.kind_of(lines[0].encode()).startswith("shown")), lines


def fewest(evidence: Evidence) -> Answer:
    """No command: the certificate of fewest pieces, or where its pieces stop."""
    certificate, stop = pieces.fewest(evidence.claim, evidence.samples)
    return int(stop is not None), [f"nothing from {stop.begin} to {stop.end}" if stop else rules.compact(certificate)]


READINGS: dict[str, Callable[..., Answer]] = {
    "samples": samples, "at": at, "find": find, "envelope": envelope, "settle": settle}
