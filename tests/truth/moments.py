"""Pairs of histories with events of known true time, and what `ntpaudit-dossier events` says of a log of these: each
time has to lie between the two that are told, and what is told to be first has to be.
"""
import csv
import io
import random
import shutil
import tempfile
from collections import Counter
from collections.abc import Iterator
from concurrent.futures import ProcessPoolExecutor
from datetime import datetime, timezone
from itertools import pairwise
from pathlib import Path
from typing import NamedTuple

from tests.truth.clock import SECOND
from tests.truth.files import Logs
from tests.truth.history import History, civil
from tests.truth.trial import call, drawn, env_of, read
from tests.truth.view import View

EVENTS = 50
"""Of a pair, half of them on each machine."""
PAIRS = 10
"""Pairs that are in one log."""


class Event(NamedTuple):
    """A row of the log: when it was by true time and by UTC, and what its clock showed: in nanoseconds, as long as its
    last digit stood, and as it is written."""
    machine: str
    at: int
    utc: int
    begin: int
    end: int
    text: str


class Said(NamedTuple):
    """What came of a pair: how many events there are, how many have times, of how many pairs of one clock the order is
    told, of how many the times aren't so though nobody could see it, and what else isn't so."""
    number: int
    events: int
    timed: int
    ordered: int
    excused: int
    verdicts: Counter[str]
    wrong: list[str]


def written(rng: random.Random, reading: int) -> tuple[int, int, str]:
    """A reading as a logger has it, cut to some digits: the nanoseconds for which it stands, and its text."""
    digits = rng.choice((0, 1, 3, 3, 6, 6, 9))
    unit = 10 ** (9 - digits)
    begin = reading // unit * unit
    fraction = f".{begin % SECOND // unit:0{digits}}" if digits else ""
    if rng.random() < 0.3:
        return begin, begin + unit, f"{begin // SECOND}{fraction}"
    return begin, begin + unit, f"{civil(begin)[:-1]}{fraction}Z"


def times_of(history: History, rng: random.Random) -> Iterator[int]:
    """True times: anywhere about the recording and the span, near their ends, and near what happens to the clock."""
    edges = [history.begin, history.end, *(piece.begin for edge in (history.first, history.last)
                                           for piece in history.clock.shown(edge, edge + SECOND))]
    moved = [time for own in history.clock.breaks for time in own] or edges
    while True:
        where = rng.random()
        if where < 0.6:
            yield rng.randrange(history.begin - history.length // 20, history.end + history.length // 20)
        else:
            near = rng.choice(moved if where < 0.85 else edges)
            yield near + int(rng.choice((-1, 1)) * 10 ** rng.uniform(3, 11.5))


def events_of(machine: str, history: History, rng: random.Random) -> list[Event]:
    found = list[Event]()
    for _, time in zip(range(20 * EVENTS), times_of(history, rng)):
        reading = history.clock.reading(time)
        if reading is not None and 0 < reading < (2**32 - 2) * SECOND:
            found.append(Event(machine, time, history.clock.utc(time), *written(rng, reading)))
        if len(found) == EVENTS // 2:
            break
    return found


def ns_of(text: str) -> int:
    """Nanoseconds of a time as the answer has it."""
    second = datetime.strptime(text[:19], "%Y-%m-%dT%H:%M:%S").replace(tzinfo=timezone.utc)
    return int(second.timestamp()) * SECOND + int(text[20:29])


def answered(place: Path, events: list[Event], *words: str) -> list[dict[str, str]]:
    """What is said of events by the folders of their machines."""
    (place / "log.csv").write_text("machine,time\n" + "".join(f"{one.machine},{one.text}\n" for one in events))
    folders = sorted({place / one.machine for one in events})
    said = call("events", "--jobs", 1, *words, place / "log.csv", *folders, **env_of(place))
    return list(csv.DictReader(io.StringIO(said)))


def untrue(view: View, event: Event, row: dict[str, str]) -> str:
    """What isn't so of an event's times."""
    first, last = ns_of(row["earliest"]), ns_of(row["latest"])
    return "" if first <= event.utc <= last else \
        f"{event.text} was at {civil(event.utc)[:-1]}.{event.utc % SECOND:09}Z, and not from {row['earliest']} to " \
        f"{row['latest']} ({row['verdict']})"


def disordered(events: list[tuple[Event, dict[str, str]]]) -> tuple[int, list[str]]:
    """Of how many events of one clock and one audit the order is told by their readings, and which was otherwise."""
    number, wrong = 0, list[str]()
    timed = sorted((one, row["verdict"]) for one, row in events if row["earliest"])
    by_audit: dict[tuple[str, str], list[Event]] = {}
    for one, verdict in timed:
        by_audit.setdefault((one.machine, verdict), []).append(one)
    for own in by_audit.values():
        for one, other in pairwise(sorted(own, key=lambda one: one.begin)):
            if one.end <= other.begin:
                number += 1
                wrong += [f"{one.text} was behind {other.text}"] if one.at >= other.at else []
    return number, wrong


def tried(numbers: range, place: Path) -> Iterator[Said]:
    """Pairs by their numbers, and what isn't so of what is said of their events."""
    histories, events = dict[Path, tuple[History, Logs | None]](), dict[Path, list[Event]]()
    for number in numbers:
        first, other = drawn(2 * number), drawn(2 * number + 1)
        if random.Random(f"pair {number}").random() < 0.8:
            other = drawn(2 * number + 1, first[0].begin)
        for name, history in (("a", first), ("b", other)):
            folder = place / f"{number:06}{name}"
            histories[folder] = history
            events[folder] = events_of(folder.name, history[0], random.Random(f"events {number}{name}"))
    views = {folder: one.view for folder, one in zip(histories, read(histories, has_page=False))}
    every = [one for own in events.values() for one in own]
    random.Random(numbers[0]).shuffle(every)
    rows = list(zip(every, answered(place, every), strict=True))
    for number in numbers:
        own = [(one, row) for one, row in rows if one.machine[:-1] == f"{number:06}"]
        found = {one: untrue(views[place / one.machine], one, row) for one, row in own if row["earliest"]}
        ordered, others = disordered(own)
        wrong = [f"{one.machine[-1]}: {words}" for one, words in found.items()
                 if words and not views[place / one.machine].excuse]
        others = [words for words in others if not any(view.excuse for folder, view in views.items()
                                                       if folder.name[:-1] == f"{number:06}")]
        yield Said(number, len(own), len(found), ordered, sum(map(bool, found.values())) - len(wrong),
                   Counter(row["verdict"].split(" between")[0] for _, row in own), wrong + others)


def batch(numbers: range) -> list[Said]:
    made = tempfile.mkdtemp(prefix="ntpaudit-truth-")
    try:
        return list(tried(numbers, Path(made)))
    finally:
        shutil.rmtree(made)


def trials(first: int, number: int, jobs: int) -> int:
    """Tries pairs from a number on, and tells what isn't so."""
    batches = [range(at, min(at + PAIRS, first + number)) for at in range(first, first + number, PAIRS)]
    verdicts, counts, failed = Counter[str](), Counter[str](), 0
    with ProcessPoolExecutor(jobs) as pool:
        for found in pool.map(batch, batches):
            for one in found:
                verdicts += one.verdicts
                counts += Counter(events=one.events, timed=one.timed, ordered=one.ordered, excused=one.excused)
                failed += bool(one.wrong)
                for wrong in one.wrong:
                    print(f"pair {one.number}, {wrong}", flush=True)
    print(f"{number} pairs from {first} on, {failed} with something that isn't so: {dict(counts)} {dict(verdicts)}")
    return int(failed > 0)
