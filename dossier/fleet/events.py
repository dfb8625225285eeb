"""A log of events of many machines: of each event the folder of its machine whose span holds what the clock showed, and
between which true times it was by that folder's audit, as far as that is known here.

The folders of a machine are looked at in a process for it, and each that holds events in one of its own.
"""
import os
from bisect import bisect_right
from collections.abc import Callable, Iterator
from itertools import accumulate
from typing import NamedTuple

from ..fault import NOT_SHOWN, fault, summed
from ..folder.claim import Claim
from ..folder.entry import AGAINST, DISPUTED, NOT_VERIFIED, REFUSED, LeapList, Record, Refusal, read_record
from ..folder.events import Asked, Events, Resting, read_events
from ..folder.files import ANSWERED, AUDIT, CLAIM, EVENTS, LIST, LOG, SIGNATURES, Folder, absolute, sum_of
from ..folder.jobs import T, Work, run_all
from ..folder.log import ADDED, Event, Log, read_log
from ..folder.program import Program
from ..folder.registry import Known
from ..folder.result import MAX_FOLDERS, Spans, Timed
from ..premise.leap import record_by
from ..records import replace
from ..schema import first_difference, read_typed, said
from ..text import count, label, plain
from ..units import SECOND, earliest, latest
from ..verdict.moments import Moments
from .days import is_of_claim
from .machines import (NAMESAKES as NO_KEY, folders_above, in_words, is_day, is_within, misplaced, namesakes,
                       renamed)
from .signature import Signers, signed_in
from .statements import premises_of, programs_named

INDEX = "index.html"
NO_MACHINE = "no folder of this machine"
NO_FOLDER = "no folder of this time"
TWICE = "in two folders of this machine"
NAMESAKES = "two machines have this name"
AS_SIGNED = "{} as signed by {}"
OWN = EVENTS, SIGNATURES[EVENTS], LIST, LOG, ANSWERED, INDEX
"""The files of an answer's folder."""
NOT_MADE = "Some days are as {} signed them: nobody made them again where this was put together."
BY_ANOTHER = "made by another program than the one that is here: by {}; here by {}"
NO_SIGNERS = "days count in it by their machines' signatures: --signers names who may sign"
MAX_NOTES = 20
"""Lines that are told of events without a folder."""


class EventsCall(NamedTuple):
    """What is asked for, by what is known here, a list of leap seconds and a program; how many seconds each folder has,
    how many are worked on side by side, and what makes a page; who may have signed what isn't known here, who
    signed which folders that count by that in an answer that is to be verified, and the folders of other machines."""

    asked: Asked
    known: Known
    leaps: LeapList
    program: Program
    seconds: int
    jobs: int = 1
    page: "PageOfEvents | None" = None
    signers: Signers = Signers(None)
    signed: dict[str, str] = {}
    others: frozenset[str] = frozenset()


class Row(NamedTuple):
    """An event, what is said of it in words, and the folder by which, if there is one; the Unix ticks between which it
    was, with the number of the claim and capture in that folder, if they are known, and else what speaks against the
    premises there."""

    event: Event
    words: str
    folder: str = ""
    time: tuple[int, int, int] | None = None
    against: str = ""

    def is_before(self, other: "Row") -> bool:
        """Whether it is proved that it was before another one: by true time; or by one clock, which doesn't go
        backwards in any course that fits a claim, since the drift of one is below half of its speed."""
        if not self.time or not other.time:
            return False
        is_one_clock = (self.folder, self.time[2]) == (other.folder, other.time[2])
        return self.time[1] < other.time[0] or is_one_clock and self.event.reading.end <= other.event.reading.begin


class Machine(NamedTuple):
    """A machine as it was named, its folder, and the names of its folders with claims, `.` for that itself; None if all
    in it are meant."""

    named: str
    path: str
    names: list[str] | None


Days = dict[str, dict[str, str]]
"""Of each machine, by the path of its folder, the folders that hold events, with their names for good, or signers."""


class Answered(NamedTuple):
    """An answer: what was asked for, the log, its rows, the machines that it names, and their folders that hold events,
    and who signed those that count by that; what the claims of these presume; and the faults of folders, with the worst
    status."""

    asked: Asked
    log: Log
    rows: list[Row]
    machines: list[Machine]
    days: Days
    by: Days
    premises: list[str]
    faults: list[str]
    status: int


def machines_in(folders: list[str], audits: list[str]) -> list[Machine]:
    """The machines whose folders are named: of a day's, which is called after it, the folder in which it is; one that
    has an audit of its own and another name is a machine's by itself."""
    found = dict[str, Machine]()
    for folder in {absolute(folder): folder for folder in folders}.values():
        above, name = os.path.split(folder)
        path = (above or ".") if is_day(name) else folder
        own = os.path.basename(absolute(path))
        machine = found.setdefault(absolute(path), Machine(path if os.path.basename(path) == own else own, path, []))
        if is_day(name) and machine.names is not None:
            machine.names.append(name)
        elif folder in audits and machine.names is not None:
            machine.names.append(".")
        else:
            found[absolute(path)] = machine._replace(names=None)
    return list(found.values())


def names_of(machine: Machine) -> set[str]:
    """How a log may call a machine: as its folder's own name is, or as it was named."""
    return {os.path.basename(absolute(machine.path)), machine.named}


def spans_of(machine: Machine) -> Spans:
    """The folders of a machine that have a claim, whoever wrote it: its folder by its name, or `.` for that itself."""
    spans = list[tuple[str, int, int]]()
    with Folder(machine.path) as folder:
        every = [name for name in folder.names() if folder.is_folder(name)] if machine.names is None else machine.names
        for name in sorted(set(every))[:MAX_FOLDERS]:
            file = CLAIM if name == "." else f"{name}/{CLAIM}"
            if folder.has(file):
                claim: Claim = read_typed(CLAIM, Claim, folder.data(file))
                spans.append((name, claim.first, claim.last))
    return Spans(spans)


def latest_so_far(times: list[int]) -> list[int]:
    """The greatest of some times up to each of them."""
    return list(accumulate(times, lambda one, other: max(one, other)))


class Where:
    """In which spans of a machine's folders a reading lies."""

    def __init__(self, spans: Spans):
        self.spans = sorted((first * SECOND, last * SECOND, name) for name, first, last in spans.folders)
        self.firsts = [first for first, _, _ in self.spans]
        self.lasts = latest_so_far([last for _, last, _ in self.spans])

    def of(self, begin: int, end: int) -> list[str]:
        """The folders whose spans hold all of some nanoseconds."""
        found, at = list[str](), bisect_right(self.firsts, begin) - 1
        while at >= 0 and self.lasts[at] >= end:
            if self.spans[at][1] >= end:
                found.append(self.spans[at][2])
            at -= 1
        return found


def known_of(call: EventsCall, machine: str, folder: Folder, written: Record) -> tuple[Record | None, str]:
    """The record of a folder as it is known here; else as its machine signed it, and who did."""
    record = call.known.shown(folder.sum(AUDIT), written)
    said = call.signed.get(folder.path, "")
    by = call.signers.machine_of(folder, machine, said) if not record or said else ""
    record = written if by and not record else record
    return (record, by) if record and (record.refusal or is_of_claim(folder, record)) else (None, "")


def timed(call: EventsCall, machine: str, path: str, events: list[Event]) -> Timed:
    """What is said of the events of a folder, if its audit is known here, or signed by its machine."""
    with Folder(path) as folder:
        written = read_record(folder.data(signed_in(folder))) if folder.has(AUDIT) else None
        record, by = known_of(call, machine, folder, written) if written else (None, "")
        verdict = NOT_VERIFIED if not record else REFUSED if record.refusal else \
            DISPUTED if call.known.dispute(record) else ""
        name = written.name if written else ""
        if verdict or not record:
            return Timed([verdict] * len(events), [None] * len(events), name)
        record = record_by(call.leaps, record, by)
        moments = Moments(folder, record, call.program, call.leaps).of([event.reading for event in events])
        words = [AS_SIGNED.format(moment.words, by) if by else moment.words for moment in moments]
        premises = {premises_of(entry.claim) for entry in record.entries} | ({NOT_MADE.format(by)} if by else set())
        against = {AGAINST[alert.kind] for entry in record.entries for alert in entry.warnings if alert.kind in AGAINST}
        return Timed(words, [moment.time for moment in moments], name, sorted(premises), sorted(against), by)


class Working:
    """An answer that is being made."""

    def __init__(self, call: EventsCall, log: Log, machines: list[Machine]):
        self.call, self.log, self.faults, self.status = call, log, list[str](), 0
        self.alike = namesakes([*(machine.path for machine in machines), *call.others])
        self.by_name = dict[str, list[Machine]]()
        for machine in machines:
            for name in names_of(machine):
                self.by_name.setdefault(name, []).append(machine)
        self.wanted = {machine.path: machine for event in log.events for machine in self.by_name.get(event.machine, ())}
        self.days: Days = {path: {} for path in self.wanted}
        self.by: Days = {path: {} for path in self.wanted}
        self.own, self.premises = dict[str, list[int]](), set[str]()
        """The numbers of the rows of each folder that holds some, and what their claims presume."""

    def run(self, paths: list[str], work: Work[T], kind: type[T]) -> Iterator[tuple[str, T | None]]:
        """What comes of folders; None of one that is refused."""
        for path, came in run_all(paths, work, kind, self.call.seconds, min(self.call.jobs, max(1, len(paths)))):
            if isinstance(came, Refusal):
                self.faults.append(f"{label(path)}: {came.line}")
                self.status = summed(self.status, came.status)
            yield path, None if isinstance(came, Refusal) else came

    def answer(self) -> Answered:
        places = {path: Where(came or Spans([])) for path, came in
                  self.run(list(self.wanted), lambda path, _: spans_of(self.wanted[path]), Spans)}
        rows = [self.placed(number, event, places) for number, event in enumerate(self.log.events)]
        paths = {path_in(machine, name): (machine, name) for machine, names in self.days.items() for name in names}
        for path, came in self.run(list(self.own), lambda path, _: self.timed(paths[path][0], path), Timed):
            own, (machine, name) = self.own[path], paths[path]
            came = came or Timed([REFUSED] * len(own), [None] * len(own))
            self.days[machine][name] = came.name
            self.by[machine].update({name: came.by} if came.by else {})
            self.premises.update(came.premises if own else ())
            for k, words, time in zip(own, came.words, came.times):
                rows[k] = rows[k]._replace(words=words, time=time, against="" if time else "; ".join(came.against))
        status = summed(self.status, NOT_SHOWN) if any(not row.time for row in rows) else self.status
        return Answered(self.call.asked, self.log, rows, list(self.wanted.values()), self.days, self.by,
                        sorted(self.premises), self.faults, status)

    def placed(self, number: int, event: Event, places: dict[str, Where]) -> Row:
        """An event with the folder that speaks of it, or why there is none."""
        machines = self.by_name.get(event.machine, [])
        if len(machines) != 1:
            return Row(event, NAMESAKES if machines else NO_MACHINE)
        path = machines[0].path
        found = places[path].of(event.reading.begin, event.reading.end)
        for name in found:
            self.days[path].setdefault(name, "")
            self.own.setdefault(path_in(path, name), [])
        if len(found) != 1:
            return Row(event, TWICE if found else NO_FOLDER)
        self.own[path_in(path, found[0])].append(number)
        return Row(event, "", path_in(path, found[0]))

    def timed(self, machine: str, path: str) -> Timed:
        """What is said of the events of a folder. Of machines that are called alike no signature counts."""
        is_namesake = os.path.basename(absolute(machine)) in self.alike
        call = self.call._replace(signers=Signers(None)) if is_namesake else self.call
        return timed(call, machine, path, [self.log.events[k] for k in self.own[path]])


def path_in(machine: str, name: str) -> str:
    return machine if name == "." else os.path.join(machine, name)


def notes_of(rows: list[Row]) -> list[str]:
    """What is told of events without a time: of each machine and reason the first line, and how many others."""
    lines = dict[tuple[str, str], list[int]]()
    for row in rows:
        if not row.time:
            words = plain(row.words + (f" ({row.against})" if row.against else ""))
            lines.setdefault((row.event.machine, words), []).append(row.event.line)
    notes = [f"line {own[0]}{f' and {count(len(own) - 1, others)}' if own[1:] else ''}: {label(machine)}: {words}"
             for (machine, words), own in lines.items() for others in ["other"]]
    more = len(notes) - MAX_NOTES
    return notes[:MAX_NOTES] + ([f"and {count(more, 'more such note')}"] if more > 0 else [])


def sorted_rows(rows: list[Row], order: str) -> list[Row]:
    """The rows as they are asked for; those without an end last, and of one end as they were given."""
    def place(row: Row) -> tuple[bool, int]:
        if order == "time":
            return False, row.event.reading.begin
        return row.time is None, row.time[order == "latest"] if row.time else 0
    return rows if order == "given" else sorted(rows, key=place)


def csv_of(answer: Answered) -> bytes:
    """The log with the answer behind its own columns."""
    log, ends = answer.log, {event.line: end for event, end in zip(answer.log.events, answer.log.ends)}
    is_given = answer.asked.sort == "given"
    lines = [f"{log.head},{','.join(ADDED)}{log.end}"]
    for row in sorted_rows(answer.rows, answer.asked.sort):
        first, last = (earliest(row.time[0]), latest(row.time[1])) if row.time else ("", "")
        end = ends[row.event.line] or ("" if is_given else log.end)
        lines.append(f"{row.event.row},{first},{last},{row.words}{end}")
    return "".join(lines).encode("utf-8", "surrogateescape")


def stated(call: EventsCall, data: bytes, answer: Answered, made: str, place: str) -> tuple[Events, dict[str, bytes]]:
    """What is written of an answer to a log into a folder: on what it rests, and the other files."""
    files = {LOG: data, ANSWERED: csv_of(answer)}
    if call.asked.page and call.page:
        files[INDEX] = call.page(answer, made)
    here = absolute(place)
    machines = [Resting(machine.named, os.path.relpath(absolute(machine.path), here), answer.days[machine.path],
                        answer.by[machine.path]) for machine in answer.machines]
    sums = {name: sum_of(file) for name, file in files.items()}
    return Events(call.program.made, made, call.asked, sums[LOG], sums[ANSWERED], sums.get(INDEX), machines), files


PageOfEvents = Callable[[Answered, str], bytes]
"""Makes a page of an answer, as it was put together at a time."""

# ---- verified


def machine_at(folder: Folder, resting: Resting) -> Machine:
    """A machine on which an answer rests, with its path as seen from here."""
    return Machine(resting.machine, os.path.normpath(os.path.join(folder.path, resting.path)), list(resting.days))


def folders_of(folder: Folder, named: set[str]) -> dict[str, str]:
    """The folders on which an answer rests, each with its name for good. Each has to be in a folder that the command
    line names."""
    days = dict[str, str]()
    for resting in read_events(folder.data(EVENTS)).machines:
        machine = machine_at(folder, resting)
        if why := misplaced(plain(resting.machine), machine.path, folder.path, named):
            raise fault(f"{plain(resting.machine)}: its folder is {plain(machine.path)}, {why}")
        for name, sum_ in resting.days.items():
            path = os.path.normpath(os.path.join(machine.path, name))
            if is_within(path, folder.path) or not is_within(path, machine.path):
                raise fault(f"{plain(resting.machine)}: {plain(path)} can't be a folder of it")
            if named.isdisjoint(folders_above(path)):
                raise fault(f"{path} is in no folder that is named: if it may be read, name it too")
            days[path] = sum_
    return days


def renamed_in(folder: Folder) -> list[str]:
    """A note of an answer's machines that were called otherwise than their folders are here."""
    machines = [machine_at(folder, resting) for resting in read_events(folder.data(EVENTS)).machines]
    return renamed((in_words(machine.named), machine.path) for machine in machines)


class Compared(NamedTuple):
    """The first difference between what stands in a folder and what its log and the folders of machines come to,
    nothing if there is none; of how many events no time is known; and that another program made it, if it says so."""

    difference: str
    untimed: int = 0
    by_another: str = ""


def compared(folder: Folder, call: EventsCall) -> Compared:
    """What of an answer stands as its log and the folders of machines are."""
    kept = read_events(folder.data(EVENTS))
    data, machines = folder.data(LOG), [machine_at(folder, resting) for resting in kept.machines]
    if sum_of(data) != kept.log:
        return Compared(f"{LOG} isn't the file that {EVENTS} names")
    signed = {path_in(machine.path, name): by for machine, own in zip(machines, kept.machines)
              for name, by in own.by.items()}
    if signed and call.signers.given is None:
        return Compared(NO_SIGNERS)
    call = call._replace(asked=kept.asked, signed=signed)
    working = Working(call, read_log(data, kept.asked.machine, kept.asked.time), machines)
    for machine, own in zip(machines, kept.machines):
        if own.by and (name := os.path.basename(absolute(machine.path))) in working.alike:
            return Compared(f"{label(machine.path)}: {NO_KEY.format(label(name))}")
    answer = working.answer()
    made, files = stated(call, data, answer, kept.made, folder.path)
    by = tuple(programs_named([program]) for program in (kept.program, made.program))
    return Compared(other_file(folder, files) or other_words(kept, made), sum(not row.time for row in answer.rows),
                    BY_ANOTHER.format(*by) if kept.program != made.program else "")


def other_file(folder: Folder, files: dict[str, bytes]) -> str:
    """The first file of an answer that isn't as it was made now; nothing if there is none."""
    for name, file in files.items():
        if not folder.has(name):
            return f"{name} isn't there"
        if folder.data(name) != file:
            return f"{name} isn't what the log and the folders come to{where(folder.data(name), file)}"
    return f"{INDEX} isn't of this answer" if INDEX not in files and folder.has(INDEX) else ""


def other_words(kept: Events, made: Events) -> str:
    """What stands in an answer otherwise than it was made now."""
    differs = first_difference(said(kept), said(replace(made, program=kept.program, signed=kept.signed)))
    return f"{EVENTS}:{differs[0]} isn't what the log and the folders come to" if differs else ""


def where(kept: bytes, made: bytes) -> str:
    """The first line in which two texts differ."""
    pairs = zip([*kept.split(b"\n"), None], [*made.split(b"\n"), None])
    number = next((number for number, (one, other) in enumerate(pairs, 1) if one != other), 0)
    return f" (line {number})" if number else ""
