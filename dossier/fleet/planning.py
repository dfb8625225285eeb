"""Which folders are looked at when some are verified: those that are named, the days on which a year's statements
rest, and all days beside these.
"""
import os
from collections.abc import Callable, Iterable, Iterator
from contextlib import suppress
from typing import NamedTuple

from ..fault import Fault, fault
from ..folder import files
from ..folder.entry import WORST_FIRST, Refusal, refusal_by
from ..folder.events import read_events
from ..folder.files import Folder, absolute, asked
from ..folder.jobs import T, run_all
from ..folder.older import read_any
from ..folder.result import Below
from ..folder.year import read_statements
from ..text import listed
from .events import folders_of, machine_at
from .machines import (Machines, above_all, folders_above, folders_in, has_days, in_words, is_day, is_lost, is_machine,
                       names_of, once, others_in, undermost)
from .signature import signed_in
from .statements import DAYS, NOTHING, days_of, lines_in

RESTING, OWN, LOOSE, BARE = "resting", "own", "loose", "bare"
"""What a folder is. `resting`: a year or an answer to a log, which rests on days. `own`: an audit; or a part of any of
these is there, or a capture, so that what was signed may have been taken away. `loose`: a claim, pages or a log's
answer, which may lie among machines. `bare`: nothing but what may be folders of days."""
LEFT_OUT, EMPTIED = "no year or answer that is named rests on what is in it", "no day, year or answer is in it"
OF_ITS_OWN = {*files.SIGNATURES, *files.SIGNATURES.values(), *files.LEFT}
MAX_DAYS_AT_ONCE, AT_ONCE = 1_000_000, 1_000
"""Days that are verified at once, and those of which a process reads audit.json."""


def kind_of(folder: Folder) -> str:
    """What a folder is, by its files."""
    if folder.has(files.YEAR) or folder.has(files.EVENTS):
        return RESTING
    if any(name in OF_ITS_OWN or files.is_capture(name) or name.endswith(DAYS) for name in folder.names()):
        return OWN
    return LOOSE if any(map(folder.has, (files.CLAIM, files.LIST, files.ANSWERED))) else BARE


class Plan(NamedTuple):
    """The folders that are looked at, in order; those of days on which a year's statements rest, each with its name for
    good; what is said of those that hold days and nothing else; the days on which an answer rests, or a year though
    they aren't named themselves, for which a signature of that is one; the machines of all; how many days beside a
    year's are of another time, and aren't looked at; the years; whether there are answers to logs; and why the days
    that belong to a folder couldn't be found."""

    every: list[str]
    stated: dict[str, str]
    holds: dict[str, str]
    resting: set[str]
    machines: Machines
    of_others: int
    years: list[str]
    has_answers: bool
    refused: dict[str, Refusal]

    @property
    def speaks_of(self) -> str:
        """Of what it is said that all is shown, where nothing isn't."""
        if self.has_answers and not self.years:
            return " that an answer rests on"  # (other days of its machines weren't looked at)
        return f"{f' of {listed(sorted({*self.years}))}' if self.years else ''}, all is shown"


class Planning:
    """A plan that is being made, of what is found in the folders that are named: `stated` are the days of years, each
    with its name for good, `answered` those of answers, and `rests` has both, and days that a year names without an
    audit; `before` has the days that come before a folder, and `within` the machines of a year's days in one. What is
    named, answered, rests or is `within` is known by absolute paths."""

    def __init__(self, folders: list[str], named: set[str], seconds: int):
        self.folders, self.named, self.seconds = folders, named, seconds
        self.refused, self.within = dict[str, Refusal](), dict[str, list[str]]()
        resting = those_among(folders, lambda folder: kind_of(folder) == RESTING, seconds)
        found = dict(self.taken(run_all([folder for folder in folders if folder in resting], self.days_below, Below,
                                        seconds)))
        self.answers = {folder: below.days for folder, below in found.items() if below.is_of_events}
        self.answered = {absolute(day) for days in self.answers.values() for day in days}
        self.stated, self.spelled = dict[str, str](), dict[str, str]()  # (each day as it is spelled first)
        for day, name in (one for folder, below in found.items() if folder not in self.answers
                          for one in below.days.items()):
            self.stated[self.spelled.setdefault(absolute(day), day)] = name
        self.rests = {*self.spelled, *self.answered,
                      *(absolute(day) for below in found.values() for day in below.without_audit)}
        self.without_days = {name for below in found.values() for name in below.without_days}
        self.spans = [below.span for below in found.values() if below.span[0]]
        self.before = {folder: [day for day in below.days if folder not in self.answers or absolute(day) not in named]
                       for folder, below in found.items()}
        for machine in {os.path.dirname(day) for day in self.stated}:
            for path in named & folders_above(machine):
                self.within.setdefault(path, []).append(machine)
        apart = [folder for folder in folders if folder not in resting] if resting else []
        self.bare = those_among(apart, lambda folder: (kind := kind_of(folder)) == BARE or
                                kind == LOOSE and has_days(folder.path), seconds, or_unknown=False)

    def taken(self, results: Iterator[tuple[str, T | Refusal]]) -> Iterator[tuple[str, T]]:
        """What came of folders, but for those that are refused, which are told as that."""
        for folder, came in results:
            if isinstance(came, Refusal):
                self.refused[folder] = came
            else:
                yield folder, came

    def days_below(self, path: str, _: int) -> Below:
        """The days on which a year's statements rest, or an answer to a log of events, if there are such in a folder,
        as far as they are there."""
        with Folder(path) as folder:
            signed = signed_in(folder)
            if signed == files.EVENTS:
                days = folders_of(folder, self.named)
                return Below({day: name for day, name in days.items() if is_there(day)}, True, without_days=[
                    in_words(os.path.basename(machine_at(folder, resting).path))
                    for resting in read_events(folder.data(files.EVENTS)).machines if not resting.days])
            if signed != files.YEAR:
                return Below({})
            days, year = days_of(folder, self.named), read_statements(folder.data(files.YEAR))
            without = {day for day, name in days.items() if name == NOTHING and is_without(day)}
            return Below({day: name for day, name in days.items()
                          if day not in without and (name == NOTHING or is_there(day))},
                         span=(str(year.year), year.made[:10]), without_audit=sorted(without), without_days=[
                             os.path.basename(stated.machine) for stated in year.machines
                             if not lines_in(folder, stated)])

    def holding(self) -> dict[str, str]:
        """What is said of folders that hold days, and nothing else. One that holds none, so that what was signed may
        have been taken away, is refused, unless it is called like a machine of which no day is named."""
        above = {path for place in {os.path.dirname(day) for day in self.answered}
                 for path in self.named & folders_above(place)}
        said = dict[str, str]()
        for folder in self.folders:
            path = absolute(folder)
            if path in self.within:
                said[folder] = "a year's days are in it"
            elif path in above:
                said[folder] = "folders of an answer to a log are in it"
            elif folder in self.bare and not is_day(os.path.basename(path)):
                said[folder] = LEFT_OUT
        apart = [folder for folder, words in said.items() if words == LEFT_OUT and not is_lost(folder)
                 and in_words(os.path.basename(absolute(folder))) not in self.without_days]
        held = those_among(apart, lambda folder: holds_day(folder.path), self.seconds, or_unknown=False)
        self.refused |= {folder: refusal_by(fault(EMPTIED)) for folder in apart if folder not in held}
        return said

    def look_beside(self, holds: Iterable[str]) -> list[str]:
        """Puts the days that stand beside a year's before the folder in which they are, and gives those of another
        time, which aren't looked at. (From a year days of a folder that holds days alone may have been left out.)"""
        within = dict.fromkeys(map(absolute, {*self.bare, *holds} if self.spans else ()), list[str]()) | self.within
        seen, others = self.named | self.rests, list[str]()

        def work(path: str, _: int) -> list[str]:
            return days_beside(path, within[absolute(path)], self.rests)
        folders = [folder for folder in self.folders if absolute(folder) in within]
        for folder, found in self.taken(run_all(folders, work, list[str], self.seconds)):
            for day in (day for day in found if absolute(day) not in seen):
                (self.before.setdefault(folder, []) if self.is_of_years(day) else others).append(day)
            seen.update(map(absolute, found))
        return others

    def is_of_years(self, path: str) -> bool:
        """Whether what stands beside days of years is called after a day of one that had ended when that was made, or
        isn't called after a day."""
        name = os.path.basename(path)
        return not is_day(name) or any(name[:4] == year and name < made for year, made in self.spans)

    def days_among(self, every: list[str], holds: dict[str, str]) -> tuple[list[str], list[str]]:
        """The days among all that are looked at: on which a year rests, called after one, or audited; and the absolute
        paths of those that may be their machines too, since nothing rests on them, and they aren't called so."""
        rest = [path for path in every if path not in self.stated and not is_day(os.path.basename(path))
                and path not in holds and path not in self.answers]
        audited = those_among(rest, may_be_day, self.seconds, or_unknown=False)
        return [path for path in every if path in self.stated or is_day(os.path.basename(path))
                or path in audited], [absolute(path) for path in rest if path in audited]

    def twice_there(self, every: list[str]) -> set[str]:
        """The days beside a year's, not named themselves, of which that counts another folder, which is called
        otherwise, and no better."""
        counted = dict[str, list[str]]()
        for day in self.spelled:
            if not is_day(os.path.basename(day)):
                counted.setdefault(os.path.dirname(day), []).append(day)

        def is_no_worse(folder: Folder) -> bool:
            own, none = ranks_of(folder), dict[tuple[str, str], int]()
            others = [asked(day, ranks_of, none) for day in counted[os.path.dirname(absolute(folder.path))]]
            return bool(own) and all(any(other.get(span, rank + 1) <= rank for other in others)
                                     for span, rank in own.items())
        beside = [path for path in every if path not in self.stated and is_day(os.path.basename(path))
                  and os.path.dirname(absolute(path)) in counted and absolute(path) not in self.named]
        return those_among(beside, is_no_worse, self.seconds, or_unknown=False)

    def plan(self) -> Plan:
        """The plan. Of a day that is named, though an answer rests on it, the signature has to be good, if it has one.
        """
        others = self.look_beside(holds := self.holding())
        every = once([self.spelled.get(absolute(path), path) for folder in self.folders
                      for path in (*self.before.get(folder, ()), folder) if path not in self.answers])
        every += self.answers
        days, apart = self.days_among(every, holds)
        resting = {path: day for path in every if (day := absolute(path)) in self.rests}
        years = [year for year, _ in self.spans]
        beside = names_of({*days, *resting} - self.stated.keys())
        of_years = {*years, *(name[:4] if is_day(name) else "" for name in beside)}
        own = above_all(days + others)
        machines = Machines(own, names_of(own), above_all(own), above_all(days).union(apart),
                            resting=undermost(above_all(resting.keys() & days)),
                            years=frozenset(() if "" in of_years else of_years))
        unsigned = {day for day in self.named & self.answered
                    if not asked(day, lambda folder: folder.has(files.SIGNATURE), False)}
        leaning = {path for path, day in resting.items() if day not in self.named or day in unsigned}
        leaning |= self.twice_there(every)
        return Plan(every, self.stated, holds, leaning, machines, len(others), years, bool(self.answers), self.refused)


def those_among(paths: list[str], is_one: Callable[[Folder], bool], seconds: int, or_unknown: bool = True) -> set[str]:
    """The folders of which something is so, many at a process; and all of those of which that can't be found together,
    unless they don't count."""
    chunks = [paths[at:at + AT_ONCE] for at in range(0, len(paths), AT_ONCE)]

    def work(_: str, number: int) -> list[str]:
        return [path for path in chunks[number] if asked(path, is_one, False)]
    results = [came for _, came in run_all([chunk[0] for chunk in chunks], work, list[str], seconds)]
    return {path for chunk, came in zip(chunks, results)
            for path in (chunk * or_unknown if isinstance(came, Refusal) else came)}


def days_beside(path: str, machines: list[str], rests: set[str]) -> list[str]:
    """The folders of all days in a folder, in those in it, in those of machines below it, and in those beside these;
    and the folders among these that can't be looked into. In one on which a year rests parts of its audit are none. In
    those of machines each that is signed is one (what isn't is a copy, or the like), and two folders down each day with
    an audit, but in a machine's."""
    own, above = rests.union(map(absolute, machines)), above_all(machines)
    below = [] if is_machine(path, above) else folders_in(path, are_days=False)
    places, days = [path, *below, *machines], list[str]()
    for place in (other for folder in below if absolute(folder) not in own and not is_machine(folder, above)
                  for other in others_in(folder)):
        with suppress(Fault):
            days += [day for day in folders_in(place, are_days=True) if asked(day, may_be_day, True)]
        is_few(days)
    for machine in machines:
        days += [day for day in others_in(machine) if asked(day, lambda folder: folder.has(files.SIGNATURE), False)]
        is_few(days)
    for place in {os.path.normpath(os.path.join(machine, "..")) for machine in machines}:
        if absolute(path) in folders_above(place):
            places += [place, *others_in(place)]
        is_few(places)
    for place in sorted({absolute(place): place for place in places}.values()):
        try:
            found = folders_in(place, are_days=True)
            days += filter(may_be_signed, found) if absolute(place) in rests else found
        except Fault:
            days.append(place)
        is_few(days)
    return days


def is_few(days: list[str]) -> None:
    """Refuses more than may be verified at once."""
    if len(days) > MAX_DAYS_AT_ONCE:
        raise fault(f"more than {MAX_DAYS_AT_ONCE:,} days are in the folder")


def is_there(path: str) -> bool:
    return asked(path, lambda _: True, False)


def holds_day(path: str, depth: int = 2) -> bool:
    """Whether a folder that is called after a day, or has an audit, is in one, or in those so deep in it."""
    return has_days(path) or any(asked(other, may_be_day, False) or depth and holds_day(other, depth - 1)
                                 for other in others_in(path))


def ranks_of(folder: Folder) -> dict[tuple[str, str], int]:
    """The spans of an audit, each with the place of its verdict among all, the worst first."""
    return {(entry.claim.from_, entry.claim.to): WORST_FIRST.index(entry.verdict)
            for entry in read_any(folder.data(files.AUDIT)).entries}


def may_be_day(folder: Folder) -> bool:
    """Whether an audit is in a folder, or the signature of one."""
    return folder.has(files.AUDIT) or folder.has(files.SIGNATURE)


def may_be_signed(path: str) -> bool:
    """Whether an audit, a year or an answer is in a folder, or the signature of one."""
    with Folder(path) as folder:
        return any(map(folder.has, (*files.SIGNATURES, *files.SIGNATURES.values())))


def is_without(path: str) -> bool:
    """Whether there is no such day, or nothing in it that may be signed. (What nobody can look into may be.)"""
    with suppress(Fault):
        return not files.kind_of(files.HOME, path) or not may_be_signed(path)
    return False
