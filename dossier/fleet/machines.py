"""Folders of machines: what they are called, in which folders they are, which of them are one, and whether one may be
that of which a year or an answer to a log speaks.
"""
import os
import re
import stat
from collections import Counter
from collections.abc import Collection, Iterable
from contextlib import suppress
from functools import cache
from itertools import dropwhile
from typing import NamedTuple

from ..fault import Fault
from ..folder.entry import Refusal
from ..folder.files import AUDIT, HOME, KINDS, SIGNATURES, Folder, absolute, asked, is_roots, kind_of
from ..folder.jobs import run_all, run_one
from ..schema import is_text, is_time
from ..text import count, label, plain, spelled

NAMESAKES = "more than one machine is called {}, so nobody knows whose key that is"
IN_A_SENTENCE, OUT_OF_QUOTES = re.compile("[A-Za-z0-9_./@+-]+"), re.compile(r"[^\w./@+\\ -]")
"""A name that stands in a sentence as it is; and what is spelled out of any other."""


def is_day(name: str) -> bool:
    return is_time(f"{name}T00:00:00Z")


def with_name(path: str) -> str:
    """The path of a machine's folder, in one spelling that ends with its name."""
    path = os.path.normpath(path)
    return absolute(path) if os.path.basename(path) in (".", "..") else path


def machines_of(folders: list[str], others: Collection[str] = ()) -> dict[str, list[str]]:
    """The machines whose days, or folders of days, are named, each with the names of days; none if all are meant. A
    day's folder is called after it, or is one of these others. A machine that is spelled in several ways is one, as it
    is spelled first."""
    machines, first = dict[str, list[str]](), dict[str, str]()
    for folder in folders:
        above, name = os.path.split(folder)
        is_of_day = is_day(name) or folder in others
        path = with_name(above if is_of_day else folder)
        machines.setdefault(first.setdefault(absolute(path), path), []).extend([name] * is_of_day)
    return machines


def namesakes(machines: Iterable[str]) -> frozenset[str]:
    """The last names that several machines have, by their folders."""
    names = Counter(os.path.basename(machine) for machine in set(map(absolute, machines)))
    return frozenset(name for name, number in names.items() if number > 1)


def in_words(path: str) -> str:
    """What a folder is called, in words that are another's for no other path."""
    return plain(path.replace("\\", "\\x5c"))


def in_a_line(path: str) -> str:
    """A path as it stands in a line of a file of days: as it is, if it can."""
    return path if "\n" not in path and is_text(path) else plain(path)


def in_quotes(machine: str) -> str:
    """A machine's name in a sentence: in quotes if it could be more of the sentence, and then without other marks."""
    within_quotes = OUT_OF_QUOTES.sub(lambda mark: spelled(mark[0]), machine)
    return machine if IN_A_SENTENCE.fullmatch(machine) else f'"{within_quotes}"'


def folders_above(path: str) -> set[str]:
    """The absolute paths of a folder and of those in which it is."""
    whole = absolute(path)
    return {"/", whole, *(whole[:k] for k, letter in enumerate(whole) if k and letter == "/")}


def is_within(path: str, place: str) -> bool:
    """Whether a folder is another one, or in it."""
    return f"{absolute(path)}/".startswith(f"{absolute(place).rstrip('/')}/")


@cache
def has_days(path: str) -> bool:
    """Whether folders in one are called after days, as those of a machine are."""
    return asked(path, lambda folder: any(is_day(name) and folder.is_folder(name) for name in folder.names()), False)


def bare(path: str) -> str:
    """A path without what leads up."""
    return "/".join(dropwhile(lambda part: part in (".", ".."), path.strip("/").split("/")))


def ends_so(name: str, machine: str) -> bool:
    """Whether the path of a machine's folder here ends as the one by which it was called."""
    return in_words(absolute(machine)).endswith(f"/{bare(os.path.normpath(name))}")


def may_be(name: str, machine: str, place: str) -> bool:
    """Whether a machine may have been called so where the year in some folder was made: the path of its folder ends so,
    or this ends with all of the path that leads there from the year's."""
    called, here = bare(os.path.normpath(name)), in_words(absolute(machine))
    seen = bare(in_words(os.path.relpath(absolute(machine), absolute(place)))) or os.path.basename(here)
    is_so = called == bare(name)
    above = f"/{called}".removesuffix(f"/{seen}") if is_so else os.path.dirname(name)
    return is_so and ends_so(name, machine) or \
        f"/{called}".endswith(f"/{seen}") and above == plain(above)


def misplaced(name: str, machine: str, place: str, named: Collection[str]) -> str:
    """Why a folder isn't that of the machine of which a year or an answer in some folder speaks; nothing if it may be.
    In that very folder whoever made it may have laid days of his own, and another machine in its own."""
    if is_within(machine, place):
        return "which is within the folder that rests on it"
    if not may_be(name, machine, place):
        return "which has another name"
    above = sorted(folders_above(os.path.dirname(absolute(machine))), key=len)
    other = next((path for path in dropwhile(lambda path: path not in named, above) if has_days(path)), "")
    return f"which is within {label(other)}, a folder that has days of its own" if other else ""


def first_of(notes: list[str], what: str) -> list[str]:
    """The first of some notes, and how many more there are of such."""
    more = f" ({count(len(notes) - 1, f'more {what}')} too)" if notes[1:] else ""
    return [f"{note}{more}" for note in notes[:1]]


def renamed(machines: Iterable[tuple[str, str]]) -> list[str]:
    """A note of machines that were called otherwise than their folders are here."""
    return first_of([f"{in_quotes(name)} is {label(path)} here" for name, path in machines if not ends_so(name, path)],
                    "machine")


def days_among(folders: list[str], seconds: int, is_alone: bool = False) -> list[str]:
    """The folders that have an audit of their own, so that they are a day's and no machine's, whatever they are
    called; if that has to be alone, only those in which no folder has one."""
    def is_one(folder: Folder) -> bool:
        return folder.has(AUDIT) and not (is_alone and any(folder.has(f"{name}/{AUDIT}") for name in folder.names()))

    def work(*_: object) -> list[str]:
        return [path for path in folders if asked(path, is_one, False)]
    result = run_one("", work, list[str], seconds) if folders else []
    return [] if isinstance(result, Refusal) else result


def once(paths: list[str]) -> list[str]:
    """Paths of folders, of each the first spelling."""
    first = dict[str, str]()
    for path in paths:
        first.setdefault(absolute(path), path)
    return list(first.values())


def above_all(paths: Iterable[str]) -> frozenset[str]:
    """The folders in which some are: of days those of their machines."""
    return frozenset(os.path.dirname(absolute(path)) for path in paths)


def undermost(machines: frozenset[str]) -> frozenset[str]:
    """Those of machines in whose folders no others of them are: of these nothing is another machine's."""
    above = set[str]()
    for machine in machines:  # (one by one: a stranger's may be thousands of folders deep)
        above |= machines & folders_above(os.path.dirname(machine))
    return machines - above


def names_of(paths: Iterable[str]) -> frozenset[str]:
    """The last names of folders."""
    return frozenset(os.path.basename(path) for path in paths)


def folders_in(place: str, are_days: bool) -> list[str]:
    """The folders in one that are called after a day, or those that aren't."""
    with Folder(place) as folder:
        return [os.path.join(place, name) for name in folder.names()
                if is_day(name) == are_days and folder.is_folder(name) and not is_lost(os.path.join(place, name))]


def is_lost(path: str) -> bool:
    """Whether a folder is root's where a file system keeps what it has found again, and nobody sees anything in it."""
    return os.path.basename(path) == "lost+found" and is_roots(HOME, path) and \
        not asked(path, lambda folder: bool(folder.names()), False)


def others_in(place: str) -> list[str]:
    """The folders in one that aren't called after a day; none if it can't be looked into."""
    with suppress(Fault):
        return folders_in(place, are_days=False)
    return []


class Machines(NamedTuple):
    """The folders of machines whose days are looked at, what these are called, and the folders in which they are; the
    folders of all machines in those that are named that have days of the same years, and what several of these are
    called; the folders of machines on whose days a year or an answer rests; and these years, if they are known."""

    folders: frozenset[str] = frozenset()
    names: frozenset[str] = frozenset()
    places: frozenset[str] = frozenset()
    every: frozenset[str] = frozenset()
    alike: frozenset[str] = frozenset()
    resting: frozenset[str] = frozenset()
    years: frozenset[str] = frozenset()

    def among(self, found: dict[str, str]) -> "Machines":
        """These among all that were found, each with a day of these years, if it has one."""
        every = self.every.union(path for path, day in found.items() if day)
        return self._replace(every=every, names=self.names | names_of(found), alike=namesakes(every))


def others_among(place: str, machines: Machines) -> list[str]:
    """The folders in one that may be machines, or may hold some; a fault if nobody can look into it."""
    is_folder = kind_of(HOME, place) == KINDS[stat.S_IFDIR]
    if not is_folder or not machines.resting.isdisjoint(folders_above(place)):
        return []
    try:
        return folders_in(place, are_days=False)
    except Fault as error:
        raise error.of(plain(place)) from None


def audited_in(path: str, machines: Machines) -> str:
    """A day in a folder that has an audit, or the like, and is of the same years as machines; the folder itself if
    nobody can look into it, and nothing if it has none."""
    def day_in(folder: Folder) -> str:
        days = (name for name in folder.names() if is_day(name) and (not machines.years or name[:4] in machines.years))
        return next((day for day in days if any(folder.has(f"{day}/{file}") for file in SIGNATURES)), "")
    return asked(path, day_in, path)


def is_machine(place: str, resting: Collection[str], machines: Machines = Machines()) -> bool:
    """Whether a folder is a machine's for sure, so that what is in it is that one's: a day in it has an audit, or the
    like, and none of the folders of machines on which something rests is below it."""
    top = f"{absolute(place).rstrip('/')}/"
    return audited_in(place, machines) not in ("", place) and not any(f"{one}/".startswith(top) for one in resting)


def machines_below(folders: list[str], machines: Machines, seconds: int) -> tuple[dict[str, str], dict[str, Refusal]]:
    """The folders of machines in those that are named, or in a folder in these, each with a day that has an audit of
    the same years, if it has one; and why they can't be found in some. (What is called like a machine and has no days
    may be of whoever signs; and what is within a machine on which something rests, or with an audited day, is no
    machine, but that one's.)"""
    def work(path: str, _: int) -> dict[str, str]:
        above, days, resting = [path] if path else folders, dict[str, str](), above_all(machines.resting)

        def others(place: str) -> list[str]:
            return [] if is_machine(place, resting, machines) else others_among(place, machines)
        for place in {place for folder in above for place in (folder, *others(folder))}:
            for other in others(place):
                day = audited_in(other, machines)
                days |= {absolute(other): day} if day or has_days(other) else {}
        return days
    found, refused = dict[str, str](), dict[str, Refusal]()
    result = run_one("", work, dict[str, str], seconds)
    every = run_all(folders, work, dict[str, str], seconds) if isinstance(result, Refusal) else [("", result)]
    for path, came in every:  # (one by one if they are too many together)
        if isinstance(came, Refusal):
            refused[path] = came
        else:
            found.update(came)
    return found, refused
