"""The days of a year of one machine: which folders they are in, and what is known here of each.

Each day's audit.json is looked at, and its claim, but no capture. A day is what its claim's span says, whatever its
folder is called. It counts once, and only if it is of the claim that most of the machine's days have.
"""
import os
from collections import Counter
from collections.abc import Iterator
from functools import cache
from typing import NamedTuple

from ..fault import Fault
from ..folder.claim import Claim, parts_of
from ..folder.entry import (DISPUTED, FUTURE, NOT_VERIFIED, REFUSED, WORST_FIRST, Entry, LeapList, Made, Record,
                            read_record)
from ..folder.files import AUDIT, CLAIM, SIGNATURE, Folder, absolute, sum_of
from ..folder.registry import Known
from ..folder.result import MISSING, MAX_FOLDERS, NOT_COUNTED, Told, Year
from ..premise.leap import record_by
from ..records import replace
from ..schema import NOT_TAKEN, read_typed
from ..text import plain
from ..units import DAY, day_of, seconds_of
from ..verdict.sentences import reason
from .machines import NAMESAKES, in_a_line, in_words, is_day
from .signature import Signers, signed_in
from .twins import few_of

OTHER = "another claim or client than most days have"
NO_DAY = "its name is no day, and it has no audit.json"
UNKNOWN = f"{AUDIT} was neither made nor verified here, or is of another {CLAIM}"
REFUSED_BY = "it was refused by what {} signed"
"""Of a machine's own words none are on a page that somebody else signs."""
ITS_OWN = f"{AUDIT}: it is of the folder of all days, and of none of them"
VERIFIED, NOBODY = "verified", "-"
"""Who answers for a day that was made or verified where a year was put together, and for one that is known nowhere."""


class DayFolder(NamedTuple):
    """What is known of a folder: the day of its claim's span, its record and entry, and the sums of its captures. What
    isn't counted has the day after which the folder is called, if that is one."""

    told: Told
    claim: Claim | None = None
    made: Made | None = None
    captures: frozenset[str] = frozenset()


class YearCall(NamedTuple):
    """Which year, what is known here, up to which Unix second days have ended, who may have signed what isn't known
    here, who answers for which of a machine's folders by what is to be verified, how many machines there are, and
    which last names several of them have, so that no signature counts for these."""

    year: int
    known: Known
    leaps: LeapList
    at: int
    signers: Signers = Signers(None)
    answering: dict[str, str] = {}
    machines: int = 1
    namesakes: frozenset[str] = frozenset()

    def is_namesake(self, machine: str) -> bool:
        """Whether another machine is called like that of a folder."""
        return os.path.basename(absolute(machine)) in self.namesakes


def year_of(wanted: YearCall, machine: str, names: list[str]) -> Year:
    """The year of a machine: by these folders in its own, or by all in it if none is named; days of other years are
    passed over. Of two with the same day the worse counts. A fault if its own can't be opened."""
    with Folder(machine) as folder:
        twice = [name for name, number in Counter(names).items() if number > 1]
        days = sorted(set(names)) or [name for name in folder.names() if folder.is_folder(name)]
        folders = [one for name in days[:MAX_FOLDERS] for one in day_folders(wanted, folder, name)]
        others = [ITS_OWN] * folder.has(AUDIT)
    left = days[MAX_FOLDERS:]
    dates, today = dates_of(wanted.year, wanted.at), day_of(wanted.at)
    claim = common_claim(folders, dates)
    common = same(claim) if claim else ""
    kept, beside = dict[str, Told](), dict[str, Told]()
    others += [f"{name} is named twice" for name in twice]
    others += [f"{plain(name)}: {len(left)} folders from it on are more than {MAX_FOLDERS}" for name in left[:1]]
    for one in sorted(folders, key=lambda one: [*WORST_FIRST, one.told.verdict].index(one.told.verdict)):
        told = one.told
        if told.date and told.date not in dates:
            others += [f"{plain(told.folder)}: {told.date} hasn't ended yet"] if told.date >= today else []
        elif told.verdict == NOT_COUNTED or (one.claim and same(one.claim) != common):
            why = told.cause if told.verdict == NOT_COUNTED else OTHER
            others.append(f"{plain(told.folder)}: {why}")
            beside.setdefault(told.date, replace(told, verdict=NOT_COUNTED, cause=why, least_ns=None, off=0))
        elif told.date in kept:
            others.append(f"{plain(told.folder)}: {told.date} stands twice, and counts as in "
                          f"{plain(kept[told.date].folder)}")
        else:
            kept[told.date] = told
    made = {one.made: None for one in folders if one.made and kept.get(one.told.date) is one.told}
    told_of_all = [kept.get(date) or beside.get(date) or Told(date, MISSING) for date in dates]
    captures = {sum_ for one in folders if kept.get(one.told.date) is one.told
                for sum_ in few_of(one.captures, 366 * wanted.machines)}
    return Year(in_words(machine), told_of_all, claim, sorted(others), list(made), sorted(captures),
                path=in_a_line(machine))


def common_claim(folders: list[DayFolder], dates: list[str]) -> Claim | None:
    """The claim that most of these dates have, of as many the one of the earliest. Folders that a year doesn't name in
    the end don't change it: those of other dates, and of one date a second of the same claim."""
    claims, among = dict[str, dict[str, Claim]](), set(dates)
    for one in folders:
        if one.claim and one.told.date in among and one.told.verdict != NOT_COUNTED:
            claims.setdefault(same(one.claim), {})[one.told.date] = one.claim
    common = min(claims, key=lambda words: (-len(claims[words]), min(claims[words]), words), default="")
    return next(iter(claims[common].values())) if claims else None


@cache
def dates_of(year: int, at: int) -> list[str]:
    """The days of a year that had ended at a Unix second."""
    begin, end = (seconds_of(f"{year}-{day}T00:00:00Z") for day in ("01-01", "12-31"))
    return [day_of(second) for second in range(begin, min(end + DAY, at // DAY * DAY), DAY)]


@cache
def missing_days(year: int, at: int) -> list[Told]:
    """The days of a machine that has no folder."""
    return [Told(date, MISSING) for date in dates_of(year, at)]


def same(claim: Claim) -> str:
    """A claim without its span."""
    return repr({**vars(claim), "from_": "", "to": ""})


def day_folders(wanted: YearCall, folder: Folder, name: str) -> Iterator[DayFolder]:
    """What is known of the days that a folder of one has: one, if it is as it should be."""
    named = name if is_day(name) else ""
    try:
        signed_in(folder, name)
        if not named and not folder.has(f"{name}/{AUDIT}"):
            yield DayFolder(Told("", NOT_COUNTED, in_a_line(name), NO_DAY))
            return
        written = read_record(folder.data(f"{name}/{AUDIT}"), of_any_time=True)
        by = NOBODY if written.is_future else wanted.answering.get(name, "")  # (as it is once its time has come)
        record = wanted.known.shown(folder.sum(f"{name}/{AUDIT}"), written)
        signer = signer_of(wanted, folder, name, by) if by or not record else ""
        if not record and signer and by in ("", signer):
            record, by = written, signer
        if by not in ("", NOBODY, signer) and wanted.signers.given is not None:
            record = None  # (it is said to count by a signature)
        if record and not record.refusal and not is_of_claim(folder, record, f"{name}/"):
            record = None
        unknown = UNKNOWN
        if by == NOBODY:  # (what was found since doesn't count, and is told)
            unknown, record = FUTURE if written.is_future else found_since(wanted.known, record), None
    except Fault as error:
        words = "".join(error.words.partition(NOT_TAKEN)[:2])  # (which name in it isn't may be a stranger's sentence)
        yield DayFolder(Told(named, NOT_COUNTED, in_a_line(name), plain(words)))
        return
    if record is None or record.refusal:
        if unknown == UNKNOWN and wanted.signers.given is not None and wanted.is_namesake(folder.path):
            unknown += f"; {NAMESAKES.format(os.path.basename(absolute(folder.path)))}"
        verdict, why = (NOT_VERIFIED, unknown) if not record or not record.refusal else \
            (REFUSED, REFUSED_BY.format(by) if by else record.refusal.line)
        told = Told(named, verdict, in_a_line(name), plain(why), name=written.name, by=by if record else "",
                    says=written.says)
        yield DayFolder(told if named else replace(told, verdict=NOT_COUNTED), made=record.program if record else None)
    else:
        dispute, says = plain(wanted.known.dispute(record)), written.says
        for entry in record_by(wanted.leaps, record, by).entries:
            one = told_of(name, entry, record, by, dispute)
            yield one._replace(told=replace(one.told, says=says))


def is_of_claim(folder: Folder, record: Record, within: str = "") -> bool:
    """Whether the claim of a folder, or of a day's in it, is that of its audit, as a whole or by days."""
    data = folder.data(f"{within}{CLAIM}")
    claim: Claim = read_typed(CLAIM, Claim, data)
    parts = parts_of(claim, record.options.days)
    return sum_of(data) == record.inputs.get(CLAIM) and \
        [part.claim for part in parts] == [entry.claim for entry in record.entries]


def found_since(known: Known, record: Record | None) -> str:
    """The verdicts of what is known here, though it wasn't where a year was put together."""
    if not record or known.believes:
        return UNKNOWN
    return DISPUTED if known.dispute(record) else " and ".join(sorted({*record.verdicts}))


def signer_of(wanted: YearCall, folder: Folder, name: str, said: str) -> str:
    """Who signed a day that isn't known here, if that is its machine, and no other one is called so; as is said."""
    if wanted.signers.given is None or wanted.is_namesake(folder.path) or not folder.has(f"{name}/{SIGNATURE}"):
        return ""
    with Folder(os.path.join(folder.path, name)) as day:
        signer = wanted.signers.machine_of(day, folder.path, said)
        if signer in (VERIFIED, NOBODY):  # (in a line of a file of days that says something else)
            return ""
        return signer if day.sum(AUDIT) == folder.sum(f"{name}/{AUDIT}") else ""


def told_of(name: str, entry: Entry, record: Record, by: str, dispute: str) -> DayFolder:
    """An entry, if it is of a whole day. What the second program disputes has no verdict."""
    claim, date = entry.claim, entry.claim.from_[:10]
    if claim.first % DAY or claim.last != claim.first + DAY:
        why = f"{claim.from_} to {claim.to} is no day"
        return DayFolder(Told(name if is_day(name) else "", NOT_COUNTED, in_a_line(name), why), claim)
    told = Told(date, DISPUTED, in_a_line(name), dispute, name=record.name, by=by) if dispute else \
        Told(date, entry.verdict, in_a_line(name), reason(entry), entry.least_ns, known_error(entry), record.name, by)
    return DayFolder(told, claim, record.program, record.recordings)


def known_error(entry: Entry) -> int:
    """The largest distance from UTC, in ticks, that the clock had at least at some time: of what the hull left on one
    side of zero."""
    hulls = [entry.worst.hull, *(part.hull for part in entry.parts),
             *(time.hull for part in entry.parts for time in part.beyond)]
    return max((max(hull[0], -hull[1], 0) for hull in hulls if not isinstance(hull, str)), default=0)
