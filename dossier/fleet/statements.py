"""The statements for a year: what is said of each machine, and year.json, which holds on which sums that rests, so that
somebody can sign it."""
import os
import re
from collections.abc import Collection
from itertools import accumulate, groupby
from typing import NamedTuple

from ..fault import Fault, fault
from ..folder.claim import Claim
from ..folder.entry import BUILD, NOT_VERIFIED, YES, LeapList, Made
from ..folder.files import AUDIT, LIST, SIGNATURES, YEAR, Folder, absolute, limit_of
from ..folder.registry import Known
from ..folder.result import Told, Year
from ..folder.year import Stated, Statements, read_statements
from ..records import replace
from ..schema import is_text
from ..text import count, label, listed, plain
from ..units import low_ms, ns_ms, ns_up_ms, seconds_of
from .days import NOBODY, UNKNOWN, VERIFIED, YearCall, missing_days, year_of
from .machines import NAMESAKES, first_of, in_quotes, misplaced, namesakes, renamed
from .signature import Signers
from .twins import Twins, packed, unpacked

RULES = {100_000: "MiFID II's RTS 25 of high-frequency trading, and CAT's 6.8 of exchanges",
         1_000_000: "MiFID II's RTS 25 of most venues and trading", 50_000_000: "FINRA 6820 and CAT's 6.8 of members",
         1_000_000_000: "MiFID II's RTS 25 of voice trading, and CAT's 6.8 of manual orders"}
"""Who asks for a bound of so many nanoseconds, by docs/BOUND.md."""

TWINS, ALIKE = "A recording of these days is that of", "days of the same client, on the same dates"
NOTHING = "0" * 64
"""The name of a day that has no audit, and what that says."""

WORDS = {VERIFIED: "verified", NOBODY: "not verified"}
PAGE, DAYS = ".html", ".days"
PAGES = f"its pages are those of which {YEAR} has the sums: they weren't made again"
ANY_PAGES = "its pages weren't looked at: `year --split` makes them again in another folder"
"""Of a year's pages, and of those of one that has no sums of them."""
PROGRAM = re.compile(f"({BUILD}), SHA-256 ([0-9a-f]{{64}})")
MORE_PROGRAMS = re.compile("; ([0-9]{1,3}) more programs?[.]$")
BY_ANOTHER = "made by another program than the one by which its days are known here"
UNSEEN_OF = "of {} the signature by which it counts wasn't looked at (--signers FILE does)"
MAX_LINES, MAX_OF_A_PATH, MAX_OF_A_NOTE = 366, 4_096, 200
"""Lines of a file of days, and characters of a path in it, and of a statement in a note."""
MAX_NAMED, MAX_OF_NAMES = 10, 3_000
"""Names that a statement has of a kind, and bytes of them."""


def statement(year: Year) -> str:
    """What somebody can sign of a machine's year."""
    if not year.claim or not any(day.name for day in year.days):
        return f"Of {in_quotes(year.machine)} nothing is known here."
    claim, counts, name = year.claim, year.counts, in_quotes(year.machine)
    rule = RULES.get(claim.bound_ns)
    said = [f"The clock of {claim.client} ({name}) had to be within {ns_ms(claim.bound_ns)} ms of UTC"
            f"{f', as {rule} ask' if rule else ''}.",
            f"From {year.days[0].date} to {year.days[-1].date} this is shown on {counts[YES]} of "
            f"{count(len(year.days), 'day')}, each from midnight to midnight (UTC): in every course of events that "
            "fits what was recorded.", premises_of(claim)]
    against = [f"{number} {verdict}" for verdict, number in counts.items() if verdict != YES]
    said.append(f"Not shown: {', '.join(against)}." if against else "No day stands against it.")
    length_, first = year.gap
    said += [f"The longest time without a day that is shown is {count(length_, 'day')} from {first} on."] \
        if length_ else []
    said += figures_of(year)
    said += [f"{count(number, 'day')} {'is' if number == 1 else 'are'} signed by {signer}, and nobody made "
             f"{'it' if number == 1 else 'them'} again where this was put together."
             for signer, number in signers_named(year.signers).items()]
    twins, alike = (few_named([in_quotes(machine) for machine in machines], "more machine")
                    for machines in (year.twins, year.alike))
    said += [f"{TWINS} {twins} too, so one of them is a copy."] if twins else []
    said += [f"{alike} {'has' if len(year.alike) == 1 else 'have'} {ALIKE}."] if alike else []
    return " ".join([*said, f"Audited by {programs_named(year.programs)}."])


def few_named(names: list[str], what: str, between: str = ", ") -> str:
    """Names in a sentence, and how many more there are: a statement that is too long can't be signed."""
    first = [name for name, end in zip(names[:MAX_NAMED], accumulate(len(name.encode()) for name in names))
             if end <= MAX_OF_NAMES]
    more = len(names) - len(first)
    words = first + [count(more, what)] * bool(more)
    return listed(words) if between == ", " else between.join(words)


def signers_named(signers: dict[str, int]) -> dict[str, int]:
    """Who signed how many days, the first of them by their names."""
    every = list(signers.items())
    rest = every[MAX_NAMED:]
    more = {f"{count(len(rest), 'more name')} of it": sum(number for _, number in rest)} if rest else {}
    return {in_quotes(signer): number for signer, number in every[:MAX_NAMED]} | more


def programs_named(programs: list[Made]) -> str:
    """Programs in a sentence."""
    named = [f"{made.version or 'ntpaudit'}, SHA-256 {made.sha256}" for made in programs]
    return few_named(named, "more program", "; ")


def figures_of(year: Year) -> list[str]:
    """The greatest of the least bounds, on how many days none is known, and the largest error that is known."""
    worst, unknown, off = year.worst, year.unknown, year.off
    on = f"on {count(unknown, 'more day')}" if worst else f"on {count(unknown, 'day')}"
    said = [f"The greatest bound that a day needed was {ns_up_ms(worst.least_ns or 0)} ms, on {worst.date}."] \
        if worst else []
    said += [f"No bound is known {on}."] if unknown else []
    return said + ([f"The largest error that is known was at least {low_ms(off.off)} ms, on {off.date}."]
                   if off and off.off else [])


def premises_of(claim: Claim) -> str:
    """The premises of a claim in a sentence."""
    groups, wrong = len(claim.grouped), claim.false_max
    servers = f"{count(len(claim.servers), 'server')} in {count(groups, 'group')}"
    return (f"It rests on these premises: of {servers} ({', '.join(claim.servers)}) no more than "
            f"{count(wrong, 'group')} {'was' if wrong == 1 else 'were'} wrong; the clock drifted by no more than "
            f"{claim.drift_ppb:,} parts in 10^9, what its client did included, and wasn't stepped; no request left "
            f"more than {ns_ms(claim.reading_ns)} ms before its record's time, and no reply arrived more than that "
            "after its own; what the other servers say of their own distance from UTC is true; the recordings are of "
            "this machine, and nobody changed them; and no leap second fell into these days, by the list.")


class Line(NamedTuple):
    """A line of a file of days: the day's name for good, who answers for it, the sum of what its audit says, if there
    is one, and the path of its folder."""

    name: str
    by: str
    says: str
    path: str


def by_of(day: Told) -> str:
    return NOBODY if day.verdict == NOT_VERIFIED or not day.name else day.by or VERIFIED


LINE = re.compile(r"([0-9a-f]{64}) (\S+) (?:([0-9a-f]{64}) )?(.+)")


def days_in(year: Year) -> dict[str, Told]:
    """The folders of a year, each with a day in it: one of its audit, if there is one."""
    every = {day.folder: day for day in year.days if day.folder}
    return every | {day.folder: day for day in year.days if day.name}


def lines_of(place: str, year: Year) -> bytes:
    """The lines of a machine's folders, with paths as seen from a folder."""
    machine = os.path.relpath(absolute(year.path), absolute(place))
    lines = (f"{day.name or NOTHING} {by_of(day)} {day.says or NOTHING} {machine}/{folder}\n"
             for folder, day in days_in(year).items())
    return "".join(lines).encode("utf-8", "surrogateescape")


def stated_of(year: Year, file: str, sum_: str) -> Stated:
    """What is said of a machine's year, which rests on the sums in a file that has this sum."""
    words = statement(year)
    if not is_text(words):
        raise fault(f"{label(year.machine)}: its statement is too long to be signed: call its folder otherwise")
    return Stated(year.machine, words, year.counts[YES], len(year.days), file, sum_)


def read_lines(data: bytes) -> list[Line]:
    """The lines of a file of days, each with a line feed at its end: a path may have any other mark."""
    *every, rest = data.decode("utf-8", "surrogateescape").split("\n")
    if len(every) > MAX_LINES:
        raise fault(f"a file of days has more than {MAX_LINES} lines")
    lines = [Line(*line.groups("")) for line in map(LINE.fullmatch, every) if line]
    if rest or len(lines) < len(every) or b"\0" in data:
        raise fault("a file of days isn't one")
    if any(max(len(line.path), len(line.by)) > MAX_OF_A_PATH for line in lines):
        raise fault(f"a file of days names a path or a signer of more than {MAX_OF_A_PATH:,} characters")
    return lines


def days_of(folder: Folder, named: set[str]) -> dict[str, str]:
    """The folders of all days that the statements count or name, each with its name for good. Each has to be in a
    folder that the command line names, and stands for one machine. (A stranger's path may be thousands of folders
    deep: those above it aren't worked out.)"""
    days, seen, tops = dict[str, str](), set[str](), {f"{name.rstrip('/')}/" for name in named}
    lengths = set(map(len, tops))
    for stated in read_statements(folder.data(YEAR)).machines:
        for line in lines_in(folder, stated):
            path = absolute(line.path)
            if not any(f"{path}/"[:length] in tops for length in lengths):
                raise fault(f"{line.path} is in no folder that is named: if it may be read, name the folder of its "
                            "machine too")
            if path in seen:
                raise fault(f"{line.path} stands there twice: one of the statements is a copy")
            days[line.path] = line.name
            seen.add(path)
    return days


def is_named(folder: Folder, stated: Stated) -> bool:
    """Whether a file of days is the one of which the year has the sum, as no larger one than may be is."""
    return folder.size(stated.file) <= limit_of(stated.file) and folder.sum(stated.file) == stated.sha256


def lines_in(folder: Folder, stated: Stated) -> list[Line]:
    """The lines of the days of a machine, with paths as seen from here; none if their file isn't the one that is named.
    """
    lines = read_lines(folder.data(stated.file)) if is_named(folder, stated) else []
    return [line._replace(path=os.path.normpath(os.path.join(folder.path, line.path))) for line in lines]


class Compared(NamedTuple):
    """The first difference between what stands in a year and what its days come to, by what is known here, nothing if
    there is none; the days that aren't shown; what is worth a note; and which days hadn't ended, if some had."""

    difference: str
    hidden: list[str] = []
    notes: list[str] = []
    rest: list[str] = []


def compared(folder: Folder, known: Known, leaps: LeapList, signers: Signers = Signers(None),
             named: Collection[str] = ("/",), others: Collection[str] = ()) -> Compared:
    """What of a year stands as its days are, in the folders that are named, beside others of machines."""
    statements = read_statements(folder.data(YEAR))
    machines = [machine_in(stated, lines_in(folder, stated)) for stated in statements.machines]
    wanted = YearCall(statements.year, known, leaps, seconds_of(statements.made), signers,
                      machines=len(statements.machines), namesakes=namesakes([*machines, *others]))
    twins, years, seen = Twins(), list[bytes | Year](), set[str]()
    for stated in statements.machines:
        lines = lines_in(folder, stated)
        if wrong := other_machine(folder, stated, lines, named) or stated_twice(stated, lines, seen):
            return Compared(wrong)
        year = year_stated(stated, lines, wanted)
        if wrong := other_days(stated, lines, year, wanted) or \
                without_says(stated, lines) * bool(statements.pages):
            return Compared(wrong)
        twins.add(year)
        years.append(packed(year) if lines else year)
    hidden, unseen, others = list[str](), 0, list[str]()
    for number, (stated, data) in enumerate(zip(statements.machines, years)):
        year = twins.of(number, data if isinstance(data, Year) else unpacked(data))
        if stated_of(year, stated.file, stated.sha256) != stated:
            year, note = by_another(year, programs_in(stated.statement))
            others.append(note)
        if stated_of(year, stated.file, stated.sha256) != stated:
            return Compared(f"{label(stated.machine)}: the statement doesn't follow from its days, as they are known "
                            "here")
        hidden += not_shown(year)
        unseen += sum(year.signers.values()) if signers.given is None else 0
    wrong, of_pages = compared_pages(folder, statements)
    notes = first_of(others, "statement")
    notes += renamed((stated.machine, path) for stated, path in zip(statements.machines, machines)
                     if path != stated.machine)
    notes += first_of([f"signed by {said}, by its statements: that key is called {own} here"
                       for said, own in sorted(signers.called_here.items())], "name")
    notes += [UNSEEN_OF.format(count(unseen, "day"))] * bool(unseen) + of_pages
    made, first, last = statements.made[:10], *(f"{statements.year}-{day}" for day in ("01-01", "12-31"))
    rest = [f"days from {max(first, made)} on, which hadn't ended when it was made"] * (made <= last)
    return Compared(wrong, hidden + rest * (made <= first), notes, rest * (made > first))


def by_another(year: Year, programs: list[Made]) -> tuple[Year, str]:
    """A year as if these programs had made its audits, and a note of that."""
    other = [made for made in programs if made not in year.programs] or programs
    return replace(year, programs=programs), f"{BY_ANOTHER}: by {programs_named(other)[:MAX_OF_A_NOTE]}; " \
        f"here by {programs_named(year.programs) or 'none'}"


def programs_in(statement: str) -> list[Made]:
    """The programs by which a statement says that days were audited."""
    named, more = statement.rpartition("Audited by ")[2], MORE_PROGRAMS.search(statement)
    rest = [Made("", NOTHING)] * int(more[1] if more else 0)  # (of these a statement says how many there are)
    return [Made(*found.groups()) for found in PROGRAM.finditer(named)] + rest


def compared_pages(folder: Folder, statements: Statements) -> tuple[str, list[str]]:
    """The first page of a folder that isn't the one of which its year has the sum, or file of days that its year
    doesn't name, nothing if there is none; and what is worth a note."""
    pages, files = statements.pages, {stated.file for stated in statements.machines}
    if not pages:
        return "", [ANY_PAGES]
    names, notes = folder.names(), unanswered_in(folder, {YEAR, SIGNATURES[YEAR], LIST, *pages, *files})
    for name in sorted({*pages, *(name for name in names if name.endswith(PAGE))}):
        if not folder.has(name) or folder.sum(name) != pages.get(name):
            return f"{label(name)} isn't the page that was signed: {YEAR} has another sum, or none", notes
    if other := next((name for name in names if name.endswith(DAYS) and name not in files), ""):
        return f"{label(other)} isn't a file that {YEAR} names", notes
    return "", [PAGES, *notes]


def unanswered_in(folder: Folder, own: Collection[str]) -> list[str]:
    """A note of what is in a folder besides its own files, which is nobody's word, if there is anything."""
    others = [name for name in folder.names() if name not in own]
    more = f" and {count(len(others) - 1, 'more file')}" if others[1:] else ""
    return [f"nobody answers for {label(others[0])}{more}"] if others else []


def other_machine(folder: Folder, stated: Stated, lines: list[Line], named: Collection[str]) -> str:
    """Why a file of days isn't that of a machine; nothing if it is."""
    machine = machine_in(stated, lines)
    if not is_named(folder, stated):
        return f"{label(stated.file)} isn't the file that {YEAR} names"
    if len({os.path.dirname(line.path) for line in lines}) > 1:
        return f"{label(stated.file)} has days of several machines"
    why = misplaced(stated.machine, machine, folder.path, named) if lines else ""
    return f"{label(stated.machine)}: its days are in {machine}, {why}" if why else ""


def stated_twice(stated: Stated, lines: list[Line], seen: set[str]) -> str:
    """That a machine, by its name or the folder of its days, has a statement among those that were seen; nothing if it
    has none. (Of two folders with one day the worse would stand in one statement, and the better count in another.)"""
    own = {stated.machine, *(f"{absolute(machine_in(stated, lines))}/" for _ in lines[:1])}
    is_twice = not own.isdisjoint(seen)
    seen |= own
    return f"{label(stated.machine)}: {YEAR} has two statements of it" if is_twice else ""


def machine_in(stated: Stated, lines: list[Line]) -> str:
    """The folder of a machine, by its days; as it was called if there are none."""
    return os.path.dirname(lines[0].path) or "." if lines else stated.machine


def year_stated(stated: Stated, lines: list[Line], wanted: YearCall) -> Year:
    """The year of a machine by the folders that a statement names, as far as they are known here."""
    if not lines:
        return Year(stated.machine, missing_days(wanted.year, wanted.at))
    answering = {os.path.basename(line.path): line.by for line in lines if line.by != VERIFIED}
    machine, days = machine_in(stated, lines), [os.path.basename(line.path) for line in lines]
    try:
        return replace(year_of(wanted._replace(answering=answering), machine, days), machine=stated.machine)
    except Fault as error:
        raise error.of(plain(machine)) from None


def other_days(stated: Stated, lines: list[Line], year: Year, wanted: YearCall) -> str:
    """The first day that isn't the one that a line names, or isn't known here as the line says."""
    known = {os.path.normpath(os.path.join(year.path, folder)): day for folder, day in days_in(year).items()}
    machine = os.path.basename(absolute(year.path))
    for line in lines:
        day = known.get(line.path)
        if not day or (day.name or NOTHING) != line.name:
            return f"{label(line.path)} isn't the day that {stated.file} names"
        if line.by not in WORDS and machine in wanted.namesakes:
            return f"{label(line.path)} is signed by {line.by} by {stated.file}: {NAMESAKES.format(machine)}"
        if by_of(day) != line.by:
            return f"{label(line.path)} is {WORDS.get(line.by, f'signed by {line.by}')} by {stated.file}, and here " \
                f"{WORDS.get(by_of(day), f'signed by {day.by}')}"
        if line.says and (day.says or NOTHING) != line.says:
            return f"{label(line.path)}: its {AUDIT} says something else than when {YEAR} was made"
    return ""


def without_says(stated: Stated, lines: list[Line]) -> str:
    """The first line of a year that has no sum of what the day's audit says, though each had one when it was made."""
    line = next((line for line in lines if not line.says), None)
    return f"{label(line.path)}: {stated.file} has no sum of what its {AUDIT} says" if line else ""


def not_shown(year: Year) -> list[str]:
    """The days of a machine that aren't shown, those of one verdict that follow one another together."""
    runs = [(words, list(days)) for words, days in groupby(year.days, said_of) if words != YES]
    return [f"{in_quotes(year.machine)} {' .. '.join(dict.fromkeys((days[0].date, days[-1].date)))} {words}"
            for words, days in runs]


def said_of(day: Told) -> str:
    """A day's verdict, and what was found since of one that nobody had verified."""
    is_found = day.verdict == NOT_VERIFIED and not day.cause.startswith(UNKNOWN)
    return f"{day.verdict} (here {day.cause})" if is_found else day.verdict
