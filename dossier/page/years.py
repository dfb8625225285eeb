"""A year of many machines: looked at machine by machine, written as a calendar with the sums, what isn't shown, and
statements to sign, and kept so that these can be signed."""
import os
from collections.abc import Iterator, Sequence
from contextlib import suppress
from itertools import groupby
from typing import NamedTuple

from ..fault import Fault, fault
from ..fleet.days import YearCall, year_of
from ..fleet.machines import days_among, folders_in, in_a_line, is_day, machines_of, namesakes, others_in
from ..fleet.statements import DAYS, PAGE, lines_of, stated_of, statement
from ..fleet.twins import Twins, packed, unpacked
from ..folder.entry import YES, Refusal
from ..folder.files import YEAR
from ..folder.jobs import run_all, run_one
from ..folder.result import MISSING, Told, Year
from ..folder.year import Stated, Statements
from ..schema import json_text
from ..text import note
from ..units import civil, ns_up_ms
from .figure import shade, strip
from .names import Split, page_of
from .templates import INDEX, SIGNS, page, put, templates

MONTHS = ("Jan", "Feb", "Mar", "Apr", "May", "Jun", "Jul", "Aug", "Sep", "Oct", "Nov", "Dec")


class MachineRow(NamedTuple):
    """A machine in the table of all: where its year is, and what is said of it."""

    link: str
    machine: str
    days: int
    counts: dict[str, int]
    signers: dict[str, int]
    signed: int
    gap: tuple[int, str]
    worst: Told | None
    unknown: int
    off: Told | None
    twins: list[str]
    alike: list[str]
    strip: str


class Pages(NamedTuple):
    """Where a year is written: a page of all, or below a folder a page for each machine."""

    title: str
    output: str | None
    split: str | None

    @property
    def base(self) -> str:
        """The folder from which days are linked to."""
        return self.split or os.path.dirname(self.output or "")

    def page(self, title: str, articles: list[tuple[int, Year]], machines: Sequence[MachineRow] = (),
             above: str = "") -> bytes:
        """A page of the table of machines, or of a machine alone."""
        return page("year.html", len(machines), title=title, articles=articles, machines=machines, above=above,
                    days=sum(row.days for row in machines), shown=sum(row.counts[YES] for row in machines),
                    signed=sum(row.signed for row in machines), signs=SIGNS, months=self.months, statement=statement,
                    link_to=self.link_to)

    def link_to(self, year: Year, day: Told) -> str:
        path = os.path.relpath(os.path.join(year.path, day.folder), self.base or ".") if day.folder else ""
        return f"{quoted(path)}/" if path else ""

    def months(self, year: Year) -> Iterator[tuple[str, list[tuple[str, str, str, str]]]]:
        """The months that have days; of each day its look, its sign, what it says, and where it leads."""
        for month, days in groupby(year.days, lambda day: day.date[5:7]):
            yield MONTHS[int(month) - 1], [self.cell(year, day) for day in days]

    def cell(self, year: Year, day: Told) -> tuple[str, str, str, str]:
        """A day's cell: its class, its sign, what is said of it, and the link to its page."""
        kind, shaded = day.verdict.replace(" ", "-"), shade(year, day)
        least = f", least bound {ns_up_ms(day.least_ns)} ms" if day.least_ns is not None else ""
        by = f", signed by {day.by}" if day.by else ""
        kind, words = f"{kind} s{shaded}" if shaded else kind, f"{day.date}: {day.verdict}{least}{by}"
        kind += " signed" if by else ""
        return kind, SIGNS.get(day.verdict, "?"), words, self.link_to(year, day)


def quoted(path: str) -> str:
    """A path as a link has it."""
    return "".join(chr(byte) if byte < 128 and (chr(byte).isalnum() or chr(byte) in "/._-") else f"%{byte:02X}"
                   for byte in path.encode("utf-8", "surrogateescape"))


def row_of(link: str, year: Year) -> MachineRow:
    signed = sum(day.verdict == YES for day in year.days if day.by)
    return MachineRow(link, year.machine, len(year.days), year.counts, year.signers, signed, year.gap, year.worst,
                      year.unknown, year.off, year.twins, year.alike, strip(year))


def write_year(folders: list[str], wanted: YearCall, pages: Pages, seconds: int, jobs: int) -> int:
    """Writes the year. The status is that of the worst machine that couldn't be looked at; 0 if all could."""
    others = days_among([folder for folder in folders if not is_day(os.path.basename(folder))], seconds, is_alone=True)
    names, worst, packs, empty = machines_of(folders, others), 0, list[bytes](), list[str]()
    split, twins = Split(pages.split, folders, YEAR) if pages.split else None, Twins()
    wanted = wanted._replace(machines=len(names), namesakes=namesakes(names))
    templates()

    def work(machine: str, _: int) -> Year:
        if split and in_a_line(machine) != machine:
            raise fault("no line of a file of days can have its path: call its folder otherwise")
        return year_of(wanted, machine, names[machine])
    for machine, result in run_all(list(names), work, Year, seconds, min(jobs, len(names))):
        if isinstance(result, Refusal):
            worst = max(worst, result.status)
            note(f"{machine}: {result.line}")
            continue
        twins.add(result)
        packs.append(packed(result))
        empty += [machine] * all(day.verdict == MISSING for day in result.days)
    if not packs:
        raise fault("none of these folders has a year")
    for machine in of_machines(empty, wanted.year, seconds) if empty else ():
        note(f"{machine}: no day of {wanted.year} is in it, but in folders in it: name those ({machine}/*)")
    years = (twins.of(number, unpacked(data)) for number, data in enumerate(packs))
    if not split:
        articles = list(enumerate(years, 1))
        put(pages.page(pages.title, articles, [row_of(f"#m{number}", year) for number, year in articles]), pages.output)
        return worst
    rows, stated = list[MachineRow](), list[Stated]()
    for number, year in enumerate(years, 1):
        name = page_of(year.path)
        split.put(pages.page(f"{pages.title}: {year.machine}", [(number, year)], above=INDEX), f"{name}{PAGE}")
        split.put(lines_of(split.path, year), file := f"{name}{DAYS}")
        stated.append(stated_of(year, file, split.left[file]))
        rows.append(row_of(f"{name}.html", year))
    split.put(pages.page(pages.title, [], rows), INDEX)
    left = {name: sum_ for name, sum_ in split.left.items() if name.endswith(PAGE)}
    split.put(json_text(Statements(wanted.year, civil(wanted.at), "", stated, left)), YEAR)
    split.end()
    return worst


def of_machines(folders: list[str], year: int, seconds: int) -> list[str]:
    """The folders in which no folder is called after a day of a year, though some are in folders in these: each is that
    of several machines."""
    def work(*_: object) -> list[str]:
        return [path for path in folders
                if not has_days_of(path, year) and any(has_days_of(other, year) for other in others_in(path))]
    result = run_one("", work, list[str], seconds)
    return [] if isinstance(result, Refusal) else result


def has_days_of(path: str, year: int) -> bool:
    """Whether folders in one are called after days of a year."""
    with suppress(Fault):
        return any(os.path.basename(day).startswith(f"{year}-") for day in folders_in(path, are_days=True))
    return False
