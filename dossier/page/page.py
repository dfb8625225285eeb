"""The page: one file that needs no network, to be read on a screen or on paper."""
import argparse
import os
import time
from collections import Counter
from collections.abc import Iterator, Sequence
from typing import NamedTuple

from ..fault import REFUSED as INPUT_REFUSED, USAGE, Fault, fault
from ..fleet.audit import change_of
from ..fleet.metrics import Sample, of_record, of_verdict, write_metrics
from ..fleet.signature import NONE, STRANGER, UNFIT, UNSEEN, Signature, Signers
from ..fleet.twins import are_neighbours
from ..fleet.verify import Verifier, audit_json
from ..folder.entry import (DISPUTED, FEW, NO_EVIDENCE, NOT_VERIFIED, NOTHING_FITS, OPEN, REFUSED, REFUTED, UNSUPPORTED,
                            YES, LeapList, Refusal)
from ..folder.files import Folder, sum_of
from ..folder.jobs import run_all
from ..folder.older import read_any
from ..folder.registry import Known
from ..folder.result import OnPage, Row, Section
from ..premise.leap import record_by
from ..records import asdict, replace
from ..schema import json_text
from ..text import capital, count, note
from ..units import seconds_of
from ..verdict.sentences import TWICE
from . import templates
from .article import article, parts, short_article
from .names import Split, page_of
from .remedies import remedy
from .table import as_csv, badness_of, row_of, row_without_verdict
from .templates import INDEX, put

MEANINGS = {
    YES: "shown: in every course of events that fits the capture",
    UNSUPPORTED: "a yes against which the folder's own evidence speaks",
    REFUTED: "not shown, and by nothing in the capture: a course of events fits it that breaks the claim",
    NOTHING_FITS: "no course of events fits: in this capture one of the premises fails",
    NO_EVIDENCE: "the capture says nothing about the clock",
    OPEN: "neither shown nor refuted",
    NOT_VERIFIED: "an audit.json that was neither made nor verified here: it may say what it likes",
    REFUSED: "no verdict: the audit couldn't be made",
    DISPUTED: "the second program says something else, so neither is believed",
}
SIGNED = {NONE: "nobody", UNSEEN: "not looked at", UNFIT: "doesn\u2019t fit", STRANGER: "by a stranger"}
UNKNOWN = "It was neither made nor verified here, so nothing that its audit.json says is shown"
VERIFY = "`ntpaudit-dossier verify` the folder, or call `page --verify`."
DIFFER = "Believe neither program, keep the folder, and report it. `verify --second` judges it again."


class Shown(NamedTuple):
    """A section on the page: the name of its place, where the table leads, if that is another page, and the folder,
    whatever others are shown like it."""

    section: Section
    name: str
    file: str = ""
    path: str = ""

    @property
    def row(self) -> Row:
        return self.section.row

    @property
    def span(self) -> tuple[str, int, int]:
        return self.row.client, seconds_of(self.row.begin), seconds_of(self.row.end)

    @property
    def link(self) -> str:
        return self.file or f"#{self.name}"

    @property
    def why(self) -> list[tuple[str, list[str]]]:
        """Why it isn't a yes and what to do, and the warnings, each with what leads to it; of a yes that has a page of
        its own how many warnings these are."""
        row = self.row
        if self.file and row.verdict == YES and row.warnings:
            return [("", [count(len(row.warnings), "warning")])]
        said = [("", list(filter(None, [row.reason, row.to_do])))]
        return [*said[:bool(said[0][1])], *(("Warning:", [words]) for words in row.warnings if words not in row.reason)]


class Looking(NamedTuple):
    """How folders are looked at: what is known here, who may sign, whether they are verified first, and whether more is
    to be shown than the table."""

    known: Known
    signers: Signers
    leaps: LeapList
    verifier: Verifier | None
    has_articles: bool

    def at(self, paths: list[str], seconds: int) -> Iterator[OnPage]:
        """The sections of each folder. One whose process handed nothing back has those that say so."""
        for path, result in run_all(paths, self.look, OnPage, seconds):
            yield self.refused(path, result, Signature(NONE)) if isinstance(result, Refusal) else result

    def look(self, path: str, number: int) -> OnPage:
        """The sections of a folder, whatever stands in it. Its status is 2 if it was refused for that."""
        signature = Signature(NONE)
        try:
            with Folder(path) as folder:
                signature = self.signers.signature_of(folder)
                return self.look_in(path, folder, signature, number)
        except Fault as error:
            return self.refused(path, error, signature)

    def look_in(self, path: str, folder: Folder, signature: Signature, number: int) -> OnPage:
        """What the page has of an open folder."""
        data = audit_json(folder)
        written = read_any(data)
        if self.verifier:
            why, _, record, _ = self.verifier.verify(folder)
        else:
            record = self.known.shown(sum_of(data), written)
            why = UNKNOWN if not record else "" if record.refusal else change_of(folder, record)
        if why or not record:
            row = row_without_verdict(path, NOT_VERIFIED, f"{why}.", VERIFY, signature)
            return self.short(path, row, "", signature)
        if record.refusal:
            return self.refused(path, record.refusal, signature, list(of_record(path, record)))
        if words := self.known.dispute(record):
            row = row_without_verdict(path, DISPUTED, f"{words}.", DIFFER, signature)
            return self.short(path, row, "", signature)
        record, judged, sections = record_by(self.leaps, record), self.known.judgement(record), []
        for part, entry in enumerate(record.entries):
            name, said = name_of(number, part), ("", "")
            if self.has_articles:
                said = article(path, folder, record, entry, signature, judged, name)
            row = row_of(path, entry, signature, judged)
            sections.append(Section(row, *said, record.program, sorted(record.recordings)))
        return OnPage(sections, list(of_record(path, record)), record.verdicts)

    def refused(self, path: str, refusal: Fault | Refusal, signature: Signature,
                metrics: Sequence[Sample] = ()) -> OnPage:
        """What the page has of a folder without a verdict."""
        why, what = (f"{refusal.why}.", capital(refusal.what)) if refusal.why else remedy(refusal.line, path)
        row = row_without_verdict(path, REFUSED, f"{refusal.line}. {why}", what, signature)
        is_for_input = refusal.status == INPUT_REFUSED and not metrics
        short = self.short(path, row, refusal.line, signature, metrics)
        return replace(short, status=INPUT_REFUSED if is_for_input else 0)

    def short(self, path: str, row: Row, line: str, signature: Signature, metrics: Sequence[Sample] = ()) -> OnPage:
        """A folder without a verdict. It has an audit, unless there is no other reason why nothing is shown."""
        section = Section(row, short_article(row, line, signature) if self.has_articles else "")
        is_audit = row.verdict in (NOT_VERIFIED, DISPUTED) or bool(metrics)
        return OnPage([section], [*metrics, *of_verdict(path, row.verdict)], [row.verdict] if is_audit else [])


def name_of(number: int, part: int) -> str:
    return f"a{number}-{part}" if part else f"a{number}"


def mark_twins(every: list[Shown]) -> set[str]:
    """Warns of a capture that is in several folders, which are given."""
    where: dict[str, list[Shown]] = {}
    for one in every:
        for sum_ in one.section.captures:
            where.setdefault(sum_, []).append(one)
    for one in every:
        for sum_ in one.section.captures:
            others = [other.row.machine for other in where[sum_]
                      if other.path != one.path and not are_neighbours(one.span, other.span)]
            if others := list(dict.fromkeys(others)):
                one.row.twice.append(f"{TWICE} {', '.join(others[:FEW])}{' ..' if others[FEW:] else ''}.")
        one.row.twice[:] = dict.fromkeys(one.row.twice)
        one.row.warnings[:0] = one.row.twice
    return {one.path for one in every if one.row.twice}


def write_page(folders: list[str], given: argparse.Namespace, known: Known, leaps: LeapList,
               verifier: Verifier | None = None) -> int:
    """Prints the page or the table, or writes it whole. The status is 2 if a folder was refused for what stands in
    it, or if none has an audit."""
    looking = Looking(known, Signers(given.signers), leaps, verifier, not (given.json or given.csv))
    if looking.has_articles:
        parts()  # (which the processes of all folders have then, or none is begun)
    split = Split(given.split) if given.split else None
    worst, has_audit, every, metrics = 0, False, list[Shown](), list[Sample]()
    for number, result in enumerate(looking.at(folders, given.limit)):
        worst, has_audit = max(worst, result.status), has_audit or bool(result.verdicts)
        metrics += result.metrics
        file = f"{page_of(folders[number])}.html" if split else ""
        shown = [Shown(section, name_of(number, part), file, folders[number])
                 for part, section in enumerate(result.sections)]
        every += list(written(shown, given, split)) if split else shown
    twins = mark_twins(every)
    if split:
        again = [number for number, path in enumerate(folders) if path in twins]
        for number, result in zip(again, looking.at([folders[number] for number in again], given.limit)):
            own = [one for one in every if one.path == folders[number]]
            list(written([one._replace(section=replace(section, row=one.row))
                          for section, one in zip(result.sections, own)], given, split))
    years = years_of(folders, given, known, leaps) if split else []
    data = text_of(worst_first(every), given, len(folders), years)
    if split:
        split.put(data, INDEX)
        split.end()
    else:
        put(data, given.output)
    status = write_metrics(given.metrics, metrics) if given.metrics else 0
    if not has_audit:
        raise fault("none of these folders has an audit")
    return max(worst, status)


def years_of(folders: list[str], given: argparse.Namespace, known: Known, leaps: LeapList) -> list[str]:
    """Writes a calendar of each year below the page, if the folders are days: of all days that stand beside them. Which
    years these are."""
    from ..fleet.days import YearCall
    from ..fleet.machines import is_day, machines_of
    from .years import Pages, write_year
    if not all(is_day(os.path.basename(folder)) for folder in folders):
        return []
    years = []
    for year in sorted({os.path.basename(folder)[:4] for folder in folders}):
        pages = Pages(f"{given.title}, {year}", None, os.path.join(given.split, year))
        wanted = YearCall(int(year), known, leaps, int(time.time()), Signers(given.signers))
        try:  # (of a machine that can't be looked at the page has the line)
            write_year(list(machines_of(folders)), wanted, pages, given.limit, 1)
        except Fault as refused:
            if refused.status == USAGE:  # (it is signed)
                note(refused.words)
            elif refused.status == INPUT_REFUSED:
                continue
            else:
                raise
        years.append(year)
    return years


def written(own: list[Shown], given: argparse.Namespace, split: Split) -> Iterator[Shown]:
    """Writes the sections of a folder as a page of their own, and leaves their lines."""
    text = page([one._replace(file="") for one in own], given.title, 1, given.signers is not None, INDEX)
    split.put(text, own[0].file)
    return (one._replace(section=replace(one.section, head="", rest="")) for one in own)


def text_of(every: list[Shown], given: argparse.Namespace, folders: int, years: Sequence[str]) -> bytes:
    """What is asked for, of sections: the table as JSON or CSV, or a page that leads to these years."""
    if given.json:
        return json_text([asdict(one.row) for one in every])
    if given.csv:
        return as_csv([one.row for one in every]).encode("utf-8", "backslashreplace")
    return page(every, given.title, folders, given.signers is not None, years=years)


def worst_first(every: list[Shown]) -> list[Shown]:
    """The sections folder by folder, those of the worst folder first, and of two that are as bad in their own order."""
    badness: dict[str, tuple[int, int]] = {}
    for row in (one.row for one in every):
        badness[row.machine] = min(badness_of(row), badness.get(row.machine, badness_of(row)))
    return sorted(every, key=lambda one: badness[one.row.machine])


def page(every: list[Shown], title: str, folders: int, is_looked_at: bool, above: str = "",
         years: Sequence[str] = ()) -> bytes:
    """A page of sections, which leads back to the one above it, if there is one, and to years. A column of the table
    that would be empty is left out."""
    rows = [one.row for one in every]
    counts = Counter(row.verdict for row in rows)
    made = {one.section.made.sha256: one.section.made.version for one in every if one.section.made}
    has_days, has_figures = any(row.day for row in rows), any(row.bound_ns is not None for row in rows)
    has_signers = is_looked_at or any(row.signature != NONE for row in rows)
    return templates.page(
        "page.html", len(rows), title=title, above=above, years=years, folders=count(folders, "folder"), audits=every,
        programs="; ".join(f"{version or 'ntpaudit'}, SHA-256 {sum_[:16]} and on" for sum_, version in made.items()),
        counts={verdict: counts[verdict] for verdict in MEANINGS if counts[verdict]}, meanings=MEANINGS, signed=SIGNED,
        has_days=has_days, has_figures=has_figures, has_signers=has_signers, is_looked_at=is_looked_at,
        columns=2 + has_days + 9 * has_figures + has_signers)
