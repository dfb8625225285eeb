"""The table of machines and days: a row for each audit, for a page, as JSON and as CSV."""
import csv
import io
import re

from ..fleet.signature import Signature
from ..folder.entry import NOTHING_FITS, OPEN, WORST_FIRST, Entry
from ..folder.registry import Judgement
from ..folder.result import Row
from ..records import asdict, replace
from ..text import label, plain
from ..units import civil
from ..verdict.alerts import warning_words
from ..verdict.sentences import presumed, reason, to_do


def badness_of(row: Row) -> tuple[int, int]:
    """How bad a line is, the worst least: by its verdict, and then by how many warnings it has."""
    return WORST_FIRST.index(row.verdict), -len(row.warnings)


def row_without_verdict(folder: str, verdict: str, why: str, what: str, signature: Signature) -> Row:
    """A folder that has no figures: nobody audited it, or nobody verified that here."""
    return Row(label(folder), "", verdict=verdict, reason=plain(why), to_do=plain(what), signature=signature.state,
               signer=plain(signature.signer), signed_at=plain(signature.at))


def row_of(folder: str, entry: Entry, signature: Signature, judged: Judgement | None) -> Row:
    """The row of an audit."""
    claim, worst, has_worst = entry.claim, entry.worst, entry.verdict != NOTHING_FITS
    return replace(
        row_without_verdict(folder, entry.verdict, reason(entry), to_do(entry), signature),
        day="" if entry.part == "." else entry.part,
        warnings=presumed(entry) + [warning_words(warning) for warning in entry.warnings],
        client=claim.client, begin=claim.from_, end=claim.to, bound_ns=claim.bound_ns, least_bound_ns=entry.least_ns,
        worst_begin=civil(worst.from_) if has_worst else "", worst_end=civil(worst.to) if has_worst else "",
        samples=entry.counts["samples"], servers=len(claim.servers), groups=len(claim.grouped),
        false_max=claim.false_max,
        leap_seconds=entry.leap.says, judged_twice_at=judged.at if judged and entry.answer != OPEN else "")


FORMULA = re.compile(r"(^|[;,\t|])(\s*[\"']*\s*[=+@\uff1d\uff0b\uff20\uff0d-])")
"""What a spreadsheet takes for a formula, at the begin of a cell, or of what another separator makes one."""


def as_csv(rows: list[Row]) -> str:
    """One line a row. A text that a spreadsheet would take for a formula gets an apostrophe before it."""
    out = io.StringIO()
    writer = csv.writer(out, lineterminator="\n")
    writer.writerow(list(asdict(Row("", ""))))
    for row in rows:
        writer.writerow([as_cell(value) for value in asdict(row).values()])
    return out.getvalue()


def as_cell(value: object) -> object:
    if value is None:
        return ""
    if isinstance(value, list):
        value = "; ".join(value)
    return FORMULA.sub(r"\1'\2", value) if isinstance(value, str) else value
