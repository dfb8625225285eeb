"""The audit of folders: of each one reused if it was made or verified here and nothing has changed since, or made and
put in place."""
import os
from collections.abc import Iterable
from contextlib import suppress
from functools import partial

from ..fault import DEVICE, NOT_SHOWN, USAGE, Fault, fault, summed
from ..folder import files
from ..folder.entry import DISPUTED, REFUSED, LeapList, Options, Record, Refusal, is_made_anew, read_record, record_text
from ..folder.files import CLAIM, LEFT, Folder, sum_of
from ..folder.jobs import run_all
from ..folder.older import read_any
from ..folder.placing import blocks_of, is_ones_own, place
from ..folder.program import Program
from ..folder.progress import Progress
from ..folder.registry import Known
from ..folder.result import Audited
from ..premise.leap import record_by
from ..records import dataclass
from ..text import label
from ..verdict.alerts import warning_words
from ..verdict.making import Making, sizes_of, sums_of_inputs
from ..verdict.sentences import line_of, refusal_of
from .machines import is_day
from .metrics import Sample, of_record, of_verdict, write_metrics
from .signature import signed_in


@dataclass(frozen=True)
class AuditCall:
    """How folders are to be audited, and where it is recorded."""

    options: Options
    again: bool
    leaps: LeapList
    known: Known
    program: Program


SIGNED = ("signed, and not as it would be audited now. It is audited again only with --again, which takes the "
          "signature away")
UNKNOWN = "signed, and neither made nor verified here: `ntpaudit-dossier verify` comes first"
UNCHANGED, BY_ANOTHER = " (unchanged)", " (unchanged, by another build of the program)"
"""What stands behind the line of a folder that isn't audited again."""


def audit_all(folders: list[str], wanted: AuditCall, jobs: int, seconds: int, metrics: str | None) -> int:
    """Audits all folders and prints a line for each audit, in the order of the folders. Metrics are written at the end.
    The status is that of all."""
    shown, worst, samples = Progress(len(folders)), 0, list[Sample]()
    jobs = max(1, min(jobs, len(folders)))
    try:
        for path, result in run_all(folders, partial(audit, wanted), Audited, seconds, jobs, shown):
            worst = summed(worst, result.status)
            samples += of_verdict(path, REFUSED) if isinstance(result, Refusal) else result.metrics
            shown.clear()
            lines = [refusal_of(path, result.line)] if isinstance(result, Refusal) else result.lines
            print("\n".join(lines), flush=True)
    finally:
        shown.clear()
    if len(folders) > 1:
        print(shown.summed(", "))
    return summed(worst, write_metrics(metrics, samples)) if metrics else worst


def audit(wanted: AuditCall, path: str, _: int) -> Audited:
    """Audits a folder and leaves its files, audit.json last. No other call writes there meanwhile.

    A refusal is an audit too, and is written down. A fault is raised only if that isn't possible, or if it would take
    a signature or another's audit away.
    """
    with Folder(path) as folder, wanted.known.alone(folder):
        is_ones_own(folder.place)
        if (name := signed_in(folder)) != files.AUDIT:
            raise fault(f"{name} is there, so nothing is written beside it", USAGE)
        old = known_record(folder, wanted.known)
        if old and not wanted.again and (words := unchanged(folder, old, wanted)):
            return result_of(path, old, wanted.known, words)
        return audited_anew(wanted, path, old)


def audited_anew(wanted: AuditCall, path: str, old: Record | None) -> Audited:
    """Makes an audit, and puts it in place."""
    is_signed, _ = before = standing(path)
    with Folder(path) as folder:
        if is_signed and not wanted.again:
            raise fault(why_not_again(folder, old), USAGE)
        for day in folders_of_days(folder, wanted.options):
            if folder.has(f"{day}/{files.AUDIT}"):
                raise fault(f"{day} has an audit of its own, which --days would overwrite")
        making = Making(folder, wanted.program, wanted.options, wanted.leaps, old or written_in(folder))
        try:
            record = making.record()
        except Fault as error:
            record = making.refused(error)
        text, stale = record_text(record), {*LEFT, *(old.outputs if old else ()), files.SIGNATURE}
        outputs: dict[str, Iterable[bytes]] = {name: blocks_of(name) for name in record.outputs}
        keep_ones_own(folder, record)
        if standing(path) != before:  # (by somebody whose record is another, so that nobody waited)
            raise fault(f"{files.AUDIT} has changed meanwhile")
        place(folder, {**outputs, files.AUDIT: [text]}, stale - record.outputs.keys())
        if not record.refusal:
            wanted.known.add_sizes(sum_of(text), sizes_of(folder, record))
    wanted.known.add(sum_of(text), record)
    removed = [f"{'':14}{label(path)}: its signature was removed"] if is_signed else []
    return result_of(path, record, wanted.known, "", removed)


def standing(path: str) -> tuple[bool, str]:
    """Whether there is a signature now, and the sum of audit.json."""
    with Folder(path) as folder:
        try:
            return folder.has(files.SIGNATURE), folder.sum(files.AUDIT)
        except Fault:
            return folder.has(files.SIGNATURE), ""


def folders_of_days(folder: Folder, options: Options) -> list[str]:
    """The folders of days in a folder that is audited by days."""
    return [name for name in folder.names() if is_day(name) and folder.is_folder(name)] if options.days else []


def written_in(folder: Folder) -> Record | None:
    """What an audit.json says, whoever made it: by it a packed capture keeps its name."""
    with suppress(Fault):
        return read_any(folder.data(files.AUDIT))
    return None


def keep_ones_own(folder: Folder, record: Record) -> None:
    """Refuses to put something in the place of a joined capture or of a day's claim, or to take one away, that no audit
    left: it may be somebody's only recording, or what a person wrote."""
    written = written_in(folder)
    left = written.outputs if written else {}
    for name in {files.JOINED, *record.outputs, *left}:
        kind, stands = os.path.basename(name), ""
        with suppress(Fault):  # (a link is nobody's recording)
            stands = folder.sum(name) if kind in KEPT and folder.has(name) else ""
        if stands not in ("", left.get(name), record.outputs.get(name)):
            raise fault(f"{name} is what an audit leaves, and none left this one: {KEPT[kind]}", DEVICE)


KEPT = {files.JOINED: "if it is a recording, give it another name, such as f.pcap",
        CLAIM: "`--days` would overwrite it; if a person wrote it, move its day elsewhere"}
"""What to do about files that an audit would replace, and that may be a person's."""


def result_of(path: str, record: Record, known: Known, more: str, others: Iterable[str] = ()) -> Audited:
    """A folder's lines, verdicts and metrics. What the second program disputes has no verdict."""
    if words := known.dispute(record):
        return Audited(NOT_SHOWN, [refusal_of(path, words, DISPUTED), *others], [DISPUTED],
                       list(of_verdict(path, DISPUTED)))
    lines = [refusal_of(path, record.refusal.line)] if record.refusal else []
    lines += [line_of(path, entry) + more for entry in record.entries]
    lines += [f"{'':14}{label(path)}: {words}" for words in counted_once(record)]
    return Audited(record.status, [*lines, *others], record.verdicts, list(of_record(path, record)))


def counted_once(record: Record) -> list[str]:
    """Of captures that have packets of larger ones once more, what is said of each audit."""
    alerts = (alert for entry in record.entries for alert in entry.warnings if alert.kind == "twice")
    return sorted({warning_words(alert) for alert in alerts})


def known_record(folder: Folder, known: Known) -> Record | None:
    """The folder's record, if it was made or verified here."""
    try:
        data = folder.data(files.AUDIT)
        return known.shown_now(sum_of(data), read_record(data))
    except Fault:
        return None


def why_not_again(folder: Folder, old: Record | None) -> str:
    """Why a signed folder isn't audited again: its audit isn't known here, or would be another."""
    with suppress(Fault):
        read_record(folder.data(files.AUDIT))
        return SIGNED if old else UNKNOWN
    return SIGNED


def unchanged(folder: Folder, old: Record, wanted: AuditCall) -> str:
    """How it is said that a folder is as it was audited; nothing if it isn't. One that is signed may have been audited
    by another build of the program: its signature would be lost."""
    is_own = old.program == wanted.program.made
    if not (is_own or folder.has(files.SIGNATURE)) or not is_same(folder, old, wanted):
        return ""
    return UNCHANGED if is_own else BY_ANOTHER


def is_same(folder: Folder, old: Record, wanted: AuditCall) -> bool:
    """Whether a folder would be audited as it was, by whichever program, and all its files are there as they were left.
    What was refused is tried again."""
    if old.refusal or old.options != wanted.options:
        return False
    if record_by(wanted.leaps, old).entries != old.entries:
        return False
    try:
        return change_of(folder, old) == ""
    except Fault:
        return False


def change_of(folder: Folder, record: Record, taken: dict[str, str] | None = None) -> str:
    """The first file that isn't there any more, or isn't what it was, or that came, if it is an input or has the name
    of an output; nothing if there is none. The sums of inputs may have been taken already."""
    now = sums_of_inputs(folder, record, taken or {})
    for name, sum_ in record.inputs.items():
        if now.get(name) != sum_:
            return (f"{label(name)} isn't the file that was audited ({short(now.get(name))}, {files.AUDIT} has "
                    f"{short(sum_)})")
    new = sorted(now.keys() - record.inputs.keys())
    if new:
        return f"{label(new[0])} is new, and {files.AUDIT} has no sum of it"
    for name, sum_ in (record.outputs | record.packed).items():
        if is_made_anew(name) and not folder.has(name):
            continue
        if not folder.has(name):
            return f"{label(name)} isn't there"
        if folder.sum(name) != sum_:
            return (f"{label(name)} was changed since the audit ({short(folder.sum(name))}, {files.AUDIT} has "
                    f"{short(sum_)})")
    parts = ["", *(f"{day}/" for day in folders_of_days(folder, record.options))]
    left = {f"{part}{name}" for part in parts for name in LEFT}
    more = next(filter(folder.has, sorted(left - record.outputs.keys())), None)
    return f"{more} isn't of this audit: {files.AUDIT} has no sum of it" if more else ""


def short(sum_: str | None) -> str:
    return f"SHA-256 {sum_[:16]}.." if sum_ else "it isn't there"
