"""What audits come to as metrics, in Prometheus' text format, for the textfile collector of node_exporter."""
import os
import re
from collections.abc import Iterable, Iterator

from ..fault import Fault
from ..folder.entry import ANSWERED, DISPUTED, NOT_VERIFIED, REFUSED, Entry, Record
from ..folder.placing import write_named
from ..text import note, plain
from ..units import SECOND, seconds_of

Sample = tuple[str, str, int]
"""A metric's name without its prefix, its labels, and its value: nanoseconds, if the name ends in `_seconds`."""

HELP = {
    "verdict": "1 for the verdict of a folder, 0 for each other.",
    "clock_off": "1 if the clock was off by more than the bound, if what the claim grants is true.",
    "claimed_bound_seconds": "The bound that is claimed.",
    "least_bound_seconds": "The least bound that a certificate of pieces carries, if there is one.",
    "samples": "Exchanges of which an error follows.",
    "servers_apart": "Servers whose range never meets the hull.",
    "warnings": "Warnings beside the verdict.",
    "span_end_timestamp_seconds": "When the claim's span ends.",
    "leap_list_end_timestamp_seconds": "Until when the list of leap seconds is good.",
    "audit_duration_seconds": "How long the audit took.",
    "last_audit_timestamp_seconds": "When the audit was made.",
    "now_verdict": "1 for the verdict of a recorder's last minutes, 0 for each other.",
    "now_seen": "1 if the clock's error is seen at the end of them.",
    "now_clock_off": "1 if the error lies beyond the bound at the end of them, if what the claim grants is true.",
    "now_claimed_bound_seconds": "The bound that is claimed.",
    "now_hull_low_seconds": "The least that the clock's error can be at their end.",
    "now_hull_high_seconds": "The most that the clock's error can be at their end.",
    "now_least_bound_seconds": "The least bound that pieces of the last minutes carry, if there is one.",
    "now_groups_heard": "Groups of servers that aren't silent.",
    "now_groups_needed": "Groups that have to be heard to outvote those that may be wrong.",
    "now_groups": "Groups of servers in the claim.",
    "now_refused_files": "Files of the recorder that can't be read, or are damaged.",
    "now_records_ahead_seconds": "By how much records are later than the machine's clock: it was set back.",
    "now_looked_timestamp_seconds": "When this was looked at, by the machine's clock.",
    "now_last_record_timestamp_seconds": "When the recorder's last record was made, by the clock that is looked at.",
    "now_last_record_age_seconds": "How long ago that was, by a clock that isn't set, if the recorder tells it.",
    "now_last_step_timestamp_seconds": "When the clock was stepped last in these minutes, at the latest.",
    "now_last_step_low_seconds": "The least by which its error changed then.",
    "now_last_step_high_seconds": "The most by which its error changed then.",
    "now_server_silent": "1 if a server of the claim isn't heard any more.",
    "now_server_apart": "1 if a server's last sample misses the hull: it can't be right.",
    "now_server_error_low_seconds": "The least by which a server was off at its last sample.",
    "now_server_error_high_seconds": "The most by which a server was off at its last sample.",
    "now_recorder_trouble": "1 for what a recorder says that is wrong, 0 for each other trouble.",
    "now_recorder_lost_packets": "Packets that a recorder has lost since it was begun.",
    "now_recorder_left_out_packets": "Packets of a flood that a recorder has left out since it was begun.",
}
DATE = re.compile(r"\d{4}-\d\d-\d\d")
VERDICTS = (*ANSWERED, REFUSED, NOT_VERIFIED, DISPUTED)


def labels_of(**labels: str) -> str:
    """Labels as they stand in a line; one without a value is left out."""
    quoted = str.maketrans({"\\": "\\\\", '"': '\\"'})
    return ",".join(f'{name}="{plain(value).translate(quoted)}"' for name, value in labels.items() if value)


def labels_of_folder(folder: str, day: str = "", **others: str) -> str:
    """A folder, and the machine of which it is a day, if it is one."""
    above, name = os.path.split(folder)
    return labels_of(machine=above if DATE.fullmatch(name) else folder, folder=folder, day=day, **others)


def of_verdict(folder: str, verdict: str, day: str = "") -> Iterator[Sample]:
    """One metric for each verdict, of which one is 1."""
    for other in VERDICTS:
        yield "verdict", labels_of_folder(folder, day, verdict=other), int(other == verdict)


def of_entry(folder: str, entry: Entry) -> Iterator[Sample]:
    """The metrics of an audit."""
    day = "" if entry.part == "." else entry.part
    labels = labels_of_folder(folder, day)
    yield from of_verdict(folder, entry.verdict, day)
    yield "clock_off", labels, int(entry.is_off)
    yield "claimed_bound_seconds", labels, entry.claim.bound_ns
    if entry.least_ns is not None:
        yield "least_bound_seconds", labels, entry.least_ns
    yield "samples", labels, entry.counts["samples"]
    yield "servers_apart", labels, sum(len(warning.servers) for warning in entry.warnings if warning.kind == "apart")
    yield "warnings", labels, len(entry.warnings)
    yield "span_end_timestamp_seconds", labels, entry.claim.last * SECOND


def of_record(folder: str, record: Record) -> Iterator[Sample]:
    """All of a folder's audit, which has to be known here."""
    labels = labels_of_folder(folder)
    for entry in record.entries:
        yield from of_entry(folder, entry)
    if record.refusal:
        yield from of_verdict(folder, REFUSED)
    if record.leap_seconds and not record.leap_seconds.fault:
        yield "leap_list_end_timestamp_seconds", labels, record.leap_seconds.good_until * SECOND
    yield "audit_duration_seconds", labels, round(record.seconds * SECOND)
    yield "last_audit_timestamp_seconds", labels, seconds_of(record.made) * SECOND


def metrics_text(samples: Iterable[Sample]) -> str:
    """The text of a file of metrics. Of two folders of one name the greater value counts: none hides a verdict."""
    figures: dict[str, dict[str, int]] = {name: {} for name in HELP}
    for name, labels, value in samples:
        figures[name][labels] = max(value, figures[name].get(labels, value))
    return "".join(line for name, values in figures.items() if values for line in lines_of(name, values))


def lines_of(name: str, values: dict[str, int]) -> Iterator[str]:
    yield f"# HELP ntpaudit_{name} {HELP[name]}\n# TYPE ntpaudit_{name} gauge\n"
    for labels, value in values.items():
        seconds, rest = divmod(abs(value), SECOND)
        number = f"{'-' if value < 0 else ''}{seconds}.{rest:09}" if name.endswith("_seconds") else f"{value}"
        yield f"ntpaudit_{name}{{{labels}}} {number}\n"


def write_metrics(path: str, samples: Iterable[Sample]) -> int:
    """Writes a file of metrics, whole or not at all. The status is 0, or that of the fault, whose line is printed: it
    takes nothing away from what was found."""
    try:
        write_named(path, metrics_text(samples).encode("utf-8", "backslashreplace"))
    except Fault as error:
        note(error.line)
        return error.status
    return 0
