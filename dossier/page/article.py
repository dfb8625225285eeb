"""One audit on the page: what it says, its picture, its servers, what it grants, its counts, and its files."""
import shlex
from collections.abc import Collection
from typing import Any

from ..fleet.signature import Signature, in_words
from ..folder import files
from ..folder.answers import joined, read_envelope, read_envelopes
from ..folder.entry import NOTHING_FITS, OPEN, REFUTED, YES, Elsewhere, Entry, Misfit, Record, is_made_anew
from ..folder.evidence import evidence
from ..folder.files import Folder
from ..folder.registry import Judgement
from ..folder.result import Row
from ..premise.backing import backing
from ..premise.premises import premises, support
from ..text import label
from ..units import SECOND, high_ms, low_ms, shown_time
from ..verdict.apart import ranges_of
from ..verdict.making import packed_in
from ..verdict.sentences import fit, sentence, span, to_do, warned
from .figure import legend, picture, stroke
from .templates import minus, templates

COUNTS = {
    "records": "records in the capture",
    "requests": "requests of the client to the claim's servers",
    "replies": "replies of these servers to the client",
    "samples": "replies that make an exchange, and so say something of the clock",
    "version": "replies in another version than 4",
    "leap": "replies of a server that says that it isn't synchronized",
    "stratum": "replies with a stratum that says so, or a kiss code",
    "precision": "replies that announce no precision of use",
    "zero": "replies with a timestamp of zero",
    "norequest": "replies that no request in the capture asked for",
    "ambiguous": "replies that two requests may have asked for",
    "warnings": "samples that announce a leap second",
}


def parts() -> Any:
    """The parts of an article: its template, which Jinja2 reads."""
    return templates().get_template("article.html").module


def article(path: str, folder: Folder, record: Record, entry: Entry, signature: Signature,
            judged: Judgement | None, name: str) -> tuple[str, str]:
    """The head of an article, and the rest of it."""
    day = "" if entry.part == "." else f", {entry.part}"
    twice = judged if judged and entry.answer != OPEN else None
    head = parts().whole(f"{label(path)}{day}", entry, sentence(entry), signature, in_words(signature), twice)
    return str(head), str(parts().rest(record, entry, seen(name, folder, record, entry)))


def short_article(row: Row, line: str, signature: Signature) -> str:
    """A folder that has no verdict here."""
    return str(parts().short(row.machine, row, line, signature, in_words(signature)))


def seen(name: str, folder: Folder, record: Record, entry: Entry) -> dict[str, object]:
    """What the rest of an article shows besides the entry's own figures."""
    claim, reason = entry.claim, entry.reason
    envelope = read_envelope(folder.data(entry.within(files.ENVELOPE)))
    drawn_of = read_envelopes(folder.data(entry.within(files.PARTS))) if has_parts(entry) else [envelope]
    label = (f"The clock's error in ms, {span(claim)}, in pieces of {entry.envelope_step} s. Above 0 the clock "
             "is ahead of UTC. The band is the hull: what is left if no more were wrong than granted.")
    packed = packed_in(folder.names(), record)
    is_beside = isinstance(reason, Elsewhere)  # (what nothing recorded says isn't drawn)
    drawn, backed = {} if is_beside else ranges_of(joined(drawn_of)), backing(folder, record.inputs)
    kept = evidence(folder) if files.EVIDENCE in record.inputs else {}
    strokes = {address: stroke(place) for place, address in enumerate(drawn)}
    apart = {server for warning in entry.warnings if warning.kind == "apart" for server in warning.servers}
    return {
        "remarks": [to_do(entry), fit(entry)], "warnings": warned(entry),
        "conflicts": [(one.low, one.request, shown_time(one.asked // SECOND), minus(low_ms(one.least)),
                       one.high, one.reply, shown_time(one.answered // SECOND), minus(high_ms(one.most)))
                      for one in reason.conflicts] if isinstance(reason, Misfit) else [],
        "label": label, "picture": "" if is_beside else
        picture(joined(drawn_of), claim.bound_ns, name, label, steps_of(entry), entry.verdict == NOTHING_FITS),
        "legend": legend(joined(drawn_of), claim.bound_ns),
        "servers": [(server, drawn.get(server.address), strokes.get(server.address, "")) for server in entry.servers],
        "apart": apart, "is_void": entry.is_void or not all(move.is_step for move in entry.moves),
        "premises": [(premise, list(support(premise.name, backed, record, entry)), kept.get(premise.name, ""))
                     for premise in premises(claim)],
        "counts": [(what, f"{number:,}", COUNTS.get(what, "")) for what, number in entry.counts.items()],
        "calls": list(map(shlex.join, calls(record, entry, packed.values()))),
        "is_left_out": is_left_out(folder, record, entry),
        "sums": [*((file, "input", sum_) for file, sum_ in record.inputs.items()),
                 *((file, "the same, packed", folder.sum(file)) for file in packed),
                 *((file, "left by the audit", sum_) for file, sum_ in entry.outputs.items()),
                 (record.program.version or "ntpaudit", "the program", record.program.sha256)]}


def has_parts(entry: Entry) -> bool:
    return entry.within(files.PARTS) in entry.outputs


def steps_of(entry: Entry) -> list[int]:
    """When the clock was stepped, in Unix seconds: by what the capture shows, or by what the client logged."""
    shown = [move.by // SECOND for move in entry.moves]
    return shown + [warning.before // SECOND for warning in entry.warnings if warning.kind == "step"]


def capture_of(record: Record, entry: Entry) -> str:
    """The capture that was read, seen from the entry's folder."""
    if f"{entry.part}/{files.JOINED}" in entry.outputs:
        return files.JOINED
    capture = record.capture if entry.part == "." else f"../{record.capture}"
    return f"./{capture}" if capture.startswith("-") else capture


def is_left_out(folder: Folder, record: Record, entry: Entry) -> bool:
    """Whether the capture that was read isn't there, since it may be made anew."""
    capture = capture_of(record, entry)
    return is_made_anew(capture) and not folder.has(entry.within(capture).rpartition("../")[2])


def calls(record: Record, entry: Entry, packed: Collection[str]) -> list[list[str]]:
    """The calls that settle it, for whoever wants to make them by hand in the folder."""
    capture, unpacks = capture_of(record, entry), list[list[str]]()
    if capture != files.JOINED and record.capture in packed:
        packed, capture = f"{capture}.zst", f"../{capture.rpartition('/')[2]}"
        unpacks = [["zstd", "-d", packed, "-o", capture]]
    questions = [["settle", files.CLAIM, capture]]
    questions += [["check", files.CLAIM, capture, files.CERTIFICATE]] if entry.answer == YES else []
    questions += [["envelope", files.CLAIM, capture, "--servers", "--least", "--step", str(entry.envelope_step)]]
    questions += [["settle", files.CLAIM_OF_DRIFT, capture]] if entry.verdict == NOTHING_FITS else []
    if entry.refutation:
        claim = files.CLAIM if entry.answer == REFUTED else files.CLAIM_OF_0
        questions.append(["refute", claim, capture, files.REFUTATION, "--drift"])
    return [*unpacks, *(["ntpaudit", *call] for call in questions)]
