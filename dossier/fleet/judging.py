"""Verified by judging: each input and answer of a folder is held to its sum, and the program judges each answer.

It takes a part of the time that making all again takes. What is only made, and states nothing that could be judged, is
held to its sum alone: envelopes, least bounds, most warnings, and all that pages make of them. A yes is judged only
with a course that fits the whole capture: a certificate may leave out what contradicts it.
"""
from itertools import pairwise
from typing import NamedTuple

from ..capture.classic import Classic, do_rise
from ..capture.recording import read_recording
from ..capture.twice import once
from ..fault import REFUSED, Fault
from ..folder.answers import read_counts, read_settled
from ..folder.claim import Claim
from ..folder.entry import (AGAINST, NOTHING_FITS, REFUTED, YES, Alert, Elsewhere, Entry, LeapList, Record,
                            Refutation)
from ..folder.files import (CERTIFICATE, CLAIM, CLAIM_OF_0, CLAIM_OF_DRIFT, ENVELOPE, JOINED, PARTS, REFUTATION, REPORT,
                            Folder, is_capture, own_data, sum_of, sum_of_file)
from ..folder.placing import copy_of
from ..folder.program import Program
from ..premise.backing import against, backing
from ..premise.leap import alerts_of, entry_by, look_up, stretch
from ..records import replace
from ..schema import read_typed
from ..units import SECOND
from ..verdict.making import Inputs, joined_of, take_inputs
from .audit import change_of

ONLY_MADE = "envelopes were held to their sums, not made again; bounds, reasons, and warnings that take no yes away " \
    "are as audit.json has them, and a copy that was changed may be unseen"
OWN = {YES: {CERTIFICATE, CLAIM_OF_0, REFUTATION}, REFUTED: {REFUTATION}, NOTHING_FITS: {CLAIM_OF_DRIFT}}
"""What is left of an answer besides report and envelope."""


class Judged(NamedTuple):
    """The first difference, nothing if there is none; and the capture by which the answers were judged."""

    difference: str
    capture: str


class Unjudgeable(Exception):
    """What can't be judged by itself, and has to be made again: another capture than all of them together, one in which
    packets were recorded twice or times fall back, days, a refusal, another form, moves of the clock, no evidence but
    beside the span, other files than an answer leaves, or warnings of what speaks against a premise that aren't one's
    own."""


class Judging:
    """Judges a folder's answers in the current folder, which is one's own."""

    def __init__(self, folder: Folder, program: Program, leaps: LeapList):
        self.folder, self.program, self.leaps = folder, program, leaps

    def judged(self, record: Record) -> Judged:
        """The first difference, or none, and the capture by which the answers were judged; else `Unjudgeable`."""
        if record.refusal or record.options.days or len(record.entries) != 1:
            raise Unjudgeable
        entry, = record.entries
        own = {REPORT, ENVELOPE, *OWN.get(entry.answer, ())}
        if entry.part != "." or {*entry.outputs} - {JOINED, PARTS} != own:
            raise Unjudgeable
        if entry.moves or (entry.answer == YES and not entry.refutation):
            raise Unjudgeable  # (nothing says that the moves are so, nor `check` that a course fits the whole capture)
        if isinstance(entry.reason, Elsewhere):
            raise Unjudgeable  # (that the refutation is of another time)
        is_held = entry.answer == YES and is_capture(record.capture) and record.capture in record.inputs
        held = [record.capture] * is_held
        taken = take_inputs(self.folder, record, {name: record.inputs[name] for name in held})
        if changed := change_of(self.folder, record, taken.sums):
            return Judged(changed, "")
        try:
            return self.judged_by(record, entry, taken, own)
        except Fault:
            taken.sums |= {name: sum_of_file(taken.copies[name]) for name in held}
            if changed := change_of(self.folder, record, taken.sums):
                return Judged(changed, "")
            raise

    def judged_by(self, record: Record, entry: Entry, taken: Inputs, own: set[str]) -> Judged:
        """By these inputs. A certificate's capture is held to its sum when it is judged: a fault if that is another."""
        claim: Claim = read_typed(CLAIM, Claim, own_data(CLAIM))
        capture = self.capture_of(record, taken, claim)
        if claim != entry.claim:
            return Judged(f"the claim of audit.json isn't that of {CLAIM}", capture)
        for name in own - {ENVELOPE}:
            copy_of(self.folder, name, name)
        self.hold_against(entry, taken)
        if entry.answer == REFUTED and self.is_beside(claim, capture):
            raise Unjudgeable
        return Judged(self.difference(entry, capture, record), capture)

    def capture_of(self, record: Record, taken: Inputs, claim: Claim) -> str:
        """The capture that was audited: the one input, or all of them joined. How far the stamps of what was recorded
        twice differ may take a yes away."""
        entry, = record.entries
        whole = self.recorded = joined_of(taken, claim, self.program)
        if entry.answer != YES or claim != entry.claim or not whole.extent:  # (else `check` says if there may be any)
            self.is_each_once()
        if (JOINED if whole.is_made else next(iter(taken.copies))) != record.capture:
            raise Unjudgeable
        if any(alert not in entry.warnings for alert in whole.alerts):
            raise Unjudgeable
        if whole.is_made and entry.answer != YES and sum_of_file(JOINED) != entry.outputs.get(JOINED):
            raise Unjudgeable
        self.whole = Classic(whole.path, whole.extent)
        path: str = whole.path
        return path

    def is_each_once(self) -> None:
        """Sees that no packet was recorded twice."""
        if once(self.recorded, self.program) is not self.recorded:
            raise Unjudgeable

    def hold_against(self, entry: Entry, taken: Inputs) -> None:
        """Holds what speaks against a premise, and so the verdict, to the folder's own evidence and one's own list of
        leap seconds, over all that was recorded."""
        claim, stamps = entry.claim, self.whole.extent.stamps
        ends = [*stamps[:1], *stamps[-1:]]
        if not do_rise(stamps):
            if any(before >> 32 > after >> 32 for before, after in pairwise(stamps)):
                raise Unjudgeable  # (times that fall back by a second speak against one)
            ends = [min(stamps), max(stamps)]
        leap = look_up(self.leaps, *stretch(claim, self.whole.nanoseconds(ends)))
        own = [*against(backing(self.folder, taken.sums), claim, leap, []), *alerts_of(leap, self.leaps)]
        by_own, is_whole = entry_by(self.leaps, entry), entry.leap.from_ <= leap.from_ and leap.to <= entry.leap.to
        if not is_whole or by_own.verdict != entry.verdict or of_premises(own) != of_premises(by_own.warnings):
            raise Unjudgeable

    def is_beside(self, claim: Claim, capture: str) -> bool:
        """Whether no packet was recorded within the span, so that what refutes the claim is no evidence."""
        recording = read_recording(self.program, CLAIM, capture, self.whole.extent)
        return recording.around(claim.first * SECOND, claim.last * SECOND) is not None

    def difference(self, entry: Entry, capture: str, record: Record) -> str:
        """Has the program judge each answer. The first that it doesn't accept, or of which it says something else;
        nothing if there is none."""
        sums = {**record.inputs, **entry.outputs}
        of_capture = sums[record.capture]
        if entry.answer == YES:
            held = {CLAIM: sums[CLAIM], capture: of_capture, CERTIFICATE: sums.get(CERTIFICATE, "")}
            text = self.held("check", CLAIM, capture, CERTIFICATE, sums=held)
            counts = read_counts(next((line for line in text.decode().split("\n") if line.startswith("records ")), ""))
            if counts.get("ambiguous", 1):
                self.is_each_once()
            if not text.endswith(b"\nverdict yes\n"):
                return f"{CERTIFICATE}: the program doesn't accept it"
            if counts != entry.counts:
                return "the counts of audit.json aren't those of the capture"
            if own_data(CLAIM_OF_0) != replace(entry.claim, bound_ns=0).text:
                return f"{CLAIM_OF_0} isn't the claim with the bound 0"
        elif entry.answer == REFUTED:
            text = self.program.run("refute", CLAIM, capture, REFUTATION, "--drift").text
        else:
            text = self.program.run("settle", CLAIM, capture).text
            if read_settled(text).answer != entry.answer:
                return f"the verdict of audit.json is {entry.verdict}, and what `settle` says is another"
        if sum_of(text) != entry.outputs.get(REPORT):
            return f"{REPORT} isn't what the program says now"
        if (entry.answer == REFUTED or entry.refutation) and not self.is_refuted(entry, capture):
            return f"{REFUTATION}: the program doesn't accept it"
        return ""

    def held(self, *words: str, sums: dict[str, str]) -> bytes:
        """What the program says of files that it holds to their sums. If the joined capture has another sum, it is made
        of fewer captures."""
        try:
            return self.program.run(*words, sums=sums).text
        except Fault as error:
            if error.status == REFUSED and error.line.endswith("sums differ capture") and words[2] == JOINED:
                raise Unjudgeable from None
            self.is_each_once()
            raise

    def is_refuted(self, entry: Entry, capture: str) -> bool:
        """Whether the program says that the refutation stands."""
        claim = CLAIM if entry.answer == REFUTED else CLAIM_OF_0
        stands: Refutation = read_typed(REFUTATION, Refutation, own_data(REFUTATION))
        return stands == entry.refutation and \
            self.program.run("refute", claim, capture, REFUTATION, "--drift").text == b"refuted yes\n"


def of_premises(alerts: list[Alert]) -> list[Alert]:
    """The warnings of what speaks against a premise."""
    return [alert for alert in alerts if alert.kind in AGAINST]
