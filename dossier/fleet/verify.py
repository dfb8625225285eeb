"""A year later, or at a stranger's: does an audit of the inputs alone come to what stands in the folder?"""
import os
from collections import Counter
from collections.abc import Callable
from typing import NamedTuple

from .. import VERSION
from ..fault import DEVICE, NOT_SHOWN, Fault, fault, summed
from ..folder import files
from ..folder.entry import DISPUTED, OPEN, UNSUPPORTED, YES, Entry, LeapList, Record, Refusal, is_made_anew, read_record
from ..folder.events import Asked, read_events
from ..folder.files import Folder, absolute, asked, own, sum_of
from ..folder.jobs import SECONDS, run_all
from ..folder.older import differs as differs_from_older, form_of, read_any
from ..folder.program import Program
from ..folder.registry import Known
from ..folder.result import Compared
from ..folder.year import read_statements
from ..premise.leap import record_by
from ..records import replace
from ..schema import first_difference, said
from ..text import count, label, plain
from ..units import now
from ..verdict.making import Making, sizes_of
from ..verdict.second import Second
from ..verdict.sentences import reason
from .audit import change_of, counted_once
from .drawing import Sample, likelihoods, sample_of
from .events import OWN, EventsCall, PageOfEvents, compared as answer_compared, folders_of, renamed_in
from .judging import ONLY_MADE, Judging, Unjudgeable
from .machines import NAMESAKES, folders_above, machines_below, names_of, once
from .planning import BARE, LOOSE, Planning, kind_of, those_among
from .signature import GOOD, NONE, UNFIT, UNSEEN, Signers, called_by, in_words, signed_in
from .statements import Compared as YearCompared, compared as year_compared, days_of, unanswered_in
from .twins import SeenFolders

SHOWN, MAX_OF_A_DISPUTE = 80, 1000
"""Characters of a value that are shown of a difference, and of what is disputed."""
OPEN_ONCE = f"what is {OPEN} was judged by one program: it states nothing that the second could judge"


OLDER = "form {} of audit.json: verdicts, figures and files are the same; what it warns of isn't compared"
"""Of a folder that an older version audited."""


class Verified(NamedTuple):
    """The first difference between what stands in a folder and what its inputs come to, nothing if there is none; what
    is worth a note and is no difference; and the record of these inputs, made now and here."""

    difference: str
    notes: list[str]
    made: Record | None
    is_judged: bool = False
    """Whether its answers were judged, and not made again."""


class How(NamedTuple):
    """How folders are verified: by judging their answers; or so many of them, drawn by a seed, or by both; whether what
    was so before is left at that; and whether the status says that all is as it was signed, whatever the verdicts."""

    answers: bool = False
    known: bool = False
    sample: int | None = None
    seed: str = ""
    as_signed: bool = False


OTHER_BUILD = "by another build of the program than the audit's"
BY_LISTS = f"{UNSUPPORTED} by the list of leap seconds of its audit, and {YES} by the one here"


class Verifier:
    """Verifies folders, and records those that are. The second program judges their answers too, if there is one."""

    def __init__(self, program: Program, known: Known, leaps: LeapList, second: Second | None = None,
                 page: PageOfEvents | None = None):
        self.program, self.known, self.leaps, self.second, self.page = program, known, leaps, second, page

    def verify(self, folder: Folder) -> Verified:
        """What the inputs of a folder come to, by one's own list of leap seconds, and how that differs from what stands
        in it. An audit that was refused is tried again: it is refused for the same reason, or that is a difference."""
        data = audit_json(folder)
        record, form = read_any(data), form_of(data)
        if difference := "" if record.refusal else change_of(folder, record):
            return Verified(difference, [], None)
        is_other = self.is_other(record)
        making = Making(folder, self.program, record.options, self.leaps, record)
        made = replace(made_by(making, record, earlier_of(folder, record) if is_other else None), signed=record.signed)
        difference = self.compared(folder, record, made, is_other, form < VERSION)
        notes = [OTHER_BUILD] * is_other + notes_of(made)
        if not difference:
            notes += [BY_LISTS] * (record.verdicts != made.verdicts)
            if form == VERSION:
                self.known.add(sum_of(data), made)
            else:
                notes.append(OLDER.format(form))
            notes += self.judged_twice(made, making.capture_of)
        return Verified(difference, notes, made)

    def judge(self, folder: Folder) -> Verified:
        """The same by the answers alone: each input and answer is held to its sum, and the program judges each answer.
        What can't be judged so is made again."""
        record = read_any(audit_json(folder))
        try:
            if form_of(audit_json(folder)) < VERSION:
                raise Unjudgeable
            difference, capture = Judging(folder, self.program, self.leaps).judged(record)
        except Unjudgeable:
            return self.verify(folder)
        if difference:
            return Verified(difference, [], None)
        notes = [OTHER_BUILD] * self.is_other(record)
        return Verified("", notes + self.judged_twice(record, lambda _: capture), record, is_judged=True)

    def is_other(self, record: Record) -> bool:
        return record.program.sha256 != self.program.made.sha256

    def is_judged_twice(self, record: Record) -> bool:
        """Whether nothing is left for the second program, if there is one, to judge."""
        judgement = self.known.judgement(record)
        return not self.second or all(entry.answer == OPEN for entry in record.entries) or \
            bool(judgement and judgement.second == self.second.sha256)

    def judged_twice(self, made: Record, capture_of: Callable[[Entry], str]) -> list[str]:
        """Has the second program judge each answer, and records what it says. What came of it, in words."""
        if not self.second or made.refusal:
            return []
        closed, disputes, faults = [entry for entry in made.entries if entry.answer != OPEN], list[str](), list[Fault]()
        for entry in closed:
            try:
                disputes += self.second.disputes(entry, capture_of(entry))
            except Fault as error:
                faults.append(error)
        if faults and not disputes:
            raise faults[0]
        if closed:
            self.known.judge(made, self.second.sha256, now(), "; ".join(disputes)[:MAX_OF_A_DISPUTE])
        said = [self.second.judged] if closed and not disputes else []
        return said + [OPEN_ONCE] * (len(closed) < len(made.entries))

    def compared(self, folder: Folder, record: Record, made: Record, is_other: bool, is_older: bool) -> str:
        """What stands in a folder that isn't so by the record that was made now. Another list of leap seconds may say
        more or less than one's own, but no yes that isn't one by that."""
        made = replace(made, made=record.made, seconds=record.seconds, signed=record.signed, kept=record.kept,
                       program=record.program if is_other else made.program)
        for name, sum_ in made.outputs.items():
            is_left_out = is_made_anew(name) and not folder.has(name)
            if name in record.outputs and not is_left_out and folder.sum(name) != sum_:
                comparison = Comparison(name)
                folder.read(name, comparison.take)
                return f"{name}: {comparison.end()}"
        if is_older:
            differs = differs_from_older(record, made)
            return f"{files.AUDIT}:{in_words_of(*differs)}" if differs else ""
        listed = record.leap_seconds
        if listed and listed.sha256 == self.leaps.sha256:  # (where it stood says nothing)
            by_own = replace(record, leap_seconds=replace(listed, file=self.leaps.file))
        else:
            by_own = record_by(self.leaps, record) if listed else record
        kept, own = ({"entries": [{"verdict": verdict} if was == YES else {}
                                  for was, verdict in zip(record.verdicts, one.verdicts)]} for one in (record, made))
        differs = first_difference(said(by_own), said(made)) or first_difference(kept, own)
        return f"{files.AUDIT}:{in_words_of(*differs)}" if differs else ""


def notes_of(record: Record) -> list[str]:
    """What is worth a note of an audit."""
    return sorted({reason(entry) for entry in record.entries if entry.verdict == UNSUPPORTED}) + counted_once(record)


def audit_json(folder: Folder) -> bytes:
    if signed_in(folder) != files.AUDIT or not folder.has(files.AUDIT):
        raise fault("not audited", DEVICE)
    return folder.data(files.AUDIT)


def known_in(folder: Folder, known: Known) -> tuple[Record, Record | None]:
    """What audit.json says, and the same as it was made or verified here, if it was."""
    data = audit_json(folder)
    record = read_record(data)
    return record, known.shown_now(sum_of(data), record)


def made_by(making: Making, record: Record, earlier: dict[str, bytes] | None) -> Record:
    """What the inputs come to: a refusal only if they were refused for the same reason, or it is a fault."""
    try:
        return making.record(earlier)
    except Fault as error:
        made = making.refused(error)
        if made.refusal != record.refusal:
            raise
        return made


def earlier_of(folder: Folder, record: Record) -> dict[str, bytes]:
    """The refutations that stand in a folder, by their parts: another build of the program may find another one."""
    return {entry.part: folder.data(entry.within(files.REFUTATION)) for entry in record.entries
            if entry.within(files.REFUTATION) in record.outputs}


def in_words_of(place: str, kept: object, made: object) -> str:
    return f"{place} is {clipped(kept)}, and by the inputs {clipped(made)}"


def clipped(value: object) -> str:
    text = str(value)
    return f"`{text[:SHOWN]}{'..' if len(text) > SHOWN else ''}`"


class Comparison:
    """The first difference between a file that is read, block by block, and one of one's own."""

    def __init__(self, path: str):
        self.opened = own(path)
        self.at, self.line, self.difference = 0, 1, ""

    def take(self, block: bytes) -> None:
        """Takes a block of what was kept, which one's own file has to have next."""
        if self.difference:
            return
        own = self.opened.read(len(block))
        if own == block:
            self.at, self.line = self.at + len(block), self.line + block.count(b"\n")
            return
        k = next((k for k, (a, b) in enumerate(zip(block, own)) if a != b), min(len(block), len(own)))
        kept, made = (text[k : k + SHOWN].decode("ascii", "backslashreplace") for text in (block, own))
        line = self.line + block[:k].count(b"\n")
        self.difference = f"from byte {self.at + k} on (line {line}) it{in_words_of('', kept, made)}"

    def end(self) -> str:
        """What was found; else there is more of one's own."""
        rest = self.opened.read(SHOWN).decode("ascii", "backslashreplace")
        self.opened.close()
        return self.difference or f"after {self.at} bytes it{in_words_of('', '', rest)}"


def verify_all(folders: list[str], verifier: Verifier, signers: Signers, seconds: int, how: How = How()) -> int:
    """Prints `verified` and the verdict, or the first difference, a line for each folder, and notes. The status is 0 if
    all is verified and shown, and 1 if something isn't; or a fault's."""
    call = Verifying(once(folders), verifier, signers, seconds, how)
    plan, sample, known = call.plan, call.sample, verifier.known
    told, seen = Tally(how.as_signed, known.believes, plan.speaks_of), SeenFolders(len(plan.every))
    looked_at = [path for path in plan.every if path not in call.left]
    for path, came in run_all(looked_at, call.verify, Compared, seconds):
        result = Compared(came.status, [came.line]) if isinstance(came, Refusal) else came
        if how.answers and result.sum:  # (its answers are right, whoever signed it)
            known.believed.add(bytes.fromhex(result.sum))
        twins = seen.twins(path, result.claims, result.captures)
        told.tell(path, result, [f"({words})" for words in twins], plan.stated)
    if how.sample is not None:
        told.say(likelihoods(len(sample.drawn), sample.days))
    if sample.several:
        were = "was" if len(sample.several) == 1 else "were"
        told.say(f"({count(len(sample.several), 'folder')} of several days, or of one name, {were} made again too)")
    if plan.of_others:
        told.say(f"({count(plan.of_others, 'day')} of another time beside the year's weren't looked at)")
    if sample.beside & call.left:
        told.say(f"({count(len(sample.beside), 'day')} beside the year's weren't looked at)")
    if how.answers:
        told.say(f"({ONLY_MADE})")
    return told.end()


class Tally:
    """What is printed of folders, and what comes of all."""

    def __init__(self, as_signed: bool, is_of_some: bool, all_: str):
        self.as_signed, self.is_of_some, self.all, self.worst, self.before = as_signed, is_of_some, all_, 0, 0
        self.others, self.of_years = list[str](), list[str]()
        self.hidden: dict[bool, list[str]] = {False: [], True: []}

    def say(self, line: str) -> None:
        print(plain(line), flush=True)

    def tell(self, path: str, result: Compared, more: list[str], stated: dict[str, str]) -> None:
        """Prints the lines of a folder, and counts what came of it."""
        for line in [*result.lines, *more]:
            print(f"{label(path)}: {plain(line)}", flush=True)
        status = (0 if result.is_same else NOT_SHOWN) if self.as_signed else result.status
        self.worst = summed(self.worst, status)
        if not result.is_same:
            self.others.append(label(path))
        self.before += f"({BEFORE})" in result.lines
        self.of_years += result.hidden
        if verdicts := {verdict for verdict in result.verdicts if verdict != YES}:
            self.hidden[path in stated].append(f"{label(path)} {' and '.join(sorted(verdicts))}")

    def end(self) -> int:
        """The status. With `--as-signed` the last line says whether all is as it was signed, and what isn't shown."""
        if self.before:
            self.say(f"({count(self.before, 'folder')} counted as found before: of their files only the sizes were "
                     "looked at)")
        if self.as_signed:
            is_by_days = self.others or not self.of_years  # (a year that differs says of none)
            hidden = [*self.of_years, *(self.hidden[True] if is_by_days else []), *self.hidden[False]]
            first = f"not as it was signed: {', '.join(self.others)}" if self.others else \
                AS_SIGNED.format("what was made again" if self.is_of_some else "all")
            nothing = "nothing else" if self.others else "nothing of it" if self.is_of_some else f"nothing{self.all}"
            self.say(f"{first}; not shown: {', '.join(hidden) or nothing}")
        return self.worst


AS_SIGNED, BEFORE = "{} is as it was signed", "that was here before"
RESTS = {files.YEAR: ("its statements follow from", "its days"),
         files.EVENTS: ("its times follow from the log and from", "its machines' folders")}
OWN_DAYS = "a machine's key signs its own days alone"


class Verifying:
    """A call that verifies folders. (A signature of a year or an answer is one for the days on which it rests.)"""

    def __init__(self, folders: list[str], verifier: Verifier, signers: Signers, seconds: int, how: How):
        self.verifier, self.known, self.signers, self.how = verifier, verifier.known, signers, how
        self.named = {absolute(folder) for folder in folders}
        self.plan = plan = Planning(folders, self.named, seconds).plan()
        self.sample = Sample() if how.sample is None else sample_of(plan, self.named, how.sample, how.seed, seconds)
        self.known.believes = how.sample is not None and not how.answers
        self.left = set[str]() if how.answers else self.sample.left
        beside = self.left & self.sample.beside
        signed = signers.look_at([path for path in plan.every if path not in beside], seconds)
        below, unseen = machines_below(folders, plan.machines, seconds) if signers.given is not None else ({}, {})
        self.refused, self.machines = unseen | plan.refused, plan.machines.among(below)
        self.left = self.left - self.wrongly_signed(signed, seconds)

    def wrongly_signed(self, signed: dict[str, str], seconds: int) -> set[str]:
        """The days that aren't drawn of which the signature doesn't fit, or is another machine's, or, since nothing
        rests on them, isn't one that counts: these are looked at too."""
        own = self.left - self.sample.beside - self.plan.resting if self.signers.given is not None else set[str]()
        signed = {path: signer for path, signer in signed.items() if path in self.left}
        others = [day for day, signer in signed.items()
                  if signer and (day in own or signer != os.path.basename(os.path.dirname(day)))]

        def is_wrong(day: Folder) -> bool:
            why = self.not_its_own(day, signed[day.path])
            return bool(why) and (day.path in own or why == OWN_DAYS)
        wrong = those_among(others, is_wrong, seconds)
        return wrong | {path for path, signer in signed.items() if not signer} | own.difference(signed)

    def verify(self, path: str, _: int) -> Compared:
        """What verifying a folder comes to."""
        unsigned, notes = list[str](), list[str]()
        if path in self.plan.holds and path not in self.refused and holds_days(path):
            return Compared(0, [f"({self.plan.holds[path]})"], is_same=True)
        try:
            with Folder(path) as folder:
                signed = signed_in(folder)
                unsigned, notes = self.of_signature(folder, signed)
                if refused := self.refused.get(path):
                    raise Fault(refused.line, refused.status)
                found, others = self.of_days(folder, signed) if signed in RESTS else self.of_audit(folder)
        except Fault as error:
            return Compared(error.status, [error.line, *unsigned, *(f"({note})" for note in notes)])
        found = replace(found, lines=[*found.lines, *unsigned, *(f"({note})" for note in [*notes, *others])])
        return replace(found, status=NOT_SHOWN, is_same=False) if unsigned else found

    def of_signature(self, folder: Folder, signed: str) -> tuple[list[str], list[str]]:
        """What is wrong with a folder's signature, and what is worth a note of it. With a file of those who may sign
        one is wrong that doesn't fit, or is a machine's of what isn't its own, whatever rests on the folder; any other,
        or none, if the folder's own has to be good."""
        signature = self.signers.signature_of(folder)
        is_needed = (self.how.as_signed or absolute(folder.path) in self.named) and \
            (signed in RESTS or folder.path not in self.plan.resting)
        why = self.not_its_own(folder, signature.signer) if signature.state == GOOD else ""
        if signature.state == UNFIT or why and (is_needed or why == OWN_DAYS):
            return [": ".join(filter(None, [in_words(signature), why]))], []
        if signature.state in (GOOD, UNSEEN) or not is_needed:
            return [], [in_words(signature)] * (signature.state != NONE)
        return [in_words(signature)] * (signature.state != NONE or self.signers.given is not None), []

    def not_its_own(self, folder: Folder, signer: str) -> str:
        """Why a machine's signature doesn't count, if it doesn't: the machine signed what isn't a day of its own, a
        year or an answer to a log, or a day of another one; or another one is called alike. A machine is what is called
        so, among those that are looked at, beside their folders, below what is named, or in what is signed."""
        signed, path, called, machines = signed_in(folder), absolute(folder.path), called_by(signer), self.machines
        above, names, places = os.path.dirname(path), machines.names, machines.places
        if signed == files.AUDIT:
            own = {os.path.basename(one) for one in (path, above, *(machines.folders & folders_above(path)))}
            machine = next((name for name in called if name in own | names), "")
            if machine in own:
                return NAMESAKES.format(machine) if machine in machines.alike else ""
            places |= {above, os.path.dirname(above)}
        else:
            data = folder.data(signed)
            names |= names_of(map(os.path.normpath, (
                [one.machine for one in read_statements(data).machines] if signed == files.YEAR else
                [one.machine for one in read_events(data).machines])))
        is_one = not names.isdisjoint(called) or any(
            asked(place, lambda beside: any(map(beside.is_folder, called)), False) for place in places)
        return OWN_DAYS if is_one else ""

    def of_days(self, folder: Folder, signed: str) -> tuple[Compared, list[str]]:
        """What a year's statements, or an answer to a log, come to by what is known of their days now; and notes."""
        self.known.renew()
        if signed == files.YEAR:
            days_of(folder, self.named)
            found = year_compared(folder, self.known, self.verifier.leaps, self.signers, self.named,
                                  self.machines.every)
        else:
            folders_of(folder, self.named)
            call = EventsCall(Asked(), self.known, self.verifier.leaps, self.verifier.program, SECONDS,
                              page=self.verifier.page, signers=self.signers, others=self.machines.every)
            answer = answer_compared(folder, call)
            notes = [answer.by_another] * bool(answer.by_another) + renamed_in(folder) + unanswered_in(folder, OWN)
            rest = [f"{count(answer.untimed, 'event')} without a time"] * bool(answer.untimed)
            found = YearCompared(answer.difference, notes=notes, rest=rest)
        is_shown = not (found.hidden and self.known.believes)  # (days weren't looked at one by one)
        return Compared(0 if is_shown and not found.difference else NOT_SHOWN,
                        [found.difference or words_of(signed, self.known)], not found.difference,
                        hidden=found.hidden + found.rest), found.notes

    def of_audit(self, folder: Folder) -> tuple[Compared, list[str]]:
        """What an audit comes to; and notes. What is drawn is made again."""
        is_drawn = folder.path in self.sample.drawn or folder.path in self.sample.several
        by_answers = self.how.answers and not is_drawn
        earlier = self.before(folder, by_answers) if self.how.known and not is_drawn else None
        difference, notes, made, is_judged = \
            earlier or (self.verifier.judge(folder) if by_answers else self.verifier.verify(folder))
        if not made:
            return Compared(NOT_SHOWN, [difference]), notes
        data = sum_of(audit_json(folder))
        if is_judged and not difference:
            self.known.add_answers(data, self.verifier.program.made.sha256, now())
        if not made.refusal and not difference:
            self.known.add_sizes(data, sizes_of(folder, made))
        disputed = self.known.dispute(made)
        verdicts = Counter(made.verdicts)
        words = ", ".join(f"{number} {verdict}" if len(made.entries) > 1 else verdict
                          for verdict, number in verdicts.items()) + (f": {made.refusal.line}" if made.refusal else "")
        lines = [*filter(None, [disputed and f"{DISPUTED}: {disputed}", difference])]
        return Compared(NOT_SHOWN if lines else made.status,
                        lines or [f"{'judged' if is_judged else 'verified'}: {words}"], not lines, list(verdicts),
                        [entry.claim for entry in made.entries], sorted(made.recordings),
                        sum="" if lines else data), notes

    def before(self, folder: Folder, by_answers: bool) -> Verified | None:
        """What an earlier call made of a folder's audit.json, if that is enough, and the files that it names have the
        sizes that they had then. What was refused, or has to be judged by a second program that hasn't done so, is done
        anew."""
        data = audit_json(folder)
        record, sum_ = read_any(data), sum_of(data)
        if form_of(data) < VERSION or record.refusal or not self.verifier.is_judged_twice(record) or \
                record_by(self.verifier.leaps, record).verdicts != record.verdicts or \
                not self.known.have_sizes(sum_, sizes_of(folder, record)):
            return None
        is_judged = not self.known.lines.of(sum_)
        if is_judged and not (by_answers and self.known.answers.of(sum_)):
            return None
        return Verified("", [*notes_of(record), BEFORE], record, is_judged)


def holds_days(path: str) -> bool:
    """Whether a folder is none that anybody signs, and nothing of such is left there."""
    with Folder(path) as folder:
        return kind_of(folder) in (LOOSE, BARE)


def words_of(name: str, known: Known) -> str:
    """What is said of a year's statements, or of an answer to a log, by what is known of the days."""
    follow, days = RESTS[name]
    if known.believes:
        return f"{follow} what {days} say of themselves, of which those that were drawn were made again"
    return f"verified: {follow} the audits of {days}" + (", by their answers" if known.believed else "")
