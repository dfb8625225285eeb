"""The user's own record of audits that were made or verified here: a line for each audit.json, with its SHA-256, and by
which program it was made or verified here, when, and in how many seconds.

Nothing else makes an audit.json more than a stranger's word, and what stands in the line is what is shown. What the
second program said of answers stands in a file beside it, of which audit.json the answers were judged in another, and
in a third which sizes the files had that an audit.json names.
"""
import os
from contextlib import AbstractContextManager
from typing import NamedTuple

from ..fault import DEVICE, fault
from ..records import replace
from .entry import Made, Record
from .files import CLAIM, Folder, sum_of
from .placing import Journal
from .table import Table

FILE, JUDGED, ANSWERS, SIZES, LOCKS = "audits", "judged", "answers", "sizes", "locks"


class Judgement(NamedTuple):
    """What the second program said last of a claim and its captures: the sum of these and that of the answers, the sum
    of the program, when, and what it disputes, nothing if it says the same. The judge's sum comes behind a plus."""

    question: str
    answers: str
    second: str
    at: str
    dispute: str


def state_of(given: str | None) -> str:
    """The folder of the record: the one that is named, or the user's."""
    state = os.environ.get("XDG_STATE_HOME", "")
    own = state if os.path.isabs(state) else os.path.expanduser("~/.local/state")
    return given if given is not None else os.path.join(own, "ntpaudit")


class Lines:
    """The lines of a file that are whole, the last of each sum that one begins with. Where a line begins is kept in 12
    bytes, however many there are."""

    def __init__(self, text: bytes):
        self.text, self.table, self.more, at = text, Table(), dict[str, str](), 0
        while (end := self.text.find(b"\n", at)) >= 0:
            if self.text.count(b" ", at, end) >= 4:
                self.table.put(key_of(self.text[at:at + 16]), at)
            at = end + 1

    def of(self, sum_: str) -> str:
        """The line of a sum; nothing if there is none."""
        at = self.table.get(key_of(sum_[:16].encode()))
        line = self.text[at:self.text.find(b"\n", at)].decode("utf-8", "replace") if at is not None else ""
        return self.more.get(sum_) or (line if line.startswith(f"{sum_} ") else "")


def key_of(digits: bytes) -> int:
    try:
        return int(digits, 16)
    except ValueError:
        return 0


class Known:
    """The record, as it stood when this was made, and what was added since."""

    def __init__(self, state: str, writes: bool):
        try:
            self.journal, self.judged, self.by_answers, self.of_sizes = (
                Journal(state, name, writes) for name in (FILE, JUDGED, ANSWERS, SIZES))
        except OSError as error:
            why = f"the record of audits in {state} can't be used ({error.strerror})"
            raise fault(f"{why}: --state names another folder", DEVICE) from None
        self.lines, self.judgements = Lines(self.journal.text), Lines(self.judged.text)
        self.answers, self.sizes = Lines(self.by_answers.text), Lines(self.of_sizes.text)
        self.journal.text = self.judged.text = self.by_answers.text = self.of_sizes.text = b""
        self.believed, self.believes = set[bytes](), False

    def renew(self) -> None:
        """Takes in what other processes have added."""
        self.lines, self.judgements = Lines(self.journal.again()), Lines(self.judged.again())

    def alone(self, folder: Folder) -> AbstractContextManager[None]:
        """Waits until no other call that has this record writes in a folder."""
        return self.journal.alone(LOCKS, folder)

    def last_call(self) -> int:
        """The time of the last call that took folders away, in Unix seconds; 0 if there was none."""
        at = self.lines.text.rfind(b"\nkept ")
        at = at + 1 if at >= 0 or not self.lines.text.startswith(b"kept ") else 0
        return int(self.lines.text[at:].split()[1]) if self.lines.text.startswith(b"kept ", at) else 0

    def note_call(self, now: int) -> None:
        self.append(self.journal, f"kept {now}")

    def shown(self, sum_: str, record: Record) -> Record | None:
        """A record as it was made or verified here, if it was; or as it says of itself, if that is believed in this
        call: of all, or of those that are named by their sums."""
        if not (line := self.lines.of(sum_)):
            return record if self.believes or bytes.fromhex(sum_) in self.believed else None
        _, program, made, seconds, version = line.split(" ", 4)
        return replace(record, program=Made(version, program), made=made, seconds=float(seconds))

    def shown_now(self, sum_: str, record: Record) -> Record | None:
        """The same, by what other calls have added meanwhile too."""
        if not self.lines.of(sum_):
            self.renew()
        return self.shown(sum_, record)

    def add(self, sum_: str, record: Record) -> None:
        """Adds a line: what was found of an audit.json of this sum."""
        line = f"{sum_} {record.program.sha256} {record.made} {record.seconds} {record.program.version}"
        if not self.lines.of(sum_):
            self.append(self.journal, line)
            self.lines.more[sum_] = line

    def add_answers(self, sum_: str, program: str, at: str) -> None:
        """Adds a line: that the answers of an audit.json of this sum were judged, by which program and when."""
        if not self.answers.of(sum_):
            self.append(self.by_answers, line := f"{sum_} {program} {at} - -")
            self.answers.more[sum_] = line

    def add_sizes(self, sum_: str, sizes: str) -> None:
        """Adds a line: which sizes the files have that an audit.json of this sum names."""
        if not self.have_sizes(sum_, sizes):
            self.append(self.of_sizes, line := f"{sum_} {sizes} - - -")
            self.sizes.more[sum_] = line

    def have_sizes(self, sum_: str, sizes: str) -> bool:
        return self.sizes.of(sum_).startswith(f"{sum_} {sizes} ")

    def judgement(self, record: Record) -> Judgement | None:
        """What the second program said last of these answers. A dispute is about whatever is said of the question, so
        that another audit doesn't end it."""
        line = self.judgements.of(question_of(record))
        judgement = Judgement(*line.split(" ", 4)) if line else None
        return judgement if judgement and (judgement.dispute or judgement.answers == answers_of(record)) else None

    def dispute(self, record: Record) -> str:
        """What the second program disputes of a record; nothing if it doesn't, or wasn't asked."""
        judgement = self.judgement(record)
        return judgement.dispute if judgement else ""

    def judge(self, record: Record, second: str, at: str, dispute: str) -> None:
        """Adds a line: what the second program, of this sum, said of a record."""
        line = f"{question_of(record)} {answers_of(record)} {second} {at} {dispute}"
        self.append(self.judged, line)
        self.judgements.more[question_of(record)] = line

    def append(self, journal: Journal, line: str) -> None:
        try:
            journal.append(line)
        except OSError as error:
            raise fault(f"the record of audits can't be written ({error.strerror})", DEVICE) from None


def question_of(record: Record) -> str:
    """The sum of what was asked: of the claim and the captures, whatever their names, as a whole or by days."""
    sums = sorted({record.inputs.get(CLAIM, ""), *record.captures})
    return sum_of(" ".join([*sums, str(record.options.days)]).encode())


def answers_of(record: Record) -> str:
    """The sum of the answers."""
    return sum_of(" ".join(f"{name} {sum_}" for name, sum_ in sorted(record.outputs.items())).encode())
