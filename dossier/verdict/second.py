"""The second program, ntpaudit-recheck, and the third, ntpaudit-judge: they share nothing with the first or each other,
and judge the answers that it left."""
import os
import shutil
from collections.abc import Iterator
from contextlib import suppress
from typing import NamedTuple

from ..fault import MISSING, Fault, fault
from ..folder.entry import NO_EVIDENCE, NOTHING_FITS, REFUTED, YES, Entry
from ..folder.files import CERTIFICATE, CLAIM, CLAIM_OF_0, REFUTATION, REPORT, own_data, sum_of_file
from ..folder.jobs import ENVIRONMENT, stream
from ..folder.program import BESIDE, IS_REPOSITORY, ROOT, lines_of
from ..text import plain

NAME, JUDGE = "ntpaudit-recheck", "ntpaudit-judge"
COUNTS = "one", "two", "three"
MAX_OF_A_LINE = 1000
"""Bytes that one may say of an answer: it says a line."""


class OtherProgram(NamedTuple):
    """Another program, which judges an answer."""
    name: str
    path: str
    sha256: str
    takes_several: bool = False
    """Whether it judges several answers at a call, for which it reads the capture once."""

    def disputes(self, entry: Entry, capture: str) -> Iterator[str]:
        """What it disputes of an audit's answers, whose files are in the current folder. What it doesn't judge is a
        fault."""
        answers = list(answers_of(entry))
        if self.takes_several and len(answers) > 1 and self.accepts(answers, capture):
            return
        for claim, answer, wanted in answers:
            status, said = self.says(capture, answer, claim, answer)
            if said != wanted or status != (0 if wanted.endswith(" yes") else 1):
                yield f'of {answer} the program says "{wanted}", and the {self.name} "{said}" (status {status})'

    def accepts(self, answers: list[tuple[str, str, str]], capture: str) -> bool:
        """Whether it says at one call what it has to of each answer, and all are yes. Else each is asked by itself."""
        files = [file for claim, answer, _ in answers for file in (claim, answer)]
        with suppress(Fault):
            return self.says(capture, " and ".join(files[1::2]), *files) == \
                (0, plain("\n".join(wanted for _, _, wanted in answers)))
        return False

    def says(self, capture: str, what: str, claim: str, *answers: str) -> tuple[int, str]:
        """The status and what it prints of answers, each but the first behind its claim."""
        said = bytearray()

        def take(block: bytes) -> None:
            said.extend(block)
            if len(said) > MAX_OF_A_LINE:
                raise fault(f"the {self.name} says more of {what} than a line")
        status, error = stream([self.path, claim, capture, *answers, "--drift"], take)
        if status not in (0, 1):
            why = plain((lines_of(error) or [f"status {status}, and no line"])[0][:MAX_OF_A_LINE])
            raise fault(f"the {self.name} doesn't judge {what} ({why})")
        return status, plain(said.decode("utf-8", "replace").removesuffix("\n"))


class Second(NamedTuple):
    """The second program; and the judge that Coq proves, if it is there."""
    programs: list[OtherProgram]

    @property
    def sha256(self) -> str:
        return "+".join(program.sha256 for program in self.programs)

    @property
    def judged(self) -> str:
        return f"judged by {COUNTS[len(self.programs)]} programs"

    def disputes(self, entry: Entry, capture: str) -> Iterator[str]:
        for program in self.programs:
            yield from program.disputes(entry, capture)


def answers_of(entry: Entry) -> Iterator[tuple[str, str, str]]:
    """The claim and the file of each answer that an audit left, and the line with which it is judged if it is right.
    What is open states nothing."""
    if entry.answer == YES:
        yield entry.within(CLAIM), entry.within(CERTIFICATE), "verdict yes"
    if entry.refutation:
        claim = CLAIM if entry.answer == REFUTED else CLAIM_OF_0
        yield entry.within(claim), entry.within(REFUTATION), "refuted yes"
    if entry.answer in (NOTHING_FITS, NO_EVIDENCE):
        report = entry.within(REPORT)
        yield entry.within(CLAIM), report, own_data(report).decode().splitlines()[-1]


def path_of(name: str, variable: str, own: str) -> str | None:
    """The path of a program: of the file that the environment names (from the repository's root), or the repository's;
    or of the one that was installed or copied with this; or on the PATH."""
    named = os.environ.get(variable)
    if named:
        return os.path.realpath(os.path.join(ROOT, named))
    own = f"{ROOT}/{own}" if IS_REPOSITORY and own else f"{BESIDE}/{name}"
    return own if os.path.isfile(own) else shutil.which(name, path=ENVIRONMENT["PATH"])


def find_second() -> Second:
    """The second program, and the third if it is there."""
    path, judge = path_of(NAME, "NTPAUDIT_SECOND", "second/recheck"), path_of(JUDGE, "NTPAUDIT_JUDGE", "")
    if not path or not os.access(path, os.X_OK):
        raise fault(f"the second program, {NAME}, isn't there: NTPAUDIT_SECOND is the path to it", MISSING)
    programs = [OtherProgram("second program", path, sum_of_file(path), takes_several=True)]
    if judge:
        if not os.access(judge, os.X_OK):
            raise fault(f"the judge, {JUDGE}, isn't there: NTPAUDIT_JUDGE is the path to it", MISSING)
        programs.append(OtherProgram("judge", judge, sum_of_file(judge)))
    return Second(programs)
