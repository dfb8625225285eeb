"""Compares the judge that Coq proves with the program, which shares nothing with it, by all that
tests/second/test_recheck.py compares recheck by: verdict, piece, reason and status, and of what is refused the fault
line, number, word and place.

NTPAUDIT_SCENES=2400 NTPAUDIT_SEED=.. asks for more scenes, of another seed: of 2400, some 50,000 answers.
"""
import json
import os
import re
import tempfile
from collections import Counter
from collections.abc import Callable, Iterator
from functools import partial
from pathlib import Path

from tests.support import Ran, check, count, run, skip, wanting
from tests.judge.made import made, missing
from tests.second import test_recheck
from tests.second.claims import Claim, changed
from tests.second.columns import TICKS
from tests.second.rechecked import recheck
from tests.second.test_recheck import Answer, Job, MET, Trial, is_not_right, last_line
from tests.system.test_covers import said_of_altered
from tests.tools import scenes
from tests.tools.directed import BASE, CLAIM, Asked, capture_of
from tests.tools.wire import SERVER, address

SEED, SCENES = os.environ.get("NTPAUDIT_SEED", "judge"), int(os.environ.get("NTPAUDIT_SCENES", "60"))
FAULTS = [*(f"claim {number}" for number in (1, 2, 3, 4, 5, 6, 8)),
          *(f"certificate {number}" for number in (2, 3, 4, 5, 6, 8)), "refutation 1", "refutation 2",
          *(f"capture {number}" for number in range(1, 8)), "too-big claim", "too-big refutation"]
"""What has to be refused somewhere."""
OF_COVERS = ["conflict N no-conflict", "no-case", "unanswered", *(f"case N {why}" for why in (
    "too-many-groups", "no-group", "repeated-group", "repeated-case", *(f"piece N {word}" for word in (
        "cut", "bad-sample", "mixed-servers", "repeated-server", "left-out", "unbounded", "contradiction", "exceeds",
        "uncovered"))))]
"""What a certificate by covers has to be refused for."""


class Judged(Trial):
    """A trial of which the judge is asked."""

    def ask(self, command: str, *words: object) -> tuple[int | str, bytes]:
        ran = run([test_recheck.PROGRAM, command, self.claim, self.capture, *words])
        self.refusals = [*getattr(self, "refusals", []), ran[2].removeprefix(b"ntpaudit: ")][-2:]
        return ran[:2]

    def says(self, *drift: str) -> Ran:
        self.heard = run([made("ntpaudit-judge"), self.claim, self.capture, self.third, *drift])
        return self.heard

    def compare(self, label: str, *drift: str) -> None:
        """Of what both refuse, one of the two lines with which `check` and `refute` do."""
        super().compare(label, *drift)
        if self.heard[0] == 2:
            line = self.heard[2].removeprefix(b"ntpaudit-judge: ")
            self.seen[f"fault: {line.decode()}"] += 1
            if line not in self.refusals:
                self.wrong.append(f"{label}: the judge refuses it by {line!r}, and the program by {self.refusals}")

    def hold_readings(self, claim: Claim) -> None:
        """The judge knows no readings."""

    def hold_altered(self, claim: Claim, lines: list[str]) -> None:
        """One line with another word, and none beside it: no conflict, if `settle` doesn't say it of just its
        records."""
        k = self.rng.randrange(len(lines))
        words, at = lines[k].split(), self.rng.randrange(1, 5)
        words[at] = (self.rng.choice(claim["servers"]) if at in (1, 3)
                     else str(max(0, int(words[at]) + self.rng.choice([1, -1]))))
        altered = [*lines[:k], " ".join(words), *lines[k + 1:]]
        if (is_line := self.is_conflict(claim, words)) is not None:
            is_shown = is_line and not scenes.are_few(scenes.pairs_of(altered, claim), claim["false_max"])
            self.third.write_text("".join(f"{line}\n" for line in (*altered, "nothing fits")))
            right: Answer = 1, "nothing fits"
            self.hold("nothing fits, with an altered line", right.__eq__ if is_shown else is_not_right)


def tried(job: tuple[str, Job]) -> Counter[str]:
    _, seen, wrong = test_recheck.tried(job, Judged)
    assert not wrong, "; ".join(wrong[:3])
    return Counter(seen)


def tried_by_covers(seed: int) -> Counter[str]:
    return Counter(f"by covers: verdict {re.sub('[0-9]+', 'N', said)}"
                   for said in said_of_altered(seed, made("ntpaudit-judge")))


# ---- each answer on a certificate by covers
Piece = tuple[list[list[int]], int]
MIDDLE, LAST = ((BASE + seconds) * TICKS for seconds in (2, 4))
SHOWN: Piece = [[1, 1]], MIDDLE


def of(groups: list[int], *pieces: Piece) -> dict[str, object]:
    return {"groups": groups, "pieces": [{"entries": entries, "upto": upto} for entries, upto in pieces]}


def by_covers(cases: object, conflicts: object = [[0, 2], [3, 2]]) -> bytes:
    return json.dumps({"cases": cases, "conflicts": conflicts}).encode()


TRUE = of([2], ([[0, 0], [1, 1], [3, 3]], LAST))
"""The case that holds. Of four servers, each with an exchange of its number and two of which may be false, server 2 is
off by more than the bound."""


def behind(*pieces: Piece) -> bytes:
    """With these behind the piece that holds of a second case."""
    return by_covers([TRUE, of([0, 3], SHOWN, *pieces)])


ANSWERS: list[tuple[str, bytes]] = [
    ("verdict yes", by_covers([TRUE], [[0, 2]] * 526 + [[1, 2], [3, 2]])),
    ("verdict no conflict 1 no-conflict", by_covers([TRUE], [[0, 2], [2, 0]])),
    ("verdict no conflict 2 no-conflict", by_covers([TRUE], [[0, 2], [3, 2], [4, 2]])),
    ("verdict no no-case", by_covers([])),
    ("verdict no case 1 too-many-groups", by_covers([TRUE, of([*range(32)])])),
    ("verdict no case 1 no-group", by_covers([TRUE, of([4])])),
    ("verdict no case 1 no-group", by_covers([TRUE, of([255])])),
    ("verdict no case 1 repeated-group", by_covers([TRUE, of([1, 1])])),
    ("verdict no case 2 repeated-case", by_covers([TRUE, of([0, 3]), of([3, 0]), *[TRUE] * 61])),
    ("verdict no unanswered", by_covers([TRUE])),
    ("verdict no case 1 piece 1 cut", behind(([[1, 1]], MIDDLE - 1))),
    ("verdict no case 1 piece 1 bad-sample", behind(([[1, 4]], LAST))),
    ("verdict no case 1 piece 1 mixed-servers", behind(([[1, 2]], LAST))),
    ("verdict no case 1 piece 1 repeated-server", behind(([[1, 1]] * 32, LAST))),
    ("verdict no case 1 piece 1 left-out", behind(([[3, 3]], LAST))),
    ("verdict no case 1 piece 1 unbounded", behind(([], LAST))),
    ("verdict no case 1 piece 1 contradiction", behind(([[1, 1], [2, 2]], LAST))),
    ("verdict no case 1 piece 1 exceeds", behind(([[2, 2]], LAST))),
    ("verdict no case 1 piece 1 uncovered", behind()),
    ("verdict no case 1 piece 99998 unbounded", behind(*[SHOWN] * 99_997, ([], LAST))),
    ("certificate 1 json", by_covers([TRUE])[:-1].ljust(65_537)),
    ("certificate 2 top", by_covers([TRUE]).replace(b"conflicts", b"conflict")),
    ("certificate 2 top", by_covers([TRUE], 0)),
    ("certificate 3 too-many-conflicts", by_covers([0], [0] * 529)),
    ("certificate 4 conflicts", by_covers([0], [[0, 2], [0]])),
    ("certificate 5 too-many-cases", by_covers([TRUE] * 65)),
    ("certificate 6 case 2", by_covers([TRUE, TRUE, 0, *[TRUE] * 62])),
    ("certificate 6 case 2", by_covers([TRUE, TRUE, of([*range(33)])])),
    ("certificate 6 case 1", by_covers([TRUE, of([256])])),
    ("certificate 7 too-many-pieces", behind(([], -1), *[SHOWN] * 99_998)),
    ("certificate 8 shape piece 3", behind(SHOWN, ([], -1))),
    ("certificate 9 too-many-entries piece 2", behind(([[1, 1]] * 33, LAST)))]
"""By docs/FORMATS.md, of certificates by covers: at a limit, beyond it, and with another fault that comes later."""


EMPTY = by_covers([of([], SHOWN, ([[1, 1]], LAST))])
"""Where no server may be false."""
NOTE = "note: no course of events fits the capture, so this says nothing"


def written(place: Path, certificate: bytes, most: int) -> tuple[Path, Path, Path]:
    """Claim, capture and certificate, in a folder."""
    asked = [Asked((BASE + k) * TICKS, (BASE + k) * TICKS + 4_295_000, server=SERVER + k) for k in range(4)]
    off = asked[2].sent + 10 * TICKS
    asked[2] = asked[2]._replace(received=off, transmitted=off)
    claim = changed(CLAIM, servers=[address(SERVER + k) for k in range(4)], false_max=most)
    files = place / "claim", place / "capture", place / "certificate"
    for file, text in zip(files, (json.dumps(claim).encode(), capture_of(*asked), certificate)):
        file.write_bytes(text)
    return files


def told(line: str, certificate: bytes, most: int, note: str) -> Counter[str]:
    """The program, the judge and second/recheck say just this; or recheck, which numbers no faults, refuses it."""
    is_fault = not line.startswith("verdict")
    status, out = 2 if is_fault else int(line != "verdict yes"), "" if is_fault else line
    with tempfile.TemporaryDirectory(prefix="ntpaudit-") as place:
        files = written(Path(place), certificate, most)
        for name, ran, beside in (("ntpaudit", run([test_recheck.PROGRAM, "check", *files]), ""),
                                  ("ntpaudit-judge", run([made("ntpaudit-judge"), *files]), note),
                                  ("recheck", recheck(*files), note)):
            check(f"{name} says {line}", status=(ran[0], status), out=(last_line(ran[1]), out))
            said = line if is_fault else beside
            if not is_fault or name != "recheck":
                check(f"{name} says beside it {said}", err=(ran[2].decode(), f"{name}: {said}\n" if said else ""))
        if not is_fault:
            human = run([test_recheck.PROGRAM, "check", *files, "--human"])[1].decode().splitlines()
            check("and whether a course fits", said=("no course fits: see settle" in human, bool(note)))
    return Counter([f"by covers: {re.sub('[0-9]+', 'N', line)}"])


def cases() -> Iterator[tuple[str, Callable[[], Counter[str]]]]:
    if tool := missing():
        yield "judge.answers.none", partial(skip, "the judge's answers", wanting(tool))  # type: ignore
        return
    made("ntpaudit-judge")
    for k, (line, certificate) in enumerate(ANSWERS):
        yield f"judge.answers.by covers, {line}, {k}", partial(told, line, certificate, 2, "")
    yield "judge.answers.by covers, an empty yes", partial(told, "verdict yes", EMPTY, 0, NOTE)
    for job in [*test_recheck.jobs(), *test_recheck.scenes_of(SEED, SCENES)]:
        yield f"judge.answers.{job[0]}", partial(tried, job)
    for seed in range(SCENES):
        yield f"judge.answers.by covers {seed}", partial(tried_by_covers, seed)


def together(seen: list[Counter[str]]) -> None:
    found = sum(filter(None, seen), Counter[str]())
    answers = Counter[str]()
    for name, number in found.items():
        answers[name.split(": ", 1)[1]] += 0 if name.startswith("fault: ") else number
    print(f"{answers.total()} answers compared")
    for answer in (*(f"verdict no {why}" for why in OF_COVERS),
                   *(answer for answer in MET if not answer.startswith("readings"))):
        count(f"something is {answer}", "" if answers[answer] else "never")
    for fault in FAULTS:
        is_met = any(name.startswith(f"fault: {fault}") for name in found)
        count(f"something is refused by {fault}", "" if is_met else "never")
