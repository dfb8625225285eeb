"""Captures that are made to be slow: every command comes back within 60 s of the processor, with the right answer. How
long calls take, and how that grows, bench/hostile measures.

Of each capture of tests/tools/families.py and each of its claims all commands are held to a second reading: lines byte
for byte; of certificates that the pieces lie inside the bound, and with one more tick don't; of refutations that they
stand, and are there where the reading finds one; and the least bound by the property that makes it one. So are the
captures of data/slow, and a large one; and those of data/, by what `list` prints of them, with `settle` and `find` of
some changed claims too. (How many pieces are too many is proved.)
"""
import json
import shutil
import tempfile
from collections import Counter
from collections.abc import Callable, Iterable, Iterator
from contextlib import contextmanager
from functools import partial
from itertools import product
from pathlib import Path
from typing import Any, NamedTuple

from tests.support import DATA, check, count, files_in, program, run
from tests.second import answers, marks, rules
from tests.second.claims import Claim, changed
from tests.second.columns import TICKS
from tests.second.commands import plain_commands
from tests.second.exchanges import evidence_of
from tests.second.questions import Asks, CASES, Question, Way, find_case, settle_case
from tests.tools import families
from tests.tools.families import Exchanges

PROGRAM = program()
LIMIT = 60
SIZES = (64, 1000, 8)
LARGE = 250_000
"""Exchanges of an ordinary hour: no command gives up because an input is large."""

WHOLE = {"hair-10000-half", "gaps-100ppm", "many-pieces"}
"""The families of which the reading makes all 100,000 pieces, with 64 exchanges."""


def sizes_of(name: str) -> tuple[int, ...]:
    """The hairs, which differ in a gap and a rate alone, are tried with one size but for those of one gap."""
    return SIZES[:1] if name.startswith("hair-") and not name.startswith("hair-100-") else SIZES


class Told(NamedTuple):
    """Which commands were called, and the kinds of answers of `settle`."""
    called: set[str]
    kinds: list[str]


# ---- captures
def tried(questions: Iterable[Question], cases: Iterable[Asks] = CASES) -> Told:
    called, kinds = set[str](), list[str]()
    for question in questions:
        for case in cases:
            for name, wrong in case(question):
                count(f"{question.name}: {name}", wrong)
                kinds += name.split("settle: ")[1:]
        called |= question.called
    return Told(called, kinds)


def questions_on(name: str, exchanges: Exchanges, claims: dict[str, Claim], way: Way) -> Iterator[Question]:
    """The claims on a capture that is written here."""
    families.write(exchanges, way.folder / "capture.pcap")
    records = [(2 * number, 2 * number + 1) for number in range(len(exchanges))]
    by_drift = {}
    for which, claim in claims.items():
        samples, drift = exchanges.samples(claim), claim["drift_ppb"]
        if drift not in by_drift:
            by_drift[drift] = marks.contradictions(claim, samples)
        yield Question(f"{name}, claim {which}", claim, samples, records, by_drift[drift], way)


def try_family(name: str, size: int) -> Told:
    made = families.FAMILIES[name](size)
    claims = made.claims if size == SIZES[0] else dict(reversed(made.claims.items()))
    with tempfile.TemporaryDirectory(prefix="ntpaudit-") as folder:
        way = Way(PROGRAM, Path(folder), LIMIT, name in WHOLE and size == 64, {}, set())
        return tried(questions_on(f"{name} with {size}", made.exchanges, claims, way))


@contextmanager
def captured(file: Path) -> Iterator[tuple[str, Claim, bytes, Way]]:
    """A claim of data/ by its name, with what `list` prints of its capture, and how questions on that are asked."""
    name = file.name.removesuffix(".claim.json")
    with tempfile.TemporaryDirectory(prefix="ntpaudit-") as folder:
        capture = Path(folder) / "capture.pcap"
        shutil.copy(file.with_name(f"{name.split('.')[0]}.pcap"), capture)
        listing = run([PROGRAM, "list", capture])[1]
        yield name, json.loads(file.read_text()), listing, Way(PROGRAM, Path(folder), LIMIT, True, {}, set())


def question_on(name: str, claim: Claim, listing: bytes, way: Way) -> Question:
    known = evidence_of(claim, listing)
    question = Question(name, claim, known.samples, known.records, marks.contradictions(claim, known.samples), way)
    question.evidence = known
    return question


def try_file(file: Path, step: int) -> Told:
    """A claim of data/ with a step, whose samples are read off `list`."""
    with captured(file) as (name, claim, listing, way):
        question = question_on(f"{name} by {step} s", claim, listing, way)
        question.step = step
        return tried([question])


def changes_of(claim: Claim, listing: bytes) -> Iterator[dict[str, Any]]:
    """What is changed of a claim: the drift, the groups that may be wrong, and bounds around the least one, a day later
    too, where some stay open."""
    yield from ({"drift_ppb": 0}, {"bound_ns": 0}, *({"false_max": most} for most in {0, 1, len(claim["servers"])}))
    later = (families.spelled(time // TICKS + families.DAY) for time in rules.span_of(claim))
    for times in dict[str, Any](), dict[str, Any](zip(("from", "to"), later)):
        known = evidence_of(changed(claim, **times), listing)
        least = answers.told_least(answers.envelope(known, "--step", "86400", "--least")[1][-1])
        yield from ({**times, "bound_ns": least[0] - below} for below in (-1000, 0, 1, 9, 50)
                    if least and 0 <= least[0] - below <= 10**15)


def try_changed(file: Path) -> Told:
    """`settle` and `find` of such claims."""
    with captured(file) as (name, claim, listing, way):
        return tried((question_on(f"{name} with {changes}", changed(claim, **changes), listing, way)
                      for changes in changes_of(claim, listing)), [settle_case, partial(find_case, step=1)])


def cases() -> Iterator[tuple[str, Callable[[], Told]]]:
    """What is tried: the longest first."""
    yield "system.hostile.large", partial(try_family, "hour", LARGE)
    for file, step in [*product(files_in(families.FILES, "*.claim.json"), [3600]),
                       *product(files_in(DATA, "*.claim.json"), [1, 3, 8, 64, 86_400])]:
        yield f"system.hostile.{file.name.removesuffix('.claim.json')}.{step}", partial(try_file, file, step)
    for file in files_in(DATA, "*.claim.json"):
        yield f"system.hostile.{file.name.removesuffix('.claim.json')}.changed", partial(try_changed, file)
    names = sorted(families.FAMILIES, key=lambda name: name not in WHOLE)
    for size in SIZES:
        for name in (name for name in names if size in sizes_of(name)):
            yield f"system.hostile.{size}.{name}", partial(try_family, name, size)


def together(told: list[Told]) -> None:
    kinds = sum((Counter(one.kinds) for one in told), Counter[str]())
    print("; ".join(f"{number} {kind}" for kind, number in kinds.most_common()))
    every = {"no evidence", "nothing fits", "open", "refuted", "shown"}
    check("answers of each kind", missing=(every - {*kinds}, set()))
    check("each command is called", missing=({
        " ".join((command.name, *(word for word in command.options if word.startswith("--"))))
        for command in plain_commands()} - {word for one in told for word in one.called}, set()))
