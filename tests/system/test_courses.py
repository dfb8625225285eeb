"""A plain reading of the theorem. It makes courses of events at random, writes their captures, and sees that

- wherever `check` says yes the clock was within the bound in that course, and it says yes to what `find` gives
- an event that the clock logged was between the true times that `at --times` has for it, and with `--covers`
- the hulls of `at` and `envelope` hold the clock's error, and the bound that `envelope` gives is the least for `find`
- under the bound of `envelope --least` there is a certificate, one nanosecond below none
- all of that holds where requests are stamped early and replies late, and not with the signs turned
- what happened is never refused as a refutation, and beside one that stands there is no certificate

A course has a clock whose error wanders within the drift rate, and up to false_max groups that say what they like. Each
answer is compared with the second readings' too. Each seed is one course. (That a course fits to each refutation that
stands is proved, of the program by `check_refutation_with_drift`, of the judge by `refuted_is_a_course`.)
"""
import functools
import hashlib
import json
import os
import random
import tempfile
from collections.abc import Callable, Iterator
from functools import partial
from pathlib import Path

from tests.support import Ran, program, run
from tests.second import answers, columns, marks, questions, rechecked, rules
from tests.second.answers import by_rules
from tests.second.questions import Question, Way
from tests.second.claims import Certificate, Piece, Refutation
from tests.second.columns import TICKS
from tests.second.pieces import Hulls
from tests.second.rules import BILLION, Sample, ceiling
from tests.tools.events import Course, FINE, StampedCourse

COURSES, LIMIT = 300, 60
"""Of ten slips in the second reading 50 courses show seven, and 60 to 100 no other."""


def ends_of(course: Course, rng: random.Random) -> list[int]:
    """The ends of a certificate's pieces, some of them of one moment."""
    first, last = course.first * TICKS, (course.first + course.seconds) * TICKS
    ends = sorted(rng.randint(first, last) for _ in range(rng.randint(0, 6)))
    return ends + [last]


def certify(course: Course, samples: list[Sample], rng: random.Random) -> tuple[Certificate, int | None]:
    """A certificate of the best samples, and the least bound in nanoseconds that it shows: None where it shows none."""
    claim, begin, found, needs = course.claim(0), course.first * TICKS, list[Piece](), list[int | None]()
    hulls = Hulls(claim, samples)
    for upto in ends_of(course, rng):
        entries = rules.best_entries(claim, samples, begin, upto)
        needs.append(rules.need_of(hulls.over(begin, upto)))
        found.append({"entries": entries, "upto": upto})
        begin = upto
    worst = None if None in needs else max(filter(None, needs), default=0)
    return {"pieces": found}, None if worst is None else ceiling(worst * BILLION, TICKS)


def written(folder: str, name: str, value: object) -> str:
    """A file with these bytes, or with this value. What was written once isn't written again."""
    data = value if isinstance(value, bytes) else json.dumps(value).encode()
    path = os.path.join(folder, f"{name}-{hashlib.sha256(data).hexdigest()}")
    if not os.path.exists(path):
        with open(path, "wb") as file:
            file.write(data)
    return path


def spelled_out(certificate: Certificate | bytes, bound_ns: int) -> bytes:
    """The certificate as it stands, or a value's text: with spaces, and without them for bounds that are odd."""
    if isinstance(certificate, bytes):
        return certificate
    return rules.compact(certificate).encode() + b"\n" if bound_ns % 2 else json.dumps(certificate).encode()


def verdict_line(folder: str, course: Course, capture: str, bound_ns: int, certificate: Certificate | bytes) -> str:
    """What the program says: the end of its last line, where the status agrees with it and nothing else was said."""
    claim = written(folder, "claim", course.claim(bound_ns))
    status, out, err = checked(claim, capture, written(folder, "certificate", spelled_out(certificate, bound_ns)))
    said = out.decode().splitlines()[-1] if out else ""
    is_told = err == b"" and said.startswith("verdict ") and status == (said != "verdict yes")
    return said.removeprefix("verdict ") if is_told else f"status {status}, {out!r}, {err!r}"


@functools.cache
def checked(*files: str) -> Ran:
    """What `check` says of these files, whose names are their sums: it isn't asked the same twice."""
    return run([PROGRAM, "check", *files])


def answers_wrong(course: Course, samples: list[Sample], folder: str, capture: str, bounds: list[int]) -> Iterator[str]:
    """What is wrong with what the commands answer of a claim with each of these bounds, by the second reading."""
    os.link(capture, os.path.join(folder, "capture.pcap"))
    for bound_ns in bounds:
        claim = course.claim(bound_ns)
        question = Question("", claim, samples, course.records, marks.contradictions(claim, samples),
                            Way(PROGRAM, Path(folder), LIMIT, True, {}, set()))
        for case in questions.CASES:
            yield from (f"{name}, with a bound of {bound_ns}: {wrong}" for name, wrong in case(question) if wrong)


def hulls_wrong(course: Course, samples: list[Sample], rng: random.Random) -> list[str]:
    """Where the clock's error isn't in a hull: at whole seconds that the clock passed in the course, and in pieces."""
    wrong, passed = list[str](), course.clock.at_second
    evidence = by_rules(course.claim(0), samples)
    for second in rng.sample(sorted(passed), min(2, len(passed))):
        place, error = second * TICKS, passed[second]
        hull = evidence.hulls.over(place, place)
        if hull is not None and (not hull or not FINE * hull[0] <= error <= FINE * hull[1]):
            wrong.append(f"at {second}: an error of {error} outside of {hull}")
    for begin, upto, _, hull in answers.drawn(evidence, step := rng.choice((1, 2, 7, 64))):
        for time, error in course.clock.error.items():
            if FINE * begin <= time + error <= FINE * upto and hull is not None:
                if not hull or not FINE * hull[0] <= error <= FINE * hull[1]:
                    wrong.append(f"pieces of {step} s: an error of {error} outside of {hull}")
    return wrong


def events_wrong(course: Course, samples: list[Sample], folder: str, capture: str, rng: random.Random) -> list[str]:
    """What is wrong with `at --times` for events of the course, which the clock logged with some digits, and with
    --covers too: its lines, and where true time isn't between the two."""
    events = list[tuple[int, str]]()
    for time, error in course.clock.error.items():
        parts = 10 ** (digits := rng.randint(0, 9))
        second, part = divmod((time + error) * parts // (TICKS * FINE), parts)
        fraction = f".{part:0{digits}}" if digits else ""
        if 0 <= second < 2**32 - 1:
            whole = [str(second), columns.time(second).removesuffix("Z")]
            events.append((time, rng.choice((whole[0] + fraction, whole[1] + fraction + "Z"))))
    rng.shuffle(events)
    text = "".join(f"{logged}\n" for _, logged in events)
    evidence, claim = by_rules(course.claim(0), samples), written(folder, "claim", course.claim(0))
    ends = list[tuple[int, list[str], str]]()
    for covers in (), ("--covers",):
        status, lines = answers.moments(evidence, text, bool(covers))
        ran = run([PROGRAM, "at", claim, capture, "--times", "-", *covers], given=text.encode())
        if ran != (status, "".join(f"{line}\n" for line in lines).encode(), b""):
            return [f"at --times {covers}: {ran} in place of {lines}"]
        ends += [(time, line.split(" ")[-2:], line) for (time, _), line in zip(events, lines, strict=True)]
    return [f"an event at {time} of 1/{FINE} tick: {line}" for time, (earliest, latest), line in ends
            if latest == "empty" or earliest != "hull" and not FINE * int(earliest) <= time <= FINE * int(latest)]


def happened(course: Course, rng: random.Random) -> list[Refutation]:
    """What the clock did in the course at some readings, as refutations with drift."""
    passed = [(second, error // FINE) for second, error in course.clock.at_second.items()
              if course.first <= second <= course.first + course.seconds and error and error % FINE == 0]
    return [{"error": error, "false": course.liars, "reading": second * TICKS}
            for second, error in rng.sample(passed, min(2, len(passed)))]


def try_drift(course: Course, samples: list[Sample], folder: str, capture: str, certificate: Certificate,
              rng: random.Random) -> list[str]:
    """What is wrong with `refute --drift` of what happened, under a bound that it is beyond."""
    wrong = []
    for refutation in happened(course, rng):
        bound_ns = rng.choice((0, max(0, abs(refutation["error"]) - 1) * BILLION // TICKS))
        claim = course.claim(bound_ns)
        file, named = written(folder, "claim", claim), written(folder, "refutation", refutation)
        ran = run([PROGRAM, "refute", file, capture, named, "--drift"])
        if ran != (0, b"refuted yes\n", b"") or not rechecked.stands_with_drift(claim, samples, refutation):
            wrong.append(f"{refutation} happened, and is refused: {ran}")
        if verdict_line(folder, course, capture, bound_ns, certificate) == "yes":
            wrong.append(f"a yes, and {refutation} stands with drift")
    return wrong


def try_stamps(folder: str, rng: random.Random) -> list[str]:
    """What is wrong where requests are stamped early and replies late; and not, with the signs turned."""
    course = StampedCourse(rng)
    course.stamp(1, rng)
    capture = written(folder, "capture", course.capture())
    samples = course.samples()
    certificate, least = certify(course, samples, rng)
    wrong = [*hulls_wrong(course, samples, rng), *try_drift(course, samples, folder, capture, certificate, rng)]
    if least is None or (said := verdict_line(folder, course, capture, least, certificate)) != "yes":
        wrong.append(f"{said if least is not None else 'no bound'}")
    elif course.worst() > FINE * (least * TICKS // BILLION):
        wrong.append(f"an error of {course.worst()} and a yes for a bound of {least}")
    course.stamp(-1, rng)
    course.capture()
    turned = hulls_wrong(course, course.samples(), rng)
    low, high = course.first * TICKS * FINE, (course.first + course.seconds) * TICKS * FINE
    seen = sum(low <= time + error <= high for time, error in course.clock.error.items())
    if not 0 < seen <= len(turned):
        wrong.append(f"with the signs turned, of {seen} errors outside: {turned}")
    return [f"stamps that are early and late: {fault}" for fault in wrong]


def try_course(seed: int) -> tuple[int, int, int, list[str]]:
    """Counts the yeses of one course, those whose error comes near the bound, and what went wrong."""
    rng = random.Random(seed)
    course = Course(rng)
    with tempfile.TemporaryDirectory(prefix="ntpaudit-") as folder:
        capture = written(folder, "capture", course.capture())
        samples = course.samples()
        certificate, least = certify(course, samples, rng)
        bounds = [10**12] if least is None else [least, max(0, least - 1), least + 10**6]
        yeses = near = 0
        wrong = []
        for bound_ns in bounds:
            want = rechecked.verdict(course.claim(bound_ns), samples, certificate)
            said = verdict_line(folder, course, capture, bound_ns, certificate)
            bound = FINE * (bound_ns * TICKS // BILLION)
            if said != want:
                wrong.append(f"{said} in place of {want}")
            if said == "yes":
                yeses += 1
                near += bound > 0 and 100 * course.worst() >= 99 * bound
                if course.worst() > bound:
                    wrong.append(f"an error of {course.worst()} and a yes for a bound of {bound}")
        wrong += answers_wrong(course, samples, folder, capture, bounds[:2])
        wrong += hulls_wrong(course, samples, rng)
        wrong += events_wrong(course, samples, folder, capture, rng)
        wrong += try_drift(course, samples, folder, capture, certificate, rng)
        wrong += try_stamps(folder, rng)
    return yeses, near, len(course.clock.at_second), wrong


PROGRAM = program()


def test_seed(seed: int) -> tuple[int, int, int]:
    *counts, wrong = try_course(seed)
    assert not wrong, wrong
    return counts[0], counts[1], counts[2]


def cases() -> Iterator[tuple[str, Callable[[], tuple[int, int, int]]]]:
    for seed in range(COURSES):
        yield f"system.courses.{seed}", partial(test_seed, seed)


def together(counts: list[tuple[int, int, int]]) -> None:
    """There are enough yeses, bounds that are come near, and moments to say anything."""
    yeses, near, seconds = map(sum, zip(*counts))
    print(f"{yeses} yeses, {near} of them with an error within 1% of the bound; {seconds} whole seconds passed")
    assert yeses >= COURSES and near >= COURSES // 4 and seconds >= COURSES
