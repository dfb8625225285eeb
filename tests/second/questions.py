"""What commands answer about a claim and a capture, held to the second reading. A question is a claim on a capture. Of
each there are cases: what was tried, and what is wrong with it.
"""
import json
import random
from collections.abc import Callable, Iterator
from functools import cached_property
from pathlib import Path
from typing import NamedTuple

from tests.support import Ran, run, short
from tests.second import answers, by_covers, marks, pieces, rechecked, rules, settlement
from tests.second.answers import Evidence
from tests.second.claims import ByCovers, Claim, Piece, Refutation, changed
from tests.second.columns import TICKS, counted
from tests.second.commands import plain_commands
from tests.second.marks import Conflicts
from tests.second.pieces import Hulls, Pieces, Stop
from tests.second.rules import Sample
from tests.tools import families, scenes

SOME = 3000
"""As many pieces are made by the reading where not all of them have to be."""

LOOKED_AT = 300_000
"""Pieces times samples that the reading looks at one by one, to name the best ones."""

WAIT = 20
"""How many times its limit a call may take by the clock, where others have the processor."""

MANY = 1000
"""Of claims that differ in nothing but bound and false_max `envelope` and `find` are asked once, if they make more
pieces: those of a century's span make 36,525."""

COVERS = 8
"""As many covers are tried where no refutation was found; tests/system/test_covers.py tries every one."""

FAST_REFUTATION = 200

OVER = f"ntpaudit: {settlement.OVER}\n".encode()

Case = tuple[str, str]
"""What was tried, and what is wrong with it: nothing where that's an empty text."""

Asks = Callable[["Question"], Iterator[Case]]


def kind_of(ran: Ran) -> str:
    if ran == (2, b"", OVER):
        return "over"
    kind = settlement.kind_of(ran[1])
    return kind if kind in settlement.KINDS.values() else f"{kind}: {short(ran)}"


def text_of(lines: list[str]) -> bytes:
    return "\n".join([*lines, ""]).encode()


def differs(ran: Ran, status: int, lines: list[str], error: bytes = b"") -> str:
    """What is wrong with a run that has to end with this status and these lines."""
    wanted = status, text_of(lines), error
    return "" if ran == wanted else f"{short(ran)}, wanted {short(wanted)}"


# ---- a claim and its capture
class Way(NamedTuple):
    """How questions on a capture are asked: of which program, in which folder (with the capture in capture.pcap), how
    many seconds of the processor a call may take, and whether the reading makes all pieces, where there are many; and
    the pieces that it has made, by the claim without its bound, and the claims without bound and false_max of which
    something was asked."""
    program: str
    folder: Path
    limit: int
    is_whole: bool
    made: dict[str, Pieces]
    asked: set[str]


class Question:
    """A claim on a capture, and what the reading says of it."""

    def __init__(self, name: str, claim: Claim, samples: list[Sample], records: list[tuple[int, int]],
                 conflicts: Conflicts, way: Way) -> None:
        self.name, self.claim, self.samples, self.records, self.conflicts = name, claim, samples, records, conflicts
        self.way, folder = way, way.folder
        self.file, self.capture = folder / "claim.json", folder / "capture.pcap"
        self.file.write_text(json.dumps(claim))
        self.called: set[str] = set()
        seconds = (self.span[1] - self.span[0]) // TICKS
        self.step = min(86_400, max(1, seconds // 24))

    @property
    def span(self) -> tuple[int, int]:
        return rules.span_of(self.claim)

    @cached_property
    def pieces(self) -> Pieces:
        but_bound = json.dumps(changed(self.claim, bound_ns=0))
        if but_bound not in self.way.made:
            self.way.made[but_bound] = Pieces(self.claim, self.samples)
        return self.way.made[but_bound]

    @cached_property
    def is_asked_enough(self) -> bool:
        """Whether the pieces are many, and were asked for by a claim like this."""
        but_hulls = json.dumps(changed(self.claim, bound_ns=0, false_max=0))
        is_asked = but_hulls in self.way.asked
        self.way.asked.add(but_hulls)
        return is_asked and self.span[1] - self.span[0] > MANY * self.step * TICKS

    @property
    def hulls(self) -> Hulls:
        return self.pieces.hulls

    @cached_property
    def evidence(self) -> Evidence:
        """What tests/second/answers.py reads."""
        known = len(self.samples)
        counts = counted(records=2 * known, requests=known, replies=known, samples=known)
        return Evidence(self.claim, self.samples, self.records, counts, self.hulls, {})

    @cached_property
    def covers(self) -> list[set[int]]:
        return marks.smallest_covers(self.claim, self.conflicts)

    def call(self, command: str, *words: object, claim: Path | None = None, given: bytes = b"") -> Ran:
        """Runs a command on the claim and the capture, with a limit of the processor's time."""
        limit = self.way.limit
        options = [str(word) for word in words if str(word).startswith("--") and word != "--step"]
        self.called.add(" ".join((command, *options)))
        return run(["sh", "-c", f'ulimit -t {limit}; exec "$0" "$@"', self.way.program, command, claim or self.file,
                    self.capture, *words], given, timeout=WAIT * limit)

    def is_looked_at(self, number: int, count: int) -> bool:
        """Whether the reading looks at a piece of so many: at each, or at some all along."""
        return self.way.is_whole or number % max(1, count // SOME) == 0

    def ends(self, bound_ns: int,
             is_needed: Callable[[Stop], bool] = lambda stop: False) -> tuple[list[int], Stop | None]:
        """The ends of the pieces under a bound and where they stop; some thousands, where that is enough."""
        bound = pieces.bound_in_ticks(bound_ns)
        ends, stop = self.pieces.ends(bound, SOME)
        if stop and stop.is_over and (self.way.is_whole or is_needed(stop)):
            return self.pieces.ends(bound)
        return ends, stop


# ---- settle
def settle_case(question: Question) -> Iterator[Case]:
    """`settle`, and `check` or `refute --drift` of what it printed."""
    ran = question.call("settle")
    kind = kind_of(ran)
    yield f"settle: {kind}", settle_wrong(question, ran, kind)
    if kind.startswith("shown"):
        yield "check of what settle printed", unaccepted(question, ran[1])
    if kind == "refuted":
        judged = question.call("refute", "/dev/stdin", "--drift", given=ran[1])
        yield "refute --drift of what settle printed", differs(judged, 0, ["refuted yes"])


def settle_wrong(question: Question, ran: Ran, kind: str) -> str:
    claim, samples = question.claim, question.samples
    if not question.covers:
        lines = settlement.conflict_lines(claim, samples, question.records, question.conflicts)
        return differs(ran, 1, [*lines, "nothing fits"])
    if settlement.is_without_evidence(claim, samples):
        return differs(ran, 1, [settlement.no_evidence_line(claim, samples)])
    if kind == "shown":
        return certificate_wrong(question, claim, ran)
    if kind == "refuted":
        is_right = ran[0] == 1 and ran[2] == b"" and rechecked.stands_with_drift(claim, samples, json.loads(ran[1]))
        return "" if is_right else f"{short(ran)}, which doesn't stand"
    if kind == "shown by covers":
        return covers_wrong(question, ran)
    if kind not in ("open", "over"):
        return kind
    _, stop = question.ends(claim["bound_ns"], lambda _: kind == "open")
    if stop is None:
        return f"{kind}, and there is a certificate"
    wrong = differs(ran, 2, [], OVER) if stop.is_over else differs(ran, 1, [settlement.open_line(stop)])
    return wrong or refutable(question, stop) or carried(question)


def found_by_covers(question: Question) -> ByCovers | None:
    bound = rules.bound_of(question.claim)
    return by_covers.Search(question.claim, question.samples, question.conflicts).find(bound).certificate


def carried(question: Question) -> str:
    """What is wrong where a claim stays open: that the reading has a certificate by covers."""
    is_found = len(question.covers) <= COVERS and found_by_covers(question)
    return f"it isn't shown, and by {len(question.covers)} covers it is" if is_found else ""


def covers_wrong(question: Question, ran: Ran) -> str:
    """What is wrong with a certificate by covers: that one of pieces would do, or that the reading's has other
    conflicts, groups or ends; of several exchanges that say the same either may stand."""
    found, wanted = json.loads(ran[1]), found_by_covers(question)
    if ran[0] or ran[2] or question.ends(question.claim["bound_ns"])[1] is None:
        return f"{short(ran)}, and a certificate of pieces would do"
    of_it, of_reading = ([form["conflicts"], *sorted([case["groups"], [piece["upto"] for piece in case["pieces"]]]
                                                     for case in form["cases"])]
                         for form in (found, wanted or {"conflicts": [], "cases": []}))
    return "" if of_it == of_reading else f"{of_it} by covers, and not {of_reading}"


def refutable(question: Question, stop: Stop) -> str:
    """What is wrong where no refutation was found: that the reading has one."""
    if len(question.covers) > settlement.COVERS:
        return ""                              # (which of them are tried, nobody says)
    claim, samples = question.claim, question.samples
    found = settlement.refutation(claim, samples, question.covers[:COVERS], stop) or settlement.refutation_by_covers(
        claim, samples, by_covers.Search(claim, samples, question.conflicts))
    return f"it isn't refuted, and there is {found}" if found else ""


def certificate_wrong(question: Question, claim: Claim, ran: Ran) -> str:
    """What is wrong with a certificate of fewest pieces: each lies inside the bound, and with one more tick doesn't."""
    begin, last = question.span
    bound, printed = rules.bound_of(claim), json.loads(ran[1])["pieces"]
    if ran[0] or ran[2] or not 0 < len(printed) <= pieces.MAX_PIECES or printed[-1]["upto"] != last:
        return f"{short(ran)}, which doesn't reach to {last}"
    for number, piece in enumerate(printed):
        end = piece["upto"]
        if not begin < end <= last and not begin == end == last:
            return f"piece {number} ends at {end}"
        if question.is_looked_at(number, len(printed)):
            if not rules.is_inside(bound, question.hulls.over(begin, end)):
                return f"piece {number} isn't inside the bound"
            if end < last and rules.is_inside(bound, question.hulls.over(begin, end + 1)):
                return f"piece {number} may be longer"
        begin = end
    is_compact = ran[1] == text_of([rules.compact({"pieces": printed})])
    return named_wrong(question, printed) if is_compact else "another spelling of a certificate"


def named_wrong(question: Question, printed: list[Piece]) -> str:
    """What is wrong with the samples that a certificate names. Of each piece they have the best ends, and where it
    isn't too much to look at, and in three pieces always, they are the first that have."""
    claim, samples = question.claim, question.samples
    begins = [question.span[0], *(piece["upto"] for piece in printed)]
    is_little = len(printed) * len(samples) <= LOOKED_AT
    for number, (begin, piece) in enumerate(zip(begins, printed)):
        entries, end = piece["entries"], piece["upto"]
        if is_little or number in (0, len(printed) // 2, len(printed) - 1):
            if entries != rules.best_entries(claim, samples, begin, end):
                return f"piece {number} names other samples"
        elif (question.is_looked_at(number, len(printed))
              and rules.intervals(claim, samples, entries, begin, end) != question.hulls.intervals(begin, end)):
            return f"piece {number} names samples with other ends"
    return ""


def unaccepted(question: Question, certificate: bytes) -> str:
    """What `check` says of a certificate, if that isn't yes."""
    status, report, _ = question.call("check", "/dev/stdin", given=certificate)
    return "" if (status, report[-12:]) == (0, b"verdict yes\n") else short((status, report))


# ---- envelope
def envelope_case(question: Question) -> Iterator[Case]:
    """`envelope` with each of its options. The line of the least bound is looked at by itself, once a bound."""
    known = dict[tuple[object, ...], tuple[int, list[str]]]()
    for command in plain_commands():
        if command.name != "envelope" or question.is_asked_enough:
            continue
        words = "--step", question.step, *command.options
        if (has_least := "--least" in words) and question.pieces.judged:
            continue
        ran, line = question.call("envelope", *words), ""
        if has_least:
            *rest, line = ran[1].decode().splitlines() or [""]
            ran = ran[0], text_of(rest), ran[2]
        if (shown := tuple(word for word in words if word != "--least")) not in known:
            known[shown] = answers.envelope(question.evidence, *shown)
        yield command.title, differs(ran, *known[shown]) or (least_wrong(question, line) if has_least else "")


def least_wrong(question: Question, line: str) -> str:
    """What is wrong with the line of the least bound."""
    question.pieces.judged = True
    words = line.split()
    if words[:1] != ["least_ns"] or len(words) not in (2, 4):
        return f"the line {line!r}"
    told = answers.told_least(line)
    if told is None:
        return "" if question.ends(pieces.MAX_BOUND_NS)[1] else "none, and the greatest bound has a certificate"
    bound_ns, piece = told
    if not 0 <= bound_ns <= pieces.MAX_BOUND_NS:
        return f"{line}, which isn't lawful"
    return carried_wrong(question, bound_ns) or below_wrong(question, bound_ns, piece)


def carried_wrong(question: Question, bound_ns: int) -> str:
    """What is wrong with the certificate at the least bound. Where it has too many pieces for the reading to make, and
    some course fits, the program's own is held to it piece by piece."""
    _, stop = question.ends(bound_ns)
    if stop is None:
        return ""
    is_unknown = stop.is_over and not question.way.is_whole
    if not is_unknown:
        return f"least_ns {bound_ns}, and the pieces stop at {stop}"
    if not question.covers:
        return ""
    claim = changed(question.claim, bound_ns=bound_ns)
    file = question.way.folder / "least.json"
    file.write_text(json.dumps(claim))
    ran = question.call("settle", claim=file)
    if kind_of(ran) != "shown":
        return f"settle at the least bound {bound_ns}: {short(ran)}"
    return certificate_wrong(question, claim, ran)


def below_wrong(question: Question, bound_ns: int, piece: int) -> str:
    """What is wrong one nanosecond below the least bound, and with the piece that is told."""
    if bound_ns == 0:
        return "" if piece == 0 else f"piece {piece} of a least bound of 0"
    _, stop = question.ends(bound_ns - 1)
    if stop is None:
        return f"least_ns {bound_ns}, and a nanosecond less has a certificate"
    first = (stop.begin - question.span[0]) // (question.step * TICKS)
    if stop.is_over and not question.way.is_whole:
        return "" if piece >= first else f"piece {piece}, before {stop}"
    return "" if piece == first else f"piece {piece}, and the pieces stop in piece {first}, at {stop.begin}"


# ---- the other commands
def find_case(question: Question, step: int | None = None) -> Iterator[Case]:
    """`find`, and `check` of what it found."""
    if question.is_asked_enough:
        return
    step = step or question.step
    ran, line = question.call("find", "--step", step), answers.failing(question.evidence, step)
    if line:
        yield "find", differs(ran, 1, [line])
        return
    printed = json.loads(ran[1])["pieces"] if kind_of(ran) == "shown" else []
    ends = [end for _, end in rules.pieces_of(question.claim, step)]
    is_right = ran[0] == 0 and [piece["upto"] for piece in printed] == ends
    yield "find", named_wrong(question, printed) if is_right else short(ran)
    yield "check of what find printed", unaccepted(question, ran[1])


def at_case(question: Question) -> Iterator[Case]:
    """`at` of the first and the last moment, one between them, some before and behind, and of readings."""
    begin, last = (place // TICKS for place in question.span)
    far = max(0, begin - 300 * 86_400), max(0, begin - 1), min(last + 5 * 3600, 2**32 - 1)
    moments = map(families.spelled, sorted({begin, (begin + last) // 2, last, *far}))
    second = min(begin, 2**32 - 2)
    readings = f"{second}", f"{second}.25", f"{families.spelled(second)[:-1]}.123456789Z"
    for time in (*moments, *readings):
        for words in (time,), (time, "--covers"):
            yield f"at {words}", differs(question.call("at", *words), *answers.at(question.evidence, *words))
    times = "".join(f"{reading}\n" for reading in scenes.readings(random.Random(str(question.span)), question.claim))
    for covers in (), ("--covers",):
        ran = question.call("at", "--times", "-", *covers, given=times.encode())
        wanted = answers.moments(question.evidence, times, bool(covers))
        yield f"at --times {covers} of {times.split()}", differs(ran, *wanted)
    yield from order_case(question, times.split())


def order_case(question: Question, times: list[str]) -> Iterator[Case]:
    """`order` of readings of one clock, and of two that say the same."""
    twin = question.file.with_name("twin.json")
    twin.write_bytes(question.file.read_bytes())
    for other, second in (question.file, question.evidence), (twin, question.evidence._replace()):
        for first, last in zip(times, times[1:]):
            ran = question.call("order", first, other, question.capture, last)
            yield f"order {first} {last}", differs(ran, *answers.order(question.evidence, second, first, last))


def plain_case(question: Question) -> Iterator[Case]:
    """Each command of which nothing else has to be known than its second reading."""
    for command in plain_commands():
        if command.name in set(answers.READINGS) - {"settle", "envelope", "find", "at"}:
            wanted = answers.READINGS[command.name](question.evidence, *command.words)
            yield command.title, differs(question.call(command.name, *command.words), *wanted)


def refute_case(question: Question) -> Iterator[Case]:
    """`refute` of the greatest error that all servers but a cover's let be, and of a tick more; `find --refutation`."""
    claim, samples = question.claim, question.samples
    if question.covers:
        reading, named = sum(question.span) // 2, settlement.servers_of(claim, question.covers[0])
        greatest = marks.greatest_error(claim, samples, named, reading)
        for error in (greatest, greatest + 1) if greatest is not None and abs(greatest) < 2**62 else ():
            tried: Refutation = {"error": error, "false": named, "reading": reading}
            for words, is_right in ((("--drift",), rechecked.stands_with_drift(claim, samples, tried)),
                                    ((), rechecked.stands(claim, samples, tried))):
                ran = question.call("refute", "/dev/stdin", *words, given=json.dumps(tried).encode())
                wanted = ["refuted yes" if is_right else "refuted no"]
                yield f"refute {' '.join(words)} of {tried}", differs(ran, int(not is_right), wanted)
    yield "find --refutation", sought_wrong(question, question.call("find", "--refutation"))


def sought_wrong(question: Question, ran: Ran) -> str:
    """What is wrong with what `find --refutation` finds. Of many samples only what is next to the bound is made here,
    and what lies beyond has to stand."""
    claim, samples = question.claim, question.samples
    over = rules.bound_of(claim) + 1
    liars = rules.liars(samples, over)
    found: Refutation | None
    if rules.group_count(claim, liars) <= claim["false_max"]:
        found = {"error": over, "false": liars, "reading": question.span[0]}
    elif len(samples) <= FAST_REFUTATION:
        found = rules.refutation(claim, samples)
    else:
        found = None if ran[0] else json.loads(ran[1])
        if found and not rechecked.stands(claim, samples, found):
            return f"{found}, which doesn't stand"
    return differs(ran, int(not found), [rules.compact(found) if found else "nothing refutation"])


CASES: tuple[Asks, ...] = settle_case, envelope_case, find_case, at_case, plain_case, refute_case
