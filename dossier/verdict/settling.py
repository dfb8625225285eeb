"""How one claim is settled: the program's calls, in order, and the files that they leave in the current folder."""
from collections.abc import Callable
from contextlib import suppress
from itertools import chain

from ..capture.captures import AuditedCapture, cut
from ..capture.classic import HEADER, Classic, records_in, write
from ..capture.recording import Recording, read_recording
from ..capture.traffic import read_traffic
from ..capture.twice import ONCE, repeated, without
from ..fault import MISSING, Fault, fault
from ..folder import files
from ..folder.answers import read_caught, read_counts, read_envelope, read_settled
from ..folder.claim import MAX_BOUND, Part
from ..folder.entry import NO_EVIDENCE, NOTHING_FITS, REFUTED, YES, Entry, Gap, Move, Silence
from ..folder.files import sum_of, sum_of_file
from ..folder.placing import keep, make_private, move
from ..folder.program import Program
from ..records import replace
from .apart import SEVERAL, Apart, outermost, seen_apart, wrong_in
from .breaks import ANY, SOME
from .gaps import gaps_of, inner_gaps, longest_of, told_of
from .judgement import Beside, Texts, judge, more_drift
from .parts import ALONE, Parting, at_leaps, in_parts, split
from .seen import read_shown

MAX_LINES = 1_000_000
"""Of an envelope: a line for each piece and for each server in it."""
NEAR, AROUND = "near.pcap", "around.pcap"
"""Private files: what was recorded in the span and near it; and with that what is next to it."""
MAX_ADDED = 3
"""Groups, more than the claim grants, that are taken for wrong where nothing fits."""
MANY_PIECES = 10_000
"""The envelope has pieces of 1, 4, 16, .. s, the least with which it has no more than these."""


class Settling:
    """A claim that is being settled by a capture, the sums of the files that its verdict is about, and of those that
    were left so far. The envelope has pieces of the step that is asked for, if one is. A refutation that was found
    earlier is taken in place of another one, if the program accepts it."""

    def __init__(self, part: Part, whole: AuditedCapture, program: Program, step: int | None, sums: dict[str, str],
                 earlier: bytes = b""):
        self.part, self.capture, self.program, self.earlier = part, whole.path, program, earlier
        self.extent = whole.extent
        self.claim = part.within(files.CLAIM)
        self.step = step or envelope_step_of(part)
        size = ((part.claim.last - part.claim.first) // self.step + 1) * (len(part.claim.servers) + 1)
        if size > MAX_LINES:
            raise fault(f"the envelope has {size:,} lines, and a folder may have {MAX_LINES:,}: --step makes fewer")
        self.sums = dict(sums)
        self.left: dict[str, str] = {}

    def settle(self, beside: Beside, cut_to: Callable[[str], bool], around_to: Callable[[str], bool]) -> Entry:
        """Makes all calls and leaves all files, by what was recorded in the span and beside it; or if that breaks, by
        the one stretch of it that can have shown the span."""
        if self.part.name != ".":
            make_private(self.part.name)
            self.keep(files.CLAIM, self.part.claim.text)
        own = self.part.within(files.JOINED)
        self.take_near(cut_to, own)
        texts = self.decide()
        leaps = [end for end, _ in beside.leaps.seconds]
        if parting := self.broken(texts, around_to, leaps):
            texts = self.by_parts(parting, texts, own)
        recording = read_recording(self.program, self.claim, self.capture, self.extent)
        if read_settled(texts.settled).answer == NO_EVIDENCE or do_many_miss(recording, len(self.part.claim.servers)):
            with suppress(Fault):  # (too many ask in it)
                texts = texts._replace(traffic=read_traffic(self.program, self.capture))
        words = ("envelope", self.claim, self.capture, "--servers", "--least", "--step", str(self.step))
        envelope = read_envelope(self.keep(files.ENVELOPE, self.call(*words)))
        gaps = told_of(gaps_of(self.part.claim, recording), texts.elsewhere)
        texts = texts._replace(envelope=envelope, silent=self.silent(
            texts.gaps if texts.moves and texts.gaps is not None else
            [(gap, self.capture) for gap in {*longest_of(gaps), *longest_of(inner_gaps(recording, gaps))}]))
        is_fitted, gaps = read_settled(texts.settled).answer != NOTHING_FITS, gaps_of(self.part.claim, recording)
        if is_fitted:
            claim, hull = self.part.claim, outermost(envelope.hulls)
            doubts = at_leaps(leaps, claim.first, claim.last, recording.times, lambda _: hull) \
                if read_settled(texts.settled).answer == REFUTED else ()
            texts = texts._replace(parts=split(envelope, sorted([*gaps, *doubts]), claim))
        if is_fitted or texts.spared and not texts.moves:
            apart = self.seen_apart(texts, gaps)
            if read_settled(texts.settled).by_covers:
                texts = texts._replace(conflicts=read_shown(self.program, self.claim, self.capture, self.extent,
                                                            read_caught(texts.report)))
            texts = texts._replace(apart=apart if are_steps(texts.moves) else apart._replace(wrong=[], some=[]))
        return judge(self.part, recording, beside, texts, self.step, self.left)

    def by_parts(self, parting: Parting, texts: Texts, own: str) -> Texts:
        """What comes of a capture that breaks: the answer of the stretch that has shown the span, or none."""
        if side := parting.shown_by():
            cut_to, = cut(side.path, [self.part], None)
            self.take(side.path, own)
            self.take_near(cut_to, own)
            return self.decide()._replace(moves=parting.moves, elsewhere=parting.beside(side))
        if parting.moves and read_settled(texts.settled).answer != NOTHING_FITS:
            self.take(AROUND, own)
            texts = self.decide()
        if read_settled(texts.settled).answer != NOTHING_FITS:
            return texts
        search = parting.search
        spared, parting = (0, parting) if parting.moves else self.spared(parting)
        parted = in_parts(self.program, parting, self.step)
        if parted.texts:
            self.keep(files.PARTS, b"".join(parted.texts))
        more = search.told() if not parting.moves and search.whole.path == self.capture else []
        shown = read_shown(self.program, self.claim, self.capture, self.extent,
                           read_settled(texts.settled).conflicts + more)
        return texts._replace(moves=parting.moves, parts=parted.parts, conflicts=shown, spared=spared, gaps=parted.gaps,
                              apart=Apart([], parted.apart, *wrong_in(self.program, parting.claim, [
                                  side.path for side in parting.sides
                                  if parting.moves and are_steps(parting.moves) and not spared])))

    def spared(self, parting: Parting) -> tuple[int, Parting]:
        """With how many wrong groups, fewer than half, a course of events fits, or it is known how the clock moved, and
        where it breaks then; 0 if with none."""
        claim = self.part.claim
        for most in range(claim.false_max + 1, min(claim.false_max + MAX_ADDED, (len(claim.grouped) - 1) // 2) + 1):
            more = replace(claim, false_max=most)
            other = Parting(self.program, more, self.capture, self.extent, parting.leaps, True)
            if other.moves or not other.search.left:
                return most, other
        return 0, parting

    def seen_apart(self, texts: Texts, gaps: list[Gap]) -> Apart:
        """Which servers stand apart, of as many as may be wrong, or have to be."""
        claim, envelope = self.part.claim, texts.envelope
        if texts.spared:
            claim = replace(claim, false_max=texts.spared)
            keep(ALONE, claim.text)
            envelope = read_envelope(self.call("envelope", ALONE, self.capture, "--servers", "--step", str(self.step)))
        least = SEVERAL if texts.spared else 0
        return seen_apart(self.program, claim, self.capture, self.extent, envelope, gaps, least)

    def broken(self, texts: Texts, around_to: Callable[[str], bool], leaps: list[int]) -> Parting | None:
        """Where the capture breaks, with what was recorded next to it, if no course of events fits that."""
        capture, extent = (AROUND, None) if around_to(AROUND) else (self.capture, self.extent)
        keep(ANY, replace(self.part.claim, bound_ns=MAX_BOUND).text)
        is_broken = read_settled(texts.settled if capture == self.capture else self.call("settle", ANY, capture)
                                 ).answer == NOTHING_FITS
        return Parting(self.program, self.part.claim, capture, extent, leaps) if is_broken else None

    def silent(self, gaps: list[tuple[Gap, str]]) -> dict[Gap, Silence]:
        """What was recorded in gaps, of this client: with times in them, or between the replies at their ends, if none
        between is of use."""
        silences = dict[Gap, Silence]()
        for gap, capture in sorted(gaps):
            whole = Classic(capture, self.extent if capture == self.capture else None)
            for is_between in (True, False):
                write(SOME, chain([whole.data[:HEADER]], records_in(whole, gap, is_between)))
                some = Classic(SOME)
                write(ONCE, without(some, repeated(self.program, some)))
                counts = read_counts(self.call("samples", self.claim, ONCE).splitlines()[-1].decode("ascii"))
                silences[gap] = Silence(*gap, counts["requests"], counts["replies"])
                if not counts["samples"]:
                    break
        return silences

    def take_near(self, cut_to: Callable[[str], bool], own: str) -> None:
        """Takes what was recorded in the span and near it. Of a claim that isn't a day's all stays if no server is
        heard in that: then it is told when else packets were recorded."""
        if cut_to(NEAR) and (self.part.name != "." or self.is_heard(NEAR)):
            self.take(NEAR, own)

    def is_heard(self, capture: str) -> bool:
        settled = read_settled(self.call("settle", self.claim, capture))
        return settled.answer != NO_EVIDENCE or settled.heard > 0

    def take(self, capture: str, own: str) -> None:
        """Takes another capture as that of the part, and leaves it, with what comes of it alone."""
        if capture != own:
            move(capture, own)
        self.capture, self.extent, self.sums[own] = own, None, sum_of_file(own)
        self.left = {name: sum_ for name, sum_ in self.left.items() if name in (self.claim, files.JOINED)}
        self.left[own] = self.sums[own]

    def keep(self, name: str, data: bytes) -> bytes:
        """Leaves a file of this part, notes its sum, and gives its bytes again."""
        path = self.part.within(name)
        keep(path, data)
        self.sums[path] = self.left[path] = sum_of(data)
        return data

    def call(self, *words: str) -> bytes:
        return self.program.run(*words).text

    def judged(self, *words: str) -> bytes:
        """What a checker says of three files, which are held to their sums."""
        return self.program.run(*words, sums={word: self.sums[word] for word in words[1:4]}).text

    def confirmed(self, ending: bytes, *words: str) -> bytes:
        """What a checker says of an answer of `settle`, which it has to accept."""
        said = self.judged(*words)
        if not said.endswith(ending):
            raise fault(f"{words[0]} doesn't accept what settle gave", MISSING)
        return said

    def decide(self) -> Texts:
        """What `settle` says, and what the checkers say about it. At a yes the same claim with the bound 0 is settled
        too, and where nothing fits the same claim with more drift: with any bound, since that is ignored."""
        text = self.call("settle", self.claim, self.capture)
        answer = read_settled(text).answer
        if answer == YES:
            self.keep(files.CERTIFICATE, text)
            words = ("check", self.claim, self.capture, self.part.within(files.CERTIFICATE))
            said = self.confirmed(b"\nverdict yes\n", *words)
            other = self.settled(files.CLAIM_OF_0, bound_ns=0)
            if read_settled(other).answer == REFUTED:
                other = self.contest(files.CLAIM_OF_0, other)
            return Texts(text, self.keep(files.REPORT, said), other)
        if answer == REFUTED:
            text = self.contest(files.CLAIM, text)
            said = self.confirmed(b"refuted yes\n", *self.contested(files.CLAIM))
            return Texts(text, self.keep(files.REPORT, said))
        texts = Texts(text, self.keep(files.REPORT, text))
        if answer == NOTHING_FITS:
            granted = {"drift_ppb": more_drift(self.part.claim), "bound_ns": MAX_BOUND}
            return texts._replace(other=self.settled(files.CLAIM_OF_DRIFT, **granted))
        return texts

    def settled(self, name: str, **changes: int) -> bytes:
        """What `settle` says of the claim with some numbers changed, which is left under this name."""
        self.keep(name, replace(self.part.claim, **changes).text)
        return self.call("settle", self.part.within(name), self.capture)

    def contested(self, name: str) -> tuple[str, ...]:
        """The call by which a refutation of the claim of this name is judged."""
        return "refute", self.part.within(name), self.capture, self.part.within(files.REFUTATION), "--drift"

    def contest(self, name: str, text: bytes) -> bytes:
        """Leaves a refutation of the claim of this name: an earlier one, if it is another and the program accepts
        it; but none with a blank before it, which `settle` never writes: it wouldn't be read as a refutation."""
        if self.earlier.startswith(b"{") and self.earlier != text:
            self.keep(files.REFUTATION, self.earlier)
            with suppress(Fault):
                if self.judged(*self.contested(name)).endswith(b"refuted yes\n"):
                    return self.earlier
        return self.keep(files.REFUTATION, text)


def are_steps(moves: list[Move]) -> bool:
    """Whether no move may be movement, some of which may lie in a stretch, where it would look like a wrong server."""
    return all(move.is_step for move in moves)


def do_many_miss(recording: Recording, servers: int) -> bool:
    """Whether so many replies have no request that they may be most of one server's."""
    return 2 * servers * recording.counts.get("norequest", 0) > recording.counts.get("replies", 0)


def envelope_step_of(part: Part) -> int:
    """The seconds of the envelope's pieces, if none are asked for."""
    span = part.claim.last - part.claim.first
    return next((4**k for k in range(8) if span <= 4**k * MANY_PIECES), 4**8)
