"""Which servers are heard in the last minutes, and how far each is off."""
from bisect import bisect_right
from collections.abc import Iterable
from itertools import accumulate, pairwise
from operator import sub
from statistics import median

from ..capture.classic import Classic
from ..capture.recording import closing_of
from ..folder.answers import Envelope, in_era
from ..folder.claim import Claim
from ..folder.entry import Hull, side_of
from ..folder.files import CLAIM
from ..folder.program import Program
from ..folder.result import Heard
from ..units import SECOND, TICKS, bound_ticks

TWO = 2
"""Samples that have to miss the hull: one alone may be the first behind a step."""
SILENT, POLLS = 60, 2.5
"""Seconds without a sample after which a server is silent, and so many times as long as from one to the next."""

Sample = tuple[int, int, int, int]
"""When it was asked for and answered, in Unix nanoseconds, and the least and the most error by it, in ticks."""


class Hearing:
    """The samples of each server of a claim, which stands there as claim.json, in a capture."""

    def __init__(self, program: Program, claim: Claim, whole: Classic, capture: str):
        self.claim, self.whole = claim, whole
        self.leaps = [max(0, (after >> 32) - (before >> 32)) for before, after in pairwise(whole.extent.stamps)]
        """Seconds from each record to the next, but for those by which the clock fell back."""
        self.samples, self.replies, self.requests = dict[str, list[Sample]](), dict[str, list[int]](), dict[str, int]()
        self.errors, self.ahead, self.last = dict[str, int](), dict[int, dict[str, int]](), 0
        program.blocks(self.take, "samples", CLAIM, capture)
        self.steps = {at: min(own.values()) for at, own in self.ahead.items()
                      if len(self.groups(own)) > claim.false_max}
        usual = max((leap - self.steps.get(at, 0) for at, leap in enumerate(self.leaps[: self.last])), default=0)
        most = max(SILENT, 2 * usual)  # (behind the last reply nobody knows a longer leap from a step)
        self.gone = list(accumulate((max(0, leap - self.steps.get(at, leap * (at >= self.last and leap > most)))
                                     for at, leap in enumerate(self.leaps)), initial=0))
        """Of each record the seconds that went by since the first."""
        self.times = {server: [self.gone[reply] for reply in own] for server, own in self.replies.items()}
        own = {server: float(median(map(sub, times[1:], times))) for server, times in self.times.items() if times[1:]}
        self.polls = {server: poll for server, poll in own.items() if poll}
        """Seconds from one sample of a server to its next."""
        polls = sorted(min(map(self.polls.__getitem__, group)) for group in self.groups(self.polls))
        self.poll = polls[min(claim.needed, len(polls)) - 1] if polls else 0.0
        """In which so many groups are asked that a step is seen."""

    def take(self, block: bytes) -> None:
        """Takes lines of `samples`."""
        for line in block[: closing_of(block)].decode("ascii").splitlines():
            fields = line.split(" ")
            request, reply = map(int, fields[2:4])
            asked, answered = self.whole.nanoseconds(self.whole.extent.stamps[at] for at in (request, reply))
            low, high = in_era(asked // SECOND, int(fields[11]), int(fields[13]))
            self.step(fields[1], reply, (low + high) // (2 * TICKS))
            self.requests[fields[1]] = request
            if answered <= self.claim.last * SECOND:
                own = self.samples.setdefault(fields[1], [])
                own.append((asked, answered, low, high))
                del own[:-TWO]

    def groups(self, servers: Iterable[str]) -> list[list[str]]:
        """Of each group those of some servers that it has, if it has any."""
        own = set(servers)
        every = ([self.claim.servers[k] for k in group if self.claim.servers[k] in own] for group in self.claim.grouped)
        return list(filter(None, every))

    def step(self, server: str, reply: int, error: int) -> None:
        """If a server says that the clock is so many seconds further ahead than before, it was stepped in the longest
        time between two records since, if more groups say so than may be wrong; of one of more than a minute behind the
        last reply nobody knows."""
        own = self.replies.setdefault(server, [])
        if own and own[-1] < reply and (ahead := error - self.errors[server]) > 1:
            self.ahead.setdefault(max(range(own[-1], reply), key=self.leaps.__getitem__), {})[server] = ahead
        own.append(reply)
        self.errors[server], self.last = error, max(self.last, reply)

    def is_silent(self, server: str) -> bool:
        """Whether a server wasn't heard for longer than it mostly takes."""
        if server not in self.times:
            return True
        age = self.gone[-1] - self.times[server][-1]
        return age > max(SILENT, POLLS * self.polls.get(server, 0))

    def asked(self, number: int) -> int:
        """The last record since which so many groups were asked and heard; -1 if fewer were at all."""
        last = sorted((max(map(self.requests.__getitem__, own)) for own in self.groups(self.requests)), reverse=True)
        return last[number - 1] if number <= len(last) else -1

    def beyond(self, silent: set[str]) -> tuple[int, int] | None:
        """The error when it was asked last, in ticks, whatever the clock did before, if that is beyond the bound on one
        side by the word of more groups than may be wrong, and no more of those that are heard say otherwise."""
        groups = [[self.samples[server][-1][2:] for server in own]
                  for own in self.groups(server for server in self.samples if server not in silent)]
        bound = bound_ticks(self.claim.bound_ns)
        for side in (-1, 1):
            own = [ends for ends in groups if all(side_of(one, bound) == side for one in ends)]
            if len(own) > self.claim.false_max >= len(groups) - len(own):
                ends = [end for each in own for one in each for end in one]
                return min(ends), max(ends)
        return None

    def heard(self, server: str, envelope: Envelope, is_silent: bool) -> Heard:
        """A server by its last sample, beside the hulls of the minutes; it can't be right if the last two miss them."""
        seen = [self.beside(sample, envelope) for sample in self.samples.get(server, ())]
        if not seen or seen[-1] is None:
            return Heard(server, is_silent)
        return Heard(server, is_silent, seen[-1][0], len(seen) == TWO and all(one and one[1] for one in seen))

    def beside(self, sample: Sample, envelope: Envelope) -> tuple[tuple[int, int], bool] | None:
        """By how much a server was off at a sample, in ticks, and whether it misses the hull; None without a hull."""
        asked, answered, low, high = sample
        first, last = self.hull_at(asked, envelope), self.hull_at(answered, envelope)
        if isinstance(first, str) or isinstance(last, str):
            return None
        return (last[0] - high, first[1] - low), low > first[1] or high < last[0]

    def hull_at(self, time: int, envelope: Envelope) -> Hull:
        at = bisect_right(envelope.begins, time // SECOND) - 1
        return envelope.hulls[at] if at >= 0 else "unbounded"
