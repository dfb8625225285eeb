"""What conflicts are about, where nothing fits: when, by how much, and which servers agree with which."""
from itertools import groupby
from operator import itemgetter

from ..capture.classic import Classic, Extent
from ..capture.recording import closing_of
from ..folder.answers import Envelope
from ..folder.entry import Camp, Conflict
from ..folder.program import Program
from .breaks import Pair


def read_shown(program: Program, claim: str, capture: str, extent: Extent | None,
               conflicts: list[Pair]) -> list[Conflict]:
    """Conflicts that `settle` names, each once, with what `samples` says of their exchanges."""
    asked = {(server, request) for server, request, _, _ in conflicts}
    answered = {(server, reply) for _, _, server, reply in conflicts}
    least, most = dict[tuple[str, int], int](), dict[tuple[str, int], int]()

    def take(block: bytes) -> None:
        for line in block[:closing_of(block)].decode("ascii").splitlines():
            fields = line.split(" ")
            request, reply = ((fields[1], int(record)) for record in fields[2:4])
            if request in asked:
                least[request] = max(int(fields[11]), least.get(request, int(fields[11])))
            if reply in answered:
                most[reply] = int(fields[13])
    program.blocks(take, "samples", claim, capture)
    whole = Classic(capture, extent)

    def at(record: int) -> int:
        return whole.nanoseconds([whole.extent.stamps[record]])[0]
    return [Conflict(low, request, at(request), least[low, request], high, reply, at(reply), most[high, reply])
            for low, request, high, reply in dict.fromkeys(conflicts)
            if (low, request) in least and (high, reply) in most]  # (in a part a reply may be of use that isn't in all)


LONG = 60
"""Seconds, and a quarter of a span, for which camps have to stay as they are."""


def camps_of(envelope: Envelope) -> list[Camp]:
    """The camps into which servers fall for longest without a change, where the hull is empty; none if it isn't for
    long: for a moment they differ where the clock moves."""
    runs, best = groupby(range(len(envelope.hulls)), lambda k: camps_at(envelope, k)), list[Camp]()
    longest = max(LONG, (envelope.ends[-1] - envelope.begins[0]) // 4)
    for camps, run in runs:
        own = list(run)
        if len(camps) > 1 and envelope.ends[own[-1]] - envelope.begins[own[0]] > longest:
            longest = envelope.ends[own[-1]] - envelope.begins[own[0]]
            best = [Camp(list(camp), min(envelope.servers[server][0][k] for server in camp for k in own),
                         max(envelope.servers[server][1][k] for server in camp for k in own),
                         envelope.begins[own[0]], envelope.ends[own[-1]]) for camp in camps]
    return best


def camps_at(envelope: Envelope, k: int) -> tuple[tuple[str, ...], ...]:
    """The servers whose intervals meet one another in a piece; none if it has a hull."""
    if envelope.hulls[k] != "empty":
        return ()
    ends = sorted(((lows[k], highs[k], server) for server, (lows, highs) in envelope.servers.items()
                   if lows[k] <= highs[k]), key=itemgetter(0, 1))
    camps, end = list[list[str]](), 0
    for low, high, server in ends:
        if camps and low <= end:
            camps[-1].append(server)
        else:
            camps.append([server])
        end = max(end, high) if len(camps[-1]) > 1 else high
    return tuple(sorted(tuple(sorted(camp)) for camp in camps))
