"""Claims that are refuted at one place alone: `settle` finds the refutation that an independent reading finds."""
import json
import tempfile
from pathlib import Path

from tests.support import check, program, run
from tests.second import marks, pieces, rechecked, settlement
from tests.second.claims import Claim
from tests.second.settlement import kind_of
from tests.tools import families

PROGRAM = program()


def of_two_covers() -> tuple[families.Exchanges, Claim]:
    """A server is apart from another one by some 20 ms, and a third agrees with both: with the second one false the
    clock is up to 90,000,000 ticks ahead, with the first one false hardly at all. Nothing drifts."""
    setting = families.Setting(servers=3, false_max=1, ppb=0, seconds=10)
    ends = [(80_000_000, 90_000_000), (-4_000_000, 4_000_000), (-100_000_000, 100_000_000)]
    rows = [(server, at := (families.BEGIN + 1 + server) * 10**9, at + 10**8, *end) for server, end in enumerate(ends)]
    return families.Exchanges(rows), setting.claim(10**7)


def of_two_readings() -> tuple[families.Exchanges, Claim]:
    """Two exchanges 100 s apart and a drift of a tenth: 10 s after the first, certificates allow a ninth of that for
    the drift, but the error rises by at most an eleventh. So the pieces stop at once, and no course goes beyond the
    bound there; it does 40 s later."""
    setting = families.Setting(servers=1, false_max=0, ppb=10**8, seconds=40, begin=families.BEGIN + 10)
    rows = [(0, at := (families.BEGIN + later) * 10**9, at + families.WAY_NS, 644_245_094, 687_194_767)
            for later in (0, 100)]
    return families.Exchanges(rows), setting.claim(1_100_000_000)


def try_lone_place(exchanges: families.Exchanges, claim: Claim) -> None:
    """A claim whose refutation is the greatest error above zero with the last cover, and that isn't refuted with the
    first one at the tick at which the pieces stop."""
    samples = exchanges.samples(claim)
    covers = marks.smallest_covers(claim, marks.contradictions(claim, samples))
    _, stop = pieces.fewest(claim, samples)
    with tempfile.TemporaryDirectory(prefix="ntpaudit-") as place:
        file, capture = Path(place) / "claim.json", Path(place) / "capture.pcap"
        file.write_text(json.dumps(claim))
        families.write(exchanges, capture)
        status, text, _ = run([PROGRAM, "settle", file, capture])
    found = json.loads(text) if kind_of(text) == "refuted" else {"reading": 0}
    wanted = settlement.refutation_at(claim, samples, covers[-1], found["reading"], 1)
    elsewhere = [other for reading in ((stop.begin, stop.end) if stop else ()) for side in (1, -1)
                 if (other := settlement.refutation_at(claim, samples, covers[0], reading, side))
                 and rechecked.stands_with_drift(claim, samples, other)]
    check("a lone place", status=(status, 1), found=(found, wanted), elsewhere=(elsewhere, []),
          stands=(wanted is not None and rechecked.stands_with_drift(claim, samples, wanted), True))


def test_second_cover() -> None:
    try_lone_place(*of_two_covers())


def test_other_reading() -> None:
    try_lone_place(*of_two_readings())
