"""Holds `settle` to brute force (tests/second/exact.py): claims near the least bound of captures made of a seed, with
servers that are off, always or for a while, or creep away.

`nothing fits` and `no evidence` are said just where it is so, no claim is shown that a course breaks, none is refuted
that all keep, and none stays open but by rounding: within two ticks of the greatest error. `at --covers` gives the
errors of a nanosecond, but for a tick and the drift in it. NTPAUDIT_CLAIMS captures are made, in shares.
"""
import json
import os
import random
import tempfile
from collections import Counter
from collections.abc import Callable, Iterator
from functools import partial
from math import ceil
from pathlib import Path

from tests.support import count, program, run
from tests.second import exact, rules
from tests.second.answers import reading_of
from tests.second.claims import Claim, changed
from tests.second.columns import TICKS
from tests.second.rules import BILLION
from tests.second.settlement import kind_of
from tests.tools.families import BEGIN, Exchanges, Row, Setting, write

CAPTURES, SHARES = int(os.environ.get("NTPAUDIT_CLAIMS", "1000")), 10
ABOVE, BELOW = 1, 1
"""How many ticks above the greatest error, or below the greatest whole one at a whole reading, a claim may be open."""
WANTED = {"unfitted": "nothing fits", "unbounded": "no evidence"}

PROGRAM = program()


def row(rng: random.Random, server: int, seconds: int, error: Callable[[int], int], scale: int) -> Row:
    """An exchange about a span, by which the clock was off by so much then, or nearly so; few are impossible."""
    at, away = rng.randrange(-2 * BILLION, (seconds + 2) * BILLION), rng.randrange(1, rng.choice((10, 10**4, 10**9)))
    half = rng.randrange(2 * scale + 1) if rng.random() < .95 else -rng.randrange(scale)
    low, sent = error(at) - half, BEGIN * BILLION + at
    return server, sent, sent + away, low, low + half + (rng.randrange(half, 2 * half + 1) if half > 0 else half)


def error_of(rng: random.Random, seconds: int, scale: int, ppb: int) -> Callable[[int], int]:
    """What a server says of the clock's error, so many nanoseconds behind a span's begin: true, off, or creeping."""
    far, middle, part = rng.randrange(-9, 10) * scale, rng.randrange(seconds + 1) * BILLION, rng.choice((1, 2, -1))
    how = rng.choice(("true", "true", "true", "off", "off later", "creeping"))

    def error(at: int) -> int:
        off = {"true": 0, "off": far, "off later": far * (at > middle),
               "creeping": far * at // BILLION // max(1, seconds)}[how]
        return ppb * at // (2 * BILLION) * TICKS // BILLION // part + off
    return error


def made(rng: random.Random) -> tuple[Claim, Exchanges]:
    """A claim of few groups, and exchanges."""
    groups = rng.choice((1, 2, 3, 3, 4, 4, 4, 5, 6))
    group = list(range(groups)) + [rng.randrange(groups)] * (rng.random() < .25)
    seconds, scale = rng.choice((0, 1, 3, 60, 3000)), rng.choice((10, 10**3, 10**5, 10**8))
    ppb, rows = rng.choice((0, 1, 1000, 100_000, 600_000, 10**7, 83_333_333, 500_000_000)), list[Row]()
    for server in range(len(group)):
        error = error_of(rng, seconds, scale, ppb)
        rows += [row(rng, server, seconds, error, scale) for _ in range(rng.choice((0, 1, 2, 2, 3)))]
    few = rng.randrange(groups + 1) if rng.random() < .3 else rng.randrange((groups + 1) // 2 + 1)
    setting = Setting(len(group), few, ppb, seconds, BEGIN, rng.choice((0, 0, 1, 1000)))
    own = [[server for server, other in enumerate(group) if other == number] for number in range(groups)]
    return setting.claim(0, groups=own), Exchanges(sorted(rows, key=lambda one: one[2]))


def bounds_near(rng: random.Random, farthest: exact.Farthest) -> set[int]:
    """Nanoseconds about the greatest error."""
    edge = -(-ceil(farthest.error) * BILLION // TICKS)
    beside = rng.choice((-2, 2, -3, 5, -10, 10, 1000, -1000, -edge // 50))
    return {bound for more in (0, 1, -1, beside) if 0 <= (bound := edge + more) <= 10**15}


def misjudged(kind: str, bound: int, farthest: exact.Farthest) -> str:
    """What is wrong with an answer to a claim with a bound of so many ticks."""
    if kind.startswith("shown"):
        return f"shown, and a course is off by {farthest.error} ticks" if bound < farthest.error else ""
    if kind == "refuted":
        return "refuted, and no course is beyond the bound" if farthest.error <= bound else ""
    away = float(bound - farthest.error) if farthest.error <= bound else float(farthest.whole - bound)
    is_near = kind == "open" and farthest.whole - BELOW <= bound < farthest.error + ABOVE
    return "" if is_near else f"{kind}, {away} ticks from the greatest error"


def misplaced(claim: Claim, exchanges: Exchanges, time: str, file: Path) -> tuple[str, str]:
    """The kind of the hull by covers of a reading, and what is wrong with it."""
    (file.parent / "claim.json").write_text(json.dumps(claim))
    status, text, err = run([PROGRAM, "at", file.parent / "claim.json", file, time, "--covers"])
    first, last = reading_of(time) or (0, 0)
    ends = exact.ends(claim, exchanges.samples(claim), first, last)
    _, *said = text.decode().split("\n")[0].split(" ")
    if status or err or isinstance(ends, str):
        return f"hull {ends if isinstance(ends, str) else ''}", "" if said == [ends] else f"{text!r} and not {ends}"
    away = ends[0] - int(said[0]), int(said[1]) - ends[1]
    most = 1 + (last - first) * exact.Rates(claim["drift_ppb"]).down
    return "hull", "" if 0 <= min(away) and max(away) < most else f"ends {[*map(float, away)]} further out"


def compare(rng: random.Random, place: Path) -> Iterator[tuple[str, str]]:
    """The kinds of the answers to claims about one capture, each with what is wrong with it."""
    claim, exchanges = made(rng)
    farthest = exact.farthest(claim, exchanges.samples(claim))
    write(exchanges, file := place / "f.pcap")
    begin, last = (tick // TICKS for tick in rules.span_of(claim))
    for second in {begin - 1, rng.randint(begin, last), last + 2}:
        yield misplaced(claim, exchanges, f"{second}.{rng.randrange(BILLION):09}", file)
    for bound_ns in [rng.randrange(BILLION)] if isinstance(farthest, str) else sorted(bounds_near(rng, farthest)):
        (place / "claim.json").write_text(json.dumps(changed(claim, bound_ns=bound_ns)))
        status, text, err = run([PROGRAM, "settle", place / "claim.json", file])
        kind = kind_of(text) if text else f"status {status}, {err!r}"
        if isinstance(farthest, str):
            yield kind, "" if kind == WANTED[farthest] else f"{kind} in place of {WANTED[farthest]}"
        else:
            yield kind, misjudged(kind, bound_ns * TICKS // BILLION, farthest)


def share(number: int) -> Counter[str]:
    """Every tenth capture."""
    kinds = Counter[str]()
    with tempfile.TemporaryDirectory(prefix="ntpaudit-") as place:
        for seed in range(number, CAPTURES, SHARES):
            for kind, wrong in compare(random.Random(f"exact {seed}"), Path(place)):
                assert not wrong, f"capture {seed}: {wrong}"
                kinds[kind] += 1
    return kinds


def cases() -> Iterator[tuple[str, Callable[[], Counter[str]]]]:
    for number in range(SHARES):
        yield f"system.exact.{number}", partial(share, number)


def together(kinds: list[Counter[str]]) -> None:
    """Each answer is met, by covers too, and few claims stay open."""
    found = sum(kinds, Counter[str]())
    print(f"{found.total()} claims: {dict(found)}")
    for kind in ("shown", "shown by covers", "refuted", "nothing fits", "no evidence", "hull", "hull empty",
                 "hull unbounded"):
        count(f"something is {kind}", "" if found[kind] else "never")
    count("few stay open", "" if 20 * found["open"] < found.total() else f"{found['open']} do")
