"""Plants a bug in second/recheck, one after another, and says whether test_recheck.py sees it: slips of whoever writes
such a checker, and what could be wrong in the program's own definitions. Not part of the gate. Whatever test_recheck.py
asks is asked of each copy too, until something sees it.
"""
import multiprocessing
import os
import random
import tempfile
from collections.abc import Callable
from concurrent.futures import ProcessPoolExecutor
from pathlib import Path
from typing import Any

from tests.support import count
from tests.second import rechecked, test_by_covers, test_recheck

SYSTEMS = 1000
SCENES = 60
"""How many scenes are tried beside what is directed."""

Plant = tuple[str, str, str]
"""What the bug is, what stands in recheck, and what stands there then."""

SLIPS: list[Plant] = [
    ("the bound itself counts as beyond it", "-claim.bound <= hull[0] and hull[1] <= claim.bound",
     "-claim.bound < hull[0] and hull[1] < claim.bound"),
    ("one wrong group more", "hull_of(list(of_group.values()), wrong)",
     "hull_of(list(of_group.values()), wrong + 1)"),
    ("the bound in ticks rounded up", "whole(bound, 0, 10**15) * SECOND // BILLION",
     "ceiling(whole(bound, 0, 10**15) * SECOND, BILLION)"),
    ("the allowance in ticks rounded down", "ceiling(whole(reading, 0, BILLION) * SECOND, BILLION)",
     "whole(reading, 0, BILLION) * SECOND // BILLION"),
    ("the end of a window rounded down", "ceiling((units + 1) * SECOND, per_second)",
     "(units + 1) * SECOND // per_second"),
    ("a window that ends where its unit begins", "ceiling((units + 1) * SECOND", "ceiling(units * SECOND"),
    ("every timestamp in era 0", "return earliest + (stamp - 2208988800 * SECOND - earliest) % 2**64",
     "return stamp - 2208988800 * SECOND"),
    ("unfolded with the allowance", "left[0] + claim.allowance", "left[0]"),
    ("the first piece isn't looked at", "if why := failed_test(claim, xs, begin, end, samples, out)",
     "if why := number and failed_test(claim, xs, begin, end, samples, out)"),
    ("a server for its group", "of_group[group] = max(low, others[0]), min(high, others[1])",
     "of_group[x.server] = low, high"),
    ("the widening rounded down", "ceiling(drift * max(end - window[0], window[1] - begin), BILLION - drift)",
     "drift * max(end - window[0], window[1] - begin) // (BILLION - drift)"),
    ("the nearest distance", "max(end - window[0], window[1] - begin)", "min(end - window[0], window[1] - begin)"),
    ("the widening by true time", "window[1] - begin), BILLION - drift)", "window[1] - begin), BILLION)"),
    ("the root delay is taken whole", "delay * 32768", "delay * 65536"),
    ("no precision", " + (1 << max(32 + precision, 0))", ""),
    ("stratum 16 is usable", "1 <= stratum <= 15", "1 <= stratum <= 16"),
    ("an unsynchronized server is usable", "leap != 3", "leap != 4"),
    ("the last of two equal requests counts", "None if key in requests else (number, units)", "(number, units)"),
    ("T3 may come before the request in a refutation", "left <= x.t2 + x.distance and left <= x.t3 + x.distance",
     "left <= x.t2 + x.distance"),
    ("a reading is over before its last digit changes", "10 ** len(digits), 0)", "10 ** len(digits), -1)"),
    ("the nearest distance of a reading", "place = bisect.bisect(middles, begin + end)",
     "place = len(middles) - bisect.bisect(middles, begin + end)"),
    ("the hull's ends exchanged in true time", "true {begin - hull[1]} {end - hull[0]}",
     "true {begin - hull[0]} {end - hull[1]}"),
    ("a refutation at the bound", "abs(own[1]) <= claim.bound", "abs(own[1]) < claim.bound"),
]

DEFINITIONS: list[Plant] = [
    ("a piece may end behind the span", "begin <= end <= claim.last", "begin <= end"),
    ("the pieces needn't reach the span's end", "pieces and begin == claim.last", "bool(pieces)"),
    ("a server may be named twice", "if x.server in servers:", "if False:"),
    ("the two samples of an entry may be of two servers", "if x.server != y.server:", "if False:"),
    ("an empty hull is within every bound", 'return "contradiction"', 'return ""'),
    ("as many groups as may be wrong are enough", "len(of_group) <= wrong",
     "len(of_group) < wrong"),
    ("the hull of fewer wrong groups", "<= wrong\n", "< max(wrong, 1)\n"),
    ("no root distance at the request", "(x.left[0] - x.t2 - x.distance", "(x.left[0] - x.t2"),
    ("T3 for T2 at the request", "(x.left[0] - x.t2", "(x.left[0] - x.t3"),
    ("the request's window at the reply", "y.arrived[1] - y.t3 + y.distance + w", "y.left[1] - y.t3 + y.distance + w"),
    ("the allowance to the harmless side", "return low - allowance, high + allowance",
     "return low + allowance, high - allowance"),
    ("a thousandth of the claim's drift", "whole(drift, 0, 500_000_000)", "whole(drift, 0, 500_000_000) // 1000"),
    ("the reply may go to any port", "requests.get((server, port, origin))",
     "next((requests[key] for key in requests if key[::2] == (server, origin)), None)"),
    ("zero timestamps are usable", "and precision <= 16 and origin and receive and transmit", "and precision <= 16"),
    ("replies of version 3 are usable", "mode == 4 and version == 4 and leap", "mode == 4 and version >= 3 and leap"),
    ("a precision of 17 is usable", "precision <= 16", "precision <= 17"),
    ("the last fragment holds a datagram", "fragment & 0x3FFF", "fragment & 0x2000"),
    ("an impossible exchange leaves room",
     "return x.left[0] <= x.arrived[1] and x.t2 - x.distance <= x.t3 + x.distance", "return True"),
    ("the error may rise as fast as it likes", "((marks, BILLION - drift, drift),", "((marks[:0], BILLION, 0),"),
    ("a refutation may name any servers", "or len(set(liars)) < len(liars) or len(groups) > claim.false_max", ""),
]


PLANTS = SLIPS + DEFINITIONS

COVERS: list[Plant] = [
    ("any pair is a conflict", "if max(i, j) >= len(xs) or do_agree(xs[i], xs[j], i == j, claim.drift):",
     "if max(i, j) >= len(xs):"),
    ("an exchange conflicts with itself where its server's does", "(not is_one or is_possible(y)) and are", "are"),
    ("the low mark of the second", "are_compatible([low_mark(x)], [high_mark(y)]",
     "are_compatible([low_mark(y)], [high_mark(x)]"),
    ("a cover that no case answers", 'if have_few_ends(ends, claim.false_max, cases=seen): return " unanswered"', ""),
    ("a case answers a cover that holds one of its groups", "any(case <= chosen for case in cases)",
     "any(case & chosen for case in cases)"),
    ("the covers of one group more are left out", "have_few_ends(ends, claim.false_max, cases",
     "have_few_ends(ends, claim.false_max - 1, cases"),
    ("false_max isn't lessened", "wrong = claim.false_max - len(out or ())", "wrong = claim.false_max"),
    ("an entry may be of a group that is left out", 'if group in (out or ()): return "left-out"', ""),
    ("the two rates exchanged at the low mark", "ceiling(drift * (end - u), down), ceiling(drift * (u - begin), up)",
     "ceiling(drift * (end - u), up), ceiling(drift * (u - begin), down)"),
    ("the two rates exchanged at the high mark", "ceiling(drift * (end - v), up), ceiling(drift * (v - begin), down)",
     "ceiling(drift * (end - v), down), ceiling(drift * (v - begin), up)"),
    ("W rounded down at the low mark",
     "low - max(0, ceiling(drift * (end - u), down), ceiling(drift * (u - begin), up))",
     "low - max(0, drift * (end - u) // down, drift * (u - begin) // up)"),
    ("W rounded down at the high mark",
     "high + max(0, ceiling(drift * (end - v), up), ceiling(drift * (v - begin), down))",
     "high + max(0, drift * (end - v) // up, drift * (v - begin) // down)"),
    ("the last case isn't looked at", "for groups, pieces in cases)", "for groups, pieces in cases[:-1])"),
]
"""What could be wrong of certificates by covers: test_by_covers.py has to see it."""
SEEN = multiprocessing.Array("b", len(PLANTS))
"""Which plants something has seen."""


def module_of(text: str) -> Any:
    """recheck, with another text."""
    with tempfile.NamedTemporaryFile("w", suffix=".py") as file:
        file.write(text)
        file.flush()
        return rechecked.loaded(Path(file.name))


def watch(planted: list[Any]) -> None:
    """Has whatever test_recheck.py asks be asked of each planted recheck that nothing has seen yet."""
    plain, true_hold = rechecked.MODULE, test_recheck.Trial.hold

    def hold(trial: Any, label: str, is_right: Callable[[Any], bool], *drift: str) -> None:
        true_hold(trial, label, is_right, *drift)
        for number, module in enumerate(planted):
            if not SEEN[number]:
                rechecked.MODULE = module
                status, out, _ = rechecked.recheck(trial.claim, trial.capture, trial.third, *drift)
                if not is_right((status, out.decode().removesuffix("\n"))) and not SEEN[number]:
                    SEEN[number] = 1
                    print(f"{PLANTS[number][0]}: {trial.name} ({label.split(',')[0]})", flush=True)
        rechecked.MODULE = plain

    setattr(test_recheck.Trial, "hold", hold)


def share(numbers: tuple[int, int, int]) -> list[str]:
    """Part k of n of the jobs, until each plant is seen: what was wrong without a plant."""
    k, n, scenes = numbers
    text = rechecked.RECHECK.read_text("utf-8")
    watch([module_of(text.replace(old, new)) for _, old, new in PLANTS])
    jobs = [job for job in test_recheck.jobs() if "/" not in job[0]]
    wrong: list[str] = []
    for job in [*test_recheck.scenes_of(test_recheck.SEED, scenes), *jobs][k::n]:
        if not all(SEEN[number] for number in range(len(PLANTS))):
            wrong += test_recheck.tried(job)[2]
    return wrong


def test_plants() -> None:
    text, cores = rechecked.RECHECK.read_text("utf-8"), os.cpu_count() or 1
    for name, old, _ in PLANTS:
        count(f"what the plant replaces: {name}", "" if text.count(old) == 1 else f"it stands {text.count(old)} times")
    with ProcessPoolExecutor() as pool:
        for wrong in pool.map(share, [(k, cores, SCENES) for k in range(cores)]):
            count("without a plant", "; ".join(wrong[:3]))
    for number, (name, _, _) in enumerate(PLANTS):
        count(name, "" if SEEN[number] else "nothing sees it")


def sees(number: int) -> bool:
    """Whether one of many systems of exchanges shows this plant of COVERS."""
    text = rechecked.RECHECK.read_text("utf-8")
    rechecked.MODULE = module_of(text.replace(COVERS[number][1], COVERS[number][2]))
    return any(test_by_covers.judged(random.Random(f"planted {k}"))[1] for k in range(SYSTEMS))


def test_covers() -> None:
    text = rechecked.RECHECK.read_text("utf-8")
    for name, old, _ in COVERS:
        count(f"what the plant replaces: {name}", "" if text.count(old) == 1 else f"it stands {text.count(old)} times")
    with ProcessPoolExecutor(1) as pool:
        for (name, _, _), is_seen in zip(COVERS, pool.map(sees, range(len(COVERS)))):
            count(name, "" if is_seen else "nothing sees it")
