"""Holds the certificate by covers that is to be found, and the second checker of it, to brute force (exact.py), on
systems of exchanges made of a seed: the least bound that one carries is the exact one, or a tick above it; there is one
exactly if some course fits and not every error has one; what is found is accepted, and no bound that a course is
beyond, nor what was altered; and no certificate as ever carries less.
"""
import copy
import os
import random
from collections import Counter
from collections.abc import Callable, Iterator
from functools import partial
from math import ceil

from tests.support import count
from tests.second import by_covers, exact, pieces, rechecked, rules
from tests.second.by_covers import Search
from tests.second.claims import ByCovers, Claim
from tests.second.rules import Sample
from tests.second.columns import TICKS
from tests.tools.families import spelled

CLAIMS, SHARES = int(os.environ.get("NTPAUDIT_CLAIMS", "4000")), 10
BEGIN = 10**9


class System:
    """A claim and exchanges, of a clock that drifts and of servers some of which are off, always or for a while."""

    def __init__(self, rng: random.Random) -> None:
        groups = rng.choice((1, 2, 3, 4, 4, 4, 5, 6))
        members = [[g] for g in range(groups)]
        servers = groups
        if rng.random() < .2:
            members[rng.randrange(groups)].append(servers)
            servers += 1
        self.ppb = rng.choice((0, 1, 1000, 100_000, 600_000, 10**7, 83_333_333, 500_000_000))
        seconds, self.scale = rng.choice((0, 1, 1, 3, 60)), rng.choice((3, 100, 10**5, 10**8))
        self.claim: Claim = {
            "client": "10.0.0.1", "servers": [f"192.0.2.{k + 1}" for k in range(servers)],
            "false_max": rng.randrange(0, groups + 1) if rng.random() < .3 else rng.randrange(0, (groups + 1) // 2 + 1),
            "from": spelled(BEGIN), "to": spelled(BEGIN + seconds), "bound_ns": 10**15, "drift_ppb": self.ppb,
            "reading_ns": 0, "groups": members}
        self.first, self.last = BEGIN * TICKS, (BEGIN + seconds) * TICKS
        self.samples = [self.sample(rng, server, shift) for server in range(servers)
                        for shift in [self.shift(rng)] for _ in range(rng.choice((0, 1, 2, 2, 3)))]
        rng.shuffle(self.samples)

    def shift(self, rng: random.Random) -> Callable[[int], int]:
        """By how much a server is off at a reading."""
        far, middle = rng.randrange(-9, 10) * self.scale, rng.randrange(self.first, self.last + 1)
        return rng.choice((lambda n: 0, lambda n: 0, lambda n: 0, lambda n: far, lambda n: far * (n > middle),
                           lambda n: far * (n - self.first) // TICKS))

    def sample(self, rng: random.Random, server: int, shift: Callable[[int], int]) -> Sample:
        around = rng.choice((0, 10 * self.scale, TICKS, 5 * TICKS))
        u = rng.randrange(self.first - around, self.last + around + 1)
        away = rng.randrange(2 * self.scale + 1) if rng.random() < .95 else -rng.randrange(self.scale)
        error = self.ppb * (u - self.first) // (2 * 10**9) + shift(u)
        distance = rng.choice((0, 1, rng.randrange(self.scale)))
        t2 = u - error + rng.randrange(away // 2 + 1 if away > 0 else 1)
        t3 = t2 + rng.choice((0, 0, 1, -1, rng.randrange(self.scale) - self.scale // 8))
        return Sample(server, (u, u + 1), (u + away - 1, u + away), t2, t3, distance)


def of_some_conflicts(rng: random.Random, search: Search, bound: int) -> ByCovers:
    """A certificate that names some of the conflicts, and maybe a pair that is none."""
    kept = {ends: pair for ends, pair in search.conflicts.items() if rng.random() < .6}
    i, j = rng.choices(range(len(search.samples)), k=2)
    if rng.random() < .5:
        g, h = (next(g for g, group in enumerate(rules.groups_of(search.claim)) if search.samples[k].server in group)
                for k in (i, j))
        kept[g, h] = i, j
    other, (first, last) = Search(search.claim, search.samples, kept), search.span
    return other.find(bound).certificate or {"conflicts": [list(pair) for pair in kept.values()], "cases": [
        {"groups": sorted(out), "pieces": [{"upto": last, "entries": by_covers.best_entries(
            search.claim, search.samples, out, first, last)}]} for out in other.covers]}


def altered(rng: random.Random, search: Search, certificate: ByCovers, bound: int) -> ByCovers:
    """The certificate with something in it altered."""
    made, count, groups = copy.deepcopy(certificate), len(search.samples), len(rules.groups_of(search.claim))
    cases, conflicts, kind = made["cases"], made["conflicts"], rng.randrange(15)
    case = rng.choice(cases)
    piece, number = rng.choice(case["pieces"]), rng.randrange(count + (rng.random() < .3))
    entry = rng.choice(piece["entries"])
    if kind == 0:
        cases.remove(case)
    elif kind == 1 and conflicts:
        conflicts.pop(rng.randrange(len(conflicts)))
    elif kind == 2:
        conflicts.append([number, rng.randrange(count)])
    elif kind == 3 and case["groups"]:
        case["groups"].pop()
    elif kind in (4, 5):
        case["groups"].append(rng.randrange(groups + 40 * (kind == 5)))
    elif kind == 6 and case["groups"]:
        case["groups"][-1] = rng.randrange(groups)
    elif kind == 7:
        cases.append(copy.deepcopy(case))
    elif kind == 8:
        entry[rng.randrange(2)] = number
    elif kind == 9:
        piece["entries"].append(rng.choice([entry, [number, number]]))
    elif kind == 10:
        piece["upto"] += rng.choice((-1, 1, -TICKS, TICKS))
    elif kind == 11:
        piece["entries"].remove(entry)
    elif kind == 12:
        return of_some_conflicts(rng, search, bound)
    elif kind == 13:
        entry[:] = [number, number]
    else:
        case["pieces"].remove(piece)
    return made


def least_as_ever(claim: Claim, samples: list[Sample], bound: int) -> bool:
    """Whether a certificate as ever carries a bound in ticks."""
    return pieces.ends_of(rules.span_of(claim), pieces.Hulls(claim, samples), bound, 1000)[1] is None


def judged(rng: random.Random) -> tuple[Counter[str], list[str]]:
    """What is wrong of a system, and how many claims near its exact least bound were tried."""
    system = System(rng)
    claim, samples, seen, wrong = system.claim, system.samples, Counter[str](), list[str]()
    search, far = Search(claim, samples), exact.farthest(claim, samples)
    found = search.least() if search.covers else "unfitted"
    if isinstance(far, str) or not isinstance(found, int):
        seen[str(far)] += 1
        return seen, [] if {"unbounded": None}.get(str(far), far) == found else [f"{far} exactly, {found} by covers"]
    least = ceil(far.error)
    if not least <= found <= least + 1:
        wrong.append(f"the least bound is {least} exactly, {found} by covers")
    seen[f"least {found - least:+}, refuted up to {far.whole - found} of it"] += 1
    if least and least_as_ever(claim, samples, least - 1):
        wrong.append(f"a certificate as ever carries {least - 1}, where {least} is exact")
    for bound in sorted({max(0, least + more) for more in (-2, -1, 0, 1, 2, 1000)}):
        said, certificate, _ = "", search.find(bound).certificate, seen.update(["claims"])
        if certificate:
            said = rechecked.verdict(claim, samples, certificate, bound)
            if said != "yes":
                wrong.append(f"{said}, of what is found under {bound}")
        if bound < least and said == "yes":
            wrong.append(f"a false yes under {bound}, where {least} is exact")
        seen[f"found {bound - least:+}" if bound < least + 3 else "found far above"] += bool(certificate)
    whole = search.find(found + 1000).certificate
    assert whole
    for bound in (least - 1, found + 1000):
        for _ in range(4):
            said = rechecked.verdict(claim, samples, altered(rng, search, whole, bound), bound)
            seen[" ".join(word for word in said.split() if not word.isdigit())] += 1
            if said == "yes" and bound < least:
                wrong.append(f"a false yes of an altered certificate under {bound}, where {least} is exact")
    return seen, wrong


def share(number: int) -> Counter[str]:
    """So many claims, and what was said of them."""
    seen, k = Counter[str](), 0
    while seen["claims"] < CLAIMS // SHARES:
        more, wrong = judged(random.Random(f"by covers {number}/{k}"))
        assert not wrong, f"{number}/{k}: {'; '.join(wrong[:3])}"
        seen += more
        k += 1
    return seen


def cases() -> Iterator[tuple[str, Callable[[], Counter[str]]]]:
    for number in range(SHARES):
        yield f"second.by_covers.{number}", partial(share, number)


MET = ["unfitted", "unbounded", "found +0", "yes", "no conflict no-conflict",
       "no case no-group", "no case repeated-group", "no case too-many-groups", "no case repeated-case",
       "no unanswered",
       *(f"no case piece {why}" for why in ("cut", "bad-sample", "mixed-servers", "repeated-server", "left-out",
                                            "unbounded", "contradiction", "exceeds", "uncovered"))]


def together(seen: list[Counter[str]]) -> None:
    found = sum(filter(None, seen), Counter[str]())
    print(f"{found['claims']} claims: {dict(found)}")
    for what in MET:
        count(f"some are {what}", "" if found[what] else "never")
