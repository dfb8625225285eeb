"""The judge on conflicts that are made to be slow: a search over all sets of groups would take years."""
import json
import resource
from pathlib import Path

from tests.judge.made import made, missing
from tests.support import check, run, skip, wanting
from tests.tools import families

GROUPS = 32
LISTS = {"in a row": ([(k, k + 1) for k in range(GROUPS - 1)], GROUPS // 2),
         "in a ring": ([(k, (k + 1) % GROUPS) for k in range(GROUPS)], GROUPS // 2),
         "by threes": ([(k + i, k + j) for k in range(0, 30, 3) for i, j in ((0, 1), (1, 2), (0, 2))], 20),
         "by twos": ([(k, k + 1) for k in range(0, GROUPS, 2)], GROUPS // 2),
         "each with each": ([(j, k) for k in range(GROUPS) for j in range(k)], GROUPS - 1)}
"""Pairs of groups that contradict each other, and how many groups have an end of each pair."""


def test_conflicts(folder: Path) -> None:
    if tool := missing():
        skip("the judge on long lists of conflicts", wanting(tool))
        return
    judge = made("ntpaudit-judge")
    hostile = families.conflicting(families.Setting(GROUPS, 0, 50_000, 3600), GROUPS)
    claim, capture, answer = folder / "claim", folder / "capture", folder / "answer"
    families.write(hostile.exchanges, capture)

    def judged(label: str, most: int, text: str, said: bytes) -> None:
        claim.write_text(json.dumps({**hostile.claims["none"], "false_max": most}))
        answer.write_text(text)
        before = resource.getrusage(resource.RUSAGE_CHILDREN).ru_utime
        ran = run([judge, claim, capture, answer])
        seconds = resource.getrusage(resource.RUSAGE_CHILDREN).ru_utime - before
        check(f"{label}, {most} wrong", run=(ran, (1, said, b"")), within_a_second=(seconds < 1, True))

    backwards = {f"{name}, backwards": (pairs[::-1], fewest) for name, (pairs, fewest) in LISTS.items()}
    for name, (pairs, fewest) in {**LISTS, **backwards}.items():
        lines = [f"conflict 192.0.2.{101 + max(pair)} {2 * max(pair)} 192.0.2.{101 + min(pair)} {2 * min(pair) + 1}\n"
                 for pair in pairs]
        for most, said in ((fewest - 1, b"nothing fits\n"), (fewest, b"not right: nothing fits\n")):
            judged(name, most, "".join(lines) + "nothing fits\n", said)
        # Each choice of groups has one of the last pair, which is looked at last.
        cases = [[*pairs[-1], k] for k in range(GROUPS) if k not in pairs[-1]] + [[k] for k in pairs[-1]]
        by_covers = {"conflicts": [[max(pair), min(pair)] for pair in pairs],
                     "cases": [{"groups": own, "pieces": []} for own in cases]}
        judged(f"{name}, by covers", GROUPS - 1, json.dumps(by_covers), b"verdict no case 0 piece 0 uncovered\n")
