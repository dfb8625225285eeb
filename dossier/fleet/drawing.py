"""Which days are drawn to be made again, by a rule that anybody can follow by hand, and how likely a bad one is among
them.
"""
from collections import Counter
from typing import NamedTuple

from ..folder.files import AUDIT, Folder, absolute, sum_of
from ..folder.jobs import run_all
from ..folder.older import read_any
from ..text import count
from .planning import Plan, those_among
from .statements import NOTHING


class Sample(NamedTuple):
    """The days that are drawn, and of how many; the folders of several days, or of one name, which are made again too,
    since one of them would stand for many days; the days beside a year's; and all that isn't looked at."""

    drawn: set[str] = set()
    days: int = 0
    several: set[str] = set()
    beside: set[str] = set()
    left: set[str] = set()


def sample_of(plan: Plan, named: set[str], number: int, seed: str, seconds: int) -> Sample:
    """The sample of so many days. What stands beside days of years, and is neither named itself nor of anything else,
    is none of them."""
    names = names_of(plan, seconds)
    numbers = Counter(names.values())
    several = those_among([*names], is_of_several, seconds) | {path for path in names if numbers[names[path]] > 1}
    alone = {path: name for path, name in names.items() if path not in several}
    drawn = drawn_of(alone, number, seed)
    beside = {path for path in plan.every if plan.stated and path not in plan.stated and path not in plan.resting
              and absolute(path) not in named}
    return Sample(drawn, len(alone), several, beside, set(alone) - drawn | beside)


def names_of(plan: Plan, seconds: int) -> dict[str, str]:
    """The days of which some are drawn, each with its name for good: those of years, if there are any; else all, by
    what audit.json says. (One without a name isn't left to chance: its year says nothing of it.)"""
    def work(path: str, _: int) -> str:
        with Folder(path) as folder:
            return read_any(folder.data(AUDIT)).name
    named = plan.stated.items() or run_all(plan.every, work, str, seconds)
    return {path: name for path, name in named if isinstance(name, str) and name not in ("", NOTHING)}


def is_of_several(folder: Folder) -> bool:
    """Whether a folder has an audit of several days."""
    return len(read_any(folder.data(AUDIT)).entries) > 1


def drawn_of(names: dict[str, str], number: int, seed: str) -> set[str]:
    """So many days: those for which the SHA-256 of the seed, a blank and the day's name is the least. (The seed's bytes
    are those that a shell hands over, UTF-8 or not.)"""
    def sum_by_seed(path: str) -> tuple[str, str]:
        return sum_of(f"{seed} {names[path]}".encode("utf-8", "surrogateescape")), path
    return set(sorted(names, key=sum_by_seed)[:number])


SHARES = (1, 5)
"""Per cent of the days."""


def likelihoods(drawn: int, days: int) -> str:
    """How likely one bad day would have been drawn, if there were so many."""
    said = [f"had {share} % of all been bad ({max(1, days * share // 100):,}), one would have been drawn with "
            f"{percent(missed(drawn, days, max(1, days * share // 100)))}" for share in SHARES]
    return f"({drawn:,} of {count(days, 'day')} were drawn and made again: {'; '.join(said)})"


def missed(drawn: int, days: int, bad: int) -> float:
    """How likely it is that of so many days that are drawn none is bad, if so many of all are."""
    part = 1.0
    for k in range(min(bad, days)):
        part *= max(0, days - drawn - k) / (days - k)
    return part


def percent(part: float) -> str:
    """What is left of a part, in per cent and rounded down; certainty only if nothing of it is there."""
    return f"{min(999, int((1 - part) * 1000)) / 10} %" if part else "certainty"
