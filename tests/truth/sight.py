"""What can't be seen: whether what was recorded would be the same if less had gone wrong.

Of two moments of a clock that keeps to its drift, an exchange with a right server says that at its request the error
was no lower than one mark, and at its reply no higher than another. Exchanges go together if each low mark can drift to
each high one, with some groups of servers left out.
"""
from collections.abc import Iterable
from itertools import combinations

from tests.truth.clock import BILLION, SECOND
from tests.truth.history import DAY, LEAP, History
from tests.truth.network import Exchange

MARGIN = 3600 * SECOND
"""Nanoseconds beside a span in which records count."""
HALVES = 20_089 * DAY, 20_270 * DAY, 20_454 * DAY, LEAP
"""Where the half-years from 2025 to 2026 begin."""


def go_together(exchanges: Iterable[Exchange], ppb: int) -> bool:
    marks = []
    for one in exchanges:
        marks.append((one.asked, 0, one.asked - min(one.receive, one.transmit) - one.server.distance))
        marks.append((one.answered, 1, one.answered + 1 - max(one.receive, one.transmit) + one.server.distance))
    for slope, sign, order in ((BILLION - ppb, 1, sorted(marks)),
                               (BILLION + ppb, -1, sorted(marks, key=lambda mark: (-mark[0], mark[1])))):
        most = None
        for place, is_high, error in order:
            value = slope * error + sign * ppb * place
            if is_high and most is not None and most > value:
                return False
            most = most if is_high or most is not None and most > value else value
    return True


def do_fit(history: History, exchanges: list[Exchange]) -> bool:
    """Whether they go together with no more groups left out than are granted."""
    number = {history.servers[k].address: group for group, own in enumerate(history.groups) for k in own}
    groups: dict[int, list[Exchange]] = {}
    for one in exchanges:
        groups.setdefault(number[one.server.address], []).append(one)
    if len(groups) <= history.false_max:
        return True
    return any(go_together((one for group, own in groups.items() if group not in out for one in own), history.ppb)
               for out in combinations(groups, history.false_max))


def near(history: History) -> tuple[int, int]:
    """Between which readings records count: an hour beside the span, but not across where a leap second may be."""
    first, last, far = history.first, history.last, (history.bound // SECOND + 3) * SECOND
    ends = [end for end in HALVES if end + far <= first or last <= end - far]
    return (max([first - MARGIN, *(end + far for end in ends if end < first)]),
            min([last + MARGIN, *(end - far for end in ends if last < end)]))


def counted(history: History) -> list[Exchange]:
    """The exchanges whose records count; all of them if none does."""
    first, last = near(history)
    return [one for one in history.exchanges if first <= one.asked <= last and first <= one.answered <= last] \
        or history.exchanges


def wrong_groups(history: History, exchanges: list[Exchange]) -> set[int]:
    """The groups that had a wrong server in one of these exchanges."""
    wrong = {one.server.address for one in exchanges if one.server.is_wrong(one.sent_at)}
    return {group for group, own in enumerate(history.groups) if {history.servers[k].address for k in own} & wrong}


def hidden(history: History, said: Iterable[int] = ()) -> set[tuple[int, int]]:
    """Of steps and fast movements, but for those at true times that a log says, as many as can be left away."""
    exchanges, told, breaks = counted(history), set(said), history.clock.breaks
    if len(wrong_groups(history, exchanges)) > history.false_max:  # (then nothing fits, and right ones show it)
        exchanges = [one for one in exchanges if not one.server.is_wrong(one.sent_at)]
    for number in range(len(breaks), 0, -1):
        for some in combinations(breaks, number):
            rest = sorted(set(breaks) - set(some))
            if not any(one[0] in told for one in some) and all(
                    do_fit(history, own) for own in stretches(exchanges, rest)):
                return set(some)
    return set()


def unseen(history: History, said: Iterable[int] = ()) -> str:
    """What can't be seen: a step or a fast movement, or that more servers were wrong than is granted. Nothing if all
    that went wrong can be seen."""
    if hidden(history, said):
        return "a step or fast movement that no record and no log shows"
    exchanges, breaks = counted(history), history.clock.breaks
    if len(wrong_groups(history, exchanges)) > history.false_max:
        ends = {end for server in history.servers for end in (server.begin, server.end)}
        own = sorted([*breaks, *((end, end) for end in ends if history.begin < end < history.end)])
        if all(do_fit(history, one) for one in stretches(exchanges, own)):
            return "more wrong servers than are granted, which agree"
    return ""


def stretches(exchanges: list[Exchange], breaks: list[tuple[int, int]]) -> list[list[Exchange]]:
    """The exchanges between breaks; those across one are left out."""
    ends = [-(1 << 62), *(time for own in breaks for time in own), 1 << 62]
    return [[one for one in exchanges if begin <= one.sent_at and one.came_at <= end]
            for begin, end in zip(ends[::2], ends[1::2])]
