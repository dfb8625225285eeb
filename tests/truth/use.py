"""Of what use an answer is: a yes where nothing was wrong in the span; else whether what was wrong is named."""
from itertools import pairwise
from statistics import median_low
from typing import NamedTuple

from tests.truth.clock import SECOND
from tests.truth.network import Exchange
from tests.truth.sight import counted, go_together, hidden, stretches
from tests.truth.view import View, clock_time

CLEAN, TROUBLED, OTHER = "clean", "troubled", "neither"
"""A clock within its bound, with each trouble far from the span; one with trouble in it; all others."""


class Use(NamedTuple):
    kind: str
    missed: list[str]
    """What should have been said, and wasn't."""


def use_of(view: View) -> Use:
    history = view.of
    found = list(view.clock.shown(*view.span))
    if not found or "mistake" in history.kinds:
        return Use(OTHER, [])
    begin, end = found[0].begin - 2 * history.poll, found[-1].end + 2 * history.poll
    is_recorded = history.begin <= found[0].begin + history.poll and found[-1].end <= history.end + history.poll
    inside = [one for one in history.troubles if begin <= one.end and one.begin <= end]
    if not inside and is_recorded and history.lost <= 0.05 and view.worst + history.width <= history.bound \
            and len(view.heard) > 2 * history.false_max:
        return Use(CLEAN, [] if view.verdict == "yes" else ["it isn't a yes"])
    missed = [*moments(view, begin, end), *servers(view, begin, end), *sides(view), *silences(view)]
    return Use(TROUBLED if inside else OTHER, missed)


def moments(view: View, begin: int, end: int) -> list[str]:
    """Steps and fast movements near the span that can be seen, and that no move of the entry and no conflict that is
    told holds."""
    told = [*view.moving, *view.conflicts]
    near = (one for one in sorted(set(view.clock.breaks) - hidden(view.of)) if begin <= one[1] and one[0] <= end)
    return [f"it went wrong at {clock_time(view.clock.utc(one[0]))}" for one in near if is_shown(view, one)
            and not any(after - view.of.poll <= one[0] <= by + view.of.poll for after, by in told)]


def is_shown(view: View, one: tuple[int, int]) -> bool:
    """Whether the exchanges with right servers don't go together without a break."""
    right = [each for each in counted(view.of) if not each.server.is_wrong(each.sent_at)]
    return not all(go_together(own, view.of.ppb) for own in stretches(right, sorted(set(view.clock.breaks) - {one})))


def servers(view: View, begin: int, end: int) -> list[str]:
    """Wrong servers of a group by which the others would be contradicted, and that aren't named."""
    if view.too_many_wrong:
        return []
    breaks, missed = view.clock.breaks, []
    for server in view.of.servers:
        if not view.is_ever_wrong(server.address) or server.address in view.named:
            continue
        for own in stretches(counted(view.of), breaks):
            near = [one for one in own if one.server is server or not view.is_ever_wrong(one.server.address)]
            if any(one.server is not server for one in near) and not go_together(near, view.of.ppb) and \
                    is_in(near, begin, end):
                missed.append(f"{server.address} was wrong")
                break
    return missed


def is_in(exchanges: list[Exchange], begin: int, end: int) -> bool:
    return any(one.server.is_wrong(one.sent_at) and begin <= one.sent_at <= end for one in exchanges)


def sides(view: View) -> list[str]:
    """Sides on which the clock was far beyond its bound for some polls that were recorded, and that aren't told."""
    far = view.of.bound + 2 * view.of.width
    missed = list[str]()
    if view.excuse or view.most_agree:
        return missed
    for side in (1, -1):
        number = sum(view.span[0] <= one.answered <= view.span[1] and not one.server.is_wrong(one.sent_at)
                     and side * (view.clock.error(one.sent_at) or 0) > far for one in view.of.exchanges)
        if number > 6 * len(view.heard) and side not in view.sides and \
                view.verdict not in ("no evidence", "unsupported"):
            missed.append(f"it was {'ahead' if side > 0 else 'behind'}")
    return missed


def silences(view: View) -> list[str]:
    """The longest time of the span in which no server was heard, if it was far longer than usual, and isn't told; where
    the clock moved it is told of each part."""
    times, (first, last) = sorted(one.answered for one in counted(view.of)), view.span
    if view.clock.breaks or view.verdict in ("no evidence", "nothing fits", "unsupported"):
        return []
    gaps = [(by - after, after, by) for after, by in pairwise(times) if after < last and first < by]
    length, after, by = max(gaps, default=(0, 0, 0))
    usual = median_low([by - after for after, by in pairwise(times)] or [0])
    is_told = length <= max(61 * SECOND, 12 * usual) or any(
        one.first < by and after < one.last for one in view.silences)
    return [] if is_told else [f"no server was heard from {clock_time(after)} to {clock_time(by)}"]
