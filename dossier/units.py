"""Ticks, nanoseconds and Unix seconds as a person reads them.

A low end is rounded down and a high end up, so that what is shown never says more than the program did.
"""
import time
from datetime import datetime, timedelta
from functools import cache

TICKS = 2**32
"""Ticks in a second."""

EPOCH = datetime(1970, 1, 1)
FORM = "%Y-%m-%dT%H:%M:%SZ"
DAY = 86_400
LAST_SECOND = 2**32 - 1
"""The last that a claim can name."""
SECOND = 10**9
"""Nanoseconds in a second: times of records are held in nanoseconds."""


def ceil_div(a: int, b: int) -> int:
    return -(-a // b)


def round_up(number: int) -> int:
    """The least number of two digits, with zeros behind them, that isn't below this one."""
    unit: int = 10 ** max(0, len(str(number)) - 2)
    return -(-number // unit) * unit


def thousandths(number: int) -> str:
    """A number of thousandths with its three decimals: -2314 is `-2.314`."""
    whole, rest = divmod(abs(number), 1000)
    return f"{'-' if number < 0 else ''}{whole:,}.{rest:03}"


def low_ms(ticks: int) -> str:
    """Ticks in milliseconds, rounded down to the microsecond."""
    return thousandths(ticks * 1_000_000 // TICKS)


def high_ms(ticks: int) -> str:
    """Ticks in milliseconds, rounded up to the microsecond."""
    return thousandths(ceil_div(ticks * 1_000_000, TICKS))


def range_ms(low: int, high: int) -> str:
    """Two ends in ticks as `-2.314 to 2.260 ms`."""
    return f"{low_ms(low)} to {high_ms(high)} ms"


def ns_up_ms(nanoseconds: int) -> str:
    """Nanoseconds in milliseconds, rounded up to the microsecond."""
    return thousandths(ceil_div(nanoseconds, 1000))


def ns_ms(nanoseconds: int) -> str:
    """Nanoseconds in milliseconds, exactly and without zeros at the end: 5000000 is `5`, 956568 is `0.956568`."""
    whole, rest = divmod(nanoseconds, 1_000_000)
    return f"{whole:,}" + (f".{rest:06}".rstrip("0") if rest else "")


def bound_ticks(bound_ns: int) -> int:
    """A claim's bound in ticks, as the program has it: rounded down."""
    return bound_ns * TICKS // 10**9


def civil(seconds: int) -> str:
    """Unix seconds in the form of a claim's times."""
    return (EPOCH + timedelta(seconds=seconds)).strftime(FORM)


def civil_ns(nanoseconds: int) -> str:
    """Unix nanoseconds in the same form, with nine digits behind the point."""
    second, rest = divmod(nanoseconds, SECOND)
    return f"{civil(second)[:-1]}.{rest:09}Z"


def earliest(ticks: int) -> str:
    """Unix ticks as a time, rounded down to the nanosecond."""
    return civil_ns(ticks * SECOND // TICKS)


def latest(ticks: int) -> str:
    """Unix ticks as a time, rounded up to the nanosecond."""
    return civil_ns(ceil_div(ticks * SECOND, TICKS))


def now(more: int = 0) -> str:
    """The time, or one that comes so many seconds later."""
    return civil(int(time.time()) + more)


def shown_time(seconds: int) -> str:
    """Unix seconds as a person reads them: `2026-11-22 07:03:36`."""
    return civil(seconds).replace("T", " ").removesuffix("Z")


@cache
def seconds_of(time: str) -> int:
    """Unix seconds of a claim's time."""
    return (datetime.fromisoformat(time.removesuffix("Z")) - EPOCH) // timedelta(seconds=1)


def day_of(seconds: int) -> str:
    return civil(seconds)[:10]


def between(begin: int, end: int) -> str:
    return two_times("between", begin, "and", end)


def from_to(begin: int, end: int) -> str:
    return two_times("from", begin, "to", end)


def two_times(word: str, begin: int, other: str, end: int) -> str:
    """Two times, each with its word, the second without the day if it is the same; or `at ..` of one moment."""
    first, last = shown_time(begin), shown_time(end)
    if begin == end:
        return f"at {first}"
    return f"{word} {first} {other} {last[11:] if first[:10] == last[:10] else last}"


def outward(before: int, after: int) -> tuple[int, int]:
    """Two times in nanoseconds as the whole seconds around them."""
    return before // SECOND, ceil_div(after, SECOND)


def inward(before: int, after: int) -> tuple[int, int]:
    """Two times in nanoseconds as whole seconds between them, a second before the other one at the latest: what is
    answered then may have been asked in that second. Of two that are too near the second of the first."""
    first, last = before // SECOND + 1, after // SECOND - 1
    return (first, last) if first <= last else (first - 1, first - 1)


def span_of_seconds(seconds: float) -> str:
    """A length of time in words: `20.0 ms`, `12.5 s`, `3.2 min`, `5.0 h`, `2.1 days`."""
    if seconds < 1:
        return f"{seconds * 1000:.1f} ms"
    for size, name in ((DAY, "days"), (3600, "h"), (60, "min")):
        if seconds >= 2 * size:
            return f"{seconds / size:.1f} {name}"
    return f"{seconds:.1f} s"
