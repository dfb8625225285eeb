"""Forms of sentences: a text with places for times, ranges, servers and numbers, and what is read in these places."""
import re
from calendar import timegm
from collections.abc import Callable
from time import strptime
from typing import Any, NamedTuple

from tests.truth.clock import SECOND

TIME = r"\d{4}-\d\d-\d\d \d\d:\d\d:\d\d"
WHEN = rf"(?:(?:[Ff]rom|[Bb]etween) {TIME} (?:to|and) (?:{TIME}|\d\d:\d\d:\d\d)|[Aa]t {TIME})" \
    r"(?: (?:before|behind) the (?:\w+ )?step)?"
NUMBER = r"-?[\d,]+(?:\.\d+)?"
SERVER = r"\d+\.\d+\.\d+\.\d+"
ORDINALS = "first", "second", "third", "fourth", "fifth", "sixth", "seventh", "eighth"
UNITS = {"ms": 10**6, "s": SECOND, "min": 60 * SECOND, "h": 3600 * SECOND, "days": 86_400 * SECOND}


def time_of(text: str) -> int:
    return timegm(strptime(text, "%Y-%m-%d %H:%M:%S")) * SECOND


def civil_of(text: str) -> int:
    return time_of(text.replace("T", " ").removesuffix("Z"))


def number_of(text: str) -> int:
    return int(text.replace(",", ""))


def ms_of(text: str) -> int:
    """Milliseconds in nanoseconds."""
    whole, _, part = text.replace(",", "").removesuffix(" ms").partition(".")
    found = abs(int(whole)) * 10**6 + int(part.ljust(6, "0")[:6] or 0)
    return -found if whole.startswith("-") else found


class When(NamedTuple):
    """Two times; and behind how many moves of the clock that is, if it is said."""
    first: int
    last: int
    moves: int | None = None


def when_of(text: str) -> When:
    """The two times of `from .. to ..`, the second perhaps without its day, or the one of `at ..`."""
    found = re.findall(rf"{TIME}|\d\d:\d\d:\d\d", text)
    first, last = found[0], found[-1]
    side = re.search(r"(before|behind) the (\w+ )?step", text)
    moves = None if not side else 0 if side[1] == "before" else \
        ORDINALS.index(side[2].strip()) + 1 if side[2] else 1
    return When(time_of(first), time_of(last if len(last) > 8 else f"{first[:10]} {last}"), moves)


def range_of(text: str) -> tuple[int, int]:
    low, high = text.removesuffix(" ms").split(" to ")
    return ms_of(low), ms_of(high)


def length_of(text: str) -> int:
    number, unit = text.split(" ")
    return int(float(number.replace(",", "")) * UNITS[unit])


RANGE = rf"{NUMBER} to {NUMBER} ms"
OFF = rf"({RANGE}) (ahead of|behind) UTC ({WHEN})"
MOVE = rf"stepped(, or moved at [\d,]+ ppm or more,)? ({WHEN}) by ({RANGE})"
CAMP = rf"({SERVER}(?:(?:, | and ){SERVER})*) says? ({RANGE})"


def listing(pattern: str) -> str:
    """A pattern of some, with no groups in it."""
    one = re.sub(r"\((?!\?)", "(?:", pattern)
    return rf"{one}(?:(?:, | and ){one})*"


def off_of(text: str) -> list[tuple[tuple[int, int], When]]:
    """Errors, with their signs, and when."""
    found = []
    for errors, side, when in re.findall(OFF, text):
        low, high = range_of(errors)
        found.append(((low, high) if side == "ahead of" else (-high, -low), when_of(when)))
    return found


def moves_of(text: str) -> list[tuple[int, When, tuple[int, int]]]:
    """The least rate in parts of a million (0 if it is a step alone), when, and by how much."""
    return [(int(re.sub(r"\D", "", rate) or 0), when_of(when), range_of(errors))
            for rate, when, errors in re.findall(MOVE, text)]


def camps_of(text: str) -> list[tuple[list[str], tuple[int, int]]]:
    return [(re.findall(SERVER, servers), range_of(errors)) for servers, errors in re.findall(CAMP, text)]


KINDS: dict[str, tuple[str, Callable[[str], Any]]] = {
    "time": (TIME, time_of),
    "when": (WHEN, when_of),
    "whens": (listing(WHEN), lambda text: [when_of(one) for one in re.findall(WHEN, text)]),
    "range": (rf"{NUMBER} to {NUMBER} ms", range_of),
    "ranges": (listing(rf"{RANGE} {WHEN}"), lambda text: [(range_of(one), when_of(when)) for one, when in
                                                          re.findall(rf"({RANGE}) ({WHEN})", text)]),
    "offs": (listing(OFF), off_of),
    "moves": (listing(MOVE), moves_of),
    "camps": (listing(CAMP), camps_of),
    "spans": (r'"from": "[^"]+", "to": "[^"]+"(?:(?:, | and )"from": "[^"]+", "to": "[^"]+")*',
              lambda text: [When(*map(civil_of, ends))
                            for ends in re.findall(r'"from": "(.+?)", "to": "(.+?)"', text)]),
    "ms": (rf"{NUMBER} ms", ms_of),
    "n": (r"[\d,]+", number_of),
    "server": (SERVER, str),
    "servers": (rf"{SERVER}(?:(?:, | and ){SERVER})*", lambda text: re.findall(SERVER, text)),
    "length": (rf"{NUMBER} (?:ms|s|min|h|days)", length_of),
    "number": (NUMBER, str),
    "words": (r".*?", str),
}


class Form(NamedTuple):
    pattern: re.Pattern[str]
    kinds: list[str]

    def read(self, text: str) -> tuple[int, list[Any]] | None:
        """Where a text that begins with this form goes on, and what stands in its places."""
        if not (found := self.pattern.match(text)):
            return None
        return found.end(), [KINDS[kind][1](value) for kind, value in zip(self.kinds, found.groups())
                             if value is not None]


def form_of(template: str) -> Form:
    """A template is a pattern in which a full stop is one, and `<when>` and so on are places; what else is in brackets
    isn't kept."""
    kinds = re.findall(r"<(\w+)>", template)
    pattern = re.sub(r"(?<!\\)\((?!\?)", "(?:", template).replace(".", r"\.").replace(r"\\.", r"\.")
    pattern = re.sub(r"<(\w+)>", lambda place: f"({KINDS[place[1]][0]})", pattern)
    return Form(re.compile(pattern), kinds)
