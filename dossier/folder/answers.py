"""What the program prints, taken apart by the names of its fields. A number stays the number that was printed."""
import re
from typing import NamedTuple

from ..schema import read_typed
from ..units import TICKS
from .entry import NO_EVIDENCE, NOTHING_FITS, OPEN, REFUTED, YES, Answer, Hull, Refutation
from .files import REFUTATION


def read_hull(words: list[str]) -> Hull:
    """Two ends in ticks, or one of the words `unbounded` and `empty`; what stands behind them isn't looked at."""
    if words[0] == "empty":
        return "empty"
    return "unbounded" if words[0] == "unbounded" else (int(words[0]), int(words[1]))


def read_moment(line: str) -> tuple[str, tuple[int, int] | None]:
    """A line of `at --times`: the reading as it is written, and the Unix ticks between which true time lay then, if the
    hull has ends."""
    words = line.split(" ")
    if len(words) < 8:
        return words[1], None
    low, high, earliest, latest = (int(words[at]) for at in (3, 4, 6, 7))
    more = in_era((earliest + high) // TICKS, low, high)[0] - low
    return words[1], (earliest - more, latest - more)


def read_counts(line: str) -> dict[str, int]:
    """The counts line: a name and a number, one after the other."""
    words = line.split()
    return {name: int(number) for name, number in zip(words[::2], words[1::2])}


class Settled(NamedTuple):
    """What `settle` says: its answer; and a refutation; or the conflicts, each with the server and the record of a
    request and the server and the record of a reply; or a tick that is left open, in Unix ticks, and its hull; or how
    many groups have a sample."""

    answer: Answer
    refutation: Refutation | None = None
    conflicts: list[tuple[str, int, str, int]] = []
    tick: int = 0
    hull: Hull | None = None
    heard: int = 0
    by_covers: bool = False
    """The certificate is one by covers: none of pieces shows the claim, so their least bound isn't the clock's."""


def read_settled(text: bytes) -> Settled:
    """What `settle` printed."""
    if text.startswith((b'{"pieces"', b'{"cases"')):
        return Settled(YES, by_covers=text.startswith(b'{"cases"'))
    if text.startswith(b"{"):
        return Settled(REFUTED, refutation=read_typed(REFUTATION, Refutation, text))
    *lines, last = [line.split() for line in text.decode("ascii").splitlines()]
    if last[0] == "open":
        return Settled(OPEN, tick=int(last[1]), hull=read_hull(last[4:]))
    if last[0] == "no":
        return Settled(NO_EVIDENCE, heard=int(last[3]))
    conflicts = [(low, int(request), high, int(reply)) for _, low, request, high, reply in lines]
    return Settled(NOTHING_FITS, conflicts=conflicts)


def read_caught(report: bytes) -> list[tuple[str, int, str, int]]:
    """The conflicts in a report of `check` on a certificate by covers."""
    lines = [line.split() for line in report.decode("ascii").splitlines()]
    return [(words[1], int(words[2]), words[3], int(words[4])) for words in lines if words[0] == "conflict"]


def read_advice(report: bytes) -> dict[str, str]:
    """The advice in a report of `check`: the number of sources, or the one reference, if there are too few."""
    lines = [line.split() for line in report.decode("ascii").splitlines()]
    return {words[1]: words[2] for words in lines if words[0] == "advice"}


ERA, SINCE = 1 << 32, 1_577_836_800
"""Seconds after which NTP's timestamps come again; and 2020-01-01, since which for so long servers' times are."""


def in_era(second: int, low: int, high: int) -> tuple[int, int]:
    """An error in ticks at a reading: one by which UTC would be past 2155 is one of more than 68 years, which the
    program can't tell from it, since timestamps come again."""
    more = TICKS * ERA * ((second - high // TICKS - SINCE) >= ERA)
    return low + more, high + more


class Envelope(NamedTuple):
    """The envelope, in columns: begins and ends in Unix seconds, hulls, and of each server by its address the low ends
    and the high ends of its intervals, in ticks."""

    begins: list[int]
    ends: list[int]
    hulls: list[Hull]
    servers: dict[str, tuple[list[int], list[int]]]
    least_ns: int | None
    """The least bound that a certificate carries, if it was asked for and there is one; None also if a piece has no
    hull with two ends."""
    worst: int
    """The piece that needs the least bound, or the first that is unbounded or empty."""


PIECE = "piece", "begin", "end", "low", "high"
SERVER = "piece", "server", "low", "high"
CLOSING = "name", "bound", "word", "piece"
"""The fields of the lines of `envelope`, as far as they are read: of a piece, of a server in it, and of a line at the
end, which begins with a name."""


def read_envelope(text: bytes) -> Envelope:
    """Takes the text of `envelope` apart, with or without servers."""
    lines, closing = lines_of(text)
    width, servers = width_of(lines), {}
    for place in range(width):
        words, fields = " ".join(lines[place :: width + 1]).split(" "), len(lines[place].split(" "))
        column = {name: words[at::fields] for at, name in enumerate(SERVER)}
        servers[column["server"][0]] = list(map(int, column["low"])), list(map(int, column["high"]))
    pieces = [dict(zip(PIECE, line.split())) for line in lines[width :: width + 1]]
    bound, least = closing["bound_ns"], closing.get("least_ns", {"bound": "none"})
    has_least = "none" not in (bound["bound"], least["bound"])
    envelope = Envelope([int(piece["begin"]) for piece in pieces], [int(piece["end"]) for piece in pieces],
                        [read_hull([piece["low"], piece.get("high", "")]) for piece in pieces], servers,
                        int(least["bound"]) if has_least else None, int((least if has_least else bound)["piece"]))
    return envelope if envelope.ends[-1] < SINCE + ERA // 2 else in_eras(envelope)


def in_eras(one: Envelope) -> Envelope:
    """An envelope of readings from which UTC may be more than 68 years away."""
    hulls = [hull if isinstance(hull, str) else in_era(begin, *hull) for begin, hull in zip(one.begins, one.hulls)]
    own = {server: [in_era(*ends) for ends in zip(one.begins, *both)] for server, both in one.servers.items()}
    servers = {server: ([low for low, _ in ends], [high for _, high in ends]) for server, ends in own.items()}
    return one._replace(hulls=hulls, servers=servers)


def read_envelopes(text: bytes) -> list[Envelope]:
    """Takes envelopes apart that stand one behind the other."""
    return [read_envelope(one) for one in re.findall(rb"(?:\d.*\n)+(?:[a-z].*\n)+", text)]


def joined(envelopes: list[Envelope]) -> Envelope:
    """Envelopes as one, in the order of their begins, for a picture: a server that one of them hasn't has an interval
    there that holds nothing."""
    pieces = sorted((envelope.begins[k], number, k) for number, envelope in enumerate(envelopes)
                    for k in range(len(envelope.begins)))
    servers = dict.fromkeys(server for envelope in envelopes for server in envelope.servers)

    def ends_of(server: str, side: int) -> list[int]:
        return [envelopes[number].servers[server][side][k] if server in envelopes[number].servers else 1 - side
                for _, number, k in pieces]
    return Envelope([begin for begin, _, _ in pieces], [envelopes[number].ends[k] for _, number, k in pieces],
                    [envelopes[number].hulls[k] for _, number, k in pieces],
                    {server: (ends_of(server, 0), ends_of(server, 1)) for server in servers}, None, 0)


def lines_of(text: bytes) -> tuple[list[str], dict[str, dict[str, str]]]:
    """The lines of pieces, which begin with a number; and the fields of the closing ones by their names."""
    lines, closing = text.decode("ascii").splitlines(), dict[str, dict[str, str]]()
    while not lines[-1][0].isdigit():
        fields = dict(zip(CLOSING, lines.pop().split()))
        closing[fields["name"]] = fields
    return lines, closing


def width_of(lines: list[str]) -> int:
    """How many lines of each piece come before its hull's: one for each server with a sample. The hull's alone has no
    address in it."""
    return next(k for k, line in enumerate(lines) if "." not in line)
