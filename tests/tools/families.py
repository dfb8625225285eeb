"""Captures made to be slow, in families: the same exchanges at every run, as many as are asked for, and claims about
them. An exchange stands here as the ends of its sample in ticks of 2^-32 s (a low end, which is its low mark too, and a
high end) and as the nanoseconds at which its request was sent and its reply came.
"""
import struct
from array import array
from collections.abc import Callable, Iterable, Iterator
from datetime import datetime, timezone
from pathlib import Path
from typing import NamedTuple

from tests.second.claims import Claim, changed
from tests.second.columns import TICKS
from tests.second.rules import BILLION, Sample, ceiling

BEGIN = 1_700_000_000
SECOND, DAY, CENTURY = 1, 86_400, 36_525 * 86_400
HALF = BILLION // 2
TO_1970 = 2_208_988_800 * TICKS
DISTANCE = 1
"""The root distance of all servers: the precision -32, no root delay, no root dispersion."""

WAY_NS = 20_000_000
"""Nanoseconds from a request to its reply, where nothing else is said."""

WIDTH = 42_000_000
"""Ticks on both sides of zero that a server of the right time leaves open: some 10 ms."""

CLIENT = bytes((192, 0, 2, 10))
MAX_SERVERS = 32
FILES = Path(__file__).resolve().parents[2] / "data" / "slow"

Row = tuple[int, int, int, int, int]
"""A server's number, the nanoseconds of request and reply, the low and the high end."""


# ---- exchanges
class Exchanges:
    """Exchanges in columns: servers, nanoseconds of request and reply, receive and transmit timestamps in Unix
    ticks."""

    def __init__(self, rows: Iterable[Row]) -> None:
        self.servers, columns = array("B"), [array("Q") for _ in range(4)]
        self.asked, self.answered, self.receive, self.transmit = columns
        for server, asked, answered, low, high in rows:
            self.servers.append(server)
            self.asked.append(asked)
            self.answered.append(answered)
            self.receive.append(asked * TICKS // BILLION - DISTANCE - low)
            self.transmit.append(-(-(answered + 1) * TICKS // BILLION) + DISTANCE - high)

    def __len__(self) -> int:
        return len(self.servers)

    def rows(self) -> Iterator[tuple[int, int, int, int, int]]:
        return zip(self.servers, self.asked, self.answered, self.receive, self.transmit)

    def samples(self, claim: Claim) -> list[Sample]:
        """What the capture says of each exchange, in the order of the replies."""
        allowance = ceiling(claim["reading_ns"] * TICKS, BILLION)

        def window(nanoseconds: int) -> tuple[int, int]:
            return nanoseconds * TICKS // BILLION - allowance, ceiling((nanoseconds + 1) * TICKS, BILLION) + allowance
        return [Sample(server, window(asked), window(answered), t2, t3, DISTANCE)
                for server, asked, answered, t2, t3 in self.rows()]


REQUEST, REPLY = struct.Struct(">II90sQ"), struct.Struct(">II74sQQQ")
LENGTHS = struct.pack(">II", 90, 90)


def frame(source: bytes, destination: bytes, ports: tuple[int, int], ntp: bytes) -> bytes:
    udp = struct.pack(">HHHH", *ports, 56, 0) + ntp
    return bytes(12) + struct.pack(">HBBHHHBBH4s4s", 0x0800, 0x45, 0, 76, 0, 0, 64, 17, 0, source, destination) + udp


def address(server: int) -> bytes:
    return bytes((192, 0, 2, 101 + server))


def blocks(exchanges: Exchanges) -> Iterator[bytes]:
    """The capture, some exchanges at a time: each request and then its reply, big-endian, in nanoseconds."""
    asks = [LENGTHS + frame(CLIENT, address(s), (40000, 123), b"\x23" + bytes(39)) for s in range(MAX_SERVERS)]
    answer = struct.pack(">BBbbII4sQ", 0x24, 1, 6, -32, 0, 0, b"GPS", 0)
    answers = [LENGTHS + frame(address(s), CLIENT, (123, 40000), answer) for s in range(MAX_SERVERS)]
    yield struct.pack(">IHHIIII", 0xA1B23C4D, 2, 4, 0, 0, 262144, 1)
    out = bytearray()
    for mark, (server, asked, answered, receive, transmit) in enumerate(exchanges.rows(), 0x5000000000000001):
        out += REQUEST.pack(*divmod(asked, BILLION), asks[server], mark)
        stamps = (receive + TO_1970) % 2**64, (transmit + TO_1970) % 2**64
        out += REPLY.pack(*divmod(answered, BILLION), answers[server], mark, *stamps)
        if len(out) > 1 << 20:
            yield bytes(out)
            out.clear()
    yield bytes(out)


def write(exchanges: Exchanges, path: Path) -> None:
    with open(path, "wb") as file:
        file.writelines(blocks(exchanges))


# ---- claims
def spelled(second: int) -> str:
    return datetime.fromtimestamp(second, timezone.utc).strftime("%Y-%m-%dT%H:%M:%SZ")


class Setting(NamedTuple):
    """What the claims of a family have in common."""
    servers: int
    false_max: int
    ppb: int
    seconds: int
    begin: int = BEGIN
    reading_ns: int = 0

    def claim(self, bound_ns: int, **changes: object) -> Claim:
        claim: Claim = {
            "client": "192.0.2.10", "servers": [f"192.0.2.{101 + server}" for server in range(self.servers)],
            "false_max": self.false_max, "from": spelled(self.begin), "to": spelled(self.begin + self.seconds),
            "bound_ns": min(max(0, bound_ns), 10**15), "drift_ppb": self.ppb, "reading_ns": self.reading_ns}
        return changed(claim, **changes)

    def drifted(self, ticks: int) -> int:
        """What the clock can have drifted over so many ticks."""
        return self.ppb * ticks // (BILLION - self.ppb)

    def spacing(self, places: int) -> int:
        """Nanoseconds between as many places in the span."""
        return max(1, self.seconds * BILLION // max(1, places))

    def need(self, places: int, width: int = WIDTH) -> int:
        """Nanoseconds that a server of the right time needs at the most, with exchanges at as many places."""
        drift = self.drifted((self.spacing(places) + WAY_NS + 2 * self.reading_ns) * TICKS // BILLION)
        return (width + drift) * BILLION // TICKS + 2 * self.reading_ns + 10


class Hostile(NamedTuple):
    """A capture of a family, and the claims about it by their names."""
    exchanges: Exchanges
    claims: dict[str, Claim]


# ---- servers that miss each other by a hair
def hairs(setting: Setting, count: int, gaps: tuple[int, ...]) -> Hostile:
    """Two servers of the right time, and two far ahead that miss each other by a hair all along the span: the low ends
    of one rise and fall with the clock's drift, and so do the high ends of the other, so many ticks below. If several
    numbers of ticks are given each holds for some places, and where it's below zero the two meet. Two of the four
    servers may be wrong. As soon as a piece is so long that the two meet its hull reaches to them."""
    places = max(1, count // 4)
    spacing, begin = setting.spacing(places - 1), setting.begin * BILLION
    period = spacing * max(1, places // 16)
    base = TICKS + 4 * setting.drifted(spacing * TICKS // BILLION)

    def line(place: int) -> int:
        return base + setting.drifted(abs(place * spacing % (2 * period) - period) * TICKS // BILLION)

    def rows() -> Iterator[Row]:
        for number in range(count):
            place, server = divmod(number, 4)
            moment, ahead = begin + place * spacing, line(place)
            if server < 2:
                yield server, moment, moment + WAY_NS, -WIDTH - number % 7, WIDTH + number % 5
            elif server == 2:
                low = ahead + gaps[place // 8 % len(gaps)] + setting.drifted(5)      # (a window has so many ticks)
                yield server, moment, moment + WAY_NS, low, low + WIDTH
            else:
                yield server, moment - WAY_NS, moment, ahead - WIDTH, ahead
    far = 2 * (base + setting.drifted(period * TICKS // BILLION)) * BILLION // TICKS + 10
    return Hostile(Exchanges(rows()), {"zero": setting.claim(0), "middle": setting.claim(setting.need(places - 1)),
                                       "far": setting.claim(far)})


def four(ppb: int, seconds: int = DAY, begin: int = BEGIN) -> Setting:
    return Setting(4, 2, ppb, seconds, begin)


# ---- one server, or servers that agree
def teeth(setting: Setting, count: int, width: int = WIDTH) -> Hostile:
    """Equal exchanges at equal distances, of all servers in turn."""
    spacing = setting.spacing(count)
    begin = setting.begin * BILLION
    rows = ((number % setting.servers, begin + number * spacing, begin + number * spacing + WAY_NS, -width, width)
            for number in range(count))
    need = setting.need(count // setting.servers, width)
    bounds = {"one": 1, "width": width * BILLION // TICKS, "half": (need + width * BILLION // TICKS) // 2, "need": need}
    return Hostile(Exchanges(rows), {name: setting.claim(bound) for name, bound in bounds.items()})


def equal(setting: Setting, count: int) -> Hostile:
    """One exchange again and again."""
    begin = setting.begin * BILLION
    rows = ((number % setting.servers, begin, begin + WAY_NS, -WIDTH, WIDTH) for number in range(count))
    need = setting.need(1)
    return Hostile(Exchanges(rows), {"zero": setting.claim(0), "need": setting.claim(need),
                                     "less": setting.claim(need // 2),
                                     "nobody": setting.claim(need, false_max=setting.servers),
                                     "one-left": setting.claim(need, false_max=setting.servers - 1)})


def one_moment(setting: Setting, count: int) -> Hostile:
    """All exchanges at one moment, each with other ends."""
    begin = setting.begin * BILLION
    rows = ((number % setting.servers, begin, begin + WAY_NS,
             -WIDTH + number * 7 % 10_007, WIDTH - number * 11 % 10_009) for number in range(count))
    need = setting.need(1)
    return Hostile(Exchanges(rows), {"zero": setting.claim(0), "need": setting.claim(need),
                                     "least": setting.claim(9_776_000)})


def nested(setting: Setting, count: int) -> Hostile:
    """Each exchange begins after the one before it, and ends before it: all lie around the middle of the span."""
    begin, length = setting.begin * BILLION, setting.seconds * BILLION
    inward = max(1, (length - BILLION // 100) // (2 * count + 2))
    rows = ((number % setting.servers, begin + number * inward, begin + length - number * inward,
             -WIDTH - number % 3, WIDTH + number % 5) for number in range(count))
    need = setting.need(1)
    return Hostile(Exchanges(rows), {"zero": setting.claim(0), "width": setting.claim(WIDTH * BILLION // TICKS),
                                     "need": setting.claim(need)})


def wide_windows(count: int) -> Hostile:
    """An allowance of a second, so that each window holds many others."""
    return teeth(Setting(3, 1, 100_000, DAY, BEGIN, BILLION), count)


def hour(count: int) -> Hostile:
    """An ordinary hour of four servers, two of which may be wrong and are 500 and 540 ms ahead of the clock."""
    setting = Setting(4, 2, 100_000, 3600, BEGIN, 100_000)
    spacing, state = setting.spacing(count), [1]

    def random(most: int) -> int:
        state[0] = (state[0] * 6364136223846793005 + 1442695040888963407) % 2**64
        return (state[0] >> 33) % most

    def rows() -> Iterator[Row]:
        for number in range(count):
            server, asked = number % 4, setting.begin * BILLION + number * spacing + random(spacing)
            out, back = 1_000_000 + random(15_000_000), 1_000_000 + random(15_000_000)
            ahead = (0, 0, TICKS * 500 // 1000, TICKS * 540 // 1000)[server]
            yield server, asked, asked + out + back, -ahead - out * TICKS // BILLION, -ahead + back * TICKS // BILLION
    bounds = {"small": 1000, "right": 40_000_000, "far": BILLION}
    return Hostile(Exchanges(rows()), {name: setting.claim(bound) for name, bound in bounds.items()})


# ---- conflicts
def conflicting(setting: Setting, count: int) -> Hostile:
    """Each server is a second ahead of the one before, so that all contradict each other. With a thousand times the
    drift some ticks have an empty hull, and longer pieces have none."""
    spacing, begin = setting.spacing(count), setting.begin * BILLION
    step = 4 * TICKS + 4 * setting.drifted(spacing * setting.servers * TICKS // BILLION)
    rows = ((number % setting.servers, begin + number * spacing, begin + number * spacing + WAY_NS,
             -WIDTH + number % setting.servers * step, WIDTH + number % setting.servers * step)
            for number in range(count))
    most, need = setting.servers - 1, setting.need(count // setting.servers)
    far = need + most * step * BILLION // TICKS
    return Hostile(Exchanges(rows), {"none": setting.claim(need, false_max=0),
                                     "some": setting.claim(need, false_max=setting.servers // 2),
                                     "all-but-one": setting.claim(need, false_max=most),
                                     "fast": setting.claim(need, false_max=0, drift_ppb=1000 * setting.ppb),
                                     "far": setting.claim(far, false_max=most)})


def in_pairs(setting: Setting, count: int) -> Hostile:
    """The two servers of a pair contradict each other whenever they are asked, and nobody else, since by the next
    pair's turn the clock may have drifted: as many covers as there are ways to choose."""
    spacing, begin = setting.spacing(count // 2), setting.begin * BILLION
    half = setting.drifted(WAY_NS * TICKS // BILLION) // 2 + 10

    def rows() -> Iterator[Row]:
        for number in range(count):
            place, side = divmod(number, 2)
            asked = begin + place * spacing
            low, high = (-WIDTH - half, -half) if side else (half, WIDTH + half)
            yield number % setting.servers, asked, asked + WAY_NS, low - place % 3, high + place % 2
    need = setting.need(max(1, count // setting.servers), 2 * WIDTH)
    return Hostile(Exchanges(rows()), {"zero": setting.claim(0), "half": setting.claim(need // 2),
                                       "need": setting.claim(need),
                                       "fewer": setting.claim(need, false_max=setting.servers // 2 - 1)})


def staggered(setting: Setting, count: int) -> Hostile:
    """Servers that all meet, each a little ahead of the one before."""
    spacing, begin = setting.spacing(count), setting.begin * BILLION
    shift = WIDTH // (2 * setting.servers)
    rows = ((number % setting.servers, begin + number * spacing, begin + number * spacing + WAY_NS,
             -WIDTH + number % setting.servers * shift, WIDTH + number % setting.servers * shift)
            for number in range(count))
    need = setting.need(count // setting.servers, 2 * WIDTH)
    return Hostile(Exchanges(rows), {"zero": setting.claim(0), "half": setting.claim(need // 2),
                                     "need": setting.claim(need),
                                     "fewer": setting.claim(need, false_max=setting.servers // 2)})


def last_conflicts(setting: Setting, count: int) -> Hostile:
    """Only the last exchange contradicts others, and only those close to it."""
    spacing, begin = setting.spacing(count), setting.begin * BILLION
    last = 4 * WIDTH + 2 * setting.drifted(2 * spacing * TICKS // BILLION)
    rows = ((number % setting.servers, begin + number * spacing, begin + number * spacing + WAY_NS,
             -WIDTH + (last if number == count - 1 else 0), WIDTH + (last if number == count - 1 else 0))
            for number in range(count))
    need = setting.need(count // setting.servers)
    return Hostile(Exchanges(rows), {"none": setting.claim(need, false_max=0), "one": setting.claim(need),
                                     "zero": setting.claim(0)})


# ---- many pieces
def many_pieces(count: int) -> Hostile:
    """Hairs so wide that some day takes 100,000 pieces: one claim needs a few less, the others need more."""
    setting = four(100_000, DAY * 11 // 10)
    exchanges, claims = hairs(setting, count, (setting.drifted(DAY * TICKS) // 100_000,))
    to = {part: spelled(BEGIN + DAY * part // 100) for part in (98, 102)}
    middle, small = claims["middle"]["bound_ns"], WIDTH * BILLION // TICKS // 2
    return Hostile(exchanges, {"fit": setting.claim(middle, to=to[98]), "over": setting.claim(middle, to=to[102]),
                               "refuted": setting.claim(small, to=to[102])})


# ---- the families
RATES = {"1ppb": 1, "10ppm": 10_000, "100ppm": 100_000, "half": HALF, "none": 0}


def hair(gap: int, rate: str, seconds: int = DAY) -> Callable[[int], Hostile]:
    begin = BEGIN if seconds < CENTURY else 946_684_800
    return lambda count: hairs(four(RATES[rate], seconds, begin), count, (gap,))


FAMILIES: dict[str, Callable[[int], Hostile]] = {
    **{f"hair-{gap}-{rate}": hair(gap, rate) for gap in (1, 100, 10_000) for rate in RATES},
    "hair-4-100ppm": hair(4, "100ppm"),
    "hair-1-100ppm-second": hair(1, "100ppm", SECOND),
    "hair-1-100ppm-century": hair(1, "100ppm", CENTURY),
    "hair-10000-half-second": hair(10_000, "half", SECOND),
    "gaps-100ppm": lambda count: hairs(four(100_000), count, (100, -100, 10_000, -1, 10_000, -10_000)),
    "gaps-half": lambda count: hairs(four(HALF), count, (100, -100, 10_000, -1, 10_000, -10_000)),
    "teeth-10ppm": lambda count: teeth(Setting(1, 0, 10_000, DAY), count, WIDTH // 10),
    "teeth-none": lambda count: teeth(Setting(1, 0, 0, DAY), count),
    "teeth-half": lambda count: teeth(Setting(1, 0, HALF, DAY), count),
    "teeth-second": lambda count: teeth(Setting(1, 0, 10_000, SECOND), count),
    "teeth-century": lambda count: teeth(Setting(1, 0, 10_000, CENTURY, 946_684_800), count),
    "teeth-32-servers": lambda count: teeth(Setting(32, 15, 100_000, DAY), count),
    "equal-one": lambda count: equal(Setting(1, 0, 10_000, DAY), count),
    "equal-three": lambda count: equal(Setting(3, 1, 10_000, DAY), count),
    "one-moment": lambda count: one_moment(Setting(8, 2, 10_000, 0), count),
    "one-moment-a-day": lambda count: one_moment(Setting(8, 2, 10_000, DAY), count),
    "nested": lambda count: nested(Setting(2, 0, 100_000, DAY), count),
    "wide-windows": wide_windows,
    "hour": hour,
    "conflict-32": lambda count: conflicting(Setting(32, 31, 100_000, DAY), count),
    "conflict-32-century": lambda count: conflicting(Setting(32, 31, 1, CENTURY, 946_684_800), count),
    "pairs-32": lambda count: in_pairs(Setting(32, 16, 100_000, DAY), count),
    "staggered-32": lambda count: staggered(Setting(32, 31, 100_000, DAY), count),
    "last-conflicts": lambda count: last_conflicts(Setting(3, 1, 100_000, DAY), count),
    "many-pieces": many_pieces,
}
