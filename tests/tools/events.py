"""Courses of events made at random: a clock, servers, exchanges, and the capture and the claim that go with them.

A course is made in whole numbers of a thousandth of a tick of 2^-32 s. Nothing here is shared with the program.
"""
import random
import struct
from collections.abc import Iterable, Sequence

from tests.second.claims import Claim
from tests.second.columns import TICKS
from tests.second.rules import BILLION, Sample, ceiling
from tests.tools.families import spelled

FINE = 1000                                   # parts of a tick: the fineness of every course
EPOCH = 2208988800                            # 1970 in seconds of NTP era 0
CLIENT = bytes((192, 0, 2, 10))


class Record:
    """A record of the capture, with the window of its stamp."""

    def __init__(self, stamped: int, unit: int) -> None:
        self.sec, self.sub = divmod(stamped * unit // (TICKS * FINE), unit)
        self.low = self.sec * TICKS + self.sub * TICKS // unit
        self.high = self.sec * TICKS + ceiling((self.sub + 1) * TICKS, unit)


def right_record(reading: int, unit: int, allowance: int, rng: random.Random) -> Record:
    """A record whose window, with the allowance, holds a reading of the client's clock."""
    record = Record(reading + FINE * rng.randint(-allowance, allowance), unit)
    assert FINE * (record.low - allowance) <= reading <= FINE * (record.high + allowance)
    return record


class Clock:
    """The client's clock: its error at each moment, by a walk within the drift rate from moment to moment."""

    def __init__(self, times: Sequence[int], ppb: int, error: int, rng: random.Random) -> None:
        self.error, self.at_second = {}, {}
        lean, before = rng.choice((-1, 0, 1)), times[0]

        def step(most: int) -> int:
            return lean * most if lean and rng.random() < 0.9 else rng.randint(-most, most)

        def whole(moved: int) -> int:
            # a whole tick on the way there, if there is one
            tick = FINE * (moved // FINE if moved > error else ceiling(moved, FINE))
            return tick if min(error, moved) <= tick <= max(error, moved) else moved
        for time in times:
            # on the way to this moment the clock passes some whole seconds
            for _ in range(2):
                second = (before + error) // (TICKS * FINE) + rng.choice((1, 1, 2, 5))
                gap = second * TICKS * FINE - (before + error)
                moved = whole(error + step(ppb * gap // (BILLION + ppb)))
                if before < (passed := second * TICKS * FINE - moved) < time:
                    self.error[passed] = self.at_second[second] = error = moved
                    before = passed
            error += step(ppb * (time - before) // BILLION)
            self.error[time], before = error, time

    def reading(self, time: int) -> int:
        return time + self.error[time]


def ethernet(source: bytes, destination: bytes, source_port: int, destination_port: int, payload: bytes) -> bytes:
    udp = struct.pack(">HHHH", source_port, destination_port, 8 + len(payload), 0) + payload
    ip = struct.pack(">BBHHHBBH4s4s", 0x45, 0, 20 + len(udp), 0, 0, 64, 17, 0, source, destination)
    return bytes(12) + struct.pack(">H", 0x0800) + ip + udp


def ntp(first: int, stratum: int, precision: int, delay: int, dispersion: int, stamps: Iterable[int]) -> bytes:
    return struct.pack(">BBbbII4s4Q", first, stratum, 6, precision, delay, dispersion, b"TEST", *stamps)


def stamp(ticks: int) -> int:
    return (ticks + EPOCH * TICKS) % (1 << 64)


class Exchange:
    """One request and its reply: the moments of the course, and what the packets say of them."""
    request: Record
    reply: Record

    def __init__(self, server: int, times: Sequence[int], says: Sequence[int], distance: tuple[int, int, int]) -> None:
        self.server, (self.t1, self.t2, self.t3, self.t4) = server, times
        self.receive, self.transmit = says
        self.delay, self.dispersion, self.precision = distance
        tick = 1 << (32 + self.precision) if self.precision >= -31 else 1
        self.distance = self.delay * 32768 + self.dispersion * 65536 + tick


def make_exchange(server: int, honest: bool, mean: int, start: int, rng: random.Random, *,
                  quick: bool = False) -> Exchange:
    """An exchange that begins about `start`: within its root distance where the server is honest.

    A mean course goes to the edge of what is allowed: the way out (or back) takes no time, and the server's stamp there
    is off by its whole root distance. Of a quick one no delay and no root distance is over a millisecond.
    """
    tail = rng.choice((0, TICKS // 1000) if quick else (0, TICKS // 1000, TICKS // 20, TICKS))
    gaps = [rng.randint(0, tail) * FINE if rng.random() < 0.8 else 0 for _ in range(3)]
    if mean and honest:
        gaps[0 if mean < 0 else 2] = 0
    t1 = start
    t2, t3, t4 = t1 + gaps[0], t1 + gaps[0] + gaps[1], t1 + sum(gaps)
    distance = (rng.choice((0, 1, 40)), rng.choice((0, 3, 7 if quick else 700)), rng.choice((-32, -24, -20)))
    room = Exchange(server, (t1, t2, t3, t4), (0, 0), distance).distance
    if honest and mean:
        says = [ceiling(t2, FINE) - room, t3 // FINE + room]
    elif honest:
        says = [time // FINE + rng.choice((-1, 0, 1)) * room * rng.randint(0, 1) for time in (t2, t3)]
        says = [said if abs(time - FINE * said) <= FINE * room else time // FINE for said, time in zip(says, (t2, t3))]
    else:
        wrong = rng.choice((0, TICKS, -TICKS, 7 * TICKS)) + rng.randint(-TICKS // 8, TICKS // 8)
        says = [time // FINE + wrong + rng.choice((0, rng.randint(-TICKS, TICKS))) for time in (t2, t3)]
    return Exchange(server, (t1, t2, t3, t4), says, distance)


class Course:
    """A course of events, with the capture and the claim that go with it."""

    def __init__(self, rng: random.Random) -> None:
        count = rng.randint(1, 7)
        self.groups = split_into_groups(count, rng)
        self.false_max = rng.randint(0, max(0, (len(self.groups) - 1) // 2))
        false = rng.sample(range(len(self.groups)), rng.randint(0, self.false_max))
        self.liars = sorted(server for group in false for server in self.groups[group])
        self.ppb = rng.choice((0, 1, 1000, 50000, 10**6, 5 * 10**8))
        self.unit = rng.choice((10**6, 10**9))
        self.reading_ns = rng.choice((0, 0, 1, 1000, 10**6))
        self.allowance = ceiling(self.reading_ns * TICKS, BILLION)
        self.first = rng.choice((10**9, 2085978490, 100))
        self.seconds = rng.choice((0, 1, 5, 40))
        self.mean = rng.choice((0, 0, -1, 1))
        begin = self.first * TICKS * FINE
        self.exchanges = []
        for server in range(count):
            for _ in range(rng.randint(1, 6)):
                start = begin + rng.randint(0, (self.seconds + 1) * TICKS) * FINE + rng.randint(0, FINE - 1)
                self.exchanges.append(make_exchange(server, server not in self.liars, self.mean, start, rng))
        self.exchanges.sort(key=lambda x: x.t4)
        self.run(begin, rng)

    def run(self, begin: int, rng: random.Random) -> None:
        """Lets the clock run through all moments, with many observations between them."""
        seen = [begin + rng.randint(-TICKS, (self.seconds + 1) * TICKS) * FINE for _ in range(60)]
        times = sorted({x.t1 for x in self.exchanges} | {x.t4 for x in self.exchanges} | {t for t in seen if t >= 0})
        error = self.mean * TICKS or rng.choice((0, 1, -1)) * rng.randint(0, TICKS // 50)
        self.clock = Clock(times, self.ppb, error * FINE, rng)
        for x in self.exchanges:
            x.request = right_record(self.clock.reading(x.t1), self.unit, self.allowance, rng)
            x.reply = right_record(self.clock.reading(x.t4), self.unit, self.allowance, rng)

    def worst(self) -> int:
        """The greatest error, in fine parts, at the moments whose reading lies in the span."""
        low, high = self.first * TICKS * FINE, (self.first + self.seconds) * TICKS * FINE
        return max((abs(e) for t, e in self.clock.error.items() if low <= t + e <= high), default=0)

    def capture(self) -> bytes:
        magic = 0xA1B2C3D4 if self.unit == 10**6 else 0xA1B23C4D
        records = []
        for number, x in enumerate(self.exchanges):
            server, mark = bytes((192, 0, 2, 20 + x.server)), 0x5000000000000001 + number
            asked = ntp(0x23, 0, 0, 0, 0, (0, 0, 0, mark))
            told = ntp(0x24, 1, x.precision, x.delay, x.dispersion, (1, mark, stamp(x.receive), stamp(x.transmit)))
            records.append((x.t1, x.request, ethernet(CLIENT, server, 40000, 123, asked)))
            records.append((x.t4, x.reply, ethernet(server, CLIENT, 123, 40000, told)))
        records.sort(key=lambda r: r[0])
        order = [r for _, r, _ in records]
        self.exchanges.sort(key=lambda x: order.index(x.reply))
        self.records = [(order.index(x.request), order.index(x.reply)) for x in self.exchanges]
        out = [struct.pack("<IHHIIII", magic, 2, 4, 0, 0, 262144, 1)]
        out += [struct.pack("<IIII", r.sec, r.sub, len(frame), len(frame)) + frame for _, r, frame in records]
        return b"".join(out)

    def samples(self) -> list[Sample]:
        """What the capture says of each exchange, in the order of the replies."""
        def allowed(record: Record) -> tuple[int, int]:
            return record.low - self.allowance, record.high + self.allowance
        return [Sample(x.server, allowed(x.request), allowed(x.reply), x.receive, x.transmit, x.distance)
                for x in self.exchanges]

    def claim(self, bound_ns: int) -> Claim:
        return {"client": "192.0.2.10", "servers": [f"192.0.2.{20 + s}" for s in range(sum(map(len, self.groups)))],
                "groups": self.groups, "false_max": self.false_max, "from": spelled(self.first),
                "to": spelled(self.first + self.seconds), "bound_ns": bound_ns, "drift_ppb": self.ppb,
                "reading_ns": self.reading_ns}


def split_into_groups(count: int, rng: random.Random) -> list[list[int]]:
    groups: list[list[int]] = []
    for server in range(count):
        if groups and rng.random() < 0.3:
            rng.choice(groups).append(server)
        else:
            groups.append([server])
    return groups


class StampedCourse(Course):
    """A course whose stamps are off by up to 20 ms, with no allowance for it. Its paths and servers are quick."""

    def __init__(self, rng: random.Random) -> None:
        count = rng.randint(1, 6)
        self.groups = split_into_groups(count, rng)
        self.false_max = rng.randint(0, (len(self.groups) - 1) // 2)
        false = rng.sample(range(len(self.groups)), self.false_max)
        self.liars = sorted(server for group in false for server in self.groups[group])
        self.ppb, self.unit = rng.choice((0, 1000, 50000)), rng.choice((10**6, 10**9))
        self.reading_ns = self.allowance = 0
        self.first, self.seconds, self.mean = rng.choice((10**9, 2085978490)), rng.choice((1, 5, 10)), 0
        begin, self.exchanges = self.first * TICKS * FINE, []
        for server in range(count):
            for _ in range(rng.randint(1, 4)):
                moment = begin + rng.randint(0, self.seconds * TICKS) * FINE + rng.randint(0, FINE - 1)
                self.exchanges.append(make_exchange(server, server not in self.liars, 0, moment, rng, quick=True))
        self.run(begin, rng)

    def stamp(self, way: int, rng: random.Random) -> None:
        """Requests are stamped 5 to 20 ms early and replies as much late, or the other way about (-1)."""
        for x in self.exchanges:
            early, late = (way * FINE * rng.randint(TICKS // 200, TICKS // 50) for _ in range(2))
            x.request = Record(self.clock.reading(x.t1) - early, self.unit)
            x.reply = Record(self.clock.reading(x.t4) + late, self.unit)
