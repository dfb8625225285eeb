"""Histories drawn by seeds: up to three troubles at once, anywhere about the span."""
import random

from tests.truth import network
from tests.truth.clock import BILLION, FAST, OFF, SECOND, STEP, Event
from tests.truth.history import CLIENT, DAY, LEAP, History, Recorder, Trouble

KINDS = {STEP: 30, FAST: 9, "suspend": 7, "reboot": 6, "leap": 4, network.OFF: 6, network.CREEPING: 6, network.PART: 8,
         network.SILENT: 5, "camps": 5, "gap": 9, "outage": 8, "overlap": 5, "torn": 4, "rotated": 3, "lost": 4,
         "flood": 4, "mistake": 4}
"""Kinds of trouble, and how often they are drawn."""
OF_SERVERS = network.OFF, network.CREEPING, network.PART, network.SILENT, "camps"


def log_uniform(rng: random.Random, low: float, high: float) -> int:
    return int(low * (high / low) ** rng.random())


class Drawn(History):
    """A history of troubles that are drawn, and of when it begins, if that isn't given."""

    def __init__(self, seed: int, then: int | None = None):
        rng = random.Random(seed)
        kinds = rng.choices(list(KINDS), list(KINDS.values()), k=rng.choice((0, 1, 1, 2, 2, 2, 3, 3)))
        poll, number = rng.choice((16, 16, 32, 64, 64, 64, 128, 256, 1024)), rng.choice((20, 40, 60, 90))
        length, has_leap = poll * number * SECOND, "leap" in kinds
        begin = (LEAP if has_leap else rng.randint(20_000, 20_500) * DAY) + rng.choice(
            (0, -length * rng.randint(0, 100) // 100, 0 if has_leap else rng.randrange(DAY)))
        begin = begin if then is None else then
        super().__init__(seed, begin, poll, number, rng.choice((1, 2, 3, 4, 4, 4, 5, 6)), rng.choice((0.05, 0.3, 1.0)))
        self.rng, self.kinds, self.more = rng, list(dict.fromkeys(kinds)), random.Random(f"more {seed}")
        self.first = self.whole(self.begin + self.length * rng.choice((-1, 0, 1, 5, 15, 30)) // 100)
        last = self.begin + self.length * rng.choice((60, 85, 95, 100, 101)) // 100
        self.last = max(self.first + SECOND, self.whole(last))
        self.ppb = rng.choice((15_000, 50_000, 100_000, 100_000, 200_000, 600_000))
        self.amplitude, self.returns = log_uniform(rng, 50_000, 20_000_000), rng.random() < 0.3
        if len(self.servers) > 3 and rng.random() < 0.25:
            self.groups[-2:] = [[len(self.servers) - 2, len(self.servers) - 1]]
        self.false_max = rng.choice((0, *2 * [(len(self.groups) - 1) // 2]))
        self.lost, self.unit = rng.choice((0, 0.01, 0.05)), rng.choice((SECOND, SECOND, SECOND, 10**6))
        for kind in self.kinds:
            self.draw(kind)
        self.recorder = rng.choice(("", "", "", "", CLIENT, "10.9.0.7"))
        self.live()
        self.bound = self.bounded()

    @staticmethod
    def whole(time: int) -> int:
        return time // SECOND * SECOND

    def place(self) -> int:
        """A true time for a trouble: within the span, at an edge of it within a minute, or some polls, or anywhere."""
        rng, edge = self.rng, self.rng.choice((self.first, self.last))
        where = rng.choice(("in", "in", "in", "minute", "minute", "polls", "any", "any"))
        if where == "in":
            return rng.randrange(self.first, self.last)
        if where == "minute":
            return edge + rng.randint(-60, 60) * SECOND
        if where == "polls":
            return edge + rng.randint(-3 * self.poll, 3 * self.poll)
        return rng.randrange(self.begin, self.end)

    def size(self) -> int:
        """By how much a clock is stepped."""
        size = self.rng.choice((log_uniform(self.rng, 10**6, 10**9), log_uniform(self.rng, 10**6, 10**9),
                                log_uniform(self.rng, 10**9, 3600 * 10**9), log_uniform(self.rng, 10**9, DAY)))
        return size * self.rng.choice((-1, 1))

    def draw(self, kind: str) -> None:
        rng, time = self.rng, self.place()
        while_ = log_uniform(rng, self.poll, self.length / 2)
        if kind == STEP:
            size = self.size()
            if rng.random() < 0.5:  # (it mends the clock, which was off before: by its reading it is elsewhere)
                self.aim -= size
                time += rng.choice((0, 0, size))
            self.events.append(Event(STEP, time, time, size))
            if rng.random() < 0.25:  # (and another one follows)
                time = max(time + 10 * SECOND, self.place())
                self.events.append(Event(STEP, time, time, rng.choice((-size, self.size()))))
            if self.more.random() < 0.15:  # (and another one soon)
                time += self.more.randint(2, 45) * SECOND
                self.events.append(Event(STEP, time, time, self.more.choice((-size, size // 3, SECOND, -SECOND))))
        elif kind == FAST:
            rate = log_uniform(rng, 3 * self.ppb, max(4 * self.ppb, 20_000_000)) * rng.choice((-1, 1))
            while_ = log_uniform(rng, 5 * SECOND, 4 * self.poll)
            size = rate * while_ // BILLION
            self.aim -= size * (rng.random() < 0.3)
            self.events.append(Event(FAST, time, time + while_, size))
        elif kind in ("suspend", "reboot"):
            jump = rng.choice((0, rng.randint(-SECOND, SECOND), rng.randint(-SECOND, SECOND) // 50))
            self.events.append(Event(OFF, time, time + while_, jump))
            self.troubles.append(Trouble(OFF, time, time + while_))
            if kind == "reboot":
                self.cut(time, time + while_)
                if jump and rng.random() < 0.6:
                    then = time + while_ + log_uniform(rng, 10**9, 5 * self.poll)
                    self.events.append(Event(STEP, then, then, -jump))
        elif kind == "leap":
            self.leap = LEAP
            self.troubles.append(Trouble("leap", LEAP, LEAP))
            if rng.random() < 0.4:  # (it isn't inserted, and perhaps mended later)
                self.events.append(Event(STEP, LEAP, LEAP, SECOND))
                if rng.random() < 0.6:
                    then = LEAP + log_uniform(rng, 10**9, 5 * self.poll)
                    self.events.append(Event(STEP, then, then, -SECOND))
        elif kind in OF_SERVERS:
            self.draw_server(kind, time, while_)
        elif kind == "outage":
            self.outages.append((time, time + while_))
            self.troubles.append(Trouble(kind, time, time + while_))
        elif kind in ("gap", "torn"):
            end = time + while_ if rng.random() < 0.8 else self.end
            self.cut(time, end, kind == "torn")
            self.troubles.append(Trouble("gap", time, end))
        elif kind == "rotated":
            self.cut(time, time)
        elif kind == "overlap":
            first = self.recorders[-1]
            self.recorders[-1] = first._replace(end=min(first.end, time + while_))
            second = Recorder(f"eth0-{len(self.recorders)}.pcap", max(first.begin, time), first.end)
            other = random.Random(f"above {self.seed}")
            if other.random() < 0.5:  # (by another interface, or by all into one file)
                name, above = other.choice((first.name, second.name)), other.choice((3000, 20_000))
                second = second._replace(name=name, above=above)
            self.recorders.append(second)
        elif kind == "lost":
            self.lost = rng.uniform(0.1, 0.5)
        elif kind == "mistake":
            self.mistake()
        else:
            self.flood = rng.randint(50, 400)

    def mistake(self) -> None:
        """What somebody got wrong: the client, the servers, the times, or what was recorded."""
        wrong = self.rng.choice(("client", "servers", "span", "unanswered", "empty"))
        if wrong == "client":
            self.client = "10.9.0.9"
        elif wrong == "servers":
            self.claimed = [f"10.9.8.{k + 1}" for k in range(len(self.servers))]
        elif wrong == "span":
            off = self.rng.choice((-1, 1)) * self.rng.choice((3600, 86_400)) * SECOND
            self.first, self.last = self.first + off, self.last + off
        elif wrong == "unanswered":
            self.outages.append((self.begin, self.end))
        else:
            self.recorders = [Recorder("eth0-0.pcap", self.end, self.end)]
        self.troubles.append(Trouble("mistake", self.begin, self.end))

    def draw_server(self, kind: str, time: int, while_: int) -> None:
        rng = self.rng
        whole = rng.sample(self.servers, min(len(self.servers), rng.choice((1, 1, 1, 2)))) if kind != "camps" else \
            self.servers[: max(1, len(self.servers) // 2)]
        off = log_uniform(rng, 2_000_000, rng.choice((100, 10_000)) * SECOND // 1000) * rng.choice((-1, 1))
        for server in whole:
            server.kind, server.off = kind if kind != "camps" else network.OFF, off
            if kind != "camps" and rng.random() < 0.5:
                off = -off // 2
            if kind in (network.PART, network.SILENT):
                server.begin, server.end = time, time + while_
            if kind == network.CREEPING:
                server.begin, server.off = time, 0
                server.rate = off * SECOND // max(SECOND, self.end - time)
        self.troubles.append(Trouble(kind, whole[0].begin, whole[0].end, tuple(server.address for server in whole)))

    def bounded(self) -> int:
        """A bound, in nanoseconds: mostly with room for what can be known, else a tight one, or a wide one."""
        rng, wide = self.rng, self.width
        own: int = self.amplitude + wide * rng.choice((2, 3, 5, 5, 8)) if rng.random() < 0.75 else rng.choice(
            (wide // 2, wide, self.amplitude, SECOND, SECOND // 10))
        digits = 10 ** max(0, len(str(own)) - 2)
        return max(1, int(-(-own // digits) * digits))
