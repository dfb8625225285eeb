"""A history: what a clock, servers and recorders did, what was recorded of it, and what is claimed."""
import random
from datetime import datetime, timezone
from typing import Any, NamedTuple

from tests.truth.clock import BILLION, FAST, SECOND, STEP, Clock, Event
from tests.truth.network import Exchange, Network, Packet, Server, paired

DAY = 86_400 * SECOND
LEAP = 1_782_864_000 * SECOND
"""Where the one day begins before which the list has a leap second, 2026-07-01."""
CLIENT = "10.9.0.1"


def civil(time: int) -> str:
    """Unix nanoseconds in the form of a claim's times."""
    return datetime.fromtimestamp(time // SECOND, timezone.utc).strftime("%Y-%m-%dT%H:%M:%SZ")


class Recorder(NamedTuple):
    """A file, the true times between which it was written, whether its end is torn, by how many nanoseconds its
    interface stamps requests earlier and replies later, and how far its clock is ahead of the machine's. Two may write
    one file."""
    name: str
    begin: int
    end: int
    is_torn: bool = False
    above: int = 0
    ahead: int = 0

    def sees(self, packet: Packet) -> Packet:
        return packet._replace(stamp=packet.stamp + self.ahead + self.above * (1 if packet.is_reply else -1))


class Trouble(NamedTuple):
    """What was wrong, between which true times, and whose it was."""
    kind: str
    begin: int
    end: int
    servers: tuple[str, ...] = ()


class History:
    """Four near servers and a clock that keeps its time, if nothing else is set before `live` is called."""

    def __init__(self, seed: int, begin: int = 20_000 * DAY, poll: int = 64, number: int = 60, servers: int = 4,
                 near: float = 0.3):
        self.seed, self.rng, self.kinds = seed, random.Random(str(seed)), list[str]()
        self.poll, self.begin, self.end = poll * SECOND, begin, begin + poll * SECOND * number
        self.first, self.last, self.leap = self.begin, self.end, 1 << 62
        self.ppb, self.amplitude, self.aim, self.returns = 100_000, 200_000, 0, False
        self.events, self.troubles = list[Event](), list[Trouble]()
        self.servers = [Server(f"10.9.1.{k + 1}", self.rng, near) for k in range(servers)]
        self.groups, self.false_max = [[k] for k in range(servers)], (servers - 1) // 2
        self.recorders = [Recorder("eth0-0.pcap", self.begin, self.end)]
        self.lost, self.outages, self.flood = 0.0, list[tuple[int, int]](), 0
        self.bound, self.unit, self.recorder = 50_000_000, SECOND, ""
        self.client, self.claimed = CLIENT, [server.address for server in self.servers]

    @property
    def length(self) -> int:
        return self.end - self.begin

    def live(self) -> "History":
        """Has all happen."""
        rng = self.rng
        last = self.aim + sum(event.size for event in self.events)
        life = (max(self.begin - DAY, min(self.begin, self.first - self.aim - SECOND)) - SECOND,
                min(self.end + DAY, max(self.end, self.last - last + SECOND)) + SECOND)
        self.clock = Clock(rng, life, (self.begin, self.end), self.ppb, self.poll, self.amplitude, self.aim,
                           self.events, self.leap, self.returns)
        self.packets = Network(rng, self.clock, self.servers, self.poll, (self.begin, self.end), self.lost,
                               self.outages).packets
        self.troubles += [Trouble(STEP, jump.begin, jump.end) for jump in self.clock.jumps]
        self.troubles += [Trouble(FAST, event.begin, event.end) for event in self.clock.fast]
        self.files: dict[str, list[Packet]] = {recorder.name: [] for recorder in self.recorders}
        for recorder in self.recorders:
            self.files[recorder.name] += [recorder.sees(packet) for packet in self.packets
                                          if recorder.begin <= packet.at < recorder.end]
            self.files[recorder.name].sort(key=lambda packet: (packet.at, packet.stamp))
        self.torn = {recorder.name: self.files[recorder.name].pop() for recorder in self.recorders
                     if recorder.is_torn and self.files[recorder.name]}
        self.again = {packet for own in self.files.values() for packet in own}
        """All records; of those of one packet the earliest counts, or the latest of a reply."""
        ordered = sorted(self.again, key=lambda packet: -packet.stamp if packet.is_reply else packet.stamp)
        self.recorded = sorted({(packet.nonce, packet.is_reply): packet for packet in reversed(ordered)}.values(),
                               key=lambda packet: packet.at)
        self.exchanges: list[Exchange] = paired(self.recorded)
        return self

    def cut(self, begin: int, end: int, is_torn: bool = False) -> None:
        """A recorder stops, and another one begins, perhaps later."""
        last = self.recorders[-1]
        if last.begin < begin < last.end:
            self.recorders[-1] = last._replace(end=begin, is_torn=is_torn)
            if end < last.end:
                self.recorders.append(Recorder(f"eth0-{len(self.recorders)}.pcap", end, last.end))

    @property
    def width(self) -> int:
        """How far beside the truth the hull may be, in nanoseconds."""
        return self.ppb * 3 * self.poll // BILLION + max(2 * server.way + server.distance for server in self.servers)

    @property
    def claim(self) -> dict[str, Any]:
        groups = {} if len(self.groups) == len(self.servers) else {"groups": self.groups}
        return {"client": self.client, "servers": self.claimed, "false_max": self.false_max,
                "from": civil(self.first), "to": civil(self.last), "bound_ns": self.bound, "drift_ppb": self.ppb,
                "reading_ns": 0, **groups}
