"""Servers, and the exchanges with them: what each server's clock is off, who asks whom and when, and what of it passes
the client's interface."""
import random
from typing import NamedTuple

from tests.truth.clock import SECOND, Clock

TICKS = 1 << 32
EPOCH = 2_208_988_800
"""1970 in the seconds of NTP."""
RIGHT, OFF, CREEPING, PART, SILENT = "right", "off", "creeping", "wrong for a part", "silent"


class Server:
    """A server: its address, how it is wrong, if it is, and what it announces of itself. `near` is less for those in
    the same house."""

    def __init__(self, address: str, rng: random.Random, near: float):
        self.address, self.kind, self.off, self.rate = address, RIGHT, 0, 0
        self.begin, self.end = -(1 << 62), 1 << 62
        self.stratum = rng.choice((1, 2, 2, 3))
        self.delay, self.dispersion = (int(near * rng.randint(0, most)) * 10**6 for most in (20, 8))
        self.way = int(near * 10 ** rng.uniform(5, 7.3))  # (one way, nanoseconds)
        self.reference = rng.randrange(1 << 24, 0xDF000000)
        self.own = rng.randint(-1, 1) * self.distance // 3

    @property
    def short(self) -> tuple[int, int]:
        """Root delay and root dispersion in units of 2^-16 s."""
        return -(-self.delay * 65536 // SECOND), -(-self.dispersion * 65536 // SECOND)

    @property
    def distance(self) -> int:
        """How far from UTC it says that it may be, in nanoseconds."""
        delay, dispersion = self.short
        return (delay * SECOND // 2 + dispersion * SECOND) // 65536 + 900

    def error(self, time: int) -> int:
        if self.kind == SILENT or not self.begin <= time < self.end:
            return self.own
        return self.own + self.off + self.rate * (time - self.begin) // SECOND * (self.kind == CREEPING)

    def is_wrong(self, time: int) -> bool:
        return abs(self.error(time)) > self.distance


class Packet(NamedTuple):
    """When it was stamped, by true time and by the client's clock; whose it is, and what is in it."""
    at: int
    stamp: int
    server: Server
    is_reply: bool
    receive: int
    transmit: int
    nonce: int


class Exchange(NamedTuple):
    """A request that was answered: the stamps of both, what the server said, by whom, and when."""
    server: Server
    asked: int
    receive: int
    transmit: int
    answered: int
    sent_at: int
    came_at: int


class Network:
    """What passes between two true times: a request to each server each poll, as far as the clock goes, and replies.
    `lost` is a share of packets, and `outages` are times in which nobody answers."""

    def __init__(self, rng: random.Random, clock: Clock, servers: list[Server], poll: int, span: tuple[int, int],
                 lost: float, outages: list[tuple[int, int]]):
        self.packets = list[Packet]()
        for server in servers:
            time = span[0] + rng.randrange(poll)
            while time < span[1]:
                self.ask(rng, clock, server, time, lost, outages)
                time += poll + rng.randint(-poll, poll) // 50
        self.packets.sort(key=lambda packet: packet.at)

    def ask(self, rng: random.Random, clock: Clock, server: Server, time: int, lost: float,
            outages: list[tuple[int, int]]) -> None:
        early, late = (min(50_000, int(rng.expovariate(1e-4))) for _ in range(2))
        stamp, nonce = clock.reading(time - early), rng.randrange(1, 1 << 64)
        if stamp is None or clock.reading(time) is None:
            return
        self.packets.append(Packet(time - early, stamp, server, False, 0, 0, nonce))
        there = time + server.way + int(rng.expovariate(4 / server.way))
        away = there + rng.randint(10_000, 200_000)
        back = away + server.way + int(rng.expovariate(4 / server.way))
        is_silent = server.kind == SILENT and server.begin <= time < server.end
        stamp = clock.reading(back + late)
        if stamp is None or is_silent or rng.random() < lost or any(begin <= time < end for begin, end in outages):
            return
        receive, transmit = (clock.utc(at) + server.error(at) for at in (there, away))
        self.packets.append(Packet(back + late, stamp, server, True, receive, transmit, nonce))


def paired(packets: list[Packet]) -> list[Exchange]:
    """The exchanges among packets that were recorded."""
    asked = {packet.nonce: packet for packet in packets if not packet.is_reply}
    return [Exchange(reply.server, request.stamp, reply.receive, reply.transmit, reply.stamp, request.at, reply.at)
            for reply in packets if reply.is_reply and (request := asked.get(reply.nonce))]
