"""Which packets of a recorder are kept when more come than a client's: its requests, and what answers them.

Each minute a certain number of bytes is kept, whatever they are. What comes then beyond that is kept only if it is a
request of a client to somebody else, or has the time of one that was kept as its origin, which nobody knows who didn't
see it; and of those too no more than so many bytes in a minute and in an hour. So a flood takes neither the disk nor
the verdict.
"""
from collections.abc import Callable

ANY, OWN, OWN_OF_AN_HOUR = 1_000_000, 10_000_000, 40_000_000
"""Bytes that are kept in a minute of whatever comes, and in all; and in an hour of what comes beyond the former."""
MINUTE, HOUR = 60, 3600
MAX_ASKED = 1 << 17
"""Requests whose answers are known by."""
IPV4, TAGGED, UDP, NTP = b"\x08\x00", b"\x81\x00", 17, b"\0\x7b"
REQUEST, REPLY, LEAST_PAYLOAD = 3, 4, 48


class Keeping:
    """Says of each packet whether it is kept, by a clock that isn't set."""

    def __init__(self, clock: Callable[[], float]):
        self.clock, self.asked, self.clients = clock, dict[bytes, None](), set[tuple[int, ...]]()
        """Whose requests are kept, if that is known."""
        self.any = ANY
        self.minute = self.hour = clock()
        self.kept = self.beyond = 0

    def renew(self) -> None:
        """Looks at the clock, as often as packets are taken."""
        now = self.clock()
        if now >= self.minute + MINUTE:
            self.minute, self.kept = now, 0
        if now >= self.hour + HOUR:
            self.hour, self.beyond = now, 0

    def keeps(self, data: bytes, at: int, end: int, size: int) -> bool:
        """Of a packet that stands there, whose record has so many bytes."""
        beyond = self.kept + size > self.any
        if beyond and (self.kept + size > OWN or self.beyond + size > OWN_OF_AN_HOUR):
            return False
        if not self.is_own(data, at, end) and beyond:
            return False
        self.kept += size
        self.beyond += size if beyond else 0
        return True

    def is_own(self, data: bytes, at: int, end: int) -> bool:
        """Whether it is a request, whose answer is waited for from now on, or an answer that is."""
        ip = at + (18 if data[at + 12 : at + 14] == TAGGED else 14)
        if end < ip + 20 or data[ip - 2 : ip] != IPV4 or data[ip + 9] != UDP:
            return False
        udp = ip + 4 * (data[ip] & 15)
        if end < udp + 8 + LEAST_PAYLOAD:
            return False
        mode, ports, ntp = data[udp + 8] & 7, data[udp : udp + 4], udp + 8
        if mode == REPLY and ports[:2] == NTP:
            return data[ip + 12 : ip + 20] + ports + data[ntp + 24 : ntp + 32] in self.asked
        source, target = data[ip + 12 : ip + 16], data[ip + 16 : ip + 20]
        if mode != REQUEST or ports[2:] != NTP:
            return False
        if self.clients and (tuple(source) not in self.clients or tuple(target) in self.clients):
            return False
        back = target + source + ports[2:] + ports[:2]
        for stamp in (data[ntp + 40 : ntp + 48], data[ntp + 32 : ntp + 40]):  # (the latter in interleaved mode)
            if any(stamp):
                self.asked[back + stamp] = None
        while len(self.asked) > MAX_ASKED:
            del self.asked[next(iter(self.asked))]
        return True
