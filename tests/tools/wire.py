"""The bytes of made-up captures: NTP headers, the frames around them, and the records of a file. Each field may have
any value, right or not."""
import struct
from collections.abc import Iterable
from typing import NamedTuple

from tests.second.columns import TICKS

CLIENT, SERVER = 0xC000020A, 0xC0000201
"""192.0.2.10 and 192.0.2.1."""

PORT = 40_000


def stamp(ticks: int) -> int:
    """The NTP timestamp of a number of Unix ticks."""
    return (ticks + 2208988800 * TICKS) % 2**64


def address(number: int) -> str:
    return ".".join(map(str, number.to_bytes(4, "big")))


def header(leap: int = 0, version: int = 4, mode: int = 4, stratum: int = 1, precision: int = -32, delay: int = 0,
           dispersion: int = 0, origin: int = 0, receive: int = 0, transmit: int = 0) -> bytes:
    return struct.pack(">BBbbII4sQQQQ", leap << 6 | version << 3 | mode, stratum, 6, precision, delay, dispersion,
                       b"GPS\0", 5, origin, receive, transmit)


class Frame(NamedTuple):
    """What stands around a payload. Where a length isn't given, it is the right one."""
    source: int
    destination: int
    source_port: int
    destination_port: int
    payload: bytes
    tags: bytes = b""
    kind: bytes = b"\x08\x00"
    version: int = 4
    words: int | None = None
    options: bytes = b""
    fragment: int = 0
    protocol: int = 17
    total_more: int = 0
    udp_more: int = 0
    behind: bytes = b""
    padding: bytes = b""

    def bytes(self) -> bytes:
        carried = struct.pack(">HHHH", self.source_port, self.destination_port,
                              max(0, 8 + len(self.payload) + self.udp_more), 0) + self.payload + self.behind
        words = 5 + len(self.options) // 4 if self.words is None else self.words
        total = max(0, 20 + len(self.options) + len(carried) + self.total_more)
        return (b"\2\0\0\0\0\2\2\0\0\0\0\1" + self.tags + self.kind
                + struct.pack(">BBHHHBBHII", self.version << 4 | words, 0, total, 7, self.fragment, 64,
                              self.protocol, 0, self.source, self.destination) + self.options + carried + self.padding)


class Clock(NamedTuple):
    """The form of a capture's times and numbers."""
    order: str = "<"
    per_second: int = 10**9

    def units(self, ticks: int) -> int:
        """The record time of a moment, within what a record can say."""
        return max(0, min(2**32 * self.per_second - 1, ticks * self.per_second // TICKS))

    def capture(self, records: Iterable[tuple[int, bytes]]) -> bytes:
        magic = 0xa1b2c3d4 if self.per_second == 10**6 else 0xa1b23c4d
        return struct.pack(self.order + "IHHIIII", magic, 2, 4, 0, 0, 65535, 1) + b"".join(
            struct.pack(self.order + "IIII", *divmod(units, self.per_second), len(frame), len(frame)) + frame
            for units, frame in records)


def records_of(capture: bytes) -> list[bytes]:
    """The records of a capture, each with its head."""
    length, at, found = struct.Struct(("<" if capture[:1] in b"\xd4\x4d" else ">") + "8xI"), 24, list[bytes]()
    while at < len(capture):
        end = at + 16 + int(length.unpack_from(capture, at)[0])
        found.append(capture[at:end])
        at = end
    return found
