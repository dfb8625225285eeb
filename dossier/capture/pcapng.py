"""A pcapng capture, a private copy, rewritten as a classic one (draft-ietf-opsawg-pcapng).

Its unit is nanoseconds if all of its interfaces have them, else microseconds: no time becomes more exact than it was. A
time is cut, so its unit has to be a whole number of those that were read: then what is written may mean each time that
what was read may mean.
"""
from collections.abc import Iterator
from itertools import islice
from struct import Struct, error
from typing import NamedTuple

from ..fault import fault
from ..folder.files import Mapped
from .classic import NEW_HEAD, new_header, write

MAGIC = bytes.fromhex("0a0d0d0a")
SECTION, INTERFACE, OLD_PACKET, SIMPLE_PACKET, PACKET = 0x0A0D0D0A, 1, 2, 3, 6
OPTION_RESOLUTION, OPTION_OFFSET = 9, 14
MAX_INTERFACES, MAX_IN_A_BLOCK = 1000, 1 << 24


class Interface(NamedTuple):
    link: int
    resolution: int
    """Units to a second of its times."""
    offset: int
    """Seconds to be added to them."""


class Packet(NamedTuple):
    interface: Interface
    time: int
    length: int
    """Its length as it was sent."""
    data: bytes


class Pcapng:
    """A capture in a file of one's own."""

    def __init__(self, name: str, data: Mapped):
        self.name, self.data = name, data
        self.torn_at: int | None = None
        """Where the last block begins, if the file ends inside it."""

    def blocks(self) -> Iterator[tuple[int, str, bytes]]:
        """The kind of each block, the order of its bytes, and what stands in it."""
        at, order = 0, "<"
        while at < len(self.data):
            if self.data[at : at + 4] == MAGIC:
                order = "<" if self.data[at + 8 : at + 12] == bytes.fromhex("4d3c2b1a") else ">"
            head = self.data[at : at + 8]
            kind, length = Struct(f"{order}II").unpack(head) if len(head) == 8 else (0, 12)
            if length < 12 or length % 4 or length > MAX_IN_A_BLOCK:
                raise fault(f"{self.name} is damaged at byte {at}")
            if at + length > len(self.data):
                self.torn_at = at
                return
            yield kind, order, self.data[at + 8 : at + length - 4]
            at += length

    def interfaces(self) -> list[Interface]:
        """All of its interfaces, of all sections: by these the unit is chosen in which it is rewritten."""
        every = (interface_of(order, body) for kind, order, body in self.blocks() if kind == INTERFACE)
        known = list(islice(every, MAX_INTERFACES + 1))
        if len(known) > MAX_INTERFACES:
            raise fault(f"{self.name} has more than {MAX_INTERFACES:,} interfaces, so it is damaged")
        return known

    def packets(self) -> Iterator[Packet]:
        """Its packets, with their interfaces."""
        known: list[Interface] = []
        for kind, order, body in self.blocks():
            if kind == SECTION:
                known = []
            elif kind == INTERFACE:
                known.append(interface_of(order, body))
            elif kind == SIMPLE_PACKET:
                raise fault(f"{self.name} has packets without a time")
            elif kind in (PACKET, OLD_PACKET):
                form = "IIIII" if kind == PACKET else "HxxIIII"
                number, high, low, captured, length = Struct(f"{order}{form}").unpack_from(body)
                data = body[20 : 20 + captured]
                if number >= len(known) or len(data) < captured:
                    raise fault(f"{self.name} has a packet that is damaged")
                yield Packet(known[number], high << 32 | low, length, data)


def interface_of(order: str, body: bytes) -> Interface:
    """The interface that a block describes."""
    link, = Struct(f"{order}H").unpack_from(body)
    resolution, offset, at = 10**6, 0, 8
    while at + 4 <= len(body):
        code, length = Struct(f"{order}HH").unpack_from(body, at)
        value = body[at + 4 : at + 4 + length]
        if code == OPTION_RESOLUTION and length == 1:
            resolution = (2 if value[0] & 0x80 else 10) ** (value[0] & 0x7F)
        if code == OPTION_OFFSET and length == 8:
            offset, = Struct(f"{order}q").unpack(value)
        at += 4 + length + -length % 4
        if not code:
            break
    return Interface(link, resolution, offset)


def convert(name: str, data: Mapped, path: str) -> int | None:
    """Writes it as a classic capture. Where its last block begins, if it ends inside it."""
    capture = Pcapng(name, data)
    try:
        known = capture.interfaces()
        links = {interface.link for interface in known}
        coarsest = min((interface.resolution for interface in known), default=10**9)
        if len(links) > 1:
            raise fault(f"{name} has frames of several kinds")
        if coarsest < 10**6:
            raise fault(f"{name} has times that are coarser than microseconds")
        unit = 10**9 if coarsest >= 10**9 else 10**6
        if any(interface.resolution % unit for interface in known):
            raise fault(f"{name} has times that are no decimal parts of a second")
        write(path, records(capture, unit, links.pop() if links else 1))
    except error:
        raise fault(f"{name} has a block that is damaged") from None
    return capture.torn_at


def records(capture: Pcapng, unit: int, link: int) -> Iterator[bytes]:
    """The records of a classic capture of them."""
    yield new_header(unit, (2, 4, link))
    for packet in capture.packets():
        seconds, part = divmod(packet.time * unit // packet.interface.resolution, unit)
        yield NEW_HEAD.pack(seconds + packet.interface.offset, part, len(packet.data), packet.length) + packet.data
