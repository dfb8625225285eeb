#!/usr/bin/env python3
"""Writes a capture for measurements: NTP requests and replies among other traffic, the same bytes at every run.

  make_capture.py FILE [--records N | --bytes N] [--big-frames | --only-ntp] [--interval N]

Of each eight records four are NTP packets, two are TCP segments, one is a DNS query and one an ARP request. With
--big-frames the TCP segments have 60,000 bytes, as a host with segmentation offload records them. With --only-ntp
there are requests and replies alone. --interval N lets N microseconds more pass after each exchange. It ends after N
records (2,000,000 if nothing is said) or with the record that reaches N bytes, and prints what the listing's closing
line has to say. Classic format, little-endian, microseconds.
"""
import argparse
import struct
import sys
from collections.abc import Iterator

MAX_RECORDS = 4_000_000
START = 1_700_000_000
SECONDS_TO_1970 = 2_208_988_800
SERVERS = 8

Address = tuple[int, int, int, int]


def ethernet(kind: int) -> bytes:
    return bytes.fromhex("020000000001" "020000000002") + struct.pack(">H", kind)


def ipv4(protocol: int, source: Address, destination: Address, length: int) -> bytes:
    head = struct.pack(">BBHHHBBH", 0x45, 0, 20 + length, 0, 0x4000, 64, protocol, 0)
    return ethernet(0x0800) + head + bytes(source) + bytes(destination)


def udp(source: Address, destination: Address, source_port: int, destination_port: int, payload: bytes) -> bytes:
    head = struct.pack(">HHHH", source_port, destination_port, 8 + len(payload), 0)
    return ipv4(17, source, destination, 8 + len(payload)) + head + payload


def tcp(source: Address, destination: Address, payload: bytes) -> bytes:
    head = struct.pack(">HHIIBBHHH", 443, 50000, 1, 1, 0x50, 0x10, 512, 0, 0)
    return ipv4(6, source, destination, 20 + len(payload)) + head + payload


def other_frames(has_big: bool) -> list[bytes]:
    """A DNS query, a TCP acknowledgement, a TCP segment with data and an ARP request."""
    client, host = (192, 0, 2, 100), (198, 51, 100, 7)
    query = bytes.fromhex("1234 0100 0001 0000 0000 0000 03 6e7470 07 6578616d706c65 00 0001 0001")
    data = bytes(range(256)) * (60_000 // 256 + 1)
    arp = struct.pack(">HHBBH6s4s6x4s", 1, 0x0800, 6, 4, 1, bytes.fromhex("020000000001"), bytes(client), bytes(host))
    return [
        udp(client, host, 53535, 53, query),
        tcp(client, host, b""),
        tcp(host, client, data[: 60_000 if has_big else 200]),
        ethernet(0x0806) + arp,
    ]


def frames(has_big: bool, interval: int = 0) -> Iterator[tuple[int, bytes, bool]]:
    """Endlessly the time in microseconds, the frame, and whether it is an NTP packet."""
    client, server, others = (192, 0, 2, 100), (192, 0, 2, 1), other_frames(has_big)
    reference = struct.pack(">II", START + SECONDS_TO_1970 - 30, 0)
    request = bytearray(udp(client, server, 0, 123, bytes.fromhex("23000620") + bytes(44)))
    answer = bytes.fromhex("240106e7 00000100 00000200 47505300") + reference + bytes(24)
    reply = bytearray(udp(server, client, 123, 0, answer))
    state, moment, exchange = 1, START * 1_000_000, 0
    while True:
        # what real clients and networks vary, from a linear congruential generator
        state = (state * 6364136223846793005 + 1442695040888963407) % 2**64
        request[33] = reply[29] = 1 + exchange % SERVERS
        port = 32768 + (state >> 40) % 28000
        struct.pack_into(">H", request, 34, port)
        struct.pack_into(">H", reply, 36, port)
        struct.pack_into(">Q", request, 82, state)
        yield moment, request, True
        moment += 100 + (state >> 30) % 400
        yield moment, others[2 * exchange % 4], False
        seconds, micros = divmod(moment, 1_000_000)
        stamp = (seconds + SECONDS_TO_1970 << 32) + (micros << 32) // 1_000_000
        struct.pack_into(">QQQ", reply, 66, state, stamp, stamp)
        moment += 100 + (state >> 20) % 400
        yield moment, reply, True
        moment += 5 + (state >> 12) % 60
        yield moment, others[2 * exchange % 4 + 1], False
        moment += 5 + interval
        exchange += 1


def main() -> None:
    words = argparse.ArgumentParser(description=__doc__, formatter_class=argparse.RawDescriptionHelpFormatter)
    words.add_argument("file")
    length = words.add_mutually_exclusive_group()
    length.add_argument("--records", type=int, default=2_000_000)
    length.add_argument("--bytes", type=int)
    kind = words.add_mutually_exclusive_group()
    kind.add_argument("--big-frames", action="store_true")
    kind.add_argument("--only-ntp", action="store_true")
    words.add_argument("--interval", type=int, default=0)
    given = words.parse_args()
    most_records = MAX_RECORDS if given.bytes else given.records
    if not 0 <= most_records <= MAX_RECORDS:
        words.error(f"a capture has at most {MAX_RECORDS} records")
    records, packets, size = 0, 0, 24
    with open(given.file, "wb", buffering=1 << 20) as out:
        out.write(struct.pack("<IHHiIII", 0xA1B2C3D4, 2, 4, 0, 0, 262_144, 1))
        for moment, frame, is_ntp in frames(given.big_frames, given.interval):
            if given.only_ntp and not is_ntp:
                continue
            if records == most_records or given.bytes and size >= given.bytes:
                break
            out.write(struct.pack("<IIII", *divmod(moment, 1_000_000), len(frame), len(frame)))
            out.write(frame)
            records, packets, size = records + 1, packets + is_ntp, size + 16 + len(frame)
    if given.bytes and size < given.bytes:
        sys.exit(f"{MAX_RECORDS} records have only {size} bytes: take --big-frames")
    print(f"records {records} packets {packets}")


if __name__ == "__main__":
    main()
