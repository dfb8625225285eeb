"""Gives the program captures whose requests would all fall on one place of its index, if the index hashed them without
a key or with one that is always the same. The hash takes a request's timestamp last, by xor: so if the state at the
start is known, whoever writes a capture chooses timestamps with which all come to one state.
"""
import json
import resource
import struct
from collections.abc import Iterator
from pathlib import Path

from tests.support import check, program, run
from tests.second.columns import counted
from tests.tools.families import CLIENT, Setting, address, frame

PROGRAM = program()
# The processor's time that a run may take, in seconds. A tenth of one is enough if nothing collides, and 40 are not if
# all requests do.
LIMIT = 5
SERVERS, PORTS = 32, range(1024, 1024 + 6250)
SECOND = 1_000_000_000
ALIKE = 0x0123_4567_89AB_CDEF                 # what the state is with the timestamp: any number will do
WANTED = 0, f"{counted(records=200_000, requests=200_000)}\n".encode(), b""

# The hasher of Rattle's standard library.
MASK = 2**64 - 1
INITIAL = 0x243F_6A88_85A3_08D3
MULTIPLIER = 0x9E37_79B9_7F4A_7C15


def written(state: int, value: int, width: int) -> int:
    """The state after a number of 1, 2 or 8 bytes."""
    if width < 8:
        bytes_ = value.to_bytes(width, "little")
        value = bytes_[0] | bytes_[width // 2] << 8 | bytes_[-1] << 16
    product = (state ^ value) * (MULTIPLIER ^ 2 * width)
    return product % 2**64 ^ product >> 64


def turned(word: int, bits: int) -> int:
    return (word << bits | word >> 64 - bits) & MASK


def keys(start: int) -> Iterator[tuple[int, int, int]]:
    """Server, port and timestamp of each request: after the timestamp all are in one state."""
    for server in range(SERVERS):
        state = written(start, server, 1)
        for port in PORTS:
            yield server, port, written(state, port, 2) ^ ALIKE


def request(number: int, server: int, port: int, stamp: int) -> bytes:
    """The record of a request, one in a millisecond."""
    whole = frame(CLIENT, address(server), (port, 123), struct.pack(">B39xQ", 0x23, stamp))
    second, millisecond = divmod(number, 1000)
    return struct.pack("<IIII", SECOND + second, 1000 * millisecond, len(whole), len(whole)) + whole


def capture(start: int) -> bytes:
    head = struct.pack("<IHHIIII", 0xA1B2C3D4, 2, 4, 0, 0, 262144, 1)
    return head + b"".join(request(number, *key) for number, key in enumerate(keys(start)))


def test_program(folder: Path) -> None:
    """Each capture has one state after its keys, no two of which are the same; and the program takes no longer."""
    claim, path = folder / "claim.json", folder / "f.pcap"
    claim.write_text(json.dumps(Setting(SERVERS, 0, 0, 0).claim(1_000_000)))
    for name, start in STARTS.items():
        listed = list(keys(start))
        ends = {written(written(written(start, server, 1), port, 2), stamp, 8) for server, port, stamp in listed}
        path.write_bytes(capture(start))
        check(f"requests that would collide under {name}", ends=(len(ends), 1),
              keys=(len(set(listed)), SERVERS * len(PORTS)),
              run=(run([PROGRAM, "samples", claim, path], preexec_fn=limited), WANTED))


def limited() -> None:
    resource.setrlimit(resource.RLIMIT_CPU, (LIMIT, LIMIT))


# What a capture's writer would know, if it weren't for the random key.
STARTS = {"a hash without a key": INITIAL, "a key of zero": written(INITIAL, 0, 8),
          "the key of a hasher that has none": written(INITIAL, written(INITIAL, 0, 8), 8)}
