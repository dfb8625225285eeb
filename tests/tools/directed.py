"""Claims, captures and texts at the edges of the rules, for programs that have to agree about them: eras, root
distances, strata, limits, frames, impossible exchanges. Each stands for one rule of docs/DEFINITIONS.md."""
import json
import struct
from collections.abc import Iterator
from typing import Any, NamedTuple

from tests.second.claims import MOST, Claim, changed
from tests.second.columns import TICKS
from tests.tools.families import spelled
from tests.tools.wire import CLIENT, Clock, Frame, PORT, SERVER, address, header, stamp

BASE = 1795331016
ERA = 2**32 - 2208988800
"""The Unix second at which era 1 of NTP timestamps begins."""

CLAIM: Claim = {"client": address(CLIENT), "servers": [address(SERVER)], "false_max": 0, "from": spelled(BASE),
                "to": spelled(BASE + 4), "bound_ns": 10**9, "drift_ppb": 100_000, "reading_ns": 0}


class Edge(NamedTuple):
    """A claim and a capture."""
    name: str
    claim: Claim
    capture: bytes


class Text(NamedTuple):
    """A claim, a capture and a third file, all as bytes."""
    name: str
    claim: bytes
    capture: bytes
    third: bytes


class Asked(NamedTuple):
    """A request and its reply, in ticks; what isn't told is right."""
    sent: int = BASE * TICKS
    arrived: int = BASE * TICKS + 1000 * 4295
    received: int | None = None
    transmitted: int | None = None
    server: int = SERVER
    reply: dict[str, int] = {}
    request: dict[str, int] = {}
    around: dict[str, Any] = {}

    def frames(self) -> tuple[bytes, bytes]:
        middle = (self.sent + self.arrived) // 2
        receive = stamp(middle if self.received is None else self.received)
        transmit = stamp(middle if self.transmitted is None else self.transmitted)
        request = header(**{"mode": 3, "stratum": 0, "transmit": stamp(self.sent), **self.request})
        reply = header(**{"origin": stamp(self.sent), "receive": receive, "transmit": transmit, **self.reply})
        return (Frame(CLIENT, self.server, PORT, 123, request).bytes(),
                Frame(self.server, CLIENT, 123, PORT, reply)._replace(**self.around).bytes())

    def records(self, clock: Clock) -> list[tuple[int, bytes]]:
        asked, said = self.frames()
        return [(clock.units(self.sent), asked), (clock.units(self.arrived), said)]


def capture_of(*asked: Asked, clock: Clock = Clock()) -> bytes:
    return clock.capture([record for one in asked for record in one.records(clock)])


TWO = Asked(BASE * TICKS), Asked((BASE + 3) * TICKS + 77, (BASE + 3) * TICKS + 4_295_000)
WHOLE = capture_of(*TWO)


def edges() -> Iterator[Edge]:
    """Of each the program is asked for what decides, and then both for the answers there and a tick beside."""
    yield Edge("plain", CLAIM, WHOLE)
    for clock in (Clock("<", 10**6), Clock(">", 10**6), Clock(">", 10**9)):
        yield Edge(f"records {clock}", CLAIM, capture_of(*TWO, clock=clock))
    for second in (0, 1, ERA - 1, ERA, 2**31 - 1, 2**31, 2**32 - 6):
        claim = changed(CLAIM, **{"from": spelled(second), "to": spelled(second + 4)})
        own = [one._replace(sent=one.sent + (second - BASE) * TICKS, arrived=one.arrived + (second - BASE) * TICKS)
               for one in TWO]
        yield Edge(f"second {second}", claim, capture_of(*own))
    for reading in (0, 1, 1000, 10**9):
        for away in (-2**63, -2**63 + 1, 2**63 - 1, 2**63, 2**63 - 5000, -2**63 + 5000):
            far = TWO[0]._replace(received=BASE * TICKS + away, transmitted=BASE * TICKS + away)
            yield Edge(f"an era away {away} {reading}", changed(CLAIM, reading_ns=reading), capture_of(far, TWO[1]))
    for name, values in {
            "stratum": (0, 1, 2, 14, 15, 16, 17, 255), "leap": range(4), "version": range(8), "mode": range(8),
            "precision": (-128, -33, -32, -31, -30, -1, 0, 15, 16, 17, 127), "delay": (0, 1, 2, 2**31, 2**32 - 1),
            "dispersion": (0, 1, 2, 2**31, 2**32 - 1), "origin": (0, stamp(TWO[0].sent) + 1), "receive": (0, 1),
            "transmit": (0, 1)}.items():
        for value in values:
            yield Edge(f"{name} {value}", CLAIM, capture_of(TWO[0]._replace(reply={name: value}), TWO[1]))
    for name, values in {"version": range(8), "mode": range(8), "transmit": (0, 5), "leap": (3,)}.items():
        for value in values:
            yield Edge(f"request {name} {value}", CLAIM, capture_of(TWO[0]._replace(request={name: value}), TWO[1]))
    for delay in (0, 1, 9):
        distance = delay * 32768 + 1
        for early in (0, 1, 2 * distance - 1, 2 * distance, 2 * distance + 1):
            middle = (TWO[0].sent + TWO[0].arrived) // 2
            turned = TWO[0]._replace(received=middle, transmitted=middle - early, reply={"delay": delay})
            yield Edge(f"sent {early} ticks before it came, {distance} of distance", CLAIM, capture_of(turned, TWO[1]))
    for late in (-3, -2, -1, 0, 1):
        clock = Clock()
        asked, said = TWO[0].frames()
        at = clock.units(TWO[0].sent)
        yield Edge(f"the reply {late} units later", CLAIM, clock.capture([(at, asked), (at + late, said)]))
    for drift in (0, 1, 100, 499_999_999, 500_000_000):
        yield Edge(f"drift {drift}", changed(CLAIM, drift_ppb=drift), WHOLE)
    for seconds in (0, 1, 3, 4, 86_400):
        yield Edge(f"a span to {seconds}", changed(CLAIM, to=spelled(BASE + seconds)), WHOLE)
    yield Edge("a span before", changed(CLAIM, **{"from": spelled(BASE - 9), "to": spelled(BASE - 5)}), WHOLE)
    yield from frames()
    yield from groups()


def frames() -> Iterator[Edge]:
    tag = b"\x81\x00\x20\x01"
    arounds: tuple[dict[str, Any], ...] = (
        {"tags": tag}, {"tags": tag * 2}, {"tags": b"\x88\xa8\x00\x01"}, {"kind": b"\x86\xdd"},
        {"version": 5}, {"words": 4}, {"words": 6}, {"options": bytes(4)}, {"options": bytes(40)},
        {"options": bytes(4), "words": 5}, {"fragment": 0x2000}, {"fragment": 1}, {"fragment": 0x1fff},
        {"fragment": 0x4000}, {"fragment": 0x8000}, {"protocol": 6}, {"total_more": -1}, {"total_more": 1},
        {"total_more": 4, "padding": bytes(4)}, {"total_more": -48}, {"total_more": -57},
        {"udp_more": -1}, {"udp_more": 1}, {"udp_more": 4, "behind": bytes(4)}, {"behind": bytes(4)},
        {"udp_more": -48}, {"udp_more": -49}, {"udp_more": 5, "behind": bytes(4)},
        {"padding": bytes(18)}, {"source_port": 124}, {"destination_port": PORT + 1},
        {"source": SERVER + 1}, {"destination": CLIENT + 1})
    for around in arounds:
        yield Edge(f"a reply with {around}", CLAIM, capture_of(TWO[0]._replace(around=around), TWO[1]))
    asked, said = TWO[0].frames()
    for length in (0, 13, 14, 17, 18, 33, 34, 41, 42, 88, 89, 90):
        records = [(BASE * 10**9, asked), (BASE * 10**9 + 10**6, said[:length])]
        yield Edge(f"a reply of {length} bytes", CLAIM, Clock().capture(records))
    others = TWO[1].records(Clock())
    for name, order in {"doubled request": (asked, asked, said), "doubled reply": (asked, said, said),
                        "reply first": (said, asked), "no request": (said,), "no reply": (asked,)}.items():
        records = [(BASE * 10**9 + k * 10**6, frame) for k, frame in enumerate(order)]
        yield Edge(name, CLAIM, Clock().capture([*records, *others]))


def groups() -> Iterator[Edge]:
    """Three servers, the last of which is wrong by a little or by much, in each grouping and with each number of wrong
    ones."""
    for wrong in (0, 2_147_500, 10**10):
        asked = [Asked((BASE + k) * TICKS, (BASE + k) * TICKS + 4_295_000, server=SERVER + k) for k in range(3)]
        middle = (asked[2].sent + asked[2].arrived) // 2 + wrong
        capture = capture_of(*asked[:2], asked[2]._replace(received=middle, transmitted=middle), asked[0]._replace(
            sent=(BASE + 4) * TICKS, arrived=(BASE + 4) * TICKS + 4_295_000))
        for false_max in range(4):
            for grouping in (None, [[0], [1, 2]], [[2, 0], [1]], [[0, 1, 2]]):
                claim = changed(CLAIM, servers=[address(SERVER + k) for k in range(3)], false_max=false_max,
                                **({} if grouping is None else {"groups": grouping}))
                yield Edge(f"three servers, {wrong} off, {false_max} of {grouping}", claim, capture)


# ---- texts
def texts() -> Iterator[Text]:
    """Files that are at a limit or just beyond it."""
    claim, upto = json.dumps(CLAIM).encode(), (BASE + 4) * TICKS
    shown = json.dumps({"pieces": [{"entries": [[0, 1]], "upto": upto}]}).encode()
    refuting = json.dumps({"error": 5, "false": [], "reading": BASE * TICKS}).encode()
    for name, other in claim_texts():
        yield Text(name, other, WHOLE, shown)
    for name, third in certificate_texts(shown, upto):
        yield Text(name, claim, WHOLE, third)
    zero = json.dumps(changed(CLAIM, bound_ns=0)).encode()
    for name, third in refutation_texts(refuting):
        yield Text(name, zero, WHOLE, third)
    for name, capture in capture_texts():
        yield Text(name, claim, capture, shown)


def claim_texts() -> Iterator[tuple[str, bytes]]:
    text = json.dumps(CLAIM).encode()
    for size in (65_535, 65_536, 65_537):
        yield f"a claim of {size} bytes", text.ljust(size)
    for name, most in MOST.items():
        for value in (0, most, most + 1, -1, True, "1", None):
            yield f"{name} {value}", json.dumps({**CLAIM, name: value}).encode()
    for name, values in {
            "servers": ([], [address(SERVER + k) for k in range(32)], [address(SERVER + k) for k in range(33)],
                        [address(SERVER)] * 2, [address(CLIENT)], [1], ["192.0.2.01"], ["192.0.2"], ["192.0.2.256"]),
            "client": ("192.0.2.1 ", "", "0.0.0.0", "255.255.255.255", "::1"),
            "groups": ([[0]], [], [[0], []], [[0, 0]], [[1]], [[0], [0]], [[0.0]], [[-1]]),
            "to": ("2026-02-29T00:00:00Z", "2024-02-29T00:00:00Z", "2106-02-07T06:28:15Z", "2106-02-07T06:28:16Z",
                   "2026-11-22T24:00:00Z", "2026-11-22T07:03:60Z", "2026-11-22t07:03:40Z", "2026-11-22T07:03:40",
                   "1969-12-31T23:59:59Z", "2026-11-22T7:03:40Z", " 026-11-22T07:03:40Z")}.items():
        for value in values:
            yield f"{name} {str(value)[:30]}", json.dumps({**CLAIM, name: value}).encode()
    for number in ("1e9", "1.0", "-0", "+1", "01", "1e999", "-1e999", "1E-999", "NaN", "Infinity", "0e9999999999999",
                   f"{2**1024 - 2**970}", f"{2**1024 - 2**970 - 1}", f"-{2**1024 - 2**970}", "18446744073709551616"):
        yield f"bound_ns {number[:30]}", text.replace(b"1000000000", number.encode())
        yield f"bound_ns {number[:30]} and then 5", text.replace(b"1000000000", f'{number},"bound_ns":5'.encode())
    for name, said in {"twice": b'"to":"","to"', "escaped": b'"\\u0074o"', "half": b'"\\ud800":1,"to"',
                       "other half": b'"\\udc00":1,"to"', "replaced": b'"to":"\\ud800","to"',
                       "whole pair": b'"to":"\\ud83d\\ude00","to"'}.items():
        yield f"a name {name}", text.replace(b'"to"', said)
    for depth in (1, 125, 126, 127, 128):
        yield f"nested {depth}", text.replace(b'"to"', b'"to":' + b"[" * depth + b"]" * depth + b',"to"')
    for name, other in {"mark": b"\xef\xbb\xbf" + text, "behind": text + b" x", "comma": text[:-1] + b",}",
                        "UTF-16": text.decode().encode("utf-16"), "bad UTF-8": text.replace(b"Z", b"\xff"),
                        "overlong": text.replace(b"Z", b"\xc1\x9a"), "array": b"[" + text + b"]", "empty": b"",
                        "control": text.replace(b"Z", b"\x01"), "more": text[:-1] + b',"x":1}',
                        "less": text.replace(b'"reading_ns": 0', b'"reading": 0')}.items():
        yield f"a claim with {name}", other


def certificate_texts(shown: bytes, upto: int) -> Iterator[tuple[str, bytes]]:
    def of(*pieces: tuple[object, object]) -> bytes:
        return json.dumps({"pieces": [{"entries": entries, "upto": end} for entries, end in pieces]}).encode()
    first = BASE * TICKS
    for name, third in {
            "no piece": of(), "a moment": of(([[0, 1]], first), ([[0, 1]], upto)),
            "before the span": of(([[0, 1]], first - 1)), "behind the span": of(([[0, 1]], upto + 1)),
            "a tick short": of(([[0, 1]], upto - 1)), "backwards": of(([[0, 1]], first + 9), ([[0, 1]], first + 8)),
            "no entry": of(([], upto)), "a sample too many": of(([[0, 2]], upto)),
            "twice": of(([[0, 1], [1, 0]], upto)), "32 entries": of(([[0, 1]] * 32, upto)),
            "33 entries": of(([[0, 1]] * 33, upto)), "the last sample": of(([[0, 2**32 - 1]], upto)),
            "beyond the last sample": of(([[0, 2**32]], upto)), "three numbers": of(([[0, 1, 1]], upto)),
            "the last tick": of(([[0, 1]], 2**64 - 1)), "beyond the last tick": of(([[0, 1]], 2**64)),
            "a fraction": of(([[0, 1]], float(upto))), "true": of(([[False, True]], upto)),
            "100,000 pieces": of(*[([[0, 1]], upto)] * 100_000),
            "100,001 pieces": of(*[([[0, 1]], upto)] * 100_001)}.items():
        yield name, third
    for name, old, new in (("minus nought", b"[0", b"[-0"), ("a number that no double holds", b"[0", b"[1e400"),
                           ("a mark", b'{"p', b'\xef\xbb\xbf{"p'), ("a name twice", b'{"p', b'{"pieces":0,"p'),
                           ("another name", b'{"p', b'{"x":0,"p')):
        yield f"a certificate with {name}", shown.replace(old, new)


def refutation_texts(refuting: bytes) -> Iterator[tuple[str, bytes]]:
    value = json.loads(refuting)
    for name, values in {
            "error": (-5, 0, 2**63 - 1, 2**63, -2**63, -2**63 - 1, 5.0, True), "reading": (0, 2**64 - 1, 2**64, -1)
            + tuple(second * TICKS + more for second in (BASE, BASE + 4) for more in (-1, 0, 1)),
            "false": ([0], [0, 0], [1], [255], [256], [-1], list(range(32)), list(range(33)), 0)}.items():
        for wrong in values:
            yield f"{name} {str(wrong)[:30]}", json.dumps({**value, name: wrong}).encode()
    for number in ("-0", "+5", "5e0", "05"):
        yield f"error {number}", refuting.replace(b": 5", b": " + number.encode())
    yield "a refutation with another name", refuting.replace(b"}", b',"x":0}')


def capture_texts() -> Iterator[tuple[str, bytes]]:
    for at, field, values in ((0, "I", (0xa1b2c3d5, 0x0a0d0d0a)), (4, "H", (1, 3)), (6, "H", (3, 5)),
                              (20, "I", (0, 113, 1 | 1 << 28)), (28, "I", (999_999_999, 10**9)),
                              (24, "I", (0, 2**32 - 1))):
        for value in values:
            size = struct.calcsize(field)
            yield f"the bytes at {at} are {value}", WHOLE[:at] + struct.pack("<" + field, value) + WHOLE[at + size:]
    for end in (0, 3, 23, 24, 25, 39, 40, 60, len(WHOLE) - 1):
        yield f"a capture of {end} bytes", WHOLE[:end]
    for length in (262_144, 262_145):
        yield f"a record of {length} bytes", Clock().capture([(0, bytes(length))]) + WHOLE[24:]
