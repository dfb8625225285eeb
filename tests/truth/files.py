"""What is left of a history: captures, a claim, and the client's configuration and logs."""
import json
import random
import struct
from datetime import datetime, timezone
from pathlib import Path

from tests.tools.events import ethernet
from tests.truth.clock import SECOND
from tests.truth.history import CLIENT, History, Recorder
from tests.truth.network import EPOCH, TICKS, Packet

OTHER, STRANGER = bytes((10, 9, 0, 77)), bytes((10, 9, 2, 1))


def leave(history: History, logs: "Logs | None", folder: Path) -> None:
    """Leaves a folder as a person has it: the recordings, the claim, and logs if there are some."""
    folder.mkdir(parents=True)
    (folder / "claim.json").write_text(json.dumps(history.claim))
    for recorder in history.recorders:
        (folder / recorder.name).write_bytes(capture(history, recorder))
    evidence = {**logs.evidence} if logs else {}
    for name, text in (logs.files if logs else {}).items():
        (folder / name).write_text(text)
    if history.recorder:
        evidence["reading"] = "eth0.recorder.json"
        (folder / "eth0.recorder.json").write_text(json.dumps({
            "kind": "recorder", "interface": "eth0", "stamp": "host", "tool": "tcpdump 4.99", "kernel": "Linux 6.1",
            "machine": "web-1", "addresses": [history.recorder], "since": "2024-01-01T00:00:00Z"}))
    if evidence:
        (folder / "evidence.json").write_text(json.dumps(evidence))


def capture(history: History, recorder: Recorder) -> bytes:
    """A file of a recorder; one of a flood has packets of another client besides, and answers that nobody asked for."""
    packets, unit = history.files[recorder.name], history.unit
    blocks = [struct.pack("<IHHiIII", 0xA1B23C4D if unit == SECOND else 0xA1B2C3D4, 2, 4, 0, 0, 262144, 1)]
    for packet in packets:
        blocks.append(record(packet.stamp, unit, frame(packet)))
        if history.flood and packet.nonce % 3 == 0:
            blocks += [record(packet.stamp, unit, ethernet(STRANGER, address(CLIENT), 123, 40_000, message(packet))),
                       record(packet.stamp, unit, ethernet(OTHER, STRANGER, 40_001, 123, message(packet)))]
            if packet.is_reply:
                false = packet._replace(nonce=packet.nonce ^ 0xFFFF, receive=packet.receive + SECOND)
                blocks.append(record(packet.stamp, unit, frame(false)))
    if torn := history.torn.get(recorder.name):
        blocks.append(record(torn.stamp, unit, frame(torn))[: 20 + torn.nonce % 60])
    return b"".join(blocks)


def record(stamp: int, unit: int, frame: bytes) -> bytes:
    seconds, rest = divmod(stamp, SECOND)
    return struct.pack("<IIII", seconds, rest * unit // SECOND, len(frame), len(frame)) + frame


def address(words: str) -> bytes:
    return bytes(map(int, words.split(".")))


def frame(packet: Packet) -> bytes:
    ends = (address(CLIENT), 40_123), (address(packet.server.address), 123)
    (source, source_port), (target, target_port) = reversed(ends) if packet.is_reply else ends
    return ethernet(source, target, source_port, target_port, message(packet))


def message(packet: Packet) -> bytes:
    if not packet.is_reply:
        return struct.pack(">BBbbIIIQQQQ", 0x23, 0, 6, 0x20 - 0x40, 0, 0, 0, 0, 0, 0, packet.nonce)
    server = packet.server
    delay, dispersion = server.short
    return struct.pack(">BBbbIIIQQQQ", 0x24, server.stratum, 6, -20, delay, dispersion, server.reference,
                       stamp_of(packet.receive - SECOND), packet.nonce, stamp_of(packet.receive),
                       stamp_of(packet.transmit))


def stamp_of(time: int) -> int:
    """Unix nanoseconds as a timestamp of NTP."""
    return (time * TICKS // SECOND + EPOCH * TICKS) % (1 << 64)


def log_time(time: int, form: str) -> str:
    return datetime.fromtimestamp(time // SECOND, timezone.utc).strftime(form) if form else f"{time // SECOND}.250000"


SAID = (*3 * ["chronyd[{pid}]: System clock was stepped by {size:.6f} seconds"],
        "ntpd[{pid}]: setting time to {to} (offset {size:+.6f}s)",
        "ntpd[{pid}]: 0.0.0.0 c61c 0c clock_step {size:+.6f} s", "ntpd[{pid}]: time reset {size:+.6f} s",
        "ntpdate[{pid}]: step time server 10.9.1.1 offset {size:.6f} sec",
        "phc2sys: [8.1] CLOCK_REALTIME phc offset {ns} s1 freq +0 delay 1200",
        "chronyd[{pid}]: {way} time jump detected!",
        "systemd-timesyncd[{pid}]: Initial synchronization to time server 10.9.1.1:123 (10.9.1.1).",
        "systemd[1]: Time has been changed", "VBoxService[{pid}]: Radical guest time change: {ns}ns (GuestNow={to})")
"""What a program says that stepped a clock, or that saw it."""


class Logs:
    """The configuration and tracking.log of chronyd, and messages, as far as they go: true, short, or without messages.
    They are read for a draft, or stand in the folder as they are."""

    def __init__(self, history: History):
        rng, clock = history.rng, history.clock
        kind, self.is_drafted = rng.choice(("true", "true", "short", "missing")), rng.random() < 0.3
        self.end = history.end if kind != "short" else rng.randrange(history.begin, history.end)
        self.steps = [jump for jump in clock.jumps if jump.end < self.end and kind != "missing"
                      and jump.begin == jump.end and rng.random() < 0.8]
        """Those that chronyd made and says."""
        self.fast = [event for event in clock.fast if event.end < self.end and rng.random() < 0.5]
        self.falls, self.rate, self.offset, self.unread = list[int](), 0, 0, 0
        """Where the times of tracking.log fall back; the greatest frequency and offset; lines that are no lines."""
        lines = ["=" * 40, "   Date (UTC) Time     IP Address   St   Freq ppm", "=" * 40]
        ppm, before = rng.uniform(-5, 5), 0
        for time in range(history.begin, self.end, 2 * history.poll):
            if (stamp := clock.reading(time)) is None:
                continue
            self.falls += [stamp] if stamp // SECOND < before // SECOND else []
            before = stamp
            rate = next((event.size * 10**6 / (event.end - event.begin) for event in self.fast
                         if event.begin <= time < event.end + 2 * history.poll), 0.0)
            offset = rng.uniform(-1e-4, 1e-4)
            self.rate = max(self.rate, 2 * int(abs(ppm + rate) * 1000))
            self.offset = max(self.offset, int(abs(offset * 1e9)))
            lines.append(f"{log_time(stamp, '%Y-%m-%d %H:%M:%S')} {'10.9.1.1':15}  2 {ppm + rate:10.3f}      0.010 "
                         f"{offset:10.3e} N  4 1.000e-05 1.0e-06 1e-3 1e-3 1e-3")
        written = [time for time in range(history.begin, self.end, 2 * history.poll) if clock.reading(time) is not None]
        self.fast = [event for event in self.fast
                     if any(event.begin <= time < event.end + 2 * history.poll for time in written)]
        pid = rng.randint(300, 9000)
        form = rng.choice(("%b %e %H:%M:%S", "%Y-%m-%dT%H:%M:%S+0000", "%Y-%m-%dT%H:%M:%SZ"))
        more = random.Random(f"logs {history.seed}")
        self.has_zone, self.zone, tag = not form.startswith("%b"), 0, more.choice(SAID)
        """Whether messages say of which zone their times are, and nanoseconds by which these are ahead of UTC."""
        if not self.has_zone:
            self.zone = more.choice((0, 0, 2, -5, 9, 13, -11)) * 3600 * SECOND
        if more.random() < 0.3:
            form = more.choice(("%a %Y-%m-%d %H:%M:%S UTC", "", "<30>1 %Y-%m-%dT%H:%M:%SZ", "%d/%m/%Y %H:%M:%S",
                                "%a %Y-%m-%d %H:%M:%S CET"))
            self.has_zone = form[-3:] in ("UTC", "", "%SZ")
            self.zone = 0 if self.has_zone else 3600 * SECOND
        self.is_known = not form.startswith("%d")
        """Whether the form of their times is known."""
        said = [f"{log_time(jump.after + self.zone, form)} web-1 " + tag.format(
            pid=pid, size=jump.size / SECOND, ns=jump.size, way="Forward" if jump.size > 0 else "Backward",
            to=log_time(jump.after + self.zone, "%Y-%m-%d %H:%M:%S")) for jump in self.steps]
        half = history.ppb // 2
        self.oscillator = history.ppb - half
        self.files = {"tracking.log": "\n".join(lines) + "\n"}
        self.evidence = {"drift": "drift.json" if self.is_drafted else "tracking.log messages.log"}
        if said:
            self.files["messages.log"] = "\n".join(said) + "\n"
        if self.is_drafted:
            self.files["chrony.conf"] = f"server 10.9.1.1\nmaxslewrate {half / 1000}\nmakestep 1 3\nmaxdrift 100\n"

    @property
    def steps_at(self) -> list[int]:
        """When a log says that the clock was stepped, as far as it does."""
        return sorted([*(jump.after + self.zone for jump in self.steps), *self.falls])

    @property
    def true_steps(self) -> list[int]:
        """When it was stepped that a log says, by what the clock showed behind it."""
        return sorted([*(jump.after for jump in self.steps), *self.falls])

    def draft(self, folder: Path) -> list[str]:
        """The words by which a person has the dossier read them."""
        logs = [word for name in ("tracking.log", "messages.log") if name in self.files
                for word in ("--tracking", str(folder / name))]
        return ["draft", "--chrony", str(folder / "chrony.conf"), *logs, "--oscillator-ppb", str(self.oscillator),
                "--evidence", str(folder / "drift.json"), "--bound-ns", "1000000000"]
