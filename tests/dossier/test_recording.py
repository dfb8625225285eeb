"""Tests of the recorder: it is watched, and what it keeps is bounded.

Real tcpdump records in a network namespace of its own, where nobody else's packets are, and each trouble is made there.
"""
import json
import os
import shutil
import signal
import socket
import struct
import subprocess
import sys
import time
from collections.abc import Callable, Iterable
from pathlib import Path
from typing import Any

ROOT = Path(__file__).resolve().parents[2]
if __name__ == "__main__":
    sys.path[0] = str(ROOT)

from tests.support import SECONDS, check, children, run, runnable, skip, wait_until, wanting  # noqa: E402

RECORDER = """import signal, sys
sys.path.insert(0, sys.argv.pop(1))
signal.signal(signal.SIGINT, signal.default_int_handler)
from dossier.capture import watch
from dossier.command_line import main
watch.LOOK = 1
watch.OVER = watch.HANGS = 3
exec(sys.argv.pop(1))
sys.exit(main(sys.argv[1:]))
"""
"""The recorder, which looks each second."""


def send(packets: Iterable[bytes]) -> None:
    """Sends what a recorder here takes."""
    with socket.socket(socket.AF_INET, socket.SOCK_DGRAM) as out:
        for packet in packets:
            out.sendto(packet, ("127.0.0.1", 123))


class Rig:
    """A recorder in this network, begun where nothing can be written, as its unit is; and packets for it."""

    def __init__(self, place: Path, interface: str = "lo", *words: str, setting: str = "", tools: str = "") -> None:
        self.folder = place / "rec"
        self.err = open(place / "err", "w+b")
        self.call = subprocess.Popen([sys.executable, "-I", "-B", "-c", RECORDER, str(ROOT), setting, "record",
                                      "--interface", interface, *words, str(self.folder)], stderr=self.err,
                                     cwd="/proc", env={**os.environ, "PATH": tools + os.environ["PATH"]})
        self.until("listening on")

    def until(self, words: str, number: int = 1) -> bool:
        wait_until(lambda: self.said().count(words) >= number or self.call.poll() is not None)
        return self.said().count(words) >= number

    def said(self) -> str:
        return os.pread(self.err.fileno(), 1 << 20, 0).decode()

    def packets(self, number: int) -> None:
        """Sends requests, which the recorder has then taken."""
        before = self.state().get("kept", 0) if self.state() else 0
        send(b"\x23".ljust(40, b"\0") + os.urandom(8) for _ in range(number))
        self.state_with(lambda state: state.get("kept", 0) >= before + number, 5)

    def state(self) -> dict[str, Any]:
        path = self.folder / "lo.recording"
        found: dict[str, Any] = json.loads(path.read_text()) if path.exists() and path.stat().st_size else {}
        return found

    def state_with(self, is_there: Callable[[dict[str, Any]], object], seconds: float = SECONDS / 4) -> bool:
        end = time.monotonic() + seconds
        while not (held := bool(is_there(self.state()))) and time.monotonic() < end:
            time.sleep(0.1)
        return held

    def end(self) -> int:
        if self.call.poll() is None:
            self.call.send_signal(signal.SIGINT)
        return self.call.wait(SECONDS)

    def files(self) -> list[int]:
        """How many records each capture has, in order of their names; -1 of one that isn't whole."""
        found = []
        for path in sorted(self.folder.glob("*.pcap*"), key=lambda path: path.stat().st_mtime_ns):
            data, at, number = path.read_bytes(), 24, 0
            while at < len(data):
                at, number = at + 16 + struct.unpack_from("<I", data, at + 8)[0], number + 1
            found.append(number if at == len(data) else -1)
        return found


def full(place: Path) -> dict[str, Any]:
    """A full disk, and room again: what was written is whole, and a file is begun."""
    folder = place / "rec"
    folder.mkdir()
    subprocess.run(["mount", "-t", "tmpfs", "-o", "size=200k", "tmpfs", folder], check=True)
    rig = Rig(place)
    rig.packets(5)
    with open(folder / "fill", "wb", 0) as fill:
        try:
            while fill.write(bytes(512)):
                pass
        except OSError:
            pass
    rig.packets(300)
    is_said = rig.until("nothing can be written (No space left on device)")
    named = rig.state_with(lambda state: "room" in state["troubles"])
    last, came = rig.state()["last"], int(time.clock_gettime(time.CLOCK_BOOTTIME)) + 1
    time.sleep(2)
    rig.packets(3)
    held = rig.state()["last"] == last < came
    (folder / "fill").unlink()
    for number in (3, 3, 3, 4):
        rig.packets(number)
    again = rig.until("there is room again")
    files = (rig.end(), rig.files())
    said = rig.said().count("nothing can be written")
    return {"said": (is_said, said), "named": named, "held": held, "again": again, "status": files[0],
            "whole": -1 not in files[1], "later": len(files[1]) == 2 and files[1][1] >= 4}


def stopped(place: Path) -> dict[str, Any]:
    """A tcpdump that hangs is ended, and another begun; so it is of one that was killed."""
    found = {}
    rig = Rig(place)
    for number, (name, sent, words) in enumerate((("hangs", signal.SIGSTOP, "tcpdump doesn't answer"),
                                                  ("killed", signal.SIGKILL, "tcpdump has ended"))):
        rig.packets(2)
        tool, = [child for child in children(rig.call.pid) if b"tcpdump" in
                 Path(f"/proc/{child}/cmdline").read_bytes().split(b"\0")[0]]
        os.kill(tool, sent)
        found[name] = rig.until(words), rig.until("listening on", number + 2)
    rig.packets(3)
    return {**found, "status": rig.end(), "files": rig.files()}


def removed(place: Path) -> dict[str, Any]:
    """A file that is taken away: another is begun. The folder: the call ends, with a line and status 4."""
    rig = Rig(place)
    rig.packets(2)
    for path in rig.folder.glob("*.pcap"):
        path.unlink()
    is_said = rig.until("was moved, taken away or changed")
    rig.packets(3)
    files = rig.files()
    rig.folder.rename(place / "elsewhere")
    status = rig.call.wait(SECONDS)
    return {"file": (is_said, files), "folder": (status, "rec was moved or taken away" in rig.said())}


def link(place: Path) -> dict[str, Any]:
    """A link that goes down and comes back, and one that is gone."""
    rig = Rig(place)
    rig.packets(2)
    subprocess.run(["ip", "link", "set", "lo", "down"], check=True)
    time.sleep(3)
    subprocess.run(["ip", "link", "set", "lo", "up"], check=True)
    time.sleep(1)
    rig.packets(3)
    found = {"again": (rig.end(), sum(rig.files()))}
    subprocess.run(["ip", "link", "add", "d0", "type", "veth", "peer", "name", "d1"], check=True)
    subprocess.run(["ip", "link", "set", "d0", "up"], check=True)
    (place / "other").mkdir()
    rig = Rig(place / "other", "d0")
    subprocess.run(["ip", "link", "del", "d0"], check=True)
    return {**found, "gone": (rig.call.wait(SECONDS), "there is no interface d0" in rig.said())}


def many(place: Path) -> dict[str, Any]:
    """A file whose time is over is followed by another; and more bytes than all files may have: nothing is recorded
    until some are taken away."""
    rig = Rig(place, "lo", "--hourly", setting="watch.HOUR, watch.ALL = 2, 2000")
    for number in (2, 3, 20):
        rig.packets(number)
        time.sleep(2)
    is_said, files = rig.until("nothing is recorded until some are taken away"), rig.files()
    rig.packets(1)
    before = rig.files()
    for path in rig.folder.glob("*.pcap*"):
        path.unlink()
    again = rig.until("there is room again")
    rig.packets(4)
    return {"files": files, "said": is_said, "held": before == files, "again": again, "end": (rig.end(), rig.files())}


def flooded(place: Path) -> dict[str, Any]:
    """What is no client's request is kept until there is half of what all files may have, and not beyond. A word of
    itself that can't be written is said."""
    (place / "rec/lo.recording").mkdir(parents=True)
    rig = Rig(place, setting="watch.ALL = 9000")
    is_said = rig.until("lo.recording can't be written (Is a directory)")
    for number in (60, 9, 9):
        send([b"\x23".ljust(48, b"\0")] * number)
        time.sleep(3)
    return {"said": is_said, "status": rig.end(), "files": rig.files(), "left": "18 were left out" in rig.said()}


STAND_IN = """#!/bin/sh
case $* in --version) echo tcpdump; exit;; esac
{}
echo "tcpdump: listening on lo" >&2
while :; do sleep 0.1; done
"""
"""What stands in for tcpdump, and is told apart by what it says when it is asked by a signal."""
LOSING = """trap 'echo "0 packets captured, 7 packets received by filter, 7 packets dropped by kernel" >&2' USR1
trap 'echo "0 packets captured" >&2; echo "8 packets received by filter" >&2; echo "8 packets dropped by kernel" >&2
exit' INT"""
COUNTING = """trap 'echo "9 packets captured, 9 packets received by filter, 0 packets dropped by kernel" >&2' USR1"""


def lost(place: Path) -> dict[str, Any]:
    """Packets that the kernel drops are told while it records, and at the end."""
    runnable(place / "tcpdump", STAND_IN.format(LOSING))
    rig = Rig(place, tools=f"{place}:")
    said = rig.until("packets are lost") and rig.state_with(lambda state: state["lost"] == 7)
    return {"said": said, "status": rig.end(), "end": "0 packets were recorded, 8 were lost" in rig.said(),
            "lost": rig.state()["lost"]}


def wrong(place: Path) -> dict[str, Any]:
    """A clock that is set to 2099, to 1970, back by an hour and right again: all that was recorded is in files that are
    called so."""
    ahead, moved = place / "ahead", place / "moved"
    ahead.write_text("0")
    rig = Rig(place, "lo", "--hourly", setting="watch.HOUR, true = 1, watch.time.time\n"
              f"watch.time.time = lambda: true() + float(open({str(ahead)!r}).read())")
    for number, seconds in enumerate((0, 4_084_000_000 - time.time(), 90_000 - time.time(), -3600, 0), 1):
        moved.write_text(str(seconds))
        moved.replace(ahead)
        time.sleep(1.5)
        rig.packets(number)
    status, years = rig.end(), {path.name[3:7] for path in rig.folder.glob("*.pcap*")}
    return {"status": status, "files": rig.files(), "years": years == {"1970", "2099", str(time.gmtime().tm_year)}}


def counts(place: Path) -> dict[str, Any]:
    """A tcpdump that counts packets of which nothing comes: it is begun anew."""
    runnable(place / "tcpdump", STAND_IN.format(COUNTING))
    rig = Rig(place, tools=f"{place}:")
    return {"said": rig.until("tcpdump has counted 9 packets, and 0 came of it: it is begun anew"),
            "again": rig.until("listening on", 2), "status": rig.end()}


WANTED: dict[Callable[[Path], dict[str, Any]], dict[str, Any]] = {
    full: {"said": (True, 1), "named": True, "held": True, "again": True, "status": 0, "whole": True, "later": True},
    stopped: {"hangs": (True, True), "killed": (True, True), "status": 0, "files": [2, 2, 3]},
    removed: {"file": (True, [3]), "folder": (4, True)},
    link: {"again": (0, 5), "gone": (4, True)},
    many: {"files": [2, 3, 20], "said": True, "held": True, "again": True, "end": (0, [4])},
    flooded: {"said": True, "status": 0, "files": [60], "left": True},
    counts: {"said": True, "again": True, "status": 0},
    lost: {"said": True, "status": 0, "end": True, "lost": 8},
    wrong: {"status": 0, "files": [0, 1, 2, 3, 4, 5], "years": True},
}


def test_watched(place: Path) -> None:
    if os.geteuid() or run(["unshare", "-n", "-m", "true"])[0]:
        skip("a recorder that is watched", "there are no namespaces")
        return
    for tool in ("tcpdump", "ip"):
        if not shutil.which(tool):
            skip("a recorder that is watched", wanting(tool))
            return
    calls = {}
    for case in WANTED:
        (place / case.__name__).mkdir()
        words = ["unshare", "-n", "-m", "--propagation", "private", sys.executable, "-B", __file__, case.__name__,
                 place / case.__name__]
        calls[case] = subprocess.Popen(list(map(str, words)), stdout=subprocess.PIPE)
    for case, call in calls.items():
        out, _ = call.communicate(timeout=SECONDS)
        seen = {name: tuple(value) if isinstance(WANTED[case].get(name), tuple) else value
                for name, value in json.loads(out or b"{}").items()}
        check(f"a recorder that is watched: {case.__name__}", seen=(seen, WANTED[case]))


# ---- what is kept


def frame(source: str, destination: str, ports: tuple[int, int], mode: int, origin: int = 0, transmit: int = 0,
          receive: int = 0, is_tagged: bool = False) -> bytes:
    ntp = bytes([0x20 | mode]).ljust(24, b"\0") + struct.pack(">QQQ", origin, receive, transmit)
    udp = struct.pack(">HHHH", *ports, 8 + len(ntp), 0) + ntp
    ip = struct.pack(">BBHHHBBH4s4s", 0x45, 0, 20 + len(udp), 0, 0, 64, 17, 0, socket.inet_aton(source),
                     socket.inet_aton(destination))
    return bytes(12) + (b"\x81\x00\x00\x05" if is_tagged else b"") + b"\x08\x00" + ip + udp


def test_kept() -> None:
    """Beyond what is kept of a minute whatever it is only requests and their answers are kept; and of these no more
    than so many bytes in a minute and an hour. By hand: which packet is what."""
    from dossier.capture import exchange
    now = [0.0]
    keeping = exchange.Keeping(lambda: now[0])

    def keeps(data: bytes, size: int = 100) -> bool:
        keeping.renew()
        return keeping.keeps(b"head" + data, 4, 4 + len(data), size)
    mine, server = "192.0.2.10", "192.0.2.1"
    keeping.clients = {tuple(socket.inet_aton(mine))}
    asked = frame(mine, server, (5000, 123), 3, transmit=7)
    answer = frame(server, mine, (123, 5000), 4, origin=7)
    strange = frame(server, mine, (123, 5000), 4, origin=8)
    check("a calm minute", kept=([keeps(strange) for _ in range(9)], [True] * 9))
    while keeps(strange, 1000):
        pass
    others = {"an answer to another port": frame(server, mine, (123, 5001), 4, origin=7),
              "to another client": frame(server, "192.0.2.11", (123, 5000), 4, origin=7),
              "of another server": frame("192.0.2.2", mine, (123, 5000), 4, origin=7),
              "cut": answer[:-1], "of another protocol": answer[:12] + b"\x86\xdd" + answer[14:], "no frame": b"",
              "a control packet": frame(mine, server, (5000, 123), 6),
              "a request of a server": frame(server, mine, (123, 123), 3, transmit=9),
              "a request to oneself": frame(mine, mine, (5000, 123), 3, transmit=9), "no origin": frame(
                  server, mine, (123, 5000), 4)}
    tagged = [frame(mine, server, (123, 123), 3, transmit=9, receive=5, is_tagged=True),
              frame(server, mine, (123, 123), 4, origin=9, is_tagged=True),
              frame(server, mine, (123, 123), 4, origin=5)]
    check("a flood", request=(keeps(asked), True), answer=(keeps(answer), True), again=(keeps(answer), True),
          stranger=(keeps(strange), False), others=([name for name, data in others.items() if keeps(data)], []),
          tagged=([keeps(data) for data in tagged], [True] * 3))
    number = 0
    while keeps(asked, 10_000):
        number += 1
    check("a flood of requests", bytes=(8_900_000 < number * 10_000 <= 9_000_000, True),
          answer=(keeps(answer, 10_000), False))
    beyond = number * 10_000
    for minute in range(1, 10):
        now[0] = 60.0 * minute
        size = 0
        while keeps(asked, 10_000):
            size += 10_000
        beyond += max(0, size - 1_000_000)
        check(f"minute {minute}", bytes=(size <= 10_000_000, True), some=(size >= 990_000, True))
    check("an hour", beyond=(39_000_000 <= beyond <= 40_000_000, True))
    now[0] = 3600.0
    while keeps(strange, 1000):
        pass
    check("another hour", request=(keeps(asked), True))
    for number in range(exchange.MAX_ASKED + 9):
        keeping.is_own(data := frame(mine, server, (5000, 123), 3, transmit=1000 + number), 0, len(data))
    check("requests that are known", number=(len(keeping.asked), exchange.MAX_ASKED))
    keeping, keeping.any = exchange.Keeping(lambda: now[0]), 0
    check("where there is half of all", kept=([keeps(data) for data in (strange, asked, answer, strange)],
                                              [False, True, True, False]))


if __name__ == "__main__":
    subprocess.run(["ip", "link", "set", "lo", "up"], check=True)
    print(json.dumps(next(case for case in WANTED if case.__name__ == sys.argv[1])(Path(sys.argv[2]))))
