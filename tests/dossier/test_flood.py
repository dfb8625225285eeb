"""A test of the recorder: a flood of answers that nobody asked for, from a server's address, while a client asks four
servers each second. What is left of a minute, and what `now` and `audit` say of it. All is in two networks of its own.

usage, for a minute: unshare -n python3 tests/dossier/test_flood.py FOLDER 60
"""
import json
import os
import select
import socket
import struct
import subprocess
import sys
import time
from pathlib import Path
from typing import Any

ROOT = Path(__file__).resolve().parents[2]
if __name__ == "__main__":
    sys.path[0] = str(ROOT)

from tests.support import SECONDS, check, children, is_here, run, skip  # noqa: E402
from tests.dossier.audits import ENVIRONMENT, SCRIPT, civil  # noqa: E402
from tests.dossier.test_recording import Rig  # noqa: E402

CLIENT, PORT, SERVERS = "10.9.0.1", 40_123, [f"10.9.1.{k}" for k in (1, 2, 3, 4)]
SOURCE = ROOT / "tests" / "tools" / "flood.c"
EPOCH = 2_208_988_800
CALM, RATE = 4, 100_000
"""Seconds in which the client asks before the flood, and after it; and packets a second of the flood."""


def called(*words: object) -> None:
    subprocess.run(list(map(str, words)), check=True)


def outside(tool: str, mac: str, seconds: str) -> None:
    """Once a line comes, servers that answer; and at the next one the flood."""
    print("here", flush=True)
    sys.stdin.readline()
    called("ip", "link", "set", "d1", "up")
    own = []
    for address in SERVERS:
        called("ip", "addr", "add", f"{address}/16", "dev", "d1")
        own.append(socket.socket(socket.AF_INET, socket.SOCK_DGRAM))
        own[-1].bind((address, 123))
    print("ready", flush=True)
    flood: subprocess.Popen[bytes] | None = None
    while True:
        ready, _, _ = select.select([*own, sys.stdin], [], [], 1)
        if sys.stdin in ready:
            if not sys.stdin.readline():
                break
            flood = subprocess.Popen([tool, "d1", mac, SERVERS[0], CLIENT, str(RATE), seconds])
        for one in (one for one in own if one in ready):
            data, asker = one.recvfrom(2048)
            stamp = (time.time_ns() + EPOCH * 10**9) * 2**32 // 10**9
            head = struct.pack(">BBbbIIIQ", 0x24, 1, 0, -20, 0, 66, 0x47505300, stamp)
            one.sendto(head + data[40:48] + struct.pack(">QQ", stamp, stamp), asker)
    if flood:
        flood.wait(SECONDS)


def ticks_of(process: int) -> float:
    """Seconds of a processor that a process has taken."""
    words = Path(f"/proc/{process}/stat").read_text().rpartition(")")[2].split()
    return (int(words[11]) + int(words[12])) / os.sysconf("SC_CLK_TCK")


def flooded(place: Path, seconds: int) -> dict[str, Any]:
    """What was sent and left."""
    called("cc", "-O2", "-o", place / "flood", SOURCE)
    called("ip", "link", "add", "d0", "address", "02:00:00:00:00:02", "type", "veth", "peer", "name", "d1")
    words = [place / "flood", "02:00:00:00:00:02", seconds]
    other = subprocess.Popen(["unshare", "-n", sys.executable, "-B", __file__, "outside", *map(str, words)],
                             stdin=subprocess.PIPE, stdout=subprocess.PIPE, text=True)
    assert other.stdin and other.stdout and other.stdout.readline() == "here\n"
    called("ip", "link", "set", "d1", "netns", other.pid)
    called("ip", "addr", "add", f"{CLIENT}/16", "dev", "d0")
    called("ip", "link", "set", "d0", "up")
    print(file=other.stdin, flush=True)
    assert other.stdout.readline() == "ready\n"
    begin, day = int(time.time()), civil(int(time.time()))
    claim: dict[str, Any] = {"client": CLIENT, "servers": SERVERS, "false_max": 1, "from": day, "to": day,
                             "bound_ns": 50_000_000, "drift_ppb": 100_000, "reading_ns": 0}
    (place / "claim.json").write_text(json.dumps(claim))
    rig = Rig(place, "d0", "--claim", str(place / "claim.json"), setting="watch.LOOK, watch.HANGS = 10, 9")
    tool, = children(rig.call.pid)
    end, asked = time.monotonic() + 2 * CALM + seconds, 0
    with socket.socket(socket.AF_INET, socket.SOCK_DGRAM) as client:
        client.bind((CLIENT, PORT))
        client.setblocking(False)
        at, began = time.monotonic(), False
        while time.monotonic() < end:
            for server in SERVERS:
                asked += bool(client.sendto(b"\x23".ljust(40, b"\0") + os.urandom(8), (server, 123)))
            if not began and time.monotonic() > end - CALM - seconds:
                print(file=other.stdin, flush=True)
                began, taken = True, (ticks_of(tool), ticks_of(rig.call.pid))
            at += 1
            time.sleep(max(0, at - time.monotonic()))
    used = ticks_of(tool) - taken[0], ticks_of(rig.call.pid) - taken[1]
    last = int(time.time())
    size = sum(path.stat().st_size for path in rig.folder.glob("*.pcap"))
    status = rig.end()
    state = json.loads((rig.folder / "d0.recording").read_text())
    other.stdin.close()
    sent, nanoseconds = map(int, other.stdout.read().split())
    other.wait(SECONDS)
    span = {**claim, "from": civil(begin + 2), "to": civil(last - 2)}
    (rig.folder / "claim.json").write_text(json.dumps(span))
    said = [run([SCRIPT, *words], env=ENVIRONMENT, cwd=place)[1].decode()
            for words in (["now", "--from", "rec", "--claim", "claim.json"], ["audit", "rec"])]
    return {"sent": sent, "a second": sent * 10**9 // nanoseconds, "status": status, "bytes": size,
            "state": state, "tcpdump": used[0], "recorder": used[1], "asked": asked,
            "said": rig.said().splitlines()[1:], "now": said[0], "audit": said[1]}


def test_flood(place: Path) -> None:
    """A short one: no more than 1 MB and the client's own packets are kept, and the verdict is a yes."""
    if os.geteuid() or run(["unshare", "-n", "true"])[0]:
        skip("a flood", "there are no namespaces")
        return
    if not all([is_here(tool, "a flood") for tool in ("tcpdump", "ip", "cc")]):
        return
    status, out, err = run(["unshare", "-n", sys.executable, "-B", __file__, place, 2])
    found = json.loads(out or b"{}")
    if not found:
        check("a flood", run=((status, err), (0, b"")))
        return
    state = found["state"]
    check("a flood", status=(found["status"], 0), sent=(found["sent"] > 100_000, True),
          counted=(state["kept"] + state["left_out"] + state["lost"] >= found["sent"], True),
          bytes=(found["bytes"] < 1_000_000 + 200 * found["asked"], True),
          said=([words for words in found["said"] if "more packets come than are kept" in words] != [], True),
          verdicts=(("  yes  " in found["now"], found["audit"].split()[0]), (True, "yes")))


if __name__ == "__main__":
    if sys.argv[1] == "outside":
        outside(*sys.argv[2:])
    else:
        print(json.dumps(flooded(Path(sys.argv[1]), int(sys.argv[2])), indent=1))
