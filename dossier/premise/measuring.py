"""Whether a packet's stamp comes after it left, measured where that can be seen: packets go over a link whose two ends
are on this machine, so that one clock makes both stamps. tcpdump records both ends. Where a packet's stamp is later at
the end that it left than at the end where it arrived, it came too late by as much at least, or the other too early.
"""
import ctypes
import os
import signal
import socket
import subprocess
import time
from collections.abc import Iterator
from contextlib import ExitStack, contextmanager

from ..capture.recorder import version_of
from ..fault import DEVICE, fault
from ..folder.jobs import PIPE, answer, begun, find_tool, run
from ..folder.placing import keep, write_named
from ..folder.program import Program
from ..folder.result import Written
from ..schema import json_text, said
from ..text import plain
from ..units import now, round_up
from .measurement import Measurement

APART = 0.001
"""Seconds between two packets."""
PATIENCE = 2.0
"""Seconds for which tcpdump is waited for at its end."""
CLONE_NEWNET = 0x40000000
ENDS = ("ntp0", "ntp1")
HERE, THERE, CARD = "192.0.2.1", "192.0.2.2", "02:00:00:00:00:02"
"""Addresses of both ends, and the other end's on the link."""
LINK = f"""link add name {ENDS[0]} type veth peer name {ENDS[1]} address {CARD}
link set {ENDS[0]} up
link set {ENDS[1]} up
addr add {HERE}/24 dev {ENDS[0]}
neigh add {THERE} lladdr {CARD} nud permanent dev {ENDS[0]}
"""
"""The link, in the words of ip(8)."""


def measure(program: Program, packets: int, is_loaded: bool, output: str | None) -> int:
    """Measures, prints what came of it, and leaves it in a file if one is named."""
    def work(*_: object) -> Written:
        busy = len(os.sched_getaffinity(0)) if is_loaded else 0
        tool, system = find_tool("tcpdump", "tcpdump isn't installed, which records the packets"), os.uname()
        make_link()
        earlier = sorted(sent_over(program, tool, packets, busy))
        result = measurement(earlier, busy, version_of(tool), plain(system.nodename), plain(system.release), now())
        return Written(json_text({**said(result), "reason": result.why}).decode(), result.lines())
    measured = answer(work, Written)
    for line in measured.lines:
        print(line)
    if output:
        write_named(output, measured.text.encode())
    return 0


def measurement(earlier: list[int], busy: int, tool: str, machine: str, kernel: str, made: str) -> Measurement:
    """What it comes to, of how much earlier packets were stamped where they left, in order."""
    greatest = max(0, -earlier[0])
    return Measurement(len(earlier), busy, sum(each < 0 for each in earlier), greatest,
                       max(0, earlier[len(earlier) // 2]), round_up(greatest), tool, machine, kernel, made, "late")


def make_link() -> None:
    """Puts this process into a network of its own, which goes when it has ended, and makes the link there."""
    tool = find_tool("ip", "ip isn't installed (iproute2), which makes the link")
    libc = ctypes.CDLL(None, use_errno=True)
    if libc.unshare(CLONE_NEWNET):
        raise fault("no network of its own can be made for the link "
                    f"({os.strerror(ctypes.get_errno())}): it takes root", DEVICE)
    keep("link", LINK.encode())
    status, _, error = run([tool, "-batch", "link"])
    if status:
        said = error.decode("utf-8", "replace").splitlines() or [f"status {status}"]
        raise fault(f"no link can be made ({plain(said[0])})", DEVICE)


def sent_over(program: Program, tool: str, packets: int, busy: int) -> list[int]:
    """Sends packets over the link, and gives how much earlier each was stamped where it left than where it arrived."""
    with ExitStack() as held, socket.socket(socket.AF_INET, socket.SOCK_DGRAM) as sending:
        sending.bind((HERE, 0))
        port = sending.getsockname()[1]
        recording = [held.enter_context(recorder(tool, end, port, packets)) for end in ENDS]
        with load(busy):
            send(sending, packets)
        for call in recording:
            end_of(call)
    left, arrived = (recorded(program, f"{end}.pcap") for end in ENDS)
    return matched(left, arrived, packets)


@contextmanager
def recorder(tool: str, interface: str, port: int, packets: int) -> Iterator[subprocess.Popen[bytes]]:
    """tcpdump, as soon as it listens. It ends by itself when it has all packets."""
    words = [tool, "-i", interface, "-n", "-U", "--immediate-mode", "-j", "host", "--time-stamp-precision=nano", "-s",
             "128", "-c", str(packets), "-w", "-", "--", f"udp src port {port} and dst port 123"]
    with open(f"{interface}.pcap", "wb") as file:
        call = begun(words, stdout=file, stderr=PIPE)
    with call:
        try:
            wait_for(call)
            yield call
        finally:
            call.kill()


def wait_for(call: subprocess.Popen[bytes]) -> None:
    """Waits until tcpdump says that it listens. If it ends before, it hasn't the right to."""
    said = []
    for line in call.stderr or ():
        said.append(line.decode("utf-8", "replace").strip())
        if "listening on" in said[-1]:
            return
    raise fault(f"tcpdump doesn't record ({plain(' '.join(said))})", DEVICE)


@contextmanager
def load(number: int) -> Iterator[list[int]]:
    """Keeps so many processors busy, each by a process."""
    busy: list[int] = []
    try:
        for _ in range(number):
            process = os.fork()
            if not process:
                spin()
            busy.append(process)
        yield busy
    finally:
        for process in busy:
            os.kill(process, signal.SIGKILL)
            os.waitpid(process, 0)


def spin() -> None:
    """Counts until this process is ended, or the one that began it is."""
    signal.signal(signal.SIGINT, signal.SIG_IGN)  # (it is for the process that forks)
    parent = os.getppid()
    while os.getppid() == parent:
        sum(range(100_000))
    os._exit(0)


def send(sending: socket.socket, packets: int) -> None:
    """Sends packets that have their numbers as transmit timestamps."""
    try:
        for number in range(1, packets + 1):
            sending.sendto(bytes([0x23]) + bytes(39) + number.to_bytes(8, "big"), (THERE, 123))
            time.sleep(APART)
    except OSError as error:
        raise fault(f"nothing can be sent over the link ({error.strerror})", DEVICE) from None


def end_of(recording: subprocess.Popen[bytes]) -> None:
    """Waits for a recording's end."""
    try:
        recording.wait(PATIENCE)
    except subprocess.TimeoutExpired:
        recording.terminate()
        recording.wait()


def recorded(program: Program, capture: str) -> dict[int, int]:
    """The time of each packet's record by the packet's number, as `list` has them."""
    times: dict[int, int] = {}

    def take(block: bytes) -> None:
        for words in (line.split() for line in block.splitlines() if not line.startswith(b"records ")):
            seconds, _, part = words[1].partition(b".")
            times[int(words[15], 16)] = int(seconds + part.ljust(9, b"0"))
    program.blocks(take, "list", capture)
    return times


def matched(left: dict[int, int], arrived: dict[int, int], packets: int) -> list[int]:
    """How much earlier each packet was stamped where it left, of those that were recorded at both ends. A busy machine
    may drop some."""
    delays = [arrived[number] - at for number, at in left.items() if number in arrived]
    if not delays or 10 * len(delays) < 9 * packets:
        raise fault(f"{len(delays)} of {packets} packets were recorded at both ends, so nothing is measured", DEVICE)
    return delays
