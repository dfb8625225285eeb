"""The recorder: tcpdump on an interface, which is watched.

tcpdump hands on what it records, and the files are written here, whole records alone. Each ten seconds it is asked how
many packets it has counted, and that is held to what came of it; what was written is held to the file. What is wrong is
said once, and stands in a file beside the captures, with what a look at the last minutes needs. Times are by a clock
that isn't set.
"""
import os
import re
import signal
import time
from contextlib import suppress
from struct import Struct
from typing import Annotated, Literal, NamedTuple

from ..fault import DEVICE, USAGE, Fault, Stopped, fault
from ..folder.files import Folder
from ..folder.jobs import ENVIRONMENT, GRACE, Companion, find_tool
from ..folder.placing import Begun, Slate, make_folder, undisturbed
from ..records import dataclass, field
from ..schema import Count, Text, json_text, length, read_typed
from ..text import note, plain
from ..units import now
from .classic import HEAD, HEADER, MAGICS
from .exchange import ANY, Keeping
from .recorder import BEGUN, INTERFACE, Recorder, addresses_of, ends_of, filter_of, keep, recorder
from .traffic import number_of

LOOK, HOUR = 10, 3600
"""Seconds from one look to the next, and of a file of an hourly recording."""
PACKET = 1522
"""Bytes that are kept of a packet: a frame with a tag and the longest NTP packet, whatever its extension fields."""
ALL = 10_000_000_000
"""Bytes of all files of an interface in a folder. Then nothing is recorded until some are taken away; and from half of
that on only what is of an exchange, so that a flood of many days doesn't come that far."""
FREE = 1 << 16
"""Bytes that have to be free before a file is begun where there was no room."""
DEAD = 6 * LOOK
"""Seconds after which a recorder that says nothing of itself doesn't run."""
OVER = 120
"""Seconds after which a flood is over."""
HANGS = 9
"""Seconds after which a tcpdump that says nothing hangs."""
PATIENCE = 60
"""Seconds in which tcpdump is begun again if it ends at once, and then no more."""
BUFFER = "16384"
"""KiB in which the kernel holds packets while this process is busy."""
COUNTED, LOST = re.compile(r"(\d+) packets? captured"), re.compile(r"(\d+) packets? dropped by kernel")
OF_ROOT = "name one of root's own, such as /srv/web-1, since tcpdump needs root"
ENDING, MAX_NAMED = ".recording", 20


@dataclass(frozen=True)
class State:
    """What a recorder says of itself at each look, in seconds since the machine was begun."""

    kind: Literal["recording"]
    at: Count
    last: Count
    """When its last record was written; 0 if none was."""
    files: Annotated[list[Text], length(0, 20)]
    """The last files, in the order in which they were begun."""
    kept: Count
    left_out: Count
    """Packets of more than are kept of a minute that aren't of an exchange."""
    lost: Count
    """Packets that had no room, or that the kernel or tcpdump dropped."""
    troubles: list[Text] = field(default_factory=list)

    @property
    def runs(self) -> bool:
        """Whether it has said something lately."""
        return 0 <= int(since_boot()) - self.at <= DEAD


def read_state(folder: Folder, interface: str) -> State | None:
    """What the recorder of an interface says of itself in a folder, if one does."""
    name = f"{interface}{ENDING}"
    try:
        state: State = read_typed(name, State, folder.part(name, 0, Slate.SIZE))
        return state
    except Fault:
        return None


class RecordCall(NamedTuple):
    interface: str
    folder: str
    is_hourly: bool
    claim: str | None


def since_boot() -> float:
    """Seconds since the machine was begun: nobody sets this clock."""
    return time.clock_gettime(time.CLOCK_BOOTTIME)


def record(wanted: RecordCall) -> int:
    """Records until it is ended, which is no fault."""
    if not INTERFACE.fullmatch(wanted.interface):
        raise fault("--interface takes the name of one, such as eth0", USAGE)
    tool = find_tool("tcpdump", "tcpdump isn't installed, which records")
    make_folder(wanted.folder, OF_ROOT)
    with Folder(wanted.folder) as folder:
        watch = Watch(wanted, tool, folder)
        try:
            watch.run()
        except (KeyboardInterrupt, Stopped):
            watch.end()
        finally:
            watch.close()
    return 0


class Watch:
    def __init__(self, wanted: RecordCall, tool: str, folder: Folder):
        self.wanted, self.tool, self.folder = wanted, tool, folder
        self.keeping = Keeping(since_boot)
        self.call: Companion | None = None
        self.file: Begun | None = None
        self.slate: Slate | None = None
        self.evidence: Recorder | None = None
        self.files = before.files if (before := read_state(folder, wanted.interface)) else []
        self.header = self.rest = b""
        self.heard = self.said = ""
        """What tcpdump printed of a line so far, and the last line that is no count."""
        self.taken = self.counted = 0
        """Of this tcpdump the packets that came, and those that it had counted when it was asked last."""
        self.waits: float | None = None
        """Since when it should have said something."""
        self.listens: float | None = None
        self.kept = self.left_out = self.unwritten = self.dropped = self.dropped_before = 0
        self.last = self.rotates = self.retries = 0.0
        self.failing: float | None = None
        self.troubles: dict[str, str] = {}
        self.numbers: dict[str, tuple[int, float]] = {}
        """Of packets that are left out or lost how many there were, and when there were more last."""

    # ---- what is wrong

    def trouble(self, kind: str, words: str) -> None:
        """Says once on standard error that something is wrong, and keeps it for the state's file."""
        if kind not in self.troubles:
            note(f"ntpaudit-dossier: {self.wanted.interface}: {words}")
        self.troubles[kind] = words

    def is_well(self, kind: str, words: str) -> None:
        """Says that a trouble is over, if it was one."""
        if self.troubles.pop(kind, ""):
            note(f"ntpaudit-dossier: {self.wanted.interface}: {words}")

    def trouble_while(self, kind: str, number: int, words: str) -> None:
        """Says that more and more packets are left out or lost; and when there were no more for a while, how many."""
        before, at = self.numbers.get(kind, (0, 0.0))
        if number > before:
            self.numbers[kind] = number, since_boot()
            self.trouble(kind, words)
        elif since_boot() > at + OVER:
            self.is_well(kind, f"that is over, after {number:,} packets")

    # ---- from one look to the next

    def run(self) -> None:
        """Records until it is told to end."""
        self.begin()
        at = since_boot() + LOOK
        while True:
            left = at - since_boot()
            if left <= 0:
                self.look()
                at = since_boot() + LOOK
            elif self.call:
                self.take(self.call, self.call.wait(left))
            else:
                time.sleep(min(1.0, left))
                self.begin_again()

    def look(self) -> None:
        """Looks whether all is as it should be, as every ten seconds."""
        with suppress(Fault):
            if self.evidence and addresses_of(self.wanted.interface) != self.evidence.addresses:
                note(f"ntpaudit-dossier: {self.wanted.interface}: its addresses have changed")
                self.drop()
        self.look_at_tool()
        self.look_at_file()
        self.write_state()

    def look_at_tool(self) -> None:
        """Holds what tcpdump had counted at the last look to what came of it since, and asks it again."""
        if not self.call:
            self.begin_again()
            return
        if self.waits and since_boot() > self.waits + HANGS:
            self.trouble("hangs", "tcpdump doesn't answer: it is begun anew")
        elif self.waits is None and self.taken < self.counted:
            self.trouble("hangs", f"tcpdump has counted {self.counted:,} packets, and {self.taken:,} came of it: it is "
                         "begun anew")
        elif self.listens and self.waits is None:
            self.is_well("hangs", "tcpdump answers again")
            self.waits = since_boot()
            self.call.asked(signal.SIGUSR1)
            return
        else:
            return
        self.drop()
        self.begin_again()

    def look_at_file(self) -> None:
        """Whether the file and its folder are still there, and how much all files have."""
        if self.file and not self.file.stands():
            self.trouble("file", f"{self.file.name} was moved, taken away or changed: another is begun")
            self.close_file()
        self.is_there()
        size = 0
        for name in self.folder.names():
            if (match := BEGUN.fullmatch(name)) and match[1] == f"{self.wanted.interface}-":
                size += self.folder.size(name)
        self.keeping.any = ANY if size <= ALL // 2 else 0
        if size > ALL:
            self.trouble("all", f"its files have {size:,} bytes: nothing is recorded until some are taken away")
            self.close_file()
        else:
            self.is_well("all", "there is room again")
        self.trouble_while("flood", self.left_out, "more packets come than are kept: of what is more than 1 MB in a "
                           "minute the client's requests and their answers alone")
        self.trouble_while("lost", self.dropped + self.unwritten, "packets are lost: they come too fast, or there is "
                           "no room")

    def write_state(self) -> None:
        """What is said of this recorder until the next look."""
        name = f"{self.wanted.interface}{ENDING}"
        try:
            self.slate = self.slate or Slate(self.folder.place, name)
            self.slate.put(json_text(State("recording", int(since_boot()), int(self.last),
                                           self.files, self.kept, self.left_out,
                                           self.unwritten + self.dropped, sorted(self.troubles))))
        except OSError as error:
            self.trouble("state", f"{name} can't be written ({error.strerror}), so nobody knows that it is recorded")

    # ---- tcpdump

    def begin(self) -> None:
        """Begins tcpdump, with the filter and the evidence as they are now."""
        try:
            self.evidence = recorder(self.tool, self.wanted.interface)
            keep(self.wanted.folder, self.evidence)
        except Fault as error:  # (what is recorded counts without it too)
            note(f"ntpaudit-dossier: no evidence of the recorder is left: {error.words}")
        ends = ends_of(self.wanted.claim, self.evidence.addresses if self.evidence else [])
        self.keeping.clients = set(map(number_of, ends[0]))
        words = [self.tool, "-i", self.wanted.interface, "-n", "-U", "-j", "host", "--time-stamp-precision=nano",
                 "-s", str(PACKET), "-B", BUFFER, "-w", "-", "--", filter_of(*ends)]
        self.header = self.rest = b""
        self.heard = self.said = ""
        self.taken = self.counted = 0
        self.listens, self.waits = None, since_boot()
        self.call = Companion(words, {**ENVIRONMENT, "TZ": "UTC"})

    def begin_again(self) -> None:
        """Begins tcpdump again, if it has ended."""
        if self.call is None:
            self.begin()

    def drop(self, seconds: float = 0) -> int:
        """Ends tcpdump, which has so many seconds to end by itself, and the file, since what came of it may be torn.
        Its status, 0 if none ran."""
        status = 0
        if self.call:
            status = self.call.end(seconds)
            self.call, self.dropped_before = None, self.dropped
        self.close_file()
        return status

    def ended(self) -> None:
        """tcpdump has ended by itself: it is begun again, unless it never listened, or the interface is gone."""
        assert self.call
        listened, status = self.listens, self.drop(GRACE)
        said = plain(self.said) or (f"signal {-status}" if status < 0 else f"status {status}")
        if not listened and not self.troubles.get("ended"):
            raise fault(f"tcpdump doesn't record {self.wanted.interface} ({said})", DEVICE)
        if (why := self.addresses_fault()) and why.status == DEVICE:
            raise why
        self.failing = self.failing or since_boot()
        if since_boot() > self.failing + PATIENCE:
            raise fault(f"tcpdump records {self.wanted.interface} no more ({said})", DEVICE)
        self.trouble("ended", f"tcpdump has ended ({said}): it is begun anew")

    def addresses_fault(self) -> Fault | None:
        """Why the interface's addresses can't be told; a fault of a device if it isn't there."""
        try:
            addresses_of(self.wanted.interface)
        except Fault as error:
            return error
        return None

    def hear(self, words: bytes) -> None:
        """Takes what tcpdump prints beside its output: counts, that it listens, and why it ends."""
        *lines, self.heard = (self.heard + words.decode("utf-8", "replace")).split("\n")
        for line in lines:
            line = line.removeprefix("tcpdump: ")
            if counts := COUNTED.search(line):
                self.counted, self.waits = int(counts[1]), None
            if lost := LOST.search(line):
                self.dropped = self.dropped_before + int(lost[1])
            if line.startswith("listening on"):
                self.listens, self.failing, self.waits = since_boot(), None, None
                note(f"ntpaudit-dossier: {line}")
                self.is_well("ended", "tcpdump records again")
            elif " packet" not in line:
                self.said = line.strip("()") or self.said

    # ---- packets

    def take(self, call: Companion, ready: set[int]) -> None:
        """Takes what tcpdump has printed. What is taken isn't lost to a signal."""
        with undisturbed():
            output, words = call.came(ready)
            self.records(output or b"")
            self.hear(words)
        if output is None:
            self.ended()

    def records(self, block: bytes) -> None:
        """Takes what comes of tcpdump, and writes what is kept of its whole records."""
        data, at = self.rest + block, 0
        if not self.header:
            if len(data) < HEADER:
                self.rest = data
                return
            self.header, at = data[:HEADER], HEADER
            self.write(b"", 0)
        self.keeping.renew()
        kept, number, keeps = [], 0, self.keeping.keeps
        head, size = Struct(f"{MAGICS[self.header[:4]][0]}8xI").unpack_from, len(data) - HEAD
        while at <= size:
            end = at + HEAD + head(data, at)[0]
            if end > len(data):
                break
            if keeps(data, at + HEAD, end, end - at):
                kept.append(data[at:end])
            at, number = end, number + 1
        self.rest = data[at:]
        self.taken, self.left_out = self.taken + number, self.left_out + number - len(kept)
        if kept:
            self.write(b"".join(kept), len(kept))

    def write(self, records: bytes, number: int) -> None:
        """Writes records into the file, or into another one if its time is over; they are lost if there is no room."""
        if self.file and self.wanted.is_hourly and since_boot() >= self.rotates:
            self.close_file()
        try:
            if not self.file:
                self.begin_file()
            if self.file:
                self.file.take(records)
                self.kept, self.last = self.kept + number, since_boot() if number else self.last
                return
        except OSError as error:
            self.close_file()
            self.is_there()
            self.trouble("room", f"nothing can be written ({error.strerror}): a file is begun when there is room")
        self.unwritten += number

    def begin_file(self) -> None:
        """Begins a file, if there is room, which is looked for once in a second."""
        if since_boot() < self.retries or "all" in self.troubles:
            return
        self.retries = since_boot() + 1
        if "room" in self.troubles:
            free = os.statvfs(self.folder.place)
            if free.f_bavail * free.f_frsize < FREE:
                return
        name = f"{self.wanted.interface}-{now().replace(':', '')}.pcap"
        self.file, self.rotates, self.retries = Begun(self.folder.place, name, self.header), since_boot() + HOUR, 0.0
        self.files = [*self.files, self.file.name][-MAX_NAMED:]
        self.is_well("room", f"there is room again: {self.file.name} is begun")
        self.is_well("file", f"{self.file.name} is begun")

    def is_there(self) -> None:
        """A fault if the folder isn't there any more: what is written into it would be nowhere."""
        if not self.folder.is_at(self.wanted.folder):
            raise fault(f"{self.wanted.folder} was moved or taken away: what is recorded would be nowhere", DEVICE)

    def close_file(self) -> None:
        """Ends the file that is being written."""
        if self.file:
            self.file.end()
            self.file = None

    # ---- the end

    def end(self) -> None:
        """Takes what tcpdump has still to say, and says what was recorded."""
        with undisturbed(), suppress(Fault):
            until = since_boot() + GRACE
            if self.call:
                self.call.asked(signal.SIGINT)
            while self.call and since_boot() < until:
                output, words = self.call.came(self.call.wait(until - since_boot()))
                self.records(output or b"")
                self.hear(words)
                if output is None:
                    break
            lost = self.unwritten + self.dropped
            note(f"ntpaudit-dossier: {self.kept:,} packets were recorded" +
                 (f", {lost:,} were lost" if lost else "") +
                 (f", {self.left_out:,} were left out" if self.left_out else ""))

    def close(self) -> None:
        """Leaves the file whole, whatever came."""
        self.drop()
        if "ended" not in self.troubles:
            self.troubles["stopped"] = ""
        self.write_state()
        if self.slate:
            self.slate.end()
