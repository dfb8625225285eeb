"""What an interface is recorded by, and what of it: beside a recorder's files it stands what they are recorded by, and
evidence.json names it, so that a draft can know of what kind their stamps are.
"""
import os
import re
from collections.abc import Iterable, Iterator
from typing import Annotated, Literal, NamedTuple

from ..fault import DEVICE, Fault, fault
from ..folder.claim import Claim
from ..folder.evidence import evidence, named_in
from ..folder.files import EVIDENCE, Folder, data_named, is_capture
from ..folder.jobs import find_tool, told
from ..folder.placing import place
from ..records import dataclass, replace
from ..schema import Address, Text, Time, is_time, json_text, length, matching, read_typed
from ..text import note, plain
from ..units import now, seconds_of

BEGUN = re.compile(r"(.*?)(\d{4}-\d\d-\d\dT\d\d)(\d\d)(\d\d)Z(.*)", re.DOTALL)
"""Names of recorders' files: what stands around the time names the recorder."""
INTERFACE = re.compile(r"[A-Za-z0-9][A-Za-z0-9_.:@-]{0,14}")
TRIES = 9
"""How often evidence is written, where another recorder may write in between."""
ENDING = ".recorder.json"


@dataclass(frozen=True)
class Recorder:
    """What an interface is recorded by."""

    kind: Literal["recorder"]
    interface: Annotated[str, matching(INTERFACE.pattern)]
    stamp: Literal["host"]
    """tcpdump's word for who makes the stamps: here the kernel, by the system's clock."""
    tool: Text
    kernel: Annotated[str, matching(r"Linux \S{1,200}")]
    machine: Text
    addresses: Annotated[list[Address], length(0, 64)]
    """The interface's own."""
    since: Time
    """Since when nothing of this has changed."""

    def made(self, name: str) -> bool:
        """Whether a capture has the name of one that it began."""
        match = BEGUN.fullmatch(name)
        return match is not None and match[1] == f"{self.interface}-" and match[5].startswith(".pcap") and \
            self.since <= f"{match[2]}:{match[3]}:{match[4]}Z"

    def sentence(self) -> str:
        """What a person is told of it."""
        return (f"{self.tool} recorded {self.interface} ({', '.join(self.addresses) or 'without an address'}) on "
                f"{self.machine}, since {self.since} under {self.kernel}, with the kernel's own stamps.")


def ends_of(path: str | None, clients: list[str]) -> tuple[list[str], list[str]]:
    """A claim's client and its servers, if the claim is there; else some clients, and any servers."""
    try:
        if path is not None:
            claim: Claim = read_typed(os.path.basename(path), Claim, data_named(path))
            return [claim.client], claim.servers
    except Fault as error:
        note(error.line)
    return clients, []


def filter_of(clients: list[str], servers: list[str]) -> str:
    """What tcpdump takes of the packets, tagged or not: what clients and servers send one another; of any servers, if
    none are known; all NTP packets, if nobody is."""
    def way(client: str, server: str) -> str:
        ends = (f"({' or '.join(f'{end} host {one}' for one in known)})"
                for end, known in ((client, clients), (server, servers)) if known)
        return " and ".join([f"udp {server} port 123", *ends])
    own = f"({way('src', 'dst')}) or ({way('dst', 'src')})" if clients else "udp port 123"
    return f"({own}) or (vlan and ({own}))"


def recorder(tool: str, interface: str) -> Recorder:
    """What an interface is recorded by here, and now."""
    system = os.uname()
    return Recorder("recorder", interface, "host", version_of(tool), f"{system.sysname} {system.release}",
                    plain(system.nodename), addresses_of(interface), now())


def addresses_of(interface: str) -> list[str]:
    """The addresses that an interface has now."""
    tool = find_tool("ip", "ip isn't installed (iproute2), which knows the interface's addresses")
    status, text = told([tool, "-4", "-o", "addr", "show", "dev", interface])
    if status:
        raise fault(f"there is no interface {interface}", DEVICE)
    return sorted(set(re.findall(r" inet ([0-9.]+)", text)))


def version_of(tool: str) -> str:
    """What tcpdump says of its version, and of libpcap's."""
    return plain(", ".join(told([tool, "--version"])[1].splitlines()[:2]))


def keep(path: str, recorder: Recorder) -> None:
    """Leaves it in a folder, if it isn't there, and has evidence.json name it. Another recorder may do so as well."""
    name = f"{recorder.interface}{ENDING}"
    for _ in range(TRIES):
        with Folder(path) as folder:
            told = evidence(folder)
            made, reading = dict[str, Iterable[bytes]](), told.get("reading", "")
            if not is_as(read_recorder(folder, name), recorder):
                made[name] = [json_text(recorder)]
            if name not in named_in(reading):
                made[EVIDENCE] = [json_text({**told, "reading": f"{reading} {name}".strip()})]
            if not made:
                return
            place(folder, made)
    raise fault(f"{name} and {EVIDENCE} don't stay as they are written")


def is_as(old: Recorder | None, new: Recorder) -> bool:
    """Whether nothing has changed since."""
    return old is not None and old == replace(new, since=old.since) and old.since <= new.since


def read_recorder(folder: Folder, name: str) -> Recorder | None:
    """What a file of a folder says, if it is of this form."""
    try:
        recorder: Recorder = read_typed(name, Recorder, folder.data(name))
        return recorder
    except Fault:
        return None


class RecorderFile(NamedTuple):
    """A file that a recorder began: what stands before the time in its name and behind it, the time, and the name."""

    before: str
    behind: str
    begun: int
    name: str

    @property
    def number(self) -> int:
        """The number that tcpdump put behind it, of files that it began in one hour."""
        return int(re.sub(r"\D", "", self.behind.removesuffix(".gz").removesuffix(".zst")) or "0")


def begun_files(folder: Folder) -> Iterator[RecorderFile]:
    """The files that recorders began."""
    for name in filter(is_capture, folder.names()):
        match = BEGUN.fullmatch(name)
        begun = f"{match[2]}:{match[3]}:{match[4]}Z" if match else ""
        if match and is_time(begun):
            yield RecorderFile(match[1], match[5], seconds_of(begun), name)


def recorders_of(captures: list[str]) -> list[Recorder] | None:
    """By what captures were recorded, as the evidence beside each says; None if it doesn't of one of them."""
    every = [recorder_of(*os.path.split(capture)) for capture in captures]
    known = [one for number, one in enumerate(every) if one and one not in every[:number]]
    return None if None in every else known


def recorder_of(path: str, name: str) -> Recorder | None:
    """By what a capture was recorded, if the evidence beside it says so."""
    try:
        with Folder(path) as folder:
            named = named_in(evidence(folder).get("reading", ""))
            kept = (read_recorder(folder, each) for each in named if each.endswith(ENDING))
            return next((one for one in kept if one and one.made(name)), None)
    except Fault:
        return None
