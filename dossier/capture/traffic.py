"""What a capture holds of NTP: who asked, who answered whom, and which references a server named to a client."""
from collections import Counter, defaultdict
from collections.abc import Iterable

from ..fault import fault
from ..folder.program import Program
from ..records import dataclass, field

MAX_PAIRS = 100_000
"""Of addresses that have asked or answered one another."""
NONE = "0" * 16
"""A timestamp that isn't set."""


@dataclass
class Traffic:
    packets: int = 0
    asked: dict[str, Counter[str]] = field(default_factory=lambda: defaultdict(Counter))
    """Of each client how often it asked whom."""
    answered: dict[str, Counter[str]] = field(default_factory=lambda: defaultdict(Counter))
    interleaved: dict[str, Counter[str]] = field(default_factory=lambda: defaultdict(Counter))
    """Of the answers those in interleaved mode: they have the receive timestamp of the request as their origin."""
    references: dict[tuple[str, str], set[tuple[int, str]]] = field(default_factory=lambda: defaultdict(set))

    def by_number(self) -> list[str]:
        """The clients, the one that asked most first."""
        return sorted(self.asked, key=lambda address: (-self.asked[address].total(), number_of(address)))

    def interleaving(self, client: str, servers: Iterable[str]) -> list[str]:
        """The servers most of whose answers to a client are in interleaved mode."""
        return [server for server in servers
                if 2 * self.interleaved[client][server] > self.answered[client][server]]


def number_of(address: str) -> tuple[int, ...]:
    """By which addresses stand in order."""
    return tuple(map(int, address.split(".")))


def read_traffic(program: Program, capture: str) -> Traffic:
    """What a capture holds of NTP, by `list`."""
    seen = Traffic()
    receive: dict[tuple[str, str], str] = {}

    def take(block: bytes) -> None:
        for line in block.decode("ascii").splitlines():
            words = line.split(" ", 16)
            if words[0] == "records":
                seen.packets = int(words[3])
                continue
            if len(receive) + len(seen.references) > MAX_PAIRS:
                raise fault(f"more than {MAX_PAIRS:,} pairs of addresses are in the capture: record by a filter")
            (source, source_port), (destination, destination_port) = (word.split(":") for word in words[2:4])
            if words[5] == "m3" and destination_port == "123":
                seen.asked[source][destination] += 1
                receive[source, destination] = words[14]
            elif words[5] == "m4" and source_port == "123":
                seen.answered[destination][source] += 1
                seen.interleaved[destination][source] += words[13] == receive.get((destination, source)) != NONE
                seen.references[destination, source].add((int(words[7][1:]), words[11]))
    program.blocks(take, "list", capture)
    return seen
