"""Which folders have a capture in common, so that one of them is a copy, under whatever name; and which machines, or
days of the same client.

Days that follow one another have the captures of the hours beside midnight in common: of one client, and without a
moment in common, two folders aren't copies.
"""
import json
from array import array
from collections.abc import Iterable
from hashlib import sha256
from zlib import compress, decompress

from ..folder.claim import Claim
from ..folder.result import Year
from ..folder.table import Table
from ..records import replace
from ..schema import said, typed
from ..verdict.sentences import TWICE

FEW, MANY = 4, 2_000_000
"""Of each folder at least so many captures are looked for again, those with the smallest sums, and of all so many."""


def few_of(captures: Iterable[str], folders: int) -> list[str]:
    """The captures that are looked for again, of so many folders."""
    return sorted(captures)[:max(FEW, MANY // max(1, folders))]


class SeenFolders:
    """The folders that were seen. A few bytes are kept of each capture, however many there are."""

    def __init__(self, folders: int):
        self.folders, self.table, self.paths = folders, Table(), list[str]()
        self.clients, self.spans = list[str](), array("q")

    def twins(self, path: str, claims: list[Claim], captures: Iterable[str]) -> list[str]:
        """What is said of a folder with these claims and captures if others have one of these too."""
        if not claims:
            return []
        number, client = len(self.paths), claims[0].client
        first, last = min(claim.first for claim in claims), max(claim.last for claim in claims)
        self.paths.append(path)
        self.clients.append(client)
        self.spans.extend((first, last))
        others = {self.table.first(int(sum_[:16], 16), number) for sum_ in few_of(captures, self.folders)}
        return [f"{TWICE} {self.paths[other]}" for other in sorted(others - {number})
                if not are_neighbours((client, first, last), self.span_of(other))]

    def span_of(self, number: int) -> tuple[str, int, int]:
        return self.clients[number], self.spans[2 * number], self.spans[2 * number + 1]


def are_neighbours(one: tuple[str, int, int], other: tuple[str, int, int]) -> bool:
    """Whether two spans, each behind its client, are of one client and have no stretch in common."""
    return one[0] == other[0] and (one[2] <= other[1] or other[2] <= one[1])


def key_of(words: str) -> int:
    return int.from_bytes(sha256(words.encode()).digest()[:8], "big")


class Twins:
    """The machines that have a capture in common, or a day of the same client."""

    def __init__(self) -> None:
        self.machines, self.captures, self.days = list[str](), Table(), Table()
        self.twins, self.alike = dict[int, set[int]](), dict[int, set[int]]()

    def add(self, year: Year) -> None:
        """Adds a machine's year, of which `of` then tells the twins."""
        number = len(self.machines)
        self.machines.append(year.machine)
        for sum_ in year.captures:
            meet(self.twins, number, self.captures.first(int(sum_[:16], 16), number))
        for day in year.days:
            if year.claim and day.name:
                meet(self.alike, number, self.days.first(key_of(f"{year.claim.client} {day.date}"), number))

    def of(self, number: int, year: Year) -> Year:
        """A year, by its machine's number from 0, with the machines that have its recordings or its client's days."""
        twins = self.twins.get(number, set())
        alike = self.alike.get(number, set()) - twins
        return replace(year, captures=[], twins=[self.machines[other] for other in sorted(twins)],
                       alike=[self.machines[other] for other in sorted(alike)])


def packed(year: Year) -> bytes:
    """A year in few bytes: many are held until it is known which have recordings in common."""
    return compress(json.dumps(said(replace(year, captures=[]))).encode(), 1)


def unpacked(data: bytes) -> Year:
    year: Year = typed(Year, json.loads(decompress(data)))
    return year


def meet(met: dict[int, set[int]], one: int, other: int) -> None:
    if one != other:
        met.setdefault(one, set()).add(other)
        met.setdefault(other, set()).add(one)
