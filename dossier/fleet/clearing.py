"""Recordings that are taken away from where a recorder left them: those that stand in the folders of days, too.

How old one is is told by what was recorded, and not by the clock, which may be wrong for a night: the newest days of
which there are recordings stay. One is taken away only if the folder of each day that it touches has the same bytes,
packed or not, and a call takes no more than a tenth.
"""
import hashlib
from contextlib import suppress
from itertools import chain

from ..capture.classic import HEADER
from ..capture.recorder import begun_files
from ..capture.tail import Growing
from ..fault import Fault, fault
from ..folder.files import Folder
from ..folder.jobs import find_tool, stream
from ..folder.placing import copy_of, take_away
from ..text import count
from ..units import DAY, day_of

TENTH, FOREVER = 10, 1 << 40
PACKED = "packed.zst"
"""A private copy."""


def clear(source: str, target: str, days: int) -> list[str]:
    """Takes away recordings that are older than the newest days, and says how many."""
    with Folder(source) as recorder, Folder(target) as kept:
        touched = {name: days_of(recorder, name, begun) for *_, begun, name in begun_files(recorder)}
        newest = sorted({last for _, last in touched.values()})[-days:]
        old = sorted((own, name) for name, own in touched.items() if own[1] not in newest)
        taken, missing, left = 0, "", max(1, len(touched) // TENTH)
        for own, name in old:
            if taken == left:
                break
            with suppress(Fault):
                sum_ = recorder.sum(name)
                every = chain(range(own[0], own[1] + 1), {hour // 24 for hour in Growing(recorder, name).hours()})
                if all(sum_in(kept, day_of(day * DAY), name) == sum_ for day in every):
                    take_away(recorder.place, name)
                    taken += 1
                    continue
            missing = missing or name
    lines = [f"{count(taken, 'recording')} taken away, which folders of days have too"] if taken else []
    lines += [f"{missing} is old and stays: no folder of its day has the same"] if missing else []
    return lines


def days_of(folder: Folder, name: str, begun: int) -> tuple[int, int]:
    """The days of a file's first record and of its last, by their numbers since 1970; of one that has none, or can't be
    read, the one in its name."""
    with suppress(Fault):
        file = Growing(folder, name)
        first = int.from_bytes(folder.part(name, HEADER, HEADER + 4), "little" if file.heads.order == "<" else "big")
        if last := file.last(FOREVER):
            return min(first, last) // DAY, max(first, last) // DAY
    return begun // DAY, begun // DAY


def sum_in(days: Folder, day: str, name: str) -> str:
    """The sum of a recording in a day's folder, or of what it unpacks to; nothing if it isn't there."""
    if days.has(f"{day}/{name}"):
        return days.sum(f"{day}/{name}")
    if not days.has(f"{day}/{name}.zst"):
        return ""
    tool, digest = find_tool("zstd", "zstd isn't installed to unpack captures"), hashlib.sha256()
    copy_of(days, f"{day}/{name}.zst", PACKED)
    status, _ = stream([tool, "-dqc", "--", PACKED], digest.update)
    if status:
        raise fault(f"{day}/{name}.zst can't be unpacked")
    return digest.hexdigest()
