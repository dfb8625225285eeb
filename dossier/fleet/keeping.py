"""How audits are kept for years: their captures packed by zstd, without what may be made anew.

A capture is taken away only after what was packed of it unpacked to the same bytes, and is on the disk in its place.
How old a folder is counts from the newest recording among those that are kept, and not from the clock, which may be
wrong for a night.
"""
import hashlib
import os
import time
from collections import Counter
from collections.abc import Iterable
from functools import partial

from ..fault import DEVICE, NOT_SHOWN, USAGE, fault
from ..folder import files
from ..folder.entry import DISPUTED, Record, Refusal, is_made_anew, is_packable
from ..folder.files import Folder
from ..folder.jobs import find_tool, run_all, stream
from ..folder.older import form_of, is_older
from ..folder.placing import Copy, blocks_of, copy_of, is_ones_own, make_last, place, remove_folder, take_away
from ..folder.registry import Known
from ..folder.result import Said
from ..text import label, note, plain
from ..units import DAY
from ..verdict.making import packed_in, sizes_of
from .audit import change_of
from .verify import audit_json, known_in

YEAR = 365.25 * DAY
TENTH, JUMP = 10, 31 * DAY
"""One call takes away no more than this part of the folders; and seconds after the newest recording, or the last call,
from which on the clock isn't believed."""


def keep_all(folders: list[str], years: int | None, force: bool, known: Known, seconds: int) -> int:
    """Packs each folder, or takes it away if its span ended so many years ago, and prints a line for each. The status
    is the worst."""
    over, worst = set[str](), 0
    if years is not None:
        lasts = {path: last for path, last in run_all(folders, partial(ended, known), int, seconds)
                 if isinstance(last, int) and last}
        over, words = over_of(lasts, years, force, known)
        if words:
            note(f"ntpaudit-dossier: {words}")
            worst = USAGE
    for path, result in run_all(folders, lambda path, _: keep(path, path in over, known), Said, seconds):
        line = result.line if isinstance(result, Refusal) else result.lines[0]
        if line == GONE:
            remove_folder(path)
        print(f"{label(path)}: {plain(line)}", flush=True)
        worst = max(worst, result.status)
    return worst


GONE = "taken away"


def ended(known: Known, path: str, _: int) -> int:
    """When the span of a folder ended, if it is known here."""
    with Folder(path) as folder:
        record = known_in(folder, known)[1]
        return max(entry.claim.last for entry in record.entries) if record and record.entries else 0


def over_of(lasts: dict[str, int], years: int, force: bool, known: Known) -> tuple[set[str], str]:
    """The folders that are taken away, the oldest first: of each machine no more than days have passed since the last
    call, and of all no more than a tenth. None if the clock made a jump, which is said."""
    now, before = int(time.time()), known.last_call()
    newest = max((last for last in lasts.values() if last <= now + DAY), default=0)
    over = sorted((path for path in lasts if lasts[path] < newest - years * YEAR), key=lambda path: lasts[path])
    if force:
        known.note_call(now)
        return set(over), ""
    gone_by = max(now - newest if newest else 0, abs(now - before) if before else 0)
    if gone_by > JUMP or (before and now < before):
        words = f"the clock is {gone_by // DAY:,} days from the newest recording, or from the last call: nothing is " \
                "taken away (--force does)"
        return set(), words if over else ""
    known.note_call(now)
    days, taken, chosen = max(1, (now - before) // DAY) if before else len(lasts), Counter[str](), set[str]()
    for path in over:
        machine = os.path.dirname(path)
        if len(chosen) < len(lasts) // TENTH and taken[machine] < days:
            taken[machine] += 1
            chosen.add(path)
    return chosen, ""


def keep(path: str, is_over: bool, known: Known) -> Said:
    """What was done with a folder whose audit was made or verified here. What is disputed is left as it is, and so is
    an audit by an older version, of which `audit` makes one anew."""
    with Folder(path) as folder, known.alone(folder):
        is_ones_own(folder.place)
        if is_older(data := audit_json(folder)):
            return Said(lines=[f"audited in form {form_of(data)}, by an older version, and left as it is: "
                               "ntpaudit-dossier audit makes it anew"])
        record, seen = known_in(folder, known)
        if not seen:
            raise fault("neither made nor verified here: `ntpaudit-dossier verify` comes first", USAGE)
        if words := known.dispute(record):
            return Said(NOT_SHOWN, [f"{DISPUTED}: {words}"])
        if record.refusal:
            raise fault("the audit was refused, so there is nothing to keep", DEVICE)
        if min(entry.claim.last for entry in record.entries) > time.time() + DAY:
            raise fault("its span is in the future, so it is left as it is", DEVICE)
        loose = [name for name in record.inputs
                 if is_packable(name) and f"{name}.zst" not in record.inputs and folder.has(name)]
        again = list(filter(folder.has, filter(is_made_anew, record.outputs)))
        if not (is_over or loose or again):
            return Said(lines=["kept"])
        if changed := change_of(folder, record):
            raise fault(changed)
        if is_over:
            take_all(folder, record)
            return Said(lines=[GONE])
        pack_all(folder, [name for name in loose if not folder.has(f"{name}.zst")])
        make_last(folder, [f"{name}.zst" for name in loose])
        for name in (*loose, *again):
            take_away(folder.place, name)
        known.add_sizes(folder.sum(files.AUDIT), sizes_of(folder, record))
        return Said(lines=["kept"])


def pack_all(folder: Folder, names: list[str]) -> None:
    """Packs captures, and puts them into their places. Nothing that stands in audit.json changes by that."""
    made = dict[str, Iterable[bytes]]()
    for number, name in enumerate(names):
        made[f"{name}.zst"] = blocks_of(pack(folder, name, number))
    place(folder, made)


def pack(folder: Folder, name: str, number: int) -> str:
    """Packs a capture into a file of one's own, of which it is seen that it unpacks to the same."""
    tool = find_tool("zstd", "zstd isn't installed to pack captures")
    own, path, digest = f"{number}.pcap", f"{number}.zst", hashlib.sha256()
    sum_ = copy_of(folder, name, own)
    with Copy(path) as copy:
        status, _ = stream([tool, "-qc", "--", own], copy.take)
    unpacked, _ = stream([tool, "-dqc", "--", path], digest.update)
    if status or unpacked or digest.hexdigest() != sum_:
        raise fault(f"{name} can't be packed by zstd", DEVICE)
    return path


def take_all(folder: Folder, record: Record) -> None:
    """Takes away what the record names, which is unchanged, itself last."""
    packed = packed_in(folder.names(), record)
    for name in (*record.outputs, *record.inputs, *packed, files.SIGNATURE, files.AUDIT):
        take_away(folder.place, name)
