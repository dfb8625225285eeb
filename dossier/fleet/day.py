"""The folders of days: of each its claim, and what recorders left of the day and of the hours beside it.

A recorder's file has in its name when it was begun (UTC). It ends with the last packet in it, at the latest where the
next of the same recorder begins. One whose records show times of another day counts there too: the clock was wrong.
What a day's folder has already isn't written again.
"""
import os
import time
from collections.abc import Iterable
from contextlib import suppress
from itertools import chain
from typing import NamedTuple

from ..capture.captures import MARGIN, open_capture
from ..capture.classic import HEADER, Classic
from ..capture.recorder import begun_files
from ..capture.tail import Growing
from ..capture.watch import read_state
from ..fault import USAGE, Fault, fault
from ..folder.claim import Claim
from ..folder.entry import FEW, Refusal
from ..folder.evidence import evidence_files
from ..folder.files import AUDIT, CLAIM, SIGNATURE, Folder
from ..folder.jobs import answer, run_all
from ..folder.placing import ROOM, blocks_of, copy_of, make_in, place
from ..folder.result import Days, Said
from ..records import replace
from ..schema import is_time, read_typed
from ..text import note, plain
from ..units import DAY, civil, day_of, seconds_of
from .clearing import clear

FOREVER, MAX_DAYS_BACK = 1 << 40, 31
"""Later than any Unix second; and the days before today that are made if none is named."""
QUIET = HOUR = 3600
"""Seconds without a packet after which the last file of a recorder counts as finished; and in an hour."""
LOOKED_AT = "recording"
"""A private copy."""
AUDITED_AGAIN = 7
"""The newest days before today, which ntpaudit-daily audits each night: those whose files have changed once more."""


class Recorded(NamedTuple):
    """A recorder's file, the Unix seconds in which it was begun and ends, and whether it is still being written."""

    name: str
    begin: int
    end: int
    grows: bool


def recordings(folder: Folder) -> tuple[list[Recorded], list[Recorded]]:
    """What is in a folder of recordings, and of it what is from the future."""
    recorders: dict[tuple[str, str, bool], list[tuple[int, str]]] = {}
    ahead = (int(time.time()) // DAY + 2) * DAY
    for before, behind, begun, name in begun_files(folder):
        recorders.setdefault((before, behind, begun >= ahead), []).append((begun, name))
    past_and_ahead: tuple[list[Recorded], list[Recorded]] = [], []
    for (before, _, is_ahead), files in recorders.items():
        state = read_state(folder, before.removesuffix("-"))
        growing = state.files[-1:] if state and state.runs else []
        files.sort()
        for (begin, name), (after, _) in zip(files, [*files[1:], (FOREVER, "")]):
            written = folder.written(name)
            end = min(max(begin, written), after)  # (a copy may have been written at any time)
            grows = name in growing or after == FOREVER and time.time() < written + QUIET
            past_and_ahead[is_ahead].append(Recorded(name, begin, end, grows))
    return past_and_ahead


def make_days(source: str, target: str, date: str | None, seconds: int, clear_all_but: int | None = None) -> int:
    """Makes the folder of a day; if none is named, that of each day after the one of the first file, of the last 31
    before today. Their paths are printed, with those that were made earlier of these 31. The folder of days has the
    claim of any day, and the evidence of all. Then recordings are taken away but those of the newest days, if so many
    are named. The status is the worst of all days."""
    planned = answer(lambda *_: plan(source, target, date), Days)
    worst = planned.status
    for line in planned.lines:
        note(line)
    for path in planned.earlier:
        print(plain(path))

    def make(path: str, _: int) -> Said:
        return make_day(source, target, path, {name for other, name in planned.shown if other == path})

    for path, result in run_all(planned.days, make, Said, seconds):
        for line in [result.line] if isinstance(result, Refusal) else result.lines:
            if line not in planned.lines:
                note(line)
        if not isinstance(result, Refusal):
            print(plain(path), flush=True)
        worst = max(worst, result.status)
    if clear_all_but:
        for line in answer(lambda *_: clear(source, target, clear_all_but or 1), list[str]):
            note(line)
    return worst


def plan(source: str, target: str, date: str | None) -> Days:
    """The folders of days that are to be made, and those that were made earlier. What is from the future is named."""
    def folder_of(number: int) -> str:
        return os.path.normpath(os.path.join(target, day_of(number * DAY)))
    today = int(time.time()) // DAY
    with Folder(source) as recorder, Folder(target) as days:
        read_typed(CLAIM, Claim, days.data(CLAIM))
        (past, ahead), made = recordings(recorder), [name for name in days.names() if is_time(f"{name}T00:00:00Z")]
        faults = list[Fault]()
        days_of = {one.name: days_shown(recorder, one.name, faults) for one in [*past, *ahead]}
    shown = [(folder_of(day), name) for name, own in days_of.items() for day in own]
    later = [one.name for one in ahead if min(days_of[one.name], default=today + 1) > today]
    later += [name for name in made if day_named(name) > today]
    notes = [f"{name} is from the future: it is left out" for name in later[:FEW]]
    if len(later) > FEW:
        notes.append(f"{len(later) - FEW} more are from the future: is the clock right?")
    notes += [wrong.line for wrong in faults[:FEW]]
    if len(faults) > FEW:
        notes.append(f"{len(faults) - FEW} more can't be looked at")
    status = max((wrong.status for wrong in faults), default=0)
    if date:
        return Days(notes, [folder_of(day_named(date))], shown, status=status)
    oldest = today - MAX_DAYS_BACK
    first = max(min((recorded.begin // DAY + 1 for recorded in past), default=today), oldest)
    before = sorted(number for number in map(day_named, made) if number < today)
    newest = max([*before, *(one.end // DAY for one in past)], default=today)
    if first < today and max(today - newest, first - max(before, default=first)) > MAX_DAYS_BACK:
        raise fault(f"more than {MAX_DAYS_BACK} days went by since the newest day or recording: is the clock right? "
                    "--date makes a day of them", USAGE)
    return Days(notes, [folder_of(number) for number in range(first, today)], shown,
                [folder_of(number) for number in before if oldest <= number < first], status)


def days_shown(recorder: Folder, name: str, faults: list[Fault]) -> set[int]:
    """The days since 1970 of which a recording's records show times, or of the hours beside them; none of one that
    can't be read, whose fault is kept."""
    left = ROOM.left
    try:
        return {hour // 24 for own in hours_shown(recorder, name) for hour in (max(0, own - 1), own + 1)}
    except Fault as wrong:
        faults.append(wrong)
    finally:
        ROOM.left = left  # (the next one's copy takes the same room)
    return set()


def hours_shown(recorder: Folder, name: str) -> set[int]:
    """The hours since 1970 in which the times of a recording's records lie; of what is packed, or in another form, by a
    private copy."""
    with suppress(Fault):
        return Growing(recorder, name).hours() if recorder.size(name) >= HEADER else set()
    copy_of(recorder, name, LOOKED_AT)
    try:
        if not (capture := Classic(open_capture(name, LOOKED_AT).path)).is_one:
            raise fault(f"{name} is no capture")
    except Fault as wrong:
        raise fault(f"{wrong.words}: it counts to the days of its name alone", wrong.status) from None
    return {time // (HOUR * capture.unit) for time, _, _ in capture.rows()}


def day_named(date: str) -> int:
    """The number of a day since 1970."""
    if not is_time(f"{date}T00:00:00Z"):
        raise fault("--date takes a day such as 2026-11-22", USAGE)
    return seconds_of(f"{date}T00:00:00Z") // DAY


def make_day(source: str, target: str, path: str, shown: set[str]) -> Said:
    """Puts into a day's folder what it hasn't: what was recorded on the day by its name, and what shows times of it. A
    file that can't be read is named, and the others are put there. Nothing is put into a folder that is signed, nor
    into one that has an audit and is older than the days that are audited again; what it would get is named."""
    begin = day_named(os.path.basename(path)) * DAY
    with Folder(source) as recorder, Folder(target) as days:
        claim = replace(read_typed(CLAIM, Claim, days.data(CLAIM)), from_=civil(begin), to=civil(begin + DAY))
        every = list(chain(*recordings(recorder)))
        called = {one.name for one in every if one.begin <= begin + DAY + MARGIN and begin - MARGIN <= one.end}
        recorded = [one for one in every if one.name in called | shown]
        notes = [f"{one.name} is still being written: call again when it is finished" for one in recorded if one.grows]
        notes, status = notes if recorded else [f"{path}: nothing was recorded"], 0
        make_in(days.place, os.path.basename(path))
        with Folder(path) as day:
            wanted = [(days, name) for name in evidence_files(days, days.names())]
            wanted += [(recorder, one.name) for one in recorded if not one.grows]
            wanted = [(of, name) for of, name in wanted if not (day.has(name) or day.has(f"{name}.zst"))]
            lacking = [name for _, name in wanted] + [CLAIM] * (not day.has(CLAIM))
            if lacking and (why := why_finished(day, begin)):
                return Said(status, [*notes, f"{path}: {why}, so nothing is put into it: {few_of(lacking)}"])
            made: dict[str, Iterable[bytes]] = {}
            for of, name in wanted:
                try:
                    copy_of(of, name, str(len(made)))
                except Fault as wrong:
                    notes, status = [*notes, wrong.line], max(status, wrong.status)
                    continue
                made[name] = blocks_of(str(len(made)))
                if name in shown - called:
                    notes.append(f"{name} shows times of {day_of(begin)}, though its name and age say otherwise")
            if not day.has(CLAIM):
                made[CLAIM] = [claim.text]
            if made:
                place(day, made)
    return Said(status, notes)


def why_finished(day: Folder, begin: int) -> str:
    """Why nothing more is put into the folder of a day that began at a Unix second; nothing if something may be."""
    if day.has(SIGNATURE):
        return "signed"
    is_old = begin // DAY < int(time.time()) // DAY - AUDITED_AGAIN
    return "audited, and not of the last week" if is_old and day.has(AUDIT) else ""


def few_of(names: list[str]) -> str:
    """The first of some names, and how many more there are."""
    return ", ".join(names[:FEW]) + (f" and {len(names) - FEW} more" if len(names) > FEW else "")
