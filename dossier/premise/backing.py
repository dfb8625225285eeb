"""What a folder's own evidence says of the clock, and what of it speaks against the claim.

Files of JSON that evidence.json names beside a premise are read: what it was recorded by, what was measured, and what
was read of the client. Each other file that it names is read as a log: of those beside the drift it is said what isn't
understood, unless their names say that they are none; all others count if they have a line of a log.
"""
from __future__ import annotations

import re
from collections.abc import Collection, Iterator
from contextlib import suppress
from typing import TYPE_CHECKING, NamedTuple, TypeVar

from ..fault import Fault, fault
from ..folder.claim import Claim
from ..folder.entry import Alert, Bare, Between, Figure, Leap, Logged, Move, OfServers, Unread
from ..folder.evidence import evidence, named_in
from ..folder.files import CLAIM, EVIDENCE, Folder, is_capture
from ..schema import is_name, parsed, read_typed
from ..units import DAY, LAST_SECOND, SECOND, TICKS, civil, seconds_of

if TYPE_CHECKING:
    from ..capture.recorder import Recorder
    from .correction import Correction
    from .measurement import Measurement
    from .tracking import Step, Tracking

Kind = TypeVar("Kind")
IS_NO_LOG = re.compile(r"(?i)\.(conf|pdf|html?|md|odt|docx?|xlsx?|png|jpe?g)$")
"""The name of a text for a person, or of a configuration."""
MAX_OF_A_LOG = 1 << 26
"""Bytes of a file that isn't named as a log."""


class Backing(NamedTuple):
    recorded: list[Recorder]
    measured: list[Measurement]
    read: list[Correction]
    logs: list[Tracking]
    """Logs of the client, as they are or as they were read for a draft."""
    unread: dict[str, int]
    """Of files that are called logs the lines that say nothing that is known, if there are any."""


def backing(folder: Folder, inputs: Collection[str]) -> Backing:
    """What the evidence among the inputs holds."""
    if EVIDENCE not in inputs:
        return Backing([], [], [], [], {})
    from ..capture.recorder import Recorder
    from .correction import Correction
    from .measurement import Measurement
    from .tracking import UNKNOWN
    kept = evidence(folder)

    def named(premise: str) -> list[str]:
        return [name for name in named_in(kept.get(premise, "")) if name in inputs]
    recorded, measured = all_of(Recorder, folder, named("reading")), all_of(Measurement, folder, named("reading"))
    corrections = all_of(Correction, folder, named("drift"))
    read, known = list(corrections.values()), {CLAIM, *recorded, *measured, *corrections}
    logs, unread = [log for one in read for log in one.logs], dict[str, int]()
    step = next((one.configuration.step_s for one in read), None)
    for name in dict.fromkeys(name for premise in kept for name in named(premise)):
        if name in known or is_capture(name):
            continue
        is_log = name in named("drift") and not IS_NO_LOG.search(name)
        log, lines = log_of(folder, name, step) if is_log or folder.size(name) <= MAX_OF_A_LOG else (None, 0)
        if is_log or log and log.last != UNKNOWN:
            logs += [log] if log else []
            unread |= {name: lines} if lines else {}
    unread |= {", ".join(log.files): log.unread for one in read for log in one.logs if log.unread}
    return Backing(list(recorded.values()), list(measured.values()), read, logs, unread)


def log_of(folder: Folder, name: str, step_s: str | None) -> tuple[Tracking | None, int]:
    """What a log of the client says, if anything, and how many of its lines aren't understood. Where it names no year,
    it is one that ends before the half year behind the claim. JSON is one if it has messages, as a journal has."""
    from .tracking import read_tracking
    data = folder.data(name)
    claim: Claim = read_typed(CLAIM, Claim, folder.data(CLAIM))
    try:
        if b'"MESSAGE"' not in data and is_json(data):
            raise fault("these are no messages")
        log = read_tracking({name: data}, step_s, civil(min(claim.last + DAY * 180, LAST_SECOND)))
        return log, log.unread
    except Fault:
        return None, sum(bool(line.strip()) for line in data.splitlines())


def is_json(data: bytes) -> bool:
    """Whether a file is a JSON text, and so no log."""
    try:
        parsed(data)
        return True
    except ValueError:
        return False


def all_of(kind: type[Kind], folder: Folder, names: list[str]) -> dict[str, Kind]:
    """What files of JSON hold, by their names, of those that are of a kind."""
    by_name = dict[str, Kind]()
    for name in names:
        with suppress(Fault):  # (it may be a text of some other form)
            if name.endswith(".json"):
                by_name[name] = read_typed(name, kind, folder.data(name))
    return by_name


def against(evidence: Backing, claim: Claim, leap: Leap, moves: list[Move]) -> Iterator[Alert]:
    """What speaks against a claim."""
    reading = max((measured.greatest_ns for measured in evidence.measured), default=0)
    if reading > claim.reading_ns:
        yield Figure("reading", reading)
    drift = max((read.drift_ppb for read in evidence.read), default=0)
    if drift > claim.drift_ppb:
        yield Figure("drift", drift)
    for recorded in evidence.recorded:
        if claim.client not in recorded.addresses:
            yield OfServers("address", recorded.addresses[:1] or [claim.client])
    for file, lines in evidence.unread.items():
        yield Unread("unread", lines, file if is_name(file) else "")
    yield from logged(evidence.logs, claim, leap, moves)


def logged(logs: list[Tracking], claim: Claim, leap: Leap, moves: list[Move]) -> Iterator[Alert]:
    """What logs of the client say against a claim, and against the moves that an answer presumes."""
    from . import tracking
    most = [tracking.greatest(log, leap.from_, leap.to) for log in logs]
    rate, offset = max((rate for rate, _ in most), default=0), max((offset for _, offset in most), default=0)
    if rate > claim.drift_ppb:
        yield Figure("rate", rate)
    if offset > claim.bound_ns:
        yield Figure("offset", offset)
    steps = {step for log in logs for step in log.steps}
    are_known = not any(how.endswith(tracking.NO_ZONE) or time == tracking.UNKNOWN for time, _, how in steps)
    left = set(steps)
    for move in moves:
        first, last = move.around
        own = sorted((step for step in steps if is_of(move, step)), reverse=True)
        left -= set({how: (time, size, how) for time, size, how in own}.values())  # (each way to see it sees it once)
        is_there = any(first // SECOND - NEAR <= seconds_of(time) <= last // SECOND + NEAR for time, _, _ in steps)
        if not is_there and are_known and any(seconds_of(log.first) * SECOND <= first and
                                              last <= seconds_of(log.last) * SECOND for log in logs):
            yield Between("unlogged", first, last)
    inside = {step for step in left if tracking.is_within(step, leap.from_, leap.to)}
    within, others = sorted(inside), sorted(left - inside) if moves else []
    if within:
        yield Logged("step", len(within), seconds_of(within[0][0]) * SECOND)
    if others:
        yield Logged("logged", len(others), seconds_of(others[0][0]) * SECOND)
    if any(how.endswith(tracking.NO_ZONE) for *_, how in inside):
        yield Bare("zone")


def is_of(move: Move, step: Step) -> bool:
    """Whether a log may mean a move by a step: its time is one that the clock had just before it, or just behind it; or
    between them, if it is only seen that times fall back."""
    from .tracking import FALLS
    time, change = seconds_of(step[0]), move.low * SECOND // TICKS
    ends = [move.around] if step[2] == FALLS else [(move.after, move.by - change), (move.after + change, move.by)]
    return any(first // SECOND - NEAR <= time <= last // SECOND + NEAR for first, last in ends)


NEAR = 2
"""Seconds by which a log's time of a step may lie beside the records around it."""
