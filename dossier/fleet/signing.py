"""Signing: what an audit found is put under a person's key, by ssh-keygen."""
import os
import sys
from functools import partial
from typing import IO, NamedTuple

from ..fault import DEVICE, NOT_SHOWN, USAGE, Fault, fault, summed
from ..folder.entry import DISPUTED, LeapList, Refusal, read_record, record_text, refusal_by
from ..folder.events import Asked, read_events
from ..folder.files import AUDIT, EVENTS, SIGNATURE, SIGNATURES, YEAR, Folder, absolute, own_data, sum_of
from ..folder.jobs import DEVNULL, ENVIRONMENT, PIPE, SECONDS, begun, find_tool, private_folder, run_all, run_one
from ..folder.placing import is_ones_own, keep, place
from ..folder.program import find_program
from ..folder.registry import Known
from ..folder.result import Said, Written
from ..folder.year import read_statements
from ..premise.leap import record_by
from ..records import replace
from ..schema import json_text
from ..text import label, plain
from ..units import now, seconds_of
from ..verdict.making import sizes_of
from .audit import change_of
from .events import EventsCall, PageOfEvents, compared as answer_compared, folders_of, machine_at
from .signature import NAMESPACE, NO_KEYGEN, READERS, Signers, signed_in, times_of
from .statements import BY_ANOTHER, compared, compared_pages, days_of, lines_in, machine_in
from .verify import known_in

OF_A_PERSON = ("HOME", "TERM", "DISPLAY", "WAYLAND_DISPLAY", "XDG_RUNTIME_DIR", "SSH_AUTH_SOCK", "SSH_ASKPASS",
               "SSH_ASKPASS_REQUIRE", "SSH_SK_PROVIDER", "SSH_SK_HELPER")
"""What ssh-keygen needs to ask a person, an agent or a piece of hardware."""
PROGRESS = (b"Signing file ", b"Write signature to ")


class SignCall(NamedTuple):
    """By what folders are signed: what is known here, a list of leap seconds, who may have signed days, and what makes
    the page of an answer."""

    known: Known
    leaps: LeapList
    signers: Signers
    page: PageOfEvents


def sign_all(folders: list[str], key: str, call: SignCall, seconds: int) -> int:
    """Signs each folder, and prints a line for each. The status is the worst. The key is asked for between two looks at
    a folder, by the process that has the terminal."""
    worst, key = 0, os.path.abspath(key)
    for path, result in run_all(folders, partial(to_be_signed, call), Written, seconds):
        told: Written | Said | Refusal = result
        if isinstance(result, Written) and (text := result.text.encode()):
            try:
                told = run_one(path, partial(sign, call, text, signature_by(key, text)), Said, seconds)
            except Fault as refused:
                told = refusal_by(refused)
        for line in [told.line] if isinstance(told, Refusal) else told.lines:
            print(f"{label(path)}: {plain(line)}", flush=True)
        worst = summed(worst, told.status)
    return worst


def to_be_signed(call: SignCall, path: str, _: int) -> Written:
    """A folder's audit.json as it was made or verified here, with the time in it, which is to be signed. If a file
    isn't what it says, that is said. What rests on days likewise, if it follows from what is known of them here."""
    with Folder(path) as folder:
        is_ones_own(folder.place)
        name, known = signed_in(folder), call.known
        if folder.has(signature := SIGNATURES[name]):
            raise fault(f"signed already; who wants another signature takes {signature} away", DEVICE)
        if name != AUDIT:
            if wrong := difference_of_days(call, folder):
                return Written("", [wrong], NOT_SHOWN)
            return Written(json_text(replace(READERS[name](folder.data(name)), signed=now())).decode())
        record, seen = known_in(folder, known)
        if record.refusal:
            raise fault("the audit was refused, so there is nothing to sign", DEVICE)
        if not seen:
            raise fault("neither made nor verified here, so it isn't signed: `ntpaudit-dossier verify` comes first",
                        USAGE)
        if seconds_of(now()) < times_of(AUDIT, folder.data(AUDIT))[1]:
            raise fault("its span hasn't ended yet, so it isn't signed", USAGE)
        if words := known.dispute(record):
            return Written("", [f"{DISPUTED}: {words}"], NOT_SHOWN)
        if changed := change_of(folder, record):
            return Written("", [changed], NOT_SHOWN)
        signed = record_by(call.leaps, seen)
        if signed.verdicts != seen.verdicts:
            raise fault("by your own list of leap seconds it says something else: name the list by which it was "
                        "verified (--leap-seconds)", USAGE)
        return Written(record_text(replace(signed, signed=now())).decode())


def difference_of_days(call: SignCall, folder: Folder) -> str:
    """What of a year's statements, or of an answer to a log, doesn't follow from what is known here of its days;
    nothing if all does. Whoever signs names his own program."""
    signed = signed_in(folder)
    if signed != EVENTS:
        days_of(folder, {"/"})
        found = compared(folder, call.known, call.leaps, call.signers, around(folder, signed))
        return found.difference or next((note for note in found.notes if note.startswith(BY_ANOTHER)), "")
    folders_of(folder, around(folder, signed))
    answer = answer_compared(folder, EventsCall(Asked(), call.known, call.leaps, find_program(), SECONDS,
                                                page=call.page, signers=call.signers))
    return answer.difference or answer.by_another


def around(folder: Folder, signed: str) -> set[str]:
    """The folder in which all machines of a year or an answer are, and that itself: what is above says nothing."""
    machines = [machine_in(stated, lines) for stated in read_statements(folder.data(YEAR)).machines
                if (lines := lines_in(folder, stated))] if signed == YEAR else \
        [machine_at(folder, resting).path for resting in read_events(folder.data(EVENTS)).machines]
    return {os.path.commonpath([absolute(folder.path), *(os.path.dirname(absolute(path)) for path in machines)])}


def sign(call: SignCall, signed: bytes, signature: bytes, path: str, _: int) -> Said:
    """Puts what was signed in its place, with the signature, if what stands there is still the same but for the time.
    """
    with Folder(path) as folder, call.known.alone(folder):
        name = signed_in(folder)
        seen = known_in(folder, call.known)[1] if name == AUDIT else None
        if name == AUDIT:
            record = read_record(signed)
            is_same = bool(seen and replace(record_by(call.leaps, seen), signed=record.signed) == record)
        else:
            standing, own = (replace(READERS[name](data), signed="") for data in (folder.data(name), signed))
            is_same = standing == own
        if folder.has(SIGNATURES[name]) or not is_same:
            raise fault(f"{name} has changed meanwhile")
        place(folder, {name: [signed], SIGNATURES[name]: [signature]})
        if seen:
            call.known.add(sum_of(signed), seen)
            call.known.add_sizes(sum_of(signed), sizes_of(folder, seen))
        notes = compared_pages(folder, read_statements(signed))[1] if name == YEAR else []
    return Said(lines=["signed", *(f"({note})" for note in notes)])


def hand_on(said: IO[bytes] | None) -> None:
    """Hands on what ssh-keygen says on standard error, but for the names of the files that it makes."""
    for line in said or ():
        if not line.startswith(PROGRESS):
            sys.stderr.buffer.write(line)
            sys.stderr.buffer.flush()


def signature_by(key: str, data: bytes) -> bytes:
    """The signature that ssh-keygen makes. It speaks for itself on the terminal: it may ask for a passphrase, for the
    touch of a key, or for a PIN, so it has no limit of time."""
    tool = find_tool("ssh-keygen", NO_KEYGEN)
    environment = ENVIRONMENT | {name: os.environ[name] for name in OF_A_PERSON if name in os.environ}
    with private_folder() as own:
        keep(f"{own}/{AUDIT}", data)
        with begun([tool, "-Y", "sign", "-f", key, "-n", NAMESPACE, AUDIT], env=environment, stdin=None, cwd=own,
                   stdout=DEVNULL, stderr=PIPE) as call:
            hand_on(call.stderr)
        if call.returncode:
            raise fault(f"ssh-keygen didn't sign it (status {call.returncode})", DEVICE)
        return own_data(f"{own}/{SIGNATURE}")
