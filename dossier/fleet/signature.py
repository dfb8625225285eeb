"""The signature of a folder: whether there is one, whether it fits what is signed of it, and who made it.

It is one of ssh-keygen, beside that. Who may sign stands in a file of allowed signers, as ssh-keygen has it.
"""
import os
import re
from base64 import b64decode
from collections.abc import Callable
from contextlib import suppress
from datetime import datetime
from itertools import chain
from typing import NamedTuple

from ..fault import Fault, fault
from ..folder.entry import SKEW, Record, Refusal
from ..folder.events import Events, read_events
from ..folder.files import AUDIT, EVENTS, SIGNATURE, SIGNATURES, YEAR, Folder, absolute, data_named, sum_of
from ..folder.jobs import find_tool, run, run_all
from ..folder.older import read_any
from ..folder.placing import keep
from ..folder.year import Statements, read_statements
from ..schema import is_time
from ..text import plain, spelled
from ..units import seconds_of

NAMESPACE = "ntpaudit-dossier"
"""What a signature is made for: one that was made for anything else doesn't count."""

NONE, UNSEEN, GOOD, UNFIT, STRANGER = "none", "unseen", "good", "unfit", "stranger"
KEY = re.compile(r"with (\S+) key (\S+)")
PLAIN_NAME = re.compile(rb"[A-Za-z0-9][A-Za-z0-9@._-]*")
USER = re.compile("[A-Za-z0-9._-]{1,32}")
EARLY = "it is dated before what it signs"
CHANGED = "it isn't of what stands beside it, so one of them was changed"
NO_KEYGEN = "ssh-keygen isn't installed, which makes signatures and looks at them"
SIGNED, SIGNERS = "signed", "signers"
"""Private copies of what was signed, and of who may sign."""
MAX_AT_ONCE, AT_A_PROCESS = 8, 16
"""Processes that look at signatures side by side, and signatures at which one looks at most."""
READERS: dict[str, Callable[[bytes], Record | Statements | Events]] = {
    AUDIT: read_any, YEAR: read_statements, EVENTS: read_events}
"""What reads each that is signed."""


class Signature(NamedTuple):
    """What was found."""

    state: str
    """`none`: there is none. `unseen`: there is one, and it wasn't looked at. `good`: it fits, and its key may sign.
    `unfit`: it isn't one of what stands there, or not at that time. `stranger`: it fits, and its key may not sign."""
    at: str = ""
    """When it was made, as that says."""
    signer: str = ""
    key: str = ""
    """The key's kind and its sum."""
    why: str = ""
    """Why it doesn't fit, or what ssh-keygen says of a key that may not sign."""


class Signers:
    """Who may sign, as a file of allowed signers says, if one is named; who signed what with which key, by sums of what
    is signed and of the signature, of those that were looked at side by side and are good; and what those are called
    here of whom another word was said."""

    def __init__(self, path: str | None):
        self.seen, self.called_here = dict[bytes, tuple[str, str]](), dict[str, str]()
        try:
            self.given = data_named(path) if path is not None else None
        except Fault as error:
            raise error.of("the file of signers") from None

    def signature_of(self, folder: Folder) -> Signature:
        """The signature of a folder, over the very bytes that are read of what is signed of it. It is looked at if
        there are signers; whether a key may sign is asked of the time at which these bytes say that it was made."""
        signed = signed_in(folder)
        if not folder.has(SIGNATURES[signed]):
            return Signature(NONE)
        signature, data = folder.data(SIGNATURES[signed]), folder.data(signed) if folder.has(signed) else b""
        at, earliest = times_of(signed, data)
        if self.given is None:
            return Signature(UNSEEN, at)
        if at and seconds_of(at) < earliest:
            return Signature(UNFIT, at, why=EARLY)
        if seen := self.seen.get(sums_of(data, signature)):
            return Signature(GOOD, at, *seen)
        for name, text in ((SIGNED, data), (SIGNATURE, signature), (SIGNERS, self.given)):
            keep(name, text)
        on = ["-O", f"verify-time={local(at)}"] if is_time(at) else []
        holder = holder_of(self.given, signature)
        status, said, _ = self.verify(holder, on) if holder else (1, "", "")
        if not status and (key := KEY.search(said)):
            return Signature(GOOD, at, holder, f"{key[1]} {key[2]}")
        return self.looked_at(at, on, os.path.basename(os.path.dirname(absolute(folder.path))))

    def look_at(self, paths: list[str], seconds: int) -> dict[str, str]:
        """Looks at the signatures of folders side by side, so that nobody has to look at those that are good again. Who
        signed which, and nobody those that don't fit, or can't be looked at."""
        def look(path: str, _: int) -> list[str]:
            with Folder(path) as folder:
                found, signed = self.signature_of(folder), signed_in(folder)
                if found.state != GOOD:
                    return [UNFIT] * (found.state == UNFIT)
                return [sums_of(folder.data(signed), folder.data(SIGNATURES[signed])).hex(), found.signer, found.key]
        names, signers = dict[tuple[str, str], tuple[str, str]](), dict[str, str]()
        is_needed = self.given is not None and len(paths) > 1
        jobs = max(1, min(MAX_AT_ONCE, len(os.sched_getaffinity(0)), len(paths)))
        most = max(1, min(AT_A_PROCESS, len(paths) // jobs))
        chunks = [paths[at:at + most] for at in range(0, len(paths) * is_needed, most)]
        several = run_all([chunk[0] for chunk in chunks], lambda _, k: [look(path, k) for path in chunks[k]],
                          list[list[str]], seconds, jobs)
        for path, came in chain.from_iterable(  # (one by one if they can't be looked at together)
                run_all(chunk, look, list[str], seconds, jobs) if isinstance(some, Refusal) else zip(chunk, some)
                for chunk, (_, some) in zip(chunks, several)):
            if isinstance(came, list) and came[1:]:
                sums, *name = came
                self.seen[bytes.fromhex(sums)] = names.setdefault((name[0], name[1]), (name[0], name[1]))
                signers[path] = self.seen[bytes.fromhex(sums)][0]
            elif came:
                signers[path] = ""
        return signers

    def machine_of(self, day: Folder, path: str, said: str = "") -> str:
        """Who signed a day, in a word, if that is its machine, whose folder's path is given; in the word that is said
        of it, if that is the machine's too, since another file of signers may call it otherwise. Nothing if it isn't,
        or if nobody is named who may sign."""
        if self.given is None:
            return ""
        signature, machine = self.signature_of(day), os.path.basename(absolute(path))
        is_its_own = signature.state == GOOD and is_called(signature.signer, machine)
        user, at, host = said.rpartition("@")
        is_said = said == in_a_word(machine) or bool(at) and host == in_a_word(machine) and USER.fullmatch(user)
        own = in_a_word(signature.signer)
        if is_its_own and is_said and said != own:
            self.called_here[said] = own
        return (said if is_said else own) if is_its_own else ""

    def looked_at(self, at: str, on: list[str], machine: str) -> Signature:
        """What `ssh-keygen` says of a private copy of a signature that was made at this time. Of several who have its
        key the machine is taken in whose folder it is."""
        status, said, _ = self.keygen("check-novalidate", "-n", NAMESPACE)
        key = KEY.search(said)
        if status or not key:
            return Signature(UNFIT, at)
        signature = Signature(STRANGER, at, key=f"{key[1]} {key[2]}")
        _, named, error = self.keygen("find-principals", *on, "-f", SIGNERS)
        for signer in sorted(named.splitlines(), key=lambda signer: not is_called(signer, machine)):
            status, _, error = self.verify(signer, on)
            if not status:
                return signature._replace(state=GOOD, signer=signer)
        lines = [line for line in error.splitlines() if line]
        return signature._replace(why=lines[0] if lines else "")

    def verify(self, signer: str, on: list[str]) -> tuple[int, str, str]:
        """Whether the signature stands as that of one who may sign, at a time."""
        return self.keygen("verify", *on, "-f", SIGNERS, "-I", signer, "-n", NAMESPACE)

    def keygen(self, *words: str) -> tuple[int, str, str]:
        tool = find_tool("ssh-keygen", NO_KEYGEN)
        status, said, error = run([tool, "-Y", *words, "-s", SIGNATURE], SIGNED)
        return status, said.decode("utf-8", "replace"), error.decode("utf-8", "replace")


def in_a_word(signer: str) -> str:
    """A signer as a word of a line."""
    return re.sub(r"\s", lambda blank: spelled(blank[0]), plain(signer))


def is_called(signer: str, machine: str) -> bool:
    """Whether a signer is a machine: called like its folder, or `..@` that."""
    return machine in called_by(signer)


def called_by(signer: str) -> list[str]:
    """What a machine may be called whose key a signer has, the longest name first: a name may have an `@` of its own.
    """
    parts = signer.split("@")
    return ["@".join(parts[k:]) for k in range(len(parts))]


def sums_of(data: bytes, signature: bytes) -> bytes:
    """A sum of what is signed and of its signature."""
    return bytes.fromhex(sum_of(f"{sum_of(data)} {sum_of(signature)}".encode()))


def holder_of(signers: bytes, signature: bytes) -> str:
    """Whose key is in a signature, by a file of allowed signers, if a line of it alone has that key, and a plain name;
    else nothing. With that name one call of `ssh-keygen` tells what else takes three."""
    with suppress(ValueError):
        within = b64decode(b"".join(signature.split(b"\n")[1:-1]).partition(b"-")[0], validate=True)
        lines = [words for words in map(bytes.split, signers.splitlines())
                 if any(word.startswith(b"AAAA") and b64decode(word) in within for word in words)]
        if len(lines) == 1 and PLAIN_NAME.fullmatch(lines[0][0]):
            return lines[0][0].decode()
    return ""


def signed_in(folder: Folder, day: str = "") -> str:
    """What is signed of a folder, or of a day's in it: its audit.json, a year's statements, or on what an answer to a
    log rests. One that has two of them is refused: the files of one would be nobody's."""
    found = [name for name in SIGNATURES if folder.has(os.path.join(day, name))]
    if found[1:]:
        raise fault(f"{' and '.join(found)} are in one folder, which is a day, a year, or an answer to a log")
    return found[0] if found else AUDIT


def times_of(name: str, data: bytes) -> tuple[str, int]:
    """When one of these was signed, as it says, nothing if it isn't one; and the Unix second before which it can't have
    been: when it was made, or the end of a span that was audited. (The clocks may have been off, or set since.)"""
    with suppress(Fault):
        signed = READERS[name](data)
        ends = [entry.claim.last for entry in signed.entries] if isinstance(signed, Record) else []
        return signed.signed, max([seconds_of(signed.made), *ends]) - SKEW
    return "", 0


def local(time: str) -> str:
    """A time in local time, as ssh-keygen takes it; the time that is now if there is no such time."""
    try:
        return datetime.fromisoformat(time).astimezone().strftime("%Y%m%d%H%M%S")
    except (ValueError, OverflowError):
        return datetime.now().strftime("%Y%m%d%H%M%S")


def in_words(signature: Signature) -> str:
    """What a signature comes to."""
    at = f" at {signature.at}" if signature.at else ""
    by = {
        NONE: "nobody signed it",
        UNSEEN: f"signed{at}, it says; the signature wasn't looked at (--signers FILE does)",
        GOOD: f"signed{at} by {signature.signer}, with the key {signature.key}",
        UNFIT: f"the signature doesn't fit: {signature.why or CHANGED}",
        STRANGER: f"signed{at} with a key that may not sign by the file of signers: {signature.key}",
    }[signature.state]
    return f"{by} ({signature.why})" if signature.why and signature.state == STRANGER else by
