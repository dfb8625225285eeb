"""An audit, made from the inputs of a folder alone: private copies of them, the program's calls, and what they leave.

All of it is in the current folder, which is one's own. `audit` puts it into its place, and `verify` holds the folder to
it.
"""
import re
import time
from collections.abc import Collection

from .. import VERSION
from ..capture.captures import (AuditedCapture, are_unpacked_at_once, around, audited, cut, falls_in, sum_of_unpacked,
                                thinned, unpacked)
from ..capture.classic import Classic
from ..capture.twice import once
from ..fault import DEVICE, Fault, fault
from ..folder.claim import Claim, parts_of
from ..folder.entry import Entry, LeapList, Options, Record, Refusal, is_made_anew, is_packable, refusal_by
from ..folder.evidence import evidence_files
from ..folder.files import (CLAIM, JOINED, MAX_OF_A_CAPTURE, Folder, is_capture, own_data, size_of, sum_of,
                            sum_of_file, too_big)
from ..folder.placing import copy_of, copy_unsummed, move
from ..folder.program import Program
from ..premise.backing import Backing, backing
from ..records import dataclass
from ..schema import read_typed
from ..text import operand, plain
from ..units import now
from .judgement import Beside
from .settling import Settling

PACKED = "packed"
"""A private copy of a packed capture of which only the sum is taken."""


def packed_in(names: Collection[str], record: Record | None) -> dict[str, str]:
    """The captures of an audit that have been packed since, by the names of the files in which they are."""
    inputs = record.inputs if record else {}
    return {f"{name}.zst": name for name in inputs
            if is_packable(name) and f"{name}.zst" in names and f"{name}.zst" not in inputs}


def inputs_of(folder: Folder, record: Record | None) -> dict[str, str]:
    """The claim, the captures and the evidence, in the order of their names, each with the name of the file in which
    it is: a capture that an audit names may have been packed since. A fault if there are none."""
    names = folder.names()
    if CLAIM not in names:
        raise fault(f"no {CLAIM} in the folder", DEVICE)
    packed = packed_in(names, record)
    captures = {packed.get(name, name): name for name in filter(is_capture, names)
                if name not in packed or packed[name] not in names}
    if not captures:
        raise fault("no capture in the folder", DEVICE)
    others = {name: name for name in evidence_files(folder, names) if name not in captures.values()}
    return {CLAIM: CLAIM, **{name: captures[name] for name in sorted(captures)}, **others}


def sizes_of(folder: Folder, record: Record) -> str:
    """A sum of the names and sizes of the files that an audit names, as they are in its folder, which aren't read. A
    fault if claim or captures aren't there."""
    every = {*inputs_of(folder, record).values(), *(name for name in record.outputs if not is_made_anew(name))}
    return sum_of("".join(f"{folder.size(name)} {name}\n" for name in sorted(every)).encode("utf-8", "surrogateescape"))


def sums_of_inputs(folder: Folder, record: Record, taken: dict[str, str]) -> dict[str, str]:
    """The SHA-256 of each input, by its name: of one that is packed that of the capture in it. Some may have been taken
    already. A packed file beside its capture is none, if it holds the same."""
    inputs = inputs_of(folder, record)
    sums = {name: taken.get(name) or (folder.sum(file) if file == name else sum_in(folder, file))
            for name, file in inputs.items()}
    for file, name in packed_in(folder.names(), record).items():
        if inputs[name] == name and sum_in(folder, file) != sums[name]:
            sums[file] = folder.sum(file)
    return sums


def sum_in(folder: Folder, file: str) -> str:
    """The SHA-256 of the capture that a file holds; of the file itself if that isn't packed."""
    copy_of(folder, file, PACKED)
    return sum_of_unpacked(file, PACKED)


@dataclass
class Inputs:
    """What was read of a folder: the sum of each input, and the name of the private copy of each capture."""

    sums: dict[str, str]
    copies: dict[str, str]

    capture: str = ""
    """The capture that is audited, by its name in the folder."""

    def named(self, words: str) -> str:
        """Words about a copy, which begin with its name, as words about the file in the folder."""
        copy, colon, said = words.partition(": ")
        return plain({copy: name for name, copy in self.copies.items()}.get(copy, copy)) + colon + said

    def typed(self, words: str) -> str:
        """Commands about copies as commands about the files in the folder."""
        names = {copy: operand(name) for name, copy in self.copies.items()}
        return re.sub(r"(?<= )[0-9]+\.pcap(?![^ ,;])", lambda match: plain(names.get(match[0], match[0])), words)


def take_inputs(folder: Folder, record: Record | None, believed: dict[str, str] = {}) -> Inputs:
    """Copies claim and captures into the current folder, under names of one's own, and takes all sums, but of what is
    believed for now. What an earlier audit names and has been packed since is unpacked."""
    taken, packed = Inputs({}, {}), dict[str, str]()
    for name, file in inputs_of(folder, record).items():
        copy = CLAIM if name == CLAIM else f"{len(taken.copies)}.pcap" if is_capture(name) else ""
        if file != name:
            packed[name] = f"{copy}.zst"
            copy_unsummed(folder, file, packed[name])
        elif name in believed:
            copy_unsummed(folder, file, copy)
        else:
            taken.sums[name] = copy_of(folder, file, copy) if copy else folder.sum(file)
        if is_capture(name):
            taken.copies[name] = copy
    is_done = are_unpacked_at_once({copy: taken.copies[name] for name, copy in packed.items()})
    for name, copy in packed.items():
        if not is_done:
            move(unpacked(name, copy)[0], taken.copies[name])
    taken.sums |= {name: believed.get(name) or sum_of_file(copy) for name, copy in taken.copies.items()
                   if name not in taken.sums}
    return taken


def joined_of(taken: Inputs, claim: Claim, program: Program) -> AuditedCapture:
    """One capture of all that were recorded."""
    return thinned(audited(taken.copies, program), claim, program)


def whole_of(taken: Inputs, claim: Claim, program: Program) -> AuditedCapture:
    """The capture that is audited: all that were recorded, each packet once."""
    return once(joined_of(taken, claim, program), program)


def make(taken: Inputs, options: Options, leaps: LeapList, backed: Backing, program: Program,
         earlier: dict[str, bytes]) -> list[Entry]:
    """All answers, and their files in the current folder. Of a part that has an earlier refutation it may be taken."""
    name, copy = next(iter(taken.copies.items()))
    claim = read_claim(program, copy)
    parts = list(parts_of(claim, options.days))
    whole = whole_of(taken, claim, program)
    if size_of(whole.path) > MAX_OF_A_CAPTURE:
        raise too_big(JOINED, MAX_OF_A_CAPTURE)
    taken.capture = JOINED if whole.is_made else name
    made = {JOINED: sum_of_file(JOINED)} if whole.is_made else {}
    sums = {CLAIM: taken.sums[CLAIM], whole.path: made.get(JOINED) or taken.sums[name]}
    beside, entries, capture = Beside(leaps, backed, whole.alerts), [], Classic(whole.path, whole.extent)
    falls = falls_in(capture.extent.stamps)
    for part, cut_to in zip(parts, cut(whole.path, parts, whole.extent)):
        settling = Settling(part, whole, program, options.step, sums, earlier.get(part.name, b""))
        settling.left |= made
        entries.append(settling.settle(beside, cut_to, around(capture, falls, part)))
        if JOINED in settling.left:
            taken.capture = JOINED
    return entries


def read_claim(program: Program, capture: str) -> Claim:
    """The claim. If it is none, the program says so in its own words."""
    try:
        claim: Claim = read_typed(CLAIM, Claim, own_data(CLAIM))
        return claim
    except Fault:
        program.run("samples", CLAIM, capture)
        raise


class Making:
    """The record that comes of a folder, verdict or refusal."""

    def __init__(self, folder: Folder, program: Program, options: Options, leaps: LeapList, old: Record | None = None):
        self.folder, self.program, self.options, self.leaps, self.old = folder, program, options, leaps, old
        self.begun, self.made, self.taken = time.monotonic(), now(), Inputs({}, {})

    def record(self, earlier: dict[str, bytes] | None = None) -> Record:
        """What the program answers; a fault if there is no verdict."""
        self.taken = take_inputs(self.folder, self.old)
        backed = backing(self.folder, self.taken.sums)
        try:
            return self.of(make(self.taken, self.options, self.leaps, backed, self.program, earlier or {}))
        except Fault as error:
            error.why, error.what = self.taken.named(error.why), self.taken.typed(error.what)
            raise

    def capture_of(self, entry: Entry) -> str:
        """The private file by which an entry was settled."""
        own, whole = entry.within(JOINED), self.taken.capture
        return own if own in entry.outputs else self.taken.copies.get(whole, whole)

    def of(self, entries: list[Entry], refusal: Refusal | None = None) -> Record:
        return Record(VERSION, self.program.made, self.options, self.taken.sums, self.taken.capture, self.made,
                      round(time.monotonic() - self.begun, 3), "", entries, refusal, None if refusal else self.leaps)

    def refused(self, error: Fault) -> Record:
        return self.of([], refusal_by(error))
