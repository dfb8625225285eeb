"""A claim to start from, drafted out of what `list` and `samples` print of a capture."""
import ipaddress
import json
import os
from collections import defaultdict

from ..capture.captures import AuditedCapture, audited, begins
from ..capture.recording import Recording, read_recording
from ..capture.traffic import Traffic, number_of, read_traffic
from ..capture.twice import once
from ..fault import USAGE, fault
from ..folder.answers import read_envelope, read_settled
from ..folder.claim import Claim
from ..folder.entry import NOTHING_FITS, LeapList, OfServers
from ..folder.files import CLAIM
from ..folder.placing import copy_named, keep
from ..folder.program import Program
from ..premise.allowance import Allowance, Proposal, slip
from ..premise.leap import alerts_of, look_up
from ..records import dataclass, replace
from ..schema import said
from ..text import count, listed, plain, reference as letters
from ..units import DAY, SECOND, civil, ns_ms, ns_up_ms, round_up
from .alerts import TO_DO, warning_words
from .parts import Parting
from .sentences import moved

MAX_SERVERS = 32
NO_BOUND = 1_000_000_000
"""Nanoseconds that stand in a draft for which no bound is known."""
UNKNOWN = "00000000"
NOT_IN_IT = ("the client's own corrections are NOT in it. `--chrony FILE` or `--ntpd FILE` reads them; chronyd makes "
             "up to 83,333,334 unless `maxslewrate` is set.")
FOR_NOW = "one second stands there for now."
References = dict[str, set[tuple[int, str]]]
"""Of each server the strata and reference identifiers that it named."""


@dataclass(frozen=True)
class DraftCall:
    """What the command line asks of a draft."""

    client: str | None
    whole_days: bool
    drift_ppb: int
    is_oscillator: bool
    """Whether that is the oscillator's part alone, since nothing is known of the client."""
    reading: Proposal
    bound_ns: int | None
    """The bound that is to be shown; the least one if none is named."""


def upstream(stratum: int, reference: str) -> str | None:
    """The address that a reference identifier is. That of a primary server, and one in 127.0.0.0/8, names a kind of
    clock and no server."""
    address = ipaddress.IPv4Address(int(reference, 16))
    return None if stratum < 2 or address.is_loopback or reference == UNKNOWN else str(address)


def group(servers: list[str], references: References) -> list[list[int]]:
    """Servers that follow one another, or one and the same address, are in one group."""
    of = {server: {server} for server in servers}
    for server in servers:
        for above in {address for seen in references[server] if (address := upstream(*seen))}:
            met = of[server] | of.get(above, {above})
            for member in met:
                of[member] = met
    groups = []
    for number, server in enumerate(servers):
        members = [k for k, other in enumerate(servers) if other in of[server]]
        if members[0] == number:
            groups.append(members)
    return groups


def span_of(first_request: int, last_reply: int, whole_days: bool) -> tuple[int, int]:
    """The whole seconds between two times in nanoseconds, or the whole days that hold them."""
    first, last = -(-first_request // SECOND), last_reply // SECOND
    if whole_days:
        return first - first % DAY, -(-last // DAY) * DAY
    return min(first, last), last


class Draft:
    """Drafts a claim for one capture, and says on the way what a person has to look at."""

    def __init__(self, program: Program, whole: AuditedCapture):
        self.program, self.whole, self.capture = program, whole, whole.path
        self.remarks = [warning_words(warning) for warning in whole.alerts]

    def remark(self, *words: str) -> None:
        self.remarks.append(" ".join(words))

    def claim(self, wanted: DraftCall) -> Claim | None:
        """The claim, or None if the capture has no client with a server that answered it."""
        seen = read_traffic(self.program, self.capture)
        client = self.choose(seen, wanted.client)
        if client is None:
            return None
        if wanted.is_oscillator:
            self.remarks.insert(0, f"drift_ppb is {wanted.drift_ppb}, an oscillator alone: {NOT_IN_IT}")
        if mode := seen.interleaving(client, sorted(seen.answered[client], key=number_of)):
            self.remark(warning_words(OfServers("interleaved", mode)))
        servers = sorted((server for server, _ in seen.answered[client].most_common(MAX_SERVERS)), key=number_of)
        if len(seen.answered[client]) > MAX_SERVERS:
            self.remark(f"A claim names at most {MAX_SERVERS} servers: those that answered least are left out.")
        reading = wanted.reading(client)
        claim = Claim(client, servers, 0, civil(0), civil(0), 0, wanted.drift_ppb, reading.ns)
        keep(CLAIM, claim.text)
        whole = once(self.whole, self.program)
        self.remarks += map(warning_words, whole.alerts[len(self.whole.alerts):])
        self.capture = whole.path
        recording = read_recording(self.program, CLAIM, self.capture)
        if recording.first_request is None:
            self.remark(f"None of {client}'s servers gave a sample: {counted(recording.counts)}.")
            return None
        claim = self.named(claim, recording, {server: seen.references[client, server] for server in servers})
        first, last = span_of(recording.first_request, recording.times[-1], wanted.whole_days)
        claim = replace(claim, from_=civil(first), to=civil(last))
        keep(CLAIM, claim.text)
        claim = replace(claim, bound_ns=self.bound(claim, wanted.bound_ns))
        self.leave_to_a_person(claim, wanted, reading)
        return claim

    def choose(self, seen: Traffic, client: str | None) -> str | None:
        """The client that asked most, or the one that is named."""
        if not seen.asked:
            self.remark(f"No NTP client asks anybody in it: {count(seen.packets, 'NTP packet')}.")
            return None
        clients = seen.by_number()
        chosen = client or clients[0]
        if client is None and len(clients) > 1:
            self.remark(f"{len(clients)} clients ask in it; this is a claim for the one that asks most,",
                        "and --client takes another.")
        if client is not None or len(clients) > 1:
            for address in clients:
                servers = count(len(seen.answered[address]), "server answers", "servers answer")
                self.remark(f"{address} asks {count(seen.asked[address].total(), 'time')}, and {servers} it.")
        if not seen.answered.get(chosen):
            self.remark(f"Nobody answers {plain(chosen)}.")
            return None
        return chosen

    def named(self, claim: Claim, recording: Recording, references: References) -> Claim:
        """The claim of the servers with a sample, put into groups, of which fewer than half may be wrong."""
        silent = [server for server in claim.servers if server not in recording.by_server]
        if silent:
            self.remark("Left out, since no reply of theirs is of use:",
                        f"{', '.join(silent)} ({counted(recording.counts)}).")
        heard = [server for server in claim.servers if server in recording.by_server]
        groups = group(heard, references)
        self.look_at_kinds(heard, references)
        return replace(claim, servers=heard, false_max=(len(groups) - 1) // 2,
                       groups=groups if len(groups) < len(heard) else [])

    def look_at_kinds(self, heard: list[str], references: References) -> None:
        """Remarks servers that name one kind of reference clock."""
        kinds = defaultdict(set)
        for server in heard:
            for stratum, reference in references[server]:
                if upstream(stratum, reference) is None and reference != UNKNOWN:
                    kinds[reference].add(server)
        for reference, servers in kinds.items():
            if len(servers) > 1:
                names = ", ".join(sorted(servers, key=number_of))
                self.remark(f"{names} name one kind of reference clock ({letters(reference)}):",
                            "if it is one and the same clock, put them into one group.")

    def why_nothing_fits(self, claim: Claim) -> str:
        """That no course of events fits the draft, and when the clock was stepped, if that is why."""
        moves = Parting(self.program, claim, self.capture, None).moves
        return ("Nothing fits this draft, so no claim by it is shown: the clock was "
                f"{listed(list(map(moved, moves)))}. Claim what came before and after by itself." if moves else
                "Nothing fits this draft, so no claim by it is shown: `audit` says why.")

    def bound(self, claim: Claim, wanted: int | None) -> int:
        """The bound that is wanted, or the least one that a certificate carries, rounded up to two digits."""
        asked, without = (FOR_NOW, NO_BOUND) if wanted is None else \
            (f"{ns_ms(wanted)} ms stands there, as asked for.", wanted)
        if read_settled(self.program.run("settle", CLAIM, self.capture).text).answer == NOTHING_FITS:
            self.remark(self.why_nothing_fits(claim), "bound_ns:", asked)
            return without
        envelope = read_envelope(self.program.run("envelope", CLAIM, self.capture, "--least", "--step", str(DAY)).text)
        if envelope.least_ns is None:
            begin, hull = envelope.begins[envelope.worst], envelope.hulls[envelope.worst]
            why = f"the piece from {civil(begin)} is {hull}" if isinstance(hull, str) else \
                "it is more than a claim can say"
            self.remark(f"bound_ns: no bound is carried, since {why};", asked)
            return without
        self.remark(f"bound_ns: the least bound that a certificate of pieces carries is "
                    f"{ns_up_ms(envelope.least_ns)} ms;", "rounded up." if wanted is None else asked)
        return round_up(envelope.least_ns) if wanted is None else wanted

    def leave_to_a_person(self, claim: Claim, wanted: DraftCall, reading: Allowance) -> None:
        """What only a person can answer for."""
        groups = count(len(claim.grouped), "group")
        if not wanted.is_oscillator:
            self.remark(f"drift_ppb is {claim.drift_ppb}: how fast the clock may gain or lose,",
                        "its oscillator's data sheet and the NTP client's corrections together.",
                        "Nothing in a capture shows it.")
        self.remark(f"reading_ns is {claim.reading_ns}: {reading.why}")
        if words := slip(claim.reading_ns):
            self.remark(words)
        self.remark(f"false_max is {claim.false_max}: fewer than half of {groups} of servers may be wrong.",
                    "Whether no more were is for a person to say.")
        self.remark("groups: servers of one operator, or on one reference clock, belong together.",
                    "A capture shows only what they name as their reference.")
        numbers = ", ".join(f"{number} is {server}" for number, server in enumerate(claim.servers))
        self.remark(f"In `groups` {numbers}.")


def counted(counts: dict[str, int]) -> str:
    """The counts that say what became of replies."""
    names = ("replies", "version", "leap", "stratum", "precision", "zero", "norequest", "ambiguous")
    return ", ".join(f"{name} {counts[name]}" for name in names if counts.get(name))


def draft(program: Program, captures: list[str], wanted: DraftCall) -> tuple[Claim | None, list[str]]:
    """A claim for captures, which are joined if there are several; and remarks for a person."""
    copies = {f"{number}.pcap": path for number, path in enumerate(captures)}
    for copy, path in copies.items():
        copy_named(path, copy)
        if begins(copy, b"{"):
            raise fault(f"{os.path.basename(path)} is JSON, such as a claim: draft takes captures alone, and prints a "
                        "claim", USAGE)
    whole = audited({f"{os.path.basename(path)} ({copy})" if len(copies) > 1 else os.path.basename(path): copy
                     for copy, path in copies.items()})
    drafting = Draft(program, whole)
    if len(copies) > 1:
        drafting.remark(f"{len(copies)} captures were joined in order of time.")
    claim = drafting.claim(wanted)
    return claim, drafting.remarks


def of_leaps(claim: Claim, leaps: LeapList) -> list[str]:
    """What the list of leap seconds would take a yes away for, and what to do."""
    alerts = alerts_of(look_up(leaps, claim.first, claim.last), leaps)
    return [f"{warning_words(alert)} {TO_DO[alert.kind]}" for alert in alerts]


def claim_text(claim: Claim) -> str:
    """The claim, a line for each of its fields."""
    lines = (f"  {json.dumps(name)}: {json.dumps(value)}" for name, value in said(claim).items())
    return "{\n" + ",\n".join(lines) + "\n}\n"
