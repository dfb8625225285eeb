"""What is asked of a course of events by programs that have to agree about it: what is like its certificates and
refutations, what nobody would claim, and captures with broken frames, doubled and lost packets.
"""
import json
import random
from collections.abc import Iterable
from typing import Any

from tests.second.claims import Certificate, Claim, Refutation
from tests.second.columns import TICKS, time
from tests.second.rules import span_of
from tests.tools.wire import records_of


def odd(rng: random.Random, capture: bytes) -> bytes:
    """A little-endian capture with records doubled, lost or in another order, and bytes of their frames changed."""
    records = records_of(capture)
    for _ in range(rng.randrange(1, 9)):
        number = rng.randrange(len(records))
        record = bytearray(records[number])
        place = rng.randrange(16, len(record))
        record[place] = rng.choice((0, 1, 16, 255, record[place] ^ 1 << rng.randrange(8)))
        records[number] = bytes(record)
    records += rng.sample(records, rng.randrange(2))
    if rng.random() < .3:
        rng.shuffle(records)
    return capture[:24] + b"".join(records[rng.randrange(2):])


def readings(rng: random.Random, claim: Claim) -> list[str]:
    """What a clock may have shown about the span, and far from it, as logs have it: in UTC or in Unix seconds."""
    first, last = (tick // TICKS for tick in span_of(claim))
    seconds = [rng.randrange(max(0, first - 9), last + 9) for _ in range(8)] + [0, rng.randrange(2**32 - 1)]
    fractions = ["." + "".join(rng.choices("0123456789", k=rng.randint(1, 9))) if rng.random() < .8 else ""
                 for _ in seconds]
    return [rng.choice((f"{second}{fraction}", f"{time(second)[:-1]}{fraction}Z"))
            for second, fraction in zip(seconds, fractions)]


def made_certificate(rng: random.Random, claim: Claim, of_servers: list[list[int]], samples: int) -> Certificate:
    """A certificate of any samples, where these are those of each server."""
    first, last = span_of(claim)
    cuts = sorted(rng.randrange(first, last + 1) for _ in range(rng.randrange(4)))
    pieces: Certificate = {"pieces": []}
    for upto in [*cuts, last]:
        entries = [[rng.choice(own), rng.choice(own)] for own in of_servers if rng.random() < .85]
        if rng.random() < .1 and samples:
            entries.append([rng.randrange(samples + 1), rng.randrange(samples)])
        pieces["pieces"].append({"entries": entries, "upto": upto})
    return pieces


def made_refutation(rng: random.Random, claim: Claim) -> Refutation:
    bound, count = claim["bound_ns"] * TICKS // 10**9, len(claim["servers"])
    error = rng.choice([1, -1]) * (bound + rng.choice([0, 1, 2, 1000, 10**6, 10**9]))
    return {"error": max(-2**63, min(2**63 - 1, error)),
            "false": rng.sample(range(count), rng.randrange(count + 1)) if rng.random() < .6 else [],
            "reading": span_of(claim)[0] + rng.choice([0, 1, TICKS, TICKS // 2])}


def altered(rng: random.Random, text: bytes, samples: int) -> bytes:
    """Another certificate, or refutation, near this one."""
    value: Any = json.loads(text)
    if "pieces" in value or "cases" in value:
        for _ in range(rng.randrange(1, 3)):
            pieces = rng.choice(value["cases"])["pieces"] if "cases" in value else value["pieces"]
            if pieces:
                alter_piece(rng, pieces, samples)
    else:
        what = rng.randrange(8)
        if what < 4:
            value["error"] += rng.choice([1, -1, 2, -2, 1000, -1000, 10**6, -10**6])
        elif what == 4:
            value["error"] = -value["error"]
        elif what == 5:
            value["reading"] += rng.choice([1, -1, TICKS, -TICKS, 10**8])
        else:
            value["false"] = value["false"][1:] if what == 6 else [*value["false"], rng.randrange(8)]
    return json.dumps(value).encode()


def alter_piece(rng: random.Random, pieces: list[dict[str, Any]], samples: int) -> None:
    piece, what = rng.choice(pieces), rng.randrange(10)
    entries = piece["entries"]
    if what == 0:
        piece["upto"] = max(0, piece["upto"] + rng.choice([1, -1, TICKS, -TICKS, 10**6]))
    elif what == 1:
        pieces.remove(piece)
    elif what == 2:
        pieces.append({"entries": list(map(list, entries)), "upto": piece["upto"]})
    elif what == 3:
        piece["entries"] = []
    elif what == 4:
        rng.shuffle(pieces)
    elif entries:
        entry = rng.choice(entries)
        if what == 5:
            entries.remove(entry)
        elif what == 6:
            entries.append(list(entry))
        elif what == 7:
            entry[0] = rng.choice([-1, 2**32, 2**32 - 1, 1.0, None, True, "0"])
        else:
            entry[rng.randrange(2)] = rng.randrange(samples + 2)


def spoiled(rng: random.Random, data: bytes) -> bytes:
    """The same bytes but for one, or cut off."""
    if not data:
        return b"x"
    at, what, sign = rng.randrange(len(data)), rng.randrange(7), rng.choice(b'0123456789",:{}[] \n-.eE\\')
    if what == 0:
        return data[:at]
    if what == 1:
        return data[:at] + data[at + 1:]
    other = (rng.randrange(256), rng.randrange(256), data[at] ^ 1 << rng.randrange(8), sign, sign)[what - 2]
    return data[:at] + bytes([other]) + data[at + (what < 6):]


def pairs_of(lines: Iterable[str], claim: Claim) -> list[tuple[int, int]]:
    """The two groups of each conflict line."""
    groups = claim.get("groups", [[server] for server in range(len(claim["servers"]))])
    of_server = {claim["servers"][server]: number for number, group in enumerate(groups) for server in group}
    return [(of_server[line.split()[1]], of_server[line.split()[3]]) for line in lines]


def are_few(pairs: list[tuple[int, int]], most: int) -> bool:
    """Whether at most so many groups hold an end of each pair, by looking at all sets of groups."""
    groups = sorted({group for pair in pairs for group in pair})
    return any(chosen.bit_count() <= most
               and all(any(chosen >> groups.index(group) & 1 for group in pair) for pair in pairs)
               for chosen in range(1 << len(groups)))
