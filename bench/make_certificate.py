#!/usr/bin/env python3
"""Writes a certificate with one piece for each second of the claim of the day, for measurements of `check`.

  make_certificate.py FILE --exchanges N --claim CLAIM

For a capture of make_capture.py whose N exchanges are spread over the claim's span and ask the claim's servers in turn:
each piece names, for each server, the exchange that lies about at the piece's middle.
"""
import argparse
import json
from datetime import datetime, timezone

TICKS = 2**32


def second_of(time: str) -> int:
    return int(datetime.strptime(time, "%Y-%m-%dT%H:%M:%SZ").replace(tzinfo=timezone.utc).timestamp())


def main() -> None:
    words = argparse.ArgumentParser(description=__doc__, formatter_class=argparse.RawDescriptionHelpFormatter)
    words.add_argument("file")
    words.add_argument("--exchanges", type=int, required=True)
    words.add_argument("--claim", required=True)
    given = words.parse_args()
    claim = json.loads(open(given.claim).read())
    first, last, servers = second_of(claim["from"]), second_of(claim["to"]), len(claim["servers"])
    pieces = []
    for k in range(last - first):
        round_ = min(given.exchanges - servers, (2 * k + 1) * given.exchanges // (2 * (last - first))) // servers
        entries = [[number, number] for number in range(round_ * servers, (round_ + 1) * servers)]
        pieces.append({"entries": entries, "upto": (first + k + 1) * TICKS})
    with open(given.file, "w") as out:
        json.dump({"pieces": pieces}, out, separators=(",", ":"))


if __name__ == "__main__":
    main()
