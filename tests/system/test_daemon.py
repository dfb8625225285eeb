"""Compares what `samples` says of each reply with what the client's chronyd has logged of it: data/logged has a
recording, and the measurements.log that it wrote meanwhile (RFC 5905, section 8). What `list` reads of a reply tshark
has read of the captures of data/.
"""
import json
import tempfile
from pathlib import Path
from typing import NamedTuple

from tests.support import DATA, check, program, run
from tests.second.columns import SAMPLE, read

FOLDER = DATA / "logged"
CLAIM = {"client": "192.0.2.10", "servers": [f"192.0.2.{k}" for k in (1, 2, 3)], "false_max": 1,
         "from": "2026-11-28T11:39:00Z", "to": "2026-11-28T11:39:09Z", "bound_ns": 10**6, "drift_ppb": 100000,
         "reading_ns": 10000}


class Logged(NamedTuple):
    """A row of measurements.log."""

    server: str
    offset: float
    delay: float


def logged() -> list[Logged]:
    rows = [line.split() for line in (FOLDER / "measurements.log").read_text().splitlines()]
    return [Logged(f[2], float(f[11]), float(f[12])) for f in rows]


def test_offsets() -> None:
    """The logged offset and delay lie between the ends that a sample has."""
    with tempfile.TemporaryDirectory(prefix="ntpaudit-") as place:
        claim = Path(place) / "claim.json"
        claim.write_text(json.dumps(CLAIM))
        lines = run([program(), "samples", claim, FOLDER / "f.pcap"])[1].decode().splitlines()[:-1]
    check("samples that are logged", seen=(len(lines), len(logged())))
    for row, sample in zip(logged(), (read(SAMPLE, line) for line in lines)):
        ends = [[int(sample[f"{end} {what}"]) * 2**-32 for end in ("low", "high")] for what in ("offset", "delay")]
        check(f"sample {sample['sample']}", server=(sample["SERVER"], row.server),
              between=([low <= told <= high for (low, high), told in zip(ends, (row.offset, row.delay))], [True, True]))
