"""A claim, certificates and a refutation, as their files have them (docs/FORMATS.md)."""
import json
from pathlib import Path
from typing import NotRequired, TypedDict, cast

Claim = TypedDict("Claim", {
    "client": str, "servers": list[str], "false_max": int, "from": str, "to": str, "bound_ns": int, "drift_ppb": int,
    "reading_ns": int, "groups": NotRequired[list[list[int]]]})
"""By rising code."""
MOST = {"false_max": 31, "bound_ns": 10**15, "drift_ppb": 500_000_000, "reading_ns": 10**9}
"""What a whole number of a claim may be at the most; at least 0."""
Piece = TypedDict("Piece", {"entries": list[list[int]], "upto": int})
Certificate = TypedDict("Certificate", {"pieces": list[Piece]})
Case = TypedDict("Case", {"groups": list[int], "pieces": list[Piece]})
ByCovers = TypedDict("ByCovers", {"conflicts": list[list[int]], "cases": list[Case]})
Refutation = TypedDict("Refutation", {"error": int, "false": list[int], "reading": int})


def changed(claim: Claim, **changes: object) -> Claim:
    """The claim with some of its values changed, maybe to what no claim may have."""
    return cast(Claim, {**claim, **changes})


def read_claim(path: Path | str) -> Claim:
    return cast(Claim, json.loads(Path(path).read_text()))
