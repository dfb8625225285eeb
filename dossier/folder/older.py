"""Audits by older versions: an audit.json of an older form, held to what its inputs come to today.

Since form 6 claim, verdict, figures and files have stood there as they do now. Warnings, reasons and what the list of
leap seconds says have not, so of these nothing is compared, and a folder that was verified here isn't recorded as
known: what is shown of it is made anew.
"""
import json
from functools import lru_cache
from typing import Any

from .. import VERSION
from ..records import replace
from ..schema import first_difference, parsed, said
from .entry import Record, read_record

OLDEST = 6
NOT_COMPARED = {"dossier", "leap_seconds", "leap", "warnings", "reason", "moves", "parts"}
"""What a record of an older form and its entries said otherwise."""


def form_of(data: bytes) -> int:
    """The form of audit.json that is told there; today's if none is."""
    try:
        value = parsed(data)
    except ValueError:
        return VERSION
    form = value.get("dossier") if isinstance(value, dict) else None
    return form if type(form) is int else VERSION


def is_older(data: bytes) -> bool:
    return OLDEST <= form_of(data) < VERSION


@lru_cache(maxsize=1)
def read_any(data: bytes) -> Record:
    """The record that audit.json holds in today's form or in an older one; a fault if it is none. It is read for the
    signature too, and for what was found before."""
    if is_older(data):
        value = parsed(data)
        for entry in value["entries"] if isinstance(value.get("entries"), list) else ():
            if isinstance(entry, dict) and isinstance(entry.get("reason"), dict):
                entry["reason"] = {"why": entry["reason"].get("why")}
        data = json.dumps({**value, "dossier": VERSION}).encode()
    return read_record(data)


def differs(record: Record, made: Record) -> tuple[str, Any, Any] | None:
    """Where a record of an older form says first what the inputs don't come to."""
    known = set(record.outputs)
    entries = [replace(entry, outputs={name: sum_ for name, sum_ in entry.outputs.items() if name in known})
               for entry in made.entries]
    return first_difference(compared(said(record)), compared(said(replace(made, entries=entries))))


def compared(record: dict[str, Any]) -> dict[str, Any]:
    """What is compared of a record in JSON."""
    entries = [{name: value for name, value in entry.items() if name not in NOT_COMPARED}
               for entry in record["entries"]]
    return {name: value for name, value in {**record, "entries": entries}.items() if name not in NOT_COMPARED}
