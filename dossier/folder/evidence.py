"""evidence.json: where the evidence for each premise is kept, and which files of the folder it names.

It is an object of texts by the names of premises. A word of such a text that is the name of a file in the folder names
that file: its sum is taken with those of claim and captures, so a signature is for it too.
"""
from typing import Literal

from ..schema import Text, read_typed
from .files import EVIDENCE, OWN, Folder

AROUND = "\"'`()[]<>.,;:"
"""What may stand around a name in a text."""

PREMISES = Literal["reading", "capture", "servers", "distance", "answers", "drift", "leap"]


def evidence(folder: Folder) -> dict[str, str]:
    """Where the evidence for each premise is kept, as evidence.json says it, if there is one."""
    if not folder.has(EVIDENCE):
        return {}
    texts: dict[str, str] = read_typed(EVIDENCE, dict[PREMISES, Text], folder.data(EVIDENCE))
    return texts


def named_in(text: str) -> list[str]:
    """The words of a text that may be names of files in the folder: those without a slash."""
    words = [word.strip(AROUND) for word in [text, *text.split()]]
    return [word for word in dict.fromkeys(words) if word and "/" not in word]


def evidence_files(folder: Folder, names: list[str]) -> list[str]:
    """evidence.json, if it is there, and the files that it names."""
    if EVIDENCE not in names:
        return []
    named = {name for text in evidence(folder).values() for name in named_in(text)} & set(names) - OWN - {EVIDENCE}
    return [EVIDENCE, *sorted(name for name in named if not folder.is_folder(name))]
