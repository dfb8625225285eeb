"""The folder into which `--split` writes: how its pages are called, and what is taken away there.

A page is called like its folder, so that it stays. What an earlier call left and this one doesn't leave is taken away,
if it still is what was left. Nothing that is signed is replaced.
"""
import os
import re
from collections.abc import Iterable

from ..fault import USAGE, Fault, fault
from ..fleet.machines import is_within
from ..folder.entry import line_of_sum
from ..folder.files import LIST, SIGNATURES, Folder, sum_of
from ..folder.placing import take_away
from ..schema import is_name
from .templates import put

MAX_OF_A_NAME = 200
ESCAPED = re.compile(rb"[^A-Za-z0-9._/-]|^\.|^index$")
LINE = re.compile(r"([0-9a-f]{64})  ([A-Za-z0-9._+=-]+)")


def page_of(path: str) -> str:
    """What the page of a folder is called, without an ending: its path, with `+` between names, and `=` before the two
    digits of what isn't a letter, a digit, or one of `._-`. One that is too long ends with a part of its sum."""
    name = ESCAPED.sub(lambda match: b"=%02X" % match[0][0] + match[0][1:], os.fsencode(os.path.normpath(path)))
    words = name.decode().replace("/", "+")
    return words if len(words) <= MAX_OF_A_NAME else f"{words[:MAX_OF_A_NAME - 34]}=={sum_of(name)[:32]}"


class Split:
    """What a call leaves in such a folder, which isn't one on which that rests, or above one. If a file of its own may
    be signed, no other is there that may be."""

    def __init__(self, path: str, resting: Iterable[str] = (), own: str = ""):
        self.path, self.before, self.left = path, dict[str, str](), dict[str, str]()
        if inside := next((folder for folder in resting if is_within(folder, path)), ""):
            raise fault(f"nothing is written into {path}: a folder that is named is in it ({inside})", USAGE)
        signed = other = ""
        try:
            with Folder(path) as folder:
                signed = next(filter(folder.has, SIGNATURES.values()), "")
                other = next((name for name in SIGNATURES if own and name != own and folder.has(name)), "")
                if folder.has(LIST):
                    lines = map(LINE.fullmatch, folder.data(LIST).decode("utf-8", "replace").splitlines())
                    self.before = {line[2]: line[1] for line in lines if line and is_name(line[2])}
        except Fault:
            pass  # (it is made, or can't be written, which is said then)
        if signed:
            raise fault(f"{path} is signed, so nothing is replaced in it: name another folder, or take {signed} away",
                        USAGE)
        if other:
            raise fault(f"{path} has {other}, and a folder is a day, a year, or an answer to a log: name another one",
                        USAGE)

    def put(self, data: bytes, name: str) -> None:
        put(data, name, self.path)
        self.left[name] = sum_of(data)

    def end(self) -> None:
        """Takes away what an earlier call left, and keeps the list."""
        gone = [name for name in self.before if name not in self.left]
        with Folder(self.path) as folder:
            for name in gone:
                if folder.has(name) and folder.sum(name) == self.before[name]:
                    take_away(folder.place, name)
        put("".join(line_of_sum(sum_, name) for name, sum_ in self.left.items()).encode(), LIST, self.path)
