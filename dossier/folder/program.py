"""The program `ntpaudit`: where it is, and how it is called."""
import os
import re
import shutil
from collections.abc import Callable
from typing import NamedTuple

from ..fault import MEMORY, MISSING, Fault
from ..text import plain
from .entry import BUILD, Made
from .files import sum_of_file
from .jobs import ENVIRONMENT, PIPE, begun, private_folder, run, stream
from .placing import keep

ROOT = os.path.realpath(os.path.join(__file__, *[os.pardir] * 3))
IS_REPOSITORY = os.path.isfile(f"{ROOT}/crates.txt")
BESIDE = f"{ROOT.removesuffix('/share/ntpaudit')}/bin" if ROOT.endswith("/share/ntpaudit") else ROOT
"""Where programs stand that were installed with this, or copied."""
SUMS = "sums"
"""A private file with the sums of the operands of a call."""
MAX_OF_WORDS = 1000
"""Characters of a line of the program's words that are kept."""


class Ran(NamedTuple):
    """What a call gave, if it gave an answer: the status is 0 or 1."""

    status: int
    text: bytes


class Program(NamedTuple):
    path: str
    made: Made

    def run(self, *words: str, sums: dict[str, str] | None = None) -> Ran:
        """Calls the program, and has it hold its operands to their sums, if these are given by the operands' names: all
        of them are names of one's own, so none has anything in it that `sha256sum` would escape."""
        called = [self.path, *words]
        if sums:
            keep(SUMS, "".join(f"{sum_}  {name}\n" for name, sum_ in sums.items()).encode())
            called += ["--sums", SUMS]
        status, text, error = run(called)
        if status not in (0, 1):
            raise in_words(fault_of(status, error), called)
        return Ran(status, text)

    def blocks(self, take: Callable[[bytes], object], *words: str) -> None:
        """Calls the program, and hands on the lines of its text as they come, many at a time."""
        rest = b""

        def take_block(block: bytes) -> None:
            nonlocal rest
            block = rest + block
            end = block.rfind(b"\n") + 1
            rest = block[end:]
            if end:
                take(block[:end] if rest else block)
        status, error = stream([self.path, *words], take_block)
        if status not in (0, 1):
            raise in_words(fault_of(status, error), [self.path, *words])


def in_words(refusal: Fault, called: list[str]) -> Fault:
    """The fault of a call with what the program says about it, if it says the same again. What took all memory isn't
    called again."""
    if refusal.status != MEMORY:
        _, error = stream([*called, "--human"], lambda _: None)
        line, *words = lines_of(error) or [""]
        if line == refusal.line and len(words) == 2 and all(said.startswith("  ") for said in words):
            refusal.why, refusal.what = (plain(said.strip()[:MAX_OF_WORDS]) for said in words)
    return refusal


def fault_of(status: int, error: bytes) -> Fault:
    """The fault of a call, by its line on standard error."""
    lines = lines_of(error)
    if status < 0:
        return Fault(f"ntpaudit: ended by signal {-status}", MEMORY)
    return Fault(lines[0] if lines else f"ntpaudit: status {status}, and no line", status)


def lines_of(error: bytes) -> list[str]:
    return [line for line in error.decode("utf-8", "replace").split("\n") if line]


def find_program() -> Program:
    """The program under which all is done, with its version and its sum."""
    path = path_of_program()
    if not path or not os.access(path, os.X_OK):
        where = path or "neither beside ntpaudit-dossier nor on the PATH"
        raise Fault(f"ntpaudit: the program is not there ({where}): set NTPAUDIT to its path", MISSING)
    with private_folder() as place:
        status, version, _ = run([path, "--version"], cwd=place)
    said = re.match(f"(?:{BUILD})$", version.decode("utf-8", "replace"), re.MULTILINE)
    return Program(path, Made(said[0] if said and not status else "", sum_of_file(path)))


def path_of_program() -> str | None:
    """The file that the environment's NTPAUDIT names (from the repository's root); or the one that the launcher runs,
    which it has made sure of just now; or, if this is installed or a copy, the one of the same PREFIX or beside it; or
    `ntpaudit` on the PATH."""
    path = os.environ.get("NTPAUDIT")
    if path:
        return os.path.realpath(os.path.join(ROOT, path))
    if IS_REPOSITORY:
        return path_of_launcher()
    if os.path.isfile(f"{BESIDE}/ntpaudit"):
        return f"{BESIDE}/ntpaudit"
    return shutil.which("ntpaudit", path=ENVIRONMENT["PATH"]) if ENVIRONMENT["PATH"] else None


def path_of_launcher() -> str:
    """The path of the program that ./ntpaudit runs."""
    home = {name: os.environ[name] for name in ("HOME",) if name in os.environ}
    with begun([f"{ROOT}/ntpaudit", "--path"], env=ENVIRONMENT | home, stdout=PIPE) as built:
        assert built.stdout
        path = built.stdout.read().decode("utf-8", "surrogateescape").removesuffix("\n")
    if built.returncode:
        raise Fault("ntpaudit: the program is not built", MISSING)
    return path
