"""Runs the program as a user would, and compares what it prints with the transcripts tests/cases/COMMAND.txt:

    # bad-fraction: 1000000 microseconds
    $ patched data/two-packets.pcap 134=40420f00 > bad.pcap
    $ ntpaudit list bad.pcap | wc -l
    1
    2> ntpaudit: capture 7 bad-fraction at 130
    [2]

A case begins with `# `, its name and maybe what is peculiar to it. Its commands run in a shell and a folder of its own
(transcript.py); `patched`, `rows` and more are scripts in tests/tools. Below a command stands what it prints, byte for
byte; `2> ` begins a line of standard error, `[N]` is the status where it isn't 0, and in place of a stream's lines may
stand `FILE (file)`, whose they are, or `PATTERN (re)`, which they match. `ntpaudit VERSION logic LOGIC` is the line
that tells of the program. A blank line counts as nothing. ntpaudit_in_memory has all cases but ON_DISK.
"""
import difflib
import os
import re
from collections.abc import Callable, Iterator
from functools import partial
from pathlib import Path

from tests.support import ROOT, Ran, program
from tests.cases import transcript
from tests.cases.transcript import Case, ERROR

FILE, PATTERN = " (file)", " (re)"

SHOWN = 40
"""A difference of more lines is cut."""

ON_DISK = {
    "inputs/files": "a folder isn't opened in memory",
    "list/folder-on-standard-input": "a folder isn't opened in memory",
    "samples/one-pipe-for-both": "a pipe is read whole for its first reader",
    "samples/one-pipe-for-both-with-both": "a pipe is read whole for its first reader",
    "words/outputs": "nothing hinders a file in memory",
}
"""Cases that need the host's files, which aren't asked of files in memory, and why."""


def wanted_of(lines: list[str], seen: bytes, place: Path) -> bytes:
    """The text that a stream has to have, of what it had."""
    if len(lines) == 1 and lines[0].endswith(FILE) and (file := place / lines[0].removesuffix(FILE)).is_file():
        return file.read_bytes()
    if len(lines) == 1 and lines[0].endswith(PATTERN):
        pattern = lines[0].removesuffix(PATTERN)
        return seen if re.fullmatch(pattern.encode(), seen) else f"{lines[0]}\n".encode()
    return "".join(f"{line}\n" for line in lines).encode()


def told(text: bytes, mark: str = "") -> list[str]:
    """The lines of a transcript for what a stream had."""
    *whole, rest = text.decode("utf-8", "backslashreplace").split("\n")
    return [mark + line for line in whole] + ([f"{mark}{rest} (no end of line)"] if rest else [])


def status_line(status: int | str) -> list[str]:
    return [f"[{status}]"] if status else []


class Trial:
    """A case that was run: what each command printed and had to print, and the lines below each that say it."""

    def __init__(self, path: str, case: Case) -> None:
        self.seen: list[tuple[str, Ran]] = []
        self.wanted: list[tuple[str, Ran]] = []
        self.renewed: list[list[str]] = []
        with transcript.folder() as place:
            answers = transcript.typed([command for command, _ in case], place, PATH=path)
            for (command, shown), (status, out, err) in zip(case, answers):
                out = re.sub(rb"(?m)^ntpaudit \S+ logic [0-9a-f]{16}$", b"ntpaudit VERSION logic LOGIC", out)
                out_lines, error_lines, status_wanted = transcript.parts(shown)
                out_wanted, err_wanted = wanted_of(out_lines, out, place), wanted_of(error_lines, err, place)
                self.wanted.append((command, (status_wanted, out_wanted, err_wanted)))
                self.seen.append((command, (status, out, err)))
                self.renewed.append([*(out_lines if out == out_wanted else told(out)),
                                     *([ERROR + line for line in error_lines]
                                       if err == err_wanted else told(err, ERROR)), *status_line(status)])

    def difference(self) -> str:
        """The lines that differ from the transcript, and the first ones of them if there are many."""
        wanted, seen = (
            [line for command, (status, out, err) in answers for line in (
                *f"$ {command}".replace("\n", "\n> ").split("\n"), *told(out), *told(err, ERROR), *status_line(status))]
            for answers in (self.wanted, self.seen))
        lines = [] if self.wanted == self.seen else [
            "- wanted, + seen", *list(difflib.unified_diff(wanted, seen, lineterm=""))[2:]]
        return "\n".join(lines[:SHOWN] + ([f".. and {len(lines) - SHOWN} lines more"] if lines[SHOWN:] else []))


def with_program(place: Path) -> str:
    """A PATH on which the program and the scripts of tests/tools are."""
    (place / "ntpaudit").symlink_to(program())
    return f"{place}:{ROOT / 'tests' / 'tools'}:{os.environ['PATH']}"


def try_case(name: str, case: Case, place: Path) -> None:
    trial = Trial(with_program(place), case)
    assert not (difference := trial.difference()), difference
    is_same = transcript.renewed(name, trial.renewed) == transcript.file_of(name).read_text("utf-8")
    assert is_same, "tests/renew would write it in another form"


def cases() -> Iterator[tuple[str, Callable[[Path], None]]]:
    left_out = ON_DISK if Path(program()).name == "ntpaudit_in_memory" else {}
    for name, case in transcript.cases().items():
        if name in left_out:
            continue
        yield f"cases.transcripts.{name.replace('/', '.')}", partial(try_case, name, case)
