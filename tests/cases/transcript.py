"""Transcripts: what somebody types, and what is printed below it.

    $ ntpaudit list data/two-packets.pcap | tail -n 1
    records 2 packets 2

A command begins with `$ `, and its further lines with `> `. One sh runs them all, in a folder that is empty at first
but for data/, the folder of captures; what one command writes is there for the next.
"""
import os
import re
import tempfile
from collections.abc import Iterable, Iterator
from contextlib import contextmanager
from pathlib import Path

from tests.support import DATA, ROOT, Ran, run

CASES = ROOT / "tests" / "cases"

Case = list[tuple[str, list[str]]]
"""Commands, each with the lines below it."""

# What stands before a line of standard error.
ERROR = "2> "

# A program that goes wrong takes neither the machine's memory nor its disk: at most 4 GiB, and files of 512 MiB.
LIMITS = "ulimit -v 4194304; ulimit -f 1048576\n"

# Parts the commands of a transcript by a zero byte on both streams, with the status on standard output.
PARTED = r"""parted() { status=$?; printf '\0%d\0' $status; printf '\0' >&2; return $status; }
"""


def commands(lines: Iterable[str]) -> Case:
    """The commands of a transcript, each with the lines below it. A blank line counts as nothing."""
    found: Case = []
    for line in filter(None, lines):
        if line.startswith("$ "):
            found.append((line[2:], []))
        elif line.startswith("> ") and found and not found[-1][1]:
            found[-1] = (f"{found[-1][0]}\n{line[2:]}", [])
        elif found:
            found[-1][1].append(line)
    return found


def parts(shown: list[str]) -> tuple[list[str], list[str], int]:
    """What the lines below a command ask for: the lines of standard output and of standard error, and the status."""
    status = 0
    if shown and (last := re.fullmatch(r"\[(\d+)\]", shown[-1])):
        status, shown = int(last[1]), shown[:-1]
    error = [line.removeprefix(ERROR) for line in shown if line.startswith(ERROR)]
    return [line for line in shown if not line.startswith(ERROR)], error, status


def cases() -> dict[str, Case]:
    """The cases in tests/cases: the name of each, and its commands with the lines below them."""
    found: dict[str, Case] = {}
    for file in sorted(CASES.glob("*.txt")):
        for case in re.split(r"^# ", file.read_text("utf-8"), flags=re.M)[1:]:
            heading, *lines = case.split("\n")
            name = f"{file.stem}/{re.split('[: ]', heading)[0]}"
            if name in found or not commands(lines):
                raise ValueError(f"{file}: {name} is there twice or has no command")
            found[name] = commands(lines)
    return found


def file_of(name: str) -> Path:
    return CASES / f"{name.split('/')[0]}.txt"


def renewed(name: str, shown: list[list[str]]) -> str:
    """The text of a case's file with other lines below the commands of the case, and all else as it was."""
    blocks = re.split(r"^(?=# )", file_of(name).read_text("utf-8"), flags=re.M)
    place = next(at for at, block in enumerate(blocks) if re.match(f"# {re.escape(name.split('/')[1])}[: \n]", block))
    lines, out, left = blocks[place].split("\n"), list[str](), list(shown)
    while lines:
        out.append(lines.pop(0))
        if out[-1].startswith("$ "):
            while lines and lines[0].startswith("> "):
                out.append(lines.pop(0))
            while lines and lines[0] and not lines[0].startswith("$ "):
                lines.pop(0)
            out += left.pop(0)
    blocks[place] = "\n".join(out)
    return "".join(blocks)


def printed(case: str) -> bytes:
    """What the commands of a case print on standard output."""
    return "".join(f"{line}\n" for _, shown in cases()[case] for line in parts(shown)[0]).encode()


@contextmanager
def folder(**links: Path | str) -> Iterator[Path]:
    """A transcript's folder, with a link of each of these names to a file."""
    with tempfile.TemporaryDirectory(prefix="ntpaudit-") as place:
        for name, file in (("data", DATA), *links.items()):
            os.symlink(file, Path(place) / name)
        yield Path(place)


def typed(lines: list[str], place: Path, **environment: str) -> list[Ran]:
    """Status, standard output and standard error of each of these commands, typed in a folder one after another."""
    script = LIMITS + PARTED + "".join(f"{line}\nparted\n" for line in lines)
    _, out, err = run(["sh", "-c", script], cwd=place, env={**os.environ, "LC_ALL": "C", **environment})
    *answers, rest = out.split(b"\0")
    errors = err.split(b"\0")
    found: list[Ran] = [(int(status), out, err) for status, out, err in zip(answers[1::2], answers[::2], errors)
                        if status.isdigit()]
    return found + [("no end", rest, errors[-1])] * (len(lines) - len(found))
