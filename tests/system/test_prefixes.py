"""Gives each command each prefix of data/two-packets.pcap, of its claim, its certificate and its refutation: files that
were cut. The commands are those of tests/second/commands.py, and there is no other.
"""
import re
from collections.abc import Callable
from concurrent.futures import ThreadPoolExecutor
from pathlib import Path

from tests.support import DATA, Ran, check, program, run
from tests.second.answers import Answer
from tests.second.commands import CAPTURE, CLAIM, Command, every_command, fault_alone, SECOND

BYTES = CAPTURE.read_bytes()
LINES = (DATA / "two-packets.list.txt").read_bytes().splitlines(keepends=True)
PROGRAM = program()


def listing_of(length: int) -> Ran:
    """Status, output and error for the first bytes of the capture: its header has 24, and each record 16 and 90."""
    if length < 24:
        return 2, b"", b"ntpaudit: capture 1 torn-header\n"
    records, rest = divmod(length - 24, 106)
    lines = b"".join(LINES[:records])
    if rest:
        return 2, lines, f"ntpaudit: capture 5 torn-record at {24 + 106 * records}\n".encode()
    return 0, lines + f"records {records} packets {records}\n".encode(), b""


def answer_of(length: int, answer: Callable[[int], Answer]) -> Ran:
    """The same for a command with a claim, which prints nothing of a capture that is refused."""
    status, _, error = listing_of(length)
    if status:
        return status, b"", error
    status, lines = answer((length - 24) // 106)
    return status, "".join(f"{line}\n" for line in lines).encode(), b""


def refused(name: str) -> Ran:
    return 2, b"", f"ntpaudit: {name} 1 json\n".encode()


def runs(words: list[object], whole: bytes) -> list[Ran]:
    """What a command says of each prefix of these bytes, which it gets on standard input."""
    with ThreadPoolExecutor() as pool:
        return list(pool.map(lambda length: run(words, whole[:length]), range(len(whole) + 1)))


def test_listings() -> None:
    for length, ran in enumerate(runs([PROGRAM, "list"], BYTES)):
        check(f"the first {length} bytes", run=(ran, listing_of(length)))


def try_command(command: Command) -> None:
    """A command on each prefix of the capture, of the claim, and of its second input."""
    def check_prefixes(operand: int, whole: bytes, wanted: Callable[[int], Ran | None]) -> None:
        words: list[object] = [PROGRAM, command.name, CLAIM, CAPTURE, *command.words]
        words[1 + operand] = "/dev/stdin"
        for length, ran in enumerate(runs(words, whole)):
            if answer := wanted(length):
                check(f"{command.title}: the first {length} bytes of operand {operand}",
                      run=(fault_alone(ran, command.options), answer))

    check_prefixes(2, BYTES, lambda length: answer_of(length, command.answer))
    inputs = [(1, "claim", CLAIM)] + [(3, SECOND[command.name], file)
                                      for file in command.others if isinstance(file, Path)]
    for operand, name, file in inputs:
        whole = file.read_bytes().rstrip()
        check_prefixes(operand, whole, lambda length: refused(name) if length < len(whole) else None)


def test_names() -> None:
    named = set(re.findall(r"^  (\w+)  ", run([PROGRAM, "--help"])[1].decode(), flags=re.M))
    check("the commands of the program", seen=({command.name for command in every_command()}, named - {"list", "help"}))


def test_commands() -> None:
    for command in every_command():
        try_command(command)
