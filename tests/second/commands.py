"""The commands with a claim, each with the options that its help names and what it answers to the two packets of data/:
a request and its reply. tests/system/test_prefixes.py, tests/system/test_devices.py,
tests/system/test_refused_memory.py and tests/system/test_human.py try each of them, and tests/system/test_hostile.py
looks that it does. A command of tests/second/answers.py needs nothing here.
"""
import functools
import re
from collections.abc import Callable, Iterator, Sequence
from functools import partial
from pathlib import Path
from typing import NamedTuple

from tests.support import DATA, Ran, program, run
from tests.second import shown
from tests.second.answers import Answer, Evidence, order, READINGS, when
from tests.second.claims import read_claim
from tests.second.exchanges import evidence_of

PROGRAM = program()
CLAIM, CAPTURE = DATA / "two-packets.claim.json", DATA / "two-packets.pcap"
CERTIFICATE, REFUTATION = DATA / "two-packets.certificate.json", DATA / "two-packets.refutation.json"
PACKETS = (DATA / "two-packets.list.txt").read_bytes().splitlines(keepends=True)[:2]
TIME = "2001-09-09T01:46:40Z"
SECOND = {"check": "certificate", "refute": "refutation"}
"""What the second input of a command is, if it takes one."""
OPERANDS: dict[str, Path | str] = {
    "CERTIFICATE": CERTIFICATE, "REFUTATION": REFUTATION, "TIME": TIME, "OTHER_TIME": TIME,
    "OTHER_CLAIM": f"{DATA}//{CLAIM.name}", "OTHER_CAPTURE": f"{DATA}//{CAPTURE.name}"}
"""What stands for an operand behind claim and capture: another clock is one of other words."""
INSTEAD = {"at": ("--times", str(DATA / "two-packets.times.txt"))}
"""What may stand in place of a command's operands."""


class Command(NamedTuple):
    """A command: its name, what it answers to so many records, what stands behind claim and capture, its options."""
    name: str
    answer: Callable[[int], Answer]
    others: tuple[Path | str, ...] = ()
    options: tuple[str, ...] = ()

    @property
    def title(self) -> str:
        return " ".join((self.name, *self.options))

    @property
    def words(self) -> list[Path | str]:
        """What stands behind the capture."""
        return [*self.others, *self.options]

    @property
    def whole(self) -> tuple[int, bytes]:
        """What it answers to the whole capture."""
        status, lines = self.answer(2)
        return status, "".join(f"{line}\n" for line in lines).encode()


def fault_alone(ran: Ran, options: Sequence[str], may_lack_words: bool = False) -> Ran:
    """The same run without the words of `--human` on standard error, which begin with two blanks: two lines behind a
    fault line, and nothing else; with an answer lines about numbers that look like a slip of the pen. One line stands
    for those about the inputs. Without the option there is nothing to leave out."""
    if "--human" not in options:
        return ran
    status, output, error = ran = (ran[0], shown.without_about(ran[1]), ran[2])
    if not error:
        return ran
    line, *words = error.splitlines(keepends=True)
    are_words = [bool(re.fullmatch(rb"  \S.*\n", word)) for word in words]
    if status in (0, 1):
        return (status, output, b"") if all(are_words) and line.startswith(b"  ") else ran
    if line.startswith(b"ntpaudit: ") and (are_words == [True, True] or may_lack_words and not words):
        return status, output, line
    return status, output, b"not the words of a fault: " + error


# ---- what is answered to the first records
def evidence(records: int) -> Evidence:
    """What they say about the claim."""
    closing = f"records {records} packets {records}\n".encode()
    return evidence_of(read_claim(CLAIM), b"".join(PACKETS[:records]) + closing)


def report(records: int) -> Answer:
    """The report of `check`. Its certificate names sample 0."""
    is_whole = records == 2
    lines = [
        "client 192.0.2.10 servers 1 false_max 0",
        "span 1000000000 1000000000 bound_ns 10001001 drift_ppb 0 reading_ns 0",
        evidence(records).counts,
        f"advice sources {int(is_whole)}",
        *(["advice reference 47505300"] if is_whole else []),
        "pieces 1",
        "verdict yes" if is_whole else "verdict no piece 0 bad-sample",
    ]
    return (0 if is_whole else 1), lines


def refuted(records: int) -> Answer:
    """Without an exchange any error will do."""
    return (1, ["refuted no"]) if records == 2 else (0, ["refuted yes"])


def answered(name: str, words: Sequence[Path | str], records: int) -> Answer:
    """What a command answers. A refutation that `settle` would find all the same isn't shown."""
    if name in SECOND:
        return {"check": report, "refute": refuted}[name](records)
    if name == "order":
        return order(evidence(records), evidence(2), TIME, TIME)
    return READINGS[name](evidence(records), *words)


def told(name: str, words: Sequence[Path | str], records: int) -> Answer:
    """The same for a person, as tests/second/shown.py reads the lines."""
    status, lines = answered(name, words, records)
    if name == "order":
        return status, shown.order(lines, [when(evidence(count), TIME) for count in (records, 2)])
    if name != "settle":
        text = shown.of([name, *map(str, (CLAIM, CAPTURE, *words))], "\n".join(lines).encode())
        return status, text.decode().splitlines()
    said = evidence(records)
    heard = {said.claim["servers"][sample.server] for sample in said.samples}
    least, *_ = READINGS["envelope"](said, "--least")[1][-1].split(" piece")
    return status, [*shown.settle(lines, said.claim, least, heard), shown.ABOUT]


# ---- the commands
def help_of(name: str) -> str:
    return run([PROGRAM, name, "--help"])[1].decode()


def flags_of(name: str) -> list[tuple[str, str]]:
    """The options without a value that a command's help names: of each its letter, if it has one, and its word."""
    section = help_of(name).split("Options:\n")[1].split("\n\n")[0]
    found = re.findall(r"^  (?:(-\w), |    )(--[a-z]+)(?=  )", section, flags=re.M)
    return [(letter, word) for letter, word in found if word != "--help"]


def commands_of(name: str) -> Iterator[Command]:
    """A command without an option and with each that it has, and each of these for a person too."""
    _, _, *operands = re.findall(r"[<[](?!OPTIONS)(\w+)[]>]", help_of(name).split("Usage: ")[1].split("\n")[0])
    others = tuple(OPERANDS[word] for word in operands)
    if instead := INSTEAD.get(name):
        yield Command(name, partial(answered, name, instead), (), instead)
        yield Command(name, partial(told, name, instead), (), (*instead, "--human"))
    for options in ((), *((word,) for _, word in flags_of(name) if word != "--human")):
        words = *others, *options
        yield Command(name, partial(answered, name, words), others, options)
        yield Command(name, partial(told, name, words), others, (*options, "--human"))


@functools.cache
def every_command() -> tuple[Command, ...]:
    return tuple(command for name in (*SECOND, *READINGS, "order") for command in commands_of(name))


def plain_commands() -> list[Command]:
    return [command for command in every_command() if "--human" not in command.options]


def variants(name: str) -> list[tuple[str, ...]]:
    """A command's options as they are tried: each of those above, and all together that don't stand for operands."""
    found = [command.options for command in plain_commands() if command.name == name]
    together = tuple(word for options in found if options != INSTEAD.get(name) for word in options)
    return list(dict.fromkeys([*found, together]))
