"""Compares what `--human` shows with a second reading (tests/second/shown.py), made of what the same command prints
without it, byte for byte: for data/, and inputs with names that a terminal would obey. What `settle` tells stands in
tests/cases/settle.txt, and what is said of slips of the pen in tests/cases/words.txt. (How ranges, times and errors are
rounded is proved.)
"""
import hashlib
import json
import re
from collections.abc import Sequence
from concurrent.futures import ThreadPoolExecutor
from datetime import datetime, timedelta, timezone
from pathlib import Path

from tests.support import DATA, Ran, check, files_in, program, run
from tests.second import answers, exchanges, marks, shown, sum_form
from tests.second.claims import Claim, read_claim
from tests.second.commands import CAPTURE, CERTIFICATE, CLAIM, REFUTATION, every_command, plain_commands, variants

PROGRAM = program()
VERSION = run([PROGRAM, "--version"])[1]
OTHER: list[Path | str] = [DATA / "two-packets.claim.json", DATA / "two-packets.pcap"]
EPOCH = datetime(1970, 1, 1, tzinfo=timezone.utc)
Words = Sequence[Path | str]
"""A command line."""


def compare(name: str, words: Words) -> tuple[str, Ran, Ran]:
    """Runs a command with the option and without, and gives what it printed, and what it is to be compared with."""
    status, plain, error = run([PROGRAM, *words])
    seen = run([PROGRAM, *words, "--human"])
    called = [str(word) for word in words]
    fits = words[0] != "check" or not plain or does_fit(*words[1:3])
    whens = [when_of(called[k:k + 3]) for k in (1, 4)] if words[0] == "order" and plain else []
    text = shown.of(called, plain, fits, shown.about(called, VERSION), whens)
    are_slips = status in (0, 1) and re.fullmatch(rb"(  \S.*\n)*", seen[2])
    return name, seen, (status, text, seen[2] if are_slips else error)


def when_of(words: Sequence[str]) -> answers.When:
    """When it was that a clock showed a reading: its claim, its capture and the reading."""
    claim, capture, reading = words
    said = read_claim(claim)
    evidence = exchanges.evidence_of(said, run([PROGRAM, "list", capture])[1])
    return answers.when(evidence, reading)


def does_fit(claim: Path | str, capture: Path | str) -> bool:
    """Whether any course fits what the listing of a capture says, by tests/second/marks.py."""
    said = read_claim(str(claim))
    samples = exchanges.evidence_of(said, run([PROGRAM, "list", capture])[1]).samples
    return bool(marks.smallest_covers(said, marks.contradictions(said, samples)))


# ---- the captures of data/
def moments_of(claim: Claim) -> list[str]:
    """The first and the last moment of a claim, one between them, and two far away; and two readings of the first."""
    begin, end = (datetime.fromisoformat(time.replace("Z", "+00:00")) for time in (claim["from"], claim["to"]))
    moments = (begin, begin + (end - begin) // 2, end, EPOCH, EPOCH + timedelta(seconds=2**32 - 1))
    readings = begin.strftime("%Y-%m-%dT%H:%M:%S.5Z"), f"{begin.timestamp():.0f}"
    return [*(moment.strftime("%Y-%m-%dT%H:%M:%SZ") for moment in moments), *readings]


def calls_on(claim: Path, folder: Path) -> list[tuple[str, Words]]:
    """Calls of each command with a claim and its capture, and with certificates and refutations that fit or don't."""
    name = claim.name.removesuffix(".claim.json")
    both: list[Path | str] = [claim, DATA / f"{name.split('.')[0]}.pcap"]
    alone = dict.fromkeys(command.name for command in plain_commands()
                          if not command.others and command.name != "settle")
    given: list[Words] = [[name, *both, *options] for name in alone for options in variants(name)]
    moments = moments_of(json.loads(claim.read_text()))
    given += [["at", *both, moment] for moment in moments]
    readings = list(filter(answers.reading_of, moments))
    given += [["at", *both, reading, "--covers"] for reading in readings]
    given += [["order", *both, first, *inputs, other] for first, other in zip(readings, readings[1:])
              for inputs in (both, OTHER)]
    for step in ("1", "8"):
        given += [["find", *both, "--step", step]]
        given += [["envelope", *both, "--step", step, *options] for options in variants("envelope")]
    given += [["check", *both, file] for file in files_in(DATA, "*.certificate.json")]
    given += [["refute", *both, file, *options] for file in files_in(DATA, "*.refutation.json")
              for options in variants("refute")]
    zero = folder / claim.name
    zero.write_text(json.dumps({**json.loads(claim.read_text()), "bound_ns": 0}))
    given += [["find", zero, both[1]], ["find", zero, both[1], "--refutation"]]
    return [(f"{name}: {' '.join(str(word) if not isinstance(word, Path) else word.name for word in words)}", words)
            for words in given]


def test_captures(folder: Path) -> None:
    claims = files_in(DATA, "*.claim.json")
    calls = [call for claim in claims for call in calls_on(claim, folder)]
    with ThreadPoolExecutor() as pool:
        for name, seen, wanted in pool.map(lambda call: compare(*call), calls):
            check(name, run=(seen, wanted))
    names = {words[0] for _, words in calls}
    check("each command on the captures of data/",
          seen=(names, {command.name for command in every_command()} - {"settle"}))


def test_inputs(folder: Path) -> None:
    """Each input is named as it is typed, with the sum that it is held to."""
    names = "./claim, 5 ms.json", "\\ \u202ef\x1b[1m\n\x7f.pcap", "é\u0085\u2069.json"
    for command, second in (("check", CERTIFICATE), ("refute", REFUTATION), ("settle", None)):
        files = dict(zip(names, filter(None, (CLAIM, CAPTURE, second))))
        for name, file in files.items():
            (folder / name).write_bytes(file.read_bytes())
        sums = {name: hashlib.sha256(file.read_bytes()).hexdigest() for name, file in files.items()}
        text = b"".join(sum_form.line_of(name.encode(), sum_.upper().encode()) for name, sum_ in sums.items())
        words = [command, *files]
        for held in (dict[str, str](), sums):
            how = ["--sums", "/dev/stdin"] if held else []
            status, told, _ = run([PROGRAM, *words, "--human", *how], text, cwd=folder)
            about = "".join(f"{line}\n" for line in shown.about(words, VERSION, held))
            check(f"{command} {' '.join(how)}", status=(status, lambda status: status in (0, 1)), lines=(
                told.decode().removesuffix("verdict yes\n"), lambda told: told.endswith(f"\n{about}")))
