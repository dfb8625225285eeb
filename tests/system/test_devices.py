"""Runs the program on devices that fail, end early, are slow or aren't there, and tries `-o`
(tests/system/test_outputs.py).
"""
import os
import re
import select
import shlex
import subprocess
from pathlib import Path
from subprocess import PIPE
from typing import IO, Any

from tests.support import DATA, Ran, SECONDS, check, program, run
from tests.second.columns import SAMPLE, written
from tests.second.commands import CAPTURE, CLAIM, Command, every_command, fault_alone

PROGRAM = program()
BYTES = CAPTURE.read_bytes()
LISTING = (DATA / "two-packets.list.txt").read_bytes()
NO_CAPTURE = b"ntpaudit: device capture\n"
OUTPUT_AFTER_0 = b"ntpaudit: device output after 0\n"


def shell(line: str, *words: object, **how: Any) -> Ran:
    """Runs a line of sh, in which $0 is the program and $1 the capture."""
    return run(["sh", "-c", line, PROGRAM, *(words or [CAPTURE])], **how)


def test_closed_streams() -> None:
    check("standard input closed, and not needed", run=(shell('"$0" list "$1" <&-'), (0, LISTING, b"")))
    check("standard input closed", run=(shell('"$0" list <&-'), (4, b"", NO_CAPTURE)))
    check("standard output closed", run=(shell('"$0" list "$1" >&-'), (4, b"", OUTPUT_AFTER_0)))
    check("standard output closed, and nothing to print",
          run=(shell('"$0" list < /dev/null >&-'), (2, b"", b"ntpaudit: capture 1 torn-header\n")))
    check("standard error closed, and not needed", run=(shell('"$0" list "$1" 2>&-'), (0, LISTING, b"")))
    check("standard error closed", run=(shell('"$0" list "$1.missing" 2>&-'), (4, b"", b"")))
    check("standard error closed at a refused command line", run=(shell('"$0" lists 2>&-'), (5, b"", b"")))
    check("a device whose reads fail", run=(shell('"$0" list /proc/self/mem'), (4, b"", NO_CAPTURE)))
    check("all streams closed", run=(shell('"$0" list "$1" <&- >&- 2>&-'), (4, b"", b"")))


def try_command(command: Command) -> None:
    """A command with a claim writes nothing before all inputs are read, and then its whole text."""
    name, answer = command.title, (*command.whole, b"")
    nothing, no_output, torn = (4, b"", b""), (4, b"", OUTPUT_AFTER_0), (2, b"", b"ntpaudit: capture 1 torn-header\n")

    def called(streams: str, claim: Path | str = CLAIM, capture: Path | str = CAPTURE) -> Ran:
        ran = shell(f'"$0" "$@" {streams}', command.name, claim, capture, *command.words)
        return fault_alone(ran, command.options)
    check(f"{name} with its input closed", run=(called("<&-"), answer))
    check(f"{name} with its output closed", run=(called(">&-"), no_output))
    check(f"{name} with its error output closed", run=(called("2>&-"), answer))
    check(f"{name} with all streams closed", run=(called("<&- >&- 2>&-"), nothing))
    check(f"{name} to a full device", run=(called("> /dev/full"), no_output))
    check(f"{name} with both outputs full", run=(called("> /dev/full 2> /dev/full"), nothing))
    check(f"{name} with nothing to print to a full device", run=(called("> /dev/full", capture="/dev/null"), torn))
    for what, ran in (("claim", called("", claim="/proc/self/mem")), ("capture", called("", capture="/proc/self/mem"))):
        check(f"{name} of a {what} whose reads fail", run=(ran, (4, b"", f"ntpaudit: device {what}\n".encode())))
    check(f"{name} --help to a full device", run=(shell('"$0" "$1" --help > /dev/full', command.name), no_output))
    file = shlex.quote(str(CAPTURE))
    slow = f'for at in 0 50 100 150 200; do tail -c +$((at + 1)) {file} | head -c 50; sleep 0.02; done | "$0" "$@"'
    ran = shell(slow, command.name, CLAIM, "/dev/stdin", *command.words)
    check(f"{name} of a capture that comes slowly", run=(fault_alone(ran, command.options), answer))


def test_full_devices(folder: Path) -> None:
    for name, given in (("two packets", BYTES), ("a header alone", BYTES[:24])):
        check(f"{name} to a full device", run=(shell('"$0" list > /dev/full', given=given), (4, b"", OUTPUT_AFTER_0)))
    check("both outputs full", run=(shell('"$0" list "$1" > /dev/full 2> /dev/full'), (4, b"", b"")))
    for words in ("--help", "help", "--version", "list --help"):
        check(f"{words} to a full device", run=(shell(f'"$0" {words} > /dev/full'), (4, b"", OUTPUT_AFTER_0)))
        check(f"{words} to a closed output", run=(shell(f'"$0" {words} >&-'), (4, b"", OUTPUT_AFTER_0)))
    check("a fault line to a full device", run=(shell('"$0" list "$1.missing" 2> /dev/full'), (4, b"", b"")))
    check("a refusal to a full device", run=(shell('"$0" lists 2> /dev/full'), (5, b"", b"")))
    # (the shell counts a file's size in blocks of 512 or of 1024 bytes)
    listing = folder / "listing"
    status, _, _ = shell('ulimit -f 8; "$0" list "$1" > "$2"; exit $?', DATA / "clients-us.pcap", listing)
    whole = (DATA / "clients-us.list.txt").read_bytes()
    check("an output over the limit of a file's size", status=(status, 153),
          kept=(listing.read_bytes(), lambda seen: len(seen) <= 8192 and whole.startswith(seen)))


def test_endless_inputs(folder: Path) -> None:
    """Inputs that never end: one byte past its limit ends the run, and a capture's header after one buffer."""
    zero = Path("/dev/zero")
    for name, words in (("claim", ["samples", zero, CAPTURE]), ("certificate", ["check", CLAIM, CAPTURE, zero]),
                        ("refutation", ["refute", CLAIM, CAPTURE, zero])):
        check(f"an endless {name}", run=(run([PROGRAM, *words]), (2, b"", f"ntpaudit: too-big {name}\n".encode())))
    refused = (2, b"", b"ntpaudit: capture 2 magic\n")
    for words in (["list", zero], ["samples", CLAIM, zero]):
        check(f"{words[0]} of an endless capture", run=(run([PROGRAM, *words]), refused))
    long = folder / "zeros"
    with open(long, "w+b") as zeros:
        zeros.truncate(1 << 30)
        ran = subprocess.run([PROGRAM, "list"], stdin=zeros, capture_output=True, timeout=SECONDS)
        check("what is read of a capture whose header is refused",
              run=((ran.returncode, ran.stdout, ran.stderr), refused),
              taken=(os.lseek(zeros.fileno(), 0, os.SEEK_CUR), 1 << 19))


def check_left(name: str, words: list[object], wanted: list[bytes], given: IO[bytes] | None = None) -> None:
    """The output of a run begins with this, and its reader goes away then: the run says how much it has written."""
    with subprocess.Popen([PROGRAM, *map(str, words)], stdin=given, stdout=PIPE, stderr=PIPE) as ran:
        assert ran.stdout and ran.stderr
        seen = [ran.stdout.read(len(part)) for part in wanted]
        ran.stdout.close()
        if given:
            given.close()
        said = ran.stderr.read()
    told = re.fullmatch(rb"ntpaudit: device output after (\d+)\n", said)
    check(f"head of {name}", begin=(seen, wanted), status=(ran.returncode, 4), error=(said, lambda _: told),
          count=(int(told[1]) if told else 0, lambda count: count >= sum(map(len, wanted))))


def test_early_end(folder: Path) -> None:
    """A reader that goes away: of a listing, where the capture is a file and where it comes by a pipe; of samples; and
    of a certificate, of which 100,000 pieces are some 4 MB in one line."""
    long, claim = folder / "long.pcap", folder / "claim.json"
    long.write_bytes(BYTES[:24] + 50_000 * BYTES[24:])
    lines = LISTING.splitlines(keepends=True)
    wanted = [lines[0], lines[1], lines[0].replace(b"0 ", b"2 ", 1)]
    check_left("the listing of a file", ["list", long], wanted)
    with open(long, "rb") as opened, subprocess.Popen(["cat"], stdin=opened, stdout=PIPE) as feeds:
        check_left("the listing of a pipe", ["list"], wanted, feeds.stdout)
    long.write_bytes(BYTES[:130] + 50_000 * BYTES[130:])
    ends = -4295, 1, 85895050, 85903641, -42949674, 42953969
    wanted = [f"{written(SAMPLE, k, '192.0.2.1', 0, k + 1, *ends)}\n".encode() for k in range(3)]
    check_left("samples", ["samples", CLAIM, long], wanted)
    claim.write_text(CLAIM.read_text().replace('"to":"2001-09-09T01:46:40Z"', '"to":"2001-09-10T05:33:20Z"'))
    begin = b'{"pieces":[{"entries":[[0,0]],"upto":4294967300294967296},{"entries"'
    check_left("a certificate", ["find", claim, CAPTURE, "--step", "1"], [begin])


def test_live() -> None:
    """A capture that is still being made is listed as far as it has come, before the program waits for more."""
    lines = LISTING.splitlines(keepends=True)
    ran = subprocess.Popen([PROGRAM, "list"], stdin=PIPE, stdout=PIPE, stderr=PIPE, bufsize=0)
    seen = []
    assert ran.stdin and ran.stdout
    for begin, end, line in ((0, 130, lines[0]), (130, 236, lines[1])):
        os.write(ran.stdin.fileno(), BYTES[begin:end])
        is_there = bool(select.select([ran.stdout], [], [], SECONDS)[0])
        seen.append(ran.stdout.read(len(line)) if is_there else b"")
    check("lines of a capture that goes on", seen=(seen, lines[:2]))
    out, err = ran.communicate(timeout=SECONDS)
    check("the end of a capture that went on", run=((out, err, ran.returncode), (lines[2], b"", 0)))


def test_commands() -> None:
    for command in every_command():
        try_command(command)
