"""What `--human` says on standard error, where a transcript (tests/cases/words.txt) has no room for it: each fault of a
claim is held to a second reading; names are escaped, pipes and devices aren't looked at again, and at a terminal a hint
follows a fault line; each text of the program's table is expected by a case, and docs/FORMATS.md has the faults.
"""
import json
import os
import pty
import re
import shutil
from collections.abc import Iterator
from concurrent.futures import ThreadPoolExecutor
from pathlib import Path
from typing import Any

from tests.support import ROOT, check, nobody, program, run, skip
from tests.second import claims, shown
from tests.second.commands import CAPTURE, CLAIM, TIME
from tests.system import sentences
from tests.system.fault_lines import fault_lines, is_like

PROGRAM = program()

KINDS = {"client": "an IPv4 address", "servers": "an array of 1 to 32 IPv4 addresses", "from": "a time of UTC",
         "to": "a time of UTC", "groups": "an array of arrays of server numbers",
         **{name: f"a whole number from 0 to {re.sub('^1(0{9,})$', lambda ten: f'10^{len(ten[1])}', str(most))}"
            for name, most in claims.MOST.items()}}
"""What has to stand in each field."""

GOOD: dict[str, object] = {"client": "192.0.2.10", "servers": ["192.0.2.1", "192.0.2.2"], "from": TIME, "to": TIME,
                           "groups": [[0], [1]], **dict.fromkeys(claims.MOST, 0), "bound_ns": 10**6}

ELSEWHERE = ("capture 8 too-many", "exchanges over 1000000", "memory", "certificate 4 too-many-entries piece K",
             "certificate 5 too-many-pieces", "certificate 9 too-many-entries piece P", "certificate 7 too-many-pieces")
"""Fault lines that no transcript has room for: test_refused_memory.py or a test below has them."""

NEVER = ("had a fault before", "read it again from its beginning")
"""Texts about a fault that no run ends with, since it ends with the fault before."""

Faulty = tuple[dict[str, object], str, str, str]
"""A claim, its fault line, the field that is named, and the end of what is said of it."""


def stands(value: object) -> str:
    """What stands there: JSON without whitespace, its names in order, of which 40 characters are shown."""
    text = json.dumps(value, separators=(",", ":"), sort_keys=True)
    return text if len(text) <= 40 else text[:40] + ".."


def faulty() -> Iterator[Faulty]:
    """Claims that lack a field, have another kind in it, or a value that may not stand there."""
    for code, name in enumerate(claims.Claim.__annotations__, 1):
        line = f"claim 2 field field {code}"
        if name in claims.Claim.__required_keys__:
            yield {key: value for key, value in GOOD.items() if key != name}, line, name, "is missing"
        for wrong in (None, 1.5, -1, {"a": "b" * 50}, [["x"]]):
            yield {**GOOD, name: wrong}, line, name, f"; it is {stands(wrong)}"
    for name, most in claims.MOST.items():
        yield {**GOOD, name: most + 1}, "claim 5 range", name, f"; it is {most + 1}"
    for name, line, values in (("from", "claim 4 time", ("", "2001-09-09T01:46:40", "2001-02-29T00:00:00Z")),
                               ("to", "claim 4 time", ("2001-09-09 01:46:40Z",)),
                               ("from", "claim 5 range", ("2001-09-09T01:46:41Z",)),
                               ("client", "claim 3 address", ("host", "192.0.2", "192.0.2.010", "2001:db8::1", ""))):
        for value in values:
            yield {**GOOD, name: value}, line, name, f"; it is {stands(value)}"
    yield {**GOOD, "servers": ["192.0.2.1", "host"]}, "claim 3 address", "servers", '; "host" is none'
    yield {**GOOD, "servers": [f"192.0.2.{100 + k}" for k in range(33)]}, "claim 5 range", "servers", "; it has 33"


def test_claims(folder: Path) -> None:
    """Each fault of a claim names its own field and file, what has to stand there and what does, and a remedy."""
    file = folder / "claim.json"
    for claim, line, name, end in faulty():
        file.write_text(json.dumps(claim))
        status, _, error = run([PROGRAM, "settle", file, CAPTURE, "--human"])
        first, wrong, remedy, *more = [*error.decode().splitlines(), "", "", ""]
        begin = f'  {file}: "{name}" ' + ("" if end == "is missing" else f"has to be {KINDS[name]}")
        check(f"{line} of {name}, {end}", status=(status, 2), line=(first, f"ntpaudit: {line}"),
              begin=(wrong[:len(begin)], begin), end=(wrong[-len(end):], end), more=(any(more), False),
              remedy=(remedy[:2] == "  " and len(remedy) > 2, True))
    for name, most in claims.MOST.items():
        file.write_text(json.dumps({**GOOD, name: most}))
        check(f"a claim whose {name} is {most}", error=(run([PROGRAM, "settle", file, CAPTURE])[2], b""))


# ---- other faults, and where words mustn't matter
EXPECTED: list[str] = []
"""The words that the tests below expect, without their two blanks."""


def check_told(name: str, words: list[object], wanted: tuple[int, str, str, str], *before: object, **how: Any) -> None:
    """Counts a case: the status of a call with --human, and the fault line and its words on standard error."""
    status, line, wrong, remedy = wanted
    EXPECTED.extend((wrong, remedy))
    ended, _, error = run([*before, PROGRAM, *words, "--human"], **how)
    said = [f"ntpaudit: {line}", f"  {wrong}", f"  {remedy}"]
    check(name, status=(ended, status), said=(error.decode().splitlines(), said))


def test_long_inputs(folder: Path) -> None:
    """Faults of inputs that a transcript has no room for: one more than may be of each."""
    file, second = folder / "f.pcap", folder / "c.json"
    anew = f"have it made anew: ntpaudit settle {CLAIM} {CAPTURE} > new.json"
    file.write_bytes(CAPTURE.read_bytes()[:24])
    os.truncate(file, 24 + 16 * 4_000_001)
    check_told("records without a byte, one too many", ["list", file], (
        2, "capture 8 too-many", f"{file}: has over 4000000 records",
        f"cut it: editcap -F pcap -c 4000000 {file} new.pcap (-F nsecpcap for nanoseconds)"))
    file.write_bytes(CAPTURE.read_bytes()[:130] + 1_000_001 * CAPTURE.read_bytes()[130:])
    check_told("an exchange too many", ["settle", CLAIM, file], (
        2, "exchanges over 1000000", f"{file}: has over 1000000 exchanges of the claim's client",
        "cut it by the hour, and claim each part's span by itself: "
        f"editcap -F pcap -i 3600 {file} new.pcap (-F nsecpcap for nanoseconds)"))
    check_told("more memory than there may be", ["settle", CLAIM, file], (
        3, "memory", "the system gives no more memory", "see what limits it: ulimit -v, or a container's limit"),
        "sh", "-c", 'ulimit -v 40000; exec "$0" "$@"')
    piece: dict[str, object] = {"entries": [[0, 0]], "upto": 0}
    of_many = {"entries": [[0, k] for k in range(33)], "upto": 0}
    for what, made, number, by_covers, line, wrong in (
            ("an entry", [of_many], 4, 9, "too-many-entries piece 0", "has over 32 entries in that piece"),
            ("a piece", [piece] * 100_001, 5, 7, "too-many-pieces", "has over 100000 pieces")):
        for fault, text in ((number, {"pieces": made}),
                            (by_covers, {"conflicts": [], "cases": [{"groups": [], "pieces": made}]})):
            second.write_text(json.dumps(text))
            check_told(f"{what} too many of a certificate, fault {fault}", ["check", CLAIM, CAPTURE, second],
                       (2, f"certificate {fault} {line}", f"{second}: {wrong}", anew))
    check_told("a file beyond its greatest size", ["find", CLAIM, CAPTURE, "-o", folder / "answer"], (
        4, "device output after 0", f"{folder}/answer: can't be written: the disk is full, or a limit is reached",
        "make room, and call again"), "sh", "-c", 'trap "" XFSZ; ulimit -f 0; exec "$0" "$@"')


def test_strange_names(folder: Path) -> None:
    """What stands in a name is escaped, so that nothing but two lines is written, and nothing that a terminal obeys."""
    for name in ("a\nntpaudit: memory", "\x1b[31mred", "\r\x07", "\x9b2J", "\x7f", "  b ", shown.TURNING,
                 "\u00e9\u4e2d", "\u061b\u061d\u200d\u2010\u2027\u202f\u2065\u206a"):
        check_told(f"a claim of the name {name!r}", ["settle", folder / name, CAPTURE], (
            4, "device claim", f"{folder}/{shown.escaped(name)}: can't be read: No such file or directory (os error 2)",
            "see how its path is spelt, and in which folder you are: pwd"))
    refused: list[list[object]] = [["list", CAPTURE, "\x1b]0;a\x07"], ["--\x1b[2J"], ["\x1b[31m"],
                                   ["find", CLAIM, CAPTURE, "--step", "\x1b"]]
    for words in refused:
        status, _, error = run([PROGRAM, *words])
        obeyed = re.findall(r"[^ -~\n]", error.decode())
        check(f"a command line with {words[-1]!r}", status=(status, 5), obeyed=(obeyed, []),
              shown=("\\u{1b}" in error.decode(), True))


def test_second_look(folder: Path) -> None:
    """A pipe is read once and never waited for, a device neither, and what can't be written changes no status."""
    torn, fifo = CAPTURE.read_bytes()[:200], folder / "pipe"
    wrong, piped = "ends inside the record at that byte", "; it is a pipe, and can't be looked at again"
    remedy = "record again and stop it by Ctrl-C, or keep what is before: head -c 130 FILE > new.pcap"
    line = "capture 5 torn-record at 130"
    os.mkfifo(fifo)
    listing: list[object] = ["list", fifo]
    for words in (listing, ["settle", CLAIM, fifo]):
        with ThreadPoolExecutor() as pool:
            pool.submit(fifo.write_bytes, torn)
            check_told(f"{words[0]} of a torn capture by a named pipe", words,
                       (2, line, f"{fifo}: {wrong}{piped}", remedy))
    with ThreadPoolExecutor() as pool:
        pool.submit(fifo.write_bytes, b"{}")
        check_told("a claim by a named pipe", ["settle", fifo, CAPTURE], (
            2, "claim 2 field field 1", f'{fifo}: "client" has to be an IPv4 address{piped}',
            'write an address as "192.0.2.1": no host name, no IPv6, no leading zeros'))
    for name, called in (("-", "standard input"), ("/dev/stdin", "/dev/stdin")):
        check_told(f"{name} of a pipe", ["list", name], (2, line, f"{called}: {wrong}{piped}", remedy), given=torn)
    (folder / "torn").write_bytes(torn)
    with open(folder / "torn", "rb") as given:
        check_told("- of a file", ["list", "-"], (
            2, line, f"standard input: {wrong}; 1 whole record stands before it", remedy), given=None, stdin=given)
    for where in ("/dev/full", "&-"):
        ran = run(["sh", "-c", f'"$0" "$@" --human 2> {where}' if where != "&-" else '"$0" "$@" --human 2>&-', PROGRAM,
                   "list", folder / "torn"])
        check(f"words to {where}", run=(ran[::2], (2, b"")))


def test_no_right(folder: Path) -> None:
    """A file that may not be read, and a folder that may not be entered, as another user."""
    closed, public, inside = folder / "closed.pcap", folder / "program", folder / "shut"
    shutil.copy(CAPTURE, closed)
    shutil.copy(PROGRAM, public)
    inside.mkdir()
    for path, mode in ((folder, 0o755), (public, 0o755), (closed, 0), (inside, 0)):
        path.chmod(mode)
    how = nobody("no right to read")
    for file in (closed, inside / "f.pcap") if how is not None else ():
        EXPECTED.append(f"see what it is and who may read it: ls -l {file}")
        status, _, error = run([public, "list", file, "--human"], cwd="/", **(how or {}))
        check(f"no right to read {file.name}", said=((status, error.decode().splitlines()), (4, [
            "ntpaudit: device capture", f"  {file}: can't be read: Permission denied (os error 13)",
            f"  {EXPECTED[-1]}"])))


def transcripts() -> str:
    """The transcripts, and their tables as if they were some: a line of standard error a line."""
    text = (ROOT / "tests/cases/words.txt").read_text("utf-8")
    rows = re.findall(r"^> (.*?)(?: \[\d\])? \| ", text, flags=re.M)
    return text + "".join(f"2> {row if row[:2] == '  ' else f'ntpaudit: {row}'}\n".replace("/  ", "\n2>   ")
                          for row in rows)


def test_mistakes() -> None:
    """The mistakes that have a case in tests/cases/words.txt: paths, operands, captures, claims."""
    named = re.findall(r"^# .*: mistake: (.+)$|^> (?:.* \| ){2,}([ \w'`]+)$", transcripts(), flags=re.M)
    check("the mistakes", different=(len(set(named)), len(named)), count=(len(named), lambda count: count >= 25))


def test_pages() -> None:
    """FORMATS' fault lines are those that have words."""
    lines = fault_lines()
    told_of = re.findall(r"^2> ntpaudit: (.+)\n2>   .+\n2>   .+$", transcripts(), flags=re.M)
    for told in set(told_of):
        check(f"FORMATS has {told}", rows=(sum(is_like(told, line) for line in lines), 1))
    for line in lines:
        check(f"a case has {line}", seen=(line in ELSEWHERE or any(is_like(told, line) for told in told_of), True))


def test_table() -> None:
    """Each text of the program's table is expected by a case or a test above, up to what was seen there."""
    expected = [*EXPECTED, *re.findall(r"^2>   (.+)$", transcripts(), flags=re.M)]
    for text in sentences.texts():
        pattern = sentences.pattern_of(text)
        whole = re.compile(rf"(^|: |\" ){pattern}($|[;:]| at line )" if text[0] != ";" else rf"{pattern}(;|$)")
        check(f"a case has the words {text!r}", seen=(text in NEVER or any(map(whole.search, expected)), True))


def at_a_terminal(words: list[str]) -> str:
    """What a call writes on standard error if that is a terminal."""
    above, below = pty.openpty()
    with open(below, "wb", buffering=0) as terminal:
        run([PROGRAM, *words], stderr=terminal)
        text = os.read(above, 4096).decode()
    os.close(above)
    return text.replace("\r\n", "\n")


def test_terminal(folder: Path) -> None:
    """At a terminal a fault line is followed by a hint, unless it was asked for more already, or there is no fault."""
    none = str(folder / "none")
    check("no hint elsewhere", seen=(run([PROGRAM, "list", none])[2], b"ntpaudit: device capture\n"))
    try:
        for end in pty.openpty():
            os.close(end)
    except OSError:
        skip("a terminal", "no terminal can be made here")
        return
    check("a fault at a terminal",
          seen=(at_a_terminal(["list", none]), "ntpaudit: device capture\n  (--human says more)\n"))
    check("no hint with --human", seen=("(--human" in at_a_terminal(["list", none, "-H"]), False))
