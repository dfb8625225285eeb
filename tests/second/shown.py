"""What `--human` shows, read off the lines that the same command prints without it: a second reading, in whole numbers.
columns.py says how the fields of a table are shown, and this file all else. Nothing is shared with the program.
"""
import json
import re
import unicodedata
from collections.abc import Mapping, Sequence
from pathlib import Path

from tests.second.claims import Claim, Refutation, read_claim
from tests.second.columns import (HULL, MOMENT, PIECE, PIECES_WITH_SERVERS, PIECE_OF_SERVER, SAMPLE, TICKS, cells,
                                  milliseconds, read, table, time)


When = tuple[int, int] | str
"""Between which true times a reading was, or what its hull is."""


def millionths(ppb: str) -> str:
    return f"{int(ppb) // 1000}.{int(ppb) % 1000:03}"


def reference(digits: str) -> str:
    named = re.fullmatch(rb"([!-~]+)\0*", bytes.fromhex(digits))
    return named[1].decode() if named else ".".join(map(str, bytes.fromhex(digits)))


# ---- each command's lines
def samples(lines: list[str]) -> list[str]:
    *rows, counts = lines
    return [*table(SAMPLE, [read(SAMPLE, row) for row in rows]), counts]


def at(lines: list[str]) -> list[str]:
    """The servers and the hull, and if it was a reading with ends of the hull, between which times true time lay."""
    when = [line.split(" ")[1:] for line in lines if line.startswith("true ")]
    rows = [read(MOMENT, row) for row in lines[:len(lines) - len(when)]]
    assert [row["SERVER"] for row in rows].index("hull") == len(rows) - 1, lines
    return [*table(MOMENT, rows), *(line for ends in when for line in (TRUE_TIMES, " ".join(true_times(*ends))))]


TRUE_TIMES = f"{'earliest true time':>30} {'latest true time':>30}"
"""The headings of the columns of true time."""


def true_times(earliest: str, latest: str) -> list[str]:
    """Two Unix ticks, the first rounded down and the second up."""
    whens = [(int(earliest), int(earliest) * 10**9 // TICKS), (int(latest), -(-int(latest) * 10**9 // TICKS))]
    return [moment(at) if 0 <= tick and at < 2**32 * 10**9 else str(tick) for tick, at in whens]


def moments(lines: list[str]) -> list[str]:
    """Readings as they are written, each with the hull and between which times true time lay."""
    rows = [f"{'reading':>30} {'low error ms':>14} {'high error ms':>14} {TRUE_TIMES}"]
    for line in lines:
        _, written, _, low, *rest = line.split(" ")
        if not rest:
            rows.append(f"{written:>30} {low:>14}")
            continue
        ends = milliseconds(int(low) * 10**9 // TICKS), milliseconds(-(-int(rest[0]) * 10**9 // TICKS))
        rows.append(" ".join([f"{written:>30}", *(f"{end:>14}" for end in ends), *true_times(*rest[2:])]))
    return rows


def order(lines: list[str], whens: Sequence[When]) -> list[str]:
    """Between which true times each of two readings was, or what its hull is, and which was first."""
    rows = [f"{name:6} {when if isinstance(when, str) else ' '.join(true_times(*map(str, when)))}"
            for name, when in zip(("first", "second"), whens)]
    said = re.sub(r"(\d+) ns", lambda length: f"{milliseconds(int(length[1]))} ms", lines[0])
    return [f"{'':6} {TRUE_TIMES}", *rows, said]


def envelope(lines: list[str], servers: bool) -> list[str]:
    """A server's line has its piece's fields but the hull. The piece's own line comes after those of the servers."""
    at_end = [row for row in lines if row.startswith(("bound_ns ", "least_ns "))]
    rows = [read(PIECE_OF_SERVER if "." in row.split(" ")[1] else PIECE, row) for row in lines[:-len(at_end)]]
    of_pieces = {row["K"]: row for row in rows if "FROM" in row}
    columns = PIECES_WITH_SERVERS if servers else PIECE
    return table(columns, [{**of_pieces[row["K"]], **row} for row in rows]) + [bound(row) for row in at_end]


def bound(row: str) -> str:
    """The last lines: the least bound, and the least that a certificate carries."""
    name, amount, *rest = row.split(" ")
    shown = [amount] if amount == "none" else [milliseconds(int(amount)), "ms"]
    return " ".join([name.removesuffix("_ns"), *shown, *rest])


def pieces_of(row: str) -> int:
    return len(json.loads(row)["pieces"])


def find(lines: list[str], claim: Claim, step: str) -> list[str]:
    """A piece that fails is shown, and of what is found its size."""
    row, = lines
    if row.startswith("nothing piece "):
        return [bounded(row)]
    if row == "nothing refutation":
        return ["no refutation found"]
    if row.startswith('{"error"'):
        return ["refutation found", *refutation(json.loads(row), claim)]
    return ["certificate found", bound_of(claim), f"pieces {pieces_of(row)}", f"step {step} s"]


def bound_of(claim: Claim) -> str:
    return f"bound {milliseconds(claim['bound_ns'])} ms"


def refutation(said: Refutation, claim: Claim) -> list[str]:
    """What a refutation says: its error and time, how that stands to the bound, and who would be wrong. The error is
    rounded away from zero: in ticks it is beyond the bound, or it isn't."""
    error, bound_ns, servers = said["error"], claim["bound_ns"], claim["servers"]
    size = -(-abs(error) * 10**9 // TICKS)
    at = said["reading"] * 10**9 // TICKS
    when = moment(at) if at < 2**32 * 10**9 else str(said["reading"])
    is_beyond = abs(error) > bound_ns * TICKS // 10**9
    wrong = [f"if wrong {servers[k]}" if k < len(servers) else f"if wrong server {k} not in the claim"
             for k in said["false"]]
    return [f"error {milliseconds(-size if error < 0 else size)} ms at {when}", bound_of(claim),
            f"beyond the bound by {milliseconds(size - bound_ns)} ms" if is_beyond else "not beyond the bound",
            *(wrong or ["if wrong none"])]


def refute(lines: list[str], claim: Claim, said: Refutation) -> list[str]:
    return [*lines, *refutation(said, claim)]


def bounded(row: str) -> str:
    """A line whose hull stands at its end, in no columns."""
    words, hull = row.split(" hull ")
    return " ".join([words, "hull", *filter(None, cells(HULL, read(HULL, hull)))])


def moment(nanoseconds: int) -> str:
    """A time in Unix nanoseconds, with nine decimals, or none at a whole second."""
    second, part = divmod(nanoseconds, 10**9)
    return time(second).replace("Z", f".{part:09}Z" if part else "Z")


def settle(lines: list[str], claim: Claim, least: str, heard: set[str]) -> list[str]:
    """What is told of two packets, by which a claim is shown or there is no evidence, with the line of the least
    bound. (Its other answers tests/cases/settle.txt has.)"""
    line, = lines
    if line.startswith("no evidence "):
        return [line, *(f"no sample {server}" for server in claim["servers"] if server not in heard)]
    return ["shown", bound_of(claim), f"pieces {pieces_of(line)}", bound(least)]


def check(lines: list[str], fits: bool, about: Sequence[str]) -> list[str]:
    """Before the verdict a person is told whether any course fits, and of the inputs."""
    shown = []
    for row in lines:
        f = row.split(" ")
        if f[0] == "span":
            assert f[3::2] == ["bound_ns", "drift_ppb", "reading_ns"], row
            row = (f"span {time(f[1])} {time(f[2])} bound {milliseconds(int(f[4]))} ms "
                   f"drift {millionths(f[6])} ppm reading {milliseconds(int(f[8]))} ms")
        elif f[:2] == ["advice", "reference"]:
            row = f"advice reference {reference(f[2])}"
        shown.append(row)
    return [*shown[:-1], "a course fits" if fits else "no course fits: see settle", *about, shown[-1]]


# ---- the inputs
INPUTS = {"check": ("claim", "capture", "certificate"), "refute": ("claim", "capture", "refutation"),
          "settle": ("claim", "capture")}
"""The commands that name their inputs to a person, and these in the order of the command line."""

TURNING = "\u061c\u200e\u200f\u202a\u202b\u202c\u202d\u202e\u2066\u2067\u2068\u2069"
"""The characters that turn the direction of others (Unicode's Bidi_Control)."""


def escaped(name: str) -> str:
    """A name, with what a terminal obeys as its number."""
    return "".join(f"\\u{{{ord(c):x}}}" if unicodedata.category(c) == "Cc" or c in TURNING else c for c in name)


def about(words: Sequence[str], version: bytes, sums: Mapping[str, str] = {}) -> list[str]:
    """What is said of the inputs that these words name, with the sums that they are held to, and of the program."""
    inputs = zip(INPUTS.get(words[0], ()), words[1:])
    lines = [f"{what} {escaped(name)}: {f'SHA-256 {sums[name]}' if name in sums else 'not held to a sum'}"
             for what, name in inputs]
    return [*lines, re.sub(r"[()]", "", version.decode().rstrip())] if lines else []


ABOUT = "(the inputs, and the program)"
"""A line that stands for these in what is compared without them."""


def without_about(text: bytes) -> bytes:
    """What a command prints with `--human`, with the one line in place of these."""
    return re.sub(rb"(?m)^claim .*\ncapture .*\n((certificate|refutation) .*\n)?ntpaudit \S+ logic [0-9a-f]{16}\n",
                  f"{ABOUT}\n".encode(), text)


# ---- all of them
def of(words: Sequence[str], text: bytes, fits: bool = True, about: Sequence[str] = (ABOUT,),
       whens: Sequence[When] = ()) -> bytes:
    """What a command prints with `--human`, of its words and what it prints without. `fits` says whether any course
    fits the whole capture, `about` what is said of the inputs, and `whens` when two readings were."""
    command, lines = words[0], text.decode().splitlines()
    if command == "at" and "--times" in words:
        lines = moments(lines)
    elif command == "order" and lines:
        lines = order(lines, whens)
    elif command in ("samples", "at") and lines:
        lines = {"samples": samples, "at": at}[command](lines)
    elif command == "envelope" and lines:
        lines = envelope(lines, "--servers" in words)
    elif command == "find" and lines:
        lines = find(lines, read_claim(words[1]), words[words.index("--step") + 1] if "--step" in words else "64")
    elif command == "refute" and lines:
        lines = [*refute(lines, read_claim(words[1]), json.loads(Path(words[3]).read_text())), *about]
    elif command == "check" and lines:
        lines = check(lines, fits, about)
    return "".join(f"{row}\n" for row in lines).encode()
