"""`--sums`: that what was summed is what is judged, of inputs that come by pipes, that grow, and that change under the
program; and what a file of sums may say, held to the plain reading of tests/second/sum_form.py, which refusal comes
first, and the limit of size. (That the words of a file of sums are read so is proved of the program by a definition,
which nothing but this reading and sha256sum hold to what sha256sum writes.)
"""
import fcntl
import hashlib
import itertools
import os
import random
import re
import shutil
import threading
import time
from collections.abc import Callable, Iterator
from concurrent.futures import ThreadPoolExecutor
from pathlib import Path
from typing import IO, Any, NamedTuple

from tests.support import DATA, SECONDS, Ran, check, program, run
from tests.second import sum_form
from tests.second.commands import SECOND

PROGRAM = program()
MOST = 65_536
"""The bytes of the greatest file of sums, and of the greatest claim."""
NOTHING = hashlib.sha256().hexdigest().encode()
RANDOM = random.Random(6)

Block = bytes | Callable[[IO[bytes]], object]
"""What is put into a pipe, or what is done with it."""


def fault(line: str, status: int = 2) -> Ran:
    return status, b"", f"ntpaudit: {line}\n".encode()


def digest(data: bytes) -> bytes:
    return hashlib.sha256(data).hexdigest().encode()


class Call(NamedTuple):
    """A call in a folder: its command, and the texts of its operands."""

    folder: Path
    command: str
    claim: str
    capture: str
    second: str = ""

    @property
    def words(self) -> list[str]:
        return [PROGRAM, self.command, self.claim, self.capture, *filter(None, [self.second])]

    @property
    def inputs(self) -> dict[str, str]:
        """The operands in the order in which they are read, each with what it is."""
        given = {"claim": self.claim, SECOND.get(self.command, ""): self.second, "capture": self.capture}
        return {kind: file for kind, file in given.items() if kind}

    def plain(self) -> Ran:
        """What it says without the option."""
        return run(self.words, cwd=self.folder)

    def by(self, sums: bytes, **how: Any) -> Ran:
        """What it says with a file of sums, which comes by standard input."""
        return run([*self.words, "--sums", "/dev/stdin"], sums, cwd=self.folder, **how)

    def says(self, name: str, sums: bytes, wanted: Ran | str) -> None:
        """A case: what it says with a file of sums, or the fault line."""
        check(name, run=(self.by(sums), fault(wanted) if isinstance(wanted, str) else wanted))

    def sums(self) -> bytes:
        """What sha256sum writes of the operands."""
        status, sums, _ = run(["sha256sum", "--", *self.inputs.values()], cwd=self.folder)
        assert status == 0, "sha256sum"
        return sums

    def data(self, kind: str) -> bytes:
        return (self.folder / self.inputs[kind]).read_bytes()


def inputs_in(folder: Path, name: str = "clients-us", second: str = "clients-us.8.certificate.json",
              command: str = "check") -> Call:
    """A call on copies of a claim of data/, its capture, and a certificate or a refutation, if it takes one."""
    folder.mkdir(exist_ok=True)
    shutil.copy(DATA / f"{name}.pcap", folder / "f.pcap")
    shutil.copy(DATA / f"{name}.claim.json", folder / "claim.json")
    if command not in SECOND:
        return Call(folder, command, "claim.json", "f.pcap")
    shutil.copy(DATA / second, folder / "second.json")
    return Call(folder, command, "claim.json", "f.pcap", "second.json")


# ---- pipes, and files that change
def fed(path: Path, *blocks: Block) -> threading.Thread:
    """A thread that opens a FIFO for writing and puts these blocks into it, a moment apart."""
    def feed() -> None:
        try:
            with open(path, "wb", buffering=0) as pipe:
                for block in blocks:
                    pipe.write(block) if isinstance(block, bytes) else block(pipe)
        except BrokenPipeError:
            pass  # (a program that ends early shows in its answer)
    thread = threading.Thread(target=feed, daemon=True)
    thread.start()
    return thread


PLACE = "place"
"""The folder in a call's own in which it is tried with FIFOs."""


def by_fifo(call: Call, kinds: list[str], sums: bytes, feeds: dict[str, list[Block]] | None = None) -> Ran:
    """A call on copies of its inputs, those of these kinds as FIFOs, and its sums too if that is one of them."""
    feeds, place, names = feeds or {}, call.folder / PLACE, {**call.inputs, "sums": "SUMS"}
    data, threads = {**{kind: call.data(kind) for kind in call.inputs}, "sums": sums}, []
    shutil.rmtree(place, ignore_errors=True)
    place.mkdir()
    for kind, name in names.items():
        if kind in kinds:
            os.mkfifo(place / name)
            threads.append(fed(place / name, *feeds.get(kind, [data[kind]])))
        else:
            (place / name).write_bytes(data[kind])
    found = run([*call.words, "--sums", "SUMS"], cwd=place)
    for thread in threads:
        thread.join(SECONDS)
    return found


def pause(_: IO[bytes]) -> None:
    time.sleep(0.05)


def slowly(data: bytes) -> list[Block]:
    """Blocks of a few bytes, and one that gets through in two goes."""
    return [data[:1], data[1:7], pause, data[7 : len(data) // 2], data[len(data) // 2 :]]


def test_pipes(folder: Path) -> None:
    """Each input by a FIFO, alone and together, whole and in pieces: what is summed is what is judged."""
    for name, second, command in (("clients-us", "clients-us.8.certificate.json", "check"),
                                  ("era1-ns", "era1-ns.refutation.json", "refute"), ("clients-us", "", "settle")):
        call = inputs_in(folder / command, name, second, command)
        sums, plain = call.sums(), call.plain()
        kinds = [*call.inputs, "sums"]
        for some in [[kind] for kind in kinds] + [list(call.inputs), kinds]:
            check(f"{command} with FIFOs for {' '.join(some)}", run=(by_fifo(call, some, sums), plain))
            feeds = {kind: slowly(sums if kind == "sums" else call.data(kind)) for kind in some}
            check(f"{command} with slow FIFOs for {' '.join(some)}", run=(by_fifo(call, some, sums, feeds), plain))
        for kind in call.inputs:
            whole = call.data(kind)
            check(f"{command} with a {kind} that grows behind its sum",
                  run=(by_fifo(call, [kind], sums, {kind: [whole, pause, b" "]}), fault(f"sums differ {kind}")))
            check(f"{command} with a {kind} that comes to the length of its sum",
                  run=(by_fifo(call, [kind], sums, {kind: [whole[:-1], pause, whole[-1:]]}), plain))
            check(f"{command} with a {kind} that ends early",
                  run=(by_fifo(call, [kind], sums, {kind: [whole[:-1]]}), fault(f"sums differ {kind}")))
        check(f"{command} with sums that grow", run=(by_fifo(call, ["sums"], sums, {"sums": [sums, pause, b"\n"]}),
                                                     fault(f"sums form line {len(kinds)}")))
        line = 'exec "$0" "$@" --sums <(sha256sum "${@:2}")'
        check(f"{command} with a process in place of a file",
              run=(run(["bash", "-c", line, *call.words], cwd=call.folder), plain))


def held_up(pipe: IO[bytes], data: bytes, then: Callable[[], None]) -> None:
    """Writes so much into a FIFO that the program has to be reading it by the end, and then does something."""
    fcntl.fcntl(pipe, fcntl.F_SETPIPE_SZ, 4096)
    pipe.write(data[:12_288])
    then()
    pipe.write(data[12_288:])


def over(data: bytes) -> Callable[[Path], None]:
    """Writes in place, so that an open file shows it."""
    def write(path: Path) -> None:
        with open(path, "r+b") as opened:
            opened.write(data)
            opened.truncate()
    return write


def put(data: bytes) -> Callable[[Path], None]:
    """Puts another file in its place: an open one stays as it was."""
    def replace(path: Path) -> None:
        (other := path.with_suffix(".new")).write_bytes(data)
        os.replace(other, path)
    return replace


def remove(path: Path) -> None:
    path.unlink()


def changed_under(call: Call, fifo: str, kind: str, how: Callable[[Path], None], sums: bytes) -> Ran:
    """What is said if an input changes while the program reads the FIFO that another is."""
    changed = call.folder / PLACE / {**call.inputs, "sums": "SUMS"}[kind]
    feeds: dict[str, list[Block]] = {fifo: [lambda pipe: held_up(pipe, call.data(fifo), lambda: how(changed))]}
    return by_fifo(call, [fifo], sums, feeds)


def test_changing(folder: Path) -> None:
    """Files that change while the program reads a FIFO: what was read before is judged as it was, and else as it is."""
    call = inputs_in(folder, "chrony-ns", "chrony-ns.1.certificate.json")
    claim = call.data("claim")
    tight, empty = claim.replace(b'"bound_ns":5000000', b'"bound_ns":5000'), b'{"pieces":[]}'
    check("a claim that is tighter", seen=(tight != claim, True))
    (folder / "claim.json").write_bytes(claim.ljust(16_384))
    sums, plain = call.sums(), call.plain()
    for kind, data in (("claim", tight), ("certificate", empty), ("sums", b"")):
        for name, how in (("written over", over(data)), ("put there anew", put(data)), ("removed", remove)):
            check(f"the {kind} is {name} after it was read",
                  run=(changed_under(call, "capture", kind, how, sums), plain))
    capture = call.data("capture")
    for kind, data in (("certificate", empty), ("capture", DATA.joinpath("clients-us.pcap").read_bytes()),
                       ("capture", capture[:-1] + bytes([capture[-1] ^ 1])), ("capture", capture + b"\0")):
        check(f"the {kind} is written over before it is read, {len(data)} bytes",
              run=(changed_under(call, "claim", kind, over(data), sums), fault(f"sums differ {kind}")))
        check(f"the {kind} is put there anew after it was opened, {len(data)} bytes",
              run=(changed_under(call, "claim", kind, put(data), sums), plain))
        (own := folder / "own").mkdir(exist_ok=True)
        for which, file in call.inputs.items():
            (own / file).write_bytes(data if which == kind else call.data(which))
        other = call._replace(folder=own)
        check(f"the {kind} becomes what its sum says before it is read, {len(data)} bytes",
              run=(changed_under(call, "claim", kind, over(data), other.sums()), other.plain()))


# ---- what a file of sums says
def wanted(call: Call, plain: Ran, text: bytes) -> Ran:
    """What is said by these sums, by the plain reading; without any it says `plain`."""
    said, number = sum_form.read(text)
    if number:
        return fault(f"sums form line {number}")
    names = {kind: name.encode() for kind, name in call.inputs.items()}
    missing = next((kind for kind, name in names.items() if name not in said), None)
    differs = next((kind for kind, name in names.items() if said.get(name) != digest(call.data(kind))), None)
    return fault(f"sums missing {missing}") if missing else fault(f"sums differ {differs}") if differs else plain


FORMS: dict[str, Callable[[bytes], bytes]] = {
    "none": lambda sums: b"", "no last line feed": lambda sums: sums[:-1],
    "carriage returns": lambda sums: sums.replace(b"\n", b"\r\n"),
    "a carriage return": lambda sums: sums.replace(b"\n", b"\r\n", 1),
    "binary": lambda sums: sums.replace(b"  ", b" *"),
    "either case": lambda sums: re.sub(rb"(?m)^.{32}", lambda found: found[0].upper(), sums),
    "lines twice": lambda sums: sums + sums.replace(b"  ", b" *"),
    "another sum behind": lambda sums: sums + digest(b"other") + sums[64:],
    "escaped without need": lambda sums: b"".join(b"\\" + line for line in sums.splitlines(keepends=True)),
    "a name of 60,000 bytes": lambda sums: sums + sum_form.line_of(b"x" * 60_000, NOTHING),
    "other names": lambda sums: b"".join(map(sum_form.line_of, (b"no\xffutf", b"a\0b", b"\r"), 3 * [NOTHING])) + sums}
"""Files of sums, made of what sha256sum writes."""

BROKEN = (b"", b"\r", b"# sums of today", b"SHA256 (claim.json) = @", b"@0  x", b" @  x", b"@ x", b"@  ", b"@ *",
          b"@  \r", b"@", b"@\t x", b"@ +x", b"@ \tx", b"@**x", b"@@  x", b"d41d8cd98f00b204e9800998ecf8427e  x",
          b"@\f x", b"@ ", b"\xef\xbb\xbf@  x", rb"\\@  x", rb"\@  ", rb"\@  a\tb", rb"\@  \x", rb"\@  a\0b",
          b"\\@  x\\", b"\\@  x\\\\\\", rb'\@  x\"', b"\\@  x\\\r", rb"@\ x", b'{"claim.json": "@"}')
"""Lines of other forms; a sum stands for @."""


def spoiled(sums: bytes) -> bytes:
    """The sums with some bytes changed, put in or left out."""
    text = bytearray(sums if RANDOM.random() < 0.8 else sums + sums.replace(b"\n", b"\r\n"))
    for _ in range(RANDOM.choice((1, 1, 1, 2, 3))):
        at = RANDOM.randrange(len(text))
        if RANDOM.random() < 0.5:  # (most of a line is digits: look at the rest of it as often)
            at = RANDOM.choice([k for k, byte in enumerate(text) if byte not in b"0123456789abcdef"])
        byte = RANDOM.choice((RANDOM.randrange(256), *b"\\\n\r *nr0aA"))
        kind = RANDOM.choice("=+-~")
        text[at : at + (kind in "=-~")] = b"" if kind == "-" else bytes(
            [text[at] ^ 0x20]) if kind == "~" else bytes([byte])
    return bytes(text)


def texts(sums: bytes) -> Iterator[bytes]:
    """Files of sums: in other words, in another order, without some, with a broken line at each place, and spoiled."""
    yield from (form(sums) for form in FORMS.values())
    lines = sums.splitlines(keepends=True)
    for number in range(len(lines) + 1):
        yield from map(b"".join, itertools.permutations(lines, number))
        yield from (b"".join([*lines[:number], line.replace(b"@", NOTHING) + b"\n", *lines[number:]])
                    for line in BROKEN)
    yield from (spoiled(sums) for _ in range(2000))
    yield sums


def test_lines(folder: Path) -> None:
    """What is said by files of sums, of inputs with names that have to be escaped, is what a plain reading says."""
    plain_names = inputs_in(folder, "two-packets", "two-packets.certificate.json")
    call = plain_names._replace(claim="\\n *claim", second="se\\co\nnd\r", capture=" *#SHA256 (\u00fc) = \x1b\r\n")
    for kind, name in plain_names.inputs.items():
        os.rename(folder / name, folder / call.inputs[kind])
    plain, tried = call.plain(), list(texts(call.sums()))
    check("what sha256sum writes, by a plain reading", read=(sum_form.read(tried[-1])[1], 0))
    said = [wanted(call, plain, text) for text in tried]
    with ThreadPoolExecutor() as pool:
        for text, told, seen in zip(tried, said, pool.map(call.by, tried)):
            check(f"the sums {text[:300]!r}", run=(seen, told))
    check("answers of each kind", kinds=(len({re.sub(rb" \d+\n", b"\n", error) for _, _, error in said}), 8))


def test_size(folder: Path) -> None:
    """The greatest file of sums, and one byte more."""
    call = inputs_in(folder)
    sums, plain = call.sums(), call.plain()
    whole = sums + sum_form.line_of(b"n" * (MOST - len(sums) - 67), NOTHING)
    check("the greatest file of sums", length=(len(whole), MOST), run=(call.by(whole), plain))
    for name, text in {"a line feed": whole + b"\n", "that isn't of the form": b"\n" * (MOST + 1)}.items():
        call.says(f"one byte more: {name}", text, "too-big sums")
        (folder / "SUMS").write_bytes(text)
        for file in ("SUMS", "/dev/zero"):
            check(f"one byte more in {file}: {name}",
                  run=(run([*call.words, "--sums", file], cwd=folder), fault("too-big sums")))


# ---- what comes first
FOLDER = "a folder"

ORDER: tuple[tuple[str, int, dict[str, object]], ...] = (
    ("device claim", 0, {"claim.json": None}), ("device certificate", 0, {"second.json": None}),
    ("device capture", 0, {"f.pcap": None}), ("device sums", 0, {"SUMS": None}),
    ("too-big sums", 0, {"SUMS": b"\n" * (MOST + 1)}), ("device sums", 0, {"SUMS": FOLDER}),
    ("sums form line 1", 0, {"SUMS": b"#\n"}), ("sums missing claim", 0, {"SUMS": b""}),
    ("too-big claim", 0, {"claim.json": bytes(MOST + 1)}), ("device claim", 0, {"claim.json": FOLDER}),
    ("sums differ claim", 0, {}), ("device certificate", 1, {"second.json": FOLDER}),
    ("sums differ certificate", 1, {}), ("device capture", 2, {"f.pcap": FOLDER}), ("sums differ capture", 2, {}),
    ("claim 1 json", 3, {"claim.json": b"["}), ("certificate 1 json", 3, {"second.json": b"["}),
    ("capture 1 torn-header", 3, {"f.pcap": b"["}))
"""Each refusal in its order: how many of the three sums are right, and what is wrong with files beside."""


def test_order(folder: Path) -> None:
    """Each refusal is told where all that comes later is wrong too."""
    for number, (line, right, _) in enumerate(ORDER):
        call = inputs_in(folder / str(number))
        files: dict[str, object] = {name: call.data(kind) for kind, name in call.inputs.items()}
        for _, _, wrong in reversed(ORDER[number:]):
            files |= wrong
        sums = [digest(data) if isinstance(data, bytes) and k < right else NOTHING
                for k, data in enumerate(map(files.get, call.inputs.values()))]
        files.setdefault("SUMS", b"".join(map(sum_form.line_of, map(str.encode, call.inputs.values()), sums)))
        for name, content in files.items():
            (call.folder / name).unlink(missing_ok=True)
            if isinstance(content, bytes):
                (call.folder / name).write_bytes(content)
            elif content == FOLDER:
                (call.folder / name).mkdir()
        ran = run([*call.words, "--sums", "SUMS"], cwd=call.folder)
        check(f"{line} before what is later", run=(ran, fault(line, 4 if line.startswith("device") else 2)))


# ---- SHA-256
def test_lengths(folder: Path) -> None:
    """Bytes at random of each length up to five blocks, and of some beyond."""
    call = inputs_in(folder, "two-packets", "two-packets.certificate.json")
    rest = call.sums().splitlines(keepends=True)

    def tried(length: int) -> Ran:
        data = b"[" + random.Random(length).randbytes(length - 1) if length else b""
        name = f"message {length}"
        (folder / name).write_bytes(data)
        return call._replace(claim=name).by(sum_form.line_of(name.encode(), digest(data)) + rest[1] + rest[2])
    lengths = [*range(330), *(max(1, (1 << k) + d) for k in range(9, 17) for d in (-1, 0) if (1 << k) + d <= MOST)]
    with ThreadPoolExecutor() as pool:
        for length, seen in zip(lengths, pool.map(tried, lengths)):
            check(f"{length} bytes at random", run=(seen, fault("claim 1 json")))
    (folder / "large").write_bytes(b"[" + RANDOM.randbytes(3_000_000))
    for large, refused in ((call._replace(second="large"), "certificate 1 json"),
                           (call._replace(capture="large"), "capture 2 magic")):
        large.says(f"3 MB: {refused}", large.sums(), refused)
