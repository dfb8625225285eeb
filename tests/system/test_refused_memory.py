"""Refuses each allocation of the built program in turn, by a small library before the C library's allocation, until a
run meets no refusal. Each run before has to answer that it is out of memory, with nothing on standard output. (If a
block is only to be made smaller the usual answer is right too; and the words of `--human` behind a fault line or an
answer may lack.) If fewer allocations are refused than any such program makes, the library isn't at work.
"""
import os
import shutil
import subprocess
from collections.abc import Iterator, Sequence
from concurrent.futures import ThreadPoolExecutor
from pathlib import Path
from typing import Any, NamedTuple

from tests.support import DATA, Ran, check, is_here, program, run, sum_of
from tests.second import sum_form
from tests.second.commands import CAPTURE, CERTIFICATE, CLAIM, every_command, fault_alone, REFUTATION, SECOND
from tests.system import test_outputs

REAL, REAL_CLAIM = DATA / "clients-us.pcap", DATA / "clients-us.claim.json"
REAL_CERTIFICATE = DATA / "clients-us.8.certificate.json"
CONTESTED = [DATA / "era1-ns.claim.json", DATA / "era1-ns.pcap", DATA / "era1-ns.refutation.json"]
LEAST, MOST = 10, 10_000
"""Allocations of a run: a command line and two buffers can't be had with less."""

REFUSES = r"""
#define _GNU_SOURCE
#include <dlfcn.h>
#include <errno.h>
#include <fcntl.h>
#include <malloc.h>
#include <stdlib.h>
#include <unistd.h>

static long calls;

static int refused_but(int is_needless) {
    static long wanted = -1;
    if (wanted < 0) {
        const char *number = getenv("REFUSED_CALL");
        wanted = number ? atol(number) : 0;
    }
    if (++calls != wanted) return 0;
    const char *mark = getenv("REFUSED_MARK");
    int file = mark ? open(mark, O_WRONLY | O_CREAT, 0600) : -1;
    if (file >= 0 && is_needless && write(file, "n", 1) < 0) abort();
    if (file >= 0) close(file);
    errno = ENOMEM;
    return 1;
}

static int refused(void) {
    return refused_but(0);
}

#define NEXT(name, type) \
    static type *next;    \
    if (!next) next = (type *)dlsym(RTLD_NEXT, name)

void *malloc(size_t size) {
    typedef void *Malloc(size_t);
    NEXT("malloc", Malloc);
    return refused() ? NULL : next(size);
}

void *realloc(void *old, size_t size) {
    typedef void *Realloc(void *, size_t);
    NEXT("realloc", Realloc);
    return refused_but(old && size <= malloc_usable_size(old)) ? NULL : next(old, size);
}

void *aligned_alloc(size_t alignment, size_t size) {
    typedef void *AlignedAlloc(size_t, size_t);
    NEXT("aligned_alloc", AlignedAlloc);
    return refused() ? NULL : next(alignment, size);
}

int posix_memalign(void **place, size_t alignment, size_t size) {
    typedef int PosixMemalign(void **, size_t, size_t);
    NEXT("posix_memalign", PosixMemalign);
    return refused() ? ENOMEM : next(place, alignment, size);
}
"""


OUT_OF_MEMORY: Ran = (3, b"", b"ntpaudit: memory\n")


class Call(NamedTuple):
    """A call of the program, and the file that it writes, which is taken for the end of its output."""
    words: Sequence[object]
    file: Path | None = None

    @property
    def name(self) -> str:
        return " ".join(str(word).rpartition("/")[2] for word in self.words) + (" -o" if self.file else "")

    def run(self, **how: Any) -> Ran:
        if self.file is None:
            return run([PROGRAM, *self.words], **how)
        self.file.unlink(missing_ok=True)
        status, output, error = run([PROGRAM, *self.words, "-o", self.file], **how)
        written = self.file.read_bytes() if self.file.exists() else b""
        is_drafted = self.file.with_name(f"{self.file.name}.part").exists()
        return status, output + written + is_drafted * b"and a draft", error

    def fault_alone(self, ran: Ran, **how: bool) -> Ran:
        """A run without its words for a person, which may lack for want of memory."""
        return fault_alone(ran, ["--human"], **how) if "--human" in self.words else ran

    def lacks_words(self, ran: Ran, met: bytes | None, usual: Ran) -> bool:
        """Whether a refusal was met only behind the fault line or the answer, where words for a person may lack."""
        return "--human" in self.words and met == b"" and self.fault_alone(ran, may_lack_words=True) == usual

    def is_right(self, ran: Ran, met: bytes | None, usual: Ran) -> bool:
        """Whether a run is as it has to be, with no refusal met (None), one of memory (b""), or one of a block that had
        room enough (b"n")."""
        if met is None:
            return self.fault_alone(ran) == usual
        is_told = self.fault_alone(ran, may_lack_words=True) in (OUT_OF_MEMORY, usual if met else OUT_OF_MEMORY)
        return is_told or self.lacks_words(ran, met, usual)


def refuse_each(library: Path, mark: Path, call: Call) -> list[tuple[Ran, bytes | None]]:
    """Runs the program with each of its allocations refused in turn: each run, and which refusal it met. The last run
    has met none."""
    runs: list[tuple[Ran, bytes | None]] = []
    while len(runs) < MOST and (not runs or runs[-1][1] is not None):
        mark.unlink(missing_ok=True)
        refused = {"LD_PRELOAD": str(library), "REFUSED_CALL": str(len(runs) + 1), "REFUSED_MARK": str(mark)}
        ran = call.run(env={**os.environ, **refused})
        runs.append((ran, mark.read_bytes() if mark.exists() else None))
    return runs


# ---- the calls
def calls(folder: Path) -> Iterator[Call]:
    """Each command on the two packets and on a torn capture, by sums too and with a file, if it takes them; and calls
    of many samples, and with other answers."""
    def put(name: str, given: Path, old: str, new: str) -> Path:
        (folder / name).write_text(given.read_text().replace(old, new))
        return folder / name
    torn, asked, sums, other_sums = (folder / name for name in ("torn.pcap", "asked.pcap", "SUMS", "OTHER"))
    torn.write_bytes(CAPTURE.read_bytes()[:200])
    asked.write_bytes(CAPTURE.read_bytes()[:130])
    summed = [CLAIM, CAPTURE, CERTIFICATE, REFUTATION, REAL_CLAIM, REAL, REAL_CERTIFICATE, *CONTESTED, torn]
    lines = [sum_form.line_of(str(file).encode(), sum_of(file.read_bytes()).encode()) for file in summed]
    sums.write_bytes(b"".join(lines))
    other_sums.write_bytes(b"".join(lines).replace(lines[1][:64], lines[2][:64]))
    for command in every_command():
        for by_sums in (list[object](), ["--sums", sums])[:1 + (command.name in SECOND)]:
            yield from (Call([command.name, CLAIM, capture, *command.words, *by_sums]) for capture in (CAPTURE, torn))
    for number, command in enumerate(test_outputs.writers()):
        yield Call([command.name, CLAIM, CAPTURE, *command.words], folder / f"o{number}")
    tight = put("tight.json", CLAIM, "10001001", "10001000")
    comma, none = put("comma.json", CLAIM, "}", ",}"), put("none.json", REAL_CLAIM, '"false_max":1', '"false_max":0')
    yield from map(Call, (
        ["list", CAPTURE], ["list", torn], ["list", torn, "--human"], ["settle", "none.json", CAPTURE],
        ["settle", "none.json", CAPTURE, "--human"], ["settle", comma, CAPTURE], ["settle", comma, CAPTURE, "--human"],
        ["settle", put("text.json", CLAIM, "10001001", '"10 ms"'), CAPTURE, "--human"],
        ["check", CLAIM, CAPTURE, put("spaced.json", CERTIFICATE, ":", ": ")],
        ["check", REAL_CLAIM, REAL, REAL_CERTIFICATE, "--sums", sums],
        ["check", CLAIM, CAPTURE, CERTIFICATE, "--sums", other_sums],
        ["check", "none.json", CAPTURE, CERTIFICATE, "--sums", sums],
        ["check", CLAIM, CAPTURE, CERTIFICATE, "--sums", CLAIM], ["samples", REAL_CLAIM, REAL],
        ["at", REAL_CLAIM, REAL, "2026-11-22T07:03:36Z"], ["find", REAL_CLAIM, REAL, "--step", "1"],
        ["find", tight, CAPTURE], ["find", tight, CAPTURE, "--refutation"], ["settle", REAL_CLAIM, REAL],
        ["settle", tight, CAPTURE], ["settle", none, REAL], ["settle", DATA / "clients-us.few.claim.json", REAL],
        ["settle", CLAIM, asked], ["refute", *CONTESTED], ["refute", *CONTESTED, "--drift"],
        ["refute", *CONTESTED, "--drift", "--sums", sums], ["envelope", REAL_CLAIM, REAL, "--step", "1"],
        ["envelope", REAL_CLAIM, REAL, "--step", "8", "--servers", "--least"], ["envelope", CLAIM, asked, "--least"]))


PROGRAM = program()


def test_allocations(folder: Path) -> None:
    compiler = shutil.which("gcc") or "cc"
    if not is_here(compiler, "refused allocations"):
        return
    source, library = folder / "refuses.c", folder / "refuses.so"
    source.write_text(REFUSES)
    subprocess.run([compiler, "-shared", "-fPIC", "-O1", "-o", library, source, "-ldl"], check=True)
    with ThreadPoolExecutor() as pool:
        asked = list(calls(folder))
        usual = [call.fault_alone(call.run()) for call in asked]
        tried = pool.map(lambda at: refuse_each(library, folder / f"mark{at}", asked[at]), range(len(asked)))
        for call, wanted, runs in zip(asked, usual, tried):
            for number, (ran, met) in enumerate(runs, 1):
                check(f"allocation {number} of {call.name} refused",
                      run=(ran, lambda ran: call.is_right(ran, met, wanted)))
            check(f"refusals in {call.name}", met=(len(runs) - 1, lambda met: LEAST <= met < MOST - 1))
            lacking = [number for number, (ran, met) in enumerate(runs, 1) if call.lacks_words(ran, met, wanted)]
            behind = [number for number, (_, met) in enumerate(runs, 1) if met == b""][-len(lacking):]
            check(f"words lack in {call.name} only at its end", lacking=(lacking, behind if lacking else []))
