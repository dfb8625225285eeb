"""The judge of judge/, as judge/make makes it, in out/judge; or the one that the environment's NTPAUDIT_JUDGE names."""
import fcntl
import functools
import os
import shutil
from collections.abc import Iterator
from contextlib import contextmanager
from pathlib import Path

from tests.support import ROOT, run, sum_of

FOLDER = ROOT / "out/judge"
TOOLS = "coqc", "ocamlfind", "js_of_ocaml"
NAMES: dict[str, list[str]] = {"ntpaudit-judge": [], "judge.html": ["--page"]}


def missing() -> str:
    """What has to be installed before it can be made."""
    return next((tool for tool in TOOLS if not shutil.which(tool)), "")


def sources() -> str:
    """The sum of what it is made of."""
    files = sorted(file for file in (ROOT / "judge").rglob("*") if file.is_file() and (
        file.suffix in (".v", ".js", ".css", ".html") or file.name in ("make", "build")
        or file.parent.name in ("program", "page")))
    return sum_of(b"".join(str(file.relative_to(ROOT)).encode() + file.read_bytes() for file in files))


@contextmanager
def alone() -> Iterator[None]:
    """While no other test makes anything."""
    FOLDER.mkdir(parents=True, exist_ok=True)
    with open(FOLDER / "lock", "w") as lock:
        fcntl.flock(lock, fcntl.LOCK_EX)
        yield


@functools.cache
def made(name: str) -> Path:
    """The path of what has this name."""
    if named := os.environ.get("NTPAUDIT_JUDGE"):
        return (ROOT / named).parent / name
    with alone():
        stamp, now = FOLDER / f"{name}.sources", sources()
        if not stamp.exists() or stamp.read_text() != now:
            status, out, err = run([ROOT / "judge/make", *NAMES[name], FOLDER], timeout=3000)
            assert status == 0, f"judge/make: {(out + err)[-2000:].decode(errors='replace')}"
            stamp.write_text(now)
    return FOLDER / name
