"""What the tests share: what they say of a case, the program, and how they run it.

A test is a function `test_..` of a module `test_..` in a folder here, and may take a folder of its own. `tests/run`
makes a case of unittest of each. What a test counts, checks or skips is a subtest. The program is the file that the
environment's NTPAUDIT names (from the repository's root), or else dist/ntpaudit.
"""
import functools
import hashlib
import inspect
import os
import shutil
import subprocess
import sys
import tempfile
import threading
import time
import unittest
from collections.abc import Callable, Iterable, Sized
from contextlib import suppress
from pathlib import Path
from types import ModuleType
from typing import Any

ROOT = Path(__file__).resolve().parents[1]
DATA = ROOT / "data"

SECONDS = 600
"""A run that takes longer than this by the clock has hung; no test depends on being quicker."""

NOBODY = 65534
LOCK = threading.Lock()

Ran = tuple[int | str, bytes, bytes]
"""Status (a text where a run doesn't end or begin), standard output and standard error of a command."""


class Case(unittest.TestCase):
    """A test of this name. It has a folder of its own, if it takes one, and may give a value."""
    now: "Case"
    """The one that runs."""

    def __init__(self, name: str, test: Callable[..., Any]) -> None:
        super().__init__("run_it")
        self.name, self.test, self.value = name, test, None

    def id(self) -> str:
        return self.name

    def run_it(self) -> None:
        Case.now = self
        os.chdir(ROOT)
        with tempfile.TemporaryDirectory(prefix="ntpaudit-") as made:
            os.chmod(made, 0o755)
            (folder := Path(made) / "test").mkdir()
            self.value = self.test(*([folder] if inspect.signature(self.test).parameters else []))


def named(module: ModuleType) -> str:
    return module.__name__.removeprefix("tests.").replace(".test_", ".")


def cases_of(module: ModuleType) -> list[Case]:
    """The tests of a module, in its order: its functions `test_..`, or those that it makes itself by `cases`."""
    if hasattr(module, "cases"):
        return [Case(name, test) for name, test in module.cases()]
    return [Case(f"{named(module)}.{word.removeprefix('test_')}", test) for word, test in vars(module).items()
            if word.startswith("test_") and inspect.isfunction(test) and test.__module__ == module.__name__]


@functools.cache
def is_shipped() -> bool:
    """Whether dist/MANIFEST names the sources that are here, so that dist/ntpaudit is theirs."""
    manifest = ROOT / "dist/MANIFEST"
    return manifest.exists() and f"sources {sum_of_sources(ROOT)}\n" in manifest.read_text()


@functools.cache
def program() -> str:
    """The program under test. It is never built here: that takes many minutes, and is `./ntpaudit --version`."""
    path = (ROOT / os.environ.get("NTPAUDIT", "dist/ntpaudit")).resolve()
    if "NTPAUDIT" not in os.environ and shutil.which("rt") and not is_shipped():
        sys.exit("dist/ntpaudit is of other sources: set NTPAUDIT to it or to another program, as out/ntpaudit, "
                 "which `./ntpaudit --version` builds")
    if not os.access(path, os.X_OK):
        sys.exit(f"no program is at {path}: set NTPAUDIT to the path of one")
    return str(path)


def count(name: str, wrong: str) -> None:
    """Counts a subtest, and what is wrong with it: nothing where that's an empty text."""
    with LOCK, Case.now.subTest(name):
        if wrong:
            raise AssertionError(wrong)


def check(name: str, **pairs: tuple[Any, Any]) -> None:
    """Counts a case: each pair is what was seen and what is wanted, or what was seen and a test of it."""
    wrong = []
    for what, (seen, wanted) in pairs.items():
        if not (wanted(seen) if callable(wanted) else seen == wanted):
            wrong.append(f"{what} {short(seen)}" + ("" if callable(wanted) else f", wanted {short(wanted)}"))
    count(name, "; ".join(wrong))


def skip(name: str, why: str) -> None:
    """Counts a subtest that isn't tried here, and says why."""
    with LOCK, Case.now.subTest(name):
        raise unittest.SkipTest(why)


def wanting(tool: str) -> str:
    """Why a case is skipped, with the mark by which the gate (.ci/run), which installs all tools, knows it."""
    return f"[tool] {tool} isn't installed"


def is_here(tool: str, name: str) -> bool:
    """Whether a tool is installed; where it isn't, a case is skipped."""
    if not shutil.which(tool):
        skip(name, wanting(tool))
    return bool(shutil.which(tool))


def nobody(name: str) -> dict[str, Any] | None:
    """How to run as a user who owns nothing: permissions don't bind root. Where that can't be, a case is skipped."""
    how: dict[str, Any] = {"user": NOBODY, "group": NOBODY, "extra_groups": []} if os.geteuid() == 0 else {}
    if run(["true"], **how)[0] == 0:
        return how
    skip(name, "root may not become another user here")
    return None


def short(seen: object) -> str:
    text = repr(seen)
    long = len(seen if isinstance(seen, Sized) else text)
    return text if len(text) < 300 else f"{text[:140]} .. {text[-140:]} ({long} long)"


def run(words: Iterable[object], given: bytes | None = b"", **how: Any) -> Ran:
    how = {"stdout": subprocess.PIPE, "stderr": subprocess.PIPE, "timeout": SECONDS, **how}
    if given is not None:
        how["input"] = given
    try:
        ran = subprocess.run([word if isinstance(word, bytes) else str(word) for word in words], **how)
    except subprocess.TimeoutExpired:
        return "no end", b"", b""
    except OSError as error:
        return f"no start: {error}", b"", b""
    return ran.returncode, ran.stdout, ran.stderr


def wait_until(holds: Callable[[], bool]) -> bool:
    """Waits until something holds, as long as a run may take."""
    end = time.monotonic() + SECONDS
    while not (held := holds()) and time.monotonic() < end:
        time.sleep(0.1)
    return held


def children(process: int) -> list[int]:
    """The processes that a process has made, the first first."""
    found = []
    for stat in Path("/proc").glob("[0-9]*/stat"):
        with suppress(OSError):  # (it may have ended meanwhile)
            if int(stat.read_bytes().rpartition(b")")[2].split()[1]) == process:
                found.append(int(stat.parent.name))
    return sorted(found)


def files_in(folder: Path, pattern: str) -> list[Path]:
    """The files of such a name, in order. There have to be some: else what is tried on each is tried on none."""
    found = sorted(folder.glob(pattern))
    assert found, f"there is no {pattern} in {folder}"
    return found


def runnable(path: Path, text: str) -> Path:
    """A program of this text."""
    path.write_text(text)
    path.chmod(0o755)
    return path


def sum_of(data: bytes) -> str:
    return hashlib.sha256(data).hexdigest()


def sum_of_sources(top: Path) -> str:
    """The sum of the files that the program is built of, as the launcher takes it: of all sums with their paths."""
    folders = [folder for name in ("src", "specs", "proofs") for folder in top.glob(f"crates/*/{name}")]
    files = [top / "crates.txt", *(file for folder in folders for file in folder.rglob("*") if file.is_file())]
    lines = sorted(f"{sum_of(file.read_bytes())}  {file.relative_to(top)}\n".encode() for file in files)
    return sum_of(b"".join(lines))


def manifest_of(top: Path, toolchain: str) -> str:
    """What dist/MANIFEST has to say of the program in dist/."""
    return (f"program {sum_of((top / 'dist/ntpaudit').read_bytes())}\nsources {sum_of_sources(top)}\n"
            f"toolchain {toolchain}\n")
