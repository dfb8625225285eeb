"""The Python here is as CONTRIBUTING.md says: mypy finds nothing by pyproject.toml, nor does flake8; and the gate knows
what was skipped for want of a tool.
"""
import os
import re
import shutil
from pathlib import Path

from tests.support import ROOT, check, is_here, run, runnable, skip, wanting

FOLDERS = "bench", "data", "docs", "dossier", "ntpaudit-dossier", "tests", "tests/program", "tests/run", "tests/soak"


def test_types(folder: str) -> None:
    if is_here("mypy", "types by mypy"):
        status, out, _ = run(["mypy", "--cache-dir", folder], cwd=ROOT)
        check("mypy finds nothing", run=((status, out[:9]), (0, b"Success: ")))


def test_form() -> None:
    if is_here("flake8", "the form by flake8"):
        words = ["flake8", "--max-line-length", "120", "--extend-ignore", "E203", *FOLDERS]
        check("flake8 finds nothing", run=(run(words, cwd=ROOT)[:2], (0, b"")))


WIDTHS = {"src": (100, 8), "specs": (100, 4), "proofs": (120, 35)}
"""How wide a line is in each folder of a crate, and how many at most are wider: they stand in crates on which others
stand, whose proofs they would cost. Lists of what a file takes (`use`) have no width."""


def test_widths() -> None:
    for folder, (width, most) in WIDTHS.items():
        wide = [f"{file.relative_to(ROOT)}:{number}" for file in sorted(ROOT.glob(f"crates/*/{folder}/**/*.*t*"))
                for number, line in enumerate(file.read_text("utf-8").splitlines(), 1)
                if len(line) > width and not re.match(r"(pub |ghost )*use ", line)]
        check(f"lines of {folder} over {width} columns", lines=(wide, lambda wide: len(wide) <= most))


def test_skips(place: Path) -> None:
    """Where all tools are installed, a skip with the mark fails the gate. No other skip says that a tool is missing."""
    unmarked = [str(path.relative_to(ROOT)) for path in ROOT.glob("tests/**/*.py")
                if re.search(r"skip(ped)?\([^)]*\bisn't installed", path.read_text("utf-8"))]
    check("skips for want of a tool are by wanting", others=(unmarked, []))
    if os.geteuid():
        skip("the gate's skips", "this isn't root")
        return
    for folder in (".ci", "tests", "bin"):
        (place / folder).mkdir()
    shutil.copy(ROOT / ".ci/run", place / ".ci")
    for tool in ("apt-get", "dpkg"):
        runnable(place / "bin" / tool, "#!/bin/sh\n")
    for why, counts, status in ((wanting("zstd"), "1 passed, 1 failed, 1 skipped", 1),
                                ("there are no namespaces", "1 passed, 0 failed, 1 skipped", 0)):
        skipped = f"skipped dossier.daily [it]: {why}"
        runnable(place / "tests/all", f"#!/bin/sh\ncat <<'E'\n{skipped}\n{skipped} (dossier.daily)\n"
                                      "1 passed, 0 failed, 1 skipped\nE\n")
        ran = run([place / ".ci/run"], env={**os.environ, "PATH": f"{place}/bin:{os.environ['PATH']}"})
        check(f"the gate, where is skipped: {why}", run=((ran[0], ran[1].decode().splitlines()[-1]), (status, counts)))
