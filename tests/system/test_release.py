"""Tests ./release in a clone of the files that have the version, where what proves, audits and packages is made up."""
import os
import re
import shutil
from pathlib import Path

from tests.support import ROOT, Ran, check, run, runnable

ABOUT = "crates/program/src/about.rt"
PLACES = (ABOUT, "crates/program/specs/About.antt", "crates/worked_runs/src/runs.rt", "docs/ntpaudit-dossier.1",
          "docs/ntpaudit-judge.1", "docs/ntpaudit-recheck.1", "tests/dossier/test_stable.py")
KIT = "rattle-kit-99a logic 0123456789abcdef"
MADE_UP = {"dist/renew": f"echo made >dist/ntpaudit; echo 'toolchain {KIT}' >dist/MANIFEST",
           "tests/renew": "mkdir data/older/99.1.0 && echo >data/older/99.1.0/it",
           "docs/sbom": "echo \"$@\"", "package": "echo package >\"ntpaudit_99.1.0${1-}\""}
GIT = ("git", "-c", "user.name=ann", "-c", "user.email=ann@example.org")


def version() -> str:
    found = re.search(r'VERSION: &str = "([\d.]+) ', (ROOT / ABOUT).read_text("utf-8"))
    assert found
    return found[1]


def clone(place: Path) -> Path:
    """A repository of one commit."""
    for name in (*PLACES, "release", "CHANGELOG.md", "README.md", "dossier/__init__.py"):
        (place / name).parent.mkdir(parents=True, exist_ok=True)
        shutil.copy(ROOT / name, place / name)
    for name, body in MADE_UP.items():
        (place / name).parent.mkdir(parents=True, exist_ok=True)
        runnable(place / name, f"#!/bin/sh\n{body}\n")
    (place / "data/older").mkdir(parents=True)
    (place / ".gitignore").write_text("out/\n")
    log = place / "CHANGELOG.md"
    log.write_text(log.read_text("utf-8").replace("\n## ", "\n## 99.1.0\n\n## ", 1), "utf-8")
    for words in (("init", "-q"), ("add", "."), ("commit", "-q", "-m", "all")):
        assert run([*GIT, *words], cwd=place)[0] == 0
    return place


def released(place: Path, *words: str) -> Ran:
    names = {f"GIT_{who}_{what}": value for who in ("AUTHOR", "COMMITTER")
             for what, value in (("NAME", "ann"), ("EMAIL", "ann@example.org"))}
    return run(["env", *(f"{name}={value}" for name, value in names.items()), place / "release", *words], cwd=place)


def state(place: Path) -> tuple[bytes, bytes]:
    return run(["git", "status", "--porcelain"], cwd=place)[1], run(["git", "rev-parse", "HEAD"], cwd=place)[1]


def test_places() -> None:
    """The version stands in no other source, script or page of the manual."""
    named = re.compile(rf'(?<![\d.]){re.escape(version())} \(?logic|"ntpaudit {re.escape(version())}"')
    files = [file for pattern in ("crates/*/src/**/*.rt", "crates/*/specs/**/*.antt", "docs/*.1", "dossier/**/*.py")
             for file in ROOT.glob(pattern)]
    found = {str(file.relative_to(ROOT)) for file in files if named.search(file.read_text("utf-8"))}
    check("the places of the version", found=(found, set(PLACES) - {"tests/dossier/test_stable.py"}))


def test_refused(folder: Path) -> None:
    place = clone(folder)
    before = state(place)
    for words, why in (((), "usage"), (("99.1",), "usage"), (("99.1.0", "99.2.0"), "usage"),
                       (("0.1.0",), "isn't later"), ((version(),), "isn't later"), (("99.2.0",), "has no section")):
        status, out, err = released(place, *words)
        check(f"release {' '.join(words)}", run=((status, out), (70, b"")), why=(why in err.decode(), True),
              left=(state(place), before))
    (place / "more").write_text("")
    status, _, err = released(place, "99.1.0")
    check("release of a tree with something more", status=(status, 70), why=(b"isn't clean" in err, True))
    (place / "more").unlink()
    nobody = {"PATH": os.environ["PATH"], "HOME": str(place), "GIT_CONFIG_NOSYSTEM": "1", "GIT_CONFIG_COUNT": "1",
              "GIT_CONFIG_KEY_0": "user.useConfigOnly", "GIT_CONFIG_VALUE_0": "true"}
    status, _, err = run([place / "release", "99.1.0"], cwd=place, env=nobody)
    check("release by nobody, before anything is built", status=(status, 70), left=(state(place), before),
          why=(b"git knows no name" in err, True))
    moved = place / "docs/ntpaudit-judge.1"
    moved.write_text(moved.read_text("utf-8").replace(version(), "0"), "utf-8")
    run([*GIT, "commit", "-q", "-a", "-m", "moved"], cwd=place)
    before = state(place)
    status, _, err = released(place, "--dry-run", "99.1.0")
    check("release where a place has moved", status=(status, 70), left=(state(place), before),
          why=(f"docs/ntpaudit-judge.1 has no version {version()}" in err.decode(), True))


def test_dry(folder: Path) -> None:
    place = clone(folder)
    before = state(place)
    status, out, err = released(place, "--dry-run", "99.1.0")
    check("release --dry-run", run=((status, err), (0, b"")), left=(state(place), before),
          named=(re.findall(r"^\+\+\+ b/(.*)$", out.decode(), flags=re.M), sorted(PLACES)))


def test_made(folder: Path) -> None:
    place = clone(folder)
    status, _, err = released(place, "99.1.0")
    texts = "".join((place / name).read_text("utf-8") for name in PLACES)
    check("release", run=((status, err), (0, b"")), left=(state(place)[0], b""),
          old=(re.findall(rf"ntpaudit {re.escape(version())}\b", texts), []),
          new=(len(re.findall(r'ntpaudit 99\.1\.0|"99\.1\.0 \(|"99\.1\.0": \d+}', texts)), 9),
          files=(run(["git", "show", "--name-only", "--format=%s", "HEAD"], cwd=place)[1].decode().split("\n"),
                 ["release: 99.1.0", "",
                  *sorted([*PLACES, "README.md", "data/older/99.1.0/it", "dist/MANIFEST", "dist/ntpaudit"]), ""]),
          kit=(f"\n    {KIT}\n" in (place / "README.md").read_text("utf-8"), True))
    made = place / "out/release"
    check("what is released", files=(sorted(path.name for path in made.iterdir()),
                                     ["SHA256SUMS", "ntpaudit.spdx.json", "ntpaudit_99.1.0", "ntpaudit_99.1.0--rpm"]),
          sums=(run(["sha256sum", "-c", "--quiet", "SHA256SUMS"], cwd=made)[:2], (0, b"")),
          of=((made / "ntpaudit.spdx.json").read_text().split()[0], "99.1.0"))
