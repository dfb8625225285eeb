"""Holds the program that the repository ships to the sources, and to the one that was built of them, byte for byte. (If
another kit of the toolchain builds another program, the last case fails.)
"""
import os
from pathlib import Path

from tests.support import ROOT, check, is_here, program, run, sum_of, sum_of_sources

SHIPPED = ROOT / "dist/ntpaudit"


def test_manifest() -> None:
    listed = dict(line.split(" ", 1) for line in (ROOT / "dist/MANIFEST").read_text().splitlines())
    check("dist/MANIFEST has five lines", names=(list(listed), ["program", "page", "judge", "sources", "toolchain"]))
    for part, name in (("page", "judge.html"), ("judge", "ntpaudit-judge")):
        check(f"dist/MANIFEST names another {part} than dist/{name}: call dist/renew",
              sum=(listed.get(part), sum_of((ROOT / "dist" / name).read_bytes())))
    check("dist/MANIFEST names other sources than those that are here: call dist/renew",
          sum=(listed.get("sources"), sum_of_sources(ROOT)))
    check("dist/MANIFEST names another program than dist/ntpaudit: call dist/renew",
          sum=(listed.get("program"), sum_of(SHIPPED.read_bytes())))
    check("dist/ntpaudit may be run", seen=(os.access(SHIPPED, os.X_OK), True))
    if is_here("rt", "the toolchain's logic"):
        logic = run(["rt", "version"])[1].decode().split()[1:]
        check("dist/MANIFEST names a toolchain of the logic that is here",
              seen=(listed.get("toolchain", "").split()[1:], logic))


def test_built() -> None:
    check("dist/ntpaudit is what was built", same=(SHIPPED.read_bytes() == Path(program()).read_bytes(), True))
