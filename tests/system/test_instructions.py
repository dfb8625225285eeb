"""The instructions of each command on one capture are those of bench/README.md, within 5 percent: what makes a command
slower, or faster, shows here whatever else the machine does.
"""
import os

from tests.support import ROOT, check, is_here, program, run


def test_instructions() -> None:
    if is_here("valgrind", "the instructions of commands"):
        status, out, err = run([ROOT / "bench/instructions", "--hold"], env={**os.environ, "NTPAUDIT": program()})
        check("bench/README.md has the instructions of each command", run=((status, out, err), (0, b"", b"")))
