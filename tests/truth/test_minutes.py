"""Some histories played minute by minute; tests/truth/minutes.py tries others."""
import sys

from tests.support import ROOT, check, run

NUMBER = 6


def test_minutes() -> None:
    played(NUMBER, "--number", NUMBER)


def test_set() -> None:
    """A clock that is set to 2099, to 1970 and back by an hour: each time it is said, with the true size."""
    played(3, "--set")


def played(number: int, *words: object) -> None:
    status, out, err = run([sys.executable, "-B", "-m", "tests.truth.minutes", *words], cwd=ROOT)
    check(f"{number} histories minute by minute", run=(
        (status, out if status else b"", err[-300:] if status else b""), (0, b"", b"")),
        looks=(out.startswith(f"{number} histories".encode()), True))
