"""The fault lines of docs/FORMATS.md: tests/system/test_words.py and tests/dossier hold what is said of them to
these."""
import re

from tests.support import ROOT

TABLES = {"capture": ["Fault lines"], "claim": ["Claims"], "certificate": ["Certificates", "Certificates by covers"],
          "refutation": ["Refutations"], "times": ["A moment"]}
"""The sections that have the numbers and words of an input's faults."""

VARYING = re.compile(r"\b(PLACE|CODE|INPUT|K|N|P)\b")
"""What stands in a line for what varies."""


def fault_lines() -> list[str]:
    """Each line behind `ntpaudit: `, once."""
    text = (ROOT / "docs/FORMATS.md").read_text("utf-8")
    sections = {heading: text for heading, text in re.findall(r"^## (.*)\n((?:(?!## ).*\n)*)", text, flags=re.M)}
    found = list[str]()
    for row in re.findall(r"^\| (`.*?) \|", sections["Fault lines"], flags=re.M):
        for line in re.findall("`([^`]+)`", row):
            what, numbered, _ = line.partition(" N WORD")
            rows = [row for table in (TABLES[what] if numbered else [])
                    for row in re.findall(r"^\| ([\d, ]+) \| (.*?) \|", sections[table], flags=re.M)]
            found += [f"{what} {number} {word}" for numbers, words in rows
                      for number, word in zip(numbers.split(", "), words.split(", "), strict=True)] or [line]
    return list(dict.fromkeys(found))


def is_like(line: str, pattern: str) -> bool:
    """Whether a line is what a fault line says, with something in place of what varies."""
    return bool(re.fullmatch(VARYING.sub(r"\\S+", pattern), line))
