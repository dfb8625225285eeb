"""The program's table of words about faults, read from its source: a case of tests/system/test_words.py has to see each
text."""
import re

from tests.support import ROOT

SOURCES = ROOT / "crates/fault_words/src"
TABLES = ("sentence", "claim_field", "kind", "obstacle")
"""The files of the table."""

WORD = r"(?:'[^']*'|[^-' ]\S*)"
FILLED = {"@": WORD, "#": r"\d+", "~": f"{WORD} {WORD}", "&": f"{WORD} {WORD}(?: {WORD})?", "%": WORD}
"""The marks of a remedy, and what stands for them: words of a shell, none of them an option."""

TEXT = r'"((?:[^"\\]|\\.)*)"'


def source(name: str) -> str:
    """A source without comments, of one line a text."""
    text = re.sub(r"^\s*//.*$", "", (SOURCES / f"{name}.rt").read_text("utf-8"), flags=re.M)
    return re.sub(r"\\\n\s*", "", text)


def plain(text: str) -> str:
    return re.sub(r"\\(.)", r"\1", text)


def shared() -> dict[str, str]:
    """The remedies that several faults share, by name."""
    return {name: plain(text) for name, text in
            re.findall(rf"^pub\(crate\) const (\w+): &str =\s*{TEXT};", source("remedy"), flags=re.M)}


def of_rows() -> list[str]:
    """What the rows of `says` have: what is wrong, and what to do."""
    known, found = shared(), list[str]()
    for table in TABLES:
        for wrong, remedy, constant in re.findall(
                rf"\w+(?:\([^()]*\))? =>\s*\{{?\s*says\(\s*{TEXT},\s*(?:{TEXT}|(?:remedy::)?(\w+)),?\s*\)",
                source(table)):
            found += [plain(wrong), known[constant] if constant else plain(remedy)]
    return found


def of_kinds() -> list[str]:
    """What a file is instead, and what is done about each kind of file."""
    arms = re.findall(rf"Kind::\w+(?: if !?is_capture)? =>\s*\{{?\s*{TEXT}", source("kind"))
    return [plain(text) for text in arms]


def texts() -> list[str]:
    """Each text of the table: what is wrong, what to do, and what a file is instead."""
    return sorted({text for text in [*of_rows(), *of_kinds(), *shared().values()] if text})


def pattern_of(text: str) -> str:
    """What a text is where names are known."""
    return "".join(FILLED.get(sign, re.escape(sign)) for sign in text)
