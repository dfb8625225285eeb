"""Names and texts of strangers, made fit to be shown: nothing in them is interpreted by a terminal."""
import re
import shlex
import sys
from unicodedata import name as name_of, normalize

BLANK = re.compile("[\u034f\u115f\u1160\u17b4\u17b5\u180b-\u180f\u2800\u3164\ufe00-\ufe0f\uffa0\U00016fe4\U0001d159"
                   "\U000e0100-\U000e01ef]")
"""What counts as printable, and isn't seen: two names may differ in it alone."""

WORD = re.compile(r"[^\s/]+")
LATIN = re.compile("LATIN|MODIFIER")
"""How Unicode's names of Latin letters begin, and of what stands beside letters, such as a colon."""
UNLIKE = re.compile("CJK UNIFIED|HIRAGANA LETTER|KATAKANA LETTER|KATAKANA-HIRAGANA|HANGUL SYLLABLE")
"""How the names of letters begin that look like no Latin ones."""
LETTERS = "\u0300-\u036f\xc6\xd0\xd8\xde\xdf\xe6\xf0\xf8\xfe\u0110\u0111\u0126\u0127\u0141\u0142\u0152\u0153\u1e9e"
"""Accents by themselves, and Latin letters that are no ASCII letter with an accent."""
IN_NAMES = re.compile(f"[{LETTERS}]")
IN_TEXTS = re.compile(f"[{LETTERS}\xa1-\xff\u2013\u2014\u2018-\u201e\u2021\u2026\u2205\u2212\u2713\u2717\ufffd]")
"""What isn't spelled out in names, and in texts, which may have quotes, dashes, and the signs of pages."""


def plain(words: str, staying: re.Pattern[str] = IN_TEXTS) -> str:
    """The text with whatever isn't printable, or isn't seen, spelled out, as in `a\\x0ab`: line feeds, escape codes,
    marks that turn the direction of writing, bytes that are no UTF-8, and what may look like ASCII in a Latin word."""
    if words.isascii() and words.isprintable():
        return words
    words = WORD.sub(lambda word: latin(word[0], staying), words)
    return "".join(c if c.isprintable() and not BLANK.match(c) else spelled(c) for c in words)


def latin(word: str, staying: re.Pattern[str]) -> str:
    """A word with all spelled out but ASCII, with accents or without, and what stays; but as it is if it is of another
    script: if it has a letter, and no Latin one in whatever form."""
    forms = (name_of(form, "") for c in word for form in normalize("NFKC", c))
    if word.isascii() or any(map(str.isalpha, word)) and not any(map(LATIN.match, forms)):
        return word
    return "".join(c if staying.match(c) or UNLIKE.match(name_of(c, "")) or normalize("NFC", c) == c
                   and normalize("NFD", c)[0].isascii() else spelled(c) for c in word)  # (NFC makes K of Kelvin's sign)


def spelled(c: str) -> str:
    number = ord(c)
    if 0xDC80 <= number <= 0xDCFF:  # (a byte that is no UTF-8, as Python has it in names of files)
        return f"\\x{number - 0xDC00:02x}"
    return f"\\x{number:02x}" if number < 0x100 else f"\\u{number:04x}" if number < 0x10000 else f"\\U{number:08x}"


def label(name: str) -> str:
    """A name where a line begins, which can't look like what the line says behind it: a space behind a colon or another
    space, and one at an end, is spelled out too."""
    return re.sub("(?<=[: ]) |^ | $", r"\\x20", plain(name, IN_NAMES))


def reference(digits: str) -> str:
    """A reference identifier as the program prints it, and in letters if it has any: `47505300, GPS`."""
    try:
        letters = bytes.fromhex(digits).rstrip(b"\0").decode("ascii")
    except ValueError:
        return plain(digits)
    return f"{digits}, {letters}" if letters.isalnum() else digits


def capital(words: str) -> str:
    return words[:1].upper() + words[1:]


def is_or_are(number: int) -> str:
    return "is" if number == 1 else "are"


def count(number: int, one: str, many: str | None = None) -> str:
    """`1 server`, `4 servers`."""
    return f"{number:,} {one if number == 1 else many or one + 's'}"


def listed(names: list[str]) -> str:
    """`a`, `a and b`, `a, b and c`."""
    return " and ".join([", ".join(names[:-1]), names[-1]] if names[1:] else names)


def note(words: str) -> None:
    print(plain(words), file=sys.stderr, flush=True)


def operand(name: str) -> str:
    """A file's name as the operand of a command, as a shell takes it."""
    return shlex.quote(f"./{name}" if name.startswith("-") else name)
