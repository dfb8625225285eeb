"""What a file of sums says, as sha256sum writes it: a plain reading by regular expressions, which shares nothing with
the program."""
import re

LINE = re.compile(rb"(\\?)([0-9A-Fa-f]{64}) [ *](.+)", re.DOTALL)
ESCAPED = re.compile(rb"(?:[^\\]|\\[\\nr])+", re.DOTALL)
MEANT = {rb"\\": b"\\", rb"\n": b"\n", rb"\r": b"\r"}


def lines_of(text: bytes) -> list[bytes]:
    """The lines without their endings: a line feed, which the last may lack, and a carriage return before it."""
    return [line.removesuffix(b"\r") for line in text.removesuffix(b"\n").split(b"\n")] if text else []


def said_by(line: bytes) -> tuple[bytes, bytes] | None:
    """The name and the sum that a line gives, or None if it isn't of the form."""
    seen = LINE.fullmatch(line)
    if not seen or (seen[1] and not ESCAPED.fullmatch(seen[3])):
        return None
    name = re.sub(rb"\\[\\nr]", lambda pair: MEANT[pair[0]], seen[3]) if seen[1] else seen[3]
    return name, seen[2].lower()


def read(text: bytes) -> tuple[dict[bytes, bytes], int]:
    """The sums by their names, and the number of the first line that isn't of the form or contradicts: 0 if none."""
    sums: dict[bytes, bytes] = {}
    for number, line in enumerate(lines_of(text), 1):
        said = said_by(line)
        if said is None or sums.setdefault(*said) != said[1]:
            return sums, number
    return sums, 0


def line_of(name: bytes, digest: bytes) -> bytes:
    """A line as sha256sum writes it."""
    escaped = re.sub(rb"[\\\n\r]", lambda byte: {b"\\": rb"\\", b"\n": rb"\n", b"\r": rb"\r"}[byte[0]], name)
    return (b"\\" if escaped != name else b"") + digest + b"  " + escaped + b"\n"
