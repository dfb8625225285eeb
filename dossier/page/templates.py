"""The templates of pages, filled in by Jinja2: whatever they are given is made fit to be shown, and escaped."""
import os
import re
import site
import sys
from base64 import b64encode
from functools import cache
from hashlib import sha256
from typing import TYPE_CHECKING, Any

from ..fault import MISSING, fault
from ..folder.entry import (DISPUTED, NO_EVIDENCE, NOT_VERIFIED, NOTHING_FITS, OPEN, REFUSED, REFUTED, UNSUPPORTED,
                            YES)
from ..folder.files import own_data
from ..folder.placing import write_named
from ..folder.result import MISSING as NO_FOLDER, NOT_COUNTED
from ..text import capital, count, plain
from ..units import low_ms, now, ns_ms, ns_up_ms, range_ms

if TYPE_CHECKING:
    from jinja2 import Environment

PLACE = os.path.join(os.path.dirname(os.path.realpath(__file__)), "templates")
PLACES = site.getsitepackages()
"""Where the system keeps what it has installed of Python's packages."""
NO_JINJA = "Jinja2 isn't installed, which makes pages: apt-get install python3-jinja2"
SIGNS = {YES: "\u2713", UNSUPPORTED: "\u2260", REFUTED: "\u2717", NOTHING_FITS: "\u2205", NO_EVIDENCE: "\u2026",
         OPEN: "?", NOT_VERIFIED: "\u2014", REFUSED: "!", DISPUTED: "\u2021", NOT_COUNTED: "\u25cb",
         NO_FOLDER: "\u00b7"}
"""A sign of each verdict, for whoever sees no colours."""
INDEX = "index.html"
MANY = 20
"""Lines of a table in which words can be looked for."""


def text_of(file: str) -> str:
    return own_data(os.path.join(PLACE, file)).decode()


def policy(script: str) -> str:
    """Nothing is fetched, and nothing is run but this script, whatever stands in the page."""
    run = f"; script-src 'sha256-{b64encode(sha256(script.encode()).digest()).decode()}'" if script else ""
    return f"default-src 'none'; style-src 'unsafe-inline'{run}"


def minus(words: str) -> str:
    """A hyphen before a digit as a minus sign, as print has it."""
    return re.sub(r"(?<![^\W_])-(?=\d)", "\u2212", words)


@cache
def templates() -> "Environment":
    """The templates, with all that they call."""
    sys.path += [place for place in PLACES if place not in sys.path]
    try:
        from jinja2 import Environment, FileSystemLoader, StrictUndefined
    except ImportError:
        raise fault(NO_JINJA, MISSING) from None
    made = Environment(loader=FileSystemLoader(PLACE), autoescape=True, undefined=StrictUndefined, trim_blocks=True,
                       lstrip_blocks=True, auto_reload=False,
                       finalize=lambda value: plain(value) if type(value) is str else value)
    made.filters |= {"capital": capital, "count": count, "dashed": lambda verdict: verdict.replace(" ", "-"),
                     "minus": minus, "ms": ns_ms, "up_ms": ns_up_ms, "low_ms": low_ms}
    made.globals |= {"now": now, "policy": policy, "range_ms": range_ms, "sign": lambda verdict: SIGNS[verdict]}
    return made


def put(data: bytes, file: str | None, split: str = "") -> None:
    """Writes a page whole or not at all: below a folder, or to a file; to standard output if there is neither."""
    if file:
        write_named(os.path.join(split, file), data, bool(split))
    else:
        sys.stdout.buffer.write(data)


def page(name: str, lines: int, **given: Any) -> bytes:
    """A whole page, whose table has so many lines."""
    script = text_of("search.js") if lines > MANY else ""
    return f"{templates().get_template(name).render(script=script, **given)}\n".encode("utf-8", "backslashreplace")
