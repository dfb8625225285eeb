"""Follows the program from its `main`: what docs/PROMISES.md and ARCHITECTURE.md name as carrying a promise is called.

A call is read by its name: of a method it is any method of that name, of a function one of the crate or of what the
file takes from another. So more may count as called than is, never less. Laws are called by nothing.
"""
import re
import runpy
from collections import defaultdict
from typing import NamedTuple

from tests.support import ROOT, check

FUNCTION = re.compile(r"^( *)(?:pub(?:\(\w+\))? )?fn (\w+)", re.M)
CALL = re.compile(r"(?:(\.)|(?:\b(\w+)(?:::<.*?>)?)?(::))?\b([a-z]\w*)(?:::<[^(]*>)?(?=[(,);]|$)", re.M)
UNUSED = "which no command takes yet"
"""What a row says whose functions are there for later."""

Name = tuple[str, str]
"""A crate, and a function there."""


class Body(NamedTuple):
    """A function's own text, whether it is a method, and the crates from which its file takes each name."""
    text: str
    is_method: bool
    taken: dict[str, str]


def taken_by(text: str, crate: str) -> dict[str, str]:
    """The crate from which a file takes each name of its `use` lines."""
    found = {}
    for path in re.findall(r"^(?:pub )?use ([^;]+);", text, flags=re.M):
        root, *_ = path.split("::")
        found.update({name: crate if root in ("crate", "super", "self") else root for name in re.findall(r"\w+", path)})
    return found


def bodies() -> dict[Name, list[Body]]:
    """The functions of all crates."""
    found = defaultdict(list)
    for file in sorted((ROOT / "crates").glob("*/src/**/*.rt")):
        crate = file.relative_to(ROOT / "crates").parts[0]
        text = re.sub(r"//.*", "", file.read_text("utf-8"))
        taken = taken_by(text, crate)
        for head in FUNCTION.finditer(text):
            begin = re.compile(rf"^{head[1]}\{{|\{{$", re.M).search(text, head.end())
            end = re.compile(rf"^{head[1]}\}}|\{{\}}$", re.M).search(text, begin.start() if begin else head.end())
            if begin and end:
                found[crate, head[2]].append(Body(text[begin.start():end.end()], bool(head[1]), taken))
    return found


def reached(all_bodies: dict[Name, list[Body]], begin: Name) -> set[Name]:
    """The functions that are called from this one on."""
    methods = defaultdict(set)
    for (crate, name), functions in all_bodies.items():
        if any(body.is_method for body in functions):
            methods[name].add((crate, name))
    seen, next_ones = set[Name](), {begin}
    while next_ones:
        crate, name = now = next_ones.pop()
        seen.add(now)
        for body in all_bodies[now]:
            for dot, owner, colons, called in CALL.findall(body.text):
                found = methods[called] if dot or colons else set()
                if not dot:
                    found = found | {(crate, called), (body.taken.get(called, crate), called), (owner, called)}
                next_ones |= {one for one in found if one in all_bodies} - seen
    return seen


def named(there: set[Name]) -> list[tuple[str, list[Name]]]:
    """The functions that the two pages name, each with its page, and in each crate that the line names."""
    rows = re.findall(r"^- (.*) \((\w+)\): (.*): .*$", (ROOT / "docs/PROMISES.md").read_text("utf-8"), re.M)
    found = [("PROMISES.md", [(crate, function)]) for promise, crate, functions in rows if UNUSED not in promise
             for function in re.findall(r"`(?:\w+::)?(\w+)`", functions)]
    for line in (ROOT / "ARCHITECTURE.md").read_text("utf-8").splitlines():
        crates = sorted(set(re.findall(r"`crates/(\w+)/src/", line)))
        own = [[(crate, name) for crate in crates if (crate, name) in there] for name in re.findall(r"`(\w+)`", line)]
        found += [("ARCHITECTURE.md", functions) for functions in own if functions]
    return found


def is_law(name: Name) -> bool:
    """Whether a crate has a law of this name."""
    laws = (ROOT / "crates" / name[0] / "src").glob("**/laws.rt")
    return any(f"fn {name[1]}(" in file.read_text("utf-8") for file in laws)


def test_callers() -> None:
    """`docs/callers` tells each call of a function by its name."""
    there = runpy.run_path(str(ROOT / "docs/callers"))
    rust, told = there["RUST"], defaultdict[Name, set[Name]](set)
    every = there["sources"](rust)
    heads = [there["said"](rust, item) for source in every for item in there["items"](rust, source) if not item.is_type]
    check("docs/callers: contracts", cut=([head for head in heads if head.count("{") != head.count("}")], []))
    for item in (item for source in every for item in there["items"](rust, source) if not item.owner):
        told[item.source.room.name, item.name] |= {(one.source.room.name, one.name) for one in
                                                   there["callers"](rust, item, every) if hasattr(one, "name")}
    all_bodies, number, untold = bodies(), 0, []
    for caller, own in all_bodies.items():
        for called, taken in {(name, body.taken.get(name, caller[0])) for body in own for name in
                              re.findall(r"(?<![.:\w])([a-z]\w+)(?:::<[^(]*>)?\(", body.text)}:
            if any(not body.is_method for body in all_bodies.get((taken, called), ())) and caller != (taken, called):
                number += 1
                untold += [(caller, called)] if caller not in told[taken, called] else []
    check("docs/callers: calls that are looked for", number=(number, lambda number: 1000 < number), untold=(untold, []))


def test_functions() -> None:
    """Each is called; what only tests call isn't, as is seen."""
    there = bodies()
    seen = reached(there, ("ntpaudit", "main"))
    check("functions", seen=(len(seen), lambda count: 800 < count), only_tested=(("finder", "find") in seen, False))
    for page, functions in named(set(there)):
        check(f"{page}: {' '.join('::'.join(one) for one in functions)}",
              called=(any(one in seen or is_law(one) for one in functions), True))
