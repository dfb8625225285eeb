"""Tests of the dossier's sources: one module opens, one writes, one runs, and nobody else does; and a package stands
on none that comes after it.
"""
import ast
import dataclasses
import runpy
from collections.abc import Callable, Iterator
from pathlib import Path
from typing import Any

from tests.support import ROOT, check, files_in

OPENING = {"open", "os.open", "os.read", "os.pread", "os.scandir", "os.listdir", "os.stat", "os.lstat", "os.fstat",
           "mmap.mmap"}
WRITING = {"os.write", "os.mkdir", "os.makedirs", "os.rename", "os.replace", "os.link", "os.symlink", "os.unlink",
           "os.remove", "os.rmdir", "os.truncate", "os.ftruncate", "os.chmod", "os.chown", "os.utime", "os.mknod",
           "os.mkfifo", "os.fdopen", "os.pwrite", "fcntl.flock", "fcntl.lockf"}
RUNNING = {"os.fork", "os.pipe", "os.system", "os.popen", "os.kill", "os.killpg", "os.waitpid", "os.chdir",
           "os.setpgid", "subprocess.Popen", "shutil.rmtree", "resource.setrlimit"}
NOWHERE = ("os.walk", "os.fwalk", "os.spawn", "os.posix_spawn", "os.exec", "subprocess.run", "subprocess.call",
           "subprocess.check", "shutil.copy", "shutil.move", "pathlib", "io.open", "glob", "eval", "exec", "compile",
           "tempfile", "__import__", "pickle", "importlib", "ctypes", "socket", "urllib", "http")
MODULES = {"files": OPENING, "placing": OPENING | WRITING, "jobs": {"os.read", "os.pread"} | RUNNING,
           "measuring": {"os.fork", "os.kill", "os.waitpid", "open", "subprocess", "subprocess.Popen"}}
"""What each module may call: those that open, write and run; and the one that measures, which has no folder."""


PACKAGES = ["folder", "capture", "premise", "verdict", "fleet", "page"]
"""Each stands on those before it and on the modules beside them, but for the command line, which stands on all."""


def named(node: ast.expr) -> str:
    if isinstance(node, ast.Name):
        return node.id
    return f"{named(node.value)}.{node.attr}" if isinstance(node, ast.Attribute) else ""


def calls_of(tree: ast.AST) -> Iterator[tuple[int, str]]:
    """What is named or imported that opens, writes or runs anything."""
    for node in ast.walk(tree):
        if isinstance(node, ast.Import):
            yield from ((node.lineno, alias.name) for alias in node.names)
        elif isinstance(node, ast.ImportFrom) and not node.level:
            yield from ((node.lineno, f"{node.module}.{alias.name}") for alias in node.names)
        elif isinstance(node, ast.Call):
            yield node.lineno, named(node.func)
        elif isinstance(node, ast.Attribute):
            yield node.lineno, named(node)


def packages_of(path: Path, tree: ast.AST) -> Iterator[tuple[int, str]]:
    """What is imported that comes after the module's own package."""
    own = path.relative_to(ROOT / "dossier").parts[:-1]
    before = PACKAGES[:PACKAGES.index(own[0])] if own else PACKAGES if path.stem == "command_line" else []
    for node in ast.walk(tree):
        if isinstance(node, ast.ImportFrom) and node.level == len(own) + 1:
            package = (node.module or "").split(".")[0]
            if package in [*PACKAGES, "command_line"] and package not in before:
                yield node.lineno, package


def test_modules() -> None:
    seen = set[str]()
    for path in files_in(ROOT / "dossier", "**/*.py"):
        allowed, wrong = MODULES.get(path.stem, set[str]()), []
        tree = ast.parse(path.read_text("utf-8"))
        for line, name in calls_of(tree):
            is_watched = name in OPENING | WRITING | RUNNING or name.startswith(NOWHERE) or name == "subprocess"
            if path.stem == "measuring" and name.startswith(("socket", "ctypes")):  # (a link, in a network of its own)
                continue
            if is_watched and name not in allowed and (path.stem, name) != ("jobs", "subprocess"):
                wrong.append((line, name))
            seen |= {name} & allowed
        check(f"what {path.name} calls", wrong=(sorted(set(wrong)), []), packages=(list(packages_of(path, tree)), []))
    check("what is watched is called", never=(OPENING & seen, lambda found: len(found) > 5))


def calls_in(path: Path, tree: ast.Module) -> Iterator[tuple[str, str]]:
    """The functions that functions of a module call by a name that it takes from another one, each with who calls."""
    taken = {alias.name for node in ast.walk(tree) if isinstance(node, ast.ImportFrom) and node.level
             for alias in node.names}
    for own in ast.walk(tree):
        if isinstance(own, ast.FunctionDef):
            inner = {node for part in ast.walk(own) if isinstance(part, ast.FunctionDef) and part is not own
                     for node in ast.walk(part)}
            yield from ((node.func.id, f"{path.relative_to(ROOT)}:{own.lineno}") for node in ast.walk(own)
                        if isinstance(node, ast.Call) and isinstance(node.func, ast.Name) and node not in inner
                        and node.func.id in taken and node.func.id.islower())


def test_calls() -> None:
    """`docs/callers` tells each call that Python's own reader finds."""
    there = runpy.run_path(str(ROOT / "docs/callers"))
    python, number = there["PYTHON"], 0
    every = there["sources"](python)
    told = {(item.name, getattr(caller, "place", "")) for source in every for item in there["items"](python, source)
            for caller in there["callers"](python, item, every)}
    for path in files_in(ROOT / "dossier", "**/*.py"):
        found = set(calls_in(path, ast.parse(path.read_text("utf-8"))))
        number += len(found)
        check(f"docs/callers: what {path.name} calls", untold=(sorted(found - told), []))
    check("docs/callers: calls that are looked for", number=(number, lambda number: 500 < number))


ONE = """class One:
    def take(self) -> int:
        return self.own()

    def own(self) -> int:
        return 1
"""
OTHER = """from dossier.one import One

class Other:
    def take(self) -> int:
        return 1

    def anothers(self) -> int:
        return self.take()

def of_any(one: One) -> int:
    return one.take()

def of_other(other: Other) -> int:
    return other.take()

def handed(ones: list[One]) -> list[int]:
    return list(map(One.take, ones))

def field(one: One) -> int:
    return one.take + 1

def lent() -> object:
    def inner() -> int:
        return 1
    return run(inner)
"""
NAMESAKE = """class One:
    def own(self) -> int:
        return 1

def of_namesake(one: One) -> int:
    return one.own() + one.take()
"""


def test_methods() -> None:
    """`docs/callers` tells no field, and no method of another class, as one that is called; but what is handed on. A
    call where another class has the same name may be one."""
    there = runpy.run_path(str(ROOT / "docs/callers"))
    python = there["PYTHON"]
    one, other, _ = every = [there["Source"](ROOT / f"dossier/{name}.py", text, text) for name, text in
                             (("one", ONE), ("other", OTHER), ("namesake", NAMESAKE))]
    for source, name, seen in ((one, "own", ["called by take", "may be called by of_namesake"]),
                               (other, "inner", ["handed on by lent"]),
                               (one, "take", ["called by of_any", "called by handed", "may be called by of_namesake"])):
        item = next(item for item in there["items"](python, source) if item.name == name)
        said = [line.split(" in ")[0] for line in there["told"](python, item, every) if " by " in line]
        check(f"docs/callers: who calls {name}", said=(said, seen))


def kind_by(module: Any) -> Any:
    """A class of records by a module."""
    @module.dataclass(frozen=True)
    class Kind:
        one: int
        two: str = "b"
        three: list[int] = module.field(default_factory=list)
    return Kind


def outcome(call: Callable[[Any], object], kind: Any) -> object:
    try:
        return call(kind)
    except (TypeError, AttributeError) as error:
        return TypeError if isinstance(error, TypeError) else AttributeError


def test_records() -> None:
    """Records are what dataclasses of the standard library are."""
    from dossier import records
    ours, theirs = kind_by(records), kind_by(dataclasses)
    for name, call in {
        "all given": lambda kind: vars(kind(1, "c", [2])), "some left out": lambda kind: vars(kind(1)),
        "named": lambda kind: list(vars(kind(three=[3], one=1)).items()), "none": lambda kind: kind(),
        "one is missing": lambda kind: kind(two="c"), "one too many": lambda kind: kind(1, "c", [], 4),
        "one that isn't known": lambda kind: kind(1, four=4), "one twice": lambda kind: kind(1, one=1),
        "the same": lambda kind: kind(1) == kind(1, "b"), "another": lambda kind: kind(1) == kind(2),
        "other kinds": lambda kind: (kind(1) == 1, kind(1) != vars(kind(1))),
        "sums": lambda kind: len({kind(1, "b", ()), kind(1, "b", ()), kind(2, "b", ())}),
        "none of a list": lambda kind: hash(kind(1)), "its own list": lambda kind: kind(1).three is kind(1).three,
        "set": lambda kind: setattr(kind(1), "one", 2), "taken away": lambda kind: delattr(kind(1), "one"),
    }.items():
        check(f"records: {name}", seen=(outcome(call, ours), outcome(call, theirs)))
    small = ours(1, three=[3])
    check("records: changed", other=(vars(records.replace(small, two="c")), {"one": 1, "two": "c", "three": [3]}),
          kept=(records.asdict(small), {"one": 1, "two": "b", "three": [3]}))
