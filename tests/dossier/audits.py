"""What the tests of ntpaudit-dossier share: folders to audit, its calls, and what holds of every page."""
import atexit
import functools
import hashlib
import json
import os
import re
import runpy
import select
import shutil
import signal
import socket
import subprocess
import tempfile
import time
from base64 import b64encode
from collections.abc import Callable, Sequence
from html.parser import HTMLParser
from pathlib import Path
from typing import Any

from tests.support import DATA, ROOT, SECONDS, Ran, check, files_in, program, run, runnable, skip, wanting
from tests.dossier.leaps import LATER, leap_list

PROGRAM = program()
SCRIPT = ROOT / "ntpaudit-dossier"
STATE = tempfile.mkdtemp(prefix="ntpaudit-state-")
"""Where the audits of tests are recorded: not in the user's own record."""
atexit.register(shutil.rmtree, STATE, ignore_errors=True)
ENVIRONMENT = {**os.environ, "XDG_STATE_HOME": STATE, "NTPAUDIT": PROGRAM, "PYTHONDONTWRITEBYTECODE": "1",
               "LC_ALL": "C.UTF-8",
               "NTPAUDIT_LEAP_SECONDS": str(leap_list(Path(STATE) / "leap-seconds.list", LATER, (78_796_800, 11)))}
WITHOUT_EVIDENCE = {"clients-us.few.claim.json", "vlan-ns.silent.claim.json"}
"""Claims of which their capture says nothing, so that there are no figures."""
CLAIMS = [claim for claim in files_in(DATA, "*.claim.json") if claim.name not in WITHOUT_EVIDENCE]
KEEP = [("keep",)] if shutil.which("zstd") else []
"""The command `keep`, where it can be called: tests/dossier/test_daily.py says it where it can't."""
SEARCH = (ROOT / "dossier/page/templates/search.js").read_text()
"""The one script of pages, where a table is long."""
VOID = {"meta", "link", "br", "input"}


@functools.cache
def skipped(name: str, why: str) -> None:
    """Counts a test that isn't made here, once for a reason."""
    skip(name, why)


class Forks:
    """A process that forks for each call of the dossier (tests/dossier/forks.py). What it has loaded may hang on its
    environment, so that calls differ from it in nothing but these."""
    free = "XDG_STATE_HOME", "NTPAUDIT", "NTPAUDIT_SECOND"

    def __init__(self) -> None:
        self.calls, its_calls = socket.socketpair(socket.AF_UNIX, socket.SOCK_SEQPACKET)
        python = ["python3", "-I", "-S", "-B", "-X", "utf8", str(ROOT / "tests/dossier/forks.py"), str(SCRIPT)]
        self.process = subprocess.Popen(python, env=ENVIRONMENT, stdin=its_calls.fileno(), stdout=subprocess.PIPE,
                                        stderr=subprocess.PIPE)
        its_calls.close()
        atexit.register(self.end)

    def end(self) -> None:
        self.calls.close()
        self.process.wait()

    def run(self, words: Sequence[object], env: dict[str, str], cwd: object = ".", memory: int = 0) -> Ran:
        call = [*map(str, words)], os.path.abspath(str(cwd)), env, memory
        (out, its_out), (err, its_err) = os.pipe(), os.pipe()
        with open(os.devnull) as nothing:
            socket.send_fds(self.calls, [json.dumps(call).encode()], [nothing.fileno(), its_out, its_err])
        os.close(its_out)
        os.close(its_err)
        process, said, left = int(self.calls.recv(100)), {out: b"", err: b""}, {out, err}
        while left:
            ready = select.select(left, [], [], SECONDS)[0]
            if not ready:
                os.kill(process, signal.SIGKILL)
            for file in ready:
                said[file] += (block := os.read(file, 1 << 16))
                if not block:
                    left.remove(file)
                    os.close(file)
        return int(self.calls.recv(100)), said[out], said[err]


forks = functools.cache(Forks)
ASKED = set[object]()
"""Commands that were called."""


def dossier(*words: object, **how: Any) -> Ran:
    """A call, which may have a limit of memory in bytes. The first of each command begins with Python, as a user's, and
    so does one that `run` is told more of than its folder and its environment."""
    how.setdefault("env", ENVIRONMENT)
    others = {name for name, _ in how["env"].items() ^ ENVIRONMENT.items()}
    kind = words[:1], "memory" in how
    if kind in ASKED and how.keys() <= {"env", "cwd", "memory"} and others.issubset(Forks.free):
        return forks().run(words, **how)
    ASKED.add(kind)
    if memory := how.pop("memory", None):
        words = "sh", "-c", f'ulimit -v {memory // 1024}; exec "$0" "$@"', SCRIPT, *words
    return run(words if memory else [SCRIPT, *words], **how)


def with_change(change: str, *words: object, **how: Any) -> Ran:
    """A call of the dossier that some Python has changed before."""
    script = (f"import sys\nsys.path.insert(0, {str(ROOT)!r})\n{change}\nfrom dossier import command_line\n"
              "sys.exit(command_line.main(sys.argv[1:]))\n")
    how.setdefault("env", ENVIRONMENT)
    return run(["python3", "-I", "-S", "-B", "-X", "utf8", "-c", script, *words], **how)


def stand_in(path: Path, script: str) -> dict[str, str]:
    """The environment of calls of a program that does something and then is the program."""
    runnable(path, f'#!/bin/sh\n{script}\nexec "{PROGRAM}" "$@"\n')
    return {**ENVIRONMENT, "NTPAUDIT": str(path)}


def within(call: Callable[[int], Ran], is_enough: Callable[[Ran], object]) -> tuple[int, Ran]:
    """The least of some limits in seconds that leaves enough for what doesn't hang, and what a call with it gives."""
    for limit in (3, 15, 75, 375):
        ran = call(limit)
        if is_enough(ran):
            break
    return limit, ran


def folder_of(parent: Path, name: str, capture: Path = DATA / "clients-us.pcap",
              claim: Path = DATA / "clients-us.claim.json", /, **changes: object) -> Path:
    """A folder with a claim and a capture, and some of the claim's values changed."""
    folder = parent / name
    folder.mkdir(parents=True)
    shutil.copy(capture, folder / "f.pcap")
    (folder / "claim.json").write_text(json.dumps({**json.loads(claim.read_text()), **changes}))
    return folder


def audited(*given: Any, **changes: object) -> Path:
    """The same, audited."""
    folder = folder_of(*given, **changes)
    dossier("audit", folder)
    return folder


def record_of(folder: Path) -> Any:
    """What stands in a folder's audit.json."""
    return json.loads((folder / "audit.json").read_text())


def rows(*found: Any) -> tuple[Any, ...]:
    """Cases of which each has its own kinds of values."""
    return found


def called(path: object) -> str:
    """The name of a folder's page without its ending, by docs/DOSSIER.md."""
    return "".join("+" if byte == 47 else chr(byte) if byte < 128 and chr(byte).isalnum() or byte in b"._-"
                   else f"={byte:02X}" for byte in os.fsencode(str(path)))


def match_of(pattern: str, text: str) -> re.Match[str]:
    """Where a text has this: it has to."""
    found = re.search(pattern, text)
    assert found, pattern
    return found


CAPTURE = runpy.run_path(str(ROOT / "tests" / "tools" / "capture_of"))["capture"]


def capture_of(path: Path, *words: str) -> Path:
    path.write_bytes(CAPTURE(words))
    return path


def table(*folders: Path, words: Sequence[object] = ()) -> list[dict[str, Any]]:
    """The table's lines, in the order of the folders."""
    rows = json.loads(dossier("page", "--json", *words, *folders)[1])
    names = list(map(str, folders))
    return sorted(rows, key=lambda row: names.index(row["machine"]) if row["machine"] in names else 0)


def running_program() -> Any:
    from dossier.folder.entry import Made
    from dossier.folder.program import Program
    return Program(PROGRAM, Made("ntpaudit", "0" * 64))


def auditing(place: Path) -> Any:
    """What audits a folder in this process's children, for what of the dossier is changed here."""
    from dossier.fleet import audit
    from dossier.folder.entry import LeapList, Options
    from dossier.folder.registry import Known
    wanted = audit.AuditCall(Options(), False, LeapList("none", good_until=4_000_000_000),
                             Known(str(place / "state"), True), running_program())
    return lambda path, number: audit.audit(wanted, path, number)


def civil(second: int) -> str:
    return time.strftime("%Y-%m-%dT%H:%M:%SZ", time.gmtime(second))


def parts_left(parent: Path) -> list[str]:
    return [str(path) for path in parent.rglob(".*")]


Attributes = list[tuple[str, str | None]]


class Outline(HTMLParser):
    """Whether the tags of a page match, what it would fetch, and its words."""

    def __init__(self, text: str) -> None:
        super().__init__()
        self.open, self.wrong, self.words = list[str](), list[str](), list[str]()
        self.fetched, self.ids, self.tags = list[str | None](), list[str | None](), set[str]()
        self.feed(text)
        self.close()
        self.wrong += [f"<{tag}> isn't closed" for tag in self.open]

    def handle_starttag(self, tag: str, attributes: Attributes) -> None:
        self.tags.add(tag)
        self.ids += [value for name, value in attributes if name == "id"]
        self.fetched += [value for name, value in attributes
                         if name in ("src", "href", "srcset", "action") and not str(value).startswith("#")]
        self.wrong += [f"{name} of <{tag}>" for name, _ in attributes if name.startswith("on")]
        if tag not in VOID:
            self.open.append(tag)

    def handle_startendtag(self, tag: str, attributes: Attributes) -> None:
        self.handle_starttag(tag, attributes)
        if tag not in VOID:
            self.open.pop()

    def handle_endtag(self, tag: str) -> None:
        if not self.open or self.open.pop() != tag:
            self.wrong.append(f"</{tag}>")

    def handle_data(self, words: str) -> None:
        self.words.append(words)


def check_page(name: str, text: str, links: Sequence[str] = (), scripts: Sequence[str] = ()) -> "Outline":
    """Holds a page to what holds of every one. It has no script but these, each named by its sum."""
    page = Outline(text)
    there = re.findall("<script>(.*?)</script>", text, flags=re.S)
    sums = [f" &#39;sha256-{b64encode(hashlib.sha256(script.encode()).digest()).decode()}&#39;" for script in scripts]
    policy = "".join(["default-src &#39;none&#39;; style-src &#39;unsafe-inline&#39;", *["; script-src"][:len(sums)],
                      *sums])
    check(f"{name} is well-formed", wrong=(page.wrong, []), ids=(len(page.ids), len(set(page.ids))),
          fetched=(page.fetched, list(links)), tags=(page.tags & {"img", "iframe", "object", "link"}, set()),
          scripts=((there, text.count("<script")), (list(scripts), len(scripts))),
          policy=(f'http-equiv="Content-Security-Policy" content="{policy}"' in text, True),
          style=("url(" in text or "@import" in text, False))
    if shutil.which("tidy"):
        status, _, err = run(["tidy", "-e", "-q", "--drop-empty-elements", "no", "--show-warnings", "no"],
                             text.encode())
        check(f"{name} by tidy", run=((status in (0, 1), err), (True, b"")))
    else:
        skipped("pages by tidy", wanting("tidy"))
    return page
