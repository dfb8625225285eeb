"""Tests the launcher ./ntpaudit and ./install on a copy of them, with a stand-in for the toolchain.

In the copy the "program" is its source, a shell script, and a build copies it. So the tests see when a build is made,
of what, and what is run. It prints a line for each case that failed, and last 'N passed, M failed, K skipped'.
"""
import os
import re
import shutil
import subprocess
from collections.abc import Callable, Iterator
from contextlib import contextmanager
from pathlib import Path
from typing import Any

from tests.support import ROOT, SECONDS, Ran, check, manifest_of, nobody, run, runnable, sum_of, wait_until

STAND_IN = """#!/bin/sh
# stands in for the toolchain: `rt run` in the crate's folder leaves the "program" that its source is
set -eu
here=$(dirname "$0")
if [ "$*" = version ]; then cat "$here/version"; exit; fi
echo noise of a build; echo noise of a build >&2
case $* in "all check --jobs "[0-9]*)
    [ -f crates.txt ]; echo "== other"; echo "== summary"; echo "other: ok"; exit ;;
esac
[ "$*" = "run -- --help" ]
[ "$(basename "$PWD")" = ntpaudit ]
cat > /dev/null
echo . >> ../../builds
if [ -e "$here/holds" ]; then
    touch "$here/is-held"
    while [ -e "$here/holds" ]; do sleep 0.05; done
fi
if [ -e "$here/changes-sources" ]; then echo '# changed meanwhile' >> src/main.rt; fi
if [ -e "$here/leaves-nothing" ]; then exit 0; fi
if grep -q wrong src/main.rt; then echo the proof is open; exit 1; fi
mkdir -p out; cp src/main.rt out/ntpaudit
"""
PROGRAM = '#!/bin/sh\nread -r line || line=none\necho "$PWD $line $*"\necho the program ran >&2\nexit 3\n'
STRANGE = PROGRAM.replace("ran", "ran wrongly")
TOOLS = (
    "sh bash env find sort sha256sum readlink mkdir mv cp rm chmod tail touch sleep flock dirname basename cat grep "
    "nproc cmp").split()
BUILDING = rb"ntpaudit: building, which mostly takes 12 to 25 minutes on four processors; " \
           rb"\S.*/out/build\.log shows how far it is\n" \
           rb"(ntpaudit: still building, \d+ of \d+ crates are proved, after \d+ s\n)*"


class Copy:
    """A copy of the launcher in a repository of one crate, with a folder of tools and one of a home."""

    def __init__(self, folder: Path) -> None:
        folder.chmod(0o755)
        self.folder, self.top, self.home = folder, folder / "copy of it", folder / "home"
        self.tools, self.toolchain = folder / "bin", folder / "toolchain"
        self.crate, self.kept = self.top / "crates/ntpaudit", self.top / "out"
        self.source = self.crate / "src/main.rt"
        for made in (self.crate / "src", self.crate / "specs", self.top / "crates/other/proofs/lemma", self.tools,
                     self.toolchain, self.home):
            made.mkdir(parents=True)
        for script in ("ntpaudit", "install"):
            shutil.copy(ROOT / script, self.top / script)
        (self.top / "crates.txt").write_text("ntpaudit: other\n")
        (self.top / "crates/other/proofs/lemma/Answers.antt").write_text("-- a proof\n")
        self.source.write_text(PROGRAM)
        self.rt = self.toolchain / "rt"
        runnable(self.rt, STAND_IN)
        (self.toolchain / "version").write_text("stand-in 1\n")
        for tool in TOOLS:
            (self.tools / tool).symlink_to(str(shutil.which(tool)))

    def without(self, tool: str) -> Path:
        """A folder of all tools but one."""
        bare = self.folder / f"no-{tool}"
        shutil.copytree(self.tools, bare, symlinks=True, ignore=lambda *_: [tool])
        return bare

    def environment(self, tools: Path | None = None, toolchain: Path | None = None) -> dict[str, str]:
        folders = [toolchain or self.toolchain, tools or self.tools]
        return {"PATH": os.pathsep.join(str(folder) for folder in folders), "HOME": str(self.home)}

    def launch(self, *words: object, by: list[Path | str] | None = None, tools: Path | None = None,
               toolchain: Path | None = None, **how: Any) -> Ran:
        """Status, output and error of the launcher, called from another folder."""
        call = by or [self.top / "ntpaudit"]
        return run([*call, *words], b"input\n", cwd=self.folder, env=self.environment(tools, toolchain), **how)

    def ran(self, *words: object) -> bytes:
        """What the program prints, called from the folder."""
        return f"{os.path.realpath(self.folder)} input {' '.join(map(str, words))}\n".encode()

    def builds(self) -> int:
        return len((self.top / "builds").read_text().split()) if (self.top / "builds").exists() else 0

    @contextmanager
    def marked(self, name: str) -> Iterator[None]:
        """While the toolchain does this."""
        (self.toolchain / name).touch()
        try:
            yield
        finally:
            (self.toolchain / name).unlink()

    def write_source(self, more: str = "") -> None:
        self.source.write_text(PROGRAM + more)

    def write_version(self, version: str, toolchain: Path | None = None) -> None:
        """Puts a toolchain of this version there."""
        ((toolchain or self.toolchain) / "version").write_text(f"{version}\n")
        ((toolchain or self.toolchain) / "rt").touch()

    def check_run(self, name: str, *words: object, is_built: bool = False, **how: Any) -> None:
        """A call runs the program, which it builds or not."""
        before, (status, out, err) = self.builds(), self.launch(*words, **how)
        told = re.compile((BUILDING if is_built else b"") + b"the program ran\n")
        check(name, status=(status, 3), output=(out, self.ran(*words)), error=(err, lambda seen: told.fullmatch(seen)),
              builds=(self.builds() - before, int(is_built)))

    def check_refused(self, name: str, why: bytes, **how: Any) -> None:
        """A call ends with status 70, says why, and runs nothing."""
        status, out, err = self.launch("list", **how)
        check(name, status=(status, 70), output=(out, b""),
              error=(err, lambda seen: why in seen and b"the program ran" not in seen))


def ship(copy: Copy) -> Path:
    """Puts the program of the copy's sources into its dist/, with a manifest."""
    dist = copy.top / "dist"
    dist.mkdir(exist_ok=True)
    shutil.copy(copy.source, dist / "ntpaudit")
    (dist / "ntpaudit").chmod(0o755)
    (dist / "MANIFEST").write_text(manifest_of(copy.top, "stand-in 1"))
    return dist


def test_calls(folder: Path) -> None:
    copy = Copy(folder)
    link = folder / "link"
    link.symlink_to(copy.top / "ntpaudit")
    copy.check_refused("without a toolchain", b"the command rt of the Rattle toolchain is not on the PATH",
                       toolchain=copy.home)
    copy.check_run("the first call", "list", "a b", is_built=True)
    copy.check_run("the second call", "list", "a b")
    copy.check_run("a call by a link, without a toolchain", "list", by=[link], toolchain=copy.home)
    copy.check_run("a call by sh", "list", by=["sh", copy.top / "ntpaudit"])
    copy.check_run("a call that hashes nothing", tools=copy.without("sha256sum"))
    moved = folder / "alone"
    shutil.copy(copy.top / "ntpaudit", moved)
    copy.check_refused("the launcher alone", b"its repository is not around it", by=[moved])


def set_back(copy: Copy) -> None:
    """A change with a time that is set back."""
    old = copy.source.stat()
    copy.write_source("# other\n")
    os.utime(copy.source, (old.st_atime - 1000, old.st_mtime - 1000))


def replace_by_older(copy: Copy) -> None:
    (older := copy.folder / "older").write_text(PROGRAM + "# older\n")
    os.utime(older, (0, 0))
    older.rename(copy.source)


CHANGES: dict[str, tuple[Callable[[Copy], object], bool]] = {
    "no change": (lambda copy: None, True),
    "a new file": (lambda copy: (copy.crate / "specs/Line.antt").write_text("-- a definition\n"), True),
    "a touch": (lambda copy: copy.source.touch(), False),
    "a change with a time set back": (set_back, True),
    "an older file took a file's place": (replace_by_older, True),
    "a folder has another name": (lambda copy: (copy.top / "crates/other/proofs/lemma").rename(
        copy.top / "crates/other/proofs/other_lemma"), True),
    "the program was replaced": (lambda copy: (copy.kept / "ntpaudit").write_text(STRANGE), True),
    "a touch of the toolchain": (lambda copy: copy.rt.touch(), False),
    "another toolchain took its place": (lambda copy: copy.write_version("stand-in 2"), True),
    "an empty stamp": (lambda copy: (copy.kept / "ntpaudit.stamp").write_text(""), True),
    "the folder out/ was removed": (lambda copy: shutil.rmtree(copy.kept), True)}
"""What changes, and whether the next call builds."""


def test_changes(folder: Path) -> None:
    """Whatever changes in the sources, the program or the toolchain, the next call notices."""
    copy = Copy(folder)
    for name, (change, is_built) in CHANGES.items():
        change(copy)
        copy.check_run(f"after {name}", is_built=is_built)
    other = folder / "other toolchain"
    shutil.copytree(copy.toolchain, other)
    for version, is_built in (("stand-in 2", False), ("stand-in 3", True), ("kit-a logic one", True),
                              ("kit-b logic one", False), ("kit-b logic two", True)):
        copy.write_version(version, other)
        copy.check_run(f"with {version} elsewhere", toolchain=other, is_built=is_built)
        if version == "stand-in 2":
            copy.check_run("with the toolchain of the build")


def test_failed_builds(folder: Path) -> None:
    """A build that fails leaves no program that could be taken for a proved one."""
    copy = Copy(folder)
    log = copy.kept / "build.log"

    def refused_twice(name: str, why: bytes) -> None:
        for call in (name, f"{name}, called again"):
            copy.check_refused(call, why)
    copy.check_run("before the failures", is_built=True)
    copy.write_source("# wrong\n")
    refused_twice("a failed build", b"the proof is open")
    copy.check_refused("after a failed build, without a toolchain", b"is not on the PATH", toolchain=copy.home)
    copy.write_source("# right\n")
    with copy.marked("leaves-nothing"):
        refused_twice("a build that leaves no program", b"the build left no program")
    copy.check_run("a build that leaves one", is_built=True)
    copy.write_source("# other\n")
    log.unlink()
    log.mkdir()
    refused_twice("a log that is a folder", b"build.log cannot be written")
    log.rmdir()
    copy.check_run("a log that is a file again", is_built=True)
    copy.write_source("# a change\n")
    with copy.marked("changes-sources"):
        copy.check_refused("sources that change during the build", b"the sources were changed while it was built")
    copy.check_run("sources that changed once", is_built=True)
    copy.source.write_text("#!/missing/interpreter\n")
    copy.check_refused("a program that can't be started", b"ntpaudit: ")
    shutil.rmtree(copy.kept)
    copy.write_source()
    copy.kept.write_text("a file\n")
    copy.check_refused("a file in the place of out/", b"nothing can be written")
    copy.kept.unlink()
    copy.rt.write_text("#!/bin/sh\nexit 1\n")
    copy.check_refused("a toolchain without a version", b"does not tell its version")


def test_shipped_program(folder: Path) -> None:
    """The program in dist/ runs at once as long as sources, program and manifest belong together."""
    copy = Copy(folder)
    dist, kept = ship(copy), (copy.top / "dist/MANIFEST").read_text()
    nothing: dict[str, Any] = {"toolchain": copy.home}
    copy.check_run("the shipped program, without a toolchain", "list", **nothing)
    copy.check_run("the shipped program again, which hashes nothing", tools=copy.without("sha256sum"), **nothing)
    copy.check_run("the shipped program, with a toolchain")
    (copy.toolchain / "version").write_text("stand-in 2\n")
    copy.check_run("the shipped program, with another toolchain")
    (copy.toolchain / "version").write_text("stand-in 1\n")
    copy.write_source("# other\n")
    copy.check_refused("other sources, without a toolchain", b"which is run by: dist/ntpaudit", **nothing)
    copy.check_run("other sources, with a toolchain", is_built=True)
    copy.write_source()
    copy.check_run("the sources of the shipped program again", **nothing)
    for name, file, text in (("a changed program", "ntpaudit", PROGRAM + "# spoiled\n"),
                             ("a changed manifest", "MANIFEST", kept.replace("program ", "program 0")),
                             ("an empty manifest", "MANIFEST", ""), ("no program", "ntpaudit", None)):
        ship(copy)
        shutil.rmtree(copy.kept)
        (dist / file).unlink() if text is None else (dist / file).write_text(text)
        copy.check_refused(f"{name}, without a toolchain", b"dist/", **nothing)
    copy.check_run("no program, with a toolchain", is_built=True)
    ship(copy)
    shutil.rmtree(copy.kept)
    copy.kept.write_text("a file\n")
    copy.check_run("the shipped program where nothing can be kept", **nothing)
    copy.kept.unlink()
    how = nobody("the shipped program in a read-only folder")
    if how:
        copy.top.chmod(0o555)
        copy.check_run("the shipped program in a read-only folder", **nothing, **how)
        copy.top.chmod(0o755)


def test_strange_folders(folder: Path) -> None:
    """Somebody's folder `out` beside the launcher, with a program and a stamp that fits the sources: it isn't run."""
    copy = Copy(folder)
    ship(copy)
    nothing: dict[str, Any] = {"toolchain": copy.home}
    copy.check_run("before a strange folder", **nothing)
    for name, is_there in (("without one's own", False), ("over one's own", True)):
        stamp = (copy.kept / "ntpaudit.stamp").read_text().splitlines()
        for mode in (0o755, 0o555):
            if not is_there:
                shutil.rmtree(copy.kept)
            copy.kept.mkdir(exist_ok=True)
            runnable(copy.kept / "ntpaudit", STRANGE)
            found = os.stat(copy.kept / "ntpaudit")
            for third in (stamp[2], sum_of(STRANGE.encode()) + "  -", f"{found.st_ino} {found.st_mtime:.10f}"):
                (copy.kept / "ntpaudit.stamp").write_text("\n".join([*stamp[:2], third, *stamp[3:], ""]))
                os.utime(copy.kept / "ntpaudit.stamp", (2**33, 2**33))
                copy.kept.chmod(mode)
                copy.check_run(f"a strange folder {name}, {mode:o}", **nothing)
                copy.kept.chmod(0o755)
                path = copy.launch("--path", **nothing)[1].decode().strip()
                check(f"where the program is, {name}", same=(Path(path).read_text(), PROGRAM))
    shutil.rmtree(copy.kept)
    (folder / "elsewhere").mkdir()
    copy.kept.symlink_to(folder / "elsewhere")
    copy.check_refused("a link in the place of out/", b"out is a link", **nothing)
    check("where the link leads", left=(os.listdir(folder / "elsewhere"), []))
    copy.kept.unlink()
    copy.kept.mkdir()
    (copy.kept / "build.log").symlink_to(folder / "elsewhere/victim")
    copy.write_source("# other\n")
    copy.check_refused("a link in out/", b"has links in it")
    check("where a link in out/ leads", left=(os.listdir(folder / "elsewhere"), []))


def test_verify(folder: Path) -> None:
    """The shipped program is compared with one that is built from nothing."""
    copy = Copy(folder)
    copy.source.write_text(PROGRAM.replace("exit 3", "exit 0"))
    dist = ship(copy)
    sources = (dist / "MANIFEST").read_text().splitlines()[1]

    def verify(name: str, wanted: int, why: bytes, **how: Any) -> None:
        status, out, err = run([copy.top / "ntpaudit", "--verify"], cwd=folder, env=copy.environment(**how))
        check(name, status=(status, wanted), said=(out + err, lambda seen: why in seen),
              left=(list(copy.kept.glob("fresh*")), []))

    verify("verified", 0, b"is what was proved and built of these sources: " + sources.split()[1].encode())
    status, out, err = copy.launch("--version")
    told = [sources, "toolchain stand-in 1"]
    check("the version, with the sum of the sources and the toolchain", status=(status, 0),
          output=(out.decode().splitlines(), lambda seen: seen[0].endswith("--version") and seen[1:] == told))
    verify("verified without a toolchain", 70, b"has to be on the PATH", toolchain=copy.home)
    with copy.marked("leaves-nothing"):
        verify("verified by a build that leaves no program", 70, b"the build left no program")
    copy.write_source()
    verify("verified with other sources", 70, b"not those of the program in dist/")
    (dist / "ntpaudit").write_text("another\n")
    (dist / "MANIFEST").write_text(manifest_of(copy.top, "stand-in 1"))
    verify("another program with its own manifest", 70, b"is not what was built just now")
    (dist / "MANIFEST").write_text(manifest_of(copy.top, "stand-in 2"))
    others = b" by another toolchain, stand-in 1 (dist/MANIFEST names stand-in 2)"
    verify("another program, of another toolchain", 70, b"is not what was built just now" + others)
    copy.source.write_text(PROGRAM.replace("exit 3", "exit 0"))
    (ship(copy) / "MANIFEST").write_text(manifest_of(copy.top, "stand-in 2"))
    verify("the same program by another toolchain", 0, b"is what was proved and built of these sources" + others)


def test_tools_and_rights(folder: Path) -> None:
    copy = Copy(folder)
    for tool in ("sha256sum", "find", "sort", "flock", "touch"):
        copy.check_refused(f"without {tool}", f"the command {tool} is not on the PATH".encode(),
                           tools=copy.without(tool))
    how = nobody("a checkout of another user")
    if how is None:
        return
    for kept in (copy.top, copy.kept, copy.crate, copy.crate / "src"):
        kept.chmod(0o555)
    copy.check_refused("a read-only checkout", b"read-only", **how)
    copy.top.chmod(0o777 if how else 0o755)
    copy.source.chmod(0)
    copy.check_refused("a source that may not be read", b"a file of the sources cannot be read", **how)
    copy.source.chmod(0o644)
    (copy.crate / "specs").chmod(0)
    copy.check_refused("a folder of sources that may not be read", b"a file of the sources cannot be read", **how)
    for kept in (copy.kept, copy.crate, copy.crate / "src", copy.crate / "specs"):
        kept.chmod(0o755)
    if how:
        copy.check_run("built by its owner", is_built=True)
        copy.top.chmod(0o555)
        copy.check_run("run by another user", **how)
        copy.source.touch()
        copy.check_run("run by another user after a touch", **how)
        copy.write_source("# a change\n")
        copy.check_refused("run by another user after a change", b"read-only", **how)


def test_two_builds(folder: Path) -> None:
    """A call during a build says so, waits for its end, and builds nothing."""
    copy, said, calls = Copy(folder), folder / "said", list[subprocess.Popen[bytes]]()
    with copy.marked("holds"):
        for what, errors, is_so in (
                ("a build is begun", Path(os.devnull), (copy.toolchain / "is-held").exists),
                ("a second call says that a build is running", said, lambda: b"another build" in said.read_bytes())):
            with open(errors, "wb") as error:
                calls.append(subprocess.Popen([copy.top / "ntpaudit", "list"], stdin=subprocess.DEVNULL, stderr=error,
                                              stdout=subprocess.PIPE, cwd=folder, env=copy.environment()))
            check(what, seen=(wait_until(is_so), True))
    outs = [call.communicate(timeout=SECONDS)[0] for call in calls]
    check("two calls at once", statuses=([call.returncode for call in calls], [3, 3]), builds=(copy.builds(), 1),
          outputs=(outs, 2 * [copy.ran("list").replace(b"input", b"none")]),
          error=(said.read_bytes(),
                 b"ntpaudit: another build is running here; this call waits for its end\nthe program ran\n"))


def test_killed_launcher(folder: Path) -> None:
    """What a killed launcher left is not taken for a built program, and the next call waits for what still runs."""
    copy = Copy(folder)
    with copy.marked("holds"):
        call = subprocess.Popen([copy.top / "ntpaudit"], stdin=subprocess.DEVNULL, stdout=subprocess.DEVNULL,
                                stderr=subprocess.DEVNULL, cwd=folder, env=copy.environment())
        check("a build is begun, to be left alone", seen=(wait_until((copy.toolchain / "is-held").exists), True))
        call.kill()
        call.wait()
        check("a killed launcher leaves no program", seen=((copy.kept / "ntpaudit").exists(), False))
    status, out, _ = copy.launch("list")
    check("a call after a killed launcher", status=(status, 3), output=(out, copy.ran("list")),
          builds=(copy.builds(), 2))


def test_install(folder: Path) -> None:
    copy = Copy(folder)
    copy.source.write_text(PROGRAM.replace("exit 3", "exit 0"))
    prefix = folder / "a prefix"

    def install(*words: object, toolchain: Path | None = None, home: bool = True) -> Ran:
        environment = copy.environment(toolchain=toolchain)
        if not home:
            del environment["HOME"]
        return run([copy.top / "install", *words], cwd=folder, env=environment)

    def refused(name: str, *words: object, **how: Any) -> None:
        status, out, err = install(*words, **how)
        check(name, status=(status, 70), output=(out, b""), error=(err, lambda seen: b"ntpaudit: " in seen))

    refused("an install without a toolchain", prefix, toolchain=copy.home)
    check("an install that failed leaves nothing", seen=(prefix.exists(), False))
    for call in ("an install", "an install over it"):
        status, out, err = install(prefix)
        check(call, status=(status, 0), output=(out, f"{prefix}/bin/ntpaudit\n".encode()), error=(
            err, lambda seen: b"is not on the PATH\n" in seen), files=(os.listdir(prefix / "bin"), ["ntpaudit"]))
    status, out, err = run([prefix / "bin/ntpaudit", "list"], b"input\n", cwd=folder, env={"PATH": str(copy.tools)})
    check("the installed program", run=((status, out, err), (0, copy.ran("list"), b"the program ran\n")))
    status, out, err = install()
    check("an install at home", status=(status, 0), there=((copy.home / ".local/bin/ntpaudit").exists(), True))
    (folder / "file").write_text("")
    refused("an install below a file", folder / "file")
    refused("an install to two folders", prefix, prefix)
    refused("an install with an option", "--bogus")
    refused("an install without a home", home=False)
    status, out, err = install("--help")
    check("help on installing", status=(status, 0), output=(out, lambda seen: b"PREFIX" in seen), error=(err, b""))
