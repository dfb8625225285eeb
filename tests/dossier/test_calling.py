"""Tests of how the dossier is called: what a folder would have run, statuses, and words.
"""
import os
import shutil
import sys
from pathlib import Path
from unittest.mock import patch
from typing import Any

from tests.support import ROOT, check, manifest_of, nobody, run, runnable, sum_of
from tests.dossier.audits import ENVIRONMENT, PROGRAM, SCRIPT, audited, dossier, folder_of, skipped, with_change


def test_owned(place: Path) -> None:
    """Programs and modules that lie in the delivered folder aren't run, whatever PATH and PYTHONPATH are."""
    folder, owned, house = folder_of(place, "host"), place / "owned", place / "house"
    dossier("audit", folder)
    (house / "bin").mkdir(parents=True)
    (house / "crates.txt").write_text("")
    shutil.copy(ROOT / "ntpaudit", house)
    runnable(house / "bin" / "rt", f"#!{sys.executable}\nimport json, sys\nsys.exit(sys.argv[1] != 'version')\n")
    script = f'#!/bin/sh\necho "$0" >> "{owned}"\n'
    names = "rt python3 env readlink find sha256sum sort zstd ssh-keygen tcpdump sh cp mv chmod mkdir touch sleep rm"
    for name in f"{names} nproc git dirname ntpaudit".split():
        runnable(folder / name, script)
    for name in ("argparse", "json", "os", "sitecustomize", "usercustomize", "hashlib", "subprocess"):
        (folder / f"{name}.py").write_text(f"open({str(owned)!r}, 'a').write(__name__)\nraise SystemExit(1)\n")
    (folder / "dossier").mkdir()
    (folder / "dossier" / "__init__.py").write_text(f"open({str(owned)!r}, 'a').write('dossier')\n")
    for path, python in ((f".:{os.environ['PATH']}", ":"), (f"{os.environ['PATH']}:.", f":{folder}"),
                         (f":{os.environ['PATH']}", "."), (f"{os.environ['PATH']}:./", "")):
        how: dict[str, Any] = {
            "cwd": folder, "env": {**ENVIRONMENT, "PATH": path, "PYTHONPATH": python, "PYTHONSTARTUP": "os.py",
                                   "LD_LIBRARY_PATH": ":", "PYTHONHOME": ""}}
        for words in (("verify", "."), ("audit", "--again", "."), ("page", "--json", "."), ("help",)):
            status = dossier(*words, **how)[0]
            check(f"{words[0]} in a delivered folder by {path[:2]}..{path[-2:]}", owned=(owned.exists(), False),
                  status=(status, 0))
        bare = {**how["env"], "PATH": path.replace(os.environ["PATH"], f"{house}/bin:{os.environ['PATH']}")}
        status, _, err = run([house / "ntpaudit", "list", "f.pcap"], cwd=folder, env=bare)
        check(f"the launcher in a delivered folder by {path[:2]}..{path[-2:]}", status=(status, 70),
              owned=(owned.exists(), False), built=(b"it was not built" in err, True))
        owned.unlink(missing_ok=True)


def test_beside(place: Path) -> None:
    """What lies beside the script or its repository isn't run: a folder `out`, `second` or `dossier`."""
    house, copy, prefix = place / "house", place / "copy", place / "prefix"
    script = f'#!/bin/sh\necho "$0" >> "{place}/owned"\n'
    bare = {name: value for name, value in ENVIRONMENT.items() if name not in ("NTPAUDIT", "NTPAUDIT_SECOND")}
    for top in (house, copy, prefix / "share/ntpaudit"):
        shutil.copytree(ROOT / "dossier", top / "dossier", ignore=shutil.ignore_patterns("__pycache__"))
    for folder in (house / "dist", house / "crates/ntpaudit/src", prefix / "bin"):
        folder.mkdir(parents=True)
    for top in (house, copy, prefix / "bin"):
        shutil.copy(SCRIPT, top)
    shutil.copy(ROOT / "ntpaudit", house)
    (house / "crates.txt").write_text("ntpaudit:\n")
    (house / "crates/ntpaudit/src/main.rt").write_text("a source\n")
    shutil.copy(PROGRAM, house / "dist/ntpaudit")
    (house / "dist/MANIFEST").write_text(manifest_of(house, "a toolchain"))
    for file in (house / "out/ntpaudit", copy / "out/ntpaudit", copy / "second/recheck",
                 prefix / "share/ntpaudit/ntpaudit"):
        file.parent.mkdir(exist_ok=True)
        runnable(file, script)
    (prefix / "bin/dossier").mkdir()
    (prefix / "bin/dossier/__init__.py").write_text(f"open('{place}/owned', 'a').write('dossier')\n")
    (house / "out").chmod(0o555)
    how = nobody("a strange folder that can't be written")
    for top in (copy, prefix / "bin"):
        shutil.copy(PROGRAM, top / "ntpaudit")
    for top in (house, copy, prefix / "bin"):
        how = how if top == house and how else {}
        status, out, _ = run([top / "ntpaudit-dossier", "--version"], env=bare, **how)
        check(f"the program of {top.name}", status=(status, 0), sum=(sum_of(Path(PROGRAM).read_bytes()) in out.decode(),
                                                                     True))
    dossier("audit", folder := folder_of(place, "host"))
    run([copy / "ntpaudit-dossier", "verify", "--second", folder], env=bare)
    check("what lies beside", run=((place / "owned").exists(), False))


def test_older_python(place: Path) -> None:
    """Where python3 is older than 3.11, a newer one is taken by its name."""
    for folder in ("older", "newer"):
        (place / folder).mkdir()
    older = place / "older/python3"
    runnable(older, f"#!/bin/sh\nshift 5\nexec {sys.executable} -c 'import runpy, sys; sys.version_info = (3, 9, 18); "
             "sys.argv = sys.argv[1:]; runpy.run_path(sys.argv[0], run_name=\"__main__\")' \"$@\"\n")
    (place / "newer/python3.11").symlink_to(os.path.realpath(sys.executable))
    for path, wanted in ((place / "older", 70), (f"{place}/older:{place}/newer", 0)):
        status, out, err = run([SCRIPT, "--version"], env={**ENVIRONMENT, "PATH": str(path)})
        check(f"an older Python, status {wanted}", run=(status, wanted),
              said=(b"form " in out if wanted == 0 else b"Python 3.11" in err, True))


def test_statuses(place: Path) -> None:
    """No fault has the status of a no."""
    folder, gone = audited(place, "host"), place / "gone"
    gone.mkdir()
    calls: dict[str, tuple[str, tuple[int, ...]]] = {
        "a current folder that is gone": (f'cd "{gone}"; rmdir "{gone}"; "$0" verify "{folder}"', ()),
        "6 descriptors": (f'ulimit -n 6; "$0" verify "{folder}"', ()),
        "no memory": (f'ulimit -v 20000; "$0" verify "{folder}"', ()),
        "closed output": (f'"$0" page "{folder}" >&-', (4,)), "closed input": (f'"$0" verify "{folder}" <&-', (0,)),
        "closed errors": (f'"$0" verify "{folder}" 2>&-', (0,)),
        "closed errors, and what is said there": ('"$0" page -o /dev/full x 2>&-', (4,)),
        "errors to a full disk": ('"$0" audit --bad 2>/dev/full', (4, 5)),  # (5 if Python's own parser passes over it)
        "an empty operand": ('"$0" verify ""', (5,)), "a full output": (f'"$0" verify "{folder}" > /dev/full', (4,)),
        "help to a full output": ('"$0" help > /dev/full', (4,))}
    for name, (script, wanted) in calls.items():
        status, out, _ = run(["sh", "-c", script, SCRIPT], env=ENVIRONMENT)
        check(f"the status of {name}", is_one=(status in (wanted or (0, 2, 3, 4, 70)), True),
              yes=(b"verified" in out, status == 0))
    how = nobody("a user who may begin no process")
    if how:  # (who can't reach a repository in root's home)
        shutil.copytree(ROOT / "dossier", place / "copied/dossier", ignore=shutil.ignore_patterns("__pycache__"))
        words = ["prlimit", "--nproc=1", shutil.copy(SCRIPT, place / "copied"), "--version"]
        status, out, err = run(words, env={**ENVIRONMENT, "NTPAUDIT": shutil.copy(PROGRAM, place / "copied")}, **how)
        check("no process", run=((status, out), (4, b"")), said=(b"can't be called (Resource" in err, True))
    text = runnable(place / "text", "ntpaudit")
    check("a program that is none", run=(dossier("verify", folder, env={**ENVIRONMENT, "NTPAUDIT": str(text)}), (
        4, b"", b"ntpaudit-dossier: text can't be called (Exec format error)\n")))
    if os.geteuid():
        skipped("an unreadable current folder", "this isn't root")
        return
    for path, mode in ((shut := place / "shut", 0o755), (place, 0o755), (place.parent, 0o755)):
        path.mkdir(exist_ok=True)
        path.chmod(mode)
    call = 'cd "$1"; chmod 0 .; exec setpriv --reuid=65534 --regid=65534 --clear-groups "$0" page --json "$2"'
    check("the status of an unreadable current folder", status=(
        run(["sh", "-c", call, SCRIPT, shut, folder], env=ENVIRONMENT)[0], lambda status: status not in (0, 1)))


def test_short_record(place: Path) -> None:
    """The record of audits on a full disk: no line is cut short."""
    from dossier.folder.entry import read_record
    from dossier.fault import Fault
    from dossier.folder.registry import Known
    record, write, seen = read_record((audited(place, "host") / "audit.json").read_bytes()), os.write, []
    known = Known(str(place / "state"), True)
    known.add("1" * 64, record)

    def short(file: int, data: bytes) -> int:
        if len(data) < 50:
            raise OSError(28, "No space left on device")
        return write(file, data[: len(data) - 20])
    try:
        with patch.object(os, "write", short):
            known.add("2" * 64, record)
    except Fault as fault:
        seen.append(fault.status)
    known.add("3" * 64, record)
    lines = (place / "state" / "audits").read_text().splitlines()
    check("a record on a full disk", seen=(seen, [4]), lines=([line[:1] for line in lines], ["1", "3"]),
          known=([bool(Known(str(place / "state"), False).shown(f"{k}" * 64, record)) for k in (1, 2, 3)],
                 [True, False, True]))


def test_words() -> None:
    """CSV that a spreadsheet would take for a formula."""
    from dossier.page.table import as_cell
    for text, wanted in (("=1+1", "'=1+1"), ("a;=1+1", "a;'=1+1"), ("\uff1dSUM(A1)", "'\uff1dSUM(A1)"),
                         ("a\t@x", "a\t'@x"), (' "+1', "' \"+1"), ("a-b=c", "a-b=c"), ("-1 ms", "'-1 ms"),
                         ("yes", "yes"), ("a|+1", "a|'+1")):
        check(f"a cell {text!a}", cell=(as_cell(text), wanted))


def test_without_jinja(place: Path) -> None:
    """Where Jinja2 isn't installed, pages say how to get it, and all else is as it is."""
    folder, out = folder_of(place, "web-1"), place / "page.html"
    told = b"ntpaudit-dossier: Jinja2 isn't installed, which makes pages: apt-get install python3-jinja2\n"
    for words, status, err in ((("audit",), 0, b""), (("page", "-o", out), 70, told), (("page", "--json"), 0, b""),
                               (("page", "--csv"), 0, b""), (("page", "--split", place / "pages"), 70, told),
                               (("year",), 70, told), (("verify",), 0, b"")):
        seen = with_change("import site; site.getsitepackages = lambda: []", *words, folder)
        check(f"{words[:2]} without Jinja2", run=((seen[0], seen[2]), (status, err)), left=(out.exists(), False))
