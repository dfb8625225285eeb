"""Tests of folders that somebody made who would like a yes: what lies in them is refused, or seen through.

A victim is a file outside of a folder, which has to stay as it is.
"""
import errno
import fcntl
import functools
import hashlib
import http.server
import json
import os
import re
import shutil
import signal
import socket
import stat
import subprocess
import threading
import time
from collections.abc import Callable, Iterator
from contextlib import suppress
from pathlib import Path
from typing import Any
from unittest.mock import patch

from tests.support import DATA, SECONDS, check, children, run, runnable, wait_until, wanting
from tests.dossier.audits import (ENVIRONMENT, KEEP, PROGRAM, SCRIPT, SEARCH, audited, auditing, called, check_page,
                                  dossier, folder_of, parts_left, record_of, rows, skipped, stand_in, table,
                                  with_change, within)

limited = functools.partial(dossier, memory=3 << 30)
"""A call with a limit of memory, so that one that takes all of it fails by itself."""


def elsewhere(place: Path) -> dict[str, str]:
    """Another user's environment, in which nothing is known of what was audited here."""
    return {**ENVIRONMENT, "XDG_STATE_HOME": str(place / "another state")}


def sums_of(folder: Path, *names: str) -> dict[str, str]:
    return {name: hashlib.sha256((folder / name).read_bytes()).hexdigest() for name in names}


def forge(folder: Path, change: Callable[[Any, Any], object]) -> None:
    """Changes a folder's audit.json."""
    record = record_of(folder)
    change(record, record["entries"][0])
    (folder / "audit.json").write_text(json.dumps(record))


# ---- what isn't so
def test_forged_audit(place: Path) -> None:
    """An audit.json that somebody wrote by hand: no yes comes of it."""
    folder = folder_of(place, "forged", DATA / "chrony-ns.pcap", DATA / "chrony-ns.tight.claim.json")
    dossier("audit", folder, env=elsewhere(place))
    made = record_of(folder)["entries"][0]

    def say_yes(_: object, entry: dict[str, Any]) -> None:
        entry.update(verdict="yes")
        entry.pop("reason")
    forge(folder, say_yes)
    rows = table(folder)
    text = dossier("page", folder)[1].decode()
    csv = dossier("page", "--csv", folder)[1].decode()
    check("a forged yes on a page", json=([row["verdict"] for row in rows], ["not verified"]),
          csv=((",not verified," in csv, ",yes," in csv), (True, False)),
          badge=('class="verdict not-verified"' in text, True), yes=('class="verdict yes"' in text, False),
          colour=(re.search(r"\.not-verified{[^}]*good", text), None))
    (verified, said, _), (status, out, _) = dossier("verify", folder), dossier("audit", folder)
    check("a forged yes by verify and audit", statuses=((verified, status), (1, 1)),
          line=(f"verdict is `yes`, and by the inputs `{made['verdict']}`" in said.decode(), True),
          audited=(out.startswith(b"refuted ") and b"unchanged" not in out, True),
          known=(table(folder)[0]["verdict"], "refuted"), again=(b"(unchanged)" in dossier("audit", folder)[1], True))
    # A bound of its own: else another test may make the very same audit, within the same second, and it is known here.
    know_it(place, folder_of(place, "true", bound_ns=5_000_001), folder)


def know_it(place: Path, stranger: Path, folder: Path) -> None:
    """An audit of somebody else's that is true: it is known once it was verified here, and in no other folder."""
    dossier("audit", stranger, env=elsewhere(place))
    check("an audit of somebody else's that is true", row=(table(stranger)[0]["verdict"], "not verified"),
          signed=(dossier("sign", "--key", "any", stranger)[0], 5),
          at_once=(json.loads(dossier("page", "--json", "--verify", stranger,
                                      env={**ENVIRONMENT, "XDG_STATE_HOME": str(place / "third")})[1])[0]["verdict"],
                   "yes"), verified=(dossier("verify", stranger)[0], 0), known=(table(stranger)[0]["verdict"], "yes"))
    state = Path(ENVIRONMENT["XDG_STATE_HOME"]) / "ntpaudit" / "audits"
    check("the record of audits", mode=(stat.S_IMODE(state.stat().st_mode), 0o600),
          line=(f"{hashlib.sha256((stranger / 'audit.json').read_bytes()).hexdigest()} " in state.read_text(), True))
    by_state = ("--state", place / "own state")
    check("a record of one's own", before=(b"unchanged" in dossier("audit", *by_state, stranger)[1], False),
          after=(b"unchanged" in dossier("audit", *by_state, stranger)[1], True))
    shutil.copy(stranger / "audit.json", folder / "audit.json")
    check("a known audit.json beside other files", row=(table(folder)[0]["verdict"], "not verified"),
          audit=(b"unchanged" in dossier("audit", folder)[1], False))


def test_hidden_capture(place: Path) -> None:
    """A verdict about another capture than the folder's."""
    good = audited(place, "good")
    hidden = folder_of(place, "hidden")
    (hidden / "f.pcap").rename(hidden / "hidden.dat")
    (hidden / "f.pcap").write_bytes((hidden / "hidden.dat").read_bytes()[:24])
    (hidden / "evidence.json").write_text(json.dumps({"capture": "hidden.dat"}))
    joined = folder_of(place, "joined")
    (joined / "f.pcap").rename(joined / "joined.pcap")
    for name in ("a.pcap", "b.pcap"):
        (joined / name).write_bytes((joined / "joined.pcap").read_bytes()[:24])
    for folder, capture, names in ((hidden, "hidden.dat", ("claim.json", "f.pcap", "evidence.json", "hidden.dat")),
                                   (joined, "joined.pcap", ("claim.json", "a.pcap", "b.pcap"))):
        for name in set(os.listdir(good)) - set(os.listdir(folder)) - {"f.pcap"}:
            shutil.copy(good / name, folder)

        def hide(record: dict[str, Any], entry: dict[str, Any], folder: Path = folder, capture: Any = capture,
                 names: Any = names) -> None:
            record.update(capture=capture, inputs=sums_of(folder, *names))
            entry["outputs"].update(sums_of(folder, "joined.pcap") if capture == "joined.pcap" else {})
        forge(folder, hide)
        status, out, _ = dossier("verify", folder)
        check(f"a verdict about {capture}", verified=(b": verified" in out, False),
              status=(status in (1, 2, 4, 70), True))
    check("a wrong join", line=(b"joined.pcap: from byte 24 on (line 1) it is" in dossier("verify", joined)[1], True))


def test_swapped_record(place: Path) -> None:
    """A file that is another at each reading: what is read once is what counts. (A FIFO is none, see below.)"""
    from dossier.fault import Fault
    from dossier.folder.files import Folder
    from dossier.folder.placing import copy_of
    record = place / "audit.json"
    record.write_text("one")
    with Folder(str(place)) as held:
        first = held.data("audit.json")
        record.write_text("two")
        try:
            second = copy_of(held, "audit.json", str(place / "copy"))
        except Fault as fault:
            second = fault.line
        check("a file that changes between two readings", first=(first, b"one"), kept=(held.data("audit.json"), b"one"),
              sum=(held.sum("audit.json"), hashlib.sha256(b"one").hexdigest()),
              second=(second, "ntpaudit-dossier: audit.json has changed meanwhile"))


# ---- what is no file
def make_fifo(path: Path, place: Path) -> None:
    os.mkfifo(path)


def make_device(path: Path, place: Path) -> None:
    os.mknod(path, stat.S_IFCHR | 0o666, os.makedev(1, 5))


def make_large(path: Path, place: Path) -> None:
    with open(path, "wb") as large:
        large.truncate((1 << 30) + 1)


KINDS = {"a FIFO": make_fifo, "a link within": lambda path, place: path.symlink_to("kept"), "a link out": lambda path,
         place: path.symlink_to(place / "victim"), "a link to zeros": lambda path, place: path.symlink_to("/dev/zero"),
         "a broken link": lambda path, place: path.symlink_to("nowhere"), "a folder": lambda path, place: path.mkdir(),
         "a file that is too big": make_large}
if hasattr(os, "geteuid") and not os.geteuid():
    KINDS["a device"] = make_device
NAMES = ["claim.json", "f.pcap", "evidence.json", "sheet.pdf", "audit.json", "audit.json.sig", "report.txt",
         "envelope.txt", "certificate.json", "refutation.json", "bound-0.claim.json", "more-drift.claim.json",
         "joined.pcap"]
INPUTS = NAMES[:4]


def spoilt_folders(place: Path, kind: str) -> tuple[Path, Any]:
    """A good folder for each name, with something of this kind in that file's place."""
    (place / "victim").write_text("victim")
    good = folder_of(place / kind, "good")
    (good / "evidence.json").write_text(json.dumps({"drift": "sheet.pdf"}))
    (good / "sheet.pdf").write_text("a sheet")
    dossier("audit", good)
    found = []
    for name in NAMES:
        folder = place / kind / name
        shutil.copytree(good, folder)
        (folder / "kept").write_bytes((folder / name).read_bytes() if (folder / name).exists() else b"kept")
        (folder / name).unlink(missing_ok=True)
        KINDS[kind](folder / name, place)
        found.append(folder)
    return good, found


def test_no_files(place: Path) -> None:
    """Something else in the place of each file that a folder may hold: no call stops, follows it, takes all memory, or
    finds a yes; and the folder beside it is audited."""
    for kind in KINDS:
        good, folders = spoilt_folders(place, kind)
        status, out, err = limited("verify", *folders, good)
        lines = out.decode().splitlines()
        check(f"verify of {kind}", ended=(isinstance(status, int) and status > 0, True),
              trace=(b"Traceback" in err, False),
              verified=([line for line in lines if ": verified" in line], [f"{good}: verified: yes"]),
              lines=(len(lines), len(folders) + 1))
        status, out, err = limited("page", "--json", *folders, good)
        verdicts = [row["verdict"] for row in json.loads(out or "[]")]
        check(f"page of {kind}", status=(status in (0, 2), True), trace=(b"Traceback" in err, False),
              verdicts=((set(verdicts[:-1]) <= {"refused", "not verified"}, verdicts[-1:]), (True, ["yes"])))
        status, out, err = limited("sign", "--key", place / "no key", *folders)
        check(f"sign of {kind}", ended=(isinstance(status, int) and status > 0, True),
              trace=(b"Traceback" in err, False), signed=(b": signed\n" in out, False),
              lines=(out.count(b"\n"), len(folders)))
        status, out, err = limited("audit", "--jobs", "2", *folders, good)
        lines = out.decode().splitlines()
        check(f"audit of {kind}", ended=(isinstance(status, int) and status > 0, True),
              trace=(b"Traceback" in err, False), lines=(len(lines), len(folders) + 2),
              good=(lines[-2:-1], [f"yes           {good}: least bound 0.619 ms, claimed 5 ms (unchanged)"]))
        for folder, line in zip(folders, lines):
            if folder.name in INPUTS and (kind, folder.name) not in (("a file that is too big", "f.pcap"),
                                                                     ("a folder", "sheet.pdf")):
                as_is = kind if kind in ("a FIFO", "a folder", "a device") else "a link"
                what = "too big" if kind == "a file that is too big" else as_is
                check(f"audit of {folder.name} that is {kind}",
                      line=(line.startswith(f"refused       {folder}: ntpaudit-dossier: {folder.name} is {what}"),
                            True))
        check(f"the victim of {kind}", same=((place / "victim").read_text(), "victim"), left=(parts_left(place), []))
        shutil.rmtree(place / kind)


def test_socket_and_rights(place: Path) -> None:
    """A folder that is a link, one that isn't a folder, a socket, and a file that may not be read."""
    real = folder_of(place, "real")
    (place / "link").symlink_to(real)
    for command in ("audit", "verify", "page"):
        out = b"".join(dossier(command, place / "link")[1:])
        check(f"a folder that is a link, by {command}", line=(b"the folder is a link" in out, True),
              left=(sorted(os.listdir(real)), ["claim.json", "f.pcap"]))
    check("a file for a folder",
          run=(dossier("audit", real / "f.pcap")[:2],
               (4, f"refused       {real}/f.pcap: ntpaudit-dossier: no such folder: a file is there. Name the "
                   "folder in which it is, with its claim.json\n".encode())))
    folder = folder_of(place, "s")
    (folder / "f.pcap").unlink()
    with socket.socket(socket.AF_UNIX) as made:
        made.bind(os.path.relpath(folder / "f.pcap"))
    status, out, _ = limited("audit", folder)
    check("a socket",
          run=((status, out), (2, f"refused       {folder}: ntpaudit-dossier: f.pcap is a socket\n".encode())))
    nobody = [] if os.geteuid() else ["setpriv", "--reuid=65534", "--regid=65534", "--clear-groups"]
    if nobody and (not shutil.which("setpriv") or run([*nobody, "cat", SCRIPT])[0]
                   or run([*nobody, PROGRAM, "--version"])[0]):
        skipped("a file that may not be read", "there is no other user who may read the repository")
        return
    folder = folder_of(place, "unreadable")
    for path in (place, place.parent):
        if stat.S_IMODE(path.stat().st_mode) == 0o700:  # (one of the tests' own)
            path.chmod(0o755)
    folder.chmod(0o777)
    (folder / "f.pcap").chmod(0)
    status, out, err = run([*nobody, SCRIPT, "audit", "--state", folder / "state", folder], env=ENVIRONMENT)
    check("a file that may not be read",
          run=((status, out, err),
               (4, f"refused       {folder}: ntpaudit-dossier: f.pcap can't be read (Permission denied)\n".encode(),
                b"")))


# ---- what is written, and where
def test_linked_days(place: Path) -> None:
    """Nothing is written through a day that is a link, and nothing is deleted behind it."""
    folder = audited(place, "parts")
    (folder / ".x.99999999.part").write_text("kept")
    other = place / "other"
    other.mkdir()
    (other / "claim.json").write_text("kept")
    (folder / "2026-11-22").symlink_to(other)

    def name_it(_: object, entry: dict[str, Any]) -> None:
        entry["outputs"]["2026-11-22/claim.json"] = hashlib.sha256(b"kept").hexdigest()
    forge(folder, name_it)
    dossier("audit", folder)
    check("a day that is a link", there=((other / "claim.json").exists(), True),
          part=((folder / ".x.99999999.part").exists(), True))
    status, out, _ = dossier("audit", "--days", folder)
    check("a day that is a link isn't written into", status=(status, 2), line=(b"2026-11-22 is a link" in out, True),
          there=(os.listdir(other), ["claim.json"]))


def test_names_of_outputs(place: Path) -> None:
    """An audit.json whose outputs have names that no audit leaves: it isn't taken, even if it were known here, and
    nothing of these names is taken away."""
    folder, state = folder_of(place, "host"), place / "state"
    (place / "victim").write_text("victim")
    dossier("audit", "--state", state, folder)
    record = record_of(folder)
    for name in ("../victim", "/etc/hostname", "claim.json", "f.pcap", "2026-11-22/../../victim", "2026-11-22/f.pcap",
                 "x/report.txt", "../report.txt", "audit.json", ""):
        outputs = {**record["entries"][0]["outputs"], name: hashlib.sha256(b"victim").hexdigest()}
        text = json.dumps({**record, "entries": [{**record["entries"][0], "outputs": outputs}]}).encode()
        (folder / "audit.json").write_bytes(text)
        with open(state / "audits", "a") as opened:
            opened.write(f"{hashlib.sha256(text).hexdigest()} {'0' * 64} 2026-01-01T00:00:00Z 1 x\n")
        status, out, _ = dossier("verify", "--state", state, folder)
        check(f"an output {name}", verify=((status, b"audit.json isn't one that is taken" in out), (2, True)),
              page=(json.loads(dossier("page", "--json", "--state", state, folder)[1])[0]["verdict"], "refused"),
              keep=(dossier("keep", "--years", "1", "--state", state, folder)[0], 2),
              audit=(dossier("audit", "--again", "--state", state, folder)[0], 0),
              victim=((place / "victim").read_text(), "victim"), inputs=((folder / "f.pcap").exists(), True))


def test_named_outputs(place: Path) -> None:
    """-o: what is a device or a FIFO is written into. (Links are tried by dossier.losses.)"""
    folder = audited(place, "host")
    fifo = place / "fifo"
    os.mkfifo(fifo)
    reader = subprocess.Popen(["timeout", str(SECONDS), "cat", fifo], stdout=subprocess.PIPE)
    status = dossier("page", "-o", fifo, folder)[0]
    out = reader.communicate()[0]
    check("-o to a FIFO", status=(status, 0), whole=(out.endswith(b"</html>\n"), True),
          there=(stat.S_ISFIFO(fifo.lstat().st_mode), True))
    chrony = DATA / "client/chrony.conf"
    calls = [subprocess.Popen([str(SCRIPT), *map(str, words)], env=ENVIRONMENT, stdout=subprocess.DEVNULL,
                              stderr=subprocess.PIPE)
             for words in (["page", "-o", fifo, folder], ["audit", "--metrics", fifo, folder],
                           ["draft", "--chrony", chrony, "--evidence", fifo, folder / "f.pcap"])]
    for name, call in zip(("page -o", "audit --metrics", "draft --evidence"), calls):
        err = call.communicate(timeout=SECONDS)[1]
        check(f"{name} to a FIFO that nobody reads", status=(call.returncode, 4),
              said=(b"nobody reads fifo" in err, True))
    if os.geteuid():
        skipped("-o to a device", "it takes root to make one")
        return
    null = place / "null"
    os.mknod(null, stat.S_IFCHR | 0o666, os.makedev(1, 3))
    check("-o to a device", status=(dossier("page", "-o", null, folder)[0], 0),
          there=(stat.S_ISCHR(null.lstat().st_mode), True))
    check("--evidence to a device",
          status=(dossier("draft", "--chrony", chrony, "--evidence", null, folder / "f.pcap")[0], 0),
          there=(stat.S_ISCHR(null.lstat().st_mode), True))


def test_every_write(place: Path) -> None:
    """A full disk and Ctrl-C at every write: a folder is as it was, or has all that was made, and nothing else."""
    from dossier.folder import placing
    from dossier.fault import Fault
    from dossier.folder.files import Folder
    made = place / "made"
    made.mkdir()
    names = ("report.txt", "envelope.txt")
    old, new = {"audit.json": b"old", "report.txt": b"old",
                "certificate.json": b"old"}, {"audit.json": b"new", "report.txt": b"new", "envelope.txt": b"new"}
    write, seen = os.write, []
    os.chdir(made)
    for name in names:
        Path(name).write_bytes(b"new")
    for error in (OSError(errno.ENOSPC, "No space left on device"), KeyboardInterrupt()):
        for last in range(5):
            folder, count = place / f"{type(error).__name__}-{last}", list[int]()
            folder.mkdir()
            for name, data in old.items():
                (folder / name).write_bytes(data)

            def failing(file: int, data: bytes, count: list[int] = count, last: int = last, error: Any = error) -> int:
                count.append(file)
                if len(count) > last:
                    raise error
                return write(file, data[:2])
            try:
                with patch.object(os, "write", failing), Folder(str(folder)) as held:
                    placing.place(held, {name: placing.blocks_of(name) for name in names} | {"audit.json": [b"new"]},
                                  ["certificate.json"])
            except (Fault, KeyboardInterrupt) as found:
                seen.append(type(found))
            kept = {path.name: path.read_bytes() for path in folder.iterdir()}
            check(f"{type(error).__name__} at write {last}", kept=(kept in (old, new), True))
    check("both came", seen=(set(seen), {Fault, KeyboardInterrupt}), both=(len(seen), 10))


def test_put_and_broken_off(place: Path) -> None:
    """Ctrl-C where a file is put in its place, with unnamed files and without."""
    from dossier.folder import placing
    from dossier.folder.files import Folder
    link, rename, handler = os.link, os.rename, signal.signal(signal.SIGINT, signal.default_int_handler)
    for tmpfile in (os.O_TMPFILE, 0):
        (folder := place / f"new {tmpfile}").mkdir()

        def stopped(*words: Any, **how: Any) -> None:
            link(*words, **how) if tmpfile else rename(*words, **how)
            os.kill(os.getpid(), signal.SIGINT)
        with (suppress(KeyboardInterrupt), patch.object(os, "O_TMPFILE", tmpfile), Folder(str(folder)) as held,
              patch.object(os, "link" if tmpfile else "rename", stopped)):
            placing.place(held, {name: [b"new"] for name in ("report.txt", "envelope.txt")})
            check("Ctrl-C where a file is put", came=(False, True))
        check(f"Ctrl-C where a file is put: {tmpfile}", left=(parts_left(folder), []))
    signal.signal(signal.SIGINT, handler)


def waits_for_lock(process: int) -> bool:
    """Whether a process, or one that it has made, waits for a lock."""
    waiting = [line.split()[5] for line in Path("/proc/locks").read_text().splitlines() if "-> " in line]
    return any(str(one) in waiting for one in (process, *children(process)))


def test_at_once(place: Path) -> None:
    """Several audits of one folder at once, and one of what is signed meanwhile."""
    folder, state = folder_of(place, "host"), place / "state"
    calls = [subprocess.Popen([SCRIPT, "audit", "--again", *words, folder], env=ENVIRONMENT, stdout=subprocess.PIPE,
                              stderr=subprocess.PIPE) for words in ((), (), ("--step", "4"), ())]
    ended = [(call.communicate(timeout=SECONDS)[1], call.returncode) for call in calls]
    check("audits at once", ended=(ended, [(b"", 0)] * 4), verified=(dossier("verify", folder)[0], 0),
          left=(parts_left(place), []))
    held = os.open(folder, os.O_RDONLY)
    fcntl.flock(held, fcntl.LOCK_EX)
    check("an audit of a folder that somebody holds", status=(dossier("audit", "--again", folder)[0], 0))
    os.close(held)
    signature = folder / "audit.json.sig"
    signs = stand_in(place / "signs", f'[ "$1" != envelope ] || : > "{signature}"')
    status, _, _ = dossier("audit", "--state", state, folder, env=signs)
    check("an audit of what is signed meanwhile", status=(status, 2), left=(signature.exists(), True))


def test_after_another(place: Path) -> None:
    """What waits while another writes goes by what that has written."""
    from dossier.folder.files import Folder
    from dossier.folder.registry import Known
    folder, state = folder_of(place, "host"), place / "state"
    signature = folder / "audit.json.sig"
    dossier("audit", "--state", state, folder)
    ours, kept = Known(str(state), True), (state / "audits").read_text()
    for words, status, said in (*rows((["audit"], 0, b"(unchanged)"), (["audit", "--step", "4"], 5, b"")),
                                *((list(word), 0, b": kept") for word in KEEP)):
        (state / "audits").write_text("")
        with Folder(str(folder)) as held, ours.alone(held):
            call = subprocess.Popen([SCRIPT, words[0], "--state", state, *words[1:], folder], env=ENVIRONMENT,
                                    stdout=subprocess.PIPE)
            wait_until(lambda: waits_for_lock(call.pid))
            (state / "audits").write_text(kept)
            if status:
                signature.touch()
            is_waiting = call.poll()
        out = call.communicate(timeout=SECONDS)[0]
        check(f"{' '.join(words)} after another wrote", waits=(is_waiting, None), run=(call.returncode, status),
              said=(said in out, True), left=(signature.exists(), status != 0))
        signature.unlink(missing_ok=True)


def test_record_of_several(place: Path) -> None:
    """A record of audits in which several write at once."""
    from dossier.folder.entry import read_record
    from dossier.folder.registry import Known
    state, record = place / "state", read_record((audited(place, "host") / "audit.json").read_bytes())
    known = [Known(str(state), True) for _ in range(4)]
    sums = [[hashlib.sha256(f"{one} {k}".encode()).hexdigest() for k in range(200)] for one in range(4)]
    threads = [threading.Thread(target=lambda own=own, one=one: [own.add(sum_, record) for sum_ in sums[one]])
               for one, own in enumerate(known)]
    for thread in threads:
        thread.start()
    for thread in threads:
        thread.join()
    check("a record that several write",
          lines=(sorted(line.split()[0] for line in (state / "audits").read_text().splitlines()),
                 sorted(sum_ for own in sums for sum_ in own)),
          again=(Known(str(state), False).shown(sums[3][199], record), record))


# ---- what is called
def is_running(process: str) -> bool:
    try:
        return Path(f"/proc/{process}/stat").read_text().split()[2] != "Z"
    except OSError:
        return False


def test_programs(place: Path) -> None:
    """A program that doesn't end is ended with all that it began, and what programs see of the environment."""
    slow = place / "slow"
    runnable(slow, f'#!/bin/sh\n[ "$1" = --version ] && exec "{PROGRAM}" "$1"\nsleep 1000 & echo $! >> '
             f'"{place}/sleeping"\nwait\n')
    single, sleeping = folder_of(place, "single"), place / "sleeping"
    limit, (status, out, _) = within(lambda limit: dossier("audit", "--limit", str(limit), single,
                                                           env={**ENVIRONMENT, "NTPAUDIT": str(slow)}),
                                     lambda _: sleeping.exists())
    wait_until(lambda: not any(map(is_running, sleeping.read_text().split())))
    check("a program that doesn't end", status=(status, 2),
          line=(f"not done within {limit} s (--limit)" in out.decode(), True),
          left=(list(filter(is_running, sleeping.read_text().split())), []))
    said = place / "environment"
    keeps = stand_in(place / "keeps", f'env > "{said}"')
    dossier("audit", "--again", single, env={**keeps, "SECRET": "secret", "PATH": f".:{os.environ['PATH']}"})
    names = {line.split("=")[0] for line in said.read_text().splitlines()}
    check("the environment of programs", names=(names - {"PATH", "LC_ALL", "TZ", "PWD", "OLDPWD", "SHLVL", "_"}, set()),
          path=("PATH=." in said.read_text(), False))


# ---- what is said
DEEP = "[" * 10_000 + "]" * 10_000
HOSTILE = {"HTML": '"<img src=http://192.0.2.1/x onerror=alert(1)>"',
           "a shell's words": '"1; touch owned $(touch owned) `touch owned`"', "an escape": '"\\u001b[31m"',
           "10^400": "1" + "0" * 400, "1e400": "1e400", "NaN": "NaN", "nesting": DEEP, "a surrogate": '"\\ud800"',
           "null": "null", "a list": "[[]]", "an object": '{"<b>": 1}', "false": "false", "below": "-1",
           "a fraction": "0.5"}
TEXTS = {("leap_seconds", "file"), ("leap_seconds", "fault")}
"""The fields of audit.json that may be any text."""


def leaves(value: Any, path: tuple[Any, ...] = ()) -> Iterator[Any]:
    """The paths of all values inside a value of JSON."""
    if isinstance(value, dict):
        for name, item in value.items():
            yield from leaves(item, (*path, name))
    elif isinstance(value, list) and value:
        yield from leaves(value[0], (*path, 0))
    yield path


def with_value(value: Any, path: tuple[Any, ...], text: str) -> str:
    """JSON with the text in the place of one value."""
    if not path:
        return text
    if isinstance(value, dict):
        return "{" + ", ".join(f"{json.dumps(name)}: "
                               f"{with_value(item, path[1:], text) if name == path[0] else json.dumps(item)}"
                               for name, item in value.items()) + "}"
    return "[" + ", ".join(with_value(item, path[1:], text) if at == path[0] else json.dumps(item)
                           for at, item in enumerate(value)) + "]"


def is_taken(read: Callable[[bytes], object], text: str) -> bool | int:
    """Whether a text is taken; a refusal has status 2."""
    from dossier.fault import Fault
    try:
        read(text.encode("utf-8", "surrogatepass"))
        return True
    except Fault as fault:
        return False if fault.status in (2, 4) else fault.status


def test_fields(place: Path) -> None:
    """Each field of audit.json, of claim.json and of evidence.json, with what it may not be."""
    from dossier.folder.claim import Claim
    from dossier.folder.entry import read_record
    from dossier.folder.evidence import PREMISES
    from dossier.schema import Text, read_typed
    folders = [folder_of(place, "yes"),
               folder_of(place, "refuted", DATA / "chrony-ns.pcap", DATA / "chrony-ns.tight.claim.json")]
    dossier("audit", *folders)
    claim = json.loads((folders[0] / "claim.json").read_text())
    evidence = {"drift": "a text"}
    cases: list[tuple[str, Any, Any]] = [("audit.json", read_record, record_of(folder)) for folder in folders]
    cases += [("claim.json", lambda data: read_typed("claim.json", Claim, data), claim),
              ("evidence.json", lambda data: read_typed("evidence.json", dict[PREMISES, Text], data), evidence)]
    for name, read, whole in cases:
        check(f"{name} as it is", taken=(is_taken(read, json.dumps(whole)), True))
        wrong, number = [], 0
        for path in leaves(whole):
            for kind, text in HOSTILE.items():
                number += 1
                taken, own = is_taken(read, with_value(whole, path, text)), whole
                for step in path:
                    own = own[step]
                is_text = text[0] == '"' and kind != "a surrogate"
                may_be_text = path in TEXTS or (name == "evidence.json" and path)
                may_be = may_be_text if is_text else is_number_of(own, path, kind)
                if taken is not bool(taken) or (taken and not may_be):
                    wrong.append((path, kind, taken))
        check(f"{number} values in {name}", wrong=(wrong, []))
        twice = json.dumps(whole)[:-1] + f", {json.dumps(next(iter(whole)))}: 1}}"
        check(f"{name} of another form", twice=(is_taken(read, twice), False),
              more=(is_taken(read, json.dumps({**whole, "more": 1})), False), nothing=(is_taken(read, ""), False),
              bytes=(is_taken(lambda data: read(b"\xff" + data), "{}"), False),
              utf_16=(is_taken(lambda data: read(data.decode().encode("utf-16")), json.dumps(whole)), False))


def is_number_of(own: object, path: tuple[Any, ...], kind: str) -> bool:
    """Whether a number or nothing may stand in a field: no smaller type than that of the field's own value."""
    if kind == "below":
        return type(own) is int and path[-1] in ("error", "from", "to", "good_until", "before", "after", "distance",
                                                 "tick", "reading", 0)
    may_be_left_out = bool(path) and path[-1] in ("least_ns", "reason", "refutation", "step")
    return (kind == "null" and may_be_left_out) or (kind == "a fraction" and path == ("seconds",))


def test_hostile_inputs(place: Path) -> None:
    """claim.json and evidence.json of a stranger's, by `audit`; and files that are named on the command line."""
    for name, whole in (("claim.json", json.loads((DATA / "clients-us.claim.json").read_text())),
                        ("evidence.json", {"drift": "x"})):
        folders = []
        for kind, text in HOSTILE.items():
            for path in (next(iter(whole)),), ():
                folders.append(folder_of(place, f"{name}, {kind} at {path}".replace("/", " ")))
                (folders[-1] / name).write_text(with_value(whole, path, text))
        status, out, err = limited("audit", "--jobs", "2", *folders)
        refused = [line for line in out.decode().splitlines() if line.startswith("refused ")]
        texts = 3 if name == "evidence.json" else 0
        check(f"a hostile {name}", status=(status, 2), error=(err, b""), refused=(len(refused), len(folders) - texts),
              named=([line for line in refused if name not in line and "ntpaudit: claim" not in line], []))
        if name == "claim.json":
            check_words(place, folders)
    fifo = place / "fifo"
    os.mkfifo(fifo)
    capture, claim = DATA / "clients-us.pcap", DATA / "clients-us.claim.json"
    for words in rows(["draft", fifo], ["draft", "--chrony", fifo, capture], ["draft", "--measured", fifo, capture],
                      ["picture", claim, fifo], ["picture", fifo, capture], ["verify", "--signers", fifo, place],
                      ["audit", "--leap-seconds", fifo, place], ["draft", "/dev/zero"],
                      ["picture", "/dev/zero", capture]):
        status, out, err = limited(*words)
        check(f"a file that is none: {words[0]} {[str(word) for word in words[1:]]}", status=(status, 2),
              line=(b" is a " in err and err.count(b"\n") == 1, True), output=(out, b""))


def check_words(place: Path, folders: Any) -> None:
    """The program's words about claims and a capture of a stranger's, and those of a stranger's program, on a page."""
    odd = folder_of(place, "odd")
    (odd / "f.pcap").unlink()
    (odd / "<u>\x1b[31m\udcff: `touch owned`.pcap").write_bytes(bytes(60))
    made, fake = folder_of(place, "made"), place / "fake"
    fake.write_text(f"""#!/bin/sh
[ "$1" = --version ] && exec "{PROGRAM}" "$1"
echo 'ntpaudit: capture 2 magic' >&2
for last; do true; done
[ "$last" = --human ] && head -c 100000 /dev/zero | tr '\\0' '\\033' | sed 's/^/  <u>: /; s/$/\\n  <u>`\\x1b<i>/' >&2
exit 2
""")
    fake.chmod(0o755)
    limited("audit", odd)
    limited("audit", made, env={**ENVIRONMENT, "NTPAUDIT": str(fake)})
    rows, text = table(odd, made), dossier("page", *folders, odd, made)[1].decode()
    page = check_page("a page of hostile words", text, scripts=[SEARCH])
    words = "".join(page.words)
    kept = [record_of(folder)["refusal"] for folder in (odd, made)]
    check("hostile words", kept=([(told["why"] + told["what"]).isprintable() for told in kept], [True, True]),
          tags=(page.tags & {"u", "i", "b", "img"}, set()), escape=("\x1b" in text, False),
          claim=('"client" has to be an IPv4 address; it is "<img src=http' in words, True),
          named=("magic. <u>\\x1b[31m\\xff: `touch owned`.pcap: isn't a classic pcap file." in rows[0]["reason"], True),
          cut=(rows[1]["reason"], "ntpaudit: capture 2 magic. <u>: " + 995 * "\\x1b" + "."),
          what=(rows[1]["to_do"], "<u>`\\x1b<i>"))


def test_names_in_lines(place: Path) -> None:
    """Names that would say something where a line begins, that aren't seen, or that are no UTF-8."""
    folder = audited(place, "host")
    yes = folder / f"verified: yes{100 * ' '}.pcap"
    shutil.copy(folder / "f.pcap", yes)
    status, out, _ = dossier("verify", folder)
    check("a capture called `verified: yes`", status=(status, 1), said=(re.findall(rb"verified: yes|  ", out), []))
    yes.unlink()
    other = folder.rename(place / "x: verified: yes (1")
    (other / "audit.json").unlink()
    for command in ("verify", "audit"):
        out = dossier(command, other)[1]
        check(f"a folder of that name by {command}", said=(b": verified: " in out, False))
    for name in ("host\u3164", "host\U000e0100", "ho\u034fst", "host ", "ho  st"):
        other = other.rename(place / name)
        check(f"a folder called {ascii(name)}", machine=(table(other)[0]["machine"].isascii(), True),
              line=(b"\\" in dossier("verify", other)[1].split(b": ")[0], True))
    alike = ("\ua789\u2236\ufe55\uff1a\u2170\u216f\u0261\u0251\u0131\u01c0\u1d00\ua731\U00010428\u0ed0\u0966\u212a"
             "\u212b\u2024\u2010\u2044\u2215\u02d0\uff4f\U0001d42d\U0001d159\u3164")
    from dossier.text import label, plain
    check("what looks like ASCII", left=([ascii(c) for c in alike if not label(f"web{c}1").isascii()], []),
          alone=([ascii(c) for c in "\ua789\u0966\u1d00\U0001d42d\U0001d159" if not plain(c).isascii()], []))
    for name in ("s\xe4\xe9\xdf\xf8\u0142\u1ea1e\u0301-1", "\u0445\u043e\u0441\u0442-1 \u6771\u4eac\u30b5\u30fcweb1"):
        check(f"what looks like itself: {ascii(name)}", label=(label(name), name))
    odd = folder_of(place, "odd")
    (capture := os.fsencode(odd) + b"/f\xff.pcap", (odd / "f.pcap").rename(os.fsdecode(capture)))
    dossier("audit", odd)
    with open(capture, "ab") as opened:
        opened.write(b"x")
    for words in (("verify",), *KEEP):
        status, out, _ = dossier(*words, odd)
        check(f"a capture whose name is no UTF-8 by {words[0]}", status=(status, lambda status: status in (1, 2)),
              said=(b"f\\xff.pcap isn't the file" in out, True))
    os.unlink(capture)
    os.mkfifo(capture)
    said = [dossier(command, odd) for command in ("audit", "verify")]
    check("no capture, whose name is no UTF-8", said=([(status, b": f\\xff.pcap is a FIFO\n" in out)
                                                       for status, out, _ in said], [(2, True), (2, True)]))


def test_second_look(place: Path) -> None:
    """Copies of a capture in folders whose processes end when they are looked at again: the pages are written."""
    from dossier import command_line
    from dossier.folder.jobs import run_all
    from dossier.page import page
    folders = [folder_of(place, name) for name in ("one", "one\x01", "one\\x01")]
    dossier("audit", "--state", place / "state", *folders)
    calls = []

    def ended(*_: Any) -> Any:
        os.kill(os.getpid(), signal.SIGKILL)

    def second(paths: list[str], work: Any, kind: Any, seconds: int) -> Any:
        calls.append(paths)
        return run_all(paths, ended if len(calls) == 2 else work, kind, seconds)
    with patch.object(page, "run_all", second), patch.dict(os.environ, ENVIRONMENT):
        status = command_line.main(["page", "--state", str(place / "state"), "--split", str(place / "pages"),
                                    "--leap-seconds", ENVIRONMENT["NTPAUDIT_LEAP_SECONDS"], *map(str, folders)])
    texts = {path.name: path.read_text() for path in sorted((place / "pages").glob("*.html"))}
    check("processes that end at the second look", status=(status, 0), looked=(len(calls), 2),
          copies=({name: text.count("so one of them is a copy") for name, text in texts.items()},
                  {**{f"{called(folder)}.html": 2 for folder in folders}, "index.html": 0}),
          counted=(texts["index.html"].count("3 warnings"), 3))


def test_own_faults(place: Path) -> None:
    """What goes wrong within one folder is that folder's alone, and never has the status of a no."""
    from dossier.verdict import making
    from dossier.folder import jobs
    from dossier.folder.result import Audited
    folders = [str(folder_of(place, name)) for name in ("one", "two")]
    make = making.make

    def crash() -> None:
        os.kill(os.getpid(), signal.SIGSEGV)
    for kind, status, line in rows((lambda: bytearray(1 << 62), 3, "out of memory"),
                                   (lambda: OSError(errno.ENOSPC, "No space left on device"), 4,
                                    "it can't be worked on (No space left on device)"),
                                   (lambda: IndexError("x"), 2, "worked on (IndexError: x)"),
                                   (crash, 3, "the process of this folder was ended"),
                                   (lambda: time.sleep(1000), 2, "not done within {} s (--limit)")):
        def failing(*given: Any, kind: Any = kind) -> Any:
            if os.path.exists("/tmp") and first_sum in given[0].sums.values():
                raise kind()
            return make(*given)
        (Path(folders[0]) / "f.pcap").write_bytes((DATA / "vlan-ns.pcap").read_bytes())
        first_sum = sums_of(Path(folders[0]), "f.pcap")["f.pcap"]
        with patch.object(making, "make", failing):
            for limit in (3, 15, 75) if "--limit" in line else (SECONDS,):
                found = dict(jobs.run_all(folders, auditing(place), Audited, limit, 2))
                if found[folders[1]].status == 0:
                    break
        one, other = (found[folder] for folder in folders)
        lines = one.lines if isinstance(one, Audited) else [one.line]
        check(f"a folder with {line}", line=(line.format(limit) in lines[0], True),
              statuses=((one.status, other.status), (status, 0)))
    wrong = "from dossier import command_line; command_line.run = lambda given: 1 / 0"
    check("an error of one's own", status=(with_change(wrong, "page", "x")[0], 70))


REFUSED = ["f.pcap is a FIFO", "f.pcap is too big: it has more than 1 bytes",
           "audit.json isn't one that is taken (inputs)", "not done within 600 s (--limit)",
           "f.pcap has changed meanwhile", "the folder is a link: name the folder itself", "out of memory",
           "it can't be worked on (x)", "its copies and answers take more room than a folder may",
           "no folder for private copies can be made (x): TMPDIR names another place",
           "report.txt can't be written (x)", "f.pcap can't be read (x)",
           "f.pcap is damaged from byte 24 on, so it can't be joined with the others",
           "f.pcap.zst is packed by zstd, which isn't installed to unpack it",
           "f.pcap.gz can't be unpacked: its gzip is damaged", "f.pcapng has frames of several kinds",
           "f.pcapng has packets without a time", "f.pcapng has times that are coarser than microseconds",
           "f.pcapng is damaged at byte 9", "f.pcapng has more than 1,000 interfaces, so it is damaged",
           "the times of the capture go back and forth between days too often",
           "f.pcapng has a block that is damaged", "f.pcapng has a packet that is damaged"]


def test_remedies() -> None:
    """What the dossier refuses by words of its own has a remedy, whatever a file's name says besides."""
    from dossier.page.remedies import remedy
    told = {line: remedy(f"ntpaudit-dossier: {line}") for line in REFUSED}
    check("remedies of these", missing=([line for line in REFUSED if not told[line][0]], []))
    for line in REFUSED:
        if line.startswith("f.pcap"):
            wrong = [name for name in REFUSED if remedy(f"ntpaudit-dossier: {name}\n.pcap{line[6:]}") != told[line]]
            check(f"the remedy of '{line}', whatever the name", wrong=(wrong, []))


def test_browser(place: Path) -> None:
    """A page with hostile strings in a browser: no request leaves, nothing runs, and the title is what it should be."""
    browser = shutil.which("chromium") or shutil.which("google-chrome")
    if not browser:
        skipped("a page in a browser", wanting("chromium"))
        return
    asked = []

    class Listening(http.server.BaseHTTPRequestHandler):
        def do_GET(self) -> None:
            asked.append(self.path)
            self.send_error(404)

        def log_message(self, *_: object) -> None:
            pass
    with http.server.ThreadingHTTPServer(("127.0.0.1", 0), Listening) as server:
        threading.Thread(target=server.serve_forever, daemon=True).start()
        at = f"http://127.0.0.1:{server.server_address[1]}"
        strings = [f"<img src={at}/a>", f"</title><script>document.title='owned';fetch('{at}/b')</script>",
                   f"\"'><svg onload=fetch('{at}/c')>", f"</style><link rel=stylesheet href={at}/d>"]
        folders = []
        for number, text in enumerate(strings):
            folders.append(folder_of(place, text.replace("/", "\u2215")))
            (folders[-1] / "evidence.json").write_text(json.dumps({"drift": text,
                                                                   "capture": f"{text} javascript:alert(1)"}))
        dossier("audit", *folders)
        title = strings[1]
        more = [place / f"none {number}" for number in range(20)]
        for name, others in rows(("a page in a browser", []), ("a page of many lines in a browser", more)):
            (place / "page.html").write_bytes(dossier("page", "--title", title, *folders, *others)[1])
            shown = run([browser, "--headless", "--no-sandbox", "--disable-gpu", f"--user-data-dir={place}/browser",
                         "--disable-component-update", "--virtual-time-budget=3000", "--dump-dom",
                         f"file://{place}/page.html"])[1].decode()
            found = re.search(r"<title>(.*?)</title>", shown)
            check(name, asked=(asked, []), title=(found and found[1], title.replace("<", "&lt;").replace(">", "&gt;")),
                  owned=("<title>owned" in shown, False), scripts=(shown.count("<script"), int(bool(others))),
                  search=('<p class="search">' in shown, bool(others)))
        server.shutdown()
