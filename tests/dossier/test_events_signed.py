"""Tests of an answer to a log of events that is signed, and of one that counts days by the signature of their machine.
"""
import json
import re
import shutil
from collections.abc import Callable
from pathlib import Path
from typing import Any

from tests.support import check, is_here, run, sum_of
from tests.dossier.audits import ENVIRONMENT, KEEP, dossier, parts_left, rows
from tests.dossier.test_events import NOON, TIMES, fleet_of, log_of, rows_of, words_of
from tests.dossier.test_evidence import key_of
from tests.dossier.test_fleets import days_of, signed_fleet

FILES = ("events.csv", "answered.csv", "events.json", "index.html")
SAME = "verified: its times follow from the log and from the audits of its machines' folders"
DAY = "2001-09-09"


def signed_answer(place: Path) -> tuple[list[object], Path, Path, Path]:
    """An answer that Ann signed: how it was asked for, its folder, her key, and who may sign."""
    (folder,), out, (key, line) = fleet_of(place, "web-1"), place / "answer", key_of(place, "ann")
    (place / "signers").write_text(line)
    log = log_of(place, f"machine,time\nweb-1,{NOON}.5Z\nweb-1,{NOON}Z\nweb-1,{NOON}.7Z\n")
    asked = ["events", "--split", out, "--page", "minute", "--sort", "latest", log, folder]
    dossier(*asked)
    dossier("sign", "--key", key, out)
    return asked, out, key, place / "signers"


def as_signed(place: Path, *folders: Path, **how: Any) -> tuple[int | str, str]:
    """What `verify --as-signed` says of some folders, or of the answer and its fleet."""
    named = folders or (place / "answer", place / "fleet")
    status, out, _ = dossier("verify", "--as-signed", "--signers", place / "signers", *named, **how)
    return status, out.decode()


def contents(folder: Path) -> dict[str, bytes]:
    return {path.name: path.read_bytes() for path in folder.iterdir()}


def test_signed(place: Path) -> None:
    """Who signed an answer is said, and nothing is written into it any more."""
    if not is_here("ssh-keygen", "an answer that is signed"):
        return
    asked, out, key, signers = signed_answer(place)
    at = json.loads((out / "events.json").read_text())["signed"]
    check("sign an answer", files=({*FILES, "events.json.sig", "pages.sums"}, set(contents(out))),
          left=(parts_left(place), []), time=(at, re.compile(r"20\d\d-\d\d-\d\dT\d\d:\d\d:\d\dZ").fullmatch),
          again=(dossier("sign", "--key", key, out)[:2], (4, (
              f"{out}: ntpaudit-dossier: signed already; who wants another signature takes events.json.sig away\n"
          ).encode())))
    status, said, _ = dossier("verify", "--signers", signers, out, place / "fleet")
    first, second = [line for line in said.decode().splitlines() if line.startswith(f"{out}: ")]
    check("verify it", status=(status, 0), first=(first, f"{out}: {SAME}"),
          second=(second.startswith(f"{out}: (signed at {at} by ann@example.org, with the key ED25519 SHA256:"), True))
    status, said, _ = dossier("verify", out, place / "fleet")
    check("verify it without signers", status=(status, 0), told=(f"(signed at {at}, it says; " in said.decode(), True))
    status, text = as_signed(place)
    check("verify it as signed", status=(status, 0), last=(
        text.splitlines()[-1], "all is as it was signed; not shown: nothing that an answer rests on"))
    before = contents(out)
    check("audit a signed answer", run=(dossier("audit", out)[:2], (5, (
        f"refused       {out}: ntpaudit-dossier: events.json is there, so nothing is written beside it\n").encode())))
    for name, words in (("events", asked), ("year", ["year", "--split", out, asked[-1]]),
                        ("page", ["page", "--split", out, place / "fleet" / "web-1" / DAY])):
        status, _, err = dossier(*words)
        check(f"{name} into a signed answer", status=(status, 5), same=(contents(out) == before, True),
              told=(b"so nothing is replaced in it: name another folder, or take events.json.sig away" in err, True))
    (out / "events.json.sig").unlink()
    status, text = as_signed(place)
    check("an answer that nobody signed", status=(status, 1), told=(f"{out}: nobody signed it" in text, True))
    dossier("sign", "--key", key_of(place, "eve")[0], out)
    status, text = as_signed(place)
    check("one that a stranger signed", status=(status, 1), told=(
        "with a key that may not sign by the file of signers" in text, True),
        last=(text.splitlines()[-1].startswith(f"not as it was signed: {out};"), True))
    (out / "events.json.sig").unlink()
    dossier(*asked[:3], *asked[7:])
    check("the signature is taken away", page=((out / "index.html").exists(), False),
          status=(dossier("verify", out, place / "fleet")[0], 0))
    (out / "index.html").write_text("Another page")
    check("a page that isn't its own", told=(f"{out}: index.html isn't of this answer" in
                                             dossier("verify", out, place / "fleet")[1].decode(), True))


def test_changed(place: Path) -> None:
    """A byte that is changed in a signed answer, or in a folder on which it rests, is seen."""
    if not is_here("ssh-keygen", "an answer that is signed"):
        return
    _, out, _, _ = signed_answer(place)
    own = place / "fleet" / "web-1" / DAY
    for file in (*(out / name for name in (*FILES, "events.json.sig")),
                 *(own / name for name in ("claim.json", "f.pcap", "certificate.json", "envelope.txt", "report.txt"))):
        kept = file.read_bytes()
        changed = bytearray(kept)
        changed[len(kept) // 2] ^= 1
        file.write_bytes(changed)
        status, text = as_signed(place)
        check(f"a byte of {file.name}", status=(status, lambda status: status in (1, 2)),
              last=(text.splitlines()[-1].startswith("not as it was signed: "), True))
        file.write_bytes(kept)
    record = json.loads((out / "events.json").read_text())
    lines = (out / "events.csv").read_bytes().splitlines(keepends=True)
    (out / "events.csv").write_bytes(b"".join([lines[0], *lines[:0:-1]]))
    status, text = as_signed(place)
    check("another order of the log's rows", status=(status, 1), told=(
        "events.csv isn't the file that events.json names" in text, True))
    for name, changes in rows(("with its sum", {"log": sum_of((out / "events.csv").read_bytes())}),
                              ("with another time", {"signed": "2020-01-01T00:00:00Z"}),
                              ("with another option", {"asked": {**record["asked"], "sort": "given"}})):
        (out / "events.json").write_text(json.dumps({**record, **changes}, indent=1) + "\n")
        status, text = as_signed(place)
        check(f"the same {name}", status=(status, 1), told=("the signature doesn't fit" in text, True))


def test_kept(place: Path) -> None:
    """What was signed stays when days are packed and signed, and when all is brought elsewhere."""
    if not is_here("ssh-keygen", "an answer that is signed"):
        return
    _, out, key, signers = signed_answer(place)
    before, own = contents(out), place / "fleet" / "web-1" / DAY
    for word in KEEP:
        dossier(*word, own)
        check("a day that is packed", there=((own / "f.pcap").exists(), False), status=(as_signed(place)[0], 0))
    dossier("sign", "--key", key, own)
    check("a day that is signed", there=((own / "audit.json.sig").exists(), True), status=(as_signed(place)[0], 0))
    (place / "alone").mkdir()
    shutil.copytree(out, place / "alone" / "answer" / "of log")
    status, text = as_signed(place, place / "alone" / "answer" / "of log", place / "fleet")
    check("an answer elsewhere than its folders", status=(status, 1),
          told=("is in no folder that is named" in text, True))
    (place / "all").mkdir()
    for name in ("answer", "fleet"):
        shutil.move(place / name, place / "all" / name)
    shutil.copy(signers, place / "all")
    check("an answer and its folders elsewhere", status=(as_signed(place / "all")[0], 0),
          same=(contents(place / "all" / "answer") == before, True))


def test_machines(place: Path) -> None:
    """A day that its machine signed counts, as is said, and no other's key does."""
    if not is_here("ssh-keygen", "a fleet that signs"):
        return
    signers, (one, two), here = signed_fleet(place)
    dossier("verify", one / DAY, env=here)
    shutil.copytree(two / "2001-09-11", one / "2001-09-11")
    log = log_of(place, f"machine,time\nweb-1,{NOON}Z\nweb-1,2001-09-10T12:00:00Z\nweb-2,{NOON}Z\n"
                        "web-1,2001-09-11T12:00:00Z\n")
    out, words = place / "answer", ["--signers", signers, "--split", place / "answer", "--page", "day"]
    check("days without signers", words=(words_of(dossier("events", log, one, two, env=here)[1]),
                                         ["yes", *["not verified"] * 3]))
    dossier("events", *words, log, one, two, env=here)
    told, text = rows_of((out / "answered.csv").read_bytes()), (out / "index.html").read_text()
    check("days by their signers", words=([words for *_, words in told], [
        "yes", "refuted as signed by web-1", "yes as signed by web-2", "not verified"]),
        times=(told[2][:2], TIMES.decode().split(",")[1:3]), page=([said in text for said in (
            "<br>yes as signed by web-2", "Some days are as web-2 signed them: nobody made them again")], [True] * 2),
        by=([machine.get("by") for machine in json.loads((out / "events.json").read_text())["machines"]],
            [{"2001-09-10": "web-1"}, {DAY: "web-2"}]))
    shutil.rmtree(one / "2001-09-11")
    log_of(place, "".join(log.read_text().splitlines(keepends=True)[:-1]))
    dossier("events", *words, log, one, two, env=here)
    signing = ["sign", "--key", place / "ann"]
    without = dossier(*signing, out, env=here)[:2]
    check("sign an answer with days of others", without=(without, (1, (
        f"{out}: days count in it by their machines' signatures: --signers names who may sign\n").encode())),
        by=(dossier(*signing, "--signers", signers, out, env=here)[0], 0))
    auditor = {**here, "XDG_STATE_HOME": str(place / "auditor")}
    check("verify it elsewhere", status=(as_signed(place, env=auditor)[0], 0), without=(
        b"--signers names who may sign" in dossier("verify", out, place / "fleet", env=auditor)[1], True))
    shutil.copytree(two, other := place / "london" / "web-2")
    log = log_of(place / "london", f"machine,time\n{two},{NOON}Z\n{other},{NOON}Z\n")
    check("keys of namesakes", words=(words_of(dossier("events", "--signers", signers, log, two, other, env=here)[1]),
                                      ["not verified"] * 2))
    change_signers(place, out, two, auditor)


def change_signers(place: Path, out: Path, machine: Path, env: dict[str, Any]) -> None:
    """Who is said to have signed a day has to have signed it."""
    record, signature = json.loads((out / "events.json").read_text()), machine / DAY / "audit.json.sig"
    first, second = record["machines"]
    for name, by in (("another signer", {DAY: "ann@example.org"}), ("no signer", {}),
                     ("a day more", {DAY: "web-2", "2001-09-12": "web-2"})):
        (out / "events.json").write_text(json.dumps({**record, "machines": [first, {**second, "by": by}]}))
        status, text = as_signed(place, env=env)
        check(f"an answer with {name}", status=(status, 1), told=(
            re.search(r"(events.json: machines 1 by|answered.csv).* isn't what the log", text), bool))
    (out / "events.json").write_text(json.dumps(record))
    signature.unlink()
    check("a day whose signature is gone", told=("answered.csv isn't what" in as_signed(place, env=env)[1], True))
    run(["mkfifo", signature])
    log, nobody = log_of(place, f"machine,time\nweb-2,{NOON}Z\n"), {**env, "XDG_STATE_HOME": str(place / "nobody")}
    for options, words in rows(([], "not verified"), (["--signers", place / "signers"], "refused")):
        check(f"a FIFO for a signature: {words}", words=(
            words_of(dossier("events", *options, log, machine, env=nobody)[1]), [words]))


def test_strange(place: Path) -> None:
    """An answer is a stranger's: nothing but a regular file is read in it, and nothing else is signed."""
    if not is_here("ssh-keygen", "an answer that is signed"):
        return
    _, out, key, _ = signed_answer(place)
    for name in (*FILES, "events.json.sig"):
        for kind, make in (("a link", lambda path: path.symlink_to(place / "kept")),
                           ("a FIFO", lambda path: run(["mkfifo", path]))):
            hold_strange(place, out / name, kind, make)
    signature = out / "events.json.sig"
    kept = signature.read_bytes()
    signature.unlink()
    run(["ssh-keygen", "-q", "-Y", "sign", "-f", key, "-n", "file", out / "events.json"])
    check("a signature of another purpose", told=("the signature doesn't fit" in as_signed(place)[1], True))
    signature.write_bytes(b"\0" * 65_537)
    check("a signature that is too big", told=("events.json.sig is too big" in as_signed(place)[1], True))
    signature.unlink()
    for name, old, new, said in (("answered.csv", b"767Z", b"768Z", "answered.csv isn't what"),
                                 ("events.json", b'web-1",', b'web-3",', "which has another name"),
                                 ("index.html", b"web-1", b"web-9", "index.html isn't what")):
        right = (out / name).read_bytes()
        (out / name).write_bytes(right.replace(old, new, 1))
        status, text, _ = dossier("sign", "--key", key, out)
        check(f"sign what isn't so: {name}", status=(status, lambda status: status in (1, 2)),
              there=(signature.exists(), False), told=(said in text.decode(), True))
        (out / name).write_bytes(right)
    nobody = {**ENVIRONMENT, "XDG_STATE_HOME": str(place / "nobody")}
    status, text, _ = dossier("sign", "--key", key, out, env=nobody)
    check("sign what nobody made here", status=(status, 1), told=(b"answered.csv isn't what" in text, True))
    signature.write_bytes(kept)
    check("as it was", status=(as_signed(place)[0], 0), days=(len(days_of(place / "fleet" / "web-1")), 1))


def hold_strange(place: Path, file: Path, kind: str, make: Callable[[Path], object]) -> None:
    """What is no regular file in a signed answer is refused, and not signed again."""
    shutil.move(file, place / "kept")
    make(file)
    status, text = as_signed(place)
    check(f"{file.name} is {kind}", status=(status, lambda status: status in (1, 2)),
          told=(f"{file.name} is {kind}" in text, True),
          signed=(dossier("sign", "--key", place / "ann", file.parent)[0], lambda status: status > 0))
    file.unlink()
    shutil.move(place / "kept", file)
