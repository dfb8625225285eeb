"""Tests of what stands beside a verdict: who signed it, and what is looked up, measured and read for the premises.

The keys of signatures are made here.
"""
import json
import os
import re
import shutil
import signal
import subprocess
import time
from datetime import datetime, timedelta, timezone
from functools import partial
from html import unescape
from pathlib import Path
from typing import Any

from tests.support import DATA, ROOT, SECONDS, check, children, is_here, run, runnable, wait_until, wanting
from tests.dossier.audits import (ENVIRONMENT, PROGRAM, SCRIPT, audited, capture_of, check_page, dossier, folder_of,
                                  parts_left, record_of, rows, skipped, table)
from tests.dossier.leaps import leap_list


# ---- signatures
def key_of(place: Path, name: str) -> tuple[Path, str]:
    """A key, and the line that lets its owner sign."""
    run(["ssh-keygen", "-q", "-t", "ed25519", "-N", "", "-C", "", "-f", place / name])
    return place / name, f"{name}@example.org {(place / f'{name}.pub').read_text()}"


def test_signatures(place: Path) -> None:
    """A good folder, an altered one, one that nobody signed and one that a stranger signed, by status and by words."""
    if not is_here("ssh-keygen", "signatures"):
        return
    (key, line), (other, _), signers = key_of(place, "alice"), key_of(place, "mallory"), place / "signers"
    signers.write_text(line)
    good, altered, unsigned, strange = folders = [folder_of(place, name)
                                                  for name in ("good", "altered", "unsigned", "strange")]
    dossier("audit", *folders)
    check("sign", run=(dossier("sign", "--key", key, good, altered),
                       (0, f"{good}: signed\n{altered}: signed\n".encode(), b"")), left=(parts_left(place), []),
          by_another=(dossier("sign", "--key", other, strange)[0], 0))
    at = record_of(good)["signed"]
    check("the time of a signature", seen=(at, re.compile(r"20\d\d-\d\d-\d\dT\d\d:\d\d:\d\dZ").fullmatch))
    status, out, _ = dossier("verify", *folders)
    check("verify without signers", status=(status, 0), seen=(out.count(b"wasn't looked at"), 3),
          verified=(out.count(b": verified"), 4))
    record = (altered / "audit.json").read_text()
    (altered / "audit.json").write_text(record.replace('"version": "ntpaudit ', '"version": "ntpaudit 7'))
    for folder, wanted, is_verified, words in (
            (good, 0, True, f"signed at {at} by alice@example.org, with the key ED25519 SHA256:"),
            (altered, 1, False, "the signature doesn't fit"), (unsigned, 1, True, f"{unsigned}: nobody signed it\n"),
            (strange, 1, True, "may not sign")):
        status, out, _ = dossier("verify", "--signers", signers, folder)
        check(f"verify of {folder.name} with signers", status=(status, wanted), words=(words in out.decode(), True),
              verified=(b": verified" in out, is_verified), named=(b"by mallory" in out, False))
    text = dossier("page", "--signers", signers, *folders)[1].decode()
    check_page("a page of signatures", text)
    check("signer and time on a page", row=(f">alice@example.org <span>{at[:10]}</span> <span>{at[11:19]}</span>"
                                            "</span></td>" in text, True),
          said=(f'<p class="signed">Signed at {at} by alice@example.org, with the key' in text, True),
          others=([text.count(f">{words}<") for words in ("nobody", "doesn\u2019t fit", "by a stranger")], [1, 1, 1]))
    rows = table(*folders, words=("--signers", signers))
    check("signatures as JSON", rows=([row["signature"] for row in rows], ["good", "unfit", "none", "stranger"]),
          signer=((rows[0]["signer"], rows[0]["signed_at"]), ("alice@example.org", at)))
    text = dossier("page", good, unsigned)[1].decode()
    check("a page without signers", said=("wasn't looked at" in unescape(text), True), signer=("alice" in text, False),
          none=(">Signed<" in dossier("page", unsigned)[1].decode(), False))


def test_ended_keys(place: Path) -> None:
    """Whether a key may sign is asked of the time of the signature, whatever time it is now, and wherever."""
    if not is_here("ssh-keygen", "keys that ended"):
        return
    key, line = key_of(place, "alice")
    folder = audited(place, "signed")
    dossier("sign", "--key", key, folder)
    record, local = record_of(folder), {**ENVIRONMENT, "TZ": "XYZ-5"}
    at = datetime.fromisoformat(record["signed"])
    for name, ends, wanted in (("after it", 5, 0), ("before it", -5, 1)):
        end = (at + timedelta(hours=5, seconds=ends)).strftime("%Y%m%d%H%M%S")
        (place / "signers").write_text(f'alice valid-before="{end}" {line.split(" ", 1)[1]}')
        time.sleep(max(0, (at + timedelta(seconds=ends + 1) - datetime.now(timezone.utc)).total_seconds()))
        check(f"a key that ended just {name}",
              status=(dossier("verify", "--signers", place / "signers", folder, env=local)[0], wanted))
    for forged, beside, by_hand in (("2026-99-99T99:99:99Z", 2, 2), ("2001-12-31T23:59:59Z", 1, 1),
                                    (record["made"], 1, 0)):
        (folder / "audit.json").write_text(json.dumps({**record, "signed": forged}))
        check(f"a signature at {forged}",
              status=(dossier("verify", "--signers", place / "signers", folder)[0], beside))
        (folder / "audit.json.sig").unlink()
        run(["ssh-keygen", "-q", "-Y", "sign", "-f", key, "-n", "ntpaudit-dossier", folder / "audit.json"])
        (place / "signers").write_text(line)
        check(f"a signature by hand at {forged}",
              status=(dossier("verify", "--signers", place / "signers", folder)[0], by_hand))


def test_allowed_signers(place: Path) -> None:
    """What a file of allowed signers may say: several names, another purpose, an end of validity."""
    if not is_here("ssh-keygen", "allowed signers"):
        return
    key, line = key_of(place, "alice")
    kind = line.split(" ", 1)[1]
    folder = audited(place, "signed")
    dossier("sign", "--key", key, folder)
    cases = {"two names": (f"alice,bob {kind}", 0, b"by alice, with"),
             "a pattern": (f"*@example.org {kind}", 0, b"by *@example.org, with"),
             "this purpose": (f'alice namespaces="ntpaudit-dossier" {kind}', 0, b"by alice, with"),
             "another purpose": (f'alice namespaces="git" {kind}', 1, b"may not sign"),
             "a key that ended": (f'alice valid-before="20200101" {kind}', 1, b"key has expired"),
             "a key that ends later": (f'alice valid-before="20990101" {kind}', 0, b"by alice, with"),
             "nobody": ("", 1, b"may not sign"), "no such file": ("garbage", 1, b"may not sign"),
             "an escape": (f"\x1b[31mred {kind}", 0, b"by \\x1b[31mred, with")}
    for name, (text, wanted, words) in cases.items():
        (place / "signers").write_text(text)
        status, out, _ = dossier("verify", "--signers", place / "signers", folder)
        check(f"allowed signers: {name}", status=(status, wanted), words=(words in out, True),
              escape=(b"\x1b" in out, False))
    check("no file of signers",
          run=(dossier("verify", "--signers", place / "missing", folder)[::2],
               (4, b"ntpaudit-dossier: the file of signers: missing can't be read (No such file or directory)\n")))
    (place / "signers").write_text(line)
    purpose = ["ssh-keygen", "-q", "-Y", "sign", "-f", key, "-n", "file", folder / "audit.json"]
    for name, forge in rows(("of another purpose", lambda: run(purpose)),
                            ("of no form", lambda: (folder / "audit.json.sig").write_text("junk")),
                            ("that is empty", lambda: (folder / "audit.json.sig").write_text(""))):
        (folder / "audit.json.sig").unlink()
        forge()
        status, out, _ = dossier("verify", "--signers", place / "signers", folder)
        check(f"a signature {name}", status=(status, 1), words=(b"the signature doesn't fit" in out, True))
    (folder / "audit.json").write_text("{")
    status, out, _ = dossier("verify", "--signers", place / "signers", folder)
    check("a signed folder whose record is gone", status=(status, 2),
          words=(b"the signature doesn't fit" in out and b"audit.json isn't one that is taken (no JSON)" in out, True))


def sign_by_agent(place: Path, key: Path) -> None:
    """A key that an agent holds signs a folder, without its file."""
    if not (shutil.which("ssh-agent") and shutil.which("ssh-add")):
        skipped("a key that an agent holds", wanting("ssh-agent"))
        return
    held = audited(place, "held")
    by_agent = (f'ssh-add -q "{key}" && mv "{key}" "{key}.away" && "{SCRIPT}" sign --key "{key}.pub" "{held}"; '
                f'status=$?; mv "{key}.away" "{key}"; exit $status')
    check("a key that an agent holds",
          run=(run(["ssh-agent", "sh", "-c", by_agent], env=ENVIRONMENT)[:2], (0, f"{held}: signed\n".encode())),
          verified=(dossier("verify", "--signers", place / "signers", held)[0], 0))


def bare_path(place: Path) -> dict[str, str]:
    """An environment in which no tool is installed but what the script itself needs."""
    (place / "bin").mkdir()
    for name in ("python3", "env"):
        (place / "bin" / name).symlink_to(str(shutil.which(name)))
    return {**ENVIRONMENT, "PATH": str(place / "bin")}


def test_calls_of_keygen(place: Path) -> None:
    """A good signature takes one call of ssh-keygen, if a line of the signers alone has its key, and a plain name; and
    what else is said of it is as by more."""
    if not is_here("ssh-keygen", "calls of ssh-keygen"):
        return
    (key, line), (_, other) = key_of(place, "alice"), key_of(place, "mallory")
    folder, calls, keygen = audited(place, "folder"), place / "calls", shutil.which("ssh-keygen")
    dossier("sign", "--key", key, folder)
    runnable(place / "ssh-keygen", f"#!/bin/sh\necho \"$2\" >> '{calls}'\nexec {keygen} \"$@\"\n")
    one, three = ["verify"], ["check-novalidate", "find-principals", "verify"]
    ended = line.replace(" ", ' valid-before="20200101" ', 1)
    for name, text, wanted, said in (
            ("alone", line + other, one, " by alice@example.org, "),
            ("twice", line + line, three, " by alice@example.org, "),
            ("several names", f"bob,{line}", three, " by "), ("a pattern", line.replace("alice", "*"), three, " by "),
            ("ended", ended, ["verify", *three[:2]], "may not sign"), ("another", other, three[:2], "may not sign")):
        (place / "signers").write_text(text)
        calls.write_text("")
        out = dossier("verify", "--signers", place / "signers", folder,
                      env={**ENVIRONMENT, "PATH": f"{place}:{ENVIRONMENT['PATH']}"})[1].decode()
        check(f"calls of ssh-keygen: {name}", calls=(calls.read_text().split(), wanted), words=(said in out, True))


def test_signing_again(place: Path) -> None:
    """A signed folder is audited again only with --again; what can't be signed isn't."""
    if not is_here("ssh-keygen", "signing again"):
        return
    (key, line), folder = key_of(place, "alice"), folder_of(place, "signed")
    (place / "signers").write_text(line)
    signature, unaudited = folder / "audit.json.sig", dossier("sign", "--key", key, folder)[:2]
    dossier("audit", folder)
    before = (folder / "audit.json").read_bytes()
    check("nothing to sign, and no key",
          run=(unaudited, (4, f"{folder}: ntpaudit-dossier: not audited\n".encode())),
          key=(dossier("sign", "--key", place / "missing", folder)[:2],
               (4, f"{folder}: ntpaudit-dossier: ssh-keygen didn't sign it (status 255)\n".encode())),
          same=((folder / "audit.json").read_bytes() == before, True), left=(parts_left(place), []))
    sign_by_agent(place, key)
    check("signing twice", statuses=([dossier("sign", "--key", key, folder)[0] for _ in range(2)], [0, 4]))
    kept = {path.name: path.read_bytes() for path in folder.iterdir()}
    check("a signed folder that is unchanged",
          run=(dossier("audit", folder)[:2],
               (0, f"yes           {folder}: least bound 0.619 ms, claimed 5 ms (unchanged)\n".encode())))
    for words in (["--step", "4"], ["--days"]):
        status, out, _ = dossier("audit", *words, folder)
        check(f"a signed folder, audited with {words[0]}", status=(status, 5), told=(b"only with --again" in out, True),
              same=({path.name: path.read_bytes() for path in folder.iterdir()} == kept, True))
    status, out, _ = dossier("audit", "--again", folder)
    check("a signed folder, audited again", status=(status, 0),
          told=(f"        {folder}: its signature was removed\n" in out.decode(), True),
          gone=(signature.exists(), False), signed=(record_of(folder)["signed"], ""))
    was = record_of(folder)["entries"][0]["outputs"]["report.txt"][:16]
    (folder / "report.txt").write_text("")
    check("a changed folder isn't signed", run=(dossier("sign", "--key", key, folder)[:2], (
        1, f"{folder}: report.txt was changed since the audit (SHA-256 e3b0c44298fc1c14.., audit.json has SHA-256 "
        f"{was}..)\n".encode())), gone=(signature.exists(), False))
    (folder / "claim.json").write_text("{}")
    dossier("audit", folder)
    check("a refusal isn't signed", status=(dossier("sign", "--key", key, folder)[0], 4),
          gone=(signature.exists(), False))
    status, out, _ = dossier("sign", "--key", key, audited(place, "good"), env=bare_path(place))
    check("without ssh-keygen", status=(status, 70), line=(b"ssh-keygen isn't installed" in out, True))


def test_signed_evidence(place: Path) -> None:
    """evidence.json and the files that it names are signed too."""
    folder = audited(place, "evidence")
    said = {"capture": "kept by Ann, see `kept.txt`.", "drift": "sheet.pdf, chrony.conf",
            "leap": f"{place}/beside.txt report.txt audit.json"}
    (folder / "evidence.json").write_text(json.dumps(said))
    for name in ("kept.txt", "sheet.pdf", "unnamed.txt", "../beside.txt"):
        (folder / name).write_text(name)
    later = [dossier(command, folder) for command in ("verify", "page")]
    check("evidence that came later", status=(later[0][0], 1), new=([b"evidence.json is new" in out for _, out, _
                                                                     in later], [True, True]))
    dossier("audit", folder)
    inputs = record_of(folder)["inputs"]
    check("sums of evidence", verified=(dossier("verify", folder)[0], 0),
          names=(sorted(inputs), ["claim.json", "evidence.json", "f.pcap", "kept.txt", "sheet.pdf"]))
    (folder / "kept.txt").write_text("another")
    check("evidence that was changed", run=(dossier("verify", folder)[:2], (
        1, f"{folder}: kept.txt isn't the file that was audited (SHA-256 ae448ac86c4e8e4d.., audit.json has SHA-256 "
        f"{inputs['kept.txt'][:16]}..)\n".encode())))


# ---- leap seconds
MINUTE: dict[str, Any] = {
    "client": "192.0.2.10", "servers": ["192.0.2.1"], "false_max": 0, "from": "2001-09-09T01:46:40Z",
    "to": "2001-09-09T01:47:44Z", "bound_ns": 60_000_000, "drift_ppb": 100_000, "reading_ns": 0}
FIRST, LAST = 1_000_000_000, 1_000_000_064


def leap_of(folder: Path, list_: Path) -> tuple[Any, str, list[str]]:
    """The status of an audit by a list, what it says of leap seconds, and the kinds of its warnings."""
    status = dossier("audit", "--leap-seconds", list_, folder)[0]
    entry = record_of(folder)["entries"][0]
    return status, entry["leap"]["says"], [warning["kind"] for warning in entry["warnings"]]


def test_leap_seconds(place: Path) -> None:
    """None in the list, one within, a list that has ended: which seconds count, and the words of the page."""
    within = capture_of(place / "within.pcap", f"1:-1000..1000@{FIRST + 10}", f"1:-1000..1000@{FIRST + 40}")
    around = capture_of(place / "around.pcap", f"1:-1000..1000@{FIRST - 100}", f"1:-1000..1000@{FIRST + 10}",
                        f"1:-1000..1000@{LAST + 100}")
    folder, wide, later = folder_of(place, "leap", within, **MINUTE), folder_of(place, "wide", around, **MINUTE), 2**31
    for own, wanted, until, *seconds in rows(
            (folder, "none", later), (folder, "expired", FIRST - 100), (folder, "expired", LAST),
            (folder, "none", later, (FIRST - 1, 11)), (folder, "within", later, (FIRST, 11)),
            (folder, "within", FIRST - 10**6, (FIRST + 30, 11)), (folder, "within", later, (LAST + 1, 11)),
            (folder, "none", later, (LAST + 2, 11)), (folder, "within", later, (FIRST + 30, 9)),
            (wide, "none", later, (FIRST - 200, 11)), (wide, "within", later, (FIRST - 50, 11)),
            (wide, "within", later, (LAST + 50, 11)), (wide, "none", later, (LAST + 200, 11))):
        list_ = leap_list(place / "own.list", until, *seconds)
        status, says, kinds = leap_of(own, list_)
        row, = table(own, words=("--leap-seconds", list_))
        check(f"leap seconds {wanted} until {until} {seconds} of {own.name}", status=(status, int(wanted != "none")),
              says=((says, row["leap_seconds"]), (wanted, wanted)), warned=("leap-second" in kinds, wanted == "within"),
              left_out=("A second left out at the end of 2001-09-09" in str(row), seconds == [(FIRST + 30, 9)]),
              verified=(dossier("verify", "--leap-seconds", list_, own)[0], status))
    days = folder_of(place, "days", around, **{**MINUTE, "from": "2001-09-08T01:46:40Z"})
    words = ("--leap-seconds", leap_list(place / "days.list", later, (LAST + 300, 11)))
    dossier("audit", "--days", *words, days)
    check("leap seconds of days", says=([row["leap_seconds"] for row in table(days, words=words)], ["none", "none"]))


def test_lists(place: Path) -> None:
    """Which lists are taken, and when a folder is audited again for one."""
    folder, good = folder_of(place, "lists"), leap_list(place / "good.list", 2_000_000_000)
    for name, text in {"torn": good.read_text().rsplit("#h", 1)[0], "empty": "", "words": "#@ x\n", "bytes": "\udcff",
                       "another sum": good.read_text().replace("# a day", "5 # a day").replace(" 10", " 11")}.items():
        (place / "spoilt.list").write_text(text, errors="surrogateescape")
        check(f"a list that is spoilt: {name}", run=(dossier("audit", "--leap-seconds", place / "spoilt.list", folder),
                                                     (2, b"", b"ntpaudit-dossier: the list of leap seconds isn't "
                                                              b"one\n")))
    said = "the list of leap seconds: missing can't be read (No such file or directory)"
    check("a list that isn't there", run=(dossier("audit", "--leap-seconds", place / "missing", folder),
                                          (4, b"", f"ntpaudit-dossier: {said}\n".encode())))

    def is_unchanged(*words: object) -> bool:
        return b"(unchanged)" in dossier("audit", *words, folder)[1]
    other = leap_list(place / "other.list", 2_100_000_000)
    seen = [is_unchanged("--leap-seconds", good), is_unchanged("--leap-seconds", good), is_unchanged(),
            is_unchanged("--leap-seconds", other), is_unchanged()]
    early = leap_list(place / "early.list", 1_700_000_000)
    check("audited again for a list that says another thing", seen=(seen, [False, True, True, True, True]),
          early=(is_unchanged("--leap-seconds", early), False), late=(is_unchanged("--leap-seconds", other), False))
    check("a list that ends earlier than the audit's",
          run=(dossier("verify", "--leap-seconds", early, folder)[:2],
               (1, f"{folder}: audit.json: entries 0 verdict is `yes`, and by the inputs `unsupported`\n"
                f"{folder}: (The list of leap seconds was good until 2023-11-14 only, and the span or the exchanges go "
                "on beyond that.)\n".encode())))
    nowhere = {**ENVIRONMENT, "NTPAUDIT_LEAP_SECONDS": str(place / "missing")}
    status, out, _ = dossier("audit", folder, env=nowhere)
    text = dossier("page", folder, env=nowhere)[1].decode()
    page = "".join(check_page("a page by no list", text).words)
    check("no list here", status=(status, 1), line=(b"(no list of leap seconds)" in out, True),
          badge=('class="verdict unsupported"' in text, True), said=("Nothing is known of leap seconds" in page, True),
          why=(f"nothing, since {said}" in page, True))


# ---- what is measured
def why_no_recording(*user: object) -> str:
    """Why tcpdump can't record here, as a user that these words call it by; nothing if it can."""
    if not shutil.which("tcpdump"):
        return wanting("tcpdump")
    # (a file that it writes it gives to its own user)
    words = [*user, "tcpdump", "-i", "lo", "-c", "1", "-w", "-", "udp and port 123 and port 124"]
    return "" if b"listening on" in listened(words, {**os.environ})[2] else "there is no right to record"


def listened(words: list[Any], environment: dict[str, str]) -> tuple[int, bytes, bytes]:
    """Calls a recorder, and ends it as it listens."""
    said = []
    with subprocess.Popen(words, env=environment, stdout=subprocess.PIPE, stderr=subprocess.PIPE) as call:
        assert call.stdout and call.stderr
        for line in call.stderr:
            said.append(line)
            if b"listening on" in line:
                call.send_signal(signal.SIGINT)
        out = call.stdout.read()
    return call.returncode, out, b"".join(said)


def until_it_listens(words: list[Any], environment: dict[str, str]) -> tuple[int, bytes, bytes]:
    """The same, and lets a second go by: its file has the second in its name."""
    ran = listened(words, environment)
    time.sleep(1)
    return ran


def why_no_link() -> str:
    """Why no link can be made here; nothing if one can."""
    if run(["unshare", "-n", "true"])[0] or not shutil.which("ip"):
        return wanting("ip") if not shutil.which("ip") else "there are no namespaces"
    return why_no_recording()


LATE = """#!/usr/bin/env python3
# stands in for tcpdump: what is recorded where packets leave is stamped 5 ms later, but for every third packet
import subprocess, struct, sys
call = subprocess.run(["{tool}", *sys.argv[1:]], stdout=subprocess.PIPE)
data = bytearray(call.stdout)
place, number = 24, 0
while "ntp0" in sys.argv and place < len(data):
    second, part, size, _ = struct.unpack_from("<4I", data, place)
    if number % 3:
        second, part = divmod(second * 10**9 + part + 5_000_000, 10**9)
        struct.pack_into("<2I", data, place, second, part)
    place, number = place + 16 + size, number + 1
sys.stdout.buffer.write(data)
"""


def test_measure(place: Path) -> None:
    """What is printed, its JSON, and stamps that come too late."""
    if why := why_no_link():
        skipped("measure", why)
        return
    own = place / "late"
    own.mkdir()
    runnable(own / "tcpdump", LATE.format(tool=shutil.which("tcpdump")))
    late = {**ENVIRONMENT, "PATH": f"{own}:{os.environ['PATH']}"}
    for name, words, env in rows(("", [], ENVIRONMENT), ("under load", ["--load"], ENVIRONMENT),
                                 ("of late stamps", [], late)):
        status, out, err = dossier("measure", "--count", "40", *words, "-o", place / "measured.json", env=env)
        found = json.loads((place / "measured.json").read_text())
        numbers = dict(line.split() for line in out.decode().splitlines()[1:5])
        packets = found["packets"]
        check(f"measure {name}", run=((status, err), (0, b"")),
              packets=(out.startswith(b"packets %d" % packets) and 36 <= packets <= 40, True),
              load=((found["busy"] > 0, b"busy process" in out), (bool(words),) * 2),
              same=([str(found[key]) for key in ("late", "greatest_ns", "median_ns", "reading_ns")],
                    list(numbers.values())), left=(run(["pgrep", "-f", f"{place}"])[1], b""))
        if env is late:
            check("late stamps", seen=(found["late"], lambda seen: 0.6 * packets < seen < 0.7 * packets),
                  by=(found["greatest_ns"], lambda by: 4_000_000 < by < 5_000_000),
                  claim=(found["reading_ns"], lambda claimed: found["greatest_ns"] <= claimed <= 5_000_000),
                  said=(b"packets were stamped later where they left" in out, True))
        else:
            check(f"no late stamps {name}",
                  seen=((found["late"], found["greatest_ns"], found["reading_ns"]), (0, 0, 0)),
                  earlier=(found["median_ns"], lambda earlier: 0 < earlier < 10**9))
    status, out, err = dossier("measure", "--count", "5")
    check("measure too few", run=((status, out), (5, b"")), line=(b"a number from 10 to 100000" in err, True))


def has_used_some(process: int) -> bool:
    """Whether a process has used a processor."""
    return sum(map(int, Path(f"/proc/{process}/stat").read_text().rsplit(")", 1)[1].split()[11:13])) > 0


def test_measuring(place: Path) -> None:
    """What stamps come to, and what is refused."""
    from dossier.records import asdict, replace
    from dossier.fault import Fault
    from dossier.premise.measurement import Measurement
    from dossier.premise.measuring import load, matched, measurement
    from dossier.schema import read_typed
    with load(2) as busy:
        is_busy = wait_until(lambda: len(busy) == 2 and all(map(has_used_some, busy)))
    check("processors that are kept busy", used=(is_busy, True),
          left=([process for process in busy if Path(f"/proc/{process}").exists()], []))
    check("stamps of two ends", seen=(matched({1: 100, 2: 200}, {2: 205, 1: 97, 9: 1}, 2), [-3, 5]),
          some=(matched({k: 100 for k in range(1, 10)}, {k: 101 for k in range(1, 11)}, 10), [1] * 9))
    try:
        seen: object = matched({1: 100, 2: 200}, {1: 103}, 2)
    except Fault as fault:
        seen = fault.words
    check("stamps of 1 packet", seen=(seen, "1 of 2 packets were recorded at both ends, so nothing is measured"))
    made = ("tcpdump 4.99", "web-1", "6.1", "2026-11-25T12:00:00Z")
    small, large = measurement([0, 3, 4], 0, *made), measurement([-123_456, -1, 0, 7], 1, *made)
    check("what stamps come to",
          none=((small.late, small.greatest_ns, small.reading_ns, small.median_ns), (0, 0, 0, 3)),
          some=((large.late, large.greatest_ns, large.reading_ns, large.median_ns), (2, 123_456, 130_000, 0)),
          said=((small.why[:21], large.why[:21]), ("none of 3 packets was", "2 of 4 packets were s")),
          read=(read_typed("measured.json", Measurement, json.dumps(asdict(small)).encode()), small))
    folder = folder_of(place, "measured")
    (folder / "evidence.json").write_text(json.dumps({"reading": "measured.json, by Ann"}))
    for found, is_more in ((replace(small, machine="<b>web"), False), (large, True)):
        (folder / "measured.json").write_text(json.dumps(asdict(found)))
        dossier("audit", folder)
        said = "".join(check_page("a page with a measurement", dossier("page", folder)[1].decode()).words)
        check("a measurement on a page", said=([words in said for words in (
            found.why, f"On {found.machine}, at", "measured.json, by Ann", "That is more than the claim grants.")],
            [True, True, True, is_more]))
    for name, text, status, reading in rows(("a measurement", json.dumps(asdict(large)), 0, 130_000),
                                            ("what is none", "{}", 2, None)):
        (place / "measured.json").write_text(text)
        got, claim, err = drafted(folder / "f.pcap", "--measured", place / "measured.json")
        check(f"a draft by {name}", status=(got, status), reading=(claim.get("reading_ns"), reading),
              said=("reading_ns is 130000: On web-1, at" in err, not status))


# ---- by what it is recorded
RECORDER: dict[str, Any] = {
    "kind": "recorder", "interface": "eth0", "stamp": "host", "tool": "tcpdump 4.99", "kernel": "Linux 6.1.0",
    "machine": "web-1", "addresses": ["192.0.2.10"], "since": "2026-11-22T07:00:00Z"}
BEGUN = "eth0-2026-11-22T070000Z.pcap"


def recorded_by(place: Path, name: str, recorder: dict[str, Any] | None = RECORDER, capture: str = BEGUN,
                evidence: Any = {"reading": "eth0.recorder.json"}) -> Path:
    """A capture in a folder of its own, with a recorder's evidence."""
    (place / name).mkdir()
    shutil.copy(DATA / "clients-us.pcap", place / name / capture)
    for file, value in (("evidence.json", evidence), ("eth0.recorder.json", recorder)):
        if value:
            (place / name / file).write_text(json.dumps(value))
    return place / name / capture


def test_allowance(place: Path) -> None:
    """A draft proposes no allowance only where evidence beside each capture says that the client itself recorded it."""
    folder = partial(recorded_by, place)
    cases = {
        "a recorder": (folder("good"), 0),
        "a recorder in words": (folder("words", evidence={"reading": "see eth0.recorder.json, by Ann"}), 0),
        "a recorder of more addresses": (folder("more", {**RECORDER, "addresses": ["10.0.0.1", "192.0.2.10"]}), 0),
        "no evidence": (folder("none", None, evidence=None), 100_000),
        "a recorder without evidence.json": (folder("bare", evidence=None), 100_000),
        "a file that isn't there": (folder("missing", None), 100_000),
        "a capture of another name": (folder("f", capture="f.pcap"), 100_000),
        "a capture that is older": (folder("old", {**RECORDER, "since": "2026-11-22T07:00:01Z"}), 100_000),
        "another machine's recorder": (folder("tap", {**RECORDER, "addresses": ["192.0.2.11"]}), 100_000),
        "a card's stamps": (folder("card", {**RECORDER, "stamp": "adapter"}), 100_000),
        "evidence that is none": (folder("broken", evidence={"reading": 1}), 100_000)}
    for name, (capture, reading) in cases.items():
        status, claim, err = drafted(capture)
        check(f"a draft by {name}", status=(status, 0), reading=(claim.get("reading_ns"), reading),
              said=(("\nreading_ns is 0: tcpdump 4.99 recorded eth0" in err, "\nreading_ns is 100000: since" in err,
                     err.count("reading_ns is"), 'GUIDE.md, "What to claim"' in err),
                    (not reading, bool(reading), 1, True)))
    good, none = cases["a recorder"][0], cases["no evidence"][0]
    later = [capture_of(cases[name][0].parent / BEGUN.replace("T07", "T08"), f"1:-1000..1000@{unix('13:02:55')}")
             for name in ("a recorder", "a recorder of more addresses", "no evidence")]
    for name, words, reading in rows(("one recorder", [later[0]], 0), ("two recorders", [later[1]], 0),
                                     ("a recorder and nothing", [later[2]], 100_000),
                                     ("a number", ["--reading-ns", "7000"], 7000)):
        check(f"a draft by {name}", reading=(drafted(good, *words)[1].get("reading_ns"), reading))
    own = audited(place, "slip", reading_ns=100)
    check("an audit of 100 ns", asked=(b"reading_ns is 100 ns; did you mean 100000?" in dossier("page", own)[1], True))
    for number, asked in ((0, ""), (1, "did you mean 1000?"), (999, "did you mean 999000?"), (1000, "")):
        err = drafted(none, "--reading-ns", str(number))[2]
        check(f"a draft of {number} ns", asked=(f"reading_ns is {number} ns; {asked}" in err, bool(asked)),
              at_all=("did you mean" in err, bool(asked)))
    shutil.copy(DATA / "clients-us.claim.json", (own := place / "good") / "claim.json")
    dossier("audit", own)
    page = "".join(check_page("a page with a recorder", dossier("page", own)[1].decode()).words)
    line, other = "tcpdump 4.99 recorded eth0 (192.0.2.10) on web-1, since", "The capture is what passed"
    check("a recorder on a page", said=(0 < page.find(line) < page.find(other), True),
          input=("eth0.recorder.json" in record_of(own)["inputs"], True))


def test_record(place: Path) -> None:
    """`record` leaves captures that a draft knows, keeps what stands there, and records without evidence too."""
    if why := why_no_recording():
        skipped("record", why)
        return

    def recorded(folder: Path, *words: object, interface: str = "lo") -> tuple[int, bytes, bytes]:
        return until_it_listens([SCRIPT, "record", "--interface", interface, *words, folder], ENVIRONMENT)
    folder = place / "made here"
    recorded(folder)
    first = json.loads((folder / "lo.recorder.json").read_text())
    captures = sorted(folder.glob("lo-*.pcap"))
    check("record", evidence=(json.loads((folder / "evidence.json").read_text()), {"reading": "lo.recorder.json"}),
          seen=((first["kernel"], first["stamp"], first["addresses"], first["machine"]),
                (f"Linux {os.uname().release}", "host", ["127.0.0.1"], os.uname().nodename)),
          tool=(first["tool"].split(", ")[0], run(["tcpdump", "--version"])[1].decode().split("\n")[0]),
          captures=(len(captures), 1), header=(captures[0].read_bytes()[:4], bytes.fromhex("4d3cb2a1")))
    from dossier.capture.recorder import recorders_of
    check("what record made", known=(len(recorders_of(list(map(str, captures))) or []), 1))
    (folder / "evidence.json").write_text(json.dumps({"reading": "by Ann", "drift": "sheet.pdf"}))
    (folder / "lo.recorder.json").write_text(json.dumps({**first, "since": "2026-11-22T07:00:00Z"}))
    recorded(folder, "--hourly")
    check("record again", evidence=(json.loads((folder / "evidence.json").read_text()),
                                    {"reading": "by Ann lo.recorder.json", "drift": "sheet.pdf"}),
          since=(json.loads((folder / "lo.recorder.json").read_text())["since"], "2026-11-22T07:00:00Z"),
          captures=(len(list(folder.glob("lo-*.pcap"))), 2))
    (folder / "evidence.json").write_text("{")
    _, _, err = recorded(folder)
    check("record beside evidence that is none",
          told=(b"no evidence of the recorder is left: evidence.json isn't" in err, True),
          captures=(len(list(folder.glob("lo-*.pcap"))), 3), kept=((folder / "evidence.json").read_text(), "{"))
    for name in ("e th", "", "-x", "a/b", "a" * 16):
        status, out, err = recorded(place / "none", interface=name) if name != "-x" else \
            dossier("record", "--interface=-x", place / "none")
        check(f"record {name!r}", status=(status, 5), made=((place / "none").exists(), False),
              line=(err, b"ntpaudit-dossier: --interface takes the name of one, such as eth0\n"))


STILL = """#!/bin/sh
# stands in for tcpdump: listens, and never records
echo "listening on ntp0" >&2
exec sleep 1000
"""


def test_measure_broken_off(place: Path) -> None:
    """Ctrl-C in `measure` prints one line, whatever it keeps busy."""
    if why := why_no_link():
        skipped("Ctrl-C in measure", why)
        return
    runnable(place / "tcpdump", STILL)
    call = subprocess.Popen([SCRIPT, "measure", "--load", "--count", "100000"],
                            env={**ENVIRONMENT, "PATH": f"{place}:{os.environ['PATH']}"}, stdout=subprocess.PIPE,
                            stderr=subprocess.PIPE, start_new_session=True)
    wait_until(lambda: any(len(children(worker)) > 2 for worker in children(call.pid)))  # (two of them record)
    os.killpg(call.pid, signal.SIGINT)
    out, err = call.communicate(timeout=SECONDS)
    check("Ctrl-C in measure", status=(call.returncode, 130),
          said=((out, err), (b"", b"ntpaudit-dossier: broken off; what is done isn't done again by the next call\n")))


def test_no_right(place: Path) -> None:
    """Without the right to make a link one line says so."""
    nobody = [] if os.geteuid() else ["setpriv", "--reuid=65534", "--regid=65534", "--clear-groups"]
    if not shutil.which("tcpdump") or (nobody and not shutil.which("setpriv")):
        skipped("measure without the right to record", wanting("tcpdump or setpriv"))
        return
    if run([*nobody, "cat", SCRIPT])[0] or run([*nobody, PROGRAM, "--version"])[0] or not why_no_recording(*nobody):
        skipped("measure without the right to record",
                "there is no user without that right who may read the repository")
        return
    check("measure without the right",
          run=(run([*nobody, SCRIPT, "measure", "--count", "10"], env=ENVIRONMENT),
               (4, b"", (b"ntpaudit-dossier: no network of its own can be made for the link (Operation not permitted): "
                         b"it takes root\n"))))
    check("measure without tcpdump", run=(dossier("measure", "--count", "10", env=bare_path(place)), (
        70, b"", b"ntpaudit-dossier: tcpdump isn't installed, which records the packets\n")))


# ---- what a client's configuration says
CLIENT = DATA / "client"


def unix(text: str) -> int:
    return int(datetime.fromisoformat(f"2026-11-25T{text}Z").timestamp())


def drafted(capture: Path, *words: object) -> tuple[int | str, dict[str, Any], str]:
    status, out, err = dossier("draft", *words, capture)
    return status, json.loads(out) if out else {}, err.decode()


def test_client(place: Path) -> None:
    """Drift by what a real chronyd's configuration and log say."""
    capture = capture_of(place / "f.pcap", f"1:-1000..1000@{unix('13:02:55')}", f"1:-1000..1000@{unix('13:02:58')}")
    chrony, tracking = ("--chrony", CLIENT / "chrony.conf"), ("--tracking", CLIENT / "tracking.log")
    status, claim, err = drafted(capture, *chrony, *tracking, "--evidence", place / "drift.json")
    check("a draft by chrony.conf", status=(status, 0), drift=(claim["drift_ppb"], 600_000),
          said=("chrony.conf: maxslewrate 500, so chronyd slews by 500,000 parts in 10^9 at the most; makestep 0.1 3; "
                "leapsecmode slew; no maxdrift; no hwtimestamp." in err, True),
          step=("in the first 3 updates after its start if it is off by more than 0.1 s" in err, True),
          no_step=("; no step." in err, True))
    rates = [float(line.split()[4]) for line in (CLIENT / "tracking.log").read_text().splitlines() if "127.0.0.1"
             in line]
    change = max(abs(b - a) for a, b in zip(rates, rates[1:]))
    log = (f"tracking.log, as chronyd wrote it: {len(rates)} updates from 2026-11-25 13:02:51 to 2026-11-25 13:02:59, "
           f"its frequency from {min(rates):.3f} to " f"{max(rates):.3f} ppm, with {change:.3f} ppm at the most")
    check("what tracking.log says", said=(log in err, True))
    configurations = {"": (83_433_334, "maxslewrate isn't set, so chronyd slews by 83,333,334 parts"),
                      "MaxSlewRate 100.0001": (200_001, "maxslewrate 100.0001"),
                      "maxslewrate 500\n! maxslewrate 5\n  # maxslewrate 6\n; x\n% y\nmaxslewrate 1000":
                          (1_100_000, "maxslewrate 1000"),
                      "makestep 1 -1": (83_433_334, "steps the clock at any time if it is off by more than 1 s"),
                      "hwtimestamp eth0\nhwtimestamp eth1": (83_433_334, "hwtimestamp eth0 eth1"),
                      "confdir /etc/chrony/conf.d": (83_433_334, "takes in /etc/chrony/conf.d besides, which wasn't"),
                      "maxslewrate x": (None, "maxslewrate has no number"),
                      "maxslewrate -5": (None, "maxslewrate is below zero"),
                      "maxslewrate 500000": (None, "more than a claim can grant")}
    for text, (drift, words) in configurations.items():
        (place / "chrony.conf").write_text(text)
        status, claim, err = drafted(capture, "--chrony", place / "chrony.conf")
        check(f"chrony.conf: {text!r}", status=(status, 2 if drift is None else 0),
              drift=(claim.get("drift_ppb"), drift), said=(words in err, True))
    for text, words in (("", "steps from 0.128 s on"), ("tinker panic 0 step 0.5 # x", "steps from 0.5 s on"),
                        ("tinker step 0", "no steps (tinker step 0)"), ("# tinker step 0", "0.128 s")):
        (place / "ntp.conf").write_text(text)
        status, claim, err = drafted(capture, "--ntpd", place / "ntp.conf", "--oscillator-ppb", "50000")
        check(f"ntp.conf: {text!r}", status=(status, 0), drift=(claim["drift_ppb"], 550_000), said=(words in err, True))
    for words in rows(tracking, ("--evidence", place / "x"), ("--ntpd", "a", *tracking), (*chrony, "--ntpd", "a")):
        check(f"a draft with {words[0]} alone", status=(drafted(capture, *words)[0], 5))
    check("no configuration", status=(drafted(capture, "--chrony", place / "missing")[0], 4),
          own=(drafted(capture, *chrony, "--drift-ppb", "7")[1]["drift_ppb"], 7),
          log=(drafted(capture, *chrony, "--tracking", CLIENT / "chrony.conf")[0], 2))


def test_steps(place: Path) -> None:
    """Steps of a real chronyd's log by a draft, and what of it a page takes. (The words are held to histories.)"""
    stepping, chrony = CLIENT / "stepping.log", CLIENT / "chrony.conf"
    steps = [line.split()[1] for line in stepping.read_text().splitlines() if line[:1] == "2"
             and abs(float(line.split()[6])) > 0.1]
    for name, (first, last) in {"around": ("13:04:30", "13:04:50"), "after": ("13:08:00", "13:08:10")}.items():
        capture = capture_of(place / f"{name}.pcap", f"1:-1000..1000@{unix(first)}", f"1:-1000..1000@{unix(last)}")
        status, _, err = drafted(capture, "--chrony", chrony, "--tracking", stepping)
        said = err.count("(an offset beyond makestep's threshold) is inside the span")
        check(f"steps of a log, {name}", status=(status, 0), some=(len(steps) > 3, True),
              count=(said, len(steps) if name == "around" else 0), all=(f"{len(steps)} step" in err, True),
              cover=("doesn't cover the whole span" in err, True))
    from dossier.premise.tracking import cautions, read_tracking
    read = read_tracking({"stepping.log": stepping.read_bytes()}, None, "2026-11-26T00:00:00Z")
    begin, end = unix("13:04:41"), unix("13:04:44")
    check("what a log covers", seen=([bool(cautions(read, begin + a, end + b)) for a,
                                      b in ((0, 0), (-1, 0), (0, 2), (1, -1))], [False, True, True, False]))
    (place / "quiet.conf").write_text("maxslewrate 500")
    check("no makestep, no steps", said=("; no step." in drafted(capture, "--chrony", place / "quiet.conf",
                                                                 "--tracking", stepping)[2], True))
    folder = folder_of(place, "client", place / "around.pcap",
                       **{**MINUTE, "from": "2026-11-25T13:04:41Z", "to": "2026-11-25T13:04:49Z"})
    drafted(place / "around.pcap", "--chrony", chrony, "--tracking", stepping, "--evidence", folder / "drift.json")
    (folder / "evidence.json").write_text(json.dumps({"drift": "drift.json"}))
    kept = json.loads((folder / "drift.json").read_text())
    for name, value in (("kind", "drift"), ("tracking", {"files": 1}), ("configuration", {}),
                        ("configuration", {**kept["configuration"], "slew_ppb": "x"}), ("drift_ppb", 1),
                        ("kind", "reading"), ("tracking", {**kept["tracking"], "steps": [[1, 2]]}),
                        ("oscillator_ppb", None)):
        (folder / "drift.json").write_text(json.dumps({**kept, name: value}))
        dossier("audit", folder)
        status, out, _ = dossier("page", folder)
        check(f"evidence with {name} {value}", status=(status, 0), shown=(b"<b>Read:" in out, value == "drift"),
              page=(b'class="verdict refused"' in out, False))


# ---- copies
def test_copies(place: Path) -> None:
    """A script that was copied without what it needs says what is missing and what to set."""
    shutil.copy(SCRIPT, place / "ntpaudit-dossier")
    bare = {name: value for name, value in ENVIRONMENT.items() if name != "NTPAUDIT"} | {"PATH": "/usr/bin:/bin"}
    folder = folder_of(place, "host")
    called = [place / "ntpaudit-dossier", "audit", folder]
    check("a script alone",
          run=(run(called, env=bare),
               (70, b"", (f"ntpaudit-dossier: {place}/dossier is missing: copy that folder of the repository "
                          "beside this " "script, and set NTPAUDIT to the path of the program ntpaudit\n").encode())))
    shutil.copytree(ROOT / "dossier", place / "dossier", ignore=shutil.ignore_patterns("__pycache__"))
    if not shutil.which("ntpaudit", path=bare["PATH"]):
        check("a script without the program",
              run=(run(called, env=bare),
                   (70, b"",
                    (b"ntpaudit: the program is not there (neither beside ntpaudit-dossier nor on the PATH): set "
                     b"NTPAUDIT to its path\n"))))
    else:
        skipped("a script without the program", "another one is installed")
    missing = run(called, env={**bare, "NTPAUDIT": str(place / "missing")})
    check("a program that isn't there",
          run=(missing,
               (70, b"", f"ntpaudit: the program is not there ({place}/missing): set NTPAUDIT to its path\n".encode())))
    check("a script with NTPAUDIT", status=(run(called, env={**bare, "NTPAUDIT": PROGRAM})[0], 0))
    shutil.copy(PROGRAM, place / "ntpaudit")
    check("a script beside the program", status=(run([*called[:2], "--again", *called[2:]], env=bare)[0], 0))


def test_auditing(place: Path) -> None:
    """What a page says of docs/AUDITING.md is there, by its name."""
    folder = audited(place, "page")
    text = dossier("page", folder)[1].decode()
    named = re.findall(r"docs/AUDITING\.md, \u201c([^\u201d]*)\u201d", text)
    headings = re.findall(r"^## (.*)$", (ROOT / "docs" / "AUDITING.md").read_text("utf-8"), flags=re.M)
    check("the sections of AUDITING.md that a page names", there=([name for name in named if name not in headings], []),
          count=(len(set(named)) > 2, True))


def test_logged_steps() -> None:
    """A step in a log counts whatever other lines are there, and by what the clock showed just before it, too."""
    from dossier.folder.claim import Claim
    from dossier.folder.entry import Leap
    from dossier.premise.backing import logged as against
    from dossier.premise.tracking import read_tracking
    step = b"2024-10-04T00:25:00Z web-1 chronyd[411]: System clock was stepped by {} seconds\n"
    bad = b"2024-10-04T00:00:61Z web-1 chronyd[411]: Selected source 10.9.1.1\n"
    claim = Claim("10.9.0.1", ["10.9.1.1"], 0, "2024-10-04T00:00:00Z", "2024-10-04T01:00:00Z", 1_000_000, 100_000, 0)
    for name, size, hours, wanted in (("in the span", b"3.000000", 0, ["step"]), ("elsewhere", b"3.000000", -12, []),
                                      ("from the span", b"43200.000000", -12, ["step"])):
        log = read_tracking({"messages.log": step.replace(b"{}", size) + bad}, None, "2024-10-05T00:00:00Z")
        first, last = claim.first + 3600 * hours, claim.last + 3600 * hours
        leap = Leap("none", first, last)
        check(f"a logged step {name}", unread=(log.unread, 1),
              kinds=([alert.kind for alert in against([log], claim, leap, [])], wanted))


def test_names_of_logs(place: Path) -> None:
    """Whatever evidence.json names is read as a log; what isn't understood is said of those beside the drift alone,
    unless their names say that they are none."""
    from dossier.folder.files import Folder
    from dossier.premise.backing import backing
    (place / "claim.json").write_bytes((DATA / "clients-us.claim.json").read_bytes())
    step = "2026-11-22T07:03:40Z web-1 chronyd[411]: System clock was stepped by 1.000000 seconds\n"
    journal = json.dumps({"__REALTIME_TIMESTAMP": "1795330733288925", "SYSLOG_IDENTIFIER": "chronyd",
                          "MESSAGE": "System clock was stepped by 1.000000 seconds"})
    bare, page, pretty = "makestep 1 3\n", "It was stepped in May.\n", '{\n"MESSAGE" : "clock was stepped by 1.0 s"\n}'
    for premise, name, text, steps, unread in rows(
            ("drift", "messages-20261122", step, 1, 0), ("drift", "journal.txt", step, 1, 0),
            ("drift", "syslog", step, 1, 0), ("drift", "tracking.log.1", step, 1, 0), ("drift", "x.conf", step, 1, 0),
            ("drift", "chrony.conf", bare, 0, 0), ("drift", "sheet.PDF", step, 1, 0), ("drift", "sheet.md", page, 0, 0),
            ("drift", "journal.json", f"{journal}\n{{}}", 1, 1), ("drift", "pretty.json", pretty, 1, 2),
            ("leap", "journal.json", journal, 1, 0), ("leap", "x.log", f"{page}{bare}", 0, 0),
            ("drift", "notes.txt", bare, 0, 1), ("drift", "f.pcap", step, 0, 0),
            ("drift", "log.json", step, 1, 0), ("drift", "x.json", '{"a": "It was stepped."}', 0, 1)):
        (place / "evidence.json").write_text(json.dumps({premise: f"the client's, see {name}"}))
        (place / name).write_text(text)
        with Folder(str(place)) as folder:
            found = backing(folder, {"claim.json", "evidence.json", name})
        check(f"{text[:20]!r} in {name} beside {premise}", unread=(sum(found.unread.values()), unread),
              steps=([len(log.steps) for log in found.logs], [steps] * bool(steps)))
