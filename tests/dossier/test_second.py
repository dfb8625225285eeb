"""Tests of `verify --second`: what two programs say alike, what one of them disputes, and a second that isn't one.
"""
import json
import os
import shutil
import sys
from pathlib import Path
from typing import Any

from tests.support import DATA, ROOT, Ran, check, run, runnable, wanting
from tests.dossier.audits import ENVIRONMENT, capture_of, check_page, dossier, folder_of, skipped
from tests.dossier.test_evidence import key_of

SAID = "Judged by two programs: at "
RECHECK = ROOT / "second/recheck"
FEW: dict[str, Any] = {"client": "192.0.2.10", "servers": [f"192.0.2.{k}" for k in (1, 2, 3)],
                       "false_max": 0, "from": "2001-09-09T01:46:40Z",
                       "to": "2001-09-09T01:47:44Z", "drift_ppb": 100_000, "reading_ns": 0}
# A course can be off by 0.2 ns more than this bound, which is less than a tick: so nothing shows it, nor refutes it.
OPEN = {**FEW, "from": "2001-09-09T02:03:20Z", "to": "2001-09-09T02:03:20Z", "bound_ns": 118_988_100}
AT, MS = 1_000_000_010, 4_294_967


def folders_of(place: Path) -> dict[str, Path]:
    """A folder of each verdict."""
    found = {"yes": folder_of(place, "yes"),
             "refuted": folder_of(place, "refuted", DATA / "chrony-ns.pcap", DATA / "chrony-ns.tight.claim.json")}
    for name, words, changes in (
            ("nothing fits", [f"1:0..9@{AT}", f"2:{-7 * MS}..{-6 * MS}@{AT}"], FEW),
            ("no evidence", [f"1:0..9@{AT}"], {**FEW, "false_max": 1}), ("open", [f"1:0..{20 * MS + 1}@{AT}"], OPEN)):
        found[name] = folder_of(place, name, capture_of(place / f"{name}.pcap", *words), **changes)
    return found


def planted(path: Path, old: str, new: str) -> dict[str, str]:
    """An environment whose second program is recheck with another text."""
    text = RECHECK.read_text("utf-8")
    assert text.count(old) == 1
    return scripted(path, text.replace(old, new))


def scripted(path: Path, text: str) -> dict[str, str]:
    runnable(path, text)
    return {**ENVIRONMENT, "NTPAUDIT_SECOND": str(path)}


def shown(folder: Path, *words: object, **how: Any) -> tuple[str, bool]:
    """The verdict on the page, and whether the page says that two programs judged it."""
    text = dossier("page", *words, folder, **how)[1].decode()
    page = check_page(f"a page of {folder.name}, judged", text)
    row, = json.loads(dossier("page", "--json", *words, folder, **how)[1])
    said = SAID in "".join(page.words)
    check(f"the table of {folder.name}, judged", at=(bool(row["judged_twice_at"]), said))
    return row["verdict"], said


def test_agreeing(place: Path) -> None:
    """Of each verdict but `open` both programs say the same, and the page says so, as long as the answers are these."""
    state, folders = ("--state", place / "state"), folders_of(place)
    dossier("audit", *state, *folders.values())
    check("before the second is asked", shown=({shown(folder, *state)[1] for folder in folders.values()}, {False}))
    for verdict, folder in folders.items():
        before = {path.name: path.read_bytes() for path in folder.iterdir()}
        status, out, err = dossier("verify", *state, "--second", folder)
        said = "what is open was judged by one program: it states nothing that the second could judge" \
            if verdict == "open" else "judged by two programs"
        check(f"two programs: {verdict}", run=((status, err), (int(verdict != "yes"), b"")),
              lines=(out.decode(), f"{folder}: verified: {verdict}\n{folder}: ({said})\n"),
              shown=(shown(folder, *state), (verdict, verdict != "open")),
              left=({path.name: path.read_bytes() for path in folder.iterdir()}, before))
    yes = folders["yes"]
    dossier("audit", "--state", place / "other", "--again", yes)
    check("what was judged elsewhere", shown=(shown(yes, "--state", place / "other"), ("yes", False)))
    dossier("verify", *state, yes)
    if shutil.which("ssh-keygen"):
        dossier("sign", *state, "--key", key_of(place, "ann")[0], yes)
        check("signed since", shown=(shown(yes, *state), ("yes", True)))
    else:
        skipped("what was judged and signed", wanting("ssh-keygen"))
    dossier("audit", *state, "--again", "--step", "5", yes)
    check("other answers since", shown=(shown(yes, *state), ("yes", False)))
    capture = capture_of(place / "days.pcap", "1:-1000..1000@1000079990", "1:-1000..1000@1000080020")
    span = {"from": "2001-09-09T23:59:30Z", "to": "2001-09-10T00:00:30Z"}
    changes: dict[str, Any] = {**FEW, "servers": ["192.0.2.1"], "bound_ns": 60_000_000, **span}
    days = folder_of(place, "days", capture, **changes)
    dossier("audit", *state, "--days", days)
    said = f"{days}: verified: 2 yes\n{days}: (judged by two programs)\n"
    check("two days", run=(dossier("verify", *state, "--second", days), (0, said.encode(), b"")),
          shown=(dossier("page", *state, days)[1].decode().count(SAID), 2))


def test_disputing(place: Path) -> None:
    """A second program with a bug: what it disputes is no yes any more, whoever audits it again, until both agree."""
    state = ("--state", place / "state")
    yes, refuted, *_ = folders_of(place).values()
    dossier("audit", *state, yes, refuted)
    dossier("verify", *state, "--second", yes)
    bug = planted(place / "planted", "whole(bound, 0, 10**15) * SECOND // BILLION",
                  "whole(bound, 0, 10**15) * SECOND // BILLION // 100")
    from dossier.folder.entry import read_record
    from dossier.folder.registry import Known
    known, record = Known(str(state[1]), True), read_record((yes / "audit.json").read_bytes())
    status, out, _ = dossier("verify", *state, "--second", refuted, yes, env=bug)
    known.renew()
    check("what another process disputes", seen=(known.dispute(record) != "", True))
    words = ('of certificate.json the program says "verdict yes", and the second program "verdict no piece 0 exceeds" '
             "(status 1)")
    line = f"{yes}: disputed: {words}\n"
    check("a second program with a bug", run=((status, out.decode().splitlines()[-1] + "\n"), (1, line)),
          yes=("verified: yes" in out.decode(), False),
          both=(f"{refuted}: verified: refuted\n{refuted}: (judged by two programs)\n" in out.decode(), True))
    dossier("page", *state, "--metrics", place / "m.prom", "-o", place / "page.html", refuted, yes)
    text = (place / "page.html").read_text()
    page = "".join(check_page("a page of what is disputed", text).words)
    check("what is disputed, on the page", badge=('class="verdict disputed"' in text, True),
          yes=('class="verdict yes"' in text, False), first=(page.index(str(yes)) < page.index(str(refuted)), True),
          said=(words in page and "Believe neither program" in page, True), drawn=(text.count('class="picture"'), 1),
          metrics=([f'folder="{yes}",verdict="{verdict}"}} {value}\n' in (place / "m.prom").read_text()
                    for verdict, value in (("disputed", 1), ("yes", 0))], [True, True]))
    for again in ((), ("--again",), ("--step", "5")):
        check(f"what is disputed, audited {again}",
              run=(dossier("audit", *state, *again, yes)[:2], (1, f"disputed      {yes}: {words}\n".encode())),
              shown=(shown(yes, *state), ("disputed", False)))
    check("what is disputed, verified by one program", run=(dossier("verify", *state, yes)[:2], (1, line.encode())),
          shown=(shown(yes, *state, "--verify"), ("disputed", False)))
    status, out, _ = dossier("sign", *state, "--key", place / "key", yes)
    check("what is disputed isn't signed", run=((status, out), (1, line.encode())))
    check("what is disputed isn't packed, or taken away", left=((yes / "f.pcap").exists(), True),
          run=(dossier("keep", *state, "--years", "1", "--force", yes)[:2], (1, line.encode())))
    check("both agree again", run=(dossier("verify", *state, "--second", yes)[0], 0),
          shown=(shown(yes, *state), ("yes", True)), audit=(dossier("audit", *state, yes)[0], 0))


def test_no_second(place: Path) -> None:
    """A second program that isn't there, never ends, or says something else than a checker would."""
    folder = folder_of(place, "host")
    dossier("audit", "--state", place / "state", folder)

    def verified(text: str, *words: object) -> Ran:
        return dossier("verify", "--state", place / "state", "--second", *words, folder,
                       env=scripted(place / "second", f"#!/bin/sh\n{text}\n"))

    def holds(name: str, ran: Ran, status: int, said: str, verdict: str = "yes") -> None:
        check(name, status=(ran[0], status), said=(said in (ran[1] + ran[2]).decode("utf-8", "backslashreplace"), True),
              yes=(b"verified" in ran[1], False), trace=(b"Traceback" in ran[2], False),
              shown=(shown(folder, "--state", place / "state"), (verdict, False)))
    missing = {**ENVIRONMENT, "NTPAUDIT_SECOND": str(place / "nowhere")}
    holds("no second program", dossier("verify", "--state", place / "state", "--second", folder, env=missing), 70,
          "ntpaudit-dossier: the second program, ntpaudit-recheck, isn't there")
    holds("a second program that never ends", verified("exec sleep 1000", "--limit", "5"), 2, "not done within 5 s")
    holds("a second program that says no end of lines", verified("exec yes"), 2, "says more of certificate.json than a")
    for text, why in (("echo 'recheck: capture: it is torn' >&2; exit 2", "recheck: capture: it is torn"),
                      ("exit 127", "status 127, and no line"), ("kill -9 $$", "status -9, and no line"),
                      ("printf 'a\\033[2Jb\\n' >&2; exit 70", "a\\x1b[2Jb")):
        holds(f"a second program that judges nothing: {text}", verified(text), 2,
              f"{folder}: ntpaudit-dossier: the second program doesn't judge certificate.json ({why})\n")
    for text, why in (("echo verdict maybe", 'verdict maybe" (status 0)'), ("true", '" (status 0)'),
                      ("echo verdict yes; exit 1", 'verdict yes" (status 1)'), ("printf '\\377'", '\ufffd" (status 0)'),
                      ("printf 'verdict yes\\nverdict yes\\n'", 'verdict yes\\x0averdict yes" (status 0)')):
        holds(f"a second program that says something else: {text}", verified(text), 1,
              f'{folder}: disputed: of certificate.json the program says "verdict yes", and the second program "',
              "disputed")
        told = dossier("verify", "--state", place / "state", folder)[1].decode("utf-8", "backslashreplace")
        check(f"what else it says: {text}", said=(why in told, True))


def test_at_one_call(place: Path) -> None:
    """The answers of a yes are judged at one call, for which the second reads the capture once. One that takes an
    answer alone, as an older one does, is asked of each."""
    yes = folder_of(place, "yes")
    dossier("audit", "--state", place / "state", yes)
    for name, takes, wanted in (("this", "", [6]), ("older", "[ $# -le 4 ] || exit 2\n", [6, 4, 4])):
        calls = place / f"{name}.calls"
        env = scripted(place / name, f"#!/bin/sh\necho $# >> '{calls}'\n{takes}exec '{RECHECK}' \"$@\"\n")
        ran = dossier("verify", "--state", place / "state", "--second", yes, env=env)
        check(f"at one call: {name}", run=((ran[0], b"(judged by two programs)" in ran[1]), (0, True)),
              words=(list(map(int, calls.read_text().split())), wanted))


def test_second_on_the_path(place: Path) -> None:
    """The second program is found beside the dossier where that is installed, else in an absolute entry of PATH."""
    prefix, folder = place / "prefix", folder_of(place, "host")
    shutil.copytree(ROOT / "dossier", prefix / "share/ntpaudit/dossier", ignore=shutil.ignore_patterns("__pycache__"))
    (prefix / "bin").mkdir()
    script = shutil.copy(ROOT / "ntpaudit-dossier", prefix / "bin")
    dossier("audit", folder)
    # Whoever runs this may have ntpaudit installed: the PATH has nothing but an interpreter.
    (place / "python").mkdir()
    (place / "python/python3").symlink_to(sys.executable)
    for path in (prefix / "bin", place):
        second = shutil.copy(RECHECK, path / "ntpaudit-recheck")
        status, out, _ = run([script, "verify", "--second", folder],
                             env={**ENVIRONMENT, "PATH": f".:{place}/python:{place}"})
        check(f"a second program in {path.name}", run=((status, b"(judged by two programs)" in out), (0, True)))
        os.unlink(second)
    runnable(folder / "ntpaudit-recheck", "#!/bin/sh\necho verdict yes\n")
    status, _, err = run([script, "verify", "--second", "."], cwd=folder,
                         env={**ENVIRONMENT, "PATH": f".:{place}/python"})
    check("a second program in the folder", run=((status, b"isn't there" in err), (70, True)))


def test_third(place: Path) -> None:
    """The judge is asked too, where it is there: recheck by another name stands in for it here."""
    state, folder = ("--state", place / "state"), folder_of(place, "host")
    dossier("audit", *state, folder)
    judge = shutil.copy(RECHECK, place / "ntpaudit-judge")
    three = {**ENVIRONMENT, "NTPAUDIT_JUDGE": str(judge)}
    line = f"{folder}: verified: yes\n{folder}: (judged by three programs)\n"
    check("three programs", run=(dossier("verify", *state, "--second", folder, env=three), (0, line.encode(), b"")))
    page = "".join(check_page("a page, judged by three", dossier("page", *state, folder)[1].decode()).words)
    check("three programs, on the page", said=("Judged by three programs: at " in page, True))
    bug = planted(place / "planted", "-claim.bound <= hull[0]", "False")
    with_bug = {**ENVIRONMENT, "NTPAUDIT_JUDGE": bug["NTPAUDIT_SECOND"]}
    words = 'of certificate.json the program says "verdict yes", and the judge "verdict no piece 0 exceeds" (status 1)'
    check("a judge that disputes", run=(dossier("verify", *state, "--second", folder, env=with_bug)[:2],
                                        (1, f"{folder}: disputed: {words}\n".encode())))
    check("and two that agree", run=(dossier("verify", *state, "--second", folder)[0], 0),
          shown=(shown(folder, *state), ("yes", True)))
    missing = {**ENVIRONMENT, "NTPAUDIT_JUDGE": str(place / "nowhere")}
    status, out, err = dossier("verify", *state, "--second", folder, env=missing)
    check("no judge where one is named", run=((status, out), (70, b"")),
          said=(b"the judge, ntpaudit-judge, isn't there" in err, True))
