"""Tests of honest years that are signed: each is as it was signed, in each of the ways, for whoever verifies it.
"""
import json
import os
import shutil
from pathlib import Path
from typing import Any

from tests.support import DATA, check, is_here, run
from tests.dossier.audits import ENVIRONMENT, PROGRAM, SCRIPT, called, dossier, record_of, rows, skipped, with_change
from tests.dossier.test_events import NOON, log_of
from tests.dossier.leaps import leap_list
from tests.dossier.test_evidence import key_of
from tests.dossier.test_fleets import days_of, machine
from tests.dossier.test_years import DAY, FIRST, RIGHT, WIDE, day
from tests.dossier.test_years_held import sign
from tests.tools.wire import records_of

from dossier.fleet.machines import in_quotes, in_words, may_be
from dossier.units import now

WAYS = "", "--answers", "--known", "--second", "--sample 2 --seed x", "--answers --known"


def signed_year(place: Path, *machines: Path | str, **how: Any) -> None:
    """A year of some machines, put into `pages` and signed there."""
    (key, allowed), signers = key_of(place, "ann"), place / "signers"
    signers.write_text(allowed)
    dossier("year", "--year", "2001", "--split", place / "pages", *machines, **how)
    dossier("sign", "--key", key, place / "pages", **how)


def as_signed(place: Path, way: str = "", state: str = "auditor") -> tuple[int | str, str]:
    """The status of verifying this year in a way, by somebody who has that state; and what is said."""
    status, out, _ = dossier("verify", "--as-signed", "--signers", place / "signers", *way.split(), place / "pages",
                             place / "fleet", env={**ENVIRONMENT, "XDG_STATE_HOME": str(place / state)})
    return status, out.decode()


def last_of(text: str) -> str:
    return text.splitlines()[-1]


def test_empty_machine(place: Path) -> None:
    """A machine without a day is said to be missing, and its number of days is held to the year's."""
    if not is_here("ssh-keygen", "a year that is signed"):
        return
    own, empty = machine(place / "fleet", "web-1"), place / "fleet" / "web-3"
    empty.mkdir()
    dossier("audit", *days_of(own))
    signed_year(place, own, empty)
    for way in WAYS:
        status, text = as_signed(place, way)
        check(f"a machine without a day {way}", status=(status, 0), last=(
            f"{empty} 2001-01-01 .. 2001-12-31 missing" in last_of(text), True))
    told = dossier("verify", "--as-signed", "--signers", place / "signers", place / "pages", own, empty)
    check("a machine without a day that is named", status=(told[0], 0), said=(
        f"{empty}: (no year or answer that is named rests on what is in it)" in told[1].decode(), True))
    year = place / "pages" / "year.json"
    text = year.read_text()
    at = text.rindex('"days": 365')
    year.write_text(f'{text[:at]}"days": 3{text[at + 11:]}')
    check("another number of its days", said=("doesn't follow from its days" in as_signed(place)[1], True))
    shutil.rmtree(place / "pages")
    dossier("year", "--year", "9999", "--split", place / "pages", own)
    dossier("sign", "--key", place / "ann", place / "pages")
    check("a year of which no day has ended", last=(last_of(as_signed(place)[1]).partition("; ")[2], (
        "not shown: days from 9999-01-01 on, which hadn't ended when it was made")))


def test_lost_and_found(place: Path) -> None:
    """A fleet may be a file system of its own: what root alone sees in lost+found there is nobody's day or machine."""
    nobody = ["setpriv", "--reuid=65534", "--regid=65534", "--clear-groups"]
    if not is_here("ssh-keygen", "a year that is signed"):
        return
    if os.geteuid() or not shutil.which("setpriv") or run([*nobody, PROGRAM, "--version"])[0]:
        skipped("a file system of its own", "this isn't root, or nobody else may read the repository")
        return
    own, found = machine(place / "fleet", "web-1", 1), place / "fleet" / "lost+found"
    dossier("audit", *days_of(own))
    signed_year(place, own)
    found.mkdir(mode=0o700)
    for path in place, place.parent:
        path.chmod(0o755)
    (place / "state").mkdir()
    (place / "state").chmod(0o777)
    words = [SCRIPT, "verify", "--as-signed", "--signers", place / "signers", place / "pages"]
    told = run([*nobody, *words, place / "fleet"], env={**ENVIRONMENT, "XDG_STATE_HOME": str(place / "state")})
    check("lost+found beside a machine", status=(told[0], 0), last=(
        last_of(told[1].decode()).startswith("all is as it was signed"), True))
    check("lost+found that is named", status=(run([*words, own, found], env=ENVIRONMENT)[0], 0))


def test_twice_there(place: Path) -> None:
    """A day beside a year that counts it by another folder, which is no better, needs no signature, but a worse one."""
    if not is_here("ssh-keygen", "a year that is signed"):
        return
    own = place / "fleet" / "web-1"
    for counted, other, status in (WIDE, RIGHT, 0), (RIGHT, WIDE, 1):
        night, beside = day(own, 1, counted, name="2001-09-10-night"), day(own, 1, other)
        dossier("audit", night, beside)
        signed_year(place, own if status == 0 else night)
        for way in "--known", "--answers":
            told = as_signed(place, way)
            check(f"a day twice, of which a year counts the {'better' if status else 'worse'} {way}", status=(
                told[0], status), said=(f"{beside}: nobody signed it" in told[1], bool(status)))
        shutil.rmtree(own)
        shutil.rmtree(place / "pages")


def test_refused_day(place: Path) -> None:
    """A day whose audit was refused."""
    if not is_here("ssh-keygen", "a year that is signed"):
        return
    own = machine(place / "fleet", "web-1")
    refused = day(own, 2, RIGHT)
    (refused / "f.pcap").write_bytes(b"no capture")
    dossier("audit", *days_of(own))
    signed_year(place, own)
    for way in WAYS:
        for state in (f"state {way}", f"state {way}"):
            status, text = as_signed(place, way, state)
            check(f"a refused day {way}", status=(status, 0), last=(f"{own} 2001-09-11 refused" in last_of(text), True))


def test_folder_of_days(place: Path) -> None:
    """A folder of days whose machine is named by itself."""
    if not is_here("ssh-keygen", "a year that is signed"):
        return
    own, other = machine(place / "fleet", "web-1"), place / "fleet" / "web-2"
    folder = day(other, 0, RIGHT, "sept", to="2001-09-11T00:00:00Z", client="192.0.2.11")
    dossier("audit", *days_of(own))
    dossier("audit", "--days", folder)
    signed_year(place, own, other)
    asked = ["verify", "--known", "--as-signed", "--signers", place / "signers", place / "pages"]
    for named in [place / "fleet"], [own, other]:
        status, out, _ = dossier(*asked, *named)
        check(f"{len(named)} folders are named", status=(status, 0), said=("not audited" in out.decode(), False))
    hidden = folder / "2001-09-10"
    shutil.copy(own / "2001-09-10" / "audit.json", hidden)
    status, out, _ = dossier(*asked, own, other)
    check("an audit among the parts", status=(status, 1), said=(f"{hidden}: nobody signed it" in out.decode(), True))


def test_days_of_answers(place: Path) -> None:
    """A day on which an answer rests that is signed needs no signature of its own, named by itself or not."""
    if not is_here("ssh-keygen", "an answer that is signed"):
        return
    own = machine(place / "fleet", "web-1")
    dossier("audit", *days_of(own))
    (place / "signers").write_text(key_of(place, "ann")[1])
    dossier("events", "--split", place / "answer", log_of(place, f"machine,time\nweb-1,{NOON}Z\n"), own)
    dossier("sign", "--key", place / "ann", place / "answer")
    for named in own, own / "2001-09-09", own / ".." / "web-1" / "2001-09-09":
        told = dossier("verify", "--as-signed", "--signers", place / "signers", place / "answer", named)
        check(f"an answer with {named}", status=(told[0], 0), said=("nobody signed it" in told[1].decode(), False))
    status, out, _ = dossier("verify", "--as-signed", "--signers", place / "signers", place / "answer", *days_of(own))
    check("another day", status=(status, 1), said=(f"{own}/2001-09-10: nobody signed it" in out.decode(), True),
          times=(out.decode().count("nobody signed it"), 1))
    dossier("sign", "--key", key_of(place, "eve")[0], own / "2001-09-09")
    for named, status in ((own, 0), (own / "2001-09-09", 1)):
        check(f"a stranger's signature below {named}", status=(dossier(
            "verify", "--as-signed", "--signers", place / "signers", place / "answer", named)[0], status))


def test_verified_later(place: Path) -> None:
    """A day that nobody had verified when its year was made is none that is shown, whatever is known of it since."""
    if not is_here("ssh-keygen", "a year that is signed"):
        return
    own = machine(place / "fleet", "web-1", 3)
    later = own / "2001-09-10", own / "2001-09-11"
    dossier("audit", own / "2001-09-09")
    dossier("audit", *later, env={**ENVIRONMENT, "XDG_STATE_HOME": str(place / "theirs")})
    signed_year(place, own)
    lines = (place / "pages" / f"{called(own)}.days").read_text().splitlines()
    check("days that weren't verified", by=([line.split(" ")[1] for line in lines], ["verified", "-", "-"]))
    known = ["10 not verified (here yes)", "11 not verified (here refuted)"]
    for way in WAYS:
        status, text = as_signed(place, way)
        found = ["10 .. 2001-09-11 not verified"] if "--sample" in way else known
        check(f"days that were verified later {way}", status=(status, 0), last=([
            f"{own} 2001-09-{words}" in last_of(text) for words in found], [True] * len(found)))


def test_written_is_read(place: Path) -> None:
    """What `audit` writes it reads: stamps of one packet minutes apart, a great offset in a log, and many logs."""
    folder = day(place, 0, RIGHT)
    shutil.copytree(folder, logged := place / "logged")
    data = (folder / "f.pcap").read_bytes()
    later = (int.to_bytes(int.from_bytes(one[:4], "little") + 3000, 4, "little") + one[4:] for one in records_of(data))
    (folder / "g.pcap").write_bytes(data[:24] + b"".join(later))
    names = ["tracking.log", *(f"{number}.log" for number in range(80))]
    for name in names:
        (logged / name).write_text("what is no log\n")
    (logged / names[0]).write_text("2001-09-09 00:10:00 192.0.2.1 2 0.0 0.1 1.900e+04 N 1 1.0e-05 0.0 0 0 1.0e-05\n")
    (logged / "evidence.json").write_text(json.dumps({"drift": " ".join(names)}))
    dossier("audit", folder, logged)
    for path, kind, least in (folder, "stamps", 2**40), (logged, "offset", 2**40), (logged, "unread", 1):
        counts = [alert.get("count", 0) for alert in record_of(path)["entries"][0]["warnings"] if alert["kind"] == kind]
        check(f"{kind} that are many", counts=(counts, lambda counts: max(counts) >= least),
              said=(b": verified: " in dossier("verify", path)[1], True))


SPELLINGS: list[tuple[str, str, list[str], str]] = [
    ("within its folder", "fleet/web-1", ["."], "fleet/web-1"),
    ("its days, within its folder", "fleet/web-1", ["2001-09-09", "2001-09-10"], "fleet/web-1"),
    ("two slashes", "fleet/web-1", ["fleet//web-1"], "."),
    ("one folder by two paths", "fleet/web-1", ["fleet//web-1/2001-09-09", "./fleet/web-1/2001-09-10"], "."),
    ("a blank", "our fleet/web 1", ["our fleet/web 1"], "."),
    ("a blank above", "our fleet/web-1", [], "."),
    ("a Cyrillic letter", "fleet/web-\u0430", [], "."),
    ("a Cyrillic letter, within its folder", "fleet/web-\u0430", ["."], "fleet/web-\u0430"),
    ("a line separator", "fle\u2028et/web\u20281", ["fle\u2028et/web\u20281"], "."),
    ("signs of a sentence", 'fleet/web-1", all is shown; (\\x22', [], ".")]
"""What is strange about a machine's path, the path, the words by which its year is made, the whole path if there are
none, and where."""


def test_spellings(place: Path) -> None:
    """A year verifies however its machine is spelled, and wherever all of it is brought."""
    if not is_here("ssh-keygen", "a year that is signed"):
        return
    key, allowed = key_of(place, "ann")
    (place / "signers").write_text(allowed)
    for number, (what, path, words, where) in enumerate(SPELLINGS):
        whole = place / f"{number}" / "our place"
        own = whole / path
        day(own, 0, RIGHT)
        day(own, 1, WIDE, name="2001-09-10" if words[1:] else "2001-09-10 \u0430")
        dossier("audit", *days_of(own))
        dossier("year", "--year", "2001", "--split", whole / "pages", *(words or [str(own)]), cwd=whole / where)
        dossier("sign", "--key", key, whole / "pages")
        for to in whole, place / f"{number}" / "elsewhere", place / f"{number}" / "x" / "another place":
            to.parent.mkdir(exist_ok=True)
            whole = whole.rename(to)
            ways = rows(([whole / "pages", (whole / path).parent], "/"), (["pages", "."], whole), (
                [os.path.relpath(whole / name, whole / path) for name in ("pages", path)], whole / path))
            for names, cwd in ways:
                status, out, _ = dossier("verify", "--as-signed", "--signers", place / "signers", *names, cwd=cwd)
                last = last_of(out.decode())
                check(f"{what}, {names} in {cwd}", status=(status, 0), last=(
                    last.startswith("all is as it was signed; not shown: ") and last.count('"') in (0, 6), True))
    paths = "web-\u0430", "web-\\u0430", "web-\\x5cu0430", "web-a", "web\u20281", "web\\u20281", "web 1", "web\\x201"
    check("paths that differ", words=(len({in_quotes(in_words(path)) for path in paths}), len(paths)), may_be=([
        may_be(in_words(one), f"/x/{other}", "/x") for one in paths for other in paths if one != other],
        [False] * len(paths) * (len(paths) - 1)))


def test_one_machine(place: Path) -> None:
    """A machine that is named by several paths is one, as it is spelled first, and its year verifies."""
    if not is_here("ssh-keygen", "a year that is signed"):
        return
    own = machine(place / "fleet", "web-1")
    dossier("audit", *days_of(own))
    path = os.path.relpath(own, place)
    for words in rows((own, path), (path, own), (f"{path}/2001-09-09", own / "2001-09-10"),
                      (own / "2001-09-09", f"{path}/2001-09-10")):
        shutil.rmtree(place / "pages", ignore_errors=True)
        signed_year(place, *words, cwd=place)
        status, text = as_signed(place)
        first = str(words[0]).removesuffix("/2001-09-09")
        check(f"one machine as {words}", pages=(
            sorted(file.name for file in (place / "pages").glob("*.days")), [f"{called(Path(first))}.days"]),
            status=(status, 0), last=("web-1 2001-09-10 refuted" in last_of(text), True))


def test_fleet_as_machine(place: Path) -> None:
    """It is told if a folder of machines is named as if it were one; not so of a machine that has no day."""
    fleet, empty = place / "fleet", place / "empty"
    own = machine(fleet, "web-1")
    dossier("audit", *days_of(own))
    empty.mkdir()
    line = "{}: no day of {} is in it, but in folders in it: name those ({}/*)\n"
    for named, year, told in rows(([fleet], 2001, [fleet]), ([fleet], 2002, []), ([own], 2001, []), ([own], 2002, []),
                                  ([empty, own, fleet, place], 2001, [fleet])):
        status, _, err = dossier("year", "--year", str(year), "--split", place / "pages", *named)
        check(f"the year {year} of {named}", run=((status, err.decode()), (0, "".join(
            line.format(path, year, path) for path in told))))
        shutil.rmtree(place / "pages")


def test_signed_days(place: Path) -> None:
    """A signed day is audited no more: it is told if nobody here knows it, and if another build of the program made
    it, it is as it was."""
    if not is_here("ssh-keygen", "days that are signed"):
        return
    own, theirs = machine(place / "fleet", "web-1"), {**ENVIRONMENT, "XDG_STATE_HOME": str(place / "theirs")}
    days = days_of(own)
    dossier("audit", *days, env=theirs)
    dossier("sign", "--key", key_of(place, "key")[0], *days, env=theirs)
    before = [(path / "audit.json.sig").read_bytes() for path in days]
    build = place / "ntpaudit"
    shutil.copy(PROGRAM, build)
    with open(build, "ab") as opened:
        opened.write(b"\0")
    here = {**ENVIRONMENT, "XDG_STATE_HOME": str(place / "here")}
    status, out, _ = dossier("audit", *days, env=here)
    words = "ntpaudit-dossier: signed, and neither made nor verified here: ntpaudit-dossier verify comes first"
    check("signed days that nobody here knows", status=(status, 5), told=(out.decode().count(words), 2))
    dossier("verify", *days, env=here)
    for env, said in rows((here, "(unchanged)"), ({**here, "NTPAUDIT": str(build)},
                                                  "(unchanged, by another build of the program)")):
        for path, wanted in zip(days, (0, 1)):
            status, out, _ = dossier("audit", path, env=env)
            check(f"a signed day that is verified {said}", status=(status, wanted), told=(
                out.decode().endswith(f" {said}\n"), True))
    (days[0] / "evidence.json").write_text("{}")
    for env in here, {**here, "NTPAUDIT": str(build)}:
        status, out, _ = dossier("audit", days[0], env=env)
        check("a signed day that was changed", status=(status, 5), told=(
            b"signed, and not as it would be audited now" in out, True))
    check("their signatures", same=([(path / "audit.json.sig").read_bytes() for path in days], before))
    shutil.copytree(DATA / "older/1.0.0/yes", older := place / "older")
    (older / "audit.json.sig").write_text("a signature")
    check("a signed day of an older form", told=(b"signed, and not as it would be" in dossier("audit", older)[1], True))
    (days[1] / "audit.json.sig").unlink()
    out = dossier("audit", days[1], env={**here, "NTPAUDIT": str(build)})[1]
    check("an unsigned day by another build", told=(b"unchanged" in out, False))


def test_principals(place: Path) -> None:
    """A day counts by any key of its machine, however the file of signers has its name."""
    if not is_here("ssh-keygen", "a year that is signed"):
        return
    for number, (name, principals) in enumerate((
            ("web-1", ("web-1", "root@web-1")), ("web-1", ('"backup,web-1"', "backup,root@web-1")),
            ("web 1", ('"web 1"', '"backup,root@web 1"')))):
        whole = place / f"{number}"
        own = machine(whole / "fleet", name)
        theirs = {**ENVIRONMENT, "XDG_STATE_HOME": str(whole / "theirs")}
        dossier("audit", *days_of(own), env=theirs)
        lines = ""
        for key, principal, path in zip(("one", "two"), principals, days_of(own)):
            file, line = key_of(whole, key)
            lines += line.replace(f"{key}@example.org", principal)
            dossier("sign", "--key", file, path, env=theirs)
        (whole / "signers").write_text(lines + key_of(whole, "ann")[1])
        here = {**ENVIRONMENT, "XDG_STATE_HOME": str(whole / "here")}
        among = "--signers", whole / "signers"
        dossier("year", "--year", "2001", *among, "--split", whole / "pages", own, env=here)
        signed = dossier("sign", "--key", whole / "ann", *among, whole / "pages", env=here)
        status, text = as_signed(whole)
        lines = (whole / "pages" / f"{called(own)}.days").read_text()
        check(f"days signed by {principals}", sign=(signed[0], 0), status=(status, 0), by=(
            [line.split(" ")[1] for line in lines.splitlines()],
            [word.replace(" ", "\\x20") for word in (name, f"root@{name}")]),
            last=(last_of(text).startswith("all is as it was signed"), True))
        shutil.copytree(own, whole / "fleet" / "backup-2")
        dossier("year", "--year", "2001", *among, "--split", whole / "others", whole / "fleet" / "backup-2", env=here)
        text = (whole / "others" / f"{called(whole / 'fleet' / 'backup-2')}.days").read_text()
        check(f"another machine's, signed by {principals}", by=(
            [line.split(" ")[1] for line in text.splitlines()], ["-", "-"]))


COUNTING = """import dossier.fleet.days as days
few_of = days.few_of
def counting(captures, folders):
    with open("{}", "a") as file:
        file.write(f"{{folders}} ")
    return few_of(captures, folders)
days.few_of = counting"""


def test_many_machines(place: Path) -> None:
    """Of each day as many captures are looked for again when a year is verified as when it was made."""
    fleet, numbers = place / "fleet", list[str]()
    machines = [machine(fleet, f"web-{number}") for number in (1, 2)]
    dossier("audit", *days_of(*machines))
    for command in rows(("year", "--year", "2001", "--split", place / "pages", *machines),
                        ("verify", place / "pages", fleet)):
        with_change(COUNTING.format(place / "log"), *command)
        numbers.append((place / "log").read_text())
        (place / "log").unlink()
    check("captures that are looked for again", numbers=(numbers, ["732 " * 4] * 2))


def test_goes_on(place: Path) -> None:
    """A year stays as it was signed when its fleet goes on; but days of its own beside it are looked at."""
    if not is_here("ssh-keygen", "a year that is signed"):
        return
    own = machine(place / "fleet", "web-1")
    dossier("audit", *days_of(own))
    signed_year(place, own)
    note = "days of another time beside the year's weren't looked at)"
    check("nothing beside it", said=(note in as_signed(place)[1], False))
    for name in "2002-01-05", "2000-12-31", "2002-01-06":
        shutil.copytree(own / "2001-09-09", own / name)
    (own / "2002-01-05" / "audit.json").unlink()
    shutil.copytree(own, place / "fleet" / "web-2", ignore=shutil.ignore_patterns("2001-*"))
    for way in WAYS:
        status, text = as_signed(place, way)
        check(f"days of other years {way}", status=(status, 0), said=((f"(6 {note}" in text.splitlines(), "/2002-" in
                                                                       text, "/2000-" in text), (True, False, False)))
    status, out, _ = dossier("verify", "--as-signed", "--signers", place / "signers", place / "pages", place / "fleet",
                             own / "2002-01-05")
    check("one of them is named", status=(status, 1), said=(
        f"{own}/2002-01-05: ntpaudit-dossier: not audited" in out.decode(), True), beside=(
        f"(5 {note}" in out.decode(), True))
    shutil.copytree(own / "2001-09-09", own / "2001-12-31")
    status, text = as_signed(place)
    check("a day of the year", status=(status, 1), said=(f"{own}/2001-12-31: nobody signed it" in text, True))


EARLY = """import dossier.page.years as years
write_year = years.write_year
years.write_year = lambda folders, wanted, *more: write_year(folders, wanted._replace(at={}), *more)"""


def test_not_ended(place: Path) -> None:
    """Of a year that was made before its end the last line says from when on it has no days."""
    if not is_here("ssh-keygen", "a year that is signed"):
        return
    own = machine(place / "fleet", "web-1", 3)
    dossier("audit", *days_of(own))
    signers, rest = place / "signers", "days from 2001-09-11 on, which hadn't ended when it was made"
    key, allowed = key_of(place, "ann")
    signers.write_text(allowed)
    with_change(EARLY.format(FIRST + 2 * DAY + 7), "year", "--year", "2001", "--split", place / "pages", own)
    dossier("sign", "--key", key, place / "pages")
    status, text = as_signed(place)
    check("a year that was made early", status=(status, 0), said=(last_of(text).endswith(rest), True),
          beside=("(1 day of another time beside the year's weren't looked at)" in text, True))
    out = dossier("verify", "--sample", "1", "--seed", "x", place / "pages", own)[1].decode()
    check("without a signature", said=(rest in out, False))
    shutil.rmtree(place / "pages")
    dossier("year", "--year", "2001", "--split", place / "pages", own)
    dossier("sign", "--key", key, place / "pages")
    check("a year that has ended", said=("hadn't ended" in as_signed(place)[1], False))


def test_principals_of_others(place: Path) -> None:
    """A machine's key is its own by the auditor's file of signers too, if that calls the machine otherwise."""
    if not is_here("ssh-keygen", "a fleet that signs"):
        return
    own, here = machine(place / "fleet", "web-1"), {**ENVIRONMENT, "XDG_STATE_HOME": str(place / "here")}
    line = key_of(place, "web-1")[1]
    dossier("audit", *days_of(own), env={**ENVIRONMENT, "XDG_STATE_HOME": str(place / "own")})
    for path in days_of(own):
        sign(place, "web-1", path / "audit.json")
    ann, signers = key_of(place, "ann"), place / "signers"
    among, (host, pages, answer) = ("--signers", signers), (line.split()[0], place / "pages", place / "answer")
    for theirs, mine, status in (("web-1", "root@web-1", 0), ("root@web-1", "web-1", 0), ("root@web-1", "ntp@web-1", 0),
                                 ("web-1", "web-2", 1), ("web-1", "root@web-2", 1)):
        signers.write_text(line.replace(host, theirs) + ann[1])
        dossier("year", "--year", "2001", *among, "--split", pages, own, env=here)
        dossier("events", *among, "--split", answer, log_of(place, f"machine,time\nweb-1,{NOON}Z\n"), own, env=here)
        dossier("sign", "--key", ann[0], *among, pages, answer, env=here)
        check(f"days signed by {theirs}", said=(f" {theirs} " in (pages / f"{called(own)}.days").read_text(), True))
        signers.write_text(line.replace(host, mine) + ann[1])
        for folder in pages, answer:
            told = dossier("verify", "--as-signed", "--answers", *among, folder, own, env=here)
            check(f"{folder.name} by {theirs}, here {mine}", status=(told[0], status))
        shutil.rmtree(pages)
        shutil.rmtree(answer)


def test_day_without_audit(place: Path) -> None:
    """A day without an audit, which its year names as not counted, is as it was signed, until it has one."""
    if not is_here("ssh-keygen", "a year that is signed"):
        return
    own = machine(place / "fleet", "web-1", 3)
    dossier("audit", *days_of(own)[:2])
    signed_year(place, own)
    for way in WAYS:
        status, text = as_signed(place, way)
        check(f"a day without an audit {way}", status=(status, 0), last=(
            f"{own} 2001-09-11 not counted" in last_of(text), True))
    dossier("audit", own / "2001-09-11")
    for way in WAYS:
        status, text = as_signed(place, way)
        check(f"a day that was audited later {way}", status=(status, 1), said=(
            f"{own}/2001-09-11 isn't the day that" in text, True))


def test_claims_of_other_days(place: Path) -> None:
    """Which claim counts hangs on no folder that the year doesn't name: of another year, or a copy of a day."""
    if not is_here("ssh-keygen", "a year that is signed"):
        return
    for number, (what, dates) in enumerate(rows(("another year", ["2000-09-10", "2000-09-11"]),
                                                ("copies", ["2001-09-10", "2001-09-10"]))):
        whole = place / f"{number}"
        own = machine(whole / "fleet", "web-1", 1)
        for at, date in enumerate(dates):
            folder = day(own, 1, RIGHT, f"x{at}", bound_ns=900_000)
            claim = (folder / "claim.json").read_text()
            (folder / "claim.json").write_text(claim.replace("2001-09-10T", f"{date}T").replace(
                "2001-09-11T", f"{date[:9]}{int(date[9:]) + 1}T"))
        dossier("audit", *days_of(own))
        signed_year(whole, own)
        status, text = as_signed(whole)
        check(f"claims of {what}", status=(status, 0), last=(last_of(text).startswith("all is as it was signed"), True))


def test_copy_by_another_build(place: Path) -> None:
    """A statement names the programs of the days that count, and not that of a copy, which nobody looks at."""
    if not is_here("ssh-keygen", "a year that is signed"):
        return
    own, build = machine(place / "fleet", "web-1"), place / "ntpaudit"
    dossier("audit", *days_of(own))
    shutil.copy(PROGRAM, build)
    with open(build, "ab") as opened:
        opened.write(b"\0")
    dossier("audit", day(own, 0, RIGHT, "old"), env={**ENVIRONMENT, "NTPAUDIT": str(build)})
    signed_year(place, own)
    text = (place / "pages" / "year.json").read_text()
    check("a copy by another build", programs=(text.count("SHA-256"), 1), status=(as_signed(place)[0], 0))


def test_list_that_had_ended(place: Path) -> None:
    """Days that their machine signed as unsupported, since its list of leap seconds had ended, count as it signed them,
    and are as they were signed by its list and by a good one."""
    if not is_here("ssh-keygen", "a fleet that signs"):
        return
    own, (ann, allowed), (key, line) = (machine(place / "fleet", "web-1"), key_of(place, "ann"),
                                        key_of(place, "web-1"))
    (place / "signers").write_text(allowed + line.replace("web-1@example.org", "web-1"))
    ended, state = leap_list(place / "ended", FIRST - 40 * DAY), {"XDG_STATE_HOME": str(place / "own")}
    for word in rows(["audit"], ["sign", "--key", key]):
        dossier(*word, "--leap-seconds", ended, *days_of(own), env={**ENVIRONMENT, **state})
    log, by = log_of(place, f"machine,time\nweb-1,{NOON}Z\n"), ("--signers", place / "signers")
    dossier("year", "--year", "2001", *by, "--split", place / "pages", own)
    dossier("events", *by, "--split", place / "answer", log, own)
    dossier("sign", "--key", ann, *by, place / "pages", place / "answer")
    check("an event", words=((place / "answer" / "answered.csv").read_text().splitlines()[-1], (
        f"web-1,{NOON}Z,,,unsupported as signed by web-1")))
    for more in rows([], ["--leap-seconds", ended]):
        for way in WAYS:
            status, out, _ = dossier("verify", "--as-signed", *by, *more, *way.split(), place / "pages",
                                     place / "answer", place / "fleet", env={
                                         **ENVIRONMENT, "XDG_STATE_HOME": str(place / f"auditor {way} {len(more)}")})
            check(f"a list that had ended {way} {more[:1]}", status=(status, 0), last=(
                f"{own} 2001-09-09 unsupported" in last_of(out.decode()), True), noted=(
                b"(unsupported by the list of leap seconds of its audit, and yes by the one here)" in out, not more))
    record = days_of(own)[0] / "audit.json"
    record.write_text(record.read_text().replace('"unsupported", ', '"refuted", ', 1))
    check("another verdict", said=("(unsupported by the list" in dossier("verify", record.parent)[1].decode(), False))


def test_clock_ahead(place: Path) -> None:
    """A day that a clock dated in the future isn't verified, and is as it was signed once its time has come."""
    if not is_here("ssh-keygen", "a year that is signed"):
        return
    own = machine(place / "fleet", "web-1", ends=RIGHT, number=3)
    dossier("audit", *days_of(own))
    file = days_of(own)[1] / "audit.json"
    text = file.read_text()
    file.write_text(json.dumps({**json.loads(text), "made": now(400)}))
    signed_year(place, own)
    check("a day of the future", said=("2001-09-10 not verified (here audit.json is dated in the future)" in last_of(
        as_signed(place)[1]), True))
    file.write_text(text)
    for way in WAYS:
        status, said = as_signed(place, way)
        check(f"a day whose time has come {way}", status=(status, 0), last=(
            "2001-09-10 not verified" in last_of(said), True))
