"""Tests of what holds a signed year: whose keys count, which days are looked at, and which of its files are its own."""
import json
import os
import shutil
import sys
import tracemalloc
from pathlib import Path
from typing import Any
from unittest import mock

from tests.support import ROOT, check, is_here, run, sum_of
from tests.dossier.audits import ENVIRONMENT, STATE, called, dossier, rows
from tests.dossier.test_events import NOON, log_of
from tests.dossier.leaps import LATER, leap_list
from tests.dossier.test_evidence import key_of
from tests.dossier.test_years import FIRST, RIGHT, WIDE, day

from dossier import units
from dossier.fault import Fault
from dossier.fleet import days, machines, planning, statements, twins
from dossier.folder.entry import Made
from dossier.folder.files import Folder
from dossier.folder.registry import Known
from dossier.folder.table import Table
from dossier.premise.leap import read_list
from dossier.records import replace

OWN = "a machine's key signs its own days alone"
FOLLOWS = "verified: its statements follow from the audits of its days"


def signers_of(place: Path, *names: str) -> Path:
    """A file of signers, each with a key that is called so."""
    file = place / "signers"
    file.write_text("".join(key_of(place, name)[1].replace(f"{name}@example.org", name) for name in names))
    return file


def sign(place: Path, name: str, file: Path) -> None:
    """Has a key sign a file, whatever it is."""
    Path(f"{file}.sig").unlink(missing_ok=True)
    run(["ssh-keygen", "-q", "-Y", "sign", "-f", place / name, "-n", "ntpaudit-dossier", file])


def year_of(place: Path, *words: object, **how: Any) -> Path:
    """A year of machines."""
    check("a year", status=(dossier("year", "--year", "2001", "--split", place / "pages", *words, **how)[0], 0))
    return place / "pages"


def change_lines(pages: Path, one: str, other: str) -> None:
    """Changes each line of days, and the sums of these in year.json."""
    year = json.loads((pages / "year.json").read_text())
    for stated in year["machines"]:
        file = pages / stated["file"]
        file.write_text("".join(line.replace(one, other) for line in file.read_text().splitlines(keepends=True)))
        stated["sha256"] = sum_of(file.read_bytes())
    (pages / "year.json").write_text(json.dumps(year))


def test_keys_of_namesakes(place: Path) -> None:
    """Of two machines of one name none has a key: that of one would sign days of the other."""
    if not is_here("ssh-keygen", "a fleet that signs"):
        return
    signers, own = signers_of(place, "web-1"), {**ENVIRONMENT, "XDG_STATE_HOME": str(place / "own")}
    one, two = (place / "fleet" / site / "web-1" for site in ("paris", "london"))
    for machine in (one, two):
        dossier("audit", folder := day(machine, 0, RIGHT), env=own)
        sign(place, "web-1", folder / "audit.json")
    pages = year_of(place, "--signers", signers, one)
    check("one machine by its key", by=(" web-1 " in (pages / f"{called(one)}.days").read_text(), True),
          said=(FOLLOWS in dossier("verify", "--known", "--signers", signers, pages, place)[1].decode(), True))
    shutil.rmtree(pages)
    env = {**ENVIRONMENT, "XDG_STATE_HOME": str(place / "here")}
    year_of(place, "--signers", signers, one, two, env=env)
    text = (pages / f"{called(one)}.html").read_text().replace("&#39;", "'")
    check("two machines of one name", by=([(pages / f"{called(path)}.days").read_text().split()[1]
                                           for path in (one, two)], ["-", "-"]),
          said=("more than one machine is called web-1, so nobody knows whose key that is" in text, True))
    change_lines(pages, " - ", " web-1 ")
    for more in ("", f"--signers {signers}"):
        status, out, _ = dossier("verify", "--known", *more.split(), pages, place, env=env)
        check(f"two machines of one name, said to have signed {more[:9]}", status=(status, 1), said=(
            "is signed by web-1 by" in out.decode() and "more than one machine is called web-1" in out.decode(), True))


def test_keys_of_machines(place: Path) -> None:
    """A machine's key signs its own days alone: no year beside which it stands, and no other's day in any place."""
    if not is_here("ssh-keygen", "a fleet that signs"):
        return
    signers, fleet, asked = signers_of(place, "web-1", "web-2", "ann"), place / "fleet", ["verify", "--as-signed"]
    folders = [day(fleet / "web-1", 0, RIGHT), day(fleet / "web-1", 1, RIGHT, name="monday"),
               day(place / "a" / "web-1" / "old", 0, RIGHT), day(place / "b" / "web-2", 0, RIGHT, client="192.0.2.11")]
    dossier("audit", *folders)
    (fleet / "web-2").mkdir()
    pages = year_of(place, fleet / "web-1")
    for name, status in (("web-2", 1), ("web-1", 1), ("ann", 0)):
        sign(place, name, pages / "year.json")
        told = dossier(*asked, "--signers", signers, "--known", pages, fleet)
        check(f"a year beside web-2, signed by {name}", status=(told[0], status),
              said=(OWN in told[1].decode(), bool(status)))
    for name, named, is_others in (("web-2", folders[1:2], True), ("web-1", folders[1:2], False),
                                   ("web-2", folders[:1], True), ("ann", folders[:1], False),
                                   ("web-2", folders[2:], True), ("ann", folders[2:], False)):
        for folder in named:
            sign(place, name if folder != folders[3] else "web-2", folder / "audit.json")
        told = dossier(*asked, "--signers", signers, "--known", *named)
        check(f"{named[0].relative_to(place)} signed by {name}", status=(told[0], int(is_others)),
              said=(told[1].decode().count(OWN), int(is_others)))


def test_keys_of_named_days(place: Path) -> None:
    """A day that is named is its machine's, whatever its folder is called, and however that is spelled."""
    if not is_here("ssh-keygen", "a fleet that signs"):
        return
    signers, one, two = signers_of(place, "web-1", "web-2"), *(day(place / "days", k, RIGHT) for k in (0, 1))
    dossier("audit", one, two)
    words = "more than one machine is called web-1"
    for names, key, said in rows(
            (("k/a/web-1/monday", "k/b/web-2/monday"), "web-2", OWN),
            (("k/a/web-1/2001-09-09/.", "k/b/web-2/2001-09-10/."), "web-2", OWN),
            (("k/a/web-1/2001-09-09", "k/b/web-2/2001-09-10//./"), "web-2", OWN),
            (("x/a/web-1/monday", "x/b/web-1/monday"), "web-1", words),
            (("x/paris/web-1/2001-09-09/.", "x/london/web-1/2001-09-09/."), "web-1", words),
            (("x/paris/web-1/monday/x/..", "x/london/web-1/monday/x/.."), "web-1", words),
            (("m/paris/web-1", "m/london/web-1"), "web-1", words),
            (("m/paris/web-1", "m/london/web-2"), "", "")):
        for name, folder in zip(names, (one, two)):
            shutil.copytree(folder, place / name.removesuffix("/x/.."))
            (place / name.removesuffix("..")).mkdir(exist_ok=True)
            sign(place, key or os.path.basename(name), place / name / "audit.json")
        status, out, _ = dossier("verify", "--known", "--as-signed", "--signers", signers, *(
            f"{place}/{name}" for name in names))
        check(f"{' and '.join(names)} by {key or 'their keys'}", status=(status, int(bool(said))), said=(
            said in out.decode(), True))
        shutil.rmtree(place / names[0].partition("/")[0])
    log = log_of(place, f"machine,time\ndays,{NOON}Z\n")
    for end in "", "/", "/.", "/.//./":
        check(f"an answer by a day and {end}", status=(dossier("events", log, f"{one}{end}")[0], 0))
        year_of(place, f"{one}{end}")
        check(f"a year by a day and {end}", is_there=((place / "pages" / f"{called(one.parent)}.days").exists(), True))
        shutil.rmtree(place / "pages")


def test_keys_of_two_levels(place: Path) -> None:
    """A machine's key signs its own days alone, in a fleet of sites too; that of a site signs what is of its machines.
    """
    if not is_here("ssh-keygen", "a fleet that signs"):
        return
    names = "web-1", "web-9", "paris"
    signers, fleet = signers_of(place, *names), place / "fleet"
    own, _ = day(fleet / "paris" / "web-1", 0, RIGHT), day(fleet / "london" / "web-9", 0, RIGHT, client="192.0.2.11")
    dossier("audit", own)
    pages, answer = year_of(place, own.parent), answer_of(place, own.parent)
    for file, named in rows((pages / "year.json", [pages, fleet]), (answer / "events.json", [answer, fleet])):
        for name in names:
            sign(place, name, file)
            is_others = name != "paris"
            told = dossier("verify", "--as-signed", "--signers", signers, "--known", *named)
            check(f"{file.name} signed by {name}", status=(told[0], int(is_others)),
                  said=(OWN in told[1].decode(), is_others))


def test_namesakes_of_two_years(place: Path) -> None:
    """Of two machines of one name, each of a year of its own, none has a key if both are in what is named."""
    if not is_here("ssh-keygen", "a fleet that signs"):
        return
    signers, own = signers_of(place, "web-1", "ann"), {**ENVIRONMENT, "XDG_STATE_HOME": str(place / "own")}
    years = list[Path]()
    for number, site in enumerate(("paris", "london")):
        folder = day(place / "fleet" / site / "web-1", 0, RIGHT, drift_ppb=number)
        dossier("audit", folder, env=own)
        sign(place, "web-1", folder / "audit.json")
        years.append(year_of(place, "--signers", signers, folder.parent).rename(place / site))
        sign(place, "ann", years[-1] / "year.json")
    words = "more than one machine is called web-1, so nobody knows whose key that is"
    for named, within in (years[:1], "fleet"), (years[1:], "fleet"), (years, "fleet"), (years[:1], "fleet/paris"):
        status, out, _ = dossier("verify", "--as-signed", "--signers", signers, *named, place / within)
        number = 2 * (within == "fleet")  # (beside one year the other's day is looked at)
        check(f"{len(named)} years of machines of one name in {within}", status=(status, int(number > 0)),
              said=(out.decode().count(words), number))


def test_machine_within(place: Path) -> None:
    """A folder that a machine laid into its own, beside its days, is no other machine's."""
    fleet = place / "fleet"
    own, within = day(fleet / "web-2", 0, RIGHT), day(fleet / "web-2" / "web-1", 0, RIGHT, drift_ppb=1)
    dossier("audit", own, within)
    words = f"web-2/web-1, which is within {own.parent}, a folder that has days of its own"
    for folder in year_of(place, within.parent), answer_of(place, within.parent):
        for way in ["verify", "--known", fleet], ["verify", "--answers", fleet], ["sign", "--key", place / "ann"]:
            status, out, _ = dossier(*way, folder)
            check(f"{way[:2]} {folder.name}", status=(status, lambda status: status > 0),
                  said=(words in out.decode(), True))
        out = dossier("verify", "--known", folder, within.parent)[1]
        check(f"{folder.name}, named by itself", said=(f"{folder}: verified: " in out.decode(), True))


def test_days_above_all(place: Path) -> None:
    """A folder that is called after a day, above a year and its machines, is no reason not to sign that."""
    if not is_here("ssh-keygen", "a year that is signed"):
        return
    within = place / "x"
    key_of(place, "ann")
    dossier("audit", own := day(within / "fleet" / "web-1", 0, RIGHT))
    (place / "2020-01-01").mkdir()
    for folder in year_of(within, own.parent), answer_of(within, own.parent):
        check(f"sign {folder.name}", status=(dossier("sign", "--key", place / "ann", folder)[0], 0))
    (place / "x" / "fleet" / "2020-01-01").mkdir()
    for folder in year_of(place, own.parent), answer_of(place, own.parent):
        status, out, _ = dossier("sign", "--key", place / "ann", folder)
        check(f"sign {folder.name} of a fleet with days", status=(status, lambda status: status > 0), said=(
            "a folder that has days of its own" in out.decode(), True))


def test_one_statement(place: Path) -> None:
    """A year has one statement of a machine, by its name and by its folder, and no day in two: else nobody signs it."""
    if not is_here("ssh-keygen", "a year that is signed"):
        return
    names, pages, key = ("a/web-1/2001-09-09", "a/web-1/2001-09-10", "b/web-1/2001-09-09"), place / "pages", "ann"
    dossier("audit", *(day(place / name, k % 2, RIGHT, name=".") for k, name in enumerate(names)))
    key_of(place, key)
    halves = [year_of(place, name, cwd=place).rename(place / f"half-{k}") for k, name in enumerate(names)]
    for parts, words in (((0, 1), "a/web-1: year.json has two statements of it"),
                         ((0, 2), "web-1: year.json has two statements of it"), ((0, 0), "stands there twice")):
        pages.mkdir()
        kept = list[Any]()
        for k, part in enumerate(parts):
            year = json.loads((halves[part] / "year.json").read_text())
            own = year["machines"][0]
            shutil.copy(halves[part] / own["file"], pages / f"{k}.days")
            kept.append({**own, "file": f"{k}.days", "machine": "web-1" if 2 in parts else own["machine"]})
        (pages / "year.json").write_text(json.dumps({**year, "machines": kept, "pages": {}}))
        for way in f"sign --key {key}", "verify --known a b":
            status, out, _ = dossier(*way.split(), pages, cwd=place)
            check(f"{way} statements of {parts}", status=(status, lambda status: status > 0), said=(
                words in out.decode(), True))
        shutil.rmtree(pages)


def test_lines_without_says(place: Path) -> None:
    """Each line of days has the sum of what an audit says, or the year is older than sums of pages."""
    own = place / "fleet" / "web-1"
    dossier("audit", day(own, 0, RIGHT))
    pages = year_of(place, own)
    says = (pages / f"{called(own)}.days").read_text().split()[2]
    change_lines(pages, f" {says} ", " ")
    status, out, _ = dossier("verify", "--known", pages, place / "fleet")
    check("a line without its sum", status=(status, 1), said=(
        f"{own}/2001-09-09: {called(own)}.days has no sum of what its audit.json says" in out.decode(), True))
    year = json.loads((pages / "year.json").read_text())
    del year["pages"]
    (pages / "year.json").write_text(json.dumps(year))
    check("an older year", said=(FOLLOWS in dossier("verify", "--known", pages, place / "fleet")[1].decode(), True))


def test_files_of_nobody(place: Path) -> None:
    """Files in a year's folder that no sum holds are named, and a file of days is one of the year's."""
    own = place / "fleet" / "web-1"
    dossier("audit", day(own, 0, RIGHT))
    pages, words = year_of(place, own), "nobody answers for"
    asked = ["verify", "--known", pages, place / "fleet"]
    check("a year's own files", said=(words in dossier(*asked)[1].decode(), False))
    for names, said in ((["notes.pdf"], "(nobody answers for notes.pdf)"),
                        (["page.htm", "x.svg"], "(nobody answers for notes.pdf and 2 more files)")):
        for name in names:
            (pages / name).touch()
        check(f"with {names[0]}", said=(f"{pages}: {said}" in dossier(*asked)[1].decode().splitlines(), True))
    (pages / "2001").mkdir()
    check("with a folder", said=("(nobody answers for 2001 and 3 more files)" in dossier(*asked)[1].decode(), True))
    answer = answer_of(place, own)
    for is_beside in False, True:
        (answer / ("answered-corrected.csv" if is_beside else "answered.csv")).touch()
        told = dossier("verify", "--known", answer, place / "fleet")[1].decode()
        check(f"an answer, and another one: {is_beside}", said=(words in told, is_beside), named=(
            f"{answer}: ({words} answered-corrected.csv)" in told.splitlines(), is_beside))
    shutil.copy(pages / f"{called(own)}.days", pages / "web-9.days")
    status, out, _ = dossier(*asked)
    check("a file of days that nobody names", status=(status, 1),
          said=(f"{pages}: web-9.days isn't a file that year.json names" in out.decode(), True))


def test_left_out(place: Path) -> None:
    """A machine that was left out of a year is looked at beside the others, however far up the folder that is named."""
    own, other = place / "all" / "fleet" / "web-1", place / "all" / "fleet" / "web-9"
    dossier("audit", day(own, 0, RIGHT), day(other, 1, RIGHT))
    pages = year_of(place, own)
    for named in (own.parent, own.parent.parent, place, "."):
        out = dossier("verify", "--known", pages, named, cwd=place)[1].decode()
        check(f"days beside a year, in {named}", said=(out.count("fleet/web-9/2001-09-10: verified: yes"), 1))
    out = dossier("verify", "--known", pages, own)[1].decode()
    check("days beside what is named", said=("web-9" in out, False))


def test_days_beside(place: Path) -> None:
    """A day beside a year that isn't of it is looked at, from wherever its folders are named."""
    good, bad = day(place / "days", 0, RIGHT), day(place / "days", 1, WIDE, drift_ppb=1)
    dossier("audit", good, bad)
    (bad / "audit.json.sig").touch()
    for at, machine, named, beside in rows(
            (".", "fleet/a/web-1", "fleet", "fleet/a/web-2/2001-09-09"),
            (".", "fleet/a/web-1", "fleet", "fleet/a/web-1/monday"),
            (".", "fleet/a/web-1", "fleet", "fleet/b/web-2/2001-09-09"),
            (".", "fleet/web-1", "fleet", "fleet/b/web-2/2001-09-09"),
            ("fleet/a/web-1", ".", "../..", "fleet/a/web-2/2001-09-09"),
            ("fleet/a/web-1/x", "..", "../../..", "fleet/a/web-2/2001-09-09")):
        (place / at).mkdir(parents=True, exist_ok=True)
        shutil.copytree(good, os.path.normpath(place / at / machine / "2001-09-09"))
        pages = year_of(place / at, machine, cwd=place / at)
        shutil.copytree(bad, place / beside)
        out = dossier("verify", "--known", "pages", named, cwd=place / at)[1].decode()
        check(f"{beside} beside a year of {machine} in {at}", lines=(out.count(": verified: refuted"), 1), year=(
            f"pages: {FOLLOWS}" in out, True))
        shutil.rmtree(pages)
        shutil.rmtree(place / "fleet")


def test_two_spellings(place: Path) -> None:
    """Days of two years are one, though one of these is named by an absolute path and the other isn't."""
    machine = place / "fleet" / "web-1"
    dossier("audit", *(day(machine, number, RIGHT) for number in range(2)))
    year_of(place, machine).rename(place / "one")
    year_of(place, machine).rename(place / "two")
    for one, two in ("one", place / "two"), (place / "one", "two"):
        out = dossier("verify", "--sample", 1, "--seed", "x", one, two, "fleet", cwd=place)[1].decode()
        check(f"{one} and {two}", said=("(1 of 2 days were drawn and made again:" in out, True), copies=(
            "were made again too" in out, False))


def test_days_beside_pages(place: Path) -> None:
    """Pages, or a claim, in a folder with days on which an answer rests hide none of its other days from a year."""
    good, bad = day(place / "days", 0, RIGHT), day(place / "days", 1, WIDE, drift_ppb=1)
    dossier("audit", good, bad)
    for machine in "fleet/a/web-1", "other/web-2":
        shutil.copytree(good, place / machine / "2001-09-09")
    shutil.copytree(bad, place / "other/web-2/2001-09-10")
    pages = year_of(place, place / "fleet/a/web-1")
    log = log_of(place, f"machine,time\nweb-2,{NOON}Z\n")
    dossier("events", "--split", place / "answer", log, place / "other/web-2/2001-09-09")
    for named in "other", "other/web-2":
        for name in "", "pages.sums", "claim.json":
            if name:
                (place / named / name).touch()
            out = dossier("verify", "--known", pages, place / "answer", "fleet", named, cwd=place)[1].decode()
            check(f"{named} with {name or 'days alone'}", lines=(out.count(": verified: refuted"), 1), said=(
                f"{named}: (folders of an answer to a log are in it)" in out, True))
            named_by_itself = dossier("verify", "--known", pages, "fleet", named, cwd=place)[1].decode()
            check(f"{named} with {name or 'days alone'}, of no answer", is_none=(
                f"{named}: (no year or answer that is named rests on what is in it)" in named_by_itself,
                not name or named == "other/web-2"))
        for name in "pages.sums", "claim.json":
            (place / named / name).unlink()


def test_audit_of_a_machine(place: Path) -> None:
    """A machine that has an audit beside its days is a machine, and that isn't counted."""
    one, two = place / "fleet" / "web-1", place / "fleet" / "web-3"
    dossier("audit", folder := day(one, 0, RIGHT), day(two, 0, RIGHT))
    shutil.copy(folder / "audit.json", two / "audit.json")
    pages = year_of(place, one, two)
    text = (pages / f"{called(two)}.html").read_text()
    machines = [stated["machine"] for stated in json.loads((pages / "year.json").read_text())["machines"]]
    check("a machine with an audit", machines=(machines, [str(one), str(two)]), shown=("shown on 1 of" in text, True),
          said=("<li>audit.json: it is of the folder of all days, and of none of them</li>" in text, True))


def test_large_files_of_days(place: Path) -> None:
    """A file of days is held to its sum before it is parsed, and to a size; folders above days aren't worked out."""
    own = place / "fleet" / "web-1"
    dossier("audit", day(own, 0, RIGHT))
    pages = year_of(place, own)
    file = pages / f"{called(own)}.days"
    kept = file.read_bytes()
    for size in 0, 1 << 20, 1 << 30:
        file.write_bytes(b"no line of one\n" + kept)
        os.truncate(file, size or file.stat().st_size)
        status, out, _ = dossier("verify", "--known", pages, place / "fleet", memory=1 << 29)
        check(f"another file of days of {size} bytes", status=(status, 1), said=(
            f"{pages}: {file.name} isn't the file that year.json names" in out.decode().splitlines(), True))
    year = json.loads((pages / "year.json").read_text())
    year["machines"][0]["file"] = "x.cap"
    (pages / "year.json").write_text(json.dumps(year))
    (pages / "x.cap").write_bytes(b"")
    os.truncate(pages / "x.cap", 1 << 32)
    status, out, _ = dossier("verify", pages, place / "fleet", memory=1 << 29)
    check("a file of days that is called otherwise", status=(status, 2), said=("year.json" in out.decode(), True))
    year["machines"][0]["file"] = file.name
    (pages / "year.json").write_text(json.dumps(year))
    file.write_bytes(kept)
    change_lines(pages, "2001-09-09", "2001-09-0\0")
    check("a path with a NUL", said=(b"a file of days isn't one" in dossier("verify", pages, place / "fleet")[1], True))
    deep = f"{place}{'/x' * 1500}"
    file.write_text("".join(f"{'0' * 64} verified {deep}/{number}\n" for number in range(360)))
    change_lines(pages, "", "")
    with mock.patch.object(statements, "folders_above", wraps=machines.folders_above, create=True) as above:
        with Folder(str(pages)) as folder:
            days = statements.days_of(folder, {str(place)})
    check("deep paths", days=([*days.values()], ["0" * 64] * 360), calls=(above.call_count, 0))


def answer_of(place: Path, *folders: object) -> Path:
    """An answer to a log of an event of web-1."""
    log = log_of(place, f"machine,time\nweb-1,{NOON}Z\n")
    check("an answer", status=(dossier("events", "--split", place / "answer", log, *folders)[0], 0))
    return place / "answer"


def test_two_things(place: Path) -> None:
    """A folder is a day, a year or an answer: of one that is two of them nothing is as it was signed."""
    if not is_here("ssh-keygen", "a year that is signed"):
        return
    signers, fleet = signers_of(place, "ann"), place / "fleet"
    own = day(fleet / "web-1", 0, RIGHT)
    dossier("audit", own)
    pages, answer = year_of(place, fleet / "web-1"), answer_of(place, fleet / "web-1")
    dossier("sign", "--key", place / "ann", pages, answer, own)
    asked = ["verify", "--as-signed", "--signers", signers]
    check("one thing each", status=(dossier(*asked, pages, answer, fleet)[0], 0))
    for one in own, pages, answer:
        other = shutil.copytree(one, place / "other", ignore=shutil.ignore_patterns("*.sig"))
        before = sorted(other.iterdir())
        commands: list[tuple[Path, list[object]]] = [
            (pages, ["year", "--year", "2001"]), (answer, ["events", place / "log.csv"])]
        for kind, command in commands:
            if one != kind:
                status, _, said = dossier(*command[:1], "--split", other, *command[1:], fleet / "web-1")
                check(f"{command[0]} into {one.name}", status=(status, 5), left=(sorted(other.iterdir()), before),
                      said=("is a day, a year, or an answer to a log: name another one" in said.decode(), True))
        shutil.rmtree(other)
    names, words = {own: "audit.json", pages: "year.json", answer: "events.json"}, "in one folder"
    for one, other in ((answer, own), (answer, pages), (pages, own), (own, pages), (own, answer)):
        both = place / "both" / one.relative_to(place)
        shutil.copytree(place / "fleet", place / "both" / "fleet")
        shutil.copytree(one, both, dirs_exist_ok=True)
        for file in other.iterdir():
            shutil.copy(file, both / file.name)
        what = f"{one.name} with {names[other]}"
        (both / "answered.csv").write_text("forged")
        for way in "", "--answers", "--known", "--second", "--sample 1 --seed x":
            status, out, _ = dossier(*asked, *way.split(), both, place / "both" / "fleet")
            check(f"verify {what} {way}", status=(status, 1), said=(words in out.decode(), True), last=(
                out.decode().splitlines()[-1].startswith("not as it was signed: "), True))
        for call in f"sign --key {place}/ann", "audit", "audit --again", "keep", "page", "page --verify":
            status, out, _ = dossier(*call.split(), both)
            check(f"{call} {what}", status=(status, lambda status: status > 0),
                  said=(words in out.decode(), True))
        if one == own:
            dossier("year", "--year", "2001", "-o", place / "page.html", both.parent)
            _, rows, said = dossier("events", place / "log.csv", both.parent)
            check(f"year and events with {what}", year=(words in (place / "page.html").read_text(), True),
                  said=(words in said.decode(), True), row=(rows.endswith(b",refused\n"), True))
        shutil.rmtree(place / "both")


def test_resting_on_itself(place: Path) -> None:
    """Of an answer that rests on itself and on a year neither is signed by that."""
    if not is_here("ssh-keygen", "a year that is signed"):
        return
    signers, fleet = signers_of(place, "ann"), place / "fleet"
    own = day(fleet / "web-1", 0, RIGHT)
    dossier("audit", own)
    pages, answer = year_of(place, fleet / "web-1"), place / "answer"
    answer.mkdir()
    for folder in pages, answer:
        shutil.copy(own / "claim.json", folder)
    log = log_of(place, f"machine,time\nweb-1,{NOON}Z\n{place.name},{NOON}Z\n")
    dossier("events", "--split", answer, log, fleet / "web-1", place)
    shutil.copy(own / "claim.json", answer)
    rests = json.loads((answer / "events.json").read_text())["machines"]
    status, out, _ = dossier("verify", "--as-signed", "--signers", signers, pages, answer, fleet)
    check("an answer that rests on itself and on a year", made=({*rests[-1]["days"]}, {"answer", "pages"}),
          status=(status, 1), lines=([f"{folder}: nobody signed it" in out.decode() for folder in (pages, answer)],
                                     [True, True]), last=(
              out.decode().splitlines()[-1].startswith(f"not as it was signed: {pages}, {answer}"), True))


BRIEF = f"""import sys; sys.path.insert(0, {str(ROOT)!r})
import dossier.folder.jobs as jobs
jobs.MAX_OF_A_RESULT, jobs.BLOCK = 1_500, 500
from dossier import command_line
sys.exit(command_line.main(sys.argv[1:]))"""
"""Of a folder no more may be handed back than a line or two."""


def test_days_too_many(place: Path) -> None:
    """If the days of a year can't be found, it isn't as it was signed."""
    if not is_here("ssh-keygen", "a year that is signed"):
        return
    signers, own = signers_of(place, "ann"), place / ("x" * 200) / "web-1"
    dossier("audit", *(day(own, number, RIGHT) for number in range(12)))
    pages = year_of(place, own)
    dossier("sign", "--key", place / "ann", pages)
    asked = ["verify", "--as-signed", "--signers", signers, pages, own]
    check("a year", status=(dossier(*asked)[0], 0))
    status, out, _ = run([sys.executable, "-c", BRIEF, *map(str, asked)], env=ENVIRONMENT)
    check("a year whose days are too many", status=(status, 1), said=(
        f"{pages}: ntpaudit-dossier: its result is too big" in out.decode(), True), last=(
            out.decode().splitlines()[-1].startswith(f"not as it was signed: {pages}"), True))
    above = day(place, 0, RIGHT, "y" * 200)
    dossier("audit", above, day(above / "web-1", 0, RIGHT))
    shutil.rmtree(pages)
    dossier("sign", "--key", place / "ann", above, year_of(place, above / "web-1"))
    asked[-1] = above
    check("a day in which a year's days are", status=(dossier(*asked)[0], 0))
    for number in range(12):
        (above / "web-2" / f"2001-09-{10 + number}").mkdir(parents=True)
    status, out, _ = run([sys.executable, "-c", BRIEF, *map(str, asked)], env=ENVIRONMENT)
    check("a day in which too many are", status=(status, 1), said=(
        f"{above}: ntpaudit-dossier: its result is too big" in out.decode(), True))
    for number in range(12):
        (place / "many" / f"{number:0200}" / "2001-09-09").mkdir(parents=True)
    single = day(place / "web-2", 0, RIGHT)
    dossier("audit", single)
    dossier("sign", "--key", place / "ann", single)
    out = run([sys.executable, "-c", BRIEF, *map(str, [*asked[:4], single, place / "many"])], env=ENVIRONMENT)[1]
    check("beside too many machines", lines=([line in out.decode() for line in (
        f"{single}: verified: yes", f"{place / 'many'}: ntpaudit-dossier: its result is too big")], [True, True]))


def test_unknown_folders(place: Path) -> None:
    """Where nobody can find out of which folders something is so, it is so of all, or of none."""
    def ends(_: Folder) -> bool:
        raise MemoryError
    found = [planning.those_among([str(place)], ends, 9, or_unknown) for or_unknown in (True, False)]
    check("folders that can't be looked at", found=(found, [{str(place)}, set()]))


def test_chosen_keys() -> None:
    """Whoever chooses sums chooses no places in a table of them."""
    class Counted(list[int]):
        seen = 0

        def __getitem__(self, at: Any) -> Any:
            Counted.seen += 1
            return super().__getitem__(at)
    table = Table()
    for number in range(1, 2_000):
        table.put(number << 32, number)
    table.numbers = Counted(table.numbers)  # type: ignore
    found = [table.get(number << 32) for number in range(1, 2_000)]
    check("chosen keys", found=(found, [*range(1, 2_000)]), looks=(Counted.seen, lambda seen: seen < 50_000))


def test_names_of_machines(place: Path) -> None:
    """Machines are called as they like, or are refused when the year is made."""
    if not is_here("ssh-keygen", "a year that is signed"):
        return
    signers, fleet = signers_of(place, "ann", "verified"), place / "fleet"
    own = day(fleet / "verified", 0, RIGHT)
    dossier("audit", own, env={**ENVIRONMENT, "XDG_STATE_HOME": str(place / "own")})
    sign(place, "verified", own / "audit.json")
    pages = year_of(place, "--signers", signers, fleet / "verified")
    dossier("sign", "--key", place / "ann", "--signers", signers, pages)
    status, out, _ = dossier("verify", "--as-signed", "--signers", signers, pages, fleet)
    check("a machine that is called verified", status=(status, 0), said=(
        f"{pages}: {FOLLOWS}" in out.decode(), True))
    for name in "web\n1", os.fsdecode(b"web-\xff1"):
        other = day(fleet / name, 0, RIGHT)
        dossier("audit", other)
        status, _, said = dossier("year", "--year", "2001", "--split", place / "other", other.parent)
        check(f"a machine that is called {name!r}", status=(status, lambda status: status > 0), said=(
            b"call its folder otherwise" in said, True), left=((place / "other").exists(), False))


def test_nothing_rests(place: Path) -> None:
    """A machine on whose days nothing rests may be named beside a year or an answer; days that a year left out are
    seen."""
    if not is_here("ssh-keygen", "a year that is signed"):
        return
    signers, fleet = signers_of(place, "ann"), place / "fleet"
    dossier("audit", day(fleet / "web-1", 0, RIGHT), day(fleet / "web-2", 0, RIGHT, client="192.0.2.11"))
    (fleet / "web-3").mkdir()
    pages, answer, none = year_of(place, fleet / "web-1"), answer_of(place, fleet / "web-1"), "rests on what is in it"
    dossier("sign", "--key", place / "ann", pages, answer)
    asked = ["verify", "--as-signed", "--signers", signers]
    for what, status, words in rows(
            ([answer, fleet / "web-1", fleet / "web-2"], 0,
             f"{fleet / 'web-2'}: (no year or answer that is named {none})"),
            ([answer, fleet], 0, f"{fleet}: (folders of an answer to a log are in it)"),
            ([pages, fleet / "web-1", fleet / "web-3"], 1,
             f"{fleet / 'web-3'}: ntpaudit-dossier: no day, year or answer is in it"),
            ([pages, *fleet.iterdir()], 1, f"{fleet / 'web-2' / '2001-09-09'}: nobody signed it"),
            ([pages, pages / ".." / "pages", fleet], 1, f"{pages}: verified: its statements follow")):
        told = dossier(*asked, *what)
        check(f"verify {len(what)} folders", status=(told[0], status), said=(words in told[1].decode(), True),
              once=(told[1].decode().count(": (signed at"), 1))


def test_namesakes_in_answers(place: Path) -> None:
    """Of machines that are called alike no key counts, by whatever path a log calls them; and a day of an answer is in
    its machine's folder."""
    if not is_here("ssh-keygen", "an answer that is signed"):
        return
    signers, machines = signers_of(place, "ann", "web-1"), [place / "fleet" / site / "web-1" for site in ("a", "b")]
    for machine, client in zip(machines, ("192.0.2.10", "192.0.2.11")):
        own = day(machine, 0, RIGHT, client=client)
        dossier("audit", own, env={**ENVIRONMENT, "XDG_STATE_HOME": str(place / "other")})
        sign(place, "web-1", own / "audit.json")
    log = log_of(place, f"machine,time\n{machines[0]},{NOON}Z\n")
    text = dossier("events", "--signers", signers, "--split", place / "answer", log, *machines)
    check("an answer by a namesake's key", status=(text[0], 1), verdict=(
        (place / "answer" / "answered.csv").read_bytes().endswith(b",,,not verified\n"), True))
    status, out, _ = dossier("verify", "--as-signed", "--signers", signers, *(own / "2001-09-09" for own in machines))
    check("days by a namesake's key", status=(status, 1), said=(
        out.count(b": more than one machine is called web-1"), 2))
    file = place / "answer" / "events.json"
    events = json.loads(file.read_text())
    events["machines"][0]["days"] = {"..": ""}
    file.write_text(json.dumps(events))
    out = dossier("verify", place / "answer", place / "fleet")[1]
    check("a day above its machine", said=(f"{machines[0].parent} can't be a folder of it" in out.decode(), True))


def test_named_twice(place: Path) -> None:
    """A day that is named besides its year is looked at once. A folder with what was left of a day is none of days."""
    own, signers = day(place / "fleet" / "web-1", 0, RIGHT), ENVIRONMENT
    within = day(own / "web-9", 0, RIGHT)
    dossier("audit", within)
    pages = year_of(place, own / "web-9")
    out = dossier("verify", pages, own, within, env=signers)[1].decode()
    check("a day that is named besides its year", lines=(out.count(f"{within}: verified: yes"), 1), copy=(
        "copy" in out, False), above=(f"{own}: ntpaudit-dossier: not audited" in out, True))


def test_days_within(place: Path) -> None:
    """Days in the folder of a year or an answer, laid there by who made it, are none of a machine's."""
    if not is_here("ssh-keygen", "a year that is signed"):
        return
    signers, fleet = signers_of(place, "ann"), place / "fleet"
    dossier("audit", day(fleet / "web-1", 0, RIGHT))
    log, within = log_of(place, f"machine,time\nweb-1,{NOON}Z\n"), "a folder that is named is in it"
    for command, split in rows((["year", "--year", "2001"], fleet), (["year"], fleet / "web-1"), (["year"], place),
                               (["events", log], fleet), (["events", log], fleet / "web-1" / "2001-09-09")):
        status, _, said = dossier(*command[:1], "--split", split, *command[1:], fleet / "web-1" / "2001-09-09")
        check(f"{command[0]} into {split.name}", status=(status, 5), said=(within in said.decode(), True),
              left=(sorted(path.name for path in fleet.iterdir()), ["web-1"]))
    pages, answer = year_of(place, "fleet/web-1", cwd=place), answer_of(place, fleet / "web-1")
    for folder in pages, answer:
        shutil.copytree(fleet / "web-1", folder / "web-1")
    change_lines(pages, "../fleet/web-1/", "web-1/")
    text = (answer / "events.json").read_text()
    (answer / "events.json").write_text(text.replace('"../fleet/web-1"', '"web-1"'))
    for folder, name in (pages, "year.json"), (answer, "events.json"):
        words = f"{folder}/web-1, which is within the folder that rests on it"
        told = dossier("sign", "--key", place / "ann", folder)
        check(f"sign {folder.name} with days in it", status=(told[0], lambda status: status in (1, 2)),
              said=(words in told[1].decode(), True))
        sign(place, "ann", folder / name)
        for way in "", "--answers", "--sample 1 --seed x":
            status, out, _ = dossier("verify", "--as-signed", "--signers", signers, *way.split(), folder, fleet)
            check(f"{folder.name} with days in it {way}", status=(status, 1), said=(words in out.decode(), True))


def test_called_otherwise(place: Path) -> None:
    """A machine that was called otherwise than its folder is here is named."""
    london = place / "fleet" / "london"
    for number in 0, 1:
        dossier("audit", day(london / f"web-{number}", number, RIGHT))
    named = "web-0", "web-1"
    dossier("year", "--year", "2001", "--split", "pages", *named, cwd=london)
    log = log_of(place, f"machine,time\nweb-0,{NOON}Z\n")
    dossier("events", "--split", "answer", log, *named, cwd=london)
    asked = ["verify", "--known", "fleet/london/pages", "fleet/london/answer", "fleet"]
    check("as they are called", said=("web-0 here" in dossier(*asked, cwd=place)[1].decode(), False))
    for name in "web-0", "web-1":
        for file in "pages/year.json", "answer/events.json":
            text = (london / file).read_text().replace(f'"machine": "{name}"', f'"machine": "fleet/paris/{name}"')
            (london / file).write_text(text.replace(f"({name})", f"(fleet/paris/{name})"))
        more = " (1 more machine too)" if name == "web-1" else ""
        out = dossier(*asked, cwd=place)[1].decode().splitlines()
        words = "(fleet/paris/web-0 is fleet/london/web-0 here"
        check(f"other names up to {name}", year=(f"fleet/london/pages: {words}{more})" in out, True), answer=(
            f"fleet/london/answer: {words})" in out, True))
    dossier("year", "--year", "2001", "--split", "pages", "../london/web-0", cwd=london)
    check("the end of a path", said=(
        "pages: (fleet/paris" in dossier(*asked, cwd=place)[1].decode(), False))


def test_many_lines(place: Path) -> None:
    """A file of days has no more lines than a year has days, an answer's machine no more folders than are looked at,
    and a machine without a day takes no time."""
    own = place / "fleet" / "web-1"
    dossier("audit", day(own, 0, RIGHT))
    pages, answer = year_of(place, own), answer_of(place, own)
    kept = json.loads((pages / "year.json").read_text())
    (pages / "e.days").touch()
    machines = [{**kept["machines"][0], "machine": f"m{k}", "statement": f"Of m{k} nothing is known here.", "shown": 0,
                 "file": "e.days", "sha256": sum_of(b"")} for k in range(9)]
    (pages / "year.json").write_text(json.dumps({**kept, "machines": machines, "pages": {}}))
    with (mock.patch("dossier.fleet.days.day_of", wraps=units.day_of) as day_of,
          mock.patch("dossier.fleet.statements.packed", wraps=twins.packed) as packed, Folder(str(pages)) as folder):
        found = statements.compared(folder, Known(str(place / "state"), False), read_list(None))
    check("empty machines", difference=(found.difference, ""), hidden=(len(found.hidden), 9),
          calls=((day_of.call_count < 400, packed.call_count), (True, 0)))
    (pages / "year.json").write_text(json.dumps(kept))
    file = pages / f"{called(own)}.days"
    line, = file.read_text().splitlines(keepends=True)
    file.write_text(line + "".join(line.replace("2001-09-09", f"x{number}") for number in range(366)))
    change_lines(pages, "", "")
    status, out, _ = dossier("verify", "--known", pages, own.parent)
    check("too many days", status=(status, lambda status: status > 0),
          said=("a file of days has more than 366 lines" in out.decode(), True))
    text = (answer / "events.json").read_text()
    for number, said in (4_000, "isn't what the log"), (4_001, "isn't one that is taken (machines 0 days)"):
        more = "".join(f'"{name}": "", ' for name in range(1, number))
        (answer / "events.json").write_text(text.replace('"days": {', f'"days": {{{more}', 1))
        out = dossier("verify", answer, own.parent)[1]
        check(f"{number} folders of an answer", said=(said in out.decode(), True))


def test_claims_of_others(place: Path) -> None:
    """A day that counts by its machine's signature has the claim of which its audit speaks: else one audit would stand
    for many days, of which a sample draws all or none."""
    if not is_here("ssh-keygen", "a fleet that signs"):
        return
    signers, own = signers_of(place, "web-1"), {**ENVIRONMENT, "XDG_STATE_HOME": str(place / "own")}
    machine = place / "fleet" / "web-1"
    dossier("audit", first := day(machine, 0, RIGHT), env=own)
    shutil.copytree(first, second := machine / "2001-09-10")
    audit = second / "audit.json"
    audit.write_text(audit.read_text().replace("2001-09-10T", "2001-09-11T").replace("2001-09-09T", "2001-09-10T"))
    for folder in (first, second):
        sign(place, "web-1", folder / "audit.json")
    pages = year_of(place, "--signers", signers, machine, env={**ENVIRONMENT, "XDG_STATE_HOME": str(place / "here")})
    lines = (pages / f"{called(machine)}.days").read_text().splitlines()
    check("a claim of another day", by=([line.split()[1] for line in lines], ["web-1", "-"]))


def test_words_of_programs(place: Path) -> None:
    """What is said of a program is a version and no more, so that no stranger's words are in what somebody signs."""
    if not is_here("ssh-keygen", "a fleet that signs"):
        return
    signers, own = signers_of(place, "ann", "web-1"), {**ENVIRONMENT, "XDG_STATE_HOME": str(place / "own")}
    machine, words = place / "fleet" / "web-1", "ntpaudit 1.0.0. Ann saw all of it. Read by ntpaudit 1.0.0"
    folders = [day(machine, number, RIGHT) for number in (0, 1)]
    dossier("audit", *folders, env=own)
    for folder, version in zip(folders, ("ntpaudit 9", words)):
        record = json.loads((folder / "audit.json").read_text())
        record["program"]["version"] = version
        (folder / "audit.json").write_text(json.dumps(record))
        sign(place, "web-1", folder / "audit.json")
    env = {**ENVIRONMENT, "XDG_STATE_HOME": str(place / "here")}
    pages = year_of(place, "--signers", signers, machine, env=env)
    text = (pages / "year.json").read_text()
    check("words of a machine in a year", said=([said in text for said in ("by ntpaudit 9, SHA", "Ann saw")],
                                                [True, False]))
    shutil.rmtree(machine)
    dossier("audit", day(machine, 0, RIGHT))
    answer = answer_of(place, machine)
    events = json.loads((answer / "events.json").read_text())
    for version, status in ("ntpaudit 9", 0), (words, 2):
        events["program"] = {"version": version, "sha256": "0" * 64}
        (answer / "events.json").write_text(json.dumps(events))
        (answer / "events.json.sig").unlink(missing_ok=True)
        check(f"sign an answer by {version}", status=(dossier("sign", "--key", place / "ann", answer)[0], status or 1))
        sign(place, "ann", answer / "events.json")
        told = dossier("verify", "--as-signed", "--signers", signers, answer, machine)
        check(f"an answer by {version}", status=(told[0], int(status > 0)), said=(
            "(made by another program than the one that is here: by ntpaudit 9, SHA" in told[1].decode(), not status))


def test_taken_away(place: Path) -> None:
    """A year, an answer or a day from which that is taken away which is signed isn't as it was signed, whatever is
    left."""
    if not is_here("ssh-keygen", "a year that is signed"):
        return
    signers, machine = signers_of(place, "ann"), place / "fleet" / "web-1"
    dossier("audit", day(machine, 0, RIGHT), monday := day(place / "web-2", 1, RIGHT, name="monday"))
    pages, answer = year_of(place, machine), answer_of(place, machine)
    dossier("sign", "--key", place / "ann", pages, answer, monday)
    shutil.copy(place / "log.csv", place / "fleet" / "events.csv")
    asked = ["verify", "--as-signed", "--known", "--signers", signers, pages, answer, monday, place / "fleet"]
    check("all is there", status=(dossier(*asked)[0], 0))
    for folder, own, names in ((pages, "year.json", ("year.json.sig", "pages.sums", f"{called(machine)}.days")),
                               (answer, "events.json", ("events.json.sig", "pages.sums", "answered.csv"))):
        left = folder.rename(place / "whole")
        for name in names:
            folder.mkdir()
            shutil.copy(left / name, folder)
            status, out, _ = dossier(*asked)
            check(f"{name} without {own}", status=(status, 1), last=(
                f"not as it was signed: {folder};" in out.decode(), True))
            shutil.rmtree(folder)
        left.rename(folder)
    for folder in pages, answer, monday:
        left = folder.rename(place / "whole")
        for name in ".", "notes":
            (folder / name).mkdir(parents=True)
            status, out, _ = dossier(*asked)
            check(f"{folder.name} with nothing but {name}", status=(status, 1), last=(
                f"not as it was signed: {folder};" in out.decode(), True), said=(
                f"{folder}: ntpaudit-dossier: no day, year or answer is in it" in out.decode(), True))
            shutil.rmtree(folder)
        left.rename(folder)


def test_deep_machines() -> None:
    """Of machines that are thousands of folders deep only themselves are held in memory, not all that is above them."""
    deep = "/x" * 1900
    every = frozenset(f"{deep}/{k}" for k in range(40)) | {"/x", f"{deep}/0/y"}
    tracemalloc.start()
    found = machines.undermost(every)
    check("machines that hold no others", found=(found, every - {"/x", f"{deep}/0"}), peak=(
        tracemalloc.get_traced_memory()[1], lambda peak: peak < 20_000_000))
    tracemalloc.stop()


def test_namesakes_beside(place: Path) -> None:
    """A machine that is called like one of a year or an answer makes its key nobody's, whether its own days are looked
    at or not, and that is said; but what a machine laid into its own folder is no machine, nor a person's name."""
    if not is_here("ssh-keygen", "a fleet that signs"):
        return
    signers, fleet = signers_of(place, "ann", "web-1", "web-2"), place / "fleet"
    folders = [day(fleet / "web-1", 0, RIGHT), day(fleet / "web-2", 0, RIGHT, client="192.0.2.11")]
    dossier("audit", *folders, env={**ENVIRONMENT, "XDG_STATE_HOME": str(place / "own")})
    for folder in folders:
        sign(place, folder.parent.name, folder / "audit.json")
    among, env = ["--signers", signers], {**ENVIRONMENT, "XDG_STATE_HOME": str(place / "here")}
    pages, answer = year_of(place, *among, fleet / "web-1", env=env), place / "answer"
    log = log_of(place, f"machine,time\nweb-1,{NOON}Z\n")
    dossier("events", *among, "--split", answer, log, fleet / "web-1", env=env)
    dossier("sign", "--key", place / "ann", *among, pages, answer, env=env)
    words = "more than one machine is called web-1, so nobody knows whose key that is"
    for within, status in (("web-1/web-1", 0), ("web-2/web-1", 0), ("web-2/ann", 0), ("archive/web-1", 1)):
        (fleet / within / "2001-09-10").mkdir(parents=True)
        shutil.copy(folders[0] / "audit.json", fleet / within / "2001-09-10")
        for folder, named in (pages, [fleet]), (answer, [fleet]), (pages, [(fleet / within).parent, fleet / "web-1"]):
            told = dossier("verify", "--as-signed", "--known", *among, folder, *named, env=env)
            line = next(line for line in told[1].decode().splitlines() if line.startswith(f"{folder}: "))
            check(f"{folder.name} beside {within}", status=(told[0], status), said=(words in line, bool(status)))


def test_namesakes_below_a_day(place: Path) -> None:
    """A day beside machines on which a year or an answer rests too ends no search for namesakes of these."""
    if not is_here("ssh-keygen", "a fleet that signs"):
        return
    signers, fleet = signers_of(place, "ann", "web-1"), place / "fleet"
    folders = [day(fleet / site / "web-1", k, RIGHT) for k, site in enumerate(("a", "b"))]
    dossier("audit", *folders, env={**ENVIRONMENT, "XDG_STATE_HOME": str(place / "own")})
    for folder in folders:
        sign(place, "web-1", folder / "audit.json")
    among = ["--signers", signers]
    for name in "monday", "2001-09-09":
        env = {**ENVIRONMENT, "XDG_STATE_HOME": str(place / f"state-{name}")}
        dossier("audit", beside := day(fleet, 2, RIGHT, name=name, drift_ppb=1), env=env)
        pages, answer = year_of(place, *among, fleet / "a" / "web-1", beside, env=env), place / "answer"
        sign(place, "ann", beside / "audit.json")
        log = log_of(place, f"machine,time\nweb-1,{NOON}Z\nfleet,2001-09-11T12:00:00Z\n")
        dossier("events", *among, "--split", answer, log, fleet / "a" / "web-1", beside, env=env)
        for folder, file in (pages, "year.json"), (answer, "events.json"):
            sign(place, "ann", folder / file)
            for named, status in rows(([fleet / "a"], 0), ([fleet / "a", fleet / "b"], 1)):
                told = dossier("verify", "--as-signed", "--known", *among, folder, *named, beside, env=env)
                check(f"{folder.name} beside {name} in {len(named)} folders", status=(told[0], status), said=(
                    "more than one machine is called web-1" in told[1].decode(), bool(status)))
            shutil.rmtree(folder)
        shutil.rmtree(beside)


def test_signatures_of_days(place: Path) -> None:
    """A signature that doesn't fit, or by another machine's key, isn't as it was signed, though a year rests on that
    day."""
    if not is_here("ssh-keygen", "a fleet that signs"):
        return
    signers, fleet = signers_of(place, "ann", "web-1", "web-2"), place / "fleet"
    own, _ = folders = [day(fleet / name, 0, RIGHT, client=client) for name, client in (
        ("web-1", "192.0.2.10"), ("web-2", "192.0.2.11"))]
    dossier("audit", *folders)
    pages, answer = year_of(place, *(folder.parent for folder in folders)), answer_of(place, own.parent)
    dossier("sign", "--key", place / "ann", pages, answer)
    for key, words in (("web-1", "by web-1"), ("ann", "by ann"), ("web-2", OWN), ("", "the signature doesn't fit")):
        signature = Path(f"{own}/audit.json.sig")
        if key:
            sign(place, key, own / "audit.json")
        else:
            shutil.copy(pages / "year.json.sig", signature)
        is_bad = key in ("web-2", "")
        for folder in pages, answer:
            for way, state in ("--known", STATE), ("--answers", place / f"{folder.name}-{key}"):
                status, out, _ = dossier("verify", way, "--as-signed", "--signers", signers, folder, fleet, env={
                    **ENVIRONMENT, "XDG_STATE_HOME": str(state)})
                check(f"{folder.name} with a day by {key or 'no key'} {way}", status=(status, int(is_bad)), said=(
                    words in out.decode(), True), last=(
                    f"not as it was signed: {own};" in out.decode().splitlines()[-1], is_bad))


def test_long_statements(place: Path) -> None:
    """Of machines with recordings in common, of signers and of programs a statement names ten, so that it is one that
    can be signed; and one that is too long all the same isn't written."""
    if not is_here("ssh-keygen", "a year that is signed"):
        return
    signers, fleet = signers_of(place, "ann"), place / "fleet"
    dossier("audit", first := day(fleet / "web-0", 0, RIGHT))
    machines = [first.parent, *(shutil.copytree(first.parent, fleet / f"web-{number}") for number in range(1, 14))]
    pages = year_of(place, *machines)
    words = json.loads((pages / "year.json").read_text())["machines"][0]["statement"]
    check("fourteen machines with one recording", sign=(dossier("sign", "--key", place / "ann", pages)[0], 0), said=(
        f"web-9, {fleet}/web-10 and 3 more machines too" in words, True), verify=(
            dossier("verify", "--known", "--as-signed", "--signers", signers, pages, fleet)[0], 0))
    known = Known(str(place / "state"), False)
    known.believes = True
    year = days.year_of(days.YearCall(2001, known, read_list(None), 2 * 999_993_600), str(first.parent), [])
    names = [f"{'x' * 250}/{number}" for number in range(330)]
    told = [replace(one, by=f"u{number:03}@web-0") for number, one in enumerate(year.days)]
    year = replace(year, twins=names, alike=names, days=told, programs=[
        Made(f"ntpaudit {number}", f"{number:064}") for number in range(366)])
    words = statements.statement(year)
    for said in ("/9 and 320 more machines too, so", "/9 and 320 more machines have days",
                 "1 day is signed by u009@web-0,", "355 days are signed by 355 more names of it,",
                 "; 356 more programs."):
        check(f"a long statement: {said}", said=(said in words, True))
    check("the programs of a long statement", programs=(statements.programs_in(words)[:10], year.programs[:10]), same=(
        statements.programs_named(statements.programs_in(words)), statements.programs_named(year.programs)))
    try:
        made = statements.stated_of(replace(year, machine="x" * 20_000), "", "")
        check("a statement that is too long", made=(made, None))
    except Fault as error:
        check("a statement that is too long", said=("is too long to be signed" in error.line, True))


def test_words_of_refusals(place: Path) -> None:
    """Why an audit was refused that counts by its machine's signature isn't said in the machine's words."""
    if not is_here("ssh-keygen", "a fleet that signs"):
        return
    signers, folder = signers_of(place, "web-1"), day(place / "fleet" / "web-1", 0, RIGHT)
    (folder / "f.pcap").write_bytes(b"no capture")
    dossier("audit", folder, env={**ENVIRONMENT, "XDG_STATE_HOME": str(place / "own")})
    record = json.loads((folder / "audit.json").read_text())
    record["refusal"]["line"] = "Ann saw that the clock was right"
    (folder / "audit.json").write_text(json.dumps(record))
    sign(place, "web-1", folder / "audit.json")
    pages = year_of(place, "--signers", signers, folder.parent)
    text = (pages / f"{called(folder.parent)}.html").read_text()
    check("words of a refusal", said=([words in text for words in ("it was refused by what web-1 signed", "Ann saw")],
                                      [True, False]))


def test_spoilt_audits(place: Path) -> None:
    """A day that its year doesn't count, since its audit.json isn't one, is looked at and told all the same."""
    if not is_here("ssh-keygen", "a fleet that signs"):
        return
    signers, machine = signers_of(place, "ann", "web-1"), place / "fleet" / "web-1"
    dossier("audit", *(folders := [day(machine, 0, RIGHT), day(machine, 1, "9000000..9000001")]))
    for folder in folders:
        sign(place, "web-1", folder / "audit.json")
    audit, whole = folders[1] / "audit.json", (folders[1] / "audit.json").read_bytes()
    for what, data, files in rows(
            ("a byte more", whole + b"x", []), ("another form", b"{}", []), ("a link", b"", []),
            ("a year", whole, ["year.json"]), ("its signature alone", b"", []), ("none", b"", [])):
        audit.unlink(missing_ok=True)
        if data:
            audit.write_bytes(data)
        elif what == "a link":
            audit.symlink_to(folders[0] / "audit.json")
        elif what == "none":
            Path(f"{audit}.sig").unlink()
        for name in files:
            (folders[1] / name).write_text("{}")
        pages = year_of(place, "--signers", signers, machine)
        dossier("sign", "--key", place / "ann", "--signers", signers, pages)
        for way in "", "--answers", "--sample 1 --seed x":
            told = dossier("verify", "--as-signed", *way.split(), "--signers", signers, pages, machine)
            last, is_none = told[1].decode().splitlines()[-1], what == "none"
            check(f"a day of a year with {what} {way}", status=(told[0], int(not is_none)), last=(
                last.startswith(f"not as it was signed: {folders[1]};"), not is_none))
        shutil.rmtree(pages)
        for name in files:
            (folders[1] / name).unlink()


def test_names_with_an_at(place: Path) -> None:
    """A machine whose name has an `@` is that machine, and none that is called like the end of its name: its key signs
    its own days, and neither a year nor what is another's."""
    if not is_here("ssh-keygen", "a fleet that signs"):
        return
    for number, (names, name, key, is_own) in enumerate(rows(
            (["root@web-1"], "root@web-1", "root@web-1", True), (["b@web-1"], "b@web-1", "a@b@web-1", True),
            (["web-1", "ntp@web-1"], "ntp@web-1", "ntp@web-1", True), (["web-1", "ntp@web-1"], "web-1", "web-1", True),
            (["web-1", "ntp@web-1"], "web-1", "ntp@web-1", False), (["web-1"], "web-1", "ntp@web-1", True))):
        within = place / str(number)
        within.mkdir()
        signers, fleet = signers_of(within, key, "ann"), within / "fleet"
        dossier("audit", *(day(fleet / one, 0, RIGHT, drift_ppb=k) for k, one in enumerate(names)))
        sign(within, key, fleet / name / "2001-09-09" / "audit.json")
        pages = year_of(within, *(fleet / one for one in names))
        for by in "ann", key:
            sign(within, by, pages / "year.json")
            status, out, _ = dossier("verify", "--as-signed", "--signers", signers, pages, fleet)
            check(f"{key} of {name} among {names}, the year by {by}", status=(status, int(by == key or not is_own)),
                  said=(out.decode().count(OWN), int(by == key) + int(not is_own)))


def test_namesakes_of_places(place: Path) -> None:
    """A folder of machines that has a folder called after a day is none of them, and one of too many files holds what
    nobody knows; but days of another year, or without an audit, are no other machine's."""
    if not is_here("ssh-keygen", "a fleet that signs"):
        return
    signers, fleet = signers_of(place, "ann", "web-1"), place / "fleet"
    own, other = (day(fleet / name / "web-1", 0, RIGHT, drift_ppb=k) for k, name in enumerate(("paris", "london")))
    dossier("audit", own, other, env={**ENVIRONMENT, "XDG_STATE_HOME": str(place / "own")})
    for folder in own, other:
        sign(place, "web-1", folder / "audit.json")
    among, env = ["--signers", signers], {**ENVIRONMENT, "XDG_STATE_HOME": str(place / "here")}
    pages, answer = year_of(place, *among, own.parent, env=env), place / "answer"
    log = log_of(place, f"machine,time\nweb-1,{NOON}Z\n")
    dossier("events", *among, "--split", answer, log, own.parent, env=env)
    dossier("sign", "--key", place / "ann", *among, pages, answer, env=env)
    words = "more than one machine is called web-1, so nobody knows whose key that is"

    def told(what: str, status: int, said: str, *folders: Path) -> None:
        """What comes of each, beside what there is now."""
        for folder in folders:
            came, out, _ = dossier("verify", "--as-signed", "--known", *among, folder, fleet, env=env)
            check(f"{folder.name} beside {what}", status=(came, status), said=(said in out.decode(), bool(status)))
    for name in "1999-01-01", "2002-01-01":
        (fleet / "london" / name).mkdir()
        told(f"london with {name}", 1, words, pages, answer)
        (fleet / "london" / name).rmdir()
    for number in range(100_001):
        (fleet / "london" / str(number)).touch()
    told("too many files", 1, "more than 100,000 files are in the folder", pages, answer)
    shutil.rmtree(fleet / "london")
    for name, is_audited in rows(("london/web-1/1999-01-01", False), ("web-1/1999-01-01", False),
                                 ("2000/web-1/2000-09-09", True), ("london/web-1/2001-09-10", False)):
        (fleet / name).mkdir(parents=True)
        if is_audited:
            shutil.copy(own / "audit.json", fleet / name)
        told(name, 0, words, *([pages] if name[-10:-6] != "2001" else []), answer)


def test_pages_among_machines(place: Path) -> None:
    """Pages and an answer's rows among a fleet's machines make it neither a year nor an answer; a signature does."""
    if not is_here("ssh-keygen", "a year that is signed"):
        return
    signers, fleet = signers_of(place, "ann"), place / "fleet"
    dossier("audit", own := day(fleet / "web-1", 0, RIGHT))
    pages, answer = year_of(place, own.parent), answer_of(place, own.parent)
    dossier("sign", "--key", place / "ann", pages, answer)
    dossier("page", "--split", fleet, own)
    check("pages in a fleet", left=((fleet / "pages.sums").exists(), True))
    shutil.copy(answer / "answered.csv", fleet)
    for name, is_other in ("", False), ("web-9.days", True), ("year.json.sig", True):
        if name:
            (fleet / name).touch()
        for folder in pages, answer:
            status, out, _ = dossier("verify", "--as-signed", "--known", "--signers", signers, folder, fleet)
            check(f"{folder.name} of a fleet with pages and {name or 'no more'}", status=(status, int(is_other)),
                  said=(f"{fleet}: ntpaudit-dossier: not audited" in out.decode(), is_other))
        if name:
            (fleet / name).unlink()


def test_signatures_beside_a_sample(place: Path) -> None:
    """The signatures of days are looked at though the days aren't drawn, whether something rests on them or not."""
    if not is_here("ssh-keygen", "a fleet that signs"):
        return
    signers, fleet = signers_of(place, "ann", "web-1", "web-2"), place / "fleet"
    folders = [day(fleet / "web-1", number, RIGHT) for number in range(3)]
    dossier("audit", *folders, day(fleet / "web-2", 0, RIGHT, client="192.0.2.11"))
    log = log_of(place, "machine,time\n" + "".join(f"web-1,{folder.name}T12:00:00Z\n" for folder in folders))
    pages, answer = year_of(place, *fleet.iterdir()), place / "answer"
    dossier("events", "--split", answer, log, fleet / "web-1")
    dossier("sign", "--key", place / "ann", pages, answer)
    for key, words in (("web-1", ""), ("ann", ""), ("web-2", OWN), ("", "the signature doesn't fit")):
        for folder in folders:
            sign(place, key or "ann", folder / ("audit.json" if key else "claim.json"))
            if not key:
                (folder / "claim.json.sig").rename(folder / "audit.json.sig")
        for folder in pages, answer:
            drawn = "verify", "--sample", 1, "--seed", "x", "--as-signed"
            status, out, _ = dossier(*drawn, "--signers", signers, folder, fleet)
            check(f"{folder.name} with days by {key or 'no key'}", status=(status, int(bool(words))), number=(
                out.decode().count(words) if words else 0, len(folders) if words else 0))
    asked = "verify", "--sample", 1, "--seed", "x", "--as-signed", "--signers"
    for key, words in (("web-1", ""), ("ann", ""), ("web-2", OWN), ("", "the signature doesn't fit"),
                       ("mallory", "with a key that may not sign"), ("none", "nobody signed it")):
        key_of(place, "mallory")
        for folder in folders:
            sign(place, key if key not in ("", "none") else "ann", folder / ("audit.json" if key else "claim.json"))
            if not key:
                (folder / "claim.json.sig").rename(folder / "audit.json.sig")
            elif key == "none":
                (folder / "audit.json.sig").unlink()
        status, out, _ = dossier(*asked, signers, *folders)
        check(f"days of no year by {key or 'no key'}", status=(status, int(bool(words))), number=(
            out.decode().count(words) if words else 0, len(folders) if words else 0))
    shutil.copytree(fleet / "web-1", other := place / "other" / "web-1")
    for folder in [*folders, *other.iterdir()]:
        sign(place, "web-1", folder / "audit.json")
    out = dossier(*asked, signers, *folders, *other.iterdir())[1]
    check("days of namesakes", number=(out.count(b"more than one machine is called web-1"), 2 * len(folders)))


def test_words_of_audits(place: Path) -> None:
    """Which name makes an audit none isn't said on a page that somebody else signs: it may be a sentence."""
    folder = day(place / "fleet" / "web-1", 0, RIGHT)
    dossier("audit", folder)
    record = json.loads((folder / "audit.json").read_text())
    for what, changed in (("a name", {**record, "Ann saw all of it": 1}),
                          ("a file", {**record, "inputs": {"Ann saw all of it": "x"}})):
        (folder / "audit.json").write_text(json.dumps(changed))
        text = (year_of(place, folder.parent) / f"{called(folder.parent)}.html").read_text().replace("&#39;", "'")
        check(f"words of an audit that has {what}", said=(
            [words in text for words in ("audit.json isn't one that is taken<", "Ann saw")], [True, False]))


def test_signers_called_otherwise(place: Path) -> None:
    """If a year calls a signer otherwise than the file of signers that is named, what it is called here is told."""
    if not is_here("ssh-keygen", "a fleet that signs"):
        return
    signers, folder = signers_of(place, "web-1", "ann"), day(place / "fleet" / "web-1", 0, RIGHT)
    dossier("audit", folder, env={**ENVIRONMENT, "XDG_STATE_HOME": str(place / "own")})
    sign(place, "web-1", folder / "audit.json")
    words, whole = "made-again-by-Ann.in-full@web-1", signers.read_text()
    for name in "web-1", words:
        signers.write_text(whole.replace("web-1 ", f"{name} ", 1))
        pages = year_of(place, "--signers", signers, folder.parent, env={
            **ENVIRONMENT, "XDG_STATE_HOME": str(place / "here")})
        sign(place, "ann", pages / "year.json")
        signers.write_text(whole)
        status, out, _ = dossier("verify", "--as-signed", "--signers", signers, pages, folder.parent)
        check(f"a year by {name}", status=(status, 0), said=(
            f"{pages}: (signed by {words}, by its statements: that key is called web-1 here)" in out.decode(),
            name == words))
        shutil.rmtree(pages)


def test_signatures_dated_before(place: Path) -> None:
    """A retired key signs nothing that was made or recorded after its end, whatever time its holder says."""
    if not is_here("ssh-keygen", "a fleet that signs"):
        return
    signers, own = signers_of(place, "web-1", "ann"), place / "fleet" / "web-1"
    signers.write_text(signers.read_text().replace(" ssh-", ' valid-before="20020101" ssh-'))
    dossier("audit", folder := day(own, 0, RIGHT))
    early = "the signature doesn't fit: it is dated before what it signs"

    def told(file: Path, signed: str, **more: str) -> bool:
        file.write_text(json.dumps({**json.loads(file.read_text()), "signed": signed, **more}))
        sign(place, "web-1" if file.name == "audit.json" else "ann", file)
        named = [file.parent] if file.name == "audit.json" else [file.parent, own]
        return early in dossier("verify", "--known", "--signers", signers, *named)[1].decode()
    for out in year_of(place, own), answer_of(place, own):
        file = next(iter([*out.glob("year.json"), *out.glob("events.json")]))
        check(f"{file.name} by a retired key", is_early=(told(file, "2001-12-31T00:00:00Z"), True))
        shutil.rmtree(out)
    for signed, more, is_early in (("2001-12-31T00:00:00Z", False, True), ("2001-09-09T23:54:59Z", True, True),
                                   ("2001-09-09T23:55:00Z", True, False)):
        check(f"a day by a retired key, {signed}", is_early=(
            told(folder / "audit.json", signed, **({"made": signed} if more else {})), is_early))
        pages = year_of(place, "--signers", signers, own, env={**ENVIRONMENT, "XDG_STATE_HOME": str(place / "here")})
        lines = (pages / f"{called(own)}.days").read_text()
        check(f"its year, {signed}", by=(lines.split()[1], "-" if is_early else "web-1"))
        shutil.rmtree(pages)
    span: dict[str, Any] = {"from": units.now(), "to": units.now(units.DAY)}
    dossier("audit", folder := day(own, 1, RIGHT, "now", **span))
    check("a span that hasn't ended", run=(dossier("sign", "--key", place / "ann", folder)[:2], (5, (
        f"{folder}: ntpaudit-dossier: its span hasn't ended yet, so it isn't signed\n").encode())))


def test_hidden_leap_second(place: Path) -> None:
    """A machine doesn't hide a leap second from the year's list by the stretch that it says was looked up."""
    if not is_here("ssh-keygen", "a fleet that signs"):
        return
    signers, folder = signers_of(place, "web-1"), day(place / "fleet" / "web-1", 0, RIGHT)
    dossier("audit", folder, env={**ENVIRONMENT, "XDG_STATE_HOME": str(place / "own")})
    record = json.loads((folder / "audit.json").read_text())
    record["entries"][0]["leap"].update({"from": 0, "to": 1})
    (folder / "audit.json").write_text(json.dumps(record))
    sign(place, "web-1", folder / "audit.json")
    leaps = leap_list(place / "list", LATER, (78_796_800, 11), (FIRST + units.DAY, 12))
    pages = year_of(place, "--signers", signers, "--leap-seconds", leaps, folder.parent)
    text = (pages / f"{called(folder.parent)}.html").read_text()
    check("a hidden leap second", day=('title="2001-09-09: unsupported' in text, True))
