"""Tests of the year: `ntpaudit-dossier year`, and what is signed and verified of it.
A machine has some days of September 2001, of which each figure
is known by hand.
"""
import json
import re
import shutil
import time
from collections.abc import Callable, Iterator
from html import unescape
from pathlib import Path
from typing import Any

from tests.support import check, is_here, run, runnable, sum_of
from tests.dossier.audits import ENVIRONMENT, called, capture_of, check_page, dossier, record_of
from tests.dossier.test_daily import name_by_hand
from tests.dossier.test_evidence import key_of
from tests.dossier.test_verdicts import CLAIM

from dossier.fleet.machines import may_be
from dossier.fleet.statements import PAGES

DAY, FIRST = 86_400, 999_993_600
"""Seconds; and 2001-09-09T00:00:00Z."""
RIGHT, WIDE = "-1000..1000", "-8589934..8589934"
"""Ends in ticks: a sample that shows the bound, and one that doesn't."""
COUNTED = {"2001-09-09": "yes", "2001-09-10": "yes", "2001-09-11": "refuted", "2001-09-12": "not verified",
           "2001-09-13": "no evidence", "2001-09-14": "not counted"}
"""What the machine's days are. The other 359 of the year are missing."""


def day(machine: Path, number: int, ends: str, name: str = "", servers: int = 4, **changes: object) -> Path:
    """A folder of a day, by how many come before it since 2001-09-09, with a sample each ten minutes of each server."""
    begin = FIRST + DAY * number
    date = f"2001-09-{9 + number:02}"
    folder = machine / (name or date)
    folder.mkdir(parents=True)
    capture_of(folder / "f.pcap", *(f"{server}:{ends}@{begin + 600 * k}" for k in range(144)
                                    for server in range(1, servers + 1)))
    claim = {**CLAIM, "from": f"{date}T00:00:00Z", "to": f"2001-09-{10 + number:02}T00:00:00Z", "drift_ppb": 0,
             "bound_ns": 1_000_000, **changes}
    (folder / "claim.json").write_text(json.dumps(claim))
    return folder


def machine_of(place: Path) -> Path:
    """A machine with days of all kinds, audited."""
    own = place / "fleet" / "web 1"
    day(own, 0, RIGHT)
    day(own, 1, RIGHT)
    day(own, 2, WIDE)
    changed = day(own, 3, RIGHT)
    day(own, 4, RIGHT, servers=1)
    day(own, 5, RIGHT, client="192.0.2.11")
    twin = day(own, 0, RIGHT, name="2001-09-16")
    assert twin.name == "2001-09-16"
    dossier("audit", *sorted(own.iterdir()))
    record = changed / "audit.json"
    record.write_text(record.read_text().replace("192.0.2.4", "192.0.2.5"))
    return own


def test_year(place: Path) -> None:
    """The calendar's cells, the sums, the days that aren't shown, and what isn't counted."""
    own = machine_of(place)
    status, _, err = dossier("year", "--year", "2001", "--split", place / "pages", place / "fleet" / "web 1")
    check("year", run=((status, err), (0, b"")))
    text = (place / "pages" / f"{called(own)}.html").read_text()
    names = list(COUNTED)
    cells = re.findall(r'<(?:a|span) class="d ([a-z-]+)[^"]*"[^>]*title="(\S+): ([a-z ]+)', text)
    check("the cells of a year", number=(len(cells), 365),
          named=({date: words.strip() for _, date, words in cells if words.strip() != "missing"}, COUNTED),
          classes=([kind for kind, _, words in cells if kind != words.strip().replace(" ", "-")], []))
    links = [f"../fleet/web%201/{name}/" for name in names]
    rows = re.findall(r"<tr>(.*?)</tr>", text, flags=re.S)
    days = [row for row in rows if "data-label=\"Day\"" in row]
    check("days that aren't shown", rows=(len(days), 363), room=(sum('class="done"></td>' in row for row in days), 363),
          links=(set(re.findall(r'href="([^"#]+)"', text)), {*links, "index.html"}))
    others = text[text.index("Not counted") :]
    check("what isn't counted", twice=("2001-09-16: 2001-09-09 stands twice" in others
                                       or "2001-09-09: 2001-09-09 stands twice" in others, True),
          other=("2001-09-14: another claim or client" in others, True), number=(others.count("<li>"), 2))
    words = text.partition('class="statement">')[2].partition("</p>")[0]
    for said in ("The clock of 192.0.2.10", "within 1 ms of UTC", "From 2001-01-01 to 2001-12-31 this is shown on 2 of "
                 "365 days", "Not shown: 1 refuted, 1 no evidence, 1 not verified, 1 not counted, 359 missing",
                 "no more than 1 group was wrong", "no request left more than 0 ms before its record",
                 "no reply arrived more than that after its own",
                 "The longest time without a day that is shown is 251 days from 2001-01-01 on"):
        check(f"the statement: {said[:40]}", there=(said in words, True))
    check_page("the page of a machine's year", text, re.findall(r'href="([^"#]+)"', text))
    index = (place / "pages" / "index.html").read_text()
    check_page("the page of a year", index, [f"{called(own)}.html"] * 2)
    check("the sums of a year", line=(["2 of 365" in index, "251 from 2001-01-01" in index], [True, True]))
    lines = [line.split(" ", 3) for line in (place / "pages" / f"{called(own)}.days").read_text().splitlines()]
    paths = {f"../fleet/web 1/{name}" for name in [*names, "2001-09-16"]}
    check("the names of its days", number=(len(lines), 6), paths=({path for *_, path in lines} <= paths, True),
          by=([by for _, by, *_ in lines], [*["verified"] * 3, "-", "verified", "verified"]),
          by_hand=(lines[2][0], name_by_hand(own / "2001-09-11", "refutation.json report.txt envelope.txt")))


def test_other_days(place: Path) -> None:
    """A day that the second program disputes, and one that hasn't ended."""
    maybe = place / "second"
    runnable(maybe, "#!/bin/sh\necho verdict maybe\n")
    state = {**ENVIRONMENT, "XDG_STATE_HOME": str(place / "disputed"), "NTPAUDIT_SECOND": str(maybe)}
    other = place / "other"
    once = day(other, 1, RIGHT)
    dossier("audit", once, env=state)
    before = dossier("year", "--year", "2001", other, env=state)[1].decode()
    disputed = dossier("verify", "--second", once, env=state)[0]
    text = dossier("year", "--year", "2001", other, env=state)[1].decode()
    check("a day that the second program disputes", status=(disputed, 1), before=("1 of 365" in before, True),
          after=("0 of 365" in text, True), named=("1 disputed" in text, True),
          cell=('title="2001-09-10: disputed"' in text, True))
    begin = int(time.time()) // DAY * DAY + DAY
    tomorrow, after = (time.strftime("%Y-%m-%d", time.gmtime(begin + DAY * k)) for k in (0, 1))
    span: dict[str, Any] = {"from": f"{tomorrow}T00:00:00Z", "to": f"{after}T00:00:00Z"}
    dossier("audit", day(place / "ahead", 0, RIGHT, name=tomorrow, **span))
    text = dossier("year", "--year", tomorrow[:4], place / "ahead")[1].decode()
    said = f"<li>{tomorrow}: {tomorrow} hasn't ended yet</li>"
    check("a day that hasn't ended", named=(said in unescape(text), True), cell=(f'title="{tomorrow}' in text, False))
    check("another year, by its days", none=("0 of 365" in dossier("year", "--year", "2002", once)[1].decode(), True))


def test_strange_years(place: Path) -> None:
    """A folder of days is a stranger's: what isn't one is named, and nothing of it is shown."""
    own = machine_of(place)
    (place / "link").symlink_to(own)
    for name, folder, words in (("a link", place / "link", b"is a link"),
                                ("no folder", place / "none", b"no such folder")):
        status, _, err = dossier("year", "--year", "2001", folder)
        check(f"a year of {name}", status=(status, lambda found: found in (2, 4)), told=(words in err, True))
    changes: dict[str, Callable[[Path], object]] = {
        "audit.json is a FIFO": lambda path: run(["mkfifo", path]),
        "audit.json is rubbish": lambda path: path.write_text("{"),
        "audit.json is a link": lambda path: path.symlink_to("../2001-09-10/audit.json")}
    for name, change in changes.items():
        file = own / "2001-09-09" / "audit.json"
        kept = file.read_bytes()
        file.unlink()
        shutil.rmtree(own / "2001-09-16", ignore_errors=True)
        change(file)
        text = dossier("year", "--year", "2001", own)[1].decode()
        check(f"a year in which {name}", shown=("1 of 365" in text, True))
        file.unlink()
        file.write_bytes(kept)
    stranger = {**ENVIRONMENT, "XDG_STATE_HOME": str(place)}
    text = dossier("year", "--year", "2001", own, env=stranger)[1].decode()
    check("a year that nobody made here", shown=("0 of 365" in text, True), told=("6 not verified" in text, True))


def strange_statements(year: dict[str, Any], sums: str) -> Iterator[tuple[str, list[dict[str, Any]], str, str]]:
    """Statements that don't follow from a machine's days: what is wrong, all statements, all days, and what is said."""
    (machine,), more = year["machines"], "web 2) was right on each day. And that of ("
    odd = sums.replace(" verified ", "  ")
    many = "".join(f"{sums[:64]} verified ../fleet/web 1/{1000 + number}-01-01\n" for number in range(300))
    long = f"{sums[:64]} verified ../fleet/web 1{'/x' * 2048}/2001-09-09\n"
    other, follow = "which has another name", "doesn't follow from its days"
    for name, changes, days, said in (
            ("another machine's name", {"machine": "web 2",
                                        "statement": machine["statement"].replace("web 1", "web 2")}, sums, other),
            ("another machine's statement before its own", {
                "machine": f"{more}/{machine['machine']}",
                "statement": machine["statement"].replace("(", f"({more}/", 1)}, sums, follow),
            ("a sentence before a path", {"machine": f"{more}x/../fleet/web 1"}, sums, follow),
            ("a long path", {"sha256": sum_of(long.encode())}, long, "more than 4,096 characters"),
            ("more days shown than are", {"shown": 9}, sums, follow),
            ("lines that name nobody", {"sha256": sum_of(odd.encode())}, odd, "a file of days isn't one"),
            ("days that aren't there", {"sha256": sum_of(many.encode())}, many, "isn't the day that")):
        yield name, [{**machine, **changes}], days, said
    yield "one machine's days as those of two", [machine, {**machine, "machine": "web 2"}], sums, "there twice"


def test_signed_year(place: Path) -> None:
    """A signature on the statements is held to the days, and each day to its inputs."""
    if not is_here("ssh-keygen", "a year that is signed"):
        return
    own, pages, (key, allowed), signers = machine_of(place), place / "pages", key_of(place, "key"), place / "signers"
    signers.write_text(allowed)
    shutil.rmtree(own / "2001-09-12")
    dossier("year", "--year", "2001", "--split", pages, own)
    check("sign a year", run=(dossier("sign", "--key", key, pages)[:2], (
        0, f"{pages}: signed\n{pages}: ({PAGES})\n".encode())),
          again=(dossier("sign", "--key", key, pages)[0], 4))
    named, other = (pages, place / "fleet"), place / "fleet" / "web 2" / "2001-09-09"
    other.mkdir(parents=True)
    status, out, _ = dossier("verify", "--signers", signers, *named)
    lines = out.decode().splitlines()
    check("verify a year", status=(status, 1), days=(sum(": verified: " in line for line in lines), 7),
          beside=(f"{other}: ntpaudit-dossier: not audited" in lines, True),
          by=(any("by key@example.org" in line for line in lines), True),
          end=(f"{pages}: verified: its statements follow from the audits of its days" in lines, True),
          named=(lines[-1], f"{place / 'fleet'}: (a year's days are in it)"),
          besides=(dossier("verify", *named, own)[1].decode().count(": verified: "), 7),
          relative=(dossier("verify", "--signers", signers, "pages", "fleet", cwd=place)[:2],
                    (status, out.replace(f"{place}/".encode(), b""))))
    run(["sh", "-c", "seq 100001 | xargs touch"], cwd=place / "fleet")
    check("a folder with too much in it", told=(
        f"{place / 'fleet'}: ntpaudit-dossier: more than 100,000 files are in the folder"
        in dossier("verify", *named)[1].decode().splitlines(), True))
    run(["sh", "-c", "seq 100001 | xargs rm"], cwd=place / "fleet")
    status, out, _ = dossier("verify", pages)
    check("a year whose days are in no folder that is named", status=(status, 2), days=(out.count(b"2001-09-09"), 1),
          told=(out.decode().partition("\n")[0], f"{pages}: ntpaudit-dossier: {own}/2001-09-09 is in no folder that is "
                "named: if it may be read, name the folder of its machine too"))
    change_year(own, pages, signers)


def change_year(own: Path, pages: Path, signers: Path) -> None:
    """Statements, days and audits that are changed behind a signature are seen."""
    named, text, days = (pages, own.parent), (pages / "year.json").read_text(), pages / f"{called(own)}.days"
    (pages / "year.json").write_text(text.replace("shown on 2 of", "shown on 9 of"))
    status, out, _ = dossier("verify", "--signers", signers, *named)
    check("a statement that was changed", status=(status, 1), told=(b"the signature doesn't fit" in out
                                                                    and b"doesn't follow from its days" in out, True))
    year, sums = json.loads(text), days.read_text()
    for name, machines, rows, words in strange_statements(year, sums):
        (pages / "year.json").write_text(json.dumps({**year, "machines": machines}))
        days.write_text(rows)
        status, out, _ = dossier("verify", *named)
        lines = out.decode().splitlines()
        check(f"a year with {name}", status=(status, lambda status: status in (1, 2)), few=(len(lines) < 20, True),
              told=(any(words in line for line in lines), True), yes=(any("verified: its" in line for line in lines),
                                                                      False))
    (pages / "year.json").write_text(text)
    days.write_text(sums)
    record = own / "2001-09-10" / "audit.json"
    with open(record.parent / "f.pcap", "ab") as opened:
        opened.write(b"\0")
    status, out, _ = dossier("verify", *named)
    check("a day that was changed", status=(status, 1), told=(b"2001-09-10: f.pcap isn't the file" in out, True))
    record.write_text(record.read_text().replace('"samples": 576', '"samples": 577'))
    check("an audit that was changed", told=(f"{record.parent} is verified by {days.name}, and here not verified"
                                             in dossier("verify", *named)[1].decode(), True))
    text = record.read_text()
    at = text.index('"report.txt": "') + len('"report.txt": "')
    record.write_text(text[:at] + ("1" if text[at] == "0" else "0") + text[at + 1:])
    check("a sum that was changed", told=(f"{record.parent} isn't the day that {days.name} names"
                                          in dossier("verify", *named)[1].decode(), True))


def test_pages(place: Path) -> None:
    """A page that isn't as it was when its year was made, one that is gone and one that came are named; of a year that
    has no sums of pages it is said that nobody looked."""
    own, pages = place / "fleet" / "web 1", place / "pages"
    dossier("audit", day(own, 0, RIGHT))
    dossier("year", "--year", "2001", "--split", pages, own)
    asked = ["verify", pages, place / "fleet"]
    check("pages as they were made", said=(b"(its pages are those of which year.json has the sums: they weren't made "
                                           b"again)" in dossier(*asked)[1], True))
    for name, data in (("index.html", b"all is well"), (f"{called(own)}.html", b""), (f"{called(own)}.html", None),
                       ("another.html", b"another")):
        page = pages / name
        kept = page.read_bytes() if page.exists() else None
        page.unlink() if data is None else page.write_bytes(data)
        status, out, _ = dossier(*asked)
        said = f"{pages}: {name} isn't the page that was signed: year.json has another sum, or none"
        check(f"{name} is {data!r}", status=(status, 1), same=(b"pages are those" in out, False),
              told=(said in out.decode(), True))
        page.unlink() if kept is None else page.write_bytes(kept)
    year = json.loads((pages / "year.json").read_text())
    year.pop("pages", None)
    (pages / "year.json").write_text(json.dumps(year))
    (pages / "index.html").write_text("all is well")
    check("a year without sums of pages", said=(
        f"{pages}: (its pages weren't looked at: `year --split` makes them again in another folder)"
        in dossier(*asked)[1].decode().splitlines(), True))


def test_namesakes(place: Path) -> None:
    """Of two machines whose folders have one name, none stands for the other; and a fleet may be brought elsewhere."""
    one, two = (place / "fleet" / site / "web-1" for site in ("siteA", "siteB"))
    dossier("audit", day(one, 0, WIDE), day(two, 0, RIGHT))
    said = "verified: its statements follow from the audits of its days"
    ways: list[tuple[str, list[Any]]] = [
        ("pages", [one, two]), ("fleet/pages", [two, one]), ("pages2", ["fleet/siteA/web-1", "fleet/siteB/web-1"]),
        ("pages3", ["./fleet/siteA/../siteA/web-1/", two])]
    for number, (pages, words) in enumerate(ways):
        dossier("year", "--year", "2001", "--split", place / pages, *words, cwd=place)
        shutil.copytree(place / "fleet", place / f"other {number}" / "fleet")
        if not pages.startswith("fleet"):
            shutil.copytree(place / pages, place / f"other {number}" / pages)
        for own in (place, place / f"other {number}"):
            check(f"{pages} in {own.name}", said=(
                f"{own / pages}: {said}" in dossier("verify", own / pages, own)[1].decode(), True))
        file = place / pages / "year.json"
        year = json.loads(file.read_text())
        bad, good = sorted(year["machines"], key=lambda stated: "siteB" in stated["machine"])
        file.write_text(json.dumps({**year, "machines": [{**good, "machine": bad["machine"], "statement": good[
            "statement"].replace(good["machine"], bad["machine"])}]}))
        out = dossier("verify", place / pages, place)[1].decode()
        check(f"{pages}: another's days", told=(f"{two}, which has another name" in out, True))
        shutil.rmtree(place / pages)
    check("a hidden folder's name", may_be=(may_be("web-1", "/x/.web-1", "/x"), False),
          is_so=(may_be("../fleet/web-1", "/x/fleet/web-1", "/x/pages"), True))


def test_copied_years(place: Path) -> None:
    """A known audit in another machine's folder, another machine's day, a statement on no days, and the last year."""
    if not is_here("ssh-keygen", "a year that is signed"):
        return
    fleet, pages, key = place / "fleet", place / "pages", key_of(place, "key")[0]
    for number in (0, 1):
        dossier("audit", day(fleet / "web 1", number, RIGHT), day(fleet / "web 2", number, WIDE, bound_ns=1_500_000))
    known, other = fleet / "web 1" / "2001-09-09", fleet / "web 2" / "2001-09-09"
    kept = (other / "audit.json").read_bytes()
    shutil.copy(known / "audit.json", other)
    text = dossier("year", "--year", "2001", fleet / "web 2")[1].decode()
    check("a known audit.json beside another claim", shown=("0 of 365" in text, True),
          cell=('title="2001-09-09: not verified"' in text, True))
    (other / "audit.json").write_bytes(kept)
    shutil.copytree(known, fleet / "web-\u043c\u043e" / known.name)
    dossier("year", "--year", "2001", "--split", pages, *sorted(fleet.iterdir()))
    texts = [unescape((pages / f"{called(path)}.html").read_text()) for path in sorted(fleet.iterdir())]
    twins = [re.findall(r"A recording of these days is that of (.*?) too", text) for text in texts]
    check("a day of another machine", named=(twins, [[rf'"{fleet}/web-\u043c\u043e"'], [], [f'"{fleet}/web 1"']]),
          index=((pages / "index.html").read_text().count("has a recording of"), 2))
    check("a copy, signed and verified", sign=(dossier("sign", "--key", key, pages)[0], 0),
          said=(b"verified: its statements follow" in dossier("verify", pages, fleet)[1], True))
    year = json.loads((pages / "year.json").read_text())
    silent = {**year["machines"][0], "statement": texts[0].partition('class="statement">')[2].partition("</p>")[0]}
    nothing = {**silent, "machine": "web 9", "file": "empty.days", "sha256": sum_of(b"")}
    (pages / "empty.days").write_bytes(b"")
    silent["statement"] = re.sub("A recording .*? copy[.] ", "", silent["statement"])
    for name, machines in (("a copy that isn't said", [silent, *year["machines"][1:]]),
                           ("a statement on no days", [nothing]),
                           ("a sentence on no days", [{
                               **nothing, "machine": "web 1: shown. Of web 9", "shown": 0,
                               "statement": "Of web 1: shown. Of web 9 nothing is known here."}])):
        (pages / "year.json").write_text(json.dumps({**year, "machines": machines}))
        out = dossier("verify", pages, fleet)[1]
        check(f"a year with {name}", told=(b"doesn't follow from its days" in out, True))
    dossier("year", "--year", "2002", "--split", place / "2002", fleet / "web 1")
    check("a year without days", verified=(dossier("verify", place / "2002")[:2], (
        0, f"{place}/2002: verified: its statements follow from the audits of its days\n{place}/2002: (its pages are "
           "those of which year.json has the sums: they weren't made again)\n".encode())))
    status, _, err = dossier("year", "--year", "9999", "-o", place / "9999.html", fleet / "web 1")
    check("the last year", run=((status, err), (0, b"")))


def test_midnight(place: Path) -> None:
    """A day ends with the moment at which the next begins, so that no moment lies between two days."""
    claim = {**CLAIM, "from": "2001-09-09T00:00:00Z", "to": "2001-09-12T00:00:00Z", "drift_ppb": 0}
    folder = place / "days"
    folder.mkdir()
    capture_of(folder / "f.pcap", *(f"{server}:{RIGHT}@{FIRST + 600 * k}" for k in range(432)
                                    for server in (1, 2, 3, 4)))
    (folder / "claim.json").write_text(json.dumps(claim))
    dossier("audit", "--days", folder)
    other = folder / "2001-09-25" / "report.txt"
    other.parent.mkdir()
    other.touch()
    status, out, _ = dossier("verify", folder)
    check("days beside a report", run=((status, out.decode().partition(":")[2].partition(":")[0]),
                                       (1, f" {other.relative_to(folder)} isn't of this audit")))
    shutil.rmtree(other.parent)
    own = folder / "2001-09-10" / "audit.json"
    own.touch()
    check("a day with an audit of its own", run=(dossier("audit", "--days", "--again", folder)[0], 2),
          left=(own.read_bytes(), b""))
    own.unlink()
    record, own = (folder / "audit.json").read_text(), folder / "2001-09-10" / "claim.json"
    left = own.read_text()
    own.write_text(left.replace("60000000", "59999999"))
    mine = own.read_bytes()
    for words in (("--days",), ()):
        status, out, _ = dossier("audit", *words, folder)
        check(f"a day's claim that a person wrote, and audit {words}", run=((status, own.read_bytes()), (4, mine)),
              said=("2001-09-10/claim.json is what an audit leaves, and none left this one" in out.decode(), True))
    own.write_text(left)
    (folder / "audit.json").write_text(record)
    claims = [entry["claim"] for entry in record_of(folder)["entries"]]
    spans = [(own["from"], own["to"]) for own in claims]
    check("days join", ends=([end for _, end in spans[:-1]], [begin for begin, _ in spans[1:]]), number=(len(spans), 3),
          all=((spans[0][0], spans[-1][1]), (claim["from"], claim["to"])))
    for own in sorted(path for path in folder.iterdir() if path.is_dir()):
        pieces = json.loads((own / "certificate.json").read_text())["pieces"]
        end = FIRST + DAY * (int(own.name[-2:]) - 8)
        check(f"the certificate of {own.name}", end=(pieces[-1]["upto"], end * 2**32))
