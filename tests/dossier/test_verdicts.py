"""Tests of verdicts that are more than the program's answer: a yes against which the folder's own evidence speaks, what
kind of evidence is missing, and what becomes of many folders together.
"""
import csv
import io
import json
import os
import re
from pathlib import Path
from typing import Any

from tests.support import DATA, ROOT, check, run
from tests.dossier.audits import (ENVIRONMENT, PROGRAM, called, capture_of, check_page, dossier, folder_of, record_of,
                                  rows, table)
from tests.dossier.leaps import LATER, leap_list

FIRST = 1_000_000_000
GOOD = [f"{server}:-1000..1000@{FIRST + second}" for second in (10, 40) for server in (1, 2, 3, 4)]
CLAIM: dict[str, Any] = {"client": "192.0.2.10", "servers": [f"192.0.2.{k}" for k in (1, 2, 3, 4)], "false_max": 1,
                         "from": "2001-09-09T01:46:45Z", "to": "2001-09-09T01:47:20Z", "bound_ns": 60_000_000,
                         "drift_ppb": 100_000, "reading_ns": 0}
SETUP: dict[str, Any] = {
    "kind": "drift", "oscillator_ppb": 100_000, "drift_ppb": 600_000, "made": "2001-09-09T00:00:00Z",
    "configuration": {"client": "chronyd", "files": {}, "slew_ppb": 500_000}, "tracking": None}


def logged(*times: str) -> dict[str, Any]:
    """What the client logged of its clock: steps at these times."""
    return {"files": {}, "updates": 9, "first": "2001-09-09T00:00:00Z", "last": "2001-09-09T03:00:00Z",
            "least_ppm": "0.000", "greatest_ppm": "0.000", "change_ppm": "0.000",
            "steps": [[time, "0.5", "it says so"] for time in times]}


def measured(greatest: int) -> dict[str, Any]:
    return {"packets": 1000, "busy": 0, "late": 3, "greatest_ns": greatest, "median_ns": 2, "reading_ns": 100_000,
            "tool": "tcpdump 4.99", "machine": "web-1", "kernel": "6.1", "made": "2001-09-09T00:00:00Z", "kind": "late"}


def good_folder(place: Path, name: str, evidence: dict[str, Any] | None = None, words: list[str] = GOOD, /,
                **changes: object) -> Path:
    """A folder whose capture shows its claim, with evidence for a premise beside it."""
    folder = folder_of(place, name, capture_of(place / f"{name}.pcap", *words), **{**CLAIM, **changes})
    for premise, value in (evidence or {}).items():
        (folder / "evidence.json").write_text(json.dumps({premise: f"{premise}.json"}))
        (folder / f"{premise}.json").write_text(json.dumps(value))
    return folder


def test_touching(place: Path) -> None:
    """By hand: 1,164 ns are 4,999.3 ticks, so a clock that may have been off by just 4,999 isn't known to have been off
    by more, and with 5,000 it is; and it is within the bound, where it can't have been off by more."""
    for low, high, verdict, why in ((4999, 9000, "refuted", "exceeds"), (5000, 9000, "refuted", "off"),
                                    (-9000, -4999, "refuted", "exceeds"), (-9000, -5000, "refuted", "off"),
                                    (-4999, 4999, "yes", ""), (-4999, 5000, "refuted", "exceeds"),
                                    (-5000, 4999, "refuted", "exceeds")):
        name = f"{low}..{high}"
        words = [f"{server}:{name}@{FIRST + second}" for second in (10, 40) for server in (1, 2, 3, 4)]
        folder = good_folder(place, name, None, words, bound_ns=1164, drift_ppb=0)
        dossier("audit", "--metrics", place / "prom", folder)
        entry = record_of(folder)["entries"][0]
        is_off = re.findall(r"^ntpaudit_clock_off\{.*\} (\d)$", (place / "prom").read_text(), flags=re.M)
        check(f"an error from {low} to {high} ticks beside a bound of 4,999", verdict=(entry["verdict"], verdict),
              why=(entry.get("reason", {}).get("why", ""), why), is_off=(is_off, [str(int(why == "off"))]),
              drawn=(" 35 pieces beyond the bound." in dossier("page", folder)[1].decode(), verdict == "refuted"))


AGAINST: dict[str, Any] = {
    "drift": ({"drift": SETUP}, {}, "may move the clock by 600,000 parts in 10^9", "Grant as much drift"),
    "reading": ({"reading": measured(70_000)}, {"reading_ns": 60_000}, "as much as 0.07 ms after they left",
                "Grant as much as was measured"),
    "step": ({"drift": {**SETUP,
                        "tracking": logged("2001-09-09T01:47:00Z", "2001-09-09T01:46:50Z",
                                           "2001-09-09T02:00:00Z")}}, {"drift_ppb": 600_000},
             "logged a step of the clock at 2001-09-09 01:46:50, the first of 2 steps", "before the step")}
"""Of each kind of evidence against a yes: the evidence, what is changed of the claim, what is said, and what to do."""
IN_SHORT = {"drift": "more drift than is granted", "reading": "a greater allowance than is granted",
            "step": "a logged step", "leap-second": "a leap second", "leap-ends": "the list of leap seconds has ended"}


def test_unsupported(place: Path) -> None:
    """A yes against which the folder's own evidence speaks has a badge of its own and isn't a yes, anywhere; with
    other evidence it is one. (Of drift and steps histories are held to that.)"""
    lists: dict[str, Any] = {"leap-second": (leap_list(place / "second.list", LATER, (FIRST + 30, 11)),
                                             "A leap second at the end of", "Claim another span"),
                             "leap-ends": (leap_list(place / "ended.list", FIRST - 86_400),
                                           "was good until 2001-09-08 only", "--leap-seconds")}
    cases: dict[str, Any] = {
        kind: (evidence, changes, said, to_do, ()) for kind, (evidence, changes, said, to_do) in AGAINST.items()}
    cases |= {kind: ({}, {}, said, to_do, ("--leap-seconds", list_)) for kind, (list_, said, to_do) in lists.items()}
    for kind, (evidence, changes, said, to_do, words) in cases.items():
        folder = good_folder(place, kind, evidence, **changes)
        status, out, _ = dossier("audit", *words, folder)
        record, row = record_of(folder)["entries"][0], table(folder, words=words)[0]
        text = dossier("page", *words, folder)[1].decode()
        page = "".join(check_page(f"a page of evidence against a yes: {kind}", text).words)
        line = next(csv.DictReader(io.StringIO(dossier("page", "--csv", *words, folder)[1].decode())))
        check(f"evidence against a yes: {kind}", status=(status, 1),
              line=((out.decode().startswith(f"unsupported   {folder}: "), out.decode().partition(" ms (")[2]),
                    (True, f"{IN_SHORT[kind]})\n")), record=((record["verdict"], record["reason"], kind
                                                              in [warning["kind"] for warning in record["warnings"]]),
                                                             ("unsupported", {"why": "evidence"}, True)),
              json=((row["verdict"], said in row["reason"], to_do in row["to_do"]), ("unsupported", True, True)),
              csv=((line["verdict"], said in line["reason"]), ("unsupported", True)),
              badge=('class="verdict unsupported"' in text and 'class="verdict yes"' not in text, True),
              said=("It isn't shown that" in page and said in page, True),
              certificate=((folder / "certificate.json").exists() and "ntpaudit check claim.json" in page, True),
              verified=(dossier("verify", *words, folder)[0], 1), again=(dossier("audit", *words, folder)[0], 1))
    folder = good_folder(place, "supported", {"reading": measured(60_000)}, reading_ns=60_000)
    check("evidence for a yes", status=(dossier("audit", folder)[0], 0), row=(table(folder)[0]["verdict"], "yes"))


def test_oscillator(place: Path) -> None:
    """A claim whose drift is an oscillator's alone says so, unless the folder has evidence of the client."""
    slow = {**SETUP, "drift_ppb": 90_000, "oscillator_ppb": 80_000,
            "configuration": {"client": "chronyd", "files": {}, "slew_ppb": 10_000}}
    for name, evidence, drift, is_warned in rows(("alone", {}, 100_000, True), ("with more", {}, 600_000, False),
                                                 ("with evidence", {"drift": slow}, 100_000, False)):
        folder = good_folder(place, name, evidence, drift_ppb=drift)
        status, row = dossier("audit", folder)[0], table(folder)[0]
        text = "".join(check_page(f"a page of an oscillator {name}", dossier("page", folder)[1].decode()).words)
        check(f"an oscillator {name}", status=(status, 0),
              json=(any("corrections are NOT in it" in words for words in row["warnings"]), is_warned),
              page=("corrections are NOT in it" in text, is_warned))


def test_no_audit(place: Path) -> None:
    """A page of folders none of which has an audit has status 2, with a line; and so have help and version theirs."""
    bare = good_folder(place, "bare")
    for form in ((), ("--json",), ("--csv",)):
        status, out, err = dossier("page", *form, bare, place / "missing")
        check(f"a page of no audit {form}", status=(status, 2),
              error=(err, b"ntpaudit-dossier: none of these folders has an audit\n"), output=(bool(out), True))
    refused = good_folder(place, "refused")
    (refused / "f.pcap").unlink()
    dossier("audit", refused)
    check("a page of a refusal that was audited", status=(dossier("page", refused, bare)[0], 0))
    check("help", same=(dossier("help", "page"), dossier("page", "--help")), all=(dossier("help"), dossier("--help")),
          unknown=(dossier("help", "nothing")[0], 5), none=(dossier()[0], 5))
    status, out, err = dossier("--version")
    program = run([PROGRAM, "--version"])[1].splitlines()[0]
    check("version", run=((status, err), (0, b"")),
          lines=(out.splitlines()[0], b"ntpaudit-dossier, form 10 of audit.json"),
          program=(out.splitlines()[1].startswith(program + b", SHA-256 "), True))


def test_interleaved(place: Path) -> None:
    """A server that answers in interleaved mode is named by draft and page: by what a real chronyd sent."""
    capture = DATA / "client/interleaved.pcap"
    said = "10.9.0.1 mostly answers in interleaved mode, which can't be used: take `xleave` out of its line"
    status, out, err = dossier("draft", "--client", "10.9.0.2", capture)
    check("a draft of interleaved mode", status=(status, 0), said=(said.replace("`", "") in err.decode(), True),
          named=("10.9.0.3 mostly" in err.decode(), False))
    claim = {"client": "10.9.0.2", "servers": ["10.9.0.1", "10.9.0.3"], "false_max": 0,
             **{name: json.loads(out)[name] for name in ("from", "to")}, "bound_ns": 10**9}
    for name, changes, is_warned in rows(("both", {}, True), ("one", {"servers": ["10.9.0.1"]}, True),
                                         ("other", {"servers": ["10.9.0.3"]}, False)):
        folder = folder_of(place, name, capture, **{**CLAIM, **claim, **changes})
        status = dossier("audit", folder)[0]
        row, text = table(folder)[0], dossier("page", folder)[1].decode()
        shown = "".join(check_page(f"a page of interleaved mode: {name}", text).words)
        check(f"interleaved mode: {name}", json=(any(said in words for words in row["warnings"]), is_warned),
              page=("10.9.0.1 mostly answers in interleaved mode" in shown, is_warned),
              verified=(dossier("verify", folder)[0], status))


def test_split(place: Path) -> None:
    """A page of the table, and a page for each folder, linked; whatever stands in the folders and in the place."""
    folders = [good_folder(place, "good"), good_folder(place, "<b>wrong</b>".replace("/", "-"), bound_ns=1),
               place / "missing"]
    days = folder_of(place, "days", DATA / "clients-us.pcap", DATA / "clients-us.claim.json",
                     **{"from": "2026-11-22T07:03:36Z", "to": "2026-11-24T00:00:00Z"})
    dossier("audit", *folders)
    dossier("audit", "--days", days)
    made = place / "made" / "pages"
    names = [f"{called(folder)}.html" for folder in (*folders, days)]
    check("page --split", run=(dossier("page", "--split", made, *folders, days), (0, b"", b"")),
          files=(sorted(path.name for path in made.iterdir()), sorted([*names, "index.html", "pages.sums"])))
    listed = run(["sha256sum", "-c", "--quiet", "pages.sums"], cwd=made)
    check("the sums of pages", run=(listed, (0, b"", b"")))
    index = (made / "index.html").read_text()
    check_page("the page of the table", index, [names[number] for number in (1, 3, 3, 2, 0)])
    check("the page of the table alone", articles=(index.count("<article"), 0),
          badges=([index.count(f'class="verdict {kind}"') for kind in ("yes", "refuted", "no-evidence", "refused")],
                  [2, 3, 2, 2]), brief=(bool(re.search(r">\d warnings?<", index)), True))
    whole = dossier("page", *folders, days)[1].decode()
    for number, articles in ((0, 1), (1, 1), (2, 1), (3, 2)):
        text = (made / names[number]).read_text()
        check_page(f"the page of folder {number}", text, ["index.html"])
        own = re.findall(r"<article.*?</article>", text, flags=re.S)
        check(f"the page of folder {number} has what the one page has", count=(len(own), articles),
              same=(all(article in whole for article in own), True))
    check("page --split again", run=(dossier("page", "--split", made, folders[0])[0], 0),
          articles=((made / names[0]).read_text().count("<article"), 1),
          files=(sorted(path.name for path in made.iterdir()), sorted([names[0], "index.html", "pages.sums"])))


def test_split_again(place: Path) -> None:
    """Pages in a place where something else stands: what wasn't left there stays, and no link is followed."""
    good, made, victim = good_folder(place, "good"), place / "pages", place / "victim"
    names = [f"{called(good)}.html", "mine.html"]
    dossier("audit", good)
    made.mkdir()
    (made / names[1]).write_text("mine")
    (made / "pages.sums").write_text(f"{'0' * 64}  {names[1]}\n{'0' * 64}  ../{place.name}\n")
    dossier("page", "--split", made, good)
    check("page --split beside what it didn't leave", kept=((made / names[1]).read_text(), "mine"))
    victim.write_text("victim")
    for name, make in rows(("index.html", lambda path: path.symlink_to(victim)), (names[0], os.mkfifo)):
        (made / name).unlink()
        make(made / name)
    check("page --split over a link and a FIFO", run=(dossier("page", "--split", made, good)[0], 0),
          victim=(victim.read_text(), "victim"),
          files=([(made / name).is_file() and not (made / name).is_symlink() for name in ("index.html", names[0])],
                 [True] * 2), left=([path.name for path in made.iterdir() if path.name.startswith(".")], []))
    (place / "file").write_text("kept")
    status, _, err = dossier("page", "--split", place / "file", good)
    check("page --split into a file", status=(status, 4), kept=((place / "file").read_text(), "kept"),
          line=((b"can't be written" in err, err.count(b"\n")), (True, 1)),
          others=([dossier("page", "--split", made, *words)[0] for words in (
              ("-o", place / "x", good), ("--json", good), (place / "missing",))], [5, 5, 2]))


def test_by_covers(place: Path) -> None:
    """Four servers, one of which creeps away: a certificate by covers is a yes, and has no least bound of others."""
    (place / "creeping.pcap").write_bytes(run([ROOT / "tests/tools/creeping", "33"])[1])
    folder = folder_of(place, "creeping", place / "creeping.pcap", **{
        **CLAIM, "servers": [f"192.0.2.{k}" for k in (101, 102, 103, 104)], "from": "2023-11-14T22:13:20Z",
        "to": "2023-11-14T22:47:28Z", "bound_ns": 9_600_000, "drift_ppb": 15_000})
    status, out, _ = dossier("audit", folder)
    entry, page = record_of(folder)["entries"][0], dossier("page", folder)[1].decode()
    check("a yes by covers", status=(status, 0), verdict=(entry["verdict"], "yes"), least=(entry["least_ns"], None),
          line=(out.decode().endswith(": shown by covers, claimed 9.6 ms\n"), True),
          said=("what else the claim grants is true. This is shown by covers: " in page, True),
          caught=("192.0.2.104 was wrong: it contradicts 192.0.2.101, 192.0.2.102 and 192.0.2.103, at 2023-11-14 "
                  "22:31:28 and 2023-11-14 22:41:04." in page, True),
          verified=(dossier("verify", folder)[0], 0), lesser=("lesser bound" in page, False),
          judged=((folder / "report.txt").read_text().splitlines()[-2:], ["wrong 192.0.2.104", "verdict yes"]))
    three = {**ENVIRONMENT, "NTPAUDIT_JUDGE": str(ROOT / "dist/ntpaudit-judge")}
    run_of_three = dossier("verify", "--second", folder, env=three)
    check("a yes by covers, by three programs", run=(run_of_three[0], 0),
          said=(b"judged by three programs" in run_of_three[1], True))


def test_many_together(place: Path) -> None:
    """A missing folder doesn't hide a wrong clock, and the worst folder comes first."""
    good, wrong = good_folder(place, "good"), good_folder(place, "wrong", bound_ns=1)
    off = [word.replace("4:-1000..1000", "4:900000000..900001000") for word in GOOD]
    apart, nothing = good_folder(place, "apart", None, off), good_folder(place, "nothing", client="192.0.2.11")
    contrary, refused = good_folder(place, "contrary", {"drift": SETUP}), good_folder(place, "refused")
    missing = place / "missing"
    (refused / "f.pcap").write_bytes(b"")
    folders = [good, apart, missing, refused, nothing, contrary, wrong]
    check("the status of many", all=(dossier("audit", *folders)[0], 1),
          jobs=(dossier("audit", "--again", "--jobs", "2", *folders)[0], 1),
          faults=(dossier("audit", good, missing, refused)[0], 4), refused=(dossier("audit", good, refused)[0], 2),
          fine=(dossier("audit", good, apart)[0], 0), missing=(dossier("verify", missing, good)[0], 4))
    order = ["wrong", "contrary", "nothing", "missing", "refused", "good", "apart"]  # (the capture of good is a copy)
    rows = json.loads(dossier("page", "--json", *folders)[1])
    lines = list(csv.DictReader(io.StringIO(dossier("page", "--csv", *folders)[1].decode())))
    text = dossier("page", *folders)[1].decode()
    check_page("a page with the worst first", text)
    names = [row["machine"].rpartition("/")[2] for row in rows]
    check("the worst folder first", json=(names, order),
          csv=([line["machine"].rpartition("/")[2] for line in lines], order),
          page=(sorted(order, key=lambda name: text.index(f"/{name}</a>")), order),
          articles=(sorted(order, key=lambda name: text.index(f"<h2>{place / name} ")), order))
    seen = list(dict.fromkeys(row["verdict"].replace(" ", "-") for row in rows))
    check("the lines of one verdict alone", places=(sorted(re.findall(r'id="only-([a-z-]+)"', text)), sorted(seen)),
          links=(sorted(re.findall(r'href="#only-([a-z-]+)"', text)), sorted(seen)),
          lines=(re.findall(r'<tbody class="of-([a-z-]+)"', text), [row["verdict"].replace(" ", "-") for row in rows]),
          hidden=([kind for kind in seen
                   if f"#only-{kind}:target~.audits tbody:not(.of-{kind}){{display:none}}" not in text], []))
