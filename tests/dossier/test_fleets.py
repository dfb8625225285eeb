"""Tests of a year that is brought together from machines that sign, and verified in each way: all again, by answers,
by a sample, and whether it is as it was signed.
"""
import hashlib
import json
import os
import random
import re
import shutil
import sys
from fractions import Fraction
from math import comb
from pathlib import Path
from typing import Any

from tests.support import ROOT, check, is_here, run, runnable
from tests.dossier.audits import ENVIRONMENT, KEEP, called, capture_of, dossier, match_of, stand_in
from tests.dossier.test_evidence import key_of
from tests.dossier.test_verdicts import measured
from tests.dossier.test_years import DAY, FIRST, RIGHT, WIDE, day
from tests.tools.wire import records_of

CHANGES = int(os.environ.get("CHANGES", 120))
"""How many random bytes of a signed year are changed; 5,000 by hand."""


def machine(place: Path, name: str, number: int = 2, ends: str = RIGHT, **changes: Any) -> Path:
    """A machine with days from 2001-09-09 on, the last of which isn't shown."""
    for k in range(number):
        day(place / name, k, ends if k < number - 1 else WIDE, **changes)
    return place / name


def days_of(*machines: Path) -> list[Path]:
    return sorted(path for one in machines for path in one.iterdir())


def signed_fleet(place: Path) -> tuple[Path, list[Path], dict[str, Any]]:
    """Two machines that audited and signed their days by keys of their own; and what knows nothing of them."""
    fleet, allowed = place / "fleet", ""
    for number, name in enumerate(("web-1", "web-2")):
        own = {**ENVIRONMENT, "XDG_STATE_HOME": str(place / f"state {name}")}
        days = days_of(machine(fleet, name, client=f"192.0.2.{10 + number}") if not number else machine(fleet, name, 3))
        key, line = key_of(place, name)
        dossier("audit", *days, env=own)
        dossier("sign", "--key", key, *days, env=own)
        allowed += line.replace(f"{name}@example.org", name)
    signers = place / "signers"
    signers.write_text(allowed + key_of(place, "ann")[1])
    return signers, [fleet / "web-1", fleet / "web-2"], {**ENVIRONMENT, "XDG_STATE_HOME": str(place / "here")}


def test_signed_days(place: Path) -> None:
    """A day that its machine signed counts, apart from those that are verified here, and no other's key does."""
    if not is_here("ssh-keygen", "a fleet that signs"):
        return
    signers, (one, two), here = signed_fleet(place)
    asked = ["year", "--year", "2001", "--split", place / "pages"]
    dossier(*asked, one, two, env=here)
    index = (place / "pages" / "index.html").read_text()
    check("a fleet without its signers", shown=(index.count(">0 of 365"), 2))
    dossier("verify", one / "2001-09-09", env=here)
    dossier(*asked, "--signers", signers, one, two, env=here)
    index, page = ((place / "pages" / f"{name}.html").read_text() for name in ("index", called(one)))
    words = page.partition('class="statement">')[2].partition("</p>")[0]
    text = " ".join(re.sub("<.*?>", " ", index).split())
    check("a fleet by its signers", shown=([index.count(f">{k} of 365") for k in (1, 2)], [1, 1]),
          counts=(("1 signed by web-1" in index, "3 signed by web-2" in index), (True, True)),
          totals=("3 are shown: 1 made or verified here, and 2 by the signature of their machine alone" in text, True),
          cells=(re.findall(r'title="2001-09-(09|10): [a-z]+(?:, least bound \S+ ms)?(, signed by web-1)?"', page),
                 [("09", ""), ("10", ", signed by web-1")]),
          statement=("1 day is signed by web-1, and nobody made it again where this was put together" in words, True))
    lines = (place / "pages" / f"{called(two)}.days").read_text().splitlines()
    shutil.copytree(two / "2001-09-11", one / "2001-09-11")
    dossier(*asked, "--signers", signers, one, env=here)
    text = (place / "pages" / f"{called(one)}.html").read_text()
    check("a day that another machine signed", cell=('title="2001-09-11: not' in text, True),
          by=([line.split(" ")[1] for line in lines], ["web-2"] * 3), pages=(
              {path.name for path in (place / "pages").iterdir()},
              {"index.html", "year.json", "pages.sums", f"{called(one)}.html", f"{called(one)}.days"}))
    shutil.rmtree(one / "2001-09-11")
    dossier(*asked, "--signers", signers, one, two, env=here)
    sign_fleet(place, signers, [one, two], here)


def sign_fleet(place: Path, signers: Path, machines: list[Path], here: dict[str, Any]) -> None:
    """The statements of a fleet are signed, and said to be as they were signed, until something is changed."""
    one, two = machines
    signing = ["sign", "--key", place / "ann"]
    check("a year with days of others, signed", without=(dossier(*signing, place / "pages", env=here)[0], 1),
          with_=(dossier(*signing, "--signers", signers, place / "pages", env=here)[0], 0))
    again = dossier("year", "--year", "2001", "--split", place / "pages", one, env=here)
    check("what is signed isn't replaced", status=(again[0], 5),
          said=(b"is signed, so nothing is replaced" in again[2], True))
    beside = dossier("audit", place / "pages", env=here)
    check("nothing is written beside it", status=(beside[0], 5), left=((place / "pages/audit.json").exists(), False),
          said=(b"year.json is there, so nothing is written beside it" in beside[1], True))
    words_: list[str | Path] = ["verify", "--signers", signers, "--as-signed"]
    named = [place / "pages", place / "fleet"]
    status, out, _ = dossier(*words_, *named, env={**here, "XDG_STATE_HOME": str(place / "auditor")})
    last = out.decode().splitlines()[-1]
    signed = re.findall(r"(\S+): \(signed at \S+ by (\S+), with the key", out.decode())
    own = [*((str(path), path.parent.name) for path in days_of(one, two)), (str(place / "pages"), "ann@example.org")]
    check("as it was signed", unseen=(b"wasn't looked at" in out, False), by=(signed, own),
          status=(status, 0), last=(last.partition(";")[0], "all is as it was signed"),
          bad=([f"{one} 2001-09-10 refuted" in last, f"{two} 2001-09-11 refuted" in last,
                f"{two} 2001-09-12 .. 2001-12-31 missing" in last], [True] * 3))
    sample = ["--sample", "1", "--seed", "y", *named]  # (a day that is shown)
    auditor = {**here, "XDG_STATE_HOME": str(place / "auditor")}
    status, out, _ = dossier(*words_, *sample, env=auditor)
    last = out.decode().splitlines()[-1]
    check("a sample of it", status=(status, 0), bad=(f"{one} 2001-09-10 refuted" in last, True),
          last=(last.partition(";")[0], "what was made again is as it was signed"),
          shown=(dossier("verify", "--signers", signers, *sample, env=auditor)[0], 1))
    out = dossier("verify", *sample, env=auditor)[1]
    check("a sample without its signers", said=(b"pages: (of 4 days the signature by which it counts wasn't looked at "
                                                b"(--signers FILE does))" in out, True))
    look_side_by_side(place, [*words_, "--known", *named], auditor)
    by = two / "2001-09-10" / "audit.json.sig"
    kept = by.read_bytes()
    for name, signature in (("none", None), ("another machine's", (one / "2001-09-10/audit.json.sig").read_bytes())):
        by.unlink() if signature is None else by.write_bytes(signature)
        for more in ("", "--known", "--answers", "--sample 1 --seed x"):
            status, out, _ = dossier(*words_, *more.split(), *named, env=auditor)
            check(f"a day that counts by its signature, with {name} {more}", status=(status, 1), said=(
                f"{two}/2001-09-10 is signed by web-2" in out.decode(), True))
        by.write_bytes(kept)
    words = "a machine's key signs its own days alone"
    for folder, key, status in ((place / "pages", "web-1", 1), (place / "pages", "ann", 0), (by.parent, "web-1", 1),
                                (by.parent, "ann", 0)):
        file = folder / ("year.json.sig" if folder.name == "pages" else by.name)
        signature = file.read_bytes()
        file.unlink()
        run(["ssh-keygen", "-q", "-Y", "sign", "-f", place / key, "-n", "ntpaudit-dossier", file.with_suffix("")])
        told = dossier("verify", "--known", "--as-signed", "--signers", signers, folder,
                       *(named[1:] if folder.name == "pages" else ()), env=auditor)
        check(f"{folder.name} signed by {key}", said=(words in told[1].decode(), bool(status)),
              status=(told[0], status), by=(re.search(rf"{folder}: \(?signed at \S+ by {key}", told[1].decode()), bool))
        file.write_bytes(signature)
    year = place / "pages" / "year.json"
    kept_files = {path: path.read_bytes() for path in year.parent.glob("year.*")}
    said = json.loads(kept_files[year])
    for stated in said["machines"]:
        name = stated["machine"]
        stated.update(machine=f"{name}/", statement=stated["statement"].replace(f"({name})", f"({name}/)"))
    year.write_text(json.dumps(said))
    year.with_name("year.json.sig").unlink()
    run(["ssh-keygen", "-q", "-Y", "sign", "-f", place / "web-1", "-n", "ntpaudit-dossier", year])
    check("another spelling of a machine's folder", said=(words in dossier(
        "verify", "--known", "--signers", signers, *named, env=auditor)[1].decode(), True))
    for path, data in kept_files.items():
        path.write_bytes(data)
    by.write_bytes((one / "2001-09-10/audit.json.sig").read_bytes())
    lines = dossier("verify", "--signers", signers, by.parent, env=auditor)[1].decode().splitlines()
    check("a bad signature stands beside the verdict", lines=([line.partition(": ")[2][:34] for line in lines], [
        "verified: yes", "the signature doesn't fit: it isn'"]))
    by.write_bytes(kept)
    with open(two / "2001-09-10" / "report.txt", "ab") as opened:
        opened.write(b"\n")
    status, out, _ = dossier(*words_, *named, env=here)
    last = out.decode().splitlines()[-1]
    check("not as it was signed", status=(status, 1),
          last=(last.startswith(f"not as it was signed: {two}/2001-09-10"), True), bad=("refuted" in last, True))
    check("as signed by whom?", status=(dossier("verify", "--as-signed", one, env=here)[0], 5))


def look_side_by_side(place: Path, asked: list[object], env: dict[str, Any]) -> None:
    """Each signature is looked at once, and some at the same time; what is said is the same, in the same order."""
    log = place / "looks"
    (place / "bin").mkdir()
    runnable(place / "bin" / "ssh-keygen", f"""#!/bin/sh
echo begin >> "{log}"; sleep 0.5
"{shutil.which('ssh-keygen')}" "$@"; status=$?
echo end >> "{log}"; exit $status
""")
    plain_ = dossier(*asked, env=env)[1]
    out = dossier(*asked, env={**env, "PATH": f"{place / 'bin'}:{os.environ['PATH']}"})[1]
    lines, live, most = log.read_text().split(), 0, 0
    for word in lines:
        live += 1 if word == "begin" else -1
        most = max(most, live)
    check("signatures side by side", calls=(len(lines), 12), same=(out, plain_),
          at_once=(most, lambda most: min(2, len(os.sched_getaffinity(0))) <= most <= 8))


def test_sample(place: Path) -> None:
    """The days that are drawn are those of the published rule, and a bad one among them is seen."""
    own = machine(place / "fleet", "web-1", 8)
    dossier("audit", *days_of(own))
    dossier("year", "--year", "2001", "--split", place / "pages", own)
    lines = [line.split(" ", 3) for line in (place / "pages" / f"{called(own)}.days").read_text().splitlines()]
    for seed in ("4 1 6 6", os.fsdecode(b"\xff"), "x"):
        by_rule = sorted(lines, key=lambda line: hashlib.sha256(os.fsencode(f"{seed} {line[0]}")).hexdigest())[:3]
        status, out, _ = dossier("verify", "--sample", 3, "--seed", seed, place / "pages", place / "fleet")
        seen = re.findall(r"(\S+): verified: ", out.decode())
        days = [{Path(path).name for path in paths} for paths in (seen, [path for *_, path in by_rule])]
        check(f"drawn by {seed!r}", days=(days[0], days[1]), said=(
            "3 of 8 days were drawn and made again: had 1 % of all been bad (1), one would have been drawn with 37.5 %"
            in out.decode(), True))
    other = [own / "2001-12-31", place / "fleet" / "web-2" / "2001-09-09"]
    for path in other:
        shutil.copytree(own / "2001-09-09", path)
    status, again, _ = dossier("verify", "--sample", 3, "--seed", "x", place / "pages", place / "fleet")
    check("days beside the year aren't drawn", of=("3 of 8 days were drawn" in again.decode(), True),
          told=("(2 days beside the year's weren't looked at)" in again.decode(), True),
          drawn=(re.findall(r"(\S+): verified: ", again.decode()), re.findall(r"(\S+): verified: ", out.decode())))
    every = dossier("verify", "--answers", "--sample", 3, "--seed", "x", place / "pages", place / "fleet")[1].decode()
    check("by answers too", of=("3 of 8 days were drawn" in every, True), judged=(every.count(": judged: "), 7))
    for path in other:
        shutil.rmtree(path)
    drawn = own / Path(by_rule[0][3]).name
    (drawn / "report.txt").write_text("")
    status, out, _ = dossier("verify", "--sample", 3, "--seed", "x", place / "pages", place / "fleet")
    check("a bad day that was drawn", status=(status, 1),
          said=(f"{drawn}: report.txt was changed" in out.decode(), True))
    known = dossier("verify", "--known", "--sample", 3, "--seed", "x", place / "pages", place / "fleet")[1].decode()
    check("it is made again though it is known", said=(f"{drawn}: report.txt was changed" in known, True),
          before=("here before" in known, False))
    for option, value in (("--sample", "3"), ("--seed", "x")):
        check(f"verify {option} alone", status=(dossier("verify", option, value, own)[0], 5))
    from dossier.fleet.drawing import missed, percent
    for number, all_, bad in ((300, 18_250, 182), (3, 8, 1), (8, 8, 1), (1, 8, 8), (0, 8, 3), (300, 365_000, 3_650)):
        none = Fraction(comb(all_ - bad, number), comb(all_, number))
        check(f"{number} of {all_}", seen=(abs(missed(number, all_, bad) - float(none)) < 1e-9, True))
    check("what is nearly sure", said=([percent(missed(1000, 365_000, 18_250)), percent(missed(8, 8, 1))],
                                       ["99.9 %", "certainty"]))


def test_empty_seed(place: Path) -> None:
    """Who draws names what the days are drawn by."""
    for seed in "", " ":
        status, _, err = dossier("verify", "--sample", 3, "--seed", seed, place)
        check(f"the seed {seed!r}", status=(status, 5), said=(b"--seed is empty" in err, True))


def test_sample_of_several(place: Path) -> None:
    """A folder of several days isn't drawn, but made again: else one of the names would stand for many days."""
    own, month = machine(place / "fleet", "web-1", 3), place / "fleet" / "web-2" / "september"
    month.mkdir(parents=True)
    claim = json.loads((days_of(own)[0] / "claim.json").read_text())
    (month / "claim.json").write_text(json.dumps({**claim, "to": "2001-09-12T00:00:00Z"}))
    capture_of(month / "f.pcap", *(f"{server}:{WIDE}@{FIRST + 600 * k}" for k in range(432) for server in (1, 2, 3, 4)))
    dossier("audit", *days_of(own))
    dossier("audit", "--days", month)
    dossier("year", "--year", "2001", "--split", place / "pages", own, month.parent)
    for way in ((), ("--answers",)):
        out = dossier("verify", *way, "--sample", 1, "--seed", "x", place / "pages", place / "fleet")[1].decode()
        check(f"several days {way}", said=(out.count("1 of 3 days were drawn"), 1), again=([line in out for line in (
            f"{month}: verified: 3 refuted", "(1 folder of several days, or of one name, was made again too)")],
            [True] * 2))
    shutil.copytree(days_of(own)[0], own / "copy")
    out = dossier("verify", "--sample", 1, "--seed", "x", *days_of(own))[1].decode()
    check("two of one name", said=(("1 of 2 days were drawn" in out, "(2 folders of several days, or of one name, were "
                                    "made again too)" in out), (True, True)))


def test_says(place: Path) -> None:
    """What a day's audit.json says is what it said when its year was made, though the day isn't drawn; and it may be
    packed and signed since."""
    own = machine(place / "fleet", "web-1", 3)
    dossier("audit", *days_of(own))
    dossier("year", "--year", "2001", "--split", place / "pages", own)
    lines = (place / "pages" / f"{called(own)}.days").read_text().splitlines()
    drawn = Path(min(lines, key=lambda line: hashlib.sha256(f"x {line[:64]}".encode()).hexdigest())).name
    asked = ["verify", "--sample", 1, "--seed", "x", place / "pages", place / "fleet"]
    if is_here("ssh-keygen", "a day that is signed behind its year"):
        dossier("sign", "--key", key_of(place, "ann")[0], *days_of(own))
    for word in KEEP:
        dossier(*word, *days_of(own))
    check("a year as it was made", said=(b"its statements follow from" in dossier(*asked)[1], True))
    for path in (path for path in days_of(own) if path.name != drawn):
        kept = (path / "audit.json").read_text()
        record = json.loads(kept)
        entry = record["entries"][0]
        for name, value in {"least_ns": 1 + (entry["least_ns"] or 0), "leap": {**entry["leap"], "to": 9},
                            "warnings": [{"kind": "no-drift"}],
                            "envelope_step": 1, "moves": [MOVE], "counts": {**entry["counts"], "samples": 1}}.items():
            (path / "audit.json").write_text(json.dumps({**record, "entries": [{**entry, name: value}]}))
            out = dossier(*asked)[1].decode()
            check(f"{path.name}: another {name}", told=(
                f"{path}: its audit.json says something else than when year.json was made" in out, True))
        (path / "audit.json").write_text(kept)
    (place / "fleet" / "events.json").write_text("{}")
    check("an answer in which machines are", taken=(
        "fleet: (a year's days are in it)" in dossier(*asked)[1].decode(), False))
    (place / "fleet" / "events.json").unlink()
    file, year = place / "pages" / f"{called(own)}.days", place / "pages" / "year.json"
    text, stated = file.read_text(), json.loads(year.read_text())
    file.write_text(text + text.replace("../fleet/web-1", str(own)))
    stated["machines"][0]["sha256"] = hashlib.sha256(file.read_bytes()).hexdigest()
    year.write_text(json.dumps(stated))
    check("a day by two paths", told=(
        "stands there twice" in dossier("verify", "pages", "fleet", cwd=place)[1].decode(), True))


def test_other_program(place: Path) -> None:
    """A year by another program than the one that verifies it is as it was made, if that comes to the same."""
    own, pages = machine(place / "fleet", "web-1"), place / "pages"
    other = {**stand_in(place / "program", ":"), "XDG_STATE_HOME": str(place / "other")}
    dossier("audit", *days_of(own))
    dossier("year", "--year", "2001", "--split", pages, own)
    year = json.loads((pages / "year.json").read_text())
    by = match_of("Audited by (ntpaudit .*?), SHA-256 ([0-9a-f]{64})[.]$", year["machines"][0]["statement"])
    here = hashlib.sha256((place / "program").read_bytes()).hexdigest()
    note = (f"{pages}: (made by another program than the one by which its days are known here: by {{}}, SHA-256 {{}}; "
            f"here by {by[1]}, SHA-256 {{}})")
    said = f"{pages}: verified: its statements follow from the audits of its days", note.format(*by.groups(), here)
    for more in ("--answers", "", "--known"):
        told = dossier("verify", *more.split(), pages, place / "fleet", env=other)[1].decode()
        check(f"a year by another program {more}", said=([line in told for line in said],
                                                         [True, more != "--answers"]))
    if is_here("ssh-keygen", "a year that is signed"):
        status, out, _ = dossier("sign", "--key", key_of(place, "ann")[0], pages, env=other)
        check("nobody signs another's program", run=((status, out.decode()), (1, said[1].replace("(made", "made")[:-1]
                                                                              + "\n")))
    (stated,), invented = year["machines"], ("ntpaudit 9.9.9", "f" * 64)
    text = stated["statement"].replace(f"{by[1]}, SHA-256 {by[2]}", ", SHA-256 ".join(invented))
    (pages / "year.json").write_text(json.dumps({**year, "machines": [{**stated, "statement": text}]}))
    check("a program that was made up", said=(note.format(*invented, by[2]) in dossier(
        "verify", "--known", pages, place / "fleet")[1].decode().splitlines(), True))
    for old, new in (("ntpaudit 1.0.0", "ntpaudit. All is well; ntpaudit 1.0.0"), ("2 of", "3 of"), ("1 ms", "2 ms")):
        (stated,) = year["machines"]
        text = json.dumps({**year, "machines": [{**stated, "statement": stated["statement"].replace(old, new)}]})
        (pages / "year.json").write_text(text)
        check(f"{new} by another program", told=(b"doesn't follow from its days" in dossier(
            "verify", pages, place / "fleet", env=other)[1], text != json.dumps(year)))


def test_folder_of_days(place: Path) -> None:
    """A folder that was audited by days has many days of a year."""
    own = day(place / "fleet" / "web-1", 0, RIGHT, name="days", to="2001-09-12T00:00:00Z")
    capture_of(own / "f.pcap", *(f"{server}:{RIGHT}@{FIRST + 600 * k}" for k in range(432) for server in (1, 2, 3, 4)))
    dossier("audit", "--days", own)
    dossier("year", "--year", "2001", "--split", place / "pages", own.parent)
    out = dossier("verify", place / "pages", place / "fleet")[1].decode()
    follow = f"{place / 'pages'}: verified: its statements follow from the audits of its days"
    check("a folder of days", said=(follow in out, True), days=(f"{own}: verified: 3 yes" in out, True), shown=(
              "shown on 3 of 365 days" in (place / "pages" / "year.json").read_text(), True))


def test_known(place: Path) -> None:
    """What was made or judged here before is left at that, if the files that it names have the sizes that they had."""
    own = machine(place / "fleet", "web-1", 2)
    first, second = days_of(own)
    (first / "evidence.json").write_text(json.dumps({"drift": "drift.txt"}))
    (first / "drift.txt").write_text("none")
    dossier("audit", *days_of(own))
    asked: list[str | Path] = ["verify", "--known"]
    before = "(that was here before)"
    out = dossier(*asked, *days_of(own))[1].decode()
    check("days that are known", before=(out.count(before), 2), told=(
        "(2 folders counted as found before: of their files only the sizes were looked at)" in out, True))
    for way in ("", "--answers"):
        if way:
            asked = [*asked, way, "--state", place / "judged"]
            dossier(*asked, first)
        for file in sorted(path for path in first.iterdir() if path.name != "audit.json"):
            kept = file.read_bytes()
            for what in (None, kept[:-1], kept + b"\n"):
                file.unlink() if what is None else file.write_bytes(what)
                out = dossier(*asked, first)[1].decode()
                check(f"{way} {file.name}: {what is None or len(what)}", before=(before in out, False),
                      verified=("verified: " in out or "judged: " in out, False))
                file.write_bytes(kept)
        check(f"as it was {way}", before=(before in dossier(*asked, first)[1].decode(), True))
    for word in KEEP:
        dossier(*word, *days_of(own))
    if is_here("ssh-keygen", "a day that is known and signed"):
        dossier("sign", "--key", key_of(place, "ann")[0], second)
    check("packed and signed", before=(dossier("verify", "--known", *days_of(own))[1].decode().count(before), 2))
    by_two = [dossier("verify", "--known", "--second", *days_of(own))[1].decode() for _ in range(2)]
    check("by two programs", asked=([out.count("(judged by two programs)") for out in by_two], [2, 0]),
          before=([out.count(before) for out in by_two], [0, 2]))
    (against := day(place / "fleet" / "web-2", 0, RIGHT, reading_ns=60_000) / "evidence.json").write_text(
        json.dumps({"reading": "late.json"}))
    (against.parent / "late.json").write_text(json.dumps(measured(70_000)))
    dossier("audit", against.parent)
    notes = [{line.partition(": (")[2] for line in dossier("verify", *how, against.parent)[1].decode().splitlines()}
             for how in ((), ("--known",))]
    check("notes of what is known", notes=(notes[1], notes[0] | {before[1:], ""}))
    record = json.loads((against.parent / "audit.json").read_bytes())
    (against.parent / "audit.json").write_text(json.dumps({**record, "dossier": record["dossier"] - 1}))
    older = dossier("verify", "--known", against.parent)[:2]
    check("an older form", same=(older, dossier("verify", against.parent)[:2]))
    (refused := day(own, 2, RIGHT) / "f.pcap").write_text("none")
    dossier("audit", refused.parent)
    check("refused", before=(before in dossier("verify", "--known", refused.parent)[1].decode(), False))
    for file in first.glob("*.zst"):
        file.write_bytes(file.read_bytes()[:-1])
        check(f"{file.name} cut", before=(before in dossier("verify", "--known", first)[1].decode(), False))


def test_judged_beside_a_sample(place: Path) -> None:
    """What was only judged before isn't verified by a sample of other days."""
    own, other = machine(place / "fleet", "web-1", 1), day(place / "other" / "web-9", 0, RIGHT)
    dossier("audit", *days_of(own), other)
    dossier("year", "--year", "2001", "--split", place / "pages", own)
    dossier("verify", "--state", place / "state", "--answers", other)
    asked = ["verify", "--state", place / "state", "--known", "--sample", 1, "--seed", "x", place / "pages", own, other]
    for before in False, True:
        out = dossier(*asked)[1].decode()
        check(f"a day beside a sample, verified before: {before}", verified=(f"{other}: verified: yes" in out, True),
              before=(f"{other}: (that was here before)" in out, before))


MOVE = {"after": 1_000_000_000_000_000_000, "by": 1_000_000_060_000_000_000, "low": 1, "high": 2, "rate_ppb": 0,
        "is_step": True, "until": 0, "since": 0}
"""A step that nobody made."""


def test_answers(place: Path) -> None:
    """Each answer is held to its sum and judged by the program."""
    own = machine(place / "fleet", "web-1", 3)
    other = day(place / "fleet" / "web-1", 3, RIGHT, servers=1)
    dossier("audit", *days_of(own))
    log = place / "log"
    status, out, _ = dossier("verify", "--answers", *days_of(own),
                             env=stand_in(place / "program", f'echo "$@" >> "{log}"'))
    calls = [line.split()[0] + " --sums" * ("--sums" in line) + " --drift" * ("--drift" in line)
             for line in log.read_text().splitlines()]
    check("days by their answers", status=(status, 1),
          lines=([line.partition(": ")[2] for line in out.decode().splitlines()],
                 [*(words for verdict in ("yes", "yes", "refuted", "no evidence") for words in (
                     f"judged: {verdict}", "(by another build of the program than the audit's)")), ""]),
          told=("bounds, reasons, and warnings that take no yes away are as audit.json has them" in out.decode(), True),
          calls=(calls[1:], [*["check --sums", "refute --drift"] * 2, "samples", "samples", "refute --drift",
                             "refute --drift", "samples", "settle"]))
    second = dossier("verify", "--answers", "--second", *days_of(own))[1].decode()
    check("days by their answers and two programs", judged=(second.count("(judged by two programs)"), 4))
    for path, verdict, reason, words in (
            (days_of(own)[2], "no evidence", {"why": "beside"}, "is `no evidence`, and by the inputs `refuted`"),
            (other, "open", {"why": "tick"}, "the verdict of audit.json is open, and what `settle` says is another")):
        kept = (path / "audit.json").read_bytes()
        record = json.loads(kept)
        record["entries"][0].update(verdict=verdict, reason=reason)
        (path / "audit.json").write_text(json.dumps(record))
        status, out, _ = dossier("verify", "--answers", path)
        check(f"by answers: {verdict} where it isn't", status=(status, 1), said=(words in out.decode(), True))
        (path / "audit.json").write_bytes(kept)
    with open(other / "report.txt", "ab") as opened:
        opened.write(b"\n")
    check("by answers: a file that was changed", said=(
        b"report.txt was changed since the audit" in dossier("verify", "--answers", other)[1], True))
    first = days_of(own)[0]
    data = (first / "f.pcap").read_bytes()
    (first / "f.pcap").write_bytes(data[:-1] + bytes([data[-1] ^ 1]))
    for packed in range(1 + is_here("zstd", "a capture that is packed")):
        if packed:
            run(["zstd", "-q", "--rm", first / "f.pcap"])
        check(f"by answers: a capture that was changed {packed}", said=(
            b"f.pcap isn't the file that was audited" in dossier("verify", "--answers", first)[1], True))


TOLD_ONCE = f"""import sys; sys.path.insert(0, {str(ROOT)!r})
import dossier.verdict.making as making
making.once = lambda whole, program: whole
from dossier import command_line
sys.exit(command_line.main(sys.argv[1:]))"""
"""An auditor that takes what was recorded twice as it is."""


def test_recorded_twice(place: Path) -> None:
    """Whoever records a wrong clock's replies once more makes them ambiguous: a yes of what is left is none."""
    folder = day(place / "fleet" / "web-1", 0, RIGHT)
    times = [(600 * k, RIGHT) for k in range(144)] + [(43_205 + 60 * k, "8589934..8590934") for k in range(5)]
    capture_of(folder / "f.pcap", *(f"{server}:{ends}@{FIRST + at}" for at, ends in sorted(times)
                                    for server in (1, 2, 3, 4)))
    data = (folder / "f.pcap").read_bytes()
    noon = range(FIRST + 43_205, FIRST + 43_500)
    doubled = ((1 + (int.from_bytes(record[:4], "little") in noon)) * record for record in records_of(data))
    (folder / "f.pcap").write_bytes(data[:24] + b"".join(doubled))
    state = "--state", str(place / "forger")
    run([sys.executable, "-c", TOLD_ONCE, "audit", *state, folder], env=ENVIRONMENT)
    told = json.loads((folder / "audit.json").read_bytes())["entries"][0]["verdict"]
    honest = shutil.copytree(folder, place / "honest" / "web-1" / "2001-09-09",
                             ignore=lambda _, names: {*names} - {"claim.json", "f.pcap"})
    dossier("audit", honest)
    status, out, _ = dossier("verify", "--answers", folder)
    check("what was recorded twice", verdicts=((told, json.loads(
        (honest / "audit.json").read_bytes())["entries"][0]["verdict"]), ("yes", "nothing fits")), status=(status, 1),
        said=(b"judged: yes" in out, False))


def test_forged_answers(place: Path) -> None:
    """What is forged beside right sums is seen by the answers."""
    first = machine(place / "fleet", "web-1", 2) / "2001-09-09"
    dossier("audit", *days_of(first.parent))
    files = {path.name: path.read_bytes() for path in first.iterdir()}
    record = json.loads(files["audit.json"])

    def forged(name: str, data: bytes, **changes: object) -> str:
        """What is said where a file, its sum, and some of the entry are others."""
        entry, sums = record["entries"][0], {name: hashlib.sha256(data).hexdigest()}
        outputs, inputs = ({**own, **(sums if name in own else {})} for own in (entry["outputs"], record["inputs"]))
        (first / name).write_bytes(data)
        (first / "audit.json").write_text(json.dumps({
            **record, "inputs": inputs, "entries": [{**entry, **changes, "outputs": outputs}]}))
        found = dossier("verify", "--answers", first)
        for file, kept in files.items():
            (first / file).write_bytes(kept)
        return f"{found[0]} {found[1].decode().partition(': ')[2]}"
    certificate, claim = files["certificate.json"], files["claim.json"]
    pieces = json.loads(certificate)["pieces"]
    pieces[0]["entries"] = pieces[0]["entries"][:1]
    reading = json.loads(files["refutation.json"])
    for what, said, wanted in (
            ("a certificate", forged("certificate.json", json.dumps({"pieces": pieces}).encode()), "doesn't accept it"),
            ("a report", forged("report.txt", files["report.txt"].replace(b"yes", b"yet")), "report.txt isn't what"),
            ("a refutation", forged("refutation.json", json.dumps({**reading, "error": 0}).encode(), refutation={
                **reading, "error": 0}), "refutation.json: the program doesn't accept it"),
            ("another refutation than it says", forged("report.txt", files["report.txt"], refutation={
                **reading, "error": 1}), "refutation.json: the program doesn't accept it"),
            ("a claim", forged("claim.json", claim.replace(b"1000000", b"1")), "the claim of audit.json isn't"),
            ("a claim of 0", forged("bound-0.claim.json", claim), "bound-0.claim.json isn't the claim"),
            ("a verdict", forged("report.txt", files["report.txt"], verdict="unsupported", reason={"why": "evidence"}),
             "audit.json isn't one that is taken (entries 0 entry .)"),
            ("counts", forged("report.txt", files["report.txt"],
                              counts={**record["entries"][0]["counts"], "samples": 1}), "counts of audit.json aren't"),
            ("a yes without its course", forged("report.txt", files["report.txt"], refutation=None),
             "entries 0 refutation is `None`"),
            ("a move that excuses a logged step", forged("report.txt", files["report.txt"], moves=[MOVE]),
             "entries 0 moves is")):
        check(f"by answers: {what} that was forged", status=(said[0], "2" if "taken" in wanted else "1"),
              said=(wanted in said, True))


def test_forged_captures(place: Path) -> None:
    """Another capture than the one that was judged can't be named as what the answers, or times of events, rest on."""
    folder = day(place / "fleet" / "web-1", 0, RIGHT)
    dossier("audit", folder)
    record = json.loads((folder / "audit.json").read_bytes())
    (folder / "2001-09-09").mkdir()
    for path in (folder / "joined.pcap", folder / "2001-09-09" / "joined.pcap"):
        capture_of(path, *(f"{server}:{WIDE}@{FIRST + 600 * k}" for k in range(144) for server in (1, 2, 3, 4)))
    sum_ = hashlib.sha256(path.read_bytes()).hexdigest()
    entry, = record["entries"]
    without = {name: sum_ for name, sum_ in entry["outputs"].items() if name != "refutation.json"}
    for what, changes, status, words in (
            ("one that wasn't joined", {"outputs": {**entry["outputs"], "joined.pcap": sum_}}, 2, "taken (capture)"),
            ("that of a part", {"part": "2001-09-09", "outputs": {**entry["outputs"], "2001-09-09/joined.pcap": sum_}},
             1, "entries 0 part is `2001-09-09`, and by the inputs `.`"),
            ("a file less", {"outputs": without}, 1, "refutation.json")):
        record["entries"] = [entry | changes]
        (folder / "audit.json").write_text(json.dumps(record))
        came, out, _ = dossier("verify", "--answers", folder)
        check(f"by answers: {what}", status=(came, status), said=(words in out.decode(), True))
        (folder / "joined.pcap").unlink(missing_ok=True)


def test_beside_the_span(place: Path) -> None:
    """What refutes a claim is no evidence if nothing was recorded within the span, whatever audit.json says of it."""
    folder = day(place / "fleet" / "web-1", 0, WIDE)
    capture_of(folder / "f.pcap", *(f"{server}:{WIDE}@{FIRST + DAY + 60 * k}" for k in range(1, 21)
                                    for server in (1, 2, 3, 4)))
    dossier("audit", folder)
    record = json.loads((folder / "audit.json").read_bytes())
    record["entries"][0].update(verdict="refuted", reason={"why": "exceeds"})
    (folder / "audit.json").write_text(json.dumps(record))
    status, out, _ = dossier("verify", "--answers", folder)
    check("by answers: no evidence as refuted", status=(status, 1), said=(
        "entries 0 verdict is `refuted`, and by the inputs `no evidence`" in out.decode(), True))


def test_forged_warnings(place: Path) -> None:
    """What speaks against a premise is held to the evidence by the answers too: it can't be taken out, exchanged for
    what the next list of leap seconds does away with, or said of a shorter time."""
    no_list, own = {"kind": "no-list"}, place / "fleet" / "web-1"
    for number, (ends, verdict) in enumerate(((RIGHT, "unsupported"), (WIDE, "refuted"))):
        folder = day(own, number, ends, reading_ns=60_000)
        (folder / "evidence.json").write_text(json.dumps({"reading": "late.json"}))
        (folder / "late.json").write_text(json.dumps(measured(70_000)))
        dossier("audit", folder)
        kept = (folder / "audit.json").read_bytes()
        judged = f"{folder}: judged: {verdict}"
        check(f"by answers: {verdict}", said=(judged in dossier("verify", "--answers", folder)[1].decode(), True))
        record = json.loads(kept)
        entry = record["entries"][0]
        warnings = [one for one in entry["warnings"] if one["kind"] != "reading"]
        for what, changes in (("no warning", {"warnings": warnings}), ("another", {"warnings": [*warnings, no_list]}),
                              ("a short time", {"leap": entry["leap"] | {"from": entry["leap"]["to"]}})):
            (folder / "audit.json").write_text(json.dumps({**record, "entries": [entry | changes]}))
            out = dossier("verify", "--answers", folder)[1].decode()
            check(f"by answers: {verdict}, with {what}", judged=(judged in out, False),
                  same=(": verified" in out, False))


def test_changed_bytes(place: Path) -> None:
    """Each random change of a byte in what is signed of a year is seen by its answers."""
    if not is_here("ssh-keygen", "a year that is signed") or not is_here("zstd", "a year that is packed"):
        return
    own, (key, allowed) = machine(place / "fleet", "web-1", 3), key_of(place, "key")
    hour = FIRST + 2 * DAY
    capture_of(own / "2001-09-11" / "g.pcap", *(f"{server}:{WIDE}@{hour + 60 + 600 * k}" for k in range(144)
                                                for server in (1, 2, 3, 4)))
    (place / "signers").write_text(allowed)
    dossier("audit", *days_of(own))
    dossier("keep", own / "2001-09-10", own / "2001-09-11")
    dossier("sign", "--key", key, *days_of(own))
    dossier("year", "--year", "2001", "--split", place / "pages", own)
    dossier("sign", "--key", key, place / "pages")
    asked = ["verify", "--answers", "--as-signed", "--signers", place / "signers"]
    named = [*days_of(own), place / "pages"]
    check("a signed year", status=(dossier(*asked, *named)[0], 0))
    files = [path for path in [*own.rglob("*"), *(place / "pages").iterdir()]
             if path.is_file() and path.suffix not in (".sig", ".sums")]
    drawn, unseen = random.Random(94), list[str]()
    for _ in range(CHANGES):
        path = drawn.choice(files)
        kept = path.read_bytes()
        at = drawn.randrange(len(kept))
        path.write_bytes(kept[:at] + bytes([kept[at] ^ drawn.randrange(1, 256)]) + kept[at + 1:])
        of_day = [path.parent] if path.parent.parent == own else [place / "pages", place / "fleet"]
        if not dossier(*asked, *of_day)[0]:
            unseen.append(f"{path.name} at {at}")
        path.write_bytes(kept)
    check("bytes that were changed", unseen=(unseen, []))
    check("the year is as it was", status=(dossier(*asked, *named)[0], 0))


def test_figures(place: Path) -> None:
    """What nothing fits counts for: unknown; and an error that is known is told. What isn't counted is named with its
    cause, and what stands twice is seen under any name."""
    own = place / "fleet" / "web-1"
    day(own, 0, RIGHT)
    stepped = day(own, 1, RIGHT)
    ahead, half = round(.3 * 2**32), FIRST + DAY + DAY // 2
    ends = [(RIGHT if second < half else f"{ahead - 1000}..{ahead + 1000}", second)
            for second in range(FIRST + DAY, FIRST + 2 * DAY, 600)]
    capture_of(stepped / "f.pcap", *(f"{server}:{words}@{second}" for words, second in ends for server in (1, 2, 3, 4)))
    day(own, 2, RIGHT, name="web-1-2001-09-11")
    day(own, 3, RIGHT, bound_ns=2_000_000)
    (own / "notes").mkdir()
    dossier("audit", *(path for path in days_of(own) if path.name != "notes"))
    shutil.copytree(own / "2001-09-09", own / "again")
    shutil.copytree(own, place / "fleet" / "copy-1")
    (place / "fleet" / "copy-1" / "2001-09-09" / "f.pcap").unlink()
    day(place / "fleet" / "copy-2", 0, "-999..999")
    dossier("audit", place / "fleet" / "copy-2" / "2001-09-09")
    dossier("year", "--year", "2001", "--split", place / "pages", *sorted((place / "fleet").iterdir()))
    index, page = ((place / "pages" / f"{name}.html").read_text() for name in ("index", called(own)))
    words = page.partition('class="statement">')[2].partition("</p>")[0]
    row = index[index.index(f'{called(own)}.html"'):]
    row = " ".join(re.sub("<.*?>", " ", row[:row.index("The year")]).split())
    off = re.findall(r"off by (\d+\.\d+) ms or more, 2001-09-10", row)
    check("a machine that was stepped", unknown=("unknown: 2 days" in row, True), shown=("2 of 365" in row, True),
          off=([299.9 < float(number) <= 300.001 for number in off], [True]),
          statement=(("No bound is known on 2 more days." in words, "known was at least" in words), (True, True)))
    others = page[page.index("Not counted"):]
    check("what isn't counted", notes=("<li>notes: its name is no day, and it has no audit.json</li>" in
                                       others.replace("&#39;", "'"), True),
          other=("2001-09-12: another claim or client than most days have" in others, True),
          twice=("2001-09-09 stands twice, and counts as in" in others, True), number=(others.count("<li>"), 3),
          cells=(['title="2001-09-11: yes' in page, 'title="2001-09-12: not counted' in page], [True, True]))
    check("twice under any name", copy=(f"has a recording of {place}/fleet/copy-1" in index, True),
          client=(f"its client has days of {place}/fleet/copy-1 too" in index, True))
    status, _, err = dossier("draft", ROOT / "data" / "vlan-ns.pcap")
    servers = json.loads((ROOT / "data" / "vlan-ns.claim.json").read_text())["servers"]
    words = "In groups " + ", ".join(f"{number} is {server}" for number, server in enumerate(servers))
    check("which number in groups is which server", status=(status, 0), said=(f"{words}." in err.decode(), True))


def test_side_by_side(place: Path) -> None:
    """docs/FLEET.md's lines for a year that is verified by many processes, and by what they left the statements."""
    own = machine(place / "fleet", "web-1", 3)
    dossier("audit", "--state", place / "made", *days_of(own))
    dossier("year", "--state", place / "made", "--year", "2001", "--split", place / "pages", own)
    (place / "ntpaudit-dossier").symlink_to(ROOT / "ntpaudit-dossier")
    text = (ROOT / "docs" / "FLEET.md").read_text("utf-8").partition("## Many processors")[2]
    array = text.split("a file audit.slurm:\n\n")[1].split("\n\n")[0]
    ways = {"slurm": re.sub("audit --jobs.*", match_of(r'that line is `(.*?)`', text)[1], array)}
    if is_here("parallel", "GNU parallel"):
        ways["parallel"] = match_of(r"    (parallel -n 100 .*)", text)[1].replace("-n 100", "-n 2")
    last = match_of(r"and then `\./ntpaudit-dossier (verify .*?)`", text)[1].split()
    for name, script in ways.items():
        lines = list[str]()
        for task in (0, 1, 2) if name == "slurm" else (0,):
            own_task = {**ENVIRONMENT, "SLURM_ARRAY_TASK_ID": str(task)}
            lines += run(["bash", "-c", script], cwd=place, env=own_task)[1].decode().splitlines()
        judged = sorted(line for line in lines if ": judged: " in line)
        check(f"judged by {name}", lines=(judged, [f"fleet/web-1/2001-09-{day}: judged: {word}" for day, word in (
            ("09", "yes"), ("10", "yes"), ("11", "refuted"))]))
        said = dossier(*last, cwd=place)[1].decode()
        check(f"the statements after {name}", before=(said.count("(that was here before)"), 3),
              counted=("(3 folders counted as found before: of their files only the sizes were looked at)" in said,
                       True),
              said=("pages: verified: its statements follow from the audits of its days, by their answers" in said,
                    True))
        shutil.rmtree(place / "state")
    check("the statements before", said=(b"here before" in dossier(*last, cwd=place)[1], False))


def test_neighbours(place: Path) -> None:
    """Days that follow one another share the hours beside midnight, and none of them is a copy."""
    own = machine(place, "web-1", 3)
    for number in range(2):
        one, other = (own / f"2001-09-{9 + number + k:02}" for k in (0, 1))
        capture_of(one / f"g{number}.pcap", f"1:{RIGHT}@{FIRST + DAY * (number + 1) - 60}")
        shutil.copy(one / f"g{number}.pcap", other)
    dossier("audit", *days_of(own))
    said = dossier("verify", *days_of(own))[1].decode() + dossier("page", *days_of(own))[1].decode()
    check("days that follow one another", copies=(said.count("one of them is a copy"), 0))
