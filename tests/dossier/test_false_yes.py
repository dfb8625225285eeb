"""Tests of folders by which somebody would have a yes, a name or a day that isn't so.
"""
import json
import shutil
import struct
import time
from fractions import Fraction
from itertools import product
from pathlib import Path
from typing import Any

from tests.support import DATA, check, is_here, run, wanting
from tests.dossier.audits import (ENVIRONMENT, SCRIPT, called, capture_of, check_page, dossier, folder_of, record_of,
                                  skipped, table)
from tests.dossier.leaps import leap_list
from tests.dossier.test_captures import packed_folder, pcapng, records_of
from tests.dossier.test_evidence import FIRST, MINUTE, key_of
from tests.dossier.test_hostile import elsewhere, forge, sums_of

LATER = FIRST + 10**9


def test_lists_of_others(place: Path) -> None:
    """Only one's own list of leap seconds counts, on every way to a verdict."""
    capture = capture_of(place / "within.pcap", f"1:-1000..1000@{FIRST + 10}", f"1:-1000..1000@{FIRST + 40}")
    hidden, late, ended = ((FIRST + 30, 11),), leap_list(place / "late.list", LATER), FIRST - 10**6
    known, short = leap_list(place / "known.list", LATER, *hidden), leap_list(place / "short.list", ended)
    missing = place / "missing"
    for name, others, own, why in (("hidden by none", missing, known, "A leap second at the end of"),
                                   ("hidden by another list", late, known, "A leap second at the end of"),
                                   ("beyond the end", late, short, "was good until"),
                                   ("by no list", late, missing, "Nothing is known of leap seconds")):
        folder = folder_of(place, name, capture, **MINUTE)
        theirs, mine = ({**elsewhere(place / side), "NTPAUDIT_LEAP_SECONDS": str(list_)}
                        for side, list_ in (("theirs", others), ("mine", own)))
        dossier("audit", folder, env=theirs)

        def say_yes(record: dict[str, Any], entry: dict[str, Any]) -> None:
            entry.update(verdict="yes", warnings=[one for one in entry["warnings"] if one["kind"] != "no-list"])
            entry.pop("reason", None)
            entry["leap"] = {**entry["leap"], "says": "none"}
        if others == missing:
            forge(folder, say_yes)
        status, out, _ = dossier("verify", folder, env=mine)
        shown = [json.loads(dossier("page", *words, "--json", folder, env=mine)[1])[0]["verdict"]
                 for words in (("--verify",), ())]
        check(f"a leap second {name}: what is verified", status=(status, 1), said=(why in out.decode(), True),
              yes=(": verified: yes" in out.decode(), False), shown=(shown, ["not verified"] * 2))
        status, out, _ = dossier("audit", folder, env=mine)
        row = json.loads(dossier("page", "--json", folder, env=mine)[1])[0]
        check(f"a leap second {name}: what is audited", status=(status, 1), row=(row["verdict"], "unsupported"),
              said=(any(why in words for words in row["warnings"]), True),
              verified=(dossier("verify", folder, env=mine)[:2], (1, f"{folder}: verified: unsupported\n"
                        f"{folder}: ({row['reason']})\n".encode())))
    folder = folder_of(place, "known here", capture, **MINUTE)
    dossier("audit", "--leap-seconds", late, folder)
    row = json.loads(dossier("page", "--json", "--leap-seconds", known, folder)[1])[0]
    check("a list that knows more by now", row=(row["verdict"], "unsupported"),
          audit=(dossier("audit", "--leap-seconds", known, folder)[0], 1))


def test_words_of_names(place: Path) -> None:
    """Names of files that a shell's * makes options of; options that stand twice, or after a folder."""
    folder = folder_of(place, "host", bound_ns=5_000_003)
    dossier("audit", folder, env=elsewhere(place))
    (place / ".s").mkdir()
    sum_, = sums_of(folder, "audit.json").values()
    (place / ".s" / "audits").write_text(f"{sum_}\n{sum_} {'0' * 64} 2026-01-01T00:00:00Z 1 x\n")
    for name in ("--state=.s", "--again", "-o", "--json", "--"):
        (place / name).write_text("")
        for command in ("page", "audit", "verify", "keep"):
            ran = run(["sh", "-c", f'"$0" {command} *', SCRIPT], cwd=place, env=ENVIRONMENT)
            check(f"{command} * with {name}", status=(ran[0], 5), yes=(b"yes" in ran[1], False),
                  said=(f"write ./{name}" in ran[2].decode(), True), left=((folder / "audit.json").exists(), True))
        (place / name).unlink()
    for words, said in ((("page", folder, "--json"), "--json has to stand before FOLDER"),
                        (("page", "--title", "a", "--title", "b", folder), "--title stands there twice"),
                        (("verify", "--state", ".s", "--state=x", folder), "--state stands there twice"),
                        (("page", "--sta", "x", folder), "no option --sta"), (("verify", ""), "an operand is empty")):
        status, out, err = dossier(*words, cwd=place)
        check(f"words {words[0]} .. {words[-1]}", run=((status, out), (5, b"")), said=(said in err.decode(), True))
    (place / "--again").mkdir()
    check("after --, and by its path", status=([dossier("page", *words, cwd=place)[0] for words in
                                                (("--", "--again"), ("./--again",))], [2, 2]))


def test_finer_times(place: Path) -> None:
    """Of every resolution the window of what is written holds the window of what was read, or the file is refused."""
    nano = (DATA / "vlan-ns.pcap").read_bytes()
    for resolution, is_taken in ((6, True), (7, True), (8, True), (9, True), (10, True), (3, False),
                                 *((128 | power, False) for power in (0, 19, 20, 21, 24, 30, 32))):
        base = 2 ** (resolution & 127) if resolution & 128 else 10**resolution
        folder = packed_folder(place, f"by {resolution}", {"f.pcapng": pcapng(nano, resolution=resolution)})
        status, out, _ = dossier("audit", folder)
        made = (folder / "joined.pcap").read_bytes() if is_taken else b""
        unit = 10**9 if made[:4].hex() == "4d3cb2a1" else 10**6
        wrong = 0
        for record, one in zip(records_of(nano), records_of(made) if made else ()):
            (second, part), (seconds, units) = (struct.unpack("<II", each[:8]) for each in (record, one))
            read = Fraction(part * base // 10**9, base)
            wrong += seconds != second or not Fraction(units, unit) <= read \
                or not read + Fraction(1, base) <= Fraction(units + 1, unit)
        check(f"times in {base} parts", status=(status, 0 if is_taken else 2), wrong=(wrong, 0),
              said=(b"decimal parts" in out or b"coarser" in out, not is_taken))


def test_copied_days(place: Path) -> None:
    """One folder as several machines and days: the table has client and span, and each copy is warned of."""
    one, other = folder_of(place, "web-1"), folder_of(place, "web-3", DATA / "vlan-ns.pcap",
                                                      DATA / "vlan-ns.claim.json")
    dossier("audit", one, other)
    if shutil.which("ssh-keygen"):
        dossier("sign", "--key", key_of(place, "ann")[0], one)
    else:
        skipped("a signed copy", wanting("ssh-keygen"))
    copies = [one, place / "web-2" / "2026-11-23", place / "web-2" / "2026-11-24"]
    for copy in copies[1:]:
        shutil.copytree(one, copy)
    text = dossier("page", *copies, other)[1].decode()
    page = check_page("a page of copies", text)
    rows = table(*copies, other)
    said = [[words for words in row["warnings"] if "so one of them is a copy" in words] for row in rows]
    check("copies of a folder", warned=([len(words) for words in said], [1, 1, 1, 0]),
          named=([str(copies[0]) in words[0] for words in said[1:3]], [True, True]),
          articles=(text.count("<li>Its capture is that of another folder too"), 3),
          span=([f"<span>{row[end][11:19]}</span>" in text and row["client"] in page.words for row in rows
                 for end in ("begin", "end")], [True] * 8))
    out = dossier("verify", *copies, other)[1].decode()
    packed = folder_of(place, "web-4")
    run(["gzip", packed / "f.pcap"])
    dossier("audit", packed)
    out_packed = dossier("verify", one, packed)[1].decode()
    check("copies by verify", lines=([text.count("so one of them is a copy") for text in (out, out_packed)], [2, 1]))
    more, whole = folder_of(place, "web-5"), (one / "f.pcap").read_bytes()
    *_, last = records_of(whole)
    other_kind = next(record for record in records_of(whole) if record[28:30] != b"\x08\x00")
    (more / "f.pcap").write_bytes(whole + last[:8] + other_kind[8:])
    dossier("audit", more)
    check("a copy with a record more", lines=(dossier("verify", one, more)[1].count(b"so one of them is a copy"), 1),
          rows=([any("so one of them is a copy" in words for words in row["warnings"]) for row in table(one, more)],
                [True, True]))
    dossier("page", "--split", place / "pages", *copies, other)
    split = [(place / "pages" / f"{called(path)}.html").read_text() for path in (*copies, other)]
    check("copies on pages of their own", warned=(["so one of them is a copy" in text for text in split],
                                                  [True, True, True, False]))


def test_free_words(place: Path) -> None:
    """What a stranger writes of program, time and list is never shown: what was found here is."""
    if not is_here("ssh-keygen", "a page that is signed"):
        return
    folder = folder_of(place, "host", bound_ns=5_000_004)
    words, mine = "ntpaudit 9.8.7", elsewhere(place / "mine")
    dossier("audit", folder, env=elsewhere(place))

    def lie(record: dict[str, Any], _: object) -> None:
        record["program"] = {"version": words, "sha256": "0" * 64}
        record.update(made="2001-01-01T00:00:00Z", seconds=77777.0)
        record["leap_seconds"] = {**record["leap_seconds"], "file": "the list of PTB", "sha256": "1" * 64}
    forge(folder, lie)
    texts = [dossier("page", "--verify", folder, env=mine)[1].decode()]
    dossier("page", "--metrics", place / "m.prom", "-o", place / "page.html", folder, env=mine)
    texts.append((place / "page.html").read_text())
    for text, how in zip(texts, ("while it is verified", "once it is verified")):
        check(f"a page of free words, {how}", yes=('class="verdict yes"' in text, True),
              theirs=([word for word in ("PTB", "9.8.7", "2001-01-01", "77777", "0" * 16) if word in text], []))
    made = float((place / "m.prom").read_text().split("ntpaudit_last_audit_timestamp_seconds{")[1].split()[1])
    check("the time of the last audit is that of verifying", near=(abs(made - time.time()) < 600, True))
    whole, signed = record_of(folder), Path(shutil.copytree(folder, place / "signed"))
    dossier("sign", "--key", key_of(place, "key")[0], signed, env=mine)
    theirs = record_of(signed)
    check("what is signed of free words", signed=(theirs["signed"] > "2001", True), program=(
        theirs["program"]["version"] in (words, ""), False), made=(theirs["made"] > "2001-01-02", True),
        list_=((theirs["leap_seconds"]["file"], theirs["leap_seconds"]["sha256"] == "1" * 64),
               (mine["NTPAUDIT_LEAP_SECONDS"], False)),
        by_others=(dossier("verify", signed, env=elsewhere(place / "others"))[0], 0),
        known=(json.loads(dossier("page", "--json", signed, env=mine)[1])[0]["verdict"], "yes"))
    unlisted = Path(shutil.copytree(folder, place / "unlisted"))
    without = {**mine, "NTPAUDIT_LEAP_SECONDS": str(place / "missing")}
    status, out, _ = dossier("sign", "--key", place / "key", unlisted, env=without)
    check("what is signed without a list", status=(status, 5), said=(b"--leap-seconds" in out, True),
          named=(dossier("sign", "--key", place / "key", "--leap-seconds", mine["NTPAUDIT_LEAP_SECONDS"], unlisted,
                         env=without)[0], 0))
    for field, command in product(("made", "signed"), ("verify", "page")):
        (folder / "audit.json").write_text(json.dumps({**whole, field: "9999-01-01T00:00:00Z"}))
        status, out, err = dossier(command, folder, env=mine)
        check(f"{field} in the future, by {command}", status=(status, 2), said=(b"in the future" in out + err, True))
