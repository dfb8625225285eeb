"""Tests of a log of events: `ntpaudit-dossier events`, and what `verify` says of its answer. Machines have days of
September 2001 on which true times are known by hand; histories of known truth are in tests/truth/moments.py.
"""
import json
import shutil
from collections.abc import Iterator
from html import unescape
from pathlib import Path

from tests.support import DATA, check, files_in
from tests.dossier.audits import ENVIRONMENT, KEEP, Outline, capture_of, check_page, dossier, folder_of, stand_in
from tests.dossier.test_verdicts import CLAIM
from tests.dossier.test_years import FIRST, RIGHT, WIDE, day

NOON = "2001-09-09T12:00:00"
ADDED = b",earliest,latest,verdict"
TIMES = b",2001-09-09T11:59:59.999999767Z,2001-09-09T12:00:01.000000233Z,yes"
"""Of the second from noon on: 1,000 ticks are 232.8 ns."""


def fleet_of(place: Path, *machines: str) -> list[Path]:
    """Machines with a day that is shown."""
    folders = [day(place / "fleet" / machine, 0, RIGHT) for machine in machines]
    dossier("audit", *folders)
    return [folder.parent for folder in folders]


def log_of(place: Path, text: str | bytes) -> Path:
    (place / "log.csv").write_bytes(text.encode() if isinstance(text, str) else text)
    return place / "log.csv"


def rows_of(out: bytes) -> list[list[str]]:
    """The last three columns of each row but the first."""
    return [line.split(",")[-3:] for line in out.decode().splitlines()[1:]]


def words_of(out: bytes) -> list[str]:
    return [words for *_, words in rows_of(out)]


def test_same(place: Path) -> None:
    """All bytes of a log come back, and behind each row when it was."""
    folders = fleet_of(place, "web-1")
    rows = [b"\xef\xbb\xbforder,machine,time\r\n", b'"a, ""b""\n\r\nc",web-1,2001-09-09T12:00:00Z\n',
            b"\xff\x00 =1+1;\xc3\xa9,web-1,1000036800\r\n", b'" ","web-1","1000036800"']
    wanted = rows[0].replace(b"\r\n", ADDED + b"\r\n") + rows[1][:-1] + TIMES + b"\n" + rows[2][:-2] + TIMES + \
        b"\r\n" + rows[3] + TIMES
    ran = dossier("events", log_of(place, b"".join(rows)), *folders)
    check("a log comes back the same", run=(ran, (0, wanted, b"")))
    other = b"when;x,host\n1000036800,web-1\n"
    check("other columns", run=(dossier("events", "--machine", "host", "--time", "when;x", log_of(place, other),
                                        *folders), (0, b"when;x,host" + ADDED + b"\n1000036800,web-1" + TIMES + b"\n",
                                                    b"")))
    check("a log without events", run=(dossier("events", log_of(place, "machine,time\n"), *folders)[:2],
                                       (0, b"machine,time" + ADDED + b"\n")))


def refused() -> Iterator[tuple[str, str | bytes, str]]:
    """What is wrong with a log, the log, and what is said."""
    head, row = "machine,time\n", f"web-1,{NOON}Z\n"
    for name, time, words in (
            ("a time before 1970", "1969-12-31T23:59:59Z", "is no time from 1970"),
            ("a time after 2106", "2106-02-07T06:28:15Z", "is no time from 1970"),
            ("Unix seconds after 2106", "4294967295", "is no time from 1970"),
            ("a leap second", "2001-09-09T23:59:60Z", "is a second 60"),
            ("a comma as decimal sign", '"2001-09-09T12:00:00,5Z"', "has a comma"),
            ("ten digits of a second", f"{NOON}.0123456789Z", "is no reading"),
            ("no zone", NOON, "is no reading"), ("another zone", f"{NOON}+02:00", "is no reading"),
            ("a day that isn't", "2001-02-29T00:00:00Z", "is no time"), ("hour 24", "2001-09-09T24:00:00Z", "no time"),
            ("minute 60", "2001-09-09T12:60:00Z", "is no time"), ("a blank", f"{NOON}Z ", "is no reading"),
            ("Arabic digits", "\u0661\u0660", "is no reading"), ("no time", "", "it has no time")):
        yield name, f"{head}{row}web-1,{time}\n{row}", f"line 3 of the log: {words}" if not time else words
    yield "a blank line", f"{head}{row}\n{row}", "line 3 of the log is blank"
    yield "a blank line at the end", f"{head}{row}\r\n", "line 3 of the log is blank"
    yield "a field too many", f"{head}{row}web-1,{NOON},5Z\n", "line 3 of the log has 3 fields, and the first line 2"
    yield "a quote that isn't closed", f'{head}"{row}{row}', "line 2 of the log has a quote that isn't closed: close"
    yield "a quote in a field", f'{head}{row}"a "b"",1\n', "line 3 of the log has more behind a field's closing"
    returns = "a carriage return that ends no line: save it with line feeds"
    yield "a carriage return in a row", f"{head}web\r1,1\n", f"line 2 of the log has {returns}"
    yield "one behind a field of two lines", f'{head}"a\nb",1\r1\n', f"line 3 of the log has {returns}"
    yield "lines that end with one", f"{head}{row}".replace("\n", "\r"), f"line 1 of the log has {returns}"
    yield "one alone at the end", f"{head}{row}web-1,1\r", "line 3 of the log ends with a carriage return alone: save"
    yield "a long field", f"{head}{row}{'x' * 131_073},1\n", "line 3 of the log has a field of more than 131,072"
    for sign, first in ((";", "machine;time"), (";", '"time";"machine";"a, b"'), (";", "\ufeffMachine;Time"),
                        ("\t", "a\tmachine"), ("\t", "Machine\tTime\r")):
        words = f"{'tabs' if sign == chr(9) else 'semicolons'} between its columns: save it with commas"
        yield f"columns {first!r}", f"{first}\n", f"line 1 of the log has {words}"
    for first in "sep=,", "sep=;\r", '"sep=,"', "SEP=\t":
        yield f"{first} as its first line", f"{first}\n{head}{row}", "save it with commas, and without that line"
    for code in "utf-16-le", "utf-16-be":
        yield code, f"\ufeff{head}{row}".encode(code), "line 1 of the log begins as UTF-16: save it as UTF-8"
    yield "a long row behind one of two lines", f'{head}"a\nb",1\nweb-1,x\n', "line 4 of the log: x is no reading"
    yield "no bytes", "", "first line names no columns"
    yield "no column of times", "machine,when\n", "no column time: --time names another one"
    yield "two columns of machines", "machine,time,machine\n", "2 columns machine"
    yield "an answer", f"{head[:-1]},verdict\n", "has a column verdict already"
    yield "too many rows", head + "web-1,1\n" * 1_000_001, "line 1000002 of the log is that of more than 1,000,000"


def test_refused(place: Path) -> None:
    """A log with a row that is no event is refused with its line before anything is written."""
    folders = fleet_of(place, "web-1")
    for name, text, words in refused():
        status, out, err = dossier("events", "--split", place / "out", log_of(place, text), *folders)
        check(f"a log with {name}", run=((status, out), (2, b"")), told=(words in err.decode(), True),
              line=(err.count(b"\n"), 1), written=((place / "out").exists(), False))
    log = log_of(place, f"machine,time\nweb-1,{NOON}Z\n")
    for name, options, said in (("a page alone", ["--page", "day"], b"--page takes --split"),
                                ("a begin that is none", ["--from", "noon"], b"--from names a time")):
        status, out, err = dossier("events", *options, log, *folders)
        check(f"events with {name}", run=((status, out), (5, b"")), told=(said in err, True))
    check("no log", status=(dossier("events", place / "none", *folders)[0], 4))


def test_without(place: Path) -> None:
    """An event of which no time is known stays, with words; and where it has no folder, its line is told."""
    own, other = fleet_of(place, "web-1", "a/web-2")
    twin, again = day(place / "b" / "web-2", 0, RIGHT), day(own, 0, RIGHT, name="2001-09-16")
    dossier("audit", twin, again)
    late = day(own, 1, RIGHT)
    times = [("web-3", f"{NOON}Z"), ("web-3", f"{NOON}Z"), ("web-1", "2001-09-12T00:00:00Z"), ("web-1", f"{NOON}Z"),
             ("web-2", f"{NOON}Z"), ("web-1", "2001-09-10T12:00:00Z"), (str(other), f"{NOON}Z")]
    log = log_of(place, "machine,time\n" + "".join(f"{machine},{time}\n" for machine, time in times))
    status, out, err = dossier("events", log, own, other, own, twin.parent)
    check("events without a time", status=(status, 1), told=(err.decode().splitlines(), [
        "line 2 and 1 other: web-3: no folder of this machine", "line 4: web-1: no folder of this time",
        "line 5: web-1: in two folders of this machine", "line 6: web-2: two machines have this name",
        "line 7: web-1: not verified"]),
        words=(words_of(out), [*["no folder of this machine"] * 2, "no folder of this time",
                               "in two folders of this machine", "two machines have this name", "not verified", "yes"]),
        times=([bool(first or last) for first, last, _ in rows_of(out)], [False] * 6 + [True]))
    dossier("audit", late)
    shutil.rmtree(again)
    edges = ["2001-09-09T23:59:59Z", "2001-09-09T23:59:59.999999999Z", "2001-09-10T00:00:00.000000000Z",
             "2001-09-10T23:59:59.9Z", "2001-09-11T00:00:00Z", "2001-09-08T23:59:59Z"]
    log = log_of(place, "machine,time\n" + "".join(f"web-1,{time}\n" for time in edges))
    check("readings at the ends of days", words=(words_of(dossier("events", log, own)[1]),
                                                 ["yes"] * 4 + ["no folder of this time"] * 2))
    check("days that are named", words=(words_of(dossier("events", log, late)[1]), [
        *["no folder of this time"] * 2, "yes", "yes", *["no folder of this time"] * 2]))
    (late / "claim.json").write_text("{")
    status, out, err = dossier("events", log, own)
    check("a machine with a claim that is none", status=(status, 1), told=(b"claim.json isn't one" in err, True),
          words=(set(words_of(out)), {"no folder of this time"}))


def stepped(place: Path) -> Path:
    """A day on which the clock is set back by a minute just before noon."""
    words = [f"{server}:{low}..{low + 2000}@{FIRST + 64 * k}" for k in range(1350) for server in (1, 2, 3, 4)
             for low in [60 * 2**32 - 1000 if k < 675 else -1000]]
    span = {"from": "2001-09-09T00:00:00Z", "to": "2001-09-10T00:00:00Z", "drift_ppb": 100_000, "bound_ns": 10**8}
    return folder_of(place / "stepped", "2001-09-09", capture_of(place / "stepped.pcap", *words), **{**CLAIM, **span})


def test_verdicts(place: Path) -> None:
    """Times are told on days on which a course fits, and nothing speaks against the premises."""
    dossier("audit", day(place / "refuted", 0, WIDE), day(place / "no evidence", 0, RIGHT, servers=1))
    log = log_of(place, "machine,time\n" + "".join(f"{machine},{NOON}Z\n" for machine in ("refuted", "no evidence")))
    status, out, _ = dossier("events", log, place / "refuted", place / "no evidence")
    check("days that aren't shown", status=(status, 1), rows=(rows_of(out), [
        ["2001-09-09T11:59:59.998000000Z", "2001-09-09T12:00:01.002000000Z", "refuted"], ["", "", "no evidence"]]))
    none = {**ENVIRONMENT, "NTPAUDIT_LEAP_SECONDS": str(place / "none")}
    _, out, err = dossier("events", log, place / "refuted", env=none)
    words = "refuted and a premise is spoken against"
    check("days without a list of leap seconds", rows=(rows_of(out)[0], ["", "", words]),
          told=(err.decode().splitlines()[0], f"line 2: refuted: {words} (no list of leap seconds)"))
    dossier("audit", folder := stepped(place))
    times = ["2001-09-09T06:00:00Z", "2001-09-09T11:59:00Z", "2001-09-09T12:05:00Z", "2001-09-09T18:00:00Z"]
    log = log_of(place, "machine,time\n" + "".join(f"stepped,{time}\n" for time in times))
    out = dossier("events", log, folder)[1]
    first, *_, last = rows_of(out)
    check("a day with a step", words=([words.partition(" between")[0] for words in words_of(out)], [
        "nothing fits as a whole and refuted", "nothing fits and the clock may have been stepped then",
        *["nothing fits as a whole and yes"] * 2]), none=(rows_of(out)[1][:2], ["", ""]),
        before=(first[:2], lambda ends: "2001-09-09T05:58:58Z" < ends[0] < "2001-09-09T05:59:00Z" < ends[1] <
                "2001-09-09T05:59:02Z"),
        behind=(last[:2], lambda ends: "2001-09-09T17:59:58Z" < ends[0] < times[3] < ends[1] < "2001-09-09T18:00:02Z"))
    (folder / "f.pcap").write_bytes((folder / "f.pcap").read_bytes()[:-3000])
    status, out, err = dossier("events", log, folder)
    check("a day with a step that was changed", words=(words_of(out), ["refused"] * 4),
          told=(b"f.pcap was changed since the audit" in err, True))


def test_audits(place: Path) -> None:
    """Of a folder of one audit, of one that is audited by days, and of days that are packed times are the same."""
    folders, log = fleet_of(place, "web-1"), log_of(place, f"machine,time\nweb-1,{NOON}Z\n")
    wanted = dossier("events", log, *folders)[1]
    alone = place / "alone" / "web-1"
    shutil.copytree(folders[0] / "2001-09-09", alone)
    check("a machine with one audit", same=(dossier("events", log, alone)[1] == wanted, True))
    dossier("audit", "--days", "--again", alone)
    check("one that is audited by days", rows=(rows_of(dossier("events", log, alone)[1]), rows_of(wanted)))
    for word in KEEP:
        dossier(*word, folders[0] / "2001-09-09")
        names = [path.name for path in files_in(folders[0] / "2001-09-09", "*.pcap*")]
        check("a day that is packed", names=(names, ["f.pcap.zst"]),
              same=(dossier("events", log, *folders)[1] == wanted, True))
    changed = folder_of(place / "changed", "2001-09-09", alone / "f.pcap", alone / "claim.json")
    dossier("audit", changed)
    (changed / "f.pcap").write_bytes((changed / "f.pcap").read_bytes()[:-100])
    log = log_of(place, f"machine,time\nchanged,{NOON}Z\n")
    status, out, err = dossier("events", log, changed)
    check("a capture that was changed", status=(status, 1), words=(words_of(out), ["refused"]),
          told=(b"f.pcap was changed since the audit" in err, True))
    script = 'case $1 in at) echo "reading 1 hull 0 0 true 4294967296 8589934592"; exit; esac'
    other = stand_in(place / "program", script)
    shutil.copy(alone / "f.pcap", changed)
    check("a program that answers something else", words=(words_of(dossier("events", log, changed, env=other)[1]),
                                                          ["refused"]))


def test_sorted(place: Path) -> None:
    """The rows in each order; those without a time come last, and keep their order."""
    folders = fleet_of(place, "web-1", "web-2")
    times = ["web-9,1000036800", "web-1,1000036801.5", "web-2,1000036801", "web-9,1000036700", "web-1,1000036801.2"]
    log = log_of(place, "machine,time\n" + "\n".join(times))
    for order, wanted in (("given", [0, 1, 2, 3, 4]), ("time", [3, 0, 2, 4, 1]), ("earliest", [2, 4, 1, 0, 3]),
                          ("latest", [4, 1, 2, 0, 3])):
        lines = dossier("events", "--sort", order, log, *folders)[1].decode().split("\n")
        rows = [",".join(line.split(",")[:2]) for line in lines[1:] if line]
        check(f"rows by {order}", rows=(rows, [times[k] for k in wanted]), end=(lines[-1] == "", order != "given"))


def test_verified(place: Path) -> None:
    """A byte that is changed in the log, the answer, the page, the record, or in a folder is seen."""
    folders, out = fleet_of(place, "web-1", "web-2"), place / "out"
    log = log_of(place, f"machine,time\nweb-1,{NOON}Z\nweb-9,{NOON}Z\nweb-2,{NOON}.5Z\nweb-2,1\n")
    made = dossier("events", "--split", out, "--page", "minute", "--sort", "latest", log, *folders)
    check("an answer in a folder", run=(made[:2], (1, b"")), log=((out / "events.csv").read_bytes(), log.read_bytes()),
          same=((out / "answered.csv").read_bytes(), dossier("events", "--sort", "latest", log, *folders)[1]))
    status, said, _ = dossier("verify", out, *folders[0].iterdir(), *folders[1].iterdir())
    lines = [line for line in said.decode().splitlines() if "is a copy" not in line]
    check("verify an answer", status=(status, 0),
          last=(lines[-1],
                f"{out}: verified: its times follow from the log and from the audits of its machines' folders"),
          days=(sorted(lines[:-1]), [f"{folder}/2001-09-09: verified: yes" for folder in folders]),
          whole=(dossier("verify", out, place / "fleet")[0], 0))
    status, said, _ = dossier("verify", out, folders[0])
    check("one whose folders aren't named", status=(status in (2, 4), True), told=(
        f"{folders[1]}/2001-09-09 is in no folder that is named" in said.decode(), True))
    record = json.loads((out / "events.json").read_text())
    for name, old, new, words in (
            ("events.csv", b"web-9", b"web-8", "events.csv isn't the file that events.json names"),
            ("answered.csv", b"767Z", b"768Z", "answered.csv isn't what the log and the folders come to (line 2)"),
            ("index.html", b"Within ms", b"within ms", "index.html isn't what"),
            ("events.json", b'"latest"', b'"given"', "answered.csv isn't what"),
            ("events.json", b'web-1",', b'web-3",', "which has another name"),
            ("events.json", record["machines"][0]["days"]["2001-09-09"].encode(), b"0" * 64, "events.json: machines 0"),
            ("events.json", b'"made": "20', b'"made": "90', "events.json is dated in the future"),
            ("events.json", b'"log"', b'"lag"', "events.json isn't one that is taken")):
        kept = (out / name).read_bytes()
        (out / name).write_bytes(kept.replace(old, new, 1))
        status, said, _ = dossier("verify", out, *folders)
        check(f"{name} with {new[:20]!r}", changed=((out / name).read_bytes() == kept, False),
              status=(status, lambda status: status in (1, 2, 4)), told=(words in said.decode(), True))
        (out / name).write_bytes(kept)
    with open(out / "events.json", "ab") as opened:
        opened.write(b" " * 2**24)
    check("an events.json as large as that of 200,000 days", status=(dossier("verify", out, *folders)[0], 0))
    (out / "index.html").unlink()
    check("a page that is gone", told=(b"index.html isn't there" in dossier("verify", out, *folders)[1], True))
    changed = folders[0] / "2001-09-09" / "f.pcap"
    changed.write_bytes(changed.read_bytes() + b"\0")
    status, said, _ = dossier("verify", out, *folders)
    check("a folder that was changed", status=(status, 1), told=(b"2001-09-09: f.pcap isn't the file" in said, True))


def test_page(place: Path) -> None:
    """The timeline's rows, what can't be told apart, and where all above is before all below."""
    folders = fleet_of(place, "web-1", "web-2")
    times = ["web-1,{}.000000000Z,<b>", "web-2,{}.0000001Z,", "web-1,{}.000000500Z,", "web-2,{}.000001Z,",
             "web-2,{}.5Z,", "web-9,{}Z,", "web-1,2001-09-09T13:00:00Z,"]
    log = log_of(place, "machine,time,what\n" + "".join(f"{line.format(NOON)}\n" for line in times))
    for unit, rows, beside in (("second", 5, "1 event lies outside"), ("minute", 5, "1 event lies outside"),
                               ("day", 6, "")):
        dossier("events", "--split", place / unit, "--page", unit, "--title", "A <log>", "--from", f"{NOON}Z", log,
                *folders)
        text = (place / unit / "index.html").read_text()
        page = check_page(f"the page of a {unit}", text)
        check(f"a {unit}", rows=(text.count('class="bar"'), rows), title=("A <log>" in unescape(text), True),
              beside=(beside in text, True), others=("<b>" in text, False), words=(words_in(page), True),
              cells=(cells_of(text)[:5], ["3", "2, 4", "3", "none", "none"]),
              cuts=(text.count('class="cut"'), rows - 3))
    dossier("events", "--split", place / "own", "--page", "second", log, *folders)
    check("a timeline that begins with the first event", begin=(
        "the second from 2001-09-09T11:59:59Z on" in (place / "own" / "index.html").read_text(), True))
    within = log_of(place, f"machine,time\nweb-1,{NOON}.7Z\nweb-1,{NOON}.75Z\nweb-1,{NOON}.8Z\n")
    dossier("events", "--split", place / "within", "--page", "second", "--from", f"{NOON}Z", within, *folders)
    check("readings of one clock, of which one lies in another", cells=(
        cells_of((place / "within" / "index.html").read_text()), ["3", "2", "none"]))
    many = log_of(place, "machine,time\n" + "".join(f"web-{1 + k % 2},{NOON}.{k:03}Z\n" for k in range(600)))
    dossier("events", "--split", place / "many", "--page", "minute", "--from", f"{NOON}Z", many, *folders)
    text = (place / "many" / "index.html").read_text()
    check("a page of many", rows=(text.count('class="bar"'), 500), left=("100 more events aren&#39;t drawn" in text
                                                                         or "100 more events aren't drawn" in text,
                                                                         True))


def test_example(place: Path) -> None:
    """Of the log of data/events four pairs can't be told apart, each of two machines; two events of one machine can,
    whose times overlap."""
    shutil.copytree(DATA / "events", place / "events")
    folders = [place / "events" / "web-1", place / "events" / "web-2"]
    dossier("audit", *folders)
    ran = dossier("events", "--split", place / "out", "--page", "minute", place / "events" / "log.csv", *folders)
    cells = cells_of((place / "out" / "index.html").read_text())
    rows = rows_of((place / "out" / "answered.csv").read_bytes())
    check("the example", run=(ran, (0, b"", b"")), rows=(len(cells), 20), overlap=(rows[4][1] > rows[5][0], True),
          pairs=({line: cell for line, cell in enumerate(cells, 2) if cell != "none"},
                 {8: "9", 9: "8", 10: "11", 11: "10", 16: "17", 17: "16", 19: "20", 20: "19"}))


def cells_of(text: str) -> list[str]:
    """Of each row from which others it can't be told."""
    return [row.split("<td")[-1].partition(">")[2].partition("<")[0].strip() for row in text.split("</tr>")[1:-1]]


def words_in(page: Outline) -> bool:
    return any("no more than 1 group was wrong" in words for words in page.words)
