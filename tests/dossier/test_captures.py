"""Tests of what people have: captures that are packed, in pcapng, cut off, in several files, or of several days.

The pcapng files are written here, by the draft that describes them.
"""
import gzip
import json
import random
import re
import shutil
import struct
from pathlib import Path
from unittest.mock import patch

from tests.support import DATA, check, is_here, run, wanting
from tests.dossier.audits import (ENVIRONMENT, PROGRAM, SCRIPT, capture_of, check_page, dossier, folder_of, record_of,
                                  skipped, table)
from tests.tools import families
from tests.tools.wire import records_of as records_of


def block(order: str, kind: int, body: bytes) -> bytes:
    length = struct.pack(f"{order}I", 12 + len(body))
    return struct.pack(f"{order}I", kind) + length + body + length


def option(order: str, code: int, value: bytes) -> bytes:
    return struct.pack(f"{order}HH", code, len(value)) + value + bytes(-len(value) % 4)


def section(order: str) -> bytes:
    return block(order, 0x0A0D0D0A, struct.pack(f"{order}IHHq", 0x1A2B3C4D, 1, 0, -1))


def interface(order: str, resolution: int, link: int = 1, offset: int = 0) -> bytes:
    body = struct.pack(f"{order}HHI", link, 0, 0) + option(order, 2, b"eth0") + option(order, 9, bytes([resolution]))
    return block(order, 1, body + (option(order, 14, struct.pack(f"{order}q", offset))
                                   if offset else b"") + option(order, 0, b""))


def pcapng(whole: bytes, order: str = "<", resolution: int = 9, unit: int = 10**9, old: bool = False,
           **how: int) -> bytes:
    """A capture as pcapng, with blocks of other kinds between."""
    base = 2 ** (resolution & 127) if resolution & 128 else 10**resolution
    found = section(order) + block(order, 4, bytes(4)) + interface(order, resolution, **how)
    for record in records_of(whole):
        seconds, part, captured, length = struct.unpack("<IIII", record[:16])
        time = (seconds - how.get("offset", 0)) * base + part * base // unit
        first = struct.pack(f"{order}HH", 0, 0xFFFF) if old else struct.pack(f"{order}I", 0)
        body = first + struct.pack(f"{order}IIII", time >> 32, time & 0xFFFFFFFF, captured, length) + record[16:]
        found += block(order, 2 if old else 6, body + bytes(-len(record[16:]) % 4))
    return found + block(order, 5, bytes(12))


def packed_folder(place: Path, name: str, files: dict[str, bytes], base: str = "vlan-ns") -> Path:
    folder = folder_of(place, name, DATA / f"{base}.pcap", DATA / f"{base}.claim.json")
    (folder / "f.pcap").unlink()
    for file, data in files.items():
        (folder / file).write_bytes(data)
    return folder


def test_people_have(place: Path) -> None:
    """Whatever form a capture has, the answers are those of the classic one, and its own sum is the evidence."""
    nano, micro = ((DATA / f"{name}.pcap").read_bytes() for name in ("vlan-ns", "clients-us"))
    half = records_of(nano)[: len(records_of(nano)) // 2]
    rest = nano[:24] + b"".join(records_of(nano)[len(half) :])
    middle = 24 + sum(map(len, half))
    cases = {"gzip": ("vlan-ns", {"f.pcap.gz": gzip.compress(nano)}),
             "two gzips in one": ("vlan-ns",
                                  {"f.pcap.gz": gzip.compress(nano[:5000]) + gzip.compress(nano[5000:]) + bytes(100)}),
             "pcapng": ("vlan-ns", {"f.pcapng": pcapng(nano)}),
             "pcapng, big-endian": ("vlan-ns", {"f.pcapng": pcapng(nano, ">")}),
             "pcapng with old packets and an offset": ("vlan-ns",
                                                       {"f.pcapng": pcapng(nano, ">", old=True, offset=1000)}),
             "pcapng with microseconds": ("clients-us", {"f.pcapng": pcapng(micro, resolution=6, unit=10**6)}),
             "pcapng, two sections": ("vlan-ns", {"f.pcapng": pcapng(nano[:middle]) + pcapng(rest, ">")}),
             "rotated files of several kinds": ("vlan-ns",
                                                {"b.pcapng": pcapng(nano[:middle]), "a.pcap1.gz": gzip.compress(rest)}),
             "an empty file beside it": ("vlan-ns", {"f.pcap": nano, "g.pcap": b""})}
    if is_here("zstd", "captures in zstd"):
        cases["zstd"] = "vlan-ns", {"f.pcap.zst": run(["zstd", "-qc"], nano)[1]}
    plain = {base: folder_of(place, base, DATA / f"{base}.pcap", DATA / f"{base}.claim.json")
             for base in ("vlan-ns", "clients-us")}
    dossier("audit", *plain.values())
    for name, (base, files) in cases.items():
        folder = packed_folder(place, name, files, base)
        status, out, err = dossier("audit", folder)
        record = record_of(folder)
        made = (folder / "joined.pcap").read_bytes()
        check(f"captures: {name}", status=(status, 0), error=(err, b""), capture=(record["capture"], "joined.pcap"),
              inputs=(sorted(record["inputs"]), sorted({"claim.json", *files})),
              same=([(folder / file).read_bytes() == (plain[base] / file).read_bytes()
                     for file in ("report.txt", "envelope.txt", "certificate.json")], [True] * 3),
              records=(made[24:], (DATA / f"{base}.pcap").read_bytes()[24:]),
              verified=(dossier("verify", folder), (0, f"{folder}: verified: yes\n".encode(), b"")),
              again=(b"(unchanged)" in dossier("audit", folder)[1], True),
              calls=("joined.pcap certificate.json" in dossier("page", folder)[1].decode(), True))
        status, out, _ = dossier("draft", *(folder / file for file in files))
        check(f"a draft of captures: {name}", status=(status, 0),
              client=(json.loads(out or "{}").get("servers"),
                      json.loads(dossier("draft", DATA / f"{base}.pcap")[1])["servers"]))


def test_many_files(place: Path) -> None:
    """More files than a process may hold open by default."""
    whole = (DATA / "clients-us.pcap").read_bytes()
    files = {f"f-{number:05}.pcap": whole[:24] + b"".join(records_of(whole)[number :: 1200]) for number in range(1200)}
    folder = packed_folder(place, "many", files, "clients-us")
    status, out, err = run(["bash", "-c", 'ulimit -Sn 256; exec "$0" audit "$1"', SCRIPT, folder], env=ENVIRONMENT)
    check("1,200 files", run=((status, err), (0, b"")),
          records=((folder / "joined.pcap").read_bytes()[24:], whole[24:]))


def test_joins(place: Path) -> None:
    """Records of several files come in order of time, as a merge by hand has them; of one time the first file's."""
    from dossier.capture.classic import Classic, join
    rnd, seen, known = random.Random(11), {True: 0, False: 0}, {True: 0, False: 0}
    for trial in range(400):
        times = [rnd.randrange(40) for _ in range(rnd.randrange(12))]
        times = sorted(times) if rnd.random() < 0.8 else times
        cuts = sorted(rnd.randrange(len(times) + 1) for _ in range(rnd.randrange(4)))
        files = [times[a:b] for a, b in zip([0, *cuts], [*cuts, len(times)])]
        if rnd.random() < 0.5:
            rnd.shuffle(files)
        units = [rnd.choice((10**6, 10**9)) if trial % 3 == 0 else 10**9 for _ in files]
        unit, left, wanted = min(units), [list(enumerate(own)) for own in files], []
        while any(left):
            _, number = min((own[0][1], number) for number, own in enumerate(left) if own)
            position, time = left[number].pop(0)
            wanted.append(struct.pack("<IIII", time, 7 * unit // 10, 2, 60) + bytes((number, position)))
        captures = {}
        for number, (own, each) in enumerate(zip(files, units)):
            order = rnd.choice("<>")
            data = struct.pack(f"{order}IHHIIII", {10**6: 0xA1B2C3D4, 10**9: 0xA1B23C4D}[each], 2, 4, 0, 0, 262_144, 1)
            for position, time in enumerate(own):
                data += struct.pack(f"{order}IIII", time, 7 * each // 10, 2, 60) + bytes((number, position))
            (place / f"{number}").write_bytes(data)
            captures[f"{number}"] = Classic(str(place / f"{number}"))
        extent = join(captures, str(place / "joined"))
        found, is_known = (place / "joined").read_bytes(), extent is not None
        known[is_known] += 1
        is_right = extent in (None, Classic(str(place / "joined")).extent)
        seen[is_right and found[24:] == b"".join(wanted) and records_of(found) == wanted] += 1
    check("joins", seen=(seen, {True: 400, False: 0}), known=(min(known.values()) > 10, True))


def test_units(place: Path) -> None:
    """No time becomes more exact than it was: of nanoseconds and microseconds together microseconds are left."""
    nano = (DATA / "vlan-ns.pcap").read_bytes()
    cut = b"".join(struct.pack("<IIII", s, part // 1000, c, n) + record[16:] for record in records_of(nano)
                   for s, part, c, n in [struct.unpack("<IIII", record[:16])])
    micro = bytes.fromhex("d4c3b2a1") + nano[4:24] + cut
    for name, files in {"joined": {"f.pcap": nano, "g.pcap": micro[:24]},
                        "of two interfaces": {"f.pcapng": pcapng(nano) + section("<") + interface("<", 6)}}.items():
        folder = packed_folder(place, name, files)
        status = dossier("audit", folder)[0]
        made = (folder / "joined.pcap").read_bytes()
        times = [struct.unpack("<II", record[:8]) for record in records_of(made)]
        wanted = [struct.unpack("<II", record[:8]) for record in records_of(micro)]
        check(f"times {name}", status=(status, 0), magic=(made[:4].hex(), "d4c3b2a1"), times=(times == wanted, True))


def test_torn(place: Path) -> None:
    """A capture whose last record is torn counts up to there, with a warning that has its own name."""
    nano = (DATA / "vlan-ns.pcap").read_bytes()
    whole = 24 + sum(map(len, records_of(nano)[:500]))
    ng = pcapng(nano)
    cases = {"in its packet": ({"f.pcap": nano[: whole + 60]}, "f.pcap", whole),
             "in its head": ({"f.pcap": nano[: whole + 9]}, "f.pcap", whole),
             "one of two": ({"000003.pcap": nano[: whole + 60], "000004.pcap": nano[:24]}, "000003.pcap", whole),
             "in gzip": ({"f.pcap.gz": gzip.compress(nano)[:20000]}, "f.pcap.gz", None),
             "in pcapng": ({"f.pcapng": ng[: len(ng) * 3 // 4]}, "f.pcapng", None)}
    for name, (files, named, at) in cases.items():
        folder = packed_folder(place, name, files)
        status, out, err = dossier("audit", folder)
        row, entry = table(folder)[0], record_of(folder)["entries"][0]
        warning, = (warning for warning in entry["warnings"] if warning["kind"] == "torn")
        made, text = (folder / "joined.pcap").read_bytes(), dossier("page", folder)[1].decode()
        check(f"a torn capture: {name}", status=(status, 0), error=(err, b""),
              warned=(any(words.startswith(f"{named} ends inside a record") for words in row["warnings"]), True),
              place=(warning["place"], at or warning["place"]),
              made=(nano.startswith(made) and len(made) > 20_000, True),
              page=(f"{named} ends inside a record" in text, True), verified=(dossier("verify", folder)[0], 0),
              whole=(24 + sum(map(len, records_of(made))), len(made)))
    status, _, err = dossier("draft", place / "in its packet" / "f.pcap")
    check("a draft of a torn capture", status=(status, 0), told=(b"\nf.pcap ends inside a record" in b"\n" + err, True))


DAY, NOON = 86_400, 1_000_000_000 - 1_000_000_000 % 86_400 + 43_200
MS = 4_294_967


def days_of(place: Path, name: str, words: list[str], days: int = 3, **changes: object) -> Path:
    """A folder whose claim spans some days from the noon of 2001-09-09 on."""
    claim = {"client": "192.0.2.10", "servers": ["192.0.2.1", "192.0.2.2"], "false_max": 0,
             "from": "2001-09-09T12:00:00Z", "to": f"2001-09-{8 + days:02}T12:00:00Z", "bound_ns": 60_000_000,
             "drift_ppb": 200, "reading_ns": 0}
    return folder_of(place, name, capture_of(place / f"{name}.pcap", *words), **{**claim, **changes})


def test_own_records(place: Path) -> None:
    """A day is settled on its own records and an hour beside it: what happens on another day is that day's alone."""
    hours = [(NOON + 3600 * hour, server) for hour in range(1, 48) for server in (1, 2)]
    words = [f"{server}:{low}..{low + 9}@{second}" for second, server in hours
             for low in [500 * MS if second > NOON + 20 * 3600 else 0]]
    stepped = days_of(place, "stepped", words)
    status, _, _ = dossier("audit", "--days", stepped)
    rows, entries = table(stepped), record_of(stepped)["entries"]
    check("a step on another day", status=(status, 1),
          verdicts=([(row["day"], row["verdict"]) for row in rows],
                    [("2001-09-09", "yes"), ("2001-09-10", "nothing fits"), ("2001-09-11", "refuted")]),
          spans=([row[end] for row in rows for end in ("begin", "end")][1:3], ["2001-09-10T00:00:00Z"] * 2),
          verified=(dossier("verify", stepped),
                    (1, f"{stepped}: verified: 1 yes, 1 nothing fits, 1 refuted\n".encode(), b"")))
    whole = (stepped / "f.pcap").read_bytes()
    for number, row in enumerate(rows):
        first, last = (NOON + DAY * (number - 1) + 43_200 - 3600 if number
                       else NOON - 3600), (NOON + 43_200 + DAY * number if number < 2 else NOON + 2 * DAY) + 3600
        own = [record for record in records_of(whole) if first * 10**9 <= int.from_bytes(record[:4], "little") * 10**9
               + int.from_bytes(record[4:8], "little") <= last * 10**9]
        made = (stepped / row["day"] / "joined.pcap").read_bytes()
        check(f"the records of {row['day']}", same=(made == whole[:24] + b"".join(own), True),
              count=(entries[number]["counts"]["records"], len(own)),
              settles=(run([PROGRAM, "settle", stepped / row["day"] / "claim.json",
                            stepped / row["day"] / "joined.pcap"])[0], int(row["verdict"] != "yes")))
    text = dossier("page", stepped)[1].decode()
    check_page("a page of own records", text)
    check("the calls of a day", own=(text.count("ntpaudit settle claim.json joined.pcap"), 3))
    single = days_of(place, "single", [f"{server}:0..9@{NOON + 60 * k}" for k in range(5) for server in (1, 2)],
                     to="2001-09-09T12:04:00Z")
    dossier("audit", "--days", single)
    check("a capture of one day isn't copied", left=([path.name for path in single.rglob("joined.pcap")], []),
          row=(table(single)[0]["verdict"], "yes"),
          calls=("claim.json ../f.pcap" in dossier("page", single)[1].decode(), True))
    dossier("audit", single)
    check("without days again", left=([path.name for path in single.iterdir() if path.is_dir()], []),
          rows=(len(table(single)), 1))


def test_many_exchanges(place: Path) -> None:
    """A capture of two days with more exchanges than the program takes at once, by days."""
    every, folder = 86_380_000, days_of(place, "many", [], days=2, servers=["192.0.2.101", "192.0.2.102"])
    asked = enumerate(range(NOON * 10**9, (NOON + DAY) * 10**9 - every, every))
    exchanges = families.Exchanges((number % 2, at, at + families.WAY_NS, -MS, MS) for number, at in asked)
    families.write(exchanges, folder / "f.pcap")
    check("so many exchanges at once",
          run=(dossier("audit", folder)[:2],
               (2, f"refused       {folder}: ntpaudit: exchanges over 1000000\n".encode())))
    status, out, err = dossier("audit", "--days", folder)
    check("so many exchanges by days", status=(status, 0), error=(err, b""),
          verdicts=([line.split()[0] for line in out.splitlines()], [b"yes", b"yes"]))


def short_record(second: int) -> bytes:
    return struct.pack("<IIII", second, 0, 1, 60) + b"x"


def test_remedies_work(place: Path) -> None:
    """The command that the dossier's remedy names for a capture that isn't in order: what comes out is audited."""
    from dossier.page.remedies import remedy
    name, whole = "the remedy of a capture: back and forth", (DATA / "clients-us.pcap").read_bytes()
    if not shutil.which("reordercap"):
        skipped(name, wanting("reordercap"))
        return
    folder = folder_of(place, "back and forth", to="2026-11-24T00:00:00Z")
    (folder / "f.pcap").write_bytes(whole + 300_000 * (short_record(1_795_331_030) + short_record(1_795_331_030 + DAY)))
    command = re.findall("`(reordercap .*?)`", remedy(dossier("audit", "--days", folder)[1].decode())[1])
    ran = [run(["sh", "-c", each], cwd=folder)[0] for each in command]
    (folder / "f.pcap").unlink()
    shutil.move(place / "g.pcap", folder)
    status, said, _ = dossier("audit", "--days", folder)
    check(name, ran=(ran, [0]), audited=(status, 1), verdict=(said.split()[0].decode(), "refuted"))


def test_hostile_captures(place: Path) -> None:
    """Packed and other captures of a stranger's: refused, with the file's own name, or settled, and nothing else."""
    nano = (DATA / "vlan-ns.pcap").read_bytes()
    packed, ng = gzip.compress(nano), pcapng(nano[: 24 + sum(map(len, records_of(nano)[:8]))])
    cases = {"a gzip with another byte": ({"f.pcap.gz": packed[:3000] + bytes([packed[3000] ^ 255]) + packed[3001:]},
                                          "f.pcap.gz can't be unpacked"),
             "a gzip in gzip": ({"f.pcap.gz": gzip.compress(packed)}, "capture 2 magic"),
             "no zstd": ({"f.pcap.zst": bytes.fromhex("28b52ffd") + b"x" * 50}, "f.pcap.zst "),
             "packets without times": ({"f.pcapng": section("<") + interface("<", 9) + block("<", 3, bytes(8))},
                                       "f.pcapng has packets without a time"),
             "milliseconds": ({"f.pcapng": pcapng(nano, resolution=3)}, "f.pcapng has times that are coarser"),
             "no Ethernet": ({"f.pcapng": pcapng(nano, link=113)}, "capture 4 link"),
             "two kinds of frames": ({"f.pcapng": pcapng(nano) + pcapng(nano, link=113)},
                                     "f.pcapng has frames of several kinds"),
             "no capture in the second": ({"f.pcap": nano, "g.pcap": b"x" * 100}, "g.pcap is no classic capture"),
             "damage in the second": ({"f.pcap": nano[:24], "g.pcap": nano[:24] + b"\xff" * 16 + nano[24:]},
                                      "g.pcap is damaged from byte 24 on"),
             "many interfaces": ({"f.pcapng": section("<") + interface("<", 9) * 1001},
                                 "f.pcapng has more than 1,000 interfaces"),
             "a block that is too long": ({"f.pcapng": ng + struct.pack("<II", 5, 1 << 30)},
                                          "f.pcapng is damaged at byte"),
             "empty files": ({"f.pcap": b"", "g.pcap": b""}, "ntpaudit: capture "),
             "a time beyond 2106": ({"f.pcapng": pcapng(nano).replace(interface("<", 9),
                                                                      interface("<", 9, offset=2**33))},
                                    "f.pcapng has a block that is damaged")}
    for name, (files, line) in cases.items():
        folder = packed_folder(place, name, files)
        status, out, err = dossier("audit", folder)
        check(f"a hostile capture: {name}", status=(status, lambda status: status in (2, 70)), error=(err, b""),
              line=(line in out.decode(), True), lines=(out.count(b"\n"), 1),
              left=((folder / "joined.pcap").exists(), False))


def test_altered_captures(place: Path) -> None:
    """A capture with bytes altered or cut off at random: no call breaks off."""
    nano, rnd, folders = (DATA / "vlan-ns.pcap").read_bytes(), random.Random(7), []
    ng = pcapng(nano[: 24 + sum(map(len, records_of(nano)[:8]))])
    for number in range(60):
        data = bytearray(ng)
        for _ in range(rnd.choice((1, 1, 2, 5))):
            data[rnd.randrange(len(data))] = rnd.choice((0, 1, 127, 128, 255, rnd.randrange(256)))
        folders.append(packed_folder(place, f"altered {number}", {"f.pcapng": bytes(data) if number % 2
                                                                  else bytes(data[: rnd.randrange(len(data))])}))
    status, out, err = dossier("audit", "--jobs", "2", *folders)
    check("altered captures", error=(err, b""), lines=(len(out.splitlines()), 61),
          crashed=([line for line in out.decode().splitlines()
                    if "the process of" in line or "can't be worked on" in line], []))


def test_limits_of_captures(place: Path) -> None:
    """A gzip that grows beyond its limit, and times that go back and forth."""
    from dossier.capture import captures
    from dossier.fault import Fault
    bomb, seen = place / "bomb.gz", list[str]()
    bomb.write_bytes(gzip.compress(bytes(50_000_000)))
    with patch.object(captures, "MAX_OF_A_CAPTURE", 10_000_000):
        try:
            captures.unpacked("bomb.pcap.gz", str(bomb))
        except Fault as fault:
            seen.append(fault.words)
    from dossier.capture import classic
    capture, runs = classic.Classic(str(DATA / "clients-us.pcap")), classic.MAX_RUNS
    spans = [(1_795_331_000 + 2 * k, 1_795_331_000 + 2 * k + 1) for k in range(30)]
    kept = sum(map(len, classic.runs_of(capture, spans)))
    classic.MAX_RUNS = kept - 1
    try:
        classic.runs_of(capture, spans)
    except Fault as fault:
        seen.append(fault.words)
    finally:
        classic.MAX_RUNS = runs
    check("times that go back and forth",
          said=(seen[1:], ["the times of the capture go back and forth between days too often"]), some=(kept > 3, True))
    check("a gzip that grows", said=(seen[:1], ["bomb.pcap.gz is too big: it has more than 10,000,000 bytes"]),
          left=((place / "bomb.gz.unpacked").stat().st_size <= 10_000_000, True))
