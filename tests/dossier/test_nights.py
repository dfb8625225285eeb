"""Tests of what else is said at three in the night: of names, of packets that are there twice, and of drafts, with the
commands that mend it. What is said of clocks and servers is held to histories (tests/truth).
"""
import gzip
import json
import os
import shutil
import time
from pathlib import Path

from tests.support import DATA, ROOT, check, is_here, run
from tests.dossier.audits import (ENVIRONMENT, SCRIPT, capture_of, dossier, folder_of, match_of, rows, table,
                                  with_change)
from tests.dossier.test_daily import DAY, NIGHT, recorded
from tests.dossier.test_moments import since_boot, word_of_recorder
from tests.dossier.leaps import leap_list
from tests.tools.wire import records_of
from tests.truth.clock import SECOND
from tests.truth.files import capture
from tests.truth.forms import WHEN, when_of
from tests.truth.test_cases import MIDNIGHT, stepped

VLAN = DATA / "vlan-ns.pcap", DATA / "vlan-ns.claim.json"


def test_own_names(place: Path) -> None:
    """A command in a remedy of the program has the file's own name."""
    folder = folder_of(place, "no capture", *VLAN)
    (folder / "f.pcap").rename(folder / "-a b.pcap").write_bytes(b"x" * 100)
    dossier("audit", folder)
    said = table(folder)[0]["to_do"]
    check("a file that is no capture", said=("editcap -F pcap './-a b.pcap' new.pcap" in said, True))


def test_asked_elsewhere(place: Path) -> None:
    """Requests and replies that two interfaces recorded at once: neither of the two files follows the other."""
    folder = folder_of(place, "asked", *VLAN)
    whole = (folder / "f.pcap").read_bytes()
    for name, is_request in (("f.pcap", True), ("a.pcap", False)):
        own = [record for record in records_of(whole)[:200] if (record[56:58] == b"\0\x7b") == is_request]
        (folder / name).write_bytes(whole[:24] + b"".join(own))
    check("asked elsewhere", line=(dossier("audit", folder)[1].split()[0], b"yes"))


def test_replies_alone(_: Path) -> None:
    """What was recorded while no server was heard: replies, whose requests weren't, are something."""
    from dossier.folder.entry import Silence
    from dossier.verdict.alerts import silent
    for requests, replies, words in rows((0, 0, "nothing of this client was recorded"),
                                         (3, 0, "nobody answered, of 3 requests"),
                                         (0, 7, "no reply was of use, of 7 to 0 requests")):
        said = silent(Silence(0, 600 * SECOND, requests, replies))
        check(f"{requests} requests, {replies} replies", said=(said.endswith(f": {words}."), True))


def test_displaced(place: Path) -> None:
    """A capture whose requests another has too, by other stamps: each command that audits says so."""
    folder = folder_of(place, "displaced", *VLAN)
    whole = (folder / "f.pcap").read_bytes()
    later = [record[:4] + (int.from_bytes(record[4:8], "little") % 999_999_000 + 1).to_bytes(4, "little") + record[8:]
             for record in records_of(whole)]
    (folder / "a.pcap").write_bytes(whole[:24] + b"".join(later))
    told = "packets were recorded once more, the first of them in a.pcap and f.pcap"
    for words in (("audit", folder), ("audit", folder), ("audit", "--days", folder), ("verify", folder)):
        lines = dossier(*words)[1].decode().splitlines()
        check(f"{words[0]} of a capture that another displaces", line=(sum(told in line for line in lines), 1))


def test_drafts_of_nights(place: Path) -> None:
    """A draft says why nothing fits it, and what was meant by other operands; a configuration may come by a pipe."""
    history = stepped(MIDNIGHT + 600 * SECOND, -SECOND // 20).live()
    stepping = place / "stepped.pcap"
    stepping.write_bytes(capture(history, history.recorders[0]))
    status, _, err = dossier("draft", stepping)
    said, jump = err.decode(), history.clock.jumps[0]
    when = when_of(match_of(WHEN, said)[0])
    check("a draft that nothing fits", status=(status, 0), bound=("least bound" in said, False),
          said=("Nothing fits this draft, so no claim by it is shown: the clock was stepped" in said, True),
          around=(when.first <= jump.before and jump.after <= when.last, True), ticks=("`" in said, False))
    twice, whole = folder_of(place, "twice", *VLAN), VLAN[0].read_bytes()
    (twice / "f.pcap").write_bytes(whole[:24] + b"".join(2 * record for record in records_of(whole)))
    status, out, err = dossier("draft", twice / "f.pcap")
    check("a draft of packets twice", run=((status, out), (0, dossier("draft", VLAN[0])[1])),
          said=(b"640 packets were recorded once more" in err, True),
          picture=(dossier("picture", VLAN[1], twice / "f.pcap")[1], dossier("picture", *reversed(VLAN))[1]))
    words = 'exec "$0" draft --chrony <(cat "$1") "$2"'
    configuration = DATA / "client/chrony.conf"
    piped = run(["bash", "-c", words, SCRIPT, configuration, VLAN[0]], env=ENVIRONMENT)
    named = dossier("draft", "--chrony", configuration, VLAN[0])
    check("a configuration by a pipe", status=(piped[0], 0), same=(piped[1], named[1]),
          drift=(json.loads(piped[1])["drift_ppb"], 600_000))
    status, _, err = dossier("draft", twice / "claim.json", stepping)
    check("a draft of a claim", run=((status, err), (5, b"ntpaudit-dossier: claim.json is JSON, such as a claim: draft "
                                                     b"takes captures alone, and prints a claim\n")))
    status, out, _ = dossier("audit", stepping)
    check("an audit of a capture", status=(status, 4), said=(b"a file is there. Name the folder in which it is" in out,
                                                             True))
    old = {**ENVIRONMENT, "NTPAUDIT_LEAP_SECONDS": str(leap_list(place / "ended", 1_782_777_600))}
    said = dossier("draft", VLAN[0], env=old)[2].decode()
    check("a draft with an old list", said=("The list of leap seconds was good until 2026-06-30 only" in said
                                            and "apt-get install tzdata" in said, True))


def test_own_remedies(place: Path) -> None:
    """The commands that the dossier names for a folder without a claim, or without an audit."""
    path = {**ENVIRONMENT, "PATH": f"{ROOT}:{ENVIRONMENT['PATH']}"}
    bare = folder_of(place, "it's bare", *VLAN)
    (bare / "claim.json").unlink()
    dossier("audit", bare)
    for name, cwd, verdict in (("without a claim", bare, "not audited"), ("without an audit", place, "yes")):
        row, = json.loads(dossier("page", "--json", bare)[1])
        command = match_of("`([^`]*)`", row["to_do"])[1]
        (bare / "audit.json").unlink(missing_ok=True)
        check(f"the command of a folder {name}", ran=(run(["sh", "-c", command], cwd=cwd, env=path)[0], 0))
        row, = json.loads(dossier("page", "--json", bare)[1])
        check(f"a folder that was {name}", verdict=(verdict in (row["verdict"], row["reason"][18:29]), True))


def test_day_of_a_wrong_clock(place: Path) -> None:
    """A clock ten hours ahead on the evening before, in the middle of a file: the day has that file, and is no yes. So
    has a day what was recorded on it under a name of 2099."""
    recorder, days, names = recorded(place, range(-6, 26))
    ahead, ticks = NIGHT + 6 * 3600, 36_000 << 32
    wrong = capture_of(place / "wrong.pcap", *(f"{server}:{ticks - 1000}..{ticks + 1000}@{ahead + second}"
                                               for second in range(0, 1800, 60) for server in (1, 2)))
    stray = recorder / names[2]
    whole, written = stray.read_bytes(), stray.stat().st_mtime
    cut = 24 + len(whole[24:]) // 2 // 106 // 4 * 4 * 106
    stray.write_bytes(whole[:cut] + wrong.read_bytes()[24:] + whole[cut:])
    os.utime(stray, (written, written))
    words, folder = ("day", "--from", recorder, "--to", days, "--date", "2001-09-09"), days / "2001-09-09"
    for name in (names[2], "eth0-2099-01-01T000000Z.pcap"):
        said = f"{name} shows times of 2001-09-09, though its name and age say otherwise\n"
        check("a day of a wrong clock", run=(dossier(*words), (0, f"{folder}\n".encode(), said.encode())),
              files=({path.name for path in folder.iterdir()} - set(names[5:32]), {"claim.json", names[2], name}),
              again=(dossier(*words)[2], b""))
        if name == names[2]:
            check("a day of a wrong clock", verdict=(dossier("audit", folder)[1].split()[0], b"nothing"))
            (recorder / names[13]).rename(recorder / "eth0-2099-01-01T000000Z.pcap")
            shutil.rmtree(folder)
            dossier(*words)
            (folder / "eth0-2099-01-01T000000Z.pcap").unlink()


def test_day_of_what_is_packed(place: Path) -> None:
    """A recording of a clock two days ahead, packed since: the day that it shows has it. One that can't be unpacked is
    named, with the days to which it counts, and has a status."""
    recorder, days, names = recorded(place, range(-3, 29))
    ticks, ahead = 2 * DAY << 32, NIGHT + 6 * 3600
    data = capture_of(place / "wrong.pcap", *(f"{server}:{ticks - 1000}..{ticks + 1000}@{ahead + second}"
                                              for second in range(0, 1800, 60) for server in (1, 2))).read_bytes()
    words, folder = ("day", "--from", recorder, "--to", days, "--date", "2001-09-09"), days / "2001-09-09"
    packed = {"gz": gzip.compress(data)}
    if is_here("zstd", "a recording that zstd packed"):
        packed["zst"] = run(["zstd", "-qc"], data)[1]
    for ending, stray in packed.items():
        path = recorder / f"eth0-2001-09-07T060000Z.pcap.{ending}"
        for name, bytes_, status, said in (
                ("whole", stray, 0, f"{path.name} shows times of 2001-09-09, though its name and age say otherwise\n"),
                ("damaged", stray[:9] + b"x" * 90, 2, "it counts to the days of its name alone\n")):
            path.write_bytes(bytes_)
            os.utime(path, (ahead - 2 * DAY, ahead - 2 * DAY))
            found, out, err = dossier(*words)
            lines = err.decode().splitlines(keepends=True)
            check(f"a day of what is packed: {ending}, {name}", run=((found, out), (status, f"{folder}\n".encode())),
                  said=([path.name in line and line.endswith(said) for line in lines], [True]),
                  there=((folder / path.name).exists(), not status))
            if not status:
                check(f"an audit of it: {ending}", verdict=(dossier("audit", folder)[1].split()[0], b"nothing"))
            shutil.rmtree(folder)
        path.unlink()


def test_still_written(place: Path) -> None:
    """What a recorder says that it writes isn't finished, though another file has a later name, or one of 2099."""
    recorder, days, names = recorded(place, range(4))
    (recorder / names[3]).rename(recorder / "eth0-2099-01-01T000000Z.pcap")
    for name in names[1:3]:
        word_of_recorder(recorder, since_boot(), since_boot(), [recorder / names[0], recorder / name])
        said = dossier("day", "--from", recorder, "--to", days, "--date", "2001-09-09")[2].decode()
        check("a file that is written", said=(f"{name} is still being written" in said, True),
              there=((days / "2001-09-09" / name).exists(), False))
        shutil.rmtree(days / "2001-09-09")


def test_set_clock(place: Path) -> None:
    """By a clock that was set to 2099, to 1970 or back by an hour `day --clear` takes nothing away that isn't in a
    day's folder, and says that the clock is wrong; when it is right again all goes on as before."""
    today = int(time.time()) // DAY * DAY
    recorder, days, names = recorded(place, range(-15 * 24, 0, 6), today)
    words = ("day", "--from", recorder, "--to", days, "--clear", "10")
    taken = "recordings taken away, which folders of days have too"
    for name, ahead, status, said, left, made in (
            ("2099", 4_084_000_000 - time.time(), 5, "is the clock right? --date makes a day of them", 60, 0),
            ("1970", 90_000 - time.time(), 0, "52 more are from the future: is the clock right?", 60, 0),
            ("an hour back", -min(3600, int(time.time() % DAY)), 0, f"6 {taken}", 54, 14),
            ("now", 0, 0, f"5 {taken}", 49, 14)):
        found = with_change(f"import time; true = time.time; time.time = lambda: true() + {ahead}", *words)
        stay = {path.name for path in recorder.iterdir()}
        check(f"days by a clock of {name}", status=(found[0], status), said=(said in found[2].decode(), True),
              left=(len(stay), left), days=(len(list(days.iterdir())), 1 + made),
              kept=({*names} - stay <= {path.name for path in days.glob("*/*")}, True))


def test_clear_of_a_wrong_clock(place: Path) -> None:
    """A recording in the midst of which the clock showed 2099 stays, since no day of then has it; others go, as one
    does that was begun in 2099 by its name alone."""
    today = int(time.time()) // DAY * DAY
    recorder, days, names = recorded(place, range(-15 * 24, 0, 6), today)
    wrong = capture_of(place / "wrong.pcap", "1:-1000..1000@4084000000x9").read_bytes()[24:]
    whole = (recorder / names[4]).read_bytes()
    (recorder / names[4]).write_bytes(whole[: 24 + 106 * 40] + wrong + whole[24 + 106 * 40 :])
    named = (recorder / names[5]).rename(recorder / "eth0-2099-01-01T000000Z.pcap")
    dossier("day", "--from", recorder, "--to", days, "--clear", "10")
    taken = sorted({*names} - {path.name for path in recorder.iterdir()})
    check("clearing what shows 2099", named=(named.exists(), False), taken=(taken, names[5:11]))


def test_year_of_a_wrong_clock(place: Path) -> None:
    """A day on which the clock was two days ahead stands in the machine's calendar."""
    recorder, days, _ = recorded(place, ())
    ticks = 2 * DAY << 32
    path = capture_of(recorder / "eth0-2001-09-09T000000Z.pcap", *(
        f"{server}:{ticks - 1000}..{ticks + 1000}@{NIGHT + 600 * k}" for k in range(144) for server in (1, 2)))
    os.utime(path, (NIGHT + DAY, NIGHT + DAY))
    dossier("day", "--from", recorder, "--to", days, "--date", "2001-09-09")
    dossier("audit", days / "2001-09-09")
    *_, err = dossier("year", "--year", "2001", "--split", place / "pages", days / "2001-09-09")
    pages = "".join(path.read_text() for path in (place / "pages").rglob("*.html"))
    check("a year of a wrong clock", err=(err, b""), said=("refuted" in pages, True))
