"""Tests of what the last minutes of a recording say: `ntpaudit-dossier now`. What it says of clocks and servers is held
to histories too (tests/truth/minutes.py).

The captures have times of today, since now is the machine's.
"""
import json
import os
import re
import signal
import struct
import subprocess
import time
from collections.abc import Iterable
from contextlib import chdir
from pathlib import Path
from typing import Any

from tests.support import SECONDS, check
from tests.dossier.audits import CAPTURE, ENVIRONMENT, SCRIPT, capture_of, civil, dossier, stand_in, with_change
from tests.dossier.test_captures import records_of
from tests.dossier.test_daily import metrics_of

CLAIM = {"client": "192.0.2.10", "servers": [f"192.0.2.{k}" for k in (1, 2, 3, 4)], "false_max": 1,
         "from": "2001-09-09T00:00:00Z", "to": "2001-09-10T00:00:00Z", "bound_ns": 5_000_000, "drift_ppb": 0,
         "reading_ns": 0}
RIGHT, AHEAD = "-1000..1000", "85899346..85903640"
"""Ends in ticks: under a microsecond, and 20.000 to 20.001 ms."""

Part = tuple[Any, ...]
"""From which second until which there are exchanges each ten seconds, their ends, and their servers if not all."""


def words_of(*parts: Part) -> list[str]:
    """The exchanges of some parts, in order of time."""
    every = [(second, server, ends) for begin, end, ends, *own in parts for second in range(begin, end, 10)
             for server in (own[0] if own else (1, 2, 3, 4))]
    return [f"{server}:{ends}@{second}" for second, server, ends in sorted(every, key=lambda one: one[0])]


def lately() -> int:
    """A second of a few seconds ago, which ends in a zero."""
    return (int(time.time()) - 5) // 10 * 10


def name_of(second: int, interface: str) -> str:
    return f"{interface}-{civil(second).replace(':', '')}.pcap"


def recorded(place: Path, begin: int, *parts: Part, interface: str = "eth0") -> Path:
    return kept(place, begin, CAPTURE(words_of(*parts)), interface)


def kept(place: Path, begin: int, data: bytes, interface: str = "eth0") -> Path:
    """A recorder's file, with the time at which it was written last: that of its last record."""
    place.mkdir(exist_ok=True)
    path = place / name_of(begin, interface)
    path.write_bytes(data)
    *_, last = records_of(data)
    at = int.from_bytes(last[:4], "little")
    os.utime(path, (at, at))
    return path


def requests_of(words: list[str]) -> bytes:
    """The records of exchanges that nobody answers."""
    return b"".join(record for record in records_of(CAPTURE(words)) if record[58] & 7 == 3)  # (a request's mode)


def claim_in(place: Path, **changes: object) -> Path:
    path = place / "any.claim.json"
    path.write_text(json.dumps({**CLAIM, **changes}))
    return path


def word_of_recorder(place: Path, at: float, last: float, files: Iterable[Path], number: int = 9) -> None:
    """Leaves what a recorder says of itself: by the time since the boot when it said so, and when it kept a record
    last; which files it began; and how many records it kept."""
    (place / "eth0.recording").write_text(json.dumps({
        "kind": "recording", "at": int(at), "last": int(last), "files": [file.name for file in files], "kept": number,
        "left_out": 0, "lost": 0}))


def since_boot() -> float:
    return time.clock_gettime(time.CLOCK_BOOTTIME)


def now(place: Path, *words: object, claim: Path | None = None) -> tuple[int | str, list[str], str]:
    status, out, err = dossier("now", "--from", place, "--claim", claim or claim_in(place.parent), *words)
    return status, out.decode().splitlines(), err.decode()


def looked(place: Path, *words: object, claim: Path | None = None) -> tuple[int | str, list[str], dict[str, str]]:
    """The status, the words of the first line, and its recorder's metrics, each by its name and what it is of."""
    status, lines, _ = now(place, "--metrics", place.parent / "m.prom", *words, claim=claim)
    found = {" ".join([name.removeprefix("now_"), *(value for label, value in labels if label != "recorder")]): value
             for (name, *labels), value in metrics_of(place.parent / "m.prom").items()}
    return status, lines[0].split("  "), found


def test_now(place: Path) -> None:
    """The line, by hand: the span, the verdict, the hull, the error now, the bound and the groups; and of a step the
    records between which it was, and what holds since."""
    last = lately()
    begin, moved = last - 1500, last - 300
    right, ahead = "-0.001 .. +0.001 ms", "+20.000 .. +20.001 ms"
    off = f"{ahead} of 5.000 ms  now {ahead}  least 20.001 ms  4 of 4 groups  the clock is off"
    step = r"stepped, or moved at [0-9,]+ ppm or more, between (\S+) and (\S+) by (\S+) .. (\S+) ms; since then "
    cases = {
        "right": ([(begin, last + 1, RIGHT)], 0, f"yes  {right} of 5.000 ms  now {right}  least 0.001 ms  4 of 4 "
                                                 "groups"),
        "off": ([(begin, last + 1, AHEAD)], 1, f"refuted  {off}"),
        "step": ([(begin, moved, RIGHT), (moved, last + 1, AHEAD)], 1, f"refuted  {step}{off}"),
        "healed": ([(begin, moved, AHEAD), (moved, last + 1, RIGHT)], 1,
                   f"yes  {step}{right} of 5.000 ms  now {right}  least 0.001 ms  4 of 4 groups"),
    }
    for name, (parts, wanted, words) in cases.items():
        recorded(place / name, begin, *parts)
        status, lines, err = now(place / name)
        found = re.fullmatch(rf"eth0  (\S+) \.\. (\S+)  {words.replace(' +', ' [+]')}", lines[0])
        first, end, *move = found.groups() if found else ("", "")
        check(f"the last minutes: {name}", run=((status, err, len(lines)), (wanted, "", 1)),
              line=(found and lines[0], lines[0]), end=(end[-9:], civil(last)[11:]))
        if not move:
            check(f"the last minutes begin: {name}", begin=(first, civil(last - 600)))
            continue
        after, by = move[0], move[1] if len(move[1]) > 9 else move[0][:11] + move[1]
        low, high = (float(end) for end in move[2:])
        size = 20 if name == "step" else -20
        check(f"the step: {name}", between=(after <= civil(moved) and civil(moved) <= by <= civil(moved + 30), True),
              since=(first, by), size=(low <= size <= high <= low + 0.1, True))
    recorded(place / "twice", begin, (begin, moved - 100, RIGHT), (moved - 100, moved, AHEAD), (moved, last + 1, RIGHT))
    _, line, figures = looked(place / "twice")
    low, high, at = (float(figures[f"last_step_{name}_seconds"]) for name in ("low", "high", "timestamp"))
    check("two steps", said=("  ".join(line).count("stepped"), 2), at=(moved <= at <= moved + 30, True),
          size=(-0.0201 < low <= high < -0.0199, True))


def test_nothing(place: Path) -> None:
    """A recorder that is silent, none, and no claim. A recorder that has left nothing for two polls, but for 60 s at
    least, isn't yes."""
    last = int(time.time()) // 10 * 10
    for name, age, verdict in (("50 s", 50, "yes"), ("70 s", 70, "no evidence")):
        recorded(place / name, last - 900, (last - 900, last - age + 1, RIGHT))
        check(f"nothing for {name}", verdict=(looked(place / name)[1][2], verdict))
    recorded(place / "old", last - 5100, (last - 5100, last - 2399, RIGHT))
    status, words, _ = looked(place / "old")
    check("a recorder that is silent", status=(status, 1), verdict=(words[2], "no evidence"),
          told=(f"nothing was recorded since {civil(last - 2400)}" in words[3], True))
    (place / "none").mkdir()
    status, words, _ = looked(place / "none")
    check("no recorder", run=(status, 1), told=("nothing was recorded" in "  ".join(words), True))
    status, _, err = now(place / "50 s", claim=place / "missing")
    check("no claim", run=((status, err.count("\n")), (4, 1)))


def test_servers(place: Path) -> None:
    """A server that is silent, and one that is off, are named; and two camps."""
    last = int(time.time()) // 10 * 10
    begin = last - 900
    recorded(place / "servers", begin, (begin, last + 1, RIGHT, (1, 2)), (begin, last - 100, RIGHT, (3,)),
             (begin, last + 1, AHEAD, (4,)))
    status, words, found = looked(place / "servers")
    off = [float(found[f"server_error_{end}_seconds 192.0.2.4"]) for end in ("low", "high")]
    check("servers that are off and silent", status=(status, 0),
          said=([word for word in words if "off" in word or "silent" in word or "group" in word],
                ["3 of 4 groups", "192.0.2.4 is off by -20.002 .. -19.999 ms", "silent: 192.0.2.3"]),
          silent=([found[f"server_silent 192.0.2.{k}"] for k in (1, 2, 3, 4)], ["0", "0", "1", "0"]),
          apart=([found.get(f"server_apart 192.0.2.{k}") for k in (1, 2, 3, 4)], ["0", "0", "0", "1"]),
          needed=((found["groups_heard"], found["groups_needed"]), ("3", "3")),
          off=(-0.0201 < off[0] < -0.02 < off[1] < -0.0199, True))
    groups = claim_in(place / "servers", groups=[[0, 2], [1], [3]])
    check("a group of which one is silent", said=("3 of 3 groups" in looked(place / "servers", claim=groups)[1], True))
    recorded(place / "camps", begin, (begin, last + 1, RIGHT, (1, 2)), (begin, last + 1, AHEAD, (3, 4)))
    status, words, found = looked(place / "camps")
    check("two camps", status=(status, 1), seen=((found["seen"], "clock_off" in found), ("0", False)), said=(
        "servers contradict one another: 192.0.2.1, 192.0.2.2 and 192.0.2.3, 192.0.2.4" in "  ".join(words), True))


def test_word_of_a_recorder(place: Path) -> None:
    """What stands beside the files as a recorder's word makes no old minutes a yes: it may be a stranger's, or be left
    by a crash or on a copied disk, or its recorder has no room. Nor does one of before a boot, and none since."""
    last = lately()
    for name, age, wanted in (("alone", 0, 0), ("before others", 0, 0), ("of a dead one", 100, 3600)):
        folder, at = place / name, since_boot() - age
        old = recorded(folder, last - 4500, (last - 4500, last - 3599, RIGHT))
        if name == "before others":
            recorded(folder, last - 900, (last - 900, last + 1, AHEAD))
        word_of_recorder(folder, at, at, [old])
        status, words, found = looked(folder)
        said = f"since {civil(last - 3600)}, 6[01][.][0-9] min ago" + (
            "" if age else ", by the recorder's word [0-9].0 s")
        check(f"a recorder's word: {name}", status=(status, 1), verdict=(words[2], "no evidence"),
              said=(bool(re.search(f"{said}  ", f"{'  '.join(words)}  ")), True),
              age=(0 <= float(found["last_record_age_seconds"]) - wanted <= 60, True),
              trouble=(("the recorder doesn't run" in "  ".join(words), found.get("recorder_trouble dead")),
                       (bool(age), str(int(bool(age))))))
    path = recorded(place / "boot", last - 900, (last - 900, last + 1, RIGHT))
    for ahead in (1000, -100):
        word_of_recorder(place / "boot", since_boot() + ahead, since_boot() + ahead, [path], 99)
        status, words, _ = looked(place / "boot")
        check(f"a word of a recorder that doesn't run: {ahead}", status=(status, 1), verdict=(words[2], "no evidence"))


def test_unanswered(place: Path) -> None:
    """Servers answer no more and the client asks on, whether its clock is stepped or not: what was shown until then is
    no yes of now. By a step back they were heard a moment ago by the clock, but not by what was recorded since. Nor is
    one that is set back by 40 s and shows the last minute again, until it has shown that."""
    last = lately()
    for name, step, begin in (("no step", 0, -390), ("a second", 1, -390), ("a year", 31_536_000, -390),
                              ("back", -380, -390), ("again", -390, -40)):
        heard = last - 400 - step
        answered, asked = CAPTURE(words_of((heard - 500, heard + 1, RIGHT))), words_of((last + begin, last + 1, RIGHT))
        kept(place / name, heard - 500, answered + requests_of(asked))
        status, words, found = looked(place / name)
        _, _, verdict, since, *rest = words
        check(f"unanswered: {name}", status=(status, 1), verdict=(verdict, "no evidence"),
              since=(since.partition(",")[0], f"too few groups were heard since {civil(heard)}"))
        if name != "again":
            check(f"who is silent: {name}", rest=(rest, [
                "0 of 4 groups, 3 needed", "silent: 192.0.2.1, 192.0.2.2, 192.0.2.3, 192.0.2.4"]),
                metrics=((found["seen"], "clock_off" in found, found["groups_heard"]), ("0", False, "0")))


def test_unanswered_seldom(place: Path) -> None:
    """A client that asks each 64 s and isn't answered for seven minutes: each of these leaps is time that went by, also
    if the clock was set back then."""
    for back in (0, 400):
        begin = int(time.time()) - 5 - 45 * 64 + back
        answered, asked = ([f"{server}:-1000..1000@{begin - less + 64 * k}" for k in own for server in (1, 2, 3, 4)]
                           for own, less in ((range(39), 0), (range(39, 46), back)))
        kept(place / f"{back}", begin, CAPTURE(answered) + requests_of(asked))
        status, words, _ = looked(place / f"{back}")
        check(f"unanswered, asked seldom and set back by {back} s", status=(status, 1),
              said=((words[2], words[3][:31]), ("no evidence", "too few groups were heard since")),
              heard=((words[4], words[5][:18]), ("0 of 4 groups, 3 needed", "silent: 192.0.2.1,")))


def test_few_groups(place: Path) -> None:
    """Two of four servers are heard, however long: one may be wrong, and a step not be seen, so it is no yes; but where
    both say the same it is known how the clock is now."""
    last = lately()
    begin = last - 900
    for name, ends, is_off in (("right", RIGHT, 0), ("off", AHEAD, 1)):
        recorded(place / name, begin, (begin, last + 1, ends, (1, 4)))
        status, words, found = looked(place / name)
        check(f"two of four servers: {name}", status=(status, 1), verdict=(words[2], "no evidence"), said=(words[4:], [
            "now +20.000 .. +20.001 ms" if is_off else "now -0.001 .. +0.001 ms", "2 of 4 groups, 3 needed",
            *["the clock is off"] * is_off, "silent: 192.0.2.2, 192.0.2.3"]),
            off=((found["seen"], found["clock_off"]), ("1", str(is_off))))
    recorded(place / "both", begin, (begin, last + 1, RIGHT, (1,)), (begin, last + 1, AHEAD, (4,)))
    check("two of four, which contradict each other", off=("clock_off" in looked(place / "both")[2], False))


def test_runs_away(place: Path) -> None:
    """A clock that moves faster than is granted, without an end: how far it is off is told by what was said last before
    the last second, unless more servers say otherwise than may be wrong."""
    last, tick = lately(), 1 << 32
    for name, moving in (("clock", (1, 2, 3, 4)), ("servers", (3, 4)), ("but one", (1, 2, 4))):
        kept(place / name, last - 900, CAPTURE([
            f"{server}:{far - 1000}..{far + 1000}@{second}" for second in range(last - 900, last + 1, 10)
            for server in (1, 2, 3, 4) for far in [(second - last + 800) * tick // 1000 * (server in moving)]]))
        status, words, found = looked(place / name)
        is_told = len(moving) > 2
        check(f"a clock that runs away: {name}", status=(status, 1), said=(words[2:6], [
            "nothing fits", *["now +789.999 .. +790.001 ms"] * is_told, "4 of 4 groups",
            *["the clock is off"] * is_told]), off=(found.get("clock_off"), "1" if is_told else None))


def test_wide(place: Path) -> None:
    """An error that may be within the bound and far beyond it is none of which is told that it isn't off."""
    last = lately()
    recorded(place / "rec", last - 900, (last - 900, last + 1, "-42949673..42949673"))
    for bound, off in ((9_000_000, None), (11_000_000, "0")):
        found = looked(place / "rec", claim=claim_in(place, bound_ns=bound))[2]
        check(f"a wide hull of {bound}", off=(found.get("clock_off"), off), seen=(found["seen"], "1"))


def test_one_for_all(place: Path) -> None:
    """One server alone hides nothing of the others: neither by a time that leaps ahead, as if the clock was stepped and
    no time went by, nor because it is asked seldom. And what it alone says at the end is no word about a step."""
    last, tick = lately(), 1 << 32
    begin = last - 900
    kept(place / "leaps", begin, CAPTURE(sorted([
        *words_of((begin, last + 1, RIGHT, (1, 2)), (begin, last - 300, RIGHT, (3,))),
        *(f"4:{k * 3600 * tick - 1000}..{k * 3600 * tick + 1000}@{begin + 10 * k}" for k in range(91))],
        key=lambda word: int(word.partition("@")[2]))))
    words = looked(place / "leaps")[1]
    check("a server that leaps", said=((words[-1], "3 of 4 groups" in words), ("silent: 192.0.2.3", True)))
    recorded(place / "seldom", begin, (begin, last - 119, RIGHT, (1, 2, 3)),
             *((second, second + 1, RIGHT, (4,)) for second in range(last - 720, last - 119, 300)))
    words = looked(place / "seldom")[1]
    check("a server that is asked seldom", verdict=(words[2], "no evidence"),
          said=(words[3].startswith("nothing was recorded since "), True))
    recorded(place / "end", begin, (begin, last - 39, RIGHT, (2, 3, 4)), (begin, last + 1, RIGHT, (1,)))
    words = looked(place / "end")[1]
    check("where the minutes end", end=(words[1][-9:], civil(last - 40)[11:]), verdict=(words[2], "yes"))


def test_to_and_fro(place: Path) -> None:
    """A clock that is stepped to and fro more often than moves are told, and then no more: what ended the fit is left
    out, and of what was recorded since then the error is told."""
    last = lately()
    for name, ends, verdict, error in (("right", RIGHT, "yes", "-0.001 .. +0.001 ms"),
                                       ("off", AHEAD, "refuted", "+20.000 .. +20.001 ms")):
        parts = [(last - 700 + 20 * k, last - 680 + 20 * k, (RIGHT, AHEAD)[k % 2]) for k in range(20)]
        recorded(place / name, last - 700, *parts, (last - 300, last + 1, ends))
        words = looked(place / name)[1]
        check(f"stepped to and fro, and then {name}", verdict=(words[2], verdict), said=(words[3:5], [
            f"nothing fits with what was before; since then {error} of 5.000 ms", f"now {error}"]),
            begin=(civil(last - 300) <= words[1].partition(" ")[0] <= civil(last - 60), True))


def test_one_sample(place: Path) -> None:
    """A server is off by two samples that miss the hull, and not by one, which may be the first behind a step. Of one
    that contradicts itself, where none may be wrong, nothing is said of the others, which agree."""
    last = lately()
    for number in (1, 2):
        begin = last - 5 - 10 * number
        recorded(place / f"{number}", last - 900, (last - 900, last + 1, RIGHT, (1, 2, 3)),
                 (last - 905, begin + 1, RIGHT, (4,)), (begin + 10, last, AHEAD, (4,)))
        said = "  ".join(looked(place / f"{number}")[1])
        check(f"a server of which {number} misses the hull", off=("192.0.2.4 is off by" in said, number == 2))
    changing = [(second, second + 1, (RIGHT, AHEAD)[second // 10 % 2], (4,))
                for second in range(last - 200, last + 1, 10)]
    recorded(place / "rec", last - 200, (last - 200, last + 1, RIGHT, (1, 2, 3)), *changing)
    words = looked(place / "rec", claim=claim_in(place, false_max=0))[1]
    check("a server that contradicts itself", verdict=(words[2], "nothing fits"),
          said=("192.0.2.1" in "  ".join(words), False))


def test_begun(place: Path) -> None:
    """A recorder that has just begun: what was recorded before may be older than a boot, whatever the clock shows, so
    there is no yes until it has heard enough groups itself."""
    last, at = lately(), since_boot()
    old = recorded(place / "rec", last - 900, (last - 900, last - 9, RIGHT))
    new = old.with_name(name_of(last - 9, "eth0"))
    for number, verdict, said, groups in (
            (0, "no evidence", f"nothing was recorded since {civil(last - 10)}", []),
            (4, "no evidence", f"too few groups were heard since {civil(last - 10)}", ["2 of 4 groups, 3 needed"]),
            (8, "yes", "-0.001 .. +0.001 ms of 5.000 ms", ["4 of 4 groups"])):
        new.write_bytes(CAPTURE(words_of((last, last + 1, RIGHT, (1, 2, 3, 4)[: number // 2]))))
        word_of_recorder(place / "rec", at, at if number else 0, [old, new], number)
        status, words, _ = looked(place / "rec")
        check(f"a recorder of {number} records", status=(status, int(verdict != "yes")), verdict=(words[2], verdict),
              said=(words[3][: len(said)], said), groups=([word for word in words if "group" in word][-1:], groups),
              silent=([word for word in words if "silent" in word], []))


def test_fall(place: Path) -> None:
    """A clock that falls back by 2 s, which far servers leave open: the error is that of what was recorded since, for
    the same readings were shown twice. By hand: it was within -1 .. +3 s, and is within -4 .. -0.5 s."""
    last, records = int(time.time()) - 2, list[bytes]()
    for begin, end, way, ahead in ((last - 300, last - 10, 4, 1), (last - 8, last - 4, 3.5, 4)):
        own = list[bytes]()
        for second in range(begin, end):
            words = [f"{1 + second % 4}:0..0@{time}" for time in (second, second + int(way))]
            asked, _, _, answered = records_of(CAPTURE(words))
            mark = struct.pack(">Q", 1 + len(records) + len(own))
            said = struct.pack(">QQ", *2 * [(second + ahead + 2_208_988_800) << 32])
            answered = answered[:4] + struct.pack("<I", int(way % 1 * 1e9) + 1000) + answered[8:-24]
            own += [asked[:-8] + mark, answered + mark + said]
        records += sorted(own, key=lambda record: struct.unpack("<II", record[:8]))
    kept(place / "rec", last - 300, CAPTURE([])[:24] + b"".join(records))
    status, words, _ = looked(place / "rec", claim=claim_in(place, bound_ns=5_000_000_000))
    check("a clock that falls back a little", status=(status, 1), said=(words[2:5], [
        "yes", "the times of records fall back; since then -4,000.001 .. -499.998 ms of 5,000.000 ms",
        "now -4,000.001 .. -499.998 ms"]))


def test_set_back(place: Path) -> None:
    """A clock that was set back: records later than the machine's clock are the finding, whichever file has them, and
    never a yes; and what follows is read as it was written."""
    last = lately()
    said = "the clock was set back: records up to 3[345]\\.[0-9] min ahead of it"
    cases = {"another file": [[(last - 900, last + 2040, RIGHT)], [(last - 60, last + 1, RIGHT)]],
             "nothing since": [[(last + 1140, last + 2040, RIGHT)]],
             "one file": [[(last + 1740, last + 2040, RIGHT), (last - 200, last + 1, RIGHT)]]}
    for name, files in cases.items():
        for parts in files:
            records = [record for part in parts for record in records_of(CAPTURE(words_of(part)))]
            kept(place / name, parts[0][0], CAPTURE([]) + b"".join(records))
        status, words, found = looked(place / name)
        check(f"a clock that was set back: {name}", status=(status, 1), yes=("yes" in words, False),
              said=(bool(re.search(said, "  ".join(words))), True),
              ahead=(1980 < float(found["records_ahead_seconds"]) < 2100, True))
        if name == "another file":
            check("the file that was written since", end=(civil(last)[11:] in words[1], True))
    for name, second in (("2099", 4_102_444_740), ("1970", 9)):
        recorded(place / name, second, (second, second + 60, RIGHT))
        recorded(place / name, last - 900, (last - 900, last + 1, RIGHT))
        words = looked(place / name)[1]
        check(f"a file of {name}", verdict=(words[2], "unsupported" if second > last else "yes"),
              said=("the clock was set back: records up to" in "  ".join(words), second > last))


def test_newest(place: Path) -> None:
    """Which file is the newest is told by what was written last: tcpdump's own numbers count as numbers, and an old
    file under the newest name is old."""
    last = lately()
    begin, numbered = last - 900, place / "numbered"
    for number in range(12):
        parts = ((begin + 60 * number, min(last + 1, begin + 60 * number + 60), AHEAD) if number < 11 else
                 (begin + 660, last + 1, RIGHT))
        path = recorded(numbered, begin, parts)
        os.utime(path, (last, last))
        path.rename(f"{path}{number or '.first'}")
    (numbered / f"{path.name}.first").rename(path)
    words = looked(numbered, "--minutes", "2")[1]
    check("files that tcpdump began by size", verdict=(words[2], "yes"), end=(civil(last)[11:] in words[1], True))
    old = place / "old"
    recorded(old, begin, (begin, last + 1, RIGHT))
    copy = recorded(old, last - 90_000, (last - 90_000, last - 89_000, AHEAD))
    copy.rename(old / name_of(last - 1, "eth0"))
    os.utime(old / name_of(last - 1, "eth0"))
    status, right, _ = looked(old)
    check("an old file under the newest name", status=(status, 0), verdict=(right[2], "yes"))
    own = recorded(place / "copied", last - 300, (last - 300, last + 1, RIGHT))
    for name, size in (("copy", 301 * 4 * 106 // 5), ("part", 24 + 60 * 4 * 106), ("short", 24 + 100 * 106)):
        copy = own.with_name(own.name.replace(".pcap", f"-{name}.pcap"))
        copy.write_bytes(own.read_bytes()[:size])
        check(f"a {name} beside", line=(looked(place / "copied")[1][2:], right[2:]))
        copy.unlink()


def test_step_ahead(place: Path) -> None:
    """By a step of 300 s ahead no server is silent that wasn't heard since; by a gap of that length one is."""
    last, ticks = lately(), 300 << 32
    for name, ends in ("step", f"{ticks - 1000}..{ticks + 1000}"), ("gap", RIGHT):
        recorded(place / name, last - 900, (last - 900, last - 309, RIGHT), (last - 10, last + 1, ends, (1, 2)))
        words = looked(place / name)[1]
        check(f"servers behind a {name}", silent=("silent: 192.0.2.3, 192.0.2.4" in words, name == "gap"),
              heard=("4 of 4 groups" in words, name == "step"))


def test_order(place: Path) -> None:
    """A clock ten minutes ahead that was set back: the recorder says which of its files came after which, though the
    first was written later by the clock."""
    last, ticks, files = lately(), 600 << 32, list[Path]()
    parts = [(last - 1810, last - 600, f"{ticks - 1000}..{ticks + 1000}"), (last - 1200, last - 900, RIGHT),
             (last - 900, last + 1, RIGHT)]
    records = records_of(CAPTURE([word for part in parts for word in words_of(part)]))  # (no two are alike)
    for begin, end, _ in parts:
        own, records = records[: (number := 8 * len(range(begin, end, 10)))], records[number:]
        files.append(kept(place / "rec", begin, CAPTURE([]) + b"".join(own)))
    word_of_recorder(place / "rec", since_boot(), since_boot(), files)
    words = looked(place / "rec", "--minutes", "25")[1]
    check("files in the recorder's order", by=(f"{civil(last - 1200)[11:]} by -600,0" in "  ".join(words), True),
          verdict=(words[2], "yes"))


def test_now_of_files(place: Path) -> None:
    """Files that rotate, one that is torn at its end, two interfaces with the worse first, and a silent group."""
    last = int(time.time()) - 5
    begin, cut = last - 1500 + 1500 % 10, last - 200
    rotated = place / "rotated"
    recorded(rotated, begin, (begin, cut, RIGHT))
    second = recorded(rotated, cut, (cut, last + 1, RIGHT))
    second.write_bytes(second.read_bytes()[:-7])
    (rotated / name_of(last + 2, "eth0")).touch()
    (rotated / f"{name_of(begin - 7200, 'eth0')}.gz").write_bytes(b"packed")
    status, lines, err = now(rotated, "--minutes", "5")
    torn = [line for line in lines if civil(last - 300) in line]
    check("files that rotate, torn", run=((status, err), (0, "")), span=(len(torn), 1), lines=(len(lines), 1))
    recorded(rotated, begin, (begin, last + 1, AHEAD), interface="wlan0")
    status, lines, _ = now(rotated)
    check("two interfaces", status=(status, 1), order=([line.split()[0] for line in lines], ["wlan0", "eth0"]))
    recorded(place / "alike", begin, (begin, last + 1, AHEAD), interface="eth0  yes  4 of 4 groups")
    check("a recorder called like a line", line=(looked(place / "alike")[1][0], r"eth0 \x20yes \x204 of 4 groups"))
    for name, servers, verdict, groups in (("a silent group", (1, 2, 3), "yes", "3 of 4 groups"),
                                           ("too few groups", (1,), "no evidence", "1 of 4 groups, 3 needed")):
        recorded(place / name, begin, (begin, last + 1, RIGHT, servers))
        status, words, _ = looked(place / name)
        check(name, status=(status, int(verdict != "yes")), verdict=(words[2], verdict), said=(groups in words, True))


def test_bad_files(place: Path) -> None:
    """A file that is no capture: it is named, in the metrics too, and all others are looked at."""
    last = int(time.time()) - 5
    begin, rec, metrics = last - 1500, place / "rec", place / "m.prom"
    recorded(rec, begin, (begin, last + 1, RIGHT))
    recorded(rec, begin, (begin, last + 1, AHEAD), interface="eth1")
    bad = rec / name_of(last - 1, "eth0")
    for file in (bad, rec / name_of(last, "wlan0")):
        file.write_bytes(99 * b"x")
    status, lines, err = now(rec, "--metrics", metrics)
    found = {(dict(labels)["recorder"], key, dict(labels).get("verdict", "")): value
             for (key, *labels), value in metrics_of(metrics).items()}
    said = [line.split("  ") for line in lines]
    check("bad files", status=(status, 1), named=([name in err for name in (bad.name, "wlan0-")], [True, True]),
          verdicts=({words[0]: words[2] for words in said}, {"eth0": "yes", "eth1": "refuted", "wlan0": "no evidence"}),
          files=([found[one, "now_refused_files", ""] for one in ("eth0", "eth1", "wlan0")], ["1", "0", "1"]),
          yes=(found["eth0", "now_verdict", "yes"], "1"))
    for file in [file for file in rec.iterdir() if not file.name.startswith("eth0")]:
        file.unlink()
    whole = recorded(place / "whole", begin, (begin, last + 1, RIGHT)).read_bytes()
    damaged = whole[:-3000] + b"\xff" * 3000
    place_of = 24 + 106 * -((3024 - len(damaged)) // 106)
    for name, data, named in (("records of no time", whole[:22] + bytes(99), ""),
                              ("other frames", whole[:20] + b"\x65" + whole[21:], "has other frames than Ethernet's"),
                              ("rubbish", 99 * b"x", "is no classic capture, as tcpdump writes it"),
                              ("damaged", damaged, f"is damaged from byte {place_of} on")):
        bad.write_bytes(data)
        status, lines, err = now(rec)
        check(f"one bad file: {name}", status=(status, 2 if named else 0), lines=(len(lines), 1), verdict=(
            lines[0].split("  ")[2], "yes"), named=(err, f"ntpaudit-dossier: {bad.name} {named}\n" if named else ""))
    bad.unlink()
    bad.symlink_to(rec)
    check("a link among files", run=(now(rec)[0], 2), named=(bad.name in now(rec)[2], True))


def test_each_by_itself(place: Path) -> None:
    """A recorder on whose files the program hangs: it alone is refused, when its time is over."""
    last = int(time.time()) - 5
    begin, rec = last - 900, place / "rec"
    recorded(rec, begin, (begin, last + 1, RIGHT))
    slow = recorded(rec, last - 300, (last - 300, last + 1, RIGHT), interface="eth1")
    hangs = stand_in(place / "hangs", f'cmp -s latest.pcap "{slow}" && exec sleep 1000')
    status, out, err = with_change("from dossier.fleet import now; now.MAX_SECONDS = 4", "now", "--from", rec,
                                   "--claim", claim_in(place), env=hangs)
    lines = {line.split("  ")[0]: line.split("  ")[2] for line in out.decode().splitlines()}
    check("a recorder that takes long", status=(status, 1), verdicts=(lines, {"eth0": "yes", "eth1": "refused"}),
          said=(b"4 seconds" in err or b"4 s" in err, True))


def test_all_of_a_recorder(place: Path) -> None:
    """Of all files of a recorder together no more is read than may be."""
    from dossier.capture import latest
    from dossier.capture.recorder import begun_files
    from dossier.folder.files import Folder
    from dossier.folder.placing import ROOM
    begin, each = int(time.time()) - 8000, 2 * 4 * 4000 * 106
    for part in (0, 4000):
        whole = CAPTURE([f"{k}:{RIGHT}@{begin + part}x4000" for k in (1, 2, 3, 4)])
        kept(place / "rec", begin + part, whole[:24] + b"".join(
            sorted(records_of(whole), key=lambda record: struct.unpack_from("<II", record))))
    before, left = latest.MAX_READ, ROOM.left
    try:
        latest.MAX_READ, ROOM.left = each + 2_000_000, 1 << 30
        with chdir(place), Folder(str(place / "rec")) as folder:
            found = latest.latest(folder, list(begun_files(folder)), [], 9000, begin + 8000, [])
            size = Path(found.path).stat().st_size
    finally:
        latest.MAX_READ, ROOM.left = before, left
    check("all files of a recorder", last=(found.last, begin + 7999),
          kept=(each + 500_000 < size <= each + 2_000_000, True))


def test_now_metrics(place: Path) -> None:
    last = lately()
    for name, ends in (("right", RIGHT), ("off", f"-{AHEAD.split('.')[-1]}..-{AHEAD.split('.')[0]}")):
        recorded(place / name, last - 1500, (last - 1500, last + 1, ends))
        _, _, found = looked(place / name)
        own = {key: value for key, value in found.items()
               if not key.startswith(("verdict", "server", "recorder_trouble"))}
        hull = ("-0.000000233", "0.000000233") if name == "right" else ("-0.020001000", "-0.020000000")
        check(f"metrics of the last minutes: {name}",
              verdict=([key for key, value in found.items() if key.startswith("verdict") and value == "1"],
                       ["verdict yes" if name == "right" else "verdict refuted"]),
              own=({key: own[key] for key in own if key != "least_bound_seconds" and not key.endswith(
                  ("timestamp_seconds", "age_seconds"))},
                   {"seen": "1", "clock_off": str(int(name == "off")), "claimed_bound_seconds": "0.005000000",
                    "hull_low_seconds": hull[0], "hull_high_seconds": hull[1], "groups_heard": "4", "groups": "4",
                    "groups_needed": "3", "refused_files": "0", "records_ahead_seconds": "0.000000000",
                    "recorder_lost_packets": "0", "recorder_left_out_packets": "0"}),
              age=(0 <= float(own["last_record_age_seconds"]) < 60, True),
              last=(last - 10 <= float(own["last_record_timestamp_seconds"]) <= last + 1, True))


def test_follow(place: Path) -> None:
    """In a pipe a line each time, until it is interrupted: then one more, and the last look's status."""
    last = int(time.time()) - 5
    recorded(place / "rec", last - 1500, (last - 1500, last + 1, AHEAD))
    words = [str(SCRIPT), "now", "--from", str(place / "rec"), "--claim", str(claim_in(place)), "--follow", "1"]
    with subprocess.Popen(words, env=ENVIRONMENT, stdout=subprocess.PIPE, stderr=subprocess.PIPE, text=True) as call:
        assert call.stdout
        lines = [call.stdout.readline() for _ in range(2)]
        call.send_signal(signal.SIGINT)
        out, err = call.communicate(timeout=SECONDS)
    check("now --follow", status=(call.returncode, 1), lines=([" refuted " in line for line in lines], [True, True]),
          end=(out.splitlines()[-1].startswith("ended after "), True), err=(err, ""), colours=("\x1b" in out, False))


def test_band(place: Path) -> None:
    """What stands on a terminal is no wider than that, and shows the hull and the bound."""
    from dossier.fleet.band import Band
    from dossier.folder.entry import Piece
    from dossier.folder.result import Moment
    pieces = [Piece(k, second, second + 1, (-1000, 1000) if second < 3300 else (85_899_346, 85_903_640))
              for k, second in enumerate(range(0, 3600))]
    moment = Moment("eth0", 0, 3600, "refuted", 5_000_000, 4, 3, 3600, heard=4, least_ns=20_001_000, pieces=pieces)
    for columns in (40, 60, 80, 200):
        for has_colour in (False, True):
            band = Band(True, has_colour)
            band.add([moment])
            width = min(max(60, columns - 1), 160)
            head, rows = band.head(moment, width), band.band(moment, width)
            words = [re.sub(r"\x1b\[\d+m", "", row) for row in head]
            check(f"the band of {columns} columns", wide=([row for row in words + rows if len(row) > width], []),
                  colours=(any("\x1b" in row for row in head), has_colour),
                  right=("#" in rows[4] and rows[4].count("!") < 2, True),
                  off=("!" in rows[0] and "#" not in rows[0], True),
                  bounds=(sum("+5.000 ms" in row or "-5.000 ms" in row for row in rows), 2))


def test_tail(place: Path) -> None:
    """The end of a large capture is read as the whole is, from any second on, whatever stands in its packets."""
    from dossier.folder.files import Folder
    from dossier.capture.tail import Ending, Growing
    words = [f"{k}:-1000..1000@{1_000_000_000 + k}x4000" for k in (1, 2, 3, 4)]
    whole = capture_of(place / "plain.pcap", *words).read_bytes()
    records = sorted(records_of(whole), key=lambda record: struct.unpack("<II", record[:8]))
    # packets in which records seem to stand: whole ones, ones that lead into the next packet, and zeros
    fake = struct.pack("<IIII", 1_000_001_000, 0, 20, 20) + bytes(20)
    leading = struct.pack("<IIII", 1_000_001_000, 0, 60_000, 60_000)
    hostile = [struct.pack("<IIII", *struct.unpack("<II", record[:8]), 2 * len(body), 2 * len(body)) + 2 * body
               for record, body in zip(records, [fake, leading, bytes(64)] * len(records))]
    files = {"plain": whole[:24] + b"".join(records),
             "hostile": whole[:24] + b"".join(map(bytes.__add__, records, hostile))}
    for name, data in files.items():
        (place / f"{name}.pcap").write_bytes(data)
        own = records_of(data)
        with Folder(str(place)) as folder:
            file = Growing(folder, f"{name}.pcap")
            seconds, bad = [int.from_bytes(record[:4], "little") for record in own], list[str]()
            check(f"the last record of {name}", size=(len(data) > 1 << 21, True), last=(file.last(), seconds[-1]))
            for length in (0, 1, 2, 1000, 3000, 3900, 4005):
                first = next(k for k, second in enumerate(seconds) if second >= seconds[-1] - length)
                check(f"the last {length} s of {name}", same=(file.ending(length, 60, 1 << 30, bad), Ending(
                    b"".join(own[first:]), min(length, 4002) + (length < 4002), seconds[-1], seconds[-1])),
                      bad=(bad, []))
            some = Growing(folder, f"{name}.pcap").ending(4005, 60, 3 << 19, bad)
            wanted_end = (True, data[-100:]) if name == "plain" else None
            check(f"as much of {name} as is read", said=(len(bad), int(name == "hostile")),
                  end=(some and (len(some.data) > 1 << 19, some.data[-100:]), wanted_end))


def test_many_ways(place: Path) -> None:
    """Packets in which records seem to stand at every 16 bytes, each way leading into the next packet: the search for
    one's begin ends after as many places as it may look at, and then the file is read from its own begin."""
    from dossier.capture.tail import MAX_PLACES, Growing
    from dossier.folder.files import Folder
    length, count, begin = 1424, 20_000, 1_000_000_000
    way = struct.pack("<IIII", begin + 5_000, 0, length, length)
    record = struct.pack("<II", length, length) + way * (length // 16)
    own = [struct.pack("<II", begin + number, 0) + record for number in range(count)]
    data = struct.pack("<IHHIIII", 0xA1B2C3D4, 2, 4, 0, 0, 262_144, 1) + b"".join(own)
    (place / "f.pcap").write_bytes(data)
    with Folder(str(place)) as folder:
        file = Growing(folder, "f.pcap")
        own_last = file.ending(9, 60, 1 << 30, [])
        check("many ways", size=(len(data) // 16 > 3 * MAX_PLACES, True),
              same=(own_last and own_last.data == b"".join(own[-10:]), True), last=(file.last(), begin + count - 1),
              left=(file.heads.left, 0))
