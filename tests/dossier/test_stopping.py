"""Tests of folders that would stop the others: what crashes, has no end, takes all memory or room, or comes from afar.
"""
import json
import os
import resource
import shutil
import subprocess
from pathlib import Path
from typing import Any

from tests.support import DATA, ROOT, SECONDS, Ran, check, run, sum_of, wait_until, wanting
from tests.dossier.audits import (ENVIRONMENT, KEEP, SCRIPT, auditing, capture_of, dossier, folder_of, rows,
                                  running_program, skipped, stand_in, within)
from tests.dossier.leaps import leap_list
from tests.dossier.test_captures import records_of
from tests.dossier.test_evidence import FIRST, MINUTE
from tests.dossier.test_hostile import elsewhere, forge, limited

GOOD = "yes           {}: least bound 0.619 ms, claimed 5 ms"


def is_done(good: Path, ran: Ran) -> bool:
    return GOOD.format(good) in ran[1].decode() or f"{good}: verified: yes" in ran[1].decode()


def ended_well(name: str, ran: Ran, good: Path, said: str = "") -> None:
    """A call ends, says something of each folder, and has the good one as without the others."""
    status, out, err = ran
    check(name, ended=(isinstance(status, int), True), trace=(b"Traceback" in err, False),
          good=(is_done(good, ran), True), said=(said in out.decode(), True))


def test_crashes(place: Path) -> None:
    """What made a traceback of one folder's: each is that folder's, with words, and the good one is audited."""
    good, folders = folder_of(place, "good"), []
    for number, seconds in enumerate((2**40, -(2**40), 10**14)):
        folders.append(folder_of(place, f"list {number}"))
        dossier("audit", folders[-1], env=elsewhere(place))

        def far(record: dict[str, Any], _: object, seconds: int = seconds) -> None:
            record["leap_seconds"].update(good_until=seconds, seconds=[[seconds, 1]])
        forge(folders[-1], far)
        list_ = leap_list(place / f"{number}.list", seconds, (seconds - 10, 11))
        check(f"a list of one's own that ends in {seconds}",
              run=(dossier("audit", "--leap-seconds", list_, good),
                   (2, b"", b"ntpaudit-dossier: the list of leap seconds isn't one\n")))
    blank = folder_of(place, "blank", DATA / "clients-us.pcap", bound_ns=600_000)
    dossier("audit", blank, env=elsewhere(place))
    text = (blank / "refutation.json").read_bytes()
    (blank / "refutation.json").write_bytes(b" " + text)
    sum_ = sum_of(b" " + text)

    def other(record: dict[str, Any], entry: dict[str, Any]) -> None:
        record["program"]["sha256"] = "0" * 64
        entry["outputs"]["refutation.json"] = sum_
    forge(blank, other)
    folders += [blank, place / "\u00e9", place / "missing"]
    shutil.copytree(good, place / "\u00e9")
    for command in ("verify", "audit"):
        if command == "verify":
            dossier("audit", good)
        ended_well(f"crashes: {command}", dossier(command, *folders, good), good)
    ascii_only = {**ENVIRONMENT, "LC_ALL": "C", "PYTHONUTF8": "0", "PYTHONCOERCECLOCALE": "0",
                  "PYTHONIOENCODING": "ascii"}
    ran = [dossier(*words, place / "\u00e9", good, env=ascii_only)[::2] for words in (
        ("audit", "--again"), ("verify",), ("page", "-o", place / "p.html"), *KEEP)]
    check("an ASCII locale", runs=(ran, [(0, b"")] * len(ran)))


def of_processor() -> float:
    """The seconds of the processor that were used by what was called here."""
    used = resource.getrusage(resource.RUSAGE_CHILDREN)
    return used.ru_utime + used.ru_stime


def test_budget(place: Path) -> None:
    """What would take all memory, room or time: ranges are looked at before work."""
    span: dict[str, Any] = {"from": "1000-01-01T00:00:00Z", "to": "9999-12-31T00:00:00Z"}
    many, one = folder_of(place, "days", **span), folder_of(place, "one")
    wide = folder_of(place, "step", servers=[f"192.0.2.{number}" for number in range(1, 33)],
                     **{"from": "2026-11-22T00:00:00Z", "to": "2026-11-23T00:00:00Z"})
    for words, folder, said in rows((("--days",), many, b"more than 1,100 days"),
                                    (("--step", "1"), wide, b"lines, and a folder")):
        before, (status, out, _) = of_processor(), limited("audit", *words, folder, timeout=SECONDS)
        check(f"too much: {folder.name}", status=(status, 2), said=(said in out, True),
              cheap=(of_processor() - before < 30, True))
    dossier("audit", one, env=elsewhere(place))

    def of_days(record: dict[str, Any], entry: dict[str, Any]) -> None:
        record["options"] = {"days": True}
        entry["claim"].update(span)
        record["inputs"]["claim.json"] = sum_of((many / "claim.json").read_bytes())
    forge(one, of_days)
    shutil.copy(many / "claim.json", one)
    status, out, _ = limited("verify", one)
    check("options that name days", run=((status, b"more than 1,100 days" in out), (2, True)))


def test_bounds(place: Path) -> None:
    """What a folder's process may take of memory, room and processor, and a draft of addresses."""
    from dossier.folder import jobs
    from dossier.folder.result import Audited
    from dossier.capture import traffic
    work, bounds = auditing(place), jobs.bounds_of
    for name, few, limit in (("memory", jobs.Bounds(SECONDS, 1 << 22, 1 << 30), "out of memory"),
                             ("room", jobs.Bounds(SECONDS, 1 << 30, 9000), "more room than a folder may"),
                             ("processor", jobs.Bounds(1, 1 << 30, 1 << 30), "not done within 1 s")):
        jobs.bounds_of = lambda *_, few=few: few
        try:
            own = str(folder_of(place, name))
            does: Any = {"processor": endless, "memory": lambda *_: bytearray(1 << 30)}.get(name, work)
            found, = (found for _, found in jobs.run_all([own], does, Audited, SECONDS))
        finally:
            jobs.bounds_of = bounds
        said_of = found.lines if isinstance(found, Audited) else [found.line]
        check(f"a budget of {name}", status=(found.status in (2, 3, 4), True), said=(limit in said_of[0], True))
    all_jobs = [jobs.bounds_of(600, number) for number in (1, 4)]
    check("one budget for all jobs", memory=(all_jobs[0].memory // 4, all_jobs[1].memory),
          most=(2 * all_jobs[0].memory < os.sysconf("SC_PAGE_SIZE") * os.sysconf("SC_PHYS_PAGES"), True))
    most, traffic.MAX_PAIRS = traffic.MAX_PAIRS, 3
    try:
        traffic.read_traffic(running_program(), str(DATA / "clients-us.pcap"))
        told = ""
    except Exception as fault:
        told = str(fault)
    finally:
        traffic.MAX_PAIRS = most
    check("many addresses", said=("pairs of addresses" in told, True))


def test_killed(place: Path) -> None:
    """An audit that is killed leaves no private copies."""
    folder, private = folder_of(place, "host"), place / "private"
    private.mkdir()
    slow = stand_in(place / "ntpaudit", '[ "$1" != settle ] || sleep 600')
    call = subprocess.Popen([SCRIPT, "audit", folder], env={**slow, "TMPDIR": str(private)})
    has_begun = wait_until(lambda: bool([*private.glob("ntpaudit-*/0/claim.json")]))
    call.kill()
    call.wait()
    check("an audit that is killed", begun=(has_begun, True),
          is_tidy=(wait_until(lambda: not [*private.iterdir()]), True))


def endless(*_: object) -> None:
    while True:
        pass


TWO = {**MINUTE, "servers": ["192.0.2.1", "192.0.2.2"]}


def test_flood(place: Path) -> None:
    """What comes from afar is left out before limits apply, all that is of the claim's client and servers is kept, and
    the page names it."""
    from dossier.capture import captures, classic
    from dossier.folder import jobs
    from dossier.folder.result import Audited
    words = [f"{server}:-1000..1000@{FIRST + 5 + 5 * number}" for number in range(10) for server in range(1, 8)]
    own = [word for word in words if word[0] in "12"]
    flooded, plain = (folder_of(place, name, capture_of(place / f"{name}.pcap", *some), **TWO)
                      for name, some in (("flooded", words), ("plain", own)))
    both = records_of((flooded / "f.pcap").read_bytes())
    strange = [one[:58] + bytes([one[58] | 4]) + one[59:82] + b"\xff" + one[83:] for one in both[1:140:14]]
    for folder in (flooded, great := folder_of(place, "great", place / "flooded.pcap", **TWO)):
        (folder / "f.pcap").write_bytes((folder / "f.pcap").read_bytes()[:24] + b"".join(
            [each for one, other in zip(both, [*strange, *[b""] * 999]) for each in (one, other)]))
    damaged = folder_of(place, "damaged", place / "flooded.pcap", **TWO)
    whole = (damaged / "f.pcap").read_bytes()
    first, *rest = records_of(whole)
    spoilt = first[:4] + b"\xff\xff\xff\xff" + first[8:]
    (damaged / "f.pcap").write_bytes(whole[:24] + first + b"".join(rest[:99]) + spoilt + b"".join(rest[99:]))
    kept, captures.MANY, classic.MAX_RECORDS = (captures.MANY, classic.MAX_RECORDS), 16, 60
    most = captures.MAX_UNTHINNED
    try:
        found = dict(jobs.run_all([str(flooded), str(plain)], auditing(place), Audited, 600))
        refused = jobs.run_one(str(damaged), auditing(place), Audited)
        classic.MAX_RECORDS, captures.MAX_UNTHINNED = kept[1], 5000
        found |= jobs.run_all([str(great)], auditing(place), Audited, 600)
    finally:
        captures.MANY, classic.MAX_RECORDS, captures.MAX_UNTHINNED = *kept, most
    check("a flood of great packets",
          same=((great / "joined.pcap").read_bytes(), (flooded / "joined.pcap").read_bytes()))
    check("a flood that is damaged", status=(refused.status, 2),
          said=(isinstance(refused, Audited) and "so it can't be thinned out" in refused.lines[0], True))
    records = records_of((flooded / "joined.pcap").read_bytes())
    row, = json.loads(dossier("page", "--json", "--state", place / "state", flooded)[1])
    check("a flood", status=([one.status for one in found.values()], [0, 0, 0]),
          records=([one[:16] for one in records], [one[:16] for one in records_of((plain / "f.pcap").read_bytes())]),
          joined=((plain / "joined.pcap").exists(), False),
          same=((flooded / "envelope.txt").read_bytes(), (plain / "envelope.txt").read_bytes()),
          said=([words for words in row["warnings"] if "110 records of the capture are of others" in words],
                lambda said: len(said) == 1))


def test_filter(place: Path) -> None:
    """The recorder's filter: by a claim, of its client and servers alone."""
    from dossier.capture import recorder
    words = [f"{server}:-1000..1000@{FIRST + 5 + 5 * number}" for number in range(10) for server in range(1, 8)]
    flooded, plain = (folder_of(place, name, capture_of(place / f"{name}.pcap", *some), **TWO) for name, some in (
        ("flooded", words), ("plain", [word for word in words if word[0] in "12"])))
    unit = (ROOT / "systemd" / "ntpaudit-record@.service").read_text()
    status, out, _ = dossier("filter", plain / "claim.json")
    ways = ("(udp src port 123 and (dst host 192.0.2.10) and (src host 192.0.2.1 or src host 192.0.2.2))",
            "(udp dst port 123 and (src host 192.0.2.10) and (dst host 192.0.2.1 or dst host 192.0.2.2))")
    check("the recorder's filter", unit=(" --hourly --claim %S/ntpaudit/days/claim.json " in unit, True),
          run=((status, out.decode()), (0, f"({' or '.join(ways[::-1])}) or (vlan and ({' or '.join(ways[::-1])}))\n")),
          none=(dossier("filter", place / "none")[:2], (0, b"(udp port 123) or (vlan and (udp port 123))\n")),
          clients=(recorder.filter_of(["192.0.2.7", "192.0.2.8"], []).count("dst host 192.0.2.8"), 2))
    if shutil.which("tcpdump"):
        taken = run(["tcpdump", "--time-stamp-precision=nano", "-r", flooded / "f.pcap", "-w", "-",
                     out.decode().strip()])
        check("what the filter takes", packets=([one[:16] for one in records_of(taken[1])], [
            one[:16] for one in records_of((plain / "f.pcap").read_bytes())]))
    else:
        skipped("what the filter takes", wanting("tcpdump"))


def test_dead_mounts(place: Path) -> None:
    """A folder on a mount that never answers is refused when its time is over, and the good one is as without."""
    mounted, good = place / "mounted", folder_of(place, "good")
    mounted.mkdir()
    for command in (["audit", "--again"], ["verify"]):
        script = ('exec 3< <("$0" "$1" 2>&1); read -r said <&3; [ "$said" = mounted ] || exit 99; '
                  'place=$1; shift; "$@" | cat; status=${PIPESTATUS[0]}; umount -f "$place"; exit $status')
        words = ["unshare", "-m", "--propagation", "private", "bash", "-c", script, ROOT / "tests/tools/hanging",
                 mounted, SCRIPT, *command]
        limit, ran = within(lambda limit: run([*words, "--limit", limit, mounted / "host", good], env=ENVIRONMENT),
                            lambda ran: is_done(good, ran) or ran[0] in (1, 99, 127))
        if ran[0] in (1, 99, 127) and b"yes" not in ran[1]:
            skipped("folders on a mount that never answers", "nothing can be mounted by FUSE here")
            return
        check(f"a mount that never answers: {command[0]}", status=(ran[0], 2))
        ended_well(f"a mount that never answers: {command[0]}", ran, good,
                   f"{mounted}/host: ntpaudit-dossier: not done within {limit} s (--limit)\n")
