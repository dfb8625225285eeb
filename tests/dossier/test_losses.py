"""Tests of folders by which something would be lost, or written elsewhere: clocks that jump, links, folders of others.

A victim is a file or a folder that has to stay as it is.
"""
import json
import os
import shutil
import time
from pathlib import Path

from tests.support import DATA, SECONDS, check, is_here, run, wanting
from tests.dossier.audits import ENVIRONMENT, KEEP, SCRIPT, audited, dossier, folder_of, rows, skipped, with_change
from tests.dossier.test_captures import records_of
from tests.dossier.test_daily import DAY

CLIENT = DATA / "client/chrony.conf"


def test_at_most(place: Path) -> None:
    """One call takes away a tenth at most, and of each machine no more than days have passed. A span in the future is
    kept, and no other counts as older for its sake."""
    state, now = ("--state", place / "state"), time.time()
    claim = json.loads((DATA / "clients-us.claim.json").read_text())
    spans = [{end: claim[end].replace("2026", year) for end in ("from", "to")} for year in ("2026", "2016")]
    folders = [folder_of(place / machine, f"{number:02}", **spans[number > 1])
               for machine in ("web-1", "web-2") for number in range(15)]
    later = folder_of(place, "later", **{"from": "2057-12-31T00:00:00Z", "to": "2058-01-01T00:00:00Z"})
    dossier("audit", *state, *folders, later)
    for days, left in ((0, 27), (1, 25), (3, 23), (40, 23), (-1, 23)):
        there = [folder for folder in folders if folder.exists()]
        out = with_change(f"import time; time.time = lambda: {now + days * DAY}", "keep", *state, "--years", "5", later,
                          *there)[1].decode()
        check(f"folders that are left after {days} days", left=(sum(folder.exists() for folder in folders), left),
              said=(f"{later}: ntpaudit-dossier: its span is in the future" in out, days >= 0))  # (else its audit is)
    dossier("keep", *state, "--force", "--years", "5", later, *(folder for folder in folders if folder.exists()))
    check("folders that are left by --force", left=([folder.name for folder in folders if folder.exists()],
                                                    ["00", "01"] * 2))


def test_own_names(place: Path) -> None:
    """Folders and files with the names of those in which outputs are made stay as they are."""
    folder, pages = folder_of(place, "host"), place / "pages"
    pages.mkdir()
    for parent in (folder, pages):
        for number, mode in enumerate((0o755, 0o700)):
            mine = parent / f".ntpaudit-{number:016x}"
            mine.mkdir(mode)
            (mine / "0").write_text("mine")
    (folder / f".ntpaudit-{9:016x}").write_text("mine")
    for words in (("audit",), ("audit", "--again"), *KEEP, ("page", "-o", pages / "p.html")):
        check(f"names as made: {words[0]}", status=(dossier(*words, folder)[0], 0),
              left=([(path / "0").read_text() for path in sorted(place.glob("*/.ntpaudit-*")) if path.is_dir()],
                    ["mine"] * 4), file=((folder / f".ntpaudit-{9:016x}").exists(), True),
              parts=(len(list(place.rglob(".*"))), 5))


def test_own_recordings(place: Path) -> None:
    """A recording with the name of what an audit leaves stays, whatever the audit would put there."""
    for name, beside in rows(("alone", {}), ("beside others", {"f.pcap": 60, "g.pcap": 120})):
        folder = folder_of(place, name)
        whole = (folder / "f.pcap").rename(folder / "joined.pcap").read_bytes()
        for file, count in beside.items():
            (folder / file).write_bytes(whole[:24] + b"".join(records_of(whole)[count - 60 : count]))
        for words in ((), ("--again",)):
            status, out, _ = dossier("audit", *words, folder)
            check(f"a recording called joined.pcap, {name}", status=(status, 4), same=(
                (folder / "joined.pcap").read_bytes() == whole, True), said=(b"give it another name" in out, True),
                left=(sorted(path.name for path in folder.iterdir()), sorted(["claim.json", "joined.pcap", *beside])))
    (folder / "joined.pcap").unlink()
    ran = [dossier("audit", *words, folder)[0] for words in ((), ("--again",))]
    (folder / "audit.json").write_text((folder / "audit.json").read_text() + " ")
    check("one that an audit left is replaced", run=([*ran, dossier("audit", folder)[0]], [0, 0, 0]))


def test_links_in_paths(place: Path) -> None:
    """No link is followed in any part of a folder's path, and none to an output."""
    private, fleet = place / "private", place / "fleet"
    victim = audited(private, "x")
    fleet.mkdir()
    (fleet / "evil").symlink_to(private)
    before = {path.name: path.read_bytes() for path in victim.iterdir()}
    (private / "claim.json").write_bytes(before["claim.json"])
    for words in rows(("audit", "--again"), ("verify",), ("page",), ("sign", "--key", "key"),
                      ("keep", "--force", "--years", "1")):
        for path, cwd in ((fleet / "evil" / "x", place), ("fleet/evil/x", place), ("../fleet/evil/x", fleet)):
            out = b"".join(dossier(*words, path, cwd=cwd)[1:])
            check(f"a link in a path: {words[0]} {str(path)[-15:]}", said=(b"is a link" in out, True),
                  same=({path.name: path.read_bytes() for path in victim.iterdir()} == before, True))
    (place / "record").mkdir()
    for words in (("--from", fleet / "evil", "--to", place / "record"),
                  ("--from", place / "record", "--to", fleet / "evil")):
        check("a link in a path: day", status=(dossier("day", *words)[0], 2),
              left=(sorted(os.listdir(private)), ["claim.json", "x"]))
    target, host = place / "target", folder_of(place, "host")
    dossier("audit", host)
    target.write_text("victim")
    (host / "out").symlink_to(target)
    for where, said in ((host / "out", b"out is a link"), (fleet / "evil" / "new", b"evil in its path is a link")):
        for words in (("page", "-o", where, host), ("page", "--csv", "--metrics", where, host),
                      ("audit", "--metrics", where, host), ("page", "--split", where, host),
                      ("draft", "--chrony", CLIENT, "--evidence", where, host / "f.pcap")):
            status, out, err = dossier(*words)
            check(f"an output through a link: {words[:2]} {where.name}", status=(status, lambda status: status),
                  said=(b"is a link" in err, True), victim=(target.read_text(), "victim"),
                  left=(sorted(os.listdir(private)), ["claim.json", "x"]))
    os.link(target, host / "drift.json")
    dossier("draft", "--chrony", CLIENT, "--evidence", host / "drift.json", host / "f.pcap")
    check("an output that is a hard link", victim=(target.read_text(), "victim"),
          made=((host / "drift.json").read_text()[:1], "{"))
    if is_here("zstd", "the commands for an auditor of a folder that is kept"):
        dossier("keep", host)
        page = dossier("page", host)[1].decode()
        check("the commands for an auditor write beside the folder",
              page=(("zstd -dk" in page, "zstd -d f.pcap.zst -o ../f.pcap" in page), (False, True)))


def test_root(place: Path) -> None:
    """Root leaves nothing in another user's folder, and follows nothing of his."""
    if os.geteuid():
        skipped("folders of others as root", "this isn't root")
        return
    place.chmod(0o755)
    folder = folder_of(place, "theirs")
    os.chown(folder, 65534, 65534)
    (folder / "2026-11-22").symlink_to(place)
    before = sorted(path.name for path in folder.rglob("*"))
    for words in (("audit",), ("audit", "--again", "--days"), ("sign", "--key", "key"), ("keep",),
                  ("keep", "--force", "--years", "1")):
        status, out, _ = dossier(*words, folder)
        check(f"root in another's folder: {words[0]}", status=(status, 4), said=(b"runuser" in out, True),
              left=(sorted(path.name for path in folder.rglob("*")), before))
    for words in rows(("page", "-o", folder / "p.html"), ("page", "--split", folder / "pages")):
        own = folder_of(place, f"own {words[1]} {len(str(words[2]))}")
        dossier("audit", own)
        dossier(*words, own)
        check(f"root's output in another's folder: {words[1]}",
              left=(sorted(path.name for path in folder.rglob("*")), before))
    if not shutil.which("tcpdump"):
        skipped("root records in another's folder", wanting("tcpdump"))
    for where in (folder, folder / "new", folder / "2026-11-22") if shutil.which("tcpdump") else ():
        status, _, err = run(["timeout", str(SECONDS // 2), SCRIPT, "record", "--interface", "lo", where],
                             env=ENVIRONMENT)
        check(f"root records in another's folder: {where.name}", status=(status, 2 if where.is_symlink() else 4),
              said=(b"is a link" in err or b"name one of root's own, such as /srv" in err, True),
              others=(b"runuser" in err, False), left=(sorted(path.name for path in folder.rglob("*")), before))
    copy = place / "audited"
    shutil.copytree(folder, copy, symlinks=True)
    (copy / "2026-11-22").unlink()
    dossier("audit", copy)
    for path in (copy, *copy.iterdir()):
        os.chown(path, 65534, 65534)
    check("root verifies another's folder", run=(dossier("verify", copy)[:2], (0, f"{copy}: verified: yes\n".encode())),
          owners=({path.lstat().st_uid for path in copy.rglob("*")}, {65534}))
