"""Runs every command that stands in a remedy of the program or in a page about faults, on a file that needs it, as it
is printed. What comes out is audited: a capture has to settle the claim as the one does of which it was spoiled, and a
part of one has to be listed. A command for which no file is made here fails.
"""
import ast
import gzip
import lzma
import os
import re
import shutil
import struct
from collections.abc import Callable
from concurrent.futures import ThreadPoolExecutor
from pathlib import Path

from tests.support import DATA, ROOT, check, is_here, program, run, skip, wanting
from tests.system import sentences
from tests.tools.wire import records_of

PROGRAM = program()
TOOLS = ("cat", "date", "editcap", "file", "grep", "gunzip", "head", "iconv", "ls", "mergecap", "ntpaudit", "od", "pwd",
         "python3", "readlink", "reordercap", "rm", "sed", "sha256sum", "tail", "tcpdump", "ulimit", "unxz", "unzstd",
         "zstd")
DOSSIER = "dossier/page/remedies.py", "dossier/verdict/sentences.py", "dossier/verdict/alerts.py"
PAGES = ("docs/REFUSALS.md", "docs/GUIDE.md", "docs/AUDITING.md", "docs/FLEET.md", *DOSSIER)
MICRO, NANO = (DATA / "clients-us.pcap").read_bytes(), (DATA / "vlan-ns.pcap").read_bytes()
CLAIMS = {MICRO: "clients-us.claim.json", NANO: "vlan-ns.claim.json"}
FILTER = "'udp port 123 or (vlan and udp port 123)'"
SECOND = 1_795_331_030
"""A Unix second of the capture of microseconds."""

PLACE, STRANGE = len(MICRO) - 20, "a $(b) c.pcap"

Maker = Callable[[Path, bytes], object]
"""Makes the files of a folder, of which one needs the remedy, from this good capture. Its answer counts for nothing."""


# ---- files that need a remedy
def head(second: int) -> bytes:
    """A record of one byte."""
    return struct.pack("<IIII", second, 0, 1, 60) + b"x"


def by(make: Callable[[bytes], bytes]) -> Maker:
    """f.pcap, made of the good capture's bytes."""
    return lambda folder, whole: (folder / "f.pcap").write_bytes(make(whole))


def through(*words: str) -> Maker:
    """f.pcap, made by a command of the good capture."""
    return by(lambda whole: run(words, whole)[1])


def modified(whole: bytes) -> bytes:
    """The capture with longer heads of records."""
    longer = b"".join(record[:16] + bytes(8) + record[16:] for record in records_of(whole))
    return struct.pack("<I", 0xA1B2CD34) + whole[4:24] + longer


def framed(link: int, change: Callable[[bytes], bytes]) -> Maker:
    """f.pcap of this link type, each frame changed."""
    def made(whole: bytes) -> bytes:
        out = whole[:20] + struct.pack("<I", link)
        for record in records_of(whole):
            frame = change(record[16:])
            longer = len(frame) - len(record) + 16
            lengths = struct.pack("<II", len(frame), int.from_bytes(record[12:16], "little") + longer)
            out += record[:8] + lengths + frame
        return out
    return by(made)


def parts(folder: Path, whole: bytes) -> None:
    """Two parts of the capture by several names, and f.pcap, which is both of them, joined by cat."""
    found = records_of(whole)
    halves = [whole[:24] + b"".join(half) for half in (found[:len(found) // 2], found[len(found) // 2:])]
    for names in (("FIRST", "SECOND"), ("f1.pcap", "f2.pcap"), ("f-1.pcap", "f-2.pcap")):
        for name, half in zip(names, halves):
            (folder / name).write_bytes(half)
    (folder / "f.pcap").write_bytes(b"".join(halves))


def fraction(folder: Path, whole: bytes) -> None:
    """The same, and the first record's time has more microseconds than there are."""
    parts(folder, whole)
    (folder / "f.pcap").write_bytes(whole[:28] + b"\xff\xff\xff\xff" + whole[32:])


def by_a_strange_name(folder: Path, whole: bytes) -> None:
    """A torn capture whose name a shell would change. (That a shell takes any name for one word is proved.)"""
    (folder / STRANGE).write_bytes(whole[:-20])


def whole_capture(folder: Path, whole: bytes) -> None:
    (folder / "f.pcap").write_bytes(whole)


def exchanges(folder: Path, whole: bytes) -> None:
    """Replies of two hours, of one request: more exchanges than there may be, by the claim of the two packets."""
    two = (DATA / "two-packets.pcap").read_bytes()
    later = struct.pack("<I", int.from_bytes(two[130:134], "little") + 7200) + two[134:]
    (folder / "f.pcap").write_bytes(two[:130] + 600_000 * two[130:] + 400_001 * later)
    shutil.copy(DATA / "two-packets.claim.json", folder / "claim.json")


def sums(folder: Path, whole: bytes) -> None:
    """A certificate, and sums of which one is of another file; ALL and SUMS have the same lines."""
    whole_capture(folder, whole)
    (folder / "c.json").write_bytes(run([PROGRAM, "settle", "claim.json", "f.pcap"], cwd=folder)[1])
    lines = run(["sha256sum", "claim.json", "f.pcap", "c.json"], cwd=folder)[1]
    for name in ("ALL", "SUMS"):
        (folder / name).write_bytes(lines)


# ---- what the program says
def links(folder: Path, whole: bytes) -> None:
    whole_capture(folder, whole)
    os.symlink("claim.json", folder / "link")
    (folder / "answer.part").write_bytes(b"")


def text_of(codec: str) -> Maker:
    def make(folder: Path, whole: bytes) -> None:
        whole_capture(folder, whole)
        (folder / "claim.json").write_text((folder / "claim.json").read_text(), codec)
    return make


def another(name: str, text: str) -> Maker:
    """The capture, and a file of this text."""
    def make(folder: Path, whole: bytes) -> None:
        whole_capture(folder, whole)
        (folder / name).write_text(text)
    return make


def wrong_sums(folder: Path, whole: bytes) -> None:
    sums(folder, whole)
    (folder / "SUMS").write_bytes((folder / "SUMS").read_bytes() + b"\n")


def differing(folder: Path, whole: bytes) -> None:
    sums(folder, whole)
    (folder / "f.pcap").write_bytes(whole + head(SECOND))


LIST, SETTLE = ["list", "f.pcap"], ["settle", "claim.json", "f.pcap"]
CHECK = ["check", "claim.json", "f.pcap", "c.json"]
SUMMED = [*CHECK, "--sums", "SUMS"]

SAID: dict[str, tuple[Maker, list[str], str]] = {
    "torn": (by(lambda whole: whole[:-20]), LIST, "new.pcap"),
    "another format": (through("editcap", "-F", "snoop", "-", "-"), LIST, "new.pcap"),
    "another version": (by(lambda whole: whole[:6] + b"\x05\x00" + whole[8:]), LIST, "new.pcap"),
    "pcapng": (through("editcap", "-F", "pcapng", "-", "-"), LIST, "new.pcap"),
    "modified": (by(modified), LIST, "new.pcap"),
    "gzip": (by(gzip.compress), LIST, "unpacked"),
    "zstd": (through("zstd", "-c"), LIST, "unpacked"),
    "xz": (by(lzma.compress), LIST, "unpacked"),
    "joined by cat": (parts, LIST, "new.pcap"),
    "a fraction": (fraction, LIST, "new.pcap"),
    "too many records": (by(lambda whole: whole + 4_000_001 * head(SECOND)), LIST, "new_00000_*"),
    "too many exchanges": (exchanges, SETTLE, "new_00000_*"),
    "a byte order mark": (text_of("utf-8-sig"), SETTLE, "new.json"),
    "UTF-16": (text_of("utf-16"), SETTLE, "new.json"),
    "a comma": (another("claim.json", '{"client":"192.0.2.10",}'), SETTLE, ""),
    "no certificate": (another("c.json", "{,"), CHECK, "new.json"),
    "a certificate to refute": (sums, ["refute", "claim.json", "f.pcap", "c.json"], ""),
    "a refutation to check": (another("c.json", '{"error":1,"false":[],"reading":1}'), CHECK, ""),
    "a line of sums": (wrong_sums, SUMMED, "new.sums"),
    "other sums": (differing, SUMMED, ""),
    "no file": (whole_capture, ["list", "none.pcap"], ""),
    "a folder": (whole_capture, ["list", "."], ""),
    "a file that is a folder's": (whole_capture, ["list", "f.pcap/f.pcap"], ""),
    "a link": (links, [*SETTLE, "-o", "link"], ""),
    "a draft": (links, [*SETTLE, "-o", "answer"], ""),
    "no folder": (whole_capture, [*SETTLE, "-o", "none/answer"], ""),
    "no memory": (exchanges, SETTLE, ""),
    "a name with blanks": (by_a_strange_name, ["list", STRANGE], "new.pcap"),
}
"""What a file is, how it is made, what is called, and what its remedy makes."""

PARTS = ("torn", "a name", "too many")
"""What is cut: a part of it is listed, and has no answer of its own."""

ENDS = {"a comma": 1, "a refutation to check": 1, "other sums": 1, "a file that is a folder's": 2, "no folder": 2}
"""The status of a command that finds what is wrong, where it isn't 0."""


def commands_of(remedy: str) -> list[str]:
    """The commands in a remedy: each behind a colon or a semicolon, and again with the other format that is named."""
    found = re.findall(rf"(?:: |; )((?:{'|'.join(TOOLS)})\b.*?)(?= \(-F|; | says |, or |$)", remedy)
    other = [command.replace("-F pcap", "-F nsecpcap") for command in found if "(-F nsecpcap" in remedy]
    return [*found, *other]


def settled(folder: Path, capture: str = "f.pcap", claim: str = "claim.json") -> tuple[int | str, bytes]:
    return run([PROGRAM, "settle", claim, capture], cwd=folder)[:2]


def judge(name: str, folder: Path, made: str, whole: bytes) -> None:
    """Audits what a command made."""
    if not made:
        return
    file = sorted(folder.glob(made))[:1]
    check(f"{name}: a file is made", there=(len(file), 1))
    if not file:
        return
    new = str(file[0].relative_to(folder)) if ".." not in made else made
    if new == "new.sums":
        check(f"{name}: sums", status=(run([PROGRAM, *CHECK, "--sums", new], cwd=folder)[0], 0))
    elif new == "new.json" and (folder / "c.json").exists():
        check(f"{name}: a certificate", status=(run([PROGRAM, *CHECK[:3], new], cwd=folder)[0], 0))
    elif new == "new.json":
        check(f"{name}: a claim", status=(settled(folder, claim=new)[0], 0))
    elif name.startswith(PARTS):
        status, text, _ = run([PROGRAM, "list", new], cwd=folder)
        seen, most = text.split()[-3:-2], 4_000_000 if "many" in name else len(records_of(whole)) - 1
        check(f"{name}: a part", status=(status, 0), records=(seen, lambda seen: seen in ([b"%d" % most], [b"600001"])))
    else:
        (folder / "good.pcap").write_bytes(whole)
        check(f"{name}: the answer", status=(settled(folder, new)[0], 0), same=(settled(folder, new), settled(
            folder, "good.pcap")))


def say(place: Path, name: str) -> list[str]:
    """Makes a file, runs the commands of the remedy that the program has for it, and gives the remedy."""
    make, words, made = SAID[name]
    folder = place / name.replace(" ", "-")
    folder.mkdir()
    shutil.copy(DATA / CLAIMS[MICRO], folder / "claim.json")
    make(folder, MICRO)
    call = [PROGRAM, *words, "--human"]
    limited = ["sh", "-c", 'ulimit -v 40000; exec "$0" "$@"'] if name == "no memory" else []
    said = run([*limited, *call], cwd=folder)[2].decode().splitlines()
    remedy = said[2].strip() if len(said) > 2 else ""
    commands = commands_of(remedy)
    check(f"{name}: a remedy", said=(bool(commands), True))
    for command in commands:
        for old in folder.glob(made) if made else ():
            old.unlink()
        status, _, error = run(["sh", "-c", command.replace("ntpaudit ", f"'{PROGRAM}' ")], cwd=folder)
        check(f"{name}: {command}", ended=(status, ENDS.get(name, 0)), error=(error if status == 127 else b"", b""))
        judge(name, folder, made, MICRO)
    return [remedy]


def are_here() -> bool:
    """Whether the tools of all remedies are installed."""
    return all([is_here(tool, "the commands of remedies") for tool in TOOLS if tool not in ("ntpaudit", "ulimit")])


def test_program(place: Path) -> None:
    """Each remedy of the program that has a command, as it is printed."""
    if not are_here():
        return
    with ThreadPoolExecutor(4) as pool:
        seen = [remedy for said in pool.map(lambda name: say(place, name), SAID) for remedy in said]
    for text in sentences.texts():
        if commands_of(text):
            pattern = re.compile(sentences.pattern_of(text))
            check(f"a case has the remedy {text!r}", seen=(any(map(pattern.fullmatch, seen)), True))


# ---- what the pages say
def tagged(frame: bytes) -> bytes:
    """A frame with an outer tag."""
    return frame[:12] + bytes.fromhex("88a80005") + frame[12:]


def cooked(frame: bytes) -> bytes:
    """A frame as the device `any` has it: without addresses, behind 14 bytes of its own and the recorded type."""
    return struct.pack(">HHH", 4, 1, 6) + frame[6:12] + bytes(2) + frame[12:]


SHOWN: dict[str, tuple[Maker, str]] = {
    "editcap -F pcap f.pcap new.pcap": (by(modified), "new.pcap"),
    "editcap -F pcap -C 0:2 -L -T ether f.pcap new.pcap": (framed(113, cooked), "new.pcap"),
    "editcap -F pcap -C 12:4 -L f.pcap new.pcap": (framed(1, tagged), "new.pcap"),
    "editcap -F nsecpcap f.pcap new.pcap": (through("editcap", "-F", "pcapng", "-", "-"), "new.pcap"),
    "editcap -F nsecpcap -A '2026-11-22 07:10:00Z' f.pcap ../after.pcap": (whole_capture, ""),
    "editcap -F nsecpcap -D 50 f.pcap ../once.pcap": (
        by(lambda whole: whole[:24] + b"".join(2 * record for record in records_of(whole))), "../once.pcap"),
    "mergecap -F nsecpcap -w f.pcap f-*.pcap": (parts, "f.pcap"),
    "mergecap -F nsecpcap -w new.pcap f1.pcap f2.pcap": (parts, "new.pcap"),
    "mergecap -F pcap -w new.pcap f1.pcap f2.pcap": (parts, "new.pcap"),
    "reordercap f.pcap ../g.pcap": (
        by(lambda whole: whole[:24] + b"".join(reversed(records_of(whole)))), "../g.pcap"),
    "head -c PLACE": (by(lambda whole: whole[:-20]), ""),
    "grep -F -e claim.json -e f.pcap -e c.json ALL > SUMS": (sums, ""),
    "zstd -d f.pcap.zst -o ../f.pcap": (lambda folder, whole: (folder / "f.pcap.zst").write_bytes(
        run(["zstd", "-c"], whole)[1]), "../f.pcap"),
    f"tcpdump --time-stamp-precision=nano -r f.pcap -w new.pcap {FILTER}": (whole_capture, "new.pcap"),
    f"tcpdump -r f.pcap -w new.pcap {FILTER}": (whole_capture, "new.pcap"),
    "sed -n Kp SUMS | cat -A": (sums, ""),
    "cd FOLDER && ntpaudit check claim.json f.pcap c.json --sums SUMS": (sums, ""),
}
"""The commands of the pages that make a file, or need one that isn't a capture; with what they make."""


def spelled(command: str) -> str:
    """A page's command with the names that the files have here."""
    command = re.sub(r"\bFILE\b|\bf\.pcapng\b", "f.pcap", command).replace(" g.pcap", " new.pcap")
    command = command.replace(" ~/", " ../")
    return command.replace("FILTER", FILTER).replace("{file}", "f.pcap")


def shown() -> dict[str, str]:
    """The commands in code font of the pages, with the page. (One of the program without a file is its name.)"""
    called = tuple(f"{tool} " for tool in (*TOOLS, "cd", "./ntpaudit") if tool != "ntpaudit")
    return {spelled(code): page for page in PAGES
            for code in re.findall(r"`([^`\n]+)`", (ROOT / page).read_text("utf-8"))
            if code.startswith(called) and code not in NAMES}


def test_pages(place: Path) -> None:
    """Each command in code font of the pages: what only looks ends well, and what makes a capture makes one."""
    if not are_here():
        return
    for number, (command, page) in enumerate(sorted(shown().items())):
        folder = place / f"{number}" / "inner"
        folder.mkdir(parents=True)
        make, made = SHOWN.get(command, (whole_capture, ""))
        makes = re.search(r" (\.\./)?(new|once|after|joined|g)\.pcap|> (?!/dev/null)", command)
        whole = NANO if "nano" in command or "nsec" in command else MICRO
        shutil.copy(DATA / CLAIMS[whole], folder / "claim.json")
        make(folder, whole)
        typed = command.replace("PLACE", f"{PLACE} f.pcap").replace("Kp", "1p")
        typed = re.sub(r"(\./)?\bntpaudit (?=check|list|--)", f"'{PROGRAM}' ", typed.replace("FOLDER", "."))
        status, _, error = run(["bash", "-c", typed], cwd=folder)
        check(f"{page}: {command}", ended=(status, 0), error=(error if status else b"", b""),
              known=(bool(makes) and command not in SHOWN, False))
        judge(f"{page}: {command}", folder, made, whole)
    for command in SHOWN:
        check(f"a page has {command}", there=(command in shown(), True))
    for command in [*shown(), *(command for text in sentences.texts() for command in commands_of(text))]:
        if re.match("editcap|mergecap", command):
            check(f"{command}: classic", form=(bool(re.search("-F (nsec)?pcap ", command)), True))


# ---- what the dossier says by itself
CALLED = {
    "ntpaudit list": "ntpaudit list f.pcap",
    "ntpaudit-dossier draft *.pcap > claim.json": "rm claim.json; ntpaudit-dossier draft *.pcap > claim.json",
    "ntpaudit-dossier draft --chrony": "echo maxslewrate 500 > chrony.conf; "
                                       "ntpaudit-dossier draft --chrony chrony.conf f.pcap",
    "ntpaudit-dossier audit FOLDER": f"ntpaudit-dossier audit --leap-seconds {DATA}/leap-seconds.list .",
    "ntpaudit-dossier audit": f"ntpaudit-dossier audit --leap-seconds {DATA}/leap-seconds.list .",
    "apt-get update": "apt-get --print-uris update",
    "apt-get install tzdata": "apt-get --simulate install tzdata",
}
"""How its commands are called, beside those that are called as they are. (Those that change the system only say so.)"""

DAEMON = ("ip link set lo up && chronyd -x -f \"$PWD/chrony.conf\" && "
          "for _ in $(seq 300); do chronyc -n tracking >/dev/null && break; sleep 0.2; done; {}; "
          "status=$?; kill $(cat pid); exit $status")
"""A command that asks a chronyd, which runs beside it in a network of its own."""

NAMES = {"-F pcap", "--chrony", "--ntpd", "--jobs", "--leap-seconds", "--limit SECONDS", "drift_ppb", "false_max",
         "reading_ns", "System clock was stepped", "xleave", "tcpdump -U", "settle", "refute --drift",
         "./ntpaudit --path"}
"""What is no command: options, names, and what stands in a log; and the launcher's own option, which might build."""


def own_codes() -> set[str]:
    """What is in code font in the dossier's own words: in texts, not in comments, and with nothing to be filled in."""
    found = set[str]()
    for name in DOSSIER:
        for node in ast.walk(ast.parse((ROOT / name).read_text("utf-8"))):
            if isinstance(node, ast.Constant) and isinstance(node.value, str):
                found.update(re.findall(r"`([^`\n]+)`", node.value))
    about = {code for name in DOSSIER for text in comments_of(ROOT / name) for code in re.findall("`([^`\n]+)`", text)}
    return {code for code in found - about if "{" not in code}


def comments_of(path: Path) -> list[str]:
    """The texts that stand alone in a module: what its parts are."""
    return [node.value.value for node in ast.walk(ast.parse(path.read_text("utf-8"))) if isinstance(node, ast.Expr)
            and isinstance(node.value, ast.Constant) and isinstance(node.value.value, str)]


def test_dossier(place: Path) -> None:
    """Each command of the dossier's own remedies, on a folder that is whole."""
    if not are_here():
        return
    seen = shown()
    folder = place / "own"
    folder.mkdir()
    path = {**os.environ, "NTPAUDIT": str(PROGRAM), "PATH": f"{ROOT}:{os.environ['PATH']}",
            "XDG_STATE_HOME": str(place / "state")}
    (folder / "chrony.conf").write_text(f"port 0\npidfile {folder}/pid\ndriftfile {folder}/drift\nlocal\n"
                                        "bindcmdaddress /\nuser root\n")
    lacks = next((wanting(tool) for tool in ("chronyd", "chronyc") if not shutil.which(tool)), "")
    if run(["unshare", "-n", "true"])[0]:
        lacks = "there is no right to a network of its own"
    for code in sorted(code for code in own_codes() - NAMES if spelled(code) not in seen):
        for name, whole in (("claim.json", (DATA / CLAIMS[MICRO]).read_bytes()), ("f.pcap", MICRO)):
            (folder / name).write_bytes(whole)
        typed = CALLED.get(code, code)
        if code.startswith("chronyc ") and lacks:
            skip(code, lacks)
            continue
        words = ["unshare", "-n", "sh", "-c", DAEMON.format(typed)] if code.startswith("chronyc ") else \
            ["sh", "-c", re.sub(r"\bntpaudit (?=list)", f"'{PROGRAM}' ", typed)]
        status, out, error = run(words, cwd=folder, env=path)
        check(f"the dossier's {code}", ended=(status, 0), error=(error if status else b"", b""),
              said=(bool(out) or ">" in code, True))
    for code in CALLED:
        check(f"the dossier has {code}", there=(code in own_codes(), True))
