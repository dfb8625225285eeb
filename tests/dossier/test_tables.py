"""Audits captures of data/ with ntpaudit-dossier, and holds its tables, pages and pictures to what the program prints:
figures, coordinates, names of strangers, many folders, files that change meanwhile, drafts. What is said of a clock is
held to histories (tests/truth).
"""
import csv
import hashlib
import io
import json
import math
import os
import random
import re
import signal
import struct
import subprocess
import tempfile
import textwrap
import time
from collections import Counter
from collections.abc import Callable, Iterator
from fractions import Fraction
from pathlib import Path
from typing import Any
from unittest.mock import patch

from tests.support import DATA, ROOT, SECONDS, Ran, check, files_in, run, runnable, wait_until
from tests.dossier.audits import (CLAIMS, ENVIRONMENT, PROGRAM, SCRIPT, audited, capture_of, check_page, dossier,
                                  folder_of, match_of, parts_left, record_of, rows, stand_in, table)
from tests.dossier.test_captures import records_of
from tests.system.fault_lines import fault_lines


# ---- figures
def seen_of_program(claim: Path, capture: Path, entry: dict[str, Any]) -> tuple[str, str, int, int, int, bytes]:
    """Verdict, least bound, its piece and the number of samples, straight from the program."""
    asked = [PROGRAM, "envelope", claim, capture, "--least", "--step", str(entry["envelope_step"])]
    envelope = run(asked)[1].decode().splitlines()
    _, least, _, piece = envelope[-1].split()
    said = run([PROGRAM, "samples", claim, capture])[1].decode()
    samples = int(match_of(r"(?m)^records .* samples (\d+) ", said)[1])
    status, text, _ = run([PROGRAM, "settle", claim, capture])
    check_it = ["check", claim, capture, "/dev/stdin"] if status == 0 else ["refute", claim, capture, "/dev/stdin",
                                                                            "--drift"]
    report = run([PROGRAM, *check_it], text)[1]
    verdict = "yes" if report.endswith(b"verdict yes\n") else "refuted" if report == b"refuted yes\n" else ""
    begin, end = envelope[int(piece)].split()[1:3]
    return verdict, least, int(begin), int(end), samples, report


def test_figures(place: Path) -> None:
    folders = [folder_of(place, claim.name, DATA / f"{claim.name.split('.')[0]}.pcap", claim) for claim in CLAIMS]
    status, out, err = dossier("audit", *folders)
    rows = table(*folders)
    worst = 0
    for claim, folder, row in zip(CLAIMS, folders, rows):
        entry = record_of(folder)["entries"][0]
        verdict, least, begin, end, samples, report = seen_of_program(claim, DATA / f"{claim.name.split('.')[0]}.pcap",
                                                                      entry)
        worst = max(worst, verdict != "yes")
        check(f"figures of {claim.name}", verdict=(row["verdict"], verdict), least=(str(row["least_bound_ns"]), least),
              worst=((entry["worst"]["from"], entry["worst"]["to"]), (begin, end)), samples=(row["samples"], samples),
              report=((folder / "report.txt").read_bytes(), report),
              times=(row["worst_begin"], time.strftime("%Y-%m-%dT%H:%M:%SZ", time.gmtime(begin))))
    check("audits of data/", status=(status, worst), error=(err, b""), lines=(len(out.splitlines()), len(CLAIMS) + 1))
    text = dossier("page", *folders)[1].decode()
    check_page("a page of data/", text)
    for folder, row in zip(folders, rows):
        micros = -(-row["least_bound_ns"] // 1000)
        shown = f"{micros // 1000:,}.{micros % 1000:03} ms"
        check(f"the page's row of {folder.name}", shown=(f">{shown}</td>" in text, True))
    lines = list(csv.DictReader(io.StringIO(dossier("page", "--csv", *folders)[1].decode())))
    check("the table as CSV",
          rows=(sorted((row["machine"], row["verdict"], row["least_bound_ns"]) for row in lines),
                sorted((row["machine"], row["verdict"], str(row["least_bound_ns"])) for row in rows)))
    check("verify of data/",
          lines=([line for line in dossier("verify", *folders)[1].decode().splitlines() if ": (" not in line],
                 [f"{folder}: verified: {row['verdict']}" for folder, row in zip(folders, rows)]))
    again = dossier("audit", *folders)
    check("audits that are done", status=(again[0], worst), unchanged=(again[1].count(b"(unchanged)"), len(CLAIMS)))


def ms(number: int | Fraction, per_ms: int | Fraction, up: bool) -> str:
    """A whole number of some unit in milliseconds, to the microsecond, rounded up or down."""
    exact = Fraction(number) / Fraction(per_ms)
    thousandths = math.ceil(exact * 1000) if up else math.floor(exact * 1000)
    sign = "\u2212" if thousandths < 0 else ""
    return f"{sign}{abs(thousandths) // 1000:,}.{abs(thousandths) % 1000:03}"


def ticks_range(low: int, high: int) -> str:
    return f"{ms(low, Fraction(2**32, 1000), False)} to {ms(high, Fraction(2**32, 1000), True)} ms"


def civil(seconds: float) -> str:
    return time.strftime("%Y-%m-%d %H:%M:%S", time.gmtime(seconds))


def sums_of(folder: Path) -> dict[str, str]:
    return {path.name: hashlib.sha256(path.read_bytes()).hexdigest() for path in folder.iterdir()
            if path.name != "audit.json"}


def seen_in_texts(claim: Path, capture: Path) -> dict[str, Any]:
    """Of the texts of `list` and `samples` what is read of a capture: packets and samples, one after another."""
    packets = [line.split()[:2] for line in run([PROGRAM, "list", capture])[1].decode().splitlines()[:-1]]
    at = {int(number): int(Fraction(time) * 10**9) for number, time in packets}
    samples = [line.split() for line in run([PROGRAM, "samples", claim, capture])[1].decode().splitlines()[:-1]]
    times = list(at.items())
    falls = [(number, before, time) for (_, before), (number, time) in zip(times, times[1:]) if time < before]
    return {"by_server": dict(Counter(words[1] for words in samples)), "falls": len(falls),
            "fallen": falls, "replies": [at[int(words[3])] for words in samples],
            "first_request": at[min(int(words[2]) for words in samples)] if samples else None,
            "first": min(at.values(), default=None), "last": max(at.values(), default=None)}


def test_recordings() -> None:
    """What is read of a capture is what `list` and `samples` say, whether their texts come in small pieces or in large
    ones, and whether the capture holds the claim's packets alone."""
    from dossier.capture import classic, recording
    from dossier.folder import jobs
    from dossier.folder.entry import Made
    from dossier.folder.program import Program
    program, ways = Program(PROGRAM, Made("", "")), [(700, 1), (vars(jobs)["BLOCK"], classic.AT_ONCE)]
    with tempfile.TemporaryDirectory(prefix="ntpaudit-") as place:
        claim = Path(place) / "claim.json"
        claim.write_text(json.dumps(CLAIM_OF_TWO))
        other = Path(place) / "other.json"
        other.write_text(json.dumps({**CLAIM_OF_TWO, "servers": ["192.0.2.2"]}))
        falling = capture_of(Path(place) / "falls.pcap",
                             *(f"{1 + k % 2}:-1000..1000@{1000000000 + 5 * (k ^ 1)}" for k in range(40)))
        whole = falling.read_bytes()
        first, second, *rest = records_of(whole)
        falling.write_bytes(whole[:24] + first + first[:8] + second[8:] + b"".join(rest))  # (two are of one time)
        lists = set()
        for claim, capture in [(claim, falling), (other, falling),
                               *((claim, DATA / f"{claim.name.split('.')[0]}.pcap") for claim in CLAIMS)]:
            wanted = seen_in_texts(claim, capture)
            for block, at_once in ways:
                with patch.object(jobs, "BLOCK", block), patch.object(classic, "AT_ONCE", at_once):
                    found = recording.read_recording(program, str(claim), str(capture))
                check(f"what is read of {capture.name} and {claim.name}",
                      seen=({name: getattr(found, name) for name in wanted}, wanted),
                      falls=(found.falls > 0, capture == falling))
            lists.add(found.counts["requests"] + found.counts["replies"] == found.counts["records"])
        check("captures of the claim's packets alone, and others", seen=(lists, {True, False}))


def test_looks_at_captures() -> None:
    """Records of all lengths, of one length, torn and damaged: their ends and times, by going from one to the next."""
    from dossier.capture.classic import Classic
    rnd, seen = random.Random(5), Counter[Any]()
    with tempfile.TemporaryDirectory(prefix="ntpaudit-") as place:
        for trial in range(300):
            order, unit = rnd.choice("<>"), rnd.choice((10**6, 10**9))
            data = struct.pack(f"{order}IHHIIII", {10**6: 0xA1B2C3D4, 10**9: 0xA1B23C4D}[unit], 2, 4, 0, 0, 262_144, 1)
            wanted, lengths = [], rnd.choice(([7], [7, 7, 7, 7, 7, 8], [0, 300], [261, 5], [600], [7, 7, 600]))
            for _ in range(rnd.choice((0, 1, 5, 200))):
                seconds, part, length = rnd.randrange(2**32), rnd.randrange(unit), rnd.choice(lengths)
                data += struct.pack(f"{order}IIII", seconds, part, length, 60) + rnd.randbytes(length)
                wanted.append(seconds * 10**9 + part * (10**9 // unit))
            end, rest = len(data), rnd.choice(("", "torn", "long", "late"))
            if rest == "late":  # (its time has a second of units)
                data += struct.pack(f"{order}IIII", 5, unit, 7, 7) + bytes(7)
                end, wanted = len(data), []
            elif rest:
                data += struct.pack(f"{order}IIII", 5, 6, 262_145 if rest == "long" else 7, 7) + bytes(6)
            (Path(place) / "f.pcap").write_bytes(data)
            capture = Classic(f"{place}/f.pcap")
            found = capture.extent
            seen[(found.end, capture.nanoseconds(found.stamps)) == (end, wanted)] += 1
            seen[rest] += capture.is_torn(found.end) == (rest == "torn")
    check("looks at captures", seen=((seen[True], sum(seen.values())), (300, 600)))


# ---- pictures
def path_of(svg: str, name: str, after: int = 0) -> Any:
    return match_of(rf'<path class="{name}" d="([^"]*)"', svg[after:])[1]


def test_coordinates() -> None:
    """The picture's hull and strokes, taken back to ticks and seconds, are those of the envelope."""
    from dossier.folder.answers import read_envelope
    from dossier.page.columns import cells_of
    from dossier.page.figure import HEIGHT, WIDTH, extent, picture
    from dossier.units import bound_ticks
    for name, bound_ns, step in (("vlan-ns", 5_000_000, 1), ("chrony-ns", 800_000, 8), ("clients-us", 400_000, 1)):
        text = run([PROGRAM, "envelope", DATA / f"{name}.claim.json", DATA / f"{name}.pcap", "--servers", "--step",
                    str(step)])[1]
        lines = [line.split() for line in text.decode().splitlines()[:-1]]
        hulls = [tuple(map(int, words[1:])) for words in lines if "." not in words[1]]
        svg, bound = picture(read_envelope(text), bound_ns, "p", name), bound_ticks(bound_ns)
        low, high = extent(cells_of(read_envelope(text), bound), bound)
        pixel, first, last = (high - low) / HEIGHT, hulls[0][0], hulls[-1][1]

        def seconds(x: str) -> float:
            return first + (last - first) * int(x) / WIDTH

        def ticks(y: str) -> float:
            return high - pixel * float(y)
        numbers = re.findall(r"V([\d.-]+)H(\d+)", path_of(svg, "hull"))
        there, back = numbers[: len(hulls)], numbers[len(hulls) :][::-1]
        check(f"the hull of {name} in its picture", pieces=((len(there), len(back)), (len(hulls), len(hulls))),
              highs=(max(abs(ticks(y) - hull[3]) for (y, _), hull in zip(there, hulls)),
                     lambda off: off <= pixel * 0.06),
              lows=(max(abs(ticks(y) - hull[2]) for (y, _), hull in zip(back, hulls)), lambda off: off <= pixel * 0.06),
              ends=(max(abs(seconds(x) - hull[1]) for (_, x), hull in zip(there, hulls)), lambda off: off < 0.01),
              begins=(max(abs(seconds(x) - hull[0]) for (_, x), hull in zip(back, hulls)), lambda off: off < 0.01))
        for side, y in zip((1, -1), re.findall(r'<path class="bound" d="M0 ([\d.]+)H', svg)):
            check(f"the bound in the picture of {name}",
                  off=(abs(ticks(y) - side * bound_ns * 2**32 / 10**9), lambda off: off <= pixel * 0.06))
        fails = sum(max(-hull[2], hull[3]) > bound_ns * 2**32 // 10**9 for hull in hulls)
        drawn = re.search(r'<path class="mark beyond" d="([^"]*)"', svg)
        width = sum(int(b) - int(a) for run_ in (drawn[1].split("M")[1:] if drawn else [])
                    for a, b in [(run_.split(" ")[0], run_.split("H")[-1])])
        check(f"the marks of {name}",
              width=(abs(width - WIDTH * fails / len(hulls)), lambda off: off <= len(hulls) or step > 1))
    own = [words for words in lines if words[1] == "192.0.2.1"]
    check_strokes(re.findall(r"M(\d+) ([\d.]+)V([\d.]+)", path_of(svg, "server c0 d0")), own, ticks, pixel)


def check_strokes(strokes: list[tuple[str, str, str]], own: list[list[str]], ticks: Callable[[str], float],
                  pixel: float) -> None:
    """A server's strokes end where its lines of the envelope do, but for those that leave the picture."""
    from dossier.page.figure import HEIGHT
    tall = [(a, b, words) for (_, a, b), words in zip(strokes, own) if float(a) < HEIGHT and float(b) > 0]
    check("a server's strokes", count=(len(strokes), len(own)), tall=(bool(tall), True),
          ends=(max(max(abs(ticks(a) - int(words[2])), abs(ticks(b) - int(words[3]))) for a, b, words in tall),
                lambda off: off <= pixel * 0.06))


def test_gaps() -> None:
    """Pieces without a hull are gaps, and marked; of many pieces in a column the extremes are drawn."""
    from dossier.folder.answers import Envelope
    from dossier.page.columns import cells_of
    from dossier.page.figure import picture
    hulls: Any = [(-5, 5), "unbounded", (-7, 3), "empty", (-2000, 9)]
    begins = list(range(1000, 1005))
    envelope = Envelope(begins, [b + 1 for b in begins], hulls, {"192.0.2.1": ([-5] * 5, [5] * 5)}, None, 1)
    svg = picture(envelope, 233, "p", "gaps")
    check("a hull with gaps", parts=(path_of(svg, "hull").count("M"), 3),
          marks=([match_of(rf'class="mark {kind}" d="([^"]*)"', svg)[1] for kind in ("empty", "beyond", "unbounded")],
                 ["M6000 6H8000", "M8000 6H10000", "M2000 6H4000"]))
    many = 100_000
    los, his = [-(k % 997) for k in range(many)], [k % 991 for k in range(many)]
    addresses = [f"192.0.2.{k}" for k in range(8)]
    wide = Envelope(list(range(many)), list(range(1, many + 1)), list(zip(los, his)),
                    {a: (los, his) for a in addresses}, 1, 0)
    cells = cells_of(wide, 10**6)
    drawn = picture(wide, 10**6, "p", "many")
    check("100,000 pieces", columns=(len(cells), 1000), size=(len(drawn) < 300_000, True),
          extremes=(all(cell.hull == (min(los[100 * k : 100 * k + 100]), max(his[100 * k : 100 * k + 100]))
                        for k, cell in enumerate(cells)), True))


def texts_of(svg: str) -> list[tuple[str, str, float]]:
    """The words in a picture, each with its place."""
    return [(words, x, float(y))
            for x, y, words in re.findall(r'<text[^>]*? x="([-\d.%]+)"[^>]*? y="([-\d.]+)"[^>]*>([^<]*)<', svg)]


def test_looks() -> None:
    """Eight servers have eight colours, no words stand where strokes are, a wide bound leaves the hull to be seen, and
    a step is drawn."""
    from dossier.folder.answers import Envelope
    from dossier.page.columns import cells_of
    from dossier.page.figure import HEIGHT, TOP, extent, picture, standing_alone
    from dossier.page.templates import text_of
    ms, seconds = 2**32 // 1000, list(range(1000, 1010))
    addresses = {f"192.0.2.{k}": ([-ms] * 10, [ms] * 10) for k in range(8)}
    envelope = Envelope(seconds, [second + 1 for second in seconds], [(-ms, ms)] * 10, addresses, 10**6, 0)
    for times, is_drawn in ((2, True), (9, True), (20, False), (1000, False)):
        svg, alone = picture(envelope, times * 10**6, "p", "p"), standing_alone(envelope, times * 10**6, "p")
        low, high = extent(cells_of(envelope, times * ms), times * ms)
        check(f"a bound {times} times as wide as the hull", drawn=(svg.count('class="bound"') > 0, is_drawn),
              words=(any("claimed" in f'{words}' or f"{times} ms" in words for words, _, _ in texts_of(svg)), is_drawn),
              height=(HEIGHT * 2 * ms / (high - low), lambda height: height > (25 if is_drawn else 200)),
              legend=(("beyond this picture" in alone, f"claimed bound, {times:,} ms" in alone), (not is_drawn, True)))
        inside = [(words, x, y) for words, x, y in texts_of(svg) if TOP < y < TOP + HEIGHT
                  and not float(x.rstrip("%")) < 0]
        rows = sorted(y for _, x, y in texts_of(svg) if x == "-6")
        check(f"words of a picture with {times}", inside=(inside, []),
              apart=(all(b - a >= 12 for a, b in zip(rows, rows[1:])), True), some=(len(rows) > 2, True))
    colours = [re.findall(rf"--c{k}:(#[0-9a-f]+)", text_of("picture.css")) for k in range(8)]
    check("eight colours", own=([len({found[theme] for found in colours}) for theme in (0, 1)], [8, 8]),
          used=(len(set(re.findall(r'class="server (c\d)', svg))), 8))
    stepped = picture(envelope, 10**6, "p", "p", [1005, 990])
    check("a step in a picture", line=(re.findall(r'class="step" d="M(\d+) 0V', stepped), ["5000"]),
          word=([x for words, x, _ in texts_of(stepped) if words == "step"], ["50.00%"]),
          none=('class="step"' in svg, False))


# ---- pages
def test_names(place: Path) -> None:
    """Names of strangers: nothing in them is interpreted."""
    names = ["a b", "line\nfeed", "<b>bold</b> & \"quotes' -->", "$(touch owned) `touch owned`; x", "-n", "=1+1",
             "\x1b[31mred", "\u202eturned", "\u00fc\u6f22", os.fsdecode(b"no\xffutf"), "100%", "back\\slash",
             "carriage\rreturn", os.fsdecode(b"no\\\xffutf")]
    folders = []
    for name in names:
        folder = folder_of(place / "names", name)
        os.rename(folder / "f.pcap", folder / f"{name.replace('/', '')}.pcap")
        folders.append(f"./{name}")
    where = {"cwd": place / "names"}
    status, out, err = dossier("audit", *folders, **where)
    check("strange names", status=(status, 0), error=(err, b""), lines=(out.count(b"\n"), len(names) + 1),
          escape=(b"\x1b" in out, False))
    text = dossier("page", "--title", "<i>&", *folders, **where)[1].decode()
    page = check_page("a page of strange names", text)
    words = "".join(page.words)
    check("strange names on a page", tags=(page.tags & {"b", "i"} <= {"b"}, True), bold=("<b>bold</b>" in words, True),
          title=("<i>&" in words, True), controls=([c for c in text if not c.isprintable() and c != "\n"], []),
          line=("line\\x0afeed" in words, True), byte=("no\\xffutf" in words, True))
    cells = [row["machine"]
             for row in csv.DictReader(io.StringIO(dossier("page", "--csv", "=1+1", **where)[1].decode()))]
    check("a formula in CSV", cells=(cells, ["'=1+1"]))
    check("verify of strange names", status=(dossier("verify", *folders, **where)[0], 0))
    check("nothing was run", owned=(list((place / "names").rglob("owned")), []))


def test_refusals(place: Path) -> None:
    """What is refused has a status, a line, the program's words and a remedy; what lies beside it is audited."""
    cases: dict[str, Any] = {
        "no-claim": (lambda f: (f / "claim.json").unlink(), 4, "no claim.json", "The folder has no claim."),
        "no-capture": (lambda f: (f / "f.pcap").unlink(), 4, "no capture",
                       "The folder has no file *.pcap, *.pcapng or *.cap."),
        "fraction": (lambda f: (f / "f.pcap").write_bytes((f / "f.pcap").read_bytes()[:24] + b"\xff" * 500), 2,
                     "ntpaudit: capture 6 too-long at",
                     "f.pcap: has over 262144 bytes in the record at that byte; 0 whole records stand before it."),
        "claim": (lambda f: (f / "claim.json").write_text("{}"), 2, "ntpaudit: claim 2 field field 1",
                  'claim.json: "client" is missing.'),
        "nested": (lambda f: (f / "claim.json").write_text("[" * 60_000), 2, "ntpaudit: claim 1 json",
                   "claim.json: isn't JSON")}
    folders = []
    for name, (spoil, *_) in cases.items():
        folders.append(folder_of(place / "refused", name))
        spoil(folders[-1])
    every = [*folders, place / "refused" / "missing", folder_of(place / "refused", "zz-good")]
    status, out, _ = dossier("audit", *every)
    rows, text = table(*every), dossier("page", *every)[1].decode()
    for (name, (_, wanted, line, why)), row, said in zip(cases.items(), rows, out.decode().splitlines()):
        code = dossier("audit", place / "refused" / name)[0]
        check(f"refused: {name}", status=(code, wanted), verdict=(row["verdict"], "refused"),
              line=(line in row["reason"] and line in said, True), why=(f". {why}" in row["reason"], True),
              remedy=(len(row["to_do"]) > 10, True))
    check_page("a page of refusals", text)
    check("refused folders beside a good one", status=(status, 4),
          verdicts=([row["verdict"] for row in rows[-2:]], ["refused", "yes"]),
          shown=("<pre>ntpaudit: capture 6 too-long at" in text, True),
          remedy=("<p>Record without -s, fetch the file again, or join by mergecap in place of cat: " in text, True))
    verified = json.loads(dossier("page", "--json", "--verify", *folders[2:])[1])
    check("the same while it is verified", words=(sorted((row["reason"], row["to_do"]) for row in verified),
                                                  sorted((row["reason"], row["to_do"]) for row in rows[2:5])))
    lines: list[list[str]] = [[], ["audit"], ["audit", "--step", "0", "x"], ["audit", "--jobs", "x", "y"], ["nothing"],
                              ["page", "--json", "--csv", "x"]]
    for typed in lines:
        check(f"command line {typed}", status=(dossier(*typed)[0], 5))


def test_remedies() -> None:
    """The program says of each fault line what it means, and the dossier hasn't words of its own, but for memory."""
    from dossier.page.remedies import remedy
    for line in fault_lines():
        check(f"the words of {line}", own=(bool(remedy(f"ntpaudit: {line}")[0]), line == "memory"))


# ---- many folders
def test_side_by_side(place: Path) -> None:
    parent, hold = place / "many", place / "hold"
    folders = [folder_of(parent, f"host-{number:03}") for number in range(200)]
    hold.touch()
    calls = stand_in(place / "held",
                     f'while [ -e "{hold}" ] && [ -e "{folders[30]}/audit.json" ]; do sleep 0.1; done')
    call = subprocess.Popen([SCRIPT, "audit", "--jobs", "4", *folders], env=calls, stdout=subprocess.DEVNULL,
                            stderr=subprocess.DEVNULL)
    wait_until(lambda: len(list(parent.glob("*/audit.json"))) >= 20 or call.poll() is not None)
    call.kill()
    call.wait(SECONDS)
    hold.unlink()
    done = len(list(parent.glob("*/audit.json")))
    status, out, err = dossier("audit", "--jobs", "4", *folders, env=calls)
    lines = out.decode().splitlines()
    check("200 folders, resumed after a kill", status=(status, 0), error=(err, b""), last=(lines[-1], "200 yes"),
          killed=(20 <= done < 200, True),
          order=([line.split()[1] for line in lines[:-1]], [f"{folder}:" for folder in folders]),
          again=(out.count(b"(unchanged)") in range(20, 200), True), left=(parts_left(parent), []))
    sums = {json.dumps(record_of(folder)["entries"]) for folder in folders}
    check("200 copies, one answer", count=(len(sums), 1))
    status, out, _ = dossier("page", *folders)
    check("a page of 200", status=(status, 0), articles=(out.count(b"<article"), 200))
    broken = [folder_of(place / "broken", f"host-{number:03}") for number in range(60)]
    for jobs in ("1", "3"):
        call = subprocess.Popen([SCRIPT, "audit", "--again", "--jobs", jobs, *broken], env=ENVIRONMENT,
                                stdout=subprocess.PIPE, stderr=subprocess.PIPE, start_new_session=True)
        assert call.stdout
        call.stdout.readline()
        os.killpg(call.pid, signal.SIGINT)
        said = call.communicate(timeout=SECONDS)[1]
        check(f"Ctrl-C with {jobs} jobs", status=(call.returncode, 130), line=(said.count(b"\n"), 1),
              left=(parts_left(place / "broken"), []))


def test_stopped_amid_a_name(place: Path) -> None:
    """A call that is stopped while a folder's file has a name that isn't its own: the file comes into its place."""
    from dossier.fault import Stopped
    from dossier.folder import placing
    from dossier.folder.files import Folder
    from dossier.folder.jobs import run_all
    from dossier.folder.progress import Progress
    from dossier.folder.result import Said
    folder, begun, rename = folder_of(place, "host"), place / "begun", os.rename

    def late(*names: Any, **how: Any) -> None:
        begun.touch()
        time.sleep(0.7)
        rename(*names, **how)

    def work(path: str, _: int) -> Said:
        with Folder(path) as opened, patch.object(os, "rename", late):
            placing.place(opened, {"report.txt": [b"a report"]})
        time.sleep(SECONDS)
        return Said()

    class Stopping(Progress):
        def show(self) -> None:
            if begun.exists():
                raise Stopped(signal.SIGTERM)
    try:
        ended = list(run_all([str(folder)], work, Said, SECONDS, 1, Stopping(1)))
    except Stopped:
        ended = []
    check("a call that is stopped amid a name", ended=(ended, []),
          left=(sorted(os.listdir(folder)), ["claim.json", "f.pcap", "report.txt"]))


def test_slurm(place: Path) -> None:
    """The script for a Slurm array that docs/FLEET.md shows, its tasks called by hand."""
    text = (ROOT / "docs" / "FLEET.md").read_text("utf-8").split("a file audit.slurm:\n\n")[1].split("\n\n")[0]
    (place / "audit.slurm").write_text(textwrap.dedent(text) + "\n")
    (place / "ntpaudit-dossier").symlink_to(SCRIPT)
    folders = [folder_of(place, f"fleet/host {machine}/2026-11-{day:02}") for machine in "ab" for day in (1, 2)]
    check("the Slurm script's form", run=(run(["bash", "-n", place / "audit.slurm"]), (0, b"", b"")))
    told, metrics = [], place / "metrics"
    metrics.mkdir()
    for number in range(6):
        status, out, err = run(["bash", place / "audit.slurm"], cwd=place,
                               env={**ENVIRONMENT, "SLURM_ARRAY_TASK_ID": str(number)})
        check(f"task {number} of the Slurm script", status=(status, 0), error=(err, b""))
        told += [line for line in out.decode().splitlines() if line.startswith("yes ")]
    check("the tasks of the Slurm script",
          folders=(sorted(told), [f"yes           {folder.relative_to(place)}: least bound 0.619 ms, claimed 5 ms"
                                  for folder in folders]))
    check("the metrics of the tasks", files=(sorted(path.name for path in metrics.iterdir()),
                                             [f"{number}.prom" for number in range(4)]))


def test_full_disk(place: Path) -> None:
    """Where files can't grow, none is left half written."""
    folder = folder_of(place / "full", "host")
    for blocks, names in ((0, {"claim.json", "f.pcap"}), (2, {"claim.json", "f.pcap", "audit.json"})):
        status, out, err = run(["bash", "-c", f'ulimit -f {blocks}; exec "{SCRIPT}" audit "$0"', folder],
                               env={**ENVIRONMENT, "XDG_STATE_HOME": str(place / "state")})
        check(f"a disk with {blocks} KiB left", status=(status, 4), told=(b"can't be written" in out + err, True),
              files=({path.name for path in folder.iterdir()}, names))
    check("what was written of a full disk",
          verdict=(json.loads(dossier("page", "--json", "--state", place / "state/ntpaudit", folder)[1])[0]["verdict"],
                   "refused"))
    check("a page to a full device",
          run=(run(["sh", "-c", f'"{SCRIPT}" page "$0" > /dev/full', folder], env=ENVIRONMENT)[0], 4))
    dossier("audit", folder)
    status, _, _ = dossier("page", "-o", place / "full" / "d.html", folder)
    check("a page into a file", status=(status, 0),
          whole=((place / "full" / "d.html").read_bytes().endswith(b"</html>\n"), True))


# ---- verify
def differences(kept: dict[str, bytes]) -> Iterator[tuple[str, dict[str, bytes]]]:
    """Files that differ from what the inputs of an audited folder come to, each with what is said of them."""
    record = json.loads(kept["audit.json"])
    entry, whole, leaps = record["entries"][0], kept["report.txt"], record["leap_seconds"]

    def forged(**changes: object) -> dict[str, bytes]:
        return {"audit.json": json.dumps({**record, "entries": [{**entry, **changes}]}).encode()}

    def report(data: bytes) -> dict[str, bytes]:
        outputs = {**entry["outputs"], "report.txt": hashlib.sha256(data).hexdigest()}
        return {"report.txt": data, **forged(outputs=outputs)}
    yield "f.pcap isn't the file that was audited", {"f.pcap": kept["f.pcap"][:-1] + b"x"}
    yield "envelope.txt was changed since the audit", {"envelope.txt": kept["envelope.txt"].replace(b"1", b"2", 1)}
    yield "more.pcap is new", {"more.pcap": kept["f.pcap"]}
    yield "more-drift.claim.json isn't of this audit", {"more-drift.claim.json": b""}
    yield "0 verdict is `open`, and by the inputs `yes`", forged(verdict="open", reason={"why": "tick"})
    yield f"entries 0 least_ns is `1`, and by the inputs `{entry['least_ns']}`", forged(least_ns=1)
    yield "samples is `58`, and by the inputs `57`", forged(counts={**entry["counts"], "samples": 58})
    yield "entries 0 warnings is", forged(warnings=[])
    yield "isn't of this audit", forged(outputs={})
    yield "entries 0 servers 0 address is", forged(servers=entry["servers"][::-1])
    yield "bound_ns is `1`, and by the inputs `5000000`", forged(claim={**entry["claim"], "bound_ns": 1})
    yield "entries 0 envelope_step is `2`, and by the inputs `1`", forged(envelope_step=2)
    yield "entries 0 leap says is `within`", forged(leap={**entry["leap"], "says": "within"})
    yield "entries 0 worst piece is `0`", forged(worst={**entry["worst"], "piece": 0})
    yield "entries 0 refutation error is `1`", forged(refutation={**entry["refutation"], "error": 1})
    yield "entries 0 part is `2026-11-22`", forged(part="2026-11-22")
    yield "report.txt: from byte ", report(whole.replace(b"samples 57", b"samples 58"))
    yield "is `more`, and by the inputs ``", report(whole + b"more")
    yield "is ``, and by the inputs ` yes\\x0a`", report(whole[:-5])
    for line, name, value in (("program version is `ntpaudit 9`", "program",
                               {**record["program"], "version": "ntpaudit 9"}),
                              ("envelope.txt: from byte ", "options", {"step": 64}), (
            "leap_seconds seconds is `None`", "leap_seconds", {**leaps, "seconds": leaps["seconds"][:-1]})):
        yield line, {"audit.json": json.dumps({**record, name: value}).encode()}


def test_verify(place: Path) -> None:
    """What differs from what the inputs come to, with both values."""
    folder = audited(place, "verified")
    kept = {path.name: path.read_bytes() for path in folder.iterdir()}
    for line, files in differences(kept):
        for name, data in files.items():
            (folder / name).write_bytes(data)
        status, out, _ = dossier("verify", folder)
        check(f"verify sees {', '.join(files)}: {line}", status=(status, 1), line=(line in out.decode(), True),
              lines=(out.count(b"\n"), 1))
        for name in files:
            (folder / name).write_bytes(kept[name]) if name in kept else (folder / name).unlink()
    check("verify at the end", run=(dossier("verify", folder), (0, f"{folder}: verified: yes\n".encode(), b"")))
    (folder / "envelope.txt").write_bytes(b"")
    text = dossier("page", folder)[1].decode()
    check("no picture of a changed envelope", told=("envelope.txt was changed since the audit" in text, True),
          drawn=('class="picture"' in text, False), badge=('class="verdict not-verified"' in text, True))
    (folder / "audit.json").unlink()
    check("verify without an audit", status=(dossier("verify", place / "missing")[0], 4),
          run=(dossier("verify", folder)[:2], (4, f"{folder}: ntpaudit-dossier: not audited\n".encode())))


# ---- files that change
UNSEEN = "conv=notrunc bs=1 seek=40 status=none of"
"""For dd: the first byte of an Ethernet address, which no answer depends on."""
HARMLESS = {".pcap": f"printf x | dd {UNSEEN}=", ".json": "echo >> "}
"""What changes a file, and no answer, by how the file's name ends."""


def test_changing(place: Path) -> None:
    """Whatever changes in the folder after it was read: the answers are about what was read, and `verify` names the
    file. Whatever changes in the private copies is refused."""
    kinds = {"yes": (DATA / "clients-us.pcap", DATA / "clients-us.claim.json"),
             "refuted": (DATA / "chrony-ns.pcap", DATA / "chrony-ns.tight.claim.json")}
    for kind, (capture, claim) in kinds.items():
        judge = "check" if kind == "yes" else "refute"
        for command in ("settle", "samples", judge):
            for name in ("f.pcap", "claim.json"):
                folder, label = folder_of(place / kind, f"{command} {name}", capture,
                                          claim), f"{kind}: {name} changes at {command}"
                bad = stand_in(folder.parent / f"{folder.name}.program",
                               f'[ "$1" = {command} ] && {HARMLESS[name[-5:]]}"{folder}/{name}"')
                before = sums_of(folder)
                status, out, err = dossier("audit", folder, env=bad)
                record = record_of(folder)
                check(label, status=(status, int(kind == "refuted")), error=(err, b""), sums=(record["inputs"], before))
                status, out, _ = dossier("verify", folder)
                check(f"{label}, by verify",
                      run=((status, f"{name} isn't the file that was audited" in out.decode()), (1, True)))
                check(f"{label}, on the page", badge=(table(folder)[0]["verdict"], "not verified"))
        for name in ("claim.json", "0.pcap", "certificate.json" if kind == "yes" else "refutation.json"):
            folder = folder_of(place / kind, f"own {name}", capture, claim)
            bad = stand_in(folder.parent / f"{folder.name}.program",
                           f'[ "$1" = {judge} ] && {HARMLESS[name[-5:]]}{name}')
            status, out, _ = dossier("audit", folder, env=bad)
            check(f"{kind}: the copy of {name} changes at {judge}", status=(status, 2),
                  line=(b"ntpaudit: sums differ" in out, True))
    folder = folder_of(place, "unchanged")
    good = stand_in(place / "program", ":")
    check("a stand-in that changes nothing", status=(dossier("audit", folder, env=good)[0], 0),
          verify=(dossier("verify", folder, env=good), (0, f"{folder}: verified: yes\n".encode(), b"")))


# ---- drafts, days, verdicts
CARRIED = "clients-us", "vlan-ns", "chrony-ns", "port123-ns", "odd-us"
"""Captures of data/ whose draft is a claim that they show."""


def test_draft(place: Path) -> None:
    """A draft of each capture of data/: client, servers, groups, span and bound, and whether it carries."""
    vlan = DATA / "vlan-ns.pcap"
    status, out, err = dossier("draft", vlan)
    claim = json.loads(out)
    check("a draft of vlan-ns", status=(status, 0), client=(claim["client"], "198.51.100.10"),
          servers=(claim["servers"], [f"198.51.100.{k}" for k in (1, 2, 3, 4)]),
          groups=(claim["groups"], [[0, 3], [1], [2]]), false_max=(claim["false_max"], 1),
          span=((claim["from"], claim["to"]), ("2026-11-22T06:58:54Z", "2026-11-22T06:59:32Z")),
          told=([name for name in ("drift_ppb", "reading_ns", "false_max", "groups") if f"\n{name}" not
                 in f"\n{err.decode()}"], []))
    least = int(run([PROGRAM, "envelope", "/dev/stdin", vlan, "--least"], out)[1].split()[-3])
    check("the bound of a draft", digits=(str(claim["bound_ns"]).rstrip("0"), lambda text: len(text) <= 2),
          above=(least <= claim["bound_ns"] < least * 1.1, True))
    status, out, err = dossier("draft", "--bound-ns", "123456789", vlan)
    check("a draft of a bound", claim=(json.loads(out), {**claim, "bound_ns": 123_456_789}),
          told=(f" {-(-least // 1000) / 1000:.3f} ms; 123.456789 ms stands there, as asked for." in err.decode(), True))
    for capture in files_in(DATA, "*.pcap"):
        status, out, err = dossier("draft", capture)
        if status == 0:
            claim = json.loads(out)
            groups, most = len(claim.get("groups", claim["servers"])), claim["false_max"]
            carries = run([PROGRAM, "settle", "/dev/stdin", capture], out)[0]
            check(f"a draft of {capture.name} is a claim, which carries if one does", status=(carries in (0, 1), True),
                  carries=(carries == 0 or capture.stem not in CARRIED, True),
                  false_max=(most, lambda most: 2 * most < groups <= 2 * most + 2))
        else:
            check(f"no draft of {capture.name}", status=(status, 1), told=(bool(err), True), output=(out, b""))
    day = json.loads(dossier("draft", "--day", vlan)[1])
    check("a draft of a day", span=((day["from"], day["to"]), ("2026-11-22T00:00:00Z", "2026-11-23T00:00:00Z")))
    for option, word in (("--bound-ns", "1000000000000001"), ("--drift-ppb", "-1"), ("--reading-ns", "1000000001")):
        check(f"a draft with {option} {word}", status=(dossier("draft", option, word, vlan)[0], 5))


def test_other_drafts(place: Path) -> None:
    """What a draft says of the drift, and of captures with two clients or none."""
    for words, drift, told in rows(([], 100_000, "100000, an oscillator alone: the client's own corrections are NOT"),
                                   (["--oscillator-ppb", "20000"], 20_000, "20000, an oscillator alone:"),
                                   (["--drift-ppb", "600000"], 600_000, "600000: how fast"),
                                   (["--chrony", DATA / "client/chrony.conf"], 600_000, "600000: how fast")):
        status, out, err = dossier("draft", *words, DATA / "vlan-ns.pcap")
        check(f"a draft by {words[:1]}", drift=(json.loads(out)["drift_ppb"], drift),
              told=(f"\ndrift_ppb is {told}" in f"\n{err.decode()}", True), once=(err.count(b"drift_ppb is"), 1))
    header, both = place / "header.pcap", place / "both.pcap"
    header.write_bytes((DATA / "clients-us.pcap").read_bytes()[:24])
    both.write_bytes((DATA / "clients-us.pcap").read_bytes() + (DATA / "odd-us.pcap").read_bytes()[24:])
    status, _, err = dossier("draft", both)
    check("drafts of nothing and of two clients", torn=(dossier("draft", ROOT / "README.md")[0], 2),
          run=(dossier("draft", header), (1, b"", b"No NTP client asks anybody in it: 0 NTP packets.\n")),
          both=(status, 0), told=([words in err for words in (b"2 clients", b"198.51.100.10 asks", b"192.0.2.10 asks")],
                                  [True] * 3),
          client=(json.loads(dossier("draft", "--client", "192.0.2.10", both)[1])["client"], "192.0.2.10"))


TCPDUMP = """#!/bin/sh
# stands in for tcpdump: prints a capture of data/, and waits for its end
[ "$1" != --version ] || exec echo "tcpdump version 4"
echo "tcpdump: listening on eth0" >&2
cat -- "{capture}"
exec sleep 600
"""


def test_five_commands(place: Path) -> None:
    """The commands of docs/DOSSIER.md from a recording to a page, as they stand there."""
    text = (ROOT / "docs" / "DOSSIER.md").read_text("utf-8").split("## From a recording to "
                                                                   "a page")[1].split("## A folder")[0]
    commands = re.findall(r"^    (.*)", text, flags=re.M)
    check("five commands", count=(len(commands), 5))
    runnable(place / "tcpdump", TCPDUMP.format(capture=DATA / "vlan-ns.pcap"))
    (place / "ntpaudit-dossier").symlink_to(SCRIPT)
    with_tcpdump = {**ENVIRONMENT, "PATH": f"{place}:{os.environ['PATH']}"}
    words = "draft --bound-ns 50000000 --chrony /etc/chrony/chrony.conf "
    check("they read the client's configuration", seen=(words in commands[1], True))
    for command in (command.replace("/etc/chrony", str(DATA / "client")) for command in commands):
        if " record " in command:
            call = subprocess.Popen(["sh", "-c", f"exec {command}"], cwd=place, env=with_tcpdump,
                                    stderr=subprocess.DEVNULL)
            whole = (DATA / "vlan-ns.pcap").stat().st_size
            wait_until(lambda: sum(file.stat().st_size for file in place.glob("web-1/*.pcap")) >= whole)
            call.send_signal(signal.SIGINT)
            ran: Ran = call.wait(), b"", b""
        else:
            ran = run(["sh", "-c", command], cwd=place, env=with_tcpdump)
        check(f"the command: {command}", status=(ran[0], 0))
    check("they end with", output=(ran[1], b"web-1: verified: yes\n"))
    page = (place / "dossier.html").read_text("utf-8")
    check_page("the page of five commands", page)
    check("its verdict", badge=('<span class="verdict yes">' in page, True))


CLAIM_OF_TWO: dict[str, Any] = {"client": "192.0.2.10", "servers": ["192.0.2.1", "192.0.2.2"], "false_max": 0,
                                "from": "2001-09-09T01:46:40Z", "to": "2001-09-09T01:47:44Z", "bound_ns": 60_000_000,
                                "drift_ppb": 100_000, "reading_ns": 0}


TICK = 7710888014534666407
FAKE = """#!/bin/sh
# stands in for the program: settle gives the answer in a file, and refute what is asked
case $1 in
settle) cat -- "$0.settle"; exit 1;;
refute) echo "$(cat -- "$0.refute")"; exit 0;;
esac
exec {program} "$@"
"""


def test_other_answers(place: Path) -> None:
    """What stays open; another refutation than the one that is kept; and a program that contradicts itself."""
    fake, folder = place / "ntpaudit", folder_of(place, "host", bound_ns=600_000)
    runnable(fake, FAKE.format(program=PROGRAM))
    environment = {**ENVIRONMENT, "NTPAUDIT": str(fake)}

    def answers(text: str, word: str = "yes") -> None:
        (place / "ntpaudit.settle").write_text(text)
        (place / "ntpaudit.refute").write_text(f"refuted {word}")
    answers(f"open {TICK} {TICK + 1} hull -2579000 2580000\n")
    status, out, _ = dossier("audit", folder, env=environment)
    shown = "".join(check_page("a page of what is open", dossier("page", folder)[1].decode()).words).replace("\u2212",
                                                                                                             "-")
    check("what stays open", status=(status, 1), line=(out.decode().startswith(f"open          {folder}: "), True),
          verified=(dossier("verify", folder, env=environment)[1].endswith(b"verified: open\n"), True),
          said=(f"At {civil(TICK >> 32)} errors from {ticks_range(-2579000, 2580000)} are left open.".replace("\u2212",
                                                                                                              "-")
                in shown, True), to_do=("A bound of 0.619 ms is the least that a certificate of pieces carries."
                                        in shown, True))
    refutation = {"error": 3_000_000, "false": [3], "reading": TICK}
    answers(json.dumps(refutation))
    check("a refutation", status=(dossier("audit", "--again", folder, env=environment)[0], 1))
    answers(json.dumps({**refutation, "error": 2_900_000}))
    status, out, _ = dossier("verify", folder, env=environment)
    check("another refutation by the same build", status=(status, 1),
          line=(b'refutation.json: from byte 10 on (line 1) it is `3000000,' in out, True))
    with open(fake, "a") as opened:
        opened.write("# another build\n")
    other = b": (by another build of the program than the audit's)\n"
    check("another refutation by another build", run=(dossier("verify", folder, env=environment)[:2],
                                                      (1, f"{folder}: verified: refuted\n{folder}".encode() + other)))
    answers(json.dumps(refutation), "no")
    check("a refutation that isn't accepted any more",
          run=(dossier("verify", folder, env=environment)[:2],
               (70, f"{folder}: ntpaudit-dossier: refute doesn't accept what settle gave\n".encode())))
    status, out, _ = dossier("audit", "--again", folder, env=environment)
    check("a program that contradicts itself", status=(status, 70),
          line=(b"refute doesn't accept what settle gave" in out, True),
          to_do=("anew" in table(folder)[0]["to_do"], True))
