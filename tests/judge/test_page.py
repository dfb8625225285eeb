"""The judge's page in real browsers, from a disk: files chosen and dropped, a folder dropped, its verdicts, sums and
words, by keyboard, on a narrow screen, and what it may fetch, which is nothing."""
import hashlib
import http.server
import json
import shutil
import threading
from collections.abc import Callable
from functools import wraps
from pathlib import Path

from tests.support import DATA, ROOT, check, is_here, program, run, skip, sum_of, wanting
from tests.judge.made import made, missing
from tests.judge.test_answers import EMPTY, written
from tests.tools import browser
from tests.tools.browser import Browser, Chromium

KINDS = "claim", "capture", "answer"
YES = DATA / "vlan-ns.claim.json", DATA / "vlan-ns.pcap", DATA / "vlan-ns.settle.txt"
OTHERS = {
    "No": (DATA / "clients-us.claim.json", DATA / "clients-us.pcap", DATA / "vlan-ns.settle.txt"),
    "It stands": (DATA / "chrony-ns.tight.claim.json", DATA / "chrony-ns.pcap", DATA / "chrony-ns.tight.settle.txt"),
    "It doesn't stand": (DATA / "vlan-ns.claim.json", DATA / "vlan-ns.pcap", DATA / "clients-us.zero.refutation.json"),
    "No evidence": (DATA / "vlan-ns.silent.claim.json", DATA / "vlan-ns.pcap", DATA / "vlan-ns.silent.settle.txt"),
    "Not judged": (DATA / "vlan-ns.claim.json", DATA / "README.md", DATA / "vlan-ns.settle.txt")}
"""Of each verdict the files."""


def needs(tool: str) -> Callable[[Callable[[Path], None]], Callable[[Path], None]]:
    """A test of the page, in a browser."""
    def around(test: Callable[[Path], None]) -> Callable[[Path], None]:
        @wraps(test)
        def tried(folder: Path) -> None:
            if lacks := missing():
                skip(f"the page in {tool}", wanting(lacks))
            elif is_here(tool, f"the page in {tool}"):
                test(folder)
        return tried
    return around


def url() -> str:
    return made("judge.html").as_uri()


def choose(page: Browser, files: tuple[Path, Path, Path]) -> None:
    for kind, path in zip(KINDS, files):
        page.choose(f"#{kind}", path)


def judge(page: Browser, files: tuple[Path, Path, Path]) -> None:
    """Opens the page, chooses these files and has them judged."""
    page.open(url())
    choose(page, files)
    page.run("document.getElementById('judge').click()")


def verdicts(page: Browser, number: int = 1) -> list[str]:
    """The verdicts that stand there, once there are so many."""
    page.wait(f"document.querySelectorAll('article').length >= {number} && document.getElementById('running').hidden")
    return list(page.run("[...document.querySelectorAll('.verdict')].map((verdict) => verdict.textContent)"))


def sums(page: Browser) -> list[str]:
    return list(page.run("[...document.querySelectorAll('.sum')].map((sum) => sum.firstChild.textContent)"))


def text(page: Browser) -> str:
    return " ".join(str(page.run("document.body.innerText")).split())


def line(page: Browser) -> str:
    return str(page.run("document.querySelector('article code').textContent"))


def judged_by_program(files: tuple[Path, Path, Path]) -> str:
    """The last line of the program, or its fault."""
    answer = files[2].read_bytes()
    words = [["check", *files], ["refute", *files, "--drift"], ["settle", *files[:2]]]
    number = 0 if b"pieces" in answer else 1 if b"error" in answer else 2
    status, out, err = run([program(), *words[number]])
    return (out if status in (0, 1) else err.removeprefix(b"ntpaudit: ")).decode().splitlines()[-1]


def try_verdicts(page: Browser) -> None:
    """Each verdict, its line that of the program, and the sums of the files."""
    for wanted, files in {"Yes": YES, **OTHERS}.items():
        judge(page, files)
        seen = verdicts(page)
        check(f"{wanted}, chosen", verdict=(seen, [wanted]), line=(line(page), judged_by_program(files)),
              sums=(sums(page), [sum_of(path.read_bytes()) for path in files]))


@needs("firefox-esr")
def test_firefox(folder: Path) -> None:
    with browser.firefox() as page:
        try_verdicts(page)


@needs("chromium")
def test_chromium(folder: Path) -> None:
    with browser.chromium() as page:
        try_verdicts(page)
        said = text(page)
        page.open(url())
        choose(page, YES)
        page.run("document.getElementById('claim').focus()")
        page.press("Tab", "Tab", "Tab", "Enter")
        check("by keyboard", verdict=(verdicts(page), ["Yes"]),
              focus=(page.run("document.activeElement.tagName"), "H2"))
        said, claim = text(page), json.loads(YES[0].read_text())
        for words in (f"The clock of {claim['client']} was within 5 ms of UTC from 2026-11-22 06:58:54 UTC to "
                      "2026-11-22 06:59:32 UTC", "100 ppm", "more than 0.1 ms before", "At most 1 of 4 groups",
                      "no leap second"):
            check(f"a yes says: {words}", said=(words in said, True))
        page.run(f"document.getElementById('sums').value = {json.dumps(sums(page)[1].upper() + '  f.pcap')}")
        page.run("document.getElementById('sums').oninput()")
        marks = page.run("[...document.querySelectorAll('.sum b')].map((mark) => mark.className)")
        check("sums to compare", marks=(marks, ["differs", "same", "differs"]))
        tree = page.call("Accessibility.getFullAXTree")["nodes"]
        names = [(node["role"]["value"], node["name"]["value"]) for node in tree if node.get("name", {}).get("value")]
        wanted = [("button", "Judge"), ("button", "Choose a folder"), ("textbox", "Sums to compare")]
        check("for a screen reader", missing=([pair for pair in wanted if pair not in names], []),
              files=([kind for kind in KINDS if not any(kind.capitalize() in name for role, name in names
                                                        if role == "button")], []),
              live=(page.run("document.getElementById('status').getAttribute('role')"), "status"))
        for width in (360, 1280):
            page.size(width, 800)
            check(f"{width} px wide", width=(page.run("document.documentElement.scrollWidth") <= width, True))
        check("what it fetched, and what the browser complained of", fetched=(page.asked_for(), []),
              complaints=(page.complaints(), []))


@needs("chromium")
def test_by_covers(folder: Path) -> None:
    """A yes by covers, and in words what fails of another."""
    claim, capture, answer = files = folder / "claim.json", folder / "f.pcap", folder / "certificate.json"
    capture.write_bytes(run([ROOT / "tests/tools/creeping", "33"])[1])
    said = {"client": "192.0.2.10", "servers": [f"192.0.2.{k}" for k in (101, 102, 103, 104)], "false_max": 1,
            "from": "2023-11-14T22:13:20Z", "to": "2023-11-14T22:47:28Z", "bound_ns": 9_600_000, "drift_ppb": 15_000,
            "reading_ns": 0}
    claim.write_text(json.dumps(said))
    answer.write_bytes(run([program(), "settle", claim, capture])[1])
    whole = json.loads(answer.read_text())
    asked: list[tuple[dict[str, int], dict[str, object], str, str]] = [
        ({}, whole, "Yes", "The clock of 192.0.2.10 was within 9.6 ms of UTC"),
        ({"bound_ns": 1000}, whole, "No", "In case 0: Piece 0 (2023-11-14 22:13:20 UTC to "),
        ({}, {**whole, "cases": []}, "No", "It fails: it has no case."),
        ({}, {**whole, "conflicts": []}, "No", "there is a choice of wrong groups that it has no case for"),
        ({}, {**whole, "conflicts": [[0, 0]]}, "No", "Conflict 0 fails: its two exchanges agree"),
        ({"false_max": 0}, whole, "No", "Case 0 fails: more groups are wrong in it than may be."),
        ({}, {"cases": [{}], "conflicts": []}, "Not judged", "is refused: a case isn't of the form")]
    with browser.chromium() as page:
        for changes, certificate, verdict, words in asked:
            claim.write_text(json.dumps({**said, **changes}))
            answer.write_text(json.dumps(certificate))
            judge(page, files)
            seen = verdicts(page)
            check(f"by covers: {words}", verdict=(seen, [verdict]), said=(words in text(page), True))
        judge(page, written(folder, EMPTY, 0))
        check("by covers: an empty yes", verdict=(verdicts(page), ["An empty yes"]), line=(line(page), "verdict yes"))


@needs("chromium")
def test_many_servers(folder: Path) -> None:
    """As many servers as a claim's bytes hold end no stack."""
    claim, path = json.loads(YES[0].read_text()), folder / "claim.json"
    claim.pop("groups", None)
    with browser.chromium() as page:
        for server, number in (("", 21_000), ("192.0.2.1", 5_000)):
            path.write_text(json.dumps({**claim, "servers": [server] * number}, separators=(",", ":")))
            judge(page, (path, *YES[1:]))
            check(f"{number} servers", verdict=(verdicts(page), ["Not judged"]),
                  line=(line(page), judged_by_program((path, *YES[1:]))))


def dropped(page: Chromium, *files: Path) -> None:
    page.open(url())
    page.drop(*files)


@needs("chromium")
def test_dropped(folder: Path) -> None:
    """Files, and folders as an audit leaves them."""
    strange = folder / "<img src=x onerror=alert(1)>\u202epacp.exe"
    shutil.copytree(DATA / "older/1.0.0/yes", strange)
    with browser.chromium() as page:
        dropped(page, *YES)
        check("three files, dropped", verdict=(verdicts(page), ["Yes"]), line=(line(page), "verdict yes"))
        dropped(page, YES[0], YES[1])
        check("two files, dropped", warned=(page.wait("!document.getElementById('warning').hidden"), True),
              said=("Still missing: answer." in text(page), True))
        page.drop(YES[2])
        check("and the third", verdict=(verdicts(page), ["Yes"]))
        for name, wanted in (("yes", ["Yes", "It stands"]), ("refuted", ["It stands"]),
                             ("nothing-fits", ["Nothing fits"])):
            dropped(page, DATA / "older/1.0.0" / name)
            check(f"a folder of an audit, dropped: {name}", verdicts=(verdicts(page, len(wanted)), wanted))
        dropped(page, DATA / "older/1.0.0")
        check("a folder of folders, dropped",
              verdicts=(verdicts(page, 4), ["Nothing fits", "It stands", "Yes", "It stands"]))
        dropped(page, strange)
        check("a folder with a strange name", verdicts=(verdicts(page, 2), ["Yes", "It stands"]),
              images=(page.run("document.images.length"), 0),
              shown=("\\u{202e}pacp.exe/certificate.json" in text(page), True))
        dropped(page, DATA / "README.md")
        check("something else, dropped", warned=(page.wait("!document.getElementById('warning').hidden"), True))
        check("what it complained of", complaints=(page.complaints(), []))


def grown(folder: Path, records: int) -> Path:
    """A capture of so many records more, which are no NTP."""
    path = folder / "grown.pcap"
    record = bytes(8) + (50).to_bytes(4, "little") * 2 + bytes(50)
    head = YES[1].read_bytes()
    assert head[:4] == b"\x4d\x3c\xb2\xa1"
    path.write_bytes(head + record * records)
    return path


@needs("chromium")
def test_at_work(folder: Path) -> None:
    """While it judges many records the page answers, shows how far it is, and can be stopped."""
    many = grown(folder, 300_000)
    with browser.chromium() as page:
        judge(page, (YES[0], many, YES[2]))
        parts = set[float]()
        while page.run("!document.getElementById('running').hidden"):
            parts.add(float(page.run("document.getElementById('progress').value")))
        check("at work", verdict=(verdicts(page), ["Yes"]), parts=(len(parts) > 3, True),
              sum=(sums(page)[1], hashlib.sha256(many.read_bytes()).hexdigest()))
        page.run("document.getElementById('judge').click()")
        page.run("document.getElementById('stop').click()")
        check("stopped", said=(page.run("document.getElementById('status').textContent"), "Stopped"),
              left=(page.run("document.querySelectorAll('article').length"), 0))


@needs("chromium")
def test_no_way_out(folder: Path) -> None:
    """What a script in the page or in its worker would fetch, its policy forbids."""
    asked = []

    class Listening(http.server.BaseHTTPRequestHandler):
        def do_GET(self) -> None:
            asked.append(self.path)
            self.send_error(404)

        def log_message(self, *_: object) -> None:
            pass
    with http.server.ThreadingHTTPServer(("127.0.0.1", 0), Listening) as server, browser.chromium() as page:
        threading.Thread(target=server.serve_forever, daemon=True).start()
        at = f"http://127.0.0.1:{server.server_address[1]}"
        (folder / "empty.html").write_text("<p id=form>")
        page.open((folder / "empty.html").as_uri())
        ways = (f"fetch('{at}/fetch', {{mode: 'no-cors'}}).then(() => 'out', () => 'kept')",
                "new Promise((say) => { const image = new Image(); image.onload = image.onerror = () => say('kept'); "
                f"image.src = '{at}/image'; }})",
                f"navigator.sendBeacon('{at}/beacon') ? 'out' : 'kept'")
        for way in ways:
            page.run(way)
        check("without the policy", asked=(bool(asked), True))
        asked.clear()
        page.open(url())
        for way in ways:
            page.run(way)
        worker = ("new Promise((say) => { const w = new Worker(URL.createObjectURL(new Blob([`"
                  f"fetch('{at}/worker', {{mode: 'no-cors'}}).then(() => postMessage('out'), () => postMessage('kept'))"
                  "`]))); w.onmessage = ({data}) => say(data); })")
        check("in the worker", said=(page.run(worker), "kept"))
        check("with the policy", asked=(asked, []))
        server.shutdown()


def test_made_again(folder: Path) -> None:
    """What is made is what dist/ has, byte for byte, the program too; and the page is small."""
    if tool := missing():
        skip("the page, made again", wanting(tool))
        return
    for name in ("judge.html", "ntpaudit-judge"):
        check(f"dist/{name} is another than what is made: call judge/make dist, with --page too",
              same=((ROOT / "dist" / name).read_bytes() == made(name).read_bytes(), True))
    check("small", size=(len(made("judge.html").read_bytes()) <= 300_000, True))
