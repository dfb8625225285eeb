"""Compares second/recheck with the program, which shares nothing with it: no answer may differ, to the byte, for what
the transcripts ask, for data/, at the edges of the rules and a tick beside (directed.py), and for courses made from
a seed (events.py), with what the program finds, what is like it, what nobody would claim, and a byte spoiled.

Of what `settle` says in words, `recheck` has to print the last line again; what is left of it when lines are missing or
altered is right if a search over all groups, or `settle` of just its exchanges, says so.
"""
import json
import os
import random
import re
import shutil
import tempfile
from collections import Counter
from collections.abc import Callable, Iterator
from functools import partial
from itertools import permutations
from pathlib import Path

from tests.support import DATA, ROOT, Ran, count, files_in, program, run
from tests.cases import transcript
from tests.second import rules
from tests.second.claims import Claim, changed
from tests.second.rechecked import recheck
from tests.tools import directed, scenes
from tests.tools.events import Course
from tests.tools.wire import records_of

SEED, SCENES = "2026", 125
"""tests/second/test_planted.py needs 60 scenes, beside what is directed, to see each bug that it plants."""
PASSED_OVER = "settle/a-million-exchanges"
"""The transcript for which Python would need minutes."""

Answer = tuple[int | str, str]
"""A status, and the last line on standard output."""

REFUSED: Answer = 2, ""

PROGRAM = program()


def last_line(text: bytes) -> str:
    return (text.decode().splitlines() or [""])[-1]


class Trial:
    """A claim, a capture and a third file, of which both programs are asked."""

    def __init__(self, name: str, folder: Path, rng: random.Random) -> None:
        self.name, self.folder, self.rng = name, folder, rng
        self.claim, self.capture, self.third = (folder / name for name in ("claim", "capture", "third"))
        self.seen = Counter[str]()
        self.wrong: list[str] = []

    def ask(self, command: str, *words: object) -> tuple[int | str, bytes]:
        return run([PROGRAM, command, self.claim, self.capture, *words])[:2]

    def says(self, *drift: str) -> Ran:
        """What `recheck` says of the third file."""
        return recheck(self.claim, self.capture, self.third, *drift)

    def judged(self, *drift: str) -> Answer:
        """What the program says of the third file, which is a certificate or a refutation."""
        for command, words in (("check", ()), ("refute", drift)):
            status, out = self.ask(command, self.third, *words)
            if status in (0, 1):
                return status, last_line(out)
        return REFUSED

    def hold(self, label: str, is_right: Callable[[Answer], bool], *drift: str) -> None:
        """Asks `recheck`, and keeps what it says if that isn't right."""
        status, out, err = self.says(*drift)
        said: Answer = status, out.decode().removesuffix("\n")
        self.seen[f"{label}: {re.sub('[0-9]+', 'N', said[1])[:60] or 'refused'}"] += 1
        if not is_right(said) or (status == 2) != (not out) or (status == 2 and not re.match(rb"\S+: ", err)):
            kept = Path(tempfile.mkdtemp(prefix="ntpaudit-second-"))
            for file in (self.claim, self.capture, self.third):
                shutil.copy(file, kept)
            self.wrong.append(f"{label} {' '.join(drift)}: it says {said} {err[:200]!r}, in {kept}")

    def compare(self, label: str, *drift: str) -> None:
        wanted = self.judged(*drift)
        self.hold(f"{label}, not as the program's {wanted}", lambda said: said == wanted, *drift)

    def compare_both(self, label: str, third: bytes) -> None:
        """A third file, with `--drift` too if it is a refutation."""
        self.third.write_bytes(third)
        self.compare(label)
        if b"error" in third:
            self.compare(label, "--drift")

    def samples(self) -> list[list[str]]:
        status, out = self.ask("samples")
        return [line.split() for line in out.decode().splitlines()[:-1]] if status == 0 else []

    # ---- when readings were shown

    def hold_readings(self, claim: Claim) -> None:
        """Holds `recheck` to what `at --times` says of some readings, and to that with another digit or word."""
        times = self.folder / "times"
        times.write_text("".join(f"{reading}\n" for reading in scenes.readings(self.rng, claim)))
        status, answer = self.ask("at", "--times", times)
        if status != 0:
            return
        self.third.write_bytes(answer)
        self.hold("readings", (0, "readings yes").__eq__)
        lines = answer.decode().splitlines()
        for k in self.rng.sample(range(len(lines)), 3):
            begin = lines[k].index(" hull ") + 6
            digits = [at for at in range(begin, len(lines[k])) if lines[k][at].isdigit()]
            at = self.rng.choice(digits or [begin])
            other = "1" if lines[k][at] != "1" else "2"
            altered = [*lines[:k], lines[k][:at] + other + lines[k][at + 1:], *lines[k + 1:]]
            self.third.write_text("".join(f"{line}\n" for line in altered))
            self.hold("readings, altered", (1, f"readings no line {k + 1}").__eq__)

    # ---- answers in words

    def hold_words(self, claim: Claim, answer: bytes) -> None:
        """Holds `recheck` to an answer of `settle` in words, and to others near it."""
        self.third.write_bytes(answer)
        *lines, last = answer.decode().splitlines()
        if last.startswith("open "):
            self.hold("open", REFUSED.__eq__)
            return
        self.hold("settle", (1, last).__eq__)
        if last.startswith("no evidence "):
            for at in (3, 5, 7):
                words = last.split()
                words[at] = str(int(words[at]) + self.rng.choice([1, -1, 2]))
                self.third.write_text(" ".join(words) + "\n")
                self.hold("no evidence, altered", is_not_right)
            self.third.write_text("nothing fits\n")
            self.hold("nothing fits, without a line", is_not_right)
            return
        for _ in range(3):
            kept = [line for line in lines if self.rng.random() < .7]
            is_enough = not scenes.are_few(scenes.pairs_of(kept, claim), claim["false_max"])
            self.third.write_text("".join(f"{line}\n" for line in (*kept, last)))
            self.hold("nothing fits, of some lines", (1, last).__eq__ if is_enough else is_not_right)
            self.hold_altered(claim, lines)
        self.third.write_bytes(answer)
        wider = changed(claim, false_max=min(31, claim["false_max"] + 1))
        self.claim.write_text(json.dumps(wider))
        is_so = last_line(self.ask("settle")[1]) == last
        self.hold("nothing fits, for another claim", (1, last).__eq__ if is_so else is_not_right)
        self.claim.write_text(json.dumps(claim))

    def hold_altered(self, claim: Claim, lines: list[str]) -> None:
        """One line with another word: it is right if `settle` says it of a capture of just its records."""
        k, words = 0, lines[0].split()
        if len(lines) > 1:
            k = self.rng.randrange(len(lines))
            words = lines[k].split()
        at = self.rng.randrange(1, 5)
        words[at] = (self.rng.choice(claim["servers"]) if at in (1, 3)
                     else str(max(0, int(words[at]) + self.rng.choice([1, -1]))))
        if " ".join(words) == lines[k]:
            return
        self.third.write_text("".join(f"{line}\n" for line in (
            *lines[:k], " ".join(words), *lines[k + 1:], "nothing fits")))
        if (is_line := self.is_conflict(claim, words)) is not None:
            self.hold("nothing fits, with an altered line",
                      lambda said: said[0] == 1 and is_line != said[1].endswith(f"line {k + 1} is no conflict"))

    def is_conflict(self, claim: Claim, words: list[str]) -> bool | None:
        """Whether `settle` says this line of the records of its exchanges; None if it says another one of them."""
        samples, data = self.samples(), self.capture.read_bytes()
        records = records_of(data)
        pair = Trial("pair", self.folder / "pair", self.rng)
        pair.folder.mkdir(exist_ok=True)
        said = []
        for first in (row for row in samples if row[1:3] == words[1:3]):
            for second in (row for row in samples if [row[1], row[3]] == words[3:]):
                kept = sorted({int(number) for row in (first, second) for number in row[2:4]})
                pair.capture.write_bytes(data[:24] + b"".join(records[number] for number in kept))
                alone = changed(claim, servers=sorted({words[1], words[3]}), false_max=0)
                alone.pop("groups", None)
                pair.claim.write_text(json.dumps(alone))
                answer = pair.ask("settle")[1].decode().splitlines()
                line = f"conflict {words[1]} {kept.index(int(first[2]))} {words[3]} {kept.index(int(second[3]))}"
                said.append(True if line in answer else None if answer[-1] == "nothing fits" else False)
        return True if True in said else None if None in said else False


def is_not_right(said: Answer) -> bool:
    return said[0] == 1 and said[1].startswith("not right: ")


# ---- what is compared
Job = Callable[[Trial], None]


def scene(trial: Trial) -> None:
    """What the program finds of a scene, what is near it, and what is made up."""
    rng = trial.rng
    made = Course(rng)
    claim, capture = made.claim(rng.choice([0, 1, 10**6, 10**8, 10**15])), made.capture()
    trial.capture.write_bytes(scenes.odd(rng, capture) if rng.random() < .5 else capture)
    trial.claim.write_text(json.dumps(claim))
    step = str(rng.choice([1, 2, 8, 64]))
    bounds = re.findall(r"(?:bound_ns|least_ns) ([0-9]+)", trial.ask("envelope", "--step", step, "--least")[1].decode())
    if bounds and rng.random() < .75:                                   # a bound near what the capture shows
        near = int(rng.choice(bounds)) + rng.choice([0, 0, -1, 1, 1000, -1000, 100_000])
        claim = changed(claim, bound_ns=max(0, min(10**15, near)))
        trial.claim.write_text(json.dumps(claim))
    trial.hold_readings(claim)
    samples = trial.samples()
    of_servers = [[int(row[0]) for row in samples if row[1] == server] for server in claim["servers"]]
    thirds = [out for status, out in (trial.ask("find", "--step", step), trial.ask("find", "--refutation"))
              if status == 0]
    status, answer = trial.ask("settle")
    if status in (0, 1) and answer.startswith(b"{"):
        thirds.append(answer)
    elif status in (0, 1):
        trial.hold_words(claim, answer)
    heard = [own for own in of_servers if own]
    thirds.append(json.dumps(scenes.made_certificate(rng, claim, heard, len(samples))).encode())
    thirds.append(json.dumps(scenes.made_refutation(rng, claim)).encode())
    for third in thirds:
        trial.compare_both("scene", third)
        trial.compare_both("altered", scenes.altered(rng, third, len(samples)))
        file = rng.choice([trial.claim, trial.capture, trial.third])
        whole = file.read_bytes()
        file.write_bytes(scenes.spoiled(rng, whole))
        trial.compare("spoiled", *(["--drift"] if rng.random() < .5 else []))
        file.write_bytes(whole)


def edge(found: directed.Edge, trial: Trial) -> None:
    """What decides of a claim and a capture, and what is a nanosecond or a tick beside it."""
    claim = found.claim
    trial.capture.write_bytes(found.capture)
    trial.claim.write_text(json.dumps(claim))
    samples = trial.samples()
    least = re.findall(rb"(?:bound_ns|least_ns) ([0-9]+)", trial.ask("envelope", "--step", "86400", "--least")[1])
    for bound in sorted({max(0, min(10**15, int(number) + more)) for number in least for more in (-1, 0, 1)}
                        | {0, claim["bound_ns"]}):
        trial.claim.write_text(json.dumps(changed(claim, bound_ns=bound)))
        for words in (("find", "--step", "86400"), ("find", "--refutation"), ("settle",)):
            status, answer = trial.ask(*words)
            if answer.startswith(b"{"):
                trial.compare_both("edge", answer)
            elif words == ("settle",) and status in (0, 1):
                trial.hold_words(changed(claim, bound_ns=bound), answer)
        entries = [[k, k] for k, _ in enumerate(samples)][:32]
        upto = rules.span_of(claim)[1]
        for some in (entries, entries[:1], entries[-1:]):
            trial.compare_both("edge", json.dumps({"pieces": [{"entries": some, "upto": upto}]}).encode())
    trial.claim.write_text(json.dumps(changed(claim, bound_ns=0)))
    reading = rules.span_of(claim)[0]
    for error in sorted({int(row[at]) + more for row in samples for at in (-3, -1) for more in (-1, 0, 1)}):
        if -2**63 <= error < 2**63:
            trial.compare_both("edge", json.dumps({"error": error, "false": [], "reading": reading}).encode())


def text(found: directed.Text, trial: Trial) -> None:
    trial.claim.write_bytes(found.claim)
    trial.capture.write_bytes(found.capture)
    trial.compare_both("text", found.third)


def kept(claim: Path, third: Path, trial: Trial) -> None:
    """An answer or a certificate of data/."""
    shutil.copy(claim, trial.claim)
    shutil.copy(DATA / f"{claim.name.split('.')[0]}.pcap", trial.capture)
    answer = third.read_bytes()
    if answer.startswith(b"{"):
        trial.compare_both("data", answer)
    else:
        trial.hold_words(json.loads(claim.read_text()), answer)


def typed(name: str, trial: Trial) -> None:
    """What `check`, `refute` and `settle` are asked in a transcript: tests/tools/asked keeps it."""
    bin_folder, kept_in = trial.folder / "bin", trial.folder / "asked"
    bin_folder.mkdir()
    kept_in.mkdir()
    (bin_folder / "ntpaudit").symlink_to(ROOT / "tests/tools/asked")
    with transcript.folder() as place:
        transcript.typed([command for command, _ in transcript.cases()[name]], place, ASKED=str(kept_in),
                         NTPAUDIT=PROGRAM, PATH=f"{bin_folder}:{ROOT / 'tests/tools'}:{os.environ['PATH']}")
    for folder in sorted(kept_in.iterdir()):
        asked = type(trial)(trial.name, folder, trial.rng)
        if {file.name for file in folder.iterdir()} - {"third", "drift"} == {"claim", "capture"}:
            answer_again(asked)
        trial.seen += asked.seen
        trial.wrong += asked.wrong


def answer_again(asked: Trial) -> None:
    """What a call of a transcript was asked. Without a third file it was `settle`, whose answer is the third then."""
    is_settle, drift = not asked.third.exists(), ["--drift"] if (asked.folder / "drift").exists() else []
    if is_settle:
        status, answer = asked.ask("settle")
        asked.third.write_bytes(answer)
        if not answer.startswith(b"{") and status in (0, 1):
            asked.hold_words(json.loads(asked.claim.read_text()), answer)
            return
        drift = ["--drift"] if answer.startswith(b'{"error"') else []
        if status not in (0, 1):
            asked.hold("transcript", lambda said: said[0] == 2)
            return
    asked.compare("transcript", *drift)


def several(trial: Trial) -> None:
    """Answers at one call have the lines that each has by itself, and the status that all of them have."""
    capture, claim = DATA / "chrony-ns.pcap", json.loads((DATA / "chrony-ns.claim.json").read_text())
    claims = {"as it is": claim, "bound 0": {**claim, "bound_ns": 0}, "reading": {**claim, "reading_ns": 1}}
    for name, own in claims.items():
        (trial.folder / name).write_text(json.dumps(own))
    asked = [(trial.folder / of, DATA / f"chrony-ns.{answer}") for of in ("as it is", "bound 0")
             for answer in ("1.certificate.json", "settle.txt", "tight.settle.txt")]
    alone = {one: recheck(one[0], capture, one[1], "--drift") for one in asked}
    for one, other in permutations(asked, 2):
        together = max(alone[one][0], alone[other][0])
        ran = recheck(one[0], capture, one[1], *other, "--drift")
        trial.seen[f"several: status {together}"] += 1
        if ran[:2] != (together, alone[one][1] + alone[other][1]):
            trial.wrong.append(f"{one} and {other} at one call: {ran}")
    ran = recheck(*asked[0][:1], capture, asked[0][1], trial.folder / "reading", asked[0][1])
    if ran != (2, b"", b"recheck: claim: claims that differ in client, servers or reading_ns\n"):
        trial.wrong.append(f"claims of other exchanges: {ran}")


def jobs() -> Iterator[tuple[str, Job]]:
    yield "several at a call", several
    for name in transcript.cases():
        if name.split("/")[0] in ("check", "refute", "settle", "inputs") and name != PASSED_OVER:
            yield name, partial(typed, name)
    for claim in files_in(DATA, "*.claim.json"):
        stem = claim.name.removesuffix(".claim.json")
        thirds = {*DATA.glob(f"{stem}.settle.txt"), *DATA.glob(f"{stem}.refutation.json"),
                  *DATA.glob(f"{stem.split('.')[0]}.*certificate.json"), *DATA.glob(f"{stem}.*.refutation.json")}
        for third in sorted(thirds):
            yield f"{third.name} of {claim.name}", partial(kept, claim, third)
    for one in directed.edges():
        yield one.name, partial(edge, one)
    for other in directed.texts():
        yield other.name, partial(text, other)


def scenes_of(seed: str, number: int) -> Iterator[tuple[str, Job]]:
    for k in range(number):
        yield f"scene {seed}/{k}", scene


def tried(named: tuple[str, Job], kind: type[Trial] = Trial) -> tuple[str, dict[str, int], list[str]]:
    name, job = named
    with tempfile.TemporaryDirectory(prefix="ntpaudit-") as folder:
        trial = kind(name, Path(folder), random.Random(name))
        try:
            job(trial)
        except Exception as error:
            trial.wrong.append(f"broken off by {error!r}")
    return name, dict(trial.seen), trial.wrong


# What has to be met, or the comparison would have nothing in it.
MET = ["verdict yes", "refuted yes", "refuted no", "nothing fits", "no evidence groups N of N false_max N", "refused",
       "readings yes", "readings no line N",
       *(f"verdict no piece N {why}" for why in ("cut", "bad-sample", "mixed-servers", "repeated-server", "unbounded",
                                                 "contradiction", "exceeds", "uncovered"))]


def cases() -> Iterator[tuple[str, Callable[[], Counter[str]]]]:
    for job in [*jobs(), *scenes_of(SEED, SCENES)]:
        yield f"second.recheck.{job[0]}", partial(try_job, job)


def try_job(job: tuple[str, Job]) -> Counter[str]:
    _, seen, wrong = tried(job)
    assert not wrong, "; ".join(wrong[:3])
    return Counter(seen)


def together(seen: list[Counter[str]]) -> None:
    found = Counter[str]()
    for one in seen:
        for answer, number in one.items():
            found[answer.split(": ", 1)[1]] += number
    print(f"{found.total()} comparisons")
    for answer in MET:
        count(f"something is {answer}", "" if found[answer] else "never")
