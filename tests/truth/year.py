"""A fleet's year: days of histories whose truth is known, laid on each date of each machine, are audited, kept, signed,
brought together, put into a calendar, and verified in each way that there is.

usage: python3 -m tests.truth.year FOLDER [--machines N] [--first N] [--days N] [--poll SECONDS] [--jobs N]
       [--changes N] [STAGE]..

Machines are numbered from --first on, so that a fleet that is too large for a day is tried in parts. A stage goes on
where it was stopped, and says the processor seconds that it took. All of them, in their order:

  days     each machine's days are made, audited, kept and signed, and held to what is known of them
  fleet    they are brought to one place, a calendar is made of them, and signed
  anew     verified by making all again          answers  by judging the answers
  second   by judging them by two programs       sample   300 days are made again
  bytes    5,000 times a byte of a signed day is changed, which `verify --answers` has to see
"""
import argparse
import json
import os
import random
import resource
import shutil
import subprocess
import sys
from array import array
from collections import Counter
from collections.abc import Callable, Iterable, Iterator
from concurrent.futures import ThreadPoolExecutor
from datetime import datetime, timedelta, timezone
from functools import partial
from operator import add
from pathlib import Path
from typing import Any

from tests.support import ROOT
from tests.truth.clock import SECOND
from tests.truth.draw import KINDS, Drawn
from tests.truth.files import capture
from tests.truth.history import CLIENT, DAY, History
from tests.truth.trial import read, untrue

YEAR, BESIDE = 2025, 20
"""The year, and the polls that are recorded on either side of a day."""
RIGHT, SECONDS = 30, 86_400
"""Histories without trouble; of each kind of trouble there is one."""
LENGTH, NTP = 106, 58
"""Bytes of a record with its header, and where the packet begins in it."""
SCRIPT = str(ROOT / "ntpaudit-dossier")


class Whole(Drawn):
    """A day with the troubles of these kinds, and the claim of all days."""

    def __init__(self, seed: int, poll: int, kinds: list[str]):
        begin = int(datetime(YEAR, 1, 1, tzinfo=timezone.utc).timestamp()) * SECOND
        History.__init__(self, seed, begin - BESIDE * poll * SECOND, poll, SECONDS // poll + 2 * BESIDE)
        self.first, self.last = begin, begin + DAY
        self.kinds, self.more, self.amplitude, self.bound = kinds, random.Random(f"more {seed}"), 5_000_000, 100_000_000
        for kind in kinds:
            self.draw(kind)
        self.live()


def kinds_of(seed: int) -> list[str]:
    troubles = [kind for kind in KINDS if kind not in ("leap", "mistake")]
    return troubles[seed - RIGHT:seed - RIGHT + 1] if seed >= RIGHT else []


def of_date(machine: int, day: int, days: int) -> int:
    """The history of a machine's day: one in fifty has a trouble."""
    rng = random.Random(f"{machine} {day} of {days}")
    return rng.randrange(RIGHT) if rng.random() < 0.98 else rng.randrange(RIGHT, RIGHT + len(KINDS) - 2)


def address_of(machine: int) -> str:
    return f"10.{20 + machine // 250}.{machine % 250}.1"


def laid(recorded: bytes, machine: int, day: int) -> bytes:
    """A capture of the first date, as it would be of another machine on another date."""
    body = bytearray(recorded[24:] + bytes(-(len(recorded) - 24) % LENGTH))
    days = [day * SECONDS] * (len(body) // LENGTH)
    of_replies = [day * SECONDS * (first == 0x24) for first in body[NTP::LENGTH]]

    def changed(at: int, order: tuple[int, ...], change: "Callable[[array[int]], Iterable[int]]") -> None:
        """Changes the number of four bytes that each record has there, in this order from the least."""
        column = bytearray(4 * len(days))
        for k, place in enumerate(order):
            column[k::4] = body[at + place::LENGTH]
        own = array("I", change(array("I", bytes(column)))).tobytes()
        for k, place in enumerate(order):
            body[at + place::LENGTH] = own[k::4]

    least_first = (0, 1, 2, 3)
    changed(0, least_first, lambda column: map(add, column, days))
    for at in (16, 32, 40):  # (the reference, receive and transmit timestamps)
        changed(NTP + at, least_first[::-1], lambda column: map(add, column, of_replies))
    old, new = (int.from_bytes(map(int, text.split(".")), "little") for text in (CLIENT, address_of(machine)))
    for at in (42, 46):
        changed(at, least_first, lambda column: [new if one == old else one for one in column])
    return recorded[:24] + bytes(body[:len(recorded) - 24])


class Fleet:
    def __init__(self, place: Path, machines: range, days: int, poll: int, jobs: int, changes: int):
        self.place, self.machines, self.days, self.poll, self.jobs = place, machines, days, poll, jobs
        self.changes = changes
        self.claims: dict[int, dict[str, Any]] = {}
        self.captures: dict[int, dict[str, bytes]] = {}
        self.verdicts: dict[int, str] = {}
        place.mkdir(parents=True, exist_ok=True)

    def call(self, *words: object, state: str = "state", wanted: tuple[int, ...] = (0, 1)) -> str:
        command, *others = map(str, words)
        ran = subprocess.run([SCRIPT, command, "--state", self.place / state, *others], capture_output=True, text=True)
        assert ran.returncode in wanted, (words[:3], ran.returncode, ran.stdout[-2000:] + ran.stderr[-2000:])
        return ran.stdout

    def many(self, *words: object, state: str, folders: list[Path]) -> Counter[str]:
        """A call in several processes, as GNU parallel makes them: how often each verdict was told."""
        chunks = [folders[at:at + 100] for at in range(0, len(folders), 100)]
        with ThreadPoolExecutor(self.jobs) as pool:
            told = pool.map(lambda chunk: self.call(*words, *chunk, state=state), chunks)
            lines = [line for text in told for line in text.splitlines() if ": (" not in f": {line}"]
            return Counter(line.split(": ", 1)[1] for line in lines)

    def key(self, name: str) -> Path:
        path = self.place / "keys" / name
        if not path.exists():
            path.parent.mkdir(exist_ok=True)
            subprocess.run(["ssh-keygen", "-q", "-t", "ed25519", "-N", "", "-C", "", "-f", path], check=True)
        return path

    def known(self) -> None:
        """Makes the histories, and holds what is said of each to it."""
        number = RIGHT + len(KINDS) - 2
        histories = {seed: Whole(seed, self.poll, kinds_of(seed)) for seed in range(number)}
        place = self.place / "histories"
        shutil.rmtree(place, ignore_errors=True)
        place.mkdir()
        told = read({place / f"{seed:03}": (history, None) for seed, history in histories.items()})
        for seed, one in enumerate(told):
            self.verdicts[seed] = one.view.verdict
            for wrong in [one.fault] * bool(one.fault) + untrue(one):
                print(f"history {seed} {kinds_of(seed)}: {wrong}", flush=True)
        shutil.rmtree(place)
        self.claims = {seed: history.claim for seed, history in histories.items()}
        self.captures = {seed: {recorder.name: capture(history, recorder) for recorder in history.recorders}
                         for seed, history in histories.items()}

    def date(self, day: int) -> str:
        return f"{datetime(YEAR, 1, 1) + timedelta(day):%Y-%m-%d}"

    def make(self, machine: int, day: int) -> Path:
        """The folder of a machine's day, as its recorder and a person leave it."""
        seed = of_date(machine, day, self.days)
        folder = self.place / "machines" / f"web-{machine}" / self.date(day)
        folder.mkdir(parents=True)
        claim = {**self.claims[seed], "client": address_of(machine), "from": f"{self.date(day)}T00:00:00Z",
                 "to": f"{self.date(day + 1)}T00:00:00Z"}
        (folder / "claim.json").write_text(json.dumps(claim))
        for name, recorded in self.captures[seed].items():
            (folder / name).write_bytes(laid(recorded, machine, day))
        return folder

    def machine(self, machine: int) -> list[str]:
        """A machine's days, four weeks at a time: what isn't as it is known to be."""
        wrong, done = [], self.place / "done" / str(machine)
        done.parent.mkdir(exist_ok=True)
        begin = int(done.read_text()) if done.exists() else 0
        for first in range(begin, self.days, 28):
            days = range(first, min(first + 28, self.days))
            for day in days:
                shutil.rmtree(self.place / "machines" / f"web-{machine}" / self.date(day), ignore_errors=True)
            folders = [self.make(machine, day) for day in days]
            self.call("audit", "--jobs", 1, *folders)
            self.call("keep", *folders)
            self.call("sign", "--key", self.key(f"web-{machine}"), *folders)
            for day, folder in zip(days, folders):
                verdict = json.loads((folder / "audit.json").read_bytes())["entries"][0]["verdict"]
                seed = of_date(machine, day, self.days)
                if verdict != self.verdicts[seed]:
                    wrong.append(f"{folder.parent.name}/{folder.name} of history {seed}: {verdict}, and not "
                                 f"{self.verdicts[seed]}")
            done.write_text(str(days.stop))
        return wrong

    def days_of(self, place: str) -> list[Path]:
        return sorted((self.place / place).glob("web-*/????-??-??"))

    def stage_days(self) -> str:
        self.known()
        print(f"histories: {Counter(self.verdicts.values())}", flush=True)
        with ThreadPoolExecutor(self.jobs) as pool:
            wrong = [line for lines in pool.map(self.machine, self.machines) for line in lines]
        print("\n".join(wrong[:20]))
        return f"{len(self.days_of('machines'))} days, {len(wrong)} not as they are known to be"

    def stage_fleet(self) -> str:
        """Links stand for what rsync brings over."""
        signers = self.place / "signers"
        names = [f"web-{machine}" for machine in self.machines]
        signers.write_text("".join(f"{name} {self.key(name).with_suffix('.pub').read_text()}" for name in names)
                           + f"auditor {self.key('auditor').with_suffix('.pub').read_text()}")
        for name in names:
            shutil.rmtree(self.place / "fleet" / name, ignore_errors=True)
            shutil.copytree(self.place / "machines" / name, self.place / "fleet" / name, copy_function=os.link)
        pages = self.place / "pages"
        shutil.rmtree(pages, ignore_errors=True)
        fleet = sorted((self.place / "fleet").iterdir())
        self.call("year", "--year", YEAR, "--split", pages, "--signers", signers, *fleet, state="auditor")
        return self.call("sign", "--key", self.key("auditor"), "--signers", signers, pages, state="auditor").strip()

    def verified(self, state: str, *words: object, then: tuple[object, ...] = ()) -> str:
        """The year, verified: its days side by side, and then what was found of them is taken."""
        shutil.rmtree(self.place / state, ignore_errors=True)
        folders = [] if "--sample" in then else self.days_of("fleet")
        told = self.many("verify", *words, state=state, folders=folders)
        said = self.call("verify", "--as-signed", "--signers", self.place / "signers", *words, *then,
                         self.place / "pages", self.place / "fleet", state=state)
        return f"{dict(told)}\n{said.splitlines()[-1]}"

    def stage_anew(self) -> str:
        return self.verified("anew", then=("--known",))

    def stage_answers(self) -> str:
        return self.verified("answers", "--answers", then=("--known",))

    def stage_second(self) -> str:
        return self.verified("second", "--answers", "--second", then=("--known",))

    def stage_sample(self) -> str:
        return self.verified("sample", then=("--sample", 300, "--seed", "4 1 6 2"))

    def changed(self, folders: list[Path], seed: int) -> str:
        """Changes a byte of what a day's audit.json names, or of it: what verify says nothing of."""
        rng = random.Random(f"byte {seed}")
        folder = rng.choice(folders)
        own = self.place / "changed" / str(seed) / folder.parent.name / folder.name
        shutil.copytree(folder, own)
        file = rng.choice(sorted(path for path in own.iterdir() if path.suffix != ".sig"))
        data = bytearray(file.read_bytes())
        at = rng.randrange(len(data))
        data[at] ^= rng.randrange(1, 256)
        file.write_bytes(data)
        is_unseen = self.is_as_signed(own, f"changed/{seed}/state")
        shutil.rmtree(self.place / "changed" / str(seed))
        return f"{file.relative_to(self.place)} at {at}" if is_unseen else ""

    def is_as_signed(self, folder: Path, state: str) -> bool:
        words = ("--state", self.place / state, "--as-signed", "--answers", "--signers", self.place / "signers")
        return subprocess.run([SCRIPT, "verify", *words, folder], capture_output=True).returncode == 0

    def stage_bytes(self) -> str:
        folders = self.days_of("fleet")
        assert self.is_as_signed(folders[0], "unchanged"), "a day that nobody changed isn't as it was signed"
        with ThreadPoolExecutor(self.jobs) as pool:
            unseen = [line for line in pool.map(partial(self.changed, folders), range(self.changes)) if line]
        print("\n".join(unseen[:20]))
        return f"{self.changes} bytes changed, {len(unseen)} not seen"


def stages() -> Iterator[str]:
    return (name.removeprefix("stage_") for name in vars(Fleet) if name.startswith("stage_"))


def main() -> int:
    parser = argparse.ArgumentParser(usage=(__doc__ or "").partition("usage: ")[2])
    parser.add_argument("folder", type=lambda text: Path(text).resolve())
    for name, number in (("machines", 50), ("first", 0), ("days", 365), ("poll", 16), ("jobs", 4), ("changes", 5000)):
        parser.add_argument(f"--{name}", type=int, default=number)
    parser.add_argument("stages", nargs="*", default=[], metavar="STAGE")
    given = parser.parse_intermixed_args()
    machines = range(given.first, given.first + given.machines)
    fleet = Fleet(given.folder, machines, given.days, given.poll, given.jobs, given.changes)
    for name in given.stages or stages():
        before = resource.getrusage(resource.RUSAGE_CHILDREN)
        said = getattr(fleet, f"stage_{name}")()
        after = resource.getrusage(resource.RUSAGE_CHILDREN)
        used = after.ru_utime + after.ru_stime - before.ru_utime - before.ru_stime
        print(f"{name}: {used:.0f} s of a processor, at most {after.ru_maxrss >> 10} MiB: {said}", flush=True)
    return 0


if __name__ == "__main__":
    sys.exit(main())
