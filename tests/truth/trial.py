"""Trials: histories are made, audited as a user would audit them, and what a person then reads is judged."""
import argparse
import json
import os
import shutil
import subprocess
import tempfile
from collections import Counter
from collections.abc import Iterator, Sequence
from concurrent.futures import ProcessPoolExecutor
from itertools import repeat
from pathlib import Path
from typing import NamedTuple

from tests.dossier.leaps import LATER, leap_list
from tests.support import ROOT, program
from tests.truth.clock import SECOND
from tests.truth.files import Logs, leave
from tests.truth.draw import Drawn
from tests.truth.history import LEAP, History
from tests.truth.judge import judged, of_verdict
from tests.truth.reading import Page
from tests.truth.use import OTHER, Use, use_of
from tests.truth.view import View

SCRIPT = os.environ.get("NTPAUDIT_DOSSIER", str(ROOT / "ntpaudit-dossier"))
"""The script that is called: this repository's, or another one."""
BATCH = 20
"""Histories that are audited by one call."""
PASSED_OVER = {"h1", "h2", "h3", "figcaption", "pre", "text", "text.claimed", "title", "p.soft", "li.legend", "File",
               "What", "SHA-256", "How many", "Meaning", "Number", "Group", "Samples", "Address", "Ahead by",
               "Granted", "Name, date, signature", "Record of the request", "Record of the reply",
               "Where the evidence is kept, as the folder says"}
"""Places on the page that say nothing of a history: names, sums, calls, what the claim grants."""


CONFLICT = "By", "At", "And by", "At ", "Error in ms, at least", "At most"
"""The cells of a row of conflicts that say when and how far."""


class Judged(NamedTuple):
    """What came of a history: its verdict, its kinds of trouble, whether a step lies at the span's edge, what isn't so,
    and of what use it was."""
    seed: int
    verdict: str
    kinds: list[str]
    has_edge: bool
    wrong: list[str]
    use: Use


def is_at_an_edge(history: History) -> bool:
    """Whether a step left a reading within a minute of the span's begin or end, or came to one."""
    return any(abs(reading - edge) <= 60 * SECOND for jump in history.clock.jumps
               for reading in (jump.before, jump.after) for edge in (history.first, history.last))


def call(*words: object, **env: str) -> str:
    ran = subprocess.run([SCRIPT, *map(str, words)], capture_output=True, text=True,
                         env={**os.environ, "NTPAUDIT": program(), **env})
    return ran.stdout if ran.returncode in (0, 1) else ran.stdout + ran.stderr


def batch(seeds: range, place: str | None = None, has_page: bool = True) -> list[Judged]:
    made = tempfile.mkdtemp(prefix="ntpaudit-truth-") if place is None else place
    try:
        return list(tried(seeds, Path(made), has_page))
    finally:
        if place is None:
            shutil.rmtree(made)


class Read(NamedTuple):
    """What a person reads of a history: what audit.json says, the line, and the texts of its article; or a fault."""
    view: View
    line: str
    texts: list[str]
    fault: str = ""


def env_of(place: Path) -> dict[str, str]:
    """The user's record and list of leap seconds, below a folder."""
    return {"XDG_STATE_HOME": f"{place}/state",
            "NTPAUDIT_LEAP_SECONDS": str(leap_list(place / "leaps", LATER, (LEAP // SECOND, 11)))}


def read(histories: dict[Path, tuple[History, Logs | None]], step: Sequence[object] = (), has_page: bool = True,
         verifies: bool = False) -> Iterator[Read]:
    """Has histories audited in their folders, as a user would: the lines, and a page of all of them; and verified."""
    place = next(iter(histories)).parent
    env = env_of(place)
    for folder, (history, logs) in histories.items():
        leave(history, logs, folder)
        if logs and logs.is_drafted:
            call(*logs.draft(folder), *(folder / recorder.name for recorder in history.recorders), **env)
    said = call("audit", "--jobs", 1, *step, *histories, **env)
    lines = {Path(line[14:].split(": ", 1)[0]): line[14:].split(": ", 1)[-1] for line in reversed(said.splitlines())
             if line[14:15] == "/"}  # (of those of a folder the first)
    articles = Page(call("page", *histories, **env)).articles if has_page else []
    verified = call("verify", *histories, **env) if verifies else ""
    for folder, (history, logs) in histories.items():
        article: list[tuple[str, str]] = next((blocks for blocks in articles if f"{folder} " in blocks[0][1]), [])
        line = lines.get(folder, said)
        try:
            entry, = json.loads((folder / "audit.json").read_bytes())["entries"]
        except (OSError, ValueError):
            yield Read(View(history, logs, {"verdict": "refused"}), line, [], f"no audit: {line}")
        else:
            said = f"{folder}: verified: {entry['verdict']}\n"
            yield Read(View(history, logs, entry), line.replace("`", ""), list(texts_of(article)),
                       "" if not verifies or said in verified else "it isn't verified")


def tried(seeds: range, place: Path, has_page: bool = True) -> Iterator[Judged]:
    """Histories by their seeds, and what isn't so of all that was said of each."""
    histories = {place / f"{seed:06}": drawn(seed) for seed in seeds}
    number = seeds[0] // BATCH
    step = () if number % 5 == 0 else ("--step", 64)
    for one in read(histories, step, has_page, number % 15 == 1):
        history = one.view.of
        wrong = ([one.fault] if one.fault else []) + (untrue(one) if one.texts or not has_page else [])
        yield Judged(history.seed, one.view.verdict, history.kinds, is_at_an_edge(history), wrong,
                     use_of(one.view) if one.view.verdict != "refused" else Use(OTHER, []))


def drawn(seed: int, begin: int | None = None) -> tuple[History, Logs | None]:
    history = Drawn(seed, begin)
    return history, Logs(history) if history.rng.random() < 0.2 else None


def untrue(one: Read) -> list[str]:
    """What isn't so of a history, each once."""
    found = of_verdict(one.view)
    for text in [one.line, *one.texts]:
        found += judged_as(one.view, text)
    return list(dict.fromkeys(found))


def judged_as(view: View, text: str) -> list[str]:
    view.text = text
    return judged(view, text)


def texts_of(article: list[tuple[str, str]]) -> Iterator[str]:
    """The texts of an article that say something; rows of tables of servers and of conflicts as one text."""
    address, row = "", list[str]()
    for name, text in article:
        address = text if name == "Address" else address
        if name in CONFLICT:
            row.append(text + (" ms" if name in CONFLICT[-2:] else ""))
            if name == CONFLICT[-1]:
                yield f"conflict: {' '.join(row)}"
                row.clear()
        elif name in ("The clock's error by it, at the outermost", "Remark"):
            yield f"{address}: {text}"
        elif name not in PASSED_OVER and not name.startswith("th"):
            yield text


def main(words: list[str]) -> int:
    parser = argparse.ArgumentParser(prog="tests/truth/run", description=__doc__)
    parser.add_argument("--number", type=int, default=300)
    parser.add_argument("--seed", type=int, default=0)
    parser.add_argument("--jobs", type=int, default=1)
    parser.add_argument("--folder", help="where the histories are left; else they are taken away")
    parser.add_argument("--lines", action="store_true", help="only the lines of audit, and no page")
    parser.add_argument("--count", action="store_true", help="of what use the answers were, and which were of none")
    parser.add_argument("--events", action="store_true", help="so many pairs of histories with a log of events")
    given = parser.parse_args(words)
    if given.events:
        from tests.truth.moments import trials
        return trials(given.seed, given.number, given.jobs)
    seeds = range(given.seed, given.seed + given.number)
    batches = [seeds[at : at + BATCH] for at in range(0, len(seeds), BATCH)]
    if given.folder:
        Path(given.folder).mkdir(parents=True, exist_ok=True)
    verdicts, failed, edges, groups, uses = Counter[str](), 0, Counter[str](), Counter[str](), Counter[str]()
    with ProcessPoolExecutor(given.jobs) as pool:
        for found in pool.map(batch, batches, repeat(given.folder), repeat(not given.lines)):
            for one in found:
                verdicts[one.verdict] += 1
                edges["a step within a minute of the span's edge"] += one.has_edge
                edges["two troubles or more"] += len(one.kinds) > 1
                uses[one.use.kind + (" missed" if one.use.missed else "")] += 1
                if given.count and one.use.missed:
                    print(f"seed {one.seed} ({', '.join(one.kinds)}), {one.verdict}: {one.use.kind}, but "
                          f"{'; '.join(one.use.missed)}")
                failed += bool(one.wrong)
                for wrong in one.wrong:
                    groups[wrong.split(":")[0]] += 1
                    kinds = ", ".join(one.kinds) or "no trouble"
                    print(f"seed {one.seed} ({kinds}), {one.verdict}: {wrong}", flush=True)
    print(f"{len(seeds)} histories from seed {given.seed} on, {failed} with something that isn't so: {dict(edges)} "
          f"{dict(verdicts)} {dict(groups)} {dict(uses)}")
    return int(failed > 0)
