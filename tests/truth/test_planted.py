"""Plants bugs in a copy of the dossier, one after another, and says which history sees them, by a sentence that isn't
so, or that isn't said. Not part of the gate."""
import os
import shutil
from concurrent.futures import ProcessPoolExecutor
from itertools import repeat
from pathlib import Path

from tests.support import ROOT, count
from tests.truth import trial
from tests.truth.test_cases import CASES, wrong_in
from tests.truth.test_histories import ONCE_UNSAID, ONCE_UNTRUE

PLANTS = [
    ("a yes by the stretch that was recorded last, whatever another one may have shown", "verdict/parts.py",
     "sides = [side for number, side in enumerate(self.sides) if self.may_show(number)]", "sides = self.sides[-1:]"),
    ("the size of a step forgotten", "verdict/sentences.py", "by {range_ms(move.low, move.high)}",
     "by {range_ms(move.low // 2, move.high // 2)}"),
    ("the times of a step sorted", "verdict/sentences.py", "move.after // SECOND, -(-move.by // SECOND)",
     "move.around[0] // SECOND, -(-move.around[1] // SECOND)"),
    ("a step that may be none for one", "verdict/sentences.py", '"stepped" if move.is_step else',
     '"stepped" if True else'),
    ("the part before for the part behind", "verdict/sentences.py", "'behind' if part.moves else 'before'",
     "'before' if part.moves else 'behind'"),
    ("a gap passed over", "verdict/gaps.py", "for before, after in wide if after - before > UNUSUAL * usual]",
     "for before, after in wide if False]"),
    ("nobody answered where nothing was recorded", "verdict/alerts.py",
     "if not gap.requests and not gap.replies:", "if gap.requests:"),
    ("a server's name swapped", "verdict/seen.py", "camps[-1].append(server)", "camps[-1].append(ends[0][2])"),
    ("a line of a log ignored", "premise/tracking.py", "self.steps.append((time, stepped[1], HAPPENED + zone))",
     "pass"),
    ("a log's zone passed over", "premise/tracking.py", "else NO_ZONE", 'else ""'),
    ("a break as narrow as it seems", "verdict/parts.py", "if is_clear else wide", ""),
    ("a record next to a step that is in no exchange", "verdict/parts.py", "self.search.between_exchanges(one)",
     "one"),
    ("a server apart that was right for a time", "verdict/apart.py", "{*always} - search.met", "{*always}"),
    ("figures where no course fits", "folder/entry.py", "return self.verdict == NOTHING_FITS and not self.moves",
     "return False"),
    ("a leap second that no record shows", "verdict/parts.py", "if first - DAY <= end <= last + DAY:",
     "if False:"),
    ("off at the end, if it ever was", "folder/entry.py", "def ends_off(self) -> bool:",
     "def ends_off(self) -> bool:\n        return any(part.beyond for part in self.parts)\n"),
    ("a side for the other", "verdict/sentences.py", "'ahead of' if hull[0] > 0 else 'behind'",
     "'ahead of' if hull[0] <= 0 else 'behind'"),
    ("a leap second's day for the next", "premise/premises.py", "civil(end - 1)[:10]", "civil(end)[:10]"),
    ("a server that may be wrong for one that has to be", "verdict/apart.py", "set.intersection(*sets)",
     "set.union(*sets)"),
    ("a packet that was recorded twice for two", "capture/twice.py",
     "if whole.extent and not is_ambiguous(program, whole.path):", "if True:"),
    ("files put in order by their records' times", "capture/captures.py",
     "said |= heard_at([(name, side)], MANY, captures, program)", "pass"),
    ("what nobody answered counted by its times", "verdict/settling.py", "for is_between in (True, False):",
     "for is_between in (False,):"),
    ("half an exchange for all of it", "verdict/breaks.py", "[*named, *map(self.other.__getitem__, named)]", "named"),
]
"""What the bug is, in which file of dossier/ it is, what stands there, and what stands there then."""


SEEDS = *ONCE_UNTRUE, *ONCE_UNSAID, 54, *range(140, 150), 312


def seen(number: int, place: Path, missed: dict[int, list[str]]) -> str:
    """The first history in which something is said that isn't so, or of which more isn't said; else the first case in
    which some words aren't said."""
    _, file, old, new = PLANTS[number]
    copy = place / str(number)
    shutil.copytree(ROOT / "dossier", copy / "dossier", ignore=shutil.ignore_patterns("__pycache__"))
    shutil.copy(ROOT / "ntpaudit-dossier", copy)
    text = (copy / "dossier" / file).read_text()
    (copy / "dossier" / file).write_text(text.replace(old, new))
    trial.SCRIPT = str(copy / "ntpaudit-dossier")
    found = wrong_in(list(CASES), copy)
    for case, wrong in found.items():
        if wrong and not wrong.startswith("not said"):
            return f"{case}: {wrong}"
    for seed in SEEDS:
        for one in trial.tried(range(seed, seed + 1), copy):
            if more := [*one.wrong, *(f"not said: {own}" for own in one.use.missed if own not in missed[seed])]:
                return f"history {seed}: {more[0]}"
    return next((f"by its words alone: {case}: {wrong}" for case, wrong in found.items() if wrong), "")


def test_plants(place: Path) -> None:
    for name, file, old, _ in PLANTS:
        number = (ROOT / "dossier" / file).read_text().count(old)
        count(f"what the plant replaces: {name}", "" if number == 1 else f"it stands {number} times")
    for case, wrong in wrong_in(list(CASES), place).items():
        count(f"without a plant: {case}", wrong)
    missed = {seed: one.use.missed for seed in SEEDS for one in trial.tried(range(seed, seed + 1), place)}
    with ProcessPoolExecutor(os.cpu_count()) as pool:
        for (name, *_), found in zip(PLANTS, pool.map(seen, range(len(PLANTS)), repeat(place), repeat(missed))):
            print(f"{name}: {found[:300]}")
            count(name, "" if found else "nothing sees it")
