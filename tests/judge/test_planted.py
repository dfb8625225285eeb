"""Plants bugs in the judge, one after another. Not part of the gate.

A theorem holds the judge's functions to its definitions: of a bug in one of them (BUGS) a proof isn't one any more, and
it is said which. Nothing but the program and whoever reads them holds the definitions to the world: so each bug there
(PLANTS) stands in the functions too, as with somebody who took the pages wrong, the proofs are passed over, and what
tests/judge/test_answers.py compares has to see it.
"""
import multiprocessing
import os
import re
import shutil
import tempfile
from collections.abc import Callable
from concurrent.futures import ProcessPoolExecutor
from itertools import product
from pathlib import Path
from typing import Any

from tests.support import ROOT, count, run, skip, wanting
from tests.judge.made import missing
from tests.judge.test_answers import Judged
from tests.second import test_recheck
from tests.system.test_covers import said_of_altered

SCENES, ALTERED = 40, 80
"""How many scenes are tried beside what is directed, and how many claims with certificates by covers."""

Edit = tuple[str, str, str]
"""A file, what stands in it, and what stands there then."""

PLANTS: dict[str, list[Edit]] = {
    "the end of a window rounded down": [
        ("Definitions", "ceiling ((seconds * units + fraction + 1) * second) units",
         "(seconds * units + fraction + 1) * second / units")],
    "a window that ends where its unit begins": [
        ("Definitions", "(seconds * units + fraction + 1) * second", "(seconds * units + fraction) * second")],
    "the bound in ticks rounded up": [
        ("Definitions", "Definition ticks_down nanoseconds := nanoseconds * second / billion.",
         "Definition ticks_down nanoseconds := ceiling (nanoseconds * second) billion.")],
    "the allowance in ticks rounded down": [
        ("Definitions", "Definition ticks_up nanoseconds := ceiling (nanoseconds * second) billion.",
         "Definition ticks_up nanoseconds := nanoseconds * second / billion.")],
    "the widening rounded down": [
        ("Definitions", "ceiling (ppb * d) (billion - ppb)", "ppb * d / (billion - ppb)")],
    "the widening by true time": [
        ("Definitions", "ceiling (ppb * d) (billion - ppb)", "ceiling (ppb * d) billion")],
    "the root delay is taken whole": [
        ("Definitions", "root_delay p * 32768", "root_delay p * 65536")],
    "stratum 16 is usable": [
        ("Definitions", "1 <= stratum p <= 15", "1 <= stratum p <= 16"),
        ("Pairing", "stratum p <=? 15", "stratum p <=? 16")],
    "an unsynchronized server is usable": [
        ("Definitions", "version p = 4 /\\ leap p <> 3 /\\", "version p = 4 /\\"),
        ("Pairing", "negb (leap p =? 3) && ", "")],
    "the receive timestamp may be zero": [
        ("Definitions", "receive p <> 0 /\\ ", ""),
        ("Pairing", "negb (receive p =? 0) && ", "")],
    "a timestamp half an era away is the later one": [
        ("Definitions", "near - half_era <= unix < near + half_era", "near - half_era < unix <= near + half_era"),
        ("Pairing", "near - half_era + (stamp - unix_begin - near + half_era) mod era",
         "near + half_era - (near + half_era - stamp + unix_begin) mod era")],
    "a point at an interval's low end is left out": [
        ("Definitions", "(e <? fst i) || (snd i <? e)", "(e <=? fst i) || (snd i <? e)")],
    "the bound itself counts as beyond it": [
        ("Definitions", "(low < - bound c \\/ bound c < high)", "(low <= - bound c \\/ bound c <= high)"),
        ("Definitions", "- bound c <= low /\\ high <= bound c", "- bound c < low /\\ high < bound c"),
        ("Verdict", "(- n <=? low) && (high <=? n)", "(- n <? low) && (high <? n)")],
    "as many groups as may be wrong are enough": [
        ("Definitions", "| HullUnbounded => Z.of_nat (length is) <= f", "| HullUnbounded => Z.of_nat (length is) < f"),
        ("Verdict", "if long is <=? f then HullUnbounded", "if long is <? f then HullUnbounded")],
    "an empty hull is within every bound": [
        ("Verdict", "| HullEmpty => Some Contradiction", "| HullEmpty => None")],
    "a server may be named twice": [
        ("Definitions", "Forall2 (IsPart xs y p q) es parts /\\ NoDup (map fst parts)",
         "Forall2 (IsPart xs y p q) es parts"),
        ("Verdict", "if among (server x) before then inl RepeatedServer", "if false then inl RepeatedServer")],
    "the nearest distance": [
        ("Definitions", "Z.max (q - request_begin c x) (request_end c x - p)",
         "Z.min (q - request_begin c x) (request_end c x - p)")],
    "T3 for T2 at the request": [
        ("Definitions", "Definition sample_low c x := request_begin c x - t2 x - distance x.",
         "Definition sample_low c x := request_begin c x - t3 x - distance x.")],
    "the pieces needn't reach the span's end": [
        ("Definitions", "| is_uncovered k p : k = 0 \\/ p < last c ->", "| is_uncovered k p : k = 0 ->"),
        ("Verdict", "if (k =? 0) || (p <? last c) then No k Uncovered", "if k =? 0 then No k Uncovered")],
    "as many may be wrong beside a case's groups": [
        ("Definitions", "false_max := false_max c - Z.of_nat (length C);", "false_max := false_max c;")],
    "the two rates exchanged": [
        ("Definitions", "(ceiling (ppb * falling) (billion - ppb)) (ceiling (ppb * rising) (billion + ppb))",
         "(ceiling (ppb * falling) (billion + ppb)) (ceiling (ppb * rising) (billion - ppb))")],
    "a case may name more groups than may be wrong": [
        ("Definitions", "Definition AreFew c (gs : list Z) := Z.of_nat (length gs) <= false_max c.",
         "Definition AreFew c (gs : list Z) := Z.of_nat (length gs) <= false_max c + 1."),
        ("ByCovers", "if false_max c <? long gs then", "if Z.succ (false_max c) <? long gs then")],
    "the last fragment holds a datagram": [
        ("Definitions", "flags mod 16384 = 0", "flags / 8192 mod 2 = 0"),
        ("Reading", "(high16 b (ip + 6) mod 16384 =? 0)", "((high16 b (ip + 6) / (128 * 64)) mod 2 =? 0)")]}

BUGS: dict[str, Edit] = {
    "a fraction of a whole second": ("Reading", "if units <=? part then", "if units <? part then"),
    "a record that ends behind the file": (
        "Reading", "if size b <? body + length then Fault 5 p else", "if size b <? length then Fault 5 p else"),
    "records of a byte too many": ("Reading", "262144 <? length", "262145 <? length"),
    "a version of any minor number": (
        "Reading", "(field16 o b 4 =? 2) && (field16 o b 6 =? 4)", "(field16 o b 4 =? 2)"),
    "the other order of bytes": (
        "Reading", "header_in HighFirst b (header_in LowFirst b", "header_in HighFirst b (header_in HighFirst b"),
    "a tag of two bytes": ("Reading", "=? 33024 then 4 else 0", "=? 33024 then 2 else 0"),
    "a header of four words": ("Reading", "(69 <=? byte_at b ip)", "(68 <=? byte_at b ip)"),
    "fragments": ("Reading", "(high16 b (ip + 6) mod 16384 =? 0) && ", ""),
    "port 123 at the source alone": (
        "Reading", "(high16 b udp =? 123) || (high16 b (udp + 2) =? 123)", "high16 b udp =? 123"),
    "mode for version": ("Reading", "version := (head / 8) mod 8", "version := head mod 8"),
    "a precision without its sign": ("Reading", "if signed <? 128 then signed else signed - 256", "signed"),
    "T3 for T2": ("Reading", "receive := high64 b (ntp + 32)", "receive := high64 b (ntp + 40)"),
    "the first of two requests": ("Pairing", "| Some _ => Several end", "| Some s => s end"),
    "a request of any version": ("Pairing", "(mode p =? 3) && (version p =? 4)", "(mode p =? 3)"),
    "a request from any port": ("Pairing", "(n * 65536 + port) * 2048", "(n * 65536 + port * 0) * 2048"),
    "a reply of stratum 0": ("Pairing", "(1 <=? stratum p) && ", ""),
    "T3 unfolded near the reply": (
        "Pairing", "t3 := unfold_near low (transmit p)", "t3 := unfold_near (window_begin p) (transmit p)"),
    "the last of two members": (
        "Texts", "if is_name name (fst m) then Some (snd m) else found",
        "if is_name name (fst m) then match found with Some v => Some v | None => Some (snd m) end else found"),
    "a number with a zero before it": ("Texts", "if d =? 48 then None else digits t 0", "digits t 0"),
    "a minute of 60 s": ("Texts", "(s <=? 59)", "(s <=? 60)"),
    "a server in two groups": ("Texts", " && differ l &&", " &&"),
    "33 entries": ("Texts", "if 32 <? long l then inr 4", "if Z.succ 32 <? long l then inr 4"),
    "a lie more than granted": ("Verdict", "is 0 <=? f", "is 0 <=? Z.succ f"),
    "the greatest low end": ("Verdict", "Some e => fst i <? e", "Some e => e <? fst i"),
    "a high end by the other exchange": ("Verdict", "high_end how p q z", "high_end how p q x"),
    "an entry of a group that is left out": ("Verdict", "if has (server x) (left_out how) then inl LeftOut else", ""),
    "65 cases": ("Texts", "if 64 <=? k then inr (5, 0)", "if Z.succ 64 <=? k then inr (5, 0)"),
    "two exchanges of which one isn't possible": (
        "ByCovers", "((fst pair =? snd pair) && negb (is_possible c x))", "negb (is_possible c x)"),
    "a group named twice": ("ByCovers", "if has g before then Some RepeatedGroup else", ""),
    "groups among those of another case": (
        "ByCovers", "includes gs (its_groups l) && includes (its_groups l) gs", "includes gs (its_groups l)"),
    "a choice of groups without a case": (
        "ByCovers", "if is_answered v then", "if true then"),
    "a yes that no course fits": ("ByCovers", "Accepted (is_empty v)", "Accepted false"),
    "the last piece may end early": ("Verdict", "(k =? 0) || (p <? last c)", "k =? 0"),
    "each piece begins with the span": (
        "Verdict", "verdict_from (Z.succ k) (upto x) rest", "verdict_from (Z.succ k) p rest"),
    "the least low mark": ("Marks", "Z.max x (snd e)", "Z.min x (snd e)"),
    "one sweep of two": ("Marks", " && sweep (billion + P) (- P) (rev_append l []) None", ""),
    "a reading before the span": ("Marks", "(first c <=? at_reading r) && ", ""),
    "liars of too many groups": (
        "Marks", "(groups c) 0 <=? false_max c", "(groups c) 0 <=? Z.succ (false_max c)"),
    "a cover of one too few": ("Covers", "(k <? length ns)%nat", "(k <=? length ns)%nat"),
    "no neighbours": ("Covers", "(has v ns ||", "(true ||"),
    "a conflict of other servers": ("Settle", "(server x =? a) && (server y =? b) && ", "(server x =? a) && "),
    "as many groups as may be wrong": ("Settle", "  (k <=? f).", "  true."),
    "drift where none is granted": ("Judge", "if drift then c else without_drift c", "c")}

SEEN = multiprocessing.Array("b", len(PLANTS))
"""Which plants something has seen."""


def copied(place: Path, edits: list[Edit], *passed: str) -> str:
    """A copy of the judge with these edits; what is wrong, if they can't be made."""
    shutil.copytree(ROOT / "judge", place, ignore=shutil.ignore_patterns(*passed))
    (place / "extracted").mkdir(exist_ok=True)
    for name, old, new in edits:
        file = place / f"{name}.v"
        text = file.read_text("utf-8")
        if old not in text:
            return f"{old} doesn't stand in {name}.v"
        file.write_text(text.replace(old, new))
    return ""


def names_in(place: Path) -> list[str]:
    listed = next(line for line in (place / "build").read_text().splitlines() if line.startswith("files="))
    return listed.split("'")[1].split()


def without_proofs(file: Path) -> str:
    return re.sub(r"\bProof\..*?\bQed\.", "Admitted.", file.read_text("utf-8"), flags=re.S)


def coqc(place: Path, name: str) -> str:
    status, out, err = run(["coqc", "-q", "-R", ".", "Judge", f"{name}.v"], cwd=place, timeout=3000)
    return (out + err).decode() if status else ""


def built(place: Path, edits: list[Edit]) -> str:
    """Makes ntpaudit-judge with these edits in a folder of its own; what is wrong, if that can't be."""
    if wrong := copied(place, edits, "*.vo*", "*.glob", "*.aux", "extracted"):
        return wrong
    names = names_in(place)
    for name in names[:names.index("Extract") + 1]:
        (place / f"{name}.v").write_text(without_proofs(place / f"{name}.v"))
        if wrong := coqc(place, name):
            return wrong[-1000:]
    status, out, err = run([place / "make", place], env={**os.environ, "JUDGE_EXTRACTED": str(place / "extracted")})
    return (out + err).decode()[-300:] if status else ""


def stopped(place: Path, edit: Edit) -> tuple[str, str]:
    """Which lemma or theorem isn't proved with this edit, which Coq takes as long as proofs are passed over."""
    if wrong := copied(place, [edit], "extracted"):
        return wrong, ""
    names, file = names_in(place), place / f"{edit[0]}.v"
    text = file.read_text("utf-8")
    file.write_text(without_proofs(file))
    if wrong := coqc(place, edit[0]):
        return f"{edit[2]} is nothing that Coq takes: {wrong[-1000:]}", ""
    file.write_text(text)
    for name in names[names.index(edit[0]):]:
        if wrong := coqc(place, name):
            before = (place / f"{name}.v").read_text("utf-8").splitlines()[:int(re.findall(r"line (\d+)", wrong)[0])]
            return "", f"{name}.v, " + re.findall(r"(?m)^ *(?:Lemma|Theorem) (\w+)", "\n".join(before))[-1]
    return "every proof stands", ""


class Watched(Judged):
    """A trial of which each planted judge is asked too, until something sees it."""
    planted: list[Path] = []

    def hold(self, label: str, is_right: Callable[[Any], bool], *drift: str) -> None:
        super().hold(label, is_right, *drift)
        for number, path in enumerate(self.planted):
            if not SEEN[number]:
                status, out, _ = run([path, self.claim, self.capture, self.third, *drift])
                if not is_right((status, out.decode().removesuffix("\n"))) and not SEEN[number]:
                    SEEN[number] = 1
                    print(f"{[*PLANTS][number]}: {self.name} ({label.split(',')[0]})", flush=True)


def share(numbers: tuple[int, int, list[Path]]) -> list[str]:
    """Part k of n of the jobs, until each plant is seen: what was wrong without a plant."""
    k, n, Watched.planted = numbers
    jobs = [job for job in test_recheck.jobs() if "/" not in job[0]]
    wrong: list[str] = []
    for job in [*jobs, *test_recheck.scenes_of("planted", SCENES)][k::n]:
        if not all(SEEN[number] for number in range(len(PLANTS))):
            wrong += test_recheck.tried(job, Watched)[2]
    for seed, (number, path) in product(range(k, ALTERED, n), enumerate(Watched.planted)):
        if not SEEN[number]:
            try:
                said_of_altered(seed, path)
            except AssertionError:
                SEEN[number] = 1
                print(f"{[*PLANTS][number]}: by covers, {seed}", flush=True)
    return wrong


def test_plants() -> None:
    if tool := missing():
        skip("bugs in the judge's definitions", wanting(tool))
        return
    cores = int(os.environ.get("NTPAUDIT_JOBS", os.cpu_count() or 1))
    with tempfile.TemporaryDirectory(prefix="ntpaudit-planted-") as folder, ProcessPoolExecutor(cores) as pool:
        places = [Path(folder, str(number)) for number in range(len(PLANTS))]
        for name, wrong in zip(PLANTS, pool.map(built, places, PLANTS.values())):
            count(f"planted: {name}", wrong)
        programs = [place / "ntpaudit-judge" for place in places]
        for told in pool.map(share, [(k, cores, programs) for k in range(cores)]):
            count("without a plant", "; ".join(told[:3]))
    for number, name in enumerate(PLANTS):
        count(name, "" if SEEN[number] else "nothing sees it")


def test_bugs() -> None:
    if tool := missing():
        skip("bugs in the judge's functions", wanting(tool))
        return
    status, out, err = run([ROOT / "judge/build"], timeout=3000)
    assert not status, (out + err).decode()[-300:]
    cores = int(os.environ.get("NTPAUDIT_JOBS", os.cpu_count() or 1))
    with tempfile.TemporaryDirectory(prefix="ntpaudit-bugs-") as folder, ProcessPoolExecutor(cores) as pool:
        places = [Path(folder, str(number)) for number in range(len(BUGS))]
        for name, (wrong, lemma) in zip(BUGS, pool.map(stopped, places, BUGS.values())):
            print(f"{name}: {lemma or wrong}", flush=True)
            count(name, wrong)
