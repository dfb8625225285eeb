"""Proves the judge, and has coqchk go through all of it again: no axiom, and nothing left open."""
import re

from tests.support import ROOT, check, files_in, run, skip, wanting
from tests.judge.made import alone, missing

THEOREMS = ("check_is_the_verdict", "yes_is_traceable", "check_covers_is_the_verdict", "yes_by_covers_is_traceable",
            "empty_yes_is_so",
            "refuted_is_a_course", "shown_without_drift", "nothing_fits_is_so", "nothing_fits_no_is_right",
            "no_evidence_is_so", "never_both")
OPEN = re.compile(r"\b(Axiom|Axioms|Parameter|Parameters|Conjecture|Admitted|admit|give_up|bypass_check)\b")


def test_texts() -> None:
    """No word by which Coq takes something for proved, and each theorem by its name."""
    texts = {file.name: file.read_text("utf-8") for file in files_in(ROOT / "judge", "*.v")}
    for name, text in texts.items():
        code = re.sub(r"\(\*.*?\*\)", "", text, flags=re.S)
        check(f"nothing is left open in {name}", found=(OPEN.findall(code), []))
    theorems = texts["Theorems.v"]
    for name in THEOREMS:
        check(f"{name} is a theorem", there=(bool(re.search(rf"\bTheorem {name}\b", theorems)), True))


def test_checked() -> None:
    if tool := missing():
        skip("the judge's proofs", wanting(tool))
        return
    with alone():
        status, out, err = run([ROOT / "judge/build", "--check"], timeout=3000)
    axioms = re.search(rb"\* Axioms:(.*?)\n *\n", out + err, re.S)
    check("coqchk finds no axiom", status=(status, 0), axioms=(axioms and axioms[1].strip(), b"<none>"))
