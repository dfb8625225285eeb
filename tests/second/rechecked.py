"""second/recheck, called without a process of its own, and what it says of the claims and samples of other tests."""
import gc
import importlib.machinery
import importlib.util
import os
import types
from pathlib import Path
from typing import Any

from tests.support import ROOT
from tests.second.claims import ByCovers, Certificate, Claim, Refutation
from tests.second.rules import Sample

RECHECK = ROOT / os.environ.get("NTPAUDIT_SECOND", "second/recheck")


written = {1: b"", 2: b""}


def write(stream: int, data: bytes) -> int:
    written[stream] += data
    return len(data)


def loaded(path: Path) -> Any:
    """The module, whose bytes on the standard streams are kept."""
    loader = importlib.machinery.SourceFileLoader("recheck", str(path))
    spec = importlib.util.spec_from_loader("recheck", loader)
    assert spec
    module: Any = importlib.util.module_from_spec(spec)
    loader.exec_module(module)
    module.os = types.SimpleNamespace(write=write)
    return module


MODULE = loaded(RECHECK)


def recheck(*words: object) -> tuple[int, bytes, bytes]:
    """Status, standard output and standard error of a call."""
    written.update({1: b"", 2: b""})
    status: int = MODULE.main(list(map(str, words)))
    gc.enable()
    return status, written[1], written[2]


# ---- of samples
def exchanges_of(samples: list[Sample]) -> list[Any]:
    return [MODULE.Exchange(sample.server, 2 * k, 2 * k + 1, sample.sent, sample.received, sample.t2, sample.t3,
                            sample.distance) for k, sample in enumerate(samples)]


def verdict(claim: Claim, samples: list[Sample], certificate: Certificate | ByCovers, bound: int | None = None) -> str:
    """What `check` has to say of a certificate, behind the word `verdict`; or with another bound, in ticks."""
    read = MODULE.claim_of(claim)
    fault: str = MODULE.fault_of(read if bound is None else read._replace(bound=bound), exchanges_of(samples),
                                 *MODULE.certificate_of(certificate))
    return f"no{fault}" if fault else "yes"


def stands(claim: Claim, samples: list[Sample], refutation: Refutation, drift: bool = False) -> bool:
    """Whether `refute` has to accept a refutation."""
    return bool(MODULE.is_refuted(MODULE.claim_of(claim), exchanges_of(samples), refutation, drift))


def stands_with_drift(claim: Claim, samples: list[Sample], refutation: Refutation) -> bool:
    """Whether `refute --drift` has to."""
    return stands(claim, samples, refutation, True)
