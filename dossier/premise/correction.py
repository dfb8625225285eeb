"""How fast a clock may gain or lose by its oscillator and its client together: what a draft proposes as drift, and what
that rests on, as JSON for evidence.json to name."""
from typing import Literal

from ..fault import Fault, fault
from ..folder.claim import MAX_DRIFT
from ..records import dataclass
from ..schema import Count, Mangled, Time
from ..units import seconds_of
from . import client, tracking
from .client import Configuration
from .tracking import Tracking


@dataclass(frozen=True)
class Correction:
    kind: Literal["drift"]
    oscillator_ppb: Count
    drift_ppb: Count
    """Oscillator and slew together."""
    configuration: Configuration
    tracking: Tracking | None
    made: Time

    def __post_init__(self) -> None:
        if self.drift_ppb != self.oscillator_ppb + self.configuration.slew_ppb:
            raise Mangled("drift_ppb")
        try:
            client.cautions(self.configuration)
        except Fault:
            raise Mangled("makestep") from None

    def sentences(self) -> list[str]:
        """What it rests on, for the page and for a draft."""
        words = [client.in_words(self.configuration),
                 f"With {self.oscillator_ppb:,} of the oscillator that is a drift of {self.drift_ppb:,}."]
        return words + ([tracking.in_words(self.tracking)] if self.tracking else [])

    @property
    def logs(self) -> list[Tracking]:
        return [self.tracking] if self.tracking else []

    def cautions(self, first: int, last: int) -> list[str]:
        """What a person has to look at, over a span of Unix seconds."""
        of_log = tracking.cautions(self.tracking, first, last) if self.tracking else []
        return [*of_log, *client.cautions(self.configuration)]


def correction(oscillator_ppb: int, settings: Configuration, log: Tracking | None, made: str) -> Correction:
    """What a draft proposes by an oscillator, settings and a log."""
    if log:  # (what it shows, is granted)
        oscillator_ppb = max(oscillator_ppb, tracking.greatest(log, 0, seconds_of(log.last))[0])
    drift = oscillator_ppb + settings.slew_ppb
    if drift > MAX_DRIFT:
        raise fault(f"a drift of {drift} by the configuration is more than a claim can grant")
    return Correction("drift", oscillator_ppb, drift, settings, log, made)
