"""What the configuration of an NTP client says of how it may move the clock: chronyd's, or ntpd's."""
import math
import os
import re
from fractions import Fraction
from typing import Annotated, Final, Literal

from ..fault import fault
from ..folder.files import piped_or_named, sum_of
from ..records import dataclass
from ..schema import Sum, Text, within

CHRONY: Final = "chronyd"
NTPD: Final = "ntpd"

SLEW = Fraction(10**9, 12)
"""Parts in 10^9 by which chronyd slews at most if `maxslewrate` isn't set: a twelfth."""
SLEW_OF_NTPD = 500_000
MAX_OF_A_TEXT = 1 << 28
"""A larger log or configuration is refused."""
STEP_OF_NTPD = "0.128"
"""Seconds from which ntpd steps if `tinker step` isn't set."""
NUMBER = re.compile(r"[+-]?[0-9]{1,15}(\.[0-9]{0,15})?([eE][+-]?[0-9]{1,2})?")


@dataclass(frozen=True)
class Configuration:
    """What is set, in the words of the configuration; None if it isn't."""

    client: Literal["chronyd", "ntpd"]
    files: dict[Text, Sum]
    """The SHA-256 of each file, by its name."""
    slew_ppb: Annotated[int, within(0, 10**12)]
    """How fast the client moves the clock at most, in parts of 10^9, rounded up."""
    maxslewrate: Text | None = None
    makestep: Text | None = None
    """Of chronyd: the threshold in seconds, and the number of updates, which if negative are all."""
    step_s: Text | None = None
    """Seconds from which the client steps the clock; None if it never does."""
    leapsecmode: Text | None = None
    maxdrift: Text | None = None
    """Of chronyd: how far it may set the frequency, in ppm."""
    hwtimestamp: Text | None = None
    not_read: Text | None = None
    """Files that the configuration takes in, which weren't read."""


def lines_of(path: str) -> tuple[bytes, list[str]]:
    data = piped_or_named(path, MAX_OF_A_TEXT)
    return data, data.decode("utf-8", "replace").splitlines()


def read_chrony(paths: list[str]) -> Configuration:
    """What chrony.conf says. Of a directive that stands there twice the last holds."""
    said: dict[str, list[str]] = {}
    cards: list[str] = []
    others: list[str] = []
    files = {}
    for path in paths:
        data, lines = lines_of(path)
        files[os.path.basename(path)] = sum_of(data)
        for words in (line.split() for line in lines if line.strip()):
            name = words[0].lower()  # (that of a comment begins with a mark, and is no directive's)
            said[name] = words[1:]
            cards += words[1:2] if name == "hwtimestamp" else []
            others += words[1:] if name in ("include", "confdir") else []
    rate, step = said.get("maxslewrate"), said.get("makestep")
    slew = SLEW if rate is None else number_of("maxslewrate", rate, 0) * 1000
    if slew < 0:
        raise fault("maxslewrate is below zero in the configuration")
    if step is not None:
        number_of("makestep", step, 0)
        number_of("makestep", step, 1)
    return Configuration(
        CHRONY, files, math.ceil(slew), maxslewrate=rate[0] if rate else None,
        makestep=" ".join(step) if step else None, step_s=step[0] if step else None,
        leapsecmode=" ".join(said.get("leapsecmode", ())) or None,
        maxdrift=" ".join(said.get("maxdrift", ())) or None, hwtimestamp=" ".join(cards) or None,
        not_read=" ".join(others) or None)


def read_ntpd(paths: list[str]) -> Configuration:
    """What ntp.conf says."""
    files, others, step = {}, [], STEP_OF_NTPD
    for path in paths:
        data, lines = lines_of(path)
        files[os.path.basename(path)] = sum_of(data)
        for words in (line.partition("#")[0].split() for line in lines):
            others += words[1:2] if words[:1] == ["includefile"] else []
            if words[:1] == ["tinker"]:
                step = dict(zip(words[1::2], words[2::2])).get("step", step)
    return Configuration(NTPD, files, SLEW_OF_NTPD, step_s=step if number_of("tinker step", [step], 0) else None,
                         not_read=" ".join(others) or None)


def number_of(name: str, words: list[str], at: int) -> Fraction:
    if at >= len(words) or not NUMBER.fullmatch(words[at]):
        raise fault(f"{name} has no number in the configuration")
    return Fraction(words[at])


def configuration(chrony: list[str] | None, ntpd: list[str] | None) -> Configuration | None:
    if chrony:
        return read_chrony(chrony)
    return read_ntpd(ntpd) if ntpd else None


def in_words(settings: Configuration) -> str:
    """What is set, for the page and for a draft."""
    names = ", ".join(settings.files)
    if settings.client == NTPD:
        steps = f"steps from {settings.step_s} s on" if settings.step_s else "no steps (tinker step 0)"
        return f"{names}: ntpd slews by {settings.slew_ppb:,} parts in 10^9 at the most; {steps}."
    rate = "maxslewrate isn't set" if settings.maxslewrate is None else f"maxslewrate {settings.maxslewrate}"
    rest = [f"{name} {value}" if value else f"no {name}" for name, value in
            (("makestep", settings.makestep), ("leapsecmode", settings.leapsecmode), ("maxdrift", settings.maxdrift),
             ("hwtimestamp", settings.hwtimestamp))]
    return f"{names}: {rate}, so chronyd slews by {settings.slew_ppb:,} parts in 10^9 at the most; {'; '.join(rest)}."


def cautions(settings: Configuration) -> list[str]:
    """What a person has to look at."""
    said = []
    if settings.makestep:
        limit = int(number_of("makestep", settings.makestep.split(), 1))
        when = "at any time" if limit < 0 else f"in the first {limit} updates after its start"
        said.append(f"makestep: chronyd steps the clock {when} if it is off by more than {settings.step_s} s.")
    elif settings.step_s:
        said.append(f"ntpd steps the clock if it is off by more than {settings.step_s} s, or by what its option -x "
                    "says.")
    if settings.step_s:
        said.append("No drift covers a step: see in the client's messages that there was none.")
    if settings.client == CHRONY and not settings.maxdrift:
        said.append("maxdrift isn't set, so chronyd may set the frequency by up to 500,000 ppm, whatever the "
                    "oscillator does: `maxdrift 100` holds it to 100 ppm.")
    if settings.not_read:
        said.append(f"The configuration takes in {settings.not_read} besides, which wasn't read: name these files too, "
                    "or what `chronyd -p` prints.")
    if settings.hwtimestamp:
        said.append("hwtimestamp: the card stamps packets for chronyd. Record by the system's clock all the same.")
    if settings.leapsecmode and settings.leapsecmode != "system":
        said.append(f"leapsecmode {settings.leapsecmode}: a leap second moves this clock for a while after it.")
    return said
