"""What chronyd's tracking.log and its messages say: its frequency, its offset, and where the clock was stepped.

It is the client's own opinion, and stands as such wherever it is shown. tracking.log doesn't mark steps: an update
whose offset is more than makestep's threshold is taken for one. chronyd's messages name them. A line of another form
says nothing that is known, and is counted.
"""
import re
from contextlib import suppress
from datetime import datetime
from fractions import Fraction

from ..fault import Fault, fault
from ..folder.files import sum_of
from ..records import dataclass, field
from ..schema import Count, Sum, Text, Time, is_time, parsed
from ..text import count
from ..units import DAY, EPOCH, FORM, civil, seconds_of, shown_time

UPDATE = re.compile(r"(\d{4}-\d\d-\d\d) (\d\d:\d\d:\d\d) +\S+ +(\d+) +(-?\d{1,9}\.\d{1,9}) +\d+\.\d+ +"
                    r"(-?\d\.\d{1,9}e[+-]\d\d) ", re.ASCII)
HEADS = re.compile(r"=+$|   Date \(UTC\) Time |$")
MESSAGE = re.compile(r"(?:<\d{1,3}>\d? ?|[A-Z][a-z]{2} (?=\d{4}-))?(?:(\d{10}\.\d+|"
                     r"\d{4}-\d\d-\d\d[T ]\d\d:\d\d:\d\d(?:[.,]\d+)?(?:Z|[+-]\d\d:?\d\d| UTC| GMT)?)"
                     r"|([A-Z][a-z]{2} [ \d]\d \d\d:\d\d:\d\d(?:\.\d+)?)) (?:.*?\bchronyd(?:\[\d+\])?: )?(.*)",
                     re.ASCII)
"""A message by its time, as syslog and journalctl write it, and what it says."""
ZONE = re.compile(r"^\d{10}\.|:\d\d(?:[.,]\d+)?(Z|[+-]\d\d:?\d\d| UTC| GMT)$")
STEPPED = re.compile(r"(?:stepped by|clock_step|time (?:re)?set|step time server \S+ offset|setting time to .*\(offset)"
                     r" \+?(-?\d{1,12}\.\d{1,12}) ?s", re.ASCII)
"""What chronyd says of a step, ntpd, ntpdate, and busybox."""
WRONG = re.compile(r"System clock wrong by (-?\d{1,12}\.\d{1,12}) seconds", re.ASCII)
ABOUT_STEPS = re.compile("stepp|step time|clock_step|time reset|changed local time|jumped|(time|clock) jump|time change"
                         r"|\bset(ting)? (the )?(system )?(clock|time)\b|clock (was )?(set|wrong|changed)|\bs1 freq\b"
                         r"|time (has been |was )?(set|changed)|initial (clock )?synchroni|\bdate (-s|--set)",
                         re.IGNORECASE)
"""What a message may say that is of a step, in other words: systemd's, phc2sys's, virtual machines'."""
HAPPENED, OFFSET, FALLS = "it says so", "an offset beyond makestep's threshold", "the times of the log fall back"
SPOKEN, NO_ZONE = "it speaks of one", ", by a time without a zone"
UNKNOWN = "1970-01-01T00:00:00Z"
"""The time of a step in a line of no known form."""
ZONES = -12 * 3600, 14 * 3600
"""Seconds by which local times may be ahead of UTC."""
TOGETHER = 600
"""Seconds of which a log's extremes are kept."""

Step = tuple[Time, Text, Text]
"""The time of a step, its seconds (nothing if they aren't known), and how it is seen."""
Extremes = tuple[Time, Text, Text, Text]
"""Since a time, for ten minutes at most: the least and the greatest frequency in ppm, and the greatest offset in s."""


@dataclass(frozen=True)
class Tracking:
    files: dict[Text, Sum]
    updates: Count
    first: Time
    last: Time
    least_ppm: Text
    greatest_ppm: Text
    change_ppm: Text
    """The greatest change of frequency from one update to the next."""
    steps: list[Step]
    """Of each step its time, its seconds (nothing if they aren't known), and how it is seen."""
    extremes: list[Extremes] = field(default_factory=list)
    unread: Count = 0
    """Lines that aren't understood."""


class Reading:
    """What was read so far."""

    def __init__(self, step_s: str | None, now: str, known: str):
        """Of a log that ends by a time; or near one that is known."""
        self.step_s, self.now, self.known = step_s, now, known
        self.rates: list[tuple[str, Fraction]] = []
        self.offsets: list[tuple[str, Fraction]] = []
        self.steps: list[Step] = []
        self.last, self.unread = "", 0

    def take(self, line: str) -> None:
        """Takes a line of a log."""
        line = of_journal(line) if line.startswith("{") else line
        if update := UPDATE.match(line):
            self.update(update)
        elif (message := MESSAGE.match(line)) and (time := self.time_of(message)):
            zone = "" if ZONE.search(message[1] or "") else NO_ZONE
            if stepped := STEPPED.search(message[3]):
                self.steps.append((time, stepped[1], HAPPENED + zone))
            elif wrong := WRONG.search(message[3]):
                self.offsets.append((time, Fraction(wrong[1])))
            elif ABOUT_STEPS.search(message[3]):
                self.steps.append((time, "", SPOKEN + zone))
        elif ABOUT_STEPS.search(line):
            self.steps.append((UNKNOWN, "", SPOKEN))
        else:
            self.unread += not HEADS.match(line)

    def update(self, update: re.Match[str]) -> None:
        """Takes an update. One of no source (its stratum is 0) says nothing of the frequency."""
        time = f"{update[1]}T{update[2]}Z"
        if not is_time(time):
            raise fault("the log has a time that is none")
        if self.rates and time < self.rates[-1][0]:
            self.steps.append((time, f"{seconds_of(time) - seconds_of(self.rates[-1][0])}.0", FALLS))
        if self.step_s is not None and abs(Fraction(update[5])) > Fraction(self.step_s):
            self.steps.append((time, f"{float(update[5]):.6f}", OFFSET))
        self.offsets.append((time, Fraction(update[5])))
        if update[3] != "0":
            self.rates.append((time, Fraction(update[4])))

    def time_of(self, message: re.Match[str]) -> str:
        """The time of a message in UTC. Without a zone it is taken for UTC, without a year for the day nearest to what
        is known, else for the last such day."""
        if message[1]:
            return civil(int(message[1][:10])) if message[1][4] != "-" else in_utc(message[1].replace(",", "."))
        near, readings = seconds_of(self.known or self.now), list[str]()
        for year in range(int(civil(near)[:4]) - 4, int(civil(near)[:4]) + 2):
            with suppress(ValueError):  # (29 February of another year, or no day at all)
                readings.append(datetime.strptime(f"{year} {message[2][:15]}", "%Y %b %d %H:%M:%S").strftime(FORM))
        times = [time for time in readings if self.known or seconds_of(time) <= near + DAY]
        return min(times, key=lambda time: abs(seconds_of(time) - near), default="")


def read_tracking(logs: dict[str, bytes], step_s: str | None, now: str) -> Tracking:
    """What logs say, by their names, for a client that steps from so many seconds on."""
    lines = [line for data in logs.values() for line in data.decode("utf-8", "replace").splitlines()]
    known = max((f"{update[1]}T{update[2]}Z" for line in lines if (update := UPDATE.match(line))), default="")
    reading = Reading(step_s, now, known if is_time(known) else "")
    for line in lines:
        try:
            reading.take(line)
        except Fault:  # (its time is none: the others count all the same)
            reading.unread += 1
    if not reading.offsets and not reading.steps:
        raise fault("the log has no update of chronyd's tracking.log in it")
    rates = [rate for _, rate in reading.rates] or [Fraction(0)]
    change = max((abs(b - a) for a, b in zip(rates, rates[1:])), default=Fraction(0))
    times = sorted([time for time, _ in reading.rates or reading.offsets] + [step[0] for step in reading.steps
                                                                             if step[0] != UNKNOWN]) or [UNKNOWN]
    return Tracking({name: sum_of(data) for name, data in logs.items()}, len(reading.rates), times[0], times[-1],
                    ppm(min(rates)), ppm(max(rates)), ppm(change), sorted(reading.steps), extremes_of(reading),
                    reading.unread)


def of_journal(line: str) -> str:
    """A line of JSON, as journalctl writes it, in the form of the others."""
    with suppress(ValueError, KeyError, TypeError):
        said = parsed(line.encode())
        seconds, part = divmod(int(said["__REALTIME_TIMESTAMP"]), 10**6)
        return f"{seconds:010}.{part:06} {said.get('_HOSTNAME', '-')} {said['SYSLOG_IDENTIFIER']}: {said['MESSAGE']}"
    return line


def extremes_of(reading: Reading) -> list[Extremes]:
    """The extremes of ten minutes each."""
    rates, offsets = dict[int, list[Fraction]](), dict[int, list[Fraction]]()
    for known, own in ((rates, reading.rates), (offsets, reading.offsets)):
        for time, value in own:
            known.setdefault(seconds_of(time) // TOGETHER, []).append(value)
    none = [Fraction(0)]
    return [(civil(at * TOGETHER), ppm(min(rates.get(at, none))), ppm(max(rates.get(at, none))),
             f"{float(max(abs(offset) for offset in offsets.get(at, none))):.9f}")
            for at in sorted(rates.keys() | offsets)]


def in_utc(time: str) -> str:
    """A time of a log in UTC; one without a zone is taken as it stands."""
    try:
        time = re.sub(" (UTC|GMT)$", "Z", time)
        moment = datetime.fromisoformat(time if ZONE.search(time) else f"{time}+00:00")
        return (EPOCH + (moment - datetime.fromisoformat("1970-01-01T00:00:00+00:00"))).strftime(FORM)
    except (ValueError, OverflowError):
        raise fault("the log has a time that is none") from None


def ppm(rate: Fraction) -> str:
    """Parts in a million, as the log has them."""
    return f"{float(rate):.3f}"


def in_words(log: Tracking) -> str:
    """What a page and a draft say of it."""
    steps = count(len(log.steps), "step") if log.steps else "no step"
    updates = count(log.updates, "update")
    span = f" from {shown(log.first)} to {shown(log.last)}" if log.last != UNKNOWN else ""
    unread = f" {count(log.unread, 'line')} of another form {'says' if log.unread == 1 else 'say'} nothing that " \
        "is known." if log.unread else ""
    return (f"{', '.join(log.files)}, as chronyd wrote it: {updates}{span}, its frequency from "
            f"{log.least_ppm} to {log.greatest_ppm} ppm, with {log.change_ppm} ppm at the most from one to the "
            f"next; {steps}.{unread}")


def shown(time: str) -> str:
    return shown_time(seconds_of(time)) if time != UNKNOWN else "a time of no known form"


def is_within(step: Step, first: int, last: int) -> bool:
    """Whether by a step a clock may have shown a reading of a span of Unix seconds twice, or left one, or come to one.
    A log has the time behind the step, cut to seconds; one of an unknown size was back by a day at the most, and one by
    which times fall back by an hour more than these."""
    if step[0] == UNKNOWN:
        return True
    behind, zones = seconds_of(step[0]), ZONES if step[2].endswith(NO_ZONE) else (0, 0)
    before = behind - int(float(step[1])) + 3600 * (step[2] == FALLS) if step[1] else behind + DAY
    return first - 1 <= max(behind, before) - zones[0] and min(behind, before) - zones[1] <= last + 1


def greatest(log: Tracking, first: int, last: int) -> tuple[int, int]:
    """The greatest frequency, or difference of two, in parts of 10^9, and the greatest offset in nanoseconds, that were
    logged inside a span of Unix seconds or within ten minutes of it."""
    own = [row for row in log.extremes if first - TOGETHER <= seconds_of(row[0]) <= last]
    if not own:
        return 0, 0
    least, most = min(Fraction(row[1]) for row in own), max(Fraction(row[2]) for row in own)
    return int(max(abs(least), abs(most), most - least) * 1000), int(max(Fraction(row[3]) for row in own) * 10**9)


def cautions(log: Tracking, first: int, last: int) -> list[str]:
    """What a person has to look at over a span of Unix seconds: the steps inside it, and whether the log covers it."""
    said = [f"A step{f' of {seconds} s' if seconds and how != FALLS else ''} at {shown(time)} ({how}) "
            f"{'may be' if how.endswith(NO_ZONE) else 'is'} inside the span."
            for time, seconds, how in log.steps if is_within((time, "0", how[-len(NO_ZONE):]), first, last)]
    if seconds_of(log.first) > first or seconds_of(log.last) + 1 < last:
        said.append("The log doesn't cover the whole span.")
    return said
