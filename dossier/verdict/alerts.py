"""Warnings in words: what stands beside a verdict, for a reader who may not know the terms."""
from collections.abc import Callable

from ..folder.entry import (Again, Alert, Bare, Between, Caught, Falls, Far, Figure, ForATime, LeapSeconds, ListEnds,
                            Logged, OfServers, OneReference, Quiet, Silence, Torn, Unread)
from ..premise import allowance
from ..premise.premises import named
from ..text import capital, count, is_or_are, listed, plain, reference
from ..units import SECOND, between, civil, from_to, inward, ns_ms, ns_up_ms, outward, shown_time, span_of_seconds

ON_DRIFT = "There it rests on the drift that the claim grants, and on nothing recorded."


def length(nanoseconds: int) -> str:
    return span_of_seconds(nanoseconds / SECOND)


def number(alert: OfServers | ForATime, one: str, many: str) -> str:
    """A word that fits the number of a warning's servers."""
    return one if len(alert.servers) == 1 else many


def outside(alert: Between) -> str:
    """Before or after, or both, there is something."""
    parts = [f"begins {length(alert.before)} before the first"] if alert.before else []
    parts += [f"ends {length(alert.after)} after the last"] if alert.after else []
    return f"The span goes beyond the packets that count: it {' and '.join(parts)}. {ON_DRIFT}"


def falls(alert: Falls) -> str:
    before, after = (shown_time(time // SECOND) for time in (alert.before, alert.after))
    return (f"The times of the records fall back ({count(alert.count, 'time')}; first at record {alert.record}, from "
            f"{before} to {after}, by {length(alert.before - alert.after)}). If the clock was stepped, the claim can't "
            "be made of this span.")


def silence(alert: Quiet) -> str:
    more = f" There are {alert.count:,} such times, of which this is the longest." if alert.count > 1 else ""
    return f"{silent(Silence(alert.before, alert.after, alert.requests, alert.replies))}{more} {ON_DRIFT}"


def silent(gap: Silence) -> str:
    """What was recorded in a gap."""
    first, last = map(shown_time, inward(gap.after, gap.by))
    when = f"from {first} to {last} ({length(gap.by - gap.after)})"
    if not gap.requests and not gap.replies:
        return f"No server was heard {when}: nothing of this client was recorded."
    asked = count(gap.requests, "request")
    if not gap.replies:
        return f"No server was heard {when}: nobody answered, of {asked}."
    return f"No server was heard {when}: no reply was of use, of {gap.replies:,} to {asked}."


def far(alert: Far) -> str:
    where = f", {between(alert.piece.from_, alert.piece.to)}" if alert.piece else ""
    return (f"{count(alert.count, 'piece')} {is_or_are(alert.count)} farther from every sample than a tenth of the "
            f"span; the farthest{where}, by {length(alert.distance)}. {ON_DRIFT}")


def torn(alert: Torn) -> str:
    more = f", and so do {count(alert.count - 1, 'other')}" if alert.count > 1 else ""
    return (f"{plain(alert.file)} ends inside a record, and counts up to there (byte {alert.place:,}){more}. It was "
            "cut off, or is still being written (`tcpdump -U` writes whole records).")


def twice(alert: Again) -> str:
    where = f"{plain(alert.file)} and {plain(alert.beside)}" if alert.beside else plain(alert.file)
    return (f"{count(alert.count, 'packet')} {'was' if alert.count == 1 else 'were'} recorded once more, the first of "
            f"them in {where}, with stamps up to {ns_up_ms(alert.spread)} ms apart: each counts once, a request by its "
            "earliest stamp and a reply by its latest.")


def apart_for_a_time(alert: ForATime) -> str:
    more = f"; so {'does a server' if alert.count == 1 else 'do servers'} at {count(alert.count, 'other time')}"
    return (f"{listed(alert.servers)} {number(alert, 'stands', 'stand')} apart "
            f"{from_to(*outward(alert.before, alert.after))}: {number(alert, 'its', 'their')} samples then miss the "
            f"hull{more if alert.count else ''}.")


def without_xleave(alert: OfServers) -> str:
    return f"take `xleave` out of {number(alert, 'its line', 'their lines')} in chrony.conf, and record again"


def logged_at(alert: Logged) -> str:
    return shown_time(alert.before // SECOND) if alert.before else "a time of no known form"


BARE = {
    "no-drift": "The claim grants no drift at all (drift_ppb is 0). No oscillator is so good, and no NTP "
                "client corrects a clock without it.",
    "no-list": "Nothing is known of leap seconds: there is no list of them (`--leap-seconds` names one).",
    "zone": "A log names no zone, so a step in it counts from 14 hours before its time to 12 behind it: "
            "`journalctl --utc -o short-iso` names one.",
}
FIGURES: dict[str, Callable[[int], str]] = {
    "leap": lambda number: f"{count(number, 'sample announces', 'samples announce')} a leap second. A span with a "
                           "leap second in it can't be claimed.",
    "sources": lambda number: f"Only {count(number, 'server has', 'servers have')} a sample. With fewer than four "
                              "there is none to spare: it takes three to outvote one that is wrong.",
    "flood": lambda number: f"{count(number, 'record')} of the capture {is_or_are(number)} of others than "
                            "the claim's client and servers, or answer no request of it, and left out of what is "
                            "audited: the recorder's filter may name these servers.",
    "slip": lambda number: f"The claim's {allowance.slip(number)}",
    "drift": lambda number: f"Oscillator and client together may move the clock by {number:,} parts in 10^9, by "
                            "the folder's own evidence. That is more than the claim grants (`drift_ppb`).",
    "reading": lambda number: f"Packets were stamped as much as {ns_ms(number)} ms after they left, by the "
                              "folder's own evidence. That is more than the claim grants (`reading_ns`).",
    "oscillator": lambda number: f"The claim grants {number:,} parts in 10^9, which is an oscillator alone. The "
                                 "client's own corrections are NOT in it, unless evidence of its configuration says "
                                 "how small they are.",
    "rate": lambda number: f"The client logged a frequency, or a change of it, of {number:,} parts in 10^9 in the "
                           "span or near it. That is more than the claim grants (`drift_ppb`).",
    "offset": lambda number: f"The client logged an offset of {ns_ms(number)} ms in the span or near it. That is "
                             "beyond the bound.",
    "stamps": lambda number: f"Stamps of one packet are up to {ns_up_ms(number)} ms apart, which is beyond the bound: "
                             "they are of two clocks, the clock was set between them, or two packets are alike.",
}
SERVERS: dict[str, Callable[[OfServers], str]] = {
    "address": lambda alert: f"By the folder's own evidence the recorder had the address {alert.servers[0]}, and not "
                             "the claim's client's: another machine's stamps say nothing of this clock.",
    "apart": lambda alert: f"{listed(alert.servers)} {number(alert, 'stands', 'stand')} apart: "
                           f"{number(alert, 'its range never meets', 'their ranges never meet')} the hull.",
    "interleaved": lambda alert: f"{listed(alert.servers)} mostly {number(alert, 'answers', 'answer')} in interleaved "
                                 f"mode, which can't be used: {without_xleave(alert)}.",
    "wrong": lambda alert: f"{listed(alert.servers)} {number(alert, 'was', 'were')} wrong for some time: no course of "
                           f"events fits in which {number(alert, 'it was', 'they were')} right.",
    "contrary": lambda alert: f"Of {listed(alert.servers)} at least one was wrong for some time: no course of events "
                              "fits in which all were right.",
}


def caught(alert: Caught) -> str:
    times = [shown_time(time // SECOND) for time in alert.times]
    return f"{listed(alert.servers)} was wrong: it contradicts {listed(alert.others)}, at {listed(times)}."


def leap_seconds(alert: LeapSeconds) -> str:
    return (f"{capital(named(alert.seconds))} lies in the span or among the exchanges, by the "
            "list of leap seconds. No such span can be claimed.")


def list_ends(alert: ListEnds) -> str:
    return (f"The list of leap seconds was good until {civil(alert.before // SECOND)[:10]} only, "
            "and the span or the exchanges go on beyond that.")


def one_reference(alert: OneReference) -> str:
    return (f"All exchanges name one reference ({reference(alert.reference)}): these servers may "
            "be wrong together, and belong into one group.")


def step(alert: Logged) -> str:
    return (f"The client logged a step of the clock at {logged_at(alert)}"
            f"{f', the first of {alert.count:,} steps' if alert.count > 1 else ''}. No drift covers a "
            "step.")


def other_step(alert: Logged) -> str:
    return ("The client logged a step of the clock at "
            f"{logged_at(alert)}, where none is presumed.")


def unlogged(alert: Between) -> str:
    return (f"The client's log has no step {between(*outward(alert.before, alert.after))}, where one "
            "is presumed.")


def unread(alert: Unread) -> str:
    return (f"{count(alert.count, 'line')} of {plain(alert.file) or 'logs'} "
            f"{'is' if alert.count == 1 else 'are'} of no known form: nothing in them was read.")


TO_DO = {
    "drift": "Grant as much drift as the evidence has, and audit again.",
    "rate": "Grant as much drift as the log shows, and audit again.",
    "offset": "See in the log how far off the client took the clock to be, and when. Claim a wider bound, or the other "
              "times.",
    "logged": "See in the log when the clock was stepped, and claim the time between two steps by itself.",
    "reading": "Grant as much as was measured, and audit again.",
    "stamps": "Keep what this machine's clock has stamped alone in the folder.",
    "step": "Claim the time before the step and the time after it by themselves.",
    "fell": "Claim the time before the records' times fall back and the time after it by themselves.",
    "leap-second": "Claim another span.",
    "leap-ends": "Bring the system's list up to date (`apt-get install tzdata`, after `apt-get update`), or fetch it "
                 "from https://data.iana.org/time-zones/data/leap-seconds.list and name it (`--leap-seconds`).",
    "no-list": "Put the system's list of leap seconds in place (`apt-get install tzdata`), or name one "
               "(`--leap-seconds`).",
}
"""What to do about each warning that takes a yes away."""


def warning_words(alert: Alert) -> str:
    """The sentence of a warning."""
    match alert:
        case Bare():
            return BARE[alert.kind]
        case Figure():
            return FIGURES[alert.kind](alert.count)
        case OfServers():
            return SERVERS[alert.kind](alert)
        case Between():
            return outside(alert) if alert.kind == "outside" else unlogged(alert)
        case Falls():
            return falls(alert)
        case Quiet():
            return silence(alert)
        case Far():
            return far(alert)
        case LeapSeconds():
            return leap_seconds(alert)
        case ListEnds():
            return list_ends(alert)
        case OneReference():
            return one_reference(alert)
        case ForATime():
            return apart_for_a_time(alert)
        case Caught():
            return caught(alert)
        case Logged():
            return step(alert) if alert.kind == "step" else other_step(alert)
        case Torn():
            return torn(alert)
        case Again():
            return twice(alert)
        case Unread():
            return unread(alert)
