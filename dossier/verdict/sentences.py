"""What an audit comes to, in a line, and in sentences for a manager, an auditor, and whoever has to do something.

No sentence says more than the program did. A yes is: in every course of events that fits the capture the error is
within the bound. Refuted is: in one of them it isn't, so nothing in the capture shows it.
"""
from ..folder.claim import Claim
from ..folder.entry import (AGAINST, NO_EVIDENCE, NOTHING_FITS, OPEN, REFUSED, REFUTED, UNSUPPORTED, YES, AtTick, Cause,
                            Elsewhere, Entry, Gaps, Misfit, Move, Silence, Silent, Stretch)
from ..folder.files import CLAIM, REFUTATION
from ..text import capital, count, label, listed, plain
from ..units import (SECOND, TICKS, between, civil, from_to, high_ms, inward, low_ms, ns_ms, ns_up_ms, outward,
                     range_ms, shown_time)
from ..premise.premises import named
from . import alerts
from .alerts import silent, warning_words

TWICE = "Its capture is that of another folder too, so one of them is a copy:"


def span(claim: Claim) -> str:
    return f"{from_to(claim.first, claim.last)} UTC"


def granted(claim: Claim) -> str:
    """What the claim grants of its servers."""
    servers, groups, most = len(claim.servers), len(claim.grouped), claim.false_max
    of = f"these {servers} servers" if groups == servers else f"these {groups} groups of servers"
    if most:
        return f"if at most {most} of {of} {'was' if most == 1 else 'were'} wrong"
    return "if its server was right" if servers == 1 else f"if none of {of} was wrong"


SAID = {
    UNSUPPORTED: "It isn't shown that {it}. The capture would show it, {granted}; but the folder's own evidence speaks "
                 "against what else the claim grants.",
    REFUTED: "The capture doesn't show that {it}, and no certificate can.",
    NOTHING_FITS: "Whether {it} can't be said: no course of events fits the capture, so one of the premises fails in "
                  "it.",
    NO_EVIDENCE: "Whether {it} can't be said: the capture says nothing about this clock.",
    OPEN: "Whether {it} stays open: no certificate was found that shows it, and no course of events that fits the "
          "capture and breaks it.",
}


BY_COVERS = "This is shown by covers: servers that were wrong at some time are left out throughout. The picture " \
    "judges each piece by itself, and so leaves more open."


def sentence(entry: Entry) -> str:
    """What a manager reads."""
    claim = entry.claim
    if entry.reason == OFF:
        return capital(why_off(entry))
    within = f"the clock of {claim.client} was within {ns_ms(claim.bound_ns)} ms of UTC"
    if entry.verdict != YES:
        return f"{SAID[entry.verdict].format(it=f'{span(claim)} {within}', granted=granted(claim))} {reason(entry)}"
    said = f"{capital(span(claim))} {within}, {granted(claim)} and what else the claim grants is true."
    if entry.least_ns is None:
        return f"{said} {BY_COVERS}"
    return (f"{said} Then it was off by at most {ns_up_ms(entry.least_ns)} ms, as much as is needed "
            f"{between(entry.worst.from_, entry.worst.to)}: no certificate of pieces carries a lesser bound.")


def reason(entry: Entry) -> str:
    """Why it isn't a yes."""
    cause = entry.reason
    if not cause:
        return ""
    if entry.verdict == UNSUPPORTED:
        return " ".join(warning_words(warning) for warning in entry.warnings if warning.kind in AGAINST)
    if isinstance(cause, (Silent, Elsewhere)):
        return why_no_evidence(entry, cause)
    if isinstance(cause, Misfit):
        return why_nothing_fits(entry, cause)
    if isinstance(cause, Gaps):
        return why_gap(entry, cause)
    if isinstance(cause, AtTick) and cause.hull is not None:
        is_word = isinstance(cause.hull, str)
        left = f"the hull is {cause.hull}" if is_word else f"errors from {range_ms(*cause.hull)} are left open"
        return f"At {shown_time(cause.tick // TICKS)} {left}."
    if cause == Cause("unbounded"):
        return "No more groups have a sample than the claim takes for wrong, so nothing follows."
    return capital(why_off(entry)) if cause == OFF else f"A course of events fits the exchanges {course_of(entry)}."


OFF = Cause("off")


def why_no_evidence(entry: Entry, cause: Silent | Elsewhere) -> str:
    """What is missing: the recording at the time of the span, the client, its servers' replies, or enough of them."""
    counts, client = entry.counts, entry.claim.client
    if isinstance(cause, Elsewhere):
        before, after = (time // SECOND for time in cause.recorded)
        ends = [f"the last before it is from {shown_time(before)}"] if before else []
        ends += [f"the first after it from {shown_time(after)}"] if after else []
        return f"No packet was recorded within the span: {', '.join(ends)} UTC."
    if not counts.get("records"):
        return "Nothing was recorded: there is no record at all."
    if not counts.get("requests"):
        if cause.asked:
            return f"{client} asks none of the claim's servers: it asks {', '.join(cause.asked)}."
        others, do = ", ".join(cause.asking) or "nobody", "do" if len(cause.asking) > 1 else "does"
        return f"{client} asks nobody in this capture: {others} {do}."
    if not counts.get("replies"):
        return f"The servers never answered: {count(counts['requests'], 'request')}, and no reply."
    groups, have = count(len(entry.claim.grouped), "group"), "has" if cause.heard == 1 else "have"
    return (f"{cause.heard} of {groups} of servers {have} a sample, and {entry.claim.false_max or 'none'} may be "
            "wrong: whatever the error, a course of events fits.")


def why_off(entry: Entry) -> str:
    """How far the clock was off, and when."""
    return (f"the clock of {entry.claim.client} was {off_times(entry)}, and so beyond the bound of "
            f"{ns_ms(entry.claim.bound_ns)} ms, {granted(entry.claim)} and what else the claim grants is true.")


def off_times(entry: Entry) -> str:
    """The longest times beyond the bound, of all parts, in their order."""
    times = [(part, time) for part in entry.parts for time in part.beyond]
    longest = sorted(times, key=lambda one: one[1].from_ - one[1].to)[:MAX_TIMES]
    told = listed([f"{ahead(time.hull)} UTC {from_to(time.from_, time.to)}{where(entry, part)}"
                   for part, time in times if (part, time) in longest])
    return told + (f" and at {len(times) - MAX_TIMES} other times" if len(times) > MAX_TIMES else "")


def ahead(hull: tuple[int, int]) -> str:
    """An error that has one sign: `29.354 to 30.639 ms ahead of`."""
    low, high = hull if hull[0] > 0 else (-hull[1], -hull[0])
    return f"{range_ms(low, high)} {'ahead of' if hull[0] > 0 else 'behind'}"


def why_gap(entry: Entry, cause: Gaps) -> str:
    """When nothing was heard, and what holds at all other times."""
    told = cause.gaps if len(cause.gaps) <= MAX_TIMES else sorted(
        sorted(cause.gaps, key=lambda gap: gap.after - gap.by)[:MAX_TIMES], key=lambda gap: gap.after)
    more = f" And so it was at {cause.count - len(told):,} other times." if cause.count > len(told) else ""
    return f"{' '.join(map(silent, told))}{more} Nothing shows how the clock went on then.{in_parts(entry)}"


def where(entry: Entry, part: Stretch) -> str:
    """Before which of the clock's moves a part lies, or behind which: some of its readings may have been shown
    elsewhere too."""
    if not entry.moves or entry.verdict != NOTHING_FITS:
        return ""
    number = f"{ORDINALS[max(1, part.moves) - 1]} " if len(entry.moves) > 1 else ""
    return f" {'behind' if part.moves else 'before'} the {number}step"


ORDINALS = "first", "second", "third", "fourth", "fifth", "sixth", "seventh", "eighth"


def in_parts(entry: Entry) -> str:
    """What holds in each part."""
    known = [(part, part.hull) for part in entry.parts if not isinstance(part.hull, str)]
    if not known:
        return ""
    parts = listed([f"{range_ms(*hull)} {from_to(part.from_, part.to)}{where(entry, part)}"
                    for part, hull in known[:MAX_TIMES]])
    more = f", and in {len(known) - MAX_TIMES} other parts what audit.json has" if len(known) > MAX_TIMES else ""
    off = f" It was {off_times(entry)}, and so beyond the bound." if any(part.beyond for part in entry.parts) else ""
    is_spared = isinstance(entry.reason, Misfit) and entry.reason.count
    if_true = "if so many were wrong and what else the claim grants is true" if is_spared else \
        "if what the claim grants is true"
    return f" Its error (below 0 it was behind) lay within {parts}{more}, {if_true}.{off}"


MAX_TIMES = 4
"""Times that a sentence names."""


def why_nothing_fits(entry: Entry, cause: Misfit) -> str:
    """When the clock moved; else what conflicts, and with what more a course would fit."""
    groups = count(len(entry.claim.grouped), "group")
    if entry.moves:
        more = f" That takes {cause.count} wrong of {groups}, more than the claim grants, unless it moved once more." \
            if cause.count else ""
        return f"The clock was {moves_of(entry)}.{more}{in_parts(entry)}"
    wrong = f" (with {cause.count} wrong of {groups} a course of events would fit)" if cause.count else ""
    faster = f" (with a drift of {cause.drift_ppb:,} parts in 10^9 one would fit)" if cause.drift_ppb else ""
    among = f", {listed(cause.apart)} among them" if cause.apart else ""
    return (f"More servers were wrong than the claim grants{among}{wrong}, or the clock was stepped or moved "
            f"faster{faster}.{in_camps(cause)}{first_conflict(entry, cause)}")


def moves_of(entry: Entry) -> str:
    return listed(list(map(moved, entry.moves)))


def moved(move: Move) -> str:
    """What a move is taken for, between which records, in the order in which they were made, and by how much."""
    how = "stepped" if move.is_step else f"stepped, or moved at {move.rate_ppb // 1000:,} ppm or more,"
    before, after = move.after // SECOND, -(-move.by // SECOND)
    return f"{how} {between(before, after)} by {range_ms(move.low, move.high)}"


def in_camps(cause: Misfit) -> str:
    """Which servers agree with which, for the longest time, and what they say then."""
    if not cause.camps:
        return ""
    said = [f"{listed(camp.servers)} {'says' if len(camp.servers) == 1 else 'say'} {range_ms(camp.low, camp.high)}"
            for camp in cause.camps]
    return f" {capital(from_to(cause.camps[0].from_, cause.camps[0].to))} {listed(said)}."


def first_conflict(entry: Entry, cause: Misfit) -> str:
    """The first conflict in time, or of those about that time the steepest, with its figures, and how fast the clock
    would have had to move."""
    if not cause.conflicts:
        return ""
    end = min(max(one.asked, one.answered) for one in cause.conflicts)
    one = max((one for one in cause.conflicts if min(one.asked, one.answered) <= end),
              key=lambda one: (one.least - one.most) / (abs(one.asked - one.answered) or 1))
    low = f"by {one.low} the error was at least {low_ms(one.least)} ms at {shown_time(one.asked // SECOND)}"
    high = f"by {one.high} at most {high_ms(one.most)} ms at {shown_time(one.answered // SECOND)}"
    within, moved = abs(one.asked - one.answered), (one.least - one.most) * SECOND // TICKS
    rate = f": that takes {moved * 1_000_000 // within:,} ppm, and {entry.claim.drift_ppb // 1000:,} are granted" \
        if within and moved > 0 else ""
    return f" The first conflict: {low}, and {high}{rate}."


def longest(gaps: list[Silence]) -> Silence:
    return max(gaps, key=lambda gap: gap.by - gap.after)


def in_short(entry: Entry) -> str:
    """The cause in few words, for a line; nothing if the figures say it."""
    cause = entry.reason
    if not cause or entry.verdict == UNSUPPORTED:
        return ""
    if entry.verdict == NOTHING_FITS and entry.moves:
        return moves_of(entry)
    if cause == OFF:
        return off_times(entry)
    if isinstance(cause, Gaps):
        more, gap = f", and {cause.count - 1:,} more times" if cause.count > 1 else "", longest(cause.gaps)
        what = "no reply of use" if gap.replies else "no server heard"
        return f"{what} {from_to(*inward(gap.after, gap.by))} UTC{more}"
    if isinstance(cause, Misfit) and cause.apart:
        return f"{listed(cause.apart)} wrong, or the clock stepped or moved faster"
    if isinstance(cause, Silent):
        mode = next((warning.servers for warning in entry.warnings if warning.kind == "interleaved"), None)
        return f"{listed(mode)} in interleaved mode" if mode else why_no_evidence(entry, cause).rstrip(".")
    return SHORT.get(cause.why, "")


SHORT = {"drift": "stepped, or too little drift granted",
         "many": "more servers wrong than granted, or the clock stepped or moved faster",
         "unbounded": "too few servers have a sample", "beside": "no packet within the span"}


def to_do(entry: Entry) -> str:
    """What to do about it."""
    cause = entry.reason
    if not cause:
        return ""
    if entry.verdict == UNSUPPORTED:
        return " ".join(alerts.TO_DO[warning.kind] for warning in entry.warnings if warning.kind in AGAINST)
    if mode := next((warning for warning in entry.warnings if warning.kind == "interleaved"), None):
        if cause.why == "silent":
            return f"{capital(alerts.without_xleave(mode))}."
    does_help = entry.least_ns is not None and cause.why in ("exceeds", "tick")
    least = f"A bound of {ns_up_ms(entry.least_ns or 0)} ms is the least that a certificate of pieces carries. " \
        if does_help else ""
    if entry.verdict == NOTHING_FITS and entry.moves:
        return after_moves(entry)
    if cause.why == "silent" and not entry.counts.get("requests"):
        return NOT_ASKED
    gap = longest(cause.gaps) if isinstance(cause, Gaps) and cause.gaps else None
    return least + TO_DO[cause.why].format(journal=journal(gap.after, gap.by) if gap else "")


TIGHTER = "For a tighter one ask nearer servers, more of them, or more often; or grant less drift, if that is true."
MEND = "Mend the clock, on the machine itself: `chronyc tracking` says how far off chronyd takes it to be, and " \
    "`chronyc -n sources -v` which servers it follows."
NOT_ASKED = "See whether the claim names the right client and servers, and whether this is that machine's capture: " \
    "`ntpaudit-dossier draft *.pcap` names those that are in it."
TO_DO = {
    "unbounded": "Name more servers, put fewer of them together, or grant fewer wrong ones. The counts tell what "
                 "became of their replies.",
    "silent": "See whether the servers answer: the counts tell what became of their replies. Name more servers, put "
              "fewer of them together, or grant fewer wrong ones.",
    "beside": "See whether machine, recorder and network were on, whether the claim's times are local ones, and "
              "whether this is the day's capture.",
    "off": f"{MEND} See in the picture how it went.",
    "gap": "See what was off then, the machine, its recorder, the network, or all servers: {journal}. Claim the times "
           "before and after by themselves, since no other evidence of these times will come.",
    "tick": TIGHTER,
    "exceeds": TIGHTER,
    "apart": "See in the warnings when servers were apart, and in the client's log whether the clock was stepped then. "
             "Leave them out of the claim, or grant that they were wrong (`false_max`) and name more servers. Those "
             "that follow one another belong into one group.",
    "drift": "Grant as much as the oscillator and the client's corrections can make: `ntpaudit-dossier draft "
             "--chrony` or `--ntpd` reads them of the client's configuration.",
    "many": "See in the conflicts which servers are in most, and when; and in the client's log whether the clock was "
            "stepped then. Grant that servers were wrong (`false_max`) and name more; or claim other times.",
}


def after_moves(entry: Entry) -> str:
    """Who moved the clock, and what mends it if that left it off; and what may be claimed by itself."""
    times = [time for move in entry.moves for time in move.around]
    mend = f" At the end it was beyond the bound. {MEND}" if entry.ends_off else ""
    spans = [f'`"from": "{civil(first)}", "to": "{civil(last)}"`' for first, last in claimable(entry)]
    claims = (f" Claim a part of it by itself, in a folder of its own with a copy of the capture: "
              f"{listed(spans[:MAX_TIMES])} in its {CLAIM}." if spans else "")
    drift = "" if all(move.is_step for move in entry.moves) else \
        " Or grant as much drift as the client may make (`ntpaudit-dossier draft --chrony`)."
    leap = leap_near(entry)
    return (f"{leap}See who moved it: {journal(min(times), max(times))} (chronyd says `System clock was stepped`)."
            f"{mend}{claims}{drift}")


def claimable(entry: Entry) -> list[tuple[int, int]]:
    """The readings that were shown between two moves, and surely not before or behind these."""
    spans, is_spared = list[tuple[int, int]](), isinstance(entry.reason, Misfit) and entry.reason.count
    for own in entry.parts if all(move.until and move.since for move in entry.moves) and not is_spared else ():
        others = [part for part in entry.parts if part.moves != own.moves]
        first = max([own.from_, *(move.since for move in entry.moves[: own.moves][-1:])])
        last = min([own.to, *(move.until for move in entry.moves[own.moves :][:1])])
        if first < last and not any(part.from_ <= last and first <= part.to for part in others):
            spans.append((first, last))
    return spans


def leap_near(entry: Entry) -> str:
    """That a leap second was there, if the clock was moved at it by about a second."""
    for end, sign in entry.leap.seconds:
        for move in entry.moves:
            first, last = move.around
            if first - NEAR_LEAP <= end * SECOND <= last + NEAR_LEAP and \
                    sign * move.low <= TICKS * 5 // 4 and TICKS * 3 // 4 <= sign * move.high:
                return f"That is {named([(end, sign)])}. "
    return ""


NEAR_LEAP = 120 * SECOND
"""How far from a leap second a step of a second may be that is taken for it."""


def journal(before: int, after: int) -> str:
    """The command that shows what the machine logged between two times."""
    since, until = map(shown_time, outward(before, after))
    return f'`journalctl --since "{since} UTC" --until "{until} UTC"`'


def warned(entry: Entry) -> list[str]:
    """The warnings, but those that the reason tells."""
    against = AGAINST if entry.verdict == UNSUPPORTED else ()
    apart = set(entry.reason.apart) if isinstance(entry.reason, Misfit) else set[str]()
    told = [warning for warning in entry.warnings if warning.kind not in against
            and not (warning.kind == "apart" and set(warning.servers) <= apart)]
    return presumed(entry) + [f"{UNLESS_MOVED if apart and 'apart' in warning.kind else ''}{warning_words(warning)}"
                              for warning in told]


UNLESS_MOVED = "Unless the clock was stepped or moved faster, "


def presumed(entry: Entry) -> list[str]:
    """What an answer presumes that is by one stretch of a capture that breaks."""
    if entry.verdict == NOTHING_FITS or not entry.moves:
        return []
    number = "once" if len(entry.moves) == 1 else f"{len(entry.moves)} times"
    return [f"This presumes that the clock was {moves_of(entry)}, just {number}: then no reading of the span was shown "
            "but between these moves, and only what was recorded there counts. See in the client's log that it was so."]


def fit(entry: Entry) -> str:
    """What stands beside a yes: that it isn't empty."""
    if entry.answer != YES:
        return ""
    if not entry.refutation:
        return "The yes isn't empty: the program says it only if a course of events fits the capture."
    return (f"The yes isn't empty: a course of events fits the capture, {course_of(entry)} ({REFUTATION}, by `settle` "
            "with the bound 0; `refute --drift` checks it).")


def course_of(entry: Entry) -> str:
    """The course of events of a refutation, with its error rounded towards zero."""
    refutation = entry.refutation
    if not refutation:
        return ""
    text = high_ms(refutation.error) if refutation.error < 0 else low_ms(refutation.error)
    error = "under 0.001 ms" if text.strip("-") == "0.000" else f"{text} ms"
    wrong = ", ".join(entry.claim.servers[number] for number in refutation.false) or "no server"
    return f"with an error of {error} at {shown_time(refutation.reading // TICKS)} and {wrong} wrong"


def refusal_of(folder: str, line: str, verdict: str = REFUSED) -> str:
    """One line for a terminal, of a folder without a verdict."""
    return f"{verdict:14}{label(folder)}: {plain(line).replace('`', '')}"


def line_of(folder: str, entry: Entry) -> str:
    """One line for a terminal: the verdict, the folder, and the figures."""
    name = label(folder) + ("" if entry.part == "." else f" {entry.part}")
    return f"{entry.verdict:14}{name}: {'; '.join(filter(None, [figures(entry), in_short(entry)]))}{against(entry)}"


def against(entry: Entry) -> str:
    """What takes a yes away, if anything does."""
    if entry.verdict != UNSUPPORTED:
        return ""
    return f" ({'; '.join(AGAINST[warning.kind] for warning in entry.warnings if warning.kind in AGAINST)})"


def figures(entry: Entry) -> str:
    """The bounds: the least one, unless the claim is shown by covers."""
    claimed = f"claimed {ns_ms(entry.claim.bound_ns)} ms"
    if entry.least_ns is None:
        return f"shown by covers, {claimed}" if entry.verdict in (YES, UNSUPPORTED) else ""
    return "" if entry.verdict == NO_EVIDENCE else f"least bound {ns_up_ms(entry.least_ns)} ms, {claimed}"
