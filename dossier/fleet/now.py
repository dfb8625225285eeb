"""The last minutes of what recorders are writing: is the clock within its bound now?

It is asked as an audit asks it, of the minutes that are named, part by part: if the clock was stepped, of what was
recorded since. What was recorded in two minutes before speaks about them too. Nothing is left but metrics.
"""
import os
import shutil
import sys
import time
from contextlib import suppress
from functools import partial
from itertools import islice
from typing import NamedTuple

from ..capture.classic import HEADER, Classic, write
from ..capture.latest import Latest, latest
from ..capture.recorder import begun_files
from ..capture.watch import LOOK, State, read_state, since_boot
from ..fault import NOT_SHOWN, REFUSED as INPUT_REFUSED, Fault
from ..folder.answers import Settled, read_envelope, read_settled
from ..folder.claim import Claim
from ..folder.entry import NO_EVIDENCE, NOTHING_FITS, OF_LEAPS, REFUSED, UNSUPPORTED, YES, LeapList, Refusal
from ..folder.files import CLAIM, Folder, data_named
from ..folder.jobs import answer, run_all
from ..folder.placing import keep
from ..folder.program import Program
from ..folder.result import Heard, Moment
from ..premise.leap import alerts_of, look_up
from ..records import replace
from ..schema import read_typed
from ..text import note, plain
from ..units import SECOND, ceil_div, civil, span_of_seconds
from ..verdict.judgement import piece_of
from ..verdict.parts import spoken
from ..verdict.seen import camps_at
from .band import Band, line_of, metrics_of
from .hearing import Hearing
from .metrics import write_metrics

MINUTE, HOUR = 60, 60
"""Seconds; and minutes of the band."""
MARGIN = 128
"""Seconds before the minutes that are named whose records speak about them too."""
MAX_PIECES = 10_000
MAX_SECONDS = 60
"""Seconds for the minutes of a recorder, and for each hour of them."""
SINCE, CUT = "since.pcap", "last.pcap"
"""Private files: parts of what was recorded."""
SECOND_OF_STAMPS = 1 << 32
SILENT = 60
"""Seconds of silence, at the least, that are more than chance: or two polls."""


class NowCall(NamedTuple):
    source: str
    claim: str
    minutes: int
    leaps: LeapList
    program: Program


def show_now(wanted: NowCall, metrics: str | None) -> int:
    """Prints a line for each recorder, the worst first, and writes metrics. The status is 1 if any clock isn't shown,
    or a fault's."""
    looks = moments(wanted)
    tell_bad(looks)
    for moment in looks:
        print(line_of(moment), flush=True)
    return max(status_of(looks), write_metrics(metrics, [one for each in looks for one in metrics_of(each)])
               if metrics else 0)


def tell_bad(looks: list[Moment]) -> None:
    for moment in looks:
        for line in moment.bad:
            note(line)


def status_of(looks: list[Moment]) -> int:
    """1 if any clock isn't shown, else 2 if a file was refused."""
    is_shown = all(moment.is_shown for moment in looks)
    return INPUT_REFUSED * any(moment.bad for moment in looks) if is_shown else NOT_SHOWN


def follow(wanted: NowCall, metrics: str | None, seconds: int, has_colour: bool) -> int:
    """Does so again and again until it is broken off: a line each time; on a terminal always the same lines, and below
    them a band of the last hour, of the worst recorder."""
    screen = Band(sys.stdout.isatty(), has_colour and not os.environ.get("NO_COLOR"))
    number, status = 0, 0
    try:
        if screen.is_shown:
            with suppress(Fault):
                screen.add(moments(wanted._replace(minutes=HOUR)))
        while True:
            at = time.monotonic()
            try:
                looks = moments(wanted)
                status = status_of(looks)
                tell_bad(looks)
                screen.show(looks, shutil.get_terminal_size().columns)
                if metrics:
                    write_metrics(metrics, [one for each in looks for one in metrics_of(each)])
            except Fault as wrong:
                status = wrong.status
                note(wrong.line)
            number += 1
            time.sleep(max(0.0, at + seconds - time.monotonic()))
    except KeyboardInterrupt:
        if screen.is_shown:
            print()
        print(f"ended after {number} looks, the last with status {status}", flush=True)
        return status


def moments(wanted: NowCall) -> list[Moment]:
    """What the last minutes of each recorder say, the worst first. Each is looked at in a process of its own, side by
    side: none holds up the others, or blinds them."""
    told = {moment.recorder: moment for moment in answer(lambda *_: recorders(wanted), list[Moment])}
    jobs = min(len(told), len(os.sched_getaffinity(0)))
    looks, most = [], MAX_SECONDS * ceil_div(wanted.minutes, HOUR)
    for recorder, result in run_all(list(told), partial(look, wanted), Moment, most, jobs):
        looks.append(replace(told[recorder], verdict=REFUSED, bad=[plain(result.line)])
                     if isinstance(result, Refusal) else result)
    return sorted(looks, key=lambda moment: moment.badness)


def claim_of(wanted: NowCall) -> Claim:
    claim: Claim = read_typed(os.path.basename(wanted.claim), Claim, data_named(wanted.claim))
    return claim


def recorders(wanted: NowCall) -> list[Moment]:
    """Of each recorder that nothing is known of it yet; of none, that there is none."""
    claim = claim_of(wanted)
    with Folder(wanted.source) as folder:
        names = sorted({one.before.removesuffix("-") for one in begun_files(folder)})
    end, groups = int(time.time()), len(claim.grouped)
    return [Moment(name, end - MINUTE * wanted.minutes, end, NO_EVIDENCE, claim.bound_ns, groups,
                   claim.needed) for name in names or [""]]


def look(wanted: NowCall, recorder: str, _: int) -> Moment:
    """What the last minutes of a recorder say. Files that can't be read are left out and named."""
    claim, bad, now, end = claim_of(wanted), list[str](), int(since_boot()), int(time.time())
    with Folder(wanted.source) as folder:
        files = [one for one in begun_files(folder) if one.before.removesuffix("-") == recorder]
        state = read_state(folder, recorder)
        runs = state is not None and state.runs
        span = MINUTE * wanted.minutes
        newest = latest(folder, files, state.files if state and runs else [], span + MARGIN, end, bad)
    moment = Moment(recorder, end - span, end, NO_EVIDENCE, claim.bound_ns, len(claim.grouped),
                    claim.needed, newest.last, age_of(state, runs, newest, now, end), newest.ahead,
                    troubles=[] if state is None else state.troubles if runs else ["dead"],
                    lost=state.lost if state else 0, left_out=state.left_out if state else 0)
    kept = sys.maxsize if state is None else state.kept * runs
    if newest.last and kept:  # (what was recorded before a recorder that has nothing yet may be older than a boot)
        moment = told_of(wanted, claim, newest, moment, kept)
    return replace(moment, bad=list(map(plain, dict.fromkeys(bad))))


def age_of(state: State | None, runs: bool, newest: Latest, now: int, end: int) -> int | None:
    """Seconds since the last record was made: by the recorder's word, or by the machine's clock; the more of both if it
    doesn't run, since the machine may have been begun again."""
    by_clock = max(0, end - newest.last) if newest.last else None
    if state and 0 < state.last <= now:
        return max(now - state.last, 0 if runs else by_clock or 0)
    return by_clock


def told_of(wanted: NowCall, claim: Claim, newest: Latest, moment: Moment, kept: int) -> Moment:
    """What the program says of the last minutes, of which there are records. The recorder that runs has kept so many.
    Fewer groups than it takes to see a step, but more than may be wrong, say how the clock is now, and no more."""
    whole = Classic(newest.path)
    own = replace(claim, from_=civil(newest.last), to=civil(newest.last))
    keep(CLAIM, own.text)
    hearing = Hearing(wanted.program, own, whole, newest.path)
    limit, begun = max(SILENT, 2 * hearing.poll), len(whole.extent.stamps) - kept
    if max(moment.age or 0, moment.end - newest.last) > limit:  # (its word may be another's)
        return moment
    silent = set(filter(hearing.is_silent, own.servers))
    heard = (server for server in own.servers if server not in silent and hearing.requests[server] >= begun)
    moment = replace(moment, heard=len(hearing.groups(heard)))

    def since(number: int) -> tuple[int, bool]:
        """Since when so many groups were asked and heard; and whether that is lately, and since the clock fell back."""
        at = hearing.asked(number)
        second, gone = whole.extent.stamps[max(0, at)] >> 32, hearing.gone[-1] - hearing.gone[at]
        is_late = max((moment.age or 0) - LOOK + gone, moment.end - second) > limit  # (a word may be a look old)
        return second, at >= max(0, begun, fell_at(whole)) and not is_late

    end, is_now = since(min(claim.needed, len(claim.grouped)))
    if is_now:
        return minutes(wanted, hearing, moment, end, silent)
    few = replace(moment, since=end, servers=[Heard(server, server in silent) for server in own.servers])
    end, is_now = since(claim.false_max + 1)
    some = minutes(wanted, hearing, moment, end, silent) if is_now else few
    return few if some.now is None else replace(few, pieces=[] if some.beyond else some.pieces[-1:], beyond=some.beyond)


def minutes(wanted: NowCall, hearing: Hearing, moment: Moment, end: int, silent: set[str]) -> Moment:
    """What the program says of the minutes down to a second."""
    program, whole, span = wanted.program, hearing.whole, MINUTE * wanted.minutes
    fell = fell_at(whole)
    begin = min(end, max(end - span, min(whole.extent.stamps[fell:]) >> 32))
    own = replace(hearing.claim, from_=civil(begin), to=civil(end))
    said = spoken(program, own, whole.path, whole.extent)
    settled, capture, before = read_settled(said.settled), said.capture, ""
    if said.moves:
        begin, capture = ceil_div(said.moves[-1].by, SECOND), f"stretch-{len(said.moves)}.pcap"
        end = end if begin <= end else max(begin, hearing.claim.last)
        own = replace(own, from_=civil(max(own.first, begin)), to=civil(end))
        settled = settle(program, own, capture)
    elif fell:  # (what was shown before may be the same readings)
        capture, before = cut(whole, fell, len(whole.extent.stamps), SINCE), "the times of records fall back"
        settled = settle(program, own, capture)
    if settled.answer == NOTHING_FITS:
        settled, own, capture = fitting(program, own, settled, capture, 2 * hearing.poll)
        before = "nothing fits with what was before"
    keep(CLAIM, own.text)
    step, fits = 1 + span // MAX_PIECES, settled.answer != NOTHING_FITS
    words = ("envelope", CLAIM, capture, "--servers", "--least", "--step", str(step))
    envelope = read_envelope(program.run(*words).text)
    leaps = look_up(wanted.leaps, own.first, own.last)
    against = next((OF_LEAPS[alert.kind] for alert in alerts_of(leaps, wanted.leaps)), "")
    if moment.ahead:
        against = f"the clock was set back: records up to {span_of_seconds(moment.ahead)} ahead of it"
    camps = () if fits else camps_at(envelope, len(envelope.hulls) - 1)
    last = Hearing(program, own, Classic(capture), capture)
    return replace(
        moment, begin=own.first, end=own.last, against=against,
        servers=[last.heard(server, envelope, server in silent) for server in own.servers],
        verdict=UNSUPPORTED if settled.answer == YES and against else settled.answer,
        camps=[list(camp) for camp in camps] if len(camps) > 1 else [],
        moves=[move for move in said.moves if move.by > (own.last - span) * SECOND], before=before if fits else "",
        beyond=None if fits else hearing.beyond(silent), least_ns=envelope.least_ns if fits else None,
        pieces=[piece_of(envelope, k) for k in range(len(envelope.hulls))])


def settle(program: Program, claim: Claim, capture: str) -> Settled:
    keep(CLAIM, claim.text)
    return read_settled(program.run("settle", CLAIM, capture).text)


def fitting(program: Program, claim: Claim, settled: Settled, capture: str,
            least: float) -> tuple[Settled, Claim, str]:
    """Of minutes that nothing fits the last ones, if a course fits twice as many: what ended their fit lies as far
    before them as they are long. Else they stay as they are."""
    whole, length = Classic(capture), claim.last - claim.first
    times = [stamp >> 32 for stamp in whole.extent.stamps]
    while (length := length // 2) >= 2 * least:
        own = replace(claim, from_=civil(claim.last - length))
        first = next((k + 1 for k in range(len(times) - 1, -1, -1) if times[k] < own.first), 0)
        if first == len(times):
            break
        if settle(program, own, cut(whole, first, len(times), CUT)).answer != NOTHING_FITS:
            own = replace(claim, from_=civil(claim.last - length // 2))
            return settle(program, own, CUT), own, CUT
    return settled, claim, capture


def cut(whole: Classic, first: int, end: int, path: str) -> str:
    """Some records, in a private file that isn't theirs."""
    rows = list(islice(whole.rows(), first, end))
    write(path, [whole.data[:HEADER], whole.data[rows[0][1] : rows[-1][2]]])
    return path


def fell_at(whole: Classic) -> int:
    """The first record behind the last place where the clock fell back by a second; 0 if it never did."""
    stamps = whole.extent.stamps
    return next((k for k in range(len(stamps) - 1, 0, -1) if stamps[k] + SECOND_OF_STAMPS < stamps[k - 1]), 0)
