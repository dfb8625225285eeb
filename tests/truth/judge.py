"""The judge: what the sentences of sentences.txt claim of the history. Each claim gives what isn't so, or nothing. A
sentence of no form is a failure: a new one comes with its claim.
"""
from pathlib import Path
from typing import Any

from tests.truth.clock import SECOND
from tests.truth.forms import Form, When, form_of
from tests.truth.history import LEAP, civil
from tests.truth.sight import MARGIN, near, wrong_groups
from tests.truth.view import Range, View, clock_time

LEAP_DAY = civil(LEAP - SECOND)[:10]
MACROS = {
    "<granted>": r"(if at most \d+ of these \d+ (groups of )?servers (was|were) wrong|if its server was right|"
                 r"if none of these \d+ (groups of )?servers was wrong)",
    "<within>": "<when> UTC the clock of <server> was within <ms> of UTC",
}


def judged(view: View, text: str) -> list[str]:
    """What isn't so of a text: of its sentences the longest forms that it begins with, one after the other."""
    wrong, text = list[str](), text.strip()
    while text:
        found = [(read[0], name, read[1]) for name, form in FORMS if (read := form.read(text))]
        if not found:
            return [*wrong, f"unknown sentence: {text}"]
        end, name, values = max(found, key=lambda one: one[0])
        if name != "-" and (said := CLAIMS[name](view, *values)):
            wrong.append(f"{name}: {text[:end].strip()}\n        {said}")
        text = text[end:].lstrip()
    return wrong


def of_verdict(view: View) -> list[str]:
    """What isn't so of the entry's own verdict."""
    wrong = shown(view, When(*view.span), "", view.of.bound) if view.verdict == "yes" else ""
    return [f"shown: the verdict yes\n        {wrong}"] if wrong else []


def unless(is_so: object, wrong: str) -> str:
    return "" if is_so else wrong


# ---- verdicts


def shown(view: View, when: When, client: str, bound: int) -> str:
    """A yes: all errors of the span were within the bound, and no log in the folder speaks against it."""
    return view.within(when, -bound, bound) or view.logged_against()


def least(view: View, bound: int, *_: Any) -> str:
    return view.within(view.span, -bound, bound)


def figures(view: View, bound: int, *_: Any) -> str:
    return "" if view.is_void else view.within(view.span, -bound, bound)


def unsupported(view: View, *_: Any) -> str:
    return unless(view.logged_against(MARGIN) or view.is_leap_near() or not falls(view), "nothing of the evidence does")


def nothing_fits(view: View, *_: Any) -> str:
    return unless(view.has_broken, "no premise failed")


broken = nothing_fits


def no_evidence(view: View, *_: Any) -> str:
    return unless(not view.recorded(view.span), "there is evidence") and too_few(view)


def off_then(view: View, *values: Any) -> str:
    """When the clock was how far off: beyond the bound, as it was."""
    offs: list[tuple[Range, When]] = next(value for value in values if isinstance(value, list))
    view.sides.update(1 if errors[0] > 0 else -1 for errors, _ in offs)
    if any(-view.of.bound <= errors[0] <= errors[1] <= view.of.bound for errors, _ in offs):
        return "that is within the bound"
    return view.in_parts(offs, view.parts)


def mend(view: View) -> str:
    errors = [view.clock.error(one.sent_at) or 0 for one in view.of.exchanges]  # (the span may never have been shown)
    worst = max([view.worst, *(abs(error) for error in errors)])
    return unless(worst > view.of.bound, view.unless_unseen("it was never beyond the bound"))


# ---- steps and parts


def moved(view: View, moves: list[tuple[int, When, Range]], *_: int) -> str:
    known = view.entry.get("moves", [])
    return "; ".join(filter(None, (view.moved(one, rate, when, size) for (rate, when, size), one in
                                   zip(moves, known, strict=True))))


def presumes(view: View, moves: list[tuple[int, When, Range]], number: int = 1) -> str:
    return moved(view, moves) or view.unless_unseen(view.shown_beside())


def lay_within(view: View, ranges: list[tuple[Range, When]], more: int = 0) -> str:
    view.sides.update(1 if low > 0 else -1 for (low, high), _ in ranges if low > view.of.bound or high < -view.of.bound)
    return view.in_parts(ranges, view.parts if more else [])


def off_at_the_end(view: View) -> str:
    last = view.last_error()
    return unless(last is None or abs(last) > view.of.bound, view.unless_unseen(f"its last error was {last}"))


def see_who(view: View, since: int, until: int) -> str:
    """That the log of a time has the message of a step: it was stepped from a reading of it, or to one."""
    near = since - SECOND, until + SECOND
    are_wrong = len(wrong_groups(view.of, view.of.exchanges)) > view.of.false_max
    return unless(view.jumps(near) or view.fast(near) or are_wrong, f"the clock was stepped {view.steps}")


def claim_a_part(view: View, spans: list[When]) -> str:
    """That no reading of such a span was shown on two sides of a step."""
    twice = [clock_time(span.first) for span in spans if len(view.sides_of(span)) > 1]
    said = f"readings of {', '.join(twice)} and on were shown on two sides of a step"
    return view.unless_unseen(said if twice else "")


def is_leap(view: View, day: str) -> str:
    return unless(view.of.leap <= view.of.end and day == LEAP_DAY, "there was none")


def moved_somehow(view: View, *_: Any) -> str:
    return unless(view.clock.breaks or view.too_many_wrong, "the clock was right")


# ---- servers


def first_conflict(view: View, low: str, least: int, asked: int, high: str, most: int, answered: int, *_: int) -> str:
    return view.conflicting(low, least, asked, high, most, answered)


def conflict(view: View, low: str, asked: int, least: int, high: str, answered: int, most: int) -> str:
    return view.conflicting(low, least, asked, high, most, answered)


def camps(view: View, when: When, found: list[tuple[list[str], Range]]) -> str:
    """What camps of servers say of the error: so it was, if they were right; but it is said beside that the clock may
    have been stepped, and then it says nothing."""
    view.named.update(server for servers, _ in found for server in servers)
    for side in (1, -1):
        if all(min(side * end for end in errors) > view.of.bound for _, errors in found):
            view.sides.add(side)
    if not view.clock.breaks and (wrong := [own for own in found if not view.do_say(when, *own)]):
        return f"they don't say that: {wrong}"
    right = [errors for servers, errors in found if not any(map(view.is_ever_wrong, servers))]
    if view.clock.breaks:
        return ""
    return "; ".join(filter(None, (view.within(when, *errors) for errors in right))) if len(right) < 2 else \
        "servers of two camps were right"


def contradict(view: View, servers: list[str], *_: int) -> str:
    view.named.update(servers)
    return unless(view.has_broken or all(map(view.is_ever_wrong, servers)), "a right server doesn't")


def apart(view: View, servers: list[str], *_: int) -> str:
    """That servers were wrong all the time."""
    view.named.update(servers)
    right = [server for server in servers if not view.is_always_wrong(server)]
    return view.unless_unseen(f"{', '.join(right)} was right for a time" if right else "")


def apart_then(view: View, servers: list[str], when: When, *_: int) -> str:
    view.named.update(servers)
    right = [server for server in servers if not view.is_wrong_in(server, when)]
    return view.unless_unseen(f"{', '.join(right)} was right then" if right else "")


def wrong_or_moved(view: View, servers: list[str], *_: int) -> str:
    view.named.update(servers)
    right = [server for server in servers if not view.is_ever_wrong(server)]
    return f"{', '.join(right)} was right" if right and not view.too_many_wrong and not view.clock.breaks else ""


def apart_unless_moved(view: View, servers: list[str], when: When, *_: int) -> str:
    wrong = apart_then(view, servers, when)
    return wrong if not view.clock.breaks else ""


def was_wrong(view: View, servers: list[str]) -> str:
    view.named.update(servers)
    right = [server for server in servers if not view.is_wrong_in(server, (0, 1 << 62))]
    return view.unless_unseen(f"{', '.join(right)} was right" if right else "")


def caught(view: View, server: str, *_: Any) -> str:
    return was_wrong(view, [server])


def some_wrong(view: View, servers: list[str]) -> str:
    view.named.update(servers)
    return view.unless_unseen("" if any(view.is_wrong_in(server, (0, 1 << 62)) for server in servers)
                              else "all of them were right")


def by_a_server(view: View, server: str, errors: Range) -> str:
    """The clock's error by a server: of one that was always right all errors lie in it, where a course fits."""
    if errors[0] > errors[1]:
        return "no error lies in it"
    if view.is_ever_wrong(server):
        return ""
    if view.entry.get("moves"):
        return view.in_parts([(errors, when) for _, when in view.parts], [])
    return view.within(view.span, *errors)


def no_sample(view: View, server: str) -> str:
    own = any(one.server.address == server for one in view.counting)
    return unless(view.is_mistaken or not own, "it has one")


# ---- what was recorded


def silent(view: View, when: When, length: int, *counts: int) -> str:
    view.silences.append(when)
    return view.silent_in(when, counts)


def unheard(view: View, when: When, *_: int) -> str:
    view.silences.append(when)
    return unless(not view.recorded(when, replies=True), "replies were recorded then")


def useless(view: View, when: When, *_: int) -> str:
    view.silences.append(when)
    return view.silent_in(when, (1, 1))


def outside(view: View, *_: Any) -> str:
    first, last = near(view.of)
    stamps = [packet.stamp for packet in view.packets if first <= packet.stamp <= last]  # (these count)
    is_inside = stamps and stamps[0] <= view.span[0] and view.span[1] <= stamps[-1]
    return unless(not is_inside or view.entry.get("moves"), "what counts holds it")


def falls(view: View, *_: Any) -> str:
    back = any(jump.after < jump.before for jump in view.clock.jumps)
    return unless(back or view.of.leap < view.of.end, "the clock never went back")


def torn(view: View, name: str, *_: Any) -> str:
    return unless(any(one.is_torn and one.name == name for one in view.of.recorders), "it is whole")


def twice(view: View, number: int, name: str, *rest: Any) -> str:
    beside, apart = (rest[0] if len(rest) > 1 else name), rest[-1]
    of = view.of.files
    if name != beside and not {one.nonce for one in of[name]} & {one.nonce for one in of[beside]}:
        return "they have no packet in common"
    most = max((abs(one.stamp - other.stamp) for one, other in view.doubles), default=0)
    copies = sum(map(len, of.values())) - len(view.of.recorded)  # (some of one stamp are left out before)
    return unless(len(view.doubles) <= number and (number <= copies or view.of.flood), f"{len(view.doubles)} are") or \
        unless(abs(apart - most) <= 2000, f"they are {most} ns apart")


def copied(view: View, others: str) -> str:
    return unless(not all(view.of.files.values()), "no other has it")


def picture(view: View, times: list[When], number: int, *rest: Any) -> str:
    if not isinstance(rest[0], tuple):
        return ""
    low, high = rest[0]
    return view.in_parts([((low, high), each) for each in times], [])


def beside(view: View, *_: Any) -> str:
    return unless(not view.recorded(view.span), "packets were recorded in it")


def nothing(view: View) -> str:
    return unless(not view.of.recorded, "packets were recorded")


def never(view: View, number: int) -> str:
    return unless(not any(packet.is_reply for packet in view.of.recorded), "replies were recorded")


def too_few(view: View, *_: int) -> str:
    return unless(view.is_mistaken or len(view.heard) <= view.of.false_max, f"{len(view.heard)} groups were heard")


def asks_others(view: View, *_: Any) -> str:
    return unless(view.is_mistaken or all(packet.is_reply for packet in view.of.recorded), "it asked")


# ---- evidence


def logged(view: View, *values: Any) -> str:
    time = next((value for value in values if isinstance(value, int) and value > LEAP // 10), 0)
    steps = view.logs.steps_at if view.logs else []
    return unless(any(abs(step - time) <= 2 * SECOND for step in steps) if time else steps, f"the logs have {steps}")


def no_zone(view: View) -> str:
    return unless(view.logs and not view.logs.has_zone, "it does")


def unlogged(view: View, when: When) -> str:
    return unless(not any(when.first <= time <= when.last for time in (view.logs.true_steps if view.logs else ())),
                  "it has one")


def logged_rate(view: View, rate: int = 0) -> str:
    return unless(view.logs and view.logs.rate >= max(rate - 1000, view.of.ppb), "no log has it")


def logged_offset(view: View, offset: int = 0) -> str:
    return unless(view.logs and view.logs.offset >= max(offset, view.of.bound) - 1000, "no log has it")


def of_the_log(view: View, files: str, *values: Any) -> str:
    steps = values[-1] if isinstance(values[-1], int) else 0
    own = len(view.logs.steps) if view.logs and "messages.log" in files else 0
    backs = len(view.logs.falls) if view.logs and "tracking.log" in files else 0
    return unless(own <= steps <= own + backs, f"it has {own} steps")


def drift(view: View, ppb: int = 0) -> str:
    return unless(view.logs and (view.logs.fast or ppb > view.of.ppb), "no log says so")


def unread(view: View, number: int, file: str) -> str:
    return unless(view.logs and view.logs.unread == number, "each line is of a known form")


def recorder(view: View, address: str) -> str:
    return unless(view.of.recorder and view.of.recorder != view.of.client, "it had")


def recorded_by(view: View, address: str, since: str) -> str:
    return unless(view.of.recorder == address, "another one")


def leap_second(view: View, day: str = LEAP_DAY) -> str:
    return unless(view.is_leap_near() and day == LEAP_DAY, "there was none")


def never_announced(view: View, number: int) -> str:
    return "no server announces one"


def no_leap(view: View, when: When, *_: Any) -> str:
    """That none was: it is shown as the second before it, once more."""
    return unless(not when.first <= LEAP <= when.last + SECOND, "there was one")


def has_leap(view: View, day: str, when: When, *_: Any) -> str:
    return unless(no_leap(view, when) and day == LEAP_DAY, "there was none")


def read_forms() -> list[tuple[str, Form]]:
    """The forms of sentences.txt, each with the name of its claim."""
    found = []
    for line in (Path(__file__).parent / "sentences.txt").read_text().splitlines():
        if line and line[0] != "#":
            name, _, template = line.partition(": ")
            for macro, words in MACROS.items():
                template = template.replace(macro, words)
            found.append((name, form_of(template)))
    return found


CLAIMS = {name: value for name, value in globals().items() if callable(value)}
FORMS = read_forms()
