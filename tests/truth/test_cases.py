"""Tests of cases: what is said of a history that was made by hand, besides that all of it is so."""
from collections.abc import Callable, Iterable
from functools import partial
from itertools import pairwise
from pathlib import Path

from tests.support import check, count
from tests.truth.clock import FAST, SECOND, STEP, Event
from tests.truth.files import Logs
from tests.truth.history import DAY, LEAP, History, Recorder
from tests.truth.network import OFF as WRONG
from tests.truth.trial import call, read, untrue

MIDNIGHT = 20_010 * DAY


def stepped(at: int, size: int, aim: int = 0, seed: int = 1, near: float = 0.3) -> History:
    """A clock that is stepped once; it is off before by `aim`, and four polls are recorded beside the span."""
    history = History(seed, MIDNIGHT - 4 * 64 * SECOND, near=near)
    history.first, history.last = MIDNIGHT, MIDNIGHT + 3000 * SECOND
    history.aim, history.events = aim, [Event(STEP, at, at, size)]
    return history


def off_for_a_time() -> History:
    """A clock that is stepped by 60 ms, and slews back until long before the end."""
    history = stepped(MIDNIGHT + 600 * SECOND, 60 * SECOND // 1000)
    history.ppb, history.bound, history.returns = 100_000, 40_000_000, True
    return history


def step_and_gap() -> History:
    history = stepped(MIDNIGHT + 600 * SECOND, -20 * SECOND // 1000, near=0.05)
    history.bound = 10_000_000
    history.recorders = [Recorder("eth0-0.pcap", history.begin, MIDNIGHT + 1500 * SECOND),
                         Recorder("eth0-1.pcap", MIDNIGHT + 2300 * SECOND, history.end)]
    return history


def fast() -> History:
    """14 ms within 20 s, 700 ppm, where 600 are granted."""
    history = History(1, MIDNIGHT, poll=16, number=100, near=0.05)
    history.ppb, history.bound, history.amplitude = 600_000, 20_000_000, 50_000
    history.events = [Event(FAST, MIDNIGHT + 700 * SECOND, MIDNIGHT + 720 * SECOND, 14 * SECOND // 1000)]
    return history


def two_camps() -> History:
    history = History(1, MIDNIGHT, near=0.05)
    for server in history.servers[2:]:
        server.kind, server.off = WRONG, 300 * SECOND // 1000
    return history


def nobody_answers() -> History:
    history = History(1, MIDNIGHT)
    history.bound, history.outages = 8_000_000, [(MIDNIGHT + 1000 * SECOND, MIDNIGHT + 2000 * SECOND)]
    return history


def hours_ahead() -> History:
    """It is ten hours ahead, recorded until it shows 22:55, shows the span unrecorded, and is set back at noon."""
    history = History(11, MIDNIGHT - DAY // 2, number=14 * 3600 // 64)
    history.aim, at = DAY * 10 // 24, MIDNIGHT - DAY // 2 + 8400 * SECOND
    history.events = [Event(STEP, at, at, -history.aim)]
    history.first, history.last = MIDNIGHT + 300 * SECOND, MIDNIGHT + 1800 * SECOND
    history.recorders = [Recorder("eth0-0.pcap", history.begin, history.begin + 3300 * SECOND),
                         Recorder("eth0-1.pcap", at + 10 * SECOND, history.end)]
    return history


def leap_not_inserted() -> History:
    history = History(1, LEAP - 1800 * SECOND)
    history.leap, at = LEAP, LEAP + 300 * SECOND
    history.events = [Event(STEP, LEAP, LEAP, SECOND), Event(STEP, at, at, -SECOND)]
    return history


def leap_between_polls() -> History:
    """It isn't inserted, and that is mended before anybody is asked; and later a step that is seen."""
    history = leap_not_inserted()
    history.events[1] = Event(STEP, LEAP + 5 * SECOND, LEAP + 5 * SECOND, -SECOND)
    history.events.append(Event(STEP, LEAP + 900 * SECOND, LEAP + 900 * SECOND, SECOND // 2))
    return history


def leap_in_no_record() -> History:
    """It isn't inserted, and that is mended before anybody is asked; the clock is ahead by 60 ms all the time."""
    history = leap_between_polls()
    history.events.pop()
    history.aim = 60 * SECOND // 1000
    return history


def ahead_while_nobody_answers() -> History:
    """For 40 s it is an hour ahead, and only its requests are recorded then."""
    history = History(1, MIDNIGHT, 16, 400, near=0.05)
    begin = MIDNIGHT + 1200 * SECOND
    history.events = [Event(STEP, begin, begin, 3600 * SECOND),
                      Event(STEP, begin + 40 * SECOND, begin + 40 * SECOND, -3600 * SECOND)]
    history.outages = [(begin - SECOND, begin + 41 * SECOND)]
    history.first, history.last, history.bound = MIDNIGHT, MIDNIGHT + 6400 * SECOND, 50_000_000
    history.recorders = [history.recorders[0]._replace(end=history.end)]
    return history


def off_in_one_of_two_recordings() -> History:
    """It is a second behind for eight minutes, which the smaller of two recordings has alone, though most of it stands
    in the larger one too, with stamps 3 us later: what one alone has counts."""
    poll = 16 * SECOND
    history = History(1, MIDNIGHT, 16, 230, near=0.05)
    step = MIDNIGHT + 30 * poll - 5 * SECOND
    history.aim, history.events = -SECOND, [Event(STEP, step, step, SECOND)]
    history.first, history.last, history.bound = MIDNIGHT, MIDNIGHT + 230 * poll, 120_000_000
    history.recorders = [Recorder("eth0.pcap", MIDNIGHT, MIDNIGHT + 130 * poll),
                         Recorder("bond0.pcap", MIDNIGHT + 30 * poll, MIDNIGHT + 230 * poll, above=3000)]
    return history


def off_where_all_is_twice(files: list[str], unit: int = SECOND) -> Callable[[], History]:
    """It is 0.9 s ahead for five minutes, where two interfaces or more were recorded, into files of these names."""
    def made() -> History:
        poll = 16 * SECOND
        history = History(len(set(files)), MIDNIGHT, 16, 200, near=0.05)
        begin, end = (MIDNIGHT + number * poll - 5 * SECOND for number in (85, 105))
        history.events = [Event(STEP, begin, begin, 9 * SECOND // 10), Event(STEP, end, end, -9 * SECOND // 10)]
        history.first, history.last, history.bound = MIDNIGHT, MIDNIGHT + 200 * poll, 120_000_000
        ends = (0, 110), (80, 200), *2 * [(84, 106)]
        history.recorders = [Recorder(name, MIDNIGHT + begin * poll, MIDNIGHT + end * poll, above=3000 * number)
                             for number, (name, (begin, end)) in enumerate(zip(files, ends))]
        history.unit = unit
        return history
    return made


def recorded_by_another() -> History:
    """It is 0.9 s ahead, and another machine, whose clock is right, has recorded the same and more: what two clocks
    have stamped is no yes, if the stamps of a packet differ by more than the bound."""
    history = History(1, MIDNIGHT, 16, 60, near=0.05)
    history.aim, history.bound = 9 * SECOND // 10, 120_000_000
    history.recorders = [Recorder("a.pcap", MIDNIGHT + 32 * SECOND, history.end),
                         Recorder("b.pcap", MIDNIGHT, history.end, ahead=-history.aim)]
    return history


def set_back_as_files_end(polls: int, files: int) -> Callable[[], History]:
    """It is an hour ahead while nobody answers, for so many polls, and set back as a recorder rotates: of two files the
    first has the later name; of three one begins as nobody answers, too; of four one has all, by another interface."""
    def made() -> History:
        history = History(files - 1, MIDNIGHT, 16, 400, near=0.05)
        begin = MIDNIGHT + 1200 * SECOND
        end = begin + polls * 16 * SECOND
        history.events = [Event(STEP, begin, begin, 3600 * SECOND), Event(STEP, end, end, -3600 * SECOND)]
        history.outages = [(begin - SECOND, end + SECOND)]
        history.first, history.last, history.bound = MIDNIGHT, MIDNIGHT + 6400 * SECOND, 150_000_000
        ends = [MIDNIGHT, begin + SECOND, end, history.end] if files > 2 else [MIDNIGHT, end, history.end]
        names = ("eth0-1.pcap", "eth0-0.pcap") if files == 2 else ("eth0-8.pcap", "eth0-9.pcap", "eth0-10.pcap")
        above = 3000 * (files == 4)
        history.recorders = [Recorder(name, *own, above=above) for name, own in zip(names, pairwise(ends))]
        history.recorders += [Recorder("all.pcap", MIDNIGHT, history.end)] * (files == 4)
        return history
    return made


BEFORE_MIDNIGHT = MIDNIGHT - 20 * SECOND, -60 * SECOND, 60 * SECOND
"""A clock that is 60 s ahead is set back by them."""
UNSEEN = MIDNIGHT + 1503 * SECOND, 4 * SECOND // 1000
"""A step by so little that no record shows it."""
CASES: dict[str, tuple[Callable[[], History], bool, set[str], list[str]]] = {
    "set back at midnight": (partial(stepped, *BEFORE_MIDNIGHT), False, {"nothing fits", "refuted"}, ["by -60"]),
    "set back at midnight, by the log too": (partial(stepped, *BEFORE_MIDNIGHT, seed=2), True,
                                             {"nothing fits", "refuted", "unsupported"}, []),
    "set back in the span": (partial(stepped, MIDNIGHT + 1500 * SECOND, -240 * SECOND), False, {"nothing fits"},
                             ["before the step", "behind the step"]),
    "off for a time": (off_for_a_time, False, {"nothing fits"}, ["stepped, or moved at", "and so beyond the bound"]),
    "set back behind the end": (partial(stepped, MIDNIGHT + 3000 * SECOND + SECOND // 2, -SECOND), False,
                                {"nothing fits", "refuted"}, ["by -1,0"]),
    "a step and a gap": (step_and_gap, False, {"nothing fits"}, ["by -2", "At the end it was beyond the bound"]),
    "14 ms in 20 s": (fast, False, {"nothing fits"}, ["that takes 69", "and 600 are granted"]),
    "two camps": (two_camps, False, {"nothing fits"}, ["10.9.1.1 and 10.9.1.2 say", "10.9.1.3 and 10.9.1.4 say"]),
    "nobody answers": (nobody_answers, False, {"refuted"}, ["nobody answered, of"]),
    "ten hours ahead on the day before": (hours_ahead, False, {"nothing fits"}, ["by -36,00"]),
    "no leap second": (leap_not_inserted, False, {"nothing fits"}, ["That is a leap second at the end of 2026-06-30"]),
    "a step by a log in local time": (partial(stepped, *UNSEEN, seed=32), True, {"unsupported"},
                                      ["journalctl --utc -o short-iso"]),
    "a step by busybox's log": (partial(stepped, *UNSEEN, seed=43), True, {"unsupported"},
                                ["logged a step of the clock"]),
    "a leap second in no record": (leap_in_no_record, False, {"refuted"}, ["to 23:59:58", "from 2026-07-01 00:0"]),
    "ahead while nobody answers": (ahead_while_nobody_answers, False, {"unsupported"}, ["fall back (1 time;"]),
    "off in what two recordings have": (off_where_all_is_twice(["a.pcap", "b.pcap"]), False, {"nothing fits"},
                                        ["packets were recorded once more, the first of them in a.pcap and b.pcap"]),
    "off in what one file has twice": (off_where_all_is_twice(["a.pcap", "a.pcap"], 10**6), False, {"nothing fits"},
                                       ["packets were recorded once more, the first of them in a.pcap, with"]),
    "off in what four recordings have": (off_where_all_is_twice(["a.pcap", "b.pcap", "c.pcap", "b.pcap"]), False,
                                         {"nothing fits"}, ["with stamps up to 0.009 ms apart"]),
    "set back as a file ends": (set_back_as_files_end(30, 2), False, {"unsupported"}, ["fall back (1 time;", "of 120"]),
    "set back beside another recording": (set_back_as_files_end(15, 4), False, {"unsupported"}, ["fall back (1 time;"]),
    "set back behind requests alone": (set_back_as_files_end(15, 3), False, {"unsupported"}, ["fall back (1 time;"]),
    "a leap second between polls": (leap_between_polls, False, {"nothing fits"}, ["to 23:59:57 before the step"]),
}
"""Of each case the history, whether there are logs, the verdicts that it may have, and words that are said."""


def test_two_recordings(place: Path) -> None:
    """What was recorded twice. (Of two clocks not all that is said is so: the verdict says why.)"""
    for name, made, verdict, said in (
            ("interfaces", off_in_one_of_two_recordings, "nothing fits", "each counts once"),
            ("clocks", recorded_by_another, "unsupported",
             "Stamps of one packet are up to 900.000 ms apart, which is beyond the bound")):
        one, = read({place / name: (made().live(), None)})
        check(f"two {name}", verdict=(one.view.verdict, verdict), said=(said in str(one.texts), True))


def test_falls_by_answers(place: Path) -> None:
    """By its answers alone, too, a folder whose records' times fall back is verified to be no yes."""
    read_one, = read({place / "web-1": (ahead_while_nobody_answers().live(), None)})
    said = call("verify", "--answers", place / "web-1", XDG_STATE_HOME=f"{place}/state",
                NTPAUDIT_LEAP_SECONDS=f"{place}/leaps")
    check("falls by answers", verdict=(read_one.view.verdict, "unsupported"),
          said=("verified: unsupported" in said, True))


def test_first_fall() -> None:
    """The first time that falls back is told, or the first by more than a second that no move explains."""
    from dossier.capture.recording import Recording
    from dossier.folder.entry import Move
    recording = Recording.__new__(Recording)
    small, far = (3, 10 * SECOND, 10 * SECOND - 1), (9, 90 * SECOND, 50 * SECOND)
    move = Move(90 * SECOND, 50 * SECOND, -40 << 32, -40 << 32, 0)
    other = Move(200 * SECOND, 210 * SECOND, 0, 0, 0)
    rows: list[tuple[list[tuple[int, int, int]], list[Move], object]] = [
        ([small, far], [], far), ([small], [], small), ([], [], None), ([small], [move], None),
        ([small, far], [move], None), ([small, far], [other], far)]
    for fallen, moves, wanted in rows:
        recording.fallen = fallen
        check(f"falls {fallen} beside {len(moves)} moves", told=(recording.fall(moves), wanted))


def wrong_in(names: Iterable[str], place: Path) -> dict[str, str]:
    """Of cases what is wrong with what is said of them: the verdict, what isn't so, and what isn't said."""
    histories, found = {}, dict[str, str]()
    for name in names:
        make, has_logs, _, _ = CASES[name]
        history = make().live()
        histories[place / f"case-{list(CASES).index(name)}"] = history, Logs(history) if has_logs else None
    for name, one in zip(names, read(histories)):
        _, _, verdicts, words = CASES[name]
        unsaid = [word for word in words if word not in " ".join(one.texts)]
        wrong = [*([] if one.view.verdict in verdicts else [f"the verdict {one.view.verdict}"]),
                 *([one.fault] if one.fault else untrue(one)), *(f"not said: {word}" for word in unsaid)]
        found[name] = "; ".join(wrong)
    return found


def test_cases(place: Path) -> None:
    for name, wrong in wrong_in(list(CASES), place).items():
        count(name, wrong)
