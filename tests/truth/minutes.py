"""Histories played minute by minute: what `now` says of each minute is held to what the clock showed, and an error
beyond the bound has to be told in time, and no longer than that.

usage: python3 -m tests.truth.minutes [--number N] [--seed K] [--set]
"""
import argparse
import json
import os
import random
import shutil
import sys
import tempfile
from collections import Counter
from collections.abc import Iterator
from copy import copy
from pathlib import Path
from types import SimpleNamespace
from typing import Any

from tests.support import program
from tests.truth import network
from tests.truth.clock import BILLION, FAST, SECOND, STEP, Event
from tests.truth.files import capture
from tests.truth.history import History, Trouble
from tests.truth.network import paired
from tests.truth.sight import hidden

sys.path[0:0] = [str(Path(__file__).resolve().parents[2])]

MINUTES, LATE = 25, 240 * SECOND
"""How long a history is, and nanoseconds after which somebody is told, or told no longer."""
TICKS = 1 << 32


class Played(History):
    """Half an hour of a clock that is asked for each 16 s at most, with up to two troubles."""

    def __init__(self, seed: int):
        rng = random.Random(f"minutes {seed}")
        poll = rng.choice((2, 4, 8, 16, 16, 16))
        super().__init__(seed, rng.randint(20_000, 20_500) * 86_400 * SECOND + rng.randrange(86_400) * SECOND, poll,
                         60 * MINUTES // poll, 4, rng.choice((0.02, 0.05, 0.1)))
        self.rng, self.ppb, self.amplitude = rng, rng.choice((50_000, 110_000, 200_000)), rng.choice((10**5, 10**6))
        self.recorders = [self.recorders[0]._replace(name="eth0-2001-01-01T000000Z.pcap")]
        kinds = {STEP: 6, "healed": 6, FAST: 2, network.OFF: 2, network.PART: 2, network.SILENT: 2, "outage": 1,
                 "lost": 1, "none": 1}
        for kind in rng.choices(list(kinds), list(kinds.values()), k=rng.choice((1, 1, 2))):
            self.draw(kind)
            self.kinds.append(kind)
        self.bound = rng.choice((2, 5, 20)) * 10**6 + 2 * self.width
        self.live()

    def draw(self, kind: str) -> None:
        rng, time = self.rng, self.begin + self.rng.randrange(4 * 60, 14 * 60) * SECOND
        size = int(10 ** rng.uniform(6.5, 12.5)) * rng.choice((-1, 1))
        while_ = rng.randrange(60, 8 * 60) * SECOND
        if kind in (STEP, "healed"):
            self.events.append(Event(STEP, time, time, size))
            if kind == "healed":
                self.events.append(Event(STEP, time + while_, time + while_, -size))
        elif kind == FAST:
            while_ = rng.randrange(5, 60) * SECOND
            self.events.append(Event(FAST, time, time + while_, rng.choice((-1, 1)) * while_ * rng.choice(
                (2_000_000, 20_000_000)) // BILLION))
        elif kind in (network.OFF, network.PART, network.SILENT):
            server = rng.choice(self.servers)
            server.kind, server.off = kind, int(10 ** rng.uniform(7, 10)) * rng.choice((-1, 1))
            if kind != network.OFF:
                server.begin, server.end = time, time + while_
        elif kind == "outage":
            self.outages.append((time, time + while_))
            self.troubles.append(Trouble(kind, time, time + while_))
        elif kind == "lost":
            self.lost = rng.uniform(0.05, 0.3)


WRONG = {"2099": 4_070_908_800, "1970": 10, "an hour back": -3600}
"""To which Unix seconds a clock is set, or by how many it is set back."""


class Set(Played):
    """A clock that is set, and right again after so long that `now` doesn't know of it any more."""

    def __init__(self, to: str):
        self.to = to
        super().__init__(3)
        self.kinds = [f"set to {to}"]

    def draw(self, kind: str) -> None:
        time, second = self.begin + 4 * 60 * SECOND, WRONG[self.to]
        size = second * SECOND if second < 0 else second * SECOND - time
        self.events = [Event(STEP, at, at, way * size) for at, way in ((time, 1), (time + 13 * 60 * SECOND, -1))]


class Player:
    """Plays a history, and notes what isn't so."""
    BEFORE = 12 * 60 * SECOND
    """How long before the minutes that are named what was recorded counts."""

    def __init__(self, history: Played, place: Path):
        from dossier.fleet import now
        from dossier.folder.placing import ROOM
        from dossier.folder.program import Program
        from dossier.folder.entry import LeapList, Made
        self.of, self.place, self.now, self.room, self.wrong = history, place, now, ROOM, list[str]()
        self.record, self.was_off = place / "rec", False
        self.record.mkdir()
        (place / "claim.json").write_text(json.dumps(history.claim))
        self.wanted = now.NowCall(str(self.record), str(place / "claim.json"), 10, LeapList("none", good_until=1 << 40),
                                  Program(program(), Made("", "")))
        self.data = capture(history, history.recorders[0])
        self.looks = self.unseen = 0

    def play(self) -> None:
        recorder, = self.of.recorders
        own, at, ends = self.of.files[recorder.name], 24, [24]
        while at < len(self.data):
            at += 16 + int.from_bytes(self.data[at + 8 : at + 12], "little")
            ends.append(at)
        path = self.record / recorder.name
        for time in range(self.of.begin + 3 * 60 * SECOND, self.of.end, 60 * SECOND):
            number = sum(packet.at < time for packet in own)
            machine = self.of.clock.reading(time)
            if not number or machine is None:
                continue
            path.write_bytes(self.data[: ends[number]])
            os.utime(path, ns=(own[number - 1].stamp, own[number - 1].stamp))
            if self.of.seed % 2:
                self.say(path.name, (time - own[number - 1].at) // SECOND, number)
            self.look(time, machine, own[:number])

    def say(self, name: str, age: int, kept: int) -> None:
        """Leaves the recorder's word, as it does itself."""
        from dossier.capture.watch import since_boot
        at = int(since_boot())
        (self.record / "eth0.recording").write_text(json.dumps({
            "kind": "recording", "at": at, "last": max(1, at - age), "files": [name], "kept": kept,
            "left_out": 0, "lost": 0}))

    def look(self, time: int, machine: int, seen: list[Any]) -> None:
        private = tempfile.mkdtemp(dir=self.place)
        os.chdir(private)
        self.room.left = 1 << 34
        stub = SimpleNamespace(time=lambda: machine / SECOND)
        self.now.__dict__["time"] = stub
        try:
            moment = self.now.look(self.wanted, "eth0", 0)
        finally:
            os.chdir(self.place)
            shutil.rmtree(private)
        from dossier.fleet.band import line_of
        self.looks += 1
        line = line_of(moment)
        untrue = [*self.untrue(moment, seen), *self.untrue_of_servers(moment, seen)]
        if untrue and self.is_unseen(seen):
            untrue, self.unseen = [], self.unseen + 1
        for words in [*untrue, *self.untold(time, moment)]:
            self.wrong.append(f"{words} | at {(time - self.of.begin) // SECOND} s | {line}")

    def untrue(self, moment: Any, seen: list[Any]) -> Iterator[str]:
        """What isn't so of the minutes that are named."""
        clock = self.of.clock
        near = range((moment.end - 2) * SECOND - 2 * self.of.poll, (moment.end + 1) * SECOND)
        last = next((packet.at for packet in reversed(seen) if packet.stamp in near), seen[-1].at)
        since, at = last - (moment.end - moment.begin + 1) * SECOND, {packet.stamp: packet.at for packet in seen}
        since = max([since, *(at[move.by] for move in moment.moves),  # (what holds since then, or now)
                     *(end for _, end in clock.breaks if moment.since and end <= last)])
        for piece in [*moment.pieces[:-1:7], *moment.pieces[-1:]] if moment.verdict != "nothing fits" else ():
            shown = clock.errors(piece.from_ * SECOND, piece.to * SECOND, since, last + 1)
            if shown and not isinstance(piece.hull, str):
                low, high = (end * SECOND / TICKS for end in piece.hull)
                if shown[0] < low - 2 or shown[1] > high + 2:
                    ends = f"{shown[0] / 1e6:.3f} .. {shown[1] / 1e6:.3f} ms"
                    yield f"the error was {ends} in {piece.from_} .. {piece.to}"
                    break
        if moment.beyond:
            low, high = (end * SECOND / TICKS for end in moment.beyond)
            errors = list(map(clock.error, range(seen[-1].at - 60 * SECOND, seen[-1].at + 1, SECOND // 10)))
            if not any(error is not None and low - 2 <= error <= high + 2 for error in errors):
                yield f"the error was {errors[-1]} when it was asked last"
        shown = clock.errors(moment.begin * SECOND, moment.end * SECOND, since, last + 1)
        if shown and moment.verdict == "yes" and max(-shown[0], shown[1]) > self.of.bound:
            yield f"a yes, and the error was {shown}"
        if shown and moment.least_ns is not None and max(-shown[0], shown[1]) > moment.least_ns:
            yield f"the least bound {moment.least_ns}, and the error was {shown}"
        if moment.before and not any(since - self.BEFORE < end and begin < seen[-1].at  # (all that was recorded counts)
                                     for begin, end in clock.breaks) and \
                sum(one.is_wrong(since) or one.is_wrong(last) for one in self.of.servers) <= self.of.false_max:
            yield "all fits with what was before"
        for move in moment.moves:
            held = [jump for jump in clock.breaks if at[move.after] <= jump[0] and jump[1] <= at[move.by]]
            changed = (clock.error(at[move.by]) or 0) - (clock.error(at[move.after]) or 0)
            if not held:
                yield "it didn't move then"
            elif not move.low * SECOND / TICKS - 2 <= changed <= move.high * SECOND / TICKS + 2:
                yield f"it moved by {changed / 1e6:.3f} ms"
            rates = [abs(one.size) * BILLION // (one.end - one.begin) for one in clock.fast
                     if at[move.after] <= one.begin and one.end <= at[move.by]]
            if rates and not any(begin == end for begin, end in held) and move.rate_ppb > max(rates) + self.of.ppb:
                yield f"it moved at {max(rates)} ppb"

    def is_unseen(self, seen: list[Any]) -> bool:
        """Whether what was recorded in these minutes would be the same without a step or a fast movement."""
        first, last = seen[-1].at - self.BEFORE, seen[-1].at
        breaks = [one for one in self.of.clock.breaks if first < one[1] and one[0] < last]
        own = copy(self.of)
        own.exchanges = paired([packet for packet in seen if packet.at > first])
        own.first, own.last, own.clock = first, last, SimpleNamespace(breaks=breaks)  # type: ignore
        return bool(hidden(own))

    def untrue_of_servers(self, moment: Any, seen: list[Any]) -> Iterator[str]:
        """What isn't so of the servers: which are silent, off, or contradict one another."""
        last, silent, heard = seen[-1].at, {one.address for one in moment.servers if one.is_silent}, 0
        right = {one.address for one in self.of.servers
                 if not one.is_wrong(last) and not one.is_wrong(last - self.BEFORE)}
        camps = [camp for camp in moment.camps if right & set(camp)]
        if len(moment.camps) == 1:
            yield "one camp doesn't contradict"
        if len(camps) > 1 and not any(last - self.BEFORE < end and begin < last
                                      for begin, end in self.of.clock.breaks):
            yield f"servers that are right contradict one another: {camps}"
        for server in moment.servers:
            own = next(one for one in self.of.servers if one.address == server.address)
            every = [packet for packet in seen if packet.is_reply and packet.server is own]
            is_heard = every and last - every[-1].at <= max(60 * SECOND, 2 * self.of.poll)
            heard += server.address not in silent
            if is_heard and server.is_silent:
                yield f"{server.address} was heard"
            if server.is_silent is False and (not every or last - every[-1].at > max(90 * SECOND, 4 * self.of.poll)):
                yield f"{server.address} wasn't heard"
            replies = [packet for packet in every if packet.stamp <= moment.end * SECOND]
            if server.error and replies:
                error = own.error(replies[-1].at)
                low, high = (end * SECOND / TICKS for end in server.error)
                if not low - own.distance - 2 <= error <= high + own.distance + 2:
                    ends = f"{low / 1e6:.3f} .. {high / 1e6:.3f}"
                    yield f"{server.address} was off by {error / 1e6:.3f} ms, not by {ends}"
                if server.is_apart and not own.is_wrong(replies[-1].at):
                    yield f"{server.address} was right"
        if moment.servers and (heard < moment.heard or heard > moment.heard and not moment.since):
            yield f"{heard} groups were heard"

    def untold(self, time: int, moment: Any) -> Iterator[str]:
        """An error beyond the bound for four minutes that isn't told, or one that is told and was over for as long."""
        if moment.off is not None:
            self.was_off = moment.off
        told = self.was_off
        before = [self.of.clock.error(at) for at in range(time - LATE, time + 1, 5 * SECOND)]
        errors = [abs(error) for error in before if error is not None]
        if any(begin < time and time - LATE < end for begin, end in self.of.outages):
            return
        if min(errors) > self.of.bound + self.of.width and not told:
            yield "nobody is told that it is off"
        if max(errors) <= self.of.bound and told:
            yield "somebody is told that it is off, and it isn't"
        ago = [time - event.begin for event in self.of.events if event.begin < time]
        if isinstance(self.of, Set) and ago and ago[-1] >= 60 * SECOND:
            if len(moment.moves) < (ago[-1] <= 2 * LATE) or moment.verdict == "refused" or \
                    ago[-1] <= 2 * LATE and moment.is_shown:
                yield "that the clock was set isn't said"


def main() -> int:
    parser = argparse.ArgumentParser()
    parser.add_argument("--number", type=int, default=20)
    parser.add_argument("--seed", type=int, default=0)
    parser.add_argument("--set", action="store_true", help="clocks that are set, instead of seeds")
    given = parser.parse_args()
    bad, looks, unseen, kinds = 0, 0, 0, Counter[str]()
    seeds = range(given.seed, given.seed + given.number)
    played: list[Played] = list(map(Set, WRONG)) if given.set else list(map(Played, seeds))
    for seed, history in enumerate(played, given.seed):
        with tempfile.TemporaryDirectory(prefix="ntpaudit-minutes-") as made:
            player = Player(history, Path(made))
            player.play()
            os.chdir("/")
        looks, unseen = looks + player.looks, unseen + player.unseen
        kinds.update(player.of.kinds)
        for words in player.wrong[:3]:
            print(f"{seed} {player.of.kinds} poll {player.of.poll // SECOND}: {words}", flush=True)
        bad += bool(player.wrong)
        print(f"{seed} {player.looks}", file=sys.stderr, flush=True)
    print(f"{len(played)} histories, {looks} looks ({unseen} with what can't be seen), {bad} with something untrue; "
          f"{dict(kinds)}")
    return int(bad > 0)


if __name__ == "__main__":
    sys.exit(main())
