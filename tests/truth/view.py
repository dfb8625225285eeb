"""What a judge asks a history: about its errors, its steps, its servers, and what was recorded of them."""
from collections.abc import Sequence
from functools import cached_property
from typing import Any

from tests.truth.clock import BILLION, SECOND, Jump, Stretch
from tests.truth.files import Logs
from tests.truth.forms import When
from tests.truth.history import CLIENT, LEAP, History, civil
from tests.truth.network import OFF, RIGHT, TICKS, Exchange, Packet
from tests.truth.sight import counted, near, unseen, wrong_groups

Range = tuple[int, int]


class View:
    """A history, with the logs that are beside the recording, and the entry of audit.json that is being judged."""

    def __init__(self, history: History, logs: Logs | None, entry: dict[str, Any]):
        self.of, self.logs, self.entry = history, logs, entry
        self.clock, self.span, self.text = history.clock, (history.first, history.last), ""
        self.named, self.sides, self.conflicts, self.silences = set[str](), set[int](), list[Range](), list[When]()
        """What was said so far: servers, sides on which the clock was beyond the bound, conflicts' true times, and when
        no server was heard."""

    @property
    def verdict(self) -> str:
        return str(self.entry["verdict"])

    @cached_property
    def excuse(self) -> str:
        """What of it can't be seen, by which a sentence with an `if` may be untrue."""
        return unseen(self.of, [jump.begin for jump in self.logs.steps] if self.logs else [])

    def unless_unseen(self, wrong: str) -> str:
        """Nothing if what went wrong can't be seen; if the answer says itself that the folder speaks against it; or if
        it says `if so many were wrong`, and more were, or none more than is granted."""
        spared = (self.entry.get("reason") or {}).get("count") if self.entry.get("moves") else 0
        if not wrong or self.verdict == "unsupported" and self.logged_against() or self.is_warned or \
                spared and not self.of.false_max < self.number_wrong <= spared or \
                self.verdict == "nothing fits" and self.most_agree:
            return ""
        return "" if self.excuse else wrong

    def errors(self, when: Range) -> Range | None:
        return self.clock.errors(*when)

    def within(self, when: Sequence[Any], low: int, high: int) -> str:
        """Wrong if the clock showed a reading of a time with an error outside of a range."""
        found = self.errors((when[0], when[1]))
        if found and not low <= found[0] <= found[1] <= high:
            return self.unless_unseen(f"its errors were {ms(found)}")
        return ""

    def jumps(self, when: Range) -> list[Jump]:
        """Those by which it left a reading of a time, or came to one."""
        first, last = when
        return [jump for jump in self.clock.jumps if first <= jump.before <= last or first <= jump.after <= last]

    def fast(self, when: Range) -> bool:
        """Whether it moved faster than is granted as it showed a reading of a time."""
        found = list(self.clock.shown(*when))
        return any(event.begin < piece.end and piece.begin < event.end for event in self.clock.fast for piece in found)

    def at(self, stamp: int) -> int | None:
        """The true time at which a record has this stamp."""
        return next((packet.at for packet in self.packets if packet.stamp // 1000 == stamp // 1000), None)

    def moved(self, move: dict[str, Any], rate: int, when: When, said: Range) -> str:
        """What isn't so of a move between two records: the clock has to be stepped between them, or moved so fast, and
        by so much."""
        begin, end = self.at(move["after"]), self.at(move["by"])
        around = move["after"] // SECOND * SECOND, -(-move["by"] // SECOND) * SECOND
        if begin is None or end is None or when[:2] != around:
            return "there are no such records"
        before, after = self.clock.error(begin), self.clock.error(end)
        jumps = [jump for jump in self.clock.jumps if begin <= jump.begin and jump.end <= end]
        fast = [event for event in self.clock.fast if begin < event.end and event.begin < end]
        is_fast = rate and any(abs(event.size) * 10**6 // (event.end - event.begin) + self.of.ppb // 1000 >= rate
                               for event in fast)
        if not jumps and not is_fast:
            wrong = f"the clock was stepped {self.steps}; fast {fast}"
        else:
            assert before is not None and after is not None
            wrong = "" if said[0] <= after - before <= said[1] else f"by {(after - before) / 10**6} ms"
        near = [one for one in self.of.exchanges if begin <= one.sent_at <= end]
        return "" if len(wrong_groups(self.of, counted(self.of) + near)) > self.of.false_max else wrong

    @cached_property
    def packets(self) -> list[Packet]:
        """What was recorded of its servers, in the order of stamps."""
        return sorted(self.of.recorded, key=lambda packet: packet.stamp)

    def recorded(self, when: Sequence[Any], replies: bool = False) -> int:
        """How many packets have a stamp inside a time."""
        return sum(when[0] < packet.stamp < when[1] and (packet.is_reply or not replies)
                   and not any(begin < packet.at < end for begin, end in self.moving) for packet in self.packets)

    def silent_in(self, when: Sequence[Any], counts: tuple[int, ...]) -> str:
        """What isn't so of a time in which no server was heard: of nothing, of so many requests, or of so many replies
        of no use to so many requests."""
        inside = [packet for packet in self.packets if when[0] < packet.stamp < when[1] and not any(
            begin < packet.at < end for begin, end in self.moving)]
        asked, replied = (sum(packet.is_reply is kind for packet in inside) for kind in (False, True))
        heard = [one for one in self.of.exchanges if when[0] < one.answered < when[1] and not any(
            begin < one.came_at < end for begin, end in self.moving)]
        if not counts:
            return f"{len(inside)} packets were recorded" if inside else ""
        if len(counts) == 1:
            between = self.between_replies(when)
            near = {packet for packet in self.packets if when[0] - SECOND <= packet.stamp <= when[1] + SECOND}
            asked = max(asked, sum(not self.is_answered(packet) for packet in between
                                   if not when[1] < packet.stamp <= when[1] + 2 * SECOND))
            more = sum(not packet.is_reply for packet in near | between)
            return "" if asked <= counts[0] <= more and not heard else f"{asked} to {more} requests, {replied} replies"
        return "a reply was of use" if heard else ""

    def between_replies(self, when: Sequence[Any]) -> set[Packet]:
        """What was recorded, with whatever stamps, from the last reply before a time to the first behind it, if it was
        requests alone."""
        before = max((one for one in self.packets if one.is_reply and one.stamp < when[0]), key=lambda one: one.stamp,
                     default=None)
        behind = next((one for one in self.packets if one.is_reply and one.stamp > when[1]), None)
        if not before or not behind or when[0] - before.stamp > 2 * SECOND or behind.stamp - when[1] > 2 * SECOND:
            return set()  # (it begins or ends with the span)
        first, last = near(self.of)
        own = {one for one in self.packets if before.at < one.at < behind.at and first <= one.stamp <= last}
        return own if not any(one.is_reply for one in own) else set()

    def is_answered(self, request: Packet) -> bool:
        return any(one.is_reply and one.nonce == request.nonce for one in self.packets)

    def sides_of(self, when: When) -> set[int]:
        """Behind how many jumps the clock showed readings of a time."""
        return {sum(jump.end <= piece.begin for jump in self.clock.jumps)
                for piece in self.clock.shown(when.first, when.last)}

    def shown_beside(self) -> str:
        """Whether readings of the span were shown on two sides of a step or a fast movement."""
        ends = sorted(end for own in self.clock.breaks for end in own)
        sides = [self.clock.errors(*self.span, begin, end) is not None
                 for begin, end in zip([-(1 << 62), *ends[1::2]], [*ends[::2], 1 << 62])]
        return "readings of the span were shown on more than one side" if sum(sides) > 1 else ""

    def is_always_wrong(self, address: str) -> bool:
        own = [one for one in counted(self.of) if one.server.address == address]
        own = [one for one in own if self.span[0] <= one.asked and one.answered <= self.span[1]] or own
        return bool(own) and all(one.server.is_wrong(one.sent_at) for one in own)

    def is_ever_wrong(self, address: str) -> bool:
        return any(one.server.is_wrong(one.sent_at) for one in counted(self.of) if one.server.address == address)

    @cached_property
    def number_wrong(self) -> int:
        return len(wrong_groups(self.of, counted(self.of)))

    @property
    def too_many_wrong(self) -> bool:
        return self.number_wrong > self.of.false_max

    @property
    def is_warned(self) -> bool:
        """Whether it is said beside a no that a log has a step that isn't presumed."""
        kinds = {one["kind"] for one in self.entry.get("warnings", [])}
        return self.verdict != "yes" and bool(kinds & {"logged", "step"})

    @cached_property
    def most_agree(self) -> bool:
        """Whether half of the groups or more were wrong by the same: nobody can see that."""
        group = {self.of.servers[k].address: number for number, own in enumerate(self.of.groups) for k in own}
        for one in counted(self.of):
            server, time = one.server, one.sent_at
            agree = {group[other.address] for other in self.of.servers if other.is_wrong(time) and
                     abs(other.error(time) - server.error(time)) <= other.distance + server.distance}
            if server.is_wrong(time) and 2 * len(agree) >= len(self.heard):
                return True
        return False

    @cached_property
    def has_broken(self) -> bool:
        """Whether a premise fails in what was recorded: a step, more drift, more wrong servers than are granted."""
        are_wrong = len(wrong_groups(self.of, self.of.exchanges)) > self.of.false_max
        return bool(self.clock.jumps or self.clock.fast or are_wrong or self.of.leap < self.of.end)

    @property
    def worst(self) -> int:
        """The greatest error of the span, either way."""
        found = self.errors(self.span)
        return max(abs(found[0]), abs(found[1])) if found else 0

    def last_error(self) -> int | None:
        """The error with which the clock showed a reading of the span for the last time."""
        found = max(self.clock.shown(*self.span), key=lambda piece: piece.end, default=None)
        return found.high if found else None

    @cached_property
    def counting(self) -> list[Exchange]:
        """The exchanges that count: where a verdict presumes moves, those between two, as the span was shown."""
        if self.verdict == "nothing fits":
            return counted(self.of)
        at = min((piece.begin for piece in self.clock.shown(*self.span)), default=0)
        return [one for one in counted(self.of) if not any(
            begin < max(one.came_at, at) and min(one.sent_at, at) < end for begin, end in self.moving)]

    @property
    def steps(self) -> str:
        """When and by how much it was stepped, for a person."""
        return ", ".join(f"from {clock_time(jump.before)} to {clock_time(jump.after)} ({jump.size / SECOND:.6f} s)"
                         for jump in self.clock.jumps) or "never"

    def logged_against(self, beside: int = 0) -> str:
        """What a log in the folder says against a yes, in the span or so far beside it."""
        if not self.logs:
            return ""
        beside += (14 * 3600 if self.logs.is_known else 1 << 60) * SECOND * bool(beside and not self.logs.has_zone)
        ends = [(time, time) for time in self.logs.falls]
        others = [jump for jump in self.logs.steps if beside or not any(
            begin <= jump.begin and jump.end <= end for begin, end in self.moving)]
        for jump in others:  # (a step back has all shown twice that lies between)
            more = (jump.before, jump.after + 86_400 * SECOND) if beside else (max(jump.before, jump.after), jump.after)
            ends.append((min(jump.after, *more), max(jump.after, *more)) if jump.size < 0 or beside else more[1:] * 2)
        inside = [one for one in ends if self.span[0] - beside <= one[1] and one[0] <= self.span[1] + beside]
        fast = [event for event in self.logs.fast if self.fast((self.span[0] - beside, self.span[1] + beside))]
        return "a log says that it was stepped" if inside else "a log has such a frequency" if fast else ""

    def is_leap_near(self) -> bool:
        """Whether there is a leap second in the span or among the exchanges."""
        return self.of.begin - 2 * SECOND <= LEAP <= self.of.end + 2 * SECOND

    @cached_property
    def heard(self) -> set[int]:
        own = {one.server.address for one in counted(self.of)}
        return {number for number, group in enumerate(self.of.groups)
                if {self.of.servers[k].address for k in group} & own}

    @property
    def is_mistaken(self) -> bool:
        """Whether the claim has another client, or other servers."""
        return self.of.client != CLIENT or self.of.claimed != [server.address for server in self.of.servers]

    @cached_property
    def doubles(self) -> list[tuple[Packet, Packet]]:
        """Records of packets that another record counts for, and that one."""
        kept = {(one.nonce, one.is_reply): one for one in self.of.recorded}
        pairs = [(one, kept[one.nonce, one.is_reply]) for one in self.of.again]
        return [(one, other) for one, other in pairs if one.stamp != other.stamp]

    def is_wrong_in(self, address: str, when: Sequence[Any]) -> bool:
        """Whether a server was wrong in some exchange whose reply has a stamp of a time."""
        return any(one.server.is_wrong(one.sent_at) for one in self.of.exchanges
                   if one.server.address == address and when[0] <= one.answered <= when[1])

    def do_say(self, when: Sequence[Any], servers: list[str], said: Range) -> bool:
        """Whether by each of these servers, if it is always right or off by the same, the error lay within a range."""
        errors = [(self.clock.error(one.sent_at) or 0) - one.server.error(one.sent_at) for one in self.of.exchanges
                  if one.server.address in servers and one.server.kind in (RIGHT, OFF)
                  and when[0] <= one.asked and one.answered <= when[1]]
        return len(set(servers)) == len(servers) and all(said[0] <= error <= said[1] for error in errors)

    @property
    def is_void(self) -> bool:
        """Whether figures are the program's alone, since it is said that a premise fails."""
        return self.verdict == "nothing fits" and not self.entry.get("moves") or \
            self.verdict != "yes" and bool(self.logged_against())

    @property
    def parts(self) -> list[tuple[Range, When]]:
        """The parts of the entry: the errors and the times of each."""
        return [((part["hull"][0] * BILLION // TICKS, -(-part["hull"][1] * BILLION // TICKS)),
                 When(part["from"] * SECOND, part["to"] * SECOND, part.get("moves", 0)))
                for part in self.entry.get("parts", []) if isinstance(part["hull"], list)]

    @cached_property
    def moving(self) -> list[Range]:
        """The true times between the two records of each move."""
        ends = [(self.at(move["after"]), self.at(move["by"])) for move in self.entry.get("moves", [])]
        return [(begin, end) for begin, end in ends if begin is not None and end is not None]

    @cached_property
    def under_way(self) -> list[Range]:
        """From when to when the clock was on its way in each move."""
        own = [[one for one in self.clock.breaks if begin < one[1] and one[0] < end] or [(begin, end)]
               for begin, end in self.moving]
        return [(min(one[0] for one in some), max(one[1] for one in some)) for some in own]

    def is_behind(self, moves: int, piece: Stretch) -> bool:
        """Whether that was between a move and the next one."""
        return not (moves and piece.begin < self.under_way[moves - 1][1]) and \
            not (moves < len(self.moving) and piece.end > self.under_way[moves][0])

    def in_parts(self, said: list[tuple[Range, When]], others: list[tuple[Range, When]]) -> str:
        """Wrong if the clock showed a reading of a time that is told with an error that no such time has. Where it is
        said behind which move, by what was shown there alone; else a reading may have been shown in another time too,
        of those that are told, or of the other parts."""
        for errors, when in said:
            for piece in self.clock.shown(when.first, when.last) if when.moves is not None else ():
                low, high = sorted((piece.low, piece.high))
                if self.is_behind(when.moves or 0, piece) and not errors[0] <= low <= high <= errors[1]:
                    return self.unless_unseen(f"at {clock_time(when.first)} and on its error was {ms((low, high))}")
        said = [one for one in said if one[1].moves is None]
        whole = [*said, *(one for one in others if not any(
            one[1].first <= when.first and when.last <= one[1].last for _, when in said))]
        edges = sorted({edge for _, when in whole for edge in when[:2]})
        for first, last in zip(edges, edges[1:]):
            if not any(when[0] <= first and last <= when[1] for _, when in said):
                continue
            own = [errors for errors, when in whole if when[0] <= first and last <= when[1]]
            for piece in self.clock.shown(first, last):
                low, high = sorted((piece.low, piece.high))
                if any(begin <= piece.end and piece.begin <= end for begin, end in self.under_way):
                    continue  # (of how it went on its way nothing is said)
                if not any(errors[0] <= low and high <= errors[1] for errors in own):
                    return self.unless_unseen(f"at {clock_time(first)} and on its error was {ms((low, high))}")
        return ""

    def conflicting(self, low: str, least: int, asked: int, high: str, most: int, answered: int) -> str:
        """What isn't so of two exchanges: by a right server's the error was at least so much, by another's at most."""
        ends = [next((one.at for one in self.packets if 0 <= one.stamp - time < SECOND), 0)
                for time in (asked, answered)]
        self.conflicts.append((min(ends), max(ends)))
        by_low, by_high = self.errors((asked, asked + SECOND)), self.errors((answered, answered + SECOND))
        self.sides |= {side for server, side, error in ((low, 1, least), (high, -1, most))
                       if side * error > self.of.bound and not self.is_ever_wrong(server)}
        ever = 0, 1 << 62  # (conflicts are of whatever was recorded)
        wrong = by_low and by_low[1] < least and not self.is_wrong_in(low, ever) or \
            by_high and by_high[0] > most and not self.is_wrong_in(high, ever)
        return f"the errors were {by_low} and {by_high}" if wrong else ""


def clock_time(time: int) -> str:
    return f"{civil(time)[:-1].replace('T', ' ')}.{time % SECOND // 10**6:03}"


def ms(found: Range) -> str:
    return f"{found[0] / 10**6:,.3f} to {found[1] / 10**6:,.3f} ms"
