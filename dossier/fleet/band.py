"""What the last minutes of a recording say of the clock: in a line for a person, as metrics, and as a band of the last
hour, drawn with characters: the hull over time, and the bound."""
import time
from collections.abc import Iterator

from ..folder.entry import ANSWERED, NOTHING_FITS, REFUSED, Hull, Move, Piece
from ..folder.result import Moment
from ..text import count, label, plain
from ..units import (SECOND, TICKS, bound_ticks, ceil_div, civil, high_ms, low_ms, ns_up_ms,
                     span_of_seconds)
from .metrics import Sample, labels_of

ROWS, LEFT, HOUR, MINUTE = 9, 12, 3600, 60
"""Rows of the band, characters at its left, and seconds in it and in a minute."""
NARROW, WIDE = 60, 160
"""Characters of a line at the least and at the most."""
GREEN, RED, PLAIN = "\x1b[32m", "\x1b[31m", "\x1b[0m"
UP, CLEAR = "\x1b[{}F", "\x1b[J"
HELD, BEYOND, EMPTY, UNBOUNDED = "#", "!", "x", "?"
"""What a column is drawn by: a hull, one that isn't within the bound, and two words for none."""


def whole(pieces: list[Piece]) -> Hull | None:
    """The outermost ends of all pieces' hulls, or the word of the worst of them."""
    hulls = [piece.hull for piece in pieces]
    for word in ("empty", "unbounded"):
        if word in hulls:
            return word  # type: ignore
    ends = [end for hull in hulls if not isinstance(hull, str) for end in hull]
    return (min(ends), max(ends)) if ends else None


def fields_of(moment: Moment) -> list[str]:
    """The line of a moment, in parts that stay together where it is wrapped beside a band."""
    begin, end, recorder = civil(moment.begin), civil(moment.end), label(moment.recorder)
    said = [f"{begin} .. {end[11:] if begin[:10] == end[:10] else end}", moment.verdict]
    hull, few = whole(moment.pieces), f", {moment.needed} needed" if moment.heard < moment.needed else ""
    groups = f"{moment.heard} of {count(moment.groups, 'group')}{few}"
    error = [f"now {range_of(moment.now)}"] if moment.now is not None else []
    off = ["the clock is off"] if moment.is_off else []
    if hull is None or moment.since:
        if moment.verdict != REFUSED:
            said += [unheard(moment), *error, *([groups] if moment.since else []), *off]
        return [recorder, *said, *servers_of(moment), *warnings_of(moment)]
    for move in moment.moves[:-1]:
        said.append(moved(move))
    since = f"{moved(moment.moves[-1])}; since then " if moment.moves else ""
    since += f"{moment.before}; since then " if moment.before else ""
    if not isinstance(hull, str):
        said.append(f"{since}{range_of(hull)} of {exact_ms(moment.bound_ns)} ms")
    elif since:
        said.append(since.rpartition(";")[0])
    said += error
    if moment.least_ns is not None and moment.verdict != NOTHING_FITS:
        said.append(f"least {ns_up_ms(moment.least_ns)} ms")
    if moment.camps:
        said.append(f"servers contradict one another: {' and '.join(map(', '.join, moment.camps))}")
    said += [groups, *off]
    return [recorder, *said, *servers_of(moment), *([moment.against] if moment.against else []), *warnings_of(moment)]


def unheard(moment: Moment) -> str:
    """That nothing was recorded, or too little, and since when."""
    last, what = (moment.since, "too few groups were heard") if moment.since else (moment.last, "nothing was recorded")
    if not last:
        return what
    by_clock, age = moment.end - last, None if moment.since else moment.age
    ago = f", {span_of_seconds(by_clock)} ago" if by_clock > 0 else ""
    if age is not None and abs(age - by_clock) > MINUTE:
        ago += f", by the recorder's word {span_of_seconds(max(1, age))}"
    return f"{what} since {civil(last)}{ago}"


def moved(move: Move) -> str:
    """How the clock moved, in the order in which the records around it were made."""
    how = "stepped" if move.is_step else f"stepped, or moved at {move.rate_ppb // 1000:,} ppm or more,"
    after, by = civil(move.after // SECOND), civil(ceil_div(move.by, SECOND))
    return f"{how} between {after} and {by[11:] if by[:10] == after[:10] else by} by {range_of((move.low, move.high))}"


def range_of(hull: tuple[int, int]) -> str:
    return f"{signed(low_ms(hull[0]))} .. {signed(high_ms(hull[1]))} ms"


def servers_of(moment: Moment) -> Iterator[str]:
    """Which servers can't be right, and by how much they are off; and which are silent."""
    for server in moment.servers:
        if server.is_apart and server.error:
            yield f"{server.address} is off by {range_of(server.error)}"
    if silent := [server.address for server in moment.servers if server.is_silent]:
        yield f"silent: {', '.join(silent)}"


TROUBLES = {
    "dead": "the recorder doesn't run", "stopped": "the recorder was ended", "hangs": "tcpdump hangs",
    "ended": "tcpdump has ended", "room": "nothing can be written", "all": "recordings have no room",
    "file": "the file was moved", "flood": "more packets come than are kept", "lost": "packets are lost"}
"""What a recorder says of itself."""


def warnings_of(moment: Moment) -> Iterator[str]:
    yield from (TROUBLES.get(trouble, trouble) for trouble in moment.troubles)
    if moment.ahead and not moment.against:
        yield f"the clock was set back: records up to {span_of_seconds(moment.ahead)} ahead of it"


def signed(words: str) -> str:
    return words if words.startswith("-") else f"+{words}"


def exact_ms(nanoseconds: int) -> str:
    """The bound, with at least three decimals."""
    whole_ms, rest = divmod(nanoseconds, 1_000_000)
    return f"{whole_ms:,}.{f'{rest:06}'.rstrip('0').ljust(3, '0')}"


def line_of(moment: Moment) -> str:
    return plain("  ".join(fields_of(moment)))


def metrics_of(moment: Moment) -> Iterator[Sample]:
    """The hull is that of the last second: how the clock is now. A low end is rounded down and a high end up. What
    isn't seen has no value."""
    labels, verdict = labels_of(recorder=moment.recorder), moment.verdict
    for other in (*ANSWERED, REFUSED):
        yield "now_verdict", labels_of(recorder=moment.recorder, verdict=other), int(other == verdict)
    yield "now_seen", labels, int(moment.now is not None)
    yield "now_claimed_bound_seconds", labels, moment.bound_ns
    if moment.off is not None:
        yield "now_clock_off", labels, int(moment.off)
    if moment.now is not None:
        yield "now_hull_low_seconds", labels, down_ns(moment.now[0])
        yield "now_hull_high_seconds", labels, up_ns(moment.now[1])
    if moment.least_ns is not None:
        yield "now_least_bound_seconds", labels, moment.least_ns
    yield "now_groups_heard", labels, moment.heard
    yield "now_groups_needed", labels, moment.needed
    yield "now_groups", labels, moment.groups
    yield "now_refused_files", labels, len(moment.bad)
    yield "now_records_ahead_seconds", labels, moment.ahead * SECOND
    yield "now_looked_timestamp_seconds", labels, time.time_ns()
    if moment.last:
        yield "now_last_record_timestamp_seconds", labels, moment.last * SECOND
    if moment.age is not None:
        yield "now_last_record_age_seconds", labels, moment.age * SECOND
    if moment.moves:
        move = moment.moves[-1]
        yield "now_last_step_timestamp_seconds", labels, move.by
        yield "now_last_step_low_seconds", labels, down_ns(move.low)
        yield "now_last_step_high_seconds", labels, up_ns(move.high)
    for server in moment.servers:
        own = labels_of(recorder=moment.recorder, server=server.address)
        yield "now_server_silent", own, int(server.is_silent)
        if server.error:
            yield "now_server_apart", own, int(server.is_apart)
            yield "now_server_error_low_seconds", own, down_ns(server.error[0])
            yield "now_server_error_high_seconds", own, up_ns(server.error[1])
    for trouble in TROUBLES:
        yield ("now_recorder_trouble", labels_of(recorder=moment.recorder, trouble=trouble),
               int(trouble in moment.troubles))
    yield "now_recorder_lost_packets", labels, moment.lost
    yield "now_recorder_left_out_packets", labels, moment.left_out


def down_ns(ticks: int) -> int:
    return ticks * SECOND // TICKS


def up_ns(ticks: int) -> int:
    return ceil_div(ticks * SECOND, TICKS)


class Band:
    """Lines that stay in their place on a terminal. In a pipe there is a line each time."""

    def __init__(self, is_shown: bool, has_colour: bool):
        self.is_shown, self.has_colour, self.drawn = is_shown, has_colour, 0
        self.hulls: dict[str, dict[int, Piece]] = {}
        """Of each recorder the pieces of the last hour, by the Unix second in which they end."""

    def add(self, moments: list[Moment]) -> None:
        for moment in moments:
            own = self.hulls.setdefault(moment.recorder, {})
            own.update({piece.to: piece for piece in moment.pieces})
            for second in [second for second in own if second <= moment.end - HOUR]:
                del own[second]

    def show(self, moments: list[Moment], columns: int) -> None:
        """Shows the moments of all recorders, in place of those that are shown."""
        if not self.is_shown:
            for moment in moments:
                print(line_of(moment), flush=True)
            return
        self.add(moments)
        width = min(max(NARROW, columns - 1), WIDE)
        lines = [line for moment in moments for line in self.head(moment, width)]
        lines += self.band(moments[0], width)
        print(f"{UP.format(self.drawn) if self.drawn else ''}{CLEAR}" + "\n".join(lines), flush=True)
        self.drawn = len(lines)

    def head(self, moment: Moment, width: int) -> list[str]:
        """A recorder's line, on more lines if it has to be, and its verdict in colour."""
        lines = [""]
        for words in map(plain, filter(None, fields_of(moment))):
            if lines[-1] and len(lines[-1]) + 2 + len(words) > width:
                lines.append("")
            lines[-1] += ("  " if lines[-1] else "") + words
        colour = GREEN if moment.is_shown else RED
        return [f"{colour}{line}{PLAIN}" for line in lines] if self.has_colour else lines

    def band(self, moment: Moment, width: int) -> list[str]:
        """The lines of the band of one recorder: the hull over an hour, and the bound."""
        bound, end = bound_ticks(moment.bound_ns), moment.end
        places = width - LEFT
        columns = [self.cell(moment.recorder, end - HOUR + HOUR * k // places, end - HOUR + HOUR * (k + 1) // places)
                   for k in range(places)]
        most = max([bound, *(abs(end) for hull in columns if isinstance(hull, tuple) for end in hull)]) * 9 // 8 or 1
        edges = [most - 2 * most * row // ROWS for row in range(ROWS + 1)]
        rows = [edge(high, low, bound) + "".join(drawn(hull, high, low, bound) for hull in columns)
                for high, low in zip(edges, edges[1:])]
        return [*rows, f"{'':{LEFT}}{civil(end - HOUR)[11:16]}{civil(end)[11:16]:>{places - 5}}"]

    def cell(self, recorder: str, begin: int, end: int) -> Hull | None:
        """The extremes of the pieces that end in a column, if any does."""
        own = self.hulls.get(recorder, {})
        return whole([own[second] for second in range(begin + 1, end + 1) if second in own])


def edge(high: int, low: int, bound: int) -> str:
    """What stands at the left of a row: the bound, or zero."""
    for value, sign in ((bound, "+"), (-bound, "-"), (0, " ")):
        if low <= value < high:
            return f"{sign + f'{abs(value) * 1000 / TICKS:.3f}':>{LEFT - 4}} ms "
    return " " * LEFT


def drawn(hull: Hull | None, high: int, low: int, bound: int) -> str:
    """A character: the hull where it meets the row, else the bound."""
    if hull == "empty" or hull == "unbounded":
        return EMPTY if hull == "empty" else UNBOUNDED
    if hull is not None and hull[0] < high and low <= hull[1]:
        return HELD if -bound <= hull[0] and hull[1] <= bound else BEYOND
    return "-" if low <= bound < high or low <= -bound < high else " "
