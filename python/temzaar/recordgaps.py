"""The times of which a file of records has nothing: a run of the controller that ended within a term, and terms that were not written. And the times between them."""
from collections.abc import Iterable, Iterator
from dataclasses import dataclass
from heapq import merge
from typing import NamedTuple

from temzaar.moments import short_text
from temzaar.records import Records

# The time of day of a tick is computed back from the end of its term, so it may be some ticks off.
LEAST_MS = 500
RESTARTED, LOST = "the controller was started again", "terms were not written"
# Terms that do not begin at the tick at which the term before them ended. From when to when there are no records, and whether the run is the same.
GAPS = """
SELECT p.ended_ms, t.ended_ms - t.ticks * t.tick_ms AS begun_ms, t.last_tick - t.ticks > p.last_tick
FROM terms AS t JOIN terms AS p ON p.number = t.number - 1
WHERE t.number > ? AND t.last_tick - t.ticks <> p.last_tick AND begun_ms - p.ended_ms > ? ORDER BY t.number"""


@dataclass(frozen=True)
class Gap:
    """A time that is not recorded, in milliseconds since 1970, and why."""
    from_ms: int
    to_ms: int
    why: str

    @property
    def seconds(self) -> float:
        """How long it is."""
        return (self.to_ms - self.from_ms) / 1000

    def in_words(self) -> str:
        """The gap as a line for people."""
        return f"no records from {short_text(self.from_ms)} to {short_text(self.to_ms)}, {self.seconds:.1f} s: {self.why}"


def find_gaps(records: Records, since: int = 0) -> list[Gap]:
    """The gaps before the terms after the term `since`, in their order."""
    return [Gap(from_ms, to_ms, LOST if is_same_run else RESTARTED) for from_ms, to_ms, is_same_run in records.conn.execute(GAPS, (since, LEAST_MS))]


def gaps_within(gaps: Iterable[Gap], from_ms: int | None, to_ms: int | None) -> list[Gap]:
    """The gaps that have a part between two times; None: from the first record, to the last one."""
    return [it for it in gaps if (from_ms is None or it.to_ms > from_ms) and (to_ms is None or it.from_ms < to_ms)]


# A time at which the number of calls changes, and that of gaps that there are at the time: in milliseconds, and by how many there are more.
Edge = tuple[int, int, int]


class Piece(NamedTuple):
    """A time, in milliseconds, in which a number of slots had a call."""
    begins: int
    ends: int
    count: int


def pieces(edges: Iterable[Edge], begins: int, ends: int) -> Iterator[Piece]:
    """The recorded times within two in which the number of calls stays the same, in their order, by edges in the order of their times."""
    count, hole, since = 0, 0, begins
    for at, calls, gaps in merge(edges, [(ends, 0, 0)]):
        if since < at and not hole:
            yield Piece(since, min(at, ends), count)
        if at >= ends:
            return
        count, hole, since = count + calls, hole + gaps, max(since, at)


def edges_of(gaps: Iterable[Gap], shift_ms: int) -> list[Edge]:
    """The beginnings and the ends of gaps, in the order of their times."""
    return sorted(edge for gap in gaps for edge in ((gap.from_ms - shift_ms, 0, 1), (gap.to_ms - shift_ms, 0, -1)))
