"""How many slots had a call, by the controller's records: for samples of times of which the hub has no picture, as before its start.

A call is recorded in the term in which it ends. So the last minutes of the records lack calls that are still active: they are worked out again with each new term.
"""
from collections.abc import Iterable, Iterator
from heapq import merge
from typing import NamedTuple

from temzaar.hub.moment import Moment
from temzaar.hub.samples import SPANS, Summary
from temzaar.recordgaps import Piece, edges_of, find_gaps, gaps_within, pieces
from temzaar.records import Records, is_whole, require

# When the oldest of some terms began, and the oldest of the new ones among them; and when the last one ended.
TIMES = """
SELECT min(began_ms), min(began_ms) FILTER (WHERE number > ?), max(ended_ms)
FROM (SELECT number, ended_ms, ended_ms - ticks * tick_ms AS began_ms FROM terms WHERE number > ?)"""
# The times from `first` to `last` at which calls began or ended, less `shift`, and by how many there were more then. SQLite sorts them outside of Python's memory.
EDGES = """
SELECT at - :shift, sum(more), 0 FROM (
  SELECT max(began_ms, :first) AS at, 1 AS more FROM calls WHERE ended_ms > :first AND began_ms < :last AND began_ms < ended_ms
  UNION ALL SELECT min(ended_ms, :last), -1 FROM calls WHERE ended_ms > :first AND began_ms < :last AND began_ms < ended_ms)
GROUP BY at ORDER BY at"""
# Milliseconds that a call may last: the samples of so long before a term change with it. How many terms there are in this time at most.
LONGEST_CALL_MS, EARLIER_TERMS = 900_000, 1000


class Used(NamedTuple):
    """How many slots had a call in a sample. Its number is its time on the steady clock, by the step of the span."""
    number: int
    summary: Summary


def summaries(found: Iterable[Piece], step_ms: int) -> Iterator[Used]:
    """The samples that pieces of time cover wholly. A sample's number is its time by its step."""
    number: int | None = None
    covered = least = greatest = total = 0
    for piece in found:
        at = piece.begins
        while at < piece.ends:
            if number is None or at // step_ms != number:
                number, covered, least, greatest, total = at // step_ms, 0, piece.count, piece.count, 0
            until = min(piece.ends, (number + 1) * step_ms)
            covered, total = covered + until - at, total + (until - at) * piece.count
            least, greatest = min(least, piece.count), max(greatest, piece.count)
            if covered == step_ms:
                yield Used(number, Summary(least, total / step_ms, greatest))
            at = until


def slots_used(records: Records, since: int, now: Moment) -> dict[str, list[Used]]:
    """How many slots had a call in the samples of each span that the terms after the term `since` say something new of. BadRow: a row has no time."""
    earlier, shift_ms, now_ms = max(0, since - EARLIER_TERMS), int(1000 * (now.wall - now.steady)), int(1000 * now.wall)
    oldest, begins, ends = records.conn.execute(TIMES, (since, earlier)).fetchone()
    if begins is None:
        return {}
    require(all(map(is_whole, (oldest, begins, ends))), "terms", "a term has no time")
    gaps, found = find_gaps(records, earlier), dict[str, list[Used]]()
    for name, (step, count) in SPANS.items():
        # no sample of the future is worked out, whatever times the records have
        first, last = max(oldest, begins - LONGEST_CALL_MS, now_ms - 1000 * step * count), min(ends, now_ms)
        calls = records.conn.execute(EDGES, {"first": first, "last": last, "shift": shift_ms})
        edges = merge(calls, edges_of(gaps_within(gaps, first, last), shift_ms))
        found[name] = [*summaries(pieces(edges, first - shift_ms, last - shift_ms), 1000 * step)]
    return found
