"""The traffic of a period, by the controller's file of records: the figures of `dmr_report`.

A call counts in the hour in which it began. Its slot counts as in use for as long as the call
lasted, cut at the ends of hours and of the period, as far as that time is recorded.
"""
import bisect
from collections import Counter, defaultdict
from collections.abc import Iterator
from dataclasses import dataclass, field
from typing import NamedTuple

from temzaar.moments import Span, local_time
from temzaar.recordgaps import RESTARTED, Gap, Piece, edges_of, find_gaps, pieces
from temzaar.records import BadRow, RecordedCall, Records, RecordsFault, within
from temzaar.siteevents import CARRIERS, COMMANDS, EventKind, SiteEvent, event_of, reason_text

HOUR_MS = 3_600_000
# How much of an hour has to be recorded if it may be the busy hour.
BUSY_MS = 0.9 * HOUR_MS
# Why times are not recorded, at the ends of the records.
EARLIER, LATER, NOTHING = "before the first record", "after the last record", "no records"
# Why a carrier was lost, if its base station was. For how long after a start of the controller it
# does not count as lost.
LOST, RECONNECT_MS = "lost", 10_000

SlotKey = tuple[int, int]


@dataclass
class Hour:
    """An hour of the local clock, or what the period has of it. For how long it is recorded, and
    slots were in use; its calls, and for how long those waited of which that is known."""
    begins_ms: int
    ends_ms: int
    recorded_ms: int = 0
    used_ms: int = 0
    calls: int = 0
    waits: list[int] = field(default_factory=list)

    @property
    def erlang(self) -> float | None:
        """How many slots were in use on average; None if nothing is recorded."""
        return self.used_ms / self.recorded_ms if self.recorded_ms else None

    @property
    def is_whole(self) -> bool:
        """Whether it is an hour, and recorded but for a short time."""
        return self.recorded_ms >= BUSY_MS


@dataclass
class Use:
    """What somebody, or a slot, had of the traffic: calls, their time, and requests that joined a
    call which was under way."""
    calls: int = 0
    used_ms: int = 0
    joined: int = 0


class Refusal(NamedTuple):
    """Why requests were refused, how many, and those of how many radios."""
    reason: str
    requests: int
    radios: int


class Outage(NamedTuple):
    """A time for which a carrier was lost, and why. It is back, or was not yet when the period or
    the records ended."""
    carrier: int
    from_ms: int
    to_ms: int
    why: str
    is_back: bool


@dataclass
class Traffic:
    """The figures of a period. `gaps` are the times without records, cut to it. `unknown` calls have
    no recorded wait, nor who joined them. `silent` radios were registered, and neither called nor
    joined a call; with how often each was called. `events_ms` is since when the file has events."""
    span: Span
    hours: list[Hour]
    gaps: list[Gap]
    slots: dict[SlotKey, Use] = field(default_factory=lambda: defaultdict(Use))
    groups: dict[int, Use] = field(default_factory=lambda: defaultdict(Use))
    radios: dict[int, Use] = field(default_factory=lambda: defaultdict(Use))
    called: Counter[int] = field(default_factory=Counter)
    unknown: int = 0
    refusals: list[Refusal] = field(default_factory=list)
    silent: list[tuple[int, int]] = field(default_factory=list)
    outages: list[Outage] = field(default_factory=list)
    commands: list[SiteEvent] = field(default_factory=list)
    events_ms: int = 0

    @property
    def calls(self) -> int:
        """How many calls began."""
        return sum(it.calls for it in self.hours)

    @property
    def used_ms(self) -> int:
        """For how long slots were in use, all together."""
        return sum(it.used_ms for it in self.hours)

    @property
    def recorded_ms(self) -> int:
        """How much of the period is recorded."""
        return sum(it.recorded_ms for it in self.hours)

    @property
    def waits(self) -> list[int]:
        """For how long calls waited, in milliseconds, as far as that is known."""
        return [wait for hour in self.hours for wait in hour.waits]

    def busy_hour(self) -> Hour | None:
        """The hour with the most traffic, the first of several; None if no hour of the period is
        recorded, or has a call."""
        whole = [it for it in self.hours if it.is_whole and it.used_ms]
        return max(whole, key=lambda it: it.erlang or 0, default=None)


def hours_of(span: Span) -> Iterator[Hour]:
    """The hours of a period, by the local clock: a day on which it is set has 23 or 25."""
    begins = span.first
    while begins < span.end:
        moment = local_time(begins)
        seconds = moment.minute * 60 + moment.second if moment else 0
        past = seconds * 1000 + (moment.microsecond // 1000 if moment else 0)
        ends = min(span.end, begins + HOUR_MS - past)
        yield Hour(begins, ends)
        begins = ends


def kept_since(records: Records, table: str, column: str) -> int:
    """Since when a file has all rows of a table: if the controller has removed older ones, since the
    time of the oldest. Else since ever, which is 0."""
    if not records.conn.execute("SELECT 1 FROM sqlite_schema WHERE name = 'removed'").fetchone():
        return 0
    row = records.conn.execute(f"SELECT number, {column}, (SELECT max({table}) FROM removed)"
                               f" FROM {table} ORDER BY number LIMIT 1").fetchone()
    since: int = row[1] if row and row[2] and 0 < row[0] - 1 <= row[2] else 0
    return since


def unrecorded(records: Records, span: Span) -> list[Gap]:
    """The times of a period without records of calls, in their order."""
    times = "SELECT min(ended_ms - ticks * tick_ms), max(ended_ms) FROM terms"
    begins, ends = records.conn.execute(times).fetchone()
    if begins is None:
        return [Gap(*span, NOTHING)]
    begins = max(begins, kept_since(records, "calls", "ended_ms"))
    within = [Gap(max(begins, it.from_ms), it.to_ms, it.why) for it in find_gaps(records)]
    found = [Gap(span.first, begins, EARLIER), *within, Gap(ends, span.end, LATER)]
    cut = (Gap(max(it.from_ms, span.first), min(it.to_ms, span.end), it.why) for it in found)
    return sorted((it for it in cut if it.from_ms < it.to_ms), key=lambda it: it.from_ms)


def add_calls(records: Records, traffic: Traffic) -> None:
    """Adds the calls of the period."""
    edges, span = edges_of(traffic.gaps, 0), traffic.span
    recorded = [(piece, hour) for hour in traffic.hours
                for piece in pieces(edges, hour.begins_ms, hour.ends_ms)]
    for piece, hour in recorded:
        hour.recorded_ms += piece.ends - piece.begins
    begins = [it.begins_ms for it in traffic.hours]
    for call in records.calls(("ended_ms > ? AND began_ms < ?", [*span])):
        used = use_hours(call, recorded)
        is_new = span.first <= call.began_ms
        parties = (traffic.slots[call.carrier, call.slot], traffic.radios[call.source])
        for use in (*parties, *([traffic.groups[call.target]] if call.is_group else [])):
            use.used_ms += used
            use.calls += is_new
        if is_new:
            hour = traffic.hours[bisect.bisect_right(begins, call.began_ms) - 1]
            add_new_call(call, hour, traffic)


def use_hours(call: RecordedCall, recorded: list[tuple[Piece, Hour]]) -> int:
    """Adds a call's time to the hours in which it was active, as far as they are recorded. How much
    that is."""
    used = 0
    first = bisect.bisect_right(recorded, call.began_ms, key=lambda it: it[0].ends)
    for number in range(first, len(recorded)):
        piece, hour = recorded[number]
        if piece.begins >= call.ended_ms:
            break
        part = min(call.ended_ms, piece.ends) - max(call.began_ms, piece.begins)
        hour.used_ms += part
        used += part
    return used


def add_new_call(call: RecordedCall, hour: Hour, traffic: Traffic) -> None:
    """Counts a call in the hour in which it began."""
    hour.calls += 1
    if not call.is_group:
        traffic.called[call.target] += 1
    if call.waited_ms is None:
        traffic.unknown += 1
    else:
        hour.waits.append(call.waited_ms)


def add_requests(records: Records, traffic: Traffic) -> None:
    """Adds requests that joined a call, or were refused."""
    condition, values = within("at_ms", traffic.span)
    joined = ("SELECT radio, target, count(*) FROM events WHERE kind = 'joined_call'"
              f" AND {condition} GROUP BY radio, target")
    for radio, group, count in records.conn.execute(joined, values):
        traffic.radios[radio].joined += count
        traffic.groups[group].joined += count
    refused = ("SELECT reason, count(*), count(DISTINCT radio) FROM events WHERE kind = 'refused'"
               f" AND {condition} GROUP BY reason ORDER BY 2 DESC, 1")
    traffic.refusals = [Refusal(reason_text(reason), requests, radios)
                        for reason, requests, radios in records.conn.execute(refused, values)]


def registered_within(records: Records, span: Span) -> set[int]:
    """The radios that were registered at some time of a period. Those that were so at the end of
    the file are known; from there it goes back."""
    now, seen = set(records.registrations()), set[int]()
    changes = "SELECT kind, radio, at_ms FROM events WHERE kind IN ('joined', 'left', 'dropped')"
    is_inside = False
    for kind, radio, at_ms in records.conn.execute(f"{changes} ORDER BY number DESC"):
        if at_ms < span.first:
            break
        if at_ms < span.end and not is_inside:
            is_inside, seen = True, set(now)
        if kind == "joined":
            now.discard(radio)
        else:
            now.add(radio)
        if is_inside:
            seen.add(radio)
    return seen | now


def find_outages(records: Records, span: Span) -> Iterator[Outage]:
    """The times of a period for which carriers were lost, by their ends. A start of the controller
    finds each carrier lost, which counts if it was not back soon."""
    known, lost = set[int](), dict[int, tuple[int, str]]()
    for at_ms, carrier, is_back in carrier_changes(records, span.end):
        if carrier is None:
            lost = {it: lost.get(it, (at_ms, RESTARTED)) for it in known}
            continue
        known.add(carrier)
        if not is_back:
            lost.setdefault(carrier, (at_ms, LOST))
        elif carrier in lost:
            from_ms, why = lost.pop(carrier)
            is_short = why == RESTARTED and at_ms - from_ms <= RECONNECT_MS
            if at_ms > span.first and not is_short:
                yield Outage(carrier, max(from_ms, span.first), at_ms, why, True)
    last = records.last_term()
    end_ms = min(span.end, last.ended_ms if last else span.end)
    for carrier, (from_ms, why) in sorted(lost.items()):
        if end_ms > span.first:
            yield Outage(carrier, max(from_ms, span.first), end_ms, why, False)


def carrier_changes(records: Records, end_ms: int) -> list[tuple[int, int | None, bool]]:
    """When carriers were lost or came back, before a time: which one, and whether it came back. A
    start of the controller has no carrier."""
    query = "SELECT ended_ms - ticks * tick_ms FROM terms WHERE last_tick = ticks"
    starts = {row[0] for row in records.conn.execute(query)}
    # of a run whose first term is not recorded
    starts |= {it.to_ms for it in find_gaps(records) if it.why == RESTARTED}
    found: list[tuple[int, int | None, bool]] = [
        (it, None, False) for it in starts if it < end_ms]
    kinds = f"kind IN ({', '.join('?' * len(CARRIERS))}) AND at_ms < ?"
    for row in records.events((kinds, [*CARRIERS, end_ms])):
        event = event_of(row)
        found.append((event.at_ms, event.carrier, event.kind is EventKind.CARRIER_BACK))
    # of one time, a start comes first, and events in their order
    return sorted(found, key=lambda it: it[0])


def find_commands(records: Records, span: Span) -> list[SiteEvent]:
    """The commands of operators in a period."""
    condition, values = within("at_ms", span)
    kinds = ", ".join("?" * len(COMMANDS))
    rows = records.events((f"kind IN ({kinds}) AND {condition}", [*COMMANDS, *values]))
    return [event_of(it) for it in rows]


def read_traffic(records: Records, span: Span, path: str) -> Traffic:
    """The figures of a period. RecordsFault: a row is damaged."""
    try:
        traffic = Traffic(span, [*hours_of(span)], unrecorded(records, span))
        add_calls(records, traffic)
        add_requests(records, traffic)
        silent = sorted(registered_within(records, span) - traffic.radios.keys())
        traffic.silent = [(it, traffic.called[it]) for it in silent]
        traffic.outages = sorted(find_outages(records, span), key=lambda it: it.from_ms)
        traffic.commands = find_commands(records, span)
        traffic.events_ms = kept_since(records, "events", "at_ms")
        return traffic
    except (BadRow, OverflowError) as fault:
        raise RecordsFault(f"{path}: {fault}") from fault


def busiest(uses: dict[int, Use], most: int) -> list[tuple[int, Use]]:
    """Those with the most time, of equal time the most calls; the busiest first."""
    def order(it: tuple[int, Use]) -> tuple[int, ...]:
        """The least comes first."""
        return -it[1].used_ms, -it[1].calls, -it[1].joined, it[0]
    return sorted(uses.items(), key=order)[:most]
