"""What is new in the controller's file of records since a term: sums, counts and the newest calls. It is read in a thread of its own, into memory of a fixed size."""
import struct
import time
from collections import Counter
from collections.abc import Iterable
from dataclasses import dataclass, field

from temzaar.console import Parties
from temzaar.faults import FileState, file_state
from temzaar.hub.counts import MINUTES, Histogram
from temzaar.hub.moment import Moment
from temzaar.hub.samples import SPANS, Happened
from temzaar.hub.seencalls import MOST_ENDED, SeenCall, pack_call
from temzaar.hub.slotuse import Used, slots_used
from temzaar.picture import LAST_RADIO
from temzaar.recordgaps import Gap, find_gaps
from temzaar.records import LAST_CARRIER, LAST_SLOT, LOG, BadRow, RecordedCall, RecordedTerm, Records, RecordsFault, is_whole, opened_records, require
from temzaar.siteevents import SiteEvent, reason_text, recorded_events

# Seconds for which a look at the file waits while the controller writes; then the hub tries again at the next look.
LOCK_SECONDS = 0.5
# How old an event is at most that is read, in seconds.
EVENT_SECONDS = 86_400
# The columns of `terms` that are summed.
SUMMED = ("registrations", "heard", "noise", "polls", "grants", "late_entries")

Signature = tuple[FileState, FileState]


def call_durations() -> Histogram:
    """How long calls lasted; as yet no call has."""
    return Histogram("dmr_site_call_duration_seconds", "How long calls lasted.", MINUTES)


@dataclass
class NewRecords:
    """What is new. `last` is the newest term, None if there is none; `terms` is how many are new. Calls are counted by kind and cause, refusals by reason,
    losses by carrier, also of one that only came up. `newest` has the newest calls in their order, each as the record of a SeenCall, and `happened` has counts for the samples of each span. `begins_ms` is when the
    first of the new terms began; `gaps` are the times that are not recorded, up to the last of them. `events` are those of the last day, and `used` is how many slots had a
    call in samples of each span."""
    last: RecordedTerm | None = None
    terms: int = 0
    sums: dict[str, int] = field(default_factory=lambda: dict.fromkeys(SUMMED, 0))
    calls: Counter[tuple[str, str]] = field(default_factory=Counter)
    durations: Histogram = field(default_factory=call_durations)
    refusals: Counter[str] = field(default_factory=Counter)
    losses: Counter[int] = field(default_factory=Counter)
    newest: list[bytes] = field(default_factory=list)
    happened: dict[str, list[Happened]] = field(default_factory=dict)
    begins_ms: int | None = None
    gaps: list[Gap] = field(default_factory=list)
    events: list[SiteEvent] = field(default_factory=list)
    used: dict[str, list[Used]] = field(default_factory=dict)


def seen_call(call: RecordedCall) -> SeenCall:
    """A recorded call, as one that was seen from its beginning to its end. BadRow: a value is not that of a call."""
    row = f"calls, row {call.number}"
    for name, value, least, most in (("carrier", call.carrier, 0, LAST_CARRIER), ("slot", call.slot, 0, LAST_SLOT),
                                     ("source", call.source, 1, LAST_RADIO), ("target", call.target, 1, LAST_RADIO),
                                     ("number", call.number, 0, None), ("began_ms", call.began_ms, None, None),
                                     ("ended_ms", call.ended_ms, None, None)):
        require(is_whole(value, least, most), row, f"{name} is {value!r}")
    require(isinstance(call.cause, str), row, f"cause is {call.cause!r}")
    began, ended = call.began_ms / 1000, max(call.began_ms, call.ended_ms) / 1000
    parties = Parties("group" if call.is_group else "radio", call.target, call.source)
    return SeenCall(call.number, (call.carrier, call.slot), parties, Moment(began, began), False, Moment(ended, ended), True, call.cause)


def last_term(records: Records) -> RecordedTerm | None:
    """The newest term; None if there is none. BadRow: a value of it is not a number."""
    term = records.last_term()
    if term:
        for name, value in {"ended_ms": term.ended_ms, **term.counts}.items():
            require(is_whole(value), f"terms, row {term.number}", f"{name} is {value!r}")
    return term


def signature(path: str) -> Signature:
    """What changes if the file or its log does."""
    return file_state(path), file_state(path + LOG)


def last_known(records: Records, last: RecordedTerm | None) -> int:
    """The number of the term after which rows are new; 0 if the file is not the one that was read before."""
    if last is None:
        return 0
    row = records.conn.execute("SELECT ended_ms FROM terms WHERE number = ?", (last.number,)).fetchone()
    if row is not None:
        return last.number if row[0] == last.ended_ms else 0
    # the term has been removed with other old rows, or another file is at this path, whose terms begin at 1
    greatest = records.conn.execute("SELECT max(number) FROM terms").fetchone()[0] or 0
    return last.number if greatest > last.number else 0


def count_calls(rows: Iterable[tuple[int, int, str, float]], new: NewRecords) -> None:
    """Counts calls: the number of each, whether it was to a group, why it ended, and how many milliseconds it lasted. BadRow: a
    value is not that of a call."""
    for number, is_group, cause, milliseconds in rows:
        # SQLite has more than 2^63 ms as a number with decimals
        require(isinstance(cause, str) and isinstance(milliseconds, int | float), f"calls, row {number}", "a cause or a time is missing")
        new.calls["group" if is_group else "radio", cause] += 1
        new.durations.observe(max(0, milliseconds) / 1000)


def happened_since(records: Records, since: int, span: str) -> list[Happened]:
    """How often things happened in each sample of a span, in the rows of the terms after `since`. The noise of a term is counted at its end."""
    step, count = SPANS[span]
    step_ms, begins_ms = 1000 * step, 1000 * step * (int(time.time() // step) - count + 1)
    found: list[Happened] = []
    for statement in ("SELECT cause, ended_ms / ?, count(*) FROM calls WHERE term > ? AND ended_ms >= ? GROUP BY 1, 2",
                      "SELECT 'refused', at_ms / ?, count(*) FROM events WHERE kind = 'refused' AND term > ? AND at_ms >= ? GROUP BY 2",
                      "SELECT 'noise', ended_ms / ?, sum(noise) FROM terms WHERE number > ? AND ended_ms >= ? GROUP BY 2"):
        found += records.conn.execute(statement, (step_ms, since, begins_ms))
    for kind, number, times in found:
        require(isinstance(kind, str) and is_whole(number) and is_whole(times), kind if isinstance(kind, str) else "calls", "a row has no time or no count")
    return found


def read_new(path: str, last: RecordedTerm | None) -> NewRecords:
    """What is new in a file since a term, or all of it. RecordsFault: it cannot be read now, or a row is damaged."""
    new = NewRecords()
    try:
        with opened_records(path, LOCK_SECONDS) as records:
            take_new(records, last, new)
    except (BadRow, OverflowError, struct.error) as fault:
        raise RecordsFault(f"{path}: {fault}") from fault
    return new


def take_new(records: Records, last: RecordedTerm | None, new: NewRecords) -> None:
    """Reads what is new since a term, or all of it. BadRow, OverflowError, struct.error: a row is damaged."""
    since = last_known(records, last)
    new.terms, *sums = records.conn.execute(f"SELECT count(*), {', '.join(f'total({it})' for it in SUMMED)} FROM terms WHERE number > ?", (since,)).fetchone()
    new.sums = {name: int(value) for name, value in zip(SUMMED, sums, strict=True)}
    new.last = last_term(records)
    count_calls(records.conn.execute("SELECT number, is_group, cause, ended_ms - began_ms FROM calls WHERE term > ?", (since,)), new)
    for reason, count, number in records.conn.execute("SELECT reason, count(*), min(number) FROM events WHERE kind = 'refused' AND term > ? GROUP BY reason", (since,)):
        require(reason is None or is_whole(reason), f"events, row {number}", f"reason is {reason!r}")
        new.refusals[reason_text(reason)] += count
    for carrier, count, number in records.conn.execute("SELECT carrier, sum(kind = 'was_lost'), min(number) FROM events WHERE kind IN ('came_up', 'was_lost') AND term > ? GROUP BY carrier", (since,)):
        require(is_whole(carrier, 0, LAST_CARRIER), f"events, row {number}", f"carrier is {carrier!r}")
        new.losses[carrier] = count
    new.gaps = find_gaps(records, since)
    new.begins_ms = records.conn.execute("SELECT min(ended_ms - ticks * tick_ms) FROM terms WHERE number > ?", (since,)).fetchone()[0]
    require(new.begins_ms is None or is_whole(new.begins_ms), "terms", f"a term began at {new.begins_ms!r}")
    new.newest = [pack_call(seen_call(it)) for it in records.calls(("term > ?", [since]), last=MOST_ENDED)]
    new.happened = {span: happened_since(records, since, span) for span in SPANS}
    now = Moment.now()
    new.events = recorded_events(records, since, int(1000 * (now.wall - EVENT_SECONDS)))
    new.used = slots_used(records, since, now)
