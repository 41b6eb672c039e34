"""The counters of the controller's records, the calls that are recorded, and the times that are not. All of it grows by what a look at the file finds new."""
import time
from collections.abc import Iterator
from dataclasses import dataclass, field
from itertools import islice

from temzaar.console import Parties, SlotKey
from temzaar.hub.counts import Counts, Series
from temzaar.hub.newrecords import NewRecords, call_durations
from temzaar.hub.samples import SPANS
from temzaar.hub.seencalls import MOST_ENDED, CallFilter, CallLog, CallRing, SeenCall
from temzaar.recordgaps import Gap, gaps_within
from temzaar.records import CAUSES

# How many of the last recorded calls the seen ones are compared with, and how many seen ones are left out as recorded. Both are far more than there
# are, unless the clock was set back: then all that was seen before has ended later than the last recorded term.
MOST_COMPARED, MOST_LEFT_OUT = 1000, 200
# How many gaps are kept, and of how many seconds.
MOST_GAPS, LONGEST_SECONDS = 1000, max(step * count for step, count in SPANS.values())


class RecordCounts(Counts):
    """What the hub counts of the records. A counter begins at the rows that the file has when the hub starts."""

    def __init__(self) -> None:
        self.calls = Series("dmr_site_calls_total", "Calls that ended, by who was called and why they ended.")
        self.durations = call_durations()
        self.registrations = Series("dmr_site_registrations_total", "Radios that were registered.")
        self.refusals = Series("dmr_site_refusals_total", "Requests that were refused, by the reason.")
        self.losses = Series("dmr_site_carrier_losses_total", "Times that a carrier was lost.")
        self.terms = Series("dmr_site_terms_total", "Terms that were recorded.")
        self.polls = Series("dmr_site_polls_total", "Polls of carriers.")
        self.bursts = Series("dmr_site_bursts_total", "Bursts in which a PDU was read.")
        self.noise = Series("dmr_site_noise_bursts_total", "Bursts in which no PDU could be read.")
        self.grants = Series("dmr_site_grants_total", "Grants that were queued.")
        self.late_entries = Series("dmr_site_late_entries_total", "Late entries that were sent.")
        self.longest_queue = Series("dmr_site_longest_queue", "The most requests that waited for a slot at once, in the last term.")
        self.recorded_until = Series("dmr_site_records_timestamp_seconds", "When the last recorded term ended, in seconds since 1970.")
        self.reads = Series("dmr_hub_records_reads_total", "Looks at the file of records that found something new.")
        self.faults = Series("dmr_hub_records_faults_total", "Looks at the file of records that failed.")
        self.gaps = Series("dmr_site_record_gaps_total", "Times of which there are no records: a restart of the controller, or terms that were not written.")
        self.unrecorded = Series("dmr_site_unrecorded_seconds_total", "How long these times were together.")
        for kind in ("group", "radio"):
            for cause in CAUSES:
                self.calls.add(0, kind=kind, cause=cause)
        for series in (self.registrations, self.terms, self.polls, self.bursts, self.noise, self.grants, self.late_entries, self.reads, self.faults, self.gaps, self.unrecorded):
            series.add(0)

    def take(self, new: NewRecords) -> None:
        """Adds what is new."""
        self.reads.add()
        self.terms.add(new.terms)
        for series, name in ((self.registrations, "registrations"), (self.polls, "polls"), (self.bursts, "heard"), (self.noise, "noise"), (self.grants, "grants"),
                             (self.late_entries, "late_entries")):
            series.add(new.sums[name])
        for (kind, cause), count in new.calls.items():
            self.calls.add(count, kind=kind, cause=cause)
        self.durations.add(new.durations)
        for reason, count in new.refusals.items():
            self.refusals.add(count, reason=reason)
        for carrier, count in sorted(new.losses.items()):
            self.losses.add(count, carrier=str(carrier))
        self.gaps.add(len(new.gaps))
        self.unrecorded.add(sum(it.seconds for it in new.gaps))
        if new.last:
            self.longest_queue.set(new.last.counts["most_lines"])
            self.recorded_until.set(new.last.ended_ms / 1000)


@dataclass
class RecordedLog:
    """The last calls of the records and the times that they do not have, in memory of a fixed size. `begins_ms` is when the first recorded term began, and `until` when
    the last one ended, in seconds since 1970; None before it. `gaps` are the newest ones of the longest span of the charts."""
    ended: CallRing = field(default_factory=lambda: CallRing(MOST_ENDED))
    begins_ms: int | None = None
    until: float | None = None
    gaps: list[Gap] = field(default_factory=list)
    # when the last recorded calls ended, by slot and parties, and of which state of this log that is
    ends: dict[tuple[SlotKey, Parties], list[float]] = field(default_factory=dict)
    ends_of: tuple[int, float | None, float] | None = None

    def take(self, new: NewRecords) -> None:
        """Adds what is new."""
        for record in new.newest:
            self.ended.append_record(record)
        if new.last:
            self.until = new.last.ended_ms / 1000
        if self.begins_ms is None:
            self.begins_ms = new.begins_ms
        oldest_ms = int(1000 * (time.time() - LONGEST_SECONDS))
        self.gaps = gaps_within([*self.gaps, *new.gaps], oldest_ms, None)[-MOST_GAPS:]

    def has(self, call: SeenCall, slack: float) -> bool:
        """Whether a call that was seen is one of the last recorded ones. Its end was seen at most `slack` seconds late."""
        assert call.ended
        ended = call.ended.wall
        return any(abs(it - ended) <= slack for it in self._ends(slack).get((call.slot, call.parties), ()))

    def _ends(self, slack: float) -> dict[tuple[SlotKey, Parties], list[float]]:
        """When the last recorded calls ended, by slot and parties: those that ended little before the last term did, or later."""
        assert self.until is not None
        if self.ends_of != (self.ended.count, self.until, slack):
            self.ends_of, self.ends = (self.ended.count, self.until, slack), {}
            for it in islice(self.ended.find(CallFilter()), MOST_COMPARED):
                if not it.ended or it.ended.wall < self.until - 2 * slack:
                    break
                self.ends.setdefault((it.slot, it.parties), []).append(it.ended.wall)
        return self.ends

    def find(self, log: CallLog, wanted: CallFilter, most: int, slack: float) -> list[SeenCall]:
        """The calls that are asked for: those that are active; those that the hub saw end since the last recorded term; and the records, the last to end first."""
        return list(islice(self._find(log, wanted, slack), most))

    def _find(self, log: CallLog, wanted: CallFilter, slack: float) -> Iterator[SeenCall]:
        left_out = 0
        for call in log.search(wanted):
            if call.ended is None or self.until is None:
                yield call
            elif call.ended.wall <= self.until or left_out == MOST_LEFT_OUT:
                break
            elif self.has(call, slack):
                left_out += 1
            else:
                yield call
        yield from self.ended.find(wanted)
