"""The calls of a file of records as a table, CSV and JSON, with who joined them; and which of them are asked for."""
import bisect
from collections.abc import Mapping
from dataclasses import dataclass
from typing import Any

from temzaar.moments import iso_text, short_text
from temzaar.names import CALL_FIELDS, NAME_COLUMNS, NO_NAMES, Kind, Names, called_kind, kind_of_call
from temzaar.printable import printable, rows_text, text_table
from temzaar.recordgaps import Gap
from temzaar.records import RecordedCall, RecordedEvent, Records, Where

COLUMNS = ("number", "term", "began", "ended", "seconds", "carrier", "slot", "kind", "source", "target", "cause", "waited_seconds", "joined")
TABLE = ("number", "began", "seconds", "waited", "slot", "kind", "source", "target", "cause", "joined")
# The columns of the table that are numbers, which end at the same place.
RIGHT = ("number", "seconds", "waited")
# What lists of calls have of the names of those that joined, after the other names.
JOINED_NAMES = "joined_names"
# The gaps that are listed: the newest.
MOST_GAPS = 20
# By how many milliseconds the times of one tick may differ in two terms, as ticks were late.
LATE_MS = 60_000


# How calls, and a report, may be written: as a table for people, and for machines.
TABLE_FORMAT = "table"
FORMATS = (TABLE_FORMAT, "csv", "json")


@dataclass(frozen=True)
class CallQuery:
    """Which calls are asked for. None: any. Of a radio: those that it began, and those to it. Of a time: those that were active then."""
    radio: int | None = None
    group: int | None = None
    carrier: int | None = None
    cause: str | None = None
    from_ms: int | None = None
    to_ms: int | None = None

    def where(self) -> Where:
        """The condition of the rows of `calls`."""
        parts: list[tuple[str, Any, int]] = [
            ("(source = ? OR (target = ? AND is_group = 0))", self.radio, 2), ("(target = ? AND is_group = 1)", self.group, 1), ("carrier = ?", self.carrier, 1),
            ("cause = ?", self.cause, 1), ("ended_ms >= ?", self.from_ms, 1), ("began_ms <= ?", self.to_ms, 1)]
        asked = [(text, value, count) for text, value, count in parts if value is not None]
        return " AND ".join(text for text, _, _ in asked) or "1", [value for _, value, count in asked for _ in range(count)]


# The radios that joined calls, by the numbers of the calls. A call is not in it if that is not known.
Joined = Mapping[int, list[int]]


def who_joined(records: Records, calls: list[RecordedCall]) -> Joined:
    """The radios that joined these calls, each in the order in which they first asked. The calls of a slot have no time in common."""
    joined: dict[int, dict[int, None]] = {it.number: {} for it in calls if it.waited is not None}
    by_slot: dict[tuple[int | None, int | None], list[RecordedCall]] = {}
    for call in sorted(calls, key=lambda it: it.began_ms):
        by_slot.setdefault((call.carrier, call.slot), []).append(call)
    for event in records.events(("kind = 'joined_call'", [])) if joined else ():
        of_slot = by_slot.get((event.carrier, event.slot), [])
        at = bisect.bisect_right(of_slot, event.at_ms, key=lambda it: it.began_ms)
        # the times of two terms may differ, so it may be a call next to that of the time
        for call in of_slot[max(0, at - 2):at + 1]:
            if call.number in joined and event.radio is not None and has_joined(event, call):
                joined[call.number][event.radio] = None
    return {number: [*radios] for number, radios in joined.items()}


def has_joined(event: RecordedEvent, call: RecordedCall) -> bool:
    """Whether an event of a slot is that a radio joined this call of the slot. The ticks say so, and the times that both are of one run of the controller."""
    is_near = call.began_ms - LATE_MS <= event.at_ms <= call.ended_ms + LATE_MS
    return is_near and event.target == call.target and event.term <= call.term and call.began <= event.tick <= call.ended


def call_row(call: RecordedCall, joined: list[int] | None, names: Names | None) -> dict[str, Any]:
    """The columns of a call. A time that the calendar does not have is None, as are a name that nothing has, and what is not known."""
    waited = None if call.waited_ms is None else call.waited_ms / 1000
    row = {"number": call.number, "term": call.term, "began": iso_text(call.began_ms), "ended": iso_text(call.ended_ms), "seconds": call.duration_ms / 1000,
           "carrier": call.carrier, "slot": call.slot, "kind": kind_of_call(call.is_group), "source": call.source, "target": call.target, "cause": call.cause,
           "waited_seconds": waited, "joined": joined}
    if names is None:
        return row
    of_joined = None if joined is None else [names.name_of(Kind.RADIO, it) for it in joined]
    return {**row, **names.of_call(called_kind(call.is_group), call.source, call.target, call.carrier), JOINED_NAMES: of_joined}


def table_cells(call: RecordedCall, joined: list[int], names: Names) -> list[str]:
    """The cells of a call in the table, by TABLE."""
    parties = names.call_cells(call.carrier, call.slot, call.is_group, call.target, call.source)
    waited = "" if call.waited_ms is None else f"{call.waited_ms / 1000:.1f}"
    return [str(call.number), short_text(call.began_ms), f"{call.duration_ms / 1000:.1f}", waited, *parties, printable(call.cause),
            ", ".join(names.label(Kind.RADIO, it, NAME_COLUMNS) for it in joined)]


def lines_below(gaps: list[Gap], until_ms: int | None) -> list[str]:
    """The lines below the calls: the times without records, and up to when the records go; None: there is no term."""
    if until_ms is None:
        return ["no term has ended yet: nothing is recorded"]
    more = [f"{len(gaps) - MOST_GAPS} earlier times without records are not listed"] if len(gaps) > MOST_GAPS else []
    return [*more, *(it.in_words() for it in gaps[-MOST_GAPS:]), f"recorded up to {short_text(until_ms)}; the term that is running is not in it"]


def write_sheet(calls: list[RecordedCall], joined: Joined, form: str, names: Names | None) -> str:
    """The calls in one of the FORMATS, with their names if there are any."""
    if form == TABLE_FORMAT:
        cells = [table_cells(it, joined.get(it.number, []), names or NO_NAMES) for it in calls]
        return text_table([[*TABLE], *cells], [it in RIGHT for it in TABLE])
    rows = [call_row(it, joined.get(it.number), names) for it in calls]
    return rows_text(rows, COLUMNS if names is None else (*COLUMNS, *CALL_FIELDS, JOINED_NAMES), form)
