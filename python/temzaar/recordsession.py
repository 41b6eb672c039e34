"""A period of a file of records as a session that can be drawn: calls, carriers, registrations, refusals and operators' commands. Bursts are not recorded.

The ticks of the session are milliseconds, and have nothing to do with those of the site. Tick 1 is the period's beginning; at tick 0 is what was so before.
"""
from collections.abc import Iterator
from dataclasses import dataclass
from datetime import UTC, datetime
from typing import Any

from temzaar import pdus
from temzaar.clock import Clock, ClockFault, Window
from temzaar.drawing import Gap as DrawnGap, Session
from temzaar.entries import Call
from temzaar.moments import local_time, read_moment, short_text
from temzaar.names import NO_NAMES, Names, named
from temzaar.pdus import Parties
from temzaar.recordgaps import RESTARTED, Gap, find_gaps, gaps_within
from temzaar.records import RecordedCall, RecordedEvent, RecordedTerm, RecordsFault, opened_records
from temzaar.script import Event, Input
from temzaar.siteevents import COMMANDS, line_of

RADIO_EVENTS = {"joined": "was registered", "left": "left", "dropped": "was dropped by an operator"}
CARRIER_EVENTS = {"came_up": "up", "was_lost": "lost"}
# What comes first of what has the same time.
ORDER = ("lost", "stopped", "up", "radio", "said")


@dataclass(frozen=True)
class Happening:
    """Something with a time, in milliseconds since 1970, and what a picture has of it."""
    at_ms: int
    what: str
    carrier: int = -1
    text: str = ""


@dataclass
class Period:
    """The records of a period, whose times are in milliseconds since 1970. Events and terms are those before its end, also those before its beginning; `gaps`
    are all of the file."""
    from_ms: int
    to_ms: int
    terms: list[RecordedTerm]
    calls: list[RecordedCall]
    events: list[RecordedEvent]
    gaps: list[Gap]

    @property
    def origin_ms(self) -> int:
        """The time of tick 0, one tick before the period."""
        return self.from_ms - 1

    def tick_of(self, at_ms: int) -> int:
        """The tick of a time; 0 for all times before the period."""
        return max(0, at_ms - self.origin_ms)


def period_bounds(terms: list[RecordedTerm], first: str | None, last: str | None) -> tuple[int, int]:
    """The beginning and the end of the period that the words name, within that of the records. ClockFault, MomentFault: it has nothing of them, or a word is not a time."""
    begins, ends, now = min(it.began_ms for it in terms), terms[-1].ended_ms, datetime.now(UTC)
    from_ms = begins if first is None else max(begins, read_moment(first, now))
    to_ms = ends if last is None else min(ends, read_moment(last, now, is_end=True))
    if from_ms > ends:
        raise ClockFault(f"--from is {short_text(from_ms)}, and the records end at {short_text(ends)}")
    if to_ms < begins:
        raise ClockFault(f"--to is {short_text(to_ms)}, and the records begin at {short_text(begins)}")
    if from_ms > to_ms:
        raise ClockFault(f"--from is {short_text(from_ms)}, which is after {short_text(to_ms)} of --to")
    return from_ms, to_ms


def read_period(path: str, first: str | None, last: str | None) -> Period:
    """The records of a file in the period that the words name. RecordsFault: the file; ClockFault, MomentFault: the period."""
    with opened_records(path) as records:
        terms = records.terms()
        if not terms:
            raise RecordsFault(f"{path}: it has no term yet")
        from_ms, to_ms = period_bounds(terms, first, last)
        calls = records.calls(("ended_ms >= ? AND began_ms <= ?", [from_ms, to_ms]))
        events = records.events(("at_ms <= ?", [to_ms]))
        gaps = find_gaps(records)
    for call in calls:
        if call.slot not in (0, 1):
            raise RecordsFault(f"{path}: call {call.number} is on slot {call.slot}, and a carrier has slots 0 and 1")
    return Period(from_ms, to_ms, terms, calls, events, gaps)


def restarts(terms: list[RecordedTerm]) -> Iterator[int]:
    """When the controller was started again. In the first term of a run the ticks of the term are all of the run."""
    for before, term in zip(terms, terms[1:]):
        if term.last_tick == term.counts["ticks"] and before.last_tick > 0:
            yield max(before.ended_ms, term.started_ms)


def carrier_happenings(period: Period) -> Iterator[Happening]:
    """Carriers that come up and are lost. A restart of the controller loses all of them, which no event says: after a gap they are not up, and when they were
    lost is not known."""
    after_gaps = {it.to_ms for it in period.gaps}
    started = {*restarts(period.terms), *(it.to_ms for it in period.gaps if it.why == RESTARTED)}
    again = [(at_ms, None) for at_ms in started if at_ms <= period.to_ms]
    changes = [(it.at_ms, it) for it in period.events if it.kind in CARRIER_EVENTS and it.carrier is not None]
    up: set[int] = set()
    for at_ms, event in sorted([*again, *changes], key=lambda it: (it[0], it[1] is not None)):
        if event is None:
            what = "stopped" if at_ms in after_gaps else "lost"
            yield from (Happening(at_ms, what, carrier, text=f"when {RESTARTED}") for carrier in sorted(up))
            up.clear()
        elif event.kind == "came_up":
            assert event.carrier is not None
            # a carrier that comes up again was lost just before, which another event says
            if event.carrier not in up:
                yield Happening(at_ms, "up", event.carrier)
            up.add(event.carrier)
        elif event.carrier in up:
            yield Happening(at_ms, "lost", event.carrier)
            up.discard(event.carrier)


def happening_of(event: RecordedEvent, names: Names) -> Happening | None:
    """What a picture has of an event of a radio or an operator; None for another kind."""
    if event.kind in RADIO_EVENTS:
        return Happening(event.at_ms, "radio", text=f"{names.in_text(f'radio {event.radio}')} {RADIO_EVENTS[event.kind]}")
    if event.kind == "refused":
        reason = "no reason" if event.reason is None else pdus.reason_in_words(event.reason)
        # the records do not say whether it was to a radio or to a talkgroup
        target = named(str(event.target), names.of_address(event.target))
        return Happening(event.at_ms, "radio", text=f"the request of {names.in_text(f'radio {event.radio}')} to {target} was refused: {reason}")
    if event.kind == "joined_call":
        joined = f"radio {event.radio} asked for the call of group {event.target}"
        return Happening(event.at_ms, "radio", text=names.in_text(joined))
    if event.kind in COMMANDS:
        return Happening(event.at_ms, "said", text=f"{line_of(event)}: {(event.reply or '').replace('_', ' ')}")
    return None


def happenings(period: Period, names: Names) -> list[Happening]:
    """All that a picture shows but calls, in the order of time. Of events before the period there are those that say which carriers are up."""
    shown = (happening_of(it, names) for it in period.events if it.at_ms >= period.from_ms)
    return sorted([*carrier_happenings(period), *(it for it in shown if it)], key=lambda it: (it.at_ms, ORDER.index(it.what)))


def drawn_calls(period: Period) -> list[Call]:
    """The calls of a period, by their beginnings. The end of one that is longer is at its edge."""
    calls = [Call(it.carrier, it.slot, Parties(it.is_group, it.target, it.source), period.tick_of(it.began_ms), ended=period.tick_of(it.ended_ms), ends=0, cause=it.cause)
             for it in period.calls]
    return sorted(calls, key=lambda it: it.began)


def inputs_of(ticks: list[int], end: int) -> tuple[list[Input], list[int]]:
    """Inputs of which one is at each of these ticks, and their places; ticks between them, up to `end`."""
    inputs: list[Input] = []
    places, now = [], 0
    for tick in ticks:
        if tick > now:
            inputs.append(Input("tick", count=tick - now))
            now = tick
        places.append(len(inputs))
        inputs.append(Input("record"))
    return [*inputs, Input("tick", count=max(1, end - now))], places


def plan_of_records(period: Period, plan: dict[str, Any] | None) -> dict[str, Any]:
    """The site file, if there is one, and also the carriers that the records name. Which slot is the control slot is not recorded."""
    rows = plan["carrier"] if plan else []
    named = {it.carrier for it in period.calls} | {it.carrier for it in period.events if it.carrier is not None}
    return {**(plan or {}), "carrier": [*rows, *({"number": number} for number in sorted(named - {row["number"] for row in rows}))]}


def session_of(period: Period, plan: dict[str, Any] | None, names: Names = NO_NAMES) -> Session:
    """The session of a period, over the carriers of a site file and those that the records name."""
    found = happenings(period, names)
    ticks = [period.tick_of(it.at_ms) for it in found]
    inputs, places = inputs_of(ticks, period.tick_of(period.to_ms))
    events = [Event(places[n], ticks[n], it.what, it.carrier, text=it.text) for n, it in enumerate(found)]
    begins = local_time(period.origin_ms)
    clock = Clock(1, begins.replace(tzinfo=None).isoformat() if begins else None)
    gaps = [DrawnGap(period.tick_of(it.from_ms), period.tick_of(it.to_ms), it.why) for it in gaps_within(period.gaps, period.from_ms, period.to_ms)]
    return Session(plan_of_records(period, plan), inputs, events, clock, drawn_calls(period), has_ticks=False, gaps=gaps, names=names)


def window_of(session: Session) -> Window:
    """The whole period of a session of records, without the tick before it."""
    return Window(1, max(2, session.ticks + 1))
