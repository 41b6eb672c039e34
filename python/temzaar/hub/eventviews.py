"""The events of the site as JSON, and as rows of the line port."""
from typing import Any

from temzaar.hub.eventlog import EventFilter, EventLog, KeptEvent, age_key
from temzaar.hub.lines import EVENT, PLAIN, WAITS
from temzaar.hub.moment import utc_text
from temzaar.names import Kind, Names
from temzaar.printable import printable


def time_text(milliseconds: int) -> str:
    """A time in milliseconds since 1970, as RFC 3339 has it."""
    return f"{utc_text(milliseconds // 1000)[:-1]}.{milliseconds % 1000:03}Z"


def event_view(kept: KeptEvent, control: int | None, names: Names) -> dict[str, Any]:
    """An event as JSON; what it is about, without what its kind does not have. The carrier `control` has the control channel; None: that is not known."""
    event, by = kept.event, kept.acknowledged
    about = {
        "carrier": event.carrier, "radio": event.radio, "target": event.target, "reason": event.reason, "count": event.count if event.radio is not None else None,
        "line": event.line, "user": event.user, "reply": event.reply, "unrecorded_seconds": None if event.unrecorded_ms is None else event.unrecorded_ms / 1000,
        "carrier_name": None if event.carrier is None else names.name_of(Kind.CARRIER, event.carrier),
        "radio_name": None if event.radio is None else names.name_of(Kind.RADIO, event.radio), "target_name": names.of_address(event.target),
    }
    return {
        "number": kept.number, "time": time_text(event.at_ms), "kind": event.shown_kind(control), "text": event.in_words(control, names),
        "ended": None if kept.ended_ms is None else time_text(kept.ended_ms), "recorded": kept.recorded is not None,
        "waits": kept.is_waiting, "acknowledged": None if by is None else {"time": time_text(by.at_ms), "user": by.user},
        **{name: value for name, value in about.items() if value is not None},
    }


def events_view(log: EventLog, wanted: EventFilter, most: int, control: int | None, names: Names) -> dict[str, Any]:
    """The events that are asked for, as JSON, and how many of all wait for an acknowledgement."""
    found, is_complete = log.find(wanted, most)
    return {"from": time_text(log.begins_ms), "waiting": len(log.waiting()), "forgotten": log.forgotten, "complete": is_complete,
            "events": [event_view(it, control, names) for it in found]}


def event_row(kept: KeptEvent, control: int | None) -> str:
    """An event as a row of the line port: its number, its time, whether it waits, its kind and its text, when it was over, and who acknowledged it."""
    event, by = kept.event, kept.acknowledged
    over = "" if kept.ended_ms is None else f"; over {time_text(kept.ended_ms)}"
    done = "" if by is None else f"; acknowledged {time_text(by.at_ms)} by {by.user}"
    state = WAITS if kept.is_waiting else PLAIN
    return printable(f"{EVENT}{kept.number} {time_text(event.at_ms)} {state} {event.shown_kind(control)}: {event.in_words(control)}{over}{done}")


def event_rows(log: EventLog, most: int, control: int | None) -> list[str]:
    """The last events, `most` of them, oldest first. Those that wait for an acknowledgement are among them before others."""
    found, _ = log.find(EventFilter(), most)
    return [event_row(it, control) for it in sorted(found, key=age_key)]
