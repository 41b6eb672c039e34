"""The sources of the hub's events, apart from what it sees itself: the controller's records, and the audit log.

The audit log has who sent a command through the hub, and the records have each command that the controller received. A recorded command that the audit log does not have
went past the hub. The audit log also has who acknowledged what, so a hub that was started again knows that.
"""
import contextlib
from collections.abc import Iterable, Mapping
from dataclasses import fields, replace
from datetime import datetime
from typing import Any

from temzaar.console import CHANGES
from temzaar.hub.eventlog import Acknowledgement, EventLog, KeptEvent
from temzaar.moments import LAST_MS, milliseconds_of
from temzaar.records import is_whole
from temzaar.siteevents import EventKind, SiteEvent, command_line

# Seconds by which the times of two reports of an event differ at most, apart from ticks that were late, and how many pictures of the site may be missed.
SLACK_SECONDS, SLACK_POLLS = 5.0, 5
LOG_BEGINS_LATER = "the audit log that the hub read begins later"
# What a record of the audit log has of an event: all but what its kind does not have.
USUAL = {it.name: it.default for it in fields(SiteEvent)}
NUMBERS = {"at_ms", "carrier", "radio", "target", "count", "unrecorded_ms", "late_ms", "row", "ended_ms"}
# How many characters of a text of a record are kept.
MOST_CHARACTERS = 400
# The event of a record of the audit log that an operator has acknowledged events.
ACKNOWLEDGED = "acknowledged"


class EventFeed:
    """Fills a log of events. `since_ms` is from when on the audit log that the hub has read has all commands: before, a command may have been sent through the hub."""

    def __init__(self, log: EventLog, state_seconds: float, since_ms: int) -> None:
        self.log, self.since_ms = log, since_ms
        self.slack_ms = int(1000 * max(SLACK_SECONDS, SLACK_POLLS * state_seconds))

    def restore(self, records: Iterable[Mapping[str, Any]], from_ms: int) -> None:
        """Takes what the audit log had at the hub's start, oldest first, from a time on. A record of another form is left out: the file may be damaged."""
        for record in records:
            with contextlib.suppress(KeyError, TypeError, ValueError, AttributeError, OverflowError):
                at_ms = time_of(record)
                self.since_ms = min(self.since_ms, at_ms)
                if at_ms >= from_ms and record["event"] == ACKNOWLEDGED:
                    self._restore_acknowledged(record)
                elif at_ms >= from_ms:
                    self.take_audit(record)

    def take_audit(self, record: Mapping[str, Any]) -> None:
        """Takes a record of a command. It is an event once it has been asked, and none if it was not sent."""
        event = record.get("event")
        if event == "asked":
            self._add_command(record)
        elif event in ("answered", "unanswered", "not sent"):
            kept = next((it for it in reversed(self.log.kinds[EventKind.COMMAND]) if it.mark == record["id"]), None) or self._add_command(record)
            if kept and event == "not sent":
                self.log.remove(kept)
            elif kept:
                reply = text_of(record, "reply").removeprefix("error ") if event == "answered" else "no answer"
                kept.event = replace(kept.event, reply=reply)
                self.log.version += 1

    def _add_command(self, record: Mapping[str, Any]) -> KeptEvent | None:
        """The event of a command that was sent through the hub; None if its line does not begin as one."""
        line, user = command_line(text_of(record, "line")), text_of(record, "user")
        if line.split(" ")[0] not in CHANGES:
            return None
        # its record is on the disk before the controller receives the command, so the controller's records do not have it yet
        kept = self.log.insert(SiteEvent(time_of(record), EventKind.COMMAND, line=line, user=user))
        kept.mark = text_of(record, "id")
        return kept

    def _restore_acknowledged(self, record: Mapping[str, Any]) -> None:
        """Adds the events that an operator acknowledged before the hub's start."""
        by = Acknowledgement(time_of(record), text_of(record, "user"))
        for it in record["events"]:
            event, ended_ms = event_of_record(it)
            if all(other.event != event for other in self.log.kinds[event.kind]):
                kept = self.log.insert(event)
                kept.acknowledged, kept.ended_ms = by, ended_ms

    def take_recorded(self, events: Iterable[SiteEvent]) -> None:
        """Takes what is new in the records."""
        for event in events:
            twin = self.log.find_twin(event, self.slack_ms, is_recorded=True)
            if twin is None and event.kind is EventKind.COMMAND:
                begins_later = event.at_ms < self.since_ms - self.slack_ms
                event = replace(event, kind=EventKind.PAST_HUB, detail=LOG_BEGINS_LATER if begins_later else None)
            kept = self.log.merge(twin, event, is_recorded=True) if twin else self.log.insert(event, is_recorded=True)
            if event.kind is EventKind.CONTROLLER_STARTED and self._was_away(event.at_ms):
                # who acknowledges that the controller was away knows of it
                kept.needs = False

    def _was_away(self, at_ms: int) -> bool:
        """Whether the hub saw that the controller was away at a time. If it does not know the end, it knows of the time up to an acknowledgement."""
        for kept in self.log.kinds[EventKind.CONTROLLER_AWAY]:
            ended_ms = kept.ended_ms or (kept.acknowledged.at_ms if kept.acknowledged else at_ms)
            if kept.event.at_ms - self.slack_ms <= at_ms <= ended_ms + self.slack_ms:
                return True
        return False


def time_of(record: Mapping[str, Any]) -> int:
    """The time of a record of the audit log, in milliseconds since 1970. ValueError: it has none."""
    return milliseconds_of(datetime.fromisoformat(record["time"]))


def text_of(record: Mapping[str, Any], name: str) -> str:
    """The beginning of a text of a record. TypeError: it is none."""
    value = record[name]
    if not isinstance(value, str):
        raise TypeError(f"{name} is {value!r}")
    return value[:MOST_CHARACTERS]


def record_of_event(kept: KeptEvent) -> dict[str, Any]:
    """What the audit log has of an event that is acknowledged."""
    values = {name: getattr(kept.event, name) for name in USUAL}
    return {**{name: value for name, value in values.items() if value != USUAL[name]}, **({} if kept.ended_ms is None else {"ended_ms": kept.ended_ms})}


def event_of_record(record: Mapping[str, Any]) -> tuple[SiteEvent, int | None]:
    """The event of what `record_of_event` returned, and when it was over. KeyError, TypeError, ValueError: it is none."""
    values = dict(record)
    for name, value in values.items():
        if name not in NUMBERS:
            values[name] = text_of(values, name)
        elif isinstance(value, bool) or not is_whole(value, 0, LAST_MS):
            raise ValueError(f"{name} is {value!r}")
    ended_ms = values.pop("ended_ms", None)
    return SiteEvent(**{**values, "kind": EventKind(values["kind"])}), ended_ms
