"""The events of the site that the hub keeps: those that it saw itself, and those of the controller's records, each once, in memory of a fixed size.

Of each kind the newest ones are kept, so that many of one kind, such as refused requests, displace none of another. An event that both the hub and the records have is one
event: of the same kind, about the same, and with times that differ by little.
"""
from collections import deque
from collections.abc import Iterable
from dataclasses import dataclass, replace
from heapq import nlargest

from temzaar.siteevents import MOST_OF_A_KIND, NEED_ACKNOWLEDGEMENT, EventKind, SiteEvent

# Kinds that may be one event: the records do not say who sent a command.
COMMANDS = (EventKind.COMMAND, EventKind.PAST_HUB)
# What ends what.
ENDS = {EventKind.CARRIER_BACK: EventKind.CARRIER_LOST, EventKind.CONTROLLER_BACK: EventKind.CONTROLLER_AWAY}


@dataclass(frozen=True)
class Acknowledgement:
    """Who acknowledged an event, and when, in milliseconds since 1970."""
    at_ms: int
    user: str


@dataclass
class KeptEvent:
    """An event of the log. `recorded` is its row and its time in the records; None if they do not have it, or not yet. `is_seen`: the hub has it of its own. `ended_ms` is when it was over, if that
    is known. `mark` is the name that the records of a command in the audit log share."""
    number: int
    event: SiteEvent
    is_seen: bool
    recorded: tuple[int | None, int] | None = None
    ended_ms: int | None = None
    needs: bool = False
    acknowledged: Acknowledgement | None = None
    mark: str | None = None

    def __post_init__(self) -> None:
        self.about = self.event.about

    @property
    def is_waiting(self) -> bool:
        """Whether an operator has to acknowledge it yet."""
        return self.needs and self.acknowledged is None

    def distance(self, event: SiteEvent, slack_ms: int, is_recorded: bool) -> int | None:
        """By how many milliseconds another report about the same differs from this event; None if it is of another event. `slack_ms` is how much that may be."""
        if is_recorded and self.recorded == (event.row, event.at_ms):
            # the row was read before: an older copy of the file is in its place
            return 0
        if (self.recorded is not None) if is_recorded else self.is_seen:
            return None
        differs = abs(self.event.at_ms - event.at_ms)
        return differs if differs <= slack_ms + max(self.event.late_ms, event.late_ms) else None


@dataclass(frozen=True)
class EventFilter:
    """Which events are asked for: of a time, in milliseconds since 1970, and whether refused requests are among them. None: of any time."""
    from_ms: int | None = None
    to_ms: int | None = None
    with_refusals: bool = True

    def passes(self, kept: KeptEvent) -> bool:
        """Whether an event is asked for."""
        at_ms = kept.event.at_ms
        in_time = (self.from_ms is None or at_ms >= self.from_ms) and (self.to_ms is None or at_ms <= self.to_ms)
        return in_time and (self.with_refusals or kept.event.kind is not EventKind.REFUSED)


class EventLog:
    """The events from `begins_ms` on. `version` is another one after each change. `forgotten` is how many were removed, for lack of room, before an operator acknowledged them."""

    def __init__(self, begins_ms: int = 0, most: int = MOST_OF_A_KIND) -> None:
        self.begins_ms, self.kinds = begins_ms, {kind: deque[KeptEvent](maxlen=most) for kind in EventKind}
        self.count = self.version = self.forgotten = 0

    def find_twin(self, event: SiteEvent, slack_ms: int, is_recorded: bool) -> KeptEvent | None:
        """The event that another report is of: the nearest one; None if there is none yet."""
        about, kinds = event.about, COMMANDS if event.kind in COMMANDS else (event.kind,)
        found = [(distance, kept) for kind in kinds for kept in self.kinds[kind]
                 if kept.about == about and (distance := kept.distance(event, slack_ms, is_recorded)) is not None]
        return min(found, key=lambda it: it[0])[1] if found else None

    def add(self, event: SiteEvent, slack_ms: int) -> KeptEvent:
        """Adds what the hub saw, unless the records had it first. The event."""
        twin = self.find_twin(event, slack_ms, is_recorded=False)
        return self.merge(twin, event) if twin else self.insert(event)

    def insert(self, event: SiteEvent, is_recorded: bool = False) -> KeptEvent:
        """Adds an event that the log does not have yet. The event."""
        self.count += 1
        kept = KeptEvent(self.count, event, not is_recorded, needs=event.kind in NEED_ACKNOWLEDGEMENT)
        ring = self.kinds[event.kind]
        if len(ring) == ring.maxlen and ring[0].is_waiting:
            self.forgotten += 1
        ring.append(kept)
        return self.merge(kept, event, is_recorded)

    def merge(self, kept: KeptEvent, event: SiteEvent, is_recorded: bool = False) -> KeptEvent:
        """Takes another report of an event. The event."""
        self.version += 1
        # what the hub sees is late, and so are times in a term whose ticks were late
        kept.event = replace(kept.event, at_ms=min(kept.event.at_ms, event.at_ms), late_ms=max(kept.event.late_ms, event.late_ms), user=kept.event.user or event.user)
        if is_recorded:
            kept.recorded = event.row, event.at_ms
        else:
            kept.is_seen = True
        if event.kind in ENDS:
            self.end(ENDS[event.kind], event.carrier, event.at_ms)
        return kept

    def remove(self, kept: KeptEvent) -> None:
        """Removes an event that has not happened after all."""
        self.version += 1
        self.kinds[kept.event.kind].remove(kept)

    def open_of(self, kind: EventKind, carrier: int | None) -> list[KeptEvent]:
        """The events of a kind about a carrier of which no end is known."""
        return [it for it in self.kinds[kind] if it.ended_ms is None and it.event.carrier == carrier]

    def end(self, kind: EventKind, carrier: int | None, at_ms: int) -> None:
        """What began before is over: an event of a kind about a carrier."""
        for kept in self.kinds[kind]:
            if kept.event.carrier == carrier and kept.event.at_ms <= at_ms and (kept.ended_ms is None or at_ms < kept.ended_ms):
                kept.ended_ms, self.version = at_ms, self.version + 1

    def waiting(self) -> list[KeptEvent]:
        """The events that an operator has to acknowledge yet, oldest first."""
        return sorted((it for ring in self.kinds.values() for it in ring if it.is_waiting), key=age_key)

    def of_number(self, number: int) -> KeptEvent | None:
        """The event of a number; None if there is none."""
        return next((it for ring in self.kinds.values() for it in ring if it.number == number), None)

    def acknowledge(self, events: Iterable[KeptEvent], forgotten: int, by: Acknowledgement) -> None:
        """An operator has acknowledged events, and a number of those that were removed. Who was first has done it."""
        self.version, self.forgotten = self.version + 1, max(0, self.forgotten - forgotten)
        for kept in events:
            kept.acknowledged = kept.acknowledged or by

    def find(self, wanted: EventFilter, most: int) -> tuple[list[KeptEvent], bool]:
        """The events that are asked for, `most` of them, and whether these are all: first those that wait for an acknowledgement, then the others, each newest first."""
        found = nlargest(most + 1, (it for ring in self.kinds.values() for it in ring if wanted.passes(it)), key=lambda it: (it.is_waiting, *age_key(it)))
        first = self.begins_ms if wanted.from_ms is None else wanted.from_ms
        has_lost = any(len(ring) == ring.maxlen and ring[0].event.at_ms > first for ring in self.kinds.values())
        return found[:most], len(found) <= most and first >= self.begins_ms and not has_lost


def age_key(kept: KeptEvent) -> tuple[int, int]:
    """By what events are ordered in time."""
    return kept.event.at_ms, kept.number
