"""What the hub sees happen: it compares what is so with what was so at the look before, and adds events to the log."""
from collections.abc import Iterator
from dataclasses import dataclass, field

from temzaar.hub.eventfeed import EventFeed
from temzaar.hub.link import ConsoleLink
from temzaar.hub.model import SiteModel
from temzaar.hub.moment import Moment
from temzaar.hub.namebook import NameBook
from temzaar.hub.recordreader import RecordReader
from temzaar.siteevents import EventKind, SiteEvent

# Seconds from one look to the next.
LOOK_SECONDS = 1.0
# For how many seconds something has to be so before it is an event. The controller is away, or has not answered since the hub's start.
AWAY_SECONDS, CONNECT_SECONDS = 1.0, 5.0
# A carrier is down when the hub has just connected, as after a start of the controller. The records cannot be read, as while the controller writes them.
REJOIN_SECONDS, RECORDS_SECONDS = 10.0, 60.0
# Terms that lack the polls of so large a part of a carrier: it did not poll.
MISSING_POLLS = 0.5

# What is so: the kind of the event, and the carrier that it is about.
Condition = tuple[EventKind, int | None]


@dataclass(frozen=True)
class Found:
    """Since when a condition holds, for how many seconds it has to, and a text about it."""
    since: Moment
    seconds: float = 0.0
    detail: str | None = None


@dataclass
class EventWatch:
    """Looks at what the hub knows. `holding` are the conditions that hold, each with whether it is an event."""
    feed: EventFeed
    link: ConsoleLink
    model: SiteModel
    book: NameBook
    records: RecordReader | None = None
    holding: dict[Condition, bool] = field(default_factory=dict)
    began: dict[Condition, Moment] = field(default_factory=dict)

    def begin(self, now: Moment) -> None:
        """The hub has started."""
        self._add(SiteEvent(wall_ms(now), EventKind.HUB_STARTED))

    def look(self, now: Moment) -> None:
        """Adds what has begun or ended since the last look."""
        present = dict(self._conditions(now))
        for condition, found in present.items():
            since = self.began.setdefault(condition, found.since)
            if not self.holding.get(condition) and now.steady - since.steady >= found.seconds:
                self.holding[condition] = True
                self._note_begin(condition, since, found.detail)
        for condition in [it for it in self.began if it not in present and self._is_known(it)]:
            del self.began[condition]
            if self.holding.pop(condition, False):
                self._note_end(condition, now)
        self._close_losses()

    def _is_known(self, condition: Condition) -> bool:
        """Whether it is known that a condition does not hold any more. What a carrier does is not known while the controller is away."""
        return condition[0] not in (EventKind.CARRIER_LOST, EventKind.NO_POLLS) or self._has_picture()

    def _has_picture(self) -> bool:
        """Whether there is a picture of this connection to the controller."""
        return self.link.state.is_up and self.model.first_seen is not None

    def _conditions(self, now: Moment) -> Iterator[tuple[Condition, Found]]:
        """What is so and should not be."""
        state = self.link.state
        if not state.is_up:
            yield (EventKind.CONTROLLER_AWAY, None), Found(state.since, AWAY_SECONDS if self.link.connection else CONNECT_SECONDS, state.reason)
        if self._has_picture():
            yield from self._carrier_conditions(now)
        if self.records and self.records.fault:
            yield (EventKind.RECORDS_FAILED, None), Found(now, RECORDS_SECONDS, f"the hub could not read the records: {self.records.fault}")
        elif state.is_up and self.model.watch.is_overdue():
            yield (EventKind.RECORDS_FAILED, None), Found(now, 0.0, "no records: the controller could not write them, or carriers did not poll")
        if self.book.fault:
            yield (EventKind.NAMES_FAILED, None), Found(now, 0.0, f"the hub could not read the names: {self.book.fault}")

    def _carrier_conditions(self, now: Moment) -> Iterator[tuple[Condition, Found]]:
        """Carriers that are down, or do not poll."""
        for number, carrier in self.model.carriers.items():
            if not carrier.is_up:
                yield (EventKind.CARRIER_LOST, number), Found(carrier.since, REJOIN_SECONDS if carrier.since == self.model.first_seen else 0.0)
        for (number, _), since in self.model.unsent(now).items():
            yield (EventKind.NO_POLLS, number), Found(since)
        if (self.model.watch.missing_polls() or 0.0) >= MISSING_POLLS:
            yield (EventKind.NO_POLLS, None), Found(now)

    def _add(self, event: SiteEvent) -> None:
        """Adds an event that the hub saw."""
        self.feed.log.add(event, self.feed.slack_ms)

    def _note_begin(self, condition: Condition, since: Moment, detail: str | None) -> None:
        """Something has begun. If a carrier's loss is known already, as from the records before a start of the hub, it is that one."""
        kind, carrier = condition
        event = SiteEvent(wall_ms(since), kind, carrier=carrier, detail=detail)
        if kind is EventKind.CARRIER_LOST and self.feed.log.open_of(kind, carrier) and not self.feed.log.find_twin(event, self.feed.slack_ms, is_recorded=False):
            return
        self._add(event)

    def _note_end(self, condition: Condition, now: Moment) -> None:
        """Something is over."""
        kind, carrier = condition
        if kind is EventKind.CARRIER_LOST and carrier in self.model.carriers:
            self._add(SiteEvent(wall_ms(self.model.carriers[carrier].since), EventKind.CARRIER_BACK, carrier=carrier))
        elif kind is EventKind.CONTROLLER_AWAY:
            self._add(SiteEvent(wall_ms(self.link.state.since), EventKind.CONTROLLER_BACK))
        # it is over, also if the clock was set back meanwhile
        for kept in self.feed.log.open_of(kind, carrier):
            self.feed.log.end(kind, carrier, max(kept.event.at_ms, wall_ms(now)))

    def _close_losses(self) -> None:
        """Ends the losses of the records whose carriers are up: the records of the end may be missing."""
        for carrier in {it.event.carrier for it in self.feed.log.kinds[EventKind.CARRIER_LOST] if it.ended_ms is None}:
            known = self.model.carriers.get(carrier) if carrier is not None and self._has_picture() else None
            if known and known.is_up:
                self.feed.log.end(EventKind.CARRIER_LOST, carrier, wall_ms(known.since))


def wall_ms(moment: Moment) -> int:
    """A moment in milliseconds since 1970."""
    return int(1000 * moment.wall)
