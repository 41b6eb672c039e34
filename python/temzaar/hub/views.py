"""What the hub shows to machines: the site as JSON, metrics in the text format of Prometheus, and whether all is well."""
import json
import os
from collections.abc import Iterable, Iterator, Sized
from dataclasses import dataclass, field
from typing import Any

from temzaar.console import Parties, SlotKey
from temzaar.hub.config import Config
from temzaar.hub.counts import Histogram, HubCounts, Series
from temzaar.hub.eventlog import EventLog
from temzaar.hub.lines import AWAY
from temzaar.hub.link import ConsoleLink
from temzaar.hub.model import UNSENT_SECONDS, SiteModel
from temzaar.hub.moment import Moment, utc_text
from temzaar.hub.namebook import NameBook
from temzaar.hub.recordreader import RecordReader
from temzaar.names import Kind, Names, called_kind
from temzaar.picture import Picture, Standing
from temzaar.process import Process
from temzaar.version import read_version

SLOT_STATES = ("control", "down", "call", "free", "waiting")
# A picture that is older than this many polls, and than the rule for the controller, counts as none.
MISSED_POLLS = 5


@dataclass
class Views:
    """Everything that the views are made of. `sessions` has the connections of operators; `records` is None if no file of records is read; `book` has the
    names, and `events` what happened."""
    config: Config
    link: ConsoleLink
    model: SiteModel
    counts: HubCounts
    sessions: Sized
    begun: Moment
    records: RecordReader | None
    book: NameBook
    events: EventLog
    version: str = field(default_factory=read_version)

    def __post_init__(self) -> None:
        if self.records:
            self.model.watch = self.records.watch
            self.model.watch.find_place = lambda: self.link.place

    @property
    def names(self) -> Names:
        """The names that are known."""
        return self.book.names

    def site_json(self) -> bytes:
        """The state of the site as JSON (docs/HUB.md)."""
        return json_octets(self.site_view(Moment.now()))

    def site_view(self, now: Moment) -> dict[str, Any]:
        """The state of the site."""
        state = self.link.state
        return {
            "time": utc_text(now.wall, decimals=True),
            "site": self.config.controller.site_name,
            "controller": {"up": state.is_up, "console": self.link.place.name if self.link.place else None, "since": utc_text(state.since.wall, decimals=True),
                           "reason": state.reason or None},
            "state": self._state_view(now),
            "radios": self._radios_view(now),
            "records": self._records_view(),
            "names": {"count": len(self.names), "bad_lines": self.book.bad_count, "fault": self.book.fault or None} if self.book.is_used else None,
        }

    def _state_view(self, now: Moment) -> dict[str, Any] | None:
        """The last picture; None if there is none yet."""
        picture, seen = self.model.picture, self.model.seen
        if picture is None or seen is None:
            return None
        fill, _, channel = picture.status.fill.partition(" ")
        return {
            "time": utc_text(seen.wall, decimals=True),
            "age_seconds": rounded(now.steady - seen.steady),
            "counts": picture.status.counts,
            "fill": {"kind": fill, "channel": int(channel) if channel.isdecimal() else None},
            "control": self._control_view(picture),
            "unsent": [self._unsent_view(slot, since) for slot, since in self.model.unsent(now).items()],
            "carriers": [self._carrier_view(picture, number, now) for number in picture.carriers],
            "queue": [{"place": place, **self._parties_view(("line", None, parties), now)} for place, parties in enumerate(picture.lines, 1)],
        }

    def _unsent_view(self, slot: SlotKey, since: Moment) -> dict[str, Any]:
        """A slot that waits for a poll."""
        return {"carrier": slot[0], "slot": slot[1], "since": utc_text(since.wall, decimals=True), "name": self._carrier_name(slot[0])}

    def _control_view(self, picture: Picture) -> dict[str, Any] | None:
        """The carrier that has the control channel; None if the controller names none."""
        if picture.control is None:
            return None
        known = self.model.carriers[picture.control]
        return {"carrier": picture.control, "up": known.is_up, "since": utc_text(known.since.wall, decimals=True), "name": self._carrier_name(picture.control)}

    def _carrier_name(self, number: int) -> str | None:
        """The name of a carrier."""
        return self.names.name_of(Kind.CARRIER, number)

    def _records_view(self) -> dict[str, Any] | None:
        """How far the records go, and what is wrong with them; None if the hub reads none."""
        if self.records is None:
            return None
        last, missing = self.model.watch.last, self.model.watch.missing_polls()
        return {"until": utc_text(last.ended_ms / 1000, decimals=True) if last else None, "overdue": self._is_overdue(), "fault": self.records.fault or None,
                "missing_polls": None if missing is None else round(missing, 2)}

    def _is_overdue(self) -> bool:
        """Whether the next term should have been recorded by now. While the controller is away none is due."""
        return self.link.state.is_up and self.model.watch.is_overdue()

    def _carrier_view(self, picture: Picture, number: int, now: Moment) -> dict[str, Any]:
        """A carrier with its slots."""
        slots = []
        for (carrier, slot), state in sorted(picture.slots.items()):
            if carrier == number:
                parties = picture.calls.get((carrier, slot))
                call = self._parties_view(("call", (carrier, slot), parties), now) if parties else None
                slots.append({"slot": slot, "state": state, "call": call})
        known = self.model.carriers[number]
        return {"number": number, "up": known.is_up, "since": utc_text(known.since.wall, decimals=True), "slots": slots, "name": self._carrier_name(number)}

    def _parties_view(self, standing: Standing, now: Moment) -> dict[str, Any]:
        """The parties of a call or of a request that waits, with its age."""
        parties, age = Parties.read(standing[2]), self.model.ages.find(standing, now.steady)
        return {"kind": parties.kind, "target": parties.target, "source": parties.source,
                "age_seconds": rounded(age.seconds) if age else None, "older": age.is_older if age else True, **names_of_parties(parties, self.names)}

    def _radios_view(self, now: Moment) -> dict[str, Any] | None:
        """The registered radios; None if there is no list yet."""
        radios, seen = self.model.radios, self.model.radios_seen
        if radios is None or seen is None:
            return None
        return {"time": utc_text(seen.wall, decimals=True), "age_seconds": rounded(now.steady - seen.steady), "complete": radios.is_complete, "registered": radios.radios,
                "names": names_of_radios(radios.radios, self.names)}

    def metrics(self) -> bytes:
        """All metrics."""
        series = self.all_series()
        return "".join(line for it in series for line in it.lines()).encode("utf-8")

    def all_series(self) -> list[Series | Histogram]:
        """All metrics, in the order in which they are shown."""
        waiting = gauge("dmr_site_events_unacknowledged", "Events of the site that an operator has to acknowledge yet.", len(self.events.waiting()))
        return [*self._site_series(), self.model.waits, waiting, *self._record_series(), *self._process_series(), *self.counts.all_series()]

    def _site_series(self) -> Iterator[Series]:
        """Gauges of the site. While the controller is away there are only its name and the one that says so."""
        yield gauge("dmr_site_info", "The site's name, as a label; the value is always 1.", 1, site=self.config.controller.site_name)
        yield gauge("dmr_site_controller_up", "Whether the controller answers.", int(self.link.state.is_up))
        picture, seen = self.model.picture, self.model.seen
        if not self.link.state.is_up or picture is None or seen is None:
            return
        now, counts = Moment.now(), picture.status.counts
        yield gauge("dmr_site_state_timestamp_seconds", "When the controller was asked for these values, in seconds since 1970.", seen.wall)
        up = Series("dmr_site_carrier_up", "Whether a carrier is up.")
        for number, carrier in self.model.carriers.items():
            up.set(int(carrier.is_up), carrier=str(number))
        yield up
        if picture.control is not None:
            about = "Whether the carrier with the control channel is up: without it radios have no service."
            yield gauge("dmr_site_control_up", about, int(picture.is_on_air), carrier=str(picture.control))
        yield gauge("dmr_site_longest_unsent_seconds", "How long the hub has seen the slot that has waited longest for a burst to be sent; 0 if none waits.", self.model.longest_unsent(now))
        slots = Series("dmr_site_slots", "Slots, by their state.")
        for state in SLOT_STATES:
            slots.set(sum(it == state for it in picture.slots.values()), state=state)
        yield slots
        yield gauge("dmr_site_registered_radios", "Radios that are registered.", counts["radios"])
        yield gauge("dmr_site_pending_asks", "Called radios that have not answered yet.", counts["asks"])
        yield gauge("dmr_site_waiting_requests", "Requests that wait for a slot.", counts["lines"])
        yield gauge("dmr_site_active_calls", "Calls.", counts["calls"])
        yield gauge("dmr_site_oldest_waiting_request_seconds", "How long the hub has seen the request that has waited longest; 0 if none waits.", self.model.longest_wait(picture, now))
        channel = picture.status.fill.removeprefix("move ")
        yield gauge("dmr_site_move_channel", "The channel that radios are sent to by `move`; 0 if they are not.", int(channel) if channel.isdecimal() else 0)

    def _record_series(self) -> Iterator[Series | Histogram]:
        """Counters and gauges of the records, if the hub reads them."""
        if self.records is None:
            return
        yield from self.records.counts.all_series()
        yield gauge("dmr_site_records_overdue", "Whether a term should have been recorded that was not.", int(self._is_overdue()))
        if self.records.version is not None:
            yield gauge("dmr_site_controller_info", "The controller's version, as a label; the value is always 1.", 1, version=self.records.version)
        about = "How many carriers' polls each of the last two recorded terms lacks, of those of the carriers that were up."
        yield gauge("dmr_site_missing_polls", about, self.model.watch.missing_polls())

    def _process_series(self) -> Iterator[Series]:
        """Gauges of the hub's process and connections."""
        process = Process(os.getpid())
        yield gauge("dmr_hub_info", "The hub's version, as a label; the value is always 1.", 1, version=self.version)
        yield gauge("dmr_hub_queued_questions", "Questions that wait for their turn.", len(self.link.queue))
        yield gauge("dmr_hub_line_connections", "Operators' connections that are served.", len(self.sessions))
        yield gauge("process_start_time_seconds", "When the hub started, in seconds since 1970.", self.begun.wall)
        yield gauge("process_cpu_seconds_total", "Processor time that the hub has used.", process.seconds())
        yield gauge("process_resident_memory_bytes", "Memory that the hub holds.", process.memory() * 1024)
        yield gauge("process_open_fds", "File descriptors that the hub has open.", process.descriptors())

    def health_faults(self) -> list[str]:
        """What is not well, by the rule of the config; empty if all is."""
        rule, now = self.config.health, Moment.now()
        if not self.link.state.is_up:
            away = now.steady - self.link.state.since.steady
            return [f"{AWAY}: {self.link.state.reason}"] if away > rule.controller_seconds else []
        seen = self.model.seen or self.link.state.since
        if now.steady - seen.steady > max(rule.controller_seconds, MISSED_POLLS * self.config.poll.state_seconds):
            return ["the controller answers, but the hub has no picture of the site"]
        return [*self._carrier_faults(now), *self._unsent_faults(now), *self._record_faults()]

    def _carrier_faults(self, now: Moment) -> Iterator[str]:
        """The carriers of the rule that are down."""
        rule, carriers = self.config.health, self.model.carriers
        if rule.carriers == "none" or not carriers:
            return
        for number in carriers if isinstance(rule.carriers, str) else rule.carriers:
            if number not in carriers:
                yield f"carrier {self.names.label(Kind.CARRIER, number)} is not in the site"
            elif not carriers[number].is_up and now.steady - carriers[number].since.steady > rule.carrier_seconds:
                control = "no control channel: " if self.model.picture and number == self.model.picture.control else ""
                yield f"{control}carrier {self.names.label(Kind.CARRIER, number)} is down since {utc_text(carriers[number].since.wall)}"

    def _unsent_faults(self, now: Moment) -> Iterator[str]:
        """The carriers of the rule that have a burst to send, and do not send it."""
        rule, picture = self.config.health, self.model.picture
        if rule.carriers == "none" or picture is None:
            return
        for (carrier, slot), since in self.model.unsent(now, max(UNSENT_SECONDS, rule.carrier_seconds)).items():
            if isinstance(rule.carriers, str) or {carrier, picture.control} & set(rule.carriers):
                yield f"slot {slot} of carrier {self.names.label(Kind.CARRIER, carrier)} waits for a poll since {utc_text(since.wall)}"

    def _record_faults(self) -> Iterator[str]:
        """What is wrong with the records, if the rule asks for them."""
        if self.config.health.records == "no" or self.records is None:
            return
        if self.records.fault:
            yield f"the hub cannot read the records: {self.records.fault}"
        elif self._is_overdue():
            last = self.model.watch.last
            yield f"no records since {utc_text(last.ended_ms / 1000)}" if last else "no records"


def names_of_parties(parties: Parties, names: Names) -> dict[str, str | None]:
    """The names of the parties of a call, or of a request that waits."""
    return {"target_name": names.name_of(called_kind(parties.kind == "group"), parties.target), "source_name": names.name_of(Kind.RADIO, parties.source)}


def names_of_radios(radios: Iterable[int], names: Names) -> dict[int, str]:
    """The names of those of some radios that have one. JSON makes a text of each number."""
    return {radio: name for radio in radios if (name := names.name_of(Kind.RADIO, radio))}


def gauge(name: str, about: str, value: float | None, **labels: str) -> Series:
    """A gauge, or a counter whose count is kept elsewhere, with one value; without one if that is not known."""
    series = Series(name, about)
    if value is not None:
        series.set(value, **labels)
    return series


def json_octets(view: Any) -> bytes:
    """A view as a line of JSON."""
    # without an indent, which takes Python a hundred times as long
    return json.dumps(view).encode("ascii") + b"\n"


def rounded(seconds: float) -> float:
    """Seconds to the millisecond."""
    return round(seconds, 3)
