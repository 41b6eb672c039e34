"""What the hub shows to its page, and to other readers of parts: the state without radios, the radios, the seen calls, the events, and the samples, as JSON."""
import time
from collections import defaultdict
from collections.abc import Callable
from dataclasses import dataclass, field
from typing import Any

from temzaar.hub.eventlog import EventFilter
from temzaar.hub.eventviews import events_view
from temzaar.hub.httpread import Kinds, Request, read_query
from temzaar.hub.keys import choice, instant, sought_text, whole_number
from temzaar.hub.model import SiteModel
from temzaar.hub.moment import Moment, utc_text
from temzaar.hub.namebook import Row
from temzaar.hub.recordreader import RecordReader
from temzaar.hub.samples import FIGURES, KINDS, SPANS, Span, Summary
from temzaar.hub.seencalls import CallFilter, SeenCall
from temzaar.hub.views import MISSED_POLLS, Views, json_octets, names_of_parties, names_of_radios, rounded
from temzaar.hub.web import JSON, Response, tagged_response
from temzaar.names import MOST_CHARACTERS, Kind, Names
from temzaar.picture import LAST_RADIO, RadioList
from temzaar.recordgaps import gaps_within

# How many calls a response has, if the query does not say, and at most.
USUAL_CALLS, MOST_CALLS = 100, 1000
# How many responses of a path are kept, each of some 400,000 octets at most.
MOST_KEPT = 16
CALL_KEYS = {"radio": whole_number(1, LAST_RADIO), "group": whole_number(1, LAST_RADIO), "from": instant(), "to": instant(), "last": whole_number(1, MOST_CALLS)}
EVENT_KEYS = {"from": instant(), "to": instant(), "refusals": choice("yes", "no"), "last": whole_number(1, MOST_CALLS)}
RADIO_KEYS = {"begins": whole_number(1, LAST_RADIO), "most": whole_number(1, MOST_CALLS)}
NAME_KEYS = {"find": sought_text(MOST_CHARACTERS), "most": whole_number(1, MOST_CALLS)}
HISTORY_KEYS = {"span": choice(*SPANS)}


@dataclass
class Kept:
    """The responses to the last queries, as long as what they are made of is the same."""
    made_of: object = None
    responses: dict[str, Response] = field(default_factory=dict)

    def find(self, made_of: object, query: str, make: Callable[[], Response]) -> Response:
        """The response to a query: the kept one, or a new one."""
        if made_of != self.made_of or (query not in self.responses and len(self.responses) >= MOST_KEPT):
            self.made_of = made_of
            self.responses.clear()
        if query not in self.responses:
            self.responses[query] = make()
        return self.responses[query]


@dataclass
class BoardViews:
    """The views of the page. Responses that take long to make are kept, by their paths."""
    views: Views
    kept: dict[str, Kept] = field(default_factory=lambda: defaultdict(Kept))

    @property
    def model(self) -> SiteModel:
        """The state of the site."""
        return self.views.model

    def state_json(self, _: Request) -> Response:
        """The state of the site, with the number of registered radios in place of their list."""
        view = self.views.site_view(Moment.now())
        if view["radios"]:
            view["radios"]["count"] = len(view["radios"].pop("registered"))
            del view["radios"]["names"]
        return Response(json_octets(view), JSON)

    def radios_json(self, request: Request) -> Response:
        """The registered radios, or those that the query asks for. The response stays the same until the list or names change. BadRequest: the query is refused."""
        return self._find(request, RADIO_KEYS, (self.model.radios_changed, self.views.book.version), self._make_radios)

    def _find(self, request: Request, kinds: Kinds, made_of: object, make: Callable[[dict[str, Any]], Response]) -> Response:
        """The response to a request: the kept one, or one that is made of its query. BadRequest: the query is refused."""
        return self.kept[request.path].find(made_of, request.query, lambda: make(read_query(request.query, kinds)))

    def _make_radios(self, query: dict[str, Any]) -> Response:
        """The radios by a query."""
        radios, changed = self.model.radios, self.model.radios_changed
        if radios is None or changed is None:
            return tagged_response(json_octets(None), JSON)
        found = [it for it in radios.radios if str(it).startswith(str(query["begins"]))] if "begins" in query else radios.radios
        listed = found[:query.get("most")]
        view = {"changed": utc_text(changed.wall, decimals=True), "complete": radios.is_complete, "registered": listed, "count": len(radios.radios), "found": len(found),
                "names": names_of_radios(listed, self.views.names)}
        return tagged_response(json_octets(view), JSON)

    def names_json(self, request: Request) -> Response:
        """The names that have a text in them. The response stays the same until names or the registered radios change. BadRequest: the query is refused."""
        return self._find(request, NAME_KEYS, (self.model.radios_changed, self.views.book.version), self._make_names)

    def _make_names(self, query: dict[str, Any]) -> Response:
        """The names by a query."""
        rows, is_complete = self.views.book.index.find(query.get("find", ""), query.get("most", USUAL_CALLS))
        return tagged_response(json_octets({"complete": is_complete, "names": [name_view(it, self.model.radios) for it in rows]}), JSON)

    def calls_json(self, request: Request) -> Response:
        """Calls that the hub has seen, and those of the records, by the query. The response stays the same until a call begins or ends, or is recorded.
        BadRequest: the query is refused."""
        log, recorded = self.model.calls, self.views.records.log if self.views.records else None
        made_of = log.count, log.ended.count, recorded and (recorded.until, recorded.ended.count), self.views.book.version
        return self._find(request, CALL_KEYS, made_of, self._make_calls)

    def _make_calls(self, query: dict[str, Any]) -> Response:
        """The calls by a query."""
        log = self.model.calls
        first, last = (query[name] / 1000 if name in query else None for name in ("from", "to"))
        wanted, most = CallFilter(query.get("radio"), query.get("group"), first, last), query.get("last", USUAL_CALLS)
        found, recorded = self._find_calls(wanted, most + 1), self.views.records.log if self.views.records else None
        until, ring = recorded.until if recorded else None, recorded.ended if recorded else log.ended
        view = {"since": utc_text(self.views.begun.wall, decimals=True), "poll_seconds": self.views.config.poll.state_seconds, "seen": log.count, "kept": log.ended.size,
                "recorded_until": None if until is None else utc_text(until, decimals=True), "complete": len(found) <= most and not ring.has_lost(first),
                "calls": [call_view(it, self.views.names) for it in found[:most]], "name": self._name_asked(query)}
        return tagged_response(json_octets(view), JSON)

    def _name_asked(self, query: dict[str, Any]) -> str | None:
        """The name of the group or the radio that a query names."""
        if "group" in query:
            return self.views.names.name_of(Kind.TALKGROUP, query["group"])
        return self.views.names.name_of(Kind.RADIO, query["radio"]) if "radio" in query else None

    def _find_calls(self, wanted: CallFilter, most: int) -> list[SeenCall]:
        """The calls that are asked for. Of those that ended before the last recorded term did, the records have the last word."""
        if self.views.records is None:
            return self.model.calls.find(wanted, most)
        return self.views.records.log.find(self.model.calls, wanted, most, MISSED_POLLS * self.views.config.poll.state_seconds)

    def events_json(self, request: Request) -> Response:
        """The events by the query. The response stays the same until one is added or changes. BadRequest: the query is refused."""
        return self._find(request, EVENT_KEYS, (self.views.events.version, self.model.control, self.views.book.version), self._make_events)

    def _make_events(self, query: dict[str, Any]) -> Response:
        """The events by a query."""
        wanted = EventFilter(query.get("from"), query.get("to"), query.get("refusals") != "no")
        view = events_view(self.views.events, wanted, query.get("last", USUAL_CALLS), self.model.control, self.views.names)
        return tagged_response(json_octets(view), JSON)

    def history_json(self, request: Request) -> Response:
        """The samples of a span. The response stays the same within a second, until a new picture or term. BadRequest: the query is refused."""
        made_of = int(time.monotonic()), self.model.seen, self.views.records and self.views.records.log.until
        return self._find(request, HISTORY_KEYS, made_of, self._make_history)

    def _make_history(self, query: dict[str, Any]) -> Response:
        """The samples by a query."""
        name, now = query.get("span", next(iter(SPANS))), Moment.now()
        view = span_view(name, self.model.samples.spans[name], now)
        view["recorded"] = recorded_view(self.views.records, name, now.wall)
        return Response(json_octets(view), JSON)


def call_view(call: SeenCall, names: Names) -> dict[str, Any]:
    """A call that was seen, or recorded."""
    carrier, slot = call.slot
    return {"number": call.number, "carrier": carrier, "slot": slot, "kind": call.parties.kind, "target": call.parties.target, "source": call.parties.source,
            "began": utc_text(call.began.wall, decimals=True), "older": call.is_older, "ended": utc_text(call.ended.wall, decimals=True) if call.ended else None,
            "end_seen": call.is_end_seen if call.ended else None, "seconds": rounded(call.seconds) if call.seconds is not None else None,
            "recorded": call.cause is not None, "cause": call.cause, **names_of_parties(call.parties, names), "carrier_name": names.name_of(Kind.CARRIER, carrier)}


def name_view(row: Row, radios: RadioList | None) -> dict[str, Any]:
    """A name that was found; of a radio also whether it is registered, if that is known."""
    is_known = row.kind is Kind.RADIO and radios is not None
    return {"kind": row.kind, "number": row.number, "name": row.name, "registered": radios.has(row.number) if is_known and radios else None}


def span_view(name: str, span: Span, now: Moment) -> dict[str, Any]:
    """The samples of a span, oldest first; null for a sample without a picture."""
    places = span.places(now)
    return {"time": utc_text(now.wall, decimals=True), "span": name, "step_seconds": span.step, "begins": utc_text(span.begins(now), decimals=True),
            "pictures": [0 if at is None else span.pictures[at] for at in places],
            "figures": {figure: columns_view([*span.summaries(figure, places)]) for figure in FIGURES}}


def recorded_view(records: RecordReader | None, name: str, now: float) -> dict[str, Any] | None:
    """The counts of a span by the records, oldest first; None if no term was read."""
    if records is None or records.log.until is None:
        return None
    span = records.samples[name]
    begins, began_ms = span.oldest(now) * span.step, records.log.begins_ms
    gaps = gaps_within(records.log.gaps, 1000 * begins, None)
    return {"begins": utc_text(begins), "from": None if began_ms is None else utc_text(began_ms / 1000, decimals=True), "until": utc_text(records.log.until, decimals=True),
            "gaps": [{"from": utc_text(it.from_ms / 1000, decimals=True), "to": utc_text(it.to_ms / 1000, decimals=True), "why": it.why} for it in gaps],
            "counts": {kind: span.of(kind, now) for kind in KINDS}}


def columns_view(summaries: list[Summary | None]) -> dict[str, list[float | None]]:
    """Summaries as columns."""
    return {"min": [short(it.least) if it else None for it in summaries], "mean": [short(it.mean) if it else None for it in summaries],
            "max": [short(it.greatest) if it else None for it in summaries]}


def short(value: float) -> float:
    """A number to the thousandth, a whole one without decimals."""
    return int(value) if value == int(value) else rounded(value)
