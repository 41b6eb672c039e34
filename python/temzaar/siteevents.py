"""What happened at a site, as a list for people: the events of a controller's file of records.

An event has a time, a kind, what it is about, and a text. `recorded_events` reads those of a file, without registrations and without the radios that joined a
call, since there are many.
The hub adds what it saw itself (`temzaar.hub.eventlog`), in the same form.
"""
from collections.abc import Iterator
from dataclasses import dataclass, replace
from enum import StrEnum

from temzaar import console, pdus
from temzaar.console import COLUMNS, are_numbers
from temzaar.moments import LAST_MS
from temzaar.names import NO_NAMES, Names, named
from temzaar.picture import LAST_RADIO
from temzaar.printable import printable
from temzaar.recordgaps import LEAST_MS, RESTARTED, find_gaps
from temzaar.records import LAST_CARRIER, LAST_SLOT, RecordedEvent, Records, is_whole, require

# How many events of a kind are read at most: the newest.
MOST_OF_A_KIND = 100


class EventKind(StrEnum):
    """What happened."""
    CONTROL_LOST = "control_lost"
    CONTROL_BACK = "control_back"
    CARRIER_LOST = "carrier_lost"
    CARRIER_BACK = "carrier_back"
    NO_POLLS = "no_polls"
    CONTROLLER_AWAY = "controller_away"
    CONTROLLER_BACK = "controller_back"
    CONTROLLER_STARTED = "controller_started"
    RECORDS_FAILED = "records_failed"
    UNRECORDED = "unrecorded"
    PAST_HUB = "past_hub"
    COMMAND = "command"
    REFUSED = "refused"
    HUB_STARTED = "hub_started"
    NAMES_FAILED = "names_failed"


# How many characters a reply in the records has at most.
MOST_REPLY = 40
# The kinds that an operator has to acknowledge.
NEED_ACKNOWLEDGEMENT = frozenset({
    EventKind.CONTROL_LOST, EventKind.CARRIER_LOST, EventKind.NO_POLLS, EventKind.CONTROLLER_AWAY, EventKind.CONTROLLER_STARTED, EventKind.RECORDS_FAILED,
    EventKind.UNRECORDED, EventKind.PAST_HUB})
# The kinds of `events` that are about a carrier, and those of commands.
CARRIERS = {"was_lost": EventKind.CARRIER_LOST, "came_up": EventKind.CARRIER_BACK}
COMMANDS = {f"{it.name}_command": it for it in console.COMMANDS if it.changes}
# The texts of events. Others have their detail.
TEXTS = {
    EventKind.CONTROL_LOST: "no control channel: carrier {0.carrier} was lost, and the site was "
                            "off the air",
    EventKind.CONTROL_BACK: "the control channel is back: carrier {0.carrier} came up",
    EventKind.CARRIER_LOST: "carrier {0.carrier} was lost",
    EventKind.CARRIER_BACK: "carrier {0.carrier} came up",
    EventKind.NO_POLLS: "a burst waited: carrier {0.carrier}, or the control carrier, did not poll",
    EventKind.CONTROLLER_AWAY: "the controller was away: {0.detail}",
    EventKind.CONTROLLER_BACK: "the controller answered again",
    EventKind.CONTROLLER_STARTED: "the controller was started{before}",
    EventKind.UNRECORDED: "terms were not written{after}",
    EventKind.PAST_HUB: "{0.line}, past the hub{outcome}",
    EventKind.COMMAND: "{0.line} by {0.user}{outcome}",
    EventKind.REFUSED: "radio {0.radio} was refused",
    EventKind.HUB_STARTED: "the hub was started",
}
# How kinds are shown of the carrier that has the control channel.
OF_CONTROL = {EventKind.CARRIER_LOST: EventKind.CONTROL_LOST, EventKind.CARRIER_BACK: EventKind.CONTROL_BACK}
# The reply of the console to a command that was done.
DONE = "ok"


@dataclass(frozen=True)
class SiteEvent:
    """An event; what its kind does not have is None. `at_ms` is in milliseconds since 1970, and `late_ms` is by how much it may be later than the event was: as
    much as the ticks of its term were late. `line` is a command as the console has it. `count` is how often a request was refused up to then, in the
    same term. `unrecorded_ms` is how long there are no records: before a start of the controller, or after the time of `unrecorded`. `row` is the number of the row
    that it was read from."""
    at_ms: int
    kind: EventKind
    carrier: int | None = None
    radio: int | None = None
    target: int | None = None
    reason: str | None = None
    line: str | None = None
    user: str | None = None
    reply: str | None = None
    count: int = 1
    unrecorded_ms: int | None = None
    detail: str | None = None
    late_ms: int = 0
    row: int | None = None

    @property
    def about(self) -> tuple[int | str | None, ...]:
        """What two reports of one event have in common, apart from the kind and, roughly, the time."""
        return self.carrier, self.radio, self.target, self.reason, self.line

    def shown_kind(self, control: int | None) -> EventKind:
        """The kind for people, if the carrier `control` has the control channel."""
        return OF_CONTROL.get(self.kind, self.kind) if self.carrier is not None and self.carrier == control else self.kind

    def in_words(self, control: int | None = None, names: Names = NO_NAMES) -> str:
        """The event for people, with names next to numbers. The carrier `control` has the control channel; None: that is not known."""
        return printable(names.in_text(self._text(self.shown_kind(control))) + self._refusal(names))

    def _text(self, kind: EventKind) -> str:
        """The text without what follows of a refusal."""
        if kind is EventKind.NO_POLLS and self.carrier is None:
            return "a carrier that was up did not poll"
        gap = f"; no records of the {self.unrecorded_ms / 1000:.1f} s " if self.unrecorded_ms else ""
        before, after = (gap and gap + when for when in ("before", "after this"))
        # the reply to a command, and what is to be said of it
        outcome = "".join(f": {it}" for it in (self.reply, self.detail) if it)
        text = TEXTS.get(kind, "{0.detail}")
        return text.format(self, before=before, after=after, outcome=outcome)

    def _refusal(self, names: Names) -> str:
        """Why a request was refused, what it was about, and how often. An address may be that of a radio or of a talkgroup."""
        if self.kind is not EventKind.REFUSED:
            return ""
        about = "" if self.target is None else f", about {named(self.target, names.of_address(self.target))}"
        return f": {self.reason}{about}{f', {self.count} times' if self.count > 1 else ''}"


def reason_text(reason: int | None) -> str:
    """A reason code, by its name if it has one."""
    if reason is None:
        return "none"
    return pdus.REASONS[reason].name if reason in pdus.REASONS else f"0x{reason:02X}"


def command_line(text: str) -> str:
    """A line of the console as the records would have it: single spaces, and numbers without zeros before them."""
    words = text.removesuffix("\\x0d").split()
    return " ".join(str(int(it)) if are_numbers([it]) else it for it in words)


def recorded_events(records: Records, since: int = 0, from_ms: int = 0, to_ms: int = LAST_MS, most: int = MOST_OF_A_KIND) -> list[SiteEvent]:
    """The events of the terms after the term `since` and of a time, in the order of their times; of each kind the newest `most`. Commands have no user: the
    file has none. BadRow: a row is damaged; sqlite3.Error: the file is."""
    late, found = late_terms(records, since, most), [*run_events(records, since, from_ms, to_ms, most)]
    for kinds in (("was_lost",), ("came_up",), tuple(COMMANDS)):
        condition = f"kind IN ({', '.join('?' * len(kinds))}) AND term > ? AND at_ms BETWEEN ? AND ?"
        rows = records.events((condition, [*kinds, since, from_ms, to_ms]), most)
        found += [replace(event_of(row), late_ms=late.get(row.term, 0)) for row in rows]
    found += refused_events(records, since, from_ms, to_ms, most)
    return sorted(found, key=lambda it: it.at_ms)


def event_of(row: RecordedEvent) -> SiteEvent:
    """The event of a row about a carrier or a command. BadRow: a value is not that of such a row."""
    name = f"events, row {row.number}"
    for column, most in (("at_ms", None), ("term", None), ("carrier", LAST_CARRIER), ("slot", LAST_SLOT), ("radio", LAST_RADIO), ("channel", LAST_RADIO)):
        value = getattr(row, column)
        require(is_whole(value, 0, most) or (value is None and most is not None), name, f"{column} is {value!r}")
    require(row.reply is None or (isinstance(row.reply, str) and len(row.reply) <= MOST_REPLY), name, f"reply is {row.reply!r:.40}")
    if row.kind in CARRIERS:
        require(row.carrier is not None, name, "it has no carrier")
        return SiteEvent(row.at_ms, CARRIERS[row.kind], carrier=row.carrier, row=row.number)
    reply = DONE if row.reply == "done" else (row.reply or "").replace("_", " ")
    return SiteEvent(row.at_ms, EventKind.COMMAND, line=line_of(row), reply=reply, row=row.number)


def line_of(row: RecordedEvent) -> str:
    """The line of a command, as the console has it."""
    name, *letters = COMMANDS[row.kind].words.split()
    return " ".join([name, *(str(getattr(row, COLUMNS[it])) for it in letters)])


def refused_events(records: Records, since: int, from_ms: int, to_ms: int, most: int) -> Iterator[SiteEvent]:
    """Refused requests. Those of a term by one radio, about one address and for one reason are one event, at the time of the last: a radio asks again and again."""
    rows = records.conn.execute(
        "SELECT max(at_ms), radio, target, reason, count(*), max(number) AS newest FROM events WHERE kind = 'refused' AND term > ? AND at_ms BETWEEN ? AND ? "
        "GROUP BY term, radio, target, reason ORDER BY newest DESC LIMIT ?", (since, from_ms, to_ms, most))
    for at_ms, radio, target, reason, count, number in rows:
        name = f"events, row {number}"
        for column, value in (("at_ms", at_ms), ("radio", radio)):
            require(is_whole(value, 0), name, f"{column} is {value!r}")
        for column, value in (("target", target), ("reason", reason)):
            require(value is None or is_whole(value, 0), name, f"{column} is {value!r}")
        yield SiteEvent(at_ms, EventKind.REFUSED, radio=radio, target=target, reason=reason_text(reason), count=count, row=number)


def run_events(records: Records, since: int, from_ms: int, to_ms: int, most: int) -> Iterator[SiteEvent]:
    """The starts of the controller, each with the time without records before it; and the times of a run of which no terms were written."""
    gaps = [it for it in find_gaps(records, since)[-most:] if from_ms <= it.to_ms and it.from_ms <= to_ms]
    before = {it.to_ms: it.to_ms - it.from_ms for it in gaps if it.why == RESTARTED}
    rows = records.conn.execute("SELECT number, ended_ms - ticks * tick_ms AS began_ms FROM terms WHERE number > ? AND last_tick = ticks AND began_ms BETWEEN ? AND ? "
                                "ORDER BY number DESC LIMIT ?", (since, from_ms, to_ms, most))
    for number, began_ms in rows:
        require(is_whole(began_ms), f"terms, row {number}", f"it began at {began_ms!r}")
        yield SiteEvent(began_ms, EventKind.CONTROLLER_STARTED, unrecorded_ms=before.get(began_ms), row=number)
    for gap in gaps:
        if gap.why != RESTARTED:
            yield SiteEvent(gap.from_ms, EventKind.UNRECORDED, unrecorded_ms=gap.to_ms - gap.from_ms)


def late_terms(records: Records, since: int, most: int) -> dict[int, int]:
    """The terms that seem to begin at another time than the term of the same run before them ended: their numbers, and by how many milliseconds. The clock of the
    machine was set within such a term, or the ticks were late."""
    rows = records.conn.execute(
        "SELECT t.number, abs(t.ended_ms - t.ticks * t.tick_ms - p.ended_ms) AS late FROM terms AS t JOIN terms AS p ON p.number = t.number - 1 "
        "WHERE t.number > ? AND t.last_tick - t.ticks = p.last_tick AND late > ? ORDER BY t.number DESC LIMIT ?", (since, LEAST_MS, most))
    found: dict[int, int] = {}
    for number, late in rows:
        require(is_whole(late), f"terms, row {number}", f"it began {late!r} ms after the term before it ended")
        found[number] = late
    return found
