"""What `dmr_report` says of the traffic of a period: sheets of cells, as text, CSV and JSON.

`temzaar.reportpage` makes a page of them. Cells are numbers and texts; a number that is not known
is None, and is shown as a dash.
"""
import math
import textwrap
from collections.abc import Iterator, Sequence
from dataclasses import dataclass
from typing import NamedTuple

from temzaar.erlang import Demand, Service
from temzaar.moments import Span, iso_text, local_time, short_text
from temzaar.names import NO_NAMES, Kind, Names
from temzaar.printable import printable, rows_text, text_table
from temzaar.recordsheet import TABLE_FORMAT
from temzaar.sitefigures import seconds_in_words
from temzaar.traffic import HOUR_MS, RECONNECT_MS, Hour, SlotKey, Traffic, Use, busiest

# How many of the busiest are listed, and how many rows of other sheets as text and on the page.
BUSIEST, MOST_ROWS = 10, 20
# The sheet of hours, which as text and on the page is a table of days.
HOURS = "hours"
# The bounds of waits in the distribution, in seconds, and also the limit.
BOUNDS = (1.0, 2.0, 5.0, 10.0, 20.0, 30.0, 60.0)
# For how many slots more and less the formula is shown.
FEWER, MORE = 1, 2
MINUTE_MS = 60_000
# How wide lines of text are.
COLUMNS = 100

Cell = str | int | float | None


class Column(NamedTuple):
    """A column: its name, its unit, and with how many decimals it shows numbers. None: it has
    texts."""
    name: str
    unit: str = ""
    digits: int | None = None

    @property
    def title(self) -> str:
        """The name with the unit."""
        return f"{self.name}, {self.unit}" if self.unit else self.name

    def text(self, cell: Cell) -> str:
        """A cell, as it is shown."""
        if isinstance(cell, str):
            return printable(cell)
        if cell is None:
            return "" if self.digits is None else "–"
        return f"{cell:.{self.digits or 0}f}"


COUNT, SHARE = 0, 1
CALLS, JOINED = Column("calls", digits=COUNT), Column("joined", digits=COUNT)
IN_USE, OF_ALL = Column("in use", "min", 1), Column("share", "%", SHARE)
TIME = Column("time", "min", 2)


@dataclass(frozen=True)
class Sheet:
    """A part of the report. Without a row it says `nothing`. `bar` is the column whose numbers, in
    percent, the page shows as bars too."""
    key: str
    title: str
    columns: list[Column]
    rows: list[list[Cell]]
    notes: tuple[str, ...] = ()
    nothing: str = ""
    bar: str = ""

    def shown_rows(self) -> list[list[str]]:
        """The rows that people see, the first ones."""
        return [[column.text(cell) for column, cell in zip(self.columns, row, strict=True)]
                for row in self.rows[:MOST_ROWS]]

    def shown_notes(self) -> list[str]:
        """The notes, and how many rows are not shown."""
        more = len(self.rows) - MOST_ROWS
        left = [f"and {more} more; --format csv has all"] if more > 0 else []
        return [*left, *([] if self.rows or not self.nothing else [self.nothing]), *self.notes]


@dataclass(frozen=True)
class Asked:
    """What is asked of a report: its period, for how many seconds calls may wait, and the names. How
    many slots there are for calls, and which, if that is known."""
    span: Span
    limit: float
    slots: int | None = None
    slot_keys: tuple[SlotKey, ...] = ()
    names: Names | None = None

    def label(self, kind: Kind, number: int) -> list[Cell]:
        """The cells of a number, and of its name if there are names."""
        name = (self.names or NO_NAMES).name_of(kind, number)
        return [str(number)] if self.names is None else [str(number), name or ""]

    def columns(self, name: str) -> list[Column]:
        """The columns of `label`."""
        return [Column(name)] if self.names is None else [Column(name), Column("name")]


@dataclass(frozen=True)
class Report:
    """A report: its title, its most important figures, its hours and the busy one, its sheets, and
    what the figures are."""
    title: str
    facts: list[tuple[str, str]]
    hours: list[Hour]
    busy: Hour | None
    sheets: list[Sheet]
    notes: list[str]


def moment_text(at_ms: int) -> str:
    """A time to the minute."""
    return short_text(at_ms)[:16]


def percent(part: float, whole: float) -> float | None:
    """A share in percent; None of nothing."""
    return 100 * part / whole if whole else None


def title_of(span: Span) -> str:
    """The period in words: a day, days, or times."""
    first, last = moment_text(span.first), moment_text(span.end)
    if first.endswith("00:00") and last.endswith("00:00"):
        day, end_day = first[:10], moment_text(span.end - 1)[:10]
        return f"Traffic of {day}" if day == end_day else f"Traffic from {day} to {end_day}"
    return f"Traffic from {first} to {last}"


def make_report(traffic: Traffic, asked: Asked) -> Report:
    """The report of a period's figures."""
    sheets = [hours_sheet(traffic, asked), *slots_sheet(traffic, asked), waits_sheet(traffic, asked),
              *erlang_sheet(traffic, asked), refusals_sheet(traffic),
              busiest_sheet(traffic, asked, Kind.TALKGROUP),
              busiest_sheet(traffic, asked, Kind.RADIO), silent_sheet(traffic, asked),
              outages_sheet(traffic, asked), gaps_sheet(traffic), commands_sheet(traffic, asked)]
    facts, notes = [*facts_of(traffic, asked)], [*notes_of(traffic, asked)]
    return Report(title_of(asked.span), facts, traffic.hours, traffic.busy_hour(), sheets, notes)


def facts_of(traffic: Traffic, asked: Asked) -> Iterator[tuple[str, str]]:
    """The most important figures, each with its name."""
    yield "calls", str(traffic.calls)
    busy = traffic.busy_hour()
    yield "busy hour", moment_text(busy.begins_ms) if busy else "not known"
    if busy and busy.erlang:
        yield "traffic in it", f"{busy.erlang:.2f} Erlang"
        if asked.slots:
            yield "occupancy in it", f"{busy.erlang / asked.slots:.0%} of {asked.slots} slots"
    if waits := traffic.waits:
        yield "calls that waited", f"{sum(it > 0 for it in waits) / len(waits):.1%}"
        yield f"longer than {asked.limit:g} s", f"{longer(waits, asked.limit) / len(waits):.1%}"
    yield "refused requests", str(sum(it.requests for it in traffic.refusals))
    unrecorded = sum(it.ends_ms - it.begins_ms - it.recorded_ms for it in traffic.hours)
    yield "not recorded", seconds_in_words(unrecorded) if unrecorded else "nothing"


def notes_of(traffic: Traffic, asked: Asked) -> Iterator[str]:
    """What the figures are, and what is not known."""
    yield ("The traffic of an hour is how many slots were in use on average, in Erlang: the seconds "
           "of its calls, divided by the seconds of it that are recorded. A call has its slot from "
           "the grant to the end of its hang time, so the hang time is part of the traffic. Who "
           "talked in a call, and for how long, is not recorded.")
    yield ("A call counts in the hour in which it began. A call is recorded when it has ended, so "
           "calls that were active at the end of the records are not in them. Times are those of "
           "this machine's zone.")
    if traffic.unknown:
        yield (f"Of {traffic.unknown} calls it is not known for how long they waited, nor who "
               "joined them: an earlier version of the controller recorded them.")
    if asked.span.first < traffic.events_ms:
        yield ("The file keeps the newest 100,000 events. Those before "
               f"{short_text(traffic.events_ms)} are missing: refused requests, registrations, who "
               "joined calls, carriers and commands.")


def hours_sheet(traffic: Traffic, asked: Asked) -> Sheet:
    """The traffic of each hour."""
    columns = [Column("hour"), Column("traffic", "Erlang", 2), CALLS, Column("recorded", "min", 1)]
    rows: list[list[Cell]] = []
    for it in traffic.hours:
        occupancy = None if it.erlang is None else percent(it.erlang, asked.slots or 0)
        calls = it.calls if it.recorded_ms else None
        rows.append([iso_text(it.begins_ms), it.erlang, calls, it.recorded_ms / MINUTE_MS,
                     *([occupancy] if asked.slots else [])])
    if asked.slots:
        columns.append(Column("occupancy", "%", SHARE))
    notes = () if asked.slots else (
        "For the occupancy of slots, and for what more slots would change, give their number: "
        "--slots N, or --site FILE.",)
    return Sheet(HOURS, "Traffic by hour, Erlang", columns, rows, notes)


def slots_sheet(traffic: Traffic, asked: Asked) -> Iterator[Sheet]:
    """For how long each slot was in use, if the number of slots is known."""
    if not asked.slots:
        return
    columns = [Column("slot"), *([Column("name")] if asked.names else []), CALLS, IN_USE,
               Column("occupancy", "%", SHARE)]
    rows: list[list[Cell]] = []
    for carrier, slot in sorted({*traffic.slots, *asked.slot_keys}):
        use = traffic.slots.get((carrier, slot), Use())
        name = asked.label(Kind.CARRIER, carrier)[1:]
        rows.append([f"{carrier}/{slot}", *name, use.calls, use.used_ms / MINUTE_MS,
                     percent(use.used_ms, traffic.recorded_ms)])
    rows.append([f"all {asked.slots}", *([""] if asked.names else []), traffic.calls,
                 traffic.used_ms / MINUTE_MS,
                 percent(traffic.used_ms, asked.slots * traffic.recorded_ms)])
    yield Sheet("slots", "Occupancy of slots", columns, rows, bar="occupancy")


def longer(waits: Sequence[int], seconds: float) -> int:
    """How many waits are longer than some seconds."""
    return sum(it > 1000 * seconds for it in waits)


def waits_sheet(traffic: Traffic, asked: Asked) -> Sheet:
    """For how long calls waited, and which share of them for longer."""
    waits, bounds = traffic.waits, sorted({0.0, *BOUNDS, asked.limit})
    columns = [Column("wait"), CALLS, OF_ALL, Column("longer", "%", SHARE)]
    rows: list[list[Cell]] = []
    before = len(waits)
    for bound in bounds:
        left = longer(waits, bound)
        label = f"up to {bound:g} s" if bound else "none"
        counts = percent(before - left, len(waits)), percent(left, len(waits))
        rows.append([label, before - left, *counts])
        before = left
    rows.append([f"over {bounds[-1]:g} s", before, percent(before, len(waits)), None])
    if traffic.unknown:
        rows.append(["not known", traffic.unknown, None, None])
    notes = [*waits_notes(waits, asked.limit)] if waits else []
    return Sheet("waits", "How long calls waited for a slot", columns, rows if traffic.calls else [],
                 tuple(notes), "No call began.", "share")


def waits_notes(waits: list[int], limit: float) -> Iterator[str]:
    """The waits in words."""
    waited, count = [it for it in waits if it], len(waits)
    if waited:
        mean, most = sum(waited) / len(waited) / 1000, max(waited) / 1000
        yield (f"Of {count} calls {len(waited) / count:.1%} waited, for {mean:.1f} s on average and "
               f"{most:.1f} s at most. {longer(waits, limit) / count:.1%} waited longer than "
               f"{limit:g} s.")
    yield "Requests that were refused, or withdrawn while they waited, are not calls."


def refusals_sheet(traffic: Traffic) -> Sheet:
    """Refused requests, by their reason."""
    total = sum(it.requests for it in traffic.refusals)
    rows: list[list[Cell]] = [[*it, percent(it.requests, total)] for it in traffic.refusals]
    columns = [Column("reason"), Column("requests", digits=COUNT), Column("radios", digits=COUNT)]
    return Sheet("refusals", "Refused requests", [*columns, OF_ALL], rows,
                 nothing="No request was refused.", bar="share")


def use_cells(traffic: Traffic, use: Use) -> list[Cell]:
    """What somebody had of the traffic."""
    joined = None if traffic.unknown and traffic.unknown == traffic.calls else use.joined
    share = percent(use.used_ms, traffic.used_ms)
    return [use.calls, joined, use.used_ms / MINUTE_MS, share]


def busiest_sheet(traffic: Traffic, asked: Asked, kind: Kind) -> Sheet:
    """The busiest talkgroups, or radios by the calls that they began."""
    uses, more = (traffic.groups, "") if kind is Kind.TALKGROUP else (
        traffic.radios, ", by the calls that they began")
    rows = [[*asked.label(kind, number), *use_cells(traffic, use)]
            for number, use in busiest(uses, BUSIEST)]
    columns = [*asked.columns(kind), CALLS, JOINED, IN_USE, OF_ALL]
    joined = "Joined are requests for a talkgroup while a call of it was active."
    notes = (joined,) if rows and kind is Kind.TALKGROUP else ()
    return Sheet(f"{kind}s", f"Busiest {kind}s{more}", columns, rows, notes, "There is none.", "share")


def silent_sheet(traffic: Traffic, asked: Asked) -> Sheet:
    """The radios that were registered and never called."""
    rows = [[*asked.label(Kind.RADIO, number), called] for number, called in traffic.silent]
    count = len(rows)
    notes = (f"{count} in all, of which {sum(not it for _, it in traffic.silent)} were not called by "
             "their number either.",) if count else ()
    return Sheet("silent", "Registered, and never called",
                 [*asked.columns("radio"), Column("calls to it", digits=COUNT)], rows, notes,
                 "There is none.")


def outages_sheet(traffic: Traffic, asked: Asked) -> Sheet:
    """The times for which carriers were lost."""
    rows: list[list[Cell]] = [
        [short_text(it.from_ms), short_text(it.to_ms), *asked.label(Kind.CARRIER, it.carrier),
         (it.to_ms - it.from_ms) / MINUTE_MS, it.why if it.is_back else f"{it.why}, and not back"]
        for it in traffic.outages]
    columns = [Column("from"), Column("to"), *asked.columns("carrier"), TIME, Column("why")]
    notes = ("After a start of the controller a carrier counts as lost if it was not back within "
             f"{RECONNECT_MS // 1000} s.",)
    return Sheet("outages", "Outages of carriers", columns, rows, notes, "No carrier was lost.")


def gaps_sheet(traffic: Traffic) -> Sheet:
    """The times without records."""
    rows: list[list[Cell]] = [
        [short_text(it.from_ms), short_text(it.to_ms), (it.to_ms - it.from_ms) / MINUTE_MS, it.why]
        for it in traffic.gaps]
    columns = [Column("from"), Column("to"), TIME, Column("why")]
    return Sheet("unrecorded", "Times without records", columns, rows,
                 nothing="All of the period is recorded.")


def commands_sheet(traffic: Traffic, asked: Asked) -> Sheet:
    """What operators did."""
    names = asked.names or NO_NAMES
    rows: list[list[Cell]] = [[short_text(it.at_ms), names.in_text(it.line or ""), it.reply]
                              for it in traffic.commands]
    notes = ("Who sent it is in the hub's audit log.",) if rows else ()
    return Sheet("commands", "Commands of operators",
                 [Column("time"), Column("line"), Column("answer")], rows, notes,
                 "No operator changed anything.")


def erlang_sheet(traffic: Traffic, asked: Asked) -> Iterator[Sheet]:
    """What was measured in the busy hour, and what Erlang C says of more slots and of fewer."""
    busy = traffic.busy_hour()
    if not asked.slots or not busy or not busy.calls:
        return
    seconds = busy.used_ms / busy.calls / 1000
    calls_an_hour = busy.calls * HOUR_MS / busy.recorded_ms
    demand = Demand(1, calls_an_hour, seconds, asked.limit, 0)
    columns = [Column("slots"), Column("calls that wait", "%", SHARE),
               Column("mean of their waits", "s", 1),
               Column(f"longer than {asked.limit:g} s", "%", SHARE)]
    rows = [measured_row(busy, asked)]
    for slots in range(max(1, asked.slots - FEWER), asked.slots + MORE + 1):
        rows.append(service_row(Service.of(demand, slots)))
    notes = (f"In the busy hour {calls_an_hour:.0f} calls began, of S = {seconds:.1f} s on average: "
             f"A = {demand.erlang:.2f} Erlang. With n slots a call waits with the probability "
             "C = W / (1 + A + A²/2! + … + Aⁿ⁻¹/(n − 1)! + W), where W = Aⁿ/n! · n/(n − A). It waits "
             "longer than t seconds with C · e^(−(n − A) t/S); those that wait do so for S/(n − A) "
             "seconds on average.",
             "The formula holds if requests come independently of each other, and if most calls are "
             "short and a few long. If many radios call for one reason, more of them wait.")
    yield Sheet("erlang_c", "The busy hour with more slots, and with fewer, by Erlang C", columns,
                rows, notes)


def measured_row(busy: Hour, asked: Asked) -> list[Cell]:
    """What was measured in the busy hour."""
    waited, count = [it for it in busy.waits if it], len(busy.waits)
    mean = sum(waited) / len(waited) / 1000 if waited else None
    return [f"{asked.slots}, measured", percent(len(waited), count), mean,
            percent(longer(busy.waits, asked.limit), count)]


def service_row(service: Service) -> list[Cell]:
    """What the formula says of some slots."""
    has_end = math.isfinite(service.mean_wait)
    mean = service.mean_wait / service.waiting if has_end else "without end"
    return [str(service.slots), 100 * service.waiting, mean, 100 * service.too_long]


class Heat(NamedTuple):
    """Hours as rows of days: the hours of the clock, and for each day what it has of them."""
    clock: list[str]
    days: list[tuple[str, list[Hour | None]]]


def heat_of(hours: list[Hour]) -> Heat:
    """The hours of a period by days. If the clock is set back, an hour comes twice on that day."""
    days: dict[str, dict[tuple[int, int], Hour]] = {}
    for hour in hours:
        moment = local_time(hour.begins_ms)
        assert moment
        day = days.setdefault(f"{moment:%a %Y-%m-%d}", {})
        day[moment.hour, sum(clock == moment.hour for clock, _ in day)] = hour
    clock = sorted({it for day in days.values() for it in day})
    labels = [f"{hour:02}{' again' * bool(turn)}" for hour, turn in clock]
    return Heat(labels, [(name, [day.get(it) for it in clock]) for name, day in days.items()])


def heat_text(hour: Hour | None) -> str:
    """An hour's traffic, as a cell shows it: `*` if a part of it is not recorded."""
    if hour is None:
        return ""
    part = "" if hour.recorded_ms == hour.ends_ms - hour.begins_ms else "*"
    return "–" if hour.erlang is None else f"{hour.erlang:.1f}{part}"


def filled(notes: Sequence[str]) -> str:
    """Notes as lines of a terminal."""
    return "".join(f"{textwrap.fill(it, COLUMNS)}\n" for it in notes)


def text_report(report: Report) -> str:
    """The report for a terminal."""
    facts = text_table([list(it) for it in report.facts], [False, False])
    heat = heat_of(report.hours)
    lines = [["", *heat.clock], *([day, *map(heat_text, hours)] for day, hours in heat.days)]
    parts = [f"{report.title}\n\n{facts}"]
    for sheet in report.sheets:
        if sheet.key == HOURS:
            table, notes = text_table(lines, [False, *(True for _ in heat.clock)]), [*sheet.notes]
        else:
            rows = [[it.title for it in sheet.columns], *sheet.shown_rows()]
            table = text_table(rows, [it.digits is not None for it in sheet.columns])
            notes = sheet.shown_notes()
        parts.append(f"{sheet.title}\n{table if sheet.rows else ''}{filled(notes)}")
    parts.append(filled(report.notes))
    return "\n".join(parts)


def long_rows(report: Report) -> Iterator[dict[str, Cell]]:
    """The report as rows that each have one value: of which sheet and row, what the row is about,
    and what the value is."""
    for sheet in report.sheets:
        for number, row in enumerate(sheet.rows, 1):
            for column, cell in zip(sheet.columns[1:], row[1:], strict=True):
                value = round(cell, 6) if isinstance(cell, float) else cell
                yield {"section": sheet.key, "row": number, "key": row[0], "measure": column.name,
                       "value": value, "unit": column.unit}


def write_report(report: Report, form: str) -> str:
    """The report in one of the FORMATS."""
    if form == TABLE_FORMAT:
        return text_report(report)
    columns = "section", "row", "key", "measure", "value", "unit"
    return rows_text([*long_rows(report)], columns, form)
