"""The picture of a session, as an SVG: slots as rows, time in ticks, calls as bars with their parties, and a legend."""
from collections.abc import Iterator, Sequence
from html import escape
from typing import Any, NamedTuple

from temzaar import pdus
from temzaar.clock import Clock, Window
from temzaar.entries import Call, SlotKey
from temzaar.names import NAME_COLUMNS, NO_NAMES, Kind, Names, called_kind
from temzaar.pdus import Pdu, granted_parties, is_grant, is_late
from temzaar.printable import columns_of, cut_text, printable
from temzaar.script import Event, Input
from temzaar.timeaxis import TimeAxis

WIDTH, LEFT, ROW, TOP = 1100, 120, 26, 40
# The distance from one number of a tick to the next, without and with clock times; that of two polls that both have a mark.
NUMBER_ROOM, TIME_ROOM, POLL_ROOM = 34.0, 68.0, 0.5
# The room below the rows without the legend, and the height of a line of the legend.
BELOW, LEGEND_ROW = 24, 16
# Rows below those of the slots, for events that belong to no slot: by what they are, in their order.
LANES = {"radio": "radios", "said": "operator"}
COLOURS = ("#7fb3d5", "#f5b27a", "#8fd19e", "#c9a3e0", "#f2d16b", "#e59aa8", "#8fd3d1", "#c5b79b")
STYLE = """text{font:11px sans-serif;fill:#222}.small{font-size:9px;fill:#666}.row{fill:#f6f6f6}.control{fill:#eef3fa}.down{fill:#d9d9d9}
.grid{stroke:#ddd}.lost{stroke:#c0392b;stroke-width:2}.up{stroke:#27ae60;stroke-width:2}.poll{stroke:#bbb}.grant{fill:#1e6b35}.late{fill:#a6d3b3}.ended{fill:none;stroke:#1e6b35}.clear{fill:#a93226}
.ack{fill:#4a6fa5}.fill{fill:#c9d6e8}.heard{fill:#888}.said{fill:#6c3483}.call{stroke:#555;stroke-width:.5}"""

# What a picture with times that are not recorded has too.
HATCHED = """<style>.gap{fill:url(#gap)}</style><defs><pattern id="gap" width="7" height="7" patternUnits="userSpaceOnUse" patternTransform="rotate(45)">
<rect width="7" height="7" fill="#fff"/><rect width="2" height="7" fill="#c4a484"/></pattern></defs>"""


class LegendEntry(NamedTuple):
    """A mark of the legend: the class of the mark, its shape, what it means, and the room of the text."""
    kind: str
    shape: str
    text: str
    room: int


UPWARD, DOWNWARD, SQUARE, LINE = "M5 1l4 8h-8z", "M5 9l-4 -8h8z", "M3 1h4v8h-4z", "M5 0v10"
LEGEND = (
    (LegendEntry("call", "M0 1h10v8h-10z", "call", 50), LegendEntry("grant", UPWARD, "grant", 60), LegendEntry("late", UPWARD, "late grant", 85),
     LegendEntry("ended", UPWARD, "grant of a call that has ended", 190), LegendEntry("clear", DOWNWARD, "P_CLEAR", 75),
     LegendEntry("ack", SQUARE, "acknowledgement or other PDU", 185), LegendEntry("fill", SQUARE, "C_MOVE", 70)),
    (LegendEntry("heard", "M5 3a2 2 0 1 0 .1 0z", "burst or activity received", 165), LegendEntry("poll", "M5 3v4", "poll", 50),
     LegendEntry("said", "M5 2a3 3 0 1 0 .1 0z", "operator's line", 105), LegendEntry("down", "M0 0h10v10h-10z", "carrier not up", 105),
     LegendEntry("up", LINE, "carrier came up", 110), LegendEntry("lost", LINE, "carrier lost", 90)),
)
UNRECORDED = LegendEntry("gap", "M0 0h10v10h-10z", "not recorded", 90)


class Axis:
    """How far to the right each input of a replay's window is: ticks to one scale, and a step for each input within a tick."""

    def __init__(self, inputs: list[Input], window: Window, clock: Clock) -> None:
        self.window, self.clock = window, clock
        steps = ticks = tick = 0
        for it in inputs:
            ticks += self._ticks_inside(tick, it.count)
            tick += it.count
            steps += it.kind != "tick" and window.has(tick)
        room = WIDTH - LEFT - 20
        self.step = min(14.0, room * (0.7 if ticks else 1.0) / max(1, steps))
        self.scale = min(14.0, (room - self.step * steps) / max(1, ticks))
        # the place of each input, and the ticks before it; pairs of a tick and its place
        self.at: list[float] = []
        self.before: list[int] = []
        self.marks: list[tuple[int, float]] = [(window.first, LEFT)]
        self._place(inputs)

    def _ticks_inside(self, tick: int, count: int) -> int:
        """How many of the ticks after `tick` are in the window."""
        return max(0, min(tick + count, self.window.end) - max(tick, self.window.first))

    def _place(self, inputs: list[Input]) -> None:
        across: float = LEFT
        tick = 0
        for it in inputs:
            self.at.append(across)
            self.before.append(tick)
            if it.kind != "tick":
                across += self.step if self.window.has(tick) else 0
                continue
            inside = self._ticks_inside(tick, it.count)
            tick += it.count
            if inside:
                across += self.scale * inside
                self.marks.append((min(tick, self.window.end), across))
        self.end = across

    def place(self, tick: int, index: int) -> float:
        """The place of a tick that an input has, or after which it comes."""
        before = self.before[index]
        return self.at[index] + self.scale * self._ticks_inside(before, tick - before)

    def labels(self, apart: float) -> Iterator[tuple[int, float]]:
        """The ticks that get a number, and their places: not closer than `apart`."""
        last = None
        for tick, across in self.marks:
            if last is None or across - last > apart:
                yield tick, across
                last = across

    def time_text(self, tick: int) -> str:
        """The clock time of a mark."""
        return self.clock.time_of_day(tick)


def event_in_words(event: Event, names: Names = NO_NAMES) -> str:
    """An event in words, with names next to numbers."""
    def radio(number: int) -> str:
        """A radio."""
        return names.label(Kind.RADIO, number)

    if not event.octets:
        words = {"heard": "a burst was heard (flipped bits, or noise)", "said": f"operator: {names.in_text(event.text.strip())}", "radio": event.text}
        return words.get(event.what, event.what)
    pdu = pdus.read(event.octets)
    if pdu.name == "C_ACKD":
        return f"C_ACKD to {radio(pdu['target'])}: {pdus.reason_in_words(pdu['reason'])}"
    if is_grant(pdu):
        return f"{'late ' if is_late(pdu) else ''}{pdu.name} of channel {pdu['lpcn']} slot {pdu['slot']} to {names.in_text(str(granted_parties(pdu)))}"
    if pdu.name == "P_CLEAR":
        return f"P_CLEAR, called {names.label(called_kind(bool(pdu['group'])), pdu['target'])}"
    if pdu.name == "C_AHOY":
        return f"C_AHOY to {radio(pdu['called'])} from {radio(pdu['calling'])}"
    if pdu.name == "C_RAND":
        return f"C_RAND of {radio(pdu['source'])} to {names.label(called_kind(pdu['kind'] == pdus.TALKGROUP_VOICE), pdu['target'])}, kind {pdu['kind']}"
    if pdu.name == "C_ACKU":
        return f"C_ACKU of {radio(pdu['additional'])} to {radio(pdu['target'])}, reason {pdu['reason']:02X}"
    return event.octets.hex().upper() if pdu.name == pdus.OTHER else pdu.name


class Gap(NamedTuple):
    """Ticks of which the session has nothing, from one to another, and why."""
    first: int
    end: int
    why: str


class Session:
    """What is drawn: inputs and events over a site, its calls by their beginnings, its clock, and how many ticks it has. `has_ticks` is false if the ticks are not
    the site's, but milliseconds of records; then `gaps` are the times without records. `names` are those that are next to numbers."""

    def __init__(self, plan: dict[str, Any], inputs: list[Input], events: list[Event], clock: Clock, calls: list[Call], has_ticks: bool = True,
                 gaps: Sequence[Gap] = (), names: Names = NO_NAMES) -> None:
        self.plan, self.inputs, self.events, self.clock, self.calls = plan, inputs, events, clock, calls
        self.ticks = sum(it.count for it in inputs)
        self.has_ticks, self.gaps, self.names = has_ticks, gaps, names


class Drawing:
    """The SVG of a window of a session, part by part."""

    def __init__(self, session: Session, window: Window) -> None:
        self.plan, self.events, self.calls, self.clock = session.plan, session.events, session.calls, session.clock
        self.window, self.has_ticks, self.names = window, session.has_ticks, session.names
        self.axis: Axis | TimeAxis = Axis(session.inputs, window, session.clock)
        self.gaps: list[tuple[Gap, float, float]] = []
        if not session.has_ticks:
            axis = self.axis = TimeAxis(session.inputs, window, session.clock, LEFT, WIDTH - 20)
            places = ((gap, axis.place(gap.first), axis.place(gap.end)) for gap in session.gaps)
            self.gaps = [(gap, begins, ends) for gap, begins, ends in places if ends > begins]
        self.rows: list[SlotKey] = [(row["number"], slot) for row in sorted(self.plan["carrier"], key=lambda it: it["number"]) for slot in (0, 1)]
        self.by_lpcn = {row["lpcn"]: row["number"] for row in self.plan["carrier"] if session.has_ticks}
        used = {it.what for it in self.events}
        self.lanes = [what for what in LANES if what in used]
        # the lower edge of the rows, and of the picture
        self.bottom = TOP + ROW * (len(self.rows) + len(self.lanes))
        self.height = self.bottom + BELOW + LEGEND_ROW * len(LEGEND)
        self.parts: list[str] = []
        # the place of the last poll that was drawn, by carrier
        self.polled: dict[int, float] = {}

    def put(self, shape: str, title: str = "", text: str = "", **attributes: str | float) -> None:
        """Adds a shape with its attributes; `class_` is the attribute `class`."""
        names = "".join(f' {name.rstrip("_").replace("_", "-")}="{value:.1f}"' if isinstance(value, float) else f' {name.rstrip("_").replace("_", "-")}="{escape(str(value))}"' for name, value in attributes.items())
        inside = (f"<title>{escape(title)}</title>" if title else "") + escape(text)
        self.parts.append(f"<{shape}{names}>{inside}</{shape}>" if inside else f"<{shape}{names}/>")

    def above(self, slot: SlotKey) -> int:
        """The upper edge of a slot's row."""
        return TOP + ROW * self.rows.index(slot)

    def above_lane(self, what: str) -> int:
        """The upper edge of the row of events that belong to no slot."""
        return TOP + ROW * (len(self.rows) + self.lanes.index(what))

    def at_tick(self, tick: int) -> str:
        """A tick in words, with its clock time if it is known."""
        time = self.clock.time_of_day(tick)
        if not self.has_ticks:
            return time
        return f"tick {tick} ({time})" if time else f"tick {tick}"

    def draw(self) -> str:
        """The whole picture."""
        self.draw_rows()
        self.draw_outages()
        self.draw_gaps()
        self.draw_calls()
        for event in self.events:
            if self.window.has(event.tick):
                self.draw_event(event)
        self.draw_legend()
        head = f'<svg xmlns="http://www.w3.org/2000/svg" width="{WIDTH}" height="{self.height}" viewBox="0 0 {WIDTH} {self.height}">'
        hatched = [HATCHED] if self.gaps else []
        return "\n".join([head, f"<style>{STYLE}</style>", *hatched, '<rect width="100%" height="100%" fill="#fff"/>', *self.parts, "</svg>"]) + "\n"

    def draw_rows(self) -> None:
        """The rows, their names, the ticks, and the clock times above them."""
        for slot in self.rows:
            control = slot == (self.plan.get("control"), 0)
            self.put("rect", x=LEFT, y=self.above(slot) + 1, width=self.axis.end - LEFT, height=ROW - 2, class_="control" if control else "row")
            self.put("text", text=f"carrier {slot[0]} slot {slot[1]}", x=6, y=self.above(slot) + 13)
            below = [*(["control"] if control else []), *self.carrier_names(slot)]
            if below:
                self.put("text", text=" ".join(below), x=6, y=self.above(slot) + 23, class_="small")
        for what in self.lanes:
            self.put("text", text=LANES[what], x=6, y=self.above_lane(what) + 16)
        self.draw_axis()

    def carrier_text(self, carrier: int) -> str:
        """A carrier with its name."""
        return f"carrier {self.names.label(Kind.CARRIER, carrier)}"

    def carrier_names(self, slot: SlotKey) -> Iterator[str]:
        """The name of a carrier, as far as it fits below the name of its first row."""
        name = self.names.name_of(Kind.CARRIER, slot[0])
        if name and not slot[1]:
            yield cut_text(name, NAME_COLUMNS)

    def draw_axis(self) -> None:
        """The numbers of ticks, if they are the site's, and the clock times above them, if they are known."""
        timed = self.clock.start is not None
        names = [("tick", TOP - 12)] * self.has_ticks + [("time", TOP - 24)] * timed
        for name, y in names:
            self.put("text", text=name, x=LEFT - 30, y=y, class_="small")
        day = ""
        for tick, across in self.axis.labels(TIME_ROOM if timed else NUMBER_ROOM):
            self.put("line", x1=across, y1=TOP - 8, x2=across, y2=self.bottom, class_="grid")
            for name, y in names:
                self.put("text", text=str(tick) if name == "tick" else self.axis.time_text(tick), x=across, y=y, class_="small")
            if isinstance(self.axis, TimeAxis) and self.axis.date_text(tick) != day:
                day = self.axis.date_text(tick)
                self.put("text", text=day, x=across, y=TOP - 12, class_="small")

    def draw_outages(self) -> None:
        """Grey on both slots of a carrier while it is not up, and a line when it comes up or is lost."""
        for carrier in sorted({carrier for carrier, _ in self.rows}):
            since: float = LEFT
            changes = [it for it in self.events if it.carrier == carrier and it.what in ("up", "lost", "stopped")]
            for event in changes:
                across = self.axis.at[event.index]
                if event.what == "up":
                    self.draw_outage(carrier, since, across)
                if event.what != "stopped" and self.window.has(event.tick):
                    title = f"{self.carrier_text(carrier)} {event.what} {event.text} at {self.at_tick(event.tick)}"
                    self.put("line", title=title, x1=across, y1=self.above((carrier, 0)), x2=across, y2=self.above((carrier, 1)) + ROW, class_=event.what)
                since = across
            if not changes or changes[-1].what != "up":
                self.draw_outage(carrier, since, self.axis.end)

    def draw_outage(self, carrier: int, begins: float, ends: float) -> None:
        """Grey on both slots of a carrier."""
        if ends > begins:
            self.put("rect", title=f"{self.carrier_text(carrier)} is not up", x=begins, y=self.above((carrier, 0)) + 1, width=ends - begins, height=2 * ROW - 2, class_="down")

    def draw_gaps(self) -> None:
        """Hatching over all rows for the times that are not recorded: nobody knows what was so."""
        for gap, begins, ends in self.gaps:
            title = f"not recorded from {self.at_tick(gap.first)} to {self.at_tick(gap.end)}: {gap.why}"
            self.put("rect", title=title, x=begins, y=TOP, width=ends - begins, height=self.bottom - TOP, class_="gap")

    def draw_calls(self) -> None:
        """A bar for each call that is active in the window, in a colour for its parties."""
        kinds: dict[str, int] = {}
        for call in self.calls:
            slot, parties = (call.carrier, call.slot), str(call.parties)
            colour = COLOURS[kinds.setdefault(parties, len(kinds)) % len(COLOURS)]
            if call.began >= self.window.end or call.ended is not None and call.ended < self.window.first:
                continue
            begins = self.axis.place(call.began, call.begins)
            ends = self.axis.end if call.ended is None or call.ends is None else self.axis.place(call.ended, call.ends)
            across, shown, why = max(ends - begins, 2.0), self.names.in_text(parties), printable(call.cause.replace("_", " ")) or "still active"
            self.put("rect", title=f"{shown}: {why}", x=begins, y=self.above(slot) + 4, width=across, height=ROW - 10, class_="call", fill=colour)
            called = parties.split(" from ")[0]
            # the longest text that fits the bar
            text = next((it for it in (shown, self.names.in_text(called), parties, called) if across > 6 * columns_of(it)), "")
            if text:
                self.put("text", text=text, x=begins + 3, y=self.above(slot) + 16)

    def draw_event(self, event: Event) -> None:
        """The mark of an event."""
        across, title = self.axis.at[event.index], f"{self.at_tick(event.tick)}: {event_in_words(event, self.names)}"
        if event.what == "said":
            self.put("circle", title=title, cx=across + 3, cy=float(self.above_lane("said") + ROW / 2), r=3, class_="said")
        elif event.what == "radio":
            self.put("rect", title=title, x=across - 2, y=self.above_lane("radio") + 6, width=4, height=7, class_="ack")
        elif event.what == "polled" and across - self.polled.get(event.carrier, 0.0) >= POLL_ROOM:
            below = self.above((event.carrier, 1)) + ROW - 1
            self.put("line", x1=across, y1=below - 3, x2=across, y2=below, class_="poll")
            self.polled[event.carrier] = across
        elif event.what in ("heard", "active"):
            self.put("circle", title=title, cx=across, cy=self.above((event.carrier, event.slot)) + ROW - 5, r=2, class_="heard")
        elif event.what == "sent":
            self.draw_sent(event, across, title)

    def has_ended(self, grant: Pdu, index: int) -> bool:
        """Whether the call of a grant has ended when it is sent, as an answer to an input."""
        granted = self.by_lpcn.get(grant["lpcn"]), grant["slot"], granted_parties(grant)
        return not any((it.carrier, it.slot, it.parties) == granted and it.begins <= index and (it.ends is None or index < it.ends) for it in self.calls)

    def draw_sent(self, event: Event, across: float, title: str) -> None:
        """The mark of a PDU that was sent. A C_ALOHA has none."""
        pdu, above = pdus.read(event.octets), self.above((event.carrier, event.slot))
        if is_grant(pdu):
            has_ended = self.has_ended(pdu, event.index)
            kind = "ended" if has_ended else "late" if is_late(pdu) else "grant"
            title += ", a call that has ended" if has_ended else ""
            self.put("path", title=title, d=f"M{across:.1f} {above + 4}l4 8h-8z", class_=kind)
        elif pdu.name == "P_CLEAR":
            self.put("path", title=title, d=f"M{across:.1f} {above + 14}l-4 -8h8z", class_="clear")
        elif pdu.name != "C_ALOHA":
            self.put("rect", title=title, x=across - 2, y=above + 6, width=4, height=7, class_="fill" if pdu.name == "C_MOVE" else "ack")

    def draw_legend(self) -> None:
        """What the marks mean, below the rows. Each has the class of the mark, and the class `key`."""
        last = (*LEGEND[-1], *([UNRECORDED] if self.gaps else []))
        for line, entries in enumerate((*LEGEND[:-1], last)):
            across, above = LEFT, self.bottom + BELOW - 8 + LEGEND_ROW * line
            for entry in entries:
                fill = {"fill": COLOURS[0]} if entry.kind == "call" else {}
                self.put("path", d=entry.shape, transform=f"translate({across} {above})", class_=f"{entry.kind} key", **fill)
                self.put("text", text=entry.text, x=across + 14, y=above + 9, class_="small")
                across += entry.room
