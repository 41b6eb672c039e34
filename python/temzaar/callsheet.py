"""The list of calls as text, CSV and JSON."""
from temzaar.clock import Clock, Window
from temzaar.entries import Call
from temzaar.names import CALL_FIELDS, NO_NAMES, Names, called_kind, kind_of_call
from temzaar.printable import rows_text, text_table

COLUMNS = ("begun", "ended", "begun_time", "ended_time", "carrier", "slot", "kind", "source", "target", "cause", "waited_ticks", "waited_seconds")

# What the list calls the causes of records.
CAUSES = {"": "still active", "hang_time": "hang time", "maximum": "maximum length", "radio_left": "radio left", "dropped": "radio dropped by the operator",
          "ended_by_operator": "ended by the operator", "carrier_lost": "carrier lost"}


# How the list may be written.
FORMATS = ("text", "csv", "json")


def call_row(call: Call, clock: Clock, names: Names | None) -> dict[str, str | int | float | None]:
    """The columns of a call. A value that is not known, or that the call does not have, is None."""
    is_group, target, source = call.parties
    row = {
        "begun": call.began, "ended": call.ended, "begun_time": clock.full_time(call.began) or None,
        "ended_time": None if call.ended is None else clock.full_time(call.ended) or None,
        "carrier": call.carrier, "slot": call.slot, "kind": kind_of_call(is_group), "source": source, "target": target, "cause": CAUSES[call.cause],
        "waited_ticks": call.waited, "waited_seconds": None if call.waited is None else clock.seconds(call.waited),
    }
    return row if names is None else {**row, **names.of_call(called_kind(is_group), source, target, call.carrier)}


def calls_in(calls: list[Call], window: Window) -> list[Call]:
    """The calls that were active at some tick of a window."""
    return [it for it in calls if it.began < window.end and (it.ended is None or it.ended >= window.first)]


def text_cells(call: Call, clock: Clock, names: Names) -> list[str]:
    """The cells of a call in the text table."""
    def at(tick: int | None) -> str:
        """A tick, with its clock time if it is known."""
        return "-" if tick is None else f"{tick} {clock.time_of_day(tick)}".rstrip()

    waited = "-" if call.waited is None else f"{call.waited} ({clock.seconds(call.waited):.1f} s)"
    parties = names.call_cells(call.carrier, call.slot, *call.parties)
    return [at(call.began), at(call.ended), *parties, waited, CAUSES[call.cause]]


def write_list(calls: list[Call], clock: Clock, form: str, names: Names | None) -> str:
    """The list of calls in one of the FORMATS, with their names if there are any."""
    if form == "text":
        head = ["begun", "ended", "slot", "kind", "source", "target", "waited", "cause of the end"]
        return text_table([head, *(text_cells(it, clock, names or NO_NAMES) for it in calls)], [False] * len(head))
    rows = [call_row(it, clock, names) for it in calls]
    return rows_text(rows, COLUMNS if names is None else (*COLUMNS, *CALL_FIELDS), form)
