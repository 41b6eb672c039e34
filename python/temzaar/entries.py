"""The journal of a site, as `dmr_decode journal --fields` prints it: its entries, and the calls and changes of registration in them.

`dmr_keeper` makes the records of a site from the same journal. What is here was written from docs/RECORDS.md, and shares nothing with it.
"""
from collections.abc import Iterable, Iterator
from dataclasses import dataclass
from typing import NamedTuple

from temzaar.faults import ToolFault
from temzaar.pdus import Parties

# What a line of each kind has, after the numbers of its entry if it is an event (docs/FORMATS.md, "Journals as fields").
ENTRY = ("entry", "input", "tick")
EVENTS = {"up": "carrier", "lost": "carrier", "heard": "carrier slot text", "noise": "carrier slot", "active": "carrier slot", "poll": "carrier", "tick": "", "say": "text"}
ANSWERS = {"queue": "carrier slot text", "send": "carrier slot text", "fill": "carrier slot text", "joined": "radio", "left": "radio", "asked": "target source attempt",
           "unasked": "source", "lined": "source target group", "unlined": "source", "began": "source target carrier slot group", "ended": "carrier slot", "reply": "text"}
FIELDS = {kind: keys.split() for kind, keys in ANSWERS.items()} | {kind: [*ENTRY, *keys.split()] for kind, keys in EVENTS.items()}

SlotKey = tuple[int, int]
OPERATOR = "operator"


class EntryFault(ToolFault):
    """The text is not a journal as `dmr_decode` prints it."""


class Row(NamedTuple):
    """An event, or an act or a line of a reply that answers one. It has a kind, and numbers by their keys. Its text is a PDU in words, a command, or a reply's line."""
    kind: str
    numbers: dict[str, int]
    text: str = ""


def read_row(line: str) -> Row:
    """The row of a line. EntryFault: it is not of a journal."""
    head, is_text, text = line.partition(" text=")
    kind, *fields = head.split(" ")
    pairs = [it.partition("=") for it in fields]
    if [key for key, _, _ in pairs] + ["text"] * bool(is_text) != FIELDS.get(kind) or not all(value.isdecimal() for _, _, value in pairs):
        raise EntryFault(f"not a line of a journal: {line}")
    return Row(kind, {key: int(value) for key, _, value in pairs}, text)


class Entry(NamedTuple):
    """An event, what the site did for it, and what it replied to an operator. `input` is the number of the script's input that it came with, from 1."""
    input: int
    tick: int
    event: Row
    acts: list[Row]
    replies: list[str]

    def party(self) -> str | None:
        """Whose event it is: `carrier 3`, or `operator`. None for a tick."""
        if self.event.kind == "say":
            return OPERATOR
        return f"carrier {self.event.numbers['carrier']}" if "carrier" in self.event.numbers else None

    def bursts(self) -> list[tuple[int, int, str]]:
        """The bursts of an answer to a poll: carrier, slot and PDU."""
        return [(it.numbers["carrier"], it.numbers["slot"], it.text) for it in self.acts if it.kind in ("send", "fill")]


def read_entries(lines: Iterable[str]) -> Iterator[Entry]:
    """The entries of a journal. EntryFault: a line is not of a journal, or an entry has not the number that follows."""
    entry: Entry | None = None
    count = 0
    for line in lines:
        row = read_row(line)
        if row.kind in EVENTS:
            if entry:
                yield entry
            count += 1
            number, *places = (row.numbers.pop(key) for key in ENTRY)
            if number != count:
                raise EntryFault(f"entry {number} follows entry {count - 1}")
            entry = Entry(*places, row, [], [])
        elif not entry:
            raise EntryFault(f"before the first entry: {line}")
        elif row.kind == "reply":
            entry.replies.append(row.text)
        else:
            entry.acts.append(row)
    if entry:
        yield entry


@dataclass
class Call:
    """A call. `began` and `ended` are ticks, `begins` and `ends` the indices of the inputs; `waited` is how many ticks its request waited for a slot, None if it did
    not. `cause` is that of records. While the call is active there is no end, and the cause is empty. `active` is the tick of the last activity on its slot."""
    carrier: int
    slot: int
    parties: Parties
    began: int
    begins: int = 0
    waited: int | None = None
    ended: int | None = None
    ends: int | None = None
    cause: str = ""
    active: int = 0


class Change(NamedTuple):
    """A change of registration, or a carrier that came up or was lost: `number` is that of the radio or carrier."""
    tick: int
    kind: str
    number: int


class History:
    """The calls of a journal by their beginnings, and its changes, in its order. Entries are added one after another. `hang` is the plan's."""

    def __init__(self, hang: int) -> None:
        self.hang = hang
        self.calls: list[Call] = []
        self.changes: list[Change] = []
        self.active: dict[SlotKey, Call] = {}
        # the tick at which the last request of each radio began to wait
        self.lined: dict[int, int] = {}

    def add(self, entry: Entry) -> None:
        """Adds the next entry."""
        kind, numbers = entry.event.kind, entry.event.numbers
        if kind in ("up", "lost"):
            self.changes.append(Change(entry.tick, "came_up" if kind == "up" else "was_lost", numbers["carrier"]))
            for key in sorted(key for key in self.active if key[0] == numbers["carrier"]):
                self._end(entry, key)
        elif kind == "active" and (call := self.active.get((numbers["carrier"], numbers["slot"]))):
            call.active = entry.tick
        before = ""
        for act in entry.acts:
            self._add_act(entry, act, before == "unlined")
            before = act.kind

    def _add_act(self, entry: Entry, act: Row, has_waited: bool) -> None:
        it = act.numbers
        if act.kind == "lined":
            self.lined[it["source"]] = entry.tick
        elif act.kind == "began":
            call = Call(it["carrier"], it["slot"], Parties(bool(it["group"]), it["target"], it["source"]), entry.tick, entry.input - 1, active=entry.tick)
            call.waited = entry.tick - self.lined[it["source"]] if has_waited else None
            self.active[call.carrier, call.slot] = call
            self.calls.append(call)
        elif act.kind == "ended":
            self._end(entry, (it["carrier"], it["slot"]))
        elif act.kind in ("joined", "left"):
            is_drop = act.kind == "left" and entry.event.kind == "say"
            self.changes.append(Change(entry.tick, "dropped" if is_drop else act.kind, it["radio"]))

    def _end(self, entry: Entry, key: SlotKey) -> None:
        call = self.active.pop(key)
        call.ended, call.ends, call.cause = entry.tick, entry.input - 1, self._cause(entry, call)

    def _cause(self, entry: Entry, call: Call) -> str:
        """Why a call ends with an entry, in the words of records."""
        kind = entry.event.kind
        if kind == "tick":
            return "hang_time" if entry.tick - call.active >= self.hang else "maximum"
        if kind == "say":
            return "dropped" if entry.event.text.startswith("drop ") else "ended_by_operator"
        return "radio_left" if kind == "heard" else "carrier_lost"


def calls_of(journal: str, hang: int) -> list[Call]:
    """The calls of a journal, by their beginnings. EntryFault: it is none."""
    history = History(hang)
    for entry in read_entries(journal.splitlines()):
        history.add(entry)
    return history.calls
