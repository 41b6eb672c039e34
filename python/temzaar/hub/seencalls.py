"""The calls that the hub has seen, from one picture to the next, in memory of a fixed size.

A call here is the same parties on the same slot in one picture after another. If the parties on a slot change, one call has ended and another has begun. The
same parties on another slot are another call. A call that begins and ends between two pictures is not seen.
"""
import struct
from collections.abc import Iterator, Mapping
from dataclasses import dataclass, replace
from itertools import chain, islice
from typing import Any

from temzaar.console import Parties, SlotKey
from temzaar.hub.moment import Moment
from temzaar.records import CAUSES

# How many calls that have ended are kept: about an hour of the busiest site, and days of a small one.
MOST_ENDED = 10_000
# A call that has ended: its number, carrier, slot, target, source and flags, and when it began and ended, on both clocks.
RECORD = struct.Struct("<QIIIIBdddd")
IS_GROUP, IS_OLDER, IS_END_SEEN = 1, 2, 4
# The cause of the end is in the flags from this bit on: 0 is none, and the last one is any other text.
CAUSE_BIT, CAUSE_NAMES = 3, (None, *CAUSES, "other")


@dataclass(frozen=True)
class SeenCall:
    """A call. `is_older`: it was there when the hub connected. `ended` is None while the last picture has it. `is_end_seen` is False if the hub lost the console
    before the end: `ended` is then when the call was seen last. `cause` is why it ended, if the call is one of the controller's records."""
    number: int
    slot: SlotKey
    parties: Parties
    began: Moment
    is_older: bool
    ended: Moment | None = None
    is_end_seen: bool = False
    cause: str | None = None

    @property
    def seconds(self) -> float | None:
        """How long it was seen; None if it has not ended."""
        return self.ended.steady - self.began.steady if self.ended else None


def pack_call(call: SeenCall) -> bytes:
    """The record of a call that has ended."""
    assert call.ended
    cause = CAUSE_NAMES.index(call.cause if call.cause in CAUSE_NAMES else CAUSE_NAMES[-1])
    flags = IS_GROUP * (call.parties.kind == "group") | IS_OLDER * call.is_older | IS_END_SEEN * call.is_end_seen | cause << CAUSE_BIT
    return RECORD.pack(call.number, *call.slot, call.parties.target, call.parties.source, flags, call.began.wall, call.began.steady, call.ended.wall, call.ended.steady)


def unpack_call(record: tuple[Any, ...]) -> SeenCall:
    """The call of a record's values."""
    number, carrier, slot, target, source, flags, *times = record
    parties = Parties("group" if flags & IS_GROUP else "radio", target, source)
    return SeenCall(number, (carrier, slot), parties, Moment(*times[:2]), bool(flags & IS_OLDER), Moment(*times[2:]), bool(flags & IS_END_SEEN),
                    CAUSE_NAMES[flags >> CAUSE_BIT])


@dataclass(frozen=True)
class CallFilter:
    """Which calls are asked for: those that a radio makes or receives, those to a group, and those that were active at some time between two; None: of any. Times are in
    seconds since 1970."""
    radio: int | None = None
    group: int | None = None
    first: float | None = None
    last: float | None = None

    def passes(self, is_group: bool, target: int, source: int) -> bool:
        """Whether a call with these parties is asked for."""
        has_radio = self.radio is None or self.radio == source or (not is_group and self.radio == target)
        return has_radio and (self.group is None or (is_group and self.group == target))

    def is_in_time(self, began: float, ended: float | None) -> bool:
        """Whether a call of this time is asked for; one without an end is active."""
        return (self.first is None or ended is None or ended >= self.first) and (self.last is None or began <= self.last)


class CallRing:
    """The last `size` calls that have ended."""

    def __init__(self, size: int) -> None:
        self.size, self.count, self.octets = size, 0, bytearray(size * RECORD.size)

    def append(self, call: SeenCall) -> None:
        """Adds a call, in place of the oldest if there is no room."""
        self.append_record(pack_call(call))

    def append_record(self, record: bytes) -> None:
        """Adds the record of a call."""
        at = self.count % self.size * RECORD.size
        self.octets[at:at + RECORD.size] = record
        self.count += 1

    def __len__(self) -> int:
        return min(self.count, self.size)

    def has_lost(self, first: float | None) -> bool:
        """Whether a call that was active at a time, or later, may have been displaced. None: at any time."""
        if self.count <= self.size:
            return False
        oldest = unpack_call(RECORD.unpack_from(self.octets, self.count % self.size * RECORD.size))
        return first is None or (oldest.ended is not None and first < oldest.ended.wall)

    def find(self, wanted: CallFilter) -> Iterator[SeenCall]:
        """The calls that are asked for, the last to end first."""
        for back in range(1, len(self) + 1):
            # most records are not asked for, and making a call of each would take several times as long
            record = RECORD.unpack_from(self.octets, (self.count - back) % self.size * RECORD.size)
            _, _, _, target, source, flags, began, _, ended, _ = record
            if wanted.passes(bool(flags & IS_GROUP), target, source) and wanted.is_in_time(began, ended):
                yield unpack_call(record)


class CallLog:
    """The active calls of the last picture, and those that have ended."""

    def __init__(self, size: int = MOST_ENDED) -> None:
        self.active: dict[SlotKey, SeenCall] = {}
        self.ended = CallRing(size)
        # how many calls have been seen
        self.count = 0
        self.last_look: Moment | None = None
        self.is_first_look = True

    def look(self, calls: Mapping[SlotKey, str], now: Moment) -> None:
        """Takes the calls of a picture: the parties on each slot, as texts."""
        seen = {slot: Parties.read(text) for slot, text in calls.items()}
        for call in [it for it in self.active.values() if seen.get(it.slot) != it.parties]:
            self._end(call, now, is_end_seen=True)
        for slot, parties in sorted(seen.items(), key=lambda it: it[0]):
            if slot not in self.active:
                self.count += 1
                self.active[slot] = SeenCall(self.count, slot, parties, now, self.is_first_look)
        self.last_look, self.is_first_look = now, False

    def begin(self) -> None:
        """A new connection begins. The ends of the calls of the last picture were not seen."""
        for call in list(self.active.values()):
            self._end(call, self.last_look or call.began, is_end_seen=False)
        self.is_first_look = True

    def _end(self, call: SeenCall, ended: Moment, is_end_seen: bool) -> None:
        """Moves an active call to those that have ended."""
        del self.active[call.slot]
        self.ended.append(replace(call, ended=ended, is_end_seen=is_end_seen))

    def find(self, wanted: CallFilter, most: int) -> list[SeenCall]:
        """The calls that are asked for, `most` of them: the active ones first, the last to begin first; then the others, the last to end first."""
        return list(islice(self.search(wanted), most))

    def search(self, wanted: CallFilter) -> Iterator[SeenCall]:
        """All calls that are asked for, in the order of `find`, one by one."""
        active = [it for it in self.active.values() if wanted.passes(it.parties.kind == "group", it.parties.target, it.parties.source) and wanted.is_in_time(it.began.wall, None)]
        return chain(sorted(active, key=lambda it: -it.number), self.ended.find(wanted))
