"""What a file of records has to say, by what a player of the site saw. Each check returns the faults that it found, in words.

All times are in milliseconds since 1970, of one clock: the player and the controller run on the same machine. The player sees an effect some milliseconds after the
controller decided it. So an effect that was seen before the end of the last recorded term is in the records. One that was asked for after that end is not.
All others may be.
"""
from collections import defaultdict
from collections.abc import Iterable, Sequence
from dataclasses import dataclass

from temzaar.records import RecordedCall, RecordedTerm, Records, opened_records

# How far two readings of the clock may be apart, and how far a time that is computed from ticks may be wrong on a loaded machine.
MARGIN_MS, TOLERANCE_MS = 20, 2_000

Key = tuple[bool, int, int]


@dataclass
class PlayedCall:
    """A call that the player saw: its grant, and its P_CLEAR, None if that has not come."""
    is_group: bool
    source: int
    target: int
    carrier: int
    slot: int
    granted_ms: int
    cleared_ms: int | None = None

    @property
    def key(self) -> Key:
        """Its parties."""
        return self.is_group, self.source, self.target


@dataclass
class Change:
    """A radio's request to join or to leave, and the answer that did it, None if that has not come."""
    radio: int
    joins: bool
    asked_ms: int
    answered_ms: int | None = None


@dataclass(frozen=True)
class Contents:
    """What a file has: all terms, calls and registrations, and what SQLite's own check says."""
    terms: list[RecordedTerm]
    calls: list[RecordedCall]
    registered: list[int]
    integrity: str

    @property
    def last(self) -> int:
        """The number of the last term; 0 if there is none."""
        return self.terms[-1].number if self.terms else 0

    @property
    def until_ms(self) -> int:
        """When the last recorded term ended; 0 if there is none."""
        return self.terms[-1].ended_ms if self.terms else 0


def read_contents(path: str) -> Contents:
    """What a file has. RecordsFault: it cannot be read."""
    with opened_records(path) as records:
        return contents_of(records)


def contents_of(records: Records) -> Contents:
    """What an opened file has."""
    integrity = "; ".join(row[0] for row in records.conn.execute("PRAGMA integrity_check"))
    return Contents(records.terms(), records.calls(), records.registrations(), integrity)


def file_faults(found: Contents) -> list[str]:
    """What is wrong with a file in itself: its pages, gaps in its numbers, and a term whose count of calls is not the number of its rows."""
    faults = [] if found.integrity == "ok" else [f"integrity_check: {found.integrity}"]
    for name, numbers in (("terms", [it.number for it in found.terms]), ("calls", [it.number for it in found.calls])):
        if numbers != list(range(1, len(numbers) + 1)):
            faults.append(f"the numbers of {name} are not 1 to {len(numbers)}: {numbers}")
    for term in found.terms:
        rows = sum(it.term == term.number for it in found.calls)
        if rows != term.counts["ended"]:
            faults.append(f"term {term.number}: {term.counts['ended']} calls ended, and there are {rows} rows")
    if len(set(found.registered)) != len(found.registered):
        faults.append(f"a radio is registered twice: {found.registered}")
    return faults


def kept_faults(before: Contents, after: Contents) -> list[str]:
    """What is no longer in a file that was there before."""
    faults = []
    for name, old, new in (("terms", before.terms, after.terms), ("calls", before.calls, after.calls)):
        if list(new[:len(old)]) != list(old):
            faults.append(f"{name} of before have changed")
    return faults


def registration_faults(found: Sequence[int], before: Sequence[int], changes: Iterable[Change], until_ms: int) -> list[str]:
    """Whether the registered radios are those of before, after the changes up to the end of the last recorded term, in the order of joining."""
    expected, unsure = list(before), set()
    for change in changes:
        if change.answered_ms is not None and change.answered_ms < until_ms - MARGIN_MS:
            if change.radio in expected and not change.joins:
                expected.remove(change.radio)
            elif change.radio not in expected and change.joins:
                expected.append(change.radio)
        elif change.asked_ms <= until_ms + MARGIN_MS:
            unsure.add(change.radio)
    faults = [f"radio {it} is registered in the file, and did not join" for it in found if it not in expected and it not in unsure]
    faults += [f"radio {it} is not registered in the file, and did not leave" for it in expected if it not in found and it not in unsure]
    certain, wanted = ([it for it in those if it not in unsure] for those in (found, expected))
    if not faults and certain != wanted:
        faults.append(f"the order is {certain}, and radios joined in the order {wanted}")
    return faults


def by_key(calls: Iterable[PlayedCall] | Iterable[RecordedCall]) -> dict[Key, list]:  # type: ignore[type-arg]
    """Calls by their parties, in their order."""
    found: dict[Key, list] = defaultdict(list)  # type: ignore[type-arg]
    for call in calls:
        found[call.is_group, call.source, call.target].append(call)
    return found


def call_faults(recorded: Sequence[RecordedCall], played: Sequence[PlayedCall], until_ms: int, late_ms: int = 0) -> list[str]:
    """Whether the records of a run have each call that ended before the last recorded term did, once, and no other. Calls of the same parties follow one another.
    The player may have seen a call's beginning or end so much late."""
    faults, seen = [], by_key(played)
    rows = by_key(recorded)
    for key in sorted({*seen, *rows}):
        least = sum(it.cleared_ms is not None and it.cleared_ms < until_ms - MARGIN_MS for it in seen[key])
        if not least <= len(rows[key]) <= len(seen[key]):
            faults.append(f"{words_of(key)}: {len(rows[key])} records, and the player saw {len(seen[key])}, of which {least} ended before the last term")
        faults += [fault for row, call in zip(rows[key], seen[key]) if (fault := pair_fault(row, call, late_ms))]
    return faults


def words_of(key: Key) -> str:
    """The parties of a call."""
    return f"call of {key[1]} to {'group' if key[0] else 'radio'} {key[2]}"


def pair_fault(row: RecordedCall, call: PlayedCall, late_ms: int) -> str | None:
    """Why a record is not that of a call that the player saw, perhaps so much late; None if it is."""
    if (row.carrier, row.slot) != (call.carrier, call.slot):
        return f"{words_of(call.key)}: it is recorded on {row.carrier}/{row.slot}, and was on {call.carrier}/{call.slot}"
    times = [("began", row.began_ms, call.granted_ms)] + ([("ended", row.ended_ms, call.cleared_ms)] if call.cleared_ms is not None else [])
    for what, recorded, was in times:
        if abs(recorded - was) > TOLERANCE_MS + late_ms:
            return f"{words_of(call.key)}: by the record it {what} {recorded - was} ms after the player saw that"
    return None
