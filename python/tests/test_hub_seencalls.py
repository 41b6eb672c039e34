"""The calls that the hub has seen: begun, ended and moved between pictures, over a lost connection, and in memory that does not grow."""
import tracemalloc
import unittest
from dataclasses import replace

from temzaar.console import Parties, SlotKey
from temzaar.hub.moment import Moment
from temzaar.hub.seencalls import MOST_ENDED, RECORD, CallFilter, CallLog, CallRing, SeenCall, pack_call, unpack_call
from temzaar.records import CAUSES

# Every call is asked for.
ALL = CallFilter()


def at(seconds: float) -> Moment:
    """A moment: the clock of the wall is 1000 s ahead of the steady one."""
    return Moment(1000 + seconds, seconds)


def log_of(*pictures: dict[SlotKey, str], size: int = 100) -> CallLog:
    """A log that has seen an empty picture at 0 s and these, one a second."""
    log = CallLog(size)
    log.look({}, at(0))
    for number, calls in enumerate(pictures, 1):
        log.look(calls, at(number))
    return log


def shown(log: CallLog) -> list[tuple[int, SlotKey, str, float, float | None]]:
    """All calls of a log: number, slot, parties, and when each began and ended."""
    return [(it.number, it.slot, f"{it.parties.kind} {it.parties.target} from {it.parties.source}", it.began.steady, it.ended.steady if it.ended else None)
            for it in log.find(ALL, 1000)]


class Looked(unittest.TestCase):
    """What pictures make of calls."""

    def test_a_call_begins_and_ends(self) -> None:
        call = {(0, 1): "group 91 from 1001"}
        log = log_of(call, call, {})
        self.assertEqual(shown(log), [(1, (0, 1), "group 91 from 1001", 1, 3)])
        found = log.find(ALL, 10)[0]
        self.assertEqual((found.seconds, found.is_older, found.is_end_seen, found.began.wall), (2, False, True, 1001))

    def test_which_calls_there_are(self) -> None:
        """An active call has no end. Other parties on a slot are another call, and a call that moves to another slot is two."""
        group, other, radio = "group 91 from 1001", "group 91 from 1002", "radio 1002 from 1003"
        for pictures, calls in (([{(0, 1): group}], [(1, (0, 1), group, 1, None)]), ([{(0, 1): group}, {(0, 1): other}], [(2, (0, 1), other, 2, None), (1, (0, 1), group, 1, 2)]),
                                ([{(0, 1): radio}, {(1, 0): radio}, {}], [(2, (1, 0), radio, 2, 3), (1, (0, 1), radio, 1, 2)])):
            self.assertEqual(shown(log_of(*pictures)), calls)
        self.assertIsNone(log_of({(0, 1): group}).find(ALL, 1)[0].seconds)

    def test_active_calls_come_first_and_the_last_ended_next(self) -> None:
        log = log_of({(0, 1): "group 91 from 1", (1, 0): "group 92 from 2", (1, 1): "group 93 from 3"}, {(0, 1): "group 91 from 1", (1, 1): "group 93 from 3"}, {(0, 1): "group 91 from 1"})
        self.assertEqual([it[0] for it in shown(log)], [1, 3, 2])
        self.assertEqual([it.number for it in log.find(CallFilter(group=93), 1)], [3])

    def test_the_first_picture_has_older_calls(self) -> None:
        log = CallLog()
        log.look({(0, 1): "group 91 from 1001"}, at(5))
        log.look({(0, 1): "group 91 from 1001", (1, 1): "group 92 from 1002"}, at(6))
        self.assertEqual([(it.number, it.is_older) for it in log.find(ALL, 10)], [(2, False), (1, True)])

    def test_the_controller_goes_away(self) -> None:
        """A call keeps its place while there is no picture. With the next connection it has ended when it was seen last, and its end was not seen."""
        call = {(0, 1): "group 91 from 1001"}
        log = log_of(call, call)
        self.assertEqual(len(log.active), 1)
        log.begin()
        self.assertEqual(log.active, {})
        log.look(call, at(60))
        now, before = log.find(ALL, 10)
        self.assertEqual((now.number, now.is_older, now.ended), (2, True, None))
        self.assertEqual((before.ended, before.seconds, before.is_end_seen), (at(2), 1, False))

    def test_a_connection_without_a_picture(self) -> None:
        log = CallLog()
        log.begin()
        log.begin()
        self.assertEqual((log.count, log.active, len(log.ended)), (0, {}, 0))


class Filtered(unittest.TestCase):
    """Calls of a radio, to a group, or both."""

    def test_filters(self) -> None:
        log = log_of({(0, 1): "group 91 from 1001", (1, 0): "radio 91 from 1002", (1, 1): "radio 1001 from 91"}, {(0, 1): "group 91 from 1001"})
        for wanted, numbers in ((CallFilter(), [1, 3, 2]), (CallFilter(radio=91), [3, 2]), (CallFilter(group=91), [1]), (CallFilter(radio=1001), [1, 3]),
                                (CallFilter(1001, 91), [1]), (CallFilter(1002, 91), []), (CallFilter(group=1001), [])):
            self.assertEqual([it.number for it in log.find(wanted, 10)], numbers, wanted)
            self.assertEqual([it.number for it in log.find(wanted, 1)], numbers[:1], wanted)


class Kept(unittest.TestCase):
    """The ring of calls that have ended."""

    def test_records(self) -> None:
        """A cause that is not known is another one."""
        causes = (*((it, it) for it in CAUSES), (None, None), ("=1+1", "other"))
        for cause, kept in causes:
            for kind, older, seen in (("group", True, False), ("radio", False, True), ("radio", True, True)):
                call = SeenCall(1 << 40, (15, 1), Parties(kind, 99_999_999, 16_777_215), Moment(1.8e9, 12.5), older, Moment(1.8e9 + 1, 13.5), seen, cause)
                self.assertEqual(unpack_call(RECORD.unpack(pack_call(call))), replace(call, cause=kept))

    def test_the_oldest_goes(self) -> None:
        ring = CallRing(3)
        for number in range(1, 6):
            ring.append(SeenCall(number, (0, 0), Parties("group", 1, 2), at(0), False, at(number), True))
            self.assertEqual(len(ring), min(number, 3))
        self.assertEqual([it.number for it in ring.find(ALL)], [5, 4, 3])

    def test_the_memory_is_fixed(self) -> None:
        """Twice as many calls as are kept take no more memory than the ring has, and that is what docs/HUB.md says."""
        log = CallLog()
        self.assertEqual((MOST_ENDED, len(log.ended.octets)), (10_000, 570_000))
        tracemalloc.start()
        for number in range(2 * MOST_ENDED):
            log.look({(number % 16, 1): f"group 91 from {number}"}, at(number))
        grown, _ = tracemalloc.get_traced_memory()
        tracemalloc.stop()
        self.assertLess(grown, 20_000)
        self.assertEqual((log.count, len(log.ended), len(log.active)), (2 * MOST_ENDED, MOST_ENDED, 1))
