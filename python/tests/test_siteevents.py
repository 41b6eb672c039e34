"""The events of a file of records. The rows are those of `made_records`, and what is expected was worked out from them by hand."""
import time
import unittest
from typing import Any

from temzaar.names import Kind, names_of
from temzaar.records import BadRow, opened_records
from temzaar.siteevents import EventKind, SiteEvent, command_line, reason_text, recorded_events
from tests.made_records import NOON, change, insert, make_records, opened
from tests.support import FolderCase
from tests.test_hub_records import make_loose

# Of all three terms: milliseconds after noon, the kind, what it is about, and the text.
EVENTS: tuple[tuple[int, str, dict[str, Any], str], ...] = (
    (-60_000, "controller_started", {}, "the controller was started"),
    (-59_700, "carrier_back", {"carrier": 0}, "carrier 0 came up"),
    (-59_400, "carrier_back", {"carrier": 1}, "carrier 1 came up"),
    (-39_000, "command", {"line": "end 1 0", "reply": "ok"}, "end 1 0 by None: ok"),
    (-30_000, "refused", {"radio": 1002, "target": 99, "reason": "Group_Not_Allowed"}, "radio 1002 was refused: Group_Not_Allowed, about 99"),
    (6_000, "carrier_lost", {"carrier": 1}, "carrier 1 was lost"),
    (12_000, "refused", {"radio": 1002, "target": 99, "reason": "Group_Not_Allowed"}, "radio 1002 was refused: Group_Not_Allowed, about 99"),
    (18_000, "command", {"line": "move 7", "reply": "ok"}, "move 7 by None: ok"),
    # the second term ended at 30 s
    (100_000, "controller_started", {"unrecorded_ms": 70_000}, "the controller was started; no records of the 70.0 s before"),
    (100_600, "carrier_back", {"carrier": 0}, "carrier 0 came up"),
    (124_000, "refused", {"radio": 1004, "target": 1002, "reason": "Called_Party_Busy"}, "radio 1004 was refused: Called_Party_Busy, about 1002"),
    (124_600, "command", {"line": "drop 999", "reply": "not registered"}, "drop 999 by None: not registered"),
    (125_200, "command", {"line": "stay", "reply": "ok"}, "stay by None: ok"),
)
ABOUT = ("carrier", "line", "reply", "radio", "target", "reason", "unrecorded_ms")


def found_of(event: SiteEvent) -> tuple[int, str, dict[str, Any], str]:
    """An event in the form of EVENTS."""
    return event.at_ms - NOON, event.kind.value, {name: value for name in ABOUT if (value := getattr(event, name)) is not None}, event.in_words()


class Read(FolderCase):
    """What is read from a file."""

    def setUp(self) -> None:
        super().setUp()
        self.path = self.folder / "site.db"

    def read(self, **asked: int) -> list[SiteEvent]:
        """The events of the file."""
        with opened_records(str(self.path)) as records:
            return recorded_events(records, **asked)

    def test_all(self) -> None:
        make_records(self.path)
        self.assertEqual([found_of(it) for it in self.read()], [*EVENTS])

    def test_parts(self) -> None:
        """The terms after one, a time, and the newest of each kind."""
        make_records(self.path)
        for asked, wanted in (({"since": 2}, EVENTS[8:]), ({"from_ms": NOON}, EVENTS[5:]), ({"from_ms": NOON - 30_000, "to_ms": NOON + 6_000}, EVENTS[4:6]), ({"since": 3}, ()),
                              ({"most": 1}, (EVENTS[5], EVENTS[8], EVENTS[9], EVENTS[10], EVENTS[12]))):
            with self.subTest(asked):
                self.assertEqual([found_of(it) for it in self.read(**asked)], [*wanted])

    def test_no_term(self) -> None:
        make_records(self.path, terms=0)
        self.assertEqual(self.read(), [])

    def test_refused_again_and_again(self) -> None:
        """A radio asks three times for one thing in a term, and once for another: two events, each at the time of its last request."""
        make_records(self.path, terms=2)
        with opened(self.path) as conn:
            insert(conn, "events", ((21, 2, 1300, NOON + 18_000, "refused", None, None, 1002, 99, None, 0x2F, None),
                                    (22, 2, 1310, NOON + 18_600, "refused", None, None, 1002, 98, None, 0x7A, None),
                                    (23, 2, 1320, NOON + 19_200, "refused", None, None, 1002, 99, None, 0x2F, None)))
        found = [it for it in self.read(since=1) if it.kind is EventKind.REFUSED]
        self.assertEqual([(it.at_ms - NOON, it.count, it.in_words()) for it in found],
                         [(18_600, 1, "radio 1002 was refused: 0x7A, about 98"), (19_200, 3, "radio 1002 was refused: Group_Not_Allowed, about 99, 3 times")])

    def test_terms_that_were_not_written(self) -> None:
        """The third term is of the same run, and begins 500 ticks after the second ended."""
        make_records(self.path)
        change(self.path, "UPDATE terms SET last_tick = 3000 WHERE number = 3")
        found = [it for it in self.read(since=2) if it.kind in (EventKind.UNRECORDED, EventKind.CONTROLLER_STARTED)]
        self.assertEqual([(it.at_ms - NOON, it.unrecorded_ms, it.in_words()) for it in found],
                         [(30_000, 70_000, "terms were not written; no records of the 70.0 s after this")])

    def test_ticks_that_were_late(self) -> None:
        """The third term follows on the second without a gap of ticks, and seems to begin 70 s later: its times may be so much too late."""
        make_records(self.path)
        change(self.path, "UPDATE terms SET last_tick = 2500 WHERE number = 3")
        self.assertEqual({(it.kind.value, it.late_ms) for it in self.read(since=2)},
                         {("carrier_back", 70_000), ("command", 70_000), ("refused", 0)})

    def test_rows_that_the_controller_does_not_write(self) -> None:
        for table, column, value, number in (("events", "carrier", 16, 9), ("events", "carrier", None, 9), ("events", "carrier", "one", 9), ("events", "radio", -1, 15), ("events", "radio", 1 << 40, 15),
                                             ("events", "reply", b"x", 15), ("events", "reply", "x" * 41, 15), ("events", "reason", "busy", 14), ("events", "radio", None, 14), ("events", "target", 1.5, 14),
                                             ("terms", "ticks", 999.5, 3)):
            make_loose(self.path)
            if table == "terms":
                change(self.path, "UPDATE terms SET last_tick = ? WHERE number = 3", [value])
            change(self.path, f"UPDATE {table} SET {column} = ? WHERE number = ?", (value, number))
            with self.subTest(column=column, value=value), self.assertRaisesRegex(BadRow, rf"^{table}, row {number}: "):
                self.read()

    def test_times_that_no_calendar_has(self) -> None:
        """They are left out."""
        make_records(self.path)
        change(self.path, "UPDATE events SET at_ms = ? WHERE number = 9", [1 << 60])
        change(self.path, "UPDATE events SET at_ms = -1 WHERE number = 13")
        self.assertEqual([found_of(it) for it in self.read()], [it for it in EVENTS if it[0] not in (6_000, 100_600)])

    def test_a_hundred_thousand_rows(self) -> None:
        """Of each kind the newest hundred, in a second or so."""
        make_records(self.path, terms=1)
        with opened(self.path) as conn:
            insert(conn, "events", tuple((number, 1, number, NOON + number, ("was_lost", "came_up", "refused", "drop_command")[number % 4], 1, None, 1 + number // 4, None, None, 0x2F, "done")
                                         for number in range(100, 100_100)))
        began = time.thread_time()
        found = self.read()
        self.assertLess(time.thread_time() - began, 3)
        self.assertEqual([sum(it.kind is kind for it in found) for kind in (EventKind.CARRIER_LOST, EventKind.CARRIER_BACK, EventKind.REFUSED, EventKind.COMMAND)], [100] * 4)
        self.assertEqual(min(it.at_ms for it in found if it.kind is EventKind.REFUSED) - NOON, 100_098 - 4 * 99)


class Words(unittest.TestCase):
    """Texts."""

    def test_of_the_control_channel(self) -> None:
        for kind, shown, text in ((EventKind.CARRIER_LOST, "control_lost", "no control channel: carrier 0 was lost, and the site was off the air"),
                                  (EventKind.CARRIER_BACK, "control_back", "the control channel is back: carrier 0 came up")):
            event = SiteEvent(NOON, kind, carrier=0)
            self.assertEqual((event.shown_kind(0).value, event.in_words(0)), (shown, text))
            self.assertEqual((event.shown_kind(1), event.shown_kind(None)), (kind, kind))

    def test_names(self) -> None:
        names = names_of([((Kind.CARRIER, 0), "Mast"), ((Kind.RADIO, 1002), "Bus 12"), ((Kind.TALKGROUP, 99), "Drivers"), ((Kind.RADIO, 98), "Bus 1"), ((Kind.TALKGROUP, 98), "Depot")])
        for event, text in ((SiteEvent(NOON, EventKind.CARRIER_LOST, carrier=0), "carrier 0 [Mast] was lost"),
                            (SiteEvent(NOON, EventKind.REFUSED, radio=1002, target=99, reason="none"), "radio 1002 [Bus 12] was refused: none, about 99 [Drivers]"),
                            (SiteEvent(NOON, EventKind.REFUSED, radio=1002, target=98, reason="none"), "radio 1002 [Bus 12] was refused: none, about 98"),
                            (SiteEvent(NOON, EventKind.PAST_HUB, line="drop 1002", reply="ok"), "drop 1002 [Bus 12], past the hub: ok")):
            self.assertEqual(event.in_words(None, names), text)

    def test_nothing_commands_a_terminal(self) -> None:
        self.assertEqual(SiteEvent(NOON, EventKind.RECORDS_FAILED, detail="a\x1b[2Jb").in_words(), "a\\x1b[2Jb")

    def test_lines(self) -> None:
        for line, wanted in (("drop 1001", "drop 1001"), ("  drop   0001001 ", "drop 1001"), ("stay\\x0d", "stay"), ("end 0 01", "end 0 1"), ("drop x", "drop x"), ("", "")):
            self.assertEqual(command_line(line), wanted)

    def test_reasons(self) -> None:
        self.assertEqual([reason_text(it) for it in (0x2F, 0x7A, 5, None)], ["Group_Not_Allowed", "0x7A", "0x05", "none"])
