"""The hub's counters and last calls of the controller's records. The rows are those of `made_records`, and the figures were counted in them by hand."""
import asyncio
import os
import pathlib
import re
import shutil
import sqlite3
import tempfile
import threading
import time
import unittest
from unittest import mock

from temzaar.console import Parties
from temzaar.hub.config import RecordsKeys
from temzaar.hub.moment import Moment
from temzaar.hub.newrecords import read_new, signature
from temzaar.hub.recordcounts import RecordCounts, RecordedLog
from temzaar.hub.recordreader import RecordReader, read_controller_version
from temzaar.hub.seencalls import CallFilter, CallLog, SeenCall
from temzaar.records import RecordedTerm
from tests.hub_support import change_records, quiet_notes, wait_until
from tests.made_records import NOON, TABLES, add_term, locked, make_records
from tests.test_hub_web import WebCase, samples_of

ALL = CallFilter()
# Of all three terms. Calls by kind and cause: each cause but one has one call.
TOTALS = {
    'dmr_site_calls_total{kind="group",cause="hang_time"}': 1, 'dmr_site_calls_total{kind="group",cause="carrier_lost"}': 1, 'dmr_site_calls_total{kind="group",cause="maximum"}': 1,
    'dmr_site_calls_total{kind="radio",cause="ended_by_operator"}': 1, 'dmr_site_calls_total{kind="radio",cause="radio_left"}': 1,
    'dmr_site_calls_total{kind="group",cause="dropped"}': 0, 'dmr_site_calls_total{kind="radio",cause="hang_time"}': 0,
    # 3 s, 6 s, 12 s, 15 s and 37.5 s
    'dmr_site_call_duration_seconds_bucket{le="2"}': 0, 'dmr_site_call_duration_seconds_bucket{le="5"}': 1, 'dmr_site_call_duration_seconds_bucket{le="10"}': 2,
    'dmr_site_call_duration_seconds_bucket{le="20"}': 4, 'dmr_site_call_duration_seconds_bucket{le="60"}': 5, 'dmr_site_call_duration_seconds_bucket{le="+Inf"}': 5,
    "dmr_site_call_duration_seconds_sum": 73.5, "dmr_site_call_duration_seconds_count": 5,
    "dmr_site_registrations_total": 4, 'dmr_site_refusals_total{reason="Group_Not_Allowed"}': 2, 'dmr_site_refusals_total{reason="Called_Party_Busy"}': 1,
    'dmr_site_carrier_losses_total{carrier="0"}': 0, 'dmr_site_carrier_losses_total{carrier="1"}': 1,
    "dmr_site_terms_total": 3, "dmr_site_polls_total": 2876 + 1440 + 1905, "dmr_site_bursts_total": 41, "dmr_site_noise_bursts_total": 4, "dmr_site_grants_total": 15,
    "dmr_site_late_entries_total": 3, "dmr_site_longest_queue": 0, "dmr_site_records_timestamp_seconds": NOON // 1000 + 160,
}


class Folder(unittest.TestCase):
    """A test with a folder."""

    def setUp(self) -> None:
        self.folder = pathlib.Path(self.enterContext(tempfile.TemporaryDirectory()))


class New(Folder):
    """What is new in a file."""

    def counted(self, path: pathlib.Path, counts: RecordCounts, last: RecordedTerm | None) -> RecordedTerm | None:
        """Takes what is new since a term. The last term."""
        new = read_new(str(path), last)
        counts.take(new)
        return new.last

    def figures(self, counts: RecordCounts) -> dict[str, float]:
        """The samples of the counters."""
        return samples_of("".join(line for it in counts.all_series() for line in it.lines()))

    def assert_totals(self, counts: RecordCounts) -> None:
        """The counters have all three terms."""
        found = self.figures(counts)
        self.assertEqual({name: found.get(name) for name in TOTALS}, TOTALS)

    def test_all_at_once(self) -> None:
        counts = RecordCounts()
        self.counted(make_records(self.folder / "site.db"), counts, None)
        self.assert_totals(counts)

    def test_term_by_term(self) -> None:
        counts, path = RecordCounts(), make_records(self.folder / "site.db", terms=1)
        last = self.counted(path, counts, None)
        self.assertEqual((self.figures(counts)["dmr_site_terms_total"], self.figures(counts)["dmr_site_longest_queue"]), (1, 1))
        add_term(path, 2)
        last = self.counted(path, counts, last)
        self.assertEqual((self.figures(counts)["dmr_site_terms_total"], self.figures(counts)["dmr_site_longest_queue"]), (2, 2))
        self.assertEqual(self.counted(path, counts, last), last)
        add_term(path, 3)
        self.counted(path, counts, last)
        self.assert_totals(counts)

    def test_no_counter_goes_down_if_old_rows_are_removed(self) -> None:
        counts, path = RecordCounts(), make_records(self.folder / "site.db", terms=2)
        last = self.counted(path, counts, None)
        add_term(path, 3)
        for table, column in (("terms", "number"), ("calls", "term"), ("events", "term")):
            change_records(path, f"DELETE FROM {table} WHERE {column} < 3")
        self.counted(path, counts, last)
        self.assert_totals(counts)

    def test_another_file_at_the_same_path(self) -> None:
        """All of its rows are new, whether it has fewer terms, as many, or more."""
        for terms in (1, 2, 3):
            with self.subTest(terms):
                path = make_records(self.folder / f"{terms}.db", terms)
                change_records(path, "UPDATE terms SET ended_ms = ended_ms + 1")
                before = read_new(str(make_records(self.folder / f"old{terms}.db", 2)), None).last
                self.assertEqual(read_new(str(path), before).terms, terms)

    def test_no_term(self) -> None:
        counts = RecordCounts()
        self.assertIsNone(self.counted(make_records(self.folder / "site.db", terms=0), counts, None))
        self.assertEqual((self.figures(counts)["dmr_site_terms_total"], self.figures(counts).get("dmr_site_longest_queue")), (0, None))

    def test_signature(self) -> None:
        path = make_records(self.folder / "site.db", terms=1)
        before = signature(str(path))
        self.assertEqual(signature(str(path)), before)
        add_term(path, 2)
        self.assertNotEqual(signature(str(path)), before)
        self.assertEqual(signature(str(self.folder / "none")), (None, None))


def log_of(*calls: tuple[int, tuple[int, int], str, float, float]) -> CallLog:
    """A log of calls that have ended: the number, the slot and the parties of each, and the seconds after noon at which it began and ended."""
    log = CallLog(10_000)
    for number, slot, parties, began, ended in calls:
        log.ended.append(SeenCall(number, slot, Parties.read(parties), Moment(NOON / 1000 + began, began), False, Moment(NOON / 1000 + ended, ended), True))
    return log


def make_loose(path: pathlib.Path) -> None:
    """Makes the file in tables that take any value."""
    with mock.patch("tests.made_records.TABLES", re.sub(r" STRICT| NOT NULL", "", TABLES)):
        make_records(path)


class Damaged(unittest.IsolatedAsyncioTestCase):
    """Rows that the controller does not write, one of a file at a time."""
    ROWS = (("calls", "target", -1), ("calls", "source", 1 << 40), ("calls", "number", -5), ("calls", "carrier", -1), ("calls", "carrier", 16), ("calls", "slot", 2),
            ("calls", "ended_ms", "noon"), ("calls", "ended_ms", 1e300), ("calls", "cause", None), ("calls", "cause", b"x"), ("terms", "ended_ms", "noon"),
            ("terms", "most_lines", "two"), ("events", "reason", "busy"))

    async def asyncSetUp(self) -> None:
        asyncio.get_running_loop().set_debug(False)
        self.enterContext(quiet_notes())

    async def test_a_look_takes_all_or_nothing(self) -> None:
        """The fault names the row. Once the row is right again, the same file is read."""
        with tempfile.TemporaryDirectory() as folder:
            good, path = pathlib.Path(folder, "good.db"), pathlib.Path(folder, "site.db")
            make_loose(good)
            for table, column, value in self.ROWS:
                shutil.copy(good, path)
                change_records(path, f"UPDATE {table} SET {column} = ? WHERE number = (SELECT max(number) FROM {table} WHERE {column} IS NOT NULL)", value)
                reader = RecordReader(RecordsKeys(file=str(path)))
                with self.subTest(column=column, value=value):
                    await reader.look()
                    self.assertRegex(reader.fault or "", rf"^{re.escape(str(path))}: {table}, row \S+: ")
                    self.assertEqual((reader.counts.faults.get(), reader.counts.terms.get(), reader.log.ended.count, reader.last), (1, 0, 0, None))
                    shutil.copy(good, path)
                    await reader.look()
                    self.assertEqual((reader.fault, reader.counts.terms.get(), reader.log.ended.count), (None, 3, 5))
                reader.worker.close()

    async def test_what_a_reading_raises_is_a_fault(self) -> None:
        """Whatever it is: the next look tries again."""
        for fault in (OSError("gone"), sqlite3.DatabaseError("torn"), ValueError("bad"), TypeError("odd"), OverflowError("far"), MemoryError()):
            reader = RecordReader(RecordsKeys(file="/x"))
            self.addCleanup(reader.worker.close)
            with mock.patch.object(reader, "_read", side_effect=fault):
                await reader.look()
                await reader.look()
            self.assertEqual((reader.fault, reader.counts.faults.get()), (str(fault) or "MemoryError", 2))

    async def test_a_file_that_does_not_answer(self) -> None:
        """A look has a time, and while it has not ended there is no other."""
        reader, ends = RecordReader(RecordsKeys(file="/x")), threading.Event()
        self.addCleanup(reader.worker.close)
        reader.worker.seconds = 0.05
        with mock.patch.object(reader, "_read", lambda: ends.wait(20) and None):
            for count in (1, 2, 3):
                await reader.look()
                self.assertEqual((reader.fault, reader.counts.faults.get()), ("/x: it has not ended after 0.05 s", count))
            ends.set()
            await wait_until(lambda: reader.worker.began is None)
            await reader.look()
            self.assertIsNone(reader.fault)


class LastCalls(Folder):
    """The calls of the records and those that the hub saw, as one list."""

    def recorded(self, terms: int = 3) -> RecordedLog:
        """The log of a file with some terms."""
        recorded = RecordedLog()
        recorded.take(read_new(str(make_records(self.folder / "site.db", terms)), None))
        return recorded

    def find(self, log: CallLog, terms: int, wanted: CallFilter = ALL, most: int = 100) -> list[tuple[int, bool, str | None]]:
        """Calls: number, whether each has ended, and the cause. The hub is five seconds late at most."""
        return [(it.number, it.ended is not None, it.cause) for it in self.recorded(terms).find(log, wanted, most, 5.0)]

    def test_records_alone(self) -> None:
        self.assertEqual(self.find(log_of(), 3), [(5, True, "maximum"), (4, True, "radio_left"), (3, True, "carrier_lost"), (2, True, "ended_by_operator"), (1, True, "hang_time")])
        self.assertEqual(self.find(log_of(), 3, CallFilter(radio=1001), most=2), [(4, True, "radio_left"), (2, True, "ended_by_operator")])
        self.assertEqual(self.find(log_of((1, (0, 1), "radio 1003 from 1001", 10, 25)), 0), [(1, True, None)])

    def test_times(self) -> None:
        recorded = self.recorded()
        call = next(recorded.ended.find(ALL))
        self.assertEqual((call.began.wall, call.ended and call.ended.wall, call.seconds, call.slot, str(call.parties), recorded.until),
                         (NOON / 1000 + 112, NOON / 1000 + 149.5, 37.5, (0, 1), str(Parties("group", 91, 1002)), NOON / 1000 + 160))

    def test_seen_calls_before_the_last_term_are_the_records(self) -> None:
        """The first two terms end at 30 s. A call that the hub saw end after that is listed, the others are not."""
        log = log_of((1, (0, 1), "radio 1003 from 1001", 10, 25), (2, (1, 0), "group 93 from 1003", 20, 30), (3, (0, 1), "group 91 from 1002", 31, 40))
        self.assertEqual(self.find(log, 2)[:2], [(3, True, None), (4, True, "radio_left")])

    def test_an_end_that_was_seen_late(self) -> None:
        """A call of the records ended at 24 s. The hub saw one of the same parties end at 31 s, too late to be the same. Then one at 28 s, just after the end of
        a last term at 27 s: that is the same, and one of other parties is not."""
        self.assertEqual(self.find(log_of((7, (0, 1), "radio 1003 from 1001", 10, 31)), 2)[0], (7, True, None))
        recorded = self.recorded(2)
        recorded.until = NOON / 1000 + 27
        log = log_of((8, (0, 1), "radio 1003 from 1001", 10, 28), (9, (0, 1), "radio 1003 from 1002", 10, 28))
        self.assertEqual([it.number for it in recorded.find(log, ALL, 3, 5.0)], [9, 4, 3])

    def test_the_clock_is_set_back(self) -> None:
        """All calls that were seen and recorded before have ended later than the last term. They are listed once, and soon."""
        recorded, last = RecordedLog(until=NOON / 1000), 4000
        log = log_of(*((number, (0, 1), f"group {number + 1} from 1001", 7200 + number, 7201 + number) for number in range(last)))
        for call in reversed([*log.ended.find(ALL)]):
            recorded.ended.append(call)
        began = time.thread_time()
        found = recorded.find(log, ALL, 100, 5.0)
        self.assertLess(time.thread_time() - began, 0.2)
        self.assertEqual([it.number for it in found], list(range(last - 1, last - 101, -1)))

    def test_active_calls_come_first(self) -> None:
        log = CallLog(10)
        log.look({}, Moment(NOON / 1000, 0))
        log.look({(1, 1): "group 92 from 1003"}, Moment(NOON / 1000 + 200, 200))
        self.assertEqual(self.find(log, 3, most=2), [(1, False, None), (5, True, "maximum")])


class Served(WebCase):
    """A hub that reads the records."""

    async def asyncSetUp(self) -> None:
        await super().asyncSetUp()
        make_records(self.db, 2)

    async def until_terms(self, count: int) -> dict[str, float]:
        """Waits until `count` terms are counted. The samples then."""
        assert self.hub.records
        terms = self.hub.records.counts.terms
        await wait_until(lambda: terms.get() == count, 20)
        return await self.metrics()

    async def test_counters_and_a_new_term(self) -> None:
        await self.serve(records=self.db)
        found = await self.until_terms(2)
        self.assertEqual((found["dmr_site_longest_queue"], found["dmr_site_call_duration_seconds_count"]), (2, 4))
        add_term(self.db, 3)
        found = await self.until_terms(3)
        self.assertEqual({name: found.get(name) for name in TOTALS}, TOTALS)
        # a file that does not change is not read again
        self.assertEqual((await self.metrics())["dmr_hub_records_reads_total"], found["dmr_hub_records_reads_total"])

    async def test_the_controllers_version(self) -> None:
        """It is in the file that the controller locks. Without that file, or with another text in it, the metric is absent."""
        lock = pathlib.Path(self.folder, "site.lock")
        hub = await self.serve(records=self.db)
        self.assertFalse(any(name.startswith("dmr_site_controller_info") for name in await self.metrics()))
        for text, wanted in (("dmr_trunk 0.1.0\n", "0.1.0"), ('dmr_trunk "\n', None), ("dmr_trunk 0.2.0~rc1\n", "0.2.0~rc1"), ("", None)):
            lock.write_text(text, encoding="utf-8")
            await wait_until(lambda wanted=wanted: hub.records and hub.records.version == wanted)  # type: ignore[misc]
            found = [name for name in await self.metrics() if name.startswith("dmr_site_controller_info")]
            self.assertEqual(found, [f'dmr_site_controller_info{{version="{wanted}"}}'] if wanted else [])
        lock.unlink()
        os.mkfifo(lock)
        self.assertIsNone(read_controller_version(str(self.db)))

    async def test_a_locked_file(self) -> None:
        """The hub answers at once, and has the new rows when the file is free."""
        hub = await self.serve(records=self.db)
        assert hub.records
        add_term(self.db, 3)
        with locked(self.db):
            faults, until = hub.records.counts.faults.get(), time.monotonic() + 20
            while hub.records.counts.faults.get() == faults:
                assert time.monotonic() < until
                began = time.monotonic()
                await self.assert_unharmed()
                self.assertLess(time.monotonic() - began, 5)
        await self.until_terms(3)

    async def test_a_file_that_comes_later(self) -> None:
        path = pathlib.Path(self.folder, "later.db")
        hub = await self.serve(records=path)
        self.assertEqual(hub.records and hub.records.fault, f"{path}: No such file or directory")
        make_records(path)
        await self.until_terms(3)
        self.assertIsNone(hub.records and hub.records.fault)

    async def test_a_damaged_row(self) -> None:
        """The hub does its other work."""
        change_records(self.db, "UPDATE calls SET target = -1 WHERE number = 2")
        hub = await self.serve(records=self.db)
        self.assertEqual(hub.records and hub.records.fault, f"{self.db}: calls, row 2: target is -1")
        self.assertEqual((await self.metrics())["dmr_site_terms_total"], 0)
        await self.assert_unharmed()

    async def test_last_calls(self) -> None:
        await self.serve(records=self.db)
        view = await self.view("/v1/calls.json?radio=1003&last=5")
        self.assertEqual(view["recorded_until"], "2026-11-27T12:00:30.000Z")
        self.assertEqual([{name: it[name] for name in ("number", "recorded", "cause", "began", "ended", "seconds", "older", "end_seen")} for it in view["calls"] if it["recorded"]],
                         [{"number": 4, "recorded": True, "cause": "radio_left", "began": "2026-11-27T12:00:09.000Z", "ended": "2026-11-27T12:00:24.000Z", "seconds": 15, "older": False,
                           "end_seen": True},
                          {"number": 3, "recorded": True, "cause": "carrier_lost", "began": "2026-11-27T11:59:54.000Z", "ended": "2026-11-27T12:00:06.000Z", "seconds": 12, "older": False,
                           "end_seen": True}])
        tag = (await self.get("/v1/calls.json")).headers["etag"]
        self.assertEqual((await self.get("/v1/calls.json")).headers["etag"], tag)

    async def test_without_records(self) -> None:
        await self.serve()
        self.assertNotIn("dmr_site_calls_total", (await self.get("/metrics")).body.decode())
        view = await self.view("/v1/calls.json")
        self.assertEqual((view["recorded_until"], {it["recorded"] for it in view["calls"]}, {it["cause"] for it in view["calls"]}), (None, {False}, {None}))
