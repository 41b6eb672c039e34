"""The charts' samples of times without a picture: how many slots had a call by the controller's records. What is expected was worked out by hand."""
import asyncio
import contextlib
import pathlib
import sqlite3
import tempfile
import time
import unittest
from unittest import mock

from temzaar.hub.config import RecordsKeys
from temzaar.hub.moment import Moment
from temzaar.hub.recordreader import RecordReader
from temzaar.hub.samples import FIGURES, Samples, Span, Summary
from temzaar.hub.slotuse import Used, slots_used, summaries
from temzaar.recordgaps import LOST, Gap, Piece, edges_of, pieces
from temzaar.records import opened_records
from tests.hub_support import change_records, make_recent_records, quiet_notes
from tests.made_records import NOON, add_term, insert, make_records
from tests.test_hub_web import WebCase

# The slots in use by the rows of `made_records`, in samples of 5 s from NOON - 60 s on, of the first two terms: least, mean and greatest.
# Calls: -54 to -48 and -42 to -39, -6 to 6 and 9 to 24 s. The records end at 30 s.
BEFORE_30 = {-12: (0, 0, 0), -11: (0, 0.8, 1), -10: (0, 0.4, 1), -9: (0, 0.4, 1), -8: (0, 0.2, 1), -7: (0, 0, 0), -6: (0, 0, 0), -5: (0, 0, 0), -4: (0, 0, 0), -3: (0, 0, 0), -2: (0, 0.2, 1),
             -1: (1, 1, 1), 0: (1, 1, 1), 1: (0, 0.4, 1), 2: (1, 1, 1), 3: (1, 1, 1), 4: (0, 0.8, 1), 5: (0, 0, 0)}
# From 100 s to 160 s: a call from 112 to 149.5 s. Between 30 and 100 s nothing is recorded.
AFTER_100 = {20: (0, 0, 0), 21: (0, 0, 0), 22: (0, 0.6, 1), **dict.fromkeys(range(23, 29), (1, 1, 1)), 29: (0, 0.9, 1), 30: (0, 0, 0), 31: (0, 0, 0)}
NOON_OF_HOUR = NOON // 5000


class Worked(unittest.TestCase):
    """Pieces of time, and samples."""

    def test_pieces(self) -> None:
        for edges, wanted in (([], [(0, 100, 0)]), ([(10, 1), (20, -1)], [(0, 10, 0), (10, 20, 1), (20, 100, 0)]), ([(0, 1), (30, 1), (40, -1), (100, -1)], [(0, 30, 1), (30, 40, 2), (40, 100, 1)]),
                              ([(10, 1), (20, 0), (30, -1)], [(0, 10, 0), (10, 20, 1), (20, 30, 1), (30, 100, 0)])):
            self.assertEqual([*pieces([(*it, 0) for it in edges], 0, 100)], [Piece(*it) for it in wanted], edges)

    def test_gaps(self) -> None:
        """A call from 10 to 55. Gaps come in any order, and may have a part in common."""
        calls = [(10, 1, 0), (55, -1, 0)]
        for gaps, wanted in (([(20, 30), (50, 60)], [(0, 10, 0), (10, 20, 1), (30, 50, 1), (60, 100, 0)]), ([(50, 60), (20, 30)], [(0, 10, 0), (10, 20, 1), (30, 50, 1), (60, 100, 0)]),
                             ([(-20, 5), (90, 200)], [(5, 10, 0), (10, 55, 1), (55, 90, 0)]), ([(20, 40), (30, 70)], [(0, 10, 0), (10, 20, 1), (70, 100, 0)]), ([(-5, 200)], [])):
            edges = sorted([*calls, *edges_of([Gap(1_000 + first, 1_000 + last, LOST) for first, last in gaps], 1_000)])
            self.assertEqual([*pieces(edges, 0, 100)], [Piece(*it) for it in wanted], gaps)

    def test_summaries(self) -> None:
        """Only samples that are covered wholly; also of times before the clock's beginning."""
        self.assertEqual([*summaries([Piece(-15, -5, 2), Piece(-5, 4, 1), Piece(4, 22, 3)], 10)], [Used(-1, Summary(1, 1.5, 2)), Used(0, Summary(1, 2.2, 3)), Used(1, Summary(3, 3, 3))])
        self.assertEqual([*summaries([Piece(1, 10, 5)], 10)], [])
        self.assertEqual([*summaries([], 10)], [])


class FromFile(unittest.TestCase):
    """What is read of a file of records, 160 s after noon. The steady clock is that of noon less 1,000 times 2 minutes, so its samples begin as those of the time since 1970 do."""

    def setUp(self) -> None:
        self.path = pathlib.Path(self.enterContext(tempfile.TemporaryDirectory()), "site.db")
        self.shift = NOON // 1000 - 120_000

    def used(self, span: str, since: int = 0, now: float = 160, off: int = 0) -> dict[int, tuple[float, float, float]]:
        """The samples of a span, by their numbers after noon. The steady clock is `off` seconds less."""
        with opened_records(str(self.path)) as records:
            found = slots_used(records, since, Moment(NOON / 1000 + now, NOON / 1000 + now - self.shift - off))
        step = {"hour": 5, "day": 120}[span]
        return {used.number - 120_000 // step: (used.summary.least, round(used.summary.mean, 6), used.summary.greatest) for used in found.get(span, [])}

    def test_the_hour(self) -> None:
        make_records(self.path)
        self.assertEqual(self.used("hour"), {**BEFORE_30, **AFTER_100})

    def test_the_day(self) -> None:
        """Samples of 2 minutes: from 0 to 120 s the records have a gap, and the others are not whole."""
        make_records(self.path)
        self.assertEqual(self.used("day"), {})

    def test_another_beginning_of_samples(self) -> None:
        """The steady clock is 2 s less: sample 0 is from 2 to 7 s after noon, with a call up to 6 s."""
        make_records(self.path, terms=2)
        self.assertEqual({number: it for number, it in self.used("hour", off=2).items() if number in (0, 1)}, {0: (0, 0.8, 1), 1: (0, 0.6, 1)})

    def test_a_new_term(self) -> None:
        """It says something new of the minutes before it too, in which its calls may have begun; nothing of the gap."""
        make_records(self.path)
        self.assertEqual(self.used("hour", since=2), {**BEFORE_30, **AFTER_100})
        self.assertEqual(self.used("hour", since=3), {})
        change_records(self.path, "UPDATE calls SET began_ms = ? WHERE number = 5", NOON + 21_000)
        self.assertEqual({number: it for number, it in self.used("hour", since=2).items() if number in (3, 4, 5)}, {3: (1, 1, 1), 4: (1, 1.6, 2), 5: (1, 1, 1)})

    def test_what_is_older_than_the_span_or_of_the_future(self) -> None:
        make_records(self.path)
        found = self.used("hour", now=3600)
        self.assertEqual(found, {number: it for number, it in {**BEFORE_30, **AFTER_100}.items() if number >= 0})
        change_records(self.path, "UPDATE terms SET ended_ms = ended_ms + ? WHERE number = 3", 10**14)
        began = time.thread_time()
        self.used("hour")
        self.assertLess(time.thread_time() - began, 2)

    def test_calls_without_a_length(self) -> None:
        """They count for nothing."""
        make_records(self.path, terms=2)
        before = self.used("hour")
        with contextlib.closing(sqlite3.connect(self.path)) as conn, conn:
            insert(conn, "calls", ((8, 2, 1, 1, 1, 1001, 91, 1, 2, NOON, NOON, "hang_time"), (9, 2, 1, 1, 1, 1001, 91, 1, 2, NOON + 20_000, NOON - 20_000, "hang_time")))
        self.assertEqual(self.used("hour"), before)

    def test_many_gaps(self) -> None:
        """A controller that was started again each three seconds of a day: no sample is whole, and that is known in seconds."""
        make_records(self.path, terms=1)
        with contextlib.closing(sqlite3.connect(self.path)) as conn, conn:
            insert(conn, "terms", tuple((number, NOON - 86_400_000 + number * 3_000, 60, 30, *[0] * 6, 30, *[0] * 8) for number in range(2, 28_801)))
            conn.execute("UPDATE terms SET ended_ms = ?, ticks = 30, last_tick = 30 WHERE number = 1", (NOON - 86_400_000 + 3_000,))
            insert(conn, "calls", tuple((number, 1, number % 16, 1, 1, 1001, 91, 1, 2, NOON - number * 800, NOON - number * 800 + 900, "hang_time") for number in range(10, 20_010)))
        began = time.thread_time()
        self.assertEqual(self.used("day"), {})
        self.assertLess(time.thread_time() - began, 10)

    def test_a_hundred_thousand_calls(self) -> None:
        """A busy day: sixteen carriers, all their slots in use."""
        make_records(self.path, terms=1)
        with contextlib.closing(sqlite3.connect(self.path)) as conn, conn:
            insert(conn, "calls", tuple((number, 1, number % 16, 1, 1, 1001, 91, 1, 2, NOON - 60_000 - number * 800, NOON - 60_000 - number * 800 + 12_000, "hang_time") for number in range(10, 100_010)))
            conn.execute("UPDATE terms SET ticks = 1440000, last_tick = 1440000")
        began = time.thread_time()
        found = self.used("day")
        self.assertLess(time.thread_time() - began, 10)
        # a call begins each 0.8 s, and lasts for 15 of these times
        self.assertEqual({round(it[1], 2) for number, it in found.items() if -600 < number < -10}, {15.0})


class Refilled(unittest.TestCase):
    """Samples without a picture."""

    def test_of_a_span(self) -> None:
        """What has a picture stays. The sample of now, and what is older than the span, is not filled; only the figure that the records have is known."""
        span = Span(5, 4)
        span.add(dict.fromkeys(FIGURES, 7), Moment(1000, 112))
        for number in (18, 19, 20, 21, 22, 23, 24):
            span.refill("slots_in_use", number, Summary(1, 2, 3), Moment(1003, 114))
        places = span.places(Moment(1003, 114))
        self.assertEqual([*span.summaries("slots_in_use", places)], [Summary(1, 2, 3)] * 3 + [Summary(7, 7, 7)])
        self.assertEqual([*span.summaries("carriers_up", places)], [None] * 3 + [Summary(7, 7, 7)])
        self.assertEqual([span.pictures[it] for it in places if it is not None], [0, 0, 0, 1])
        span.refill("slots_in_use", 20, Summary(0, 1, 2), Moment(1003, 114))
        self.assertEqual([*span.summaries("slots_in_use", places)][1], Summary(0, 1, 2))
        span.add(dict.fromkeys(FIGURES, 5), Moment(1030, 130))
        self.assertEqual([*span.summaries("slots_in_use", span.places(Moment(1030, 130)))], [None, None, None, Summary(5, 5, 5)])

    def test_before_the_clocks_beginning(self) -> None:
        """The machine was started a minute ago: the samples before have numbers below 0."""
        samples = Samples()
        samples.refill("slots_in_use", {"hour": [Used(-3, Summary(1, 1, 1))]}, Moment(1000, 60))
        span = samples.spans["hour"]
        self.assertEqual([place for place, it in enumerate(span.summaries("slots_in_use", span.places(Moment(1000, 60)))) if it], [704])

    def test_term_by_term(self) -> None:
        """The second term has the end of a call that began in the first: its samples are right once that is recorded."""
        with quiet_notes(), tempfile.TemporaryDirectory() as folder:
            path = make_records(pathlib.Path(folder, "site.db"), terms=1)
            reader = RecordReader(RecordsKeys(file=str(path)))
            self.addCleanup(reader.worker.close)
            found = []
            with mock.patch("time.time", lambda: NOON / 1000 + 40), mock.patch("time.monotonic", lambda: 200_040.0):
                for number in (1, 2):
                    if number > 1:
                        add_term(path, number)
                    asyncio.run(reader.look())
                    span = reader.figures.spans["hour"]
                    # the sample from 5 s before noon on
                    found.append([*span.summaries("slots_in_use", [span._place(40_000 - 1)])])
        self.assertEqual(found, [[Summary(0, 0, 0)], [Summary(1, 1, 1)]])


class Served(WebCase):
    """The charts of a hub that was started again."""

    async def test_history(self) -> None:
        """The records are moved so that the third term ended 30 s ago."""
        make_recent_records(self.db)
        await self.serve(records=self.db)
        view = await self.view("/v1/history.json")
        figures, pictures = view["figures"], view["pictures"]
        known = [place for place, mean in enumerate(figures["slots_in_use"]["mean"]) if mean is not None and not pictures[place]]
        # 60 and 30 s, and 60 s after a gap: at each of the four ends a part of a sample is left out
        self.assertTrue(27 <= len(known) <= 30, known)
        self.assertTrue(all(figures[figure][column][place] is None for figure in FIGURES if figure != "slots_in_use" for column in ("min", "mean", "max") for place in known))
        # 6, 3, 12, 15 and 37.5 s with a call, of which less than two samples each are left out at the ends
        self.assertAlmostEqual(sum(figures["slots_in_use"]["mean"][place] for place in known) * 5, 73.5, delta=0.1)
