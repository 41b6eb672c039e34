"""The control channel and the polls as the hub shows them: a site that is off the air, a carrier that does not poll, and terms that do not come."""
import unittest
from datetime import datetime

from temzaar.console import Status
from temzaar.hub.config import HealthKeys
from temzaar.hub.model import UNSENT_SECONDS, SiteModel
from temzaar.hub.moment import Moment
from temzaar.hub.termwatch import LEAST_SECONDS, TermWatch
from temzaar.picture import Picture
from temzaar.records import COUNTS, RecordedTerm
from temzaar.sitefile import ConsolePlace
from tests.fake_console import OFF_AIR, WAITING
from tests.hub_support import make_recent_records, wait_until
from tests.made_records import NOON, add_term, make_records
from tests.test_hub_web import WebCase


class Served(WebCase):
    """What the hub serves."""

    async def test_no_control_channel(self) -> None:
        hub = await self.serve(HealthKeys(carrier_seconds=0))
        self.assertEqual((await self.metrics())['dmr_site_control_up{carrier="0"}'], 1)
        self.fake.replies["slots"] = OFF_AIR
        await wait_until(lambda: not hub.model.carriers[0].is_up)
        state = (await self.view("/v1/site.json"))["state"]
        self.assertEqual((state["control"]["carrier"], state["control"]["up"], state["control"]["since"]), (0, False, state["carriers"][0]["since"]))
        self.assertEqual((await self.metrics())['dmr_site_control_up{carrier="0"}'], 0)
        await self.until_health(503, r"^no control channel: carrier 0 is down since \S+Z\n$")

    async def test_a_burst_that_waits(self) -> None:
        hub = await self.serve(HealthKeys(carrier_seconds=0))
        self.fake.replies["slots"] = WAITING
        await wait_until(lambda: hub.model.waiting)
        self.assertEqual((await self.view("/v1/site.json"))["state"]["unsent"], [])
        # as if it had been seen to wait for a minute
        hub.model.waiting = {slot: Moment(since.wall - 60, since.steady - 60) for slot, since in hub.model.waiting.items()}
        unsent = (await self.view("/v1/site.json"))["state"]["unsent"]
        self.assertEqual([(it["carrier"], it["slot"]) for it in unsent], [(1, 0)])
        self.assertGreaterEqual((await self.metrics())["dmr_site_longest_unsent_seconds"], 60)
        await self.until_health(503, r"^slot 0 of carrier 1 waits for a poll since \S+Z\n$")

    async def test_records_that_stop(self) -> None:
        """The last term is of another year: after a minute without another one the next is overdue."""
        hub = await self.serve(HealthKeys(records="yes"), make_records(self.db, terms=2))
        self.assertEqual((await self.get("/healthz")).body, b"ok\n")
        self.assertEqual((await self.view("/v1/state.json"))["records"], {"until": "2026-11-27T12:00:30.000Z", "overdue": False, "fault": None, "missing_polls": None})
        watch = hub.model.watch
        assert watch.since
        watch.since, watch.due = Moment(watch.since.wall - 61, watch.since.steady - 61), 15_001.0
        self.assertTrue((await self.view("/v1/state.json"))["records"]["overdue"])
        self.assertEqual((await self.metrics())["dmr_site_records_overdue"], 1)
        await self.until_health(503, "^no records since 2026-11-27T12:00:30Z\n$")
        add_term(self.db, 3)
        await wait_until(lambda: watch.last and watch.last.number == 3)
        self.assertFalse((await self.view("/v1/state.json"))["records"]["overdue"])

    async def test_gaps(self) -> None:
        """The times without records are counted, and the charts have those of their span. Here the third term ended 30 s ago, and the gap is from 160 to 90 s ago."""
        later = make_recent_records(self.db)
        await self.serve(records=self.db)
        found = await self.metrics()
        self.assertEqual((found["dmr_site_record_gaps_total"], found["dmr_site_unrecorded_seconds_total"]), (1, 70))
        for span in ("hour", "day"):
            view = (await self.view(f"/v1/history.json?span={span}"))["recorded"]
            times = [view["from"], *(it[edge] for it in view["gaps"] for edge in ("from", "to")), view["until"]]
            seconds = [datetime.fromisoformat(it).timestamp() - (NOON + later) / 1000 for it in times]
            for at, wanted in zip(seconds, (-60, 30, 100, 160), strict=True):
                self.assertAlmostEqual(at, wanted, 2)
            self.assertEqual([it["why"] for it in view["gaps"]], ["the controller was started again"])


def term(ended: float, polls: int, ticks: int = 1000, entries: int = 3000) -> RecordedTerm:
    """A term of ticks of 60 ms that ended at a time in seconds since 1970."""
    return RecordedTerm(1, int(ended * 1000), 60, ticks, {**dict.fromkeys(COUNTS, 0), "ticks": ticks, "polls": polls, "entries": entries})


class Watched(unittest.TestCase):
    """Terms that come late, and polls that are missing."""

    def test_overdue(self) -> None:
        """Two carriers poll each 60 ms, and ticks are of 60 ms: 50 entries a second. 3,000 take a minute at most, and half as much is allowed."""
        watch = TermWatch()
        watch.take_picture(2, Moment(0, 0))
        self.assertFalse(watch.is_overdue())
        watch.take_term(term(0, 2000))
        for second in range(1, 91):
            watch.take_picture(2, Moment(second, second))
            self.assertFalse(watch.is_overdue(), second)
        watch.take_picture(2, Moment(91, 91))
        self.assertTrue(watch.is_overdue())
        # by the site file terms are twice as long now
        watch.find_place = lambda: ConsolePlace("127.0.0.1", 7100, 5.0, 6000)
        self.assertFalse(watch.is_overdue())
        watch.take_picture(2, Moment(181, 181))
        self.assertTrue(watch.is_overdue())
        # without carriers the same term may take longer
        watch.take_term(term(181, 2000))
        watch.take_picture(0, Moment(340, 340))
        self.assertFalse(watch.is_overdue())
        watch.begin()
        self.assertFalse(watch.is_overdue())

    def test_no_term_at_all(self) -> None:
        """By the site file a term of 3,000 entries is due: none was ever recorded."""
        watch = TermWatch(lambda: ConsolePlace("127.0.0.1", 7100, 5.0, 3000))
        for second, overdue in ((0, False), (90, False), (91, True)):
            watch.take_picture(2, Moment(second, second))
            self.assertEqual(watch.is_overdue(), overdue, second)

    def test_short_terms(self) -> None:
        """A term of a second is not overdue within the first minute."""
        watch = TermWatch()
        watch.take_picture(2, Moment(0, 0))
        watch.take_term(term(0, 30, entries=50))
        watch.take_picture(2, Moment(LEAST_SECONDS, LEAST_SECONDS))
        self.assertFalse(watch.is_overdue())
        watch.take_picture(2, Moment(LEAST_SECONDS + 1, LEAST_SECONDS + 1))
        self.assertTrue(watch.is_overdue())

    def missing(self, *terms: tuple[int, int]) -> float | None:
        """What the last terms lack, of a minute each: their polls, and how many of three carriers were up in them."""
        model, status = SiteModel(), Status(["status carriers 3 radios 0 asks 0 lines 0 calls 0 fill aloha"])
        for place, (polls, up) in enumerate(terms):
            for second in range(60 * place, 60 * place + 60):
                slots = {(0, 0): "control", **{(carrier, 1): "free" if carrier < up else "down" for carrier in range(3)}}
                model.take_picture(Picture(status, slots), Moment(NOON / 1000 + second, 1000.0 + second))
            model.watch.take_term(term(NOON / 1000 + 60 * place + 59, polls, ticks=980))
        model.take_picture(Picture(status, slots), Moment(NOON / 1000 + 60 * len(terms), 1000.0 + 60 * len(terms)))
        return model.watch.missing_polls()

    def test_missing_polls(self) -> None:
        """58.8 s have 980 polls of each carrier. A carrier that stops is missing in both of the last terms; one that is down is not; one that polls slowly, neither."""
        for terms, missing in ((((2940, 3), (2940, 3)), 0.0), (((2940, 3), (1960, 3), (1960, 3)), 1.0), (((2940, 3), (1960, 3)), 0.0), (((2940, 3), (1960, 2), (1960, 2)), 0.0),
                               (((2000, 3), (2100, 3), (1950, 3)), 0.0), (((2940, 3), (0, 3), (0, 3)), 3.0), (((0, 0), (0, 0)), 0.0), (((0, 0), (0, 0), (2940, 3)), 0.0)):
            found = self.missing(*terms)
            assert found is not None
            self.assertAlmostEqual(found, missing, 1, str(terms))
        self.assertIsNone(self.missing((2940, 3)))

    def test_slots_that_wait(self) -> None:
        model = SiteModel()
        status = Status(["status carriers 2 radios 0 asks 0 lines 0 calls 0 fill aloha"])
        for second, state in ((0, "waiting"), (3, "free"), (4, "waiting"), (9, "waiting")):
            model.take_picture(Picture(status, {(0, 0): "control", (0, 1): state}), Moment(second, second))
        self.assertEqual((model.longest_unsent(Moment(9, 9)), [*model.unsent(Moment(9, 9))], [*model.unsent(Moment(9.1, 4 + UNSENT_SECONDS + 0.1))]), (5, [], [(0, 1)]))
        model.begin()
        self.assertEqual(model.longest_unsent(Moment(20, 20)), 0)
