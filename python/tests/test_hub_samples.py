"""Samples of the last hour and the last day: least, mean and greatest values, gaps, the clock that is set, and memory that does not grow. And counts of the controller's
records: the rows are those of `made_records`, and the counts were made in them by hand."""
import pathlib
import tempfile
import unittest
from unittest import mock

from temzaar.hub.model import SiteModel
from temzaar.hub.moment import Moment
from temzaar.hub.newrecords import read_new
from temzaar.hub.samples import FIGURES, KINDS, SPANS, CountSpan, Happened, Samples, Span, Summary, count_spans
from temzaar.picture import take_picture
from tests.hub_support import array_octets
from tests.made_records import NOON, add_term, make_records
from tests.test_siteview import Written

STEP, COUNT = 5, 4
# The number of the sample of the hour that begins at noon, and of that of the day.
NOON_OF_HOUR, NOON_OF_DAY = NOON // 5_000, NOON // 120_000
# Of all three terms: what ended, was refused, or came as noise, by the samples after noon.
IN_SAMPLES_OF_5_SECONDS = {
    ("hang_time", -10, 1), ("ended_by_operator", -8, 1), ("carrier_lost", 1, 1), ("radio_left", 4, 1), ("maximum", 29, 1),
    ("refused", -6, 1), ("refused", 2, 1), ("refused", 24, 1), ("noise", 0, 3), ("noise", 32, 1),
}
IN_SAMPLES_OF_2_MINUTES = {
    ("hang_time", -1, 1), ("ended_by_operator", -1, 1), ("carrier_lost", 0, 1), ("radio_left", 0, 1), ("maximum", 1, 1),
    ("refused", -1, 1), ("refused", 0, 1), ("refused", 1, 1), ("noise", 0, 3), ("noise", 1, 1),
}


def values(number: float) -> dict[str, float]:
    """The same value for each figure."""
    return dict.fromkeys(FIGURES, number)


def at(steady: float) -> Moment:
    """A moment whose clocks differ by 1000 s."""
    return Moment(1000 + steady, steady)


class Sampled(unittest.TestCase):
    """A span of four samples of five seconds."""

    def setUp(self) -> None:
        self.span = Span(STEP, COUNT)

    def add(self, *pairs: tuple[float, float]) -> None:
        """Adds values, each at a time."""
        for seconds, value in pairs:
            self.span.add(values(value), at(seconds))

    def found(self, seconds: float) -> list[Summary | None]:
        """The summaries at a time."""
        return [*self.span.summaries("queue_length", self.span.places(at(seconds)))]

    def test_least_mean_and_greatest(self) -> None:
        self.add((0, 3), (1, 1), (4.9, 5), (5, 7))
        self.assertEqual(self.found(5), [None, None, Summary(1, 3, 5), Summary(7, 7, 7)])
        self.assertEqual([self.span.pictures[it] for it in self.span.places(at(5)) if it is not None], [3, 1])

    def test_old_samples_go_and_gaps_stay(self) -> None:
        self.add(*((number * STEP, number) for number in range(10)))
        self.assertEqual(self.found(45), [Summary(it, it, it) for it in (6, 7, 8, 9)])
        self.setUp()
        self.add((0, 1), (11, 2))
        self.assertEqual(self.found(11), [None, Summary(1, 1, 1), None, Summary(2, 2, 2)])
        self.assertEqual(self.found(1000), [None] * COUNT)
        self.add((1001, 9))
        self.assertEqual(self.found(1001), [None, None, None, Summary(9, 9, 9)])

    def test_times(self) -> None:
        self.assertEqual(self.span.begins(at(22)), 1000 + 5)
        # the clock was set: the samples are as old as before
        self.assertEqual(self.span.begins(Moment(50_022, 22)), 50_005)

    def test_memory(self) -> None:
        """docs/HUB.md names this number."""
        samples = Samples()
        self.assertEqual(array_octets(samples), 230_400)
        for second in range(0, 200_000, 50):
            samples.add(values(second), at(second))
            samples.refill("slots_in_use", {name: [(second // span.step + 1, Summary(1, 1, 1))] for name, span in samples.spans.items()}, at(second + 300))
        self.assertEqual(array_octets(samples), 230_400)
        self.assertEqual({name: step * count for name, (step, count) in SPANS.items()}, {"hour": 3600, "day": 86400})


class Figures(unittest.TestCase):
    """The figures of a picture."""

    def test_of_a_picture(self) -> None:
        model, console = SiteModel(), Written()
        model.take_picture(take_picture(console), at(10))
        model.take_picture(take_picture(console), at(12))
        span = model.samples.spans["hour"]
        found = {name: [*span.summaries(name, span.places(at(12)))][-1] for name in FIGURES}
        self.assertEqual(found, {"slots_in_use": Summary(2, 2, 2), "slots_up": Summary(3, 3, 3), "queue_length": Summary(1, 1, 1), "longest_wait_seconds": Summary(0, 1, 2),
                                 "registered_radios": Summary(4, 4, 4), "carriers_up": Summary(2, 2, 2)})
        self.assertEqual([it.number for it in model.calls.active.values()], [1, 2])

    def test_a_carrier_that_is_down(self) -> None:
        model = SiteModel()
        model.take_picture(take_picture(Written(slots=["slot 0 0 control", "slot 0 1 free", "slot 1 0 down", "slot 1 1 down"])), at(0))
        span = model.samples.spans["day"]
        self.assertEqual([next(span.summaries(name, [place])) for name in ("slots_in_use", "slots_up", "carriers_up") for place in [span.places(at(0))[-1]]],
                         [Summary(0, 0, 0), Summary(1, 1, 1), Summary(1, 1, 1)])

    def test_how_long_requests_waited(self) -> None:
        """A request counts when it leaves the queue, unless it was there at the first picture."""
        model, console = SiteModel(), Written()
        model.take_picture(take_picture(console), at(0))
        console.replies["lines 1"] = ["line 1 group 94 from 1004", "line 2 group 95 from 1001"]
        console.replies["status"] = ["status carriers 2 radios 4 asks 0 lines 2 calls 2 fill aloha"]
        model.take_picture(take_picture(console), at(10))
        console.replies["lines 1"] = []
        console.replies["status"] = ["status carriers 2 radios 4 asks 0 lines 0 calls 2 fill aloha"]
        model.take_picture(take_picture(console), at(14.5))
        self.assertEqual((sum(model.waits.counts), model.waits.sum), (1, 4.5))


class Counted(unittest.TestCase):
    """A span of four samples of five seconds."""

    def setUp(self) -> None:
        self.span = CountSpan(STEP, COUNT)

    def test_counts(self) -> None:
        self.span.add([("noise", 20, 2), ("noise", 22, 1), ("refused", 22, 4), ("noise", 22, 5)], 114)
        # 114 s is in the sample of number 22, the newest of those from 19 on
        self.assertEqual((self.span.of("noise", 114), self.span.of("refused", 114)), ([0, 2, 0, 6], [0, 0, 0, 4]))
        self.assertEqual(self.span.oldest(114), 19)

    def test_what_is_too_old_or_not_known(self) -> None:
        self.span.add([("noise", 24, 1)], 124)
        self.span.add([("noise", 20, 9), ("a later cause", 24, 9)], 124)
        self.assertEqual(self.span.of("noise", 124), [0, 0, 0, 1])
        self.assertEqual(self.span.of("noise", 124 + STEP * COUNT), [0] * COUNT)

    def test_the_clock_is_set_back(self) -> None:
        """What was counted later than now is forgotten, and what comes then is counted once."""
        self.span.add([("noise", number, 5) for number in (21, 22, 23, 24)], 124)
        self.span.add([], 109)
        self.assertEqual(self.span.of("noise", 109), [0, 0, 0, 5])
        self.span.add([("noise", 22, 1)], 114)
        self.assertEqual((self.span.of("noise", 114), self.span.of("noise", 124)), ([0, 0, 5, 1], [5, 1, 0, 0]))
        # of the time before, as far as the span goes back
        self.span.add([("noise", 5, 2), ("noise", 4, 9), ("noise", 9, 9)], 40)
        self.assertEqual(self.span.of("noise", 40), [2, 0, 0, 0])


class Read(unittest.TestCase):
    """What is read from a file of records, two minutes and a half after noon and ten seconds later."""

    def setUp(self) -> None:
        self.path = pathlib.Path(self.enterContext(tempfile.TemporaryDirectory()), "site.db")
        self.enterContext(mock.patch("temzaar.hub.newrecords.time.time", return_value=NOON / 1000 + 160))

    def counted(self, rows: list[Happened], noon: int) -> set[Happened]:
        """The rows with a count, by the samples after noon."""
        return {(kind, number - noon, times) for kind, number, times in rows if times}

    def test_all_at_once(self) -> None:
        new = read_new(str(make_records(self.path)), None)
        self.assertEqual(self.counted(new.happened["hour"], NOON_OF_HOUR), IN_SAMPLES_OF_5_SECONDS)
        self.assertEqual(self.counted(new.happened["day"], NOON_OF_DAY), IN_SAMPLES_OF_2_MINUTES)

    def test_term_by_term(self) -> None:
        make_records(self.path, terms=1)
        spans, last, now = count_spans(), None, NOON / 1000 + 160
        for number in (1, 2, 3):
            if number > 1:
                add_term(self.path, number)
            new = read_new(str(self.path), last)
            for name, span in spans.items():
                span.add(new.happened[name], now)
            last = new.last
        self.assertEqual({kind: sum(spans["hour"].of(kind, now)) for kind in KINDS},
                         {"hang_time": 1, "maximum": 1, "radio_left": 1, "dropped": 0, "ended_by_operator": 1, "carrier_lost": 1, "refused": 3, "noise": 4})

    def test_what_is_older_than_the_span(self) -> None:
        make_records(self.path)
        with mock.patch("temzaar.hub.newrecords.time.time", return_value=NOON / 1000 + 3600):
            new = read_new(str(self.path), None)
        # the hour begins five seconds after noon, since the sample of now is one of its 720
        self.assertEqual({it for it in self.counted(new.happened["hour"], NOON_OF_HOUR)}, {it for it in IN_SAMPLES_OF_5_SECONDS if it[1] >= 1})
        self.assertEqual(self.counted(new.happened["day"], NOON_OF_DAY), IN_SAMPLES_OF_2_MINUTES)
