"""`check --plan`: Erlang C, compared with published values and with a simulation of the queue, and
the values that docs/SITE_FILE.md advises."""
import heapq
import json
import math
import random
import re
import unittest
from collections.abc import Iterator
from statistics import fmean, stdev

from temzaar.cli import check
from temzaar.erlang import MOST_CARRIERS, Demand, Plan, Service, lost_share, waiting_share
from temzaar.sitefile import Site
from temzaar.siterisks import Surroundings, find_risks
from temzaar.sitetext import SiteText
from tests.support import TWO_CARRIERS, call_tool, read_document as read_page, table_rows

# T. S. Rappaport, Wireless Communications: Principles and Practice, 2nd edition, 2002, table 3.4:
# the Erlang that some channels carry if 1, 0.5, 0.2 and 0.1 of 100 calls may be lost.
LOST = (0.01, 0.005, 0.002, 0.001)
CAPACITIES = {
    2: (0.153, 0.105, 0.065, 0.046), 4: (0.869, 0.701, 0.535, 0.439),
    5: (1.36, 1.13, 0.900, 0.762), 10: (4.46, 3.96, 3.43, 3.09),
    20: (12.0, 11.1, 10.1, 9.41), 24: (15.3, 14.2, 13.0, 12.2),
    40: (29.0, 27.3, 25.7, 24.5), 70: (56.1, 53.7, 51.0, 49.2),
    100: (84.1, 80.9, 77.4, 75.2),
}
# A sample of a queue: how many calls it has, how many come before it, and in how many batches of
# calls it is cut. By their spread its own error is known, although waits depend on each other.
BATCHES, BATCH, BEFORE = 40, 4000, 4000
# As many standard errors a sample may be off. The seed is fixed, so it always is off as far.
ERRORS = 4


def waits(slots: int, demand: Demand, seed: int) -> Iterator[float]:
    """The waits of calls, in the order in which they come, at a site with some slots."""
    rng = random.Random(seed)
    free, now = [0.0] * slots, 0.0
    while True:
        now += rng.expovariate(demand.radios * demand.calls_an_hour / 3600)
        begins = max(now, free[0])
        heapq.heapreplace(free, begins + rng.expovariate(1 / demand.seconds))
        yield begins - now


def sample(values: Iterator[float]) -> tuple[float, float]:
    """The mean of batches of values, and its standard error."""
    means = [fmean(next(values) for _ in range(BATCH)) for _ in range(BATCHES)]
    return fmean(means), stdev(means) / math.sqrt(BATCHES)


class Formula(unittest.TestCase):
    """The formula, by itself."""

    def test_published_capacities(self) -> None:
        """The load at which each share is lost is that of the table, which was rounded, within 0.6 of 100."""
        for slots, loads in CAPACITIES.items():
            for share, load in zip(LOST, loads, strict=True):
                self.assertLess(lost_share(slots, 0.994 * load), share)
                self.assertGreater(lost_share(slots, 1.006 * load), share)

    def test_published_waits(self) -> None:
        """Rappaport's example of Erlang C: 15 channels with 9 Erlang, of calls of 104.4 s. By his
        chart 5 of 100 are delayed; of these 56.29 of 100 wait longer than 10 s."""
        self.assertAlmostEqual(waiting_share(15, 9.0), 0.05, delta=0.002)
        late = Service.of(Demand(9, 3600 / 104.4, 104.4, 10, 0.05), 15)
        self.assertEqual(late.carriers, 8)
        self.assertAlmostEqual(late.too_long / late.waiting, 0.5629, delta=0.0001)

    def test_published_queue(self) -> None:
        """Gross and Harris, Fundamentals of Queueing Theory, the eye clinic: three doctors, six
        patients an hour, 20 minutes each. 8/9 of a patient waits on average: for 8/54 hour."""
        self.assertAlmostEqual(waiting_share(3, 2.0), 4 / 9)
        clinic = Service.of(Demand(6, 1, 1200, 60, 0.05), 3)
        self.assertAlmostEqual(clinic.mean_wait, 3600 * 8 / 54)

    def test_the_sum(self) -> None:
        """The formula as the manual page has it, with its sum and factorials."""
        for slots in range(1, 2 * MOST_CARRIERS):
            for part in (0.01, 0.3, 0.7, 0.99):
                erlang = part * slots
                all_busy = erlang ** slots / math.factorial(slots) * slots / (slots - erlang)
                others = sum(erlang ** it / math.factorial(it) for it in range(slots))
                self.assertAlmostEqual(waiting_share(slots, erlang), all_busy / (others + all_busy), places=12)

    def test_too_much(self) -> None:
        for erlang in (3.0, 3.1, 500.0):
            self.assertEqual(Service.of(Demand(1, erlang, 3600, 5, 0.05), 3), Service(3, 1.0, 1.0, math.inf))


class Simulated(unittest.TestCase):
    """A queue that is played, call by call."""

    def test_shares_and_mean(self) -> None:
        for demand, slots in ((Demand(300, 4, 12, 5, 0.05), 5), (Demand(300, 4, 12, 5, 0.05), 7), (Demand(300, 4, 12, 5, 0.05), 6), (Demand(40, 3, 15, 20, 0.05), 1),
                              (Demand(1800, 5, 9, 2, 0.05), 27)):
            service = Service.of(demand, slots)
            for seen, wanted in ((lambda it: it > 0, service.waiting), (lambda it: it > demand.wait, service.too_long), (float, service.mean_wait)):
                with self.subTest(demand, slots=slots, wanted=wanted):
                    played = waits(service.slots, demand, 20261130)
                    for _ in range(BEFORE):
                        next(played)
                    mean, error = sample(map(seen, played))
                    self.assertLess(abs(mean - wanted), ERRORS * error)
                    # the sample is large enough to see a wrong formula
                    self.assertLess(error, 0.08 * wanted)


class Command(unittest.TestCase):
    """What the command prints."""

    WORDS = ("--plan", "--radios", "300", "--calls-an-hour", "4", "--seconds", "12")

    def test_enough(self) -> None:
        """The fewest carriers that do, whatever may wait."""
        for more, carriers in (((), 4), (("--share", "3.8"), 5), (("--share", "40"), 3), (("--wait", "3"), 5), (("--wait", "60"), 3)):
            done = call_tool(check.main, *self.WORDS, *more, "--json")
            found = json.loads(done.stdout)
            self.assertEqual((done.returncode, found["carriers"]), (0, carriers), more)
        self.assertEqual(len(found["services"]), MOST_CARRIERS)
        self.assertEqual(found["services"][1], {"carriers": 2, "slots": 3, "waiting": 1.0, "too_long": 1.0, "mean_wait": None})
        self.assertEqual(found["services"][3]["slots"], 7)
        self.assertEqual(found["erlang"], 4.0)

    def test_ends_of_the_table(self) -> None:
        for words, rows, last in ((("1", "1", "1"), 2, "1 carrier is enough: 0.0% of calls wait longer than 5 s, and 5.0% may"),
                                  (("4000", "10", "9"), 3, "16 carriers are too few, and a site can have no more: 100.0% of calls wait longer than 5 s, and 5.0% may")):
            done = call_tool(check.main, "--plan", "--radios", words[0], "--calls-an-hour", words[1], "--seconds", words[2])
            lines = done.stdout.splitlines()
            self.assertEqual((done.returncode, len(lines), lines[-1]), (int("few" in last), 3 + rows, last))
            self.assertTrue(lines[0].startswith(f"{words[0]} radio{'s' if words[0] != '1' else ''}, each with"))


class Advice(unittest.TestCase):
    """The sites of docs/SITE_FILE.md, "Three sites to begin with"."""

    PAGE = read_page("SITE_FILE.md")

    def test_each(self) -> None:
        """Their carriers are those of the plan, their times those of the ticks, and they have no risk."""
        rows = {row[0]: row for row in table_rows(self.PAGE, "### Three sites to begin with")}
        self.assertEqual(len(rows), 8)
        for column, name in enumerate(("a small utility", "a bus company", "a busy city"), 1):
            with self.subTest(name):
                calls, seconds = map(int, re.fullmatch(r"(\d+) of (\d+) s", rows["calls an hour, each"][column]).groups())  # type: ignore[union-attr]
                plan = Plan.of(Demand(int(rows["radios"][column].replace(",", "")), calls, seconds, 5, 0.05))
                assert plan.chosen
                self.assertEqual(rows["carriers"][column], f"{plan.chosen.carriers}: {plan.chosen.slots} slots")
                erlang = re.findall(r"[\d.]+", rows["calls an hour, each"][4])[column - 1]
                self.assertEqual(erlang, f"{plan.demand.erlang:.1f}".removesuffix(".0"))
                values = {key: rows[key][column].partition(":")[0] for key in ("hang", "maximum", "ahoy_wait", "silence")}
                self.expect_no_risk(values | dict(zip(("backoff_low", "backoff_high"), rows["backoff_low, backoff_high"][column].split(", "))))
                for key, unit in (("hang", 60), ("maximum", 60), ("ahoy_wait", 60), ("silence", 100)):
                    number, name_of_unit = rows[key][column].partition(": ")[2].split()
                    self.assertAlmostEqual(int(values[key]) * unit / {"ms": 1, "s": 1000, "min": 60_000}[name_of_unit], float(number), delta=0.05)

    def expect_no_risk(self, values: dict[str, str]) -> None:
        """A site file with these values has no fault and no risk."""
        site = Site(TWO_CARRIERS)
        site.plan |= {key: int(value) for key, value in values.items()}
        self.assertEqual(find_risks(SiteText.of(site.text().encode()), Surroundings(lambda _: True)), [])

    def test_system(self) -> None:
        """The sums for `system`: each field has its place, and all sixteen bits are used once."""
        rows = table_rows(self.PAGE, "### How `system` is made")
        self.assertEqual([row[0] for row in rows], ["tiny", "small", "large", "huge"])
        for model, (_, bits, net, place, total) in enumerate(rows):
            self.assertEqual(int(bits, 2), model)
            found = re.fullmatch(r"(?:0x([4C8]000) \+ )?NET × (\d+) \+ SITE × 4 \+ PAR", total)
            assert found
            self.assertEqual(int(found[1] or "0", 16), model << 14)
            (net_bits, most_net), (site_bits, most_site) = (map(int, re.findall(r"(\d+) bits, 0 to (\d+)", it)[0]) for it in (net, place))
            self.assertEqual((most_net, most_site, int(found[2]), net_bits + site_bits), (2 ** net_bits - 1, 2 ** site_bits - 1, 4 << site_bits, 12))
        self.assertIn("0x4000 + 5 × 128 + 2 × 4 + 3 = 0x428B", self.PAGE)
        self.assertEqual(0x4000 + 5 * 128 + 2 * 4 + 3, 0x428B)
