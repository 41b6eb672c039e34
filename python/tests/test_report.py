"""`report`: the traffic of made-up days, whose figures were worked out by hand; its formats, its
page, and its periods."""
import csv
import json
import os
import re
import stat
import time
from datetime import datetime
from html.parser import HTMLParser

from temzaar.cli import report as command
from temzaar.cli.report import read_span, slots_of
from temzaar.moments import MomentFault, Span
from temzaar.records import opened_records
from temzaar.report import Asked, heat_of, heat_text, make_report
from temzaar.traffic import EARLIER, HOUR_MS, LATER, NOTHING, Traffic, hours_of, read_traffic
from tests.browser import Chromium, find_chromium
from tests.made_records import NOON, TERMS, change, insert, make_records, opened, zone
from tests.support import TWO_CARRIERS, FolderCase, call_tool

MINUTE, TICK = 60_000, 60
# The day in UTC, 2026-11-27.
MIDNIGHT = NOON - 12 * HOUR_MS
DAY = Span(MIDNIGHT, MIDNIGHT + 24 * HOUR_MS)
ZONE = "CET-1CEST,M3.5.0,M10.5.0/3"
VOID = {"meta", "br", "wbr"}


def at(text: str, day: int = 0) -> int:
    """A time of the day, or of one after it."""
    hours, minutes, *seconds = map(int, text.split(":"))
    return MIDNIGHT + 24 * HOUR_MS * day + ((hours * 60 + minutes) * 60 + sum(seconds)) * 1000


def term(number: int, begins: int, ends: int, is_start: bool = False) -> tuple[int, ...]:
    """A term; if it is not the first one of a run, 1,000 ticks of the run were before."""
    ticks = (ends - begins) // TICK
    return number, ends, TICK, ticks + (0 if is_start else 1000), *TERMS[0][4:10], ticks, *TERMS[0][11:]


def call(number: int, slot: str, parties: str, begins: int, ends: int,
         waited: int | None = 0) -> tuple[object, ...]:
    """A call, such as `1001 91` to a talkgroup, or `1003 1001` to a radio, and its wait in ticks."""
    carrier, _, of_carrier = slot.partition("/")
    source, target = map(int, parties.split())
    return (number, 1, int(carrier), int(of_carrier), int(target < 1000), source, target,
            (begins - MIDNIGHT) // TICK, (ends - MIDNIGHT) // TICK, begins, ends, "hang_time", waited)


def event(number: int, at_ms: int, kind: str, **columns: object) -> tuple[object, ...]:
    """An event."""
    names = ("carrier", "slot", "radio", "target", "channel", "reason", "reply")
    return (number, 1, 0, at_ms, kind, *(columns.get(it) for it in names))


# Hour 0: 6 min of a call that began on the day before. Hour 8: 20 + 30 + 10 = 60 min, which is 1
# Erlang. Hour 9: 10 + 6 = 16 min, which is 0.267 Erlang. All: 6 + 20 + 30 + 20 + 6 = 82 min; 26 of
# slot 0/1, 36 of 1/0, 20 of 1/1; 32 of group 91, 30 of 92.
CALLS = (
    call(1, "1/0", "1004 91", at("23:50", -1), at("0:06")),
    call(2, "0/1", "1001 91", at("8:00"), at("8:20")),
    call(3, "1/0", "1002 92", at("8:10"), at("8:40")),
    # 100 ticks are 6 s, and 50 are 3 s
    call(4, "1/1", "1003 1001", at("8:50"), at("9:10"), 100),
    call(5, "0/1", "1001 91", at("9:30"), at("9:36"), 50),
    call(6, "0/1", "1001 91", at("0:00", 1), at("0:10", 1)),
)
EVENTS = (
    event(1, at("7:00"), "joined", radio=1006), event(2, at("10:00"), "left", radio=1007),
    event(3, at("8:15"), "joined_call", carrier=0, slot=1, radio=1005, target=91),
    event(4, at("8:16"), "joined_call", carrier=0, slot=1, radio=1005, target=91),
    event(5, at("9:00"), "drop_command", radio=1001, reply="done"),
    event(6, at("9:05"), "refused", radio=1002, target=99, reason=0x2F),
    event(7, at("9:06"), "refused", radio=1002, target=99, reason=0x2F),
    event(8, at("9:07"), "refused", radio=1003, target=1009, reason=0x2E),
    event(9, at("12:00"), "was_lost", carrier=1), event(10, at("12:06"), "came_up", carrier=1),
    event(11, at("23:00"), "was_lost", carrier=2), event(12, at("0:05", 1), "joined", radio=1008),
)
# Registered at the end. Of them 1006 and 1007 were registered on the day and neither called nor
# joined a call; 1008 registered later.
REGISTERED = (1001, 1002, 1003, 1005, 1006, 1008)


class Page(HTMLParser):
    """What a page has: its tags are closed in their order, and no attribute names another file.
    `cells` are those of its tables by section: their tag, their class, and their text."""

    def __init__(self, text: str) -> None:
        super().__init__()
        self.tags: list[str] = []
        self.section = ""
        self.cells: dict[str, list[tuple[str, str, str]]] = {}
        self.attributes: set[str] = set()
        self.feed(text)
        self.close()
        assert not self.tags, self.tags

    def handle_starttag(self, tag: str, attrs: list[tuple[str, str | None]]) -> None:
        found = dict(attrs)
        self.attributes |= {*found}
        if tag == "section":
            self.section = found["id"] or ""
        if tag in ("td", "th"):
            self.cells.setdefault(self.section, []).append((tag, found.get("class") or "", ""))
        if tag not in VOID and not (self.get_starttag_text() or "").endswith("/>"):
            self.tags.append(tag)

    def handle_endtag(self, tag: str) -> None:
        if tag not in VOID and tag != "rect":
            assert self.tags.pop() == tag, tag

    def handle_data(self, data: str) -> None:
        if self.tags[-1:] in (["td"], ["th"]):
            tag, kind, text = self.cells[self.section][-1]
            self.cells[self.section][-1] = (tag, kind, text + data)


class ReportCase(FolderCase):
    """A test with the file of the day, in UTC."""

    def setUp(self) -> None:
        super().setUp()
        self.path = self.folder / "site.db"
        self.enterContext(zone("UTC0"))

    def make(self, terms: tuple[tuple[int, ...], ...], calls: tuple[tuple[object, ...], ...] = (),
             events: tuple[tuple[object, ...], ...] = (), version: int = 2) -> None:
        """Makes the file."""
        make_records(self.path, terms=0, version=version)
        with opened(self.path) as conn:
            conn.execute("DELETE FROM registrations")
            insert(conn, "registrations", tuple(enumerate(REGISTERED, 1)))
            insert(conn, "terms", terms)
            insert(conn, "calls", calls if version == 2 else tuple(it[:-1] for it in calls))
            insert(conn, "events", events)

    def make_day(self, version: int = 2) -> None:
        """Makes the file of the day, of which a term has all, and another one an hour after it."""
        terms = term(1, MIDNIGHT - HOUR_MS, DAY.end), term(2, DAY.end, DAY.end + HOUR_MS)
        self.make(terms, CALLS, EVENTS, version)

    def traffic(self, span: Span = DAY) -> Traffic:
        """The figures of a period."""
        with opened_records(str(self.path)) as records:
            return read_traffic(records, span, str(self.path))

    def run_tool(self, *words: str) -> str:
        """What the tool prints of the day."""
        done = call_tool(command.main, "--records", str(self.path), "--from", "2026-11-27", *words)
        self.assertEqual((done.returncode, done.stderr), (0, ""))
        return done.stdout

    def sheets(self, *words: str) -> dict[str, dict[str, list[str]]]:
        """The values of the report as CSV: by section, and by what a row is about."""
        found: dict[str, dict[str, list[str]]] = {}
        for row in csv.DictReader(self.run_tool("--format", "csv", *words).splitlines()):
            found.setdefault(row["section"], {}).setdefault(row["key"], []).append(row["value"])
        return found

    def page(self, *words: str) -> tuple[Page, str]:
        """The page of the day, and its text."""
        out = self.folder / "day.html"
        self.assertEqual(self.run_tool("--out", str(out), *words), "")
        text = out.read_text(encoding="utf-8")
        return Page(text), text


class Figures(ReportCase):
    """The figures of the day."""

    def test_hours(self) -> None:
        self.make_day()
        hours = self.traffic().hours
        wanted = {0: (0.1, 0), 8: (1.0, 3), 9: (16 / 60, 1)}
        for number, hour in enumerate(hours):
            with self.subTest(number):
                erlang, calls = wanted.get(number, (0, 0))
                self.assertAlmostEqual(hour.erlang or 0, erlang)
                self.assertEqual((hour.calls, hour.recorded_ms), (calls, HOUR_MS))
        self.assertEqual(hours.index(self.traffic().busy_hour() or hours[0]), 8)

    def test_sheets(self) -> None:
        self.make_day()
        found = self.sheets("--slots", "3")
        self.assertEqual(len(found["hours"]), 24)
        self.assertEqual(found["hours"]["2026-11-27T08:00:00.000+00:00"], ["1.0", "3", "60.0", "33.333333"])
        self.assertEqual(found["slots"], {"0/1": ["2", "26.0", "1.805556"], "1/0": ["1", "36.0", "2.5"], "1/1": ["1", "20.0", "1.388889"], "all 3": ["4", "82.0", "1.898148"]})
        waits = found["waits"]
        self.assertEqual({key: it for key, it in waits.items() if it[0] != "0"},
                         {"none": ["2", "50.0", "50.0"], "up to 5 s": ["1", "25.0", "25.0"], "up to 10 s": ["1", "25.0", "0.0"]})
        self.assertEqual(sum(int(it[0]) for it in waits.values()), 4)
        self.assertEqual(found["refusals"], {"Group_Not_Allowed": ["2", "1", "66.666667"], "Called_Party_Busy": ["1", "1", "33.333333"]})
        # calls, joined, minutes, and of 82 minutes
        self.assertEqual(found["talkgroups"], {"91": ["2", "2", "32.0", "39.02439"], "92": ["1", "0", "30.0", "36.585366"]})
        self.assertEqual({key: it[:3] for key, it in found["radios"].items()},
                         {"1002": ["1", "0", "30.0"], "1001": ["2", "0", "26.0"], "1003": ["1", "0", "20.0"], "1004": ["0", "0", "6.0"], "1005": ["0", "2", "0.0"]})
        self.assertEqual(found["silent"], {"1006": ["0"], "1007": ["0"]})
        self.assertEqual(found["outages"], {"2026-11-27 12:00:00": ["2026-11-27 12:06:00", "1", "6.0", "lost"],
                                            "2026-11-27 23:00:00": ["2026-11-28 00:00:00", "2", "60.0", "lost, and not back"]})
        self.assertEqual(found["commands"], {"2026-11-27 09:00:00": ["drop 1001", "ok"]})
        self.assertNotIn("unrecorded", found)

    def test_erlang_c(self) -> None:
        """A = 1 Erlang of three calls, so S = 1200 s. Two slots: W = 1/2 · 2/1 = 1, and C = 1 / (1 +
        1 + 1) = 1/3. Three: W = 1/6 · 3/2 = 1/4, and C = 1/4 / (1 + 1 + 1/2 + 1/4) = 1/11. Four: W =
        1/24 · 4/3 = 1/18, and C = 1/18 / (1 + 1 + 1/2 + 1/6 + 1/18) = 1/49. Those that wait do so for
        1200/(n - 1) s. One of the three calls waited, for 6 s."""
        self.make_day()
        found = {key: [*map(float, it)] for key, it in self.sheets("--slots", "3")["erlang_c"].items()}
        self.assertEqual([*found], ["3, measured", "2", "3", "4", "5"])
        for key, waiting, mean in (("3, measured", 1 / 3, 6), ("2", 1 / 3, 1200), ("3", 1 / 11, 600), ("4", 1 / 49, 400)):
            self.assertAlmostEqual(found[key][0], 100 * waiting, places=5)
            self.assertAlmostEqual(found[key][1], mean, places=5)
        # e^(-(2 - 1) 5/1200) is 0.9958420
        self.assertAlmostEqual(found["2"][2], 33.333333 * 0.9958420, places=4)
        self.assertEqual(self.sheets("--slots", "1")["erlang_c"]["1"], ["100.0", "without end", "100.0"])
        without = self.run_tool()
        self.assertNotIn("Erlang C", without)
        self.assertIn("give their number: --slots N, or --site FILE", " ".join(without.split()))

    def test_the_site_file(self) -> None:
        self.assertEqual(slots_of(TWO_CARRIERS), ((0, 1), (1, 0), (1, 1)))
        self.make_day()
        self.assertEqual(self.sheets("--site", TWO_CARRIERS)["slots"], self.sheets("--slots", "3")["slots"])

    def test_text(self) -> None:
        self.make_day()
        text = self.run_tool("--slots", "3", "--limit", "2.5")
        for line in ("Traffic of 2026-11-27", "busy hour          2026-11-27 08:00", "traffic in it      1.00 Erlang", "occupancy in it    33% of 3 slots", "calls that waited  50.0%",
                     "longer than 2.5 s  50.0%", "refused requests   3", "not recorded       nothing",
                     "Of 4 calls 50.0% waited, for 4.5 s on average and 6.0 s at most. 50.0% waited longer than 2.5 s.",
                     "up to 2.5 s      0       0.0       50.0", "All of the period is recorded.", "2 in all, of which 2 were not called by their number either.",
                     "Fri 2026-11-27  0.1  0.0  0.0  0.0  0.0  0.0  0.0  0.0  1.0  0.3" + "  0.0" * 14):
            self.assertIn(line, text.splitlines())
        self.assertLess(max(map(len, text.splitlines())), 140)

    def test_json(self) -> None:
        self.make_day()
        rows, of_csv = json.loads(self.run_tool("--format", "json")), [*csv.DictReader(self.run_tool("--format", "csv").splitlines())]
        self.assertEqual([{name: "" if it is None else str(it) for name, it in row.items()} for row in rows], of_csv)
        self.assertEqual(rows[0], {"section": "hours", "row": 1, "key": "2026-11-27T00:00:00.000+00:00", "measure": "traffic", "value": 0.1, "unit": "Erlang"})


class NotKnown(ReportCase):
    """What is not in the file."""

    def test_a_gap(self) -> None:
        """A kill at 10:15, and a start at 10:45. The 15 minutes of a call until then are half of the
        30 that are recorded; the busy hour is that with 12 minutes of 60. Carrier 0 was back in a
        second, and carrier 1 after 5 minutes."""
        self.make((term(1, MIDNIGHT, at("10:15")), term(2, at("10:45"), DAY.end, is_start=True)),
                  (call(1, "0/1", "1001 91", at("10:00"), at("10:15")), call(2, "0/1", "1001 91", at("14:00"), at("14:12"))),
                  (event(1, at("0:01"), "came_up", carrier=0), event(2, at("0:01"), "came_up", carrier=1),
                   event(3, at("10:45:01"), "came_up", carrier=0), event(4, at("10:50"), "came_up", carrier=1)))
        traffic = self.traffic()
        self.assertEqual([heat_text(it) for it in traffic.hours[9:15]], ["0.0", "0.5*", "0.0", "0.0", "0.0", "0.2"])
        busy = traffic.busy_hour()
        self.assertEqual(busy and busy.begins_ms, at("14:00"))
        found = self.sheets()
        self.assertEqual(found["unrecorded"], {"2026-11-27 10:15:00": ["2026-11-27 10:45:00", "30.0", "the controller was started again"]})
        self.assertEqual(found["outages"], {"2026-11-27 10:45:00": ["2026-11-27 10:50:00", "1", "5.0", "the controller was started again"]})
        self.assertIn("not recorded       30 min 0 s\n", self.run_tool())
        # the first 500 ticks of that run are not recorded
        change(self.path, "UPDATE terms SET last_tick = last_tick + 500 WHERE number = 2")
        self.assertEqual([it.from_ms for it in self.traffic().outages], [at("10:45")])

    def test_the_ends_of_the_records(self) -> None:
        """From 6:00 to 18:30: other hours are not 0. Of the last one half an hour is recorded, and
        nobody knows whether a carrier that was lost then came back."""
        self.make((term(1, at("6:00"), at("18:30")),), (call(1, "0/1", "1001 91", at("18:00"), at("18:06")),), (event(1, at("18:20"), "was_lost", carrier=0),))
        traffic = self.traffic()
        self.assertEqual([it.erlang is None for it in traffic.hours], [not 6 <= it <= 18 for it in range(24)])
        self.assertEqual(([it.why for it in traffic.gaps], traffic.hours[18].erlang), ([EARLIER, LATER], 0.2))
        self.assertEqual([(it.to_ms, it.is_back) for it in traffic.outages], [(at("18:30"), False)])
        self.assertEqual(self.sheets()["hours"]["2026-11-27T05:00:00.000+00:00"], ["", "", "0.0"])

    def test_rows_that_were_removed(self) -> None:
        """The file has the calls from number 2 on: before that one ended, others may have been active.
        It has the events from 9:05 on."""
        self.make_day()
        with opened(self.path) as conn:
            conn.execute("CREATE TABLE removed (calls INTEGER, events INTEGER, terms INTEGER) STRICT")
            for calls, events, first, earliest in ((0, 0, None, 0), (-5, None, None, 0), (1, 5, at("8:20"), at("9:05"))):
                conn.execute("DELETE FROM removed")
                conn.execute("INSERT INTO removed VALUES (?, ?, 0)", (calls, events))
                conn.execute("DELETE FROM calls WHERE number <= ?", (calls,))
                conn.execute("DELETE FROM events WHERE number <= ?", (events,))
                conn.commit()
                traffic = self.traffic()
                self.assertEqual(([(it.to_ms, it.why) for it in traffic.gaps], traffic.events_ms), ([(first, EARLIER)] if first else [], earliest))
        self.assertIn("Those before 2026-11-27 09:05:00 are missing", " ".join(self.run_tool().split()))

    def test_the_first_version(self) -> None:
        """For how long calls waited is not known, nor who joined."""
        self.make_day(version=1)
        found = self.sheets("--slots", "3")
        self.assertEqual((found["waits"]["none"], found["waits"]["not known"]), (["0", "", ""], ["4", "", ""]))
        self.assertEqual((found["talkgroups"]["91"][:2], found["erlang_c"]["3, measured"]), (["2", ""], ["", "", ""]))
        text = self.run_tool("--slots", "3")
        self.assertNotIn("calls that waited  ", text)
        self.assertIn("Of 4 calls it is not known for how long they waited", text)

    def test_no_term(self) -> None:
        self.make(())
        traffic = self.traffic()
        self.assertEqual(([it.why for it in traffic.gaps], {it.erlang for it in traffic.hours}, traffic.busy_hour()), ([NOTHING], {None}, None))
        self.assertIn("busy hour         not known\n", self.run_tool("--slots", "3"))
        self.page("--slots", "3")

    def test_a_damaged_row(self) -> None:
        self.make_day()
        change(self.path, "UPDATE events SET carrier = 16 WHERE number = 9")
        done = call_tool(command.main, "--records", str(self.path), "--from", "2026-11-27")
        self.assertEqual((done.returncode, done.stdout, done.stderr), (1, "", f"report: {self.path}: events, row 9: carrier is 16\n"))


class Clock(ReportCase):
    """Hours are those of the local clock."""

    def test_days_on_which_the_clock_is_set(self) -> None:
        """In October an hour comes twice, and in March one is missing. A call from 01:30 to 01:36 UTC is
        in the second one that begins at 2."""
        with zone(ZONE):
            autumn, spring, both = (read_span(f"2026-{first}", f"2026-{last}", datetime.now().astimezone())
                                    for first, last in (("10-25", "10-25"), ("03-29", "03-29"), ("03-28", "03-29")))
            self.assertEqual([len([*hours_of(it)]) for it in (autumn, spring)], [25, 23])
            begins = autumn.first + int(3.5 * HOUR_MS)
            self.make((term(1, *autumn),), (call(1, "0/1", "1001 91", begins, begins + 6 * MINUTE),))
            heat = heat_of(self.traffic(autumn).hours)
            self.assertEqual(heat.clock[:5], ["00", "01", "02", "02 again", "03"])
            self.assertEqual([heat_text(it) for it in heat.days[0][1][:5]], ["0.0", "0.0", "0.0", "0.1", "0.0"])
            heat = heat_of([*hours_of(both)])
            self.assertEqual([(day, [it is not None for it in hours[1:4]]) for day, hours in heat.days], [("Sat 2026-03-28", [True, True, True]), ("Sun 2026-03-29", [True, False, True])])

    def test_other_clocks(self) -> None:
        """Hours that begin at a quarter of one in UTC, and a clock that is set by half an hour."""
        for name in ("XXX-5:45", "<+1030>-10:30<+11>-11,M10.1.0,M4.1.0", "WEST3"):
            with zone(name):
                for day in ("2026-04-05", "2026-10-04", "2026-11-27"):
                    span = read_span(day, day, datetime.now().astimezone())
                    hours = [*hours_of(span)]
                    self.assertEqual([it.begins_ms for it in hours] + [span.end], [span.first] + [it.ends_ms for it in hours])
                    self.assertTrue(all(0 < it.ends_ms - it.begins_ms <= HOUR_MS for it in hours))

    def test_periods(self) -> None:
        now = datetime.fromisoformat("2026-11-28T10:00:00+00:00")
        for first, last, begins, ends in ((None, None, at("0:00"), DAY.end), ("2026-11-27", None, at("0:00"), DAY.end), (None, "2026-11-27", at("0:00"), DAY.end),
                                          ("2026-11-27 08:30", "2026-11-27 10:00", at("8:30"), at("10:00")), ("-2h", None, at("8:00", 1), at("10:00", 1)), ("08:30", None, at("8:30", 1), at("10:00", 1)),
                                          (None, "2026-11-27 08:00", at("0:00"), at("8:00")), ("2026-11-26", "08:00", at("0:00", -1), at("8:00", 1))):
            with self.subTest(first=first, last=last):
                self.assertEqual(read_span(first, last, now), (begins, ends))
        for first, last in (("2026-11-27 08:00", "2026-11-27 08:00"), ("2026-11-28", "2026-11-27"), ("2024-01-01", "2026-01-01"), ("noon", None)):
            self.assertRaises(MomentFault, read_span, first, last, now)
        self.make_day()
        hours = self.traffic(Span(at("8:30"), at("9:05"))).hours
        # of 30 min 10 and 10, of 5 min all
        self.assertEqual([round(it.erlang or 0, 3) for it in hours], [0.667, 1.0])


class OnThePage(ReportCase):
    """The page."""

    def test_the_heat_map(self) -> None:
        """0.1 of 1.0 Erlang is a part of the first of six steps, 0.267 of the second."""
        self.make_day()
        page, _ = self.page("--slots", "3")
        cells = [(kind, text) for tag, kind, text in page.cells["hours"] if tag == "td"]
        wanted = {0: ("heat-1", "0.1"), 8: ("heat-6 busy", "1.0"), 9: ("heat-2", "0.3")}
        self.assertEqual(cells, [wanted.get(it, ("heat-0", "0.0")) for it in range(24)])
        self.make((term(1, MIDNIGHT, at("1:30")),))
        page, _ = self.page()
        self.assertEqual([it[1:] for it in page.cells["hours"] if it[0] == "td"][:3], [("heat-0", "0.0"), ("heat-0", "0.0*"), ("none", "–")])

    def test_tables(self) -> None:
        """Heads have units, and numbers are at the right."""
        self.make_day()
        page, text = self.page("--slots", "3")
        self.assertEqual([it for tag, _, it in page.cells["radios"] if tag == "th"], ["radio", "calls", "joined", "in use, min", "share, %", ""])
        self.assertEqual([it[1:] for it in page.cells["radios"] if it[0] == "td"][:5], [("", "1002"), ("number", "1"), ("number", "0"), ("number", "30.0"), ("number", "36.6")])
        self.assertIn("C = W / (1 + A + A²/2! + … + Aⁿ⁻¹/(n − 1)! + W)", text)

    def test_it_asks_no_host(self) -> None:
        self.make_day()
        page, text = self.page("--slots", "3")
        for word in ("http://", "https://", "src=", "url(", "@import", "<script", "<link"):
            self.assertNotIn(word, text)
        self.assertLessEqual(page.attributes, {"lang", "charset", "name", "content", "id", "class", "scope", "data-hour", "title", "viewbox", "preserveaspectratio", "aria-hidden", "width", "height"})

    def test_colours(self) -> None:
        """They are the board's, dark on a screen that asks for it alone."""
        self.make_day()
        _, text = self.page()
        light, dark = re.findall(r"--page: (#\w+);", text)[:2]
        self.assertEqual((light, dark), ("#eef1f4", "#0d1117"))
        self.assertRegex(text, r"@media screen and \(prefers-color-scheme: dark\) \{\n:root \{\n  color-scheme: dark;\n  --page: #0d1117")
        self.assertNotIn("data-theme", text)

    def test_names(self) -> None:
        """They are next to their numbers, and are text alone."""
        self.make_day()
        names = self.write("names.csv", f"radio,1002,<b>&\"\ntalkgroup,91,A{39 * 'a'}\n"
                                        "carrier,1,=Mast\nradio,1006,Depot\n")
        page, text = self.page("--names", str(names), "--slots", "3")
        self.assertIn(("td", "", '<b>&"'), page.cells["radios"])
        self.assertIn(("td", "", "A" + 39 * "a"), page.cells["talkgroups"])
        self.assertNotIn("<b>", text)
        found = self.sheets("--names", str(names), "--slots", "3")
        self.assertEqual((found["silent"], found["slots"]["1/0"][0], found["radios"]["1001"][0]), ({"1006": ["Depot", "0"], "1007": ["", "0"]}, "'=Mast", ""))

    def test_the_file(self) -> None:
        """Its mode whatever the umask is. It takes the place of another file, and of nothing else."""
        self.make_day()
        out = self.folder / "day.html"
        out.write_text("old", encoding="utf-8")
        for mask in (0o000, 0o077):
            before = os.umask(mask)
            try:
                self.page()
            finally:
                os.umask(before)
            self.assertEqual(stat.S_IMODE(out.stat().st_mode), 0o640)
        self.assertEqual(sorted(os.listdir(self.folder)), ["day.html", "site.db"])
        (self.folder / "link.html").symlink_to(out)
        self.run_tool("--out", str(self.folder / "link.html"))
        self.assertTrue((self.folder / "link.html").is_symlink())
        for path, said in (("/dev/null", "not a file"), (str(self.folder), "not a file"), (f"{self.folder}/none/day.html", "No such file or directory")):
            done = call_tool(command.main, "--records", str(self.path), "--out", path)
            self.assertEqual((done.returncode, done.stderr), (1, f"report: {path}: {said}\n"))


class InABrowser(ReportCase):
    """The page as Chromium shows it."""

    def test_widths(self) -> None:
        """It fits from a phone to a wide screen, also with long names, and asks for nothing but
        itself."""
        self.make_day()
        kinds = "radio,1001", "radio,1006", "talkgroup,91", "carrier,1"
        names = self.write("names.csv", "".join(f"{kind},{'W' * 40}\n" for kind in kinds))
        self.page("--names", str(names), "--slots", "3")
        browser = Chromium(find_chromium())
        self.addCleanup(browser.close)
        url = (self.folder / "day.html").as_uri()
        for width in (320, 390, 801, 1280):
            for dark in (False, True):
                browser.open(url, width, dark=dark)
                self.assertLessEqual(browser.evaluate("document.documentElement.scrollWidth"), width)
        self.assertEqual((set(browser.requested()), browser.complaints()), ({url}, []))


class Large(ReportCase):
    """A file of the greatest size."""

    def test_a_hundred_thousand_calls(self) -> None:
        """Of four weeks, with a term each minute. Each call is 6 s, on one of seven slots: 600,000 s of
        2,419,200 are 0.248 Erlang."""
        begins, minutes = MIDNIGHT, 28 * 24 * 60
        calls = tuple(call(it + 1, f"{1 + it % 7 // 2}/{it % 7 % 2}", f"{1001 + it % 997} {91 + it % 60}", begins + it * 24_000, begins + it * 24_000 + 6_000, it % 50)
                      for it in range(100_000))
        terms = tuple((it + 1, begins + (it + 1) * MINUTE, TICK, 1000 * (it + 1), *TERMS[0][4:10], 1000, *TERMS[0][11:]) for it in range(minutes))
        events = tuple(event(it + 1, begins + it * 24_000, "joined_call", carrier=1, slot=0, radio=1001 + it % 997, target=91) for it in range(100_000))
        self.make(terms, calls, events)
        began = time.process_time()
        traffic = self.traffic(Span(begins, begins + minutes * MINUTE))
        report = make_report(traffic, Asked(traffic.span, 2, 7))
        self.assertLess(time.process_time() - began, 20)
        self.assertEqual((traffic.calls, round(traffic.used_ms / traffic.recorded_ms, 3), traffic.gaps), (100_000, 0.248, []))
        # waits of 34 to 49 of each 50 ticks are longer than 2 s
        self.assertIn(("longer than 2 s", "32.0%"), report.facts)
