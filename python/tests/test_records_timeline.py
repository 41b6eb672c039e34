"""Pictures of a file of records: `timeline --records`. The rows are those of `made_records`, in UTC: the site began at 11:59:00, and the records end at 12:02:40."""
import os
import re
import unittest

from temzaar.cli.timeline import main
from temzaar.recordsession import restarts
from temzaar.records import COUNTS, RecordedTerm
from tests.made_records import NOON, change, make_records, zone
from tests.support import SITES, TWO_CARRIERS, FolderCase, call_tool

# What a picture of all of the file says of its marks, by their classes.
TITLES = {
    "up": ["carrier 0 up  at 11:59:00.300", "carrier 0 up  at 12:01:40.600", "carrier 1 up  at 11:59:00.600"],
    "lost": ["carrier 1 lost  at 12:00:06.000"],
    "gap": ["not recorded from 12:00:30.000 to 12:01:40.000: the controller was started again"],
    "down": ["carrier 0 is not up", "carrier 0 is not up", "carrier 1 is not up", "carrier 1 is not up"],
    "call": ["group 91 from 1001: hang time", "group 91 from 1002: maximum", "group 92 from 1003: carrier lost", "radio 1001 from 1002: ended by operator",
             "radio 1003 from 1001: radio left"],
    "ack": ["11:59:01.200: radio 1001 was registered", "11:59:02.400: radio 1002 was registered", "11:59:03.600: radio 1003 was registered",
            "11:59:30.000: the request of radio 1002 to 99 was refused: group not allowed", "12:00:12.000: the request of radio 1002 to 99 was refused: group not allowed",
            "12:00:24.000: radio 1003 left", "12:01:58.000: radio 1004 was registered",
            "12:02:04.000: the request of radio 1004 to 1002 was refused: called party busy"],
    "said": ["11:59:21.000: operator: end 1 0: done", "12:00:18.000: operator: move 7: done", "12:02:04.600: operator: drop 999: not registered", "12:02:05.200: operator: stay: done"],
}
# 11:59:56 to 12:01:45
PART = ("--from", "2026-11-27 11:59:56", "--to", "2026-11-27 12:01:45")
OF_PART = {
    "up": ["carrier 0 up  at 12:01:40.600"], "lost": TITLES["lost"], "gap": TITLES["gap"], "down": ["carrier 0 is not up", "carrier 1 is not up"],
    "call": ["group 92 from 1003: carrier lost", "radio 1003 from 1001: radio left"], "ack": TITLES["ack"][4:6], "said": TITLES["said"][1:2],
}


def titles_of(svg: str) -> dict[str, list[str]]:
    """The titles of the marks, sorted, by the mark's class."""
    found: dict[str, list[str]] = {}
    for kind, title in re.findall(r'<\w+ [^>]*class="(\w+)"[^>]*><title>([^<]*)</title>', svg):
        found.setdefault(kind, []).append(title)
    return {kind: sorted(titles) for kind, titles in found.items()}


def bars_of(svg: str) -> dict[str, tuple[float, float]]:
    """The places at which each call's bar begins and ends, by the parties."""
    found = re.findall(r'<rect x="([\d.]+)"[^>]*width="([\d.]+)"[^>]*class="call"[^>]*><title>([^:<]*)', svg)
    return {parties: (float(x), float(x) + float(width)) for x, width, parties in found}


class RecordsTimeline(FolderCase):
    """A picture of the file."""

    def setUp(self) -> None:
        super().setUp()
        self.path = make_records(self.folder / "site.db")
        self.enterContext(zone("UTC0"))

    def draw(self, *words: str) -> str:
        """The picture that the words ask for."""
        done = call_tool(main, "--records", str(self.path), *words)
        self.assertEqual((done.returncode, done.stderr), (0, ""))
        return done.stdout

    def test_all_of_the_file(self) -> None:
        for words in ((), ("--site", TWO_CARRIERS), ("--from", "2026-11-27", "--to", "2026-11-27 13:00")):
            with self.subTest(words):
                self.assertEqual(titles_of(self.draw(*words)), TITLES)

    def test_names(self) -> None:
        """Names are next to the numbers of carriers, calls, radios and commands, as text, whatever is in them. A refused request may be to a radio or to a talkgroup."""
        names = self.folder / "names.csv"
        names.write_text("radio,1001,<b>&\nradio,1002,Bus 13\nradio,999,Depot\ntalkgroup,91,Drivers\ntalkgroup,99,Nobody\nradio,99,Somebody\ntalkgroup,1002,Others\n"
                         "carrier,1,Mast South of the long street\n", encoding="utf-8")
        svg = self.draw("--names", str(names))
        titles = {it for found in titles_of(svg).values() for it in found}
        for title in ("group 91 [Drivers] from 1002 [Bus 13]: maximum", "radio 1001 [&lt;b&gt;&amp;] from 1002 [Bus 13]: ended by operator", "group 92 from 1003: carrier lost",
                      "carrier 1 [Mast South of the long street] up  at 11:59:00.600", "carrier 1 [Mast South of the long street] is not up", "11:59:01.200: radio 1001 [&lt;b&gt;&amp;] was registered",
                      "11:59:30.000: the request of radio 1002 [Bus 13] to 99 was refused: group not allowed", "12:02:04.600: operator: drop 999 [Depot]: not registered",
                      "11:59:21.000: operator: end 1 [Mast South of the long street] 0: done", "12:02:04.000: the request of radio 1004 to 1002 was refused: called party busy"):
            self.assertIn(title, titles)
        self.assertIn(">Mast South of..</text>", svg)
        # a bar has as much of it as fits
        self.assertIn(">group 91 [Drivers]</text>", svg)
        self.assertNotIn("<b>", svg)

    def test_who_joined(self) -> None:
        """Of the second version of the tables, each request that was answered with a call that was under way."""
        make_records(self.path, version=2)
        found = titles_of(self.draw())
        joined = [f"12:0{at}: radio {radio} asked for the call of group 91" for at, radio in (("2:10.000", 1004), ("2:16.000", 1001), ("2:29.500", 1004))]
        self.assertEqual(found, {**TITLES, "ack": sorted([*TITLES["ack"], "11:59:09.000: radio 1003 asked for the call of group 91", *joined])})

    def test_a_part(self) -> None:
        """A carrier that came up before has no mark for that, and is not grey; the bar of a call that was active already begins at the left edge."""
        svg = self.draw(*PART)
        self.assertEqual(titles_of(svg), OF_PART)
        bars = bars_of(svg)
        self.assertEqual(bars["group 92 from 1003"][0], 120.0)
        self.assertLess(bars["group 92 from 1003"][1], bars["radio 1003 from 1001"][0])

    def test_to_scale(self) -> None:
        """A second is as wide everywhere, whatever happens in it: the 220 seconds of the file take the 960 px of a row."""
        places = {title: float(x) for x, title in re.findall(r'<line x1="([\d.]+)"[^>]*><title>([^<]*)', self.draw())}
        bars = bars_of(self.draw())
        for at, seconds in ((places["carrier 1 lost  at 12:00:06.000"], 66.0), (places["carrier 0 up  at 12:01:40.600"], 160.6), (bars["group 91 from 1001"][0], 6.0),
                            (bars["group 91 from 1001"][1], 12.0), (bars["group 91 from 1002"][1], 209.5)):
            self.assertAlmostEqual(at, 120 + 960 * seconds / 220, delta=0.2)

    def test_what_is_not_recorded(self) -> None:
        """Hatched from 90 to 160 s over all rows, and no carrier is up after it that was up before. Without a gap there is no mark for one."""
        svg = self.draw()
        found = re.search(r'<rect x="([\d.]+)" y="40" width="([\d.]+)" height="156" class="gap">', svg)
        assert found
        self.assertAlmostEqual(float(found[1]), 120 + 960 * 90 / 220, delta=0.2)
        self.assertAlmostEqual(float(found[2]), 960 * 70 / 220, delta=0.2)
        self.assertIn(">not recorded</text>", svg)
        whole = self.draw("--to", "2026-11-27 12:00:20")
        self.assertNotIn("not recorded", whole)
        self.assertNotIn("pattern", whole)

    def test_a_call_that_is_longer_than_the_period(self) -> None:
        # from the twelfth second of minute 0 of the call to its fifteenth: nothing else comes
        svg = self.draw("--from", "2026-11-27 12:00:14", "--to", "2026-11-27 12:00:17")
        begins, ends = bars_of(svg)["radio 1003 from 1001"]
        row = re.search(r'<rect x="120" [^>]*width="([\d.]+)"[^>]*class="row"', svg)
        assert row
        self.assertEqual((begins, ends), (120.0, 120.0 + float(row[1])))

    def test_rows(self) -> None:
        named = re.compile(r">(carrier \d+ slot \d|control|radios|operator)<")
        slots = ["carrier 0 slot 0", "carrier 0 slot 1", "carrier 1 slot 0", "carrier 1 slot 1"]
        self.assertEqual(named.findall(self.draw()), [*slots, "radios", "operator"])
        self.assertEqual(named.findall(self.draw("--site", TWO_CARRIERS)), [slots[0], "control", *slots[1:], "radios", "operator"])
        self.assertEqual(len(named.findall(self.draw("--site", str(SITES / "sixteen_carriers.toml")))), 32 + 3)

    def test_a_carrier_that_the_site_file_does_not_have(self) -> None:
        change(self.path, "UPDATE calls SET carrier = 7 WHERE number = 1")
        self.assertIn("carrier 7 slot 1", self.draw("--site", TWO_CARRIERS))
        change(self.path, "UPDATE calls SET slot = 2 WHERE number = 1")
        self.assertEqual(call_tool(main, "--records", str(self.path)).stderr, f"timeline: {self.path}: call 1 is on slot 2, and a carrier has slots 0 and 1\n")

    def test_times_without_ticks(self) -> None:
        svg = self.draw()
        self.assertIn(">time</text>", svg)
        self.assertEqual(re.findall(r">(\d\d:\d\d(?::\d\d)?|\d{4}-\d\d-\d\d)</text>", svg),
                         ["11:59:00", "2026-11-27", "11:59:30", "12:00:00", "12:00:30", "12:01:00", "12:01:30", "12:02:00", "12:02:30"])
        self.assertNotIn(">tick</text>", svg)

    def test_pages(self) -> None:
        done = call_tool(main, "--records", str(self.path), "--page", "2", "--out", os.path.join(self.folder, "a.svg"))
        self.assertEqual((done.returncode, done.stdout, done.stderr),
                         (0, f"{self.folder}/a-001.svg: 11:59:00.000 to 12:00:59.999\n{self.folder}/a-002.svg: 12:01:00.000 to 12:02:40.000\n", ""))
        last = titles_of((self.folder / "a-002.svg").read_text(encoding="utf-8"))
        self.assertEqual((last["gap"], last["call"]), (TITLES["gap"], ["group 91 from 1002: maximum"]))

    def test_faults(self) -> None:
        for words, said in ((["--from", "2026-11-28"], "--from is 2026-11-28 00:00:00, and the records end at 2026-11-27 12:02:40"),
                            (["--to", "2026-11-26 12:00"], "--to is 2026-11-26 12:00:00, and the records begin at 2026-11-27 11:59:00"),
                            (["--from", "2026-11-27 12:01", "--to", "2026-11-27 12:00"], "--from is 2026-11-27 12:01:00, which is after 2026-11-27 12:00:00 of --to")):
            done = call_tool(main, "--records", str(self.path), *words)
            self.assertEqual((done.returncode, done.stdout, done.stderr), (1, "", f"timeline: {said}\n"))
        empty = make_records(self.folder / "empty.db", terms=0)
        self.assertEqual(call_tool(main, "--records", str(empty)).stderr, f"timeline: {empty}: it has no term yet\n")


class Restarts(unittest.TestCase):
    """When the controller was started again."""

    def terms(self, *rows: tuple[int, int, int]) -> list[RecordedTerm]:
        """Terms with these ends, last ticks and ticks, of 100 ms each."""
        return [RecordedTerm(number, NOON + ended, 100, last, {**dict.fromkeys(COUNTS, 0), "ticks": ticks}) for number, (ended, last, ticks) in enumerate(rows, 1)]

    def test_each(self) -> None:
        for rows, found in (
            (((1000, 10, 10), (2000, 20, 10), (3000, 30, 10)), []),
            # a run of 5 ticks that ended at 4000
            (((1000, 10, 10), (4000, 5, 5), (5000, 15, 10)), [3500]),
            # the second run is longer than the first
            (((1000, 10, 10), (9000, 70, 70)), [2000]),
            # the clock was set back: the second run ended before the first one did
            (((5000, 10, 10), (4000, 5, 5)), [5000]),
            # a term without a tick, and the next one of the same run
            (((1000, 0, 0), (2000, 10, 10)), []),
        ):
            self.assertEqual(list(restarts(self.terms(*rows))), [NOON + it for it in found], rows)
