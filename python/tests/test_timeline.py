"""The list of calls, windows, clock times and pages of `timeline`; scripts that cannot be drawn. The examples' sessions are worked out in test_examples."""
import csv
import json
import os
import re
import subprocess
import unittest
import unittest.mock
from collections import Counter

from temzaar import code, pdus
from temzaar.cli.timeline import main, read_session
from temzaar.clock import Clock, ClockFault, Window
from temzaar.drawing import LEGEND, STYLE, Drawing, Session
from temzaar.entries import Call, calls_of
from temzaar.frames import DONE, POLL, FrameType, active, burst_frame, hello, rx, welcome
from temzaar.pdus import Parties
from temzaar.process import journal_of
from temzaar.script import SessionFault
from temzaar.sitefile import Site
from tests.support import EXAMPLES, TWO_CARRIERS, FolderCase, call_tool, program

# queued_call.txt over two_carriers.toml, with ticks of 60 ms from 10:15:00 on. All calls are over after 100 ticks, and one of them ends with each tick. With that
# after the first end the request that has waited since tick 0 gets the slot.
QUEUED_CALL = """\
begun             ended             slot  kind       source  target  waited       cause of the end
0 10:15:00.000    100 10:15:06.000  0/1   talkgroup  1001    91      -            hang time
0 10:15:00.000    101 10:15:06.060  1/0   talkgroup  1002    92      -            hang time
0 10:15:00.000    -                 1/1   talkgroup  1003    93      -            still active
101 10:15:06.060  -                 0/1   talkgroup  1004    94      101 (6.1 s)  still active
"""


def run_example(name: str, *words: str) -> subprocess.CompletedProcess[str]:
    """The tool over an example and its expected output."""
    files = "--script", str(EXAMPLES / "scripts" / f"{name}.txt"), "--printed", str(EXAMPLES / "expected" / f"{name}.txt")
    return call_tool(main, "--site", TWO_CARRIERS, *files, "--decoder", program("dmr_decode"), *words)


class Lists(FolderCase):
    """The list of calls, in its formats."""

    def test_text(self) -> None:
        done = run_example("queued_call", "--calls", "--start", "10:15")
        self.assertEqual((done.returncode, done.stdout, done.stderr), (0, QUEUED_CALL, ""))

    def test_csv(self) -> None:
        done = run_example("queued_call", "--calls", "csv", "--start", "2026-11-26T10:15:00")
        rows = list(csv.DictReader(done.stdout.splitlines()))
        self.assertEqual(len(rows), 4)
        self.assertEqual(rows[0], {"begun": "0", "ended": "100", "begun_time": "2026-11-26T10:15:00.000", "ended_time": "2026-11-26T10:15:06.000", "carrier": "0", "slot": "1",
                                   "kind": "talkgroup", "source": "1001", "target": "91", "cause": "hang time", "waited_ticks": "", "waited_seconds": ""})
        self.assertEqual((rows[3]["waited_ticks"], rows[3]["waited_seconds"], rows[3]["ended"]), ("101", "6.06", ""))

    def test_names(self) -> None:
        """In the table next to the numbers; in CSV and JSON after the other columns, which stay as they are; in the picture in what marks say."""
        text = "radio,1001,-Bus 12\ntalkgroup,91,Drivers\ncarrier,0,Mast North\n"
        path = str(self.write("names.csv", text))
        table, sheet, rows, svg = (run_example("queued_call", *words, "--start", "10:15", "--names", path).stdout
                                   for words in (["--calls"], ["--calls", "csv"], ["--calls", "json"], []))
        fault = run_example("queued_call", "--names", str(self.folder / "none"))
        self.assertEqual(table.splitlines()[1], "0 10:15:00.000    100 10:15:06.000  0/1 [Mast North]  talkgroup  1001 [-Bus 12]  91 [Drivers]  -            hang time")
        before = run_example("queued_call", "--calls", "csv", "--start", "10:15").stdout.splitlines()
        self.assertEqual(sheet.splitlines()[:2], [before[0] + ",source_name,target_name,carrier_name", before[1] + ",'-Bus 12,Drivers,Mast North"])
        self.assertEqual([[*json.loads(rows)[n].values()][-3:] for n in (0, 1)], [["-Bus 12", "Drivers", "Mast North"], [None, None, None]])
        for text in (">group 91 [Drivers] from 1001 [-Bus 12]: hang time</title>", " to group 91 [Drivers] from 1001 [-Bus 12]</title>", "C_ACKD to 1004", "P_CLEAR, called 91 [Drivers]", ">control Mast North</text>",
                     "carrier 0 [Mast North] up "):
            self.assertIn(text, svg)
        self.assertEqual((fault.returncode, fault.stdout, fault.stderr), (1, "", f"timeline: {self.folder}/none: No such file or directory\n"))

    def test_json_without_a_clock(self) -> None:
        rows = json.loads(run_example("operator", "--calls", "json").stdout)
        self.assertEqual([(row["target"], row["begun"], row["ended"], row["cause"], row["waited_ticks"]) for row in rows],
                         [(91, 0, 0, "ended by the operator", None), (92, 0, 1, "radio dropped by the operator", None), (93, 0, None, "still active", None), (94, 1, None, "still active", 1)])
        self.assertEqual({row["begun_time"] for row in rows}, {None})

    def test_a_lost_carrier(self) -> None:
        done = run_example("lost_carrier", "--calls")
        self.assertEqual([line.split("  ")[-1].strip() for line in done.stdout.splitlines()[1:]], ["still active", "carrier lost", "carrier lost", "still active"])

    def test_calls_of_a_window(self) -> None:
        # the first call ended at tick 100
        for words, targets in ((["--from", "100"], ["91", "92", "93", "94"]), (["--from", "101"], ["92", "93", "94"]), (["--to", "100"], ["91", "92", "93"]),
                               (["--from", "10:15:06.06", "--start", "10:15"], ["92", "93", "94"])):
            done = run_example("queued_call", "--calls", "csv", *words)
            self.assertEqual([row["target"] for row in csv.DictReader(done.stdout.splitlines())], targets, words)


def request(kind: int, target: int, source: int, options: int = 1) -> str:
    """The line of a request on the control slot."""
    return f"bytes 0 {rx(0, code.burst_of(pdus.random_access(kind, target, source, options))).hex()}\n"


def register(*radios: int) -> str:
    """The lines of radios that register, and of the polls that acknowledge it."""
    return "".join(request(pdus.REGISTRATION, 0xFFFEC6, radio) + POLLED for radio in radios)


COMES_UP, POLLED, ACTIVE = f"open 0\nbytes 0 {hello(0, 1).hex()}\n", f"bytes 0 {POLL.hex()}\n", f"bytes 0 {active(1).hex()}\n"
CALLED, NEXT = request(pdus.TALKGROUP_VOICE, 91, 1001), request(pdus.TALKGROUP_VOICE, 92, 1002)
TAKEN = f"bytes 0 {rx(0, code.burst_of(pdus.write('C_ACKU', reason=pdus.MS_ACCEPTED, target=1002, additional=1003))).hex()}\n"


class Calls(FolderCase):
    """The calls of scripts, worked out by the rules of docs/SITE_MACHINE.md: when each began and ended, why, and how long its request waited. Carrier 0 alone is up,
    and has a slot for one call; the hang time is 10 ticks, and the maximum 15."""

    site = Site(TWO_CARRIERS, hang=10, maximum=15)

    def calls(self, script: str, site: Site = site) -> list[Call]:
        """The calls of a script; radios 1001 to 1003 register before."""
        path = str(self.write("site.toml", site.text()))
        script = COMES_UP + register(1001, 1002, 1003) + script
        return calls_of(journal_of(program("dmr_decode"), path, script), site.plan["hang"])

    def test_ends(self) -> None:
        leaving = request(pdus.REGISTRATION, 0xFFFEC6, 1001, 0)
        for name, script, ended, cause in (
            ("hang", "tick 10\n", 10, "hang_time"),
            ("hang after activity", "tick 4\n" + ACTIVE + "tick 10\n", 14, "hang_time"),
            ("maximum", "tick 8\n" + ACTIVE + "tick 7\n", 15, "maximum"),
            ("operator", "tick 3\nsay  end 00 1 \n", 3, "ended_by_operator"),
            ("operator in two pieces", "tick 3\ntext 656e64\ntext 2030203120200a\n", 3, "ended_by_operator"),
            ("drop", "tick 3\nsay drop 1001\n", 3, "dropped"),
            ("another radio is dropped, and another slot ended", "tick 3\nsay drop 1002\nsay end 1 1\ntick 7\n", 10, "hang_time"),
            ("left", "tick 2\n" + leaving, 2, "radio_left"),
            ("the P_CLEAR waits, and then the operator comes", "tick 12\nsay end 0 1\n" + POLLED, 10, "hang_time"),
            ("lost before its P_CLEAR", "tick 10\ncut 0\n", 10, "hang_time"),
            ("lost", "tick 3\ncut 0\n", 3, "carrier_lost"),
            ("another connection", "tick 3\n" + COMES_UP, 3, "carrier_lost"),
            ("active", "tick 3\n", None, ""),
        ):
            with self.subTest(name):
                self.assertEqual([(it.carrier, it.slot, str(it.parties), it.began, it.ended, it.cause) for it in self.calls(CALLED + script)],
                                 [(0, 1, "group 91 from 1001", 0, ended, cause)])

    def test_waits(self) -> None:
        """The first call is over at tick 10, and its P_CLEAR is sent then. A request that waits gets the slot with the next tick."""
        for name, script, began, waited in (
            ("from the request on", "tick 2\n" + NEXT + "tick 3\n" + NEXT + "tick 5\n" + POLLED + "tick\n", 11, 9),
            ("cancelled, and asked again", "tick 2\n" + NEXT + request(pdus.CANCEL, 0, 1002) + "tick 8\n" + POLLED + "tick 2\n" + NEXT, 12, None),
            ("from the answer of the called radio on", "tick 2\n" + request(pdus.INDIVIDUAL_VOICE, 1003, 1002) + "tick 3\n" + TAKEN + "tick 5\n" + POLLED + "tick\n", 11, 6),
        ):
            with self.subTest(name):
                self.assertEqual([(it.began, it.waited) for it in self.calls(CALLED + script)], [(0, None), (began, waited)])

    def test_without_a_poll(self) -> None:
        """A call begins with its request, and ends with its hang time, also if neither its grant nor its P_CLEAR is sent."""
        self.assertEqual([(it.began, it.begins, it.ended, it.ends, it.cause) for it in self.calls(CALLED + "tick 20\n")], [(0, 8, 10, 9, "hang_time")])


def printed(*answers: tuple[bytes, bytes]) -> str:
    """The printed replay of a script in which carrier 0 of two polls: a PDU for slot 0, and one or nothing for slot 1, for each poll."""
    sent = welcome(1)
    for control, payload in answers:
        sent += burst_frame(FrameType.TX, 0, code.burst_of(control)) + (burst_frame(FrameType.TX, 1, code.burst_of(payload)) if payload else b"") + DONE
    return f"carrier 0 {sent.hex().upper()}\ncarrier 1 -\nok\n"


class Marks(FolderCase):
    """The marks of pictures: calls, grants of calls that had ended, late grants and received bursts."""

    site = Site(TWO_CARRIERS, hang=1)

    def test_each(self) -> None:
        # three acknowledgements wait in front of the grant; the call ends by hang time, and its P_CLEAR is sent with the first of them
        late = "".join(request(pdus.REGISTRATION, 0xFFFEC6, radio) for radio in (1001, 1002, 1003)) + CALLED + "tick\n" + 5 * POLLED
        for name, script, drawn in (
            ("a late grant", late, (1, 0, 1, 0, 4)),
            # the call is active; the fourth fill names it again
            ("a late entry", register(1001) + CALLED + 6 * POLLED, (1, 1, 0, 1, 2)),
            # after the late grant has been sent another call gets the slot
            ("the next call", late + NEXT + POLLED, (2, 1, 1, 0, 5)),
            ("the same call again, which has its own grant", late + CALLED + POLLED, (2, 1, 1, 0, 5)),
        ):
            with self.subTest(name):
                site = self.write("site.toml", self.site.text())
                file = self.write("script.txt", COMES_UP + script)
                words = "--site", str(site), "--script", str(file)
                svg = call_tool(main, *words, "--program", program("dmr_trunk")).stdout
                found = Counter(re.findall(r'class="(\w+)"', svg))
                self.assertEqual(tuple(found[kind] for kind in ("call", "grant", "ended", "late", "heard")), drawn)


class Clocks(unittest.TestCase):
    """Ticks and clock times."""

    def test_times(self) -> None:
        clock = Clock(60, "23:59:58")
        self.assertEqual((clock.time_of_day(0), clock.time_of_day(34), clock.full_time(34)), ("23:59:58.000", "00:00:00.040", "00:00:00.040"))
        self.assertEqual(Clock(60, "2026-12-31T23:59:58").full_time(34), "2027-01-01T00:00:00.040")
        self.assertEqual((Clock(60).time_of_day(5), Clock(60).seconds(5), Clock(60).ticks_of_minutes(2)), ("", 0.3, 2000))

    def test_ticks(self) -> None:
        clock = Clock(60, "23:59:58")
        # 2.04 s are 34 ticks; a time between two ticks is the one before it
        for text, tick in (("17", 17), ("23:59:58", 0), ("23:59:58.119", 1), ("23:59:58.120", 2), ("00:00:00.04", 34)):
            self.assertEqual(clock.tick_of(text), tick, text)
        for text in ("", "-1", "ten", "25:00", "10:15Z", "1e3", "2000-01-01T23:59:57"):
            self.assertRaises(ClockFault, clock.tick_of, text)
        self.assertRaisesRegex(ClockFault, "needs --start", Clock(60).tick_of, "10:15")
        self.assertRaises(ClockFault, Clock, 60, "noon")

    def test_windows(self) -> None:
        clock = Clock(60)
        self.assertEqual(clock.window(None, None, 100), Window(0, 101))
        self.assertEqual(clock.window("5", "7", 100), Window(5, 8))
        self.assertEqual(clock.window("5", "700", 100), Window(5, 101))
        for first, last in (("101", None), ("8", "7")):
            self.assertRaises(ClockFault, clock.window, first, last, 100)

    def test_pages(self) -> None:
        self.assertEqual(Window(0, 101).pages(40), [Window(0, 40), Window(40, 80), Window(80, 101)])
        self.assertEqual(Window(0, 81).pages(40), [Window(0, 40), Window(40, 81)])
        self.assertEqual(Window(7, 8).pages(40), [Window(7, 8)])
        self.assertRaisesRegex(ClockFault, "more than 1000 pages", Window(0, 100001).pages, 100)


ALOHA = pdus.write("C_ALOHA", register=1, backoff=1, system=0x1234)
GRANT = pdus.write("TV_GRANT", lpcn=1, slot=1, target=91, source=1001)


class Pictures(FolderCase):
    """Windows and pages of pictures."""

    def test_a_bar_ends_within_an_input(self) -> None:
        """Of ten ticks that are one input a call takes the first four."""
        session = self.session("tick 10\n" + POLLED, ALOHA)
        session.calls[0].ended, session.calls[0].ends, session.calls[0].cause = 4, 3, "hang_time"
        svg = Drawing(session, Window(0, 11)).draw()
        places = {int(tick): float(x) for x, tick in re.findall(r'<text x="([\d.]+)"[^>]*class="small">(\d+)</text>', svg)}
        bar = re.search(r'<rect x="([\d.]+)"[^>]*width="([\d.]+)"[^>]*class="call"', svg)
        assert bar
        # inputs take 14 px each, and so does a tick
        self.assertEqual((float(bar[1]), float(bar[2])), (120 + 2 * 14, 14 + 4 * 14))
        self.assertEqual(places[10], 120 + 3 * 14 + 10 * 14)

    def test_each_class_of_a_mark_has_a_place_in_the_legend(self) -> None:
        styled = set(re.findall(r"\.(\w+)\{", STYLE)) - {"small", "row", "control", "grid"}
        self.assertEqual({entry.kind for line in LEGEND for entry in line}, styled)

    def session(self, script: str, *sent: bytes) -> Session:
        """The session of carrier 0 with a script, in which a call begins with the third input, and these PDUs are sent with its polls."""
        session = read_session(Site(TWO_CARRIERS).plan, COMES_UP + CALLED + script, printed(*((it, b"") for it in sent)))
        session.calls = [Call(0, 1, Parties(True, 91, 1001), 0, 2)]
        return session

    def test_a_call_that_began_before_the_window_is_drawn(self) -> None:
        session = self.session(POLLED + "tick 50\n" + ACTIVE + POLLED + "tick 50\n" + POLLED, GRANT, ALOHA, ALOHA)
        for window, calls, received in ((Window(0, 101), 1, 2), (Window(10, 20), 1, 0), (Window(50, 51), 1, 1)):
            svg = Drawing(session, window).draw()
            self.assertEqual((len(re.findall('class="call"', svg)), len(re.findall('class="heard"', svg))), (calls, received), window)
            bar = re.search(r'<rect x="([\d.]+)"[^>]*width="([\d.]+)"[^>]*class="call"', svg)
            assert bar
            self.assertLessEqual(float(bar[1]) + float(bar[2]), 1100)

    def test_the_carrier_is_up_in_a_later_window(self) -> None:
        session = self.session(POLLED + "tick 100\n" + POLLED, GRANT, ALOHA)
        svg = Drawing(session, Window(40, 60)).draw()
        self.assertEqual(svg.count("carrier 0 is not up"), 0)
        self.assertEqual(svg.count("carrier 1 is not up"), 1)

    def test_times_beside_ticks(self) -> None:
        svg = run_example("queued_call", "--start", "10:15").stdout
        self.assertIn(">10:15:06.000</text>", svg)
        self.assertIn("tick 100 (10:15:06.000): P_CLEAR", svg)
        self.assertNotIn(">time</text>", run_example("queued_call").stdout)

    def test_pages_are_files(self) -> None:
        folder = self.folder
        done = run_example("queued_call", "--page", "0.05", "--start", "10:15", "--out", f"{folder}/a.svg")
        # 3 s are 50 ticks, and the session has 101
        self.assertEqual(done.stdout, f"{folder}/a-001.svg: ticks 0 to 49 (10:15:00.000 to 10:15:02.940)\n{folder}/a-002.svg: ticks 50 to 99 (10:15:03.000 to 10:15:05.940)\n"
                                      f"{folder}/a-003.svg: ticks 100 to 101 (10:15:06.000 to 10:15:06.060)\n", done.stderr)
        self.assertEqual(sorted(os.listdir(folder)), ["a-001.svg", "a-002.svg", "a-003.svg"])
        last = (folder / "a-003.svg").read_text(encoding="utf-8")
        self.assertIn("P_CLEAR, called 91", last)
        self.assertNotIn("C_RAND of 1001", last)


class Faults(FolderCase):
    """What cannot be drawn."""

    def test_a_script_without_an_output(self) -> None:
        plan, script = Site(TWO_CARRIERS).plan, "open 0\nbytes 0 0300\n"
        self.assertRaisesRegex(SessionFault, "no line for carrier 0", read_session, plan, script, "")
        self.assertRaisesRegex(SessionFault, "no line for carrier 1", read_session, plan, script, "carrier 0 -\n")
        self.assertRaisesRegex(SessionFault, "sent nothing", read_session, plan, script, "carrier 0 -\ncarrier 1 -\n")

    def draw(self, printed_text: str, *words: str) -> subprocess.CompletedProcess[str]:
        """The tool over an example and an output."""
        output = str(self.write("printed", printed_text))
        script = str(EXAMPLES / "scripts" / "operator.txt")
        return call_tool(main, "--site", TWO_CARRIERS, "--script", script, "--printed", output, *words)

    def test_the_command_says_so(self) -> None:
        for text, said in (("", "the output has no line for carrier 0: it is not that of a replay over this site file"),
                           (printed((ALOHA, b"")), "nothing answers carrier 1 at tick 0: is this the output of this script?")):
            done = self.draw(text)
            self.assertEqual((done.returncode, done.stdout, done.stderr), (1, "", f"timeline: {said}\n"))

    def test_decoders(self) -> None:
        """One that is not there, one that is a folder, one that refuses the words, and one that prints something else."""
        expected = (EXAMPLES / "expected" / "operator.txt").read_text(encoding="utf-8")
        folder = str(self.folder)
        with unittest.mock.patch.dict(os.environ, PATH=folder):
            for words, said in (([], "there is no dmr_decode on the PATH, which reads the calls of a script: name one with --decoder"),
                                (["--decoder", folder], f"cannot run {folder}: Permission denied"), (["--decoder", "/bin/false"], "/bin/false ended with status 1"),
                                (["--decoder", "/bin/echo"], f"not a line of a journal: journal --fields --site {TWO_CARRIERS}")):
                done = self.draw(expected, *words)
                self.assertEqual((done.returncode, done.stdout, done.stderr), (1, "", f"timeline: {said}\n"))

    def test_words_for_no_part_of_it(self) -> None:
        for words in (["--from", "200"], ["--from", "1", "--to", "0"], ["--to", "10:15"], ["--start", "noon"]):
            done = run_example("operator", *words)
            self.assertEqual((done.returncode, done.stdout), (1, ""), words)
            self.assertRegex(done.stderr, r"^timeline: .*\n$")

    def test_lines_that_are_none(self) -> None:
        for line in ("open 16", "open 01", "open", "bytes 0", "bytes 0 0", "bytes 0 00 00", "tick 0", "tick -1", "tick 100001", "tick  1", "say", "text", "cut ٣"):
            with self.assertRaisesRegex(SessionFault, "script line 1", msg=line):
                read_session(Site(TWO_CARRIERS).plan, line + "\n", "")
