"""`callbook`: the calls of a file of records, in its formats, by its filters; and what can be wrong with the file. The rows are those of `made_records`."""
import contextlib
import csv
import json
import os
import re
import shutil
import sqlite3
import subprocess
import threading
import time
import unittest
from datetime import datetime

from temzaar.cli.callbook import main
from temzaar.moments import MomentFault, iso_text, join_times, read_moment, short_text
from temzaar.printable import printable, safe_cell
from temzaar.recordgaps import LOST, RESTARTED, Gap, find_gaps
from temzaar.records import CAUSES, VERSION, opened_records
from temzaar.recordsheet import lines_below
from tests.made_records import (
    CALLS, EVENTS, NOON, REGISTRATIONS, TERMS, TABLES, add_term, carry_over, change, insert, locked,
    make_records, opened, zone,
)
from tests.support import FolderCase, call_tool, queries_of, read_document, table_rows

# All calls, at noon in a zone two hours east of UTC, which is 14:00.
TABLE = """\
number  began                seconds  waited  slot  kind        source  target  cause              joined
     1  2026-11-27 13:59:06      6.0          0/1   talkgroup   1001    91      hang_time
     2  2026-11-27 13:59:18      3.0          1/0   individual  1002    1001    ended_by_operator
     3  2026-11-27 13:59:54     12.0          1/1   talkgroup   1003    92      carrier_lost
     4  2026-11-27 14:00:09     15.0          0/1   individual  1001    1003    radio_left
     5  2026-11-27 14:01:52     37.5          0/1   talkgroup   1002    91      maximum
"""
NAMED_TABLE = """\
number  began                seconds  waited  slot        kind        source         target                 cause              joined
     1  2026-11-27 13:59:06      6.0          0/1         talkgroup   1001 [Bus 12]  91 [Linienbus Nord..]  hang_time
     2  2026-11-27 13:59:18      3.0          1/0 [東京]  individual  1002 [=1+1,a]  1001 [Bus 12]          ended_by_operator
     3  2026-11-27 13:59:54     12.0          1/1 [東京]  talkgroup   1003           92                     carrier_lost
     4  2026-11-27 14:00:09     15.0          0/1         individual  1001 [Bus 12]  1003                   radio_left
     5  2026-11-27 14:01:52     37.5          0/1         talkgroup   1002 [=1+1,a]  91 [Linienbus Nord..]  maximum
"""
# The same, of a file of the second version.
WITH_WAITS = """\
number  began                seconds  waited  slot  kind        source  target  cause              joined
     1  2026-11-27 13:59:06      6.0     0.0  0/1   talkgroup   1001    91      hang_time          1003
     2  2026-11-27 13:59:18      3.0     0.0  1/0   individual  1002    1001    ended_by_operator
     3  2026-11-27 13:59:54     12.0     3.0  1/1   talkgroup   1003    92      carrier_lost
     4  2026-11-27 14:00:09     15.0     0.0  0/1   individual  1001    1003    radio_left
     5  2026-11-27 14:01:52     37.5     1.5  0/1   talkgroup   1002    91      maximum            1004, 1001
"""
GAP = "no records from 2026-11-27 14:00:30 to 2026-11-27 14:01:40, 70.0 s: the controller was started again\n"
UNTIL = "recorded up to 2026-11-27 14:02:40; the term that is running is not in it\n"


class RecordsCase(FolderCase):
    """A test with a file of records, in a zone two hours east of UTC."""

    def setUp(self) -> None:
        super().setUp()
        self.path = make_records(self.folder / "site.db")
        self.enterContext(zone("EAST-2"))

    def numbers(self, *words: str) -> list[int]:
        """The numbers of the calls that the tool prints."""
        done = call_tool(main, "--records", str(self.path), "--format", "json", *words)
        self.assertEqual((done.returncode, done.stderr.removesuffix(f"callbook: {UNTIL}") in ("", f"callbook: {GAP}")), (0, True))
        return [it["number"] for it in json.loads(done.stdout)]

    def expect_fault(self, said: str, *words: str) -> None:
        """The tool ends with this fault."""
        done = call_tool(main, "--records", str(self.path), *words)
        self.assertEqual((done.returncode, done.stdout, done.stderr), (1, "", f"callbook: {said}\n"))


class Printed(RecordsCase):
    """What is printed."""

    def test_table(self) -> None:
        done = call_tool(main, "--records", str(self.path))
        self.assertEqual((done.returncode, done.stdout, done.stderr), (0, TABLE + GAP + UNTIL, ""))

    def test_below_the_calls(self) -> None:
        """The gaps of the time that is asked for, and up to when the records go; as CSV and JSON on standard error."""
        for words, below in ((["--from", "2026-11-27 14:00:29"], GAP + UNTIL), (["--from", "2026-11-27 14:01:40"], UNTIL), (["--to", "2026-11-27 14:00:30"], UNTIL),
                             (["--to", "2026-11-27 14:01"], GAP + UNTIL), (["--last", "1"], UNTIL), (["--last", "2"], GAP + UNTIL)):
            text = call_tool(main, "--records", str(self.path), *words).stdout
            self.assertEqual("".join(re.findall(r"(?m)^(?:no records|recorded).*\n", text)), below, words)
        done = call_tool(main, "--records", str(self.path), "--format", "csv")
        self.assertEqual(done.stderr, f"callbook: {GAP}callbook: {UNTIL}")
        empty = make_records(self.folder / "empty.db", terms=0)
        self.assertEqual(call_tool(main, "--records", str(empty)).stdout.split("\n")[1:], ["no term has ended yet: nothing is recorded", ""])

    def test_many_gaps(self) -> None:
        gaps = [Gap(1000 * it, 1000 * it + 600, LOST) for it in range(30)]
        lines = lines_below(gaps, NOON)
        self.assertEqual((lines[0], len(lines), lines[1]), ("10 earlier times without records are not listed", 22, gaps[10].in_words()))

    def test_csv(self) -> None:
        rows = list(csv.DictReader(call_tool(main, "--records", str(self.path), "--format", "csv").stdout.splitlines()))
        self.assertEqual(len(rows), 5)
        self.assertEqual(rows[4], {"number": "5", "term": "3", "began": "2026-11-27T14:01:52.000+02:00", "ended": "2026-11-27T14:02:29.500+02:00", "seconds": "37.5",
                                   "carrier": "0", "slot": "1", "kind": "talkgroup", "source": "1002", "target": "91", "cause": "maximum",
                                   "waited_seconds": "", "joined": ""})

    def test_json(self) -> None:
        rows = json.loads(call_tool(main, "--records", str(self.path), "--format", "json", "--last", "2").stdout)
        self.assertEqual(rows[0], {"number": 4, "term": 2, "began": "2026-11-27T14:00:09.000+02:00", "ended": "2026-11-27T14:00:24.000+02:00", "seconds": 15.0,
                                   "carrier": 0, "slot": 1, "kind": "individual", "source": 1001, "target": 1003, "cause": "radio_left",
                                   "waited_seconds": None, "joined": None})
        self.assertEqual(rows[1]["number"], 5)

    def test_names(self) -> None:
        """With names: next to the numbers of the table, cut to their column; in CSV and JSON after the other columns, which stay as they are."""
        names = self.write("names.csv", "kind,number,name\nradio,1001,Bus 12\n"
                           "radio,1002,\"=1+1,a\"\nradio,1003\ntalkgroup,91,Linienbus Nordring Süd\n"
                           "talkgroup,1001,nobody\ncarrier,1,東京\n")
        words = ["--records", str(self.path), "--names", str(names)]
        done = call_tool(main, *words)
        self.assertEqual((done.returncode, done.stdout), (0, NAMED_TABLE + GAP + UNTIL))
        self.assertEqual(done.stderr, f"callbook: {names}: line 4: not kind,number,name, three fields with commas between them\n")
        plain, named = (call_tool(main, *words[:count], "--format", "csv").stdout.splitlines() for count in (2, 4))
        self.assertEqual([line[:len(before)] for before, line in zip(plain, named, strict=True)], plain)
        self.assertEqual([line[len(before):] for before, line in zip(plain, named, strict=True)],
                         [",source_name,target_name,carrier_name,joined_names", ",Bus 12,Linienbus Nordring Süd,,", ",\"'=1+1,a\",Bus 12,東京,", ",,,東京,", ",Bus 12,,,",
                          ",\"'=1+1,a\",Linienbus Nordring Süd,,"])
        rows, before = (json.loads(call_tool(main, *words[:count], "--format", "json").stdout) for count in (4, 2))
        self.assertEqual([{name: value for name, value in row.items() if not name.endswith(("_name", "_names"))} for row in rows], before)
        self.assertEqual([*rows[1]][-4:], ["source_name", "target_name", "carrier_name", "joined_names"])
        self.assertEqual((rows[1]["source_name"], rows[1]["target_name"], rows[2]["source_name"], rows[2]["carrier_name"]), ("=1+1,a", "Bus 12", None, "東京"))
        self.expect_fault(f"{self.folder}/none: No such file or directory", "--names", f"{self.folder}/none")

    def test_no_call(self) -> None:
        for form, printed in (("table", TABLE.split("\n")[0].split()), ("csv", ["number,term,began,ended,seconds,carrier,slot,kind,source,target,cause,waited_seconds,joined"]), ("json", ["[]"])):
            self.assertEqual(call_tool(main, "--records", str(self.path), "--radio", "7", "--format", form).stdout.split()[:len(printed)], printed)

    def test_waits_and_who_joined(self) -> None:
        """Of the second version of the tables: in each format, and with names."""
        self.path = make_records(self.folder / "second.db", version=2)
        self.assertEqual(call_tool(main, "--records", str(self.path)).stdout, WITH_WAITS + GAP + UNTIL)
        names = self.write("names.csv", "radio,1004,Bus 4\n")
        words = ["--records", str(self.path), "--names", str(names), "--format"]
        rows = list(csv.DictReader(call_tool(main, *words, "csv").stdout.splitlines()))
        self.assertEqual([(it["waited_seconds"], it["joined"], it["joined_names"]) for it in rows],
                         [("0.0", "1003", ""), ("0.0", "", ""), ("3.0", "", ""), ("0.0", "", ""), ("1.5", "1004; 1001", "Bus 4; ")])
        rows = json.loads(call_tool(main, *words, "json").stdout)
        self.assertEqual([(it["waited_seconds"], it["joined"], it["joined_names"]) for it in rows[:1] + rows[-1:]], [(0, [1003], [None]), (1.5, [1004, 1001], ["Bus 4", None])])
        self.assertTrue(call_tool(main, *words, "table").stdout.splitlines()[5].endswith("  maximum            1004 [Bus 4], 1001"))

    def test_a_file_that_was_carried_over(self) -> None:
        """Of calls of the first version nothing is known. Of the others it is, also if the times of a call's terms differ, and if the controller had the same ticks in another run."""
        self.path = make_records(self.folder / "carried.db", terms=2)
        carry_over(self.path)
        add_term(self.path, 3)
        with opened(self.path) as conn:
            insert(conn, "events", ((21, 3, 300, NOON + 111_000, "joined_call", 0, 1, 1005, 91, None, None, None), (22, 3, 300, NOON + 118_000, "joined_call", 1, 1, 1006, 91, None, None, None),
                                    (23, 3, 300, NOON + 118_000, "joined_call", 0, 1, 1007, 92, None, None, None), (24, 2, 300, NOON + 30_000, "joined_call", 0, 1, 1008, 91, None, None, None)))
        rows = json.loads(call_tool(main, "--records", str(self.path), "--format", "json").stdout)
        self.assertEqual([(it["waited_seconds"], it["joined"]) for it in rows], [*[(None, None)] * 4, (1.5, [1005, 1004, 1001])])

    def test_cells_are_safe(self) -> None:
        """A text that somebody wrote into the file is not a formula for a spreadsheet, and does not move a terminal's cursor."""
        change(self.path, "UPDATE calls SET cause = '=1+1' WHERE number = 1")
        change(self.path, "UPDATE calls SET cause = char(27) || '[2J' WHERE number = 2")
        rows = list(csv.DictReader(call_tool(main, "--records", str(self.path), "--format", "csv").stdout.splitlines()))
        self.assertEqual(rows[0]["cause"], "'=1+1")
        self.assertIn("  \\x1b[2J\n", call_tool(main, "--records", str(self.path)).stdout)
        for text in ("=a", "+a", "-a", "@a", "\ta", "\ra"):
            self.assertEqual(safe_cell(text), f"'{printable(text)}")
        self.assertEqual((safe_cell("a-b"), safe_cell(-1), safe_cell(None)), ("a-b", -1, None))

    def test_a_time_without_a_calendar(self) -> None:
        change(self.path, "UPDATE calls SET began_ms = 9000000000000000000, ended_ms = 9000000000000000000 WHERE number = 1")
        self.assertIsNone(json.loads(call_tool(main, "--records", str(self.path), "--format", "json").stdout)[0]["began"])
        self.assertIn("     1  -                        0.0          0/1", call_tool(main, "--records", str(self.path)).stdout)


class Gaps(RecordsCase):
    """The times without records."""

    def gaps(self, *changes: str) -> list[Gap]:
        """The gaps of the file after some changes."""
        for it in changes:
            change(self.path, it)
        with opened_records(str(self.path)) as records:
            return find_gaps(records)

    def test_each(self) -> None:
        """The second run began 70 s after the end of the first one. A term of the same run that is missing is a gap; late ticks, or a clock that was set, are none."""
        restarted = Gap(NOON + 30_000, NOON + 100_000, RESTARTED)
        self.assertEqual(self.gaps(), [restarted])
        self.assertEqual(self.gaps("UPDATE terms SET ended_ms = ended_ms + 9000 WHERE number = 1"), [restarted])
        # the first 200 ticks of the second run, 12 s, are not recorded; nor are 100 of the first run
        self.assertEqual(self.gaps("UPDATE terms SET last_tick = 1200 WHERE number = 3"), [restarted])
        self.assertEqual(self.gaps("UPDATE terms SET ended_ms = ended_ms - 9000 WHERE number = 1", "UPDATE terms SET last_tick = 1600, ended_ms = ended_ms + 6000 WHERE number = 2"),
                         [Gap(NOON, NOON + 6_000, LOST), Gap(NOON + 36_000, NOON + 100_000, RESTARTED)])
        with opened_records(str(self.path)) as records:
            self.assertEqual(len(find_gaps(records, 2)), 1)

    def test_the_documents_query(self) -> None:
        """The last query of RECORDS.md finds the calls of a base station that lost its power: call 3 was on carrier 1, which was lost at 12:00:06."""
        with opened(self.path) as conn:
            conn.execute("UPDATE calls SET cause = 'hang_time', ended_ms = ended_ms - 4000 WHERE number IN (2, 3)")
            found = conn.execute(queries_of(read_document("RECORDS.md"))[11]).fetchall()
        self.assertEqual(found, [(3, "2026-11-27 12:00:02", 1, 1, 1003, 92)])


class Filtered(RecordsCase):
    """Which calls are printed."""

    def test_parties_and_places(self) -> None:
        for words, numbers in ((["--radio", "1001"], [1, 2, 4]), (["--radio", "91"], []), (["--group", "91"], [1, 5]), (["--group", "1001"], []), (["--carrier", "1"], [2, 3]),
                               (["--carrier", "0", "--radio", "1002"], [5]), (["--cause", "maximum"], [5]), (["--last", "3"], [3, 4, 5]), (["--group", "91", "--last", "1"], [5]),
                               (["--last", "100"], [1, 2, 3, 4, 5])):
            self.assertEqual(self.numbers(*words), numbers, words)

    def test_times(self) -> None:
        """A call that began before the time and ended after it was active then."""
        for words, numbers in ((["--from", "2026-11-27 14:00"], [3, 4, 5]), (["--to", "2026-11-27 14:00"], [1, 2, 3]), (["--from", "2026-11-27T14:00:06.001"], [4, 5]),
                               (["--from", "2026-11-27 14:00:06"], [3, 4, 5]), (["--to", "2026-11-27 13:59:18"], [1, 2]), (["--to", "2026-11-27 13:59:17.999"], [1]),
                               (["--from", "2026-11-27", "--to", "2026-11-27"], [1, 2, 3, 4, 5]), (["--from", "2026-11-28"], []), (["--to", "2026-11-26"], []),
                               (["--from", "2026-11-27T12:00:24+00:00", "--to", "2026-11-27T12:00:30Z"], [4])):
            self.assertEqual(self.numbers(*words), numbers, words)

    def test_times_of_today_and_before_now(self) -> None:
        now = time.time_ns() // 1_000_000
        change(self.path, "UPDATE calls SET began_ms = ?, ended_ms = ? WHERE number = 5", (now - 7_000_000, now - 6_000_000))
        change(self.path, "UPDATE calls SET began_ms = 0, ended_ms = 1 WHERE number < 5")
        # 6,000 s are 1 h 40 min
        for words, numbers in ((["--from", "-2h"], [5]), (["--from", "-90m"], []), (["--from=-6100s"], [5]), (["--from", "-1d", "--to", "-1s"], [5]), (["--to", "-2h"], [1, 2, 3, 4])):
            self.assertEqual(self.numbers(*words), numbers, words)

    def test_times_that_are_none(self) -> None:
        for text in ("noon", "25:00", "2026-13-01", "2026-11-27 8", "", "-2h3"):
            self.expect_fault(f"not a time: {text!r}; a time is 2026-11-27, 2026-11-27 08:00, 08:00 (today), or -2h (also s, m and d)", f"--from={text}")


class Moments(unittest.TestCase):
    """Times that people write."""

    def test_zones(self) -> None:
        now = datetime.fromisoformat("2026-11-27T12:00:00+00:00")
        with zone("EAST-2"):
            self.assertEqual(read_moment("14:00", now), NOON)
            self.assertEqual(read_moment("2026-11-27", now), NOON - 14 * 3_600_000)
            self.assertEqual(read_moment("2026-11-27", now, is_end=True), NOON + 10 * 3_600_000 - 1)
            self.assertEqual(read_moment("-3d", now), NOON - 3 * 86_400_000)
            self.assertEqual((iso_text(NOON), short_text(NOON)), ("2026-11-27T14:00:00.000+02:00", "2026-11-27 14:00:00"))
        with zone("WEST3"):
            # 12:00 UTC is 09:00 there; 23:00 of the same day is 26:00 UTC
            self.assertEqual(read_moment("23:00", now), NOON + 14 * 3_600_000)
            self.assertEqual(iso_text(NOON + 7), "2026-11-27T09:00:00.007-03:00")

    def test_a_summer_and_a_winter_time(self) -> None:
        with zone("CET-1CEST,M3.5.0,M10.5.0/3"):
            now = datetime.fromisoformat("2026-11-27T12:00:00+00:00")
            self.assertEqual(read_moment("2026-11-27 13:00", now), NOON)
            # on 27 July, 123 days earlier, 14:00 is noon UTC
            self.assertEqual(read_moment("2026-07-27 14:00", now), NOON - 123 * 86_400_000)
            self.assertEqual(iso_text(NOON - 123 * 86_400_000), "2026-07-27T14:00:00.000+02:00")

    def test_a_time_before_now_belongs_to_its_option(self) -> None:
        self.assertEqual(join_times(["--from", "-2h", "--to", "-5m", "-x"]), ["--from=-2h", "--to=-5m", "-x"])
        self.assertEqual(join_times(["--last", "-2h"]), ["--last", "-2h"])
        self.assertRaises(MomentFault, read_moment, "-2w", datetime.fromisoformat("2026-11-27T12:00:00+00:00"))


class Reading(RecordsCase):
    """The rows, and the file's faults."""

    def test_rows(self) -> None:
        with opened_records(str(self.path)) as records:
            self.assertEqual([(it.number, it.term, it.carrier, it.slot, int(it.is_group), it.source, it.target, it.began_ms, it.ended_ms, it.cause) for it in records.calls()],
                             [(*row[:7], *row[9:]) for row in CALLS])
            self.assertEqual([(it.number, it.term, it.at_ms, it.kind, it.carrier, it.slot, it.radio, it.target, it.channel, it.reason, it.reply) for it in records.events()],
                             sorted(((*row[:2], *row[3:]) for row in EVENTS), key=lambda it: (it[2], it[0])))
            terms = records.terms()
            self.assertEqual([(it.number, it.ended_ms, it.tick_ms, it.last_tick, *it.counts.values()) for it in terms], list(TERMS))
            self.assertEqual(records.registrations(), [radio for _, radio in REGISTRATIONS])
        self.assertEqual([(it.began_ms, it.started_ms) for it in terms], [(NOON - 60_000, NOON - 60_000), (NOON, NOON - 60_000), (NOON + 100_000, NOON + 100_000)])

    def test_the_document(self) -> None:
        document = read_document("RECORDS.md")
        self.assertLessEqual(int(table_rows(document, "`schema_version` has")[0][1]), VERSION)
        self.assertEqual({row[0] for row in table_rows(document, "| cause |")}, set(CAUSES))

    def test_rows_that_are_in_the_log_alone(self) -> None:
        """A writer that was killed leaves its transaction in the log."""
        path = make_records(self.folder / "killed.db", terms=2)
        with contextlib.closing(sqlite3.connect(path)) as conn:
            conn.execute("PRAGMA wal_autocheckpoint = 0")
            with conn:
                conn.execute("INSERT INTO registrations VALUES (4, 1005)")
            for ending in ("", "-wal"):
                shutil.copyfile(f"{path}{ending}", f"{self.folder}/copy.db{ending}")
        before = sorted(os.listdir(self.folder))
        with opened_records(str(self.folder / "copy.db")) as records:
            self.assertEqual(records.registrations(), [1001, 1002, 1004, 1005])
        self.assertEqual(sorted(os.listdir(self.folder)), before)

    def test_a_writer_has_the_lock(self) -> None:
        with locked(self.path):
            began = time.monotonic()
            self.expect_fault(f"{self.path}: locked: another program writes it; try again", "--seconds", "0.3")
            self.assertGreater(time.monotonic() - began, 0.25)
        self.assertEqual(self.numbers(), [1, 2, 3, 4, 5])

    def test_a_writer_that_ends_in_time(self) -> None:
        with locked(self.path) as writer:
            assert writer.stdin
            timer = threading.Timer(0.5, writer.stdin.close)
            timer.start()
            began = time.monotonic()
            self.assertEqual(self.numbers("--seconds", "30"), [1, 2, 3, 4, 5])
            self.assertGreater(time.monotonic() - began, 0.4)
            timer.join()

    def test_a_reader_delays_no_writer(self) -> None:
        """While the rows are read, the file is free."""
        with opened_records(str(self.path)) as records, locked(self.path):
            self.assertEqual(len(records.calls()), 5)

    @unittest.skipUnless(shutil.which("sqlite3"), "there is no sqlite3")
    def test_other_readers(self) -> None:
        with subprocess.Popen(["sqlite3", str(self.path)], stdin=subprocess.PIPE, stdout=subprocess.PIPE, text=True) as reader:
            assert reader.stdin and reader.stdout
            reader.stdin.write("BEGIN; SELECT count(*) FROM calls;\n")
            reader.stdin.flush()
            self.assertEqual(reader.stdout.readline(), "5\n")
            self.assertEqual(self.numbers(), [1, 2, 3, 4, 5])
            reader.stdin.close()

    def test_no_records(self) -> None:
        self.path.write_bytes(b"")
        self.expect_fault(f"{self.path}: it has no records yet")
        self.path = self.folder / "other.db"
        change(self.path, "CREATE TABLE notes (text TEXT)")
        self.expect_fault(f"{self.path}: not a file of records")

    def test_a_newer_version(self) -> None:
        change(self.path, "INSERT INTO schema_version VALUES (?)", (VERSION + 1,))
        self.expect_fault(f"{self.path}: its tables are of version {VERSION + 1}, which is newer than this program's {VERSION}")

    def test_other_columns(self) -> None:
        self.path = self.folder / "older.db"
        with opened(self.path) as conn:
            conn.executescript(TABLES.replace("began_ms INTEGER NOT NULL, ended_ms INTEGER NOT NULL,\n  cause", "\n  cause"))
            conn.execute("INSERT INTO schema_version VALUES (1)")
        self.expect_fault(f"{self.path}: no such column: began_ms")

    def test_a_file_that_was_cut(self) -> None:
        self.path.write_bytes(self.path.read_bytes()[:-4096])
        self.expect_fault(f"{self.path}: database disk image is malformed")
