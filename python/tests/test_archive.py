"""`archive`: months by UTC, runs that are repeated, interrupted or refused, and rows that are too
old to keep. The rows are those of `made_records`, and others over two months."""
import contextlib
import os
import pathlib
import shutil
import signal
import sqlite3
import stat
import subprocess
import sys
import threading
from collections.abc import Iterable
from unittest import mock

from temzaar.archive import DAY_MS, TIMES, Archive, month_span
from temzaar.cli import archive, callbook
from temzaar.records import RecordsFault, opened_records
from tests.made_records import (
    CALLS, CARRIERS, EVENTS, NOON, TERMS, add_term, carry_over, change, insert, locked, make_records,
    opened, zone,
)
from tests.support import TOP, FolderCase, call_tool, run_tool
from tests.test_records import statements_of_tables

HOUR = 3_600_000
# 2026-11-01 00:00:00 UTC, 26 days and a half before NOON. In Berlin it is 01:00, and summer time
# has ended a week before.
NOVEMBER = NOON - 26 * DAY_MS - 12 * HOUR
SUMMER_ENDS = NOVEMBER - 7 * DAY_MS + HOUR
# When calls began: at both sides of the change of the hour, and of the month in UTC and in Berlin.
BEGAN = (SUMMER_ENDS - 1, SUMMER_ENDS, SUMMER_ENDS + HOUR, NOVEMBER - HOUR - 1, NOVEMBER - HOUR,
         NOVEMBER - 1, NOVEMBER, NOVEMBER + 1)
# What a child does before it runs the tool with its words. It is killed after a month, or before the
# end of the second one, or it cannot write more than two pages of that.
AFTER_A_MONTH = """
add = Archive.add
def added(*words):
    add(*words)
    os.kill(os.getpid(), signal.SIGKILL)
Archive.add = added
"""
WITHIN_THE_SECOND = """
copy = module.copy_rows
def copied(conn, table, span):
    # as in a large transaction, whose pages are in the log before its end
    conn.execute("PRAGMA main.cache_size = 1")
    conn.execute("PRAGMA main.cache_spill = 1")
    count = copy(conn, table, span)
    if span.first >= %d and table == "terms":
        os.kill(os.getpid(), signal.SIGKILL)
    return count
module.copy_rows = copied
""" % NOVEMBER
FULL = """
add_rows = module.add_rows
def limited(conn, change, span):
    if change.file.month == "2026-11":
        resource.setrlimit(resource.RLIMIT_FSIZE, (8192, 8192))
    return add_rows(conn, change, span)
module.add_rows = limited
"""
CHILD = """
import os, resource, signal, sys
import temzaar.archive as module
from temzaar.archive import Archive
from temzaar.cli.archive import main
{}
sys.exit(main(sys.argv[1:]))
"""

Rows = dict[str, list[tuple[object, ...]]]


def rows_of(paths: Iterable[pathlib.Path]) -> Rows:
    """The rows of files, by table, as `SELECT` has them by the names of columns."""
    found: Rows = {table: [] for table in TIMES}
    for path in paths:
        with opened(path) as conn:
            for table, rows in found.items():
                names = sorted(row[1] for row in conn.execute(f"PRAGMA table_info({table})"))
                rows += conn.execute(f"SELECT {', '.join(names)} FROM {table} ORDER BY number")
    return found


def make_two_months(path: pathlib.Path) -> pathlib.Path:
    """Makes a file of records with a term and an event for each call of BEGAN. Its path."""
    make_records(path, terms=0)
    with opened(path) as conn:
        insert(conn, "terms", tuple((number, began + 2000, *TERMS[0][2:])
                                    for number, began in enumerate(BEGAN, 1)))
        insert(conn, "calls", tuple((number, number, *CALLS[0][2:9], began, began + 1000, "maximum")
                                    for number, began in enumerate(BEGAN, 1)))
        insert(conn, "events", tuple((number, number, 7, began, *EVENTS[0][4:])
                                     for number, began in enumerate(BEGAN, 1)))
    return path


class ArchiveCase(FolderCase):
    """A test with a file of records and an empty folder, at NOON and an hour."""

    now = NOON + HOUR

    def setUp(self) -> None:
        super().setUp()
        self.top = self.folder
        self.folder = self.top / "old"
        self.folder.mkdir()
        self.path = make_two_months(self.top / "site.db")

    def words(self, *more: str) -> list[str]:
        """The words of the tool."""
        return ["--records", str(self.path), "--folder", str(self.folder), *more]

    def run_at(self, now: int, *more: str) -> subprocess.CompletedProcess[str]:
        """Runs the tool at a time."""
        with mock.patch("temzaar.cli.archive.time.time_ns", return_value=now * 1_000_000):
            return call_tool(archive.main, *self.words(*more))

    def expect(self, said: str, *more: str) -> None:
        """The tool ends well, and prints this."""
        done = self.run_at(self.now, *more)
        self.assertEqual((done.returncode, done.stdout, done.stderr), (0, said, ""))

    def names(self) -> list[str]:
        """The files of the folder."""
        return sorted(os.listdir(self.folder))

    def archived(self) -> Rows:
        """The rows of all files of the folder."""
        return rows_of(sorted(self.folder.iterdir()))


class Months(ArchiveCase):
    """Which file a row is in."""

    def test_two_months(self) -> None:
        """Months are those of UTC, whatever the machine's zone, also over the end of summer time."""
        for name in ("UTC0", "CET-1CEST,M3.5.0,M10.5.0/3", "EAST-14"):
            with self.subTest(name), zone(name):
                self.expect("2026-10.db: 6 calls, 6 events, 5 terms added\n"
                            "2026-11.db: 2 calls, 2 events, 3 terms added\n")
                october, november = (rows_of([self.folder / it]) for it in ("2026-10.db", "2026-11.db"))
                # a column of its own for each: the time is the second or the third by name
                self.assertEqual([row[1] for row in october["calls"]], list(BEGAN[:6]))
                self.assertEqual([row[1] for row in november["calls"]], list(BEGAN[6:]))
                self.assertEqual(self.archived(), rows_of([self.path]))
                for it in self.folder.iterdir():
                    it.unlink()

    def test_times_that_are_none(self) -> None:
        """What the calendar does not have stays in the controller's file alone; what is long ago
        has its month."""
        for number, began in ((1, -(1 << 62)), (2, 0), (3, 1 << 62)):
            change(self.path, "UPDATE calls SET began_ms = ? WHERE number = ?", (began, number))
        self.expect("1970-01.db: 1 call, 0 events, 0 terms added\n"
                    "2026-10.db: 3 calls, 6 events, 5 terms added\n2026-11.db: 2 calls, 2 events, 3 terms added\n")
        self.expect("nothing to do\n")

    def test_span_of_a_month(self) -> None:
        self.assertEqual(month_span("2026-11").first, NOVEMBER)
        self.assertEqual(month_span("2026-10").end, NOVEMBER)
        self.assertEqual((month_span("2026-12").end - NOVEMBER) // DAY_MS, 30 + 31)
        self.assertGreater(month_span("9999-12").end, month_span("9999-12").first)

    def test_files(self) -> None:
        """Their mode whatever the umask, their tables and version; nothing else is left."""
        for mask in (0o000, 0o077):
            before = os.umask(mask)
            try:
                self.run_at(self.now)
            finally:
                os.umask(before)
            self.assertEqual(self.names(), ["2026-10.db", "2026-11.db"])
            for it in self.folder.iterdir():
                self.assertEqual(stat.S_IMODE(it.stat().st_mode), 0o640)
                with contextlib.closing(sqlite3.connect(f"file:{it}?mode=ro", uri=True)) as conn:
                    made = {row[0] for row in conn.execute("SELECT name FROM sqlite_schema")}
                    self.assertEqual(made, {"schema_version", "terms", "calls", "events", "registrations"})
                    self.assertEqual(conn.execute("SELECT * FROM schema_version").fetchall(), [(1,)])
                    self.assertEqual(conn.execute("SELECT * FROM registrations").fetchall(), [])
                    self.assertEqual(conn.execute("PRAGMA journal_mode").fetchone(), ("delete",))
                it.unlink()

    def test_other_tools_read_them(self) -> None:
        make_records(self.path)
        self.expect("2026-11.db: 5 calls, 16 events, 3 terms added\n")
        for words in (["--last", "3"], ["--radio", "1001", "--format", "json"]):
            of_month, of_site = (call_tool(callbook.main, "--records", str(it), *words)
                                 for it in (self.folder / "2026-11.db", self.path))
            self.assertEqual((of_month.returncode, of_month.stdout), (0, of_site.stdout))
        done = run_tool("timeline", "--records", str(self.folder / "2026-11.db"))
        self.assertEqual((done.returncode, done.stdout[:4]), (0, "<svg"), done.stderr)

    def test_the_controllers_tables(self) -> None:
        """Tables as the controller makes them: columns in another order, and one with one row."""
        real = self.top / "real.db"
        with opened(real) as conn:
            conn.executescript(statements_of_tables())
            conn.execute("ATTACH ? AS made", [str(self.path)])
            for table in TIMES:
                # those of the made tables, which are of version 1
                made = conn.execute(f"PRAGMA made.table_info({table})")
                names = ", ".join(row[1] for row in made)
                conn.execute(f"INSERT INTO {table} ({names}) SELECT {names} FROM made.{table}")
        self.run_at(self.now)
        self.path = real
        self.expect("nothing to do\n")
        shutil.rmtree(self.folder)
        self.folder.mkdir()
        self.run_at(self.now)
        self.assertEqual(self.archived(), rows_of([real]))
        with opened(self.folder / "2026-10.db") as conn:
            self.assertEqual(conn.execute("SELECT * FROM removed").fetchall(), [(0, 0, 0)])


class Repeated(ArchiveCase):
    """Runs after others."""

    def test_twice(self) -> None:
        self.run_at(self.now)
        before = {it: it.read_bytes() for it in self.folder.iterdir()}
        self.expect("nothing to do\n")
        self.assertEqual({it: it.read_bytes() for it in self.folder.iterdir()}, before)

    def test_as_the_file_grows(self) -> None:
        """Each term is added once, also if the controller has removed what was added before."""
        make_records(self.path, terms=1)
        self.expect("2026-11.db: 2 calls, 7 events, 1 term added\n")
        add_term(self.path, 2)
        self.expect("2026-11.db: 2 calls, 4 events, 1 term added\n")
        for table in TIMES:
            column = "number" if table == "terms" else "term"
            change(self.path, f"DELETE FROM {table} WHERE {column} = 1")
        add_term(self.path, 3)
        self.expect("2026-11.db: 1 call, 5 events, 1 term added\n")
        self.assertEqual(self.archived(), rows_of([make_records(self.path)]))

    def test_rows_that_were_missed(self) -> None:
        make_records(self.path, terms=1)
        self.run_at(self.now)
        add_term(self.path, 2)
        add_term(self.path, 3)
        change(self.path, "DELETE FROM calls WHERE term < 3")
        done = self.run_at(self.now)
        self.assertEqual((done.returncode, done.stderr), (0, "archive: missed: 2 calls, which the controller removed before they were copied; run this more often\n"))

    def test_another_file_of_records(self) -> None:
        """Numbers begin again at 1 in a new file of the controller. The month has a second file
        for it, which then grows."""
        make_records(self.path)
        self.run_at(self.now)
        make_records(self.path, terms=0)
        for number, row in enumerate(CALLS, 1):
            with opened(self.path) as conn:
                insert(conn, "terms", ((number, NOON + number * 1000, *TERMS[0][2:]),))
                insert(conn, "calls", ((number, number, *row[2:]),))
            self.expect("2026-11.2.db: 1 call, 0 events, 1 term added\n")
        self.expect("nothing to do\n")
        self.assertEqual(self.names(), ["2026-11.2.db", "2026-11.db"])
        self.assertEqual(rows_of([self.folder / "2026-11.2.db"]), rows_of([self.path]))
        self.assertEqual(rows_of([self.folder / "2026-11.db"]), rows_of([make_records(self.path)]))

    def test_other_tables(self) -> None:
        """After an upgrade that changed the tables the month has a second file."""
        self.run_at(self.now)
        change(self.path, "ALTER TABLE calls ADD COLUMN waited INTEGER")
        self.expect("2026-10.2.db: 6 calls, 6 events, 5 terms added\n2026-11.2.db: 2 calls, 2 events, 3 terms added\n")
        self.expect("nothing to do\n")

    def test_the_second_version(self) -> None:
        """A month has the rows of both versions, and the counts of the second one's terms."""
        for before in (0, 1, 2):
            with self.subTest(before=before):
                make_records(self.path, terms=before)
                self.run_at(self.now)
                carry_over(self.path)
                for number in range(before + 1, 4):
                    add_term(self.path, number)
                self.assertIn("2026-11.db: ", self.run_at(self.now).stdout)
                self.expect("nothing to do\n")
                self.assertEqual(self.names(), ["2026-11.db"])
                self.assertEqual(self.archived(), rows_of([self.path]))
                with opened(self.folder / "2026-11.db") as conn:
                    self.assertEqual(conn.execute("SELECT * FROM schema_version").fetchall(), [(2,)])
                    self.assertEqual(conn.execute("SELECT * FROM carriers").fetchall(),
                                     [it for it in CARRIERS if it[0] > before])
                of_month, of_site = (call_tool(callbook.main, "--records", str(it))
                                     for it in (self.folder / "2026-11.db", self.path))
                self.assertEqual(of_month.stdout, of_site.stdout)
                (self.folder / "2026-11.db").unlink()

    def test_back_to_the_first_version(self) -> None:
        """An older controller begins a file of its own, which is another one also in the archive."""
        make_records(self.path, version=2)
        self.run_at(self.now)
        make_records(self.path, terms=1)
        self.expect("2026-11.2.db: 2 calls, 7 events, 1 term added\n")
        self.expect("nothing to do\n")

    def test_older_days(self) -> None:
        self.now = NOVEMBER + DAY_MS
        self.expect("2026-10.db: 6 calls, 6 events, 5 terms added\n", "--older-days", "1")
        self.now += 1
        self.expect("2026-11.db: 1 call, 1 event, 0 terms added\n", "--older-days", "1")
        self.now += DAY_MS
        self.expect("2026-11.db: 1 call, 1 event, 3 terms added\n", "--older-days", "1")
        self.assertEqual(self.archived(), rows_of([self.path]))


class Kept(ArchiveCase):
    """What is too old to keep."""

    def test_removed(self) -> None:
        """By the millisecond. What was removed is not added again, and an empty file goes."""
        self.run_at(self.now)
        self.now = BEGAN[1] + 10 * DAY_MS
        self.expect("2026-10.db: 1 call, 1 event, 0 terms removed\n", "--keep-days", "10")
        self.expect("nothing to do\n", "--keep-days", "10")
        self.now = NOVEMBER + 2000 + 10 * DAY_MS
        self.expect("2026-10.db: 5 calls, 5 events, 5 terms removed; it was empty, and is gone\n"
                    "2026-11.db: 2 calls, 2 events, 1 term removed\n", "--keep-days", "10")
        self.assertEqual(self.names(), ["2026-11.db"])
        self.now += DAY_MS
        self.expect("2026-11.db: 0 calls, 0 events, 2 terms removed; it was empty, and is gone\n", "--keep-days", "10")
        self.assertEqual(self.names(), [])
        self.assertEqual(len(rows_of([self.path])["calls"]), len(BEGAN))

    def test_counts_of_a_term(self) -> None:
        """They are removed with their term: the first two ended 100 s and 70 s more than a day ago."""
        make_records(self.path, version=2)
        self.run_at(self.now)
        self.now = NOON + DAY_MS + 100_000
        self.assertIn(" 2 terms removed", self.run_at(self.now, "--keep-days", "1").stdout)
        with opened(self.folder / "2026-11.db") as conn:
            self.assertEqual(conn.execute("SELECT * FROM carriers").fetchall(), [CARRIERS[4]])

    def test_nothing_is_left_of_a_row(self) -> None:
        """Of what was removed no octet is left in the file."""
        change(self.path, "UPDATE calls SET cause = 'unmistakable' WHERE number < 3")
        self.run_at(self.now)
        file = self.folder / "2026-10.db"
        self.assertIn(b"unmistakable", file.read_bytes())
        self.now = BEGAN[2] + 10 * DAY_MS
        self.run_at(self.now, "--keep-days", "10")
        self.assertNotIn(b"unmistakable", file.read_bytes())

    def test_without_the_controllers_file(self) -> None:
        """What is too old goes, also if nothing can be copied."""
        self.run_at(self.now)
        self.path.unlink()
        done = self.run_at(NOON + 365 * DAY_MS, "--keep-days", "300")
        self.assertEqual((done.returncode, done.stdout.count("is gone"), self.names()), (1, 2, []))
        self.assertIn("site.db: No such file or directory", done.stderr)

    def test_other_files_stay(self) -> None:
        """Files that are not the tool's stay, and one that only has its name is a fault."""
        self.run_at(self.now)
        (self.folder / "notes.db").write_text("mine")
        (self.folder / "2026-09.db").write_text("This is something else, and long enough to be read as a page.\n" * 99)
        done = self.run_at(NOON + 365 * DAY_MS, "--keep-days", "300")
        self.assertEqual((done.returncode, self.names()), (1, ["2026-09.db", "notes.db"]))
        self.assertEqual(done.stderr, f"archive: {self.folder}/2026-09.db: file is not a database\n")


class Interrupted(ArchiveCase):
    """Runs that are killed, or cannot write."""

    def grow(self) -> None:
        """The archive has all but the last call, event and term, which the controller's file has
        now."""
        for table in TIMES:
            change(self.path, f"DELETE FROM {table} WHERE number = 8")
        self.run_at(self.now)
        make_two_months(self.path)

    def run_child(self, prelude: str) -> subprocess.CompletedProcess[str]:
        """Runs the tool in a process that does something else before."""
        return subprocess.run([sys.executable, "-c", CHILD.format(prelude), *self.words()], cwd=TOP / "python", capture_output=True, text=True, check=False, timeout=120)

    def test_killed(self) -> None:
        """A reader sees whole months in between, and the next run does the rest."""
        for prelude in (AFTER_A_MONTH, WITHIN_THE_SECOND):
            done = self.run_child(prelude)
            self.assertEqual(done.returncode, -signal.SIGKILL, done.stderr)
            self.assertEqual(len(rows_of([self.folder / "2026-10.db"])["calls"]), 6)
            if prelude is WITHIN_THE_SECOND:
                with self.assertRaises(RecordsFault), opened_records(str(self.folder / "2026-11.db")):
                    pass
        self.expect("2026-11.db: 2 calls, 2 events, 3 terms added\n")
        self.assertEqual(self.names(), ["2026-10.db", "2026-11.db"])
        self.assertEqual(self.archived(), rows_of([self.path]))

    def test_killed_while_a_month_grows(self) -> None:
        """A file that was there has its rows, and a reader of it sees none of the others."""
        self.grow()
        self.assertEqual(self.run_child(WITHIN_THE_SECOND).returncode, -signal.SIGKILL)
        with opened_records(str(self.folder / "2026-11.db")) as records:
            self.assertEqual(len(records.calls()), 1)
        self.expect("2026-11.db: 1 call, 1 event, 1 term added\n")
        self.assertEqual(self.archived(), rows_of([self.path]))

    def test_full_disk(self) -> None:
        """The month that does not fit is not there, the other one is, and both once there is room."""
        done = self.run_child(FULL)
        self.assertEqual((done.returncode, done.stdout), (1, "2026-10.db: 6 calls, 6 events, 5 terms added\n"))
        self.assertRegex(done.stderr, r"^archive: .*/2026-11\.db: (?:database or disk is full|disk I/O error)\n$")
        self.assertEqual(self.names(), ["2026-10.db"])
        self.expect("2026-11.db: 2 calls, 2 events, 3 terms added\n")

    def test_full_disk_while_a_month_grows(self) -> None:
        self.grow()
        self.assertEqual(self.run_child(FULL).returncode, 1)
        self.assertEqual(len(rows_of([self.folder / "2026-11.db"])["calls"]), 1)
        self.expect("2026-11.db: 1 call, 1 event, 1 term added\n")

    def test_the_controller_writes(self) -> None:
        """The tool waits, and then says so. It changes nothing of the controller's file."""
        before = self.path.read_bytes()
        with locked(self.path):
            done = self.run_at(self.now, "--seconds", "0.2")
        self.assertEqual((done.returncode, done.stdout, self.names()), (1, "", []))
        self.assertEqual(done.stderr, f"archive: {self.path}: locked: another program writes it; try again\n")
        self.run_at(self.now)
        self.assertEqual((self.path.read_bytes(), sorted(os.listdir(self.top))), (before, ["old", "site.db"]))

    def test_while_terms_are_written(self) -> None:
        """Runs while another process writes: at the end each row is there once."""
        make_records(self.path, terms=0)
        ended = threading.Event()

        def write() -> None:
            for number in range(1, 11):
                with contextlib.closing(sqlite3.connect(self.path, 20)) as conn, conn:
                    insert(conn, "terms", ((number, NOON + number * 1000, *TERMS[0][2:]),))
                    insert(conn, "calls", tuple((2 * number + more, number, *CALLS[0][2:]) for more in (-1, 0)))
            ended.set()

        writer = threading.Thread(target=write)
        writer.start()
        self.addCleanup(writer.join)
        while not ended.is_set():
            self.assertEqual(self.run_at(self.now, "--seconds", "20").returncode, 0)
        self.run_at(self.now)
        self.assertEqual(self.names(), ["2026-11.db"])
        self.assertEqual(self.archived(), rows_of([self.path]))

    def test_two_at_once(self) -> None:
        """One run at a time changes a folder."""
        with contextlib.closing(Archive(str(self.folder))):
            done = self.run_at(self.now)
        self.assertEqual((done.returncode, done.stderr), (1, f"archive: {self.folder}: another dmr_archive changes it; try again\n"))

