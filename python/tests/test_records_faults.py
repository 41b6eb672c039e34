"""A file of records that a served controller cannot use, cannot write for a while, or carries over
from the version before; and how many rows it keeps (docs/RECORDS.md). All of it is skipped if the
program was not built."""
import pathlib
import resource
import sqlite3
import subprocess
import sys
import time
from typing import Any

from temzaar.process import Controller
from temzaar.records import VERSION
from tests.made_records import CALLS, EVENTS, REGISTRATIONS, TERMS, insert, opened
from tests.served_kit import PATIENCE, ServedCase
from tests.test_records import SCHEMA, statements_of_before, statements_of_tables
from tests.worked_session import Player, site_of, size_of

# A program that reads a file of records, and stays connected until its input ends.
READER = """\
import sqlite3, sys
conn = sqlite3.connect(sys.argv[1], timeout=60)
conn.execute("SELECT count(*) FROM calls").fetchall()
print("open", flush=True)
sys.stdin.read()
"""
# If nothing but ticks comes, a term ends each tenth of a second.
FAST = {"tick_ms": 10, "term_entries": 10}
# No term ends by its ticks.
SLOW = {"tick_ms": 1000, "term_entries": 50}
# Steps of a term with one call.
CALL = ("0 comes up", "1 comes up", "1001 joins", "1001 calls 91", "say end 0 0")
# What is noted if the file cannot be read at the start, and of the first term that is not written.
NOT_READ = "no radio is registered again: "
NOT_KEPT = "not kept, trying again with each term: "
# How often a controller is killed over a file of the version before, and how many calls it has.
KILLS, MANY_CALLS = 8, 5000
# How many rows of each table stay. Older ones are removed with each 101st term.
MOST_ROWS, REMOVES = 100_000, 101


class Served(ServedCase):
    """A controller that is served with a folder for its file of records."""

    def setUp(self) -> None:
        super().setUp()
        self.path = self.folder / "site.db"

    def notes_of(self, terms: int) -> list[str]:
        """Serves some terms. What was noted of the records."""
        return self.run_terms(site_of(**FAST), terms).find_in_notes("records: (.*)")

    def make(self, statements: str) -> None:
        """Changes the database by Python's library, or makes one."""
        with opened(self.path) as conn:
            conn.executescript(statements)

    def rows(self, query: str) -> list[tuple[Any, ...]]:
        """The answer to a query."""
        with opened(self.path) as conn:
            return conn.execute(query).fetchall()


class Faults(Served):
    """Each fault is noted, and the file stays as it is."""

    def expect_fault(self, fault: str) -> None:
        """The start meets this fault, and so do terms. The bytes of the file stay."""
        before = self.path.read_bytes()
        self.assertEqual(self.notes_of(2), [NOT_READ + fault, NOT_KEPT + fault])
        self.assertTrue(self.path.read_bytes() == before)

    def test_newer_tables(self) -> None:
        self.make(statements_of_tables() + f"; INSERT INTO schema_version VALUES ({VERSION + 1})")
        self.expect_fault("a later version wrote the file")

    def test_other_tables(self) -> None:
        self.make("CREATE TABLE notes (text TEXT)")
        self.expect_fault("not a file of records")

    def test_no_database(self) -> None:
        self.path.write_bytes(b"not a database\n" * 300)
        self.expect_fault("not a file of records")

    def test_a_file_that_was_cut(self) -> None:
        self.make(statements_of_tables())
        self.path.write_bytes(self.path.read_bytes()[:-4096])
        self.expect_fault("the file is damaged")

    def test_a_number_that_does_not_fit_a_radio(self) -> None:
        """No radio is registered. Until a term is written, the bytes of the file stay."""
        self.make(statements_of_tables() + "; INSERT INTO registrations VALUES (1, 16777216)")
        before = self.path.read_bytes()
        with self.serve(site_of(**SLOW)) as controller:
            pass
        found = controller.find_in_notes("records: (.*)")
        self.assertEqual(found, [NOT_READ + "the file is damaged"])
        self.assertTrue(self.path.read_bytes() == before)

    def test_a_reader_that_keeps_the_file_open(self) -> None:
        """The start waits for it for five seconds. The terms of that time are written when it has
        gone. It is a process of its own: this one reads the file's bytes, and to close the file
        then would end all locks that it has on it."""
        self.notes_of(1)
        fault, words = "another program has the file open", [sys.executable, "-c", READER]
        with subprocess.Popen([*words, str(self.path)], stdin=subprocess.PIPE,
                              stdout=subprocess.PIPE) as reader:
            assert reader.stdin and reader.stdout
            self.assertEqual(reader.stdout.readline(), b"open\n")
            before = self.path.read_bytes()
            with self.serve(site_of(**FAST)) as controller:
                self.assertTrue(controller.wait_for(NOT_KEPT, PATIENCE), controller.notes)
                self.assertTrue(self.path.read_bytes() == before)
                reader.stdin.close()
                self.assertTrue(controller.wait_for("records: kept", PATIENCE), controller.notes)
        found = controller.find_in_notes("records: (.*)")
        self.assertEqual(found[:2], [NOT_READ + fault, NOT_KEPT + fault])
        # such terms have ticks alone, and none is missing
        entries, terms = FAST["term_entries"], self.rows("SELECT number, last_tick FROM terms")
        later = [(n, (n - 1) * entries) for n in range(2, len(terms) + 1)]
        self.assertEqual(terms, [(1, entries), *later])


class Played(Served):
    """A controller that is served for a term with a call."""

    def play_term(self, most: int, from_start: bool = False) -> list[str]:
        """Plays a term with a call, while no file may have more octets than `most`, once the site
        is served or from its start on. What was noted of the records. A write beyond that fails,
        since its signal stays ignored, as it is here."""
        def limit(pid: int = 0) -> None:
            _, hard = resource.prlimit(pid, resource.RLIMIT_FSIZE)
            resource.prlimit(pid, resource.RLIMIT_FSIZE, (most, hard))

        site, before = site_of(**SLOW), limit if from_start else None
        options = {"restore_signals": False, "preexec_fn": before}
        with self.serve(site, "--terms", "1", **options) as controller:
            limit(controller.pid)
            player = Player(site)
            for step in CALL:
                player.take(step)
            player.play_to_end(controller)
        return controller.find_in_notes("records: (no.*)")


class Limits(Played):
    """A file that may not grow, and one that has as many rows as it keeps."""

    def test_a_file_that_may_not_grow(self) -> None:
        """Each term is there whole or not at all: by the first limits it is not, by the last it
        is."""
        self.assertEqual(self.play_term(1 << 20), [])
        counts = ", ".join(f"(SELECT count(*) FROM {it})" for it in ("terms", "calls", "events"))
        noted, refused = list[bool](), NOT_KEPT + "the disk failed or refused a read or a write"
        for most in (0, 16_384, 32_768, 65_536, 131_072, 262_144, 327_680):
            found = self.play_term(most)
            self.assertIn(found, ([], [refused]), most)
            noted.append(bool(found))
            self.assertEqual(self.rows("PRAGMA integrity_check"), [("ok",)], most)
            # a call, two carriers that came up, and a command; in the first term a radio joined
            terms = 1 + noted.count(False)
            whole = [(terms, terms, 3 * terms + 1)]
            self.assertEqual(self.rows(f"SELECT {counts}"), whole, most)
        self.assertEqual((noted[0], noted[-1]), (True, False))

    def test_how_many_rows_stay(self) -> None:
        """The newest of each table stay, and all radios. Of three terms the second alone has a
        multiple of 101 as its number, and removes others."""
        self.notes_of(1)
        terms, calls, events = REMOVES * 991 - 2, MOST_ROWS + 3, MOST_ROWS + 2
        with opened(self.path) as conn:
            conn.execute("INSERT INTO registrations VALUES (1, 1001)")
            for table, count in (("terms", terms), ("calls", calls), ("events", events)):
                fill(conn, table, count)
        self.assertEqual(self.notes_of(3), ["1 radio registered again"])
        # up to which number rows were removed, and how many are left
        wanted = (("terms", 91, MOST_ROWS + 1, terms + 3), ("calls", 3, MOST_ROWS, calls),
                  ("events", 2, MOST_ROWS, events))
        for table, removed, count, last in wanted:
            self.assertEqual(self.rows(f"SELECT {table} FROM removed"), [(removed,)])
            found = self.rows(f"SELECT min(number), count(*), max(number) FROM {table}")
            self.assertEqual(found, [(removed + 1, count, last)], table)
        self.assertEqual(self.rows("SELECT * FROM registrations"), [(1, 1001)])


class CarriedOver(Played):
    """A file of the version before with rows."""

    def setUp(self) -> None:
        super().setUp()
        self.make_first()
        self.first = self.contents()

    def make_first(self, calls: int = 0) -> None:
        """Makes the file, with the made records. `calls` is how many calls it has, if not as many as were made."""
        self.path.unlink(missing_ok=True)
        self.make(statements_of_before())
        with opened(self.path) as conn:
            insert(conn, "terms", TERMS)
            insert(conn, "events", EVENTS)
            insert(conn, "registrations", REGISTRATIONS)
            # the made ones have their columns in another order
            insert(conn, "calls", tuple((*it[:8], it[9], it[8], *it[10:]) for it in CALLS))
            if calls:
                fill(conn, "calls", calls)

    def contents(self) -> dict[str, list[tuple[Any, ...]]]:
        """The rows of the tables that both versions have."""
        tables = ("terms", "calls", "events", "registrations", "removed")
        return {it: self.rows(f"SELECT * FROM {it} ORDER BY 1") for it in tables}

    def expect_first_rows(self, term: int = 0) -> None:
        """The rows of the version before are there, and the columns that it does not have are
        NULL. Others are of this term."""
        for table, rows in self.contents().items():
            wanted = self.first[table]
            if table == "calls":
                wanted = [(*it, None) for it in wanted]
            self.assertEqual(rows[:len(wanted)], wanted, table)
            more = rows[len(wanted):]
            if table in ("calls", "events"):
                self.assertEqual({row[1] for row in more}, {term} if term else set(), table)
            else:
                self.assertEqual(len(more), 1 if term and table == "terms" else 0, table)

    def expect_version(self) -> None:
        """The tables are those of a new file, and sound."""
        self.assertEqual(self.rows("SELECT * FROM schema_version"), [(VERSION,)])
        self.assertEqual(self.rows("PRAGMA integrity_check"), [("ok",)])
        with opened(":memory:") as other:
            other.executescript(statements_of_tables())
            self.assertEqual(self.rows(SCHEMA), other.execute(SCHEMA).fetchall())

    def test_by_the_start(self) -> None:
        """The radios are registered again."""
        with self.serve(site_of(**SLOW)) as controller:
            pass
        self.assertEqual(controller.find_in_notes("records: (.*)"), ["3 radios registered again"])
        self.expect_version()
        self.expect_first_rows()
        self.assertEqual(self.rows("SELECT * FROM carriers"), [])

    def test_the_next_term(self) -> None:
        """It has the next numbers, and what the version before does not have. A start after it finds tables
        of this version."""
        self.assertEqual(self.play_term(1 << 20), [])
        self.expect_version()
        self.expect_first_rows(4)
        calls = self.rows("SELECT number, source, target, waited FROM calls WHERE term = 4")
        self.assertEqual(calls, [(6, 1001, 91, 0)])
        counts = self.rows("SELECT term, carrier, heard, noise, active FROM carriers ORDER BY 2")
        self.assertEqual(counts, [(4, 0, 0, 0, 0), (4, 1, 2, 0, 0)])
        self.assertEqual(self.notes_of(1), ["3 radios registered again"])
        self.assertEqual(self.rows("SELECT max(number) FROM terms"), [(5,)])
        self.expect_version()

    def test_a_file_that_may_not_grow(self) -> None:
        """It is carried over whole or not at all."""
        noted, refused = list[bool](), "the disk failed or refused a read or a write"
        for most in (0, 16_384, 32_768, 65_536, 1 << 20):
            self.make_first()
            noted.append(NOT_KEPT + refused in self.play_term(most, from_start=True))
            versions = self.rows("SELECT * FROM schema_version")
            self.assertEqual(self.rows("PRAGMA integrity_check"), [("ok",)], most)
            if versions == [(VERSION - 1,)]:
                self.assertEqual(self.contents(), self.first, most)
            else:
                self.expect_version()
                self.expect_first_rows(0 if noted[-1] else 4)
        self.assertEqual((noted[0], noted[-1]), (True, False))

    def kill(self, controller: Controller, number: int) -> None:
        """Kills a controller: the first at once, the last when it is served, and the others some
        milliseconds after its log has a page, or after its file was read."""
        log = pathlib.Path(f"{self.path}-wal")
        if number == KILLS - 1:
            controller.wait_until_served()
        elif number > 0:
            while size_of(log) < 4096 and not controller.find_in_notes("records: (.*)"):
                time.sleep(0.0005)
            time.sleep(0.003 * (number - 1))
        controller.process.kill()
        controller.process.wait(PATIENCE)

    def test_kills(self) -> None:
        """After a kill, at any moment of it, the file has either version, whole. The next start
        carries it over."""
        versions, site = list[int](), site_of(**SLOW)
        for number in range(KILLS):
            self.make_first(MANY_CALLS)
            self.first = self.contents()
            with Controller(self.built, site, [], self.variables) as controller:
                self.kill(controller, number)
            self.assertEqual(self.rows("PRAGMA integrity_check"), [("ok",)])
            [(version,)] = self.rows("SELECT * FROM schema_version")
            versions.append(version)
            if version < VERSION:
                self.assertEqual(self.contents(), self.first, number)
                with self.serve(site):
                    pass
            self.expect_version()
            self.expect_first_rows()
        self.assertEqual((versions[0], versions[-1]), (VERSION - 1, VERSION))


def fill(conn: sqlite3.Connection, table: str, count: int) -> None:
    """Replaces the rows of a table by made ones, with the numbers from 1 on."""
    columns = conn.execute(f"PRAGMA table_info({table})").fetchall()
    values = ["n", *("'hang_time'" if it[2] == "TEXT" else "1" for it in columns[1:])]
    conn.execute(f"DELETE FROM {table}")
    conn.execute("WITH RECURSIVE numbers (n) AS (SELECT 1 UNION ALL SELECT n + 1 FROM numbers "
                 f"WHERE n < {count}) INSERT INTO {table} SELECT {', '.join(values)} FROM numbers")
