"""The file of records: docs/RECORDS.md, the tables that `dmr_records` makes, and the file that a
served controller writes of a worked session."""
import csv
import json
import pathlib
import re
import sqlite3
import tempfile
from collections import Counter
from collections.abc import Callable

from temzaar.cli import archive, callbook, report
from temzaar.hub.newrecords import SUMMED, read_new
from temzaar.records import VERSION
from temzaar.siteevents import COMMANDS
from tests.made_records import NOON, insert, make_records, opened
from tests.support import TOP, FolderCase, call_tool, queries_of, read_document, table_rows
from tests.worked_session import CALLS, EVENTS, REGISTRATIONS, RUNS, Columns, Session

TABLES = ("schema_version", "terms", "calls", "events", "carriers", "registrations", "removed")
# The names and the statements of the tables in a database.
SCHEMA = "SELECT name, sql FROM sqlite_schema ORDER BY name"
# In the made records radio 1001 also leaves, and joins again.
MORE_EVENTS = (
    (27, 3, 500, NOON + 130_000, "left", None, None, 1001, None, None, None, None),
    (28, 3, 510, NOON + 130_600, "joined", None, None, 1001, None, None, None, None),
)
IN_ORDER = ((1, 1002), (2, 1004), (3, 1001))
# What each query of the document answers over the made records, which are of this day.
DAY = "2026-11-27"
ANSWERS: tuple[list[Columns], ...] = (
    [(f"{DAY} 12:01:52", 0, 1, 1002, 91, 37.5, "maximum"),
     (f"{DAY} 12:00:09", 0, 1, 1001, 1003, 15.0, "radio_left"),
     (f"{DAY} 11:59:54", 1, 1, 1003, 92, 12.0, "carrier_lost"),
     (f"{DAY} 11:59:18", 1, 0, 1002, 1001, 3.0, "ended_by_operator"),
     (f"{DAY} 11:59:06", 0, 1, 1001, 91, 6.0, "hang_time")],
    [(f"{DAY} 12:01:52", 1002, 91)],
    [(1, f"{DAY} 11:59:12", 1001, 91, "hang_time"),
     (2, f"{DAY} 11:59:21", 1002, 1001, "ended_by_operator"),
     (4, f"{DAY} 12:00:24", 1001, 1003, "radio_left")],
    [(91, 2, 43.5), (92, 1, 12.0)],
    [(f"{DAY} 11:00", 0, 1, 1, 6.0), (f"{DAY} 11:00", 1, 0, 1, 3.0),
     (f"{DAY} 11:00", 1, 1, 1, 12.0), (f"{DAY} 12:00", 0, 1, 2, 52.5)],
    [("carrier_lost", 1), ("ended_by_operator", 1), ("hang_time", 1), ("maximum", 1),
     ("radio_left", 1)],
    [("0x2F", 1002, 99, 2), ("0x2E", 1004, 1002, 1)],
    [(f"{DAY} 11:59:01", "joined"), (f"{DAY} 12:02:10", "left"), (f"{DAY} 12:02:10", "joined")],
    [(f"{DAY} 11:59:21", "end_command", 1, 0, None, None, "done"),
     (f"{DAY} 12:00:18", "move_command", None, None, None, 7, "done"),
     (f"{DAY} 12:02:04", "drop_command", None, None, 999, None, "not_registered"),
     (f"{DAY} 12:02:05", "stay_command", None, None, None, None, "done")],
    [(1, 1002, 1), (2, 1004, 1), (3, 1001, 2)],
    [(f"{DAY} 12:00:30", f"{DAY} 12:01:40", 70.0)],
    # no call ended by the hang time before its carrier was lost; test_callbook has one that did
    [],
)


def statements_of(name: str) -> str:
    """The statements of a constant in the crate's source, as the compiler reads it."""
    source = (TOP / "crates/dmr_records/src/rows.rt").read_text(encoding="utf-8")
    found = re.search(rf'^pub const {name}: &str = "(.*?)";$', source, re.M | re.S)
    assert found
    return re.sub(r"\\\n *", "", found[1])


def statements_of_tables() -> str:
    """The statements that make the tables of this version, and say which it is."""
    return statements_of("TABLES")


def statements_of_before() -> str:
    """Those that made the tables of the version before, as those that carry it over have them: a table X is X_before there, or is new."""
    text, carried = statements_of_tables(), statements_of("CARRY_OVER")
    for name in re.findall(r"CREATE TABLE (\w+)(?<!_before) ", carried):
        before = re.search(rf"CREATE TABLE {name}_before [^;]*;", carried)
        text = re.sub(rf"CREATE TABLE {name} [^;]*;", before[0].replace("_before", "") if before else "", text)
    return text.replace(f"VALUES ({VERSION})", f"VALUES ({VERSION - 1})")


class Documented(FolderCase):
    """The document says what the tables are, and its queries answer what was worked out."""

    def setUp(self) -> None:
        super().setUp()
        self.document = read_document("RECORDS.md")
        self.conn = sqlite3.connect(":memory:")
        self.addCleanup(self.conn.close)
        self.conn.executescript(statements_of_tables())

    def test_columns(self) -> None:
        for table in TABLES:
            listed = [[name, "TEXT" if row[1].startswith("TEXT: ") else "INTEGER"] for row in table_rows(self.document, f"`{table}` has") for name in row[0].split(", ")]
            made = self.conn.execute(f"PRAGMA table_info({table})")
            self.assertEqual(listed, [[it[1], it[2]] for it in made], table)

    def test_each_table_is_described(self) -> None:
        made = self.conn.execute("SELECT name FROM sqlite_schema WHERE type = 'table'")
        self.assertEqual(sorted(it[0] for it in made), sorted(TABLES))

    def test_version(self) -> None:
        """The document says which it is. The statements that carry the version before over make the
        tables that a new file has, and keep rows."""
        version = table_rows(self.document, "`schema_version` has")[0][1]
        made = self.conn.execute("SELECT * FROM schema_version").fetchall()
        self.assertEqual(made, [(int(version),)])
        self.assertEqual(made, [(VERSION,)])
        with opened(":memory:") as other:
            other.executescript(statements_of_before())
            self.assertEqual(other.execute("SELECT * FROM schema_version").fetchall(), [(VERSION - 1,)])
            insert(other, "calls", ((7, 3, 1, 0, 1, 1001, 91, 20, 2000, 40, 4000, "maximum"),))
            [call] = other.execute("SELECT * FROM calls").fetchall()
            other.executescript(statements_of("CARRY_OVER"))
            self.assertEqual(other.execute("SELECT * FROM calls").fetchall(), [(*call, None)])
            self.assertEqual(other.execute("SELECT * FROM schema_version").fetchall(), made)
            found, wanted = (it.execute(SCHEMA).fetchall() for it in (other, self.conn))
            self.assertEqual(found, wanted)

    def test_words(self) -> None:
        causes = {row[0] for row in table_rows(self.document, "| cause |")}
        self.assertEqual(causes, {cause for *_, cause in CALLS})
        kinds = {word for row in table_rows(self.document, "| kind |")
                 for word in row[0].split(", ")}
        commands = {kind for kind in COMMANDS if "NAME_command" in kinds}
        self.assertEqual(kinds - {"NAME_command"} | commands, {kind for _, _, kind, *_ in EVENTS} | commands)

    def test_queries(self) -> None:
        """They answer over made records, and run over the tables of the crate."""
        queries = queries_of(self.document)
        for version in (1, 2):
            with opened(make_records(self.folder / f"made-{version}.db", version=version)) as made:
                insert(made, "events", MORE_EVENTS)
                made.execute("DELETE FROM registrations")
                insert(made, "registrations", IN_ORDER)
                for query, answer in zip(queries, ANSWERS, strict=True):
                    self.assertEqual(made.execute(query).fetchall(), answer, (version, query))
                    self.assertEqual(len(self.conn.execute(query).fetchall()), 0, query)


class Written(FolderCase):
    """The file of the worked session, read by Python's library."""

    @classmethod
    def setUpClass(cls) -> None:
        folder = cls.enterClassContext(tempfile.TemporaryDirectory())
        cls.session = Session(folder)
        cls.path = pathlib.Path(folder, "site.db")
        # the file is also read between two runs
        cls.numbers = [cls.play_and_read(number) for number in range(len(RUNS))]

    @classmethod
    def play_and_read(cls, number: int) -> list[int]:
        """Plays a run. The numbers of the calls that the file has then."""
        cls.session.play(RUNS[number])
        with opened(cls.path) as conn:
            return [row[0] for row in conn.execute("SELECT number FROM calls")]

    def setUp(self) -> None:
        super().setUp()
        self.conn = sqlite3.connect(self.path)
        self.addCleanup(self.conn.close)
        self.ended_ms = [row[0] for row in self.rows("terms", "ended_ms")]

    def rows(self, table: str, columns: str = "*", order: str = "1") -> list[Columns]:
        """The rows of a table, in the order of their first column."""
        return self.conn.execute(f"SELECT {columns} FROM {table} ORDER BY {order}").fetchall()

    def test_terms(self) -> None:
        """Each ended between the times of day at which the player saw it go on, and over."""
        self.assertEqual(self.rows("terms"), self.session.term_rows(self.ended_ms))
        for ended_ms, term in zip(self.ended_ms, self.session.terms, strict=True):
            self.assertLessEqual(term.before_ms, ended_ms)
            self.assertLessEqual(ended_ms, term.after_ms)

    def test_calls(self) -> None:
        self.assertEqual(self.rows("calls"), self.session.call_rows(self.ended_ms))

    def test_events(self) -> None:
        self.assertEqual(self.rows("events"), self.session.event_rows(self.ended_ms))

    def test_carriers(self) -> None:
        """One that did nothing in a term has no row of it. Those of a term add up to its own."""
        self.assertEqual(self.rows("carriers", order="1, 2"), self.session.carrier_rows())
        counts = ("polls", "heard", "noise", "active")
        summed = ", ".join(f"sum({it})" for it in counts)
        sums = self.rows("carriers GROUP BY term", f"term, {summed}")
        self.assertEqual(sums, self.rows("terms", f"number, {', '.join(counts)}"))

    def test_registrations(self) -> None:
        self.assertEqual(self.rows("registrations"), list(REGISTRATIONS))

    def test_runs_go_on_after_a_reader(self) -> None:
        self.assertEqual(self.numbers, [[*range(1, 6)], [*range(1, 7)], [*range(1, 8)]])

    def run_tool(self, main: Callable[[list[str]], int], *words: str) -> str:
        """What a tool prints of the file."""
        done = call_tool(main, "--records", str(self.path), *words)
        self.assertEqual(done.returncode, 0, done.stderr)
        return done.stdout

    def test_callbook(self) -> None:
        """It lists how long each call waited, and who joined it."""
        found = json.loads(self.run_tool(callbook.main, "--format", "json"))
        joined: dict[int, list[int]] = {1: [1003], 5: [1005]}
        wanted = [(row[0], row[5], row[6], joined.get(row[0], []))
                  for row in self.session.call_rows(self.ended_ms)]
        self.assertEqual([(it["number"], it["source"], it["target"], it["joined"])
                          for it in found], wanted)
        # a tick of the run in which a call waited is 30 ms
        for row, call in zip(self.rows("calls", "number, waited"), found, strict=True):
            self.assertAlmostEqual(call["waited_seconds"], 0.03 * row[1], delta=0.001)

    def test_archive(self) -> None:
        """The months' files have all rows, and tables of the same version. A second run adds
        nothing."""
        words = archive.main, "--folder", str(self.folder)
        self.run_tool(*words)
        self.assertEqual(self.run_tool(*words), "nothing to do\n")
        for table in ("terms", "calls", "events", "carriers"):
            found: set[Columns] = set()
            for month in self.folder.iterdir():
                with opened(month) as conn:
                    self.assertEqual(conn.execute("SELECT * FROM schema_version").fetchall(),
                                     self.rows("schema_version"))
                    found |= set(conn.execute(f"SELECT * FROM {table}"))
            self.assertEqual(found, set(self.rows(table)), table)

    def test_hub(self) -> None:
        """What it counts, of all terms and of the last two."""
        new = read_new(str(self.path), None)
        self.assertEqual((new.terms, new.last and new.last.number), (7, 7))
        sums = self.conn.execute(f"SELECT {', '.join(f'sum({it})' for it in SUMMED)} FROM terms")
        self.assertEqual(tuple(new.sums.values()), sums.fetchone())
        kinds = [("group" if row[4] else "radio", row[11])
                 for row in self.session.call_rows(self.ended_ms)]
        self.assertEqual(new.calls, Counter(kinds))
        self.assertEqual(sum(new.refusals.values()), 2)
        self.assertEqual(len(new.newest), 7)

    def test_report(self) -> None:
        """Which calls waited, and what joined calls add to talkgroups and radios."""
        days = self.conn.execute("SELECT date(min(began_ms) / 1000, 'unixepoch', 'localtime'), "
                                 "date(max(ended_ms) / 1000, 'unixepoch', 'localtime') FROM calls")
        first, last = days.fetchone()
        text = self.run_tool(report.main, "--from", first, "--to", last, "--format", "csv")
        found = {(it["section"], it["key"], it["measure"]): it["value"]
                 for it in csv.DictReader(text.splitlines())}
        self.assertEqual(found["waits", "none", "calls"], "6")
        of_waits = [int(value) for (section, key, measure), value in found.items()
                    if (section, measure) == ("waits", "calls") and key != "none"]
        self.assertEqual(sum(of_waits), 1)
        for section, key, wanted in (("talkgroups", "91", "1"), ("talkgroups", "92", "1"),
                                     ("talkgroups", "94", "0"), ("radios", "1003", "1"),
                                     ("radios", "1005", "1"), ("radios", "1001", "0")):
            self.assertEqual(found[section, key, "joined"], wanted, key)

    def test_tables(self) -> None:
        """They are those of the crate, and sound. No row was removed."""
        self.assertEqual(self.rows("removed"), [(0, 0, 0)])
        self.assertEqual(self.conn.execute("PRAGMA integrity_check").fetchall(), [("ok",)])
        self.assertEqual(self.rows("schema_version"), [(VERSION,)])
        with opened(":memory:") as other:
            other.executescript(statements_of_tables())
            made, wanted = (it.execute(SCHEMA).fetchall() for it in (self.conn, other))
            self.assertEqual(made, wanted)
