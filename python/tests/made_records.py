"""A file of records, made by Python's `sqlite3`, and its rows: worked out by hand from a short day of a site of two carriers.

The controller started at NOON less 60 s, with ticks of 60 ms. Its first term ended at NOON, after 1,000 ticks; the second 30 s (500 ticks) later. Then it was
started again, at NOON + 100 s. The third term ended at NOON + 160 s, after 1,000 ticks of this run. So a tick T of the first run was at NOON - 60 s + T * 60 ms.
"""
import contextlib
import os
import pathlib
import sqlite3
import subprocess
import sys
import time
from collections.abc import Iterator, Sequence
from unittest import mock

# 2026-11-27 12:00:00 UTC, in milliseconds since 1970: 20,784 days and a half. 1970 to 2026 are 56 years with 14 leap days, and 2026-11-27 is the 331st day.
NOON = ((56 * 365 + 14 + 330) * 24 + 12) * 3_600_000

TABLES = """
CREATE TABLE schema_version (version INTEGER PRIMARY KEY) STRICT;
CREATE TABLE terms (number INTEGER PRIMARY KEY, ended_ms INTEGER NOT NULL, tick_ms INTEGER NOT NULL, last_tick INTEGER NOT NULL, entries INTEGER NOT NULL,
  heard INTEGER NOT NULL, requests INTEGER NOT NULL, noise INTEGER NOT NULL, active INTEGER NOT NULL, polls INTEGER NOT NULL, ticks INTEGER NOT NULL,
  commands INTEGER NOT NULL, grants INTEGER NOT NULL, late_entries INTEGER NOT NULL, registrations INTEGER NOT NULL, refusals INTEGER NOT NULL,
  begun INTEGER NOT NULL, ended INTEGER NOT NULL, most_lines INTEGER NOT NULL) STRICT;
CREATE TABLE calls (number INTEGER PRIMARY KEY, term INTEGER NOT NULL, carrier INTEGER NOT NULL, slot INTEGER NOT NULL, is_group INTEGER NOT NULL,
  source INTEGER NOT NULL, target INTEGER NOT NULL, began INTEGER NOT NULL, ended INTEGER NOT NULL, began_ms INTEGER NOT NULL, ended_ms INTEGER NOT NULL,
  cause TEXT NOT NULL) STRICT;
CREATE TABLE events (number INTEGER PRIMARY KEY, term INTEGER NOT NULL, tick INTEGER NOT NULL, at_ms INTEGER NOT NULL, kind TEXT NOT NULL, carrier INTEGER,
  slot INTEGER, radio INTEGER, target INTEGER, channel INTEGER, reason INTEGER, reply TEXT) STRICT;
CREATE TABLE registrations (place INTEGER PRIMARY KEY, radio INTEGER NOT NULL) STRICT;
"""
# number, ended_ms, tick_ms, last_tick; entries, heard, requests, noise, active, polls, ticks, commands, grants, late_entries, registrations, refusals, begun,
# ended, most_lines
TERMS = (
    (1, NOON, 60, 1000, 4000, 20, 12, 3, 100, 2876, 1000, 1, 8, 2, 3, 1, 3, 2, 1),
    (2, NOON + 30_000, 60, 1500, 2000, 9, 5, 0, 50, 1440, 500, 1, 4, 1, 0, 1, 1, 2, 2),
    (3, NOON + 160_000, 60, 1000, 3000, 12, 7, 1, 80, 1905, 1000, 2, 3, 0, 1, 1, 2, 1, 0),
)
# number, term, carrier, slot, is_group, source, target, began, ended, began_ms, ended_ms, cause
CALLS = (
    (1, 1, 0, 1, 1, 1001, 91, 100, 200, NOON - 54_000, NOON - 48_000, "hang_time"),
    (2, 1, 1, 0, 0, 1002, 1001, 300, 350, NOON - 42_000, NOON - 39_000, "ended_by_operator"),
    (3, 2, 1, 1, 1, 1003, 92, 900, 1100, NOON - 6_000, NOON + 6_000, "carrier_lost"),
    (4, 2, 0, 1, 0, 1001, 1003, 1150, 1400, NOON + 9_000, NOON + 24_000, "radio_left"),
    (5, 3, 0, 1, 1, 1002, 91, 200, 825, NOON + 112_000, NOON + 149_500, "maximum"),
)
# number, term, tick, at_ms, kind, carrier, slot, radio, target, channel, reason, reply
EVENTS = (
    (1, 1, 20, NOON - 58_800, "joined", None, None, 1001, None, None, None, None),
    (2, 1, 40, NOON - 57_600, "joined", None, None, 1002, None, None, None, None),
    (3, 1, 60, NOON - 56_400, "joined", None, None, 1003, None, None, None, None),
    (4, 1, 5, NOON - 59_700, "came_up", 0, None, None, None, None, None, None),
    (5, 1, 10, NOON - 59_400, "came_up", 1, None, None, None, None, None, None),
    (6, 1, 350, NOON - 39_000, "end_command", 1, 0, None, None, None, None, "done"),
    (7, 1, 500, NOON - 30_000, "refused", None, None, 1002, 99, None, 0x2F, None),
    (8, 2, 1400, NOON + 24_000, "left", None, None, 1003, None, None, None, None),
    (9, 2, 1100, NOON + 6_000, "was_lost", 1, None, None, None, None, None, None),
    (10, 2, 1200, NOON + 12_000, "refused", None, None, 1002, 99, None, 0x2F, None),
    (11, 2, 1300, NOON + 18_000, "move_command", None, None, None, None, 7, None, "done"),
    (12, 3, 300, NOON + 118_000, "joined", None, None, 1004, None, None, None, None),
    (13, 3, 10, NOON + 100_600, "came_up", 0, None, None, None, None, None, None),
    (14, 3, 400, NOON + 124_000, "refused", None, None, 1004, 1002, None, 0x2E, None),
    (15, 3, 410, NOON + 124_600, "drop_command", None, None, 999, None, None, None, "not_registered"),
    (16, 3, 420, NOON + 125_200, "stay_command", None, None, None, None, None, None, "done"),
)
REGISTRATIONS = ((1, 1001), (2, 1002), (3, 1004))

# What the controller does with a file of the first version of the tables, and what the second version has in addition.
SECOND = """
ALTER TABLE calls ADD COLUMN waited INTEGER;
CREATE TABLE carriers (term INTEGER NOT NULL, carrier INTEGER NOT NULL, polls INTEGER NOT NULL, heard INTEGER NOT NULL, noise INTEGER NOT NULL, active INTEGER NOT NULL,
  PRIMARY KEY (term, carrier)) STRICT;
UPDATE schema_version SET version = 2;
"""
# The ticks for which calls waited, by their numbers: those of call 3 are 3 s, and those of call 5 1.5 s.
WAITED = {1: 0, 2: 0, 3: 50, 4: 0, 5: 25}
# Radios that joined: call 1, and call 5 twice, of which the second time is the tick of its end.
JOINED = (
    (17, 1, 150, NOON - 51_000, "joined_call", 0, 1, 1003, 91, None, None, None),
    (18, 3, 500, NOON + 130_000, "joined_call", 0, 1, 1004, 91, None, None, None),
    (19, 3, 600, NOON + 136_000, "joined_call", 0, 1, 1001, 91, None, None, None),
    (20, 3, 825, NOON + 149_500, "joined_call", 0, 1, 1004, 91, None, None, None),
)
# term, carrier, polls, heard, noise, active
CARRIERS = ((1, 0, 1500, 20, 1, 60), (1, 1, 1376, 0, 2, 40), (2, 0, 800, 9, 0, 30), (2, 1, 640, 0, 0, 20), (3, 0, 1905, 12, 1, 80))


@contextlib.contextmanager
def zone(name: str) -> Iterator[None]:
    """The machine's zone."""
    with mock.patch.dict(os.environ, {"TZ": name}):
        time.tzset()
        try:
            yield
        finally:
            os.environ.pop("TZ", None)
    time.tzset()


@contextlib.contextmanager
def opened(path: pathlib.Path | str) -> Iterator[sqlite3.Connection]:
    """A connection to a database. Its changes are kept at the end."""
    with contextlib.closing(sqlite3.connect(path)) as conn, conn:
        yield conn


def change(path: pathlib.Path | str, statement: str, values: Sequence[object] = ()) -> None:
    """Changes a database by a statement."""
    with opened(path) as conn:
        conn.execute(statement, values)


def insert(conn: sqlite3.Connection, table: str, rows: tuple[tuple[object, ...], ...]) -> None:
    """Inserts rows into a table. Columns that they do not have are the last ones, which are NULL."""
    if rows:
        names = [row[1] for row in conn.execute(f"PRAGMA table_info({table})")][:len(rows[0])]
        conn.executemany(f"INSERT INTO {table} ({', '.join(names)}) VALUES ({', '.join('?' * len(names))})", rows)


def make_records(path: pathlib.Path, terms: int = len(TERMS), version: int = 1) -> pathlib.Path:
    """Makes a file of records with the first `terms` terms, with a write-ahead log, as the controller does, in place of another one. Its path."""
    path.unlink(missing_ok=True)
    with opened(path) as conn:
        conn.execute("PRAGMA journal_mode = WAL")
        conn.executescript(TABLES)
        conn.execute("INSERT INTO schema_version VALUES (1)")
        insert(conn, "registrations", REGISTRATIONS)
    if version == 2:
        carry_over(path)
    for number in range(1, terms + 1):
        add_term(path, number)
    return path


def carry_over(path: pathlib.Path) -> None:
    """Makes the tables of a file those of the second version. What its rows do not say is NULL."""
    with opened(path) as conn:
        conn.executescript(SECOND)


def add_term(path: pathlib.Path, number: int) -> None:
    """Adds the rows of a term, as the version of the tables has them."""
    with opened(path) as conn:
        insert(conn, "terms", (TERMS[number - 1],))
        insert(conn, "calls", tuple(it for it in CALLS if it[1] == number))
        insert(conn, "events", tuple(it for it in EVENTS if it[1] == number))
        if conn.execute("SELECT version FROM schema_version").fetchone() == (2,):
            conn.executemany("UPDATE calls SET waited = ? WHERE number = ? AND term = ?", [(waited, call, number) for call, waited in WAITED.items()])
            insert(conn, "events", tuple(it for it in JOINED if it[1] == number))
            insert(conn, "carriers", tuple(it for it in CARRIERS if it[0] == number))


# A process that has SQLite's exclusive lock on a file from its first line on, until its input ends. A second connection of one process sees no lock of the first.
WRITER = """
import sqlite3, sys
conn = sqlite3.connect(sys.argv[1], isolation_level=None)
conn.execute("PRAGMA locking_mode = EXCLUSIVE")
conn.execute("BEGIN IMMEDIATE")
print("locked", flush=True)
sys.stdin.read()
conn.execute("ROLLBACK")
"""


@contextlib.contextmanager
def locked(path: pathlib.Path) -> Iterator[subprocess.Popen[str]]:
    """A process that has SQLite's exclusive lock, as the controller has it while it writes. It ends with its input."""
    with subprocess.Popen([sys.executable, "-c", WRITER, str(path)], stdin=subprocess.PIPE, stdout=subprocess.PIPE, text=True) as writer:
        assert writer.stdin and writer.stdout
        assert writer.stdout.readline() == "locked\n", "the file was not free"
        yield writer
        writer.stdin.close()
