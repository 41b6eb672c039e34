"""An archive of a file of records: a file for each month, in UTC, with the same tables.

A row belongs to the month of its time. That is when a call began, an event happened, or a term
ended. The controller's file is read from a copy, and never changed. A month's file changes in one
transaction, under SQLite's exclusive lock, as the controller's own file does. So other tools read
it as that one.

A file gets the tables of the newest version that it was given rows of. A month has a second file
if the first does not fit. Either its tables are others, or its rows are not the controller's: a new
file of the controller has numbers from 1 on again.
"""
import contextlib
import fcntl
import os
import re
import sqlite3
from collections.abc import Iterator
from dataclasses import dataclass, field
from datetime import UTC, datetime
from typing import NamedTuple

from temzaar.faults import reason_of
from temzaar.moments import Span, milliseconds_of
from temzaar.records import LOCK_SECONDS, LOG, Records, RecordsFault, within

# The folder of the months' files, if the systemd unit runs.
DEFAULT_FOLDER = "/var/lib/dmr_archive"
DAY_MS = 86_400_000
# The tables that are archived, each with the column that has a row's time; and those whose rows
# belong to a term, by their column `term`.
TIMES = {"calls": "began_ms", "events": "at_ms", "terms": "ended_ms"}
OF_TERMS = ("carriers",)
# What a file of records has and an archive does not: who is registered now.
LEFT_EMPTY = ("registrations",)
# The owner writes a file of the archive, and the group reads it.
MODE = 0o640
NAME = re.compile(r"(\d{4}-\d\d)(?:\.([2-9]|[1-9]\d{1,3}))?\.db", re.ASCII)

Counts = dict[str, int]


class MonthFile(NamedTuple):
    """A file of an archive: its month, and whether it is the first of the month, the second, .."""
    month: str
    turn: int

    @property
    def name(self) -> str:
        """The name of the file."""
        return f"{self.month}.db" if self.turn == 1 else f"{self.month}.{self.turn}.db"


@dataclass
class Change:
    """What was done to a file: how many rows of each table were added and removed."""
    file: MonthFile
    added: Counts = field(default_factory=dict)
    removed: Counts = field(default_factory=dict)
    is_gone: bool = False

    def in_words(self) -> str:
        """The change as a line for people."""
        parts = [f"{rows_in_words(counts)} {how}"
                 for counts, how in ((self.added, "added"), (self.removed, "removed")) if counts]
        gone = "; it was empty, and is gone" if self.is_gone else ""
        return f"{self.file.name}: {', '.join(parts)}{gone}"


def rows_in_words(counts: Counts) -> str:
    """Numbers of rows, in words."""
    return ", ".join(f"{count} {name.removesuffix('s') if count == 1 else name}"
                     for name, count in counts.items())


def month_span(month: str) -> Span:
    """The time of a month, in UTC."""
    year, number = map(int, month.split("-"))
    ends = (year + number // 12, number % 12 + 1)
    begins = datetime(year, number, 1, tzinfo=UTC)
    # the calendar ends with the year 9999
    end = datetime(*ends, 1, tzinfo=UTC) if ends[0] < 10000 else datetime.max.replace(tzinfo=UTC)
    return Span(milliseconds_of(begins), milliseconds_of(end))


class Archive:
    """A folder of months' files, which no other process changes as long as this one is open."""

    def __init__(self, folder: str) -> None:
        """Opens it. RecordsFault: there is no such folder, or another process has it."""
        self.folder = folder
        try:
            self.descriptor = os.open(folder, os.O_RDONLY | os.O_DIRECTORY | os.O_CLOEXEC)
        except (OSError, ValueError) as fault:
            raise RecordsFault(f"{folder}: {reason_of(fault)}") from fault
        try:
            fcntl.flock(self.descriptor, fcntl.LOCK_EX | fcntl.LOCK_NB)
        except BlockingIOError as fault:
            self.close()
            raise RecordsFault(f"{folder}: another dmr_archive changes it; try again") from fault

    def close(self) -> None:
        """Releases the folder."""
        os.close(self.descriptor)

    def path(self, file: MonthFile) -> str:
        """The path of a file."""
        return os.path.join(self.folder, file.name)

    def files(self) -> list[MonthFile]:
        """The files, by month and turn."""
        found = (NAME.fullmatch(name) for name in os.listdir(self.folder))
        return sorted(MonthFile(it[1], int(it[2] or 1)) for it in found if it)

    @contextlib.contextmanager
    def opened(self, file: MonthFile) -> Iterator[sqlite3.Connection]:
        """A connection to a file. RecordsFault: it is not a file of records, or cannot be
        changed."""
        path = self.path(file)
        try:
            connection = sqlite3.connect(path, LOCK_SECONDS, isolation_level=None)
            with contextlib.closing(connection) as conn:
                # what is removed is overwritten
                conn.execute("PRAGMA main.secure_delete = ON")
                conn.execute("PRAGMA main.locking_mode = EXCLUSIVE")
                if table_names(conn, "main"):
                    Records(conn).require_version(path)
                yield conn
        except (sqlite3.Error, OSError) as fault:
            raise RecordsFault(f"{path}: {fault}") from fault

    def add(self, records: Records, month: str, span: Span) -> Change | None:
        """Adds the rows of a month, as far as they are of the span and not there yet. What was
        done; None: nothing. RecordsFault: a file is at fault, or cannot be written."""
        source = copy_path(records)
        turns = [it for it in self.files() if it.month == month]
        # the newest first: that of the controller's present file
        for file in reversed(turns):
            with self.opened(file) as conn:
                conn.execute("ATTACH ? AS site", [source])
                if fits(conn):
                    return add_rows(conn, Change(file), span)
        return self._begin(MonthFile(month, turns[-1].turn + 1 if turns else 1), source, span)

    def _begin(self, file: MonthFile, source: str, span: Span) -> Change | None:
        """Makes a file with the rows of the span, and removes it again if it cannot be written."""
        path = self.path(file)
        make_empty(path)
        try:
            with self.opened(file) as conn:
                conn.execute("ATTACH ? AS site", [source])
                return add_rows(conn, Change(file), span)
        except BaseException:
            # the next run makes all of it
            remove_file(path)
            raise

    def missed_rows(self, records: Records) -> Counts:
        """How many rows of each table the controller removed before they were added: those between
        the newest of the archive and the oldest of its file. RecordsFault: a file is at fault."""
        newest: Counts = {}
        for file in self.files():
            with self.opened(file) as conn:
                for table in TIMES if table_names(conn, "main") else ():
                    number = newest_number(conn, "main", table) or 0
                    newest[table] = max(newest.get(table, 0), number)
        missed = {}
        for table, number in newest.items():
            oldest = records.conn.execute(f"SELECT min(number) FROM {table}").fetchone()[0]
            if number and oldest is not None and oldest > number + 1:
                missed[table] = oldest - number - 1
        return missed

    def remove(self, file: MonthFile, before_ms: int) -> Change | None:
        """Removes the rows of a file that are older than a time, and the file if it has none left.
        What was done; None: nothing. RecordsFault: it is at fault, or cannot be written."""
        change, old = Change(file), Span(-1 << 63, before_ms)
        with self.opened(file) as conn:
            # a file without tables is left of a run that was killed
            tables = TIMES if table_names(conn, "main") else ()
            if any(count_rows(conn, table, old) for table in tables):
                with transaction(conn):
                    change.removed = {table: remove_rows(conn, table, old) for table in tables}
                    for table in of_terms(conn, "main"):
                        conn.execute(f"DELETE FROM {table}"
                                     " WHERE term NOT IN (SELECT number FROM terms)")
            change.is_gone = not any(newest_number(conn, "main", table) for table in tables)
        if change.is_gone:
            remove_file(self.path(file))
        return change if change.is_gone or change.removed else None


def copy_path(records: Records) -> str:
    """The path of the copy that records are read from."""
    path: str = records.conn.execute("PRAGMA database_list").fetchone()[2]
    return path


def make_empty(path: str) -> None:
    """Makes a file without an octet. RecordsFault: it cannot be made."""
    try:
        descriptor = os.open(path, os.O_WRONLY | os.O_CREAT | os.O_EXCL | os.O_CLOEXEC, MODE)
        try:
            # whatever the umask is
            os.fchmod(descriptor, MODE)
        finally:
            os.close(descriptor)
    except OSError as fault:
        raise RecordsFault(f"{path}: {reason_of(fault)}") from fault


def remove_file(path: str) -> None:
    """Removes a file, and what SQLite left next to it."""
    for name in (path, path + LOG, f"{path}-journal"):
        with contextlib.suppress(FileNotFoundError):
            os.unlink(name)


@contextlib.contextmanager
def transaction(conn: sqlite3.Connection) -> Iterator[None]:
    """Changes that are all made, or none. sqlite3.Error: they were not made."""
    # a log, as the controller has it: a reader that copies both files sees whole transactions
    conn.execute("PRAGMA main.journal_mode = WAL")
    conn.execute("BEGIN IMMEDIATE")
    try:
        yield
        conn.execute("COMMIT")
    except BaseException:
        if conn.in_transaction:
            conn.execute("ROLLBACK")
        raise
    # at rest there is no log, so a reader needs no right to write; that it stays is not a fault
    with contextlib.suppress(sqlite3.Error):
        conn.execute("PRAGMA main.journal_mode = DELETE")


def table_names(conn: sqlite3.Connection, schema: str) -> list[str]:
    """The tables of a database."""
    query = f"SELECT name FROM {schema}.sqlite_schema WHERE type = 'table' ORDER BY rowid"
    return [row[0] for row in conn.execute(query)]


def quoted(name: str) -> str:
    """A name in a statement, whatever characters it has."""
    return '"' + name.replace('"', '""') + '"'


def columns(conn: sqlite3.Connection, schema: str, table: str) -> list[str]:
    """The columns of a table, by name: files may have them in another order."""
    return sorted(quoted(row[1]) for row in conn.execute(f"PRAGMA {schema}.table_info({table})"))


def newest_number(conn: sqlite3.Connection, schema: str, table: str) -> int | None:
    """The number of the newest row of a table; None if it has none."""
    number: int | None = conn.execute(f"SELECT max(number) FROM {schema}.{table}").fetchone()[0]
    return number


def version(conn: sqlite3.Connection, schema: str) -> int:
    """The version of the tables."""
    number: int = conn.execute(f"SELECT max(version) FROM {schema}.schema_version").fetchone()[0]
    return number


def of_terms(conn: sqlite3.Connection, schema: str) -> list[str]:
    """The tables of a database whose rows belong to a term."""
    return [it for it in OF_TERMS if it in table_names(conn, schema)]


def fits(conn: sqlite3.Connection) -> bool:
    """Whether a file can have rows of the controller's file. It is empty, or has the same tables or
    those of an earlier version. Its rows from the controller's oldest on are the controller's."""
    if not table_names(conn, "main"):
        return True
    is_older = version(conn, "main") < version(conn, "site")
    if version(conn, "main") > version(conn, "site"):
        return False
    for table in TIMES:
        names, of_site = (columns(conn, schema, table) for schema in ("main", "site"))
        if not (set(names) <= set(of_site) if is_older else names == of_site):
            return False
        listed = ", ".join(names)
        oldest = f"(SELECT min(number) FROM site.{table})"
        others = (f"SELECT {listed} FROM main.{table} WHERE number >= {oldest}"
                  f" EXCEPT SELECT {listed} FROM site.{table} LIMIT 1")
        if conn.execute(others).fetchone():
            return False
    return True


def add_rows(conn: sqlite3.Connection, change: Change, span: Span) -> Change | None:
    """Adds the rows of a span that a file does not have. What was done; None: nothing."""
    is_new = not table_names(conn, "main")
    if not is_new and not any(count_rows(conn, table, span, "site", NOT_THERE) for table in TIMES):
        return None
    with transaction(conn):
        if is_new:
            make_tables(conn)
        elif version(conn, "main") < version(conn, "site"):
            raise_tables(conn)
        change.added = {table: copy_rows(conn, table, span) for table in TIMES}
        for table in of_terms(conn, "site"):
            listed = ", ".join(columns(conn, "site", table))
            conn.execute(f"INSERT OR IGNORE INTO main.{table} ({listed}) SELECT {listed}"
                         f" FROM site.{table} WHERE term IN (SELECT number FROM main.terms)")
    return change


def raise_tables(conn: sqlite3.Connection) -> None:
    """Makes the tables of a file of an earlier version those of the controller's file, as the
    controller does. What its rows do not say is NULL."""
    for table in TIMES:
        there = columns(conn, "main", table)
        for row in conn.execute(f"PRAGMA site.table_info({table})").fetchall():
            if quoted(row[1]) not in there:
                conn.execute(f"ALTER TABLE main.{table} ADD COLUMN {quoted(row[1])} {row[2]}")
    for name, text in table_texts(conn):
        if name not in table_names(conn, "main"):
            conn.execute(text)
    conn.execute("UPDATE main.schema_version SET version ="
                 " (SELECT max(version) FROM site.schema_version)")


def table_texts(conn: sqlite3.Connection) -> list[tuple[str, str]]:
    """The tables of the controller's file, each with the statement that makes it."""
    query = "SELECT name, sql FROM site.sqlite_schema WHERE type = 'table' ORDER BY rowid"
    found: list[tuple[str, str]] = conn.execute(query).fetchall()
    return found


def make_tables(conn: sqlite3.Connection) -> None:
    """Makes the tables that the controller's file has."""
    for name, text in table_texts(conn):
        conn.execute(text)
        if name not in TIMES and name not in LEFT_EMPTY and name not in OF_TERMS:
            table = quoted(name)
            conn.execute(f"INSERT INTO main.{table} SELECT * FROM site.{table}")


# Of a row of the controller's file: the month's file does not have it.
NOT_THERE = "number NOT IN (SELECT number FROM main.{table})"


def count_rows(conn: sqlite3.Connection, table: str, span: Span, schema: str = "main",
               more: str = "1") -> int:
    """How many rows of a table are of a span, and meet another condition."""
    condition, values = within(TIMES[table], span)
    rows = f"{schema}.{table} WHERE {condition} AND {more.format(table=table)}"
    count: int = conn.execute(f"SELECT count(*) FROM {rows}", values).fetchone()[0]
    return count


def copy_rows(conn: sqlite3.Connection, table: str, span: Span) -> int:
    """Copies the rows of a span that are not there. How many they are."""
    condition, values = within(TIMES[table], span)
    listed = ", ".join(columns(conn, "site", table))
    return conn.execute(f"INSERT INTO main.{table} ({listed}) SELECT {listed} FROM site.{table}"
                        f" WHERE {condition} AND {NOT_THERE.format(table=table)}", values).rowcount


def remove_rows(conn: sqlite3.Connection, table: str, span: Span) -> int:
    """Removes the rows of a span. How many they were."""
    condition, values = within(TIMES[table], span)
    return conn.execute(f"DELETE FROM {table} WHERE {condition}", values).rowcount


def months_of(records: Records, span: Span) -> list[str]:
    """The months that have rows of a span, oldest first."""
    found: set[str] = set()
    for table, column in TIMES.items():
        condition, values = within(column, span)
        month = f"strftime('%Y-%m', {column} / 1000, 'unixepoch')"
        query = f"SELECT DISTINCT {month} FROM {table} WHERE {condition}"
        found |= {row[0] for row in records.conn.execute(query, values)}
    # the calendar of SQLite has no month for the rest
    return sorted(it for it in found if it and re.fullmatch(r"\d{4}-\d\d", it) and it >= "0001")
