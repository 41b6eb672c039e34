"""The controller's file of records (docs/RECORDS.md): its terms, calls and events, read from a copy.

The controller opens the file for each term with SQLite's exclusive lock, and cannot do so while somebody reads. So a reader here takes the lock of SQLite's
readers, copies the file and its log, and releases the lock before it asks the copy anything. It writes nothing into the controller's folder, and needs
no right but to read it.
"""
import contextlib
import fcntl
import os
import sqlite3
import stat
import tempfile
import time
from collections.abc import Iterator, Sequence
from dataclasses import dataclass, field, fields
from typing import Any

from temzaar.faults import MOST_OCTETS, ToolFault, reason_of
from temzaar.moments import Span

# The path of the file, if the systemd unit of the controller runs.
DEFAULT_PATH = "/var/lib/dmr_trunk/site.db"
# The greatest version of the tables that this module reads, and the columns that later versions than the first added.
VERSION = 2
ADDED_IN = {"waited": 2}
# What every database of SQLite begins with, and the ending of its log's name.
MAGIC, LOG = b"SQLite format 3\0", "-wal"
# The octets of a database that SQLite locks: one that a writer takes first, and those that readers share.
PENDING, SHARED, SHARED_COUNT = 0x40000000, 0x40000002, 510
# Seconds for which a reader waits for the lock, and from one try to the next.
LOCK_SECONDS, TRY_SECONDS = 5.0, 0.02
# The greatest number of a carrier, and of a slot.
LAST_CARRIER, LAST_SLOT = 15, 1
# The words of the columns `calls.cause`.
CAUSES = ("hang_time", "maximum", "radio_left", "dropped", "ended_by_operator", "carrier_lost")

Where = tuple[str, list[Any]]


class RecordsFault(ToolFault):
    """A file of records that cannot be read. The text names it, and says why."""


class BadRow(ValueError):
    """A row has a value that the controller does not write. The text names the table, the row and the value."""


def require(holds: bool, row: str, about: str) -> None:
    """BadRow: something does not hold of a row."""
    if not holds:
        raise BadRow(f"{row}: {about}")


def is_whole(value: object, least: int | None = None, most: int | None = None) -> bool:
    """Whether a value is a whole number, in a range."""
    return isinstance(value, int) and (least is None or value >= least) and (most is None or value <= most)


def within(column: str, span: Span) -> Where:
    """The condition that the time of a row is within a span."""
    return f"{column} >= ? AND {column} < ?", [*span]


@dataclass(frozen=True)
class RecordedCall:
    """A row of `calls`. Its times are ticks, and milliseconds since 1970. `waited` is for how many ticks its request waited for a slot; None if that is not known."""
    number: int
    term: int
    carrier: int
    slot: int
    is_group: bool
    source: int
    target: int
    cause: str
    began: int
    ended: int
    began_ms: int
    ended_ms: int
    waited: int | None

    @property
    def duration_ms(self) -> int:
        """How long the call lasted, in milliseconds."""
        return max(0, self.ended_ms - self.began_ms)

    @property
    def waited_ms(self) -> int | None:
        """How long its request waited, in milliseconds, by the ticks of the call; None if that is not known."""
        if not self.waited:
            return self.waited
        ticks = self.ended - self.began
        return self.waited * (self.ended_ms - self.began_ms) // ticks if ticks > 0 else None


@dataclass(frozen=True)
class RecordedEvent:
    """A row of `events`. What its kind does not have is None."""
    number: int
    term: int
    kind: str
    carrier: int | None
    slot: int | None
    radio: int | None
    target: int | None
    channel: int | None
    reason: int | None
    reply: str | None
    tick: int
    at_ms: int


@dataclass(frozen=True)
class RecordedTerm:
    """A row of `terms`: its number, when it ended, how long its ticks were, and its counts by the names of their columns."""
    number: int
    ended_ms: int
    tick_ms: int
    last_tick: int
    counts: dict[str, int] = field(hash=False)

    @property
    def began_ms(self) -> int:
        """When the term began, in milliseconds since 1970."""
        return self.ended_ms - self.counts["ticks"] * self.tick_ms

    @property
    def started_ms(self) -> int:
        """When the controller started, in milliseconds since 1970, if its clock went evenly."""
        return self.ended_ms - self.last_tick * self.tick_ms


# The columns of `terms` that count something, and those of the other tables.
COUNTS = ("entries", "heard", "requests", "noise", "active", "polls", "ticks", "commands", "grants", "late_entries", "registrations", "refusals", "begun", "ended", "most_lines")
OF_TERMS = ("number", "ended_ms", "tick_ms", "last_tick", *COUNTS)
OF_CALLS, OF_EVENTS = (tuple(it.name for it in fields(row)) for row in (RecordedCall, RecordedEvent))


class Records:
    """A copy of a file of records. The methods raise sqlite3.Error if a page or a table is damaged; `opened_records` makes a RecordsFault of it."""

    def __init__(self, conn: sqlite3.Connection) -> None:
        self.conn = conn

    def _rows(self, table: str, columns: Sequence[str], where: Where, order: str) -> Iterator[tuple[Any, ...]]:
        """Rows of a table, with these columns."""
        condition, values = where
        yield from self.conn.execute(f"SELECT {', '.join(columns)} FROM {table} WHERE {condition} ORDER BY {order}", values)

    def calls(self, where: Where = ("1", []), last: int | None = None) -> list[RecordedCall]:
        """Calls that meet a condition, in the order in which they ended; the last ones, if `last` says how many."""
        order = "number" if last is None else f"number DESC LIMIT {last}"
        version = self.version()
        columns = [name if ADDED_IN.get(name, 1) <= version else "NULL" for name in OF_CALLS]
        rows = [RecordedCall(*row[:4], bool(row[4]), *row[5:]) for row in self._rows("calls", columns, where, order)]
        return rows if last is None else rows[::-1]

    def events(self, where: Where = ("1", []), last: int | None = None) -> list[RecordedEvent]:
        """Events that meet a condition, in the order of their times; the last ones, if `last` says how many."""
        order = "at_ms, number" if last is None else f"at_ms DESC, number DESC LIMIT {last}"
        rows = [RecordedEvent(*row) for row in self._rows("events", OF_EVENTS, where, order)]
        return rows if last is None else rows[::-1]

    def terms(self, where: Where = ("1", [])) -> list[RecordedTerm]:
        """Terms that meet a condition, in their order."""
        return [RecordedTerm(*row[:4], dict(zip(COUNTS, row[4:], strict=True))) for row in self._rows("terms", OF_TERMS, where, "number")]

    def last_term(self) -> RecordedTerm | None:
        """The newest term; None if there is none."""
        return next(iter(self.terms(("number = (SELECT max(number) FROM terms)", []))), None)

    def registrations(self) -> list[int]:
        """The radios that were registered at the end of the last term, in the order in which they joined."""
        return [row[0] for row in self.conn.execute("SELECT radio FROM registrations ORDER BY place")]

    def version(self) -> int:
        """The version of the tables; 0 if the file does not say."""
        number: int | None = self.conn.execute("SELECT max(version) FROM schema_version").fetchone()[0]
        return number or 0

    def require_version(self, path: str) -> None:
        """RecordsFault: the tables are of a later version, or are others."""
        tables = {row[0] for row in self.conn.execute("SELECT name FROM sqlite_schema WHERE type = 'table'")}
        version = self.version() if "schema_version" in tables else 0
        if version < 1 or not {"terms", "calls", "events", "registrations"} <= tables:
            raise RecordsFault(f"{path}: not a file of records")
        if version > VERSION:
            raise RecordsFault(f"{path}: its tables are of version {version}, which is newer than this program's {VERSION}")


def take_shared_lock(descriptor: int) -> None:
    """Takes the lock of SQLite's readers, which ends with the descriptor. BlockingIOError: another program writes."""
    # a writer takes PENDING first, and then waits for the readers: none comes in before it
    fcntl.lockf(descriptor, fcntl.LOCK_SH | fcntl.LOCK_NB, 1, PENDING)
    try:
        fcntl.lockf(descriptor, fcntl.LOCK_SH | fcntl.LOCK_NB, SHARED_COUNT, SHARED)
    finally:
        fcntl.lockf(descriptor, fcntl.LOCK_UN, 1, PENDING)


def wait_for_shared_lock(descriptor: int, path: str, seconds: float) -> None:
    """Takes the lock of SQLite's readers. RecordsFault: another program writes for all of these seconds; OSError: the system cannot lock the file."""
    until = time.monotonic() + seconds
    while True:
        with contextlib.suppress(BlockingIOError):
            take_shared_lock(descriptor)
            return
        if time.monotonic() >= until:
            raise RecordsFault(f"{path}: locked: another program writes it; try again")
        time.sleep(TRY_SECONDS)


def copy_locked(source: int, path: str, copy: str) -> None:
    """Copies the database of a descriptor, and its log if there is one. RecordsFault: one is not a file, or has too many octets;
    OSError: something cannot be read or written."""
    # not by the name again: to close a second descriptor of the file would end the lock
    copy_octets(source, path, copy)
    try:
        log = open_file(path + LOG)
    except FileNotFoundError:
        return
    try:
        copy_octets(log, path + LOG, copy + LOG)
    finally:
        os.close(log)


def open_file(path: str) -> int:
    """A descriptor of a file that is read. It does not wait for somebody who writes into a pipe. OSError: it cannot be opened."""
    return os.open(path, os.O_RDONLY | os.O_CLOEXEC | os.O_NONBLOCK)


def copy_octets(source: int, path: str, copy: str) -> None:
    """Copies the file of a descriptor. RecordsFault: it is not a file, or has too many octets; OSError: something cannot be read or written."""
    state = os.fstat(source)
    # a folder has a fault of its own when it is read
    if not stat.S_ISREG(state.st_mode) and not stat.S_ISDIR(state.st_mode):
        raise RecordsFault(f"{path}: not a file")
    if state.st_size > MOST_OCTETS:
        raise RecordsFault(f"{path}: more than {MOST_OCTETS} octets")
    left = state.st_size
    with open(copy, "wb") as out:
        while left > 0 and (piece := os.read(source, min(left, 1 << 20))):
            left -= out.write(piece)


def copy_records(path: str, copy: str, seconds: float) -> None:
    """Copies a file of records while no other program writes it. RecordsFault: it cannot be read, or is locked."""
    try:
        descriptor = open_file(path)
    except (OSError, ValueError) as fault:
        raise RecordsFault(f"{path}: {reason_of(fault)}") from fault
    try:
        wait_for_shared_lock(descriptor, path, seconds)
        copy_locked(descriptor, path, copy)
    except OSError as fault:
        name = fault.filename if isinstance(fault.filename, str) else path
        raise RecordsFault(f"{name}: {reason_of(fault)}") from fault
    finally:
        os.close(descriptor)


def require_database(path: str, copy: str) -> None:
    """RecordsFault: a copy is not a database. One without an octet is a file that the controller has not written yet."""
    with open(copy, "rb") as it:
        begins = it.read(len(MAGIC))
    if not begins:
        raise RecordsFault(f"{path}: it has no records yet")
    if begins != MAGIC:
        raise RecordsFault(f"{path}: not an SQLite database")


@contextlib.contextmanager
def opened_records(path: str, seconds: float = LOCK_SECONDS) -> Iterator[Records]:
    """The records of a file, as they are now. RecordsFault: it cannot be read, is locked for `seconds`, or its tables are damaged, newer or others."""
    with tempfile.TemporaryDirectory(prefix="dmr_records_") as folder:
        copy = os.path.join(folder, "site.db")
        copy_records(path, copy, seconds)
        require_database(path, copy)
        with contextlib.closing(sqlite3.connect(copy)) as conn:
            try:
                records = Records(conn)
                records.require_version(path)
                yield records
            except (sqlite3.Error, TypeError) as fault:
                raise RecordsFault(f"{path}: {fault}") from fault
