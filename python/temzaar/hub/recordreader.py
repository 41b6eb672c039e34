"""Looks at the controller's file of records every few seconds, in a thread, so that nothing of the hub waits for the file."""
import contextlib
import os
import re
import sqlite3
import time
from collections.abc import Callable

from temzaar.faults import ToolFault
from temzaar.hub.config import RecordsKeys
from temzaar.hub.moment import Moment
from temzaar.hub.newrecords import NewRecords, Signature, read_new, signature
from temzaar.hub.notes import note, warn
from temzaar.hub.recordcounts import RecordCounts, RecordedLog
from temzaar.hub.samples import Samples, count_spans
from temzaar.hub.termwatch import TermWatch
from temzaar.hub.worker import Late, Worker
from temzaar.records import RecordedTerm
from temzaar.siteevents import SiteEvent

# Seconds that a look may take: a file of 256 MiB on a slow disk is read within them.
LOOK_SECONDS = 60.0
# The file that the controller locks, next to its records, and the one line that it writes there (docs/RECORDS.md).
LOCK = "site.lock"
LINE = re.compile(rb"dmr_trunk ([\w.+~-]{1,64})\n")


def read_controller_version(records: str) -> str | None:
    """The version of the controller that last used the folder of a file of records; None if it is not known."""
    path = os.path.join(os.path.dirname(records), LOCK)
    with contextlib.suppress(OSError):
        # nothing waits for a pipe that has the file's name, and no link is followed
        with open(os.open(path, os.O_RDONLY | os.O_NONBLOCK | os.O_NOFOLLOW), "rb") as it:
            found = LINE.fullmatch(it.read(100))
            return found[1].decode("ascii") if found else None
    return None


class RecordReader:
    """The file's new rows, as counters, calls, counts of the last hour and day, and events, which `on_events` takes. `figures` are the samples of the hub's pictures: those
    without a picture are filled from the records, as far as these go."""

    def __init__(self, keys: RecordsKeys, figures: Samples | None = None, on_events: Callable[[list[SiteEvent]], None] = lambda _: None) -> None:
        self.keys, self.worker = keys, Worker("records", LOOK_SECONDS)
        self.figures, self.on_events = figures or Samples(), on_events
        self.counts, self.log, self.samples = RecordCounts(), RecordedLog(), count_spans()
        self.watch = TermWatch()
        self.last: RecordedTerm | None = None
        # the controller's version, if it is known
        self.version: str | None = None
        # the file at the last look that succeeded, and the fault of the last look
        self.known: Signature | None = None
        self.fault: str | None = ""

    async def look(self) -> None:
        """Takes what is new, all of it or nothing. If the file cannot be read now, the next look tries again."""
        try:
            self.version = await self.worker.do(lambda: read_controller_version(self.keys.file))
            found = await self.worker.do(self._read)
        except Late as fault:
            self._fail(f"{self.keys.file}: {fault}")
            return
        except (ToolFault, OSError, sqlite3.Error, ValueError, TypeError, ArithmeticError, MemoryError) as fault:
            self._fail(str(fault) or type(fault).__name__)
            return
        self._report(None)
        happened, now = found[1].happened if found else {}, time.time()
        for name, span in self.samples.items():
            span.add(happened.get(name, ()), now)
        if found is not None:
            self.known, new = found
            if new.last and new.terms:
                self.watch.take_term(new.last)
            self.last = new.last
            self.counts.take(new)
            self.log.take(new)
            self.figures.refill("slots_in_use", new.used, Moment.now())
            self.on_events(new.events)

    def _fail(self, fault: str) -> None:
        """Counts and notes a look that failed."""
        self.counts.faults.add()
        self._report(fault)

    def _read(self) -> tuple[Signature, NewRecords] | None:
        """What is new, and the file as it was before it was read; None if it has not changed. It runs in a thread, and changes nothing."""
        before = signature(self.keys.file)
        if before == self.known:
            return None
        return before, read_new(self.keys.file, self.last)

    def _report(self, fault: str | None) -> None:
        """Notes that the file can be read, or why not, if that has changed."""
        if fault == self.fault:
            return
        self.fault = fault
        if fault is None:
            note(f"records: reading {self.keys.file}")
        else:
            warn(f"records: {fault}")
