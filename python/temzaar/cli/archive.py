"""Copies what the controller has recorded into a file for each month, and removes what is too old.

    archive                        /var/lib/dmr_trunk/site.db, into the folder /var/lib/dmr_archive
    archive --records site.db --folder old      this file, into this folder
    archive --keep-days 90         removes from the months' files what is older than 90 days
    archive --older-days 7         copies only what is older than a week

The controller keeps the newest 100,000 calls, events and terms, and removes older ones. A month's
file, such as 2026-11.db, has the same tables, so `callbook --records 2026-11.db` and the other
tools read it. Its table of registrations is empty, since that says who is registered now. Months
are those of UTC, and a day has 24 hours. A call is in the file of the month in which it began, an
event in that in which it happened, and a term in that in which it ended.

A run copies what is not there yet, so it may be repeated at any time. Each file changes in one
transaction: if a run is interrupted, or the disk is full, the next run does the rest. One run at a
time changes a folder. The controller's file is copied while the tool has SQLite's lock of readers,
and is not changed. If the controller has removed rows that were never copied, standard error says
how many.

The controller numbers its rows. If its file was made again, the numbers begin at 1, and rows of the
same month go into a second file, such as 2026-11.2.db. So they do if a new version of the
controller has other tables.

Status: 0 the rows were copied and removed; 1 the folder is not there or in use, or a file cannot be
read or written. Standard error has the reason, and other files were done; 2 the words.
"""
import argparse
import contextlib
import time
from collections.abc import Callable, Sequence

from temzaar.archive import (
    DAY_MS, DEFAULT_FOLDER, Archive, Change, month_span, months_of, rows_in_words,
)
from temzaar.cli.command import (
    DONE, FAULT, amount_above, command_of, count_of, new_parser, parse_words, print_note,
)
from temzaar.moments import Span
from temzaar.records import DEFAULT_PATH, LOCK_SECONDS, Records, RecordsFault, opened_records

NAME = "archive"
MOST_DAYS = 36500
# The beginning of all times.
EVER = -1 << 63


def read_words(words: Sequence[str] | None) -> argparse.Namespace:
    """The words of the command line."""
    parser = new_parser(__doc__)
    parser.add_argument("--records", metavar="FILE", default=DEFAULT_PATH,
                        help=f"the controller's file of records ({DEFAULT_PATH})")
    parser.add_argument("--folder", default=DEFAULT_FOLDER,
                        help="the folder of the months' files, which has to exist; their mode is "
                             f"0640 ({DEFAULT_FOLDER})")
    parser.add_argument("--older-days", metavar="N", type=count_of(0, MOST_DAYS), default=0,
                        help="copy what is older than N days (0)")
    parser.add_argument("--keep-days", metavar="M", type=count_of(1, MOST_DAYS),
                        help="remove from the months' files what is older than M days, and "
                             "overwrite it; without it, nothing. A file without rows is removed "
                             "too, and the controller's file keeps its rows")
    parser.add_argument("--seconds", type=amount_above(0, 600), default=LOCK_SECONDS,
                        help="how long to wait while the controller writes the file "
                             f"({LOCK_SECONDS:g})")
    options = parse_words(parser, words)
    if options.keep_days is not None and options.keep_days <= options.older_days:
        parser.error("--keep-days has to be greater than --older-days")
    return options


class Run:
    """A run. What was done is printed, and a fault of one file does not stop the others."""

    def __init__(self, archive: Archive, now_ms: int, options: argparse.Namespace) -> None:
        self.archive, self.status, self.is_quiet = archive, DONE, True
        keeps = options.keep_days is not None
        self.kept_ms = now_ms - options.keep_days * DAY_MS if keeps else None
        # what is copied: not what would be removed again
        first = EVER if self.kept_ms is None else self.kept_ms
        self.span = Span(first, now_ms - options.older_days * DAY_MS)

    def attempt(self, action: Callable[[], Change | None]) -> None:
        """Does something to a file, and prints what, or the fault."""
        try:
            change = action()
        except RecordsFault as fault:
            self.fail(fault)
            return
        if change:
            self.is_quiet = False
            print(change.in_words(), flush=True)

    def fail(self, fault: RecordsFault) -> None:
        """Prints a fault, and goes on."""
        print_note(NAME, str(fault))
        self.status = FAULT

    def copy(self, records: Records) -> None:
        """Copies the months of the controller's file."""
        self.note_missed(records)
        for month in months_of(records, self.span):
            begins, ends = month_span(month)
            span = Span(max(begins, self.span.first), min(ends, self.span.end))
            self.attempt(lambda: self.archive.add(records, month, span))

    def note_missed(self, records: Records) -> None:
        """Notes rows that were never copied, unless a file is at fault, which is noted later."""
        with contextlib.suppress(RecordsFault):
            for table, count in self.archive.missed_rows(records).items():
                rows = rows_in_words({table: count})
                print_note(NAME, f"missed: {rows}, which the controller removed before they were "
                                 "copied; run this more often")

    def remove_old(self, before_ms: int) -> None:
        """Removes what is too old to keep."""
        for file in self.archive.files():
            self.attempt(lambda: self.archive.remove(file, before_ms))


def archive_records(options: argparse.Namespace) -> int:
    """Does what the words say. The status. RecordsFault: the folder is at fault."""
    with contextlib.closing(Archive(options.folder)) as archive:
        run = Run(archive, time.time_ns() // 1_000_000, options)
        try:
            with opened_records(options.records, options.seconds) as records:
                run.copy(records)
        except RecordsFault as fault:
            run.fail(fault)
        # what is too old is removed whatever became of the rest
        if run.kept_ms is not None:
            run.remove_old(run.kept_ms)
        if run.is_quiet and run.status == DONE:
            print("nothing to do")
        return run.status


main = command_of(NAME, read_words, archive_records)
