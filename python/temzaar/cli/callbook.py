"""Prints the calls that the controller has recorded: when each began, how long it was and had waited, its slot, who called whom, why it ended, and who joined.

    callbook                                       all calls of /var/lib/dmr_trunk/site.db, newest last
    callbook --records site.db --last 20           the last twenty of this file
    callbook --radio 1001 --from 08:00             those that radio 1001 made or received today, since 08:00
    callbook --group 91 --from -2h --format csv    those to talkgroup 91 of the last two hours, as CSV
    callbook --names names.csv                     with the names of radios, talkgroups and carriers

--from and --to take times of the machine's zone: 2026-11-27 (as --to: to the end of that day), 2026-11-27 08:00, and 08:00, which is today. -2h is two hours
ago; s, m and d are seconds, minutes and days. A call is printed if all options fit it, and if it was active at some time between them.

The newest call is the last. The table has times of the machine's zone; CSV and JSON have them as ISO 8601, with milliseconds and the zone's offset. A slot of
the table is the carrier's number and the slot's. A kind is talkgroup or individual. For how long a request waited for a slot is in seconds, as waited, or
waited_seconds in CSV and JSON. Radios that asked for a talkgroup's call while it lasted have joined it. Both are empty, and null in JSON, of calls that a
controller recorded before it kept them.

Below the calls are the times without records, and up to when the records go. The controller writes the file at the end of each term, so calls of the term that
runs are not in it yet. As CSV and JSON the calls go to standard output alone, and these lines to standard error.

With --names a name is next to its number: in the table 1001 [Bus 12], in CSV and JSON as source_name, target_name, carrier_name and joined_names after the
other columns.

The tool copies the file while it has SQLite's lock of readers, and writes nothing next to it. It needs the right to read the file, as root or the
controller's user has it.

Status: 0 the calls were printed; 1 a file cannot be read, is locked, or is not one of records or of names, or a time is wrong. Standard
error has the reason; 2 the words.
"""
import argparse
import sys
from collections.abc import Sequence
from datetime import UTC, datetime

from temzaar.cli.command import add_names_option, amount_above, command_of, count_of, names_of_words, new_parser, parse_words, print_note
from temzaar.moments import join_times, read_moment
from temzaar.recordgaps import find_gaps, gaps_within
from temzaar.records import CAUSES, DEFAULT_PATH, LOCK_SECONDS, opened_records
from temzaar.recordsheet import FORMATS, TABLE_FORMAT, CallQuery, lines_below, who_joined, write_sheet

MOST_ADDRESS = (1 << 24) - 1
MOST_CALLS = 1_000_000


def read_words(words: Sequence[str] | None) -> argparse.Namespace:
    """The words of the command line."""
    parser = new_parser(__doc__)
    parser.add_argument("--records", metavar="FILE", default=DEFAULT_PATH, help=f"the controller's file of records ({DEFAULT_PATH})")
    parser.add_argument("--format", choices=FORMATS, default=TABLE_FORMAT,
                        help="what is printed (table)")
    parser.add_argument("--radio", type=count_of(1, MOST_ADDRESS), help="calls that this radio began, and calls to it")
    parser.add_argument("--group", type=count_of(1, MOST_ADDRESS), help="calls to this talkgroup")
    parser.add_argument("--carrier", type=count_of(0, 15), help="calls on this carrier")
    parser.add_argument("--cause", choices=CAUSES, help="calls that ended for this cause")
    parser.add_argument("--from", dest="first", metavar="FROM", help="calls that were active at this time, or later")
    parser.add_argument("--to", dest="last_time", metavar="TO", help="calls that were active at this time, or earlier")
    parser.add_argument("--last", type=count_of(1, MOST_CALLS), metavar="N", help="the newest N of them")
    add_names_option(parser)
    parser.add_argument("--seconds", type=amount_above(0, 600), default=LOCK_SECONDS, help=f"how long to wait while the controller writes the file ({LOCK_SECONDS:g})")
    return parse_words(parser, join_times(words))


def query_of(options: argparse.Namespace) -> CallQuery:
    """The calls that the words ask for. MomentFault: a time is none."""
    now = datetime.now(UTC)
    first = None if options.first is None else read_moment(options.first, now)
    last = None if options.last_time is None else read_moment(options.last_time, now, is_end=True)
    return CallQuery(options.radio, options.group, options.carrier, options.cause, first, last)


def print_calls(options: argparse.Namespace) -> int:
    """Prints what the words ask for. The status. ToolFault: the file or a time is at fault."""
    query, names = query_of(options), names_of_words("callbook", options)
    with opened_records(options.records, options.seconds) as records:
        calls, gaps, last = records.calls(query.where(), options.last), find_gaps(records), records.last_term()
        joined = who_joined(records, calls)
    # of the newest calls alone, the gaps since the first of them
    first = query.from_ms if options.last is None or not calls else calls[0].began_ms
    below = lines_below(gaps_within(gaps, first, query.to_ms), last.ended_ms if last else None)
    sys.stdout.write(write_sheet(calls, joined, options.format, names))
    for line in below:
        if options.format == TABLE_FORMAT:
            print(line)
        else:
            print_note("callbook", line)
    return 0


main = command_of("callbook", read_words, print_calls)
