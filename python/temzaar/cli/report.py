"""Says how busy a site was, by the controller's records: a page for people, or text, CSV or JSON.

    report                                          yesterday, as text
    report --from 2026-11-23 --to 2026-11-29 --out week.html      a page, which browsers show and print
    report --site site.toml --names names.csv --out day.html      with occupancy, and with names
    report --slots 7 --limit 10 --format csv        for a spreadsheet

It has the traffic of each hour in Erlang, and the busy hour. It says for how long calls waited, and
which share for longer than a limit. Then come refused requests by their reason, the ten busiest
talkgroups and radios, and radios that were registered and never called. Last are the times for which
carriers were lost, or nothing was recorded, and operators' commands. If it knows the number of slots
for calls, it also has their occupancy, and what one slot fewer, one more and two more would change,
by Erlang C.

--from and --to take times of the machine's zone, as `callbook` does: 2026-11-27, 2026-11-27 08:00,
08:00, which is today, and -2h. Without both the report is that of yesterday, and with a day as
--from alone that of the day. After a time as --from alone it ends now, and with --to alone it
begins with the day of --to.

CSV has a row for each value: the section, the number of the row in it, what the row is about, the
measure, the value and its unit. JSON has the same rows. What is not known has no value.

The tool copies the file while it has SQLite's lock of readers, asks no other machine, and needs the
right to read the file. The page is one file of mode 0640. It replaces another one as a whole.

Status: 0 the report was printed or written; 1 a file cannot be read or written, is locked, or is
not what it should be, or a time is wrong. Standard error has the reason; 2 the words.
"""
import argparse
import sys
from collections.abc import Sequence
from datetime import UTC, datetime, timedelta

from temzaar.cli.command import (
    DONE, add_names_option, amount_above, command_of, count_of, names_of_words, new_parser,
    parse_words,
)
from temzaar.faults import replace_text
from temzaar.moments import (
    DAY, MomentFault, Span, join_times, milliseconds_of, read_moment, short_text,
)
from temzaar.records import DEFAULT_PATH, LOCK_SECONDS, opened_records
from temzaar.recordsheet import FORMATS, TABLE_FORMAT
from temzaar.report import Asked, make_report, write_report
from temzaar.reportpage import write_page
from temzaar.sitefile import read_plan
from temzaar.traffic import SlotKey, read_traffic

NAME = "report"
# Seconds that a call may wait, if no limit is named.
USUAL_LIMIT = 5.0
MOST_SLOTS, MOST_DAYS = 31, 366
# The owner writes a page, and the group reads it.
MODE = 0o640


def read_words(words: Sequence[str] | None) -> argparse.Namespace:
    """The words of the command line."""
    parser = new_parser(__doc__)
    parser.add_argument("--records", metavar="FILE", default=DEFAULT_PATH,
                        help=f"the controller's file of records, or a month's ({DEFAULT_PATH})")
    parser.add_argument("--from", dest="first", metavar="FROM", help="when the period begins")
    parser.add_argument("--to", dest="last_time", metavar="TO", help="when it ends")
    parser.add_argument("--limit", metavar="SECONDS", type=amount_above(0, 3600),
                        default=USUAL_LIMIT,
                        help="the wait of which the share of longer ones is given "
                             f"({USUAL_LIMIT:g})")
    plan = parser.add_mutually_exclusive_group()
    plan.add_argument("--slots", metavar="N", type=count_of(1, MOST_SLOTS),
                      help="how many slots the site has for calls")
    plan.add_argument("--site", help="the site file, whose slots for calls are counted")
    add_names_option(parser)
    what = parser.add_mutually_exclusive_group()
    what.add_argument("--out", metavar="FILE", help="write the page into this file, as HTML")
    what.add_argument("--format", choices=FORMATS, default=TABLE_FORMAT,
                      help="what is printed (table)")
    parser.add_argument("--seconds", type=amount_above(0, 600), default=LOCK_SECONDS,
                        help="how long to wait while the controller writes the file "
                             f"({LOCK_SECONDS:g})")
    return parse_words(parser, join_times(words))


def read_span(first: str | None, last: str | None, now: datetime) -> Span:
    """The period that the words name. MomentFault: a word is not a time, or it ends before it
    begins, or is too long."""
    if first is None and last is None:
        first = last = str(now.astimezone().date() - timedelta(days=1))
    begins = None if first is None else read_moment(first, now)
    ends = None if last is None else end_of(last, now)
    if ends is None:
        ends = end_of(first, now) if first and DAY.fullmatch(first) else milliseconds_of(now)
    if begins is None:
        begins = read_moment(short_text(ends - 1)[:10], now)
    if not begins < ends:
        raise MomentFault(f"--from is {short_text(begins)}, and --to is {short_text(ends)}, which "
                          "is not later")
    if ends - begins > MOST_DAYS * 86_400_000:
        raise MomentFault(f"a report has at most {MOST_DAYS} days")
    return Span(begins, ends)


def end_of(text: str, now: datetime) -> int:
    """The end of a period. The last millisecond of a day belongs to it. MomentFault: it is not a
    time."""
    ends = read_moment(text, now, is_end=True)
    return ends + (ends % 1000 == 999)


def slots_of(site: str) -> tuple[SlotKey, ...]:
    """The slots for calls of a site file: all but the control slot. SiteFault: it cannot be used."""
    plan = read_plan(site, ("carrier", "control"))
    numbers = sorted(row["number"] for row in plan["carrier"])
    slots = ((number, slot) for number in numbers for slot in (0, 1))
    return tuple(it for it in slots if it != (plan["control"], 0))


def report_traffic(options: argparse.Namespace) -> int:
    """Prints or writes what the words ask for. The status. ToolFault: a file or a time is at
    fault."""
    now = datetime.now(UTC)
    keys = slots_of(options.site) if options.site else ()
    asked = Asked(read_span(options.first, options.last_time, now), options.limit,
                  options.slots or len(keys) or None, keys, names_of_words(NAME, options))
    with opened_records(options.records, options.seconds) as records:
        traffic = read_traffic(records, asked.span, options.records)
    report = make_report(traffic, asked)
    if options.out:
        replace_text(options.out, write_page(report, options.records, now), MODE)
    else:
        sys.stdout.write(write_report(report, options.format))
    return DONE


main = command_of(NAME, read_words, report_traffic)
