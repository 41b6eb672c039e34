"""Draws a replayed script, a recorded session or a period of the controller's records as an SVG: slots as rows, calls as bars. Or lists a script's calls.

    timeline --site site.toml --script incident.txt --program build/dmr_trunk --out incident.svg
    timeline --site site.toml --script incident.txt --printed incident.out --out incident.svg
    timeline .. --from 10:15:00 --to 10:17:30 --out part.svg        a part of it
    timeline .. --page 5 --out incident.svg                         pages of five minutes: incident-001.svg, incident-002.svg, ..
    timeline .. --calls csv --out calls.csv                         the calls, one to a line
    timeline --records site.db --from 08:00 --to 09:00 --out morning.svg    this hour of today, from the controller's file of records

--printed is what `dmr_trunk --site site.toml --script incident.txt` printed; with --program the tool runs that itself. The calls are those of the site's own
journal, which `dmr_decode` reads from the script: the one next to PROGRAM, or on the PATH, or that of --decoder. A call's bar goes from its beginning to its
end in the journal. Marks:

- a grant: a triangle that points up, on the control slot; light if it is late, hollow if its call has ended
- a clear: a triangle that points down
- acknowledgements, and bursts that were received
- polls, on the rows' lower edges
- an operator's lines, on a row of their own

A legend below the rows has them all. Point at a mark to read what it is. Ticks are drawn to one scale; what comes within a tick is spread out, in its order.
With --start clock times are above the ticks. Then --from and --to take
them: HH:MM:SS, with a date YYYY-MM-DDTHH:MM:SS. A time of day before that of the start is one of the next day.

The list of calls has for each when it began and ended, its carrier and slot, its kind, source and target. It also has how long the call waited for a slot, and
why it ended. Times are ticks, and clock times if the start is known.

With --records there is no script. The picture has what the records have: calls, carriers that come up and are lost, registrations and refusals in a row
`radios`, and operators' commands. Grants, P_CLEARs, bursts and polls are not recorded. Time is drawn to one scale, with marks at round times, and a time without
records is hatched. The site file is optional: it has the carriers that no record names, and
which slot is the control slot. --from and --to are times then: 2026-11-27, 2026-11-27 08:00, 08:00 (today), or -2h (also s, m and d). Without them it is
all of the file. `callbook` lists the calls of records.

With --names a name is next to its number: in what marks and bars say, and in the table of calls. In CSV and JSON they are source_name, target_name and
carrier_name, after the other columns.

Status: 0 the picture was drawn, or the list written; 1 a file or the program was at fault. Or the replay sent nothing, or script and output do not belong
together: standard error says which; 2 the words.
"""
import argparse
import os
import shutil
import sys
from collections.abc import Sequence
from typing import Any

from temzaar.callsheet import FORMATS, calls_in, write_list
from temzaar.cli.command import add_names_option, amount_above, command_of, names_of_words, new_parser, parse_words
from temzaar.clock import Clock, Window
from temzaar.drawing import Drawing, Session
from temzaar.entries import calls_of
from temzaar.faults import read_text, write_text
from temzaar.moments import join_times
from temzaar.names import NO_NAMES, Names
from temzaar.process import journal_of, replay
from temzaar.recordsession import read_period, session_of, window_of
from temzaar.script import Replay, SessionFault, read_printed, read_script
from temzaar.sitefile import read_plan

DECODER = "dmr_decode"


def read_session(plan: dict[str, Any], script: str, printed: str, start: str | None = None) -> Session:
    """A script and what its replay printed, as a session without calls. SessionFault: they do not belong together, or nothing was printed."""
    inputs = read_script(script)
    carriers, told = read_printed(printed)
    for row in plan["carrier"]:
        if row["number"] not in carriers:
            raise SessionFault(f"the output has no line for carrier {row['number']}: it is not that of a replay over this site file")
    if not told and not any(carriers.values()):
        raise SessionFault("the replay of the script sent nothing, to no carrier and to no operator: there is nothing to draw")
    clock = Clock(plan["tick_ms"], start)
    return Session(plan, inputs, Replay(inputs, carriers).events, clock, [])


def find_decoder(options: argparse.Namespace) -> str:
    """The decoder that reads the journal: that of the words, or the one next to the controller that they name, or on the PATH. SessionFault: there is none."""
    if options.decoder:
        return str(options.decoder)
    beside = os.path.join(os.path.dirname(options.program or ""), DECODER)
    found = beside if os.sep in beside and os.path.isfile(beside) else shutil.which(DECODER)
    if not found:
        raise SessionFault(f"there is no {DECODER} on the PATH, which reads the calls of a script: name one with --decoder")
    return found


def read_files(options: argparse.Namespace) -> Session:
    """The session of the files that the words name."""
    plan, script = read_plan(options.site), read_text(options.script)
    printed = replay(options.program, options.site, script) if options.program else read_text(options.printed)
    session = read_session(plan, script, printed, options.start)
    session.calls = calls_of(journal_of(find_decoder(options), options.site, script), plan["hang"])
    return session


def write_output(options: argparse.Namespace, text: str) -> None:
    """Writes a text to the file that the words name, or to standard output."""
    if options.out:
        write_text(options.out, text)
    else:
        sys.stdout.write(text)


def draw_pages(options: argparse.Namespace, session: Session, window: Window) -> None:
    """Draws the window in pages, each a file, and prints a line for each."""
    name, extension = os.path.splitext(options.out)
    for number, page in enumerate(window.pages(session.clock.ticks_of_minutes(options.page)), 1):
        path = f"{name}-{number:03}{extension}"
        write_text(path, Drawing(session, page).draw())
        print(f"{path}: {page_in_words(session, page.first, page.end - 1)}")


def page_in_words(session: Session, first: int, last: int) -> str:
    """The ticks of a page, and their clock times if they are known; the times alone if the ticks are not the site's."""
    times = f"{session.clock.time_of_day(first)} to {session.clock.time_of_day(last)}" if session.clock.start else ""
    if not session.has_ticks:
        return times
    return f"ticks {first} to {last} ({times})" if times else f"ticks {first} to {last}"


def read_what_is_drawn(options: argparse.Namespace, names: Names) -> tuple[Session, Window]:
    """The session and the window that the words name, and names for it."""
    if options.records:
        period = read_period(options.records, options.first, options.last)
        session = session_of(period, read_plan(options.site) if options.site else None, names)
        return session, window_of(session)
    session = read_files(options)
    session.names = names
    return session, session.clock.window(options.first, options.last, session.ticks)


def draw_files(options: argparse.Namespace) -> int:
    """Draws, or lists, what the words name. The status."""
    names = names_of_words("timeline", options)
    session, window = read_what_is_drawn(options, names or NO_NAMES)
    if options.calls:
        write_output(options, write_list(calls_in(session.calls, window), session.clock, options.calls, names))
    elif options.page:
        draw_pages(options, session, window)
    else:
        write_output(options, Drawing(session, window).draw())
    return 0


def read_words(words: Sequence[str] | None) -> argparse.Namespace:
    """The words of the command line."""
    parser = new_parser(__doc__)
    parser.add_argument("--site", help="the site file; optional with --records")
    parser.add_argument("--script", help="the script")
    which = parser.add_mutually_exclusive_group(required=True)
    which.add_argument("--printed", help="what the replay of the script printed")
    which.add_argument("--program", help="the controller that is to replay the script")
    parser.add_argument("--decoder", metavar="PROGRAM", help="the dmr_decode that reads the calls of the script")
    which.add_argument("--records", metavar="FILE", help="the controller's file of records, in place of a script")
    parser.add_argument("--out", help="the SVG, or the list; without it, standard output")
    parser.add_argument("--start", help="the clock time of tick 0: HH:MM:SS, or YYYY-MM-DDTHH:MM:SS (that which a recorded script has)")
    parser.add_argument("--from", dest="first", metavar="FROM", help="draw or list from this tick, or time, on")
    parser.add_argument("--to", dest="last", metavar="TO", help="draw or list up to this tick, or time")
    parser.add_argument("--page", type=amount_above(0, 1e6), metavar="MINUTES", help="draw pages of so many minutes, each into a file of its own, such as incident-001.svg of incident.svg; a line for each goes to standard output")
    parser.add_argument("--calls", nargs="?", const="text", choices=FORMATS, help="list the calls, as text without a word after it, instead of drawing")
    add_names_option(parser)
    options = parse_words(parser, join_times(words))
    check_words(parser, options)
    return options


def check_words(parser: argparse.ArgumentParser, options: argparse.Namespace) -> None:
    """Ends the command if words are missing, or do not belong together."""
    if options.records and (options.script or options.start or options.calls or options.decoder):
        parser.error("--records has no script, no --start, no --decoder and no --calls: callbook lists the calls of records")
    if not options.records and not (options.site and options.script):
        parser.error("the following arguments are required: --site, --script")
    if options.page and options.calls:
        parser.error("--page draws, and --calls lists: give one of them")
    if options.page and not options.out:
        parser.error("--page needs --out, after which its files are named")


main = command_of("timeline", read_words, draw_files)
