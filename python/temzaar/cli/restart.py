"""Restarts the controller at a good moment: it checks the site file, waits for the end of a term,
restarts, waits until all is back, and says what was lost.

    restart               the site file /etc/dmr_trunk/site.toml, and the unit dmr_trunk
    restart --dry-run     checks the site file and looks at the site, and restarts nothing
    restart --now         does not wait for the end of a term
    restart --site north.toml --records /var/lib/dmr_trunk-north/site.db \\
        --hub /run/dmr_hub-north/console.sock --command "systemctl restart dmr_trunk@north"

It is for a planned stop, for example after a change of the site file. The controller that
--controller names, or else the dmr_trunk on the PATH, judges the site file. If the file is refused,
nothing is restarted. Then the console says which carriers are up, which radios are registered, and
which calls are active. If a hub of this machine holds the console, the hub is asked.

The controller writes what it has recorded, and which radios are registered, at the end of a term.
A stop loses what came since then, so just after that it loses least. The end of a term is seen as a
new row in the file of records. If no term ends in time, nothing is restarted, unless --anyway is
given: perhaps the controller cannot write its records, and a stop would lose all that wait.

At the end of a term the console is asked again, and the command runs. When the console answers, and
the carriers are up that were up before, the tool prints the calls and requests that were lost, and
for how long nothing is recorded. It also prints how long after the stop the console answered, and
which carriers and radios did not come back. Those that the new site file does not have are named
apart, and do not count.

Status: 0 all carriers and radios came back, or --dry-run found no fault; 1 nothing was restarted,
or the restart failed. Standard error says why; 2 the words; 3 a carrier or a radio did not come
back.
"""
import argparse
import shlex
import subprocess
import tempfile
import time
from collections.abc import Sequence

from temzaar.cli.check import PROGRAM, ask_controller, find_controller, read_site
from temzaar.cli.command import DONE, amount_above, command_of, new_parser, parse_words
from temzaar.console import Console
from temzaar.faults import ToolFault, reason_of
from temzaar.hubconsole import HubConsole, find_hub
from temzaar.moments import short_text
from temzaar.plannedstop import (
    Outcome, Return, Seen, look_at, lost_lines, newest_term, wait_for_term,
)
from temzaar.printable import printable
from temzaar.records import DEFAULT_PATH, RecordedTerm, RecordsFault
from temzaar.sitefigures import seconds_in_words
from temzaar.sitefile import Site

DEFAULT_SITE = "/etc/dmr_trunk/site.toml"
DEFAULT_COMMAND = f"systemctl restart {PROGRAM}"
NOT_ALL_BACK = 3
# How long the command may take. systemd waits 90 s for a unit to stop, and as long for its start.
COMMAND_SECONDS = 300
# What is repeated of what the command printed.
MOST_SAID = 200


class RestartFault(ToolFault):
    """Nothing was restarted, or the restart failed. The text says which, and why."""


class LateFault(RestartFault):
    """No term ended in time."""


def read_words(words: Sequence[str] | None) -> argparse.Namespace:
    """The words of the command line."""
    parser = new_parser(__doc__)
    parser.add_argument("--site", metavar="FILE", default=DEFAULT_SITE,
                        help=f"the site file ({DEFAULT_SITE})")
    parser.add_argument("--records", metavar="FILE", default=DEFAULT_PATH,
                        help=f"the controller's file of records ({DEFAULT_PATH})")
    parser.add_argument("--hub", help="the hub, by the path of its socket; without it the one of "
                                      "this machine that holds the console, if there is one")
    parser.add_argument("--controller", metavar="PROGRAM",
                        help="the controller that judges the site file (dmr_trunk on the PATH)")
    parser.add_argument("--command", metavar="WORDS", default=DEFAULT_COMMAND,
                        help="the command that restarts the controller, without a shell; it ends with "
                             f"status 0 when the controller was started ({DEFAULT_COMMAND})")
    parser.add_argument("--within", metavar="SECONDS", type=amount_above(0, 86400), default=600.0,
                        help="how long to wait for the end of a term (600)")
    parser.add_argument("--anyway", action="store_true",
                        help="if no term ends in time, restart all the same")
    parser.add_argument("--now", action="store_true", help="do not wait for the end of a term")
    parser.add_argument("--back", metavar="SECONDS", type=amount_above(0, 3600), default=60.0,
                        help="how long the console and the carriers may take to come back after "
                             "the command (60)")
    parser.add_argument("--dry-run", action="store_true",
                        help="check the site file, look at the site, and restart nothing")
    options = parse_words(parser, words)
    try:
        options.words = shlex.split(options.command)
    except ValueError as fault:
        parser.error(f"argument --command: {fault}: {options.command!r}")
    if not options.words:
        parser.error("argument --command: there is no word in it")
    return options


def say(line: str) -> None:
    """Prints a line, at once."""
    print(line, flush=True)


def require_accepted(options: argparse.Namespace) -> Site:
    """The site of the site file. RestartFault: the controller refuses the file, or there is no
    controller that judges it."""
    verdict = ask_controller(find_controller(options.controller, False) or PROGRAM, read_site(options.site))
    if verdict.fault is not None:
        raise RestartFault(f"{options.site}: {verdict.words}; dmr_check shows the place")
    say(f"{printable(options.site)}: {printable(verdict.words)}")
    return Site(options.site)


class Restart:
    """A restart of the controller of a site."""

    def __init__(self, options: argparse.Namespace, site: Site) -> None:
        self.options, self.site = options, site
        ranges = [range(first, last + 1) for first, last in site.plan["radios"]]
        self.carriers = frozenset(row["number"] for row in site.rows)
        self.lists = lambda radio: any(radio in it for it in ranges)

    def connect(self) -> Console:
        """A connection to the console, through the hub if there is one. ConsoleFault: there is no
        console."""
        if self.options.hub is not None:
            return HubConsole(self.options.hub)
        address, port = self.site.address, self.site.console_port
        return find_hub(f"{address}:{port}") or Console(address, port)

    def look(self) -> Seen:
        """What the site has now. The connection ends before the stop. ConsoleFault: the console
        does not answer."""
        with self.connect() as console:
            return look_at(console)

    def last_term(self) -> RecordedTerm | None:
        """The newest recorded term; None if there is none, or if it is neither known nor waited
        for. RecordsFault: it cannot be read."""
        try:
            return newest_term(self.options.records)
        except RecordsFault:
            if self.options.now:
                return None
            raise

    def wait_for_term(self, last: RecordedTerm | None) -> RecordedTerm | None:
        """Waits for the end of a term. The newest term then. LateFault: none ended in time.
        RecordsFault: the file of records cannot be read."""
        within = f"within {self.options.within:g} s"
        say(f"waiting for the end of a term, at most {self.options.within:g} s")
        began = time.monotonic()
        term = wait_for_term(self.options.records, last, self.options.within)
        if term is None and not self.options.anyway:
            raise LateFault(f"no term ended {within}")
        if term is None:
            say(f"no term ended {within}")
            return last
        say(f"term {term.number} ended, after {time.monotonic() - began:.1f} s")
        return term

    def run_command(self) -> None:
        """Runs the command. RestartFault: it cannot be run, does not end, or ends with another
        status than 0."""
        words, command = self.options.words, self.options.command
        with tempfile.TemporaryFile() as output:
            try:
                done = subprocess.run(words, stdin=subprocess.DEVNULL, stdout=output, stderr=output,
                                      timeout=COMMAND_SECONDS, check=False)
            except (OSError, ValueError) as fault:
                raise RestartFault(f"cannot run {words[0]}: {reason_of(fault)}") from fault
            except subprocess.TimeoutExpired as fault:
                raise RestartFault(f"{command} did not end within {COMMAND_SECONDS:g} s") from fault
            output.seek(0)
            text = output.read()[-MOST_SAID:].decode("utf-8", "replace")
        if done.returncode:
            last = text.strip().rpartition("\n")[2]
            said = f": {last}" if last else ""
            raise RestartFault(f"{command} ended with status {done.returncode}{said}")

    def stop_and_return(self, before: Seen, last: RecordedTerm | None) -> int:
        """Restarts, waits until all is back, and prints what was lost. The status. RestartFault:
        the restart failed."""
        began, stopped_ms = time.monotonic(), time.time_ns() // 1_000_000
        self.run_command()
        found = Return(self.look, began)
        found.wait(before.up & self.carriers, time.monotonic() + self.options.back)
        for line in lost_lines(before):
            say(line)
        if last:
            lasted = seconds_in_words(max(0, stopped_ms - last.ended_ms))
            say(f"not recorded: the {lasted} since {short_text(last.ended_ms)}")
        return self.report(before, found)

    def report(self, before: Seen, found: Return) -> int:
        """Prints what came back. The status. RestartFault: nothing did, or nothing was stopped."""
        if found.first is None or found.last is None:
            within = f"within {self.options.back:g} s"
            raise RestartFault(f"the console did not answer {within}: {found.fault}")
        if before.calls.items() & found.first.calls.items():
            # no call outlives its controller
            raise RestartFault("a call goes on that was active before: "
                               f"{self.options.command} has not restarted this controller")
        outcome = Outcome(before, found.last, self.carriers, self.lists)
        say(f"console: answered {found.seconds(found.first):.1f} s after the stop")
        for line in outcome.lines():
            say(line)
        say(f"now: {found.seconds(found.last):.1f} s after the stop")
        return NOT_ALL_BACK if outcome.missing_carriers() or outcome.missing_radios() else DONE


def restart_site(options: argparse.Namespace) -> int:
    """Does what the words say. The status. RestartFault: nothing was restarted, or the restart
    failed."""
    try:
        restart = Restart(options, require_accepted(options))
        before, last = restart.look(), restart.last_term()
        say(before.counts())
        if options.dry_run:
            waits = f"wait for the end of a term, at most {options.within:g} s, and "
            say(f"would {'' if options.now else waits}run: {printable(options.command)}")
            return DONE
        if not options.now:
            last = restart.wait_for_term(last)
            before = restart.look()
    except ToolFault as fault:
        is_of_terms = isinstance(fault, RecordsFault | LateFault)
        hint = "; with --now the end of a term is not waited for" if is_of_terms else ""
        raise RestartFault(f"nothing was restarted: {fault}{hint}") from fault
    say(f"running: {printable(options.command)}")
    return restart.stop_and_return(before, last)


main = command_of("restart", read_words, restart_site)
