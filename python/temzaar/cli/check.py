"""Checks a site file before a restart: what the controller says of it, and what is risky. With --plan it says how many carriers a site needs.

    check --plan --radios 300 --calls-an-hour 4 --seconds 12     no site file: how many carriers 300 radios need, of which each begins 4 calls of 12 s in an hour
    check site.toml                         the controller's verdict, and the warnings
    check --explain site.toml               the values too, with times in seconds
    check --controller build/dmr_trunk -    standard input, judged by this controller
    check --names names.csv site.toml       the names of radios, talkgroups and carriers too; or without the site file, these alone

The controller judges: the program that --controller names, or else the dmr_trunk on the PATH, replays an empty script over the file. It reports its first fault,
and here that has the line of its key. A warning is what the controller accepts, and an operator may not have meant: each has a name, the reason, and what to do. Keys that the
controller does not know are among them, since it ignores them. With --no-controller there are warnings alone.

With --names each line of that file that is not used is a warning, with its number. So is a name for a radio, a talkgroup or a carrier that the site file does not
have. Without the site file the names alone are checked.

A plan is computed by Erlang C, so that at most P of 100 calls wait longer than W seconds for a slot. It has the service with some carriers fewer and one more, too.

The address of the site file is compared with those of this machine. No port is opened for others, and nothing is sent.

Status: 0 the file is right, and may have warnings. With --plan a site can have as many carriers; 1 the controller refuses the file. With --plan sixteen carriers
are too few; 2 the words are wrong, the file cannot be read, or the controller cannot be run, or there is none. Standard error says which; 3 with --strict the file
has warnings.

With --json standard output is one object: `status`, `fault`, the list `warnings`, and `controller`. `fault` is null, or has the controller's `text`, `detail` and
`line`. `controller` is the program that judged, or null; `no_verdict` says why it did not. Warnings have `line`, `do` with what to do, and `table` and `carrier` if they are
of a carrier. These are null if there is none. With --explain there is also `values`, with --names also `names`: the number of names, and `warnings` with `line`.
With --plan the object has `erlang`, the offered traffic, `carriers`, the answer or null, and `services`. That has a row for each number of carriers from 1 to 16:
`carriers`, `slots`, the shares `waiting` and `too_long` from 0 to 1, and `mean_wait` in seconds. It is null if the wait is without end.
"""
import argparse
import json
import os
import shutil
import subprocess
import sys
import tempfile
from collections.abc import Sequence
from typing import BinaryIO

from temzaar.cli.command import add_names_option, command_of, new_parser, parse_words
from temzaar.cli.plan import add_plan_words, print_plan, require_plan_words
from temzaar.faults import ToolFault
from temzaar.frames import VERSIONS
from temzaar.namerisks import check_names
from temzaar.names import scan_names
from temzaar.sitefigures import Figures, explain_site
from temzaar.sitereport import REFUSAL, Report, Status, Verdict, name_lines, names_as_json, report_as_json, report_as_text, status_of_warnings
from temzaar.siterisks import Surroundings, find_risks, has_address
from temzaar.sitetext import SiteText

PROGRAM = "dmr_trunk"
STANDARD_INPUT = "-"
# What the controller says of a text that is not TOML.
NOT_TOML = "not TOML"
# A site file has some KiB.
MOST_OCTETS = 1 << 20
# What is read of the controller's output, and how long it may take.
MOST_OUTPUT, MOST_SECONDS = 1 << 16, 20


class CheckFault(ToolFault):
    """The check cannot be made. The text says why."""


def read_limited(stream: BinaryIO, name: str) -> bytes:
    """The octets of a stream. CheckFault: there are too many."""
    octets = stream.read(MOST_OCTETS + 1)
    if len(octets) > MOST_OCTETS:
        raise CheckFault(f"{name} is larger than {MOST_OCTETS >> 20} MiB: that is not a site file")
    return octets


def read_site(path: str) -> bytes:
    """The octets of the site file, or of standard input. CheckFault: it cannot be read."""
    try:
        if path == STANDARD_INPUT:
            if sys.stdin is None:
                raise CheckFault("cannot read standard input: it is closed")
            return read_limited(sys.stdin.buffer, "standard input")
        with open(path, "rb") as it:
            return read_limited(it, path)
    except OSError as error:
        raise CheckFault(f"cannot read {path}: {error.strerror}") from error
    except ValueError as error:
        raise CheckFault(f"cannot read {path!r}: {error}") from error


def find_controller(named: str | None, is_left_out: bool) -> str | None:
    """The controller that judges: the path that was named, or the one on the PATH. CheckFault: there is none, or the one that was named is not a program."""
    if is_left_out:
        return None
    if not named:
        if not shutil.which(PROGRAM):
            raise CheckFault(f"there is no {PROGRAM} on the PATH that judges the site file: name one with --controller, or do without by --no-controller")
        return PROGRAM
    # a name without a folder is looked up here first, and then on the PATH
    found = next((it for it in (named, os.path.join(os.curdir, named)) if os.sep in it and os.path.isfile(it)), named)
    if not shutil.which(found):
        raise CheckFault(f"cannot run {named}: it is not a program")
    return found


def run_controller(program: str, folder: str, octets: bytes) -> tuple[int, str, str]:
    """Replays an empty script over a site file. The status, and the beginning of the output and of standard error. CheckFault: it cannot be run."""
    site, output, errors = (os.path.join(folder, name) for name in ("site.toml", "output", "errors"))
    with open(site, "wb") as it:
        it.write(octets)
    words = [program, "--site", site, "--script", os.devnull]
    try:
        with open(output, "w+b") as out, open(errors, "w+b") as err:
            done = subprocess.run(words, stdin=subprocess.DEVNULL, stdout=out, stderr=err, timeout=MOST_SECONDS, check=False)
            out.seek(0)
            err.seek(0)
            printed, said = (it.read(MOST_OUTPUT).decode("utf-8", "replace") for it in (out, err))
    except OSError as error:
        raise CheckFault(f"cannot run {program}: {error.strerror}") from error
    except subprocess.TimeoutExpired as error:
        raise CheckFault(f"{program} did not end within {MOST_SECONDS} s") from error
    return done.returncode, printed, said


def ask_controller(program: str, octets: bytes) -> Verdict:
    """The controller's verdict. CheckFault: it gave none."""
    try:
        with tempfile.TemporaryDirectory(prefix="dmr_check") as folder:
            status, printed, said = run_controller(program, folder, octets)
    except OSError as error:
        raise CheckFault(f"cannot write a copy for {program}: {error.strerror}") from error
    if status == 0 and printed.startswith("carrier "):
        return Verdict(program, None)
    if status == 1 and said.startswith(REFUSAL):
        return Verdict(program, said.removeprefix(REFUSAL).rstrip("\n"))
    raise CheckFault(f"{program} judged nothing, status {status}: {said.strip()[:200] or 'no message'}")


def shows_colours() -> bool:
    """Whether standard output is a terminal that shows colours."""
    return sys.stdout.isatty() and not os.environ.get("NO_COLOR") and os.environ.get("TERM", "dumb") != "dumb"


def write_output(text: str) -> None:
    """Writes a report to standard output. Characters that it cannot have are replaced."""
    sys.stdout.buffer.write(text.encode("utf-8", "replace"))
    sys.stdout.flush()


def check_names_alone(options: argparse.Namespace) -> Status:
    """Checks a file of names without a site file, and prints the report. The status. NamesFault: the file cannot be read."""
    found = check_names(scan_names(options.names), None)
    status = status_of_warnings(options.strict, bool(found.risks))
    if options.json:
        write_output(json.dumps({"status": int(status), "names": names_as_json(found)}) + "\n")
    else:
        write_output("".join(f"{line}\n" for line in name_lines(found, shows_colours())))
    return status


def check_site(options: argparse.Namespace) -> Report:
    """Checks the site file that the words name. CheckFault: it cannot be read, or there is no controller that judges it."""
    names = scan_names(options.names) if options.names is not None else None
    octets = read_site(options.site)
    program = find_controller(options.controller, options.no_controller)
    site = SiteText.of(octets)
    report = Report("<stdin>" if options.site == STANDARD_INPUT else options.site, site, find_risks(site, Surroundings(has_address, options.link_version)), options.strict)
    if program:
        try:
            report.verdict = ask_controller(program, octets)
        except CheckFault as fault:
            report.silence = str(fault)
    if report.fault == NOT_TOML:
        # it is a fault, and not a risk
        report.risks = []
    if names:
        report.names = check_names(names, None if report.fault or site.fault else Figures(site.values))
    if options.explain and not site.fault:
        report.lines = list(explain_site(site.values))
    return report


def read_words(words: Sequence[str] | None) -> argparse.Namespace:
    """The words of the command line."""
    parser = new_parser(__doc__)
    parser.add_argument("site", nargs="?", metavar="SITE_FILE", help="the site file; - is standard input")
    add_names_option(parser)
    parser.add_argument("--explain", action="store_true", help="print the values as a table, with times in seconds; keys that are missing have their defaults")
    parser.add_argument("--strict", action="store_true", help="warnings count: status 3 if there are any")
    parser.add_argument("--json", action="store_true", help="print the report for machines")
    parser.add_argument("--link-version", type=int, choices=VERSIONS, help="the greatest version of the link that base stations use; warn if the site refuses it")
    parser.add_argument("--controller", metavar="PROGRAM", help="the controller that judges the file (dmr_trunk on the PATH)")
    parser.add_argument("--no-controller", action="store_true", help="print warnings alone")
    add_plan_words(parser)
    options = parse_words(parser, words)
    require_plan_words(parser, options)
    if options.site is None and options.names is None and not options.plan:
        parser.error("the following arguments are required: SITE_FILE")
    return options


def check_and_report(options: argparse.Namespace) -> int:
    """Checks the files that the words name, or plans, and prints the report. The status. CheckFault: the check cannot be made, or the controller gave no verdict."""
    if options.plan:
        return print_plan(options)
    if options.site is None:
        return check_names_alone(options)
    report = check_site(options)
    write_output(report_as_json(report) if options.json else report_as_text(report, shows_colours()))
    if report.silence:
        raise CheckFault(report.silence)
    return report.status()


main = command_of("check", read_words, check_and_report, Status.NOT_CHECKED)
