"""Plays the carriers of a site, and the radios that they hear, against a controller that serves it over TCP; checks what comes back.

    carriers --site site.toml                               against a controller that runs, on the ports of the site file
    carriers --site site.toml --program build/dmr_trunk     starts the controller, on loopback, and stops it again

Each carrier sends HELLO and then polls, every 60 ms as on the air (--fast: as soon as the last poll is answered). Radios register, call talkgroups
and one another, answer when they are called, and talk for a while; up to three bits of each burst are flipped. Carriers speak the greatest version
of the link that the site file serves (--link-version: another one). In version 2 they retransmit one RX in ten.

The tool checks that

- every burst received is a codeword with its check, in version 2 with the next number,
- each registration is acknowledged, and no more often than a radio asked for it,
- the backoff follows the noise that was sent,
- no slot is granted to a call while another call holds it,
- each poll is answered.

It prints counts, how long the answer to a poll took, and the controller's share of one processor. Late grants, also
late entries, are counted apart from grants that begin a call. A radio that receives one listens. A grant may wait until its call has ended and
been cleared: that is not a fault, and it is counted too.

With --program and --faults things go wrong all the time, except at the beginning and at the end. Connections break off within frames; carriers stop
reading, fall silent, or send no frames; the controller is stopped and continued, and kept short of descriptors and memory. Lost polls are counted by
reason. No others may be lost, and in the end everybody is served.

Use it before a site goes into service, not on a site in use: the controller takes its radios for real ones.

Status: 0 all checks passed; 1 a check failed, or the controller did not listen or ended; 2 the words.
"""
import argparse
import contextlib
import sys
from collections.abc import Sequence

from temzaar.cli.command import amount_above, command_of, count_of, new_parser, parse_words, report_fault
from temzaar.faults import ToolFault
from temzaar.frames import VERSIONS
from temzaar.player import Play
from temzaar.process import Controller, Process
from temzaar.script import SessionFault
from temzaar.sitefile import FREE_PORTS, Site
from temzaar.trouble import TroubledPlay


def read_words(words: Sequence[str] | None) -> argparse.Namespace:
    """The words of the command line."""
    parser = new_parser(__doc__)
    parser.add_argument("--site", required=True, help="the site file")
    parser.add_argument("--program", help="start this controller, on loopback, and stop it again")
    parser.add_argument("--pid", type=count_of(1, 1 << 22), help="the process of a controller that runs, to print its share of a processor")
    parser.add_argument("--port", type=count_of(1, 65535 - 16), default=FREE_PORTS, help="with --program: the console's port; the carriers' follow (ports that are free)")
    parser.add_argument("--carriers", type=count_of(1, 16), default=16, help="how many of the site's carriers (16)")
    parser.add_argument("--link-version", type=int, choices=VERSIONS, help="the version of the link that carriers speak (the greatest that the site file serves)")
    parser.add_argument("--radios", type=count_of(1, 4096), default=64, help="how many radios (64)")
    parser.add_argument("--seconds", type=amount_above(0), default=30, help="for how long carriers poll (30)")
    parser.add_argument("--polls", type=count_of(0, 1 << 40), default=0, help="end after this many polls; 0: no such end")
    parser.add_argument("--fast", action="store_true", help="poll as soon as the last poll is answered")
    parser.add_argument("--seed", type=int, default=1, help="of what radios do at random; with the same seed they draw the same (1)")
    parser.add_argument("--faults", action="store_true", help="with --program: let things go wrong")
    parser.add_argument("--troubles", type=amount_above(0, 1000), default=2.0, help="with --faults: how many things go wrong in a second (2)")
    options = parse_words(parser, words)
    if options.faults and not options.program:
        parser.error("--faults needs --program")
    changes = {"term_entries": 5000} if options.faults else {}
    try:
        options.served = Site(options.site, options.carriers, options.port if options.program else None, **changes)
    except ToolFault as fault:
        sys.exit(report_fault("carriers", str(fault)))
    if (options.link_version or 0) > options.served.link_version:
        parser.error(f"--link-version: the site file serves versions up to {options.served.link_version}")
    return options


def play_site(options: argparse.Namespace, controller: Controller | None) -> int:
    """Plays, and prints how it went. The status."""
    play = TroubledPlay(options.served, options, controller) if options.faults and controller else Play(options.served, options)
    if controller and not controller.wait_for("console: listening"):
        print("FAULT: the controller does not listen:", *controller.notes, sep="\n")
        return 1
    process = controller or (Process(options.pid) if options.pid else None)
    before = process.seconds() if process else 0
    try:
        seconds = play.run()
    except OSError as fault:
        raise SessionFault(f"the play broke off: {fault.strerror or fault}") from fault
    share = (process.seconds() - before) / seconds if process else None
    in_order = play.report(seconds, share)
    if isinstance(play, TroubledPlay):
        play.print_ends()
    if controller and not controller.runs():
        print("FAULT: the controller ended:", *controller.notes[-3:], sep="\n")
        return 1
    return 0 if in_order else 1


def play_with_controller(options: argparse.Namespace) -> int:
    """Plays, with a controller that is started if the words say so, and stopped after success and failure alike. The status."""
    started = Controller(options.program, options.served) if options.program else None
    with started or contextlib.nullcontext() as controller:
        return play_site(options, controller)


main = command_of("carriers", read_words, play_with_controller)
