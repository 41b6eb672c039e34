"""Holds the console of a controller, and serves it to many operators, over a unix socket; shows the site in browsers, over HTTP on loopback.

    hub                          with /etc/dmr_trunk/hub.toml
    hub --config hub.toml        with this config file
    hub --records site.db        reads this file of the controller's records, whatever the config file names
    hub --names names.csv        shows the names of this file, whatever the config file names
    hub --check                  checks the config file alone

The controller serves one console connection at a time. The hub has that connection, and opens it again whenever it ends. It passes on the lines of all who are
connected to it, one question at a time; users take turns. While the controller is away, each line is answered at once with the reason. Each user and group has
a role by the config file: `read` may ask, and `full` may also change the site with {changes}. Nobody else is served, unless the file
says so.

Each command that changes the site is written to an audit log before it is sent, and again with its reply; a command that was refused is written too. If the log
cannot be written, such commands are refused. The hub sees a call only if it lasts from one poll to the next, and forgets calls and samples when it ends. If it
reads the controller's file of records, the last calls are the recorded ones, and the metrics have counters of calls, registrations and refusals. It runs until
SIGTERM or SIGINT.

Status: 0 it was stopped, or the config file is accepted; 1 the config file, a port or the audit log was at fault. Standard error says which; 2 the words.
"""
import argparse
import asyncio
import dataclasses
import os
from collections.abc import Sequence

from temzaar.cli.command import parse_words, run_command
from temzaar.console import CHANGES
from temzaar.faults import ToolFault
from temzaar.hub.config import DEFAULT_PATH, Config, load_config
from temzaar.hub.keys import ConfigFault
from temzaar.hub.notes import note
from temzaar.hub.roles import find_rules
from temzaar.hub.service import Hub
from temzaar.version import read_version


def read_words(words: Sequence[str] | None) -> argparse.Namespace:
    """The words of the command line."""
    *changes, last = (f"`{it}`" for it in CHANGES)
    about = str(__doc__).format(changes=f"{', '.join(changes)} and {last}")
    parser = argparse.ArgumentParser(description=about, formatter_class=argparse.RawDescriptionHelpFormatter)
    parser.add_argument("--config", metavar="FILE", default=DEFAULT_PATH, help=f"the config file ({DEFAULT_PATH})")
    parser.add_argument("--records", metavar="RECORDS", help="the controller's file of records, in place of that of the config file")
    parser.add_argument("--names", metavar="CSV", help="the file of names, in place of that of the config file")
    parser.add_argument("--check", action="store_true", help="check the config file, and end")
    return parse_words(parser, words)


def config_of(options: argparse.Namespace) -> Config:
    """The config of the words. ConfigFault: it cannot be read, or used."""
    config = load_config(options.config)
    if options.records is not None:
        config = dataclasses.replace(config, records=dataclasses.replace(config.records, file=os.path.abspath(options.records)))
    if options.names is not None:
        config = dataclasses.replace(config, names=dataclasses.replace(config.names, file=os.path.abspath(options.names)))
    return config


def hold_console(options: argparse.Namespace) -> int:
    """Serves until a signal comes, or checks the config file. The status. ToolFault: the config file, a port or the audit log is at fault."""
    try:
        config = config_of(options)
        rules = find_rules(config.roles)
    except ConfigFault as fault:
        raise ToolFault(f"config file: {fault}") from fault
    if options.check:
        return 0
    note(f"dmr_hub {read_version()}: config file {options.config}, site file {config.controller.site_file}")
    # SIGTERM and SIGINT end the loop, and not the process
    asyncio.run(Hub(config, rules).run())
    note("stopped")
    return 0


def main(words: Sequence[str] | None = None) -> int:
    """Runs the command. The status."""
    options = read_words(words)
    return run_command("dmr_hub", lambda: hold_console(options))
