"""The words of `check --plan`, and what it prints."""
import argparse
import json
from collections.abc import Callable

from temzaar.cli.command import DONE, FAULT, amount_above, count_of
from temzaar.erlang import Demand, Plan
from temzaar.siterisks import MOST_REGISTERED

# What a plan needs.
DEMAND = ("radios", "calls_an_hour", "seconds")
# How many seconds a call may wait for a slot, and how many of a hundred calls may wait longer.
USUAL_WAIT, USUAL_SHARE = 5.0, 5.0


def add_plan_words(parser: argparse.ArgumentParser) -> None:
    """Adds the words of a plan to those of a command."""
    def add(option: str, metavar: str, read: Callable[[str], float], text: str) -> None:
        """Adds a word that only a plan has."""
        parser.add_argument(option, metavar=metavar, type=read, help=f"with --plan: {text}")

    parser.add_argument("--plan", action="store_true",
                        help="say how many carriers a site needs, by Erlang C")
    add("--radios", "N", count_of(1, MOST_REGISTERED), "the radios of the busiest hour")
    add("--calls-an-hour", "C", amount_above(0, 3600),
        "the calls that each of them begins in that hour")
    add("--seconds", "S", amount_above(0, 3600), "how long a call has its slot, with its hang time")
    add("--wait", "W", amount_above(0, 3600),
        f"how many seconds a call may wait for a slot ({USUAL_WAIT:g})")
    add("--share", "P", amount_above(0, 100),
        f"how many of 100 calls may wait longer ({USUAL_SHARE:g})")


def require_plan_words(parser: argparse.ArgumentParser, options: argparse.Namespace) -> None:
    """Ends the command if it has words of a plan and no plan, or a plan that lacks some."""
    given = [it for it in (*DEMAND, "wait", "share") if getattr(options, it) is not None]
    if not options.plan and given:
        parser.error(f"--{given[0].replace('_', '-')} needs --plan")
    if options.plan and not (options.site is None and options.names is None):
        parser.error("--plan takes no site file and no names")
    if options.plan and not set(DEMAND) <= set(given):
        parser.error("--plan needs --radios, --calls-an-hour and --seconds")


def print_plan(options: argparse.Namespace) -> int:
    """Prints how many carriers the demand of the words needs. The status."""
    wait, share = options.wait or USUAL_WAIT, options.share or USUAL_SHARE
    traffic = options.radios, options.calls_an_hour, options.seconds
    plan = Plan.of(Demand(*traffic, wait, share / 100))
    print(json.dumps(plan.as_json()) if options.json else "\n".join(plan.lines()))
    return DONE if plan.chosen else FAULT
