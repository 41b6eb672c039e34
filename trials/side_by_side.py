"""Sites of sixteen carriers that are served side by side, for `trials/watch-hour`, `trials/records-cost` and `trials/flood-cost`: each with a load generator of its
own, all at once."""
import contextlib
import os
import pathlib
import re
import subprocess
import sys
import threading
import time
from collections.abc import Iterator, Sequence
from typing import NamedTuple

TOP = pathlib.Path(__file__).resolve().parent.parent
sys.path[:0] = [str(TOP / "python"), str(TOP / "bench")]
from serving import CARRIERS, PERIOD, REGISTRATIONS, start_carriers  # noqa: E402  (the path comes first)
from temzaar.process import Controller  # noqa: E402
from temzaar.script import SessionFault  # noqa: E402
from temzaar.sitefile import Site  # noqa: E402

TITLES = ("site", "polls", "median, µs", "99 %, µs", "99.9 %, µs", "longest, µs", "longest from due, µs", "controller, % of a processor")
PRINTED = re.compile(r"(\d+) polls, .*median ([\d.]+), 99 % ([\d.]+), 99\.9 % ([\d.]+), most ([\d.]+); from due: 99\.9 % [\d.]+, most ([\d.]+)")


class Answers(NamedTuple):
    """What a load generator measured: how many polls were answered, and answer times in microseconds."""
    polls: int
    median: float
    hundredth: float
    thousandth: float
    longest: float
    longest_from_due: float


def answers_of(carriers: subprocess.Popen[str], name: str) -> Answers:
    """The answers that carriers received, once they have ended. SessionFault: they were not served throughout."""
    printed = carriers.communicate()[0]
    found = PRINTED.search(printed)
    if carriers.returncode or not found:
        raise SessionFault(f"the carriers of the site that is named '{name}' were not served throughout: {printed.strip()[-200:]}")
    return Answers(int(found[1]), *(float(it) for it in found.groups()[1:]))


def play(generator: str, controllers: list[Controller], sites: list[Site], names: Sequence[str], seconds: int, carriers: int = CARRIERS) -> tuple[list[Answers], list[float]]:
    """Plays the first carriers of all sites at once. Their polls are due at evenly spread times, so no site always polls just after another. Their answers,
    and the share of a processor that each controller took. SessionFault: one was not served."""
    before, began = [it.seconds() for it in controllers], time.monotonic()
    step = PERIOD // CARRIERS // len(sites)
    players = [start_carriers(generator, site, seconds, "-o", number * step, "-n", carriers, "-r", REGISTRATIONS) for number, site in enumerate(sites)]
    try:
        answers = [answers_of(it, name) for it, name in zip(players, names, strict=True)]
    finally:
        for it in players:
            it.kill()
            it.wait()
    passed = time.monotonic() - began
    return answers, [100 * (it.seconds() - used) / passed for it, used in zip(controllers, before, strict=True)]


@contextlib.contextmanager
def loads_seen() -> Iterator[list[float]]:
    """The machine's load averages of one minute, looked at twice a minute, in a list that grows."""
    loads, ended = [os.getloadavg()[0]], threading.Event()

    def look() -> None:
        """Looks until the end."""
        while not ended.wait(30):
            loads.append(os.getloadavg()[0])

    looking = threading.Thread(target=look, daemon=True)
    looking.start()
    yield loads
    ended.set()
    looking.join()


def print_answers(names: Sequence[str], answers: list[Answers], shares: list[float]) -> None:
    """Prints a row for each site."""
    print(f"| {' | '.join(TITLES)} |\n|{'---|' * len(TITLES)}")
    for name, it, share in zip(names, answers, shares, strict=True):
        print(f"| {name} | {it.polls:,} | {' | '.join(f'{time:,.1f}' for time in it[1:])} | {share:.2f} |")


def print_loads(loads: list[float]) -> None:
    """Prints how busy the machine was."""
    print(f"load average of the machine: {min(loads):.1f} to {max(loads):.1f}, {os.cpu_count()} processors", flush=True)
