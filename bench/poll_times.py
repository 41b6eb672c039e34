"""Times served polls, in three servers: our controller, a site in C with one thread, and constant
answers in C. The last server has a thread and an epoll for each carrier. It is the least that
serving costs with threads that can be woken.

All three are served at once, each with sixteen carriers at air rate by a load generator of its own,
whose polls are due between those of the others. So a busy machine slows all of them. Before that
the controller ends two terms under polls as fast as possible: the first takes its memory page by
page.
Rounds in which all carriers of a site poll at once, as if they shared their frames, take turns with
rounds in which the polls are spread over the frame.
"""
import contextlib
import pathlib
import re
import statistics
from collections.abc import Iterator, Sequence
from typing import NamedTuple

from programs import RT_PROCESSOR, Missing, build, proved
from serving import (AS_IN_C, CARRIERS, PERIOD, controller_words, floor_words, running, site_of,
                     site_server_words, start_carriers)

from temzaar.sitefile import Site

# Entries of a term: with sixteen carriers at air rate it lasts 35 seconds.
TERM_ENTRIES = 10_000
# Terms that end before a figure counts; how long carriers are played for them, how often at most.
FIRST_TERMS, WARM_SECONDS, MOST_WARMS = 2, 2, 20
# How long the carriers are played in a round.
ROUND_SECONDS = 10
# Rounds of one server that differ by more than this say that the machine is too noisy.
MOST_DIFFERENCE = 0.15
OURS, ONE_THREAD = "the proved controller", "a site in C, one thread"
FLOOR = "constant answers in C, threads that can be woken"
_TERMS = re.compile(r"\] (?:term|(\d+) more terms) ended: ")
_ANSWER = re.compile(r"microseconds: mean [\d.]+, median ([\d.]+)")
_TIME = re.compile(r"% of a processor, ([\d.]+) us a poll")


class Figures(NamedTuple):
    """What a round measured, in microseconds: the processor time of a poll, and the median of the
    times of answers."""
    processor: float
    answer: float


# Of each server the figures of its rounds.
Rounds = dict[str, list[Figures]]


class Kind(NamedTuple):
    """How the carriers of a site poll: the load generator's options, and the microseconds between
    the first polls of two sites."""
    name: str
    options: Sequence[str]
    step: int


class Server(NamedTuple):
    """A server that runs: its name, its site and its process."""
    name: str
    site: Site
    pid: int


def kinds_of(servers: int) -> tuple[Kind, Kind]:
    """The kinds of rounds, for a number of sites."""
    return (Kind("all polls at once", ("-A",), PERIOD // servers),
            Kind("polls spread", (), PERIOD // CARRIERS // servers))


def terms_in(notes: str) -> int:
    """How many terms have ended, by the controller's notes."""
    return sum(int(more or 1) for more in _TERMS.findall(notes))


def figures_in(printed: str) -> Figures:
    """The figures in a load generator's output. Missing: it measured nothing."""
    found, answer = _TIME.search(printed), _ANSWER.search(printed)
    if not found or not answer or not float(found[1]):
        raise Missing(f"a load generator measured nothing: {printed.strip()[-200:]}")
    return Figures(float(found[1]), float(answer[1]))


def ratios_of(rounds: Rounds) -> dict[str, float]:
    """How many times the processor time of constant answers each server takes: the median of the
    rounds' quotients."""
    least = [it.processor for it in rounds[FLOOR]]
    quotients = {name: [it.processor / floor for it, floor in zip(them, least, strict=True)]
                 for name, them in rounds.items()}
    return {name: statistics.median(them) for name, them in quotients.items()}


def noise_of(rounds: Rounds) -> dict[str, float]:
    """The servers whose rounds differ by more than they may in processor time, each with the
    difference of the most and the least."""
    all_times = {name: [it.processor for it in them] for name, them in rounds.items()}
    differences = {name: max(times) / min(times) - 1 for name, times in all_times.items()}
    return {name: it for name, it in differences.items() if it > MOST_DIFFERENCE}


def play(generator: str, servers: Sequence[Server], kind: Kind) -> dict[str, Figures]:
    """Plays the carriers of all sites at once. The figures of each server."""
    players = [start_carriers(generator, it.site, ROUND_SECONDS, "-P", it.pid,
                              "-o", number * kind.step, *kind.options)
               for number, it in enumerate(servers)]
    try:
        printed = [it.communicate()[0] for it in players]
        return {it.name: figures_in(text) for it, text in zip(servers, printed, strict=True)}
    finally:
        for player in players:
            player.kill()
            player.wait()


def warm_up(generator: str, servers: Sequence[Server], notes: pathlib.Path) -> None:
    """Plays the carriers of each site as fast as possible, until the controller has ended its first
    terms. Missing: it does not end them."""
    for _ in range(MOST_WARMS):
        for it in servers:
            start_carriers(generator, it.site, WARM_SECONDS, "-f").communicate()
        noted = notes.read_text(encoding="utf-8")
        if terms_in(noted) >= FIRST_TERMS:
            return
    raise Missing(f"the controller does not end its terms: {noted.strip()[-200:]}")


@contextlib.contextmanager
def served(folder: str, notes: pathlib.Path) -> Iterator[list[Server]]:
    """The three servers, each with a site of its own. The controller's notes go into a file."""
    names = OURS, ONE_THREAD, FLOOR
    sites = [site_of(**AS_IN_C, term_entries=TERM_ENTRIES) for _ in names]
    one_thread = build("site_server.c", RT_PROCESSOR, folder)[0]
    floor = build("serve_floor.c", RT_PROCESSOR, folder)[0]
    with contextlib.ExitStack() as stack:
        file = stack.enter_context(notes.open("wb"))
        servers = (running(controller_words(proved("dmr_trunk"), sites[0], folder), stderr=file),
                   running(site_server_words(one_thread, sites[1])),
                   running(floor_words(floor, sites[2])))
        pids = [stack.enter_context(it).pid for it in servers]
        yield list(map(Server, names, sites, pids))


def time_served(folder: str, rounds: int) -> None:
    """Prints what a served poll takes."""
    generator = build("load_generator.c", RT_PROCESSOR, folder)[0]
    notes = pathlib.Path(folder) / "notes"
    with served(folder, notes) as servers:
        kinds = kinds_of(len(servers))
        all_rounds: dict[str, Rounds] = {}
        warm_up(generator, servers, notes)
        for kind in kinds * rounds:
            for name, figures in play(generator, servers, kind).items():
                all_rounds.setdefault(kind.name, {}).setdefault(name, []).append(figures)
    print_figures(all_rounds)


def print_figures(all_rounds: dict[str, Rounds]) -> None:
    """Prints the medians of the rounds, the ratios, and whether the rounds agree."""
    ratios = {kind: ratios_of(it) for kind, it in all_rounds.items()}
    print(f"Microseconds of processor time of a served poll, the ratio over {FLOOR},\n"
          "and microseconds until the answer")
    print(f"{'':<45}" + "".join(f" {kind:>18} {'ratio':>6} {'answer':>7}" for kind in all_rounds))
    for name in (OURS, ONE_THREAD, FLOOR):
        line = f"{name:<45}"
        for kind, rounds in all_rounds.items():
            processor, answer = map(statistics.median, zip(*rounds[name], strict=True))
            line += f" {processor:>18.1f} {ratios[kind][name]:>6.2f} {answer:>7.0f}"
        print(line)
    for kind, rounds in all_rounds.items():
        for name, difference in noise_of(rounds).items():
            print("The machine is too noisy to tell: "
                  f"rounds of {name}, {kind}, differ by {100 * difference:.0f} %")
