"""Counts what a served poll takes in our controller and in the site in C: instructions, system
calls, and the lines and pages that it touches. The thread that serves the carrier counts alone.

A server runs under valgrind. A carrier connects, and sends the same octets in each round, after the
DONE that ends the last answer. For instructions and calls it does so twice, longer the second time
(`valgrind --tool=callgrind`, with a profile for each thread). The further instructions and calls of
the carrier's thread, divided by the further rounds, are the cost of a round: start and end cancel
out. The lines and pages are those of single rounds (touched.py). The carrier is so slow that its
port never waits for the next 512 octets. Ticks last a second, so few are counted.
"""
import collections
import contextlib
import os
import pathlib
import re
import tempfile
import threading
import time
from collections.abc import Callable, Iterator, Sequence
from typing import NamedTuple

from callgrind import BadProfile, Profile, read_profile
from programs import RT_PROCESSOR, build, compare, proved
from serving import AS_IN_C, CONTROL, controller_words, running, site_of, site_server_words
from touched import Touched, median_of

from temzaar import code, frames, pdus
from temzaar.process import connect
from temzaar.sitefile import Site

# The rounds of the first and of the second run, and of the run whose accesses are traced.
FEW_ROUNDS, MORE_ROUNDS, TRACED_ROUNDS = 100, 500, 100
# The radios that register in turn.
RADIOS, FIRST_RADIO = 50, 1001
# A port reads 512 octets in 60 ms; a carrier sends half of that.
SECONDS_AN_OCTET = 0.060 / 256
# Seconds within which a server under valgrind listens, and answers.
LONGEST_WAIT = 60.0
# The longest tick of a site file.
TICK_MS = 1000
OTHER = 5
# The call that reads the clock under valgrind. Without valgrind the C library reads it without a
# call of the system, if the clock source allows that.
CLOCK = "clock_gettime"
# The end of a trace that is kept, in pieces of these octets: several rounds.
TRACE_PIECE, TRACE_PIECES = 1 << 20, 16
_CALL = re.compile(r"^SYSCALL\[\d+,(\d+)\]\( *\d+\) sys_(\w+)", re.M)


class Kind(NamedTuple):
    """What a carrier sends in each round: its number, and whether a registration comes first."""
    name: str
    carrier: int
    registers: bool


KINDS = (Kind("a POLL of the control carrier", CONTROL, False),
         Kind("a POLL of another carrier", OTHER, False),
         Kind("the RX of a registration, and a POLL", CONTROL, True))


class Server(NamedTuple):
    """A server: the name of its program, and the words that serve a site with files in a folder."""
    name: str
    words: Callable[[Site, str], list[str]]


class Thread(NamedTuple):
    """What a thread did: its instructions, and its system calls by their names."""
    profile: Profile
    calls: collections.Counter[str]


class Cost(NamedTuple):
    """What further rounds of a carrier took in its thread, all of them together."""
    rounds: int
    profile: Profile
    calls: collections.Counter[str]

    @property
    def instructions(self) -> float:
        """Instructions of a round."""
        return self.profile.total / self.rounds

    @property
    def clock_readings(self) -> float:
        """How often a round reads the clock."""
        return self.calls[CLOCK] / self.rounds

    @property
    def system_calls(self) -> float:
        """System calls of a round, without the readings of the clock."""
        return self.calls.total() / self.rounds - self.clock_readings


class Row(NamedTuple):
    """A line of the tables: what a round takes and touches in ours, and in the C with the fewest
    instructions."""
    name: str
    ours: Cost
    c: Cost
    ours_touched: Touched
    c_touched: Touched


class Carrier:
    """A carrier that polls, and keeps what it receives."""

    def __init__(self, site: Site, kind: Kind) -> None:
        row = site.row(kind.carrier)
        self.kind, self.site, self.link = kind, site, frames.Link(site.link_version)
        self.cutter, self.received = frames.Cutter(frames.TO_CARRIER), b""
        self.stream = connect(site.address, row["port"], LONGEST_WAIT)
        self.stream.sendall(frames.hello(kind.carrier, row["lpcn"], site.link_version))
        self.read_to(frames.FrameType.WELCOME)

    def read_to(self, last: frames.FrameType) -> None:
        """Reads up to a frame of this type. BadProfile: the server ends the connection, or sends no
        frames."""
        while True:
            octets = self.stream.recv(4096)
            came = self.cutter.feed(octets)
            self.received += octets
            if not octets or self.cutter.fault:
                last_octets = self.received[-40:].hex()
                raise BadProfile(f"a server does not answer {self.kind.name}: {last_octets}")
            if any(it.kind == last for it in came):
                return

    def octets_of(self, number: int) -> bytes:
        """What it sends in a round."""
        if not self.kind.registers:
            return frames.POLL
        radio = FIRST_RADIO + number % RADIOS
        request = pdus.random_access(pdus.REGISTRATION, self.site.plan["regi"], radio,
                                     self.site.register_options())
        return self.link.rx(0, code.burst_of(request)) + frames.POLL

    def play(self, rounds: int) -> bytes:
        """Plays this number of rounds, and leaves. What it received."""
        for octets in map(self.octets_of, range(rounds)):
            due = time.monotonic() + SECONDS_AN_OCTET * len(octets)
            self.stream.sendall(octets)
            self.read_to(frames.FrameType.DONE)
            time.sleep(max(0.0, due - time.monotonic()))
        self.stream.close()
        return self.received


# ---- instructions and system calls

def calls_in(log: str) -> dict[int, collections.Counter[str]]:
    """The system calls in a log of `valgrind --trace-syscalls=yes`, by thread and name."""
    calls: dict[int, collections.Counter[str]] = {}
    for thread, name in _CALL.findall(log):
        calls.setdefault(int(thread), collections.Counter())[name] += 1
    return calls


def cost_of_thread(few: dict[int, Thread], more: dict[int, Thread], rounds: int) -> Cost:
    """The cost of the further rounds, in the thread whose instructions grew most: the carrier's.
    BadProfile: no thread is in both runs."""
    both = few.keys() & more.keys()
    if not both:
        raise BadProfile("valgrind wrote no profile of a thread")
    grown = {it: more[it].profile.less(few[it].profile) for it in both}
    thread = max(both, key=lambda it: grown[it].total)
    calls = more[thread].calls.copy()
    calls.subtract(few[thread].calls)
    return Cost(rounds, grown[thread], calls)


def play_profiled(server: Server, kind: Kind, rounds: int,
                  keep: str) -> tuple[bytes, dict[int, Thread]]:
    """Serves rounds of a carrier. What the carrier received, and what each thread did. Valgrind's
    files are in `keep`."""
    site = site_of(**AS_IN_C, tick_ms=TICK_MS)
    folder = tempfile.mkdtemp(dir=keep, prefix=f"{server.name}-")
    profile, log = pathlib.Path(folder, "profile"), pathlib.Path(folder, "calls")
    under = ["valgrind", "--tool=callgrind", "--separate-threads=yes",
             f"--callgrind-out-file={profile}", "--trace-syscalls=yes", f"--log-file={log}"]
    with running([*under, *server.words(site, folder)]):
        received = Carrier(site, kind).play(rounds)
    calls = calls_in(log.read_text(encoding="utf-8", errors="replace"))
    threads = {}
    for file in pathlib.Path(folder).glob("profile-*"):
        number = int(file.name.rpartition("-")[2])
        text = file.read_text(encoding="utf-8", errors="replace")
        threads[number] = Thread(read_profile(text), calls.get(number, collections.Counter()))
    return received, threads


def count_rounds(server: Server, kind: Kind, keep: str) -> tuple[bytes, Cost]:
    """What a carrier receives in the longer run, and what a round costs."""
    _, few = play_profiled(server, kind, FEW_ROUNDS, keep)
    received, more = play_profiled(server, kind, MORE_ROUNDS, keep)
    return received, cost_of_thread(few, more, MORE_ROUNDS - FEW_ROUNDS)


# ---- lines and pages

@contextlib.contextmanager
def end_of_pipe() -> Iterator[tuple[int, list[str]]]:
    """A descriptor to write text to, and the lines at its end, which are there after use."""
    reading, writing = os.pipe()
    pieces: collections.deque[bytes] = collections.deque(maxlen=TRACE_PIECES)
    lines: list[str] = []

    def read() -> None:
        """Keeps the last pieces."""
        with open(reading, "rb") as file:
            while piece := file.read(TRACE_PIECE):
                pieces.append(piece)

    reader = threading.Thread(target=read)
    reader.start()
    try:
        yield writing, lines
    finally:
        os.close(writing)
        reader.join()
        lines += b"".join(pieces).decode("ascii", "replace").splitlines()


def touch_rounds(server: Server, kind: Kind) -> Touched:
    """What a round of a carrier touches."""
    site = site_of(**AS_IN_C, tick_ms=TICK_MS)
    with tempfile.TemporaryDirectory() as folder, end_of_pipe() as (log, lines):
        under = ["valgrind", "--tool=lackey", "--trace-mem=yes", "--basic-counts=no",
                 "--trace-syscalls=yes", f"--log-fd={log}"]
        with running([*under, *server.words(site, folder)], pass_fds=[log]):
            Carrier(site, kind).play(TRACED_ROUNDS)
    return median_of(lines)


# ---- all

def our_server() -> Server:
    """Our controller, for one term."""
    program = proved("dmr_trunk")
    return Server("dmr_trunk",
                  lambda site, folder: [*controller_words(program, site, folder), "--terms", "1"])


def server_in_c(program: str) -> Server:
    """The site in C, built by one of the compilers."""
    return Server(pathlib.Path(program).name, lambda site, _: site_server_words(program, site))


def row_of(ours: Server, others: Sequence[Server], kind: Kind, keep: str) -> Row:
    """What a round of this kind takes. Differs: the servers answer otherwise."""
    received, cost = count_rounds(ours, kind, keep)
    costs = {}
    for server in others:
        answers, costs[server] = count_rounds(server, kind, keep)
        compare(f"octets that answer {kind.name}", ours=received.hex(), C=answers.hex())
    best = min(others, key=lambda it: costs[it].instructions)
    return Row(kind.name, cost, costs[best], touch_rounds(ours, kind), touch_rounds(best, kind))


def count_served(folder: str, keep: str) -> list[Row]:
    """The rows, one for each kind. The C is built in `folder`, and valgrind's files are left in
    `keep`."""
    others = [server_in_c(it) for it in build("site_server.c", RT_PROCESSOR, folder)]
    return [row_of(our_server(), others, kind, keep) for kind in KINDS]
