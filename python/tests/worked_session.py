"""A worked session of a served site, and the rows that it leaves in the file of records.

It is played over loopback, by a carrier without the control slot (0), the carrier with it (1),
their radios and an operator. The rows were worked out by hand, from docs/RECORDS.md, FORMATS.md and
SITE_MACHINE.md. One thing cannot be: the ticks at which the steps come. The controller records
itself meanwhile, and the recording has the ticks between all that was sent.

There are three runs of the controller over one file. In the first, of three terms, one tick has an
effect: it grants a slot to a request that waited. In each of the others the first tick after a call
began ends it. In the last two terms no radio speaks.
"""
import contextlib
import pathlib
import time
from collections.abc import Callable, Sequence
from itertools import pairwise
from typing import Any, NamedTuple

from temzaar import code, pdus
from temzaar.console import Console
from temzaar.frames import BYE, FROM_CARRIER, POLL, Cutter, FrameType, active, hello, rx
from temzaar.process import Controller
from temzaar.script import Input, read_script
from temzaar.sitefile import Row, Site
from tests.served_kit import PATIENCE, Carrier, free_site, served

# A row of a table.
Columns = tuple[object, ...]
# A tick in a recording.
TICK = Input("tick", count=1)
# Ticks that do not come while the session is played.
NEVER = 65_535
# The entries of a term: more than any term has without the polls that fill it.
ENTRIES = 600


class Run(NamedTuple):
    """A run of the controller: keys of its site file, and the steps of each of its terms."""
    keys: dict[str, int]
    terms: tuple[tuple[str, ...], ...]


# Ticks come meanwhile, also if the machine stalls for a while.
LONG = ("..",) * 20
# A step of a radio, and `noise`, is a burst on the control slot and a poll of its carrier. With
# `..` some ticks pass.
RUNS = (
    Run({"tick_ms": 30, "hang": NEVER, "maximum": NEVER}, (
        (
            "0 comes up", "..", "1 comes up", "1001 joins", "1002 joins", "..", "1003 joins",
            # it begins on carrier 0, slot 0; 1003 joins it, and 1001 is sent its grant again
            "1001 calls 91", "..", "1003 calls 91", "..", "1001 repeats 91",
            "1002 calls 99", "say drop 1002", "..",
            # three C_ALOHAs and a late entry
            "poll 1", "poll 1", "poll 1", "poll 1",
        ), (
            "..", "0 is lost", "..", "0 comes up",
            # the second poll sends the C_AHOY; the call begins on carrier 0, slot 0
            "1001 rings 1003", "poll 1", "..", "1003 answers 1001",
            # it begins on carrier 0, slot 1
            "1004 joins", "1004 calls 92",
            "..", "say end 0 0", "say end 1 1", "say end 9 0", "..", "say move 7", "say stay",
            "poll 0", "..",
        ), (
            "1003 rings 1001", "poll 1", "1001 answers 1003", "..", "1001 leaves", "..",
            # The P_CLEAR waits for carrier 0, slot 0. So this begins on carrier 1, slot 1, and the
            # next request waits for a slot
            "1001 joins", "1001 calls 93", "1005 joins", "1005 calls 94", "..", "1005 cancels 94",
            # it joins the call on carrier 0, slot 1
            "1005 calls 92",
            # it waits for a slot again. By the tick after the P_CLEAR was sent it has carrier 0,
            # slot 0. Its grant is sent by the poll after `noise`
            "1005 calls 91", "..", "clear 0", *LONG, "say end 0 0",
            "say drop 1004", "say drop 999", "..", "noise", "active 1 1",
        ),
    )),
    Run({"tick_ms": 25, "hang": 1, "maximum": NEVER}, (
        # 1001 is registered again, and 1002, which was dropped, is not
        ("0 comes up", "1 comes up", "1002 calls 91", "1001 calls 94", "clear 0"),
    )),
    Run({"tick_ms": 20, "hang": NEVER, "maximum": 1}, (
        ("0 comes up", "1 comes up", "..", "1005 calls 92", "clear 0"),
        # carrier 1 does nothing else in this term, and nothing at all in the next one
        ("..", "1 is lost"),
        (),
    )),
)

# heard, requests, noise, active; commands, grants, late_entries, registrations, refusals, begun,
# ended, most_lines. The answer of a called radio counts as heard, and not as a request
COUNTS = (
    ((7, 7, 0, 0), (1, 3, 1, 3, 1, 1, 0, 0)),
    ((4, 3, 0, 0), (5, 2, 0, 1, 0, 2, 2, 0)),
    ((10, 9, 1, 1), (3, 4, 0, 2, 0, 3, 3, 1)),
    ((2, 2, 0, 0), (0, 1, 0, 0, 1, 1, 1, 0)),
    ((1, 1, 0, 0), (0, 1, 0, 0, 0, 1, 1, 0)),
    ((0, 0, 0, 0), (0, 0, 0, 0, 0, 0, 0, 0)),
    ((0, 0, 0, 0), (0, 0, 0, 0, 0, 0, 0, 0)),
)
# term, carrier; polls, heard, noise, active. The radios are on carrier 1. It polls once with each
# of their steps, with `poll`, `noise` and `active`. Carrier 0 polls up to the end of each term, and
# the recording has how often: None
CARRIERS = (
    (1, 0, None, 0, 0, 0), (1, 1, 11, 7, 0, 0),
    (2, 0, None, 0, 0, 0), (2, 1, 5, 4, 0, 0),
    (3, 0, None, 0, 0, 0), (3, 1, 13, 10, 1, 1),
    (4, 0, None, 0, 0, 0), (4, 1, 2, 2, 0, 0),
    (5, 0, None, 0, 0, 0), (5, 1, 1, 1, 0, 0),
    (6, 0, None, 0, 0, 0), (6, 1, 0, 0, 0, 0),
    (7, 0, None, 0, 0, 0),
)
# Term, carrier, slot, is_group, source, target. Then the step from which on its request waited for
# a slot, or None. The step with which the call began, or by the tick after which it did if it had
# waited. That with which it ended, or None for the tick after it began; the cause
CALLS = (
    (2, 0, 0, 1, 1001, 91, None, "1001 calls 91", "0 is lost", "carrier_lost"),
    (2, 0, 0, 0, 1001, 1003, None, "1003 answers 1001", "say end 0 0", "ended_by_operator"),
    (3, 0, 0, 0, 1003, 1001, None, "1001 answers 1003", "1001 leaves", "radio_left"),
    (3, 0, 0, 1, 1005, 91, "1005 calls 91", "clear 0", "say end 0 0", "ended_by_operator"),
    (3, 0, 1, 1, 1004, 92, None, "1004 calls 92", "say drop 1004", "dropped"),
    (4, 0, 0, 1, 1001, 94, None, "1001 calls 94", None, "hang_time"),
    (5, 0, 0, 1, 1005, 92, None, "1005 calls 92", None, "maximum"),
)
# term, step; kind, carrier, slot, radio, target, channel, reason, reply
EVENTS = (
    (1, "1001 joins", "joined", None, None, 1001, None, None, None, None),
    (1, "1002 joins", "joined", None, None, 1002, None, None, None, None),
    (1, "1003 joins", "joined", None, None, 1003, None, None, None, None),
    (1, "say drop 1002", "dropped", None, None, 1002, None, None, None, None),
    (1, "0 comes up", "came_up", 0, None, None, None, None, None, None),
    (1, "1 comes up", "came_up", 1, None, None, None, None, None, None),
    (1, "1003 calls 91", "joined_call", 0, 0, 1003, 91, None, None, None),
    (1, "1002 calls 99", "refused", None, None, 1002, 99, None, 0x2F, None),
    (1, "say drop 1002", "drop_command", None, None, 1002, None, None, None, "done"),
    (2, "1004 joins", "joined", None, None, 1004, None, None, None, None),
    (2, "0 is lost", "was_lost", 0, None, None, None, None, None, None),
    (2, "0 comes up", "came_up", 0, None, None, None, None, None, None),
    (2, "say end 0 0", "end_command", 0, 0, None, None, None, None, "done"),
    (2, "say end 1 1", "end_command", 1, 1, None, None, None, None, "no_call"),
    (2, "say end 9 0", "end_command", 9, 0, None, None, None, None, "no_carrier"),
    (2, "say move 7", "move_command", None, None, None, None, 7, None, "done"),
    (2, "say stay", "stay_command", None, None, None, None, None, None, "done"),
    (3, "1001 leaves", "left", None, None, 1001, None, None, None, None),
    (3, "1001 joins", "joined", None, None, 1001, None, None, None, None),
    (3, "1005 joins", "joined", None, None, 1005, None, None, None, None),
    (3, "say drop 1004", "dropped", None, None, 1004, None, None, None, None),
    (3, "1005 calls 92", "joined_call", 0, 1, 1005, 92, None, None, None),
    (3, "say end 0 0", "end_command", 0, 0, None, None, None, None, "done"),
    (3, "say drop 1004", "drop_command", None, None, 1004, None, None, None, "done"),
    (3, "say drop 999", "drop_command", None, None, 999, None, None, None, "not_registered"),
    (4, "0 comes up", "came_up", 0, None, None, None, None, None, None),
    (4, "1 comes up", "came_up", 1, None, None, None, None, None, None),
    (4, "1002 calls 91", "refused", None, None, 1002, 91, None, 0x2D, None),
    (5, "0 comes up", "came_up", 0, None, None, None, None, None, None),
    (5, "1 comes up", "came_up", 1, None, None, None, None, None, None),
    (6, "1 is lost", "was_lost", 1, None, None, None, None, None, None),
)
# 1002 and 1004 were dropped, and 1001 joined again after the others
REGISTRATIONS = ((1, 1003), (2, 1001), (3, 1005))


def site_of(**changes: Any) -> Site:
    """The site of two carriers on free ports. Carrier 1 has the control slot."""
    return free_site(control=1, silence=10 * PATIENCE, **changes)


class Player:
    """The carriers, the radios and the operator of a site. `sent` has what they sent, as inputs of
    a recording, each of which is an entry of the journal."""

    def __init__(self, site: Site) -> None:
        self.site, self.sent = site, list[Input]()
        self.carriers: dict[int, Carrier] = {}
        self.console = Console(site.address, site.console_port, PATIENCE)

    def take(self, step: str) -> None:
        """Takes a step, and waits until the site has answered it."""
        regi = self.site.plan["regi"]
        match step.split():
            case [".."]:
                time.sleep(2 * self.site.plan["tick_ms"] / 1000)
            case [carrier, "comes", "up"]:
                self.come_up(self.site.row(int(carrier)))
            case [carrier, "is", "lost"]:
                self.lose(int(carrier))
            case ["poll", carrier]:
                self.poll(int(carrier))
            case ["clear", carrier]:
                self.poll_until_clear(int(carrier))
            case ["active", carrier, slot]:
                self.poll(int(carrier), active(int(slot)))
            case ["noise"]:
                self.poll(self.site.control, rx(0, code.burst_of(bytes(10), (1, 2, 3, 4))))
            case ["say", *words]:
                self.say(" ".join(words))
            case [radio, "joins"]:
                self.request(pdus.REGISTRATION, regi, int(radio), self.site.register_options())
            case [radio, "leaves"]:
                self.request(pdus.REGISTRATION, regi, int(radio))
            case [radio, "calls" | "repeats", group]:
                self.request(pdus.TALKGROUP_VOICE, int(group), int(radio))
            case [radio, "rings", other]:
                self.request(pdus.INDIVIDUAL_VOICE, int(other), int(radio))
            case [radio, "cancels", target]:
                self.request(pdus.CANCEL, int(target), int(radio))
            case [radio, "answers", caller]:
                self.transmit(pdus.write("C_ACKU", reason=pdus.MS_ACCEPTED, target=int(caller),
                                         additional=int(radio)))
            case _:
                raise ValueError(step)

    def say(self, line: str) -> None:
        """The operator sends a line."""
        self.sent.append(Input("text", octets=line.encode() + b"\n"))
        self.console.ask(line)

    def request(self, kind: int, target: int, source: int, options: int = 0) -> None:
        """A radio requests something."""
        self.transmit(pdus.random_access(kind, target, source, options))

    def transmit(self, octets: bytes) -> None:
        """A radio transmits a PDU on the control slot, and its carrier polls."""
        self.poll(self.site.control, rx(0, code.burst_of(octets)))

    def come_up(self, row: Row) -> None:
        """A carrier connects."""
        self.sent.append(Input("bytes", row["number"], hello(row["number"], row["lpcn"])))
        self.carriers[row["number"]] = Carrier(row, 1)

    def lose(self, carrier: int) -> None:
        """A carrier says BYE, and the controller closes its connection."""
        self.sent.append(Input("cut", carrier))
        with self.carriers.pop(carrier).stream as stream:
            stream.sendall(BYE)
            stream.recv(1)

    def poll(self, carrier: int, *frames: bytes) -> list[bytes]:
        """A carrier sends frames, and polls. The PDUs of the answer. ConnectionError: the
        controller has ended the connection."""
        self.sent += [Input("bytes", carrier, it) for it in (*frames, POLL)]
        return self.carriers[carrier].ask(b"".join(frames) + POLL)

    def poll_until_clear(self, carrier: int) -> None:
        """A carrier without the control slot polls until it is sent a P_CLEAR: it is sent nothing
        else."""
        until = time.monotonic() + PATIENCE
        while not self.poll(carrier):
            if time.monotonic() > until:
                raise TimeoutError(f"carrier {carrier} is sent no P_CLEAR")

    def poll_while(self, condition: Callable[[], bool]) -> None:
        """Carrier 0 polls while a condition holds. ConnectionError: the last term has ended."""
        while condition():
            self.poll(0)

    def play_to_end(self, controller: Controller) -> None:
        """Carrier 0 polls up to the end of the last term, and the program ends with status 0."""
        with contextlib.suppress(ConnectionError):
            self.poll_while(lambda: True)
        for it in self.carriers.values():
            it.stream.close()
        self.console.close()
        assert controller.process.wait(PATIENCE) == 0, controller.notes


class Step(NamedTuple):
    """A step that was taken: the number of its term in the run, the place of its first input in
    what was sent, and its text."""
    term: int
    place: int
    text: str


class Term(NamedTuple):
    """What a recording says of a term, with the polls of each carrier, and times of day before and
    after the term's end."""
    tick_ms: int
    last_tick: int
    ticks: int
    polls: tuple[int, int]
    before_ms: int
    after_ms: int


def now_ms() -> int:
    """The time of day, in milliseconds since 1970."""
    return time.time_ns() // 1_000_000


def size_of(path: pathlib.Path) -> int:
    """The octets of a file; 0 if there is none yet."""
    try:
        return path.stat().st_size
    except FileNotFoundError:
        return 0


def without_noise(given: Input) -> Input:
    """An input, without the octets of a burst that means nothing: a recording has another one than
    the carrier sent."""
    frames = Cutter(FROM_CARRIER).feed(given.octets) if given.kind == "bytes" else []
    bursts = [it.burst() for it in frames if it.kind == FrameType.RX]
    is_noise = any(code.octets_of(it.word) is None for it in bursts)
    return Input("bytes", given.carrier) if is_noise else given


def entries_of(recording: str) -> list[Input]:
    """The inputs of a recording, one for each entry of the journals."""
    entries = list[Input]()
    for it in read_script(recording):
        if it.kind == "tick":
            entries += [TICK] * it.count
        elif it.kind != "open":
            entries.append(without_noise(it))
    return entries


class Session:
    """The session, played over the file of records in a folder. `ticks` has the tick of each step,
    by the number of its term in the file and its text."""

    def __init__(self, folder: str) -> None:
        self.folder = folder
        self.ticks: dict[tuple[int, str], int] = {}
        self.terms: list[Term] = []

    def play(self, run: Run) -> None:
        """Plays a run. AssertionError: the recording does not have what was sent, or has a step in
        another term."""
        recording = pathlib.Path(self.folder, f"{len(self.terms)}.txt")
        site = site_of(term_entries=ENTRIES, ahoy_wait=NEVER, **run.keys)
        variables = {"STATE_DIRECTORY": self.folder, "DMR_TRUNK_RECORD": str(recording)}
        with served(site, "--terms", str(len(run.terms)), variables=variables) as controller:
            player = Player(site)
            steps, times = self.play_terms(player, run, recording)
            player.play_to_end(controller)
        text = recording.read_text(encoding="utf-8")
        # that of a later run begins with the registrations of the start
        entries = entries_of(text.partition("cut 1\n")[2] if self.terms else text)
        assert len(entries) == len(run.terms) * ENTRIES
        self.read_steps(entries, player.sent, steps)
        self.read_terms(entries, run.keys["tick_ms"], [*times, now_ms()])

    def play_terms(self, player: Player, run: Run,
                   recording: pathlib.Path) -> tuple[list[Step], list[int]]:
        """Plays the terms of a run. Its steps, and the times of day before its terms ended."""
        steps, times = list[Step](), list[int]()
        for number, term in enumerate(run.terms, 1):
            size = size_of(recording)
            for text in term:
                steps.append(Step(number, len(player.sent), text))
                player.take(text)
            times.append(now_ms())
            if number < len(run.terms):
                # the entries of a term are recorded at its end
                player.poll_while(lambda: size_of(recording) == size)
        return steps, times

    def read_steps(self, entries: list[Input], sent: list[Input], steps: list[Step]) -> None:
        """Finds the ticks of a run's steps by its entries."""
        # the term and the tick of each input that was sent
        found, tick = list[tuple[int, int]](), 0
        for place, entry in enumerate(entries):
            if entry == TICK:
                tick += 1
            else:
                assert entry == without_noise(sent[len(found)])
                found.append((1 + place // ENTRIES, tick))
        for step in steps:
            assert found[step.place][0] == step.term, step
            self.ticks[len(self.terms) + step.term, step.text] = found[step.place][1]

    def read_terms(self, entries: list[Input], tick_ms: int, times: list[int]) -> None:
        """Finds the terms of a run by its entries. Each ended between two of these times of day."""
        for number, (before_ms, after_ms) in enumerate(pairwise(times), 1):
            past = entries[:number * ENTRIES]
            own = past[-ENTRIES:]
            polls = tuple(own.count(Input("bytes", it, POLL)) for it in (0, 1))
            ticks = (past.count(TICK), own.count(TICK))
            self.terms.append(Term(tick_ms, *ticks, (polls[0], polls[1]), before_ms, after_ms))

    def ms_of(self, tick: int, number: int, ended_ms: Sequence[int]) -> int:
        """The time of day of a tick, as the records of a term have it."""
        term = self.terms[number - 1]
        return ended_ms[number - 1] - (term.last_tick - tick) * term.tick_ms

    def term_rows(self, ended_ms: Sequence[int]) -> list[Columns]:
        """The rows of `terms`, by the times of day at which the terms ended."""
        rows = list[Columns]()
        for number, (term, (events, others)) in enumerate(zip(self.terms, COUNTS, strict=True)):
            rows.append((number + 1, ended_ms[number], term.tick_ms, term.last_tick, ENTRIES,
                         *events, sum(term.polls), term.ticks, *others))
        return rows

    def call_rows(self, ended_ms: Sequence[int]) -> list[Columns]:
        """The rows of `calls`, likewise."""
        rows = list[Columns]()
        for number, (term, *parties, asked, began, ended, cause) in enumerate(CALLS, 1):
            first = self.last_tick(began, term)
            waited = 0
            if asked:
                first += 1
                waited = first - self.last_tick(asked, term)
            last = self.ticks[term, ended] if ended else first + 1
            first_ms, last_ms = (self.ms_of(it, term, ended_ms) for it in (first, last))
            rows.append((number, term, *parties, first, first_ms, last, last_ms, cause, waited))
        return rows

    def last_tick(self, text: str, term: int) -> int:
        """The tick of the last step of this text up to a term."""
        return self.ticks[max(it for it in self.ticks if it[0] <= term and it[1] == text)]

    def carrier_rows(self) -> list[Columns]:
        """The rows of `carriers`."""
        return [(term, carrier, self.terms[term - 1].polls[carrier] if polls is None else polls,
                 *others) for term, carrier, polls, *others in CARRIERS]

    def event_rows(self, ended_ms: Sequence[int]) -> list[Columns]:
        """The rows of `events`, likewise."""
        rows = list[Columns]()
        for number, (term, step, *columns) in enumerate(EVENTS, 1):
            tick = self.ticks[term, step]
            rows.append((number, term, tick, self.ms_of(tick, term, ended_ms), *columns))
        return rows
