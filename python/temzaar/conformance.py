"""Judges a client by the table "Conformance" of docs/LINK.md. A stage has a controller, a relay and the client. Rows are judged by what came from the client."""
import argparse
import random
import re
import time
from collections import Counter
from collections.abc import Callable, Sequence
from concurrent.futures import ThreadPoolExecutor
from contextlib import ExitStack, closing
from itertools import count, pairwise
from typing import NamedTuple

from temzaar import code, pdus
from temzaar.frames import FrameType, hello, number_after
from temzaar.player import PERIOD, Play
from temzaar.process import Command, Controller, connect
from temzaar.relay import Connection, Manner, Relay, cut_and_joined, frame_by_frame, with_one_late, without_tx
from temzaar.sitefile import FREE_PORTS, Site

VERDICTS = PASSED, FAILED, NOT_TRIED = "passed", "failed", "not tried"
# The verdict on a row; and what was seen, or why it was not tried.
Finding = tuple[str, str]
# How many frames of the test source have bursts, and voice on a slot. The share of wrong bits at the edge of reach, and the wrong bits of a weak burst.
BURST_FRAMES, VOICE_FRAMES, VOICE_SLOT, EDGE_SHARE, WEAK_BITS = 130, 16, 1, 0.05, 3
# Seconds: in which a client that was started comes, says HELLO, is back, tries again after REFUSED, and connects again without an answer. Each limit is SLACK
# longer, since a machine may be busy. Then the seconds for which an answer is late, an even pace is waited for, and others are played.
COMING, AT_ONCE, BACK, AGAIN, NO_ANSWER, SLACK, LATE, EVEN, BESIDE = 10.0, 1.0, 2.0, 10.0, 5.0, 2.0, 2.0, 12.0, 6.0
# How many POLLs have an even pace, within which share of a frame; how many a trial waits for; and the most in a second.
PACE_POLLS, PACE_SHARE, MANY, MOST_A_SECOND = 50, 0.01, 30, 25
# How answers reach the client in some trials, and the trials for which it may leave by itself.
MANNERS: dict[str, Callable[[], Manner]] = {"pieces": cut_and_joined, "done": lambda: with_one_late(MANY // 2, LATE), "numbers": lambda: without_tx(1)}
FOR_ALL = ("usual", "hello", "at-once", "pieces", "numbers")
NEED_SOURCE, NO_SOURCE = ("codewords", "reach", "active"), "its command has no {bursts}, so there is no test source"


class NotTried(Exception):
    """A row cannot be tried. The text says why."""


def judged(holds: object, seen: str) -> Finding:
    """The finding of a row that was tried."""
    return PASSED if holds else FAILED, seen


def require(holds: object, why: str) -> None:
    """NotTried: something does not hold, and this is why a row cannot be tried."""
    if not holds:
        raise NotTried(why)


class Given(NamedTuple):
    """A burst that is received: its slot, its word as it comes, and the codeword that was sent, empty for noise. `kind` is `clear`, `weak`, `edge` or `noise`."""
    kind: str
    slot: int
    word: bytes
    sent: bytes = b""


class TestSource:
    """What the client's receiver is given: bursts, no two of them the same, and voice between the last two. `text` is the file that has them (`conform --help`)."""

    def __init__(self) -> None:
        draws, radios = random.Random(11), count(1001)
        self.bursts: list[Given] = []
        self.text = ""

        def request(kind: str, slot: int, flips: list[int]) -> Given:
            """The registration of the next radio, with these bits wrong."""
            octets = pdus.random_access(pdus.REGISTRATION, 0xFFFEC6, next(radios), 1)
            return Given(kind, slot, code.burst_of(octets, flips), code.burst_of(octets))

        self.add_frame(request("clear", 0, []))
        for number in range(BURST_FRAMES):
            edge = request("edge", 1, [place for place in range(code.PLACES) if draws.random() < EDGE_SHARE])
            weak = request("weak", 0, draws.sample(range(1, code.PLACES), WEAK_BITS))
            noise = Given("noise", 0, (draws.getrandbits(code.PLACES) << 4).to_bytes(code.BURST_OCTETS, "big"))
            self.add_frame((weak, noise)[number % 2], edge)
        self.before, self.after = request("clear", 0, []), request("clear", 0, [])
        self.add_frame(self.before)
        self.text += "\n" + f"{VOICE_SLOT} voice\n\n" * VOICE_FRAMES + "\n" * 5
        self.add_frame(self.after)

    def add_frame(self, *bursts: Given) -> None:
        """Adds a frame with these bursts."""
        self.bursts += bursts
        self.text += "".join(f"{it.slot} {code.on_air(it.word).hex().upper()}\n" for it in bursts) + "\n"


class Stage:
    """A controller, a relay before it and a client, until `opened` is closed, for a row of the table. A method judges the row of its name."""

    def __init__(self, options: argparse.Namespace, row: str, opened: ExitStack) -> None:
        self.options, self.row, self.opened, self.site = options, row, opened, Site(options.site)
        self.inner = self.site
        while set(self.inner.ports()) & set(self.site.ports()):
            self.inner = Site(options.site, first_port=FREE_PORTS, link_version=1 if row == "fallback" else options.link_version)
        others = [it["number"] for it in self.site.rows if it["number"] != self.site.control]
        require(row != "beside" or others and "{carrier}" in str(options.command), "it needs a second carrier, and {carrier} in the client's command")
        require(not options.absent and (not options.leaves or row in FOR_ALL), options.absent or options.leaves)
        self.carrier = others[0] if row == "beside" else self.site.control
        self.own, self.connections = self.site.row(self.carrier), list[Connection]()
        if row == "refused":
            self.inner.row(self.carrier)["lpcn"] = next(it for it in range(1, 4095) if it not in self.site.by_lpcn())
        self.serve()
        values = {"host": self.site.address, "carrier": self.carrier, "version": options.link_version, "bursts": options.bursts, **self.own}
        words = [re.sub(r"\{(host|port|carrier|lpcn|version|bursts)\}", lambda it: str(values[it[1]]), word) for word in options.command]
        self.client = opened.enter_context(Command(words)) if words else None

    def serve(self) -> None:
        """Opens the controller, for one row a connection without HELLO, and the relay. SessionFault: one of them cannot be had."""
        self.controller = self.opened.enter_context(Controller(self.options.program, self.inner))
        self.controller.wait_until_served()
        if self.row == "at-once":
            self.opened.enter_context(connect("127.0.0.1", self.inner.row(self.carrier)["port"]))
        manner = MANNERS.get(self.row, frame_by_frame)
        relay = Relay(self.site, self.inner, self.carrier, self.connections, manner)
        self.relay = self.opened.enter_context(closing(relay))

    def until(self, is_reached: Callable[[], object], seconds: float) -> bool:
        """Passes everything on until something is reached, the client's program has ended, or the time is up. Whether it was reached."""
        ends = time.monotonic() + seconds + SLACK
        while not is_reached() and time.monotonic() < ends and (self.client is None or self.client.runs() or self.relay.sides):
            self.relay.turn()
        return bool(is_reached())

    def first(self, frames: int = 1) -> Connection:
        """The first connection on which that many frames have come. NotTried: they do not come."""
        if not self.until(lambda: any(len(it.received) >= frames for it in self.connections), COMING if self.client else self.options.wait):
            self.options.absent = "" if self.connections else "no connection came"
            raise NotTried(f"the client does not come: {self.trouble()}")
        return next(it for it in self.connections if len(it.received) >= frames)

    def up_again(self, seconds: float) -> Finding:
        """Whether a client is up again in time, on another connection."""
        began, count = time.monotonic(), len(self.connections)
        back = self.until(lambda: len(self.connections) > count and self.connections[-1].is_up, seconds)
        return judged(back, f"it was {'' if back else 'not '}up again after {time.monotonic() - began:.1f} s" + ("" if back else f": {self.trouble()}"))

    def trouble(self) -> str:
        """What became of a client that did not do what was waited for."""
        if self.client and not self.client.runs():
            return f"its program {self.client.end_in_words()}"
        causes = ["the end of the controller", *self.controller.find_in_notes(rf"carrier {self.carrier}: .* disconnected: (.*)")]
        state = f"its last connection ended by {causes[-1]}" if any(it.ended for it in self.connections[-1:]) else "its connection is open"
        return state if self.connections else "no connection came"

    def hello(self) -> Finding:
        """Whether each connection has one HELLO, the right one, as its first frame. The relay ends the first connection."""
        first = self.first()
        self.until(lambda: first.ended or len(first.polls()) >= MANY, MANY * PERIOD)
        self.relay.end(self.carrier)
        self.until(lambda: self.connections[-1] is not first and self.connections[-1].polls(), BACK)
        right = hello(self.carrier, self.own["lpcn"], first.cutter.version or 1)
        for number, frames in enumerate((it.frames() for it in self.connections if it.received), 1):
            hellos = [it.octets() for it in frames if it.kind == FrameType.HELLO]
            if hellos != [right] or frames[0].kind != FrameType.HELLO:
                return judged(False, f"connection {number} began with {frames[0].octets().hex().upper()} and had {len(hellos)} HELLO")
        return judged(True, f"{right.hex().upper()} began each connection, with no other HELLO; connections: {len(self.connections)}")

    def at_once(self) -> Finding:
        """Whether HELLO comes at once, so that a connection which was there before is displaced."""
        first = self.first()
        self.until(lambda: first.is_up, AT_ONCE)
        pause = first.received[0][0] - first.opened
        seen = f"HELLO came {pause:.1f} s after the connection, and {'another one without HELLO made way' if first.is_up else self.trouble()}"
        return judged(first.is_up and pause <= AT_ONCE + SLACK, seen)

    def pieces(self) -> Finding:
        """Whether the client goes on if answers come octet by octet and in one piece, in turns."""
        first = self.first()
        self.until(lambda: first.ended or len(first.polls()) >= MANY, 4 * MANY * PERIOD)
        goes_on = len(first.polls()) >= MANY or len(first.polls()) > 2 and first.frames(FrameType.BYE)
        return judged(goes_on, f"{len(first.polls())} POLLs, whose answers came octet by octet and in one piece" + ("" if goes_on else f"; {self.trouble()}"))

    def done(self) -> Finding:
        """Whether the client sends no other POLL before an answer that is late, and then polls as before."""
        first = self.first(2)
        self.until(lambda: first.ended, MANY * PERIOD + LATE)
        late = next((before for before, after in pairwise(first.polls()) if after - before >= LATE), 0.0)
        polls = sum(late <= it <= late + LATE + 1 for it in first.polls())
        if first.ended or not late:
            return judged(False, f"it did not go on after an answer that was {LATE:.0f} s late: {self.trouble()}")
        return judged(polls <= MOST_A_SECOND, f"{polls} POLLs, from one whose answer was {LATE:.0f} s late to a second after that answer")

    def numbers(self) -> Finding:
        """Whether the client ends the connection if a TX is missing."""
        first = self.first(2)
        require(first.cutter.version == 2, "it speaks version 1")
        self.until(lambda: first.ended, BACK)
        what = "said BYE" if first.frames(FrameType.BYE) else "ended the connection" if first.ended else "went on"
        return judged(what.startswith("ended"), f"TX 2 came after TX 0, and it {what}")

    def fallback(self) -> Finding:
        """Whether the client falls back to version 1, and keeps to it on its next connection."""
        require(self.first().cutter.version == 2, "it speaks version 1")
        if self.up_again(BACK)[0] == PASSED:
            self.relay.end(self.carrier)
            self.up_again(BACK)
        versions = [it.cutter.version for it in self.connections if it.received]
        kept = versions == [2, 1, 1] and self.connections[-1].is_up
        return judged(kept, "BadVersion, then version 1 on its next connections" if kept else f"its connections had the versions {versions}; {self.trouble()}")

    def comes_back(self) -> Finding:
        """Whether the client comes back after the controller was stopped and started."""
        self.first(2)
        self.relay.close()
        self.controller.stop()
        time.sleep(1)
        self.serve()
        return self.up_again(BACK)

    def died(self) -> Finding:
        """Whether the client comes back if nothing is passed on any more and its connection stays open."""
        self.first(3)
        self.relay.let_die(self.carrier)
        return self.up_again(NO_ANSWER + BACK)

    def refused(self) -> Finding:
        """Whether the client waits before it tries again after WrongCarrier."""
        began, tries = self.first().opened, len(self.connections)
        again = self.until(lambda: len(self.connections) > tries, AGAIN + SLACK)
        pause = self.connections[-1].opened - began
        return judged(again and pause > 0.9 * AGAIN, f"after WrongCarrier it tried again in {pause:.1f} s" if again else f"it did not try again: {self.trouble()}")

    def beside(self) -> Finding:
        """Whether the client polls as another carrier, while the control carrier and its radios are played."""
        first = self.first(2)
        play = Play(Site(self.controller.path, 1), argparse.Namespace(radios=16, seed=1, link_version=None, seconds=BESIDE, polls=0, fast=False, troubles=0.0))
        with ThreadPoolExecutor(1) as others:
            playing = others.submit(play.run)
            self.until(lambda: first.ended, BESIDE)
        faults = [f"{count} {name}" for name, count in play.judge().items()] + [self.trouble()] * first.ended + [str(playing.exception() or "")]
        seen = f"{len(first.polls())} POLLs, while {play.radios.acknowledged} radios registered"
        return judged(len(first.polls()) >= MANY and not any(faults), "; ".join([seen, *filter(None, faults)]))


class Usual:
    """The trial in which the client receives what the test source has, and polls. A method judges the row of its name."""

    def __init__(self, stage: Stage) -> None:
        self.connections, self.options, self.source = stage.connections, stage.options, TestSource()
        self.given = self.source.bursts if self.options.bursts else []
        stage.first(2)
        if self.given:
            stage.until(lambda: any(it.burst().word == self.given[-1].sent for it in self.connections[-1].frames(FrameType.RX)), 2 * PERIOD * (BURST_FRAMES + VOICE_FRAMES))
        stage.until(lambda: self.pace()[0] == PASSED, EVEN)
        if self.connections[-1].frames(FrameType.BYE):
            self.options.leaves = f"it leaves by itself after {len(self.connections[-1].polls())} POLLs"
        self.received = [it for connection in self.connections for it in connection.frames()]
        self.came = {it.burst()[1:] for it in self.received if it.kind == FrameType.RX}
        self.pairs = [pair for it in self.connections for pair in pairwise([frame.burst() for frame in it.frames(FrameType.RX)])]

    def frames(self) -> Finding:
        """Whether everything is a frame."""
        faults = [f"{it.cutter.fault.value} after " for it in self.connections if it.cutter.fault]
        return judged(not faults, "".join(faults[:1]) + ", ".join(f"{count} {kind.name}" for kind, count in Counter(it.kind for it in self.received).items()))

    def bits(self) -> Finding:
        """Whether clear bursts came as they were sent; without a test source, whether the client sends a codeword."""
        clear = [(it.slot, it.sent) for it in self.given if it.kind == "clear"]
        read = [octets for it in clear or sorted(self.came) if it in self.came and (octets := code.octets_of(it[1]))]
        require(clear or read, NO_SOURCE)
        seen = f"{len(read)} of {len(clear)} clear bursts came as they were sent" if clear else f"codewords among its RX: {len(read)}"
        return judged(len(read) >= len(clear), seen + (f", the first {pdus.read(read[0]).in_words(read[0])}" if read else ""))

    def codewords(self) -> Finding:
        """Whether each burst came as the codeword that was sent or as it was received, and nothing else."""
        read = {it for it in self.given if (it.slot, it.sent) in self.came}
        raw = {it for it in self.given if (it.slot, it.word) in self.came} - read
        others = len(self.came - {(it.slot, word) for it in self.given for word in (it.word, it.sent)})
        seen = f"of {len(self.given)} bursts {len(read)} came as codewords, {len(raw)} as they were received; {others} other RX came"
        return judged(len(read) + len(raw) == len(self.given) and not others, seen)

    def reach(self) -> Finding:
        """Whether nine of ten requests with 5 % wrong bits were read."""
        edge = [(it.slot, it.sent) in self.came for it in self.given if it.kind == "edge"]
        return judged(sum(edge) >= 0.9 * len(edge), f"{sum(edge)} of {len(edge)} requests with 5 % wrong bits were read")

    def pace(self) -> Finding:
        """Whether there is a POLL in each frame."""
        times = max((it.polls()[-PACE_POLLS - 1:] for it in self.connections), key=len)
        require(len(times) > PACE_POLLS or not self.options.leaves, self.options.leaves)
        mean = (times[-1] - times[0]) / PACE_POLLS if len(times) > PACE_POLLS else 0.0
        seen = f"a POLL each {mean * 1000:.1f} ms, the mean of {PACE_POLLS}" if mean else f"{len(times)} POLLs are too few"
        return judged(abs(mean - PERIOD) <= PACE_SHARE * PERIOD, seen)

    def active(self) -> Finding:
        """Whether ACTIVE came for each frame of voice, and no other."""
        words = [it.burst().word if it.kind == FrameType.RX else b"" for it in self.received]
        require({self.source.before.sent, self.source.after.sent} <= set(words), "the bursts before and after the voice did not come")
        voice = self.received[words.index(self.source.before.sent):words.index(self.source.after.sent)]
        right, active = ([it.body for it in frames if it.kind == FrameType.ACTIVE] for frames in (voice, self.received))
        fits = right == active == [bytes([VOICE_SLOT])] * len(right)
        return judged(fits and abs(len(right) - VOICE_FRAMES) <= 2, f"{len(right)} ACTIVE for {VOICE_FRAMES} frames of voice, {len(active) - len(right)} at other times")

    def next(self) -> Finding:
        """Whether each new burst has the next number."""
        new = [(a.number, b.number) for a, b in self.pairs if a[1:] != b[1:]]
        require(new and new[0][0] is not None, "it needs two bursts in version 2")
        wrong = [f"{b} followed {a}" for a, b in new if b != number_after(a)]
        return judged(not wrong, wrong[0] if wrong else f"{len(new) + 1} bursts, from {new[0][0]} to {new[-1][1]}")

    def again(self) -> Finding:
        """Whether a burst that came again has its number. No two bursts of the test source are the same."""
        again = [a.number == b.number for a, b in self.pairs if a[1:] == b[1:] and a.number is not None]
        require(self.given and again, "it retransmitted nothing")
        return judged(all(again), f"{sum(again)} of {len(again)} bursts that came again have their number")


# What judges the rows: the usual trial, or a trial of their own. All rows, in the order of the table.
USUAL = {"frames": Usual.frames, "bits": Usual.bits, "codewords": Usual.codewords, "reach": Usual.reach, "pace": Usual.pace, "active": Usual.active, "next": Usual.next,
         "again": Usual.again}
OWN = {"hello": Stage.hello, "pieces": Stage.pieces, "done": Stage.done, "numbers": Stage.numbers, "fallback": Stage.fallback, "return": Stage.comes_back,
       "at-once": Stage.at_once, "died": Stage.died, "refused": Stage.refused, "beside": Stage.beside}
ROWS = tuple("hello frames bits codewords reach transmits pace active pieces done next again numbers fallback return at-once died refused beside".split())


def found(options: argparse.Namespace, row: str, usual: Usual | None = None) -> Finding:
    """What is found of a row, or why it could not be tried. A client that does not come fails some rows."""
    try:
        if usual:
            require(usual.given or row not in NEED_SOURCE, NO_SOURCE)
            return USUAL[row](usual)
        with ExitStack() as opened:
            return OWN[row](Stage(options, row, opened))
    except NotTried as why:
        return FAILED if row in ("hello", "at-once") else NOT_TRIED, str(why)


def judge_usual(options: argparse.Namespace, rows: list[str]) -> dict[str, Finding]:
    """The findings of rows of the usual trial."""
    try:
        with ExitStack() as opened:
            usual = Usual(Stage(options, "usual", opened))
    except NotTried as why:
        return dict.fromkeys(rows, (NOT_TRIED, str(why)))
    return {row: found(options, row, usual) for row in rows}


def judge_rows(options: argparse.Namespace, rows: Sequence[str]) -> dict[str, Finding]:
    """The findings of some rows, in the order of the table."""
    usual = [row for row in rows if row in USUAL]
    findings = (judge_usual(options, usual) if usual else {}) | {row: found(options, row) for row in rows if row in OWN} | {"transmits": (NOT_TRIED, "a person sees this")}
    return {row: findings[row] for row in ROWS if row in rows}
