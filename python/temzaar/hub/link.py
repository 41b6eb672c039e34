"""The hub's connection to the controller's console: one question at a time, queued fairly, with a time limit; opened again whenever it ends.

While the controller is away each question fails at once, with the reason. A question that was sent and not answered is told apart from one that was not sent:
only the first may have changed the site.
"""
import asyncio
import os
import random
from collections import deque
from collections.abc import Callable
from dataclasses import dataclass, field
from typing import Generic, TypeVar

from temzaar.console import ConsoleFault, ReplyFrame, Status
from temzaar.hub.config import ControllerKeys
from temzaar.hub.counts import HubCounts
from temzaar.hub.lines import AWAY, BUSY
from temzaar.hub.moment import Moment
from temzaar.sitefile import ConsolePlace, SiteFault

Item = TypeVar("Item")
STATUS = b"status"
# The asker of the link's own questions, and of the poller's.
HUB = "hub"
# No text of the controller has more octets than 1,024 (docs/FORMATS.md); this leaves room for a list's `end`, and for later versions.
LONGEST_REPLY = 4096
# How many questions may wait.
MOST_WAITING = 2048
# How long a new connection may wait for its first answer: another operator may hold the console meanwhile.
HELD_SECONDS = 60.0
FIRST_WAIT = 0.1
# The part of `silence` after which a quiet connection is asked for its status.
KEEPALIVE_PART = 0.4


class NoAnswer(Exception):
    """A question has no answer. `was_sent`: the controller may have read it and done what it says."""

    def __init__(self, reason: str, was_sent: bool = False) -> None:
        super().__init__(reason)
        self.reason, self.was_sent = reason, was_sent


class LinkBroken(Exception):
    """The connection has ended, or cannot be used any more. The text says why."""


class FairQueue(Generic[Item]):
    """A queue in which those who ask take turns, so that one who asks a lot delays another by one item at most. The items of one asker leave in their order."""

    def __init__(self) -> None:
        # the askers in the order of their turns; none without an item
        self.waiting: dict[str, deque[Item]] = {}

    def push(self, asker: str, item: Item) -> None:
        """Adds an item. An asker that has none gets the last turn."""
        self.waiting.setdefault(asker, deque()).append(item)

    def pop(self) -> Item | None:
        """Removes the item whose turn it is; None if the queue is empty."""
        if not self.waiting:
            return None
        asker = next(iter(self.waiting))
        items = self.waiting.pop(asker)
        item = items.popleft()
        if items:
            self.waiting[asker] = items
        return item

    def drain(self) -> list[Item]:
        """Removes all items, in the order of their turns."""
        return list(iter(self.pop, None))

    def __len__(self) -> int:
        return sum(map(len, self.waiting.values()))


@dataclass
class LinkState:
    """Whether the controller answers, and since when. If not, `reason` says why."""
    is_up: bool
    reason: str
    since: Moment


@dataclass
class Question:
    """A line that somebody asks. `was_sent`: it went to the controller."""
    asker: str
    line: bytes
    answer: asyncio.Future[bytes]
    was_sent: bool = False

    def settle(self, reply: bytes) -> None:
        """Answers it, if somebody still waits."""
        if not self.answer.done():
            self.answer.set_result(reply)

    def fail(self, reason: str) -> None:
        """Reports that it has no answer, if somebody still waits."""
        if not self.answer.done():
            self.answer.set_exception(NoAnswer(reason, self.was_sent))
            mark_retrieved(self.answer)


class ConsoleProtocol(asyncio.Protocol):
    """A connection to the console: sends a line, and cuts its reply from the octets that come."""

    def __init__(self, on_loss: Callable[[], None]) -> None:
        self.on_loss = on_loss
        self.transport: asyncio.Transport
        self.pending: asyncio.Future[bytes] | None = None
        self.loss: str | None = None
        self.octets = bytearray()
        self.cut = 0
        self.frame = ReplyFrame(b"")

    def connection_made(self, transport: asyncio.BaseTransport) -> None:
        """The connection is open."""
        assert isinstance(transport, asyncio.Transport)
        self.transport = transport

    def ask(self, line: bytes) -> asyncio.Future[bytes]:
        """Sends a line. Its reply, to the octet, will be in the future; LinkBroken if the connection ends first."""
        self.pending = asyncio.get_running_loop().create_future()
        if self.loss is not None:
            self.pending.set_exception(LinkBroken(self.loss))
            mark_retrieved(self.pending)
        else:
            self.frame = ReplyFrame(line)
            self.transport.write(line + b"\n")
        return self.pending

    def data_received(self, data: bytes) -> None:
        """Octets of a reply came."""
        if self.pending is None:
            self.break_off("the controller sent what nobody asked for")
            return
        self.octets += data
        while (end := self.octets.find(b"\n", self.cut)) >= 0:
            is_last = self.frame.take(bytes(self.octets[self.cut:end]))
            self.cut = end + 1
            if not is_last:
                continue
            if self.cut < len(self.octets):
                self.break_off("the controller sent what nobody asked for")
                return
            if not self.pending.done():
                self.pending.set_result(bytes(self.octets))
            self.octets, self.cut, self.pending = bytearray(), 0, None
        if len(self.octets) > LONGEST_REPLY:
            self.break_off("a reply of the controller does not end")

    def connection_lost(self, exc: Exception | None) -> None:
        """The connection has ended."""
        self.lose(f"the connection broke off: {exc}" if exc else "the controller ended the connection")

    def break_off(self, reason: str) -> None:
        """Ends the connection."""
        self.lose(reason)
        self.transport.abort()

    def lose(self, reason: str) -> None:
        """Records the end of the connection, for the question that is pending too."""
        if self.loss is not None:
            return
        self.loss = reason
        if self.pending and not self.pending.done():
            self.pending.set_exception(LinkBroken(reason))
            mark_retrieved(self.pending)
        self.on_loss()


@dataclass
class Backoff:
    """The waits between attempts to connect: each is about twice the one before it, up to the longest."""
    longest: float
    wait: float = FIRST_WAIT

    def reset(self) -> None:
        """The next wait is the shortest."""
        self.wait = FIRST_WAIT

    def next(self) -> float:
        """The next wait, a bit shorter or longer at random."""
        wait, self.wait = min(self.wait, self.longest), min(self.wait * 2, self.longest)
        return wait * random.uniform(0.8, 1.2)


@dataclass
class ConsoleLink:
    """The link. `run` keeps it; `ask` may be called at any time. `read_place` returns the place of the
    console, before each attempt to connect."""
    read_place: Callable[[], ConsolePlace]
    keys: ControllerKeys
    counts: HubCounts
    on_change: Callable[[], None] = lambda: None
    state: LinkState = field(default_factory=lambda: LinkState(False, "the hub has just started", Moment.now()))
    place: ConsolePlace | None = None
    queue: FairQueue[Question] = field(default_factory=FairQueue)
    # how many connections have answered
    connection: int = 0

    def __post_init__(self) -> None:
        self.wake = asyncio.Event()
        self.backoff = Backoff(self.keys.reconnect_seconds)

    async def ask(self, asker: str, line: bytes) -> bytes:
        """The controller's reply to a line, to the octet. NoAnswer: the controller is away, or did not answer in time."""
        if not self.state.is_up:
            self.counts.unanswered.add(asker=kind_of(asker))
            raise NoAnswer(f"{AWAY}: {self.state.reason}")
        loop = asyncio.get_running_loop()
        question = Question(asker, line, loop.create_future())
        if len(self.queue) >= MOST_WAITING:
            question.fail(f"{BUSY}: too many questions wait")
        else:
            self.queue.push(asker, question)
            self.wake.set()
        limit = loop.call_later(self.keys.answer_seconds, self._expire, question)
        try:
            return await question.answer
        except NoAnswer:
            self.counts.unanswered.add(asker=kind_of(asker))
            raise
        finally:
            limit.cancel()

    def _expire(self, question: Question) -> None:
        """Fails a question whose turn has not come in time. One that was sent has its own limit."""
        if not question.was_sent:
            question.fail(f"{BUSY}: the line was not sent in time")

    async def run(self) -> None:
        """Keeps the link until it is cancelled."""
        try:
            while True:
                try:
                    await self._connect()
                except (LinkBroken, SiteFault) as fault:
                    self._go_away(str(fault))
                await asyncio.sleep(self.backoff.next())
        finally:
            self._go_away("the hub ends")

    async def _connect(self) -> None:
        """Connects and serves. LinkBroken: the connection has ended, or there was none. SiteFault: the site file is at fault."""
        self.place = self.read_place()
        loop = asyncio.get_running_loop()
        try:
            async with asyncio.timeout(self.keys.answer_seconds):
                transport, console = await loop.create_connection(lambda: ConsoleProtocol(self.wake.set), self.place.address, self.place.port)
        except TimeoutError as fault:
            raise LinkBroken(f"{self.place.name} did not take the connection in time") from fault
        except OSError as fault:
            raise LinkBroken(f"cannot connect to {self.place.name}: {os.strerror(fault.errno) if fault.errno else fault}") from fault
        try:
            await self._greet(console)
            self._come_up()
            await self._serve(console, self.place.silence_seconds * KEEPALIVE_PART)
        finally:
            transport.abort()

    async def _greet(self, console: ConsoleProtocol) -> None:
        """Waits for the first answer. LinkBroken: there was none, or it is not that of a controller."""
        pending = console.ask(STATUS)
        done, _ = await asyncio.wait({pending}, timeout=self.keys.answer_seconds)
        if not done:
            self._go_away("the console took the connection and does not answer: does another operator hold it?")
            await asyncio.wait({pending}, timeout=HELD_SECONDS)
        if not pending.done():
            raise LinkBroken(f"no answer of the console in {HELD_SECONDS:.0f} s: does another operator hold it?")
        try:
            Status([pending.result().decode("ascii", "replace").rstrip("\n")])
        except (ConsoleFault, ValueError) as fault:
            raise LinkBroken("what answers there is not a controller's console") from fault

    async def _serve(self, console: ConsoleProtocol, keepalive: float) -> None:
        """Asks question after question, and the status when there is none for `keepalive` seconds. LinkBroken: the connection has ended."""
        loop = asyncio.get_running_loop()
        while True:
            question = await self._next_question(console, keepalive)
            began = loop.time()
            try:
                pending = console.ask(question.line)
                question.was_sent = True
                # an answer that came in the turn in which the time was over is an answer
                await asyncio.wait({pending}, timeout=self.keys.answer_seconds)
                if not pending.done():
                    raise LinkBroken(f"no answer in {self.keys.answer_seconds:g} s")
                reply = pending.result()
            except LinkBroken as fault:
                question.fail(str(fault))
                raise
            except asyncio.CancelledError:
                question.fail("the hub ends")
                raise
            self.counts.answer_times.observe(loop.time() - began)
            self.counts.questions.add(asker=kind_of(question.asker))
            question.settle(reply)

    async def _next_question(self, console: ConsoleProtocol, keepalive: float) -> Question:
        """The question whose turn it is, or one for the status. LinkBroken: the connection has ended."""
        loop = asyncio.get_running_loop()
        until = loop.time() + keepalive
        while True:
            self.wake.clear()
            if console.loss is not None:
                raise LinkBroken(console.loss)
            while question := self.queue.pop():
                if not question.answer.done():
                    return question
            try:
                async with asyncio.timeout_at(until):
                    await self.wake.wait()
            except TimeoutError:
                return Question(HUB, STATUS, loop.create_future())

    def _come_up(self) -> None:
        """The console answers."""
        self.backoff.reset()
        self.connection += 1
        self.counts.connects.add()
        self._change(LinkState(True, "", Moment.now()))

    def _go_away(self, reason: str) -> None:
        """The console does not answer: all that waits fails now."""
        if self.state.is_up:
            self.counts.losses.add()
        since = Moment.now() if self.state.is_up else self.state.since
        self._change(LinkState(False, reason, since))
        for question in self.queue.drain():
            question.fail(f"{AWAY}: {reason}")

    def _change(self, state: LinkState) -> None:
        """Takes a new state, and reports it if it is another one."""
        differs = (state.is_up, state.reason) != (self.state.is_up, self.state.reason)
        self.state = state
        if differs:
            self.on_change()


def mark_retrieved(future: asyncio.Future[bytes]) -> None:
    """Keeps asyncio from reporting a failure for which nobody waits any more."""
    future.exception()


def kind_of(asker: str) -> str:
    """Who asks, for counters: the hub itself or an operator."""
    return "hub" if asker == HUB else "operator"
