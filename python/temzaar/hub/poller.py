"""Keeps the model of the site up to date, at the rates of the config."""
import asyncio
import contextlib
from collections.abc import Callable, Coroutine, Generator
from dataclasses import dataclass, field
from typing import Any, TypeVar

from temzaar.console import ConsoleFault
from temzaar.hub.config import PollKeys
from temzaar.hub.link import HUB, ConsoleLink, NoAnswer
from temzaar.hub.model import SiteModel
from temzaar.hub.moment import Moment
from temzaar.hub.turn import Pacer
from temzaar.picture import ask_picture, ask_radios

Answer = TypeVar("Answer")
Poll = Callable[[], Coroutine[Any, Any, None]]
# How many registered radios the model holds at most.
MOST_RADIOS = 100_000
SHORTEST_PAUSE = 0.01


@dataclass
class Poller:
    """Asks for pictures and for the registered radios while the controller answers. `on_picture` is called after each picture."""
    link: ConsoleLink
    model: SiteModel
    keys: PollKeys
    early_state: asyncio.Event = field(default_factory=asyncio.Event)
    early_radios: asyncio.Event = field(default_factory=asyncio.Event)
    on_picture: Callable[[], None] = lambda: None

    def __post_init__(self) -> None:
        self.pacer = Pacer(self.keys.questions_per_second)
        self.connection = 0

    def hurry(self) -> None:
        """Polls now: the site has changed, or the controller answers again."""
        self.early_state.set()
        self.early_radios.set()

    async def run(self) -> None:
        """Polls until it is cancelled."""
        async with asyncio.TaskGroup() as tasks:
            tasks.create_task(self._repeat(self._poll_state, self.keys.state_seconds, self.early_state))
            tasks.create_task(self._repeat(self._poll_radios, self.keys.radios_seconds, self.early_radios))

    async def _repeat(self, poll: Poll, seconds: float, early: asyncio.Event) -> None:
        """Polls every `seconds`, or earlier if `early` is set."""
        loop = asyncio.get_running_loop()
        while True:
            began = loop.time()
            early.clear()
            if self.link.state.is_up:
                try:
                    await poll()
                except (NoAnswer, ConsoleFault, ValueError, LookupError):
                    self.link.counts.poll_faults.add()
            with contextlib.suppress(TimeoutError):
                # never without a pause, however long the answers took
                async with asyncio.timeout_at(max(began + seconds, loop.time() + SHORTEST_PAUSE)):
                    await early.wait()

    async def _poll_state(self) -> None:
        """Takes a picture."""
        if self.connection != self.link.connection:
            self.connection = self.link.connection
            self.model.begin()
        self.model.take_picture(await self._ask_all(ask_picture()), Moment.now())
        self.on_picture()

    async def _poll_radios(self) -> None:
        """Lists the registered radios."""
        radios = await self._ask_all(ask_radios(MOST_RADIOS))
        self.model.take_radios(radios, Moment.now())

    async def _ask_all(self, questions: Generator[str, list[str], Answer]) -> Answer:
        """Asks question after question, and what they amount to. NoAnswer, ConsoleFault: one of them failed."""
        line = next(questions)
        while True:
            await self.pacer.wait()
            reply = (await self.link.ask(HUB, line.encode("ascii"))).decode("ascii", "replace").splitlines()
            try:
                line = questions.send(reply[:-1] if reply[-1] == "end" else reply)
            except StopIteration as done:
                answer: Answer = done.value
                return answer
