"""What keeps the hub's one loop turning: long work does one piece in a turn and has a part of the time, and what users ask comes at a pace."""
import asyncio
from collections.abc import Awaitable, Callable
from typing import TypeVar

Result = TypeVar("Result")
# The part of the time that long work takes, and seconds of it that may pass before it waits for the first time.
SHARE, AHEAD_SECONDS = 0.25, 0.05
# How many users have a pacer, before those that rest are forgotten.
MOST_PACERS = 1000


async def repeat(work: Callable[[], Awaitable[None] | None], seconds: float) -> None:
    """Does work again and again, with a pause of some seconds after each time, until it is cancelled."""
    while True:
        if (rest := work()) is not None:
            await rest
        await asyncio.sleep(seconds)


class Pacer:
    """Spreads what is done: `per_second` at most, and `at_once` without a wait after a rest."""

    def __init__(self, per_second: float, at_once: int = 1) -> None:
        self.gap, self.next = 1.0 / per_second, 0.0
        self.ahead = (at_once - 1) * self.gap

    async def wait(self) -> None:
        """Waits for the next turn."""
        now = asyncio.get_running_loop().time()
        begins = max(now - self.ahead, self.next)
        self.next = begins + self.gap
        if begins > now:
            await asyncio.sleep(begins - now)


class Paces:
    """A pacer for each user."""

    def __init__(self, per_second: float, at_once: int = 1) -> None:
        self.per_second, self.at_once = per_second, at_once
        self.pacers: dict[str, Pacer] = {}

    async def wait(self, user: str) -> None:
        """Waits for a user's next turn."""
        if len(self.pacers) >= MOST_PACERS:
            rested = asyncio.get_running_loop().time() - self.at_once / self.per_second
            self.pacers = {name: it for name, it in self.pacers.items() if it.next > rested}
        if user not in self.pacers:
            self.pacers[user] = Pacer(self.per_second, self.at_once)
        await self.pacers[user].wait()


class LongWork:
    """Work that takes the loop for milliseconds: one piece in a turn, in the order in which they came. If many wait, the loop is
    free for the rest of the time meanwhile."""

    def __init__(self) -> None:
        self.turn, self.free_at = asyncio.Lock(), 0.0

    async def do(self, work: Callable[[], Result]) -> Result:
        """The result of a piece, when its turn comes."""
        loop = asyncio.get_running_loop()
        async with self.turn:
            await asyncio.sleep(max(0.0, self.free_at - loop.time()))
            began = loop.time()
            try:
                return work()
            finally:
                ended = loop.time()
                self.free_at = max(self.free_at, began - AHEAD_SECONDS) + (ended - began) / SHARE
