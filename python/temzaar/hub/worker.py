"""A thread for work that may hang: that of a disk, or of a directory service."""
import asyncio
import queue
import threading
import time
from collections.abc import Callable
from concurrent.futures import Future
from typing import Any, TypeVar

from temzaar.faults import ToolFault

Result = TypeVar("Result")


class Late(ToolFault):
    """Work has not ended in time. The text says after how long."""


class Worker:
    """A thread that does one piece of work after another. Nobody waits longer than `seconds` for it: then the piece goes on without
    anybody, and while it does, others fail at once. The end of the process does not wait for it either."""

    def __init__(self, name: str, seconds: float) -> None:
        self.name, self.seconds = name, seconds
        # each piece, and the future of its result
        self.pieces: queue.SimpleQueue[tuple[Callable[[], Any], Future[Any]] | None] = queue.SimpleQueue()
        self.thread: threading.Thread | None = None
        # when the piece that is being done began; None if none is
        self.began: float | None = None

    async def do(self, work: Callable[[], Result]) -> Result:
        """The result of a piece. Late: it has not ended in time, or an earlier one has not. One that had not begun will not be done."""
        began = self.began
        if began is not None and time.monotonic() - began > self.seconds:
            raise self._late()
        piece = Future[Result]()
        result = asyncio.wrap_future(piece)
        self.pieces.put((work, piece))
        if self.thread is None:
            self.thread = threading.Thread(target=self._run, name=self.name, daemon=True)
            self.thread.start()
        try:
            await asyncio.wait({result}, timeout=self.seconds)
            if not result.done():
                raise self._late()
            return result.result()
        finally:
            result.cancel()

    def _late(self) -> Late:
        return Late(f"it has not ended after {self.seconds:g} s")

    def _run(self) -> None:
        """Does pieces until `close`."""
        while found := self.pieces.get():
            work, piece = found
            if not piece.set_running_or_notify_cancel():
                continue
            self.began = time.monotonic()
            try:
                answer = work()
            except Exception as fault:  # it is raised by `do`
                self.began = None
                piece.set_exception(fault)
            else:
                self.began = None
                piece.set_result(answer)

    def close(self) -> None:
        """Ends the thread, after the piece that is being done."""
        if self.thread is not None:
            self.pieces.put(None)
            self.thread = None
