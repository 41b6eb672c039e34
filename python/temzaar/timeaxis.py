"""The axis of a picture of records: time to one scale, with marks at round times."""
from collections.abc import Iterator
from datetime import datetime, time, timedelta

from temzaar.clock import Clock, Window
from temzaar.script import Input

SECOND, MINUTE, HOUR, DAY = 1000, 60_000, 3_600_000, 86_400_000
# The distances of marks in milliseconds, the first one that leaves room for a time.
STEPS = (*(part * size for size in (1, 10, 100) for part in (1, 2, 5)), *(part * size for size in (SECOND, MINUTE) for part in (1, 2, 5, 10, 30)),
         *(part * HOUR for part in (1, 2, 3, 6, 12)))


class TimeAxis:
    """How far to the right each input of a window is. A tick of a session of records is a millisecond."""

    def __init__(self, inputs: list[Input], window: Window, clock: Clock, left: float, right: float) -> None:
        self.window, self.clock, self.left, self.end = window, clock, left, right
        self.scale = (right - left) / max(1, window.end - window.first)
        self.step = STEPS[-1]
        self.at: list[float] = []
        tick = 0
        for it in inputs:
            self.at.append(self.place(tick))
            tick += it.count

    def place(self, tick: int, _: int = 0) -> float:
        """The place of a tick, at the edge if it is outside the window."""
        return self.left + self.scale * (min(max(tick, self.window.first), self.window.end) - self.window.first)

    def labels(self, apart: float) -> Iterator[tuple[int, float]]:
        """The ticks that get a time, and their places: round times, not closer than `apart`."""
        start = self.clock.start
        if start is None:
            return
        days = next((it for it in range(1, 1 << 20) if it * DAY * self.scale > apart), 1)
        self.step = next((it for it in STEPS if it * self.scale > apart), days * DAY)
        since_midnight = (start - datetime.combine(start.date(), time())) // timedelta(milliseconds=1)
        first = -(-(since_midnight + self.window.first) // self.step) * self.step - since_midnight
        for tick in range(first, self.window.end, self.step):
            yield tick, self.place(tick)

    def time_text(self, tick: int) -> str:
        """The time of a mark, as short as the distance of the marks allows."""
        return self.clock.time_of_day(tick)[:12 if self.step < SECOND else 8 if self.step < MINUTE else 5]

    def date_text(self, tick: int) -> str:
        """The date of a mark."""
        moment = self.clock.moment(tick)
        return moment.date().isoformat() if moment else ""
