"""Ticks and the clock times that belong to them, if the time of the first tick is known; and windows of ticks."""
import re
from dataclasses import dataclass
from datetime import date, datetime, time, timedelta

from temzaar.faults import ToolFault

# The date of a start that is given as a time of day: it is never shown.
NO_DATE = date(2000, 1, 1)
# The most pages that a session is cut into.
MOST_PAGES = 1000


class ClockFault(ToolFault):
    """A time or a window that is none. The text says which."""


@dataclass(frozen=True)
class Window:
    """The ticks from `first` on, before `end`."""
    first: int
    end: int

    def has(self, tick: int) -> bool:
        """Whether a tick is in the window."""
        return self.first <= tick < self.end

    def pages(self, ticks: int) -> "list[Window]":
        """The window in parts of a number of ticks; the last may be shorter, and has the last tick too. ClockFault: there would be too many."""
        if self.end - self.first > MOST_PAGES * ticks:
            raise ClockFault(f"more than {MOST_PAGES} pages: give a longer --page, or --from and --to")
        starts = range(self.first, max(self.end - 1, self.first + 1), ticks)
        return [Window(first, self.end if first + ticks >= self.end - 1 else first + ticks) for first in starts]


def read_moment(text: str, day: date) -> datetime:
    """A date and time, or a time of day of `day`. ClockFault: it is neither."""
    try:
        moment = datetime.fromisoformat(text) if re.match(r"\d{4}-", text) else datetime.combine(day, time.fromisoformat(text))
    except (ValueError, OverflowError) as fault:
        raise ClockFault(f"not a time: {text!r} (HH:MM:SS, or YYYY-MM-DDTHH:MM:SS)") from fault
    if moment.tzinfo:
        raise ClockFault(f"a time has no zone here: {text!r}")
    return moment


class Clock:
    """The clock of a session: how long a tick lasts, and the clock time of tick 0, if it is known."""

    def __init__(self, tick_ms: int, start: str | None = None) -> None:
        """ClockFault: `start` is not a time."""
        self.tick_ms = tick_ms
        self.start = None if start is None else read_moment(start, NO_DATE)

    def moment(self, tick: int) -> datetime | None:
        """The clock time of a tick."""
        try:
            return None if self.start is None else self.start + timedelta(milliseconds=self.tick_ms * tick)
        except OverflowError:
            return None

    def time_of_day(self, tick: int) -> str:
        """The clock time of a tick, as HH:MM:SS.mmm; empty if it is not known."""
        moment = self.moment(tick)
        return f"{moment:%H:%M:%S}.{moment.microsecond // 1000:03}" if moment else ""

    def full_time(self, tick: int) -> str:
        """The clock time of a tick with its date, if the start has one; empty if it is not known."""
        moment = self.moment(tick)
        if moment is None or self.start is None or self.start.date() == NO_DATE:
            return self.time_of_day(tick)
        return moment.isoformat(timespec="milliseconds")

    def seconds(self, ticks: int) -> float:
        """How long a number of ticks lasts."""
        return self.tick_ms * ticks / 1000

    def ticks_of_minutes(self, minutes: float) -> int:
        """How many ticks a number of minutes has, at least one."""
        return max(1, round(minutes * 60000 / self.tick_ms))

    def tick_of(self, text: str) -> int:
        """The tick that a text names, as its number or as a clock time: then the last tick that is not after it. ClockFault: it is neither.

        A time of day before that of the start belongs to the next day.
        """
        if text.isascii() and text.isdigit() and len(text) < 16:
            return int(text)
        if self.start is None:
            raise ClockFault(f"{text!r} is not a tick, and a clock time needs --start")
        moment = read_moment(text, self.start.date())
        if moment < self.start and not re.match(r"\d{4}-", text):
            moment += timedelta(days=1)
        if moment < self.start:
            raise ClockFault(f"{text!r} is before the start")
        return (moment - self.start) // timedelta(milliseconds=self.tick_ms)

    def window(self, first: str | None, last: str | None, ticks: int) -> Window:
        """The window from one tick or time to another, both inclusive, of a session of `ticks` ticks. ClockFault: it has nothing of the session."""
        begins = 0 if first is None else self.tick_of(first)
        ends = ticks if last is None else min(ticks, self.tick_of(last))
        if begins > ticks:
            raise ClockFault(f"--from is tick {begins}, and the session ends at tick {ticks}")
        if begins > ends:
            raise ClockFault(f"--from is tick {begins}, which is after tick {ends} of --to")
        return Window(begins, ends + 1)
