"""Moments that people write and read: dates and times of the machine's zone, and times before now; as numbers, milliseconds since 1970."""
import re
import sys
from collections.abc import Sequence
from datetime import UTC, date, datetime, time, timedelta
from typing import NamedTuple

from temzaar.faults import ToolFault

EPOCH = datetime(1970, 1, 1, tzinfo=UTC)
MILLISECOND = timedelta(milliseconds=1)
# The last millisecond of the calendar, of the year 9999.
LAST_MS = 253_402_300_799_999
# The units of a time before now.
UNITS = {"s": timedelta(seconds=1), "m": timedelta(minutes=1), "h": timedelta(hours=1), "d": timedelta(days=1)}
RELATIVE = re.compile(r"-(\d{1,6})([smhd])", re.ASCII)
DAY = re.compile(r"\d{4}-\d\d-\d\d", re.ASCII)
FORMS = "2026-11-27, 2026-11-27 08:00, 08:00 (today), or -2h (also s, m and d)"


class Span(NamedTuple):
    """A time from one millisecond on, up to another that is not in it."""
    first: int
    end: int


class MomentFault(ToolFault):
    """A text that is not a moment."""


def local_time(milliseconds: int) -> datetime | None:
    """The time of the machine's zone; None if the calendar does not have it."""
    try:
        return (EPOCH + milliseconds * MILLISECOND).astimezone()
    except (OverflowError, ValueError, OSError):
        return None


def milliseconds_of(moment: datetime) -> int:
    """A time with a zone, in milliseconds since 1970."""
    return (moment - EPOCH) // MILLISECOND


def iso_text(milliseconds: int) -> str | None:
    """A time as ISO 8601 has it, with milliseconds and the zone's offset; None if the calendar does not have it."""
    moment = local_time(milliseconds)
    return moment.isoformat(timespec="milliseconds") if moment else None


def short_text(milliseconds: int) -> str:
    """A time for a table, to the second; `-` if the calendar does not have it."""
    moment = local_time(milliseconds)
    return f"{moment:%Y-%m-%d %H:%M:%S}" if moment else "-"


def day_of(text: str, is_end: bool) -> datetime:
    """The beginning of a day without a zone, or its last millisecond. ValueError, OverflowError: it is not a day."""
    begins = datetime.combine(date.fromisoformat(text), time())
    return begins + timedelta(days=1) - MILLISECOND if is_end else begins


def read_moment(text: str, now: datetime, is_end: bool = False) -> int:
    """A moment in one of the FORMS, in milliseconds since 1970. A date alone is the beginning of its day, or its last millisecond if `is_end`.
    MomentFault: it is none of them."""
    try:
        if found := RELATIVE.fullmatch(text):
            return milliseconds_of(now - int(found[1]) * UNITS[found[2]])
        if DAY.fullmatch(text):
            return milliseconds_of(day_of(text, is_end).astimezone())
        if re.match(r"\d{4}-", text):
            return milliseconds_of(datetime.fromisoformat(text).astimezone())
        return milliseconds_of(datetime.combine(now.astimezone().date(), time.fromisoformat(text)).astimezone())
    except (ValueError, OverflowError) as fault:
        raise MomentFault(f"not a time: {text!r}; a time is {FORMS}") from fault


def join_times(words: Sequence[str] | None) -> list[str]:
    """The words of a command line, or those of the process, in which a time before now such as `-2h` belongs to the option before it. argparse takes it for an
    option of its own."""
    joined: list[str] = []
    for word in sys.argv[1:] if words is None else words:
        if joined and joined[-1] in ("--from", "--to") and RELATIVE.fullmatch(word):
            joined[-1] = f"{joined[-1]}={word}"
        else:
            joined.append(word)
    return joined
