"""What the hub writes to standard error, a limit of what is written about each user, and what the hub reports to systemd."""
import asyncio
import contextlib
import os
import socket
import sys
from collections import Counter
from collections.abc import Callable

from temzaar.printable import printable

# How many notes of a kind about one user are written in NOTES_SECONDS; of the others, their number.
MOST_NOTES, NOTES_SECONDS = 20, 60.0
# What the journal takes for the level of a warning at the beginning of a line (sd-daemon(3)).
WARNING = "<4>"


def is_journal() -> bool:
    """Whether standard error is a stream of systemd's journal."""
    try:
        state = os.fstat(sys.stderr.fileno())
    except (OSError, ValueError, AttributeError):
        return False
    return os.environ.get("JOURNAL_STREAM") == f"{state.st_dev}:{state.st_ino}"


def note(text: str, level: str = "INFO") -> None:
    """Writes a note, if standard error takes it."""
    mark = WARNING if level == "WARN" and is_journal() else ""
    with contextlib.suppress(OSError, ValueError):
        print(f"{mark}[{level:<5} dmr_hub] {printable(text)}", file=sys.stderr, flush=True)


def warn(text: str) -> None:
    """Writes a note about something that an operator has to look at."""
    note(text, "WARN")


class Quota:
    """`most` of a kind in `seconds` from the first one on."""

    def __init__(self, most: int, seconds: float) -> None:
        self.most, self.seconds = most, seconds
        # how many of each kind came since the first one, and what reports how many were too many
        self.counts, self.reports = Counter[str](), dict[str, Callable[[int], None]]()

    def take(self, kind: str, report: Callable[[int], None]) -> bool:
        """Whether one more is within the limit. If not, `report` is called with the number of those that were not, when the time is over."""
        if kind not in self.counts:
            asyncio.get_running_loop().call_later(self.seconds, self._end, kind)
        self.counts[kind] += 1
        self.reports[kind] = report
        return self.counts[kind] <= self.most

    def _end(self, kind: str) -> None:
        """The time of a kind is over."""
        too_many, report = self.counts.pop(kind, 0) - self.most, self.reports.pop(kind, None)
        if report and too_many > 0:
            report(too_many)

    def end(self) -> None:
        """The time of all kinds is over."""
        for kind in list(self.counts):
            self._end(kind)


class UserNotes:
    """Warnings about users, a limited number of each kind and user."""

    def __init__(self) -> None:
        self.quota = Quota(MOST_NOTES, NOTES_SECONDS)

    def warn(self, kind: str, user: str, text: str) -> None:
        """Writes a warning of a kind about a user, or counts it."""
        if self.quota.take(f"{kind} {user}", lambda more: warn(f"{text} ({more} more of this kind in {NOTES_SECONDS:g} s)")):
            warn(text)


def notify_systemd(state: str) -> None:
    """Reports a state to systemd, if it started the hub (sd_notify(3))."""
    path = os.environ.get("NOTIFY_SOCKET", "")
    if not path.startswith(("/", "@")):
        return
    with contextlib.suppress(OSError), socket.socket(socket.AF_UNIX, socket.SOCK_DGRAM) as stream:
        stream.sendto(state.encode("ascii", "replace"), "\0" + path[1:] if path.startswith("@") else path)


def watchdog_seconds() -> float | None:
    """Within how many seconds systemd expects to hear from the hub again and again; None if it does not."""
    usec, pid = os.environ.get("WATCHDOG_USEC", ""), os.environ.get("WATCHDOG_PID", "")
    if not usec.isdecimal() or not int(usec) or pid not in ("", str(os.getpid())):
        return None
    return int(usec) / 1e6
