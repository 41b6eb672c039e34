"""Moments, and their text."""
import time
from dataclasses import dataclass


@dataclass(frozen=True)
class Moment:
    """A time: in seconds since 1970, and on a clock that is never set."""
    wall: float
    steady: float

    @classmethod
    def now(cls) -> "Moment":
        """This moment."""
        return cls(time.time(), time.monotonic())


def utc_text(seconds: float, decimals: bool = False) -> str:
    """A time in seconds since 1970, as RFC 3339 has it; with milliseconds if `decimals` says so."""
    whole = time.strftime("%Y-%m-%dT%H:%M:%S", time.gmtime(seconds))
    return f"{whole}.{int(seconds % 1 * 1000):03}Z" if decimals else f"{whole}Z"
