"""The last hour and the last day, in memory of a fixed size.

Of figures of the site there are samples with the least, the mean and the greatest value. By the controller's records there are counts of calls that ended, of
refused requests and of noise.
"""
import math
from array import array
from collections.abc import Iterable, Iterator, Mapping, Sequence
from dataclasses import dataclass

from temzaar.hub.moment import Moment
from temzaar.records import CAUSES

# The figures of which there are samples.
FIGURES = ("slots_in_use", "slots_up", "queue_length", "longest_wait_seconds", "registered_radios", "carriers_up")
# The spans by their names: the seconds of a sample, and how many samples are kept.
SPANS = {"hour": (5, 720), "day": (120, 720)}
# What is counted: calls by the cause of their end, refused requests, and bursts in which no PDU could be read.
KINDS = (*CAUSES, "refused", "noise")
# How often one of these happened in a sample: what, the sample's number, and how often.
Happened = tuple[str, int, int]


@dataclass(frozen=True)
class Summary:
    """The values of a figure in a sample."""
    least: float
    mean: float
    greatest: float


class Track:
    """A figure's part of all samples of a span. What is not known is NaN."""

    def __init__(self, count: int) -> None:
        self.least, self.total, self.greatest = (array("d", [math.nan]) * count for _ in range(3))

    def set(self, at: int, value: float) -> None:
        """Begins the sample at a place with its first value."""
        self.least[at] = self.total[at] = self.greatest[at] = value

    def add(self, at: int, value: float) -> None:
        """Adds a value to the sample at a place."""
        self.least[at] = min(self.least[at], value)
        self.total[at] += value
        self.greatest[at] = max(self.greatest[at], value)

    def fill(self, at: int, summary: Summary) -> None:
        """Sets the sample at a place that has no picture."""
        self.least[at], self.total[at], self.greatest[at] = summary.least, summary.mean, summary.greatest


class Span:
    """The samples of a span, each of `step` seconds. A sample's number is its time on the steady clock by its step."""

    def __init__(self, step: int, count: int) -> None:
        self.step, self.count = step, count
        # the number of the sample at each place, and how many pictures it is of; 0: there is none, but some figures may be known from the records
        self.numbers, self.pictures = (array("q", [0]) * count for _ in range(2))
        self.tracks = {name: Track(count) for name in FIGURES}

    def add(self, values: Mapping[str, float], now: Moment) -> None:
        """Adds the figures of a picture."""
        number = int(now.steady // self.step)
        at = number % self.count
        is_new = self.numbers[at] != number or not self.pictures[at]
        self.numbers[at], self.pictures[at] = number, 1 if is_new else self.pictures[at] + 1
        for name, track in self.tracks.items():
            (track.set if is_new else track.add)(at, values[name])

    def refill(self, name: str, number: int, summary: Summary, now: Moment) -> None:
        """Sets what the records have of a figure in a sample without a picture, if it is one of the last ones, and before that of now."""
        at, newest = number % self.count, int(now.steady // self.step)
        if not newest - self.count < number < newest or (self.pictures[at] and self.numbers[at] == number):
            return
        if self.numbers[at] != number or self.pictures[at]:
            self.numbers[at], self.pictures[at] = number, 0
            for track in self.tracks.values():
                track.set(at, math.nan)
        self.tracks[name].fill(at, summary)

    def places(self, now: Moment) -> list[int | None]:
        """The place of each sample up to now, oldest first, that of now too; None for a sample of which nothing is known."""
        newest = int(now.steady // self.step)
        return [self._place(number) for number in range(newest - self.count + 1, newest + 1)]

    def _place(self, number: int) -> int | None:
        """The place of the sample with a number; None if there is none."""
        at = number % self.count
        return at if self.numbers[at] == number else None

    def begins(self, now: Moment) -> float:
        """When the oldest sample begins, in seconds since 1970."""
        return now.wall - now.steady + (now.steady // self.step - self.count + 1) * self.step

    def summaries(self, name: str, places: list[int | None]) -> Iterator[Summary | None]:
        """The summary of a figure at each place; None if it is not known."""
        track = self.tracks[name]
        for at in places:
            if at is None or math.isnan(track.total[at]):
                yield None
            else:
                yield Summary(track.least[at], track.total[at] / max(1, self.pictures[at]), track.greatest[at])


class Samples:
    """The samples of all spans."""

    def __init__(self) -> None:
        self.spans = {name: Span(step, count) for name, (step, count) in SPANS.items()}

    def add(self, values: Mapping[str, float], now: Moment) -> None:
        """Adds the figures of a picture to each span."""
        for span in self.spans.values():
            span.add(values, now)

    def refill(self, name: str, used: Mapping[str, Sequence[tuple[int, Summary]]], now: Moment) -> None:
        """Sets what the records have of a figure in samples without a picture, by the names of the spans: the number of each sample, and its summary."""
        for span, found in used.items():
            for number, summary in found:
                self.spans[span].refill(name, number, summary, now)


class CountSpan:
    """The counts of a span, in samples of `step` seconds. A sample's number is its time since 1970 by its step."""

    def __init__(self, step: int, count: int) -> None:
        self.step, self.count = step, count
        # the number of the sample at each place, and its counts
        self.numbers = array("q", [-1]) * count
        self.counts = {kind: array("q", [0]) * count for kind in KINDS}

    def oldest(self, now: float) -> int:
        """The number of the oldest sample of which there is a count."""
        return int(now // self.step) - self.count + 1

    def add(self, happened: Iterable[Happened], now: float) -> None:
        """Adds counts. What is not in the span that ends now is left out, and so is a cause that is not known. Samples later than now are
        forgotten: the clock was set back since they were counted."""
        newest = int(now // self.step)
        for at, number in enumerate(self.numbers):
            if number > newest:
                self.numbers[at] = -1
        for kind, number, times in happened:
            if not newest - self.count < number <= newest:
                continue
            at = number % self.count
            if number != self.numbers[at]:
                self.numbers[at] = number
                for counts in self.counts.values():
                    counts[at] = 0
            if kind in self.counts:
                self.counts[kind][at] += times

    def of(self, kind: str, now: float) -> list[int]:
        """The counts of all samples up to now, oldest first."""
        oldest, counts = self.oldest(now), self.counts[kind]
        return [counts[number % self.count] if self.numbers[number % self.count] == number else 0 for number in range(oldest, oldest + self.count)]


def count_spans() -> dict[str, CountSpan]:
    """The counts of all spans, by their names."""
    return {name: CountSpan(step, count) for name, (step, count) in SPANS.items()}
