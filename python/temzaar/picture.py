"""A picture of a served site, made of several answers of its console, and how long each call and request has been seen.

The questions are a generator, which yields lines and is sent their replies. So a tool that waits for each answer asks the same as a service that waits for
many things at once.
"""
from bisect import bisect_left
from collections.abc import Generator
from dataclasses import dataclass, field
from typing import Protocol, TypeVar

from temzaar.console import SlotKey, Status, read_calls, read_lines, read_radios, read_slots

# How many radios a reply to `radios` has at most, and the greatest number that it may be asked from.
RADIOS_A_REPLY, LAST_RADIO = 16, 16777215
# How many requests may wait for a slot: more are not asked for, whatever the console counts.
MOST_WAITING = 32

# What questions find.
Found = TypeVar("Found")
# Something with an age: a call on a slot, or a request in the queue.
Standing = tuple[str, SlotKey | None, str]


class Asked(Protocol):
    """Something that answers lines: a console, or a test's stand-in."""

    def ask(self, line: str) -> list[str]:
        """The lines of the reply to a line."""
        ...


@dataclass
class Picture:
    """The answers of the console at one time. They come one after the other, so a call may end between two of them."""
    status: Status
    slots: dict[SlotKey, str]
    calls: dict[SlotKey, str] = field(default_factory=dict)
    lines: list[str] = field(default_factory=list)

    @property
    def carriers(self) -> list[int]:
        """The numbers of the site's carriers."""
        return sorted({carrier for carrier, _ in self.slots})

    def is_up(self, carrier: int) -> bool:
        """Whether a carrier is up. The control slot hides that, so slot 1 decides."""
        return self.slots.get((carrier, 1), "down") != "down"

    @property
    def control(self) -> int | None:
        """The number of the carrier that has the control channel; None if no slot is the control slot."""
        return next((carrier for (carrier, _), state in self.slots.items() if state == "control"), None)

    @property
    def is_on_air(self) -> bool:
        """Whether radios have a control channel: its carrier is up. The state of the control slot does not say so."""
        return self.control is None or self.is_up(self.control)

    def standings(self) -> list[Standing]:
        """Everything in the picture that has an age."""
        calls: list[Standing] = [("call", slot, parties) for slot, parties in self.calls.items()]
        return calls + [("line", None, parties) for parties in self.lines]


def ask_picture() -> Generator[str, list[str], Picture]:
    """The questions of a picture. ConsoleFault: a reply is not of its form."""
    status = Status((yield "status"))
    picture = Picture(status, read_slots((yield "slots")))
    for carrier in sorted({carrier for (carrier, _), state in picture.slots.items() if state == "call"}):
        picture.calls.update(read_calls((yield f"calls {carrier}")))
    while min(status.counts["lines"], MOST_WAITING) > len(picture.lines):
        more = read_lines((yield f"lines {len(picture.lines) + 1}"))
        picture.lines += more
        if not more:
            break
    return picture


@dataclass(frozen=True)
class RadioList:
    """Registered radios, ascending, and whether these are all of them."""
    radios: tuple[int, ...]
    is_complete: bool

    def has(self, radio: int) -> bool:
        """Whether a radio is one of them."""
        place = bisect_left(self.radios, radio)
        return self.radios[place:place + 1] == (radio,)


def ask_radios(most: int) -> Generator[str, list[str], RadioList]:
    """The questions for the registered radios, `most` of them or a few more. ConsoleFault: a reply is not of its form."""
    found: list[int] = []
    first = 0
    while first <= LAST_RADIO and len(found) < most:
        more = [radio for radio in read_radios((yield f"radios {first}")) if radio >= first]
        found += more
        if len(more) < RADIOS_A_REPLY:
            return RadioList(tuple(found), True)
        first = more[-1] + 1
    return RadioList(tuple(found), first > LAST_RADIO)


def ask_questions(console: Asked, questions: Generator[str, list[str], Found]) -> Found:
    """What questions find, of a console that answers at once."""
    line = next(questions)
    while True:
        try:
            line = questions.send(console.ask(line))
        except StopIteration as done:
            found: Found = done.value
            return found


def take_picture(console: Asked) -> Picture:
    """The picture of a console that answers at once."""
    return ask_questions(console, ask_picture())


@dataclass(frozen=True)
class Age:
    """How long something has been seen, in seconds, and whether it was there at the first look already: then it is older."""
    seconds: float
    is_older: bool


class Ages:
    """The times since which each call and each request has been seen."""

    def __init__(self) -> None:
        # when each was first seen, and whether that was in the first picture; None before the first picture
        self.since: dict[Standing, tuple[float, bool]] | None = None

    def look(self, picture: Picture, now: float) -> None:
        """Records when the calls and requests of a picture were first seen."""
        before = self.since
        new = now, before is None
        self.since = {it: (before or {}).get(it, new) for it in picture.standings()}

    def find(self, standing: Standing, now: float) -> Age | None:
        """The age of something; None if it was never seen."""
        if self.since is None or standing not in self.since:
            return None
        since, is_older = self.since[standing]
        return Age(now - since, is_older)

    def age(self, standing: Standing, now: float) -> str:
        """The age of something, as text; empty if it was never seen."""
        age = self.find(standing, now)
        if age is None:
            return ""
        seconds = int(age.seconds)
        return f"{'>' if age.is_older else ''}{seconds // 60}:{seconds % 60:02}"
