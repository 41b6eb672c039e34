"""A planned stop: the end of a term, what a site has before it and after it, and what was lost."""
import time
from collections.abc import Callable, Collection, Iterator
from dataclasses import dataclass

from temzaar.console import Console, ConsoleFault, SlotKey
from temzaar.hub.newrecords import signature
from temzaar.picture import RADIOS_A_REPLY, Picture, ask_questions, ask_radios, take_picture
from temzaar.records import RecordedTerm, RecordsFault, opened_records
from temzaar.siterisks import MOST_REGISTERED

# Seconds from one look at the file of records, or at the console, to the next.
LOOK_SECONDS = 0.1
# How many radios are named at most.
MOST_NAMED = 20
# What is said of those that did not come back.
AWAY, GONE = "not back", "no longer in the site file"


@dataclass(frozen=True)
class Seen:
    """What a site had when it was looked at, and when that was on the steady clock."""
    picture: Picture
    radios: frozenset[int]
    at: float

    @property
    def up(self) -> frozenset[int]:
        """The carriers that are up."""
        return frozenset(it for it in self.picture.carriers if self.picture.is_up(it))

    @property
    def calls(self) -> dict[SlotKey, str]:
        """The calls, by slot."""
        return self.picture.calls

    def counts(self) -> str:
        """How much there is, in words."""
        carriers, radios = counted(len(self.up), "carrier"), counted(len(self.radios), "radio")
        calls = counted(len(self.calls), "call")
        lines = counted(len(self.picture.lines), "request in the queue")
        return f"{carriers} up, {radios} registered, {calls}, {lines}"


def counted(count: int, noun: str) -> str:
    """A count and its noun, whose first word has the plural."""
    first, _, rest = noun.partition(" ")
    return f"{count} {first}{'' if count == 1 else 's'} {rest}".rstrip()


def look_at(console: Console) -> Seen:
    """What the site has now. ConsoleFault: the console does not answer, or says something else."""
    picture = take_picture(console)
    radios = ask_questions(console, ask_radios(MOST_REGISTERED + RADIOS_A_REPLY)).radios
    return Seen(picture, frozenset(radios), time.monotonic())


def newest_term(path: str) -> RecordedTerm | None:
    """The newest term of a file of records; None if there is none yet. RecordsFault: the file
    cannot be read."""
    with opened_records(path) as records:
        return records.last_term()


def wait_for_term(path: str, after: RecordedTerm | None, seconds: float) -> RecordedTerm | None:
    """The first term that is recorded after another one. The file has all of it then, since the
    controller lets nobody read before. None: it did not come in time. RecordsFault: the file
    cannot be read."""
    until, known = time.monotonic() + seconds, None
    while time.monotonic() < until:
        found = signature(path)
        if found != known:
            known, term = found, newest_term(path)
            if term and (after is None or term.number > after.number):
                return term
        time.sleep(LOOK_SECONDS)
    return None


class Return:
    """Waits for a site after its controller was started again. `look` opens the console and looks
    at the site. `began` is when the stop began."""

    def __init__(self, look: Callable[[], Seen], began: float) -> None:
        self.look, self.began = look, began
        self.first: Seen | None = None
        self.last: Seen | None = None
        self.fault = ""

    def wait(self, wanted: frozenset[int], until: float) -> None:
        """Looks until these carriers are up, or the time is over."""
        while True:
            try:
                self.last = self.look()
                self.first = self.first or self.last
            except ConsoleFault as fault:
                self.fault = str(fault)
            if (self.last and wanted <= self.last.up) or time.monotonic() >= until:
                return
            time.sleep(LOOK_SECONDS)

    def seconds(self, seen: Seen) -> float:
        """How long after the beginning something was seen."""
        return seen.at - self.began


@dataclass(frozen=True)
class Outcome:
    """What a site had before a stop and after it, and what its new site file has: the carriers, and
    whether a radio may register."""
    before: Seen
    after: Seen
    carriers: frozenset[int]
    lists: Callable[[int], bool]

    def missing_carriers(self) -> list[int]:
        """The carriers that were up and are not, and that the site file has."""
        return sorted((self.before.up & self.carriers) - self.after.up)

    def missing_radios(self) -> list[int]:
        """The radios that were registered and are not, and that the site file lists."""
        return sorted(it for it in self.before.radios - self.after.radios if self.lists(it))

    def lines(self) -> Iterator[str]:
        """What came back, as lines for people."""
        before, after = self.before, self.after
        carriers = named(AWAY, self.missing_carriers()) + named(GONE, before.up - self.carriers)
        unlisted = [it for it in before.radios if not self.lists(it)]
        radios = named(AWAY, self.missing_radios()) + named(GONE, unlisted)
        yield f"carriers: {len(before.up)} up before, {len(after.up)} now{carriers}"
        yield f"radios: {len(before.radios)} registered before, {len(after.radios)} now{radios}"


def named(what: str, numbers: Collection[int]) -> str:
    """Carriers or radios of which something is said, as the end of a line. It is empty if there are
    none."""
    if not numbers:
        return ""
    more = f", and {len(numbers) - MOST_NAMED} more" if len(numbers) > MOST_NAMED else ""
    return f"; {what}: {', '.join(map(str, sorted(numbers)[:MOST_NAMED]))}{more}"


def lost_lines(before: Seen) -> Iterator[str]:
    """What a stop ends, as lines for people."""
    status, lines = before.picture.status, before.picture.lines
    counts = ((len(before.calls), "call"), (len(lines), "request in the queue"),
              (status.counts["asks"], "radio that was called and had not answered"))
    lost = [counted(count, noun) for count, noun in counts if count]
    yield f"lost: {', '.join(lost)}" if lost else "no call was active, and no request waited"
    for (carrier, slot), parties in sorted(before.calls.items()):
        yield f"  call {carrier}/{slot} {parties}"
    for parties in lines:
        yield f"  request {parties}"
    if status.fill != "aloha":
        yield f"  the command `{status.fill}`: repeat it, if radios are still to go there"
