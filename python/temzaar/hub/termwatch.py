"""Whether the controller's terms come as they should: what the polls of the last recorded term lack, and whether the next term is overdue.

The controller reports no polls at its console, and records them for the whole site at the end of a term. So a carrier that is up and does not poll shows only here.
"""
from collections import deque
from collections.abc import Callable

from temzaar.hub.moment import Moment
from temzaar.hub.samples import Span
from temzaar.records import RecordedTerm
from temzaar.sitefigures import POLL_MS
from temzaar.sitefile import ConsolePlace

# A term is overdue when by polls and ticks alone it should have had this many times its entries, and not before it has lasted this many seconds.
LATE_FACTOR, LEAST_SECONDS = 1.5, 60.0
# A carrier polls as often as in the best of the last terms, and at least half as often as the air has frames. Two terms in a row have to lack the polls of a carrier.
# Less than this part of all polls does not count.
RATES, LEAST_RATE, TERMS, LEAST_PART = 20, 0.5, 2, 0.05


class TermWatch:
    """The last recorded term, and how many entries are due since it ended. Traffic makes entries too, so a term that is not late never seems so. `find_place`
    returns the site's console, with what the site file says of terms; None while that is not known."""

    def __init__(self, find_place: Callable[[], ConsolePlace | None] = lambda: None) -> None:
        self.find_place = find_place
        self.last: RecordedTerm | None = None
        # since when entries are counted, up to when, and how many are due
        self.since: Moment | None = None
        self.seen: Moment | None = None
        self.due = 0.0
        # whether the last term is to be judged, how often a carrier polled in the last terms, and what they lack
        self.is_new = False
        self.rates: deque[float] = deque(maxlen=RATES)
        self.lacks: deque[float | None] = deque(maxlen=TERMS)

    def begin(self) -> None:
        """A new connection to the controller begins: the term may have begun again."""
        self.since, self.seen, self.due = None, None, 0.0
        self.lacks.clear()

    def take_term(self, last: RecordedTerm) -> None:
        """A term was recorded."""
        self.last, self.since, self.due, self.is_new = last, self.seen, 0.0, True

    def take_picture(self, carriers_up: int, now: Moment) -> None:
        """A picture was taken, on which this many carriers are up."""
        place = self.find_place()
        tick_ms = self.last.tick_ms if self.last else place.tick_ms if place else 0
        if self.seen is not None:
            milliseconds = 1000 * (now.steady - self.seen.steady)
            self.due += milliseconds * (carriers_up * self._rate() / POLL_MS + 1 / (tick_ms or POLL_MS))
        self.since, self.seen = self.since or now, now

    def _rate(self) -> float:
        """How many polls of a carrier come for each frame of the air, at the most in the last terms."""
        return max(LEAST_RATE, *self.rates) if self.rates else 1.0

    def is_overdue(self) -> bool:
        """Whether the next term should have been recorded by now."""
        place = self.find_place()
        entries = max(self.last.counts["entries"] if self.last else 0, place.term_entries if place else 0)
        if not entries or self.since is None or self.seen is None:
            return False
        return self.due > LATE_FACTOR * entries and self.seen.steady - self.since.steady > LEAST_SECONDS

    def judge(self, span: Span, now: Moment) -> None:
        """Compares the polls of a new term with the carriers that were up, by the samples of the hub."""
        if self.last is None or not self.is_new:
            return
        self.is_new = False
        self.lacks.append(self._lack(self.last, span, now))

    def _lack(self, term: RecordedTerm, span: Span, now: Moment) -> float | None:
        """How many carriers' polls a term lacks, of those of the carriers that were up all the time; None if the hub did not see all of it."""
        lasted, places = term.counts["ticks"] * term.tick_ms, span.places(now)
        first, end = (int((wall - span.begins(now)) // span.step) for wall in (term.began_ms / 1000, term.ended_ms / 1000))
        if lasted <= 0 or not 0 <= first <= end < len(places):
            return None
        up = [*span.summaries("carriers_up", places[first:end + 1])]
        known = [it for it in up if it is not None]
        if len(known) < len(up):
            return None
        # as many carriers would make these polls, each 60 ms
        made = term.counts["polls"] * POLL_MS / lasted
        least, most = min(it.least for it in known), max(it.greatest for it in known)
        if not most:
            return 0.0
        self.rates.append(min(1.0, made / most))
        lack = least - made / self._rate()
        return lack if lack > LEAST_PART * least else 0.0

    def missing_polls(self) -> float | None:
        """How many carriers' polls each of the last two recorded terms lacks; None if that is not known."""
        known = [it for it in self.lacks if it is not None]
        return min(known) if len(known) == TERMS else None
