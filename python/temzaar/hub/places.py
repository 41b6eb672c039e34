"""Who has a place: which connections are served at once, for lines and for HTTP alike.

A connection takes a place once its user's role is known. If there is none for a newcomer, the connection that has said nothing for
longest has to leave.
"""
import contextlib
import time
from collections.abc import Callable, Iterable, Iterator
from dataclasses import dataclass

from temzaar.hub.roles import Role

# Seconds for which a connection may say nothing before it has to leave for a newcomer.
SILENT_SECONDS = 0.1
# How many connections that are refused have a moment each, in which their peers can read why.
MOST_REFUSED = 64


class NoPlace(Exception):
    """There is no place for a connection. `reason` is `full`, or `user full` if only its user has too many."""

    def __init__(self, reason: str) -> None:
        super().__init__(reason)
        self.reason = reason


@dataclass(eq=False)
class Place:
    """The place of a connection. `give_way` ends the connection. `has_spoken`: a whole line or request came."""
    user: str
    role: Role
    give_way: Callable[[], None]
    since: float
    has_spoken: bool = False


class Places:
    """All places: `most` of them, `of_a_user` for one user at most, and `kept` that only users with the role `full` may take."""

    def __init__(self, most: int, of_a_user: int, kept: int = 0) -> None:
        self.most, self.of_a_user, self.kept = most, of_a_user, kept
        # in the order in which they were taken
        self.taken: dict[Place, None] = {}
        self.refused = 0

    def take(self, user: str, role: Role, give_way: Callable[[], None]) -> Place:
        """Takes a place. NoPlace: there is none, and nobody who may give way has been silent."""
        own = [it for it in self.taken if it.user == user]
        if len(own) >= self.of_a_user:
            self._free(own, "user full")
        if not self._has_room(role):
            self._free((it for it in self.taken if it.role <= role), "full")
        place = Place(user, role, give_way, time.monotonic())
        self.taken[place] = None
        return place

    def _has_room(self, role: Role) -> bool:
        """Whether there is a place for somebody with a role."""
        others = sum(it.role < Role.FULL for it in self.taken)
        return len(self.taken) < self.most and (role == Role.FULL or others < self.most - self.kept)

    def _free(self, candidates: Iterable[Place], reason: str) -> None:
        """Ends the connection that has been silent longest. NoPlace: none has been for long enough."""
        latest = time.monotonic() - SILENT_SECONDS
        place = next((it for it in candidates if not it.has_spoken and it.since <= latest), None)
        if place is None:
            raise NoPlace(reason)
        self.leave(place)
        place.give_way()

    def leave(self, place: Place) -> None:
        """Leaves a place, if the connection still has it."""
        self.taken.pop(place, None)

    @contextlib.contextmanager
    def refusing(self) -> Iterator[bool]:
        """A connection is refused meanwhile. Whether its peer has a moment to read why: few enough are being refused."""
        self.refused += 1
        try:
            yield self.refused <= MOST_REFUSED
        finally:
            self.refused -= 1
