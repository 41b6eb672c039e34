"""The state of the site, as the last answers of the controller had it, and what earlier ones had."""
from dataclasses import dataclass, field

from temzaar.console import SlotKey
from temzaar.hub.counts import MINUTES, Histogram
from temzaar.hub.moment import Moment
from temzaar.hub.samples import Samples
from temzaar.hub.seencalls import CallLog
from temzaar.hub.termwatch import TermWatch
from temzaar.picture import Ages, Picture, RadioList

# The states of a slot that can have no call.
NO_TRAFFIC = ("control", "down")
# Seconds after which a burst that waits says that a carrier does not poll: the control slot's queue of 64 PDUs takes 64 frames of 60 ms.
UNSENT_SECONDS = 5.0


@dataclass(frozen=True)
class CarrierState:
    """Whether a carrier is up, and since when the hub has seen it so."""
    is_up: bool
    since: Moment


@dataclass
class SiteModel:
    """The last picture and the last list of radios, each with its time. They are kept while the controller is away, as are calls and samples of earlier ones."""
    picture: Picture | None = None
    seen: Moment | None = None
    # when the first picture of this connection to the controller was taken
    first_seen: Moment | None = None
    ages: Ages = field(default_factory=Ages)
    carriers: dict[int, CarrierState] = field(default_factory=dict)
    # the slots whose state is `waiting`, and since when
    waiting: dict[SlotKey, Moment] = field(default_factory=dict)
    watch: TermWatch = field(default_factory=TermWatch)
    radios: RadioList | None = None
    radios_seen: Moment | None = None
    radios_changed: Moment | None = None
    calls: CallLog = field(default_factory=CallLog)
    samples: Samples = field(default_factory=Samples)
    waits: Histogram = field(default_factory=lambda: Histogram("dmr_site_queue_wait_seconds", "How long requests waited for a slot until they left the queue, as the hub saw them.", MINUTES))

    @property
    def control(self) -> int | None:
        """The carrier with the control channel, by the last picture; None if that is not known."""
        return self.picture.control if self.picture else None

    def take_picture(self, picture: Picture, now: Moment) -> None:
        """A picture was taken."""
        self._count_waits(picture, now)
        self.picture, self.seen, self.first_seen = picture, now, self.first_seen or now
        self.ages.look(picture, now.steady)
        before = self.carriers
        self.carriers = {}
        for number in picture.carriers:
            state = CarrierState(picture.is_up(number), now)
            known = before.get(number)
            self.carriers[number] = known if known and known.is_up == state.is_up else state
        self.waiting = {slot: self.waiting.get(slot, now) for slot, state in picture.slots.items() if state == "waiting"}
        self.watch.take_picture(sum(it.is_up for it in self.carriers.values()), now)
        self.calls.look(picture.calls, now)
        self.samples.add(self._figures(picture, now), now)
        self.watch.judge(self.samples.spans["hour"], now)

    def _count_waits(self, picture: Picture, now: Moment) -> None:
        """Counts how long the requests waited that were in the picture before and are not in this one. The age of those that the hub did not see come is not known."""
        for parties in self.picture.lines if self.picture else ():
            age = self.ages.find(("line", None, parties), now.steady)
            if age and not age.is_older and parties not in picture.lines:
                self.waits.observe(age.seconds)

    def _figures(self, picture: Picture, now: Moment) -> dict[str, float]:
        """The figures of a picture of which samples are kept."""
        states, counts = [*picture.slots.values()], picture.status.counts
        return {"slots_in_use": states.count("call"), "slots_up": sum(it not in NO_TRAFFIC for it in states), "queue_length": counts["lines"],
                "longest_wait_seconds": self.longest_wait(picture, now), "registered_radios": counts["radios"],
                "carriers_up": sum(it.is_up for it in self.carriers.values())}

    def longest_wait(self, picture: Picture, now: Moment) -> float:
        """How many seconds the hub has seen the request that has waited longest; 0 if none waits."""
        ages = [age.seconds for parties in picture.lines if (age := self.ages.find(("line", None, parties), now.steady))]
        return max(ages, default=0.0)

    def longest_unsent(self, now: Moment) -> float:
        """How many seconds the slot that has waited longest has waited for a burst to be sent; 0 if none waits."""
        return max((now.steady - since.steady for since in self.waiting.values()), default=0.0)

    def unsent(self, now: Moment, seconds: float = UNSENT_SECONDS) -> dict[SlotKey, Moment]:
        """The slots that have waited so long that a carrier does not poll: their own, or the control carrier."""
        return {slot: since for slot, since in self.waiting.items() if now.steady - since.steady > seconds}

    def take_radios(self, radios: RadioList, now: Moment) -> None:
        """The registered radios were listed."""
        if radios != self.radios:
            self.radios_changed = now
        self.radios, self.radios_seen = radios, now

    def begin(self) -> None:
        """A new connection begins. The site may be another one since a restart, so the ages of what it shows are not known."""
        self.first_seen, self.ages, self.waiting = None, Ages(), {}
        self.watch.begin()
        self.calls.begin()
