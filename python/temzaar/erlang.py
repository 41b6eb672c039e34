"""How many slots a site needs, by Erlang C: requests that wait for a free slot, in their order.

The formula holds if requests come independently of each other (Poisson arrivals). Most calls are
short, and a few long (exponential durations). Nobody leaves the queue.
"""
import dataclasses
import math
from dataclasses import dataclass

from temzaar.sitefigures import SLOTS
from temzaar.sitekeys import SITE_KEYS

MOST_CARRIERS = SITE_KEYS["carrier"].many
# The rows of a plan that are shown before the answer and after it.
SHOWN_BEFORE, SHOWN_AFTER = 2, 1


def lost_share(slots: int, erlang: float) -> float:
    """Erlang B: the share of calls that find no free slot, if such calls are lost."""
    share = 1.0
    for count in range(1, slots + 1):
        share = erlang * share / (count + erlang * share)
    return share


def waiting_share(slots: int, erlang: float) -> float:
    """Erlang C: the share of calls that wait for a free slot. All wait, for ever longer, if the
    traffic is not below the number of slots."""
    if erlang >= slots:
        return 1.0
    lost = lost_share(slots, erlang)
    return slots * lost / (slots - erlang * (1 - lost))


@dataclass(frozen=True)
class Demand:
    """The traffic of the busiest hour, and what is asked of the site. Each of the radios begins
    some calls, which have their slots for some seconds. A share of them may wait longer than `wait`."""
    radios: int
    calls_an_hour: float
    seconds: float
    wait: float
    share: float

    @property
    def erlang(self) -> float:
        """The offered traffic: how many calls were active at a time if none had to wait."""
        return self.radios * self.calls_an_hour * self.seconds / 3600


@dataclass(frozen=True)
class Service:
    """What a demand meets at a site: its slots for calls, and the shares of calls that wait, and
    that wait too long. Then the mean wait of all calls, in seconds."""
    slots: int
    waiting: float
    too_long: float
    mean_wait: float

    @classmethod
    def of(cls, demand: Demand, slots: int) -> "Service":
        """The service of this many slots."""
        waiting, spare = waiting_share(slots, demand.erlang), slots - demand.erlang
        if spare <= 0:
            return cls(slots, 1.0, 1.0, math.inf)
        too_long = waiting * math.exp(-spare * demand.wait / demand.seconds)
        return cls(slots, waiting, too_long, waiting * demand.seconds / spare)

    @property
    def carriers(self) -> int:
        """The carriers with these slots for calls, and one more slot for the control channel."""
        return (self.slots + 1) // SLOTS

    def as_json(self) -> dict[str, object]:
        """The service for machines. A wait without end is null."""
        wait = None if math.isinf(self.mean_wait) else self.mean_wait
        return {"carriers": self.carriers} | dataclasses.asdict(self) | {"mean_wait": wait}


@dataclass(frozen=True)
class Plan:
    """The service of each number of carriers, from one on, and the first that meets the demand."""
    demand: Demand
    services: list[Service]
    chosen: Service | None

    @classmethod
    def of(cls, demand: Demand) -> "Plan":
        """The plan for a demand. None is chosen if a site cannot have as many carriers."""
        services = [Service.of(demand, SLOTS * it - 1) for it in range(1, MOST_CARRIERS + 1)]
        enough = (it for it in services if it.too_long <= demand.share)
        return cls(demand, services, next(enough, None))

    def lines(self) -> list[str]:
        """The plan for people."""
        it, at = self.demand, self.chosen.carriers if self.chosen else MOST_CARRIERS
        shown = self.services[max(0, at - 1 - SHOWN_BEFORE):at + SHOWN_AFTER]
        radios = f"{it.radios} radio{'s' * (it.radios > 1)}"
        calls = f"{it.calls_an_hour:g} calls an hour of {it.seconds:g} s"
        return [f"{radios}, each with {calls}: {it.erlang:.2f} Erlang",
                f"carriers  slots  in use  calls that wait  longer than {it.wait:g} s  mean wait",
                *(self.row(service) for service in shown), self.answer()]

    def row(self, service: Service) -> str:
        """A row of the table."""
        begins = f"{service.carriers:>8}  {service.slots:>5}  "
        if math.isinf(service.mean_wait):
            return f"{begins}too few: the queue grows without end"
        longer = f"longer than {self.demand.wait:g} s"
        return (f"{begins}{self.demand.erlang / service.slots:>6.0%}  {service.waiting:>15.1%}  "
                f"{service.too_long:>{len(longer)}.1%}  {service.mean_wait:>7.1f} s")

    def answer(self) -> str:
        """The last line."""
        it = self.demand
        service = self.chosen or self.services[-1]
        how = "enough" if self.chosen else "too few, and a site can have no more"
        are = "carrier is" if service.carriers == 1 else "carriers are"
        waits = f"{service.too_long:.1%} of calls wait longer than {it.wait:g} s"
        return f"{service.carriers} {are} {how}: {waits}, and {it.share:.1%} may"

    def as_json(self) -> dict[str, object]:
        """The plan for machines."""
        chosen = self.chosen.carriers if self.chosen else None
        rows = [it.as_json() for it in self.services]
        return {"erlang": self.demand.erlang, "carriers": chosen, "services": rows}
