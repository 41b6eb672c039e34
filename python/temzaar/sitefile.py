"""The site file (docs/SITE_FILE.md), as far as the tools need it, and changed copies of it that a trial serves on loopback."""
import tomllib
from bisect import bisect_right
from collections.abc import Iterable, Mapping
from dataclasses import dataclass
from itertools import accumulate
from typing import Any

from temzaar.faults import ToolFault, read_text
from temzaar.ports import free_ports
from temzaar.sitekeys import CARRIER_KEYS, SITE_KEYS, WAIT_MS, Content, SiteKey
from temzaar.sitetext import is_number

Row = dict[str, Any]
# The most octets of a site file.
MOST_OCTETS = 1 << 20
# The address that the ports are on if the file names none.
LOOPBACK = (127, 0, 0, 1)
# In the place of a first port: those that nothing uses.
FREE_PORTS = 0


class SiteFault(ToolFault):
    """A site file that a tool cannot use. The text names the file and the key, in the words of the controller."""


# The keys that tools read, the carriers before the number of one of them.
NEEDED = ("regi", "tsi", "leave_bit", "hang", "maximum", "grant_copies", "clear_copies",
          "backoff_low", "backoff_high", "tick_ms", "silence", "link_version", "console_port",
          "address", "radios", "groups", "carrier", "control")


def fault_of_number(key: SiteKey, value: object) -> str:
    """What is wrong with a value that is to be a whole number; empty if nothing is."""
    if not is_number(value):
        return f"wrong type {key.name}"
    return "" if key.least <= value <= key.most else f"out of range {key.name}"


def fault_of_row(row: object) -> str:
    """What is wrong with a table of a carrier; empty if nothing is."""
    if not isinstance(row, dict):
        return "wrong type carrier"
    faults = (fault_of_number(key, row[name]) if name in row else f"missing {name}"
              for name, key in CARRIER_KEYS.items())
    return next(filter(None, faults), "")


def fault_of_array(key: SiteKey, value: object) -> str:
    """What is wrong with a value that is to be an array; empty if nothing is."""
    if not isinstance(value, list):
        return f"wrong type {key.name}"
    if not key.fewest <= len(value) <= key.many:
        return f"{'wrong type' if key.name == 'address' else 'out of range'} {key.name}"
    if key.content is Content.TABLES:
        return next(filter(None, map(fault_of_row, value)), "")
    if key.content is Content.PAIRS:
        if not all(isinstance(it, list) and len(it) == 2 for it in value):
            return f"wrong type {key.name}"
        value = [number for pair in value for number in pair]
    return next(filter(None, (fault_of_number(key, number) for number in value)), "")


def fault_of_key(key: SiteKey, plan: dict[str, Any]) -> str:
    """What is wrong with a key of a site file; empty if nothing is."""
    if key.name not in plan:
        return f"missing {key.name}" if key.required else ""
    value = plan[key.name]
    fault = fault_of_number(key, value) if key.content is Content.NUMBER else fault_of_array(key, value)
    if not fault and key.name == "control" and isinstance(plan.get("carrier"), list) and value not in [row.get("number") for row in plan["carrier"]]:
        return "out of range control"
    return fault


def read_plan(path: str, keys: Iterable[str] = NEEDED) -> dict[str, Any]:
    """The values of a site file. SiteFault: it cannot be read, or one of these keys is not as the tools need it."""
    try:
        plan = tomllib.loads(read_text(path, MOST_OCTETS))
    except ToolFault as fault:
        raise SiteFault(f"site file {fault}") from fault
    except (ValueError, RecursionError) as fault:
        raise SiteFault(f"site file {path}: not TOML: {fault}") from fault
    for key in keys:
        if fault := fault_of_key(SITE_KEYS[key], plan):
            raise SiteFault(f"site file {path}: {fault}")
    return plan


def address_of(plan: Mapping[str, Any]) -> str:
    """The address that the ports are on, of the values of a site file."""
    return ".".join(map(str, plan.get("address", LOOPBACK)))


@dataclass(frozen=True)
class ConsolePlace:
    """A site's console, and the seconds without an octet after which the controller closes a connection to it. Then how many entries a term has, and how long
    a tick lasts; 0 if that is not known."""
    address: str
    port: int
    silence_seconds: float
    term_entries: int = 0
    tick_ms: int = 0

    @property
    def name(self) -> str:
        """The console, as ADDRESS:PORT."""
        return f"{self.address}:{self.port}"


def read_console_place(path: str) -> ConsolePlace:
    """The console of a site file. SiteFault: the file cannot be read, or has no console."""
    plan = read_plan(path, ("address", "console_port", "silence"))
    entries, tick = (plan.get(key, SITE_KEYS[key].default) for key in ("term_entries", "tick_ms"))
    return ConsolePlace(address_of(plan), plan["console_port"], plan["silence"] * WAIT_MS / 1000, entries if isinstance(entries, int) else 0, tick if isinstance(tick, int) else 0)


class Site:
    """A site: the values of its file, and its carriers.

    SiteFault: the file cannot be used. `carriers` is the greatest number of carriers that are kept, the control carrier always among them. With `first_port` the console listens on that port of
    the loopback address and the carriers on the ports after it; with FREE_PORTS on ports that nothing uses. `changes` are other keys of the file.
    """

    def __init__(self, path: str, carriers: int = 16, first_port: int | None = None, **changes: Any) -> None:
        self.plan = read_plan(path)
        rows: list[Row] = sorted(self.plan["carrier"], key=lambda row: (row["number"] != self.plan["control"], row["number"]))[:carriers]
        if first_port is not None:
            first = free_ports(1 + len(rows)) if first_port == FREE_PORTS else first_port
            for number, row in enumerate(rows):
                row["port"] = first + 1 + number
            self.plan["console_port"], self.plan["address"] = first, [*LOOPBACK]
        self.plan["carrier"] = sorted(rows, key=lambda row: row["number"])
        self.plan.update(changes)

    @property
    def rows(self) -> list[Row]:
        """The carriers, by number."""
        return self.plan["carrier"]

    @property
    def control(self) -> int:
        """The number of the carrier with the control slot."""
        return self.plan["control"]

    @property
    def address(self) -> str:
        """The address that the ports are on."""
        return address_of(self.plan)

    @property
    def console_port(self) -> int:
        """The port of the operator's console."""
        return self.plan["console_port"]

    @property
    def link_version(self) -> int:
        """The greatest version of the link that the site serves."""
        return self.plan.get("link_version", 1)

    def ports(self) -> list[int]:
        """The ports of the console and of the carriers."""
        return [self.console_port, *(row["port"] for row in self.rows)]

    def by_lpcn(self) -> dict[int, int]:
        """The number of each carrier, by its logical physical channel number."""
        return {row["lpcn"]: row["number"] for row in self.rows}

    def row(self, number: int) -> Row:
        """The carrier of a number."""
        return next(row for row in self.rows if row["number"] == number)

    def shift_ports(self, shift: int) -> None:
        """Moves the console and all carriers to ports of the loopback address that are `shift` higher."""
        self.plan["console_port"] += shift
        self.plan["address"] = [*LOOPBACK]
        for row in self.rows:
            row["port"] += shift

    def text(self) -> str:
        """The site file; keys that no site file has, of another type, are left out."""
        lines = [f"{key} = {value}" for key, value in self.plan.items() if key != "carrier" and isinstance(value, int | list) and not isinstance(value, bool)]
        for row in self.rows:
            lines += ["[[carrier]]"] + [f"{key} = {row[key]}" for key in CARRIER_KEYS]
        return "\n".join(lines) + "\n"

    def radios(self, count: int) -> list[int]:
        """At most `count` of the radios that the site admits, spread over its ranges."""
        ranges = [range(first, last + 1) for first, last in self.plan["radios"]]
        total = sum(map(len, ranges))
        places = range(0, total, max(1, total // count))[:count]
        # a site may admit millions of radios, so they are counted through and not listed
        starts = list(accumulate(map(len, ranges), initial=0))
        within = [(place, bisect_right(starts, place) - 1) for place in places]
        return [ranges[number][place - starts[number]] for place, number in within]

    def register_options(self) -> int:
        """The options of a request that registers, if the site distinguishes joining from leaving by an option bit."""
        return 1 << self.plan["leave_bit"] if "leave_bit" in self.plan else 0
