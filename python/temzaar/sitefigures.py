"""What a site file amounts to: its values, defaults included, times in seconds, and what follows from several keys together."""
import ipaddress
from collections.abc import Iterator, Mapping
from dataclasses import dataclass
from typing import Any

from temzaar.sitekeys import CARRIER_KEYS, KEYS, SITE_KEYS, WAIT_MS, Content, SiteKey, Unit
from temzaar.sitetext import is_number, is_pair

# A base station polls once in a TDMA frame (docs/LINK.md, "Timing").
POLL_MS = 60
# docs/OPERATING.md, "What to watch": memory grows up to 568 octets for each entry of a term, and for each port and two more.
ENTRY_OCTETS, MORE_PORTS = 568, 2
SLOTS = 2
# Keys whose values are mostly written so.
HEXADECIMAL = ("system", "regi", "tsi")


def seconds_in_words(milliseconds: float) -> str:
    """A time as people read it."""
    if milliseconds < 1000:
        return f"{milliseconds:.0f} ms"
    seconds = milliseconds / 1000
    if seconds < 120:
        return f"{seconds:.1f} s"
    minutes, rest = divmod(round(seconds), 60)
    return f"{minutes} min {rest} s" if minutes < 120 else f"{minutes // 60} h {minutes % 60} min"


@dataclass(frozen=True)
class Range:
    """Radios from a first to a last number."""
    first: int
    last: int

    def __contains__(self, number: int) -> bool:
        return self.first <= number <= self.last

    def __str__(self) -> str:
        return f"{self.first} to {self.last}"


class Figures:
    """The values of a site file, as far as each can be used, and what follows from them. None: a value that is needed is missing or at fault."""

    def __init__(self, values: Mapping[str, Any]) -> None:
        self.values = values

    def number(self, name: str) -> int | None:
        """The number of a key, or its default; none if it is at fault."""
        key = SITE_KEYS[name]
        value = self.values.get(name, key.default)
        return value if is_number(value) and key.least <= value <= key.most else None

    def milliseconds(self, name: str) -> int | None:
        """How long a key that counts ticks, waits or milliseconds is."""
        value, tick = self.number(name), self.number("tick_ms")
        parts = {Unit.TICKS: tick, Unit.WAITS: WAIT_MS, Unit.MILLISECONDS: 1}
        part = parts.get(SITE_KEYS[name].unit)
        return None if value is None or part is None else value * part

    def rows(self) -> list[tuple[int, Mapping[str, Any]]]:
        """The tables of carriers with their indices."""
        found = self.values.get("carrier")
        return [(number, it) for number, it in enumerate(found) if isinstance(it, dict)] if isinstance(found, list) else []

    def ranges(self) -> list[tuple[int, Range]]:
        """The ranges of radios with their indices, in order, also those that reach too far."""
        found = self.values.get("radios")
        pairs = [(number, Range(*it)) for number, it in enumerate(found) if is_pair(it)] if isinstance(found, list) else []
        return [(number, it) for number, it in pairs if it.first <= it.last]

    def groups(self) -> list[tuple[int, int]]:
        """The talkgroups with their indices."""
        found = self.values.get("groups")
        return [(number, it) for number, it in enumerate(found) if is_number(it)] if isinstance(found, list) else []

    def address(self) -> ipaddress.IPv4Address | None:
        """The address that the ports are opened on."""
        default = SITE_KEYS["address"].default
        found = self.values.get("address", list(default) if isinstance(default, tuple) else None)
        is_right = isinstance(found, list) and len(found) == 4 and all(is_number(it) and 0 <= it <= 255 for it in found)
        return ipaddress.IPv4Address(bytes(found)) if is_right else None

    def count_radios(self) -> int:
        """How many radios may register; a radio of several ranges counts once."""
        count, reached = 0, 0
        for item in sorted((it for _, it in self.ranges()), key=lambda it: it.first):
            count += max(0, item.last - max(item.first, reached + 1) + 1)
            reached = max(reached, item.last)
        return count

    def memory_mib(self) -> float | None:
        """The memory that terms may take, in MiB, if base stations flood the site."""
        entries, ports = self.number("term_entries"), len(self.rows()) + 1
        return None if entries is None else ENTRY_OCTETS * entries * (ports + MORE_PORTS) / (1 << 20)

    def term_ms(self) -> float | None:
        """How long a term lasts while base stations only poll."""
        entries, tick = self.number("term_entries"), self.number("tick_ms")
        return None if entries is None or tick is None else entries / (len(self.rows()) / POLL_MS + 1 / tick)


@dataclass(frozen=True)
class Line:
    """A line of the explanation: a key, its value, what that amounts to, and what it is. `is_default`: the file does not have the key."""
    key: str
    value: str
    amounts: str
    what: str
    is_default: bool = False


def value_in_words(key: SiteKey, values: Mapping[str, Any]) -> str:
    """The value of a key with one number, or of the address."""
    value = values.get(key.name, key.default)
    if value is None:
        return "-"
    return ".".join(map(str, value)) if isinstance(value, (list, tuple)) else str(value)


def amounts_to(key: SiteKey, figures: Figures) -> str:
    """What the value of a key amounts to, if that is more than the number."""
    milliseconds = figures.milliseconds(key.name)
    if milliseconds is not None and key.unit != Unit.MILLISECONDS:
        return seconds_in_words(milliseconds)
    term, memory = figures.term_ms(), figures.memory_mib()
    if key.name == "term_entries" and term is not None and memory is not None:
        return f"{seconds_in_words(term)} of polls; up to {memory:.0f} MiB"
    value = figures.number(key.name)
    if key.name in HEXADECIMAL and value is not None:
        return f"0x{value:X}"
    wait = figures.milliseconds("ahoy_wait")
    tries = figures.number("ahoy_tries")
    return f"{seconds_in_words(wait * tries)} in all" if key.name == "ahoy_tries" and wait is not None and tries is not None else ""


def explain_site(values: Mapping[str, Any]) -> Iterator[Line]:
    """The lines of the explanation: keys that are right, in the order of docs/SITE_FILE.md."""
    figures = Figures(values)
    for key in KEYS:
        is_default = key.name not in values
        if key.content == Content.NUMBER and (figures.number(key.name) is not None or is_default and not key.required):
            yield Line(key.name, value_in_words(key, values), amounts_to(key, figures), key.what, is_default)
        elif key.name == "address" and figures.address() is not None:
            yield Line(key.name, str(figures.address()), "", key.what, is_default)
        elif key.name == "radios" and not is_default:
            count = len(figures.ranges())
            yield Line(key.name, f"{count} range{'s' * (count != 1)}", f"{figures.count_radios()} radios", key.what)
        elif key.name == "groups" and not is_default:
            yield Line(key.name, str(len(figures.groups())), "", key.what)
        elif key.name == "carrier" and not is_default:
            count = len(figures.rows())
            yield Line(key.name, str(count), f"{max(0, count * SLOTS - 1)} slots for calls", key.what)
    for number, row in figures.rows()[:SITE_KEYS["carrier"].many]:
        said = [f"{name} {row[name]}" for name in CARRIER_KEYS if is_number(row.get(name))]
        is_control = is_number(row.get("number")) and row["number"] == figures.number("control")
        yield Line(f"[[carrier]] {number + 1}", *(said[:1] or ["-"]), ", ".join(said[1:]), "the control carrier" if is_control else "a carrier")
