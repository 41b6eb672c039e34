"""What is risky in a site file that the controller may well accept: each risk with its reason and what to do."""
import difflib
import errno
import ipaddress
import itertools
import socket
from collections.abc import Callable, Iterable, Iterator, Mapping
from dataclasses import dataclass
from typing import Any

from temzaar.sitefigures import POLL_MS, Figures, seconds_in_words
from temzaar.sitekeys import CARRIER_KEYS, SITE_KEYS, WAIT_MS
from temzaar.sitetext import SiteText, Steps, is_number

FIRST_OPEN_PORT = 1024
# As often as this a base station has to be late before it is lost, or a call ends that still has voice.
FEW_POLLS = 10
# An operator's time to type is as long as the time for which a dead connection keeps a port.
LONGEST_SILENCE_MS = 60_000
LARGE_TERMS_MIB = 256
SHORTEST_TERM_MS = 5_000
# Nobody means calls of so few seconds: the number was meant as seconds, and is in ticks.
SHORTEST_MAXIMUM_MS = 20_000
# How many radios a site can have registered at once (docs/SITE_FILE.md).
MOST_REGISTERED = 4096
# A base station that has lost its power is lost after this many waits, if the hub asks the console each second.
USUAL_SILENCE = 15
FAST_TICK_MS = 30
# The pause at the end of a term of 10,000 and of 100,000 entries (docs/OPERATING.md, "Terms").
PAUSE_MS, LONGEST_PAUSE_MS = 2, 8
MOST_LISTED, MOST_RISKS = 8, 1000


@dataclass(frozen=True)
class Row:
    """A table `[[carrier]]`: which one it is, counted from 1, and its carrier number, if that is a number."""
    table: int
    number: int | None

    def __str__(self) -> str:
        return f"[[carrier]] {self.table}" + ("" if self.number is None else f", carrier {self.number}")


@dataclass(frozen=True)
class Risk:
    """A warning: its name, the key that it is about, the reason, what to do, and its line."""
    name: str
    key: str
    reason: str
    remedy: str
    line: int | None = None
    row: Row | None = None


@dataclass(frozen=True)
class Surroundings:
    """What the file does not say: whether an address is one of this machine, and the greatest version of the link that base stations use, if that was said."""
    has_address: Callable[[ipaddress.IPv4Address], bool]
    link_version: int | None = None


def has_address(address: ipaddress.IPv4Address) -> bool:
    """Whether a port can be opened on an address, as the controller will open its ports. A failure for another reason counts as yes."""
    try:
        with socket.socket(socket.AF_INET, socket.SOCK_STREAM) as probe:
            probe.bind((str(address), 0))
    except OSError as error:
        return error.errno != errno.EADDRNOTAVAIL
    return True


def row_of(number: int, table: Mapping[str, Any]) -> Row:
    """A table `[[carrier]]`, by its index and its values."""
    found = table.get("number")
    return Row(number + 1, found if is_number(found) else None)


def close_names(name: str, names: Iterable[str]) -> list[str]:
    """The names that a name may be meant for, the closest first."""
    return difflib.get_close_matches(name.lower(), names, 2, 0.7)


def header_in_words(path: Steps) -> str:
    """A table's header."""
    return f"[{'.'.join(str(it) for it in path if isinstance(it, str))}]"


def shown_key(path: Steps, value: Any) -> str:
    """A key as the file has it: a table or an array of tables as its header."""
    if isinstance(value, list) and value and isinstance(value[0], dict):
        return f"[{header_in_words(path)}]"
    return header_in_words(path) if isinstance(value, dict) else f"`{path[-1]}`"


class Finder:
    """The risks of a site file."""

    def __init__(self, site: SiteText, around: Surroundings) -> None:
        self.site, self.figures, self.around = site, Figures(site.values), around

    def risks(self) -> Iterator[Risk]:
        """All risks, subject by subject."""
        for find in (self.unknown_keys, self.call_risks, self.access_risks, self.clock_risks, self.silence_risks, self.term_risks,
                     self.link_risks, self.radio_risks, self.address_risks, self.port_risks, self.group_risks, self.service_risks):
            yield from find()

    def risk(self, name: str, path: Steps, reason: str, remedy: str, row: Row | None = None) -> Risk:
        """A risk at a value."""
        key = next((it for it in reversed(path) if isinstance(it, str)), "")
        return Risk(name, key, reason, remedy, self.site.line_of(path), row)

    # keys

    def unknown_keys(self) -> Iterator[Risk]:
        """Keys that the controller does not know, in the file and in its carriers."""
        yield from self.unknown_in(self.site.values, (), None)
        for number, table in self.figures.rows():
            yield from self.unknown_in(table, ("carrier", number), row_of(number, table))

    def unknown_in(self, table: Mapping[str, Any], within: Steps, row: Row | None) -> Iterator[Risk]:
        """The unknown keys of a table."""
        known, others = (CARRIER_KEYS, SITE_KEYS) if within else (SITE_KEYS, CARRIER_KEYS)
        for name in table:
            if name in known:
                continue
            path = (*within, name)
            shown = shown_key(path, table[name])
            if name in others:
                remedy = "move it above the first header" if within else "move it below a `[[carrier]]`"
                reason = f"{shown} is a key of {'the site' if within else 'a carrier'}, and the controller ignores it here"
            else:
                missing, there = (close_names(name, [it for it in known if (it in table) == is_there]) for is_there in (False, True))
                meant = " or ".join(f"`{it}`" for it in missing or there)
                remedy = f"did you mean {meant}?" if missing else f"remove it, or did you mean {meant}?" if there else "remove it, or make it a comment"
                reason = f"the controller does not know {shown}, and ignores it"
            yield Risk("unknown-key", name, reason, remedy, self.site.line_of(path), row)

    # calls and times

    def call_risks(self) -> Iterator[Risk]:
        """Calls that end too early, or only at their longest."""
        hang, longest = self.figures.number("hang"), self.figures.number("maximum")
        if hang is not None and longest is not None and longest <= hang:
            yield self.risk("maximum-below-hang", ("maximum",), f"a call lasts {longest} ticks at most, and `hang` is {hang}: no call ends because nobody talks",
                            f"set `maximum` well above {hang}, for example {min(65535, 30 * hang)}")
        elif (time := self.figures.milliseconds("maximum")) is not None and time < SHORTEST_MAXIMUM_MS:
            yield self.risk("short-maximum", ("maximum",), f"a call lasts {seconds_in_words(time)} at most, also while somebody talks: the number is in ticks, not in seconds",
                            f"set `maximum` to a minute's worth of ticks or more, for example {180_000 // (self.figures.number('tick_ms') or POLL_MS)}")
        time = self.figures.milliseconds("hang")
        if time is not None and time < FEW_POLLS * POLL_MS:
            yield self.risk("short-hang", ("hang",), f"a call ends after {seconds_in_words(time)} without voice, less than {FEW_POLLS} frames of {POLL_MS} ms: a gap on the air ends it",
                            "set `hang` to some seconds' worth of ticks")
        wait = self.figures.milliseconds("ahoy_wait")
        if wait is not None and wait < 2 * POLL_MS:
            yield self.risk("short-ahoy", ("ahoy_wait",), f"a called radio has {seconds_in_words(wait)} to answer: it is called in one frame of {POLL_MS} ms, and answers in a later one",
                            "set `ahoy_wait` to at least half a second's worth of ticks")

    def access_risks(self) -> Iterator[Risk]:
        """A backoff that noise does not change."""
        low, high = self.figures.number("backoff_low"), self.figures.number("backoff_high")
        if low is not None and low == high:
            yield self.risk("narrow-backoff", ("backoff_high",), f"`backoff_low` and `backoff_high` are both {low}: radios do not spread their tries when the channel is busy",
                            "set `backoff_high` some steps above `backoff_low`" if low < 15 else "set `backoff_low` lower")

    def clock_risks(self) -> Iterator[Risk]:
        """Ticks that the clock cannot keep."""
        tick = self.figures.number("tick_ms")
        if tick is not None and tick < FAST_TICK_MS:
            yield self.risk("fast-tick", ("tick_ms",), f"a tick lasts {tick} ms, and the end of a term pauses the controller for {PAUSE_MS} to {LONGEST_PAUSE_MS} ms, on a busy host for longer: "
                            "the ticks that it misses follow at once",
                            f"set `tick_ms` to {POLL_MS}, a frame, and count `hang`, `maximum` and `ahoy_wait` in such ticks")

    def silence_risks(self) -> Iterator[Risk]:
        """Connections that are closed too early or too late."""
        time = self.figures.milliseconds("silence")
        if time is not None and time < FEW_POLLS * POLL_MS:
            yield self.risk("short-silence", ("silence",), f"a base station that sends nothing for {seconds_in_words(time)}, less than {FEW_POLLS} polls, is lost with its calls, "
                            "and an operator's connection ends as soon",
                            f"set `silence` to some seconds: {5000 // WAIT_MS} is 5 s")
        if time is not None and time > LONGEST_SILENCE_MS:
            yield self.risk("long-silence", ("silence",), f"a base station that loses its power keeps its calls for {seconds_in_words(time)}, unless it comes back before",
                            f"set `silence` to at most {LONGEST_SILENCE_MS // WAIT_MS}, {seconds_in_words(LONGEST_SILENCE_MS)}")
        elif time is not None:
            yield from self.late_loss_risks(time)

    def late_loss_risks(self, silence: int) -> Iterator[Risk]:
        """A base station that is lost only after its calls have ended."""
        hang = self.figures.milliseconds("hang")
        if hang is not None and FEW_POLLS * POLL_MS <= hang < silence:
            yield self.risk("silence-above-hang", ("silence",), f"a base station that loses its power is lost after {seconds_in_words(silence)}, and its calls end after `hang`, {seconds_in_words(hang)}: "
                            "they are recorded as ended by `hang_time`, and until then new calls are granted on it",
                            f"set `silence` to at most {hang // WAIT_MS}; with the hub, which asks each second, {USUAL_SILENCE} will do")

    def term_risks(self) -> Iterator[Risk]:
        """Terms that take much memory, or end often."""
        memory, time = self.figures.memory_mib(), self.figures.term_ms()
        if memory is not None and memory > LARGE_TERMS_MIB:
            yield self.risk("large-terms", ("term_entries",), f"if base stations flood the site, terms may take {memory:.0f} MiB of memory",
                            "lower `term_entries`, or see that the machine has that much memory to spare")
        if time is not None and time < SHORTEST_TERM_MS:
            yield self.risk("short-terms", ("term_entries",), f"polls alone end a term each {seconds_in_words(time)}, and each end pauses the site for {PAUSE_MS} to {LONGEST_PAUSE_MS} ms",
                            f"raise `term_entries`: {SITE_KEYS['term_entries'].default} is the default")

    def link_risks(self) -> Iterator[Risk]:
        """Base stations that are refused."""
        served, spoken = self.figures.number("link_version"), self.around.link_version
        if served is not None and spoken is not None and spoken > served:
            yield self.risk("old-link", ("link_version",), f"the site serves version {served} of the link alone: base stations of version {spoken}, which number their bursts, are refused (REFUSED 1)",
                            f"write `link_version = {spoken}`, or set the base stations to version {served}")

    # radios

    def radio_risks(self) -> Iterator[Risk]:
        """More radios than a site can have, and radios that never leave."""
        count, values = self.figures.count_radios(), self.site.values
        if count > MOST_REGISTERED:
            yield self.risk("many-radios", ("radios",), f"{count} radios may register, and a site has {MOST_REGISTERED} at once: others are refused", "list the radios of this site alone")
        if values.get("radios") and "leave_bit" not in values:
            yield self.risk("no-leave-bit", ("radios",), "without `leave_bit` no radio can deregister: one that is switched off stays registered", "write `leave_bit`, by the manual of your radios")

    # addresses

    def address_risks(self) -> Iterator[Risk]:
        """An address that ports cannot be opened on, or that opens them to all."""
        address = self.figures.address()
        if address is None:
            return
        if address.is_unspecified:
            yield self.risk("open-address", ("address",), "the ports are open on every network of the machine, and a peer that reaches the console is an operator",
                            "name one address, or keep strangers away with a firewall (SECURITY, \"What to do\")")
        elif address.is_multicast or address == ipaddress.IPv4Address("255.255.255.255") or not self.around.has_address(address):
            yield self.risk("foreign-address", ("address",), f"no interface of this machine has the address {address}: the controller ends with `cannot listen on port`",
                            "`ip -4 address` lists the addresses; if the file is for another machine, check it there")

    def port_risks(self) -> Iterator[Risk]:
        """Ports that only root may open."""
        ports: list[tuple[Steps, Row | None, Any]] = [(("console_port",), None, self.site.values.get("console_port"))]
        ports += [(("carrier", number, "port"), row_of(number, table), table.get("port")) for number, table in self.figures.rows()]
        for path, row, port in ports:
            if is_number(port) and 0 < port < FIRST_OPEN_PORT:
                yield self.risk("low-port", path, f"the port {port} is below {FIRST_OPEN_PORT}: the systemd unit cannot open it", f"use a port from {FIRST_OPEN_PORT} on", row)

    # who is who

    def group_risks(self) -> Iterator[Risk]:
        """Talkgroups with the numbers of radios, all in one warning."""
        ranges = self.figures.ranges()[:SITE_KEYS["radios"].many]
        found = [(index, group, among) for index, group in self.figures.groups() for _, among in ranges if group in among]
        groups = list(dict.fromkeys(group for _, group, _ in found))
        if groups:
            listed = ", ".join(map(str, groups[:MOST_LISTED])) + (", .." if len(groups) > MOST_LISTED else "")
            several = len(groups) > 1
            yield self.risk("group-in-radios", ("groups", found[0][0]), f"the talkgroup{'s' * several} {listed} {'are numbers' if several else 'is a number'} of radios too ({found[0][2]}): "
                            "the controller keeps them apart, people who read the console or set up radios may not", "give talkgroups numbers outside `radios`")

    def service_risks(self) -> Iterator[Risk]:
        """Services with the numbers of radios. The controller refuses such ranges."""
        for name in ("regi", "tsi"):
            value = self.site.values.get(name)
            among = next((it for _, it in self.figures.ranges() if is_number(value) and value in it), None)
            if among:
                yield self.risk("service-in-radios", (name,), f"`{name}`, {value}, is within the radios {among}: a radio could have the address of the site",
                                f"end the range at {SITE_KEYS['radios'].most} or before")


def find_risks(site: SiteText, around: Surroundings) -> list[Risk]:
    """The risks of a site file, `MOST_RISKS` at most. Of one that `tomllib` does not read they are not known, but for this."""
    if site.fault:
        return [Risk("newer-toml", "", f"the other tools do not read the file: {site.fault}", "write it as TOML 1.0 has it, and without a byte order mark", site.fault_line)]
    return list(itertools.islice(Finder(site, around).risks(), MOST_RISKS))
