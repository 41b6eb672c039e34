"""A connection to the hub's port for operators (docs/HUB.md), and what a line that is being typed may be completed to."""
import contextlib
import os
import select
import socket
import struct
import textwrap
import time
from collections.abc import Iterable, Iterator

from temzaar.console import CHANGES, LONGEST_LINE, QUESTIONS, Console, ConsoleFault, read_calls, read_radios, read_slots
from temzaar.hub.config import LinePortKeys
from temzaar.hub.lines import ACKNOWLEDGE, ALL, AWAY, BUSY, EVENT, HUB_LISTS, NAME, NO_ANSWER, OWN, WAITS, WHO_SITE, unescape_octets
from temzaar.names import KINDS, Bearer, Kind, Names, bearers_in, names_of, read_name
from temzaar.printable import printable

# A variable of the environment that names another socket than the usual one.
VARIABLE = "DMR_HUB_SOCKET"
# How a reply begins that is the hub's own, since there is none of the controller.
WITHOUT_CONTROLLER = tuple(f"error {it}: " for it in (AWAY, NO_ANSWER, BUSY))
# The digits of the greatest radio.
MOST_DIGITS = 8
# How many events are looked at for a completion: as many as the hub lists.
MOST_EVENTS = 100
# Seconds for which the names of the hub are used before it is asked again.
NAME_SECONDS = 10.0


def default_socket() -> str:
    """The path of the hub's socket on this machine."""
    return os.environ.get(VARIABLE) or LinePortKeys().socket


class ControllerAway(ConsoleFault):
    """The hub answers, but has no answer of the controller. The text says why. The next question may have one."""


class HubConsole(Console):
    """A connection to the hub. It answers what the controller's console answers, to as many as connect, and some commands of its own."""
    lists = HUB_LISTS

    def __init__(self, path: str, seconds: float = 5.0) -> None:
        """Connects to a unix socket, for `seconds` at most. ConsoleFault: nobody listens there, or too many connect."""
        self.name, self.seconds, self.octets = path, seconds, b""
        self.stream = socket.socket(socket.AF_UNIX)
        try:
            connect_patiently(self.stream, path, seconds)
        except OSError as fault:
            self.stream.close()
            raise ConsoleFault(f"cannot connect to the hub {path}: {fault.strerror or fault}") from fault

    def ask(self, line: str) -> list[str]:
        """The lines of the reply to a line; the `end` of a list is left out. ControllerAway: the hub has no answer of the controller."""
        reply = super().ask(line)
        if reply[:1] and reply[0].startswith(WITHOUT_CONTROLLER):
            raise ControllerAway(reply[0].removeprefix("error "))
        return reply

    def site_name(self) -> str:
        """The site's name in the hub's config; empty if it has none."""
        names = [it.removeprefix(WHO_SITE) for it in self.ask("who") if it.startswith(WHO_SITE)]
        return printable(unescape_octets(names[0]).decode("utf-8", "replace")) if names else ""


def name_lines(bearers: Iterable[Bearer]) -> Iterator[str]:
    """The lines that ask the hub for names, none longer than a line may be."""
    for kind in Kind:
        begins = f"names {kind} "
        numbers = sorted(number for of_kind, number in bearers if of_kind is kind)
        for line in textwrap.wrap(" ".join(map(str, numbers)), LONGEST_LINE - len(begins)):
            yield begins + line


def ask_names(console: Console, bearers: Iterable[Bearer]) -> Names:
    """The names that the hub has for some numbers; none if it is a hub that does not know the command. ConsoleFault: it does not answer."""
    wanted = set(bearers)
    replies = [row.split(" ", 3) for line in name_lines(wanted) for row in console.ask(line)]
    rows: list[tuple[Bearer, str]] = []
    for words in replies:
        # what is not a name is left out, whatever program answers
        with contextlib.suppress(ValueError):
            word, kind, number, text = words
            if f"{word} " == NAME:
                rows.append(((Kind(kind), int(number)), read_name(unescape_octets(text).decode("utf-8"))))
    return names_of(rows)


class HubNames:
    """The names that a hub has, which is asked again after NAME_SECONDS."""

    def __init__(self, console: Console) -> None:
        self.console, self.known, self.until, self.fault = console, dict[Bearer, str | None](), 0.0, ""

    def find(self, texts: Iterable[str]) -> Names:
        """The names that are next to the numbers of some texts. ConsoleFault: the hub does not answer."""
        now, wanted = time.monotonic(), set(bearers_in(texts))
        if now >= self.until:
            self.known, self.until = {}, now + NAME_SECONDS
        if missing := wanted - self.known.keys():
            names = ask_names(self.console, missing)
            self.known.update({it: names.name_of(*it) for it in missing})
        return names_of((it, name) for it, name in self.known.items() if name)


def connect_patiently(stream: socket.socket, path: str, seconds: float) -> None:
    """Connects to a unix socket. While too many others wait to be accepted there, it waits for `seconds` in the system's queue, which is fair.
    OSError: it cannot connect."""
    # a socket with a time limit of Python's does not wait
    stream.settimeout(None)
    stream.setsockopt(socket.SOL_SOCKET, socket.SO_SNDTIMEO, struct.pack("ll", int(seconds), max(1, int(seconds % 1 * 1e6))))
    stream.connect(path)
    stream.settimeout(seconds)


class HubPort(Console):
    """The same over TCP."""
    lists = HUB_LISTS


def find_hub(console: str) -> HubConsole | None:
    """A connection to this machine's hub, if there is one and it holds a console, ADDRESS:PORT. ConsoleFault: it refuses this user."""
    path = default_socket()
    try:
        hub = HubConsole(path)
    except ConsoleFault:
        return None
    try:
        row = (hub.ask("who") or [""])[0]
    except ConsoleFault:
        row = ""
    if row.split()[:3] == ["who", "console", console]:
        return hub
    hub.close()
    if row.startswith("error"):
        raise ConsoleFault(f"the hub {path}: {row.removeprefix('error ')}")
    return None


def has_ended(console: Console) -> bool:
    """Whether the other side has ended the connection, and nothing of it is left to read."""
    try:
        if console.octets or not select.select([console.stream], [], [], 0)[0]:
            return False
        return not console.stream.recv(1, socket.MSG_PEEK | socket.MSG_DONTWAIT)
    except BlockingIOError:
        return False
    except (OSError, ValueError):
        return True


class Completions:
    """What the last word of a line may be: a command, or a radio, carrier, slot or event that the site has now."""

    def __init__(self, console: Console) -> None:
        self.console = console

    def find(self, before: str, begun: str) -> list[str]:
        """The words that begin as `begun` does and fit after the text before it. There are none if the console is at fault."""
        try:
            return sorted({word for word in self._words(before.split(), begun) if word.startswith(begun)}, key=lambda word: (len(word), word))
        except (ConsoleFault, ValueError):
            return []

    def _words(self, before: list[str], begun: str) -> Iterator[str]:
        """The words that fit after those before."""
        if not before:
            yield from (*QUESTIONS, *CHANGES, *OWN)
        elif before == ["names"]:
            yield from KINDS
        elif before[0] == ACKNOWLEDGE and ALL not in before:
            yield from self._waiting()
            if before == [ACKNOWLEDGE]:
                yield ALL
        elif before in (["drop"], ["radios"], ["names", "radio"]):
            yield from self._radios(begun)
        elif before == ["calls"]:
            yield from (str(carrier) for carrier, _ in read_slots(self.console.ask("slots")))
        elif before == ["end"]:
            yield from (str(carrier) for (carrier, _), state in read_slots(self.console.ask("slots")).items() if state == "call")
        elif before[:1] == ["end"] and len(before) == 2 and before[1].isdecimal():
            yield from (str(slot) for _, slot in read_calls(self.console.ask(f"calls {before[1]}")))

    def _waiting(self) -> Iterator[str]:
        """The numbers of events that wait for an acknowledgement."""
        for words in map(str.split, self.console.ask(f"events {MOST_EVENTS}")):
            if words[0] == EVENT.strip() and words[3:4] == [WAITS]:
                yield words[1]

    def _radios(self, begun: str) -> Iterator[str]:
        """Registered radios whose numbers begin with some digits, 16 of each length at most."""
        if not begun:
            yield from map(str, read_radios(self.console.ask("radios 0")))
        elif begun.isdecimal() and not begun.startswith("0"):
            for zeros in range(MOST_DIGITS - len(begun) + 1):
                reply = self.console.ask(f"radios {begun}{'0' * zeros}")
                # above the greatest radio there is none
                if reply and reply[0].startswith("error"):
                    return
                yield from map(str, read_radios(reply))
