"""An operator's console (docs/FORMATS.md, "Console"): lines, replies, and what the replies say."""
import socket
import time
from collections.abc import Container
from dataclasses import dataclass
from typing import NamedTuple

from temzaar.faults import ToolFault, reason_of
from temzaar.printable import printable


class Command(NamedTuple):
    """A command: its words, with a capital letter for each number, and what it does; whether it changes something, and whether its reply is a list."""
    words: str
    about: str
    changes: bool = False
    is_list: bool = False

    @property
    def name(self) -> str:
        """The first of its words."""
        return self.words.split()[0]


# The commands of the controller, in the order of docs/FORMATS.md.
COMMANDS = (
    Command("status", "counts, and what a quiet control slot sends"),
    Command("radios N", "16 registered radios, from radio N on", is_list=True),
    Command("calls C", "the calls on carrier C", is_list=True),
    Command("lines N", "16 requests that wait for a slot, from the Nth on", is_list=True),
    Command("slots", "the state of each slot", is_list=True),
    Command("drop R", "removes the registration of radio R", changes=True),
    Command("end C S", "ends the call on slot S of carrier C", changes=True),
    Command("move L", "sends radios to channel L, until stay", changes=True),
    Command("stay", "sends radios away no longer", changes=True),
)
# What the letters of those that change the site are called, as columns of the records.
COLUMNS = {"R": "radio", "C": "carrier", "S": "slot", "L": "channel"}
# Commands whose reply ends with a line `end`, unless it is an error; those that change nothing; and those that change the site.
LISTS = tuple(it.name for it in COMMANDS if it.is_list)
QUESTIONS = tuple(it.name for it in COMMANDS if not it.changes)
CHANGES = tuple(it.name for it in COMMANDS if it.changes)
# How many octets a line may have before its LF, and what the controller answers to a longer one and to one that is not a command.
LONGEST_LINE = 80
TOO_LONG, UNKNOWN = b"error line too long\n", b"error unknown command\n"

# More octets than wait to be read from a console, and more lines than any list has.
MOST_OCTETS, MOST_LINES = 1 << 16, 1000

# A carrier's number and a slot.
SlotKey = tuple[int, int]


class ConsoleFault(ToolFault):
    """The console cannot be reached, does not answer in time, or answers something that the formats do not have. The text says which."""


class ReplyFrame:
    """Finds the end of the reply to a line. It is given the reply line by line."""

    def __init__(self, asked: bytes, lists: Container[str] = LISTS) -> None:
        """`asked` is the line, and `lists` has the commands whose replies are lists."""
        words = asked.split()
        self.is_list = bool(words) and words[0].decode("ascii", "replace") in lists
        self.has_begun = False

    def take(self, line: bytes) -> bool:
        """Takes the next line of the reply, without its LF. Whether it is the last."""
        is_error = not self.has_begun and line.startswith(b"error")
        self.has_begun = True
        return not self.is_list or is_error or line == b"end"


class Console:
    """A connection to a console. The site serves one at a time: another connection waits until this one is closed."""
    # the commands whose replies are lists
    lists: Container[str] = LISTS

    def __init__(self, address: str, port: int, seconds: float = 5.0) -> None:
        """Connects. `seconds` is how long an answer may take. ConsoleFault: nothing listens there."""
        self.name, self.seconds, self.octets = f"{address}:{port}", seconds, b""
        try:
            self.stream = socket.create_connection((address, port), timeout=seconds)
        except (OSError, ValueError) as fault:
            # ValueError: a name that cannot be one of a machine
            raise ConsoleFault(f"cannot connect to the console {self.name}: {reason_of(fault)}") from fault
        self.stream.setsockopt(socket.IPPROTO_TCP, socket.TCP_NODELAY, 1)

    def line(self) -> bytes:
        """The next line of a reply, without its LF."""
        until = time.monotonic() + self.seconds
        while b"\n" not in self.octets:
            try:
                self.stream.settimeout(max(0.001, until - time.monotonic()))
                piece = self.stream.recv(4096)
            except TimeoutError as fault:
                raise ConsoleFault(f"no answer of the console {self.name} in {self.seconds:.0f} s: does somebody else hold it?") from fault
            except OSError as fault:
                raise ConsoleFault(f"the console {self.name} broke off: {fault.strerror or fault}") from fault
            if not piece:
                raise ConsoleFault(f"the console {self.name} ended the connection")
            self.octets += piece
            if len(self.octets) > MOST_OCTETS:
                raise ConsoleFault(f"the console {self.name} sends more than a console does")
        line, _, self.octets = self.octets.partition(b"\n")
        return line

    def exchange(self, line: bytes) -> list[bytes]:
        """All lines of the reply to a line, the `end` of a list too."""
        frame, reply = ReplyFrame(line, self.lists), [self._first_line(line)]
        while not frame.take(reply[-1]):
            if len(reply) > MOST_LINES:
                raise ConsoleFault(f"the console {self.name} sends a list without an end")
            reply.append(self.line())
        return reply

    def _first_line(self, line: bytes) -> bytes:
        """Sends a line. The first line of the reply, also if it came before, as the reason why the other side has closed the connection."""
        try:
            self.stream.sendall(line + b"\n")
        except OSError as fault:
            try:
                return self.line()
            except ConsoleFault:
                raise ConsoleFault(f"the console {self.name} broke off: {fault.strerror or fault}") from fault
        return self.line()

    def ask(self, line: str) -> list[str]:
        """The lines of the reply to a line, as a terminal may show them; the `end` of a list is left out."""
        asked = line.encode("utf-8")
        reply = [printable(it.decode("ascii", "replace")) for it in self.exchange(asked)]
        return reply[:-1] if ReplyFrame(asked, self.lists).is_list and reply[-1] == "end" else reply

    def close(self) -> None:
        """Ends the connection."""
        self.stream.close()

    def __enter__(self) -> "Console":
        return self

    def __exit__(self, *_: object) -> None:
        self.close()


def are_numbers(words: list[str]) -> bool:
    """Whether all words are numbers that the formats may have."""
    return all(it.isascii() and it.isdigit() and len(it) <= 8 for it in words)


class Status:
    """The reply to `status`: counts, and what a quiet control slot sends."""

    NAMES = ("carriers", "radios", "asks", "lines", "calls")

    def __init__(self, reply: list[str]) -> None:
        words = reply[0].split()
        if len(words) < 13 or words[0] != "status" or tuple(words[1:11:2]) != self.NAMES or words[11] != "fill" or not are_numbers(words[2:11:2]):
            raise ConsoleFault(f"not a status: {reply[0]}")
        self.counts = {name: int(count) for name, count in zip(words[1:11:2], words[2:11:2], strict=True)}
        self.fill = " ".join(words[12:])


def read_slots(reply: list[str]) -> dict[SlotKey, str]:
    """The reply to `slots`: the state of each slot."""
    rows = [line.split() for line in reply]
    if any(len(row) != 4 or row[0] != "slot" or not are_numbers(row[1:3]) for row in rows):
        raise ConsoleFault(f"not a list of slots: {reply}")
    return {(int(row[1]), int(row[2])): row[3] for row in rows}


def read_parties(words: list[str]) -> str:
    """The parties of a call, as a text: `group G from R` or `radio T from R`."""
    if len(words) != 4 or words[0] not in ("group", "radio") or words[2] != "from" or not are_numbers(words[1::2]):
        raise ConsoleFault(f"not the parties of a call: {' '.join(words)}")
    return " ".join(words)


@dataclass(frozen=True)
class Parties:
    """The parties of a call or of a request that waits. `kind` is `group` or `radio`, that of the target."""
    kind: str
    target: int
    source: int

    @classmethod
    def read(cls, text: str) -> "Parties":
        """The parties of a text that `read_parties` returned."""
        kind, target, _, source = text.split()
        return cls(kind, int(target), int(source))


def read_calls(reply: list[str]) -> dict[SlotKey, str]:
    """The reply to `calls C`: the parties of each call."""
    rows = [row for row in map(str.split, reply) if row[:1] == ["call"]]
    if not all(are_numbers(row[1:3]) and len(row) > 3 for row in rows):
        raise ConsoleFault(f"not a list of calls: {reply}")
    return {(int(row[1]), int(row[2])): read_parties(row[3:]) for row in rows}


def read_lines(reply: list[str]) -> list[str]:
    """The reply to `lines N`: the parties of each request in the queue, oldest first."""
    return [read_parties(line.split()[2:]) for line in reply]


def read_radios(reply: list[str]) -> list[int]:
    """The reply to `radios N`: the registered radios, ascending."""
    rows = [line.split() for line in reply]
    if any(len(row) != 2 or row[0] != "radio" or not are_numbers(row[1:]) for row in rows):
        raise ConsoleFault(f"not a list of radios: {reply}")
    return [int(row[1]) for row in rows]
