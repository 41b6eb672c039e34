"""The worked cases over the served program: each case whose inputs can be put in order over TCP, with the same octets and texts as its replay.

A case with a tick is left out, since the clock ticks by itself. So is one in which another party comes after octets that nothing answers: nothing shows when they have
been processed.
"""
import socket
import tempfile
import time
import unittest
from collections.abc import Iterator

from temzaar.console import LISTS
from temzaar.process import connect
from temzaar.script import Input, Session, read_printed, read_script
from temzaar.sitefile import Site
from tests import served_kit
from tests.cases import Case, octets_of, read_cases

# The longest tick of a site file, and how often a case is tried whose run took longer, on a machine that stalls.
TICK_MS, TRIES = 1000, 8
PATIENCE = 10.0


def inputs_of(case: Case) -> list[Input]:
    """The inputs of a case."""
    return read_script(octets_of(case.script or "").decode())


def octets_left(session: Session, carrier: int) -> int:
    """How many octets of what goes to a carrier answer none of the inputs so far."""
    return sum(len(it.octets()) for it in session.frames[carrier])


def is_in_order(case: Case) -> bool:
    """Whether the inputs of a case keep their order over TCP: what nothing answers is followed by the same carrier's octets, or is the end."""
    inputs = inputs_of(case)
    carriers, _ = read_printed(case.printed)
    session = Session(carriers)
    for index, it in enumerate(inputs):
        if it.kind == "tick" or (it.carrier >= 0 and it.carrier not in carriers) or (it.kind == "text" and it.octets[-1:] != b"\n"):
            return False
        was_open = it.kind == "bytes" and it.carrier in session.cutters
        before = octets_left(session, it.carrier) if it.kind == "bytes" else 0
        session.take(it)
        unanswered = was_open and it.carrier in session.cutters and octets_left(session, it.carrier) == before
        if unanswered and index + 1 < len(inputs) and (inputs[index + 1].kind, inputs[index + 1].carrier) != ("bytes", it.carrier):
            return False
    return True


class Players:
    """The carriers of a case and its operator, over TCP."""

    def __init__(self, site: Site, carriers: dict[int, bytes]) -> None:
        self.site, self.session = site, Session(carriers)
        self.total = {number: len(octets) for number, octets in carriers.items()}
        self.streams: dict[int, socket.socket] = {}
        self.received = dict.fromkeys(carriers, b"")
        self.operator, self.told = self.connect(site.console_port), b""

    def connect(self, port: int) -> socket.socket:
        """A connection to the controller."""
        stream = connect(self.site.address, port, PATIENCE)
        stream.settimeout(PATIENCE)
        return stream

    def close(self) -> None:
        """Closes all connections."""
        for it in (self.operator, *self.streams.values()):
            it.close()

    def play(self, it: Input) -> None:
        """Plays an input, and waits for all that answers it."""
        was_up = it.carrier in self.session.up
        self.session.take(it)
        if it.kind == "text":
            self.say(it.octets)
            return
        if it.kind in ("open", "cut"):
            self.cut(it.carrier, was_up)
        if it.kind == "open":
            self.streams[it.carrier] = self.connect(self.site.row(it.carrier)["port"])
        elif it.kind == "bytes" and it.carrier in self.streams:
            self.send(it, was_up)

    def send(self, it: Input, was_up: bool) -> None:
        """Sends octets of a carrier, and receives what answers them. A connection that ends is read to its end."""
        stream = self.streams[it.carrier]
        stream.sendall(it.octets)
        wanted = self.total[it.carrier] - octets_left(self.session, it.carrier)
        while len(self.received[it.carrier]) < wanted and (piece := stream.recv(4096)):
            self.received[it.carrier] += piece
        if it.carrier not in self.session.cutters:
            self.end(it.carrier, was_up)

    def end(self, carrier: int, was_up: bool) -> None:
        """Reads a connection to its end, closes it, and waits until the carrier is down."""
        stream = self.streams.pop(carrier)
        try:
            while piece := stream.recv(4096):
                self.received[carrier] += piece
        except ConnectionResetError:
            pass  # octets after a fault were not read
        stream.close()
        self.wait_down(carrier, was_up)

    def cut(self, carrier: int, was_up: bool) -> None:
        """Closes a carrier's connection, if one is open, and waits until the carrier is down."""
        if carrier in self.streams:
            self.streams.pop(carrier).close()
            self.wait_down(carrier, was_up)

    def wait_down(self, carrier: int, was_up: bool) -> None:
        """Waits until a carrier that was up is down. AssertionError: it stays up."""
        until = time.monotonic() + PATIENCE
        while was_up and f"slot {carrier} 1 down".encode() not in self.ask(b"slots\n"):
            if time.monotonic() > until:
                raise AssertionError(f"carrier {carrier} stays up")

    def say(self, octets: bytes) -> None:
        """Says an operator's lines, and reads the replies."""
        for line in octets.split(b"\n")[:-1]:
            self.told += self.ask(line + b"\n")

    def ask(self, line: bytes) -> bytes:
        """The reply to a line: a line, or those of a list up to its end."""
        is_list = line.split()[:1] in [[it.encode()] for it in LISTS]
        self.operator.sendall(line)
        reply = b""
        while not (reply.endswith(b"\n") and (not is_list or reply.endswith(b"end\n") or reply.startswith(b"error"))):
            piece = self.operator.recv(4096)
            if not piece:
                raise AssertionError(f"the operator's connection ends after {line!r} and {reply!r}")
            reply += piece
        return reply


def served(case: Case) -> tuple[str, float]:
    """What comes of a case over TCP, in the form of a replay, and the seconds since the controller listened."""
    with tempfile.NamedTemporaryFile("w", suffix=".toml", encoding="utf-8") as file:
        file.write(octets_of(case.site or "").decode())
        file.flush()
        site = served_kit.free_site(file.name, tick_ms=TICK_MS, silence=600)
    carriers, _ = read_printed(case.printed)
    began = time.monotonic()
    with served_kit.served(site):
        players = Players(site, carriers)
        try:
            for it in inputs_of(case):
                players.play(it)
        finally:
            players.close()
    lines = (f"carrier {number} {octets.hex().upper() or '-'}\n" for number, octets in players.received.items())
    return "".join(lines) + players.told.decode(), time.monotonic() - began


def cases() -> Iterator[Case]:
    """The cases that are served."""
    return (it for it in read_cases() if not it.status and it.script is not None and is_in_order(it))


class Served(unittest.TestCase):
    """What the served program answers."""

    def test_each_case(self) -> None:
        taken = list(cases())
        self.assertGreaterEqual(len(taken), 60)
        for case in taken:
            with self.subTest(case.full_name):
                found, seconds = served(case)
                for _ in range(TRIES):
                    if seconds < TICK_MS / 1000:
                        break
                    found, seconds = served(case)
                self.assertEqual(found, case.printed)
