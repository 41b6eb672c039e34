"""The peers of a served controller that trials play: a carrier that behaves, an operator, and the waits for what they see."""
import socket
import threading
import time
from enum import Enum

from temzaar.frames import BYE, POLL, TO_CARRIER, Cutter, FrameType, Link, hello
from temzaar.process import connect
from temzaar.sitefile import Site

# Seconds between two polls of a carrier, as on the air.
PERIOD = 0.060
# Seconds within which each poll is answered, whatever others do.
LATEST = 0.5


class Failed(Exception):
    """A trial came out otherwise than it should."""


def want(holds: object, what: str) -> None:
    """Failed, with what was expected, unless it holds."""
    if not holds:
        raise Failed(what)


class Polling(threading.Thread):
    """A carrier that behaves: it polls each 60 ms, and keeps how long each answer took."""

    def __init__(self, site: Site, number: int, before_polls: bytes = b"") -> None:
        """Connects, and says HELLO. `before_polls` are frames that go before each poll."""
        super().__init__(daemon=True)
        row = site.row(number)
        self.number, self.before_polls = number, before_polls
        self.stream, self.link = connect(site.address, row["port"]), Link(site.link_version)
        self.stream.sendall(hello(number, row["lpcn"], site.link_version))
        self.times: list[float] = []
        self.fault: OSError | None = None
        self.stopped, self.cutter = False, Cutter(TO_CARRIER)
        want(self.until(FrameType.WELCOME), "a carrier that behaves is welcome")
        self.start()

    def until(self, wanted: FrameType) -> bool:
        """Reads on to a frame of this type. Whether it came before the end of the connection."""
        while True:
            octets = self.stream.recv(4096)
            if not octets:
                return False
            came = self.cutter.feed(octets)
            if self.cutter.fault or not all(self.link.take_tx(frame) for frame in came if frame.kind == FrameType.TX):
                raise ConnectionError("a TX of another version or number than was to come")
            if any(frame.kind == wanted for frame in came):
                return True

    def run(self) -> None:
        try:
            while not self.stopped:
                began = time.perf_counter()
                self.stream.sendall(self.before_polls + POLL)
                if not self.until(FrameType.DONE):
                    raise ConnectionError("the controller ended the connection")
                self.times.append(time.perf_counter() - began)
                time.sleep(PERIOD)
        except OSError as fault:
            self.fault = fault

    def stop(self, latest: float = LATEST) -> None:
        """Failed, unless every poll was answered within `latest` seconds."""
        self.stopped = True
        self.join(15)
        want(self.fault is None, f"carrier {self.number} is served: {self.fault}")
        want(not self.is_alive() and self.times and max(self.times) < latest, f"carrier {self.number}'s polls are answered soon: {max(self.times, default=99):.2f} s")
        self.stream.sendall(BYE)
        self.stream.close()


def figures(times: list[float]) -> str:
    """How long answers took, in words."""
    ordered = sorted(times)
    return f"{len(ordered)} answers: median {ordered[len(ordered) // 2] * 1000:.1f} ms, 99 of 100 within {ordered[len(ordered) * 99 // 100] * 1000:.0f} ms, longest {ordered[-1] * 1000:.0f} ms"


def ask(stream: socket.socket, line: str) -> str:
    """An operator's line, and its reply's first line."""
    stream.sendall(line.encode() + b"\n")
    text = b""
    while b"\n" not in text:
        octets = stream.recv(1024)
        want(octets, "the console answers")
        text += octets
    return text.split(b"\n")[0].decode()


class End(Enum):
    """How the controller ended a connection."""
    ORDERLY = "its stream came to an end"
    RESET = "it was reset, by which octets that were sent before may be lost"


def end_of(stream: socket.socket, seconds: float) -> End | None:
    """How the controller ends the connection; None if it does not within `seconds`."""
    stream.settimeout(0.2)
    until = time.monotonic() + seconds
    while time.monotonic() < until:
        try:
            if not stream.recv(65536):
                # a reset that follows the end is an error of the socket, and no read finds it
                time.sleep(0.2)
                return End.RESET if stream.getsockopt(socket.SOL_SOCKET, socket.SO_ERROR) else End.ORDERLY
        except TimeoutError:
            pass
        except OSError:
            return End.RESET
    return None


def ended(stream: socket.socket, seconds: float) -> bool:
    """Whether the controller ends the connection within `seconds`, in whichever way."""
    return end_of(stream, seconds) is not None


def carrier(site: Site, number: int, say_hello: bool = True) -> socket.socket:
    """A connection of a carrier that speaks version 1 of the link, whatever the site serves."""
    row = site.row(number)
    stream = connect(site.address, row["port"])
    if say_hello:
        stream.sendall(hello(number, row["lpcn"]))
        want(stream.recv(3) == bytes.fromhex("810101"), "WELCOME")
    return stream
