"""The relay before a controller: it passes octets between carriers and the controller, and keeps what came from one of them.

A manner says how answers reach a carrier: frame by frame, or as a network and a busy machine may deliver them.
"""
import itertools
import os
import selectors
import socket
import time
from collections.abc import Callable, Iterator
from dataclasses import dataclass, field

from temzaar.frames import FROM_CARRIER, Cutter, Frame, FrameType
from temzaar.process import connect
from temzaar.script import SessionFault
from temzaar.sitefile import Site

# Seconds for which frames without an answer wait for one that has one, and for which either side may take to answer or to read.
HOLD, PATIENCE = 0.2, 10.0
# The most octets that are kept before an answer.
MOST_HELD = 1 << 16
ANSWERED = (FrameType.HELLO, FrameType.POLL, FrameType.BYE)
# Seconds between octets that are sent alone.
OCTET_PAUSE = 0.0005

# It is given the frames of an answer as they come, and yields the pieces that are sent to the carrier. A connection has its own.
Manner = Callable[[Iterator[bytes]], Iterator[bytes]]


@dataclass
class Connection:
    """What came on a connection of a carrier: when it was opened, each frame with the time at which it was handed over, and the controller's first answer. Frames of
    one time came together."""
    opened: float
    cutter: Cutter = field(default_factory=lambda: Cutter(FROM_CARRIER))
    received: list[tuple[float, Frame]] = field(default_factory=list)
    answer: bytes = b""
    ended: bool = False

    @property
    def is_up(self) -> bool:
        """Whether it was welcomed."""
        return self.answer[:1] == bytes([FrameType.WELCOME])

    def receive(self, octets: bytes) -> None:
        """Octets came, which are handed to the controller now."""
        now = time.monotonic()
        self.received += [(now, frame) for frame in self.cutter.feed(octets)]

    def frames(self, *kinds: FrameType) -> list[Frame]:
        """The frames of some types, or all."""
        return [frame for _, frame in self.received if frame.kind in (kinds or FrameType)]

    def polls(self) -> list[float]:
        """When each POLL came."""
        return [time for time, frame in self.received if frame.kind == FrameType.POLL]


class Ended(Exception):
    """The other side has ended a connection, or the controller does not answer any more."""


def frame_by_frame() -> Manner:
    """Each frame is sent as it comes."""
    return lambda frames: frames


def octet_by_octet(frames: Iterator[bytes]) -> Iterator[bytes]:
    """Each octet is sent alone."""
    for frame in frames:
        for octet in frame:
            yield bytes([octet])
            time.sleep(OCTET_PAUSE)


def in_one_piece(frames: Iterator[bytes]) -> Iterator[bytes]:
    """The frames of an answer are sent together. Ended: after what came before the end."""
    octets = b""
    try:
        for frame in frames:
            octets += frame
    except Ended:
        yield octets
        raise
    yield octets


def cut_and_joined() -> Manner:
    """One answer is sent octet by octet, the next one in one piece, and so on."""
    manners = itertools.cycle((octet_by_octet, in_one_piece))
    return lambda frames: next(manners)(frames)


def with_one_late(number: int, seconds: float) -> Manner:
    """The answer of this number, from 0 on, is withheld for some seconds; no other is sent meanwhile."""
    numbers = itertools.count()

    def pass_back(frames: Iterator[bytes]) -> Iterator[bytes]:
        """Waits before that answer."""
        if next(numbers) == number:
            time.sleep(seconds)
        return frames

    return pass_back


def without_tx(number: int) -> Manner:
    """The TX of this number, from 0 on, is not sent."""
    numbers = itertools.count()
    return lambda frames: (it for it in frames if it[0] != FrameType.TX or next(numbers) != number)


class Upstream:
    """The connection to the controller that belongs to one from a carrier."""

    def __init__(self, address: str, port: int) -> None:
        self.stream, self.octets = connect(address, port), b""
        self.stream.settimeout(PATIENCE)

    def read(self) -> None:
        """Reads more. Ended: the controller ended the connection."""
        try:
            piece = self.stream.recv(65536)
        except OSError as fault:
            raise Ended(str(fault)) from fault
        if not piece or len(self.octets) > MOST_HELD:
            raise Ended("end of input, or more than an answer has")
        self.octets += piece

    def frame(self) -> bytes:
        """The octets of the next frame, whatever its type."""
        while len(self.octets) < 2 or len(self.octets) < 2 + self.octets[1]:
            self.read()
        frame, self.octets = self.octets[:2 + self.octets[1]], self.octets[2 + self.octets[1]:]
        return frame


class Side:
    """A carrier's connection that is passed on."""

    def __init__(self, kept: Connection, stream: socket.socket, port: int, manner: Manner) -> None:
        self.kept, self.stream, self.manner = kept, stream, manner
        # a side that does not read ends its own connection, and delays the others no longer
        stream.settimeout(PATIENCE)
        self.upstream, self.cutter, self.up = Upstream("127.0.0.1", port), Cutter(FROM_CARRIER), False
        # octets that were not handed over yet, and their frames; None marks octets from which no frame can follow
        self.held = b""
        self.waiting: list[Frame | None] = []
        # when the oldest octet that is held came
        self.since: float | None = None

    def receive(self) -> None:
        """Takes the octets received. Ended: the other side closed the connection."""
        try:
            piece = self.stream.recv(65536)
        except OSError:
            piece = b""
        if not piece or len(self.held) > MOST_HELD:
            raise Ended("the other side closed, or sends frames without an answer without end")
        had_fault = self.cutter.fault is not None
        self.held += piece
        self.waiting += self.cutter.feed(piece)
        if self.cutter.fault and not had_fault:
            self.waiting.append(None)
        self.since = self.since or time.monotonic()

    def hand_over(self, now: float) -> None:
        """Hands over what is held, if it is answered, or has waited long enough. Ended: either side ended the connection."""
        is_answered = any(frame is None or frame.kind in ANSWERED for frame in self.waiting)
        if self.held and (is_answered or self.since and now - self.since > HOLD):
            octets, frames, self.held, self.waiting, self.since = self.held, self.waiting, b"", [], None
            self.pass_on(octets, self.answers(frames))

    def pass_on(self, octets: bytes, answers: Iterator[bytes]) -> None:
        """Hands octets to the controller, and each part of its answer back; `answers` reads the parts."""
        self.kept.receive(octets)
        answer = b""
        try:
            self.upstream.stream.sendall(octets)
            for part in self.manner(answers):
                answer += part
                self.stream.sendall(part)
        except OSError as fault:
            raise Ended(str(fault)) from fault
        finally:
            self.kept.answer = self.kept.answer or answer

    def answers(self, frames: list[Frame | None]) -> Iterator[bytes]:
        """The frames that the controller sends for these, as they come."""
        for frame in frames:
            if frame is None or frame.kind == FrameType.BYE or (frame.kind == FrameType.HELLO) == self.up:
                self.wait_for_end()
            elif frame.kind == FrameType.HELLO:
                octets = self.upstream.frame()
                yield octets
                self.up = octets[0] == FrameType.WELCOME
                if not self.up:
                    self.wait_for_end()
            elif frame.kind == FrameType.POLL:
                octets = b"\0"
                while octets[0] != FrameType.DONE:
                    octets = self.upstream.frame()
                    yield octets

    def wait_for_end(self) -> None:
        """Waits until the controller closes the connection: then the site has taken its end. Ended: always."""
        while True:
            self.upstream.read()

    def finish(self) -> None:
        """The connection has ended: the controller gets the rest, and ends its own."""
        if self.held:
            self.kept.receive(self.held)
        try:
            if self.held:
                self.upstream.stream.sendall(self.held)
            self.upstream.stream.shutdown(socket.SHUT_WR)
            self.wait_for_end()
        except (OSError, Ended):
            pass
        self.kept.ended = True

    def close(self) -> None:
        """Closes both streams."""
        self.stream.close()
        self.upstream.stream.close()


class Relay:
    """The ports of the carriers, and the connections that are passed on. SessionFault: a port cannot be listened on."""

    def __init__(self, site: Site, inner: Site, carrier: int, kept: list[Connection],
                 make_manner: Callable[[], Manner]) -> None:
        """It listens on the ports of a site and passes on to those of the controller's, `inner`.
        The connections of a carrier are added to `kept`, and `make_manner` makes the manner of a
        connection."""
        self.inner, self.carrier, self.kept, self.make_manner = inner, carrier, kept, make_manner
        self.selector = selectors.DefaultSelector()
        self.listeners: dict[int, socket.socket] = {}
        self.sides: dict[int, Side] = {}
        # connections of which nothing is passed on any more, and that are open all the same
        self.dead: list[Side] = []
        for row in site.rows:
            carrier, port = row["number"], row["port"]
            try:
                self.listeners[carrier] = socket.create_server((site.address, port))
            except OSError as fault:
                self.close()
                raise SessionFault(f"cannot listen on port {port}: {os.strerror(fault.errno) if fault.errno else fault}") from fault
            self.await_connection(carrier)

    def await_connection(self, carrier: int) -> None:
        """Waits for a connection on a port. One at a time is served; another one waits until that has ended."""
        self.selector.register(self.listeners[carrier], selectors.EVENT_READ, ("listen", carrier))

    def accept(self, carrier: int) -> None:
        """Takes the connection that came on a port."""
        listener = self.listeners[carrier]
        port = self.inner.row(carrier)["port"]
        try:
            stream, _ = listener.accept()
        except OSError:
            # it was closed again before it was taken
            return
        stream.setsockopt(socket.IPPROTO_TCP, socket.TCP_NODELAY, 1)
        kept = Connection(time.monotonic())
        try:
            side = Side(kept, stream, port, self.make_manner())
        except OSError as fault:
            stream.close()
            raise SessionFault(f"the controller takes no connection on port {port}: {fault.strerror or fault}") from fault
        self.selector.unregister(listener)
        self.sides[carrier] = side
        if carrier == self.carrier:
            self.kept.append(kept)
        self.selector.register(stream, selectors.EVENT_READ, ("receive", carrier))
        self.selector.register(side.upstream.stream, selectors.EVENT_READ, ("read", carrier))

    def detach(self, carrier: int) -> Side:
        """Looks no more at a connection, and waits for the next one of its carrier."""
        side = self.sides.pop(carrier)
        for stream in (side.stream, side.upstream.stream):
            self.selector.unregister(stream)
        self.await_connection(carrier)
        return side

    def end(self, carrier: int) -> None:
        """Ends a connection, on both sides, if there is one."""
        if carrier in self.sides:
            side = self.detach(carrier)
            side.finish()
            side.close()

    def let_die(self, carrier: int) -> None:
        """From now on nothing of a connection is passed on, and neither side learns of it, as if the network between them were gone."""
        if carrier in self.sides:
            self.dead.append(self.detach(carrier))

    def turn(self) -> None:
        """Does what there is to do now."""
        for key, _ in self.selector.select(0.05):
            what, carrier = key.data
            if what == "listen":
                self.accept(carrier)
            elif carrier in self.sides:
                side = self.sides[carrier]
                self.attempt(carrier, side.receive if what == "receive" else side.upstream.read)
        now = time.monotonic()
        for carrier, side in list(self.sides.items()):
            self.attempt(carrier, lambda side=side: side.hand_over(now))

    def attempt(self, carrier: int, action: Callable[[], None]) -> None:
        """Does something for a connection, and ends the connection if either side has ended it."""
        try:
            action()
        except Ended:
            self.end(carrier)

    def close(self) -> None:
        """Ends all connections, and listens no more."""
        try:
            for carrier in list(self.sides):
                self.end(carrier)
        finally:
            self.selector.close()
            for it in (*self.listeners.values(), *self.dead):
                it.close()
