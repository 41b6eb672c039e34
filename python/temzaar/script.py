"""Scripts and printed replays (docs/FORMATS.md, "Scripts"; docs/LINK.md): which answer belongs to which poll, and when."""
import re
from collections import deque
from collections.abc import Iterable
from dataclasses import dataclass

from temzaar import code
from temzaar.faults import ToolFault
from temzaar.frames import FROM_CARRIER, TO_CARRIER, Cutter, Frame, FrameType, Link, welcome

# The key of what goes to operators; other keys are carrier numbers.
OPERATORS = -1


class SessionFault(ToolFault):
    """A script, a printed replay or a controller that a tool cannot use. The text says which, and where."""


@dataclass(frozen=True)
class Input:
    """A line of a script: `open`, `bytes`, `cut`, `tick` or `text` (`say` is a `text` with its LF). `carrier`, `octets` and `count` as the kind has them."""
    kind: str
    carrier: int = OPERATORS
    octets: bytes = b""
    count: int = 0

    def line(self) -> str:
        """The line, without its LF."""
        if self.kind in ("open", "cut"):
            return f"{self.kind} {self.carrier}"
        if self.kind == "bytes":
            return f"bytes {self.carrier} {self.octets.hex().upper()}"
        if self.kind == "tick":
            return "tick" if self.count == 1 else f"tick {self.count}"
        line, end = self.octets[:-1], self.octets[-1:]
        if end == b"\n" and all(32 <= octet < 127 for octet in line):
            return f"say {line.decode('ascii')}"
        return f"text {self.octets.hex().upper()}"


# The lines of a script but `say`: C, N and HEX as the formats have them.
LINE = re.compile(r"(?P<kind>open|cut) (?P<of>\d|1[0-5])|bytes (?P<carrier>\d|1[0-5]) (?P<octets>(?:[0-9A-Fa-f]{2})+)|tick(?: (?P<count>[1-9]\d{0,4}|100000))?"
                  r"|text (?P<text>(?:[0-9A-Fa-f]{2})+)", re.ASCII)


def input_of_line(line: str) -> Input:
    """The input of a line that is neither empty nor a comment. ValueError: it is not a line of a script."""
    if line.startswith("say "):
        return Input("text", octets=line[4:].encode("utf-8") + b"\n")
    found = LINE.fullmatch(line)
    if not found:
        raise ValueError(line)
    if found["kind"]:
        return Input(found["kind"], int(found["of"]))
    if found["octets"]:
        return Input("bytes", int(found["carrier"]), bytes.fromhex(found["octets"]))
    if found["text"]:
        return Input("text", octets=bytes.fromhex(found["text"]))
    return Input("tick", count=int(found["count"] or "1"))


def read_script(text: str) -> list[Input]:
    """The inputs of a script. SessionFault: the number of the first line that is not one."""
    inputs = []
    for number, line in enumerate(text.split("\n"), 1):
        if line and not line.startswith("#"):
            try:
                inputs.append(input_of_line(line))
            except ValueError as fault:
                raise SessionFault(f"script line {number}") from fault
    return inputs


def read_printed(text: str) -> tuple[dict[int, bytes], str]:
    """The output of a replay: the octets that went to each carrier, and the text that went to operators."""
    carriers, told = {}, text
    while told.startswith("carrier "):
        line, _, told = told.partition("\n")
        try:
            _, number, digits = line.split(" ")
            carriers[int(number)] = b"" if digits == "-" else bytes.fromhex(digits)
        except ValueError as fault:
            raise SessionFault(f"not a line of a printed replay: {line[:40]}") from fault
    return carriers, told


def frames_to_carrier(octets: bytes) -> list[Frame]:
    """The frames of what went to a carrier on one connection after another. SessionFault: it is not a row of whole frames."""
    frames: list[Frame] = []
    while octets:
        cutter = Cutter(TO_CARRIER)
        # a WELCOME or a REFUSED begins a connection, and with it the version
        piece, octets = split_connection(octets)
        frames += cutter.feed(piece)
        if cutter.fault or cutter.octets:
            raise SessionFault(f"{len(cutter.octets)} octets that are not a whole frame, in what went to a carrier")
    return frames


def split_connection(octets: bytes) -> tuple[bytes, bytes]:
    """The octets that went to a carrier on its first connection, and the rest."""
    end = 0
    while len(octets) >= end + 2 and (end == 0 or octets[end] not in (FrameType.WELCOME, FrameType.REFUSED)):
        end += 2 + octets[end + 1]
    return (octets[:end], octets[end:]) if end else (octets, b"")


@dataclass(frozen=True)
class Event:
    """Something that a replay shows: at which input, after how many ticks, and what it is. `carrier`, `slot`, `octets` (a PDU) and `text` as it has them."""
    index: int
    tick: int
    what: str
    carrier: int = -1
    slot: int = -1
    octets: bytes = b""
    text: str = ""


class Session:
    """The inputs of a site, one after another, together with what went to its carriers: the events of both, in their order.

    The events are `up`, `lost`, `heard` (an RX; without octets if it is not a codeword), `active`, `polled`, `sent` (a TX) and `said` (an
    operator's octets).
    """

    def __init__(self, carriers: dict[int, bytes]) -> None:
        """`carriers` has all octets that go to each carrier. SessionFault: they are not whole frames."""
        self.frames = {number: deque(frames_to_carrier(octets)) for number, octets in carriers.items()}
        # the link of each carrier that is up, and the number of its last RX
        self.up: dict[int, Link] = {}
        self.newest: dict[int, int | None] = {}
        self.cutters: dict[int, Cutter] = {}
        self.events: list[Event] = []
        self.index, self.tick = -1, 0

    def _note(self, what: str, carrier: int = -1, slot: int = -1, octets: bytes = b"", text: str = "") -> None:
        self.events.append(Event(self.index, self.tick, what, carrier, slot, octets, text))

    def take(self, it: Input) -> None:
        """Takes the next input. SessionFault: what went to the carriers does not answer it."""
        self.index += 1
        if it.kind == "tick":
            self.tick += it.count
        elif it.kind == "text":
            self._note("said", text=it.octets.decode("utf-8", "replace"))
        elif it.carrier in self.frames:
            if it.kind in ("open", "cut"):
                self._end(it.carrier, "cut")
            if it.kind == "open":
                self.cutters[it.carrier] = Cutter(FROM_CARRIER)
            elif it.kind == "bytes" and it.carrier in self.cutters:
                self._feed(it)

    def _feed(self, it: Input) -> None:
        cutter = self.cutters[it.carrier]
        for frame in cutter.feed(it.octets):
            if not self._frame(it.carrier, frame):
                self._end(it.carrier, "BYE" if frame.kind == FrameType.BYE else "fault")
                return
        if cutter.fault:
            self._end(it.carrier, "fault")

    def _end(self, carrier: int, why: str) -> None:
        """A connection ends."""
        self.cutters.pop(carrier, None)
        if carrier in self.up:
            del self.up[carrier]
            self._note("lost", carrier=carrier, text=why)

    def _frame(self, carrier: int, frame: Frame) -> bool:
        """Takes a frame of a carrier. Whether the connection goes on."""
        if (frame.kind == FrameType.HELLO) == (carrier in self.up):
            # a second HELLO, or another frame before the first one
            return False
        if frame.kind == FrameType.HELLO:
            return self._hello(carrier, frame.body[0])
        if frame.kind == FrameType.POLL:
            self._poll(carrier)
        elif frame.kind == FrameType.RX:
            self._rx(carrier, frame)
        elif frame.kind == FrameType.ACTIVE:
            self._note("active", carrier=carrier, slot=frame.body[0])
        return frame.kind != FrameType.BYE

    def _hello(self, carrier: int, version: int) -> bool:
        """Whether the HELLO was welcomed."""
        welcomed = self._next_frame(carrier).octets() == welcome(version)
        if welcomed:
            self.up[carrier], self.newest[carrier] = Link(version), None
            self._note("up", carrier=carrier)
        return welcomed

    def _rx(self, carrier: int, frame: Frame) -> None:
        """An RX with the number of the one before it is a retransmission, and means nothing."""
        number, slot, word = frame.burst()
        if number is None or number != self.newest[carrier]:
            self._note("heard", carrier=carrier, slot=slot, octets=code.octets_of(word) or b"")
        self.newest[carrier] = number

    def _next_frame(self, carrier: int) -> Frame:
        if not self.frames[carrier]:
            raise SessionFault(f"nothing answers carrier {carrier} at tick {self.tick}: is this the output of this script?")
        return self.frames[carrier].popleft()

    def _poll(self, carrier: int) -> None:
        """The answer to a poll: a TX for each PDU, then a DONE."""
        self._note("polled", carrier=carrier)
        while (frame := self._next_frame(carrier)).kind == FrameType.TX:
            burst = self.up[carrier].take_tx(frame)
            if burst is None:
                raise SessionFault(f"carrier {carrier} was sent a TX of another version or with another number than the next, at tick {self.tick}")
            octets = code.octets_of(burst.word)
            if octets is None:
                raise SessionFault(f"carrier {carrier} was sent a burst that is not a codeword with its check, at tick {self.tick}")
            self._note("sent", carrier=carrier, slot=burst.slot, octets=octets)
        if frame.kind != FrameType.DONE:
            raise SessionFault(f"frame {frame.kind:02X} in the answer to a poll of carrier {carrier}, at tick {self.tick}")


class Replay(Session):
    """A script together with what its replay printed. SessionFault: what was printed does not answer this script."""

    def __init__(self, inputs: Iterable[Input], carriers: dict[int, bytes]) -> None:
        super().__init__(carriers)
        for it in inputs:
            self.take(it)
        left = {number: len(frames) for number, frames in self.frames.items() if frames}
        if left:
            raise SessionFault(f"frames that answer no input of the script, by carrier: {left}")
