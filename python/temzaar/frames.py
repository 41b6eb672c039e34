"""The frames of the link (docs/LINK.md, "Frames"), in both versions: how they are written, cut from a stream, and numbered.

The versions differ in RX and TX alone, which have a number in version 2. One cutter serves both directions: the first frame of a stream has the
version, a HELLO towards the controller and a WELCOME towards the carrier.
"""
from collections.abc import Iterator
from enum import Enum, IntEnum
from typing import NamedTuple

VERSIONS = (1, 2)


class FrameType(IntEnum):
    """The type octet of a frame; those below 80 come from a carrier, the others go to it."""
    HELLO = 0x01
    RX = 0x02
    POLL = 0x03
    ACTIVE = 0x04
    BYE = 0x05
    WELCOME = 0x81
    TX = 0x82
    DONE = 0x83
    REFUSED = 0x84


FROM_CARRIER = frozenset(it for it in FrameType if it < 0x80)
TO_CARRIER = frozenset(it for it in FrameType if it >= 0x80)
# The octets of the body in version 1 and in version 2, by type.
BODY_LENGTHS = {
    FrameType.HELLO: (4, 4), FrameType.RX: (26, 27), FrameType.POLL: (0, 0), FrameType.ACTIVE: (1, 1), FrameType.BYE: (0, 0),
    FrameType.WELCOME: (1, 1), FrameType.TX: (26, 27), FrameType.DONE: (0, 0), FrameType.REFUSED: (1, 1),
}
# The slot and the 25 octets of the word: the end of every RX and TX.
BURST_PART = 26
REFUSALS = {1: "BadVersion", 2: "WrongCarrier"}


class Fault(Enum):
    """Why no frame can follow in a stream. It is found at the first octet that shows it."""
    UNKNOWN_TYPE = "UnknownType"
    BAD_LENGTH = "BadLength"
    BAD_SLOT = "BadSlot"
    BAD_PAD = "BadPad"


class Burst(NamedTuple):
    """The contents of an RX or a TX: its number (None in version 1), its slot and the 25 octets of its word."""
    number: int | None
    slot: int
    word: bytes


class Frame(NamedTuple):
    """A whole frame."""
    kind: FrameType
    body: bytes

    def octets(self) -> bytes:
        """The frame as it is sent."""
        return bytes([self.kind, len(self.body)]) + self.body

    def burst(self) -> Burst:
        """The contents of an RX or a TX."""
        return Burst(self.body[0] if len(self.body) > BURST_PART else None, self.body[-26], self.body[-25:])


POLL, BYE, DONE = Frame(FrameType.POLL, b"").octets(), Frame(FrameType.BYE, b"").octets(), Frame(FrameType.DONE, b"").octets()


def hello(carrier: int, lpcn: int, version: int = 1) -> bytes:
    """A HELLO."""
    return Frame(FrameType.HELLO, bytes([version, carrier]) + lpcn.to_bytes(2, "big")).octets()


def welcome(version: int) -> bytes:
    """A WELCOME."""
    return Frame(FrameType.WELCOME, bytes([version])).octets()


def active(slot: int) -> bytes:
    """An ACTIVE."""
    return Frame(FrameType.ACTIVE, bytes([slot])).octets()


def burst_frame(kind: FrameType, slot: int, word: bytes, number: int | None = None) -> bytes:
    """An RX or a TX: of version 2 if it has a number, else of version 1."""
    return Frame(kind, (b"" if number is None else bytes([number])) + bytes([slot]) + word).octets()


def rx(slot: int, word: bytes, number: int | None = None) -> bytes:
    """An RX: of version 2 if it has a number, else of version 1."""
    return burst_frame(FrameType.RX, slot, word, number)


def number_after(number: int | None) -> int | None:
    """The number of the next burst; None in version 1."""
    return None if number is None else (number + 1) % 256


class Cutter:
    """Cuts a stream of one direction into frames, however it comes in pieces.

    The first frame is read as one of version 1. If it is a HELLO or a WELCOME of version 2, the frames after it are of version 2. Once `fault` is
    set, no frame follows.
    """

    def __init__(self, kinds: frozenset[FrameType]) -> None:
        self.kinds = kinds
        self.octets = bytearray()
        self.version: int | None = None
        self.fault: Fault | None = None

    def feed(self, octets: bytes) -> list[Frame]:
        """The frames that end in these octets. `fault` is set if no frame can follow; what came before it is still returned."""
        self.octets += octets
        return list(self._frames())

    def _frames(self) -> Iterator[Frame]:
        while self.octets and self.fault is None:
            self.fault = self._fault_of_head()
            if self.fault or len(self.octets) < 2 + self._length():
                return
            frame = Frame(FrameType(self.octets[0]), bytes(self.octets[2:2 + self._length()]))
            if frame.kind in (FrameType.RX, FrameType.TX) and frame.body[-1] & 15:
                self.fault = Fault.BAD_PAD
                return
            del self.octets[:2 + len(frame.body)]
            if self.version is None:
                names_version = frame.kind in (FrameType.HELLO, FrameType.WELCOME) and frame.body[0] in VERSIONS
                self.version = frame.body[0] if names_version else 1
            yield frame

    def _length(self) -> int:
        """The length of the body of the frame that has begun."""
        return BODY_LENGTHS[FrameType(self.octets[0])][(self.version or 1) - 1]

    def _fault_of_head(self) -> Fault | None:
        """The fault that the type, length or slot of the frame that has begun shows."""
        if self.octets[0] not in self.kinds:
            return Fault.UNKNOWN_TYPE
        length = self._length()
        if len(self.octets) > 1 and self.octets[1] != length:
            return Fault.BAD_LENGTH
        # the slot is the only octet of an ACTIVE, and comes before the word of an RX or TX
        place = {FrameType.RX: 2 + length - BURST_PART, FrameType.TX: 2 + length - BURST_PART, FrameType.ACTIVE: 2}.get(FrameType(self.octets[0]))
        if place is not None and len(self.octets) > place and self.octets[place] > 1:
            return Fault.BAD_SLOT
        return None


class Link:
    """The numbers of a carrier's connection. In version 2 its RX are numbered, and so are the TX that come, from 0 on; 255 is followed by 0."""

    # Any number will do for the first RX; this one soon comes to 255, which 0 follows.
    FIRST_RX = 250

    def __init__(self, version: int) -> None:
        self.version = version
        self.next_rx: int | None = self.FIRST_RX if version == 2 else None
        self.next_tx: int | None = 0 if version == 2 else None

    def rx(self, slot: int, word: bytes) -> bytes:
        """The octets of the next RX."""
        octets = rx(slot, word, self.next_rx)
        self.next_rx = number_after(self.next_rx)
        return octets

    def take_tx(self, frame: Frame) -> Burst | None:
        """The contents of a TX; None if it is of the other version, or does not have the next number."""
        burst = frame.burst()
        if len(frame.body) != BODY_LENGTHS[FrameType.TX][self.version - 1] or burst.number != self.next_tx:
            return None
        self.next_tx = number_after(self.next_tx)
        return burst
