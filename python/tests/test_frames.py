"""The cutter of frames, in both versions and directions, and the numbers of a link."""
import unittest

from temzaar.frames import (
    BODY_LENGTHS, BYE, DONE, FROM_CARRIER, POLL, TO_CARRIER, Cutter, Fault, Frame, FrameType, Link, active, burst_frame, hello, rx, welcome,
)
from tests.support import read_document, table_rows

WORD = bytes(range(24)) + b"\xf0"


def cut(octets: bytes, size: int, kinds: frozenset[FrameType] = FROM_CARRIER) -> tuple[list[Frame], Fault | None, bytes]:
    """The frames of octets that come in pieces of a size, the fault, and what is left."""
    cutter = Cutter(kinds)
    frames = [frame for n in range(0, len(octets), size) for frame in cutter.feed(octets[n:n + size])]
    return frames, cutter.fault, cutter.octets


class Cutting(unittest.TestCase):
    """A stream is cut into the same frames whatever its pieces."""

    STREAMS = (
        (FROM_CARRIER, hello(3, 7, 1) + rx(1, WORD) + POLL + active(1) + BYE),
        (FROM_CARRIER, hello(3, 7, 2) + rx(1, WORD, 255) + POLL + rx(0, WORD, 0) + active(0)),
        (TO_CARRIER, welcome(1) + burst_frame(FrameType.TX, 1, WORD) + DONE),
        (TO_CARRIER, welcome(2) + burst_frame(FrameType.TX, 1, WORD, 9) + DONE),
    )

    def test_any_cutting(self) -> None:
        for kinds, octets in self.STREAMS:
            for size in range(1, len(octets) + 1):
                frames, fault, rest = cut(octets, size, kinds)
                self.assertEqual((b"".join(frame.octets() for frame in frames), fault, rest), (octets, None, b""))

    def test_an_open_frame_is_kept(self) -> None:
        octets = hello(0, 1) + rx(0, WORD)[:-1]
        self.assertEqual(cut(octets, 5), ([Frame(FrameType.HELLO, hello(0, 1)[2:])], None, rx(0, WORD)[:-1]))

    def test_the_first_frame_is_of_version_1(self) -> None:
        self.assertEqual(cut(rx(0, WORD), 99)[0], [Frame(FrameType.RX, rx(0, WORD)[2:])])
        self.assertEqual(cut(rx(0, WORD, 1), 99)[1], Fault.BAD_LENGTH)

    def test_faults_at_their_first_octet(self) -> None:
        first = hello(0, 1, 2)
        for octets, fault in ((b"\x06", Fault.UNKNOWN_TYPE), (b"\x83", Fault.UNKNOWN_TYPE), (b"\x03\x01", Fault.BAD_LENGTH), (b"\x02\x1a", Fault.BAD_LENGTH),
                              (b"\x02\x1b\x00\x02", Fault.BAD_SLOT), (b"\x04\x01\x02", Fault.BAD_SLOT), (rx(0, WORD[:-1] + b"\xf1", 0), Fault.BAD_PAD)):
            frames, found, _ = cut(first + octets, 1)
            self.assertEqual((len(frames), found), (1, fault), octets.hex())
            self.assertEqual(cut(first + octets[:-1], 1)[1], None, octets.hex())

    def test_frames_before_a_fault_are_given(self) -> None:
        frames, fault, _ = cut(hello(0, 1) + POLL + b"\xff" + POLL, 99)
        self.assertEqual(([frame.kind for frame in frames], fault), ([FrameType.HELLO, FrameType.POLL], Fault.UNKNOWN_TYPE))


class Table(unittest.TestCase):
    """The lengths are the document's."""

    def test_lengths(self) -> None:
        rows = table_rows(read_document("LINK.md"), "## Frames")
        self.assertEqual({row[0].partition(",")[0] for row in rows}, {kind.name for kind in FrameType})
        for name, _, octet, length, *_ in rows:
            kind = FrameType[name.partition(",")[0]]
            versions = [int(name[-1]) - 1] if "version" in name else [0, 1]
            self.assertEqual(int(octet, 16), kind)
            for version in versions:
                self.assertEqual(BODY_LENGTHS[kind][version], int(length, 16), name)


class Numbers(unittest.TestCase):
    """A link's numbers."""

    def test_version_1_has_none(self) -> None:
        link = Link(1)
        self.assertEqual(link.rx(0, WORD), rx(0, WORD))
        self.assertEqual(link.take_tx(Frame(FrameType.TX, b"\1" + WORD)), (None, 1, WORD))
        self.assertIsNone(link.take_tx(Frame(FrameType.TX, b"\0\1" + WORD)))

    def test_version_2_counts_and_wraps(self) -> None:
        link = Link(2)
        self.assertEqual([link.rx(0, WORD)[2] for _ in range(8)], [250, 251, 252, 253, 254, 255, 0, 1])
        for number in [*range(256), 0, 1]:
            self.assertEqual(link.take_tx(Frame(FrameType.TX, bytes([number, 1]) + WORD)), (number, 1, WORD))
        self.assertIsNone(link.take_tx(Frame(FrameType.TX, b"\1\1" + WORD)), "the number of the last one")
        self.assertIsNone(link.take_tx(Frame(FrameType.TX, b"\1" + WORD)), "a TX of version 1")
