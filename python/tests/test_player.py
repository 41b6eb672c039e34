"""The verdicts of a play on what a site sends, on cases worked out by hand from docs/SITE_MACHINE.md.

A grant that is sent after its call's P_CLEAR is of a call that has ended. A grant that names an active call again, late or as a late entry, begins none. So
neither is a fault.
"""
import unittest
from argparse import Namespace
from typing import NamedTuple

from temzaar import code, pdus
from temzaar.frames import Link
from temzaar.player import Backoff, Play, Sign, overlaps, sign_of
from temzaar.sitefile import Site
from tests.support import TWO_CARRIERS

# The fill of the example site.
ALOHA = bytes.fromhex("99000000111234000000")


class Sight(NamedTuple):
    """The signs that carriers saw of a slot, and how often a call is granted on another's. Each sign has a time since which it can have been so at the earliest,
    and the time when it came. A grant's first time is that of the last fill before it.

    G grants a slot to group/caller, L does the same late, C is the P_CLEAR of a group, and X the loss of the carrier.
    """
    name: str
    signs: tuple[tuple[str, float, float], ...]
    overlaps: int


SIGHTS = tuple(Sight(*it) for it in (
    ("a call after another", (("G91/1", 1, 2), ("C91", 3, 4), ("G92/2", 5, 6)), 0),
    ("no P_CLEAR between", (("G91/1", 1, 2), ("G92/2", 5, 6)), 1),
    ("a P_CLEAR, but before the Fill before the grant", (("C91", 1, 2), ("G91/1", 5, 6), ("G92/2", 7, 8)), 1),
    ("a grant that waited until its call was cleared", (("C91", 2, 3), ("G91/1", 1, 5), ("G92/2", 1, 7)), 0),
    ("another's P_CLEAR", (("G91/1", 1, 2), ("C93", 3, 4), ("G92/2", 5, 6)), 1),
    ("a P_CLEAR on its way while the grant is", (("G91/1", 1, 2), ("G92/2", 4, 6), ("C91", 5, 7)), 0),
    ("late entries in turn", (("G91/1", 1, 2), ("L91/1", 4, 5), ("L91/1", 7, 8)), 0),
    ("the same talkgroup from another, and no P_CLEAR", (("G91/1", 1, 2), ("G91/2", 4, 5)), 1),
    ("a carrier was lost", (("G91/1", 1, 2), ("X", 3, 4), ("G92/2", 5, 6)), 0),
))


def pdu_octets(sign: str) -> bytes:
    """The ten octets of a grant or a P_CLEAR of slot 1 of channel 1, as docs/FORMATS.md lays them out."""
    target, _, source = sign[1:].partition("/")
    addresses = int(target).to_bytes(3, "big") + int(source or 0xFFFECA).to_bytes(3, "big")
    return {"G": b"\xB1\0\0\x18", "L": b"\xB1\0\0\x1C", "C": b"\xAE\0\0\x11"}[sign[0]] + addresses


class Signs(unittest.TestCase):
    """What the signs of a slot mean."""

    def test_sights(self) -> None:
        for case in SIGHTS:
            with self.subTest(case.name):
                signs = [Sign(False, (), *times) if sign == "X"
                         else sign_of(pdus.read(pdu_octets(sign)), *times)
                         for sign, *times in case.signs]
                self.assertEqual(overlaps(signs), case.overlaps)


OPTIONS = Namespace(radios=4, seed=1, link_version=None, seconds=1.0, polls=0, fast=False)


class SilentCarrier:
    """A carrier of a play that has no connection; a poll of it was sent at time 1."""

    def __init__(self, site: Site) -> None:
        self.number, self.sent, self.queued_since, self.again = 0, 1.0, 0.0, b""
        self.link, self.backoff = Link(1), Backoff(site.plan)
        self.backoff.poll()


class Played(unittest.TestCase):
    """The verdicts of a play on bursts."""

    def play(self, *bursts: tuple[int, bytes]) -> Play:
        """A play that is shown bursts, each for a slot, a second apart."""
        site = Site(TWO_CARRIERS)
        play, carrier = Play(site, OPTIONS), SilentCarrier(site)
        for slot, octets in bursts:
            play.receive_burst(carrier, slot, code.burst_of(octets), carrier.sent + 0.5)
            carrier.sent += 1
        return play

    def test_a_late_entry_is_no_call_and_no_fault(self) -> None:
        late, fill = pdu_octets("L91/1001"), ALOHA
        play = self.play((0, pdu_octets("G91/1001")), (0, fill), (0, fill), (0, fill), (0, late), (0, bytes(10)), (0, late))
        self.assertEqual(list(play.radios.talkers), [(0, 1)])
        counted = (play.counts["grants"], play.counts["late grants"],
                   sum(map(overlaps, play.signs.values())), sum(play.faults.values()))
        self.assertEqual(counted, (1, 2, 0, 0))

    def test_nobody_talks_for_a_late_grant_alone(self) -> None:
        self.assertEqual(self.play((0, pdu_octets("L91/1001"))).radios.talkers, {})

    def test_a_call_on_anothers_slot(self) -> None:
        play = self.play((1, pdu_octets("C91")), (0, ALOHA), (0, pdu_octets("G91/1001")), (0, pdu_octets("G92/1002")))
        self.assertEqual(sum(map(overlaps, play.signs.values())), 1)

    def test_a_flipped_burst_is_a_fault(self) -> None:
        site = Site(TWO_CARRIERS)
        play = Play(site, OPTIONS)
        play.receive_burst(SilentCarrier(site), 0, code.burst_of(ALOHA, [5]), 1.0)
        self.assertEqual(sum(play.faults.values()), 1)
