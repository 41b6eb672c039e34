#!/usr/bin/env python3
"""Prints a random script like a busy hour, for the site of the loads: bench/random_script.py CARRIERS ROUNDS SEED VERSION

In each round the control slot receives a request, an answer or nonsense, with up to four flipped bits, and each carrier polls, with voice or without. In
half of the rounds the clock goes on. Now and then a carrier is cut and connects again. In version 2 of the link some bursts come twice. A script of fewer
rounds is the beginning of one of more rounds with the same seed. The tools' own package codes the bursts.
"""
import pathlib
import random
import sys
from collections.abc import Iterator

TOP = pathlib.Path(__file__).resolve().parent.parent
sys.path[:0] = [str(TOP / "python"), str(TOP / "reference")]
from plans import plan_of  # noqa: E402  (the path comes first)
from temzaar import code, frames, pdus  # noqa: E402  (the path comes first)

RADIOS, GROUPS, REGI = 60, 16, 0xFFFEC6
LOADS = (TOP / "crates" / "test_program" / "src" / "bench" / "load.rt").read_text(encoding="utf-8")
# The keys of the site of the loads, without its carriers.
SITE = LOADS.partition('const SITE: &str = "\\\n')[2].partition('";')[0]


def lpcn_of(carrier: int) -> int:
    """The logical physical channel number of a carrier of the site."""
    return carrier + 1


def site_text(carriers: int, link_version: int) -> str:
    """The site file of a site with this number of carriers, which serves versions of the link up to `link_version`."""
    rows = (f"[[carrier]]\nnumber = {it}\nlpcn = {lpcn_of(it)}\nport = {7101 + it}\n" for it in range(carriers))
    return f"{SITE}link_version = {link_version}\n{''.join(rows)}"


def plan_text(carriers: int, link_version: int) -> str:
    """The same for the reference."""
    return plan_of(site_text(carriers, link_version))


class Draws:
    """Draws the input of the site."""

    def __init__(self, seed: int, version: int) -> None:
        self.random, self.version, self.number = random.Random(seed), version, 0

    def pdu(self) -> bytes:
        """A registration or a leaving, a request, a called radio's answer, or nonsense."""
        draw = self.random
        chance, radio, other, group = draw.random(), draw.randrange(1, RADIOS), draw.randrange(1, RADIOS), draw.randrange(1, GROUPS + 2)
        if chance < 0.25:
            return pdus.random_access(pdus.REGISTRATION, REGI, radio, options=int(draw.random() < 0.9))
        if chance < 0.5:
            return pdus.random_access(pdus.TALKGROUP_VOICE, group, radio)
        if chance < 0.7:
            return pdus.random_access(pdus.INDIVIDUAL_VOICE, other, radio)
        if chance < 0.9:
            return pdus.write("C_ACKU", reason=pdus.MS_ACCEPTED if draw.random() < 0.8 else 0x20, target=other, additional=radio)
        if chance < 0.95:
            return pdus.random_access(pdus.CANCEL, group, radio)
        return bytes([0x9F, 0, *draw.randbytes(2), *other.to_bytes(3, "big"), *radio.to_bytes(3, "big")])

    def rx(self) -> bytes:
        """The RX of a burst with some flipped bits; in version 2 sometimes twice."""
        flips = [self.random.randrange(code.PLACES) for _ in range(self.random.choice((0, 0, 1, 2, 3, 4)))]
        word = code.burst_of(self.pdu(), flips)
        if self.version == 1:
            return frames.rx(0, word)
        self.number = (self.number + 1) % 256
        frame = frames.rx(0, word, self.number)
        return frame * 2 if self.random.random() < 0.1 else frame

    def poll(self) -> bytes:
        """A POLL, mostly with voice on a slot before it."""
        voice = frames.active(self.random.randrange(2)) if self.random.random() < 0.7 else b""
        return voice + frames.POLL


def connect_lines(carrier: int, version: int) -> Iterator[str]:
    """A carrier connects."""
    yield f"open {carrier}"
    yield f"bytes {carrier} {frames.hello(carrier, lpcn_of(carrier), version).hex().upper()}"


def script_lines(carriers: int, rounds: int, seed: int, version: int) -> Iterator[str]:
    """The lines of a script."""
    draws = Draws(seed, version)
    for carrier in range(carriers):
        yield from connect_lines(carrier, version)
    for _ in range(rounds):
        yield f"bytes 0 {draws.rx().hex().upper()}"
        for carrier in range(carriers):
            yield f"bytes {carrier} {draws.poll().hex().upper()}"
        if draws.random.random() < 0.5:
            yield f"tick {draws.random.choice((1, 1, 1, 2, 9))}"
        if draws.random.random() < 0.005:
            carrier = draws.random.randrange(carriers)
            yield f"cut {carrier}"
            yield from connect_lines(carrier, version)


def main() -> int:
    try:
        carriers, rounds, seed, version = (int(word) for word in sys.argv[1:])
    except ValueError:
        print(__doc__)
        return 2
    for line in script_lines(carriers, rounds, seed, version):
        print(line)
    return 0


if __name__ == "__main__":
    sys.exit(main())
