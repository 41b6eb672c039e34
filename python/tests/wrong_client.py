#!/usr/bin/env python3
"""A client of the link on which `conform` is tried. It is right, or wrong in the one point that a row of the table is about.

    wrong_client.py PORT CARRIER LPCN VERSION BURSTS [ROW]

BURSTS is the file that it receives. Its decoder knows the bursts that may have been sent, and takes the nearest. It retransmits one RX in ten. POINTS says in which
point it is wrong if a row is named.
"""
import pathlib
import select
import socket
import sys
import time

sys.path.insert(0, str(pathlib.Path(__file__).resolve().parent.parent))
from temzaar import code, pdus  # noqa: E402  (the path comes first)
from temzaar.frames import POLL, TO_CARRIER, Cutter, Frame, FrameType, Link, active, hello  # noqa: E402

POINTS = {
    "hello": "says HELLO again after ten POLLs",
    "frames": "sends one POLL with a body",
    "bits": "sends the bits of a burst from the last to the first",
    "codewords": "leaves out what it cannot read",
    "reach": "reads bursts with at most three wrong bits",
    "pace": "polls each 63 ms",
    "active": "sends ACTIVE for ten frames after the voice",
    "pieces": "takes what comes at once for whole frames",
    "done": "polls each frame, whether DONE came or not",
    "next": "numbers the burst after 255 with 1",
    "again": "retransmits with the next number",
    "numbers": "does not look at the numbers of TX",
    "fallback": "begins with version 2 on each connection",
    "return": "connects again after eight seconds, if the controller has gone",
    "at-once": "says HELLO five seconds after it has connected for the first time",
    "died": "waits for an answer as long as it takes",
    "refused": "tries again a second after WrongCarrier",
    "beside": "ends the connection if an answer has no TX",
}
FRAME, GIVES_UP, FARTHEST = 0.06, 5.0, 30
SENT = [int.from_bytes(code.burst_of(pdus.random_access(pdus.REGISTRATION, 0xFFFEC6, radio, 1)), "big") for radio in range(1001, 1300)]


def word_of(burst: int) -> int:
    """The word of a burst of 264 bits."""
    return (burst >> 166 << 98 | burst & (1 << 98) - 1) << 4


class Client:
    """The client, on one connection after another."""

    def __init__(self, port: int, carrier: int, lpcn: int, version: int, bursts: str, wrong: str = "") -> None:
        self.port, self.carrier, self.lpcn, self.version, self.wrong = port, carrier, lpcn, version, wrong
        self.lines = iter(pathlib.Path(bursts).read_text(encoding="utf-8").splitlines())
        self.period = 0.063 if wrong == "pace" else FRAME
        self.more_voice, self.sent, self.polls, self.connections = 0, 0, 0, 0

    def run(self) -> None:
        """Serves connections without end."""
        while True:
            self.link, self.cause, self.waits = Link(self.version), 0, False
            try:
                with socket.create_connection(("127.0.0.1", self.port)) as stream:
                    stream.setsockopt(socket.IPPROTO_TCP, socket.TCP_NODELAY, 1)
                    self.serve(stream)
            except OSError:
                pass
            if self.cause == 1:
                self.version = 1
            elif self.wrong == "fallback":
                self.version = 2
            time.sleep(self.pause())

    def pause(self) -> int:
        """The seconds until the next connection."""
        if self.cause == 2:
            return 1 if self.wrong == "refused" else 10
        return 8 if self.wrong == "return" and not self.cause and not self.waits else 1

    def serve(self, stream: socket.socket) -> None:
        """Serves a connection to its end."""
        self.connections += 1
        if self.wrong == "at-once" and self.connections == 1:
            select.select([stream], [], [], 5)
        stream.sendall(hello(self.carrier, self.lpcn, self.version))
        self.cutter, self.is_up, self.tx = Cutter(TO_CARRIER), False, 0
        due = self.polled = time.monotonic()
        while True:
            if select.select([stream], [], [], max(0.0, due - time.monotonic()))[0]:
                octets = stream.recv(4096)
                if not octets or not self.take(octets):
                    return
            now = time.monotonic()
            if now >= due and self.is_up:
                if self.waits and now - self.polled > GIVES_UP and self.wrong != "died":
                    return
                stream.sendall(self.heard() + self.poll(now))
            while due <= now:
                due += self.period

    def take(self, octets: bytes) -> bool:
        """Takes what came. Whether the connection goes on."""
        if self.wrong == "pieces":
            self.cutter.octets.clear()
        return all(self.take_frame(frame) for frame in self.cutter.feed(octets)) and not self.cutter.fault

    def take_frame(self, frame: Frame) -> bool:
        """Takes a frame. Whether the connection goes on."""
        if frame.kind == FrameType.REFUSED:
            self.cause = frame.body[0]
            return False
        if frame.kind == FrameType.TX:
            self.tx += 1
            return self.link.take_tx(frame) is not None or self.wrong == "numbers"
        if frame.kind == FrameType.DONE:
            self.waits, had_tx, self.tx = False, self.tx, 0
            return bool(had_tx) or self.wrong != "beside"
        self.is_up = True
        return True

    def heard(self) -> bytes:
        """The octets of what was received in a frame."""
        octets, voice = b"", False
        while line := next(self.lines, ""):
            slot, _, what = line.partition(" ")
            voice = voice or what == "voice"
            octets += active(int(slot)) if what == "voice" else self.rx(int(slot), word_of(int(what, 16)))
        self.more_voice = 10 if voice else max(0, self.more_voice - 1)
        return octets + (active(1) if self.wrong == "active" and self.more_voice and not voice else b"")

    def rx(self, slot: int, word: int) -> bytes:
        """The octets of a burst that was received."""
        sent = min(SENT, key=lambda it: (it ^ word).bit_count())
        if (sent ^ word).bit_count() <= (3 if self.wrong == "reach" else FARTHEST):
            word = sent
        elif self.wrong == "codewords":
            return b""
        if self.wrong == "bits":
            word = int(f"{word >> 4:0196b}"[::-1], 2) << 4
        if self.wrong == "next" and self.link.next_rx == 0:
            self.link.next_rx = 1
        self.sent += 1
        octets = self.link.rx(slot, word.to_bytes(25, "big"))
        if self.sent % 10 or self.version == 1:
            return octets
        if self.wrong == "again":
            return octets + self.link.rx(slot, word.to_bytes(25, "big"))
        return octets + octets

    def poll(self, now: float) -> bytes:
        """A POLL, if the last one was answered."""
        if self.waits and self.wrong != "done":
            return b""
        self.polled = self.polled if self.waits else now
        self.waits, self.polls = True, self.polls + 1
        if self.wrong == "hello" and self.polls == 10:
            return hello(self.carrier, self.lpcn, self.version)
        return b"\x03\x01\x00" if self.wrong == "frames" and self.polls == 20 else POLL


if __name__ == "__main__":
    Client(*map(int, sys.argv[1:5]), *sys.argv[5:]).run()
