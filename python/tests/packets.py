"""Packet captures for tests, written octet by octet: a TCP connection over IPv4 and Ethernet."""
import struct
from dataclasses import dataclass

FIN, SYN, PSH, ACK = 1, 2, 8, 16
CLIENT_SEQUENCE, SERVER_SEQUENCE = 0xFFFFFFF0, 7000
BEGAN = 1_790_000_000.25


def ipv4(to_server: bool, payload: bytes) -> bytes:
    """An IPv4 packet with TCP, from the client's address to the server's, or back. Its header has an option."""
    ends = bytes([10, 0, 0, 2]), bytes([10, 0, 0, 1])
    source, target = ends if to_server else ends[::-1]
    return struct.pack(">BBHHHBBH", 0x46, 0, 24 + len(payload), 0, 0x4000, 64, 6, 0) + source + target + bytes(4) + payload


def tcp(source: int, target: int, sequence: int, acknowledged: int, flags: int, payload: bytes) -> bytes:
    """A segment with an option in its header."""
    return struct.pack(">HHIIBBHHH", source, target, sequence % 2**32, acknowledged % 2**32, 0x60, flags, 512, 0, 0) + b"\x01\x01\x01\x00" + payload


@dataclass
class Sent:
    """A packet: its time in seconds after BEGAN, and its octets as an IP packet."""
    time: float
    packet: bytes


@dataclass
class Talk:
    """A TCP connection that is played: packets are added to `to`."""
    to: list[Sent]
    port: int
    source: int
    sent: int = 0
    answered: int = 0

    def _add(self, time: float, to_server: bool, place: int, flags: int, payload: bytes) -> None:
        begins, other = (CLIENT_SEQUENCE, SERVER_SEQUENCE) if to_server else (SERVER_SEQUENCE, CLIENT_SEQUENCE)
        ports = (self.source, self.port) if to_server else (self.port, self.source)
        acknowledged = other + 1 + (self.answered if to_server else self.sent) if flags & ACK else 0
        segment = tcp(*ports, begins + place, acknowledged, flags, payload)
        self.to.append(Sent(time, ipv4(to_server, segment)))

    def open(self, time: float) -> None:
        """The three packets that open it."""
        self._add(time, True, 0, SYN, b"")
        self._add(time, False, 0, SYN | ACK, b"")
        self._add(time, True, 1, ACK, b"")

    def send(self, time: float, octets: bytes) -> None:
        """The client sends."""
        self._add(time, True, 1 + self.sent, PSH | ACK, octets)
        self.sent += len(octets)

    def answer(self, time: float, octets: bytes) -> None:
        """The server sends."""
        self._add(time, False, 1 + self.answered, PSH | ACK, octets)
        self.answered += len(octets)

    def close(self, time: float) -> None:
        """The client ends it, and then the server."""
        self._add(time, True, 1 + self.sent, FIN | ACK, b"")
        self._add(time, False, 1 + self.answered, FIN | ACK, b"")


def write_pcap(sent: list[Sent]) -> bytes:
    """A classic capture file of frames of Ethernet."""
    out = struct.pack("<IHHiIII", 0xA1B2C3D4, 2, 4, 0, 0, 262144, 1)
    for it in sent:
        frame = bytes(12) + b"\x08\x00" + it.packet
        out += struct.pack("<IIII", *divmod(round((BEGAN + it.time) * 10**6), 10**6), len(frame), len(frame)) + frame
    return out
