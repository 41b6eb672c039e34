"""The note of a connection's end says why it ended, by a controller that is served on loopback. Skipped if the program was not built."""
import re
import socket
import struct
import unittest

from temzaar.frames import BYE, POLL, FrameType, active, hello, rx
from temzaar.process import connect
from tests.served_kit import PATIENCE, free_site, received, served
from tests.support import read_document, table_rows

# waits of 100 ms until silence ends a connection that something else is to end
LONG = 600
CARRIER, LPCN = 1, 2
UP = hello(CARRIER, LPCN)
# The octets that a carrier sends, and the cause that is noted; the controller closes each of these connections.
CLOSED_BY_CONTROLLER = {
    UP + BYE: r"BYE",
    UP + POLL + BYE: r"BYE",
    POLL: r"link fault: NoHello, .*",
    BYE: r"link fault: NoHello, .*",
    UP + UP: r"link fault: SecondHello, .*",
    UP + active(2): r"link fault: BadSlot, .*",
    UP + bytes([FrameType.POLL, 1]): r"link fault: BadLength, .*",
    # an RX of version 2 on a connection of version 1
    UP + rx(0, bytes(25), 7): r"link fault: BadLength, .*",
    UP + rx(0, bytes(24) + b"\x01"): r"link fault: BadPad, .*",
    b"GET / HTTP/1.0\r\n\r\n": r"link fault: UnknownType, .*",
    hello(CARRIER, LPCN, 9): r"link fault: BadVersion, .* \(version 9 came\)",
    # the version goes before the carrier
    hello(3, 9, 0): r"link fault: BadVersion, .* \(version 0 came\)",
    hello(3, 9): rf"link fault: WrongCarrier, .* \(carrier 3, LPCN 9 came; carrier {CARRIER}, LPCN {LPCN} expected\)",
    hello(CARRIER, 0xFFFF): rf"link fault: WrongCarrier, .* \(carrier {CARRIER}, LPCN 65535 came; carrier {CARRIER}, LPCN {LPCN} expected\)",
}


def documented_causes() -> list[re.Pattern[str]]:
    """The causes in the table of docs/OPERATING.md; a capital letter alone means a number."""
    rows = table_rows(read_document("OPERATING.md"), "### Why a connection ended")
    return [re.compile(re.sub(r"\b[A-Z]\b", r"\\d+", re.escape(row[0]))) for row in rows]


class Closings(unittest.TestCase):
    """Connections that end, and the notes of their ends."""

    def serve(self, silence: int) -> None:
        """Serves the site. A connection is silent after `silence` waits of 100 ms. If something else is to end it, these are many, so that a busy
        machine does not make it silent first."""
        self.site = free_site(silence=silence)
        self.controller = self.enterContext(served(self.site))

    def cause_of(self, whose: str, port: int, octets: bytes, leaves: str = "") -> str:
        """Sends octets on a new connection, leaves it by an `end` of the output, by a `reset`, or not, and waits for its end. The cause that is noted."""
        since = len(self.controller.notes)
        with connect("127.0.0.1", port) as stream:
            stream.settimeout(PATIENCE)
            stream.sendall(octets)
            if leaves == "reset":
                stream.recv(4096)
                stream.setsockopt(socket.SOL_SOCKET, socket.SO_LINGER, struct.pack("ii", 1, 0))
            else:
                if leaves == "end":
                    stream.shutdown(socket.SHUT_WR)
                received(stream)
        return self.noted_cause(whose, since)

    def noted_cause(self, whose: str, since: int) -> str:
        """The cause of the one end of a connection that is noted from note number `since` on."""
        ending = rf"\] {whose}: 127\.0\.0\.1:\d+ disconnected: (.*)"
        self.assertTrue(self.controller.wait_for(ending, seconds=PATIENCE, since=since), self.controller.notes[since:])
        found = [it[1] for note in self.controller.notes[since:] if (it := re.search(ending, note))]
        self.assertEqual(len(found), 1)
        return found[0]

    def check(self, cause: str, wanted: str) -> None:
        """The cause is the expected one, and one of those that the document explains."""
        self.assertRegex(cause, rf"^{wanted}$")
        self.assertTrue(any(it.fullmatch(cause) for it in documented_causes()), cause)

    def test_a_carrier_that_the_controller_leaves(self) -> None:
        self.serve(LONG)
        port = self.site.row(CARRIER)["port"]
        for octets, wanted in CLOSED_BY_CONTROLLER.items():
            with self.subTest(wanted, octets=octets.hex()):
                self.check(self.cause_of(f"carrier {CARRIER}", port, octets), wanted)

    def test_a_carrier_that_leaves(self) -> None:
        self.serve(LONG)
        port = self.site.row(CARRIER)["port"]
        for octets, leaves, wanted in ((UP, "end", "end of input"), (UP, "reset", "a read failed"), (UP + BYE, "end", "BYE"),
                                       (UP + active(2), "end", r"link fault: BadSlot, .*")):
            with self.subTest(wanted, octets=octets.hex(), leaves=leaves):
                self.check(self.cause_of(f"carrier {CARRIER}", port, octets, leaves), wanted)

    def test_the_control_carrier(self) -> None:
        """That it has no connection is a warning. Of another carrier there is no such note."""
        self.serve(LONG)
        row = self.site.row(self.site.control)
        for lost in (1, 2):
            whose = f"carrier {self.site.control}"
            self.check(self.cause_of(whose, row["port"], hello(self.site.control, row["lpcn"]), "end"), "end of input")
            self.check(self.cause_of(f"carrier {CARRIER}", self.site.row(CARRIER)["port"], UP, "end"), "end of input")
            found = [it for it in self.controller.notes if "the control carrier" in it]
            warning = f"[WARN  dmr_trunk] {whose}: the control carrier has no connection, so no radio is served"
            again = f"[INFO  dmr_trunk] {whose}: the control carrier has a connection again"
            self.assertEqual(found, [warning, again, warning][:2 * lost - 1], self.controller.notes)

    def test_operators(self) -> None:
        self.serve(LONG)
        self.check(self.cause_of("console", self.site.console_port, b"status\n", "end"), "end of input")
        self.check(self.cause_of("console", self.site.console_port, b"POST / HTTP/1.1\r\n\r\nmove 7\n"), "a request of HTTP")
        with connect("127.0.0.1", self.site.console_port) as stream:
            stream.sendall(b"status\n")
            self.assertTrue(stream.recv(4096).endswith(b" fill aloha\n"))

    def test_an_octet_now_and_then(self) -> None:
        """Octets that come more often than `silence` do not keep a connection without a whole HELLO, or a line without an end."""
        self.serve(10)
        for whose, port, octets, wanted in (("carrier 1", self.site.row(CARRIER)["port"], UP[:-1], "no HELLO"), ("console", self.site.console_port, b"status", "a line did not end")):
            since = len(self.controller.notes)
            with self.subTest(wanted), connect("127.0.0.1", port) as stream:
                stream.settimeout(0.3)
                for octet in octets:
                    try:
                        stream.sendall(bytes([octet]))
                        if not stream.recv(4096):
                            break
                    except TimeoutError:
                        continue
                    except OSError:
                        break
                self.check(self.noted_cause(whose, since), wanted)

    def test_a_newcomer(self) -> None:
        """A connection that is quiet for a second is displaced by one with the carrier's HELLO; one that waits with something else is not served before."""
        self.serve(LONG)
        port, since = self.site.row(CARRIER)["port"], len(self.controller.notes)
        with connect("127.0.0.1", port) as first, connect("127.0.0.1", port) as other, connect("127.0.0.1", port) as second:
            first.sendall(UP)
            self.assertEqual(first.recv(3), bytes.fromhex("810101"))
            other.sendall(hello(CARRIER, LPCN + 1))
            second.settimeout(PATIENCE)
            second.sendall(UP)
            self.assertEqual(second.recv(3), bytes.fromhex("810101"))
            self.check(self.noted_cause(f"carrier {CARRIER}", since), "displaced by a newcomer")
            self.assertTrue(self.controller.wait_for(r"yields its place to 127\.0\.0\.1:\d+, quiet for 1\d\d\d ms", since=since), self.controller.notes[since:])

    def test_silence(self) -> None:
        self.serve(5)
        self.check(self.cause_of(f"carrier {CARRIER}", self.site.row(CARRIER)["port"], UP), "silence")
        # an operator's octets that are not a command are answered, and close nothing
        self.check(self.cause_of("console", self.site.console_port, UP + BYE + b"\n" + b"x" * 500), "silence")
