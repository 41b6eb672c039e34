"""Scripts, printed replays, and the events of both."""
import unittest

from temzaar import code
from temzaar.frames import BYE, DONE, POLL, FrameType, burst_frame, hello, rx, welcome
from temzaar.script import Input, Replay, SessionFault, read_printed, read_script
from tests.support import EXAMPLES

REGISTER = code.burst_of(bytes.fromhex("9F00020EFFFEC60003E9"))
ACCEPTED = bytes.fromhex("A00000C40003E9FFFEC6")


def replayed(lines: list[bytes | str], *sent: bytes) -> list[tuple[str, int, int]]:
    """The events of a script of carrier 0, with octets as pieces of its connection, and of what was sent to it: what, tick and slot."""
    inputs = read_script("\n".join(it if isinstance(it, str) else f"bytes 0 {it.hex()}" for it in lines))
    return [(it.what, it.tick, it.slot) for it in Replay(inputs, {0: b"".join(sent)}).events]


class Reading(unittest.TestCase):
    """Lines to inputs, and back."""

    def test_lines(self) -> None:
        text = "# a comment\n\nopen 3\nbytes 3 0aFF\ncut 3\ntick\ntick 12\nsay  hello \nsay \ntext 00\n"
        inputs = read_script(text)
        self.assertEqual(inputs, [Input("open", 3), Input("bytes", 3, b"\x0a\xff"), Input("cut", 3), Input("tick", count=1), Input("tick", count=12),
                                  Input("text", octets=b" hello \n"), Input("text", octets=b"\n"), Input("text", octets=b"\0")])
        self.assertEqual([it.line() for it in inputs], ["open 3", "bytes 3 0AFF", "cut 3", "tick", "tick 12", "say  hello ", "say ", "text 00"])

    def test_examples_read_and_write(self) -> None:
        for path in sorted((EXAMPLES / "scripts").glob("*.txt")):
            inputs = read_script(path.read_text(encoding="utf-8"))
            self.assertEqual(read_script("\n".join(it.line() for it in inputs)), inputs, path.name)

    def test_the_number_of_a_wrong_line(self) -> None:
        self.assertRaisesRegex(SessionFault, "script line 3", read_script, "tick\n\nhang 0\n")

    def test_printed(self) -> None:
        self.assertEqual(read_printed("carrier 0 8101\ncarrier 1 -\nok\n"), ({0: b"\x81\x01", 1: b""}, "ok\n"))
        self.assertRaises(SessionFault, read_printed, "carrier 0 8g\n")


class Events(unittest.TestCase):
    """The events of a replay."""

    def test_a_registration(self) -> None:
        events = replayed(["open 0", hello(0, 1), rx(0, REGISTER), "tick 2", POLL, BYE], welcome(1), burst_frame(FrameType.TX, 0, code.burst_of(ACCEPTED)), DONE)
        self.assertEqual(events, [("up", 0, -1), ("heard", 0, 0), ("polled", 2, -1), ("sent", 2, 0), ("lost", 2, -1)])

    def test_a_retransmission_is_heard_once(self) -> None:
        events = replayed(["open 0", hello(0, 1, 2), rx(0, REGISTER, 7) * 2, POLL, rx(0, REGISTER, 7), rx(0, REGISTER, 8)], welcome(2), DONE)
        self.assertEqual([it[0] for it in events], ["up", "heard", "polled", "heard"])

    def test_what_ends_a_connection(self) -> None:
        for line in (BYE, b"\x06", hello(0, 1), "cut 0", "open 0"):
            self.assertEqual([it[0] for it in replayed(["open 0", hello(0, 1), line], welcome(1))], ["up", "lost"])
        for line in (BYE, b"\x06", POLL, "cut 0", "open 0"):
            self.assertEqual(replayed(["open 0", line]), [])

    def test_a_second_connection_in_the_other_version(self) -> None:
        burst = code.burst_of(ACCEPTED)
        events = replayed(["open 0", hello(0, 1, 2), POLL, "open 0", hello(0, 1, 1), POLL],
                          welcome(2), burst_frame(FrameType.TX, 0, burst, 0), DONE, welcome(1), burst_frame(FrameType.TX, 1, burst), DONE)
        self.assertEqual([it[0] for it in events], ["up", "polled", "sent", "lost", "up", "polled", "sent"])

    def test_what_does_not_belong_together(self) -> None:
        lines = ["open 0", hello(0, 1), POLL]
        for sent, said in (((welcome(1),), "nothing answers"), ((welcome(1), DONE, DONE), "answer no input"),
                           ((welcome(1), burst_frame(FrameType.TX, 0, bytes(25)), DONE), "not a codeword"), ((welcome(1), b"\x83"), "not a whole frame")):
            with self.assertRaisesRegex(SessionFault, said):
                replayed(lines, *sent)
