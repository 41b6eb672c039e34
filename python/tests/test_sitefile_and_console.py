"""The site file and the console."""
import os
import pathlib
import re
import socket
import threading
import tomllib
import unittest

from temzaar.console import Console, ConsoleFault, Parties, Status, read_calls, read_lines, read_radios, read_slots
from temzaar.hubconsole import HubConsole
from temzaar.sitefile import ConsolePlace, Site, SiteFault, read_console_place
from tests.support import TWO_CARRIERS, FolderCase


class SiteFile(FolderCase):
    """A site and its copies."""

    def test_text_reads_back(self) -> None:
        site = Site(TWO_CARRIERS)
        self.assertEqual(tomllib.loads(site.text()), site.plan)

    def test_a_copy_on_loopback(self) -> None:
        site = Site(TWO_CARRIERS, carriers=1, first_port=9000, hang=3, link_version=2)
        self.assertEqual([row["number"] for row in site.rows], [site.control])
        self.assertEqual((site.console_port, site.row(site.control)["port"], site.address, site.link_version), (9000, 9001, "127.0.0.1", 2))
        self.assertEqual(site.plan["hang"], 3)

    def test_ports_shift(self) -> None:
        site, other = Site(TWO_CARRIERS), Site(TWO_CARRIERS)
        other.shift_ports(10000)
        self.assertEqual([row["port"] + 10000 for row in site.rows] + [site.console_port + 10000], [row["port"] for row in other.rows] + [other.console_port])

    def test_place_of_the_console(self) -> None:
        """`silence` is 1 to 65535 waits of 100 ms."""
        text = pathlib.Path(TWO_CARRIERS).read_text(encoding="utf-8")
        for line, wanted in (("silence = 1", 0.1), ("silence = 65535", 6553.5), ("silence = 0", "out of range silence"), ("silence = 65536", "out of range silence"),
                             ('silence = "5"', "wrong type silence"), ("silence = true", "wrong type silence"), ("", "missing silence")):
            with self.subTest(line):
                path = str(self.write("site.toml", re.sub(r"(?m)^silence = .*$", line, text)))
                if isinstance(wanted, str):
                    said = f"^site file {re.escape(path)}: {wanted}$"
                    self.assertRaisesRegex(SiteFault, said, read_console_place, path)
                else:
                    place = ConsolePlace("127.0.0.1", 7100, wanted, 10000, 60)
                    self.assertEqual(read_console_place(path), place)

    def test_radios_are_admitted(self) -> None:
        site = Site(TWO_CARRIERS)
        radios = site.radios(8)
        self.assertEqual(len(set(radios)), 8)
        self.assertTrue(all(any(first <= radio <= last for first, last in site.plan["radios"]) for radio in radios))


class Replies(unittest.TestCase):
    """The meaning of replies."""

    def test_status(self) -> None:
        status = Status(["status carriers 1 radios 2 asks 0 lines 3 calls 4 fill move 7"])
        self.assertEqual((status.counts["lines"], status.fill), (3, "move 7"))
        self.assertRaises(ConsoleFault, Status, ["error unknown command"])

    def test_lists(self) -> None:
        self.assertEqual(read_slots(["slot 0 0 control", "slot 0 1 free"]), {(0, 0): "control", (0, 1): "free"})
        self.assertEqual(read_calls(["call 1 0 group 91 from 1001"]), {(1, 0): "group 91 from 1001"})
        self.assertEqual(read_lines(["line 1 radio 7 from 8"]), ["radio 7 from 8"])
        self.assertRaises(ConsoleFault, read_slots, ["slot 0 control"])
        self.assertRaises(ConsoleFault, read_calls, ["call"])
        self.assertEqual(read_calls(["error no carrier"]), {})
        self.assertRaises(ConsoleFault, read_lines, ["line 1 everybody from 8"])
        self.assertRaises(ConsoleFault, read_lines, ["line 1 group x from 8"])
        self.assertEqual(Parties.read("radio 7 from 8"), Parties("radio", 7, 8))
        self.assertEqual(read_radios(["radio 7", "radio 8"]), [7, 8])
        self.assertRaises(ConsoleFault, read_radios, ["radio x"])


class Connection(FolderCase):
    """A console over a socket on loopback, its other side played here."""

    def serve(self, answer: bytes) -> int:
        """Answers one connection with these octets. The port."""
        listener = socket.create_server(("127.0.0.1", 0))
        self.addCleanup(listener.close)

        def answer_one() -> None:
            stream, _ = listener.accept()
            with stream:
                stream.recv(100)
                for octet in answer:
                    stream.send(bytes([octet]))

        threading.Thread(target=answer_one, daemon=True).start()
        return int(listener.getsockname()[1])

    def test_replies(self) -> None:
        """A line; a list up to its end, or an error in its place; and the word that ends lists as the reply to a question."""
        for asked, octets, reply in (("stay", b"ok\n", ["ok"]), ("radios 1", b"radio 1\nradio 2\nend\n", ["radio 1", "radio 2"]),
                                     ("calls 3", b"error no carrier\n", ["error no carrier"]), ("status", b"end\n", ["end"])):
            with self.subTest(asked), Console("127.0.0.1", self.serve(octets)) as console:
                self.assertEqual(console.ask(asked), reply)

    def test_an_end_within_a_reply(self) -> None:
        with Console("127.0.0.1", self.serve(b"stat")) as console:
            self.assertRaisesRegex(ConsoleFault, "ended the connection", console.ask, "status")

    def test_a_refusal_that_came_before_the_line(self) -> None:
        path = str(self.folder / "console.sock")
        with socket.socket(socket.AF_UNIX) as listener:
            listener.bind(path)
            listener.listen()
            with HubConsole(path) as console:
                stream, _ = listener.accept()
                with stream:
                    stream.sendall(b"error the user x has no role here\n")
                self.assertEqual(console.ask("status"), ["error the user x has no role here"])
                self.assertRaisesRegex(ConsoleFault, "broke off", console.ask, "status")
