"""The commands over a controller that is served on loopback. All of it is skipped if the program was not built."""
import os
import socket
import subprocess
import threading
import unittest

from temzaar.frames import POLL, FrameType
from temzaar.process import connect
from temzaar.script import Input, read_script
from temzaar.sitefile import Site
from tests.served_kit import ACKNOWLEDGED, REGISTRATION, Carrier, free_site, received, served
from tests.support import EXAMPLES, SITES, TOP, TWO_CARRIERS, FolderCase, program, run_tool

# what siteview shows once the first 19 inputs of queued_call.txt have come: three calls, and a request that waits
SHOWN = """\
carriers 2 of 2 up   radios 4   asks 0   lines 1   calls 3   fill aloha

carrier  slot 0                                  slot 1
   0     control (C_ALOHA)                       group 91 from 1001
   1     group 92 from 1002                      group 93 from 1003

waiting for a slot
   1     group 94 from 1004
"""


class Pictures(unittest.TestCase):
    """The pictures of the documents."""

    def test_they_are_those_of_the_example_scripts(self) -> None:
        built = program("dmr_trunk")
        for name in ("queued_call", "lost_carrier", "operator"):
            done = run_tool("timeline", "--site", TWO_CARRIERS, "--script", str(EXAMPLES / "scripts" / f"{name}.txt"), "--program", built)
            wanted = (TOP / "docs" / "pictures" / f"{name}.svg").read_text(encoding="utf-8")
            self.assertTrue(done.stdout == wanted, f"{name}.svg is another picture (make pictures) {done.stderr}")


class Listening(FolderCase):
    """The address on which a served site listens, and what the program reports if it cannot listen there."""

    # an address of the loopback network that is not the one that a site file without `address` means
    OTHER = "127.0.0.2"

    def test_a_registration_is_acknowledged(self) -> None:
        """A site is served at the address of its site file, and not at 127.0.0.1. After one term the program ends with status 0."""
        site = free_site(address=[int(it) for it in self.OTHER.split(".")], tick_ms=10, term_entries=1000)
        port = site.row(0)["port"]
        with served(site, "--terms", "1") as controller:
            with connect(self.OTHER, port) as stream:
                with self.assertRaises(ConnectionRefusedError):
                    socket.create_connection(("127.0.0.1", port))
                stream.sendall(REGISTRATION)
                stream.shutdown(socket.SHUT_WR)
                self.assertEqual(received(stream), ACKNOWLEDGED)
            self.assertEqual(controller.process.wait(60), 0, controller.notes)

    def test_a_port_that_is_taken(self) -> None:
        """A note has the system's reason, the text names the port, the status is 1, and nothing is served."""
        site = free_site()
        port, path = site.row(1)["port"], self.write("site.toml", site.text())
        with socket.create_server(("127.0.0.1", port)):
            done = subprocess.run([program("dmr_trunk"), "--site", path, "--serve", "--terms", "1"],
                                  capture_output=True, text=True, check=False, timeout=60)
        reason = f"[WARN  dmr_trunk] carrier 1: cannot listen on 127.0.0.1:{port}: Address already in use (os error 98)"
        self.assertEqual((done.returncode, done.stdout, done.stderr.splitlines()[1:]), (1, "", [reason, f"dmr_trunk: cannot listen on port {port}"]), done.stderr)


class JournalLevel(FolderCase):
    """The notes of a controller whose standard error is a stream of systemd's journal. The port of
    its console is taken: it notes its start, and then a warning."""

    def setUp(self) -> None:
        super().setUp()
        self.built, site = program("dmr_trunk"), free_site()
        self.path = self.write("site.toml", site.text())
        self.enterContext(socket.create_server((site.address, site.console_port)))

    def notes(self, stream: str | None) -> list[str]:
        """The notes, up to the name of what they are about. `stream` is the variable's value, in which `STREAM` is replaced by the stream of standard error."""
        reader, writer = os.pipe()
        state = os.fstat(writer)
        variables = {} if stream is None else {"JOURNAL_STREAM": stream.replace("STREAM", f"{state.st_dev}:{state.st_ino}")}
        with open(reader, encoding="utf-8") as notes:
            done = subprocess.Popen([self.built, "--site", str(self.path), "--serve"], stderr=writer, env=variables)
            os.close(writer)
            lines = notes.read().splitlines()
            self.assertEqual(done.wait(60), 1)
        return [line.partition("dmr_trunk")[0] for line in lines if not line.startswith("dmr_trunk: ")]

    def test_a_warning_has_its_level(self) -> None:
        self.assertEqual(self.notes("STREAM"), ["[INFO  ", "<4>[WARN  "])

    def test_another_stream(self) -> None:
        """A program that a service starts has the variable too, though its standard error may be another stream."""
        for stream in (None, "", "1:2", "STREAM:", "STREAM0", "x:y"):
            with self.subTest(stream):
                self.assertEqual(self.notes(stream), ["[INFO  ", "[WARN  "])


class View(unittest.TestCase):
    """A site in a known state, as siteview shows it."""

    def test_queued_call(self) -> None:
        site = free_site(hang=60000, maximum=60000)
        with served(site):
            inputs = read_script((EXAMPLES / "scripts" / "queued_call.txt").read_text(encoding="utf-8"))
            streams = self.feed(site, inputs[:next(n for n, it in enumerate(inputs) if it.kind == "tick")])
            done = run_tool("siteview", "--console", f"127.0.0.1:{site.console_port}", "--once")
            for stream in streams.values():
                stream.close()
        self.assertEqual(done.stdout.partition("\n")[2], SHOWN, done.stderr)

    def feed(self, site: Site, inputs: list[Input]) -> dict[int, socket.socket]:
        """Plays the octets of a script over TCP, and reads the answer to each HELLO and POLL. The connections."""
        streams: dict[int, socket.socket] = {}
        for it in inputs:
            if it.kind == "open":
                streams[it.carrier] = connect("127.0.0.1", site.row(it.carrier)["port"])
            elif it.kind == "bytes":
                streams[it.carrier].sendall(it.octets)
                if it.octets == POLL or it.octets[0] == FrameType.HELLO:
                    streams[it.carrier].recv(4096)
        return streams


class Played(FolderCase):
    """Carriers and radios, for some seconds in each version of the link."""

    def test_all_is_answered_right(self) -> None:
        built = program("dmr_trunk")
        for version in ("1", "2"):
            done = run_tool("carriers", "--site", str(SITES / "sixteen_carriers.toml"), "--program", built, "--carriers", "4", "--radios", "12", "--seconds", "4",
                            "--link-version", version)
            self.assertEqual(done.returncode, 0, done.stdout + done.stderr)

    def test_beside_another_client(self) -> None:
        """The control carrier is played while another client serves the other carrier, to which its P_CLEARs go: the slots there are not judged."""
        site, ends = free_site(hang=5), threading.Event()
        path = str(self.write("site.toml", site.text()))
        with served(site):
            other, cleared = Carrier(site.row(1), 1), []

            def poll() -> None:
                while not ends.wait(0.02):
                    cleared.extend(other.ask(POLL))

            client = threading.Thread(target=poll)
            client.start()
            # on a machine that stalls, few calls end within one play
            for _ in range(4):
                done = run_tool("carriers", "--site", path, "--carriers", "1", "--radios", "8", "--seconds", "5")
                if done.returncode or len(cleared) > 2:
                    break
            ends.set()
            client.join()
            other.stream.close()
        self.assertEqual(done.returncode, 0, done.stdout + done.stderr)
        self.assertGreater(len(cleared), 2)
