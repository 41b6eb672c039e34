"""The example of station/ as the carrier of a site that is served on loopback, with and without dmr_mend, and the kit's frames sent to the controller."""
import random
import re
import subprocess
import unittest
from typing import Any

from temzaar.console import Console
from temzaar.frames import DONE, VERSIONS, FrameType
from temzaar.process import connect
from temzaar.sitefile import Site
from tests import test_link
from tests.served_kit import PATIENCE, free_site, served
from tests.station_kit import FAST, ask, built, compilers
from tests.support import FolderCase, program
from tests.test_station import Reference, flipped

# a frame of the example, in milliseconds, so that a test is soon over; requests are repeated each eighth frame
FRAME = 20
COUNTS = re.compile(r"bursts sent (\d+), of them mended (\d+) and not read (\d+); not received (\d+); transmitted (\d+); frames missed (\d+)$")


def setUpModule() -> None:
    compilers()
    program("dmr_trunk")


def example(site: Site, *words: str, carrier: int = 0, **options: Any) -> "subprocess.CompletedProcess[str]":
    """Runs the example as a carrier of the site, to its end."""
    row = site.row(carrier)
    command = [built("example", FAST), "-p", str(row["port"]), "-c", str(carrier), "-l", str(row["lpcn"]), "-t", str(FRAME), *words]
    return subprocess.run(command, capture_output=True, text=True, check=False, timeout=PATIENCE, **options)


def asked(site: Site, line: str) -> list[str]:
    """The reply of the console."""
    with Console("127.0.0.1", site.console_port) as console:
        return console.ask(line)


class Radio(unittest.TestCase):
    """A radio that registers and calls through the example, with 5 % of the bits of each burst wrong."""

    def play(self, version: int, *words: str) -> tuple[list[str], list[str]]:
        """What the example prints in 160 frames, and what the console says of radios and calls."""
        site = free_site(link_version=2)
        with served(site):
            done = example(site, "-v", str(version), "-n", "160", "-r", "1001", "-g", "91", "-w", "5", *words)
            said = asked(site, "radios 1000")
        self.assertEqual((done.returncode, done.stderr), (0, ""))
        return done.stdout.splitlines(), said

    def test_with_dmr_mend(self) -> None:
        """It is registered and has its call at once, or nearly so."""
        for version in VERSIONS:
            printed, radios = self.play(version)
            text = "\n".join(printed)
            self.assertEqual(printed[0], f"up in version {version}")
            requests = [int(it) for it in re.findall(r"^(?:registered|granted); requests (\d+)$", text, re.M)]
            self.assertTrue(len(requests) == 2 and max(requests) <= 5, text)
            self.assertIn("talked on slot 1", text)
            self.assertEqual(radios, ["radio 1001"])
            counts = [int(it) for it in COUNTS.search(text).groups()]  # type: ignore[union-attr]
            self.assertTrue(counts[1] >= 2 and counts[4] > 100, text)

    def test_without_dmr_mend(self) -> None:
        """The same radio, with the same wrong bits, sends twenty requests and is not registered."""
        printed, radios = self.play(1, "-m")
        self.assertEqual(len(printed), 2, printed)
        counts = [int(it) for it in COUNTS.search(printed[1]).groups()]  # type: ignore[union-attr]
        self.assertEqual((counts[0] + counts[3], counts[1]), (20, 0))
        self.assertEqual(radios, [])

    def test_without_wrong_bits_both_are_the_same(self) -> None:
        for words in ((), ("-m",)):
            printed, radios = self.play(2, "-w", "0", *words)
            self.assertEqual(printed[:4], ["up in version 2", "registered; requests 1", "granted; requests 1", "talked on slot 1"])
            self.assertEqual(radios, ["radio 1001"])


class Receiver(FolderCase):
    """What the example receives from a file, and transmits."""

    def test_a_file(self) -> None:
        """Bursts of radios on both slots, and voice. Other bursts are not sent: of a base station, of another colour or slot type."""
        names = ["register 1001", "register 1002", "call 91"]
        sync, colour, kind = 1, 1, 3
        questions = [f"make {test_link.BURSTS[name].hex()} {sync} {colour} {kind}" for name in names]
        others = [f"make {test_link.BURSTS['call 1002'].hex()} {it}" for it in ("0 1 3", "1 2 3", "1 1 9")]
        bursts = ask([*questions, *others])
        lines = ["0 " + bursts[0], "", "0 " + bursts[1], "", "1 " + bursts[2], *(f"0 {it}" for it in bursts[3:]), "", "0 " + bursts[2], ""]
        lines += [line for _ in range(20) for line in ("1 voice", "")]
        site = free_site(hang=4)
        with served(site):
            file = self.write("heard", "".join(f"{line}\n" for line in lines))
            done = example(site, "-n", "40", "-x", "-f", str(file))
            radios = asked(site, "radios 1000")
        sent = re.findall(r"^transmits (\d) (\w+)$", done.stdout, re.M)
        made = ask(f"make {test_link.BURSTS[name].hex()} 0 1 3" for name in test_link.BURSTS)
        names_of = dict(zip(made, test_link.BURSTS, strict=True))
        heard = [(int(slot), names_of.get(burst, burst)) for slot, burst in sent]
        self.assertEqual(radios, ["radio 1001", "radio 1002"])
        for name in ("accepted 1001", "accepted 1002", "grant 91", "late 91", "aloha"):
            self.assertIn((0, name), heard)
        # the call ends when the voice has ended for the hang time, and not before
        cleared = heard.index((1, "clear 91"))
        self.assertGreater(sum(slot == 0 for slot, _ in heard[:cleared]), 22)
        self.assertEqual(len(re.findall("bursts sent 4, .*; not received 3;", done.stdout)), 1, done.stdout)


class Connection(unittest.TestCase):
    """How the example connects, and connects again."""

    def test_it_falls_back_to_version_1(self) -> None:
        site = free_site()
        with served(site) as controller:
            done = example(site, "-v", "2", "-n", "5")
            notes = "\n".join(controller.notes)
        self.assertEqual(done.stdout.splitlines()[:3], ["refused 1", "connects again; milliseconds 1000", "up in version 1"])
        self.assertEqual(notes.count("BadVersion"), 1)

    def test_it_comes_back(self) -> None:
        """A controller ends, and another one begins on its ports."""
        site = free_site()
        row = site.row(1)
        words = [built("example", FAST), "-p", str(row["port"]), "-c", "1", "-l", str(row["lpcn"]), "-t", str(FRAME), "-n", "200"]
        with subprocess.Popen(words, stdout=subprocess.PIPE, text=True) as client:
            try:
                for _ in range(2):
                    with served(site) as controller:
                        self.assertTrue(controller.wait_for("carrier 1: .* connected", 10))
            finally:
                client.terminate()
            printed = client.stdout.read() if client.stdout else ""
        self.assertEqual(printed.count("up in version 1\n"), 2, printed)
        self.assertIn("connects again; milliseconds 1000\n", printed)


class Streams(unittest.TestCase):
    """Frames that the kit writes, sent to the controller in random pieces; what comes back, read by the kit and by temzaar.frames."""

    def questions(self, draws: random.Random, version: int) -> list[list[str]]:
        """The questions of some polls: what is written before each, and the POLL."""
        polls = []
        for _ in range(40):
            lines = []
            for _ in range(draws.randrange(4)):
                word = flipped(draws.choice([*test_link.BURSTS.values()]), draws.sample(range(196), draws.randrange(6)))
                lines.append(draws.choice([f"rx {draws.randrange(2)} {word.hex()}", f"active {draws.randrange(2)}"]))
                if version == 2 and lines[-1].startswith("rx") and draws.random() < 0.2:
                    lines.append("again" + lines[-1][2:])
            polls.append([*lines, "poll"])
        return polls

    def exchange(self, site: Site, version: int, polls: list[list[str]], draws: random.Random) -> list[bytes]:
        """Plays the polls to carrier 0. What comes for the HELLO and for each of them."""
        flat = [f"link {version} 0 1", *[line for lines in polls for line in (*lines, "done")]]
        # the kit writes no POLL before the DONE of the last: here each is there at once
        written = iter(ask(["octets 8300" if it == "done" else it for it in [flat[0], f"octets 8101{version:02X}", *flat[1:]]]))
        with connect("127.0.0.1", site.row(0)["port"]) as stream:
            stream.settimeout(PATIENCE)
            stream.sendall(bytes.fromhex(next(written)))
            next(written)
            came = [self.read(stream, FrameType.WELCOME)]
            for lines in polls:
                octets = bytes.fromhex("".join(next(written) for _ in lines))
                next(written)
                while octets:
                    size = draws.randrange(1, 40)
                    stream.sendall(octets[:size])
                    octets = octets[size:]
                came.append(self.read(stream, FrameType.DONE))
        return came

    def read(self, stream: Any, last: FrameType) -> bytes:
        """The octets up to the end of a frame of a type."""
        octets = b""
        end = DONE if last == FrameType.DONE else bytes([FrameType.WELCOME, 1])
        while not (octets.endswith(end) or last == FrameType.WELCOME and len(octets) == 3):
            piece = stream.recv(65536)
            self.assertTrue(piece, "the controller closed the connection")
            octets += piece
        return octets

    def test_both_versions(self) -> None:
        draws = random.Random(11)
        site = free_site(link_version=2)
        with served(site) as controller:
            for version in VERSIONS:
                came = self.exchange(site, version, self.questions(draws, version), draws)
                reference, wanted, place = Reference(version), [], 0
                for answer in came:
                    for octet in answer:
                        event = reference.octet(octet)
                        wanted += [f"{place}:{event}"] if event else []
                        place += 1
                    reference.poll()
                pieces = [line for answer in came for line in (f"octets {answer.hex()}", "poll")]
                found = " ".join(ask([f"link {version} 0 1", *pieces])[1::2]).split()
                self.assertEqual(found, wanted)
                self.assertEqual((sum(":DONE" in it for it in wanted), any("FAULT" in it for it in wanted)), (40, False))
                self.assertGreaterEqual(sum(":TX" in it for it in wanted), 40)
            self.assertNotIn("fault", "\n".join(controller.notes))
