"""docs/LINK.md: its frames and charts are those of the code, its bursts those of docs/FORMATS.md, and a carrier sees what it says."""
import re
import tempfile
import unittest

from temzaar import code
from temzaar.frames import BYE, DONE, FROM_CARRIER, POLL, TO_CARRIER, Cutter, Frame, FrameType, Link, active, burst_frame, hello, rx, welcome
from temzaar.process import connect, replay
from temzaar.script import read_printed
from temzaar.sitefile import Site
from tests import served_kit
from tests.decoded import frame_lines
from tests.support import TWO_CARRIERS, program, read_document, table_rows

LINK, FORMATS = read_document("LINK.md"), read_document("FORMATS.md")
BURSTS = {name: bytes.fromhex(burst) for name, _, _, burst in table_rows(LINK, "## Bursts for tests")}


def frame_of(octets: bytes) -> Frame:
    """The one frame that the octets are, of either direction and version."""
    kind = FrameType(octets[0])
    begins = (hello(0, 1, 2), FROM_CARRIER) if kind in FROM_CARRIER else (welcome(2), TO_CARRIER)
    numbered = len(octets) > 28
    cutter = Cutter(begins[1])
    frames = cutter.feed((begins[0] if numbered else b"") + octets)[int(numbered):]
    if len(frames) != 1 or cutter.octets or cutter.fault:
        raise AssertionError(f"not one frame: {octets.hex()}")
    return frames[0]


def replayed(script: list[str], **changes: int) -> bytes:
    """The octets that go to carrier 0 when a script is replayed."""
    with tempfile.NamedTemporaryFile("w", suffix=".toml", encoding="utf-8") as file:
        file.write(Site(TWO_CARRIERS, **changes).text())
        file.flush()
        return read_printed(replay(program("dmr_trunk"), file.name, "\n".join(script)))[0][0]


class Tables(unittest.TestCase):
    """Frames, examples, bits and bursts."""

    def test_frames(self) -> None:
        """Their lengths are those of the code, as test_frames says."""
        for name, sender, kind, length, *_, octets in table_rows(LINK, "## Frames"):
            self.assertEqual(int(octets), 2 + int(length, 16), name)
            self.assertEqual(sender, "carrier" if FrameType(int(kind, 16)) in FROM_CARRIER else "controller", name)

    def test_examples(self) -> None:
        rows = table_rows(LINK, "### Examples")
        self.assertEqual({FrameType[words.split()[0]] for words, _ in rows}, set(FrameType))
        for words, octets in rows:
            frame = frame_of(bytes.fromhex(octets))
            self.assertEqual(frame_lines(0, frame, {})[0].split(maxsplit=1)[1], words)
            if frame.kind in (FrameType.RX, FrameType.TX):
                self.assertEqual(frame.burst().word, BURSTS["register 1001" if frame.kind == FrameType.RX else "accepted 1001"])

    def test_bits_and_octets(self) -> None:
        said = re.search(r"^If bits ([\d, and]+) are 1 .*\n\n    (\w{50})$", LINK, re.M)
        places = re.search(r"has 1 at the places ([\d, ]+)\.", FORMATS)
        assert said and places
        self.assertEqual(re.findall(r"\d+", said[1]), re.findall(r"\d+", places[1]))
        self.assertEqual(int(said[2], 16), sum(code.bit_at(int(place)) for place in re.findall(r"\d+", said[1])))

    def test_bursts(self) -> None:
        for name, _, octets, burst in table_rows(LINK, "## Bursts for tests"):
            self.assertEqual(code.burst_of(bytes.fromhex(octets)).hex().upper(), burst, name)
        known = {octets: burst for octets, _, burst in table_rows(FORMATS, "| ten octets") if burst}
        self.assertLessEqual(known.items(), {octets: burst for _, _, octets, burst in table_rows(LINK, "## Bursts for tests")}.items())

    def test_causes_are_those_of_operating(self) -> None:
        ours = [cause for row in table_rows(LINK, "## How a connection ends") if not row[0].startswith("none") for cause in row[0].split(", ")]
        theirs = table_rows(read_document("OPERATING.md"), "### Why a connection ended")
        self.assertEqual(sorted(ours), sorted(row[0].partition(",")[0] for row in theirs if not row[1].startswith("at the console: ")))


class Charts(unittest.TestCase):
    """The charts of sessions."""

    def charts(self) -> list[list[Frame]]:
        """The frames of each chart, in their order; a name in brackets is a burst."""
        section = LINK[LINK.index("## A session"):LINK.index("## Frames")]
        found = []
        for chart in re.findall(r"(?:^    .*\n)+", section, re.M):
            found.append([])
            for name, text in re.findall(r"^ +(?:<-  )?([A-Z]+) +(\w+(?:\[[\w ]+\])?)", chart, re.M):
                frame = frame_of(bytes.fromhex(re.sub(r"\[(.*)\]", lambda it: BURSTS[it[1]].hex(), text)))
                self.assertEqual(frame.kind.name, name)
                found[-1].append(frame)
        return found

    def test_replayed(self) -> None:
        charts = self.charts()
        self.assertEqual([chart[0].body[0] for chart in charts], [1, 2, 3])
        self.assertEqual([len(chart) for chart in charts], [14, 16, 2])
        for chart in charts:
            came = [f"bytes 0 {frame.octets().hex()}" for frame in chart if frame.kind in FROM_CARRIER]
            sent = b"".join(frame.octets() for frame in chart if frame.kind in TO_CARRIER)
            self.assertEqual(replayed(["open 0", *came], link_version=2).hex(), sent.hex())


class Calls(unittest.TestCase):
    """The table "Two calls", replayed in both versions, so that the test decides when ticks come."""

    HANG = 100

    def script(self, link: Link) -> tuple[list[str], bytes]:
        """The lines of carrier 0's script, and the octets that it should receive."""
        lines, sent = ["open 0", f"bytes 0 {hello(0, 1, link.version).hex()}"], [welcome(link.version)]
        fillers, late = 0, ""

        def poll(octets: bytes, *names: str) -> None:
            """The carrier sends octets and polls; the bursts of these names come, the first on slot 0."""
            lines.append(f"bytes 0 {(octets + POLL).hex()}")
            for slot, name in enumerate(names):
                sent.append(burst_frame(FrameType.TX, slot, BURSTS[name], link.next_tx))
                link.take_tx(frame_of(sent[-1]))
            sent.append(DONE)

        def filler() -> str:
            """The name of the next filler: every fourth is the late grant of the call, if one is active."""
            nonlocal fillers
            fillers += 1
            return late if late and fillers % 4 == 0 else "aloha"

        section = LINK[LINK.index("### Two calls"):LINK.index("## Conformance")]
        for what, rest, came in re.findall(r"^\| (RX slot 0|ACTIVE slot 1|no ACTIVE) (.*?) \| (.*) \|$", section, re.M):
            names = re.findall(r"`([\w ]+)`", came)
            if what == "RX slot 0":
                poll(link.rx(0, BURSTS[rest.split("`")[1]]), names[0])
                for name in names[1:]:
                    poll(b"", name)
            elif what == "ACTIVE slot 1":
                late = names[1] if len(names) > 1 else ""
                for _ in range(3 * self.HANG - 1):
                    lines.append("tick")
                    poll(active(1), filler())
            else:
                lines.append(f"tick {self.HANG - 1}")
                poll(b"", filler())
                lines.append("tick")
                late = ""
                poll(b"", filler(), names[0])
        self.assertEqual(fillers, 2 * (3 * self.HANG + 1))
        return lines, b"".join(sent)

    def test_both_versions(self) -> None:
        for version in (1, 2):
            lines, sent = self.script(Link(version))
            self.assertEqual(replayed(lines, link_version=2, hang=self.HANG).hex(), sent.hex(), version)

    def test_noise(self) -> None:
        """A burst that means nothing raises the backoff of the next filler."""
        noise = burst_frame(FrameType.RX, 0, code.burst_of(code.octets_of(BURSTS["register 1001"]) or b"", [1, 2, 3, 4]))
        sent = replayed(["open 0", f"bytes 0 {(hello(0, 1) + noise + POLL).hex()}"])
        self.assertEqual(sent, welcome(1) + burst_frame(FrameType.TX, 0, BURSTS["aloha 2"]) + DONE)


class Ends(unittest.TestCase):
    """The end of a connection as a carrier sees it and as the table describes it, over a controller that is served on loopback."""

    UP = hello(0, 1) + POLL
    ANSWERS = welcome(1) + burst_frame(FrameType.TX, 0, BURSTS["aloha"]) + DONE
    # the octets that provoke each cause; a POLL after them is not answered
    SENT = {
        "BYE": UP + BYE, "end of input": UP, "silence": UP,
        "link fault: BadVersion": hello(0, 1, 2), "link fault: WrongCarrier": hello(1, 1), "link fault: NoHello": POLL,
        "link fault: SecondHello": UP + hello(0, 1), "link fault: UnknownType": UP + b"\x81", "link fault: BadLength": UP + b"\x02\x1b",
        "link fault: BadSlot": UP + active(2), "link fault: BadPad": UP + rx(0, bytes(24) + b"\x01"),
    }

    def seen(self, text: str) -> bytes:
        """The octets that a cell of the table means."""
        refused = re.match(r"REFUSED (\d), then closed", text)
        if refused:
            return bytes([FrameType.REFUSED, 1, int(refused[1])])
        return b"" if text == "closed, and nothing before" else self.ANSWERS

    def test_what_is_seen(self) -> None:
        site = served_kit.free_site(silence=20)
        port, tried = site.row(0)["port"], set()
        with served_kit.served(site):
            for causes, text, _ in table_rows(LINK, "## How a connection ends"):
                for cause in self.SENT.keys() & set(causes.split(", ")):
                    with self.subTest(cause):
                        tried.add(cause)
                        self.assertEqual(self.received(port, cause).hex(), self.seen(text).hex())
        self.assertEqual(tried, set(self.SENT))

    def received(self, port: int, cause: str) -> bytes:
        """All that comes on a connection that ends for a cause."""
        with connect("127.0.0.1", port) as stream:
            stream.settimeout(served_kit.PATIENCE)
            stream.sendall(self.SENT[cause] + (POLL if cause not in ("end of input", "silence") else b""))
            if cause == "end of input":
                stream.shutdown(1)
            return served_kit.received(stream)
