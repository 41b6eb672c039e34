"""deploy/wireshark/dmr_link.lua: tshark dissects packet captures of the charts and examples of docs/LINK.md, in both versions, and of each fault."""
import json
import os
import re
import shutil
import subprocess
import tempfile
import unittest
from collections.abc import Callable, Iterable
from typing import Any, NamedTuple

from temzaar.frames import BYE, DONE, FROM_CARRIER, POLL, Frame, FrameType, active, burst_frame, hello, rx, welcome
from tests import test_link
from tests.packets import Sent, Talk, write_pcap
from tests.support import TOP, read_document, table_rows

DISSECTOR = TOP / "deploy" / "wireshark" / "dmr_link.lua"
WORD = test_link.BURSTS["register 1001"]
# The fields of a frame, by name; a field of several values is a list.
Layer = dict[str, Any]
# What is played on a connection.
Play = Callable[[Talk], None]


def tshark(*words: str) -> str:
    """What tshark prints. SkipTest: there is none. AssertionError: it ends with a fault, or the dissector has one."""
    if not shutil.which("tshark"):
        raise unittest.SkipTest("there is no tshark: `apt-get install tshark` installs it")
    with tempfile.TemporaryDirectory() as home:
        environment = {**os.environ, "HOME": home, "XDG_CONFIG_HOME": home, "LC_ALL": "C.UTF-8"}
        done = subprocess.run(["tshark", *words], capture_output=True, text=True, check=False, timeout=100, env=environment)
    faults = [line for line in done.stderr.splitlines() if line and not line.startswith("Running as user")]
    if done.returncode or faults or "Lua Error" in done.stdout:
        raise AssertionError(f"{faults}\n{done.stdout[:1000]}")
    return done.stdout


def dissect(plays: Iterable[Play], *words: str, port: int = 7101) -> str:
    """What tshark prints of a capture in which each play has a connection of its own, one after another."""
    packets: list[Sent] = []
    for number, play in enumerate(plays):
        own: list[Sent] = []
        talk = Talk(own, port, 40000 + number)
        talk.open(0.0)
        play(talk)
        packets += [Sent(100.0 * number + it.time, it.packet) for it in own]
    with tempfile.NamedTemporaryFile(suffix=".pcap") as file:
        file.write(write_pcap(packets))
        file.flush()
        return tshark("-n", "-X", f"lua_script:{DISSECTOR}", "-r", file.name, *words)


def layers_of(plays: Iterable[Play], *words: str) -> list[list[Layer]]:
    """The frames of each connection, in their order."""
    plays = list(plays)
    found: list[list[Layer]] = [[] for _ in plays]
    for packet in json.loads(dissect(plays, "-T", "json", "--no-duplicate-keys", *words)):
        layers = packet["_source"]["layers"]
        frames = layers.get("dmr_link", [])
        found[int(layers["tcp"]["tcp.stream"])] += frames if isinstance(frames, list) else [frames]
    return found


def experts_in(layer: Layer) -> list[str]:
    """The names of the expert infos of a frame."""
    experts = layer.get("_ws.expert", [])
    return [name for it in (experts if isinstance(experts, list) else [experts]) for name in it if name.startswith("dmr_link.")]


def play_chart(frames: list[Frame], cut: int) -> Play:
    """The frames of a chart; what one side sends before the other answers is cut into segments of `cut` octets."""
    runs: list[tuple[bool, bytes]] = []
    for frame in frames:
        mine = frame.kind in FROM_CARRIER
        if runs and runs[-1][0] == mine:
            runs[-1] = mine, runs[-1][1] + frame.octets()
        else:
            runs.append((mine, frame.octets()))

    def play(talk: Talk) -> None:
        """Sends the segments, a millisecond apart, and closes."""
        time = 0.0
        for mine, octets in runs:
            for place in range(0, len(octets), cut):
                time += 0.001
                (talk.send if mine else talk.answer)(time, octets[place:place + cut])
        talk.close(time + 0.001)

    return play


def say(*pieces: bytes, answers: bytes = b"") -> Play:
    """A carrier sends pieces; the controller answers after the first of them."""
    def play(talk: Talk) -> None:
        """Sends them, a second apart."""
        for number, octets in enumerate(pieces, 1):
            talk.send(number, octets)
            if number == 1 and answers:
                talk.answer(number + 0.5, answers)
    return play


class Dissected(unittest.TestCase):
    """Frames and their fields."""

    def test_charts(self) -> None:
        """The charts of docs/LINK.md, whole, and cut at each octet: each frame is found with its type, and an RX and a TX with their words."""
        cases = [(chart, cut) for chart in test_link.Charts().charts() for cut in (1000, 7, 1)]
        for (chart, cut), layers in zip(cases, layers_of(play_chart(*case) for case in cases), strict=True):
            with self.subTest(version=chart[0].body[0], cut=cut):
                self.assertEqual([int(it["dmr_link.type"], 16) for it in layers], [frame.kind for frame in chart])
                words = [it["dmr_link.word"].replace(":", "") for it in layers if "dmr_link.word" in it]
                self.assertEqual(words, [frame.burst().word.hex() for frame in chart if frame.kind in (FrameType.RX, FrameType.TX)])

    def test_summaries_are_those_of_the_examples(self) -> None:
        rows = [(words, bytes.fromhex(octets)) for words, octets in table_rows(test_link.LINK, "### Examples")]

        def play_example(octets: bytes) -> Play:
            """The frame, after a HELLO of its version, unless it is one."""
            begins = hello(0, 1, 2 if len(octets) == 29 else 1)
            return say(*([] if octets[0] == FrameType.HELLO else [begins]), octets) if octets[0] < 0x80 else say(begins, answers=octets)

        shown = dissect([play_example(octets) for _, octets in rows], "-T", "fields", "-e", "tcp.stream", "-e", "_ws.col.Protocol", "-e", "_ws.col.Info").splitlines()
        last = {line.split("\t")[0]: line.split("\t")[1:] for line in shown}
        self.assertEqual([last[str(number)] for number in range(len(rows))], [["DMR-LINK", words] for words, _ in rows])

    def test_a_port_that_is_used_again(self) -> None:
        """After BYE, and after a connection that fell silent, a HELLO from the same port begins a connection, with a version and numbers of its own."""
        def play(talk: Talk) -> None:
            """Three connections of one port, as their octets pass."""
            for time, octets in ((1, hello(0, 1, 2)), (2, rx(0, WORD, 4)), (3, BYE), (10, hello(0, 1, 1)), (11, rx(0, WORD)), (99, hello(0, 1, 2)), (100, rx(0, WORD, 4))):
                talk.send(time, octets)

        layers = layers_of([play])[0]
        self.assertEqual([(it["dmr_link.type"], it["dmr_link.spoken_version"], experts_in(it)) for it in layers],
                         [("0x01", "2", []), ("0x02", "2", []), ("0x05", "2", []), ("0x01", "1", []), ("0x02", "1", []), ("0x01", "2", []), ("0x02", "2", [])])

    def test_versions_and_numbers(self) -> None:
        first, second, again, sent = layers_of([
            say(hello(3, 9, 1), rx(1, WORD) + POLL, active(1), answers=welcome(1)),
            say(hello(3, 9, 2), rx(1, WORD, 7) + POLL, active(1), answers=welcome(2)),
            say(hello(0, 1, 2), rx(0, WORD, 255), POLL + rx(1, WORD, 255), rx(0, WORD, 0), rx(0, WORD, 255)),
            say(hello(0, 1, 2), answers=welcome(2) + b"".join(burst_frame(FrameType.TX, 0, WORD, number) + DONE for number in (0, 1, 3, 4, 4))),
        ])
        for version, number, layers in (("1", None, first), ("2", "7", second)):
            self.assertEqual([it["dmr_link.type"] for it in layers], ["0x01", "0x81", "0x02", "0x03", "0x04"])
            self.assertEqual({it["dmr_link.spoken_version"] for it in layers}, {version})
            self.assertEqual((layers[0]["dmr_link.carrier"], layers[0]["dmr_link.lpcn"]), ("3", "9"))
            self.assertEqual((layers[2]["dmr_link.slot"], layers[2].get("dmr_link.number"), int(layers[2]["dmr_link.pad"], 16)), ("1", number, 0))
            self.assertEqual([experts_in(it) for it in layers], [[]] * 5)
        # each connection has three packets before its HELLO; the first one has four more, and so has the second
        self.assertEqual(([it["dmr_link.hello_in"] for it in first], {it["dmr_link.hello_in"] for it in second}), (["4"] * 5, {"11"}))
        marked = [(it["dmr_link.number"], it.get("dmr_link.first_in"), experts_in(it)) for it in again if "dmr_link.word" in it]
        self.assertEqual(marked, [("255", None, []), ("255", "19", ["dmr_link.retransmitted"]), ("0", None, []), ("255", None, [])])
        self.assertEqual([(it["dmr_link.number"], it.get("dmr_link.expected_number"), experts_in(it)) for it in sent if "dmr_link.word" in it],
                         [("0", None, []), ("1", None, []), ("3", "2", ["dmr_link.not_next"]), ("4", None, []), ("4", "5", ["dmr_link.not_next"])])


class FaultCase(NamedTuple):
    """A connection, and the expert infos of its frames, by their place."""
    name: str
    play: Play
    experts: dict[int, str]


class Faults(unittest.TestCase):
    """Each fault as an expert info, at the frame that has it; what follows is not read."""

    CASES = (
        FaultCase("an unknown type", say(hello(0, 1), b"\x06\x00", POLL), {1: "unknown_type", 2: "after_fault"}),
        FaultCase("one octet", say(hello(0, 1), b"\x06"), {1: "unknown_type"}),
        FaultCase("a frame of the controller", say(hello(0, 1), DONE), {1: "unknown_type"}),
        FaultCase("a POLL with a body", say(hello(0, 1), POLL + b"\x03\x01"), {2: "bad_length"}),
        FaultCase("an RX of version 2 in version 1", say(hello(0, 1), rx(0, WORD, 1)), {1: "bad_length"}),
        FaultCase("an RX of version 1 in version 2", say(hello(0, 1, 2), rx(0, WORD)), {1: "bad_length"}),
        FaultCase("an ACTIVE of slot 2", say(hello(0, 1), active(2)), {1: "bad_slot"}),
        FaultCase("an RX of slot 2", say(hello(0, 1, 2), rx(2, WORD, 1)), {1: "bad_slot"}),
        FaultCase("a pad", say(hello(0, 1), rx(0, WORD[:-1] + b"\x81"), POLL), {1: "bad_pad", 2: "after_fault"}),
        FaultCase("no HELLO", say(POLL, POLL), {0: "no_hello"}),
        FaultCase("a capture that begins within version 2", say(rx(0, WORD, 1), POLL, answers=burst_frame(FrameType.TX, 0, WORD, 9) + DONE), {0: "no_hello"}),
        FaultCase("a second HELLO", say(hello(0, 1), hello(0, 1), POLL), {1: "second_hello", 2: "after_fault"}),
        FaultCase("version 3", say(hello(0, 1, 3), answers=bytes.fromhex("840101")), {0: "bad_version", 1: "refused"}),
        FaultCase("another WELCOME", say(hello(0, 1, 2), answers=welcome(1)), {1: "other_version"}),
        FaultCase("after BYE", say(hello(0, 1), BYE, POLL), {2: "after_fault"}),
    )

    def test_each(self) -> None:
        for case, layers in zip(self.CASES, layers_of(case.play for case in self.CASES), strict=True):
            with self.subTest(case.name):
                found = {place: experts_in(it) for place, it in enumerate(layers) if experts_in(it)}
                self.assertEqual(found, {place: [f"dmr_link.{name}"] for place, name in case.experts.items()})

    def test_the_second_pass_says_the_same(self) -> None:
        plays = [case.play for case in self.CASES] + [play_chart(test_link.Charts().charts()[1], 7)]
        self.assertEqual(layers_of(plays, "-2"), layers_of(plays))


class Console(unittest.TestCase):
    """The console's lines."""

    def test_lines(self) -> None:
        def play(talk: Talk) -> None:
            """Two lines and their replies, each in two segments."""
            talk.send(0.1, b"sta")
            talk.send(0.2, b"tus\nslots\n")
            talk.answer(0.3, b"status carriers 0\nslot 0 0 con")
            talk.answer(0.4, b"trol\nend\n")

        shown = dissect([play], "-T", "fields", "-e", "dmr_console.request", "-e", "dmr_console.line", "-e", "_ws.col.Info", "-E", "separator=;", port=7100)
        lines = [line.split(";") for line in shown.splitlines() if line.split(";")[1]]
        self.assertEqual(lines, [["1", "status,slots", "> status | slots"], ["0", "status carriers 0", "status carriers 0"],
                                 ["0", "slot 0 0 control,end", "slot 0 0 control | end"]])


class Ports(unittest.TestCase):
    """Ports that the preferences name."""

    def test_another_port(self) -> None:
        def play(talk: Talk) -> None:
            """A HELLO, and frames of either side."""
            say(hello(0, 1), POLL, answers=welcome(1))(talk)

        shown = dissect([play], "-o", "dmr_link.ports:9000-9001", "-Y", "dmr_link", "-T", "fields", "-e", "_ws.col.Info", port=9001)
        self.assertEqual(shown.splitlines(), ["HELLO version=1 carrier=0 lpcn=1", "WELCOME version=1", "POLL"])


class Installed(unittest.TestCase):
    """The folder in which Wireshark looks."""

    def test_the_makefile_has_the_folder_of_this_wireshark(self) -> None:
        folder = re.search(r"^Global Lua Plugins:\s*(\S+)$", tshark("-G", "folders"), re.M)
        assert folder
        rule = "print-plugins:\n\t@echo $(WIRESHARK_PLUGINS)\n"
        made = subprocess.run(["make", "-s", "-f", "Makefile", "-f", "-", "print-plugins", "PREFIX=/usr"], input=rule, capture_output=True, text=True, check=True, cwd=TOP)
        self.assertEqual(made.stdout.strip(), folder[1])
        self.assertIn(folder[1], read_document("LINK.md"))
