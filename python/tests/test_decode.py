"""The output of `dmr_decode`, compared with docs/FORMATS.md; judged by a site file, with docs/LINK.md and with the controller's replay."""
import itertools
import os
import pathlib
import random
import re
import subprocess
import unittest

from temzaar import code, pdus
from temzaar.entries import EVENTS, read_row
from temzaar.frames import FrameType, burst_frame, hello, rx, welcome
from tests import decoded
from tests.support import EXAMPLES, TOP, TWO_CARRIERS, FolderCase, program

EACH = 40
CRATE = TOP / "crates" / "dmr_decode"
# a PDU that is sent, as a judged session and as a decoded replay show it
SENT = re.compile(r"      act: (?:send on|fill) carrier (\d+) slot (\d): (.*)")
CARRIER, TX = re.compile(r"carrier (\d+)"), re.compile(r" *\d+  TX(?: number=\d+)? slot=(\d)")


def heard(name: str, **values: int) -> str:
    """The line of a script with a PDU on the control slot."""
    return f"bytes 0 {rx(0, code.burst_of(pdus.write(name, **values))).hex()}"


# A session of carrier 0 of two: the inputs of its script, and the journal as fields.
FIELDS = (
    ("# a comment is not an input\nopen 0", ""),
    (f"bytes 0 {hello(0, 1, 1).hex()}", "up entry=1 input=2 tick=0 carrier=0\n"),
    ("bytes 0 0300", """\
poll entry=2 input=3 tick=0 carrier=0
fill carrier=0 slot=0 text=C_ALOHA sync=0 version=0 offset=0 active=0 mask=0 function=0 nrand_wait=0 register=1 backoff=1 system=4660 address=0
"""),
    (heard("C_RAND", kind=14, options=1, source=1001, target=0xFFFEC6), """\
heard entry=3 input=4 tick=0 carrier=0 slot=0 text=C_RAND options=1 flags=0 kind=registration target=16776902 source=1001
joined radio=1001
queue carrier=0 slot=0 text=C_ACKD info=0 reason=Reg_Accepted spare=0 target=1001 additional=16776902
"""),
    (heard("C_RAND", kind=14, options=1, source=1002, target=0xFFFEC6), """\
heard entry=4 input=5 tick=0 carrier=0 slot=0 text=C_RAND options=1 flags=0 kind=registration target=16776902 source=1002
joined radio=1002
queue carrier=0 slot=0 text=C_ACKD info=0 reason=Reg_Accepted spare=0 target=1002 additional=16776902
"""),
    ("tick 2", "tick entry=5 input=6 tick=1\ntick entry=6 input=6 tick=2\n"),
    (heard("C_RAND", kind=0, source=1001, target=1002), """\
heard entry=7 input=7 tick=2 carrier=0 slot=0 text=C_RAND options=0 flags=0 kind=individual_voice target=1002 source=1001
asked target=1002 source=1001 attempt=1
queue carrier=0 slot=0 text=C_ACKD info=0 reason=Wait spare=0 target=1001 additional=1002
queue carrier=0 slot=0 text=C_AHOY options=0 group=0 kind=individual_voice called=1002 calling=1001
"""),
    (heard("C_ACKU", reason=0x44, target=1001, additional=1002), """\
heard entry=8 input=8 tick=2 carrier=0 slot=0 text=C_ACKU info=0 reason=MS_Accepted spare=0 target=1001 additional=1002
unasked source=1001
began source=1001 target=1002 carrier=0 slot=1 group=0
queue carrier=0 slot=0 text=PV_GRANT lpcn=1 slot=1 target=1002 source=1001
"""),
    (f"bytes 0 {rx(0, bytes(25)).hex()}040101", "noise entry=9 input=9 tick=2 carrier=0 slot=0\nactive entry=10 input=9 tick=2 carrier=0 slot=1\n"),
    (heard("C_RAND", kind=14, options=1, source=1003, target=0xFFFEC6), """\
heard entry=11 input=10 tick=2 carrier=0 slot=0 text=C_RAND options=1 flags=0 kind=registration target=16776902 source=1003
joined radio=1003
queue carrier=0 slot=0 text=C_ACKD info=0 reason=Reg_Accepted spare=0 target=1003 additional=16776902
"""),
    (heard("C_RAND", kind=1, source=1003, target=91), """\
heard entry=12 input=11 tick=2 carrier=0 slot=0 text=C_RAND options=0 flags=0 kind=talkgroup_voice target=91 source=1003
lined source=1003 target=91 group=1
queue carrier=0 slot=0 text=C_ACKD info=0 reason=Queued_For_Resource spare=0 target=1003 additional=91
"""),
    ("bytes 0 03000300030003000300", """\
poll entry=13 input=12 tick=2 carrier=0
send carrier=0 slot=0 text=C_ACKD info=0 reason=Reg_Accepted spare=0 target=1001 additional=16776902
poll entry=14 input=12 tick=2 carrier=0
send carrier=0 slot=0 text=C_ACKD info=0 reason=Reg_Accepted spare=0 target=1002 additional=16776902
poll entry=15 input=12 tick=2 carrier=0
send carrier=0 slot=0 text=C_ACKD info=0 reason=Wait spare=0 target=1001 additional=1002
poll entry=16 input=12 tick=2 carrier=0
send carrier=0 slot=0 text=C_AHOY options=0 group=0 kind=individual_voice called=1002 calling=1001
poll entry=17 input=12 tick=2 carrier=0
send carrier=0 slot=0 text=PV_GRANT lpcn=1 slot=1 target=1002 source=1001
"""),
    ("say  end 0 1", """\
say entry=18 input=13 tick=2 text=end 0 1
ended carrier=0 slot=1
queue carrier=0 slot=1 text=P_CLEAR lpcn=1 group=0 target=1002 source=16776906
reply text=ok
"""),
    ("bytes 0 0300", """\
poll entry=19 input=14 tick=2 carrier=0
send carrier=0 slot=0 text=C_ACKD info=0 reason=Reg_Accepted spare=0 target=1003 additional=16776902
send carrier=0 slot=1 text=P_CLEAR lpcn=1 group=0 target=1002 source=16776906
"""),
    ("tick", """\
tick entry=20 input=15 tick=3
unlined source=1003
began source=1003 target=91 carrier=0 slot=1 group=1
queue carrier=0 slot=0 text=TV_GRANT lpcn=1 slot=1 late=0 target=91 source=1003
"""),
    ("say drop 1001\nsay radios 0", """\
say entry=21 input=16 tick=3 text=drop 1001
left radio=1001
reply text=ok
say entry=22 input=17 tick=3 text=radios 0
reply text=radio 1002
reply text=radio 1003
reply text=end
"""),
    ("cut 0", "lost entry=23 input=18 tick=3 carrier=0\n"),
)


class Stored(unittest.TestCase):
    """The stored run of the crate is what is worked out here."""

    def test_stored_run(self) -> None:
        for name, text in zip(("data/site.toml", "stdin", "stdout"), (decoded.stored_site(), *decoded.stored_run()), strict=True):
            self.assertEqual((CRATE / name).read_text(encoding="utf-8"), text)


class Program(unittest.TestCase):
    """The program, asked."""

    def setUp(self) -> None:
        self.program, self.draws = program("dmr_decode"), random.Random(1)

    def expect(self, words: list[str], text: str, wanted: str) -> None:
        """The program, with these words and this input, prints the expected text."""
        done = subprocess.run([self.program, *words], input=text, capture_output=True, text=True, check=False)
        self.assertEqual(done.stdout.split("\n"), wanted.split("\n"), f"{words} {done.stderr}")

    def test_traffic_of_all_pdus(self) -> None:
        traffic = decoded.make_traffic(self.draws, EACH)
        self.expect(["script"], traffic.script, decoded.script_text(traffic.script, traffic.known))

    def test_example_scripts(self) -> None:
        for path in sorted((EXAMPLES / "scripts").glob("*.txt")):
            text = path.read_text(encoding="utf-8")
            self.expect(["script"], text, decoded.script_text(text, {}))

    def test_a_printed_replay(self) -> None:
        text = (TOP / "crates" / "dmr_trunk" / "stdout").read_text(encoding="utf-8")
        self.expect(["replay"], text, decoded.replay_text(text, {}))

    def test_a_replay_of_version_2(self) -> None:
        traffic = decoded.make_traffic(self.draws, 1)
        octets = welcome(2)
        for number, burst in enumerate(list(traffic.known)[:10]):
            octets += burst_frame(FrameType.TX, self.draws.randrange(2), burst, number) + b"\x83\0"
        text = f"carrier 0 {octets.hex().upper()}\n"
        self.expect(["replay"], text, decoded.replay_text(text, traffic.known))

    def test_pdus_in_words(self) -> None:
        for name in pdus.LAYOUTS:
            octets = decoded.random_pdu(name, self.draws)
            words = pdus.read(octets).in_words(octets)
            wanted = f"octets {octets.hex().upper()}\ncheck {code.check_of(octets).hex().upper()}\nburst {code.burst_of(octets).hex().upper()}\n"
            self.expect(["write", *words.split(" ")], "", wanted)
            self.expect(["pdu", octets.hex()], "", f"      {words}\n")


class Judged(FolderCase):
    """The program, asked what the controller of a site makes of its input."""

    def setUp(self) -> None:
        super().setUp()
        self.program, self.draws = program("dmr_decode"), random.Random(1)

    def ask(self, *words: str, text: str = "", **options: object) -> subprocess.CompletedProcess[str]:
        """The program's answer to these words and this input."""
        return subprocess.run([self.program, *words], **{"input": text, "capture_output": True, "text": True, "check": False, **options})  # type: ignore[call-overload,no-any-return]

    def judge(self, script: str, site: str = TWO_CARRIERS) -> str:
        """The judged script."""
        done = self.ask("script", "--site", site, text=script)
        self.assertEqual((done.returncode, done.stderr), (0, ""))
        return done.stdout

    def judge_octets(self, octets: bytes) -> list[str]:
        """The judged lines of a connection."""
        done = self.ask("carrier", "--site", TWO_CARRIERS, octets.hex())
        self.assertEqual((done.returncode, done.stderr), (0, ""))
        return done.stdout.split("\n")[:-1]

    def test_the_stored_run(self) -> None:
        script, printed = decoded.stored_run()
        self.assertEqual(self.judge(script, str(CRATE / "data" / "site.toml")).split("\n"), printed.split("\n"))

    def test_a_connection(self) -> None:
        begins = "port of carrier {} -> counted: a connection begins"
        wrong = "ended: link fault: WrongCarrier, another carrier or channel than the port's (carrier {}, LPCN {} came; carrier {}, LPCN {} expected)"
        rest = "   6  1 octets of a frame that isn't whole -> ignored: more octets must come"
        self.assertEqual(
            self.judge_octets(hello(1, 2, 1) + b"\3"),
            [begins.format(1), "   0  HELLO version=1 carrier=1 lpcn=2 -> counted: carrier 1 is up", rest],
        )
        self.assertEqual(
            self.judge_octets(hello(1, 1, 1)), [begins.format(1), "   0  HELLO version=1 carrier=1 lpcn=1 -> refused and " + wrong.format(1, 1, 1, 2)]
        )
        self.assertEqual(
            self.judge_octets(hello(9, 1, 1) + b"\3\0"),
            [
                begins.format(0),
                "   0  HELLO version=1 carrier=9 lpcn=1 -> refused and " + wrong.format(9, 1, 0, 1),
                "   6  2 octets after the end -> ignored: no connection is open",
            ],
        )
        self.assertEqual(
            self.judge_octets(hello(0, 1, 2))[1],
            "   0  HELLO version=2 carrier=0 lpcn=1 -> refused and ended: link fault: BadVersion, a version of the link that is not served (version 2 came)",
        )

    def test_what_is_sent(self) -> None:
        """Judged scripts send the PDUs that the controller's replay sends, and have its replies."""
        scripts = [path.read_text(encoding="utf-8") for path in sorted((EXAMPLES / "scripts").glob("*.txt"))]
        for script in (*scripts, decoded.make_traffic(self.draws, EACH).script.partition("open 1")[0]):
            judged = self.judge(script).split("\n")
            sent: dict[str, list[tuple[str, str]]] = {"0": [], "1": []}
            for match in filter(None, map(SENT.fullmatch, judged)):
                sent[match[1]].append((match[2], match[3]))
            path = self.write("script.txt", script)
            words = [program("dmr_trunk"), "--site", TWO_CARRIERS, "--script", path]
            replay = subprocess.run(words, capture_output=True, text=True, check=True).stdout
            lines = self.ask("replay", text=replay).stdout.split("\n")
            wanted: dict[str, list[tuple[str, str]]] = {}
            of: list[tuple[str, str]] = []
            for number, line in enumerate(lines):
                if match := CARRIER.fullmatch(line):
                    of = wanted.setdefault(match[1], [])
                elif match := TX.fullmatch(line):
                    of.append((match[1], lines[number + 1].strip()))
            self.assertEqual(sent, wanted)
            replies = [line.removeprefix("      reply: ") for line in judged if line.startswith("      reply: ")]
            self.assertEqual(replies, [line for line in replay.split("\n")[2:] if line])

    def test_a_journal(self) -> None:
        """A session that was worked out by hand: what is an event of the site, and what is not."""
        comes_up = f"bytes 0 {hello(0, 1, 1).hex()}"
        script = [
            "# nothing", "open 7", "open 0", comes_up, "open 1", f"bytes 1 {hello(1, 2, 1).hex()}", f"bytes 0 {rx(0, bytes(25)).hex()}", "bytes 0 040101",
            "tick 2", "bytes 1 03", "bytes 1 000300", "say stay", "say what", "cut 0", "cut 0",
        ]
        entries = [
            "carrier 0 is up", "carrier 1 is up", "noise on carrier 0 slot 0", "activity on carrier 0 slot 1", "a tick", "a tick", "carrier 1 polls", "carrier 1 polls",
            "say stay", "      reply: ok", "carrier 0 is lost",
        ]
        # a connection that follows one which has not ended ends it, and one without a HELLO is none to the site
        script += ["open 0", comes_up, "open 0", "bytes 0 0300", comes_up]
        entries += ["carrier 0 is up", "carrier 0 is lost"]
        number = itertools.count(1)
        wanted = "".join(f"{line}\n" if line.startswith(" ") else f"entry {next(number)}: {line}\n" for line in entries)
        self.assertEqual(self.ask("journal", "--site", TWO_CARRIERS, text="\n".join([*script, ""])).stdout, wanted)

    def test_journals_of_examples(self) -> None:
        """A journal has the acts and replies that the judged script has, in their order. A line that means no command is not an event."""
        for path in sorted((EXAMPLES / "scripts").glob("*.txt")):
            script = path.read_text(encoding="utf-8")
            answers = [line for line in self.judge(script).split("\n") if line.startswith(("      act: ", "      reply: "))]
            journal = self.ask("journal", "--site", TWO_CARRIERS, text=script).stdout.splitlines()
            for kind in (" act: ", " reply: "):
                self.assertEqual([it for it in journal if kind in it], [it for it in answers if kind in it and "error unknown command" not in it])

    def test_a_journal_as_fields(self) -> None:
        """A session that was worked out by hand, with each kind of event and act."""
        script = "".join(f"{given}\n" for given, _ in FIELDS)
        self.assertEqual(self.ask("journal", "--fields", "--site", TWO_CARRIERS, text=script).stdout, "".join(printed for _, printed in FIELDS))

    def test_journals_as_fields_of_examples(self) -> None:
        """They have the entries that the journals in words have, and a line for each of their lines."""
        for path in sorted((EXAMPLES / "scripts").glob("*.txt")):
            script = path.read_text(encoding="utf-8")
            words, fields = (self.ask("journal", *more, "--site", TWO_CARRIERS, text=script).stdout.splitlines() for more in ([], ["--fields"]))
            self.assertEqual([("entry" if it.startswith("entry ") else it.split(": ")[0].strip()) for it in words],
                             [("reply" if kind == "reply" else "entry" if kind in EVENTS else "act") for kind in (read_row(it).kind for it in fields)])

    def test_no_room(self) -> None:
        """With 57 PDUs that wait for the control slot, requests and answers are ignored."""
        asks = pdus.write("C_RAND", kind=14, options=1, source=2001, target=0xFFFEC6)
        answers = pdus.write("C_ACKU", reason=0x44, target=1001, additional=1002)
        lines = [f"bytes 0 021A00{code.burst_of(octets).hex()}" for octets in (*[asks] * 58, answers)]
        judged = self.judge("\n".join(["open 0", f"bytes 0 {hello(0, 1, 1).hex()}", *lines, ""]))
        self.assertEqual(judged.count("RX slot=0 -> counted\n"), 57)
        self.assertEqual(judged.count("RX slot=0 -> ignored: too many PDUs wait for the control slot\n"), 2)

    def test_faulty_lines(self) -> None:
        """The first line that is none ends the judgement, with the controller's message."""
        for line in (b"tick x", b"tick\r", b"open 16", b" tick", b"bytes 0", b"say"):
            with self.subTest(line):
                words = [self.program, "script", "--site", TWO_CARRIERS]
                done = subprocess.run(words, input=b"# a comment\n\n%s\nopen 77\n" % line, capture_output=True, check=False)
                self.assertEqual((done.returncode, done.stderr), (1, b"dmr_decode: script line 3\n"))
                self.assertEqual(done.stdout, b"# a comment\n\n%s -> fault: not a line of a script\n" % line.replace(b"\r", rb"\x0d"))
        done = self.ask("journal", "--site", TWO_CARRIERS, text="tick\ntick x\ntick\n")
        self.assertEqual((done.returncode, done.stdout, done.stderr), (1, "entry 1: a tick\n", "dmr_decode: script line 2\n"))

    def test_control_characters(self) -> None:
        """Lines and words of the input are shown without what commands a terminal."""
        hostile, shown = "\x1b]0;owned\x07\x9b2J\x7f\t\u00e9", r"\x1b]0;owned\x07\x9b2J\x7f\x09" + "\u00e9"
        for text, words, wanted in (
            (f"{hostile}\n", ["script"], f"{shown}\n"), (f"{hostile}\n", ["replay"], f"{shown}\n"), ("carrier \x1b[2J -\n", ["replay"], "carrier \\x1b[2J\n"),
            (f"# {hostile}\n", ["script", "--site", TWO_CARRIERS], f"# {shown}\n"), (f"say {hostile}\n", ["script", "--site", TWO_CARRIERS], f"say {shown} -> read\n"),
            (f"{hostile}\n", ["script", "--site", TWO_CARRIERS], f"{shown} -> fault: not a line of a script\n"),
        ):
            with self.subTest(text, words=words):
                self.assertEqual(self.ask(*words, text=text).stdout.split("      ")[0], wanted)
        for words in (["write", hostile.replace("\t", "")], ["write", "C_RAND", hostile.replace("\t", "")]):
            self.assertEqual(self.ask(*words).stderr.rpartition(": ")[2].rpartition("called ")[2], shown.replace(r"\x09", "") + "\n")

    def test_site_files(self) -> None:
        """Faults of the site file are the controller's."""
        site, script = self.folder / "site.toml", self.write("script.txt", "")
        whole = pathlib.Path(TWO_CARRIERS).read_text(encoding="utf-8")
        for text in (None, "", "[", "\xff", whole.replace("control = 0", "control = 5"), whole.replace("lpcn = 2", "lpcn = 5000")):
            if text is not None:
                site.write_text(text, encoding="latin-1")
            wanted = subprocess.run([program("dmr_trunk"), "--site", site, "--script", script], capture_output=True, text=True, check=False)
            done = self.ask("script", "--site", str(site))
            self.assertEqual((done.returncode, done.stdout, done.stderr), (1, "", wanted.stderr.replace("dmr_trunk:", "dmr_decode:")))
            self.assertEqual(wanted.returncode, 1)

    def test_words(self) -> None:
        """A site is for three tasks, one of which has to have it, and has a path."""
        for words in (["script", "--site"], ["journal"], ["journal", "--site"], ["word", "--site", TWO_CARRIERS, "00"], ["write", "--site", TWO_CARRIERS, "C_RAND"], ["--site", TWO_CARRIERS]):
            with self.subTest(words):
                done = self.ask(*words)
                self.assertEqual((done.returncode, done.stdout), (2, ""))
                self.assertIn("dmr_decode script --site site.toml", done.stderr)

    @unittest.skipUnless(os.path.exists("/dev/full"), "there is no /dev/full")
    def test_a_full_disk(self) -> None:
        """If standard output does not take the text, that is a message."""
        script = (EXAMPLES / "scripts" / "lost_carrier.txt").read_text(encoding="utf-8")
        for words in (["--help"], ["script"], ["script", "--site", TWO_CARRIERS], ["carrier", "0300"], ["carrier", "--site", TWO_CARRIERS, "0300"], ["write", "C_RAND"]):
            with self.subTest(words), open("/dev/full", "w", encoding="utf-8") as full:
                done = self.ask(*words, text=script * 9 if words == ["script"] else script, capture_output=False, stdout=full, stderr=subprocess.PIPE)
                self.assertEqual((done.returncode, done.stderr), (1, "dmr_decode: cannot write\n"))

    def test_the_example_of_the_help(self) -> None:
        """The PDU that help and manual page show registers a radio at a site with `leave_bit`."""
        page = (TOP / "deploy" / "man" / "dmr_decode.1.md").read_text(encoding="utf-8")
        for text in (self.ask("--help").stdout, page):
            shown = re.search(r"^ +dmr_decode (write C_RAND .*)$", text, re.M)
            assert shown
            burst = self.ask(*shown[1].split(" ")).stdout.split("burst ")[1].strip()
            self.assertIn("act: radio 1001 is registered\n", self.judge(f"open 0\nbytes 0 {hello(0, 1, 1).hex()}\nbytes 0 021A00{burst}\n"))
